//! Full jobs that have a timetable, the same in every run: bounds drawn around a hidden timetable.

const HORIZON: u32 = 1_000_000;
pub const STEPS: usize = 64;
const BOUNDS: usize = 512;

#[repr(C)]
#[derive(Clone, Copy)]
pub struct PlainEnd {
    pub present: bool,
    pub value: i32,
}

#[repr(C)]
#[derive(Clone, Copy)]
pub struct PlainBound {
    pub from: u16,
    pub to: u16,
    pub lower: PlainEnd,
    pub upper: PlainEnd,
}

/// A fixed row of numbers that look random.
struct Dice(u64);

impl Dice {
    fn below(&mut self, limit: u32) -> u32 {
        self.0 ^= self.0 << 13;
        self.0 ^= self.0 >> 7;
        self.0 ^= self.0 << 17;
        (self.0 >> 20) as u32 % limit
    }
}

#[repr(C)]
#[derive(Clone, Copy)]
pub struct PlainCue {
    pub step: u16,
    pub time: u32,
}

/// The bounds of a job and the hidden timetable that they keep.
pub struct Job {
    pub name: &'static str,
    pub bounds: Vec<PlainBound>,
    times: Vec<i32>,
}

impl Job {
    /// The steps in the order of the timetable, but for step 0, which is cued where a run opens.
    pub fn cues(&self) -> Vec<PlainCue> {
        let mut cues: Vec<PlainCue> = (1..STEPS)
            .map(|step| PlainCue {
                step: step as u16,
                time: self.times[step] as u32,
            })
            .collect();
        cues.sort_by_key(|cue| cue.time);
        cues
    }
}

/// Each job by its name.
pub fn all() -> [Job; 4] {
    [
        ("loose", loose()),
        ("star", star()),
        ("chain", chain()),
        ("rigid", rigid()),
    ]
    .map(|(name, (times, bounds))| Job {
        name,
        bounds,
        times,
    })
}

/// A time for each step: 0 for step 0.
fn timetable(dice: &mut Dice) -> Vec<i32> {
    (0..STEPS)
        .map(|step| {
            if step == 0 {
                0
            } else {
                dice.below(HORIZON) as i32
            }
        })
        .collect()
}

/// A bound that the times keep, with so many seconds to spare below and above.
fn around(times: &[i32], from: usize, to: usize, below: u32, above: u32) -> PlainBound {
    let gap = times[to] - times[from];
    let end = |value: i32| {
        if value.unsigned_abs() <= HORIZON {
            PlainEnd {
                present: true,
                value,
            }
        } else {
            PlainEnd {
                present: false,
                value: 0,
            }
        }
    };
    PlainBound {
        from: from as u16,
        to: to as u16,
        lower: end(gap - below as i32),
        upper: end(gap + above as i32),
    }
}

/// Any two steps, with up to a tenth of the horizon to spare.
fn loose() -> (Vec<i32>, Vec<PlainBound>) {
    let mut dice = Dice(0x9E37_79B9_7F4A_7C15);
    let times = timetable(&mut dice);
    let bounds = (0..BOUNDS)
        .map(|_| {
            let from = dice.below(STEPS as u32) as usize;
            let to = (from + 1 + dice.below(STEPS as u32 - 1) as usize) % STEPS;
            around(
                &times,
                from,
                to,
                dice.below(HORIZON / 10),
                dice.below(HORIZON / 10),
            )
        })
        .collect();
    (times, bounds)
}

/// Every step beside the latest one: a way through a later step dominates nothing.
fn star() -> (Vec<i32>, Vec<PlainBound>) {
    let mut dice = Dice(0xD1B5_4A32_D192_ED03);
    let mut times = timetable(&mut dice);
    times[STEPS - 1] = HORIZON as i32;
    let bounds = (0..BOUNDS)
        .map(|place| {
            around(
                &times,
                place % (STEPS - 1),
                STEPS - 1,
                dice.below(10_000),
                dice.below(10_000),
            )
        })
        .collect();
    (times, bounds)
}

/// Each step soon after the one before it: most pairs are dominated by a step between them.
fn chain() -> (Vec<i32>, Vec<PlainBound>) {
    let mut dice = Dice(0x2545_F491_4F6C_DD1D);
    let mut times = timetable(&mut dice);
    times.sort();
    let bounds = (0..BOUNDS)
        .map(|place| {
            let from = place % (STEPS - 1);
            around(&times, from, from + 1, dice.below(1_000), dice.below(1_000))
        })
        .collect();
    (times, bounds)
}

/// Steps in fours that cannot move against each other, and loose bounds between any two.
fn rigid() -> (Vec<i32>, Vec<PlainBound>) {
    let mut dice = Dice(0xA076_1D64_78BD_642F);
    let times = timetable(&mut dice);
    let bounds = (0..BOUNDS)
        .map(|place| {
            if place < STEPS {
                return around(&times, place / 4 * 4, place, 0, 0);
            }
            let from = dice.below(STEPS as u32) as usize;
            let to = (from + 1 + dice.below(STEPS as u32 - 1) as usize) % STEPS;
            around(
                &times,
                from,
                to,
                dice.below(HORIZON / 10),
                dice.below(HORIZON / 10),
            )
        })
        .collect();
    (times, bounds)
}
