//! Times `network::compile` and `pacer::Run` beside the same in plain Rust, on the same full jobs, in one process.
//! Both are called alike: rows are made of the handed bounds once, compiled several times, and the tables written out once.
//! For a run they are compiled once, and the run is opened and its cues performed several times.

mod jobs;
mod pace;
mod peer;

use jobs::{Job, PlainBound, PlainCue, STEPS};
use pace::Run;
use peer::{GroupEntry, Kind, Link, LooseEnd, Row, Rows};
use std::hint::black_box;
use std::time::Instant;

/// Compilations in one call, and calls of each side.
const TIMES: u32 = 8;
const CALLS: usize = 400;

/// Runs in one call that are timed, and calls of each side.
const RUNS: u32 = 200;
const RUN_CALLS: usize = 50;

const MOST_LINKS: usize = STEPS * (STEPS - 1);

#[repr(C)]
#[derive(Clone, Copy, PartialEq, Eq, Debug, Default)]
struct PlainGroup {
    leader: u8,
    offset: u32,
}

#[repr(C)]
#[derive(Clone, Copy, PartialEq, Eq, Debug, Default)]
struct PlainLink {
    trigger: u8,
    target: u8,
    least: bool,
    seconds: u32,
}

#[repr(C)]
#[derive(Clone, Copy, PartialEq, Eq, Debug)]
struct Outcome {
    refusal: u8,
    groups: usize,
    links: usize,
}

#[link(name = "bench", kind = "static")]
unsafe extern "C" {
    fn nalthwig_compile(
        steps: u16,
        bounds: *const PlainBound,
        bounds_len: usize,
        again: u32,
        distances: *mut i32,
        distances_len: usize,
        groups: *mut PlainGroup,
        groups_len: usize,
        links: *mut PlainLink,
        links_len: usize,
    ) -> Outcome;

    fn nalthwig_pace(
        steps: u16,
        bounds: *const PlainBound,
        bounds_len: usize,
        cues: *const PlainCue,
        cues_len: usize,
        again: u32,
    ) -> u32;
}

const NO_GROUP: GroupEntry = GroupEntry {
    leader: 0,
    offset: 0,
};

const NO_LINK: Link = Link {
    trigger: 0,
    target: 0,
    kind: Kind::Most,
    seconds: 0,
};

#[derive(Clone, PartialEq)]
struct Tables {
    distances: Vec<i32>,
    groups: Vec<PlainGroup>,
    links: Vec<PlainLink>,
}

impl Tables {
    fn new() -> Tables {
        Tables {
            distances: vec![0; STEPS * STEPS],
            groups: vec![PlainGroup::default(); STEPS],
            links: vec![PlainLink::default(); MOST_LINKS],
        }
    }
}

fn rattle(bounds: &[PlainBound], tables: &mut Tables) -> Outcome {
    let Tables {
        distances,
        groups,
        links,
    } = tables;
    // Each slice crosses as a pointer and its length.
    unsafe {
        nalthwig_compile(
            STEPS as u16,
            bounds.as_ptr(),
            bounds.len(),
            TIMES - 1,
            distances.as_mut_ptr(),
            distances.len(),
            groups.as_mut_ptr(),
            groups.len(),
            links.as_mut_ptr(),
            links.len(),
        )
    }
}

fn rows_of(bounds: &[PlainBound]) -> Vec<Row> {
    let end = |present, value| LooseEnd { present, value };
    bounds
        .iter()
        .map(|bound| Row {
            from: bound.from,
            to: bound.to,
            lower: end(bound.lower.present, bound.lower.value),
            upper: end(bound.upper.present, bound.upper.value),
        })
        .collect()
}

fn rust(bounds: &[PlainBound], tables: &mut Tables) -> Outcome {
    let rows = rows_of(bounds);
    let source = Rows {
        steps: STEPS as u16,
        rows: &rows,
    };
    // As on the other side, the lengths of the tables are not known where this is compiled.
    let n = black_box(STEPS);
    let mut group_slots = [NO_GROUP; STEPS];
    let mut link_slots = [NO_LINK; MOST_LINKS];
    let groups = &mut group_slots[..n];
    let links = &mut link_slots[..n * (n - 1)];
    for _ in 1..TIMES {
        let _ = black_box(peer::compile(
            black_box(&source),
            &mut tables.distances,
            groups,
            links,
        ));
    }
    let Ok(compiled) = peer::compile(black_box(&source), &mut tables.distances, groups, links)
    else {
        return Outcome {
            refusal: 9,
            groups: 0,
            links: 0,
        };
    };
    for (out, entry) in tables.groups.iter_mut().zip(groups.iter()) {
        *out = PlainGroup {
            leader: entry.leader,
            offset: entry.offset,
        };
    }
    for (out, link) in tables.links.iter_mut().zip(&links[..compiled.links]) {
        *out = PlainLink {
            trigger: link.trigger,
            target: link.target,
            least: link.kind == Kind::Least,
            seconds: link.seconds,
        };
    }
    Outcome {
        refusal: 0,
        groups: compiled.groups,
        links: compiled.links,
    }
}

/// The microseconds of one compilation.
fn timed(
    call: fn(&[PlainBound], &mut Tables) -> Outcome,
    bounds: &[PlainBound],
    tables: &mut Tables,
) -> (f64, Outcome) {
    let start = Instant::now();
    let outcome = call(black_box(bounds), tables);
    (start.elapsed().as_secs_f64() * 1e6 / TIMES as f64, outcome)
}

fn rattle_pace(bounds: &[PlainBound], cues: &[PlainCue], again: u32) -> u32 {
    // Each slice crosses as a pointer and its length.
    unsafe {
        nalthwig_pace(
            STEPS as u16,
            bounds.as_ptr(),
            bounds.len(),
            cues.as_ptr(),
            cues.len(),
            again,
        )
    }
}

fn rust_pace(bounds: &[PlainBound], cues: &[PlainCue], again: u32) -> u32 {
    let rows = rows_of(bounds);
    let source = Rows {
        steps: STEPS as u16,
        rows: &rows,
    };
    let mut distances = [0; STEPS * STEPS];
    let mut groups = [NO_GROUP; STEPS];
    let mut links = [NO_LINK; MOST_LINKS];
    let Ok(compiled) = peer::compile(black_box(&source), &mut distances, &mut groups, &mut links)
    else {
        return 0;
    };
    for _ in 0..again {
        black_box(run_of(compiled.links, black_box(&groups), &links, cues));
    }
    run_of(compiled.links, &groups, &links, cues)
}

/// How many of the cues a new run takes.
fn run_of(count: usize, groups: &[GroupEntry], links: &[Link], cues: &[PlainCue]) -> u32 {
    let Ok(mut run) = Run::open(STEPS as u16, count, groups, links) else {
        return 0;
    };
    cues.iter()
        .filter(|cue| run.cue(cue.step, cue.time).is_ok())
        .count() as u32
}

type Pace = fn(&[PlainBound], &[PlainCue], u32) -> u32;

/// The microseconds of a call with so many runs more than one, and how many cues its last run took.
fn timed_pace(call: Pace, bounds: &[PlainBound], cues: &[PlainCue], again: u32) -> (f64, u32) {
    let start = Instant::now();
    let taken = call(black_box(bounds), black_box(cues), again);
    (start.elapsed().as_secs_f64() * 1e6, taken)
}

/// The least and the middle of the times.
fn best_and_median(mut times: Vec<f64>) -> (f64, f64) {
    times.sort_by(f64::total_cmp);
    (times[0], times[times.len() / 2])
}

fn main() {
    compilations();
    println!();
    cues();
}

/// Prints the best and the median time of both sides, and the ratios of the two.
fn print_times(ours: (f64, f64), theirs: (f64, f64), places: usize) {
    println!(
        "{:>9.places$}{:>9.places$}{:>9.places$}{:>9.places$}{:>8.2}{:>8.2}",
        ours.0,
        ours.1,
        theirs.0,
        theirs.1,
        ours.0 / theirs.0,
        ours.1 / theirs.1
    );
}

/// One cue of each job: what a call with many runs takes beyond a call with one, by runs and cues.
fn cues() {
    println!(
        "one cue of a run, opening included, in microseconds: best and median of {RUN_CALLS} calls of {RUNS} runs"
    );
    println!(
        "{:<8}{:>7}{:>7}  {:>18}{:>18}{:>16}",
        "cue", "cues", "taken", "Rattle", "Rust", "ratio"
    );
    for job in jobs::all() {
        let cues = job.cues();
        let mut taken = None;
        let mut sides = [
            (rattle_pace as Pace, Vec::new(), Vec::new()),
            (rust_pace as Pace, Vec::new(), Vec::new()),
        ];
        for _ in 0..RUN_CALLS {
            for (call, one_run, more_runs) in &mut sides {
                for (times, again) in [(one_run, 0), (more_runs, RUNS)] {
                    let (time, last) = timed_pace(*call, &job.bounds, &cues, again);
                    times.push(time);
                    let first = *taken.get_or_insert(last);
                    if last != first || first == 0 {
                        println!("{}: the two differ, or none is taken", job.name);
                        std::process::exit(1);
                    }
                }
            }
        }
        print!(
            "{:<8}{:>7}{:>7}  ",
            job.name,
            cues.len(),
            taken.unwrap_or(0)
        );
        let all = RUNS as f64 * cues.len() as f64;
        let [ours, theirs] = sides.map(|(_, one_run, more_runs)| {
            let (one, more) = (best_and_median(one_run), best_and_median(more_runs));
            ((more.0 - one.0) / all, (more.1 - one.1) / all)
        });
        print_times(ours, theirs, 3);
    }
}

/// One compilation of each job.
fn compilations() {
    println!(
        "one compilation of 64 steps and 512 bounds, in microseconds: best and median of {CALLS} calls"
    );
    println!(
        "{:<8}{:>7}{:>7}  {:>18}{:>18}{:>16}",
        "job", "groups", "links", "Rattle", "Rust", "ratio"
    );
    for Job { name, bounds, .. } in jobs::all() {
        let (mut ours, mut theirs) = (Tables::new(), Tables::new());
        let (mut our_times, mut their_times) = (Vec::new(), Vec::new());
        for _ in 0..CALLS {
            let (time, outcome) = timed(rattle, &bounds, &mut ours);
            our_times.push(time);
            let (time, peers) = timed(rust, &bounds, &mut theirs);
            their_times.push(time);
            if outcome.refusal != 0 || outcome != peers || ours != theirs {
                println!("{name}: the two differ, or the job was refused: {outcome:?}, {peers:?}");
                std::process::exit(1);
            }
            if our_times.len() == CALLS {
                print!("{:<8}{:>7}{:>7}  ", name, outcome.groups, outcome.links);
            }
        }
        print_times(best_and_median(our_times), best_and_median(their_times), 1);
    }
}
