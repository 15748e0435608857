//! The run of a job in plain Rust: the same rules and the same steps, with nothing proved.

use crate::peer::{GroupEntry, HORIZON, Kind, Link, MOST_STEPS};
use std::ops::Range;

const LAST: u32 = HORIZON as u32;

#[derive(Clone, Copy)]
enum Group {
    Open { lower: u64, upper: u32 },
    Fixed { time: u32 },
}

impl Group {
    fn is_open(self) -> bool {
        matches!(self, Group::Open { .. })
    }

    fn lower_end(self, offset: u32) -> u64 {
        match self {
            Group::Open { lower, .. } => lower,
            Group::Fixed { time } => time as u64 + offset as u64,
        }
    }

    fn upper_end(self, offset: u32) -> u64 {
        match self {
            Group::Open { upper: end, .. } | Group::Fixed { time: end } => {
                end as u64 + offset as u64
            }
        }
    }
}

#[derive(Clone, Copy, PartialEq, Eq, Debug)]
pub enum OpenRefusal {
    Limits,
    Tables,
}

#[derive(Clone, Copy, PartialEq, Eq, Debug)]
pub enum CueRefusal {
    NoSuchStep,
    Cued,
    Past,
    Late,
    NotReady,
    Early,
}

pub struct Run<'a> {
    entries: &'a [GroupEntry],
    links: &'a [Link],
    /// Where the links of a trigger stand.
    spans: [Range<usize>; MOST_STEPS],
    groups: [Group; MOST_STEPS],
    cues: [Option<u32>; MOST_STEPS],
    /// How many least links onto a group have an open trigger.
    waits: [usize; MOST_STEPS],
    now: u32,
}

impl<'a> Run<'a> {
    /// Opens a run of so many steps and links over the two tables, with step 0 cued at 0.
    pub fn open(
        steps: u16,
        count: usize,
        entries: &'a [GroupEntry],
        links: &'a [Link],
    ) -> Result<Run<'a>, OpenRefusal> {
        let n = steps as usize;
        if n == 0 || n > MOST_STEPS {
            return Err(OpenRefusal::Limits);
        }
        let entries = entries.get(..n).ok_or(OpenRefusal::Tables)?;
        let links = links.get(..count).ok_or(OpenRefusal::Tables)?;
        let leads_itself = |step: u8| {
            entries
                .get(step as usize)
                .is_some_and(|entry| entry.leader == step && entry.offset == 0)
        };
        let entries_fit = entries
            .iter()
            .all(|entry| leads_itself(entry.leader) && entry.offset <= LAST);
        let links_fit = links.iter().all(|link| {
            leads_itself(link.trigger) && leads_itself(link.target) && link.seconds <= LAST
        });
        if !leads_itself(0) || !entries_fit || !links_fit {
            return Err(OpenRefusal::Tables);
        }
        let mut run = Run {
            entries,
            links,
            spans: [const { 0..0 }; MOST_STEPS],
            groups: [Group::Open {
                lower: 0,
                upper: LAST,
            }; MOST_STEPS],
            cues: [None; MOST_STEPS],
            waits: [0; MOST_STEPS],
            now: 0,
        };
        for (place, link) in links.iter().enumerate() {
            let span = &mut run.spans[link.trigger as usize];
            if span.start == span.end {
                span.start = place;
            }
            span.end = place + 1;
            if link.kind == Kind::Least {
                run.waits[link.target as usize] += 1;
            }
        }
        run.fix(0, 0);
        run.cues[0] = Some(0);
        Ok(run)
    }

    /// Records that a step starts at a time.
    pub fn cue(&mut self, step: u16, time: u32) -> Result<(), CueRefusal> {
        let step = step as usize;
        if step >= self.entries.len() {
            return Err(CueRefusal::NoSuchStep);
        }
        if self.cues[step].is_some() {
            return Err(CueRefusal::Cued);
        }
        if time < self.now {
            return Err(CueRefusal::Past);
        }
        if self.is_overdue(time) {
            return Err(CueRefusal::Late);
        }
        let GroupEntry { leader, offset } = self.entries[step];
        let leader = leader as usize;
        let group = self.groups[leader];
        if group.is_open() && (offset > 0 || self.waits[leader] > 0) {
            return Err(CueRefusal::NotReady);
        }
        if (time as u64) < group.lower_end(offset) {
            return Err(CueRefusal::Early);
        }
        if group.is_open() {
            self.fix(leader, time);
        }
        self.cues[step] = Some(time);
        self.now = time;
        Ok(())
    }

    /// Whether the time is after the upper end of some uncued step.
    fn is_overdue(&self, time: u32) -> bool {
        self.entries.iter().zip(&self.cues).any(|(entry, cue)| {
            cue.is_none()
                && self.groups[entry.leader as usize].upper_end(entry.offset) < time as u64
        })
    }

    /// Fixes the group of a leader, and applies the links that it triggers.
    fn fix(&mut self, leader: usize, time: u32) {
        self.groups[leader] = Group::Fixed { time };
        for link in &self.links[self.spans[leader].clone()] {
            if link.trigger as usize != leader {
                continue;
            }
            let target = link.target as usize;
            let bound = time as u64 + link.seconds as u64;
            if let Group::Open { lower, upper } = &mut self.groups[target] {
                match link.kind {
                    Kind::Most => *upper = bound.min(*upper as u64) as u32,
                    Kind::Least => *lower = bound.max(*lower),
                }
            }
            if link.kind == Kind::Least {
                self.waits[target] -= 1;
            }
        }
    }
}
