//! The compilation in plain Rust: the same rules and the same steps, with nothing proved.

pub const HORIZON: i32 = 1_000_000;
pub const MOST_STEPS: usize = 64;
pub const MOST_ITEMS: usize = 512;

#[derive(Clone, Copy)]
pub struct LooseEnd {
    pub present: bool,
    pub value: i32,
}

impl LooseEnd {
    fn is_tidy(self) -> bool {
        self.present || self.value == 0
    }

    fn end(self) -> Option<i32> {
        self.present.then_some(self.value)
    }
}

#[derive(Clone, Copy)]
pub struct Row {
    pub from: u16,
    pub to: u16,
    pub lower: LooseEnd,
    pub upper: LooseEnd,
}

#[derive(Clone, Copy)]
pub struct Bound {
    from: u16,
    to: u16,
    lower: Option<i32>,
    upper: Option<i32>,
}

impl Bound {
    fn new(row: &Row) -> Result<Bound, Fault> {
        if !row.lower.is_tidy() || !row.upper.is_tidy() {
            return Err(Fault::NoEnd);
        }
        let (lower, upper) = (row.lower.end(), row.upper.end());
        if lower.is_none() && upper.is_none() {
            return Err(Fault::NoEnd);
        }
        let in_reach = |end: Option<i32>| end.is_none_or(|x| (-HORIZON..=HORIZON).contains(&x));
        if !in_reach(lower) || !in_reach(upper) {
            return Err(Fault::OutOfReach);
        }
        Ok(Bound {
            from: row.from,
            to: row.to,
            lower,
            upper,
        })
    }
}

#[derive(Clone, Copy, PartialEq, Eq, Debug)]
pub enum Fault {
    NoSuchStep,
    OutOfReach,
    NoEnd,
}

/// A list of items behind three questions.
pub trait Source {
    fn steps(&self) -> u16;
    fn count(&self) -> usize;
    fn item(&self, place: usize) -> Option<Result<Bound, Fault>>;
}

pub struct Rows<'a> {
    pub steps: u16,
    pub rows: &'a [Row],
}

impl Source for Rows<'_> {
    fn steps(&self) -> u16 {
        self.steps
    }

    fn count(&self) -> usize {
        self.rows.len().min(MOST_ITEMS + 1)
    }

    fn item(&self, place: usize) -> Option<Result<Bound, Fault>> {
        let row = self.rows.get(place).filter(|_| place < MOST_ITEMS)?;
        if row.from >= self.steps || row.to >= self.steps {
            return Some(Err(Fault::NoSuchStep));
        }
        Some(Bound::new(row))
    }
}

#[derive(Clone, Copy, PartialEq, Eq, Debug)]
pub enum Kind {
    Most,
    Least,
}

#[derive(Clone, Copy, PartialEq, Eq, Debug)]
pub struct Link {
    pub trigger: u8,
    pub target: u8,
    pub kind: Kind,
    pub seconds: u32,
}

#[derive(Clone, Copy, PartialEq, Eq, Debug)]
pub struct GroupEntry {
    pub leader: u8,
    pub offset: u32,
}

#[derive(Clone, Copy, PartialEq, Eq, Debug)]
pub struct Compiled {
    pub groups: usize,
    pub links: usize,
}

#[derive(Clone, Copy, PartialEq, Eq, Debug)]
pub enum Refusal {
    Limits,
    Tables,
    Spoiled(usize, Fault),
    NoTimetable,
}

/// Fills the tables of a source: the distances, the group of each step, and the kept links in order.
pub fn compile<S: Source>(
    source: &S,
    distances: &mut [i32],
    groups: &mut [GroupEntry],
    links: &mut [Link],
) -> Result<Compiled, Refusal> {
    let n = source.steps() as usize;
    if n == 0 || n > MOST_STEPS || source.count() > MOST_ITEMS {
        return Err(Refusal::Limits);
    }
    if distances.len() < n * n || groups.len() < n || links.len() < n * (n - 1) {
        return Err(Refusal::Tables);
    }
    let table = &mut distances[..n * n];
    let groups = &mut groups[..n];
    if let Some((place, fault)) = first_spoiled(source) {
        table.fill(0);
        return Err(Refusal::Spoiled(place, fault));
    }
    gather(source, n, table);
    if !close(n, table) {
        table.fill(0);
        return Err(Refusal::NoTimetable);
    }
    let group_count = find_groups(n, table, groups);
    let link_count = find_links(n, table, groups, links);
    Ok(Compiled {
        groups: group_count,
        links: link_count,
    })
}

fn first_spoiled<S: Source>(source: &S) -> Option<(usize, Fault)> {
    (0..MOST_ITEMS)
        .map_while(|place| source.item(place))
        .enumerate()
        .find_map(|(place, item)| item.err().map(|fault| (place, fault)))
}

fn gather<S: Source>(source: &S, n: usize, table: &mut [i32]) {
    table.fill(HORIZON);
    for (i, row) in table.chunks_exact_mut(n).enumerate() {
        row[0] = 0;
        row[i] = 0;
    }
    for bound in (0..source.count())
        .map_while(|place| source.item(place))
        .flatten()
    {
        let (from, to) = (bound.from as usize, bound.to as usize);
        if let Some(upper) = bound.upper {
            let gap = &mut table[from * n + to];
            *gap = upper.min(*gap);
        }
        if let Some(lower) = bound.lower {
            let gap = &mut table[to * n + from];
            *gap = (-lower).min(*gap);
        }
    }
}

/// Closes the table row by row, or tells that no timetable exists.
fn close(n: usize, table: &mut [i32]) -> bool {
    let is_possible =
        |row: &[i32], k: usize| row.iter().fold(0, |low, x| low.min(*x)) >= -HORIZON && row[k] >= 0;
    let mut copy = [0; MOST_STEPS];
    let via = &mut copy[..n];
    for k in 0..n {
        via.copy_from_slice(&table[k * n..][..n]);
        if !is_possible(via, k) {
            return false;
        }
        for row in table.chunks_exact_mut(n) {
            let through = row[k];
            if through < -HORIZON {
                return false;
            }
            for (gap, more) in row.iter_mut().zip(via.iter()) {
                *gap = (*gap).min(through + *more);
            }
        }
    }
    table
        .chunks_exact(n)
        .enumerate()
        .all(|(i, row)| is_possible(row, i))
}

fn find_groups(n: usize, table: &[i32], groups: &mut [GroupEntry]) -> usize {
    let mut count = 0;
    for (step, (entry, row)) in groups.iter_mut().zip(table.chunks_exact(n)).enumerate() {
        let leader = row
            .iter()
            .zip(table.chunks_exact(n))
            .enumerate()
            .filter(|(_, (gap, back))| **gap + back[step] == 0)
            .min_by_key(|(_, (gap, _))| **gap)
            .map_or(step, |(member, _)| member);
        *entry = GroupEntry {
            leader: leader as u8,
            offset: table[leader * n + step] as u32,
        };
        count += (leader == step) as usize;
    }
    count
}

fn find_links(n: usize, table: &[i32], groups: &[GroupEntry], links: &mut [Link]) -> usize {
    let leaders: Vec<usize> = (0..n)
        .filter(|&step| groups[step].leader as usize == step)
        .collect();
    let mut count = 0;
    for &trigger in &leaders {
        for &target in leaders.iter().filter(|&&target| target != trigger) {
            let mut push = |kind, gap: i32| {
                links[count] = Link {
                    trigger: trigger as u8,
                    target: target as u8,
                    kind,
                    seconds: gap.unsigned_abs(),
                };
                count += 1;
            };
            let forth = table[trigger * n + target];
            if target != 0 && forth >= 0 && !is_dominated(n, table, groups, trigger, target) {
                push(Kind::Most, forth);
            }
            let back = table[target * n + trigger];
            if back < 0 && !is_dominated(n, table, groups, target, trigger) {
                push(Kind::Least, back);
            }
        }
    }
    count
}

/// Whether a third leader dominates the gap from leader a to leader c: a search that ends with the first.
/// The sum rarely holds, so it is tested first.
fn is_dominated(n: usize, table: &[i32], groups: &[GroupEntry], a: usize, c: usize) -> bool {
    let whole = table[a * n + c];
    let row = &table[a * n..][..n];
    table
        .chunks_exact(n)
        .zip(row)
        .enumerate()
        .any(|(b, (via, &first))| {
            let second = via[c];
            first + second == whole
                && b != a
                && b != c
                && groups[b].leader as usize == b
                && if whole >= 0 { second >= 0 } else { first < 0 }
        })
}
