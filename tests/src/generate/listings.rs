//! Listings: with grounds chosen at random, from derivations that follow no
//! rounds, and damaged ones.

use super::Random;
use crate::second::{
    clear, each_given, given, join, listing_bytes, starting_lines, uses_second_parent, Entry, Ground, Line,
    Plan,
};

/// The bytes of a listing.
pub fn bytes(entries: &[Entry]) -> Vec<u8> {
    let mut bytes = Vec::with_capacity(listing_bytes(entries.len()));
    bytes.extend((entries.len() as u16).to_be_bytes());
    for entry in entries {
        bytes.extend([entry.point, entry.set, entry.label, entry.rule]);
        bytes.extend(entry.wait.to_be_bytes());
    }
    for entry in entries {
        bytes.extend([entry.row, entry.first, entry.second].iter().flat_map(|number| number.to_be_bytes()));
    }
    bytes
}

/// A line on its ground as the listing has it. A wait below 0 wraps around.
pub fn entry(line: &Line, ground: Ground) -> Entry {
    Entry {
        point: line.point as u8,
        set: line.set,
        label: line.label,
        rule: ground.rule,
        wait: line.wait as u32,
        row: ground.row as u16,
        first: ground.first as u16,
        second: ground.second as u16,
    }
}

/// A listing being put together.
#[derive(Clone)]
pub struct Derivation<'a> {
    plan: &'a Plan,
    /// The starting lines, then those of the entries, so that a line's place
    /// is its number as a parent.
    lines: Vec<Line>,
    pub entries: Vec<Entry>,
}

impl<'a> Derivation<'a> {
    pub fn new(plan: &'a Plan) -> Self {
        Derivation { plan, lines: starting_lines(plan), entries: Vec::new() }
    }

    fn push(&mut self, line: Line, ground: Ground) {
        self.entries.push(entry(&line, ground));
        self.lines.push(line);
    }

    /// Adds these lines, each on a ground chosen among all that give it.
    pub fn follow(&mut self, random: &mut Random, lines: &[Line]) {
        for line in lines {
            let mut grounds = Vec::new();
            each_given(self.plan, &self.lines, |ground, given| {
                if given == *line {
                    grounds.push(ground);
                }
            });
            let ground = random.pick(&grounds);
            self.push(*line, ground);
        }
    }

    /// Adds up to so many lines, each given by any rule from any lines.
    pub fn wander(&mut self, random: &mut Random, steps: usize) {
        for _ in 0..steps {
            let tried = (0..600).find_map(|_| {
                let ground = self.any_ground(random)?;
                Some((given(self.plan, &self.lines, ground)?, ground))
            });
            if let Some((line, ground)) = tried {
                self.push(line, ground);
            }
        }
    }

    /// Adds a line that would be given but for a condition of its rule: a
    /// parent of another point, a label that is not plain, no wait left.
    fn miss(&mut self, random: &mut Random) {
        let tried = (0..600).find_map(|_| {
            let ground = self.any_ground(random)?;
            let line = unconditionally(self.plan, &self.lines, ground)?;
            let missed = given(self.plan, &self.lines, ground) != Some(line);
            // A parent of another point is the commonest and dullest reason.
            let wanted = missed && (parents_fit(self.plan, &self.lines, ground) || random.chance(2));
            wanted.then_some((line, ground))
        });
        if let Some((line, ground)) = tried {
            self.push(line, ground);
        }
    }

    /// Any rule, row and parents in range, late lines more often than early
    /// ones; none if the rule has no rows. Rule 1 takes an edge of a link every
    /// other time.
    fn any_ground(&self, random: &mut Random) -> Option<Ground> {
        let rule = random.between(1, 6) as u8;
        let rows = match rule {
            1 if random.chance(50) => first_link_row(self.plan)..self.plan.edge_rows(),
            1 => 0..first_link_row(self.plan),
            2..=4 => 0..self.plan.links.len(),
            _ => 0..self.plan.observing.len(),
        };
        let row = if rows.is_empty() { return None } else { rows.start + random.below(rows.len()) };
        let first = self.any_line(random);
        let second = if uses_second_parent(rule) { self.any_line(random) } else { 0 };
        Some(Ground { rule, row, first, second })
    }

    fn any_line(&self, random: &mut Random) -> usize {
        let [one, other] = [0, 0].map(|_| random.below(self.lines.len()));
        one.max(other)
    }

    /// Drops the lines after the last one of point 0, if there is any.
    pub fn end_at_z(&mut self) {
        if let Some(last) = self.entries.iter().rposition(|entry| entry.point == 0) {
            self.entries.truncate(last + 1);
            self.lines.truncate(self.plan.points + last + 1);
        }
    }
}

/// The first row of rule 1 that is an edge of a link, where there are links.
fn first_link_row(plan: &Plan) -> usize {
    plan.edges.len() + plan.points
}

/// What a rule would give if it had no conditions.
fn unconditionally(plan: &Plan, lines: &[Line], ground: Ground) -> Option<Line> {
    let Ground { rule, row, first, second } = ground;
    let (first, second) = (lines[first], lines[second]);
    Some(match rule {
        1 => {
            let edge = plan.edge(row)?;
            let label = join(edge.label, first.label);
            Line { point: edge.from, label, wait: first.wait - edge.weight, ..first }
        }
        2 => Line { point: plan.links[row].activation, wait: first.wait - plan.links[row].least, ..first },
        3 => {
            let link = plan.links[row];
            Line { point: link.end, set: first.set | 1 << row, wait: first.wait + link.most, ..first }
        }
        4 => Line {
            set: (first.set | second.set) & !(1 << row),
            label: join(first.label, second.label),
            wait: first.wait.min(second.wait + plan.links[row].least),
            ..first
        },
        5 => Line { label: clear(first.label, row), ..first },
        _ => Line {
            set: first.set | second.set,
            label: join(clear(first.label, row), second.label),
            wait: first.wait.min(second.wait),
            ..first
        },
    })
}

/// Whether the parents are of the points that the rule asks for.
fn parents_fit(plan: &Plan, lines: &[Line], ground: Ground) -> bool {
    let Ground { rule, row, first, second } = ground;
    match rule {
        1 => plan.edge(row).is_some_and(|edge| lines[first].point == edge.to),
        2 => lines[first].point == plan.links[row].end,
        3 => lines[first].point == plan.links[row].activation,
        4 => lines[second].point == plan.links[row].activation,
        5 => lines[first].point == plan.observing[row],
        _ => lines[second].point == plan.observing[row],
    }
}

/// The ways to damage a listing.
#[derive(Clone, Copy, Debug, PartialEq, Eq)]
pub enum Damage {
    Point,
    Set,
    Label,
    Rule,
    Row,
    FirstParent,
    SecondParent,
    Wait,
    LineCount,
    Length,
    LastLineGone,
    LinesSwapped,
    LineTwice,
    /// Lines rightly given after the end, so that the last is seldom an end.
    OtherEnd,
    /// After the end, a line that fails one of its rule's conditions.
    NearMiss,
    /// A line given by an edge of a link is said to be given otherwise.
    LinkEdge,
    AnyByte,
    Short,
}

pub const DAMAGES: [Damage; 18] = [
    Damage::Point,
    Damage::Set,
    Damage::Label,
    Damage::Rule,
    Damage::Row,
    Damage::FirstParent,
    Damage::SecondParent,
    Damage::Wait,
    Damage::LineCount,
    Damage::Length,
    Damage::LastLineGone,
    Damage::LinesSwapped,
    Damage::LineTwice,
    Damage::OtherEnd,
    Damage::NearMiss,
    Damage::LinkEdge,
    Damage::AnyByte,
    Damage::Short,
];

/// The listing's bytes after this damage to one of its lines or to the whole.
pub fn damaged(random: &mut Random, derivation: &Derivation, damage: Damage) -> Vec<u8> {
    let mut derivation = derivation.clone();
    match damage {
        Damage::OtherEnd => derivation.wander(random, 3),
        Damage::NearMiss => derivation.miss(random),
        _ => {}
    }
    let mut entries = derivation.entries;
    damage_lines(random, derivation.plan, &mut entries, damage);
    let mut bytes = bytes(&entries);
    damage_bytes(random, &mut bytes, damage);
    bytes
}

fn damage_lines(random: &mut Random, plan: &Plan, entries: &mut Vec<Entry>, damage: Damage) {
    let i = random.below(entries.len());
    let other = random.below(entries.len());
    match damage {
        Damage::LastLineGone => drop(entries.pop()),
        Damage::LinesSwapped => entries.swap(i, other),
        Damage::LineTwice => entries.push(entries[i]),
        Damage::LinkEdge => damage_link_edge(random, plan, entries),
        _ => {
            damage_head(random, plan, &mut entries[i], damage);
            damage_ground(random, plan, i, &mut entries[i], damage);
        }
    }
}

/// Damages one of the lines that an edge of a link gives, if there are any: its
/// row is the link's other one, that of another link or no link's, its wait goes
/// by the link's other duration, or its rule is one of the link's own.
fn damage_link_edge(random: &mut Random, plan: &Plan, entries: &mut [Entry]) {
    let first = first_link_row(plan) as u16;
    let given: Vec<usize> =
        (0..entries.len()).filter(|&i| entries[i].rule == 1 && entries[i].row >= first).collect();
    if given.is_empty() {
        return;
    }
    let entry = &mut entries[random.pick(&given)];
    let number = entry.row - first;
    let link = plan.links[usize::from(number / 2)];
    let apart = (link.most - link.least) as u32;
    let n = plan.points as u16;
    match random.below(8) {
        0 | 1 => entry.row = first + (number ^ 1),
        2 => entry.row += 2,
        3 => entry.row = random.pick(&[entry.row + 1, entry.row - 1, entry.row - 2, entry.row - n]),
        4 | 5 => entry.wait += apart,
        6 => entry.wait = entry.wait.wrapping_sub(apart),
        _ => (entry.rule, entry.row) = (random.pick(&[2, 3, 4]), number / 2),
    }
}

fn damage_head(random: &mut Random, plan: &Plan, entry: &mut Entry, damage: Damage) {
    let n = plan.points as u8;
    let k = plan.links.len();
    let p = plan.observing.len();
    match damage {
        Damage::Point => entry.point = random.pick(&[0, 1, n - 1, n, n + 1, 128 | entry.point, 255]),
        Damage::Set => entry.set ^= 1 << random.pick(&[0, k.saturating_sub(1), k, k + 1, 7]),
        Damage::Label => {
            let j = random.pick(&[0, p.saturating_sub(1), p.min(3), 3]);
            entry.label ^= random.pick(&[1, 2, 3]) << (2 * j);
        }
        Damage::Wait => {
            let wait = entry.wait;
            entry.wait =
                random.pick(&[0, wait.wrapping_sub(1), wait + 1, wait ^ 1 << 16, wait | 1 << 31, u32::MAX]);
        }
        _ => {}
    }
}

fn damage_ground(random: &mut Random, plan: &Plan, i: usize, entry: &mut Entry, damage: Damage) {
    // n + i, the first number that line i may not use as a parent.
    let next = (plan.points + i) as u16;
    match damage {
        Damage::Rule => entry.rule = random.pick(&[0, 1, 2, 3, 4, 5, 6, 7, 8, 255, entry.rule | 128]),
        Damage::Row => {
            let [n, p, k, e] = [plan.points, plan.observing.len(), plan.links.len(), plan.edges.len()]
                .map(|size| size as u16);
            let x = random.between(1, plan.points as i64 - 1) as u16;
            let near = entry.row ^ 1;
            entry.row = random.pick(&[
                0,
                near,
                near,
                e,
                e + x,
                e + n - 1,
                e + n,
                e + n + 1,
                e + n + 2 * k - 1,
                e + n + 2 * k,
                e + n + 2 * k + 1,
                k,
                p,
                256 | entry.row,
                65_535,
            ]);
        }
        Damage::FirstParent => entry.first = any_parent(random, entry.first, next),
        Damage::SecondParent => entry.second = any_parent(random, entry.second, next),
        _ => {}
    }
}

/// A parent most likely other than this one, before or after the line.
fn any_parent(random: &mut Random, parent: u16, next: u16) -> u16 {
    let any = random.below(usize::from(next)) as u16;
    random.pick(&[any, any, parent ^ 1, 0, 1, next - 1, next, next + 1, next + 300, 65_535])
}

fn damage_bytes(random: &mut Random, bytes: &mut Vec<u8>, damage: Damage) {
    match damage {
        Damage::LineCount => {
            let m = u16::from_be_bytes([bytes[0], bytes[1]]);
            let other = random.pick(&[0, m.wrapping_sub(1), m + 1, m ^ 256, 4_096, 4_097, 65_535]);
            bytes[..2].copy_from_slice(&other.to_be_bytes());
            if random.chance(40) {
                bytes.resize(listing_bytes(other.into()), 0);
            }
        }
        Damage::Length => {
            let length = bytes.len() as i64 + random.pick(&[-14, -8, -6, -1, 1, 6, 8, 14, 3_584]);
            bytes.resize(length.max(0) as usize, 0);
        }
        Damage::AnyByte => {
            for _ in 0..random.between(1, 3) {
                let place = random.below(bytes.len());
                bytes[place] ^= 1 << random.below(8);
            }
        }
        Damage::Short => bytes.truncate(random.below(4)),
        _ => {}
    }
}
