//! A seeded generator of plans. A class and a seed always make the same plan.

pub mod devices;
pub mod faults;
pub mod listings;
pub mod point_labels;
pub mod rows;

use crate::second::{self, Edge, Ground, Link, Origin, Plan, Verdict, MOST_CELLS, MOST_EDGES, MOST_SECONDS};
use std::{fmt, iter};

// ---------------------------------------------------------------- random

/// SplitMix64: small, fast, and the same everywhere.
pub struct Random {
    state: u64,
}

impl Random {
    pub fn new(seed: u64) -> Self {
        Random { state: seed }
    }

    pub fn number(&mut self) -> u64 {
        self.state = self.state.wrapping_add(0x9e37_79b9_7f4a_7c15);
        let mut mixed = self.state;
        mixed = (mixed ^ (mixed >> 30)).wrapping_mul(0xbf58_476d_1ce4_e5b9);
        mixed = (mixed ^ (mixed >> 27)).wrapping_mul(0x94d0_49bb_1331_11eb);
        mixed ^ (mixed >> 31)
    }

    /// A number below `bound`.
    pub fn below(&mut self, bound: usize) -> usize {
        (self.number() % bound as u64) as usize
    }

    /// A number from `least` to `most`, both among them.
    pub fn between(&mut self, least: i64, most: i64) -> i64 {
        least + self.below((most - least + 1) as usize) as i64
    }

    pub fn chance(&mut self, percent: usize) -> bool {
        self.below(100) < percent
    }

    pub fn pick<T: Copy>(&mut self, choices: &[T]) -> T {
        choices[self.below(choices.len())]
    }

    pub fn shuffle<T>(&mut self, items: &mut [T]) {
        for last in (1..items.len()).rev() {
            items.swap(last, self.below(last + 1));
        }
    }
}

// ----------------------------------------------------------------- plans

/// The kinds of accepted plans, as they are before many of them are given long
/// timers.
#[derive(Clone, Copy, Debug, PartialEq, Eq)]
pub enum Class {
    /// Two to four points and tiny weights, where bounds meet exactly.
    Small,
    /// Links and propositions, with one or two parts near the point where
    /// they break the plan, so that single rules decide.
    Decisive,
    /// Links and propositions together, and much that waits for them.
    Mixed,
    /// Weights and durations at their bounds, many points, many edges.
    Extreme,
    /// Loops that gain little a turn: many rounds.
    Slow,
    /// Near 16,384 cells.
    Dense,
}

pub const CLASSES: [Class; 6] =
    [Class::Small, Class::Decisive, Class::Mixed, Class::Extreme, Class::Slow, Class::Dense];

/// One generated plan; shown, it says how to make it again.
#[derive(Clone)]
pub struct Sample {
    pub class: Class,
    pub seed: u64,
    pub plan: Vec<u8>,
}

impl fmt::Display for Sample {
    fn fmt(&self, to: &mut fmt::Formatter) -> fmt::Result {
        write!(to, "{:?} plan of seed {}, bytes {}", self.class, self.seed, hex(&self.plan))
    }
}

/// Bytes as two digits each, for a failure's message.
pub fn hex(bytes: &[u8]) -> String {
    bytes.iter().map(|byte| format!("{byte:02x}")).collect()
}

/// The plan of a class and a seed. Many have long timers.
pub fn sample(class: Class, seed: u64) -> Sample {
    let (mut random, draft) = first_draft(class, seed);
    let draft = match class {
        Class::Small if random.chance(30) => lengthened(&mut random, &draft),
        Class::Decisive | Class::Mixed if random.chance(60) => lengthened(&mut random, &draft),
        Class::Slow | Class::Dense if random.chance(60) => {
            let scaled = scaled(&mut random, &draft);
            varied(&mut random, &scaled)
        }
        _ => draft,
    };
    Sample { class, seed, plan: draft.bytes() }
}

/// The plan of a class and a seed before its timers are made long. The benchmark
/// takes these, which a library of before long timers accepts too.
pub fn plan_before_lengthening(class: Class, seed: u64) -> Vec<u8> {
    first_draft(class, seed).1.bytes()
}

fn first_draft(class: Class, seed: u64) -> (Random, Draft) {
    // Each class has numbers of its own.
    let mut random = Random::new(seed.wrapping_mul(CLASSES.len() as u64) + class as u64);
    let mut draft = match class {
        Class::Small => small(&mut random),
        Class::Decisive => decisive(&mut random),
        Class::Mixed => mixed(&mut random),
        Class::Extreme => extreme(&mut random),
        Class::Slow => slow(&mut random),
        Class::Dense => dense(&mut random),
    };
    random.shuffle(&mut draft.edges);
    (random, draft)
}

/// So many plans of a class, with seeds counted from `seed`.
pub fn samples(class: Class, seed: u64, count: u64) -> impl Iterator<Item = Sample> {
    println!("{class:?} plans of {count} seeds from {seed}");
    (seed..seed + count).map(move |seed| sample(class, seed))
}

/// A plan being put together.
#[derive(Clone, Debug)]
pub struct Draft {
    pub points: usize,
    pub observing: Vec<usize>,
    pub links: Vec<Link>,
    pub edges: Vec<Edge>,
}

/// The most points that a plan may have.
const MOST_POINTS: usize = 32;

impl Draft {
    /// An accepted plan, to be changed.
    fn of(plan: Plan) -> Self {
        let Plan { points, observing, links, edges, .. } = plan;
        Draft { points, observing, links, edges }
    }

    /// The plan's file: sizes, observing points, then the two arrays.
    pub fn bytes(&self) -> Vec<u8> {
        let sizes = [self.points, self.observing.len(), self.links.len(), self.edges.len()];
        let mut bytes: Vec<u8> = sizes.iter().chain(&self.observing).map(|&number| number as u8).collect();
        bytes.extend(self.links.iter().flat_map(|link| [link.activation as u8, link.end as u8]));
        bytes.extend(self.edges.iter().flat_map(|edge| [edge.from as u8, edge.to as u8]));
        for link in &self.links {
            bytes.extend((link.least as u16).to_be_bytes());
            bytes.extend((link.most as u16).to_be_bytes());
        }
        for edge in &self.edges {
            bytes.extend((edge.weight as i16).to_be_bytes());
            bytes.extend([edge.label, 0]);
        }
        bytes
    }

    /// The largest of all weights, either way, and of all durations.
    fn longest(&self) -> i64 {
        let weights = self.edges.iter().map(|edge| edge.weight.abs());
        weights.chain(self.links.iter().map(|link| link.most)).max().unwrap_or(0)
    }

    /// Adds a point, and returns its number.
    fn add_point(&mut self) -> usize {
        self.points += 1;
        self.points - 1
    }

    /// Adds an edge if the plan has room for it.
    fn edge(&mut self, from: usize, to: usize, weight: i64, label: u8) {
        if self.edges.len() < MOST_EDGES && from != to {
            self.edges.push(Edge { from, to, weight, label });
        }
    }

    /// `later` comes at least `gap` after `earlier`.
    fn after(&mut self, later: usize, earlier: usize, gap: i64, label: u8) {
        self.edge(later, earlier, -gap, label);
    }

    /// `later` comes at most `gap` after `earlier`.
    fn within(&mut self, later: usize, earlier: usize, gap: i64, label: u8) {
        self.edge(earlier, later, gap, label);
    }

    fn any_point(&self, random: &mut Random) -> usize {
        random.below(self.points)
    }

    fn other_point(&self, random: &mut Random, point: usize) -> usize {
        (point + 1 + random.below(self.points - 1)) % self.points
    }

    /// Neither Z nor the point given, if there are any others.
    fn later_point(&self, random: &mut Random, point: usize) -> usize {
        let others: Vec<usize> = (1..self.points).filter(|other| *other != point).collect();
        if others.is_empty() {
            0
        } else {
            random.pick(&others)
        }
    }

    /// A plain label; `percent` is the chance of each digit not to be 0.
    fn any_label(&self, random: &mut Random, percent: usize) -> u8 {
        (0..self.observing.len()).fold(0, |label, j| {
            if random.chance(percent) {
                label | yes_or_no(random, j)
            } else {
                label
            }
        })
    }

    /// A plain label with this digit of proposition j; `percent` is the chance
    /// of each other digit not to be 0.
    fn label_with(&self, random: &mut Random, j: usize, digit_j: u8, percent: usize) -> u8 {
        second::clear(self.any_label(random, percent), j) | digit_j << (2 * j)
    }
}

fn yes_or_no(random: &mut Random, proposition: usize) -> u8 {
    random.pick(&[1, 2]) << (2 * proposition)
}

/// Points, observing points and link ends, no edges. Durations start at up to
/// `longest` and vary by as much.
fn frame(random: &mut Random, n: usize, p: usize, k: usize, longest: i64) -> Draft {
    let mut others: Vec<usize> = (1..n).collect();
    random.shuffle(&mut others);
    let mut draft =
        Draft { points: n, observing: others[..p].to_vec(), links: Vec::new(), edges: Vec::new() };
    for &end in &others[p..p + k] {
        let activation = if random.chance(35) { 0 } else { draft.other_point(random, end) };
        let least = random.between(1, longest);
        let most = least + random.between(1, longest);
        draft.links.push(Link { activation, end, least, most });
    }
    draft
}

// ----------------------------------------------- parts that make rules act

/// Y is to come shortly before a link's end, which nobody chooses: Y waits
/// under the link (rules 3 and 1), then without it (rule 4), and so the end
/// and the activation wait too (rules 1 and 2).
fn before_an_end(random: &mut Random, draft: &mut Draft, extra: usize) {
    let Some(link) = any_link(random, draft) else { return };
    let y = draft.later_point(random, link.end);
    let least = random.between(0, 3);
    let most = random.between(least, link.most + 1);
    let label = draft.any_label(random, extra);
    draft.within(link.end, y, most, label);
    let label = draft.any_label(random, extra);
    draft.after(link.end, y, least, label);
    if random.chance(60) {
        let label = draft.any_label(random, extra);
        draft.within(link.activation, 0, random.between(0, 12), label);
    }
}

/// Y is late if a fact is one way and early if it is the other, with the fact
/// learnt between: rule 6.
fn before_the_fact(random: &mut Random, draft: &mut Draft, extra: usize) {
    let Some(j) = any_proposition(random, draft) else { return };
    let y = draft.later_point(random, draft.observing[j]);
    let way = random.pick(&[1, 2]);
    let late = random.between(3, 15);
    let label = draft.label_with(random, j, way, extra);
    draft.after(y, 0, late, label);
    let label = draft.label_with(random, j, 3 - way, extra);
    draft.within(y, 0, late - random.between(-1, 3), label);
    let seen = late + random.between(-5, 4);
    let label = draft.label_with(random, j, 0, extra);
    draft.after(draft.observing[j], 0, seen.max(1), label);
}

/// An observing point's own time hangs on its fact: rule 5.
fn own_fact(random: &mut Random, draft: &mut Draft, extra: usize) {
    let Some(j) = any_proposition(random, draft) else { return };
    let way = random.pick(&[1, 2]);
    let earlier = if random.chance(60) { 0 } else { draft.other_point(random, draft.observing[j]) };
    let gap = random.between(1, 12);
    let label = draft.label_with(random, j, way, extra);
    draft.after(draft.observing[j], earlier, gap, label);
    let label = draft.label_with(random, j, 3 - way, extra);
    draft.within(draft.observing[j], earlier, gap + random.between(-3, 2), label);
}

/// An observing point waits for a link's end: the rules for links and those
/// for propositions feed each other.
fn seen_after_an_end(random: &mut Random, draft: &mut Draft, extra: usize) {
    let (Some(link), Some(j)) = (any_link(random, draft), any_proposition(random, draft)) else { return };
    let label = draft.any_label(random, extra);
    draft.after(draft.observing[j], link.end, random.between(0, 6), label);
    let y = draft.later_point(random, draft.observing[j]);
    let way = random.pick(&[1, 2]);
    let label = draft.label_with(random, j, way, extra);
    draft.after(y, link.end, random.between(0, 8), label);
    let label = draft.label_with(random, j, 3 - way, extra);
    draft.within(y, link.activation, random.between(0, 12), label);
}

/// Y is late if a fact is one way; a link's end comes longer after Y than the
/// link takes, and not much longer after the fact is learnt. Under the link Y
/// waits (rule 6), then the end (rule 1), and by the link's upper bound its
/// activation.
fn long_before_an_end(random: &mut Random, draft: &mut Draft, extra: usize) {
    let (Some(link), Some(j)) = (any_link(random, draft), any_proposition(random, draft)) else { return };
    let y = draft.later_point(random, link.end);
    let way = random.pick(&[1, 2]);
    let label = draft.label_with(random, j, way, extra);
    draft.after(y, 0, random.between(3, 15), label);
    let label = draft.any_label(random, extra);
    draft.after(link.end, y, link.most + random.between(1, 6), label);
    let label = draft.any_label(random, extra);
    draft.within(link.end, draft.observing[j], link.most + random.between(1, 6), label);
}

/// The parts; `extra` is the chance of further digits in their labels.
type Part = fn(&mut Random, &mut Draft, usize);
const PARTS: [Part; 4] = [before_an_end, before_the_fact, own_fact, seen_after_an_end];

/// The parts of smaller plans; in larger ones the last would take too long.
const DECISIVE_PARTS: [Part; 5] =
    [before_an_end, before_the_fact, own_fact, seen_after_an_end, long_before_an_end];

fn any_link(random: &mut Random, draft: &Draft) -> Option<Link> {
    (!draft.links.is_empty()).then(|| draft.links[random.below(draft.links.len())])
}

fn any_proposition(random: &mut Random, draft: &Draft) -> Option<usize> {
    (!draft.observing.is_empty()).then(|| random.below(draft.observing.len()))
}

/// An edge of no special meaning. The room is what upper bounds leave.
fn any_edge(random: &mut Random, draft: &mut Draft, longest: i64, room: i64) {
    let from = draft.any_point(random);
    let to = draft.other_point(random, from);
    let label = draft.any_label(random, 30);
    match random.below(10) {
        0..=2 => draft.after(from.max(1), 0, random.between(1, longest), label),
        3..=4 => draft.after(from, to, random.between(0, longest / 2), label),
        5..=6 => draft.within(to.max(1), 0, random.between(room / 2, room), label),
        _ => draft.within(from.max(1), to, random.between(room / 4, room), label),
    }
}

/// Takes away, one by one, edges and activations that make Z wait within so
/// many rounds. What is left is kept, or broken later and for better reasons.
/// There must be three points at least.
fn loosen(random: &mut Random, draft: &mut Draft, rounds: u64) {
    while let Some(reason) = why_broken(random, draft, rounds) {
        let edges = draft.edges.len();
        match reason {
            Reason::Edge(row) => drop(draft.edges.swap_remove(row)),
            Reason::Link(row) => {
                let end = draft.links[row].end;
                draft.links[row].activation = draft.later_point(random, end);
            }
            // Some edges wait for each other.
            Reason::Horizon if edges > 0 => drop(draft.edges.swap_remove(random.below(edges))),
            Reason::Horizon => return,
        }
    }
}

/// What makes Z wait: an edge of the plan, a link from Z, or the horizon.
#[derive(Clone, Copy)]
enum Reason {
    Edge(usize),
    Link(usize),
    Horizon,
}

impl Reason {
    fn of(plan: &Plan, ground: Ground) -> Self {
        match plan.origin(ground.row) {
            _ if ground.rule == 2 => Reason::Link(ground.row),
            Some(Origin::Plan(row)) => Reason::Edge(row),
            Some(Origin::UpperBound(row) | Origin::LowerBound(row)) => Reason::Link(row),
            Some(Origin::Horizon(_)) | None => Reason::Horizon,
        }
    }
}

/// What makes Z wait within so many rounds, if anything does. Z's first wait is
/// by rule 1 or 2.
fn why_broken(random: &mut Random, draft: &Draft, rounds: u64) -> Option<Reason> {
    let plan = second::read(&draft.bytes()).expect("a draft is an accepted plan");
    let mut before = Vec::new();
    let answer = second::run(&plan, rounds, |table, _| before = table.to_vec());
    if answer.verdict != Verdict::Broken {
        return None;
    }
    let mut reasons = Vec::new();
    second::each_given(&plan, &second::lines_held(&plan, &before), |ground, line| {
        if line.point == 0 {
            reasons.push(Reason::of(&plan, ground));
        }
    });
    Some(random.pick(&reasons))
}

// ----------------------------------------------------------- long timers

/// The most that a weight or a duration could be before timers became long.
pub const MOST_SECONDS_BEFORE: i64 = 3_600;

/// The plan with long timers, all of them or those between some points and the
/// others. Where that makes a loop gain little a turn, with a far horizon, the
/// times are only multiplied, which takes no more rounds than before.
fn lengthened(random: &mut Random, draft: &Draft) -> Draft {
    const ROUNDS: u64 = 100;
    let scaled = scaled(random, draft);
    let long = if random.chance(40) { delayed(random, draft) } else { varied(random, &scaled) };
    let plan = second::read(&long.bytes()).expect("a draft is an accepted plan");
    match second::run(&plan, ROUNDS, |_, _| ()).verdict {
        Verdict::Spent => scaled,
        _ => long,
    }
}

/// All times multiplied, the longest to more than timers could be before. All
/// waits are then multiplied too, and verdict and rounds are the same.
fn scaled(random: &mut Random, draft: &Draft) -> Draft {
    let mut scaled = draft.clone();
    let longest = draft.longest();
    if longest > 0 {
        let (least, most) = (MOST_SECONDS_BEFORE / longest + 1, MOST_SECONDS / longest);
        let any = random.between(least, most);
        let factor = random.pick(&[least, most, any]);
        scaled.links.iter_mut().for_each(|link| {
            link.least *= factor;
            link.most *= factor;
        });
        scaled.edges.iter_mut().for_each(|edge| edge.weight *= factor);
    }
    scaled
}

/// Some times changed by a second or two, so that what was just kept may be
/// broken by a second.
fn varied(random: &mut Random, draft: &Draft) -> Draft {
    let mut varied = draft.clone();
    for link in &mut varied.links {
        let (least, most) = (link.least + any_change(random), link.most + any_change(random));
        if 0 < least && least < most && most <= MOST_SECONDS {
            (link.least, link.most) = (least, most);
        }
    }
    for edge in &mut varied.edges {
        edge.weight = (edge.weight + any_change(random)).clamp(-MOST_SECONDS, MOST_SECONDS);
    }
    varied
}

/// Seconds to add, most often none.
fn any_change(random: &mut Random) -> i64 {
    random.pick(&[0, 0, 0, 0, 0, -2, -1, -1, 1, 1, 2])
}

/// Some points come long after the others; times among the former and among the
/// latter stay short.
fn delayed(random: &mut Random, draft: &Draft) -> Draft {
    let mut late: Vec<bool> = (0..draft.points).map(|point| point > 0 && random.chance(50)).collect();
    late[random.between(1, draft.points as i64 - 1) as usize] = true;
    // A link's end comes after its activation.
    for _ in 0..draft.links.len() {
        draft.links.iter().for_each(|link| late[link.end] |= late[link.activation]);
    }
    let delay = random.between(MOST_SECONDS_BEFORE + 1, MOST_SECONDS - draft.longest());
    let mut delayed = draft.clone();
    for link in &mut delayed.links {
        if late[link.end] && !late[link.activation] {
            link.least += delay;
            link.most += delay;
        }
    }
    for edge in &mut delayed.edges {
        match (late[edge.from], late[edge.to]) {
            (false, true) => edge.weight += delay,
            (true, false) => edge.weight -= delay,
            _ => (),
        }
    }
    (1..draft.points).filter(|&point| late[point]).for_each(|point| delayed.after(point, 0, delay, 0));
    delayed
}

// --------------------------------------------------------------- classes

fn small(random: &mut Random) -> Draft {
    let (n, p, k) = random.pick(&[
        (2, 0, 0),
        (2, 0, 1),
        (2, 1, 0),
        (3, 1, 0),
        (3, 0, 2),
        (3, 1, 1),
        (3, 1, 1),
        (4, 1, 1),
        (4, 1, 2),
        (4, 2, 1),
    ]);
    let mut draft = frame(random, n, p, k, 2);
    for _ in 0..random.below(7) {
        let from = draft.any_point(random);
        let to = draft.other_point(random, from);
        let label = draft.any_label(random, 40);
        draft.edge(from, to, random.between(-4, 6), label);
    }
    draft
}

fn decisive(random: &mut Random) -> Draft {
    let (p, k) = random.pick(&[(1, 1), (1, 1), (2, 1), (1, 2), (2, 2)]);
    let n = p + k + random.between(2, 3) as usize;
    let mut draft = frame(random, n, p, k, 6);
    for _ in 0..random.between(1, 2) {
        random.pick(&DECISIVE_PARTS)(random, &mut draft, 5);
    }
    for _ in 0..random.below(4) {
        any_edge(random, &mut draft, 4, 60);
    }
    let rounds = random.pick(&[0, 2, 4, 100]);
    loosen(random, &mut draft, rounds);
    draft
}

fn mixed(random: &mut Random) -> Draft {
    let (p, k) = random.pick(&[
        (1, 1),
        (1, 1),
        (1, 2),
        (2, 1),
        (2, 2),
        (2, 2),
        (1, 3),
        (3, 1),
        (2, 3),
        (3, 2),
        (0, 2),
        (2, 0),
    ]);
    let n = p + k + 1 + random.below(4);
    let mut draft = frame(random, n, p, k, 8);
    for _ in 0..random.between(1, 4) {
        random.pick(&PARTS)(random, &mut draft, 20);
    }
    let room = random.pick(&[8, 20, 40, 80]);
    for _ in 0..random.below(2 * n) {
        any_edge(random, &mut draft, 10, room);
    }
    let rounds = random.pick(&[1, 4, 10, 200, 200]);
    loosen(random, &mut draft, rounds);
    draft
}

fn extreme(random: &mut Random) -> Draft {
    let p = random.below(3);
    let k = random.below(4);
    let n = random.between(8, 32) as usize;
    let mut draft = frame(random, n, p, k, MOST_SECONDS / 2);
    for link in &mut draft.links {
        (link.least, link.most) = random.pick(&[
            (1, 2),
            (1, MOST_SECONDS),
            (MOST_SECONDS - 1, MOST_SECONDS),
            (link.least, link.most),
        ]);
    }
    // In half of the plans every gap counts from Z, so that few are broken by
    // a loop.
    let from_z = random.chance(50);
    for _ in 0..random.pick(&[3, 20, 60, MOST_EDGES, MOST_EDGES]) {
        let from = draft.any_point(random);
        let to = draft.other_point(random, from);
        let label = draft.any_label(random, 60);
        let gap = random.pick(&[1, MOST_SECONDS - 1, MOST_SECONDS]);
        match random.below(3) {
            0 if from_z => draft.after(from, 0, gap, label),
            0 => draft.after(from, to, gap, label),
            1 => draft.within(from, to, random.pick(&[0, MOST_SECONDS - 1, MOST_SECONDS]), label),
            _ => draft.within(from, to, random.between(0, MOST_SECONDS), label),
        }
    }
    let rounds = random.pick(&[0, 2, 4, 20]);
    loosen(random, &mut draft, rounds);
    draft
}

/// Loops that gain a second or so a turn, in a plan with a far horizon and a
/// few edges more.
fn slow(random: &mut Random) -> Draft {
    let (p, k) = random.pick(&[(0, 0), (1, 1), (1, 1), (1, 0), (0, 1), (2, 1)]);
    let n = p + k + random.between(3, 5) as usize;
    let mut draft = frame(random, n, p, k, 8);
    // One long gap sets the horizon.
    let far = random.pick(&[20, 100, 500, 3600]);
    draft.after(random.between(1, n as i64 - 1) as usize, 0, far, 0);
    match random.below(3) {
        1 if k > 0 => link_loop(random, &mut draft),
        2 if p > 0 => fact_loop(random, &mut draft, far),
        _ => edge_loop(random, &mut draft),
    }
    for _ in 0..random.below(4) {
        any_edge(random, &mut draft, 5, 3600);
    }
    loosen(random, &mut draft, 20);
    draft
}

/// Points that wait for each other, one second more a turn.
fn edge_loop(random: &mut Random, draft: &mut Draft) {
    let mut around: Vec<usize> = (1..draft.points).collect();
    random.shuffle(&mut around);
    around.truncate(random.between(2, around.len() as i64) as usize);
    let label = draft.any_label(random, 20);
    let mut total = 0;
    for pair in around.windows(2) {
        let weight = random.between(-2, 2);
        draft.edge(pair[0], pair[1], weight, label);
        total += weight;
    }
    draft.edge(around[around.len() - 1], around[0], -1 - total, label);
}

/// A point that is to come before a link's end: each turn takes rules 1 to 4.
fn link_loop(random: &mut Random, draft: &mut Draft) {
    let link = draft.links[0];
    let y = draft.other_point(random, link.end);
    let gap = random.between(1, 2);
    draft.after(link.end, y, gap, 0);
    draft.within(link.end, y, gap.max(link.most - link.least), 0);
}

/// Two points, each later than the other under one answer to a fact: each
/// turn takes rule 6 twice, and the turns end when the fact is known.
fn fact_loop(random: &mut Random, draft: &mut Draft, far: i64) {
    let mut others: Vec<usize> = (1..draft.points).filter(|point| *point != draft.observing[0]).collect();
    random.shuffle(&mut others);
    draft.after(draft.observing[0], 0, far, 0);
    draft.after(others[0], others[1], 1, 1);
    draft.after(others[1], others[0], 0, 2);
}

fn dense(random: &mut Random) -> Draft {
    let (n, p, k) =
        random.pick(&[(8, 4, 3), (16, 3, 4), (16, 4, 2), (32, 4, 1), (32, 3, 3), (31, 3, 3), (15, 3, 4)]);
    assert!(n << k << (2 * p) <= MOST_CELLS);
    let mut draft = frame(random, n, p, k, 20);
    for j in 0..p {
        let point = draft.observing[j];
        draft.after(point, 0, random.between(20, 60), yes_or_no(random, (j + 1) % p));
    }
    // Few edges for plans that the rounds can finish, many for full tables.
    let (parts, edges) = random.pick(&[(0, 2), (1, 5), (4, 40), (8, 100)]);
    for _ in 0..parts {
        before_an_end(random, &mut draft, 20);
        seen_after_an_end(random, &mut draft, 20);
    }
    for _ in 0..edges {
        any_edge(random, &mut draft, 30, 900);
    }
    let rounds = random.pick(&[1, 2, 4]);
    loosen(random, &mut draft, rounds);
    draft
}

// ------------------------------- plans of the benchmark, and slow cycles

/// A plan of a typical size: 12 points, 2 propositions, 2 links, 40 edges.
/// Even seeds make plans that are kept or broken late.
pub fn typical(seed: u64) -> Vec<u8> {
    let rounds = [500, 8][seed as usize % 2];
    let mut random = Random::new(seed);
    let mut draft = frame(&mut random, 12, 2, 2, 8);
    while draft.edges.len() < 40 {
        if random.chance(10) {
            random.pick(&PARTS)(&mut random, &mut draft, 20);
        }
        any_edge(&mut random, &mut draft, 10, 80);
        draft.edges.truncate(40);
        loosen(&mut random, &mut draft, rounds);
    }
    draft.bytes()
}

/// A plan of about so many rounds: `turn` points wait for each other, a second
/// more a turn, until the horizon breaks the plan. With `both`, a link and a
/// proposition go along.
pub fn slow_cycle(points: usize, turn: usize, rounds: i64, both: bool) -> Vec<u8> {
    assert!(turn + 2 < points, "three points are apart from the turn: Z and the last two");
    let mut draft = Draft { points, observing: vec![], links: vec![], edges: vec![] };
    for point in 1..turn {
        draft.after(point, point + 1, 0, 0);
    }
    draft.after(turn, 1, 1, 0);
    // The longest gap sets the horizon, and each second up to it takes a turn.
    draft.after(points - 1, 0, rounds / turn as i64 / points as i64, 0);
    if both {
        draft.observing.push(points - 1);
        draft.links.push(Link { activation: 0, end: points - 2, least: 1, most: 2 });
        draft.after(1, 0, 1, 1);
    }
    draft.bytes()
}

/// Two of 16 points wait for each other, a second more a turn, for about so many
/// rounds, in a plan with propositions and links (two at most) that have no part
/// in it, and with rows that give nothing. With `labelled` the turns are taken
/// under every plain label.
pub fn cycle_among(propositions: usize, links: usize, rows: usize, labelled: bool, rounds: i64) -> Vec<u8> {
    let observing = (5..5 + propositions).collect();
    let link = |number| Link { activation: 3, end: 10 + number, least: 1, most: 2 };
    let links = (0..links).map(link).collect();
    let mut draft = Draft { points: 16, observing, links, edges: vec![] };
    draft.after(1, 2, 0, 0);
    draft.after(2, 1, 1, 0);
    draft.after(15, 0, rounds / 2 / 16, 0);
    for _ in 0..rows {
        draft.after(14, 13, 0, 0);
    }
    let plain = |label: &u8| (0..propositions).all(|j| label >> (2 * j) & 3 != 3);
    if labelled {
        for label in (1..=255).take_while(|&label| u32::from(label) < 1 << (2 * propositions)).filter(plain) {
            draft.after(1, 0, 1, label);
        }
    }
    draft.bytes()
}

/// Cycles of more rounds than 16 bits count, and of more than plans of so many
/// points took before timers became long.
pub fn long_cycles() -> [Vec<u8>; 2] {
    [slow_cycle(5, 2, 80_000, false), slow_cycle(6, 3, 80_000, true)]
}

// ------------------------------------- plans by the lines of their listings

/// How many cells each round raises, also past the one that breaks the plan.
pub fn raised(plan: &Plan) -> impl Iterator<Item = usize> + '_ {
    let mut table = vec![0; plan.cells()];
    iter::repeat_with(move || {
        let next = second::next_table(plan, &table);
        let count = (0..plan.cells()).filter(|&cell| next[cell] > table[cell]).count();
        table = next;
        count
    })
}

/// A plan of so many rounds and lines, if points enough can be had. A cycle
/// breaks it, and many points wait for the cycle under every plain label, so that
/// a round raises many cells. The last edge is the bound on the cycle.
pub fn with_rounds_and_lines(propositions: usize, rounds: usize, lines: usize) -> Draft {
    let observing = (1..=propositions).collect();
    let mut draft = Draft { points: 1 + propositions, observing, links: vec![], edges: vec![] };
    let on_cycle = add_cycle(&mut draft);
    let labelled = draft.add_point();
    let labels = (0..1 << (2 * propositions)).map(|label: u16| label as u8);
    labels.filter(|&label| second::plain(label)).for_each(|label| draft.after(labelled, on_cycle, 1, label));

    let cells = 3_usize.pow(propositions as u32);
    // All rounds but the last raise the cycle's two points and the labelled one.
    // One more line sets the horizon, and the last one is Z's.
    let missing = lines - (2 + cells) * (rounds - 1) - 2;
    let missing = add_waiting(&mut draft, labelled, cells, rounds, missing);
    add_waiting(&mut draft, on_cycle, 1, rounds, missing);
    draft.within(on_cycle, 0, rounds as i64 - 2, 0);
    draft
}

/// A plan of so many lines, drawn at random: links, facts and edges, many of
/// them to a cycle, and the cycle breaks it. It has fewer lines where more points
/// would be needed to make up the number.
pub fn random_with_lines(random: &mut Random, n: usize, p: usize, k: usize, lines: usize) -> Draft {
    let mut draft = frame(random, n, p, k, 4);
    // Z would wait for the end of a link that starts there.
    for row in 0..k {
        draft.links[row].activation = draft.later_point(random, draft.links[row].end);
    }
    let on_cycle = add_cycle(&mut draft);
    for point in (1..n).cycle().take(n - 1 + random.below(2 * n)) {
        let earlier = if random.chance(50) { on_cycle } else { random.between(1, n as i64 - 1) as usize };
        let label = draft.any_label(random, 30);
        draft.after(point, earlier, random.between(-1, 3), label);
    }

    let (rounds, missing) = rounds_within(&draft, lines);
    add_waiting(&mut draft, on_cycle, 1, rounds, missing);
    for _ in 0..random.between(1, 3) {
        let label = draft.any_label(random, 30);
        draft.within(on_cycle, 0, rounds as i64 - 2, label);
    }
    random.shuffle(&mut draft.edges);
    draft
}

/// Adds a cycle: two points that wait for each other, so that each round raises
/// both by a second; and a point that is raised once and sets a far horizon.
/// Returns the first of the three.
fn add_cycle(draft: &mut Draft) -> usize {
    let [on_cycle, other, far] = [(); 3].map(|()| draft.add_point());
    draft.after(on_cycle, other, 1, 0);
    draft.after(other, on_cycle, 1, 0);
    draft.after(far, 0, MOST_SECONDS, 0);
    on_cycle
}

/// Adds points that wait for a source, which each round but the last raises by a
/// second in so many cells. Their waits begin so late that they have so many
/// lines together; returns how many are still missing.
fn add_waiting(draft: &mut Draft, source: usize, cells: usize, rounds: usize, lines: usize) -> usize {
    let mut missing = lines;
    while missing >= cells && draft.points < MOST_POINTS {
        // The first round raises none of them yet.
        let raises = (missing / cells).min(rounds - 2);
        let waiting = draft.add_point();
        draft.within(source, waiting, (rounds - 2 - raises) as i64, 0);
        missing -= cells * raises;
    }
    missing
}

/// The most rounds after which a plan can be broken with no more than so many
/// lines, and how many are missing then.
fn rounds_within(draft: &Draft, lines: usize) -> (usize, usize) {
    let plan = second::read(&draft.bytes()).expect("a draft is an accepted plan");
    // The last round has one line.
    let (mut rounds, mut missing) = (1, lines - 1);
    for count in raised(&plan) {
        if count > missing {
            break;
        }
        (rounds, missing) = (rounds + 1, missing - count);
    }
    (rounds, missing)
}
