//! The panel's game: an opinion on the verdict that is made apart from the
//! rules.
//!
//! The panel plays against nature, second by second. Point 0 comes at second
//! 0, and at no other. In each second, in this order:
//!
//! 1. Links end. Nature decides whether a running link takes its least or its
//!    most. The panel sees it end after its least; or sees that it does not,
//!    and so knows that it takes its most. In a second kind of game nature may
//!    also decide on any whole number of seconds between the two.
//! 2. The panel may execute observing points, one after the other. Nature
//!    answers each, and the panel sees the answer before it decides on a
//!    further one in the same second.
//! 3. The panel may execute any of the other points, with all that it has
//!    seen.
//!
//! The panel wins if in the end all points have come, and every edge holds
//! whose label is true under the answers. A plan is won if there is a way to
//! play that wins whatever nature does, and lost if there is none. `won` tries
//! all ways to play.
//!
//! There is no last second. What is left of a game depends on how long ago
//! points came, and on that only up to some age: where every least gap to a
//! point still to come is over, every most gap exceeded and every link ended.
//! Ages are not counted any further, so there are finitely many states. A
//! second that changes nothing is followed by the same for ever.

use crate::generate::Draft;
use crate::second::{Edge, Link};
use std::collections::HashMap;

/// As many points as the largest plan has that is played.
const MOST_POINTS: usize = 16;

/// The two answers, as digits of labels and of `State::answers`; 0 is an
/// answer not known yet.
const ANSWERS: [u8; 2] = [1, 2];

/// How long nature may let a link take.
#[derive(Clone, Copy, Debug, PartialEq, Eq)]
pub enum Durations {
    LeastOrMost,
    LeastToMost,
}

/// What the panel has seen.
#[derive(Clone, Copy, PartialEq, Eq, Hash)]
struct State {
    /// How many seconds ago each point came, if it has come.
    ages: [Option<i16>; MOST_POINTS],
    answers: u8,
}

impl State {
    fn age(&self, point: usize) -> Option<i64> {
        self.ages[point].map(i64::from)
    }

    /// The same, and this point comes now.
    fn with(mut self, point: usize) -> State {
        self.ages[point] = Some(0);
        self
    }

    /// The same, and proposition j is answered.
    fn answered(mut self, j: usize, answer: u8) -> State {
        self.answers |= answer << (2 * j);
        self
    }

    /// Whether nature can still make the label true, or has done so: no answer
    /// is against it.
    fn possible(&self, label: u8) -> bool {
        let both = self.answers | label;
        both & both >> 1 & 0b01010101 == 0
    }
}

struct Game<'a> {
    plan: &'a Draft,
    durations: Durations,
    /// Neither point 0 nor observing points nor ends of links.
    others: Vec<usize>,
    /// States at the start of a second, and whether the panel wins from them.
    seen: HashMap<State, bool>,
}

/// Whether the panel can win whatever nature does.
pub fn won(plan: &Draft, durations: Durations) -> bool {
    assert!(plan.points <= MOST_POINTS, "{} points are too many", plan.points);
    let nobody_chooses = |point: &usize| plan.links.iter().any(|link| link.end == *point);
    let others =
        (1..plan.points).filter(|point| !plan.observing.contains(point) && !nobody_chooses(point)).collect();
    let mut game = Game { plan, durations, others, seen: HashMap::new() };
    game.second(State { ages: [None; MOST_POINTS], answers: 0 }.with(0))
}

impl Game<'_> {
    /// Whether the panel wins from the start of this second.
    fn second(&mut self, state: State) -> bool {
        if let Some(&won) = self.seen.get(&state) {
            return won;
        }
        let won = self.links_end(state, 0);
        self.seen.insert(state, won);
        won
    }

    /// Nature's part, for links from this row on: the panel has to win in
    /// either case.
    fn links_end(&mut self, state: State, row: usize) -> bool {
        let Some(link) = self.plan.links.get(row) else { return self.observe(state) };
        let running = state.age(link.activation).filter(|_| state.age(link.end).is_none());
        let Some(age) = running else { return self.links_end(state, row + 1) };
        let may_end = match self.durations {
            Durations::LeastOrMost => age == link.least || age == link.most,
            Durations::LeastToMost => age >= link.least,
        };
        let may_run = age < link.most;
        (!may_end || self.links_end(state.with(link.end), row + 1))
            && (!may_run || self.links_end(state, row + 1))
    }

    /// The panel executes a further observing point, and has to win with
    /// either answer; or none.
    fn observe(&mut self, state: State) -> bool {
        if self.lost(&state) {
            return false;
        }
        for (j, &point) in self.plan.observing.iter().enumerate() {
            if state.age(point).is_some() {
                continue;
            }
            let asked = state.with(point);
            if ANSWERS.iter().all(|&answer| self.observe(asked.answered(j, answer))) {
                return true;
            }
        }
        self.execute(state, 0)
    }

    /// The panel executes any of the other points, or none, from this row of
    /// them on.
    fn execute(&mut self, state: State, row: usize) -> bool {
        if self.lost(&state) {
            return false;
        }
        let Some(&point) = self.others.get(row) else { return self.wait(state) };
        let now = state.age(point).is_none() && self.execute(state.with(point), row + 1);
        now || self.execute(state, row + 1)
    }

    /// The second is over.
    fn wait(&mut self, state: State) -> bool {
        if (0..self.plan.points).all(|point| state.age(point).is_some()) {
            return true;
        }
        let next = self.a_second_later(state);
        next != state && self.second(next)
    }

    /// All that have come are a second older, where that still matters.
    fn a_second_later(&self, state: State) -> State {
        let mut next = state;
        for point in 0..self.plan.points {
            next.ages[point] = state.age(point).map(|age| (age + 1).min(self.matters(&state, point)) as i16);
        }
        next
    }

    /// The age up to which it matters how long ago this point came. It is not
    /// 0, the age of a point that comes now.
    fn matters(&self, state: &State, point: usize) -> i64 {
        let to_come = |point: usize| state.age(point).is_none();
        let edges = self.plan.edges.iter().filter(|edge| state.possible(edge.label));
        let gaps = edges.filter_map(|edge: &Edge| match edge {
            // A second above the most gap, the panel has lost.
            edge if edge.from == point && to_come(edge.to) => Some(edge.weight + 1),
            // At the least gap, the other point may come.
            edge if edge.to == point && to_come(edge.from) => Some(-edge.weight),
            _ => None,
        });
        let runs = |link: &&Link| link.activation == point && to_come(link.end);
        let links = self.plan.links.iter().filter(runs).map(|link| link.most);
        gaps.chain(links).fold(1, i64::max)
    }

    /// Whether an edge is broken already, with a label that nature can make
    /// true or has made true.
    fn lost(&self, state: &State) -> bool {
        self.plan.edges.iter().any(|edge| {
            let least_gap = match (state.age(edge.from), state.age(edge.to)) {
                // The later it comes, the better.
                (None, _) => return false,
                // The other point comes now or later.
                (Some(age), None) => age,
                // This was looked at when the later one of the two came.
                (Some(1..), Some(1..)) => return false,
                (Some(from), Some(to)) => from - to,
            };
            least_gap > edge.weight && state.possible(edge.label)
        })
    }
}

// -------------------------------------------------------- told beforehand

/// Whether the panel can win if it is told all answers beforehand.
pub fn won_with_answers_told(plan: &Draft) -> bool {
    (0..1 << plan.observing.len()).all(|yes| won(&with_answers(plan, yes), Durations::LeastOrMost))
}

/// Whether the panel can win if it is told all durations beforehand.
pub fn won_with_durations_told(plan: &Draft) -> bool {
    (0..1 << plan.links.len()).all(|slow| won(&with_durations(plan, slow), Durations::LeastOrMost))
}

/// Whether the plan passes every column of the workbook: for all answers and
/// all choices of least or most there are times that keep all edges, for
/// somebody who is told these answers and durations beforehand.
pub fn passes_every_column(plan: &Draft) -> bool {
    (0..1 << plan.observing.len()).all(|yes| {
        let answered = with_answers(plan, yes);
        (0..1 << plan.links.len()).all(|slow| column_passes(&with_durations(&answered, slow)))
    })
}

/// The edges that hold with these answers, a bit for each proposition that is
/// yes. They are always to be kept then.
fn with_answers(plan: &Draft, yes: usize) -> Draft {
    let digit = |j: usize| ANSWERS[1 - (yes >> j & 1)];
    let answers = (0..plan.observing.len()).fold(0, |answers, j| answers | digit(j) << (2 * j));
    let edges = plan.edges.iter().filter(|edge| edge.label & !answers == 0);
    Draft { edges: edges.map(|edge| Edge { label: 0, ..*edge }).collect(), ..plan.clone() }
}

/// The plan with these durations, a bit for each link that takes its most.
fn with_durations(plan: &Draft, slow: usize) -> Draft {
    let fixed = |(row, link): (usize, &Link)| {
        let duration = if slow >> row & 1 == 1 { link.most } else { link.least };
        Link { least: duration, most: duration, ..*link }
    };
    Draft { links: plan.links.iter().enumerate().map(fixed).collect(), ..plan.clone() }
}

/// Whether there are times for a plan without labels, whose links have one
/// duration each.
fn column_passes(plan: &Draft) -> bool {
    // (X, Y, u) for Y − X ≤ u. No point comes before point 0.
    let mut rows: Vec<(usize, usize, i64)> = (0..plan.points).map(|point| (point, 0, 0)).collect();
    for link in &plan.links {
        rows.push((link.activation, link.end, link.most));
        rows.push((link.end, link.activation, -link.least));
    }
    rows.extend(plan.edges.iter().map(|edge| (edge.from, edge.to, edge.weight)));
    can_be_kept(plan.points, &rows)
}

/// Whether there are times that keep all rows. They start equal and are put
/// earlier where a row asks for it. If there are any, this ends within as many
/// passes as there are points.
fn can_be_kept(points: usize, rows: &[(usize, usize, i64)]) -> bool {
    let mut times = vec![0; points];
    for _ in 0..points {
        let before = times.clone();
        for &(from, to, most) in rows {
            times[to] = times[to].min(times[from] + most);
        }
        if times == before {
            return true;
        }
    }
    false
}

// ------------------------------------------------------------ plan files

/// The plan of a file, which must be one that the check accepts.
pub fn read(bytes: &[u8]) -> Draft {
    let [points, p, k, e] = [0, 1, 2, 3].map(|place| usize::from(bytes[place]));
    let (observing, rest) = bytes[4..].split_at(p);
    let (ends, numbers) = rest.split_at(2 * (k + e));
    let pairs = ends.chunks(2).map(|pair| (usize::from(pair[0]), usize::from(pair[1])));
    let mut links = Vec::new();
    let mut edges = Vec::new();
    for ((from, to), row) in pairs.zip(numbers.chunks(4)) {
        let (high, low) = ([row[0], row[1]], [row[2], row[3]]);
        if links.len() < k {
            let (least, most) = (u16::from_be_bytes(high).into(), u16::from_be_bytes(low).into());
            links.push(Link { activation: from, end: to, least, most });
        } else {
            edges.push(Edge { from, to, weight: i16::from_be_bytes(high).into(), label: row[2] });
        }
    }
    Draft { points, observing: observing.iter().copied().map(usize::from).collect(), links, edges }
}
