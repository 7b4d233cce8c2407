//! A panel that follows the table of waits.
//!
//! The table is the one that the check leaves for a plan that is kept. Besides
//! it the panel goes by the answers that it has learnt, by how long links took
//! that have ended, and by the clock. Of the plan it looks at the observing
//! points and at the links' rows, but at no most and no edge.
//!
//! - A line *agrees* with what has been learnt if no digit of its label is
//!   unknown, and each yes or no is of a proposition not learnt yet or is the
//!   answer learnt.
//! - The *lateness* of a set D of links that have ended is by how many seconds
//!   they took longer than their least, added up.
//! - A point that is no end of a link may go at second t if for some set D of
//!   links that have ended, the empty one too, every agreeing line of the point
//!   whose link set has no link of D waits at most t less the lateness of D.
//!   The starting line is one of them.
//!
//! In a second, the ends that are due come first, then the points that may go,
//! one after the other. An answer is known at once, so it may let a further
//! point go in the same second. The order of points that may go is free.
//!
//! A panel *reacts only to what it has seen* if this holds for every two
//! dramas. Let a point that is no end of a link come in one of them at some
//! second. If all answers that were learnt there before the point are the same
//! in the other, and so is the duration of every link that has ended by that
//! second in either, the point comes at that second in the other too, and after
//! the same observing points.

use crate::second::{digit, has_link, lines_held, Line, Link, Plan};
use std::iter;

/// Answers and durations: all that nobody chooses.
#[derive(Clone, Debug, PartialEq, Eq)]
pub struct Drama {
    /// The scenario: the answer of each proposition, as a digit of a label.
    pub scenario: u8,
    /// The situation: how long each link takes.
    pub situation: Vec<i64>,
}

/// All dramas of a plan: all answers, and all whole durations.
pub fn dramas(plan: &Plan) -> Vec<Drama> {
    let mut scenarios = vec![0];
    for j in 0..plan.observing.len() {
        scenarios =
            scenarios.iter().flat_map(|scenario| [1, 2].map(|yes_no| scenario | yes_no << (2 * j))).collect();
    }
    let mut situations = vec![Vec::new()];
    for link in &plan.links {
        let with = |situation: &Vec<i64>, duration| situation.iter().copied().chain([duration]).collect();
        let durations = || link.least..=link.most;
        situations = situations
            .iter()
            .flat_map(|situation| durations().map(|duration| with(situation, duration)))
            .collect();
    }
    let all = |scenario: u8| {
        situations.iter().map(move |situation| Drama { scenario, situation: situation.clone() })
    };
    scenarios.into_iter().flat_map(all).collect()
}

// -------------------------------------------------------------- the rule

/// The rule, one that minds more lines, or a wrong one that tests are to tell
/// from it.
#[derive(Clone, Copy, Debug, PartialEq, Eq)]
pub enum Rule {
    Right,
    /// A line with an unknown digit counts too, as long as the proposition is
    /// not learnt. This is no wrong rule.
    CountsUnknown,
    /// No link is ever late.
    ForgetsLateness,
    /// A link that takes its most is not late.
    ForgetsLongest,
    /// A line with a digit of a proposition not learnt yet does not count.
    BeforeAnswers,
}

/// What came of a drama: when each point came, and all points in the order in
/// which they came.
#[derive(Clone, Debug, PartialEq, Eq)]
pub struct Run {
    pub times: Vec<i64>,
    pub order: Vec<usize>,
}

impl Run {
    /// The points that came before this one.
    fn before(&self, point: usize) -> &[usize] {
        let place = self.order.iter().position(|other| *other == point);
        &self.order[..place.expect("every point has come")]
    }
}

/// A panel with a plan's table.
pub struct Panel<'a> {
    plan: &'a Plan,
    /// The lines of each point, the longest wait first.
    lines: Vec<Vec<Line>>,
    rule: Rule,
}

/// What has been seen of a drama.
struct Seen<'a> {
    drama: &'a Drama,
    times: Vec<Option<i64>>,
    order: Vec<usize>,
    /// The answers learnt, as digits of a label; 0 where none is.
    learnt: u8,
}

impl<'a> Panel<'a> {
    pub fn new(plan: &'a Plan, table: &[u32], rule: Rule) -> Panel<'a> {
        let mut lines = vec![Vec::new(); plan.points];
        lines_held(plan, table).into_iter().for_each(|line| lines[line.point].push(line));
        lines.iter_mut().for_each(|lines| lines.sort_by_key(|line| -line.wait));
        Panel { plan, lines, rule }
    }

    /// What the panel does in a drama; `None` if a point is left out, that is,
    /// has not come a second after the horizon. Of the points that may go, the
    /// one goes that is first in `preference`.
    pub fn run(&self, drama: &Drama, preference: &[usize]) -> Option<Run> {
        let points = self.plan.points;
        let mut seen = Seen { drama, times: vec![None; points], order: Vec::new(), learnt: 0 };
        let mut now = 0;
        while now <= self.plan.horizon + 1 {
            for (link, end) in self.ends(&seen) {
                if end == now {
                    self.come(&mut seen, link.end, now);
                }
            }
            while let Some(point) = self.first_to_go(&seen, preference, now) {
                self.come(&mut seen, point, now);
            }
            if seen.order.len() == points {
                let times = seen.times.into_iter().flatten().collect();
                return Some(Run { times, order: seen.order });
            }
            now = self.next(&seen)?;
        }
        None
    }

    /// The links that run, and when they end.
    fn ends(&self, seen: &Seen) -> Vec<(Link, i64)> {
        let rows = self.plan.links.iter().zip(&seen.drama.situation);
        let running = rows.filter(|(link, _)| seen.times[link.end].is_none());
        running
            .filter_map(|(link, duration)| Some((*link, seen.times[link.activation]? + duration)))
            .collect()
    }

    /// The points that the panel decides on and that have not come.
    fn to_go<'b>(&'b self, seen: &'b Seen) -> impl Fn(&usize) -> bool + 'b {
        |point| seen.times[*point].is_none() && self.plan.links.iter().all(|link| link.end != *point)
    }

    fn first_to_go(&self, seen: &Seen, preference: &[usize], now: i64) -> Option<usize> {
        let mut points = preference.iter().copied().filter(self.to_go(seen));
        points.find(|point| self.may_go_from(seen, *point) <= now)
    }

    /// The next second in which anything comes. Nothing is learnt until then.
    fn next(&self, seen: &Seen) -> Option<i64> {
        let ends = self.ends(seen).into_iter().map(|(_, end)| end);
        let points = (0..self.plan.points).filter(self.to_go(seen));
        ends.chain(points.map(|point| self.may_go_from(seen, point))).min()
    }

    fn come(&self, seen: &mut Seen, point: usize, now: i64) {
        seen.times[point] = Some(now);
        seen.order.push(point);
        if let Some(j) = self.plan.observing.iter().position(|observing| *observing == point) {
            seen.learnt |= digit(seen.drama.scenario, j) << (2 * j);
        }
    }

    /// The first second in which the point may go, as long as no more is seen.
    fn may_go_from(&self, seen: &Seen, point: usize) -> i64 {
        let seconds = (0..self.plan.sets() as u8).filter_map(|set| {
            let late = self.lateness(seen, set)?;
            let counts = |line: &&Line| line.set & set == 0 && self.agrees(line.label, seen.learnt);
            Some(late + self.lines[point].iter().find(counts)?.wait)
        });
        seconds.min().expect("the empty set is one of them, and the starting line always counts")
    }

    fn agrees(&self, label: u8, learnt: u8) -> bool {
        (0..self.plan.observing.len()).all(|j| match (digit(label, j), digit(learnt, j)) {
            (0, _) => true,
            (3, answer) => self.rule == Rule::CountsUnknown && answer == 0,
            (_, 0) => self.rule != Rule::BeforeAnswers,
            (digit, answer) => digit == answer,
        })
    }

    /// By how many seconds these links were late, if all of them have ended.
    fn lateness(&self, seen: &Seen, set: u8) -> Option<i64> {
        let links = (0..self.plan.links.len()).filter(|i| has_link(set, *i)).map(|i| &self.plan.links[i]);
        let late = links.map(|link| {
            let duration = seen.times[link.end]? - seen.times[link.activation]?;
            Some(match self.rule {
                Rule::ForgetsLateness => 0,
                Rule::ForgetsLongest if duration == link.most => 0,
                _ => duration - link.least,
            })
        });
        late.sum()
    }
}

// ------------------------------------------------------------- the rows

/// Whether these times keep the plan: the first alarm at 0, every edge whose
/// label is true, each link its duration.
pub fn keeps(plan: &Plan, drama: &Drama, times: &[i64]) -> bool {
    let edges_kept = plan.edges.iter().all(|edge| {
        let counts = edge.label & !drama.scenario == 0;
        !counts || times[edge.to] - times[edge.from] <= edge.weight
    });
    let mut links = plan.links.iter().zip(&drama.situation);
    let links_kept = links.all(|(link, duration)| times[link.end] - times[link.activation] == *duration);
    times[0] == 0 && edges_kept && links_kept
}

/// Whether the panel of these runs, one for each drama, reacts only to what it
/// has seen.
pub fn reacts_to_what_is_seen(plan: &Plan, dramas: &[Drama], runs: &[Run]) -> bool {
    let ends: Vec<usize> = plan.links.iter().map(|link| link.end).collect();
    let decided: Vec<usize> = (0..plan.points).filter(|point| !ends.contains(point)).collect();
    let all = || iter::zip(dramas, runs);
    all().all(|(drama, run)| {
        decided.iter().all(|&point| {
            let second = run.times[point];
            let learnt = |j: &usize| run.before(point).contains(&plan.observing[*j]);
            let asked = |run: &Run| -> Vec<usize> {
                let before = run.before(point).iter().copied();
                before.filter(|other| plan.observing.contains(other)).collect()
            };
            let looks_the_same = |other: &Drama, other_run: &Run| {
                let ended = |i: &usize| run.times[ends[*i]].min(other_run.times[ends[*i]]) <= second;
                let mut answers = (0..plan.observing.len()).filter(learnt);
                let mut links = (0..ends.len()).filter(ended);
                answers.all(|j| digit(drama.scenario, j) == digit(other.scenario, j))
                    && links.all(|i| drama.situation[i] == other.situation[i])
            };
            all().all(|(other, other_run)| {
                let the_same = other_run.times[point] == second && asked(other_run) == asked(run);
                the_same || !looks_the_same(other, other_run)
            })
        })
    })
}
