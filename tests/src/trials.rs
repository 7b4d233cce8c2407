//! What trials leave of a plan's edge rows, as far as so many rounds go; and what
//! a call would leave that makes a mistake about them.

use crate::second::{self, Answer, Plan, Verdict, CONDITIONS};

/// What a call leaves: the rows that remain, unless the plan is kept, and the
/// table.
#[derive(Clone, Debug, PartialEq, Eq)]
pub struct Left {
    pub rows: Option<Vec<usize>>,
    pub table: Vec<u32>,
}

/// A mistake about the rows.
#[derive(Clone, Copy, Debug, PartialEq, Eq, PartialOrd, Ord)]
pub enum Mistake {
    /// They are tried from the last to the first.
    LastRowFirst,
    /// Each is tried against all others, also those left out before.
    AmongAll,
    /// A trial has the horizon of its own rows.
    OwnHorizon,
    /// A trial has only the number of rounds that its own rows call for.
    OwnRounds,
    /// A trial is the check of a plan that has just its rows: both of these.
    OwnCheck,
    /// The tables stay as the last trial of a row leaves them.
    LastTables,
    /// The tables are those of the whole plan.
    WholeTables,
    /// 18 judges what a trial leaves of the plan, and such a trial is not broken.
    /// Only plans with labels on points tell.
    JudgedBy18,
}

/// Those that plans without labels tell.
pub const MISTAKES: [Mistake; 7] = [
    Mistake::LastRowFirst,
    Mistake::AmongAll,
    Mistake::OwnHorizon,
    Mistake::OwnRounds,
    Mistake::OwnCheck,
    Mistake::LastTables,
    Mistake::WholeTables,
];

/// What is left of a plan; `None` if its trials take more than so many rounds
/// together.
pub fn left(plan: &Plan, rounds: u64) -> Option<Left> {
    left_with(None, plan, rounds)
}

/// The same, if this mistake is made.
pub fn left_by(mistake: Mistake, plan: &Plan, rounds: u64) -> Option<Left> {
    left_with(Some(mistake), plan, rounds)
}

fn left_with(mistake: Option<Mistake>, plan: &Plan, rounds: u64) -> Option<Left> {
    let all: Vec<usize> = (0..plan.edges.len()).collect();
    let mut trials = Trials { plan, mistake, rest: rounds, last: Vec::new() };
    let rows = trials.broken(&all).then(|| trials.remaining(&all));
    let table = match mistake {
        Some(Mistake::LastTables) => trials.last,
        Some(Mistake::WholeTables) => trials.made(&all).table,
        _ => trials.made(rows.as_ref().unwrap_or(&all)).table,
    };
    (trials.rest > 0).then_some(Left { rows, table })
}

/// All rows but this one.
pub fn without(rows: &[usize], row: usize) -> Vec<usize> {
    rows.iter().copied().filter(|&other| other != row).collect()
}

/// Trials of a plan, with a mistake or without.
struct Trials<'a> {
    plan: &'a Plan,
    mistake: Option<Mistake>,
    /// The rounds that are left for all further trials.
    rest: u64,
    /// The table of the last trial.
    last: Vec<u32>,
}

impl Trials<'_> {
    fn remaining(&mut self, all: &[usize]) -> Vec<usize> {
        match self.mistake {
            Some(Mistake::LastRowFirst) => {
                let order: Vec<usize> = all.iter().rev().copied().collect();
                let mut rows = second::rows_that_remain(&order, |rest| self.broken(rest));
                rows.reverse();
                rows
            }
            Some(Mistake::AmongAll) => {
                all.iter().copied().filter(|&row| !self.broken(&without(all, row))).collect()
            }
            _ => second::rows_that_remain(all, |rest| self.broken(rest)),
        }
    }

    fn broken(&mut self, rows: &[usize]) -> bool {
        let answer = self.made(rows);
        self.last = answer.table;
        answer.verdict == Verdict::Broken
    }

    fn made(&mut self, rows: &[usize]) -> Answer {
        let tried = self.plan.with_rows(rows);
        let mut own = tried.clone();
        own.horizon = second::horizon(own.points, &own.links, &own.edges);
        if self.mistake == Some(Mistake::JudgedBy18) && !CONDITIONS.iter().all(|one| one.holds(&tried)) {
            return Answer { verdict: Verdict::Kept, rounds: 0, table: vec![0; tried.cells()] };
        }
        let (tried, limit) = match self.mistake {
            Some(Mistake::OwnHorizon) => (&own, second::rounds_for(self.plan)),
            Some(Mistake::OwnRounds) => (&tried, second::rounds_for(&own)),
            Some(Mistake::OwnCheck) => (&own, second::rounds_for(&own)),
            _ => (&tried, second::rounds_for(self.plan)),
        };
        let answer = second::run(tried, limit.min(self.rest), |_, _| ());
        self.rest -= answer.rounds;
        answer
    }
}
