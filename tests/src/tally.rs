//! What generated plans exercise: verdicts, rounds, how often each rule raises
//! a cell or decides the answer, and what the edges that links add change.

use crate::generate::MOST_SECONDS_BEFORE;
use crate::second::{self, Answer, Entry, Line, Origin, Plan, Verdict};

/// Counts over some plans. The arrays go by rule; entry 0 is unused.
#[derive(Default)]
pub struct Tally {
    pub plans: usize,
    /// Plans with links and with propositions.
    pub both: usize,
    /// Plans with a long timer.
    pub long: usize,
    pub kept: usize,
    pub broken: usize,
    pub spent: usize,
    /// The count of rounds of each plan.
    pub rounds: Vec<u64>,
    pub most_lines: usize,
    /// Plans with a line whose label has an unknown digit.
    pub unknown: usize,
    /// Grounds on which cells were raised.
    pub raises: [usize; 7],
    /// Plans with such a ground, and those of them with links and propositions.
    pub raised_in: [usize; 7],
    pub raised_in_both: [usize; 7],
    /// Plans whose table or verdict is another one without the rule.
    pub changes_table: [usize; 7],
    pub changes_verdict: [usize; 7],
}

impl Tally {
    /// Counts a plan, run for at most `cap` rounds; `without` also runs it
    /// without each rule.
    pub fn add(&mut self, plan: &Plan, cap: u64, without: bool) {
        let both = !plan.links.is_empty() && !plan.observing.is_empty();
        self.plans += 1;
        self.both += usize::from(both);
        self.long += usize::from(has_long_timer(plan));

        let mut raises = [0; 7];
        let answer = second::run(plan, cap, |table, next| count_raises(plan, table, next, &mut raises));
        match answer.verdict {
            Verdict::Kept => self.kept += 1,
            Verdict::Broken => self.broken += 1,
            Verdict::Spent => self.spent += 1,
        }
        self.rounds.push(answer.rounds);
        let lines = second::lines_held(plan, &answer.table);
        self.most_lines = self.most_lines.max(lines.len());
        self.unknown += usize::from(lines.iter().any(|line| !second::plain(line.label)));

        for rule in (1..=6).filter(|&rule| raises[rule] > 0) {
            self.raises[rule] += raises[rule];
            self.raised_in[rule] += 1;
            self.raised_in_both[rule] += usize::from(both);
            if without {
                let (verdict, table) = run_without(plan, cap, rule as u8);
                self.changes_table[rule] += usize::from(table != answer.table);
                self.changes_verdict[rule] += usize::from(verdict != answer.verdict);
            }
        }
    }
}

/// Whether a library with the bound that timers had before would refuse it.
pub fn has_long_timer(plan: &Plan) -> bool {
    plan.links.iter().any(|link| link.most > MOST_SECONDS_BEFORE)
        || plan.edges.iter().any(|edge| edge.weight.abs() > MOST_SECONDS_BEFORE)
}

/// Counts, by rule, the grounds on which cells were raised to their new wait.
fn count_raises(plan: &Plan, table: &[u32], next: &[u32], raises: &mut [usize; 7]) {
    second::each_given(plan, &second::lines_held(plan, table), |ground, line| {
        let cell = plan.cell(&line);
        if next[cell] > table[cell] && i64::from(next[cell]) == line.wait {
            raises[usize::from(ground.rule)] += 1;
        }
    });
}

/// Verdict and table if one rule were left out.
fn run_without(plan: &Plan, cap: u64, rule: u8) -> (Verdict, Vec<u32>) {
    let mut table = vec![0; plan.cells()];
    for _ in 0..cap {
        let mut next = table.clone();
        second::each_given(plan, &second::lines_held(plan, &table), |ground, line| {
            if ground.rule != rule {
                let cell = plan.cell(&line);
                next[cell] = next[cell].max(line.wait as u32);
            }
        });
        let unchanged = next == table;
        table = next;
        if second::alarm_waits(plan, &table) {
            return (Verdict::Broken, table);
        }
        if unchanged {
            return (Verdict::Kept, table);
        }
    }
    (Verdict::Spent, table)
}

// ----------------------------------------------------- edges that links add

/// What changes with the edges that links add, over plans with links.
#[derive(Debug, Default)]
pub struct LinkEdgeTally {
    pub all: LinkEdgeChanges,
    /// The same for those that are kept.
    pub kept: LinkEdgeChanges,
    /// Plans kept with these edges and broken without them, or the other way
    /// round; none is known.
    pub other_verdicts: Vec<Plan>,
    /// Broken plans with a listing of at most `MOST_SEARCHED` lines, and those of
    /// them with a line that only an upper or only a lower bound of a link gives.
    pub searched: usize,
    pub need_upper: usize,
    pub need_lower: usize,
}

/// Counts over some plans; "other" and "more" are to those without the edges.
#[derive(Debug, Default)]
pub struct LinkEdgeChanges {
    pub plans: usize,
    /// Plans with other cells.
    pub other_cells: usize,
    /// Plans with the same cells and another count of rounds.
    pub other_count_only: usize,
    pub more_rounds: usize,
    pub fewer_rounds: usize,
    /// Plans with a cell at a link's activation, the link in its set, that waits
    /// longer; and those where it waits without the edges too.
    pub later_activation: usize,
    pub later_waiting_activation: usize,
}

/// The most lines of a listing whose grounds are looked for among all lines.
pub const MOST_SEARCHED: usize = 80;

impl LinkEdgeTally {
    /// Counts a plan, run for at most `cap` rounds, if it has links.
    pub fn add(&mut self, plan: &Plan, cap: u64) {
        if plan.links.is_empty() {
            return;
        }
        let listed = second::run_and_list(plan, cap);
        let before = second::run(&plan.without_link_edges(), cap, |_, _| ());
        let verdicts = (listed.answer.verdict, before.verdict);
        if matches!(verdicts, (Verdict::Kept, Verdict::Broken) | (Verdict::Broken, Verdict::Kept)) {
            self.other_verdicts.push(plan.clone());
        }
        self.all.add(plan, &before, &listed.answer);
        if listed.answer.verdict == Verdict::Kept {
            self.kept.add(plan, &before, &listed.answer);
        }
        if (1..=MOST_SEARCHED).contains(&listed.lines.len()) {
            let [upper, lower] = needs_bounds(plan, &listed.lines);
            self.searched += 1;
            self.need_upper += usize::from(upper);
            self.need_lower += usize::from(lower);
        }
    }
}

impl LinkEdgeChanges {
    /// A plan, its answer without the edges and its answer with them.
    fn add(&mut self, plan: &Plan, before: &Answer, answer: &Answer) {
        let other_cells = answer.table != before.table;
        self.plans += 1;
        self.other_cells += usize::from(other_cells);
        self.other_count_only += usize::from(!other_cells && answer.rounds != before.rounds);
        self.more_rounds += usize::from(answer.rounds > before.rounds);
        self.fewer_rounds += usize::from(answer.rounds < before.rounds);
        let later: Vec<u32> = (0..plan.cells())
            .filter(|&cell| answer.table[cell] > before.table[cell] && at_own_activation(plan, cell))
            .map(|cell| before.table[cell])
            .collect();
        self.later_activation += usize::from(!later.is_empty());
        self.later_waiting_activation += usize::from(later.iter().any(|&wait| wait > 0));
    }

    /// Plans that show whether links add edges.
    pub fn told(&self) -> usize {
        self.other_cells + self.other_count_only
    }
}

/// Whether a link in the cell's set starts at the cell's point.
fn at_own_activation(plan: &Plan, cell: usize) -> bool {
    let Line { point, set, .. } = plan.line_in(cell, 0);
    plan.links.iter().enumerate().any(|(i, link)| link.activation == point && second::has_link(set, i))
}

/// Whether a line of a listing says that an upper bound of a link gives it, and
/// whether one says so of a lower bound.
pub fn uses_bounds(plan: &Plan, entries: &[Entry]) -> [bool; 2] {
    let rows = entries.iter().filter(|entry| entry.rule == 1).map(|entry| plan.origin(entry.row.into()));
    let origins: Vec<Origin> = rows.flatten().collect();
    [
        origins.iter().any(|origin| matches!(origin, Origin::UpperBound(_))),
        origins.iter().any(|origin| matches!(origin, Origin::LowerBound(_))),
    ]
}

/// Whether a line of a listing is given by upper bounds of links alone, and
/// whether one is by lower bounds alone, whatever earlier lines are its parents.
pub fn needs_bounds(plan: &Plan, lines: &[Line]) -> [bool; 2] {
    let mut earlier = second::starting_lines(plan);
    let mut needs = [false; 2];
    for line in lines {
        let (mut upper, mut lower, mut other) = (false, false, false);
        second::each_given(plan, &earlier, |ground, given| {
            if given == *line {
                match plan.origin(ground.row) {
                    Some(Origin::UpperBound(_)) if ground.rule == 1 => upper = true,
                    Some(Origin::LowerBound(_)) if ground.rule == 1 => lower = true,
                    _ => other = true,
                }
            }
        });
        needs[0] |= upper && !lower && !other;
        needs[1] |= lower && !upper && !other;
        earlier.push(*line);
    }
    needs
}
