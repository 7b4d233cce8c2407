//! The panel's game against the check: a plan is kept exactly if the panel can
//! win. And the panel that follows the table of waits: it keeps a plan that is
//! kept.

use std::collections::HashMap;
use std::fs;
use std::path::PathBuf;
use std::{fmt, iter};
use sulgrach_tests::following::{dramas, keeps, reacts_to_what_is_seen, Drama, Panel, Rule, Run};
use sulgrach_tests::game::{passes_every_column, read, won, Durations};
use sulgrach_tests::game::{won_with_answers_told, won_with_durations_told};
use sulgrach_tests::generate::point_labels::Labelled;
use sulgrach_tests::generate::{hex, Draft, Random};
use sulgrach_tests::library::header::{SULGRACH_LISTING, SULGRACH_ROUNDS};
use sulgrach_tests::library::{self, refused, BROKEN, KEPT};
use sulgrach_tests::second::{self, run_and_list, Edge, Link, Plan, MOST_LINES};
use sulgrach_tests::{plan_files, times};

/// The most plans of one seed.
const STEPS: u64 = 30;

#[test]
fn generated_plans() {
    let count = times(2_000);
    println!("up to {STEPS} plans of each of {count} seeds from 0");
    let mut tally = Tally::default();
    for seed in 0..count {
        walk(seed, &SIZES, &[2, 3, 4, 8], |plan, step| {
            tally.compare(plan, format_args!("seed {seed}, step {step}"))
        });
    }
    println!("generated_plans: {} checks compared with the game: {tally:?}", tally.won + tally.lost);
    tally.is_enough();
}

/// The game is played without what makes it quick in `src/game.rs`, on plans
/// small enough for that.
#[test]
fn without_shortcuts() {
    let count = times(300);
    println!("up to {STEPS} plans of each of {count} seeds from 0");
    let mut answers = [0, 0];
    for seed in 0..count {
        walk(seed, &SMALL_SIZES, &[2, 3], |plan, step| {
            let answer = won(plan, Durations::LeastOrMost);
            let bytes = plan.bytes();
            assert_eq!(plainly_won(plan), answer, "seed {seed}, step {step}, bytes {}", hex(&bytes));
            answers[usize::from(answer)] += 1;
            answer
        });
    }
    println!("without_shortcuts: {} plans won, {} lost", answers[1], answers[0]);
    assert!(answers.iter().all(|count| *count > 1_000), "{answers:?}");
}

const BENCH: [&str; 10] = ["c1", "c2", "c3", "c4", "c5", "c6", "c7", "c8", "c9", "c10"];
const SITES: [&str; 10] = [
    "ramp",
    "ramp-quick",
    "carpark",
    "carpark-quick",
    "corridor",
    "hotel",
    "tower",
    "tower-early",
    "smoke-extract",
    "smoke-extract-late",
];

/// Plans with long timers, which are whole minutes.
const LONG: [&str; 2] = ["coldstore", "coldstore-late"];

#[test]
fn written_plans() {
    let played = BENCH.into_iter().chain(SITES).map(|name| (name, plan_of(name)));
    // Second by second they would take too long.
    let by_the_minute = LONG.into_iter().map(|name| (name, in_minutes(plan_of(name))));
    for (name, plan) in played.chain(by_the_minute) {
        let kept = said_to_be_kept(name);
        // The harder game is to be won, or the easier one to be lost.
        let durations = if kept { Durations::LeastToMost } else { Durations::LeastOrMost };
        assert_eq!(won(&plan, durations), kept, "{name}");
        assert_eq!(check(&plan), if kept { KEPT } else { BROKEN }, "{name}");
    }
}

/// The plan with a minute for its second: the rules then give a sixtieth of
/// every wait, and the same verdict.
fn in_minutes(mut plan: Draft) -> Draft {
    let minutes = |seconds: &mut i64| {
        assert_eq!(*seconds % 60, 0, "{seconds} seconds");
        *seconds /= 60;
    };
    plan.edges.iter_mut().for_each(|edge| minutes(&mut edge.weight));
    for link in &mut plan.links {
        minutes(&mut link.least);
        minutes(&mut link.most);
    }
    plan
}

/// Plans with one number changed by some seconds: a weight, a least or a most.
#[test]
fn changed_plans() {
    let mut tally = Tally::default();
    for name in ["ramp", "ramp-quick", "carpark-quick", "hotel"] {
        let plan = plan_of(name);
        for row in 0..plan.edges.len() + 2 * plan.links.len() {
            for seconds in [-20, -5, -1, 1, 5, 20] {
                if let Some(plan) = changed(&plan, row, seconds) {
                    tally.compare(&plan, format_args!("{name}, row {row}, {seconds} seconds"));
                }
            }
        }
    }
    println!("changed_plans: {} checks compared with the game: {tally:?}", tally.won + tally.lost);
    assert!(tally.won > 100 && tally.lost_with_every_column > 20, "{tally:?}");
}

fn changed(plan: &Draft, row: usize, seconds: i64) -> Option<Draft> {
    let mut plan = plan.clone();
    let edges = plan.edges.len();
    if row < edges {
        plan.edges[row].weight += seconds;
        return Some(plan);
    }
    let link = &mut plan.links[(row - edges) / 2];
    let number = if (row - edges).is_multiple_of(2) { &mut link.least } else { &mut link.most };
    *number += seconds;
    (0 < link.least && link.least < link.most).then_some(plan)
}

/// The verdict of the output beside the plan.
fn said_to_be_kept(name: &str) -> bool {
    let text = String::from_utf8(file(&format!("{name}.out"))).expect("text");
    match text.split_whitespace().next() {
        Some("kept") => true,
        Some("broken") => false,
        other => panic!("{name}.out starts with {other:?}"),
    }
}

/// Without labels on points: the check, the game and the panel pass over them.
fn plan_of(name: &str) -> Draft {
    let bytes = Labelled::of(&file(&format!("{name}.plan"))).without_labels();
    let plan = read(&bytes);
    assert_eq!(plan.bytes(), bytes, "{name}");
    plan
}

fn file(name: &str) -> Vec<u8> {
    let path = PathBuf::from(env!("CARGO_MANIFEST_DIR")).join("../plans").join(name);
    fs::read(&path).unwrap_or_else(|error| panic!("{}: {error}", path.display()))
}

// ----------------------------------------------------------- comparison

#[derive(Debug, Default)]
struct Tally {
    won: u64,
    lost: u64,
    /// Lost, although every column of the workbook passes.
    lost_with_every_column: u64,
    /// Lost, but won if all answers are told beforehand; if all durations are;
    /// if either are.
    lost_unless_answers_told: u64,
    lost_unless_durations_told: u64,
    lost_unless_either_told: u64,
    with_links_and_propositions: u64,
    /// A link starts where another one ends.
    with_a_chain: u64,
    /// A link starts where an answer is learnt.
    with_a_link_from_an_answer: u64,
}

impl Tally {
    /// Whether the plan is won. The check has to say the same.
    fn compare(&mut self, plan: &Draft, origin: fmt::Arguments) -> bool {
        let shown = || format!("{origin}, bytes {}", hex(&plan.bytes()));
        let won = won_either_way(plan, &shown);
        assert_eq!(check(plan), if won { KEPT } else { BROKEN }, "won {won}, {}", shown());

        let starts_at = |point: usize| plan.links.iter().any(|link| link.activation == point);
        self.won += u64::from(won);
        self.lost += u64::from(!won);
        self.lost_with_every_column += u64::from(!won && passes_every_column(plan));
        let answers_help = !won && won_with_answers_told(plan);
        let durations_help = !won && won_with_durations_told(plan);
        self.lost_unless_answers_told += u64::from(answers_help);
        self.lost_unless_durations_told += u64::from(durations_help);
        self.lost_unless_either_told += u64::from(answers_help && durations_help);
        self.with_links_and_propositions += u64::from(!plan.links.is_empty() && !plan.observing.is_empty());
        self.with_a_chain += u64::from(plan.links.iter().any(|link| starts_at(link.end)));
        self.with_a_link_from_an_answer += u64::from(plan.observing.iter().any(|point| starts_at(*point)));
        won
    }

    /// Enough plans of every kind, so that the comparison means something.
    fn is_enough(&self) {
        let all = self.won + self.lost;
        assert!(all > 10_000, "{self:?}");
        assert!(self.won > all / 4 && self.lost > all / 4, "{self:?}");
        assert!(self.lost_with_every_column > self.lost / 2, "{self:?}");
        assert!(self.lost_unless_answers_told > self.lost / 5, "{self:?}");
        assert!(self.lost_unless_durations_told > self.lost / 10, "{self:?}");
        assert!(self.lost_unless_either_told > self.lost / 50, "{self:?}");
        assert!(self.with_links_and_propositions > all / 2, "{self:?}");
        assert!(self.with_a_chain > all / 20 && self.with_a_link_from_an_answer > all / 20, "{self:?}");
    }
}

/// Whether the plan is won: if links take their least or their most, and as
/// well if they take any time between.
fn won_either_way(plan: &Draft, shown: &dyn Fn() -> String) -> bool {
    let answer = won(plan, Durations::LeastOrMost);
    assert_eq!(won(plan, Durations::LeastToMost), answer, "won {answer} with least or most, {}", shown());
    answer
}

fn check(plan: &Draft) -> u32 {
    check_with_table(plan).0
}

/// The answer, and the table that the check leaves.
fn check_with_table(plan: &Draft) -> (u32, Vec<u32>) {
    let (mut first, mut second) = (vec![0; cells(plan)], vec![0; cells(plan)]);
    let answer = library::check(&plan.bytes(), &mut first, &mut second, SULGRACH_ROUNDS, &mut [0]);
    (answer, first)
}

fn cells(plan: &Draft) -> usize {
    plan.points << plan.links.len() << (2 * plan.observing.len())
}

// --------------------------------------------------- following the table

/// The plans of the game's test, of its first seeds.
#[test]
fn generated_plans_followed() {
    let count = times(300);
    println!("up to {STEPS} plans of each of {count} seeds from 0");
    let mut followed = Followed::default();
    for seed in 0..count {
        walk(seed, &SIZES, &[2, 3, 4, 8], |plan, step| {
            followed.follow_or_list(plan, format_args!("seed {seed}, step {step}"))
        });
    }
    println!("generated_plans_followed: {} dramas, each in three orders: {followed:?}", followed.dramas);
    assert!(followed.kept > 2_000 && followed.listed > followed.broken / 100 * 99, "{followed:?}");
    followed.is_enough();
}

/// More links and more propositions than the game's test has. The listings of
/// such plans are often too long.
#[test]
fn larger_plans_followed() {
    let count = times(60);
    println!("up to {STEPS} plans of each of {count} seeds from 0");
    let mut followed = Followed::default();
    for seed in 0..count {
        walk(seed, &LARGER_SIZES, &[3, 4], |plan, step| {
            followed.follow(plan, format_args!("seed {seed}, step {step}"))
        });
    }
    println!("larger_plans_followed: {} dramas, each in three orders: {followed:?}", followed.dramas);
    followed.is_enough();
}

/// Every plan of the folder, with every whole duration of its links.
#[test]
fn written_plans_followed() {
    let mut followed = Followed::default();
    for path in plan_files() {
        let name = path.file_stem().and_then(|stem| stem.to_str()).expect("a name");
        let before = followed.wrong;
        let kept = followed.follow_or_list(&plan_of(name), format_args!("{name}"));
        assert_eq!(kept, said_to_be_kept(name), "{name}");
        let broken_by: Vec<bool> = iter::zip(followed.wrong, before).map(|(now, then)| now > then).collect();
        let late = LATENESS_DECIDES.contains(&name);
        assert_eq!(broken_by, [late, late, late || ANSWERS_DECIDE.contains(&name)], "{name}");
    }
    println!("written_plans_followed: {} dramas, each in three orders: {followed:?}", followed.dramas);
    assert!(followed.kept >= 12 && followed.broken >= 10, "{followed:?}");
    assert_eq!(followed.listed, followed.broken, "{followed:?}");
    assert!(followed.kept_with_durations_between >= 7 && followed.dramas > 100_000, "{followed:?}");
    assert!(followed.kept_and_dramas_compared >= 6, "{followed:?}");
    let named = (LATENESS_DECIDES.len() as u64, ANSWERS_DECIDE.len() as u64);
    assert_eq!(followed.wrong, [named.0, named.0, named.0 + named.1], "a plan that is named is missing");
}

/// The plans that README.md names: every wrong rule breaks rows of the first,
/// and of the others only the one that does not wait for answers.
const LATENESS_DECIDES: [&str; 5] = ["carpark-quick", "coldstore", "corridor", "hotel", "tower-early"];
const ANSWERS_DECIDE: [&str; 3] = ["c10", "ramp-quick", "smoke-extract"];

const WRONG: [Rule; 3] = [Rule::ForgetsLateness, Rule::ForgetsLongest, Rule::BeforeAnswers];

/// Dramas are compared with each other where a plan has no more than these.
const MOST_COMPARED: usize = 100;

#[derive(Debug, Default)]
struct Followed {
    broken: u64,
    /// Broken, with a listing that replay accepts.
    listed: u64,
    kept: u64,
    kept_with_links_and_propositions: u64,
    /// A link of it may take neither its least nor its most.
    kept_with_durations_between: u64,
    kept_and_dramas_compared: u64,
    dramas: u64,
    /// Kept plans with a drama in which this wrong rule breaks a row.
    wrong: [u64; 3],
}

impl Followed {
    /// Whether the plan is kept. If it is broken, there has to be a listing, unless
    /// it would be too long.
    fn follow_or_list(&mut self, plan: &Draft, origin: fmt::Arguments) -> bool {
        let kept = self.follow(plan, origin);
        let shown = || format!("{origin}, bytes {}", hex(&plan.bytes()));
        self.listed += u64::from(!kept && has_listing(plan, &shown));
        kept
    }

    /// Whether the plan is kept. The panel then has to keep it in every drama.
    fn follow(&mut self, draft: &Draft, origin: fmt::Arguments) -> bool {
        let bytes = draft.bytes();
        let shown = || format!("{origin}, bytes {}", hex(&bytes));
        let (answer, table) = check_with_table(draft);
        if answer == BROKEN {
            self.broken += 1;
            return false;
        }
        assert_eq!(answer, KEPT, "{}", shown());
        let plan = accepted(draft);
        let dramas = dramas(&plan);
        let compared = dramas.len() <= MOST_COMPARED;
        follows_table(&plan, &table, &dramas, compared, &shown);

        let between = |link: &Link| link.most - link.least >= 2;
        self.kept += 1;
        self.kept_with_links_and_propositions +=
            u64::from(!plan.links.is_empty() && !plan.observing.is_empty());
        self.kept_with_durations_between += u64::from(plan.links.iter().any(between));
        self.kept_and_dramas_compared += u64::from(compared);
        self.dramas += dramas.len() as u64;
        for (rule, count) in WRONG.into_iter().zip(&mut self.wrong) {
            *count += u64::from(breaks_a_row(&Panel::new(&plan, &table, rule), &plan, &dramas));
        }
        true
    }

    /// Enough plans of every kind, so that following them means something.
    fn is_enough(&self) {
        let Followed { kept, broken, .. } = *self;
        assert!(kept > 300 && kept > broken / 4 && broken > kept / 4, "{self:?}");
        assert!(self.kept_with_links_and_propositions > kept / 3, "{self:?}");
        assert!(self.kept_with_durations_between > kept / 3, "{self:?}");
        assert!(self.kept_and_dramas_compared > kept / 5, "{self:?}");
        assert!(self.dramas > 10 * kept, "{self:?}");
        assert!(self.wrong.iter().all(|count| *count > kept / 10), "{self:?}");
    }
}

fn accepted(draft: &Draft) -> Plan {
    second::read(&draft.bytes()).unwrap_or_else(|refusal| panic!("refused {refusal}: {draft:?}"))
}

/// Which of the points that may go comes first: the lowest, the highest, or
/// another one.
fn preferences(points: usize) -> [Vec<usize>; 3] {
    let lowest: Vec<usize> = (0..points).collect();
    let highest = lowest.iter().copied().rev().collect();
    let mut other = lowest.clone();
    Random::new(0).shuffle(&mut other);
    [lowest, highest, other]
}

/// The panel keeps the plan in these dramas, in each of three orders. The order
/// changes no time, since what is learnt only makes lines disagree; nor do
/// lines with an unknown digit.
fn follows_table(plan: &Plan, table: &[u32], dramas: &[Drama], compared: bool, shown: &dyn Fn() -> String) {
    let panel = Panel::new(plan, table, Rule::Right);
    let mut times: Vec<Vec<i64>> = Vec::new();
    for preference in preferences(plan.points) {
        let run = |drama: &Drama| -> Run {
            let case = || format!("{drama:?}, first of {preference:?}, {}", shown());
            let run = panel.run(drama, &preference);
            let run = run.unwrap_or_else(|| panic!("a point is left out: {}", case()));
            assert!(keeps(plan, drama, &run.times), "{run:?}, {}", case());
            run
        };
        let runs: Vec<Run> = dramas.iter().map(run).collect();
        let reacts = !compared || reacts_to_what_is_seen(plan, dramas, &runs);
        assert!(reacts, "first of {preference:?}, {}", shown());
        let times_now: Vec<Vec<i64>> = runs.into_iter().map(|run| run.times).collect();
        assert!(times.is_empty() || times == times_now, "first of {preference:?}, {}", shown());
        times = times_now;
    }
    let minds_more = Panel::new(plan, table, Rule::CountsUnknown);
    let [lowest, ..] = preferences(plan.points);
    for (drama, times) in dramas.iter().zip(times) {
        let run = minds_more.run(drama, &lowest);
        assert_eq!(run.map(|run| run.times), Some(times), "{drama:?}, {}", shown());
    }
}

/// Whether there is a drama in which all points come and a row is broken.
fn breaks_a_row(panel: &Panel, plan: &Plan, dramas: &[Drama]) -> bool {
    let breaks = |drama: &Drama, preference: &Vec<usize>| {
        let run = panel.run(drama, preference);
        run.is_some_and(|run| !keeps(plan, drama, &run.times))
    };
    let preferences = preferences(plan.points);
    dramas.iter().any(|drama| preferences.iter().any(|preference| breaks(drama, preference)))
}

/// Whether the plan's listing is handed over, as it is unless it has too many
/// lines. Replay has to accept one that is handed over.
fn has_listing(plan: &Draft, shown: &dyn Fn() -> String) -> bool {
    let (mut first, mut second) = (vec![0; cells(plan)], vec![0; cells(plan)]);
    let (mut index, mut out) = (vec![0; cells(plan)], vec![0; SULGRACH_LISTING as usize]);
    let (limit, mut numbers) = (SULGRACH_ROUNDS, [0, 0]);
    let bytes = plan.bytes();
    let answer = library::list(&bytes, &mut first, &mut second, limit, &mut index, &mut out, &mut numbers);
    if answer == refused(7) {
        assert!(run_and_list(&accepted(plan), limit).lines.len() > MOST_LINES, "{}", shown());
        return false;
    }
    assert_eq!(answer, BROKEN, "{}", shown());
    assert_eq!(library::replay(&bytes, &out[..numbers[1] as usize]), 0, "{}", shown());
    true
}

// --------------------------------------------- following the table, by hand

/// The quick ramp: the beam is asked when the shutter is down, and the jet fans
/// start then if it says no, and at 180 s if it says yes.
#[test]
fn quick_ramp_followed() {
    let plan = plan_of("ramp-quick");
    for down in 15..=60 {
        assert_eq!(times_by(Rule::Right, &plan, 1, &[down]), [0, down, down, 180]);
        assert_eq!(times_by(Rule::Right, &plan, 2, &[down]), [0, down, down, down]);
    }
    // Started without the answer, the jet fans do not wait for 180 s.
    let early = times_by(Rule::BeforeAnswers, &plan, 1, &[30]);
    assert_eq!(early, [0, 30, 30, 30]);
    assert!(!keeps(&accepted(&plan), &Drama { scenario: 1, situation: vec![30] }, &early));
}

/// A fan at least 1 s after a damper that takes 1 to 3 s has opened: with the
/// wrong rules it starts at once if the damper is late, or takes its most.
#[test]
fn late_damper_followed() {
    let link = Link { activation: 0, end: 1, least: 1, most: 3 };
    let edge = Edge { from: 2, to: 1, weight: -1, label: 0 };
    let plan = Draft { points: 3, observing: vec![], links: vec![link], edges: vec![edge] };
    for (rule, times) in [
        (Rule::Right, [[0, 1, 2], [0, 2, 3], [0, 3, 4]]),
        (Rule::ForgetsLateness, [[0, 1, 2], [0, 2, 2], [0, 3, 3]]),
        (Rule::ForgetsLongest, [[0, 1, 2], [0, 2, 3], [0, 3, 3]]),
    ] {
        for (opens, times) in (1..=3).zip(times) {
            assert_eq!(times_by(rule, &plan, 0, &[opens]), times, "{rule:?}");
            let drama = Drama { scenario: 0, situation: vec![opens] };
            assert_eq!(keeps(&accepted(&plan), &drama, &times), times[2] > times[1], "{times:?}");
        }
    }
}

/// Doors that wait 1 s if the answer of point 1 is yes: with the wrong rule they
/// are released before it has been asked.
#[test]
fn open_answer_followed() {
    let edge = Edge { from: 2, to: 0, weight: -1, label: 1 };
    let plan = Draft { points: 3, observing: vec![1], links: vec![], edges: vec![edge] };
    assert_eq!(times_by(Rule::Right, &plan, 1, &[]), [0, 0, 1]);
    assert_eq!(times_by(Rule::Right, &plan, 2, &[]), [0, 0, 0]);
    assert_eq!(times_by(Rule::BeforeAnswers, &plan, 1, &[]), [0, 0, 0]);
    let yes = Drama { scenario: 1, situation: vec![] };
    assert!(keeps(&accepted(&plan), &yes, &[0, 0, 1]));
    assert!(!keeps(&accepted(&plan), &yes, &[0, 0, 0]));
}

/// When each point comes, the highest of those that may go first.
fn times_by(rule: Rule, draft: &Draft, scenario: u8, situation: &[i64]) -> Vec<i64> {
    let (answer, table) = check_with_table(draft);
    assert_eq!(answer, KEPT, "{draft:?}");
    let [_, highest, _] = preferences(draft.points);
    let drama = Drama { scenario, situation: situation.to_vec() };
    let run = Panel::new(&accepted(draft), &table, rule).run(&drama, &highest);
    run.expect("no point is left out").times
}

/// Two links, each from the other's end, never start; and a point that waits
/// until after the horizon counts as left out.
#[test]
fn points_left_out() {
    let link = |activation, end| Link { activation, end, least: 1, most: 2 };
    let left_out = |links: Vec<Link>, wait: u32| {
        let situation = links.iter().map(|link| link.least).collect();
        let plan = accepted(&Draft { points: 4, observing: vec![], links, edges: vec![] });
        let table = vec![wait; plan.cells()];
        let drama = Drama { scenario: 0, situation };
        Panel::new(&plan, &table, Rule::Right).run(&drama, &[0, 1, 2, 3]).is_none()
    };
    assert!(left_out(vec![link(1, 2), link(2, 1)], 0) && left_out(vec![link(1, 2), link(2, 1)], 1));
    assert!(!left_out(vec![link(1, 2)], 0) && !left_out(vec![link(1, 2)], 1));
    assert!(left_out(vec![link(1, 2)], 100));
}

/// Point 0 at another second, or a link that does not take its duration.
#[test]
fn times_that_do_not_keep() {
    let plan = accepted(&plan_of("c5"));
    let drama = Drama { scenario: 0, situation: vec![3] };
    assert!(keeps(&plan, &drama, &[0, 3]));
    assert!(!keeps(&plan, &drama, &[1, 4]));
    assert!(!keeps(&plan, &drama, &[0, 2]) && !keeps(&plan, &drama, &[0, 4]));
}

/// Runs that no panel makes: a point knows an answer before it is learnt, or a
/// duration before the link has ended.
#[test]
fn reactions_to_what_is_not_seen() {
    let plan = Draft { points: 3, observing: vec![1], links: vec![], edges: vec![] };
    let run = |times: [i64; 3], order: [usize; 3]| Run { times: times.to_vec(), order: order.to_vec() };
    let react = |plan: &Draft, runs: &[Run]| {
        let plan = accepted(plan);
        reacts_to_what_is_seen(&plan, &dramas(&plan), runs)
    };
    // The answer is yes in the first drama and no in the second.
    assert!(react(&plan, &[run([0, 2, 2], [0, 1, 2]), run([0, 2, 3], [0, 1, 2])]));
    assert!(!react(&plan, &[run([0, 2, 2], [0, 2, 1]), run([0, 2, 3], [0, 1, 2])]));
    assert!(!react(&plan, &[run([0, 2, 1], [0, 2, 1]), run([0, 2, 3], [0, 1, 2])]));
    assert!(!react(&plan, &[run([0, 2, 3], [0, 1, 2]), run([0, 2, 1], [0, 2, 1])]));

    // Both are asked at once. The first answer is yes in the first two dramas,
    // and which is asked first may not depend on it.
    let plan = Draft { points: 3, observing: vec![1, 2], links: vec![], edges: vec![] };
    let at_once = |order| run([0, 0, 0], order);
    let (first, other) = (at_once([0, 1, 2]), at_once([0, 2, 1]));
    assert!(react(&plan, &[first.clone(), first.clone(), first.clone(), first.clone()]));
    assert!(!react(&plan, &[first.clone(), first, other.clone(), other]));

    // The link takes 1 s in the first drama, and 2 s and 3 s in the others.
    let link = Link { activation: 0, end: 1, least: 1, most: 3 };
    let plan = Draft { points: 3, observing: vec![], links: vec![link], edges: vec![] };
    let ends_first = |times| run(times, [0, 1, 2]);
    let goes_first = |times| run(times, [0, 2, 1]);
    assert!(react(&plan, &[ends_first([0, 1, 1]), ends_first([0, 2, 2]), ends_first([0, 3, 5])]));
    assert!(react(&plan, &[ends_first([0, 1, 4]), goes_first([0, 2, 1]), goes_first([0, 3, 1])]));
    assert!(!react(&plan, &[ends_first([0, 1, 1]), goes_first([0, 2, 1]), ends_first([0, 3, 5])]));
    assert!(!react(&plan, &[ends_first([0, 1, 1]), ends_first([0, 2, 2]), goes_first([0, 3, 1])]));
}

// ----------------------------------------------------------------- plans

/// Numbers of points, propositions and links.
type Sizes = (usize, usize, usize);

const SIZES: [Sizes; 23] = [
    (2, 0, 1),
    (3, 0, 2),
    (4, 0, 2),
    (5, 0, 2),
    (2, 1, 0),
    (3, 1, 0),
    (4, 1, 0),
    (5, 2, 0),
    (3, 1, 1),
    (4, 1, 1),
    (4, 1, 1),
    (4, 2, 1),
    (4, 1, 2),
    (5, 1, 1),
    (5, 1, 1),
    (5, 2, 1),
    (5, 2, 1),
    (5, 1, 2),
    (5, 1, 2),
    (5, 2, 2),
    (6, 1, 2),
    (6, 2, 1),
    (6, 2, 2),
];

const SMALL_SIZES: [Sizes; 8] =
    [(3, 0, 2), (3, 1, 1), (3, 2, 0), (4, 0, 2), (4, 1, 1), (4, 1, 2), (4, 2, 0), (4, 2, 1)];

const LARGER_SIZES: [Sizes; 5] = [(6, 0, 3), (6, 1, 3), (6, 3, 1), (7, 1, 4), (7, 2, 3)];

/// The plans of a seed: a plan that is won, as `is_won` says, is tightened, and
/// one that is lost is relaxed step by step. So most plans lie at the border,
/// where a second decides.
fn walk(seed: u64, sizes: &[Sizes], longest: &[i64], mut is_won: impl FnMut(&Draft, u64) -> bool) {
    let mut random = Random::new(seed);
    let longest = random.pick(longest);
    let mut plan = without_edges(&mut random, sizes, longest);
    for _ in 0..plan.points {
        plan = tighter(&mut random, &plan, longest);
    }
    for step in 0..STEPS {
        if is_won(&plan, step) {
            for _ in 0..random.between(1, 4) {
                plan = tighter(&mut random, &plan, longest);
            }
        } else if !relax(&mut random, &mut plan) {
            return;
        }
    }
}

fn without_edges(random: &mut Random, sizes: &[Sizes], longest: i64) -> Draft {
    let (points, p, k) = random.pick(sizes);
    let mut others: Vec<usize> = (1..points).collect();
    random.shuffle(&mut others);
    let mut plan = Draft { points, observing: others[..p].to_vec(), links: Vec::new(), edges: Vec::new() };
    for &end in &others[p..p + k] {
        let activation = match (random.below(10), plan.links.last()) {
            (0..=2, _) => 0,
            (3..=5, Some(link)) => link.end,
            _ => other_point(random, points, end),
        };
        let least = random.between(1, longest / 2);
        let most = random.between(least + 1, longest);
        plan.links.push(Link { activation, end, least, most });
    }
    plan
}

fn other_point(random: &mut Random, points: usize, point: usize) -> usize {
    (point + 1 + random.below(points - 1)) % points
}

/// A step towards a plan that is lost, most often one that still passes every
/// column of the workbook. Where none is found, it is a step back.
fn tighter(random: &mut Random, plan: &Draft, longest: i64) -> Draft {
    for _ in 0..20 {
        let mut tighter = plan.clone();
        tighten(random, &mut tighter, longest);
        let same = tighter.edges == plan.edges && tighter.links == plan.links;
        if !same && (random.chance(1) || passes_every_column(&tighter)) {
            return tighter;
        }
    }
    let mut looser = plan.clone();
    relax(random, &mut looser);
    looser
}

fn tighten(random: &mut Random, plan: &mut Draft, longest: i64) {
    let edges = plan.edges.len();
    let row = random.below(edges + plan.links.len() + 1);
    if edges < 3 * plan.points && random.chance(40) {
        add_edges(random, plan, longest);
    } else if row < edges {
        let edge = &mut plan.edges[row];
        edge.weight = (edge.weight - 1).max(-longest);
    } else if let Some(link) = plan.links.get_mut(row - edges) {
        if random.chance(50) {
            link.most = (link.most + 1).min(longest);
        } else {
            link.least = (link.least - 1).max(1);
        }
    }
}

/// One edge; or two, for a gap that depends on an answer, or for a gap with two
/// bounds before or after a link's end.
fn add_edges(random: &mut Random, plan: &mut Draft, longest: i64) {
    let (p, k) = (plan.observing.len(), plan.links.len());
    let kind = random.below(10);
    let to_an_end = kind < 3 && k > 0;
    let to = if to_an_end { random.pick(&plan.links).end } else { random.below(plan.points) };
    let from = other_point(random, plan.points, to);
    let weight = if random.chance(20) { 0 } else { random.between(-longest, longest) };
    let any_label = (0..p).fold(0, |label, j| label | random.pick(&[0, 0, 1, 2]) << (2 * j));
    let (label, back) = if to_an_end {
        (any_label, Some((any_label, random.between(0, 2))))
    } else if kind < 6 && p > 0 {
        let (j, answer) = (random.below(p), random.pick(&[1, 2]));
        (answer << (2 * j), Some(((3 - answer) << (2 * j), random.between(-2, 2))))
    } else {
        (any_label, None)
    };
    plan.edges.push(Edge { from, to, weight, label });
    if let Some((label, room)) = back {
        plan.edges.push(Edge { from: to, to: from, weight: (room - weight).max(-longest), label });
    }
}

/// A step towards a plan that is won, if there are edges left.
fn relax(random: &mut Random, plan: &mut Draft) -> bool {
    if plan.edges.is_empty() {
        return false;
    }
    let row = random.below(plan.edges.len());
    if random.chance(10) {
        plan.edges.swap_remove(row);
    } else {
        plan.edges[row].weight += 1;
    }
    true
}

// ------------------------------------------------- the game, played plainly

/// The game with times counted from second 0 up to a last second, and with the
/// edges looked at when all points have come.
struct Plainly<'a> {
    plan: &'a Draft,
    last: i64,
    /// What has been seen by the start of a second, and whether the panel wins.
    known: HashMap<Seen, bool>,
}

#[derive(Clone, PartialEq, Eq, Hash)]
struct Seen {
    now: i64,
    times: Vec<Option<i64>>,
    answers: Vec<Option<bool>>,
}

impl Seen {
    /// The same, and this point comes now.
    fn with(&self, point: usize) -> Seen {
        let mut next = self.clone();
        next.times[point] = Some(self.now);
        next
    }
}

/// Whether the panel can win. A pause longer than every duration and every
/// least gap gains nothing; the last second leaves room for such a pause
/// before each point and for one more.
fn plainly_won(plan: &Draft) -> bool {
    let gaps = plan.edges.iter().map(|edge| -edge.weight);
    let longest = gaps.chain(plan.links.iter().map(|link| link.most)).fold(0, i64::max);
    let last = (plan.points as i64 + 1) * longest;
    let start = Seen { now: 0, times: vec![None; plan.points], answers: vec![None; plan.observing.len()] };
    Plainly { plan, last, known: HashMap::new() }.second(start.with(0))
}

impl Plainly<'_> {
    fn second(&mut self, seen: Seen) -> bool {
        if let Some(&won) = self.known.get(&seen) {
            return won;
        }
        let won = seen.now <= self.last && self.links_end(seen.clone(), 0);
        self.known.insert(seen, won);
        won
    }

    fn links_end(&mut self, seen: Seen, row: usize) -> bool {
        let Some(link) = self.plan.links.get(row) else { return self.observe(seen) };
        let (Some(start), None) = (seen.times[link.activation], seen.times[link.end]) else {
            return self.links_end(seen, row + 1);
        };
        let ends = [link.least, link.most].contains(&(seen.now - start));
        let runs = seen.now - start != link.most;
        (!ends || self.links_end(seen.with(link.end), row + 1)) && (!runs || self.links_end(seen, row + 1))
    }

    fn observe(&mut self, seen: Seen) -> bool {
        for (j, &point) in self.plan.observing.iter().enumerate() {
            let mut asked = seen.with(point);
            let mut wins = |answer: bool| {
                asked.answers[j] = Some(answer);
                self.observe(asked.clone())
            };
            if seen.times[point].is_none() && wins(true) && wins(false) {
                return true;
            }
        }
        self.execute(seen, 1)
    }

    fn execute(&mut self, seen: Seen, point: usize) -> bool {
        if point == self.plan.points {
            return self.end(seen);
        }
        let plan = self.plan;
        let chosen = !plan.observing.contains(&point) && plan.links.iter().all(|link| link.end != point);
        let now = chosen && seen.times[point].is_none() && self.execute(seen.with(point), point + 1);
        now || self.execute(seen, point + 1)
    }

    /// The end of a second, or of the game.
    fn end(&mut self, seen: Seen) -> bool {
        let Some(times) = seen.times.iter().copied().collect::<Option<Vec<i64>>>() else {
            return self.second(Seen { now: seen.now + 1, ..seen });
        };
        self.plan.edges.iter().all(|edge| {
            let is_true = |(j, answer): (usize, &Option<bool>)| match edge.label >> (2 * j) & 3 {
                1 => *answer == Some(true),
                2 => *answer == Some(false),
                _ => true,
            };
            times[edge.to] - times[edge.from] <= edge.weight || !seen.answers.iter().enumerate().all(is_true)
        })
    }
}
