//! The rows that break a plan: which of them remain, the tables of the trial that
//! shows it, and every refusal in its place.

use std::collections::BTreeMap;
use std::fmt::Display;
use std::fs;
use sulgrach_tests::compare::{self, Lengths};
use sulgrach_tests::game::{self, Durations};
use sulgrach_tests::generate::faults::{faulty, faulty_many_times, FAULTS};
use sulgrach_tests::generate::point_labels::with_label_bytes;
use sulgrach_tests::generate::rows::{contradiction, crowded, kept, wide, with_contradictions};
use sulgrach_tests::generate::{hex, plan_before_lengthening, samples, Class, Draft, Random};
use sulgrach_tests::library::header::SULGRACH_EDGES;
use sulgrach_tests::library::{self, refused, DONE, KEPT};
use sulgrach_tests::second::{self, Edge, Link, Plan, Refusal, Verdict, EVERY_PLAN, MOST_CELLS};
use sulgrach_tests::tally::has_long_timer;
use sulgrach_tests::trials::{self, without, Mistake, MISTAKES};
use sulgrach_tests::{plan_files, times};

// --------------------------------------------------------------- by hand

/// `later` comes at most `gap` after `earlier`.
fn within(later: usize, earlier: usize, gap: i64) -> Edge {
    Edge { from: earlier, to: later, weight: gap, label: 0 }
}

/// `later` comes at least `gap` after `earlier`.
fn after(later: usize, earlier: usize, gap: i64) -> Edge {
    Edge { from: later, to: earlier, weight: -gap, label: 0 }
}

/// A link from Z to point 1 that takes 2 to 5 s.
const LINK: Link = Link { activation: 0, end: 1, least: 2, most: 5 };

fn plan_of(points: usize, links: &[Link], edges: &[Edge]) -> Vec<u8> {
    Draft { points, observing: vec![], links: links.to_vec(), edges: edges.to_vec() }.bytes()
}

/// Codes, marks, numbers and tables, with more memory lent than is due or just
/// that. Told here without the second checker.
#[test]
fn answers_by_hand() {
    // Plan; code, marks, cells.
    type Case = (Vec<u8>, u32, &'static [u8], &'static [u32]);
    let cases: [Case; 14] = [
        (plan_of(2, &[], &[within(1, 0, 5), after(1, 0, 6)]), DONE, &[1, 1], &[1, 6]),
        (plan_of(2, &[], &[within(1, 0, 5), within(1, 0, 9), after(1, 0, 6)]), DONE, &[1, 0, 1], &[1, 6]),
        (plan_of(2, &[], &[within(1, 0, 5), within(1, 0, 5), after(1, 0, 6)]), DONE, &[0, 1, 1], &[1, 6]),
        // The last of each kind remains, be it the narrower bound or not.
        (plan_of(2, &[], &[after(1, 0, 9), within(1, 0, 5), after(1, 0, 6)]), DONE, &[0, 1, 1], &[1, 6]),
        (plan_of(2, &[], &[after(1, 0, 6), within(1, 0, 5), after(1, 0, 9)]), DONE, &[0, 1, 1], &[4, 9]),
        // Rows that break a plan by themselves.
        (plan_of(2, &[], &[within(1, 0, -3)]), DONE, &[1], &[3, 0]),
        (plan_of(2, &[], &[within(1, 0, -3), within(1, 0, -7), after(1, 0, 4)]), DONE, &[0, 1, 0], &[7, 0]),
        // Two points wait for each other, a second more every other round, up to
        // the horizon of the whole plan: 3 × 10 s. With that of their own rows,
        // 3 s, they would end at 4 s, and their own number of rounds, 16, would not
        // take them to 31 s.
        (plan_of(3, &[], &[after(1, 0, 10), after(1, 2, 1), after(2, 1, 0)]), DONE, &[0, 1, 1], &[1, 31, 31]),
        // Nobody can hurry the link or hold it back. The first row is left out.
        (plan_of(2, &[LINK], &[within(1, 0, 4), after(1, 0, 3)]), DONE, &[0, 1], &[1, 0, 3, 5]),
        (plan_of(2, &[LINK], &[after(1, 0, 3), within(1, 0, 4)]), DONE, &[0, 1], &[0, 1, 2, 5]),
        (plan_of(2, &[LINK], &[within(1, 0, 5), after(1, 0, 2)]), refused(16), &[], &[0, 0, 2, 5]),
        (plan_of(2, &[LINK], &[]), refused(16), &[], &[0, 0, 2, 5]),
        (plan_of(2, &[], &[within(1, 0, 5), after(1, 0, 3)]), refused(16), &[], &[0, 3]),
        (plan_of(3, &[], &[]), refused(16), &[], &[0, 0, 0]),
    ];
    cases.iter().for_each(|(plan, code, marks, cells)| answered_by_hand(plan, *code, marks, cells));
    println!("answers_by_hand: 4 times the rows of {} plans", cases.len());
}

/// Code, marks, numbers and tables of a plan, on memory of four lengths.
fn answered_by_hand(plan: &[u8], code: u32, marks: &[u8], cells: &[u32]) {
    let edges = usize::from(plan[3]);
    for (past, numbers) in [(0, 0), (0, 1), (1, 2), (9, 64)] {
        let [mut first, mut second] = [(); 2].map(|()| vec![0xa5a5_a5a5; cells.len() + past]);
        let mut rows = vec![0xa5; edges + past];
        let mut numbers = vec![0x5a5a_5a5a_5a5a_5a5a; numbers];
        let mut due = (code, first.clone(), second.clone(), rows.clone(), numbers.clone());
        due.1[..cells.len()].copy_from_slice(cells);
        due.2[..cells.len()].copy_from_slice(cells);
        due.3[..marks.len()].copy_from_slice(marks);
        if let (DONE, Some(number)) = (code, due.4.first_mut()) {
            *number = marks.iter().map(|&mark| u64::from(mark)).sum();
        }
        let found = library::breaking_rows(plan, &mut first, &mut second, &mut rows, &mut numbers);
        let case = format!("plan {}, {past} entries past those due", hex(plan));
        assert_eq!((found, first, second, rows, numbers), due, "{case}");
    }
}

/// Point 2 exists only under yes, which is learnt at point 1, and an edge says that it
/// comes later: the plan is refused without that edge, and a trial is not. Told here
/// without the second checker.
#[test]
fn labels_do_not_judge_trials() {
    let due = |gap| Edge { label: 1, ..after(2, 1, gap) };
    let bound = |gap| Edge { label: 1, ..within(2, 0, gap) };
    let (early, late) = (within(1, 0, 5), after(1, 0, 6));
    let contradiction: &[u32] = &[1, 0, 0, 0, 6, 0, 0, 0, 0, 0, 0, 0];
    let too_late: &[u32] = &[0, 1, 0, 0, 0, 0, 0, 0, 0, 4, 0, 0];
    let on_time: &[u32] = &[0, 0, 0, 0, 0, 0, 0, 0, 0, 4, 0, 0];
    // Edges; code, marks, cells.
    type Case = (Vec<Edge>, u32, &'static [u8], &'static [u32]);
    let cases: [Case; 7] = [
        // The edge that the label calls for is left out first, between, or last.
        (vec![due(1), early, late], DONE, &[0, 1, 1], contradiction),
        (vec![early, due(1), late], DONE, &[1, 0, 1], contradiction),
        (vec![early, late, due(1)], DONE, &[1, 1, 0], contradiction),
        // It remains where it breaks the plan.
        (vec![due(4), bound(3)], DONE, &[1, 1], too_late),
        (vec![due(4), due(1), bound(3)], DONE, &[1, 0, 1], too_late),
        (vec![bound(3), due(1), due(4)], DONE, &[1, 0, 1], too_late),
        (vec![due(4), bound(4)], refused(16), &[], on_time),
    ];
    for (edges, code, marks, cells) in cases {
        let old = Draft { points: 3, observing: vec![1], links: vec![], edges }.bytes();
        for labels in [[0, 0, 0], [0, 0, 1]] {
            answered_by_hand(&with_label_bytes(&old, &labels), code, marks, cells);
        }
        answered_by_hand(&old, code, marks, cells);
    }
    // Without the edge the plan itself is refused, and before the marks are looked at.
    let unfit = Draft { points: 3, observing: vec![1], links: vec![], edges: vec![early, late] }.bytes();
    let unfit = with_label_bytes(&unfit, &[0, 0, 1]);
    assert_eq!(library::breaking_rows(&unfit, &mut [9; 12], &mut [9; 12], &mut [], &mut []), refused(18));
}

/// Finds the rows with ample memory. What is due is told without the second
/// checker.
fn answered(random: &mut Random, plan: &[u8], due: Result<Vec<usize>, Refusal>, case: &dyn Display) {
    let read = second::read(plan).expect("an accepted plan");
    let lengths = Lengths::ample(random, read.cells(), 0);
    let marks = read.edges.len() + random.pick(&[0, 1, 7, 60]);
    let found = compare::breaking_rows(random, plan, lengths, marks, case);
    assert_eq!(found, due, "{case}");
    if let Ok(rows) = found {
        are_as_wanted(&read, &rows, case);
    }
}

/// "The remaining rows are broken, and with any one of them removed the plan is
/// kept."
fn are_as_wanted(plan: &Plan, rows: &[usize], case: &dyn Display) {
    assert_eq!(second::trial(plan, rows).verdict, Verdict::Broken, "rows {rows:?}; {case}");
    for &row in rows {
        let rest = second::trial(plan, &without(rows, row));
        assert_eq!(rest.verdict, Verdict::Kept, "rows {rows:?} without {row}; {case}");
    }
}

/// All plans of `plans`: the rows that remain of the broken ones, to be read in
/// their texts.
#[test]
fn plans_of_the_folder() {
    let broken: [(&str, &[usize]); 10] = [
        ("c2", &[0, 1]),
        ("c4", &[0, 1]),
        ("c6", &[0]),
        ("c7", &[0]),
        ("c9", &[0, 1, 2]),
        ("ramp", &[0, 1, 2]),
        ("carpark", &[3, 6, 9]),
        ("tower", &[0, 3, 18, 21, 22]),
        ("coldstore-late", &[2, 4, 5]),
        ("smoke-extract-late", &[0, 4, 8, 11]),
    ];
    let mut random = Random::new(0);
    let mut seen = 0;
    for file in plan_files() {
        let name = file.file_stem().and_then(|stem| stem.to_str()).expect("a name");
        let due = broken.iter().find(|(broken, _)| *broken == name).map(|(_, rows)| rows.to_vec());
        let plan = fs::read(&file).expect("a plan");
        seen += usize::from(due.is_some());
        answered(&mut random, &plan, due.ok_or(16), &name);
    }
    assert_eq!(seen, broken.len());
    compare::print_calls("plans_of_the_folder");
}

/// The limit that serves every plan is the number of rounds for the largest one.
#[test]
fn rounds_for_the_largest_plan() {
    let edges = vec![after(31, 0, 28_800)];
    let link = Link { activation: 0, end: 5, least: 1, most: 2 };
    let draft = Draft { points: 32, observing: vec![1, 2, 3, 4], links: vec![link], edges };
    let plan = second::read(&draft.bytes()).expect("an accepted plan");
    assert_eq!((plan.cells(), second::rounds_for(&plan)), (MOST_CELLS, EVERY_PLAN));
}

// ------------------------------------------------ plans made for their rows

/// A plan of Z and so many observing points.
fn bare(propositions: usize) -> Draft {
    Draft { points: 1 + propositions, observing: (1..=propositions).collect(), links: vec![], edges: vec![] }
}

/// An edge between any two of so many points, its weight between these.
fn any_row(random: &mut Random, points: usize, least: i64, most: i64) -> Edge {
    let from = random.below(points);
    let to = (from + 1 + random.below(points - 1)) % points;
    Edge { from, to, weight: random.between(least, most), label: 0 }
}

/// Links each of which starts where another one ends, in a ring: no panel can keep
/// them, whatever the edges are, and no row remains.
#[test]
fn broken_by_links_alone() {
    for (links, count) in [(2, 60), (3, 20), (4, 6)] {
        for seed in 0..times(count) {
            let mut random = Random::new(seed);
            let mut draft = bare(1);
            draft.points = 4 + links;
            for link in 0..links {
                let least = random.between(1, 5);
                let most = least + random.between(1, 5);
                draft.links.push(Link { activation: 2 + link, end: 2 + (link + 1) % links, least, most });
            }
            for _ in 0..seed % 6 {
                let label = random.pick(&[0, 1, 2]);
                draft.edges.push(Edge { label, ..any_row(&mut random, draft.points, -3, 9) });
            }
            let bytes = draft.bytes();
            let case = format!("{links} links in a ring, seed {seed}, plan {}", hex(&bytes));
            answered(&mut random, &bytes, Ok(vec![]), &case);
        }
    }
    compare::print_calls("broken_by_links_alone");
}

/// Edges that contradict each other, through Z or round a ring of other points:
/// none can be spared.
#[test]
fn every_row_needed() {
    for seed in 0..times(4) {
        let mut random = Random::new(seed);
        for points in 1..=31 {
            let mut draft = bare(if points < 10 { random.below(3) } else { 0 });
            draft.edges = contradiction(&mut random, &mut draft, points);
            all_remain(&mut random, draft);
        }
        for points in 2..=10 {
            let mut edges: Vec<Edge> =
                (1..points).map(|point| after(point, point + 1, random.between(-2, 2))).collect();
            let back = edges.iter().map(|edge| edge.weight).sum::<i64>() + 1;
            edges.push(after(points, 1, back));
            all_remain(&mut random, Draft { points: 1 + points, edges, ..bare(0) });
        }
    }
    compare::print_calls("every_row_needed");
}

/// Finds the rows of a plan whose edges are all needed, in any order.
fn all_remain(random: &mut Random, mut draft: Draft) {
    random.shuffle(&mut draft.edges);
    let bytes = draft.bytes();
    let all = (0..draft.edges.len()).collect();
    answered(random, &bytes, Ok(all), &format!("plan {}", hex(&bytes)));
}

/// Ninety rows of which two matter, and more rows of which some do.
#[test]
fn few_of_many_rows() {
    let sizes = [(20, 0, 0), (8, 1, 0), (8, 0, 1), (6, 1, 1)];
    for (n, p, k) in sizes {
        for (rows, points) in [(90, 1), (90, 4), (128, 1), (128, 3)] {
            for seed in 0..times(4) {
                let mut random = Random::new(seed);
                let draft = kept(&mut random, n, p, k, rows - points - 1);
                let (draft, remaining) = with_contradictions(&mut random, draft, &[points]);
                assert_eq!(draft.edges.len(), rows);
                let bytes = draft.bytes();
                answered(&mut random, &bytes, Ok(remaining), &format!("seed {seed}, plan {}", hex(&bytes)));
            }
        }
    }
    compare::print_calls("few_of_many_rows");
}

/// Several contradictions, each of which would do: their order decides which one
/// remains.
#[test]
fn the_order_decides() {
    for seed in 0..times(1_000) {
        let mut random = Random::new(seed);
        let (n, p, k) = random.pick(&[(3, 0, 0), (3, 1, 0), (3, 0, 1), (4, 1, 1)]);
        let rows = random.below(8);
        let draft = kept(&mut random, n, p, k, rows);
        let points: Vec<usize> = (0..random.between(2, 5)).map(|_| random.between(1, 3) as usize).collect();
        let (draft, remaining) = with_contradictions(&mut random, draft, &points);
        let bytes = draft.bytes();
        answered(&mut random, &bytes, Ok(remaining), &format!("seed {seed}, plan {}", hex(&bytes)));
    }
    compare::print_calls("the_order_decides");
}

/// The same with as many cells as a plan may have, or nearly so, and with as many
/// edges: also the longest plan that there is.
#[test]
fn wide_plans() {
    let mut longest = 0;
    for seed in 0..times(40) {
        let mut random = Random::new(seed);
        let (draft, remaining) = wide(&mut random, seed as usize % 20, seed % 4 == 0);
        let bytes = draft.bytes();
        assert!(second::read(&bytes).is_ok_and(|plan| plan.cells() > 15_000), "seed {seed}");
        answered(&mut random, &bytes, Ok(remaining), &format!("seed {seed}, plan {}", hex(&bytes)));
        longest = longest.max(bytes.len());
    }
    // With four links and four propositions a plan would have too many cells.
    assert_eq!(longest, 4 + 3 + 6 * (4 + 128));
    compare::print_calls("wide_plans");
}

/// Points that wait for each other, a second more a turn, and a row that does
/// nothing but set the horizon: it is left out. The others are tried up to the
/// horizon of the whole plan, and with as many rounds as that takes.
#[test]
fn horizon_and_rounds_of_the_whole_plan() {
    for (turn, far) in [(2, 4), (2, 100), (3, 200), (7, 30), (2, 10_000)] {
        let ring = (1..turn).map(|point| after(point, point + 1, 0)).chain([after(turn, 1, 1)]);
        let rows: Vec<Edge> = ring.chain([after(turn + 1, 0, far)]).collect();
        let horizon = (turn as u32 + 2) * far as u32;
        // The last point and the one before it have had one turn more.
        let mut cells = vec![horizon; turn + 2];
        cells[0] = 1;
        cells[turn - 1..=turn].fill(horizon + 1);
        cells[turn + 1] = 0;

        let mut random = Random::new(turn as u64);
        for place in [0, turn / 2, turn] {
            let mut edges = rows.clone();
            edges[place..].rotate_right(1);
            let bytes = plan_of(turn + 2, &[], &edges);
            let case = format!("plan {}", hex(&bytes));
            let all: Vec<usize> = (0..edges.len()).collect();
            answered(&mut random, &bytes, Ok(without(&all, place)), &case);
            let [mut first, mut second] = [(); 2].map(|()| vec![9; cells.len()]);
            library::breaking_rows(&bytes, &mut first, &mut second, &mut vec![9; edges.len()], &mut []);
            assert_eq!((&first, &second), (&cells, &cells), "{case}");

            // The plan is to tell a library that takes the horizon or the number of
            // rounds of the rows that are tried.
            let plan = second::read(&bytes).expect("an accepted plan");
            let by = |mistake| trials::left_by(mistake, &plan, 1_000_000).expect("enough rounds");
            assert_eq!(by(Mistake::OwnRounds).rows, Some(all), "{case}");
            assert_ne!(by(Mistake::OwnHorizon).table, cells, "{case}");
            assert_ne!(by(Mistake::OwnCheck).table, cells, "{case}");
        }
    }
    compare::print_calls("horizon_and_rounds_of_the_whole_plan");
}

// ------------------------------------------------------- by other judges

/// The rows that remain of a plan, by another judge than trials.
fn remaining(draft: &Draft, broken: impl Fn(&Draft) -> bool) -> Result<Vec<usize>, Refusal> {
    let with_rows = |rows: &[usize]| {
        let edges = rows.iter().map(|&row| draft.edges[row]).collect();
        Draft { edges, ..draft.clone() }
    };
    let all: Vec<usize> = (0..draft.edges.len()).collect();
    if broken(draft) {
        Ok(second::rows_that_remain(&all, |rows| broken(&with_rows(rows))))
    } else {
        Err(16)
    }
}

/// Plans without links and propositions: broken are those whose edges go round
/// with a negative sum, all points coming at Z or after it.
#[test]
fn rows_by_shortest_paths() {
    let mut broken = 0;
    for seed in 0..times(1_500) {
        let mut random = Random::new(seed);
        let points = random.between(2, 12) as usize;
        let mut draft = Draft { points, ..bare(0) };
        for _ in 0..random.pick(&[2, 8, 20, 40]) {
            draft.edges.push(any_row(&mut random, points, -5, 20));
        }
        let bytes = draft.bytes();
        let due = remaining(&draft, goes_round_below_zero);
        broken += usize::from(due.is_ok());
        answered(&mut random, &bytes, due, &hex(&bytes));
    }
    println!("{broken} of {} plans are broken", times(1_500));
    compare::print_calls("rows_by_shortest_paths");
}

fn goes_round_below_zero(draft: &Draft) -> bool {
    let mut most = vec![vec![i64::MAX / 2; draft.points]; draft.points];
    most.iter_mut().for_each(|row| row[0] = 0);
    for edge in &draft.edges {
        most[edge.from][edge.to] = most[edge.from][edge.to].min(edge.weight);
    }
    for over in 0..draft.points {
        for from in 0..draft.points {
            for to in 0..draft.points {
                most[from][to] = most[from][to].min(most[from][over] + most[over][to]);
            }
        }
    }
    (0..draft.points).any(|point| most[point][point] < 0)
}

/// Plans with short timers: broken are those that the panel cannot win.
#[test]
fn rows_by_the_game() {
    for (class, count) in [(Class::Small, 3_000), (Class::Decisive, 500)] {
        let mut broken = 0;
        for seed in 8_000_000..8_000_000 + times(count) {
            let bytes = plan_before_lengthening(class, seed);
            let case = format!("{class:?} plan of seed {seed}, bytes {}", hex(&bytes));
            let due = remaining(&game::read(&bytes), |draft| !game::won(draft, Durations::LeastOrMost));
            broken += usize::from(due.is_ok());
            answered(&mut Random::new(seed), &bytes, due, &case);
        }
        println!("{class:?}: {broken} of {} plans are broken", times(count));
    }
    compare::print_calls("rows_by_the_game");
}

// ----------------------------------------------------------- lent memory

/// Marks and tables about as long as is due, in every combination; numbers of any
/// length. A kept plan with too few marks or entries is refused for these.
#[test]
fn lent_memory_of_every_length() {
    // Plan; rows that remain, or the refusal.
    type Case = (Vec<u8>, Result<Vec<usize>, Refusal>);
    let mut plans: Vec<Case> = vec![
        (plan_of(2, &[], &[within(1, 0, 5), after(1, 0, 6)]), Ok(vec![0, 1])),
        (plan_of(2, &[], &[within(1, 0, 5), after(1, 0, 3)]), Err(16)),
        (plan_of(3, &[LINK], &[]), Err(16)),
        (
            plan_of(3, &[Link { activation: 2, ..LINK }, Link { activation: 1, end: 2, ..LINK }], &[]),
            Ok(vec![]),
        ),
    ];
    let mut random = Random::new(0);
    let full = kept(&mut random, 10, 0, 0, SULGRACH_EDGES as usize - 2);
    plans.push((full.bytes(), Err(16)));
    let (draft, rows) = with_contradictions(&mut random, full, &[1]);
    plans.push((draft.bytes(), Ok(rows)));

    for (bytes, due) in plans {
        let plan = second::read(&bytes).expect("an accepted plan");
        let (cells, edges) = (plan.cells(), plan.edges.len());
        for marks in lengths_about(edges) {
            for (first, second) in
                [(cells, cells), (cells + 60, cells + 1), (cells - 1, cells), (cells + 1, cells - 1), (0, 0)]
            {
                let lengths = Lengths { first, second, index: 0, output: 0 };
                let short = marks < edges || first.min(second) < cells;
                let due = if short { Err(6) } else { due.clone() };
                let case = format!("plan {}", hex(&bytes));
                let found = compare::breaking_rows(&mut random, &bytes, lengths, marks, &case);
                assert_eq!(found, due, "{marks} marks, {lengths:?}, {case}");
            }
        }
    }
    compare::print_calls("lent_memory_of_every_length");
}

/// Lengths about this one, and such as 8 or 16 bits take for less.
fn lengths_about(due: usize) -> Vec<usize> {
    let shorter = [0, due / 2, due.saturating_sub(1)];
    shorter.into_iter().chain([due, due + 1, due + 60, 256, 256 + due, 65_536, 65_536 + due]).collect()
}

// -------------------------------------------------------------- refusals

/// Refusals 1 to 5, 17 and 18 come before 6, be it for the tables or for the marks.
#[test]
fn faulty_plans() {
    for (number, fault) in FAULTS.iter().enumerate() {
        for seed in 0..times(20) {
            let mut random = Random::new(seed * 1_000 + number as u64);
            let plan = faulty(&mut random, fault);
            let case = format!("{}, seed {seed}, plan {}", fault.clause, hex(&plan));
            with_other_faults(&mut random, &plan, fault.refusal, &case);
        }
    }
    for seed in 0..times(300) {
        let mut random = Random::new(seed);
        let plan = faulty_many_times(&mut random);
        let case = format!("several faults, seed {seed}, plan {}", hex(&plan));
        // Faults can undo each other.
        if let Err(refusal) = second::read(&plan) {
            with_other_faults(&mut random, &plan, refusal, &case);
        }
    }
    compare::print_calls("faulty_plans");
}

/// A refused plan with too short a table, too few marks, both or neither.
fn with_other_faults(random: &mut Random, plan: &[u8], refusal: Refusal, case: &str) {
    let edges = plan.get(3).map_or(0, |&size| usize::from(size));
    for [few, short] in [[false, false], [true, false], [false, true], [true, true]] {
        let marks =
            if few { random.pick(&[0, 1, edges.saturating_sub(1)]) } else { random.pick(&[edges, 256]) };
        let entries = if short { random.pick(&[0, 1, 20]) } else { MOST_CELLS };
        let lengths = Lengths { first: entries, second: entries, index: 0, output: 0 };
        let found = compare::breaking_rows(random, plan, lengths, marks, &case);
        assert_eq!(found, Err(refusal), "{marks} marks, {lengths:?}, {case}");
    }
}

// ------------------------------------------------------- generated plans

/// The trials of a plan are given so many rounds, times cells. A plan that takes
/// more is passed over, since the second checker is slow.
const MOST_WORK: u64 = 400_000;

fn rounds_given(plan: &Plan) -> u64 {
    MOST_WORK / plan.cells() as u64
}

/// What generated plans come to.
#[derive(Debug, Default)]
struct Tally {
    plans: usize,
    passed_over: usize,
    kept: usize,
    broken: usize,
    /// Of the broken ones: with links and with propositions.
    both: usize,
    /// With a long timer.
    long: usize,
    /// All their rows.
    rows: usize,
    /// How many have so many rows that remain.
    remaining: BTreeMap<usize, usize>,
}

#[test]
fn small_and_decisive_plans() {
    of_class(Class::Small, 3_000);
    of_class(Class::Decisive, 1_000);
    compare::print_calls("small_and_decisive_plans");
}

#[test]
fn mixed_plans() {
    of_class(Class::Mixed, 100);
    compare::print_calls("mixed_plans");
}

#[test]
fn extreme_and_slow_plans() {
    of_class(Class::Extreme, 30);
    of_class(Class::Slow, 100);
    compare::print_calls("extreme_and_slow_plans");
}

fn of_class(class: Class, count: u64) {
    let mut tally = Tally::default();
    for sample in samples(class, 8_000_000, times(count)) {
        tally.compare(&mut Random::new(sample.seed), &sample.plan, &sample);
    }
    println!("{class:?}: {tally:?}");
    tally.is_enough();
}

/// Plans that most often are broken in several ways.
#[test]
fn crowded_plans() {
    let count = times(1_000);
    println!("crowded plans of {count} seeds from 0");
    let mut tally = Tally::default();
    for seed in 0..count {
        let plan = crowded(seed).bytes();
        let case = format!("crowded plan of seed {seed}, bytes {}", hex(&plan));
        tally.compare(&mut Random::new(seed), &plan, &case);
    }
    println!("crowded: {tally:?}");
    tally.is_enough();
    assert!(tally.rows >= 20 * tally.broken, "few rows: {tally:?}");
    assert!((1..=4).all(|rows| 30 * tally.remaining[&rows] >= tally.broken), "rows that remain: {tally:?}");
    compare::print_calls("crowded_plans");
}

impl Tally {
    /// Compares a plan with ample memory and with too little.
    fn compare(&mut self, random: &mut Random, bytes: &[u8], case: &dyn Display) {
        let plan = second::read(bytes).unwrap_or_else(|refusal| panic!("refused {refusal}: {case}"));
        self.plans += 1;
        too_little_memory(random, &plan, bytes, case);
        let Some(left) = trials::left(&plan, rounds_given(&plan)) else {
            self.passed_over += 1;
            return;
        };
        answered(random, bytes, left.rows.clone().ok_or(16), case);
        match left.rows {
            Some(rows) => self.add_broken(&plan, &rows),
            None => {
                self.kept += 1;
                has_the_tables_of_the_check(bytes, plan.cells(), case);
            }
        }
    }

    fn add_broken(&mut self, plan: &Plan, remaining: &[usize]) {
        self.broken += 1;
        self.both += usize::from(!plan.links.is_empty() && !plan.observing.is_empty());
        self.long += usize::from(has_long_timer(plan));
        self.rows += plan.edges.len();
        *self.remaining.entry(remaining.len()).or_insert(0) += 1;
    }

    fn is_enough(&self) {
        assert!(2 * self.passed_over <= self.plans, "many are passed over: {self:?}");
        assert!(6 * self.kept >= self.plans && 4 * self.broken >= self.plans, "verdicts: {self:?}");
        assert!(6 * self.both >= self.broken, "with links and propositions: {self:?}");
        assert!(6 * self.long >= self.broken, "with long timers: {self:?}");
    }
}

/// Either table too short, or the marks, or several of these: 6, be the plan kept or
/// not.
fn too_little_memory(random: &mut Random, plan: &Plan, bytes: &[u8], case: &dyn Display) {
    let (cells, edges) = (plan.cells(), plan.edges.len());
    for faults in 1..8 {
        let [first, second, few] = [1, 2, 4].map(|bit| faults & bit > 0);
        let mut lengths = Lengths::ample(random, cells, 0);
        let mut marks = edges + random.pick(&[0, 1, 60]);
        if first {
            lengths.first = random.pick(&[0, cells / 2, cells - 1]);
        }
        if second {
            lengths.second = random.pick(&[0, cells / 2, cells - 1]);
        }
        if few {
            // Without edges no marks are too few.
            let Some(last) = edges.checked_sub(1) else { continue };
            marks = random.pick(&[0, last / 2, last]);
        }
        let found = compare::breaking_rows(random, bytes, lengths, marks, case);
        assert_eq!(found, Err(6), "{marks} marks, {lengths:?}, {case}");
    }
}

/// A kept plan has the tables that the library's check leaves, and marks as before.
fn has_the_tables_of_the_check(bytes: &[u8], cells: usize, case: &dyn Display) {
    let [mut first, mut second, mut checked, mut other] = [(); 4].map(|()| vec![9; cells]);
    let mut marks = [9; SULGRACH_EDGES as usize];
    let code = library::breaking_rows(bytes, &mut first, &mut second, &mut marks, &mut []);
    assert_eq!((code, marks), (refused(16), [9; SULGRACH_EDGES as usize]), "{case}");
    assert_eq!(library::check(bytes, &mut checked, &mut other, EVERY_PLAN, &mut []), KEPT, "{case}");
    assert_eq!((first, second), (checked, other), "{case}");
}

/// A library that makes a mistake is to be seen in many of these plans. No plan is
/// known where the rows tell whose horizon a trial has: the tables do.
#[test]
fn mistakes_show() {
    let crowded = (0..times(200)).map(|seed| crowded(seed).bytes());
    let slow = samples(Class::Slow, 8_100_000, times(60)).map(|sample| sample.plan);
    let mut shown = BTreeMap::new();
    let mut broken = 0;
    for bytes in crowded.chain(slow) {
        let plan = second::read(&bytes).expect("an accepted plan");
        let rounds = rounds_given(&plan);
        let Some(left) = trials::left(&plan, rounds).filter(|left| left.rows.is_some()) else { continue };
        broken += 1;
        for mistake in MISTAKES {
            let Some(by_mistake) = trials::left_by(mistake, &plan, rounds) else { continue };
            let [rows, tables] = shown.entry(mistake).or_insert([0, 0]);
            *rows += usize::from(by_mistake.rows != left.rows);
            *tables += usize::from(by_mistake.table != left.table);
        }
    }
    println!("{broken} broken plans; other rows and other tables by each mistake: {shown:?}");
    for (mistake, [rows, tables]) in &shown {
        assert!(20 * rows.max(tables) >= broken, "{mistake:?}: {rows} and {tables} of {broken}");
    }
    for mistake in [Mistake::OwnHorizon, Mistake::OwnCheck] {
        assert_eq!(shown[&mistake][0], 0, "rows that hang on the horizon deserve a test of their own");
    }
}
