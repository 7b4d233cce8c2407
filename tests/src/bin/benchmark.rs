//! Times the check over the C interface, beside other checkers, on fixed
//! plans; and beside the check the calls that explain a broken plan: the
//! listing, and the rows that break it. Not part of the gate.
//!
//! All checkers take turns in one run, so that what else the machine does
//! falls on all of them alike; the shortest time of each counts. With
//! `SULGRACH_EARLIER_LIB_DIR` an earlier library is one of them (README.md).

use std::cell::RefCell;
use std::fs;
use std::path::Path;
use std::time::{Duration, Instant};
use sulgrach_tests::compare::LONGEST_LISTING;
use sulgrach_tests::generate::rows::{kept, with_contradictions};
use sulgrach_tests::generate::{cycle_among, plan_before_lengthening, slow_cycle, typical, Class, Random};
use sulgrach_tests::library;
use sulgrach_tests::port;
use sulgrach_tests::second::{self, Verdict, EVERY_PLAN, MOST_CELLS, MOST_EDGES};

/// Code and rounds of a check; the tables are left as the check leaves them.
type Check = fn(plan: &[u8], first: &mut [u32], second: &mut [u32], limit: u64) -> (u32, u64);

/// A checker, the most rounds that it is given time for, and whether it must
/// answer as the library does: an earlier one may have had other rules.
struct Checker {
    name: &'static str,
    check: Check,
    most_rounds: u64,
    agrees: bool,
}

/// The checkers, the library first: the others are measured against it.
const CHECKERS: &[Checker] = &[
    Checker { name: "library", check: check_library, most_rounds: EVERY_PLAN, agrees: true },
    #[cfg(earlier_library)]
    Checker { name: "earlier", check: check_earlier, most_rounds: EVERY_PLAN, agrees: false },
    Checker { name: "port", check: port::check, most_rounds: EVERY_PLAN, agrees: true },
    Checker { name: "second", check: check_second, most_rounds: 20_000, agrees: true },
];

/// The check that a call that explains a broken plan is measured against.
const CHECK: Checker = Checker { name: "check", check: check_library, most_rounds: EVERY_PLAN, agrees: true };

/// The listing; in place of rounds it has the number of its lines.
const LISTING: Checker = Checker { name: "listing", check: list, most_rounds: EVERY_PLAN, agrees: false };

/// The call that finds the rows that break a plan; in place of rounds it has
/// the number of rows that remain.
const BREAKING_ROWS: Checker =
    Checker { name: "breaking rows", check: breaking_rows, most_rounds: EVERY_PLAN, agrees: false };

thread_local! {
    /// The numbers and the output lent to the listing, allotted once.
    static LISTING_ROOM: RefCell<(Vec<u16>, Vec<u8>)> =
        RefCell::new((vec![0; MOST_CELLS], vec![0; LONGEST_LISTING]));
}

fn list(plan: &[u8], first: &mut [u32], second: &mut [u32], limit: u64) -> (u32, u64) {
    let mut numbers = [0; 2];
    let code = LISTING_ROOM
        .with_borrow_mut(|(index, out)| library::list(plan, first, second, limit, index, out, &mut numbers));
    (code, (numbers[1].max(2) - 2) / 14)
}

fn breaking_rows(plan: &[u8], first: &mut [u32], second: &mut [u32], _limit: u64) -> (u32, u64) {
    let mut remaining = [0];
    let code = library::breaking_rows(plan, first, second, &mut [0; MOST_EDGES], &mut remaining);
    (code, remaining[0])
}

fn check_library(plan: &[u8], first: &mut [u32], second: &mut [u32], limit: u64) -> (u32, u64) {
    let mut rounds = [0];
    let code = library::check(plan, first, second, limit, &mut rounds);
    (code, rounds[0])
}

#[cfg(earlier_library)]
fn check_earlier(plan: &[u8], first: &mut [u32], second: &mut [u32], limit: u64) -> (u32, u64) {
    extern "C" {
        fn earlier_check(
            plan: *const u8,
            plan_length: usize,
            first: *mut u32,
            first_length: usize,
            second: *mut u32,
            second_length: usize,
            limit: u64,
            rounds: *mut u64,
            rounds_length: usize,
        ) -> u32;
    }
    let mut rounds = 0;
    // SAFETY: as for the library's own check.
    let code = unsafe {
        earlier_check(
            plan.as_ptr(),
            plan.len(),
            first.as_mut_ptr(),
            first.len(),
            second.as_mut_ptr(),
            second.len(),
            limit,
            &mut rounds,
            1,
        )
    };
    (code, rounds)
}

fn check_second(plan: &[u8], first: &mut [u32], second: &mut [u32], limit: u64) -> (u32, u64) {
    match second::check(plan, first, second, limit) {
        Ok(answer) => (code(answer.verdict), answer.rounds),
        Err(refusal) => (library::refused(refusal), 0),
    }
}

fn code(verdict: Verdict) -> u32 {
    match verdict {
        Verdict::Kept => library::KEPT,
        Verdict::Broken => library::BROKEN,
        Verdict::Spent => library::SPENT,
    }
}

/// A plan of the benchmark.
struct Case {
    name: String,
    plan: Vec<u8>,
    limit: u64,
}

impl Case {
    fn new(name: impl Into<String>, plan: Vec<u8>, limit: u64) -> Self {
        Case { name: name.into(), plan, limit }
    }
}

fn main() {
    run(
        "typical: n 12, p 2, k 2, e 40",
        (0..8).map(|seed| Case::new(format!("seed {seed}"), typical(seed), EVERY_PLAN)),
    );
    // Seeds whose tables are three quarters full after five rounds.
    let dense = [1, 3, 18, 37]
        .map(|seed| Case::new(format!("seed {seed}"), plan_before_lengthening(Class::Dense, seed), 5));
    run("dense: near 16,384 cells, at most 5 rounds", dense.into_iter());
    run("slow cycles", slow_cycles().into_iter());
    run(
        "the ten bench plans",
        (1..=10).map(|number| Case::new(format!("c{number}"), bench_plan(number), EVERY_PLAN)),
    );
    growth();
    explaining_broken_plans();
}

/// What a round takes as a plan grows: one cycle of two points, and what grows
/// beside it.
fn growth() {
    let cycle = |name: String, propositions, links, rows, labelled, rounds| {
        Case::new(name, cycle_among(propositions, links, rows, labelled, rounds), EVERY_PLAN)
    };
    let rounds = [1_000, 10_000, 100_000, 900_000];
    let rounds = rounds.map(|rounds| cycle(format!("{rounds} rounds"), 0, 0, 0, false, rounds));
    run("growth: rounds", rounds.into_iter());
    let rows = [0, 40, 80, 120].map(|rows| cycle(format!("{rows} more rows"), 0, 0, rows, false, 100_000));
    run("growth: rows", rows.into_iter());
    let sizes = [(0, 0), (2, 0), (3, 0), (4, 0), (4, 2)];
    let cells = sizes.map(|(p, k)| cycle(format!("p {p}, k {k}"), p, k, 0, false, 100_000));
    run("growth: cells that stay as they are", cells.into_iter());
    let raised = [0, 1, 2, 3, 4].map(|p| cycle(format!("p {p}, every plain label"), p, 0, 0, true, 10_000));
    run("growth: cells that each turn raises", raised.into_iter());
}

/// The calls that explain a broken plan, each beside one check of it.
fn explaining_broken_plans() {
    let broken = |name: &str, seed: u64, plan| Case::new(format!("{name}, seed {seed}"), plan, EVERY_PLAN);
    let typical = || [1, 3, 5, 7, 9, 11].map(|seed| broken("typical", seed, typical(seed))).into_iter();
    let wide = |seed| broken("near 16,384 cells", seed, plan_before_lengthening(Class::Dense, seed));
    run_beside_check("listing, typical", LISTING, library::BROKEN, typical());
    // Seeds whose listings are handed over.
    let listed = [0, 4, 5, 8, 14, 15, 19, 21, 22, 28, 34, 43].map(wide).into_iter();
    run_beside_check("listing, wide", LISTING, library::BROKEN, listed);
    let of_ninety = [1, 2].map(|seed| broken("two rows of ninety", seed, two_rows_of_ninety(seed)));
    run_beside_check("breaking rows, typical", BREAKING_ROWS, library::DONE, typical().chain(of_ninety));
    // Seeds whose trials end soon.
    let wide = [0, 8, 17, 22, 23, 28].map(wide).into_iter();
    run_beside_check("breaking rows, wide", BREAKING_ROWS, library::DONE, wide);
    run_beside_check("breaking rows, slow cycles", BREAKING_ROWS, library::DONE, slow_cycles().into_iter());
}

/// Rows that can be kept, and two that contradict each other.
fn two_rows_of_ninety(seed: u64) -> Vec<u8> {
    let mut random = Random::new(seed);
    let kept = kept(&mut random, 12, 1, 1, 88);
    with_contradictions(&mut random, kept, &[1]).0.bytes()
}

fn slow_cycles() -> [Case; 4] {
    [
        Case::new("5 points", slow_cycle(5, 2, 10_000, false), EVERY_PLAN),
        Case::new("32 points", slow_cycle(32, 2, 100_000, false), EVERY_PLAN),
        Case::new("6 points, a link and a proposition", slow_cycle(6, 3, 50_000, true), EVERY_PLAN),
        Case::new("32 points, 16 a turn", slow_cycle(32, 16, 1_000_000, false), EVERY_PLAN),
    ]
}

fn bench_plan(number: u32) -> Vec<u8> {
    let path = Path::new(env!("CARGO_MANIFEST_DIR")).join(format!("../plans/c{number}.plan"));
    fs::read(&path).unwrap_or_else(|error| panic!("{}: {error}", path.display()))
}

fn run(class: &str, cases: impl Iterator<Item = Case>) {
    println!("{class}");
    let mut ratios = vec![Vec::new(); CHECKERS.len()];
    for case in cases {
        let cells = second::read(&case.plan).expect("an accepted plan").cells();
        let measures = measure_all(CHECKERS, &case, &mut vec![0; cells], &mut vec![0; cells]);
        report(&case, cells, &measures);
        for (ratios, measure) in ratios.iter_mut().zip(&measures) {
            ratios.push(times(measure, &measures[0]));
        }
    }
    for (checker, ratios) in CHECKERS.iter().zip(&ratios).skip(1) {
        println!(
            "  {}: {:.2} times the library's time, geometric mean",
            checker.name,
            geometric_mean(ratios)
        );
    }
    println!();
}

/// Times a call beside one check of the same plan.
fn run_beside_check(class: &str, call: Checker, done: u32, cases: impl Iterator<Item = Case>) {
    println!("{class}");
    let checkers = [CHECK, call];
    let mut ratios = Vec::new();
    for case in cases {
        let plan = second::read(&case.plan).expect("an accepted plan");
        let [mut first, mut second] = [(); 2].map(|()| vec![0; plan.cells()]);
        let measures = measure_all(&checkers, &case, &mut first, &mut second);
        let [check, call] = &measures[..] else { unreachable!("a check and the call") };
        assert_eq!((check.code, call.code), (library::BROKEN, done), "{}", case.name);
        let ratio = call.shortest.as_secs_f64() / check.shortest.as_secs_f64();
        println!(
            "  {}: {} cells, broken {}, {} rows; {} a check, {} the {} ({}), {ratio:.1} times the check's",
            case.name,
            plan.cells(),
            check.rounds,
            plan.edges.len(),
            time(check.shortest.as_secs_f64()),
            time(call.shortest.as_secs_f64()),
            checkers[1].name,
            call.rounds,
        );
        ratios.push(ratio);
    }
    println!("  {:.1} times the time of one check, geometric mean", geometric_mean(&ratios));
    println!();
}

fn geometric_mean(ratios: &[f64]) -> f64 {
    (ratios.iter().map(|ratio| ratio.ln()).sum::<f64>() / ratios.len() as f64).exp()
}

/// What one checker took for one plan.
struct Measure {
    code: u32,
    rounds: u64,
    limit: u64,
    shortest: Duration,
}

/// Lets all checkers take turns, each turn long enough to be timed.
fn measure_all(checkers: &[Checker], case: &Case, first: &mut [u32], second: &mut [u32]) -> Vec<Measure> {
    const TURNS: usize = 5;
    let mut repeats = Vec::new();
    let mut measures = Vec::new();
    for checker in checkers {
        let limit = case.limit.min(checker.most_rounds);
        let started = Instant::now();
        let (code, rounds) = (checker.check)(&case.plan, first, second, limit);
        let shortest = started.elapsed();
        repeats.push(
            (Duration::from_millis(10).as_nanos() / shortest.as_nanos().max(1)).clamp(1, 100_000) as u32
        );
        measures.push(Measure { code, rounds, limit, shortest });
    }
    for _ in 0..TURNS {
        for ((checker, measure), &repeats) in checkers.iter().zip(&mut measures).zip(&repeats) {
            let started = Instant::now();
            for _ in 0..repeats {
                (checker.check)(&case.plan, first, second, measure.limit);
            }
            measure.shortest = measure.shortest.min(started.elapsed() / repeats);
        }
    }
    measures
}

fn report(case: &Case, cells: usize, measures: &[Measure]) {
    let library = &measures[0];
    println!("  {}: {cells} cells, {} {}", case.name, answer(library), library.rounds);
    for (checker, measure) in CHECKERS.iter().zip(measures) {
        let same = (measure.code, measure.rounds) == (library.code, library.rounds);
        let shortened = measure.limit < library.rounds;
        assert!(same || shortened || !checker.agrees, "{} on {}", checker.name, case.name);
        println!(
            "    {:8} {:>12} a check, {:>12} a round, {:.2} times the library's{}",
            checker.name,
            time(measure.shortest.as_secs_f64()),
            time(per_round(measure)),
            times(measure, library),
            if same { String::new() } else { format!(" ({} {})", answer(measure), measure.rounds) },
        );
    }
}

fn answer(measure: &Measure) -> &'static str {
    ["kept", "broken", "spent"].get(measure.code as usize).copied().unwrap_or("refused")
}

/// The time of a check in times the library's; one with a smaller limit is
/// compared round by round.
fn times(measure: &Measure, library: &Measure) -> f64 {
    if measure.limit < library.rounds {
        per_round(measure) / per_round(library)
    } else {
        measure.shortest.as_secs_f64() / library.shortest.as_secs_f64()
    }
}

fn per_round(measure: &Measure) -> f64 {
    measure.shortest.as_secs_f64() / measure.rounds.max(1) as f64
}

/// A time in the unit that suits it.
fn time(seconds: f64) -> String {
    match seconds {
        seconds if seconds < 1e-6 => format!("{:.1} ns", seconds * 1e9),
        seconds if seconds < 1e-3 => format!("{:.2} µs", seconds * 1e6),
        seconds if seconds < 1.0 => format!("{:.2} ms", seconds * 1e3),
        seconds => format!("{seconds:.2} s"),
    }
}
