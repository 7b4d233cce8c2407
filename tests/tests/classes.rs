//! The check by device classes: the house table to the second, every refusal
//! in its place, and plans that pass, which are checked as before.

use std::collections::BTreeMap;
use std::fmt::Display;
use std::fs;
use sulgrach_tests::compare::{self, Lengths};
use sulgrach_tests::generate::devices::{durations, with_classes, Side, SIDES};
use sulgrach_tests::generate::faults::{faulty, faulty_many_times, FAULTS};
use sulgrach_tests::generate::{hex, samples, Class, Draft, Random, Sample};
use sulgrach_tests::library::{self, refused, BROKEN, KEPT, SPENT};
use sulgrach_tests::second::{self, Edge, Link, Verdict, EVERY_PLAN, MOST_CELLS, MOST_SECONDS};
use sulgrach_tests::{plan_files, times};

// --------------------------------------------------------------- by hand

/// A link that takes 2 to 25 s, which is class 3.
const DOOR: [u8; 10] = [2, 0, 1, 0, 0, 1, 0, 2, 0, 25];

/// The same, and its end comes within 24 s, which nobody can promise.
const HURRIED_DOOR: [u8; 16] = [2, 0, 1, 1, 0, 1, 0, 1, 0, 2, 0, 25, 0, 24, 0, 0];

/// Codes, tables and counts, with any number of entries for the count. Told here
/// without the second checker. The door's end has both its waits after one round:
/// 2 by the edge of its least, 25 by rule 3; the second round raises nothing.
#[test]
fn answers_by_hand() {
    // Plan, classes, entries of each table, limit; code, count, cells.
    type Case = (&'static [u8], &'static [u8], [usize; 2], u64, u32, u64, [u32; 4]);
    let cases: [Case; 13] = [
        (&DOOR, &[3], [4, 4], 2, KEPT, 2, [0, 0, 2, 25]),
        (&DOOR, &[0], [5, 9], EVERY_PLAN, KEPT, 2, [0, 0, 2, 25]),
        (&DOOR, &[3], [9, 5], 1, SPENT, 1, [0, 0, 2, 25]),
        (&DOOR, &[3], [4, 4], 0, SPENT, 0, [0, 0, 0, 0]),
        (&HURRIED_DOOR, &[3], [4, 5], 1 << 32, BROKEN, 2, [0, 1, 2, 25]),
        (&DOOR[..3], &[9, 9], [0, 0], 3, refused(1), 0, [0; 4]),
        (&DOOR[..9], &[2], [0, 0], 3, refused(1), 0, [0; 4]),
        (&DOOR, &[], [4, 4], 3, refused(14), 0, [0; 4]),
        (&DOOR, &[3, 0], [4, 4], 3, refused(14), 0, [0; 4]),
        (&DOOR, &[7], [0, 4], 3, refused(14), 0, [0; 4]),
        (&DOOR, &[2], [4, 4], 3, refused(15), 0, [0; 4]),
        (&DOOR, &[2], [4, 0], 3, refused(15), 0, [0; 4]),
        (&DOOR, &[3], [4, 3], 3, refused(6), 0, [0; 4]),
    ];
    let mut made = 0;
    for (plan, classes, entries, limit, code, count, cells) in cases {
        for numbers in [0, 1, 2, 64] {
            let [mut first, mut second] = entries.map(|length| vec![0xa5a5_a5a5; length]);
            let mut rounds = vec![0x5a5a_5a5a_5a5a_5a5a; numbers];
            let mut due = (code, first.clone(), second.clone(), rounds.clone());
            if code < refused(0) {
                due.1[..4].copy_from_slice(&cells);
                due.2[..4].copy_from_slice(&cells);
                if let Some(number) = due.3.first_mut() {
                    *number = count;
                }
            }
            let found = library::check_classes(plan, classes, &mut first, &mut second, limit, &mut rounds);
            let case = format!("plan {plan:?}, classes {classes:?}, limit {limit}, {numbers} numbers");
            assert_eq!((found, first, second, rounds), due, "{case}");
            made += 1;
        }
    }
    println!("answers_by_hand: {made} checks by classes");
}

/// Plans of `plans` with the classes of their devices. Two classes the other way
/// round are refused.
#[test]
fn plans_of_the_folder() {
    let cases: [(&str, &[u8], u32); 15] = [
        ("ramp", &[4], BROKEN),
        ("ramp-quick", &[4], refused(15)),
        ("carpark", &[4, 6], BROKEN),
        ("carpark-quick", &[4, 6], refused(15)),
        ("carpark-quick", &[0, 6], KEPT),
        ("corridor", &[3, 2], KEPT),
        ("hotel", &[1, 5], KEPT),
        ("tower", &[1, 6], BROKEN),
        ("tower-early", &[1, 6], KEPT),
        ("coldstore", &[2], refused(15)),
        ("coldstore", &[0], KEPT),
        ("c3", &[], KEPT),
        ("c3", &[0], refused(14)),
        ("c5", &[3], refused(15)),
        ("c6", &[0], BROKEN),
    ];
    let files = plan_files();
    let mut random = Random::new(0);
    for (name, classes, due) in cases {
        let file = files.iter().find(|file| file.file_stem().is_some_and(|stem| stem == name));
        let plan = fs::read(file.expect(name)).expect(name);
        answered(&mut random, &plan, classes, due, &name);
        if let [one, other] = classes {
            answered(&mut random, &plan, &[*other, *one], refused(15), &name);
        }
    }
    compare::print_calls("plans_of_the_folder");
}

/// Checks with ample tables and an ample limit. What is due is told without the
/// second checker.
fn answered(random: &mut Random, plan: &[u8], classes: &[u8], due: u32, case: &dyn Display) {
    let lengths = Lengths::ample(random, cells(plan), 0);
    let code = compare::check_classes(random, plan, classes, lengths, EVERY_PLAN, case);
    assert_eq!(code, due, "{} classes, {:?}; {case}", classes.len(), &classes[..classes.len().min(4)]);
}

/// The plan's cells.
fn cells(plan: &[u8]) -> usize {
    second::read(plan).expect("an accepted plan").cells()
}

// ----------------------------------------------------------- the classes

/// Durations narrower than every class, by their least, their most or both.
const NARROWER_THAN_ALL: [(i64, i64); 4] = [(61, MOST_SECONDS), (1, 24), (23, 24), (61, 62)];

/// As wide as all classes together, and as wide as a plan allows.
const WIDER_THAN_ALL: [(i64, i64); 2] = [(2, 300), (1, MOST_SECONDS)];

/// A kept plan with links of these durations, an observing point and an edge.
fn plan_of(durations: &[(i64, i64)]) -> Vec<u8> {
    let observing = durations.len() + 1;
    let links = durations.iter().enumerate();
    Draft {
        points: observing + 1,
        observing: vec![observing],
        links: links.map(|(i, &(least, most))| Link { activation: 0, end: i + 1, least, most }).collect(),
        edges: vec![Edge { from: observing, to: 0, weight: -1, label: 0 }],
    }
    .bytes()
}

/// Each class on each of four links: exactly as wide, a second narrower, a
/// second wider and far wider, on either side.
#[test]
fn every_class_on_every_link() {
    for class in 1..=6 {
        for place in 0..4 {
            for lower in SIDES {
                SIDES.into_iter().for_each(|upper| on_one_link(class, place, lower, upper));
            }
        }
    }
    compare::print_calls("every_class_on_every_link");
}

/// A link of this class and width. The others have no class, or are exactly as
/// wide as another one.
fn on_one_link(class: u8, place: usize, lower: Side, upper: Side) {
    let mut random = Random::new(place as u64);
    let narrower = [lower, upper].contains(&Side::Narrower);
    let due = if narrower { refused(15) } else { KEPT };
    let others = [0, 1, 2, 3].map(|i| (class + i) % 6 + 1);
    let exact = others.map(|class| durations(class, Side::Exact, Side::Exact));
    for (mut classes, mut links) in [([0; 4], NARROWER_THAN_ALL), (others, exact)] {
        classes[place] = class;
        links[place] = durations(class, lower, upper);
        answered(&mut random, &plan_of(&links), &classes, due, &format!("link {place}, {links:?}"));
    }
}

/// Each byte as the class of each of four links, which is wide enough for every
/// class or for none. The other links pass with any class.
#[test]
fn every_byte_at_every_place() {
    let wide = WIDER_THAN_ALL.map(|durations| (durations, KEPT));
    let narrow = NARROWER_THAN_ALL.map(|durations| (durations, refused(15)));
    for (byte, place) in (0..=255_u8).flat_map(|byte| (0..4).map(move |place| (byte, place))) {
        let mut random = Random::new(byte.into());
        let mut classes = [(); 4].map(|()| random.below(7) as u8);
        classes[place] = byte;
        for (durations, due) in wide.into_iter().chain(narrow) {
            let mut links = [(); 4].map(|()| random.pick(&WIDER_THAN_ALL));
            links[place] = durations;
            let due = match byte {
                0 => KEPT,
                1..=6 => due,
                _ => refused(14),
            };
            answered(&mut random, &plan_of(&links), &classes, due, &format!("link {place}, {links:?}"));
        }
    }
    compare::print_calls("every_byte_at_every_place");
}

/// Links without a class pass whatever they take.
#[test]
fn no_class_takes_any_durations() {
    let mut all = vec![(1, 2), (1, MOST_SECONDS), (MOST_SECONDS - 1, MOST_SECONDS)];
    all.extend(NARROWER_THAN_ALL);
    for seed in 0..times(200) {
        let mut random = Random::new(seed);
        let links: Vec<(i64, i64)> = (0..random.below(5)).map(|_| random.pick(&all)).collect();
        answered(&mut random, &plan_of(&links), &vec![0; links.len()], KEPT, &format!("{links:?}"));
    }
    compare::print_calls("no_class_takes_any_durations");
}

/// Lists as long as the plan has links, and of other lengths, also of those that
/// 8 or 16 bits take for the number of links.
#[test]
fn lists_of_every_length() {
    let mut random = Random::new(0);
    for links in 0..=4 {
        let plan = plan_of(&vec![WIDER_THAN_ALL[0]; links]);
        let long = [255, 256, 256 + links, 65_536, 65_536 + links, 1_000_000];
        for length in (0..=10).chain(long) {
            for class in [0, 6, 7, 255] {
                let passes = length == links && (class <= 6 || length == 0);
                let due = if passes { KEPT } else { refused(14) };
                answered(&mut random, &plan, &vec![class; length], due, &format!("{links} links"));
            }
        }
    }
    compare::print_calls("lists_of_every_length");
}

// -------------------------------------------------------------- refusals

/// What may be wrong with a list.
#[derive(Clone, Copy, Debug, PartialEq)]
enum List {
    Right,
    Short,
    Long,
    Above6(usize),
}

/// A wrong list, a link narrower than its class and tables too short, in every
/// combination and at every place: 14 comes before 15, also where the narrower
/// link comes before the class above 6, and 15 before 6.
#[test]
fn several_faults_in_order() {
    let lists = (0..4).map(List::Above6).chain([List::Right, List::Short, List::Long]);
    for list in lists {
        for narrower in [None, Some(0), Some(1), Some(2), Some(3)] {
            for seed in 0..times(8) {
                with_faults(&mut Random::new(seed), list, narrower);
            }
        }
    }
    compare::print_calls("several_faults_in_order");
}

/// Four links that pass but for these faults, with tables of every kind.
fn with_faults(random: &mut Random, list: List, narrower: Option<usize>) {
    let mut classes = [(); 4].map(|()| random.between(1, 6) as u8).to_vec();
    let mut links: Vec<(i64, i64)> =
        classes.iter().map(|&class| durations(class, Side::Exact, Side::Exact)).collect();
    if let Some(place) = narrower {
        links[place] = random.pick(&NARROWER_THAN_ALL);
    }
    match list {
        List::Right => (),
        List::Short => classes.truncate(3),
        List::Long => classes.push(random.below(7) as u8),
        List::Above6(place) => classes[place] = random.pick(&[7, 8, 128, 255]),
    }
    let plan = plan_of(&links);
    for short in [[false, false], [true, false], [false, true], [true, true]] {
        let due = if list != List::Right {
            refused(14)
        } else if narrower.is_some() {
            refused(15)
        } else if short.contains(&true) {
            refused(6)
        } else {
            KEPT
        };
        let lengths = tables(random, cells(&plan), short);
        let case = format!("{list:?}, narrower {narrower:?}, {links:?}");
        let code = compare::check_classes(random, &plan, &classes, lengths, EVERY_PLAN, &case);
        assert_eq!(code, due, "{lengths:?}, {case}");
    }
}

/// Tables for so many cells, each of them too short if told so, most often by an
/// entry.
fn tables(random: &mut Random, cells: usize, short: [bool; 2]) -> Lengths {
    let mut lengths = Lengths::ample(random, cells, 0);
    for (length, short) in [&mut lengths.first, &mut lengths.second].into_iter().zip(short) {
        if short {
            *length = random.pick(&[0, cells / 2, cells - 1, cells - 1]);
        }
    }
    lengths
}

/// Refusals 1 to 5, 17 and 18 come before 14, 15 and 6.
#[test]
fn faulty_plans() {
    for (number, fault) in FAULTS.iter().enumerate() {
        for seed in 0..times(20) {
            let mut random = Random::new(seed * 1_000 + number as u64);
            let plan = faulty(&mut random, fault);
            let case = format!("{}, seed {seed}, plan {}", fault.clause, hex(&plan));
            with_other_faults(&mut random, &plan, fault.refusal, &case);
        }
    }
    for seed in 0..times(300) {
        let mut random = Random::new(seed);
        let plan = faulty_many_times(&mut random);
        let case = format!("several faults, seed {seed}, plan {}", hex(&plan));
        // Faults can undo each other.
        if let Err(refusal) = second::read(&plan) {
            with_other_faults(&mut random, &plan, refusal, &case);
        }
    }
    compare::print_calls("faulty_plans");
}

/// A refused plan with 14, 15 and 6 in every combination.
fn with_other_faults(random: &mut Random, plan: &[u8], refusal: u32, case: &str) {
    for faults in 0..8 {
        let [wrong_list, narrower, short] = [1, 2, 4].map(|bit| faults & bit > 0);
        // A class for each link that the sizes tell of. Class 5 takes 60 to 300 s,
        // and most links of these plans are narrower.
        let links = plan.get(2).map_or(0, |&size| usize::from(size));
        let mut classes = vec![if narrower { 5 } else { 0 }; links];
        if wrong_list {
            spoil(random, &mut classes);
        }
        let entries = if short { random.pick(&[0, 1, 20]) } else { MOST_CELLS };
        let lengths = Lengths { first: entries, second: entries, index: 0, output: 0 };
        let limit = random.pick(&[0, 1, EVERY_PLAN]);
        let code = compare::check_classes(random, plan, &classes, lengths, limit, &case);
        assert_eq!(code, refused(refusal), "{faults}, {case}");
    }
}

/// Makes a right list wrong.
fn spoil(random: &mut Random, classes: &mut Vec<u8>) {
    let last = classes.len().checked_sub(1);
    match (last, random.below(3)) {
        (Some(last), 0) => classes.truncate(last),
        (Some(last), 1) => classes[random.below(last + 1)] = random.pick(&[7, 8, 128, 255]),
        _ => classes.push(random.pick(&[0, 6, 7])),
    }
}

// ------------------------------------------------------- generated plans

/// Generated plans with links about as wide as their classes, at every limit and
/// with any faults. Each answer is to be given often.
#[test]
fn generated_plans() {
    let kinds = [
        (Class::Small, 1_000, 1_000),
        (Class::Decisive, 1_200, 300),
        (Class::Mixed, 200, 20),
        (Class::Extreme, 40, 40),
        (Class::Slow, 40, 2_000),
        (Class::Dense, 16, 4),
    ];
    let mut codes = BTreeMap::new();
    for (class, count, cap) in kinds {
        for sample in samples(class, 7_000_000, times(count)) {
            let mut random = Random::new(sample.seed);
            let (sample, classes) = with_classes(&mut random, &sample, 15);
            let mut given = at_every_limit(&mut random, &sample, &classes, cap);
            given.extend((0..4).map(|_| with_any_faults(&mut random, &sample, &classes)));
            given.into_iter().for_each(|code| *codes.entry(code).or_insert(0) += 1);
        }
    }
    println!("codes and how often they were given: {codes:?}");
    for code in [KEPT, BROKEN, SPENT].into_iter().chain([1, 2, 3, 4, 5, 6, 14, 15].map(refused)) {
        assert!(codes.get(&code).is_some_and(|&count| count > 50), "code {code}: {codes:?}");
    }
    compare::print_calls("generated_plans");
}

/// Checks at limits 0, 1, R − 1, R, and one that does not fit 32 bits; a plan
/// without an R up to `cap` up to there. Returns the codes.
fn at_every_limit(random: &mut Random, sample: &Sample, classes: &[u8], cap: u64) -> Vec<u32> {
    let plan = second::read(&sample.plan).unwrap_or_else(|refusal| panic!("refused {refusal}: {sample}"));
    let answer = second::run(&plan, cap, |_, _| ());
    let mut limits = vec![0, 1, answer.rounds - 1, answer.rounds];
    if answer.verdict != Verdict::Spent {
        limits.push(random.pick(&compare::wide_limits(answer.rounds)));
    }
    limits.dedup();
    let check = |limit| {
        let lengths = Lengths::ample(random, plan.cells(), 0);
        compare::check_classes(random, &sample.plan, classes, lengths, limit, sample)
    };
    limits.into_iter().map(check).collect()
}

/// Checks with faults in the plan, the list and the tables, or without. Returns
/// the code.
fn with_any_faults(random: &mut Random, sample: &Sample, classes: &[u8]) -> u32 {
    let (mut plan, mut classes) = (sample.plan.clone(), classes.to_vec());
    let short = [(); 2].map(|()| random.chance(15));
    let lengths = tables(random, cells(&plan), short);
    if random.chance(30) {
        spoil(random, &mut classes);
    }
    if random.chance(30) {
        // The sizes are changed as often as all the rest.
        let places = if random.chance(50) { 4 } else { plan.len() };
        let place = random.below(places);
        plan[place] = random.pick(&[0, 1, 2, 3, 4, 255, plan[place] ^ 1, plan[place] ^ 128]);
    }
    let limit = random.pick(&[0, 1, 3]);
    let case = format!("plan {} out of the {sample}", hex(&plan));
    compare::check_classes(random, &plan, &classes, lengths, limit, &case)
}
