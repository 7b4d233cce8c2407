//! Labels on points: both forms of a plan, which labels fit, every refusal in its
//! place, and the two conversions.

use std::collections::BTreeMap;
use std::fmt::Display;
use sulgrach_tests::compare::{self, every_call, Lengths, LONGEST_LISTING};
use sulgrach_tests::generate::faults::{faulty, sound, with_faults, Fault, FAULTS};
use sulgrach_tests::generate::point_labels::{
    in_new_form, labelled, sound_with_labels, with_any_labels, with_label_bytes, Labelled,
};
use sulgrach_tests::generate::rows::crowded;
use sulgrach_tests::generate::{hex, samples, Class, Draft, Random, CLASSES};
use sulgrach_tests::library::{self, refused, BROKEN, DONE, KEPT, SPENT};
use sulgrach_tests::misread::{self, FED, MISCONVERSIONS, MISREADINGS};
use sulgrach_tests::second::{
    self, digit, Condition, Edge, Form, Link, Plan, Refusal, Verdict, BOTH_FORMS, CONDITIONS, EVERY_PLAN,
    MOST_BYTES, MOST_CELLS, MOST_SECONDS,
};
use sulgrach_tests::trials::{self, Mistake};
use sulgrach_tests::{plan_files, times};

// --------------------------------------------------------------- by hand

/// Answers to propositions 0 and 1, as labels.
const YES_0: u8 = 1;
const NO_0: u8 = 2;
const YES_1: u8 = 4;
const NO_1: u8 = 8;

fn edge(from: usize, to: usize, weight: i64, label: u8) -> Edge {
    Edge { from, to, weight, label }
}

fn link(activation: usize, end: usize) -> Link {
    Link { activation, end, least: 2, most: 5 }
}

/// A plan with these labels on its points; point 1 observes proposition 0, and point
/// 2 proposition 1.
fn plan_of(labels: &[u8], links: &[Link], edges: &[Edge]) -> Vec<u8> {
    let draft =
        Draft { points: labels.len(), observing: vec![1, 2], links: links.to_vec(), edges: edges.to_vec() };
    with_label_bytes(&draft.bytes(), labels)
}

/// The codes of all calls on a plan with ample memory, at limit 0, without classes,
/// with an empty listing and with a table of zeros; but not of the call for the rows,
/// which has no limit.
fn codes(plan: &[u8]) -> [u32; 7] {
    let [mut first, mut second] = [(); 2].map(|()| vec![9; MOST_CELLS]);
    let (mut index, mut out, mut numbers) = (vec![9; MOST_CELLS], vec![9; LONGEST_LISTING], [9; 2]);
    let classes = vec![0; plan.get(2).map_or(0, |&size| size.into())];
    [
        library::check(plan, &mut first, &mut second, 0, &mut numbers),
        library::check_classes(plan, &classes, &mut first, &mut second, 0, &mut numbers),
        library::list(plan, &mut first, &mut second, 0, &mut index, &mut out, &mut numbers),
        library::replay(plan, &[]),
        library::page(plan, &vec![0; MOST_CELLS], &mut out, &mut numbers),
        library::with_labels(plan, &mut out, &mut numbers),
        library::without_labels(plan, &mut out, &mut numbers),
    ]
}

/// Those that are due for a plan of the new form.
fn codes_due(refusal: Option<Refusal>, labelled: bool) -> [u32; 7] {
    match refusal {
        Some(number) => {
            let code = refused(number);
            [code, code, code, number, code, refused(1), code]
        }
        None => {
            let to_old = if labelled { refused(19) } else { DONE };
            [SPENT, SPENT, SPENT, 8, DONE, refused(1), to_old]
        }
    }
}

/// Labels that fit and labels that do not, by every call. Told here without the
/// second checker.
#[test]
fn fitting_labels_by_hand() {
    let due = |from, to, label| edge(from, to, -1, label);
    let yes_at_3 = [0, 0, 0, YES_0];
    let yes_at_2 = [0, 0, YES_0, 0];
    let both_at_3 = [0, 0, YES_0, YES_0 | YES_1];
    let to_1 = due(3, 1, YES_0);
    let from_2 = due(2, 1, YES_0);
    // Labels, edges; whether they fit.
    let cases: Vec<([u8; 4], Vec<Edge>, bool)> = vec![
        ([0; 4], vec![], true),
        ([0; 4], vec![edge(0, 3, 5, YES_0 | NO_1), edge(3, 1, 0, NO_0)], true),
        // The edge that is due: negative, with exactly the label, to that point.
        (yes_at_3, vec![to_1], true),
        (yes_at_3, vec![edge(3, 1, -MOST_SECONDS, YES_0)], true),
        (yes_at_3, vec![edge(3, 1, 1, YES_0), to_1], true),
        (yes_at_3, vec![], false),
        (yes_at_3, vec![edge(3, 1, 0, YES_0)], false),
        (yes_at_3, vec![edge(3, 1, 1, YES_0)], false),
        (yes_at_3, vec![due(1, 3, YES_0)], false),
        (yes_at_3, vec![due(3, 1, YES_0 | YES_1)], false),
        (yes_at_3, vec![due(3, 1, 0)], false),
        (yes_at_3, vec![due(3, 1, NO_0)], false),
        (yes_at_3, vec![due(3, 2, YES_0)], false),
        (yes_at_3, vec![due(3, 0, YES_0)], false),
        (yes_at_3, vec![due(0, 1, YES_0)], false),
        ([0, 0, 0, YES_0 | NO_1], vec![due(3, 1, YES_0 | NO_1)], false),
        ([0, 0, 0, YES_0 | NO_1], vec![due(3, 1, YES_0 | NO_1), due(3, 2, YES_0 | NO_1)], true),
        ([0, 0, 0, YES_0 | NO_1], vec![due(3, 1, YES_0), due(3, 2, NO_1)], false),
        // An edge has all answers of both its ends.
        (yes_at_3, vec![to_1, edge(0, 3, 5, YES_0)], true),
        (yes_at_3, vec![to_1, edge(0, 3, 5, YES_0 | NO_1)], true),
        (yes_at_3, vec![to_1, edge(0, 3, 5, 0)], false),
        (yes_at_3, vec![to_1, edge(3, 0, 5, 0)], false),
        (yes_at_3, vec![to_1, edge(0, 3, 5, NO_0)], false),
        (yes_at_3, vec![to_1, edge(3, 0, 5, NO_1)], false),
        (yes_at_3, vec![to_1, edge(0, 1, 5, 0), edge(2, 0, 5, NO_0)], true),
        // An edge has all answers of the observing points that it names, and these
        // have a label themselves here.
        (yes_at_2, vec![from_2], true),
        (yes_at_2, vec![from_2, edge(0, 3, 5, YES_1 | YES_0)], true),
        (yes_at_2, vec![from_2, edge(0, 3, 5, NO_1 | YES_0)], true),
        (yes_at_2, vec![from_2, edge(0, 3, 5, NO_0)], true),
        (yes_at_2, vec![from_2, edge(0, 3, 5, YES_1)], false),
        (yes_at_2, vec![from_2, edge(0, 3, 5, NO_1)], false),
        (yes_at_2, vec![from_2, edge(0, 3, 5, YES_1 | NO_0)], false),
        // So has a point.
        (both_at_3, vec![from_2, due(3, 1, YES_0 | YES_1), due(3, 2, YES_0 | YES_1)], true),
        (both_at_3, vec![from_2, due(3, 2, YES_0 | YES_1)], false),
        ([0, 0, YES_0, YES_1], vec![from_2, due(3, 2, YES_1)], false),
        ([0, 0, YES_0, YES_1], vec![from_2, due(3, 2, YES_0 | YES_1)], false),
        ([0, 0, YES_0, NO_0 | YES_1], vec![from_2, due(3, 1, NO_0 | YES_1), due(3, 2, NO_0 | YES_1)], false),
        // No point names what it observes, alone or by way of another.
        ([0, YES_0, 0, 0], vec![due(1, 0, YES_0), due(1, 2, YES_0)], false),
        ([0, NO_0, 0, 0], vec![], false),
        ([0, 0, YES_1, 0], vec![due(2, 1, YES_1), due(2, 0, YES_1)], false),
        ([0, YES_1, YES_0, 0], vec![due(1, 2, YES_1), from_2], false),
        ([0, YES_0 | YES_1, YES_0 | YES_1, 0], vec![due(1, 2, 5), due(2, 1, 5)], false),
    ];
    for (labels, edges, fits) in &cases {
        let plan = plan_of(labels, &[], edges);
        let labelled = labels.iter().any(|&label| label != 0);
        let due = codes_due((!fits).then_some(18), labelled);
        assert_eq!(codes(&plan), due, "labels {labels:?}, edges {edges:?}");
        every_call(&mut Random::new(0), &plan, &format!("labels {labels:?}, edges {edges:?}"));
    }
    compare::print_calls("fitting_labels_by_hand");
}

/// The ends of links, by every call. Told here without the second checker.
#[test]
fn ends_of_links_by_hand() {
    let due = |from, label| edge(from, 1, -1, label);
    // Labels of points 3 and 4, edges; whether they fit. A link runs from 3 to 4.
    let cases: Vec<([u8; 2], Vec<Edge>, bool)> = vec![
        ([0, 0], vec![], true),
        ([YES_0, YES_0], vec![due(3, YES_0), due(4, YES_0)], true),
        // The edges that the link adds have label 0 and are no edge rows.
        ([NO_0, NO_0], vec![due(3, NO_0), due(4, NO_0), edge(3, 4, 9, NO_0)], true),
        ([YES_0, YES_0], vec![due(3, YES_0)], false),
        ([YES_0, YES_0], vec![due(4, YES_0)], false),
        ([YES_0, 0], vec![due(3, YES_0)], false),
        ([0, YES_0], vec![due(4, YES_0)], false),
        ([YES_0, NO_0], vec![due(3, YES_0), due(4, NO_0)], false),
        ([YES_0, YES_0 | YES_1], vec![due(3, 1), due(4, 5), edge(4, 2, -1, 5)], false),
        ([YES_0 | YES_1, YES_0], vec![due(4, 1), due(3, 5), edge(3, 2, -1, 5)], false),
    ];
    for ([activation, end], edges, fits) in &cases {
        let plan = plan_of(&[0, 0, 0, *activation, *end], &[link(3, 4)], edges);
        let due = codes_due((!fits).then_some(18), [activation, end] != [&0, &0]);
        assert_eq!(codes(&plan), due, "{activation} at A, {end} at C, edges {edges:?}");
    }
    // Z is an activation like others, and so is an observing point.
    let cases: Vec<(Vec<u8>, Link, Vec<Edge>, Option<Refusal>)> = vec![
        (vec![0, 0, 0, 0], link(0, 3), vec![], None),
        (vec![0, 0, 0, YES_0], link(0, 3), vec![due(3, YES_0)], Some(18)),
        (vec![YES_0, 0, 0, YES_0], link(0, 3), vec![due(3, YES_0)], Some(17)),
        (vec![0, 0, YES_0, YES_0], link(2, 3), vec![due(2, YES_0), due(3, YES_0)], None),
        (vec![0, 0, YES_0, 0], link(2, 3), vec![due(2, YES_0)], Some(18)),
        (vec![0, 0, 0, YES_0], link(2, 3), vec![due(3, YES_0)], Some(18)),
    ];
    for (labels, link, edges, refusal) in &cases {
        let plan = plan_of(labels, &[*link], edges);
        let due = codes_due(*refusal, labels.iter().any(|&label| label != 0));
        assert_eq!(codes(&plan), due, "labels {labels:?}, {link:?}, edges {edges:?}");
    }
}

/// Two points and no fact, and three points of which one is under a fact: all that a
/// check writes, in both forms. Told here without the second checker.
#[test]
fn checks_by_hand() {
    let late = plan_of(&[0, 0, 0, YES_0], &[], &[edge(3, 1, -4, YES_0), edge(0, 3, 5, YES_0)]);
    let too_late = [edge(3, 1, -4, YES_0), edge(0, 3, 5, YES_0), edge(1, 0, -2, 0)];
    let too_late = plan_of(&[0, 0, 0, YES_0], &[], &too_late);
    let at = |waits: &[(usize, u8, u32)]| {
        let mut cells = vec![0; 4 * 16];
        waits.iter().for_each(|&(point, label, wait)| cells[16 * point + usize::from(label)] = wait);
        cells
    };
    let cases: [(Vec<u8>, u32, u64, Vec<u32>); 4] = [
        (vec![2, 0, 0, 0, 0, 0], KEPT, 1, vec![0, 0]),
        // c2 with two label bytes.
        (vec![2, 0, 0, 2, 0, 0, 0, 1, 1, 0, 0, 5, 0, 0, 255, 250, 0, 0], BROKEN, 2, vec![1, 6]),
        (late, KEPT, 2, at(&[(3, YES_0, 4)])),
        // Point 1 waits 2 s, so point 3 waits 6 s after two rounds and Z a second after
        // three, under yes. From the second round on point 3 waits 2 s under any answer.
        (too_late, BROKEN, 3, at(&[(0, YES_0, 1), (1, 0, 2), (3, 0, 2), (3, YES_0, 6)])),
    ];
    for (plan, code, rounds, cells) in &cases {
        let n = usize::from(plan[0]);
        let place = 4 + usize::from(plan[1]);
        let old = [&plan[..place], &plan[place + n..]].concat();
        for plan in [plan, &old] {
            let [mut first, mut second] = [(); 2].map(|()| vec![7; cells.len() + 3]);
            let mut numbers = [7; 3];
            let found = library::check(plan, &mut first, &mut second, EVERY_PLAN, &mut numbers);
            let due = [&cells[..], &[7; 3]].concat();
            assert_eq!((found, numbers), (*code, [*rounds, 7, 7]), "plan {}", hex(plan));
            assert_eq!((&first, &second), (&due, &due), "plan {}", hex(plan));
        }
    }
}

/// Every byte as a label of each point, for each number of propositions: refused
/// with 17 exactly if it is not plain, has a digit at p or above, or stands at Z and
/// is not 0. Told here without the second checker.
#[test]
fn every_byte_as_a_label() {
    for p in 0..=4 {
        let observing: Vec<usize> = (1..=p).collect();
        for byte in 0..=255_u8 {
            for point in [0, p + 1, p + 2] {
                let digits = [0, 1, 2, 3].map(|j| byte / 4_u8.pow(j) % 4);
                let accepted = digits[..p].iter().all(|&digit| digit < 3)
                    && digits[p..].iter().all(|&digit| digit == 0)
                    && (point != 0 || byte == 0);
                // The edges that are due. Without the label 5 would refuse them.
                let edges: Vec<Edge> = (0..p)
                    .filter(|&j| accepted && digits[j] > 0)
                    .map(|j| edge(point, j + 1, -1, byte))
                    .collect();
                let draft = Draft { points: p + 3, observing: observing.clone(), links: vec![], edges };
                let mut labels = vec![0; p + 3];
                labels[point] = byte;
                let plan = with_label_bytes(&draft.bytes(), &labels);
                let due = codes_due((!accepted).then_some(17), byte != 0);
                assert_eq!(codes(&plan), due, "label {byte} at point {point}, {p} propositions");
            }
        }
    }
}

// ---------------------------------------------------------------- lengths

/// A plan of either form cut off or continued to every length: 1, but for the two
/// lengths. Told here without the second checker.
#[test]
fn every_length() {
    for seed in 0..times(30) {
        let mut random = Random::new(seed);
        let labelled = sound_with_labels(&mut random);
        let (old, new) = (labelled.without_labels(), labelled.bytes());
        for plan in [&old, &new] {
            for length in 0..new.len() + 40 {
                let mut bytes = plan.clone();
                bytes.resize(length, random.pick(&[0, 1, 255]));
                let case = format!("{length} bytes out of plan {}, seed {seed}", hex(plan));
                let found = codes(&bytes);
                let is_form = [old.len(), new.len()].map(|due| length == due);
                // To the new form, then to the old one.
                let [to_new, to_old] = [found[5], found[6]].map(|code| code == refused(1));
                let others = found[..5].iter().all(|&code| code == refused(1) || code == 1);
                assert_eq!([to_new, to_old], [!is_form[0], !is_form[1]], "{case}");
                assert_eq!(others, is_form == [false; 2], "{case}");
                if is_form != [false; 2] {
                    every_call(&mut random, &bytes, &case);
                }
            }
        }
    }
    compare::print_calls("every_length");
}

/// The other form's length is judged where length is: after 2, before 3.
#[test]
fn the_other_form_in_a_conversion() {
    let mut random = Random::new(0);
    for (number, fault) in FAULTS.iter().enumerate() {
        for seed in 0..times(12) {
            let mut random = Random::new(seed * 1_000 + number as u64);
            let plan = faulty(&mut random, fault);
            let Ok(fields) = second::fields(&plan, &BOTH_FORMS) else { continue };
            let case = format!("{}, seed {seed}, plan {}", fault.clause, hex(&plan));
            for to in BOTH_FORMS {
                let due = if fields.form == to { 1 } else { fault.refusal };
                for output in [0, plan.len(), MOST_BYTES] {
                    let found = compare::convert(&mut random, to, &plan, output, &case);
                    assert_eq!(found, Err(due), "{case}");
                }
            }
        }
    }
    // A size out of bounds, with either form's length.
    for labels in [0, 33] {
        let plan = [&[33, 0, 0, 0][..], &vec![0; labels]].concat();
        for to in BOTH_FORMS {
            let found = compare::convert(&mut random, to, &plan, MOST_BYTES, &"33 points");
            assert_eq!(found, Err(2));
        }
    }
    compare::print_calls("the_other_form_in_a_conversion");
}

// --------------------------------------------------------------- refusals

/// What each clause of refusal 18 breaks. Part 2a never breaks alone.
fn broken_by(clause: &str) -> &'static [Condition] {
    use Condition::*;
    match clause {
        "edge lacks the label of where it comes from"
        | "edge lacks the label of where it runs to"
        | "edge has another answer than an end"
        | "edge lacks an answer of an end" => &[EdgeContainsEnds],
        "point lacks the label of an observing point it names" => &[PointContainsNamed, PointIsAfterNamed],
        "point and its edge lack the label of an observing point they name" => {
            &[EdgeContainsEnds, PointContainsNamed, EdgeContainsNamed]
        }
        "no edge to an observing point that a point names"
        | "edge due of weight 0"
        | "edge due of positive weight"
        | "edge due with more answers than the point"
        | "edge due the other way"
        | "edge due to another observing point"
        | "edge due to Z"
        | "edge due from another point"
        | "observing point names its own proposition" => &[PointIsAfterNamed],
        "edge lacks the label of an observing point it names"
        | "edge has another answer than an observing point it names" => &[EdgeContainsNamed],
        "only a link's activation has a label"
        | "only a link's end has a label"
        | "a link's end gets a label"
        | "a link's ends have other answers"
        | "a link's end has more answers"
        | "a link's end has fewer answers" => &[LinkEndsEqual],
        _ => panic!("unknown clause: {clause}"),
    }
}

/// Each clause of 18 breaks what it is to break and nothing else, so that each
/// condition is seen to be judged. `refusals.rs` makes every call on them.
#[test]
fn each_condition_alone() {
    let mut broken_alone = BTreeMap::new();
    for (number, fault) in FAULTS.iter().enumerate().filter(|(_, fault)| fault.refusal == 18) {
        for seed in 0..times(100) {
            let mut random = Random::new(seed * 1_000 + number as u64);
            let plan = faulty(&mut random, fault);
            let case = format!("{}, seed {seed}, plan {}", fault.clause, hex(&plan));
            assert_eq!(broken_conditions(&plan), broken_by(fault.clause), "{case}");
            if let [condition] = broken_by(fault.clause) {
                *broken_alone.entry(*condition).or_insert(0) += 1;
            }
            assert_eq!(codes(&plan), codes_due(Some(18), true), "{case}");
        }
    }
    println!("plans that break one condition alone: {broken_alone:?}");
    let alone: Vec<Condition> = broken_alone.into_keys().collect();
    let due = CONDITIONS.into_iter().filter(|&condition| condition != Condition::PointContainsNamed);
    assert_eq!(alone, due.collect::<Vec<_>>());
}

/// The conditions on labels that a plan of right rows breaks.
fn broken_conditions(bytes: &[u8]) -> Vec<Condition> {
    let fields = second::fields(bytes, &BOTH_FORMS).expect("sizes and length are right");
    assert!(second::JUDGED_BEFORE_18.iter().all(|(_, right)| right(&fields)), "plan {}", hex(bytes));
    let plan = second::plan_of(fields);
    CONDITIONS.into_iter().filter(|condition| !condition.holds(&plan)).collect()
}

/// Where a fault stands in the order of judging.
fn place_in_order(fault: &Fault) -> usize {
    let places = [2, 1, 3, 17, 4, 5, 18];
    match fault.refusal {
        1 if fault.clause.starts_with("under 4 bytes") => 0,
        refusal => 1 + places.iter().position(|&place| place == refusal).expect("a refusal of the plan"),
    }
}

/// Two faults of different refusals, one of them about labels: the one that comes
/// first in the order tells, whatever the memory lent. Told here without the second
/// checker.
#[test]
fn two_faults_in_order() {
    let (about_labels, all): (Vec<&Fault>, Vec<&Fault>) =
        (FAULTS.iter().filter(|fault| fault.refusal >= 17).collect(), FAULTS.iter().collect());
    let mut made = BTreeMap::new();
    for (number, fault) in about_labels.iter().enumerate() {
        for other in all.iter().filter(|other| other.refusal != fault.refusal) {
            for seed in 0..times(3) {
                let mut random = Random::new(seed * 1_000 + number as u64);
                let plan = with_faults(&mut random, &[fault, other]);
                let first = if place_in_order(fault) < place_in_order(other) { fault } else { other };
                let case = format!("{}; {}; seed {seed}, plan {}", fault.clause, other.clause, hex(&plan));
                two_faults_are_refused(&mut random, &plan, first, &case);
                *made.entry((fault.refusal, other.refusal)).or_insert(0) += 1;
            }
        }
    }
    println!("plans with a fault about labels and another one: {made:?}");
    compare::print_calls("two_faults_in_order");
}

fn two_faults_are_refused(random: &mut Random, plan: &[u8], first: &Fault, case: &str) {
    let entries = random.pick(&[0, 1, MOST_CELLS]);
    let lengths = Lengths { first: entries, second: entries, index: entries, output: 0 };
    let found = compare::check_classes(random, plan, &[7, 7, 7, 7, 7], lengths, 1, &case);
    assert_eq!(found, refused(first.refusal), "{case}");
    let replayed = compare::replay(plan, &[0], &case);
    assert_eq!(replayed, first.refusal, "{case}");
    let converted = compare::convert(random, Form::Old, plan, entries, &case);
    assert_eq!(converted, Err(first.refusal), "{case}");
    every_call(random, plan, case);
}

/// Any bytes of a labelled plan changed, labels most often.
#[test]
fn any_bytes_changed() {
    let mut answers = BTreeMap::new();
    for seed in 0..times(3_000) {
        let mut random = Random::new(seed);
        let mut plan = sound_with_labels(&mut random).bytes();
        let (points, place_of_labels) = (usize::from(plan[0]), 4 + usize::from(plan[1]));
        for _ in 0..random.between(1, 2) {
            let place = match random.below(4) {
                0 => random.below(plan.len()),
                1 => random.below(place_of_labels),
                _ => place_of_labels + random.below(points),
            };
            plan[place] = random.pick(&[0, 1, 2, 3, 4, 255, plan[place] ^ 1, plan[place] ^ 4]);
        }
        let refusal = second::read(&plan).err();
        *answers.entry(refusal).or_insert(0) += 1;
        if refusal == Some(18) {
            // Part 2a never decides by itself.
            assert_ne!(broken_conditions(&plan), [Condition::PointContainsNamed], "plan {}", hex(&plan));
        }
        every_call(&mut random, &plan, &format!("bytes changed, seed {seed}, plan {}", hex(&plan)));
    }
    println!("refusals and how often: {answers:?}");
    for refusal in [None, Some(1), Some(3), Some(5), Some(17), Some(18)] {
        assert!(answers.get(&refusal).is_some_and(|&count| count > 30), "{refusal:?}: {answers:?}");
    }
    compare::print_calls("any_bytes_changed");
}

// ------------------------------------------------------------ both forms

/// The memory that calls may write to.
#[derive(Clone, Debug, PartialEq)]
struct Memory {
    first: Vec<u32>,
    second: Vec<u32>,
    index: Vec<u16>,
    output: Vec<u8>,
    marks: Vec<u8>,
    numbers: Vec<u64>,
}

impl Memory {
    fn dirty(random: &mut Random, cells: usize) -> Self {
        let past = random.pick(&[0, 1, 7]);
        let mut words = || (0..cells + past).map(|_| random.number() as u32).collect();
        let [first, second] = [words(), words()];
        let index = (0..cells + past).map(|_| random.number() as u16).collect();
        let output = vec![random.number() as u8; 60_000];
        let marks = vec![random.number() as u8 | 128; 130];
        let numbers = (0..random.below(4)).map(|_| random.number()).collect();
        Memory { first, second, index, output, marks, numbers }
    }

    /// A call on a copy: its code, and what it leaves.
    fn after(&self, call: impl FnOnce(&mut Memory) -> u32) -> (u32, Memory) {
        let mut memory = self.clone();
        let code = call(&mut memory);
        (code, memory)
    }
}

/// What the library answers and leaves, on the same memory each time.
struct Answers {
    check: (u32, Memory),
    classes: (u32, Memory),
    page: (u32, Memory),
    rows: Option<(u32, Memory)>,
    list: (u32, Memory),
}

/// The check, the check by classes, the page of what the check leaves, the rows if
/// that does not take too long, and the listing.
fn answers(plan: &[u8], memory: &Memory, limit: u64, rows: bool) -> Answers {
    let classes = vec![0; plan[2].into()];
    let check = memory.after(|m| library::check(plan, &mut m.first, &mut m.second, limit, &mut m.numbers));
    let table = &check.1.first;
    let page = memory.after(|m| library::page(plan, table, &mut m.output, &mut m.numbers));
    let list = memory.after(|m| {
        library::list(plan, &mut m.first, &mut m.second, limit, &mut m.index, &mut m.output, &mut m.numbers)
    });
    let by_classes = |m: &mut Memory| {
        library::check_classes(plan, &classes, &mut m.first, &mut m.second, limit, &mut m.numbers)
    };
    let breaking = |m: &mut Memory| {
        library::breaking_rows(plan, &mut m.first, &mut m.second, &mut m.marks, &mut m.numbers)
    };
    let rows = rows.then(|| memory.after(breaking));
    Answers { classes: memory.after(by_classes), check, page, rows, list }
}

/// Both forms get the same answers, cells, pages, rows and lines, and either's
/// listing is one for the other. Told here without the second checker.
fn answered_alike(random: &mut Random, old: &[u8], new: &[u8], limit: u64, rows: bool, case: &dyn Display) {
    let memory = Memory::dirty(random, second::read(old).expect("an accepted plan").cells());
    let [mut of_old, mut of_new] = [old, new].map(|plan| answers(plan, &memory, limit, rows));
    assert!(of_old.check == of_new.check, "check; {case}");
    assert!(of_old.classes == of_new.classes, "check by classes; {case}");
    assert!(of_old.page == of_new.page, "page; {case}");
    assert!(of_old.rows == of_new.rows, "breaking rows; {case}");
    if of_old.list.0 == BROKEN && of_new.list.0 == BROKEN {
        let [one, other] = [&mut of_old, &mut of_new].map(|answers| take_listing(&mut answers.list.1));
        for listing in [&one, &other] {
            for plan in [old, new] {
                assert_eq!(library::replay(plan, listing), 0, "listing {}; {case}", hex(listing));
            }
        }
        assert_eq!(heads(&one), heads(&other), "{case}");
    }
    assert!(of_old.list == of_new.list, "listing; {case}");
}

/// The listing, which is cleared from the output: its grounds are free.
fn take_listing(memory: &mut Memory) -> Vec<u8> {
    let lines = u16::from_be_bytes([memory.output[0], memory.output[1]]);
    let length = second::listing_bytes(lines.into());
    let listing = memory.output[..length].to_vec();
    memory.output[..length].fill(0);
    listing
}

/// Point, set, label and wait of each line.
fn heads(listing: &[u8]) -> Vec<u8> {
    let lines = usize::from(u16::from_be_bytes([listing[0], listing[1]]));
    let heads = listing[2..2 + 8 * lines].chunks(8);
    heads.flat_map(|head| [&head[..3], &head[4..]].concat()).collect()
}

/// What generated plans with labels come to.
#[derive(Debug, Default)]
struct Tally {
    plans: usize,
    kept: usize,
    broken: usize,
    spent: usize,
    /// With a label on some point, and of these: with one of several digits, on an
    /// observing point, on both ends of a link; with several propositions; of 32
    /// points.
    labelled: usize,
    several_digits: usize,
    observing: usize,
    link_ends: usize,
    several_propositions: usize,
    of_32_points: usize,
    /// With rows found, and those of them with a trial that 18 would turn down.
    rows: usize,
    trials_that_18_refuses: usize,
}

impl Tally {
    fn add(&mut self, plan: &Plan, verdict: Verdict) {
        let count = |label: u8| (0..4).filter(|&j| digit(label, j) != 0).count();
        let labels = &plan.point_labels;
        let labelled = labels.iter().any(|&label| label != 0);
        self.plans += 1;
        match verdict {
            Verdict::Kept => self.kept += 1,
            Verdict::Broken => self.broken += 1,
            Verdict::Spent => self.spent += 1,
        }
        self.labelled += usize::from(labelled);
        self.several_digits += usize::from(labels.iter().any(|&label| count(label) > 1));
        self.observing += usize::from(plan.observing.iter().any(|&point| labels[point] != 0));
        self.link_ends += usize::from(plan.links.iter().any(|link| labels[link.end] != 0));
        self.several_propositions += usize::from(labelled && plan.observing.len() > 1);
        self.of_32_points += usize::from(labelled && plan.points == 32);
    }
}

/// All calls on a plan whose labels fit, in the new form, beside the second checker;
/// and the same on both forms.
fn with_fitting_labels(tally: &mut Tally, labelled: &Labelled, cap: u64, case: &dyn Display) {
    let (old, new) = (labelled.without_labels(), labelled.bytes());
    let mut random = Random::new(old.len() as u64);
    let plan = second::read(&new).unwrap_or_else(|refusal| panic!("refused {refusal}: {case}"));
    let answer = second::run(&plan, cap, |_, _| ());
    tally.add(&plan, answer.verdict);

    let limit = answer.rounds;
    let lengths = Lengths::ample(&mut random, plan.cells(), LONGEST_LISTING);
    compare::check(&mut random, &new, lengths, limit, case);
    let listing = compare::list(&mut random, &new, lengths, limit, case);
    if let Some(listing) = listing {
        assert_eq!(compare::replay(&old, &listing, case), 0, "{case}");
    }
    let classes = vec![0; plan.links.len()];
    compare::check_classes(&mut random, &new, &classes, lengths, limit, case);
    let _ = compare::page(&mut random, &new, &answer.table, 400_000, case);
    let rows = found_rows(tally, &mut random, &plan, &new, case);
    answered_alike(&mut random, &old, &new, limit, rows, case);
}

/// Finds the rows of a plan, unless that would take too long.
fn found_rows(tally: &mut Tally, random: &mut Random, plan: &Plan, bytes: &[u8], case: &dyn Display) -> bool {
    let Some(left) = trials::left(plan, 100_000 / plan.cells() as u64) else { return false };
    let lengths = Lengths::ample(random, plan.cells(), 0);
    let found = compare::breaking_rows(random, bytes, lengths, plan.edges.len() + 1, case);
    assert_eq!(found, left.rows.ok_or(16_u32), "{case}");
    let broken = |row: usize| {
        let all: Vec<usize> = (0..plan.edges.len()).collect();
        let tried = plan.with_rows(&trials::without(&all, row));
        CONDITIONS.iter().any(|condition| !condition.holds(&tried))
    };
    tally.rows += 1;
    tally.trials_that_18_refuses += usize::from((0..plan.edges.len()).any(broken));
    true
}

/// The plans of a class with labels that fit; and each one as it is, in the new form.
fn of_class(class: Class, count: u64, cap: u64) -> Tally {
    let mut tally = Tally::default();
    for sample in samples(class, 9_000_000, times(count)) {
        let labelled = labelled(sample.seed, &sample.plan);
        let case = format!("labels {:?} for the {sample}", labelled.labels);
        with_fitting_labels(&mut tally, &labelled, cap, &case);

        let plan = second::read(&sample.plan).expect("an accepted plan");
        let rounds = second::run(&plan, cap, |_, _| ()).rounds;
        let rows = trials::left(&plan, 20_000 / plan.cells() as u64).is_some();
        let mut random = Random::new(sample.seed);
        answered_alike(&mut random, &sample.plan, &in_new_form(&sample.plan), rounds, rows, &sample);
    }
    println!("{class:?}: {tally:?}");
    tally
}

#[test]
fn small_and_decisive_plans() {
    let small = of_class(Class::Small, 500, 100);
    assert!(8 * small.labelled >= small.plans, "{small:?}");
    let decisive = of_class(Class::Decisive, 300, 100);
    assert!(6 * decisive.kept >= decisive.plans && 6 * decisive.broken >= decisive.plans, "{decisive:?}");
    assert!(2 * decisive.labelled >= decisive.plans, "{decisive:?}");
    for count in [decisive.several_digits, decisive.observing, decisive.link_ends] {
        assert!(20 * count >= decisive.plans, "{decisive:?}");
    }
    assert!(4 * decisive.trials_that_18_refuses >= decisive.plans, "{decisive:?}");
    compare::print_calls("small_and_decisive_plans");
}

#[test]
fn mixed_and_slow_plans() {
    let mixed = of_class(Class::Mixed, 50, 30);
    assert!(8 * mixed.kept >= mixed.plans && 6 * mixed.broken >= mixed.plans, "{mixed:?}");
    for count in [mixed.several_digits, mixed.observing, mixed.link_ends, mixed.several_propositions] {
        assert!(8 * count >= mixed.plans, "{mixed:?}");
    }
    of_class(Class::Slow, 30, 100);
    compare::print_calls("mixed_and_slow_plans");
}

#[test]
fn extreme_and_dense_plans() {
    of_class(Class::Extreme, 12, 12);
    let dense = of_class(Class::Dense, 8, 2);
    assert!(dense.of_32_points > 0 && dense.several_digits > 5, "{dense:?}");
    compare::print_calls("extreme_and_dense_plans");
}

/// Plans that are often broken in several ways, so that trials leave out edges that
/// labels call for.
#[test]
fn crowded_plans() {
    let mut tally = Tally::default();
    for seed in 0..times(200) {
        let labelled = labelled(seed, &crowded(seed).bytes());
        let case = format!("crowded plan of seed {seed}, bytes {}", hex(&labelled.bytes()));
        with_fitting_labels(&mut tally, &labelled, 100, &case);
    }
    println!("crowded: {tally:?}");
    assert!(4 * tally.broken >= tally.plans && 4 * tally.trials_that_18_refuses >= tally.plans, "{tally:?}");
    compare::print_calls("crowded_plans");
}

/// As many points as there may be, all with labels, with as many edges as there may
/// be: the longest plan that is accepted.
#[test]
fn the_longest_plan() {
    let links = (3..7).map(|end| Link { activation: end + 4, end, least: 1, most: 2 }).collect();
    let mut draft = Draft { points: 32, observing: vec![1, 2], links, edges: vec![] };
    let mut random = Random::new(0);
    draft.edges = (0..128).map(|i| edge(8 + i % 8, i % 8, i as i64, random.pick(&[0, 1, 6]))).collect();
    let labelled = loop {
        let labelled = with_any_labels(&mut random, &draft, 100);
        if labelled.draft.edges.len() == 128 {
            break labelled;
        }
    };
    assert_eq!(labelled.bytes().len(), 830);
    assert!(labelled.labelled_points().len() > 20, "{:?}", labelled.labels);
    let mut tally = Tally::default();
    with_fitting_labels(&mut tally, &labelled, 2, &"the longest plan");
    let zeros = Labelled { labels: vec![0; 32], draft };
    with_fitting_labels(&mut tally, &zeros, 2, &"the longest plan without labels");
    there_and_back(&mut random, &zeros.without_labels(), &"the longest plan without labels");
    compare::print_calls("the_longest_plan");
}

/// No facts: the new form has labels all the same, and they are 0.
#[test]
fn no_propositions() {
    let mut random = Random::new(0);
    for points in [2, 3, 31, 32] {
        let edges = vec![edge(0, 1, 5, 0), edge(1, 0, -6, 0)];
        let draft = Draft { points, observing: vec![], links: vec![], edges };
        let old = draft.bytes();
        let new = in_new_form(&old);
        assert_eq!(new.len(), old.len() + points);
        answered_alike(&mut random, &old, &new, EVERY_PLAN, true, &format!("{points} points"));
        there_and_back(&mut random, &old, &format!("{points} points"));
        for point in 0..points {
            let mut labelled = new.clone();
            labelled[4 + point] = random.pick(&[1, 2, 3, 64, 128, 255]);
            assert_eq!(codes(&labelled), codes_due(Some(17), true), "point {point} of {points}");
        }
    }
}

// ------------------------------------------------------------ conversions

/// A plan of the old form there and back, into outputs of many lengths. What is due
/// is told without the second checker.
fn there_and_back(random: &mut Random, old: &[u8], case: &dyn Display) {
    let new = in_new_form(old);
    for (to, from, due) in [(Form::New, old, &new[..]), (Form::Old, &new[..], old)] {
        let any = random.below(due.len());
        for output in
            [0, 1, any, due.len() - 1, due.len(), due.len() + 1, due.len() + any, MOST_BYTES, 66_000]
        {
            let due = if output < due.len() { Err(7) } else { Ok(due.to_vec()) };
            assert_eq!(compare::convert(random, to, from, output, case), due, "{output} bytes; {case}");
            // The form that the conversion gives is refused, whatever the output.
            let again = if to == Form::New { &new[..] } else { old };
            assert_eq!(compare::convert(random, to, again, output, case), Err(1), "{case}");
        }
    }
}

#[test]
fn conversions_of_generated_plans() {
    for class in CLASSES {
        let count = if matches!(class, Class::Small | Class::Decisive) { 200 } else { 8 };
        for sample in samples(class, 9_100_000, times(count)) {
            there_and_back(&mut Random::new(sample.seed), &sample.plan, &sample);
        }
    }
    for file in plan_files() {
        let plan = Labelled::of(&std::fs::read(&file).expect("a plan")).without_labels();
        there_and_back(&mut Random::new(0), &plan, &file.display());
    }
    compare::print_calls("conversions_of_generated_plans");
}

/// Labels that fit and are not 0: 19 to the old form, before 7; and labels that do not
/// fit, before both.
#[test]
fn conversions_of_labelled_plans() {
    let misfits: Vec<&Fault> = FAULTS.iter().filter(|fault| fault.refusal == 18).collect();
    for seed in 0..times(400) {
        let mut random = Random::new(seed);
        let plan = sound_with_labels(&mut random).bytes();
        let misfit = faulty(&mut random, misfits[seed as usize % misfits.len()]);
        let case = format!("seed {seed}, plan {}", hex(&plan));
        for output in [0, plan.len() - usize::from(plan[0]) - 1, plan.len(), MOST_BYTES] {
            let mut convert = |to, plan: &[u8]| compare::convert(&mut random, to, plan, output, &case);
            assert_eq!(convert(Form::Old, &plan), Err(19), "{case}");
            assert_eq!(convert(Form::New, &plan), Err(1), "{case}");
            assert_eq!(convert(Form::Old, &misfit), Err(18), "{case}");
            assert_eq!(convert(Form::New, &misfit), Err(1), "{case}");
        }
    }
    compare::print_calls("conversions_of_labelled_plans");
}

/// One label that is not 0, at each point in turn, is enough for 19.
#[test]
fn one_label_is_enough_for_19() {
    let mut random = Random::new(0);
    for points in 3..=32 {
        for point in 2..points {
            let edges = vec![edge(point, 1, -1, NO_0)];
            let draft = Draft { points, observing: vec![1], links: vec![], edges };
            let mut labels = vec![0; points];
            labels[point] = NO_0;
            let plan = with_label_bytes(&draft.bytes(), &labels);
            let case = format!("point {point} of {points}");
            for output in [0, plan.len(), MOST_BYTES] {
                let found = compare::convert(&mut random, Form::Old, &plan, output, &case);
                assert_eq!(found, Err(19), "{case}");
            }
        }
    }
    compare::print_calls("one_label_is_enough_for_19");
}

/// Outputs of every length, and numbers of every length: bytes, numbers and what is
/// past them. Told here without the second checker.
#[test]
fn conversions_by_hand() {
    type Call = fn(&[u8], &mut [u8], &mut [u64]) -> u32;
    let (to_new, to_old): (Call, Call) = (library::with_labels, library::without_labels);
    let c2: &[u8] = &[2, 0, 0, 2, 0, 1, 1, 0, 0, 5, 0, 0, 255, 250, 0, 0];
    let c2_new: &[u8] = &[2, 0, 0, 2, 0, 0, 0, 1, 1, 0, 0, 5, 0, 0, 255, 250, 0, 0];
    // Point 2 under yes, learnt at point 1.
    let labelled: &[u8] = &[3, 1, 0, 1, 1, 0, 0, 1, 2, 1, 255, 255, 1, 0];
    let unfit: &[u8] = &[3, 1, 0, 1, 1, 0, 0, 1, 2, 1, 0, 0, 1, 0];
    let unlabelled: &[u8] = &[3, 1, 0, 1, 1, 0, 0, 0, 2, 1, 255, 255, 1, 0];
    let its_old: &[u8] = &[3, 1, 0, 1, 1, 2, 1, 255, 255, 1, 0];
    // Call, plan; the plan in the other form, or the refusal that a long output gets.
    let cases: [(Call, &[u8], Result<&[u8], Refusal>); 17] = [
        (to_new, &[3, 0, 0, 0], Ok(&[3, 0, 0, 0, 0, 0, 0])),
        (to_old, &[3, 0, 0, 0, 0, 0, 0], Ok(&[3, 0, 0, 0])),
        (to_new, c2, Ok(c2_new)),
        (to_old, c2_new, Ok(c2)),
        (to_new, its_old, Ok(unlabelled)),
        (to_old, unlabelled, Ok(its_old)),
        (to_old, c2, Err(1)),
        (to_new, c2_new, Err(1)),
        (to_old, its_old, Err(1)),
        (to_new, unlabelled, Err(1)),
        (to_old, labelled, Err(19)),
        (to_new, labelled, Err(1)),
        (to_old, unfit, Err(18)),
        (to_old, &[3, 1, 0, 0, 1, 0, 0, 3], Err(17)),
        (to_new, &[3, 1, 0, 0, 3], Err(3)),
        (to_new, &[1, 0, 0, 0], Err(2)),
        (to_old, &[3, 0, 0], Err(1)),
    ];
    let mut made = 0;
    for (call, plan, due) in cases {
        for output in 0..40 {
            for count in [0, 1, 2, 3] {
                let mut out = vec![0xa5; output];
                let mut numbers = vec![0xa5a5_a5a5_a5a5_a5a5; count];
                let mut expected = (DONE, out.clone(), numbers.clone());
                match due {
                    Ok(other) if other.len() <= output => {
                        expected.1[..other.len()].copy_from_slice(other);
                        expected.2.iter_mut().take(1).for_each(|number| *number = other.len() as u64);
                    }
                    Ok(_) => expected.0 = refused(7),
                    Err(refusal) => expected.0 = refused(refusal),
                }
                let found = call(plan, &mut out, &mut numbers);
                assert_eq!((found, out, numbers), expected, "plan {plan:?}, {output} bytes, {count} numbers");
                made += 1;
            }
        }
    }
    println!("conversions_by_hand: {made} conversions");
}

// --------------------------------------------------------------- mistakes

/// Plans that are to tell: with labels that fit, with one fault, and with two of which
/// one is about labels.
fn plans_that_tell() -> Vec<Vec<u8>> {
    let mut plans = Vec::new();
    for (class, count) in [(Class::Small, 200), (Class::Decisive, 200), (Class::Mixed, 10)] {
        let samples = samples(class, 9_200_000, times(count));
        plans.extend(samples.map(|sample| labelled(sample.seed, &sample.plan).bytes()));
    }
    let mut random = Random::new(0);
    plans.extend((0..times(200)).map(|_| sound(&mut random)));
    for fault in FAULTS {
        plans.extend((0..times(8)).map(|_| faulty(&mut random, fault)));
        let others: Vec<&Fault> = FAULTS.iter().filter(|other| other.refusal >= 17).collect();
        plans.extend(others.iter().map(|other| with_faults(&mut random, &[fault, other])));
    }
    plans
}

/// A library that misreads what is judged, or when, is to be seen.
#[test]
fn misreadings_show() {
    let plans = plans_that_tell();
    let mut shown: BTreeMap<_, usize> = MISREADINGS.into_iter().map(|misreading| (misreading, 0)).collect();
    for plan in &plans {
        let right = second::read(plan).err();
        for (&misreading, count) in &mut shown {
            *count += usize::from(misread::refusal(misreading, plan) != right);
        }
    }
    println!("of {} plans each misreading answers otherwise in: {shown:?}", plans.len());
    for (misreading, count) in shown {
        assert!(count >= 5, "{misreading:?}: {count}");
    }
}

/// A conversion that takes the other form, or judges too little or too late, is to be
/// seen.
#[test]
fn misconversions_show() {
    let plans = plans_that_tell();
    let mut shown: BTreeMap<_, [usize; 2]> = MISCONVERSIONS.into_iter().map(|one| (one, [0, 0])).collect();
    for plan in &plans {
        for output in [0, plan.len() + 32] {
            let mut out = vec![0; output];
            let right = [second::with_labels(plan, &mut out), second::without_labels(plan, &mut out)];
            for (&mistake, counts) in &mut shown {
                for ((to, right), count) in [Form::New, Form::Old].into_iter().zip(&right).zip(counts) {
                    let found = misread::conversion_refusal(mistake, to, plan, output);
                    *count += usize::from(found != right.clone().err());
                }
            }
        }
    }
    println!(
        "of {} plans, two outputs each, other answers to the new and to the old form: {shown:?}",
        plans.len()
    );
    for (mistake, [to_new, to_old]) in shown {
        assert!(to_new + to_old >= 5, "{mistake:?}: {to_new} and {to_old}");
    }
}

/// Labels that are let into a rule, or into the judging of trials, are to be seen.
#[test]
fn labels_in_the_rounds_show() {
    const ROUNDS: u64 = 300;
    let (mut plans, mut broken) = (0, 0);
    // Other verdicts, and other tables or counts.
    let mut fed: BTreeMap<_, [usize; 2]> = FED.into_iter().map(|one| (one, [0, 0])).collect();
    // Other rows, and other tables.
    let mut judged = [0, 0];
    for class in [Class::Small, Class::Decisive] {
        for sample in samples(class, 9_300_000, times(400)) {
            let bytes = labelled(sample.seed, &sample.plan).bytes();
            let plan = second::read(&bytes).unwrap_or_else(|refusal| panic!("refused {refusal}: {sample}"));
            let answer = second::run(&plan, ROUNDS, |_, _| ());
            plans += 1;
            for (&one, counts) in &mut fed {
                let found = misread::run_fed(one, &plan, ROUNDS);
                counts[0] += usize::from(found.verdict != answer.verdict);
                counts[1] += usize::from(found != answer);
            }
            let rounds = 100_000 / plan.cells() as u64;
            let Some(left) = trials::left(&plan, rounds).filter(|left| left.rows.is_some()) else { continue };
            let Some(other) = trials::left_by(Mistake::JudgedBy18, &plan, rounds) else { continue };
            broken += 1;
            judged[0] += usize::from(other.rows != left.rows);
            judged[1] += usize::from(other.table != left.table);
        }
    }
    println!("{plans} plans; other verdicts and other answers if labels are let in: {fed:?}");
    println!("{broken} broken plans; other rows and other tables if 18 judges trials: {judged:?}");
    for (one, [_, answers]) in fed {
        assert!(200 * answers >= plans, "{one:?}: {answers} of {plans}");
    }
    assert!(10 * judged[0] >= broken, "{judged:?} of {broken}");
}
