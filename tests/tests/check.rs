//! The check: verdict, count and both tables, at every limit that matters.

use sulgrach_tests::compare::{self, Lengths};
use sulgrach_tests::generate::{hex, long_cycles, samples, Class, Draft, Random, Sample};
use sulgrach_tests::second::{self, Edge, Link, Verdict, EVERY_PLAN};
use sulgrach_tests::tally::has_long_timer;
use sulgrach_tests::times;

#[test]
fn small_and_decisive_plans() {
    for class in [Class::Small, Class::Decisive] {
        for sample in samples(class, 0, times(4_000)) {
            at_every_limit(&sample, 5_000);
        }
    }
    compare::print_calls("small_and_decisive_plans");
}

#[test]
fn mixed_plans() {
    for sample in samples(Class::Mixed, 0, times(1_200)) {
        at_every_limit(&sample, 150);
    }
    compare::print_calls("mixed_plans");
}

#[test]
fn extreme_plans() {
    for sample in samples(Class::Extreme, 0, times(100)) {
        at_every_limit(&sample, 60);
    }
    compare::print_calls("extreme_plans");
}

#[test]
fn slow_plans() {
    for sample in samples(Class::Slow, 0, times(100)) {
        at_every_limit(&sample, 20_000);
    }
    compare::print_calls("slow_plans");
}

#[test]
fn plans_near_the_most_cells() {
    for sample in samples(Class::Dense, 0, times(24)) {
        at_every_limit(&sample, 5);
    }
    compare::print_calls("plans_near_the_most_cells");
}

/// A link of 2 to 5 s that starts at this point and ends at the next, with these
/// edges.
fn with_a_link(points: usize, observing: &[usize], activation: usize, edges: &[Edge]) -> Vec<u8> {
    let link = Link { activation, end: activation + 1, least: 2, most: 5 };
    Draft { points, observing: observing.to_vec(), links: vec![link], edges: edges.to_vec() }.bytes()
}

/// Plans that tell by cells or counts that a link adds two edges. Worked out by
/// hand; waits are named with the link in brackets where it is in the set.
#[test]
fn edges_of_a_link_by_hand() {
    let edge = |from, to, weight, label| Edge { from, to, weight, label };
    let kept = Verdict::Kept;
    let broken = Verdict::Broken;
    let cases: [(Vec<u8>, Verdict, u64, &[u32]); 6] = [
        // The end at most 1 s after Z. It waits 2 and [5] after the first round,
        // so that Z waits without the link too.
        (with_a_link(2, &[], 0, &[edge(0, 1, 1, 0)]), broken, 2, &[1, 4, 2, 5]),
        // The activation waits 3, then the end 5 and [8], and in a third round
        // the activation [3].
        (with_a_link(3, &[], 1, &[edge(1, 0, -3, 0)]), kept, 4, &[0, 0, 3, 3, 5, 8]),
        // The same with a point that comes a second before the activation at
        // most: its wait under the link takes a fourth round.
        (with_a_link(4, &[], 1, &[edge(1, 0, -3, 0), edge(3, 1, 1, 0)]), kept, 5, &[0, 0, 3, 3, 5, 8, 2, 2]),
        // The end and a point wait for each other: the end 2 and [5], the point
        // 3 and [6], the end 4 and [7], and so Z 2 by rule 2 and [2] by the edge.
        (with_a_link(3, &[], 0, &[edge(1, 2, -1, 0), edge(2, 1, -1, 0)]), broken, 4, &[2, 2, 4, 7, 5, 8]),
        // Two points wait for each other, a second more every other round, up to
        // the horizon: four times the 5 s.
        (
            with_a_link(4, &[], 0, &[edge(2, 3, -1, 0), edge(3, 2, 0, 0)]),
            broken,
            42,
            &[1, 0, 2, 5, 21, 0, 21, 0],
        ),
        // The activation waits 3 if a fact is yes: all that follows keeps the yes.
        (
            with_a_link(4, &[3], 1, &[edge(1, 0, -3, 1)]),
            kept,
            4,
            &[
                0, 0, 0, 0, 0, 0, 0, 0, // Z
                0, 3, 0, 0, 0, 3, 0, 0, // the activation
                2, 5, 0, 0, 5, 8, 0, 0, // the end
                0, 0, 0, 0, 0, 0, 0, 0, // the observing point
            ],
        ),
    ];
    for (bytes, verdict, rounds, cells) in cases {
        let case = format!("plan {}", hex(&bytes));
        let plan = second::read(&bytes).expect("an accepted plan");
        let answer = second::run(&plan, EVERY_PLAN, |_, _| ());
        assert_eq!((answer.verdict, answer.rounds, &answer.table[..]), (verdict, rounds, cells), "{case}");
        let mut random = Random::new(rounds);
        for limit in 0..=rounds + 1 {
            let lengths = Lengths::ample(&mut random, cells.len(), 0);
            compare::check(&mut random, &bytes, lengths, limit, &case);
        }
    }
    compare::print_calls("edges_of_a_link_by_hand");
}

#[test]
fn more_rounds_than_16_bits_count() {
    for bytes in long_cycles() {
        let case = format!("plan {}", hex(&bytes));
        let plan = second::read(&bytes).expect("an accepted plan");
        assert!(has_long_timer(&plan), "{case}");
        let rounds = second::run(&plan, EVERY_PLAN, |_, _| ()).rounds;
        assert!(rounds > 65_536, "only {rounds} rounds; {case}");

        let mut random = Random::new(rounds);
        for limit in [65_535, 65_536, rounds - 1, rounds, 1 << 32, EVERY_PLAN] {
            let lengths = Lengths::ample(&mut random, plan.cells(), 0);
            compare::check(&mut random, &bytes, lengths, limit, &case);
        }
    }
    compare::print_calls("more_rounds_than_16_bits_count");
}

/// Compares at limits 0, 1, R − 1, R, and one that does not fit 32 bits. A plan
/// without an R up to `cap` is compared up to there.
fn at_every_limit(sample: &Sample, cap: u64) {
    let plan = second::read(&sample.plan).unwrap_or_else(|refusal| panic!("refused {refusal}: {sample}"));
    let answer = second::run(&plan, cap, |_, _| ());
    let mut limits = vec![0, 1, answer.rounds - 1, answer.rounds];
    if answer.verdict != Verdict::Spent {
        let wide = compare::wide_limits(answer.rounds);
        limits.push(wide[sample.seed as usize % wide.len()]);
    }
    limits.dedup();

    let mut random = Random::new(sample.seed);
    for limit in limits {
        let lengths = Lengths::ample(&mut random, plan.cells(), 0);
        compare::check(&mut random, &sample.plan, lengths, limit, sample);
    }
}
