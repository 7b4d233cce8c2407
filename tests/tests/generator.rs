//! The generator is to exercise what the other tests rely on: without this
//! they could all pass and show little.

use sulgrach_tests::generate::{samples, Class, Sample, CLASSES};
use sulgrach_tests::second::{self, Plan};
use sulgrach_tests::tally::{has_long_timer, LinkEdgeTally, Tally};

fn read(sample: &Sample) -> Plan {
    second::read(&sample.plan).unwrap_or_else(|refusal| panic!("refused {refusal}: {sample}"))
}

#[test]
fn plans_use_every_rule_and_both_verdicts() {
    // In a mixed plan much happens at once and a rule seldom decides alone.
    for (class, count, cap, one_in) in [(Class::Decisive, 1_000, 1_000, 30), (Class::Mixed, 300, 300, 200)] {
        let mut short = Tally::default();
        let mut long = Tally::default();
        for sample in samples(class, 0, count) {
            let plan = read(&sample);
            let tally = if has_long_timer(&plan) { &mut long } else { &mut short };
            tally.add(&plan, cap, true);
        }
        use_every_rule_and_both_verdicts(&short, one_in, &format!("{class:?}, short timers"));
        use_every_rule_and_both_verdicts(&long, one_in, &format!("{class:?}, long timers"));
    }
}

/// Each rule is to decide the verdict of one plan in so many, and of one at
/// least.
fn use_every_rule_and_both_verdicts(tally: &Tally, one_in: usize, plans: &str) {
    let count = tally.plans;
    println!("{plans}: {count}, decided by each rule {:?}", &tally.changes_verdict[1..]);
    assert!(tally.kept > count / 4, "{plans}: kept {}", tally.kept);
    assert!(tally.broken > count / 4, "{plans}: broken {}", tally.broken);
    assert!(tally.both > count * 3 / 4, "{plans}: with links and propositions {}", tally.both);
    assert!(tally.unknown > count / 12, "{plans}: with an unknown digit {}", tally.unknown);
    for rule in 1..=6 {
        let (table, verdict) = (tally.changes_table[rule], tally.changes_verdict[rule]);
        assert!(table > count / 4, "{plans}: rule {rule} changes {table} tables");
        assert!(verdict >= (count / one_in).max(1), "{plans}: rule {rule} changes {verdict} verdicts");
    }
}

/// A library with the bound that timers had before is to be seen in each class.
#[test]
fn many_plans_have_long_timers() {
    for class in CLASSES {
        let count = if class == Class::Dense { 24 } else { 200 };
        let long = samples(class, 0, count).filter(|sample| has_long_timer(&read(sample))).count();
        println!("{class:?}: {long} of {count} plans have long timers");
        let least = count as usize / if class == Class::Small { 5 } else { 3 };
        assert!(long >= least, "{class:?}: only {long} of {count}");
    }
}

/// A library whose links add no edges is to be seen in each class: by cells or
/// counts, since no verdict is known that these edges change.
#[test]
fn edges_of_links_tell() {
    let classes = [
        (Class::Small, 600, 500),
        (Class::Decisive, 600, 300),
        (Class::Mixed, 150, 150),
        (Class::Extreme, 40, 30),
        (Class::Slow, 60, 1_000),
        (Class::Dense, 10, 3),
    ];
    let mut tallies = Vec::new();
    for (class, count, cap) in classes {
        let mut tally = LinkEdgeTally::default();
        samples(class, 0, count).for_each(|sample| tally.add(&read(&sample), cap));
        println!("{class:?}: {tally:?}");
        assert!(tally.other_verdicts.is_empty(), "another verdict: {:?}", tally.other_verdicts);
        let (told, links) = (tally.all.told(), tally.all.plans);
        assert!(3 * told >= links, "{class:?}: only {told} of {links} plans with links");
        tallies.push(tally);
    }
    each_edge_of_a_link_tells(&tallies);
}

/// Kept plans show both edges, by their cells and their rounds, and listings
/// cannot do without either.
fn each_edge_of_a_link_tells(tallies: &[LinkEdgeTally]) {
    let sum = |count: fn(&LinkEdgeTally) -> usize| tallies.iter().map(count).sum::<usize>();
    let kept = sum(|tally| tally.kept.plans);
    let told = sum(|tally| tally.kept.told());
    assert!(3 * told >= kept, "only {told} of {kept} kept plans with links");
    // Cells of a kept plan can only differ by an upper bound.
    let later = sum(|tally| tally.kept.later_activation);
    let later_waiting = sum(|tally| tally.kept.later_waiting_activation);
    assert!(4 * later >= kept && 30 * later_waiting >= kept, "{later} and {later_waiting} of {kept}");
    let (more, fewer) = (sum(|tally| tally.kept.more_rounds), sum(|tally| tally.kept.fewer_rounds));
    assert!(20 * more >= kept && 5 * fewer >= kept, "rounds: {more} and {fewer} of {kept}");

    let searched = sum(|tally| tally.searched);
    let (upper, lower) = (sum(|tally| tally.need_upper), sum(|tally| tally.need_lower));
    assert!(30 * upper >= searched && 3 * lower >= searched, "{upper} and {lower} of {searched} listings");
}

#[test]
fn slow_and_large_plans_are_so() {
    let rounds = samples(Class::Slow, 0, 60).map(|sample| {
        let plan = read(&sample);
        (second::run(&plan, 10_000, |_, _| ()).rounds, has_long_timer(&plan))
    });
    let slow: Vec<bool> = rounds.filter(|&(rounds, _)| rounds > 2_000).map(|(_, long)| long).collect();
    assert!(slow.len() > 10, "{slow:?}");
    assert!(slow.contains(&true) && slow.contains(&false), "{slow:?}");
    for sample in samples(Class::Dense, 0, 24) {
        assert!(read(&sample).cells() > 15_000, "{sample}");
    }
}
