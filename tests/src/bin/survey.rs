//! Prints what the generated plans exercise, class by class. Not part of the
//! gate.

use std::time::Instant;
use sulgrach_tests::generate::{samples, Class, CLASSES};
use sulgrach_tests::second;
use sulgrach_tests::tally::{LinkEdgeChanges, LinkEdgeTally, Tally};
use sulgrach_tests::times;

fn main() {
    for class in CLASSES {
        let (count, cap) = match class {
            Class::Small | Class::Decisive => (3_000, 5_000),
            Class::Mixed => (600, 3_000),
            Class::Extreme => (100, 300),
            Class::Slow => (100, 20_000),
            Class::Dense => (24, 5),
        };
        let started = Instant::now();
        let mut tally = Tally::default();
        let mut link_edges = LinkEdgeTally::default();
        for sample in samples(class, 0, times(count)) {
            let plan =
                second::read(&sample.plan).unwrap_or_else(|refusal| panic!("refused {refusal}: {sample}"));
            tally.add(&plan, cap, class != Class::Dense);
            link_edges.add(&plan, cap);
        }
        print(&mut tally);
        print_link_edges(&link_edges);
        println!("  {:.1} s, at most {cap} rounds a plan\n", started.elapsed().as_secs_f64());
    }
}

fn print(tally: &mut Tally) {
    tally.rounds.sort_unstable();
    let share = |percent: usize| tally.rounds[(tally.rounds.len() - 1) * percent / 100];
    println!(
        "  {} plans, {} with links and propositions, {} with a long timer",
        tally.plans, tally.both, tally.long
    );
    println!("  kept {}, broken {}, spent {}", tally.kept, tally.broken, tally.spent);
    println!("  rounds: median {}, nine tenths {}, most {}", share(50), share(90), share(100));
    println!("  at most {} lines in a table; an unknown digit in {} plans", tally.most_lines, tally.unknown);
    for rule in 1..=6 {
        println!(
            "  rule {rule}: {} raises in {} plans, {} of them with both; without it another table in {}, verdict in {}",
            tally.raises[rule],
            tally.raised_in[rule],
            tally.raised_in_both[rule],
            tally.changes_table[rule],
            tally.changes_verdict[rule],
        );
    }
}

fn print_link_edges(tally: &LinkEdgeTally) {
    println!("  with the edges that links add, and without them:");
    print_changes("plans with links", &tally.all);
    print_changes("kept ones", &tally.kept);
    println!(
        "    another verdict in {}; of {} short listings {} need an upper bound, {} a lower one",
        tally.other_verdicts.len(),
        tally.searched,
        tally.need_upper,
        tally.need_lower,
    );
}

fn print_changes(of: &str, changes: &LinkEdgeChanges) {
    println!(
        "    {} {of}: other cells in {}, only another count in {}; more rounds in {}, fewer in {}; \
         a later activation in {}, which waits either way in {}",
        changes.plans,
        changes.other_cells,
        changes.other_count_only,
        changes.more_rounds,
        changes.fewer_rounds,
        changes.later_activation,
        changes.later_waiting_activation,
    );
}
