//! The listing: its lines, the 16-bit table, its length, refusal 7, and that
//! both replays accept what is handed over.

use std::fmt::Display;
use sulgrach_tests::compare::{self, Lengths, LONGEST_LISTING};
use sulgrach_tests::generate::{hex, long_cycles, raised, random_with_lines, samples, with_rounds_and_lines};
use sulgrach_tests::generate::{Class, Draft, Random, Sample};
use sulgrach_tests::second::{self, listing_bytes, Edge, Entry, Link, Verdict, EVERY_PLAN, MOST_LINES};
use sulgrach_tests::tally::uses_bounds;
use sulgrach_tests::times;

#[test]
fn small_and_decisive_plans() {
    for class in [Class::Small, Class::Decisive] {
        let mut bounds = BoundsUsed::default();
        for sample in samples(class, 1_000_000, times(3_000)) {
            bounds.add(&sample, in_every_way(&sample, 2_000));
        }
        bounds.are_many();
    }
    compare::print_calls("small_and_decisive_plans");
}

#[test]
fn mixed_plans() {
    let mut bounds = BoundsUsed::default();
    for sample in samples(Class::Mixed, 1_000_000, times(300)) {
        bounds.add(&sample, in_every_way(&sample, 120));
    }
    bounds.are_many();
    compare::print_calls("mixed_plans");
}

/// How many listings were handed over, and how many of them have a line by an
/// upper bound of a link, and by a lower one.
#[derive(Debug, Default)]
struct BoundsUsed {
    listings: usize,
    upper: usize,
    lower: usize,
}

impl BoundsUsed {
    fn add(&mut self, sample: &Sample, listing: Option<Vec<u8>>) {
        let Some(listing) = listing else { return };
        let plan = second::read(&sample.plan).expect("an accepted plan");
        let [upper, lower] = uses_bounds(&plan, &second::read_listing(&listing).expect("a listing"));
        self.listings += 1;
        self.upper += usize::from(upper);
        self.lower += usize::from(lower);
    }

    fn are_many(&self) {
        println!("{self:?}");
        assert!(self.upper > self.listings / 100 && self.lower > self.listings / 5, "{self:?}");
    }
}

/// A broken plan of so many links, whose listing cannot do without both edges of
/// each. Activation i is point 1 + 2i and waits 30, its end is the next point; three
/// points after them break the plan in the fourth round. More points and edges
/// follow that change nothing.
fn with_links(links: usize, more_points: usize, more_edges: usize) -> Draft {
    let edge = |from, to, weight| Edge { from, to, weight, label: 0 };
    let link =
        |i| Link { activation: 1 + 2 * i, end: 2 + 2 * i, least: 2 + i as i64, most: 12 + 3 * i as i64 };
    let late = 1 + 2 * links;
    let mut edges = vec![edge(late, 0, -50), edge(late + 1, late, -1), edge(late + 2, late + 1, -1)];
    edges.push(edge(0, late + 2, 51));
    edges.extend((0..links).map(|i| edge(1 + 2 * i, 0, -30)));
    edges.extend((0..more_edges).map(|_| edge(late, 0, -1)));
    let links = (0..links).map(link).collect();
    Draft { points: late + 3 + more_points, observing: vec![], links, edges }
}

/// The first round raises each end to its least, and the third each activation
/// under its own link. Only the two edges of a link give these lines: rows
/// e + n + 2i and e + n + 2i + 1.
#[test]
fn edges_of_links_by_hand() {
    for links in 1..=4 {
        let all_points = 32 - (1 + 2 * links + 3);
        for (more_points, more_edges) in [(0, 0), (1, 3), (all_points, 124 - links)] {
            let draft = with_links(links, more_points, more_edges);
            let bytes = draft.bytes();
            let cells = draft.points << links;
            let case = format!("{links} links, plan {}", hex(&bytes));
            let mut random = Random::new(links as u64);
            let lengths = Lengths::ample(&mut random, cells, LONGEST_LISTING);
            let listing = compare::list(&mut random, &bytes, lengths, EVERY_PLAN, &case).expect(&case);
            let entries = second::read_listing(&listing).expect(&case);
            for (i, link) in draft.links.iter().enumerate() {
                let first_row = draft.edges.len() + draft.points + 2 * i;
                let upper = line_of(&entries, link.activation, 1 << i, 30);
                assert_eq!((upper.rule, usize::from(upper.row)), (1, first_row), "link {i}, {case}");
                let lower = line_of(&entries, link.end, 0, link.least as u32);
                assert_eq!((lower.rule, usize::from(lower.row)), (1, first_row + 1), "link {i}, {case}");
            }
        }
    }
    compare::print_calls("edges_of_links_by_hand");
}

/// The listing's line of this point, set and wait.
fn line_of(entries: &[Entry], point: usize, set: u8, wait: u32) -> &Entry {
    let found = entries
        .iter()
        .find(|entry| usize::from(entry.point) == point && entry.set == set && entry.wait == wait);
    found.unwrap_or_else(|| panic!("no line of point {point}, set {set}, wait {wait}: {entries:?}"))
}

#[test]
fn extreme_slow_and_dense_plans() {
    for (class, count, cap) in [(Class::Extreme, 60, 60), (Class::Slow, 60, 12_000), (Class::Dense, 16, 4)] {
        for sample in samples(class, 1_000_000, times(count)) {
            in_every_way(&sample, cap);
        }
    }
    compare::print_calls("extreme_slow_and_dense_plans");
}

/// One line a round, and in the first also one for each point past the third, so
/// that there are as many rounds as lines or a few fewer.
#[test]
fn listings_about_as_long_as_allowed() {
    // Points, a bound on one of them, lines.
    let bounded = [
        (3, (2, 2_046), 4_095),
        (3, (1, 22_046), 4_096),
        (3, (2, 2_047), 4_097),
        (3, (1, 22_047), 4_098),
        (4, (1, 22_045), 4_095),
        (4, (2, 2_046), 4_096),
        (4, (1, 22_046), 4_097),
        (4, (2, 2_047), 4_098),
    ];
    for (points, bound, lines) in bounded {
        let draft = two_point_cycle(points, 20_000, Some(bound));
        assert_eq!(into_every_output(&draft, &"two-point cycle"), (lines, lines + 3 - points));
    }
    // So many lines that 16 bits would take them for none, one or seven, and
    // more than 4,096 rounds.
    for (points, longest, lines) in [(3, 16_383, 65_536), (4, 10_922, 65_537), (8, 4_681, 65_543)] {
        let draft = two_point_cycle(points, longest, None);
        assert_eq!(into_every_output(&draft, &"two-point cycle"), (lines, lines + 3 - points));
    }
    compare::print_calls("listings_about_as_long_as_allowed");
}

/// The 4,096th line has others of its round before it and often after it.
#[test]
fn listings_about_as_long_with_many_lines_a_round() {
    for (propositions, rounds) in [(0, 1_300), (0, 170), (1, 70), (2, 24), (3, 12), (4, 9)] {
        // Of the bytes of the last two, 16 bits would leave 0 and 14.
        for lines in (4_090..=4_103).chain([4_681, 4_682]) {
            list_made(propositions, rounds, lines);
        }
        // A round ends with the 4,096th line, and more rounds follow before Z's.
        for more in [1, 2, 9] {
            let mut draft = with_rounds_and_lines(propositions, rounds, 4_097);
            draft.edges.last_mut().expect("the bound on the cycle").weight += more as i64;
            assert_eq!(into_every_output(&draft, &"rounds and lines set").1, rounds + more);
        }
    }
    compare::print_calls("listings_about_as_long_with_many_lines_a_round");
}

/// A counter of 16 bits, or of some fewer or more, would take so many lines for
/// few, and the rounds alone are no reason to refuse.
#[test]
fn more_lines_than_16_bits_count() {
    // Bits, propositions, rounds.
    let shapes = [
        (13, 2, 80),
        (14, 2, 120),
        (15, 0, 2_000),
        (16, 0, 4_096),
        (16, 1, 1_200),
        (16, 2, 400),
        (16, 4, 45),
        (17, 3, 300),
    ];
    for (bits, propositions, rounds) in shapes {
        assert!(rounds <= MOST_LINES);
        for left in [4_097, 4_096, 4_095, 700, 2, 1, 0] {
            list_made(propositions, rounds, (1 << bits) + left);
        }
    }
    // Over a million.
    list_made(3, 2_400, (1 << 20) + 4_096);
    compare::print_calls("more_lines_than_16_bits_count");
}

#[test]
fn generated_listings_about_as_long_as_allowed() {
    let count = times(200);
    println!("plans of {count} seeds from 0");
    let (mut allowed, mut refused) = (0, 0);
    for seed in 0..count {
        let mut random = Random::new(seed);
        let points = random.between(8, 14) as usize;
        let lines = random.between(4_090, 4_103) as usize;
        match list_random(&mut random, points, lines, seed).0 {
            4_090..=4_096 => allowed += 1,
            4_097..=4_103 => refused += 1,
            _ => (),
        }
    }
    println!("{allowed} listings of 4,090 to 4,096 lines, {refused} of 4,097 to 4,103");
    assert!(allowed > count / 3 && refused > count / 3, "{allowed} and {refused} of {count}");
    compare::print_calls("generated_listings_about_as_long_as_allowed");
}

/// What 16 bits leave is again a few lines fewer or more than allowed, or next
/// to none, or between.
#[test]
fn generated_listings_longer_than_16_bits_count() {
    let count = times(30);
    println!("plans of {count} seeds from 0");
    let mut few_rounds = 0;
    for seed in 0..count {
        let mut random = Random::new(seed);
        let points = random.between(16, 22) as usize;
        let (least, most) = random.pick(&[(0, 3), (4, 4_089), (4_090, 4_103)]);
        let lines = 65_536 + random.between(least, most) as usize;
        let (lines, rounds) = list_random(&mut random, points, lines, seed);
        few_rounds += u64::from((65_536..=69_639).contains(&lines) && rounds <= MOST_LINES);
    }
    println!("{few_rounds} listings of 65,536 to 69,639 lines, of 4,096 rounds or fewer");
    assert!(few_rounds > count * 3 / 4, "only {few_rounds} of {count}");
    compare::print_calls("generated_listings_longer_than_16_bits_count");
}

/// Points have so many cells here that single rounds raise thousands, in some
/// plans over 4,096.
#[test]
fn generated_listings_with_the_most_lines_a_round() {
    let count = times(40);
    println!("plans of {count} seeds from 0");
    let mut most = 0;
    for seed in 0..count {
        let draft = random_with_lines(&mut Random::new(seed), 24, 3, 3, 8_191);
        let (_, rounds) = into_every_output(&draft, &format!("seed {seed}"));
        let plan = second::read(&draft.bytes()).expect("an accepted plan");
        most = raised(&plan).take(rounds - 1).fold(most, usize::max);
    }
    println!("up to {most} lines a round");
    assert!(most > MOST_LINES, "only {most}");
    compare::print_calls("generated_listings_with_the_most_lines_a_round");
}

/// The last round decides between spent and refusal 7; no output serves.
#[test]
fn more_rounds_than_16_bits_count() {
    for bytes in long_cycles() {
        let case = format!("plan {}", hex(&bytes));
        let plan = second::read(&bytes).expect("an accepted plan");
        let listed = second::run_and_list(&plan, EVERY_PLAN);
        let (rounds, length) = (listed.answer.rounds, listing_bytes(listed.lines.len()));
        assert!(rounds > 65_536 && listed.lines.len() > MOST_LINES, "{rounds} rounds; {case}");

        let mut random = Random::new(rounds);
        for (limit, output) in [(rounds - 1, length), (rounds, LONGEST_LISTING), (EVERY_PLAN, length)] {
            let lengths = Lengths::ample(&mut random, plan.cells(), output);
            assert_eq!(compare::list(&mut random, &bytes, lengths, limit, &case), None, "{case}");
        }
    }
    compare::print_calls("more_rounds_than_16_bits_count");
}

/// Points 1 and 2 wait for each other, so that each round raises one cell; the
/// points past them are raised once, in the first round. A bound on point 1 or
/// 2, or else the horizon, breaks the plan.
fn two_point_cycle(points: usize, longest: i64, bound: Option<(usize, i64)>) -> Draft {
    let edge = |from, to, weight| Edge { from, to, weight, label: 0 };
    let mut edges = vec![edge(1, 2, -longest), edge(2, 1, longest - 1)];
    edges.extend((3..points).map(|point| edge(point, 0, -1)));
    edges.extend(bound.map(|(point, most)| edge(0, point, most)));
    Draft { points, observing: vec![], links: vec![], edges }
}

/// Lists a plan that is made to have so many rounds and lines.
fn list_made(propositions: usize, rounds: usize, lines: usize) {
    let draft = with_rounds_and_lines(propositions, rounds, lines);
    assert_eq!(into_every_output(&draft, &"rounds and lines set"), (lines, rounds));
}

/// Lists a plan drawn at random, with so many points before more are added;
/// returns its numbers of lines and of rounds.
fn list_random(random: &mut Random, points: usize, lines: usize, seed: u64) -> (usize, usize) {
    let (p, k) = random.pick(&[(0, 0), (1, 0), (0, 1), (1, 1), (2, 1), (1, 2), (2, 2), (1, 3), (3, 1)]);
    into_every_output(&random_with_lines(random, points, p, k, lines), &format!("seed {seed}"))
}

/// Lists a broken plan into an output one byte too short, just long enough, and
/// longer. Over 4,096 lines all are refused, be the output long enough for what
/// 16 bits leave of them, for 4,096, for 4,097, or for all. Returns the numbers
/// of lines and of rounds.
fn into_every_output(draft: &Draft, origin: &dyn Display) -> (usize, usize) {
    let bytes = draft.bytes();
    let plan = second::read(&bytes).expect("an accepted plan");
    let listed = second::run_and_list(&plan, EVERY_PLAN);
    let (lines, rounds) = (listed.lines.len(), listed.answer.rounds);
    let length = listing_bytes(lines);
    let mut outputs = if lines <= MOST_LINES {
        vec![length - 1, length, length + 1_000]
    } else {
        vec![listing_bytes(lines % 65_536), LONGEST_LISTING, listing_bytes(MOST_LINES + 1), length]
    };
    // The longest comes first: what a wrong library writes has room there.
    outputs.sort();
    outputs.dedup();
    outputs.reverse();

    let case = format!("{lines} lines, {rounds} rounds, {origin}, plan {}", hex(&bytes));
    let mut random = Random::new(lines as u64);
    for output in outputs {
        let lengths = Lengths { output, ..Lengths::ample(&mut random, plan.cells(), 0) };
        let limit = random.pick(&[rounds, EVERY_PLAN]);
        let listing = compare::list(&mut random, &bytes, lengths, limit, &case);
        let handed_over = lines <= MOST_LINES && output >= length;
        assert_eq!(listing.is_some(), handed_over, "{output} bytes of output, {case}");
    }
    (lines, rounds as usize)
}

/// Lists a plan with the limit too small, just large enough, and larger than 32
/// bits hold; if broken, with the output one byte too short, just long enough,
/// and longer. Returns the listing, if one is handed over.
fn in_every_way(sample: &Sample, cap: u64) -> Option<Vec<u8>> {
    let plan = second::read(&sample.plan).unwrap_or_else(|refusal| panic!("refused {refusal}: {sample}"));
    let listed = second::run_and_list(&plan, cap);
    let rounds = listed.answer.rounds;
    let mut random = Random::new(sample.seed);
    let mut list = |limit: u64, output: usize, exactly: bool| {
        let mut lengths = Lengths::ample(&mut random, plan.cells(), output);
        if exactly {
            lengths.output = output;
        }
        compare::list(&mut random, &sample.plan, lengths, limit, sample)
    };

    let wide = compare::wide_limits(rounds);
    let wide = wide[sample.seed as usize % wide.len()];
    list(rounds - 1, 200, false);
    match listed.answer.verdict {
        Verdict::Spent => {
            let listing = list(rounds, 200, false);
            assert!(listing.is_none(), "{sample}");
            listing
        }
        Verdict::Kept => {
            list(wide, 0, true);
            list(rounds, 200, false)
        }
        Verdict::Broken => {
            let length = listing_bytes(listed.lines.len());
            list(rounds, length - 1, true);
            list(rounds, length, true);
            list(wide, length.min(LONGEST_LISTING), false)
        }
    }
}
