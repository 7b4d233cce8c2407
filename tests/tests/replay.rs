//! Replay: 0 or the refusal, on listings that are right, that wander, and
//! that are damaged; every row of rule 1 about its bounds.

use sulgrach_tests::compare;
use sulgrach_tests::generate::listings::{bytes, damaged, entry, Damage, Derivation, DAMAGES};
use sulgrach_tests::generate::{self, hex, samples, Class, Draft, Random, Sample};
use sulgrach_tests::second::{self, Edge, Entry, Ground, Line, Link, Plan, Verdict, MOST_SECONDS};
use sulgrach_tests::tally::{uses_bounds, MOST_SEARCHED};
use sulgrach_tests::times;

#[test]
fn right_listings_on_any_grounds() {
    let mut accepted = 0;
    let mut by_bounds = [0; 2];
    broken_plans(times(1_200), |sample, plan, lines, random| {
        for _ in 0..3 {
            let mut derivation = Derivation::new(plan);
            derivation.follow(random, lines);
            assert_eq!(compare::replay(&sample.plan, &bytes(&derivation.entries), sample), 0, "{sample}");
            accepted += 1;
            add_bounds(&mut by_bounds, plan, &derivation.entries);
        }
    });
    println!("{accepted} listings, {by_bounds:?} with lines by upper and by lower bounds of links");
    assert!(accepted > 1_000, "only {accepted} listings");
    assert!(by_bounds[0] > 50 && by_bounds[1] > 300, "{by_bounds:?}");
    compare::print_calls("right_listings_on_any_grounds");
}

/// Counts a listing with a line by an upper bound of a link, and one by a lower.
fn add_bounds(counts: &mut [usize; 2], plan: &Plan, entries: &[Entry]) {
    for (count, used) in counts.iter_mut().zip(uses_bounds(plan, entries)) {
        *count += usize::from(used);
    }
}

#[test]
fn wandering_derivations() {
    let mut answers = [0; 12];
    let mut by_bounds = [0; 2];
    for class in [Class::Small, Class::Decisive, Class::Mixed] {
        for sample in samples(class, 2_000_000, times(1_000)) {
            let plan = second::read(&sample.plan).expect("an accepted plan");
            let mut random = Random::new(sample.seed);
            let mut derivation = Derivation::new(&plan);
            let steps = random.between(1, 60) as usize;
            derivation.wander(&mut random, steps);
            if random.chance(70) {
                derivation.end_at_z();
            }
            answers[compare::replay(&sample.plan, &bytes(&derivation.entries), &sample) as usize] += 1;
            add_bounds(&mut by_bounds, &plan, &derivation.entries);
        }
    }
    println!(
        "answers by number: {answers:?}; {by_bounds:?} with lines by upper and by lower bounds of links"
    );
    assert!(answers[0] > 300 && answers[11] > 300, "answers by number: {answers:?}");
    assert!(by_bounds.iter().all(|&count| count > 300), "{by_bounds:?}");
    compare::print_calls("wandering_derivations");
}

#[test]
fn wandering_before_the_listing() {
    broken_plans(times(1_200), |sample, plan, lines, random| {
        let mut derivation = Derivation::new(plan);
        derivation.wander(random, 20);
        derivation.follow(random, lines);
        assert_eq!(compare::replay(&sample.plan, &bytes(&derivation.entries), sample), 0, "{sample}");
    });
    compare::print_calls("wandering_before_the_listing");
}

#[test]
fn damaged_listings() {
    let mut answers = [[0; 12]; DAMAGES.len()];
    broken_plans(times(1_200), |sample, plan, lines, random| {
        let mut derivation = Derivation::new(plan);
        if random.chance(50) {
            derivation.wander(random, 10);
        }
        derivation.follow(random, lines);
        for (number, &damage) in DAMAGES.iter().enumerate() {
            for _ in 0..4 {
                let listing = damaged(random, &derivation, damage);
                answers[number][compare::replay(&sample.plan, &listing, sample) as usize] += 1;
            }
        }
    });
    for (damage, answers) in DAMAGES.iter().zip(&answers) {
        println!("{damage:?}, answers by number: {answers:?}");
    }
    let total = |refusal: usize| answers.iter().map(|answers| answers[refusal]).sum::<usize>();
    for refusal in [8, 9, 10, 11] {
        assert!(total(refusal) > 500, "refusal {refusal} only {} times", total(refusal));
    }
    let link_edge = DAMAGES.iter().position(|&damage| damage == Damage::LinkEdge).expect("a damage");
    assert!(answers[link_edge][9] > 100 && answers[link_edge][10] > 500, "{:?}", answers[link_edge]);
    compare::print_calls("damaged_listings");
}

#[test]
fn listings_of_other_plans() {
    broken_plans(times(600), |sample, plan, lines, random| {
        let mut derivation = Derivation::new(plan);
        derivation.follow(random, lines);
        let listing = bytes(&derivation.entries);
        for _ in 0..4 {
            let mut other = sample.plan.clone();
            let place = random.below(other.len());
            other[place] = random.pick(&[other[place] ^ 1, other[place].wrapping_add(1), 0, 255]);
            compare::replay(&other, &listing, &format!("replayed on {}, {sample}", hex(&other)));
        }
        let another = generate::sample(sample.class, sample.seed + 1);
        compare::replay(&another.plan, &listing, &format!("replayed on {another}, {sample}"));
    });
    compare::print_calls("listings_of_other_plans");
}

/// Lines past Z's first one can give Z a label that is not plain: an end in
/// point 0 and yet none.
#[test]
fn an_end_with_an_unknown_digit() {
    let edge = |from, to, weight, label| Edge { from, to, weight, label };
    let plan = Draft {
        points: 4,
        observing: vec![1, 2],
        links: vec![],
        edges: vec![edge(3, 0, -5, 0b0101), edge(0, 3, 2, 0), edge(2, 0, -4, 0b0010)],
    }
    .bytes();
    let right = [
        Entry { point: 3, set: 0, label: 0b0101, rule: 1, wait: 5, row: 0, first: 0, second: 0 },
        Entry { point: 2, set: 0, label: 0b0010, rule: 1, wait: 4, row: 2, first: 0, second: 0 },
        Entry { point: 0, set: 0, label: 0b0101, rule: 1, wait: 3, row: 1, first: 4, second: 0 },
        Entry { point: 0, set: 0, label: 0b0011, rule: 6, wait: 3, row: 1, first: 6, second: 5 },
    ];
    assert_eq!(compare::replay(&plan, &bytes(&right), &"the unknown end"), 11);
    assert_eq!(compare::replay(&plan, &bytes(&right[..3]), &"the plain end"), 0);
    assert_eq!(compare::replay(&plan, &bytes(&right[..2]), &"no end"), 11);

    // Rule 1 is not fed an unknown label, not even by an edge into Z.
    let fed = Entry { point: 3, set: 0, label: 0b0011, rule: 1, wait: 8, row: 0, first: 7, second: 0 };
    let listing = bytes(&[&right[..], &[fed]].concat());
    assert_eq!(compare::replay(&plan, &listing, &"an unknown label fed to rule 1"), 10);
    compare::print_calls("an_end_with_an_unknown_digit");
}

/// Two points that send each other up by eight hours a line, as far as a
/// listing may go: waits far beyond the horizon and beyond 16 bits.
#[test]
fn the_longest_climb() {
    let edge = |from, to| Edge { from, to, weight: -MOST_SECONDS, label: 0 };
    let plan =
        Draft { points: 3, observing: vec![], links: vec![], edges: vec![edge(1, 2), edge(2, 1)] }.bytes();
    let longest = MOST_SECONDS as u32;
    let horizon = 3 * longest;
    let climb = |m: u16| -> Vec<Entry> {
        let step = |i: u16| Entry {
            point: 1 + (i % 2) as u8,
            set: 0,
            label: 0,
            rule: 1,
            wait: longest * (u32::from(i) + 1),
            row: i % 2,
            first: i + 2,
            second: 0,
        };
        let mut entries: Vec<Entry> = (0..m - 1).map(step).collect();
        let top = entries[entries.len() - 1];
        // Row 2 + X is the horizon edge to X.
        let row = 2 + u16::from(top.point);
        entries.push(Entry { point: 0, wait: top.wait - horizon, row, first: m + 1, ..top });
        entries
    };
    for (m, answer) in [(5, 0), (200, 0), (4_096, 0), (4_097, 8)] {
        assert_eq!(compare::replay(&plan, &bytes(&climb(m)), &format!("a climb of {m} lines")), answer);
    }
    compare::print_calls("the_longest_climb");
}

// ------------------------------------------------- edges of links, by hand

/// A plan of so many links, each between two points of its own. Row 3i says that
/// end i comes within 5 s, row 3i + 1 that it waits 60 s, row 3i + 2 that
/// activation i comes within 3 s. More points and edges follow.
fn with_links(links: usize, more_points: usize, more_edges: usize) -> Draft {
    let edge = |from, to, weight| Edge { from, to, weight, label: 0 };
    let link =
        |i| Link { activation: 1 + 2 * i, end: 2 + 2 * i, least: 10 + i as i64, most: 20 + 4 * i as i64 };
    let links: Vec<Link> = (0..links).map(link).collect();
    let rows = |link: &Link| [edge(0, link.end, 5), edge(link.end, 0, -60), edge(0, link.activation, 3)];
    let mut edges: Vec<Edge> = links.iter().flat_map(rows).collect();
    edges.extend((0..more_edges).map(|_| edge(0, 1, 3)));
    Draft { points: 2 + 2 * links.len() + more_points, observing: vec![], links, edges }
}

/// Plans of no to four links, as small and as large as they may be.
fn plans_with_links() -> Vec<Draft> {
    (0..=4)
        .flat_map(|links| {
            let most = (32 - (2 + 2 * links), 128 - 3 * links);
            [(0, 0), (3, 2), most].map(|(points, edges)| with_links(links, points, edges))
        })
        .collect()
}

/// A line by rule 1, under the label 0.
fn by_edge(point: usize, set: u8, wait: i64, row: usize, first: usize) -> Entry {
    entry(&Line { point, set, label: 0, wait }, Ground { rule: 1, row, first, second: 0 })
}

/// The rows of a link's two edges: "e + n + 2i and e + n + 2i + 1".
fn rows_of_link(draft: &Draft, i: usize) -> [usize; 2] {
    let first = draft.edges.len() + draft.points + 2 * i;
    [first, first + 1]
}

/// The end waits its least by the lower bound, and so Z waits.
fn by_lower_bound(draft: &Draft, i: usize) -> Vec<Entry> {
    let Link { activation, end, least, .. } = draft.links[i];
    let [_, lower] = rows_of_link(draft, i);
    vec![by_edge(end, 0, least, lower, activation), by_edge(0, 0, least - 5, 3 * i, draft.points)]
}

/// The end waits 60, so the activation waits its most less, and so Z waits.
fn by_upper_bound(draft: &Draft, i: usize) -> Vec<Entry> {
    let Link { activation, end, most, .. } = draft.links[i];
    let [upper, _] = rows_of_link(draft, i);
    let n = draft.points;
    vec![
        by_edge(end, 0, 60, 3 * i + 1, 0),
        by_edge(activation, 0, 60 - most, upper, n),
        by_edge(0, 0, 60 - most - 3, 3 * i + 2, n + 1),
    ]
}

/// Both edges of a link under the link: the activation waits as without it, and
/// from there the end by its least.
fn under_the_link(draft: &Draft, i: usize) -> Vec<Entry> {
    let Link { activation, end, least, most } = draft.links[i];
    let [upper, lower] = rows_of_link(draft, i);
    let n = draft.points;
    let set = 1 << i;
    let mut entries = by_upper_bound(draft, i);
    entries.truncate(2);
    let raised = Line { point: end, set, label: 0, wait: 60 };
    entries.extend([
        entry(&raised, Ground { rule: 3, row: i, first: n + 1, second: 0 }),
        by_edge(activation, set, 60 - most, upper, n + 2),
        by_edge(end, set, 60 - most + least, lower, n + 3),
        by_edge(0, set, 60 - most + least - 5, 3 * i, n + 4),
    ]);
    entries
}

#[test]
fn edges_of_each_link() {
    for draft in plans_with_links() {
        let plan = draft.bytes();
        let case = format!("plan {}", hex(&plan));
        for i in 0..draft.links.len() {
            for derivation in [by_lower_bound, by_upper_bound, under_the_link] {
                assert_eq!(
                    compare::replay(&plan, &bytes(&derivation(&draft, i)), &case),
                    0,
                    "link {i}, {case}"
                );
            }
        }
    }
    compare::print_calls("edges_of_each_link");
}

/// Rows past those of the last link, and row e: refused with 9, at any line. Rows
/// below are in range, and only 10 if they do not give the line.
#[test]
fn rows_out_of_range() {
    for draft in plans_with_links() {
        let plan = draft.bytes();
        let [n, k, e] = [draft.points, draft.links.len(), draft.edges.len()];
        let last = e + n + 2 * k;
        let case = format!("e {e}, n {n}, k {k}, plan {}", hex(&plan));
        // No row from e on gives a line of Z from its starting line.
        let not_given = |row| by_edge(0, 0, 59, row, 0);
        for row in (e..last + 20).chain([255, 256, 256 + e, 256 + last - 1, 32_768 + e + n, 65_534, 65_535]) {
            let due = if row == e || row >= last { 9 } else { 10 };
            assert_eq!(compare::replay(&plan, &bytes(&[not_given(row)]), &case), due, "row {row}, {case}");
            // An earlier line is judged first.
            let listing = bytes(&[not_given(e + 1), not_given(row)]);
            assert_eq!(compare::replay(&plan, &listing, &case), 10, "row {row}, {case}");
        }
        for i in 0..k {
            for derivation in [by_lower_bound, by_upper_bound, under_the_link] {
                let right = derivation(&draft, i);
                for place in 0..right.len() {
                    for row in [e, last, last + 1, last + 2, 65_535] {
                        let mut entries = right.clone();
                        if entries[place].rule == 1 {
                            entries[place].row = row as u16;
                            let answer = compare::replay(&plan, &bytes(&entries), &case);
                            assert_eq!(answer, 9, "link {i}, line {place}, row {row}, {case}");
                        }
                    }
                }
            }
        }
    }
    compare::print_calls("rows_out_of_range");
}

/// Lines by a link's edges with one thing changed. What is due is told without
/// the second checker.
#[test]
fn edges_of_links_mistaken() {
    for draft in plans_with_links() {
        for i in 0..draft.links.len() {
            let [upper, lower] = rows_of_link(&draft, i).map(|row| row as u16);
            let apart = (draft.links[i].most - draft.links[i].least) as u32;
            let other_links = (0..draft.links.len()).filter(|&other| other != i);
            let other_rows = other_links.flat_map(|other| rows_of_link(&draft, other));
            let rows: Vec<u16> = other_rows.map(|row| row as u16).chain([0, 1, 2]).collect();

            // Line 0 is the end's, by the lower bound from the activation.
            let right = by_lower_bound(&draft, i);
            mistaken(&draft, &right, 0, 10, |line| line.row = upper);
            mistaken(&draft, &right, 0, 10, |line| line.wait += apart);
            mistaken(&draft, &right, 0, 10, |line| line.first = u16::from(line.point));
            both_ways(&draft, &right, 0, i, &rows);

            // Line 1 is the activation's, by the upper bound from the end.
            let right = by_upper_bound(&draft, i);
            mistaken(&draft, &right, 1, 10, |line| line.row = lower);
            mistaken(&draft, &right, 1, 10, |line| line.wait += apart);
            mistaken(&draft, &right, 1, 10, |line| line.first = u16::from(line.point));
            both_ways(&draft, &right, 1, i, &rows);
            // Rule 2 gives the wait less the least.
            mistaken(&draft, &right, 1, 10, |line| (line.rule, line.row) = (2, i as u16));
        }
    }
    compare::print_calls("edges_of_links_mistaken");
}

/// Mistakes in a line that either edge of link i gives; `rows` are of other edges.
fn both_ways(draft: &Draft, right: &[Entry], place: usize, i: usize, rows: &[u16]) {
    for &row in rows {
        mistaken(draft, right, place, 10, |line| line.row = row);
    }
    mistaken(draft, right, place, 10, |line| line.wait += 1);
    mistaken(draft, right, place, 10, |line| line.wait -= 1);
    mistaken(draft, right, place, 10, |line| line.wait = 0);
    // The set stays as it is.
    mistaken(draft, right, place, 10, |line| line.set = 1 << i);
    mistaken(draft, right, place, 9, |line| line.label = 1);
    mistaken(draft, right, place, 10, |line| (line.rule, line.row) = (3, i as u16));
    mistaken(draft, right, place, 10, |line| line.second = 1);
    mistaken(draft, right, place, 10, |line| line.second = 65_535);
    mistaken(draft, right, place, 9, |line| line.first = (draft.points + place) as u16);
    mistaken(draft, right, place, 10, |line| line.first = 0);
}

/// Replays a right listing with one line changed.
fn mistaken(draft: &Draft, right: &[Entry], place: usize, due: u32, change: impl FnOnce(&mut Entry)) {
    let mut entries = right.to_vec();
    change(&mut entries[place]);
    let plan = draft.bytes();
    let case = format!("{:?} in place of {:?}, plan {}", entries[place], right[place], hex(&plan));
    assert_eq!(compare::replay(&plan, &bytes(&entries), &case), due, "{case}");
}

/// The end waits no longer than its link takes: the upper bound gives nothing.
#[test]
fn no_wait_left_by_an_upper_bound() {
    for draft in plans_with_links() {
        let plan = draft.bytes();
        let case = format!("plan {}", hex(&plan));
        for (i, &Link { activation, end, least, most }) in draft.links.iter().enumerate() {
            let [upper, lower] = rows_of_link(&draft, i);
            let ground = Ground { rule: 3, row: i, first: activation, second: 0 };
            let longest = entry(&Line { point: end, set: 1 << i, label: 0, wait: most }, ground);
            let shortest = by_edge(end, 0, least, lower, activation);
            for raised in [longest, shortest] {
                assert_eq!(compare::replay(&plan, &bytes(&[raised]), &case), 11, "link {i}, {case}");
                let left = i64::from(raised.wait) - most;
                let listing = bytes(&[raised, by_edge(activation, raised.set, left, upper, draft.points)]);
                assert_eq!(compare::replay(&plan, &listing, &case), 10, "link {i}, {case}");
            }
        }
    }
    compare::print_calls("no_wait_left_by_an_upper_bound");
}

/// A link's edges have label 0: the line's label stays, and one with an unknown
/// digit is not taken.
#[test]
fn labels_over_edges_of_a_link() {
    let edge = |from, to, weight, label| Edge { from, to, weight, label };
    let plan = Draft {
        points: 5,
        observing: vec![1, 2],
        links: vec![Link { activation: 3, end: 4, least: 2, most: 3 }],
        edges: vec![
            edge(4, 0, -9, 0b0101),
            edge(2, 0, -8, 0b0010),
            edge(3, 0, -9, 0b0101),
            edge(0, 3, 1, 0),
            edge(4, 0, -7, 0),
        ],
    }
    .bytes();
    // Row 10 is the link's edge of weight 3 to its end, row 11 that of −2 back.
    let line = |point, label, rule, wait, row, first, second| Entry {
        point,
        set: 0,
        label,
        rule,
        wait,
        row,
        first,
        second,
    };
    let start = [
        line(4, 0b0101, 1, 9, 0, 0, 0),
        line(2, 0b0010, 1, 8, 1, 0, 0),
        line(3, 0b0101, 1, 9, 2, 0, 0),
        line(4, 0b0011, 6, 8, 1, 5, 6),
        line(3, 0b0011, 6, 8, 1, 7, 6),
        line(4, 0, 1, 7, 4, 0, 0),
    ];
    let cases = [
        ("the end's label", line(3, 0b0101, 1, 6, 10, 5, 0), 11),
        ("the activation's label", line(4, 0b0101, 1, 11, 11, 7, 0), 11),
        ("the end's label, which is 0", line(3, 0, 1, 4, 10, 10, 0), 11),
        ("the activation's label, which is 0", line(4, 0, 1, 2, 11, 3, 0), 11),
        ("another label by the upper bound", line(3, 0, 1, 6, 10, 5, 0), 10),
        ("another label by the lower bound", line(4, 0, 1, 11, 11, 7, 0), 10),
        ("an unknown label fed to the upper bound", line(3, 0b0011, 1, 5, 10, 8, 0), 10),
        ("an unknown label fed to the lower bound", line(4, 0b0011, 1, 10, 11, 9, 0), 10),
        ("an end", line(0, 0b0101, 1, 8, 3, 7, 0), 0),
    ];
    for (case, last, due) in cases {
        assert_eq!(compare::replay(&plan, &bytes(&[&start[..], &[last]].concat()), &case), due, "{case}");
    }
    compare::print_calls("labels_over_edges_of_a_link");
}

// ---------------------------------------------------- listings of one line

/// The 1-line listings over all heads and grounds near their bounds, on a plan of
/// links and facts and on one of each number of links.
#[test]
fn every_short_listing_near_the_bounds() {
    let Sample { plan, .. } = generate::sample(Class::Decisive, 7);
    let of_links = (0..=4).map(|links| with_links(links, 0, 0).bytes());
    for plan in [plan].into_iter().chain(of_links) {
        let read = second::read(&plan).expect("an accepted plan");
        let [n, k, e] = [read.points, read.links.len(), read.edges.len()].map(|size| size as u16);
        let rows: Vec<u16> = (0..e + n + 2 * k + 2).chain([255, 256, 65_535]).collect();
        let parents = [0, 1, 2, n - 1, n, n + 1, 65_535];
        for rule in 0..=7 {
            for &row in &rows {
                for first in parents {
                    for second in parents {
                        let ground =
                            Ground { rule, row: row.into(), first: first.into(), second: second.into() };
                        let listing = bytes(&[one_line(&read, ground)]);
                        compare::replay(&plan, &listing, &format!("{ground:?} on {}", hex(&plan)));
                    }
                }
            }
        }
    }
    compare::print_calls("every_short_listing_near_the_bounds");
}

/// A line as the ground gives it, where it gives one.
fn one_line(plan: &Plan, ground: Ground) -> Entry {
    let lines = second::starting_lines(plan);
    let in_range =
        second::row_in_range(plan, ground.rule, ground.row) && ground.first.max(ground.second) < lines.len();
    let given = if in_range { second::given(plan, &lines, ground) } else { None };
    entry(&given.unwrap_or(Line { point: 0, set: 0, label: 0, wait: 1 }), ground)
}

/// Goes over broken plans with short listings, about half of `count`.
fn broken_plans(count: u64, mut visit: impl FnMut(&Sample, &Plan, &[Line], &mut Random)) {
    for (class, part) in [(Class::Small, 4), (Class::Decisive, 2), (Class::Mixed, 4)] {
        for sample in samples(class, 2_000_000, count / part) {
            let plan = second::read(&sample.plan).expect("an accepted plan");
            let listed = second::run_and_list(&plan, 100);
            if listed.answer.verdict == Verdict::Broken && listed.lines.len() <= MOST_SEARCHED {
                visit(&sample, &plan, &listed.lines, &mut Random::new(sample.seed));
            }
        }
    }
}
