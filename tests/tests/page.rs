//! The page: its lines, its length, and its refusals in their order, on the
//! tables that checks leave and on any others.

use std::collections::HashSet;
use std::fmt::Display;
use std::fs;
use sulgrach_tests::compare;
use sulgrach_tests::generate::faults::{faulty, faulty_many_times, FAULTS};
use sulgrach_tests::generate::{hex, samples, Class, Draft, Random};
use sulgrach_tests::library::header::SULGRACH_PAGE;
use sulgrach_tests::library::{self, refused, BROKEN, DONE, KEPT, SPENT};
use sulgrach_tests::second::{self, page_bytes, Link, Refusal, EVERY_PLAN, MOST_CELLS};
use sulgrach_tests::{plan_files, times};

// --------------------------------------------------------------- by hand

/// A line of a page, and its point, link set, label and wait. Link 0 and
/// proposition 0 stand last in the set and in the label.
type Written = (&'static str, usize, usize, usize, u32);

/// A page to be held against the request's columns. Z has lines here, and so
/// have labels with an unknown digit.
#[test]
fn a_page_by_hand() {
    let lines: [Written; 11] = [
        //          1         2
        // 123456789012345678901
        (" 0 .... .... 0      1", 0, 0b00, 0b00_00, 1),
        (" 0 .1.. ?+.. 1 999999", 0, 0b10, 0b01_11, 999_999),
        (" 1 .... +... 0      9", 1, 0b00, 0b00_01, 9),
        (" 1 .... -... 0     10", 1, 0b00, 0b00_10, 10),
        (" 1 .... ?... 0     99", 1, 0b00, 0b00_11, 99),
        (" 1 .... .+.. 0    100", 1, 0b00, 0b01_00, 100),
        (" 1 .... .-.. 0    999", 1, 0b00, 0b10_00, 999),
        (" 1 .... .?.. 0   1000", 1, 0b00, 0b11_00, 1_000),
        (" 9 0... +-.. 1  28800", 9, 0b01, 0b10_01, 28_800),
        ("10 .1.. -+.. 1 100000", 10, 0b10, 0b01_10, 100_000),
        // The plan's last cell.
        ("11 01.. ??.. 2   4321", 11, 0b11, 0b11_11, 4_321),
    ];
    by_hand(12, 2, 2, &lines);
    compare::print_calls("a_page_by_hand");
}

/// The columns of links 2 and 3 and of propositions 2 and 3; a plan that has
/// neither links nor propositions.
#[test]
fn other_columns_by_hand() {
    let four_links: [Written; 5] = [
        (" 0 ...3 ..+. 1     10", 0, 0b1000, 0b01_00_00, 10),
        (" 7 0.2. .... 2 979200", 7, 0b0101, 0b00_00_00, 979_200),
        (" 9 .123 -.?. 3    100", 9, 0b1110, 0b11_00_10, 100),
        ("15 0123 .... 4      5", 15, 0b1111, 0b00_00_00, 5),
        ("15 0123 +-?. 4  12345", 15, 0b1111, 0b11_10_01, 12_345),
    ];
    by_hand(16, 3, 4, &four_links);
    let four_propositions: [Written; 4] = [
        (" 0 .... ...+ 0     99", 0, 0b000, 0b01_00_00_00, 99),
        (" 2 ..2. .+.- 1      1", 2, 0b100, 0b10_00_01_00, 1),
        (" 7 01.. ?-+? 2  99999", 7, 0b011, 0b11_01_10_11, 99_999),
        (" 7 012. ---- 3 999999", 7, 0b111, 0b10_10_10_10, 999_999),
    ];
    by_hand(8, 4, 3, &four_propositions);
    let neither: [Written; 3] = [
        (" 0 .... .... 0      9", 0, 0, 0, 9),
        (" 4 .... .... 0     10", 4, 0, 0, 10),
        ("31 .... .... 0 123456", 31, 0, 0, 123_456),
    ];
    by_hand(32, 0, 0, &neither);
    compare::print_calls("other_columns_by_hand");
}

/// A table that holds just these lines, printed into outputs of every length:
/// the page is as written, or refused for the output alone.
fn by_hand(points: usize, propositions: usize, links: usize, lines: &[Written]) {
    let plan = plan_of(points, propositions, links);
    let (sets, labels) = (1 << links, 1 << (2 * propositions));
    let mut table = vec![0; points * sets * labels];
    let mut written = String::new();
    for &(line, point, set, label, wait) in lines {
        table[(point * sets + set) * labels + label] = wait;
        written += line;
        written += "\n";
    }
    let mut random = Random::new(lines.len() as u64);
    for output in 0..written.len() + 30 {
        let page = compare::page(&mut random, &plan, &table, output, &"a page by hand");
        let page = page.map(|bytes| String::from_utf8(bytes).expect("text"));
        let due = if output < written.len() { Err(13) } else { Ok(written.clone()) };
        assert_eq!(page, due, "output of {output} bytes");
    }
}

/// A plan of these sizes, without edges.
fn plan_of(points: usize, propositions: usize, links: usize) -> Vec<u8> {
    let ends = propositions + 1..=propositions + links;
    Draft {
        points,
        observing: (1..=propositions).collect(),
        links: ends.map(|end| Link { activation: 0, end, least: 1, most: 2 }).collect(),
        edges: vec![],
    }
    .bytes()
}

// ---------------------------------------------------------------- tables

/// The tables that the library's check leaves, printed as a caller would: of
/// plans kept, broken and spent, and of all in `plans`.
#[test]
fn tables_left_by_checks() {
    let classes = [
        (Class::Small, 800, 5_000),
        (Class::Decisive, 800, 5_000),
        (Class::Mixed, 300, 150),
        (Class::Extreme, 60, 60),
        (Class::Slow, 60, 2_000),
        (Class::Dense, 12, 5),
    ];
    let mut codes = [0; 3];
    for (class, count, limit) in classes {
        for sample in samples(class, 6_000_000, times(count)) {
            let mut random = Random::new(sample.seed);
            codes[left_by_a_check(&mut random, &sample.plan, limit, &sample) as usize] += 1;
        }
    }
    println!("kept, broken and spent: {codes:?}");
    for code in [KEPT, BROKEN, SPENT] {
        assert!(codes[code as usize] > 20, "kept, broken and spent: {codes:?}");
    }
    for file in plan_files() {
        let plan = fs::read(&file).expect("a plan");
        left_by_a_check(&mut Random::new(0), &plan, EVERY_PLAN, &file.display());
    }
    compare::print_calls("tables_left_by_checks");
}

/// Prints what a check leaves; returns the check's code.
fn left_by_a_check(random: &mut Random, plan: &[u8], limit: u64, sample: &dyn Display) -> u32 {
    // The check leaves what stands past the cells, and no page has it, be it too
    // high or not.
    let past = random.pick(&[1, u32::MAX]);
    let mut table = vec![past; cells(plan) + random.pick(&[0, 1, 60])];
    let mut other = table.clone();
    let code = library::check(plan, &mut table, &mut other, limit, &mut []);
    into_every_output(random, plan, &table, sample);
    code
}

/// The most that a page has.
const HIGHEST: u32 = 999_999;

/// Too high for a page, just so and as far as can be.
const TOO_HIGH: [u32; 2] = [HIGHEST + 1, u32::MAX];

/// Waits about each number of digits.
const WAITS: [u32; 12] = [1, 9, 10, 99, 100, 999, 1_000, 9_999, 10_000, 99_999, 100_000, HIGHEST];

/// A table with about so many cells above 0, in a hundred.
fn any_table(random: &mut Random, cells: usize, percent: usize) -> Vec<u32> {
    let mut wait = || match random.chance(percent) {
        true if random.chance(20) => random.between(1, HIGHEST.into()) as u32,
        true => random.pick(&WAITS),
        false => 0,
    };
    (0..cells).map(|_| wait()).collect()
}

/// Tables that no check leaves: all zero, sparse and full ones, also with
/// cells too high. Z's cells and labels with unknown digits are like others.
#[test]
fn any_tables() {
    for (class, count) in
        [(Class::Small, 200), (Class::Decisive, 200), (Class::Mixed, 100), (Class::Dense, 4)]
    {
        for sample in samples(class, 6_100_000, times(count)) {
            let mut random = Random::new(sample.seed);
            for percent in [0, 2, 30, 100] {
                let mut table = any_table(&mut random, cells(&sample.plan), percent);
                into_every_output(&mut random, &sample.plan, &table, &sample);
                for _ in 0..random.between(1, 3) {
                    let place = random.below(table.len());
                    table[place] = random.pick(&TOO_HIGH);
                }
                into_every_output(&mut random, &sample.plan, &table, &sample);
            }
        }
    }
    compare::print_calls("any_tables");
}

/// One cell at a time is too high, or just not: each cell of a small plan, some
/// of a large one, and the entry past the last cell, which is none.
#[test]
fn one_cell_too_high() {
    for (class, count) in [(Class::Small, 60), (Class::Dense, 2)] {
        for sample in samples(class, 6_200_000, times(count)) {
            let mut random = Random::new(sample.seed);
            let cells = cells(&sample.plan);
            let places: Vec<usize> =
                if cells < 200 { (0..=cells).collect() } else { vec![0, 1, cells / 2, cells - 1, cells] };
            for others in [0, 100] {
                let table = any_table(&mut random, cells + 1, others);
                for wait in TOO_HIGH.into_iter().chain([HIGHEST]) {
                    for &place in &places {
                        let mut table = table.clone();
                        table[place] = wait;
                        let length = length_of(&table[..cells]);
                        let due = if place < cells && wait > HIGHEST { Err(12) } else { Ok(length) };
                        answered(&mut random, &sample.plan, &table, length, due, &sample);
                    }
                }
            }
        }
    }
    compare::print_calls("one_cell_too_high");
}

/// A table is refused if an entry short, whatever it holds; entries past the
/// cells are neither judged nor printed.
#[test]
fn tables_about_as_long_as_the_cells() {
    for (class, count) in [(Class::Small, 150), (Class::Decisive, 50), (Class::Dense, 3)] {
        for sample in samples(class, 6_300_000, times(count)) {
            let mut random = Random::new(sample.seed);
            let cells = cells(&sample.plan);
            for percent in [0, 30, 100] {
                let mut table = any_table(&mut random, cells, percent);
                for short in [0, 1, cells / 2, cells - 1] {
                    let output = random.pick(&[0, 21, page_bytes(cells)]);
                    answered(&mut random, &sample.plan, &table[..short], output, Err(6), &sample);
                }
                into_every_output(&mut random, &sample.plan, &table, &sample);
                for _ in 0..4 {
                    table.push(random.pick(&[0, 1, HIGHEST, TOO_HIGH[0], TOO_HIGH[1]]));
                    into_every_output(&mut random, &sample.plan, &table, &sample);
                }
            }
        }
    }
    compare::print_calls("tables_about_as_long_as_the_cells");
}

/// Full tables of every number of links, propositions and points: each point,
/// set and label has a line of its own, and the longest page is the header's.
#[test]
fn every_width() {
    let mut random = Random::new(0);
    let mut longest = 0;
    let mut widths = HashSet::new();
    for (links, propositions) in
        (0..5).flat_map(|links| (0..5).map(move |propositions| (links, propositions)))
    {
        let width = 1 << links << (2 * propositions);
        // Each end of a link and each observing point is a point of its own. With
        // four of both there are more points than the cells allow: the fourth
        // observing point is none of the plan's.
        let least = 2.max(1 + links + propositions);
        let most = 32.min(MOST_CELLS / width);
        assert_eq!(least > most, (links, propositions) == (4, 4));
        if least > most {
            let (plan, case) = (plan_of(most, 4, 4), "4,096 cells a point");
            let table = any_table(&mut random, MOST_CELLS, 100);
            answered(&mut random, &plan, &table, SULGRACH_PAGE as usize, Err(3), &case);
        }
        for points in least..=most {
            let case = format!("{points} points, {propositions} propositions, {links} links");
            let plan = plan_of(points, propositions, links);
            let table = any_table(&mut random, points * width, 100);
            let length = page_bytes(table.len());
            let page = compare::page(&mut random, &plan, &table, length, &case).expect(&case);
            let heads: HashSet<&[u8]> = page.chunks(page_bytes(1)).map(|line| &line[..14]).collect();
            assert_eq!(heads.len(), table.len(), "different points, sets and labels; {case}");
            if points == most {
                into_every_output(&mut random, &plan, &table, &case);
            }
            longest = longest.max(page.len());
            widths.insert(width);
        }
    }
    assert_eq!(longest, SULGRACH_PAGE as usize);
    assert_eq!(widths, (0..12).map(|power| 1 << power).collect());
    compare::print_calls("every_width");
}

/// The plan's cells.
fn cells(plan: &[u8]) -> usize {
    second::read(plan).expect("an accepted plan").cells()
}

/// The length of these cells' page.
fn length_of(cells: &[u32]) -> usize {
    page_bytes(cells.iter().filter(|&&wait| wait > 0).count())
}

/// Prints a table into outputs just long enough, a byte short, a byte longer,
/// much longer, empty, and of any length.
fn into_every_output(random: &mut Random, plan: &[u8], table: &[u32], sample: &dyn Display) {
    let cells = &table[..cells(plan)];
    let length = length_of(cells);
    let any = random.below(length + 1);
    for output in [length, length.saturating_sub(1), length + 1, 2 * length + 500, 0, any] {
        let due = if cells.iter().any(|&wait| wait > HIGHEST) {
            Err(12)
        } else if output < length {
            Err(13)
        } else {
            Ok(length)
        };
        answered(random, plan, table, output, due, sample);
    }
}

/// Prints a table; what is due, a length or a refusal, is told without the
/// second checker.
fn answered(
    random: &mut Random,
    plan: &[u8],
    table: &[u32],
    output: usize,
    due: Result<usize, Refusal>,
    sample: &dyn Display,
) {
    let found = compare::page(random, plan, table, output, sample).map(|page| page.len());
    assert_eq!(found, due, "table of {} entries, output of {output} bytes; {sample}", table.len());
}

// -------------------------------------------------------------- refusals

/// Refusals 1 to 5, 17 and 18 come before all others: also where the table is too short or
/// has cells too high, where the output is too short, and where all is wrong.
#[test]
fn faulty_plans() {
    for (number, fault) in FAULTS.iter().enumerate() {
        for seed in 0..times(20) {
            let mut random = Random::new(seed * 1_000 + number as u64);
            let plan = faulty(&mut random, fault);
            let case = format!("{}, seed {seed}, plan {}", fault.clause, hex(&plan));
            with_other_faults(&mut random, &plan, fault.refusal, &case);
        }
    }
    for seed in 0..times(300) {
        let mut random = Random::new(seed);
        let plan = faulty_many_times(&mut random);
        let case = format!("several faults, seed {seed}, plan {}", hex(&plan));
        // Faults can undo each other.
        if let Err(refusal) = second::read(&plan) {
            with_other_faults(&mut random, &plan, refusal, &case);
        }
    }
    compare::print_calls("faulty_plans");
}

/// A refused plan with tables and outputs that would be refused and some that
/// would not.
fn with_other_faults(random: &mut Random, plan: &[u8], refusal: Refusal, case: &str) {
    let high = random.pick(&TOO_HIGH);
    for table in [vec![], vec![high], vec![1; 20], vec![0; MOST_CELLS], vec![high; MOST_CELLS]] {
        for output in [0, 21, 1_000] {
            answered(random, plan, &table, output, Err(refusal), &case);
        }
    }
}

/// A table too short, a cell too high and an output too short, in every
/// combination: 6 comes before 12, and 12 before 13.
#[test]
fn several_faults_in_order() {
    for (class, count) in [(Class::Small, 200), (Class::Decisive, 100), (Class::Dense, 3)] {
        for sample in samples(class, 6_400_000, times(count)) {
            let mut random = Random::new(sample.seed);
            let cells = cells(&sample.plan);
            let length = page_bytes(cells);
            for faults in 0..8 {
                let [short, high, narrow] = [1, 2, 4].map(|bit| faults & bit > 0);
                let mut table = any_table(&mut random, cells, 100);
                if high {
                    // Every other time the last cell.
                    let any = random.below(cells);
                    table[random.pick(&[any, cells - 1])] = random.pick(&TOO_HIGH);
                }
                if short {
                    table.pop();
                }
                let output = if narrow { random.pick(&[0, 21, length - 1]) } else { length };
                let due = match (short, high, narrow) {
                    (true, _, _) => Err(6),
                    (_, true, _) => Err(12),
                    (_, _, true) => Err(13),
                    _ => Ok(length),
                };
                answered(&mut random, &sample.plan, &table, output, due, &sample);
            }
        }
    }
    compare::print_calls("several_faults_in_order");
}

// --------------------------------------------------------------- numbers

/// The length goes into the first number, if there is one; a refusal leaves
/// all. Told here without the second checker.
#[test]
fn numbers_of_every_length() {
    // Three points and no rows; all but the last size.
    let (plan, bytes): (&[u8], &[u8]) = (&[3, 0, 0, 0], &[3, 0, 0]);
    // Plan, table, bytes of output, code, length.
    let cases: [(&[u8], &[u32], usize, u32, u64); 8] = [
        (plan, &[0, 0, 0], 0, DONE, 0),
        (plan, &[0, 7, 0], 22, DONE, 22),
        (plan, &[1, 7, 8], 100, DONE, 66),
        (bytes, &[1, 7, 8], 100, refused(1), 0),
        (plan, &[1, 7], 100, refused(6), 0),
        (plan, &[1, 7, 1_000_000], 100, refused(12), 0),
        (plan, &[1, 7, 8], 65, refused(13), 0),
        (plan, &[1, 7, 8], 0, refused(13), 0),
    ];
    let mut made = 0;
    for (plan, table, output, code, length) in cases {
        for count in [0, 1, 2, 3, 64] {
            let mut numbers = vec![0xa5a5_a5a5_a5a5_a5a5; count];
            let mut expected = numbers.clone();
            if code == DONE && count > 0 {
                expected[0] = length;
            }
            let found = library::page(plan, table, &mut vec![0; output], &mut numbers);
            let case = format!("{count} numbers, output of {output} bytes, plan {plan:?}, table {table:?}");
            assert_eq!((found, numbers), (code, expected), "{case}");
            made += 1;
        }
    }
    println!("numbers_of_every_length: {made} pages");
}
