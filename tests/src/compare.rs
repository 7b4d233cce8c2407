//! One call of the library beside the same call of the second checker, both
//! on the same lent memory, which starts dirty and is compared to its end.

use crate::generate::{hex, Random};
use crate::library;
use crate::second::{
    self, Answer, Form, Line, Listed, Refusal, Verdict, BOTH_FORMS, EVERY_PLAN, MOST_BYTES, MOST_CELLS,
};
use crate::trials;
use std::cell::Cell;
use std::fmt::Display;
use std::hint::black_box;

/// The lengths of the memory lent to a call.
#[derive(Clone, Copy, Debug)]
pub struct Lengths {
    pub first: usize,
    pub second: usize,
    pub index: usize,
    pub output: usize,
}

impl Lengths {
    /// Enough for this many cells and bytes of output, often more.
    pub fn ample(random: &mut Random, cells: usize, output: usize) -> Self {
        let mut more = |length: usize| length + random.pick(&[0, 1, 7, 60]);
        Lengths { first: more(cells), second: more(cells), index: more(cells), output: more(output) }
    }
}

// ------------------------------------------------------------- counting

/// How many calls were made both ways.
#[derive(Clone, Copy, Default)]
struct Calls {
    checks: u64,
    class_checks: u64,
    listings: u64,
    replays: u64,
    pages: u64,
    breaking_rows: u64,
    conversions: u64,
}

thread_local! {
    /// Those of the test that runs on this thread.
    static CALLS: Cell<Calls> = const {
        Cell::new(Calls {
            checks: 0,
            class_checks: 0,
            listings: 0,
            replays: 0,
            pages: 0,
            breaking_rows: 0,
            conversions: 0,
        })
    };
}

fn add(change: impl FnOnce(&mut Calls)) {
    CALLS.with(|cell| {
        let mut calls = cell.get();
        change(&mut calls);
        cell.set(calls);
    });
}

/// Prints how many calls a test has compared; it ends with this. The count
/// starts again from 0, since the next test may run on the same thread.
pub fn print_calls(test: &str) {
    let Calls { checks, class_checks, listings, replays, pages, breaking_rows, conversions } = CALLS.take();
    println!(
        "{test}: compared {checks} checks, {class_checks} checks by classes, {listings} listings, \
         {replays} replays, {pages} pages, {breaking_rows} breaking rows, {conversions} conversions"
    );
}

// ------------------------------------------------------------- comparing

/// Limits that do not fit 32 bits, for a plan that ends after so many rounds. Of
/// the last three, 32 bits would leave 0, 1 and R − 1.
pub fn wide_limits(rounds: u64) -> [u64; 5] {
    [EVERY_PLAN, u64::MAX, 1 << 32, (1 << 32) + 1, (1 << 32) + rounds - 1]
}

/// The output that serves every listing.
pub const LONGEST_LISTING: usize = 2 + 14 * second::MOST_LINES;

/// Numbers with all 64 bits dirty, so that a half left as it was is seen.
fn dirty_numbers(random: &mut Random, length: usize) -> Vec<u64> {
    (0..length).map(|_| random.number()).collect()
}

fn dirty_words(random: &mut Random, length: usize) -> Vec<u32> {
    (0..length).map(|_| random.number() as u32).collect()
}

fn dirty_halves(random: &mut Random, length: usize) -> Vec<u16> {
    (0..length).map(|_| random.number() as u16).collect()
}

fn dirty_bytes(random: &mut Random, length: usize) -> Vec<u8> {
    (0..length).map(|_| random.number() as u8).collect()
}

/// Bytes that are no character of a page, no mark of a row and no label 0, so that
/// one left as it was is told from one written.
fn unwritten_bytes(random: &mut Random, length: usize) -> Vec<u8> {
    dirty_bytes(random, length).into_iter().map(|byte| byte | 128).collect()
}

/// The C interface's code of an answer.
fn code(verdict: Verdict) -> u32 {
    match verdict {
        Verdict::Kept => library::KEPT,
        Verdict::Broken => library::BROKEN,
        Verdict::Spent => library::SPENT,
    }
}

/// Says where two pieces of lent memory first part.
fn same<T: PartialEq + Display>(of: &str, library: &[T], second: &[T], case: &dyn Display) {
    assert_eq!(library.len(), second.len());
    if let Some(place) = (0..library.len()).find(|&place| library[place] != second[place]) {
        panic!("{of}, entry {place}: library {}, second checker {}; {case}", library[place], second[place]);
    }
}

/// The memory that a check may write to: two tables, and the numbers of its
/// answer.
#[derive(Clone)]
struct Lent {
    first: Vec<u32>,
    second: Vec<u32>,
    numbers: Vec<u64>,
}

impl Lent {
    fn dirty(random: &mut Random, lengths: Lengths) -> Self {
        let [first, second] = [lengths.first, lengths.second].map(|length| dirty_words(random, length));
        let count = random.below(4);
        Lent { first, second, numbers: dirty_numbers(random, count) }
    }
}

/// The second checker's code, and what it leaves of the memory.
fn by_second(
    before: &Lent,
    check: impl FnOnce(&mut [u32], &mut [u32]) -> Result<Answer, Refusal>,
) -> (u32, Lent) {
    let mut lent = before.clone();
    let answer = check(&mut lent.first, &mut lent.second);
    if let (Ok(answer), Some(count)) = (&answer, lent.numbers.first_mut()) {
        *count = answer.rounds;
    }
    (check_code(&answer), lent)
}

/// The library's code, and what it leaves of the memory.
fn by_library(before: &Lent, check: impl FnOnce(&mut [u32], &mut [u32], &mut [u64]) -> u32) -> (u32, Lent) {
    let mut lent = before.clone();
    let code = check(&mut lent.first, &mut lent.second, &mut lent.numbers);
    (code, lent)
}

fn same_check(library: &(u32, Lent), second: &(u32, Lent), case: &dyn Display) {
    let ((code, lent), (code_expected, expected)) = (library, second);
    assert_eq!(code, code_expected, "code of the library and of the second checker; {case}");
    same("numbers", &lent.numbers, &expected.numbers, case);
    same("first table", &lent.first, &expected.first, case);
    same("second table", &lent.second, &expected.second, case);
}

/// Checks a plan both ways and compares the answer and all lent memory.
pub fn check(random: &mut Random, plan: &[u8], lengths: Lengths, limit: u64, sample: &dyn Display) {
    let case = format!("check, limit {limit}, {lengths:?}, {sample}");
    let before = Lent::dirty(random, lengths);
    let expected = by_second(&before, |first, second| second::check(plan, first, second, limit));
    let found =
        by_library(&before, |first, second, rounds| library::check(plan, first, second, limit, rounds));
    same_check(&found, &expected, &case);
    add(|calls| calls.checks += 1);
}

/// Checks a plan by its classes both ways and compares the answer and all
/// lent memory; returns the code of both. The library's plain check is to do
/// the same on the same memory, unless the plan is refused for its classes,
/// which a plain check does not have.
pub fn check_classes(
    random: &mut Random,
    plan: &[u8],
    classes: &[u8],
    lengths: Lengths,
    limit: u64,
    sample: &dyn Display,
) -> u32 {
    let shown = hex(&classes[..classes.len().min(16)]);
    let case = format!("check by {} classes, {shown}, limit {limit}, {lengths:?}, {sample}", classes.len());
    let before = Lent::dirty(random, lengths);
    let expected =
        by_second(&before, |first, second| second::check_classes(plan, classes, first, second, limit));
    let (plan_lent, classes_lent) = (plan.to_vec(), classes.to_vec());
    let found = by_library(&before, |first, second, rounds| {
        library::check_classes(&plan_lent, &classes_lent, first, second, limit, rounds)
    });
    same_check(&found, &expected, &case);
    // A compiler may take it for granted that what is lent to be read stays.
    same("plan", black_box(&plan_lent), plan, &case);
    same("classes", black_box(&classes_lent), classes, &case);
    add(|calls| calls.class_checks += 1);

    let code = expected.0;
    let for_its_classes = [14, 15].map(library::refused).contains(&code);
    let expected = if for_its_classes {
        by_second(&before, |first, second| second::check(plan, first, second, limit))
    } else {
        expected
    };
    let plain =
        by_library(&before, |first, second, rounds| library::check(plan, first, second, limit, rounds));
    same_check(&plain, &expected, &format!("plain check beside the {case}"));
    add(|calls| calls.checks += 1);
    code
}

fn check_code(expected: &Result<Answer, Refusal>) -> u32 {
    match expected {
        Ok(answer) => code(answer.verdict),
        Err(refusal) => library::refused(*refusal),
    }
}

/// Lists a plan both ways, compares the answer and all lent memory, and has
/// both replays accept what is handed over: the listing of a broken plan.
pub fn list(
    random: &mut Random,
    plan: &[u8],
    lengths: Lengths,
    limit: u64,
    sample: &dyn Display,
) -> Option<Vec<u8>> {
    let case = format!("listing, limit {limit}, {lengths:?}, {sample}");
    let [first, second] = [lengths.first, lengths.second].map(|length| dirty_words(random, length));
    let index = dirty_halves(random, lengths.index);
    let output = dirty_bytes(random, lengths.output);
    let count = random.below(4);
    let numbers = dirty_numbers(random, count);

    let (mut first_expected, mut second_expected, mut index_expected) =
        (first.clone(), second.clone(), index.clone());
    let expected = second::list(
        plan,
        &mut first_expected,
        &mut second_expected,
        limit,
        &mut index_expected,
        lengths.output,
    );
    let numbers_expected = listing_numbers(&expected, &numbers);

    let (mut first, mut second, mut index, before) = (first, second, index, output.clone());
    let (mut output, mut numbers) = (output, numbers);
    let found = library::list(plan, &mut first, &mut second, limit, &mut index, &mut output, &mut numbers);

    assert_eq!(found, listing_code(&expected), "code of the library and of the second checker; {case}");
    same("numbers", &numbers, &numbers_expected, &case);
    same("first table", &first, &first_expected, &case);
    same("second table", &second, &second_expected, &case);
    same("16-bit table", &index, &index_expected, &case);

    let lines = broken_lines(&expected).unwrap_or(&[]);
    let length = if lines.is_empty() { 0 } else { second::listing_bytes(lines.len()) };
    same("output past the listing", &output[length..], &before[length..], &case);
    add(|calls| calls.listings += 1);
    if length == 0 {
        return None;
    }
    output.truncate(length);
    same_lines(&output, lines, &case);
    replays_accept(plan, &output, &case);
    Some(output)
}

fn broken_lines(listed: &Result<Listed, Refusal>) -> Option<&[Line]> {
    let listed = listed.as_ref().ok()?;
    (listed.answer.verdict == Verdict::Broken).then_some(&listed.lines)
}

fn listing_code(expected: &Result<Listed, Refusal>) -> u32 {
    match expected {
        Ok(listed) => code(listed.answer.verdict),
        Err(refusal) => library::refused(*refusal),
    }
}

/// The numbers as they are to be after the call: rounds, then length.
fn listing_numbers(expected: &Result<Listed, Refusal>, before: &[u64]) -> Vec<u64> {
    let mut numbers = before.to_vec();
    if let (Ok(listed), Some(rounds)) = (expected, numbers.first_mut()) {
        *rounds = listed.answer.rounds;
    }
    if let (Some(lines), Some(length)) = (broken_lines(expected), numbers.get_mut(1)) {
        *length = second::listing_bytes(lines.len()) as u64;
    }
    numbers
}

/// The point, set, label and wait of each head are those of the lines; the
/// rule is free.
fn same_lines(listing: &[u8], lines: &[Line], case: &dyn Display) {
    let m = u16::from_be_bytes([listing[0], listing[1]]);
    assert_eq!(usize::from(m), lines.len(), "lines of the library and of the second checker; {case}");
    for (i, (head, line)) in listing[2..].chunks(8).zip(lines).enumerate() {
        let wait = (line.wait as u32).to_be_bytes();
        let named = [line.point as u8, line.set, line.label];
        assert!(
            head[..3] == named && head[4..] == wait,
            "head of line {i} is {}, to be {line:?}; {case}",
            hex(head)
        );
    }
}

fn replays_accept(plan: &[u8], listing: &[u8], case: &dyn Display) {
    assert_eq!(second::replay(plan, listing), 0, "the second replay of listing {}; {case}", hex(listing));
    assert_eq!(library::replay(plan, listing), 0, "the library's replay of listing {}; {case}", hex(listing));
    add(|calls| calls.replays += 1);
}

/// Replays a listing both ways; returns what both answer.
pub fn replay(plan: &[u8], listing: &[u8], sample: &dyn Display) -> Refusal {
    let expected = second::replay(plan, listing);
    let found = library::replay(plan, listing);
    assert_eq!(
        found,
        expected,
        "replay of the library and of the second checker; listing {}; {sample}",
        hex(listing)
    );
    add(|calls| calls.replays += 1);
    expected
}

/// Prints a table both ways into an output of so many bytes, and compares the
/// answer and all lent memory; returns the page, or the refusal of both.
pub fn page(
    random: &mut Random,
    plan: &[u8],
    table: &[u32],
    output: usize,
    sample: &dyn Display,
) -> Result<Vec<u8>, Refusal> {
    let case = format!("page, table of {} entries, output of {output} bytes, {sample}", table.len());
    let output = unwritten_bytes(random, output);
    let count = random.below(4);
    let numbers = dirty_numbers(random, count);

    let (mut output_expected, mut numbers_expected) = (output.clone(), numbers.clone());
    let expected = second::page(plan, table, &mut output_expected);
    if let (Ok(length), Some(number)) = (&expected, numbers_expected.first_mut()) {
        *number = *length as u64;
    }

    let (plan_lent, table_lent) = (plan.to_vec(), table.to_vec());
    let (mut output, mut numbers) = (output, numbers);
    let found = library::page(&plan_lent, &table_lent, &mut output, &mut numbers);

    assert_eq!(found, done_code(&expected), "code of the library and of the second checker; {case}");
    same("numbers", &numbers, &numbers_expected, &case);
    same("output", &output, &output_expected, &case);
    // A compiler may take it for granted that what is lent to be read stays.
    same("plan", black_box(&plan_lent), plan, &case);
    same("table", black_box(&table_lent), table, &case);
    add(|calls| calls.pages += 1);
    output.truncate(expected?);
    Ok(output)
}

fn done_code(expected: &Result<usize, Refusal>) -> u32 {
    match expected {
        Ok(_) => library::DONE,
        Err(refusal) => library::refused(*refusal),
    }
}

/// Finds the rows that break a plan both ways, with so many marks lent, and
/// compares the answer and all lent memory; returns the rows that remain, or the
/// refusal of both.
pub fn breaking_rows(
    random: &mut Random,
    plan: &[u8],
    lengths: Lengths,
    marks: usize,
    sample: &dyn Display,
) -> Result<Vec<usize>, Refusal> {
    let case = format!("breaking rows, {marks} marks, {lengths:?}, {sample}");
    let before = Lent::dirty(random, lengths);
    let marks = unwritten_bytes(random, marks);

    let (mut lent, mut marks_expected) = (before.clone(), marks.clone());
    let answer = second::breaking_rows(plan, &mut lent.first, &mut lent.second, &mut marks_expected);
    if let (Ok(remaining), Some(number)) = (&answer, lent.numbers.first_mut()) {
        *number = *remaining as u64;
    }
    let expected = (done_code(&answer), lent);

    let (plan_lent, mut marks) = (plan.to_vec(), marks);
    let found = by_library(&before, |first, second, numbers| {
        library::breaking_rows(&plan_lent, first, second, &mut marks, numbers)
    });
    same_check(&found, &expected, &case);
    same("marks", &marks, &marks_expected, &case);
    // A compiler may take it for granted that what is lent to be read stays.
    same("plan", black_box(&plan_lent), plan, &case);
    add(|calls| calls.breaking_rows += 1);

    let remaining: Vec<usize> = (0..marks.len()).filter(|&row| marks[row] == 1).collect();
    assert_eq!(remaining.len(), answer?, "rows marked and rows counted; {case}");
    Ok(remaining)
}

/// Converts a plan both ways into an output of so many bytes, to the new form or
/// to the old one, and compares the answer and all lent memory; returns the plan in
/// the other form, or the refusal of both.
pub fn convert(
    random: &mut Random,
    to: Form,
    plan: &[u8],
    output: usize,
    sample: &dyn Display,
) -> Result<Vec<u8>, Refusal> {
    let case = format!("conversion to the {to:?} form, output of {output} bytes, {sample}");
    let output = unwritten_bytes(random, output);
    let count = random.below(4);
    let numbers = dirty_numbers(random, count);

    let (mut output_expected, mut numbers_expected) = (output.clone(), numbers.clone());
    let expected = match to {
        Form::New => second::with_labels(plan, &mut output_expected),
        Form::Old => second::without_labels(plan, &mut output_expected),
    };
    if let (Ok(length), Some(number)) = (&expected, numbers_expected.first_mut()) {
        *number = *length as u64;
    }

    let plan_lent = plan.to_vec();
    let (mut output, mut numbers) = (output, numbers);
    let found = match to {
        Form::New => library::with_labels(&plan_lent, &mut output, &mut numbers),
        Form::Old => library::without_labels(&plan_lent, &mut output, &mut numbers),
    };

    assert_eq!(found, done_code(&expected), "code of the library and of the second checker; {case}");
    same("numbers", &numbers, &numbers_expected, &case);
    same("output", &output, &output_expected, &case);
    // A compiler may take it for granted that what is lent to be read stays.
    same("plan", black_box(&plan_lent), plan, &case);
    add(|calls| calls.conversions += 1);
    output.truncate(expected?);
    Ok(output)
}

// ------------------------------------------------------------- all calls

/// A listing that any accepted plan's replay reads and none accepts.
const SOME_LISTING: [u8; 16] = [0, 1, 0, 0, 0, 1, 0, 0, 0, 0, 0, 0, 0, 0, 0, 0];

/// All eight calls on a plan that may be refused. An accepted one is only run
/// as far as it takes to see that both go on with it.
pub fn every_call(random: &mut Random, plan: &[u8], case: &str) {
    let cells = random.pick(&[0, 20, MOST_CELLS, MOST_CELLS]);
    let lengths =
        Lengths { first: cells, second: cells, index: cells, output: random.pick(&[0, 100, 2_000]) };
    let limit = match second::read(plan) {
        Ok(accepted) if second::run(&accepted, 8, |_, _| ()).verdict == Verdict::Spent => 8,
        _ => random.pick(&[0, 1, 2, 1 << 32, EVERY_PLAN, u64::MAX]),
    };
    check(random, plan, lengths, limit, &case);
    list(random, plan, lengths, limit, &case);
    replay(plan, &SOME_LISTING, &case);
    replay(plan, &[], &case);
    let table = vec![random.pick(&[0, 1, 999_999, 1_000_000]); cells];
    let _ = page(random, plan, &table, lengths.output, &case);
    let links = plan.get(2).map_or(0, |&size| usize::from(size));
    let classes = vec![random.pick(&[0, 0, 5, 7]); links];
    check_classes(random, plan, &classes, lengths, limit, &case);
    few_breaking_rows(random, plan, lengths, case);
    for to in BOTH_FORMS {
        let output = random.pick(&[0, plan.len(), MOST_BYTES]);
        let _ = convert(random, to, plan, output, &case);
    }
}

/// There is no limit to the rounds of this call: a plan whose trials take more than
/// a few is lent too few marks for it, or too short a table.
fn few_breaking_rows(random: &mut Random, plan: &[u8], mut lengths: Lengths, case: &str) {
    let mut marks = random.pick(&[0, 1, 128, 300]);
    if let Ok(accepted) = second::read(plan) {
        if trials::left(&accepted, 8).is_none() {
            marks = accepted.edges.len().saturating_sub(1);
            lengths.first = if marks == 0 { accepted.cells() - 1 } else { lengths.first };
        }
    }
    let _ = breaking_rows(random, plan, lengths, marks, &case);
}
