//! The program as a process: plans on standard input, text on standard output,
//! and the exit status, which is 0 for every answer. Its path is
//! `SULGRACH_PROGRAM`, or else `crates/sulgrach/out/sulgrach` in the repository.

use std::env;
use std::fs::{self, File, OpenOptions};
use std::io::{Read, Write};
use std::os::unix::process::ExitStatusExt;
use std::path::{Path, PathBuf};
use std::process::{Child, Command, ExitStatus, Stdio};
use std::thread;
use std::time::{Duration, Instant};
use sulgrach_tests::generate::faults::{faulty, faulty_many_times, FAULTS};
use sulgrach_tests::generate::point_labels::{in_new_form, labelled};
use sulgrach_tests::generate::{hex, long_cycles, samples, Class, Draft, Random};
use sulgrach_tests::second::{self, Edge, Form, Link, Verdict, EVERY_PLAN, MOST_BYTES, MOST_SECONDS};
use sulgrach_tests::{plan_files, times};

/// Longer than any plan used here takes.
const PATIENCE: Duration = Duration::from_secs(60);

fn repository() -> PathBuf {
    PathBuf::from(env!("CARGO_MANIFEST_DIR")).join("..")
}

fn path() -> PathBuf {
    match env::var_os("SULGRACH_PROGRAM") {
        Some(path) => PathBuf::from(path),
        None => repository().join("crates/sulgrach/out/sulgrach"),
    }
}

fn start_as(command: &mut Command) -> Child {
    command
        .spawn()
        .unwrap_or_else(|error| panic!("{}: {error}; name the program in SULGRACH_PROGRAM", path().display()))
}

fn start() -> Child {
    start_as(Command::new(path()).stdin(Stdio::piped()).stdout(Stdio::piped()))
}

/// Waits for the process to end; ends it, and the test, if it does not.
fn wait(child: &mut Child) -> ExitStatus {
    let started = Instant::now();
    while started.elapsed() < PATIENCE {
        if let Some(status) = child.try_wait().expect("the process can be waited for") {
            return status;
        }
        thread::sleep(Duration::from_millis(1));
    }
    let _ = child.kill();
    panic!("the program did not end");
}

/// What the program prints when its input comes in these pieces, with pauses
/// between them.
fn output(pieces: Vec<Vec<u8>>) -> String {
    output_of(start(), pieces)
}

fn output_of(mut child: Child, pieces: Vec<Vec<u8>>) -> String {
    let mut input = child.stdin.take().expect("standard input");
    let writer = thread::spawn(move || {
        for (number, piece) in pieces.iter().enumerate() {
            if number > 0 {
                thread::sleep(Duration::from_millis(3));
            }
            // The program may have read enough and be gone.
            if input.write_all(piece).and_then(|()| input.flush()).is_err() {
                return;
            }
        }
    });
    let mut stdout = child.stdout.take().expect("standard output");
    let reader = thread::spawn(move || {
        let mut text = String::new();
        stdout.read_to_string(&mut text).expect("text");
        text
    });
    let status = wait(&mut child);
    writer.join().expect("the writer ends");
    let text = reader.join().expect("the reader ends");
    // 0 for every answer, refused too; a signal has no code.
    assert_eq!(status.code(), Some(0), "exit status, {status}; it printed {text:?}");
    text
}

fn output_at_once(input: &[u8]) -> String {
    output(vec![input.to_vec()])
}

fn assert_prints(input: &[u8], expected: &str) {
    assert_eq!(output_at_once(input), expected, "input {}", hex(&input[..input.len().min(MOST_BYTES + 1)]));
}

#[test]
fn files_in_plans() {
    let names = plan_files();
    for name in &names {
        let expected = fs::read_to_string(name.with_extension("out")).expect("the text of each plan");
        assert_eq!(output_at_once(&fs::read(name).expect("a plan")), expected, "{}", name.display());
    }
    println!("files_in_plans: {} plans given to the program", names.len());
}

#[test]
fn generated_plans() {
    let classes = [
        (Class::Small, 60),
        (Class::Decisive, 60),
        (Class::Mixed, 40),
        (Class::Extreme, 15),
        (Class::Slow, 15),
    ];
    let (mut given, mut left_out) = (0, 0);
    for (class, count) in classes {
        for sample in samples(class, 3_000_000, times(count)) {
            let plan = second::read(&sample.plan).expect("an accepted plan");
            let answer = second::run(&plan, 2_000, |_, _| ());
            if answer.verdict == Verdict::Spent {
                left_out += 1;
            } else {
                assert_prints(&sample.plan, &second::answer_text(&plan, &answer));
                given += 1;
            }
        }
    }
    println!("generated_plans: {given} plans given to the program; {left_out} that take over 2,000 rounds were not");
    assert!(given > 2 * left_out, "only {given} of {} plans", given + left_out);
}

#[test]
fn refused_plans() {
    for (number, fault) in FAULTS.iter().enumerate() {
        let plan = faulty(&mut Random::new(number as u64), fault);
        assert_prints(&plan, &second::program(&plan));
    }
    for seed in 0..times(100) {
        let plan = faulty_many_times(&mut Random::new(seed));
        assert_prints(&plan, &second::program(&plan));
    }
    println!("refused_plans: {} plans given to the program", FAULTS.len() as u64 + times(100));
}

#[test]
fn input_in_pieces() {
    let mut given = 0;
    for sample in samples(Class::Decisive, 3_100_000, times(10)) {
        let expected = second::program(&sample.plan);
        let mut random = Random::new(sample.seed);
        for most in [1, 7, 40] {
            let mut pieces = Vec::new();
            let mut rest = &sample.plan[..];
            while !rest.is_empty() {
                let (piece, later) = rest.split_at(rest.len().min(1 + random.below(most)));
                pieces.push(piece.to_vec());
                rest = later;
            }
            // An empty piece at the end: a pause before the input is closed.
            pieces.push(Vec::new());
            assert_eq!(output(pieces), expected, "{sample}");
            given += 1;
        }
    }
    println!("input_in_pieces: {given} inputs, three of each plan, given to the program");
}

/// Plans with labels that fit print what they print without them.
#[test]
fn plans_with_labels() {
    let (mut given, mut with_labels) = (0, 0);
    for class in [Class::Small, Class::Decisive] {
        for sample in samples(class, 3_200_000, times(60)) {
            let labelled = labelled(sample.seed, &sample.plan);
            let plan = second::read(&labelled.bytes()).expect("an accepted plan");
            let answer = second::run(&plan, 2_000, |_, _| ());
            if answer.verdict == Verdict::Spent {
                continue;
            }
            let expected = second::answer_text(&plan, &answer);
            let old = labelled.without_labels();
            for form in [&labelled.bytes(), &in_new_form(&old), &old] {
                assert_prints(form, &expected);
            }
            given += 3;
            with_labels += usize::from(!labelled.labelled_points().is_empty());
        }
    }
    println!(
        "plans_with_labels: {given} plans given to the program, {with_labels} with labels that are not 0"
    );
    assert!(6 * with_labels >= given, "only {with_labels} of {given}");
}

/// As many bytes as 4 propositions, 4 links, 128 edges and so many labels take: 800
/// without labels. They would need 9 points at least, which are too many cells, so no
/// such plan is accepted; but one of 4 points is not refused for its length.
fn plan_of_4_points(labels: usize) -> Vec<u8> {
    let mut plan = vec![4, 4, 4, 128, 1, 2, 3, 1];
    plan.resize(800 + labels, 0);
    plan
}

#[test]
fn lengths_of_input() {
    assert_prints(&[], "refused 1\n");
    for (labels, refusal) in [(0, 3), (1, 1), (3, 1), (4, 3), (5, 1), (32, 1), (33, 1)] {
        assert_prints(&plan_of_4_points(labels), &format!("refused {refusal}\n"));
    }
    // 32 points, 4 propositions, 4 links, 128 edges, the new form: too many cells.
    let mut largest_sizes = vec![32, 4, 4, 128];
    largest_sizes.resize(832, 0);
    assert_prints(&largest_sizes, "refused 2\n");
    largest_sizes.push(0);
    assert_prints(&largest_sizes, "refused 1\n");

    // Over 832 bytes comes before the sizes, which would be refusal 2.
    assert_prints(&[255; 800], "refused 2\n");
    assert_prints(&[255; 801], "refused 2\n");
    assert_prints(&[255; 832], "refused 2\n");
    assert_prints(&[255; 833], "refused 1\n");
    assert_prints(&vec![255; 1_000_000], "refused 1\n");
    assert_prints(&vec![0; 1_000_000], "refused 1\n");
    // A plan with more after it.
    let mut followed = fs::read(repository().join("plans/c1.plan")).expect("a plan");
    followed.resize(1_000_000, 0);
    assert_prints(&followed, "refused 1\n");
    assert_eq!(output(vec![vec![255; 832], vec![255]]), "refused 1\n");
    assert_eq!(output(vec![vec![255; 800], vec![255; 33]]), "refused 1\n");
    assert_eq!(output(vec![vec![255; 416], vec![255; 416], vec![]]), "refused 2\n");
}

#[test]
fn the_longest_accepted_plans() {
    // In the old form the most that is accepted has p 3 and k 4: 4 + 3 + 6 × 132 bytes.
    // In the new form it has 32 points and p 2: 4 + 2 + 32 + 6 × 132.
    for (points, observing, form, length) in [
        (16, vec![1, 2, 3], Form::Old, 799),
        (16, vec![1, 2, 3], Form::New, 815),
        (32, vec![1, 2], Form::New, 830),
    ] {
        let mut draft = Draft { points, observing, links: vec![], edges: vec![] };
        draft.links = (4..8).map(|end| Link { activation: 0, end, least: 1, most: 2 }).collect();
        draft.edges =
            (0..128).map(|i| Edge { from: 8 + i % 8, to: i % 8, weight: i as i64, label: 0 }).collect();
        let old = draft.bytes();
        let plan = if form == Form::Old { old } else { in_new_form(&old) };
        assert_eq!(plan.len(), length);
        let read = second::read(&plan).expect("an accepted plan");
        assert_prints(&plan, &second::answer_text(&read, &second::run(&read, EVERY_PLAN, |_, _| ())));
    }
}

/// A reader that is gone does no harm: the process ends, by itself or by the
/// signal that is usual for it.
#[test]
fn a_reader_that_closes_early() {
    let small = fs::read(repository().join("plans/c2.plan")).expect("a plan");
    let large = plan_of_much_text();
    for (plan, read_first) in [(&small, 0), (&small, 1), (&large, 0), (&large, 1), (&large, 5_000)] {
        let mut child = start();
        let mut stdout = child.stdout.take().expect("standard output");
        let mut stdin = child.stdin.take().expect("standard input");
        if read_first == 0 {
            drop(stdout);
            let _ = stdin.write_all(plan);
            drop(stdin);
        } else {
            let _ = stdin.write_all(plan);
            drop(stdin);
            stdout.read_exact(&mut vec![0; read_first]).expect("some output");
            drop(stdout);
        }
        let status = wait(&mut child);
        assert!(matches!(status.signal(), None | Some(SIGPIPE)), "{status}, {read_first} bytes read");
    }
}

/// "Broken pipe"; the standard library has no name for it.
const SIGPIPE: i32 = 13;

/// A plan with more text than a pipe holds: waits of several digits in most of
/// 16,384 cells, by the time that a chain of edges breaks the plan.
fn plan_of_much_text() -> Vec<u8> {
    let links = (4..7).map(|end| Link { activation: end + 10, end, least: 8_000, most: 24_000 }).collect();
    let mut edges = vec![];
    let mut edge = |from, to, weight, label| edges.push(Edge { from, to, weight, label });
    edge(7, 0, -MOST_SECONDS, 0);
    (8..12).for_each(|point| edge(point, point - 1, 0, 0));
    edge(0, 11, MOST_SECONDS - 1, 0);
    for observing in 1..4 {
        edge(observing, 0, -8_000, 0);
        edge(observing, 3 + observing, 0, 0);
    }
    let mut random = Random::new(3);
    for point in 12..32 {
        for to in [0, 4 + point % 3, 4 + (point + 1) % 3, 1 + point % 3] {
            let label = (0..3).fold(0, |label, j| label | random.pick(&[0, 1, 2]) << (2 * j));
            edge(point, to, if to == 0 { -8_000 } else { 0 }, label);
        }
    }
    Draft { points: 32, observing: vec![1, 2, 3], links, edges }.bytes()
}

#[test]
fn more_text_than_a_pipe_holds() {
    let plan = plan_of_much_text();
    let expected = second::program(&plan);
    assert!(expected.len() > 65_536, "only {} bytes", expected.len());
    assert_prints(&plan, &expected);
}

#[test]
fn a_count_above_16_bits() {
    for plan in long_cycles() {
        let expected = second::program(&plan);
        let count = expected.strip_prefix("broken ").and_then(|text| text.lines().next());
        let rounds: u64 = count.and_then(|count| count.parse().ok()).expect("broken, and a count");
        assert!(rounds > 65_535, "only {rounds} rounds");
        assert_prints(&plan, &expected);
    }
}

/// The stack that README says is enough, in KiB.
const STACK: u32 = 512;

#[test]
fn a_small_stack() {
    let large = plan_of_much_text();
    let small = fs::read(repository().join("plans/tower.plan")).expect("a plan");
    for plan in [large, small] {
        // The environment stands on the same stack.
        let limited = format!("ulimit -s {STACK} && exec \"$0\"");
        let mut command = Command::new("/bin/sh");
        command.args(["-c", &limited]).arg(path()).env_clear().stdin(Stdio::piped()).stdout(Stdio::piped());
        let printed = output_of(start_as(&mut command), vec![plan.clone()]);
        assert_eq!(printed, second::program(&plan), "a stack of {STACK} KiB");
    }
}

#[test]
fn a_read_that_fails_ends_the_input() {
    // A folder can be opened and not read.
    let folder = File::open(repository()).expect("a folder");
    let done = Command::new(path()).stdin(folder).output().expect("the program");
    assert_eq!((done.status.code(), &done.stdout[..]), (Some(0), &b"refused 1\n"[..]));
}

#[test]
fn a_full_disk_does_not_show_in_the_exit_status() {
    let full = OpenOptions::new().write(true).open("/dev/full").expect("a device that is always full");
    let plan = File::open(repository().join("plans/c1.plan")).expect("a plan");
    let status = Command::new(path()).stdin(plan).stdout(full).status().expect("the program");
    assert_eq!(status.code(), Some(0), "{status}");
}

/// Every file named in `plans` has its partner.
#[test]
fn texts_have_plans() {
    for entry in fs::read_dir(repository().join("plans")).expect("the folder plans") {
        let path = entry.expect("a file").path();
        if path.extension() == Some("out".as_ref()) {
            assert!(Path::exists(&path.with_extension("plan")), "{}", path.display());
        }
    }
}
