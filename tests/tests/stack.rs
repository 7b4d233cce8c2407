//! The stack that each call takes: below the bound that the header states, on
//! plans of every size. `stack.c` measures it.

use std::fs;
use std::path::{Path, PathBuf};
use std::process::Command;
use sulgrach_tests::generate::faults::{faulty, FAULTS};
use sulgrach_tests::generate::point_labels::{in_new_form, labelled};
use sulgrach_tests::generate::rows::wide;
use sulgrach_tests::generate::{samples, slow_cycle, Class, Random};
use sulgrach_tests::library::header::SULGRACH_STACK;
use sulgrach_tests::library::{refused, BROKEN, DONE, KEPT, SPENT};
use sulgrach_tests::{plan_files, second, trials};

/// Enough rounds for the plans of the repository, and few enough for plans of
/// many cells.
const LIMIT: u64 = 40;

fn tests_directory() -> PathBuf {
    PathBuf::from(env!("CARGO_MANIFEST_DIR"))
}

/// Compiles `stack.c`. A linker with `lazy` lets `memset`, the one function
/// that the library needs, be found at its first use and not before.
fn compile(binding: &str) -> PathBuf {
    let program = Path::new(env!("CARGO_TARGET_TMPDIR")).join(format!("stack-{binding}"));
    let status = Command::new("gcc")
        .args(["-O2", "-Wall", "-Wextra", "-Werror", &format!("-Wl,-z,{binding}"), "-I"])
        .arg(tests_directory().join("../include"))
        .arg(tests_directory().join("stack.c"))
        .arg(env!("SULGRACH_LIBRARY"))
        .arg("-o")
        .arg(&program)
        .status()
        .expect("gcc runs");
    assert!(status.success(), "gcc: {status}");
    program
}

/// Files of plans: those of the repository, a link as wide as class 3, generated
/// ones, wide ones with links and facts, some with labels on points, and refused ones.
fn plans() -> Vec<PathBuf> {
    let mut files = plan_files();
    let door = vec![2, 0, 1, 0, 0, 1, 0, 2, 0, 25];
    let mut plans: Vec<Vec<u8>> = vec![slow_cycle(32, 16, 1_000_000, false), door];
    for (class, count) in
        [(Class::Decisive, 20), (Class::Mixed, 20), (Class::Extreme, 10), (Class::Dense, 12)]
    {
        plans.extend(samples(class, 5_000_000, count).map(|sample| sample.plan));
    }
    let with_labels = samples(Class::Decisive, 5_200_000, 20);
    plans.extend(with_labels.map(|sample| labelled(sample.seed, &sample.plan).bytes()));
    plans.extend(samples(Class::Dense, 5_200_000, 4).map(|sample| in_new_form(&sample.plan)));
    plans.extend(faulty_plans());
    let wide = plans
        .iter()
        .filter_map(|plan| second::read(plan).ok())
        .filter(|plan| plan.cells() > 15_000 && !plan.links.is_empty() && !plan.observing.is_empty());
    assert!(wide.count() >= 10);
    files.extend(written("stack", &plans));
    files
}

/// Files of plans whose trials take few rounds: those of the repository, generated
/// ones, wide ones with links and facts, and refused ones.
fn plans_for_trials() -> Vec<PathBuf> {
    const ROUNDS: u64 = 1_000;
    let generated = samples(Class::Decisive, 5_100_000, 40).map(|sample| sample.plan);
    let mut plans: Vec<Vec<u8>> = generated
        .filter(|plan| second::read(plan).is_ok_and(|plan| trials::left(&plan, ROUNDS).is_some()))
        .collect();
    assert!(plans.len() >= 30);
    plans.extend((0..8).map(|seed| wide(&mut Random::new(seed), 4, seed % 2 == 0).0.bytes()));
    plans.extend(faulty_plans());
    plan_files().into_iter().chain(written("trials", &plans)).collect()
}

/// Plans for each clause of a refusal, some of them in the old form and some in the
/// new one.
fn faulty_plans() -> Vec<Vec<u8>> {
    let mut random = Random::new(1);
    FAULTS.iter().flat_map(|fault| [(); 2].map(|()| faulty(&mut random, fault))).collect()
}

/// Writes the plans to files of this name and their number.
fn written(name: &str, plans: &[Vec<u8>]) -> Vec<PathBuf> {
    let folder = Path::new(env!("CARGO_TARGET_TMPDIR"));
    let write = |(number, plan): (usize, &Vec<u8>)| {
        let file = folder.join(format!("{name}-{number}.plan"));
        fs::write(&file, plan).expect("a plan is written");
        file
    };
    plans.iter().enumerate().map(write).collect()
}

/// Codes and bytes of stack of one call, for each plan.
fn measure(program: &Path, call: &str, files: &[PathBuf]) -> Vec<(u32, u32)> {
    let done = Command::new(program).arg(call).arg(LIMIT.to_string()).args(files).output().expect("it runs");
    assert!(done.status.success(), "{call}: {}", done.status);
    let text = String::from_utf8(done.stdout).expect("text");
    let number = |word: &str| word.parse().expect("a number");
    let lines = text.lines().map(|line| line.split_once(' ').expect("two numbers"));
    let measured: Vec<(u32, u32)> = lines.map(|(code, used)| (number(code), number(used))).collect();
    assert_eq!(measured.len(), files.len(), "{call}");
    measured
}

#[test]
fn each_call_takes_less_than_the_header_says() {
    let (plans, plans_for_trials) = (plans(), plans_for_trials());
    for binding in ["now", "lazy"] {
        let program = compile(binding);
        for call in [
            "check", "classes0", "classes3", "classes7", "list", "replay", "page", "page12", "page13",
            "rows", "with", "with7", "without", "without7",
        ] {
            let files = if call == "rows" { &plans_for_trials } else { &plans };
            let measured = measure(&program, call, files);
            let most = measured.iter().map(|&(_, used)| used).max().expect("some plans");
            println!("{call}, memset bound {binding}: at most {most} bytes of stack, {} plans", files.len());
            for ((code, used), file) in measured.iter().zip(files) {
                // A call takes some; none seen would be a fault of the measurement.
                assert!(*used > 80, "{call}, code {code}: only {used} bytes, {}", file.display());
                assert!(*used < SULGRACH_STACK, "{call}, code {code}: {used} bytes, {}", file.display());
            }
            let expected = match call {
                "check" => vec![KEPT, BROKEN, SPENT, refused(1), refused(5)],
                "classes0" => vec![KEPT, BROKEN, SPENT, refused(1), refused(5)],
                "classes3" => vec![KEPT, refused(5), refused(15)],
                "classes7" => vec![refused(5), refused(14)],
                "list" => vec![KEPT, BROKEN, SPENT, refused(1), refused(7)],
                "replay" => vec![0, 1, 5, 8],
                "page" => vec![DONE, refused(1), refused(5)],
                "page12" => vec![refused(5), refused(12)],
                "page13" => vec![refused(5), refused(13)],
                "with" => vec![DONE, refused(1), refused(5)],
                "with7" => vec![refused(1), refused(5), refused(7)],
                "without" => [1, 5, 17, 18, 19].map(refused).into_iter().chain([DONE]).collect(),
                "without7" => [1, 5, 7, 17, 18, 19].map(refused).to_vec(),
                _ => vec![DONE, refused(1), refused(5), refused(16)],
            };
            for code in expected {
                assert!(
                    measured.iter().any(|&(seen, _)| seen == code),
                    "{call}: no plan with the code {code}"
                );
            }
        }
    }
}
