//! The library under test; a second checker, the panel's game and a panel that
//! follows the table of waits, made apart from it; and a seeded generator of
//! plans and listings to run them on.

pub mod compare;
pub mod following;
pub mod game;
pub mod generate;
pub mod library;
pub mod misread;
pub mod port;
pub mod second;
pub mod tally;
pub mod trials;

use std::fs;
use std::path::{Path, PathBuf};

/// The files of plans in the folder `plans`, in the order of their names.
pub fn plan_files() -> Vec<PathBuf> {
    let folder = Path::new(env!("CARGO_MANIFEST_DIR")).join("../plans");
    let mut files: Vec<PathBuf> = fs::read_dir(folder)
        .expect("the folder plans")
        .map(|entry| entry.expect("a file").path())
        .filter(|path| path.extension().is_some_and(|extension| extension == "plan"))
        .collect();
    files.sort();
    assert!(files.len() >= 10, "only {} plans", files.len());
    files
}

/// A count of cases, multiplied by the environment variable `SULGRACH_TIMES`.
pub fn times(count: u64) -> u64 {
    let factor = match std::env::var("SULGRACH_TIMES") {
        Ok(text) => text.parse().expect("SULGRACH_TIMES is a whole number"),
        Err(_) => 1,
    };
    count * factor
}
