//! The C header: its constants are those of the specification. Its types are what
//! the library is called by in every other test.

use sulgrach_tests::library::header::{CALLS, CONSTANTS, SULGRACH_STACK};
use sulgrach_tests::second::{
    listing_bytes, page_bytes, EVERY_PLAN, MOST_BYTES, MOST_CELLS, MOST_EDGES, MOST_LINES, MOST_SECONDS,
};

#[test]
fn every_constant() {
    let expected = [
        // The limit and the numbers of an answer are 64 bits wide.
        ("SULGRACH_INTERFACE", 2),
        ("SULGRACH_DONE", 0),
        ("SULGRACH_KEPT", 0),
        ("SULGRACH_BROKEN", 1),
        ("SULGRACH_SPENT", 2),
        ("SULGRACH_REFUSED", 100),
        // 32 points, 4 propositions, 4 links and 128 edges of the new form.
        ("SULGRACH_PLAN", MOST_BYTES as u64),
        ("SULGRACH_SECONDS", MOST_SECONDS as u64),
        ("SULGRACH_CELLS", MOST_CELLS as u64),
        ("SULGRACH_EDGES", MOST_EDGES as u64),
        ("SULGRACH_ROUNDS", EVERY_PLAN),
        ("SULGRACH_LISTING", listing_bytes(MOST_LINES) as u64),
        // A line for every cell.
        ("SULGRACH_PAGE", page_bytes(MOST_CELLS) as u64),
        // No figure of the specification: `stack.rs` measures it.
        ("SULGRACH_STACK", SULGRACH_STACK.into()),
    ];
    assert_eq!(CONSTANTS, expected);
}

#[test]
fn every_call() {
    let expected = [
        "sulgrach_check",
        "sulgrach_check_classes",
        "sulgrach_list",
        "sulgrach_replay",
        "sulgrach_page",
        "sulgrach_breaking_rows",
        "sulgrach_with_labels",
        "sulgrach_without_labels",
    ];
    assert_eq!(CALLS, expected);
}
