//! The bench plans c1 to c10, with the answers that the specification tells.

use std::fs;
use std::path::PathBuf;
use sulgrach_tests::compare::{self, Lengths};
use sulgrach_tests::generate::Random;
use sulgrach_tests::second::{self, Verdict, EVERY_PLAN};

const ANSWERS: [(&str, Verdict, u64, &[u32]); 10] = [
    ("c1", Verdict::Kept, 2, &[0, 3]),
    ("c2", Verdict::Broken, 2, &[1, 6]),
    ("c3", Verdict::Kept, 1, &[0, 0]),
    ("c4", Verdict::Broken, 8, &[1, 4, 4]),
    ("c5", Verdict::Kept, 2, &[0, 0, 2, 5]),
    ("c6", Verdict::Broken, 2, &[0, 1, 2, 5]),
    ("c7", Verdict::Broken, 2, &[1, 0, 3, 5]),
    ("c8", Verdict::Kept, 2, &[0, 0, 2, 5]),
    ("c9", Verdict::Broken, 3, &[0, 0, 1, 0, 5, 0, 0, 0, 4, 4, 0, 0]),
    ("c10", Verdict::Kept, 3, &[0, 0, 0, 0, 3, 0, 0, 0, 3, 4, 0, 0]),
];

const C2: [u8; 16] = [2, 0, 0, 2, 0, 1, 1, 0, 0, 5, 0, 0, 0xff, 0xfa, 0, 0];

const C2_LISTING: [u8; 30] = [
    0, 2, // two lines
    1, 0, 0, 1, 0, 0, 0, 6, // point 1 waits 6, by rule 1
    0, 0, 0, 1, 0, 0, 0, 1, // Z waits 1, by rule 1
    0, 1, 0, 0, 0, 0, // edge 1, from Z's starting line
    0, 0, 0, 2, 0, 0, // edge 0, from line 0
];

fn file(name: &str) -> Vec<u8> {
    let path = PathBuf::from(env!("CARGO_MANIFEST_DIR")).join("../plans").join(name);
    fs::read(&path).unwrap_or_else(|error| panic!("{}: {error}", path.display()))
}

#[test]
fn answers_and_tables() {
    for (name, verdict, rounds, cells) in ANSWERS {
        let bytes = file(&format!("{name}.plan"));
        let plan = second::read(&bytes).unwrap_or_else(|refusal| panic!("{name} refused {refusal}"));
        let answer = second::run(&plan, EVERY_PLAN, |_, _| ());
        assert_eq!((answer.verdict, answer.rounds, &answer.table[..]), (verdict, rounds, cells), "{name}");

        let mut random = Random::new(rounds);
        for limit in (0..=rounds + 1).chain(compare::wide_limits(rounds)) {
            let lengths = Lengths::ample(&mut random, cells.len(), compare::LONGEST_LISTING);
            compare::check(&mut random, &bytes, lengths, limit, &name);
            compare::list(&mut random, &bytes, lengths, limit, &name);
        }
    }
    compare::print_calls("answers_and_tables");
}

#[test]
fn texts() {
    for (name, ..) in ANSWERS {
        let expected = String::from_utf8(file(&format!("{name}.out"))).expect("text");
        assert_eq!(second::program(&file(&format!("{name}.plan"))), expected, "{name}");
    }
    assert_eq!(second::program(&C2), "broken 2\n0 1\n1 6\n");
}

#[test]
fn the_listing_of_c2() {
    assert_eq!(file("c2.plan"), C2);
    let mut random = Random::new(2);
    let lengths = Lengths { output: C2_LISTING.len(), ..Lengths::ample(&mut random, 2, 0) };
    let listing = compare::list(&mut random, &C2, lengths, EVERY_PLAN, &"c2");
    assert_eq!(listing, Some(C2_LISTING.to_vec()));
    assert_eq!(compare::replay(&C2, &C2_LISTING, &"c2"), 0);
    compare::print_calls("the_listing_of_c2");
}
