//! What is turned down: the number, the order of judging, and all lent memory
//! untouched.

use sulgrach_tests::compare::{self, every_call, Lengths};
use sulgrach_tests::generate::faults::{faulty, faulty_many_times, sound, FAULTS};
use sulgrach_tests::generate::point_labels::in_new_form;
use sulgrach_tests::generate::{hex, samples, Class, Random};
use sulgrach_tests::library;
use sulgrach_tests::second::{self, EVERY_PLAN};
use sulgrach_tests::times;

#[test]
fn every_clause_alone() {
    for (number, fault) in FAULTS.iter().enumerate() {
        for seed in 0..times(40) {
            let mut random = Random::new(seed * 1_000 + number as u64);
            let plan = faulty(&mut random, fault);
            let case = format!("{}, seed {seed}, plan {}", fault.clause, hex(&plan));
            assert_eq!(second::read(&plan), Err(fault.refusal), "the second checker; {case}");
            every_call(&mut random, &plan, &case);
        }
    }
    compare::print_calls("every_clause_alone");
}

#[test]
fn several_faults_in_order() {
    for seed in 0..times(4_000) {
        let mut random = Random::new(seed);
        let plan = faulty_many_times(&mut random);
        every_call(&mut random, &plan, &format!("several faults, seed {seed}, plan {}", hex(&plan)));
    }
    compare::print_calls("several_faults_in_order");
}

#[test]
fn any_bytes_changed() {
    for seed in 0..times(4_000) {
        let mut random = Random::new(seed);
        let mut plan = sound(&mut random);
        for _ in 0..random.between(1, 3) {
            // The sizes are changed as often as all the rest.
            let places = if random.chance(50) { 4 } else { plan.len() };
            let place = random.below(places);
            plan[place] = random.pick(&[0, 1, 2, 3, 4, 255, plan[place] ^ 1, plan[place] ^ 128]);
        }
        every_call(&mut random, &plan, &format!("bytes changed, seed {seed}, plan {}", hex(&plan)));
    }
    compare::print_calls("any_bytes_changed");
}

#[test]
fn tables_too_short() {
    for sample in
        samples(Class::Small, 4_000_000, times(600)).chain(samples(Class::Dense, 4_000_000, times(10)))
    {
        let cells = second::read(&sample.plan).expect("an accepted plan").cells();
        let mut random = Random::new(sample.seed);
        for which in 0..5 {
            let mut lengths = Lengths::ample(&mut random, cells, compare::LONGEST_LISTING);
            let short = random.pick(&[0, 1, cells / 2, cells - 1, cells - 1]);
            match which {
                0 => lengths.first = short,
                1 => lengths.second = short,
                2 => lengths.index = short,
                3 => (lengths.first, lengths.second) = (short, cells - 1),
                _ => (lengths.first, lengths.second, lengths.index) = (cells - 1, short, short),
            }
            let limit = random.pick(&[0, 1, 3]);
            compare::check(&mut random, &sample.plan, lengths, limit, &sample);
            compare::list(&mut random, &sample.plan, lengths, limit, &sample);
        }
    }
    compare::print_calls("tables_too_short");
}

/// Refusal 6 for the 16-bit table alone: both other tables are long enough and
/// are untouched all the same. Told here without the second checker.
#[test]
fn a_short_index_leaves_all_memory() {
    let mut made = 0;
    for sample in samples(Class::Decisive, 4_100_000, times(200)) {
        let cells = second::read(&sample.plan).expect("an accepted plan").cells();
        for index in [0, 1, cells - 1] {
            let before = (vec![0xa5a5_a5a5; cells + 1], vec![0x5a5a; index], vec![0x5a; 2_000]);
            let (mut first, mut second) = (before.0.clone(), before.0.clone());
            let (mut index, mut output, mut numbers) = (before.1.clone(), before.2.clone(), [7, 8, 9]);
            let (plan, limit) = (&sample.plan, EVERY_PLAN);
            let code =
                library::list(plan, &mut first, &mut second, limit, &mut index, &mut output, &mut numbers);
            assert_eq!(code, library::refused(6), "{sample}");
            assert!(first == before.0 && second == before.0, "a table is touched; {sample}");
            assert!(index == before.1 && output == before.2 && numbers == [7, 8, 9], "touched; {sample}");
            made += 1;
        }
    }
    println!("a_short_index_leaves_all_memory: {made} listings");
}

#[test]
fn bounds_that_are_still_accepted() {
    let at_bounds: [(&str, Vec<u8>); 10] = [
        ("n 2", vec![2, 0, 0, 0]),
        ("n 32", vec![32, 0, 0, 0]),
        ("s 1, y 2", vec![2, 0, 1, 0, 0, 1, 0, 1, 0, 2]),
        ("s 1, y 28,800", vec![2, 0, 1, 0, 0, 1, 0, 1, 0x70, 0x80]),
        ("s 28,799, y 28,800", vec![2, 0, 1, 0, 0, 1, 0x70, 0x7f, 0x70, 0x80]),
        ("u 28,800", vec![2, 0, 0, 1, 1, 0, 0x70, 0x80, 0, 0]),
        ("u −28,800", vec![2, 0, 0, 1, 1, 0, 0x8f, 0x80, 0, 0]),
        // One second above the bound of before.
        ("s 3,600, y 3,601", vec![2, 0, 1, 0, 0, 1, 0x0e, 0x10, 0x0e, 0x11]),
        ("u 3,601", vec![2, 0, 0, 1, 1, 0, 0x0e, 0x11, 0, 0]),
        ("u −3,601", vec![2, 0, 0, 1, 1, 0, 0xf1, 0xef, 0, 0]),
    ];
    for (bound, plan) in at_bounds {
        assert!(second::read(&plan).is_ok(), "{bound}");
        for seed in 0..20 {
            every_call(&mut Random::new(seed), &plan, &format!("{bound}, seed {seed}"));
            every_call(
                &mut Random::new(seed),
                &in_new_form(&plan),
                &format!("{bound}, labels 0, seed {seed}"),
            );
        }
    }
    for label in 0..=255 {
        let plan = [5, 4, 0, 1, 1, 2, 3, 4, 0, 1, 0, 0, label, 0];
        let new = in_new_form(&plan);
        assert_eq!(second::read(&new).err(), second::read(&plan).err(), "label {label}");
        every_call(&mut Random::new(label.into()), &new, &format!("label {label}, labels of points 0"));
        let expected = if second::plain(label) { None } else { Some(5) };
        assert_eq!(second::read(&plan).err(), expected, "label {label}");
        every_call(&mut Random::new(label.into()), &plan, &format!("label {label}"));
    }
    compare::print_calls("bounds_that_are_still_accepted");
}
