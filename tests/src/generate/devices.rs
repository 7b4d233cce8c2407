//! Plans whose links have device classes, with durations at and about those of
//! the classes.

use super::{loosen, Class, Draft, Random, Sample};
use crate::second::{self, DeviceClass, HOUSE_TABLE, MOST_SECONDS};

/// Where a link's least lies to that of its class, or its most.
#[derive(Clone, Copy, Debug, PartialEq, Eq)]
pub enum Side {
    /// One second too narrow.
    Narrower,
    Exact,
    /// One second wider.
    Wider,
    /// As wide as a plan allows.
    Widest,
}

pub const SIDES: [Side; 4] = [Side::Narrower, Side::Exact, Side::Wider, Side::Widest];

/// The least and the most of a link of this class, which is not 0. No class has
/// a least below 2, so that a second less is still accepted.
pub fn durations(class: u8, lower: Side, upper: Side) -> (i64, i64) {
    let DeviceClass { least, most } = HOUSE_TABLE[usize::from(class) - 1];
    let least = match lower {
        Side::Narrower => least + 1,
        Side::Exact => least,
        Side::Wider => least - 1,
        Side::Widest => 1,
    };
    let most = match upper {
        Side::Narrower => most - 1,
        Side::Exact => most,
        Side::Wider => most + 1,
        Side::Widest => MOST_SECONDS,
    };
    (least, most)
}

/// The plan with classes for most of its links, whose durations then lie about
/// those of the class, and the list of the classes. `narrow` is the chance of
/// such a link to be narrower than its class.
pub fn with_classes(random: &mut Random, sample: &Sample, narrow: usize) -> (Sample, Vec<u8>) {
    let mut draft = Draft::of(second::read(&sample.plan).expect("an accepted plan"));
    let classes: Vec<u8> = draft.links.iter().map(|_| random.below(HOUSE_TABLE.len() + 1) as u8).collect();
    for (link, &class) in draft.links.iter_mut().zip(&classes) {
        if class > 0 {
            let [lower, upper] = any_sides(random, narrow);
            (link.least, link.most) = durations(class, lower, upper);
        }
    }
    // The plan's bounds were made for other durations, and most would break it.
    if draft.points > 2 {
        let rounds = if sample.class == Class::Dense { 1 } else { random.pick(&[0, 2, 4, 20]) };
        loosen(random, &mut draft, rounds);
    }
    (Sample { plan: draft.bytes(), ..sample.clone() }, classes)
}

/// The two sides of a link: wide enough, or with this chance either or both of
/// them narrower.
fn any_sides(random: &mut Random, narrow: usize) -> [Side; 2] {
    let mut sides = [(); 2].map(|()| random.pick(&SIDES[1..]));
    if random.chance(narrow) {
        match random.below(3) {
            2 => sides = [Side::Narrower; 2],
            side => sides[side] = Side::Narrower,
        }
    }
    sides
}
