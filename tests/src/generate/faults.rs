//! Plans that are to be refused: every clause of refusals 1 to 5, 17 and 18, alone
//! and several at once.

use super::point_labels::{self, in_new_form, sound_with_labels, Labelled};
use super::{any_edge, frame, scaled, varied, Draft, Random};
use crate::second::{self, BOTH_FORMS, MOST_CELLS};

/// One clause of a refusal, and how to make a plan fall under it.
pub struct Fault {
    pub clause: &'static str,
    pub refusal: u32,
    apply: fn(&mut Random, &Sizes, &mut Vec<u8>),
}

/// The sizes of the plan that faults are put into, to find places in it.
pub struct Sizes {
    n: usize,
    p: usize,
    k: usize,
    e: usize,
    /// The label bytes: n, or none in the old form.
    labels: usize,
}

impl Sizes {
    fn of(plan: &[u8]) -> Self {
        let [n, p, k, e] = [0, 1, 2, 3].map(|place| usize::from(plan[place]));
        Sizes { n, p, k, e, labels: plan.len() - (4 + p + 6 * (k + e)) }
    }

    /// The place of a point's label.
    fn label(&self, point: usize) -> usize {
        4 + self.p + point
    }

    fn any_label(&self, random: &mut Random) -> usize {
        self.label(random.below(self.n))
    }

    /// The place of a row's two ends; links come first, then edges.
    fn ends(&self, row: usize) -> usize {
        4 + self.p + self.labels + 2 * row
    }

    /// The place of a row's four bytes.
    fn row(&self, row: usize) -> usize {
        self.ends(self.k + self.e) + 4 * row
    }

    fn any_link(&self, random: &mut Random) -> usize {
        random.below(self.k)
    }

    fn any_edge(&self, random: &mut Random) -> usize {
        self.k + random.below(self.e)
    }

    fn any_observing(&self, random: &mut Random) -> usize {
        4 + random.below(self.p)
    }

    /// A point that is none, just past the last or far off.
    fn no_point(&self, random: &mut Random) -> u8 {
        random.pick(&[self.n as u8, self.n as u8 + 1, 128, 255])
    }
}

/// A sound plan with at least two observing points, links and edges, and room for a
/// digit above its propositions, in either form, with labels or without.
pub fn sound(random: &mut Random) -> Vec<u8> {
    match random.below(5) {
        0 | 1 => sound_draft(random).bytes(),
        2 => in_new_form(&sound_draft(random).bytes()),
        _ => sound_with_labels(random).bytes(),
    }
}

/// Such a plan without labels. Half of them have long timers.
pub(super) fn sound_draft(random: &mut Random) -> Draft {
    let p = random.between(2, 3) as usize;
    let k = random.between(2, 3) as usize;
    let n = p + k + random.between(2, 5) as usize;
    let mut draft = frame(random, n, p, k, 20);
    while draft.edges.len() < 2 || random.chance(70) {
        any_edge(random, &mut draft, 10, 40);
    }
    if random.chance(50) {
        draft = scaled(random, &draft);
        draft = varied(random, &draft);
    }
    draft
}

/// A plan with this one fault.
pub fn faulty(random: &mut Random, fault: &Fault) -> Vec<u8> {
    with_faults(random, &[fault])
}

/// A plan with several faults, whichever of them are left to be seen.
pub fn faulty_many_times(random: &mut Random) -> Vec<u8> {
    let faults: Vec<&Fault> =
        (0..random.between(2, 4)).map(|_| &FAULTS[random.below(FAULTS.len())]).collect();
    with_faults(random, &faults)
}

/// A plan with these faults. If one of them is about labels the plan has labels.
pub fn with_faults(random: &mut Random, faults: &[&Fault]) -> Vec<u8> {
    let about_labels = faults.iter().any(|fault| fault.refusal >= 17);
    let mut plan = if about_labels { sound_with_labels(random).bytes() } else { sound(random) };
    // Those that add or drop rows come first and those of length last, so that all
    // others find their places.
    let mut faults = faults.to_vec();
    faults.sort_by_key(|fault| match fault.refusal {
        18 => 0,
        1 => 2,
        _ => 1,
    });
    let rows = faults.iter().filter(|fault| fault.refusal == 18).count();
    for fault in &faults[..rows] {
        let sizes = Sizes::of(&plan);
        (fault.apply)(random, &sizes, &mut plan);
    }
    let sizes = Sizes::of(&plan);
    for fault in &faults[rows..] {
        if plan.len() >= sizes.row(sizes.k + sizes.e) {
            (fault.apply)(random, &sizes, &mut plan);
        }
    }
    plan
}

/// Changes a plan so that its labels do not fit; if it does not lend itself to this
/// change, another plan takes its place.
fn misfit(random: &mut Random, plan: &mut Vec<u8>, change: fn(&mut Random, &mut Labelled) -> bool) {
    let mut labelled = Labelled::of(plan);
    while !change(random, &mut labelled) {
        labelled = sound_with_labels(random);
    }
    *plan = labelled.bytes();
}

/// Writes a link's least and most.
fn set_duration(random: &mut Random, sizes: &Sizes, plan: &mut [u8], least: u16, most: u16) {
    let place = sizes.row(sizes.any_link(random));
    plan[place..place + 2].copy_from_slice(&least.to_be_bytes());
    plan[place + 2..place + 4].copy_from_slice(&most.to_be_bytes());
}

/// Writes an edge's weight.
fn set_weight(random: &mut Random, sizes: &Sizes, plan: &mut [u8], weight: i16) {
    let place = sizes.row(sizes.any_edge(random));
    plan[place..place + 2].copy_from_slice(&weight.to_be_bytes());
}

/// Writes a size and, every other time, makes the length that goes with it, in
/// either form.
fn set_size(random: &mut Random, plan: &mut Vec<u8>, place: usize, size: u8) {
    plan[place] = size;
    if random.chance(50) {
        let [n, p, k, e] = [0, 1, 2, 3].map(|place| usize::from(plan[place]));
        plan.resize(4 + p + random.pick(&[0, n]) + 6 * (k + e), 1);
    }
}

/// Gives the plan so many label bytes, which are not as many as its points.
fn set_label_bytes(sizes: &Sizes, plan: &mut Vec<u8>, labels: usize) {
    let place = sizes.label(0);
    plan.splice(place..place + sizes.labels, vec![0; labels]);
}

/// Makes the plan so long, or a byte longer if that would be the length of the
/// other form.
fn set_length(plan: &mut Vec<u8>, length: usize) {
    plan.resize(length, 0);
    if second::fields(plan, &BOTH_FORMS).is_ok() {
        plan.push(0);
    }
}

pub static FAULTS: &[Fault] = &[
    Fault { clause: "under 4 bytes", refusal: 1, apply: |random, _, plan| plan.truncate(random.below(4)) },
    Fault {
        clause: "under 4 bytes, the sizes out of bounds",
        refusal: 1,
        apply: |random, _, plan| *plan = vec![255; random.below(4)],
    },
    Fault { clause: "only the sizes", refusal: 1, apply: |_, _, plan| plan.truncate(4) },
    Fault { clause: "one byte short", refusal: 1, apply: |_, _, plan| plan.truncate(plan.len() - 1) },
    Fault {
        clause: "many bytes short",
        refusal: 1,
        apply: |random, _, plan| {
            let length = random.between(4, plan.len() as i64 - 1) as usize;
            set_length(plan, length);
        },
    },
    Fault { clause: "one byte long", refusal: 1, apply: |_, _, plan| plan.push(0) },
    Fault {
        clause: "many bytes long",
        refusal: 1,
        apply: |random, _, plan| set_length(plan, plan.len() + 1 + random.below(2_000)),
    },
    Fault {
        clause: "a label byte too few",
        refusal: 1,
        apply: |random, sizes, plan| {
            let labels = random.pick(&[1, sizes.n - 1]);
            set_label_bytes(sizes, plan, labels);
        },
    },
    Fault {
        clause: "a label byte too many",
        refusal: 1,
        apply: |random, sizes, plan| {
            let labels = random.pick(&[sizes.n + 1, 2 * sizes.n, 32, 255]);
            set_label_bytes(sizes, plan, labels);
        },
    },
    Fault { clause: "n under 2", refusal: 2, apply: |random, _, plan| plan[0] = random.pick(&[0, 1]) },
    Fault {
        clause: "n over 32",
        refusal: 2,
        apply: |random, _, plan| plan[0] = random.pick(&[33, 34, 128, 255]),
    },
    Fault {
        clause: "p over 4",
        refusal: 2,
        apply: |random, _, plan| {
            let size = random.pick(&[5, 6, 32, 128, 255]);
            set_size(random, plan, 1, size);
        },
    },
    Fault {
        clause: "k over 4",
        refusal: 2,
        apply: |random, _, plan| {
            let size = random.pick(&[5, 6, 32, 64, 255]);
            set_size(random, plan, 2, size);
        },
    },
    Fault {
        clause: "e over 128",
        refusal: 2,
        apply: |random, _, plan| {
            let size = random.pick(&[129, 130, 255]);
            set_size(random, plan, 3, size);
        },
    },
    Fault {
        clause: "cells over 16,384",
        refusal: 2,
        apply: |random, _, plan| {
            let (n, p, k) =
                random.pick(&[(5, 4, 4), (32, 4, 4), (9, 4, 3), (17, 4, 2), (17, 3, 4), (32, 4, 2)]);
            assert!((n as usize) << k << (2 * p) > MOST_CELLS);
            plan[0] = n;
            plan[1] = p;
            set_size(random, plan, 2, k);
        },
    },
    Fault {
        clause: "observing point 0",
        refusal: 3,
        apply: |random, sizes, plan| plan[sizes.any_observing(random)] = 0,
    },
    Fault {
        clause: "observing point ≥ n",
        refusal: 3,
        apply: |random, sizes, plan| plan[sizes.any_observing(random)] = sizes.no_point(random),
    },
    Fault {
        clause: "observing point used twice",
        refusal: 3,
        apply: |_, sizes, plan| plan[4 + sizes.p - 1] = plan[4],
    },
    Fault {
        clause: "16,384 cells and more propositions than points for them",
        refusal: 3,
        apply: |_, sizes, plan| {
            let labels = if sizes.labels > 0 { 4 } else { 0 };
            *plan = vec![4, 4, 4, 0, 1, 2, 3, 1];
            plan.resize(4 + 4 + labels + 6 * 4, 1);
        },
    },
    Fault {
        clause: "point's label not plain",
        refusal: 17,
        apply: |random, sizes, plan| {
            plan[sizes.any_label(random)] |= 3 << (2 * random.below(sizes.p));
        },
    },
    Fault {
        clause: "last point's label not plain",
        refusal: 17,
        apply: |random, sizes, plan| {
            plan[sizes.label(sizes.n - 1)] |= 3 << (2 * random.below(sizes.p));
        },
    },
    Fault {
        clause: "point's label with a digit at p or above",
        refusal: 17,
        apply: |random, sizes, plan| {
            let digit = random.between(sizes.p as i64, 3);
            plan[sizes.any_label(random)] |= random.pick(&[1, 2]) << (2 * digit);
        },
    },
    Fault {
        clause: "point's label with 3 at p or above",
        refusal: 17,
        apply: |random, sizes, plan| {
            plan[sizes.any_label(random)] |= 3 << (2 * random.between(sizes.p as i64, 3));
        },
    },
    Fault {
        clause: "label not 0 at Z",
        refusal: 17,
        apply: |random, sizes, plan| {
            plan[sizes.label(0)] = random.pick(&[1, 2]) << (2 * random.below(sizes.p));
        },
    },
    Fault {
        clause: "activation ≥ n",
        refusal: 4,
        apply: |random, sizes, plan| plan[sizes.ends(sizes.any_link(random))] = sizes.no_point(random),
    },
    Fault {
        clause: "link's end ≥ n",
        refusal: 4,
        apply: |random, sizes, plan| plan[sizes.ends(sizes.any_link(random)) + 1] = sizes.no_point(random),
    },
    Fault {
        clause: "A = C",
        refusal: 4,
        apply: |random, sizes, plan| {
            let place = sizes.ends(sizes.any_link(random));
            plan[place] = plan[place + 1];
        },
    },
    Fault {
        clause: "C = 0",
        refusal: 4,
        apply: |random, sizes, plan| {
            let place = sizes.ends(sizes.any_link(random));
            plan[place] = plan[place].max(1);
            plan[place + 1] = 0;
        },
    },
    Fault {
        clause: "A = C = 0",
        refusal: 4,
        apply: |random, sizes, plan| {
            let place = sizes.ends(sizes.any_link(random));
            plan[place..place + 2].fill(0);
        },
    },
    Fault {
        clause: "C observing",
        refusal: 4,
        apply: |random, sizes, plan| {
            let place = sizes.ends(sizes.any_link(random));
            plan[place] = 0;
            plan[place + 1] = plan[sizes.any_observing(random)];
        },
    },
    Fault {
        clause: "C used twice",
        refusal: 4,
        apply: |random, sizes, plan| {
            let last = sizes.k - 1;
            plan[sizes.ends(last)] = 0;
            plan[sizes.ends(last) + 1] = plan[sizes.ends(random.below(last)) + 1];
        },
    },
    Fault {
        clause: "s = 0",
        refusal: 4,
        apply: |random, sizes, plan| {
            let most = random.pick(&[1, 2, 28_800]);
            set_duration(random, sizes, plan, 0, most);
        },
    },
    Fault {
        clause: "s = y = 0",
        refusal: 4,
        apply: |random, sizes, plan| set_duration(random, sizes, plan, 0, 0),
    },
    Fault {
        clause: "s = y",
        refusal: 4,
        apply: |random, sizes, plan| {
            let both = random.pick(&[1, 17, 3_601, 28_800]);
            set_duration(random, sizes, plan, both, both);
        },
    },
    Fault {
        clause: "s > y",
        refusal: 4,
        apply: |random, sizes, plan| {
            let (least, most) = random.pick(&[
                (8, 7),
                (256, 7),
                (28_800, 28_799),
                (28_801, 28_800),
                (32_768, 7),
                (65_535, 28_800),
            ]);
            set_duration(random, sizes, plan, least, most);
        },
    },
    Fault {
        clause: "y over 28,800",
        refusal: 4,
        apply: |random, sizes, plan| {
            let least = random.pick(&[1, 5, 28_800]);
            let most = random.pick(&[28_801, 32_767, 32_768, 65_535]);
            set_duration(random, sizes, plan, least, most);
        },
    },
    Fault {
        clause: "s and y over 28,800",
        refusal: 4,
        apply: |random, sizes, plan| {
            let (least, most) = random.pick(&[(28_801, 28_802), (32_767, 32_768), (32_768, 65_535)]);
            set_duration(random, sizes, plan, least, most);
        },
    },
    Fault {
        clause: "edge from ≥ n",
        refusal: 5,
        apply: |random, sizes, plan| plan[sizes.ends(sizes.any_edge(random))] = sizes.no_point(random),
    },
    Fault {
        clause: "edge to ≥ n",
        refusal: 5,
        apply: |random, sizes, plan| plan[sizes.ends(sizes.any_edge(random)) + 1] = sizes.no_point(random),
    },
    Fault {
        clause: "equal ends",
        refusal: 5,
        apply: |random, sizes, plan| {
            let place = sizes.ends(sizes.any_edge(random));
            let from = random.below(2);
            plan[place + from] = plan[place + 1 - from];
        },
    },
    Fault {
        clause: "equal ends at Z",
        refusal: 5,
        apply: |random, sizes, plan| {
            let place = sizes.ends(sizes.any_edge(random));
            plan[place..place + 2].fill(0);
        },
    },
    Fault {
        clause: "u over 28,800",
        refusal: 5,
        apply: |random, sizes, plan| {
            let weight = random.pick(&[28_801, 28_802, i16::MAX]);
            set_weight(random, sizes, plan, weight);
        },
    },
    Fault {
        clause: "u under −28,800",
        refusal: 5,
        apply: |random, sizes, plan| {
            let weight = random.pick(&[-28_801, -28_802, i16::MIN]);
            set_weight(random, sizes, plan, weight);
        },
    },
    Fault {
        clause: "edge's label not plain",
        refusal: 5,
        apply: |random, sizes, plan| {
            let place = sizes.row(sizes.any_edge(random)) + 2;
            plan[place] |= 3 << (2 * random.below(sizes.p));
        },
    },
    Fault {
        clause: "edge's label with a digit at p or above",
        refusal: 5,
        apply: |random, sizes, plan| {
            let place = sizes.row(sizes.any_edge(random)) + 2;
            let digit = random.between(sizes.p as i64, 3);
            plan[place] |= random.pick(&[1, 2]) << (2 * digit);
        },
    },
    Fault {
        clause: "edge's label with 3 at p or above",
        refusal: 5,
        apply: |random, sizes, plan| {
            let place = sizes.row(sizes.any_edge(random)) + 2;
            plan[place] |= 3 << (2 * random.between(sizes.p as i64, 3));
        },
    },
    Fault {
        clause: "edge's last byte not 0",
        refusal: 5,
        apply: |random, sizes, plan| {
            let place = sizes.row(sizes.any_edge(random)) + 3;
            plan[place] = random.pick(&[1, 128, 255]);
        },
    },
    Fault {
        clause: "last edge's last byte not 0",
        refusal: 5,
        apply: |_, _, plan| *plan.last_mut().expect("the plan has an edge") = 1,
    },
    Fault {
        clause: "edge lacks the label of where it comes from",
        refusal: 18,
        apply: |random, _, plan| misfit(random, plan, point_labels::edge_lacks_from),
    },
    Fault {
        clause: "edge lacks the label of where it runs to",
        refusal: 18,
        apply: |random, _, plan| misfit(random, plan, point_labels::edge_lacks_to),
    },
    Fault {
        clause: "edge has another answer than an end",
        refusal: 18,
        apply: |random, _, plan| misfit(random, plan, point_labels::edge_has_other_answer),
    },
    Fault {
        clause: "edge lacks an answer of an end",
        refusal: 18,
        apply: |random, _, plan| misfit(random, plan, point_labels::edge_lacks_an_answer),
    },
    Fault {
        clause: "point lacks the label of an observing point it names",
        refusal: 18,
        apply: |random, _, plan| misfit(random, plan, point_labels::point_lacks_named),
    },
    Fault {
        clause: "point and its edge lack the label of an observing point they name",
        refusal: 18,
        apply: |random, _, plan| misfit(random, plan, point_labels::point_and_edge_lack_named),
    },
    Fault {
        clause: "no edge to an observing point that a point names",
        refusal: 18,
        apply: |random, _, plan| misfit(random, plan, point_labels::no_edge_due),
    },
    Fault {
        clause: "edge due of weight 0",
        refusal: 18,
        apply: |random, _, plan| misfit(random, plan, point_labels::edge_due_of_weight_0),
    },
    Fault {
        clause: "edge due of positive weight",
        refusal: 18,
        apply: |random, _, plan| misfit(random, plan, point_labels::edge_due_of_positive_weight),
    },
    Fault {
        clause: "edge due with more answers than the point",
        refusal: 18,
        apply: |random, _, plan| misfit(random, plan, point_labels::edge_due_with_more_answers),
    },
    Fault {
        clause: "edge due the other way",
        refusal: 18,
        apply: |random, _, plan| misfit(random, plan, point_labels::edge_due_the_other_way),
    },
    Fault {
        clause: "edge due to another observing point",
        refusal: 18,
        apply: |random, _, plan| misfit(random, plan, point_labels::edge_due_to_another_observing_point),
    },
    Fault {
        clause: "edge due to Z",
        refusal: 18,
        apply: |random, _, plan| misfit(random, plan, point_labels::edge_due_to_z),
    },
    Fault {
        clause: "edge due from another point",
        refusal: 18,
        apply: |random, _, plan| misfit(random, plan, point_labels::edge_due_from_another_point),
    },
    Fault {
        clause: "observing point names its own proposition",
        refusal: 18,
        apply: |random, _, plan| misfit(random, plan, point_labels::point_names_its_own_proposition),
    },
    Fault {
        clause: "edge lacks the label of an observing point it names",
        refusal: 18,
        apply: |random, _, plan| misfit(random, plan, point_labels::edge_lacks_named),
    },
    Fault {
        clause: "edge has another answer than an observing point it names",
        refusal: 18,
        apply: |random, _, plan| misfit(random, plan, point_labels::edge_has_other_answer_than_named),
    },
    Fault {
        clause: "only a link's activation has a label",
        refusal: 18,
        apply: |random, _, plan| misfit(random, plan, point_labels::only_activation_labelled),
    },
    Fault {
        clause: "only a link's end has a label",
        refusal: 18,
        apply: |random, _, plan| misfit(random, plan, point_labels::only_end_labelled),
    },
    Fault {
        clause: "a link's end gets a label",
        refusal: 18,
        apply: |random, _, plan| misfit(random, plan, point_labels::end_gets_a_label),
    },
    Fault {
        clause: "a link's ends have other answers",
        refusal: 18,
        apply: |random, _, plan| misfit(random, plan, point_labels::ends_have_other_answers),
    },
    Fault {
        clause: "a link's end has more answers",
        refusal: 18,
        apply: |random, _, plan| misfit(random, plan, point_labels::end_has_more_answers),
    },
    Fault {
        clause: "a link's end has fewer answers",
        refusal: 18,
        apply: |random, _, plan| misfit(random, plan, point_labels::end_has_fewer_answers),
    },
];
