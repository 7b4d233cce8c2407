//! Plans with many edge rows, of which few break them.

use super::{any_edge, frame, lengthened, loosen, yes_or_no, Draft, Random, DECISIVE_PARTS};
use crate::second::{self, Edge, Verdict, MOST_EDGES, MOST_SECONDS};

/// A plan with many edges, which most often break it in several ways. Many have
/// links or propositions, or both.
pub fn crowded(seed: u64) -> Draft {
    let mut random = Random::new(seed);
    let (p, k) = random.pick(&[(0, 0), (1, 0), (0, 1), (1, 1), (1, 1), (2, 1), (1, 2)]);
    let n = p + k + random.between(3, 6) as usize;
    let mut draft = frame(&mut random, n, p, k, 8);
    for _ in 0..random.below(4) {
        random.pick(&DECISIVE_PARTS)(&mut random, &mut draft, 20);
    }
    let (longest, room) = random.pick(&[(6, 20), (10, 30), (10, 60)]);
    for _ in 0..random.between(8, 40) {
        any_edge(&mut random, &mut draft, longest, room);
    }
    // One row that breaks the plan by itself would leave no other.
    let rounds = random.pick(&[1, 2, 3, 4, 6]);
    loosen(&mut random, &mut draft, rounds);
    random.shuffle(&mut draft.edges);
    if random.chance(30) {
        draft = lengthened(&mut random, &draft);
    }
    draft
}

/// A kept plan of these sizes with so many edges.
pub fn kept(random: &mut Random, n: usize, p: usize, k: usize, edges: usize) -> Draft {
    let mut draft = frame(random, n, p, k, 8);
    // Links can wait for each other.
    while !is_kept(&draft) {
        draft = frame(random, n, p, k, 8);
    }
    while draft.edges.len() < edges {
        any_edge(random, &mut draft, 10, 60);
        if !is_kept(&draft) {
            draft.edges.pop();
        }
    }
    draft
}

/// Whether the plan is kept, and that shows soon.
fn is_kept(draft: &Draft) -> bool {
    let plan = second::read(&draft.bytes()).expect("a draft is an accepted plan");
    second::run(&plan, 100, |_, _| ()).verdict == Verdict::Kept
}

/// A kept plan with contradictions of so many points each, the rows in any order;
/// and the rows that remain of it. While another contradiction is whole, any row
/// can be left out, so the one remains whose first row comes last.
pub fn with_contradictions(random: &mut Random, kept: Draft, points: &[usize]) -> (Draft, Vec<usize>) {
    let mut draft = kept;
    let mut rows: Vec<(Edge, Option<usize>)> = draft.edges.iter().map(|&edge| (edge, None)).collect();
    for (number, &points) in points.iter().enumerate() {
        let edges = contradiction(random, &mut draft, points);
        rows.extend(edges.into_iter().map(|edge| (edge, Some(number))));
    }
    random.shuffle(&mut rows);
    draft.edges = rows.iter().map(|&(edge, _)| edge).collect();
    let rows_of = |number| (0..rows.len()).filter(|&row| rows[row].1 == Some(number)).collect();
    let remaining = (0..points.len()).map(rows_of).max_by_key(|rows: &Vec<usize>| rows[0]);
    (draft, remaining.expect("a contradiction"))
}

/// The same with as many cells as a plan may have, or nearly so, and with so many
/// rows besides. If it is to be `full`, rows that never matter make up the number
/// that a plan may have.
pub fn wide(random: &mut Random, rows: usize, full: bool) -> (Draft, Vec<usize>) {
    let (n, p, k) = random.pick(&[(32, 4, 1), (16, 4, 2), (31, 3, 3), (15, 3, 4)]);
    let mut kept = kept(random, 1 + p + k, p, k, rows);
    let mut points = Vec::new();
    let mut missing = n - kept.points;
    while missing > 0 {
        points.push(missing.min(random.between(1, 3) as usize));
        missing -= points[points.len() - 1];
    }
    let of_contradictions: usize = points.iter().map(|points| points + 1).sum();
    while full && kept.edges.len() + of_contradictions < MOST_EDGES {
        let from = kept.any_point(random);
        let to = kept.other_point(random, from);
        kept.edge(from, to, MOST_SECONDS, 0);
    }
    with_contradictions(random, kept, &points)
}

/// Adds so many points, and returns edges on them that contradict each other: each
/// point comes at most so long after the one before, from Z on, and the last at
/// least a second later than all that allows. They break every plan, and if one of
/// them is missing the others break none. They all count under the same answers.
pub fn contradiction(random: &mut Random, draft: &mut Draft, points: usize) -> Vec<Edge> {
    let answers = (0..draft.observing.len()).fold(0, |label, j| label | yes_or_no(random, j));
    let mut rows = Vec::new();
    let (mut before, mut time) = (0, 0);
    for _ in 0..points {
        let (point, later) = (draft.add_point(), random.between(0, 30));
        rows.push(Edge { from: before, to: point, weight: later - time, label: part_of(random, answers) });
        (before, time) = (point, later);
    }
    rows.push(Edge { from: before, to: 0, weight: -time - 1, label: part_of(random, answers) });
    rows
}

/// The label with most of its digits cleared.
fn part_of(random: &mut Random, label: u8) -> u8 {
    (0..4).filter(|_| random.chance(60)).fold(label, second::clear)
}
