//! Plans with labels on points: plans of the old form in the new one, plans whose
//! labels fit, and changes after which they no longer do.

use super::faults::sound_draft;
use super::{yes_or_no, Draft, Random};
use crate::second::{self, clear, contains, digit, join, named, plain, Edge, BOTH_FORMS, MOST_EDGES};

/// A plan with a label for each point, being put together.
#[derive(Clone, Debug)]
pub struct Labelled {
    pub draft: Draft,
    pub labels: Vec<u8>,
}

/// A plan of the old form with these labels, one for each point, after its
/// observing points.
pub fn with_label_bytes(plan: &[u8], labels: &[u8]) -> Vec<u8> {
    let (before, after) = plan.split_at(4 + usize::from(plan[1]));
    [before, labels, after].concat()
}

/// A plan of the old form in the new one.
pub fn in_new_form(plan: &[u8]) -> Vec<u8> {
    with_label_bytes(plan, &vec![0; plan[0].into()])
}

impl Labelled {
    /// A plan of either form, which may break the conditions on labels.
    pub fn of(plan: &[u8]) -> Self {
        let fields = second::fields(plan, &BOTH_FORMS).expect("sizes and length are right");
        let labels = fields.point_labels.clone();
        Labelled { draft: Draft::of(second::plan_of(fields)), labels }
    }

    pub fn bytes(&self) -> Vec<u8> {
        with_label_bytes(&self.draft.bytes(), &self.labels)
    }

    /// The same in the old form, its labels dropped.
    pub fn without_labels(&self) -> Vec<u8> {
        self.draft.bytes()
    }

    /// The points whose label is not 0.
    pub fn labelled_points(&self) -> Vec<usize> {
        (1..self.draft.points).filter(|&point| self.labels[point] != 0).collect()
    }

    fn observing_label(&self, proposition: usize) -> u8 {
        self.labels[self.draft.observing[proposition]]
    }

    /// The label with this answer to a proposition, and with all that its observing
    /// point calls for; none if that contradicts the label.
    fn with_answer(&self, label: u8, proposition: usize, answer: u8) -> Option<u8> {
        let answered = join(answer << (2 * proposition), self.observing_label(proposition));
        Some(join(label, answered)).filter(|&joined| plain(joined))
    }
}

// ------------------------------------------------------ labels that fit

/// The plan with labels on about so many of a hundred points, its edges changed so
/// far that the labels fit.
pub fn with_any_labels(random: &mut Random, draft: &Draft, percent: usize) -> Labelled {
    let mut labelled = Labelled { draft: draft.clone(), labels: vec![0; draft.points] };
    choose_labels(random, &mut labelled, percent);
    fit_edges(random, &mut labelled);
    labelled
}

/// A generated plan with labels on some of its points, if any can have one, its edges
/// changed so far that the labels fit. A plan and a seed always make the same.
pub fn labelled(seed: u64, plan: &[u8]) -> Labelled {
    let mut random = Random::new(seed);
    let percent = random.pick(&[20, 50, 50, 90]);
    let draft = Labelled::of(plan).draft;
    let mut tried = (0..10).map(|_| with_any_labels(&mut random, &draft, percent));
    let first = tried.next().expect("ten are tried");
    tried.find(|labelled| !labelled.labelled_points().is_empty()).unwrap_or(first)
}

/// Labels that edges can be made to fit: the ends of a link have the same one, and
/// an observing point names only propositions that come before its own in an order.
fn choose_labels(random: &mut Random, labelled: &mut Labelled, percent: usize) {
    let mut order: Vec<usize> = (0..labelled.draft.observing.len()).collect();
    random.shuffle(&mut order);
    let known_before = |points: &Vec<usize>| {
        let observed = |&j: &usize| points.contains(&labelled.draft.observing[j]);
        order.iter().position(observed).unwrap_or(order.len())
    };
    let mut groups: Vec<(usize, Vec<usize>)> =
        linked_points(&labelled.draft).into_iter().map(|points| (known_before(&points), points)).collect();
    // A label takes over those of the observing points that it names.
    groups.sort_by_key(|&(known, _)| known);
    for (known, points) in groups {
        if !points.contains(&0) && random.chance(percent) {
            let label = any_answers(random, labelled, &order[..known]);
            points.iter().for_each(|&point| labelled.labels[point] = label);
        }
    }
}

/// The points in groups: two ends of a link are in the same one.
fn linked_points(draft: &Draft) -> Vec<Vec<usize>> {
    let mut groups: Vec<Vec<usize>> = (0..draft.points).map(|point| vec![point]).collect();
    for link in &draft.links {
        let (tied, mut others): (Vec<_>, Vec<_>) = groups
            .into_iter()
            .partition(|points| points.contains(&link.activation) || points.contains(&link.end));
        others.push(tied.concat());
        groups = others;
    }
    groups
}

/// A label with answers to some of these propositions.
fn any_answers(random: &mut Random, labelled: &Labelled, propositions: &[usize]) -> u8 {
    propositions.iter().fold(0, |label, &j| {
        let answer = random.pick(&[1, 2]);
        let chosen = random.chance(65).then(|| labelled.with_answer(label, j, answer)).flatten();
        chosen.unwrap_or(label)
    })
}

/// Changes the edges so that the labels fit: an edge gets what its ends' labels and
/// those of observing points call for, or is dropped if these contradict each other,
/// and each point comes after the observing points that it names.
fn fit_edges(random: &mut Random, labelled: &mut Labelled) {
    let edges = std::mem::take(&mut labelled.draft.edges);
    (1..labelled.draft.points).for_each(|point| add_edges_due(random, labelled, point));
    for edge in edges {
        if let Some(label) = fitting_label(labelled, &edge) {
            labelled.draft.edge(edge.from, edge.to, edge.weight, label);
        }
    }
    random.shuffle(&mut labelled.draft.edges);
}

/// Adds the edges that a point's label calls for.
fn add_edges_due(random: &mut Random, labelled: &mut Labelled, point: usize) {
    let label = labelled.labels[point];
    for observing in named(&labelled.draft.observing, label) {
        let gap = random.pick(&[1, 1, 1, 2, 3, 7]);
        labelled.draft.after(point, observing, gap, label);
    }
}

/// The label of an edge with what is due added, and without answers that
/// contradict it; none if the labels of its ends contradict each other.
fn fitting_label(labelled: &Labelled, edge: &Edge) -> Option<u8> {
    let ends = join(labelled.labels[edge.from], labelled.labels[edge.to]);
    let propositions = (0..labelled.draft.observing.len()).filter(|&j| digit(edge.label, j) != 0);
    plain(ends).then(|| {
        propositions
            .fold(ends, |label, j| labelled.with_answer(label, j, digit(edge.label, j)).unwrap_or(label))
    })
}

/// A plan whose labels fit, with links and several propositions, and with a label on
/// an observing point. Half of them have long timers.
pub fn sound_with_labels(random: &mut Random) -> Labelled {
    loop {
        let draft = sound_draft(random);
        let labelled = with_any_labels(random, &draft, 60);
        if (0..draft.observing.len()).any(|j| labelled.observing_label(j) != 0) {
            return labelled;
        }
    }
}

// ----------------------------------------------- labels that do not fit

// Each change says whether the plan lent itself to it.

/// Any of these, if there are any.
fn any_of<T: Copy>(random: &mut Random, choices: &[T]) -> Option<T> {
    (!choices.is_empty()).then(|| random.pick(choices))
}

/// Adds an edge between two points, either way, if there is room.
fn add_either_way(random: &mut Random, labelled: &mut Labelled, ends: [usize; 2], label: u8) -> bool {
    let from = random.below(2);
    add(random, labelled, ends[from], ends[1 - from], label)
}

fn add(random: &mut Random, labelled: &mut Labelled, from: usize, to: usize, label: u8) -> bool {
    let room = labelled.draft.edges.len() < MOST_EDGES;
    labelled.draft.edge(from, to, random.between(-3, 60), label);
    room
}

/// A point with a label, and another one whose label does not contain it.
fn two_points(random: &mut Random, labelled: &Labelled) -> Option<(usize, usize)> {
    let point = any_of(random, &labelled.labelled_points())?;
    let lacks = |&other: &usize| !contains(labelled.labels[other], labelled.labels[point]);
    let others: Vec<usize> = (0..labelled.draft.points).filter(lacks).collect();
    Some((point, random.pick(&others)))
}

/// An edge contains the label of the point that it runs to, and not that of the
/// point that it comes from.
pub fn edge_lacks_from(random: &mut Random, labelled: &mut Labelled) -> bool {
    let Some((from, to)) = two_points(random, labelled) else { return false };
    add(random, labelled, from, to, labelled.labels[to])
}

/// The other way round.
pub fn edge_lacks_to(random: &mut Random, labelled: &mut Labelled) -> bool {
    let Some((to, from)) = two_points(random, labelled) else { return false };
    add(random, labelled, from, to, labelled.labels[from])
}

/// A proposition that a label names and that no observing point calls for that the
/// label names: its digit can be changed without regard to others.
fn last_named(random: &mut Random, labelled: &Labelled, label: u8) -> Option<usize> {
    let named = |label: u8, j: usize| digit(label, j) != 0;
    let propositions = 0..labelled.draft.observing.len();
    let last = propositions.clone().filter(|&j| {
        let mut calls = propositions.clone().filter(|&i| named(label, i));
        named(label, j) && !calls.any(|i| named(labelled.observing_label(i), j))
    });
    any_of(random, &last.collect::<Vec<usize>>())
}

/// The label with the other answer to a proposition.
fn other_answer(label: u8, proposition: usize) -> u8 {
    label ^ 3 << (2 * proposition)
}

/// An edge has the other answer to a proposition than one of its ends.
pub fn edge_has_other_answer(random: &mut Random, labelled: &mut Labelled) -> bool {
    let Some(point) = any_of(random, &labelled.labelled_points()) else { return false };
    let label = labelled.labels[point];
    let Some(j) = last_named(random, labelled, label) else { return false };
    add_either_way(random, labelled, [point, 0], other_answer(label, j))
}

/// An edge lacks one of the answers of one of its ends.
pub fn edge_lacks_an_answer(random: &mut Random, labelled: &mut Labelled) -> bool {
    let Some(point) = any_of(random, &labelled.labelled_points()) else { return false };
    let label = labelled.labels[point];
    let Some(j) = last_named(random, labelled, label) else { return false };
    clear(label, j) != 0 && add_either_way(random, labelled, [point, 0], clear(label, j))
}

/// A proposition whose observing point has a label.
fn labelled_proposition(random: &mut Random, labelled: &Labelled) -> Option<usize> {
    let propositions = 0..labelled.draft.observing.len();
    let those: Vec<usize> = propositions.filter(|&j| labelled.observing_label(j) != 0).collect();
    any_of(random, &those)
}

/// A point names a proposition and lacks the label of its observing point; its edges
/// have that label, so that none has exactly the point's.
pub fn point_lacks_named(random: &mut Random, labelled: &mut Labelled) -> bool {
    change_point_lacks_named(random, labelled).is_some()
}

/// The same, with an edge that has exactly the point's label.
pub fn point_and_edge_lack_named(random: &mut Random, labelled: &mut Labelled) -> bool {
    let Some((point, j)) = change_point_lacks_named(random, labelled) else { return false };
    let observing = labelled.draft.observing[j];
    labelled.draft.after(point, observing, 1, labelled.labels[point]);
    true
}

fn change_point_lacks_named(random: &mut Random, labelled: &mut Labelled) -> Option<(usize, usize)> {
    let j = labelled_proposition(random, labelled)?;
    let linked =
        |point: usize| labelled.draft.links.iter().any(|link| link.activation == point || link.end == point);
    let free: Vec<usize> = (1..labelled.draft.points)
        .filter(|&point| !linked(point) && !labelled.draft.observing.contains(&point))
        .collect();
    let point = any_of(random, &free)?;
    let answer = random.pick(&[1, 2]);
    let label = labelled.with_answer(0, j, answer)?;
    relabel(random, labelled, point, label);
    labelled.labels[point] = answer << (2 * j);
    Some((point, j))
}

/// Gives a point another label, changes the edges that touch it so that they fit, and
/// drops those that cannot. The edges of other points stay as they are due if the
/// point is not observing.
fn relabel(random: &mut Random, labelled: &mut Labelled, point: usize, label: u8) {
    labelled.labels[point] = label;
    let touches = |edge: &Edge| edge.from == point || edge.to == point;
    labelled.draft.edges.retain_mut(|edge| {
        if touches(edge) {
            edge.label = join(edge.label, label);
        }
        plain(edge.label)
    });
    add_edges_due(random, labelled, point);
}

/// A point, an observing point that it names, and the rows of the edges that are due
/// for that.
struct Due {
    point: usize,
    observing: usize,
    rows: Vec<usize>,
}

fn any_due(random: &mut Random, labelled: &Labelled) -> Option<Due> {
    let point = any_of(random, &labelled.labelled_points())?;
    let label = labelled.labels[point];
    let observing = any_of(random, &named(&labelled.draft.observing, label))?;
    let is_due =
        |edge: &Edge| edge.weight < 0 && edge.label == label && edge.from == point && edge.to == observing;
    let edges = &labelled.draft.edges;
    let rows = (0..edges.len()).filter(|&row| is_due(&edges[row])).collect();
    Some(Due { point, observing, rows })
}

/// Changes all edges that are due for a point and an observing point.
fn change_due(labelled: &mut Labelled, due: &Due, change: impl Fn(&mut Edge)) -> bool {
    due.rows.iter().for_each(|&row| change(&mut labelled.draft.edges[row]));
    true
}

/// No edge runs from a point to an observing point that it names.
pub fn no_edge_due(random: &mut Random, labelled: &mut Labelled) -> bool {
    let Some(due) = any_due(random, labelled) else { return false };
    let mut row = 0;
    labelled.draft.edges.retain(|_| {
        row += 1;
        !due.rows.contains(&(row - 1))
    });
    true
}

/// The edge that is due has weight 0.
pub fn edge_due_of_weight_0(random: &mut Random, labelled: &mut Labelled) -> bool {
    let Some(due) = any_due(random, labelled) else { return false };
    change_due(labelled, &due, |edge| edge.weight = 0)
}

/// The edge that is due has a weight above 0.
pub fn edge_due_of_positive_weight(random: &mut Random, labelled: &mut Labelled) -> bool {
    let Some(due) = any_due(random, labelled) else { return false };
    change_due(labelled, &due, |edge| edge.weight = -edge.weight)
}

/// The edge that is due has an answer more than the point's label.
pub fn edge_due_with_more_answers(random: &mut Random, labelled: &mut Labelled) -> bool {
    let Some(due) = any_due(random, labelled) else { return false };
    let Some(more) = more_answers(random, labelled, labelled.labels[due.point]) else { return false };
    change_due(labelled, &due, |edge| edge.label = more)
}

/// The label with an answer to a proposition that it does not name.
fn more_answers(random: &mut Random, labelled: &Labelled, label: u8) -> Option<u8> {
    let propositions = (0..labelled.draft.observing.len()).filter(|&j| digit(label, j) == 0);
    let answer = random.pick(&[1, 2]);
    let labels: Vec<u8> = propositions.filter_map(|j| labelled.with_answer(label, j, answer)).collect();
    any_of(random, &labels)
}

/// The edge that is due runs from the observing point to the point.
pub fn edge_due_the_other_way(random: &mut Random, labelled: &mut Labelled) -> bool {
    let Some(due) = any_due(random, labelled) else { return false };
    change_due(labelled, &due, |edge| (edge.from, edge.to) = (edge.to, edge.from))
}

/// The edge that is due runs to another observing point.
pub fn edge_due_to_another_observing_point(random: &mut Random, labelled: &mut Labelled) -> bool {
    let Some(due) = any_due(random, labelled) else { return false };
    let label = labelled.labels[due.point];
    let fits = |&other: &usize| {
        other != due.observing && other != due.point && contains(label, labelled.labels[other])
    };
    let others: Vec<usize> = labelled.draft.observing.iter().copied().filter(fits).collect();
    let Some(other) = any_of(random, &others) else { return false };
    change_due(labelled, &due, |edge| edge.to = other)
}

/// The edge that is due runs to Z.
pub fn edge_due_to_z(random: &mut Random, labelled: &mut Labelled) -> bool {
    let Some(due) = any_due(random, labelled) else { return false };
    change_due(labelled, &due, |edge| edge.to = 0)
}

/// The edge that is due comes from another point with the same label.
pub fn edge_due_from_another_point(random: &mut Random, labelled: &mut Labelled) -> bool {
    let Some(due) = any_due(random, labelled) else { return false };
    let same = |&other: &usize| other != due.point && labelled.labels[other] == labelled.labels[due.point];
    let others: Vec<usize> = labelled.labelled_points().into_iter().filter(same).collect();
    let Some(other) = any_of(random, &others) else { return false };
    change_due(labelled, &due, |edge| edge.from = other)
}

/// An observing point names the proposition that is learnt there. Nothing else names
/// it, and the labels fit but for that.
pub fn point_names_its_own_proposition(random: &mut Random, labelled: &mut Labelled) -> bool {
    let j = random.below(labelled.draft.observing.len());
    let point = labelled.draft.observing[j];
    if labelled.draft.links.iter().any(|link| link.activation == point) {
        return false;
    }
    labelled.labels.iter_mut().for_each(|label| *label = clear(*label, j));
    labelled.draft.edges.iter_mut().for_each(|edge| edge.label = clear(edge.label, j));
    let label = labelled.labels[point] | yes_or_no(random, j);
    relabel(random, labelled, point, label);
    true
}

/// An edge names a proposition and lacks the label of its observing point.
pub fn edge_lacks_named(random: &mut Random, labelled: &mut Labelled) -> bool {
    let Some(j) = labelled_proposition(random, labelled) else { return false };
    let label = yes_or_no(random, j);
    add_between_unlabelled(random, labelled, label)
}

/// An edge names a proposition and has another answer than the label of its
/// observing point.
pub fn edge_has_other_answer_than_named(random: &mut Random, labelled: &mut Labelled) -> bool {
    let Some(j) = labelled_proposition(random, labelled) else { return false };
    let label = labelled.observing_label(j);
    let Some(i) = last_named(random, labelled, label) else { return false };
    let label = other_answer(label, i) | yes_or_no(random, j);
    add_between_unlabelled(random, labelled, label)
}

/// Adds an edge between Z and another point without a label, either way.
fn add_between_unlabelled(random: &mut Random, labelled: &mut Labelled, label: u8) -> bool {
    let unlabelled: Vec<usize> =
        (1..labelled.draft.points).filter(|&point| labelled.labels[point] == 0).collect();
    let Some(point) = any_of(random, &unlabelled) else { return false };
    add_either_way(random, labelled, [0, point], label)
}

/// The ends of a link that have a label, or of one that have none.
fn any_link_ends(random: &mut Random, labelled: &Labelled, with_label: bool) -> Option<[usize; 2]> {
    let links = labelled.draft.links.iter().filter(|link| (labelled.labels[link.end] != 0) == with_label);
    any_of(random, &links.map(|link| [link.activation, link.end]).collect::<Vec<_>>())
}

/// Only the activation of a link has a label.
pub fn only_activation_labelled(random: &mut Random, labelled: &mut Labelled) -> bool {
    let Some([_, end]) = any_link_ends(random, labelled, true) else { return false };
    labelled.labels[end] = 0;
    true
}

/// Only the end of a link has a label.
pub fn only_end_labelled(random: &mut Random, labelled: &mut Labelled) -> bool {
    let Some([activation, _]) = any_link_ends(random, labelled, true) else { return false };
    labelled.labels[activation] = 0;
    true
}

/// The end of a link whose activation is Z, or has no label either, gets a label.
pub fn end_gets_a_label(random: &mut Random, labelled: &mut Labelled) -> bool {
    let Some([_, end]) = any_link_ends(random, labelled, false) else { return false };
    let Some(label) = more_answers(random, labelled, 0) else { return false };
    relabel(random, labelled, end, label);
    true
}

/// The end of a link has the other answer to a proposition than its activation.
pub fn ends_have_other_answers(random: &mut Random, labelled: &mut Labelled) -> bool {
    let Some([_, end]) = any_link_ends(random, labelled, true) else { return false };
    let label = labelled.labels[end];
    let Some(j) = last_named(random, labelled, label) else { return false };
    relabel(random, labelled, end, other_answer(label, j));
    true
}

/// The end of a link has an answer more than its activation.
pub fn end_has_more_answers(random: &mut Random, labelled: &mut Labelled) -> bool {
    let Some([_, end]) = any_link_ends(random, labelled, true) else { return false };
    let Some(more) = more_answers(random, labelled, labelled.labels[end]) else { return false };
    relabel(random, labelled, end, more);
    true
}

/// The end of a link has an answer less than its activation.
pub fn end_has_fewer_answers(random: &mut Random, labelled: &mut Labelled) -> bool {
    let Some([_, end]) = any_link_ends(random, labelled, true) else { return false };
    let label = labelled.labels[end];
    let Some(j) = last_named(random, labelled, label) else { return false };
    relabel(random, labelled, end, clear(label, j));
    clear(label, j) != 0
}
