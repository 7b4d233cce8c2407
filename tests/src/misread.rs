//! What a library would answer that misreads the request for labels on points. Only
//! the tests that show that mistakes would be seen use this.

use crate::second::{
    self, contains, digit, named, plain, Answer, Condition, Edge, Fields, Form, Line, Plan, Refusal, Verdict,
    BOTH_FORMS, CONDITIONS, JUDGED_BEFORE_18,
};

// ------------------------------------------------------ reading a plan

/// A mistake about refusals 17 and 18.
#[derive(Clone, Copy, Debug, PartialEq, Eq, PartialOrd, Ord)]
pub enum Misreading {
    /// 17 is judged before 3.
    LabelsBeforeObserving,
    /// 17 is judged after 4.
    LabelsAfterLinks,
    /// 17 is judged after 5.
    LabelsAfterEdges,
    /// 18 is judged before 4.
    FitBeforeLinks,
    /// 18 is judged before 5.
    FitBeforeEdges,
    /// 17 takes a label that is not plain.
    UnknownLabel,
    /// 17 takes a digit at p or above.
    DigitAbove,
    /// 17 takes any label at Z.
    LabelAtZ,
    /// "Contains" is read the other way.
    ContainedIn,
    /// "Contains" is read as having no other answer.
    NoOtherAnswer,
    /// "Contains" is read as being equal.
    Equal,
    /// Only the label of the point that an edge comes from counts.
    OnlyFrom,
    /// Only the label of the point that an edge runs to counts.
    OnlyTo,
    /// The negative edge is looked for from the observing point to the point.
    EdgeDueTheOtherWay,
    /// It may have any label.
    EdgeDueOfAnyLabel,
    /// It may have any label that contains the point's.
    EdgeDueOfMoreAnswers,
    /// It may have weight 0.
    EdgeDueOfWeight0,
    /// It may have any weight.
    EdgeDueOfAnyWeight,
    /// It may run to any observing point.
    EdgeDueToAnyObserving,
    /// It may come from the other end of a link.
    EdgeDueFromEitherEnd,
    /// One such edge is enough for a point, whatever it names.
    OneEdgeDue,
    /// A proposition's own observing point may name it.
    OwnProposition,
    /// No negative edge is looked for.
    NoEdgeDue,
    /// What the observing points call for that an edge names is not looked at.
    EdgeWithoutNamed,
    /// The ends of links are to have Z's label, which is 0.
    LinkEnds0,
    /// The label of a link's end is to contain the activation's.
    EndContainsActivation,
    /// The label of a link's activation is to contain the end's.
    ActivationContainsEnd,
    /// The ends of links are not looked at.
    AnyLinkEnds,
    /// The edges that links add are edges of Definition 3.
    LinksAddEdges,
    /// The edges that the horizon adds are edges of Definition 3.
    HorizonAddsEdges,
    /// 18 is not judged.
    AnyLabels,
    /// The new form is not read.
    OldFormOnly,
}

pub const MISREADINGS: [Misreading; 32] = [
    Misreading::LabelsBeforeObserving,
    Misreading::LabelsAfterLinks,
    Misreading::LabelsAfterEdges,
    Misreading::FitBeforeLinks,
    Misreading::FitBeforeEdges,
    Misreading::UnknownLabel,
    Misreading::DigitAbove,
    Misreading::LabelAtZ,
    Misreading::ContainedIn,
    Misreading::NoOtherAnswer,
    Misreading::Equal,
    Misreading::OnlyFrom,
    Misreading::OnlyTo,
    Misreading::EdgeDueTheOtherWay,
    Misreading::EdgeDueOfAnyLabel,
    Misreading::EdgeDueOfMoreAnswers,
    Misreading::EdgeDueOfWeight0,
    Misreading::EdgeDueOfAnyWeight,
    Misreading::EdgeDueToAnyObserving,
    Misreading::EdgeDueFromEitherEnd,
    Misreading::OneEdgeDue,
    Misreading::OwnProposition,
    Misreading::NoEdgeDue,
    Misreading::EdgeWithoutNamed,
    Misreading::LinkEnds0,
    Misreading::EndContainsActivation,
    Misreading::ActivationContainsEnd,
    Misreading::AnyLinkEnds,
    Misreading::LinksAddEdges,
    Misreading::HorizonAddsEdges,
    Misreading::AnyLabels,
    Misreading::OldFormOnly,
];

/// Reads a plan if this mistake is made: the refusal, if there is one.
pub fn refusal(misreading: Misreading, bytes: &[u8]) -> Option<Refusal> {
    let forms: &[Form] = if misreading == Misreading::OldFormOnly { &[Form::Old] } else { &BOTH_FORMS };
    match second::fields(bytes, forms) {
        Ok(fields) => order(misreading).into_iter().find(|&number| !right(misreading, number, &fields)),
        Err(refusal) => Some(refusal),
    }
}

/// The order in which a plan's fields are judged.
fn order(misreading: Misreading) -> [Refusal; 5] {
    match misreading {
        Misreading::LabelsBeforeObserving => [17, 3, 4, 5, 18],
        Misreading::LabelsAfterLinks => [3, 4, 17, 5, 18],
        Misreading::LabelsAfterEdges => [3, 4, 5, 17, 18],
        Misreading::FitBeforeLinks => [3, 17, 18, 4, 5],
        Misreading::FitBeforeEdges => [3, 17, 4, 18, 5],
        _ => [3, 17, 4, 5, 18],
    }
}

fn right(misreading: Misreading, refusal: Refusal, fields: &Fields) -> bool {
    match refusal {
        17 => point_labels_right(misreading, fields),
        18 => CONDITIONS.iter().all(|&condition| holds(misreading, condition, &ends_in_range(fields))),
        _ => JUDGED_BEFORE_18.iter().all(|(number, right)| *number != refusal || right(fields)),
    }
}

fn point_labels_right(misreading: Misreading, fields: &Fields) -> bool {
    let p = fields.observing.len();
    let right = |label: u8| {
        (plain(label) || misreading == Misreading::UnknownLabel)
            && ((p..4).all(|j| digit(label, j) == 0) || misreading == Misreading::DigitAbove)
    };
    let right_at_z = fields.point_labels[0] == 0 || misreading == Misreading::LabelAtZ;
    right_at_z && fields.point_labels.iter().all(|&label| right(label))
}

/// A plan that 4 or 5 has not been judged of yet, without rows that have ends which
/// are no points.
fn ends_in_range(fields: &Fields) -> Plan {
    let mut fields = fields.clone();
    let n = fields.points;
    fields.links.retain(|link| link.activation < n && link.end < n);
    fields.edges.retain(|edge| edge.from < n && edge.to < n);
    second::plan_of(fields)
}

/// Whether a condition on labels holds if the mistake is made.
fn holds(misreading: Misreading, condition: Condition, plan: &Plan) -> bool {
    let plan = &with_other_edges(misreading, plan);
    match (misreading, condition) {
        (Misreading::AnyLabels, _)
        | (Misreading::NoEdgeDue, Condition::PointIsAfterNamed)
        | (Misreading::EdgeWithoutNamed, Condition::EdgeContainsNamed)
        | (Misreading::AnyLinkEnds, Condition::LinkEndsEqual) => true,
        (Misreading::ContainedIn, _) => holds_by(|label, other| contains(other, label), condition, plan),
        (Misreading::NoOtherAnswer, _) => {
            holds_by(|label, other| plain(second::join(label, other)), condition, plan)
        }
        (Misreading::Equal, _) => holds_by(|label, other| label == other, condition, plan),
        (Misreading::OnlyFrom, Condition::EdgeContainsEnds) => {
            plan.edges.iter().all(|edge| contains(edge.label, plan.point_labels[edge.from]))
        }
        (Misreading::OnlyTo, Condition::EdgeContainsEnds) => {
            plan.edges.iter().all(|edge| contains(edge.label, plan.point_labels[edge.to]))
        }
        (_, Condition::PointIsAfterNamed) => is_after_named(misreading, plan),
        (_, Condition::LinkEndsEqual) => link_ends_right(misreading, plan),
        _ => condition.holds(plan),
    }
}

/// The plan with the edges that the mistake takes for edges of Definition 3.
fn with_other_edges(misreading: Misreading, plan: &Plan) -> Plan {
    let mut plan = plan.clone();
    let edge = |from, to, weight| Edge { from, to, weight, label: 0 };
    match misreading {
        Misreading::LinksAddEdges => {
            for link in &plan.links {
                plan.edges.push(edge(link.activation, link.end, link.most));
                plan.edges.push(edge(link.end, link.activation, -link.least));
            }
        }
        Misreading::HorizonAddsEdges => {
            (1..plan.points).for_each(|point| plan.edges.push(edge(0, point, plan.horizon)));
        }
        _ => (),
    }
    plan
}

/// The conditions with another meaning of "contains".
fn holds_by(contains: fn(u8, u8) -> bool, condition: Condition, plan: &Plan) -> bool {
    let of_point = &plan.point_labels;
    let contains_named = |label: u8| {
        named(&plan.observing, label).into_iter().all(|observing| contains(label, of_point[observing]))
    };
    match condition {
        Condition::EdgeContainsEnds => plan
            .edges
            .iter()
            .all(|edge| contains(edge.label, of_point[edge.from]) && contains(edge.label, of_point[edge.to])),
        Condition::PointContainsNamed => of_point.iter().all(|&label| contains_named(label)),
        Condition::EdgeContainsNamed => plan.edges.iter().all(|edge| contains_named(edge.label)),
        _ => condition.holds(plan),
    }
}

/// Whether edges run from each point to the observing points that it names.
fn is_after_named(misreading: Misreading, plan: &Plan) -> bool {
    (0..plan.points).all(|point| {
        let observing = named(&plan.observing, plan.point_labels[point]);
        let found = |&observing: &usize| {
            let own = misreading == Misreading::OwnProposition && point == observing;
            own || plan.edges.iter().any(|edge| is_edge_due(misreading, plan, edge, point, observing))
        };
        match misreading {
            Misreading::OneEdgeDue => observing.is_empty() || observing.iter().any(found),
            _ => observing.iter().all(found),
        }
    })
}

/// Whether this is an edge that is due for a point and an observing point.
fn is_edge_due(misreading: Misreading, plan: &Plan, edge: &Edge, point: usize, observing: usize) -> bool {
    let label = plan.point_labels[point];
    let (from, to) = match misreading {
        Misreading::EdgeDueTheOtherWay => (edge.to, edge.from),
        _ => (edge.from, edge.to),
    };
    let weight = match misreading {
        Misreading::EdgeDueOfWeight0 => edge.weight <= 0,
        Misreading::EdgeDueOfAnyWeight => true,
        _ => edge.weight < 0,
    };
    let right_label = match misreading {
        Misreading::EdgeDueOfAnyLabel => true,
        Misreading::EdgeDueOfMoreAnswers => contains(edge.label, label),
        _ => edge.label == label,
    };
    let right_from = match misreading {
        Misreading::EdgeDueFromEitherEnd => from == point || are_linked(plan, from, point),
        _ => from == point,
    };
    let right_to = match misreading {
        Misreading::EdgeDueToAnyObserving => plan.observing.contains(&to),
        _ => to == observing,
    };
    weight && right_label && right_from && right_to
}

fn are_linked(plan: &Plan, one: usize, other: usize) -> bool {
    let ends = |[activation, end]: [usize; 2]| {
        plan.links.iter().any(|link| link.activation == activation && link.end == end)
    };
    ends([one, other]) || ends([other, one])
}

fn link_ends_right(misreading: Misreading, plan: &Plan) -> bool {
    plan.links.iter().all(|link| {
        let [activation, end] = [link.activation, link.end].map(|point| plan.point_labels[point]);
        match misreading {
            Misreading::LinkEnds0 => activation == 0 && end == 0,
            Misreading::EndContainsActivation => contains(end, activation),
            Misreading::ActivationContainsEnd => contains(activation, end),
            _ => activation == end,
        }
    })
}

// ----------------------------------------------------- the conversions

/// A mistake about the conversions.
#[derive(Clone, Copy, Debug, PartialEq, Eq, PartialOrd, Ord)]
pub enum Misconversion {
    /// Either takes both forms.
    BothForms,
    /// The other form's length is judged before 2.
    FormBefore2,
    /// 3 to 5, 17 and 18 are not judged.
    NothingJudged,
    /// 18 is not judged, since labels of 0 always fit.
    NoFit,
    /// 19 is judged before 18.
    LabelsBeforeFit,
    /// 7 is judged before 19.
    OutputBeforeLabels,
    /// 7 is judged before 3.
    OutputBeforePlan,
    /// Labels are dropped whatever they are.
    AnyLabels,
}

pub const MISCONVERSIONS: [Misconversion; 8] = [
    Misconversion::BothForms,
    Misconversion::FormBefore2,
    Misconversion::NothingJudged,
    Misconversion::NoFit,
    Misconversion::LabelsBeforeFit,
    Misconversion::OutputBeforeLabels,
    Misconversion::OutputBeforePlan,
    Misconversion::AnyLabels,
];

/// The refusal of a conversion into an output of so many bytes if this mistake is
/// made, if there is one.
pub fn conversion_refusal(mistake: Misconversion, to: Form, bytes: &[u8], output: usize) -> Option<Refusal> {
    let from = if to == Form::New { Form::Old } else { Form::New };
    let forms: &[Form] = if mistake == Misconversion::BothForms { &BOTH_FORMS } else { &[from] };
    if mistake == Misconversion::FormBefore2 && bytes.len() >= 4 && !has_length(bytes, from) {
        return Some(1);
    }
    let fields = match second::fields(bytes, forms) {
        Ok(fields) => fields,
        Err(refusal) => return Some(refusal),
    };
    let judged: &[Refusal] = match mistake {
        Misconversion::NothingJudged => &[19, 7],
        Misconversion::NoFit => &[3, 17, 4, 5, 19, 7],
        Misconversion::LabelsBeforeFit => &[3, 17, 4, 5, 19, 18, 7],
        Misconversion::OutputBeforeLabels => &[3, 17, 4, 5, 18, 7, 19],
        Misconversion::OutputBeforePlan => &[7, 3, 17, 4, 5, 18, 19],
        Misconversion::AnyLabels => &[3, 17, 4, 5, 18, 7],
        _ => &[3, 17, 4, 5, 18, 19, 7],
    };
    judged.iter().copied().find(|&refusal| is_refused(refusal, to, bytes, output, &fields))
}

/// Whether the length is that of this form by the sizes, whatever these are.
fn has_length(bytes: &[u8], form: Form) -> bool {
    let [n, p, k, e] = [0, 1, 2, 3].map(|place| usize::from(bytes[place]));
    let labels = if form == Form::New { n } else { 0 };
    bytes.len() == 4 + p + labels + 6 * (k + e)
}

fn is_refused(refusal: Refusal, to: Form, bytes: &[u8], output: usize, fields: &Fields) -> bool {
    let n = fields.points;
    match refusal {
        18 => !CONDITIONS.iter().all(|condition| condition.holds(&ends_in_range(fields))),
        19 => to == Form::Old && fields.point_labels.iter().any(|&label| label != 0),
        7 if fields.form == to => output < bytes.len(),
        7 if to == Form::New => output < bytes.len() + n,
        7 => output < bytes.len() - n,
        _ => JUDGED_BEFORE_18.iter().any(|(number, right)| *number == refusal && !right(fields)),
    }
}

// ----------------------------------------------------------- the rounds

/// A way to let labels on points into the rounds. That the horizon's edges have them
/// would show in no plan: the lines of a point that come past the horizon have its
/// label already.
#[derive(Clone, Copy, Debug, PartialEq, Eq, PartialOrd, Ord)]
pub enum Fed {
    /// A point's starting line has the point's label.
    StartingLines,
    /// The edges that a link adds have the label of its ends.
    LinkEdges,
    /// A line at a point whose label contradicts the point's is no line.
    Lines,
}

pub const FED: [Fed; 3] = [Fed::StartingLines, Fed::LinkEdges, Fed::Lines];

/// What the rounds come to if labels are let in, up to a limit.
pub fn run_fed(fed: Fed, plan: &Plan, limit: u64) -> Answer {
    let plan = &fed_plan(fed, plan);
    let mut table = vec![0; plan.cells()];
    for round in 1..=limit {
        let mut next = table.clone();
        second::each_given(plan, &fed_lines(fed, plan, &table), |_, line| {
            let cell = plan.cell(&line);
            next[cell] = next[cell].max(line.wait as u32);
        });
        let unchanged = next == table;
        table = next;
        if second::alarm_waits(plan, &table) {
            return Answer { verdict: Verdict::Broken, rounds: round, table };
        }
        if unchanged {
            return Answer { verdict: Verdict::Kept, rounds: round, table };
        }
    }
    Answer { verdict: Verdict::Spent, rounds: limit, table }
}

/// The plan with the edges of links under labels.
fn fed_plan(fed: Fed, plan: &Plan) -> Plan {
    if fed != Fed::LinkEdges {
        return plan.clone();
    }
    let mut with_labels = plan.without_link_edges();
    for link in &plan.links {
        let (a, c, label) = (link.activation, link.end, plan.point_labels[link.end]);
        with_labels.edges.push(Edge { from: a, to: c, weight: link.most, label });
        with_labels.edges.push(Edge { from: c, to: a, weight: -link.least, label });
    }
    with_labels
}

/// The lines that a table holds if labels are let in.
fn fed_lines(fed: Fed, plan: &Plan, table: &[u32]) -> Vec<Line> {
    let lines = table.iter().enumerate().map(|(cell, &wait)| plan.line_in(cell, wait));
    lines
        .filter(|line| {
            let label = plan.point_labels[line.point];
            let starting = if fed == Fed::StartingLines { label } else { 0 };
            let counts = fed != Fed::Lines || !plain(line.label) || plain(second::join(line.label, label));
            counts && (line.wait > 0 || (line.set == 0 && line.label == starting))
        })
        .collect()
}
