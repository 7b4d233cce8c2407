//! The second checker: the specification read literally.
//!
//! It was made apart from the library and shares nothing with it. Each part
//! is meant to be held beside the sentence of the document that it quotes;
//! where the two part, the document is right. A sentence of the scope that a
//! change request restates is quoted from the request. Nothing here is made to
//! be fast.

/// "Weights now run from −28,800 to 28,800, and y goes up to 28,800." (1/13)
pub const MOST_SECONDS: i64 = 28_800;

/// "The round limit and count become 64 bits wide, since the limit that serves
/// every plan is now 15,571,369,985." (1/13)
pub const EVERY_PLAN: u64 = 15_571_369_985;

/// The most cells that a plan may have.
pub const MOST_CELLS: usize = 16_384;

/// The most edges that a plan may have.
pub const MOST_EDGES: usize = 128;

/// The most lines that a listing may have.
pub const MOST_LINES: usize = 4_096;

/// The most bytes that the program reads as a plan: "the program's 800 becomes
/// 832" (7/13).
pub const MOST_BYTES: usize = 832;

/// The number of a refusal, 1 to 19.
pub type Refusal = u32;

// ---------------------------------------------------------------- labels

/// "A label has one base-4 digit for each proposition, digit j worth 4^j:
/// 0 absent, 1 yes, 2 no, 3 unknown."
pub fn digit(label: u8, proposition: usize) -> u8 {
    label >> (2 * proposition) & 3
}

/// The label with one digit made 0.
pub fn clear(label: u8, proposition: usize) -> u8 {
    label & !(3 << (2 * proposition))
}

/// "Joining two labels joins digits."
pub fn join(one: u8, other: u8) -> u8 {
    (0..4).fold(0, |joined, j| joined | join_digits(digit(one, j), digit(other, j)) << (2 * j))
}

/// "0 yields to the other, equal digits stay, any other pair gives 3."
fn join_digits(one: u8, other: u8) -> u8 {
    if one == 0 {
        other
    } else if other == 0 || one == other {
        one
    } else {
        3
    }
}

/// "A label is plain if no digit is 3."
pub fn plain(label: u8) -> bool {
    (0..4).all(|j| digit(label, j) != 3)
}

/// Whether a label "contains" another one (7/13): each digit of the other that is
/// not 0 is its own digit.
pub fn contains(label: u8, other: u8) -> bool {
    (0..4).all(|j| digit(other, j) == 0 || digit(other, j) == digit(label, j))
}

/// The observing points that a label "names" (7/13): those of the propositions
/// whose digit is not 0.
pub fn named(observing: &[usize], label: u8) -> Vec<usize> {
    (0..observing.len()).filter(|&j| digit(label, j) != 0).map(|j| observing[j]).collect()
}

// ------------------------------------------------------------- link sets

/// "A link set is a number with bit i for link i."
pub fn has_link(set: u8, link: usize) -> bool {
    set >> link & 1 == 1
}

fn with_link(set: u8, link: usize) -> u8 {
    set | 1 << link
}

fn without_link(set: u8, link: usize) -> u8 {
    set & !(1 << link)
}

// -------------------------------------------------------------- the plan

/// "Links 0 to k−1 run from an activation A to an end C and take a duration of
/// least s and most y that nobody chooses."
#[derive(Clone, Copy, Debug, PartialEq, Eq)]
pub struct Link {
    pub activation: usize,
    pub end: usize,
    pub least: i64,
    pub most: i64,
}

/// "An edge from X to Y with weight u (whole seconds) says Y − X ≤ u under a
/// label."
#[derive(Clone, Copy, Debug, PartialEq, Eq)]
pub struct Edge {
    pub from: usize,
    pub to: usize,
    pub weight: i64,
    pub label: u8,
}

/// An accepted plan.
#[derive(Clone, Debug, PartialEq, Eq)]
pub struct Plan {
    pub points: usize,
    /// The observing point of each proposition.
    pub observing: Vec<usize>,
    /// The label of each point, 0 in the old form. "The check then runs as if
    /// points had none" (7/13): nothing after the reading of a plan looks at them
    /// but the conversion that drops them.
    pub point_labels: Vec<u8>,
    pub links: Vec<Link>,
    pub edges: Vec<Edge>,
    /// That of the plan as it was read, also where edges have been left out.
    pub horizon: i64,
    /// Whether links add edges, as they do by 5/13; off only in plans to tell
    /// these edges' effect by.
    link_edges: bool,
}

/// What an edge of rule 1 comes from.
#[derive(Clone, Copy, Debug, PartialEq, Eq)]
pub enum Origin {
    /// An edge of the plan, by its number.
    Plan(usize),
    /// The horizon, by the point that the edge leads to.
    Horizon(usize),
    /// The most that a link takes, by the link's number.
    UpperBound(usize),
    /// The least that a link takes, by the link's number.
    LowerBound(usize),
}

impl Plan {
    /// The same, but links add no edges, as before 5/13.
    pub fn without_link_edges(&self) -> Plan {
        Plan { link_edges: false, ..self.clone() }
    }

    /// The same with just these of its edges, and with "the whole plan's horizon"
    /// (6/13).
    pub fn with_rows(&self, rows: &[usize]) -> Plan {
        Plan { edges: rows.iter().map(|&row| self.edges[row]).collect(), ..self.clone() }
    }

    /// The link sets of one point: 2^k.
    pub fn sets(&self) -> usize {
        1 << self.links.len()
    }

    /// The labels of one point and set: 4^p.
    pub fn labels(&self) -> usize {
        1 << (2 * self.observing.len())
    }

    /// "n × 2^k × 4^p (the cells)"
    pub fn cells(&self) -> usize {
        self.points * self.sets() * self.labels()
    }

    /// "Cell (X × 2^k + set) × 4^p + label"
    pub fn cell(&self, line: &Line) -> usize {
        (line.point * self.sets() + usize::from(line.set)) * self.labels() + usize::from(line.label)
    }

    /// The line that waits this long in a cell.
    pub fn line_in(&self, cell: usize, wait: u32) -> Line {
        Line {
            point: cell / self.labels() / self.sets(),
            set: (cell / self.labels() % self.sets()) as u8,
            label: (cell % self.labels()) as u8,
            wait: i64::from(wait),
        }
    }

    /// The rows of rule 1 are below this number: e + n + 2k.
    pub fn edge_rows(&self) -> usize {
        let links = if self.link_edges { self.links.len() } else { 0 };
        self.edges.len() + self.points + 2 * links
    }

    /// What a row of rule 1 stands for: "an edge number, or e + X for the
    /// horizon edge to X, X from 1 to n − 1 (row e is out of range)"; "link i's
    /// are rows e + n + 2i and e + n + 2i + 1, in that order" (5/13).
    pub fn origin(&self, row: usize) -> Option<Origin> {
        let e = self.edges.len();
        let n = self.points;
        if row < e {
            Some(Origin::Plan(row))
        } else if row == e || row >= self.edge_rows() {
            None
        } else if row < e + n {
            Some(Origin::Horizon(row - e))
        } else if (row - e - n).is_multiple_of(2) {
            Some(Origin::UpperBound((row - e - n) / 2))
        } else {
            Some(Origin::LowerBound((row - e - n) / 2))
        }
    }

    /// The edge of a row of rule 1. The horizon "adds one edge from Z to every
    /// other point, weight the horizon, label 0". "Every link now adds an edge
    /// from A to C of weight y and one from C to A of weight −s, both with label
    /// 0." (5/13)
    pub fn edge(&self, row: usize) -> Option<Edge> {
        Some(match self.origin(row)? {
            Origin::Plan(number) => self.edges[number],
            Origin::Horizon(point) => Edge { from: 0, to: point, weight: self.horizon, label: 0 },
            Origin::UpperBound(number) => {
                let Link { activation, end, most, .. } = self.links[number];
                Edge { from: activation, to: end, weight: most, label: 0 }
            }
            Origin::LowerBound(number) => {
                let Link { activation, end, least, .. } = self.links[number];
                Edge { from: end, to: activation, weight: -least, label: 0 }
            }
        })
    }
}

/// "A new plan form has n label bytes after the observing points; the old one is
/// still read, told apart by length." (7/13)
#[derive(Clone, Copy, Debug, PartialEq, Eq)]
pub enum Form {
    Old,
    New,
}

pub const BOTH_FORMS: [Form; 2] = [Form::Old, Form::New];

impl Form {
    /// The label bytes of a plan of n points.
    fn label_bytes(self, n: usize) -> usize {
        match self {
            Form::Old => 0,
            Form::New => n,
        }
    }
}

/// What the bytes of a plan say, before any of it is judged but sizes and length.
#[derive(Clone, Debug, PartialEq, Eq)]
pub struct Fields {
    pub form: Form,
    pub points: usize,
    pub observing: Vec<usize>,
    /// 0 for each point in the old form.
    pub point_labels: Vec<u8>,
    pub links: Vec<Link>,
    pub edges: Vec<Edge>,
    /// The last byte of each edge.
    pub last_bytes: Vec<u8>,
}

/// The fields of a plan in one of these forms. "Under 4 bytes, 2, length": 1 is a
/// "length other than 4 + p + 6(k + e)", and "the length in 1 counts the new
/// bytes" (7/13).
pub fn fields(bytes: &[u8], forms: &[Form]) -> Result<Fields, Refusal> {
    if bytes.len() < 4 {
        return Err(1);
    }
    let [n, p, k, e] = [0, 1, 2, 3].map(|place| usize::from(bytes[place]));
    if !sizes_in_bounds(n, p, k, e) {
        return Err(2);
    }
    let length = |form: Form| 4 + p + form.label_bytes(n) + 6 * (k + e);
    let form = *forms.iter().find(|&&form| bytes.len() == length(form)).ok_or(1_u32)?;

    let (observing, rest) = bytes[4..].split_at(p);
    let (labels, rest) = rest.split_at(form.label_bytes(n));
    let (ends, rows) = rest.split_at(2 * (k + e));
    Ok(Fields {
        form,
        points: n,
        observing: observing.iter().map(|&point| usize::from(point)).collect(),
        point_labels: if form == Form::New { labels.to_vec() } else { vec![0; n] },
        links: (0..k).map(|row| link_of(&ends[2 * row..], &rows[4 * row..])).collect(),
        edges: (k..k + e).map(|row| edge_of(&ends[2 * row..], &rows[4 * row..])).collect(),
        last_bytes: (k..k + e).map(|row| rows[4 * row + 3]).collect(),
    })
}

/// Reads a plan of either form.
pub fn read(bytes: &[u8]) -> Result<Plan, Refusal> {
    read_form(bytes, &BOTH_FORMS)
}

/// Reads a plan in one of these forms. "Order: under 4 bytes, 2, length, then 3 to
/// 7", with 17 "right after 3" and 18 "right after 5" (7/13); 6 and 7 are not about
/// the plan.
fn read_form(bytes: &[u8], forms: &[Form]) -> Result<Plan, Refusal> {
    let fields = fields(bytes, forms)?;
    for (refusal, right) in JUDGED_BEFORE_18 {
        if !right(&fields) {
            return Err(refusal);
        }
    }
    let plan = plan_of(fields);
    if !CONDITIONS.iter().all(|condition| condition.holds(&plan)) {
        return Err(18);
    }
    Ok(plan)
}

/// What is judged of a plan's fields before 18, in this order.
pub const JUDGED_BEFORE_18: [(Refusal, fn(&Fields) -> bool); 4] = [
    (3, |fields| observing_points_right(fields.points, &fields.observing)),
    (17, |fields| point_labels_right(fields.observing.len(), &fields.point_labels)),
    (4, |fields| links_right(fields.points, &fields.observing, &fields.links)),
    (5, edges_right),
];

/// The plan of these fields.
pub fn plan_of(fields: Fields) -> Plan {
    let Fields { points, observing, point_labels, links, edges, .. } = fields;
    let horizon = horizon(points, &links, &edges);
    Plan { points, observing, point_labels, links, edges, horizon, link_edges: true }
}

/// "n 2 to 32, p and k 0 to 4, e 0 to 128, n × 2^k × 4^p at most 16,384."
fn sizes_in_bounds(n: usize, p: usize, k: usize, e: usize) -> bool {
    let bounds = (2..=32).contains(&n) && p <= 4 && k <= 4 && e <= MOST_EDGES;
    bounds && n * (1 << k) * (1 << (2 * p)) <= MOST_CELLS
}

/// Refusal 3: "observing point 0, ≥ n, or used twice".
fn observing_points_right(n: usize, observing: &[usize]) -> bool {
    observing.iter().enumerate().all(|(j, &point)| {
        let used_before = observing[..j].contains(&point);
        point != 0 && point < n && !used_before
    })
}

/// Refusal 17: "a point label not plain, with a digit at p or above, or not 0 at
/// Z". (7/13)
fn point_labels_right(p: usize, labels: &[u8]) -> bool {
    labels.iter().all(|&label| plain(label) && (p..4).all(|j| digit(label, j) == 0)) && labels[0] == 0
}

/// Refusal 4: "link: end ≥ n, A = C, C = 0, C observing, C used twice, s or y
/// wrong"; "0 < s < y", and "y goes up to 28,800". Either end may be the one
/// that is ≥ n.
fn links_right(n: usize, observing: &[usize], links: &[Link]) -> bool {
    links.iter().enumerate().all(|(i, link)| {
        let used_before = links[..i].iter().any(|before| before.end == link.end);
        link.activation < n
            && link.end < n
            && link.activation != link.end
            && link.end != 0
            && !observing.contains(&link.end)
            && !used_before
            && 0 < link.least
            && link.least < link.most
            && link.most <= MOST_SECONDS
    })
}

/// Refusal 5: "edge: end ≥ n, equal ends, u out of bounds, label not plain or with
/// a digit at p or above, last byte not 0".
fn edges_right(fields: &Fields) -> bool {
    let (n, p) = (fields.points, fields.observing.len());
    let last_bytes_zero = fields.last_bytes.iter().all(|&byte| byte == 0);
    last_bytes_zero && fields.edges.iter().all(|edge| edge_right(n, p, edge))
}

/// Refusal 5, but for the last byte. "Weights now run from −28,800 to 28,800."
fn edge_right(n: usize, p: usize, edge: &Edge) -> bool {
    edge.from < n
        && edge.to < n
        && edge.from != edge.to
        && (-MOST_SECONDS..=MOST_SECONDS).contains(&edge.weight)
        && plain(edge.label)
        && (p..4).all(|j| digit(edge.label, j) == 0)
}

/// What refusal 18 asks for: "Definition 3 of source document 000 applies, edges
/// being edge rows", and the link condition. (7/13)
#[derive(Clone, Copy, Debug, PartialEq, Eq, PartialOrd, Ord)]
pub enum Condition {
    /// 1: "an edge's label contains both ends' labels".
    EdgeContainsEnds,
    /// 2a: "a point's label contains the label of each observing point it names".
    PointContainsNamed,
    /// 2b: "some edge of negative weight with exactly the point's label runs from
    /// the point to that observing point".
    PointIsAfterNamed,
    /// 3: "an edge's label contains the label of each observing point it names".
    EdgeContainsNamed,
    /// "A and C of a link carry equal labels."
    LinkEndsEqual,
}

pub const CONDITIONS: [Condition; 5] = [
    Condition::EdgeContainsEnds,
    Condition::PointContainsNamed,
    Condition::PointIsAfterNamed,
    Condition::EdgeContainsNamed,
    Condition::LinkEndsEqual,
];

impl Condition {
    pub fn holds(self, plan: &Plan) -> bool {
        let of_point = &plan.point_labels;
        let mut edges = plan.edges.iter();
        match self {
            Condition::EdgeContainsEnds => edges.all(|edge| {
                contains(edge.label, of_point[edge.from]) && contains(edge.label, of_point[edge.to])
            }),
            Condition::PointContainsNamed => of_point.iter().all(|&label| contains_named(plan, label)),
            Condition::PointIsAfterNamed => (0..plan.points).all(|point| {
                named(&plan.observing, of_point[point])
                    .into_iter()
                    .all(|observing| runs_to_observing(plan, point, observing))
            }),
            Condition::EdgeContainsNamed => edges.all(|edge| contains_named(plan, edge.label)),
            Condition::LinkEndsEqual => {
                plan.links.iter().all(|link| of_point[link.activation] == of_point[link.end])
            }
        }
    }
}

/// Whether a label "contains the label of each observing point it names". (7/13)
fn contains_named(plan: &Plan, label: u8) -> bool {
    named(&plan.observing, label).into_iter().all(|point| contains(label, plan.point_labels[point]))
}

/// "Some edge of negative weight with exactly the point's label runs from the point
/// to that observing point." (7/13)
fn runs_to_observing(plan: &Plan, point: usize, observing: usize) -> bool {
    plan.edges.iter().any(|edge| {
        edge.weight < 0
            && edge.label == plan.point_labels[point]
            && edge.from == point
            && edge.to == observing
    })
}

/// "First array: from, to (one byte each). Second array: a link has s and y
/// (16 bits each)", high byte first.
fn link_of(ends: &[u8], row: &[u8]) -> Link {
    Link {
        activation: usize::from(ends[0]),
        end: usize::from(ends[1]),
        least: i64::from(u16::from_be_bytes([row[0], row[1]])),
        most: i64::from(u16::from_be_bytes([row[2], row[3]])),
    }
}

/// "An edge has u (16 bits, two's complement), label (one byte), a zero byte."
fn edge_of(ends: &[u8], row: &[u8]) -> Edge {
    Edge {
        from: usize::from(ends[0]),
        to: usize::from(ends[1]),
        weight: i64::from(i16::from_be_bytes([row[0], row[1]])),
        label: row[2],
    }
}

/// "The horizon is n × M."
pub fn horizon(n: usize, links: &[Link], edges: &[Edge]) -> i64 {
    n as i64 * largest_time(links, edges)
}

/// "M is the largest of all y and all −u with u < 0, or 0 if there are none."
/// "M and the horizon are unaffected" by the edges that links add (5/13).
fn largest_time(links: &[Link], edges: &[Edge]) -> i64 {
    let longest = links.iter().map(|link| link.most);
    let negative = edges.iter().filter(|edge| edge.weight < 0).map(|edge| -edge.weight);
    longest.chain(negative).max().unwrap_or(0)
}

// --------------------------------------------------- lines and six rules

/// "A line says: point X waits w seconds after Z, under a link set and a
/// label."
#[derive(Clone, Copy, Debug, PartialEq, Eq)]
pub struct Line {
    pub point: usize,
    pub set: u8,
    pub label: u8,
    pub wait: i64,
}

/// "Starting lines: wait 0 at every point, Z too, with set 0 and label 0."
pub fn starting_lines(plan: &Plan) -> Vec<Line> {
    (0..plan.points).map(|point| Line { point, set: 0, label: 0, wait: 0 }).collect()
}

/// "1. Y waits w, label b plain; edge X to Y of weight u, label a; join of a
/// and b plain; w − u > 0: X waits w − u, same set, joined label." The edge is
/// one of the plan, of the horizon or of a link.
fn rule_1(edge: &Edge, y: &Line) -> Option<Line> {
    let joined = join(edge.label, y.label);
    let wait = y.wait - edge.weight;
    let applies = y.point == edge.to && plain(y.label) && plain(joined) && wait > 0;
    applies.then_some(Line { point: edge.from, set: y.set, label: joined, wait })
}

/// "2. C waits w, its link not in the set, label plain, w − s > 0: A waits
/// w − s, same set and label."
fn rule_2(number: usize, link: &Link, c: &Line) -> Option<Line> {
    let wait = c.wait - link.least;
    let applies = c.point == link.end && !has_link(c.set, number) && plain(c.label) && wait > 0;
    applies.then_some(Line { point: link.activation, set: c.set, label: c.label, wait })
}

/// "3. A waits w, label plain: C waits w + y, set with the link added, same
/// label." The set may already have the link.
fn rule_3(number: usize, link: &Link, a: &Line) -> Option<Line> {
    let applies = a.point == link.activation && plain(a.label);
    applies.then_some(Line {
        point: link.end,
        set: with_link(a.set, number),
        label: a.label,
        wait: a.wait + link.most,
    })
}

/// "4. Y waits w, the link in its set; A waits a, the link not in A's set: Y
/// waits min(w, a + s), union of the sets without the link, joined label."
fn rule_4(number: usize, link: &Link, y: &Line, a: &Line) -> Option<Line> {
    let applies = has_link(y.set, number) && a.point == link.activation && !has_link(a.set, number);
    applies.then(|| Line {
        point: y.point,
        set: without_link(y.set | a.set, number),
        label: join(y.label, a.label),
        wait: y.wait.min(a.wait + link.least),
    })
}

/// "5. The observing point of a proposition waits w > 0 with its digit not 0:
/// the same with that digit 0."
fn rule_5(proposition: usize, observing: usize, seen: &Line) -> Option<Line> {
    let applies = seen.point == observing && seen.wait > 0 && digit(seen.label, proposition) != 0;
    applies.then_some(Line { label: clear(seen.label, proposition), ..*seen })
}

/// "6. Y waits w with the digit of proposition j not 0; j's observing point
/// waits q > 0 with that digit 0: Y waits min(w, q), union of the sets, join
/// of both labels after clearing Y's digit j."
fn rule_6(proposition: usize, observing: usize, y: &Line, seen: &Line) -> Option<Line> {
    let applies = digit(y.label, proposition) != 0
        && seen.point == observing
        && seen.wait > 0
        && digit(seen.label, proposition) == 0;
    applies.then(|| Line {
        point: y.point,
        set: y.set | seen.set,
        label: join(clear(y.label, proposition), seen.label),
        wait: y.wait.min(seen.wait),
    })
}

/// What a line rests on: a rule, its row, and its parents as places in a list
/// of lines. The second parent is 0 where the rule uses none.
#[derive(Clone, Copy, Debug, PartialEq, Eq)]
pub struct Ground {
    pub rule: u8,
    pub row: usize,
    pub first: usize,
    pub second: usize,
}

/// "Second, only for 4 and 6."
pub fn uses_second_parent(rule: u8) -> bool {
    rule == 4 || rule == 6
}

/// "Row is for rule 1 an edge number, or e + X for the horizon edge to X", or
/// one of a link's two (5/13); "for 2 to 4 a link; for 5 and 6 a proposition."
pub fn row_in_range(plan: &Plan, rule: u8, row: usize) -> bool {
    match rule {
        1 => plan.edge(row).is_some(),
        2..=4 => row < plan.links.len(),
        5 | 6 => row < plan.observing.len(),
        _ => false,
    }
}

/// What a ground's rule gives from its parents among these lines. Its rule,
/// row and parents must be in range.
pub fn given(plan: &Plan, lines: &[Line], ground: Ground) -> Option<Line> {
    let Ground { rule, row, first, second } = ground;
    match rule {
        1 => rule_1(&plan.edge(row)?, &lines[first]),
        2 => rule_2(row, &plan.links[row], &lines[first]),
        3 => rule_3(row, &plan.links[row], &lines[first]),
        4 => rule_4(row, &plan.links[row], &lines[first], &lines[second]),
        5 => rule_5(row, plan.observing[row], &lines[first]),
        6 => rule_6(row, plan.observing[row], &lines[first], &lines[second]),
        _ => None,
    }
}

/// Hands over everything that the rules give from these lines alone, each
/// line with its ground. Parents that a rule would turn away for their point,
/// set or digit are mostly left out beforehand, only to save time.
pub fn each_given(plan: &Plan, lines: &[Line], mut take: impl FnMut(Ground, Line)) {
    let at = |point: usize| -> Vec<usize> {
        (0..lines.len()).filter(|&place| lines[place].point == point).collect()
    };
    let mut attempt = |rule: u8, row: usize, first: usize, second: usize| {
        let ground = Ground { rule, row, first, second };
        if let Some(line) = given(plan, lines, ground) {
            take(ground, line);
        }
    };

    for row in 0..plan.edge_rows() {
        if let Some(edge) = plan.edge(row) {
            at(edge.to).into_iter().for_each(|y| attempt(1, row, y, 0));
        }
    }
    for (row, link) in plan.links.iter().enumerate() {
        let activations = at(link.activation);
        at(link.end).into_iter().for_each(|c| attempt(2, row, c, 0));
        activations.iter().for_each(|&a| attempt(3, row, a, 0));
        for y in (0..lines.len()).filter(|&y| has_link(lines[y].set, row)) {
            activations.iter().for_each(|&a| attempt(4, row, y, a));
        }
    }
    for (row, &observing) in plan.observing.iter().enumerate() {
        let observed = at(observing);
        observed.iter().for_each(|&seen| attempt(5, row, seen, 0));
        for y in (0..lines.len()).filter(|&y| digit(lines[y].label, row) != 0) {
            observed.iter().for_each(|&seen| attempt(6, row, y, seen));
        }
    }
}

// ------------------------------------------------------------ the rounds

/// The lines that a table holds: the longest wait of every cell above 0, and
/// the starting line in a starting cell that is still 0. "A 0 in any other
/// cell means no line, and no rule takes it as a parent."
pub fn lines_held(plan: &Plan, table: &[u32]) -> Vec<Line> {
    let lines = table.iter().enumerate().map(|(cell, &wait)| plan.line_in(cell, wait));
    lines.filter(|line| line.wait > 0 || (line.set == 0 && line.label == 0)).collect()
}

/// "Table(r+1) is, cell by cell, the largest of table(r) and all that the
/// rules give from table(r) alone."
pub fn next_table(plan: &Plan, table: &[u32]) -> Vec<u32> {
    let mut next = table.to_vec();
    each_given(plan, &lines_held(plan, table), |_, line| {
        let cell = plan.cell(&line);
        next[cell] = next[cell].max(line.wait as u32);
    });
    next
}

/// Whether "Z has a cell above 0".
pub fn alarm_waits(plan: &Plan, table: &[u32]) -> bool {
    table[..plan.sets() * plan.labels()].iter().any(|&wait| wait > 0)
}

// ------------------------------------------------------------- the check

#[derive(Clone, Copy, Debug, PartialEq, Eq)]
pub enum Verdict {
    Kept,
    Broken,
    Spent,
}

/// What the check answers, and the table that it leaves.
#[derive(Clone, Debug, PartialEq, Eq)]
pub struct Answer {
    pub verdict: Verdict,
    pub rounds: u64,
    pub table: Vec<u32>,
}

/// "R is the least r ≥ 1 where Z has a cell above 0 or table(r) = table(r−1).
/// If R is at most the limit it answers kept or broken with R; otherwise
/// spent, with the limit as count." "The round limit and count become 64 bits
/// wide" (1/13). `watch` sees table(r−1) and table(r) of every round.
pub fn run(plan: &Plan, limit: u64, mut watch: impl FnMut(&[u32], &[u32])) -> Answer {
    let mut table = vec![0; plan.cells()];
    for round in 1..=limit {
        let next = next_table(plan, &table);
        watch(&table, &next);
        let unchanged = next == table;
        table = next;
        if alarm_waits(plan, &table) {
            return Answer { verdict: Verdict::Broken, rounds: round, table };
        }
        if unchanged {
            return Answer { verdict: Verdict::Kept, rounds: round, table };
        }
    }
    Answer { verdict: Verdict::Spent, rounds: limit, table }
}

/// The check: "both tables then hold that round's table in their first cells,
/// later entries untouched"; refusal 6 is "a lent table shorter than the
/// cells".
pub fn check(bytes: &[u8], first: &mut [u32], second: &mut [u32], limit: u64) -> Result<Answer, Refusal> {
    let plan = read(bytes)?;
    if first.len() < plan.cells() || second.len() < plan.cells() {
        return Err(6);
    }
    let answer = run(&plan, limit, |_, _| ());
    first[..plan.cells()].copy_from_slice(&answer.table);
    second[..plan.cells()].copy_from_slice(&answer.table);
    Ok(answer)
}

// ------------------------------------------------------- device classes

/// A device class, with its "least and most seconds". (4/13)
#[derive(Clone, Copy, Debug, PartialEq, Eq)]
pub struct DeviceClass {
    pub least: i64,
    pub most: i64,
}

/// "The house table of least and most seconds is: 1 lift homing 10 and 90, 2
/// smoke damper 5 and 60, 3 door closer 2 and 25, 4 shutter 15 and 120, 5 staff
/// search 60 and 300, 6 extract fan 8 and 45." (4/13) Class c is entry c − 1,
/// since "class 0 means none".
pub const HOUSE_TABLE: [DeviceClass; 6] = [
    DeviceClass { least: 10, most: 90 },
    DeviceClass { least: 5, most: 60 },
    DeviceClass { least: 2, most: 25 },
    DeviceClass { least: 15, most: 120 },
    DeviceClass { least: 60, most: 300 },
    DeviceClass { least: 8, most: 45 },
];

/// The check with "a list of k class bytes beside the plan". "A plan that passes
/// is checked as before, to the cell. It refuses, after 1 to 5, with 14 a list
/// whose length is not k or that has a class above 6, and then with 15 a link
/// narrower than its class, both before 6 and with the tables untouched." (4/13)
pub fn check_classes(
    bytes: &[u8],
    classes: &[u8],
    first: &mut [u32],
    second: &mut [u32],
    limit: u64,
) -> Result<Answer, Refusal> {
    let plan = read(bytes)?;
    if !classes_right(&plan, classes, &HOUSE_TABLE) {
        return Err(14);
    }
    let mut links = plan.links.iter().zip(classes);
    if links.any(|(link, &class)| narrower_than_class(link, class, &HOUSE_TABLE)) {
        return Err(15);
    }
    check(bytes, first, second, limit)
}

/// Refusal 14: "a list whose length is not k or that has a class above 6", the
/// last class of the house table.
fn classes_right(plan: &Plan, classes: &[u8], table: &[DeviceClass]) -> bool {
    classes.len() == plan.links.len() && classes.iter().all(|&class| usize::from(class) <= table.len())
}

/// Refusal 15. "A link with a class must have s no larger than the class's least
/// and y no smaller than its most." (4/13)
fn narrower_than_class(link: &Link, class: u8, table: &[DeviceClass]) -> bool {
    if class == 0 {
        return false;
    }
    let DeviceClass { least, most } = table[usize::from(class) - 1];
    link.least > least || link.most < most
}

// ---------------------------------------------------------- the few rows

/// "Demand 3's number of rounds" (6/13): cells × (horizon + M + 1) + 1.
pub fn rounds_for(plan: &Plan) -> u64 {
    let highest = plan.horizon + largest_time(&plan.links, &plan.edges);
    plan.cells() as u64 * (highest as u64 + 1) + 1
}

/// "Every trial uses the whole plan's horizon and has demand 3's number of rounds
/// for the whole plan." (6/13) What is tried is the plan with just these of its
/// edge rows, from a table of zeros. "18 judges the whole plan, not what a trial
/// leaves of it." (7/13)
pub fn trial(plan: &Plan, rows: &[usize]) -> Answer {
    let answer = run(&plan.with_rows(rows), rounds_for(plan), |_, _| ());
    assert_ne!(
        answer.verdict,
        Verdict::Spent,
        "the rounds serve the whole plan, and rows {rows:?} of {plan:?}"
    );
    answer
}

/// "Try the edge rows in order, each left out if the rest is still broken."
/// (6/13) The rest is what remains so far, without the row.
pub fn rows_that_remain(in_order: &[usize], mut broken: impl FnMut(&[usize]) -> bool) -> Vec<usize> {
    let mut remaining = in_order.to_vec();
    for &row in in_order {
        let rest: Vec<usize> = remaining.iter().copied().filter(|&other| other != row).collect();
        if broken(&rest) {
            remaining = rest;
        }
    }
    remaining
}

/// The rows that break a plan, and how many: "mark each row 1 if it remains, else
/// 0, later marks as they were. It refuses, after 1 to 6, with 16 a plan that is
/// kept, and it leaves the marks untouched. A mark list shorter than the edges
/// falls under 6. The tables end as a trial of the remaining rows leaves them,
/// under 16 as one of the plan does." (6/13)
pub fn breaking_rows(
    bytes: &[u8],
    first: &mut [u32],
    second: &mut [u32],
    marks: &mut [u8],
) -> Result<usize, Refusal> {
    let plan = read(bytes)?;
    let cells = plan.cells();
    if first.len() < cells || second.len() < cells || marks.len() < plan.edges.len() {
        return Err(6);
    }
    let all: Vec<usize> = (0..plan.edges.len()).collect();
    let broken = |rows: &[usize]| trial(&plan, rows).verdict == Verdict::Broken;
    let remaining = broken(&all).then(|| rows_that_remain(&all, broken));

    let left = trial(&plan, remaining.as_ref().unwrap_or(&all));
    first[..cells].copy_from_slice(&left.table);
    second[..cells].copy_from_slice(&left.table);
    let remaining = remaining.ok_or(16_u32)?;
    for row in all {
        marks[row] = u8::from(remaining.contains(&row));
    }
    Ok(remaining.len())
}

// ----------------------------------------------------------- the listing

/// The answer of a listing, with the lines of a broken plan's listing; their
/// rules and grounds are free.
#[derive(Clone, Debug, PartialEq, Eq)]
pub struct Listed {
    pub answer: Answer,
    pub lines: Vec<Line>,
}

/// "The listing of a broken plan has a line for every cell raised in rounds 1
/// to R−1, by round, then cell, and last the lowest Z cell raised in round R."
pub fn run_and_list(plan: &Plan, limit: u64) -> Listed {
    let mut lines = Vec::new();
    let answer = run(plan, limit, |table, next| {
        let raised = (0..plan.cells()).filter(|&cell| next[cell] > table[cell]);
        let last_round = alarm_waits(plan, next);
        // Z's cells come before all others.
        let listed = raised.take(if last_round { 1 } else { plan.cells() });
        lines.extend(listed.map(|cell| plan.line_in(cell, next[cell])));
    });
    if answer.verdict != Verdict::Broken {
        lines.clear();
    }
    Listed { answer, lines }
}

/// "m (16 bits); m heads of point, set, label, rule (one byte each), wait (32
/// bits); then m grounds of row, first parent, second parent (16 bits each)":
/// 2 + 14m bytes.
pub fn listing_bytes(lines: usize) -> usize {
    2 + 14 * lines
}

/// "The 16-bit table then holds n + i for the last listed line i of the cell;
/// with none, X in X's starting cell and 0 elsewhere."
fn index_table(plan: &Plan, lines: &[Line]) -> Vec<u16> {
    let mut index = vec![0; plan.cells()];
    for (number, line) in starting_lines(plan).iter().chain(lines).enumerate() {
        index[plan.cell(line)] = number as u16;
    }
    index
}

/// The listing, up to the bytes of the output, of which only the length is
/// taken. Refusal 7, "listing over 4,096 lines or longer than the output",
/// leaves "two tables as after the check, the rest untouched".
pub fn list(
    bytes: &[u8],
    first: &mut [u32],
    second: &mut [u32],
    limit: u64,
    index: &mut [u16],
    output: usize,
) -> Result<Listed, Refusal> {
    let plan = read(bytes)?;
    let cells = plan.cells();
    if first.len() < cells || second.len() < cells || index.len() < cells {
        return Err(6);
    }
    let listed = run_and_list(&plan, limit);
    first[..cells].copy_from_slice(&listed.answer.table);
    second[..cells].copy_from_slice(&listed.answer.table);
    if listed.answer.verdict == Verdict::Broken {
        if listed.lines.len() > MOST_LINES || listing_bytes(listed.lines.len()) > output {
            return Err(7);
        }
        index[..cells].copy_from_slice(&index_table(&plan, &listed.lines));
    }
    Ok(listed)
}

// ---------------------------------------------------------------- replay

/// One line of a listing as its bytes say: head and ground.
#[derive(Clone, Copy, Debug, PartialEq, Eq)]
pub struct Entry {
    pub point: u8,
    pub set: u8,
    pub label: u8,
    pub rule: u8,
    pub wait: u32,
    pub row: u16,
    pub first: u16,
    pub second: u16,
}

impl Entry {
    fn line(&self) -> Line {
        Line { point: usize::from(self.point), set: self.set, label: self.label, wait: i64::from(self.wait) }
    }

    fn ground(&self) -> Ground {
        Ground {
            rule: self.rule,
            row: usize::from(self.row),
            first: usize::from(self.first),
            second: usize::from(self.second),
        }
    }
}

/// The entries of a listing. Refusal 8: "under 2 bytes, m not 1..4,096, or
/// length not 2 + 14m".
pub fn read_listing(listing: &[u8]) -> Result<Vec<Entry>, Refusal> {
    if listing.len() < 2 {
        return Err(8);
    }
    let m = usize::from(u16::from_be_bytes([listing[0], listing[1]]));
    if !(1..=MOST_LINES).contains(&m) || listing.len() != listing_bytes(m) {
        return Err(8);
    }
    let heads = listing[2..2 + 8 * m].chunks_exact(8);
    let grounds = listing[2 + 8 * m..].chunks_exact(6);
    Ok(heads.zip(grounds).map(|(head, ground)| entry_of(head, ground)).collect())
}

fn entry_of(head: &[u8], ground: &[u8]) -> Entry {
    Entry {
        point: head[0],
        set: head[1],
        label: head[2],
        rule: head[3],
        wait: u32::from_be_bytes([head[4], head[5], head[6], head[7]]),
        row: u16::from_be_bytes([ground[0], ground[1]]),
        first: u16::from_be_bytes([ground[2], ground[3]]),
        second: u16::from_be_bytes([ground[4], ground[5]]),
    }
}

/// Replay: 0 or the refusal. "1 to 5, 8, then 9 and 10 line by line, then 11";
/// 17 and 18 stand among 1 to 5 here too (7/13).
pub fn replay(plan: &[u8], listing: &[u8]) -> Refusal {
    match read(plan).and_then(|plan| replay_on(&plan, listing)) {
        Ok(()) => 0,
        Err(refusal) => refusal,
    }
}

fn replay_on(plan: &Plan, listing: &[u8]) -> Result<(), Refusal> {
    let entries = read_listing(listing)?;
    // "Parents below n are starting lines; n + i is line i, counted from 0."
    let mut lines = starting_lines(plan);
    for entry in &entries {
        if !entry_in_range(plan, entry, lines.len()) {
            return Err(9);
        }
        if !entry_is_given(plan, entry, &lines) {
            return Err(10);
        }
        lines.push(entry.line());
    }
    // "11: last line's point not 0, or its label not plain."
    let last = &entries[entries.len() - 1];
    if last.point != 0 || !plain(last.label) {
        return Err(11);
    }
    Ok(())
}

/// Refusal 9: "line i: point, set, label, rule or row out of range, or a
/// parent that the rule uses not below n + i"; `lines` is n + i.
fn entry_in_range(plan: &Plan, entry: &Entry, lines: usize) -> bool {
    let Ground { rule, row, first, second } = entry.ground();
    usize::from(entry.point) < plan.points
        && usize::from(entry.set) < plan.sets()
        && usize::from(entry.label) < plan.labels()
        && (1..=6).contains(&rule)
        && row_in_range(plan, rule, row)
        && first < lines
        && (!uses_second_parent(rule) || second < lines)
}

/// Refusal 10: "line is not what its rule gives". Second parent: "only for 4
/// and 6; else 0, anything else being refusal 10 and not 9".
fn entry_is_given(plan: &Plan, entry: &Entry, lines: &[Line]) -> bool {
    let ground = entry.ground();
    let second_as_due = uses_second_parent(ground.rule) || ground.second == 0;
    second_as_due && given(plan, lines, ground) == Some(entry.line())
}

// -------------------------------------------------------------- the page

/// "With 12 a cell above 999,999." (2/13)
const MOST_ON_A_PAGE: u32 = 999_999;

/// "Lines of exactly 21 characters and a newline." (2/13)
pub fn page_bytes(lines: usize) -> usize {
    (21 + 1) * lines
}

/// The page of a plan and a table, any table. "The length is returned, and the
/// output past it is untouched. It refuses, after 1 to 6, with 12 a cell above
/// 999,999, and then with 13 an output too short for all lines, the output
/// untouched both times." (2/13) Entries past the plan's cells are no cells.
pub fn page(bytes: &[u8], table: &[u32], output: &mut [u8]) -> Result<usize, Refusal> {
    let plan = read(bytes)?;
    if table.len() < plan.cells() {
        return Err(6);
    }
    let cells = &table[..plan.cells()];
    if cells.iter().any(|&wait| wait > MOST_ON_A_PAGE) {
        return Err(12);
    }
    let text = page_text(&plan, cells);
    if output.len() < text.len() {
        return Err(13);
    }
    output[..text.len()].copy_from_slice(&text);
    Ok(text.len())
}

/// "Print a lent table as lines of exactly 21 characters and a newline, one for
/// each cell above 0, in cell order." (2/13)
fn page_text(plan: &Plan, cells: &[u32]) -> Vec<u8> {
    let mut text = Vec::new();
    for (cell, &wait) in cells.iter().enumerate() {
        if wait > 0 {
            text.extend(row_of(&plan.line_in(cell, wait)).0);
            text.push(b'\n');
        }
    }
    text
}

/// The 21 characters of a line on a page.
struct Row([u8; 21]);

impl Row {
    /// Columns count from 1, as in the request.
    fn put(&mut self, column: usize, character: char) {
        self.0[column - 1] = character as u8;
    }

    /// The number in decimal, its last digit in this column.
    fn put_number(&mut self, last_column: usize, number: i64) {
        for (place, digit) in number.to_string().chars().rev().enumerate() {
            self.put(last_column - place, digit);
        }
    }
}

/// "Columns 1 to 2 hold the point, right-aligned. Columns 4 to 7 hold i where
/// link i is in the set, else a full stop. Columns 9 to 12 hold `+`, `-` or `?`
/// where proposition 0 to 3 is yes, no or unknown, else a full stop. Column 14
/// holds the number of links in the set. Columns 16 to 21 hold the wait,
/// right-aligned. The others are blank." (2/13) A link or proposition that the
/// plan does not have is in no set and no label.
fn row_of(line: &Line) -> Row {
    let mut row = Row([b' '; 21]);
    row.put_number(2, line.point as i64);
    for (i, character) in ['0', '1', '2', '3'].into_iter().enumerate() {
        row.put(4 + i, if has_link(line.set, i) { character } else { '.' });
    }
    for j in 0..4 {
        let character = match digit(line.label, j) {
            1 => '+',
            2 => '-',
            3 => '?',
            _ => '.',
        };
        row.put(9 + j, character);
    }
    row.put_number(14, (0..4).filter(|&i| has_link(line.set, i)).count() as i64);
    row.put_number(21, line.wait);
    row
}

// ----------------------------------------------------- the two conversions

/// "Conversion old to new writes zeros; the output past them is untouched." It
/// "takes only the form it starts from". It refuses, "last, with 7 too short an
/// output", which "leaves everything lent untouched". (7/13) The length is
/// returned.
pub fn with_labels(bytes: &[u8], output: &mut [u8]) -> Result<usize, Refusal> {
    let plan = read_form(bytes, &[Form::Old])?;
    let (before, after) = bytes.split_at(4 + plan.observing.len());
    put_plan(&[before, &vec![0; plan.points], after].concat(), output)
}

/// "New to old drops them." It refuses, after the plan's own refusals, "in
/// conversion to old, with 19 a label that is not 0", and then with 7 as above.
/// (7/13)
pub fn without_labels(bytes: &[u8], output: &mut [u8]) -> Result<usize, Refusal> {
    let plan = read_form(bytes, &[Form::New])?;
    if plan.point_labels.iter().any(|&label| label != 0) {
        return Err(19);
    }
    let (before, rest) = bytes.split_at(4 + plan.observing.len());
    put_plan(&[before, &rest[plan.points..]].concat(), output)
}

/// Refusal 7, "too short an output", or the plan in it and its length.
fn put_plan(plan: &[u8], output: &mut [u8]) -> Result<usize, Refusal> {
    if output.len() < plan.len() {
        return Err(7);
    }
    output[..plan.len()].copy_from_slice(plan);
    Ok(plan.len())
}

// ----------------------------------------------------------- the program

/// What the program prints for this input. "Over 800 bytes is refusal 1, before
/// any other", and "the program's 800 becomes 832" (7/13).
pub fn program(input: &[u8]) -> String {
    if input.len() > MOST_BYTES {
        return refusal_text(1);
    }
    match read(input) {
        Ok(plan) => answer_text(&plan, &run(&plan, EVERY_PLAN, |_, _| ())),
        Err(refusal) => refusal_text(refusal),
    }
}

pub fn refusal_text(refusal: Refusal) -> String {
    format!("refused {refusal}\n")
}

/// "`kept R`, `broken R`, then for each point a line with its number and its
/// cells in order, in decimal, one space between."
pub fn answer_text(plan: &Plan, answer: &Answer) -> String {
    let verdict = match answer.verdict {
        Verdict::Kept => "kept",
        Verdict::Broken => "broken",
        Verdict::Spent => unreachable!("the program's limit serves every plan"),
    };
    let mut text = format!("{verdict} {}\n", answer.rounds);
    for (point, cells) in answer.table.chunks(plan.sets() * plan.labels()).enumerate() {
        text += &point.to_string();
        for wait in cells {
            text += &format!(" {wait}");
        }
        text += "\n";
    }
    text
}
