// A port of the Rattle code that `rounds::check` ran at commit 8850928, line by line, to safe Rust with its ordinary bounds checks:
// the same functions with the same names, the same loops in the same order, a module for each crate and each file. Today's
// functions are others. It is for the benchmark alone, which compares compiled Rattle with Rust; nothing here is proved.
// The contracts are left out, and so are the functions that the check does not reach. Two things are added because Rust asks for
// them: the rows of rules and the places without a row's bits are `Copy`, and a parameter that only a contract names has an
// underscore.

use self::rounds::Answer;

// The check's answer as a code, and its rounds: 0 kept, 1 broken, 2 spent, 100 + N refused with number N and no rounds.
pub fn check(plan: &[u8], first: &mut [u32], second: &mut [u32], limit: u64) -> (u32, u64) {
    match rounds::check(plan, first, second, limit) {
        Answer::Kept(made) => (0, made),
        Answer::Broken(made) => (1, made),
        Answer::Spent(made) => (2, made),
        Answer::Refused(number) => (100 + number, 0),
    }
}

// A plan read from its bytes, and its labels.
mod plan {
    pub use self::bounds::horizon;
    pub use self::fields::cells;
    pub use self::fields::edge_data_at;
    pub use self::fields::edge_down;
    pub use self::fields::edge_down_at;
    pub use self::fields::edge_from;
    pub use self::fields::edge_from_at;
    pub use self::fields::edge_label;
    pub use self::fields::edge_label_at;
    pub use self::fields::edge_spare_at;
    pub use self::fields::edge_to;
    pub use self::fields::edge_to_at;
    pub use self::fields::edge_up_at;
    pub use self::fields::edges;
    pub use self::fields::edges_at;
    pub use self::fields::label_bytes;
    pub use self::fields::labels;
    pub use self::fields::length_for;
    pub use self::fields::link_activation;
    pub use self::fields::link_finish;
    pub use self::fields::link_least;
    pub use self::fields::link_most;
    pub use self::fields::links;
    pub use self::fields::observer;
    pub use self::fields::point_label;
    pub use self::fields::points;
    pub use self::fields::propositions;
    pub use self::fields::width;
    pub use self::label::digit;
    pub use self::label::is_plain;
    pub use self::marks::plain_marks;
    pub use self::numbers::cell_at;
    pub use self::numbers::lesser;
    pub use self::numbers::widen_cell;
    pub use self::numbers::widen_word;

    // No duration and no weight, either way, is longer, in seconds.
    pub const MOST_SECONDS: u64 = 28800;

    // M and the horizon.
    mod bounds {
        use super::fields::edge_data_at;
        use super::fields::edge_down_at;
        use super::fields::edges;
        use super::fields::link_most;
        use super::fields::links;
        use super::fields::points;
        use super::numbers::greater;

        fn greatest_most(plan: &[u8]) -> u64 {
            let mut most = 0;
            let n = links(plan);
            for i in 0..n {
                most = greater(most, link_most(plan, i));
            }
            most
        }

        fn greatest_down(plan: &[u8]) -> u64 {
            let mut most = 0;
            let n = edges(plan);
            let bytes = edge_data_at(plan);
            for i in 0..n {
                most = greater(most, edge_down_at(plan, bytes, i));
            }
            most
        }

        // M: the largest of all y and all -u with u < 0, or 0.
        pub fn largest(plan: &[u8]) -> u64 {
            greater(greatest_most(plan), greatest_down(plan))
        }

        pub fn horizon(plan: &[u8]) -> u64 {
            points(plan) as u64 * largest(plan)
        }
    }

    // Bytes and 16-bit words of a slice of any length: past the end they are 0, and nothing is read there.
    mod bytes {
        use super::numbers::widen_byte;

        pub fn byte_at(bytes: &[u8], at: usize) -> usize {
            if at < bytes.len() {
                return widen_byte(bytes[at]);
            }
            0
        }

        pub fn word_at(bytes: &[u8], at: usize) -> u64 {
            let high = byte_at(bytes, at);
            let low = byte_at(bytes, at + 1);
            (high * 256 + low) as u64
        }
    }

    // The fields of a plan, each read from its bytes when it is asked for. A row that the bytes do not reach reads as 0.
    mod fields {
        use super::bytes::byte_at;
        use super::bytes::word_at;

        pub fn points(plan: &[u8]) -> usize {
            byte_at(plan, 0)
        }

        pub fn propositions(plan: &[u8]) -> usize {
            byte_at(plan, 1)
        }

        pub fn links(plan: &[u8]) -> usize {
            byte_at(plan, 2)
        }

        pub fn edges(plan: &[u8]) -> usize {
            byte_at(plan, 3)
        }

        // The number of labels, 4^p.
        pub fn labels(plan: &[u8]) -> usize {
            1 << (2 * propositions(plan))
        }

        // The cells of one point.
        pub fn width(plan: &[u8]) -> usize {
            1 << (links(plan) + 2 * propositions(plan))
        }

        pub fn cells(plan: &[u8]) -> usize {
            points(plan) * width(plan)
        }

        pub fn observer(plan: &[u8], j: usize) -> usize {
            byte_at(plan, 4 + j)
        }

        // The length that the sizes ask for without labels of points.
        pub fn length_for(plan: &[u8]) -> usize {
            4 + byte_at(plan, 1) + 6 * (byte_at(plan, 2) + byte_at(plan, 3))
        }

        // How many bytes the labels of points take.
        pub fn label_bytes(plan: &[u8]) -> usize {
            if plan.len() < 4 {
                return 0;
            }
            let n = byte_at(plan, 0);
            if plan.len() == length_for(plan) + n {
                return n;
            }
            0
        }

        // Where the labels of points stand.
        pub fn labels_at(plan: &[u8]) -> usize {
            4 + byte_at(plan, 1)
        }

        // The label of a point, 0 where the plan has none.
        pub fn point_label(plan: &[u8], x: usize) -> usize {
            if x < label_bytes(plan) {
                return byte_at(plan, labels_at(plan) + x);
            }
            0
        }

        // Where the two ends of a row stand.
        pub fn ends_at(plan: &[u8], row: usize) -> usize {
            labels_at(plan) + label_bytes(plan) + 2 * row
        }

        // Where the four bytes of a row stand.
        pub fn data_at(plan: &[u8], row: usize) -> usize {
            ends_at(plan, byte_at(plan, 2) + byte_at(plan, 3)) + 4 * row
        }

        // The row of an edge: the links come first.
        pub fn edge_row(plan: &[u8], i: usize) -> usize {
            byte_at(plan, 2) + i
        }

        pub fn link_activation(plan: &[u8], i: usize) -> usize {
            byte_at(plan, ends_at(plan, i))
        }

        pub fn link_finish(plan: &[u8], i: usize) -> usize {
            byte_at(plan, ends_at(plan, i) + 1)
        }

        pub fn link_least(plan: &[u8], i: usize) -> u64 {
            word_at(plan, data_at(plan, i))
        }

        pub fn link_most(plan: &[u8], i: usize) -> u64 {
            word_at(plan, data_at(plan, i) + 2)
        }

        // Where the ends of edge 0 stand.
        pub fn edges_at(plan: &[u8]) -> usize {
            ends_at(plan, edge_row(plan, 0))
        }

        // Where the four bytes of edge 0 stand.
        pub fn edge_data_at(plan: &[u8]) -> usize {
            data_at(plan, edge_row(plan, 0))
        }

        // The fields of an edge for loops over edges, which find once where edge 0 stands.
        pub fn edge_from_at(plan: &[u8], ends: usize, i: usize) -> usize {
            byte_at(plan, ends + 2 * i)
        }

        pub fn edge_to_at(plan: &[u8], ends: usize, i: usize) -> usize {
            byte_at(plan, ends + 2 * i + 1)
        }

        // The weight where it is not negative, else 0.
        pub fn edge_up_at(plan: &[u8], bytes: usize, i: usize) -> u64 {
            let weight = word_at(plan, bytes + 4 * i);
            if weight < 32768 {
                return weight;
            }
            0
        }

        // The weight's negative where it is negative, else 0.
        pub fn edge_down_at(plan: &[u8], bytes: usize, i: usize) -> u64 {
            let weight = word_at(plan, bytes + 4 * i);
            if weight < 32768 {
                return 0;
            }
            65536 - weight
        }

        pub fn edge_label_at(plan: &[u8], bytes: usize, i: usize) -> usize {
            byte_at(plan, bytes + 4 * i + 2)
        }

        // The spare byte of an edge.
        pub fn edge_spare_at(plan: &[u8], bytes: usize, i: usize) -> usize {
            byte_at(plan, bytes + 4 * i + 3)
        }

        // The fields of an edge that is asked for alone.
        pub fn edge_from(plan: &[u8], i: usize) -> usize {
            edge_from_at(plan, edges_at(plan), i)
        }

        pub fn edge_to(plan: &[u8], i: usize) -> usize {
            edge_to_at(plan, edges_at(plan), i)
        }

        pub fn edge_down(plan: &[u8], i: usize) -> u64 {
            edge_down_at(plan, edge_data_at(plan), i)
        }

        pub fn edge_label(plan: &[u8], i: usize) -> usize {
            edge_label_at(plan, edge_data_at(plan), i)
        }
    }

    // Labels in code: a label of at most four digits is a number below 256, and joining two is `|`.
    mod label {
        // Whether a label byte is plain, by the table of marks, lent so that loops do not rebuild it.
        pub fn is_plain(marks: &[u8; 256], label: usize) -> bool {
            marks[label] == 1
        }

        pub fn digit(label: usize, j: usize) -> usize {
            label >> (2 * j) & 3
        }
    }

    // The table of marks: 1 for a label byte none of whose four base-4 digits is 3, else 0.
    mod marks {
        const PLAIN: [u8; 256] = [
            1, 1, 1, 0, 1, 1, 1, 0, 1, 1, 1, 0, 0, 0, 0, 0, 1, 1, 1, 0, 1, 1, 1, 0, 1, 1, 1, 0, 0, 0, 0, 0,
            1, 1, 1, 0, 1, 1, 1, 0, 1, 1, 1, 0, 0, 0, 0, 0, 0, 0, 0, 0, 0, 0, 0, 0, 0, 0, 0, 0, 0, 0, 0, 0,
            1, 1, 1, 0, 1, 1, 1, 0, 1, 1, 1, 0, 0, 0, 0, 0, 1, 1, 1, 0, 1, 1, 1, 0, 1, 1, 1, 0, 0, 0, 0, 0,
            1, 1, 1, 0, 1, 1, 1, 0, 1, 1, 1, 0, 0, 0, 0, 0, 0, 0, 0, 0, 0, 0, 0, 0, 0, 0, 0, 0, 0, 0, 0, 0,
            1, 1, 1, 0, 1, 1, 1, 0, 1, 1, 1, 0, 0, 0, 0, 0, 1, 1, 1, 0, 1, 1, 1, 0, 1, 1, 1, 0, 0, 0, 0, 0,
            1, 1, 1, 0, 1, 1, 1, 0, 1, 1, 1, 0, 0, 0, 0, 0, 0, 0, 0, 0, 0, 0, 0, 0, 0, 0, 0, 0, 0, 0, 0, 0,
            0, 0, 0, 0, 0, 0, 0, 0, 0, 0, 0, 0, 0, 0, 0, 0, 0, 0, 0, 0, 0, 0, 0, 0, 0, 0, 0, 0, 0, 0, 0, 0,
            0, 0, 0, 0, 0, 0, 0, 0, 0, 0, 0, 0, 0, 0, 0, 0, 0, 0, 0, 0, 0, 0, 0, 0, 0, 0, 0, 0, 0, 0, 0,
            0, // 255: all four digits unknown
        ];

        // The table by value: a caller makes it once and lends it to its loops.
        pub fn plain_marks() -> [u8; 256] {
            PLAIN
        }
    }

    // Numbers of other widths, and the lesser and the greater of two.
    mod numbers {
        pub fn widen_byte(x: u8) -> usize {
            x as usize
        }

        pub fn widen_word(x: u16) -> usize {
            x as usize
        }

        pub fn widen_cell(x: u32) -> u64 {
            x as u64
        }

        // The number that a table holds in a cell.
        pub fn cell_at(table: &[u32], c: usize) -> u64 {
            widen_cell(table[c])
        }

        pub fn lesser(a: u64, b: u64) -> u64 {
            if a < b {
                a
            } else {
                b
            }
        }

        pub fn greater(a: u64, b: u64) -> u64 {
            if a < b {
                b
            } else {
                a
            }
        }
    }
}

// Labels of edges and points: each by itself, and whether the network is well-defined with them.
mod plan_labels {
    pub use self::labels::label_fits;
    pub use self::labels::point_labels_fit;
    pub use self::labels::well_defined;

    // Labels of points: each by itself, and whether the network is well-defined with them.
    mod labels {
        use super::super::plan::digit;
        use super::super::plan::edge_down;
        use super::super::plan::edge_from;
        use super::super::plan::edge_label;
        use super::super::plan::edge_to;
        use super::super::plan::edges;
        use super::super::plan::is_plain;
        use super::super::plan::label_bytes;
        use super::super::plan::labels;
        use super::super::plan::link_activation;
        use super::super::plan::link_finish;
        use super::super::plan::links;
        use super::super::plan::observer;
        use super::super::plan::plain_marks;
        use super::super::plan::point_label;
        use super::super::plan::points;
        use super::super::plan::propositions;

        // A label with no digit at p or above is below 4^p.
        pub fn label_fits(plan: &[u8], marks: &[u8; 256], label: usize) -> bool {
            if labels(plan) <= label {
                return false;
            }
            is_plain(marks, label)
        }

        fn point_label_fits(plan: &[u8], marks: &[u8; 256], x: usize) -> bool {
            let label = point_label(plan, x);
            if !label_fits(plan, marks, label) {
                return false;
            }
            if 0 < x {
                return true;
            }
            label == 0
        }

        // A plan without labels of points passes.
        pub fn point_labels_fit(plan: &[u8]) -> bool {
            if label_bytes(plan) == 0 {
                return true;
            }
            let marks = plain_marks();
            let n = points(plan);
            for x in 0..n {
                if !point_label_fits(plan, &marks, x) {
                    return false;
                }
            }
            true
        }

        // Whether digit j of b, if it is not 0, is a's digit.
        fn contains_digit(a: usize, b: usize, j: usize) -> bool {
            let d = digit(b, j);
            if d == 0 {
                return true;
            }
            d == digit(a, j)
        }

        fn contains_label(plan: &[u8], a: usize, b: usize) -> bool {
            let n = propositions(plan);
            for j in 0..n {
                if !contains_digit(a, b, j) {
                    return false;
                }
            }
            true
        }

        // Whether the label, if it names proposition j, contains the label of its observing point.
        fn contains_observer(plan: &[u8], label: usize, j: usize) -> bool {
            if digit(label, j) == 0 {
                return true;
            }
            contains_label(plan, label, point_label(plan, observer(plan, j)))
        }

        fn contains_observers(plan: &[u8], label: usize) -> bool {
            let n = propositions(plan);
            for j in 0..n {
                if !contains_observer(plan, label, j) {
                    return false;
                }
            }
            true
        }

        // Whether edge i runs from point x to the observing point of j, with a negative weight and exactly the point's label.
        fn puts_after(plan: &[u8], x: usize, j: usize, i: usize) -> bool {
            let start = edge_from(plan, i);
            let end = edge_to(plan, i);
            if start != x {
                return false;
            }
            if end != observer(plan, j) {
                return false;
            }
            if edge_down(plan, i) == 0 {
                return false;
            }
            edge_label(plan, i) == point_label(plan, x)
        }

        fn some_puts_after(plan: &[u8], x: usize, j: usize) -> bool {
            let n = edges(plan);
            for i in 0..n {
                if puts_after(plan, x, j, i) {
                    return true;
                }
            }
            false
        }

        // Whether the point, if its label names proposition j, comes after its observing point.
        fn comes_after_answer(plan: &[u8], x: usize, j: usize) -> bool {
            if digit(point_label(plan, x), j) == 0 {
                return true;
            }
            some_puts_after(plan, x, j)
        }

        fn comes_after(plan: &[u8], x: usize) -> bool {
            let n = propositions(plan);
            for j in 0..n {
                if !comes_after_answer(plan, x, j) {
                    return false;
                }
            }
            true
        }

        fn point_well_defined(plan: &[u8], x: usize) -> bool {
            if !contains_observers(plan, point_label(plan, x)) {
                return false;
            }
            comes_after(plan, x)
        }

        fn edge_well_defined(plan: &[u8], i: usize) -> bool {
            let label = edge_label(plan, i);
            if !contains_label(plan, label, point_label(plan, edge_from(plan, i))) {
                return false;
            }
            if !contains_label(plan, label, point_label(plan, edge_to(plan, i))) {
                return false;
            }
            contains_observers(plan, label)
        }

        fn link_well_defined(plan: &[u8], i: usize) -> bool {
            let a = link_activation(plan, i);
            let c = link_finish(plan, i);
            point_label(plan, a) == point_label(plan, c)
        }

        fn edges_well_defined(plan: &[u8]) -> bool {
            let n = edges(plan);
            for i in 0..n {
                if !edge_well_defined(plan, i) {
                    return false;
                }
            }
            true
        }

        fn points_well_defined(plan: &[u8]) -> bool {
            let n = points(plan);
            for x in 0..n {
                if !point_well_defined(plan, x) {
                    return false;
                }
            }
            true
        }

        fn links_well_defined(plan: &[u8]) -> bool {
            let n = links(plan);
            for i in 0..n {
                if !link_well_defined(plan, i) {
                    return false;
                }
            }
            true
        }

        // A plan without labels of points is.
        pub fn well_defined(plan: &[u8]) -> bool {
            if label_bytes(plan) == 0 {
                return true;
            }
            if !edges_well_defined(plan) {
                return false;
            }
            if !points_well_defined(plan) {
                return false;
            }
            links_well_defined(plan)
        }
    }
}

// Refusals 1 to 5, 17 and 18 of a plan.
mod plan_refusal {
    pub use self::refusals::refusal;

    // Refusals 1 to 5, 17 and 18, in their order.
    mod refusals {
        use super::super::plan::cells;
        use super::super::plan::edge_data_at;
        use super::super::plan::edge_down_at;
        use super::super::plan::edge_from_at;
        use super::super::plan::edge_label_at;
        use super::super::plan::edge_spare_at;
        use super::super::plan::edge_to_at;
        use super::super::plan::edge_up_at;
        use super::super::plan::edges;
        use super::super::plan::edges_at;
        use super::super::plan::length_for;
        use super::super::plan::link_activation;
        use super::super::plan::link_finish;
        use super::super::plan::link_least;
        use super::super::plan::link_most;
        use super::super::plan::links;
        use super::super::plan::observer;
        use super::super::plan::plain_marks;
        use super::super::plan::points;
        use super::super::plan::propositions;
        use super::super::plan::MOST_SECONDS;
        use super::super::plan_labels::label_fits;
        use super::super::plan_labels::point_labels_fit;
        use super::super::plan_labels::well_defined;

        // The numbers of the refusals.
        const ACCEPTED: u32 = 0;

        const SHORT: u32 = 1;

        const LENGTH: u32 = 1;

        const SIZES: u32 = 2;

        const OBSERVER: u32 = 3;

        const LINK: u32 = 4;

        const EDGE: u32 = 5;

        const POINT_LABEL: u32 = 17;

        const ILL_DEFINED: u32 = 18;

        // 0 for an accepted plan, or the number of its refusal.
        pub fn refusal(plan: &[u8]) -> u32 {
            if plan.len() < 4 {
                return SHORT;
            }
            if !sizes_fit(plan) {
                return SIZES;
            }
            if !length_fits(plan) {
                return LENGTH;
            }
            if !observers_fit(plan) {
                return OBSERVER;
            }
            if !point_labels_fit(plan) {
                return POINT_LABEL;
            }
            if !links_fit(plan) {
                return LINK;
            }
            if !edges_fit(plan) {
                return EDGE;
            }
            if !well_defined(plan) {
                return ILL_DEFINED;
            }
            ACCEPTED
        }

        fn length_fits(plan: &[u8]) -> bool {
            let end = length_for(plan);
            if plan.len() == end {
                return true;
            }
            plan.len() == end + points(plan)
        }

        fn sizes_fit(plan: &[u8]) -> bool {
            let n = points(plan);
            if n < 2 {
                return false;
            }
            if 32 < n {
                return false;
            }
            if 4 < propositions(plan) {
                return false;
            }
            if 4 < links(plan) {
                return false;
            }
            if 128 < edges(plan) {
                return false;
            }
            cells(plan) <= 16384
        }

        fn observers_fit(plan: &[u8]) -> bool {
            let n = propositions(plan);
            for j in 0..n {
                if !observer_fits(plan, j) {
                    return false;
                }
            }
            true
        }

        fn observer_fits(plan: &[u8], j: usize) -> bool {
            let x = observer(plan, j);
            if x == 0 {
                return false;
            }
            if points(plan) <= x {
                return false;
            }
            not_observing(plan, x, j)
        }

        // Whether no proposition below n is observed at x.
        fn not_observing(plan: &[u8], x: usize, n: usize) -> bool {
            for j in 0..n {
                if observer(plan, j) == x {
                    return false;
                }
            }
            true
        }

        fn links_fit(plan: &[u8]) -> bool {
            let n = links(plan);
            for i in 0..n {
                if !link_fits(plan, i) {
                    return false;
                }
            }
            true
        }

        fn link_fits(plan: &[u8], i: usize) -> bool {
            if !link_ends_fit(plan, i) {
                return false;
            }
            duration_fits(plan, i)
        }

        fn link_ends_fit(plan: &[u8], i: usize) -> bool {
            let n = points(plan);
            let a = link_activation(plan, i);
            let c = link_finish(plan, i);
            if n <= a {
                return false;
            }
            if n <= c {
                return false;
            }
            if a == c {
                return false;
            }
            if c == 0 {
                return false;
            }
            if !not_observing(plan, c, propositions(plan)) {
                return false;
            }
            not_finishing(plan, c, i)
        }

        // Whether no link below n ends at c.
        fn not_finishing(plan: &[u8], c: usize, n: usize) -> bool {
            for i in 0..n {
                if link_finish(plan, i) == c {
                    return false;
                }
            }
            true
        }

        fn duration_fits(plan: &[u8], i: usize) -> bool {
            let s = link_least(plan, i);
            let y = link_most(plan, i);
            if s == 0 {
                return false;
            }
            if y <= s {
                return false;
            }
            y <= MOST_SECONDS
        }

        fn edges_fit(plan: &[u8]) -> bool {
            let marks = plain_marks();
            let n = edges(plan);
            let ends = edges_at(plan);
            let bytes = edge_data_at(plan);
            for i in 0..n {
                if !edge_fits(plan, &marks, ends, bytes, i) {
                    return false;
                }
            }
            true
        }

        fn edge_fits(plan: &[u8], marks: &[u8; 256], ends: usize, bytes: usize, i: usize) -> bool {
            if !edge_ends_fit(plan, ends, bytes, i) {
                return false;
            }
            if !label_fits(plan, marks, edge_label_at(plan, bytes, i)) {
                return false;
            }
            edge_spare_at(plan, bytes, i) == 0
        }

        fn edge_ends_fit(plan: &[u8], ends: usize, bytes: usize, i: usize) -> bool {
            let n = points(plan);
            let x = edge_from_at(plan, ends, i);
            let y = edge_to_at(plan, ends, i);
            if n <= x {
                return false;
            }
            if n <= y {
                return false;
            }
            if x == y {
                return false;
            }
            if MOST_SECONDS < edge_up_at(plan, bytes, i) {
                return false;
            }
            edge_down_at(plan, bytes, i) <= MOST_SECONDS
        }
    }
}

// The shapes of the rules.
mod rules_fill {
    pub use self::rows::digit_bit;
    pub use self::rows::digit_mask;
    pub use self::rows::label_mask;
    pub use self::rows::link_bit;
    pub use self::shapes::cleared;
    pub use self::shapes::joined;
    pub use self::shapes::propagated;
    pub use self::shapes::removed;
    pub use self::shapes::touches;
    pub use self::shapes::Propagator;
    pub use self::shapes::Remover;

    // The bits of a place: those of its label, of a link and of a digit.
    mod rows {
        use super::super::plan::labels;
        use super::super::plan::propositions;

        // The bits of a label.
        pub fn label_mask(plan: &[u8]) -> usize {
            labels(plan) - 1
        }

        pub fn link_bit(plan: &[u8], i: usize) -> usize {
            1 << (2 * propositions(plan) + i)
        }

        pub fn digit_mask(j: usize) -> usize {
            3 << (2 * j)
        }

        // The lower of a digit's two bits.
        pub fn digit_bit(j: usize) -> usize {
            1 << (2 * j)
        }
    }

    // What the rules give at one place, or two, in the three shapes that serve filling and finding.
    mod shapes {
        use super::super::plan::is_plain;
        use super::super::plan::lesser;

        // Rules 1 to 3, by their row: every line of one point goes to another point, with bits added to its place, unless it has a bit to avoid.
        // The weight of the row is up less down.
        #[derive(Clone, Copy)]
        pub struct Propagator {
            pub from: usize,
            pub avoid: usize,
            pub add: usize,
            pub up: u64,
            pub down: u64,
        }

        // Rules 4 and 6, by their row: the bits of the mask are removed with a line of the other point.
        // The mask is a run of bits, and low the lowest of them.
        #[derive(Clone, Copy)]
        pub struct Remover {
            pub other: usize,
            pub mask: usize,
            pub low: usize,
            pub add: u64,
        }

        // Two places made one: a single `|` joins their labels and unites their sets.
        pub fn joined(a: usize, b: usize) -> usize {
            a | b
        }

        pub fn cleared(place: usize, mask: usize) -> usize {
            place - (place & mask)
        }

        // The wait less the weight, or 0.
        fn weighed(wait: u64, up: u64, down: u64) -> u64 {
            if up < wait + down {
                wait + down - up
            } else {
                0
            }
        }

        fn is_line(place: usize, wait: u64) -> bool {
            0 < wait || place == 0
        }

        // Whether the place has a bit of the mask.
        pub fn touches(mask: usize, place: usize) -> bool {
            place & mask != 0
        }

        // Whether the label of the place is plain.
        fn has_plain_label(marks: &[u8; 256], mask: usize, place: usize) -> bool {
            is_plain(marks, place & mask)
        }

        pub fn propagated(marks: &[u8; 256], by: Propagator, mask: usize, place: usize, wait: u64) -> u64 {
            if !is_line(place, wait) {
                return 0;
            }
            if touches(by.avoid, place) {
                return 0;
            }
            if !has_plain_label(marks, mask, place) {
                return 0;
            }
            if !has_plain_label(marks, mask, joined(place, by.add)) {
                return 0;
            }
            weighed(wait, by.up, by.down)
        }

        // The other line's place has no bit of the mask: callers pass over places that have one.
        pub fn removed(by: Remover, wait: u64, place: usize, other: u64) -> u64 {
            if !is_line(place, other) {
                return 0;
            }
            lesser(wait, other + by.add)
        }
    }
}

// The rows of a plan, read from its bytes once, its edges linked by the point where they start.
mod rules_rows {
    pub use self::reading::read_rows;
    pub use self::shapes::edge_row;
    pub use self::shapes::first_edge;
    pub use self::shapes::horizon_row;
    pub use self::shapes::letter_row;
    pub use self::shapes::link_activation;
    pub use self::shapes::link_finish;
    pub use self::shapes::literal_row;
    pub use self::shapes::lower_bound_row;
    pub use self::shapes::lower_row;
    pub use self::shapes::next_edge;
    pub use self::shapes::observer;
    pub use self::shapes::upper_bound_row;
    pub use self::shapes::upper_row;

    // The rows of a plan, read from its bytes into a lent list.
    mod reading {
        use super::super::plan::edge_data_at;
        use super::super::plan::edge_down_at;
        use super::super::plan::edge_from_at;
        use super::super::plan::edge_label_at;
        use super::super::plan::edge_to_at;
        use super::super::plan::edge_up_at;
        use super::super::plan::edges;
        use super::super::plan::edges_at;
        use super::super::plan::link_activation;
        use super::super::plan::link_finish;
        use super::super::plan::link_least;
        use super::super::plan::link_most;
        use super::super::plan::links;
        use super::super::plan::observer;
        use super::super::plan::points;
        use super::super::plan::propositions;
        use super::super::plan::widen_word;

        fn put(rows: &mut [u16], at: usize, n: usize) {
            rows[at] = n as u16;
        }

        // Four numbers, from an entry on.
        fn put_four(rows: &mut [u16], at: usize, a: usize, b: usize, c: usize, d: usize) {
            put(rows, at, a);
            put(rows, at + 1, b);
            put(rows, at + 2, c);
            put(rows, at + 3, d);
        }

        // No edge of any point is read: its first is past them all.
        fn clear_first(plan: &[u8], rows: &mut [u16]) {
            let n = points(plan);
            let none = edges(plan);
            for x in 0..n {
                put(rows, x, none);
            }
        }

        fn read_observers(plan: &[u8], rows: &mut [u16]) {
            let n = propositions(plan);
            for j in 0..n {
                put(rows, 32 + j, observer(plan, j));
            }
        }

        fn read_link(plan: &[u8], rows: &mut [u16], i: usize) {
            let activation = link_activation(plan, i);
            let finish = link_finish(plan, i);
            let least = link_least(plan, i) as usize;
            let most = link_most(plan, i) as usize;
            put_four(rows, 36 + 4 * i, activation, finish, least, most);
        }

        fn read_links(plan: &[u8], rows: &mut [u16]) {
            let n = links(plan);
            for i in 0..n {
                read_link(plan, rows, i);
            }
        }

        fn read_edge(plan: &[u8], rows: &mut [u16], ends: usize, bytes: usize, i: usize) {
            let to = edge_to_at(plan, ends, i);
            let label = edge_label_at(plan, bytes, i);
            let up = edge_up_at(plan, bytes, i) as usize;
            let down = edge_down_at(plan, bytes, i) as usize;
            put_four(rows, 52 + 5 * i, to, label, up, down);
        }

        // Puts edge i before those of its point that are linked.
        fn link_edge(plan: &[u8], rows: &mut [u16], ends: usize, i: usize) {
            let x = edge_from_at(plan, ends, i);
            let next = widen_word(rows[x]);
            put(rows, 56 + 5 * i, next);
            put(rows, x, i);
        }

        // The edges from the last to the first, so that each is linked before those of its point that follow it.
        fn read_edges(plan: &[u8], rows: &mut [u16]) {
            let mut i = edges(plan);
            let ends = edges_at(plan);
            let bytes = edge_data_at(plan);
            while 0 < i {
                i -= 1;
                read_edge(plan, rows, ends, bytes, i);
                link_edge(plan, rows, ends, i);
            }
        }

        // All rows of a plan.
        pub fn read_rows(plan: &[u8], rows: &mut [u16]) {
            clear_first(plan, rows);
            read_observers(plan, rows);
            read_links(plan, rows);
            read_edges(plan, rows);
        }
    }

    // The shapes of a plan's rows as they were read: what a row avoids, adds and removes, as bits of a place.
    mod shapes {
        use super::super::plan::widen_word;
        use super::super::rules_fill::digit_bit;
        use super::super::rules_fill::digit_mask;
        use super::super::rules_fill::link_bit;
        use super::super::rules_fill::Propagator;
        use super::super::rules_fill::Remover;

        fn number(rows: &[u16], at: usize) -> usize {
            widen_word(rows[at])
        }

        // The same as seconds.
        fn seconds(rows: &[u16], at: usize) -> u64 {
            number(rows, at) as u64
        }

        pub fn observer(_plan: &[u8], rows: &[u16], j: usize) -> usize {
            number(rows, 32 + j)
        }

        pub fn link_activation(_plan: &[u8], rows: &[u16], i: usize) -> usize {
            number(rows, 36 + 4 * i)
        }

        pub fn link_finish(_plan: &[u8], rows: &[u16], i: usize) -> usize {
            number(rows, 37 + 4 * i)
        }

        fn link_least(_plan: &[u8], rows: &[u16], i: usize) -> u64 {
            seconds(rows, 38 + 4 * i)
        }

        fn link_most(_plan: &[u8], rows: &[u16], i: usize) -> u64 {
            seconds(rows, 39 + 4 * i)
        }

        // The first edge that starts at point x, or the number of edges.
        pub fn first_edge(_plan: &[u8], rows: &[u16], x: usize) -> usize {
            number(rows, x)
        }

        // The next edge after edge i that starts where edge i starts, or the number of edges.
        pub fn next_edge(_plan: &[u8], rows: &[u16], i: usize) -> usize {
            number(rows, 56 + 5 * i)
        }

        // Rule 1 of plan edge i.
        pub fn edge_row(_plan: &[u8], rows: &[u16], i: usize) -> Propagator {
            let at = 52 + 5 * i;
            Propagator {
                from: number(rows, at),
                avoid: 0,
                add: number(rows, at + 1),
                up: seconds(rows, at + 2),
                down: seconds(rows, at + 3),
            }
        }

        // Rule 1 of the horizon edge to point y.
        pub fn horizon_row(_plan: &[u8], horizon: u64, y: usize) -> Propagator {
            Propagator { from: y, avoid: 0, add: 0, up: horizon, down: 0 }
        }

        // Rule 1 of the upper bound of link i.
        pub fn upper_bound_row(plan: &[u8], rows: &[u16], i: usize) -> Propagator {
            Propagator {
                from: link_finish(plan, rows, i),
                avoid: 0,
                add: 0,
                up: link_most(plan, rows, i),
                down: 0,
            }
        }

        // Rule 1 of the lower bound of link i.
        pub fn lower_bound_row(plan: &[u8], rows: &[u16], i: usize) -> Propagator {
            Propagator {
                from: link_activation(plan, rows, i),
                avoid: 0,
                add: 0,
                up: 0,
                down: link_least(plan, rows, i),
            }
        }

        // Rule 2 of link i.
        pub fn lower_row(plan: &[u8], rows: &[u16], i: usize) -> Propagator {
            let bit = link_bit(plan, i);
            Propagator {
                from: link_finish(plan, rows, i),
                avoid: bit,
                add: 0,
                up: link_least(plan, rows, i),
                down: 0,
            }
        }

        // Rule 3 of link i.
        pub fn upper_row(plan: &[u8], rows: &[u16], i: usize) -> Propagator {
            let bit = link_bit(plan, i);
            Propagator {
                from: link_activation(plan, rows, i),
                avoid: 0, // the link may be in the set already
                add: bit,
                up: 0,
                down: link_most(plan, rows, i),
            }
        }

        // Rule 4 of link i.
        pub fn letter_row(plan: &[u8], rows: &[u16], i: usize) -> Remover {
            let bit = link_bit(plan, i);
            let least = link_least(plan, rows, i);
            Remover { other: link_activation(plan, rows, i), mask: bit, low: bit, add: least }
        }

        // Rule 6 of proposition j. Nothing is added, so a starting line of the observing point gives wait 0, which is nothing.
        pub fn literal_row(plan: &[u8], rows: &[u16], j: usize) -> Remover {
            Remover { other: observer(plan, rows, j), mask: digit_mask(j), low: digit_bit(j), add: 0 }
        }
    }
}

// The rules in loops over listed places, which raise the cells of a part and note them.
mod rules_listed {
    pub use self::listed::clear_raised;
    pub use self::listed::propagate_raised;
    pub use self::listed::remove_pairs;
    pub use self::notes::raise;

    // The loops over listed places, one for each shape of rule. In a list of w entries for each of its rows, row 2y has the places of point y that the
    // last round raised, and row 2y + 1 the places of its lines.
    mod listed {
        use super::super::plan::cell_at;
        use super::super::plan::widen_word;
        use super::super::rules_fill::cleared;
        use super::super::rules_fill::joined;
        use super::super::rules_fill::propagated;
        use super::super::rules_fill::removed;
        use super::super::rules_fill::touches;
        use super::super::rules_fill::Propagator;
        use super::super::rules_fill::Remover;
        use super::notes::raise;

        // Rules 1 to 3, from the n raised cells of the row's point.
        pub fn propagate_raised(
            marks: &[u8; 256],
            first: &[u32],
            lists: &[u16],
            n: usize,
            part: &mut [u32],
            notes: &mut [u16],
            count: usize,
            width: usize,
            mask: usize,
            x: usize,
            by: Propagator,
        ) -> usize {
            let base = by.from * width;
            let start = 2 * base;
            let own = x * width;
            let mut noted = count;
            for i in 0..n {
                let c = widen_word(lists[start + i]);
                let wait = propagated(marks, by, mask, c, cell_at(first, base + c));
                noted = raise(first, own, part, notes, noted, width, joined(c, by.add), wait);
            }
            noted
        }

        // Rules 4 and 6, from one line (its place cleared) and the n lines of the other point.
        fn remove_with(
            first: &[u32],
            lists: &[u16],
            n: usize,
            part: &mut [u32],
            notes: &mut [u16],
            count: usize,
            width: usize,
            x: usize,
            by: Remover,
            place: usize,
            wait: u64,
        ) -> usize {
            let base = by.other * width;
            let start = 2 * base + width;
            let own = x * width;
            let mut noted = count;
            for i in 0..n {
                let u = widen_word(lists[start + i]);
                if !touches(by.mask, u) {
                    // only the first line has the link or the digit
                    let w = removed(by, wait, u, cell_at(first, base + u));
                    noted = raise(first, own, part, notes, noted, width, joined(place, u), w);
                }
            }
            noted
        }

        // The same from each of the m raised cells of point x.
        fn remove_raised(
            first: &[u32],
            lists: &[u16],
            n: usize,
            m: usize,
            part: &mut [u32],
            notes: &mut [u16],
            count: usize,
            width: usize,
            x: usize,
            by: Remover,
        ) -> usize {
            let own = x * width;
            let start = 2 * own;
            let mut noted = count;
            for i in 0..m {
                let c = widen_word(lists[start + i]);
                if touches(by.mask, c) {
                    let rest = cleared(c, by.mask);
                    noted = remove_with(
                        first,
                        lists,
                        n,
                        part,
                        notes,
                        noted,
                        width,
                        x,
                        by,
                        rest,
                        cell_at(first, own + c),
                    );
                }
            }
            noted
        }

        // Rules 4 and 6, from the n lines of point x and one line of the other point, without the mask's bits.
        fn remove_from_lines(
            first: &[u32],
            lists: &[u16],
            n: usize,
            part: &mut [u32],
            notes: &mut [u16],
            count: usize,
            width: usize,
            x: usize,
            by: Remover,
            place: usize,
            other: u64,
        ) -> usize {
            let own = x * width;
            let start = 2 * own + width;
            let mut noted = count;
            for i in 0..n {
                let c = widen_word(lists[start + i]);
                if touches(by.mask, c) {
                    let w = removed(by, cell_at(first, own + c), place, other);
                    noted =
                        raise(first, own, part, notes, noted, width, joined(cleared(c, by.mask), place), w);
                }
            }
            noted
        }

        // The same from each of the m raised cells of the other point.
        fn remove_by_raised(
            first: &[u32],
            lists: &[u16],
            n: usize,
            m: usize,
            part: &mut [u32],
            notes: &mut [u16],
            count: usize,
            width: usize,
            x: usize,
            by: Remover,
        ) -> usize {
            let base = by.other * width;
            let start = 2 * base;
            let mut noted = count;
            for i in 0..m {
                let u = widen_word(lists[start + i]);
                if !touches(by.mask, u) {
                    noted = remove_from_lines(
                        first,
                        lists,
                        n,
                        part,
                        notes,
                        noted,
                        width,
                        x,
                        by,
                        u,
                        cell_at(first, base + u),
                    );
                }
            }
            noted
        }

        // Rules 4 and 6, from pairs of which one is raised: raised cells of point x with lines of the other point, and the other way round.
        pub fn remove_pairs(
            first: &[u32],
            lists: &[u16],
            counts: &[usize],
            part: &mut [u32],
            notes: &mut [u16],
            count: usize,
            width: usize,
            x: usize,
            by: Remover,
        ) -> usize {
            let other = by.other;
            let noted = remove_raised(
                first,
                lists,
                counts[2 * other + 1],
                counts[2 * x],
                part,
                notes,
                count,
                width,
                x,
                by,
            );
            remove_by_raised(
                first,
                lists,
                counts[2 * x + 1],
                counts[2 * other],
                part,
                notes,
                noted,
                width,
                x,
                by,
            )
        }

        // Rule 5, at the observing point x, from its n raised cells.
        pub fn clear_raised(
            first: &[u32],
            lists: &[u16],
            n: usize,
            part: &mut [u32],
            notes: &mut [u16],
            count: usize,
            width: usize,
            x: usize,
            mask: usize,
        ) -> usize {
            let own = x * width;
            let start = 2 * own;
            let mut noted = count;
            for i in 0..n {
                let c = widen_word(lists[start + i]);
                if touches(mask, c) {
                    let rest = cleared(c, mask);
                    noted = raise(first, own, part, notes, noted, width, rest, cell_at(first, own + c));
                }
            }
            noted
        }
    }

    // A part that holds the table's cells, some raised: the places of those are noted.
    mod notes {
        use super::super::plan::widen_cell;

        // Raises a cell of the part, which has w cells of the table from own on; a cell that leaves the table's wait is noted. Gives the number of notes.
        pub fn raise(
            first: &[u32],
            own: usize,
            part: &mut [u32],
            notes: &mut [u16],
            count: usize,
            _width: usize,
            place: usize,
            wait: u64,
        ) -> usize {
            let was = part[place];
            if wait <= widen_cell(was) {
                return count;
            }
            part[place] = wait as u32;
            if was != first[own + place] {
                return count;
            }
            notes[count] = place as u16;
            count + 1
        }
    }
}

// The greatest of all the waits that pairs give to joined places, made by halves.
mod rules_halving {
    pub use self::halves::halve;

    // Of two runs of n waits, n a power of 2, each pair (a, b) gives the lesser of its waits to place a | b of a third run, whose cells it raises.
    mod halves {
        fn lower(a: u32, b: u32) -> u32 {
            if a < b {
                return a;
            }
            b
        }

        fn upper(a: u32, b: u32) -> u32 {
            if a < b {
                return b;
            }
            a
        }

        // The greatest of n waits.
        fn greatest(cells: &[u32], from: usize, n: usize) -> u32 {
            let mut most = 0;
            for i in 0..n {
                most = upper(most, cells[from + i]);
            }
            most
        }

        // The least of n waits.
        fn least(cells: &[u32], n: usize) -> u32 {
            let mut least = 4294967295;
            for i in 0..n {
                least = lower(least, cells[i]);
            }
            least
        }

        // Whether no pair gives more than the third run holds.
        fn nothing_new(f: &[u32], g: &[u32], from: usize, h: &[u32], n: usize) -> bool {
            lower(greatest(f, 0, n), greatest(g, from, n)) <= least(h, n)
        }

        // What wait f at place a gives with each of the second run.
        fn pairs_of(f: u32, g: &[u32], from: usize, h: &mut [u32], a: usize, n: usize) {
            for b in 0..n {
                let c = a | b;
                h[c] = upper(h[c], lower(f, g[from + b]));
            }
        }

        // All pairs, one by one.
        fn pairs(f: &[u32], g: &[u32], from: usize, h: &mut [u32], n: usize) {
            for a in 0..n {
                pairs_of(f[a], g, from, h, a, n);
            }
        }

        // The greater of each two waits in two runs of n, laid down at `top`.
        fn join_runs(g: &mut [u32], from: usize, n: usize, top: usize) {
            for i in 0..n {
                g[top + i] = upper(g[from + i], g[from + n + i]);
            }
        }

        // All pairs by halves: pairs of two lower halves give to the lower half of the third run, all others to its upper half; there the upper half of the first
        // run meets both halves of the second at once. So it takes three halves in place of four. A run that can raise nothing is passed over.
        pub fn halve(f: &[u32], g: &mut [u32], from: usize, h: &mut [u32], n: usize, top: usize) {
            if n <= 4 {
                pairs(f, g, from, h, n);
                return;
            }
            if nothing_new(f, g, from, h, n) {
                return;
            }
            let z = n / 2;
            let mid = from + z;
            halve(&f[..z], g, from, &mut h[..z], z, top);
            halve(&f[..z], g, mid, &mut h[z..], z, top);
            join_runs(g, from, z, top);
            halve(&f[z..], g, top, &mut h[z..], z, top + z);
        }
    }
}

// Rules 4 and 6 of a row: from pairs of which one is raised, or from all cells by halves, where that takes fewer steps.
mod rules_dense {
    pub use self::dense::remove_row;

    // Rules 4 and 6 of a row, in the way that takes fewer steps.
    mod dense {
        use super::super::rules_fill::Remover;
        use super::super::rules_halving::halve;
        use super::super::rules_listed::remove_pairs;
        use super::gather::gather_others;
        use super::gather::gather_own;
        use super::gather::gather_part;
        use super::gather::spread_part;
        use super::gather::Free;

        // All pairs of the first n waits of two runs, given to a third.
        fn give_pairs(own: &[u32], others: &mut [u32], given: &mut [u32], n: usize) {
            halve(&own[..n], others, 0, &mut given[..n], n, n);
        }

        // From all cells of both points, with room for their waits and for those of the part.
        fn remove_in_room(
            first: &[u32],
            part: &mut [u32],
            notes: &mut [u16],
            count: usize,
            width: usize,
            x: usize,
            by: Remover,
            free: Free,
            own: &mut [u32],
            others: &mut [u32],
            given: &mut [u32],
        ) -> usize {
            gather_own(first, x * width, own, free);
            gather_others(first, by.other * width, others, free, by.add as u32);
            gather_part(part, given, free);
            give_pairs(own, others, given, free.count);
            spread_part(first, x * width, part, notes, count, width, given, free)
        }

        // Rooms of two sizes, so that few places pay nothing for many.
        fn remove_few(
            first: &[u32],
            part: &mut [u32],
            notes: &mut [u16],
            count: usize,
            width: usize,
            x: usize,
            by: Remover,
            free: Free,
        ) -> usize {
            let mut own = [0u32; 64];
            let mut others = [0u32; 128];
            let mut given = [0u32; 64];
            remove_in_room(first, part, notes, count, width, x, by, free, &mut own, &mut others, &mut given)
        }

        fn remove_many(
            first: &[u32],
            part: &mut [u32],
            notes: &mut [u16],
            count: usize,
            width: usize,
            x: usize,
            by: Remover,
            free: Free,
        ) -> usize {
            let mut own = [0u32; 2048];
            let mut others = [0u32; 4096];
            let mut given = [0u32; 2048];
            remove_in_room(first, part, notes, count, width, x, by, free, &mut own, &mut others, &mut given)
        }

        // From all cells of both points, of which at most 2,048 places have none of the row's bits.
        fn remove_by_halves(
            first: &[u32],
            part: &mut [u32],
            notes: &mut [u16],
            count: usize,
            width: usize,
            x: usize,
            by: Remover,
            free: Free,
        ) -> usize {
            if free.count <= 64 {
                return remove_few(first, part, notes, count, width, x, by, free);
            }
            remove_many(first, part, notes, count, width, x, by, free)
        }

        // The steps of a row by halves, about: for b bits some 3^b; none is taken where there is no room.
        fn steps_by_halves(n: usize) -> usize {
            if n <= 16 {
                return 162;
            }
            if n <= 32 {
                return 486;
            }
            if n <= 64 {
                return 1458;
            }
            if n <= 128 {
                return 4374;
            }
            if n <= 256 {
                return 13122;
            }
            if n <= 512 {
                return 39366;
            }
            if n <= 1024 {
                return 118098;
            }
            if n <= 2048 {
                return 354294;
            }
            1000000000
        }

        // No more than 4,096, so that a product of two fits.
        fn few(n: usize) -> usize {
            if n < 4096 {
                return n;
            }
            4096
        }

        // The pairs of a and b, about.
        fn few_pairs(a: usize, b: usize) -> usize {
            few(a) * few(b)
        }

        // The pairs of which one is raised, about.
        fn raised_pairs(counts: &[usize], x: usize, other: usize) -> usize {
            few_pairs(counts[2 * x], counts[2 * other + 1]) + few_pairs(counts[2 * other], counts[2 * x + 1])
        }

        fn free_places(width: usize, by: Remover) -> Free {
            let times = by.mask / by.low + 1;
            Free { count: width / times, low: by.low, times: times }
        }

        // Rules 4 and 6 of a row of point x; gives the number of notes. Few pairs are tried one by one.
        pub fn remove_row(
            first: &[u32],
            lists: &[u16],
            counts: &[usize],
            part: &mut [u32],
            notes: &mut [u16],
            count: usize,
            width: usize,
            x: usize,
            by: Remover,
        ) -> usize {
            let pairs = raised_pairs(counts, x, by.other);
            if 2 * width < pairs {
                let free = free_places(width, by);
                if steps_by_halves(free.count) < pairs {
                    return remove_by_halves(first, part, notes, count, width, x, by, free);
                }
            }
            remove_pairs(first, lists, counts, part, notes, count, width, x, by)
        }
    }

    // The cells of a point's places without a row's bits, side by side, and back. The z-th of these places is z with the row's bits, all 0, put in.
    mod gather {
        use super::super::plan::widen_cell;
        use super::super::rules_listed::raise;

        // The places without the row's bits: how many there are, the lowest of the row's bits, and by how much a place above these bits lies further up.
        #[derive(Clone, Copy)]
        pub struct Free {
            pub count: usize,
            pub low: usize,
            pub times: usize,
        }

        fn upper(a: u32, b: u32) -> u32 {
            if a < b {
                return b;
            }
            a
        }

        // The z-th place without the row's bits.
        fn free_place(free: Free, z: usize) -> usize {
            let r = z & (free.low - 1);
            (z - r) * free.times + r
        }

        // The waits of point x's places that have the row's bits at value m, where they are greater.
        fn gather_value(first: &[u32], base: usize, own: &mut [u32], free: Free, m: usize) {
            let start = base + m * free.low;
            for z in 0..free.count {
                own[z] = upper(own[z], first[start + free_place(free, z)]);
            }
        }

        // For each place without the row's bits the greatest wait of point x's places that have one of these bits and else are the same; the run is 0 before.
        pub fn gather_own(first: &[u32], base: usize, own: &mut [u32], free: Free) {
            for m in 1..free.times {
                gather_value(first, base, own, free, m);
            }
        }

        // A wait with the row's addition, if there is one.
        fn added(wait: u32, add: u32) -> u32 {
            if 0 < wait {
                return wait + add;
            }
            0
        }

        // The waits of the other point, with the row's addition where there is a line, as at place 0.
        pub fn gather_others(first: &[u32], base: usize, others: &mut [u32], free: Free, add: u32) {
            for z in 0..free.count {
                others[z] = added(first[base + free_place(free, z)], add);
            }
            others[0] = first[base] + add;
        }

        // The waits of the part.
        pub fn gather_part(part: &[u32], given: &mut [u32], free: Free) {
            for z in 0..free.count {
                given[z] = part[free_place(free, z)];
            }
        }

        // The part raised to the waits given; gives the number of notes.
        pub fn spread_part(
            first: &[u32],
            own: usize,
            part: &mut [u32],
            notes: &mut [u16],
            count: usize,
            width: usize,
            given: &[u32],
            free: Free,
        ) -> usize {
            let mut noted = count;
            for z in 0..free.count {
                noted =
                    raise(first, own, part, notes, noted, width, free_place(free, z), widen_cell(given[z]));
            }
            noted
        }
    }
}

// One point's part of the next table, from the cells that the last round raised.
mod rules_refill {
    pub use self::refill::refill_point;

    // Filling one point's part, which holds the point's cells, from the cells that the last round raised, row by row. Each function gives the number of notes.
    mod refill {
        use super::super::plan::edges;
        use super::super::plan::links;
        use super::super::plan::points;
        use super::super::plan::propositions;
        use super::super::rules_dense::remove_row;
        use super::super::rules_fill::digit_mask;
        use super::super::rules_fill::Propagator;
        use super::super::rules_fill::Remover;
        use super::super::rules_listed::clear_raised;
        use super::super::rules_listed::propagate_raised;
        use super::super::rules_rows::edge_row;
        use super::super::rules_rows::first_edge;
        use super::super::rules_rows::horizon_row;
        use super::super::rules_rows::letter_row;
        use super::super::rules_rows::link_activation;
        use super::super::rules_rows::link_finish;
        use super::super::rules_rows::literal_row;
        use super::super::rules_rows::lower_bound_row;
        use super::super::rules_rows::lower_row;
        use super::super::rules_rows::next_edge;
        use super::super::rules_rows::observer;
        use super::super::rules_rows::upper_bound_row;
        use super::super::rules_rows::upper_row;

        // Rules 1 to 3 of a row of point x.
        fn propagate_row(
            _plan: &[u8],
            marks: &[u8; 256],
            _horizon: u64,
            first: &[u32],
            lists: &[u16],
            counts: &[usize],
            _rows: &[u16],
            part: &mut [u32],
            notes: &mut [u16],
            count: usize,
            width: usize,
            mask: usize,
            x: usize,
            by: Propagator,
        ) -> usize {
            let n = counts[2 * by.from];
            propagate_raised(marks, first, lists, n, part, notes, count, width, mask, x, by)
        }

        // Rule 1 of plan edge i, which starts at x.
        fn edge_in(
            plan: &[u8],
            marks: &[u8; 256],
            horizon: u64,
            first: &[u32],
            lists: &[u16],
            counts: &[usize],
            rows: &[u16],
            part: &mut [u32],
            notes: &mut [u16],
            count: usize,
            width: usize,
            mask: usize,
            x: usize,
            i: usize,
        ) -> usize {
            let by = edge_row(plan, rows, i);
            propagate_row(
                plan, marks, horizon, first, lists, counts, rows, part, notes, count, width, mask, x, by,
            )
        }

        // Rule 1 of the plan edges that start at x, from each to the next of them.
        fn fill_edges(
            plan: &[u8],
            marks: &[u8; 256],
            horizon: u64,
            first: &[u32],
            lists: &[u16],
            counts: &[usize],
            rows: &[u16],
            part: &mut [u32],
            notes: &mut [u16],
            count: usize,
            width: usize,
            mask: usize,
            x: usize,
        ) -> usize {
            let n = edges(plan);
            let mut noted = count;
            let mut i = first_edge(plan, rows, x);
            while i < n {
                noted = edge_in(
                    plan, marks, horizon, first, lists, counts, rows, part, notes, noted, width, mask, x, i,
                );
                i = next_edge(plan, rows, i);
            }
            noted
        }

        // Rule 1 of the horizon edge to y, at the first alarm.
        fn horizon_edge_in(
            plan: &[u8],
            marks: &[u8; 256],
            horizon: u64,
            first: &[u32],
            lists: &[u16],
            counts: &[usize],
            rows: &[u16],
            part: &mut [u32],
            notes: &mut [u16],
            count: usize,
            width: usize,
            mask: usize,
            x: usize,
            y: usize,
        ) -> usize {
            let by = horizon_row(plan, horizon, y);
            propagate_row(
                plan, marks, horizon, first, lists, counts, rows, part, notes, count, width, mask, x, by,
            )
        }

        fn fill_horizon(
            plan: &[u8],
            marks: &[u8; 256],
            horizon: u64,
            first: &[u32],
            lists: &[u16],
            counts: &[usize],
            rows: &[u16],
            part: &mut [u32],
            notes: &mut [u16],
            count: usize,
            width: usize,
            mask: usize,
            x: usize,
        ) -> usize {
            let n = points(plan);
            let mut noted = count;
            for y in 1..n {
                noted = horizon_edge_in(
                    plan, marks, horizon, first, lists, counts, rows, part, notes, noted, width, mask, x, y,
                );
            }
            noted
        }

        // Rule 1 of the horizon edges, which start at the first alarm: they give nothing unless a raised cell is over the horizon.
        fn horizon_at(
            plan: &[u8],
            marks: &[u8; 256],
            horizon: u64,
            first: &[u32],
            lists: &[u16],
            counts: &[usize],
            rows: &[u16],
            part: &mut [u32],
            notes: &mut [u16],
            count: usize,
            width: usize,
            mask: usize,
            x: usize,
            over: bool,
        ) -> usize {
            if x != 0 {
                return count;
            }
            if !over {
                return count;
            }
            fill_horizon(plan, marks, horizon, first, lists, counts, rows, part, notes, count, width, mask, x)
        }

        // Rule 2 of link i, whose activation is x.
        fn lower_in(
            plan: &[u8],
            marks: &[u8; 256],
            horizon: u64,
            first: &[u32],
            lists: &[u16],
            counts: &[usize],
            rows: &[u16],
            part: &mut [u32],
            notes: &mut [u16],
            count: usize,
            width: usize,
            mask: usize,
            x: usize,
            i: usize,
        ) -> usize {
            let by = lower_row(plan, rows, i);
            propagate_row(
                plan, marks, horizon, first, lists, counts, rows, part, notes, count, width, mask, x, by,
            )
        }

        // Rule 1 of its upper bound.
        fn upper_bound_in(
            plan: &[u8],
            marks: &[u8; 256],
            horizon: u64,
            first: &[u32],
            lists: &[u16],
            counts: &[usize],
            rows: &[u16],
            part: &mut [u32],
            notes: &mut [u16],
            count: usize,
            width: usize,
            mask: usize,
            x: usize,
            i: usize,
        ) -> usize {
            let by = upper_bound_row(plan, rows, i);
            propagate_row(
                plan, marks, horizon, first, lists, counts, rows, part, notes, count, width, mask, x, by,
            )
        }

        // Rule 3 of link i, whose end is x.
        fn upper_in(
            plan: &[u8],
            marks: &[u8; 256],
            horizon: u64,
            first: &[u32],
            lists: &[u16],
            counts: &[usize],
            rows: &[u16],
            part: &mut [u32],
            notes: &mut [u16],
            count: usize,
            width: usize,
            mask: usize,
            x: usize,
            i: usize,
        ) -> usize {
            let by = upper_row(plan, rows, i);
            propagate_row(
                plan, marks, horizon, first, lists, counts, rows, part, notes, count, width, mask, x, by,
            )
        }

        // Rule 1 of its lower bound.
        fn lower_bound_in(
            plan: &[u8],
            marks: &[u8; 256],
            horizon: u64,
            first: &[u32],
            lists: &[u16],
            counts: &[usize],
            rows: &[u16],
            part: &mut [u32],
            notes: &mut [u16],
            count: usize,
            width: usize,
            mask: usize,
            x: usize,
            i: usize,
        ) -> usize {
            let by = lower_bound_row(plan, rows, i);
            propagate_row(
                plan, marks, horizon, first, lists, counts, rows, part, notes, count, width, mask, x, by,
            )
        }

        // Rule 2 of link i and rule 1 of its upper bound, if its activation is x.
        fn activation_in(
            plan: &[u8],
            marks: &[u8; 256],
            horizon: u64,
            first: &[u32],
            lists: &[u16],
            counts: &[usize],
            rows: &[u16],
            part: &mut [u32],
            notes: &mut [u16],
            count: usize,
            width: usize,
            mask: usize,
            x: usize,
            i: usize,
        ) -> usize {
            if link_activation(plan, rows, i) != x {
                return count;
            }
            let noted = lower_in(
                plan, marks, horizon, first, lists, counts, rows, part, notes, count, width, mask, x, i,
            );
            upper_bound_in(
                plan, marks, horizon, first, lists, counts, rows, part, notes, noted, width, mask, x, i,
            )
        }

        // Rule 3 of link i and rule 1 of its lower bound, if its end is x.
        fn finish_in(
            plan: &[u8],
            marks: &[u8; 256],
            horizon: u64,
            first: &[u32],
            lists: &[u16],
            counts: &[usize],
            rows: &[u16],
            part: &mut [u32],
            notes: &mut [u16],
            count: usize,
            width: usize,
            mask: usize,
            x: usize,
            i: usize,
        ) -> usize {
            if link_finish(plan, rows, i) != x {
                return count;
            }
            let noted = upper_in(
                plan, marks, horizon, first, lists, counts, rows, part, notes, count, width, mask, x, i,
            );
            lower_bound_in(
                plan, marks, horizon, first, lists, counts, rows, part, notes, noted, width, mask, x, i,
            )
        }

        // Rules 2 and 3 of link i, and rule 1 of its two edges.
        fn link_in(
            plan: &[u8],
            marks: &[u8; 256],
            horizon: u64,
            first: &[u32],
            lists: &[u16],
            counts: &[usize],
            rows: &[u16],
            part: &mut [u32],
            notes: &mut [u16],
            count: usize,
            width: usize,
            mask: usize,
            x: usize,
            i: usize,
        ) -> usize {
            let activated = activation_in(
                plan, marks, horizon, first, lists, counts, rows, part, notes, count, width, mask, x, i,
            );
            finish_in(
                plan, marks, horizon, first, lists, counts, rows, part, notes, activated, width, mask, x, i,
            )
        }

        // Rule 5 of proposition j, if its observing point is x.
        fn own_literal_in(
            plan: &[u8],
            _marks: &[u8; 256],
            _horizon: u64,
            first: &[u32],
            lists: &[u16],
            counts: &[usize],
            rows: &[u16],
            part: &mut [u32],
            notes: &mut [u16],
            count: usize,
            width: usize,
            _mask: usize,
            x: usize,
            j: usize,
        ) -> usize {
            if observer(plan, rows, j) != x {
                return count;
            }
            let n = counts[2 * x];
            clear_raised(first, lists, n, part, notes, count, width, x, digit_mask(j))
        }

        // The rules of one parent of a link r, or of a proposition r less the links: numbered so, both have one row of rule 4 or 6.
        fn single_in(
            plan: &[u8],
            marks: &[u8; 256],
            horizon: u64,
            first: &[u32],
            lists: &[u16],
            counts: &[usize],
            rows: &[u16],
            part: &mut [u32],
            notes: &mut [u16],
            count: usize,
            width: usize,
            mask: usize,
            x: usize,
            r: usize,
        ) -> usize {
            let k = links(plan);
            if r < k {
                return link_in(
                    plan, marks, horizon, first, lists, counts, rows, part, notes, count, width, mask, x, r,
                );
            }
            own_literal_in(
                plan,
                marks,
                horizon,
                first,
                lists,
                counts,
                rows,
                part,
                notes,
                count,
                width,
                mask,
                x,
                r - k,
            )
        }

        // The row of rule 4 of link r, or of rule 6 of proposition r less the links.
        fn removal_row(plan: &[u8], rows: &[u16], r: usize) -> Remover {
            let k = links(plan);
            if r < k {
                return letter_row(plan, rows, r);
            }
            literal_row(plan, rows, r - k)
        }

        // Removal r at point x. Where its starting line is its only line, none has a bit to remove.
        fn removal_in(
            plan: &[u8],
            _marks: &[u8; 256],
            _horizon: u64,
            first: &[u32],
            lists: &[u16],
            counts: &[usize],
            rows: &[u16],
            part: &mut [u32],
            notes: &mut [u16],
            count: usize,
            width: usize,
            _mask: usize,
            x: usize,
            r: usize,
        ) -> usize {
            if counts[2 * x + 1] < 2 {
                return count;
            }
            let by = removal_row(plan, rows, r);
            remove_row(first, lists, counts, part, notes, count, width, x, by)
        }

        // Rules 2 to 6 of the links, then of the propositions.
        fn fill_removals(
            plan: &[u8],
            marks: &[u8; 256],
            horizon: u64,
            first: &[u32],
            lists: &[u16],
            counts: &[usize],
            rows: &[u16],
            part: &mut [u32],
            notes: &mut [u16],
            count: usize,
            width: usize,
            mask: usize,
            x: usize,
        ) -> usize {
            let n = links(plan) + propositions(plan);
            let mut noted = count;
            for r in 0..n {
                let single = single_in(
                    plan, marks, horizon, first, lists, counts, rows, part, notes, noted, width, mask, x, r,
                );
                noted = removal_in(
                    plan, marks, horizon, first, lists, counts, rows, part, notes, single, width, mask, x, r,
                );
            }
            noted
        }

        // The part of the next table that belongs to point x, from the raised cells; it has the point's cells before. What lies past it is untouched.
        // Gives the number of its cells that are above the table's; their places are noted.
        pub fn refill_point(
            plan: &[u8],
            marks: &[u8; 256],
            horizon: u64,
            first: &[u32],
            lists: &[u16],
            counts: &[usize],
            rows: &[u16],
            part: &mut [u32],
            notes: &mut [u16],
            width: usize,
            mask: usize,
            x: usize,
            over: bool,
        ) -> usize {
            let edged =
                fill_edges(plan, marks, horizon, first, lists, counts, rows, part, notes, 0, width, mask, x);
            let far = horizon_at(
                plan, marks, horizon, first, lists, counts, rows, part, notes, edged, width, mask, x, over,
            );
            fill_removals(plan, marks, horizon, first, lists, counts, rows, part, notes, far, width, mask, x)
        }
    }
}

// Sets of points, a bit for each, and the points that a round concerns.
mod rounds_points {
    pub use self::concern::concerned;
    pub use self::concern::find_dependents;
    pub use self::concern::find_givers;
    pub use self::sets::bit;
    pub use self::sets::has;
    pub use self::sets::lowest;
    pub use self::sets::without;

    // Which points a round concerns: those of which a rule may give a line from a cell that the last round raised.
    mod concern {
        use super::super::plan::edge_from_at;
        use super::super::plan::edge_to_at;
        use super::super::plan::edges;
        use super::super::plan::edges_at;
        use super::super::plan::link_activation;
        use super::super::plan::link_finish;
        use super::super::plan::links;
        use super::super::plan::observer;
        use super::super::plan::propositions;
        use super::sets::bit;
        use super::sets::lowest;
        use super::sets::without;

        // Adds point x to the set of point y.
        fn add(sets: &mut [usize], y: usize, x: usize) {
            sets[y] = sets[y] | bit(x);
        }

        fn depend_by_edges(plan: &[u8], sets: &mut [usize]) {
            let n = edges(plan);
            let ends = edges_at(plan);
            for i in 0..n {
                add(sets, edge_to_at(plan, ends, i), edge_from_at(plan, ends, i));
            }
        }

        fn depend_by_links(plan: &[u8], sets: &mut [usize]) {
            let n = links(plan);
            for i in 0..n {
                let a = link_activation(plan, i);
                let c = link_finish(plan, i);
                add(sets, a, c);
                add(sets, c, a);
            }
        }

        // For each point, those of which rules 1 to 3 give a line from one of its lines; horizon edges are left out.
        pub fn find_dependents(plan: &[u8], sets: &mut [usize]) {
            depend_by_edges(plan, sets);
            depend_by_links(plan, sets);
        }

        fn activations(plan: &[u8]) -> usize {
            let n = links(plan);
            let mut set = 0;
            for i in 0..n {
                set = set | bit(link_activation(plan, i));
            }
            set
        }

        fn observers(plan: &[u8]) -> usize {
            let n = propositions(plan);
            let mut set = 0;
            for j in 0..n {
                set = set | bit(observer(plan, j));
            }
            set
        }

        // The activations and the observing points: the second parents of rules 4 and 6 are theirs.
        pub fn find_givers(plan: &[u8]) -> usize {
            activations(plan) | observers(plan)
        }

        // The points that depend on one of a set of points below n.
        fn dependents_of(sets: &[usize], _n: usize, changed: usize) -> usize {
            let mut left = changed;
            let mut found = 0;
            while left != 0 {
                let y = lowest(left);
                left = without(left, y);
                found = found | sets[y];
            }
            found
        }

        // The points with a line beside the starting line of which rules 4 to 6 may give a line.
        fn lined_of(_n: usize, changed: usize, lined: usize, givers: usize) -> usize {
            if changed & givers != 0 {
                return lined;
            }
            lined & changed
        }

        // The points below n that a round concerns after one that changed some of them; those with a line beside the starting line are in `lined`.
        pub fn concerned(sets: &[usize], n: usize, changed: usize, lined: usize, givers: usize) -> usize {
            dependents_of(sets, n, changed) | lined_of(n, changed, lined, givers)
        }
    }

    // Sets of points, of which a plan has at most 32: a number with a bit for each.
    mod sets {
        pub fn bit(x: usize) -> usize {
            1 << x
        }

        pub fn has(set: usize, x: usize) -> bool {
            set >> x & 1 == 1
        }

        // The lowest point of a set that has one.
        pub fn lowest(set: usize) -> usize {
            usize::trailing_zeros(set) as usize
        }

        pub fn without(set: usize, x: usize) -> usize {
            set - bit(x)
        }
    }
}

// Lent tables: their first cells, one round, and what is known of a table between rounds.
mod rounds_tables {
    pub use self::cells::clear_cells;
    pub use self::cells::first_alarm_waits;
    pub use self::cells::same_cells;
    pub use self::lines::list_lines;
    pub use self::making::next_round;
    pub use self::settling::lined_after;
    pub use self::settling::over_horizon;
    pub use self::settling::settle;

    // The first cells of lent tables: whether they agree, whether one is above 0, and zeros.
    mod cells {
        use super::super::rounds_points::has;

        // How many cells of point x are to be compared: none where it is outside the set.
        fn to_compare(set: usize, x: usize, width: usize) -> usize {
            if has(set, x) {
                return width;
            }
            0
        }

        // Whether the first cells of two tables agree, point by point up to the first cell that differs. Outside the set of points they do.
        pub fn same_cells(first: &[u32], second: &[u32], points: usize, width: usize, set: usize) -> bool {
            let mut agree = true;
            'walk: for x in 0..points {
                let start = x * width;
                let end = to_compare(set, x, width);
                for t in 0..end {
                    if first[start + t] != second[start + t] {
                        agree = false;
                        break 'walk;
                    }
                }
            }
            agree
        }

        // Whether one of the first n cells, those of the first alarm, is above 0.
        pub fn first_alarm_waits(table: &[u32], n: usize) -> bool {
            for c in 0..n {
                if table[c] != 0 {
                    return true;
                }
            }
            false
        }

        // The first n cells at 0.
        pub fn clear_cells(table: &mut [u32], n: usize) {
            for c in 0..n {
                table[c] = 0;
            }
        }
    }

    // The lines of a table listed, where rounds begin from it: they count as raised.
    mod lines {
        // The lines of point y, twice: its starting line, and a line for each cell above 0. Gives their number.
        fn list_point(table: &[u32], lists: &mut [u16], width: usize, y: usize) -> usize {
            let base = y * width;
            let raised = 2 * y * width;
            let lines = (2 * y + 1) * width;
            let mut n = 0;
            for c in 0..width {
                if c == 0 || table[base + c] != 0 {
                    lists[raised + n] = c as u16;
                    lists[lines + n] = c as u16;
                    n += 1;
                }
            }
            n
        }

        // The lines of every point.
        pub fn list_lines(
            table: &[u32],
            lists: &mut [u16],
            counts: &mut [usize],
            points: usize,
            width: usize,
        ) {
            for y in 0..points {
                let n = list_point(table, lists, width, y);
                counts[2 * y] = n;
                counts[2 * y + 1] = n;
            }
        }
    }

    // One round from a lent table to another.
    mod making {
        use super::super::plan::cells;
        use super::super::rounds_points::lowest;
        use super::super::rounds_points::without;
        use super::super::rules_refill::refill_point;

        // One round where the second table has the first's cells: the points of a set are filled from the cells that the last round raised.
        // Of each point it notes how many of its cells it raised, and their places.
        pub fn next_round(
            plan: &[u8],
            marks: &[u8; 256],
            horizon: u64,
            first: &[u32],
            second: &mut [u32],
            lists: &[u16],
            counts: &[usize],
            rows: &[u16],
            notes: &mut [u16],
            noted: &mut [usize],
            width: usize,
            mask: usize,
            set: usize,
            over: bool,
        ) {
            let end = cells(plan);
            let mut left = set;
            while left != 0 {
                let x = lowest(left);
                left = without(left, x);
                let start = x * width;
                noted[x] = refill_point(
                    plan,
                    marks,
                    horizon,
                    &first[..end],
                    lists,
                    counts,
                    rows,
                    &mut second[start..],
                    &mut notes[start..start + width],
                    width,
                    mask,
                    x,
                    over,
                );
            }
        }
    }

    // After a round: its raised cells into the other table, and into the lists that the next round goes by.
    mod settling {
        use super::super::plan::cell_at;
        use super::super::plan::widen_word;
        use super::super::rounds_points::bit;
        use super::super::rounds_points::lowest;
        use super::super::rounds_points::without;

        // One cell of a point, whose cells start at base, from one table to the other; a cell that was 0 is a line from now on.
        // The point's lines are listed from `at` on; gives their number.
        fn settle_cell(
            source: &[u32],
            target: &mut [u32],
            lists: &mut [u16],
            base: usize,
            at: usize,
            known: usize,
            place: usize,
            _width: usize,
        ) -> usize {
            let c = base + place;
            let was = target[c];
            target[c] = source[c];
            if was != 0 {
                return known;
            }
            if place == 0 {
                return known;
            }
            lists[at + known] = place as u16;
            known + 1
        }

        // The n noted cells of point y: they are its raised cells of the next round. Gives the number of its lines.
        fn settle_point(
            source: &[u32],
            target: &mut [u32],
            notes: &[u16],
            n: usize,
            lists: &mut [u16],
            known: usize,
            width: usize,
            y: usize,
        ) -> usize {
            let base = y * width;
            let raised = 2 * y * width;
            let lines = (2 * y + 1) * width;
            let mut lined = known;
            for i in 0..n {
                let place = notes[base + i];
                lists[raised + i] = place;
                lined = settle_cell(source, target, lists, base, lines, lined, widen_word(place), width);
            }
            lined
        }

        // The noted cells of the points of a set, which has all points with notes or raised places. Gives the set of the points that have notes; then none has.
        pub fn settle(
            source: &[u32],
            target: &mut [u32],
            notes: &[u16],
            noted: &mut [usize],
            lists: &mut [u16],
            counts: &mut [usize],
            _points: usize,
            width: usize,
            set: usize,
        ) -> usize {
            let mut left = set;
            let mut changed = 0;
            while left != 0 {
                let y = lowest(left);
                left = without(left, y);
                let n = noted[y];
                noted[y] = 0;
                counts[2 * y] = n;
                if n != 0 {
                    counts[2 * y + 1] =
                        settle_point(source, target, notes, n, lists, counts[2 * y + 1], width, y);
                    changed = changed | bit(y);
                }
            }
            changed
        }

        // The points with a line beside the starting line: those that had one, and changed points that have one.
        pub fn lined_after(counts: &[usize], _points: usize, changed: usize, lined: usize) -> usize {
            let mut left = changed;
            let mut found = lined;
            while left != 0 {
                let y = lowest(left);
                left = without(left, y);
                if 1 < counts[2 * y + 1] {
                    found = found | bit(y);
                }
            }
            found
        }

        // Whether one of n listed cells of a point waits longer than the horizon.
        fn any_over(
            table: &[u32],
            lists: &[u16],
            base: usize,
            start: usize,
            n: usize,
            _width: usize,
            horizon: u64,
        ) -> bool {
            for i in 0..n {
                let c = widen_word(lists[start + i]);
                if horizon < cell_at(table, base + c) {
                    return true;
                }
            }
            false
        }

        // Whether a raised cell of one of the changed points waits longer than the horizon.
        pub fn over_horizon(
            table: &[u32],
            lists: &[u16],
            counts: &[usize],
            _points: usize,
            width: usize,
            changed: usize,
            horizon: u64,
        ) -> bool {
            let mut left = changed;
            while left != 0 {
                let y = lowest(left);
                left = without(left, y);
                if any_over(table, lists, y * width, 2 * y * width, counts[2 * y], width, horizon) {
                    return true;
                }
            }
            false
        }
    }
}

// The making of rounds, and what they end with.
mod rounds_making {
    pub use self::making::rounds_to;

    // What rounds and the check answer; specs/Outcomes says what each stands for.
    pub enum Answer {
        Kept(u64),
        Broken(u64),
        Spent(u64),
        Refused(u32),
    }

    // One round of both tables, and rounds up to a limit.
    mod making {
        use super::super::plan::cells;
        use super::super::plan::points;
        use super::super::plan::width as point_width;
        use super::super::rounds_points::concerned;
        use super::super::rounds_points::find_dependents;
        use super::super::rounds_points::find_givers;
        use super::super::rounds_tables::first_alarm_waits;
        use super::super::rounds_tables::lined_after;
        use super::super::rounds_tables::list_lines;
        use super::super::rounds_tables::next_round;
        use super::super::rounds_tables::over_horizon;
        use super::super::rounds_tables::same_cells;
        use super::super::rounds_tables::settle;
        use super::super::rules_fill::label_mask;
        use super::super::rules_rows::read_rows;
        use super::Answer;

        // Whether a round that changed these points stops the rounds: the first alarm waits, or both tables agree. They are compared where no point changed, at the points that it filled.
        fn stops(
            first: &[u32],
            second: &[u32],
            points: usize,
            width: usize,
            waits: bool,
            changed: usize,
            filled: usize,
        ) -> bool {
            if waits {
                return true;
            }
            if changed & 1 != 0 {
                return true;
            }
            if changed != 0 {
                return false;
            }
            same_cells(first, second, points, width, filled)
        }

        // The points to fill in a round: those that it concerns, and the first alarm where a raised cell is over the horizon.
        fn points_to_fill(
            sets: &[usize],
            n: usize,
            changed: usize,
            lined: usize,
            givers: usize,
            over: bool,
        ) -> usize {
            let found = concerned(sets, n, changed, lined, givers);
            if over {
                return found | 1;
            }
            found
        }

        // A round made: whether it stops the rounds, the points that it changed, those with a line beside the starting line, and whether a raised cell is over the horizon.
        pub struct Round {
            pub stops: bool,
            pub changed: usize,
            pub lined: usize,
            pub over: bool,
        }

        // One round of both tables, which have the same cells before it and after it.
        fn make_round(
            plan: &[u8],
            marks: &[u8; 256],
            horizon: u64,
            first: &mut [u32],
            second: &mut [u32],
            lists: &mut [u16],
            counts: &mut [usize],
            notes: &mut [u16],
            noted: &mut [usize],
            rows: &[u16],
            width: usize,
            mask: usize,
            set: usize,
            last: Round,
        ) -> Round {
            let n = points(plan);
            next_round(
                plan, marks, horizon, first, second, lists, counts, rows, notes, noted, width, mask, set,
                last.over,
            );
            let changed = settle(second, first, notes, noted, lists, counts, n, width, set | last.changed);
            Round {
                stops: stops(first, second, n, width, last.stops, changed, set),
                changed: changed,
                lined: lined_after(counts, n, changed, last.lined),
                over: over_horizon(second, lists, counts, n, width, changed, horizon),
            }
        }

        // The answer of the round that stopped.
        fn ending(table: &[u32], width: usize, made: u64) -> Answer {
            if first_alarm_waits(table, width) {
                return Answer::Broken(made);
            }
            Answer::Kept(made)
        }

        // Rounds from two tables with the same cells, up to the limit, with what is known of them in the lists.
        fn rounds_from(
            plan: &[u8],
            marks: &[u8; 256],
            horizon: u64,
            first: &mut [u32],
            second: &mut [u32],
            limit: u64,
            lists: &mut [u16],
            counts: &mut [usize],
            notes: &mut [u16],
            lined: usize,
            over: bool,
        ) -> Answer {
            let n = points(plan);
            let width = point_width(plan);
            let mask = label_mask(plan);
            let mut rows = [0u16; 692];
            read_rows(plan, &mut rows);
            let mut dependents = [0usize; 32];
            find_dependents(plan, &mut dependents);
            let givers = find_givers(plan);
            let mut noted = [0usize; 32];
            let mut last = Round {
                stops: first_alarm_waits(first, width),
                changed: (1 << n) - 1,
                lined: lined,
                over: over,
            };
            let mut made = 0;
            while made < limit {
                made += 1;
                let set = points_to_fill(&dependents, n, last.changed, last.lined, givers, last.over);
                last = make_round(
                    plan, marks, horizon, first, second, lists, counts, notes, &mut noted, &rows, width,
                    mask, set, last,
                );
                if last.stops {
                    return ending(second, width, made);
                }
            }
            Answer::Spent(made)
        }

        // The lists before the first round. A table of zeros has the starting lines alone, and so do lists of zeros; else all lines are listed. Gives a set that has
        // the points with more lines.
        fn first_lists(
            plan: &[u8],
            first: &[u32],
            lists: &mut [u16],
            counts: &mut [usize],
            zeros: bool,
        ) -> usize {
            if zeros {
                return 0;
            }
            let n = points(plan);
            list_lines(first, lists, counts, n, point_width(plan));
            (1 << n) - 1
        }

        // Rounds with lists of four sizes, so that small plans pay nothing for large ones.
        fn run_tiny(
            plan: &[u8],
            marks: &[u8; 256],
            horizon: u64,
            first: &mut [u32],
            second: &mut [u32],
            limit: u64,
            zeros: bool,
        ) -> Answer {
            let mut lists = [0u16; 128];
            let mut notes = [0u16; 64];
            let mut counts = [1usize; 64];
            let lined = first_lists(plan, first, &mut lists, &mut counts, zeros);
            rounds_from(
                plan,
                marks,
                horizon,
                first,
                second,
                limit,
                &mut lists,
                &mut counts,
                &mut notes,
                lined,
                !zeros,
            )
        }

        fn run_small(
            plan: &[u8],
            marks: &[u8; 256],
            horizon: u64,
            first: &mut [u32],
            second: &mut [u32],
            limit: u64,
            zeros: bool,
        ) -> Answer {
            let mut lists = [0u16; 1024];
            let mut notes = [0u16; 512];
            let mut counts = [1usize; 64];
            let lined = first_lists(plan, first, &mut lists, &mut counts, zeros);
            rounds_from(
                plan,
                marks,
                horizon,
                first,
                second,
                limit,
                &mut lists,
                &mut counts,
                &mut notes,
                lined,
                !zeros,
            )
        }

        fn run_middle(
            plan: &[u8],
            marks: &[u8; 256],
            horizon: u64,
            first: &mut [u32],
            second: &mut [u32],
            limit: u64,
            zeros: bool,
        ) -> Answer {
            let mut lists = [0u16; 4096];
            let mut notes = [0u16; 2048];
            let mut counts = [1usize; 64];
            let lined = first_lists(plan, first, &mut lists, &mut counts, zeros);
            rounds_from(
                plan,
                marks,
                horizon,
                first,
                second,
                limit,
                &mut lists,
                &mut counts,
                &mut notes,
                lined,
                !zeros,
            )
        }

        fn run_large(
            plan: &[u8],
            marks: &[u8; 256],
            horizon: u64,
            first: &mut [u32],
            second: &mut [u32],
            limit: u64,
            zeros: bool,
        ) -> Answer {
            let mut lists = [0u16; 32768];
            let mut notes = [0u16; 16384];
            let mut counts = [1usize; 64];
            let lined = first_lists(plan, first, &mut lists, &mut counts, zeros);
            rounds_from(
                plan,
                marks,
                horizon,
                first,
                second,
                limit,
                &mut lists,
                &mut counts,
                &mut notes,
                lined,
                !zeros,
            )
        }

        // Rounds from two tables with the same cells, up to the limit; zeros says that all their cells are 0.
        pub fn rounds_to(
            plan: &[u8],
            marks: &[u8; 256],
            horizon: u64,
            first: &mut [u32],
            second: &mut [u32],
            limit: u64,
            zeros: bool,
        ) -> Answer {
            let end = cells(plan);
            if end <= 64 {
                return run_tiny(plan, marks, horizon, first, second, limit, zeros);
            }
            if end <= 512 {
                return run_small(plan, marks, horizon, first, second, limit, zeros);
            }
            if end <= 2048 {
                return run_middle(plan, marks, horizon, first, second, limit, zeros);
            }
            run_large(plan, marks, horizon, first, second, limit, zeros)
        }
    }
}

// Rounds and the check.
mod rounds {
    pub use self::running::check;
    pub use super::rounds_making::Answer;

    // Rounds from the cells of a table or from zeros, and the check.
    mod running {
        use super::super::plan::cells;
        use super::super::plan::horizon as horizon_of;
        use super::super::plan::plain_marks;
        use super::super::plan_refusal::refusal;
        use super::super::rounds_making::rounds_to;
        use super::super::rounds_tables::clear_cells;
        use super::Answer;

        // Rounds from zeros, with a horizon that is no shorter than the plan's own.
        pub fn run_from_zeros(
            plan: &[u8],
            horizon: u64,
            first: &mut [u32],
            second: &mut [u32],
            limit: u64,
        ) -> Answer {
            let end = cells(plan);
            clear_cells(first, end);
            clear_cells(second, end);
            let marks = plain_marks();
            rounds_to(plan, &marks, horizon, first, second, limit, true)
        }

        // Kept or broken with R, spent with the limit, or refused with the refusal's number; refused, the tables are untouched.
        pub fn check(plan: &[u8], first: &mut [u32], second: &mut [u32], limit: u64) -> Answer {
            let number = refusal(plan);
            if number != 0 {
                return Answer::Refused(number);
            }
            let end = cells(plan);
            if first.len() < end {
                return Answer::Refused(6);
            }
            if second.len() < end {
                return Answer::Refused(6);
            }
            run_from_zeros(plan, horizon_of(plan), first, second, limit)
        }
    }
}
