/* The C interface of Sulgrach.
 *
 * Memory. A slice is a pointer and a length in elements. The pointer is not null, also where the length is 0, it is
 * aligned for its elements, and that many elements are the caller's to lend until the call returns. A slice that a call
 * writes overlaps no other slice of that call. A call touches nothing outside the lengths, keeps no pointer, allocates
 * nothing and always returns. There is no state between calls, so calls on memory of their own may run side by side.
 *
 * Cells. A plan has points x 2^links x 4^facts cells. The wait of a point under a link set and a label stands in the
 * cell (point x 2^links + set) x 4^facts + label; 0 means that none was found.
 *
 * Time. A check makes rounds until it can tell, and some plans need millions. A caller that cannot wait sets a smaller
 * limit and may then be told SULGRACH_SPENT.
 *
 * The codes of sulgrach_check, sulgrach_check_classes and sulgrach_list:
 *
 *     SULGRACH_KEPT              0   a panel can keep the plan
 *     SULGRACH_BROKEN            1   no panel can
 *     SULGRACH_SPENT             2   the limit was too small to tell
 *     SULGRACH_REFUSED + N   100+N   turned down for the reason N
 *
 * Those of sulgrach_page, sulgrach_breaking_rows, sulgrach_with_labels and sulgrach_without_labels:
 *
 *     SULGRACH_DONE              0   the page or the plan is in the output; the rows are marked
 *     SULGRACH_REFUSED + N   100+N   turned down for the reason N
 *
 * The two forms of a plan. A plan may carry a label for each of its points, n bytes after the observing points: the output
 * at that point exists only where the label's answers are given. Its length tells that it does: 4 + p + 6(k + e) bytes
 * without labels, 4 + p + n + 6(k + e) with them, for n points, p facts, k links and e edges. Every call but the two
 * conversions reads both forms. The labels must fit the edges and links, or the plan is refused with 18; a plan that is not
 * refused gets the same answer with them as without them, to the cell.
 *
 * The reasons. Those of the plan are judged first, in the order: under 4 bytes, 2, length, 3, 17, 4, 5, 18. Then come
 *
 *     6                  sulgrach_check
 *     6, 7               sulgrach_list
 *     14, 15, 6          sulgrach_check_classes
 *     6, 12, 13          sulgrach_page
 *     6, 16              sulgrach_breaking_rows
 *     7                  sulgrach_with_labels
 *     19, 7              sulgrach_without_labels
 *     8, then 9 and 10 line by line, 11     sulgrach_replay
 *
 *      1   the plan has under 4 bytes, or a length that is none of the two that its sizes ask for; a conversion takes only
 *          the one that it starts from
 *      2   a size, or the number of cells, is out of bounds
 *      3   an observing point is the first alarm, no point of the plan, or used twice
 *      4   a link has an end that is no point, equal ends, an end that is the first alarm, observing or used twice, or
 *          durations that are not 0 < least < most <= SULGRACH_SECONDS
 *      5   an edge has an end that is no point, equal ends, a weight beyond SULGRACH_SECONDS either way, a wrong label,
 *          or a last byte that is not 0
 *      6   a lent table is shorter than the plan's cells, or the marks are fewer than its edges
 *      7   the listing has over 4,096 lines or is longer than the output      (sulgrach_list)
 *          the output is too short for the plan                               (the conversions)
 *      8   the bytes are not laid out as a listing of 1 to 4,096 lines        (sulgrach_replay)
 *      9   a line's point, set, label, rule, row or parent is out of range    (sulgrach_replay)
 *     10   a line is not what its rule gives                                  (sulgrach_replay)
 *     11   the last line does not make the first alarm wait for itself        (sulgrach_replay)
 *     12   a cell of the table is above 999,999                               (sulgrach_page)
 *     13   the output is too short for all lines                              (sulgrach_page)
 *     14   there are not as many classes as links, or a class is above 6      (sulgrach_check_classes)
 *     15   a link is narrower than its class                                  (sulgrach_check_classes)
 *     16   the plan is kept                                                   (sulgrach_breaking_rows)
 *     17   a point's label is not plain, speaks of a fact that the plan does not have, or is not 0 at the first alarm
 *     18   the labels of points do not fit: an edge's label lacks an answer of the label of one of its ends, or of the
 *          observing point of a fact that it names; a point's label lacks one of the observing point of a fact that it
 *          names, or no edge of negative weight with exactly that label runs from the point to that observing point; or
 *          the two ends of a link have different labels
 *     19   a point has a label that is not 0                                  (sulgrach_without_labels)
 */
#ifndef SULGRACH_H
#define SULGRACH_H

#include <stddef.h>
#include <stdint.h>

#ifdef __cplusplus
extern "C" {
#endif

/* Goes up with each version that changes a call's parameters; the first, which did not name it, is 1. Since 2 the limit and
 * the numbers of an answer are 64 bits wide. */
#define SULGRACH_INTERFACE 2

#define SULGRACH_DONE 0
#define SULGRACH_KEPT 0
#define SULGRACH_BROKEN 1
#define SULGRACH_SPENT 2
#define SULGRACH_REFUSED 100

/* No accepted plan is longer, in bytes, so an output of this length is never too short for a conversion. */
#define SULGRACH_PLAN 832

/* No time of an accepted plan is longer, in seconds. */
#define SULGRACH_SECONDS 28800

/* No plan has more cells, so tables of this length are never too short. */
#define SULGRACH_CELLS 16384

/* No plan has more edges, so marks of this length are never too few. */
#define SULGRACH_EDGES 128

/* With this limit no accepted plan is spent. */
#define SULGRACH_ROUNDS UINT64_C(15571369985)

/* No listing is longer, in bytes. */
#define SULGRACH_LISTING 57346

/* No page is longer, in bytes. */
#define SULGRACH_PAGE 360448

/* Each call takes less stack than this, in bytes. Measured, not proved: a call that makes rounds (check, check_classes, list,
 * breaking_rows) took up to 136,760, most of it lists of cells, whatever the plan; the others took up to 3,400. */
#define SULGRACH_STACK 163840

/* The check of a plan, with two tables and a limit of rounds; the answer is a code. What is written:
 *
 *     kept, broken, spent   the plan's cells of `first` and of `second`: both hold the waits of the last round;
 *                           rounds[0], if there is one: the number of rounds
 *     refused               nothing
 *
 * Entries of the tables past the plan's cells are never written, nor are those of `rounds` past the first. */
uint32_t sulgrach_check(
    const uint8_t *plan, size_t plan_length,
    uint32_t *first, size_t first_length,
    uint32_t *second, size_t second_length,
    uint64_t limit,
    uint64_t *rounds, size_t rounds_length);

/* The check of a plan whose links have device classes. `classes` has one byte for each link, in the order of the links:
 * 0 for a link without a class, else the number of its class in the house table:
 *
 *     class                least   most, in seconds
 *     1   lift homing         10     90
 *     2   smoke damper         5     60
 *     3   door closer          2     25
 *     4   shutter             15    120
 *     5   staff search        60    300
 *     6   extract fan          8     45
 *
 * A link with a class must have a least duration no larger than the class's least and a most duration no smaller than
 * its most; else it is narrower than its class, and the plan is refused. A plan that passes is checked as by
 * sulgrach_check, to the cell: the same code, and the same is written. Refused, nothing is written. */
uint32_t sulgrach_check_classes(
    const uint8_t *plan, size_t plan_length,
    const uint8_t *classes, size_t classes_length,
    uint32_t *first, size_t first_length,
    uint32_t *second, size_t second_length,
    uint64_t limit,
    uint64_t *rounds, size_t rounds_length);

/* The check, and where the plan is broken the listing that shows it; the answer is a code. What is written:
 *
 *     kept, spent           `first`, `second` and numbers[0], as the check writes its tables and rounds[0]
 *     broken                the same; numbers[1], if there is one: the listing's length in bytes; so many bytes of `out`:
 *                           the listing, which sulgrach_replay accepts; the plan's cells of `index`: see below
 *     refused, 7            `first` and `second`, as the check writes them
 *     refused, any other    nothing, also where only `index` is too short
 *
 * Nothing else is written: no entry of the three tables past the plan's cells, none of `numbers` past the second, and no
 * byte of `out` past the listing.
 *
 * `index` then holds for each cell the number that its last line has as a parent: the number of points plus the line's
 * number, counted from 0. A cell without a line has X for point X with link set 0 and label 0, and else 0. */
uint32_t sulgrach_list(
    const uint8_t *plan, size_t plan_length,
    uint32_t *first, size_t first_length,
    uint32_t *second, size_t second_length,
    uint64_t limit,
    uint16_t *index, size_t index_length,
    uint8_t *out, size_t out_length,
    uint64_t *numbers, size_t numbers_length);

/* Replay of a listing: 0 where its lines derive from the plan that the first alarm waits for itself, so that no panel can
 * keep it; else the reason, as N and not as 100+N: 1 to 5, 17 and 18 for the plan, 8 to 11 for the listing. Nothing is written. */
uint32_t sulgrach_replay(
    const uint8_t *plan, size_t plan_length,
    const uint8_t *listing, size_t listing_length);

/* The page of a plan and a table, one that the check left or any other: one line for each of the plan's cells above 0, in
 * the order of the cells; the answer is a code. A line has 21 characters and a newline:
 *
 *     columns  1 to 2    the point, right-aligned
 *     columns  4 to 7    column 4 + i: i where link i is in the link set, else a full stop
 *     columns  9 to 12   column 9 + j: + where fact j is yes, - where no, ? where unknown, else a full stop
 *     column  14         the number of links in the link set
 *     columns 16 to 21   the wait, right-aligned
 *
 * The other columns are blank. What is written:
 *
 *     done                  the page, from the start of `out` on, without a 0 after it;
 *                           numbers[0], if there is one: its length in bytes
 *     refused               nothing
 *
 * Entries of `table` past the plan's cells are not looked at; bytes of `out` past the page are never written, nor are
 * entries of `numbers` past the first. */
uint32_t sulgrach_page(
    const uint8_t *plan, size_t plan_length,
    const uint32_t *table, size_t table_length,
    uint8_t *out, size_t out_length,
    uint64_t *numbers, size_t numbers_length);

/* The edge rows that break a plan; the answer is a code. The rows are tried in their order, and each is left out if the
 * links and the other rows that are left are still broken without it. So the rows that remain are broken, and with any
 * one of them removed the plan is kept. A plan that its links break by themselves is left with no row.
 *
 * Each trial is a check with the horizon of the whole plan, and with as many rounds as the whole plan can need, so that
 * no trial is spent and a plan with fewer rows waits no longer. Rows are tried several at once where that comes to the
 * same; but a trial can take far longer than the check of the plan, since a contradiction that is left may be harder to
 * find. What is written:
 *
 *     done                  rows[i] for each edge i: 1 if it remains, else 0;
 *                           numbers[0], if there is one: how many rows remain;
 *                           the plan's cells of `first` and of `second`: both hold the waits of a trial of these rows
 *     refused, 16           the plan's cells of `first` and of `second`: both hold the waits of the whole plan
 *     refused, any other    nothing, also where only `rows` is too short
 *
 * Entries of the tables past the plan's cells are never written, nor are marks past the edges or entries of `numbers`
 * past the first. */
uint32_t sulgrach_breaking_rows(
    const uint8_t *plan, size_t plan_length,
    uint32_t *first, size_t first_length,
    uint32_t *second, size_t second_length,
    uint8_t *rows, size_t rows_length,
    uint64_t *numbers, size_t numbers_length);

/* A plan from the form without labels on points to the form with them, all 0, and from the form with them, where all are
 * 0, to the form without. There and back gives the same bytes, both ways. The answer is a code. What is written:
 *
 *     done                  the plan in the other form, from the start of `out` on;
 *                           numbers[0], if there is one: its length in bytes
 *     refused               nothing
 *
 * Bytes of `out` past the plan are never written, nor are entries of `numbers` past the first. */
uint32_t sulgrach_with_labels(
    const uint8_t *plan, size_t plan_length,
    uint8_t *out, size_t out_length,
    uint64_t *numbers, size_t numbers_length);

uint32_t sulgrach_without_labels(
    const uint8_t *plan, size_t plan_length,
    uint8_t *out, size_t out_length,
    uint64_t *numbers, size_t numbers_length);

#ifdef __cplusplus
}
#endif

#endif
