/* Prints how much stack a call of the library takes.
 *
 *     stack check|classes0|classes3|classes7|list|replay|page|page12|page13|rows|with|with7|without|without7 LIMIT PLAN...
 *
 * The call runs on a stack of its own, filled with a pattern beforehand; afterwards the pattern is gone as far down as
 * the call went. For each plan a line: the call's code, bytes of stack. The caller's arguments and its way into the call
 * are counted too. */
#include <stdio.h>
#include <stdlib.h>
#include <string.h>
#include <ucontext.h>
#include "sulgrach.h"

#define STACK (1024 * 1024)
#define PATTERN 0xA5

static uint64_t numbers[2], limit;
static uint32_t first[SULGRACH_CELLS], second[SULGRACH_CELLS], code;
static uint16_t lines[SULGRACH_CELLS];
static uint8_t plan[SULGRACH_PLAN + 1], classes[255], out[SULGRACH_LISTING], text[SULGRACH_PAGE], marks[SULGRACH_EDGES], stack[STACK];
static size_t length, text_length, out_length;
static ucontext_t outside, inside;

static void check(void) {
    code = sulgrach_check(plan, length, first, SULGRACH_CELLS, second, SULGRACH_CELLS, limit, numbers, 2);
}

/* A class for each link. */
static void check_classes(void) {
    code = sulgrach_check_classes(plan, length, classes, plan[2], first, SULGRACH_CELLS, second, SULGRACH_CELLS, limit,
        numbers, 2);
}

static void list(void) {
    code = sulgrach_list(plan, length, first, SULGRACH_CELLS, second, SULGRACH_CELLS, limit,
        lines, SULGRACH_CELLS, out, sizeof out, numbers, 2);
}

/* Of the listing that was made before. */
static void replay(void) {
    code = sulgrach_replay(plan, length, out, (size_t)numbers[1]);
}

static void page(void) {
    code = sulgrach_page(plan, length, first, SULGRACH_CELLS, text, text_length, numbers, 2);
}

/* Without a limit of rounds. */
static void rows(void) {
    code = sulgrach_breaking_rows(plan, length, first, SULGRACH_CELLS, second, SULGRACH_CELLS, marks, sizeof marks,
        numbers, 2);
}

static void with_labels(void) {
    code = sulgrach_with_labels(plan, length, out, out_length, numbers, 2);
}

static void without_labels(void) {
    code = sulgrach_without_labels(plan, length, out, out_length, numbers, 2);
}

/* All links have the class that the word ends with. Not by memset, see paint. */
static void classify(const char *word) {
    volatile uint8_t *bytes = classes;
    for (size_t i = 0; i < sizeof classes; i++)
        bytes[i] = (uint8_t)(word[7] - '0');
}

/* A line for every cell; page12 and page13 are pages to be refused with 12 and 13. Not the table of a check, which would
 * use memset before the page does. */
static void fill(const char *word) {
    for (size_t i = 0; i < SULGRACH_CELLS; i++)
        first[i] = (uint32_t)i + 1;
    if (strcmp(word, "page12") == 0)
        first[1] = 1000000;
    text_length = strcmp(word, "page13") == 0 ? 21 : sizeof text;
}

/* Not by memset: the call is to be the first to use it, since finding it then takes stack too. */
static void paint(void) {
    volatile uint8_t *bytes = stack;
    for (size_t i = 0; i < STACK; i++)
        bytes[i] = PATTERN;
}

static size_t painted(void) {
    size_t count = 0;
    while (count < STACK && stack[count] == PATTERN)
        count++;
    return count;
}

static size_t measure(void call(void)) {
    paint();
    if (getcontext(&inside) != 0)
        abort();
    inside.uc_stack.ss_sp = stack;
    inside.uc_stack.ss_size = STACK;
    inside.uc_link = &outside;
    makecontext(&inside, call, 0);
    if (swapcontext(&outside, &inside) != 0)
        abort();
    return STACK - painted();
}

int main(int count, char **words) {
    if (count < 4)
        return 2;
    limit = strtoull(words[2], NULL, 10);
    for (int i = 3; i < count; i++) {
        size_t used;
        FILE *file = fopen(words[i], "rb");
        if (file == NULL)
            return 2;
        length = fread(plan, 1, sizeof plan, file);
        fclose(file);
        numbers[1] = 0;
        if (strcmp(words[1], "check") == 0) {
            used = measure(check);
        } else if (strncmp(words[1], "classes", 7) == 0) {
            classify(words[1]);
            used = measure(check_classes);
        } else if (strcmp(words[1], "list") == 0) {
            used = measure(list);
        } else if (strcmp(words[1], "replay") == 0) {
            list();
            used = measure(replay);
        } else if (strcmp(words[1], "rows") == 0) {
            used = measure(rows);
        } else if (strncmp(words[1], "with", 4) == 0) {
            /* with7 and without7 are conversions to be refused with 7. */
            out_length = strchr(words[1], '7') != NULL ? 3 : SULGRACH_PLAN;
            used = measure(strncmp(words[1], "without", 7) == 0 ? without_labels : with_labels);
        } else {
            fill(words[1]);
            used = measure(page);
        }
        printf("%u %zu\n", (unsigned)code, used);
    }
    return 0;
}
