/* Prints the scrub list of a small drive shelf: plan S as it is written, and its rewriting.
 * Build: tools/build tunesaturn && cc -Iinclude -o scrub_list examples/scrub_list.c target/staticlib/libtunesaturn.a */
#include <inttypes.h>
#include <stdio.h>
#include <stdlib.h>
#include "tunesaturn.h"

enum { DRIVES = 5, SCRUBS = 4, LIMIT = 32, WIDEST = 3 };

/* Plan S: the drives that were scrubbed fewer than two times, each with its count of scrubs. */
static const uint32_t S[67] = {
    67, 2, 8, 6, 10, 3, 46, 0, /* header: total, tables, their widths at 8, nodes at 10, items at 46 */
    1, 1,                      /* widths of drives and scrubs */
    1, 0, 0, 0, 0, 0,          /* 0 scan drives */
    1, 1, 0, 0, 0, 0,          /* 1 scan scrubs */
    2, 1, 0, 0, 0, 1,          /* 2 select 1: local 0 = outer 0,0 */
    6, 2, 0, 0, 1, 1,          /* 3 group 2: count */
    8, 0, 3, 1, 2, 0,          /* 4 dependent inner join 0, 3 */
    2, 4, 0, 0, 2, 1,          /* 5 select 4: local 1 < 2 */
    1, 0, 0, 0, 1, 0, 0,       /* local 0 = outer 0,0 */
    13, 0, 0, 0, 0, 0, 0,      /* count */
    3, 0, 0, 1, 2, 0, 2};      /* local 1 < 2 */

/* Drive 3 was never scrubbed; drive 2 stands twice; one drive and one scrub have no number. */
static const uint32_t counts[2] = {DRIVES, SCRUBS};
static const int64_t cells[DRIVES + SCRUBS] = {
    1, 2, 3, TUNESATURN_NULL, 2,
    1, 1, 2, TUNESATURN_NULL};

static void refused(const char *what, tunesaturn_answer answer) {
    printf("%s: refused %" PRIu32 " %" PRIu32 "\n", what, answer.number, answer.node);
    exit(1);
}

/* nodes: word 3 of a plan table. */
static void print_rows(const char *what, const uint32_t *words, size_t length) {
    size_t room = (size_t)words[3] * LIMIT * WIDEST;
    int64_t *scratch = calloc(room, sizeof *scratch);
    int64_t out[LIMIT * 2];
    if (scratch == NULL) exit(1);
    tunesaturn_answer answer = tunesaturn_evaluate(words, length, counts, 2, cells, DRIVES + SCRUBS, LIMIT, scratch, room, out, LIMIT * 2);
    if (answer.number != 0) refused(what, answer);
    printf("%s:", what);
    for (uint64_t row = 0; row < answer.count; row++) {
        if (out[2 * row] == TUNESATURN_NULL) printf(" (null,%" PRId64 ")", out[2 * row + 1]);
        else printf(" (%" PRId64 ",%" PRId64 ")", out[2 * row], out[2 * row + 1]);
    }
    printf("\n");
    free(scratch);
}

int main(void) {
    static uint32_t rewritten[TUNESATURN_LONGEST];
    tunesaturn_answer answer = tunesaturn_check(S, 67);
    if (answer.number != 0) refused("check", answer);
    print_rows("S as written", S, 67);
    answer = tunesaturn_rewrite(S, 67, rewritten, TUNESATURN_LONGEST);
    if (answer.number != 0) refused("rewriting", answer);
    print_rows("S rewritten", rewritten, answer.count);
    return 0;
}
