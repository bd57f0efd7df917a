/* Calls the C interface on plan S, on a list of sums, on damaged words, on no words at all, and with too little room; reads every cell that it lends. */
#include <stdio.h>
#include "tunesaturn.h"

static const uint32_t S[67] = {
    67, 2, 8, 6, 10, 3, 46, 0, 1, 1,
    1, 0, 0, 0, 0, 0, 1, 1, 0, 0, 0, 0, 2, 1, 0, 0, 0, 1,
    6, 2, 0, 0, 1, 1, 8, 0, 3, 1, 2, 0, 2, 4, 0, 0, 2, 1,
    1, 0, 0, 0, 1, 0, 0, 13, 0, 0, 0, 0, 0, 0, 3, 0, 0, 1, 2, 0, 2};

/* For each drive the sum of its figures (drive, written). */
static const uint32_t WRITTEN[54] = {
    54, 2, 8, 5, 10, 2, 40, 0, 1, 2,
    1, 0, 0, 0, 0, 0, 1, 1, 0, 0, 0, 0, 2, 1, 0, 0, 0, 1,
    6, 2, 0, 0, 1, 1, 8, 0, 3, 1, 2, 0,
    1, 0, 0, 0, 1, 0, 0, 14, 0, 0, 1, 0, 0, 0};

static int wrong = 0;

static void expect(const char *name, tunesaturn_answer got, uint32_t number, uint32_t node, uint64_t count) {
    if (got.number != number || got.node != node || got.count != count) {
        printf("%s: %u %u %llu\n", name, got.number, got.node, (unsigned long long)got.count);
        wrong = 1;
    }
}

static void fill(int64_t *cells, int count) {
    for (int i = 0; i < count; i++) cells[i] = 7;
}

static void all_are(const char *name, const int64_t *cells, int from, int to, int64_t cell) {
    for (int i = from; i < to; i++) if (cells[i] != cell) { printf("%s: cell %d\n", name, i); wrong = 1; }
}

/* Drive 1 wrote 12, drive 2 wrote 0, drive 3 reported a null, drive 4 nothing at all: as written and rewritten. */
static void sums_of_nothing(void) {
    const uint32_t counts[2] = {4, 5};
    const int64_t cells[14] = {1, 2, 3, 4, 1, 5, 2, 0, 3, TUNESATURN_NULL, 1, 7, 2, TUNESATURN_NULL};
    const int64_t right[8] = {1, 12, 2, 0, 3, TUNESATURN_NULL, 4, TUNESATURN_NULL};
    uint32_t rewritten[110];
    int64_t scratch[8 * 20 * 3], rows[40];
    tunesaturn_answer made = tunesaturn_rewrite(WRITTEN, 54, rewritten, 110);
    expect("the sums rewritten", made, 0, 0, 107);
    const uint32_t *plans[2] = {WRITTEN, rewritten};
    const size_t lengths[2] = {54, 107};
    for (int k = 0; k < 2; k++) {
        fill(rows, 40);
        expect("sums", tunesaturn_evaluate(plans[k], lengths[k], counts, 2, cells, 14, 20, scratch, 480, rows, 40), 0, 0, 4);
        for (int i = 0; i < 8; i++) if (rows[i] != right[i]) { printf("sums: cell %d of plan %d\n", i, k); wrong = 1; }
        all_are("behind the sums", rows, 8, 40, 7);
    }
}

int main(void) {
    uint32_t damaged[67];
    for (int i = 0; i < 67; i++) damaged[i] = S[i];
    damaged[34] = 9;
    expect("plan S", tunesaturn_check(S, 67), 0, 0, 0);
    expect("one word short", tunesaturn_check(S, 66), 1, 0, 0);
    expect("operator 9", tunesaturn_check(damaged, 67), 3, 4, 0);
    expect("no words", tunesaturn_check(NULL, 0), 1, 0, 0);
    uint32_t out[130];
    for (int i = 0; i < 130; i++) out[i] = 7;
    expect("S in 119 words", tunesaturn_rewrite(S, 67, out, 119), 9, 0, 0);
    expect("a damaged plan", tunesaturn_rewrite(damaged, 67, out, 130), 3, 4, 0);
    for (int i = 0; i < 130; i++) if (out[i] != 7) { printf("a refused call changed out\n"); wrong = 1; }
    expect("S rewritten", tunesaturn_rewrite(S, 67, out, 130), 0, 0, 120);
    if (out[0] != 120 || out[3] != 9 || out[5] != 8) { printf("S: a wrong header\n"); wrong = 1; }
    for (int i = 120; i < 130; i++) if (out[i] != 7) { printf("the rest of out is changed\n"); wrong = 1; }
    expect("the rewriting", tunesaturn_check(out, 120), 0, 0, 0);
    const uint32_t counts[2] = {3, 3};
    const int64_t cells[6] = {1, 2, 3, 1, 1, 2};
    int64_t scratch[36 + 4], rows[6 + 4];
    fill(scratch, 40);
    fill(rows, 10);
    expect("no words to evaluate", tunesaturn_evaluate(NULL, 0, NULL, 0, NULL, 0, 3, NULL, 0, NULL, 0), 1, 0, 0);
    expect("a cell too few", tunesaturn_evaluate(S, 67, counts, 2, cells, 5, 3, scratch, 40, rows, 10), 10, 0, 0);
    expect("limit 0", tunesaturn_evaluate(S, 67, counts, 2, cells, 6, 0, scratch, 40, rows, 10), 11, 0, 0);
    expect("scratch a cell short", tunesaturn_evaluate(S, 67, counts, 2, cells, 6, 3, scratch, 35, rows, 10), 12, 0, 0);
    expect("output a cell short", tunesaturn_evaluate(S, 67, counts, 2, cells, 6, 3, scratch, 40, rows, 5), 13, 0, 0);
    all_are("scratch up to refusal 13", scratch, 0, 40, 7);
    expect("a scan over the limit", tunesaturn_evaluate(S, 67, counts, 2, cells, 6, 2, scratch, 40, rows, 10), 14, 0, 0);
    all_are("scratch after refusal 14", scratch, 0, 40, 0);
    all_are("the output of refused calls", rows, 0, 10, 7);
    fill(scratch, 40);
    expect("S evaluated", tunesaturn_evaluate(S, 67, counts, 2, cells, 6, 3, scratch, 40, rows, 10), 0, 0, 2);
    if (rows[0] != 2 || rows[1] != 1 || rows[2] != 3 || rows[3] != 0) { printf("S: wrong rows\n"); wrong = 1; }
    all_are("the rest of the output", rows, 4, 10, 7);
    all_are("scratch", scratch, 0, 40, 0);
    sums_of_nothing();
    if (!wrong) printf("the C interface answers as it should\n");
    return wrong;
}
