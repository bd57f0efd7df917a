/* Prints how much stack each function takes at the deepest plans and the longest texts, measured on a painted stack; fails where that is more than the header says. */
#include <pthread.h>
#include <stdint.h>
#include <stdio.h>
#include <stdlib.h>
#include <string.h>
#include <sys/mman.h>
#include "tunesaturn.h"

enum { NODES = 256, PAINT = 0xa5, STACK = 1 << 20, ITEM = 7, NODE = 6, LIMIT = 1 };

static uint32_t words[TUNESATURN_LONGEST], rewritten[TUNESATURN_LONGEST];
static size_t length;
static int64_t scratch[NODES * LIMIT * 64], out[LIMIT * 64];
static const uint32_t counts[1] = {1};
static const int64_t cells[1] = {1};
static uint8_t text[TUNESATURN_LONGEST_TEXT];
static size_t text_length;

/* One table of one column; node 0 scans it, node 1 too, node 2 selects of node 1: local 0 = outer 0,0. Each further node
 * is over the one before: a select, or a dependent semi join of node 0 with it whose conjunct reads the next row outward.
 * The last is a dependent semi join that reads nothing. The rewriter goes down as far before it finds 257 nodes. */
static void build(int joins) {
    uint32_t items = 1 + (joins ? NODES - 4 : 0), at_items = 9 + NODE * NODES, item = 0;
    uint32_t header[9] = {at_items + ITEM * items, 1, 8, NODES, 9, items, at_items, 0, 1};
    length = header[0];
    memset(words, 0, sizeof words);
    memcpy(words, header, sizeof header);
    for (uint32_t n = 0; n < NODES; n++) {
        uint32_t *node = words + 9 + NODE * n, dependent = n == NODES - 1 || (joins && n > 2);
        uint32_t reads = n == 2 || (joins && n > 2 && n < NODES - 1);
        uint32_t made[NODE] = {n < 2 ? 1 : dependent ? 8 : 2, n < 2 || dependent ? 0 : n - 1, dependent ? n - 1 : 0, dependent ? 2 : 0, item, reads};
        memcpy(node, made, sizeof made);
        uint32_t equal[ITEM] = {1, 0, 0, 0, 1, 0, 0};
        if (reads) memcpy(words + at_items + ITEM * item++, equal, sizeof equal);
    }
}

/* As many tables, nodes and items as there may be; each term is a long word in place of a code, or the least constant. */
static void build_longest(int constants) {
    uint32_t header[8] = {TUNESATURN_LONGEST, 16, 8, NODES, 24, 2000, 24 + NODE * NODES, 0};
    length = TUNESATURN_LONGEST;
    memset(words, 0xff, sizeof words);
    memcpy(words, header, sizeof header);
    for (uint32_t t = 0; t < 16; t++) words[8 + t] = 64;
    for (uint32_t at = header[6]; constants && at < length; at += ITEM) {
        words[at + 1] = words[at + 4] = 2;
        words[at + 3] = words[at + 6] = 1u << 31;
    }
}

static tunesaturn_answer answer;
static void *check(void *unused) { answer = tunesaturn_check(words, length); return unused; }
static void *rewrite(void *unused) { answer = tunesaturn_rewrite(words, length, rewritten, TUNESATURN_LONGEST); return unused; }
static void *evaluate(void *unused) {
    answer = tunesaturn_evaluate(words, length, counts, 1, cells, 1, LIMIT, scratch, NODES * LIMIT, out, LIMIT);
    return unused;
}
static void *write_text(void *unused) {
    answer = tunesaturn_write_text(words, length, text, TUNESATURN_LONGEST_TEXT);
    text_length = answer.count;
    return unused;
}
static void *read_text(void *unused) { answer = tunesaturn_read_text(text, text_length, rewritten, TUNESATURN_LONGEST); return unused; }
static void *nothing(void *unused) { return unused; }

/* The bytes of a stack that a call has written to. */
static size_t taken(void *(*call)(void *)) {
    unsigned char *stack = mmap(NULL, STACK, PROT_READ | PROT_WRITE, MAP_PRIVATE | MAP_ANONYMOUS, -1, 0);
    pthread_attr_t attributes;
    pthread_t thread;
    size_t low = 0;
    if (stack == MAP_FAILED) exit(1);
    memset(stack, PAINT, STACK);
    pthread_attr_init(&attributes);
    if (pthread_attr_setstack(&attributes, stack, STACK) || pthread_create(&thread, &attributes, call, NULL)) exit(1);
    pthread_join(thread, NULL);
    while (low < STACK && stack[low] == PAINT) low++;
    munmap(stack, STACK);
    return STACK - low;
}

static int wrong = 0;

/* The first call of all also binds names, which is not counted. */
static void measure(const char *name, void *(*call)(void *), uint32_t number, size_t most) {
    taken(call);
    size_t bytes = taken(call) - taken(nothing);
    printf("%s: %zu bytes, answer %u\n", name, bytes, answer.number);
    if (bytes > most || answer.number != number) wrong = 1;
}

int main(void) {
    for (int joins = 0; joins < 2; joins++) {
        build(joins);
        printf("%s:\n", joins ? "dependent joins in one another" : "selects over one another");
        measure("  check", check, 0, TUNESATURN_CHECK_STACK);
        measure("  rewrite", rewrite, 8, TUNESATURN_REWRITE_STACK);
        measure("  evaluate", evaluate, 0, TUNESATURN_EVALUATE_STACK);
    }
    for (int constants = 0; constants < 2; constants++) {
        build_longest(constants);
        printf("%s:\n", constants ? "the longest text of constants" : "the longest text");
        measure("  write text", write_text, 0, TUNESATURN_WRITE_TEXT_STACK);
        measure("  read text", read_text, 0, TUNESATURN_READ_TEXT_STACK);
    }
    return wrong;
}
