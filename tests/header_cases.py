"""Refusals 1 and 2: the header, and the limits."""
from plan_table import *


# A scan of the first table and selects over it, of which the last has all the conjuncts.
def chain(nodes, conjuncts=0, widths=(1,)):
    selects = [select(below) for below in range(nodes - 2)]
    last = select(nodes - 2, *[equal(local(0), NULL)] * conjuncts)
    return plan(widths, [scan(0)] + selects + [last])


# Plan S as 01 has it: header, widths, nodes, items.
WORD_BY_WORD = (
    [67, 2, 8, 6, 10, 3, 46, 0]
    + [1, 1]
    + [1, 0, 0, 0, 0, 0]
    + [1, 1, 0, 0, 0, 0]
    + [2, 1, 0, 0, 0, 1]
    + [6, 2, 0, 0, 1, 1]
    + [8, 0, 3, 1, 2, 0]
    + [2, 4, 0, 0, 2, 1]
    + [1, 0, 0, 0, 1, 0, 0]
    + [13, 0, 0, 0, 0, 0, 0]
    + [3, 0, 0, 1, 2, 0, 2]
)

ACCEPTED = [
    (0, 0, "plan S", SCRUB_LIST),
    (0, 0, "plan S word by word", WORD_BY_WORD),
    (0, 0, "one scan", plan([1], [scan(0)])),
    (0, 0, "longest plan of 15,560 words", chain(256, 2000, [64] * 16)),
]

HEADER = [
    (1, 0, "empty slice", []),
    (1, 0, "one word", [1]),
    (1, 0, "seven words", [7, 0, 8, 0, 8, 0, 8]),
    (1, 0, "total one less", changed(SCRUB_LIST, TOTAL, 66)),
    (1, 0, "total one more", changed(SCRUB_LIST, TOTAL, 68)),
    (1, 0, "word behind the items", SCRUB_LIST + [0]),
    (1, 0, "word behind the items and in the total", changed(SCRUB_LIST + [0], TOTAL, 68)),
    (1, 0, "last word missing", SCRUB_LIST[:-1]),
    (1, 0, "last word missing and not in the total", changed(SCRUB_LIST[:-1], TOTAL, 66)),
    (1, 0, "tables one more", changed(SCRUB_LIST, TABLES, 3)),
    (1, 0, "nodes one less", changed(SCRUB_LIST, NODES, 5)),
    (1, 0, "items one less", changed(SCRUB_LIST, ITEMS, 2)),
    (1, 0, "offset of widths one less", changed(SCRUB_LIST, WIDTHS_AT, 7)),
    (1, 0, "offset of widths one more", changed(SCRUB_LIST, WIDTHS_AT, 9)),
    (1, 0, "offset of nodes one less", changed(SCRUB_LIST, NODES_AT, 9)),
    (1, 0, "offset of nodes one more", changed(SCRUB_LIST, NODES_AT, 11)),
    (1, 0, "offset of items one less", changed(SCRUB_LIST, ITEMS_AT, 45)),
    (1, 0, "offset of items one more", changed(SCRUB_LIST, ITEMS_AT, 47)),
    (1, 0, "last header word 1", changed(SCRUB_LIST, LAST, 1)),
    # Each count below is right modulo 2^32 only: 6 times 2^31 is 3 times 2^32; 8 and 2^32 - 2 leave 6; 7 times 1,227,133,517 leaves 27.
    (1, 0, "nodes that sum modulo 2^32", [67, 2, 8, 6 + 2**31, 10, 3, 46, 0] + SCRUB_LIST[8:]),
    (1, 0, "tables that sum modulo 2^32", [67, 2**32 - 2, 8, 9, 6, 1, 60, 0] + SCRUB_LIST[8:]),
    (1, 0, "items that sum modulo 2^32", [67, 2, 8, 5, 10, 1227133517, 40, 0] + SCRUB_LIST[8:]),
    (1, 0, "1 before 2", changed(plan([65], [scan(0)]), LAST, 1)),
]

LIMITS = [
    (2, 0, "header alone", [8, 0, 8, 0, 8, 0, 8, 0]),
    (2, 0, "no tables", plan([], [scan(0)])),
    (0, 0, "16 tables", plan([1] * 16, [scan(15)])),
    (2, 0, "17 tables", plan([1] * 17, [scan(0)])),
    (2, 0, "no nodes", plan([1], [])),
    (0, 0, "256 nodes", chain(256)),
    (2, 0, "257 nodes", chain(257)),
    (0, 0, "2,000 items", chain(2, 2000)),
    (2, 0, "2,001 items", chain(2, 2001)),
    (2, 0, "table width 0", plan([0], [scan(0)])),
    (0, 0, "table width 64", plan([64], [scan(0)])),
    (2, 0, "table width 65", plan([65], [scan(0)])),
    (2, 0, "table width 2^32 - 1", plan([2**32 - 1], [scan(0)])),
    (2, 0, "table width 65 that no node scans", plan([1, 65], [scan(0)])),
    (2, 0, "width 0 of the sixteenth table", plan([1] * 15 + [0], [scan(0)])),
    (2, 0, "2 before 3", plan([0], [node(9)])),
]

CASES = ACCEPTED + HEADER + LIMITS
