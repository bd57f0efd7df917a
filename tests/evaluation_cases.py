"""Evaluations whose answers are written by hand from documents 01 and 02: small cases, sums of nothing, and every refusal of the evaluator."""
import collections

from operators import LARGEST
from plan_table import *
from rules import rewritten, row_widths

# A plan as lists, a database, the row limit, the number and the node of the answer, and its rows.
# Cells of scratch and output are what they have more than needed; counts and cells stand in for the database's own.
Case = collections.namedtuple("Case", "name tables nodes database limit refusal node rows scratch room counts cells", defaults=[0, 0, None, None])


def column(*values):
    return [[value] for value in values]


def scrub_list(name, drives, scrubs, rows, limit=10):
    return Case(name, [1, 1], SCRUB_NODES, [column(*drives), column(*scrubs)], limit, 0, 0, rows)


def over_two(name, made, left, right, rows):
    return Case(name, [1, 1], [scan(0), scan(1), made], [column(*left), column(*right)], 10, 0, 0, rows)


def over_one(name, made, rows_in, rows, width=1):
    return Case(name, [width], [scan(0), made], [rows_in], 10, 0, 0, rows)


SAME = equal(local(0), local(1))
SMALL = [
    scrub_list("P1", [1, 2, 3], [1, 1, 2], [[2, 1], [3, 0]]),
    scrub_list("P2", [1, None], [1, None], [[1, 1], [None, 0]]),
    scrub_list("P3", [1, 1], [1], [[1, 1], [1, 1]]),
    scrub_list("P4", [], [1, 2], []),
    scrub_list("P5", [7], [], [[7, 0]]),
    over_one("P6, null = null", select(0, equal(NULL, NULL)), column(1, 2), []),
    over_one("P6, null not distinct from null", select(0, item(7, NULL, NULL)), column(1, 2), column(1, 2)),
    over_one("P7, without keys", group(0, COUNT), [], [[0]]),
    over_one("P7, with keys", group(0, key(0), COUNT), [], []),
    over_one("P8", group(0, minimum(0)), column(None, 5, -3), [[-3]]),
    over_two("P9", join(ANTI, 0, 1, SAME), [1, None], [1], column(None)),
    over_two("P9 by a dependent join", dependent_join(ANTI, 0, 1, SAME), [1, None], [1], column(None)),
    over_two("P10", join(LEFT_OUTER, 0, 1, SAME), [1, 2], [2], [[1, None], [2, 2]]),
    over_two("P10 by a dependent join", dependent_join(LEFT_OUTER, 0, 1, SAME), [1, 2], [2], [[1, None], [2, 2]]),
    over_two("inner, partners in the right side's order", join(INNER, 0, 1), [2, 1], [5, 4], [[2, 5], [2, 4], [1, 5], [1, 4]]),
    over_two("semi keeps a row once", join(SEMI, 0, 1, SAME), [3, 1, 2, 1], [1, 1, 3], column(3, 1, 1)),
    over_two("groupjoin counts none as 0", groupjoin(0, 1, SAME, COUNT, sum_of(0), maximum(0)), [1, 9], [1, 1], [[1, 2, 2, 1], [9, 0, None, None]]),
    over_one("keys in order of first appearance", group(0, key(0), sum_of(0)), column(2, None, 1, 2, None), [[2, 4], [None, None], [1, 1]]),
    over_one("keys only", group(0, key(0)), column(2, None, 2), column(2, None)),
    over_one("a column twice", project(0, output(1), output(0), output(1)), [[1, 2], [None, 3]], [[2, 1, 2], [3, None, 3]], 2),
    over_one("add a null", compute(0, add(local(0), NULL)), column(4), [[4, None]]),
    over_one("subtract a constant", compute(0, subtract(local(0), constant(-7))), column(4, None), [[4, 11], [None, None]]),
    over_one("copy a constant", compute(0, copy(constant(-(2**31)))), column(4), [[4, -(2**31)]]),
]

COMPARED = [
    over_one(f"tag {tag}", select(0, item(tag, local(0), constant(1))), column(0, 1, 2, None), column(*kept))
    for tag, kept in [(1, [1]), (2, [0, 2]), (3, [0]), (4, [0, 1]), (5, [2]), (6, [1, 2]), (7, [1])]
]

# "Null for the sum of no numbers", in groups and groupjoins, "empty or all null".
ALL_THREE = [sum_of(0), maximum(0), COUNT]
FIGURES = [[1, 5], [2, 0], [3, None], [1, 7], [2, None], [None, 9]]


# For each drive what its figures (drive, written) come to, and what is done with it.
def written(name, made, rows):
    nodes = [scan(0), scan(1), select(1, equal(local(0), outer(0, 0))), made, dependent_join(INNER, 0, 3)]
    return Case(name, [1, 2], nodes, [column(1, 2, 3, 4, None), FIGURES], 30, 0, 0, rows)


# Of each drive's sum, those that pass.
def written_where(name, conjunct, rows):
    case = written(name, group(2, sum_of(1)), rows)
    return case._replace(nodes=case.nodes + [select(4, conjunct)])


SUMS = [
    over_one("sum of no rows", group(0, *ALL_THREE), [], [[None, None, 0]]),
    over_one("sum of a null", group(0, *ALL_THREE), column(None), [[None, None, 1]]),
    over_one("sum of nulls", group(0, *ALL_THREE), column(None, None), [[None, None, 2]]),
    over_one("sum of a zero", group(0, *ALL_THREE), column(0), [[0, 0, 1]]),
    over_one("sum of a zero in front of a null", group(0, *ALL_THREE), column(0, None), [[0, 0, 2]]),
    over_one("sum of a zero behind a null", group(0, *ALL_THREE), column(None, 0), [[0, 0, 2]]),
    over_one("numbers that add up to 0", group(0, *ALL_THREE), column(5, None, -5), [[0, 5, 3]]),
    over_one("sums of a column with numbers and of one without", group(0, sum_of(0), sum_of(1)), [[1, None], [2, None]], [[3, None]], 2),
    over_one("sums by keys", group(0, key(0), sum_of(1), COUNT), [[1, None], [2, 0], [1, None], [2, None], [3, 4]], [[1, None, 2], [2, 0, 2], [3, 4, 1]], 2),
    over_one("sums by keys, no rows", group(0, key(0), sum_of(0)), [], []),
    over_two("groupjoin with partners that are null", groupjoin(0, 1, sum_of(0), COUNT), [1, None], [None, None], [[1, None, 2], [None, None, 2]]),
    over_two("groupjoin without right rows", groupjoin(0, 1, sum_of(0), COUNT), [1, None], [], [[1, None, 0], [None, None, 0]]),
    over_two("groupjoin's zero", groupjoin(0, 1, SAME, sum_of(0)), [0, 7], [0, None], [[0, 0], [7, None]]),
    Case("add to the sum of nothing", [1], [scan(0), group(0, sum_of(0), COUNT), compute(1, add(local(0), local(1)))], [[]], 1, 0, 0, [[None, 0, None]]),
    written("written, for each drive", group(2, sum_of(1)), [[1, 12], [2, 0], [3, None], [4, None], [None, None]]),
    written("written, by a keyed group", group(2, key(0), sum_of(1)), [[1, 1, 12], [2, 2, 0], [3, 3, None]]),
    written_where("wrote 0", equal(local(1), constant(0)), [[2, 0]]),
    written_where("reported no figure", item(7, local(1), NULL), [[3, None], [4, None], [None, None]]),
]

# Columns 63 and 127 of a pair of rows of 64 columns: the row of a semi join is the left one.
WIDE_LEFT = [[0] * 63 + [5], [0] * 63 + [6]]
WIDE_RIGHT = [[1] * 63 + [6]]
WIDE = Case(
    "a semi join that looks at column 127",
    [64, 64],
    [scan(0), scan(1), join(SEMI, 0, 1, equal(local(63), local(127)))],
    [WIDE_LEFT, WIDE_RIGHT],
    4,
    0,
    0,
    WIDE_LEFT[1:],
)

# Two levels: for each a the b at least as large, and of those how many c are equal to both.
LEVELS = [
    scan(0),
    scan(1),
    scan(2),
    select(2, equal(local(0), outer(0, 0)), equal(local(0), outer(1, 0))),
    group(3, COUNT),
    select(1, item(6, local(0), outer(0, 0))),
    dependent_join(INNER, 5, 4),
    dependent_join(INNER, 0, 6),
]
NESTED = [
    Case("two levels", [1, 1, 1], LEVELS, [column(1, 2), column(1, 2), column(2, 2, 1)], 10, 0, 0, [[1, 1, 1], [1, 2, 0], [2, 2, 2]]),
    Case("a level that is passed over", [1, 1], [scan(0), scan(1), select(1, equal(local(0), outer(1, 0))), dependent_join(INNER, 1, 2), dependent_join(INNER, 0, 3)],
         [column(1, 2), column(1, 1)], 10, 0, 0, [[1, 1, 1]] * 4),
]

# ---- refusals

ONE = [scan(0)]
DATABASE = [column(1, 2, 3)]


def scanned(name, refusal, limit=3, **words):
    return Case(name, [1], ONE, DATABASE, limit, refusal, 0, DATABASE[0] if refusal == 0 else [], **words)


BEFORE = [
    scanned("exactly the cells needed", 0),
    scanned("more cells than needed", 0, scratch=5, room=4),
    scanned("a count too few", 10, counts=[]),
    scanned("a count too many", 10, counts=[3, 0]),
    scanned("a count of 4,097", 10, counts=[4097], cells=[0] * 4097),
    scanned("a cell too few", 10, counts=[3], cells=[1, 2]),
    scanned("a cell too many", 10, counts=[3], cells=[1, 2, 3, 4]),
    scanned("the largest number", 10, counts=[3], cells=[1, 2, LARGEST + 1]),
    scanned("the lowest number", 10, counts=[3], cells=[1, -LARGEST - 1, 2]),
    scanned("next to null", 10, counts=[3], cells=[1, -(2**63) + 1, 2]),
    Case("numbers at both ends", [1], ONE, [column(LARGEST, -LARGEST, None)], 3, 0, 0, column(LARGEST, -LARGEST, None)),
    scanned("R 0", 11, 0),
    scanned("R 4,097", 11, 4097),
    scanned("R 2^32-1", 11, 2**32 - 1, scratch=-(2**33), room=-(2**33)),
    scanned("scratch a cell short", 12, scratch=-1),
    scanned("output a cell short", 13, room=-1),
    scanned("scratch and output a cell short", 12, scratch=-1, room=-1),
    scanned("10 before 11", 10, 0, counts=[]),
    scanned("a scan over R", 14, 2),
    Case("R 1", [1], ONE, [column(8)], 1, 0, 0, column(8)),
    Case("R 4,096", [1], ONE, [column(*range(4096))], 4096, 0, 0, column(*range(4096))),
    Case("a table that nobody scans counts for 10", [1, 1], ONE, [column(1), column(2)], 2, 10, 0, [], counts=[1, 1], cells=[1, 2**47]),
]

LARGE = column(LARGEST)
OVER = [
    over_one("the number of 01", compute(0, subtract(local(0), constant(-1))), LARGE, [])._replace(refusal=15, node=1),
    over_one("a sum out of range", group(0, COUNT, sum_of(0)), LARGE * 2, [])._replace(refusal=15, node=1),
    over_one("a running sum out of range", group(0, sum_of(0)), column(LARGEST, 1, -1), [[LARGEST]]),
    over_two("a groupjoin's sum out of range", groupjoin(0, 1, sum_of(0)), [1], [LARGEST, LARGEST], [])._replace(refusal=15, node=2),
    over_two("a sum of nothing, then one out of range", groupjoin(0, 1, SAME, sum_of(0)), [7, LARGEST], [LARGEST, LARGEST], [])._replace(refusal=15, node=2),
    over_two("a join over R", join(INNER, 0, 1), [1, 2, 3, 4], [1, 2, 3], [])._replace(refusal=14, node=2),
    over_two("a join at R", join(INNER, 0, 1), [1, 2, 3, 4, 5], [1, 2], [[a, b] for a in [1, 2, 3, 4, 5] for b in [1, 2]]),
    over_two("a dependent join over R", dependent_join(LEFT_OUTER, 0, 1), [1, 2, 3, 4], [1, 2, 3], [])._replace(refusal=14, node=2),
]

# For each left row x: the right side has the rows of the second table, with x added.
ADDED = [scan(0), scan(1), compute(1, add(local(0), outer(0, 0))), dependent_join(INNER, 0, 2)]


def added(name, left, right, refusal, node, rows=(), limit=2):
    return Case(name, [1, 1], ADDED, [column(*left), column(*right)], limit, refusal, node, list(rows))


MET_FIRST = [
    added("15 in the second binding", [0, 1], [LARGEST], 15, 2),
    added("15 in the second binding, before the join's 14 there", [0, 1], [LARGEST, 5], 15, 2),
    added("14 in the second binding, before 15 in the third", [-1, 0, 1], [LARGEST, 5], 14, 3, limit=3),
    added("14 in the second binding", [0, 0], [LARGEST, 5], 14, 3),
    added("no drives, and a right side that would be refused", [], [LARGEST, LARGEST], 0, 0),
    Case("no drives, and a closed right side that is refused", [1, 1], [scan(0), scan(1), compute(1, add(local(0), constant(1))), dependent_join(INNER, 0, 2)],
         [[], LARGE], 5, 15, 2, []),
    Case("a closed node that is refused after an open one", [1, 1], [scan(0), scan(1), select(1, equal(local(0), outer(0, 0))), dependent_join(SEMI, 0, 2)],
         [column(1, 2), column(1, 1, 1)], 2, 14, 1, []),
    Case("the left input is refused first", [1, 1], [scan(0), scan(1), compute(1, add(local(0), local(0))), compute(0, add(local(0), local(0))), join(INNER, 3, 2)],
         [LARGE, LARGE], 5, 15, 2, []),
]

CHECKED = [Case("a plan that the check refuses", [1], [scan(1)], DATABASE, 3, 3, 0, [])]


# The same rows by the rewriting, where nothing is refused and R allows its rows.
def as_rewritten(case):
    return case._replace(name=case.name + ", rewritten", nodes=rewritten(case.tables, case.nodes))


AS_WRITTEN = SMALL + SUMS + COMPARED + [WIDE] + NESTED
CASES = AS_WRITTEN + [as_rewritten(case) for case in AS_WRITTEN] + BEFORE + OVER + MET_FIRST + CHECKED


# The cells that a case lends: those that are needed and those that it has more.
def lent(case):
    limit = min(case.limit, 4096)
    widths = row_widths(case.tables, case.nodes) if case.refusal != 3 else [1]
    return max(0, len(case.nodes) * limit * max(widths) + case.scratch), max(0, limit * widths[-1] + case.room)
