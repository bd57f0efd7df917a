"""Refusals 4, 5 and 6: unused nodes, wide rows, and open nodes used more than once."""
from plan_table import *

# Reads the left row of the dependent join around.
OUTER_READ = equal(local(0), outer(0, 0))

UNUSED_NODES = [
    (4, 1, "node unused", plan([1], [scan(0), scan(0), select(0)])),
    (4, 0, "first node unused", plan([1], [scan(0), scan(0), select(1)])),
    (4, 1, "three nodes unused", plan([1], [scan(0), scan(0), scan(0), scan(0), select(0)])),
    (4, 2, "unused node over a used one", plan([1], [scan(0), scan(0), select(0), select(1)])),
    (4, 0, "two scans of one table", plan([1], [scan(0), scan(0)])),
    (0, 0, "node used as right input alone", plan([1], [scan(0), scan(0), join(SEMI, 0, 1)])),
    (0, 0, "closed node used three times", plan([1], [scan(0), join(INNER, 0, 0), join(INNER, 1, 0)])),
]


# A scan of this width, and maps over it.
def maps(width, count):
    return plan([width], [scan(0)] + [compute(below, copy(local(0))) for below in range(count)])


# A join of two scans of these widths.
def pair(join_node, left, right):
    return plan([left, right], [scan(0), scan(1), join_node])


# One node over a scan of width 1.
def over_narrow(root):
    return plan([1], [scan(0), root])


# A scan of width 1, and 255 joins, each of the node before with itself.
def doubled(kind):
    return plan([1], [scan(0)] + [join(kind, below, below) for below in range(255)])


WIDTHS = [
    (0, 0, "inner row of 64", pair(join(INNER, 0, 1), 32, 32)),
    (5, 2, "inner row of 65", pair(join(INNER, 0, 1), 32, 33)),
    (0, 0, "outer row of 64", pair(join(LEFT_OUTER, 0, 1), 1, 63)),
    (5, 2, "outer row of 65", pair(join(LEFT_OUTER, 0, 1), 1, 64)),
    (0, 0, "semi row of 64", pair(join(SEMI, 0, 1), 64, 64)),
    (0, 0, "anti row of 64", pair(join(ANTI, 0, 1), 64, 64)),
    (0, 0, "dependent inner row of 64", pair(dependent_join(INNER, 0, 1), 63, 1)),
    (5, 2, "dependent inner row of 65", pair(dependent_join(INNER, 0, 1), 64, 1)),
    (5, 2, "dependent outer row of 65", pair(dependent_join(LEFT_OUTER, 0, 1), 64, 1)),
    (0, 0, "dependent semi row of 64", pair(dependent_join(SEMI, 0, 1), 64, 64)),
    (0, 0, "dependent anti row of 64", pair(dependent_join(ANTI, 0, 1), 64, 64)),
    (0, 0, "mapped row of 64", maps(63, 1)),
    (5, 1, "mapped row of 65", maps(64, 1)),
    (0, 0, "row of 64 by 63 maps", maps(1, 63)),
    (5, 64, "row of 65 by 64 maps", maps(1, 64)),
    (5, 64, "rows over 65 by 255 maps", maps(1, 255)),
    (0, 0, "64 output columns", over_narrow(project(0, *[output(0)] * 64))),
    (5, 1, "65 output columns", over_narrow(project(0, *[output(0)] * 65))),
    (5, 1, "2,000 output columns", over_narrow(project(0, *[output(0)] * 2000))),
    (0, 0, "32 keys and 32 aggregates", over_narrow(group(0, *[key(0)] * 32, *[COUNT] * 32))),
    (5, 1, "33 keys and 32 aggregates", over_narrow(group(0, *[key(0)] * 33, *[COUNT] * 32))),
    (0, 0, "groupjoin row of 64", pair(groupjoin(0, 1, equal(local(0), local(126)), COUNT), 63, 64)),
    (5, 2, "groupjoin row of 65", pair(groupjoin(0, 1, COUNT), 64, 1)),
    (5, 2, "groupjoin row of 65 by aggregates", pair(groupjoin(0, 1, *[COUNT] * 64), 1, 1)),
    (5, 1, "wide row below a narrow one", plan([64], [scan(0), compute(0, copy(local(0))), project(1, output(0))])),
    (5, 1, "two wide rows", plan([64], [scan(0), join(INNER, 0, 0), join(INNER, 1, 1), select(2)])),
    (5, 7, "rows that double 255 times", doubled(INNER)),
    (0, 0, "256 nodes with 2^255 paths", doubled(SEMI)),
]


# Node 2 is open: it reads node 0, the left row of the dependent join that stands around the nodes as the root.
def around(*nodes):
    right_side = [scan(0), select(1, OUTER_READ)] + list(nodes)
    return plan([1], [scan(0)] + right_side + [dependent_join(SEMI, 0, len(right_side))])


# A scan of width 1, a node over it, and a join of that node with itself.
def twice(node_one):
    return plan([1], [scan(0), node_one, join(INNER, 1, 1)])


# Node 2 is open, and node 3 is a scan of table 2.
TABLE_TWO_TWICE = plan(
    [1, 1, 1],
    [scan(0), scan(1), select(1, OUTER_READ), scan(2), join(SEMI, 3, 3), join(SEMI, 2, 4), dependent_join(SEMI, 0, 5)],
)

# One outer column among other terms.
SECOND_CONJUNCT = select(0, equal(local(0), NULL), OUTER_READ)
SECOND_FIRST_TERM = select(0, equal(local(0), NULL), equal(outer(0, 0), NULL))
SECOND_TERM_OF_MAP = compute(0, add(local(0), outer(0, 0)))
CONJUNCT_OF_GROUPJOIN = groupjoin(0, 0, OUTER_READ, COUNT)

OPEN = [
    (0, 0, "closed select as both inputs", twice(select(0, equal(local(0), constant(1)), equal(NULL, local(0))))),
    (0, 0, "closed map as both inputs", twice(compute(0, add(local(0), constant(1))))),
    (0, 0, "closed group as both inputs", twice(group(0, key(0), COUNT, sum_of(0)))),
    (0, 0, "dependent join with a closed right side as both inputs", twice(dependent_join(INNER, 0, 0))),
    (0, 0, "closed groupjoin as both inputs", twice(groupjoin(0, 0, equal(local(0), local(1)), maximum(0)))),
    (0, 0, "open node used once", around()),
    (6, 2, "open node as both inputs", around(join(INNER, 2, 2))),
    (6, 2, "open node in two nodes", around(select(2), join(INNER, 2, 3))),
    (6, 2, "open node under two dependent joins", around(dependent_join(SEMI, 0, 2), dependent_join(SEMI, 3, 2))),
    (6, 2, "open node on both sides of a dependent join", around(dependent_join(INNER, 2, 2))),
    (6, 3, "open map used twice", around(compute(1, copy(outer(0, 0))), join(SEMI, 3, 3), join(SEMI, 2, 4))),
    (6, 3, "closed items over an open node used twice", around(group(2, COUNT), join(INNER, 3, 3))),
    (6, 2, "two open nodes used twice", around(join(SEMI, 2, 2), select(1, OUTER_READ), join(SEMI, 4, 4), join(SEMI, 3, 5))),
    (0, 0, "closed dependent join used twice", around(dependent_join(INNER, 0, 2), join(INNER, 3, 3))),
    (0, 0, "scan of a table with an open node's number used twice", TABLE_TWO_TWICE),
    (0, 0, "closed node below an open one used twice", plan([1], [scan(0), select(0, OUTER_READ), dependent_join(INNER, 0, 1)])),
    (6, 1, "outer column outside every dependent join in a node used twice", twice(select(0, OUTER_READ))),
    (7, 1, "outer column outside every dependent join in a node used once", plan([1], [scan(0), select(0, OUTER_READ), select(1)])),
    (6, 1, "outer column in the second conjunct of a node used twice", twice(SECOND_CONJUNCT)),
    (6, 1, "outer column first in the second conjunct of a node used twice", twice(SECOND_FIRST_TERM)),
    (6, 1, "outer column in the second term of a map used twice", twice(SECOND_TERM_OF_MAP)),
    (6, 1, "outer column in a conjunct of a groupjoin used twice", twice(CONJUNCT_OF_GROUPJOIN)),
    (7, 1, "outer column in the root", plan([1], [scan(0), select(0, OUTER_READ)])),
]


# A dependent join of nodes 1 and 2 in the right side of another, where node 2 reads a level and node 3 is used twice.
def inner_twice(level):
    reads = select(1, equal(local(0), outer(level, 0)))
    return plan([1], [scan(0), scan(0), reads, dependent_join(INNER, 1, 2), join(INNER, 3, 3), dependent_join(INNER, 0, 4)])


# The outer columns of a dependent join's own conjuncts and of its left side reach beyond it.
REACH = [
    (0, 0, "dependent join that reads its own left row used twice", inner_twice(0)),
    (6, 3, "dependent join that reads one level further used twice", inner_twice(1)),
    (6, 3, "dependent join with an open left side used twice", around(dependent_join(SEMI, 2, 1), join(SEMI, 3, 3))),
    (6, 3, "dependent join with an outer conjunct used twice", around(dependent_join(SEMI, 1, 1, OUTER_READ), join(SEMI, 3, 3), join(SEMI, 2, 4))),
]

# Node 1 has a column that doesn't exist, and node 2 is open and used twice.
MISSING_AND_TWICE = [
    scan(0),
    select(0, equal(local(1), NULL)),
    select(0, OUTER_READ),
    join(INNER, 2, 2),
    dependent_join(INNER, 1, 3),
]

# In each the later refusal's node is the lower one.
ORDER = [
    (4, 2, "4 before 5", plan([64], [scan(0), compute(0, copy(local(0))), scan(0), select(1)])),
    (5, 2, "5 before 6", plan([33], [scan(0), select(0, OUTER_READ), join(INNER, 1, 1)])),
    (6, 2, "6 before 7", plan([1], MISSING_AND_TWICE)),
]

CASES = UNUSED_NODES + WIDTHS + OPEN + REACH + ORDER
