"""Refusal 7: a column that doesn't exist, local or outer."""
from plan_table import *


# A conjunct that reads one column and no other.
def read(term):
    return equal(term, NULL)


# A node over a scan of width 2.
def over_scan(root):
    return plan([2], [scan(0), root])


# A node over scans of widths 2 and 3, and a select over that node where a column of its row is to be read.
def over_two(node_two, *position):
    return plan([2, 3], [scan(0), scan(1), node_two] + [select(2, read(local(p))) for p in position])


# Each conjunct with its second term just outside.
SECOND_TERMS = [
    (7, 1, f"tag {tag} just outside by its second term", over_scan(select(0, item(tag, local(0), local(2))))) for tag in range(1, 8)
]

OWN_ROWS = [
    (0, 0, "select of the last column", over_scan(select(0, equal(local(1), local(1))))),
    (7, 1, "select just outside", over_scan(select(0, equal(local(2), local(0))))),
    (7, 1, "select just outside by its second conjunct", over_scan(select(0, read(local(1)), read(local(2))))),
    (7, 1, "select of position 2^32 - 1", over_scan(select(0, read(local(2**32 - 1))))),
    (0, 0, "copy of the last column", over_scan(compute(0, copy(local(1))))),
    (7, 1, "copy of the new column itself", over_scan(compute(0, copy(local(2))))),
    (7, 1, "addition just outside", over_scan(compute(0, add(local(2), local(0))))),
    (7, 1, "addition just outside by its second term", over_scan(compute(0, add(local(0), local(2))))),
    (7, 1, "subtraction just outside by its second term", over_scan(compute(0, subtract(local(0), local(2))))),
    (0, 0, "output of the last column", over_scan(project(0, output(1)))),
    (7, 1, "output just outside", over_scan(project(0, output(0), output(2)))),
    (0, 0, "key of the last column", over_scan(group(0, key(1)))),
    (7, 1, "key just outside", over_scan(group(0, key(2), COUNT))),
    (0, 0, "aggregates of the last column", over_scan(group(0, sum_of(1), minimum(1), maximum(1)))),
    (7, 1, "sum just outside", over_scan(group(0, key(0), sum_of(2)))),
    (7, 1, "min just outside", over_scan(group(0, minimum(2)))),
    (7, 1, "max just outside", over_scan(group(0, maximum(2)))),
]

# Conjuncts see left then right, whatever the kind; aggregates of a groupjoin see the right row.
TWO_ROWS = [
    (0, 0, "inner join of the last column", over_two(join(INNER, 0, 1, read(local(4))))),
    (7, 2, "inner join just outside", over_two(join(INNER, 0, 1, read(local(5))))),
    (0, 0, "semi join of the last column", over_two(join(SEMI, 0, 1, read(local(4))))),
    (7, 2, "semi join just outside", over_two(join(SEMI, 0, 1, read(local(5))))),
    (0, 0, "anti join of the last column", over_two(join(ANTI, 0, 1, read(local(4))))),
    (7, 2, "anti join just outside", over_two(join(ANTI, 0, 1, read(local(5))))),
    (0, 0, "outer join of the last column", over_two(join(LEFT_OUTER, 0, 1, read(local(4))))),
    (7, 2, "outer join just outside", over_two(join(LEFT_OUTER, 0, 1, read(local(5))))),
    (0, 0, "semi join of column 127", plan([64], [scan(0), join(SEMI, 0, 0, read(local(127)))])),
    (7, 1, "semi join of column 128", plan([64], [scan(0), join(SEMI, 0, 0, read(local(128)))])),
    (0, 0, "dependent join of both rows", over_two(dependent_join(INNER, 0, 1, equal(local(0), local(4))))),
    (7, 2, "dependent join just outside", over_two(dependent_join(INNER, 0, 1, equal(local(0), local(5))))),
    (0, 0, "dependent semi join of both rows", over_two(dependent_join(SEMI, 0, 1, equal(local(0), local(4))))),
    (7, 2, "dependent semi join just outside", over_two(dependent_join(SEMI, 0, 1, equal(local(0), local(5))))),
    (0, 0, "groupjoin of the last column", over_two(groupjoin(0, 1, read(local(4)), COUNT))),
    (7, 2, "groupjoin just outside", over_two(groupjoin(0, 1, read(local(5)), COUNT))),
    (0, 0, "groupjoin sum of the last right column", over_two(groupjoin(0, 1, sum_of(2)))),
    (7, 2, "groupjoin sum just outside the right row", over_two(groupjoin(0, 1, sum_of(3)))),
    (7, 2, "groupjoin max outside the right row and inside the left", over_two(groupjoin(1, 0, maximum(2)))),
]

# A select over a node: the last column of its row, and the one behind it.
NODE_ROWS = [
    (0, 0, "row of an inner join", over_two(join(INNER, 0, 1), 4)),
    (7, 3, "behind the row of an inner join", over_two(join(INNER, 0, 1), 5)),
    (0, 0, "row of an outer join", over_two(join(LEFT_OUTER, 0, 1), 4)),
    (7, 3, "behind the row of an outer join", over_two(join(LEFT_OUTER, 0, 1), 5)),
    (0, 0, "row of a semi join", over_two(join(SEMI, 0, 1), 1)),
    (7, 3, "behind the row of a semi join", over_two(join(SEMI, 0, 1), 2)),
    (7, 3, "behind the row of an anti join", over_two(join(ANTI, 0, 1), 2)),
    (0, 0, "row of a dependent outer join", over_two(dependent_join(LEFT_OUTER, 0, 1), 4)),
    (7, 3, "behind the row of a dependent inner join", over_two(dependent_join(INNER, 0, 1), 5)),
    (7, 3, "behind the row of a dependent anti join", over_two(dependent_join(ANTI, 0, 1), 2)),
    (0, 0, "row of a groupjoin", over_two(groupjoin(0, 1, read(local(0)), COUNT, maximum(0)), 3)),
    (7, 3, "behind the row of a groupjoin", over_two(groupjoin(0, 1, read(local(0)), COUNT, maximum(0)), 4)),
    (0, 0, "row of a map", plan([2], [scan(0), compute(0, copy(NULL)), select(1, read(local(2)))])),
    (7, 2, "behind the row of a map", plan([2], [scan(0), compute(0, copy(NULL)), select(1, read(local(3)))])),
    (0, 0, "row of a project", plan([2], [scan(0), project(0, output(1)), select(1, read(local(0)))])),
    (7, 2, "behind the row of a project", plan([2], [scan(0), project(0, output(1)), select(1, read(local(1)))])),
    (0, 0, "row of a group", plan([2], [scan(0), group(0, key(1), COUNT, COUNT), select(1, read(local(2)))])),
    (7, 2, "behind the row of a group", plan([2], [scan(0), group(0, key(1), COUNT, COUNT), select(1, read(local(3)))])),
    (7, 2, "behind the row of a select", plan([2], [scan(0), select(0), select(1, read(local(2)))])),
]


# The right side of a dependent join: node 2 reads a term over a scan of width 3, and the left row has width 2.
def right_side(node_two):
    return plan([2, 3], [scan(0), scan(1), node_two, dependent_join(INNER, 0, 2)])


# Tables of widths 1, 2 and 3 for the rows of an outer dependent join, an inner one, and what stands below.
WIDTHS = [1, 2, 3]


# Node 3 stands in the right side of the inner join, and that in the right side of the outer one.
def right_of_inner(term):
    return plan(WIDTHS, [scan(0), scan(1), scan(2), select(2, read(term)), dependent_join(INNER, 1, 3), dependent_join(INNER, 0, 4)])


# Node 2 is the left side of the inner join.
def left_of_inner(term):
    return plan(WIDTHS, [scan(0), scan(1), select(1, read(term)), scan(2), dependent_join(INNER, 2, 3), dependent_join(INNER, 0, 4)])


# Node 3 is the inner join.
def in_inner(term):
    return plan(WIDTHS, [scan(0), scan(1), scan(2), dependent_join(INNER, 1, 2, read(term)), dependent_join(INNER, 0, 3)])


# Node 3 is the right input of a plain join, whose left row is no level.
def right_of_join(term):
    return plan(WIDTHS, [scan(0), scan(1), scan(2), select(2, read(term)), join(INNER, 1, 3), dependent_join(INNER, 0, 4)])


# Reads the second column of the left row.
LATER_COLUMN = select(0, read(outer(0, 1)))

# Node 1 reads the left row of the root, and stands below nodes that don't.
BELOW_GROUP = [scan(0), select(0, read(outer(0, 0))), project(1, output(0)), group(2, key(0)), dependent_join(ANTI, 0, 3)]

ONE_LEVEL = [
    (0, 0, "outer column of the left row", right_side(select(1, read(outer(0, 1))))),
    (7, 2, "outer column outside the left row", right_side(select(1, read(outer(0, 2))))),
    (7, 2, "outer position 2^32 - 1", right_side(select(1, read(outer(0, 2**32 - 1))))),
    (0, 0, "outer column as second term", right_side(select(1, equal(local(2), outer(0, 1))))),
    (7, 2, "outer column outside as second term", right_side(select(1, equal(local(2), outer(0, 2))))),
    (7, 2, "level 1 under one dependent join", right_side(select(1, read(outer(1, 0))))),
    (7, 2, "level 7 under one dependent join", right_side(select(1, read(outer(7, 0))))),
    (7, 1, "level 0 under no dependent join", over_scan(select(0, read(outer(0, 0))))),
    (7, 1, "level 7 under no dependent join", over_scan(select(0, read(outer(7, 0))))),
    (0, 0, "outer column in a copy", right_side(compute(1, copy(outer(0, 1))))),
    (7, 2, "outer column outside in a copy", right_side(compute(1, copy(outer(0, 2))))),
    (0, 0, "outer columns in a join", right_side(join(SEMI, 1, 1, equal(local(5), outer(0, 1))))),
    (7, 2, "outer column outside in a join", right_side(join(SEMI, 1, 1, equal(local(5), outer(0, 2))))),
    (0, 0, "outer columns in a groupjoin", right_side(groupjoin(1, 1, equal(local(5), outer(0, 1)), COUNT))),
    (7, 2, "outer column outside in a groupjoin", right_side(groupjoin(1, 1, equal(local(5), outer(0, 2)), COUNT))),
    (7, 2, "outer column in the conjunct of the dependent join itself", over_two(dependent_join(INNER, 0, 1, read(outer(0, 0))))),
    (7, 1, "outer column on the left of a dependent join", plan([1], [scan(0), select(0, read(outer(0, 0))), dependent_join(SEMI, 1, 0)])),
    (0, 0, "outer column that a map added", plan([1], [scan(0), compute(0, copy(NULL)), LATER_COLUMN, dependent_join(SEMI, 1, 2)])),
    (7, 2, "outer column that no map added", plan([1], [scan(0), select(0), LATER_COLUMN, dependent_join(SEMI, 1, 2)])),
    (0, 0, "outer column below a project and a group", plan([1], BELOW_GROUP)),
    # The last word of the first item is the position of its outer column.
    (7, 2, "outer column outside in plan S", changed(SCRUB_LIST, 46 + 6, 1)),
]

TWO_LEVELS = [
    (0, 0, "inner left row at level 0", right_of_inner(outer(0, 1))),
    (7, 3, "outside the inner left row", right_of_inner(outer(0, 2))),
    (0, 0, "outer left row at level 1", right_of_inner(outer(1, 0))),
    (7, 3, "outside the outer left row at level 1", right_of_inner(outer(1, 1))),
    (7, 3, "level 2 under two dependent joins", right_of_inner(outer(2, 0))),
    (0, 0, "left side of the inner join at level 0", left_of_inner(outer(0, 0))),
    (7, 2, "left side of the inner join outside", left_of_inner(outer(0, 1))),
    (7, 2, "left side of the inner join at level 1", left_of_inner(outer(1, 0))),
    (0, 0, "conjunct of the inner join at level 0", in_inner(outer(0, 0))),
    (7, 3, "conjunct of the inner join outside", in_inner(outer(0, 1))),
    (7, 3, "conjunct of the inner join at level 1", in_inner(outer(1, 0))),
    (0, 0, "conjunct of the inner join on its own rows", in_inner(local(4))),
    (7, 3, "conjunct of the inner join outside its own rows", in_inner(local(5))),
    (0, 0, "right of a plain join at level 0", right_of_join(outer(0, 0))),
    (7, 3, "right of a plain join outside", right_of_join(outer(0, 1))),
    (7, 3, "right of a plain join at level 1", right_of_join(outer(1, 0))),
]


# Dependent joins around one select, the node behind the scans; the left row at level L has L + 1 columns.
def nested(joins, term):
    scans = [scan(level) for level in range(joins)] + [scan(0)]
    around = [dependent_join(SEMI, level, joins + 1 + level) for level in range(joins)]
    return plan(range(1, joins + 1), scans + [select(joins, read(term))] + around)


# 127 dependent joins around node 128: 256 nodes.
def nested_deep(term):
    around = [dependent_join(SEMI, level, 128 + level) for level in range(127)]
    return plan([1], [scan(0)] * 128 + [select(127, read(term))] + around)


# A chain of 253 selects from node 2 to the dependent join: 256 nodes.
def chained(term):
    return plan([1], [scan(0), scan(0), select(1, read(term))] + [select(n) for n in range(2, 254)] + [dependent_join(INNER, 0, 254)])


DEEP = [
    (0, 0, "level 0 under eight dependent joins", nested(8, outer(0, 0))),
    (7, 9, "level 0 outside under eight dependent joins", nested(8, outer(0, 1))),
    (0, 0, "level 6 under eight dependent joins", nested(8, outer(6, 6))),
    (7, 9, "level 6 outside under eight dependent joins", nested(8, outer(6, 7))),
    (0, 0, "level 7 under eight dependent joins", nested(8, outer(7, 7))),
    (7, 9, "level 7 outside under eight dependent joins", nested(8, outer(7, 8))),
    (7, 8, "level 7 under seven dependent joins", nested(7, outer(7, 0))),
    (3, 9, "level 8 under eight dependent joins", nested(8, outer(8, 0))),
    (3, 10, "level 8 under nine dependent joins", nested(9, outer(8, 0))),
    (0, 0, "level 7 under 127 dependent joins", nested_deep(outer(7, 0))),
    (7, 128, "level 7 outside under 127 dependent joins", nested_deep(outer(7, 1))),
    (0, 0, "outer column below 253 selects", chained(outer(0, 0))),
    (7, 2, "outer column outside below 253 selects", chained(outer(0, 1))),
]

# Nodes with a local and an outer column outside, in both orders.
LOCAL_FIRST = [scan(0), select(0, read(local(1))), select(0, read(outer(0, 1))), dependent_join(SEMI, 1, 2)]
OUTER_FIRST = [scan(0), select(0, read(outer(0, 1))), dependent_join(SEMI, 0, 1), select(2, read(local(1)))]

ORDER = [
    (7, 1, "two nodes with columns outside", plan([1], [scan(0), select(0, read(local(1))), select(1, read(local(1)))])),
    (7, 1, "local column outside before an outer one", plan([1], LOCAL_FIRST)),
    (7, 1, "outer column outside before a local one", plan([1], OUTER_FIRST)),
]

CASES = SECOND_TERMS + OWN_ROWS + TWO_ROWS + NODE_ROWS + ONE_LEVEL + TWO_LEVELS + DEEP + ORDER
