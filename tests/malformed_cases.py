"""Refusal 3: a node or its items malformed."""
from plan_table import *

SAME = equal(local(0), local(0))


# A node over a scan of width 2, as the root.
def over_scan(root):
    return plan([2], [scan(0), root])


# A node over two scans of width 2, as the root.
def over_two(root):
    return plan([2], [scan(0), scan(0), root])


# A select over a scan, whose only conjunct has this tag and these terms.
def conjunct(tag, first=local(0), second=local(1)):
    return over_scan(select(0, item(tag, first, second)))


OPERATORS = [
    (3, 0, "operator 0 of the first node", plan([1], [node(0)])),
    (3, 0, "operator 65 of the first node", plan([1], [node(65)])),
    (3, 1, "operator 0", over_scan(node(0))),
    (3, 1, "operator 9", over_scan(node(9))),
    (3, 1, "operator 9 below the root", plan([1], [scan(0), node(9), select(1)])),
    (3, 1, "operator 2^32 - 1", over_scan(node(2**32 - 1))),
]

INPUTS = [
    (0, 0, "last table", plan([1, 1], [scan(1)])),
    (3, 0, "table number T", plan([1, 1], [scan(2)])),
    (3, 0, "table number 2^32 - 1", plan([1], [scan(2**32 - 1)])),
    (3, 0, "first node a select", plan([1], [select(0)])),
    (3, 1, "input is the node itself", over_scan(select(1))),
    (3, 1, "input above the node", plan([1], [scan(0), select(2), select(0)])),
    (3, 1, "input 2^32 - 1", over_scan(select(2**32 - 1))),
    (3, 1, "left input of a join is the join", over_scan(join(INNER, 1, 0))),
    (3, 1, "right input of a join is the join", over_scan(join(INNER, 0, 1))),
    (3, 1, "right input of a groupjoin is the groupjoin", over_scan(groupjoin(0, 1, COUNT))),
    (3, 1, "right input of a dependent join is the join", over_scan(dependent_join(INNER, 0, 1))),
    (3, 0, "right word of a scan", plan([1, 1], [scan(0, right=1)])),
    (3, 2, "right word of a select", over_two(select(0, right=1))),
    (3, 2, "right word of a map", over_two(compute(0, copy(local(0)), right=1))),
    (3, 2, "right word of a project", over_two(project(0, output(0), right=1))),
    (3, 2, "right word of a group", over_two(group(0, COUNT, right=1))),
]

KINDS = [
    (3, 0, "kind 1 of a scan", plan([1], [scan(0, kind=1)])),
    (3, 1, "kind 1 of a select", over_scan(select(0, kind=1))),
    (3, 1, "kind 1 of a map", over_scan(compute(0, copy(local(0)), kind=1))),
    (3, 1, "kind 1 of a project", over_scan(project(0, output(0), kind=1))),
    (3, 1, "kind 1 of a group", over_scan(group(0, COUNT, kind=1))),
    (3, 2, "kind 1 of a groupjoin", over_two(groupjoin(0, 1, COUNT, kind=1))),
    (3, 2, "kind 0 of a join", over_two(join(0, 0, 1))),
    (0, 0, "kind 1 of a join", over_two(join(1, 0, 1))),
    (0, 0, "kind 4 of a join", over_two(join(4, 0, 1))),
    (3, 2, "kind 5 of a join", over_two(join(5, 0, 1))),
    (3, 2, "kind 0 of a dependent join", over_two(dependent_join(0, 0, 1))),
    (0, 0, "kind 1 of a dependent join", over_two(dependent_join(1, 0, 1))),
    (0, 0, "kind 4 of a dependent join", over_two(dependent_join(4, 0, 1))),
    (3, 2, "kind 5 of a dependent join", over_two(dependent_join(5, 0, 1))),
]

# A scan, a select with one conjunct, and a scan behind it: every first item counts the items before it.
FIRST_ITEMS = [scan(0), select(0, SAME), scan(0)]

# 2, 2^32 - 1 and 1 sum to I, which is 2, modulo 2^32 only.
WRAPPING_COUNTS = [
    scan(0),
    select(0, SAME, SAME),
    select(1, item_count=2**32 - 1),
    select(2, first_item=1, item_count=1),
]

PLACES = [
    (0, 0, "first item of a scan behind an item", plan([1], FIRST_ITEMS + [join(INNER, 1, 2)])),
    (3, 2, "first item 0 of a scan behind an item", plan([1], FIRST_ITEMS[:2] + [scan(0, first_item=0), join(INNER, 1, 2)])),
    (3, 0, "first item 1 of the first node", plan([1], [scan(0, first_item=1)])),
    (3, 2, "first item one less", plan([1], [scan(0), select(0, SAME), select(1, SAME, first_item=0)])),
    (3, 1, "first item one more", plan([1], [scan(0), select(0, SAME, first_item=1), select(1, SAME)])),
    (3, 1, "item left over", plan([1], [scan(0), select(0, SAME)], [SAME])),
    (3, 2, "item left over and no other", plan([1], [scan(0), select(0), select(1)], [SAME])),
    (3, 1, "malformed item left over", plan([1], [scan(0), select(0)], [item(99)])),
    (3, 1, "items of the root pass I", plan([1], [scan(0), select(0, SAME, item_count=2)])),
    (3, 1, "items pass I below the root", plan([1], [scan(0), select(0, SAME, item_count=2), select(1)])),
    (3, 2, "items pass I behind other items", plan([1], [scan(0), select(0, SAME), select(1, SAME, item_count=2), select(2)])),
    (3, 1, "item count 2^32 - 1", plan([1], [scan(0), select(0, SAME, item_count=2**32 - 1), select(1)])),
    (3, 2, "item counts that sum modulo 2^32", plan([1], WRAPPING_COUNTS)),
]

COUNTS = [
    (3, 0, "scan with an item", plan([1], [node(1, 0, items=[SAME])])),
    (0, 0, "select without items", over_scan(select(0))),
    (3, 1, "map without items", over_scan(compute(0))),
    (3, 1, "map with two items", over_scan(compute(0, copy(local(0)), copy(local(0))))),
    (3, 1, "project without columns", over_scan(project(0))),
    (0, 0, "project with two columns", over_scan(project(0, output(1), output(0)))),
    (0, 0, "join without items", over_two(join(INNER, 0, 1))),
    (3, 1, "group with no items", over_scan(group(0))),
    (0, 0, "group with a key alone", over_scan(group(0, key(0)))),
    (0, 0, "group with an aggregate alone", over_scan(group(0, COUNT))),
    (3, 2, "groupjoin with no items", over_two(groupjoin(0, 1))),
    (3, 2, "groupjoin without aggregates", over_two(groupjoin(0, 1, SAME))),
    (0, 0, "groupjoin without conjuncts", over_two(groupjoin(0, 1, COUNT))),
    (0, 0, "dependent join without items", over_two(dependent_join(INNER, 0, 1))),
]

SORTS = [
    (0, 0, "keys, then aggregates", over_scan(group(0, key(0), key(1), COUNT, sum_of(1)))),
    (3, 1, "key after an aggregate", over_scan(group(0, COUNT, key(0)))),
    (3, 1, "key between aggregates", over_scan(group(0, key(0), COUNT, key(1), COUNT))),
    (0, 0, "conjuncts, then aggregates", over_two(groupjoin(0, 1, SAME, SAME, COUNT, maximum(1)))),
    (3, 2, "conjunct after an aggregate", over_two(groupjoin(0, 1, COUNT, SAME))),
    (3, 1, "computation in a select", over_scan(select(0, copy(local(0))))),
    (3, 1, "aggregate in a select", over_scan(select(0, COUNT))),
    (3, 1, "conjunct in a map", over_scan(compute(0, SAME))),
    (3, 1, "output column in a map", over_scan(compute(0, output(0)))),
    (3, 1, "key in a project", over_scan(project(0, key(0)))),
    (3, 1, "computation in a project", over_scan(project(0, copy(local(0))))),
    (3, 2, "aggregate in a join", over_two(join(INNER, 0, 1, COUNT))),
    (3, 1, "output column in a group", over_scan(group(0, output(0)))),
    (3, 1, "conjunct in a group", over_scan(group(0, SAME, COUNT))),
    (3, 2, "key in a groupjoin", over_two(groupjoin(0, 1, key(0), COUNT))),
    (3, 2, "output column in a groupjoin", over_two(groupjoin(0, 1, SAME, output(0)))),
    (3, 2, "aggregate in a dependent join", over_two(dependent_join(INNER, 0, 1, COUNT))),
]

TAGS = [
    (3, 1, "tag 0", conjunct(0)),
    (0, 0, "tag 1", conjunct(1)),
    (0, 0, "tag 7", conjunct(7)),
    (3, 1, "tag 8 in a select", conjunct(8)),
    (3, 1, "tag 7 in a map", over_scan(compute(0, item(7, local(0), local(1))))),
    (0, 0, "tag 8 in a map", over_scan(compute(0, item(8, local(0))))),
    (0, 0, "tag 9 in a map", over_scan(compute(0, item(9, local(0), local(1))))),
    (0, 0, "tag 10 in a map", over_scan(compute(0, item(10, local(0), local(1))))),
    (3, 1, "tag 11 in a map", over_scan(compute(0, item(11, local(0))))),
    (0, 0, "tag 7 in a groupjoin", over_two(groupjoin(0, 1, item(7, local(0), local(1)), COUNT))),
    (3, 2, "tag 8 in a groupjoin", over_two(groupjoin(0, 1, item(8, local(0)), COUNT))),
    (3, 1, "tag 12 in a group", over_scan(group(0, item(12)))),
    (0, 0, "tag 13 in a group", over_scan(group(0, item(13)))),
    (0, 0, "tag 16 in a group", over_scan(group(0, item(16)))),
    (3, 1, "tag 17", over_scan(group(0, item(17)))),
    (3, 1, "tag 2^32 - 1", conjunct(2**32 - 1)),
]

TERMS = [
    (0, 0, "least constant", conjunct(1, local(0), constant(-(2**31)))),
    (0, 0, "greatest constant", conjunct(1, constant(2**31 - 1))),
    (0, 0, "null on both sides", conjunct(7, NULL, NULL)),
    (3, 1, "level word in a local term", conjunct(1, [0, 1, 0])),
    (3, 1, "level word in a second local term", conjunct(1, local(0), [0, 1, 0])),
    (3, 1, "level word in a constant", conjunct(1, [2, 1, 0])),
    (3, 1, "level word in a null", conjunct(1, [3, 1, 0])),
    (3, 1, "null term with a value", conjunct(1, [3, 0, 1])),
    (3, 1, "second null term with a value", conjunct(1, local(0), [3, 0, 1])),
    (3, 1, "term code 4", conjunct(1, [4, 0, 0])),
    (3, 1, "second term code 4", conjunct(1, local(0), [4, 0, 0])),
    (3, 1, "level 8", conjunct(1, outer(8, 0))),
    (3, 1, "second level 8", conjunct(1, local(0), outer(8, 0))),
    (3, 1, "level 2^32 - 1", conjunct(1, outer(2**32 - 1, 0))),
    (3, 1, "malformed second conjunct", over_scan(select(0, SAME, item(0)))),
    (0, 0, "constant in an addition", over_scan(compute(0, add(local(0), constant(5))))),
    (0, 0, "null in an addition", over_scan(compute(0, add(NULL, local(1))))),
    (3, 1, "malformed term in an addition", over_scan(compute(0, add(local(0), [3, 0, 1])))),
    (0, 0, "copy of a constant", over_scan(compute(0, copy(constant(-1))))),
    (3, 1, "copy of a malformed term", over_scan(compute(0, copy([3, 0, 1])))),
]


# An item that uses only its first term, with a second one.
def with_second(tag, second):
    return item(tag, local(0), second)


UNUSED_TERMS = [
    (3, 1, "copy with a second term", over_scan(compute(0, with_second(8, local(1))))),
    (3, 1, "copy with a second null", over_scan(compute(0, with_second(8, NULL)))),
    (3, 1, "copy with a second level", over_scan(compute(0, with_second(8, [0, 1, 0])))),
    (3, 1, "key with a second term", over_scan(group(0, with_second(11, local(1))))),
    (3, 1, "output column with a second term", over_scan(project(0, with_second(12, constant(0))))),
    (3, 1, "count with a first term", over_scan(group(0, item(13, local(1))))),
    (3, 1, "count with a first constant", over_scan(group(0, item(13, constant(0))))),
    (3, 1, "count with a second term", over_scan(group(0, item(13, UNUSED, local(1))))),
    (3, 1, "sum with a second term", over_scan(group(0, with_second(14, local(1))))),
    (3, 1, "min with a second term", over_scan(group(0, with_second(15, NULL)))),
    (3, 1, "max with a second term", over_scan(group(0, with_second(16, outer(0, 0))))),
    (3, 2, "count with a term in a groupjoin", over_two(groupjoin(0, 1, item(13, local(1))))),
    (3, 1, "key of a constant", over_scan(group(0, item(11, constant(0))))),
    (3, 1, "key of an outer column", over_scan(group(0, item(11, outer(0, 0))))),
    (3, 1, "key with a level word", over_scan(group(0, item(11, [0, 1, 0])))),
    (3, 1, "output column of a null", over_scan(project(0, item(12, NULL)))),
    (3, 1, "output column of an outer column", over_scan(project(0, item(12, outer(0, 0))))),
    (3, 1, "sum of a constant", over_scan(group(0, item(14, constant(1))))),
    (3, 1, "min of a null", over_scan(group(0, item(15, NULL)))),
    (3, 1, "max of an outer column", over_scan(group(0, item(16, outer(0, 0))))),
]

ORDER = [
    (3, 1, "two malformed nodes", plan([1], [scan(0), select(0, kind=1), node(9)])),
    (3, 1, "malformed item before a wrong input", plan([1], [scan(0), select(0, item(0)), select(2)])),
    (3, 1, "item left over behind a malformed node", plan([1], [scan(0), select(0, kind=1), select(1)], [SAME])),
    # Node 0 is unused, which is looked for later.
    (3, 2, "3 before 4", plan([1], [scan(0), scan(0), select(1, kind=1)])),
]

CASES = OPERATORS + INPUTS + KINDS + PLACES + COUNTS + SORTS + TAGS + TERMS + UNUSED_TERMS + ORDER
