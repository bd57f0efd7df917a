"""Plans whose rewriting meets a limit or the end of the output. A case is a name, the tables' widths, the nodes, and the words of room."""
from plan_table import *
from rewriting_cases import case, read

# More than the longest plan has.
MOST = 16000


# A dependent join in the right side of the next, all of which read the row around them. The innermost select becomes two nodes,
# the last join three, a semi join inside three and any other inside four: without semi joins 4N - 6, the most that N nodes become.
def chain(nodes, semi_joins=()):
    kinds = {below: SEMI for below in semi_joins}
    joins = [dependent_join(kinds.get(below, INNER), 0, below, read(outer(0, 0))) for below in range(1, nodes - 2)]
    return [1], [scan(0), select(0, read(outer(0, 0)))] + joins + [dependent_join(INNER, 0, nodes - 2)]


def selects(nodes):
    return [1], [scan(0)] + [select(below) for below in range(nodes - 1)]


NODES = [
    case("60 nodes that become 234 with 2,000 items", *chain(60), MOST),
    case("62 nodes that become 240", *chain(62, [20, 40]), MOST),
    case("66 nodes that become 256", *chain(66, [20, 40]), MOST),
    case("66 nodes that become 257", *chain(66, [30]), MOST),
    case("128 nodes that become 381", *chain(128, range(1, 126)), MOST),
    case("256 nodes without dependent joins", *selects(256), MOST),
]


# The domain's key, the select's conjunct, the match and the project's two columns are five items; the last select has the rest.
def many_items(count):
    reads = select(1, equal(local(0), outer(0, 0)))
    return [1], [scan(0), scan(0), reads, dependent_join(INNER, 0, 2), select(3, *[read(local(1))] * (count - 5))]


ITEMS = [
    case("2,000 items", *many_items(2000), MOST),
    case("2,001 items", *many_items(2001), MOST),
]


# A dependent join of rows of these widths whose right side reads one column, the last.
def pair(kind, left, right):
    return [left, right], [scan(0), scan(1), select(1, read(outer(0, left - 1))), dependent_join(kind, 0, 2)]


# The domain has one column, and these nodes stand over node 2, an open select of this width.
def under(width, *nodes):
    return [1, width], [scan(0), scan(1), select(1, read(outer(0, 0))), *nodes, dependent_join(SEMI, 0, 2 + len(nodes))]


# The right side of a join is a second select under the same domain.
def two_sides(left, right, join_node):
    reads = read(outer(0, 0))
    return [1, left, right], [scan(0), scan(1), scan(2), select(1, reads), select(2, reads), join_node, dependent_join(SEMI, 0, 5)]


# The left side of the inner dependent join stands under a domain of one column, and its last column is read.
def left_side(width, kind=SEMI):
    reads = select(2, read(outer(0, width - 1)), read(outer(1, 0)))
    return [1, width, 1], [scan(0), scan(1), scan(2), reads, dependent_join(kind, 1, 3), dependent_join(SEMI, 0, 4)]


# The right side reads so many columns of a row of 64, the last ones.
def many_read(count):
    reads = [read(outer(0, position)) for position in range(64 - count, 64)]
    return [64, 1], [scan(0), scan(1), select(1, *reads), dependent_join(SEMI, 0, 2)]


# A domain of 63 columns in front of a left side of 64.
LEFT_OF_127 = [64, 1], [
    scan(0),
    scan(1),
    select(1, *[read(outer(1, position)) for position in range(63)], read(outer(0, 63))),
    dependent_join(SEMI, 0, 2),
    dependent_join(SEMI, 0, 3),
]

# Conjuncts see two rows of 64 each.
LAST_COLUMNS = [less(local(62), local(63)), equal(local(125), outer(0, 0))]

WIDTHS = [
    case("64 columns before the project", *pair(INNER, 32, 31), MOST),
    case("65 columns before the project", *pair(INNER, 32, 32), MOST),
    case("64 columns before the project of an outer join", *pair(LEFT_OUTER, 1, 62), MOST),
    case("65 columns before the project of an outer join", *pair(LEFT_OUTER, 1, 63), MOST),
    case("column 63 of a semi join", *pair(SEMI, 64, 63), MOST),
    case("column 63 of an anti join", *pair(ANTI, 64, 63), MOST),
    case("closed node of 63 with a domain", *under(63), MOST),
    case("closed node of 64 with a domain", *under(64), MOST),
    case("map of 64 with a domain", *under(62, compute(2, copy(NULL))), MOST),
    case("map of 65 with a domain", *under(63, compute(2, copy(NULL))), MOST),
    case("project of 64 with a domain", *under(1, project(2, *[output(0)] * 63)), MOST),
    case("project of 65 with a domain", *under(1, project(2, *[output(0)] * 64)), MOST),
    case("group of 64 with a domain", *under(1, group(2, key(0), *[COUNT] * 62)), MOST),
    case("group of 65 with a domain", *under(1, group(2, key(0), *[COUNT] * 63)), MOST),
    case("group without keys of 64 with a domain", *under(1, group(2, *[COUNT] * 63)), MOST),
    case("group without keys of 65 with a domain", *under(1, group(2, *[COUNT] * 64)), MOST),
    case("groupjoin of 64 with a domain", *under(60, groupjoin(2, 1, *[COUNT] * 3)), MOST),
    case("groupjoin of 65 with a domain", *under(60, groupjoin(2, 1, *[COUNT] * 4)), MOST),
    case("join of 64 with a domain", *under(21, join(INNER, 2, 1), join(INNER, 3, 1)), MOST),
    case("join of 65 with a domain", *under(32, join(LEFT_OUTER, 2, 1)), MOST),
    case("join of 64 with two domains", *two_sides(31, 31, join(INNER, 3, 4)), MOST),
    case("join of 65 with two domains", *two_sides(31, 32, join(INNER, 3, 4)), MOST),
    case("semi join of 63 and 63 with two domains", *two_sides(63, 63, join(SEMI, 3, 4, *LAST_COLUMNS)), MOST),
    case("groupjoin of 63 and 63 with two domains", *two_sides(62, 63, groupjoin(3, 4, *LAST_COLUMNS[:1], maximum(62))), MOST),
    case("left side of 64 under a domain", *left_side(63), MOST),
    case("left side of 65 under a domain", *left_side(64), MOST),
    case("64 columns before the project under a domain", *left_side(60, INNER), MOST),
    case("65 columns before the project under a domain", *left_side(61, INNER), MOST),
    case("left side of 127 under a domain", *LEFT_OF_127, MOST),
    case("62 columns read", *many_read(62), MOST),
    case("63 columns read", *many_read(63), MOST),
    case("64 columns read", *many_read(64), MOST),
]

# The rewriting has 88 words; the plan without dependent joins has 15.
SMALL = [3, 2], [scan(0), scan(1), select(1, equal(local(1), outer(0, 2)), read(outer(0, 0))), dependent_join(SEMI, 0, 2)]

ROOMS = [
    case("room for all but one word", *SMALL, 87),
    case("room for exactly the words", *SMALL, 88),
    case("room for one word more", *SMALL, 89),
    case("no room", *SMALL, 0),
    case("room for the plan as it was", *SMALL, 66),
    case("room for all but one word without dependent joins", *selects(1), 14),
    case("room for exactly the words without dependent joins", *selects(1), 15),
    case("8 before 9 by nodes", *chain(66, [30]), 0),
    case("8 before 9 by items", *chain(61), 0),
    case("8 before 9 by width", *pair(INNER, 32, 32), 0),
]

CASES = NODES + ITEMS + WIDTHS + ROOMS
