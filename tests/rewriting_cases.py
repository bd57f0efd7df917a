"""Dependent joins for the rewriter. A case is a name, the tables' widths, the nodes, and the words of room in the output."""
from plan_table import *

# The rewriting of plan S: header, widths, nodes, items.
REWRITTEN_SCRUB_LIST = (
    [120, 2, 8, 9, 10, 8, 64, 0]
    + [1, 1]
    + [1, 0, 0, 0, 0, 0]
    + [1, 1, 0, 0, 0, 0]
    + [6, 0, 0, 0, 0, 1]
    + [5, 2, 1, 1, 1, 0]
    + [2, 3, 0, 0, 1, 1]
    + [7, 2, 4, 0, 2, 2]
    + [5, 0, 5, 1, 4, 1]
    + [4, 6, 0, 0, 5, 2]
    + [2, 7, 0, 0, 7, 1]
    + [11, 0, 0, 0, 0, 0, 0]
    + [1, 0, 0, 1, 0, 0, 0]
    + [7, 0, 0, 0, 0, 0, 1]
    + [13, 0, 0, 0, 0, 0, 0]
    + [7, 0, 0, 0, 0, 0, 1]
    + [12, 0, 0, 0, 0, 0, 0]
    + [12, 0, 0, 2, 0, 0, 0]
    + [3, 0, 0, 1, 2, 0, 2]
)

KINDS = [("inner", INNER), ("semi", SEMI), ("anti", ANTI), ("outer", LEFT_OUTER)]
ROOM = 600


def case(name, tables, nodes, room=ROOM):
    return name, tables, nodes, room


def differ(first, second):
    return item(2, first, second)


def same(first, second):
    return item(7, first, second)


# A conjunct that reads one column and no other.
def read(term):
    return equal(term, NULL)


# Every operator but the dependent join, every kind, tag and sort of term; node 0 is used four times.
EVERY_ITEM = [
    scan(1),
    scan(0),
    select(0, *[item(tag, local(tag % 3), constant(-tag)) for tag in range(1, 8)]),
    compute(2, add(local(2), constant(-(2**31)))),
    compute(3, subtract(NULL, local(3))),
    compute(4, copy(constant(2**31 - 1))),
    join(INNER, 5, 1, same(local(7), local(0))),
    join(SEMI, 6, 0, less(local(0), local(10))),
    join(ANTI, 7, 0, equal(local(10), NULL)),
    join(LEFT_OUTER, 8, 0),
    groupjoin(9, 1, equal(local(0), local(12)), COUNT, sum_of(1), minimum(0), maximum(1)),
    group(10, key(14), key(0), COUNT, sum_of(2), minimum(3), maximum(13)),
    project(11, output(5), output(0), output(5)),
]

WITHOUT_DEPENDENT_JOINS = [
    case("one scan", [1], [scan(0)]),
    case("every operator but the dependent join", [2, 3], EVERY_ITEM),
]


# Node 2 reads columns of the left row, of width 3, over a scan of width 2; the dependent join is the root.
def closed_join(kind, *conjuncts):
    reads = select(1, equal(local(1), outer(0, 2)), differ(outer(0, 0), local(0)))
    return [3, 2], [scan(0), scan(1), reads, dependent_join(kind, 0, 2, *conjuncts)]


BOTH_ROWS = [less(local(2), local(3)), equal(constant(-1), local(4)), same(NULL, local(0))]
BEYOND = [less(outer(0, 1), local(1)), differ(local(4), outer(0, 0))]

CLOSED = []
for name, kind in KINDS:
    CLOSED += [
        case(f"closed dependent {name} join", *closed_join(kind, *BOTH_ROWS)),
        case(f"closed dependent {name} join without conjuncts", *closed_join(kind)),
        case(f"closed dependent {name} join with a closed right side", [3, 2], [scan(0), scan(1), dependent_join(kind, 0, 1, *BOTH_ROWS)]),
    ]


# The outer dependent join, the root, has a left row of width 2, and the inner one, node 4, a left row of width 3.
# The inner one's right side reads these terms over a scan of width 2.
def nested_join(kind, inside, conjuncts=(), outer_kind=INNER):
    right_side = select(2, *map(read, inside))
    inner = dependent_join(kind, 1, 3, *conjuncts)
    return [2, 3, 2], [scan(0), scan(1), scan(2), right_side, inner, dependent_join(outer_kind, 0, 4)]


OWN_AND_FURTHER = [outer(0, 2), outer(1, 1), local(1), outer(0, 0)]

NESTED = [
    case("dependent join that reads only its own row and is open by its conjuncts", *nested_join(INNER, [outer(0, 1)], BEYOND)),
    case("dependent join that reads only its own row and is closed", *nested_join(INNER, [outer(0, 1)])),
]
for name, kind in KINDS:
    NESTED += [
        case(f"dependent {name} join under a domain", *nested_join(kind, OWN_AND_FURTHER, BOTH_ROWS + BEYOND)),
        case(f"dependent {name} join that reads only a further row", *nested_join(kind, [outer(1, 1)], BOTH_ROWS)),
        case(f"dependent {name} join with a closed right side under a domain", *nested_join(kind, [local(1)], BOTH_ROWS + BEYOND)),
        case(f"domain of a dependent {name} join", *nested_join(INNER, OWN_AND_FURTHER, [], kind)),
    ]


# Dependent joins nested three deep, with left rows of widths 2, 3 and 4; node 4 is the select that reads them.
def three_deep(kinds, *terms):
    scans = [scan(0), scan(1), scan(2), scan(3), select(3, *map(read, terms))]
    joins = [dependent_join(kind, 2 - k, 4 + k) for k, kind in enumerate(kinds)]
    return [2, 3, 4, 1], scans + joins


ALL_LEVELS = [outer(2, 1), outer(1, 2), outer(0, 3), outer(1, 0), outer(0, 1)]

# The middle join's left side and the innermost one's conjuncts read too.
OPEN_ON_ALL_SIDES = [
    scan(0),
    scan(1),
    select(1, equal(local(0), outer(0, 1))),
    scan(2),
    compute(3, add(outer(0, 0), outer(1, 0))),
    scan(3),
    select(5, less(outer(2, 0), outer(0, 4)), differ(outer(1, 2), local(0))),
    dependent_join(LEFT_OUTER, 4, 6, same(outer(1, 1), local(5))),
    dependent_join(ANTI, 2, 7, less(local(0), outer(0, 0))),
    dependent_join(INNER, 0, 8, equal(local(0), local(2))),
]

DEEP = [
    case("three deep, all levels", *three_deep([INNER] * 3, *ALL_LEVELS)),
    case("three deep, all levels, one of each other kind", *three_deep([SEMI, ANTI, LEFT_OUTER], *ALL_LEVELS)),
    case("three deep, the outermost row alone", *three_deep([INNER] * 3, outer(2, 1))),
    case("three deep, the middle row alone", *three_deep([INNER] * 3, outer(1, 1))),
    case("three deep, the nearest row alone", *three_deep([INNER] * 3, outer(0, 1))),
    case("three deep, all but the middle row", *three_deep([INNER, LEFT_OUTER, INNER], outer(0, 1), outer(2, 0), outer(2, 1))),
    case("three deep, all but the nearest row", *three_deep([LEFT_OUTER, INNER, INNER], outer(1, 2), outer(2, 0))),
    case("three deep, open on all sides", [2, 3, 4, 1], OPEN_ON_ALL_SIDES),
]


# Eight dependent joins around one select over a scan of width 1; the left row at level L has L + 1 columns.
def eight_deep(*terms):
    scans = [scan(level) for level in range(8)] + [scan(0)]
    joins = [dependent_join(SEMI, level, 9 + level) for level in range(8)]
    return range(1, 9), scans + [select(8, *map(read, terms))] + joins


DEEP += [
    case("eight deep, the last column of each level", *eight_deep(*[outer(level, level) for level in range(8)]), 800),
    case("eight deep, levels 7 and 0", *eight_deep(outer(7, 6), outer(0, 0), outer(7, 2)), 800),
    case("eight deep, level 7 alone", *eight_deep(outer(7, 7)), 800),
]


# A dependent join in the right side of another: the left row inside has width 5, the one around it 6.
def with_gaps(inside, *around):
    return [6, 5, 1], [
        scan(0),
        scan(1),
        scan(2),
        select(2, *map(read, inside)),
        dependent_join(INNER, 1, 3, *map(read, around)),
        dependent_join(INNER, 0, 4),
    ]


ONE_LEVEL = [scan(0), scan(2), select(1, *map(read, [outer(0, 5), outer(0, 1), outer(0, 4)])), dependent_join(SEMI, 0, 2)]

PLACES = [
    case("gaps at one level", [6, 5, 1], ONE_LEVEL),
    case("gaps at two levels", *with_gaps([outer(0, 4), outer(0, 1), outer(1, 5), outer(1, 2)])),
    case("a column of the domain that only conjuncts read", *with_gaps([outer(0, 4), outer(0, 1), outer(1, 2)], outer(0, 0), outer(0, 5))),
    case("keys from the left alone", *with_gaps([outer(0, 4), outer(0, 2)], outer(0, 3))),
    case("keys from the domain and the left", *with_gaps([outer(0, 0), outer(1, 0)], outer(0, 1), local(5))),
    case("one column read four times", *with_gaps([outer(1, 3), outer(0, 3), outer(1, 3), outer(0, 3)], outer(0, 3))),
    case("all columns in falling order", *with_gaps([outer(1, k) for k in range(5, -1, -1)] + [outer(0, k) for k in range(4, -1, -1)])),
]

CASES = WITHOUT_DEPENDENT_JOINS + CLOSED + NESTED + DEEP + PLACES
