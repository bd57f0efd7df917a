"""Nodes under a domain. A case is a name, the tables' widths, the nodes, and the words of room in the output."""
from plan_table import *
from rewriting_cases import KINDS, OWN_AND_FURTHER, case, nested_join, read, same


# The right side of a dependent join whose left row has width 4; its domain has columns 1 and 3, unless these nodes read more.
# Node 1 is closed and node 2 is open, both of width 2.
def right_side(*nodes):
    before = [scan(0), scan(1), select(1, equal(local(1), outer(0, 3)), read(outer(0, 1)))]
    return [4, 2], before + list(nodes) + [dependent_join(INNER, 0, 2 + len(nodes))]


# Another open node of width 2.
OTHER = select(1, less(local(0), outer(0, 0)))
AGGREGATES = [COUNT, sum_of(1), minimum(0), maximum(1)]
PAIR = [less(local(1), local(2)), equal(local(3), outer(0, 1)), same(outer(0, 3), local(0))]

THREE_NODES = [compute(2, copy(outer(0, 1))), project(3, output(2)), select(4, read(outer(0, 0)))]

UNDER = [
    case("select under a domain", *right_side(select(2, less(local(1), outer(0, 0)), same(local(0), local(1))))),
    case("select without conjuncts under a domain", *right_side(select(2))),
    case("copy of a column under a domain", *right_side(compute(2, copy(local(1))))),
    case("copy of an outer column", *right_side(compute(2, copy(outer(0, 2))))),
    case("addition of an outer column", *right_side(compute(2, add(local(0), outer(0, 1))))),
    case("subtraction of outer columns", *right_side(compute(2, subtract(outer(0, 3), outer(0, 0))))),
    case("project under a domain", *right_side(project(2, output(1), output(0), output(1)))),
    case("group with keys under a domain", *right_side(group(2, key(1), key(0), *AGGREGATES))),
    case("group with keys alone under a domain", *right_side(group(2, key(1)))),
    case("group without keys under a domain", *right_side(group(2, *AGGREGATES))),
    case("group without keys over a group with keys", *right_side(group(2, key(1), COUNT), group(3, maximum(1)))),
    case("group with keys over a group without keys", *right_side(group(2, COUNT), group(3, key(0), COUNT))),
    case("map, project, select one over the other", *right_side(*THREE_NODES)),
    case("open groupjoin with a closed right side", *right_side(groupjoin(2, 1, *PAIR, *AGGREGATES))),
    case("open groupjoin with a closed left side", *right_side(groupjoin(1, 2, *PAIR, *AGGREGATES))),
    case("open groupjoin with two open sides", *right_side(OTHER, groupjoin(2, 3, *PAIR, *AGGREGATES))),
    case("open groupjoin without conjuncts", *right_side(groupjoin(1, 2, sum_of(0)))),
    case("groupjoin open by its conjuncts", [4, 2], [scan(0), scan(1), groupjoin(1, 1, *PAIR, maximum(1)), dependent_join(SEMI, 0, 2)]),
]
for name, kind in KINDS:
    UNDER += [
        case(f"open {name} join with a closed right side", *right_side(join(kind, 2, 1, *PAIR))),
        case(f"open {name} join with a closed left side", *right_side(join(kind, 1, 2, *PAIR))),
        case(f"open {name} join with two open sides", *right_side(OTHER, join(kind, 2, 3, *PAIR))),
        case(f"{name} join open by its conjuncts", [4, 2], [scan(0), scan(1), join(kind, 1, 1, *PAIR), dependent_join(INNER, 0, 2)]),
    ]

# An unused term is three zeros, as the first local column is; it doesn't move, and neither do constants and nulls.
CONSTANTS = [item(tag, constant(-(2**31)), NULL) for tag in range(1, 8)] + [equal(NULL, constant(2**31 - 1)), same(constant(-1), local(0))]

FIXED = [
    case("constants and nulls in a select", *right_side(select(2, *CONSTANTS))),
    case("constants and nulls in a join", *right_side(join(LEFT_OUTER, 2, 1, *CONSTANTS))),
    case("constants and nulls in a groupjoin", *right_side(groupjoin(1, 2, *CONSTANTS, COUNT))),
    case("constants and nulls in a dependent join", *nested_join(INNER, OWN_AND_FURTHER, CONSTANTS)),
    case("copy of a constant", *right_side(compute(2, copy(constant(-7))))),
    case("copy of a null", *right_side(compute(2, copy(NULL)))),
    case("addition of constants", *right_side(compute(2, add(constant(-1), constant(1))))),
    case("subtraction of a null", *right_side(compute(2, subtract(local(0), NULL)))),
]

# One closed node, a scan or a dependent join, on both sides and below two domains.
SHARED = [
    case(
        "closed node under two domains",
        [2],
        [
            scan(0),
            select(0, equal(local(0), outer(0, 1))),
            dependent_join(INNER, 0, 1),
            select(0, equal(local(0), outer(0, 3))),
            dependent_join(SEMI, 2, 3),
        ],
    ),
    case(
        "closed dependent joins under a domain",
        [2],
        [
            scan(0),
            select(0, equal(local(0), outer(0, 1))),
            dependent_join(INNER, 0, 1),
            select(0, equal(local(1), outer(0, 0))),
            dependent_join(ANTI, 0, 3),
            select(2, equal(local(3), outer(0, 0))),
            join(INNER, 5, 4),
            join(SEMI, 6, 2, read(outer(0, 1))),
            dependent_join(LEFT_OUTER, 4, 7),
        ],
    ),
    case(
        "closed node joined with a domain twice",
        [2],
        [scan(0), select(0, read(outer(0, 0))), select(0, read(outer(0, 1))), join(INNER, 1, 2), dependent_join(INNER, 0, 3)],
    ),
    case(
        "right side before left side",
        [1, 2],
        [scan(1), select(0, equal(local(1), outer(0, 0))), group(1, COUNT), scan(0), dependent_join(LEFT_OUTER, 3, 2), select(4)],
    ),
]

CASES = UNDER + FIXED + SHARED
