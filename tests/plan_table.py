"""The words of a plan table, from lists. What document 01 fixes is worked out here; a case that wants a word wrong names it."""

# The words of the header.
TOTAL, TABLES, WIDTHS_AT, NODES, NODES_AT, ITEMS, ITEMS_AT, LAST = range(8)

INNER, SEMI, ANTI, LEFT_OUTER = 1, 2, 3, 4


# A term is three words.
def local(position):
    return [0, 0, position]


def outer(level, position):
    return [1, level, position]


def constant(number):
    return [2, 0, number % 2**32]


NULL = [3, 0, 0]
UNUSED = [0, 0, 0]


# An item is a tag and two terms.
def item(tag, first=UNUSED, second=UNUSED):
    return [tag] + first + second


def equal(first, second):
    return item(1, first, second)


def less(first, second):
    return item(3, first, second)


def copy(term):
    return item(8, term)


def add(first, second):
    return item(9, first, second)


def subtract(first, second):
    return item(10, first, second)


def key(position):
    return item(11, local(position))


def output(position):
    return item(12, local(position))


COUNT = item(13)


def sum_of(position):
    return item(14, local(position))


def minimum(position):
    return item(15, local(position))


def maximum(position):
    return item(16, local(position))


# A node has its items beside it; first_item and item_count are named only where they are to be wrong.
def node(operator, left=0, right=0, kind=0, items=(), first_item=None, item_count=None):
    return operator, left, right, kind, list(items), first_item, item_count


def scan(table, **words):
    return node(1, table, **words)


def select(left, *conjuncts, **words):
    return node(2, left, items=conjuncts, **words)


def compute(left, *computation, **words):
    return node(3, left, items=computation, **words)


def project(left, *outputs, **words):
    return node(4, left, items=outputs, **words)


def join(kind, left, right, *conjuncts, **words):
    return node(5, left, right, kind, conjuncts, **words)


def group(left, *keys_then_aggregates, **words):
    return node(6, left, items=keys_then_aggregates, **words)


def groupjoin(left, right, *conjuncts_then_aggregates, **words):
    return node(7, left, right, items=conjuncts_then_aggregates, **words)


def dependent_join(kind, left, right, *conjuncts, **words):
    return node(8, left, right, kind, conjuncts, **words)


# The whole table: widths, nodes and items behind a header that fits them; leftover items belong to no node.
def plan(widths, nodes, leftover=()):
    node_words, items = [], []
    for operator, left, right, kind, own, first_item, item_count in nodes:
        first_item = len(items) if first_item is None else first_item
        item_count = len(own) if item_count is None else item_count
        node_words += [operator, left, right, kind, first_item, item_count]
        items += own
    items += leftover
    nodes_at = 8 + len(widths)
    items_at = nodes_at + len(node_words)
    total = items_at + 7 * len(items)
    header = [total, len(widths), 8, len(nodes), nodes_at, len(items), items_at, 0]
    return header + list(widths) + node_words + [word for words in items for word in words]


# The same words but for one.
def changed(words, place, word):
    return words[:place] + [word] + words[place + 1 :]


# 01's plan S: drives, scrubs, and the drives that were scrubbed fewer than two times.
SCRUB_NODES = [
    scan(0),
    scan(1),
    select(1, equal(local(0), outer(0, 0))),
    group(2, COUNT),
    dependent_join(INNER, 0, 3),
    select(4, less(local(1), constant(2))),
]
SCRUB_LIST = plan([1, 1], SCRUB_NODES)
