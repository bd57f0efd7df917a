"""Document 01's rewriting rules: from the nodes of an accepted plan to the nodes of its rewriting, and to the rewriter's answer."""
import collections

from plan_table import *

# A domain: its node, its width, and the place of each outer column (level, position) that is read under it.
Domain = collections.namedtuple("Domain", "node width places")
NO_DOMAIN = Domain(None, 0, {})

PAIRED = (INNER, LEFT_OUTER)  # kinds whose rows are left then right


# An unused term looks like the first local column, so the tag says how many terms there are.
def terms(item_words):
    tag = item_words[0]
    used = 0 if tag == 13 else 1 if tag == 8 or 11 <= tag else 2
    return [item_words[1 + 3 * k : 4 + 3 * k] for k in range(used)]


def is_aggregate(item_words):
    return 13 <= item_words[0]


# The item with each local position moved, and each outer column at its place in the domain.
def moved(item_words, move, domain):
    def term(words):
        if words[0] == 0:
            return local(move(words[2]))
        return local(domain.places[words[1], words[2]]) if words[0] == 1 else words

    return item(item_words[0], *map(term, terms(item_words)))


# The width of a node's row, from those of the nodes before it.
def row_width(tables, rows, made):
    operator, left, right, kind, items, _, _ = made
    if operator == 1:
        return tables[left]
    if operator in (4, 6):
        return len(items)
    if operator == 7:
        return rows[left] + sum(map(is_aggregate, items))
    return rows[left] + (operator == 3) + (rows[right] if kind in PAIRED else 0)


# The outer columns that reach beyond a node, from those of the nodes before it; a node is open if there are any.
def columns_read(reads, made):
    operator, left, right, _, items, _, _ = made
    own = {(words[1], words[2]) for i in items for words in terms(i) if words[0] == 1}
    if operator != 1:
        own |= reads[left]
    if operator in (5, 7):
        own |= reads[right]
    if operator == 8:
        own |= {(level - 1, position) for level, position in reads[right] if level > 0}
    return own


# One entry for each node, worked out from those before it.
def listed(step, nodes):
    entries = []
    for made in nodes:
        entries.append(step(entries, made))
    return entries


def row_widths(tables, nodes):
    return listed(lambda rows, made: row_width(tables, rows, made), nodes)


class Rewriting:
    def __init__(self, tables, nodes):
        self.old = nodes
        self.rows = row_widths(tables, nodes)
        self.reads = listed(columns_read, nodes)
        self.nodes = []
        self.copies = {}
        for number, reads in enumerate(self.reads):
            if not reads:
                self.copies[number] = self.closed(number)

    def add(self, new):
        self.nodes.append(new)
        return len(self.nodes) - 1

    def closed(self, number):
        operator, left, right, kind, items, _, _ = self.old[number]
        if operator == 1:
            return self.add(scan(left))
        if operator == 8 and self.reads[right]:
            return self.unnested(number, self.copies[left], NO_DOMAIN)
        right = self.copies[right] if operator in (5, 7, 8) else 0
        return self.add(node(5 if operator == 8 else operator, self.copies[left], right, kind, items))

    # A node with the domain's columns in front of its own.
    def under(self, number, domain):
        if not self.reads[number]:
            return self.add(join(INNER, domain.node, self.copies[number]))
        operator, left, right, _, items, _, _ = self.old[number]
        new_left = self.under(left, domain)
        if operator == 8 and any(level == 0 for level, _ in self.reads[right]):
            return self.unnested(number, new_left, domain)
        if operator in (5, 7, 8):
            return self.joined(number, new_left, domain)
        items = [moved(i, lambda position: domain.width + position, domain) for i in items]
        columns = range(domain.width)
        if operator == 4:
            return self.add(project(new_left, *map(output, columns), *items))
        if operator == 6 and is_aggregate(items[0]):
            return self.add(groupjoin(domain.node, new_left, *self.matches(columns, domain.width), *items))
        if operator == 6:
            return self.add(group(new_left, *map(key, columns), *items))
        return self.add(node(operator, new_left, items=items))

    # A join, a groupjoin, or a dependent join whose right side doesn't read its left row.
    def joined(self, number, new_left, domain):
        operator, _, right = self.old[number][:3]
        if not self.reads[right]:
            return self.paired(number, new_left, self.copies[right], domain, [], 0)
        # Inside the right side of a dependent join the same rows are one level further out.
        past = {(level + 1, position): place for (level, position), place in domain.places.items()}
        inside = domain._replace(places=past) if operator == 8 else domain
        return self.paired(number, new_left, self.under(right, inside), domain, range(domain.width), domain.width)

    # A dependent join whose right side reads its left row; the domain's columns stand in front of the new left's own.
    def unnested(self, number, new_left, domain):
        right = self.old[number][2]
        stands = {}
        for level, position in self.reads[right]:
            stands[level, position] = domain.width + position if level == 0 else domain.places[level - 1, position]
        keys = sorted(stands.values())
        places = {column: keys.index(stand) for column, stand in stands.items()}
        inner = Domain(self.add(group(new_left, *map(key, keys))), len(keys), places)
        return self.paired(number, new_left, self.under(right, inner), domain, keys, len(keys))

    # The join of two rewritten inputs. The right one has `extra` columns in front, which match these columns of the left one.
    def paired(self, number, new_left, new_right, domain, columns, extra):
        operator, left, right, kind, items, _, _ = self.old[number]
        left_width = domain.width + self.rows[left]

        def in_pair(position):
            return domain.width + position + (extra if position >= self.rows[left] else 0)

        own = [moved(i, (lambda position: extra + position) if is_aggregate(i) else in_pair, domain) for i in items]
        matches = self.matches(columns, left_width)
        if operator == 7:
            return self.add(groupjoin(new_left, new_right, *matches, *own))
        joined = self.add(join(kind, new_left, new_right, *matches, *own))
        if extra == 0 or kind not in PAIRED:
            return joined
        kept = [*range(left_width), *range(left_width + extra, left_width + extra + self.rows[right])]
        return self.add(project(joined, *map(output, kept)))

    # Columns of the left row, each not distinct from the next column of the right row.
    def matches(self, columns, left_width):
        return [item(7, local(column), local(left_width + k)) for k, column in enumerate(columns)]


def rewritten(tables, nodes):
    return Rewriting(tables, nodes).nodes


# The number of refusal, 0 where there is none, and the new words.
def answer(tables, nodes, room):
    new = rewritten(tables, nodes)
    items = sum(len(own) for _, _, _, _, own, _, _ in new)
    if 256 < len(new) or 2000 < items or 64 < max(row_widths(tables, new)):
        return 8, []
    words = plan(tables, new)
    return (9, []) if room < len(words) else (0, words)
