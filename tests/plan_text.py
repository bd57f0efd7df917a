"""The text form of a plan table, from document 02's first request. Texts are bytes."""
import re

TEXT_LIMIT = 262144

UNSIGNED = re.compile(rb"0|[1-9][0-9]*")
CONSTANT = re.compile(rb"0|-?[1-9][0-9]*")
WORDS = range(2**32)
CONSTANTS = range(-(2**31), 2**31)


# Where the check gives 1 or 2, the writer does.
def writer_refusal(words):
    if len(words) < 8:
        return 1
    tables, nodes, items = words[1], words[3], words[5]
    nodes_at = 8 + tables
    items_at = nodes_at + 6 * nodes
    total = items_at + 7 * items
    if list(words[:8]) != [total, tables, 8, nodes, nodes_at, items, items_at, 0] or total != len(words):
        return 1
    widths = words[8:nodes_at]
    within = 1 <= tables <= 16 and 1 <= nodes <= 256 and items <= 2000 and all(1 <= width <= 64 for width in widths)
    return 0 if within else 2


# The words by lines, the first with T, N and I.
def by_lines(words):
    tables, nodes, items = words[1], words[3], words[5]
    lines = [[tables, nodes, items], words[8 : 8 + tables]]
    place = 8 + tables
    for length in [6] * nodes + [7] * items:
        lines.append(words[place : place + length])
        place += length
    return lines


# Whether number k of the line of an item is a constant: the third word of a term that starts with 2.
def is_constant(numbers, k):
    return k in (3, 6) and int(numbers[k - 2]) == 2


# The text of words that pass 1 and 2.
def text_of(words):
    text = b""
    for line, numbers in enumerate(by_lines(words)):
        of_item = line >= 2 + words[3]
        signed = [n - 2**32 if of_item and is_constant(numbers, k) and n >= 2**31 else n for k, n in enumerate(numbers)]
        text += b" ".join(b"%d" % n for n in signed) + b"\n"
    return text


class Bad(Exception):
    """The number of the line where the reader gives up."""


class Lines:
    def __init__(self, text):
        self.text = text
        self.line = 0

    # The next line's numbers as they stand; a line is all up to a newline.
    def take(self, count):
        self.line += 1
        line, newline, self.text = self.text.partition(b"\n")
        parts = line.split(b" ")
        self.bad_unless(newline and len(parts) == count)
        return parts

    def bad_unless(self, right):
        if not right:
            raise Bad(self.line)

    def number(self, part, pattern, within):
        self.bad_unless(pattern.fullmatch(part) and len(part) <= 11 and int(part) in within)
        return int(part) % 2**32

    # The next line as numbers, each within its own range.
    def numbers(self, *ranges):
        return [self.number(part, UNSIGNED, within) for part, within in zip(self.take(len(ranges)), ranges)]

    def item(self):
        parts = self.take(7)
        words = []
        for k, part in enumerate(parts):
            signed = k in (3, 6) and parts[k - 2] == b"2"
            words.append(self.number(part, CONSTANT, CONSTANTS) if signed else self.number(part, UNSIGNED, WORDS))
        return words


def words_of(text):
    if len(text) > TEXT_LIMIT:
        raise Bad(0)
    lines = Lines(text)
    tables, nodes, items = lines.numbers(range(1, 17), range(1, 257), range(2001))
    words = lines.numbers(*[range(1, 65)] * tables)
    for _ in range(nodes):
        words += lines.numbers(*[WORDS] * 6)
    for _ in range(items):
        words += lines.item()
    lines.line += 1
    lines.bad_unless(not lines.text)
    return [8 + len(words), tables, 8, nodes, 8 + tables, items, 8 + tables + 6 * nodes, 0] + words


# The words, or the line for refusal 16: one of the two is None.
def read(text):
    try:
        return words_of(text), None
    except Bad as bad:
        return None, bad.args[0]
