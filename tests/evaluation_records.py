"""The records of the program evaluations, and the lines that it prints for them."""
import struct

from records import name_part, number, part, words_part

NULL_CELL = -(2**63)


def cell(value):
    return NULL_CELL if value is None else value


# Tables one after the other, by rows.
def cells_of(database):
    return [cell(value) for table in database for row in table for value in row]


def record(name, limit, scratch, room, words, counts, cells):
    cell_bytes = b"".join(struct.pack("<q", value) for value in cells)
    return name_part(name) + number(limit) + number(scratch) + number(room) + words_part(words) + words_part(counts) + part(cell_bytes)


# 0: scratch cleared, 7: as it was lent. Without a cell of scratch both hold, and 0 is printed.
def line(name, scratch, refusal, node, rows):
    cells = "".join(" null" if value is None else f" {value}" for row in rows for value in row)
    cleared = 7 if 0 < refusal <= 13 and scratch else 0
    return f"{name}: {refusal} {node} {len(rows)} cells{cells} scratch {cleared}\n"
