"""The records of crates/rewritings, and the line that each is answered with."""
from records import name_part, number, words_part


def record(name, room, words):
    return name_part(name) + number(room) + words_part(words)


# The words come behind their count; the rest of the output is as it was lent.
def line(name, room, refusal, node, words):
    written = " words" + "".join(f" {word}" for word in words) if refusal == 0 else ""
    rest = " rest ok" if refusal != 0 or len(words) < room else ""
    return f"{name}: {refusal} {node} {len(words)}{written}{rest}\n"
