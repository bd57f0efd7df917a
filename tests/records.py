"""The files of the programs that answer records: standard input, and what is written for it."""
import pathlib
import struct
import sys

CRATES = pathlib.Path(__file__).resolve().parent.parent / "crates"


def number(value):
    return struct.pack("<I", value)


# A byte count, and the bytes.
def part(content):
    return number(len(content)) + content


def name_part(name):
    return part(name.encode())


def words_part(words):
    return part(b"".join(map(number, words)))


# Writes both files of a crate; with --check fails where they are others.
def settle(crate, names, stdin, stdout):
    assert len(set(names)) == len(names) <= 1000, "each name stands for one case, and the program reads 1,000"
    for file, content in (CRATES / crate / "stdin", stdin), (CRATES / crate / "stdout", stdout.encode()):
        if sys.argv[1:] != ["--check"]:
            file.write_bytes(content)
        elif file.read_bytes() != content:
            sys.exit(f"{file} is not what the cases give")
    print(f"{len(names)} cases")
