#!/usr/bin/env python3
"""Brings this repository's own definitions and lemmas to today's spelling: words in snake case.

    python3 tools/spelling.py            at the top, once, right after the kit's port.py
    python3 tools/spelling.py --list     prints old and new names, and changes nothing

A name is respelled where it was written in lower camel case or with a dash: a definition, constructor or field of
specs/, and a lemma or local name of proofs/. Types and modules are in camel case already. Names that are made from the
code (goals, steps and facts of a walk, in the folder of a function's proof) keep their spelling.
"""
import collections
import glob
import os
import re
import sys

TOKEN = re.compile(r"[^\s(){}\[\],;.:«»`\"=|⌜⌝]+")
CAMEL = re.compile(r"(?<![A-Za-z])[a-z][a-z0-9]*[A-Z]|(?<=[-_])[a-z][a-z0-9]*[A-Z]")
SIGNATURE = re.compile(
    r"^\s*(?:(?:unfoldable|abbrev|pub|data|record|ruleset)\s+)*"
    r"((?:[^\s(){}\[\],;:=|λ→×]+\s+)+?)(?:\{[^}]*\}\s*|\([^)]*\)\s*)*:\s"
)
WORDS = {"abbrev", "unfoldable", "pub", "data", "record", "ruleset", "module", "let", "open"}

# spelled by hand: a name of std that the kit's table took ours for, and one that would fall together with std's
GIVEN = {"at_least_lem": "at_least", "bit-or": "bit_or_lem"}


def antt(top):
    return sorted(glob.glob(os.path.join(top, "crates/*/**/*.antt"), recursive=True))


def of_function(path):
    """whether the file lies in the folder of a function's proof: such a folder holds a Proof.antt"""
    folder = os.path.dirname(path)
    while os.path.basename(folder) != "proofs" and len(folder) > 1:
        if os.path.exists(os.path.join(folder, "Proof.antt")):
            return True
        folder = os.path.dirname(folder)
    return False


def snake(name):
    name = re.sub(r"(?<=[a-z0-9])([A-Z])", lambda m: "_" + m.group(1).lower(), name)
    return name.replace("-", "_")


def respelled(name):
    """the new spelling of a declared name, or itself"""
    if name in GIVEN:
        return GIVEN[name]
    if not re.match(r"[a-z]", name):
        # a lemma on a type keeps the type's capital: Node-fits
        return name
    if CAMEL.search(name):
        return snake(name)
    if "-" in name and re.fullmatch(r"[a-z0-9'_-]+", name):
        return snake(name)
    return name


def declared(top):
    names = collections.defaultdict(set)
    for path in antt(top):
        for line in open(path):
            if line.lstrip().startswith("--"):
                continue
            found = SIGNATURE.match(line)
            if found:
                for name in found.group(1).split():
                    if name not in WORDS:
                        names[name].add(path)
            else:
                # a name with binders before its colon, in the head of a record, data or module
                head = re.match(r"^\s*(?:pub )?(?:data|record) (\S+)", line)
                if head:
                    names[head.group(1)].add(path)
    return names


def table(top):
    """two tables: old names and new ones, and the lemmas that give way to a definition, each with the files it is in"""
    names = declared(top)
    result = {}
    for name, paths in names.items():
        if all(of_function(p) for p in paths) and not CAMEL.search(name):
            continue
        new = respelled(name)
        if new != name:
            result[name] = new
    # lower camel case names nothing but our own words, wherever it stands
    for path in antt(top):
        for line in open(path):
            for token in TOKEN.findall(line.split("-- ")[0]):
                if re.fullmatch(r"[a-z][a-z0-9]*(?:[A-Z][a-z0-9]*)+'?", token):
                    result.setdefault(token, snake(token))
    result.update(GIVEN)
    # names that fall together: a lemma with a dash gives way, and gets the kit's ending
    olds = collections.defaultdict(list)
    for old, new in result.items():
        olds[new].append(old)
    for new, group in olds.items():
        if len(group) > 1 or new in names:
            for old in group:
                if "-" in old:
                    result[old] = new + "_lem"
    # a lemma that is spelled as a definition now is gives way too
    lemmas = {}
    for new, group in olds.items():
        if new in names and any("-" not in old for old in group) and new not in GIVEN.values():
            paths = {p for p in names[new] if "/proofs/" in p and not of_function(p)}
            if paths and not any("/specs/" in p for p in names[new]):
                lemmas[new] = paths
    return result, lemmas


def module_of(path):
    """the module that a file of proofs/ is"""
    found = re.search(r"crates/([^/]+)/(.+)\.antt$", path)
    return "Rattle." + found.group(1) + "." + found.group(2).replace("/", ".")


def turn_lemmas(path, text, lemmas):
    for name, paths in lemmas.items():
        here = path in paths
        for module in map(module_of, paths):
            if re.search(r"use " + re.escape(module) + r"\.\{[^}]*(?<![^\s{,])" + re.escape(name) + r"(?![^\s},])", text):
                here = True
            alias = re.search(r"use " + re.escape(module) + r"(?: as (\w+))?\s*$", text, re.M)
            if alias:
                word = alias.group(1) or module.split(".")[-1]
                text = re.sub(r"(?<![^\s(){}\[\],;])" + word + r"\." + re.escape(name) + r"(?![^\s(){}\[\],;.])",
                              word + "." + name + "_lem", text)
        if here:
            text = re.sub(r"(?<![^\s(){}\[\],;])" + re.escape(name) + r"(?![^\s(){}\[\],;.])", name + "_lem", text)
    return text


def parts(line, comment):
    """the code of a line and its comment"""
    if line.lstrip().startswith(comment):
        return "", line
    at = line.find(" " + comment + " ")
    return (line, "") if at < 0 else (line[:at], line[at:])


def turn(text, names, comment):
    lines = []
    for line in text.split("\n"):
        code, rest = parts(line, comment)
        lines.append(TOKEN.sub(lambda m: names.get(m.group(0), m.group(0)), code) + rest)
    return "\n".join(lines)


def main():
    top = "."
    names, lemmas = table(top)
    if "--list" in sys.argv:
        for old in sorted(names):
            print(old, names[old])
        for old in sorted(lemmas):
            print(old, old + "_lem", "in", len(lemmas[old]), "files")
        return
    for path in antt(top):
        text = open(path).read()
        new = turn(turn_lemmas(path, text, lemmas), names, "--")
        if new != text:
            open(path, "w").write(new)
    for path in sorted(glob.glob(os.path.join(top, "crates/*/src/**/*.rt"), recursive=True)):
        text = open(path).read()
        new = turn(text, names, "//")
        if new != text:
            open(path, "w").write(new)


main()
