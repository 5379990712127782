#!/usr/bin/env python3
"""Respells this repository's own names in contracts, specs and proofs: words in snake case, types in upper camel case.

usage: python3 tools/respell.py     at the top of a checkout of the older spelling, once, after the toolchain's own script has run

Own names are those that the files of specs/ and proofs/ define: definitions, lemmas, records with their fields, data with their
constructors. Names of src/ and names that the toolchain makes of it (goals, steps) are left alone, as are strings and comments of the
code. The library's `AllByRecursion`, which the toolchain's script imports under the plain word `All`, gets its own name.
It says which names it turned, and stops, with nothing written, where two names would fall together.
"""

import glob
import re

NAME = r"[^\s(){}\[\],;.:`]+"
DEFINES = [
    re.compile(rf"^(?:\s*)(?:abbrev |unfoldable |pub )*({NAME}) : "),
    re.compile(rf"^(?:\s*)(?:pub )?(?:data|record) ({NAME})"),
]
CLAUSE = re.compile(r"\s*(ghost|requires|ensures)\b")
MADE = re.compile(rf" : goal\.{NAME}")  # an answer to a goal, or an invariant: the toolchain names those


def respelled(name):
    if name[0].isupper():
        return "".join(part[:1].upper() + part[1:] for part in name.split("-"))
    return name.replace("-", "_")


def own_names(files):
    """All own names, in the spelling that stands there."""
    found = set()
    for path in files:
        for line in open(path, encoding="utf-8"):
            if line.lstrip().startswith("--") or MADE.search(line):
                continue
            for pattern in DEFINES:
                match = pattern.match(line)
                if match and re.search(r"[A-Za-z]", match[1]):
                    found.add(match[1])
    return found


def turn(text, names):
    return re.sub(NAME, lambda token: names.get(token[0], token[0]), text)


def turned_antt(text, names):
    lists = "AllByRecursion as All" in text
    out = []
    for line in text.split("\n"):
        code, dashes, comment = line.partition("-- ")
        if dashes and code.strip():  # two dashes inside a line begin no comment in these files
            code, dashes, comment = line, "", ""
        code = turn(code, names)
        if lists:
            code = code.replace("AllByRecursion as All", "AllByRecursion")
            code = re.sub(rf"(?<![^\s(){{}},])All(?![^\s(){{}},])", "AllByRecursion", code)
        if dashes:
            comment = re.sub(r"`[^`]*`", lambda quote: turn(quote[0], names), comment)
        out.append(code + dashes + comment)
    return "\n".join(out)


def turned_code(text, names):
    lists = "AllByRecursion as All" in text
    out = []
    for line in text.split("\n"):
        if CLAUSE.match(line):
            line = turn(line, names)
            if lists:
                line = line.replace("AllByRecursion as All", "AllByRecursion")
                line = re.sub(rf"(?<![^\s(){{}},])All(?![^\s(){{}},])", "AllByRecursion", line)
        out.append(line)
    return "\n".join(out)


def turned_page(text, kept):
    """Pages name definitions in quotes; the toolchain's script, which turned some, reads no page."""
    known = lambda token: respelled(token[0]) if "-" in token[0] and respelled(token[0]) in kept else token[0]
    return re.sub(r"`[^`\n]*`", lambda quote: re.sub(NAME, known, quote[0]), text)


def main():
    antt = sorted(glob.glob("crates/*/specs/**/*.antt", recursive=True) + glob.glob("crates/*/proofs/**/*.antt", recursive=True))
    code = sorted(glob.glob("crates/*/src/**/*.rt", recursive=True))
    pages = ["README.md"] + sorted(glob.glob("docs/*.md"))
    own = own_names(antt)
    names = {name: respelled(name) for name in own if "-" in name}
    kept = {respelled(name) for name in own}
    # a new name must not be one that stands already in a file that speaks of the old one; a path or a function of src/ is no such name
    clash = []
    for path in antt + code:
        lines = open(path, encoding="utf-8").read().split("\n")
        if path in code:
            lines = [line for line in lines if CLAUSE.match(line)]
        words = set(re.findall(NAME, "\n".join(re.sub(r"use [^{]*\.", "", line) for line in lines)))
        clash += [f"{path}: {old} and {new}" for old, new in names.items() if old in words and new in words]
    by_new = {}
    for old, new in names.items():
        by_new.setdefault(new, []).append(old)
    clash += [f"{olds} would both be {new}" for new, olds in by_new.items() if len(olds) > 1]
    if clash:
        print("\n".join(sorted(clash)))
        raise SystemExit("names fall together: nothing was written")
    for path in antt + code + pages:
        try:
            text = open(path, encoding="utf-8").read()
        except FileNotFoundError:
            continue
        new = turned_page(text, kept) if path in pages else turned_antt(text, names) if path in antt else turned_code(text, names)
        if new != text:
            open(path, "w", encoding="utf-8").write(new)
    for old in sorted(names):
        print(f"{old} -> {names[old]}")


main()
