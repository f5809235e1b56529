#!/usr/bin/env python3
"""Brings the names that the repository gives in specs/ and proofs/ to one spelling.

usage: python3 tools/respell.py [--list]      at the top of the repository; --list only prints the renamings and what falls together

A type is in upper camel case (Only-records: OnlyRecords), every other name in snake case (join-refusal: join_refusal, stampOf: stamp_of).
Renamed are definitions, lemmas, fields of records, local lemmas, names that a `let` binds and names after `as`, wherever they stand in specs/,
proofs/ and the contracts of src/, and between backticks in README.md and docs/. Names of goals keep their spelling: they are made, not given.
Run once, right after the kit's port.py.
"""

import pathlib
import re
import sys

WORD = r"[\w'\-+]"
GIVEN = [
    # a definition, a lemma, a field, a local lemma
    re.compile(rf"^\s*(?:(?:abbrev|pub|unfoldable) )*({WORD}+) : ", re.M),
    re.compile(rf"^\s*(?:(?:abbrev|pub|unfoldable) )*({WORD}+) :$", re.M),
    re.compile(rf"^\s*(?:(?:abbrev|pub|unfoldable) )*(?:record|data|ruleset) ({WORD}+)[ \n]", re.M),
    # a local name
    re.compile(rf"\blet ({WORD}+) (?:=|:)"),
    # another name for an import
    re.compile(rf" as ({WORD}+)"),
]
# the statement of a goal: the name is made by the toolchain
MADE = re.compile(rf"^\s*(?:(?:abbrev|pub) )*({WORD}+) : (?:goal|need)\.", re.M)
PARTS = re.compile(r"[a-z0-9ℕℤ]-[a-zA-Z0-9]|^[A-Z]-[a-z]|[a-z][A-Z]")


def texts():
    for pattern in ("crates/*/specs/**/*.antt", "crates/*/proofs/**/*.antt", "crates/*/src/**/*.rt"):
        yield from sorted(pathlib.Path(".").glob(pattern))


def pages():
    yield pathlib.Path("README.md")
    yield from sorted(pathlib.Path("docs").glob("*.md"))


def respelled(name):
    if name[0].isupper():
        return "".join(p[0].upper() + p[1:] for p in name.split("-") if p)
    return re.sub(r"(?<=[a-z])[A-Z]", lambda m: "_" + m.group().lower(), name).replace("-", "_")


def renamings():
    given, made = set(), set()
    for p in texts():
        text = p.read_text(encoding="utf-8")
        if p.suffix == ".rt":
            text = "\n".join(l for l in text.splitlines() if l.lstrip().startswith("ghost use"))
            given |= set(GIVEN[-1].findall(text))
            continue
        made |= set(MADE.findall(text))
        for pattern in GIVEN:
            given |= set(pattern.findall(text))
    names = {n for n in given - made if PARTS.search(n) and "+" not in n}
    return {n: respelled(n) for n in sorted(names) if respelled(n) != n}


def token(name):
    return re.compile(rf"(?<![\w'\-]){re.escape(name)}(?![\w'\-])")


def main():
    names = renamings()
    whole = {p: p.read_text(encoding="utf-8") for p in texts()}
    if "--list" in sys.argv:
        for old, new in names.items():
            there = [str(p) for p, t in whole.items() if token(new).search(t)]
            also = [o for o, n in names.items() if n == new and o != old]
            print(old, new, ("FALLS TOGETHER " + " ".join(there[:6] + also)) if there or also else "")
        return
    one = re.compile(r"(?<![\w'\-])(?:" + "|".join(re.escape(n) for n in sorted(names, key=len, reverse=True)) + r")(?![\w'\-])")
    turn = lambda t: one.sub(lambda m: names[m.group()], t)
    for p, t in whole.items():
        if turn(t) != t:
            p.write_text(turn(t), encoding="utf-8")
    for p in pages():
        t = p.read_text(encoding="utf-8")
        new = re.sub(r"`[^`\n]+`", lambda m: turn(m.group()), t)
        if new != t:
            p.write_text(new, encoding="utf-8")


main()
