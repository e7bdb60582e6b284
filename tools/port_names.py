#!/usr/bin/env python3
"""Brings the repository's own definitions and lemmas to today's spelling, once, behind the kit's port.py.

usage: tools/port_names.py    at the top of the repository

A word whose first letter is small and which has a capital inside gets underscores: `isFree` becomes `is_free`, and so
do fields, constructors and variables of specs/ and proofs/, and what the clauses in src/, the edits and the pages cite
of them. Types and modules keep their capitals. A lemma whose name would then be that of a definition keeps the dash
that it had. Each root file says that the check tries its tactics, and types that are plain values can be copied, as
all types could. A second run changes nothing.
"""

import glob
import re

TOKEN = re.compile(r"(?<![^\s(){}.;,:@\"«»\[\]`|=])[a-z_][A-Za-z0-9_'\-]*(?![^\s(){}.;,:@\"«»\[\]`|=])")
# Lemmas and local proofs that port.py gave the name that a definition now gets, and what they were called.
DASHED = {
    name: name.replace("_", "-")
    for name in (
        "after_two each_step ends_stay in_order last_within least_above numbers_fit order_from same_number"
        " settled_at stays_fit"
    ).split()
}


def snake(word):
    word = word.replace("getD", "get_or")
    return re.sub(r"(?<=[a-z0-9])([A-Z])", lambda found: "_" + found[1].lower(), word)


def is_mixed(word):
    return re.search(r"[a-z0-9][A-Z]", word) is not None


def read(path):
    with open(path, encoding="utf-8") as file:
        return file.read()


def write(path, text):
    if text != read(path):
        with open(path, "w", encoding="utf-8") as file:
            file.write(text)


def paths(*patterns):
    found = [path for pattern in patterns for path in glob.glob(pattern, recursive=True)]
    return sorted(path for path in found if "/out/" not in path)


def root_file(text):
    if "#![tactic(" in text:
        return text
    lines = text.split("\n")
    head = 0
    while lines[head].startswith("//"):
        head += 1
    return "\n".join(lines[:head] + ["#![tactic(auto)]"] + lines[head:])


def main():
    proofs = paths("crates/**/*.antt")
    sources = paths("crates/**/*.rt")
    words = set()
    for path in proofs + sources:
        words |= {word for word in TOKEN.findall(read(path)) if is_mixed(word)}
    turn = lambda found: snake(found[0]) if found[0] in words else found[0]
    undo = lambda found: DASHED.get(found[0], found[0])
    for path in proofs:
        write(path, TOKEN.sub(turn, TOKEN.sub(undo, read(path))))
    for path in sources:
        write(path, TOKEN.sub(turn, read(path)).replace("#[derive(Drop)]", "#[derive(Clone, Copy)]"))
    for path in paths("crates/*/must-fail/**/*.edit", "README.md", "docs/*.md", "docs/requests/*.md"):
        write(path, TOKEN.sub(turn, read(path)))
    for path in paths("crates/*/src/lib.rt", "crates/*/src/main.rt"):
        write(path, root_file(read(path)))


if __name__ == "__main__":
    main()
