#!/usr/bin/env python3
"""Respells this repository's own antt names: words in snake case.

usage: python3 tools/respell.py [--dry]      at the top of the repository, once, after the kit's port.py

A word of a specification, a proof or a clause that begins with a small letter and has a capital inside (as rowBytes) is
written in snake case (row_bytes). What stays: names of types and facts (they begin with a capital), parts behind a dash
that begin with a capital (they name a fact or a variant, as in-FactsFull), functions of src/, strings, inputs and outputs.
Names that fall together with another one are listed in KEPT_APART with the name that they get instead.
"""

import os
import re
import sys

WORD = re.compile(r"[\w◌'\-ℕℤ]+")
STRING = re.compile(r'b?"(?:[^"\\]|\\.)*"')
CAMEL = re.compile(r"[a-z0-9][A-Z]")

# whole words that get another name than their letters say
KEPT_APART = {
    "getD-mapped": "get_or-mapped",
    "getD-neg": "get_or-neg",
    "getD-padded": "get_or-padded",
    "getD-zeros": "get_or-zeros",
    "tabulate-getD": "tabulate-get_or",
    "eqZ": "int_eq_test",
    "eqZ-decides": "int_eq_test-decides",
    "by-leZ": "by-int_le",
    "leZ-decides": "int_le-decides",
    "all_shown": "all_shown-each",
    "by_first": "by_first-cases",
    "plan_run": "plan_run-is",
    "firstByte": "first_byte_of",
    "most_values": "most-values",
    "piece_bytes": "piece-are_bytes",
    "at_front": "at-front",
}


def part(p):
    if not re.match(r"[a-z◌]", p):
        return p
    return re.sub(r"(?<=[a-z0-9])([A-Z])", lambda m: "_" + m.group(1).lower(), p)


def respelled(word):
    if word in KEPT_APART:
        return KEPT_APART[word]
    if not re.match(r"[a-z◌]", word) or not CAMEL.search(word):
        return word
    return "-".join(part(p) for p in word.split("-"))


def text_respelled(text, strings):
    """The text with its words respelled; where strings is set, what stands in quotes stays."""
    spans = [m.span() for m in STRING.finditer(text)] if strings else []

    def one(m):
        if any(a <= m.start() < b for a, b in spans):
            return m.group(0)
        return respelled(m.group(0))

    return WORD.sub(one, text)


def files(root):
    for folder, dirs, names in os.walk(os.path.join(root, "crates")):
        dirs[:] = sorted(d for d in dirs if d != "out")
        for n in sorted(names):
            if n.endswith((".rt", ".antt", ".edit")):
                yield os.path.join(folder, n)


def main(argv):
    dry = "--dry" in argv
    before, after = set(), {}
    for path in files("."):
        with open(path, encoding="utf-8") as f:
            text = f.read()
        for m in WORD.finditer(text):
            w = m.group(0)
            before.add(w)
            if respelled(w) != w:
                after[w] = respelled(w)
        new = text_respelled(text, path.endswith((".rt", ".edit")))
        if new != text and not dry:
            with open(path, "w", encoding="utf-8") as f:
                f.write(new)
    for old, new in sorted(after.items()):
        if new in before:
            print(f"falls together: {old} -> {new}")
    print(f"{len(after)} names")


if __name__ == "__main__":
    main(sys.argv[1:])
