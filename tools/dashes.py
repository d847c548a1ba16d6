#!/usr/bin/env python3
"""Respells this repository's own antt names that join plain words by dashes: words in snake case.

usage: python3 tools/dashes.py [--dry]      at the top of the repository, once, after tools/all_by_recursion.py

A name that the repository declares (a definition, a lemma, a field, a constructor, a name that a `let` binds) and that
joins plain words by dashes (as row-back) joins them by underscores (row_back). What stays: names that Rattle makes, names
of the library, and dashes that join two names, one of which is a fact, a type or a word with an underscore of its own
(as get_or-mapped). A name that would be that of a definition or a function too gets `_lem` behind it.
"""

import re
import sys

from respell import files

WORD = re.compile(r"[\w◌'\-ℕℤ≢≡≤]+")
PLAIN = re.compile(r"[a-z0-9'\-]+\Z")
DECLARED = re.compile(r"^\s*(?:abbrev |unfoldable )?(?:pub )?(?:abbrev |unfoldable )?([a-z][\w'\-]*) :(?! goal\.)(?:\s|\Z)")
BOUND = re.compile(r"\blet ([a-z][\w'\-]*) [:=]")

# those whose respelled name is that of another thing
TAKEN = set(
    "accepted-dossiers all-within ask-method at-front base-name bound-at-most calls-worked condition-unmet digits-only "
    "dossiers-worked entry-fits entry-from hex-digits in-range inner-count inner-fits layer-name most-choices most-entries "
    "most-facts most-initial most-values no-choices no-facts none-shown obligations-agree obligations-sustain own-asked "
    "pieces-at place-count place-number plan-step plans-run rounded-down sample-table sample-witness slot-place "
    "steps-worked table-short target-rows weaken-own witness-short".split()
)

# those that are also the name of a step of a proof: behind `c.` they stay
STEPS = {"from-tests"}


def texts(root, endings):
    for path in files(root):
        if path.endswith(endings):
            with open(path, encoding="utf-8") as f:
                yield path, f.read()


def renamings(root):
    found = {}
    for _, text in texts(root, (".antt",)):
        for line in text.split("\n"):
            for m in [DECLARED.match(line)] + list(BOUND.finditer(line)):
                if m and "-" in m.group(1) and PLAIN.match(m.group(1)):
                    name = m.group(1)
                    found[name] = name.replace("-", "_") + ("_lem" if name in TAKEN else "")
    return found


def respelled(found, line, m):
    if m.group(0) in STEPS and line[: m.start()].endswith("c."):
        return m.group(0)
    return found.get(m.group(0), m.group(0))


def main(argv):
    found = renamings(".")
    words = set()
    for path, text in list(texts(".", (".antt", ".rt"))):
        words.update(WORD.findall(text))
        lines = []
        for line in text.split("\n"):
            if line.lstrip().startswith(("--", "//")):
                lines.append(line)
            else:
                lines.append(WORD.sub(lambda m: respelled(found, line, m), line))
        new = "\n".join(lines)
        if new != text and "--dry" not in argv:
            with open(path, "w", encoding="utf-8") as f:
                f.write(new)
    for old, new in sorted(found.items()):
        if new in words:
            print(f"falls together: {old} -> {new}")
    print(f"{len(found)} names")


if __name__ == "__main__":
    main(sys.argv[1:])
