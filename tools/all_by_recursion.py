#!/usr/bin/env python3
"""Gives the library's AllByRecursion its own name where a file of this repository called it All.

usage: python3 tools/all_by_recursion.py     at the top of the repository, once, after tools/respell.py

rt ci refuses a use under the name All of anything but the library's All.
"""

import re

from respell import files

WORD = re.compile(r"[\w◌'\-ℕℤ]+")

for path in files("."):
    with open(path, encoding="utf-8") as f:
        text = f.read()
    if "AllByRecursion as All" in text:
        text = text.replace("AllByRecursion as All", "AllByRecursion")
        with open(path, "w", encoding="utf-8") as f:
            f.write(WORD.sub(lambda m: "AllByRecursion" if m.group(0) == "All" else m.group(0), text))
