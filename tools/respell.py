#!/usr/bin/env python3
"""Gives the definitions and lemmas of this repository the spelling of today's Rattle, after the kit's port.py: words in snake case, a dash only
where it joins two names. tools/respelled.tsv has each old name and its new one, whole names only. Names of functions, strings, inputs and outputs
are none of them. In pages only what stands in backticks is turned.

usage: python3 tools/respell.py [TABLE]        in the repository's root, once
"""
import re
import sys
from pathlib import Path

rows = [line.split("\t") for line in Path(sys.argv[1] if len(sys.argv) > 1 else "tools/respelled.tsv").read_text().splitlines()]
new = dict(rows)
name = re.compile(r"(?<![\w'\-])(" + "|".join(sorted(map(re.escape, new), key=len, reverse=True)) + r")(?![\w'\-])")
text = re.compile(r'"(?:[^"\\\n]|\\.)*"')


def turned(words):
    """The words with new names, but not within strings."""
    at, out = 0, []
    for m in text.finditer(words):
        out += [name.sub(lambda k: new[k[1]], words[at : m.start()]), m[0]]
        at = m.end()
    return "".join(out) + name.sub(lambda k: new[k[1]], words[at:])


files = [p for kind in ("antt", "rt") for p in Path("crates").rglob("*." + kind) if "out" not in p.parts]
for path in files:
    old = path.read_text()
    if turned(old) != old:
        path.write_text(turned(old))
for path in [Path("README.md"), *Path("docs").rglob("*.md")]:
    old = path.read_text()
    page = re.sub(r"`[^`\n]+`", lambda m: turned(m[0]), old)
    if page != old:
        path.write_text(page)
