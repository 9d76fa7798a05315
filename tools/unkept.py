#!/usr/bin/env python3
"""The names that the pages of Annex E keep nowhere: each element of the name is stored in no cell, no span, walk or set of exponents has it, and it is not looked at
ahead. It holds the list of annex/specs/Unkept.antt, which the checker computes to be so, and the one of docs/ARCHITECTURE.md to what the pages say.

    tools/unkept.py         in the repository's root
"""
import re
import sys
from pathlib import Path

sys.dont_write_bytecode = True
sys.path.insert(0, str(Path(__file__).parent))
import table

# looked at besides what the pages keep
LOOKED_AT = {"auxdatae", "bsid"}


class Kept:
    def __init__(self):
        self.table = table.Table("annex")
        self.seen, self.kept = set(), set(LOOKED_AT)

    def block(self, expression):
        if "⧺" in expression:
            for part in table.split(expression, "⧺"):
                self.block(part)
            return
        items = table.split(expression, "⨾")
        if len(items) == 1 and len(items[0]) == 1:
            token = items[0][0]
            if isinstance(token, list):
                self.block(token)
            elif token != "end":
                self.block(table.parsed(self.table.blocks[token]))
            return
        for item in items:
            self.item(*item)

    def item(self, kind, *rest):
        name = lambda token: self.table.names.get(token, token)
        if kind in ("element", "elements"):
            self.seen.add(name(rest[0]))
            if table.address(rest[3]) != (0, 0, 0):
                self.kept.add(name(rest[0]))
        elif kind in ("span", "mantissas"):
            self.kept.add(name(rest[0]))
        elif kind == "exponents":
            self.kept.add(name(rest[1]))
        elif kind == "when":
            self.block([rest[1]])
        elif kind == "each":
            self.block([rest[3]])


def main():
    pages = Kept()
    for block in ("header", "body", "tail"):
        pages.block([block])
    names = sorted(pages.seen - pages.kept, key=table.NAMES.get)
    definition = re.search(r"^unkept_names =\n(.*?)\[\]$", Path("crates/annex/specs/Unkept.antt").read_text(), re.M | re.S)[1]
    document = re.search(r"^Names that steer nothing: (.*)\.$", Path("docs/ARCHITECTURE.md").read_text(), re.M)
    for where, found in ("crates/annex/specs/Unkept.antt", definition.replace("∷", " ").split()), ("docs/ARCHITECTURE.md", document[1].replace("`", "").split(", ") if document else []):
        if found != names:
            sys.exit(f"{where}: the pages keep these {len(names)} names nowhere: {', '.join(names)}")


main()
