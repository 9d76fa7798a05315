#!/usr/bin/env python3
"""Writes the rows of blocks of syntax items (specs/*.antt of a crate) as a table of numbers in Rattle, each with its block and item beside it.
The checker computes that the table is what the blocks say; crates/rows/src/fields.rt has the places of the fields.

    tools/table.py CRATE BLOCK.. > crates/CRATE/src/table.rt
"""
import re
import sys
from pathlib import Path

TOKENS = re.compile(r"\(|\)|⨾|⧺|∷|\[\]|[^\s()⨾⧺∷]+")


def numbers(path):
    """The constants of a file of definitions."""
    return {name: int(value) for name, value in re.findall(r"^abbrev pub (\S+) : ℕ\n\S+ = (\d+)$", Path(path).read_text(), re.M)}


NAMES = numbers("crates/names/specs/Names.antt")
NUMBERS = numbers("crates/cells/specs/Names.antt") | numbers("crates/derivations/specs/Derivations.antt")


def definitions(crate):
    """The blocks of a crate's definitions, as lists of tokens; and the other names of names."""
    blocks, names = {}, {}
    for path in sorted(Path(f"crates/{crate}/specs").glob("*.antt")):
        text = path.read_text()
        names |= {new: old for old, new in re.findall(r"([\w-]+) as ([\w-]+)", text)}
        NUMBERS.update(numbers(path))
        lines = [line for line in text.splitlines() if not line.startswith("--")]
        for part in re.split(r"\n(?=unfoldable |abbrev )", "\n".join(lines)):
            match = re.match(r"unfoldable pub (\S+) : Block\n\S+ =\s(.*)", part, re.S)
            if match:
                blocks[match[1]] = TOKENS.findall(match[2])
    return blocks, names


def parsed(tokens):
    """Lists in lists, by the brackets."""
    stack = [[]]
    for token in tokens:
        if token == "(":
            stack.append([])
        elif token == ")":
            inner = stack.pop()
            stack[-1].append(inner)
        else:
            stack[-1].append(token)
    return stack[0]


def split(expression, mark):
    parts = [[]]
    for token in expression:
        if token == mark:
            parts.append([])
        else:
            parts[-1].append(token)
    return parts


def number(expression):
    if isinstance(expression, list):
        if len(expression) == 1:
            return number(expression[0])
        left, sign, right = expression
        return number(left) + number(right) if sign == "+" else number(left) - number(right)
    return NUMBERS[expression] if expression in NUMBERS else int(expression, 0)


def address(expression):
    """Base, counter and counter of the row."""
    if expression in ("no", ["no"]):
        return 0, 0, 0
    parts = [number(part) for part in expression[1:]]
    return tuple(parts + [0] * (3 - len(parts)))


def sum_of(expression):
    """A number and a cell."""
    if expression in ("none", ["none"]):
        return 0, 0
    kind, part = expression
    n = number(part)
    return {"nth": (n + 1, 0), "by": (1, n), "from": (n, 0), "after": (1, n), "slot": (n, 0), "slot_of": (0, n)}[kind]


def fields(*parts):
    """A row's number, of pairs of a first bit and a value."""
    return sum(value << first for first, value in parts)


def mask(condition):
    kind = condition[0]
    if kind == "Among":
        return sum(1 << int(x) for x in condition[2] if x not in ("∷", "[]"))
    x = number(condition[2])
    return {"Is": 1 << x, "Not": 65535 - (1 << x), "Above": 65536 - (2 << x), "Below": (1 << x) - 1}[kind]


def refusal(condition, failure, place):
    relations = ["Differs", "Over", "Under", "AtLeast"]
    base, by, row = address(condition[1])
    if condition[0] not in relations:
        return fields((0, 11), (4, base), (14, by), (19, row), (23, mask(condition)), (54, failure))
    kind, part = condition[2]
    if kind == "Word":
        than = fields((39, number(part)))
    else:
        other, other_by, _ = address(part if kind == "Cell" else ["cell", part])
        than = fields((38, 1), (39, other), (49, other_by))
    return fields((0, 13), (5, relations.index(condition[0])), (7, base), (17, by), (22, failure), (28, place)) + than


def linear(x, y, of):
    base, by, _ = address(of)
    return fields((26, base), (36, by), (41, x), (49, y))


def put(into, value):
    base, by, row = address(into)
    target = fields((0, 10), (7, base), (17, by), (22, row))
    if value in ("Here", ["Here"]):
        return target
    kind, *rest = value
    if kind == "number":
        return target + fields((4, 1)) + linear(number(rest[0]), 0, "no")
    if kind == "copy":
        return target + fields((4, 1)) + linear(0, 1, rest[0])
    if kind in ("Let", "Less"):
        return target + fields((4, 1 if kind == "Let" else 2)) + linear(number(rest[0]), number(rest[1]), rest[2])
    base, by, _ = address(rest[0])
    return target + fields((4, 3 if kind == "Plus" else 4), (26, base), (36, by), (41, number(rest[1])))


def text(expression):
    if isinstance(expression, list):
        return "(" + " ".join(text(part) for part in expression) + ")"
    return expression


class Table:
    def __init__(self, crate):
        self.blocks, self.names = definitions(crate)

    def name(self, token):
        return NAMES[self.names.get(token, token)]

    def rows(self, expression, block):
        """The rows of a block, each with its block and item: items with ⨾ between them, or named blocks with ⧺."""
        if "⧺" in expression:
            return [row for part in split(expression, "⧺") for row in self.rows(part, block)]
        items = split(expression, "⨾")
        if len(items) == 1 and len(items[0]) == 1:
            token = items[0][0]
            if isinstance(token, list):
                return self.rows(token, block)
            return [] if token == "end" else self.rows(parsed(self.blocks[token]), token)
        return [row for item in items for row in self.item(item, block)]

    def item(self, item, block):
        kind, *rest = item
        if kind == "end":
            return []
        inner = []
        if kind in ("element", "elements"):
            base, by, row = address(rest[3])
            index, index_by = sum_of(rest[1])
            value = fields((4, self.name(rest[0])), (12, number(rest[2])), (17, base), (27, by), (32, row), (36, index), (39, index_by))
            if kind == "elements":
                value += fields((0, 2), (44, number(rest[6])), (54, number(rest[5])), (55, number(rest[4])))
            elif by or row or index_by:
                value += 1
        elif kind == "span":
            value = fields((0, 3), (4, self.name(rest[0])), (44, number(rest[1])))
        elif kind == "mantissas":
            value = fields((0, 4), (4, self.name(rest[0])), (17, address(rest[1])[0]))
        elif kind == "exponents":
            (slot, slot_by), (index, index_by) = sum_of(rest[0]), sum_of(rest[2])
            value = fields((0, 15), (4, self.name(rest[1])), (12, slot), (15, slot_by), (36, index), (39, index_by))
        elif kind == "when":
            inner, rest = self.rows([rest[1]], block), rest[:1]
            base, by, row = address(rest[0][1])
            value = fields((0, 9 if by or row else 8), (4, base), (14, by), (19, row), (23, mask(rest[0])), (54, len(inner)))
        elif kind == "each":
            inner, rest = self.rows([rest[3]], block), rest[:3]
            start, start_of = sum_of(rest[1])
            form, end = rest[2]
            base, by, row = (number(end), 0, 0) if form == "Fixed" else address(end if form == "Held" else ["cell", end])
            value = fields((0, 14), (4, int(form == "Fixed")), (7, number(rest[0])), (12, base), (22, by), (27, row), (31, start), (36, start_of), (46, len(inner)))
        elif kind == "reject":
            value = refusal(rest[0], number(rest[1]), 0)
        elif kind == "reject_at":
            value = refusal(rest[0], number(rest[1]), number(rest[2]))
        elif kind == "put":
            value = put(rest[0], rest[1])
        elif kind == "fill":
            value = fields((0, 10), (4, 5), (7, number(rest[0])), (22, number(rest[1]))) + linear(number(rest[2]), number(rest[3]), rest[4])
        elif kind == "derive":
            value = fields((0, 12), (5, number(rest[0])))
        else:
            sys.exit(f"no item: {text(item)}")
        return [(value, f"{block}: {text([kind] + rest)[1:-1]}")] + inner


def main(crate, *blocks):
    table = Table(crate)
    parts = {block: table.rows([block], block) for block in blocks}
    rows = [row for part in parts.values() for row in part]
    print("// The rows, each with its item beside it, written from the pages of specs/ by tools/table.py. The checker computes that they are what the pages say.")
    print(f"pub const TABLE: [u64; {len(rows)}] = [")
    for value, item in rows:
        print(f"    {value}, // {item}")
    print("];")
    ends = [sum(len(part) for part in list(parts.values())[: k + 1]) for k in range(len(parts))]
    print(*(f"{block} ends at {end}" for block, end in zip(blocks, ends)), sep="\n", file=sys.stderr)


if __name__ == "__main__":
    main(*sys.argv[1:])
