#!/usr/bin/env python3
"""The names of records and their roles, taken from the Rust reference, and the files that are made from them.

usage, in the repository's root:

    python3 tools/names.py DDPMETA/src

DDPMETA is a checkout of saindriches/ddpmeta at commit 7e6cb39a55. A name is the string that the Rust passes for a
record; its number is its place in byte order. It writes

    crates/names/src/numbers.rt, crates/names/src/spellings.rt, crates/names/specs/Names.antt
    crates/namelist/stdout      number, spelling and role of each name, one to a line

and nothing of the Rust but the names and the roles goes into them.
"""
import re, sys
from pathlib import Path

RECORDING = r'\.(?:get|geti|flag|flagi|get_role|span|close_span)\('


def records(source):
    """The names in the calls that make records, with the role where the call gives one."""
    found = {}
    for m in re.finditer(RECORDING + r'\s*"([^"]+)"\s*,?\s*(Role::\w+(?:\(\d\))?)?', source):
        role = (m.group(2) or "Role::Plain").removeprefix("Role::")
        if found.setdefault(m.group(1), role) != role:
            sys.exit(f"two roles: {m.group(1)}")
    return found


def taken(rust):
    eac3 = (rust / "eac3.rs").read_text()
    found = records(eac3)
    # names that a loop goes through
    for m in re.finditer(r'for name in \[([^\]]*)\]', eac3):
        for name in re.findall(r'"([^"]+)"', m.group(1)):
            found[name] = "Plain"
    # names that are picked by the slot: pairs and fours of strings
    blocks = (rust / "blocks.rs").read_text()
    for m in re.finditer(r'\(("[^")]+"(?:,\s*"[^")]+")+)\)', blocks):
        for name in re.findall(r'"([^"]+)"', m.group(1)):
            found[name] = "Plain"
    # the tail: the name of the bit before crc2 is picked by the codec, AC-3 first
    frame = (rust / "frame.rs").read_text()
    tail = frame[frame.index("pub fn read_tail"):frame.index("/// AC-3 5/8 boundary")]
    found |= records(tail)
    picked = re.search(r'let rsv = if codec == Codec::Ac3 \{\s*"(\w+)"\s*\} else \{\s*"(\w+)"', tail)
    found[picked.group(2)] = re.search(r'get_role\(rsv, Role::(\w+)', tail).group(1)
    return dict(sorted(found.items(), key=lambda x: x[0].encode()))


def constant(name):
    return name.replace("[", "_").replace("]", "").upper()


def identifier(name):
    return name.replace("[", "_").replace("]", "")


MADE = "Made by tools/names.py."


def code(names):
    out = [f"// The names of records by their numbers. {MADE}"]
    for i, name in enumerate(names):
        out += [f"pub const {constant(name)}: u8 = {i};", ""]
    out += [ "// All of them, in order.", "pub const ALL: [u8; 202] = ["]
    out += [f"    {constant(name)}," for name in names]
    return out + ["];"]


def spellings(names):
    out = [f"// The spellings, each filled up to 16 bytes with blanks. {MADE}", 'pub const SPELLINGS: [u8; 3232] = *b"\\']
    out += [f"    {name:16}\\" for name in names]
    out += ['    ";', "", "// How many letters each has.", "pub const LETTERS: [u8; 202] = ["]
    out += [f"    {len(name)}," for name in names]
    return out + ["];"]


def definitions(names):
    out = [
        f"-- The names of records: their numbers, and their spellings in byte order. {MADE}",
        "use Rattle.std.specs.Prelude.{List, [], ◌∷◌, ℕ}",
        "use Prim.Native.String.{String}",
        "",
        "-- a name's number and its spelling",
        "pub record Name : Type 0 where",
        "  pub number : ℕ",
        "  pub spelling : String",
        "",
        "infix 70 ◌named◌",
        "abbrev pub ◌named◌ : ℕ → String → Name",
        "n named s = record { number = n; spelling = s }",
    ]
    for i, name in enumerate(names):
        out += ["", f"abbrev pub {identifier(name)} : ℕ", f"{identifier(name)} = {i}"]
    out += ["", "unfoldable pub names : List Name", "names ="]
    out += [f'    {identifier(name)} named "{name}" ∷' for name in names]
    return out + ["    []"]


def listing(names):
    return [f"{i} {name} {role}" for i, (name, role) in enumerate(names.items())]


def main(rust):
    names = taken(Path(rust))
    if len(names) != 202:
        sys.exit(f"{len(names)} names, not 202")
    for path, made in {
        "crates/names/src/numbers.rt": code,
        "crates/names/src/spellings.rt": spellings,
        "crates/names/specs/Names.antt": definitions,
        "crates/namelist/stdout": listing,
    }.items():
        Path(path).write_text("\n".join(made(names)) + "\n")


if len(sys.argv) != 2:
    sys.exit(__doc__)
main(sys.argv[1])
