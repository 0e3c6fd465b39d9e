#!/usr/bin/env python3
"""Brings this repository's own names to today's spelling. Run once, at the top, right after the kit's port.py.

- The crate log becomes log_region: the kit has a library named log.
- Definitions, fields and lemmas in camel case become snake case, where they are declared, cited, edited and described.
- The edits in must-fail/ get the spelling that port.py gave the text that they change.

Functions of src/, exported names, strings, inputs and outputs keep their names.
"""

import glob
import re
import subprocess

CRATE = ("log", "log_region")

# Names that would fall together with another one, and a type and a module in lower case.
EXPLICIT = {"Fed-to": "FedTo", "ofMachine": "OfMachine", "getD-listed": "get_or-listed"}
IN_FILES = {
    "crates/formats/proofs/DecimalNumbers.antt": {"is_digit": "is_digit-digit"},
    "crates/reading/proofs/WayBack.antt": {"is_digit": "is_digit-digit", "last_digits": "only-last_digits"},
    "crates/formats/proofs/numerals/value_with/Proof.antt": {"is_digit": "is_digit-byte"},
    "crates/runner/proofs/Claim.antt": {"all_made": "all-made"},
}

WORD = re.compile(r"[A-Za-z_][A-Za-z0-9_'₀-₉-]*")
DECLARED = re.compile(r"^\s*(?:abbrev pub |abbrev |unfoldable pub |unfoldable |pub )*(?:record |data )?"
                      r"([^\s:{}()|;,.]+)(?: \{[^}]*\})?(?: \([^)]*\))* : ")
ALIAS = re.compile(r" as ([a-z][A-Za-z]*)")


def read(path):
    with open(path, encoding="utf-8") as f:
        return f.read()


def write(path, text):
    if read(path) != text:
        with open(path, "w", encoding="utf-8") as f:
            f.write(text)


def antt():
    return sorted(p for p in glob.glob("crates/*/specs/**/*.antt", recursive=True)
                  + glob.glob("crates/*/proofs/**/*.antt", recursive=True))


def sources():
    return sorted(glob.glob("crates/*/src/**/*.rt", recursive=True))


def snake(name):
    return re.sub(r"(?<=[a-z0-9])([A-Z])", lambda m: "_" + m.group(1).lower(), name)


def is_camel(name):
    return re.match(r"[a-z][a-z0-9_]*[A-Z]", name)


def names():
    """Every name in camel case that a file of specs/ or proofs/ declares or binds, with its new spelling."""
    found = set()
    for path in antt():
        for line in read(path).split("\n"):
            text = line.split("--")[0]
            found |= {w for w in WORD.findall(text) if is_camel(w)}
    for path in sources():
        for line in read(path).split("\n"):
            if line.startswith("ghost use "):
                found |= {w for w in WORD.findall(line) if is_camel(w)}
    return {n: snake(n) for n in found} | EXPLICIT


def turned(text, table):
    return WORD.sub(lambda m: table.get(m.group(0), m.group(0)), text)


def turned_here(text, table):
    """As turned, but for fields: the name of a function stays where a proof cites what its call ensures."""
    return WORD.sub(lambda m: m.group(0) if text[:m.start()].endswith(".") else table.get(m.group(0), m.group(0)), text)


def outside_strings(text, table):
    parts = re.split(r'("(?:[^"\\]|\\.)*")', text)
    return "".join(p if i % 2 else turned(p, table) for i, p in enumerate(parts))


def crate_renamed(text):
    old, new = CRATE
    text = re.sub(rf"\bRattle\.{old}\.", f"Rattle.{new}.", text)
    text = re.sub(rf"\buse {old}::", f"use {new}::", text)
    return re.sub(rf"(?<![\w:.])(?<!crate::){old}::(?=\w)", f"{new}::", text)


def tight(text):
    """Projections as today's antt writes them: `(m .buffers .redo)` is m.buffers.redo, and `(f x) .y` is (f x).y."""
    text = re.sub(r"\((\w+)((?: \.\w+)+)\)", lambda m: m.group(1) + m.group(2).replace(" ", ""), text)
    return re.sub(r"(?<=[\w)])((?: \.\w+)+)", lambda m: m.group(1).replace(" ", ""), text)


def ported_names():
    """The names that port.py itself respelled, by the declarations of the commit before it and after it."""
    table = {"getD": "get_or"}
    for path in antt():
        old = subprocess.run(["git", "show", "HEAD:" + path], capture_output=True, text=True).stdout
        before = [m.group(1) for m in map(DECLARED.match, old.split("\n")) if m]
        after = [m.group(1) for m in map(DECLARED.match, read(path).split("\n")) if m]
        if len(before) == len(after):
            table |= {a: b for a, b in zip(before, after) if a != b and is_camel(a)}
    return table


def edits(table):
    for path in sorted(glob.glob("crates/*/must-fail/*.edit")):
        lines = read(path).split("\n")
        of_antt = any(l.startswith(("file: specs", "file: proofs")) for l in lines)
        for i, line in enumerate(lines):
            if line.startswith(("old: ", "new: ")):
                text = tight(line[5:]) if of_antt else line[5:]
                lines[i] = line[:5] + turned(text, table)
        write(path, "\n".join(lines))


def main():
    before = ported_names()
    table = names()
    for path in antt():
        write(path, turned(turned_here(crate_renamed(read(path)), IN_FILES.get(path, {})), table))
    for path in sources():
        write(path, outside_strings(crate_renamed(read(path)), table))
    edits(before | table)
    for path in ["README.md"] + glob.glob("docs/**/*.md", recursive=True):
        write(path, re.sub(r"`[^`\n]+`", lambda m: turned(m.group(0), before | table), read(path)))
    old, new = CRATE
    subprocess.run(["git", "mv", f"crates/{old}", f"crates/{new}"], check=True)
    write("crates.txt", re.sub(rf"(?<=[ :]){old}(?=[ \n])|^{old}(?=:)", new, read("crates.txt"), flags=re.M))


if __name__ == "__main__":
    main()
