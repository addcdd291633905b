#!/usr/bin/env python3
"""Respells the repository's own definitions and lemmas as today's Rattle spells names.

usage: python3 tools/respell.py [FOLDER]      once, right after port.py, at the top of the repository or in FOLDER

A word is in snake case, a type in camel case; a dash stays only between two names that a lemma joins.
It turns clauses, specs, proofs, must-fail edits and pages, and leaves names of src/ and of goals as they are.
"""

import os
import re
import sys

# lemmas named by the two functions that they join
JOINED = {
    "all-of-append": "all_of-append",
    "all-of-drop": "all_of-drop",
    "all-of-set": "all_of-set",
    "all-of-take": "all_of-take",
    "enough-append": "enough-append",
    "lacks-append": "lacks-append",
    "length-lowered": "length-lowered",
    "lowered-append": "lowered-append",
    "map-map": "map-map",
}
# lemmas that would have the name of a function of src/ that carries them, or of a ghost field
APART = {
    "bookings-stand": "bookings_stand_lem",
    "conversion-stands": "conversion_stands_lem",
    "few-legs": "few_legs_lem",
    "grids-stand": "grids_stand_lem",
    "places-stand": "places_stand_lem",
    "questions-stand": "questions_stand_lem",
    "reading-stands": "reading_stands_lem",
    "room-above": "room_above_lem",
    "sections-stand": "sections_stand_lem",
    "text-stands": "text_stands_lem",
}

DECLARED = re.compile(r"\s*((?:(?:pub|abbrev|unfoldable|record|data|ruleset)\s+)*)([^\s(){}:;,.«»]+)\s*:\s")
HEADED = re.compile(r"\s*((?:(?:pub|abbrev|unfoldable|record|data|ruleset)\s+)+)([^\s(){}:;,.«»]+)")
PART = r"[^\s(){}\[\]:;,.`«»\"|/]"


def files(top, kinds):
    for folder, dirs, names in os.walk(top):
        dirs[:] = sorted(d for d in dirs if d not in ("out", "target", ".git"))
        for name in sorted(names):
            if name.endswith(kinds):
                yield os.path.join(folder, name)


def declared(top):
    """The names with a dash that specs/ and proofs/ declare, but for answers and invariants, which Rattle names."""
    found = set()
    for path in files(os.path.join(top, "crates"), (".antt",)):
        with open(path, encoding="utf-8") as f:
            for line in f:
                m = DECLARED.match(line) or HEADED.match(line)
                if m and "-" in m.group(2) and not re.search(r":\s*(goal|needs)\.", line):
                    found.add(m.group(2))
    return found


def respelled(name):
    if name in APART:
        return APART[name]
    if name in JOINED:
        return JOINED[name]
    if name[0].isupper():
        return "".join(part[0].upper() + part[1:] for part in name.split("-"))
    return name.replace("-", "_")


def main(argv):
    top = argv[0] if argv else "."
    table = {old: respelled(old) for old in declared(top)}
    table = {old: new for old, new in table.items() if old != new}
    wanted = re.compile(f"(?<!{PART})(" + "|".join(re.escape(n) for n in sorted(table, key=len, reverse=True)) + f")(?!{PART})")
    turned = 0
    for path in files(top, (".antt", ".rt", ".edit", ".md")):
        if os.path.abspath(path).startswith(os.path.abspath(os.path.join(top, "tools"))):
            continue
        with open(path, encoding="utf-8") as f:
            text = f.read()
        new = wanted.sub(lambda m: table[m.group(1)], text)
        if new != text:
            turned += 1
            with open(path, "w", encoding="utf-8") as f:
                f.write(new)
    print(f"respell: {len(table)} names, {turned} files")
    return 0


if __name__ == "__main__":
    raise SystemExit(main(sys.argv[1:]))
