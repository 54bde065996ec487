#!/usr/bin/env python3
"""Brings the repository's own definitions and lemmas to the spelling of today's Rattle: words in snake case, types in camel case.

usage: python3 tools/port_names.py        once, at the top, right after the kit's port.py

Only names that specs/ and proofs/ declare are turned, in .antt files and in the ghost text of .rt files. A name that has a dash and is no
goal's keeps the dash where it joins two definitions (`cut-total` is a lemma of `cut` and `total`); elsewhere `_` stands for it. Goals' names in
Answers.antt and Invariants.antt, functions of src/, strings, inputs and outputs keep theirs.
"""

import os
import re
import sys

# lemmas whose name joins two definitions
JOINED = set(
    """
    after-after after-scan after-singles after-step before-all before-scan before-singles before-step boundary-after boundary-scan
    boundary-singles boundary-step boundary-total cut-scan cut-singles cut-total first-before first-cut first-scan first-singles
    further-further length-singles lookup-units mapped-length matched-same matched-scan moved-moved solid-after solid-push
    solid-scan solid-singles take-singles total-after total-before total-singles within-singles
    """.split()
)

NAME = r"(?<![\w'\-.·])%s(?![\w'\-·])"
DECLARED = re.compile(r"^\s*(?:(?:abbrev|unfoldable|pub)\s+)*(?:(?:record|data)\s+)?([^\s:(){}=.]+)\s*(?:\([^()]*\)\s*|\{[^{}]*\}\s*)*:\s(.*)$")


def files(ending):
    for folder, dirs, names in os.walk("crates"):
        dirs[:] = sorted(d for d in dirs if d != "out")
        for name in sorted(names):
            if name.endswith(ending):
                yield os.path.join(folder, name)


def read(path):
    with open(path, encoding="utf-8") as f:
        return f.read()


def own_names():
    """The names that specs/ and proofs/ declare, but for goals."""
    found = set()
    for path in files(".antt"):
        for line in read(path).splitlines():
            it = DECLARED.match(line)
            if it and not line.lstrip().startswith("--") and not it.group(2).startswith("goal."):
                found.add(it.group(1))
    return found


def turned(name):
    if name in JOINED:
        return name
    if name[0].isupper():
        return "".join(part[0].upper() + part[1:] for part in name.split("-"))
    if "≢" in name:
        return name
    return re.sub(r"([a-z])([A-Z])", lambda m: m.group(1) + "_" + m.group(2).lower(), name).replace("-", "_").replace("′", "'")


def ghost_text(line, inside):
    """Whether a line of a .rt file is ghost text, and whether a clause goes on in the next."""
    starts = re.match(r"\s*(?:pub )?(?:ghost|requires|ensures)\b", line)
    if not starts and not inside:
        return False, False
    depth = inside + line.count("{") - line.count("}")
    return True, depth > 0 and depth


def main():
    names = own_names()
    table = {n: turned(n) for n in names if turned(n) != n}
    back = {}
    for old, new in sorted(table.items()):
        if new in back or new in names:
            print(f"falls together: {old} and {back.get(new, new)} as {new}", file=sys.stderr)
            return 1
        back[new] = old
    pattern = re.compile(NAME % ("(?:" + "|".join(sorted(map(re.escape, table), key=len, reverse=True)) + ")"))
    swap = lambda m: table[m.group(0)]
    for path in files(".antt"):
        text = read(path)
        new = "\n".join(l if l.lstrip().startswith("--") else pattern.sub(swap, l) for l in text.split("\n"))
        write(path, text, new)
    for path in files(".rt"):
        text, out, inside = read(path), [], 0
        for line in text.split("\n"):
            ghost, inside = ghost_text(line, inside)
            out.append(pattern.sub(swap, line) if ghost else line)
        write(path, text, "\n".join(out))
    for old in sorted(table):
        print(f"{old} {table[old]}")
    return 0


def write(path, old, new):
    if new != old:
        with open(path, "w", encoding="utf-8") as f:
            f.write(new)


if __name__ == "__main__":
    raise SystemExit(main())
