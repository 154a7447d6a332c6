#!/usr/bin/env python3
"""Spells the repository's own definitions and lemmas as Rattle's style asks: words in snake case, types in camel case.

usage: python3 tools/spell.py        at the top of the repository, once

It gathers every name that a file of specs/ or proofs/ declares with a dash in it, or with a capital in its middle, and
writes it anew wherever it stands in a .rt or .antt file. Names of the library, of goals and of their answers, strings, and
the functions of src/ stay. It stops where two names would fall together.
"""

import os
import re
import sys

SIGN = "A-Za-z0-9_'ℕ◌-"
NAME = rf"[A-Za-z][{SIGN}]*"
OUTSIDE = ("Rattle.std", "Rattle.core", "native", "borrow", "denote", "specs", "mathlib", "lib", "Prim")
GOALS = ("goal.", "need.", "given.")
# a name that the library has too is left to whoever reads the file
BY_HAND = {"length-map"}
SPECIAL = {"nonce-getD": "nonce_get_or"}


def files():
    for folder, below, names in os.walk("crates"):
        below[:] = sorted(x for x in below if x != "out")
        for name in sorted(names):
            if name.endswith((".rt", ".antt")):
                yield os.path.join(folder, name)


def spelled(name):
    if name in SPECIAL:
        return SPECIAL[name]
    if name[0].isupper():
        return "".join(part[:1].upper() + part[1:] for part in name.split("-"))
    return re.sub(r"(?<=[a-z])[A-Z]", lambda m: "_" + m.group().lower(), name.replace("-", "_"))


def declared():
    names = set()
    for path in files():
        if not path.endswith(".antt"):
            continue
        for line in open(path, encoding="utf-8"):
            if re.match(r"\s*use\s", line):
                continue
            found = re.match(rf"\s*(?:(?:abbrev|unfoldable|pub)\s+)*({NAME})\s*:(?!=)\s*(.*)$", line)
            if found and not found.group(2).startswith(GOALS):
                names.add(found.group(1))
            found = re.match(rf"\s*(?:pub\s+)?(?:record|data|ruleset)\s+({NAME})", line)
            if found:
                names.add(found.group(1))
    return names


def main():
    names = declared()
    turned = {n: spelled(n) for n in names if ("-" in n or re.search("[a-z][A-Z]", n)) and n not in BY_HAND}
    turned = {n: t for n, t in turned.items() if n != t}
    taken = {}
    for name in sorted(names):
        new = turned.get(name, name)
        if new in taken:
            sys.exit(f"spell: {taken[new]} and {name} would both be {new}")
        taken[new] = name
    any_name = re.compile(
        rf"(?<![{SIGN}])(?:" + "|".join(sorted(map(re.escape, turned), key=len, reverse=True)) + rf")(?![{SIGN}])"
    )
    string = re.compile(r'"(?:[^"\\]|\\.)*"')
    count = 0
    for path in files():
        text = open(path, encoding="utf-8").read()

        def outside(part):
            def one(m):
                before = part[: m.start()]
                return m.group() if before.endswith(GOALS) else turned[m.group()]

            return any_name.sub(one, part)

        new, at = [], 0
        for m in string.finditer(text):
            new += [outside(text[at : m.start()]), m.group()]
            at = m.end()
        new.append(outside(text[at:]))
        new = "".join(new)
        if new != text:
            open(path, "w", encoding="utf-8").write(new)
            count += 1
    for name in sorted(turned):
        print(f"{name} {turned[name]}")
    print(f"spell: {len(turned)} names in {count} files", file=sys.stderr)


main()
