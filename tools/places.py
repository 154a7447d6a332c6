#!/usr/bin/env python3
"""Counts places in crates/*/src that read like an older language, for docs/DESIGN-PASS.md.

    python3 tools/places.py [--list POINT] [--at COMMIT]

A place here is a line that matches a pattern, or a group of functions with one text. The page says which of
them were judged to be places, what became of each, and why some stay. --list prints the lines of a point,
--at counts in a commit. Tests and tables of constants are left out.
"""
import argparse
import collections
import re
import subprocess
import sys
from pathlib import Path

TABLES = ("powers.rt", "constants.rt")
LINES = {
    1: [r"^\s*(pub )?enum \w+", r"\b(number|item|status|kind): u(8|16|32)\b", r"-> u8$", r"Refused\("],
    3: [r"^\s*while ", r"^\s*for \w+ in .*\.\."],
    4: [
        r"^\s*impl.* (PartialEq|Eq|Ord|PartialOrd|Clone|Copy|From<.*>|TryFrom<.*>|fmt::Display|Display|Default)\b.* for ",
        r"[/%*] 256\b",
        r"fn (same\w*|number|head|misread|of|of_item|digit_of|worth_of|next_kind|word_at|put_word)\b",
        r"^\s*(Ok\((\w+)\) => Ok\(\2\)|Some\((\w+)\) => (Some|Ok)\(\3\)|None => (None|Err\(.*))",
    ],
    6: [
        r"\b(len|end|at|from|start): usize\b",
        r"let mut (at|end|from|start|count)\b",
        r"= \[0(u8)?; \w+\];",
        r"Vec<Entry>",
        r"mem::replace",
    ],
    7: [r"=> .*::<(Residue|Point)>", r"^\s*match (pass|shelf)\b", r"\bdyn\b|: fn\("],
}


def sources(commit):
    if commit is None:
        for path in sorted(Path("crates").glob("*/src/**/*.rt")):
            yield str(path), path.read_text()
        return
    names = subprocess.run(
        ["git", "ls-tree", "-r", "--name-only", commit, "crates"], capture_output=True, text=True, check=True
    ).stdout.split()
    for name in names:
        if "/src/" in name and name.endswith(".rt"):
            text = subprocess.run(["git", "show", f"{commit}:{name}"], capture_output=True, text=True, check=True).stdout
            yield name, text


def without_tests(text):
    at = text.find("#[cfg(test)]\nmod ")
    return text if at < 0 or ";" in text[at : at + 60].split("\n")[1] else text[:at]


FUNCTION = re.compile(r"^( *)(?:#\[.*\]\n *)*(?:pub(?:\(crate\))? )?(?:extern \"C\" )?fn (\w+)(.*?)^\1\}", re.M | re.S)


def functions(text):
    """Name, requires clauses, parameters and body of each function."""
    for found in FUNCTION.finditer(text):
        rest = found.group(3)
        clauses = re.findall(r"^\s*requires(?: \w+)? \{ (.*) \}$", rest, re.M)
        opening = re.search(r"^%s\{" % found.group(1), rest, re.M)
        body = rest[opening.end() :] if opening else rest
        head = rest[: opening.start()] if opening else rest.split("{", 1)[0]
        head = head.split("requires")[0].split("ensures")[0]
        parameters = re.findall(r"(\w+): ([^,()]+(?:\([^)]*\))?)", head)
        yield found.group(2), clauses, parameters, body


def shape(body):
    """A body without its types, sizes and constants."""
    body = re.sub(r"//.*", "", body)
    body = re.sub(r"b?\"[^\"]*\"|\b(0x)?[0-9][0-9a-fA-F_]*\b", "0", body)
    body = re.sub(r"::<[^>]*>|\b[A-Z]\w*\b", "T", body)
    body = re.sub(r"\b(Residue|Point|tape|chained)\b", "T", body)
    return re.sub(r"\s+", " ", body).strip()


def twins(files):
    """Groups of functions whose bodies differ in types, sizes and constants only."""
    groups = collections.defaultdict(list)
    for name, text in files:
        for function, _, _, body in functions(text):
            form = shape(body)
            if len(form) > 24:
                groups[form].append(f"{name}: {function}")
    return [places for places in groups.values() if len(places) > 1]


def repeated(files):
    """Facts that stand in the requires of three functions or more, and three parameters that do."""
    facts, together = collections.defaultdict(list), collections.defaultdict(list)
    for name, text in files:
        crate = name.split("/")[1]
        for function, clauses, parameters, _ in functions(text):
            for clause in clauses:
                facts[clause].append(f"{name}: {function}")
            names = [f"{n}: {t.strip()}" for n, t in parameters]
            for i in range(len(names) - 2):
                together[(crate, tuple(names[i : i + 3]))].append(f"{name}: {function}")
    found = [(fact, places) for fact, places in facts.items() if len(places) > 2]
    found += [(", ".join(names), places) for (_, names), places in together.items() if len(places) > 2]
    return found


def main():
    parser = argparse.ArgumentParser(description="counts places of older forms in crates/*/src")
    parser.add_argument("--list", type=int, choices=range(1, 8), metavar="POINT", help="print the places of a point")
    parser.add_argument("--at", metavar="COMMIT", help="count in a commit")
    asked = parser.parse_args()
    files = [(n, without_tests(t)) for n, t in sources(asked.at) if not n.endswith(TABLES)]
    for point in range(1, 8):
        if point == 2:
            groups = twins(files)
            places = [" = ".join(group) for group in groups]
            count = f"{len(groups)} groups of {sum(map(len, groups))} functions"
        elif point == 5:
            found = repeated(files)
            places = [f"{fact}: {'; '.join(where)}" for fact, where in found]
            count = f"{len(found)} facts or triples in {sum(len(where) for _, where in found)} functions"
        else:
            places = [
                f"{name}:{number}: {line.strip()}"
                for name, text in files
                for number, line in enumerate(text.split("\n"), 1)
                if not line.strip().startswith("//") and any(re.search(p, line) for p in LINES[point])
            ]
            count = f"{len(places)} lines"
        if asked.list in (None, point):
            print(f"{point}: {count}")
        if asked.list == point:
            print("\n".join(places))


if __name__ == "__main__":
    sys.exit(main())
