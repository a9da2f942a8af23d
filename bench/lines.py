#!/usr/bin/env python3
"""Prints the table of docs/gate.md: lines of code, tests, definitions and proofs by crate, and wrong bodies."""

import glob
import os
import re

CRATES = os.path.join(os.path.dirname(os.path.abspath(__file__)), "..", "crates")


def lines(paths):
    total = 0
    for path in paths:
        with open(path, "rb") as text:
            total += text.read().count(b"\n")
    return total


def tests_among(sources):
    """The files that the crate's root names for tests alone."""
    root = next(path for path in sources if os.path.basename(path) in ("lib.rt", "main.rt"))
    with open(root, encoding="utf-8") as text:
        names = re.findall(r"#\[cfg\(test\)\]\nmod (\w+);", text.read())
    return [path for path in sources if os.path.basename(path)[:-3] in names]


def row(crate):
    """Code is all of `src` but the tests."""
    folder = os.path.join(CRATES, crate)
    sources = glob.glob(os.path.join(folder, "src", "*.rt"))
    tests = tests_among(sources)
    return (crate, lines(sources) - lines(tests), lines(tests),
            lines(glob.glob(os.path.join(folder, "specs", "*.antt"))),
            lines(glob.glob(os.path.join(folder, "proofs", "**", "*.antt"), recursive=True)),
            len(glob.glob(os.path.join(folder, "must-fail", "*.edit"))))


def main():
    print("| Crate | code | tests | definitions | proofs | edits |\n|---|---|---|---|---|---|")
    with open(os.path.join(CRATES, "..", "crates.txt")) as listed:
        for line in listed:
            print("| `%s` | %d | %d | %d | %d | %d |" % row(line.split(":")[0]))


if __name__ == "__main__":
    main()
