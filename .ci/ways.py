#!/usr/bin/env python3
"""Counts the ways through crates.txt from the program down to the base. The prover's command may walk each of them for each crate that it
looks at, so they are bounded here, as are the crates and the levels. It also reports a dependency that no file of its crate names."""
import pathlib
import re
import sys

CRATES, LEVELS, WAYS, WAYS_OF_OTHERS = 57, 13, 15_000, 17_000
PROGRAM = "ijtag_cli"


def stands_on():
    """Each crate of crates.txt with the crates of this repository that it depends on."""
    rows = [line.partition("#")[0].split(":") for line in open("crates.txt") if ":" in line.partition("#")[0]]
    names = [name.strip() for name, _ in rows]
    return {name.strip(): [it for it in rest.split() if it in names] for name, rest in rows}


def named(crate):
    """Each word that a file of a crate uses as the name of a crate."""
    found = set()
    for path in pathlib.Path("crates", crate).rglob("*"):
        if path.suffix in (".rt", ".antt") and "out" not in path.parts:
            text = path.read_text()
            found |= set(re.findall(r"Rattle\.(\w+)\.", text))
            found |= set(re.findall(r"(?<![\w:.])(\w+)::", text)) if path.suffix == ".rt" else set()
    return found


def main():
    below = stands_on()
    ways, levels = {}, {}

    def count(crate):
        if crate not in ways:
            for it in below[crate]:
                count(it)
            ways[crate] = 1 + sum(ways[it] for it in below[crate])
            levels[crate] = 1 + max((levels[it] for it in below[crate]), default=0)

    for crate in below:
        count(crate)
    unnamed = [(crate, it) for crate, its in below.items() for it in its if it not in named(crate)]
    for crate, it in unnamed:
        print(f"ways: {crate} depends on {it}, and no file of it names it")
    print(f"ways: {len(below)} crates, {levels[PROGRAM]} levels, {ways[PROGRAM]} ways from {PROGRAM}")
    bounds = [("crates", len(below), CRATES), ("levels", max(levels.values()), LEVELS),
              ("ways", ways[PROGRAM], WAYS), ("ways of another crate", max(ways.values()), WAYS_OF_OTHERS)]
    wide = [it for it in bounds if it[1] > it[2]]
    for what, count_now, bound in wide:
        print(f"ways: {count_now} {what}, {bound} is the most")
    return 1 if wide or unnamed else 0


sys.exit(main())
