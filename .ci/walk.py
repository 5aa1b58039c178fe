#!/usr/bin/env python3
"""Draws functions at random: walk.py [SEED [COUNT]], at the top of a checkout. Of each it prints crate, file, name, and the type that a method is of, one crate
after another. A reader who sees no more should know where each is and what it may touch; where not, a name is wrong."""
import pathlib
import random
import re
import sys


def functions():
    """Each function of a crate's sources: crate, file, name with what it is of."""
    for path in sorted(pathlib.Path("crates").glob("*/src/**/*.rt")):
        of = ""
        for line in path.read_text().splitlines():
            impl = re.match(r"(?:impl|trait|pub trait)\b(?:<.*?>)? *(.*?) *\{", line)
            of = impl[1] if impl else "" if line.startswith("}") else of
            name = re.match(r" *(?:pub(?:\(crate\))? )?fn (\w+)", line)
            if name:
                yield path.parts[1], path.name, name[1], of


def main():
    seed, count = (int(it) for it in (sys.argv[1:] + ["1", "20"][len(sys.argv) - 1:]))
    drawn = random.Random(seed)
    crates = {}
    for it in functions():
        crates.setdefault(it[0], []).append(it)
    for crate in drawn.sample(sorted(crates), min(count, len(crates))):
        _, file, name, of = drawn.choice(crates[crate])
        print(f"{crate:18} {file:20} {name}" + (f"  (of {of})" if of else ""))


main()
