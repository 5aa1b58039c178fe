#!/usr/bin/env python3
"""Looks for lines of sources, definitions and proofs that go beyond column 110, where one could be broken: columns.py [--write], at the top of a
checkout. With --write it breaks those that a blank will do for: imports, comments, and terms of proofs and definitions.

A line stays long where it is a string, an attribute or a view, which the formatter keeps on one line."""
import pathlib
import re
import subprocess
import sys

WIDTH = 110
KEPT = re.compile(r'"|^\s*#\[|^\s*ghost (view|invariant|from_gives) ')
IMPORT = re.compile(r'(\s*(?:ghost )?(?:pub )?use [^{]*\.\{)(.*)(\};?)$')
COMMENT = re.compile(r'(\s*(?:--|///?|//!) )')


def long_lines():
    """The lines that could be broken: path, number from 0 and text."""
    for folder in ("src", "specs", "proofs"):
        for path in sorted(pathlib.Path("crates").glob(f"*/{folder}/**/*")):
            if path.suffix in (".rt", ".antt"):
                for number, line in enumerate(path.read_text().split("\n")):
                    if len(line) > WIDTH and not KEPT.search(line):
                        yield path, number, line


def broken(path, line):
    """The line in several, or alone where nobody but its author can break it."""
    if found := IMPORT.match(line):
        lines = [[]]
        for name in found[2].split(", "):
            if lines[-1] and len(found[1] + ", ".join([*lines[-1], name]) + found[3]) > WIDTH:
                lines.append([])
            lines[-1].append(name)
        return [found[1] + ", ".join(names) + found[3] for names in lines]
    at = line.rfind(" ", 0, WIDTH)
    if found := COMMENT.match(line):
        return [line[:at], found[1] + line[at + 1 :]]
    indent = len(line) - len(line.lstrip())
    if path.suffix != ".antt" or at <= indent:
        return [line]
    return [line[:at], " " * (indent + 4) + line[at + 1 :]]


def write():
    """Breaks lines, and lays the files out, until nothing changes."""
    for _ in range(4):
        found = {}
        for path, number, line in long_lines():
            found.setdefault(path, []).append((number, broken(path, line)))
        for path, lines in found.items():
            text = path.read_text().split("\n")
            for number, parts in reversed(lines):
                text[number : number + 1] = parts
            path.write_text("\n".join(text))
        if found:
            subprocess.run(["rattle", "fmt", "--write", *map(str, found)], check=True)


if sys.argv[1:] == ["--write"]:
    write()
found = [f"{path}:{number + 1}: {len(line)} columns" for path, number, line in long_lines()]
print("\n".join(found + [f"columns: {len(found)} lines are too long"]))
sys.exit(1 if found else 0)
