#!/usr/bin/env python3
"""Says what is in two crates: functions that are one but for the names of what they bind, and lemmas with one statement."""
import collections
import glob
import re
import sys


def renamed(names, text):
    """The text with these names numbered in their order."""
    numbers = {}
    for name in names:
        numbers.setdefault(name, f"n{len(numbers)}")
    return re.sub(r"(?<![.\w])[^\W\d]\w*", lambda m: numbers.get(m[0], m[0]), text)


def functions():
    """Each function outside an impl, with its crate."""
    for path in glob.glob("crates/*/src/**/*.rt", recursive=True):
        lines = open(path).read().split("\n")
        for at, line in enumerate(lines):
            head = re.match(r"(?:pub(?:\(crate\))? )?fn (\w+)", line)
            if head:
                end = next((k for k in range(at, len(lines)) if lines[k] == "}"), at)
                text = "\n".join(lines[at : end + 1])
                bound = re.findall(r"(\w+):", text[: text.index(")")])
                bound += re.findall(r"\b(?:let (?:mut )?|for |λ )(\w+)", text)
                text = re.sub(r"^(?:pub(?:\(crate\))? )?fn \w+", "fn", text)
                text = re.sub(r"\b(ensures|requires) \w+ \{", r"\1 {", renamed(bound, text))
                yield path.split("/")[1], head[1], re.sub(r"\s+", " ", text)


def lemmas():
    """Each lemma outside a module with parameters, with its crate."""
    for path in glob.glob("crates/*/proofs/**/*.antt", recursive=True):
        for m in re.finditer(r"(?m)^(?:pub )?([\w'-]+) : (.+(?:\n    .+)*)\n", open(path).read()):
            kind = re.sub(r"\s+", " ", m[2])
            if not kind.startswith("goal."):
                bound = [n for g in re.findall(r"[({]([\w' ]+) :", kind) for n in g.split()]
                bound += re.findall(r"λ (\w+)\.", kind)
                yield path.split("/")[1], m[1], renamed(bound, kind)


def twice(found, least):
    """Those whose text is in several crates."""
    places = collections.defaultdict(list)
    for crate, name, text in found:
        if len(text) >= least:
            places[text].append((crate, name))
    return [(at, text) for text, at in places.items() if len({crate for crate, _ in at}) > 1]


def main():
    rows = twice(functions(), 60) + twice(lemmas(), 24)
    for places, text in rows:
        print(", ".join(f"{crate}: {name}" for crate, name in places), "|", text[:120])
    print(f"twice: {len(rows)} found")
    return 1 if rows else 0


sys.exit(main())
