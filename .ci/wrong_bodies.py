#!/usr/bin/env python3
"""Tries wrong bodies at the top of a checkout: `.ci/wrong_bodies.py [--all] NAME..`, each a crate; with `every` in place of names, all crates.

The gate tries those of must-fail/. Those of crates/NAME/wrong-bodies have the same form and are tried here, by hand, for each crate that
a change touches; with --all those of must-fail/ too. Each is applied in a copy of the checkout, over the libraries that are kept on this
machine (kept.py), and the function around it alone is checked, some 20 seconds each. The prover must refuse it there. A function that is
proved with a wrong body lacks a clause."""
import os
import pathlib
import re
import shutil
import subprocess
import sys
import tempfile
import time

TOP = pathlib.Path(".").resolve()


def edits_of(crate, with_gate):
    folders = ["wrong-bodies"] + ["must-fail"] * with_gate
    return sorted(it for folder in folders for it in (crate / folder).glob("*.edit"))


def read_edit(path):
    """The file that is edited, and what is in place of what."""
    file, old, pairs = None, None, []
    for line in path.read_text().splitlines():
        if line.startswith("file: "):
            file = line[6:]
        elif line.startswith("old: "):
            old = line[5:]
        elif line.startswith("new: "):
            pairs.append((old, line[5:]))
    return file, pairs


def name_of_block(line):
    """How a check names the block that begins: by the type, and by the trait after it."""
    head = re.sub(r"^(?:pub(?:\(crate\))? )?(?:impl|trait)", "", line)
    while re.search(r"<[^<>]*>", head):
        head = re.sub(r"<[^<>]*>", "", head)
    of_trait = re.match(r"\s*(\w+) for (\w+)", head)
    return of_trait[2] + of_trait[1] if of_trait else re.match(r"\s*(\w+)", head)[1]


def function_at(text, offset):
    """The function that a place of a source is in, as a check names it within its file."""
    block, name, at = "", "", 0
    for line in text.split("\n"):
        if re.match(r"(?:pub(?:\(crate\))? )?(?:impl|trait)\b", line):
            block = name_of_block(line)
        found = re.match(r"(\s*)(?:pub(?:\(crate\))? )?fn (\w+)", line)
        if found:
            name = (f"{block}::" if found[1] and block else "") + found[2]
        if at <= offset <= at + len(line):
            return name
        block = "" if line.startswith("}") else block
        at += len(line) + 1
    return name


def try_edit(crate, path):
    """Whether the prover refuses an edit, and what it says."""
    file, pairs = read_edit(path)
    source = crate / file
    before = source.read_text()
    text = before
    for old, new in pairs:
        if text.count(old) != 1:
            return False, "an old text doesn't stand there once"
        text = text.replace(old, new)
    first = pairs[0][0]
    function = function_at(before, before.index(first) + len(first) - len(first.lstrip()))
    module = source.relative_to(crate / "src").with_suffix("").as_posix().replace("/", "::")
    name = function if module in ("lib", "main") else f"{module}::{function}"
    source.write_text(text)
    run = subprocess.run(["rt", "check", "--only", name], cwd=crate, stdout=subprocess.PIPE, stderr=subprocess.STDOUT, text=True)
    source.write_text(before)
    said = [it for it in run.stdout.splitlines() if re.match(rf"fn \S*{re.escape(function)}: ", it)]
    if not said:
        return False, f"{name}: " + next((it for it in run.stdout.splitlines() if "error" in it), "no verdict")
    return "not proved" in said[0] or "no proof" in said[0], said[0][:150]


def main(words):
    names = [it for it in words if it != "--all"]
    if names == ["every"]:
        names = sorted(it.name for it in (TOP / "crates").iterdir() if (it / "wrong-bodies").is_dir())
    unknown = [it for it in names if not (TOP / "crates" / it).is_dir()]
    if unknown or not names:
        print(f"usage: wrong_bodies.py [--all] NAME..; no crate: {' '.join(unknown)}")
        return 2
    with tempfile.TemporaryDirectory(prefix="wrong-bodies-") as made:
        copy = pathlib.Path(made, "copy")
        shutil.copytree(TOP, copy, ignore=shutil.ignore_patterns("out", ".git"))
        os.mkdir(copy / ".git")
        subprocess.run([sys.executable, str(TOP / ".ci/kept.py")], cwd=copy, check=True)
        tried, failed = 0, []
        for name in names:
            for path in edits_of(copy / "crates" / name, "--all" in words):
                begun = time.time()
                is_refused, said = try_edit(copy / "crates" / name, path)
                tried += 1
                failed += [] if is_refused else [f"{name}/{path.name}"]
                print(f"{name}/{path.name}: {'refused' if is_refused else 'NOT REFUSED'}: {said} [{time.time() - begun:.0f} s]", flush=True)
    for it in failed:
        print(f"not refused: {it}")
    print(f"wrong_bodies: {tried} tried, {len(failed)} not refused")
    return 1 if failed else 0


sys.exit(main(sys.argv[1:]))
