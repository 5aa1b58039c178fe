#!/usr/bin/env python3
"""What the proof of a crate takes, function by function: costs.py NAME [--test] [--rows N], at the top of a checkout.

It proves the crate anew, on one processor, over the libraries below it, which must be there (`rt check NAME` or kept.py), and reads off when
each part was done. A function's code is what its basic blocks cost, above all each `?` while owned values live; its proof is the rest. It
gives no verdict and changes nothing."""
import collections
import os
import pathlib
import re
import shutil
import subprocess
import sys
import tempfile

TOP = pathlib.Path(".").resolve()
KIT = pathlib.Path(os.path.realpath(shutil.which("rt") or "/opt/rattle/bin/rt")).parent.parent
KIT = KIT if (KIT / "rlibs").is_dir() else pathlib.Path("/opt/rattle")


def stands_on():
    """Each crate of crates.txt with the names on its line."""
    lines = [line.partition("#")[0] for line in open("crates.txt")]
    return {name.replace("staticlib", "").strip(): rest.split() for name, _, rest in (line.partition(":") for line in lines if ":" in line)}


def below(name, lines, found):
    """All crates of this repository that a crate depends on."""
    for it in lines[name]:
        if it in lines and it not in found:
            found.append(it)
            below(it, lines, found)
    return found


def command(name, is_test, kept):
    lines = stands_on()
    rlib = {it: TOP / "crates" / it / "out/rlib" for it in below(name, lines, [])}
    root = "src/main.rt" if (TOP / "crates" / name / "src/main.rt").exists() else "src/lib.rt"
    words = [KIT / "bin/rattle", "check", "--crate-name", name, root, "--extern", f"std={KIT}/rlibs/std.rlib"]
    for it in lines[name]:
        words += ["--extern", f"{it}={rlib[it] if it in rlib else KIT / 'rlibs'}/{it}.rlib"]
    for at in [KIT / "rlibs", *rlib.values()]:
        words += ["-L", f"dependency={at}"]
    words += ["--antt-project", KIT / "rattle/logic/antt-project.json", "--logic-built", KIT / "logic_built", "--links", f"{name}=", "--jobs", "1"]
    return [str(it) for it in words + ["--incremental", kept] + ["--test"] * is_test]


def seconds_of(kept):
    """The seconds that went by before each file was written."""
    files = sorted((it.stat().st_mtime, str(it.relative_to(kept))) for it in pathlib.Path(kept).rglob("*") if it.is_file())
    return [(now - before, name) for (before, _), (now, name) in zip(files, files[1:])]


def main():
    words = [it for it in sys.argv[1:] if not it.startswith("--")]
    rows = int(words.pop()) if "--rows" in sys.argv else 30
    name = words[0]
    kept = tempfile.mkdtemp(prefix="costs")
    run = subprocess.run(command(name, "--test" in sys.argv, kept), cwd=TOP / "crates" / name, stdout=subprocess.PIPE, stderr=subprocess.STDOUT, text=True)
    print(run.stdout.splitlines()[-1])
    code, proof, other = collections.Counter(), collections.Counter(), 0.0
    for took, path in seconds_of(kept):
        function = re.search(r"-proofs\.(.*)\.(Lts|Proof\.decls)\.oantt$", path)
        if function:
            (code if function[2] == "Lts" else proof)[function[1]] += took
        else:
            other += took
    shutil.rmtree(kept)
    total = code + proof
    print(f"{sum(code.values()):8.1f} code {sum(proof.values()):8.1f} proof {other:8.1f} other seconds")
    for function, took in total.most_common(rows):
        print(f"{code[function]:8.2f} code {proof[function]:8.2f} proof  {function}")


main()
