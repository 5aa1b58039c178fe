#!/usr/bin/env python3
"""Lends a checkout the libraries that `rt ci` has proved and kept on this machine: kept.py, at the top of a checkout.

`rt check NAME` and `rt check --only MODULE::FUNCTION` then prove one crate over them at once, with nothing below proved again, also while a
gate runs in another checkout. It says how many crates were lent and which weren't kept yet. It takes nothing from what is kept."""
import importlib.machinery
import importlib.util
import os
import pathlib
import shutil
import sys


def prover():
    """The command rt as a module."""
    path = os.path.realpath(shutil.which("rt") or "/opt/rattle/bin/rt")
    sys.path.insert(0, os.path.dirname(path))
    loader = importlib.machinery.SourceFileLoader("rt_command", path)
    made = importlib.util.module_from_spec(importlib.util.spec_from_loader("rt_command", loader))
    sys.modules["rt_command"] = made
    loader.exec_module(made)
    return made


def lowest_first(crates):
    """Each crate after those that it depends on."""
    placed = {}

    def place(crate):
        if crate.name not in placed:
            for it in crate.deps:
                place(it)
            placed[crate.name] = crate

    for it in crates:
        place(it)
    return placed.values()


def lend(crate, kept):
    """Gives a crate its library, if it is kept, and says whether it could."""
    stamp = pathlib.Path(crate.folder, "out/rlib/stamp")
    if not (stamp.exists() and stamp.read_text() == crate.stamp()):
        # with other files beside them rt takes what is kept for damaged
        shutil.rmtree(stamp.parent, ignore_errors=True)
        if not kept.give(crate, False, kept.key(crate)):
            return False
        stamp.write_text(crate.stamp())
    kept.is_built(crate)
    return True


def main():
    rt, top = prover(), os.getcwd()
    rt.Crate.cuts_libraries, rt.Crate.allowed = True, rt.handles_of(top)
    crates = rt.crates_of(top)
    kept = rt.Kept(crates)
    kept.drop = lambda path: None
    missing = []
    libraries = [it for it in lowest_first(crates) if not it.is_program]
    for crate in libraries:
        if any(it.name in missing for it in crate.below()) or not lend(crate, kept):
            missing.append(crate.name)
    print(f"kept: {len(libraries) - len(missing)} of {len(libraries)} libraries are lent")
    if missing:
        print("kept: not yet proved here: " + " ".join(missing))


main()
