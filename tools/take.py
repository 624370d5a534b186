#!/usr/bin/env python3
"""Gives this checkout the libraries that `rt ci` keeps on this machine for exactly these files, into out/ of each crate.

usage: tools/take.py        at any place of the repository

`rt ci` works on what it keeps beside the kit, `rt check` on what lies in out/. So after `rt ci NAME..` for the lower crates
this spares `rt check`, `tools/edits.py` and `tools/ahead.py` their proofs. It prints what it took, what was there, what is not kept.
"""
import importlib.machinery
import importlib.util
import os
import shutil
import sys

TOP = os.path.dirname(os.path.dirname(os.path.abspath(__file__)))
KIT = os.path.dirname(os.path.realpath(shutil.which("rt") or sys.exit("take.py: rt is not on the PATH")))
sys.dont_write_bytecode = True


def loaded():
    """The kit's `rt`, as a module."""
    loader = importlib.machinery.SourceFileLoader("rt", f"{KIT}/rt")
    made = importlib.util.module_from_spec(importlib.util.spec_from_loader("rt", loader))
    sys.modules["rt"] = made
    loader.exec_module(made)
    return made


def once(crate_class, name):
    """Has the method asked once for each crate: the files do not change meanwhile."""
    asked, known = getattr(crate_class, name), {}

    def answer(crate):
        if crate.folder not in known:
            known[crate.folder] = asked(crate)
        it = known[crate.folder]
        return [*it] if isinstance(it, list) else it

    setattr(crate_class, name, answer)


def take(rt, kept, crate):
    """What happened with the library of this crate: "taken", "there" or "not kept"."""
    if any(it.name not in kept.rlibs for it in crate.below()):
        return "not kept"
    if crate.is_built() and kept.made(crate, False):
        kept.is_built(crate)
        return "there"
    key = kept.key(crate)
    if not os.path.isdir(kept.place(crate, False, key)):
        return "not kept"
    os.makedirs(f"{crate.folder}/out", exist_ok=True)
    rt.clear(f"{crate.folder}/out/rlib")
    if not kept.give(crate, False, key):
        return "not kept"
    with open(f"{crate.folder}/out/rlib/stamp", "w", encoding="utf-8") as file:
        file.write(crate.stamp())
    kept.is_built(crate)
    return "taken"


def main():
    rt = loaded()
    rt.Crate.allowed = rt.handles_of(TOP)
    rt.rtlib.Crate = rt.Crate
    for name in ("stamp", "below"):
        once(rt.Crate, name)
    crates = sorted(rt.rtlib.crates_below(TOP), key=lambda it: len(it.below()))
    # `rt` drops what it cannot give whole. Here that may be for want of room, or because a check in this checkout clears out/ meanwhile.
    rt.Kept.drop = lambda kept, path: None
    kept = rt.Kept(crates)
    said = {"taken": [], "there": [], "not kept": []}
    for crate in crates:
        if not crate.is_program:
            said[take(rt, kept, crate)].append(crate.name)
    for word, names in said.items():
        print(f"take: {word}: {' '.join(names) or 'none'}")


main()
