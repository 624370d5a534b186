#!/usr/bin/env python3
"""Proves crates as `rt ci` does, and keeps what it has proved: for a kit whose `rt ci` keeps nothing (`rattle-kit-13b`).

usage: tools/kept.py [--proofs] NAME..    these crates and those below them; without a NAME all
       --proofs    proofs alone, no tests and no must-fail edits

A crate is proved from nothing, over the statements of the libraries below it. What is proved is kept in the crate's out/ by the sum of all
that it was proved from, so a later run goes on where this one ended, and `rt check` in a crate above takes the libraries. It is
not the gate, which believes nothing in out/. Best run it in a clone of its own, since nothing may change while it runs.
"""
import hashlib
import importlib.machinery
import importlib.util
import os
import shutil
import sys

KIT = os.path.dirname(os.path.realpath(shutil.which("rt") or sys.exit("kept.py: rt is not on the PATH")))
sys.dont_write_bytecode = True


def load():
    """The kit's rt, as a module."""
    loader = importlib.machinery.SourceFileLoader("rt", f"{KIT}/rt")
    made = importlib.util.module_from_spec(importlib.util.spec_from_loader("rt", loader))
    sys.modules["rt"] = made
    loader.exec_module(made)
    return made


rt = load()
rtlib = rt.rtlib
SUMS, BELOW = {}, {}
plain = {"stamp": rtlib.Crate.stamp, "below": rtlib.Crate.below, "ci": rt.Crate.ci, "edits": rt.must_fail_all}


def stamp(crate):
    """The sum of all that a crate is made from, reckoned once for each crate and not for each path to it."""
    if crate.folder not in SUMS:
        SUMS[crate.folder] = plain["stamp"](crate)
    return SUMS[crate.folder]


def below(crate):
    if crate.folder not in BELOW:
        BELOW[crate.folder] = plain["below"](crate)
    return [*BELOW[crate.folder]]


def is_kept(mark, made, key):
    return os.path.exists(made) and rtlib.text_of(mark) == key


def keep(mark, key):
    with open(mark, "w", encoding="utf-8") as file:
        file.write(key)


def prove(crate, flags, tests):
    key, out = stamp(crate), f"{crate.folder}/out"
    mark = f"{out}/kept-{'tests' if tests else 'proof'}"
    made = f"{out}/{crate.name}{'_tests' if tests else ''}" if tests or crate.is_program else crate.rlib
    if is_kept(mark, made, key):
        print("kept", file=crate.out)
        return 0
    status = plain["ci"](crate, flags, tests)
    if status == 0:
        keep(mark, key)
        if not tests and crate.makes_rlib():
            keep(f"{out}/rlib/stamp", key)
    return status


def try_edits(crate, edits, flags):
    key = hashlib.sha256(stamp(crate).encode() + b"".join(open(it, "rb").read() for it in edits)).hexdigest()
    mark = f"{crate.folder}/out/kept-edits"
    if is_kept(mark, crate.folder, key):
        return [(True, f"must-fail {crate.name}/{os.path.basename(it)}: kept") for it in edits]
    tried = plain["edits"](crate, edits, flags)
    if edits and all(well for well, _ in tried):
        keep(mark, key)
    return tried


def main(words):
    proofs, names = "--proofs" in words, {it for it in words if not it.startswith("--")}

    def crates_of(root, aside):
        rtlib.Crate = rt.Crate
        crates = rtlib.crates_below(root)
        wanted = {x.name for it in crates if it.name in names for x in [it, *it.below()]}
        return sorted([it for it in crates if not names or it.name in wanted], key=lambda it: len(it.below()))

    rtlib.Crate.stamp, rtlib.Crate.below, rt.Crate.ci = stamp, below, prove
    rt.crates_of, rt.must_fail_all = crates_of, try_edits
    if proofs:
        rt.Crate.has_tests = lambda crate: False
        rt.must_fail_all = lambda crate, edits, flags: [(True, "not tried") for _ in edits]
        rt.run = lambda *_: True
    # (it would stop at the files of crates that this run leaves out)
    rtlib.stop_on_unread = lambda *_: None
    return rt.ci_from_nothing(None)


sys.exit(main(sys.argv[1:]))
