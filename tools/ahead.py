#!/usr/bin/env python3
"""Checks functions of a crate whose libraries are not all proved yet: those that are not built in out/ are read as source.

usage: tools/ahead.py NAME --only FUNCTION.. [rattle's flags]     as tools/ahead.py edi_statuses --only one_end --allow-holes

`rt check` goes no higher than an unproved crate; this does. Nothing of the libraries is proved by it, so it says how a proof
stands and is no verdict. It takes one to five minutes of processor time, and up to 7 GB where all is read as source: name several
functions in one call, and run tools/take.py first. `--only ''` reads the sources alone. What it checked is kept in out/ahead.
A file may cite `Rattle.core` here, which `rt check` refuses.
"""
import os
import shutil
import subprocess
import sys

TOP = os.path.dirname(os.path.dirname(os.path.abspath(__file__)))
KIT = os.path.dirname(os.path.realpath(shutil.which("rt") or sys.exit("ahead.py: rt is not on the PATH")))
sys.path.insert(0, KIT)
sys.dont_write_bytecode = True
import rtlib  # noqa: E402


def is_whole(crate):
    """Whether the library and all below it are built from these files."""
    return all(it.is_built() for it in [*crate.below(), crate])


def words_of(crate, built, flags):
    """The words of a check with these libraries as they are built, and the others as source."""
    words = iter(crate.words(["--jobs", "1", *flags], as_source=True))
    for word in words:
        following = next(words) if word == "--lib" else ""
        library = built.get(following.partition(":")[0])
        if library:
            yield from ("--extern", f"{library.name}={library.rlib}", "-L", f"dependency={os.path.dirname(library.rlib)}")
        elif following:
            yield from (word, following)
        else:
            yield word


def main(name, *flags):
    crate = next((it for it in rtlib.crates_below(TOP) if it.name == name), None) or sys.exit(f"ahead.py: no crate {name}")
    built = {it.name: it for it in crate.below() if is_whole(it)}
    print("ahead: as source:", *[it.name for it in crate.below() if it.name not in built], flush=True)
    kept = f"{crate.folder}/out/ahead"
    os.makedirs(kept, exist_ok=True)
    words = [rtlib.RATTLE, "check", *words_of(crate, built, flags), "--incremental", kept]
    return subprocess.run(words, cwd=crate.folder, check=False).returncode


sys.exit(main(*sys.argv[1:]) if len(sys.argv) > 2 else __doc__)
