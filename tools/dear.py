#!/usr/bin/env python3
"""Says which functions of a crate are dear to prove: the processor seconds of each, in a check from nothing by one process.

usage: tools/dear.py CRATE [WORD]    with a WORD only the functions whose names end so or lie below it, and those that they call

The libraries below the crate are those in their out/ folders (`rt lib` makes them); nothing kept of the crate is used, and
nothing is written. A line stands for what was checked since the line before: a function, with all that it is the first
to load or to cite, of the crate, its libraries and std; this is often most of the line. So two forms of a function are
compared by the last lines of two runs with its name. On a loaded machine all seconds are longer, by up to two times.
"""
import os
import re
import shutil
import subprocess
import sys

TOP = os.path.dirname(os.path.dirname(os.path.abspath(__file__)))
KIT = os.path.dirname(os.path.realpath(shutil.which("rt") or sys.exit("dear.py: rt is not on the PATH")))
TICKS = os.sysconf("SC_CLK_TCK")
sys.path.insert(0, KIT)
sys.dont_write_bytecode = True
import rtlib  # noqa: E402


def seconds(number):
    """The processor time, user and system, of a process and of its children that have ended."""
    with open(f"/proc/{number}/stat", encoding="utf-8") as file:
        fields = file.read().rpartition(")")[2].split()
    return sum(int(it) for it in fields[11:15]) / TICKS


def crate_of(name):
    for crate in rtlib.crates_below(TOP):
        if crate.name == name:
            return crate
    sys.exit(f"dear.py: crates.txt has no crate {name}")


def checked(crate, word):
    """Runs the check, and yields its lines, each with the processor time up to it."""
    flags = ["--jobs", "1"] + (["--only", word] if word else [])
    words = [f"{KIT}/rattle", "check", *crate.words(flags, keeps=False), "--progress"]
    with subprocess.Popen(words, cwd=crate.folder, stdout=subprocess.PIPE, stderr=subprocess.STDOUT, text=True) as run:
        for line in run.stdout:
            yield seconds(run.pid), line.rstrip()


def main(name, word=None):
    rows, before, now, last = [], 0.0, 0.0, ""
    for now, last in checked(crate_of(name), word):
        found = re.match(r"checked (\S+), \d+ of \d+", last)
        if found:
            rows.append((now - before, found[1]))
            before = now
    for cost, function in sorted(rows, reverse=True):
        print(f"{cost:8.1f}  {function}")
    print(f"{now:8.1f}  in all; {last[:60]}")


if __name__ == "__main__":
    if len(sys.argv) not in (2, 3):
        sys.exit(__doc__)
    main(*sys.argv[1:])
