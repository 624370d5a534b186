#!/usr/bin/env python3
"""Measures what the gate costs, crate by crate, and prints the table of docs/developer/GATE.md.

usage: tools/weigh.py                runs `rt ci --anew` once, from nothing
       tools/weigh.py NAME..         runs `rt ci NAME..`, which proves what it has not kept, and adds to what was measured
       tools/weigh.py --table FILE   the table of what earlier runs wrote to FILE

While the gate runs, the processor time (user and system) of each process of the prover is read off /proc four times a
second. A crate's processes are told apart by what they check: the crate itself, its tests, or a copy of it under a
wrong edit. Each that has ended is a line of out/weights.tsv: seconds, crate, part, run. Of a part that several runs did,
the last one counts. What a process does in the last quarter of a second before its end is missed; linking and running
the tests is not counted.
"""
import collections
import os
import subprocess
import sys
import time

TOP = os.path.dirname(os.path.dirname(os.path.abspath(__file__)))
TICKS = os.sysconf("SC_CLK_TCK")
PARTS = ("proof", "tests", "edits")
PROVERS = ("rattle", "antt-kernel")


def layers():
    """The lines of crates.txt: a heading, or a crate with the crates of the repository that it stands on."""
    lines = []
    for line in open(os.path.join(TOP, "crates.txt"), encoding="utf-8"):
        line = line.strip()
        if line.startswith("#"):
            lines.append((line.lstrip("# "), None))
        elif line:
            name, _, below = line.partition(":")
            lines.append((name.split()[0], below.split()))
    return lines


def read(path):
    with open(path, encoding="utf-8", errors="replace") as file:
        return file.read()


def part_of(words, folder):
    """What a process of the prover checks."""
    if "/rt-edit" in folder:
        return "edits"
    return "tests" if "--test" in words or any(it.endswith("_tests.o") for it in words) else "proof"


def provers(session):
    """The processes of the prover in that session: their number and start, their seconds, and what they check."""
    for number in filter(str.isdigit, os.listdir("/proc")):
        try:
            name, _, rest = read(f"/proc/{number}/stat").partition("(")[2].rpartition(")")
            fields = rest.split()
            if name not in PROVERS or int(fields[3]) != session:
                continue
            words = read(f"/proc/{number}/cmdline").split("\0")
            crate = words[words.index("--crate-name") + 1]
            part = part_of(words, os.readlink(f"/proc/{number}/cwd"))
            yield (number, fields[19]), (int(fields[11]) + int(fields[12])) / TICKS, (crate, part)
        except (OSError, ValueError):
            continue


def weigh(table, names):
    """Runs the gate and writes what each process of the prover has cost."""
    gate = subprocess.Popen(["rt", "ci", *(names or ["--anew"])], cwd=TOP, start_new_session=True)
    run = int(time.time())
    running = {}
    while True:
        is_over = gate.poll() is not None
        now = {key: (seconds, what) for key, seconds, what in provers(gate.pid)}
        for key in [it for it in running if it not in now]:
            seconds, (crate, part) = running.pop(key)
            table.write(f"{seconds:.1f}\t{crate}\t{part}\t{run}\n")
            table.flush()
        if is_over:
            return gate.returncode
        running.update(now)
        time.sleep(0.25)


def show(file):
    spent, last = collections.Counter(), {}
    for line in open(file, encoding="utf-8"):
        seconds, crate, part, run = line.rstrip("\n").split("\t")
        if last.get((crate, part)) != run:
            spent[crate, part], last[crate, part] = 0, run
        spent[crate, part] += float(seconds)
    print("| Crate | Proof | Tests | Edits |\n|---|---:|---:|---:|")
    for name, below in layers():
        if below is None:
            print(f"| *{name}* | | | |")
        else:
            print(f"| `{name}` | {' | '.join(f'{spent[name, part]:.0f}' if spent[name, part] else '' for part in PARTS)} |")
    sums = [sum(spent[name, part] for name, _ in layers()) for part in PARTS]
    print(f"| **all, seconds** | {' | '.join(f'**{it:.0f}**' for it in sums)} |")
    print(f"| **all, minutes** | {' | '.join(f'**{it / 60:.0f}**' for it in sums)} |")
    print(f"\n{sum(sums) / 60:.0f} minutes of processor time.")


def main():
    if sys.argv[1:2] == ["--table"]:
        show(sys.argv[2])
        return 0
    os.makedirs(os.path.join(TOP, "out"), exist_ok=True)
    file = os.path.join(TOP, "out", "weights.tsv")
    names = sys.argv[1:]
    with open(file, "a" if names else "w", encoding="utf-8") as table:
        status = weigh(table, names)
    show(file)
    return status


sys.exit(main())
