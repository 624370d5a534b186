#!/usr/bin/env python3
"""Tries wrong bodies: each file crates/NAME/edits/*.edit must be refused by the prover, at the function that it names.

usage: tools/edits.py [--as-built] [--jobs N] [NAME..]    all of them, or those of some crates, N side by side (as many as processors)

An edit is as those in must-fail/: a line `file: PATH`, then pairs of lines `old: TEXT` and `new: TEXT`, each old text once in
that file. Its first line is `function: PATH`, a function of the crate as a check names it. Only that function is checked, and
what it calls, on a copy of the crate; an edit in must-fail/ has the whole crate checked. So dear crates have theirs here.

The libraries below the crate are those in their out/ folders, where `rt ci` leaves them. One that is not there is built first;
with --as-built the crate's edits are skipped, and a line says so. Ends with 1 where an edit is not refused, or cannot be tried.
"""
import concurrent.futures
import glob
import os
import re
import shutil
import subprocess
import sys
import tempfile

TOP = os.path.dirname(os.path.dirname(os.path.abspath(__file__)))
KIT = os.path.dirname(os.path.realpath(shutil.which("rt") or sys.exit("edits.py: rt is not on the PATH")))
sys.path.insert(0, KIT)
sys.dont_write_bytecode = True
import rtlib  # noqa: E402


class BadEdit(Exception):
    """The edit cannot be tried."""


def read(path):
    try:
        with open(path, encoding="utf-8") as file:
            return file.read()
    except OSError:
        raise BadEdit(f"there is no file {path}") from None


def parts_of(edit):
    """The function that is to be refused, and the changes: file, old text, new text."""
    function, path, old, changes = "", "", "", []
    for line in read(edit).splitlines():
        word, _, text = line.partition(":")
        text = text[1:]
        if word == "function":
            function = text.strip()
        elif word == "file":
            path = text.strip()
        elif word == "old":
            old = text
        elif word == "new":
            changes.append((path, old, text))
    if not function or not changes:
        raise BadEdit("it names no function, or changes nothing")
    return function, changes


def change(folder, changes):
    for path, old, new in changes:
        text = read(f"{folder}/{path}")
        if not old or text.count(old) != 1:
            raise BadEdit(f"its old text is {text.count(old)} times in {path}, and not once")
        with open(f"{folder}/{path}", "w", encoding="utf-8") as file:
            file.write(text.replace(old, new))


def judged(function, status, said):
    """Whether the prover refused the function, with what it said of it."""
    last = said[-1] if said else ""
    if status == 0:
        return False, "NOT REFUSED: the function is still proved"
    refused = [it for it in said if re.match(rf"fn \S*{re.escape(function)}: (not proved|no proof)", it)]
    if status != 1 or not re.match(r"only=\d+ proved=\d+", last) or not refused:
        return False, f"BAD EDIT: the prover has not refused {function}: {last[:200]}"
    return True, "refused, as it must be"


def tried(crate, edit):
    try:
        function, changes = parts_of(edit)
        with tempfile.TemporaryDirectory(prefix="rt-edit-") as room:
            for part in rtlib.PARTS:
                if os.path.isdir(f"{crate.folder}/{part}"):
                    shutil.copytree(f"{crate.folder}/{part}", f"{room}/{part}")
            change(room, changes)
            words = [rtlib.RATTLE, "check", *crate.words(["--jobs", "1"], keeps=False), "--only", function]
            run = subprocess.run(words, cwd=room, capture_output=True, text=True, errors="replace", check=False)
        well, why = judged(function, run.returncode, (run.stdout + run.stderr).splitlines())
    except BadEdit as error:
        well, why = False, f"BAD EDIT: {error}"
    return well, f"{crate.name}/{os.path.basename(edit)}: {why}"


def edits_of(crate):
    return sorted(glob.glob(f"{crate.folder}/edits/*.edit"))


def is_ready(crate, as_built):
    """Whether the libraries below the crate are there."""
    lacking = [it for it in crate.below() if not os.path.isdir(it.rlib)]
    if as_built and lacking:
        print(f"edits: those of {crate.name} are skipped: the library {lacking[0].name} is not in its out/", flush=True)
        return False
    return not any(it.build_rlib(["--jobs", "1"], anew=False) for it in lacking)


def main(words):
    as_built = words[:1] == ["--as-built"]
    words = words[as_built:]
    jobs = os.cpu_count() or 1
    if words[:1] == ["--jobs"]:
        jobs, words = int(words[1]), words[2:]
    crates = [it for it in rtlib.crates_below(TOP) if (not words or it.name in words) and edits_of(it)]
    tasks = [(crate, edit) for crate in crates if is_ready(crate, as_built) for edit in edits_of(crate)]
    failed = 0
    with concurrent.futures.ThreadPoolExecutor(jobs) as pool:
        for well, line in pool.map(lambda it: tried(*it), tasks):
            failed += not well
            print(f"edits: {line}", flush=True)
    print(f"edits: {len(tasks) - failed} of {len(tasks)} refused")
    return 1 if failed else 0


sys.exit(main(sys.argv[1:]))
