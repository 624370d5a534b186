#!/usr/bin/env python3
"""Names the lemmas that no file cites, crate by crate, by the files that git tracks.

usage: tools/uncited.py [NAME..]      all crates, or some

It reads words alone and takes a few seconds: a lemma counts as cited where its name stands at any other place than at the head
of its own lines. So it misses one whose name another lemma has too. What is named here is a place to look, and rows that the
checker computes are no lemmas: take one away, and check the crate whole.
"""
import collections
import os
import re
import subprocess
import sys

TOP = os.path.dirname(os.path.dirname(os.path.abspath(__file__)))
WORD = re.compile(r"[^\s(){}\[\],;.:|]+")
HEAD = re.compile(r"( *)(?:pub )?(?:abbrev )?(?:pub )?(?:unfoldable )?([^\s:(){}|=,]+) (: )?")
NO_NAMES = {"use", "where", "module"}
NO_LEMMAS = ("Answers.antt", "Invariants.antt", "Lib.antt")


def tracked():
    """The files of the crates, each from the top."""
    listed = subprocess.run(["git", "ls-files", "crates"], cwd=TOP, capture_output=True, text=True, check=True)
    return [it for it in listed.stdout.split() if it.endswith((".antt", ".rt"))]


def lines_of(path):
    """The lines of a file that are no comments."""
    with open(f"{TOP}/{path}", encoding="utf-8") as file:
        return [it for it in file if not it.lstrip().startswith(("--", "//"))]


def read():
    """How often each word stands in the crates, how often each lemma is at the head of a line of its own, and all lemmas."""
    words, heads, lemmas = collections.Counter(), collections.Counter(), []
    for path in tracked():
        of_lemmas = "/proofs/" in path and not path.endswith(NO_LEMMAS)
        for line in lines_of(path):
            words.update(WORD.findall(line))
            head = HEAD.match(line) if of_lemmas else None
            if head:
                key = (path, head[1], head[2])
                heads[key] += 1
                if head[3] and head[2] not in NO_NAMES:
                    lemmas.append(key)
    return words, heads, lemmas


def main(names):
    words, heads, lemmas = read()
    found = [it for it in lemmas if words[it[2]] == heads[it] and (not names or it[0].split("/")[1] in names)]
    by_file = collections.defaultdict(list)
    for path, _indent, name in found:
        by_file[path].append(name)
    for path in sorted(by_file):
        print(f"{path}: {' '.join(by_file[path])}")
    print(f"uncited: {len(found)} in {len({it.split('/')[1] for it in by_file})} crates")


main(sys.argv[1:])
