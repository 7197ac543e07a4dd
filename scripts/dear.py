#!/usr/bin/env python3
"""Tells which functions of a crate are the dearest to prove.

    scripts/dear.py NAME [MOST]    checks the crate over the libraries that ./millicent keeps; the seconds of as many functions,
                                   20 where MOST is not given, the dearest first

A check that keeps its work writes a file for each step as it ends: what lies between their times is what the steps took, so
let nothing else run. What a function owns it lets go at each exit, in steps of its own. One that owns a house, a book or the words of a
command and leaves at many places is cut in two: an outer one that owns, with one exit, and an inner one that borrows."""
import collections
import pathlib
import re
import subprocess
import sys
import tempfile

import build

# What the files of a function's steps are named behind it.
KINDS = ("Answers Carried Code Given Goals Instances Invariants Kinds Layout Lts Met Mir Named Proof Reads Statement Symbol TheLink TheLinks "
         "Tie View decls").split()
STEP = rf"(\.({'|'.join(KINDS)})\b.*)"


def checked(crates, name, folder):
    """Checks a crate into a folder, one job at a time; what it said, and whether it ended well."""
    words = ["check", *crates.words(name, 1)[1:], "--incremental", folder]
    tool = subprocess.run([f"{crates.kit}/bin/rattle", *words], cwd=build.ROOT / "crates" / name, stdin=subprocess.DEVNULL,
                          stdout=subprocess.PIPE, stderr=subprocess.STDOUT, text=True, errors="replace")
    return tool.stdout, tool.returncode == 0


def owner(name, step):
    """The function that a step belongs to, by the name of its file; what belongs to none is the crate's."""
    module = re.fullmatch(rf"Rattle-{name}-proofs\.(.+?){STEP}", step)
    return module[1] if module else name


def spent(name, folder):
    """The seconds between the steps, by function."""
    steps = sorted((file.stat().st_mtime, file.stem) for file in pathlib.Path(folder).rglob("*.oantt"))
    seconds = collections.Counter()
    for (before, _), (after, step) in zip(steps, steps[1:]):
        seconds[owner(name, step)] += after - before
    return seconds


def main(words):
    crates = build.Crates(build.kit())
    if not 1 <= len(words) <= 2 or words[0] not in crates.uses or not all(it.isdigit() for it in words[1:]):
        print(__doc__, file=sys.stderr)
        return 2
    name, most = words[0], int(words[1]) if words[1:] else 20
    lacking = [it for it in crates.below(name) if not crates.library(it).exists()]
    if lacking:
        print(f"dear.py: not kept by ./millicent: {' '.join(lacking)}", file=sys.stderr)
        return 1
    with tempfile.TemporaryDirectory(prefix="dear-") as folder:
        said, well = checked(crates, name, folder)
        seconds = spent(name, folder)
    for it, took in seconds.most_common(most):
        print(f"{took:7.1f} {it}")
    if not well:
        print("\n".join(said.splitlines()[-20:]), file=sys.stderr)
    return 0 if well else 1


if __name__ == "__main__":
    sys.exit(main(sys.argv[1:]))
