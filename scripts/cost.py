#!/usr/bin/env python3
"""Runs the gate and measures what each crate costs, in processor seconds; writes docs/COSTS.md.

    scripts/cost.py            runs rt ci from nothing, and writes the table
    scripts/cost.py rt ci x    runs another command, and prints the table alone

Measure on a machine that does nothing else. The checks of a crate are told apart by where they run: its library (or
program), its tests, and its edits, which the gate tries in folders of their own. A check that is shorter than half a
second may be missed."""
import collections
import os
import pathlib
import subprocess
import sys
import time

ROOT = pathlib.Path(__file__).resolve().parent.parent
TICKS = os.sysconf("SC_CLK_TCK")
KINDS = ("library", "tests", "edits")


def stat(pid):
    """The fields of a process's line behind its name."""
    return pathlib.Path(f"/proc/{pid}/stat").read_text().rsplit(")", 1)[1].split()


def is_below(pid, top):
    """Whether a process is the other one's, or of one that it started."""
    while pid > 1:
        if pid == top:
            return True
        pid = int(stat(pid)[1])
    return False


def kind_of(words, folder):
    """What a check is for."""
    if "/crates/" not in folder:
        return "edits"
    return "tests" if b"--test" in words else "library"


def look(seen, top):
    """Notes how much processor time each check below the run has had."""
    for entry in os.listdir("/proc"):
        if not entry.isdigit():
            continue
        try:
            words = pathlib.Path(f"/proc/{entry}/cmdline").read_bytes().split(b"\0")
            if not words[0].endswith(b"/rattle") or b"--crate-name" not in words:
                continue
            fields = stat(entry)
            key = (entry, fields[19])
            if key not in seen and not is_below(int(entry), top):
                continue
            name = words[words.index(b"--crate-name") + 1].decode()
            kind = kind_of(words, os.readlink(f"/proc/{entry}/cwd"))
            seconds = (int(fields[11]) + int(fields[12])) / TICKS
            memory = int(fields[21]) * os.sysconf("SC_PAGE_SIZE") >> 20
            seen[key] = (name, kind, seconds, max(memory, seen.get(key, (0, 0, 0, 0))[3]))
        except (OSError, IndexError, ValueError):
            pass


def measured(command):
    """Runs the command. Its status, what was seen, and how long it took."""
    seen, start = {}, time.time()
    run = subprocess.Popen(command, cwd=ROOT)
    while run.poll() is None:
        look(seen, run.pid)
        time.sleep(0.5)
    return run.returncode, seen, time.time() - start


def gate():
    """The gate from nothing: a toolchain that keeps what earlier runs proved has a flag for it."""
    said = subprocess.run(["rt", "help"], stdout=subprocess.PIPE, stderr=subprocess.STDOUT, text=True).stdout
    return ["rt", "ci", "--anew"] if "--anew" in said else ["rt", "ci"]


def rows(seen):
    """The seconds of each crate by kind, and its greatest memory, the dearest crate first."""
    seconds = collections.defaultdict(lambda: collections.defaultdict(float))
    memory = collections.defaultdict(int)
    for name, kind, spent, most in seen.values():
        seconds[name][kind] += spent
        memory[name] = max(memory[name], most)
    names = sorted(seconds, key=lambda name: -sum(seconds[name].values()))
    return [(name, *(seconds[name][kind] for kind in KINDS), memory[name]) for name in names]


def chain(table):
    """The longest chain of crates that wait for one another, and its seconds."""
    library = {row[0]: row[1] for row in table}
    ends = {}
    for line in (ROOT / "crates.txt").read_text().splitlines():
        name, _, below = line.partition("#")[0].partition(":")
        if name.strip():
            before = max((ends[it] for it in below.split() if it in ends), default=(0, []))
            ends[name.strip()] = (before[0] + library.get(name.strip(), 0), before[1] + [name.strip()])
    return max(ends.values())


def text(table, seen, wall):
    """The page."""
    version = subprocess.run(["rt", "version"], capture_output=True, text=True).stdout.strip()
    total = sum(row[1] + row[2] + row[3] for row in table) / 60
    seconds, names = chain(table)
    lines = [
        "# What the gate costs",
        "",
        "Written by `scripts/cost.py`, which ran `rt ci` from nothing and looked at its checks; not by hand. Processor seconds,",
        "but for memory, which is the most of one check in MB.",
        "",
        "| Crate | Library | Tests | Edits | Sum | MB |",
        "|---|---|---|---|---|---|",
    ]
    for name, library, tests, edits, memory in table:
        lines.append(f"| `{name}` | {library:.0f} | {tests:.0f} | {edits:.0f} | {library + tests + edits:.0f} | {memory} |")
    of = [sum(row[i] for row in table) / 60 for i in (1, 2, 3)]
    lines += [
        f"| all, minutes | {of[0]:.0f} | {of[1]:.0f} | {of[2]:.0f} | {total:.0f} | |",
        "",
        f"The longest chain takes {seconds / 60:.0f} minutes:",
        f"{', '.join(names)}.",
        f"The run took {wall / 60:.0f} minutes on {os.cpu_count()} processors, with {version}.",
        "",
    ]
    return "\n".join(lines)


def main():
    command = sys.argv[1:] or gate()
    status, seen, wall = measured(command)
    table = rows(seen)
    page = text(table, seen, wall)
    if sys.argv[1:]:
        print(page, file=sys.stderr)
    elif status == 0:
        (ROOT / "docs" / "COSTS.md").write_text(page)
    return status


if __name__ == "__main__":
    sys.exit(main())
