#!/usr/bin/env python3
"""Runs cases while each growth of memory is refused in turn, one a run: the worked examples of `crates/cases/data/rows.cases`, or the
files that the arguments name, each of which stands behind `names.cases` alone.

    scripts/try/refused.py [FILE..]

It takes the program `crates/cases/out/cases` as the gate builds it (CASES names another), and refuses as `scripts/lib/growths.py` does. Told
for each file: how many growths there are, in how many of the runs something else was printed (a stage that was refused memory tells it), and
each run that a signal ended or that hangs. The status is 1 where one does. As many runs at once as there are processors; it wants a C
compiler, `cc`."""
import concurrent.futures
import os
import subprocess
import sys
import tempfile
from pathlib import Path

sys.path.insert(0, str(Path(__file__).resolve().parents[1] / "lib"))

from growths import Run, build  # noqa: E402

CASES = Path(__file__).resolve().parents[2] / "crates/cases"
PROGRAM = os.environ.get("CASES", str(CASES / "out/cases"))


def run(library, file, growth):
    """One run over a file."""
    return Run(library, growth, [PROGRAM, "names.cases", file], cwd=CASES / "data", stdin=subprocess.DEVNULL).end()


def refused(library, file):
    """Refuses each growth of a file in turn; whether every run ended by itself."""
    status, whole, count = run(library, file, 0)
    if status != 0 or not count:
        sys.exit("scripts/try/refused.py: %s ends with status %s and %d growths where none is refused" % (file, status, count))
    others, wrong = 0, 0
    with concurrent.futures.ThreadPoolExecutor(os.cpu_count()) as workers:
        runs = workers.map(lambda growth: (growth, *run(library, file, growth)[:2]), range(1, count + 1))
        for growth, status, printed in runs:
            others += printed != whole
            if status is None or status < 0:
                wrong += 1
                print("%s: growth %d refused: %s" % (file, growth, "hangs" if status is None else "signal %d" % -status), flush=True)
    print("%s: %d growths refused in turn, %d runs print something else, %d are ended by a signal or hang" % (file, count, others, wrong), flush=True)
    return not wrong


def main(files):
    with tempfile.TemporaryDirectory(prefix="millicent-") as folder:
        library = build(folder)
        return 0 if all([refused(library, file) for file in files or ["rows.cases"]]) else 1


if __name__ == "__main__":
    sys.exit(main(sys.argv[1:]))
