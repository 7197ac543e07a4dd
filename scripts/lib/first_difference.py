"""The first case of which the program `cases` prints something else than is wanted: its file, its line and its text.

With no files it is the program that the gate built, over all cases, beside crates/cases/stdout. With files, or names of files in
crates/cases/data, it is compiled without a proof and run over those alone, beside what the second program prints of them."""
import subprocess
import sys
from itertools import zip_longest
from pathlib import Path

TOP = Path(__file__).resolve().parents[2]
CASES = TOP / "crates/cases"
NAMES = "names.cases"
# How much is shown of a long line, before the column where it differs and behind it.
BEFORE, BEHIND = 80, 120


def built(files):
    """What the built program prints of these files, and how it ended."""
    program = CASES / "out/cases"
    if not program.exists():
        sys.exit("scripts/cases: crates/cases/out/cases is not built: rt ci builds it. With names of files, as rows.cases, "
                 "it is compiled without a proof.")
    ran = subprocess.run([program, *files], cwd=CASES / "data", stdin=subprocess.DEVNULL, stdout=subprocess.PIPE)
    return ran.stdout, "ended with status %d" % ran.returncode


def tried(files):
    """The same of the program as rt compiles it without a proof."""
    data = [word for file in files for word in ("--data", "%s=data/%s" % (file, file))]
    how = {"stdin": subprocess.DEVNULL, "stdout": subprocess.PIPE, "stderr": subprocess.PIPE}
    ran = subprocess.run(["rt", "try", "cases", *data, "--", *files], cwd=CASES, **how)
    told = ran.stderr.decode(errors="replace").strip().splitlines() or ["rt ended with status %d" % ran.returncode]
    return ran.stdout, "ended so: " + told[-1]


def cases_of(files):
    """Each case, in order: its file, the number of its line and the line."""
    for file in files:
        for number, line in enumerate((CASES / "data" / file).read_bytes().split(b"\n"), 1):
            if line.startswith(b"case "):
                yield file, number, line


def is_case(line):
    return line is not None and line.startswith(b"case ")


def differ_first(wanted, printed):
    """The number of the first line that differs, both lines, and which case it belongs to; None where there is none."""
    case = -1
    for number, (line, other) in enumerate(zip_longest(wanted, printed), 1):
        if line == other:
            case += is_case(line)
        else:
            return number, line, other, case + (is_case(line) and is_case(other))
    return None


def shown(line, column):
    """A line as text, of a long one what is about this column; nothing where there is no line."""
    if line is None:
        return "(nothing)"
    start, end = max(0, column - BEFORE), column + BEHIND
    parts = "..." if start else "", line[start:end].decode(errors="replace"), "..." if end < len(line) else ""
    return "".join(parts)


def column_of(line, other):
    """The first column in which two lines differ, from 0."""
    pairs = enumerate(zip_longest(line or b"", other or b""))
    return next(at for at, (byte, another) in pairs if byte != another)


def main(names):
    files = [Path(name).name for name in names]
    if files:
        files = [NAMES, *(it for it in files if it != NAMES)]
        printed, ended = tried(files)
        wanted = subprocess.run([sys.executable, TOP / "scripts/second", *files], cwd=CASES / "data", check=True,
                                stdout=subprocess.PIPE).stdout
    else:
        files = (CASES / "args").read_text().split()
        printed, ended = built(files)
        wanted = (CASES / "stdout").read_bytes()
    found = differ_first(wanted.splitlines(), printed.splitlines())
    if found is None:
        print("no case differs; the program %s" % ended)
        return 0
    number, line, other, case = found
    at = list(cases_of(files))[max(case, 0)]
    print("crates/cases/data/%s:%d: %s" % (at[0], at[1], at[2].decode(errors="replace")))
    column = column_of(line, other)
    print("line %d of what is printed, column %d; the program %s" % (number, column + 1, ended))
    print("  wanted:  %s\n  printed: %s" % (shown(line, column), shown(other, column)))
    return 1


if __name__ == "__main__":
    sys.exit(main(sys.argv[1:]))
