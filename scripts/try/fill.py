#!/usr/bin/env python3
"""Fills an account up to the most that it may hold: writes a broker's book with 1,048,575 deposits of the greatest amount by the
second program, has the program deposit once more and take out, and looks at what it says at the bound."""
import os
import subprocess
import sys
import tempfile
import time
from pathlib import Path

sys.path.insert(0, str(Path(__file__).resolve().parents[1] / "lib"))

import millicent  # noqa: E402
from bank import FEE, NAME, Bank  # noqa: E402
from serving import PROGRAM, secret  # noqa: E402

GREATEST, MOST = 2**40, 2**60
COUNT = MOST // GREATEST - 1


def entries(bank, key):
    now = int(time.time())
    yield millicent.site_entry(now, NAME, bank.own, bank.keep, True, FEE)
    yield millicent.account_entry(now, b"ann", key)
    for number in range(COUNT):
        yield millicent.deposit_entry(now, b"ann", GREATEST, b"r%d" % number)


def said(bank, command, amount, reference):
    words = [PROGRAM, "broker", command, bank.book, "ann", str(amount), reference]
    return subprocess.run(words, stdout=subprocess.PIPE).stdout.decode().strip()


def main():
    with tempfile.TemporaryDirectory(prefix="millicent-") as folder:
        bank, start = Bank(folder), time.perf_counter()
        with open(bank.book, "wb") as f:
            millicent.write_book(f, entries(bank, secret()))
        print("a book of %.0f MB, written in %.1f s" % (os.path.getsize(bank.book) / 1e6, time.perf_counter() - start), flush=True)
        wrong = 0
        for command, amount, reference, line in (
                ("deposit", GREATEST, "r0", "balance ann %d" % (MOST - GREATEST)),
                ("deposit", GREATEST, "last", "balance ann %d" % MOST),
                ("deposit", 1, "more", "refused 45 AccountFull %d" % MOST),
                ("withdraw", 1, "out", "balance ann %d" % (MOST - 1)),
                ("deposit", 2, "two", "refused 45 AccountFull %d" % (MOST - 1)),
                ("deposit", 1, "one", "balance ann %d" % MOST)):
            start, line_said = time.perf_counter(), said(bank, command, amount, reference)
            wrong += line_said != line
            print("%s %d: %s, in %.1f s" % (command, amount, line_said, time.perf_counter() - start), flush=True)
        print("%d lines are wrong" % wrong)
        return wrong > 0


if __name__ == "__main__":
    raise SystemExit(main())
