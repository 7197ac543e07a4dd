#!/usr/bin/env python3
"""Says the held pieces of a wallet's book as lines for `wallet take`, so that a new wallet can pay with them.

    python3 scripts/pieces.py BOOK [SITE] [--pending] [--dead]

With SITE those of that site alone; with `--pending`, behind them, those of requests that are not settled; with `--dead` those that a site took for
ended before their end, since its clock was ahead. What has ended by the machine's clock is left out, and standard error says how many there are
of each. The lines are money: write them where nobody else reads them, and pay out of the new wallet alone from then on. A piece that both pay with is
refused to the second with 27, and its change is in the first. A pending piece may be paid with already: `wallet retry` of the old book comes first."""
import argparse
import sys
import time
from pathlib import Path

sys.path.insert(0, str(Path(__file__).resolve().parent / "lib"))

import millicent  # noqa: E402
from forms import piece_line  # noqa: E402
from millicent import WalletBook, read_scrip  # noqa: E402


def main():
    words = argparse.ArgumentParser(usage="pieces.py BOOK [SITE] [--pending] [--dead]")
    words.add_argument("book")
    words.add_argument("site", nargs="?")
    for state in ("pending", "dead"):
        words.add_argument("--" + state, dest="states", action="append_const", const=state, default=["held"])
    given = words.parse_intermixed_args()
    book = WalletBook(millicent.read_book(given.book))
    if not book.is_wallet:
        millicent.leave(3, given.book + ": not a wallet's book")
    now, ended = time.time(), 0
    for wanted in given.states:
        said = 0
        for state, text, secret in book.holdings():
            piece = read_scrip(text)
            if state != wanted or given.site not in (None, piece.vendor.decode()):
                continue
            if piece.expires <= now:
                ended += 1
                continue
            sys.stdout.buffer.write(piece_line(text, secret))
            said += 1
        print("%s: %d" % (wanted, said), file=sys.stderr)
    print("ended, and left out: %d" % ended, file=sys.stderr)


if __name__ == "__main__":
    main()
