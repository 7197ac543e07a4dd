#!/usr/bin/env python3
"""How many pieces out of stock a broker's program sells a second over loopback, with many pieces in stock of four values, how
long its book takes to open and how much memory it needs. The arguments are the pieces, and how many sales there are of each
kind."""
import random
import sys
import tempfile
import time
from pathlib import Path

sys.path.insert(0, str(Path(__file__).resolve().parents[1] / "lib"))

import millicent  # noqa: E402
from asking import measured  # noqa: E402
from bank import FEE, NAME, Bank  # noqa: E402
from serving import secret  # noqa: E402

VENDOR, VALUES, MOST = b"shop.example", (50, 60, 70, 80), 256


def stock(pieces):
    """The lists of pieces of the entries of stock, minted by the vendor just now."""
    terms = millicent.Terms(0, 4096, 8192, (secret(),), (secret(),))
    epoch = terms.epoch(int(time.time()))
    for first in range(0, pieces, MOST):
        serials = range(first, min(first + MOST, pieces))
        yield VENDOR, [(millicent.scrip(terms, VENDOR, VALUES[s % len(VALUES)], millicent.id_of(0, epoch, s)),
                        terms.secret(millicent.id_of(0, epoch, s))) for s in serials]


def main():
    pieces = int(sys.argv[1]) if len(sys.argv) > 1 else 1_000_000
    count = int(sys.argv[2]) if len(sys.argv) > 2 else 2_000
    with tempfile.TemporaryDirectory(prefix="millicent-") as folder:
        bank = Bank(folder, 86_400)
        try:
            bank.write(1, 10**6, stock(pieces))
            print("%d pieces of stock in %d entries" % (pieces, -(-pieces // MOST)), flush=True)

            def sale():
                value = random.choice(VALUES)
                return millicent.request(bank.fresh(value + FEE + 9), b"/buy/%s/%d" % (VENDOR, value), None, NAME)
            measured(bank, folder, sale, count, "sales")
        finally:
            bank.end()


if __name__ == "__main__":
    main()
