#!/usr/bin/env python3
"""How many draws and repeats a second a broker's program answers over loopback, with many accounts in its book, and how long
the book takes to open. Before each draw on one connection a plain loop writes and syncs an entry of the same size in a file
beside the book. The arguments are the accounts and how many draws there are of each kind."""
import random
import sys
import tempfile
from pathlib import Path

sys.path.insert(0, str(Path(__file__).resolve().parents[1] / "lib"))

from asking import measured  # noqa: E402
from bank import Bank  # noqa: E402
from timing import timed  # noqa: E402


def main():
    accounts = int(sys.argv[1]) if len(sys.argv) > 1 else 100_000
    count = int(sys.argv[2]) if len(sys.argv) > 2 else 2_000
    with tempfile.TemporaryDirectory(prefix="millicent-") as folder:
        bank = Bank(folder, 86_400)
        try:
            bank.write(accounts, 10**6)
            names = list(bank.keys)
            print("%d accounts; a balance is told in %.2f s" % (accounts, timed(lambda: bank.balance(names[-1]))), flush=True)
            measured(bank, folder, lambda: bank.draw(random.choice(names), random.randint(1, 300))[1], count, "draws")
        finally:
            bank.end()


if __name__ == "__main__":
    main()
