#!/usr/bin/env python3
"""Whether replies that are let go give their memory back. Three rounds of payments with the shortest wait between
them in which the replies of one round are past their keeping time; the argument is how many payments a round has.
After each round: payments a second and the program's memory, which stays after the second as it was after it."""
import sys
import time
from pathlib import Path

sys.path.insert(0, str(Path(__file__).resolve().parents[1] / "lib"))

from paying import pay  # noqa: E402
from shop import Shop  # noqa: E402
from timing import used  # noqa: E402

KEEP = 60
ROUNDS = 3


def main():
    count = int(sys.argv[1]) if len(sys.argv) > 1 else 300_000
    with Shop(keep=KEEP) as shop:
        shop.start()
        for turn in range(1, ROUNDS + 1):
            if turn > 1:
                time.sleep(KEEP + 2)
            seconds = pay(shop, count)
            print("round %d: %6.0f a second, %5.0f MB" % (turn, count / seconds, used(shop.server)[1]), flush=True)


if __name__ == "__main__":
    main()
