#!/usr/bin/env python3
"""How long a shop is away for a change: it is ended, `vendor price` is given, and it is started again, up to the first reply. The arguments
are how many payments its book has (10,000 and 1,000,000), which are written and not made. The worst of five is told, and what one more
price in the same stop adds. A book of 10,000,000 payments has 1.5 GB: TMPDIR says where it goes."""
import sys
from pathlib import Path

sys.path.insert(0, str(Path(__file__).resolve().parents[1] / "lib"))

from long_book import LongShop  # noqa: E402
from paying import fresh, took  # noqa: E402
from shop import PRICE, TARGET, Link  # noqa: E402
from timing import timed  # noqa: E402

STOPS = 5
# How many seconds a request waits for its reply while the book is opened.
PATIENCE = 600


def change(shop):
    shop.command("price", TARGET.decode(), str(PRICE))


def away(shop):
    """The seconds of a stop with one price."""
    request = fresh(shop, 1)[0]

    def stop():
        shop.kill()
        change(shop)
        shop.start()
        with Link(shop.address, PATIENCE) as link:
            took(link.ask(request))
    return timed(stop)


def main():
    for count in [int(word) for word in sys.argv[1:]] or [10_000, 1_000_000]:
        with LongShop(count) as shop:
            shop.start()
            worst = max(away(shop) for _ in range(STOPS))
            shop.kill()
            more = timed(lambda: change(shop))
            print("%d payments: away for %.2f s; each more price %.2f s" % (count, worst, more), flush=True)


if __name__ == "__main__":
    main()
