#!/usr/bin/env python3
"""How many payments and repeats a second a shop's program answers over loopback. Before each payment a plain
loop writes and syncs an entry of the same size in a file beside the book, so that both meet the same load of
the machine. The argument is how many payments there are of each kind. Rates of repeats are told with how many
replies are kept. Where many heads are sent in one write the client costs least, and the rate is the program's."""
import os
import sys
from pathlib import Path

sys.path.insert(0, str(Path(__file__).resolve().parents[1] / "lib"))

from paying import IN_ONE_WRITE, LINK_ITEMS, ask_all, entry_size, fresh, pay_alone, took  # noqa: E402
from shop import Link, Shop  # noqa: E402
from timing import Beside, Times  # noqa: E402


def in_one_write(shop, count, times):
    """Payments and then repeats on one connection, of which some are always under way."""
    requests = fresh(shop, count)
    for what in ("payments, 30 heads in one write", "repeats, 30 heads in one write"):
        for first in range(0, count, LINK_ITEMS):
            with Link(shop.address) as link:
                for at in range(first, min(first + LINK_ITEMS, count), IN_ONE_WRITE):
                    part = requests[at:min(at + IN_ONE_WRITE, first + LINK_ITEMS)]
                    times.take(what, lambda: ask_all(link, part), len(part))


def main():
    count = int(sys.argv[1]) if len(sys.argv) > 1 else 2000
    times = Times()
    with Shop() as shop:
        shop.start()
        size = entry_size(shop)
        beside = Beside(os.path.join(shop.folder.name, "beside"), size)
        requests = fresh(shop, count)
        for first in range(0, count, LINK_ITEMS):
            part = requests[first:first + LINK_ITEMS]
            with Link(shop.address) as link:
                for asked in part:
                    times.take("loop beside one connection", beside.add)
                    times.take("payments on one connection", lambda: took(link.ask(asked)))
            with Link(shop.address) as link:
                for asked in part:
                    times.take("repeats, %d replies kept" % (first + len(part)), lambda: took(link.ask(asked)))
        for asked in fresh(shop, count):
            times.take("loop beside a connection each", beside.add)
            times.take("payments, a connection each", lambda: pay_alone(shop, asked))
        for asked in requests:
            times.take("repeats, a connection each", lambda: pay_alone(shop, asked))
        in_one_write(shop, count, times)
    print("%d of each kind, entries of %d bytes" % (count, size))
    for what, beside in (("payments on one connection", "loop beside one connection"),
                         ("payments, a connection each", "loop beside a connection each")):
        times.tell(beside)
        times.tell(what, beside)
    for what in (w for w in times.each if w.startswith("repeats") or "heads" in w):
        times.tell(what)


if __name__ == "__main__":
    main()
