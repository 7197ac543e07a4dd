#!/usr/bin/env python3
"""How a shop's speed changes while its book grows. The argument is how many payments there are. At each tenth of
them: payments a second, 30 heads in one write on one connection; the processor time of the program for each; its
memory; and how many entries of the same size a plain loop writes and syncs a second in a file beside the book.
Then the program is ended and started again: how long it takes from its start to the first reply, beside `md5sum`
of the book and of as many blocks as the digests have that its entries need."""
import os
import sys
from pathlib import Path

sys.path.insert(0, str(Path(__file__).resolve().parents[1] / "lib"))

from paying import blocks, entry_size, fresh, pay, pay_alone  # noqa: E402
from shop import Shop  # noqa: E402
from timing import BLOCK, Beside, md5sum, timed, used  # noqa: E402

LOOP = 300


def main():
    count = int(sys.argv[1]) if len(sys.argv) > 1 else 100_000
    with Shop(keep=86_400) as shop:
        shop.start()
        size = entry_size(shop)
        beside = Beside(os.path.join(shop.folder.name, "beside"), size)
        print("entries of %d bytes" % size)
        for tenth in range(1, 11):
            loop = timed(lambda: [beside.add() for _ in range(LOOP)]) / LOOP
            before, _ = used(shop.server)
            seconds = pay(shop, count // 10)
            after, memory = used(shop.server)
            print("to %8d payments: %6.0f a second, %5.1f us of the program's own, %5.0f MB; the loop beside: %6.0f" % (
                count // 10 * tenth, count // 10 / seconds, (after - before) / (count // 10) * 1e6, memory, 1 / loop), flush=True)
        again = fresh(shop, 1)[0]
        pay_alone(shop, again)
        shop.kill()
        whole = os.path.join(shop.folder.name, "digests")
        with open(whole, "wb") as f:
            f.truncate(blocks(shop) * BLOCK * count)

        def reopen():
            shop.start()
            pay_alone(shop, again)
        opened = timed(reopen)
        print("opened in %.2f s; md5sum of the book %.2f s, of its digests %.2f s" % (opened, md5sum(shop.book), md5sum(whole)))


if __name__ == "__main__":
    main()
