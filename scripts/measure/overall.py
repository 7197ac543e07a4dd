#!/usr/bin/env python3
"""How near the program is to what limits it: a row each, with what was measured, its limit in the same run, and their ratio.

    scripts/measure/overall.py [PAYMENTS [BOOK]]

Serving stands beside a plain loop over sockets (`plain.c`), which does the same writes and syncs and nothing else; the two take
turns, so that both meet the same load of the machine. Opening a book and telling its chain stand beside the digests that its entries
need, by `md5sum` and `sha256sum`, by the least processor time of five: four of each payment, and of the book's bytes for its chain,
which an opening needs only once a book has one, as it has in the second two of those rows. A kept reply stands beside the 250 bytes
that it should take. Pages through `wallet proxy` stand beside the two entries of the wallet's book that each takes. PAYMENTS (2,000)
are served of each kind, and a tenth as many pages; the book that is opened and audited has BOOK (300,000). It wants a C compiler,
`cc`."""
import os
import subprocess
import sys
import tempfile
from pathlib import Path

sys.path.insert(0, str(Path(__file__).resolve().parents[1] / "lib"))

from gateway import Market, Proxy, beside_the_disk  # noqa: E402
from paying import blocks, entry_size, fresh, pay, took  # noqa: E402
from serving import PROGRAM, Link, Site, free_port  # noqa: E402
from shop import Shop  # noqa: E402
from timing import BLOCK, alone, least, md5sum, sha256sum, timed, used  # noqa: E402

IN_TURN = 100
KEPT = 250
# The status of a command that is refused.
REFUSED = 7


class Plain(Site):
    """The plain loop, beside a shop's book."""

    def __init__(self, shop, entry, reply):
        self.address = ("127.0.0.1", free_port())
        program = os.path.join(shop.folder.name, "plain")
        subprocess.run(["cc", "-O2", "-D_GNU_SOURCE", "-o", program, Path(__file__).with_name("plain.c")], check=True)
        words = [program, os.path.join(shop.folder.name, "beside"), str(self.address[1]), str(entry), str(reply)]
        self.server = subprocess.Popen(words, stdout=subprocess.PIPE)
        while self.server.poll() is None:
            try:
                Link(self.address).socket.close()
                break
            except ConnectionError:
                pass


def row(what, here, limit, ratio):
    print("| %-34s | %-24s | %-34s | %5.2f |" % (what, here, limit, ratio), flush=True)


def on_one(address, requests):
    """The seconds that these requests take on one connection, one after another."""
    with Link(address) as link:
        return timed(lambda: [took(link.ask(it)) for it in requests])


def on_each(address, requests):
    """The same with a connection for each."""
    def ask(request):
        with Link(address) as link:
            took(link.ask(request))
    return timed(lambda: [ask(it) for it in requests])


def serving(shop, count):
    entry = entry_size(shop)
    with Link(shop.address) as link:
        reply = len(link.ask(fresh(shop, 1)[0]))
    plain = Plain(shop, entry, reply)
    for what, way in (("payments on one connection", on_one), ("payments, a connection each", on_each)):
        here = limit = 0.0
        for _ in range(0, count, IN_TURN):
            requests = fresh(shop, IN_TURN)
            here += way(shop.address, requests)
            limit += way(plain.address, requests)
        row(what, "%.0f a second" % (count / here), "%.0f, a plain loop" % (count / limit), limit / here)
    plain.end()


def reading(shop, count):
    """A book of so many payments, opened by a command that is refused, and told by an auditor."""
    _, before = used(shop.server)
    pay(shop, count)
    _, after = used(shop.server)
    row("memory of a kept reply", "%.0f bytes" % ((after - before) * 1e6 / count), "%d" % KEPT, KEPT * count / ((after - before) * 1e6))
    shop.kill()
    whole = os.path.join(shop.folder.name, "digests")
    with open(whole, "wb") as f:
        f.truncate(blocks(shop) * BLOCK * count)
    opened(shop, count, whole, "")
    alone(PROGRAM, "vendor", "chain", shop.book)
    opened(shop, count, whole, ", chained")


def opened(shop, count, whole, how):
    opening, telling, md5, sha256 = least(
        lambda: alone(PROGRAM, "vendor", "price", shop.book, "/none", "1", status=REFUSED)[0],
        lambda: alone(PROGRAM, "audit", "chain", shop.book)[0],
        lambda: md5sum(whole),
        lambda: sha256sum(shop.book),
    )
    for what, here in (("opening %d payments" % count, opening), ("audit chain of them", telling)):
        row(what + how, "%.2f s, %.2f us each" % (here, here / count * 1e6), "%.2f s, its digests" % (md5 + sha256), (md5 + sha256) / here)


def proxying(count):
    with tempfile.TemporaryDirectory(prefix="millicent-") as folder:
        market = Market(folder)
        proxy = Proxy(market.wallet, market.vendor)
        try:
            proxy.start(links=2 * count)
            here, disk = beside_the_disk(market, proxy, count)
        finally:
            proxy.stop()
            market.end()
    row("pages through the proxy", "%.0f a second" % (count / here), "%.0f, their entries on the disk" % (count / disk), disk / here)


def main():
    words = [int(word) for word in sys.argv[1:]]
    count, book = (words + [2_000, 300_000][len(words):])[:2]
    print("| %-34s | %-24s | %-34s | %5s |" % ("What", "Here", "Limit", "Ratio"))
    print("|---|---|---|---|")
    with Shop(keep=86_400) as shop:
        shop.start()
        serving(shop, count)
        reading(shop, book)
    proxying(max(100, count // 10))


if __name__ == "__main__":
    main()
