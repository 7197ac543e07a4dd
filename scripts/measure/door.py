#!/usr/bin/env python3
"""What a site's door costs, and what it saves.

    scripts/measure/door.py [pages COUNT | pays ROUNDS | opens PAYMENTS]..

`pages` puts so many pages of 4 KB on sale through the door by `scripts/tell`, and 500 by a command each over the closed book: seconds, and the
most memory of the site. `pays` serves two shops, one with a door and one without, to which no command comes, and pays at each in turn,
900 payments a round: the ratio of each round's rates, and their median; and of the program's own processor time. `opens` opens the book of a vendor of so many payments for
`vendor price` and for `vendor statement`, which has the counts of series beside it, in turn: processor time and memory of both. Without
words all three, with 10,000, 100 and 300,000. With TMPDIR in memory (`/dev/shm`) the disk plays no part."""
import os
import statistics
import subprocess
import sys
import time
from pathlib import Path

sys.path.insert(0, str(Path(__file__).resolve().parents[1] / "lib"))

from long_book import LongShop  # noqa: E402
from paying import pay  # noqa: E402
from serving import PROGRAM, TOP  # noqa: E402
from shop import TARGET, Shop  # noqa: E402
from timing import alone, timed, used  # noqa: E402

SIZE, CLOSED, ROUND = 4096, 500, 900
QUIET = {"stderr": subprocess.DEVNULL}


def most_memory(process):
    """The most memory that a process took, in MB."""
    with open("/proc/%d/status" % process.pid) as file:
        return next(int(line.split()[1]) for line in file if line.startswith("VmHWM")) / 1000


def pages(count):
    with Shop() as shop:
        shop.how = QUIET
        folder = Path(shop.folder.name)
        page = folder / "page"
        page.write_bytes(b"x" * SIZE)
        lines = folder / "lines"
        lines.write_text("".join("goods /p/%d 5 --kind 2 < %s\n" % (n, page) for n in range(count)))
        shop.door = str(folder / "door")
        shop.start()
        before = most_memory(shop.server)
        seconds = timed(lambda: subprocess.run([TOP / "scripts/tell", shop.door, lines], check=True, stdout=subprocess.DEVNULL))
        print("%d pages of %d bytes at the door: %.1f s, %.2f ms each; the site took %.1f MB before, %.1f MB at most"
              % (count, SIZE, seconds, seconds * 1000 / count, before, most_memory(shop.server)), flush=True)
        shop.kill()
    with Shop() as shop:
        shop.how = QUIET
        words = [PROGRAM, "vendor", "goods", shop.book]
        each = []
        for n in range(min(CLOSED, count)):
            each.append(timed(lambda: subprocess.run([*words, "/p/%d" % n, "5", "--kind", "2"], check=True, input=b"x" * SIZE, stdout=subprocess.DEVNULL,
                                                     **QUIET)))
        print("%d by a command each over the closed book: %.1f s, %.2f ms each; the last 50 %.2f ms each"
              % (len(each), sum(each), statistics.mean(each) * 1000, statistics.mean(each[-50:]) * 1000), flush=True)


def pays(rounds):
    with Shop() as plain, Shop() as doored:
        doored.door = os.path.join(doored.folder.name, "door")
        for shop in (plain, doored):
            shop.how = QUIET
            shop.start()
            pay(shop, ROUND)
        ratios, rates = [], {plain: [], doored: []}
        began = {shop: used(shop.server)[0] for shop in rates}
        for number in range(rounds):
            # The one that is first changes with each round.
            took = {shop: pay(shop, ROUND) for shop in ((plain, doored) if number % 2 else (doored, plain))}
            for shop, seconds in took.items():
                rates[shop].append(ROUND / seconds)
            ratios.append(took[plain] / took[doored])
        low, middle, high = statistics.quantiles(ratios, n=4)
        print("%d rounds of %d payments, with a door beside without: %.3f in the median (quarters %.3f and %.3f); %.0f and %.0f a second"
              % (rounds, ROUND, middle, low, high, statistics.median(rates[doored]), statistics.median(rates[plain])), flush=True)
        own = {shop: (used(shop.server)[0] - began[shop]) / (rounds * ROUND) * 1e6 for shop in rates}
        print("the program's own time a payment: %.2f us with a door, %.2f without, ratio %.3f"
              % (own[doored], own[plain], own[doored] / own[plain]), flush=True)


def opens(payments):
    with LongShop(payments) as shop:
        entries = shop.entries()[3:4]
        epoch = shop.licensed.epoch(entries[0].moment)
        price = [PROGRAM, "vendor", "price", shop.book, TARGET.decode() + "-none", "5"]
        # Nothing is entered: there are no such goods, and the series has not ended.
        statement = [PROGRAM, "vendor", "statement", shop.book, "1", str(epoch + 1)]
        turns = [(alone(*price, status=7), alone(*statement, status=7)) for _ in range(7)]
        (seconds, memory), (counted, more) = (tuple(statistics.median(each[n] for each in side) for n in (0, 1)) for side in zip(*turns))
        print("a book of %d payments, opened plain: %.2f s of the processor, %.1f MB; with the counts: %.2f s, %.1f MB; ratios %.3f and %.3f"
              % (payments, seconds, memory / 1e6, counted, more / 1e6, counted / seconds, more / memory), flush=True)


MEASURES = {"pages": (pages, 10_000), "pays": (pays, 100), "opens": (opens, 300_000)}


def main():
    words = sys.argv[1:] or [word for name, (_, count) in MEASURES.items() for word in (name, str(count))]
    print("%s, load %.1f" % (time.strftime("%d %B %Y"), os.getloadavg()[0]))
    for name, count in zip(words[::2], words[1::2]):
        MEASURES[name][0](int(count))


if __name__ == "__main__":
    main()
