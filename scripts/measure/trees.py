#!/usr/bin/env python3
"""How long an audit of several brokers takes, and how much memory: writes the books of ten brokers and ten vendors by the second
program, a million entries in all, and audits them by the program, beside the digests that their entries need and the bytes that
they have; then once more, with the chain of each book switched on, behind its last entry. The digests are MD5 of what was certified
and signed, and SHA-256 of the books' bytes, which an audit needs where a chain is told.

    scripts/measure/trees.py [ENTRIES]

Each broker has a licence of each vendor. Of a piece of 250 units that a broker sells, a vendor is paid ten times. ENTRIES
(1,000,000) are those of all books together, a thousand a second."""
import os
import subprocess
import sys
import tempfile
from pathlib import Path

sys.path.insert(0, str(Path(__file__).resolve().parents[1] / "lib"))

import millicent  # noqa: E402
from generate.markets import NOW, Bank, House, terms  # noqa: E402
from millicent import ACCEPT  # noqa: E402
from serving import PROGRAM  # noqa: E402
from timing import BLOCK, alone, least, md5sum, sha256sum  # noqa: E402

SHARES, PIECE, PRICE, RATE = 10, 250, 25, 1000
# A draw, a sale, and what a vendor is paid with the piece and its change.
OF_A_PIECE = 2 + PIECE // PRICE


def vendor(number):
    house = House(b"news%d.example" % number, 0, terms(0, 0x10 + number, 0x20 + number))
    house.goods(b"/news/1", PRICE)
    for broker in range(SHARES):
        house.enter(millicent.TERMS, terms=licence(number, broker))
    return house


def licence(number, broker):
    return terms(1 + broker, 0x40 + 10 * number + broker, 0xa0 + broker)


def bank(number, vendors):
    house = Bank(b"bank%d" % number, 1)
    house.open(b"ann", 2**40)
    for at, of in enumerate(vendors):
        house.license(of.name, licence(at, number))
    return house


def trade(banks, vendors, pieces):
    """Sells so many pieces, by each broker of each vendor in turn, and has them spent."""
    orders = [0] * SHARES
    for n in range(pieces):
        by, of = n % SHARES, vendors[n // SHARES % SHARES]
        banks[by].time = of.time = NOW + n * OF_A_PIECE // RATE
        orders[by] += 1
        drawn = banks[by].draw(b"ann", orders[by], PIECE + 1)
        back = banks[by].pay(drawn, b"/buy/%s/%d" % (of.name, PIECE))
        while back:
            back = of.pay(back[0], b"/news/1")


def blocks(house):
    """The blocks of the digests by which the entries of a book are judged: of an accepted piece its certificate and its customer's
    secret, and the certificate of its change; of a piece that was sold its certificate and secret; of a draw its signature."""
    lengths = []
    for entry in house.history.entries:
        if entry.kind == ACCEPT:
            piece = len(entry.scrip) - 16
            lengths += [piece, 24] + [piece] * (entry.change is not None or entry.deed[0] == 1) + [24] * (entry.deed[0] == 1)
        elif entry.kind == millicent.DRAW:
            lengths.append(len(entry.target) + 23)
    return sum((n + 8) // BLOCK + 1 for n in lengths)


def audited(houses, books, folder):
    """The least processor time of an audit and its memory, the least times of the digests by MD5 and SHA-256, and the size of the
    books."""
    whole, joined = os.path.join(folder, "digests"), os.path.join(folder, "joined")
    with open(whole, "wb") as f:
        f.truncate(sum(blocks(it) for it in houses) * BLOCK)
    with open(joined, "wb") as f:
        for book in books:
            with open(book, "rb") as part:
                f.write(part.read())
    (seconds, memory), md5, sha256 = least(
        lambda: alone(PROGRAM, "audit", "tree", *books), lambda: md5sum(whole), lambda: sha256sum(joined))
    return seconds, memory, md5, sha256, os.path.getsize(joined)


def tell(count, houses, books, folder):
    used, memory, md5, sha256, size = audited(houses, books, folder)
    print("%d entries in %d books of %.0f MB: %.2f s of a processor, %.2f us each, %.0f MB of memory; their digests by MD5 %.2f s and by "
          "SHA-256 %.2f s, a ratio of %.2f" % (count, len(books), size / 1e6, used, used / count * 1e6, memory / 1e6, md5, sha256, used / (md5 + sha256)))


def main():
    count = int(sys.argv[1]) if len(sys.argv) > 1 else 1_000_000
    vendors = [vendor(n) for n in range(SHARES)]
    banks = [bank(n, vendors) for n in range(SHARES)]
    trade(banks, vendors, count // OF_A_PIECE)
    houses = [*banks, *vendors]
    count = sum(len(it.history.entries) for it in houses)
    with tempfile.TemporaryDirectory(prefix="millicent-") as folder:
        books = [os.path.join(folder, it.name.decode()) for it in houses]
        for path, house in zip(books, houses):
            with open(path, "wb") as f:
                millicent.write_book(f, house.history.entries)
        tell(count, houses, books, folder)
        for path, house in zip(books, houses):
            role = "broker" if isinstance(house, Bank) else "vendor"
            subprocess.run([PROGRAM, role, "chain", path], check=True, capture_output=True)
        print("with their chains:")
        tell(count, houses, books, folder)


if __name__ == "__main__":
    main()
