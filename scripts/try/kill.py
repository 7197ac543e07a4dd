#!/usr/bin/env python3
"""Kills a shop's program at random moments while it sells, starts it again on the same book, and compares
the book with the replies that clients have read. The argument is the number of kills."""
import random
import sys
import time
from collections import Counter
from pathlib import Path

sys.path.insert(0, str(Path(__file__).resolve().parents[1] / "lib"))

import millicent  # noqa: E402
from payloads import ACCEPT  # noqa: E402
from serving import kill_under_load  # noqa: E402
from shop import PRICE, TARGET, Link, Shop  # noqa: E402

THREADS, KEEP, LINK_ITEMS = 4, 86_400, 900


class Log:
    """What the clients asked and read, and what was wrong."""

    def __init__(self, shop):
        self.shop = shop
        self.keys = {}        # a request: its scrip text, target and signature
        self.paid = {}        # a request: its reply 200, read whole
        self.order = []       # the requests of these replies, in order
        self.checked = 0      # how many of them were asked again after a restart
        self.cut = set()      # requests whose reply was not read whole
        self.counts = Counter()

    def wrong(self, what):
        self.counts["violations"] += 1
        print("VIOLATION:", what, flush=True)

    def fresh(self):
        """A request that pays with a new piece: with change or without, signed or not."""
        piece, secret = self.shop.fresh(random.choice((PRICE, PRICE + 1, 100, 10**9)))
        sign = random.choice((None, millicent.request_signature(piece, TARGET, secret)))
        asked = millicent.request(piece, TARGET, sign)
        self.keys[asked] = piece, TARGET, sign
        return asked

    def pay(self, link, asked):
        self.cut.add(asked)
        reply = link.ask(asked)
        self.cut.discard(asked)
        if not reply.startswith(b"HTTP/1.1 200 "):
            return self.wrong("%r was answered %r" % (asked, reply))
        self.paid[asked] = reply
        self.order.append(asked)

    def repeat(self, link, asked):
        reply = link.ask(asked)
        if reply != self.paid[asked]:
            self.wrong("%r was answered %r, then %r" % (asked, self.paid[asked], reply))

    def load(self, ended):
        """Pays and repeats, on one link after another, until the program was killed."""
        while not ended.is_set():
            try:
                with Link(self.shop.address) as link:
                    for _ in range(random.randint(1, 20)):
                        if self.order and random.random() < 0.3:
                            self.repeat(link, random.choice(self.order))
                            self.counts["repeats under load"] += 1
                        else:
                            self.pay(link, self.fresh())
                            self.counts["payments under load"] += 1
            except OSError:
                time.sleep(0.002)

    def handed(self, entry):
        """The identities that an entry hands out."""
        return [entry.change] if entry.kind == ACCEPT and entry.change is not None else []

    def read_book(self):
        """Each accepted request with its price and change. None is there twice, and change has no gap."""
        entries = millicent.entries_of(self.shop.bytes())
        accepts = [e for e in entries if e.kind == ACCEPT]
        identities = Counter(a.scrip.split(b"|")[3] for a in accepts)
        for ident in (i for i, n in identities.items() if n > 1):
            self.wrong("identity %r was accepted twice" % ident)
        series = Counter()
        for change in (identity for entry in entries for identity in self.handed(entry)):
            number, serial = change >> 32, change & 0xffffffff
            if serial != series[number]:
                self.wrong("change %016x has not the serial %d" % (change, series[number]))
            series[number] += 1
        return {(a.scrip, a.target, a.sign): (a.price, a.change) for a in accepts}

    def stands(self, book, asked):
        """Whether the book has this request with the price and the change of the reply that was read."""
        reply = millicent.Reply(self.paid[asked])
        change = reply.field(b"Change")
        change = None if change == b"-" else int(change.split(b"|")[3], 16)
        return book.get(self.keys[asked]) == (int(reply.field(b"Price")), change)

    def each(self, do, requests):
        for first in range(0, len(requests), LINK_ITEMS):
            with Link(self.shop.address) as link:
                for asked in requests[first:first + LINK_ITEMS]:
                    do(link, asked)

    def check(self, whole):
        """After a restart: each reply that was read is in the book, and comes again: those since the last
        check, and some before them or all. A request that was cut is paid now; where the book had it before,
        the reply is that entry's."""
        book = self.read_book()
        for asked in (a for a in self.order if not self.stands(book, a)):
            self.wrong("%r was answered %r, which is not in the book" % (asked, self.paid[asked]))
        older = self.order[:self.checked]
        again = self.order[self.checked:] + (older if whole else random.sample(older, min(100, len(older))))
        self.each(self.repeat, again)
        self.counts["repeats after a restart"] += len(again)
        cut = list(self.cut)
        self.each(self.pay, cut)
        for asked in cut:
            there = self.keys[asked] in book
            self.counts["cut by a kill and in the book" if there else "cut by a kill and not in the book"] += 1
            if there and asked in self.paid and not self.stands(book, asked):
                self.wrong("%r is in the book otherwise than answered: %r" % (asked, self.paid[asked]))
        self.checked = len(self.order)


def main():
    kills = int(sys.argv[1]) if len(sys.argv) > 1 else 200
    with Shop(KEEP) as shop:
        log = Log(shop)
        shop.start()
        while log.counts["kills"] < kills:
            kill_under_load(shop, [log.load] * THREADS)
            log.counts["kills"] += 1
            if random.random() < 0.25 and log.counts["kills"] < kills:
                shop.launch()
                time.sleep(random.uniform(0, 0.02))
                shop.kill()
                log.counts["kills"] += 1
                log.counts["kills while it opens its book"] += 1
            shop.start()
            log.check(whole=log.counts["kills"] >= kills)
        shop.kill()
        if len(log.read_book()) != len(log.order):
            log.wrong("%d are in the book, and %d were answered" % (len(log.read_book()), len(log.order)))
        for what, count in sorted(log.counts.items() | {("violations", log.counts["violations"])}):
            print("%8d  %s" % (count, what))
        return log.counts["violations"] > 0


if __name__ == "__main__":
    raise SystemExit(main())
