#!/usr/bin/env python3
"""Kills a broker's program at random moments while customers draw and put pieces back, and its operator's commands too, starts
it again on the same book, and compares the book with the replies that customers have read: no order is drawn twice, balances
add up, and each reply that was read is in the book and comes again. The argument is the number of kills."""
import random
import subprocess
import sys
import tempfile
import threading
import time
from collections import Counter
from pathlib import Path

sys.path.insert(0, str(Path(__file__).resolve().parents[1] / "lib"))

import millicent  # noqa: E402
from bank import NAME, Bank, drawn  # noqa: E402
from serving import PROGRAM, Link, kill_under_load  # noqa: E402

ACCOUNTS, FIRST, KEEP, LINK_ITEMS = 6, 10**9, 86_400, 900


class Customer:
    """The holder of an account, who has one request under way at most, and asks it again until there is a reply."""

    def __init__(self, log, bank, name):
        self.log, self.bank, self.name = log, bank, name
        self.replies, self.order = {}, []        # the replies 200, by their requests, and these in order
        self.purse, self.waiting = [], None
        self.checked = 0                         # how many of them were asked again after a restart

    def next(self):
        """A draw, or a credit of a piece that was drawn before."""
        if self.purse and random.random() < 0.2:
            piece = self.purse.pop()
            target = b"/credit/%s" % self.name.encode()
            sign = random.choice((None, millicent.request_signature(piece.text, target, piece.secret)))
            return target, millicent.request(piece.text, target, sign, NAME)
        return self.bank.draw(self.name, random.choice((1, 7, 300, 10**4)))

    def ask(self, link):
        """Asks what is under way, or something new, and keeps the reply."""
        self.waiting = self.waiting or self.next()
        target, asked = self.waiting
        whole = link.ask(asked)
        self.waiting = None
        reply = millicent.Reply(whole)
        if reply.status != b"200":
            return self.log.wrong("%r was answered %r" % (asked, whole))
        self.replies[asked] = whole
        self.order.append(asked)
        if target.startswith(b"/draw/"):
            self.purse.append(drawn(reply))

    def repeat(self, link, asked):
        whole = link.ask(asked)
        if whole != self.replies[asked]:
            self.log.wrong("%r was answered %r, then %r" % (asked, self.replies[asked], whole))

    def stale(self, link):
        """A draw with an order that is over, and another amount: refused with the last order."""
        if not self.bank.orders[self.name] or self.waiting:
            return
        order = self.bank.orders[self.name]
        target = b"/draw/%s/%d/%d" % (self.name.encode(), order, 999_999)
        refusal = millicent.Reply(link.ask(millicent.draw_request(target, self.bank.keys[self.name]))).field(b"Refusal")
        if refusal != b"41 StaleOrder %d" % order:
            self.log.wrong("%r was refused with %r" % (target, refusal))

    def load(self, ended):
        """Asks and asks again, on one link after another, until the program was killed."""
        while not ended.is_set():
            try:
                with Link(self.bank.address) as link:
                    for _ in range(random.randint(1, 20)):
                        what = random.random()
                        if self.order and what < 0.25:
                            self.repeat(link, random.choice(self.order))
                            self.log.count("repeats under load")
                        elif what < 0.3:
                            self.stale(link)
                        else:
                            self.ask(link)
                            self.log.count("draws and credits under load")
            except OSError:
                time.sleep(0.002)

    def check(self, whole):
        """After a restart: what was under way is asked again, and each reply that was read comes again: those since the last
        check, and some before them or all."""
        older = self.order[:self.checked]
        again = self.order[self.checked:] + (older if whole else random.sample(older, min(50, len(older))))
        again = [again[first:first + LINK_ITEMS] for first in range(0, len(again), LINK_ITEMS)]
        for part in again:
            with Link(self.bank.address) as link:
                for asked in part:
                    self.repeat(link, asked)
                    self.log.count("repeats after a restart")
        if self.waiting:
            with Link(self.bank.address) as link:
                self.ask(link)
                self.log.count("asked again that a kill cut")
        self.checked = len(self.order)


class Log:
    def __init__(self):
        self.counts, self.lock = Counter(), threading.Lock()

    def count(self, what):
        with self.lock:
            self.counts[what] += 1

    def wrong(self, what):
        self.count("violations")
        print("VIOLATION:", what, flush=True)


def read_book(log, bank):
    """The book by the second program, which has read that it may stand entry by entry: orders rise, no piece is credited
    twice, and drawn pieces have the serials 0, 1, 2 and so on of their series."""
    entries, last, spent, series = bank.entries(), {}, set(), Counter()
    for entry in entries:
        if entry.kind == millicent.DRAW:
            _, name, order, _ = millicent.read_errand(entry.target)
            if order <= last.get(name, 0):
                log.wrong("the order %d of %r was drawn after %d" % (order, name, last[name]))
            last[name] = order
            if entry.drawn & 0xffffffff != series[entry.drawn >> 32]:
                log.wrong("the drawn piece %016x has not the serial %d" % (entry.drawn, series[entry.drawn >> 32]))
            series[entry.drawn >> 32] += 1
        elif entry.kind == millicent.ACCEPT:
            ident = millicent.read_scrip(entry.scrip).id
            if ident in spent:
                log.wrong("the piece %016x was accepted twice" % ident)
            spent.add(ident)
    return millicent.Book(entries)


def cut_deposit(log, bank, book, number):
    """Kills the program in the middle of a deposit, and gives the command again until it ends: it counts once."""
    name, reference, before = random.choice(list(bank.keys)), "cut.%d" % number, book.balance
    was = before(name.encode())
    words = [PROGRAM, "broker", "deposit", bank.book, name, "1000", reference]
    process = subprocess.Popen(words, stdout=subprocess.PIPE, stderr=subprocess.PIPE)
    time.sleep(random.uniform(0, 0.02))
    process.kill()
    process.communicate()
    log.count("kills in a deposit")
    for _ in range(2):
        told = bank.deposit(name, 1000, reference)
        if told != was + 1000:
            log.wrong("%s had %d, and after a deposit of 1000 %d" % (name, was, told))


def look(log, bank, number):
    """What the book tells between two runs: balances are those that the commands tell, also of a deposit that was cut."""
    book = read_book(log, bank)
    name = random.choice(list(bank.keys))
    if bank.balance(name) != book.balance(name.encode()):
        log.wrong("the balance of %s is not %d" % (name, book.balance(name.encode())))
    if number % 4 == 0:
        cut_deposit(log, bank, book, number)


def sums(log, bank, customers):
    """At the end: what came in is in accounts and in pieces, and these are what the customers hold."""
    book = read_book(log, bank)
    paid_in, paid_out, accounts, fees, outstanding, lapsed = millicent.broker_sums(book)
    if paid_in != paid_out + accounts + fees + outstanding + lapsed:
        log.wrong("of %d that came in there are %d" % (paid_in, paid_out + accounts + fees + outstanding + lapsed))
    held = sum(millicent.read_scrip(piece.text).value for customer in customers for piece in customer.purse)
    if held != outstanding + lapsed:
        log.wrong("customers hold %d, and %d are outstanding" % (held, outstanding + lapsed))
    made = sum(len(customer.order) for customer in customers)
    kept = len(book.of(millicent.DRAW, millicent.ACCEPT))
    if made != kept:
        log.wrong("%d are in the book, and %d were answered" % (kept, made))
    print("%d came in, %d are in accounts, %d in %d pieces" % (paid_in, accounts, held, sum(len(c.purse) for c in customers)))


def main():
    kills = int(sys.argv[1]) if len(sys.argv) > 1 else 100
    with tempfile.TemporaryDirectory(prefix="millicent-") as folder:
        bank, log = Bank(folder, KEEP), Log()
        try:
            bank.found()
            for number in range(ACCOUNTS):
                bank.open("a%d" % number, FIRST)
            customers = [Customer(log, bank, name) for name in bank.keys]
            bank.start()
            while log.counts["kills"] < kills:
                kill_under_load(bank, [customer.load for customer in customers])
                log.count("kills")
                look(log, bank, log.counts["kills"])
                if random.random() < 0.25 and log.counts["kills"] < kills:
                    bank.launch()
                    time.sleep(random.uniform(0, 0.02))
                    bank.kill()
                    log.count("kills")
                    log.count("kills while it opens its book")
                bank.start()
                for customer in customers:
                    customer.check(whole=log.counts["kills"] >= kills)
            bank.kill()
            sums(log, bank, customers)
        finally:
            bank.end()
    for what, count in sorted(log.counts.items() | {("violations", log.counts["violations"])}):
        print("%8d  %s" % (count, what))
    return log.counts["violations"] > 0


if __name__ == "__main__":
    raise SystemExit(main())
