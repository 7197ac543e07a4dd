#!/usr/bin/env python3
"""A market of real programs: a bank with the licence of one vendor and stock of another, and customers that draw, buy, pay for
pages and put change back, while the programs are killed at random moments and started again. A customer asks the same again
until there is a reply. In the end the second program sums up the three books: nothing was lost and nothing was made, and what
is outstanding is what customers hold. The auditor finds the same, and the books balanced; and once a vendor has taken a piece that
was made behind the bank's back, a stranger. The argument is the number of kills."""
import random
import subprocess
import sys
import tempfile
import threading
import time
from collections import Counter
from pathlib import Path
from types import SimpleNamespace

sys.path.insert(0, str(Path(__file__).resolve().parents[1] / "lib"))

import millicent  # noqa: E402
from bank import NAME, Bank  # noqa: E402
from pages import PAGE, PRICE, Vendor  # noqa: E402
from serving import PROGRAM, Link  # noqa: E402

CUSTOMERS, FIRST, KEEP, MINTS, COUNT = 4, 10**7, 86_400, 4, 256


class Customer:
    """The holder of an account, with pieces of the bank and of the vendors."""

    def __init__(self, market, name):
        self.market, self.name = market, name
        self.held = {site: [] for site in market.sites}
        self.counts, self.replies = Counter(), 0

    def live(self, ended):
        while not ended.is_set():
            self.step()

    def step(self):
        bank, site = self.market.bank, random.choice(self.market.vendors)
        deed = random.random()
        if self.held[site] and deed < 0.4:
            self.pay(site, self.take(site), PAGE, "pages")
        elif self.held[bank] and deed < 0.8:
            self.buy(site)
        elif self.held[bank] and deed < 0.9:
            self.pay(bank, self.take(bank), b"/credit/%s" % self.name.encode(), "credits")
        else:
            self.draw()

    def take(self, site):
        """A piece of a site, which is in the customer's hands no more."""
        return self.held[site].pop(random.randrange(len(self.held[site])))

    def hold(self, site, text, secret_of):
        self.held[site].append(SimpleNamespace(text=text, secret=secret_of))

    def ask(self, site, asked):
        """Asks until there is a reply."""
        while True:
            try:
                with Link(site.address) as link:
                    reply = millicent.Reply(link.ask(asked))
                self.replies += 1
                return reply
            except OSError:
                self.counts["asked again"] += 1
                time.sleep(0.005)

    def draw(self):
        amount = random.choice((60, 300, 1000))
        _, asked = self.market.bank.draw(self.name, amount)
        reply = self.ask(self.market.bank, asked)
        self.counts["draws"] += 1
        self.hold(self.market.bank, *self.sold(reply))

    def buy(self, vendor):
        value = random.choice((50, 50, 100)) if vendor is self.market.news else 50
        target = b"/buy/%s/%d" % (vendor.name.encode(), value)
        piece = self.take(self.market.bank)
        reply = self.pay(self.market.bank, piece, target, "purchases")
        if reply.status == b"200":
            self.hold(vendor, *self.sold(reply))

    def sold(self, reply):
        """The text and the secret of the piece that a reply hands out."""
        if reply.status != b"200":
            self.market.wrong("a request of %s was answered %r" % (self.name, reply.whole))
        text, digits = reply.contents[:-1].split(b" ")
        return text, bytes.fromhex(digits.decode())

    def pay(self, site, piece, target, what):
        """Pays with a piece, and keeps the change; where the request is refused the piece stays."""
        host = NAME if site is self.market.bank else site.name.encode()
        sign = millicent.request_signature(piece.text, target, piece.secret)
        reply = self.ask(site, millicent.request(piece.text, target, sign, host))
        if millicent.reply_sign(piece.text, target, reply, piece.secret).hex().encode() != reply.field(b"Sign"):
            self.market.wrong("the reply %r is not signed for %r" % (reply.whole, target))
        if reply.status == b"200":
            self.counts[what] += 1
            if reply.field(b"Change") != b"-":
                self.hold(site, reply.field(b"Change"), piece.secret)
        else:
            self.refused(site, piece, reply)
        return reply

    def refused(self, site, piece, reply):
        number = reply.field(b"Refusal").split(b" ")[0]
        if number not in (b"31", b"44"):
            self.market.wrong("a request of %s was refused with %r" % (self.name, reply.field(b"Refusal")))
        self.counts["refused with %s" % number.decode()] += 1
        self.market.hold_later(self, site, piece)


class Market:
    def __init__(self, folder):
        self.bank, self.news, self.shop = Bank(folder, KEEP), Vendor(folder, "news.example", KEEP), Vendor(folder, "shop.example", KEEP)
        self.vendors, self.violations = (self.news, self.shop), 0
        self.sites = (self.bank, *self.vendors)
        self.bank.found()
        self.bank.command("licence", contents=self.news.licence())
        for number in range(MINTS):
            said = self.bank.command("stock", self.shop.name, contents=self.shop.mint(COUNT, 50, "m%d" % number))
            assert said == "stock shop.example %d\n" % COUNT, "the program said %r" % said
        for number in range(CUSTOMERS):
            self.bank.open("c%d" % number, FIRST)
        self.customers = [Customer(self, name) for name in self.bank.keys]

    def wrong(self, what):
        self.violations += 1
        print("VIOLATION:", what, flush=True)

    def hold_later(self, customer, site, piece):
        """A refused piece stays: a small one of the bank goes back into the account."""
        if site is self.bank and millicent.read_scrip(piece.text).value < 51:
            customer.pay(site, piece, b"/credit/%s" % customer.name.encode(), "credits")
        else:
            customer.held[site].append(piece)

    def run(self, kills):
        """Lets the customers live while programs are killed, and then until each has its last reply."""
        ended = threading.Event()
        for site in self.sites:
            site.start()
        threads = [threading.Thread(target=customer.live, args=(ended,), daemon=True) for customer in self.customers]
        for thread in threads:
            thread.start()
        for _ in range(kills):
            self.wait_for(random.randrange(60))
            site = random.choice((self.bank, self.bank, *self.vendors))
            site.kill()
            time.sleep(random.choice((0, random.uniform(0, 0.1))))
            site.start()
        ended.set()
        for thread in threads:
            thread.join()
        for site in self.sites:
            site.kill()

    def wait_for(self, replies):
        """Waits for so many replies to customers, for 5 seconds at most."""
        until, end = self.replies() + replies, time.monotonic() + 5
        while self.replies() < until and time.monotonic() < end:
            time.sleep(0.001)

    def replies(self):
        return sum(customer.replies for customer in self.customers)

    def sum_up(self):
        """The sums of the three books, and what the customers hold."""
        b, *vs = (millicent.Book(site.entries()) for site in self.sites)
        paid_in, paid_out, accounts, fees, outstanding, lapsed = millicent.broker_sums(b)
        of_vendors = [millicent.vendor_sums(b, v) for v in vs]
        found = paid_out + accounts + fees + outstanding + lapsed + sum(map(sum, of_vendors))
        print("paid in %d: accounts %d, fees %d, outstanding %d, lapsed %d" % (paid_in, accounts, fees, outstanding, lapsed))
        if paid_in != found:
            self.wrong("%d came in, and %d are there" % (paid_in, found))
        stranger = millicent.first_stranger([b, *vs])
        if stranger is not None:
            self.wrong("the piece %016x is a stranger in book %d" % (stranger[1], stranger[0]))
        self.compare(self.bank, outstanding + lapsed)
        for vendor, (takings, *left) in zip(self.vendors, of_vendors):
            print("%s: takings %d, outstanding %d, lapsed %d" % (vendor.name, takings, *left))
            self.compare(vendor, sum(left))
        pages = sum(customer.counts["pages"] for customer in self.customers) * PRICE
        if pages != sum(takings for takings, *_ in of_vendors):
            self.wrong("pages for %d were read" % pages)

    def audit(self):
        """What the auditor says of the three books."""
        words = [PROGRAM, "audit", "report", *(site.book for site in self.sites)]
        ran = subprocess.run(words, stdout=subprocess.PIPE)
        return ran.returncode, ran.stdout.decode()

    def look_for_strangers(self):
        """Has the books audited, and again with a forged piece that a vendor took."""
        status, said = self.audit()
        paid_in = millicent.broker_sums(millicent.Book(self.bank.entries()))[0]
        if status or not said.endswith("\nbalanced\n") or "\npaid-in %d\n" % paid_in not in said:
            self.wrong("the audit ended with status %d and said %r" % (status, said))
        print(said, end="")
        piece = self.news.forged(PRICE)
        self.news.start()
        reply = self.customers[0].pay(self.news, piece, PAGE, "forged pages")
        self.news.kill()
        if reply.status != b"200":
            self.wrong("the forged piece was answered %r" % reply.whole)
        status, said = self.audit()
        if (status, said) != (8, "stranger news.example %016x\n" % millicent.read_scrip(piece.text).id):
            self.wrong("the audit of a forged piece ended with status %d and said %r" % (status, said))
        print(said, end="")

    def compare(self, site, left):
        held = sum(millicent.read_scrip(piece.text).value for customer in self.customers for piece in customer.held[site])
        if held != left:
            self.wrong("of %s customers hold %d, and %d are left" % (site.book, held, left))


def main():
    kills = int(sys.argv[1]) if len(sys.argv) > 1 else 60
    with tempfile.TemporaryDirectory(prefix="millicent-") as folder:
        market = Market(folder)
        try:
            market.run(kills)
            market.sum_up()
            market.look_for_strangers()
        finally:
            for site in market.sites:
                site.end()
    counts = sum((customer.counts for customer in market.customers), Counter())
    for what, count in sorted(counts.items() | {("kills", kills), ("violations", market.violations)}):
        print("%8d  %s" % (count, what))
    return market.violations > 0


if __name__ == "__main__":
    raise SystemExit(main())
