#!/usr/bin/env python3
"""The long trial of a whole market over loopback: a bank, a kiosk that sells on what it bought there, two vendors, and three wallets, one of them
behind `wallet proxy`. Links lose, cut, change and repeat requests and replies, and bring old ones again. Each program is killed at random
moments, and each has a clock of its own, which jumps ahead, past keeping times and ends of series too, and back. Meanwhile operators set prices,
mint, fill stock, take deposits and pay out, switch chains on, go over to the second version, and settle licensed series that ended.

    scripts/try/fair.py [SECONDS]

After so many seconds (1200) all clocks agree, nothing fails any more, and each wallet asks again until nothing is kept. Then by the second program:
each book is lawful, and no identity is there twice; nothing was lost and nothing was made; each payment that a wallet has as done is one entry of
its site, with this price and change, and the sites took nothing that no wallet asked for; what a wallet holds is outstanding; and the auditor says the
same sums and chains. At last all series end, and all licensed ones are settled. A line a minute tells what came to pass. The first thing that does not
hold ends the trial: then the status is 1, and the books stay in a folder that is named. It wants a C compiler, `cc`, and takes one processor on
average."""
import os
import random
import shutil
import struct
import subprocess
import sys
import tempfile
import threading
import time
import traceback
from collections import Counter
from contextlib import contextmanager
from pathlib import Path
from types import SimpleNamespace

sys.path.insert(0, str(Path(__file__).resolve().parents[1] / "lib"))

import millicent  # noqa: E402
from customer import NOTHING, Wallet, compare  # noqa: E402
from gateway import LIMIT, Proxy  # noqa: E402
from lossy import Lossy  # noqa: E402
from pages import PAGE  # noqa: E402
from serving import KILLED, Link, Site, free_port, run, secret, words_of  # noqa: E402

NEWS, SHOP = "news.example", "shop.example"
PERIOD, LIFE, KEEP = 2048, 16_384, 5000
ISSUERS = {"bank": 1, "kiosk": 2}
FIRST, FEE, MINTED, RENEWAL = 10**6, 2, 50, "/renew"
# How much of a processor all of it takes, on average.
SHARE = 0.9
# How a clock jumps: how often, and by how much it is off then. All clocks jump as often as one.
ALL = "jumps of all clocks"
JUMPS = {"clocks that were set right": (5, 0, 2), "clocks that went back": (2, -100_000, 0), "clocks that went ahead": (2, 0, KEEP // 2),
         "clocks that went past the keeping time": (0.5, KEEP, 2 * KEEP),
         "clocks that went past the end of a series": (0.15, PERIOD + LIFE, PERIOD + LIFE + KEEP), ALL: (1, 0, PERIOD)}


class Clocks:
    """The time of the fair, which goes on by jumps, and the clock of each program, which is off by some seconds."""

    def __init__(self, folder):
        self.folder, self.ahead, self.furthest, self.off, self.files = folder, 0, 0, {}, {}
        self.counts, self.lock = Counter(), threading.RLock()
        self.told = open(os.path.join(folder, "told"), "wb")
        self.library = os.path.join(folder, "clock.so")
        subprocess.run(["cc", "-O2", "-shared", "-fPIC", "-o", self.library, Path(__file__).with_name("clock.c"), "-ldl"], check=True)

    def give(self, name):
        """How programs are run by a clock of this name."""
        path = os.path.join(self.folder, name + ".clock")
        if name not in self.files:
            self.files[name] = os.open(path, os.O_RDWR | os.O_CREAT)
            self.set(name, 0)
        return {"env": {**os.environ, "LD_PRELOAD": self.library, "CLOCK": path}, "stderr": self.told}

    def set(self, name, off):
        self.off[name], self.furthest = off, max(self.furthest, self.ahead + off)
        os.pwrite(self.files[name], struct.pack("q", self.ahead + off), 0)

    def now(self):
        return int(time.time()) + self.ahead

    def go_on(self, seconds):
        self.ahead += seconds
        for name, off in self.off.items():
            self.set(name, off)

    def agree(self, *names):
        for name in names or self.off:
            self.set(name, 0)

    def jump(self):
        """One clock jumps, or the time of all, now and then to where the furthest one was."""
        with self.lock:
            what = random.choices([*JUMPS], [often for often, *_ in JUMPS.values()])[0]
            by = random.randint(*JUMPS[what][1:])
            self.counts[what] += 1
            if what == ALL:
                self.go_on(by if random.random() < 0.7 else max(0, self.furthest - self.ahead))
            else:
                self.set(random.choice(list(self.off)), by)


class House(Site):
    """A site with a clock of its own, whose operator's commands are killed now and then."""

    def __init__(self, fair, role, name, *words):
        super().__init__(fair.folder, name)
        self.fair, self.role, self.name, self.lock = fair, role, name, threading.RLock()
        self.how, self.usual = fair.clocks.give(name), 0.01
        self.own = millicent.Terms(0, PERIOD, LIFE, (secret(),), (secret(),))
        self.operate("init", name, *words_of(self.own), *words, "--keep", str(KEEP), again=("50",))

    def operate(self, command, *words, contents=b"", allowed=(), again=()):
        """An operator's command, which is given again where it was killed, and then may be refused with other numbers; its status and what it says."""
        kills = 0
        while True:
            begun, within = time.monotonic(), random.uniform(0, 1.2 * self.usual) if random.random() < 0.3 else None
            status, said = run([self.role, command, self.book, *words], contents, within, **self.how)
            if status != KILLED:
                self.usual += (time.monotonic() - begun - self.usual) / 8
                break
            kills += 1
            self.fair.counts["operators' commands that were killed"] += 1
        number = said.split(b" ")[1].decode() if status == 7 else None
        self.fair.counts["operators' commands: %s" % (number or status)] += 1
        if status != 0 and number not in (*allowed, *(again if kills else ())):
            self.fair.wrong("%s %s ended with status %s and said %r" % (self.name, command, status, said))
        return status, said

    @contextmanager
    def stopped(self):
        """Is not served meanwhile."""
        with self.lock:
            self.stop()
            yield
            self.start()

    def stop(self):
        """Is killed; it has not ended by itself."""
        if self.server.poll() is not None:
            self.fair.wrong("%s ended with status %d" % (self.name, self.server.returncode))
        self.kill()

    def fail(self):
        """Is killed, now and then also while it opens its book, and served again."""
        with self.lock:
            self.stop()
            self.fair.counts["sites that were killed"] += 1
            if random.random() < 0.3:
                self.launch()
                time.sleep(random.uniform(0, 1.2 * self.usual))
                self.kill()
                self.fair.counts["sites that were killed at the start"] += 1
            time.sleep(random.choice((0, random.uniform(0, 0.3))))
            self.start()


class Rough(Lossy):
    """Links that change requests, too, and bring old ones again."""

    def __init__(self, site, counts):
        self.asked = []
        super().__init__(site, counts)

    def ask(self, data):
        how = 1 if self.is_whole or not data else random.random()
        if how < 0.04 and self.asked:
            self.counts["old requests"] += 1
            super().ask(random.choice(self.asked))
        elif how < 0.1:
            self.counts["requests that were changed"] += 1
            at = random.randrange(len(data))
            data = data[:at] + bytes((data[at] ^ 1 << random.randrange(8),)) + data[at + 1:]
        else:
            self.asked.append(data)
        return super().ask(data)


class Customer:
    """The holder of an account at a broker, with a wallet."""
    values = 50, 100, 30

    def __init__(self, fair, name, broker, links=None, account=None, clock=None):
        self.fair, self.name, self.broker, self.account = fair, name, broker.name, account or name
        self.key, self.counts, self.faults, self.is_switched = fair.keys[self.account], Counter(), Counter(), False
        os.mkdir(os.path.join(fair.folder, name))
        self.wallet = Wallet(os.path.join(fair.folder, name), self.counts, fair.wrong, **fair.clocks.give(clock or name))
        self.wallet.is_killed, self.open = True, set()
        self.links = links or {site.name: Rough(site, self.faults) for site in fair.sites}

    def connect(self, peer):
        return self.fair.nobody if random.random() < 0.02 else self.links[peer].address

    def pay(self, command, peer, *words):
        """A command of the wallet that goes to a peer."""
        status, said = self.wallet.try_out(command, peer, *words, self.connect(peer))
        if said == NOTHING:
            self.open.discard(peer)
        elif status != 0 and not said.startswith((b"refused 62", b"refused 80")):
            self.open.add(peer)
        if command == "get" and status == 0 and words[0] == PAGE.decode() and said != self.fair.contents(peer):
            self.fair.wrong("a page of %s was said as %r" % (peer, said))

    def draw(self, amount):
        self.fair.orders[self.account] += random.choice((1, 1, 1, 2))
        self.pay("draw", self.broker, self.account, self.key.hex(), str(self.fair.orders[self.account]), str(amount))

    def buy(self, vendor):
        value = random.choice(self.values) if vendor == NEWS else MINTED
        self.pay("buy", self.broker, vendor, str(value), str(value + FEE))

    def step(self):
        deed, vendor = random.random(), random.choice((NEWS, SHOP))
        if self.open and random.random() < 0.7:
            self.pay("retry", random.choice([*self.open]))
        elif deed < 0.25:
            self.draw(random.choice((60, 300, 1000)))
        elif deed < 0.5:
            self.buy(vendor)
        elif deed < 0.8:
            self.pay("get", vendor, PAGE.decode(), str(LIMIT))
        elif deed < 0.84:
            self.pay("get", self.broker, "/credit/" + self.account, "1")
        elif deed < 0.92:
            self.pay("renew", NEWS, RENEWAL, str(self.fair.clocks.now() + random.randrange(PERIOD + LIFE)))
        elif self.is_switched or self.fair.passed() < 0.25:
            self.wallet.try_out(*random.choice((("list",), ("lines", vendor))))
        else:
            self.is_switched = self.wallet.try_out("chain")[0] == 0
        self.fair.pace()

    def settle(self):
        """Asks again for what is kept, over links that lose nothing."""
        self.wallet.is_killed = False
        for peer, link in self.links.items():
            link.is_whole = True
            if not self.wallet.settle(peer, link.address, 10_000):
                self.fair.wrong("a request of %s to %s stays kept" % (self.name, peer))


class Reader(Customer):
    """A customer whose browser pays, too, through a proxy of the wallet."""
    values = 100, 400

    def __init__(self, fair, name, broker):
        super().__init__(fair, name, broker)
        self.proxy = Proxy(self.wallet, SimpleNamespace(address=self.links[NEWS].listener.getsockname()))

    def step(self):
        if random.random() < 0.3 and self.can_pay():
            self.browse()
        else:
            super().step()

    def can_pay(self):
        offers = millicent.WalletBook(self.wallet.entries()).offers(NEWS.encode(), self.fair.clocks.now())
        return any(piece.value >= LIMIT for piece, *_ in offers)

    def browse(self):
        """Reads pages through the proxy until it has no more links, or is killed."""
        budget, done = random.choice((LIMIT, 200, 10**6)), self.done()
        self.proxy.start(budget, random.randint(2, 30))
        is_killed = threading.Event()
        killer = threading.Timer(random.choice((60, random.uniform(0, 1))), lambda: (is_killed.set(), self.proxy.process.kill()))
        killer.start()
        read, status = 0, None
        while self.proxy.is_up() and status != b"402":
            status = self.read()
            read += status == b"200"
            self.fair.pace()
        killer.cancel()
        killer.join()
        if is_killed.is_set() and self.proxy.process.wait() == KILLED:
            self.proxy.kill()
            self.counts["proxies that were killed"] += 1
        else:
            self.proxy.end()
            self.counts["proxies that ended"] += 1
        paid, made = self.proxy.booked() - self.proxy.paid, self.done() - done
        self.counts["pages by proxy: done"] += made
        if paid > budget or read > made:
            self.fair.wrong("a proxy paid %d of %d, and %d pages were read of %d" % (paid, budget, read, made))

    def done(self):
        return sum(entry.kind == millicent.DONE for entry in self.wallet.entries())

    def read(self):
        """Asks for a page, and mostly waits for it; the status of the reply where there is one."""
        try:
            with Link(self.proxy.address, 70) as link:
                link.send(b"GET %s HTTP/1.1\r\nHost: 127.0.0.1\r\nConnection: close\r\n\r\n" % PAGE)
                if random.random() < 0.1:
                    self.counts["browsers that went away"] += 1
                    return None
                reply = millicent.Reply(link.receive())
        except OSError:
            return None
        number = reply.field(b"Refusal").split(b" ")[0]
        self.counts["pages by proxy: %s" % (reply.status if number == b"-" else number).decode()] += 1
        if number not in (b"-", b"62", b"63", b"64", b"65", b"66", b"68", b"79", b"81") or number == b"-" and reply.contents != self.fair.contents(NEWS):
            self.fair.wrong("the proxy answered %r" % reply.whole)
        return reply.status


class Fair:
    def __init__(self, folder, seconds):
        self.folder, self.seconds, self.begun = folder, seconds, time.monotonic()
        self.counts, self.violations, self.ended = Counter(), 0, threading.Event()
        self.clocks, self.nobody = Clocks(folder), "127.0.0.1:%d" % free_port()
        self.keys = {name: secret() for name in ("ann", "ben", "cat", "kiosk")}
        self.orders, self.moved, self.settled, self.numbers = Counter(), Counter(), {}, Counter()
        self.news, self.shop = (House(self, "vendor", name) for name in (NEWS, SHOP))
        self.bank, self.kiosk = (House(self, "broker", name, str(fee)) for name, fee in (("bank", 1), ("kiosk", FEE)))
        self.sites = (self.bank, self.kiosk, self.news, self.shop)
        for vendor in (self.news, self.shop):
            self.sell(vendor, PAGE.decode(), 20, self.contents(vendor.name))
            self.sell(vendor, RENEWAL, 1, b"renewed\n")
        for broker, names in ((self.bank, ("ann", "cat", "kiosk")), (self.kiosk, ("ben",))):
            terms = millicent.Terms(ISSUERS[broker.name], PERIOD, LIFE, (secret(),), (secret(),))
            broker.operate("licence", contents=self.news.operate("licence", str(terms.issuer), *words_of(terms))[1])
            for name in names:
                broker.operate("account", name, self.keys[name].hex())
                self.deposit(broker, name, FIRST)
        self.stock(64)
        self.customers = [Customer(self, "ann", self.bank), Customer(self, "ben", self.kiosk), Reader(self, "cat", self.bank)]
        self.till_faults, self.tills, self.is_upgraded, self.to_switch = Counter(), [], False, [self.shop, self.kiosk]
        self.till_links = {"bank": Rough(self.bank, self.till_faults)}
        self.clocks.give("till")

    def wrong(self, what):
        self.violations += 1
        print("VIOLATION:", what, flush=True)
        self.ended.set()

    @staticmethod
    def contents(vendor):
        return b"A page of %s.\n" % vendor.encode()

    def passed(self):
        """How much of the trial has passed."""
        return (time.monotonic() - self.begun) / self.seconds

    def pace(self):
        """Waits while all of it took more than its share of a processor."""
        while sum(os.times()[:4]) > SHARE * (time.monotonic() - self.begun) and not self.ended.wait(0.02):
            pass

    def number(self, what):
        """A number that none before it was, for a name."""
        self.numbers[what] += 1
        return "%s-%d" % (what, self.numbers[what])

    # What operators do.

    @staticmethod
    def sell(vendor, target, price, contents):
        vendor.operate("goods", target, str(price), contents=contents)

    def deposit(self, broker, name, amount):
        broker.operate("deposit", name, str(amount), self.number("receipt"))
        self.moved["in", broker.name] += amount

    def withdraw(self, broker, name, amount):
        if broker.operate("withdraw", name, str(amount), self.number("payout"), allowed=("42",))[0] == 0:
            self.moved["out", broker.name] += amount

    def stock(self, count):
        """The shop mints pieces, and the bank takes them into its stock; neither is served, or both are about to be."""
        _, lines = self.shop.operate("mint", str(count), str(MINTED), self.number("mint"))
        self.bank.operate("stock", SHOP, contents=lines, again=("57",))

    def restock(self):
        """The kiosk buys pieces of the shop at the bank by a new wallet, and takes them into its stock."""
        till = Customer(self, self.number("till"), self.bank, self.till_links, "kiosk", "till")
        self.tills.append(till)
        till.draw(6 * (MINTED + 1))
        for _ in range(12):
            random.choice((lambda: till.buy(SHOP), lambda: till.pay("retry", "bank")))()
        status, lines = till.wallet.run("lines", SHOP)
        if status == 0:
            with self.kiosk.stopped():
                self.kiosk.operate("stock", SHOP, contents=lines, again=("57",))

    def upgrade(self):
        """The scrip of the news, and of it what the brokers make, goes over to the second version, from the next epoch but one on."""
        self.is_upgraded = True
        with self.clocks.lock, self.news.stopped(), self.bank.stopped(), self.kiosk.stopped():
            self.clocks.agree(NEWS, "bank", "kiosk")
            latest = max(self.clocks.now(), *(site.entries()[-1].moment for site in (self.news, self.bank, self.kiosk)))
            epoch = str(latest // PERIOD + 2)
            for issuer in (0, *ISSUERS.values()):
                self.news.operate("upgrade", str(issuer), epoch)
            for broker in (self.bank, self.kiosk):
                broker.operate("upgrade", NEWS, epoch)

    def settle(self, broker, most=3, allowed=("74",)):
        """The news states what it took of the oldest series of a broker's licence, as far as they have ended, and the broker enters that it is paid."""
        issuer = ISSUERS[broker.name]
        sold = {millicent.epoch_of(piece[0]) for _, stock, piece in millicent.Book(broker.entries()).sales if not stock}
        epochs = sorted(epoch for epoch in sold if (issuer, epoch) not in self.settled)[:most]
        with self.news.stopped():
            stated = [self.news.operate("statement", str(issuer), str(epoch), allowed=allowed) for epoch in epochs]
        with broker.stopped():
            for epoch, (status, line) in zip(epochs, stated):
                status, said = broker.operate("settle", contents=line, allowed=allowed) if status == 0 else (status, b"")
                if status == 0:
                    self.settled[issuer, epoch] = int(line.split(b" ")[4])
                    if said != b"paid " + b" ".join(line.split(b" ")[1:5]) + b"\n":
                        self.wrong("%r was paid as %r" % (line, said))

    def operate(self):
        """An operator does something, while his site is not served."""
        broker = random.choice((self.bank, self.kiosk))
        what = random.random()
        if self.passed() > 0.25 and self.to_switch:
            site = self.to_switch.pop()
            with site.stopped():
                site.operate("chain")
        elif self.passed() > 0.4 and not self.is_upgraded:
            self.upgrade()
        elif what < 0.3:
            vendor = random.choice((self.news, self.shop))
            with vendor.stopped():
                vendor.operate("price", PAGE.decode(), str(random.randint(10, LIMIT)))
        elif what < 0.6:
            with broker.stopped():
                name = random.choice(("ann", "cat", "kiosk") if broker is self.bank else ("ben",))
                random.choice((self.deposit, self.withdraw))(broker, name, random.randint(1, FIRST // 100))
        elif what < 0.75:
            with self.shop.stopped(), self.bank.stopped():
                self.stock(random.randint(1, 64))
        elif what < 0.9:
            self.restock()
        else:
            self.settle(broker)

    # How it runs.

    def run(self):
        """The fair, until its time has passed or something does not hold."""
        for site in self.sites:
            site.start()
        deeds = [(customer.step, 0.02) for customer in self.customers]
        deeds += [(lambda: random.choice(self.sites).fail(), 1.2), (self.clocks.jump, 2), (self.operate, 5)]
        threads = [threading.Thread(target=self.always, args=deed, daemon=True) for deed in deeds]
        for thread in threads:
            thread.start()
        for minute in range(1, self.seconds // 60 + 1):
            self.ended.wait(self.begun + 60 * minute - time.monotonic())
            self.tell(minute)
        self.ended.wait(self.begun + self.seconds - time.monotonic())
        self.ended.set()
        for thread in threads:
            thread.join()

    def always(self, deed, rest):
        """Does this again and again, with pauses of so many seconds at most."""
        while not self.ended.wait(random.uniform(0, rest)):
            self.attempt(deed)

    def attempt(self, deed):
        try:
            deed()
        except Exception:
            self.wrong(traceback.format_exc())

    def all_counts(self):
        people = self.customers + self.tills
        of = [[self.counts, *(each.counts for each in people)], [self.till_faults, *(each.faults for each in people)], [self.clocks.counts]]
        return [sum((Counter(dict(each)) for each in some), Counter()) for some in of]

    def tell(self, minute):
        counts, faults, jumps = self.all_counts()
        done = sum(count for what, count in counts.items() if what.endswith(": done") and not what.startswith(("list", "lines", "chain")))
        killed = sum(count for what, count in counts.items() if "killed" in what)
        print("%3d min: %d payments and draws, %d kills, %d faults of links, %d jumps of clocks, %d violations" % (
            minute, done, killed, sum(faults.values()), sum(jumps.values()), self.violations), flush=True)

    # What it comes to.

    def end(self):
        """All clocks agree, and all that is kept is asked for again until nothing is; then no site is served."""
        self.clocks.agree()
        latest = max(book.entries()[-1].moment for book in self.books())
        self.clocks.go_on(max(0, latest + 1 - self.clocks.now()))
        for customer in self.customers + self.tills:
            customer.settle()
        for site in self.sites:
            site.stop()

    def books(self):
        """All that has a book."""
        return [*self.sites, *(customer.wallet for customer in self.customers + self.tills)]

    def look(self):
        """What the second program finds in the books."""
        entries = {site.name: site.entries() for site in self.sites}
        tree = millicent.Tree([millicent.Book(each) for each in entries.values()])
        for name, each in entries.items():
            if millicent.first_unlawful(each, 2**32) is not None:
                self.wrong("the book of %s is not lawful" % name)
        for book in tree.books:
            self.look_for_doubles(book)
        self.look_at_wallets(tree)
        self.look_at_settlements(entries)

    def look_for_doubles(self, book):
        """No identity twice: of what was accepted, of a site's own pieces, and of what was sold."""
        accepted = [millicent.read_scrip(entry.scrip).id for entry in book.of(millicent.ACCEPT)]
        own = [ident for ident, *_ in book.own] + [ident for ident, _ in book.minted]
        sold = [(vendor, ident) for vendor, _, (ident, *_) in book.sales]
        for what in (accepted, own, sold):
            if len(set(what)) < len(what):
                self.wrong("%s has an identity twice" % book.name)

    def look_at_wallets(self, tree):
        wallets = {customer.name: customer.wallet.entries() for customer in self.customers + self.tills}
        asked = {name: requests(entries) for name, entries in wallets.items()}
        took = {(entry.scrip, entry.target) for book in tree.books for entry in book.of(millicent.ACCEPT)}
        sites = {site.name: SimpleNamespace(book=site.book, entries=lambda book=book: book.entries) for site, book in zip(self.sites, tree.books)}
        for name, entries in wallets.items():
            refused = requests(entries, millicent.REFUSED)
            others = set().union(refused, *(keys for other, keys in asked.items() if other != name))
            self.counts["payments and draws that are done"] += compare(entries, sites, self.wrong, others)
            self.counts["payments that a site took, and refused later"] += len(refused & took)
            if millicent.first_against(entries) is not None or millicent.WalletBook(entries).kept():
                self.wrong("the wallet %s is not lawful, or a request is kept" % name)
            self.look_at_holdings(name, entries, tree, {scrip for scrip, _ in refused & took})

    def look_at_holdings(self, name, entries, tree, late):
        """What a wallet holds was handed out, and not spent but by a request of its own that the site took and refused, or that came late."""
        handed = {book.name: {piece[:2] for piece in tree.handed_out(book)} for book in tree.books}
        spent = {book.name: book.spent for book in tree.books}
        for state, text, _ in millicent.WalletBook(entries).holdings():
            piece = millicent.read_scrip(text)
            is_spent = piece.id in spent[piece.vendor]
            is_as_told = is_spent if state in ("used", "disputed") else not is_spent or text in late or name.startswith("till")
            self.counts["pieces that are %s" % state] += 1
            self.counts["pieces of version %d" % piece.version] += 1
            if (piece.id, piece.value) not in handed[piece.vendor] or not is_as_told:
                self.wrong("%s has as %s the piece %r" % (name, state, text))

    def look_at_settlements(self, entries):
        """What was stated is what was redeemed, and no more than was sold."""
        for (issuer, epoch), amount in self.settled.items():
            series = NEWS.encode(), issuer, epoch
            broker = next(name for name, number in ISSUERS.items() if number == issuer)
            redeemed = millicent.redeemed(SimpleNamespace(entries=entries[NEWS]), series)
            sold = millicent.sold(SimpleNamespace(entries=entries[broker]), series)
            self.counts["series that were settled"] += 1
            if not amount == redeemed <= sold:
                self.wrong("of %r %d was sold, %d redeemed, and %d stated" % (series, sold, redeemed, amount))

    def audit(self):
        """The auditor says the sums of the second program, by which nothing was lost and nothing made."""
        tree = millicent.Tree([millicent.Book(site.entries()) for site in self.sites])
        status, said = run(["audit", "tree", *(site.book for site in self.sites)], **self.clocks.give("auditor"))
        if (status, said, tree.first_stranger()) != (0, millicent.tree_lines(tree), None):
            self.wrong("the audit ended with status %s and said %r" % (status, said))
        sums = {book.name.decode(): millicent.broker_sums(book) for book in tree.brokers}
        paid_in, paid_out = ({name: each[n] for name, each in sums.items()} for n in (0, 1))
        if any((paid_in[name], paid_out[name]) != (self.moved["in", name], self.moved["out", name]) for name in sums):
            self.wrong("there came in %r, and went out %r" % (paid_in, paid_out))
        found = sum(sum(each[1:]) for each in sums.values()) + sum(sum(tree.vendor_sums(book)) for book in tree.vendors)
        if sum(paid_in.values()) != found + tree.relayed():
            self.wrong("%r came in, and %d and %d are there" % (paid_in, found, tree.relayed()))
        print(said.decode(), end="", flush=True)

    def look_at_chains(self):
        """Each chain is unbroken, and the auditor says of each book what the second program does."""
        books, lines = self.books(), []
        for book in books:
            with open(book.book, "rb") as f:
                replay = millicent.Replay(millicent.Stage(f.read()))
            entries, chain = [entry for _, entry in iter(replay.next, None)], millicent.Chain()
            for entry in entries:
                chain.push(entry.payload)
            lines.append(b"chain %s %d %s\n" % (entries[0].name, len(entries), chain.digest.hex().encode()))
            self.counts["books with a chain"] += replay.chain.switched
        status, said = run(["audit", "chain", *(book.book for book in books)], **self.clocks.give("auditor"))
        if (status, said) != (0, b"".join(lines)):
            self.wrong("the audit of chains ended with status %s and said %r in place of %r" % (status, said, lines))

    def close(self):
        """All series end, and all licensed ones are settled."""
        self.clocks.go_on(2 * (PERIOD + LIFE))
        for site in self.sites:
            site.start()
        for broker in (self.bank, self.kiosk):
            self.settle(broker, most=None, allowed=())
        for site in self.sites:
            site.stop()


def requests(entries, kind=millicent.PEND):
    """The requests of a wallet by their scrip and their target: all, or those that were settled by an entry of this kind."""
    asked = {number: (entry.scrip, entry.target) for number, entry in enumerate(entries) if entry.kind == millicent.PEND}
    return set(asked.values()) if kind == millicent.PEND else {asked[entry.number] for entry in entries if entry.kind == kind}


def main():
    folder = tempfile.mkdtemp(prefix="millicent-")
    fair = Fair(folder, int(sys.argv[1]) if len(sys.argv) > 1 else 1200)
    try:
        fair.run()
        for part in (fair.end, fair.audit, fair.look_at_chains, fair.close, fair.audit, fair.look):
            if not fair.violations:
                fair.attempt(part)
    finally:
        for site in fair.sites:
            site.end()
    counts = sum(fair.all_counts(), Counter())
    for what, count in sorted(counts.items() | {("violations", fair.violations)}):
        print("%8d  %s" % (count, what))
    if fair.violations:
        print("the books stay in", folder)
        return 1
    shutil.rmtree(folder)
    return 0


if __name__ == "__main__":
    raise SystemExit(main())
