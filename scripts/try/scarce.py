#!/usr/bin/env python3
"""Runs each command of a small market while each growth of memory is refused in turn, one a run, over a copy of the books before it, and then the same
command once more, with memory.

    scripts/try/scarce.py [WORD..]

With words only the commands that have one of them. No run is ended by a signal or hangs, and each ends with 0 or 5; its book is as before, or has
entries that the command enters, from the first on, and where an operator's command ends with 5 none. The command given again, of a wallet that kept a
request `wallet retry`, then says what it says by itself, or where it was done already what it says when it is given twice, and leaves the same entries.
Links come from a client that asks again until it has a reply, or the program ends. A line for each command tells how many growths there are, and how
many runs ended with which status, and which refusal. The status is 1 where something does not hold. It wants a C compiler, `cc`."""
import os
import re
import shutil
import socket
import subprocess
import sys
import tempfile
import time
from collections import Counter
from pathlib import Path

sys.path.insert(0, str(Path(__file__).resolve().parents[1] / "lib"))

import millicent  # noqa: E402
from customer import Wallet  # noqa: E402
from growths import PATIENCE, Run, build  # noqa: E402
from lossy import received  # noqa: E402
from serving import PROGRAM, Site, free_port, secret  # noqa: E402

NEWS, SHOP, MAP = "news.example", "shop.example", "map.example"
# Terms in whose epoch no run comes to the end.
LONG = "16777216 16777216 %s %s"


def terms(form=LONG):
    return (form % (secret().hex(), secret().hex())).split()


def house(folder, role, name, *words):
    site = Site(folder, name)
    site.role = role
    site.command("init", name, *terms(), *words, "--keep", "86400")
    return site


class Market:
    """Books before the commands, and sites that wallets ask. The commands run in a folder of their own."""

    def __init__(self, folder):
        self.folder, self.at = folder, os.path.join(folder, "at")
        self.news, self.shop, self.map = (house(folder, "vendor", name) for name in (NEWS, SHOP, MAP))
        self.bank, self.key = house(folder, "broker", "bank", "1"), secret()
        for target, price in (("/page", "20"), ("/renew", "1")):
            self.news.command("goods", target, price, contents=b"A page.\n")
        for vendor, form in ((self.news, LONG), (self.shop, "2048 0 %s %s")):
            self.bank.command("licence", contents=vendor.command("licence", "1", *terms(form)).encode())
        self.bank.command("account", "ann", self.key.hex())
        self.bank.command("deposit", "ann", "10000", "receipt-1")
        self.pieces = self.news.command("mint", "2", "100", "mint-1").encode().splitlines(True)
        self.stock = self.map.command("mint", "2", "50", "mint-1").encode()
        self.licence = self.map.command("licence", "1", *terms()).encode()
        self.ended = int(time.time()) // 2048 - 2
        self.reached = {"bank": "%s:%d" % self.bank.address, "news": "%s:%d" % self.news.address, "door": os.path.join(self.at, "door"),
                        "ended": self.ended, "key": self.key.hex()}
        self.wallet = Wallet(folder, Counter(), print, stderr=subprocess.DEVNULL)
        self.fill()
        for name in os.listdir(folder):
            if name.endswith(".book"):
                shutil.copy(os.path.join(folder, name), os.path.join(folder, name + ".before"))
        self.statement = self.shop.command("statement", "1", str(self.ended)).encode()

    def begin(self):
        """The sites that wallets ask are as they were before."""
        for site in (self.bank, self.news):
            site.end()
            shutil.copy(site.book + ".before", site.book)
            site.start()

    def fill(self):
        """The wallet draws, buys and pays; a copy of it keeps a request."""
        self.bank.start()
        self.news.start()
        for line in ("draw bank ann {key} 1 1000 {bank}", *["buy bank {0} 100 101 {bank}"] * 2, "get {0} /page 20 {news}"):
            self.wallet.sure(*line.format(NEWS, **self.reached).split())
        shutil.copy(self.wallet.book, os.path.join(self.folder, "kept.book"))
        asked = [PROGRAM, "wallet", "get", os.path.join(self.folder, "kept.book"), NEWS, "/page", "20", "127.0.0.1:%d" % free_port()]
        assert subprocess.run(asked, stdout=subprocess.PIPE, stderr=subprocess.PIPE).returncode == 7

    def paying(self, piece, target):
        """A request that pays with a piece."""
        text, of = piece
        sign = millicent.request_signature(text, target, of)
        return millicent.request(text, target, sign, millicent.read_scrip(text).vendor)

    def held(self, site):
        """A piece of a site that the wallet holds."""
        holdings = millicent.WalletBook(self.wallet.entries()).holdings()
        return next((text, of) for state, text, of in holdings if state == "held" and millicent.read_scrip(text).vendor == site)

    def tasks(self):
        text, digits = self.pieces[0][:-1].split(b" ")
        minted, own = (text, bytes.fromhex(digits.decode())), self.held(b"bank")
        plain = b"GET /page HTTP/1.1\r\nHost: 127.0.0.1\r\nConnection: close\r\n\r\n"
        draw = millicent.draw_request(b"/draw/ann/2/60", self.key)
        fresh = " ".join(terms())
        asking = "wallet retry wallet.book %s {%s}"
        return [
            Task("vendor init new.book new.example " + fresh),
            Task("vendor goods news.example.book /other 5", b"Another page.\n"),
            Task("vendor price news.example.book /page 21"),
            Task("vendor licence news.example.book 2 " + fresh),
            Task("vendor mint news.example.book 4 50 mint-2"),
            Task("vendor upgrade news.example.book 1 200"),
            Task("vendor chain news.example.book"),
            Task("vendor statement shop.example.book 1 {ended}"),
            Task("vendor serve news.example.book {door} 1", asked=self.paying(minted, b"/page")),
            Task("broker init new.book new " + fresh + " 1"),
            Task("broker account bank.book ben " + secret().hex()),
            Task("broker deposit bank.book ann 50 receipt-2"),
            Task("broker withdraw bank.book ann 50 payout-1"),
            Task("broker balance bank.book ann"),
            Task("broker licence bank.book", self.licence),
            Task("broker stock bank.book " + MAP, self.stock),
            Task("broker upgrade bank.book bank 200"),
            Task("broker chain bank.book"),
            Task("broker settle bank.book", self.statement),
            Task("broker serve bank.book {door} 1", asked=draw),
            Task("broker serve bank.book {door} 1", asked=self.paying(own, b"/buy/" + NEWS.encode() + b"/50")),
            Task("broker serve bank.book {door} 1", asked=self.paying(own, b"/credit/ann")),
            Task("wallet init new.book new"),
            Task("wallet take wallet.book", self.pieces[1]),
            Task("wallet draw wallet.book bank ann {key} 3 60 {bank}", retry=asking % ("bank", "bank")),
            Task("wallet buy wallet.book bank news.example 50 51 {bank}", retry=asking % ("bank", "bank")),
            Task("wallet get wallet.book news.example /page 20 {news}", retry=asking % (NEWS, "news")),
            Task("wallet renew wallet.book news.example /renew 34359738367 {news}", retry=asking % (NEWS, "news"), retried=b"A page.\n"),
            Task("wallet retry kept.book news.example {news}", retry="wallet retry kept.book news.example {news}"),
            Task("wallet proxy wallet.book news.example 20 1000 {door} {news} 1", asked=plain,
                 retry="wallet proxy wallet.book news.example 20 1000 {door} {news} 1"),
            Task("wallet list wallet.book"),
            Task("wallet lines wallet.book news.example"),
            Task("wallet chain wallet.book"),
            Task("audit report bank.book news.example.book shop.example.book"),
            Task("audit tree bank.book news.example.book shop.example.book map.example.book"),
            Task("audit chain bank.book news.example.book wallet.book"),
        ]


class Task:
    """A command, what comes on its standard input, what a client asks on its one link, and the command that asks again for a request that it kept, and
    what that says, where it is something else."""

    def __init__(self, line, contents=b"", asked=None, retry=None, retried=None):
        self.line, self.contents, self.asked, self.retry, self.retried = line, contents, asked, retry, retried
        self.is_operators = line.split()[0] in ("vendor", "broker") and asked is None

    def place(self, market, library):
        self.market, self.library = market, library
        self.books = [word for word in self.line.split() if word.endswith(".book")]

    def reset(self):
        """The books as they were before."""
        at = self.market.at
        shutil.rmtree(at, ignore_errors=True)
        os.mkdir(at)
        for name in self.books:
            if os.path.exists(os.path.join(self.market.folder, name + ".before")):
                shutil.copy(os.path.join(self.market.folder, name + ".before"), os.path.join(at, name))

    def entries(self):
        """The entries of the book, but for their moments; none where it is not founded."""
        path = os.path.join(self.market.at, self.books[0])
        if not os.path.exists(path) or os.path.getsize(path) <= len(millicent.HEADER):
            return []
        with open(path, "rb") as f:
            return [entry.payload[:1] + entry.payload[9:] for entry in millicent.entries_of(f.read())]

    def run(self, growth=0, line=None):
        """Runs it, and its client: its status, what it said and what the client got, without moments; and how many growths there were."""
        words = (line or self.line).format(**self.market.reached).split()
        ran = Run(self.library, growth, [PROGRAM, *words], cwd=self.market.at, stdin=subprocess.PIPE, stderr=subprocess.DEVNULL)
        reply = self.ask(ran.process) if self.asked else b""
        status, said, grown = ran.end(self.contents)
        return (status, masked(said), masked(reply)), grown

    def ask(self, process):
        """What a client gets, who asks again where nothing came."""
        until = time.monotonic() + PATIENCE
        while process.poll() is None and time.monotonic() < until:
            try:
                with socket.socket(socket.AF_UNIX) as link:
                    link.settimeout(10)
                    link.connect(self.market.reached["door"])
                    link.sendall(self.asked)
                    link.shutdown(socket.SHUT_WR)
                    if reply := received(link):
                        return reply
            except OSError:
                time.sleep(0.001)
        return b""

    def refuse(self):
        """Refuses each growth in turn; what came out, by how many runs, and what does not hold."""
        self.reset()
        before = self.entries()
        first, _ = self.run()
        after = self.entries()
        twice = self.run()[0], self.entries()
        came, wrongs, growth = Counter(), [], 0
        while True:
            growth += 1
            self.reset()
            did, grown = self.run(growth)
            left = self.entries()
            if did[0] is not None and did[0] >= 0 and grown < growth:
                if (did, left) != (first, after):
                    wrongs.append("unhindered it says %r" % (did,))
                return growth - 1, came, wrongs
            came[label(did)] += 1
            if did[0] not in (0, 5) or after[:len(left)] != left or len(left) < len(before) or did[0] == 5 and self.is_operators and left != before:
                wrongs.append("growth %d refused: %r, and %d entries are left" % (growth, did, len(left)))
            is_kept = self.retry is not None and before != left != after
            again = self.run(0, self.retry if is_kept else None)[0], self.entries()
            wanted = ((0, self.retried, b"") if is_kept and self.retried else first), after
            if again != (twice if left == after != before else wanted):
                wrongs.append("growth %d refused: %r, and then %r" % (growth, did, again[0]))


def masked(data):
    """Without what tells the moment: dates, and digests of all entries."""
    return re.sub(rb"Date: [^\r]*|\b[0-9a-f]{64}\b", b"-", data)


def label(did):
    """The status of a run, with the refusal that was said or replied."""
    status, said, reply = did
    number = re.match(rb"refused (\d+)", said) or re.search(rb"Millicent-Refusal: (\d+)", reply)
    return "%s%s" % (status, " with %s" % number[1].decode() if number else "")


def main(words):
    with tempfile.TemporaryDirectory(prefix="millicent-") as folder:
        library, market, total, wrong = build(folder), None, Counter(), 0
        market = Market(folder)
        try:
            for task in market.tasks():
                if words and not set(words) & set(task.line.split()):
                    continue
                market.begin()
                task.place(market, library)
                count, came, wrongs = task.refuse()
                print("%s: %d growths; %s" % (" ".join(task.line.split()[:2]), count, ", ".join("%s: %d" % each for each in sorted(came.items()))), flush=True)
                for each in wrongs:
                    print("WRONG:", each, flush=True)
                total, wrong = total + came, wrong + len(wrongs)
        finally:
            market.bank.end()
            market.news.end()
    print("%d runs; %s; %d do not hold" % (sum(total.values()), ", ".join("%s: %d" % each for each in sorted(total.items())), wrong))
    return 1 if wrong else 0


if __name__ == "__main__":
    sys.exit(main(sys.argv[1:]))
