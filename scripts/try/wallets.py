#!/usr/bin/env python3
"""A real wallet, a bank and a vendor over loopback, while each of them is killed at random moments, and the wallet reaches the
sites through links that lose requests and replies, cut them, repeat them and give old replies. In the end the wallet tries all
again over links that lose nothing, and the second program compares the books: every payment that the wallet has as done is one
entry of its site with the same price and change, no two are one, the sites took nothing else of the wallet's, every held piece
is good, and the auditor finds the books balanced. The arguments are the number of the wallet's commands (300), and after how many
seconds it stops at most, whatever that is (120)."""
import random
import subprocess
import sys
import tempfile
import threading
import time
from collections import Counter
from pathlib import Path

sys.path.insert(0, str(Path(__file__).resolve().parents[1] / "lib"))

import millicent  # noqa: E402
from bank import Bank  # noqa: E402
from customer import Wallet, compare  # noqa: E402
from lossy import Lossy  # noqa: E402
from pages import PAGE, PRICE, Vendor  # noqa: E402
from serving import PROGRAM, Link, free_port  # noqa: E402

KEEP, FIRST = 86_400, 10**6
ACCOUNT, MINTED = "ann", 50


class Village:
    """A bank, a vendor with his licence at the bank and pieces in its stock, and a wallet."""

    def __init__(self, folder):
        self.counts, self.violations, self.order = Counter(), 0, 0
        self.bank, self.news = Bank(folder, KEEP), Vendor(folder, "news.example", KEEP)
        self.shop = Vendor(folder, "shop.example", KEEP)
        self.sites = {"bank": self.bank, "news.example": self.news, "shop.example": self.shop}
        self.bank.found()
        self.bank.open(ACCOUNT, FIRST)
        self.bank.command("licence", contents=self.news.licence())
        self.bank.command("stock", "shop.example", contents=self.shop.mint(256, MINTED, "m1"))
        self.links = {name: Lossy(site, self.counts) for name, site in self.sites.items()}
        self.wallet = Wallet(folder, self.counts, self.wrong)
        self.nobody = "127.0.0.1:%d" % free_port()

    def wrong(self, what):
        self.violations += 1
        print("VIOLATION:", what, flush=True)

    def connect(self, name):
        return self.nobody if self.wallet.is_killed and random.random() < 0.02 else self.links[name].address

    # What the customer does.

    def step(self):
        deed, name = random.random(), random.choice(("news.example", "shop.example"))
        if deed < 0.2:
            self.order += random.choice((1, 1, 1, 2))
            self.wallet.try_out("draw", "bank", ACCOUNT, self.bank.keys[ACCOUNT].hex(), str(self.order), str(random.choice((60, 300, 1000))),
                                self.connect("bank"))
        elif deed < 0.45:
            value = random.choice((50, 100, 20)) if name == "news.example" else MINTED
            self.wallet.try_out("buy", "bank", name, str(value), str(value + 1), self.connect("bank"))
        elif deed < 0.65:
            status, said = self.wallet.try_out("get", name, PAGE.decode(), str(PRICE), self.connect(name))
            if status == 0 and said != b"A page of %s.\n" % name.encode():
                self.wrong("a page was said as %r" % said)
        elif deed < 0.7:
            self.wallet.try_out("get", "bank", "/credit/" + ACCOUNT, "1", self.connect("bank"))
        else:
            peer = random.choice(list(self.sites))
            self.wallet.try_out("retry", peer, self.connect(peer))

    def run(self, steps, seconds):
        """The customer's commands, for so many seconds at most, while sites are killed and started again."""
        ended, until = threading.Event(), time.monotonic() + seconds
        for site in self.sites.values():
            site.start()
        killer = threading.Thread(target=self.kill_sites, args=(ended,))
        killer.start()
        self.wallet.is_killed = True
        while self.counts["commands"] < steps and time.monotonic() < until:
            self.step()
            self.counts["commands"] += 1
        ended.set()
        killer.join()
        self.wallet.is_killed = False

    def kill_sites(self, ended):
        """Kills a site at some moment of every third command or so, and starts it again."""
        while not ended.is_set():
            for_commands = self.counts["commands"] + random.randint(1, 5)
            while self.counts["commands"] < for_commands and not ended.wait(0.002):
                pass
            if ended.wait(random.uniform(0, self.wallet.usual)):
                return
            site = random.choice(list(self.sites.values()))
            site.kill()
            time.sleep(random.choice((0, random.uniform(0, self.wallet.usual))))
            site.start()
            self.counts["kills of sites"] += 1

    # What it comes to.

    def settle(self):
        """Tries each kept request again over links that lose nothing."""
        for name, link in self.links.items():
            link.is_whole = True
            # At most as many are kept as there were commands.
            if not self.wallet.settle(name, link.address, self.counts["commands"] + 1):
                self.wrong("a request to %s stays kept" % name)

    def compare(self):
        """The wallet's payments and draws beside the entries of the sites."""
        self.counts["payments and draws that are done"] = compare(self.wallet.entries(), self.sites, self.wrong)

    def pay_out(self):
        """Pays with each piece that the wallet holds, by itself: all are good."""
        holdings = millicent.WalletBook(self.wallet.entries()).holdings()
        lines = self.wallet.sure("list").decode().splitlines()
        if [line.split(" ")[0] for line in lines] != [state for state, _, _ in holdings]:
            self.wrong("the wallet's list is %r" % lines)
        for state, text, secret in holdings:
            self.counts["pieces that are %s" % state] += 1
            if state == "held":
                self.pay(text, secret)
            elif state != "used":
                self.wrong("the piece %r is %s" % (text, state))

    def pay(self, text, secret):
        """Pays with a piece: it is taken, or it is worth less than the page, as the site says and signs."""
        piece = millicent.read_scrip(text)
        target = b"/credit/" + ACCOUNT.encode() if piece.vendor == b"bank" else PAGE
        asked = millicent.request(text, target, millicent.request_signature(text, target, secret), piece.vendor)
        with Link(self.sites[piece.vendor.decode()].address) as link:
            reply = millicent.Reply(link.ask(asked))
        is_signed = millicent.reply_sign(text, target, reply, secret).hex().encode() == reply.field(b"Sign")
        is_little = piece.value < PRICE and reply.field(b"Refusal") == b"31 TooLittle %d" % PRICE
        if not is_signed or reply.status != b"200" and not is_little:
            self.wrong("the held piece %r was answered %r" % (text, reply.whole))

    def audit(self):
        words = [PROGRAM, "audit", "report", *(site.book for site in self.sites.values())]
        ran = subprocess.run(words, stdout=subprocess.PIPE)
        if ran.returncode or not ran.stdout.endswith(b"\nbalanced\n"):
            self.wrong("the audit ended with status %d and said %r" % (ran.returncode, ran.stdout))
        print(ran.stdout.decode(), end="")


def main():
    steps, seconds = map(int, sys.argv[1:] + ["300", "120"][len(sys.argv) - 1 :])
    with tempfile.TemporaryDirectory(prefix="millicent-") as folder:
        village = Village(folder)
        try:
            village.run(steps, seconds)
            village.settle()
            village.compare()
            village.pay_out()
        finally:
            for site in village.sites.values():
                site.end()
        village.audit()
    for what, count in sorted(village.counts.items() | {("violations", village.violations)}):
        print("%8d  %s" % (count, what))
    return village.violations > 0


if __name__ == "__main__":
    raise SystemExit(main())
