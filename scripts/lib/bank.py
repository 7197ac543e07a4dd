"""A broker in a folder for the scripts: its book, its accounts with their keys, and the requests of its
customers."""
import itertools
import time
from types import SimpleNamespace

import millicent
from serving import Site, secret, words_of

NAME, FEE = b"bank", 1
# The serials of the broker's own pieces that a script makes: none that the broker comes to.
FRESH = 2**31


class Bank(Site):
    """A broker, which the program founds. It takes requests without a signature."""
    role = "broker"

    def __init__(self, folder, keep=600, period=4096):
        super().__init__(folder, "bank")
        self.keep, self.own = keep, millicent.Terms(0, period, 8192, (secret(),), (secret(),))
        self.keys, self.orders, self.serials = {}, {}, itertools.count(FRESH)

    def found(self):
        said = self.command("init", NAME.decode(), *words_of(self.own), str(FEE), "--keep", str(self.keep), "--clear")
        assert said == "founded bank\n", "the program said %r" % said

    def open(self, name, amount):
        """Opens an account, and puts an amount in."""
        self.keys[name], self.orders[name] = secret(), 0
        said = self.command("account", name, self.keys[name].hex())
        assert said == "account %s\n" % name, "the program said %r" % said
        assert self.deposit(name, amount, "first." + name) == amount

    def balance_said(self, command, name, *words):
        said = self.command(command, name, *words)
        front = "balance %s " % name
        assert said.startswith(front), "the program said %r" % said
        return int(said[len(front):])

    def deposit(self, name, amount, reference):
        return self.balance_said("deposit", name, str(amount), reference)

    def withdraw(self, name, amount, reference):
        return self.balance_said("withdraw", name, str(amount), reference)

    def balance(self, name):
        return self.balance_said("balance", name)

    def draw(self, name, amount):
        """The next draw of an account: its target and its bytes."""
        self.orders[name] += 1
        target = b"/draw/%s/%d/%d" % (name.encode(), self.orders[name], amount)
        return target, millicent.draw_request(target, self.keys[name])

    def fresh(self, value):
        """A piece of the broker's own that was never paid with, though nobody drew it."""
        ident = millicent.id_of(0, self.own.epoch(int(time.time())), next(self.serials))
        return millicent.scrip(self.own, NAME, value, ident)

    def write(self, accounts, amount, stock=()):
        """Writes the book by the second program: so many accounts with so much in each, and the lists of pieces, each of a
        vendor, as stock."""
        for number in range(accounts):
            self.keys["a%d" % number], self.orders["a%d" % number] = secret(), 0
        with open(self.book, "wb") as f:
            millicent.write_book(f, self.entries_of(amount, stock))

    def entries_of(self, amount, stock):
        now = int(time.time())
        yield millicent.site_entry(now, NAME, self.own, self.keep, True, FEE)
        for name, key in self.keys.items():
            yield millicent.account_entry(now, name.encode(), key)
            yield millicent.deposit_entry(now, name.encode(), amount, b"first." + name.encode())
        for vendor, pieces in stock:
            yield millicent.stock_entry(now, vendor, pieces)


def drawn(reply):
    """The text and the secret of the piece that a reply hands out."""
    text, digits = reply.contents[:-1].split(b" ")
    return SimpleNamespace(text=text, secret=bytes.fromhex(digits.decode()))
