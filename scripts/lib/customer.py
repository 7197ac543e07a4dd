"""A wallet in a folder for the scripts, whose commands are killed now and then, and its payments beside the entries of the sites."""
import os
import random
import time

import millicent
from serving import run

NOTHING = b"refused 67 Nothing\n"


class Wallet:
    """A wallet whose commands are killed now and then."""

    def __init__(self, folder, counts, wrong, **how):
        self.book, self.counts, self.wrong, self.how = os.path.join(folder, "wallet.book"), counts, wrong, how
        self.is_killed, self.usual = False, 0.01
        self.sure("init", "w")

    def sure(self, command, *words, contents=b""):
        """A command that is not killed, and ends with 0; what it says."""
        status, said = self.run(command, *words, contents=contents)
        assert status == 0, "wallet %s: status %d, %r" % (command, status, said)
        return said

    def run(self, command, *words, contents=b"", within=None):
        """A command's status and what it says; -9 where it was killed within so many seconds."""
        begun = time.monotonic()
        status, said = run(["wallet", command, self.book, *words], contents, within, **self.how)
        if status == 0:
            self.usual += (time.monotonic() - begun - self.usual) / 8
        return status, said

    def try_out(self, command, *words):
        """A payment, which may be killed, and may end in each way that leaves the request kept or settled."""
        within = random.uniform(0, 1.2 * self.usual) if self.is_killed and random.random() < 0.2 else None
        status, said = self.run(command, *words, within=within)
        number = said.split(b" ")[1].decode() if status == 7 else ""
        self.counts["%s: %s" % (command, {-9: "killed", 0: "done"}.get(status, ("status %d %s" % (status, number)).strip()))] += 1
        known = status in (-9, 0, 6) or status == 7 and number in ("62", "63", "64", "65", "66", "67", "68", "80")
        if not known:
            self.wrong("wallet %s ended with status %d and said %r" % (command, status, said))
        return status, said

    def settle(self, peer, address, most):
        """Tries each kept request to a site again, so often at most; whether none is left."""
        return any(self.try_out("retry", peer, address) == (7, NOTHING) for _ in range(most))

    def entries(self):
        with open(self.book, "rb") as f:
            return millicent.entries_of(f.read())


def compare(entries, sites, wrong, others=()):
    """The payments and draws of a wallet's entries beside those of the sites: each that is done is one entry of its site, with the same
    price and change, and the sites took nothing else but the requests of others. How many are done; `wrong` is told what is not so."""
    pends = {number: entry for number, entry in enumerate(entries) if entry.kind == millicent.PEND}
    done = [(pends[entry.number], entry) for entry in entries if entry.kind == millicent.DONE]
    took = {name: taken(site, wrong) for name, site in sites.items()}
    for asked, settled in done:
        key = asked.scrip, asked.target
        there = took[asked.peer.decode()].pop(key, None)
        if there is None:
            wrong("%r is done, and the site has no such entry, or another one has it" % (key,))
        elif there != (settled.price, None if settled.change is None else millicent.read_scrip(settled.change).id):
            wrong("%r is done with %r, and the site has %r" % (key, settled, there))
    for name, left in took.items():
        for key in left.keys() - set(others):
            wrong("%s has %r, which the wallet has not as done" % (name, key))
    return len(done)


def taken(site, wrong):
    """The price and the change of each request that a site took, by its scrip and its target; none is there twice."""
    took = {}
    for entry in site.entries():
        if entry.kind == millicent.ACCEPT:
            key, value = (entry.scrip, entry.target), (entry.price, entry.change)
        elif entry.kind == millicent.DRAW:
            key, value = (None, entry.target), (millicent.read_errand(entry.target)[3], None)
        else:
            continue
        if key in took:
            wrong("%s took %r twice" % (site.book, key))
        took[key] = value
    return took
