"""A shop whose book has many payments that nobody made: they are written, a thousand a second up to now, each with a piece of 100 of its
licence for the page at 25, so that each gives change. The program finds the book lawful as one of real payments, and opens it likewise."""
import itertools
import os
import tempfile
import time
from hashlib import md5

import millicent
from serving import Site
from shop import CONTENTS, NAME, PRICE, TARGET, Shop

RATE, VALUE, PERIOD, LIFE, KEEP = 1000, 100, 4096, 8192, 60
GOODS_DEED = b"\0"


def blocks(payloads):
    """The blocks of a book's entries, without the last gate."""
    return b"".join(b"\1" + len(payload).to_bytes(4, "big") + payload for payload in payloads)


class LongShop(Shop):
    """A shop of so many payments. One of its licence's pieces may be paid with, as in every shop."""

    def __init__(self, count):
        self.folder = tempfile.TemporaryDirectory(prefix="millicent-")
        Site.__init__(self, self.folder.name, "news")
        self.own, self.licensed = (millicent.Terms(i, PERIOD, LIFE, (os.urandom(16),), (os.urandom(16),)) for i in (0, 1))
        first = int(time.time()) - count // RATE - 1
        with open(self.book, "wb") as file:
            file.write(millicent.HEADER + blocks(self.founding(first)))
            payments = self.payments(first, count)
            while room := list(itertools.islice(payments, 4096)):
                file.write(blocks(room))
            file.write(b"\0")
        self.serials = itertools.count(count)

    def founding(self, moment):
        """The payloads of the shop's first entries."""
        return [entry.payload for entry in (
            millicent.site_entry(moment, NAME, self.own, KEEP, clear=True), millicent.terms_entry(moment, self.licensed),
            millicent.goods_entry(moment, TARGET, PRICE, 1, CONTENTS))]

    def payments(self, first, count):
        """The payloads of the payments: what differs between those of one epoch is put between what does not."""
        for epoch, times in itertools.groupby((first + n // RATE for n in range(count)), self.own.epoch):
            ends = self.licensed.end(epoch)
            start, end = b"MS1|%s|%d|" % (NAME, VALUE), b"|%d||" % ends
            paid, change = (millicent.id_of(issuer, epoch, 0) for issuer in (1, 0))
            length = (len(start) + 33 + len(end) + 32).to_bytes(2, "big")
            behind = len(TARGET).to_bytes(2, "big") + TARGET + b"\0" + PRICE.to_bytes(8, "big") + b"\1"
            for serial, moment in enumerate(times):
                ident = b"%016x" % (paid + serial)
                body = start + ident + b"|" + ident + end
                cert = md5(body + self.licensed.scrip[0]).hexdigest().encode()
                yield (bytes((millicent.ACCEPT,)) + moment.to_bytes(8, "big") + length + body + cert + behind
                       + (change + serial).to_bytes(8, "big") + GOODS_DEED)
