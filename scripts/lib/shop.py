"""A shop in a temporary folder for the scripts: its book, the program that serves it, and
links to it."""
import itertools
import tempfile
import time

import millicent
from serving import LINK_FAULT, LINKS, PROGRAM, Link, Site, free_port, secret, words_of  # noqa: F401

NAME, TARGET, PRICE, CONTENTS = b"news.example", b"/news/1", 25, b"Good morning.\n"


class Shop(Site):
    """A vendor of one page, founded and kept by the program, that takes scrip of its own and of one licence."""
    role = "vendor"

    def __init__(self, keep=600):
        self.folder = tempfile.TemporaryDirectory(prefix="millicent-")
        super().__init__(self.folder.name, "news")
        self.own, self.licensed = (millicent.Terms(i, 4096, 8192, (secret(),), (secret(),)) for i in (0, 1))
        self.serials = itertools.count()
        self.entered = []
        name, target, licence = NAME.decode(), TARGET.decode(), words_of(self.licensed)
        said = [
            self.enter(lambda moment: millicent.site_entry(moment, NAME, self.own, keep, clear=True),
                       "init", name, *words_of(self.own), "--keep", str(keep), "--clear"),
            self.enter(lambda moment: millicent.terms_entry(moment, self.licensed), "licence", "1", *licence),
            self.enter(lambda moment: millicent.goods_entry(moment, TARGET, PRICE, 1, CONTENTS),
                       "goods", target, str(PRICE), "--kind", "1", contents=CONTENTS)]
        lines = "founded %s" % name, "licence %s 1 %s" % (name, " ".join(licence)), "goods %s %d" % (target, PRICE)
        assert said == ["%s\n" % line for line in lines], "the program said %r" % said

    def __enter__(self):
        return self

    def __exit__(self, *_):
        self.end()
        self.folder.cleanup()

    def enter(self, entry, command, *words, contents=b""):
        """Has the program do an operator's command to the book, which is not served then, and answers what it
        says. The book then has the entries that were expected: this one, by its moment, behind those before."""
        said = self.command(command, *words, contents=contents)
        self.entered.append(entry)
        entries = self.entries()
        assert len(entries) == len(self.entered), "the book has %d entries" % len(entries)
        for e, expected in zip(entries, self.entered):
            assert e.payload == expected(e.moment).payload, "the book has another entry: %r" % e.payload
        return said

    def minted(self, value, reference):
        """The first piece of the vendor's own series, and its customer secret."""
        def ident(moment):
            return millicent.id_of(0, self.own.epoch(moment), 0)
        line = self.enter(lambda moment: millicent.mint_entry(moment, reference.encode(), 1, value, ident(moment)),
                          "mint", "1", str(value), reference)
        first = int(line.split("|")[3], 16)
        piece, secret = millicent.scrip(self.own, NAME, value, first), self.own.secret(first)
        assert line == "%s %s\n" % (piece.decode(), secret.hex()), "the program said %r" % line
        return piece, secret

    def fresh(self, value):
        """A piece of the licence that was never paid with, and its customer secret."""
        ident = millicent.id_of(1, self.licensed.epoch(int(time.time())), next(self.serials))
        return millicent.scrip(self.licensed, NAME, value, ident), self.licensed.secret(ident)
