"""The sums of the books of a broker and of vendors, and the first stranger in them."""
from bytes_text import CaseError, shown
from desk import read_errand
from forms import epoch_of, id_text, read_scrip
from journal import BadChain, BadEntry, NotJournal, Replay
from ledger import CREDIT, SALE
from payloads import ACCEPT, ACCOUNT, DEPOSIT, DRAW, LICENCE, MINT, SITE, STOCK, WITHDRAW
from setting import data
from stage import Stage


class Book:
    """What the entries of a house say of money. A piece is its identity, its value and its end."""

    def __init__(self, entries):
        self.entries = entries
        self.time = max((entry.moment for entry in entries), default=0)
        site = entries[0] if entries and entries[0].kind == SITE else None
        self.name, self.house = (site.name, site.house) if site else (b"", None)
        self.is_broker = site is not None and site.site == 1
        self.founded = next((number for number, entry in enumerate(entries) if entry.kind == SITE and entry.house), None)
        self.licences, self.held = {}, {}
        for entry in self.of(LICENCE):
            self.licences.setdefault(entry.vendor, entry.terms)
        for entry in self.of(STOCK):
            for piece in (read_scrip(text) for text, _ in entry.pieces):
                self.held.setdefault((entry.vendor, piece.id), (piece.id, piece.value, piece.expires))
        self.spent = {read_scrip(entry.scrip).id for entry in self.of(ACCEPT)}
        self.own = [piece for number in range(len(entries)) for piece in self.own_at(number)]
        self.minted = {(ident, e.value) for e in self.of(MINT) for ident in range(e.first, e.first + e.count)}
        self.sales = [sale for entry in entries for sale in self.sales_at(entry)]

    def of(self, *kinds):
        return [entry for entry in self.entries if entry.kind in kinds]

    def own_end(self, number, ident):
        """The end of a series of the house's own, by the terms that stand before an entry."""
        if self.founded is None or self.founded >= number:
            return 0
        return self.entries[self.founded].house.terms.end(epoch_of(ident))

    def own_at(self, number):
        """The piece that an entry hands out in the house's own series: change, or what was drawn."""
        entry = self.entries[number]
        if entry.kind == ACCEPT and entry.change is not None:
            value = max(0, read_scrip(entry.scrip).value - entry.price)
            return [(entry.change, value, self.own_end(number, entry.change))]
        errand = read_errand(entry.target) if entry.kind == DRAW else None
        if errand and errand[0] == "draw":
            return [(entry.drawn, errand[3], self.own_end(number, entry.drawn))]
        return []

    def sales_at(self, entry):
        """The vendor, the stock flag and the piece of what an entry sold."""
        errand = read_errand(entry.target) if entry.kind == ACCEPT and entry.deed[0] == SALE else None
        if not errand or errand[0] != "buy":
            return []
        _, vendor, value = errand
        _, stock, ident = entry.deed
        piece = self.stocked(vendor, ident) if stock else self.licensed(vendor, value, ident)
        return [(vendor, stock, piece)] if piece else []

    def stocked(self, vendor, ident):
        """The first piece of a vendor with this identity that was put into stock."""
        return self.held.get((vendor, ident))

    def licensed(self, vendor, value, ident):
        """A piece of a vendor that is made under his licence."""
        terms = self.licences.get(vendor)
        return terms and (ident, value, terms.end(epoch_of(ident)))

    def sold(self, vendor):
        return [piece for of, _, piece in self.sales if of == vendor]

    def balance(self, name):
        """Deposits and credits of an account, less withdrawals and draws."""
        moved = 0
        for entry in self.entries:
            errand = read_errand(entry.target) if entry.kind in (ACCEPT, DRAW) else None
            if entry.kind in (DEPOSIT, WITHDRAW) and entry.name == name:
                moved += entry.amount if entry.kind == DEPOSIT else -entry.amount
            elif entry.kind == ACCEPT and entry.deed[0] == CREDIT and errand and errand[:2] == ("credit", name):
                moved += entry.price
            elif entry.kind == DRAW and errand and errand[:2] == ("draw", name):
                moved -= errand[3]
        return max(0, moved)

    def left(self, handed):
        """What is outstanding and what has lapsed of pieces that were handed out."""
        unspent = [(value, end) for ident, value, end in handed if ident not in self.spent]
        return (sum(value for value, end in unspent if end > self.time),
                sum(value for value, end in unspent if end <= self.time))


def broker_sums(b):
    """Paid in, paid out, accounts, fees, outstanding and lapsed."""
    fee = b.house.fee if b.house else 0
    fees = sum(fee for entry in b.of(ACCEPT) if entry.deed[0] == SALE)
    amounts = [sum(entry.amount for entry in b.of(kind)) for kind in (DEPOSIT, WITHDRAW)]
    return *amounts, sum(b.balance(entry.name) for entry in b.of(ACCOUNT)), fees, *b.left(b.own)


def vendor_sums(b, v):
    """Takings, outstanding and lapsed of a vendor beside a broker."""
    return sum(entry.price for entry in v.of(ACCEPT)), *v.left(b.sold(v.name) + v.own)


def strangers(b, books, book):
    """The identities of a book's strangers, by entry."""
    handed = book.own if book.is_broker else b.sold(book.name) + book.own
    handed = {(ident, value) for ident, value, _ in handed}
    minted = {(v.name, *piece) for v in books if not v.is_broker for piece in v.minted}
    for entry in book.of(ACCEPT):
        piece = read_scrip(entry.scrip)
        if (piece.id, piece.value) not in handed:
            yield piece.id
        for vendor, stock, (ident, value, _) in book.sales_at(entry):
            if stock and (vendor, ident, value) not in minted:
                yield ident


def first_stranger(books):
    """The number of a book and an identity; None where there is no stranger."""
    broker, = (book for book in books if book.is_broker)
    return next(((n, ident) for n, book in enumerate(books) for ident in strangers(broker, books, book)), None)


def entries_of(setting, word):
    """The entries of the book that bytes encode."""
    try:
        replay, entries = Replay(Stage(data(setting, word))), []
        while read := replay.next():
            entries.append(read[1])
    except (NotJournal, BadEntry, BadChain):
        raise CaseError("the book encodes no history")
    return entries


def book_of(setting, word):
    """The book that bytes encode."""
    return Book(entries_of(setting, word))


def do_sums(setting, words):
    if not words:
        raise CaseError("a book is wanted")
    b, *vs = (book_of(setting, word) for word in words)
    lines = ["sums %d %d %d %d %d %d" % broker_sums(b)]
    return lines + ["vendor %s %d %d %d" % (shown(v.name), *vendor_sums(b, v)) for v in vs]


def do_stranger(setting, words):
    books = [book_of(setting, word) for word in words]
    if sum(book.is_broker for book in books) != 1:
        raise CaseError("one broker's book is wanted")
    found = first_stranger(books)
    return ["stranger none" if found is None else "stranger %d %s" % (found[0], id_text(found[1]))]


VERBS = {"sums": do_sums, "stranger": do_stranger}
