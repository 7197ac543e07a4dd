"""Writes `crates/cases/data/generated_markets.cases`: books of a broker and of vendors, with their sums and strangers."""
from types import SimpleNamespace

from forms import Terms, epoch_of, id_of, read_scrip, request_signature
from generate import LIFE, NOW, PERIOD, Cases, Numbers
from ledger import FULL, SALE, History, Request, answer, is_refusal, may_follow
from market import Book, broker_sums, first_stranger, vendor_sums
from payloads import (
    ACCEPT, ACCOUNT, DEPOSIT, GOODS, LICENCE, MINT, SITE, STOCK, TERMS, WITHDRAW, entry_of)

KEY = b"\x88" * 16
MOST = 2**32


def terms(issuer, scrip, customer, period=PERIOD, life=LIFE):
    return Terms(issuer, period, life, (bytes([scrip]) * 16,), (bytes([customer]) * 16,))


ONE, TWO = terms(1, 0x33, 0x44), terms(2, 0x55, 0x66)


class House:
    """A house whose history grows entry by entry."""

    def __init__(self, name, site, own, fee=0):
        self.name, self.own, self.time, self.history = name, own, NOW, History()
        house = SimpleNamespace(keep=600, fee=fee, clear=1, terms=own)
        self.history.push(entry_of(SITE, NOW, site=site, name=name, house=house))

    def enter(self, kind, is_lawful=True, **values):
        """Enters an entry, which is lawful unless it is said not to be."""
        entry = entry_of(kind, self.time, **values)
        assert may_follow(self.history, entry, MOST) == is_lawful, (self.name, kind, values)
        self.history.push(entry)
        return entry

    def take(self, target, scrip=None, sign=None):
        """Takes a request, where it is to be taken; what comes back of the piece."""
        given = answer(self.history, self.time, FULL, Request(target, scrip, sign))
        if is_refusal(given) or isinstance(given, int):
            return None
        self.history.push(given)
        return given

    def pay(self, scrip, target):
        """Pays with a piece: what was sold, and the change, as texts; None where it is not taken."""
        entry = self.take(target, scrip)
        if entry is None:
            return None
        paid, back = read_scrip(scrip), []
        if entry.deed[0] == SALE:
            back.append(self.sold_text(target, *entry.deed[1:]))
        if entry.change is not None:
            back.append(self.text(paid.value - entry.price, entry.change, paid.cust))
        return back

    def text(self, value, ident, cust=None):
        """The text of a piece of the house's own."""
        return self.own.scrip_text(self.name, value, ident, ident if cust is None else cust, b"")

    def sold_text(self, target, stock, ident):
        _, _, vendor, value = target.split(b"/")
        if stock:
            stocked = [e for e in self.history.entries if e.kind == STOCK and e.vendor == vendor]
            return next(text for e in stocked for text, _ in e.pieces if read_scrip(text).id == ident)
        return self.history.desk.licences[vendor].scrip_text(vendor, int(value), ident, ident, b"")

    def draw(self, name, order, amount):
        """Draws a piece of the broker's own; its text."""
        target = b"/draw/%s/%d/%d" % (name, order, amount)
        entry = self.take(target, None, request_signature(b"-", target, KEY).hex().encode())
        return entry and self.text(amount, entry.drawn)

    def mint(self, count, value, reference):
        """Mints pieces; their texts."""
        first = self.history.next_identity(self.time)
        self.enter(MINT, reference=reference, count=count, value=value, first=first)
        return [self.text(value, first + k) for k in range(count)]

    def goods(self, target, price):
        self.enter(GOODS, target=target, price=price, goods=1, contents=b"hi")

    def spelled(self):
        """The bytes of the book."""
        entries = ("x01%08x+x%s" % (len(e.payload), e.payload.hex()) for e in self.history.entries)
        return "+".join(["$front", *entries, "$shut"])


class Bank(House):
    """The broker."""

    def __init__(self, name=b"bank", fee=1):
        super().__init__(name, 1, terms(0, 0x71, 0x72), fee)

    def open(self, name, amount):
        self.enter(ACCOUNT, name=name, key=KEY)
        self.enter(DEPOSIT, name=name, amount=amount, reference=b"first." + name)

    def stock(self, vendor, texts, is_lawful=True):
        self.enter(STOCK, is_lawful, vendor=vendor, pieces=[(text, b"\x5a" * 16) for text in texts])

    def license(self, vendor, issuer):
        self.enter(LICENCE, vendor=vendor, terms=issuer)


def news():
    house = House(b"news.example", 0, terms(0, 0x11, 0x22))
    house.goods(b"/news/1", 25)
    house.enter(TERMS, terms=ONE)
    return house


def shop():
    return House(b"shop.example", 0, terms(0, 0x73, 0x74))


def market(out, name, bank, vendors, order=None):
    """A case of the books, which asks for their sums, and for the first stranger in this order of them, and has them audited."""
    books = [bank, *vendors]
    spelled = {book: "$book_%d_%d" % (out.count, n) for n, book in enumerate(books)}
    for book in books:
        out.let(spelled[book][1:], book.spelled())
    asked = [books[n] for n in order or range(len(books))]
    out.case(name, *(" ".join([verb, *(spelled[book] for book in some)])
                     for verb, some in (("sums", books), ("stranger", asked))),
             *("beside " + spelled[book] for book in asked), "run audit report" + " b" * len(books) + " --json" * (out.count % 2))
    read = {house: Book(house.history.entries) for house in books}
    b, *vs = (read[house] for house in books)
    paid_in, *others = broker_sums(b)
    if first_stranger([read[house] for house in asked]) is None:
        assert paid_in == sum(others) + sum(sum(vendor_sums(b, v)) for v in vs), name


def row():
    """The books of an audit: a bank, which sold of two vendors."""
    bank, n, s = Bank(), news(), shop()
    bank.open(b"ann", 1000)
    first, _ = bank.draw(b"ann", 1, 300), bank.draw(b"ann", 2, 200)
    bank.license(n.name, ONE)
    bank.stock(s.name, s.mint(1, 50, b"m1"))
    piece, change = bank.pay(first, b"/buy/news.example/100")
    bank.pay(change, b"/buy/shop.example/50")
    n.pay(piece, b"/news/1")
    s.time = 1011712
    s.goods(b"/shop/1", 7)
    return bank, n, s


def forged(house, issuer, serial, value, cust=None):
    """A piece that nobody sold, though it is spelled rightly."""
    ident = id_of(issuer.issuer, issuer.epoch(NOW), serial)
    return issuer.scrip_text(house.name, value, ident, ident if cust is None else cust, b"")


def with_stock(texts, value, times, lie=lambda s, texts: texts):
    """A bank that put minted pieces of a shop into stock, and sold of them; what it sold."""
    bank, s = Bank(), shop()
    s.goods(b"/shop/1", 7)
    bank.open(b"ann", 10000)
    bank.stock(s.name, lie(s, s.mint(texts, value, b"m1")))
    sold = []
    for order in range(times):
        back = bank.pay(bank.draw(b"ann", order + 1, 1000), b"/buy/shop.example/%d" % value)
        sold += back[:1] if back else []
    return bank, s, sold


def resold(s, text, value=None, expires=None):
    """The text of a piece with another value or end; no stock asks for its certificate."""
    p = read_scrip(text)
    body = b"MS1|%s|%d|%016x|%016x|%d||" % (s.name, value or p.value, p.id, p.cust, expires or p.expires)
    return body + p.cert.hex().encode()


def corner_cases(out):
    market(out, "a bank and two vendors, all handed out", *rotated(row()))
    bank, n, s = row()
    n.pay(forged(n, ONE, 9, 100), b"/news/1")
    market(out, "one piece more, which the bank never sold", bank, [n, s])
    market(out, "the same, with the books in another order", bank, [n, s], (1, 2, 0))
    bank, n, s = row()
    s.pay(forged(s, s.own, 3, 50), b"/shop/1")
    n.pay(forged(n, ONE, 9, 100), b"/news/1")
    market(out, "a stranger in each of two books", bank, [n, s], (2, 0, 1))
    bank, n, s = row()
    bank.pay(forged(bank, bank.own, 77, 30), b"/buy/news.example/9")
    market(out, "a piece of the bank's own that it never handed out", bank, [n, s])
    corners_of_stock(out)
    other_corners(out)


def corners_of_stock(out):
    bank, s, sold = with_stock(2, 50, 3)
    s.pay(sold[0], b"/shop/1")
    market(out, "stock is sold piece by piece, and then there is none", bank, [s])
    again = [e for e in bank.history.entries if e.kind == ACCEPT][-1]
    paid = bank.text(51, id_of(0, epoch_of(again.change), 900))
    target = b"/buy/shop.example/50"
    bank.enter(ACCEPT, False, scrip=paid, target=target, sign=None, price=51, change=None, deed=again.deed)
    market(out, "a piece of stock is sold twice, which no lawful book does", bank, [s])
    bank, s, sold = with_stock(1, 50, 1)
    bank.stock(s.name, [resold(s, sold[0], 60)], False)
    market(out, "two pieces of stock of one identity, which no lawful book has: the first counts", bank, [s])
    bank, s, sold = with_stock(1, 50, 1, lambda s, texts: [resold(s, texts[0], None, NOW)])
    s.time = NOW + 1
    s.goods(b"/shop/2", 7)
    market(out, "stock with an end that is past: not for sale", bank, [s])
    bank, s, sold = with_stock(1, 50, 1, lambda s, texts: [resold(s, texts[0], None, NOW + 5)])
    s.time = NOW + 5
    s.goods(b"/shop/2", 7)
    market(out, "stock with a false end lapses earlier", bank, [s])
    bank, s, sold = with_stock(1, 60, 1, lambda s, texts: [resold(s, texts[0], 60)])
    market(out, "stock of its own value", bank, [s])
    bank, s, sold = with_stock(1, 50, 0, lambda s, texts: [resold(s, texts[0], 60)])
    bank.pay(bank.draw(b"ann", 9, 500), b"/buy/shop.example/60")
    market(out, "stock of another value than it was minted for is a stranger where it is sold", bank, [s])


def other_corners(out):
    bank, s, sold = with_stock(1, 50, 1)
    more = s.mint(1, 7, b"m2")
    s.pay(more[0], b"/shop/1")
    market(out, "a minted piece that nobody sold is a stranger where it is accepted", bank, [s])
    bank, s = Bank(), shop()
    bank.open(b"ann", 10000)
    s.goods(b"/shop/1", 7)
    s.mint(1, 50, b"m1")
    # Its change is of the serial behind the minted piece, and so looks as at first hand.
    coming = s.history.next_identity(NOW)
    change, = s.pay(forged(s, s.own, 500, 57, coming), b"/shop/1")
    bank.stock(s.name, [change])
    bank.pay(bank.draw(b"ann", 1, 500), b"/buy/shop.example/50")
    market(out, "change of a vendor in stock: it was not minted", bank, [s], (0, 1))
    market(out, "the same, where the vendor's book comes first", bank, [s], (1, 0))

    bank, s, sold = with_stock(2, 50, 1)
    bank.license(s.name, ONE)
    s.enter(TERMS, terms=ONE)
    back = bank.pay(bank.draw(b"ann", 5, 500), b"/buy/shop.example/50")
    s.pay(back[0], b"/shop/1")
    s.pay(sold[0], b"/shop/1")
    market(out, "a licence that comes after stock was sold", bank, [s])
    bank, n, s = row()
    press = House(b"press.example", 0, terms(0, 0x75, 0x76))
    market(out, "a vendor of which nothing was sold has nothing", bank, [n, s, press])
    press.goods(b"/press/1", 3)
    press.pay(forged(press, press.own, 0, 3), b"/press/1")
    market(out, "a vendor of which nothing was sold accepts a piece", bank, [n, s, press], (1, 2, 3, 0))
    bank, s = Bank(b"shop.example"), shop()
    bank.open(b"ann", 1000)
    bank.stock(s.name, s.mint(1, 50, b"m1"))
    bank.pay(bank.draw(b"ann", 1, 300), b"/buy/shop.example/50")
    market(out, "a bank and a vendor of one name", bank, [s])


def rotated(books):
    bank, *vendors = books
    return bank, vendors


def grown(numbers, bank, vendors, steps):
    """Does this and that in a market: most of it is right, and some pieces are forged."""
    purse, held, order, waiting = [], [], 0, {v: [] for v in vendors}
    bank.open(b"ann", numbers.of((500, 3000, 2**30)))
    for step in range(steps):
        house, v, deed = numbers.of([bank, *vendors]), numbers.of(vendors), numbers.below(20)
        house.time += numbers.of((0, 0, 0, 0, 0, 1, 600, 9000))
        balance, value = bank.history.desk.balance(b"ann"), numbers.of((7, 25, 25, 50))
        if deed < 4 and balance:
            order += numbers.between(1, 2)
            purse.append(bank.draw(b"ann", order, numbers.between(1, min(balance, 400))))
        elif deed == 4:
            bank.enter(DEPOSIT, name=b"ann", amount=numbers.between(1, 90), reference=b"d%d" % step)
        elif deed == 5 and balance:
            bank.enter(WITHDRAW, name=b"ann", amount=numbers.between(1, min(balance, 90)), reference=b"w%d" % step)
        elif deed < 8:
            waiting[v] += v.mint(numbers.between(1, 2), value, b"m%d" % step)
        elif deed < 10 and waiting[v]:
            bank.stock(v.name, waiting[v])
            waiting[v] = []
        elif deed == 10 and v.name not in bank.history.desk.licences:
            bank.license(v.name, TWO)
        elif deed == 11 and purse:
            bank.pay(purse.pop(numbers.below(len(purse))), b"/credit/ann")
        elif deed == 12 and numbers.below(4) == 0:
            v.pay(forged(v, numbers.of((TWO, v.own)), numbers.below(4), value), b"/a")
        elif deed < 16 and held:
            house, text = held.pop(numbers.below(len(held)))
            back = house.pay(text, numbers.of((b"/a", b"/b")))
            held += [(house, change) for change in back or ()]
        elif purse:
            text = purse.pop(numbers.below(len(purse)))
            back = bank.pay(text, b"/buy/%s/%d" % (v.name, value))
            purse += back[1:] if back else [text]
            held += [(v, back[0])] if back else []


def stalled(numbers):
    """A bank with some fee, and two vendors with goods and the terms of an issuer."""
    bank, vendors = Bank(fee=numbers.of((0, 1, 3))), [House(name, 0, terms(0, 0x81 + n, 0x91 + n))
                                                     for n, name in enumerate((b"news.example", b"shop.example"))]
    for v in vendors:
        v.goods(b"/a", 3)
        v.goods(b"/b", 20)
        v.enter(TERMS, terms=TWO)
    return bank, vendors


def markets():
    out = Cases("Books of a broker and of vendors: their sums and the first stranger in them. First the books of an audit\n"
                "and the cases at the edge, then markets in which this and that was done.")
    corner_cases(out)
    numbers = Numbers(17)
    for round in range(48):
        bank, vendors = stalled(numbers)
        grown(numbers, bank, vendors, numbers.between(8, 30))
        market(out, "market %d" % round, bank, vendors, numbers.of(((0, 1, 2), (1, 0, 2), (2, 1, 0))))
    out.write("markets")


def main():
    markets()
