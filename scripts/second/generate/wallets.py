"""Writes `crates/cases/data/generated_wallets.cases` and `generated_replies.cases`: books of wallets, with what they ask for,
and replies to that, right ones and others."""
from types import SimpleNamespace

from bytes_text import shown
from forms import Terms, id_of, read_scrip, reply_signature
from generate import LIFE, NAMES, NOW, PERIOD, Cases, Numbers, length, pieces, raised
from payloads import DONE, GOT, PEND, REFUSED, SITE, entry_of
from refusals import refused
from wallet import BUY, DRAW, GET, WALLET, Request, WalletBook

KEY = b"\x88" * 16
DATE = b"Mon, 12 Jan 1970 13:46:40 GMT"
REASONS = {200: b"OK", 402: b"Payment Required", 403: b"Forbidden", 404: b"Not Found", 409: b"Conflict", 410: b"Gone"}


def terms(scrip, customer):
    return Terms(0, PERIOD, LIFE, (bytes([scrip]) * 16,), (bytes([customer]) * 16,))


HOUSES = {b"news.example": terms(0x11, 0x22), b"shop.example": terms(0x73, 0x74), b"bank": terms(0x71, 0x72)}
TARGETS = (b"/news/1", b"/news/2", b"/", b"/buy/shop.example/50")


class Purse:
    """A wallet whose book grows, and the houses that answer it."""

    def __init__(self, numbers):
        self.numbers, self.time, self.serial, self.order = numbers, NOW, 0, 0
        self.entries, self.book = [], WalletBook()
        self.enter(SITE, site=WALLET, name=b"w", house=None)

    def enter(self, kind, **values):
        entry = entry_of(kind, self.time, **values)
        assert self.book.may_follow(entry), (kind, values)
        self.entries.append(entry)
        self.book.push(entry)

    def piece(self, vendor, value, cust=None, props=b""):
        """A piece that a house makes, and its customer secret."""
        own = HOUSES[vendor]
        ident = id_of(0, own.epoch(self.time), self.serial)
        self.serial += 1
        cust = ident if cust is None else cust
        return own.scrip_text(vendor, value, ident, cust, props), own.secret(cust)

    def got(self):
        """Pieces are taken: now and then some that soon expire, or two of one value."""
        numbers, some = self.numbers, []
        for _ in range(numbers.between(1, 3)):
            vendor, value = numbers.of((*HOUSES, b"bank")), numbers.of((1, 7, 25, 50, 50, 60, 60, 100, 2**40))
            some.append(self.piece(vendor, value, None, numbers.of((b"", b"", b"a=1"))))
        self.enter(GOT, pieces=some)

    def asked(self):
        """A request is made with the piece that is chosen, or with another that is held."""
        numbers = self.numbers
        held = [(text, secret) for state, text, secret in self.book.holdings() if state == "held"]
        if numbers.below(4) == 0 or not held:
            self.order += 1
            target = b"/draw/ann/%d/%d" % (self.order, numbers.of((1, 50, 300)))
            return self.enter(PEND, ask=DRAW, peer=b"bank", target=target, scrip=None, secret=KEY)
        text, secret = numbers.of(held)
        peer = read_scrip(text).vendor
        ask, target = GET, numbers.of(TARGETS)
        if peer == b"bank" and numbers.below(4):
            ask, target = BUY, b"/buy/%s/%d" % (numbers.of((b"news.example", b"shop.example")), numbers.of((1, 7, 50)))
        self.enter(PEND, ask=ask, peer=peer, target=target, scrip=text, secret=secret)

    def settled(self):
        """A kept request is settled as the house answers it."""
        kept = self.book.kept()
        if not kept:
            return
        n, request = self.numbers.of(kept)
        reply = self.answer(request)
        found = self.book.settlement(request, reply)
        if isinstance(found, int):
            return self.enter(REFUSED, number=n, refusal=found)
        price, change, got = found
        self.enter(DONE, number=n, price=price, change=change, got=got)

    def grow(self, steps):
        for _ in range(steps):
            self.time += self.numbers.of((0, 0, 0, 1, 600, 9000))
            self.numbers.of((self.got, self.asked, self.asked, self.settled, self.settled))()

    # What a house answers.

    def bought(self, request):
        """The piece line of what a buy or a draw brings."""
        errand = request.target.split(b"/")
        vendor, value = (errand[2], int(errand[3])) if request.ask == BUY else (request.peer, int(errand[4]))
        text, secret = self.piece(vendor, value)
        return b"%s %s\n" % (text, secret.hex().encode())

    def answer(self, request):
        """A reply of the peer: what is asked for, or a refusal."""
        numbers, paid = self.numbers, request.scrip and read_scrip(request.scrip)
        if numbers.below(3) == 0:
            return refusal(request, numbers.of((27, 26, 31, 31, 22, 30)))
        contents = b"" if request.ask == GET else self.bought(request)
        if request.ask == GET:
            contents = numbers.of((b"Good morning.\n", b"", b"a\0b\n", contents))
        if request.ask == DRAW:
            price = int(request.target.split(b"/")[4])
        else:
            price = numbers.of((1, 1, paid.value, max(0, paid.value - 1), 0))
        left = paid.value - price if paid else 0
        change = self.piece(request.peer, left, paid.cust, paid.props)[0] if left else b"-"
        return reply(request, 200, None, b"%d" % price, change, contents)


def reply(request, status, refusal_text, price, change, contents, secret=None):
    """A reply with the right signature, or with one under another secret."""
    line = b"%d %s %s %s\n" % (status, refusal_text or b"-", price, change)
    sign = reply_signature(request.paid, request.target, line, contents, secret or request.secret).hex().encode()
    return SimpleNamespace(status=status, refusal=refusal_text, price=price, change=change, sign=sign, contents=contents)


def refusal(request, number):
    kept = {26: (NOW, NOW + 1), 31: (30,)}.get(number, ())
    text = refused(number, *kept)
    price = b"30" if number == 31 else b"-"
    return reply(request, text.status, text.text().encode(), price, b"-", b"")


def spelled_head(r, fields=None):
    """The lines of a head, as cases spell them; other fields may stand for the right ones."""
    said = {"Date": DATE, "Content-Length": b"%d" % len(r.contents), "Millicent-Refusal": r.refusal, "Millicent-Price": r.price,
            "Millicent-Change": r.change, "Millicent-Sign": r.sign, **(fields or {})}
    lines = ["HTTP/1.1 %d %s" % (r.status, REASONS[r.status].decode())]
    lines += ["%s: %s" % (name, value.decode()) for name, value in said.items() if value is not None]
    return lines


def spelled(r, fields=None, end="\\r\\n"):
    return '"%s"' % (end.join(spelled_head(r, fields)) + 2 * end) + ("+" + shown(r.contents) if r.contents else "")


def changes(numbers, purse, request, r):
    """Replies that are nearly right, spelled."""
    def again(**values):
        parts = {"status": r.status, "refusal_text": r.refusal, "price": r.price, "change": r.change, "contents": r.contents}
        return spelled(reply(request, **{**parts, **values}))
    own = purse.piece(request.peer, 3)[0]
    digit = b"0" if r.sign[:1] != b"0" else b"1"
    return [
        spelled(r), spelled(r, None, "\\n"), spelled(r) + '+"more"', '"\\r\\n\\n"+' + spelled(r),
        spelled(r, {"Millicent-Sign": digit + r.sign[1:]}), spelled(r, {"Millicent-Sign": r.sign.upper()}),
        again(secret=bytes(16)), again(contents=r.contents + b"x\n"), again(contents=b""),
        again(price=b"%d" % (2**40 + 1)), again(price=b"0" + r.price), again(price=b"-"), again(price=b"2"),
        again(change=own), again(change=b"-"), again(change=r.change + b"0"), again(change=purse.piece(b"shop.example", 1)[0]),
        again(status=200, refusal_text=None, price=b"1"), again(status=404, refusal_text=b"30 NoSuchGoods"),
        again(status=409, refusal_text=b"27 Spent", price=b"-", change=b"-", contents=b""),
        spelled(r, {"Content-Length": b"%d" % (len(r.contents) + 1)}), spelled(r, {"Content-Length": None}),
        spelled(r, {"Millicent-Refusal": b"30 NoSuchGoods"}), spelled(r, {"millicent-price": r.price}),
        spelled(r, {"Millicent-Change": None}), spelled(r)[:-9] + '"' if not r.contents else spelled(r, {"Date": None}),
    ]


def entry_text(entry):
    """An entry of a book as cases spell it: texts stand as they are."""
    data = entry.payload
    parts, at = [], 0
    texts = [text for text in texts_of(entry) if text]
    for text in texts:
        place = data.index(text, at)
        parts += ["x" + data[at:place].hex(), '"%s"' % text.decode()]
        at = place + len(text)
    return "+".join(["x01%08x" % len(data), *parts, *(["x" + data[at:].hex()] if at < len(data) else [])])


def texts_of(entry):
    if entry.kind == GOT:
        return [text for text, _ in entry.pieces]
    if entry.kind == PEND:
        return [entry.target, entry.scrip]
    return [entry.change, entry.got[0] if entry.got else None] if entry.kind == DONE else []


def book_of(entries):
    return "+".join(["$front", *map(entry_text, entries), "$shut"])


def places_of(entries):
    """Where each entry of a book begins, and where the last one ends."""
    places = [len(b"MCJRNL1\n")]
    for entry in entries:
        places.append(places[-1] + 5 + len(entry.payload))
    return places


def spoiled(numbers, entries):
    """The book with one of its entries changed, left out, twice, or before the one before it."""
    places, at, how = places_of(entries), numbers.between(1, len(entries) - 1), numbers.below(6)
    parts = ["$b[%d:%d]" % (first, end) for first, end in zip(places, places[1:])]
    if how == 0:
        del parts[at]
    elif how == 1:
        parts.insert(numbers.between(at, len(parts)), parts[at])
    elif how == 2:
        parts[at - 1:at + 1] = parts[at], parts[at - 1]
    else:
        parts[at] = entry_text(changed_entry(numbers, entries[at]))
    return "+".join(["$front", *parts, "$shut"])


def changed_entry(numbers, entry):
    """The entry with one of its values changed."""
    values = {name: value for name, value in vars(entry).items() if name not in ("kind", "moment", "payload")}
    moment = entry.moment
    if entry.kind == PEND:
        change = numbers.of(({"ask": (entry.ask + 1) % 3}, {"peer": b"news.exampl"}, {"target": b"/buy/shop.example/0"},
                             {"scrip": None}, {"secret": b"\1" * 16}))
    elif entry.kind in (DONE, REFUSED):
        change = numbers.of(({"number": entry.number + 1}, {"number": max(0, entry.number - 1)}, {"number": 2**64 - 1}))
        if entry.kind == DONE and numbers.below(3) == 0:
            change = numbers.of(({"change": None}, {"got": None}, {"price": 0}))
        elif entry.kind == REFUSED and numbers.below(2):
            change = {"refusal": numbers.of((26, 27, 0, 31))}
    else:
        change, moment = {}, max(0, moment - 1)
    return entry_of(entry.kind, moment, **{**values, **change})


def questions(numbers, purse):
    """Lines that ask for pieces and for requests, mostly of houses whose pieces are held."""
    held = [read_scrip(text).vendor for state, text, _ in purse.book.holdings() if state == "held"]

    def house():
        return numbers.of([*held, *held, *HOUSES]).decode()
    for _ in range(4):
        limit = numbers.of((0, 1, 7, 25, 26, 50, 51, 60, 61, 100, 101, 2**40))
        yield 'choose %d "%s" %d' % (purse.time + numbers.of((0, 0, 0, 4096, 20000)), house(), limit)
    yield 'pend %d get "%s" "%s" %d' % (purse.time, house(), numbers.of(TARGETS).decode(), numbers.of((1, 30, 60)))
    yield 'pend %d buy "bank" "%s" %d %d' % (purse.time, house(), numbers.of((1, 50)), numbers.of((1, 51, 61)))
    yield 'pend %d draw "bank" "ann" x88*16 %d %d' % (purse.time, purse.order + 1, numbers.of((1, 300)))


def wallets():
    out = Cases("Books of wallets, whole, cut at an entry and spoiled: their pieces and kept requests, what is chosen\n"
                "and asked, the bytes of requests, and replies to them.")
    numbers = Numbers(18)
    for round in range(130):
        purse = Purse(numbers)
        purse.got()
        purse.grow(numbers.between(1, 12))
        out.let("b", book_of(purse.entries))
        lines = ["book $b", "wallet", *questions(numbers, purse)]
        for n, request in purse.book.kept()[-2:]:
            r = purse.answer(request)
            lines += ["request %d" % n, "settle %d %d %s" % (purse.time, n, spelled(r))]
            others = changes(numbers, purse, request, r)
            lines += ["settle %d %d %s" % (purse.time, n, numbers.of(others)) for _ in range(4)]
        lines += ["request %d" % numbers.below(len(purse.entries)), "book " + cut_book(numbers, purse.entries), "wallet"]
        for _ in range(2):
            lines += ["book " + spoiled(numbers, purse.entries), "wallet"]
        size = length("$b")
        lines += ["book $b[:%d]" % numbers.below(size), "replay"]
        place = numbers.between(8, size - 1)
        lines += ["book $b[:%d]+x%02x+$b[%d:]" % (place, NAMES["b"][place] ^ numbers.of((1, 2, 128)), place + 1), "replay"]
        out.case("wallet %d, of %d entries" % (round, len(purse.entries)), *lines)
    out.write("wallets")


def cut_book(numbers, entries):
    """The book cut behind one of its entries."""
    return "$b[:%d]+$shut" % places_of(entries)[numbers.below(len(entries))]


def replies():
    out = Cases("Replies to a wallet's requests: ones that are nearly right; and some with each byte raised, cut, in pieces\n"
                "of any size, and with calls that fail.")
    numbers = Numbers(19)
    purse = Purse(numbers)
    text, secret = purse.piece(b"bank", 60)
    get = Request(GET, b"bank", b"/news/1", text, secret)
    buy = Request(BUY, b"bank", b"/buy/shop.example/50", text, secret)
    draw = Request(DRAW, b"bank", b"/draw/ann/1/300", None, KEY)
    change, _ = purse.piece(b"bank", 9, read_scrip(text).cust)
    kinds = {"get": (get, reply(get, 200, None, b"51", change, b"hi")), "refused": (get, refusal(get, 31)),
             "buy": (buy, reply(buy, 200, None, b"51", change, purse.bought(buy))),
             "draw": (draw, reply(draw, 200, None, b"300", b"-", purse.bought(draw)))}
    for name, (request, r) in kinds.items():
        out.let(name, spelled(r))
        near = changes(numbers, purse, request, r)
        out.case("%s, nearly right" % name, *("reply " + other for other in near), *("link " + other for other in near), "replies")
    for name in ("get", "refused", "draw"):
        size = length("$" + name)
        out.case("%s, each byte raised" % name, *("reply " + other for other in raised(name)))
        out.case("%s, cut" % name, *("reply $%s[:%d]" % (name, at) for at in range(size + 1)))
        links = ["link " + " ".join("$%s[%d:%d]" % (name, at, at + 1) for at in range(size))]
        links += ["link " + pieces(numbers, name, most) for most in (2, 17, 100, 300)]
        out.case("%s, byte by byte and in pieces" % name, *links, "replies")
        failing = (("link " + pieces(numbers, name, 90), "fail link %d" % at, "replies") for at in range(9))
        out.case("%s, each call fails" % name, *(line for lines in failing for line in lines))
    out.write("replies")


def main():
    wallets()
    replies()
