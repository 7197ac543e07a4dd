"""The history of a house, its answer to a request, which entries may follow, and its replies."""
from dataclasses import dataclass
from email.utils import formatdate
from types import SimpleNamespace

from desk import MOST_BALANCE, Desk, is_stock_for, read_errand
from forms import (
    Fault, epoch_of, id_of, issuer_of, piece_line, read_scrip, reply_signature, request_signature, series_of)
from journal import Chain, may_switch
from payloads import (
    ACCEPT, ACCOUNT, BROKER, DEPOSIT, DRAW, GOODS, LICENCE, MINT, NOTE, SITE, STOCK, SWITCH, TERMS, UPGRADE, VENDOR,
    WITHDRAW, entry_of)
from refusals import Refusal, refused

MOST_CONTENTS = 2**26
GOODS_DEED, SALE, CREDIT = 0, 1, 2
REASONS = {
    200: "OK", 400: "Bad Request", 402: "Payment Required", 403: "Forbidden", 404: "Not Found",
    405: "Method Not Allowed", 409: "Conflict", 410: "Gone", 413: "Content Too Large",
    431: "Request Header Fields Too Large", 500: "Internal Server Error", 503: "Service Unavailable",
}
KINDS = ("application/octet-stream", "text/plain; charset=utf-8", "text/html; charset=utf-8")


@dataclass(frozen=True)
class Request:
    """What a head asks for."""
    target: bytes
    scrip: bytes
    sign: bytes


@dataclass(frozen=True)
class Limits:
    """The most bytes of a journal, and the most pieces of a series."""
    journal: int = 2**40
    series: int = 2**32


FULL = Limits()


class History:
    """The entries of a house, oldest first, with what its definitions look up in them."""

    def __init__(self, entries=()):
        self.entries, self.time, self.size, self.chain = [], 0, 9, Chain()
        self.terms, self.goods, self.in_force = {}, {}, 0
        self.spent, self.accepts, self.counts, self.references = set(), {}, {}, {}
        self.goods_before, self.upgrades = {}, {}
        self.desk = Desk()
        for entry in entries:
            self.push(entry)

    @property
    def site(self):
        """The first entry, where it founds a site."""
        return self.entries[0] if self.entries and self.entries[0].kind == SITE else None

    @property
    def house(self):
        """What a vendor or a broker was founded with."""
        return self.site.house if self.site else None

    @property
    def is_vendor(self):
        return self.site is not None and self.site.site == VENDOR

    @property
    def is_broker(self):
        return self.site is not None and self.site.site == BROKER

    @property
    def tail(self):
        """The bytes of the tail of the next entry."""
        return 32 * self.chain.switched

    def push(self, entry):
        number = len(self.entries)
        self.entries.append(entry)
        self.time = max(self.time, entry.moment)
        self.size += len(entry.payload) + self.tail + 5
        self.chain.push(entry.payload)
        if entry.kind == SITE and entry.house or entry.kind == TERMS:
            terms = entry.terms if entry.kind == TERMS else entry.house.terms
            self.terms.setdefault(terms.issuer, terms)
        elif entry.kind == GOODS:
            self.in_force = self.in_force_with(entry.target, entry.contents)
            self.goods[entry.target] = entry
        elif entry.kind == ACCEPT:
            self.push_accept(number, entry)
        elif entry.kind == MINT:
            for ident in range(entry.first, entry.first + entry.count):
                self.count_piece(ident)
        elif entry.kind == DRAW:
            self.accepts.setdefault((None, entry.target, entry.sign), []).append(number)
            if (read_errand(entry.target) or [None])[0] == "draw":
                self.count_piece(entry.drawn)
        elif entry.kind == UPGRADE:
            self.upgrades.setdefault((entry.vendor, entry.issuer), entry.start)
        if entry.kind in (MINT, DEPOSIT, WITHDRAW):
            self.references.setdefault(entry.reference, entry)
        self.desk.push(entry)

    def version(self, vendor, ident):
        """The version of the series of an identity of a vendor's scrip."""
        start = self.upgrades.get((vendor, issuer_of(ident)))
        return 2 if start is not None and start <= epoch_of(ident) else 1

    def own_version(self, ident):
        return self.version(self.site.name, ident)

    def own_text(self, value, ident, cust, props):
        """The text of a piece of the house itself."""
        return self.terms[0].scrip_text(self.site.name, value, ident, cust, props, self.own_version(ident))

    def upgrade_terms(self, vendor, issuer):
        """The terms of an issuer of a vendor's scrip, where the house makes or takes such scrip."""
        if self.site is not None and vendor == self.site.name and (self.is_vendor or issuer == 0):
            return self.terms.get(issuer)
        licence = self.desk.licences.get(vendor) if self.is_broker else None
        return licence if licence and licence.issuer == issuer else None

    def push_accept(self, number, entry):
        self.spent.add(read_scrip(entry.scrip).id)
        self.accepts.setdefault((entry.scrip, entry.target, entry.sign), []).append(number)
        self.goods_before[number] = self.goods.get(entry.target)
        if entry.change is not None:
            self.count_piece(entry.change)

    def count_piece(self, ident):
        self.counts[series_of(ident)] = self.counts.get(series_of(ident), 0) + 1

    def in_force_with(self, target, contents):
        """How many bytes of contents are in force with these for the target."""
        old = self.goods.get(target)
        return self.in_force - (len(old.contents) if old else 0) + len(contents)

    def own_series(self, time):
        return self.terms[0].series(time)

    def next_identity(self, time):
        """The next identity of the own series of a time."""
        return id_of(0, self.terms[0].epoch(time), self.counts.get(self.own_series(time), 0))

    def room(self, time, limits):
        """How many more pieces the own series of a time may have."""
        return limits.series - self.counts.get(self.own_series(time), 0)

    def repeat_of(self, request, time):
        """The number of the entry whose first reply a request gets again."""
        sign = signature_of(request.sign)
        if sign is False or self.house is None:
            return None
        for number in self.accepts.get((request.scrip, request.target, sign), ()):
            if time < self.entries[number].moment + self.house.keep:
                return number
        return None


def signature_of(text):
    """The signature that 32 digits spell; None where there is no text, False where it spells none."""
    if text is None:
        return None
    digits = len(text) == 32 and all(byte in b"0123456789abcdef" for byte in text)
    return bytes.fromhex(text.decode()) if digits else False


def answer(history, time, limits, request):
    """A Refusal, the number of the entry that comes again, or the entry that is taken."""
    errand = read_errand(request.target) if history.is_broker else None
    if errand and errand[0] == "draw":
        return draw_answer(history, time, limits, Request(request.target, None, request.sign), *errand[1:])
    if request.scrip is None:
        return refused(20)
    try:
        piece = read_scrip(request.scrip)
    except Fault as fault:
        return refused(21, fault.place)
    number = history.repeat_of(request, time)
    if number is not None:
        return number
    refusal = genuine(history, piece) or spendable(history, time, request, piece)
    if refusal:
        return refusal
    offer = sold_at_vendor(history, request, piece) if history.is_vendor else desk_offer(history, time, limits, request, piece)
    return offer if is_refusal(offer) else fitted(history, time, limits, request, piece, *offer)


def draw_answer(history, time, limits, request, account, order, amount):
    """The answer to a draw at a broker."""
    desk = history.desk
    number = history.repeat_of(request, time)
    if number is not None:
        return number
    if account not in desk.keys:
        return refused(40)
    if request.sign is None:
        return refused(28)
    right = request_signature(b"-", request.target, desk.keys[account])
    if request.sign != right.hex().encode():
        return refused(29)
    if order <= desk.orders.get(account, 0):
        return refused(41, desk.orders[account])
    if amount > desk.balance(account):
        return refused(42, desk.balance(account))
    if history.room(time, limits) <= 0:
        return refused(32, history.own_series(time))
    entry = entry_of(DRAW, time, target=request.target, sign=right, drawn=history.next_identity(time))
    return journal_full(history, limits, entry) or entry


def genuine(history, piece):
    """Refusals 22 to 25, and 34 between the last two."""
    if history.site is None or piece.vendor != history.site.name:
        return refused(22)
    if not {issuer_of(piece.id), issuer_of(piece.cust)} <= history.terms.keys():
        return refused(23)
    terms = history.terms[issuer_of(piece.id)]
    end = terms.end(epoch_of(piece.id))
    if piece.expires != end:
        return refused(24, piece.expires, end)
    if piece.version != history.own_version(piece.id):
        return refused(34, history.own_version(piece.id))
    if piece.cert != terms.certificate(piece.body, piece.id):
        return refused(25)
    return None


def spendable(history, time, request, piece):
    """Refusals 26 to 29."""
    if time >= piece.expires:
        return refused(26, piece.expires, time)
    if piece.id in history.spent:
        return refused(27)
    if request.sign is None:
        return None if history.house.clear else refused(28)
    right = request_signature(request.scrip, request.target, secret_of(history, piece))
    return None if request.sign == right.hex().encode() else refused(29)


def sold_at_vendor(history, request, piece):
    """The price and the deed of goods, or refusal 30 or 31."""
    goods = goods_at(history, request.target)
    if goods is None:
        return refused(30)
    return refused(31, goods.price) if piece.value < goods.price else (goods.price, (GOODS_DEED,))


def desk_offer(history, time, limits, request, piece):
    """The price and the deed of a broker's sale or credit, or one of 30, 31, 32 of a licence, 40, 43, 44, 45."""
    errand = read_errand(request.target)
    if errand and errand[0] == "buy":
        return sale_offer(history, time, limits, piece, *errand[1:])
    if errand and errand[0] == "credit":
        return credit_offer(history, piece, errand[1])
    return refused(30)


def sale_offer(history, time, limits, piece, vendor, amount):
    desk, price = history.desk, amount + history.house.fee
    if piece.value < price:
        return refused(31, price)
    if vendor in desk.licences:
        ident = desk.next_licensed(vendor, time, limits.series)
        if ident is None:
            return refused(32, desk.licences[vendor].series(time))
        return price, (SALE, 0, ident)
    if vendor not in desk.stock:
        return refused(43)
    ident = desk.for_sale(vendor, amount, time)
    return refused(44, amount) if ident is None else (price, (SALE, 1, ident))


def credit_offer(history, piece, account):
    if account not in history.desk.keys:
        return refused(40)
    balance = history.desk.balance(account)
    if balance + piece.value > MOST_BALANCE:
        return refused(45, balance)
    return piece.value, (CREDIT, balance + piece.value)


def fitted(history, time, limits, request, piece, price, deed):
    """The entry of a request that nothing else refuses, or refusal 32 or 33."""
    if piece.value > price and history.room(time, limits) <= 0:
        return refused(32, history.own_series(time))
    entry = entry_of(
        ACCEPT, time, scrip=request.scrip, target=request.target, sign=signature_of(request.sign), price=price,
        change=history.next_identity(time) if piece.value > price else None, deed=deed)
    return journal_full(history, limits, entry) or entry


def journal_full(history, limits, entry):
    """Refusal 33, where the entry with its tail would pass the limit of the journal."""
    size, length = history.size, len(entry.payload)
    return refused(33, size, length) if size + 5 + length + history.tail > limits.journal else None


def goods_at(history, target):
    """The goods in force at a vendor."""
    return history.goods.get(target) if history.is_vendor else None


def secret_of(history, piece):
    return history.terms[issuer_of(piece.cust)].secret(piece.cust, history.own_version(piece.cust))


def may_follow(history, entry, series):
    """Whether an entry is lawful behind those before it."""
    if entry.moment < history.time:
        return False
    if entry.kind in (ACCEPT, DRAW):
        sign = None if entry.sign is None else entry.sign.hex().encode()
        request = Request(entry.target, entry.scrip if entry.kind == ACCEPT else None, sign)
        given = answer(history, entry.moment, Limits(series=series), request)
        return isinstance(given, SimpleNamespace) and given.payload == entry.payload
    if entry.kind == SITE:
        return not history.entries and entry.site in (VENDOR, BROKER)
    if entry.kind == UPGRADE:
        return may_upgrade(history, entry)
    if entry.kind == NOTE:
        return history.site is not None
    if entry.kind == SWITCH:
        return history.site is not None and may_switch(history.chain, entry)
    if entry.kind in (TERMS, GOODS, MINT):
        return history.is_vendor and vendor_may_enter(history, entry, series)
    return history.is_broker and broker_may_enter(history, entry)


def follow(history, entry, series):
    """Adds an entry to a history, where it may follow; whether it may."""
    may = may_follow(history, entry, series)
    if may:
        history.push(entry)
    return may


def may_upgrade(history, entry):
    """Whether an issuer's scrip may go over to version 2: once, and from a series that has not begun."""
    terms = history.upgrade_terms(entry.vendor, entry.issuer)
    is_new = (entry.vendor, entry.issuer) not in history.upgrades
    return terms is not None and is_new and terms.epoch(entry.moment) < entry.start


def vendor_may_enter(history, entry, series):
    if entry.kind == TERMS:
        return entry.terms.issuer not in history.terms
    if entry.kind == GOODS:
        return history.in_force_with(entry.target, entry.contents) <= MOST_CONTENTS
    fits = entry.count <= history.room(entry.moment, Limits(series=series))
    return entry.reference not in history.references and fits and entry.first == history.next_identity(entry.moment)


def broker_may_enter(history, entry):
    desk = history.desk
    if entry.kind == ACCOUNT:
        return entry.name not in desk.keys
    if entry.kind in (DEPOSIT, WITHDRAW):
        if entry.name not in desk.keys or entry.reference in history.references:
            return False
        balance = desk.balance(entry.name)
        return balance + entry.amount <= MOST_BALANCE if entry.kind == DEPOSIT else entry.amount <= balance
    if entry.kind == LICENCE:
        return entry.vendor not in desk.licences
    return entry.kind == STOCK and is_stock_for(entry.vendor, desk.stocked(entry.vendor), entry.pieces)


def first_unlawful(entries, series):
    """The number of the first entry that may not follow those before it, 0 where there is none; else None."""
    history = History()
    for number, entry in enumerate(entries):
        if not may_follow(history, entry, series):
            return number
        history.push(entry)
    return None if entries else 0


def reply_bytes(status, date, kind, refusal, price, change, sign, contents):
    """A whole reply. The refusal, the price and the change are texts, `-` where there is none."""
    lines = ["HTTP/1.1 %d %s" % (status, REASONS[status]), "Date: " + formatdate(date, usegmt=True)]
    lines += ["Cache-Control: no-store"]
    lines += ["Content-Type: " + KINDS[kind]] if status == 200 else []
    lines += ["Allow: GET"] if status == 405 else []
    lines += ["Content-Length: %d" % len(contents)]
    lines += ["Millicent-Refusal: " + refusal] if status != 200 else []
    lines += ["Millicent-Price: " + price, "Millicent-Change: " + change, "Millicent-Sign: " + sign, "", ""]
    return "\r\n".join(lines).encode() + contents


def drawn_at(history, target):
    """The account, the order and the amount of a draw that is asked of a broker; None where none is."""
    errand = read_errand(target) if history.is_broker else None
    return errand[1:] if errand and errand[0] == "draw" else None


def signed(history, request, status, refusal, price, change, contents):
    """The digits of a reply's signature, `-` where nobody's secret is known. To a draw it is that of the key of the
    account, with `-` in place of a scrip text."""
    head = ("%d %s %s %s\n" % (status, refusal, price, change)).encode()
    drawn = drawn_at(history, request.target)
    if drawn:
        text, secret = b"-", history.desk.keys.get(drawn[0])
    else:
        text, secret = request.scrip, secret_of(history, read_scrip(request.scrip))
    return reply_signature(text, request.target, head, contents, secret).hex() if secret else "-"


def draw_reply(history, entry):
    """The first reply of a Draw entry: the line of the drawn piece."""
    _, _, amount = drawn_at(history, entry.target)
    text = history.own_text(amount, entry.drawn, entry.drawn, b"")
    contents = piece_line(text, history.terms[0].secret(entry.drawn, history.own_version(entry.drawn)))
    sign = signed(history, Request(entry.target, None, None), 200, "-", str(amount), "-", contents)
    return reply_bytes(200, entry.moment, 1, "-", str(amount), "-", sign, contents)


def sold_by(history, entry, number):
    """The kind and the bytes of what an Accept entry brings."""
    if entry.deed[0] == CREDIT:
        return 1, b"%d\n" % entry.deed[1]
    if entry.deed[0] == SALE:
        _, vendor, value = read_errand(entry.target)
        _, stock, ident = entry.deed
        return 1, history.desk.sold_line(vendor, value, stock, ident, history.version(vendor, ident))
    goods = history.goods_before[number]
    return goods.goods, goods.contents


def reply_of(history, number):
    """The first reply of a Draw entry, or of an Accept entry."""
    entry = history.entries[number]
    if entry.kind == DRAW:
        return draw_reply(history, entry)
    piece, (kind, contents) = read_scrip(entry.scrip), sold_by(history, entry, number)
    change = "-"
    if entry.change is not None:
        rest = piece.value - entry.price
        change = history.own_text(rest, entry.change, piece.cust, piece.props).decode()
    price = str(entry.price)
    sign = signed(history, Request(entry.target, entry.scrip, None), 200, "-", price, change, contents)
    return reply_bytes(200, entry.moment, kind, "-", price, change, sign, contents)


def asked_price(history, target):
    """What a target costs: goods at a vendor, a sale and its fee at a broker; None where nothing is sold there."""
    if history.is_vendor:
        goods = goods_at(history, target)
        return goods.price if goods else None
    errand = read_errand(target)
    return errand[2] + history.site.house.fee if errand and errand[0] == "buy" else None


def refusal_of(history, time, request, refusal):
    """The reply of a refusal; the request is None where a head was refused or nothing is told of it."""
    price = "-"
    if request and refusal.number == 20 and asked_price(history, request.target) is not None:
        price = str(asked_price(history, request.target))
    elif refusal.number == 31:
        price = str(refusal.kept[0])
    sign = "-"
    if 26 <= refusal.number <= 45 and refusal.number != 34:
        sign = signed(history, request, refusal.status, refusal.text(), price, "-", b"")
    return reply_bytes(refusal.status, time, None, refusal.text(), price, "-", sign, b"")


def is_refusal(given):
    return isinstance(given, Refusal)
