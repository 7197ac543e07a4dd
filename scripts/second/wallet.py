"""A wallet's book: its pieces and kept requests, what it asks for, the bytes of a request, and what a reply does to one."""
import re
from dataclasses import dataclass

from bytes_text import shown
from desk import read_errand
from forms import MOST_VALUE, Fault, is_scrip, read_scrip, reply_signature, request_signature, whole_number
from journal import Chain, may_switch
from payloads import DONE, GOT, NOTE, PEND, REFUSED, SITE, SWITCH
from refusals import refused

WALLET = 2
GET, BUY, DRAW = range(3)
PIECE_LINE = re.compile(rb"([^ \n]*) ([0-9a-f]{32})\n")
NOBODY = bytes(16)


@dataclass(frozen=True)
class Request:
    """What a Pend entry asks, of whom, under which target, with which piece, under which secret."""
    ask: int
    peer: bytes
    target: bytes
    scrip: bytes
    secret: bytes

    @property
    def paid(self):
        """The scrip text as signatures have it."""
        return b"-" if self.scrip is None else self.scrip

    def sign(self):
        return request_signature(self.paid, self.target, self.secret).hex().encode()

    def sent(self):
        """The bytes that are sent."""
        scrip = b"" if self.scrip is None else b"Millicent-Scrip: %s\r\n" % self.scrip
        return b"GET %s HTTP/1.1\r\nHost: %s\r\n%sMillicent-Sign: %s\r\nConnection: close\r\n\r\n" % (
            self.target, self.peer, scrip, self.sign())

    def line(self):
        texts = [str(self.ask), *map(shown, (self.peer, self.target, self.scrip, self.secret))]
        return " ".join(texts)


def buy_target(vendor, amount):
    return b"/buy/%s/%d" % (vendor, amount)


def drawing(broker, account, key, order, amount):
    """The request of a draw."""
    return Request(DRAW, broker, b"/draw/%s/%d/%d" % (account, order, amount), None, key)


def name_of(text):
    """The vendor and the identity of the piece of a text; None of a text that is none."""
    try:
        piece = read_scrip(text)
    except Fault:
        return None
    return piece.vendor, piece.id


class WalletBook:
    """What the entries of a book say, each after those before it."""

    def __init__(self, entries=()):
        self.pieces, self.names, self.states = [], set(), {}
        self.requests, self.settled = {}, set()
        self.time, self.count, self.is_wallet, self.name, self.chain = 0, 0, False, None, Chain()
        for entry in entries:
            self.push(entry)

    def push(self, entry):
        if entry.kind == GOT:
            for text, secret in entry.pieces:
                self.bring(text, secret)
        elif entry.kind == PEND:
            request = Request(entry.ask, entry.peer, entry.target, entry.scrip, entry.secret)
            if request.scrip is not None:
                self.states[request.scrip] = "pending"
            self.requests[self.count] = request
        elif entry.kind in (DONE, REFUSED):
            self.settle(entry)
        if self.count == 0 and entry.kind == SITE and entry.site == WALLET:
            self.is_wallet, self.name = True, entry.name
        self.time, self.count = max(self.time, entry.moment), self.count + 1
        self.chain.push(entry.payload)

    def bring(self, text, secret):
        self.pieces.append((text, secret))
        self.names.add(name_of(text))

    def settle(self, entry):
        """What a Done or a Refused entry does."""
        request = self.requests.get(entry.number)
        if request and request.scrip is not None:
            self.states[request.scrip] = "used" if entry.kind == DONE else state_after(entry.refusal)
        self.settled.add(entry.number)
        if entry.kind == DONE:
            if entry.change is not None:
                self.bring(entry.change, request.secret if request else NOBODY)
            if entry.got is not None:
                self.bring(*entry.got)

    def state(self, text):
        return self.states.get(text, "held")

    def holdings(self):
        return [(self.state(text), text, secret) for text, secret in self.pieces]

    def kept(self):
        return [(n, request) for n, request in self.requests.items() if n not in self.settled]

    def is_kept(self, number_of_entry):
        return number_of_entry in self.requests and number_of_entry not in self.settled

    def are_new(self, texts):
        """Whether pieces are none of those that came, by vendor and identity, and of one another."""
        names = [name_of(text) for text in texts]
        known = self.names - {None}
        named = [name for name in names if name is not None]
        return len(set(named)) == len(named) and not known & set(named)

    def pays(self, peer, scrip):
        """Whether a piece can be spent, and is one of a peer."""
        is_there = any(text == scrip for text, _ in self.pieces)
        return is_there and self.state(scrip) == "held" and read_scrip(scrip).vendor == peer

    def follow(self, entry):
        """Learns an entry, where it may follow; whether it may."""
        may = self.may_follow(entry)
        if may:
            self.push(entry)
        return may

    def may_follow(self, entry):
        """Whether an entry may follow."""
        if entry.moment < self.time:
            return False
        if entry.kind == SITE:
            return self.count == 0 and entry.site == WALLET
        return self.is_wallet and self.allows(entry)

    def allows(self, entry):
        if entry.kind == GOT:
            return self.are_new([text for text, _ in entry.pieces])
        if entry.kind == PEND:
            return self.asks_rightly(entry)
        if entry.kind == DONE:
            texts = [] if entry.change is None else [entry.change]
            return self.is_kept(entry.number) and self.are_new(texts + ([entry.got[0]] if entry.got else []))
        if entry.kind == SWITCH:
            return may_switch(self.chain, entry)
        return entry.kind == NOTE or entry.kind == REFUSED and self.is_kept(entry.number)

    def asks_rightly(self, entry):
        errand = read_errand(entry.target)
        if entry.ask == DRAW:
            return entry.scrip is None and bool(errand) and errand[0] == "draw"
        if entry.scrip is None or not self.pays(entry.peer, entry.scrip):
            return False
        return entry.ask == GET or bool(errand) and errand[0] == "buy"

    # What is asked.

    def offers(self, vendor, time):
        """The pieces that can be spent at a vendor at a time, as they came."""
        read = [(read_scrip(text), text, secret) for state, text, secret in self.holdings() if state == "held"]
        return [offer for offer in read if offer[0].vendor == vendor and time < offer[0].expires]

    def choose(self, vendor, time, limit):
        """The first of the least value that covers a limit; else the refusal."""
        offers = self.offers(vendor, time)
        covering = [offer for offer in offers if offer[0].value >= limit]
        if covering:
            return min(covering, key=lambda offer: offer[0].value)
        return refused(62, max((offer[0].value for offer in offers), default=0))

    def paying(self, ask, peer, target, time, limit):
        """The request of a get or of a buy, with the piece that is chosen; else the refusal."""
        chosen = self.choose(peer, time, limit)
        return Request(ask, peer, target, *chosen[1:]) if isinstance(chosen, tuple) else chosen

    def oldest_kept(self, peer):
        """The number of the oldest kept request of a peer."""
        return next((n for n, request in self.kept() if request.peer == peer), None)

    # What a reply does.

    def settlement(self, request, reply):
        """The price, the change and the piece of a 200 that settles a request; the number of another reply."""
        if reply.status != 200:
            return refusal_number(reply.refusal)
        change = None if reply.change == b"-" or not self.are_new([reply.change]) else reply.change
        got = piece_line(reply.contents) if request.ask != GET else None
        if got and not self.are_new([text for text in (change, got[0]) if text is not None]):
            got = None
        return price_of(reply), change, got


def state_after(refusal):
    return {27: "disputed", 26: "dead"}.get(refusal, "held")


def refusal_number(text):
    """The number that the text of a refusal begins with, which the reader saw there."""
    return int(text.split(b" ")[0])


def price_of(reply):
    return whole_number(reply.price, 0, MOST_VALUE)


def piece_line(contents):
    """The text and the secret of contents that are one piece line."""
    found = PIECE_LINE.fullmatch(contents)
    return (found[1], bytes.fromhex(found[2].decode())) if found and is_scrip(found[1]) else None


def is_piece_of(contents, vendor, value):
    line = piece_line(contents)
    piece = read_scrip(line[0]) if line else None
    return piece is not None and (piece.vendor, piece.value) == (vendor, value)


def pays_price(request, price, change):
    """Whether price and change are those of the piece that a request pays with."""
    if request.scrip is None:
        return True
    paid = read_scrip(request.scrip)
    if price >= paid.value:
        return price == paid.value and change == b"-"
    if not is_scrip(change):
        return False
    back = read_scrip(change)
    return (back.vendor, back.cust, back.props, back.value) == (paid.vendor, paid.cust, paid.props, paid.value - price)


def fits(request, reply):
    """Whether the values of a 200 are those that a request may get."""
    price = price_of(reply)
    if price is None or not pays_price(request, price, reply.change):
        return False
    errand = read_errand(request.target)
    if request.ask == GET:
        return True
    if request.ask == BUY:
        return bool(errand) and errand[0] == "buy" and is_piece_of(reply.contents, *errand[1:])
    return (bool(errand) and errand[0] == "draw" and reply.change == b"-" and price == errand[3]
            and is_piece_of(reply.contents, request.peer, errand[3]))


def reply_line(reply):
    """The reply text up to its line end."""
    refusal = b"-" if reply.refusal is None else reply.refusal
    return b"%d %s %s %s\n" % (reply.status, refusal, reply.price, reply.change)


def check(request, reply):
    """The refusal of a reply that does not settle a request."""
    if reply.status == 200 and not fits(request, reply):
        return refused(65)
    sign = reply_signature(request.paid, request.target, reply_line(reply), reply.contents, request.secret)
    return None if reply.sign == sign.hex().encode() else refused(66)
