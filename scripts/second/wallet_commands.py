"""The commands of a wallet."""
from types import SimpleNamespace

import forms
from broker import MOST_INPUT
from forms import MOMENTS, MOST_VALUE, id_text, is_name, is_target, read_scrip
from house import Ends, chain_line, founded, read_pieces, read_through, received
from journal import Halted
from payloads import DONE, GOT, PEND, REFUSED, SITE, SWITCH, entry_of
from refusals import Refusal, refused
from replies import Bad, take as take_reply
from stage import LinkFault
from vendor import MOST_LINKS
from wallet import BUY, GET, WALLET, Request, WalletBook, buy_target, check, drawing, name_of, piece_line
from words import connect, listen, number, place, secret, text


def parse_init(words):
    return SimpleNamespace(book=place(words[0]), name=text(is_name, words[1]))


def parse_book(words):
    return SimpleNamespace(book=place(words[0]))


def parse_draw(words):
    return SimpleNamespace(
        book=place(words[0]), peer=text(is_name, words[1]), account=text(is_name, words[2]), key=secret(words[3]),
        order=number(words[4], 1, MOST_VALUE), amount=number(words[5], 1, MOST_VALUE), connect=connect(words[6]))


def parse_buy(words):
    vendor, amount = text(is_name, words[2]), number(words[3], 1, MOST_VALUE)
    return SimpleNamespace(
        book=place(words[0]), peer=text(is_name, words[1]), ask=BUY, target=buy_target(vendor, amount),
        limit=number(words[4], 1, MOST_VALUE), connect=connect(words[5]))


def parse_get(words):
    return SimpleNamespace(
        book=place(words[0]), peer=text(is_name, words[1]), ask=GET, target=text(is_target, words[2]),
        limit=number(words[3], 1, MOST_VALUE), connect=connect(words[4]))


def parse_lines(words):
    return SimpleNamespace(book=place(words[0]), peer=text(is_name, words[1]))


def parse_renew(words):
    return SimpleNamespace(
        book=place(words[0]), peer=text(is_name, words[1]), target=text(is_target, words[2]),
        before=number(words[3], 0, MOMENTS - 1), connect=connect(words[4]))


def parse_proxy(words):
    return SimpleNamespace(
        book=place(words[0]), peer=text(is_name, words[1]), limit=number(words[2], 1, MOST_VALUE),
        budget=number(words[3], 1, MOST_VALUE), listen=listen(words[4]), connect=connect(words[5]),
        links=number(words[6], 1, MOST_LINKS))


def parse_retry(words):
    return SimpleNamespace(book=place(words[0]), peer=text(is_name, words[1]), connect=connect(words[2]))


class Wallet:
    """A wallet over its journal, with its time."""

    def __init__(self, stage):
        self.stage, self.book = stage, WalletBook()
        self.journal = read_through(stage, (WALLET,), self.book.follow)
        self.time = self.book.time

    def raise_time(self):
        """Reads the clock once."""
        self.time = max(self.time, self.stage.now())

    def enter(self, kind, **values):
        entry = entry_of(kind, self.time, **values)
        try:
            self.journal.add(entry.payload)
        except Halted:
            raise Ends.disk_fault()
        assert self.book.follow(entry), "a wallet entered what may not follow"

    def switch(self):
        """Switches the chain on, where it is not."""
        if not self.journal.chain.switched:
            self.enter(SWITCH, chain=self.book.chain.digest)

    def pend(self, request):
        """Enters a request that is now kept; its number."""
        number_of_entry = self.book.count
        self.enter(PEND, ask=request.ask, peer=request.peer, target=request.target, scrip=request.scrip, secret=request.secret)
        return number_of_entry

    def send(self, number_of_entry, is_renewal=False):
        """Sends a kept request on the one link, and settles it by the reply; answers the line. A renewal says no contents."""
        request = self.book.requests[number_of_entry]
        try:
            if not self.stage.next_link():
                raise Ends.refused(refused(63))
            self.stage.send(request.sent())
            reply = take_reply(self.stage)
            wrong = refused(64) if reply is None else refused(65) if isinstance(reply, Bad) else check(request, reply)
            if wrong:
                raise Ends.refused(wrong)
            if reply.status == 200 and request.ask == GET and reply.contents and not is_renewal:
                self.stage.say(reply.contents)
        except LinkFault:
            raise Ends.link_fault()
        change = self.settle(number_of_entry, request, reply)
        return renewed_line(request, change) if is_renewal else bought_line(request, reply)

    def settle(self, number_of_entry, request, reply):
        """Enters what a reply does to a request; answers the change that came."""
        settled = self.book.settlement(request, reply)
        if isinstance(settled, int):
            self.enter(REFUSED, number=number_of_entry, refusal=settled)
            raise Ends.refused(refused(68, settled))
        price, change, got = settled
        self.enter(DONE, number=number_of_entry, price=price, change=change, got=got)
        return change


def bought_line(request, reply):
    """The line of what was drawn or bought; of contents, which are said as they came, none."""
    if request.ask == GET:
        return b""
    piece = read_scrip(piece_line(reply.contents)[0])
    return b"got %s %d\n" % (piece.vendor, piece.value)


def renewed_line(request, change):
    """The line of the change that a renewal brought."""
    if change is None:
        return b"renewed %s 0 0\n" % request.peer
    piece = read_scrip(change)
    return b"renewed %s %d %d\n" % (request.peer, piece.value, piece.expires)


def opened_now(stage):
    """The wallet of a book, at the reading of the clock."""
    wallet = Wallet(stage)
    wallet.raise_time()
    return wallet


def init(order, stage):
    founded(stage, entry_of(SITE, stage.now(), site=WALLET, name=order.name, house=None))
    return b"founded %s\n" % order.name


def take(order, stage):
    wallet = Wallet(stage)
    lines = received(stage, MOST_INPUT + 1)
    wallet.raise_time()
    pieces = read_pieces(lines[:MOST_INPUT], lambda piece: True)
    names = [name_of(text_of) for text_of, _ in pieces]
    for name in names:
        if name in wallet.book.names or names.count(name) > 1:
            raise Ends.refused(refused(61, name[1]))
    wallet.enter(GOT, pieces=pieces)
    return b"taken %d\n" % len(pieces)


def draw(order, stage):
    wallet = opened_now(stage)
    return wallet.send(wallet.pend(drawing(order.peer, order.account, order.key, order.order, order.amount)))


def pay(order, stage):
    """Gets or buys."""
    wallet = opened_now(stage)
    request = wallet.book.paying(order.ask, order.peer, order.target, wallet.time, order.limit)
    if isinstance(request, Refusal):
        raise Ends.refused(request)
    return wallet.send(wallet.pend(request))


def retry(order, stage):
    wallet = opened_now(stage)
    oldest = wallet.book.oldest_kept(order.peer)
    if oldest is None:
        raise Ends.refused(refused(67))
    return wallet.send(oldest)


def renew(order, stage):
    """Pays a target with the piece that ends first, where it ends in time, and keeps the change."""
    wallet = opened_now(stage)
    due = [offer for offer in wallet.book.offers(order.peer, wallet.time) if offer[0].expires <= order.before]
    if not due:
        raise Ends.refused(refused(80))
    first = min(due, key=lambda offer: offer[0].expires)
    return wallet.send(wallet.pend(Request(GET, order.peer, order.target, *first[1:])), is_renewal=True)


def lines(order, stage):
    """Tells the first pieces of a vendor that may be sold on."""
    wallet = opened_now(stage)
    told = [offer for offer in wallet.book.offers(order.peer, wallet.time)
            if offer[0].cust == offer[0].id and not offer[0].props][:256]
    if not told:
        raise Ends.refused(refused(62, 0))
    return b"".join(forms.piece_line(text_of, held) for _, text_of, held in told)


def holdings(order, stage):
    return b"".join(holding_line(state, read_scrip(text_of)) for state, text_of, _ in opened_now(stage).book.holdings())


def chain(order, stage):
    wallet = opened_now(stage)
    wallet.switch()
    return chain_line(wallet.book.name, wallet.journal)


def holding_line(state, piece):
    return b"%s %s %d %s %d\n" % (state.encode(), piece.vendor, piece.value, id_text(piece.id).encode(), piece.expires)


# As those of a vendor.
COMMANDS = {
    b"init": (2, (), (), parse_init, init),
    b"take": (1, (), (), parse_book, take),
    b"draw": (7, (), (), parse_draw, draw),
    b"buy": (6, (), (), parse_buy, pay),
    b"get": (5, (), (), parse_get, pay),
    b"retry": (3, (), (), parse_retry, retry),
    b"list": (1, (), (), parse_book, holdings),
    b"chain": (1, (), (), parse_book, chain),
    b"lines": (2, (), (), parse_lines, lines),
    b"renew": (5, (), (), parse_renew, renew),
    # It has links on two sides: `run_proxy` does it, and `run` knows no such command.
    b"proxy": (7, (), (), parse_proxy, None),
}
