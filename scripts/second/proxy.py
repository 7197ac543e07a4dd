"""A wallet that pays for what a browser asks, with links of the browser on one side, and on the other links to a vendor."""
from forms import read_scrip
from house import Ends, Server
from ledger import reply_bytes
from payloads import DONE, REFUSED
from refusals import Refusal, refused
from replies import Bad, take as take_reply
from stage import LinkFault
from wallet import GET, check
from wallet_commands import Wallet


class Fails(Exception):
    """A request brings nothing; the refusal that the browser is told."""

    def __init__(self, refusal):
        super().__init__(refusal)
        self.refusal = refusal


class Proxy(Server):
    """A wallet that pays one vendor, with what it has paid since it began."""

    def __init__(self, wallet, up, order):
        self.wallet, self.stage, self.up, self.order, self.paid = wallet, wallet.stage, up, order, 0

    def raise_time(self):
        self.wallet.raise_time()

    def reply_to(self, item):
        try:
            price, contents = self.bought(item)
        except Fails as fails:
            return self.send(self.told(fails.refusal))
        except Ends:
            return self.fail(self.told(refused(91)))
        self.send(reply_bytes(200, self.wallet.time, 0, "-", str(price), "-", "-", contents))

    def told(self, refusal):
        """The reply that tells a refusal: where a piece lacks with 402, and what has no status of its own with 503."""
        status = 402 if refusal.number == 62 else refusal.status or 503
        return reply_bytes(status, self.wallet.time, None, refusal.text(), "-", "-", "-", b"")

    def bought(self, item):
        """The price and the contents of what an item asks for, which is paid for then."""
        if item.refusal is not None:
            raise Fails(refused(item.refusal))
        if item.request.scrip is not None or item.request.sign is not None:
            raise Fails(refused(78))
        number, request = self.paying(item.request.target)
        if number is None:
            number = self.wallet.pend(request)
        return self.settled(number, request, self.fetched(request))

    def paying(self, target):
        """The oldest get of a target that is kept, with its number; else a new one. No more than the budget may be paid."""
        book = self.wallet.book
        number, request = next(
            (kept for kept in book.kept() if (kept[1].ask, kept[1].peer, kept[1].target) == (GET, self.order.peer, target)),
            (None, None))
        if number is None:
            request = book.paying(GET, self.order.peer, target, self.wallet.time, self.order.limit)
            if isinstance(request, Refusal):
                raise Fails(request)
        if self.paid + read_scrip(request.scrip).value > self.order.budget:
            raise Fails(refused(79, self.paid))
        return number, request

    def fetched(self, request):
        """The reply to a request, over a link to the vendor of its own, which passes the wallet's check."""
        try:
            if not self.up.next_link():
                raise Fails(refused(63))
            self.up.send(request.sent())
            reply = take_reply(self.up)
        except LinkFault:
            raise Fails(refused(81))
        finally:
            self.up.end_link()
        wrong = refused(64) if reply is None else refused(65) if isinstance(reply, Bad) else check(request, reply)
        if wrong:
            raise Fails(wrong)
        return reply

    def settled(self, number, request, reply):
        """Enters what a reply does to a request; answers the price and the contents."""
        settled = self.wallet.book.settlement(request, reply)
        if isinstance(settled, int):
            self.wallet.enter(REFUSED, number=number, refusal=settled)
            raise Fails(refused(68, settled))
        price, change, got = settled
        self.wallet.enter(DONE, number=number, price=price, change=change, got=got)
        self.paid += price
        return price, reply.contents


def serve(order, stage, up):
    """Serves links of a browser by the wallet of a book; answers the line."""
    proxy = Proxy(Wallet(stage), up, order)
    return b"proxied %d %d\n" % (proxy.serve(order.links), proxy.paid)
