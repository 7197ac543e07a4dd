"""What holds after a schedule: books are lawful and balanced, and wallets and houses agree. Each finding is a text."""
import copy

from forms import read_scrip, request_signature
from ledger import SALE, Request, first_unlawful, secret_of
from market import Book, broker_sums, first_stranger, vendor_sums
from payloads import ACCEPT, DONE, DRAW
from wallet import BUY, DRAW as DRAWS, GET, name_of
from wallet_verbs import first_against


def findings(world, wallets):
    """All that is not as it has to be, where the wallets had these entries at first."""
    yield from books(world)
    yield from settled(world, wallets)
    yield from asked(world)
    yield from repeats(world)


# ---- books


def books(world):
    for n, house in enumerate(world.houses):
        if first_unlawful(house.history.entries, world.limits.series) is not None:
            yield "house %d is not lawful" % n
        ids = [read_scrip(e.scrip).id for e in house.history.entries if e.kind == ACCEPT]
        if len(set(ids)) < len(ids):
            yield "house %d accepted an identity twice" % n
        if house.time < house.history.time:
            yield "house %d is behind its history" % n
    for n, purse in enumerate(world.wallets):
        if first_against(purse.entries) is not None:
            yield "wallet %d is not lawful" % n
        names = [name_of(text) for text, _ in purse.book.pieces]
        if len(set(names)) < len(names):
            yield "wallet %d has a piece twice" % n
    read = [Book(house.history.entries) for house in world.houses]
    for some in chosen(read):
        b, *vs = some
        paid_in, *others = broker_sums(b)
        if first_stranger(some) is None and paid_in != sum(others) + sum(sum(vendor_sums(b, v)) for v in vs):
            yield "books are not balanced"


def chosen(read):
    """Each broker, with vendors of their own names among which are all of whom it sold."""
    vendors = [book for book in read if not book.is_broker]
    for broker in (book for book in read if book.is_broker):
        for choice in range(2 ** len(vendors)):
            some = [v for k, v in enumerate(vendors) if choice >> k & 1]
            names = {v.name for v in some}
            if len(names) == len(some) and {of for of, _, _ in broker.sales} <= names:
                yield [broker, *some]


# ---- Done entries


def settled(world, wallets):
    """Each Done entry that came is one entry of a house, with what that gives; no two are of one."""
    seen = set()
    for j, (purse, before) in enumerate(zip(world.wallets, wallets)):
        for n in range(len(before), len(purse.entries)):
            entry = purse.entries[n]
            if entry.kind != DONE:
                continue
            request = purse.book.requests[entry.number]
            is_draw = request.scrip is None
            if not is_draw and request.scrip in seen:
                yield "a piece is done twice"
            seen.add(request.scrip)
            found = [(i, k) for i, house in enumerate(world.houses) for k, e in enumerate(house.history.entries)
                     if (is_drawn if is_draw else is_accepted)(e, request, entry)]
            if not found or not is_draw and len(found) > 1:
                yield "entry %d of wallet %d stands for %d entries of houses" % (n, j, len(found))
            elif not any(has_come(purse.entries[:n], entry, *given(world.houses[i].history, k)) for i, k in found):
                yield "entry %d of wallet %d has other pieces than its house gave" % (n, j)


def is_accepted(e, request, done):
    return e.kind == ACCEPT and (e.scrip, e.target, e.price) == (request.scrip, request.target, done.price)


def is_drawn(e, request, done):
    return e.kind == DRAW and (e.target, e.sign) == (request.target, request_signature(b"-", request.target, request.secret))


def given(history, k):
    """The change and the drawn piece that an entry of a house gives."""
    entry = history.entries[k]
    if entry.kind == DRAW:
        return None, history.own_text(int(entry.target.split(b"/")[4]), entry.drawn, entry.drawn, b"")
    if entry.change is None:
        return None, None
    paid = read_scrip(entry.scrip)
    return history.own_text(paid.value - entry.price, entry.change, paid.cust, paid.props), None


def has_come(before, done, change, drawn):
    """Whether a Done entry has these, or none where one of their vendor and identity was there."""
    had = {name_of(text) for text in came(before)}
    def is_so(now, text):
        return now == text or now is None and text is not None and name_of(text) in had
    return is_so(done.change, change) and (drawn is None or is_so(done.got and done.got[0], drawn))


def came(entries):
    """The texts of the pieces that came, oldest first."""
    for entry in entries:
        if entry.kind == DONE:
            yield from (text for text in (entry.change, entry.got and entry.got[0]) if text)
        else:
            yield from (text for text, _ in getattr(entry, "pieces", ()))


# ---- Accept entries


def asked(world):
    """Each Accept entry of a piece that stands in a wallet with its customer's secret is for a request of the wallet."""
    for j, purse in enumerate(world.wallets):
        held = set(purse.book.pieces)
        made = {(r.scrip, r.target, r.sign()) for r in purse.book.requests.values()}
        for i, house in enumerate(world.houses):
            for n, e in enumerate(house.history.entries):
                if e.kind != ACCEPT or (e.scrip, secret_of(house.history, read_scrip(e.scrip))) not in held:
                    continue
                if (e.scrip, e.target, e.sign and e.sign.hex().encode()) not in made:
                    yield "entry %d of house %d is for no request of wallet %d" % (n, i, j)


# ---- repeats


def repeats(world):
    """The oldest kept request of a peer, whose entry a house keeps, is settled by one repeat; or its journal is full."""
    for j, purse in enumerate(world.wallets):
        for peer in {request.peer for _, request in purse.book.kept()}:
            number = purse.book.oldest_kept(peer)
            request = purse.book.requests[number]
            for i, house in enumerate(world.houses):
                history = house.history
                at = history.repeat_of(Request(request.target, request.scrip, request.sign()), house.time)
                if at is None or not is_own(history, at, request):
                    continue
                after = copy.deepcopy(world)
                after.again(j, peer)
                after.deliver(len(after.messages) - 1, i, 0)
                after.hand(len(after.replies) - 1, j, number, 0)
                has_settled = not after.wallets[j].book.is_kept(number)
                if not has_settled and after.wallets[j].size + 400 < after.limits.journal:
                    yield "a repeat of request %d of wallet %d at house %d settles nothing" % (number, j, i)


def is_own(history, at, request):
    """Whether an entry holds a request under the house's own secret, and is one of its errand."""
    entry = history.entries[at]
    if history.site.name != request.peer:
        return False
    if entry.kind == DRAW:
        return request.ask == DRAWS and history.desk.keys.get(entry.target.split(b"/")[2]) == request.secret
    if secret_of(history, read_scrip(request.scrip)) != request.secret:
        return False
    return request.ask == GET or request.ask == BUY and entry.deed[0] == SALE
