"""Writes `crates/cases/data/generated_schedules.cases`: schedules at random, of a vendor that licenses, a bank and a vendor that
mints, and of three wallets. `scripts/try/schedules.py` looks through more of them."""
import re
from types import SimpleNamespace

from forms import MOMENTS, Terms, id_of, read_scrip, reply_signature
from generate import LIFE, NOW, PERIOD, Cases, Numbers
from ledger import FULL, History, Limits, follow, reply_bytes
from payloads import (
    ACCEPT, ACCOUNT, BROKER, DEPOSIT, GOODS, GOT, LICENCE, MINT, NOTE, SITE, STOCK, SWITCH, TERMS, UPGRADE, VENDOR, WITHDRAW,
    entry_of)
from replies import Reply
from schedule import EVENTS, World
from wallet import GET, WALLET, Request, WalletBook, reply_line

NEWS, BANK, SHOP = b"news.example", b"bank", b"shop.example"
KEYS = {b"ann": b"\x07" * 16, b"bob": b"\x08" * 16}
TARGETS = (b"/a", b"/a", b"/a", b"/b", b"/none", b"/buy/shop.example/50", b"/draw/ann/9/5", b"/credit/ann")


def terms(issuer, scrip, customer):
    return Terms(issuer, PERIOD, LIFE, (bytes([scrip]) * 16,), (bytes([customer]) * 16,))


OWN = {NEWS: terms(0, 0x11, 0x22), BANK: terms(0, 0x51, 0x52), SHOP: terms(0, 0x71, 0x72)}
ONE, TWO = terms(1, 0x33, 0x44), terms(2, 0x91, 0x92)


def house(name, site, *entries, clear=0, keep=600, fee=0):
    """The entries of a house: kinds with their values."""
    own = SimpleNamespace(keep=keep, fee=fee, clear=clear, terms=OWN[name])
    history = History([entry_of(SITE, NOW, site=site, name=name, house=own)])
    for kind, values in entries:
        values = {"chain": history.chain.digest} if kind == SWITCH else values
        assert follow(history, entry_of(kind, NOW, **values), FULL.series), (name, kind)
    return history.entries


def goods(target, price, contents=b"hi", kind=1):
    return GOODS, dict(target=target, price=price, goods=kind, contents=contents)


def minted(count, value, serial, reference=b"m1"):
    return MINT, dict(reference=reference, count=count, value=value, first=id_of(0, OWN[SHOP].epoch(NOW), serial))


def stocked(serials, value):
    own = OWN[SHOP]
    held = [(own.scrip_text(SHOP, value, ident, ident, b""), own.secret(ident))
            for ident in (id_of(0, own.epoch(NOW), serial) for serial in serials)]
    return STOCK, dict(vendor=SHOP, pieces=held)


def accounts(*amounts):
    for (name, key), amount in zip(KEYS.items(), amounts):
        yield ACCOUNT, dict(name=name, key=key)
        yield DEPOSIT, dict(name=name, amount=amount, reference=b"first." + name)


def upgraded(vendor, issuer):
    return UPGRADE, dict(vendor=vendor, issuer=issuer, start=OWN[NEWS].epoch(NOW) + 1)


def houses(clear=0):
    """Histories of the vendor that licenses, of the bank and of the vendor that mints, for a schedule to pick from."""
    pages = goods(b"/a", 25, b"Good morning.\n"), goods(b"/b", 1, b"", 0)
    licensed = TERMS, dict(terms=ONE)
    sells = LICENCE, dict(vendor=NEWS, terms=ONE)
    yield [house(NEWS, VENDOR, licensed, *pages, clear=clear, keep=keep) for keep in (60, 600)] + [
        house(NEWS, VENDOR, licensed, *pages, (SWITCH, {}), clear=clear),
        house(NEWS, VENDOR, licensed, upgraded(NEWS, 1), upgraded(NEWS, 0), *pages, clear=clear)]
    yield [house(BANK, BROKER, *accounts(4000, 900), sells, fee=1, clear=clear),
           house(BANK, BROKER, *accounts(4000, 60), sells, stocked((0, 1), 50), fee=0, keep=60, clear=clear),
           house(BANK, BROKER, *accounts(300, 2**20), stocked((0, 1, 3), 50), (SWITCH, {}), fee=3, clear=clear),
           house(BANK, BROKER, *accounts(4000, 900), sells, upgraded(NEWS, 1), upgraded(BANK, 0), stocked((2,), 50), fee=1, clear=clear)]
    yield [house(SHOP, VENDOR, minted(4, 50, 0), goods(b"/a", 20, b"s"), clear=clear, keep=keep) for keep in (60, 600)] + [
        house(SHOP, VENDOR, minted(5, 50, 0), goods(b"/a", 7, b"s" * 600), (SWITCH, {}), clear=clear)]


def piece(own, vendor, value, serial, epoch=0, props=b"", cust=None):
    """A piece and its customer's secret; `cust` is the serial of the customer."""
    epoch += own.epoch(NOW)
    ident, cust = (id_of(own.issuer, epoch, n) for n in (serial, serial if cust is None else cust))
    return own.scrip_text(vendor, value, ident, cust, props), own.secret(cust)


def wallet(name, *pieces):
    entries = [entry_of(SITE, NOW, site=WALLET, name=name, house=None)]
    if pieces:
        entries.append(entry_of(GOT, NOW, pieces=list(pieces)))
    book = WalletBook()
    assert all(book.follow(entry) for entry in entries)
    return entries


def wallets(shared=False):
    """Histories of each of three wallets. Those of one share no customer with those of another, unless it is said."""
    for j in range(3):
        name, base = b"w%d" % j, 1000 if shared else 1000 + 100 * j
        big, small = piece(ONE, NEWS, 100, base), piece(ONE, NEWS, 60, base + 1, props=b"a=1")
        kin = [piece(ONE, NEWS, 40 + k, base + 10 + k, cust=base + 10) for k in (0, 1)]
        unknown, forged = piece(TWO, NEWS, 60, base), piece(terms(1, 0x34, 0x44), NEWS, 90, base + 20)
        bank, shop = piece(OWN[BANK], BANK, 300, base), piece(OWN[SHOP], SHOP, 50, base)
        yield [wallet(name), wallet(name, big), wallet(name, big, small, bank), wallet(name, *kin, bank, shop),
               wallet(name, unknown, forged, big), wallet(name, small, big, *kin, shop, bank)]


class Grower:
    """Plays events that it makes up, and keeps them. Wallets share no account, unless it is said. Where a forger knows secrets he
    signs requests with those of pieces that wallets hold, where he makes replies he signs replies with them."""

    def __init__(self, numbers, houses, wallets, limits, shares=False, knows=False, replies=False):
        self.numbers, self.world, self.events = numbers, World(houses, wallets, limits), []
        self.shares, self.knows, self.makes_replies = shares, knows, replies
        self.now, self.count, self.answered = NOW, 0, []

    def do(self, verb, *values):
        """An event. Of each reply it is kept which message it answers; of one that somebody else sends, none."""
        self.events.append((verb, *values))
        EVENTS[verb](self.world, *values)
        if len(self.world.replies) > len(self.answered):
            self.answered.append(values[0] if verb == "deliver" else None)

    def step(self):
        """One event, or a few that belong together."""
        self.count += 1
        chance, n = self.numbers.below(100), self.numbers
        self.now += n.of((0, 0, 1, 20, 100)) if n.below(14) else n.of((700, 5000))
        if chance < 30:
            self.ask()
        elif chance < 34:
            self.do("again", n.below(3), n.of((NEWS, BANK, SHOP)))
        elif chance < 38:
            self.forge()
        elif chance < 41:
            self.tell()
        elif chance < 66:
            self.deliver()
        elif chance < 92:
            self.hand()
        elif chance < 94:
            self.do("restart", n.below(7))
        else:
            self.enter()

    def ask(self):
        n, wallet_of, kind = self.numbers, self.numbers.below(3), self.numbers.below(20)
        if kind < 14 and n.below(5) and not self.world.wallets[wallet_of].book.pieces:
            kind = 14 + n.below(6)
        reading = max(0, self.now - n.of((0, 0, 0, 0, 90, 10**7)))
        if kind < 9:
            asked = "get", n.of((NEWS, NEWS, SHOP)), n.of(TARGETS), n.of((0, 1, 25, 26, 60))
        elif kind < 10:
            asked = "get", BANK, n.of((b"/buy/news.example/20", b"/credit/ann", b"/a", b"/draw/ann/3/5")), n.of((1, 2**40))
        elif kind < 14:
            asked = "buy", BANK, n.of((NEWS, NEWS, SHOP, b"x")), n.of((20, 50, 50, 1, 0)), n.of((1, 51))
        else:
            name = n.of((b"ann", b"bob")) if self.shares or wallet_of == 2 else (b"ann", b"bob")[wallet_of]
            key = KEYS[name if n.below(9) else b"ann"] if self.shares else KEYS[name] if wallet_of < 2 else b"\x0c" * 16
            asked = "draw", n.of((BANK, BANK, BANK, NEWS)), name, key, n.of((1, 2, 3, 4, 5, 6, 0, 2**40 + 1)), n.of((10, 60, 300, 0))
        self.do("ask", wallet_of, reading, *asked)

    def forge(self):
        """A message that somebody makes of those that were sent."""
        n, sent = self.numbers, self.world.messages
        pieces = self.world.wallets[n.below(3)].book.pieces if self.knows else []
        if pieces:
            text, secret = n.of(pieces)
            self.do("forge", Request(GET, read_scrip(text).vendor, n.of(TARGETS), text, secret).sent())
            return
        if not sent:
            self.do("forge", n.of((b"", b"\r\n", b"GET /a HTTP/1.1\r\nHost: n\r\n\r\n", b"x" * 8192)))
            return
        one, other, way = n.of(sent), n.of(sent), n.below(12)
        opened = one.replace(b"Connection: close\r\n", b"")
        at = n.below(len(one) + 1)
        self.do("forge", (
            one, one + other, opened + other, opened + opened + other, one[:at], one[:at] + bytes([n.below(256)]) + one[at + 1:],
            re.sub(rb"Millicent-Sign: [^\r]*\r\n", b"", one), one.replace(b"Host", b"host").replace(b"GET", b"\r\n\nGET", 1),
            one.replace(b"/a", b"/b"), re.sub(rb"Millicent-Sign: ..", b"Millicent-Sign: 00", one),
            opened.replace(b"GET", b"HEAD", 1) + other, b"GET" + one[3:].replace(b"1.1\r", b"1.0\r", 1) + other)[way])

    def tell(self):
        """A reply that somebody makes of those that were sent; where he has the secrets, one that he signs himself."""
        n, sent = self.numbers, [reply for reply in self.world.replies if reply]
        kept = [request for purse in self.world.wallets for _, request in purse.book.kept() if request.ask == GET]
        if kept and self.makes_replies:
            self.do("tell", signed_reply(n.of(kept)))
            return
        if not sent:
            self.do("tell", n.of((b"", b"\r\n", b"HTTP/1.1 200 OK\r\n\r\n", b"x" * 8192)))
            return
        one, other, way = n.of(sent), n.of(sent), n.below(9)
        at = n.below(len(one) + 1)
        self.do("tell", (
            one, one + other, one[:at], one[:at] + bytes([n.below(256)]) + one[at + 1:], b"\r\n\n" + one,
            one.replace(b"HTTP/1.1 200 OK", b"HTTP/1.0 200"), re.sub(rb"Millicent-Change: [^\r]*", b"Millicent-Change: -", one),
            re.sub(rb"Millicent-Price: [0-9]*", b"Millicent-Price: 1", one), re.sub(rb"Millicent-Sign: ..", b"Millicent-Sign: 00", one))[way])

    def deliver(self):
        n, sent = self.numbers, len(self.world.messages)
        message = sent - 1 if sent and n.below(2) else n.below(sent + 2)
        reading = max(0, self.now - n.of((0, 0, 50, 3000))) if n.below(60) else n.of((0, MOMENTS, 2**64 - 1))
        named = [k for k, name in enumerate((NEWS, BANK, SHOP)) if message < sent and b"ost: " + name in self.world.messages[message]]
        self.do("deliver", message, n.of(named) if named and n.below(6) else n.below(3) if n.below(40) else 7, reading)

    def hand(self):
        n, world, j = self.numbers, self.world, self.numbers.below(3)
        kept, count = [number for number, _ in world.wallets[j].book.kept()], len(world.replies)
        reading = max(0, self.now - n.of((0, 0, 0, 70)))
        reply = count - 1 if count and n.below(3) else n.below(count + 1)
        fitting = self.fitting(reply) if reply < count and n.below(5) else []
        if fitting:
            self.do("return", reply, *n.of(fitting), reading)
        elif not kept or not n.below(30):
            self.do("return", n.below(count + 2), n.below(4), n.below(6), reading)
        else:
            self.do("return", reply, j, n.of(kept), reading)

    def fitting(self, reply):
        """The kept requests, with their wallets, that stand in the message that a reply answers; all where it answers none."""
        message = None if self.answered[reply] is None else self.world.messages[self.answered[reply]]
        return [(j, number) for j, purse in enumerate(self.world.wallets) for number, request in purse.book.kept()
                if message is None or request.sign() in message]

    def enter(self):
        """An operator's entry, which may follow or not."""
        n, of = self.numbers, self.numbers.below(3)
        house = self.world.houses[of]
        history, name = house.history, house.history.site.name
        moment = n.of((house.time, self.now, max(house.time, self.now), history.time, NOW - 1))
        reference = b"x%d" % n.of((self.count, 1))
        own = OWN[name]
        kind, values = n.of((
            goods(b"/a", n.of((24, 25, 31, 101)), b"b%d" % self.count), goods(b"/b", 2),
            (DEPOSIT, dict(name=b"ann", amount=300, reference=reference)),
            (WITHDRAW, dict(name=b"bob", amount=n.of((10, 5000)), reference=reference)),
            (TERMS, dict(terms=TWO)), (LICENCE, dict(vendor=n.of((NEWS, SHOP)), terms=n.of((ONE, TWO)))),
            (MINT, dict(reference=reference, count=2, value=50, first=history.next_identity(moment))),
            stocked((n.below(6),), 50), (UPGRADE, dict(vendor=n.of((name, NEWS)), issuer=n.below(2), start=own.epoch(moment) + n.below(2))),
            (SWITCH, dict(chain=history.chain.digest)), (NOTE, dict(tag=b"memo", bytes=b"n%d" % self.count)),
            (ACCOUNT, dict(name=b"cid", key=b"\x0c" * 16)), (SITE, dict(site=VENDOR, name=b"x", house=history.site.house)),
            (ACCEPT, dict(scrip=piece(ONE, NEWS, 25, 9)[0], target=b"/a", sign=None, price=25, change=None, deed=(0,)))))
        payload = entry_of(kind, moment, **values).payload
        self.do("enter", of, payload[:-1] if not n.below(12) else payload)


def signed_reply(request):
    """A page that no site sold, signed with the secret of the piece that is to pay: its price is all that the piece is worth."""
    price = str(read_scrip(request.scrip).value)
    reply = Reply(200, None, price.encode(), b"-", b"", b"Nobody's page.\n")
    sign = reply_signature(request.paid, request.target, reply_line(reply), reply.contents, request.secret)
    return reply_bytes(200, NOW, 1, "-", price, "-", sign.hex(), reply.contents)


def limits_of(numbers, houses):
    """Limits of journals and series, under which the houses are lawful."""
    series = numbers.of((5, 2**32, 2**32, 2**32, 2**32))
    journal = numbers.of((2**40, 2**40, 2**40, 2**40, 1200, 2500))
    return Limits(journal=journal, series=series)


def spelled_book(entries):
    history, parts = History(), []
    for entry in entries:
        tail = history.chain.tail(entry.payload).hex()
        parts.append("x01%08x%s%s" % (len(entry.payload), entry.payload.hex(), tail))
        history.push(entry)
    return "+".join(["$front", *parts, "$shut"])


SEAMS = ((b"GET /a HTTP/1.1\r\nHost: news.example\r\nMillicent-Scrip: ", "zga"), (b"\r\nMillicent-Sign: ", "zs"), (b"\r\nConnection: close\r\n\r\n", "zc"),
         (b"\r\nMillicent-Scrip: ", "zm"), (b" HTTP/1.1\r\nHost: ", "zh"), (b"\r\n\r\n", "ee"))


class Spelling:
    """Bytes as lines spell them, where some have names."""

    def __init__(self, names):
        self.names = sorted(names, key=lambda named: -len(named[0]))
        self.found = re.compile(b"|".join(re.escape(text) for text, _ in self.names))
        self.of = dict(self.names)

    def word(self, data):
        parts, at = [], 0
        for found in self.found.finditer(data):
            parts += [plain(data[at:found.start()]), "$" + self.of[found.group()]]
            at = found.end()
        return "+".join(part for part in [*parts, plain(data[at:])] if part) or '""'

    def line(self, event):
        return " ".join([event[0], *(word if isinstance(word, str) else str(word) if isinstance(word, int) else self.word(word)
                                     for word in event[1:])])


def plain(data):
    """Bytes without a name: as text where they are, else by their digits."""
    if not data:
        return ""
    if len(set(data)) == 1 and len(data) > 8:
        return "x%02x*%d" % (data[0], len(data))
    shown = data.replace(b"\\", b"\\\\").replace(b'"', b'\\"').replace(b"\r", b"\\r").replace(b"\n", b"\\n")
    return '"%s"' % shown.decode() if all(32 <= b <= 126 for b in shown) else "x" + data.hex()


def generated(count, numbers):
    out = Cases("Schedules at random: requests are asked, sent again, forged, repeated and reordered, operators enter, and runs\n"
                "begin anew. What is left of each is compared by a digest.")
    pool = {}
    for word, some in [("h%d" % k, some) for k, some in enumerate(houses())] + [("w%d" % k, some) for k, some in enumerate(wallets())]:
        for n, entries in enumerate(some):
            pool["z%s%d" % (word, n)] = entries
    names = shared(pool)
    for data, name in names:
        out.let(name, plain(data)) if name != "ee" else None
    for name, entries in pool.items():
        out.lines.append("history %s %s" % (name, spelled_book(entries)))
    spelling = Spelling(names)
    later = []
    for round in range(count):
        chosen = [numbers.of([name for name in pool if name.startswith("zh%d" % k)]) for k in range(3)]
        held = [numbers.of([name for name in pool if name.startswith("zw%d" % k)]) for k in range(3)]
        if later and not numbers.below(8):
            chosen, held = numbers.of(later)
        limits = limits_of(numbers, chosen)
        grower = Grower(numbers, [pool[name] for name in chosen], [pool[name] for name in held], limits, not numbers.below(4), not numbers.below(4))
        for _ in range(numbers.between(4, 30)):
            grower.step()
        lines = ["limits %d %d" % (limits.journal, limits.series)] if limits != FULL else []
        lines += ["houses " + " ".join(chosen), "wallets " + " ".join(held)]
        out.case("schedule %d" % round, *lines, *map(spelling.line, grower.events), "play brief")
        if round % 40 == 20 and len(later) < 12:
            later.append(kept(out, pool, grower, len(later)))
    out.write("schedules")


def shared(pool):
    """Bytes of many lines, with their names."""
    texts = sorted({text for entries in pool.values() for e in entries if e.kind == GOT for text, _ in e.pieces})
    stock = [text + secret for serial in range(6) for text, secret in stocked((serial,), 50)[1]["pieces"]]
    terms_of = [entry_of(TERMS, 0, terms=some).payload[9:] for some in (ONE, TWO)]
    return [*SEAMS, (NEWS, "zn"), (SHOP, "zo"), (BANK, "zb"), *((text, "zp%d" % n) for n, text in enumerate(texts)),
            *((data, "zq%d" % n) for n, data in enumerate(stock)), *((data, "zt%d" % n) for n, data in enumerate(terms_of))]


def kept(out, pool, grower, number):
    """Gives names to the books that a schedule left, so that others begin with them."""
    left = []
    for word, entries in [*(("h", house.history.entries) for house in grower.world.houses), *(("w", purse.entries) for purse in grower.world.wallets)]:
        name = "zl%s%d_%d" % (word, number, len(left))
        pool[name] = list(entries)
        out.lines.append("history %s %s" % (name, spelled_book(entries)))
        left.append(name)
    return left[:3], left[3:]


def schedules():
    generated(2000, Numbers(1906))


def main():
    schedules()
