"""Writes `crates/cases/data/generated_versions.cases`: sites whose scrip goes over to the second version in the middle: what they answer,
what their books sum up to, and towns that pay on."""
import io

from cases import Runner
from forms import epoch_of, id_of, issuer_of, read_scrip, request_signature
from generate import NAMES, NOW, Cases, Numbers
from generate.chains import switched
from generate.markets import TWO, Bank, House, forged, market, terms
from generate.payments import Town, found
from ledger import FULL, Request, answer
from payloads import DEPOSIT, GOODS, TERMS, UPGRADE

THREE = terms(3, 0x57, 0x58, 2048, 4096)


class Upgraded:
    """What a house that may be upgraded does otherwise: its pieces are of the version of their series."""

    def text(self, value, ident, cust=None):
        return self.history.own_text(value, ident, ident if cust is None else cust, b"")

    def sold_text(self, target, stock, ident):
        text = super().sold_text(target, stock, ident)
        if stock:
            return text
        _, _, vendor, value = target.split(b"/")
        version = self.history.version(vendor, ident)
        return self.history.desk.licences[vendor].scrip_text(vendor, int(value), ident, ident, b"", version)

    def upgrade(self, numbers, vendor, issuer):
        """Names an epoch ahead, where the issuer has terms here and was not upgraded."""
        own = self.history.upgrade_terms(vendor, issuer)
        if own is not None and (vendor, issuer) not in self.history.upgrades:
            self.enter(UPGRADE, vendor=vendor, issuer=issuer, start=own.epoch(self.time) + numbers.of((1, 1, 1, 2, 3)))


class Vendor(Upgraded, House):
    """A vendor that may be upgraded."""


class Broker(Upgraded, Bank):
    """A broker that may be upgraded."""


# What a vendor answers.


def asked(numbers, house):
    """A time, and a request with a piece of some issuer and version: mostly of the right version, and rightly signed."""
    history = house.history
    issuer = numbers.of([*history.terms.values(), *history.terms.values(), TWO])
    time = house.time + numbers.of((0, 0, 1, 600, 2048, 4096, 8192))
    epoch = max(0, issuer.epoch(time) - numbers.of((0, 0, 0, 1, 2)))
    ident = id_of(issuer.issuer, epoch, numbers.below(2**20))
    cust = ident if numbers.below(3) else id_of(0, house.own.epoch(time) - numbers.below(2), 7)
    right = history.own_version(ident)
    version = right if numbers.below(4) else 3 - right
    text = issuer.scrip_text(house.name, numbers.of((24, 25, 60, 100)), ident, cust, numbers.of((b"", b"a=1")), version)
    if numbers.below(12) == 0:
        text = b"MS%d" % (3 - version) + text[3:]
    customer = history.terms.get(issuer_of(cust), issuer)
    kept_version = history.own_version(cust) if numbers.below(6) else numbers.between(1, 2)
    sign = request_signature(text, b"/a", customer.secret(cust, kept_version)).hex()
    return time, text, numbers.of((sign, sign, sign, None))


def answers(out, numbers):
    out.group("What a vendor answers to pieces of both versions, before and after issuers went over.")
    for round in range(40):
        house = Vendor(b"news.example", 0, terms(0, 0x11, 0x22))
        house.goods(b"/a", 25)
        for issuer in (TWO, THREE)[:numbers.below(3)]:
            house.enter(TERMS, terms=issuer)
        lines = []
        for step in range(numbers.between(2, 5)):
            house.upgrade(numbers, house.name, numbers.of((0, *house.history.terms)))
            house.time += numbers.of((1, 2048, 4096, 8192))
            if numbers.below(2):
                house.mint(1, 50, b"m%d" % step)
            lines.append("book " + house.spelled())
            lines.append("lawful")
            for _ in range(5):
                time, text, sign = asked(numbers, house)
                lines.append('answer %d "/a" "%s" %s' % (time, text.decode(), "-" if sign is None else '"%s"' % sign))
                given = answer(house.history, house.time, FULL, Request(b"/a", text, sign and sign.encode()))
                if hasattr(given, "payload"):
                    house.history.push(given)
        out.case("vendor %d, of %d entries" % (round, len(house.history.entries)), *lines)


# What books sum up to.


def upgrade_some(numbers, bank, vendors):
    """An issuer goes over, mostly at both houses that have its terms and from the same epoch on."""
    v = numbers.of(vendors)
    licence = bank.history.desk.licences.get(v.name)
    issuer = licence.issuer if licence and numbers.below(2) else 0
    bank.time = v.time = max(bank.time, v.time)
    v.upgrade(numbers, v.name, issuer)
    start = v.history.upgrades.get((v.name, issuer))
    is_ahead = licence and start is not None and licence.epoch(bank.time) < start
    if issuer and is_ahead and (v.name, issuer) not in bank.history.upgrades and numbers.below(5):
        bank.enter(UPGRADE, vendor=v.name, issuer=issuer, start=start)
    if numbers.below(3) == 0:
        bank.upgrade(numbers, bank.name, 0)


def grown(numbers, bank, vendors, steps):
    """Does this and that in a market; what is bought is mostly paid with at once."""
    held, order, waiting = [], 0, {v: [] for v in vendors}
    bank.open(b"ann", 100000)
    for step in range(steps):
        v, deed = numbers.of(vendors), numbers.below(12)
        v.time, bank.time = (house.time + numbers.of((0, 0, 1, 600, 4096)) for house in (v, bank))
        if deed < 2:
            upgrade_some(numbers, bank, vendors)
        elif deed == 2 and v.name not in bank.history.desk.licences:
            bank.license(v.name, TWO)
        elif deed == 3:
            waiting[v] += v.mint(numbers.between(1, 2), numbers.of((7, 25)), b"m%d" % step)
        elif deed == 4 and waiting[v]:
            bank.stock(v.name, waiting.pop(v))
            waiting[v] = []
        elif deed == 5:
            bank.enter(DEPOSIT, name=b"ann", amount=90, reference=b"d%d" % step)
        elif deed == 6 and held:
            house, text = held.pop(numbers.below(len(held)))
            held += [(house, change) for change in house.pay(text, numbers.of((b"/a", b"/b"))) or ()]
        elif deed == 7 and numbers.below(3) == 0:
            v.pay(forged(v, numbers.of((TWO, v.own)), 900 + step, 25), b"/a")
        else:
            order += 1
            drawn = bank.draw(b"ann", order, numbers.of((30, 60)))
            back = bank.pay(drawn, b"/buy/%s/%d" % (v.name, numbers.of((7, 25)))) or []
            held += [(v, text) for text in back[:1] if numbers.below(4)]
            if len(back) > 1 and numbers.below(2):
                bank.pay(back[1], b"/credit/ann")


def markets(out, numbers):
    out.group("Books of a broker and of two vendors, whose issuers go over, mostly at both houses from one epoch on.")
    for round in range(30):
        bank = Broker(fee=numbers.of((0, 1, 3)))
        vendors = [Vendor(name, 0, terms(0, 0x81 + n, 0x91 + n)) for n, name in enumerate((b"news.example", b"shop.example"))]
        for v in vendors:
            v.goods(b"/a", 3)
            v.goods(b"/b", 20)
            v.enter(TERMS, terms=TWO)
        grown(numbers, bank, vendors, numbers.between(12, 34))
        market(out, "market %d" % round, bank, vendors, numbers.of(((0, 1, 2), (1, 0, 2), (2, 1, 0))))


# Towns that go on.


class MovingTown(Town):
    """A town whose sites are upgraded and switched in the middle."""

    def __init__(self, numbers, kind, wallet):
        super().__init__(numbers, kind)
        self.line("let t_w " + wallet)

    def entered(self, book, verb):
        """An operator's call over a book, which is kept."""
        for text in ("book $t_" + book, verb, "save t_%s book" % book):
            self.line(text)

    def move(self):
        """An issuer goes over at one site or both, or a site switches its chain on."""
        numbers, start = self.numbers, self.time // 4096 + self.numbers.of((1, 1, 2, 0))
        deed = numbers.below(6)
        if deed == 0:
            self.entered(numbers.of(("news", "press")), "switch %d" % self.time)
        elif deed == 1:
            self.entered("bank", "switched %d" % self.time)
        elif deed == 2:
            self.entered("bank", 'upgraded %d "bank" %d' % (self.time, start))
        elif deed == 3:
            self.entered("press", "upgrade %d 0 %d" % (self.time, start))
        else:
            self.entered("news", "upgrade %d %d %d" % (self.time, numbers.of((1, 1, 0)), start))
            if numbers.below(5):
                self.entered("bank", 'upgraded %d "news.example" %d' % (self.time, start))

    def step(self):
        if self.numbers.below(3) == 0:
            self.move()
            self.time += self.numbers.of((0, 4096, 4096))
        super().step()


def towns(out, numbers):
    out.group("Towns whose sites are upgraded and switched while their customers draw, buy and pay.")
    runner, kinds, wallets = Runner(io.BytesIO(), NAMES), ("t3", "t4"), ("$wallet_book", switched(out, "wallet_book"))
    for kind, values in zip(kinds, ((1, " --clear", 30000), (0, "", 10000))):
        out.case("the sites of a town, %s" % kind, *found(runner, kind, *values))
    for round in range(24):
        town = MovingTown(numbers, numbers.of(kinds), numbers.of(wallets))
        for _ in range(numbers.between(10, 18)):
            town.step()
        town.end()
        out.case("moving town %d" % round, *town.lines)


def versions():
    out = Cases("Sites whose scrip goes over to the second version: what they answer, what their books sum up to, and towns that\n"
                "pay on, some of whose books have a chain.")
    numbers = Numbers(256)
    answers(out, numbers)
    markets(out, numbers)
    towns(out, numbers)
    out.write("versions")


def main():
    versions()
