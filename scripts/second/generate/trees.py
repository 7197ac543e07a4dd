"""Writes `crates/cases/data/generated_trees.cases`: books of brokers that sell scrip of each other and of their vendors, audited
in each order, with each rule of what may be handed out broken in turn."""
from itertools import permutations

from forms import id_of, read_scrip
from generate import NOW, Cases, Numbers
from generate.markets import LIFE, ONE, PERIOD, TWO, Bank, House, forged, news, resold, shop, terms
from market import Book, broker_sums
from payloads import DEPOSIT, TERMS
from tree import Tree

EPOCH = NOW // PERIOD
NINE = terms(9, 0x99, 0x9a)
NEWS = b"/buy/news.example/"


def piece(serial, value, under=ONE):
    """A piece of news.example as a licence makes it."""
    ident = id_of(under.issuer, EPOCH, serial)
    return under.scrip_text(b"news.example", value, ident, ident, b"")


class Fair:
    """The books of the worked example: a bank under a licence, a kiosk that sells on what it bought there, and two vendors."""

    def __init__(self, stock=((0, 100),), licensed=(100,)):
        self.bank, self.kiosk, self.news, self.shop = Bank(), Bank(b"kiosk", 2), news(), shop()
        self.shop.goods(b"/shop/1", 7)
        self.minted = self.shop.mint(3, 50, b"m1")
        self.bank.open(b"kiosk", 500)
        self.kiosk.open(b"eve", 3000)
        self.bank.license(b"news.example", ONE)
        self.order = {self.bank: 0, self.kiosk: 0}
        for value in licensed:
            self.buy(self.bank, NEWS + b"%d" % value)
        if stock:
            self.kiosk.stock(b"news.example", [piece(*one) for one in stock])

    def buy(self, broker, target):
        """Draws what a sale costs with its fee, and buys; what came back."""
        name = b"kiosk" if broker is self.bank else b"eve"
        self.order[broker] += 1
        price = int(target.split(b"/")[3]) + broker.history.house.fee
        return broker.pay(broker.draw(name, self.order[broker], price), target)

    def books(self):
        return [self.bank, self.kiosk, self.news, self.shop]


def right():
    fair = Fair()
    fair.news.pay(fair.buy(fair.kiosk, NEWS + b"100")[0], b"/news/1")
    return fair


def unhanded(name, target):
    def broken(fair):
        house = getattr(fair, name)
        assert house.pay(forged(house, house.own, 77, 30), target) is not None
    return broken


def unsold(fair):
    fair.news.pay(piece(9, 100), b"/news/1")


def other_value(fair):
    fair.buy(fair.bank, NEWS + b"60")
    fair.news.pay(piece(1, 100), b"/news/1")


def never_sold(fair):
    fair.kiosk.stock(b"news.example", [piece(9, 10)])
    fair.buy(fair.kiosk, NEWS + b"10")


def of_its_own(fair):
    fair.kiosk.stock(b"news.example", [piece(0, 10, NINE)])
    fair.buy(fair.kiosk, NEWS + b"10")
    fair.kiosk.license(b"news.example", NINE)
    fair.buy(fair.kiosk, NEWS + b"10")


def stock_of_another_value(fair):
    fair.buy(fair.bank, NEWS + b"60")
    fair.kiosk.stock(b"news.example", [piece(1, 70)])
    fair.buy(fair.kiosk, NEWS + b"70")


def minted_of_another_value(fair):
    fair.kiosk.stock(b"shop.example", [resold(fair.shop, fair.minted[0], 60)])
    fair.buy(fair.kiosk, b"/buy/shop.example/60")


def not_minted(fair):
    fair.kiosk.stock(b"shop.example", [forged(fair.shop, fair.shop.own, 9, 50)])
    fair.buy(fair.kiosk, b"/buy/shop.example/50")


def licensed_twice(fair):
    fair.kiosk.license(b"news.example", ONE)
    fair.buy(fair.kiosk, NEWS + b"100")


def licensed_at_two_values(fair):
    fair.kiosk.license(b"news.example", ONE)
    fair.buy(fair.kiosk, NEWS + b"60")


def accepted_at_the_second_value(fair):
    licensed_at_two_values(fair)
    fair.news.pay(piece(0, 60), b"/news/1")


def second_broker(fair):
    """Two that took the same two pieces of the shop's, and sold one each."""
    for broker in (fair.bank, fair.kiosk):
        broker.stock(b"shop.example", fair.minted[:1])
        fair.buy(broker, b"/buy/shop.example/50")
    fair.shop.pay(fair.minted[0], b"/shop/1")


def false_end(fair):
    """Stock whose text has another end than what the bank sold."""
    fair.buy(fair.bank, NEWS + b"60")
    fair.kiosk.stock(b"news.example", [resold(fair.news, piece(1, 60), None, NOW + 50)])
    fair.buy(fair.kiosk, NEWS + b"60")
    fair.news.time = NOW + 100
    fair.news.goods(b"/news/2", 5)


def unsold_stock(fair):
    fair.kiosk.stock(b"news.example", [piece(9, 10)])


# What is done to the books, and whether a stranger is in them then.
DEEDS = [
    ("as they are", lambda fair: None, False),
    ("a piece of the bank's own that it never handed out", unhanded("bank", b"/credit/kiosk"), True),
    ("a piece of the kiosk's own that it never handed out", unhanded("kiosk", b"/credit/eve"), True),
    ("a piece that nobody sold", unsold, True),
    ("a piece of another value than it was sold for", other_value, True),
    ("stock is sold that nobody sold before", never_sold, True),
    ("stock is sold that its own broker sold under its licence", of_its_own, True),
    ("stock is sold of another value", stock_of_another_value, True),
    ("stock is sold of another value than it was minted", minted_of_another_value, True),
    ("stock is sold that was not minted", not_minted, True),
    ("one identity is sold under two licences", licensed_twice, True),
    ("one identity is sold at two values", licensed_at_two_values, True),
    ("one identity is sold at two values, and accepted at the second", accepted_at_the_second_value, True),
    ("a minted piece is sold by two brokers", second_broker, False),
    ("stock with another end", false_end, False),
    ("stock that nobody sold before, unsold", unsold_stock, False)]


def audited(out, name, books, orders, words="run audit tree"):
    """A case of books, audited in some orders of them."""
    spelled = {book: "tr_%s" % book.name.decode().split(".")[0] for book in books}
    for book in books:
        out.let(spelled[book], book.spelled())
    lines = []
    for order in orders:
        lines += ["beside $" + spelled[books[n]] for n in order] + [words + " b" * len(order)]
    out.case(name, *lines)


def stranger(books):
    return Tree([Book(book.history.entries) for book in books]).first_stranger()


def deeds(out):
    out.group("The books of a bank, of a kiosk that sells its scrip on, and of two vendors, in each order; then with each rule\n"
              "broken in turn.")
    orders = list(permutations(range(4)))
    for name, deed, is_strange in DEEDS:
        fair = right()
        deed(fair)
        for order in orders:
            assert (stranger([fair.books()[n] for n in order]) is not None) == is_strange, (name, order)
        audited(out, name, fair.books(), orders)
    numbers = Numbers(19)
    for round in range(40):
        fair, deeds = right(), sorted({numbers.below(len(DEEDS) - 1) + 1 for _ in range(numbers.between(2, 3))})
        try:
            for n in deeds:
                DEEDS[n][1](fair)
        except (AssertionError, TypeError, IndexError):
            continue
        audited(out, "; ".join(DEEDS[n][0] for n in deeds), fair.books(), [numbers.of(orders) for _ in range(4)])


def own_stock(out):
    """One broker's sales of one piece, under its licence and out of its stock."""
    out.group("A broker that sold a piece under its licence and out of its stock, too. The report of one broker and the tree\n"
              "name different strangers.")
    for value in (60, 100):
        bank, vendor = Bank(), news()
        bank.open(b"ann", 900)
        bank.stock(b"news.example", [piece(0, 60)])
        bank.pay(bank.draw(b"ann", 1, 61), NEWS + b"60")
        bank.license(b"news.example", ONE)
        sold, _ = bank.pay(bank.draw(b"ann", 2, 201), NEWS + b"%d" % value)
        vendor.pay(sold, b"/news/1")
        for words in ("run audit tree", "run audit report"):
            audited(out, "%s: out of stock at 60 first, and then under the licence at %d, which the vendor took" % (words[4:], value),
                    [bank, vendor], [(0, 1), (1, 0)], words)


def faulty(out):
    """Books of the worked example that lack, are there twice, or can't be read."""
    out.group("Books that are not those of a tree: none of a broker, names that are shared, a vendor's that lacks; and each\n"
              "call that fails.")
    fair = right()
    second_broker(fair)
    press = House(b"press.example", 0, terms(0, 0x75, 0x76))
    named = {"bank": fair.bank, "kiosk": fair.kiosk, "news": fair.news, "shop": fair.shop, "press": press, "lone": Bank(b"lone"),
             "twin": House(b"kiosk", 0, terms(0, 0x75, 0x76)), "alike": Bank(b"news.example"), "other": Bank(b"kiosk")}
    for name, book in named.items():
        out.let("tr_" + name, book.spelled())
    out.let("tr_wallet", "$wallet_book")
    for names in ("lone", "lone press", "press lone", "news", "news shop", "press", "bank", "kiosk", "bank kiosk", "bank news",
                  "kiosk shop", "kiosk news", "bank kiosk news", "kiosk bank shop", "bank kiosk press",
                  "bank kiosk news shop press lone", "bank kiosk news shop twin", "bank kiosk news shop alike",
                  "bank bank news shop", "news bank kiosk news shop", "bank kiosk other news shop", "twin kiosk", "alike news",
                  "bank kiosk news shop wallet", "wallet", "wallet bank", "twin", "lone lone", "lone other kiosk"):
        listed = names.split(" ")
        out.case("tree of %s" % names, *("beside $tr_" + name for name in listed), "run audit tree" + " b" * len(listed))
    listed = ["bank", "kiosk", "news", "shop"]
    for at in range(4):
        for call in range(4):
            out.case("book %d fails at call %d" % (at, call), *beside(listed, at, "$tr_%%s %d" % call), "run audit tree b b b b")
        out.case("book %d is spoiled" % at, *beside(listed, at, "$tr_%s[:60]"), "run audit tree b b b b")
        out.case("book %d is no journal" % at, *beside(listed, at, '"%s"'), "run audit tree b b b b")
    out.case("the lines can't be said", *beside(listed), "fail link 0", "run audit tree b b b b",
             "beside $tr_bank", "fail link 0", "run audit tree b", "beside $tr_news", "fail link 0", "run audit tree b")


def beside(names, at=None, other=""):
    """The lines that bring the books of these names, one of them as it is spelled otherwise."""
    return ["beside " + (other if n == at else "$tr_%s") % name for n, name in enumerate(names)]


def grown(numbers, brokers, vendors, steps):
    """Does this and that in a tree: brokers sell scrip of vendors under licences, of minted stock, and of each other."""
    held, stocked, orders = [], [], {broker: 0 for broker in brokers}
    for step in range(steps):
        broker, v, deed = numbers.of(brokers), numbers.of(vendors), numbers.below(20)
        for house in (broker, v):
            house.time += numbers.of((0, 0, 0, 0, 0, 1, 600, 9000))
        value = numbers.of((7, 25, 25, 50))
        if deed < 8:
            amount, order = value + broker.history.house.fee + numbers.of((0, 0, 9)), orders[broker] + 1
            if broker.history.desk.balance(b"ann") >= amount:
                orders[broker] = order
                text = broker.draw(b"ann", order, amount)
                back = broker.pay(text, b"/buy/%s/%d" % (v.name, value)) if text else None
                held += [(v, back[0])] if back else []
        elif deed == 8 and v.name not in broker.history.desk.licences:
            broker.license(v.name, terms(1 + brokers.index(broker) % 2, 0x33, 0x44))
        elif deed < 11:
            stocked += [(v, text) for text in v.mint(1, value, b"m%d" % step)]
        elif deed < 14 and stocked + held:
            of, text = numbers.of(stocked + held)
            ident = read_scrip(text).id
            if numbers.below(6) == 0:
                text = resold(of, text, *numbers.of(((60,), (None, NOW + 20))))
            if read_scrip(text).cust == ident and ident not in broker.history.desk.stocked(of.name):
                broker.stock(of.name, [text])
        elif deed == 14:
            broker.enter(DEPOSIT, name=b"ann", amount=numbers.between(1, 90), reference=b"d%d" % step)
        elif deed == 15 and numbers.below(2):
            v.pay(forged(v, numbers.of((ONE, TWO, v.own)), numbers.below(3), value), b"/a")
        elif held:
            of, text = held.pop(numbers.below(len(held)))
            of.time = max(of.time, NOW)
            back = of.pay(text, numbers.of((b"/a", b"/b")))
            held += [(of, change) for change in back or ()]


def trees(out):
    out.group("Trees of one to three brokers in which this and that was done: most of it is right.")
    numbers, kinds = Numbers(20), {True: 0, False: 0}
    for round in range(70):
        brokers = [Bank(name, numbers.of((0, 1, 3))) for name in (b"bank", b"kiosk", b"desk")[:numbers.of((1, 2, 2, 3))]]
        vendors = [House(name, 0, terms(0, 0x81 + n, 0x91 + n)) for n, name in enumerate((b"news.example", b"shop.example"))]
        for v in vendors:
            v.goods(b"/a", 3)
            v.goods(b"/b", 20)
            for issuer in (1, 2):
                v.enter(TERMS, terms=terms(issuer, 0x33, 0x44))
        for broker in brokers:
            broker.open(b"ann", numbers.of((300, 3000)))
        grown(numbers, brokers, vendors, numbers.between(8, 40))
        books = [*brokers, *vendors]
        order = sorted(range(len(books)), key=lambda _: numbers.below(2**20))
        audited(out, "tree %d" % round, books, [order, list(range(len(books)))])
        whole = Tree([Book(books[n].history.entries) for n in order])
        is_strange = whole.first_stranger() is not None
        kinds[is_strange] += 1
        if not is_strange:
            sums = [broker_sums(broker) for broker in whole.brokers]
            assert sum(s[0] for s in sums) == sum(sum(s[1:]) for s in sums) + sum(
                sum(whole.vendor_sums(v)) for v in whole.vendors) + whole.relayed()
    assert min(kinds.values()) > 14, kinds


def all_trees():
    out = Cases("Books of several brokers that sell scrip of each other, and of their vendors: the sums of all, the first\n"
                "stranger, books that lack or can't be read. What is right and one rule that is broken, in each order of the books.")
    for part in (deeds, own_stock, faulty, trees):
        part(out)
    out.write("trees")


def main():
    all_trees()
