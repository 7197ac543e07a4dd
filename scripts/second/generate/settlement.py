"""Writes `crates/cases/data/generated_settlement.cases`: statements of vendors and payments of brokers, each cause of a refusal
beside each other one, notes that are not in order, and calls that fail."""
import io

from cases import Runner
from forms import epoch_of, issuer_of, read_scrip
from generate import NAMES, NOW, Cases, Numbers, cut, raised
from generate.markets import LIFE, ONE, PERIOD, TWO, Bank, grown, news, stalled, terms
from market import Book, first_stranger
from payloads import ACCEPT, NOTE, TERMS
from settlement import MOST_AMOUNT, PAY, STATED, Claim, redeemed, sold

CHOICES = (0, 1, 7)
EPOCH = NOW // PERIOD
END = (EPOCH + 1) * PERIOD + LIFE
VENDOR = b"news.example"


def claim(amount, issuer=1, epoch=EPOCH, vendor=VENDOR):
    return Claim(vendor, issuer, epoch, amount)


def quoted(text):
    return '"%s"' % text.decode().replace("\n", "\\n")


def statement(of, under=ONE):
    """The line of a statement, as it is spelled."""
    return quoted(of.body() + of.certificate(under).hex().encode() + b"\n")


def vendor_book(*ends):
    """A vendor that redeemed a piece of 100; later it takes notes of these moments, tags and texts."""
    house = news()
    house.pay(ONE.scrip_text(VENDOR, 100, 1 << 56 | EPOCH << 32, 1 << 56 | EPOCH << 32, b""), b"/news/1")
    return noted(house, ends)


def bank_book(licence, *ends):
    """A broker that sold a piece of 100 under this licence, where there is one; later it takes notes."""
    bank = Bank()
    bank.open(b"ann", 1000)
    if licence:
        bank.license(VENDOR, licence)
        bank.pay(bank.draw(b"ann", 1, 300), b"/buy/news.example/100")
    return noted(bank, ends)


def noted(house, notes):
    for moment, tag, text in notes:
        house.time = max(house.time, moment)
        house.enter(NOTE, tag=tag, bytes=text)
    return house


def named(out, name, house):
    out.let(name, house.spelled())
    return "$" + name


def stating(out):
    """Each cause of a vendor's refusal beside each other one."""
    out.group("A vendor's statements: issuers with and without terms, series that run and that ended, stated ones and others.")
    books = [named(out, "sg_vendor", vendor_book()),
             named(out, "sg_stated", vendor_book((END, STATED, claim(100).stated())))]
    for book in books:
        for clock in (NOW, END - 1, END, END + PERIOD):
            out.case("statements of %s at %d" % (book[1:], clock), "clock %d" % clock, *(
                line for issuer in (1, 2, 255) for epoch in (0, EPOCH - 1, EPOCH, EPOCH + 1, 2**24 - 1)
                for line in ("book " + book, "run vendor statement b %d %d" % (issuer, epoch))), "replay")


def settling(out):
    """Each cause of a broker's refusal beside each other one."""
    out.group("A broker's payments: no statement, no licence or that of another issuer, a wrong certificate, what was paid\n"
              "before, a series that runs, more than was sold; each beside each.")
    books = [("none", bank_book(None)), ("two", bank_book(TWO)), ("one", bank_book(ONE)),
             ("same", bank_book(ONE, (END, PAY, claim(60).paid()))), ("other", bank_book(ONE, (END, PAY, claim(50).paid())))]
    for name, house in books:
        book = named(out, "sg_" + name, house)
        for clock in (END - 1, END):
            lines = []
            for amount in (60, 101):
                right, wrong = statement(claim(amount)), statement(claim(amount), terms(1, 0x34, 0x44))
                for one in (right, wrong):
                    for link in (one, one + '+"x"', one + "[:%d]" % (len(one) - 4), one + "+" + one):
                        lines += ["book " + book, "link " + link, "run broker settle b"]
            out.case("payments of %s at %d" % (book[1:], clock), "clock %d" % clock, *lines, "book " + book,
                     "run broker settle b", "link", "run broker settle b")
    claims = claim(60, 2), claim(60, 1), claim(60, 2, EPOCH, b"shop.example")
    out.case("other licences: of another vendor, and of this one under other secrets", "clock %d" % END, "book $sg_two",
             *(line for one in claims for line in ("link " + statement(one, TWO), "run broker settle b")), "replay")


def lines_of_statements(out):
    """Texts that are nearly a statement."""
    out.group("A right line with each byte raised by one, and cut at every place; values at their bounds; inputs at their limit.")
    out.let("sg_line", statement(claim(100)))
    for name, links in (("each byte raised by one", raised("sg_line")), ("cut at every place", cut("sg_line"))):
        out.case("a statement, " + name, "clock %d" % END,
                 *(line for link in links for line in ("book $sg_one", "link " + link, "run broker settle b")))
    numbers = ["%s 244 100" % issuer for issuer in ("0", "01", "255", "256", "+1")]
    numbers += ["1 " + rest for rest in ("0244 100", "0 0", "16777215 1", "16777216 1", " 100")]
    numbers += ["1 244 %s" % amount for amount in (
        0, "00", -1, "0100", MOST_AMOUNT - 1, MOST_AMOUNT, MOST_AMOUNT + 1, "1" * 40)]
    bodies = [b"statement news.example %s " % some.encode() for some in numbers]
    bodies += [b"Statement news.example 1 244 100 ", b" statement news.example 1 244 100 ", b"statement  news.example 1 244 100 ",
               b"statement News.example 1 244 100 ", b"statement news|example 1 244 100 ", b"statement -news 1 244 100 ",
               b"statement %s 1 244 100 " % (b"a" * 63), b"statement %s 1 244 100 " % (b"a" * 64), b"statement 1 244 100 ",
               b"statement news.example 1 244 100 1 ", b"statement\tnews.example 1 244 100 ", b"statement", b""]
    for body in bodies:
        certificate = ONE.certificate(body, 1 << 56 | EPOCH << 32).hex().encode()
        out.case("the statement %s" % body.decode().replace("\t", "TAB"), "clock %d" % END, "book $sg_one",
                 "link " + quoted(body + certificate + b"\n").replace("\t", "\\x09"), "run broker settle b")
    upper = quoted(claim(100).body() + claim(100).certificate(ONE).hex().upper().encode() + b"\n")
    for name, link in (
            ("in capitals", upper), ("with a carriage return", "$sg_line[:65]+$e"),
            ("in pieces", "$sg_line[:1] $sg_line[1:40] $sg_line[40:]"), ("behind an empty line", '"\\n"+$sg_line'),
            ("and 131006 bytes", '$sg_line+"x"*131006'), ("and 131007 bytes", '$sg_line+"x"*131007'),
            ("of 131072 bytes", '"x"*131072'), ("of 131073 bytes", '"x"*131073')):
        out.case("a statement " + name, "clock %d" % END, "book $sg_one", "link " + link, "run broker settle b")


def forged_notes():
    """Moments, tags and texts of notes that are not in order at a broker and at a vendor, and some that are."""
    paid, stated = claim(60).paid(), claim(100).stated()
    brokers = [
        ("of a series that runs", (END - 1, PAY, paid)),
        ("of more than was sold", (END, PAY, claim(101).paid())),
        ("of another issuer", (END, PAY, claim(60, 2).paid())),
        ("of another vendor", (END, PAY, claim(60, vendor=b"shop.example").paid())),
        ("of a later series, of which nothing was sold", (END + PERIOD, PAY, claim(1, epoch=EPOCH + 1).paid())),
        ("that begins with a zero", (END, PAY, b"news.example 1 244 060")),
        ("with a line end", (END, PAY, paid + b"\n")),
        ("with a word more", (END, PAY, paid + b" 1")),
        ("with a word less", (END, PAY, b"news.example 1 244")),
        ("of no bytes", (END, PAY, b"")),
        ("of issuer 0", (END, PAY, b"news.example 0 244 0")),
        ("of a vendor, here", (END, STATED, stated)),
        ("of a vendor, here, of nothing", (END, STATED, b"0 244 0"))]
    vendors = [
        ("of a series that runs", (END - 1, STATED, stated)),
        ("of more than was redeemed", (END, STATED, claim(101).stated())),
        ("of less than was redeemed", (END, STATED, claim(99).stated())),
        ("of an issuer without terms", (END, STATED, claim(0, 2).stated())),
        ("of issuer 0", (END, STATED, b"0 244 0")),
        ("that begins with a zero", (END, STATED, b"1 244 0100")),
        ("with a line end", (END, STATED, stated + b"\n")),
        ("with its vendor", (END, STATED, claim(100).paid())),
        ("of no bytes", (END, STATED, b"")),
        ("of a broker, here", (END, PAY, claim(100).paid())),
        ("of a broker, here, of nothing", (END, PAY, b"news.example 1 244 0"))]
    return brokers, vendors


def notes(out):
    """Books with notes that their command would not make."""
    out.group("Notes in books: those that are not in order close the book to the command of settlement alone.")
    brokers, vendors = forged_notes()
    others = [("of another tag", (NOW, b"paid", b"x")), ("of another tag, spelled alike", (NOW, b"pay.", b""))]
    paid, stated = (END, PAY, claim(60).paid()), (END, STATED, claim(100).stated())
    settled, balanced = ["link $sg_line", "run broker settle b"], "run broker balance b ann"
    noted_books(out, "broker", lambda *some: bank_book(ONE, *some), brokers + others, paid, settled, balanced)
    states = ["run vendor statement b 1 %d" % EPOCH]
    noted_books(out, "vendor", vendor_book, vendors + others, stated, states, "run vendor mint b 1 5 m1")


def noted_books(out, role, book, listed, right, orders, other):
    """Books with one of these notes each, and with the right one, once and twice: what settles them, and another command."""
    books = [(name, [note]) for name, note in listed] + [("in order", [right]), ("twice", [right, right])]
    books.append(("twice, with another amount", [right, (*right[:2], right[2][:-1] + b"1")]))
    for name, some in books:
        spelled = named(out, "sg_note", book(*some))
        out.case("a note of a %s %s" % (role, name), "clock %d" % (END + 2 * PERIOD), "book " + spelled, *orders,
                 "book " + spelled, other, "lawful", "beside " + spelled, "run audit chain b")


def series(out):
    """Books of several series and issuers, of stock, with a chain, and scrip of the second version."""
    out.group("Several series, issuers and vendors in one book; stock, which is not sold under a licence; a chain; the second\n"
              "version.")
    short = terms(9, 0x99, 0x9a, 2048, 0)
    house = news()
    house.enter(TERMS, terms=short)
    paid = [(1, EPOCH, 100), (1, EPOCH, 30), (1, EPOCH + 1, 60), (9, NOW // 2048, 40)]
    for serial, (issuer, epoch, value) in enumerate(paid):
        ident = issuer << 56 | epoch << 32 | serial
        under = ONE if issuer == 1 else short
        house.pay(under.scrip_text(VENDOR, value, ident, ident, b""), b"/news/1")
    book = named(out, "sg_several", house)
    asked = ["run vendor statement b %d %d" % one for one in sorted({it[:2] for it in paid})]
    clocks = NOW, (NOW // 2048 + 1) * 2048, END, END + PERIOD
    out.case("statements of several series", "book " + book,
             *(line for clock in clocks for line in ("clock %d" % clock, *asked)), "lawful", "replay")
    stocked(out)
    later = ONE.scrip_text(VENDOR, 100, 1 << 56 | (EPOCH + 1) << 32, 1 << 56 | (EPOCH + 1) << 32, b"", 2).decode()
    states = "run vendor statement b 1 %d"
    out.case("scrip of the second version is stated as all is", "book $sg_vendor", "clock %d" % NOW,
             "run vendor upgrade b 1 %d" % (EPOCH + 1), "clock %d" % ((EPOCH + 1) * PERIOD), 'link $get1+$scrip+"%s"+$ee' % later,
             "run vendor serve b l:80 1", "clock %d" % (END + PERIOD), states % (EPOCH + 1), states % EPOCH, "lawful", "replay")
    out.case("books with a chain", "clock %d" % END, "book $sg_vendor", "run vendor chain b", states % EPOCH, states % EPOCH,
             "run vendor chain b", "replay", "book $sg_one", "run broker chain b", "link $sg_line", "run broker settle b",
             "link $sg_line", "run broker settle b", "run broker chain b", "replay")


def stocked(out):
    """A bank that sold a piece of a series out of stock, before the licence came under which it sold more of that series."""
    bank = Bank()
    bank.open(b"ann", 1000)
    ident = 1 << 56 | EPOCH << 32 | 9
    bank.stock(VENDOR, [ONE.scrip_text(VENDOR, 70, ident, ident, b"")])
    bank.pay(bank.draw(b"ann", 1, 100), b"/buy/news.example/70")
    bank.license(VENDOR, ONE)
    bank.license(b"shop.example", ONE)
    for order, target in ((2, b"news.example/100"), (3, b"shop.example/50"), (4, b"news.example/30")):
        bank.pay(bank.draw(b"ann", order, 150), b"/buy/" + target)
    book = named(out, "sg_stock", bank)
    for amount in (130, 131, 200):
        claims = claim(amount), claim(50, vendor=b"shop.example"), claim(51, vendor=b"shop.example")
        out.case("stock was sold before the licence came: a statement of %d" % amount, "clock %d" % END, "book " + book,
                 *(line for one in claims for line in ("link " + statement(one), "run broker settle b")), "replay")


# Each command with its book, its links, its words, and how many calls of the disk and of links it makes.
ORDERS = [
    ("vendor statement", "$sg_vendor", (), "run vendor statement b 1 %d" % EPOCH, 6, 1),
    ("vendor statement, one that stands", "$sg_stated", (), "run vendor statement b 1 %d" % EPOCH, 2, 1),
    ("vendor statement, refused", "$sg_vendor", (), "run vendor statement b 2 %d" % EPOCH, 2, 1),
    ("broker settle", "$sg_one", ("link $sg_line[:20] $sg_line[20:]",), "run broker settle b", 6, 5),
    ("broker settle, paid before", "$sg_same", ("link " + statement(claim(60)),), "run broker settle b", 2, 4),
    ("broker settle, refused", "$sg_other", ("link $sg_line",), "run broker settle b", 2, 4),
]


def faults(out):
    out.group("Each call of the disk fails in turn, and then the disk crashes and the command comes again; and each call of the\n"
              "links.")
    for name, book, links, words, disk, link in ORDERS:
        for call in range(disk + 1):
            for choice in CHOICES:
                out.case("%s: disk call %d, crash %d" % (name, call, choice), "book " + book, *links, "clock %d" % END,
                         "fail disk %d" % call, words, "crash %d" % choice, "replay", *links, words, *links, words, "lawful")
        for call in range(link + 1):
            out.case("%s: link call %d" % (name, call), "book " + book, *links, "clock %d" % END, "fail link %d" % call, words,
                     *links, words)
    numbers = Numbers(22)
    for round in range(60):
        name, book, links, words, disk, link = numbers.of(ORDERS)
        out.case("%s, %d" % (name, round), "book " + book, *links, "clock %d" % END, "fail disk " + numbers.listed(disk + 3),
                 "fail link " + numbers.listed(link + 3), words, "crash %d" % numbers.of((0, 1, 2, 7, 128, 12345)), *links, words,
                 "lawful")


class Fair:
    """A broker and its vendors, whose books grow command by command; the second program runs each."""

    def __init__(self):
        self.lines, self.out = [], io.BytesIO()
        self.runner = Runner(self.out, NAMES)

    def run(self, *lines):
        """Does some lines; answers what the last of them printed."""
        at = len(self.out.getvalue())
        for line in lines:
            at = len(self.out.getvalue())
            self.runner.line(line)
        self.lines += lines
        return self.out.getvalue()[at:].decode()

    def settle(self, number, bank, vendor, epoch):
        """States a series of a vendor and has the statement paid, twice; whether it is paid."""
        series = vendor.name, 2, epoch
        printed = self.run("book $sg_fair_%d" % number, "run vendor statement b 2 %d" % epoch)
        assert "statement %s 2 %d %d " % (vendor.name.decode(), epoch, redeemed(vendor.history, series)) in printed, printed
        self.run("save sg_fair_%d book" % number, "save sg_told said", "book $sg_desk", "link $sg_told")
        is_paid = self.run("run broker settle b").startswith("run 0")
        assert is_paid == (redeemed(vendor.history, series) <= sold(bank.history, series))
        self.run("link $sg_told", "run broker settle b", "save sg_desk book")
        return is_paid


def fairs(out):
    """Markets in which this and that was done: each series that the vendors redeemed is stated and paid."""
    out.group("Markets in which this and that was done: each series that the vendors redeemed is stated, and its statement is\n"
              "paid, unless some piece of it was forged; again; and what the books say then.")
    numbers = Numbers(18)
    for round in range(24):
        bank, vendors = stalled(numbers)
        for v in vendors:
            bank.license(v.name, TWO)
        grown(numbers, bank, vendors, numbers.between(30, 70))
        fair, time = Fair(), max(house.time for house in (bank, *vendors)) + 2 * (PERIOD + LIFE)
        is_fair = first_stranger([Book(house.history.entries) for house in (bank, *vendors)]) is None
        out.let("sg_fair_bank", bank.spelled())
        fair.run("clock %d" % time, "book $sg_fair_bank", "save sg_desk book")
        for n, v in enumerate(vendors):
            out.let("sg_fair_%d" % n, v.spelled())
            for epoch in epochs_of(v) + [1]:
                is_paid = fair.settle(n, bank, v, epoch)
                assert is_paid or not is_fair, "a right statement is not paid"
        fair.run("book $sg_desk", "lawful", "beside $sg_desk", "beside $sg_fair_0", "beside $sg_fair_1", "run audit report b b b")
        out.case("fair %d" % round, *fair.lines)


def epochs_of(vendor):
    """The epochs of the series of issuer 2 of which a vendor redeemed some piece."""
    pieces = [read_scrip(entry.scrip) for entry in vendor.history.entries if entry.kind == ACCEPT]
    return sorted({epoch_of(piece.id) for piece in pieces if issuer_of(piece.id) == 2})


def settlement():
    out = Cases("What vendors redeemed of series that ended is stated and paid: each cause of a refusal beside each other one,\n"
                "lines that are nearly a statement, notes that are not in order, and calls that fail.")
    for part in (stating, settling, lines_of_statements, notes, series, faults, fairs):
        part(out)
    out.write("settlement")


def main():
    settlement()
