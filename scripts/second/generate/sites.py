"""Writes the generated files of cases of one site: `crates/cases/data/generated_faults.cases`, `generated_bytes.cases`, `generated_heads.cases`,
`generated_links.cases`, `generated_answers.cases`, `generated_brokers.cases` and `generated_operators.cases`."""
from bytes_text import bytes_of
from generate import (
    NAMES, NINE, NOW, ONE, OWN, STOCKED, STRANGE, TWO, Cases, Numbers, cut, digits, each_call_fails, length, pieces, raised,
    several_calls_fail, signature, string, with_byte)


def faults():
    out = Cases("Each call of the disk fails in turn, for each command, and then the disk crashes and the book is\n"
                "served; and each call of the links.")
    orders = [
        ("init", "", (), "run vendor init b news.example 4096 8192 $ones $twos --clear", 10, 1),
        ("goods", "$licensed", ('link "Good " "morning.\\n"',), "run vendor goods b /news/1 25 --kind 1", 6, 5),
        ("price", "$shop", (), "run vendor price b /news/1 24", 6, 1),
        ("licence", "$shop", (), "run vendor licence b 2 4096 8192 $fives $threes", 6, 1),
        ("mint", "$shop", (), "run vendor mint b 2 50 m1", 6, 1),
        ("list", "$shop", (), "run vendor list b", 2, 1),
        ("serve, a paid request", "$shop", ("link $pays",), "run vendor serve b l:80 1", 6, 5),
        ("serve, a repeat", "$paid_shop", ("link $pays",), "run vendor serve b l:80 1", 2, 5),
        ("serve, a refused request", "$paid_shop", ("link $pays2",), "run vendor serve b l:80 1", 2, 5),
        ("serve, two requests on a link", "$shop", ("link $pays+$pays60",), "run vendor serve b l:80 1", 10, 6),
    ]
    again = ("link $pays", "link $pays60", "run vendor serve b l:80 2")
    for order in orders:
        each_call_fails(out, "", order, lambda _: again)
    several_calls_fail(out, "", orders, lambda _: again, 60, Numbers(1))
    out.write("faults")


def bytes_and_bounds():
    out = Cases("Each byte raised by one, and cut at every place: scrip texts, payloads, books, heads. And lengths at\n"
                "their bounds.")
    for part in (texts, books, head_bytes, each_byte, lengths, numbers_at_bounds):
        part(out)
    out.write("bytes")


def texts(out):
    for name in ("p1", "q60"):
        out.case("scrip %s, each byte raised by one" % name, *("scrip " + spelled for spelled in raised(name)))
        out.case("scrip %s, cut at every place" % name, *("scrip " + spelled for spelled in cut(name)))
    for name in ("terms", "page2", "minted", "evening", "sold_exact", "upgrade", "switch", "note"):
        out.case("payload %s, each byte raised by one" % name, *("payload " + spelled for spelled in raised(name)))
        out.case("payload %s, cut at every place" % name, *("payload " + spelled for spelled in cut(name)))
    out.group("Numbers of a payload at every power of two.")
    for start, size, name in [
            (1, 8, "site"), (24, 4, "site"), (28, 8, "site"), (39, 4, "site"), (43, 4, "site"), (18, 8, "page"),
            (27, 4, "page"), (13, 2, "minted"), (15, 8, "minted"), (23, 8, "minted")]:
        out.case("%s, the %d bytes at %d" % (name, size, start), *(
            "payload $%s[:%d]+%s+$%s[%d:]" % (name, start, digits(n, size), name, start + size)
            for power in range(8 * size) for n in (2**power - 1, 2**power)))


def books(out):
    out.group("The book of a vendor after one payment, with each byte raised by one, is served. A request follows\n"
              "that pays 60.")
    for at, spelled in enumerate(raised("paid_shop")):
        out.case("byte %d" % at, "book " + spelled, "link $pays60", "clock 1000000", "serve 1")
    out.group("Another book, with pieces that were minted, likewise, and cut at every place.")
    out.let("other", "$front+$in_site+$in_minted+$in_page2+$shut")
    for at, spelled in enumerate(raised("other")):
        out.case("byte %d" % at, "book " + spelled, "link $get2+$scrip+$minted1+$ee", "clock 1000000", "serve 1")
    for at, spelled in enumerate(cut("other")):
        out.case("cut at %d" % at, "book " + spelled, "serve 0")


def head_bytes(out):
    out.group("Heads with each byte raised by one, and cut at every place.")
    heads = [("a paid request",
              '"GET /a HTTP/1.1\\r\\nHost: n\\r\\nMillicent-Scrip: MS1|x\\r\\nMillicent-Sign: 0a\\r\\n\\r\\n"'),
             ("a head that closes", '"GET /a HTTP/1.0\\nConnection: x, close\\nContent-Length: 0\\n\\n"'),
             ("a refused head", '"PUT * HTTP/1.1\\r\\nHost: a:1\\r\\nTransfer-Encoding: x\\r\\n\\r\\n"')]
    for name, spelled in heads:
        out.let("h", spelled)
        out.case(name + ", each byte raised by one", *("link %s+$h" % one for one in raised("h")), "heads")
        out.case(name + ", cut at every place", *("link " + one for one in cut("h")), "heads")
        out.case(name + ", cut, and then whole", *(
            line for one in cut("h")[::3] for line in ("link %s+$h" % one, "whole", "heads")))


def each_byte(out):
    out.group("Each byte as a byte of a method, a target, a field's name, a field's value and a host.")
    for name, front, behind in [
            ("method", "G", "T /a HTTP/1.1\\r\\nHost: n\\r\\n\\r\\n"),
            ("target", "GET /a", "b HTTP/1.1\\r\\nHost: n\\r\\n\\r\\n"),
            ("name", "GET /a HTTP/1.1\\r\\nHost: n\\r\\nX", "Y: z\\r\\n\\r\\n"),
            ("value", "GET /a HTTP/1.1\\r\\nHost: n\\r\\nMillicent-Sign: s", "s\\r\\n\\r\\n"),
            ("host", "GET /a HTTP/1.1\\r\\nHost: n", "n\\r\\n\\r\\n")]:
        out.let("f", '"%s"' % front)
        out.let("h", '"%s"' % behind)
        out.case("each byte in a " + name, *("link $f+x%02x+$h" % byte for byte in range(256)), "heads")
    out.case("each byte in a name", *("name x61%02x" % byte for byte in range(256)))
    out.case("each byte first in a name", *("name x%02x61" % byte for byte in range(256)))
    out.case("each byte in props", *("props x%02x" % byte for byte in range(256)))
    out.case("each byte in a target", *("target x2f%02x" % byte for byte in range(256)))


def lengths(out):
    out.group("Lengths of targets, names and references at their bounds.")
    for size in (1, 2, 511, 512, 513):
        target = '"/"*%d' % size
        out.case("a target of %d bytes" % size, "book $licensed", 'link "hi"', "clock 1000000",
                 "run vendor goods b %s 25" % target,
                 'link "GET "+%s+" HTTP/1.1\\r\\nHost: n\\r\\n"+$scrip+$p1+$ee' % target, "run vendor serve b l:80 1",
                 "run vendor price b %s 26" % target, "answer 1000000 %s $second -" % (target if size < 513 else '"/"'))
    for size in (1, 2, 62, 63, 64):
        out.case("a name of %d bytes" % size, "clock 1000000",
                 'run vendor init b "n"*%d 4096 8192 $ones $twos --clear' % size,
                 "run vendor mint b 1 50 m1", "link $unpaid", "run vendor serve b l:80 1")
        out.case("a reference of %d bytes" % size, "book $shop", "clock 1000000", *(
            'run vendor mint b %d 50 "r"*%d' % (count, size) for count in (2, 2, 3)))


def numbers_at_bounds(out):
    for value in (0, 1, 2**32, 2**40 - 1, 2**40, 2**40 + 1):
        out.case("a value of %d" % value, "book $shop", "clock 1000000", "run vendor mint b 1 %d m1" % value,
                 "run vendor price b /news/1 %d" % value, "link $unpaid", "run vendor serve b l:80 1")
    for count in (0, 1, 2, 255, 256, 257):
        out.case("a mint of %d pieces" % count, "book $shop", "clock 1000000", "run vendor mint b %d 1 m1" % count,
                 "run vendor mint b 1 1 m2")
    for keep in (59, 60, 61, 86399, 86400, 86401):
        out.case("a keeping time of %d" % keep, "clock 1000000",
                 "run vendor init b news.example 4096 8192 $ones $twos --keep %d --clear" % keep, 'link "hi"',
                 "run vendor goods b /news/1 25", "run vendor licence b 1 4096 8192 $threes $fours",
                 *("link $pays",) * 3, "clock 1000000 %d %d" % (NOW + keep - 1, NOW + keep), "run vendor serve b l:80 3")


def heads():
    out = Cases("The worked head of a payment, cut at every place, and with each of its bytes in turn 00, 0a and ff, served over the\n"
                "book of a vendor.")

    def served(name, links):
        out.case(name, "clock 1000000", *(line for link in links for line in ("book $shop", "link " + link, "run vendor serve b l:80 1")))
    served("cut at every place", cut("pays_curl"))
    for byte in (0x00, 0x0a, 0xff):
        for start in range(0, length("$pays_curl"), 20):
            places = range(start, min(start + 20, length("$pays_curl")))
            served("bytes %d to %d are %02x" % (places[0], places[-1], byte), (with_byte("pays_curl", at, byte) for at in places))
    out.write("heads")


REQUESTS = ["pays", "pays_curl", "pays_exact", "pays_short", "pays60", "pays_minted", "pays_signed", "pays2",
            "missigned", "head1", "unpaid"]


def links():
    out = Cases("Links that are put together of worked requests and of fronts of them, and cut in pieces; and runs of\n"
                "several servings of one book, by clocks that go forth and back.")
    numbers = Numbers(1995)
    shop = "vendor once news.example /news/1 25 $fives hi"
    out.group("By vendor once.")
    for round in range(180):
        parts = []
        for _ in range(numbers.between(1, 5)):
            part = "$l%d" % numbers.below(33)
            parts.append(part + ("[:%d]" % numbers.below(length(part)) if numbers.below(7) == 0 else ""))
        out.let("g", "+".join(parts))
        fails = ["fail link %d" % numbers.below(16)] if numbers.below(5) == 0 else []
        out.case("link %d" % round, "link " + pieces(numbers, "g", 160), "once " + shop, *fails, "run " + shop)
    out.group("By vendor serve, over the book of a vendor.")
    books = ["$shop", "$shop", "$paid_shop", "$paid_twice", "$signed_shop",
             "$front+$in_site+$in_minted+$in_page+$in_terms+$shut"]
    for round in range(150):
        time = NOW + numbers.of((0, 0, 0, 500, 11000))
        lines = ["book " + numbers.of(books)]
        for _ in range(numbers.between(1, 4)):
            count = numbers.between(1, 3)
            for _ in range(count):
                heads = ["$" + numbers.of(REQUESTS) for _ in range(numbers.below(4))]
                if numbers.below(8) == 0:
                    heads.append("$pays[:%d]" % numbers.below(100))
                whole = "+".join(heads) or '""'
                if numbers.below(3) == 0:
                    NAMES["g"] = bytes_of(whole, NAMES)
                    lines += ["let g " + whole, "link " + pieces(numbers, "g", 120)]
                else:
                    lines.append("link " + whole)
            readings = []
            for _ in range(numbers.between(1, 5)):
                time += numbers.of((0, 1, 100, 299, 300, 599, 600, 4096))
                readings.append(time - numbers.of((0, 0, 0, 1, 600, 1000000)))
            lines.append("clock " + " ".join(map(str, readings)))
            if numbers.below(10) == 0:
                lines.append("fail link %d" % numbers.below(10))
            lines.append("run vendor serve b l:80 %d" % numbers.of((1, 2, 3, count)))
        out.case("serving %d" % round, *lines)
    out.write("links")


class History:
    """A lawful history of a vendor, as it is spelled, with what a next entry depends on."""

    def __init__(self, clear, keep, time):
        self.time, self.keep, self.clear = time, keep, clear
        self.issuers, self.goods, self.counts, self.spent, self.sold, self.entries = {0: OWN}, {}, {}, set(), [], []
        self.add(1, "x00", string("news.example"), digits(keep, 4), digits(0, 8), digits(clear, 1), OWN.spelled())

    def add(self, kind, *fields):
        self.entries.append("+".join(["x%02x" % kind, digits(self.time, 8), *fields]))

    def terms(self, issuer):
        self.issuers[issuer.number] = issuer
        self.add(2, issuer.spelled())

    def put(self, target, price, contents):
        self.goods[target] = price
        self.add(3, string(target), digits(price, 8), "x00", digits(len(contents), 4), '"%s"' % contents)

    def next(self, count=1):
        epoch = OWN.epoch(self.time)
        serial = self.counts.get(epoch, 0)
        self.counts[epoch] = serial + count
        return OWN.identity(self.time, serial)

    def mint(self, reference, count, value):
        first = self.next(count)
        self.add(5, string(reference), digits(count, 2), digits(value, 8), digits(first, 8))
        return first

    def sell(self, piece, target, sign):
        """Accepts a piece, which has to be good: a name, the text, the value, the identity, the customer's secret."""
        name, text, value, identity, _ = piece
        price = self.goods[target]
        self.spent.add(identity)
        flag = ["x01", "x" + sign] if sign else ["x00"]
        change = ["x01", digits(self.next(), 8)] if value > price else ["x00"]
        self.sold.append((self.time, name, target, sign))
        self.add(4, digits(len(text), 2), "$" + name, string(target), *flag, digits(price, 8), *change, "x00")


TARGETS = ["/news/1", "/news/2", "/x", "/" + "y" * 30]


def answers():
    out = Cases("Requests to books of a vendor with several issuers, minted pieces, sales, signatures: the answers of\n"
                "the ledger and of a house, over times, targets and limits.")
    out.group("Pieces: good ones, minted ones, and ones that no house takes.")
    good, minted, bad = good_pieces(out), minted_pieces(out), bad_pieces(out)
    numbers = Numbers(44)
    for round in range(70):
        h = sold_to(numbers, good)
        book = "+".join(["$front", *("x01%08x+%s" % (length(s), s) for s in h.entries), "$shut"])
        lines = ["book " + book, "lawful"]
        size = 9 + sum(5 + length(s) for s in h.entries)
        for ask in range(14):
            if ask == 8:
                lines.append("limits %d %d" % (numbers.of((2**40, 2**40, size, size + 125 + numbers.below(30))),
                                               max([1, *h.counts.values()]) + numbers.of((0, 0, 0, 1, 2**31))))
            lines.append(asked(numbers, h, good, minted, bad))
        out.case("book %d, of %d entries" % (round, len(h.entries)), *lines)
    out.write("answers")


def piece(out, name, issuer, value, identity, cust, props="", vendor="news.example", expires=None, spoil=False):
    """A piece under a name: the name, the text, the value, the identity, and its customer's secret."""
    text = issuer.scrip_text(vendor, value, identity, cust, props, expires)
    if spoil:
        text = text[:-1] + ("0" if text[-1] != "0" else "1")
    out.let(name, '"%s"' % text)
    home = {0: OWN, 1: ONE, 2: TWO, 9: NINE}.get(cust >> 56)
    return name, text, value, identity, home.customer_secret(cust) if home else bytes(16)


def good_pieces(out):
    numbers, pool = Numbers(7), []
    for number in range(44):
        issuer = (ONE, ONE, TWO, NINE)[number % 4]
        moment = NOW + (0, 0, 4096, 100000)[number // 4 % 4]
        identity = issuer.identity(moment, number)
        cust = identity if number % 3 else OWN.identity(NOW, 100 + number)
        pool.append(piece(out, "s%d" % number, issuer, numbers.of((1, 7, 24, 25, 26, 60, 100, 1000, 2**40)), identity, cust,
                          numbers.of(("", "", "a=1", "x.y,z-0"))))
    return pool


def minted_pieces(out):
    return [piece(out, "m%d" % serial, OWN, 50, identity, identity)
            for serial in range(6) for identity in [OWN.identity(NOW, serial)]]


def bad_pieces(out):
    return [piece(out, "b0", ONE, 100, ONE.identity(NOW, 90), ONE.identity(NOW, 90), spoil=True),
            piece(out, "b1", ONE, 100, ONE.identity(NOW, 91), ONE.identity(NOW, 91), vendor="shop.example"),
            piece(out, "b2", ONE, 100, ONE.identity(NOW, 92), ONE.identity(NOW, 92), expires=1011713),
            piece(out, "b3", STRANGE, 100, STRANGE.identity(NOW, 93), STRANGE.identity(NOW, 93)),
            piece(out, "b4", ONE, 100, ONE.identity(NOW, 94), STRANGE.identity(NOW, 94)),
            piece(out, "b5", TWO, 100, TWO.identity(NOW + 8192, 95), TWO.identity(NOW + 4096, 96)),
            piece(out, "b6", ONE, 100, ONE.identity(NOW - 20000, 97), ONE.identity(NOW, 98))]


def sold_to(numbers, pool):
    """A history in which goods change, pieces are minted, and some are paid with."""
    h = History(numbers.below(4) > 0, numbers.of((60, 600, 600, 86400)), NOW)
    h.put("/news/1", 25, "Good morning.")
    h.terms(ONE)
    if numbers.below(2):
        h.terms(TWO)
    if numbers.below(2):
        h.terms(NINE)
    if numbers.below(2):
        h.mint("m1", numbers.between(1, 6), 50)
    for step in range(numbers.below(8)):
        h.time += numbers.of((0, 0, 0, 1, 100, 599, 600, 4096))
        deed = numbers.below(6)
        if deed == 0:
            h.put(numbers.of(TARGETS[:3]), numbers.of((1, 24, 25, 60, 1000)), numbers.of(("", "hi", "other")))
        elif deed == 1:
            h.mint("r%d" % step, numbers.between(1, 3), numbers.of((1, 50, 2**40)))
        else:
            target = numbers.of([t for t in h.goods])
            good = [p for p in pool if p[2] >= h.goods[target] and p[3] not in h.spent and p[3] >> 56 in h.issuers
                    and (int(p[1].split("|")[5]) > h.time)]
            if good:
                p = numbers.of(good)
                sign = signature(p[1], target, p[4]) if not h.clear or numbers.below(2) else None
                h.sell(p, target, sign)
    return h


def asked(numbers, h, pool, minted, bad):
    """A request after a history: one that it took, given again or nearly so, or a new one."""
    time = h.time + numbers.of((0, 0, 0, 0, 0, 0, 1, 60, 600, 4096, 11711, 11712, 86400, 200000))
    if h.sold and numbers.below(3) == 0:
        moment, name, target, sign = numbers.of(h.sold)
        time = max(h.time, moment + numbers.of((0, h.keep - 1, h.keep)))
        if numbers.below(5) == 0:
            sign = numbers.of((None, sign, "0" * 32))
        if numbers.below(6) == 0:
            target = numbers.of(TARGETS)
    else:
        open_to = [p for p in pool if p[3] not in h.spent and p[3] >> 56 in h.issuers] or pool
        p = numbers.of(numbers.of((open_to, open_to, open_to, open_to, open_to, pool, minted, bad)))
        name, target = p[0], numbers.of(TARGETS[:1] * 6 + TARGETS)
        right = signature(p[1], target, p[4])
        wrong = signature(p[1], "/news/9", p[4])
        sign = numbers.of((right, right if not h.clear else None, None, None, right, wrong, ""))
        if numbers.below(25) == 0:
            name = None
    text = "$" + name if name else "-"
    if name and numbers.below(25) == 0:
        text += "[:%d]" % numbers.below(length(text))
    return 'answer %d "%s" %s %s' % (time, target, text, "-" if sign is None else '"%s"' % sign)


class BrokerHistory:
    """A history of a broker, as it is spelled, with what a next entry depends on."""

    def __init__(self, fee, clear, keep, time):
        self.fee, self.clear, self.keep, self.time = fee, clear, keep, time
        self.keys, self.balances, self.orders = {}, {}, {}
        self.licences, self.stock, self.sold, self.licensed = {}, {}, set(), {}
        self.spent, self.serials, self.drawn, self.bought, self.entries = set(), 0, [], [], []
        self.add(1, "x01", string("bank"), digits(keep, 4), digits(fee, 8), digits(clear, 1), OWN.spelled())

    def add(self, kind, *fields):
        self.entries.append("+".join(["x%02x" % kind, digits(self.time, 8), *fields]))

    def book(self):
        return "+".join(["$front", *("x01%08x+%s" % (length(s), s) for s in self.entries), "$shut"])

    def next(self):
        self.serials += 1
        return OWN.identity(self.time, self.serials - 1)

    def open(self, name, key):
        self.keys[name], self.balances[name], self.orders[name] = bytes([key]) * 16, 0, 0
        self.add(6, string(name), "x%02x*16" % key)

    def move(self, kind, name, amount, reference):
        self.balances[name] += amount if kind == 7 else -amount
        self.add(kind, string(name), digits(amount, 8), string(reference))

    def draw(self, name, order, amount):
        target = "/draw/%s/%d/%d" % (name, order, amount)
        self.balances[name] -= amount
        self.orders[name] = order
        sign = signature("-", target, self.keys[name])
        self.drawn.append((self.time, target, sign))
        self.add(9, string(target), "x" + sign, digits(self.next(), 8))

    def license(self, vendor, issuer):
        self.licences[vendor] = issuer
        self.add(10, string(vendor), issuer.spelled())

    def put(self, vendor, held):
        self.stock.setdefault(vendor, []).extend(held)
        self.add(11, string(vendor), digits(len(held), 2), *(
            "%s+$%s+x%s" % (digits(length("$" + name), 2), name, secret.hex()) for name, _, _, _, secret in held))

    def for_sale(self, vendor, value):
        return next((p for p in self.stock.get(vendor, ()) if p[2] == value and (vendor, p[3]) not in self.sold
                     and self.time < int(p[1].split("|")[5])), None)

    def take(self, piece, target, price, deed):
        name, text, value, identity, secret = piece
        self.spent.add(identity)
        sign = None if self.clear else signature(text, target, secret)
        change = ["x01", digits(self.next(), 8)] if value > price else ["x00"]
        self.bought.append((self.time, name, target, sign))
        self.add(4, digits(len(text), 2), "$" + name, string(target), *(["x01", "x" + sign] if sign else ["x00"]),
                 digits(price, 8), *change, deed)

    def sell(self, piece, vendor, value):
        """Sells scrip of a vendor for a piece that covers it, where there is some."""
        issuer, held = self.licences.get(vendor), self.for_sale(vendor, value)
        if issuer:
            series = vendor, issuer.epoch(self.time)
            identity = issuer.identity(self.time, self.licensed.get(series, 0))
            self.licensed[series] = self.licensed.get(series, 0) + 1
        elif held:
            identity = held[3]
            self.sold.add((vendor, identity))
        else:
            return
        deed = "x01%02x%016x" % (0 if issuer else 1, identity)
        self.take(piece, "/buy/%s/%d" % (vendor, value), value + self.fee, deed)

    def credit(self, piece, name):
        self.balances[name] += piece[2]
        self.take(piece, "/credit/" + name, piece[2], "x02%016x" % self.balances[name])


VENDORS = ("news.example", "shop.example", "press.example", "none.example")


def grown(numbers, h, pool, stock, steps):
    """Enters this and that, each lawful behind those before it."""
    waiting = {vendor: list(held) for vendor, held in stock.items()}
    for step in range(steps):
        h.time += numbers.of((0, 0, 0, 1, 100, 599, 600, 4096))
        name, deed = numbers.of(("ann", "bob")), numbers.below(9)
        good = [p for p in pool if p[3] not in h.spent and h.time < int(p[1].split("|")[5])]
        if name not in h.keys:
            h.open(name, 0x88 if name == "ann" else 0x99)
        elif deed < 2:
            h.move(7, name, numbers.of((1, 50, 1000, 2**40)), "d%d" % step)
        elif deed == 2 and h.balances[name]:
            h.move(8, name, numbers.between(1, min(200, h.balances[name])), "w%d" % step)
        elif deed == 3 and h.balances[name]:
            h.draw(name, h.orders[name] + numbers.between(1, 3), numbers.between(1, min(300, h.balances[name])))
        elif deed == 4:
            vendor = numbers.of(VENDORS[:3])
            if vendor not in h.licences and numbers.below(2):
                h.license(vendor, numbers.of((ONE, TWO, NINE)))
            elif waiting.get(vendor):
                count = numbers.between(1, 3)
                h.put(vendor, waiting[vendor][:count])
                del waiting[vendor][:count]
        elif deed == 5 and good:
            h.credit(numbers.of(good), name)
        elif good:
            vendor, value, piece = numbers.of(VENDORS[:3]), numbers.of((1, 7, 50, 60)), numbers.of(good)
            if piece[2] >= value + h.fee:
                h.sell(piece, vendor, value)


def broker_request(numbers, h, pool):
    """A draw, or a request with a piece, that may be taken or not."""
    late = (0, 0, 0, 0, 0, 1, 600, 4096, 11711, 11712)
    time = h.time + numbers.of(late)
    ask = numbers.below(6)
    if ask == 0 and h.drawn + h.bought:
        moment, *asked = numbers.of(h.drawn + h.bought)
        name, target, sign = asked if len(asked) == 3 else (None, *asked)
        return max(h.time, moment + numbers.of((0, h.keep - 1, h.keep))), target, name, sign
    if ask < 3:
        account = numbers.of([*h.keys] * 6 + ["cid"])
        last, balance = h.orders.get(account, 0), h.balances.get(account, 0)
        target = "/draw/%s/%d/%d" % (account, max(1, last + numbers.of((-1, 0, 1, 1, 1, 2))),
                                     max(1, numbers.of((1, 1, 7, balance, balance + 1))))
        right = signature("-", target, h.keys.get(account, b"\x77" * 16))
        return time, target, None, numbers.of((right, right, right, right, None, right[1:] + right[0], right.upper()))
    fresh = [p for p in pool if p[3] not in h.spent] or pool
    name, text, value, identity, secret = numbers.of(fresh if numbers.below(6) else pool)
    if ask == 3:
        target = "/credit/" + numbers.of([*h.keys] * 5 + ["cid"])
    else:
        target = "/buy/%s/%d" % (numbers.of([*h.licences, *h.stock] * 4 + [*VENDORS[2:]]), numbers.of((1, 7, 50, 50, 60, max(1, value - h.fee), value)))
    right = signature(text, target, secret)
    return time, target, name, numbers.of((right, right, right, None, right if not h.clear else None, right[::-1]))


def brokers():
    out = Cases("Histories of a broker, with accounts, draws, licences, stock, sales and credits: the answers of the ledger\n"
                "over times, targets and limits; and which of them are lawful.")
    numbers, pool, stock = Numbers(16), [], {vendor: [] for vendor in VENDORS[1:3]}

    def piece(name, issuer, vendor, value, identity, cust):
        text = issuer.scrip_text(vendor, value, identity, cust)
        out.let(name, '"%s"' % text)
        return name, text, value, identity, issuer.customer_secret(cust)

    out.group("Pieces of the broker's own, and pieces of vendors.")
    for number in range(24):
        identity = OWN.identity(NOW + (0, 0, 4096, 8192)[number % 4], 1000 + number)
        cust = identity if number % 3 else OWN.identity(NOW, 2000 + number)
        pool.append(piece("q%d" % number, OWN, "bank", numbers.of((1, 8, 51, 52, 61, 199, 1000, 2**40)), identity, cust))
    for number in range(16):
        vendor = VENDORS[1 + number % 2]
        identity = STOCKED.identity(NOW + (0, 0, 0, -4096)[number // 4], number)
        held = piece("v%d" % number, STOCKED, vendor, numbers.of((50, 50, 60, 7)), identity, identity)
        stock[vendor].append(held)
    for round in range(220):
        h = BrokerHistory(numbers.of((0, 1, 1, 1, 9)), numbers.below(3) > 0, numbers.of((60, 600, 86400)), NOW)
        grown(numbers, h, pool, stock, numbers.below(14))
        lines, size = [], length(h.book())
        if len(h.entries) > 2:
            place = numbers.between(1, len(h.entries) - 1)
            lines += ["book " + spoiled(numbers, h, place), "lawful"]
        lines += ["book " + h.book(), "lawful"]
        for ask in range(8):
            if ask == 6:
                lines.append("limits %d %d" % (numbers.of((2**40, size, size + 60 + numbers.below(120))),
                                               max(1, h.serials + numbers.of((0, 0, 1)))))
            time, target, name, sign = broker_request(numbers, h, pool)
            lines.append('answer %d "%s" %s %s' % (
                time, target, "$" + name if name else "-", "-" if sign is None else '"%s"' % sign))
        out.case("desk %d, of %d entries" % (round, len(h.entries)), *lines)
    out.write("brokers")


def spoiled(numbers, h, place):
    """The book of a history up to an entry, of which the last number is one more or less, or the one before it again."""
    kept = h.entries[:place + 1]
    if numbers.below(3) == 0:
        kept[place] = kept[place - 1]
    else:
        data = bytes_of(kept[place], NAMES)
        kept[place] = "x" + (data[:-1] + bytes([data[-1] ^ numbers.of((1, 2)) if data[0] in (4, 9) else data[-1]])).hex()
    return "+".join(["$front", *("x01%08x+%s" % (length(s), s) for s in kept), "$shut"])


def operators():
    out = Cases("Operations of an operator one after another over one book, with repeats, other values under one reference\n"
                "and taken issuers; and then the book is served.")
    numbers = Numbers(65536)
    out.let("all", '"x"*65536')
    short = ['"hi"', '"Good " "morning.\\n"', '""', "x00ff0a0d", None]
    long = ["$all", "$all[:60000] $all[60000:]", '$all+"x"', '$all "" "x"']
    targets = ["/news/1", "/news/1", "/news/2", "/~a?b=c", "/"]
    secrets = ["$threes", "$fours", "$mixed", "$fives"]
    serving = ("link $pays+$unpaid", "link $pays60+$pays_exact", "link $pays_minted",
               "link $get2+$scrip+$p1+$ee+$get2+$e")
    for round in range(90):
        time = NOW
        lines = ["clock %d" % time, "run vendor init b news.example 4096 8192 $ones $twos"
                 + numbers.of((" --clear", " --clear", "", " --keep 60 --clear"))]
        if numbers.below(4):
            lines.append("run vendor licence b 1 4096 8192 $threes $fours")
        for _ in range(numbers.between(3, 9)):
            if numbers.below(3) == 0:
                time += numbers.of((1, 100, 600, 4096))
                lines.append("clock %d" % (time - numbers.of((0, 0, 500))))
            order = numbers.below(10)
            if order < 4:
                brought = numbers.of(short + long if round % 10 == 0 else short)
                lines += ["link " + brought] if brought else []
                lines.append("run vendor goods b %s %d%s" % (numbers.of(targets), numbers.of((1, 24, 25, 30, 2**40)),
                                                             numbers.of(("", " --kind 0", " --kind 1", " --kind 2"))))
            elif order < 6:
                lines.append("run vendor price b %s %d" % (numbers.of(targets), numbers.of((1, 24, 25, 26, 2**40))))
            elif order < 7:
                lines.append("run vendor licence b %d %d %d %s %s" % (
                    numbers.of((1, 1, 2, 255)), numbers.of((4096, 4096, 4096, 2048)), numbers.of((8192, 8192, 0)),
                    numbers.of(secrets), numbers.of(secrets)))
            else:
                lines.append("run vendor mint b %d %d %s" % (
                    numbers.of((1, 2, 2, 3)), numbers.of((50, 50, 50, 7)), numbers.of(("m1", "m1", "m2", "may.1"))))
        if numbers.below(6) == 0:
            lines += ["fail disk %d" % numbers.below(7), "run vendor mint b 2 50 last",
                      "crash %d" % numbers.of((0, 1, 2, 128))]
        lines += [*serving, "clock %d" % time, "run vendor serve b l:80 4", "run vendor list b", "run vendor status b", "replay"]
        out.case("orders %d" % round, *lines)
    out.write("operators")


def main():
    faults()
    bytes_and_bounds()
    heads()
    links()
    answers()
    brokers()
    operators()
