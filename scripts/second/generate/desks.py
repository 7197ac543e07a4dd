"""Writes the generated files of cases of a broker's commands, `crates/cases/data/generated_desk_faults.cases` and
`generated_desks.cases`."""
from bytes_text import bytes_of
from forms import read_scrip
from generate import NAMES, NOW, ONE, OWN, STOCKED, TWO, Cases, Numbers, each_call_fails, length, several_calls_fail, signature
from program import run
from stage import Stage

KEYS = {"ann": 0x88, "bob": 0x99, "cid": 0xaa}
ISSUERS = {"news.example": ONE, "press.example": TWO}


def key_word(name):
    return '"%02x"*16' % KEYS[name]


def head(target, text=None, sign=None):
    """A request's head, as it is spelled."""
    fields = '+$scrip+"%s"' % text if text else ""
    if sign is not None:
        fields += '+$e+$sign+"%s"' % sign if text else '+$sign+"%s"' % sign
    return '"GET %s HTTP/1.1\\r\\nHost: bank\\r\\n"%s%s' % (target, fields, "+$ee" if fields else "+$e")


def draw_head(name, order, amount):
    target = "/draw/%s/%d/%d" % (name, order, amount)
    return head(target, None, signature("-", target, bytes([KEYS[name]]) * 16))


def piece_line(issuer, vendor, value, identity):
    text = issuer.scrip_text(vendor, value, identity, identity)
    return '"%s %s\\n"' % (text, issuer.customer_secret(identity).hex())


def licence_line(vendor, issuer):
    lists = (",".join(("%02x" % byte) * 16 for byte in secrets) for secrets in (issuer.scrip, issuer.customer))
    return '"licence %s %d %d %d %s %s\\n"' % (vendor, issuer.number, issuer.period, issuer.life, *lists)


def own_piece(value, serial):
    identity = OWN.identity(NOW, serial)
    return OWN.scrip_text("bank", value, identity, identity)


def names(out):
    """The books and links that the faults begin with."""
    first = STOCKED.identity(NOW, 0)
    out.let("f_line", piece_line(STOCKED, "shop.example", 50, first))
    out.let("f_line2", piece_line(STOCKED, "shop.example", 60, first + 1))
    out.let("f_licence", licence_line("news.example", ONE))
    text = STOCKED.scrip_text("shop.example", 50, first, first)
    out.let("f_site", 'x01+$now+x01+x0004+"bank"+x00000258+x0000000000000001+x01+' + OWN.spelled())
    out.let("f_account", 'x06+$now+x0003+"ann"+x88*16')
    out.let("f_deposit", 'x07+$now+x0003+"ann"+x00000000000003e8+x0002+"d1"')
    out.let("f_terms", 'x0a+$now+x000c+"news.example"+' + ONE.spelled())
    out.let("f_stock", 'x0b+$now+x000c+"shop.example"+x0001+x%04x+"%s"+x%s' % (
        len(text), text, STOCKED.customer_secret(first).hex()))
    entries = ["x01%08x+$f_%s" % (length("$f_" + name), name) for name in ("site", "account", "deposit", "terms", "stock")]
    for name, count in (("bank", 1), ("opened", 2), ("rich", 3), ("market", 5)):
        out.let("f_" + name, "+".join(["$front", *entries[:count], "$shut"]))
    out.let("f_draw", draw_head("ann", 1, 300))
    out.let("f_next", draw_head("ann", 2, 200))
    out.let("f_wrong", head("/draw/ann/1/301", None, "0" * 32))
    out.let("f_sale", head("/buy/shop.example/50", own_piece(199, 71)))
    out.let("f_licensed", head("/buy/news.example/100", own_piece(300, 70)))
    out.let("f_credit", head("/credit/ann", own_piece(51, 72)))


# Each command with its book, its links, its words, and how many calls of the disk and of links it makes.
ORDERS = [
    ("init", "", (), "run broker init b bank 4096 8192 $ones $twos 1 --clear", 10, 1),
    ("account", "$f_bank", (), "run broker account b ann " + key_word("ann"), 6, 1),
    ("deposit", "$f_opened", (), "run broker deposit b ann 1000 d1", 6, 1),
    ("a deposit that stands", "$f_rich", (), "run broker deposit b ann 1000 d1", 2, 1),
    ("withdraw", "$f_rich", (), "run broker withdraw b ann 400 w1", 6, 1),
    ("balance", "$f_rich", (), "run broker balance b ann", 2, 1),
    ("status", "$f_rich", (), "run broker status b", 2, 1),
    ("licence", "$f_rich", ("link $f_licence[:20] $f_licence[20:]",), "run broker licence b", 6, 5),
    ("stock", "$f_rich", ("link $f_line $f_line2",), "run broker stock b shop.example", 6, 5),
    ("serve, a draw", "$f_rich", ("link $f_draw",), "run broker serve b l:80 1", 6, 5),
    ("serve, a sale out of stock", "$f_market", ("link $f_sale",), "run broker serve b l:80 1", 6, 5),
    ("serve, a sale under a licence", "$f_market", ("link $f_licensed",), "run broker serve b l:80 1", 6, 5),
    ("serve, a credit", "$f_market", ("link $f_credit",), "run broker serve b l:80 1", 6, 5),
    ("serve, a refused draw", "$f_market", ("link $f_wrong",), "run broker serve b l:80 1", 2, 5),
    ("serve, three requests on a link", "$f_market", ("link $f_draw+$f_sale+$f_credit",), "run broker serve b l:80 1", 14, 7),
]
AGAIN = ("link $f_draw", "link $f_next+$f_sale+$f_licensed", "link $f_credit", "run broker serve b l:80 3", "run broker balance b ann")


def faults():
    out = Cases("Each call of the disk fails in turn, for each of a broker's commands, and then the disk crashes, the command is\n"
                "given again, and the book is served; and each call of the links.")
    names(out)
    again = lambda order: (*order[2], order[3], *AGAIN)
    for order in ORDERS:
        each_call_fails(out, "broker ", order, again)
    several_calls_fail(out, "broker ", ORDERS, again, 80, Numbers(8))
    out.write("desk_faults")


class Desk:
    """A broker's book that grows command by command. The second program runs each, and tells which pieces customers then have."""

    def __init__(self, numbers):
        self.numbers, self.time, self.book, self.lines = numbers, NOW, b"", []
        self.is_clear = numbers.below(3) > 0
        self.purse, self.heads, self.orders, self.waiting, self.known = [], [], {name: 0 for name in KEYS}, {}, []
        for vendor in ("shop.example", "press.example"):
            self.waiting[vendor] = [(numbers.of((50, 50, 60)), STOCKED.identity(NOW, serial)) for serial in range(6)]

    def run(self, words, *links):
        """Runs words, whose `LINE` are spelled, and answers the stage."""
        lines = ["link " + link for link in links] + ["clock %d" % self.time, "run " + words]
        stage = Stage(self.book, [[spelled(link)] for link in links], [self.time])
        run([spelled(word) if word[0] in '"$' else word.encode() for word in words.split(" ")], stage, ())
        self.book = bytes(stage.contents)
        self.lines += lines
        return stage

    def found(self):
        options = "".join((" --clear" if self.is_clear else "", self.numbers.of(("", " --keep 60", " --keep=86400"))))
        self.run("broker init b bank 4096 8192 $ones $twos %d%s" % (self.numbers.of((0, 1, 1, 7)), options))

    def move(self):
        """A deposit or a withdrawal, of which some have a reference that stands."""
        verb, name = self.numbers.of(("deposit", "deposit", "withdraw")), self.numbers.of(("ann", "ann", "bob", "bob", "cid"))
        amount, reference = self.numbers.of((1, 300, 1000, 1000, 2**40)), self.numbers.of(("r1", "r2", "r3", "r4", "r5", "r6"))
        self.run("broker %s b %s %d %s" % (verb, name, amount, reference))

    def stock(self):
        vendor = self.numbers.of(("shop.example", "press.example"))
        held = [self.numbers.of(self.waiting[vendor]) for _ in range(self.numbers.between(1, 3))]
        lines = [piece_line(STOCKED, vendor, *one) for one in held]
        if self.numbers.below(8) == 0:
            lines.append(self.numbers.of(('"x"', '"\\n"', piece_line(OWN, vendor, 50, OWN.identity(NOW, 1) | 1 << 56))))
        self.known.append(vendor)
        self.run("broker stock b %s" % vendor, "+".join(lines))

    def license(self):
        vendor = self.numbers.of((*ISSUERS, "press.example"))
        self.known.append(vendor)
        issuer = ISSUERS[vendor] if self.numbers.below(4) else self.numbers.of((ONE, TWO))
        self.run("broker licence b", licence_line(vendor, issuer) + ('+"x"' if self.numbers.below(9) == 0 else ""))

    def request(self):
        """A head: new ones, and those that came before."""
        ask = self.numbers.below(10)
        if ask < 2 and self.heads:
            return self.numbers.of(self.heads)
        if ask < 5 or not self.purse:
            name = self.numbers.of(("ann", "ann", "ann", "ann", "ann", "bob", "bob", "cid"))
            self.orders[name] += self.numbers.of((1, 1, 1, 2, 0))
            return draw_head(name, max(1, self.orders[name]), self.numbers.of((1, 60, 300, 300, 1000)))
        text, secret = self.purse.pop(self.numbers.below(len(self.purse)))
        vendor, value = self.numbers.of((*self.known, "shop.example")), self.numbers.of((1, 50, 50, 50, 60, 300))
        target = "/credit/" + self.numbers.of(("ann", "ann", "ann", "bob", "bob", "cid"))
        if ask < 9:
            target = "/buy/%s/%d" % (vendor, value)
        right = signature(text, target, secret)
        return head(target, text, self.numbers.of((None, right, right) if self.is_clear else (right, right, right, None)))

    def serve(self):
        """Serves some links, and takes what customers get by them."""
        links = []
        for _ in range(self.numbers.between(1, 3)):
            asked = [self.request() for _ in range(self.numbers.between(1, 4))]
            self.heads += asked
            links.append("+".join(asked))
        stage = self.run("broker serve b l:80 %d" % len(links), *links)
        for reply in b"".join(stage.sent).split(b"HTTP/1.1 200 OK\r\n")[1:]:
            self.take(reply)

    def take(self, reply):
        """Keeps the drawn piece, and the change with the secret of its customer."""
        fields, _, contents = reply.partition(b"\r\n\r\n")
        texts = [contents.split(b" ")[0]] if contents.startswith(b"MS1|bank|") else []
        change = next(line for line in fields.split(b"\r\n") if line.startswith(b"Millicent-Change: "))[18:]
        for text in texts + [change] * (change != b"-"):
            self.purse.append((text.decode(), OWN.customer_secret(read_scrip(text).cust)))

    def crash(self):
        """A command while a call of the disk fails, a crash, and the command again."""
        words = self.numbers.of(("broker deposit b ann 300 last", "broker withdraw b ann 1 last", "broker account b cid " + key_word("cid")))
        call, choice = self.numbers.below(7), self.numbers.of((0, 1, 2, 128))
        stage = Stage(self.book, (), [self.time], [call])
        run([spelled(word) if word[0] == '"' else word.encode() for word in words.split(" ")], stage, ())
        self.book = stage.crashed(choice)
        self.lines += ["clock %d" % self.time, "fail disk %d" % call, "run " + words, "crash %d" % choice]
        self.run(words)

    def step(self):
        self.time += self.numbers.of((0, 0, 0, 1, 59, 600, 4096))
        deed = self.numbers.below(14)
        if deed == 0:
            name = self.numbers.of(("ann", "bob", "cid"))
            self.run("broker account b %s %s" % (name, key_word(self.numbers.of((name, "ann")))))
        elif deed < 4:
            self.move()
        elif deed == 4:
            self.run("broker " + self.numbers.of(("balance b ann", "balance b bob", "balance b cid", "list b", "list b", "status b")))
        elif deed < 7:
            self.stock()
        elif deed == 7:
            self.license()
        elif deed == 8:
            self.crash()
        else:
            self.serve()


def spelled(words):
    return bytes_of(words, NAMES)


def desks():
    out = Cases("A broker's commands one after another over one book: accounts, deposits and withdrawals with references that stand,\n"
                "licences, stock, servings and crashes. The customers pay with what they got.")
    numbers = Numbers(1996)
    for round in range(90):
        desk = Desk(numbers)
        desk.found()
        desk.run("broker account b ann " + key_word("ann"))
        desk.run("broker deposit b ann 3000 first")
        if numbers.below(3):
            desk.run("broker account b bob " + key_word("bob"))
        for start in (desk.license, desk.stock, desk.stock)[:numbers.below(4)]:
            start()
        for _ in range(numbers.between(4, 14)):
            desk.step()
        out.case("broker's orders %d" % round, *desk.lines, "run broker balance b ann", "run broker list b", "run broker status b",
                 "lawful", "replay")
    for count in (255, 256, 257):
        lines = [piece_line(STOCKED, "shop.example", 1 + serial % 3, STOCKED.identity(NOW, serial)) for serial in range(count)]
        out.case("stock of %d lines" % count, "book $f_rich", "clock 1000000", "link " + " ".join(lines),
                 "run broker stock b shop.example", "link " + head("/buy/shop.example/2", own_piece(3, 90)), "run broker serve b l:80 1")
        out.case("stock of %d lines, and one that is none" % count, "book $f_rich", "clock 1000000",
                 "link " + "+".join(lines) + '+"x"', "run broker stock b shop.example")
    out.write("desks")


def main():
    faults()
    desks()
