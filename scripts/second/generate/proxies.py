"""Writes `crates/cases/data/generated_proxy.cases`: wallets that pay for what a browser asks, while calls of either side fail, and
replies of the vendor are lost, cut, changed and given to others."""
from bytes_text import bytes_of, shown
from forms import id_of
from generate import NAMES, NOW, PERIOD, Cases, Numbers, length, with_byte
from generate.markets import ONE, news
from house import House
from journal import Replay
from ledger import FULL
from payloads import DONE, GOT, PEND, SITE, entry_of
from program import run_proxy
from stage import LinkFault, Stage
from wallet import WALLET, Request

CHOICES = (0, 1, 7)
PROXY = "proxy wallet proxy b news.example %d %d l:80 c:80 %d"
ONCE = PROXY % (25, 100, 1)


class Vendor(Stage):
    """The links to a vendor, each of which brings what `answer` makes of what was sent on it. What they brought is kept."""

    def __init__(self, answer, failing=(), most=100):
        super().__init__(failing_link=failing)
        self.answer, self.most, self.brought = answer, most, []

    def next_link(self):
        self.standing = None
        self.count("link", LinkFault)
        if len(self.sent) == self.most:
            return False
        self.sent.append(b"")
        self.brought.append([])
        self.standing = []
        return True

    def send(self, data):
        size = super().send(data)
        self.brought[-1] = self.answer(self.sent[-1])
        self.standing = [piece for piece in self.brought[-1] if piece]
        return size


def served(history, request, time):
    """The reply of a vendor of this history to the bytes of a request."""
    stage = Stage(links=[[request]], readings=[time])
    House(history, stage, FULL, None).serve(1)
    return stage.sent[0]


def book_of(*entries):
    """The book of these entries, as it is spelled."""
    return "+".join(["$front", *("x01%08x+x%s" % (len(entry.payload), entry.payload.hex()) for entry in entries), "$shut"])


def piece(serial, value):
    """A piece of the vendor, with its secret."""
    ident = id_of(1, NOW // PERIOD, serial)
    return ONE.scrip_text(b"news.example", value, ident, ident, b""), ONE.secret(ident)


def holding(*pieces):
    """The book of a wallet that has these pieces, as it is spelled."""
    return book_of(entry_of(SITE, NOW, site=WALLET, name=b"w", house=None), entry_of(GOT, NOW, pieces=list(pieces)))


def head(target):
    return '"GET %s HTTP/1.1\\r\\nHost: x\\r\\n\\r\\n"' % target


HEADS = {"y_get": head("/news/1"), "y_get2": head("/news/2"), "y_none": head("/none"),
         "y_last": '"GET /news/1 HTTP/1.0\\r\\n\\r\\n"', "y_post": '"POST /news/1 HTTP/1.1\\r\\nHost: x\\r\\n\\r\\n"',
         "y_scrip": '"GET /news/1 HTTP/1.1\\r\\nHost: x\\r\\nMillicent-Scrip: x\\r\\n\\r\\n"'}
# What many replies have, in place of which their names stand.
PARTS = {"y_ok": '"HTTP/1.1 200 OK\\r\\nDate: Mon, 12 Jan 1970 "',
         "y_type": '" GMT\\r\\nCache-Control: no-store\\r\\nContent-Type: text/plain; charset=utf-8\\r\\n"',
         "y_price": '"Content-Length: 2\\r\\nMillicent-Price: "',
         "y_change": '"\\r\\nMillicent-Change: MS1|news.example|"', "y_sign": '"\\r\\nMillicent-Sign: "', "y_end": '"\\r\\n\\r\\nhi"',
         "y_date": '" GMT\\r\\nCache-Control: no-store\\r\\nContent-Length: 0\\r\\nMillicent-Refusal: "',
         "y_nothing": '"\\r\\nMillicent-Price: -\\r\\nMillicent-Change: -\\r\\nMillicent-Sign: "'}


def spelled(data):
    """Bytes as lines of cases spell them, with the names of the parts that they have."""
    for name in PARTS:
        front, part, behind = data.partition(NAMES[name])
        if part:
            return "+".join(word for word in (spelled(front), "$" + name, spelled(behind)) if word != '""')
    return shown(data)


def names(out):
    """The book of a wallet that has a piece of 100, and the replies of a vendor to it: to two requests for a page, each for 25,
    and to one for what is not there."""
    for name, word in {**HEADS, **PARTS}.items():
        out.let(name, word)
    out.let("y_holds", holding(piece(0, 100)))
    first, stage = news().history, Stage(NAMES["y_holds"], links=[[NAMES["y_get"] * 2]], readings=[NOW])
    up = Vendor(lambda request: [served(first, request, NOW)])
    assert run_proxy(ONCE.encode().split()[1:], stage, up) == 0 and stage.said == b"proxied 1 50\n"
    out.let("y_reply1", spelled(up.brought[0][0]))
    out.let("y_reply2", spelled(up.brought[1][0]))
    text, secret = piece(0, 100)
    asked = Request(0, b"news.example", b"/none", text, secret)
    out.let("y_reply30", spelled(served(news().history, asked.sent(), NOW)))
    pend = entry_of(PEND, NOW, ask=0, peer=b"news.example", target=b"/news/1", scrip=text, secret=secret)
    out.let("y_asks", "$y_holds[:%d]+x01%08x+x%s+$shut" % (length("$y_holds") - 1, len(pend.payload), pend.payload.hex()))


def replies(*names_of):
    return ["upstream $" + name if name else "upstream" for name in names_of]


# What is served while calls fail: a book, the browser's links, those to the vendor, and how many calls of the disk there are.
RUNS = [
    ("two pages", "y_holds", ["$y_get*2"], ("y_reply1", "y_reply2"), 18),
    ("a refusal", "y_holds", ["$y_none"], ("y_reply30",), 10),
    ("a kept page", "y_asks", ["$y_get"], ("y_reply1",), 6),
]


def faults(out):
    out.group("Each call of the disk fails in turn, and then the disk crashes, and the page is asked for again.")
    again = ["link $y_get*2", *replies("y_reply1", "y_reply2"), ONCE, "run wallet list b"]
    for name, book, links, brought, calls in RUNS:
        for call in range(calls + 1):
            for choice in CHOICES:
                out.case("%s: disk call %d, crash %d" % (name, call, choice), "clock 1000000", "book $" + book,
                         *("link " + link for link in links), *replies(*brought), "fail disk %d" % call, ONCE, "crash %d" % choice,
                         *again)
    out.group("Each call of the browser's links fails, on two links; and then the page is asked for again.")
    for call in range(15):
        out.case("link call %d" % call, "clock 1000000", "book $y_holds", "link $y_get*2", "link $y_none+$y_get2",
                 *replies("y_reply1", "y_reply2", "y_reply30"), "fail link %d" % call, PROXY % (25, 100, 2), *again)
    out.group("Each call of the links to the vendor fails, and each two of them, while a page is asked for three times.")
    pairs = [(call,) for call in range(10)] + [(one, two) for one in range(6) for two in range(one + 1, 9)]
    for calls in pairs:
        history, listed = news().history, " ".join(map(str, calls))
        up = Vendor(lambda request: [served(history, request, NOW)], calls)
        run_proxy(ONCE.encode().split()[1:], Stage(NAMES["y_holds"], [[NAMES["y_get"] * 3]], [NOW]), up)
        out.case("calls of the vendor's links: " + listed, "clock 1000000", "book $y_holds", "link $y_get*3",
                 *("upstream " + spelled(b"".join(pieces)) for pieces in up.brought), "fail up " + listed, ONCE,
                 "run wallet list b")


def cut(out):
    out.group("A page is kept, and the reply to it, or the refusal of another one, is cut, or one byte of it is another one.")

    def asked(name, links):
        out.case(name, "clock 1000000", *(
            line for link in links for line in ("book $y_asks", "link $y_get", "upstream " + link, ONCE)))
    for reply, step in (("y_reply1", 3), ("y_reply30", 9)):
        for start in range(0, length("$" + reply), 60):
            places = range(start, min(start + 60, length("$" + reply)), step)
            asked("%s is cut at %d to %d" % (reply, places[0], places[-1]), ["$%s[:%d]" % (reply, at) for at in places])
    for start in range(0, length("$y_reply1"), 60):
        places = range(start, min(start + 60, length("$y_reply1")), 4)
        asked("bytes %d to %d are others" % (places[0], places[-1]), [
            with_byte("y_reply1", at, (NAMES["y_reply1"][at] + 1) % 256) for at in places])
    bytes_of_it = " ".join("$y_reply1[%d:%d]" % (at, at + 1) for at in range(length("$y_reply1")))
    out.case("the reply comes byte by byte", "clock 1000000", "book $y_asks", "link $y_get", "upstream " + bytes_of_it, ONCE)
    out.case("a call fails while the reply comes byte by byte", "clock 1000000", "book $y_asks", "link $y_get*2",
             "upstream " + bytes_of_it, "upstream $y_reply1", "fail up 200", ONCE)


class World:
    """A wallet, a vendor, and what happens between them; the second program serves, and the lines tell the same again."""

    def __init__(self, numbers):
        self.numbers, self.time, self.old = numbers, NOW, []
        pieces = [piece(serial, numbers.of((1, 24, 25, 25, 26, 60, 100))) for serial in range(numbers.between(1, 5))]
        self.vendor = news()
        self.vendor.goods(b"/news/2", numbers.of((1, 8, 25, 61)))
        self.lines = ["book " + holding(*pieces)]
        self.book = bytes_of(holding(*pieces), NAMES)

    def answer(self, request):
        """What the vendor's link brings: mostly his reply; else nothing, a part of it, an older one, a forged one, or
        bytes behind it."""
        reply, how = served(self.vendor.history, request, self.time), self.numbers.below(14)
        self.old.append(reply)
        if how == 0:
            return []
        if how == 1:
            return [reply[:self.numbers.below(len(reply))]]
        if how == 2:
            return [self.numbers.of(self.old)]
        if how == 3:
            return [reply.replace(b"Price: 25", b"Price: 24")]
        if how == 4:
            return [reply + b"more"]
        at = self.numbers.below(len(reply))
        return [reply[:at], reply[at:]] if how == 5 else [reply]

    def link(self):
        """The heads of a link of the browser."""
        names_of = [self.numbers.of(("y_get", "y_get", "y_get2", "y_none", self.numbers.of(list(HEADS))))
                    for _ in range(self.numbers.below(5))]
        return "+".join("$" + name for name in names_of) or '""'

    def failing(self, most, one_in):
        """The numbers of calls that fail."""
        return [call for call in range(most) if self.numbers.below(one_in) == 0]

    def serve(self):
        """One run of the program."""
        numbers = self.numbers
        self.time += numbers.of((0, 0, 0, 0, 1, 599, 700, 12000))
        budget, limit = numbers.of((1, 24, 25, 60, 100, 100, 200, 1000, 1000)), numbers.of((1, 25, 25, 60))
        links = [self.link() for _ in range(numbers.between(1, 3))]
        failing = {"up": self.failing(24, 12)}
        if numbers.below(4) == 0:
            failing["link"] = self.failing(16, 10)
        if numbers.below(4) == 0:
            failing["disk"] = self.failing(30, 15)
        words = PROXY % (limit, budget, numbers.of((len(links), len(links), len(links) + 1, 1)))
        stage = Stage(self.book, [[bytes_of(link, NAMES)] for link in links], [self.time], failing.get("disk", ()),
                      failing.get("link", ()))
        up = Vendor(self.answer, failing["up"], numbers.of((100, 100, 100, 2)))
        run_proxy(words.encode().split()[1:], stage, up)
        self.lines += ["clock %d" % self.time, *("link " + link for link in links),
                       *("upstream " + " ".join(spelled(piece) for piece in pieces) for pieces in up.brought),
                       *("fail %s %s" % (what, " ".join(map(str, calls))) for what, calls in failing.items() if calls), words]
        choice = numbers.of(CHOICES)
        crashes = "disk" in failing
        if crashes:
            self.lines.append("crash %d" % choice)
        self.is_kept_to(budget, stage, up, crashes)
        self.book = stage.crashed(choice) if crashes else bytes(stage.contents)

    def is_kept_to(self, budget, stage, up, crashes):
        """Sees that no more was paid than may be, as the book has it, and that each request that was sent whole stands there."""
        before, after = entries_of(self.book), entries_of(bytes(stage.contents))
        paid = sum(entry.price for entry in after[len(before):] if entry.kind == DONE)
        assert paid <= budget and (crashes or stage.said in (b"link fault\n", b"") or stage.said.split()[2] == b"%d" % paid)
        asked = {Request(e.ask, e.peer, e.target, e.scrip, e.secret).sent() for e in after if e.kind == PEND}
        assert all(sent in asked or not sent for sent in up.sent)


def entries_of(book):
    """The entries of a book, up to where it is torn."""
    replay, entries = Replay(Stage(book)), []
    while read := replay.next():
        entries.append(read[1])
    return entries


def worlds(out):
    out.group("A wallet of some pieces pays for what a browser asks in some runs on its book, while replies of the vendor are\n"
              "lost, cut, given to other requests and changed, calls fail, and time goes on.")
    numbers = Numbers(25)
    for round in range(240):
        world = World(numbers)
        for _ in range(numbers.between(1, 3)):
            world.serve()
        out.case("world %d" % round, *world.lines, "run wallet list b")


def all_proxies():
    out = Cases("Wallets that pay for what a browser asks, while calls of either side fail, and replies are lost and changed.")
    for part in (names, faults, cut, worlds):
        part(out)
    out.write("proxy")


def main():
    all_proxies()
