"""Writes `crates/cases/data/generated_payments.cases` and `generated_towns.cases`: a wallet's commands while calls fail, replies
that are cut, and wallets that draw, buy and pay while links lose and repeat."""
import io

from cases import Runner
from forms import read_scrip
from generate import CHOICES, NAMES, NOW, Cases, Numbers, length
from journal import Replay
from stage import Stage
from wallet import WalletBook

KEY = "$fives"
LINES = '$p1+" "+$fives+"\\n"+$exact+" "+$fours+"\\n"'


def names(out):
    """The books and replies that the faults begin with. They come from runs of the program itself."""
    line = '$p1+" 0a3add5b23056f2ef910dbd51d6a69ff\\n"'
    runner = Runner(io.BytesIO(), NAMES)
    lines = ["book $wallet_book", "clock 1000000", "link " + line, "run wallet take b", "save g_holds book"]
    lines += serving("g_holds", "wallet get b news.example /news/1 25 c:80", "shop", "vendor", "g_asks", "g_reply")
    lines += ["clock 1000600", "link $g_asked", "run vendor serve b l:80 1", "save g_spent sent 0", "clock 1000000"]
    lines += ['book ""', "run broker init b bank 4096 8192 $ones $twos 1", "run broker account b ann " + KEY,
              "run broker deposit b ann 1000 r1", 'link "licence news.example 1 4096 8192 "+$threes+" "+$fours+"\\n"',
              "run broker licence b", "save g_bank book"]
    lines += serving("wallet_book", "wallet draw b bank ann %s 1 300 c:80" % KEY, "g_bank", "broker", "g_drawing", "g_drawn", "g_bank")
    lines += ["book $wallet_book", "link $g_drawn", "run wallet draw b bank ann %s 1 300 c:80" % KEY, "save g_rich book"]
    lines += serving("g_rich", "wallet buy b bank news.example 100 101 c:80", "g_bank", "broker", "g_buying", "g_bought")
    out.case("the books and the replies that follow", *lines)
    for text in lines:
        runner.line(text)


def serving(wallet, words, site, role, asking, reply, served="g_served"):
    """A wallet asks, and a site answers: what the wallet's book then is, and the reply, get names."""
    return ["book $" + wallet, "clock 1000000", "link", "run " + words, "save %s book" % asking, "save g_asked sent 0",
            "book $" + site, "link $g_asked", "run %s serve b l:80 1" % role, "save %s sent 0" % reply, "save %s book" % served]


GET, BUY, DRAW = ("run wallet get b news.example /news/1 25 c:80", "run wallet buy b bank news.example 100 101 c:80",
                  "run wallet draw b bank ann %s 1 300 c:80" % KEY)
NEWS, BANK = "run wallet retry b news.example c:80", "run wallet retry b bank c:80"
# Each command with its book, what its link brings, its words, how many calls of the disk and of links it makes, and what is given
# then: a link and words.
ORDERS = [
    ("init", "", None, "run wallet init b w", 10, 1, None, "run wallet init b w"),
    ("take", "$wallet_book", "$line_pieces[:100] $line_pieces[100:]", "run wallet take b", 6, 5, "$line_pieces", "run wallet take b"),
    ("get", "$g_holds", "$g_reply[:300] $g_reply[300:]", GET, 10, 5, "$g_reply", NEWS),
    ("get, refused", "$g_holds", "$g_spent", GET, 10, 4, "$g_reply", NEWS),
    ("get, not proved", "$g_holds", '$g_reply[:300]+"x"+$g_reply[301:]', GET, 6, 4, "$g_reply", NEWS),
    ("get, nobody there", "$g_holds", None, GET, 6, 2, "$g_reply", NEWS),
    ("get, no funds", "$wallet_book", None, GET, 2, 1, "$g_reply", NEWS),
    ("buy", "$g_rich", "$g_bought", BUY, 10, 4, "$g_bought", BANK),
    ("draw", "$wallet_book", "$g_drawn", DRAW, 10, 4, "$g_drawn", BANK),
    ("retry", "$g_asks", "$g_reply", NEWS, 6, 4, "$g_reply", NEWS),
    ("retry, nothing kept", "$g_holds", "$g_reply", NEWS, 2, 1, "$g_reply", GET),
    ("list", "$g_asks", None, "run wallet list b", 2, 1, "$g_reply", NEWS),
]


def links(spelled):
    return [] if spelled is None else ["link " + spelled]


def payments():
    out = Cases("Each call of the disk fails in turn, for each of a wallet's commands, and then the disk crashes and what was begun\n"
                "is tried again; and each call of the links.")
    out.let("line_pieces", LINES)
    names(out)
    for name, book, brought, words, disk, link, again, then in ORDERS:
        before = ["book " + book] if book else []
        after = [*links(again), then, "run wallet list b", "wallet"]
        out.group("%s: disk calls." % name)
        for call in range(disk + 1):
            for choice in CHOICES:
                out.case("wallet %s: disk call %d, crash %d" % (name, call, choice), *before, *links(brought), "clock 1000000",
                         "fail disk %d" % call, words, "crash %d" % choice, *after)
        out.group("%s: link calls." % name)
        for call in range(link + 1):
            out.case("wallet %s: link call %d" % (name, call), *before, *links(brought), "clock 1000000", "fail link %d" % call,
                     words, *after)
    out.group("Several calls fail, of the disk and of the links.")
    numbers = Numbers(21)
    for round in range(60):
        name, book, brought, words, disk, link, again, then = numbers.of(ORDERS)

        def listed(most):
            return " ".join(str(n) for n in sorted({numbers.below(most) for _ in range(3)}))
        out.case("wallet %s, %d" % (name, round), *(["book " + book] if book else []), *links(brought), *links(brought),
                 "clock 1000000 1000900", "fail disk " + listed(disk + 3), "fail link " + listed(link + 3), words,
                 "crash %d" % numbers.of((0, 1, 2, 3, 7, 64, 128, 255, 256, 12345)), *links(again), then, "run wallet list b", "wallet")
    out.group("How many lines of pieces are taken at once.")
    for count in (255, 256, 257):
        lines = "+".join('"MS1|news.example|%d|%016x|%016x|1011712||"+$zeros+" "+$fives+"\\n"' % (1 + n % 3, n, n) for n in range(count))
        out.let("many_lines", lines)
        out.case("%d lines" % count, "book $wallet_book", "clock 1000000", "link $many_lines", "run wallet take b", "run wallet list b",
                 "run wallet get b news.example / 2 c:80")
        out.case("%d lines, and one that is none" % count, "book $wallet_book", "clock 1000000", 'link $many_lines+"x"', "run wallet take b")
    out.case("lines up to the most that is read", "book $wallet_book", "clock 1000000", 'link "x"*131072', "run wallet take b",
             'link "x"*131073', "run wallet take b", 'link $line_pieces+"x"*131000', "run wallet take b",
             'link $many_lines*4', "run wallet take b")
    cut_replies(out)
    out.write("payments")


def cut_replies(out):
    out.group("A reply to a wallet is cut at every byte of a page's, and here and there of others, and then it comes whole.")
    for name, book, reply, words, then, step in (
            ("get", "$g_holds", "g_reply", GET, NEWS, 1), ("buy", "$g_rich", "g_bought", BUY, BANK, 9),
            ("draw", "$wallet_book", "g_drawn", DRAW, BANK, 9), ("refused", "$g_holds", "g_spent", GET, NEWS, 13)):
        for at in range(0, length("$" + reply), step):
            out.case("%s, the reply is cut at %d" % (name, at), "book " + book, "clock 1000000", "link $%s[:%d]" % (reply, at), words,
                     "link $" + reply, then)
        out.case("%s, afterwards" % name, "book " + book, "clock 1000000", "link $%s" % reply, words, "run wallet list b", then)


class Town:
    """A wallet, a bank and two vendors, whose books have names. The second program runs each line, and tells what came."""

    def __init__(self, numbers, kind):
        self.numbers, self.time, self.order, self.lines = numbers, NOW, 0, []
        self.runner = Runner(io.BytesIO(), dict(NAMES))
        # The names of all requests and replies; those of the last six are good.
        self.asked, self.replies = [], []
        self.line("let t_w $wallet_book")
        for name in ("bank", "news", "press"):
            self.line("let t_%s $%s_%s" % (name, kind, name))

    def line(self, text):
        self.lines.append(text)
        self.runner.line(text)

    def run(self, book, words, link=None, fault=None, crash=None):
        """Runs words over a book, and keeps it; what was said."""
        self.line("book $t_" + book)
        for text in links(link):
            self.line(text)
        self.line("clock %d" % self.time)
        for text in ([] if fault is None else [fault]):
            self.line(text)
        self.line("run " + words)
        stage = self.runner.setting.last
        if crash is not None:
            self.line("crash %d" % crash)
        else:
            self.sent_on(stage, book)
        self.line("save t_%s book" % book)
        return stage.said

    def sent_on(self, stage, book):
        """Names what was sent: a request of the wallet, or a reply of a site."""
        if not stage.sent or not stage.sent[0]:
            return
        kept, front = (self.asked, "t_asked") if book == "w" else (self.replies, "t_reply")
        kept.append("%s%d" % (front, len(kept) % 6))
        self.line("save %s sent 0" % kept[-1])

    # What happens.

    def wallet(self):
        return WalletBook(entries_of(self.runner.names["t_w"]))

    def ask(self):
        """The words of a payment, mostly of one that can be made."""
        numbers = self.numbers
        held = [read_scrip(text).vendor.decode() for state, text, _ in self.wallet().holdings() if state == "held"]
        peer = numbers.of([*held, *held, "bank", "news.example", "press.example"]) if numbers.below(4) else ""
        if not peer or not held:
            self.order += numbers.of((1, 1, 1, 1, 1, 0))
            return "wallet draw b bank ann %s %d %d c:80" % (KEY, max(1, self.order), numbers.of((60, 300, 300, 1000)))
        if peer == "bank":
            amount = numbers.of((50, 50, 50, 30, 7))
            return "wallet buy b bank %s.example %d %d c:80" % (numbers.of(("news", "press")), amount, amount + numbers.of((0, 7, 7)))
        return "wallet get b %s /%d %d c:80" % (peer, numbers.of((1, 1, 1, 1, 2)), numbers.of((1, 25, 25, 50)))

    def host(self, asked):
        return self.runner.names[asked].split(b"Host: ")[1].split(b"\r\n")[0].decode()

    def retry(self, peer=None):
        peers = [request.peer.decode() for _, request in self.wallet().kept()]
        return "wallet retry b %s c:80" % (peer or self.numbers.of([*peers, *peers, "bank", "news.example"]))

    def answer(self, asked):
        """Delivers a request to the site that it is for; the name of the reply."""
        site = self.host(asked).split(".")[0]
        self.run(site, ("broker" if site == "bank" else "vendor") + " serve b l:80 1", "$" + asked)
        return self.replies[-1]

    def old(self):
        """What the link of a payment brings: nobody is there, nothing, or some reply that came, whole, cut or changed."""
        numbers, how = self.numbers, self.numbers.below(9)
        if how < 2 or not self.replies:
            return (None, "")[how % 2]
        name = numbers.of(self.replies[-6:])
        size = len(self.runner.names[name])
        if how < 4:
            return "$%s[:%d]" % (name, numbers.below(size))
        if how == 4:
            at = numbers.below(size)
            return '$%s[:%d]+"%s"+$%s[%d:]' % (name, at, numbers.of("0x"), name, at + 1)
        return "$" + name

    def pay(self):
        """A payment, whose request is lost, or the site's reply, or none of them; calls of the wallet may fail at the reply."""
        numbers, before = self.numbers, len(self.asked)
        self.run("w", self.ask(), "")
        if len(self.asked) == before or numbers.below(8) == 0:
            return
        asked = self.asked[-1]
        reply = self.answer(asked)
        how, words = numbers.below(10), self.retry(self.host(asked))
        if how == 0:
            return
        if how == 1:
            self.run("w", words, "$%s[:%d]" % (reply, numbers.below(len(self.runner.names[reply]))))
        elif how == 2:
            self.run("w", words, "$" + reply, "fail disk %d" % numbers.below(7), numbers.of((0, 1, 2, 128)))
        elif how == 3:
            self.run("w", words, "$" + reply, "fail link %d" % numbers.below(4))
        if how > 3 or numbers.below(2):
            self.run("w", words, "$" + reply)

    def step(self):
        numbers = self.numbers
        self.time += numbers.of((0, 0, 0, 0, 1, 59, 600, 4096))
        deed = numbers.below(12)
        if deed < 7:
            self.pay()
        elif deed == 7:
            self.run("w", self.ask(), self.old())
        elif deed == 8:
            self.run("w", self.retry(), self.old())
        elif deed == 9 and self.asked:
            self.answer(numbers.of(self.asked[-6:]))
        elif deed == 10:
            self.run("w", self.ask(), self.old(), "fail disk %d" % numbers.below(7), numbers.of((0, 1, 2, 128)))
        else:
            self.run("w", self.retry(), self.old(), numbers.of((None, "fail link %d" % numbers.below(3))))

    def end(self):
        """What is held, and whether the books add up."""
        self.line("book $t_w")
        self.line("run wallet list b")
        self.line("wallet")
        for name in ("news", "bank", "press"):
            self.line("beside $t_" + name)
        self.line("run audit report n b p" + self.numbers.of(("", " --json")))


def entries_of(book):
    replay = Replay(Stage(book))
    return [entry for _, entry in iter(replay.next, None)]


def found(runner, kind, fee, clear, amount):
    """The lines that found the sites of a town, whose books get names."""
    lines = ['book ""', "clock 1000000", "run broker init b bank 4096 8192 $ones $twos %d%s" % (fee, clear),
             "run broker account b ann " + KEY, "run broker deposit b ann %d r1" % amount, "save %s_bank book" % kind]
    for name, secrets in (("news", "$threes $fours"), ("press", "$twos $ones")):
        lines += ['book ""', "run vendor init b %s.example 4096 8192 %s%s" % (name, secrets, clear), 'link "A page of %s.\\n"' % name,
                  "run vendor goods b /1 25 --kind 1"]
        lines += ["run vendor licence b 1 4096 8192 $fives $zeros"] if name == "news" else ["run vendor mint b 5 50 m1"]
        lines += ["save %s_line said" % kind, "save %s_%s book" % (kind, name), "book $%s_bank" % kind, "link $%s_line" % kind,
                  "run broker licence b" if name == "news" else "run broker stock b press.example", "save %s_bank book" % kind]
    for line in lines:
        runner.line(line)
    return lines


def towns():
    out = Cases("Wallets that draw, buy, pay and try again, while replies are lost, cut, changed and given to other requests, calls fail and\n"
                "disks crash. In the end the auditor adds up the books of the bank and of the vendors.")
    numbers, runner, kinds = Numbers(22), Runner(io.BytesIO(), NAMES), ("t0", "t1", "t2")
    for kind, values in zip(kinds, ((1, " --clear", 3000), (0, "", 1000), (7, "", 2**40))):
        out.case("the sites of a town, %s" % kind, *found(runner, kind, *values))
    for round in range(40):
        town = Town(numbers, numbers.of(kinds))
        for _ in range(numbers.between(8, 15)):
            town.step()
        town.end()
        out.case("town %d" % round, *town.lines)
    out.write("towns")


def main():
    payments()
    towns()
