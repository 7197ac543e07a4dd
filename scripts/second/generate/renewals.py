"""Writes `crates/cases/data/generated_renewals.cases`: what wallets tell of many pieces, renewals one after another, and calls that
fail."""
import io

from cases import Runner
from forms import id_of
from generate import NAMES, NOW, Cases, Numbers
from generate.markets import ONE, PERIOD, House, news, terms
from payloads import TERMS

CHOICES = (0, 1, 7)
KEY = "5" * 32


def line(text, key=KEY):
    """The line of a piece, as it is spelled."""
    return '"%s %s\\n"' % (text.decode(), key)


def piece(serial, value, epoch=NOW // PERIOD, under=ONE, props=b"", cust=None):
    ident = id_of(under.issuer, epoch, serial)
    return under.scrip_text(b"news.example", value, ident, ident if cust is None else cust, props)


def many(out):
    """Wallets with more pieces than are told at once."""
    out.group("Wallets of many pieces: 256, 257, and some that are not told between them.")
    for count, others in ((255, 0), (256, 0), (257, 0), (257, 3), (300, 40)):
        told = [line(piece(serial, 1 + serial % 5)) for serial in range(count)]
        for n in range(others):
            told.insert(7 * n, line(piece(1000 + n, 9, props=b"a=1") if n % 2 else piece(1000 + n, 9, cust=7)))
        takes = [told[at:at + 200] for at in range(0, len(told), 200)]
        out.case("%d pieces that are told, and %d that are not" % (count, others), "clock %d" % NOW, "run wallet init w w", *(
            one for some in takes for one in ("link " + " ".join(some), "run wallet take w")), "run wallet lines w news.example",
            "save rn_told said", "book $wallet_book", "link $rn_told", "run wallet take w", "book $broker_book",
            "link $rn_told", "run broker stock b news.example")


def site():
    """A vendor that sells a page for 1, whose book is written."""
    house = news()
    house.goods(b"/renew", 1)
    return house


def names(out):
    out.let("rn_site", site().spelled())
    right = piece(0, 100)
    key = ONE.secret(id_of(1, NOW // PERIOD, 0)).hex()
    out.let("rn_line", line(right, key))


def told(runner, out, lines):
    """Does lines; answers what the last of them printed."""
    at = 0
    for one in lines:
        at = len(out.getvalue())
        runner.line(one)
    return out.getvalue()[at:].decode()


def faults(out):
    out.group("Each call of the disk fails in turn while a wallet renews a piece, and then the disk crashes and it is tried again;\n"
              "and each call of the link.")
    names(out)
    words = "run wallet renew w news.example /renew 1011712 c:80"
    begin, told_lines = ["clock 1003520", "book $rn_book"], "run wallet lines w news.example"
    out.case("a renewal, its request and its reply", "clock 1003520", "book $wallet_book", "link $rn_line", "run wallet take w",
             "save rn_book book", "link", words, "save rn_asked sent 0", "book $rn_site", "link $rn_asked", "run vendor serve b l:80 1",
             "save rn_reply sent 0", "book $rn_book", "link $rn_reply", words)
    again = ["link $rn_reply", "run wallet retry w news.example c:80", "link $rn_reply", words, "run wallet list w", "wallet"]
    for call in range(11):
        for choice in CHOICES:
            out.case("renew: disk call %d, crash %d" % (call, choice), *begin, "link $rn_reply", "fail disk %d" % call, words,
                     "crash %d" % choice, "replay", *again)
    for call in range(6):
        out.case("renew: link call %d" % call, *begin, "link $rn_reply", "fail link %d" % call, words, *again)
    for call in range(3):
        out.case("lines: disk call %d" % call, *begin, "fail disk %d" % call, told_lines, told_lines)
    numbers = Numbers(23)
    for round in range(40):
        out.case("renew, %d" % round, *begin, "link $rn_reply", "fail disk " + numbers.listed(13), "fail link " + numbers.listed(9), words,
                 "crash %d" % numbers.of((0, 1, 2, 7, 128, 12345)), *again)


def held(numbers, serial):
    """The line of a piece of one of three epochs."""
    epoch = NOW // PERIOD + numbers.of((-1, 0, 0, 1))
    return line(piece(serial, numbers.of((1, 24, 25, 60, 100)), epoch), ONE.secret(id_of(1, epoch, serial)).hex())


def renewals(out):
    """Wallets that renew one piece after another."""
    out.group("Wallets of some pieces renew one after another while time goes on; some replies are lost, and their requests sent\n"
              "again.")
    numbers = Numbers(24)
    for round in range(30):
        lines, printed = [], io.BytesIO()
        runner = Runner(printed, NAMES)

        def do(*more):
            lines.extend(more)
            return told(runner, printed, more)
        house = House(b"news.example", 0, terms(0, 0x11, 0x22, *numbers.of(((4096, 8192), (4096, 0), (16384, 2048)))))
        house.enter(TERMS, terms=ONE)
        house.goods(b"/renew", numbers.of((1, 1, 2, 30)))
        out.let("rn_site", house.spelled())
        spelled = [held(numbers, serial) for serial in range(numbers.between(1, 5))]
        time = NOW
        do("clock %d" % time, "book $wallet_book", "link " + "+".join(spelled), "run wallet take w", "save rn_book book",
           "book $rn_site", "save rn_vendor book")
        for _ in range(numbers.between(2, 6)):
            time += numbers.of((0, 0, 1, 4096, 8192))
            words = "run wallet renew w news.example /renew %d c:80" % numbers.of((time, time + 4096, time + 8192, 2**35 - 1))
            if not do("clock %d" % time, "book $rn_book", "link", words).startswith('run 7\nsaid "refused 64'):
                continue
            do("save rn_kept book", "save rn_asked sent 0", "book $rn_vendor", "link $rn_asked", "run vendor serve b l:80 1",
               "save rn_vendor book", "save rn_reply sent 0")
            if numbers.below(3):
                do("book $rn_book", "link $rn_reply", words, "save rn_book book")
            else:
                do("book $rn_kept", words, "link $rn_reply", "run wallet retry w news.example c:80", "save rn_book book")
        do("book $rn_book", "run wallet list w", "run wallet lines w news.example", "wallet", "book $rn_vendor", "lawful")
        out.case("renewals %d" % round, *lines)


def all_renewals():
    out = Cases("What wallets tell of many pieces for a broker, and pieces that are renewed one after another, also while calls fail.")
    for part in (many, faults, renewals):
        part(out)
    out.write("renewals")


def main():
    all_renewals()
