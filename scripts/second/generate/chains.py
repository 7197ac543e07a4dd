"""Writes `crates/cases/data/generated_chains.cases`: books with a chain, cut and changed at each byte, with calls that fail, and given to
every command."""
import io

from cases import Runner
from generate import NAMES, Cases, cut, desks, payments, raised
from journal import Chain, Replay
from payloads import SWITCH, entry_of
from stage import Stage

CHOICES = (0, 1, 7)
# So often is the disk read more where a Switch stands: what is before it, for its chain, and then what is behind its gate anew.
READ_AGAIN = 2
# The roles whose command switches a chain on, each with a book, and what comes behind the Switch.
OPERATORS = [("vendor", "$shop", ["link $pays", "run vendor serve b l:80 1"]),
             ("broker", "$f_rich", ["link $f_draw", "run broker serve b l:80 1"]),
             ("wallet", "$wallet_book", ["link $line_pieces", "run wallet take b"])]


def earlier_names():
    """The names that other files give, which stand before this one."""
    before = Cases("")
    desks.names(before)
    before.let("line_pieces", payments.LINES)
    payments.names(before)


def switched(out, name):
    """Gives the book of a name with a Switch as its last entry the name that `s_` begins; how it is spelled."""
    book = NAMES[name]
    replay, chain, time = Replay(Stage(book)), Chain(), 0
    while read := replay.next():
        chain.push(read[1].payload)
        time = max(time, read[1].moment)
    payload = entry_of(SWITCH, time, chain=chain.digest).payload
    out.let("s_" + name, "$%s[:%d]+x01%08x+x%s+$shut" % (name, replay.at, len(payload), payload.hex()))
    return "$s_" + name


def grown(out, name, lines):
    """Gives what lines leave of a book a name; a case has the lines."""
    runner = Runner(io.BytesIO(), NAMES)
    lines = [*lines, "save %s book" % name]
    for line in lines:
        runner.line(line)
    out.case("the book %s" % name, *lines)


def each_byte(out):
    """Books with a chain, whose every byte is raised, and that are cut everywhere."""
    out.group("A wallet's book with a chain: each byte raised by one, and cut at every place.")
    for at, spelled in enumerate(raised("h_wallet")):
        out.case("byte %d of the wallet" % at, "book " + spelled, "replay", "run wallet list b")
    out.case("the wallet, cut at every place", *(line for one in cut("h_wallet") for line in ("book " + one, "replay")))
    out.group("A vendor's and a broker's: each byte raised by one, and cut.")
    for name, verb in (("h_vendor", "serve 0"), ("h_broker", "desk 0")):
        out.case("%s, each byte raised" % name, *(line for one in raised(name) for line in ("book " + one, verb)))
        out.case("%s, cut at every place" % name, *(line for one in cut(name) for line in ("book " + one, verb)))


def switching(out):
    """Each call of the disk fails while a book is switched, and while the first entry behind the Switch is written."""
    out.group("Each call of the disk fails while a book is switched, and then the disk crashes and it is switched again.")
    for book, verb, serve in (("$shop", "switch", "serve"), ("$f_market", "switched", "desk")):
        for call in range(8):
            for choice in CHOICES:
                out.case("%s: disk call %d, crash %d" % (verb, call, choice), "book " + book, "fail disk %d" % call,
                         verb + " 1000000", "crash %d" % choice, "replay", verb + " 1000100", serve + " 0", "replay")


def operators(out):
    """Each call of the disk fails while a command switches a book, and then the disk crashes and the command comes again."""
    out.group("Each call of the disk fails while a command switches a book, and then the disk crashes, the command is given again, and\n"
              "the book takes an entry.")
    for role, book, then in OPERATORS:
        for call in range(8):
            for choice in CHOICES:
                out.case("%s chain: disk call %d, crash %d" % (role, call, choice), "book " + book, "clock 1000000", "fail disk %d" % call,
                         "run %s chain b" % role, "crash %d" % choice, "run %s chain b" % role, *then, "replay")


def commands(out):
    """Commands over switched books, while calls of the disk fail."""
    again = ("link $pays", "link $pays60", "clock 1000000", "run vendor serve b l:80 2")
    orders = [
        ("goods", "licensed", ('link "Good " "morning.\\n"',), "run vendor goods b /news/1 25 --kind 1", 6, again),
        ("price", "shop", (), "run vendor price b /news/1 24", 6, again),
        ("licence", "shop", (), "run vendor licence b 2 4096 8192 $fives $threes", 6, again),
        ("mint", "shop", (), "run vendor mint b 2 50 m1", 6, again),
        ("status", "shop", (), "run vendor status b", 2, again),
        ("serve, a paid request", "shop", ("link $pays",), "run vendor serve b l:80 1", 6, again),
        ("serve, a repeat", "paid_shop", ("link $pays",), "run vendor serve b l:80 1", 2, again),
        ("serve, two requests on a link", "shop", ("link $pays+$pays60",), "run vendor serve b l:80 1", 10, again)]
    for name, book, links, words, disk, _ in desks.ORDERS:
        if book:
            orders.append(("broker " + name, book[1:], links, words, disk, desks.AGAIN))
    for name, book, brought, words, disk, _, after, then in payments.ORDERS:
        if book:
            links = [] if brought is None else ["link " + brought]
            orders.append(("wallet " + name, book[1:], links, words, disk, ["link " + after, then, "run wallet list b", "wallet"]))
    spelled = {"wallet_book": "$s_wallet_book"}
    out.group("Commands over books that end with a Switch: each call of the disk fails in turn, and then the disk crashes.")
    for _, book, *_ in orders:
        if book not in spelled:
            spelled[book] = switched(out, book)
    for name, book, links, words, disk, after in orders:
        for call in range(disk + READ_AGAIN + 1):
            for choice in CHOICES:
                out.case("switched, %s: disk call %d, crash %d" % (name, call, choice), "book " + spelled[book], *links,
                         "clock 1000000", "fail disk %d" % call, words, "crash %d" % choice, "replay", *after)


def chains():
    out = Cases("Books with a chain, cut and changed at each byte, switched while calls fail, and given to every command.")
    earlier_names()
    grown(out, "h_wallet", ["book " + switched(out, "wallet_book"), "clock 1000000", "link $line_pieces", "run wallet take b"])
    grown(out, "h_vendor", ["book $shop", "switch 1000000", "clock 1000000", "link $pays", "run vendor serve b l:80 1"])
    grown(out, "h_broker", ["book $f_rich", "switched 1000000", "clock 1000000", "link $f_draw", "run broker serve b l:80 1"])
    each_byte(out)
    switching(out)
    operators(out)
    commands(out)
    out.write("chains")


def main():
    chains()
