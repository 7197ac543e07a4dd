"""What the scripts need of the second program: terms, entries, books and their sums, and beside them the
requests and replies of a customer."""
import sys
from pathlib import Path
from types import SimpleNamespace

sys.path.insert(0, str(Path(__file__).resolve().parents[1] / "second"))

from desk import read_errand  # noqa: E402, F401
from forms import Terms, epoch_of, id_of, read_scrip, reply_signature, request_signature  # noqa: E402, F401
from journal import HEADER, BadEntry, Chain, NotJournal, Replay  # noqa: E402, F401
from ledger import first_unlawful  # noqa: E402, F401
from market import Book, broker_sums, first_stranger, vendor_sums  # noqa: E402, F401
from payloads import (  # noqa: E402, F401
    ACCEPT, ACCOUNT, BROKER, DEPOSIT, DONE, DRAW, GOODS, MINT, PEND, REFUSED, SITE, STOCK, TERMS, VENDOR, entry_of)
from settlement import redeemed, sold  # noqa: E402, F401
from stage import Stage  # noqa: E402
from tree import Tree, lines as tree_lines  # noqa: E402, F401
from wallet import WalletBook  # noqa: E402, F401
from wallet_verbs import first_against  # noqa: E402, F401


def scrip(terms, vendor, value, ident):
    """The text of a piece of these terms, first-hand."""
    return terms.scrip_text(vendor, value, ident, ident, b"")


def reply_sign(piece, target, reply, secret):
    """What the Millicent-Sign field of a reply has to be, for the reply's other fields and contents."""
    fields = (reply.status, reply.field(b"Refusal"), reply.field(b"Price"), reply.field(b"Change"))
    return reply_signature(piece, target, b" ".join(fields) + b"\n", reply.contents, secret)


def request(piece, target, sign=None, host=b"news.example"):
    """The bytes of a request, with its piece and its signature where they are given."""
    lines = [b"GET %s HTTP/1.1" % target, b"Host: " + host]
    lines += [b"Millicent-Scrip: " + piece] if piece else []
    lines += [b"Millicent-Sign: " + sign.hex().encode()] if sign else []
    return b"\r\n".join(lines) + b"\r\n\r\n"


def draw_request(target, key, host=b"bank"):
    """The bytes of a draw, signed with the key of its account."""
    return request(None, target, request_signature(b"-", target, key), host)


class Reply:
    def __init__(self, whole):
        self.whole = whole
        head, _, self.contents = whole.partition(b"\r\n\r\n")
        first, *lines = head.split(b"\r\n")
        self.status = first.split(b" ")[1]
        self.fields = dict(line.split(b": ", 1) for line in lines)

    def field(self, name):
        return self.fields.get(b"Millicent-" + name, b"-")


def site_entry(moment, name, terms, keep=600, clear=False, fee=None):
    """That of a vendor, or of a broker with a fee."""
    house = SimpleNamespace(keep=keep, fee=fee or 0, clear=clear, terms=terms)
    return entry_of(SITE, moment, site=VENDOR if fee is None else BROKER, name=name, house=house)


def terms_entry(moment, terms):
    return entry_of(TERMS, moment, terms=terms)


def goods_entry(moment, target, price, kind, contents):
    return entry_of(GOODS, moment, target=target, price=price, goods=kind, contents=contents)


def mint_entry(moment, reference, count, value, first):
    return entry_of(MINT, moment, reference=reference, count=count, value=value, first=first)


def account_entry(moment, name, key):
    return entry_of(ACCOUNT, moment, name=name, key=key)


def deposit_entry(moment, name, amount, reference):
    return entry_of(DEPOSIT, moment, name=name, amount=amount, reference=reference)


def stock_entry(moment, vendor, pieces):
    return entry_of(STOCK, moment, vendor=vendor, pieces=pieces)


def write_book(file, entries):
    """Writes the bytes of a book of these entries."""
    file.write(HEADER)
    for entry in entries:
        file.write(b"\1" + len(entry.payload).to_bytes(4, "big") + entry.payload)
    file.write(b"\0")


def entries_of(data):
    """The entries that a book encodes."""
    return list(entries_on(Stage(data)))


def entries_on(disk):
    replay = Replay(disk)
    return (entry for _, entry in iter(replay.next, None))


class ReadOnly:
    """A book's file as a disk that is only read, from front to back."""

    def __init__(self, path):
        self.file = open(path, "rb")

    def sync(self):
        pass

    def read(self, at, length):
        self.file.seek(at)
        return self.file.read(length)


def read_book(path):
    """The entries of a book's file, one after another. What can't stand ends the script as it ends the program: with status 3 and
    the place on standard error."""
    try:
        yield from entries_on(ReadOnly(path))
    except OSError as error:
        leave(1, "%s: %s" % (path, error.strerror))
    except NotJournal:
        leave(3, "%s: not a journal" % path)
    except BadEntry as bad:
        leave(3, "%s: bad entry at %d" % (path, bad.place))


def leave(status, why):
    print("%s: %s" % (Path(sys.argv[0]).name, why), file=sys.stderr)
    raise SystemExit(status)
