"""The commands of an auditor."""
import json
from types import SimpleNamespace

from forms import id_text
from house import Ends, chain_line, read_through
from ledger import FULL, History, follow
from market import Book, broker_sums, first_stranger, vendor_sums
from payloads import BROKER, SITE, VENDOR
from refusals import refused
from stage import DiskFault
from tree import Tree, lines
from wallet import WALLET, WalletBook
from words import place


def parse_report(words, json=False):
    return SimpleNamespace(books=[place(word) for word in words], is_json=json)


def read_book(stage):
    """The entries of a book that has to be lawful: that of a house, or else that of a wallet, which is read once more."""
    history = History()
    try:
        read_through(stage, (VENDOR, BROKER), lambda entry: follow(history, entry, FULL.series))
        return history.entries
    except Ends as end:
        if end.line != Ends.refused(refused(52)).line:
            raise
    entries, book = [], WalletBook()

    def follow_wallet(entry):
        entries.append(entry)
        return book.follow(entry)
    read_through(stage, (WALLET,), follow_wallet)
    return entries


def report(order, stage, *disks):
    """Reads all books, looks that they are those of one market, and for strangers; then reports their sums."""
    entries = [read_book(disk) for disk in disks]
    books = [Book(some) for some in entries]
    brokers = [book for book in books if book.is_broker]
    vendors = sorted((book for book in books if not book.is_broker), key=lambda book: book.name)
    names = [book.name for book in vendors]
    is_wallet_there = any(some[0].site == WALLET for some in entries)
    if len(brokers) != 1 or is_wallet_there or len(set(names)) < len(names):
        raise Ends.refused(refused(69))
    broker, = brokers
    missing = {vendor for vendor, _, _ in broker.sales} - set(names)
    if missing:
        raise Ends.refused(refused(70, min(missing)))
    stranger = first_stranger(books)
    if stranger:
        raise stranger_of(books[stranger[0]].name, stranger[1])
    return (as_json if order.is_json else as_text)(broker, vendors)


def tree(order, stage, *disks):
    """Reads all books, looks that they are those of brokers and of all their vendors, and for strangers; reports their sums."""
    entries = [read_book(disk) for disk in disks]
    books = [Book(some) for some in entries]
    names = {book.name for book in books}
    is_wallet_there = any(some[0].site == WALLET for some in entries)
    if not any(book.is_broker for book in books) or is_wallet_there or len(names) < len(books):
        raise Ends.refused(refused(69))
    whole = Tree(books)
    missing = {sale.vendor for sale in whole.sales} - {book.name for book in whole.vendors}
    if missing:
        raise Ends.refused(refused(70, min(missing)))
    stranger = whole.first_stranger()
    if stranger:
        raise stranger_of(*stranger)
    return lines(whole)


def stranger_of(name, ident):
    return Ends(8, b"stranger %s %s" % (name, id_text(ident).encode()))


def sums_of(broker, vendors):
    """The sums of the broker by their names, and those of each vendor."""
    names = ("paid_in", "paid_out", "accounts", "fees", "outstanding", "lapsed")
    of_vendors = [dict(zip(("takings", "outstanding", "lapsed"), vendor_sums(broker, vendor))) for vendor in vendors]
    return dict(zip(names, broker_sums(broker))), of_vendors


def as_text(broker, vendors):
    own, others = sums_of(broker, vendors)
    lines = ["broker " + broker.name.decode()]
    lines += ["%s %d" % (name.replace("_", "-"), value) for name, value in own.items()]
    lines += [" ".join(["vendor", vendor.name.decode(), *("%s %d" % item for item in sums.items())])
              for vendor, sums in zip(vendors, others)]
    return "\n".join([*lines, "balanced", ""]).encode()


def as_json(broker, vendors):
    own, others = sums_of(broker, vendors)

    def spelled(name, sums):
        return {**name, **{key: str(value) for key, value in sums.items()}}
    listed = [spelled({"name": vendor.name.decode()}, sums) for vendor, sums in zip(vendors, others)]
    whole = {**spelled({"broker": broker.name.decode()}, own), "vendors": listed}
    return json.dumps(whole, sort_keys=True, separators=(",", ":")).encode() + b"\n"


def chain(order, stage, *disks):
    """Reads the entries of each book, which may be any but has its site first, and tells how many there are and their chain."""
    return b"".join(chain_of(disk) for disk in disks)


def chain_of(disk):
    entries = []

    def follow_first(entry):
        entries.append(entry)
        return entries[0].kind == SITE
    journal = read_through(disk, (VENDOR, BROKER, WALLET), follow_first)
    try:
        journal.find_chain()
    except DiskFault:
        raise Ends.disk_fault()
    return chain_line(entries[0].name, journal)


# As those of a vendor; None where there may be any number of words, but one at least.
COMMANDS = {
    b"report": (None, (), (b"--json",), parse_report, report),
    b"chain": (None, (), (), parse_report, chain),
    b"tree": (None, (), (), parse_report, tree),
}
