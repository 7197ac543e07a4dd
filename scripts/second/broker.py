"""The commands of a broker."""
from types import SimpleNamespace

import looking
import settlement
import vendor
from desk import MOST_BALANCE
from forms import MOST_VALUE, is_name, read_scrip
from house import Ends, chained, kept, opened, read_pieces, received
from ledger import FULL
from payloads import ACCOUNT, BROKER, DEPOSIT, LICENCE, STOCK, WITHDRAW, entry_of
from refusals import refused
from words import BadWords, number, place, secret, terms, text, want

MOST_INPUT = 131_072


def parse_init(words, keep=b"600", clear=False):
    order = vendor.parse_init(words, keep, clear)
    order.fee = number(words[6], 0, MOST_VALUE)
    return order


def parse_account(words):
    return SimpleNamespace(book=place(words[0]), account=text(is_name, words[1]), key=secret(words[2]))


def parse_move(words):
    """The words of a deposit and of a withdrawal."""
    return SimpleNamespace(
        book=place(words[0]), account=text(is_name, words[1]), amount=number(words[2], 1, MOST_VALUE),
        reference=text(is_name, words[3]))


def parse_balance(words):
    return SimpleNamespace(book=place(words[0]), account=text(is_name, words[1]))


def parse_stock(words):
    return SimpleNamespace(book=place(words[0]), vendor=text(is_name, words[1]))


def init(order, stage):
    return vendor.found_site(order, stage, BROKER, order.fee)


def serve(order, stage):
    return b"served %d\n" % opened(stage, FULL, BROKER).serve(order.links)


def account(order, stage):
    return open_account(kept(stage, BROKER), order)


def open_account(house, order):
    """Opens an account, and answers its line."""
    key = house.history.desk.keys.get(order.account)
    if key not in (None, order.key):
        raise Ends.refused(refused(60))
    if key is None:
        house.enter(entry_of(ACCOUNT, house.time, name=order.account, key=order.key))
    return b"account %s\n" % order.account


def deposit(order, stage):
    return move(kept(stage, BROKER), DEPOSIT, order)


def withdraw(order, stage):
    return move(kept(stage, BROKER), WITHDRAW, order)


def move(house, kind, order):
    """Enters a deposit or a withdrawal where its reference is new, and answers the line of the balance."""
    stands = house.history.references.get(order.reference)
    if stands is None:
        refusal = unpaid(house.history.desk, kind, order)
        if refusal:
            raise Ends.refused(refusal)
        house.enter(entry_of(kind, house.time, name=order.account, amount=order.amount, reference=order.reference))
    elif (stands.kind, stands.name, stands.amount) != (kind, order.account, order.amount):
        raise Ends.refused(refused(56, order.reference))
    return balance_line(house, order)


def unpaid(desk, kind, order):
    """Why an amount is not paid into an account, or out of it."""
    if order.account not in desk.keys:
        return refused(40)
    balance_now = desk.balance(order.account)
    if kind == DEPOSIT:
        return refused(45, balance_now) if balance_now + order.amount > MOST_BALANCE else None
    return refused(42, balance_now) if balance_now < order.amount else None


def balance(order, stage):
    return tell_balance(kept(stage, BROKER), order)


def tell_balance(house, order):
    """The line of the balance of an account that is open."""
    if order.account not in house.history.desk.keys:
        raise Ends.refused(refused(40))
    return balance_line(house, order)


def balance_line(house, order):
    return b"balance %s %d\n" % (order.account, house.history.desk.balance(order.account))


def input_house(stage, **test):
    """A house of the book, and the lines that its operator brings."""
    house = opened(stage, FULL, BROKER, **test)
    lines = received(stage, MOST_INPUT + 1)
    house.raise_time()
    return house, lines[:MOST_INPUT]


def licence(order, stage):
    house, lines = input_house(stage)
    return add_licence(house, *read_licence(lines))


def read_licence(lines):
    """The vendor and the terms of a licence line."""
    line, end, more = lines.partition(b"\n")
    words = line.split(b" ")
    try:
        want(bool(end) and len(words) == 7 and words[0] == b"licence")
        read = text(is_name, words[1]), terms(number(words[2], 1, 255), words[3:])
    except BadWords:
        raise Ends.refused(refused(53, 1 if lines else 0))
    if more:
        raise Ends.refused(refused(53, 2))
    return read


def add_licence(house, vendor_name, terms_of):
    """Takes the licence of a vendor, and answers its line."""
    old = house.history.desk.licences.get(vendor_name)
    if old not in (None, terms_of):
        raise Ends.refused(refused(59, old.issuer))
    if old is None:
        house.enter(entry_of(LICENCE, house.time, vendor=vendor_name, terms=terms_of))
    return b"licence %s %d\n" % (vendor_name, terms_of.issuer)


def stock(order, stage):
    house, lines = input_house(stage)
    return add_stock(house, order.vendor, lines)


def read_stock(vendor_name, lines):
    """Pieces of the vendor, first-hand."""
    return read_pieces(lines, lambda piece: (
        piece.vendor == vendor_name and piece.cust == piece.id and not piece.props))


def add_stock(house, vendor_name, lines):
    """Puts pieces of a vendor into stock, and answers the line of their count."""
    pieces = read_stock(vendor_name, lines)
    ids, stocked = [read_scrip(text).id for text, _ in pieces], house.history.desk.stocked(vendor_name)
    for ident in ids:
        if ident in stocked or ids.count(ident) > 1:
            raise Ends.refused(refused(57, ident))
    house.enter(entry_of(STOCK, house.time, vendor=vendor_name, pieces=pieces))
    return b"stock %s %d\n" % (vendor_name, len(pieces))


def parse_upgrade(words):
    return SimpleNamespace(
        book=place(words[0]), vendor=text(is_name, words[1]), start=number(words[2], 0, vendor.MOST_EPOCH))


def upgrade(order, stage):
    house = kept(stage, BROKER)
    return upgrade_vendor(house, order.vendor, order.start)


def upgrade_vendor(house, vendor_name, start):
    """Lets the scrip that the house makes in a vendor's name go over: its own, or that of a licence."""
    licence_of = house.history.desk.licences.get(vendor_name)
    if vendor_name == house.history.site.name:
        return vendor.upgrade_issuer(house, vendor_name, 0, start)
    if licence_of is None:
        raise Ends.refused(refused(71))
    return vendor.upgrade_issuer(house, vendor_name, licence_of.issuer, start)


def chain(order, stage):
    return chained(kept(stage, BROKER))


def list_of(order, stage):
    return looking.account_lines(kept(stage, BROKER))


def status(order, stage):
    return looking.broker_status(kept(stage, BROKER))


def settle(order, stage):
    return settlement.settle(*input_house(stage, is_taken=settlement.is_in_order))


# As those of a vendor.
COMMANDS = {
    b"init": (7, (b"--keep",), (b"--clear",), parse_init, init),
    b"account": (3, (), (), parse_account, account),
    b"deposit": (4, (), (), parse_move, deposit),
    b"withdraw": (4, (), (), parse_move, withdraw),
    b"balance": (2, (), (), parse_balance, balance),
    b"licence": (1, (), (), vendor.parse_book, licence),
    b"stock": (2, (), (), parse_stock, stock),
    b"upgrade": (3, (), (), parse_upgrade, upgrade),
    b"chain": (1, (), (), vendor.parse_book, chain),
    b"list": (1, (), (), vendor.parse_book, list_of),
    b"status": (1, (), (), vendor.parse_book, status),
    b"settle": (1, (), (), vendor.parse_book, settle),
    b"serve": (3, (b"--door",), (), vendor.parse_serve, serve),
}

# As those of a vendor.
OPERATIONS = {
    b"account": (None, lambda house, order, _: open_account(house, order)),
    b"deposit": (None, lambda house, order, _: move(house, DEPOSIT, order)),
    b"withdraw": (None, lambda house, order, _: move(house, WITHDRAW, order)),
    b"balance": (None, lambda house, order, _: tell_balance(house, order)),
    b"licence": (MOST_INPUT, lambda house, _, lines: add_licence(house, *read_licence(lines))),
    b"stock": (MOST_INPUT, lambda house, order, lines: add_stock(house, order.vendor, lines)),
    b"upgrade": (None, lambda house, order, _: upgrade_vendor(house, order.vendor, order.start)),
    b"chain": (None, lambda house, order, _: chained(house)),
    b"list": (None, lambda house, order, _: looking.account_lines(house)),
    b"status": (None, lambda house, order, _: looking.broker_status(house)),
}
