"""The commands of a vendor."""
from types import SimpleNamespace

import looking
import play
import settlement
from forms import MOST_VALUE, digest_of, is_name, is_target
from house import Ends, bench, chained, founded, kept, opened, received
from ledger import FULL
from payloads import GOODS, MINT, SITE, TERMS, UPGRADE, VENDOR, entry_of
from refusals import refused
from words import listen, number, place, socket, spelled, terms, text, want

MOST_CONTENTS = 65_536
MOST_LINKS = 2**32 - 1
MOST_EPOCH = 2**24 - 1


def parse_once(words):
    want(len(words[4]) <= MOST_CONTENTS)
    return SimpleNamespace(
        name=text(is_name, words[0]), target=text(is_target, words[1]), price=number(words[2], 1, MOST_VALUE),
        secret=want(digest_of(words[3])), contents=words[4])


def parse_init(words, keep=b"600", clear=False):
    return SimpleNamespace(
        book=place(words[0]), name=text(is_name, words[1]), terms=terms(0, words[2:]), keep=number(keep, 60, 86_400),
        clear=clear)


def parse_serve(words, door=None):
    return SimpleNamespace(book=place(words[0]), listen=listen(words[1]), links=number(words[2], 1, MOST_LINKS),
                           door=None if door is None else socket(door))


def parse_play(words):
    return SimpleNamespace(count=number(words[0], 1, 1_000_000))


def parse_goods(words, kind=b"0"):
    order = parse_price(words)
    order.kind = number(kind, 0, 2)
    return order


def parse_price(words):
    target, price_of = text(is_target, words[1]), number(words[2], 1, MOST_VALUE)
    return SimpleNamespace(book=place(words[0]), target=target, price=price_of)


def parse_licence(words):
    return SimpleNamespace(book=place(words[0]), terms=terms(number(words[1], 1, 255), words[2:]))


def parse_mint(words):
    return SimpleNamespace(
        book=place(words[0]), count=number(words[1], 1, 256), value=number(words[2], 1, MOST_VALUE),
        reference=text(is_name, words[3]))


def once(order, stage):
    """Serves one link with a house in memory, whose clock stands."""
    bench(order, stage).serve(1)
    return b""


def init(order, stage):
    return found_site(order, stage, VENDOR, 0)


def found_site(order, stage, site, fee):
    house = SimpleNamespace(keep=order.keep, fee=fee, clear=order.clear, terms=order.terms)
    founded(stage, entry_of(SITE, stage.now(), site=site, name=order.name, house=house))
    return b"founded %s\n" % order.name


def serve(order, stage):
    return b"served %d\n" % opened(stage, FULL).serve(order.links)


def play_heads(order, stage):
    return play.play(order.count)


def goods(order, stage):
    house = opened(stage, FULL)
    contents = received(stage, MOST_CONTENTS + 1)
    house.raise_time()
    return list_goods(house, order, contents)


def list_goods(house, order, contents):
    """Puts goods on sale whose contents are an input, and answers their line."""
    if len(contents) > MOST_CONTENTS:
        raise Ends.refused(refused(54, MOST_CONTENTS + 1))
    return put_goods(house, order, order.kind, contents)


def price(order, stage):
    return set_price(kept(stage), order)


def set_price(house, order):
    """Gives goods another price, and answers their line."""
    old = house.history.goods.get(order.target)
    if old is None:
        raise Ends.refused(refused(30))
    return put_goods(house, order, old.goods, old.contents)


def put_goods(house, order, kind, contents):
    """Enters goods, and answers their line."""
    in_force = house.history.in_force_with(order.target, contents)
    if in_force > 2**26:
        raise Ends.refused(refused(54, in_force))
    house.enter(entry_of(GOODS, house.time, target=order.target, price=order.price, goods=kind, contents=contents))
    return b"goods %s %d\n" % (order.target, order.price)


def licence(order, stage):
    return add_terms(kept(stage), order)


def add_terms(house, order):
    """Adds the terms of an issuer, and answers their line."""
    old, new = house.history.terms.get(order.terms.issuer), order.terms
    if old not in (None, new):
        raise Ends.refused(refused(55, new.issuer))
    if old is None:
        house.enter(entry_of(TERMS, house.time, terms=new))
    return b"licence %s %s\n" % (house.history.site.name, spelled(new))


def mint(order, stage):
    return mint_pieces(kept(stage), order)


def mint_pieces(house, order):
    """Mints pieces, and answers their lines."""
    history = house.history
    entry = history.references.get(order.reference)
    if entry is None:
        if order.count > history.room(house.time, house.limits):
            raise Ends.refused(refused(32, history.own_series(house.time)))
        entry = entry_of(MINT, house.time, reference=order.reference, count=order.count, value=order.value,
                         first=history.next_identity(house.time))
        house.enter(entry)
    elif (entry.count, entry.value) != (order.count, order.value):
        raise Ends.refused(refused(56, order.reference))
    own, version = history.terms[0], history.own_version(entry.first)
    return b"".join(own.piece_line(history.site.name, entry.value, ident, version)
                    for ident in range(entry.first, entry.first + entry.count))


def parse_upgrade(words):
    return SimpleNamespace(
        book=place(words[0]), issuer=number(words[1], 0, 255), start=number(words[2], 0, MOST_EPOCH))


def upgrade(order, stage):
    return move_issuer(kept(stage), order)


def move_issuer(house, order):
    return upgrade_issuer(house, house.history.site.name, order.issuer, order.start)


def upgrade_issuer(house, vendor_name, issuer, start):
    """Lets the scrip of an issuer go over to version 2 from an epoch on, and answers the line."""
    terms, old = house.history.upgrade_terms(vendor_name, issuer), house.history.upgrades.get((vendor_name, issuer))
    if terms is None:
        raise Ends.refused(refused(71))
    if old not in (None, start):
        raise Ends.refused(refused(72, old))
    if old is None:
        if start <= terms.epoch(house.time):
            raise Ends.refused(refused(73, terms.epoch(house.time)))
        house.enter(entry_of(UPGRADE, house.time, vendor=vendor_name, issuer=issuer, start=start))
    return b"upgrade %s %d %d\n" % (vendor_name, issuer, start)


def parse_statement(words):
    return SimpleNamespace(
        book=place(words[0]), issuer=number(words[1], 1, 255), epoch=number(words[2], 0, MOST_EPOCH))


def statement(order, stage):
    return settlement.state(kept(stage, is_taken=settlement.is_in_order), order.issuer, order.epoch)


def parse_book(words):
    return SimpleNamespace(book=place(words[0]))


def chain(order, stage):
    return chained(kept(stage))


def list_of(order, stage):
    return looking.goods_lines(kept(stage))


def status(order, stage):
    return looking.vendor_status(kept(stage))


# Of each command, how many words it has, its options with a value and those without one, and what reads and does it.
COMMANDS = {
    b"once": (5, (), (), parse_once, once),
    b"init": (6, (b"--keep",), (b"--clear",), parse_init, init),
    b"serve": (3, (b"--door",), (), parse_serve, serve),
    b"play": (1, (), (), parse_play, play_heads),
    b"goods": (3, (b"--kind",), (), parse_goods, goods),
    b"price": (3, (), (), parse_price, price),
    b"licence": (6, (), (), parse_licence, licence),
    b"mint": (4, (), (), parse_mint, mint),
    b"upgrade": (3, (), (), parse_upgrade, upgrade),
    b"chain": (1, (), (), parse_book, chain),
    b"list": (1, (), (), parse_book, list_of),
    b"status": (1, (), (), parse_book, status),
    b"statement": (3, (), (), parse_statement, statement),
}

# Of each command that may be given at a door, too, the most bytes of its input, and what it does to an open house, by what its
# words give and with an input.
OPERATIONS = {
    b"goods": (MOST_CONTENTS, list_goods),
    b"price": (None, lambda house, order, _: set_price(house, order)),
    b"licence": (None, lambda house, order, _: add_terms(house, order)),
    b"mint": (None, lambda house, order, _: mint_pieces(house, order)),
    b"upgrade": (None, lambda house, order, _: move_issuer(house, order)),
    b"chain": (None, lambda house, order, _: chained(house)),
    b"list": (None, lambda house, order, _: looking.goods_lines(house)),
    b"status": (None, lambda house, order, _: looking.vendor_status(house)),
}
