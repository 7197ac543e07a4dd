"""Payments to a shop by new pieces, alone, or many of them in one write."""
import time

import millicent
from shop import NAME, PRICE, TARGET, Link
from timing import BLOCK, timed

LINK_ITEMS = 900
IN_ONE_WRITE = 30


def took(reply):
    assert reply.startswith(b"HTTP/1.1 200 "), "no payment"


def fresh(shop, count):
    """Signed requests that pay with new pieces."""
    pieces = [shop.fresh(100) for _ in range(count)]
    return [millicent.request(p, TARGET, millicent.request_signature(p, TARGET, secret)) for p, secret in pieces]


def pay_alone(shop, asked):
    with Link(shop.address) as link:
        took(link.ask(asked))


def ask_all(link, requests):
    link.send(b"".join(requests))
    for _ in requests:
        took(link.receive())


def pay(shop, count):
    """The seconds that so many payments took, without those in which the client made them."""
    seconds = 0.0
    for first in range(0, count, LINK_ITEMS):
        requests = fresh(shop, min(LINK_ITEMS, count - first))
        with Link(shop.address) as link:
            for at in range(0, len(requests), IN_ONE_WRITE):
                seconds += timed(lambda: ask_all(link, requests[at:at + IN_ONE_WRITE]))
    return seconds


def entry_size(shop):
    """The bytes that one payment adds to the book."""
    before = len(shop.bytes())
    pay_alone(shop, fresh(shop, 1)[0])
    return len(shop.bytes()) - before


def blocks(shop):
    """The blocks of the digests by which an entry of a payment is judged when the book is opened: the certificate
    and the customer's secret of the piece, the signature of the request, the certificate of the change."""
    piece = len(shop.fresh(100)[0])
    change = len(b"MS1|%s|%d|%016x|%016x|%d||" % (NAME, 100 - PRICE, 0, 0, int(time.time())))
    lengths = piece - 32 + 16, 8 + 16, piece + len(b"\nGET ") + len(TARGET) + 1 + 16, change + 16
    return sum((n + 8) // BLOCK + 1 for n in lengths)
