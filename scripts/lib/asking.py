"""Requests to a broker of one sort, in each way beside a plain loop, and how long its book takes to open."""
import os

from paying import IN_ONE_WRITE, LINK_ITEMS, ask_all, took
from serving import Link
from timing import Beside, Times, md5sum, timed, used


def alone(bank, asked, patience=30):
    with Link(bank.address, patience) as link:
        took(link.ask(asked))


def opened(bank, asked):
    """Starts the program, and tells how long it took to the reply to this request, and its memory."""
    def first():
        bank.start()
        alone(bank, asked, 600)
    seconds = timed(first)
    print("opened in %.2f s to the first reply, md5sum of the book's %.0f MB %.2f s, memory %.0f MB" % (
        seconds, os.path.getsize(bank.book) / 1e6, md5sum(bank.book), used(bank.server)[1]), flush=True)


def on_connections(bank, requests, times, beside, what):
    """Asks on one connection beside the loop, again on one, and then with a connection each."""
    half = len(requests) // 2
    for first in range(0, half, LINK_ITEMS):
        part = requests[first:min(first + LINK_ITEMS, half)]
        with Link(bank.address) as link:
            for asked in part:
                times.take("loop beside", beside.add)
                times.take(what + " on one connection", lambda: took(link.ask(asked)))
        with Link(bank.address) as link:
            for asked in part:
                times.take("repeats on one connection", lambda: took(link.ask(asked)))
    for asked in requests[half:]:
        times.take("loop beside a connection each", beside.add)
        times.take(what + ", a connection each", lambda: alone(bank, asked))


def in_one_write(bank, requests, times, what):
    """Asks on one connection, of which some requests are always under way; and the program's own time for each."""
    before, _ = used(bank.server)
    for first in range(0, len(requests), LINK_ITEMS):
        with Link(bank.address) as link:
            for at in range(first, min(first + LINK_ITEMS, len(requests)), IN_ONE_WRITE):
                part = requests[at:min(at + IN_ONE_WRITE, first + LINK_ITEMS)]
                times.take(what + ", 30 heads in one write", lambda: ask_all(link, part), len(part))
    after, memory = used(bank.server)
    print("%s in one write: %.1f us of the program's own time each, %.0f MB" % (
        what, (after - before) / len(requests) * 1e6, memory))


def measured(bank, folder, make, count, what):
    """Asks so many requests of each kind, of which each is made anew."""
    first = make()
    opened(bank, first)
    before = os.path.getsize(bank.book)
    alone(bank, make())
    beside, times = Beside(os.path.join(folder, "beside"), os.path.getsize(bank.book) - before), Times()
    on_connections(bank, [make() for _ in range(2 * count)], times, beside, what)
    in_one_write(bank, [make() for _ in range(5 * count)], times, what)
    for each in times.each:
        times.tell(each, {what + " on one connection": "loop beside",
                          what + ", a connection each": "loop beside a connection each"}.get(each))
    bank.kill()
    opened(bank, first)
