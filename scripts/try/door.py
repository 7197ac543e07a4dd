#!/usr/bin/env python3
"""Tries a shop's program with clients that are silent, slow or gone, over loopback: for each try a line, with what was
measured, and whether it holds. The arguments are the names of tries; without them all are made. The status is 1 where
one does not hold. All payments have to be answered, and none may wait for as long as 2 seconds."""
import os
import resource
import select
import signal
import socket
import statistics
import struct
import sys
import time
from pathlib import Path

sys.path.insert(0, str(Path(__file__).resolve().parents[1] / "lib"))

import chromium  # noqa: E402
import millicent  # noqa: E402
from shop import CONTENTS, TARGET, Link, Shop  # noqa: E402

BIG, BIG_CONTENTS = b"/big", bytes(range(256)) * 256
WORST = 2.0
TIMES = "%d %s, median %.2f ms, worst %.2f"


class Tries:
    def __init__(self, shop):
        self.shop = shop

    def fresh(self, target=TARGET):
        """A signed request that pays with a new piece."""
        piece, secret = self.shop.fresh(100)
        return millicent.request(piece, target, millicent.request_signature(piece, target, secret))

    def connect(self, receive=None, segment=None):
        s = socket.socket()
        if receive:
            s.setsockopt(socket.SOL_SOCKET, socket.SO_RCVBUF, receive)
        if segment:
            s.setsockopt(socket.IPPROTO_TCP, socket.TCP_MAXSEG, segment)
        s.settimeout(30)
        s.connect(self.shop.address)
        return s

    def pay(self, asked=None):
        """How many seconds a payment takes, with a connection of its own."""
        asked = asked or self.fresh()
        start = time.perf_counter()
        with Link(self.shop.address) as link:
            assert link.ask(asked).startswith(b"HTTP/1.1 200 "), "a payment was refused"
        return time.perf_counter() - start

    def pays(self, count):
        asked = [self.fresh() for _ in range(count)]
        return self.told([self.pay(a) for a in asked])

    def told(self, times, what="payments"):
        """What these times are; none may be too long."""
        assert max(times) < WORST, "one of %d %s took %.2f s" % (len(times), what, max(times))
        return TIMES % (len(times), what, statistics.median(times) * 1e3, max(times) * 1e3)

    def both(self, count):
        """Payments, and as many repeats, which touch no disk."""
        said, again = self.pays(count), self.fresh()
        self.pay(again)
        return "%s; %s" % (said, self.told([self.pay(again) for _ in range(count)], "repeats"))

    def descriptors(self):
        return len(os.listdir("/proc/%d/fd" % self.shop.server.pid))

    def most_memory(self):
        """The most memory that the program had, in megabytes."""
        with open("/proc/%d/status" % self.shop.server.pid) as f:
            return next(int(line.split()[1]) / 1024 for line in f if line.startswith("VmHWM"))

    def alone(self):
        return self.both(200)

    def silent(self, count, payments=100):
        start = time.perf_counter()
        held = [self.connect() for _ in range(count)]
        opened = time.perf_counter() - start
        said = "opened in %.2f s; %s" % (opened, self.both(payments))
        return held, said

    def let_go(self, held):
        for s in held:
            s.close()

    def silent_3(self):
        held, said = self.silent(3, 10)
        self.let_go(held)
        return said

    def silent_1000(self):
        held, said = self.silent(1000)
        self.let_go(held)
        return said

    def silent_10000(self):
        held, said = self.silent(10_000)
        time.sleep(0.5)
        ended = poll_of(held).poll(0)
        descriptors = self.descriptors()
        self.let_go(held)
        assert len(ended) >= 8_900 and descriptors <= 1_010, "%d closed, %d descriptors" % (len(ended), descriptors)
        return "%s; %d of them were closed by the site, which had %d descriptors" % (said, len(ended), descriptors)

    def few_descriptors(self):
        """1,000 silent ones where the program may have 64 descriptors."""
        pid = self.shop.server.pid
        before = resource.prlimit(pid, resource.RLIMIT_NOFILE, (64, resource.getrlimit(resource.RLIMIT_NOFILE)[1]))
        try:
            held, said = self.silent(1000, 50)
            descriptors = self.descriptors()
            self.let_go(held)
        finally:
            resource.prlimit(pid, resource.RLIMIT_NOFILE, before)
        return "%s; the site had %d descriptors" % (said, descriptors)

    def drips(self):
        """500 connections that send a byte a second, with payments between. One of them then goes on."""
        asked = self.fresh()
        held = [self.connect() for _ in range(500)]
        times = []
        for i in range(10):
            second = time.perf_counter() + 1
            for s in held:
                s.send(asked[i:i + 1])
            times += [self.pay() for _ in range(10)]
            time.sleep(max(0, second - time.perf_counter()))
        held[0].sendall(asked[10:])
        assert held[0].recv(100).startswith(b"HTTP/1.1 200 "), "a head that came in drips was not answered"
        self.let_go(held)
        return self.told(times) + "; a head that came whole after ten seconds was answered"

    def pieces(self):
        """Heads in two pieces, 20 ms apart, with payments between."""
        times = []
        for _ in range(20):
            asked = self.fresh()
            with Link(self.shop.address) as link:
                link.send(asked[:-2])
                times.append(self.pay())
                time.sleep(0.02)
                link.send(asked[-2:])
                assert link.receive().startswith(b"HTTP/1.1 200 "), "a head in two pieces was not answered"
        return self.told(times) + "; 20 heads in two pieces were answered"

    def idle(self):
        """A link that was answered and is kept open while another pays."""
        with Link(self.shop.address) as kept:
            kept.ask(self.fresh())
            took = self.pay()
            end = kept.socket.recv(10)
        assert end == b"", "the idle link got %r" % end
        return self.told([took]) + "; the idle link was ended"

    def kept(self):
        """A link that is kept open with nobody else there, also after 12 seconds of silence."""
        times = []
        with Link(self.shop.address) as link:
            for asked in [self.fresh() for _ in range(200)]:
                start = time.perf_counter()
                link.ask(asked)
                times.append(time.perf_counter() - start)
            time.sleep(12)
            link.ask(self.fresh())
        return self.told(times) + " on one connection; it was answered after 12 s of silence"

    def half_closed(self):
        """Clients that end their side after a head, in a head, and before it."""
        asked, got = self.fresh(), []
        for sent in (asked, asked[:30], b""):
            with Link(self.shop.address) as link:
                link.send(sent)
                link.socket.shutdown(socket.SHUT_WR)
                if sent == asked:
                    assert link.receive().startswith(b"HTTP/1.1 200 "), "a half-closed client was not answered"
                got.append(link.socket.recv(10))
        assert got == [b""] * 3, "half-closed clients got %r" % got
        return "a head: the reply and the end; half a head, and none: the end"

    def resets(self):
        """Connections that break with nothing sent, in a head, and behind it."""
        asked = self.fresh()
        for sent in (b"", asked[:30], asked):
            for _ in range(50):
                s = self.connect()
                s.send(sent)
                s.setsockopt(socket.SOL_SOCKET, socket.SO_LINGER, struct.pack("ii", 1, 0))
                s.close()
        return "150 resets; " + self.pays(20)

    def no_takers(self):
        """20 clients that each ask 40 times for 65,536 bytes and read nothing."""
        asked = self.fresh(BIG)
        self.pay(asked)
        held = [self.connect(2048, segment) for segment in (None, 536) * 10]
        for s in held:
            s.sendall(asked * 40)
        said = self.pays(50)
        self.let_go(held)
        return "%s; the program had %.0f MB at most" % (said, self.most_memory())

    def slow_taker(self):
        """A client that takes 65,536 bytes in small steps while others pay."""
        s = self.connect(2048, 536)
        s.sendall(self.fresh(BIG))
        s.shutdown(socket.SHUT_WR)
        got, times, start = b"", [], time.perf_counter()
        while data := s.recv(1024):
            got += data
            times.append(self.pay())
            time.sleep(0.01)
        s.close()
        assert got.endswith(b"\r\n\r\n" + BIG_CONTENTS), "a slow taker got %d bytes" % len(got)
        return "%s; it got all in %.2f s" % (self.told(times), time.perf_counter() - start)

    def large_head(self):
        with Link(self.shop.address) as link:
            link.send(b"GET / HTTP/1.1\r\nX: " + b"a" * 8_200)
            reply = link.receive()
        assert reply.startswith(b"HTTP/1.1 431 "), "8,219 bytes without an end got %r" % reply[:30]
        return "8,219 bytes without an end: 431"

    def at_once(self):
        """2,000 connections at once with a payment each."""
        asked = [self.fresh() for _ in range(2000)]
        start = time.perf_counter()
        replies, times = all_at_once(self.shop.address, asked)
        took = time.perf_counter() - start
        lost = sum(not r.startswith(b"HTTP/1.1 200 ") for r in replies)
        assert lost == 0, "%d of 2000 payments got no reply" % lost
        return "2000 payments in %.2f s, none lost, the last reply after %.2f s" % (took, max(times))

    def browser(self):
        """A client that opens six connections, asks on one, and keeps the others for later, as browsers do."""
        held = [self.connect() for _ in range(6)]
        times = []
        for s in held:
            start = time.perf_counter()
            s.sendall(self.fresh())
            assert s.recv(100).startswith(b"HTTP/1.1 200 "), "a spare connection was not answered"
            times.append(time.perf_counter() - start)
        self.let_go(held)
        return self.told(times) + " on six connections, one after another"

    def chromium(self):
        """A headless Chromium opens a page that is paid for, twice, and keeps its connections; others pay meanwhile."""
        if not chromium.PROGRAM:
            return "there is no chromium here"
        fields = {"Millicent-Scrip": self.shop.fresh(100)[0].decode()}
        url = "http://%s:%d%s" % (*self.shop.address, TARGET.decode())
        with chromium.Chromium() as browser:
            pages, times = [], []
            for _ in range(2):
                start = time.perf_counter()
                pages.append(browser.open(url, fields))
                times.append(time.perf_counter() - start)
                paid = self.pays(20)
        assert pages == [(200, CONTENTS.decode())] * 2, "the browser got %r" % pages
        return "%s; %s beside it" % (self.told(times, "pages"), paid)

    def restart(self, links):
        """Serves so many links more, once the book is open."""
        self.shop.kill()
        self.shop.start(links + 2)
        self.pay()

    def served(self):
        """What the program says, which ends by itself."""
        said = self.shop.server.communicate(timeout=30)[0]
        assert self.shop.server.returncode == 0, "the program ended with %d" % self.shop.server.returncode
        return said.decode().strip()

    def order(self):
        """Heads become whole while the program stands still. The first ones are served, up to LINKS."""
        wanted = [3, 1, 4, 0, 2]
        for links in range(1, 6):
            self.restart(links)
            held = [self.connect() for _ in wanted]
            time.sleep(0.1)
            self.shop.server.send_signal(signal.SIGSTOP)
            for i in wanted:
                held[i].sendall(self.fresh())
                time.sleep(0.02)
            self.shop.server.send_signal(signal.SIGCONT)
            for i in wanted[:links]:
                assert held[i].recv(100).startswith(b"HTTP/1.1 200 "), "the one that was ready before was not served"
                held[i].close()
            assert self.served() == "served %d" % (links + 2)
            self.let_go(held)
        self.shop.start()
        return "with 1 to 5 links the first of 3 1 4 0 2 were served"

    def last(self):
        """The last link's client reads late; the program waits for it, and not for long."""
        self.restart(1)
        s = self.connect(2048, 536)
        s.sendall(self.fresh(BIG))
        s.shutdown(socket.SHUT_WR)
        time.sleep(0.5)
        got, start = b"", time.perf_counter()
        while data := s.recv(65_536):
            got += data
        s.close()
        said, took = self.served(), time.perf_counter() - start
        assert got.endswith(b"\r\n\r\n" + BIG_CONTENTS) and took < 5, "%d bytes, ended after %.2f s" % (len(got), took)
        self.shop.start()
        return "%s; the reply was read late and whole, and the program ended %.2f s after" % (said, took)


def poll_of(sockets):
    poll = select.poll()
    for s in sockets:
        poll.register(s, select.POLLIN)
    return poll


def all_at_once(address, asked):
    """The replies to these requests, each on a connection of its own, and when each was there. A minute at most."""
    poll, links, start = select.poll(), {}, time.perf_counter()
    replies, times = [b""] * len(asked), [0.0] * len(asked)
    for i in range(len(asked)):
        s = socket.socket()
        s.setblocking(False)
        s.connect_ex(address)
        links[s.fileno()] = i, s
        poll.register(s, select.POLLOUT)
    while links and time.perf_counter() - start < 60:
        for fd, event in poll.poll(1000):
            i, s = links[fd]
            try:
                if event & select.POLLOUT:
                    s.send(asked[i])
                    poll.modify(fd, select.POLLIN)
                    continue
                replies[i] += (data := s.recv(65_536))
                ended = not data or b"\r\n\r\n" in replies[i]
            except OSError:
                ended = True
            if ended:
                times[i] = time.perf_counter() - start
                poll.unregister(fd)
                del links[fd]
                s.close()
    return replies, times


NAMES = ("alone silent_3 silent_1000 silent_10000 few_descriptors drips pieces idle kept half_closed resets no_takers slow_taker "
         "large_head at_once browser chromium order last").split()


def main():
    names = sys.argv[1:] or NAMES
    hard = resource.getrlimit(resource.RLIMIT_NOFILE)[1]
    resource.setrlimit(resource.RLIMIT_NOFILE, (hard, hard))
    held = 0
    with Shop() as shop:
        shop.enter(lambda moment: millicent.goods_entry(moment, BIG, 25, 1, BIG_CONTENTS),
                   "goods", BIG.decode(), "25", "--kind", "1", contents=BIG_CONTENTS)
        shop.start()
        tries = Tries(shop)
        for name in names:
            try:
                print("%-16s %s" % (name, getattr(tries, name)()), flush=True)
                held += 1
            except (AssertionError, OSError) as e:
                print("%-16s DOES NOT HOLD: %s" % (name, e or type(e).__name__), flush=True)
                if shop.server.poll() is not None:
                    shop.start()
    print("%d of %d tries hold" % (held, len(names)))
    return held < len(names)


if __name__ == "__main__":
    raise SystemExit(main())
