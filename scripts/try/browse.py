#!/usr/bin/env python3
"""A browser that pays: a headless Chromium before nginx, which has the file of `examples/proxy`, before `wallet proxy`, before a vendor
who sells pages, their styles and their pictures, all over loopback.

    scripts/try/browse.py [--pictures FOLDER] [--pages COUNT] [TRY..]

For each try a line, with what was seen, and whether it holds; without names all are made. Each has a browser, an nginx and a proxy of its
own. What the proxy says was paid, what the wallet's book has as done and what the vendor's book has as accepted has to be the same after
each, and each page paid for as often as the try says. In the end the auditor looks at the books, and COUNT pages (300) through the
proxy are measured beside the same page paid for with a piece by curl, and beside the disk. With FOLDER what the browser showed stays
there. The status is 1 where a try does not hold. It needs nginx, chromium and curl."""
import argparse
import http.server
import os
import random
import shutil
import signal
import statistics
import subprocess
import sys
import tempfile
import threading
import time
from collections import Counter
from contextlib import contextmanager
from pathlib import Path

sys.path.insert(0, str(Path(__file__).resolve().parents[1] / "lib"))

import chromium  # noqa: E402
import millicent  # noqa: E402
from gateway import (  # noqa: E402
    AHEAD, LIMIT, LOOK, NAME, PAGES, PARTS, PICTURES, PIECES, PRICE, STYLE, Market, Nginx, Proxy, beside_the_disk, one_moment, target)
from serving import LINKS, Link  # noqa: E402

# What nobody sells, by endings that have types of their own.
ENDINGS = ["/none" + ending for ending in (".pdf", ".jpg", ".css", ".zip", ".html", "")]
# Loads beside which programs are killed.
ROUNDS = 30


class Elsewhere(http.server.BaseHTTPRequestHandler):
    """Another site, one of whose pages shows what is at the address that its query names, and links to it."""

    def do_GET(self):
        named = self.path.partition("?")[2]
        said = ("<!doctype html><title>Elsewhere</title><img src=%s><a href=%s>There</a>" % (named, named)).encode()
        self.send_response(200)
        self.send_header("Content-Type", "text/html")
        self.send_header("Content-Length", str(len(said)))
        self.end_headers()
        self.wfile.write(said)

    def log_message(self, *_):
        pass


class Tries:
    def __init__(self, market, pictures):
        self.market, self.pictures, self.number = market, pictures, 0
        self.vendor, self.wallet = market.vendor, market.wallet

    def make(self, name):
        """Makes a try, and sums up. What it saw."""
        self.number += 1
        self.proxy = Proxy(self.wallet, self.vendor, None if name in self.AT_A_PORT else os.path.join(self.market.folder, "proxy"))
        self.nginx = Nginx(os.path.join(self.market.folder, "nginx-%d" % self.number), self.proxy)
        try:
            self.proxy.start()
            self.before = self.market.accepted()
            with chromium.Chromium() as self.browser:
                self.tab = self.browser.tabs[0]
                said, wanted = getattr(self, name)()
            paid = self.proxy.end() if self.proxy.is_up() else None
            self.market.agree()
            after = self.market.accepted() - self.before
            assert wanted is None or after == Counter(wanted), "paid for were %r, and not %r" % (dict(after), dict(wanted))
            passed = Counter(asked for _, kept, _, asked in self.nginx.answers() if kept in ("MISS", "BYPASS", "EXPIRED"))
            is_asked = all(count <= passed[what] for what, count in after.items())
            assert name in self.AT_A_PORT or is_asked, "paid for were %r, and the proxy was asked for %r" % (dict(after), dict(passed))
            took = sum(self.prices()[what] * count for what, count in after.items())
            assert paid is None or name in self.RESTARTED or paid == took, "%d was paid, and %d taken" % (paid, took)
            return "%s; paid for %d, %d in all" % (said, sum(after.values()), took)
        except Exception:
            sys.stderr.write(self.nginx.faults())
            raise
        finally:
            self.nginx.stop()
            self.proxy.stop()
            if self.vendor.server.poll() is not None:
                self.vendor.start()
            self.vendor.server.send_signal(signal.SIGCONT)

    # Tries in which the proxy is reached past nginx. In all others it listens at a Unix socket.
    AT_A_PORT = ("head", "another_site", "without_nginx", "connections")
    # Tries in which the proxy was started more than once: it says what was paid since.
    RESTARTED = ("causes", "proxy_killed", "proxy_killed_asking", "kills", "over_budget")

    @staticmethod
    def prices():
        return {**PARTS, AHEAD: PRICE, **{target(number): PRICE for number in PAGES}}

    @staticmethod
    def whole(*numbers):
        """What is paid for where these pages are opened, with their parts, which are kept for the next page."""
        return Counter([*map(target, numbers), *PARTS])

    def shown(self, number, tab=None):
        """The page is shown, with its style and its pictures."""
        tab = tab or self.tab
        seen = tab.value("[document.title, document.querySelector('h1')?.innerText, getComputedStyle(document.body).backgroundColor,"
                         " [...document.images].map(it => it.naturalWidth), document.characterSet]")
        wanted = ["Page %d" % number, "Caf\u00e9 news, page %d" % number, LOOK, [160, 160], "UTF-8"]
        assert seen == wanted, "the tab shows %r" % seen

    def opened(self, number, tab=None):
        """Opens a page, which has to be shown."""
        seen = (tab or self.tab).load(self.nginx.url(target(number)))
        self.shown(number, tab)
        return seen

    def keep(self, what):
        if self.pictures:
            self.tab.picture(os.path.join(self.pictures, what + ".png"))

    def answers(self, what):
        """The statuses that nginx answered to requests for a target."""
        return [status for status, _, word, asked in self.nginx.answers() if (word, asked) == ("GET", what)]

    def said(self):
        return self.tab.text().strip()

    def refused(self, why, cause):
        """The tab shows this sentence, and in its last line the proxy's own words, which are answered."""
        said = self.said()
        assert said.startswith("Not paid for\n") and why in said and said.splitlines()[-1] == cause, "the tab shows %r" % said
        return cause

    def fetched(self, what):
        """The status, the type and the contents that nginx answers to a request for a target."""
        words = ["curl", "-sS", "-w", "\n%{http_code} %{content_type}", self.nginx.url(what)]
        said = subprocess.run(words, check=True, stdout=subprocess.PIPE).stdout.decode()
        contents, _, last = said.rpartition("\n")
        return (*last.split(" ", 1), contents)

    def all_are_pages(self, status, why):
        """What can't be had is HTML with this sentence, whatever was asked for."""
        for what in ENDINGS:
            seen = self.fetched(what)
            assert seen[:2] == (status, "text/html; charset=utf-8") and why in seen[2], "%s: %r" % (what, seen)

    @contextmanager
    def held(self):
        """The vendor's process stands still meanwhile."""
        self.vendor.server.send_signal(signal.SIGSTOP)
        try:
            yield
        finally:
            self.vendor.server.send_signal(signal.SIGCONT)

    def asked(self):
        """How many requests are kept in the wallet's book, and not settled."""
        book = millicent.WalletBook(self.wallet.entries())
        return len(book.requests.keys() - book.settled)

    # The tries.

    def page(self):
        """A page with its parts."""
        seen = self.opened(1)
        self.keep("page")
        types = {what: repr(seen[self.nginx.url(what)]) for what in (target(1), *PARTS)}
        wanted = {target(1): "200 text/html", STYLE: "200 text/css", **{it: "200 image/png" for it in PICTURES}}
        assert types == wanted, types
        return "shown with its style and two pictures", self.whole(1)

    def by_name(self):
        """The same, as `localhost`."""
        self.tab.load(self.nginx.url(target(1), "localhost"))
        self.shown(1)
        return "shown", self.whole(1)

    def reload(self):
        self.opened(1)
        for _ in range(3):
            self.tab.reload()
            self.shown(1)
        self.opened(1)
        return "loaded again three times, and opened again", self.whole(1)

    def forced_reload(self):
        """With Ctrl-Shift-R, and with the cache off in the developer tools, the page is fetched anew, and its parts are not."""
        self.opened(1)
        self.tab.reload(is_forced=True)
        self.shown(1)
        self.tab.call("Network.setCacheDisabled", cacheDisabled=True)
        self.tab.reload()
        self.shown(1)
        return "twice loaded again past what was kept: the page alone", self.whole(1) + Counter({target(1): 2})

    def script(self):
        """What a script asks for past what is kept."""
        self.opened(1)
        for mode in ("reload", "no-store", "no-cache"):
            for what in (target(1), *PARTS):
                seen = self.tab.value("fetch('%s', {cache: '%s'}).then(it => it.status)" % (what, mode))
                assert seen == 200, "%s of %s: %r" % (mode, what, seen)
        return "what was kept", self.whole(1)

    def ten_tabs(self):
        """Ten tabs with one page at once."""
        tabs = [self.tab, *(self.browser.tab() for _ in range(9))]
        with self.held():
            for tab in tabs:
                tab.events.clear()
                tab.begin("Page.navigate", url=self.nginx.url(target(1)))
            time.sleep(1)
        for tab in tabs:
            tab.loaded()
            self.shown(1, tab)
        return "all shown", self.whole(1)

    def ten_pages(self):
        """Ten tabs with three pages, past what is kept: forced reloads, all at once."""
        tabs = [self.tab, *(self.browser.tab() for _ in range(9))]
        for i, tab in enumerate(tabs):
            self.opened(i % 3 + 1, tab)
        for tab in tabs:
            tab.events.clear()
            tab.begin("Page.reload", ignoreCache=True)
        for i, tab in enumerate(tabs):
            tab.loaded()
            self.shown(i % 3 + 1, tab)
        wanted = self.whole(1, 2, 3) + Counter({target(1): 4, target(2): 3, target(3): 3})
        return "opened, and all loaded again past what was kept, at once", wanted

    def cancelled(self):
        """A load that is stopped while the vendor has the request."""
        with self.held():
            self.tab.begin("Page.navigate", url=self.nginx.url(target(1)))
            one_moment(lambda: self.asked() == 1, "the request")
            self.tab.call("Page.stopLoading")
            self.tab.load("about:blank")
            time.sleep(0.2)
        one_moment(lambda: self.asked() == 0, "the payment")
        self.opened(1)
        return "stopped, came all the same, and was shown when it was opened again", self.whole(1)

    def tab_closed(self):
        """The same with the tab closed."""
        tab = self.browser.tab()
        with self.held():
            tab.begin("Page.navigate", url=self.nginx.url(target(1)))
            one_moment(lambda: self.asked() == 1, "the request")
            tab.begin("Page.close")
            time.sleep(0.2)
        one_moment(lambda: self.asked() == 0, "the payment")
        self.opened(1)
        return "came all the same, and was shown when it was opened again", self.whole(1)

    def head(self):
        """HEAD, at nginx and at the proxy."""
        got = []
        for address in (self.nginx.address, self.proxy.address):
            with Link(address) as link:
                link.send(b"HEAD %s HTTP/1.1\r\nHost: 127.0.0.1\r\nConnection: close\r\n\r\n" % target(1).encode())
                got.append(link.socket.recv(100).split(b"\r\n")[0].decode())
        assert all(it.startswith("HTTP/1.1 405 ") for it in got), got
        return "405 of nginx, 405 of the proxy", {}

    def second_page(self):
        """A link is followed."""
        self.opened(1)
        self.tab.events.clear()
        self.tab.call("Runtime.evaluate", expression="document.querySelector('a').click()")
        self.tab.loaded()
        self.shown(2)
        self.keep("second")
        return "shown; its style and its pictures were kept", self.whole(1, 2)

    def ahead(self):
        """A page that has another fetched ahead, which is then opened."""
        self.tab.load(self.nginx.url(AHEAD))
        self.shown(2)
        one_moment(lambda: self.answers(target(3)) == ["503"], "what is fetched ahead")
        self.opened(3)
        return "503 to what was fetched ahead, and paid for when it was opened", {**self.whole(3), AHEAD: 1}

    def icon(self):
        """What a browser asks for by itself."""
        self.opened(1)
        seen = self.tab.value("fetch('/favicon.ico').then(it => it.status)")
        assert seen == 204, seen
        return "204", self.whole(1)

    def query(self):
        """A target with a query is another one, which is not sold: nothing is paid, and the vendor's refusal is shown."""
        self.tab.load(self.nginx.url(target(1) + "?a=b"))
        said = self.refused("There is no such page.", "68 SiteRefused 30")
        self.opened(1)
        return said, self.whole(1)

    def causes(self):
        """A page of cause is one that a browser shows, also in place of a picture or a document."""
        self.all_are_pages("503", "There is no such page.")
        self.vendor.kill()
        for number in range(PIECES):
            self.fetched("/none%d.jpg" % number)
        self.tab.load(self.nginx.url("/none.jpg"))
        self.refused("No piece that is free is worth enough for a page here; the best is worth 0 ", "62 NoFunds 0")
        self.keep("nothing-held")
        self.vendor.start()
        for number in range(PIECES):
            assert "There is no such page." in self.fetched("/none%d.jpg" % number)[2]
        self.proxy.kill()
        self.all_are_pages("502", "does not run")
        self.proxy.start()
        return "%d endings: HTML, with a sentence" % len(ENDINGS), {}

    def another_site(self):
        """A picture that a page of another site shows is not paid for, nor one that it links to; past nginx it is."""
        server = http.server.ThreadingHTTPServer(("127.0.0.1", 0), Elsewhere)
        threading.Thread(target=server.serve_forever, daemon=True).start()
        asked = self.nginx.url(PICTURES[0])
        try:
            for count, host in enumerate(("localhost", "127.0.0.1"), 1):
                self.tab.load("http://%s:%d/?%s" % (host, server.server_port, asked))
                one_moment(lambda: self.answers(PICTURES[0]) == ["403"] * (2 * count - 1), "403")
                self.tab.events.clear()
                self.tab.begin("Runtime.evaluate", expression="document.querySelector('a').click()")
                assert self.tab.loaded()[asked].status == 403 and self.said().startswith("Not asked for\n"), "a link from %s was followed" % host
            self.tab.load("http://localhost:%d/?http://%s:%d%s" % (server.server_port, *self.proxy.address, PICTURES[1]))
            one_moment(lambda: self.market.accepted()[PICTURES[1]] > self.before[PICTURES[1]] and self.asked() == 0, "the payment")
        finally:
            server.shutdown()
            server.server_close()
        return "shown or linked to by another name or another port: 403; the proxy's own port takes it", {PICTURES[1]: 1}

    def another_name(self):
        """A name that was made to lead to this machine."""
        with Link(self.nginx.address) as link:
            link.send(b"GET %s HTTP/1.1\r\nHost: evil.example\r\n\r\n" % target(1).encode())
            got = link.socket.recv(100)
        assert got == b"", got
        return "no reply", {}

    def without_nginx(self):
        """The proxy's own port: a browser saves the page, which is paid for."""
        url = "http://%s:%d%s" % (*self.proxy.address, target(1))
        said = self.tab.call("Page.navigate", url=url)
        assert said.get("errorText") == "net::ERR_ABORTED", said
        return "not shown, but saved", {target(1): 1}

    def connections(self):
        """Past nginx: six connections that are kept open, with requests on each in turn, and silent ones beside them. Where the proxy
        ended one, it is asked on another. And one that is closed behind its request, whose page is paid for and lost."""
        asked = b"GET %s HTTP/1.1\r\nHost: 127.0.0.1\r\n\r\n" % target(1).encode()
        links, silent, ended = [Link(self.proxy.address) for _ in range(6)], [Link(self.proxy.address) for _ in range(6)], 0
        for _ in range(5):
            for i in range(len(links)):
                try:
                    reply = links[i].ask(asked)
                except OSError:
                    links[i].socket.close()
                    links[i], ended = Link(self.proxy.address), ended + 1
                    reply = links[i].ask(asked)
                assert reply.startswith(b"HTTP/1.1 200 "), reply
        with Link(self.proxy.address) as gone:
            gone.send(asked)
        one_moment(lambda: self.market.accepted()[target(1)] == self.before[target(1)] + 31 and self.asked() == 0, "the payment")
        for link in links + silent:
            link.socket.close()
        return "30 requests on six connections, of which %d met an end; one that was closed: paid for and lost" % ended, {target(1): 31}

    def vendor_killed(self):
        """The vendor's program is killed, and started again."""
        self.vendor.kill()
        seen = self.tab.load(self.nginx.url(target(1)))[self.nginx.url(target(1))].status
        said = self.refused("The vendor can't be reached now.", "81 UpstreamFault")
        assert seen == 503, seen
        self.keep("unpaid")
        self.vendor.start()
        self.tab.reload()
        self.shown(1)
        return "503, %s; loaded again: shown" % said, self.whole(1)

    def vendor_killed_asked(self):
        """The same while it has the request of a page, before it has entered it or behind that."""
        for _ in range(3):
            self.vendor.server.send_signal(signal.SIGSTOP)
            self.tab.events.clear()
            self.tab.begin("Page.navigate", url=self.nginx.url(target(1)))
            one_moment(lambda: self.asked() == 1, "the request")
            time.sleep(0.1)
            self.vendor.kill()
            self.tab.loaded()
            said = self.said()
            assert said.startswith("Not paid for\n"), said
            self.vendor.start()
        self.opened(1)
        return "three times, %s; opened again: shown" % said.splitlines()[-1], self.whole(1)

    def proxy_killed(self):
        """The proxy is killed, and started again."""
        self.proxy.kill()
        self.tab.load(self.nginx.url(target(1)))
        said = self.said()
        assert said.startswith("Not running\n"), said
        self.proxy.start()
        self.tab.reload()
        self.shown(1)
        return "not running; loaded again: shown", self.whole(1)

    def proxy_killed_asking(self):
        """The same while it waits for the vendor, who takes the payment."""
        with self.held():
            self.tab.events.clear()
            self.tab.begin("Page.navigate", url=self.nginx.url(target(1)))
            one_moment(lambda: self.asked() == 1, "the request")
            self.proxy.kill()
            self.tab.loaded()
        one_moment(lambda: self.market.accepted() != self.before, "the payment")
        self.proxy.start()
        self.tab.reload()
        self.shown(1)
        return "the vendor took it; loaded again, with his first reply: shown", self.whole(1)

    def kills(self):
        """Vendor and proxy are killed at random moments and started again, while pages are opened past what is kept. A page may be paid for
        again where the proxy was killed behind its payment."""
        ended, killed = threading.Event(), Counter()
        began = time.monotonic()
        self.opened(1)
        usual = time.monotonic() - began

        def kill():
            while not ended.wait(random.uniform(0, 4 * usual)):
                which = random.choice((self.proxy, self.vendor))
                which.kill()
                killed[which] += 1
                time.sleep(random.choice((0, random.uniform(0, usual))))
                which.start()
        killer = threading.Thread(target=kill)
        killer.start()
        shown = 0
        try:
            for i in range(ROUNDS):
                self.tab.load(self.nginx.url(target(i % len(PAGES) + 1)))
                self.tab.reload(is_forced=True)
                shown += self.tab.value("document.images.length") == len(PICTURES)
        finally:
            ended.set()
            killer.join()
        for number in PAGES:
            self.tab.load(self.nginx.url(target(number)))
            self.tab.reload(is_forced=True)
            self.shown(number)
        assert self.asked() == 0, "%d requests stay kept" % self.asked()
        said = "%d kills of the proxy and %d of the vendor beside %d loads, of which %d were shown"
        return said % (killed[self.proxy], killed[self.vendor], ROUNDS, shown), None

    def over_budget(self):
        """A piece that is worth more than the budget."""
        self.proxy.end()
        least = min(worth for worth in self.worths() if worth >= LIMIT)
        self.proxy.start(budget=least - 1)
        seen = self.tab.load(self.nginx.url(target(1)))[self.nginx.url(target(1))].status
        said = self.refused("The budget does not allow for another piece: 0 thousandths", "79 OverBudget 0")
        assert seen == 402, seen
        self.keep("over")
        return "402, %s" % said, {}

    def worths(self):
        """What the held pieces of the vendor are worth."""
        holdings = millicent.WalletBook(self.wallet.entries()).holdings()
        pieces = [millicent.read_scrip(text) for state, text, _ in holdings if state == "held"]
        return [piece.value for piece in pieces if piece.vendor == NAME.encode()]


class Measured:
    """A page through the proxy, beside the same page paid for with a piece, in turns."""

    def __init__(self, market):
        self.market = market
        _, self.piece, self.secret = next(it for it in millicent.WalletBook(market.hand.entries()).holdings() if it[0] == "held"
                                          and millicent.read_scrip(it[1]).vendor == NAME.encode())
        self.proxy = Proxy(market.wallet, market.vendor)
        self.nginx = Nginx(os.path.join(market.folder, "nginx"), self.proxy)
        self.proxy.start(links=LINKS)

    def curl(self, address, *fields):
        """The head of the reply, and how long it took curl, in milliseconds."""
        words = ["curl", "-sS", "-D", "-", "-o", "/dev/null", "-w", "%{time_total}", "http://%s:%d%s" % (*address, target(1))]
        ran = subprocess.run(words + [word for field in fields for word in ("-H", field)], check=True, stdout=subprocess.PIPE)
        head, _, took = ran.stdout.rpartition(b"\r\n\r\n")
        assert head.startswith(b"HTTP/1.1 200 "), head
        return millicent.Reply(head + b"\r\n\r\n"), float(took) * 1e3

    def by_piece(self):
        """The page paid for with a piece, whose change is the next piece."""
        at = target(1).encode()
        sign = millicent.request_signature(self.piece, at, self.secret).hex()
        self.market.others.add((self.piece, at))
        reply, took = self.curl(self.market.vendor.address, "Millicent-Scrip: " + self.piece.decode(), "Millicent-Sign: " + sign)
        self.piece = reply.field(b"Change")
        return took

    def pages(self, count):
        """Pages by curl each way, in turns: a line for each, and what the proxy adds."""
        ways = {"with a piece": self.by_piece,
                "through the proxy": lambda: self.curl(self.proxy.address)[1],
                "through nginx and the proxy": lambda: self.curl(self.nginx.address, "Cache-Control: no-cache")[1],
                "kept by nginx": lambda: self.curl(self.nginx.address)[1]}
        took = {what: [] for what in ways}
        for _ in range(count):
            for what, way in ways.items():
                took[what].append(way())
        took["added by the proxy"] = [b - a for a, b in zip(took["with a piece"], took["through the proxy"])]
        took["added by nginx and the proxy"] = [b - a for a, b in zip(took["with a piece"], took["through nginx and the proxy"])]
        for what, each in took.items():
            print("%-30s p50 %7.2f ms, p99 %7.2f" % (what, statistics.median(each), sorted(each)[len(each) * 99 // 100]), flush=True)

    def rate(self, count):
        """Pages a second, a connection each, beside a loop of the same entries on the disk."""
        before = os.path.getsize(self.market.wallet.book), os.path.getsize(self.market.vendor.book)
        here, disk = beside_the_disk(self.market, self.proxy, count)
        sizes = [(os.path.getsize(site.book) - size) / count for site, size in zip((self.market.wallet, self.market.vendor), before)]
        print("%.0f pages a second, the disk's limit of two entries, four syncs: %.0f, %.2f of it; with the vendor's entry, which is on the "
              "same disk here, %.2f of the limit of six; %.0f bytes of the wallet's book and %.0f of the vendor's a page"
              % (count / here, count / disk, disk / here, 1.5 * disk / here, *sizes))

    def end(self):
        self.nginx.stop()
        self.proxy.kill()
        self.market.agree()


NAMES = ("page by_name reload forced_reload script ten_tabs ten_pages cancelled tab_closed head second_page ahead icon query causes another_site "
         "another_name without_nginx connections vendor_killed vendor_killed_asked proxy_killed proxy_killed_asking kills over_budget").split()


def main():
    words = argparse.ArgumentParser(usage="browse.py [--pictures FOLDER] [--pages COUNT] [TRY..]")
    words.add_argument("--pictures")
    words.add_argument("--pages", type=int, default=300)
    words.add_argument("names", nargs="*", default=NAMES)
    given = words.parse_args()
    for tool in ("nginx", "chromium", "curl"):
        if not shutil.which(tool):
            millicent.leave(1, "%s is not installed" % tool)
    held = 0
    with tempfile.TemporaryDirectory(prefix="millicent-") as folder:
        market = Market(folder)
        try:
            tries = Tries(market, given.pictures)
            for name in given.names:
                try:
                    print("%-20s %s" % (name, tries.make(name)), flush=True)
                    held += 1
                except (AssertionError, OSError, LookupError) as e:
                    market.wrongs.clear()
                    print("%-20s DOES NOT HOLD: %s" % (name, e or type(e).__name__), flush=True)
            if given.pages:
                measured = Measured(market)
                try:
                    measured.pages(given.pages)
                    measured.rate(given.pages)
                finally:
                    measured.end()
        finally:
            market.end()
        print("the audit of the bank and the vendor:", market.audit())
    print("%d of %d tries hold" % (held, len(given.names)))
    return held < len(given.names)


if __name__ == "__main__":
    raise SystemExit(main())
