"""What stands between a browser and a vendor, for `browse.py`: a market of a bank and a vendor of pages with parts, `wallet proxy` over a
customer's book, and nginx with the file of `examples/proxy`."""
import os
import socket
import struct
import subprocess
import time
import zlib
from collections import Counter
from pathlib import Path

import millicent
from bank import Bank
from customer import Wallet, compare
from pages import Vendor
from serving import LINK_FAULT, PROGRAM, Link, free_port
from timing import Beside

NAME, ACCOUNT, KEEP = "news.example", "ann", 86_400
LIMIT, BUDGET, PIECES, PIECE = 25, 10**7, 3, 100_000
# Links of the proxy of a try: more than it takes.
ENOUGH = 400
SETTINGS = Path(__file__).resolve().parents[2] / "examples/proxy/nginx.conf"
STYLE, PICTURES = "/look.css", ("/sun.png", "/town.png")
PARTS = {STYLE: 5, PICTURES[0]: 10, PICTURES[1]: 10}
PAGES = range(1, 4)
PRICE = 25
# A page that has another one fetched ahead.
AHEAD = "/ahead"
CSS = b"body { background: #fffbe8; font: 20px serif; margin: 2em } h1 { color: #a03020 } img { border: 4px solid #a03020; margin: 6px }\n"
LOOK = "rgb(255, 251, 232)"


def page(number):
    """The contents of a page: HTML with a style sheet, two pictures and a link to the next one."""
    lines = ["<!doctype html>", "<title>Page %d</title>" % number, "<link rel=stylesheet href=%s>" % STYLE,
             "<h1>Caf\u00e9 news, page %d</h1>" % number, "<p>All of this page was paid for.</p>",
             "".join("<img src=%s>" % picture for picture in PICTURES),
             "<p><a href=%s>The next page</a></p>" % target(number % len(PAGES) + 1)]
    return "\n".join(lines).encode() + b"\n"


def target(number):
    return "/news/%d" % number


def picture(width, height, color_of):
    """A PNG of these colors."""
    rows = b"".join(b"\0" + bytes(c for x in range(width) for c in color_of(x, y)) for y in range(height))
    header = struct.pack(">IIBBBBB", width, height, 8, 2, 0, 0, 0)
    chunks = (b"IHDR", header), (b"IDAT", zlib.compress(rows, 9)), (b"IEND", b"")
    return b"\x89PNG\r\n\x1a\n" + b"".join(
        struct.pack(">I", len(data)) + name + data + struct.pack(">I", zlib.crc32(name + data)) for name, data in chunks)


def sun(x, y):
    return (250, 190, 40) if (x - 60) ** 2 + (y - 45) ** 2 < 900 else (90, 150 + y, 230)


def town(x, y):
    return (70, 60, 90) if y > 30 + (x // 20 * 37) % 40 else (240, 170 - y, 120)


def one_moment(probe, what, seconds=20):
    """Waits until this is so."""
    until = time.monotonic() + seconds
    while not probe():
        assert time.monotonic() < until, "%s did not come to be" % what
        time.sleep(0.02)


def connects(address):
    """Whether somebody listens at a host and a port, or at a path."""
    try:
        if isinstance(address, str):
            with socket.socket(socket.AF_UNIX) as it:
                it.settimeout(5)
                it.connect(address)
            return True
        return bool(socket.create_connection(address, 5).close() or True)
    except OSError:
        return False


class Proxy:
    """`wallet proxy` over a wallet's book."""

    def __init__(self, wallet, vendor, path=None):
        """Listens at a port of its own, or at the path of a Unix socket."""
        self.wallet, self.vendor = wallet, vendor
        self.address, self.process = path or ("127.0.0.1", free_port()), None
        self.listen = path or "%s:%d" % self.address

    def start(self, budget=BUDGET, links=ENOUGH):
        """Runs it, and takes one of its links to see that it does."""
        words = [PROGRAM, "wallet", "proxy", self.wallet.book, NAME, str(LIMIT), str(budget),
                 self.listen, "%s:%d" % self.vendor.address, str(links)]
        for _ in range(100):
            self.process, self.links, self.paid = subprocess.Popen(words, stdout=subprocess.PIPE, **self.wallet.how), links, self.booked()
            while self.process.poll() is None:
                if connects(self.address):
                    return
                time.sleep(0.01)
            assert self.process.returncode == LINK_FAULT, "the proxy ended with %d" % self.process.returncode
            time.sleep(0.1)

    def booked(self):
        """What the wallet's book has as paid."""
        return sum(entry.price for entry in self.wallet.entries() if entry.kind == millicent.DONE)

    def is_up(self):
        return self.process is not None and self.process.poll() is None

    def kill(self):
        self.process.kill()
        self.process.communicate()

    def end(self):
        """Uses up the links that are left, by ones that ask nothing. What was paid, as it says and as its book has it."""
        until = time.monotonic() + 60
        while self.is_up() and time.monotonic() < until:
            connects(self.address)
        said = self.process.communicate(timeout=60)[0].decode()
        paid = self.booked() - self.paid
        assert (self.process.returncode, said) == (0, "proxied %d %d\n" % (self.links, paid)), (
            "the proxy ended with %d and said %r, and %d was paid" % (self.process.returncode, said, paid))
        return paid

    def stop(self):
        if self.is_up():
            self.kill()


def beside_the_disk(market, proxy, count):
    """How long so many pages take through the proxy, a connection each, and a loop of their two entries on the disk, in turns."""
    asked = b"GET %s HTTP/1.1\r\nHost: 127.0.0.1\r\nConnection: close\r\n\r\n" % target(1).encode()
    here = disk = 0.0
    beside = Beside(os.path.join(market.folder, "beside"), 150)
    for _ in range(count):
        start = time.perf_counter()
        with Link(proxy.address) as link:
            assert link.ask(asked).startswith(b"HTTP/1.1 200 ")
        middle = time.perf_counter()
        beside.add()
        beside.add()
        here, disk = here + middle - start, disk + time.perf_counter() - middle
    return here, disk


class Nginx:
    """nginx with the file of `examples/proxy`, with other ports and another folder, and nothing in its cache."""

    def __init__(self, folder, proxy):
        self.folder, self.address = folder, ("127.0.0.1", free_port())
        os.mkdir(folder)
        settings = SETTINGS.read_text()
        for old, new in (("unix:/run/millicent-proxy/socket", ("unix:" if proxy.listen.startswith("/") else "") + proxy.listen),
                         ("127.0.0.1:8080", "%s:%d" % self.address), ("/var/cache/millicent", folder + "/cache")):
            assert old in settings, "%s is not in %s" % (old, SETTINGS)
            settings = settings.replace(old, new)
        Path(folder, "paid.conf").write_text(settings)
        temporary = "".join("%s_temp_path %s/%s;\n" % (it, folder, it) for it in ("client_body", "proxy", "fastcgi", "uwsgi", "scgi"))
        Path(folder, "nginx.conf").write_text(
            "%sdaemon off;\npid %s/pid;\nerror_log %s/error.log;\nworker_processes 1;\nevents { }\n"
            "http {\nlog_format told '$status $upstream_cache_status $request_method $request_uri';\naccess_log %s/access.log told;\n"
            "%sinclude %s/paid.conf;\n}\n"
            % ("user root;\n" if os.geteuid() == 0 else "", folder, folder, folder, temporary, folder))
        words = ["nginx", "-p", folder, "-e", folder + "/error.log", "-c", folder + "/nginx.conf"]
        self.process = subprocess.Popen(words, stdin=subprocess.DEVNULL)
        one_moment(lambda: connects(self.address) or self.process.poll() is not None, "nginx")
        assert self.process.poll() is None, Path(folder, "error.log").read_text()

    def url(self, what, host=None):
        return "http://%s:%d%s" % (host or self.address[0], self.address[1], what)

    def stop(self):
        self.process.terminate()
        self.process.wait(60)

    def answers(self):
        """What it was asked for: the status, whether it was kept, the word and the target of each request."""
        return [line.split() for line in Path(self.folder, "access.log").read_text().splitlines()]

    def faults(self):
        """What it says went wrong, with the proxy or by itself."""
        return Path(self.folder, "error.log").read_text()


class Market:
    """A bank with a vendor's licence, the vendor, and the wallet of a customer with some pieces."""

    def __init__(self, folder):
        self.folder, self.wrongs, self.others = folder, [], set()
        self.bank, self.vendor = Bank(folder, KEEP), Vendor(folder, NAME, KEEP)
        self.sites = {"bank": self.bank, NAME: self.vendor}
        self.bank.found()
        self.bank.open(ACCOUNT, 10**9)
        self.bank.command("licence", contents=self.vendor.licence())
        for number in PAGES:
            self.sell(target(number), PRICE, page(number), 2)
        ahead = page(2).replace(b"<h1>", b"<link rel=prefetch href=%s><h1>" % target(3).encode())
        self.sell(AHEAD, PRICE, ahead, 2)
        self.sell(STYLE, PARTS[STYLE], CSS)
        for name, color_of in zip(PICTURES, (sun, town)):
            self.sell(name, PARTS[name], picture(160, 90, color_of))
        self.bank.start()
        self.vendor.start()
        self.wallet, self.hand = Wallet(folder, Counter(), self.wrongs.append), Wallet(self.folder_of("hand"), Counter(), self.wrongs.append)
        for order, wallet, count in ((1, self.wallet, PIECES), (2, self.hand, 1)):
            address = "%s:%d" % self.bank.address
            wallet.sure("draw", "bank", ACCOUNT, self.bank.keys[ACCOUNT].hex(), str(order), str((PIECE + 1) * count), address)
            for _ in range(count):
                wallet.sure("buy", "bank", NAME, str(PIECE), str(PIECE + 1), address)
        self.others |= {(entry.scrip, entry.target) for entry in self.hand.entries() if entry.kind == millicent.PEND}

    def folder_of(self, name):
        os.mkdir(os.path.join(self.folder, name))
        return os.path.join(self.folder, name)

    def sell(self, what, price, contents, kind=0):
        self.vendor.command("goods", what, str(price), "--kind", str(kind), contents=contents)

    def accepted(self):
        """How often the vendor was paid for each target."""
        return Counter(entry.target.decode() for entry in self.vendor.entries() if entry.kind == millicent.ACCEPT)

    def agree(self):
        """The wallet's book and the sites' have the same payments."""
        compare(self.wallet.entries(), self.sites, self.wrongs.append, self.others)
        assert not self.wrongs, "; ".join(self.wrongs)

    def audit(self):
        ran = subprocess.run([PROGRAM, "audit", "report", self.bank.book, self.vendor.book], stdout=subprocess.PIPE)
        assert ran.returncode == 0 and ran.stdout.endswith(b"\nbalanced\n"), "status %d, %r" % (ran.returncode, ran.stdout)
        return " / ".join(ran.stdout.decode().splitlines()[-2:])

    def end(self):
        for site in self.sites.values():
            site.end()
