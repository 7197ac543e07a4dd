#!/usr/bin/env python3
"""Sells one page through everything that joins the parts of the program: a vendor founds, mints and serves, a wallet takes the
piece, `wallet proxy .. 1` pays for what one GET asks over loopback, and both books have the payment. It takes a second."""
import re
import subprocess
import sys
import threading
from pathlib import Path

sys.path.insert(0, str(Path(__file__).resolve().parents[1] / "lib"))

import millicent  # noqa: E402
from serving import PROGRAM, Link, run  # noqa: E402
from shop import CONTENTS, NAME, PRICE, TARGET, Shop  # noqa: E402

PIECE, SECONDS = PRICE + 75, 20


def proxied(book, vendor):
    """Serves one link out of a wallet's book, and asks for the page on it: the reply, and how the program ended."""
    words = [PROGRAM, "wallet", "proxy", book, NAME.decode(), str(PRICE), str(PIECE), "127.0.0.1:0", "%s:%d" % vendor, "1"]
    proxy = subprocess.Popen(words, stdout=subprocess.PIPE, stderr=subprocess.PIPE)
    killer = threading.Timer(SECONDS, proxy.kill)
    killer.start()
    try:
        first = proxy.stderr.readline()
        port = re.fullmatch(rb"millicent: w listens at 127\.0\.0\.1:(\d+), \d+ entries\n", first)
        reply = b""
        if port:
            with Link(("127.0.0.1", int(port[1])), SECONDS) as link:
                reply = link.ask(b"GET %s HTTP/1.1\r\nHost: localhost\r\nConnection: close\r\n\r\n" % TARGET)
        said, told = proxy.communicate()
        return reply, (proxy.returncode, said), (first + told).decode()
    finally:
        killer.cancel()
        proxy.kill()


def payments(shop):
    """The prices of the payments that the vendor's book has."""
    return [entry.price for entry in shop.entries() if entry.kind == millicent.ACCEPT]


def main():
    with Shop() as shop:
        piece, secret = shop.minted(PIECE, "smoke")
        wallet = shop.folder.name + "/wallet.book"
        said = [run(["wallet", "init", wallet, "w"]), run(["wallet", "take", wallet], b"%s %s\n" % (piece, secret.hex().encode()))]
        shop.start(links=2)
        reply, ended, told = proxied(wallet, shop.address)
        if not reply:
            shop.kill()
        stopped = shop.server.communicate(timeout=SECONDS)[0] if reply else b"", shop.server.returncode
        results = {
            "the wallet was founded and took the piece": [status for status, _ in said] == [0, 0],
            "the page came": reply.startswith(b"HTTP/1.1 200 ") and reply.endswith(b"\r\n\r\n" + CONTENTS),
            "the proxy paid for one link: %d %r %s" % (*ended, told.strip()): ended == (0, b"proxied 1 %d\n" % PRICE),
            "the vendor served it: %r %d" % stopped: stopped == (b"served 2\n", 0),
            "the vendor's book has the payment": payments(shop) == [PRICE],
            "the wallet holds the change": b"\nheld %s %d " % (NAME, PIECE - PRICE) in run(["wallet", "list", wallet])[1],
        }
    for what, held in results.items():
        print("yes:" if held else "NO: ", what)
    return not all(results.values())


if __name__ == "__main__":
    raise SystemExit(main())
