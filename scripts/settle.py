#!/usr/bin/env python3
"""Gives up the oldest request to a site that a wallet keeps and that no reply of the site can settle: a draw with a wrong key or account, or
a piece that was taken with a wrong secret.

    python3 scripts/settle.py BOOK PEER [--refuse]

It says which request that is. With `--refuse` it listens on 127.0.0.1, has the program ask there (`wallet retry`), and refuses the
request with the signature of the request's own secret: a draw with 42, a piece with 27. So the wallet settles it, and goes on.
What it costs: a draw that was paid after all is lost, and the piece is `disputed` and pays no more. So ask the site first, and its operator. The
status is 0 where the request was settled."""
import argparse
import socket
import subprocess
import sys
import time
from pathlib import Path

sys.path.insert(0, str(Path(__file__).resolve().parent / "lib"))

import millicent  # noqa: E402
from forms import reply_signature  # noqa: E402
from ledger import reply_bytes  # noqa: E402
from millicent import WalletBook  # noqa: E402
from refusals import refused  # noqa: E402
from serving import PROGRAM  # noqa: E402
from wallet import DRAW  # noqa: E402


def refusal_of(request):
    """A refusal of the request, signed with its secret."""
    refusal = refused(42, 0) if request.ask == DRAW else refused(27)
    head = b"%d %s - -\n" % (refusal.status, refusal.text().encode())
    sign = reply_signature(request.paid, request.target, head, b"", request.secret)
    return reply_bytes(refusal.status, int(time.time()), None, refusal.text(), "-", "-", sign.hex(), b"")


def answer(listener, request):
    """Takes one link, on which the request has to come, and refuses it."""
    link, _ = listener.accept()
    with link:
        link.settimeout(10)
        asked = b""
        while not asked.endswith(b"\r\n\r\n") and (more := link.recv(8_192)):
            asked += more
        if asked != request.sent():
            millicent.leave(1, "another request came: %r" % asked)
        link.sendall(refusal_of(request))


def refuse(path, peer, request):
    with socket.create_server(("127.0.0.1", 0)) as listener:
        listener.settimeout(10)
        words = [PROGRAM, "wallet", "retry", path, peer, "127.0.0.1:%d" % listener.getsockname()[1]]
        asking = subprocess.Popen(words, stdout=subprocess.PIPE)
        try:
            answer(listener, request)
        except OSError as error:
            print("no request came: %s" % error)
        said = asking.communicate()[0].decode().strip()
    print(said)
    return not said.startswith("refused 68 SiteRefused")


def main():
    words = argparse.ArgumentParser(usage="settle.py BOOK PEER [--refuse]")
    words.add_argument("book")
    words.add_argument("peer")
    words.add_argument("--refuse", action="store_true")
    given = words.parse_intermixed_args()
    book = WalletBook(millicent.read_book(given.book))
    number = book.oldest_kept(given.peer.encode())
    if number is None:
        millicent.leave(1, "no request to %s is unsettled" % given.peer)
    request = book.requests[number]
    print("request %d: %s, %s" % (number, request.target.decode(), paid_with(request)))
    return refuse(given.book, given.peer, request) if given.refuse else 0


def paid_with(request):
    if request.scrip is None:
        return "a draw"
    piece = millicent.read_scrip(request.scrip)
    return "paid with %016x, worth %d" % (piece.id, piece.value)


if __name__ == "__main__":
    raise SystemExit(main())
