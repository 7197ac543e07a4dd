#!/usr/bin/env python3
"""Pays for a page with curl, shows the change, and pays again with the same request."""
import subprocess
import sys
from pathlib import Path

sys.path.insert(0, str(Path(__file__).resolve().parents[1] / "lib"))

from millicent import Reply, reply_sign, request_signature  # noqa: E402
from shop import PRICE, TARGET, Shop  # noqa: E402


def main():
    with Shop() as shop:
        piece, secret = shop.minted(PRICE + 75, "pay")
        sign = request_signature(piece, TARGET, secret).hex()
        url = "http://%s:%d%s" % (*shop.address, TARGET.decode())
        words = ["curl", "-s", "-i", "-H", "Millicent-Scrip: " + piece.decode(), "-H", "Millicent-Sign: " + sign, url]
        shop.start(links=3)
        print("a page of", PRICE, "paid with a piece of", PRICE + 75, "by:\n")
        print("curl -s -i -H '%s' -H '%s' %s\n" % (words[4], words[6], words[7]))
        first, second = (subprocess.run(words, check=True, stdout=subprocess.PIPE).stdout for _ in range(2))
        print(first.decode())
        reply = Reply(first)
        print("change:", reply.field(b"Change").decode())
        said, _ = shop.server.communicate(timeout=30)
        results = {
            "the page was paid": reply.status == b"200",
            "the reply is signed for this request": reply.field(b"Sign").decode() == reply_sign(piece, TARGET, reply, secret).hex(),
            "the same request got the same reply": first == second,
            "the program ended: " + said.decode().strip(): shop.server.returncode == 0,
        }
        for what, held in results.items():
            print("yes:" if held else "NO: ", what)
        return not all(results.values())


if __name__ == "__main__":
    raise SystemExit(main())
