"""A vendor of one page in a folder for the scripts: its book, the licence that it gives, and what it mints."""
import time
from types import SimpleNamespace

import millicent
from serving import Site, secret, words_of

PAGE, PRICE = b"/page", 20
# The serial of a piece that is made behind a broker's back: he comes to none such.
FORGED = 2**31


class Vendor(Site):
    """A vendor of one page."""
    role = "vendor"

    def __init__(self, folder, name, keep):
        super().__init__(folder, name)
        self.name, self.own = name, millicent.Terms(0, 4096, 8192, (secret(),), (secret(),))
        self.command("init", name, *words_of(self.own), "--keep", str(keep), "--clear")
        self.command("goods", PAGE.decode(), str(PRICE), contents=b"A page of %s.\n" % name.encode())

    def licence(self):
        """The licence of a broker."""
        self.licensed = millicent.Terms(1, 4096, 8192, (secret(),), (secret(),))
        return self.command("licence", "1", *words_of(self.licensed)).encode()

    def forged(self, value):
        """A piece under the licence that the broker never sold, and its secret."""
        ident = millicent.id_of(1, self.licensed.epoch(int(time.time())), FORGED)
        return SimpleNamespace(text=millicent.scrip(self.licensed, self.name.encode(), value, ident), secret=self.licensed.secret(ident))

    def mint(self, count, value, reference):
        """The lines of pieces of the vendor's own."""
        return self.command("mint", str(count), str(value), reference).encode()
