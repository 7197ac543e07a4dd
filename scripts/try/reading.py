#!/usr/bin/env python3
"""Has the program read a book slowly, and looks at what standard error gets: on a terminal one line that is written over and over and wiped at
the end, and where it is none nothing. Then a disk gives no byte from a place in the middle of the book on, and the program has to end with 4, say
where, and leave the book as it was.

    scripts/try/reading.py [PAYMENTS]

The book has so many payments (20,000). It prints a line for each try, and the status is 1 where one does not hold. It takes a minute, since each read
of a book takes 0.4 seconds then, by `reads.c`, for which it wants a C compiler, `cc`."""
import os
import pty
import re
import subprocess
import sys
import tempfile
from pathlib import Path

sys.path.insert(0, str(Path(__file__).resolve().parents[1] / "lib"))

from long_book import LongShop  # noqa: E402
from serving import PROGRAM  # noqa: E402

PAUSE = 400_000
WIPED = "\r\x1b[K"
LINE = re.compile(r"([^ ,]+), reading ([1-9]): ([0-9]+) % of ([0-9]+) MB, ([0-9]+) s left")


def slow(library, **more):
    """The environment of a program whose reads are slow, or end early."""
    return {**os.environ, "LD_PRELOAD": library, **{name: str(value) for name, value in more.items()}}


def on_terminal(words, room, both):
    """The status, what the terminal got that is standard error, of `both` standard output too, and what else was printed."""
    near, far = pty.openpty()
    process = subprocess.Popen(words, env=room, stdin=subprocess.DEVNULL, stdout=far if both else subprocess.PIPE, stderr=far)
    os.close(far)
    got = b""
    while True:
        try:
            more = os.read(near, 65_536)
        except OSError:
            more = b""
        if not more:
            break
        got += more
    os.close(near)
    printed = b"" if both else process.stdout.read()
    return process.wait(), got.decode().replace("\r\n", "\n"), printed.decode()


def lines_of(got, path):
    """The lines that show how far a reading is, as pairs of reading and percent, and what the terminal shows in the end. The lines of each reading
    have to rise, and each is wiped before anything else is written."""
    first, *parts = got.split(WIPED)
    shown, at_end = [], first
    for number, part in enumerate(parts, 1):
        line = LINE.fullmatch(part)
        if line and number < len(parts):
            assert path.endswith(line[1]), "another path: %r" % part
            shown.append((int(line[2]), int(line[3])))
        else:
            assert " % of " not in part, "not wiped, or another form: %r" % part
            at_end += part
    assert shown == sorted(set(shown)), "not in order: %r" % shown
    return shown, at_end


class Tries:
    def __init__(self, shop, library):
        self.shop, self.library, self.faults = shop, library, 0
        self.size = os.path.getsize(shop.book)
        self.before = shop.bytes()

    def words(self, *words):
        return [PROGRAM, *(self.shop.book if word == "BOOK" else word for word in words)]

    def hold(self, name, holds, what):
        print("%s: %s%s" % (name, "" if holds else "DOES NOT HOLD: ", what), flush=True)
        self.faults += not holds

    def terminal(self, name, words, end, readings, both=False):
        """A command on a terminal, which shows each of these readings and ends with this status and what is printed."""
        status, got, printed = on_terminal(self.words(*words), slow(self.library, PAUSE=PAUSE), both)
        try:
            shown, at_end = lines_of(got, self.shop.book)
        except AssertionError as fault:
            return self.hold(name, False, str(fault))
        said = at_end if both else printed
        holds = status == end[0] and end[1].fullmatch(said) and (both or not at_end) and {r for r, _ in shown} == readings
        return self.hold(name, holds, "status %s, %d lines of readings %s, then %r" % (status, len(shown), sorted({r for r, _ in shown}), said))

    def none(self, name, words):
        """The same command where standard error is no terminal."""
        ran = subprocess.run(self.words(*words), env=slow(self.library, PAUSE=PAUSE), stdin=subprocess.DEVNULL, stdout=subprocess.PIPE,
                             stderr=subprocess.PIPE)
        self.hold(name, ran.returncode == 0 and not ran.stderr, "status %d, %r on standard error" % (ran.returncode, ran.stderr.decode()))

    def short(self, name, words):
        """A command in whose second reading no byte comes from the middle on."""
        ran = subprocess.run(self.words(*words), env=slow(self.library, SHORT=2, END=self.size // 2), stdin=subprocess.DEVNULL,
                             stdout=subprocess.PIPE, stderr=subprocess.PIPE)
        told = re.fullmatch(r"millicent: %s: unexpected end of file: the book has %d bytes, ([0-9]+) were read\n"
                            % (re.escape(self.shop.book), self.size), ran.stderr.decode())
        holds = ran.returncode == 4 and ran.stdout == b"disk fault\n" and told and self.shop.bytes() == self.before
        self.hold(name, holds, "status %d, %r on standard error" % (ran.returncode, ran.stderr.decode()))


def damage(shop):
    """The last tenth of the book gets an entry of no kind."""
    data = bytearray(shop.bytes())
    data[data.rindex(b"\1\0\0", 0, len(data) * 9 // 10) + 5] = 0xff
    with open(shop.book, "wb") as file:
        file.write(data)


def main():
    count = int(sys.argv[1]) if len(sys.argv) > 1 else 20_000
    with tempfile.TemporaryDirectory(prefix="millicent-") as folder, LongShop(count) as shop:
        library = os.path.join(folder, "reads.so")
        subprocess.run(["cc", "-O2", "-shared", "-fPIC", "-o", library, Path(__file__).with_name("reads.c"), "-ldl"], check=True)
        tries, words = Tries(shop, library), ("audit", "chain", "BOOK")
        chain, bad = (re.compile(form) for form in (r"chain news\.example %d [0-9a-f]{64}\n" % (count + 3), r"bad entry at [0-9]+\n"))
        tries.short("no byte from the middle on", ("vendor", "chain", "BOOK"))
        tries.terminal("standard error is a terminal", words, (0, chain), {1, 2})
        tries.terminal("standard output, too", words, (0, chain), {1, 2}, both=True)
        tries.none("no terminal", words)
        damage(shop)
        tries.terminal("a bad entry, on a terminal", words, (3, bad), {1, 2}, both=True)
        return tries.faults > 0


if __name__ == "__main__":
    raise SystemExit(main())
