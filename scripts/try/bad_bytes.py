#!/usr/bin/env python3
"""Tells a shop's door bytes that are no command of its operator, or none that may be done, by the thousand: random ones, commands that are
cut, with one byte changed, with a wrong length, with broken UTF-8, with lines that are too long, without an end, several behind one
another. Each connection gets the answers that docs/FORMATS.md has, `bad words` or a refusal for each link, and then its end; the book stays
as it is, byte for byte, and customers pay meanwhile.

    scripts/try/bad_bytes.py [COUNT] [SEED]

COUNT is how many connections there are (5,000), of which it leaves out those for which 50 seconds are too short. The same SEED makes the
same bytes. The status is 1 where something does not hold."""
import os
import random
import subprocess
import sys
import time
from collections import Counter
from pathlib import Path

sys.path.insert(0, str(Path(__file__).resolve().parents[1] / "lib"))

from paying import fresh, took  # noqa: E402
from serving import Door, Link  # noqa: E402
from shop import Shop  # noqa: E402

SECONDS = 50
# Of a first line with its end, and of an input.
LINE, INPUT = 8192, 131_073
BAD = b"2 10\nbad words\n"
ANSWERS = BAD, b"7 21\nrefused 52 WrongKind\n", b"7 23\nrefused 30 NoSuchGoods\n"
# None of these is done, and with one byte changed none is either: each has two faults, or is of what is not there.
COMMANDS = (b"0 vendor price - /none/1 30\n", b"0 vendor price - 5 0\n", b"14 vendor goods - x 0 --kind 1\nGood morning.\n",
            b"0 vendor mint - 9999 0 m1\n", b"0 broker balance - ann\n", b"0 broker deposit - ann 500 r1\n",
            b"0 broker account - ann 0123456789abcdef0123456789abcdef\n", b"7 vendor licence - 5 9 9 x\nlicence\n", b"0 vendor\n", b"0 \n")


def spelled(number):
    """The length that the bytes spell, if any."""
    return int(number) if number.isdigit() and len(number) <= 6 and str(int(number)).encode() == number and int(number) <= INPUT else None


def links_in(data):
    """How many links these bytes are, and whether nobody knows where the next would begin."""
    count = 0
    while True:
        at = data[:LINE].find(b"\n")
        if at < 0:
            return (count + 1, True) if len(data) >= LINE else (count, False)
        number, space, _ = data[:at].partition(b" ")
        length = spelled(number) if space else None
        if length is None:
            return count + 1, True
        if at + 1 + length > len(data):
            return count, False
        count, data = count + 1, data[at + 1 + length:]


def command(chance):
    return chance.choice(COMMANDS)


def noise(chance):
    return chance.randbytes(chance.randint(0, 300))


def cut(chance):
    whole = command(chance)
    return whole[:chance.randrange(len(whole))]


def changed(chance):
    whole = bytearray(command(chance))
    whole[chance.randrange(len(whole))] = chance.choice((chance.randrange(256), chance.choice(b" \n\r\0-/019")))
    return bytes(whole)


def of_wrong_length(chance):
    number, _, behind = command(chance).partition(b" ")
    length = int(number)
    wrong = chance.choice((b"0%d" % length, b"+%d" % length, b"-1", b"", b"x", b"%d" % (length + 1), b"%d" % max(length - 1, 0), b"%d" % INPUT,
                           b"%d" % (INPUT + 1), b"9" * chance.randint(6, 40), b" %d" % length))
    return wrong + b" " + behind


def no_text(chance):
    whole = command(chance)
    at = chance.randrange(whole.index(b"\n") + 1)
    return whole[:at] + chance.choice((b"\xff", b"\xc3", b"\xed\xa0\x80", b"\xf5\x80\x80\x80", b"\xc0\xaf", b"\xe2\x82")) + whole[at:]


def long_line(chance):
    length = chance.choice((LINE - 2, LINE - 1, LINE, LINE + 1, chance.randint(LINE, 3 * LINE)))
    return (b"0 vendor price - /" + b"n" * length)[:length] + b"\n"


def without_end(chance):
    return chance.choice((b"7", b"0 vendor price - /none/1 ")) + b"n" * chance.choice((10, LINE - 30, LINE, 5 * LINE, 200_000))


def of_words(chance):
    """Words that somebody may have meant."""
    words = [chance.choice((b"vendor", b"broker", b"wallet", b"audit", b"price", b"serve", b"init", b"statement", b"settle", b"-", b"--", b"--help", b"0",
                            b"/none/1", b"", b"\t")) for _ in range(chance.randint(0, 9))]
    return b"0 " + b" ".join(words) + b"\n"


def several(chance):
    return b"".join(chance.choice(KINDS[:-1])(chance) for _ in range(chance.randint(2, 6)))


KINDS = noise, cut, changed, of_wrong_length, no_text, long_line, without_end, of_words, command, several


def said_of(door, data, chance):
    """What the door says of these bytes, which come in one piece or in several, up to the connection's end; and whether it was broken, as
    where the site closes while more is sent."""
    said = b""
    try:
        while data:
            piece = chance.choice((len(data), chance.randint(1, len(data))))
            door.socket.sendall(data[:piece])
            data = data[piece:]
        door.socket.shutdown(1)
    except OSError:
        pass
    try:
        while more := door.socket.recv(65_536):
            said += more
    except ConnectionError:
        return said, True
    return said, False


def answers_in(said):
    """How many answers these bytes are; None where they are none."""
    count = 0
    while said:
        first = next((answer for answer in ANSWERS if said.startswith(answer)), None)
        if first is None:
            return None
        count, said = count + 1, said[len(first):]
    return count


class Trial:
    def __init__(self, shop, seed):
        self.shop, self.chance, self.counts = shop, random.Random(seed), Counter()
        self.requests, self.book = fresh(shop, 200), None

    def wrong(self, what):
        self.counts["violations"] += 1
        print("VIOLATION:", what, flush=True)

    def one(self):
        kind = self.chance.choice(KINDS)
        data = kind(self.chance)
        links, lost = links_in(data)
        with Door(self.shop.door) as door:
            said, broken = said_of(door, data, self.chance)
        answers = answers_in(said)
        if answers != links and not (broken and lost):
            self.wrong("%s: %r is %d links, and was answered %r" % (kind.__name__, data[:400], links, said))
        self.counts[kind.__name__.replace("_", " ")] += 1
        self.counts["links"] += links
        if self.shop.bytes() != self.book:
            self.wrong("%s: %r changed the book" % (kind.__name__, data[:400]))
            self.book = self.shop.bytes()

    def pay(self):
        """A customer pays, and gets the same reply again."""
        with Link(self.shop.address) as link:
            asked = self.requests.pop() if self.requests else fresh(self.shop, 1)[0]
            reply = link.ask(asked)
            took(reply)
            if link.ask(asked) != reply:
                self.wrong("a repeat got another reply")
        self.counts["payments meanwhile"] += 1
        self.book = self.shop.bytes()


def main():
    count = int(sys.argv[1]) if len(sys.argv) > 1 else 5000
    seed = int(sys.argv[2]) if len(sys.argv) > 2 else random.randrange(10**9)
    print("seed %d" % seed, flush=True)
    with Shop() as shop:
        shop.door = os.path.join(shop.folder.name, "door")
        # What it says on standard error is looked at by operate.py.
        shop.how = {"stderr": subprocess.DEVNULL}
        shop.start()
        trial, until = Trial(shop, seed), time.monotonic() + SECONDS
        for number in range(count):
            if number % 50 == 0:
                trial.pay()
            trial.one()
            if time.monotonic() > until:
                break
        trial.pay()
        shop.kill()
        for what, each in sorted(trial.counts.items() | {("violations", trial.counts["violations"])}):
            print("%8d  %s" % (each, what))
        return trial.counts["violations"] > 0


if __name__ == "__main__":
    raise SystemExit(main())
