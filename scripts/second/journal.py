"""The journal of a book: it is founded, read, and entries are added in two steps each."""
import hashlib

from forms import Fault
from payloads import SWITCH, read_entry
from stage import DiskFault

HEADER = b"MCJRNL1\n"
BUFFER = 131_104
MOST_LENGTH = 131_066
MOST_JOURNAL = 2**40


class NotJournal(Exception):
    """The book does not begin with the header."""


class BadEntry(Exception):
    """From a place on the bytes can't stand."""

    def __init__(self, place):
        super().__init__(place)
        self.place = place


class BadChain(Exception):
    """At a place stands another chain than that of the entries up to there."""

    def __init__(self, place, stood, computed):
        super().__init__(place)
        self.place, self.stood, self.computed = place, stood, computed


class Chain:
    """The chain of some entries, None where it is not known, and whether a Switch is among them: the next one then has its
    chain behind it."""

    def __init__(self, digest=bytes(32)):
        self.digest, self.switched = digest, False

    def after(self, payload):
        return self.digest and hashlib.sha256(self.digest + payload).digest()

    def tail(self, payload):
        return self.after(payload) if self.switched else b""

    def push(self, payload):
        self.digest, self.switched = self.after(payload), self.switched or payload[0] == SWITCH


def may_switch(chain, entry):
    """Whether a Switch may follow entries of this chain: it is the first, and tells their chain."""
    return not chain.switched and entry.chain == chain.digest


def read_again(stage, gate):
    """The digest of the entries up to a gate, before which no Switch stands: they are read once more, from the first one on,
    each time as many bytes as fit the buffer behind those from a gate on that are held."""
    digest, at, held = bytes(32), len(HEADER), b""
    while at < gate:
        while len(held) < (end := 5 + int.from_bytes(held[1:5], "big")):
            held += stage.read(at + len(held), BUFFER - len(held))
        digest = hashlib.sha256(digest + held[5:end]).digest()
        at, held = at + end, held[end:]
    return digest


class Halted(Exception):
    """The disk failed while an entry was staged, or while its gate was opened."""

    def __init__(self, step):
        super().__init__(step)
        self.step = step


class Journal:
    """A journal to which entries are added."""

    def __init__(self, stage, size=len(HEADER) + 1, entries=0, chain=None):
        self.stage, self.size, self.entries, self.chain = stage, size, entries, chain or Chain(None)

    def is_full(self, payload, limit):
        return self.size + 5 + len(payload) + len(self.chain.tail(payload)) > limit

    def find_chain(self):
        """Has the entries read once more for their chain, where it is not known."""
        if self.chain.digest is None:
            self.chain.digest = read_again(self.stage, self.size - 1)

    def add(self, payload):
        """Writes an entry behind the closed gate, with its chain where it has one, and then opens that. Of a Switch the chain
        of the entries before it is found first."""
        tail = self.chain.tail(payload)
        try:
            if payload[0] == SWITCH:
                self.find_chain()
            self.stage.write(self.size, len(payload).to_bytes(4, "big") + payload + tail + b"\0")
            self.stage.sync()
        except DiskFault:
            raise Halted("staging")
        try:
            self.stage.write(self.size - 1, b"\1")
            self.stage.sync()
        except DiskFault:
            raise Halted("opening")
        self.size += 5 + len(payload) + len(tail)
        self.entries += 1
        self.chain.push(payload)


def found(stage):
    """An empty journal in place of what the disk has."""
    stage.cut(0)
    stage.write(0, HEADER + b"\0")
    stage.sync()
    return Journal(stage)


class Replay:
    """A journal that is read: it is synced, and each byte is read once; but where a Switch stands what is before the first one
    is read once more for its chain, and then what is behind its gate anew."""

    def __init__(self, stage):
        # Of the bytes that are held the first `used` are read.
        self.stage, self.held, self.used, self.at = stage, b"", 0, 0
        self.entries, self.chain = 0, Chain(None)
        stage.sync()
        if self.peek(len(HEADER)) != HEADER:
            raise NotJournal
        self.drop(len(HEADER))

    def peek(self, count):
        """The next bytes, or fewer where the book ends before."""
        while (left := len(self.held) - self.used) < count:
            more = self.stage.read(self.at + left, BUFFER - left)
            if not more:
                break
            self.held, self.used = self.held[self.used:] + more, 0
        return self.held[self.used:self.used + count]

    def drop(self, count):
        self.used, self.at = self.used + count, self.at + count

    def need(self, count):
        """The next bytes, all of which have to be there."""
        data = self.peek(count)
        if len(data) < count:
            raise BadEntry(self.at + len(data))
        return data

    def next(self):
        """The place of the next gate and the entry behind it; None at a closed gate."""
        gate = self.at
        if self.need(1) != b"\1":
            return None
        self.drop(1)
        place = self.at
        length = int.from_bytes(self.need(4), "big")
        if length >= MOST_LENGTH or place + 4 + length + 32 * self.chain.switched + 1 > MOST_JOURNAL:
            raise BadEntry(place)
        self.drop(4)
        payload = self.need(length)
        try:
            entry = read_entry(payload)
        except Fault as fault:
            raise BadEntry(place + 4 + fault.place)
        if entry.kind == SWITCH and self.chain.digest is None:
            self.chain.digest = read_again(self.stage, gate)
            self.held, self.used, self.at = b"", 0, gate
            return self.next()
        self.drop(length)
        computed = self.chain.tail(payload)
        stood = self.need(len(computed))
        if stood != computed:
            raise BadChain(self.at, stood, computed)
        self.drop(len(computed))
        self.entries += 1
        self.chain.push(payload)
        return gate, entry

    def finish(self):
        """The journal, after its closed gate was read."""
        return Journal(self.stage, self.at + 1, self.entries, self.chain)
