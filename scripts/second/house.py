"""A house over a book, or in memory: how it opens, is founded, serves links and enters what an operator orders."""
from types import SimpleNamespace

from forms import Fault, Terms, read_piece_line
from heads import HeadReader
from journal import BadChain, BadEntry, Halted, NotJournal, Replay, found
from ledger import FULL, History, answer, follow, is_refusal, journal_full, refusal_of, reply_of
from payloads import GOODS, SITE, SWITCH, TERMS, VENDOR, entry_of
from refusals import refused
from stage import DiskFault, LinkFault
from words import BadWords

PAGE = 4_096


class Ends(Exception):
    """The program ends with a status other than 0, and a line."""

    def __init__(self, status, line):
        super().__init__(status, line)
        self.status, self.line = status, line + b"\n"

    @classmethod
    def disk_fault(cls):
        return cls(4, b"disk fault")

    @classmethod
    def link_fault(cls):
        return cls(6, b"link fault")

    @classmethod
    def refused(cls, refusal):
        return cls(7, b"refused " + refusal.text().encode())


def came(obey):
    """The status and the line of what some words ask for."""
    try:
        return 0, obey()
    except BadWords:
        return 2, b"bad words\n"
    except Ends as end:
        return end.status, end.line


class Server:
    """Serves the links of a stage, each up to its end or the first fault. What it is has `raise_time`, which reads the clock
    once, and `reply_to`, which answers an item."""

    def serve(self, links):
        """Serves links one after another; answers how many."""
        for served in range(links):
            try:
                if not self.stage.next_link():
                    return served
            except LinkFault:
                raise Ends.link_fault()
            self.serve_link()
            self.stage.end_link()
        return links

    def serve_link(self):
        """Answers the items of the link that stands, up to its end or the first fault."""
        reader = HeadReader()
        try:
            while item := reader.take(self.stage):
                self.raise_time()
                self.reply_to(item)
                if item.closes:
                    return
        except LinkFault:
            return

    def fail(self, *reply):
        """Sends the reply to what the disk failed to write an entry for, and ends the serving."""
        try:
            self.send(*reply)
        except LinkFault:
            pass
        self.stage.end_link()
        raise Ends.disk_fault()

    def send(self, reply):
        """Sends the head and what fits one page with it, and then all that is left."""
        self.stage.send(reply[:PAGE])
        if len(reply) > PAGE:
            self.stage.send(reply[PAGE:])


class House(Server):
    """A history with its time, and where it stands on a disk its journal."""

    def __init__(self, history, stage, limits, journal, has_clock=True):
        self.history, self.stage, self.limits, self.journal = history, stage, limits, journal
        self.time, self.has_clock = history.time, has_clock

    def raise_time(self):
        """Reads the clock once."""
        if self.has_clock:
            self.time = max(self.time, self.stage.now())

    def enter(self, entry):
        """Adds the entry of an operator's operation."""
        full = journal_full(self.history, self.limits, entry)
        if full:
            raise Ends.refused(full)
        try:
            self.journal.add(entry.payload)
        except Halted:
            raise Ends.disk_fault()
        self.history.push(entry)

    def switch(self):
        """Switches the chain on, where it is not."""
        if not self.journal.chain.switched:
            self.enter(entry_of(SWITCH, self.time, chain=self.history.chain.digest))

    def reply_to(self, item):
        if item.refusal is not None:
            return self.send(refusal_of(self.history, self.time, None, refused(item.refusal)))
        given = answer(self.history, self.time, self.limits, item.request)
        if is_refusal(given):
            return self.send(refusal_of(self.history, self.time, item.request, given))
        if isinstance(given, int):
            return self.send(reply_of(self.history, given))
        self.accept(given)

    def accept(self, entry):
        """Adds the entry of a request and sends its first reply; a disk that fails ends the serving."""
        try:
            if self.journal:
                self.journal.add(entry.payload)
        except Halted:
            self.fail(refusal_of(self.history, self.time, None, refused(91)))
        self.history.push(entry)
        self.send(reply_of(self.history, len(self.history.entries) - 1))


def read_through(stage, sites, follow):
    """Reads the book of one of these kinds of site, each entry of which `follow` takes where it may follow; the journal."""
    replay, gate, count = started(stage), 8, 0
    try:
        while read := replay.next():
            gate, entry = read
            if not count and entry.kind == SITE and entry.site not in sites:
                raise Ends.refused(refused(52))
            if not follow(entry):
                raise unlawful(gate)
            count += 1
    except BadEntry as bad:
        raise Ends(3, b"bad entry at %d" % bad.place)
    except BadChain as bad:
        raise Ends(3, b"bad chain at %d" % bad.place)
    except DiskFault:
        raise Ends.disk_fault()
    if not count:
        raise unlawful(gate)
    return replay.finish()


def started(stage):
    try:
        return Replay(stage)
    except NotJournal:
        raise Ends(3, b"not a journal")
    except DiskFault:
        raise Ends.disk_fault()


def opened(stage, limits, site=VENDOR, is_taken=lambda history, entry: True):
    """The house of a book of this kind of site, each entry of which passes a test of its command's own, too."""
    history = History()
    journal = read_through(
        stage, (site,), lambda entry: is_taken(history, entry) and follow(history, entry, limits.series))
    return House(history, stage, limits, journal)


def unlawful(gate):
    return Ends(3, b"unlawful entry at %d" % gate)


def kept(stage, site=VENDOR, **test):
    """The house of a book, opened for its operator at the reading of the clock."""
    house = opened(stage, FULL, site, **test)
    house.raise_time()
    return house


def chain_line(name, journal):
    """The line of a book: the name of its site, how many entries it has, and their chain."""
    return b"chain %s %d %s\n" % (name, journal.entries, journal.chain.digest.hex().encode())


def chained(house):
    """Switches the chain of a house's book on, and answers its line."""
    house.switch()
    return chain_line(house.history.site.name, house.journal)


def received(stage, most):
    """What comes on the next link, up to so many bytes."""
    try:
        data = received_on(stage, most) if stage.next_link() else b""
    except LinkFault:
        raise Ends.link_fault()
    stage.end_link()
    return data


def received_on(stage, most):
    """What comes on the link that stands, up to so many bytes."""
    data = b""
    while len(data) < most and (more := stage.recv(most - len(data))):
        data += more
    return data


def read_pieces(lines, is_right, most=256):
    """The texts and the secrets of 1 to 256 piece lines, whose pieces pass a test."""
    read, at = [], 0
    while at < len(lines):
        end = lines.find(b"\n", at) + 1
        try:
            piece, held = read_piece_line(lines[at:end])
        except Fault:
            piece = None
        if len(read) == most or piece is None or not is_right(piece):
            raise Ends.refused(refused(53, len(read) + 1))
        read.append((piece.text, held))
        at = end
    if not read:
        raise Ends.refused(refused(53, 0))
    return read


def free_journal(stage):
    """The empty journal of a disk that encodes nothing, founded where it has no header."""
    try:
        replay = Replay(stage)
        if replay.next() is None:
            return replay.finish()
    except (NotJournal, BadEntry, BadChain):
        pass
    size = stage.size()
    if size > 9:
        raise Ends.refused(refused(50, size))
    return found(stage)


def founded(stage, site):
    """Founds a house: the entry of its site stands in an empty journal."""
    try:
        free_journal(stage).add(site.payload)
    except (DiskFault, Halted):
        raise Ends.disk_fault()


def bench(order, stage):
    """The house in memory of `vendor once`."""
    own, licensed = (Terms(i, 4096, 8192, (order.secret,), (order.secret,)) for i in (0, 1))
    house = SimpleNamespace(keep=600, fee=0, clear=True, terms=own)
    entries = [
        entry_of(SITE, 0, site=VENDOR, name=order.name, house=house), entry_of(TERMS, 0, terms=licensed),
        entry_of(GOODS, 0, target=order.target, price=order.price, goods=0, contents=order.contents)]
    return House(History(entries), stage, FULL, None, has_clock=False)
