"""The play: the heads that a house in memory answers, the links that bring them, and the lines of what it did."""
from collections import Counter
from types import SimpleNamespace

from forms import Terms, id_of, read_scrip
from house import House
from ledger import FULL, History, answer, is_refusal
from payloads import GOODS, SITE, TERMS, VENDOR, entry_of

NAME, PERIOD, LINK_HEADS, KEEP = b"play.example", 2048, 1000, 60
# Longer plays are told by the rules alone, since the house here looks through all entries.
MOST_HEADS = 20_000
OWN = Terms(0, PERIOD, 0, (bytes([1] * 16),), (bytes([2] * 16),))
ISSUER = Terms(1, PERIOD, 0, (bytes([3] * 16),), (bytes([4] * 16),))


def piece(i):
    """The text of the piece of a head that has one of its own."""
    epoch, serial = i // PERIOD, i % PERIOD
    if i % 8 == 3 and epoch > 0:
        epoch -= 1
    ident = id_of(1, epoch, serial)
    return ISSUER.scrip_text(NAME, 24 if i % 8 == 7 else 100, ident, ident, b"")


def head(i):
    """Of eight heads, 5 is the one before it again, and 6 asks for `/q` with the piece of the head two before it."""
    if i % 8 == 5:
        return head(i - 1)
    target, text = (b"/q", piece(i - 2)) if i % 8 == 6 else (b"/p", piece(i))
    return b"GET %s HTTP/1.1\r\nHost: %s\r\nMillicent-Scrip: %s\r\n\r\n" % (target, NAME, text)


class Links:
    """Links with the heads of a play, 1,000 on each, whose clock gives 0, 1, 2 and so on."""

    def __init__(self, count):
        self.count, self.next, self.left, self.bytes, self.moment = count, 0, 0, b"", -1

    def next_link(self):
        self.left = min(LINK_HEADS, self.count - self.next)
        return self.left > 0

    def recv(self, length):
        if not self.bytes and self.left:
            self.bytes, self.next, self.left = head(self.next), self.next + 1, self.left - 1
        given, self.bytes = self.bytes[:length], self.bytes[length:]
        return given

    def send(self, data):
        pass

    def end_link(self):
        pass

    def now(self):
        self.moment += 1
        return self.moment


class Player(House):
    """The house of a play, which counts what it answers."""

    def __init__(self, links):
        house = SimpleNamespace(keep=KEEP, fee=0, clear=True, terms=OWN)
        entries = [
            entry_of(SITE, 0, site=VENDOR, name=NAME, house=house), entry_of(TERMS, 0, terms=ISSUER),
            entry_of(GOODS, 0, target=b"/p", price=25, goods=0, contents=b"ok")]
        super().__init__(History(entries), links, FULL, None)
        self.told, self.takings, self.change, self.pieces = Counter(), 0, 0, []

    def reply_to(self, item):
        given = answer(self.history, self.time, self.limits, item.request)
        if is_refusal(given):
            self.told[given.number] += 1
        elif isinstance(given, int):
            self.told["again"] += 1
        else:
            self.told["accepted"] += 1
            paid = read_scrip(given.scrip)
            self.takings += given.price
            self.change += 0 if given.change is None else paid.value - given.price
            self.pieces.append(paid)
        super().reply_to(item)

    def windows(self):
        """How many runs of 4,096 identities hold an accepted one that has not ended at the last reading."""
        return len({paid.id >> 12 for paid in self.pieces if paid.expires > self.time})


def asked(i):
    """What a head asks for: its target, and the epoch, the serial and the value of its piece."""
    if i % 8 == 5:
        return asked(i - 1)
    if i % 8 == 6:
        return (b"/q",) + asked(i - 2)[1:]
    late = i % 8 == 3 and i >= PERIOD
    return b"/p", i // PERIOD - late, i % PERIOD, 24 if i % 8 == 7 else 100


def told_by_rules(count):
    """What a play comes to: of each head whether it comes again, has expired, is spent or worth too little."""
    told, kept, spent, accepted = Counter(), {}, set(), []
    for now in range(count):
        target, epoch, serial, value = order = asked(now)
        if now < kept.get(order, -KEEP) + KEEP:
            told["again"] += 1
        elif now >= (epoch + 1) * PERIOD:
            told[26] += 1
        elif (epoch, serial) in spent:
            told[27] += 1
        elif target == b"/p" and value < 25:
            told[31] += 1
        else:
            told["accepted"] += 1
            kept[order] = now
            spent.add((epoch, serial))
            accepted.append((epoch, serial, value))
    live = {(epoch, serial >> 12) for epoch, serial, _ in accepted if (epoch + 1) * PERIOD > count - 1}
    return told, 25 * len(accepted), sum(value - 25 for _, _, value in accepted), len(live)


def told_by_house(count):
    """The same, by the house that answers the heads."""
    player = Player(Links(count))
    player.serve(count)
    return player.told, player.takings, player.change, player.windows()


def play(count):
    """The lines of a play of so many heads."""
    told, takings, change, windows = (told_by_house if count <= MOST_HEADS else told_by_rules)(count)
    lines = [
        ("played", count), ("accepted", told["accepted"]), ("again", told["again"]), ("refused 26", told[26]),
        ("refused 27", told[27]), ("refused 31", told[31]), ("takings", takings), ("change", change),
        ("windows", windows)]
    return "".join("%s %d\n" % line for line in lines).encode()
