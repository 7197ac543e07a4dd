"""Schedules: houses and wallets that play by events, one a line, and what they leave."""
from bytes_text import CaseError, digest, shown
from forms import MOMENTS, MOST_VALUE, Fault, is_name, is_target
from heads import MOST_ITEMS, next_item
from house import House
from ledger import History, first_unlawful, follow, journal_full
from market import entries_of
from payloads import ACCEPT, DONE, DRAW, PEND, REFUSED, SITE, entry_line, entry_of, read_entry
from refusals import Refusal
from replies import Reply, next_reply
from setting import U32, data, number, of_length, up_to
from wallet import WalletBook, check
from wallet_verbs import first_against, pended


class Wire:
    """What a house sends on one link."""

    def __init__(self):
        self.sent = b""

    def send(self, some):
        self.sent += some


class Purse:
    """A wallet's entries, with what a journal of them would take."""

    def __init__(self, entries):
        self.entries, self.book, self.size, self.tail = [], WalletBook(), 9, 0
        for entry in entries:
            self.push(entry)

    def push(self, entry):
        self.size += len(entry.payload) + self.tail + 5
        self.entries.append(entry)
        self.book.push(entry)
        self.tail = 32 * self.book.chain.switched

    def enter(self, limits, kind, time, **values):
        """Enters an entry that fits; whether it does."""
        entry = entry_of(kind, time, **values)
        if journal_full(self, limits, entry):
            return False
        self.push(entry)
        return True

    def time(self, reading):
        return max(self.book.time, min(reading, MOMENTS - 1))


class World:
    """Houses, wallets, and all messages and replies that were ever sent. Of a message it is known which wallet sent it."""

    def __init__(self, houses, wallets, limits):
        self.limits, self.messages, self.senders, self.replies = limits, [], [], []
        self.houses = [House(History(entries), None, limits, None, has_clock=False) for entries in houses]
        self.wallets = [Purse(entries) for entries in wallets]

    def send(self, message, sender):
        self.messages.append(message)
        self.senders.append(sender)

    # What an event does. What names nothing that is there does nothing.

    def enter(self, of, payload):
        if of >= len(self.houses):
            return
        house = self.houses[of]
        try:
            entry = read_entry(payload)
        except Fault:
            return
        if entry.kind in (SITE, ACCEPT, DRAW) or journal_full(house.history, self.limits, entry):
            return
        if follow(house.history, entry, self.limits.series):
            house.time = max(house.time, entry.moment)

    def ask(self, of, reading, kind, *values):
        if of >= len(self.wallets) or not can_be_asked(kind, values):
            return
        purse = self.wallets[of]
        time = purse.time(reading)
        request = pended(purse.book, time, kind, values)
        if isinstance(request, Refusal):
            return
        if purse.enter(self.limits, PEND, time, ask=request.ask, peer=request.peer, target=request.target,
                       scrip=request.scrip, secret=request.secret):
            self.send(request.sent(), of)

    def again(self, of, peer):
        if of < len(self.wallets):
            book = self.wallets[of].book
            oldest = book.oldest_kept(peer)
            if oldest is not None:
                self.send(book.requests[oldest].sent(), of)

    def forge(self, message):
        self.send(message, None)

    def tell(self, reply):
        """A reply that somebody sends, who need not be a house."""
        self.replies.append(reply)

    def deliver(self, message, of, reading):
        if message >= len(self.messages) or of >= len(self.houses):
            return
        house, held, items = self.houses[of], self.messages[message], 0
        house.stage = Wire()
        while items < MOST_ITEMS and (found := next_item(held)):
            item, used = found
            held, items = held[used:], items + 1
            house.time = max(house.time, min(reading, MOMENTS - 1))
            house.reply_to(item)
            if item.closes:
                break
        self.replies.append(house.stage.sent)

    def hand(self, reply, of, request, reading):
        """A Return, which Python keeps the word of."""
        if reply >= len(self.replies) or of >= len(self.wallets):
            return
        purse, found = self.wallets[of], next_reply(self.replies[reply])
        if not isinstance(found, Reply) or not purse.book.is_kept(request):
            return
        asked = purse.book.requests[request]
        if check(asked, found):
            return
        settled, time = purse.book.settlement(asked, found), purse.time(reading)
        if isinstance(settled, int):
            purse.enter(self.limits, REFUSED, time, number=request, refusal=settled)
        else:
            price, change, got = settled
            purse.enter(self.limits, DONE, time, number=request, price=price, change=change, got=got)

    def restart(self, party):
        if party < len(self.houses):
            self.houses[party].time = self.houses[party].history.time

    # What is left.

    def lines(self, houses, wallets):
        """Each party's count of entries, their chain and those that came; then messages and replies."""
        parties = [("house", house.history.entries, house.history.chain) for house in self.houses]
        parties += [("wallet", purse.entries, purse.book.chain) for purse in self.wallets]
        for (word, entries, chain), before in zip(parties, [*houses, *wallets]):
            yield "%s %d %s" % (word, len(entries), chain.digest.hex())
            yield from ("entry " + entry_line(entry) for entry in entries[len(before):])
        yield from ("message " + shown(message) for message in self.messages)
        yield from ("reply " + shown(reply) for reply in self.replies)


def can_be_asked(kind, values):
    """Whether amounts and orders are in their range; a limit may be 0."""
    asked = {"get": (), "buy": values[2:3], "draw": values[3:5]}[kind]
    return all(1 <= value <= MOST_VALUE for value in asked)


EVENTS = {"enter": World.enter, "ask": World.ask, "again": World.again, "forge": World.forge,
          "tell": World.tell, "deliver": World.deliver, "return": World.hand, "restart": World.restart}


def play(houses, wallets, limits, events):
    """The world that events lead to; each is its verb and its values."""
    world = World(houses, wallets, limits)
    for verb, *values in events:
        EVENTS[verb](world, *values)
    return world


# ---- lines


def do_history(setting, words):
    if len(words) != 2:
        raise CaseError("a name and a book are wanted")
    setting.histories[words[0]] = entries_of(setting, words[1])


def named(setting, words):
    for word in words:
        if word not in setting.histories:
            raise CaseError("no such history: %s" % word)
    return [setting.histories[word] for word in words]


def do_houses(setting, words):
    setting.houses = named(setting, words)


def do_wallets(setting, words):
    setting.wallets = named(setting, words)


def name(setting, word):
    found = data(setting, word)
    if not is_name(found):
        raise CaseError("no name")
    return found


def target(setting, word):
    found = data(setting, word)
    if not is_target(found):
        raise CaseError("no target")
    return found


small, amount = up_to(U32), up_to(MOST_VALUE)
ASKED = {"get": (name, target, amount), "buy": (name, name, amount, amount), "draw": (name, name, of_length(16), number, amount)}
LINES = {"enter": (small, data), "again": (small, name), "forge": (data,), "tell": (data,), "deliver": (small, small, number),
         "return": (small, small, number, number), "restart": (small,)}


def event(verb):
    """The line of an event."""
    def do(setting, words):
        if verb != "ask":
            values = setting.arguments(words, *LINES[verb])
        elif len(words) < 3 or words[2] not in ASKED:
            raise CaseError("no such errand")
        else:
            values = [small(setting, words[0]), number(setting, words[1]), words[2]]
            values += setting.arguments(words[3:], *ASKED[words[2]])
        setting.events.append((verb, *values))
    return do


def do_play(setting, words):
    """Plays the events; prints what is left, or, where the line says so, the digest of that."""
    if words not in ([], ["brief"]):
        raise CaseError("brief, or nothing")
    houses, wallets, events = setting.houses, setting.wallets, setting.events
    setting.houses, setting.wallets, setting.events = [], [], []
    lawful = all(first_unlawful(entries, setting.limits.series) is None for entries in houses)
    if not lawful or any(first_against(entries) is not None for entries in wallets):
        return ["play unlawful"]
    lines = list(play(houses, wallets, setting.limits, events).lines(houses, wallets))
    return ["play " + digest("".join(line + "\n" for line in lines).encode("latin-1"))] if words else lines


VERBS = {"history": do_history, "houses": do_houses, "wallets": do_wallets, "play": do_play, **{verb: event(verb) for verb in EVENTS}}
