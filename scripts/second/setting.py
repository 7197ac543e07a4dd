"""What a case has set so far, and how the arguments of its lines are read."""
import re

from bytes_text import CaseError, bytes_of, shown
from ledger import FULL
from stage import Stage

U32, U64 = 2**32 - 1, 2**64 - 1
NAME = re.compile("[a-z0-9_]+")


class Setting:
    """The next stage, the last one, limits, terms, an issuer, kept replies, and a schedule."""

    def __init__(self, names, histories=None):
        self.names, self.histories = names, {} if histories is None else histories
        self.book, self.clock = b"", []
        self.forget()
        self.last, self.last_up, self.hand = None, None, None
        self.limits, self.terms, self.issuer, self.kept = FULL, None, None, None
        self.houses, self.wallets, self.events = [], [], []

    def name(self, name, data):
        """Gives bytes a name, in place of an older one."""
        if not NAME.fullmatch(name):
            raise CaseError("no name: %s" % name)
        self.names[name] = data

    def forget(self):
        """Forgets links, failing calls and books beside."""
        self.links, self.doors, self.upstream, self.beside = [], [], [], []
        self.failing = {"disk": [], "link": [], "up": []}

    def stage(self):
        """A stage as the lines before it say; links, failing calls and books are then forgotten."""
        self.last = Stage(self.book, self.links, self.clock, self.failing["disk"], self.failing["link"], self.doors)
        self.forget()
        return self.last

    def stage_upstream(self):
        """A stage that has the links to a vendor alone."""
        self.last_up = Stage(links=self.upstream, failing_link=self.failing["up"])
        return self.last_up

    def stages_beside(self):
        """A stage for each book beside."""
        return [Stage(contents, failing_disk=calls) for contents, calls in self.beside]

    def ended(self, stage):
        """The lines of a stage, whose disk is the next book."""
        self.book = bytes(stage.contents)
        said, change, calls = stage.lines()
        printed = ["%s %s" % (verb, shown(data)) for verb, data in said]
        return printed + [changed("book", change), "calls %d %d" % calls]

    def first_link(self):
        """The bytes of the first link."""
        return b"".join(self.links[0]) if self.links else b""

    def given(self, what):
        """The terms, the issuer or the kept replies that the case has set."""
        value = getattr(self, what)
        if value is None:
            raise CaseError("the case has no %s yet" % what)
        return value

    def arguments(self, words, *kinds):
        """The values of so many words, each read by its kind."""
        if len(words) != len(kinds):
            raise CaseError("%d arguments are wanted" % len(kinds))
        return [kind(self, word) for kind, word in zip(kinds, words)]


def changed(verb, change):
    """The line of a book that may have changed."""
    return verb + " same" if change is None else "%s %d %s" % (verb, change[0], shown(change[1]))


def data(setting, word):
    return bytes_of(word, setting.names)


def maybe_data(setting, word):
    return None if word == "-" else data(setting, word)


def word_bytes(setting, word):
    """A word that stands as it is, or as bytes."""
    return data(setting, word) if word[0] in '"$' else word.encode("latin-1")


def number(setting, word, most=U64):
    if not (word.isascii() and word.isdigit()) or int(word) > most:
        raise CaseError("no such number: %s" % word)
    return int(word)


def maybe_number(setting, word):
    return None if word == "-" else number(setting, word)


def up_to(most):
    """Numbers up to a most."""
    return lambda setting, word: number(setting, word, most)


def of_length(length):
    """Bytes of one length."""
    def read(setting, word):
        found = data(setting, word)
        if len(found) != length:
            raise CaseError("%d bytes are wanted" % length)
        return found
    return read
