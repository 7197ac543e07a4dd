"""Replies of a site as a wallet reads them: of bytes that are all there, and on links."""
import re
from dataclasses import dataclass

from bytes_text import shown
from forms import whole_number
from heads import EMPTY_LINE, FIELD, LINE_ENDS, MOST_FIELDS, MOST_HEAD
from setting import data
from stage import LinkFault

MOST_CONTENTS, MOST_REPLY = 65_536, 73_728
START = re.compile(rb"HTTP/1\.[01] ([0-9]{3})(?: [\t\x20-\x7e\x80-\xff]*)?\r?\n")
SAID = (b"content-length", b"millicent-price", b"millicent-change", b"millicent-sign")


@dataclass(frozen=True)
class Reply:
    """A reply: its status, the values of its fields as they stand there, and its contents."""
    status: int
    refusal: bytes
    price: bytes
    change: bytes
    sign: bytes
    contents: bytes

    def line(self):
        return " ".join([str(self.status), *map(shown, (self.refusal, self.price, self.change, self.sign, self.contents))])


@dataclass(frozen=True)
class Short:
    """The bytes are less than a reply, which has at least so many."""
    needed: int


class Bad:
    """The bytes begin no reply, whatever follows."""


def fields_of(head):
    """The status and the fields of the head of a reply; None where the bytes are none."""
    start = START.match(head)
    if not start:
        return None
    fields, at = [], start.end()
    while field := FIELD.match(head, at):
        fields.append((field[1].lower(), field[2].strip(b" \t")))
        at = field.end()
    if head[at:] not in (b"\r\n", b"\n") or len(fields) > MOST_FIELDS:
        return None
    return int(start[1]), fields


def number_in_front(text):
    """The number of at most 65,535 that a text begins with, before a space."""
    front, space, _ = text.partition(b" ")
    return whole_number(front, 0, 0xffff) if space else None


def said_by(head):
    """How many bytes follow a head, and the reply without them; None where the head is none of a reply."""
    parts = fields_of(head)
    if parts is None:
        return None
    status, fields = parts
    said = [[value for field, value in fields if field == name] for name in SAID]
    refusals = [value for field, value in fields if field == b"millicent-refusal"]
    if any(len(values) != 1 for values in said) or len(refusals) != (status != 200):
        return None
    (length,), *others = said
    length = whole_number(length, 0, MOST_CONTENTS)
    if length is None or refusals and number_in_front(refusals[0]) is None:
        return None
    return length, Reply(status, refusals[0] if refusals else None, *(values[0] for values in others), b"")


def next_reply(held):
    """The reply that some bytes begin with, or Bad, or Short where it is not there yet."""
    window = held[:MOST_HEAD]
    start = LINE_ENDS.match(window).end()
    found = EMPTY_LINE.search(window, start)
    if not found:
        return Bad() if len(window) == MOST_HEAD else Short(len(held) + 1)
    said = said_by(window[start:found.end()])
    if said is None:
        return Bad()
    length, reply = said
    if len(held) < found.end() + length:
        return Short(found.end() + length)
    values = {**vars(reply), "contents": held[found.end():found.end() + length]}
    return Reply(**values)


def take(link):
    """The reply on the link that stands, or Bad; None where the link ends before it does."""
    held = b""
    while isinstance(found := next_reply(held), Short):
        more = link.recv(MOST_REPLY - len(held))
        if not more:
            return None
        held += more
    return found


def taken_line(link):
    try:
        found = take(link)
    except LinkFault:
        return "reply fault"
    if found is None:
        return "reply none"
    return "reply bad" if isinstance(found, Bad) else "reply " + found.line()


def do_reply(setting, words):
    received, = setting.arguments(words, data)
    found = next_reply(received)
    if isinstance(found, Short):
        return ["reply short %d" % found.needed]
    return ["reply bad" if isinstance(found, Bad) else "reply " + found.line()]


def do_replies(setting, words):
    setting.arguments(words)
    stage, lines = setting.stage(), []
    while True:
        try:
            if not stage.next_link():
                break
        except LinkFault:
            lines.append("fault")
            continue
        lines.append(taken_line(stage))
        stage.end_link()
    return lines + setting.ended(stage)


VERBS = {"reply": do_reply, "replies": do_replies}
