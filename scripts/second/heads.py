"""Heads on a link: where each ends, what it asks for, and which are refused."""
import re
from dataclasses import dataclass

from forms import is_target
from ledger import Request

MOST_HEAD, MOST_FIELDS, MOST_ITEMS = 8_192, 64, 1_000
LINE_ENDS = re.compile(rb"(?:\r\n|\n)*")
EMPTY_LINE = re.compile(rb"\n\r?\n")
TOKEN = rb"[A-Za-z0-9!#$%&'*+.^_`|~-]+"
START = re.compile(rb"(" + TOKEN + rb") ([\x21-\x7e\x80-\xff]+) HTTP/1\.([01])\r?\n")
FIELD = re.compile(rb"(" + TOKEN + rb"):([\t\x20-\x7e\x80-\xff]*)\r?\n")
HOST = re.compile(rb"[A-Za-z0-9\-._~:\[\]%!$&'()*+,;=]{0,255}")


@dataclass(frozen=True)
class Item:
    """A request, or the number of the refusal of a head, and whether it ends the link."""
    request: Request
    refusal: int
    closes: bool


def next_item(held):
    """The first item of some bytes and how many they are; None where they end no item."""
    held = held[:MOST_HEAD]
    start = LINE_ENDS.match(held).end()
    found = EMPTY_LINE.search(held, start)
    if found:
        return judged(held[start:found.end()]), found.end()
    return (Item(None, 11, True), MOST_HEAD) if len(held) == MOST_HEAD else None


def parsed(head):
    """Method, target, minor version and fields of a head; None where the bytes are no head."""
    start = START.match(head)
    if not start or not is_utf8(start[2]):
        return None
    fields, at = [], start.end()
    while field := FIELD.match(head, at):
        fields.append((field[1].lower(), field[2].strip(b" \t")))
        at = field.end()
    if head[at:] not in (b"\r\n", b"\n") or len(fields) > MOST_FIELDS:
        return None
    return start[1], start[2], int(start[3]), fields


def is_utf8(data):
    try:
        return data.decode() is not None
    except UnicodeDecodeError:
        return False


def judged(head):
    """The item of a head that was taken up to its empty line."""
    parts = parsed(head)
    if parts is None:
        return Item(None, 10, True)
    method, target, minor, fields = parts

    def values(name):
        return [value for field, value in fields if field == name]
    closes = minor == 0 or b"close" in members(values(b"connection"))
    scrip, sign = values(b"millicent-scrip"), values(b"millicent-sign")
    hosts = values(b"host")
    if len(hosts) > 1 or minor == 1 and not hosts or not all(HOST.fullmatch(h) for h in hosts):
        return Item(None, 12, closes)
    if values(b"transfer-encoding") or any(v != b"0" for v in values(b"content-length")):
        return Item(None, 13, True)
    if not is_target(target):
        return Item(None, 14, closes)
    if method != b"GET":
        return Item(None, 15, closes)
    if len(scrip) > 1 or len(sign) > 1:
        return Item(None, 16, closes)
    return Item(Request(target, *(v[0] if v else None for v in (scrip, sign))), None, closes)


def members(values):
    """The members of fields that are lists, without spaces and tabs around them, in lower case."""
    return [member.strip(b" \t").lower() for value in values for member in value.split(b",")]


class HeadReader:
    """Reads the items of one link, the last of which is the 1,000th where they are counted."""

    def __init__(self, are_counted=True):
        self.held, self.given, self.are_counted = b"", 0, are_counted

    def take(self, link):
        """The next item; None at the end of the link. A LinkFault comes from receiving."""
        while (found := next_item(self.held)) is None:
            more = link.recv(MOST_HEAD - len(self.held))
            if not more:
                return None
            self.held += more
        item, used = found
        self.held, self.given = self.held[used:], self.given + 1
        return Item(item.request, item.refusal, True) if self.are_counted and self.given == MOST_ITEMS else item
