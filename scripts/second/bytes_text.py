"""Bytes as the lines of cases spell them, and as results print them."""
import re
from hashlib import md5

ESCAPES = {"n": "\n", "r": "\r", '"': '"', "\\": "\\"}
SHOWN = {10: "\\n", 13: "\\r", 34: '\\"', 92: "\\\\"}
MOST_SHOWN = 512

PART = re.compile(r'"((?:[^"\\]|\\.)*)"|x((?:[0-9a-fA-F]{2})*)|\$([a-z0-9_]+)', re.DOTALL)
RANGE = re.compile(r"\[([0-9]*):([0-9]*)\]")
TIMES = re.compile(r"\*([0-9]+)")
ESCAPE = re.compile(r"\\(?:x([0-9a-fA-F]{2})|(.))", re.DOTALL)
WORD = re.compile(r'(?:"(?:[^"\\]|\\.)*"|[^" ])+')


class CaseError(Exception):
    """Why a line of a file of cases can't be done."""


def words_of(line):
    """The words of a line, which stand between blanks; a blank between quotes parts none."""
    words, at = [], 0
    while at < len(line):
        if line[at] == " ":
            at += 1
            continue
        found = WORD.match(line, at)
        if not found:
            raise CaseError("a quote without its end")
        words.append(found.group())
        at = found.end()
    return words


def unescaped(text):
    """The bytes of what stands between quotes."""
    def one(found):
        digits, letter = found.groups()
        if digits:
            return chr(int(digits, 16))
        if letter not in ESCAPES:
            raise CaseError("no such escape: \\%s" % letter)
        return ESCAPES[letter]
    return ESCAPE.sub(one, text).encode("latin-1")


def bytes_of(word, names):
    """The bytes that a word of parts joined by `+` stands for."""
    parts, at = [], 0
    while True:
        part, at = part_of(word, at, names)
        parts.append(part)
        if at == len(word):
            return b"".join(parts)
        if word[at] != "+":
            raise CaseError("no bytes: %s" % word[at:])
        at += 1


def part_of(word, at, names):
    """One part, with its ranges and how often it is repeated, in the order in which they stand, and where it ends."""
    found = PART.match(word, at)
    if not found:
        raise CaseError("no bytes: %s" % word[at:])
    text, digits, name = found.groups()
    if name is not None and name not in names:
        raise CaseError("no such name: %s" % name)
    part = unescaped(text) if text is not None else bytes.fromhex(digits) if digits is not None else names[name]
    at = found.end()
    while found := RANGE.match(word, at) or TIMES.match(word, at):
        part, at = changed(part, found), found.end()
    return part, at


def changed(part, found):
    """A range of a part, or the part repeated."""
    if found.re is TIMES:
        return part * int(found[1])
    first, end = int(found[1] or 0), int(found[2]) if found[2] else len(part)
    if not first <= end <= len(part):
        raise CaseError("no such range: %s of %d bytes" % (found[0], len(part)))
    return part[first:end]


def shown(data):
    """Bytes as they are printed; `-` where there are none."""
    if data is None:
        return "-"
    if len(data) > MOST_SHOWN:
        return digest(data)
    return '"%s"' % "".join(SHOWN.get(b) or (chr(b) if 32 <= b <= 126 else "\\x%02x" % b) for b in data)


def digest(data):
    """The length and the digest of bytes."""
    return "%d#%s" % (len(data), md5(data).hexdigest())
