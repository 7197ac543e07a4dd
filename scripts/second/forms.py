"""Names, targets, numbers, scrip texts, digests, terms, identities and refusals."""
import re
from dataclasses import dataclass
from hashlib import md5, sha256

MOST_VALUE = 2**40
MOST_EXPIRES = 2**49
MOMENTS = 2**35
HEX = b"0123456789abcdef"
NAME_FIRST = frozenset(b"abcdefghijklmnopqrstuvwxyz0123456789")
NAME_OTHER = NAME_FIRST | frozenset(b"-.")
PROPS_BYTES = NAME_FIRST | frozenset(b"=,.-")
MOST_NAME, MOST_PROPS = 63, 128


class Fault(Exception):
    """The place from which on some bytes can't be of a form."""

    def __init__(self, place):
        super().__init__(place)
        self.place = place


def is_name(data):
    return bool(re.fullmatch(rb"[a-z0-9][a-z0-9.-]{0,62}", data))


def is_props(data):
    return bool(re.fullmatch(rb"[a-z0-9=,.-]{0,128}", data))


def is_target(data):
    return bool(re.fullmatch(rb"/[\x21-\x7e]{0,511}", data))


def digest_of(data):
    """The sixteen bytes that 32 lower-case digits spell."""
    return bytes.fromhex(data.decode()) if re.fullmatch(rb"[0-9a-f]{32}", data) else None


def whole_number(data, least, most):
    """The number of this range that the bytes spell."""
    if not re.fullmatch(rb"0|[1-9][0-9]{0,39}", data):
        return None
    return int(data) if least <= int(data) <= most else None


def read_literal(data, at, text):
    for i, byte in enumerate(text):
        if data[at + i:at + i + 1] != bytes((byte,)):
            raise Fault(min(at + i, len(data)))
    return at + len(text)


def read_stop(data, at, stop):
    return read_literal(data, at, bytes((stop,)))


def read_text(data, at, stop, first, other, least, most):
    """A text of these bytes up to a stop, and where what follows begins."""
    end = at
    while end < len(data) and data[end] != stop:
        if end - at == most or data[end] not in (other if end > at else first):
            raise Fault(end)
        end += 1
    if end == len(data) or end - at < least:
        raise Fault(end)
    return data[at:end], end + 1


def read_name(data, at, stop):
    return read_text(data, at, stop, NAME_FIRST, NAME_OTHER, 1, MOST_NAME)


def read_number(data, at, stop, most):
    """A number from 1 to the most, up to a stop."""
    end, number = at, 0
    while end < len(data) and 48 <= data[end] <= 57:
        more = number * 10 + data[end] - 48
        if more == 0 or more > most:
            raise Fault(end)
        number, end = more, end + 1
    if number == 0:
        raise Fault(end)
    return number, read_stop(data, end, stop)


def read_digits(data, at, count):
    """So many bytes, each by two lower-case hex digits."""
    for i in range(at, at + 2 * count):
        if i >= len(data) or data[i] not in HEX:
            raise Fault(min(i, len(data)))
    end = at + 2 * count
    return bytes.fromhex(data[at:end].decode()), end


@dataclass(frozen=True)
class Scrip:
    """A piece with its certificate, and its text."""
    text: bytes
    version: int
    vendor: bytes
    value: int
    id: int
    cust: int
    expires: int
    props: bytes
    cert: bytes

    @property
    def body(self):
        return self.text[:-32]


BAR = ord("|")
WHOLE = re.compile(rb"MS([12])\|([a-z0-9][a-z0-9.-]{0,62})\|([1-9][0-9]{0,12})\|([0-9a-f]{16})\|([0-9a-f]{16})\|([1-9][0-9]{0,14})"
                   rb"\|([a-z0-9=,.-]{0,128})\|([0-9a-f]{32})")


def read_scrip(data):
    """The scrip that the bytes are the text of: what is whole at once, and else the place of the fault, field by field."""
    whole = WHOLE.fullmatch(data)
    return (whole and whole_scrip(data, *whole.groups())) or read_fields(data)


def whole_scrip(data, version, vendor, value, ident, cust, expires, props, cert):
    """The scrip of these fields, where its numbers are in their ranges."""
    value, expires = int(value), int(expires)
    if value <= MOST_VALUE and expires <= MOST_EXPIRES:
        return Scrip(data, int(version), vendor, value, int(ident, 16), int(cust, 16), expires, props, bytes.fromhex(cert.decode()))
    return None


def read_fields(data):
    """As `read_scrip`, field by field."""
    version, at = read_number(data, read_literal(data, 0, b"MS"), BAR, 2)
    vendor, at = read_name(data, at, BAR)
    value, at = read_number(data, at, BAR, MOST_VALUE)
    ident, at = read_digits(data, at, 8)
    cust, at = read_digits(data, read_stop(data, at, BAR), 8)
    expires, at = read_number(data, read_stop(data, at, BAR), BAR, MOST_EXPIRES)
    props, at = read_text(data, at, BAR, PROPS_BYTES, PROPS_BYTES, 0, MOST_PROPS)
    cert, at = read_digits(data, at, 16)
    if at != len(data):
        raise Fault(at)
    return Scrip(data, version, vendor, value, int.from_bytes(ident, "big"), int.from_bytes(cust, "big"), expires, props, cert)


def piece_line(text, secret):
    """The line of a piece: its text and the secret of its customer."""
    return b"%s %s\n" % (text, secret.hex().encode())


def read_piece_line(line):
    """The scrip and the secret of a line, with its line end."""
    text, _, rest = line.partition(b" ")
    secret = digest_of(rest[:-1]) if rest.endswith(b"\n") else None
    if secret is None:
        raise Fault(0)
    return read_scrip(text), secret


def is_scrip(data):
    try:
        return bool(read_scrip(data))
    except Fault:
        return False


def id_of(issuer, epoch, serial):
    return issuer << 56 | epoch << 32 | serial


def issuer_of(ident):
    return ident >> 56


def epoch_of(ident):
    return ident >> 32 & 0xffffff


def series_of(ident):
    return ident >> 32


def id_text(ident):
    return "%016x" % ident


@dataclass(frozen=True)
class Terms:
    """Under which an issuer makes scrip."""
    issuer: int
    period: int
    life: int
    scrip: tuple
    customer: tuple

    def epoch(self, moment):
        return moment // self.period

    def end(self, epoch):
        return (epoch + 1) * self.period + self.life

    def series(self, moment):
        return self.issuer << 24 | self.epoch(moment)

    def certificate(self, body, ident):
        return digest(text_version(body), body, selected(self.scrip, ident))

    def secret(self, cust, version=1):
        """The secret of a customer identity whose series is of this version."""
        return digest(version, cust.to_bytes(8, "big"), selected(self.customer, cust))

    def scrip_text(self, vendor, value, ident, cust, props, version=1):
        """The text of a piece of a series of these terms, in the version of that series."""
        numbers = version, vendor, value, ident, cust, self.end(epoch_of(ident)), props
        body = b"MS%d|%s|%d|%016x|%016x|%d|%s|" % numbers
        return body + self.certificate(body, ident).hex().encode()

    def piece_line(self, vendor, value, ident, version=1):
        """The line of a piece of these terms at first hand."""
        return piece_line(self.scrip_text(vendor, value, ident, ident, b"", version), self.secret(ident, version))


def are_terms(terms):
    """Whether the period, the life and the counts of secrets are in their ranges."""
    counts = len(terms.scrip), len(terms.customer)
    return 2048 <= terms.period <= 2**24 and 0 <= terms.life <= 2**24 and all(1 <= n <= 16 for n in counts)


def selected(secrets, ident):
    return secrets[epoch_of(ident) % len(secrets)]


def text_version(text):
    """The version of a scrip text, or of its body; of `-`, which stands for an account, 1."""
    return 2 if text.startswith(b"MS2|") else 1


def digest(version, *parts):
    """Sixteen bytes: MD5 in version 1, the first half of SHA-256 in version 2."""
    hasher = sha256 if version == 2 else md5
    return hasher(b"".join(parts)).digest()[:16]


def request_signature(scrip, target, secret):
    return digest(text_version(scrip), scrip, b"\nGET ", target, b"\n", secret)


def reply_signature(scrip, target, head, contents, secret):
    """Of a reply whose text is a head, up to its line end, and the contents."""
    return digest(text_version(scrip), scrip, b"\nGET ", target, b"\n", head, contents, b"\n", secret)
