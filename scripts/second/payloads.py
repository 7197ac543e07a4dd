"""Entries as payloads: how each kind is spelled, read with the places of faults, and printed."""
from types import SimpleNamespace

from bytes_text import shown
from forms import MOMENTS, MOST_VALUE, Fault, Terms, id_text, is_name, is_scrip, is_target


class Reader:
    """Bytes of a payload, read field by field."""

    def __init__(self, data):
        self.data, self.at = data, 0

    def take(self, count):
        """So many bytes, which are a field of their own."""
        if self.at + count > len(self.data):
            raise Fault(self.at)
        self.at += count
        return self.data[self.at - count:self.at]


class Number:
    """A number with its high byte first, within a range."""

    def __init__(self, width, least=0, most=None):
        self.width, self.least = width, least
        self.most = 256**width - 1 if most is None else most

    def read(self, reader, before):
        at = reader.at
        number = int.from_bytes(reader.take(self.width), "big")
        if not self.least <= number <= self.most:
            raise Fault(at)
        return number

    def write(self, number):
        return number.to_bytes(self.width, "big")

    def show(self, number):
        return [str(number)]


class Identity(Number):
    """An identity."""

    def __init__(self):
        super().__init__(8)

    def show(self, number):
        return [id_text(number)]


class Text:
    """A length of two bytes and so many bytes, which pass a test."""

    def __init__(self, test):
        self.test = test

    def read(self, reader, before):
        at = reader.at
        length = int.from_bytes(reader.take(2), "big")
        if at + 2 + length > len(reader.data):
            raise Fault(at)
        text = reader.take(length)
        if not self.test(text):
            raise Fault(at)
        return text

    def write(self, text):
        return len(text).to_bytes(2, "big") + text

    def show(self, text):
        return [shown(text)]


class Sixteen:
    """A secret, a key or a signature."""

    def read(self, reader, before):
        return reader.take(16)

    def write(self, data):
        return data

    def show(self, data):
        return [shown(data)]


class Chain:
    """The chain of the entries before a Switch."""

    def read(self, reader, before):
        return reader.take(32)

    def write(self, data):
        return data

    def show(self, data):
        return [shown(data)]


class Contents:
    """A length of four bytes, and the contents of goods or of a note."""
    length = Number(4, 0, 65_536)

    def read(self, reader, before):
        return reader.take(self.length.read(reader, before))

    def write(self, data):
        return self.length.write(len(data)) + data

    def show(self, data):
        return [shown(data)]


FLAG = Number(1, 0, 1)


class Maybe:
    """A flag, and fields where it is 1: one as its value, more as a list."""

    def __init__(self, *fields):
        self.fields = fields

    def read(self, reader, before):
        if not FLAG.read(reader, before):
            return None
        values = [field.read(reader, before) for field in self.fields]
        return values[0] if len(values) == 1 else values

    def write(self, value):
        if value is None:
            return b"\0"
        values = [value] if len(self.fields) == 1 else value
        return b"\1" + b"".join(f.write(v) for f, v in zip(self.fields, values))

    def show(self, value):
        if value is None:
            return ["-"]
        values = [value] if len(self.fields) == 1 else value
        return [text for f, v in zip(self.fields, values) for text in f.show(v)]


class TermsField:
    """Terms, whose issuer is in a range."""
    period, life, count = Number(4, 2048, 2**24), Number(4, 0, 2**24), Number(1, 1, 16)

    def __init__(self, least, most):
        self.issuer = Number(1, least, most)

    def secrets(self, reader):
        return tuple(reader.take(16) for _ in range(self.count.read(reader, None)))

    def read(self, reader, before):
        Number(1, 1, 1).read(reader, before)
        numbers = [field.read(reader, before) for field in (self.issuer, self.period, self.life)]
        return Terms(*numbers, self.secrets(reader), self.secrets(reader))

    def write(self, terms):
        numbers = bytes((1, terms.issuer)) + self.period.write(terms.period) + self.life.write(terms.life)
        return numbers + b"".join(bytes((len(s),)) + b"".join(s) for s in (terms.scrip, terms.customer))

    def show(self, terms):
        numbers = [str(n) for n in (terms.issuer, terms.period, terms.life)]
        return numbers + [shown(b"".join(secrets)) for secrets in (terms.scrip, terms.customer)]


class House:
    """What the site of a vendor or a broker has and that of a wallet has not."""
    keep, terms = Number(4, 60, 86_400), TermsField(0, 0)

    def read(self, reader, before):
        if before["site"] == 2:
            return None
        fee = Number(8, 0, MOST_VALUE if before["site"] == 1 else 0)
        fields = (("keep", self.keep), ("fee", fee), ("clear", FLAG), ("terms", self.terms))
        return SimpleNamespace(**{name: field.read(reader, before) for name, field in fields})

    def write(self, house):
        if house is None:
            return b""
        numbers = self.keep.write(house.keep) + Number(8).write(house.fee) + FLAG.write(house.clear)
        return numbers + self.terms.write(house.terms)

    def show(self, house):
        if house is None:
            return ["-"]
        return [str(n) for n in (house.keep, house.fee, house.clear)] + self.terms.show(house.terms)


class Deed:
    """What was bought: goods, a sale with its stock flag and identity, or credit with the balance."""
    kind = Number(1, 0, 2)

    def read(self, reader, before):
        kind = self.kind.read(reader, before)
        if kind == 1:
            return kind, FLAG.read(reader, before), Identity().read(reader, before)
        return (kind, Number(8).read(reader, before)) if kind == 2 else (kind,)

    def write(self, deed):
        fields = {0: (), 1: (FLAG, Identity()), 2: (Number(8),)}[deed[0]]
        return self.kind.write(deed[0]) + b"".join(field.write(value) for field, value in zip(fields, deed[1:]))

    def show(self, deed):
        if deed[0] == 1:
            return ["sale", str(deed[1]), id_text(deed[2])]
        return ["credit", str(deed[1])] if deed[0] == 2 else ["goods"]


NAME, TARGET, SCRIP = Text(is_name), Text(is_target), Text(is_scrip)


class Pieces:
    """A count, and for each piece its scrip text and its secret."""
    count = Number(2, 1, 256)

    def read(self, reader, before):
        count = self.count.read(reader, before)
        return [(SCRIP.read(reader, before), reader.take(16)) for _ in range(count)]

    def write(self, pieces):
        return self.count.write(len(pieces)) + b"".join(SCRIP.write(text) + secret for text, secret in pieces)

    def show(self, pieces):
        return [str(len(pieces))] + [shown(part) for piece in pieces for part in piece]


AMOUNT = Number(8, 1, MOST_VALUE)
MOMENT = Number(8, 0, MOMENTS - 1)
SITE, TERMS, GOODS, ACCEPT, MINT, ACCOUNT, DEPOSIT, WITHDRAW, DRAW, LICENCE, STOCK, GOT, PEND, DONE, REFUSED, \
    UPGRADE, SWITCH, NOTE = range(1, 19)
VENDOR, BROKER = range(2)  # the kinds of sites that are houses
FORMS = {
    1: (("site", Number(1, 0, 2)), ("name", NAME), ("house", House())),
    2: (("terms", TermsField(1, 255)),),
    3: (("target", TARGET), ("price", AMOUNT), ("goods", Number(1, 0, 2)), ("contents", Contents())),
    4: (("scrip", SCRIP), ("target", TARGET), ("sign", Maybe(Sixteen())), ("price", Number(8)),
        ("change", Maybe(Identity())), ("deed", Deed())),
    5: (("reference", NAME), ("count", Number(2, 1, 256)), ("value", AMOUNT), ("first", Identity())),
    6: (("name", NAME), ("key", Sixteen())),
    7: (("name", NAME), ("amount", AMOUNT), ("reference", NAME)),
    8: (("name", NAME), ("amount", AMOUNT), ("reference", NAME)),
    9: (("target", TARGET), ("sign", Sixteen()), ("drawn", Identity())),
    10: (("vendor", NAME), ("terms", TermsField(1, 255))),
    11: (("vendor", NAME), ("pieces", Pieces())),
    12: (("pieces", Pieces()),),
    13: (("ask", Number(1, 0, 2)), ("peer", NAME), ("target", TARGET), ("scrip", Maybe(SCRIP)), ("secret", Sixteen())),
    14: (("number", Number(8)), ("price", Number(8)), ("change", Maybe(SCRIP)), ("got", Maybe(SCRIP, Sixteen()))),
    15: (("number", Number(8)), ("refusal", Number(2))),
    16: (("vendor", NAME), ("issuer", Number(1)), ("start", Number(4, 0, 2**24 - 1))),
    17: (("chain", Chain()),),
    18: (("tag", NAME), ("bytes", Contents())),
}


def read_entry(data):
    """The entry that the bytes spell, with its payload; a Fault tells the place where they do not."""
    reader = Reader(data)
    kind = Number(1, 1, 18).read(reader, None)
    moment = MOMENT.read(reader, None)
    values = {}
    for name, field in FORMS[kind]:
        values[name] = field.read(reader, values)
    if reader.at != len(data):
        raise Fault(reader.at)
    return SimpleNamespace(kind=kind, moment=moment, payload=data, **values)


def entry_of(kind, moment, **values):
    """An entry of these values, with its payload."""
    fields = b"".join(field.write(values[name]) for name, field in FORMS[kind])
    return SimpleNamespace(kind=kind, moment=moment, payload=bytes((kind,)) + MOMENT.write(moment) + fields, **values)


def entry_line(entry):
    """Kind, moment and fields, as they are printed."""
    texts = [str(entry.kind), str(entry.moment)]
    for name, field in FORMS[entry.kind]:
        texts += field.show(getattr(entry, name))
    return " ".join(texts)
