"""What the writers of generated cases share: numbers without a pattern, the lines of a file, the names of `names.cases`, and terms."""
import hashlib
import os

from bytes_text import bytes_of, words_of

DATA = os.path.join(os.path.dirname(os.path.abspath(__file__)), "../../../crates/cases/data")
CHOICES = (0, 1, 5, 7, 128)
NOW = 1000000
PERIOD, LIFE = 4096, 8192


class Numbers:
    """Numbers that follow one another without a pattern that a case could show."""

    def __init__(self, seed):
        self.state = seed

    def below(self, limit):
        self.state = (self.state * 6364136223846793005 + 1442695040888963407) % 2**64
        return (self.state >> 33) % limit

    def of(self, items):
        return items[self.below(len(items))]

    def between(self, least, most):
        return least + self.below(most - least + 1)

    def listed(self, most):
        """Up to three numbers below another one, as words in their order."""
        return " ".join(str(n) for n in sorted({self.below(most) for _ in range(3)}))


class Cases:
    """The lines of a file."""

    def __init__(self, comment):
        self.lines, self.count = ["# " + line for line in comment.split("\n")], 0

    def group(self, comment):
        self.lines += ["", *("# " + line for line in comment.split("\n"))]

    def case(self, name, *lines):
        self.lines += ["case " + name, *lines]
        self.count += 1

    def let(self, name, spelled):
        NAMES[name] = bytes_of(spelled, NAMES)
        self.lines.append("let %s %s" % (name, spelled))

    def write(self, name):
        with open(os.path.join(DATA, "generated_%s.cases" % name), "w") as f:
            f.write("\n".join([*self.lines, "end %d" % self.count]) + "\n")


def shared_names():
    """The names of `names.cases`, with their bytes."""
    names = {}
    with open(os.path.join(DATA, "names.cases")) as f:
        for line in f:
            if line.startswith("let "):
                _, name, spelled = words_of(line.strip())
                names[name] = bytes_of(spelled, names)
    return names


NAMES = shared_names()


def length(spelled):
    return len(bytes_of(spelled, NAMES))


def with_byte(name, at, byte):
    """The bytes of this name with one of them in place of that at a place."""
    front, behind = ["$%s[:%d]" % (name, at)] * (at > 0), ["$%s[%d:]" % (name, at + 1)] * (at + 1 < length("$" + name))
    return "+".join([*front, "x%02x" % byte, *behind])


def raised(name):
    """The bytes of this name with each of them in turn raised by one."""
    for at, byte in enumerate(NAMES[name]):
        yield with_byte(name, at, (byte + 1) % 256)


def cut(name):
    """The bytes of this name, cut at every place."""
    return ["$%s[:%d]" % (name, at) for at in range(length("$" + name))]


def pieces(numbers, name, most):
    """The bytes of this name in pieces of at most so many, some of them empty."""
    size, cuts = length("$" + name), [0]
    while cuts[-1] < size and len(cuts) < 24:
        cuts.append(min(size, cuts[-1] + numbers.below(most + 1)))
    return " ".join("$%s[%d:%s]" % (name, start, end) for start, end in zip(cuts, [*cuts[1:], ""]))


# Scrip, entries and heads, in bytes and as they are spelled.


def md5(data):
    return hashlib.md5(data).hexdigest()


def digits(number, size):
    return "x%0*x" % (2 * size, number)


def string(text):
    return 'x%04x+"%s"' % (len(text), text)


class Issuer:
    """Terms: the number, and the bytes that fill the secrets for scrip and for customers."""

    def __init__(self, number, scrip, customer, period=PERIOD, life=LIFE):
        self.number, self.scrip, self.customer, self.period, self.life = number, scrip, customer, period, life

    def epoch(self, moment):
        return moment // self.period

    def end(self, epoch):
        return (epoch + 1) * self.period + self.life

    def identity(self, moment, serial):
        return self.number << 56 | self.epoch(moment) << 32 | serial

    def secret_of(self, secrets, identity):
        return bytes([secrets[(identity >> 32) % 2**24 % len(secrets)]]) * 16

    def customer_secret(self, cust):
        return hashlib.md5(cust.to_bytes(8, "big") + self.secret_of(self.customer, cust)).digest()

    def scrip_text(self, vendor, value, identity, cust, props="", expires=None):
        end = self.end((identity >> 32) % 2**24) if expires is None else expires
        body = "MS1|%s|%d|%016x|%016x|%d|%s|" % (vendor, value, identity, cust, end, props)
        return body + md5(body.encode() + self.secret_of(self.scrip, identity))

    def spelled(self):
        lists = ["x%02x" % len(secrets) + "".join("+x%02x*16" % byte for byte in secrets)
                 for secrets in (self.scrip, self.customer)]
        return "x01%02x+%s+%s+%s" % (self.number, digits(self.period, 4), digits(self.life, 4), "+".join(lists))


def signature(scrip, target, secret):
    return md5(("%s\nGET %s\n" % (scrip, target)).encode() + secret)


# The house of the worked examples, and further issuers: one with two secrets, one with another period.
OWN = Issuer(0, [0x11], [0x22])
ONE = Issuer(1, [0x33], [0x44])
TWO = Issuer(2, [0x55, 0x56], [0x66, 0x67, 0x68])
NINE = Issuer(9, [0x99], [0x9a], 2048, 0)
STRANGE = Issuer(7, [0x77], [0x78])
STOCKED = Issuer(0, [0x5a], [0x5b])


def each_call_fails(out, role, order, again):
    """Each call of the disk that an order makes fails in turn, with each crash behind it, and each call of the links."""
    name, book, links, words, disk, link = order
    before = ["book " + book] if book else []
    out.group("%s: disk calls." % name)
    for call in range(disk + 1):
        for choice in CHOICES:
            out.case("%s%s: disk call %d, crash %d" % (role, name, call, choice), *before, *links, "clock 1000000",
                     "fail disk %d" % call, words, "crash %d" % choice, *again(order))
    out.group("%s: link calls." % name)
    for call in range(link + 1):
        out.case("%s%s: link call %d" % (role, name, call), *before, *links, "clock 1000000", "fail link %d" % call, words,
                 *again(order))


def several_calls_fail(out, role, orders, again, rounds, numbers):
    """Some calls of the disk and of the links fail that any of the orders makes."""
    out.group("Several calls fail, of the disk and of the links.")
    for round in range(rounds):
        order = name, book, links, words, disk, link = numbers.of(orders)
        out.case("%s%s, %d" % (role, name, round), *(["book " + book] if book else []), *links, *links, "clock 1000000 1000900",
                 "fail disk " + numbers.listed(disk + 3), "fail link " + numbers.listed(link + 3), words,
                 "crash %d" % numbers.of((0, 1, 2, 3, 7, 64, 128, 255, 256, 12345)), *again(order))
