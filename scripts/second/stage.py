"""A disk, links and a clock in memory, with calls that fail and images that a crash leaves."""
from forms import MOMENTS


class DiskFault(Exception):
    """A call of the disk failed."""


class LinkFault(Exception):
    """A call of a link failed."""


def common_length(one, other):
    """How many first bytes are the same."""
    least, most = 0, min(len(one), len(other))
    while least < most:
        middle = (least + most + 1) // 2
        if one[least:middle] == other[least:middle]:
            least = middle
        else:
            most = middle - 1
    return least


class Stage:
    """What a program sees outside of itself."""

    def __init__(self, contents=b"", links=(), readings=(), failing_disk=(), failing_link=(), doors=()):
        self.before, self.contents = bytes(contents), bytearray(contents)
        self.undone, self.loose = [], []
        self.links, self.doors = [[piece for piece in link if piece] for link in links], frozenset(doors)
        self.readings = [min(reading, MOMENTS - 1) for reading in readings] or [0]
        self.failing = {"disk": frozenset(failing_disk), "link": frozenset(failing_link)}
        self.calls = {"disk": 0, "link": 0}
        self.standing, self.sent, self.said, self.read_readings = None, [], b"", 0

    def count(self, what, fault):
        """Counts a call that can fail, and fails where it is to."""
        self.calls[what] += 1
        if self.calls[what] - 1 in self.failing[what]:
            raise fault

    def size(self):
        self.count("disk", DiskFault)
        return len(self.contents)

    def read(self, at, length):
        self.count("disk", DiskFault)
        return bytes(self.contents[at:at + length])

    def write(self, at, data):
        self.count("disk", DiskFault)
        old = len(self.contents)
        self.undone.append((old, at, bytes(self.contents[at:at + len(data)])))
        self.loose.append((min(at, old), at + len(data)))
        self.contents.extend(bytes(max(0, at - old)))
        self.contents[at:at + len(data)] = data

    def cut(self, size):
        self.count("disk", DiskFault)
        self.undone.append((len(self.contents), size, bytes(self.contents[size:])))
        self.loose.append((size, len(self.contents)))
        del self.contents[size:]

    def sync(self):
        self.count("disk", DiskFault)
        self.undone, self.loose = [], []

    def next_link(self):
        self.standing = None
        self.count("link", LinkFault)
        if self.links:
            self.standing = self.links.pop(0)
            self.sent.append(b"")
        return self.standing is not None

    def is_operators(self):
        """Whether the last link that was taken came through the operator's door."""
        return len(self.sent) - 1 in self.doors

    def recv(self, length):
        self.count("link", LinkFault)
        if not self.standing or not length:
            return b""
        piece = self.standing.pop(0)
        if piece[length:]:
            self.standing.insert(0, piece[length:])
        return piece[:length]

    def send(self, data):
        self.count("link", LinkFault)
        self.sent[-1] += data
        return len(data)

    def end_link(self):
        self.standing = None

    def say(self, data):
        self.count("link", LinkFault)
        self.said += data

    def now(self):
        reading = self.readings[min(self.read_readings, len(self.readings) - 1)]
        self.read_readings += 1
        return reading

    def crashed(self, choice):
        """The image that a crash with this choice leaves."""
        image = bytearray(self.contents)
        if choice == 1:
            for old, at, data in reversed(self.undone):
                image[at:at + len(data)] = data
                del image[old:]
        elif choice > 1:
            for first, end in self.loose:
                for place in range(first, min(end, len(image))):
                    image[place] = (choice * place + 1) % 256
        return bytes(image)

    def lines(self):
        """What was said and sent, the book, and how many calls were made."""
        lines = [("said", self.said)] if self.said else []
        lines += [("sent", sent) for sent in self.sent]
        return lines, change_of(self.before, bytes(self.contents)), (self.calls["disk"], self.calls["link"])


def change_of(before, after):
    """How many first bytes stayed, and what stands behind them; None where nothing changed."""
    if before == after:
        return None
    kept = common_length(before, after)
    return kept, after[kept:]
