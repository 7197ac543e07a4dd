"""Writes the generated file of cases of an operator's door, `crates/cases/data/generated_doors.cases`."""
from bytes_text import bytes_of
from generate import NAMES, NOW, ONE, STOCKED, Cases, Numbers, cut, each_call_fails, length, raised, several_calls_fail
from generate.desks import Desk, key_word, licence_line, names, piece_line
from program import run
from stage import Stage

AT_DOOR = "run %s serve b l:80 %d --door /d"
LATE = 1003520


def told(words, brought=None):
    """The bytes that tell a command of these words, without the book, and with an input, as they are spelled."""
    role, verb, *rest = words.split(" ")
    parts = ['%d %s %s -' % (length(brought) if brought else 0, role, verb)]
    for word in rest:
        if word[0] in '"$':
            parts += ['" "+%s' % word, '']
        else:
            parts[-1] += " " + word
    parts[-1] += "\\n"
    spelled = "+".join(part if part.startswith('"') else '"%s"' % part for part in parts if part)
    return spelled + ("+" + brought if brought else "")


def closed(words):
    """The words of a command over a closed book."""
    role, verb, *rest = words.split(" ")
    return [role, verb, "b", *rest]


def word_bytes(word):
    return bytes_of(word, NAMES) if word[0] in '"$' else word.encode()


# Each operator's command, with what it is refused for, one after another over one book: its words, its input, and the time.
VENDORS = [
    ("vendor list", None, NOW), ("vendor status", None, NOW), ("vendor price /news/1 30", None, NOW), ("vendor goods /news/1 25 --kind 1", '"Good morning.\\n"', NOW),
    ("vendor goods /news/2 7", "x00ff0a0d*99", NOW), ("vendor goods /empty 7", None, NOW),
    ("vendor goods /big 7 --kind=2", '"x"*65536', NOW), ("vendor goods /big 8", '"x"*65537', NOW),
    ("vendor price /news/1 30", None, NOW), ("vendor price /news/1 30", None, NOW + 1), ("vendor list", None, NOW),
    ("vendor status", None, 0), ("vendor list", '"more"', NOW),
    ("vendor licence 2 4096 8192 $fives $mixed", None, NOW), ("vendor licence 2 4096 8192 $fives $mixed", None, NOW),
    ("vendor licence 2 4096 8192 $fives $fives", None, NOW), ("vendor licence 1 4096 8192 $threes $fours", None, NOW),
    ("vendor mint 2 50 m1", None, NOW), ("vendor mint 2 50 m1", None, NOW + 600), ("vendor mint 3 50 m1", None, NOW),
    ("vendor mint 2 51 m1", None, NOW), ("vendor mint 256 1 m2", None, NOW), ("vendor upgrade 1 245", None, NOW),
    ("vendor upgrade 1 245", None, NOW), ("vendor upgrade 1 246", None, NOW), ("vendor upgrade 0 244", None, NOW),
    ("vendor upgrade 0 245", None, NOW), ("vendor upgrade 9 245", None, NOW), ("vendor mint 2 50 m1", None, LATE),
    ("vendor mint 2 50 m3", None, LATE), ("vendor chain", None, LATE), ("vendor chain", None, LATE + 1),
    ("vendor mint 2 50 m4", None, LATE), ("vendor price /news/1 31", None, 0), ("vendor chain", None, LATE),
    ("vendor list", None, LATE), ("vendor status", None, LATE), ("vendor list --kind 1", None, LATE), ("vendor status more", None, LATE),
    ("vendor price /news/1 0", None, LATE), ("vendor price news 5", None, LATE), ("vendor price /news/1", None, LATE),
    ("vendor nonsense", None, LATE), ("vendor goods /news/1 25 --kind 3", '"x"', LATE),
]
LINES = [piece_line(STOCKED, "shop.example", 50 + serial, STOCKED.identity(NOW, serial)) for serial in range(3)]
BROKERS = [
    ("broker list", None, NOW), ("broker status", None, NOW), ("broker balance ann", None, NOW), ("broker deposit ann 1 r0", None, NOW), ("broker account ann " + key_word("ann"), None, NOW),
    ("broker account ann " + key_word("ann"), None, NOW + 1), ("broker account ann " + key_word("bob"), None, NOW),
    ("broker balance ann", None, NOW), ("broker deposit ann 1000 r1", None, NOW), ("broker deposit ann 1000 r1", None, NOW),
    ("broker deposit ann 5 r1", None, NOW), ("broker withdraw ann 1000 r1", None, NOW), ("broker withdraw ann 1 r2", None, NOW),
    ("broker withdraw ann 5000 r3", None, NOW), ("broker withdraw bob 1 r4", None, NOW), ("broker balance ann", None, NOW),
    ("broker list", None, NOW), ("broker status", '"more"', NOW),
    ("broker licence", licence_line("news.example", ONE), NOW), ("broker licence", licence_line("news.example", ONE), NOW),
    ("broker licence", licence_line("news.example", STOCKED), NOW), ("broker licence", licence_line("news.example", ONE) + '+"x"', NOW),
    ("broker licence", None, NOW), ("broker stock shop.example", "+".join(LINES[:2]), NOW),
    ("broker stock shop.example", "+".join(LINES[1:]), NOW), ("broker stock press.example", LINES[2], NOW),
    ("broker stock shop.example", LINES[2] + '+"x"', NOW), ("broker stock shop.example", None, NOW),
    ("broker stock shop.example", '"x"*131072', NOW), ("broker upgrade news.example 245", None, NOW),
    ("broker upgrade news.example 245", None, NOW), ("broker upgrade news.example 246", None, NOW),
    ("broker upgrade bank 244", None, NOW), ("broker upgrade bank 245", None, NOW), ("broker upgrade none.example 245", None, NOW),
    ("broker chain", None, NOW), ("broker chain", None, NOW), ("broker deposit ann 2 r5", None, 0), ("broker chain", None, LATE),
    ("broker list", None, 0), ("broker status", None, LATE), ("broker list ann", None, LATE), ("broker status --json", None, LATE),
    ("broker balance zoe", None, LATE), ("broker balance Zoe", None, LATE), ("broker deposit ann 0 r6", None, LATE),
    ("broker stock", '"x"', LATE), ("broker nonsense", None, LATE),
]


def twice(out, book, commands):
    """Each command over the closed book, and at the door of the same book: the answer is the status and the line, and the two
    books are the same."""
    out.let("d_book", book)
    contents = NAMES["d_book"]
    for number, (words, brought, time) in enumerate(commands):
        role, link, tells = words.split(" ")[0], [[bytes_of(brought, NAMES)]] if brought else [], told(words, brought)
        one, other = Stage(contents, link, [time]), Stage(contents, [[bytes_of(tells, NAMES)]], [time], doors=[0])
        status = run([word_bytes(word) for word in closed(words)], one, ())
        assert run((AT_DOOR % (role, 1)).encode().split()[1:], other, ()) == 0
        assert other.sent == [b"%d %d\n%s" % (status, len(one.said), one.said)] and other.contents == one.contents
        out.case("closed and at a door, %d: %s" % (number, words), "book $d_book", "clock %d" % time,
                 *(["link " + brought] if brought else []), "run " + " ".join(closed(words)), "let d_before $d_book",
                 "save d_book book", "book $d_before", "door " + tells, AT_DOOR % (role, 1))
        contents = bytes(one.contents)


def spoiled(out):
    """What is told, with each byte raised by one and cut at every place, each on a link of its own."""
    for name, book, tells in (("price", "$shop", told("vendor price /news/1 30")), ("goods", "$shop", told("vendor goods /a 5", '"hi"')),
                              ("stock", "$f_bank", told("broker stock shop.example", LINES[0])),
                              ("balance", "$f_rich", told("broker balance ann"))):
        out.let("d_told", tells)
        role = "broker" if book.startswith("$f") else "vendor"
        for how, spelled in (("each byte raised by one", list(raised("d_told"))), ("cut at every place", cut("d_told"))):
            out.case("%s, %s" % (name, how), "book " + book, "clock %d" % NOW, *("door " + one for one in spelled),
                     AT_DOOR % (role, len(spelled)))


# Each command at a door, with its book, its links, its words, and how many calls of the disk and of links it makes.
ORDERS = [
    ("goods", "$licensed", ("door " + told("vendor goods /news/1 25 --kind 1", '"Good morning.\\n"'),), AT_DOOR % ("vendor", 1), 6, 6),
    ("mint", "$shop", ("door " + told("vendor mint 2 50 m1"),), AT_DOOR % ("vendor", 1), 6, 6),
    ("a mint that stands", "$d_minted", ("door " + told("vendor mint 2 50 m1"),), AT_DOOR % ("vendor", 1), 2, 6),
    ("chain", "$paid_shop", ("door " + told("vendor chain"),), AT_DOOR % ("vendor", 1), 7, 6),
    ("upgrade", "$shop", ("door " + told("vendor upgrade 1 245"),), AT_DOOR % ("vendor", 1), 6, 6),
    ("bad words", "$shop", ('door "0 vendor\\n"',), AT_DOOR % ("vendor", 1), 2, 6),
    ("status", "$shop", ("door " + told("vendor status"),), AT_DOOR % ("vendor", 1), 2, 6),
    ("a payment and a price", "$shop", ("link $pays", "door " + told("vendor price /news/1 30")), AT_DOOR % ("vendor", 2), 10, 10),
]
DESKS = [
    ("account", "$f_bank", ("door " + told("broker account ann " + key_word("ann")),), AT_DOOR % ("broker", 1), 6, 6),
    ("stock", "$f_rich", ("door " + told("broker stock shop.example", "+".join(LINES[:2])),), AT_DOOR % ("broker", 1), 6, 6),
    ("list", "$f_rich", ("door " + told("broker list"),), AT_DOOR % ("broker", 1), 2, 6),
    ("a withdrawal that is refused", "$f_rich", ("door " + told("broker withdraw ann 1001 w1"),), AT_DOOR % ("broker", 1), 2, 6),
    ("a draw and a withdrawal", "$f_rich", ("link $f_draw", "door " + told("broker withdraw ann 700 w1")), AT_DOOR % ("broker", 2), 10, 10),
]
AGAIN = ("link $pays", "link $pays60", AT_DOOR % ("vendor", 2))
DESK_AGAIN = ("link $f_draw", "door " + told("broker balance ann"), AT_DOOR % ("broker", 2))


def faults(out):
    for role, orders, again in (("vendor's ", ORDERS, AGAIN), ("broker's ", DESKS, DESK_AGAIN)):
        follow = lambda order: (*order[2], order[3], *again)
        for order in orders:
            each_call_fails(out, role, order, follow)
        several_calls_fail(out, role, orders, follow, 30, Numbers(11 + len(orders)))


class Mixed:
    """The links of a run, some of which are the operator's."""

    def __init__(self, numbers):
        self.numbers, self.links = numbers, []

    def tell(self, words, brought=None):
        """A command through the door, of which some are spoiled: another number, one byte more or less, or no door."""
        tells, kind = told(words, brought), self.numbers.below(24)
        tells = {0: tells + '+"x"', 1: tells.replace('"', '"1', 1), 2: tells.replace(" ", "  ", 1)}.get(kind, tells)
        self.links.append((False if kind == 3 else True, tells))

    def lines(self):
        return ["%s %s" % ("door" if is_told else "link", brought) for is_told, brought in self.links]


class Shop(Mixed):
    """A vendor's."""

    def command(self):
        numbers, order = self.numbers, self.numbers.below(18)
        target, price = numbers.of(("/news/1", "/news/1", "/news/2", "/")), numbers.of((1, 24, 25, 25, 30, 2**40))
        if order < 4:
            kind = numbers.of(("", " --kind 1", " --kind=2", " --kind 4"))
            self.tell("vendor goods %s %d%s" % (target, price, kind), numbers.of(('"hi"', '"Good morning.\\n"', "x0a00ff", None)))
        elif order < 8:
            self.tell("vendor price %s %d" % (target, price))
        elif order < 11:
            self.tell("vendor mint %d %d %s" % (numbers.of((1, 2, 2, 257)), numbers.of((50, 50, 7)), numbers.of(("m1", "m1", "m2"))))
        elif order == 11:
            self.tell("vendor licence %d 4096 8192 $threes %s" % (numbers.of((1, 2)), numbers.of(("$fours", "$fours", "$fives"))))
        elif order == 12:
            self.tell("vendor upgrade %d %d" % (numbers.of((0, 1, 2)), numbers.of((244, 245, 246))))
        elif order == 13:
            self.tell("vendor chain")
        elif order < 16:
            self.tell("vendor " + numbers.of(("list", "status")))
        else:
            self.tell(*numbers.of((("broker balance ann",), ("broker stock shop.example", '"x"'), ("vendor statement 1 244",),
                                   ("broker settle",), ("vendor serve l:80 1",), ("wallet list",), ("broker deposit ann 0 r1",),
                                   ("broker list",), ("broker status",))))

    def link(self):
        heads = ["$pays", "$unpaid", "$pays60", "$pays_exact", "$pays_minted", "$pays2", "$get2+$e", "$head1"]
        self.links.append((False, "+".join(self.numbers.of(heads) for _ in range(self.numbers.between(1, 3)))))


def shops(out):
    out.group("A vendor's customers and its operator, in any order, over runs of one book.")
    numbers = Numbers(1998)
    for round in range(120):
        lines, time = ["book " + numbers.of(("$shop", "$shop", "$licensed", "$signed_shop", "$paid_shop"))], NOW
        for _ in range(numbers.between(1, 3)):
            shop = Shop(numbers)
            for _ in range(numbers.between(2, 7)):
                numbers.of((shop.command, shop.command, shop.link))()
            readings = []
            for _ in range(numbers.between(1, 5)):
                time += numbers.of((0, 0, 1, 60, 600, 4096))
                readings.append(time - numbers.of((0, 0, 0, 500)))
            lines += [*shop.lines(), "clock " + " ".join(map(str, readings))]
            fails = numbers.below(6)
            if fails == 0:
                lines.append("fail disk " + numbers.listed(14))
            elif fails == 1:
                lines.append("fail link " + numbers.listed(24))
            lines.append(AT_DOOR % ("vendor", len(shop.links)) + numbers.of(("", "", "x")))
            if fails == 0:
                lines.append("crash %d" % numbers.of((0, 1, 2, 7, 128)))
        out.case("a vendor's links %d" % round, *lines, "run vendor list b", "run vendor status b", "lawful", "replay")


class Bank(Desk):
    """A broker, whose operator's commands come through the door among the links of customers, who pay with what they got."""

    def __init__(self, numbers):
        super().__init__(numbers)
        self.told = []

    def run(self, words, *links):
        """Keeps a command to be told; runs words that found a book, and serves links with those that are kept among them."""
        role, verb, book, *rest = words.split(" ")
        if verb == "init":
            return super().run(words, *links)
        if verb != "serve":
            shop = Mixed(self.numbers)
            shop.tell(" ".join((role, verb, *rest)), "+".join(links) or None)
            self.told += shop.links
            return None
        every = [(False, link) for link in links]
        for one in self.told:
            every.insert(self.numbers.below(len(every) + 1), one)
        self.told = []
        return self.served(every)

    def served(self, every):
        serving, doors = AT_DOOR % ("broker", len(every)), [number for number, (is_told, _) in enumerate(every) if is_told]
        stage = Stage(self.book, [[bytes_of(link, NAMES)] for _, link in every], [self.time], doors=doors)
        run(serving.encode().split()[1:], stage, ())
        self.book = bytes(stage.contents)
        self.lines += ["%s %s" % ("door" if is_told else "link", link) for is_told, link in every]
        self.lines += ["clock %d" % self.time, serving]
        return stage

    def crash(self):
        """A command while a call of the disk fails, a crash, and the command again."""
        words, call, choice = "broker deposit ann 300 last", self.numbers.below(7), self.numbers.of((0, 1, 2, 128))
        stage, serving = Stage(self.book, [[bytes_of(told(words), NAMES)]], [self.time], [call], doors=[0]), AT_DOOR % ("broker", 1)
        run(serving.encode().split()[1:], stage, ())
        self.book = stage.crashed(choice)
        self.lines += ["clock %d" % self.time, "fail disk %d" % call, "door " + told(words), serving, "crash %d" % choice]
        self.run("broker deposit b ann 300 last")


def banks(out):
    out.group("A broker's customers and its operator, likewise; the customers pay with what they got.")
    numbers = Numbers(1999)
    for round in range(70):
        bank = Bank(numbers)
        bank.found()
        bank.run("broker account b ann " + key_word("ann"))
        bank.run("broker deposit b ann 3000 first")
        for start in (bank.license, bank.stock, bank.stock)[:numbers.below(4)]:
            start()
        for _ in range(numbers.between(4, 12)):
            bank.step()
        bank.run("broker chain b")
        bank.serve()
        out.case("a broker's links %d" % round, *bank.lines, "run broker list b", "run broker status b", "lawful", "replay")


def main():
    out = Cases("The operator's door: each command over a closed book and at a door; bytes that tell one, raised and cut; each call\n"
                "failing in turn; and links of customers and of the operator at random.")
    out.let("d_minted", "$front+$in_site+$in_terms+$in_page+$in_minted+$shut")
    names(out)
    out.group("Each command over the closed book, and at the door of the same book.")
    twice(out, "$licensed", VENDORS)
    twice(out, "$f_bank", BROKERS)
    out.group("Bytes that tell a command.")
    spoiled(out)
    faults(out)
    shops(out)
    banks(out)
    out.write("doors")
