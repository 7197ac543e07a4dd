#!/usr/bin/env python3
"""Kills a shop's program at random moments while customers pay and its operator gives commands at its door, starts it again on the same
book, and compares the book with the replies and the answers that were read. Half of the operators' connections are cut before the answer.
What was not answered is told again, as docs/RUNNING.md has it. The argument is the number of kills."""
import itertools
import os
import random
import sys
import time
from pathlib import Path

sys.path.insert(0, str(Path(__file__).resolve().parents[1] / "lib"))

import millicent  # noqa: E402
from kill import KEEP, THREADS, Log  # noqa: E402
from payloads import GOODS, MINT  # noqa: E402
from serving import Door, kill_under_load  # noqa: E402
from shop import NAME, Shop  # noqa: E402

OPERATORS = 2
BAD = (b"", b"\n", b"x\n", b"0\n", b"0 vendor\n", b"0 broker balance - ann\n", b"0 vendor price - /o/0\n", b"00 vendor chain -\n", b"5 vendor goods - /o/0 5\ncut")


class Commands(Log):
    """Beside what clients asked and read: what the operators told, and what they were answered."""

    def __init__(self, shop):
        super().__init__(shop)
        self.numbers = itertools.count()
        self.told = {}      # the words of a command and its input: its line, or None where it is not known

    def handed(self, entry):
        return range(entry.first, entry.first + entry.count) if entry.kind == MINT else super().handed(entry)

    def fresh_command(self):
        """A command that no other is like: goods of a target of its own, their price, or a mint of its own."""
        number = next(self.numbers)
        contents = b"%d" % number
        return random.choice((
            ("vendor goods - /o/%d %d --kind 1" % (number, 1 + number), contents),
            ("vendor mint - %d 50 m%d" % (random.randint(1, 3), number), b"")))

    def tell(self, door, command):
        self.told.setdefault(command, None)
        door.tell(*command)
        if random.random() < 0.05:
            self.counts["connections cut before the answer"] += 1
            raise ConnectionError("cut on purpose")
        status, line = door.answer()
        if status or self.told[command] not in (None, line):
            return self.wrong("%r was answered %d %r, and before %r" % (command, status, line, self.told[command]))
        self.told[command] = line

    def operate(self, ended):
        while not ended.is_set():
            try:
                with Door(self.shop.door) as door:
                    for _ in range(random.randint(1, 20)):
                        known = list(self.told)
                        again = known and random.random() < 0.2
                        self.tell(door, random.choice(known) if again else self.fresh_command())
                        self.counts["commands under load"] += 1
            except OSError:
                time.sleep(0.002)

    def bad(self):
        """Bytes that are no command of this shop's operator are answered, or their connection ends, and nothing is done."""
        before = len(millicent.entries_of(self.shop.bytes()))
        for data in BAD:
            with Door(self.shop.door) as door:
                door.socket.sendall(data)
                door.socket.shutdown(1)
                said = door.stream.read()
                if said not in (b"", b"2 10\nbad words\n", b"7 21\nrefused 52 WrongKind\n", b"2 10\nbad words\n" * 2):
                    self.wrong("%r was answered %r" % (data, said))
        if len(millicent.entries_of(self.shop.bytes())) != before:
            self.wrong("bad bytes added an entry")

    def check(self, whole):
        """After a restart: each command that was answered is in the book, a mint once; one that was not is told now."""
        for command in [c for c, line in self.told.items() if line is None]:
            with Door(self.shop.door) as door:
                status, line = door.ask(*command)
            if status:
                self.wrong("%r told again was answered %d %r" % (command, status, line))
            self.told[command] = line
            self.counts["commands told again"] += 1
        entries = millicent.entries_of(self.shop.bytes())
        goods = [(e.target, e.price) for e in entries if e.kind == GOODS]
        mints = [e.reference for e in entries if e.kind == MINT]
        for (words, _), line in self.told.items():
            each = words.split()
            there = (goods.count((each[3].encode(), int(each[4]))) if each[1] == "goods" else mints.count(each[5].encode()))
            # Goods that are given again are entered again; a mint is known by its reference.
            if there < 1 or there > 1 and each[1] == "mint":
                self.wrong("%r, answered %r, is in the book %d times" % (words, line, there))
            if each[1] == "goods" and line != "goods %s %s\n" % (each[3], each[4]) or each[1] == "mint" and NAME.decode() not in line:
                self.wrong("%r was answered %r" % (words, line))
        self.bad()
        super().check(whole)


def main():
    kills = int(sys.argv[1]) if len(sys.argv) > 1 else 100
    with Shop(KEEP) as shop:
        shop.door = os.path.join(shop.folder.name, "door")
        log = Commands(shop)
        shop.start()
        for kill in range(kills):
            kill_under_load(shop, [log.load] * THREADS + [log.operate] * OPERATORS)
            log.counts["kills"] += 1
            shop.start()
            log.check(whole=kill + 1 == kills)
        shop.kill()
        for what, count in sorted(log.counts.items() | {("violations", log.counts["violations"])}):
            print("%8d  %s" % (count, what))
        return log.counts["violations"] > 0


if __name__ == "__main__":
    raise SystemExit(main())
