#!/usr/bin/env python3
"""Looks for schedules after which wallets and houses do not agree, by the second program.

    scripts/try/schedules.py [SCHEDULES] [SEED] [--without secrets|signatures|forgers|replies|names]

Without a word no schedule may break anything; the status is 1 where one does. With a word a premise is left out: that no
customer's secret stands in two wallets, that no house takes requests without a signature, that nobody signs requests with a wallet's
secrets but the wallet, that nobody signs replies with them but a house, or that no book is served by two houses of one name. Then it
prints how many schedules break what, and for each of these the shortest one that it came to, with no event that it does not need."""
import argparse
import sys
from pathlib import Path

sys.dont_write_bytecode = True
sys.path.insert(0, str(Path(__file__).resolve().parents[1] / "second"))

from agreement import findings  # noqa: E402
from generate import Numbers  # noqa: E402
from generate.schedules import Grower, Spelling, houses, limits_of, wallets  # noqa: E402
from payloads import entry_line  # noqa: E402
from schedule import play  # noqa: E402

MOST_TRIED = 20


class Schedule:
    """A setup and events."""

    def __init__(self, houses, wallets, limits, events):
        self.houses, self.wallets, self.limits, self.events = houses, wallets, limits, events

    def findings(self):
        return list(findings(play(self.houses, self.wallets, self.limits, self.events), self.wallets))

    def breaks(self):
        """What it breaks, without numbers."""
        return {" ".join("N" if word.isdigit() else word for word in text.split()) for text in self.findings()}

    def smaller(self, what):
        """The same without the events that it can break this without."""
        least, at = self, len(self.events)
        while at:
            at -= 1
            events = least.events[:at] + without(least.events[at], least.events[at + 1:], least, at)
            fewer = Schedule(self.houses, self.wallets, self.limits, events)
            if what in fewer.breaks():
                least = fewer
        return least

    def lines(self):
        """The setup by its entries, and the events as lines of a case."""
        for word, books in (("house", self.houses), ("wallet", self.wallets)):
            for n, entries in enumerate(books):
                yield from ("%s %d: %s" % (word, n, entry_line(entry)) for entry in entries)
        spelling = Spelling([(b"\r\n\r\n", "ee")])
        yield from map(spelling.line, self.events)


def without(event, behind, schedule, at):
    """The events behind one that is left out. Where it made a message or a reply, the numbers of later ones are one less."""
    before = play(schedule.houses, schedule.wallets, schedule.limits, schedule.events[:at])
    after = play(schedule.houses, schedule.wallets, schedule.limits, [*schedule.events[:at], event])
    messages, replies = len(before.messages), len(before.replies)
    made_message, made_reply = len(after.messages) > messages, len(after.replies) > replies
    left = []
    for verb, *values in behind:
        if verb == "deliver" and made_message and values[0] >= messages:
            values[0] = max(values[0] - 1, 0)
        if verb == "return" and made_reply and values[0] >= replies:
            values[0] = max(values[0] - 1, 0)
        left.append((verb, *values))
    return left


def at_random(numbers, missing):
    """A schedule at random."""
    chosen = [numbers.of(some) for some in houses(clear=int(missing == "signatures"))]
    if missing == "names":
        chosen[2] = chosen[0]
    held = [numbers.of(some) for some in wallets(shared=missing == "secrets")]
    limits = limits_of(numbers, chosen)
    grower = Grower(numbers, chosen, held, limits, missing == "secrets", missing == "forgers", missing == "replies")
    for _ in range(numbers.between(10, 80)):
        grower.step()
    return Schedule(chosen, held, limits, grower.events)


def main():
    parser = argparse.ArgumentParser()
    parser.add_argument("count", nargs="?", type=int, default=2000)
    parser.add_argument("seed", nargs="?", type=int, default=1)
    parser.add_argument("--without", choices=("secrets", "signatures", "forgers", "replies", "names"))
    words = parser.parse_args()
    numbers, events, broken, kinds = Numbers(words.seed), 0, 0, {}
    for _ in range(words.count):
        schedule = at_random(numbers, words.without)
        events += len(schedule.events)
        found = schedule.breaks()
        broken += bool(found)
        for what in found:
            kinds.setdefault(what, []).append(schedule)
    print("%d of %d schedules, of %d events, break something" % (broken, words.count, events))
    for what, schedules in sorted(kinds.items()):
        least = min((schedule.smaller(what) for schedule in schedules[:MOST_TRIED]), key=lambda schedule: len(schedule.events))
        print("\n".join(["", "%d: %s" % (len(schedules), what), *least.lines()]))
    return int(bool(broken) and words.without is None)


if __name__ == "__main__":
    sys.exit(main())
