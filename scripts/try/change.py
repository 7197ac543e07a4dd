#!/usr/bin/env python3
"""Tries `examples/systemd/change` and the unit beside it where there is no systemd: in a temporary folder with a `systemctl` of its own,
which starts and stops the site by the ExecStart of the unit. A site with a door is changed while a customer pays, and is not stopped; one
without a door, or for `statement`, is stopped and started again. The unit for a monitor is run beside. A line for each look tells whether it holds; the status is 1 where one
does not."""
import os
import re
import signal
import subprocess
import sys
import threading
import time
from pathlib import Path

sys.path.insert(0, str(Path(__file__).resolve().parents[1] / "lib"))

import millicent  # noqa: E402
from paying import fresh, pay_alone  # noqa: E402
from serving import PROGRAM, TOP  # noqa: E402
from shop import TARGET, Link, Shop  # noqa: E402

UNITS = TOP / "examples/systemd"
# What stands for systemd: the unit's main process is the shell of ExecStart, and a stop ends all that it started.
SYSTEMCTL = """#!/bin/bash
room=%(room)s
site() { [ -e $room/pid ] && kill -0 $(cat $room/pid) 2> /dev/null; }
case $1 in
  is-active) if site; then echo active; else echo inactive; fi ;;
  stop) if site; then kill -KILL -- -$(cat $room/pid); while site; do sleep 0.01; done; fi ;;
  start) site || { echo start >> $room/starts; ROLE=vendor LISTEN=%(listen)s setsid bash -c "$(cat $room/exec)" < /dev/null >> $room/journal 2>&1 & echo $! > $room/pid; } ;;
esac
"""


class Machine:
    """A folder with what `change` names, and the copy of it that names these."""

    def __init__(self, shop):
        self.shop, self.room = shop, Path(shop.folder.name) / "machine"
        self.places = {"/etc/millicent": self.room / "etc", "/var/lib/millicent": self.room / "lib", "/run/": self.room / "run",
                       "/usr/local/bin/millicent": self.room / "bin/millicent"}
        for name in ("etc", "lib", "run", "bin"):
            (self.room / name).mkdir(parents=True)
        self.listen = "%s:%d" % shop.address
        (self.room / "etc/news").write_text("ROLE=vendor\nLISTEN=%s\n" % self.listen)
        os.rename(shop.book, self.room / "lib/news.book")
        shop.book = str(self.room / "lib/news.book")
        self.door = self.room / "lib/news.door"
        self.write("bin/millicent", '#!/bin/bash\nexec %s "$@"\n' % PROGRAM)
        self.write("bin/runuser", '#!/bin/bash\nshift 3\nexec "$@"\n')
        self.write("bin/systemctl", SYSTEMCTL % {"room": self.room, "listen": self.listen})
        self.write("change", self.placed((UNITS / "change").read_text()))
        self.serve_by(self.exec_start("millicent@.service"))

    def write(self, name, text):
        path = self.room / name
        path.write_text(text)
        path.chmod(0o755)

    def placed(self, text):
        for place, path in self.places.items():
            text = text.replace(place, "%s/" % path if place.endswith("/") else str(path))
        return text

    def exec_start(self, unit):
        """The words of the unit's shell, as systemd reads them."""
        unit = (UNITS / unit).read_text()
        words = re.search(r"ExecStart=/bin/sh -c '(.*?)'$", unit, re.S | re.M)[1].replace("\\\n", "").replace("\\\\", "\\")
        return self.placed(words.replace("%i", "news").replace("%%", "%").replace("$$", "$"))

    def serve_by(self, words):
        (self.room / "exec").write_text(words)

    def systemctl(self, *words):
        subprocess.run([self.room / "bin/systemctl", *words], check=True)

    def start(self):
        self.systemctl("start", "millicent@news")
        for _ in range(2000):
            try:
                return Link(self.shop.address).socket.close()
            except OSError:
                time.sleep(0.01)
        raise RuntimeError("the site was not started")

    def starts(self):
        return (self.room / "starts").read_text().count("start")

    def change(self, lines):
        """What `change` ends with and says of these lines, and how many starts there were meanwhile."""
        before = self.starts()
        path = "%s:%s" % (self.room / "bin", os.environ["PATH"])
        ran = subprocess.run([self.room / "change", "news", "-"], input=lines.encode(), stdout=subprocess.PIPE, stderr=subprocess.PIPE,
                             env={**os.environ, "PATH": path}, cwd=self.room)
        return ran.returncode, ran.stdout.decode(), ran.stderr.decode(), self.starts() - before

    def status(self):
        """What the unit for a monitor writes: its status, and the file."""
        ran = subprocess.run(["sh", "-c", self.exec_start("millicent-status@.service")], stderr=subprocess.DEVNULL,
                             env={**os.environ, "ROLE": "vendor", "TEXTS": str(self.room)})
        path = self.room / "millicent-news.prom"
        return ran.returncode, path.read_text() if path.exists() else ""

    def end(self):
        try:
            os.killpg(int((self.room / "pid").read_text()), signal.SIGKILL)
        except (OSError, ValueError):
            pass


class Customer(threading.Thread):
    """Pays until it is told to end."""

    def __init__(self, shop):
        super().__init__(daemon=True)
        self.shop, self.ended, self.paid, self.lost = shop, threading.Event(), 0, 0

    def run(self):
        while not self.ended.is_set():
            try:
                pay_alone(self.shop, fresh(self.shop, 1)[0])
                self.paid += 1
            except OSError:
                self.lost += 1
                time.sleep(0.01)


PRICES = "price /news/1 30\r\n# a note\r\n\r\ngoods /o/1 5 --kind 1 < page\r\nmint 1 50 m1"


def looks(machine):
    """What is tried, and whether it holds."""
    (machine.room / "page").write_text("Good evening.\n")
    machine.start()
    customer = Customer(machine.shop)
    customer.start()
    time.sleep(0.2)
    status, said, told, starts = machine.change(PRICES)
    yield "at its door, while a customer pays", (status, starts) == (0, 0) and said.startswith("goods /news/1 30\ngoods /o/1 5\nMS1|") \
        and said.endswith("\nnews: 3 of 3 commands, at its door\n") and not told
    status, text = machine.status()
    yield "a monitor is told meanwhile", status == 0 and re.search(r'^millicent_entries_total\{site="news\.example"\} \d+$', text, re.M)
    customer.ended.set()
    customer.join()
    yield "no link of the customer's was lost, of %d payments" % customer.paid, customer.paid > 0 and customer.lost == 0
    status, said, told, starts = machine.change("price /news/1 25\nprice /none 25\nmint 1 50 m2")
    yield "a refused line ends it", (status, starts) == (7, 0) and said == "goods /news/1 25\nrefused 30 NoSuchGoods\nnews: 1 of 3 commands, at its door\n" \
        and "change: line 2: status 7" in told
    status, _, told, starts = machine.change("price /news/1 30\nprice /news/1")
    yield "a wrong word is seen before anything is done", (status, starts) == (2, 0) and "line 2 is no command" in told
    status, _, told, starts = machine.change("goods /o/2 5 < nowhere")
    yield "so is an input that is not there", (status, starts) == (2, 0) and "nowhere can't be read" in told
    status, said, _, starts = machine.change("price /news/1 25\nstatement 2 0")
    yield "for a statement it is stopped", (status, starts) == (7, 1) and said.startswith("goods /news/1 25\nrefused 71 ") \
        and "news: 1 of 2 commands, away for " in said
    machine.systemctl("stop", "millicent@news")
    status, again = machine.status()
    yield "then a monitor is not, and has what it was told before", status == 6 and again == text
    status, said, _, starts = machine.change("price /news/1 30")
    yield "one that is stopped, with its socket there still", (status, starts) == (0, 1) and "1 of 1 commands, away for " in said
    machine.systemctl("stop", "millicent@news")
    machine.door.unlink()
    machine.serve_by(re.sub(r"--door \S+", "", machine.exec_start("millicent@.service")))
    machine.start()
    status, said, _, starts = machine.change("price /news/1 30")
    yield "an older unit's, without a door", (status, starts) == (0, 1) and not machine.door.exists() and "1 of 1 commands, away for " in said
    yield "the book has it", [entry.price for entry in machine.shop.entries() if entry.kind == millicent.GOODS and entry.target == TARGET][-1] == 30


def main():
    held = True
    with Shop() as shop:
        machine = Machine(shop)
        try:
            for what, holds in looks(machine):
                held = held and holds
                print("yes:" if holds else "NO: ", what, flush=True)
        finally:
            machine.end()
    return not held


if __name__ == "__main__":
    raise SystemExit(main())
