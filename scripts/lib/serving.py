"""A site for the scripts: its book, the program that serves it, and links to it."""
import os
import random
import socket
import subprocess
import threading
import time
from pathlib import Path

import millicent

TOP = Path(__file__).resolve().parents[2]
# The programs that the gate made, or `./millicent`, which keeps it where the gate removes nothing.
BUILT = [TOP / "crates/millicent/out/millicent", *sorted(TOP.glob(".git/built/millicent-*/millicent"))]
PROGRAM = os.environ.get("MILLICENT", str(next((it for it in BUILT if it.exists()), BUILT[0])))
LINKS = 2**32 - 1
LINK_FAULT, KILLED = 6, -9


def secret():
    return random.randbytes(16)


def free_port():
    """A port below those that the system gives to connections of its own."""
    while True:
        port = random.randrange(20_000, 30_000)
        with socket.socket() as s:
            try:
                s.bind(("127.0.0.1", port))
                return port
            except OSError:
                pass


def words_of(terms):
    """The words of a command that give these terms: period, life, secrets of scrip, secrets of customers."""
    secrets = (",".join(s.hex() for s in each) for each in (terms.scrip, terms.customer))
    return [str(terms.period), str(terms.life), *secrets]


def run(words, contents=b"", within=None, **how):
    """Runs the program with these words: its status and what it says. Where a time is given it is killed then, if it has not ended. The status is None
    where it has not ended after a minute."""
    process = subprocess.Popen([PROGRAM, *words], stdin=subprocess.PIPE, stdout=subprocess.PIPE, **how)
    killer = threading.Timer(60 if within is None else within, process.kill)
    killer.start()
    said, _ = process.communicate(contents)
    killer.cancel()
    return None if within is None and process.returncode == KILLED else process.returncode, said


class Link:
    def __init__(self, address, patience=30):
        self.socket = socket.create_connection(address, patience)
        self.socket.setsockopt(socket.IPPROTO_TCP, socket.TCP_NODELAY, 1)
        self.held = b""

    def __enter__(self):
        return self

    def __exit__(self, *_):
        self.socket.close()

    def send(self, data):
        self.socket.sendall(data)

    def receive(self):
        """The bytes of the next reply, whole."""
        while (head := self.held.find(b"\r\n\r\n")) < 0:
            self.more()
        length = self.held.index(b"Content-Length: ") + 16
        end = head + 4 + int(self.held[length:self.held.index(b"\r", length)])
        while len(self.held) < end:
            self.more()
        reply, self.held = self.held[:end], self.held[end:]
        return reply

    def more(self):
        data = self.socket.recv(65_536)
        if not data:
            raise ConnectionError("the link ended before the reply did")
        self.held += data

    def ask(self, data):
        self.send(data)
        return self.receive()


class Door:
    """A connection to the door of a site's operator."""

    def __init__(self, path, patience=30):
        self.socket = socket.socket(socket.AF_UNIX)
        self.socket.settimeout(patience)
        self.socket.connect(path)
        self.stream = self.socket.makefile("rb")

    def __enter__(self):
        return self

    def __exit__(self, *_):
        self.stream.close()
        self.socket.close()

    def tell(self, words, contents=b""):
        """Tells the words of a command, with its input."""
        self.socket.sendall(b"%d %s\n%s" % (len(contents), words.encode(), contents))

    def answer(self):
        """The status and the line of the next answer."""
        status, length = self.whole(self.stream.readline()).split()
        return int(status), self.stream.read(int(length)).decode()

    def whole(self, line):
        if not line.endswith(b"\n"):
            raise ConnectionError("the connection ended before the answer did")
        return line

    def ask(self, words, contents=b""):
        self.tell(words, contents)
        return self.answer()


class Site:
    """A site of a role, whose book lies in a folder."""
    role = None
    # How its programs are run besides.
    how = {}
    # Where its operator gives commands while it is served, if anywhere.
    door = None

    def __init__(self, folder, name):
        self.book = os.path.join(folder, name + ".book")
        self.address = ("127.0.0.1", free_port())
        self.server = None

    def bytes(self):
        with open(self.book, "rb") as f:
            return f.read()

    def entries(self):
        """The entries that the book encodes, by the second program."""
        return millicent.entries_of(self.bytes())

    def command(self, command, *words, contents=b""):
        """Has the program do an operator's command to the book, which is not served then; what it says."""
        words = [PROGRAM, self.role, command, self.book, *words]
        return subprocess.run(words, check=True, input=contents, stdout=subprocess.PIPE, **self.how).stdout.decode()

    def launch(self, links=LINKS):
        words = [PROGRAM, self.role, "serve", self.book, "%s:%d" % self.address, str(links)]
        words += ["--door", self.door] if self.door else []
        self.server = subprocess.Popen(words, stdout=subprocess.PIPE, **self.how)

    def start(self, links=LINKS):
        """Serves the book, and takes one link to see that it is served. Where the port is not free yet it
        tries again."""
        for _ in range(300):
            self.launch(links)
            while self.server.poll() is None:
                try:
                    Link(self.address).socket.close()
                    return self.door and Door(self.door).socket.close()
                except (ConnectionError, FileNotFoundError):
                    time.sleep(0.005)
            if self.server.returncode != LINK_FAULT:
                break
            self.server.stdout.close()
            time.sleep(0.2)
        raise RuntimeError("not served: status %d" % self.server.returncode)

    def kill(self):
        """Ends the program that this object started, with SIGKILL."""
        self.server.kill()
        self.server.wait()
        self.server.stdout.close()

    def end(self):
        if self.server and self.server.poll() is None:
            self.kill()


def kill_under_load(site, loads):
    """Kills a site at a random moment while each of these loads goes on in a thread, until the event that it is given is set."""
    ended = threading.Event()
    threads = [threading.Thread(target=load, args=(ended,), daemon=True) for load in loads]
    for thread in threads:
        thread.start()
    time.sleep(random.uniform(0, 0.3))
    site.kill()
    ended.set()
    for thread in threads:
        thread.join()
