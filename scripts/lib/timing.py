"""What things take: how long, how much processor time and memory, beside a plain loop of the same writes and syncs, or beside digests of
the same bytes."""
import os
import statistics
import subprocess
import sys
import time

TICKS = os.sysconf("SC_CLK_TCK")
# The bytes of a block of the digests.
BLOCK = 64


class Beside:
    """A file that gets entries as a book does: a write behind a closed gate, a sync, a write that opens the
    gate, a sync."""

    def __init__(self, path, size):
        self.file = os.open(path, os.O_RDWR | os.O_CREAT)
        self.entry, self.gate = bytes(size), 0

    def add(self):
        os.pwrite(self.file, self.entry, self.gate + 1)
        os.fdatasync(self.file)
        os.pwrite(self.file, b"\1", self.gate)
        os.fdatasync(self.file)
        self.gate += len(self.entry)


class Times:
    def __init__(self):
        self.each = {}

    def take(self, what, work, count=1):
        """Does this work, of so many requests, which take the same time each."""
        start = time.perf_counter()
        work()
        self.each.setdefault(what, []).extend([(time.perf_counter() - start) / count] * count)

    def tell(self, what, beside=None):
        each = self.each[what]
        line = "%-32s %8.0f a second, median %6.0f us" % (what, len(each) / sum(each), statistics.median(each) * 1e6)
        print(line + (", %.2f of the loop" % (sum(self.each[beside]) / sum(each)) if beside else ""))


def timed(work):
    start = time.perf_counter()
    work()
    return time.perf_counter() - start


def used(process):
    """The processor time of a process in seconds, and its memory in MB."""
    with open("/proc/%d/stat" % process.pid) as f:
        fields = f.read().rsplit(")", 1)[1].split()
    with open("/proc/%d/statm" % process.pid) as f:
        pages = int(f.read().split()[1])
    return (int(fields[11]) + int(fields[12])) / TICKS, pages * os.sysconf("SC_PAGE_SIZE") / 1e6


# Runs a program and tells its processor time and the most memory that it took, in KB: in a small process, as a program is charged
# with the memory of the one that starts it.
ALONE = """import resource, subprocess, sys
ran = subprocess.run(sys.argv[1:], stdout=subprocess.DEVNULL)
used = resource.getrusage(resource.RUSAGE_CHILDREN)
print(ran.returncode, used.ru_utime + used.ru_stime, used.ru_maxrss)"""


def alone(*words, status=0):
    """The processor time in seconds of a program that ends with this status, and the most memory that it took in bytes."""
    told = subprocess.run([sys.executable, "-c", ALONE, *words], check=True, stdout=subprocess.PIPE)
    ended, seconds, most = told.stdout.split()
    if int(ended) != status:
        raise RuntimeError("%s ended with %d" % (words[0], int(ended)))
    return float(seconds), int(most) * 1024


# How often something is done whose least processor time is told: a virtual processor may have neighbours.
TURNS = 5


def least(*works):
    """The least of what each of these answered, which take turns."""
    turns = [[work() for work in works] for _ in range(TURNS)]
    return [min(each) for each in zip(*turns)]


def md5sum(path):
    return alone("md5sum", path)[0]


def sha256sum(path):
    return alone("sha256sum", path)[0]
