#!/usr/bin/env python3
"""Proves and builds the program, crates side by side, and keeps what is proved.

    scripts/build.py [--jobs N]       as many checks at once as N, else as there are processors and memory
    scripts/build.py --run [WORD..]   runs the program with these words then

`./millicent` calls it where the sources may not be those of the program that is kept. What a crate was made of (the
toolchain, its sources, and the same of each crate below it) names the folder that keeps it, .git/built/NAME-SUM, so a call
that was broken off goes on where it was, and after an edit only that crate and those above it are proved again. The program
is kept likewise, where `rt ci` removes nothing, with a list of its sources (`scripts/sources`), and .git/built/current names
its folder. Where none is kept of these sources, but `rt ci` made one and no source has changed since it began, that one is taken.
A crate for which most waits goes first, and may use all processors. It prints on standard error how far it is, and ends with
70 where a crate is not proved, or the program can't be linked."""
import concurrent.futures
import contextlib
import fcntl
import hashlib
import os
import pathlib
import re
import shutil
import signal
import subprocess
import sys
import time

ROOT = pathlib.Path(__file__).resolve().parent.parent
# In .git, since `rt ci` stops at sources that lie anywhere else in the tree, as a proved library has some; out/build where the
# tree is no clone.
ROOM = ROOT / (".git/built" if (ROOT / ".git").is_dir() else "out/build")
CURRENT = ROOM / "current"
PROGRAM = "millicent"
# Where `rt ci` makes the program, and where README.md and docs/ name it.
MADE = ROOT / "crates" / PROGRAM / "out" / PROGRAM
COSTS = ROOT / "docs/COSTS.md"
# How many bytes of sources a second's proof has, where nothing better is known.
PACE = 1_500
# What one check takes at most, in bytes, but for the last and largest.
MEMORY = 1_600_000_000
# How many seconds pass without a word, where standard error is no terminal.
SILENCE = 30
AT_WORK = set()


def say(what):
    print(f"millicent: {what}", file=sys.stderr, flush=True)


def kit():
    """The toolchain's folder, where its first page lies."""
    if not shutil.which("rt"):
        say("rt, the toolchain, is not found in PATH")
        sys.exit(70)
    page = subprocess.run(["rt", "doc"], stdout=subprocess.PIPE, text=True, check=True).stdout.strip()
    return pathlib.Path(page).parent


def listed():
    """The list of the sources, by which they are known as unchanged."""
    return subprocess.run([ROOT / "scripts/sources"], stdout=subprocess.PIPE).stdout


class Crates:
    """The crates of crates.txt, what each stands on, and what each was made of."""

    def __init__(self, kit_folder):
        self.kit, self.uses, self.sums = kit_folder, {}, {}
        for line in (ROOT / "crates.txt").read_text().splitlines():
            name, colon, rest = line.partition("#")[0].partition(":")
            if colon:
                self.uses[name.strip()] = rest.split()
        self.kit_id = (kit_folder / "KIT-ID").read_bytes()

    def own(self, name):
        return [it for it in self.uses[name] if it in self.uses]

    def below(self, name):
        """All crates of the repository below one, lowest first."""
        found = {}
        for dep in self.own(name):
            found |= {it: None for it in (*self.below(dep), dep)}
        return list(found)

    def files(self, name):
        folder = ROOT / "crates" / name
        found = [it for part in ("src", "specs", "proofs") for it in (folder / part).rglob("*")]
        return folder, sorted(it for it in found if it.suffix in (".rt", ".antt"))

    def sum_of(self, name):
        """The checksum of all that a crate is made of."""
        if name not in self.sums:
            made = hashlib.sha256(self.kit_id + " ".join((name, *self.uses[name])).encode())
            for dep in self.own(name):
                made.update(self.sum_of(dep).encode())
            folder, files = self.files(name)
            for file in files:
                made.update(str(file.relative_to(folder)).encode() + b"\0" + file.read_bytes())
            self.sums[name] = made.hexdigest()[:20]
        return self.sums[name]

    def are_still(self, name, log):
        """Whether a crate and those below it are as they were: what was edited is not what the folder's name says."""
        same = Crates(self.kit).sum_of(name) == self.sum_of(name)
        if not same:
            log.write_text(f"sources of {name}, or of a crate below it, changed while it was proved: call again\n")
        return same

    def library(self, name):
        return ROOM / f"{name}-{self.sum_of(name)}" / f"{name}.rlib"

    def program(self):
        return ROOM / f"{PROGRAM}-{self.sum_of(PROGRAM)}" / PROGRAM

    def seconds(self):
        """How long the proof of each crate takes: as it was measured, else by the bytes of its sources."""
        measured = dict(re.findall(r"^\| `(\w+)` \| (\d+) \|", COSTS.read_text(encoding="utf-8"), re.M))
        return {name: int(measured.get(name) or self.size(name) // PACE) for name in self.uses}

    def size(self, name):
        """The bytes of its sources."""
        return sum(file.stat().st_size for file in self.files(name)[1])

    def words(self, name, jobs):
        """What `rattle build` is told of a crate but for what it makes."""
        root = "src/main.rt" if name == PROGRAM else "src/lib.rt"
        words = ["build", "--crate-name", name, root, "--jobs", str(jobs), "--links", f"{name}="]
        for library in ("std", *(it for it in self.uses[name] if it not in self.uses)):
            words += ["--extern", f"{library}={self.kit}/rlibs/{library}.rlib"]
        words += ["-L", f"dependency={self.kit}/rlibs"]
        for dep in self.own(name):
            words += ["--extern", f"{dep}={self.library(dep)}"]
        for dep in self.below(name):
            words += ["-L", f"dependency={self.library(dep).parent}"]
        words += ["--antt-project", f"{self.kit}/rattle/logic/antt-project.json"]
        words += ["--logic-built", f"{self.kit}/logic_built"]
        return words


def call(name, words, log):
    """Runs a tool in a crate's folder, and whether it ended well; what it says goes to the log."""
    with open(log, "a", encoding="utf-8") as out:
        tool = subprocess.Popen(words, cwd=ROOT / "crates" / name, stdin=subprocess.DEVNULL, stdout=out, stderr=out)
        AT_WORK.add(tool)
        try:
            return tool.wait() == 0
        finally:
            AT_WORK.discard(tool)


def prove(crates, name, jobs):
    """Proves a library into its folder, and whether it was."""
    made = crates.library(name)
    part = made.with_suffix(f".{os.getpid()}")
    made.parent.mkdir(parents=True, exist_ok=True)
    log = made.parent / "log"
    log.unlink(missing_ok=True)
    well = call(name, [f"{crates.kit}/bin/rattle", *crates.words(name, jobs), "--statements", "-o", str(part)], log)
    well = well and crates.are_still(name, log)
    if well:
        os.rename(part, made)
    elif part.exists():
        shutil.rmtree(part)
    return well


def link(crates, jobs):
    """Proves and links the program, and whether it was."""
    made, log, tools = crates.program(), ROOM / "log", ["--toolchain", f"{crates.kit}/toolchain"]
    made.parent.mkdir(exist_ok=True)
    log.unlink(missing_ok=True)
    part = made.with_suffix(f".{os.getpid()}")
    words = [f"{crates.kit}/bin/rattle", *crates.words(PROGRAM, jobs), *tools, "--backend", "llvm", "-o", f"{part}.o"]
    if not call(PROGRAM, words, log):
        return False
    words = [f"{crates.kit}/bin/rattle-link", "--target", "x86_64-unknown-linux-gnu", *tools, "-o", str(part)]
    words += [f"{part}.o", *(f"{crates.kit}/c/{it}" for it in ("libos_c.a", "liblibc_c.a"))]
    well = call(PROGRAM, words, log)
    pathlib.Path(f"{part}.o").unlink(missing_ok=True)
    well = well and crates.are_still(PROGRAM, log)
    if well:
        os.rename(part, made)
    return well


def link_watched(crates, jobs):
    """The same, and prints meanwhile how far it is."""
    with concurrent.futures.ThreadPoolExecutor(1) as worker:
        linked, rest = worker.submit(link, crates, jobs), crates.seconds()[PROGRAM] / 2
        while not concurrent.futures.wait([linked], timeout=1).done:
            Teller.now.says([PROGRAM], rest)
        return linked.result()


def adopt(crates, sources):
    """Keeps the program that `rt ci` made, where no source has changed since it began, and whether it was so. `rt ci` removes
    each folder out/ of a crate, and makes it anew when it comes to the crate."""
    if not MADE.is_file():
        return False
    folders = (ROOT / "crates").glob("*/out")
    births = subprocess.run(["stat", "-c", "%.9W", *folders], stdout=subprocess.PIPE, check=True).stdout.split()
    changed = max((float(line.split()[0]) for line in sources.splitlines()), default=float("inf"))
    if not changed < min(map(float, births)) < MADE.stat().st_mtime:
        return False
    put(MADE, crates.program())
    return True


def put(program, place):
    """Puts a copy of the program at a place, whole or not at all."""
    place.parent.mkdir(parents=True, exist_ok=True)
    part = place.with_suffix(f".{os.getpid()}")
    shutil.copy2(program, part)
    os.rename(part, place)


def note(program, sources):
    """Notes the program as that of these sources, where they have not changed meanwhile. Where it can't be noted, the next
    call compares again."""
    if not sources or listed() != sources:
        return
    with contextlib.suppress(OSError):
        part = program.parent / f"sources.{os.getpid()}"
        part.write_bytes(sources)
        os.rename(part, program.parent / "sources")
        part = ROOM / f"current.{os.getpid()}"
        part.write_text(program.parent.name + "\n")
        os.rename(part, CURRENT)


class Teller:
    """Prints on standard error how far the build is: one line on a terminal, else a line for each crate, and one after a
    silence."""
    now = None

    def __init__(self, done, count, weight):
        self.began, self.said, self.done, self.count, self.weight = time.time(), 0, done, count, weight
        Teller.now = self

    def begins(self):
        say(f"proving and building the program: {self.count} crates, of which {self.done} are proved and kept")
        say("from nothing it takes 20 minutes on four processors of 2026, 39 on four slow ones; once broken off it goes on")

    def left(self, weight):
        """How long the rest may take, by what has been done so far; at first nothing."""
        passed, done = time.time() - self.began, self.weight - weight
        return f", about {max(1, round(weight * passed / done / 60))} min left" if passed > 20 and done > 60 else ""

    def says(self, at_work, weight, proved=None):
        now = time.time()
        so_far = f"millicent: {self.done} of {self.count} crates proved, {now - self.began:.0f} s"
        names = " ".join(sorted(at_work))
        if sys.stderr.isatty():
            width = os.get_terminal_size(sys.stderr.fileno()).columns or 80
            line = f"{so_far}{self.left(weight)}, at work: {names}"[:width - 1]
            print(f"\r\033[K{line}", end="", file=sys.stderr, flush=True)
        elif proved or now - self.said > SILENCE:
            print(f"{so_far}: {proved}" if proved else f"{so_far}, at work: {names}", file=sys.stderr, flush=True)
            self.said = now


def waited_for(crates, names):
    """How much work waits for each crate: the longest chain of crates that stand on it, and itself."""
    seconds, found = crates.seconds(), {}
    for name in reversed(names):
        found[name] = seconds[name] + max((found[it] for it in names if name in crates.own(it)), default=seconds[PROGRAM])
    return found


def work_left(crates, chain, todo, at_work, jobs):
    """How long the rest takes, in seconds of the processors that docs/COSTS.md is about: its longest chain, or all of it
    side by side. What is at work counts as half done."""
    seconds = crates.seconds()
    whole = sum(seconds[it] for it in todo) + sum(seconds[it] for it in at_work) / 2 + seconds[PROGRAM]
    chains = [chain[it] for it in todo] + [chain[it] - seconds[it] / 2 for it in at_work]
    return max(whole / jobs, *chains, seconds[PROGRAM])


def prove_all(crates, jobs):
    """Proves all crates below the program; answers the name of one that was not proved, else None."""
    names = crates.below(PROGRAM)
    todo = [it for it in names if not crates.library(it).exists()]
    chain, running, failed = waited_for(crates, names), {}, None
    teller = Teller(len(names) - len(todo), len(names) + 1, work_left(crates, chain, todo, [], jobs))
    teller.begins()
    with concurrent.futures.ThreadPoolExecutor(jobs) as workers:
        while running or (todo and not failed):
            ready = [it for it in todo if all(crates.library(dep).exists() for dep in crates.own(it))]
            for name in sorted(ready, key=chain.get, reverse=True)[: 0 if failed else jobs - len(running)]:
                todo.remove(name)
                # The one that most waits for may use all processors; the others an equal share each.
                most = all(chain[name] >= chain[it] for it in (*todo, *running.values()))
                share = jobs if most else max(1, jobs // (len(running) + len(ready)))
                ready.remove(name)
                running[workers.submit(prove, crates, name, share)] = name
            teller.says(running.values(), work_left(crates, chain, todo, running.values(), jobs))
            for it in concurrent.futures.wait(running, timeout=1, return_when=concurrent.futures.FIRST_COMPLETED).done:
                name = running.pop(it)
                if it.result():
                    teller.done += 1
                    teller.says(running.values(), work_left(crates, chain, todo, running.values(), jobs), name)
                else:
                    failed = name
    return failed


def prune(crates):
    """Takes away what other sources had made, and what a build that was broken off had made in part."""
    kept = {crates.program(), *(crates.library(it) for it in crates.below(PROGRAM))}
    for folder in [it for it in ROOM.iterdir() if it.is_dir()]:
        for made in folder.iterdir():
            if made not in kept and re.search(r"\.\d+(\.o)?$", made.name):
                shutil.rmtree(made) if made.is_dir() else made.unlink()
        if not any(it.parent == folder for it in kept):
            shutil.rmtree(folder)


def most_jobs():
    """As many checks as there are processors and memory."""
    free = next(int(it.split()[1]) for it in open("/proc/meminfo", encoding="ascii") if it.startswith("MemAvailable"))
    return max(1, min(len(os.sched_getaffinity(0)), free * 1024 // MEMORY))


def build(crates, sources, jobs):
    """Proves and links all, or takes what is there; answers the log of what failed, else None."""
    if crates.program().exists() or adopt(crates, sources):
        return None
    failed = prove_all(crates, jobs)
    well = not failed and link_watched(crates, jobs)
    if sys.stderr.isatty():
        print(file=sys.stderr)
    if well:
        say(f"proved and built in {time.time() - Teller.now.began:.0f} s")
        put(crates.program(), MADE)
        note(crates.program(), sources)
        prune(crates)
        return None
    say(f"{failed or PROGRAM} is not proved, or not built")
    return crates.library(failed).parent / "log" if failed else ROOM / "log"


def build_alone(jobs):
    """The same, while no other build is at work here; answers the program too."""
    ROOM.mkdir(parents=True, exist_ok=True)
    with open(ROOM / "lock", "w", encoding="ascii") as lock:
        try:
            fcntl.flock(lock, fcntl.LOCK_EX | fcntl.LOCK_NB)
        except OSError:
            say("another build is at work here, and this one waits")
            fcntl.flock(lock, fcntl.LOCK_EX)
        sources, crates = listed(), Crates(kit())
        return crates.program(), build(crates, sources, jobs)


def main(words):
    is_run = words[:1] == ["--run"]
    if not is_run and words and (len(words) != 2 or words[0] != "--jobs" or not words[1].isdigit() or words[1] == "0"):
        print(__doc__, file=sys.stderr)
        return 2
    sources, log = listed(), None
    program = Crates(kit()).program()
    if not program.exists():
        program, log = build_alone(int(words[1]) if words and not is_run else most_jobs())
    if log:
        say(f"what the toolchain said of it is in {log}; its last lines:")
        with contextlib.suppress(OSError):
            print("\n".join(log.read_text(errors="replace").splitlines()[-20:]), file=sys.stderr)
        return 70
    note(program, sources)
    if is_run:
        for it in (signal.SIGPIPE, signal.SIGXFSZ):
            signal.signal(it, signal.SIG_DFL)
        os.execv(program, [program, *words[1:]])
    return 0


def break_off(*_):
    """Ends the tools at work, and the build; what they had made in part is taken away by the next one."""
    for tool in list(AT_WORK):
        tool.kill()
    how_far = f"{Teller.now.done} of {Teller.now.count} crates are proved and" if Teller.now else "what is proved is"
    print(f"\nmillicent: broken off; {how_far} kept in {ROOM.relative_to(ROOT)}, and the next call goes on there", file=sys.stderr)
    os._exit(130)


if __name__ == "__main__":
    for number in (signal.SIGINT, signal.SIGTERM, signal.SIGHUP):
        signal.signal(number, break_off)
    sys.exit(main(sys.argv[1:]))
