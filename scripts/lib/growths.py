"""A program that runs while one growth of memory is refused, by `refuse.c`, which is loaded before the C library and counts how often
memory is asked for. It wants a C compiler, `cc`."""
import os
import subprocess
from pathlib import Path

PATIENCE = 120


def build(folder):
    """The library that refuses."""
    library = os.path.join(folder, "refuse.so")
    subprocess.run(["cc", "-O2", "-shared", "-fPIC", "-o", library, Path(__file__).with_name("refuse.c"), "-ldl"], check=True)
    return library


class Run:
    """A program that runs while this growth of memory is refused, none for 0."""

    def __init__(self, library, growth, words, **how):
        self.read, told = os.pipe()
        room = {**os.environ, "LD_PRELOAD": library, "REFUSE": str(growth), "REFUSE_TOLD": str(told)}
        self.process = subprocess.Popen(words, env=room, pass_fds=(told,), stdout=subprocess.PIPE, **how)
        os.close(told)

    def end(self, contents=None):
        """Its status, None where it hangs, what it printed, and how many growths there were."""
        try:
            printed, status = self.process.communicate(contents, timeout=PATIENCE)[0], self.process.returncode
        except subprocess.TimeoutExpired:
            self.process.kill()
            printed, status = self.process.communicate()[0], None
        with os.fdopen(self.read, "rb") as it:
            return status, printed, int(it.read() or 0)
