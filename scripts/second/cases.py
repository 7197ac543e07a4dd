"""The verbs of cases: each reads its arguments and prints what comes out."""
import forms_verbs
import ledger_verbs
import market
import replies
import schedule
import stage_verbs
import wallet_verbs
from bytes_text import CaseError, bytes_of, words_of
from setting import Setting

VERBS = {**stage_verbs.VERBS, **forms_verbs.VERBS, **ledger_verbs.VERBS,
         **market.VERBS, **replies.VERBS, **schedule.VERBS, **wallet_verbs.VERBS}


class Runner:
    """Does the lines of files of cases, one after another."""

    def __init__(self, out, names=None):
        self.out, self.names = out, {} if names is None else names
        self.setting = Setting(self.names)

    def print(self, text):
        self.out.write(text.encode("latin-1") + b"\n")

    def line(self, text):
        """Does one line."""
        verb, _, rest = text.partition(" ")
        if verb == "case":
            self.setting = Setting(self.names, self.setting.histories)
            self.print(text)
            return
        words = words_of(rest)
        if verb == "let":
            if len(words) != 2:
                raise CaseError("let wants a name and bytes")
            self.setting.name(words[0], bytes_of(words[1], self.names))
            return
        if verb not in VERBS:
            raise CaseError("no such verb: %s" % verb)
        for printed in VERBS[verb](self.setting, words) or ():
            self.print(printed)

    def file(self, path):
        """Does the lines of a file; answers the number of the line that is wrong, and why."""
        self.setting = Setting(self.names, self.setting.histories)
        try:
            with open(path, "rb") as f:
                lines = f.read().decode("latin-1").split("\n")
        except OSError as error:
            return 0, "can't be read: %s" % error.strerror
        while lines and not lines[-1].strip():
            lines.pop()
        cases = sum(line.partition(" ")[0] == "case" for line in lines)
        for number, line in enumerate(lines[:-1], 1):
            if line.strip() and not line.startswith("#"):
                try:
                    self.line(line)
                except CaseError as error:
                    return number, str(error)
        if not lines or lines[-1] != "end %d" % cases:
            return len(lines), "the last line has to be: end %d" % cases
        return None


def run_files(paths, out, errors):
    """Does all files in order; answers the status."""
    runner = Runner(out)
    for path in paths:
        wrong = runner.file(path)
        if wrong:
            out.flush()
            errors.write("%s:%d: %s\n" % (path, *wrong))
            return 1
    return 0
