#!/usr/bin/env python3
"""Writes the man page `docs/millicent.1` and the completion of bash `scripts/millicent.bash` from the tables of the program: the
words of each command (`crates/command_table`), what it is for, what its words mean and an example (`crates/command_help`), the
statuses with their lines (`status.rt`), the refusals (`crates/mc_requests`), and the forms of the words (`docs/FORMATS.md`).

    scripts/man.py [--check [PROGRAM]]

With `--check` nothing is written: the status is 1 where one of the two is not what they say, where the table of commands in README.md
has other words, and where PROGRAM prints other help, or a range of numbers that `docs/FORMATS.md` has not. Without PROGRAM it is the one
that MILLICENT names, or else the one that the gate built, where it is no older than those two crates; where there is none, none is
asked. A table that is not found, or a row that can't be read, is an error."""
import os
import re
import subprocess
import sys
from pathlib import Path

TOP = Path(__file__).resolve().parent.parent
PAGE = TOP / "docs/millicent.1"
COMPLETION = TOP / "scripts/millicent.bash"
BUILT = TOP / "crates/millicent/out/millicent"
# What a page of help is made of.
HELP = ("command_help", "command_table")
# Crates that ask the ledger or a cases' line, or play schedules: no command stands over them.
BESIDE = {"mc_requests", "case_lines", "cases", "slow_ledger", "slow_sums", "slow_wallet", "mc_world"}

HEAD = r""".\" Written by scripts/man.py from the tables of the program; not by hand.
.TH MILLICENT 1 "" "Millicent" "User Commands"
.SH NAME
millicent \- scrip for pages at a fraction of a cent
"""
DESCRIPTION = r""".SH DESCRIPTION
A vendor sells pages over HTTP for scrip, small signed pieces of money that customers hold. A broker keeps accounts for customers,
and sells them the scrip of vendors. A wallet holds a customer's pieces, and pays with them. The auditor adds up the books of a
broker and of its vendors.
.PP
Each of them keeps one book, a file that one process at a time has open. A site, which is a vendor or a broker, is served by one
process, and so is a browser out of a wallet; the other commands do one thing, say it on standard output, and end. Amounts, prices
and values are thousandths of a cent.
.PP
Secrets are words of a command, so other users of the machine can see them while it runs.
"""
FOOT = r""".SH SEE ALSO
The documents of the repository: README.md; for sellers docs/SELLERS.md, brokers docs/BROKERS.md, customers docs/CUSTOMERS.md,
auditors docs/AUDITORS.md; docs/RUNNING.md, with what to do after each status; docs/FORMATS.md, with each form byte by byte.
"""


def fail(what):
    sys.exit("scripts/man.py: " + what)


def source(path):
    try:
        return (TOP / path).read_text()
    except OSError as error:
        fail(str(error))


def part(text, start, end, where):
    """What stands between two texts, each of which has to be there."""
    _, found, rest = text.partition(start)
    inner, closed, _ = rest.partition(end)
    if not found or not closed:
        fail("%s has no part from %r to %r" % (where, start, end))
    return inner


def documented(text, variant, where):
    """The variants of an enum, in order, each with its doc comment."""
    rows, doc = [], []
    for line in text.splitlines():
        line = line.strip()
        if line.startswith("///"):
            doc.append(line[3:].strip())
        elif line:
            found = re.fullmatch(variant, line)
            if not found:
                fail("%s: can't read %r" % (where, line))
            rows.append((found[1], " ".join(doc)))
            doc = []
    return rows


def literals(text, where):
    """The texts between quotes, as the program has them."""
    escaped = {"n": "\n", '"': '"', "\\": "\\"}
    found = re.findall(r'"((?:[^"\\]|\\.)*)"', text, re.S)
    if not found:
        fail("%s: no text in %r" % (where, text))
    return [re.sub(r"\\(.)", lambda it: escaped[it[1]], re.sub(r"\\\n\s*", "", literal)) for literal in found]


def parameters():
    """Of each parameter its name, how it is written in a usage line, and what it means."""
    text = source("crates/command_table/src/parameter.rt")
    names, shapes = {}, {}
    for variants, name in re.findall(r'((?:\|?\s*Parameter::\w+\s*)+)=> "(\w+)",', part(text, "fn name(self)", "\n    }\n", "parameter.rt")):
        names.update((variant, name) for variant in re.findall(r"Parameter::(\w+)", variants))
    for variants, shape in re.findall(r"((?:\|?\s*Parameter::\w+\s*)+)=> \{?\s*Shape::(\w+)", part(text, "fn shape(self)", "\n    }\n", "parameter.rt")):
        shapes.update((variant, shape) for variant in re.findall(r"Parameter::(\w+)", variants))
    meanings = part(source("crates/command_help/src/parameters.rt"), "fn meaning_of(", "\n}\n", "parameters.rt")
    means = {variant: literals(meaning, "parameters.rt")[0]
             for variant, meaning in re.findall(r'Parameter::(\w+) => (?:\{\s*)?(".*?")', meanings)}
    if set(names) != set(shapes) or set(names) != set(means):
        fail("names, shapes and meanings are not of the same parameters")
    values = dict(re.findall(r'Parameter::(\w+) => "(\w+)",', part(text, "fn value_name(self)", "\n    }\n", "parameter.rt")))
    forms = {"One": "{}", "Places": "{}..", "Setting": "[--{} {}]", "Flag": "[--{}]"}
    options = {"Setting": "--", "Flag": "--"}
    return {variant: (options.get(shapes[variant], "") + name, forms[shapes[variant]].format(name, values.get(variant, "VALUE")), means[variant])
            for variant, name in names.items()}


class Command:
    """A command: its role, its name, its parameters, and what is said of it."""

    def __init__(self, role, name, words, texts):
        self.role, self.name, self.words = role, name, words
        self.line, self.more, self.example = texts

    def usage(self):
        return " ".join(["millicent", self.role, self.name, *(shown for _, shown, _ in self.words)])


def commands():
    """All commands, in the order of the table."""
    table, written = source("crates/command_table/src/table.rt"), parameters()
    order = re.findall(r"CommandName::(\w+),", part(table, "pub static COMMANDS", "];", "table.rt"))
    rows = re.findall(r'CommandName::(\w+) => row\(\s*"(\w+)",\s*"(\w+)",\s*&\[(.*?)\],?\s*\),', table, re.S)
    texts = part(source("crates/command_help/src/commands.rt"), "fn text_of(", "\n}\n", "commands.rt")
    said = {name: literals(row, "commands.rt") for name, row in re.findall(r"CommandName::(\w+) => text\((.*?)\n        \),", texts, re.S)}
    if [row[0] for row in rows] != order or set(said) != set(order) or not all(len(row) == 3 for row in said.values()):
        fail("the commands, their rows and their texts are not the same")
    return [Command(role, name, [written[it] for it in re.findall(r"\w+", words)], said[command]) for command, role, name, words in rows]


def role_lines():
    """Of each role, in order, who has it and what for."""
    text = part(source("crates/command_help/src/commands.rt"), "fn role_line(", "\n}\n", "commands.rt")
    found = dict(re.findall(r'"(\w+)" => "(.*)",', text))
    roles = list(dict.fromkeys(command.role for command in commands()))
    if set(found) != set(roles):
        fail("commands.rt: the roles are not those of the table")
    return {role: found[role] for role in roles}


def forms(head):
    """The rows of a table of the formats, below this head of two columns."""
    text = part(source("docs/FORMATS.md"), head + "\n|---|---|\n", "\n\n", "docs/FORMATS.md")
    rows = [re.fullmatch(r"\| (.*?) \| (.*?) \|", line) for line in text.splitlines()]
    if not all(rows):
        fail("docs/FORMATS.md: a row below %r can't be read" % head)
    return [(row[1], row[2]) for row in rows]


def statuses():
    """The statuses: each number with its lines, and what each line tells where that is said."""
    paths = [path for path in TOP.glob("crates/*/src/status.rt") if "pub enum Status {" in path.read_text()]
    if len(paths) != 1:
        fail("the statuses stand in %d files" % len(paths))
    text = paths[0].read_text()
    docs = documented(part(text, "pub enum Status {", "\n}", "status.rt"), r"(\w+)(?:\(.*\)| \{.*\})?,", "status.rt")
    numbers, lines = {}, {}
    for names, number in re.findall(r"((?:Status::\w+[^=]*?)+) => (\d+),", part(text, "fn number(", "\n    }\n", "status.rt")):
        numbers.update((name, int(number)) for name in re.findall(r"Status::(\w+)", names))
    for names, body in re.findall(r"((?:Status::\w+[^=\n]*?)+) => (.*),\n", part(text, "fn put_line(", "\n    }\n", "status.rt")):
        lines.update((name, line_of(text, name, body)) for name in re.findall(r"Status::(\w+)", names))
    if {name for name, _ in docs} != set(numbers) or set(numbers) != set(lines):
        fail("status.rt: numbers, lines and statuses are not of the same names")
    return [(numbers[name], lines[name], doc) for name, doc in docs]


def line_of(text, name, body):
    """The line that a status says, with words in capitals for what is put into it."""
    if body == "0":
        return ""
    found = re.match(r'put\w*\(out, (?:0, )?b"([^"\\]*)(\\n)?"', body)
    if found:
        return found[1].strip() if found[2] else found[1] + "NUMBER"
    call = re.match(r"(put_\w+)\(out, ", body)
    if not call:
        fail("status.rt: the line of %s can't be read: %s" % (name, body))
    parts = []
    for put in re.findall(r"let at = (.*);", part(text, "fn %s(" % call[1], "\n}", "status.rt")):
        literal = re.search(r'b"([^"\\]*)"', put)
        if literal:
            parts.append(literal[1])
        elif "links" in put:
            parts.append("LINKS")
        elif "paid" in put:
            parts.append("PAID")
        elif "refusal" in put:
            parts.append("NUMBER NAME [VALUE..]")
        elif "name" in put:
            parts.append("NAME")
        elif "id" in put:
            parts.append("ID")
        else:
            fail("status.rt: %s puts %s" % (call[1], put))
    return "".join(parts)


def refusals():
    """The refusals that the program gives: number, name, status in HTTP or 0, and when."""
    text = source("crates/mc_requests/src/refusal.rt")
    docs = dict(documented(part(text, "pub enum Refusal {", "\n}", "refusal.rt"), r"(\w+)(?:\(.*\))?,", "refusal.rt"))
    rows = re.findall(r'Refusal::(\w+)(?:\(\.\.\))? => Row\((\d+), (\d+), \w+, b"(\w+)"\),', text)
    if len(rows) != len(docs):
        fail("refusal.rt: %d refusals and %d rows" % (len(docs), len(rows)))
    given = set()
    for path in TOP.glob("crates/*/src/**/*.rt"):
        if path.relative_to(TOP).parts[1] not in BESIDE:
            given.update(re.findall(r"Refusal::(\w+)", path.read_text()))
    return [(int(number), name, int(status), docs[variant].partition(": ")[2])
            for variant, number, status, name in rows if variant in given]


def plain(text):
    """Text as the page spells it."""
    text = text.replace("\\", "\\e").replace("-", "\\-").replace("`", "").replace("^", "\\(ha").replace("'", "\\(aq")
    return "\\&" + text if text.startswith((".", "\\(aq")) else text


def words(line):
    """Words of a command: what is typed as it stands is bold, what is put in its place is not."""
    out = []
    for word in line.split(" "):
        fixed = re.fullmatch(r"(\[?)(--[a-z]+|[a-z]+)(\]?)", word)
        out.append("%s\\fB%s\\fR%s" % (fixed[1], plain(fixed[2]), fixed[3]) if fixed else plain(word))
    return " ".join(out)


def entry(word, text):
    return ".TP\n.B %s\n%s\n" % (plain(word), plain(text))


def ended(line, doc):
    """A line that is said, and when."""
    said = "\\fB%s\\fR" % plain(line) if line else ""
    return ": ".join(text for text in (said, plain(doc)) if text) + "\n"


def explained(command):
    """The entry of a command."""
    text = command.line[0].upper() + command.line[1:] + ".\n" + command.more
    example = ".nf\n%s.fi\n" % "".join("\\&    %s\n" % plain(line) for line in command.example.splitlines())
    return entry(command.role + " " + command.name, text.rstrip("\n")) + example


def meanings(listed):
    """Of each word what it means, in the order in which the commands have them."""
    found = {}
    for command in listed:
        for name, _, meaning in command.words:
            if meaning not in found.setdefault(name, []):
                found[name].append(meaning)
    return [(name, "; or ".join(several)) for name, several in found.items()]


def page():
    out = [HEAD, ".SH SYNOPSIS\n"]
    listed = commands()
    for command in listed:
        out.append(".nf\n%s\n.fi\n" % words(command.usage()))
    out.append(".nf\n\\fBmillicent\\fR [ROLE [COMMAND]] \\fB\\-\\-help\\fR\n.fi\n.nf\n\\fBmillicent \\-\\-version\\fR\n.fi\n")
    out += [DESCRIPTION, ".SH COMMANDS\n"]
    out += [explained(command) for command in listed]
    out.append(".SH WORDS\nOptions stand before, between or behind the other words; behind a word \\fB\\-\\-\\fR no word is an option.\n")
    out += [entry(name, meaning) for name, meaning in meanings(listed)]
    out.append(".PP\nTheir forms:\n")
    for word, form in forms("| Word | Form |"):
        out.append(entry(word, form))
    out.append(".PP\nTexts are of these bytes:\n")
    for text, form in forms("| Text | Bytes |"):
        out.append(entry(text, form))
    out.append(".SH EXIT STATUS\nThe line of a status is said on standard output. With 2, and where a book can't be opened, "
               "standard error says more.\n")
    told = statuses()
    for number in sorted({number for number, _, _ in told}):
        out.append(".TP\n.B %d\n" % number)
        out.append(".br\n".join(ended(line, doc) for n, line, doc in told if n == number))
    out.append(".SH REFUSALS\nBehind some stands the status of HTTP with which a site tells them, or a wallet a browser, in a field "
               "Millicent\\-Refusal. A command that ends with status 7 tells one in its line.\n")
    for number, name, status, when in refusals():
        out.append(".TP\n.B %d %s%s\n%s\n" % (number, name, " (%d)" % status if status else "", plain(when)))
    out.append(FOOT)
    return "".join(out)


SHELL = r"""# Completes the words of millicent in bash, once it was read: `. scripts/millicent.bash`.
# Written by scripts/man.py from the tables of the program; not by hand.
_millicent() {
    local current=${COMP_WORDS[COMP_CWORD]} role=${COMP_WORDS[1]-} command=${COMP_WORDS[2]-}
    local at=1 first=3 roles='@ROLES@' commands= options= books= before=0
    if [ "$role" = help ]; then
        role=${COMP_WORDS[2]-} command= at=2 first=4
    fi
    case $role in
@COMMANDS@
    esac
    case "$role $command" in
@OPTIONS@
    esac
    COMPREPLY=()
    if [ "$COMP_CWORD" -eq "$at" ]; then
        [ "$at" -eq 2 ] || roles+=' help --help --version'
        mapfile -t COMPREPLY < <(compgen -W "$roles" -- "$current")
    elif [ "$COMP_CWORD" -eq $((at + 1)) ]; then
        [ "$at" -eq 2 ] || [ -z "$commands" ] || commands+=' help --help'
        mapfile -t COMPREPLY < <(compgen -W "$commands" -- "$current")
    elif [ "$at" -eq 1 ]; then
        _millicent_words
    fi
}

# What may come after the name of a command: an option, or a file where the next word is a book.
_millicent_words() {
    local place word skip=0
    for ((place = first; place < COMP_CWORD; place++)); do
        word=${COMP_WORDS[place]}
        case $word in
            =) skip=1 ;;
            @SETTINGS@) skip=1 ;;
            --*) skip=0 ;;
            *)
                [ "$skip" -eq 1 ] || before=$((before + 1))
                skip=0
                ;;
        esac
    done
    [ "$skip" -eq 0 ] || return 0
    [ "$COMP_CWORD" -ne "$first" ] || options+=' --help'
    case $current in
        -*) mapfile -t COMPREPLY < <(compgen -W "$options" -- "$current") ;;
        *)
            if [ "$before" -lt "${books:-0}" ]; then
                compopt -o filenames 2> /dev/null
                mapfile -t COMPREPLY < <(compgen -f -- "$current")
            fi
            ;;
    esac
}

complete -F _millicent millicent
"""


def completion():
    """The completion of bash: roles, the commands of a role, the options of a command, and files where a book comes next."""
    listed, roles, rows, settings = commands(), [], [], []
    for command in listed:
        names = [name for name, _, _ in command.words if not name.startswith("--")]
        if "BOOK" in names[1:]:
            fail("%s %s: its book is not the first word" % (command.role, command.name))
        options = [name for name, _, _ in command.words if name.startswith("--")]
        settings += [name for name, shown, _ in command.words if " " in shown and name not in settings]
        books = 9999 if "BOOK.." in command.usage() else int("BOOK" in names)
        said = ["options='%s'" % " ".join(options)] * bool(options) + ["books=%d" % books] * bool(books)
        if said:
            rows.append("        '%s %s') %s ;;" % (command.role, command.name, " ".join(said)))
    for role in role_lines():
        names = " ".join(command.name for command in listed if command.role == role)
        roles.append("        %s) commands='%s' ;;" % (role, names))
    text = SHELL.replace("@ROLES@", " ".join(role_lines())).replace("@COMMANDS@", "\n".join(roles))
    return text.replace("@OPTIONS@", "\n".join(rows)).replace("@SETTINGS@", " | ".join(settings))


def unnamed(line):
    """A line of words, in which the values of options have one name."""
    return re.sub(r"(--\w+) \w+\]", r"\1 VALUE]", line)


def readme():
    """What the table of commands in README.md has other than the program: lines of the words that lack, and of those that are no command's."""
    table = part(source("README.md"), "\n## The commands\n", "\n## ", "README.md")
    found = []
    for cell in re.findall(r"^\| (`(?:vendor|broker|wallet|audit) .*?) \|", table, re.M):
        first, *others = re.findall(r"`([^`]+)`", cell)
        first = unnamed(first)
        found.append(first)
        found += [role + first[first.index(" "):] for role in others]
    wanted = [unnamed(command.usage().removeprefix("millicent ")) for command in commands()]
    for line in wanted:
        if line not in found:
            yield "README.md: its table of commands lacks `%s`" % line
    for line in found:
        if line not in wanted or found.count(line) > 1:
            yield "README.md: its table of commands has `%s`" % line


def program(given):
    """The program that is asked for its help, or None."""
    named = given or os.environ.get("MILLICENT")
    if named:
        return Path(named).resolve()
    sources = [path for crate in HELP for path in (TOP / "crates" / crate / "src").glob("*.rt")]
    if BUILT.is_file() and all(path.stat().st_mtime <= BUILT.stat().st_mtime for path in sources):
        return BUILT
    return None


def printed(asked, *given):
    """What the program prints of these words, with status 0."""
    ran = subprocess.run([asked, *given], stdin=subprocess.DEVNULL, capture_output=True, text=True)
    if ran.returncode or ran.stderr:
        fail("%s %s: status %d: %s" % (asked, " ".join(given), ran.returncode, ran.stderr or ran.stdout))
    return ran.stdout


def helped(asked):
    """What the program's help has other than the tables."""
    top = printed(asked, "--help")
    ranges = {name.split()[0]: form for word, form in forms("| Word | Form |") for name in re.findall(r"`([^`]+)`", word)}
    for command in commands():
        said = printed(asked, command.role, command.name, "--help")
        of_role = printed(asked, command.role, "--help")
        wanted = [(top, command.line), (of_role, command.usage() + "\n    " + command.line + "\n")]
        wanted += [(said, text) for text in ("usage: %s\n" % command.usage(), command.line, command.more, "example:\n    " + command.example)]
        wanted += [(said, "  %-9s  %s" % (name, meaning)) for name, _, meaning in command.words]
        for text, what in wanted:
            if what not in text:
                yield "%s: the help of `%s %s` does not have %r" % (asked, command.role, command.name, what)
        for name, numbers in re.findall(r"^  (\S+) .*:\n +(\d+ to \d+)(?:[,;].*)?$", said, re.M):
            if numbers not in ranges.get(name, ""):
                yield "%s: %s of `%s %s` is %s, not so in docs/FORMATS.md" % (asked, name, command.role, command.name, numbers)
    for role, line in role_lines().items():
        if "millicent %s: %s\n" % (role, line) not in top:
            yield "%s: its help does not have the role %s" % (asked, role)
    for words_ in (["-h"], ["help"]):
        if printed(asked, *words_) != top:
            yield "%s: %s prints another help" % (asked, words_[0])


def compare(given):
    """Compares what is written with the tables, and answers what differs."""
    for path, text in ((PAGE, page()), (COMPLETION, completion())):
        if not path.is_file() or path.read_text() != text:
            yield "%s: not what the tables say; scripts/man.py writes it" % path.relative_to(TOP)
    yield from readme()
    asked = program(given)
    if asked:
        yield from helped(asked)


def main():
    if sys.argv[1:2] == ["--check"] and len(sys.argv) < 4:
        differs = list(compare(*sys.argv[2:] or [None]))
        if differs:
            sys.exit("\n".join(differs))
    elif sys.argv[1:]:
        fail("usage: man.py [--check [PROGRAM]]")
    else:
        PAGE.write_text(page())
        COMPLETION.write_text(completion())


if __name__ == "__main__":
    main()
