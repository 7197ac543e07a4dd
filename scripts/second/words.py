"""The words of the program: the values that they spell, and which of them are options."""
import re

from forms import Terms, digest_of, whole_number

HOST = re.compile(rb"[A-Za-z0-9._-]{1,253}|\[[0-9A-Fa-f:.%]{1,253}\]")
MOST_PORT = 65_535


class BadWords(Exception):
    """The words are of no command."""


def want(value):
    """A value that has to be there."""
    if value is None or value is False:
        raise BadWords
    return value


def number(word, least, most):
    return want(whole_number(word, least, most))


def place(word):
    want(1 <= len(word) <= 255)
    return word


def address(word, least):
    """A host, or an address of version 6 in square brackets, and behind the last colon a port from the least on."""
    host, _, port = word.rpartition(b":")
    want(HOST.fullmatch(host))
    number(port, least, MOST_PORT)
    return place(word)


def connect(word):
    return address(word, 1)


def listen(word):
    """An address, of which the port may be 0, or the path of a Unix socket."""
    return socket(word) if word.startswith(b"/") else address(word, 0)


def socket(word):
    """The path of a Unix socket."""
    want(word.startswith(b"/") and 2 <= len(word) <= 107)
    return word


def text(test, word):
    want(test(word))
    return word


def secret(word):
    return want(digest_of(word))


def secrets(word):
    """1 to 16 secrets, with a comma between each two."""
    found = tuple(secret(part) for part in word.split(b","))
    want(len(found) <= 16)
    return found


def terms(issuer, words):
    period, life = number(words[0], 2048, 2**24), number(words[1], 0, 2**24)
    return Terms(issuer, period, life, secrets(words[2]), secrets(words[3]))


def spelled(terms):
    """The words that give the terms of an issuer: his number, the period, the life, the two lists of secrets."""
    lists = (b",".join(s.hex().encode() for s in each) for each in (terms.scrip, terms.customer))
    return b"%d %d %d %s %s" % (terms.issuer, terms.period, terms.life, *lists)


def is_option(word):
    return word.startswith(b"-") and word != b"-"


def told_apart(words, valued, flags):
    """The words that are no options, and the options by their names: of one of `valued` its value, of one of `flags` True."""
    others, options, words = [], {}, list(words)
    while words:
        word = words.pop(0)
        if word == b"--":
            return others + words, options
        if not is_option(word):
            others.append(word)
            continue
        name, attached, value = word.partition(b"=")
        want(name not in options)
        if name in flags:
            want(not attached)
            value = True
        else:
            want(name in valued)
            if not attached:
                want(bool(words) and not is_option(words[0]))
                value = words.pop(0)
        options[name] = value
    return others, options


def is_text(word):
    try:
        return word.decode() is not None
    except UnicodeDecodeError:
        return False
