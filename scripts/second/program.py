"""The program: what its words ask for, and what it does."""
import audit
import broker
import proxy
import vendor
import wallet_commands
from door import DoorServer, ask
from house import Ends, came, opened
from ledger import FULL
from payloads import BROKER, VENDOR
from refusals import refused
from stage import LinkFault
from words import BadWords, is_text, told_apart, want

ROLES = {b"vendor": vendor.COMMANDS, b"broker": broker.COMMANDS, b"wallet": wallet_commands.COMMANDS,
         b"audit": audit.COMMANDS}
SITES = {b"vendor": VENDOR, b"broker": BROKER}
# What the operators of both kinds of site do, also at a door: the most bytes of its input, and what does it.
OPERATIONS = {b"vendor": vendor.OPERATIONS, b"broker": broker.OPERATIONS}


def parsed(words):
    """The role and the command, what their words give, and what does it."""
    want(len(words) >= 2 and words[0] in ROLES and words[1] in ROLES[words[0]])
    count, valued, flags, parse, act = ROLES[words[0]][words[1]]
    for word in words:
        want(is_text(word))
    others, options = told_apart(words[2:], valued, flags)
    want(len(others) > 0 if count is None else len(others) == count)
    return words[:2], parse(others, **{name[2:].decode(): value for name, value in options.items()}), act


def run(words, stage, books):
    """Does what the words ask for and says its line; answers the status. `books` are stages that have the books beside."""
    def obey():
        (role, _), order, act = parsed(words)
        want(act is not None and len(books) == len(getattr(order, "books", ())))
        return act(order, stage, *books) if getattr(order, "door", None) is None else serve(role, order, stage)
    return ended(stage, obey)


def serve(role, order, stage):
    """Serves the site of a book, with a door for its operator."""
    def obey(house, words, data):
        (of, command), told, _ = parsed(words)
        want(command in OPERATIONS.get(of, ()))
        if of != role:
            raise Ends.refused(refused(52))
        return OPERATIONS[of][command][1](house, told, data)
    return b"served %d\n" % DoorServer(opened(stage, FULL, SITES[role]), obey).serve(order.links)


def run_proxy(words, stage, up):
    """The same for the words of a wallet that pays for what a browser asks; the links of the stage `up` go to the vendor."""
    def obey():
        name, order, _ = parsed(words)
        want(name == [b"wallet", b"proxy"])
        return proxy.serve(order, stage, up)
    return ended(stage, obey)


def run_at_door(words, stage, up):
    """Tells the words of an operator's command at the door that the third of them names, over the links of the stage `up`, and says
    what is answered; answers the status."""
    def obey():
        (role, command), order, _ = parsed(words)
        want(command in OPERATIONS.get(role, ()) and words[2] == order.book)
        want(not any(byte in word for word in (*words[:2], *words[3:]) for byte in b" \n"))
        return ask(words, OPERATIONS[role][command][0], stage, up)
    status, answer = came(obey)
    return said(stage, *(answer if status == 0 else (status, answer)))


def ended(stage, obey):
    """Does what some words ask for and says the line; answers the status."""
    return said(stage, *came(obey))


def said(stage, status, line):
    """Says the line, and answers the status, which is another where a line of 0 can't be said."""
    if line:
        try:
            stage.say(line)
        except LinkFault:
            status = status or 6
    return status


def places(words):
    """What the words do to a book: they found it, or operate its site, or only open it. The book, the address where links come,
    the books beside, the address of the peer, and the door; None for each not named."""
    try:
        (role, command), order, _ = parsed(words)
    except BadWords:
        return "opens", None, None, [], None, None
    how = "founds" if command == b"init" else "operates" if command in OPERATIONS.get(role, ()) else "opens"
    return (how, *(getattr(order, name, None) for name in ("book", "listen")), getattr(order, "books", []),
            *(getattr(order, name, None) for name in ("connect", "door")))
