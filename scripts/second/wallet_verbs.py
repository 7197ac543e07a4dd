"""The verbs that ask a wallet's book."""
from bytes_text import CaseError, shown
from forms import MOMENTS
from refusals import Refusal
from replies import Reply, next_reply
from setting import data, number, of_length
from stage_verbs import history_of
from wallet import BUY, GET, WalletBook, buy_target, check, drawing


def first_against(entries):
    """The number of the first entry that may not follow those before it; None of a lawful book."""
    book = WalletBook()
    for number_of_entry, entry in enumerate(entries):
        if not book.may_follow(entry):
            return number_of_entry
        book.push(entry)
    return None if entries else 0


def do_wallet(setting, words):
    setting.arguments(words)
    entries = history_of(setting)
    book, against = WalletBook(entries), first_against(entries)
    lines = ["wallet lawful" if against is None else "wallet unlawful %d" % against]
    lines += ["holding %s %s %s" % (state, shown(text), shown(secret)) for state, text, secret in book.holdings()]
    return lines + ["kept %d %s" % (n, request.line()) for n, request in book.kept()]


def moment(setting, word):
    return min(number(setting, word), MOMENTS - 1)


def do_choose(setting, words):
    time, vendor, limit = setting.arguments(words, moment, data, number)
    chosen = WalletBook(history_of(setting)).choose(vendor, time, limit)
    if isinstance(chosen, tuple):
        return ["choose %d %s" % (chosen[0].value, shown(chosen[1]))]
    return ["choose refused " + chosen.text()]


ASKED = {"get": (data, data, number), "buy": (data, data, number, number), "draw": (data, data, of_length(16), number, number)}


def do_pend(setting, words):
    if len(words) < 2 or words[1] not in ASKED:
        raise CaseError("no such errand")
    time, kind = moment(setting, words[0]), words[1]
    values = setting.arguments(words[2:], *ASKED[kind])
    asked = pended(WalletBook(history_of(setting)), time, kind, values)
    return ["pend refused " + asked.text() if isinstance(asked, Refusal) else "pend %d %s" % (time, asked.line())]


def pended(book, time, kind, values):
    """The request of what is asked, or the refusal."""
    if kind == "draw":
        return drawing(*values)
    peer, limit = values[0], values[-1]
    if kind == "get":
        return book.paying(GET, peer, values[1], time, limit)
    return book.paying(BUY, peer, buy_target(*values[1:3]), time, limit)


def do_request(setting, words):
    of, = setting.arguments(words, number)
    asked = WalletBook(history_of(setting)).requests.get(of)
    return ["request " + (shown(asked.sent()) if asked else "none")]


def do_settle(setting, words):
    _, of, received = setting.arguments(words, moment, number, data)
    book = WalletBook(history_of(setting))
    if not book.is_kept(of):
        return ["settle none"]
    reply = next_reply(received)
    if not isinstance(reply, Reply):
        return ["settle no reply"]
    wrong = check(book.requests[of], reply)
    if wrong:
        return ["settle wrong " + wrong.text()]
    settled = book.settlement(book.requests[of], reply)
    if isinstance(settled, int):
        return ["settle refused %d" % settled]
    price, change, got = settled
    brought = " ".join(map(shown, got)) if got else "-"
    return ["settle done %d %s %s" % (price, shown(change), brought)]


VERBS = {"wallet": do_wallet, "choose": do_choose, "pend": do_pend, "request": do_request, "settle": do_settle}
