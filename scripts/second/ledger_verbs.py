"""The verbs on terms, signatures, an issuer's series, and kept replies."""
from bytes_text import shown
from forms import (
    MOMENTS, MOST_VALUE, Terms, are_terms, id_of, id_text, reply_signature, request_signature, series_of)
from setting import U32, data, maybe_data, maybe_number, number, of_length, up_to

moment = up_to(MOMENTS - 1)


def do_terms(setting, words):
    issuer, period, life, *joined = setting.arguments(words, number, number, number, data, data)
    lists = (tuple(secrets[i:i + 16] for i in range(0, len(secrets), 16)) for secrets in joined)
    terms = Terms(issuer, period, life, *lists)
    are_some = issuer <= 255 and are_terms(terms) and not any(len(secrets) % 16 for secrets in joined)
    setting.terms = terms if are_some else None
    return [] if setting.terms else ["terms no"]


def do_series(setting, words):
    at, = setting.arguments(words, moment)
    epoch = setting.given("terms").epoch(at)
    return ["series %d %d" % (epoch, setting.terms.end(epoch))]


def do_certificate(setting, words):
    body, ident = setting.arguments(words, data, number)
    return ["certificate " + setting.given("terms").certificate(body, ident).hex()]


def do_secret(setting, words):
    cust, *versions = setting.arguments(words, *(number, up_to(255))[:max(1, len(words))])
    return ["secret " + setting.given("terms").secret(cust, *versions).hex()]


def do_signed(setting, words):
    return ["signed " + request_signature(*setting.arguments(words, data, data, of_length(16))).hex()]


def do_replied(setting, words):
    return ["replied " + reply_signature(*setting.arguments(words, data, data, data, data, of_length(16))).hex()]


class Issuer:
    """How many pieces stand in each series, and what was issued and redeemed."""

    def __init__(self, terms, limit):
        self.terms, self.limit = terms, limit
        self.pieces, self.issued, self.redeemed = {}, {}, {}

    def next(self, at):
        """The next identity; None where the series is full."""
        count = self.pieces.get(self.terms.series(at), 0)
        return id_of(self.terms.issuer, self.terms.epoch(at), count) if count < self.limit else None


def add(sums, series, more):
    sums[series] = sums.get(series, 0) + more


def do_issuer(setting, words):
    limit, = setting.arguments(words, up_to(2**32))
    setting.issuer = Issuer(setting.given("terms"), limit)


def do_next(setting, words):
    at, = setting.arguments(words, moment)
    ident = setting.given("issuer").next(at)
    return [full(setting, at) if ident is None else "next " + id_text(ident)]


def full(setting, at):
    return "full %d" % setting.issuer.terms.series(at)


def do_coin(setting, words):
    at, value, cust = setting.arguments(words, moment, up_to(MOST_VALUE), maybe_number)
    issuer = setting.given("issuer")
    ident = issuer.next(at)
    if ident is None:
        return [full(setting, at)]
    add(issuer.pieces, series_of(ident), 1)
    add(issuer.issued, series_of(ident), value)
    end = issuer.terms.end(issuer.terms.epoch(at))
    props = b"" if cust is None else b"a=1"
    return ["coin %s %s %d %s" % (id_text(ident), id_text(ident if cust is None else cust), end, shown(props))]


def do_redeem(setting, words):
    ident, value = setting.arguments(words, number, up_to(MOST_VALUE))
    add(setting.given("issuer").redeemed, series_of(ident), value)
    return ["redeem %d" % value]


def do_count(setting, words):
    series, = setting.arguments(words, up_to(U32))
    issuer = setting.given("issuer")
    return ["count %d %d %d" % tuple(s.get(series, 0) for s in (issuer.pieces, issuer.issued, issuer.redeemed))]


class Kept:
    """Kept replies: by number the moment and the request."""

    def __init__(self, keep):
        self.keep, self.replies = keep, {}

    def find(self, at, request):
        return next((n for n, (m, r) in self.replies.items() if r == request and at < m + self.keep), None)

    def forget(self, at):
        self.replies = {n: (m, r) for n, (m, r) in self.replies.items() if at < m + self.keep}


def do_kept(setting, words):
    setting.kept = Kept(*setting.arguments(words, up_to(U32)))


def do_keep(setting, words):
    of, at, *request = setting.arguments(words, number, moment, data, maybe_data, maybe_data)
    kept = setting.given("kept")
    if of in kept.replies or any(r == request for _, r in kept.replies.values()):
        return ["keep no"]
    kept.replies[of] = (at, request)
    return ["keep yes"]


def told(verb, value):
    return ["%s %s" % (verb, "none" if value is None else value)]


def do_find(setting, words):
    at, *request = setting.arguments(words, moment, data, maybe_data, maybe_data)
    return told("find", setting.given("kept").find(at, request))


def do_forget(setting, words):
    at, = setting.arguments(words, moment)
    setting.given("kept").forget(at)
    return told("forget", min(setting.kept.replies, default=None))


def do_held(setting, words):
    of, = setting.arguments(words, number)
    if of not in setting.given("kept").replies:
        return ["held none"]
    at, request = setting.kept.replies[of]
    return ["held %s %d 25" % (" ".join(map(shown, request)), at)]


VERBS = {
    "terms": do_terms, "series": do_series, "certificate": do_certificate, "secret": do_secret, "signed": do_signed,
    "replied": do_replied, "issuer": do_issuer, "next": do_next, "coin": do_coin, "redeem": do_redeem,
    "count": do_count, "kept": do_kept, "keep": do_keep, "find": do_find, "forget": do_forget,
    "held": do_held,
}
