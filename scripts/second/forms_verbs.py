"""The verbs on texts, numbers, scrip, payloads, refusals and plain digests."""
import hashlib

import forms
from bytes_text import CaseError, bytes_of, shown
from forms import BAR, Fault, MOMENTS, MOST_EXPIRES, MOST_VALUE, id_text
from payloads import entry_line, read_entry
from refusals import TABLE, WIDE, refused
from setting import U32, data, number, up_to


def yes_no(answer):
    return "yes" if answer else "no"


def tested(verb, test):
    """A verb that tests bytes."""
    def act(setting, words):
        text, = setting.arguments(words, data)
        return ["%s %s" % (verb, yes_no(test(text)))]
    return act


def do_scrip(setting, words):
    text, = setting.arguments(words, data)
    try:
        s = forms.read_scrip(text)
    except Fault as fault:
        return ["fault %d" % fault.place]
    return ["scrip %d %s %d %s %s %d %s %s" % (
        s.version, shown(s.vendor), s.value, id_text(s.id), id_text(s.cust), s.expires, shown(s.props), s.cert.hex())]


def do_versioned(setting, words):
    text, version = setting.arguments(words, data, up_to(255))
    if version not in (1, 2):
        return ["versioned no"]
    if not forms.is_scrip(text):
        raise CaseError("no scrip")
    return ["versioned " + shown(b"MS%d" % version + text[3:])]


def do_payload(setting, words):
    text, = setting.arguments(words, data)
    try:
        return ["payload " + entry_line(read_entry(text))]
    except Fault as fault:
        return ["fault %d" % fault.place]


def do_digest(setting, words):
    text, = setting.arguments(words, data)
    found = forms.digest_of(text)
    return ["digest " + ("no" if found is None else shown(found))]


def hashed(verb):
    """A verb that makes a digest of bytes, by the standard of its name."""
    def act(setting, words):
        text, = setting.arguments(words, data)
        return ["%s %s" % (verb, hashlib.new(verb, text).hexdigest())]
    return act


def do_whole_number(setting, words):
    most, text = setting.arguments(words, number, data)
    found = forms.whole_number(text, 1, most)
    return ["whole_number %s" % ("no" if found is None else found)]


def reading(verb, read, show, *kinds):
    """A verb that reads one field off the beginning of bytes."""
    def act(setting, words):
        *values, text = setting.arguments(words, *kinds, data)
        try:
            found = read(text, *values)
        except Fault as fault:
            return ["stuck %d" % (len(text) - fault.place)]
        *value, end = found
        return [" ".join([verb, *map(show, value), shown(text[end:])])]
    return act


def stop_byte(setting, word):
    """A byte, as a number or as bytes."""
    if word.isdigit():
        return number(setting, word, 255)
    found = bytes_of(word, setting.names)
    if len(found) != 1:
        raise CaseError("one byte is wanted")
    return found[0]


def do_refusal(setting, words):
    if not words or number(setting, words[0]) not in TABLE:
        raise CaseError("no such refusal")
    of = int(words[0])
    kinds = TABLE[of][2]

    def text(setting, word):
        found = bytes_of(word, setting.names)
        if not forms.is_name(found):
            raise CaseError("no name")
        return found
    wide = up_to(2**128 - 1) if of in WIDE else number
    kept = setting.arguments(words[1:], *(text if kind == "t" else wide for kind in kinds))
    refusal = refused(of, *kept)
    return ["refusal %d %s" % (refusal.status, refusal.text())]


def do_amount(setting, words):
    value, = setting.arguments(words, number)
    return ["amount " + yes_no(value <= MOST_VALUE)]


def do_moment(setting, words):
    value, = setting.arguments(words, number)
    return ["moment %s %d" % (yes_no(value < MOMENTS), min(value, MOMENTS - 1))]


def do_split(setting, words):
    whole, part = setting.arguments(words, up_to(MOST_VALUE), up_to(MOST_VALUE))
    return ["split %s %d" % (part if part <= whole else "-", whole)]


def do_total(setting, words):
    left = taken = 0
    for word in words:
        if word[:1] not in ("+", "-"):
            raise CaseError("no step: %s" % word)
        amount = number(setting, word[1:], MOST_VALUE)
        if word[0] == "+":
            left += amount
        elif amount <= left:
            left, taken = left - amount, taken + amount
    return ["total %d %d" % (left, taken)]


def do_id(setting, words):
    issuer, epoch, serial = setting.arguments(words, number, number, number)
    if issuer > 255 or epoch >= 2**24 or serial > U32:
        return ["id no"]
    ident = forms.id_of(issuer, epoch, serial)
    return ["id %s %d" % (id_text(ident), forms.series_of(ident))]


def do_piece(setting, words):
    vendor, value, _, _, expires, props = setting.arguments(words, data, number, number, number, number, data)
    is_spelled = forms.is_name(vendor) and forms.is_props(props)
    return ["piece " + yes_no(is_spelled and 0 < value <= MOST_VALUE and 0 < expires <= MOST_EXPIRES)]


VERBS = {
    "scrip": do_scrip, "versioned": do_versioned, "payload": do_payload, "name": tested("name", forms.is_name),
    "props": tested("props", forms.is_props), "target": tested("target", forms.is_target), "digest": do_digest,
    "whole_number": do_whole_number,
    "number": reading("number", lambda text, most: forms.read_number(text, 0, BAR, most), str, number),
    "literal": reading("literal", lambda text, wanted: (forms.read_literal(text, 0, wanted),), shown, data),
    "digits": reading("digits", lambda text: forms.read_digits(text, 0, 2), shown),
    "before": reading("before", lambda text, stop: forms.read_name(text, 0, stop), shown, stop_byte),
    "refusal": do_refusal, "amount": do_amount, "moment": do_moment, "split": do_split, "total": do_total, "id": do_id,
    "piece": do_piece, "md5": hashed("md5"), "sha256": hashed("sha256"),
}
