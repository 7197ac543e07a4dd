"""The settlement of licensed scrip: statements, the notes of them, and what a vendor redeemed and a broker sold of a series."""
from dataclasses import dataclass

from desk import read_errand
from forms import digest_of, epoch_of, is_name, issuer_of, read_scrip, whole_number
from house import Ends
from ledger import SALE
from payloads import ACCEPT, NOTE, entry_of
from refusals import refused

MOST_AMOUNT = 2**72
MOST_EPOCH = 2**24 - 1
STATED, PAY = b"stated", b"pay"


@dataclass(frozen=True)
class Claim:
    """What is claimed of a series: the vendor, the issuer and the epoch, and the amount."""
    vendor: bytes
    issuer: int
    epoch: int
    amount: int

    @property
    def series(self):
        return self.vendor, self.issuer, self.epoch

    def stated(self):
        """The text of the vendor's note."""
        return b"%d %d %d" % (self.issuer, self.epoch, self.amount)

    def paid(self):
        """The text of the broker's note."""
        return b"%s %s" % (self.vendor, self.stated())

    def body(self):
        """A statement up to its certificate."""
        return b"statement %s " % self.paid()

    def certificate(self, terms):
        """Of the first piece that the series can have."""
        return terms.certificate(self.body(), self.issuer << 56 | self.epoch << 32)


def claim_of(words):
    """The claim that four words spell; None where they spell none."""
    if len(words) != 4 or not is_name(words[0]):
        return None
    numbers = whole_number(words[1], 1, 255), whole_number(words[2], 0, MOST_EPOCH), whole_number(words[3], 0, MOST_AMOUNT)
    return None if None in numbers else Claim(words[0], *numbers)


def claim_in(history, note):
    """The claim of a `stated` or a `pay` note; None where its bytes are none."""
    words = note.bytes.split(b" ")
    return claim_of(words if note.tag == PAY else [history.site.name, *words])


def redeemed(history, series):
    """The sum of the pieces of a series that a vendor accepted."""
    _, issuer, epoch = series
    pieces = [read_scrip(entry.scrip) for entry in history.entries if entry.kind == ACCEPT]
    return sum(piece.value for piece in pieces if (issuer_of(piece.id), epoch_of(piece.id)) == (issuer, epoch))


def sold(history, series):
    """The sum of what a broker sold of a series under the vendor's licence."""
    vendor, issuer, epoch = series
    total = 0
    for entry in history.entries:
        if entry.kind == ACCEPT and entry.deed[:2] == (SALE, 0):
            _, of, value = read_errand(entry.target)
            ident = entry.deed[2]
            total += value * ((of, issuer_of(ident), epoch_of(ident)) == (vendor, issuer, epoch))
    return total


def amount_of(history, tag, series):
    """The amount that a note of this tag has of a series; None where none has."""
    notes = [entry for entry in history.entries if entry.kind == NOTE and entry.tag == tag]
    claims = [claim for claim in (claim_in(history, note) for note in notes) if claim]
    return next((claim.amount for claim in claims if claim.series == series), None)


def terms_of(history, tag, claim):
    """The terms under which a claim is made: of a vendor's issuer, or of a broker's licence; None where none stand."""
    if tag == STATED:
        return history.terms.get(claim.issuer) if history.is_vendor else None
    licence = history.desk.licences.get(claim.vendor)
    return licence if licence and licence.issuer == claim.issuer else None


def is_in_order(history, entry):
    """Whether an entry is no note of a settlement, or one that may follow the entries of a history."""
    if entry.kind != NOTE or entry.tag not in (STATED, PAY):
        return True
    claim = claim_in(history, entry) if history.site else None
    terms = terms_of(history, entry.tag, claim) if claim else None
    if terms is None or entry.moment < terms.end(claim.epoch) or amount_of(history, entry.tag, claim.series) is not None:
        return False
    if entry.tag == STATED:
        return claim.amount == redeemed(history, claim.series)
    return claim.amount <= sold(history, claim.series)


def state(house, issuer, epoch):
    """States what a vendor redeemed of a series that has ended, and answers the statement."""
    history, series = house.history, (house.history.site.name, issuer, epoch)
    terms = history.terms.get(issuer)
    if terms is None:
        raise Ends.refused(refused(71))
    if house.time < terms.end(epoch):
        raise Ends.refused(refused(74, terms.end(epoch), house.time))
    claim = Claim(*series, redeemed(history, series))
    if amount_of(history, STATED, series) is None:
        house.enter(entry_of(NOTE, house.time, tag=STATED, bytes=claim.stated()))
    return claim.body() + claim.certificate(terms).hex().encode() + b"\n"


def read_statement(lines):
    """The claim and the certificate of one statement."""
    line, end, more = lines.partition(b"\n")
    words = line.split(b" ")
    claim, certificate = claim_of(words[1:-1]), digest_of(words[-1])
    if not end or words[0] != b"statement" or claim is None or certificate is None:
        raise Ends.refused(refused(53, 1 if lines else 0))
    if more:
        raise Ends.refused(refused(53, 2))
    return claim, certificate


def settle(house, lines):
    """Pays the statement of a vendor once, and answers the line of it."""
    claim, certificate = read_statement(lines)
    terms = terms_of(house.history, PAY, claim)
    if terms is None:
        raise Ends.refused(refused(43))
    if certificate != claim.certificate(terms):
        raise Ends.refused(refused(75))
    paid = amount_of(house.history, PAY, claim.series)
    if paid is None:
        pay(house, terms, claim)
    elif paid != claim.amount:
        raise Ends.refused(refused(76, paid))
    return b"paid %s\n" % claim.paid()


def pay(house, terms, claim):
    """Enters the note of a payment, where the series has ended and so much was sold of it."""
    if house.time < terms.end(claim.epoch):
        raise Ends.refused(refused(74, terms.end(claim.epoch), house.time))
    if claim.amount > sold(house.history, claim.series):
        raise Ends.refused(refused(77, sold(house.history, claim.series)))
    house.enter(entry_of(NOTE, house.time, tag=PAY, bytes=claim.paid()))
