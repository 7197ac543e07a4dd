"""The refusals: their names, their statuses in HTTP, and what each keeps."""
from dataclasses import dataclass

from forms import id_text

# What is kept: n a number, i an identity, t a name.
TABLE = {
    10: ("BadHead", 400, ""), 11: ("HeadTooLarge", 431, ""), 12: ("NoHost", 400, ""), 13: ("BodyRefused", 413, ""),
    14: ("BadTarget", 400, ""), 15: ("BadMethod", 405, ""), 16: ("RepeatedField", 400, ""),
    20: ("NoScrip", 402, ""), 21: ("BadScrip", 400, "n"), 22: ("WrongVendor", 403, ""), 23: ("UnknownIssuer", 403, ""),
    24: ("ExpiryMismatch", 403, "nn"), 25: ("BadCertificate", 403, ""), 26: ("Expired", 410, "nn"),
    27: ("Spent", 409, ""), 28: ("NeedSignature", 403, ""), 29: ("BadSignature", 403, ""),
    30: ("NoSuchGoods", 404, ""), 31: ("TooLittle", 402, "n"), 32: ("SeriesFull", 503, "n"),
    33: ("JournalFull", 503, "nn"), 34: ("WrongVersion", 403, "n"), 40: ("NoAccount", 404, ""),
    41: ("StaleOrder", 409, "n"), 42: ("PoorAccount", 402, "n"), 43: ("NoVendor", 404, ""), 44: ("NoStock", 404, "n"),
    45: ("AccountFull", 409, "n"), 50: ("NotEmpty", 0, "n"), 52: ("WrongKind", 0, ""), 53: ("BadInput", 0, "n"),
    54: ("ContentsFull", 0, "n"), 55: ("IssuerTaken", 0, "n"), 56: ("RefUsed", 0, "t"), 57: ("StockTwice", 0, "i"),
    59: ("LicenceTwice", 0, "n"), 60: ("AccountTaken", 0, ""), 61: ("TwiceHeld", 0, "i"), 62: ("NoFunds", 0, "n"),
    63: ("NoLink", 0, ""), 64: ("NoReply", 0, ""), 65: ("BadReply", 0, ""), 66: ("Unproved", 0, ""),
    67: ("Nothing", 0, ""), 68: ("SiteRefused", 0, "n"), 69: ("BadBooks", 0, ""), 70: ("MissingBook", 0, "t"),
    71: ("NoTerms", 0, ""), 72: ("VersionSet", 0, "n"), 73: ("TooEarly", 0, "n"), 74: ("SeriesOpen", 0, "nn"),
    75: ("BadStatement", 0, ""), 76: ("PaidTwice", 0, "n"), 77: ("OverSold", 0, "n"), 78: ("NotPlain", 400, ""),
    79: ("OverBudget", 402, "n"), 80: ("NothingDue", 0, ""), 81: ("UpstreamFault", 503, ""),
    90: ("NoMemory", 503, ""), 91: ("DiskFault", 500, ""),
}
WIDE = {76, 77}


@dataclass(frozen=True)
class Refusal:
    """A refusal with its kept values."""
    number: int
    kept: tuple = ()

    @property
    def name(self):
        return TABLE[self.number][0]

    @property
    def status(self):
        return TABLE[self.number][1]

    def text(self):
        """Number, name and kept values, with one space between."""
        values = zip(TABLE[self.number][2], self.kept)
        spelled = {"n": str, "i": id_text, "t": lambda name: name.decode()}
        return " ".join([str(self.number), self.name] + [spelled[kind](value) for kind, value in values])


def refused(number, *kept):
    return Refusal(number, kept)
