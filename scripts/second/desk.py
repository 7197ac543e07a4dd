"""What a broker has: accounts with their balances and orders, licences, stock, and what was sold of them."""
from forms import MOST_VALUE, id_of, is_name, piece_line, read_scrip, series_of, whole_number
from payloads import ACCEPT, ACCOUNT, DEPOSIT, DRAW, LICENCE, STOCK, WITHDRAW

MOST_BALANCE = 2**60


def read_errand(target):
    """What a target asks of a broker: a sale, credit or a draw with its values; None where it asks for none."""
    parts = target.split(b"/")
    numbers = {b"buy": 1, b"credit": 0, b"draw": 2}
    if len(parts) < 3 or parts[0] or parts[1] not in numbers or len(parts) != 3 + numbers[parts[1]]:
        return None
    values = [whole_number(text, 1, MOST_VALUE) for text in parts[3:]]
    if not is_name(parts[2]) or None in values:
        return None
    return (parts[1].decode(), parts[2], *values)


class Desk:
    """Accounts, licences and stock, by the entries of a history."""

    def __init__(self):
        self.keys, self.put, self.taken, self.orders = {}, {}, {}, {}
        self.licences, self.stock, self.sold, self.licensed = {}, {}, set(), {}

    def push(self, entry):
        if entry.kind == ACCOUNT:
            self.keys.setdefault(entry.name, entry.key)
        elif entry.kind == DEPOSIT:
            add(self.put, entry.name, entry.amount)
        elif entry.kind == WITHDRAW:
            add(self.taken, entry.name, entry.amount)
        elif entry.kind == LICENCE:
            self.licences.setdefault(entry.vendor, entry.terms)
            self.stock.setdefault(entry.vendor, [])
        elif entry.kind == STOCK:
            held = [(read_scrip(text), secret) for text, secret in entry.pieces]
            self.stock.setdefault(entry.vendor, []).extend(held)
        elif entry.kind == DRAW:
            self.push_draw(read_errand(entry.target))
        elif entry.kind == ACCEPT:
            self.push_accept(entry, read_errand(entry.target))

    def push_draw(self, errand):
        if errand and errand[0] == "draw":
            _, account, order, amount = errand
            add(self.taken, account, amount)
            self.orders[account] = order

    def push_accept(self, entry, errand):
        if errand and errand[0] == "credit" and entry.deed[0] == 2:
            add(self.put, errand[1], entry.price)
        elif errand and errand[0] == "buy" and entry.deed[0] == 1:
            _, stock, ident = entry.deed
            self.sold.add((errand[1], stock, ident))
            if not stock:
                add(self.licensed, (errand[1], series_of(ident)), 1)

    def balance(self, account):
        return max(0, self.put.get(account, 0) - self.taken.get(account, 0))

    def next_licensed(self, vendor, time, limit):
        """The identity of the next piece under a licence; None where its series is full."""
        terms = self.licences[vendor]
        count = self.licensed.get((vendor, terms.series(time)), 0)
        return id_of(terms.issuer, terms.epoch(time), count) if count < limit else None

    def for_sale(self, vendor, value, time):
        """The identity of the first piece in stock of this value that is unsold and has not ended."""
        for piece, _ in self.stock[vendor]:
            if piece.value == value and time < piece.expires and (vendor, 1, piece.id) not in self.sold:
                return piece.id
        return None

    def stocked(self, vendor):
        """The identities of a vendor that were ever put into stock."""
        return {piece.id for piece, _ in self.stock.get(vendor, ())}

    def sold_line(self, vendor, value, stock, ident, version):
        """The line of a piece that was sold: out of stock as it came, or under the licence in a version."""
        if not stock:
            return self.licences[vendor].piece_line(vendor, value, ident, version)
        return next(piece_line(piece.text, secret) for piece, secret in self.stock[vendor] if piece.id == ident)


def add(sums, name, amount):
    sums[name] = sums.get(name, 0) + amount


def is_stock_for(vendor, known, pieces):
    """Whether pieces may be put into stock: of the vendor, first-hand, and new, also to one another."""
    read = [read_scrip(text) for text, _ in pieces]
    ids = [piece.id for piece in read]
    first_hand = all(p.vendor == vendor and p.cust == p.id and not p.props for p in read)
    return first_hand and len(set(ids)) == len(ids) and not known & set(ids)
