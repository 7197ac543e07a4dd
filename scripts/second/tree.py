"""Several brokers that sell scrip of each other, and their vendors: what was handed out, the first stranger, and the sums."""
from dataclasses import dataclass

from forms import read_scrip
from ledger import SALE
from market import broker_sums
from payloads import ACCEPT


@dataclass(frozen=True)
class Sale:
    """What a broker sold: the broker, the vendor, whether it came out of stock, and the piece."""
    broker: bytes
    vendor: bytes
    is_stock: bool
    id: int
    value: int
    end: int

    @property
    def piece(self):
        return self.id, self.value, self.end

    def same(self, other):
        """Whether both have one identity of one vendor."""
        return (self.vendor, self.id) == (other.vendor, other.id)


class Tree:
    """Books of brokers and of vendors, of names that differ."""

    def __init__(self, books):
        self.books = books
        self.brokers = sorted((book for book in books if book.is_broker), key=lambda book: book.name)
        self.vendors = sorted((book for book in books if not book.is_broker), key=lambda book: book.name)
        self.sales = [sale for book in books if book.is_broker for sale in sales_of(book)]
        self.minted = {(book.name, *piece) for book in self.vendors for piece in book.minted}
        self.licensed = {(s.vendor, s.id, s.value, s.broker) for s in self.sales if not s.is_stock}

    def handed_out(self, book):
        """The pieces of a house, each identity once: of a vendor those that brokers sold, as first they did, and its own."""
        sold = [] if book.is_broker else [sale.piece for sale in self.sales if sale.vendor == book.name]
        once = {}
        for piece in sold + book.own:
            once.setdefault(piece[0], piece)
        return list(once.values())

    def is_genuine(self, sale):
        """Whether a piece out of stock was minted by its vendor, or another broker sold it under a licence."""
        brokers = (broker for *piece, broker in self.licensed if piece == [sale.vendor, sale.id, sale.value])
        return (not sale.is_stock or (sale.vendor, sale.id, sale.value) in self.minted
                or any(broker != sale.broker for broker in brokers))

    def first_stranger(self):
        """The name of a house and an identity; None where there is no stranger."""
        earlier = []
        for book in self.books:
            handed = {(ident, value) for ident, value, _ in self.handed_out(book)}
            sales = iter(sales_of(book) if book.is_broker else ())
            for entry in book.of(ACCEPT):
                piece = read_scrip(entry.scrip)
                if (piece.id, piece.value) not in handed:
                    return book.name, piece.id
                if book.is_broker and entry.deed[0] == SALE:
                    sale = next(sales)
                    if not self.is_genuine(sale) or any(clash(sale, other) for other in earlier):
                        return book.name, sale.id
                    earlier.append(sale)
        return None

    def vendor_sums(self, book):
        """Takings, outstanding and lapsed."""
        return sum(entry.price for entry in book.of(ACCEPT)), *book.left(self.handed_out(book))

    def relayed(self):
        """What all sales come to, less the pieces sold, each once at the value of its first sale."""
        once = {}
        for sale in self.sales:
            once.setdefault((sale.vendor, sale.id), sale.value)
        return sum(sale.value for sale in self.sales) - sum(once.values())


def sales_of(book):
    """What a broker sold, by entry."""
    return [Sale(book.name, vendor, bool(stock), *piece) for vendor, stock, piece in book.sales]


def clash(sale, other):
    """Whether two sales of one identity may not both stand."""
    return sale.same(other) and (sale.value != other.value or not sale.is_stock and not other.is_stock)


def lines(tree):
    """The lines of a report: the brokers and the vendors by their names, and what was relayed."""
    broker = b"broker %s paid-in %d paid-out %d accounts %d fees %d outstanding %d lapsed %d\n"
    vendor = b"vendor %s takings %d outstanding %d lapsed %d\n"
    brokers = [broker % (book.name, *broker_sums(book)) for book in tree.brokers]
    vendors = [vendor % (book.name, *tree.vendor_sums(book)) for book in tree.vendors]
    return b"".join([*brokers, *vendors, b"relayed %d\nbalanced\n" % tree.relayed()])
