"""What an operator sees of his site: what is on sale, the accounts, and how it stands, in Prometheus' text form."""
from payloads import ACCEPT


def goods_lines(house):
    """A line for each target on sale, in the order in which each was first put on sale."""
    return b"".join(b"goods %s %d %d %d\n" % (target, goods.price, goods.goods, len(goods.contents))
                    for target, goods in house.history.goods.items())


def account_lines(house):
    """A line for each account, in the order of opening."""
    desk = house.history.desk
    return b"".join(b"account %s %d %d\n" % (name, desk.balance(name), desk.orders.get(name, 0)) for name in desk.keys)


def vendor_status(house):
    history = house.history
    taken = sum(entry.price for entry in history.entries if entry.kind == ACCEPT)
    return told(history, [
        (b"millicent_takings_total", b"counter", b"Units taken in prices of accepted requests.", taken),
        (b"millicent_goods", b"gauge", b"Targets on sale.", len(history.goods)),
        (b"millicent_goods_bytes", b"gauge", b"Bytes of contents on sale.", history.in_force)])


def broker_status(house):
    desk = house.history.desk
    return told(house.history, [
        (b"millicent_accounts", b"gauge", b"Accounts.", len(desk.keys)),
        (b"millicent_balances", b"gauge", b"Units in all accounts.", sum(map(desk.balance, desk.keys)))])


def told(history, more):
    """The lines of what stands of any site, and of more metrics, each a name, a kind, a text and a number."""
    metrics = [
        (b"millicent_entries_total", b"counter", b"Entries in the book.", len(history.entries)),
        (b"millicent_book_bytes", b"gauge", b"Bytes of the book.", history.size),
        (b"millicent_book_switched", b"gauge", b"Whether each entry ends with a chain of all before it: 1, else 0.",
         int(history.chain.switched)), *more]
    return b"".join(b"# HELP %s %s\n# TYPE %s %s\n%s{site=\"%s\"} %d\n" % (name, text, name, kind, name, history.site.name, number)
                    for name, kind, text, number in metrics)
