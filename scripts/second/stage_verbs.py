"""The verbs that say what a stage has, use one, call one by hand, or look at its book."""
from types import SimpleNamespace

from broker import add_licence, add_stock, move, open_account, upgrade_vendor
from bytes_text import CaseError, digest, shown
from forms import MOMENTS, MOST_VALUE, Fault, is_name
from heads import HeadReader
from house import Ends, House, bench, opened
from journal import BadChain, BadEntry, Halted, NotJournal, Replay, found
from ledger import History, Limits, Request, answer, first_unlawful, is_refusal
from payloads import BROKER, DEPOSIT, VENDOR, WITHDRAW, read_entry
from program import parsed, places, run, run_at_door, run_proxy
from refusals import refused
from setting import U32, changed, data, maybe_data, number, of_length, up_to, word_bytes
from stage import DiskFault, LinkFault, Stage, change_of
from vendor import MOST_EPOCH, add_terms, mint_pieces, put_goods, set_price, upgrade_issuer
from words import BadWords


def set_book(setting, words):
    setting.book, = setting.arguments(words, data)


def set_link(setting, words):
    setting.links.append([data(setting, word) for word in words])


def set_door(setting, words):
    setting.doors.append(len(setting.links))
    set_link(setting, words)


def set_upstream(setting, words):
    setting.upstream.append([data(setting, word) for word in words])


def set_clock(setting, words):
    setting.clock = [number(setting, word) for word in words]


def set_fail(setting, words):
    if not words or words[0] not in ("disk", "link", "up"):
        raise CaseError("fail wants disk, link or up")
    setting.failing[words[0]] = [number(setting, word, U32) for word in words[1:]]


def set_beside(setting, words):
    if not words:
        raise CaseError("beside wants a book")
    setting.beside.append((data(setting, words[0]), [number(setting, word, U32) for word in words[1:]]))


def set_saved(setting, words):
    """Gives a name to what the last stage left: its book, what was said, or what was sent on a link, of those to a vendor too."""
    if len(words) < 2:
        raise CaseError("save wants a name")
    setting.name(words[0], left_by(setting, *words[1:]))


def left_by(setting, what, *of):
    if what == "book" and not of:
        return setting.book
    stage = setting.last_up if what == "up" else setting.last
    if stage is None:
        raise CaseError("there is no stage")
    if what == "said" and not of:
        return stage.said
    link, = setting.arguments(of, number)
    if what not in ("sent", "up") or link >= len(stage.sent):
        raise CaseError("there is no such thing to save")
    return stage.sent[link]


def set_limits(setting, words):
    journal, series = setting.arguments(words, number, number)
    if not (64 <= journal <= 2**40 and 1 <= series <= 2**32):
        return ["limits no"]
    setting.limits = Limits(journal, series)
    return []


def do_run(setting, words):
    beside, stage = setting.stages_beside(), setting.stage()
    status = run([word_bytes(setting, word) for word in words], stage, beside)
    return ["run %d" % status] + setting.ended(stage) + [line for book in beside for line in beside_lines(book)]


def over_upstream(verb, run_words):
    """The verb of a run whose links go to another stage, too."""
    def do(setting, words):
        up, stage = setting.stage_upstream(), setting.stage()
        status = run_words([word_bytes(setting, word) for word in words], stage, up)
        sent = ["up " + shown(data) for data in up.sent]
        return ["%s %d" % (verb, status), *setting.ended(stage), *sent, "up calls %d" % up.calls["link"]]
    return do


def beside_lines(book):
    _, change, calls = book.lines()
    return [changed("beside", change), "calls %d %d" % calls]


def do_serve(setting, words, site=VENDOR):
    links, = setting.arguments(words, up_to(U32))
    stage = setting.stage()
    return ["serve " + served(stage, setting.limits, links, site)] + setting.ended(stage)


def do_desk(setting, words):
    return do_serve(setting, words, BROKER)


def served(stage, limits, links, site):
    """How serving ends, as a house of this kind of site."""
    try:
        house = opened(stage, limits, site)
    except Ends as end:
        return end.line.decode().rstrip("\n")
    try:
        return "done %d" % house.serve(links)
    except Ends as end:
        return "halted" if end.status == 4 else "link fault"


def do_found(setting, words):
    payloads = [data(setting, word) for word in words]
    stage = setting.stage()
    try:
        journal = found(stage)
    except DiskFault:
        return ["disk fault"] + setting.ended(stage)
    return list(entered(journal, payloads, setting.limits.journal)) + setting.ended(stage)


def entered(journal, payloads, limit):
    """The lines of payloads that are entered, up to one that fails."""
    for number_of_entry, payload in enumerate(payloads):
        try:
            read_entry(payload)
            if journal.is_full(payload, limit):
                yield "full"
                return
            journal.add(payload)
        except Fault as fault:
            yield "fault %d" % fault.place
            return
        except Halted as halted:
            yield "halted " + halted.step
            return
        yield "receipt %d" % number_of_entry
    yield "size %d" % journal.size
    if journal.chain.switched:
        yield chain_line(journal.entries, journal.chain)


def chain_line(entries, chain):
    """How many entries a book has, and their chain."""
    return "chain %d %s" % (entries, chain.digest.hex())


def do_goods(setting, words):
    time, target, price, kind, contents = setting.arguments(words, number, data, up_to(MOST_VALUE), up_to(2), data)
    order = SimpleNamespace(target=target, price=price)
    return kept_by(setting, "goods", time, lambda house: put_goods(house, order, kind, contents))


def do_price(setting, words):
    time, target, price = setting.arguments(words, number, data, up_to(MOST_VALUE))
    order = SimpleNamespace(target=target, price=price)
    return kept_by(setting, "price", time, lambda house: set_price(house, order))


def do_licence(setting, words):
    time, = setting.arguments(words, number)
    if setting.terms is None:
        raise CaseError("there are no terms")
    order = SimpleNamespace(terms=setting.terms)
    return kept_by(setting, "licence", time, lambda house: add_terms(house, order))


def do_mint(setting, words):
    time, count, value, reference = setting.arguments(words, number, up_to(256), up_to(MOST_VALUE), data)
    order = SimpleNamespace(count=count, value=value, reference=reference)
    return kept_by(setting, "mint", time, lambda house: mint_pieces(house, order))


def do_coming(setting, words):
    time, = setting.arguments(words, number)
    return kept_by(setting, "coming", time, coming)


def coming(house):
    """The identity of the next piece of the house's own."""
    if not house.history.room(house.time, house.limits):
        raise Ends.refused(refused(32, house.history.own_series(house.time)))
    return house.history.next_identity(house.time)


def do_upgrade(setting, words):
    time, issuer, start = setting.arguments(words, number, up_to(255), up_to(MOST_EPOCH))
    return kept_by(setting, "upgrade", time, lambda house: upgrade_issuer(house, house.history.site.name, issuer, start))


def do_upgraded(setting, words):
    time, vendor, start = setting.arguments(words, number, name, up_to(MOST_EPOCH))
    return kept_by(setting, "upgraded", time, lambda house: upgrade_vendor(house, vendor, start), BROKER)


def switching(verb, site):
    """The verb by which a house of this kind of site switches the chain on."""
    def do(setting, words):
        time, = setting.arguments(words, number)
        return kept_by(setting, verb, time, House.switch, site)
    return do


def name(setting, word):
    found = data(setting, word)
    if not is_name(found):
        raise CaseError("no name: %s" % word)
    return found


def do_account(setting, words):
    time, account, key = setting.arguments(words, number, name, of_length(16))
    order = SimpleNamespace(account=account, key=key)
    return kept_by(setting, "account", time, lambda house: open_account(house, order), BROKER)


def paying(verb, kind):
    """The verb of a deposit or of a withdrawal."""
    def do(setting, words):
        time, account, amount, reference = setting.arguments(words, number, name, up_to(MOST_VALUE), name)
        order = SimpleNamespace(account=account, amount=amount, reference=reference)
        return kept_by(setting, verb, time, lambda house: move(house, kind, order), BROKER)
    return do


def do_licensed(setting, words):
    time, vendor = setting.arguments(words, number, name)
    terms = setting.given("terms")
    return kept_by(setting, "licensed", time, lambda house: add_licence(house, vendor, terms), BROKER)


def do_stock(setting, words):
    time, vendor, lines = setting.arguments(words, number, name, data)
    return kept_by(setting, "stock", time, lambda house: add_stock(house, vendor, lines), BROKER)


def kept_by(setting, verb, time, enter, site=VENDOR):
    """The lines of an operator's call of the house of the book."""
    stage = setting.stage()
    try:
        house = opened(stage, setting.limits, site)
    except Ends:
        return [verb + " closed"] + setting.ended(stage)
    house.time = max(house.time, min(time, MOMENTS - 1))
    told = b""
    try:
        told = enter(house)
        came = "%016x" % told if verb == "coming" else "done"
    except Ends as end:
        came = "halted" if end.status == 4 else end.line.decode().rstrip("\n")
    lines = ["lines " + shown(told)] if verb == "mint" else []
    if verb in ("switch", "switched") and came == "done":
        lines = [chain_line(house.journal.entries, house.journal.chain)]
    return lines + [verb + " " + came] + setting.ended(stage)


def do_replay(setting, words):
    setting.arguments(words)
    stage = setting.stage()
    return list(replayed(stage)) + setting.ended(stage)


def replayed(stage):
    try:
        replay = Replay(stage)
        while read := replay.next():
            yield "entry %d %s" % (read[0], digest(read[1].payload))
        yield "closed"
    except NotJournal:
        yield "not a journal"
    except BadEntry as bad:
        yield "bad entry at %d" % bad.place
    except BadChain as bad:
        yield "bad chain at %d %s %s" % (bad.place, bad.stood.hex(), bad.computed.hex())
    except DiskFault:
        yield "disk fault"


def do_heads(setting, words):
    setting.arguments(words)
    stage = setting.stage()
    lines = []
    while True:
        try:
            if not stage.next_link():
                break
            lines += read_heads(stage)
        except LinkFault:
            lines.append("fault")
    return lines + setting.ended(stage)


def read_heads(stage, are_counted=True):
    """The lines of one link, up to its end or an item that closes it, as the 1,000th does where they are counted."""
    reader, lines = HeadReader(are_counted), []
    while True:
        try:
            item = reader.take(stage)
        except LinkFault:
            lines.append("fault")
            continue
        lines.append(head_line(item))
        if item is None or item.closes:
            return lines


def head_line(item):
    if item is None:
        return "end"
    after = "close" if item.closes else "on"
    if item.refusal is not None:
        return "refused %d %s" % (item.refusal, after)
    return "head %s %s" % (" ".join(map(shown, (item.request.target, item.request.scrip, item.request.sign))), after)


def do_whole(setting, words):
    setting.arguments(words)
    stage = Stage(links=[[setting.first_link()]])
    stage.next_link()
    return read_heads(stage, are_counted=False)


def do_crash(setting, words):
    choice, = setting.arguments(words, number)
    if setting.last is None:
        raise CaseError("there is no stage to crash")
    had, setting.book = bytes(setting.last.contents), setting.last.crashed(choice)
    setting.hand, setting.last = None, Stage(setting.book, (), setting.last.readings)
    return [changed("crash", change_of(had, setting.book))]


def do_once(setting, words):
    stage = Stage(links=[[setting.first_link()]])
    try:
        name, order, _ = parsed([word_bytes(setting, word) for word in words])
        if name != [b"vendor", b"once"]:
            raise BadWords
        bench(order, stage).serve(1)
    except BadWords:
        return ['once 2 ""']
    return ["once 0 " + shown(stage.sent[0])]


def do_places(setting, words):
    how, book, listen, books, connect, door = places([word_bytes(setting, word) for word in words])
    named = [] if door is None else ["door", shown(door)]
    return [" ".join(["places", how, *map(shown, (book, listen, *books, connect)), *named])]


def history_of(setting):
    """The entries that the book encodes."""
    try:
        replay, entries = Replay(Stage(setting.book)), []
        while read := replay.next():
            entries.append(read[1])
        return entries
    except (NotJournal, BadEntry, BadChain):
        raise CaseError("the book stands for no history")


def do_answer(setting, words):
    time, *texts = setting.arguments(words, up_to(MOMENTS - 1), data, maybe_data, maybe_data)
    request, history = Request(*texts), History(history_of(setting))
    ledger = answer(history, time, setting.limits, request)
    return ["ledger " + answer_text(ledger, True), "house " + house_answer(setting, time, request)]


def house_answer(setting, time, request):
    """What a house of the book's kind of site answers that opens the book and raises its time."""
    history = History(history_of(setting))
    try:
        house = opened(Stage(setting.book, readings=[time]), setting.limits, BROKER if history.is_broker else VENDOR)
    except Ends:
        return "closed"
    house.raise_time()
    return answer_text(answer(house.history, house.time, setting.limits, request), False)


def answer_text(given, has_payload):
    if is_refusal(given):
        return "refused " + given.text()
    if isinstance(given, int):
        return "again %d" % given
    return "take " + shown(given.payload) if has_payload else "take"


def do_lawful(setting, words):
    setting.arguments(words)
    number_of_entry = first_unlawful(history_of(setting), setting.limits.series)
    return ["lawful" if number_of_entry is None else "unlawful %d" % number_of_entry]


def by_hand(name, call, *kinds):
    """The verb of one call of a stage by hand."""
    def verb(setting, words):
        values = setting.arguments(words, *kinds)
        if setting.hand is None:
            setting.hand = setting.stage()
        if name in ("recv", "send") and setting.hand.standing is None:
            raise CaseError("no link stands")
        try:
            came = call(setting.hand, *values)
        except (DiskFault, LinkFault):
            came = "fault"
        return ["%s %s" % (name, came)]
    return verb


def done(call):
    """A call that answers nothing."""
    def made(stage, *values):
        call(stage, *values)
        return "ok"
    return made


def end_by_hand(setting, words):
    setting.arguments(words)
    stage = setting.hand or setting.stage()
    setting.hand = None
    return setting.ended(stage)


VERBS = {
    "book": set_book, "link": set_link, "door": set_door, "upstream": set_upstream, "clock": set_clock, "fail": set_fail,
    "beside": set_beside, "save": set_saved, "limits": set_limits,
    "run": do_run, "proxy": over_upstream("proxy", run_proxy), "at_door": over_upstream("at_door", run_at_door),
    "serve": do_serve, "desk": do_desk, "found": do_found, "goods": do_goods, "price": do_price,
    "licence": do_licence, "mint": do_mint, "coming": do_coming, "account": do_account,
    "deposit": paying("deposit", DEPOSIT), "withdraw": paying("withdraw", WITHDRAW), "licensed": do_licensed,
    "stock": do_stock, "upgrade": do_upgrade, "upgraded": do_upgraded, "switch": switching("switch", VENDOR),
    "switched": switching("switched", BROKER), "replay": do_replay, "heads": do_heads, "whole": do_whole, "crash": do_crash,
    "once": do_once, "places": do_places, "answer": do_answer, "lawful": do_lawful,
    "write": by_hand("write", done(Stage.write), number, data), "cut": by_hand("cut", done(Stage.cut), number),
    "sync": by_hand("sync", done(Stage.sync)), "size": by_hand("size", Stage.size),
    "read": by_hand("read", lambda stage, at, length: shown(stage.read(at, length)), number, number),
    "take": by_hand("take", lambda stage: "yes" if stage.next_link() else "no"),
    "recv": by_hand("recv", lambda stage, length: shown(stage.recv(length)), number),
    "send": by_hand("send", Stage.send, data), "hang": by_hand("hang", done(Stage.end_link)),
    "say": by_hand("say", done(Stage.say), data), "now": by_hand("now", Stage.now), "stage": end_by_hand,
}
