"""Journals that are chosen by chance, with the words that are to be tried on each. Not a test: tests import it."""
import random
import struct
from typing import NamedTuple

from gikvand import journals
from gikvand.journals import Entry
from gikvand.fix import sealed
from gikvand.words import sure
from oracle.book_rules import Book, Order, Report
from oracle.snapshot_rules import HEAD, MOST_OUTPUTS, ORDER, snapshot

TABLES = [("ABC",), ("ABC", "XYZ"), ("ABC", "XYZ"), ("B", "A", "X9")]
TIMES = ("20250102-09:30:00", "20250102-09:30:01", "99999999-99:99:99")
MOST_NAME = 10 ** 15 - 1
MILLION = 1_000_000
ROWS = journals.SNAPSHOT_HEAD      # Where a snapshot's rows begin.
HEADS = ("commands", "outputs", *(f"greatest {it}" for it in journals.MEMBERS), "resting")
FIELDS = ("number", "client", "name", "symbol", "side", "price", "total", "cum", "paid", "stamp")
MOST_OF_FIELD = {"Q": 2 ** 64, "I": 2 ** 32, "H": 2 ** 16, "B": 2 ** 8}
TOP = {name: MOST_OF_FIELD[form] for name, form in zip(HEADS + FIELDS, "QQQQQQQQQQH" "QBQBBIIIQQ")}
WRONG_BLOCKS: tuple[list[Entry], ...] = (
    [Entry(0, b"x")], [Entry(9, b"x")], [Entry(1, b"")], [Entry(1, b"x" * 321)], [Entry(1, b"x")] * 4097, [])
LONG = (4095, 4096, 4097, 8191, 8192, 8193, 9000)  # How many entries the few long journals have.


DEEP, MIDDLE = 3_000, 10_000  # How many orders come to rest in a deep book, and the price between its buys and its sells.


class Chosen(NamedTuple):
    """A journal's bytes, and the words that are run on it, one after the other. J is the journal, and N a new file."""
    data: bytes
    runs: list[list[str]]


def coded(client: int, kind: str, number: int, when: str, fields: list[tuple[int, object]]) -> bytes:
    """The message of these fields."""
    head = [(35, kind), (49, f"C{client}"), (56, "VENUE"), (34, number), (52, when)]
    return sealed("".join(f"{tag}={value}\x01" for tag, value in head + fields).encode("latin-1"))


class Orders:
    """Messages of members, and the book that they lead to, in which a cancel or a replace finds its order."""

    def __init__(self, chance: random.Random, symbols: tuple[str, ...], cut: int) -> None:
        self.chance, self.symbols, self.book = chance, symbols, Book(symbols, cut)
        self.members = chance.choice((1, 2, 2, 3, 8))

    def name(self, client: int) -> int:
        """A ClOrdID that is most likely the member's next."""
        step = self.chance.choice((1, 1, 1, 1, 1, 2, 9, 0, -1))
        greatest = self.book.greatest[client]
        return MOST_NAME if self.chance.random() < 0.003 else max(1, greatest + step)

    def new_order(self, client: int) -> list[tuple[int, object]]:
        chance = self.chance
        symbol = "QQQ" if chance.random() < 0.03 else chance.choice(self.symbols)
        quantity = chance.choice((1, 2, 5, 5, 10, 10, 100, MILLION))
        fields = [(11, self.name(client)), (55, symbol), (54, chance.choice("12")), (60, TIMES[0]), (38, quantity)]
        if chance.random() < 0.2:
            return fields + [(40, 1)] + [(59, chance.choice("034"))] * chance.randint(0, 1)
        price = chance.choice((1, 48, 49, 49, 50, 50, 50, 51, 51, 52, MILLION))
        return fields + [(40, 2), (44, price)] + [(59, chance.choice("034"))] * chance.choice((0, 0, 1))

    def request(self, kind: str) -> tuple[int, list[tuple[int, object]]]:
        """A cancel or a replace, and its member."""
        chance = self.chance
        if not self.book.resting or chance.random() < 0.1:
            client, was, symbol, side, price, total = chance.randint(1, self.members), 1, self.symbols[0], "1", 50, 10
        else:
            it = chance.choice(self.book.resting)
            client, was, symbol, side = it.client, it.name, it.symbol.decode(), it.side.decode()
            price, total = sure(it.price), max(1, it.total + chance.choice((0, 0, -1, -1, -4, 1, 5)))
        if chance.random() < 0.05:
            side = "21"[int(side) - 1]
        fields = [(41, was), (11, self.name(client)), (55, symbol), (54, side), (60, TIMES[0]), (38, min(total, MILLION))]
        if kind == "G":
            price = min(max(1, price + chance.choice((0, 0, 0, 1, -1, 2))), MILLION)
            fields += [(40, 2), (44, price)] + [(59, chance.choice("034"))] * (chance.random() < 0.1)
        return client, fields

    def spoiled(self, fields: list[tuple[int, object]]) -> list[tuple[int, object]]:
        """These fields with a fault."""
        chance = self.chance
        at = chance.randrange(len(fields))
        tag, value = fields[at]
        others: list[list[tuple[int, object]]] = [
            [], [(tag, value)] * 2, [(tag, 0)], [(tag, "x")], [(tag, "01")], [(tag, 10 ** 15)], [(58, "x" * 40)]]
        return fields[:at] + chance.choice(others) + fields[at + 1:]

    def no_order(self) -> bytes:
        """Bytes that are no message with an order."""
        chance, whole = self.chance, coded(1, "D", 2, TIMES[0], self.new_order(1))
        return chance.choice((chance.randbytes(chance.choice((1, 30, 320))), coded(1, "0", 2, TIMES[0], []), whole[:-1],
                              whole + b"8", coded(1, "D", 0, TIMES[0], self.new_order(1)),
                              coded(1, "D", 2, "20250102-09:30:0", self.new_order(1)), b"x" * 320))

    def message(self) -> Entry:
        """The next message. The book works on it."""
        chance, client = self.chance, self.chance.randint(1, self.members)
        kind = chance.choice("DDDDDDDFFGGG0")
        if kind == "0":
            it = Entry(client, self.no_order())
        else:
            client, fields = (client, self.new_order(client)) if kind == "D" else self.request(kind)
            if chance.random() < 0.05:
                fields = self.spoiled(fields)
            it = Entry(client, coded(client, kind, chance.choice((2, 999_999_999)), chance.choice(TIMES), fields))
        self.book.take(*it)
        return it


def inside(name: str, told: dict[str, int], row: dict[str, int]) -> list[int]:
    """Values of a field of a snapshot that may stand there: those at the bounds, and the neighbours of what stands there."""
    commands, now = told["commands"], {**told, **row}[name]
    found = {"outputs": [0, MOST_OUTPUTS * commands], "number": [1, commands], "client": [1, 8], "symbol": [0, 1],
             "side": [1, 2], "name": [1, MOST_NAME], "price": [1, MILLION], "stamp": [0, commands - 1]}
    if row:
        found |= {"total": [row["cum"] + 1, MILLION], "cum": [0, row["total"] - 1], "paid": [0, row["cum"] * MILLION]}
    return [*found.get(name, [0, MOST_NAME]), now - 1, now + 1]


def outside(name: str, told: dict[str, int], row: dict[str, int], other: dict[str, int]) -> list[int]:
    """Values that may not stand there, nearest to the bounds, and what stands in another row."""
    commands = told["commands"]
    found = {"commands": [commands + 1], "resting": [told["resting"] + 1], "outputs": [MOST_OUTPUTS * commands + 1],
             "number": [0, commands + 1], "client": [0, 9], "symbol": [2, 3, 255], "side": [0, 3], "price": [0, MILLION + 1],
             "stamp": [commands]}
    if row:
        greatest = told.get(f"greatest {row['client']}", MOST_NAME)
        found |= {"name": [0, 0, 0, MOST_NAME + 1, greatest + 1], "total": [0, row["cum"], MILLION + 1],
                  "cum": [row["total"], row["total"] + 1], "paid": [row["cum"] * MILLION + 1]}
    return found.get(name, [MOST_NAME + 1]) + ([other[name]] if name in other else [])


def with_a_field_changed(chance: random.Random, data: bytes) -> bytes:
    """A snapshot of which one field has another value, that is most likely round a bound."""
    told = dict(zip(HEADS, HEAD.unpack_from(data)))
    rows = [dict(zip(FIELDS, it)) for it in ORDER.iter_unpack(data[ROWS:])]
    row = chance.choice(rows) if rows and chance.random() < 0.85 else None
    changed = told if row is None else row
    name = chance.choice(tuple(changed))
    other = chance.choice([it for it in rows if it["client"] == row["client"]]) if row else {}
    values = outside(name, told, row or {}, other) if chance.random() < 0.6 else inside(name, told, row or {})
    changed[name] = chance.choice(values) % TOP[name]
    return HEAD.pack(*told.values()) + b"".join(ORDER.pack(*it.values()) for it in rows)


def with_other_rows(chance: random.Random, data: bytes) -> bytes:
    """A snapshot with a row less, a row twice, two rows exchanged, or two of one name, and with the number of its rows."""
    rows = [data[at:at + journals.ROW] for at in range(ROWS, len(data), journals.ROW)]
    if not rows:
        return data + b"\0"
    one, two = chance.randrange(len(rows)), chance.randrange(len(rows))
    form = chance.randrange(4)
    if form == 0:
        del rows[one]
    elif form == 1:
        rows.insert(two, rows[one])
    elif form == 2:
        rows[one], rows[two] = rows[two], rows[one]
    else:
        rows[two] = rows[two][:8] + rows[one][8:17] + rows[two][17:]
    return data[:80] + struct.pack(">H", len(rows)) + b"".join(rows)


def without_names(data: bytes) -> bytes:
    """A snapshot that leaves out the greatest ClOrdIDs of members without orders."""
    clients = {it[1] for it in ORDER.iter_unpack(data[ROWS:])}
    kept = (data[8 + 8 * it:16 + 8 * it] if it in clients else bytes(8) for it in journals.MEMBERS)
    return data[:16] + b"".join(kept) + data[80:]


def highest_buy(data: bytes) -> bytes:
    """A snapshot whose first order, where it buys, does so at the highest price, so that it may cross a sell that rests."""
    price = ROWS + 8 + 1 + 8 + 1 + 1
    return data[:price] + struct.pack(">I", MILLION) + data[price + 4:] if data[price - 1:price] == b"\1" else data + b"\0"


def changed(chance: random.Random, data: bytes, before: bytes) -> bytes:
    """A snapshot that isn't quite this one. `before` is an earlier one."""
    form = chance.choices("fbrnsec", (16, 2, 6, 1, 1, 1, 1))[0]
    if form == "f":
        return with_a_field_changed(chance, data)
    if form == "b":
        at = chance.randrange(len(data))
        return data[:at] + bytes([(data[at] + chance.choice((1, 255, 2, 128))) % 256]) + data[at + 1:]
    if form == "r":
        return with_other_rows(chance, data)
    if form == "n":
        return without_names(data)
    if form == "c":
        return highest_buy(data)
    if form == "s":
        return chance.choice((data[:-1], data + b"\0", b"", data[:82]))
    return data[:8] + before[8:]


def full_snapshot(chance: random.Random, commands: int) -> bytes:
    """A snapshot with as many orders as can rest, or one more: at prices of their own, and behind no matter what."""
    count = chance.choice((4096, 4097, 4097))
    rows = (ORDER.pack(1, 1, it + 1, 0, 2, it + 1, 10, 0, 0, 0) for it in range(count))
    return HEAD.pack(commands, commands, count, *[0] * 7, count) + b"".join(rows)


class Writer:
    """The bytes of a journal, as they grow."""

    def __init__(self, chance: random.Random, version: int, symbols: tuple[str, ...]) -> None:
        self.chance, self.version = chance, version
        cut = chance.choice((0, 0, 0, 1, 5, chance.randint(0, 30), 2 ** 48)) if version >= journals.WITH_SNAPSHOTS else 0
        self.data = journals.header(version, cut)
        self.orders = Orders(chance, symbols, journals.begun(self.data).cut)
        self.before = snapshot(self.orders.book)

    def add_entries(self, count: int) -> None:
        self.data += journals.block_of(self.version, [self.orders.message() for _ in range(count)])

    def add_void(self, count: int) -> None:
        """Adds so many entries that are no orders, in blocks of any size."""
        size = self.chance.choice((4096, 4096, 4095, 1000, 64))
        self.data += journals.in_blocks(self.version, [Entry(1, b"x")] * count, size)
        for _ in range(count):
            self.orders.book.take(1, b"x")

    def add_snapshot(self, share: float) -> None:
        """Adds a snapshot. This share of them isn't true."""
        book, true = self.orders.book, snapshot(self.orders.book)
        told = changed(self.chance, true, self.before) if self.chance.random() < share else true
        if book.commands and self.chance.random() < 0.012:
            told = full_snapshot(self.chance, book.commands)
        self.data += journals.snapshot_block(told)
        self.before = true

    def grow(self) -> None:
        """Adds blocks of entries, with snapshots between them where there can be any."""
        chance = self.chance
        if chance.random() < 0.008:
            self.add_void(chance.choice(LONG))
        has_snapshots = self.version >= journals.WITH_SNAPSHOTS
        share = chance.choice((0, 0.2, 0.5)) if has_snapshots else 0
        for _ in range(chance.choice((0, 1, 2, 3, 5, 8))):
            if chance.random() < share:
                self.add_snapshot(0.3)
            else:
                self.add_entries(chance.choice((1, 1, 1, 2, 3, 8)))
        if has_snapshots and chance.random() < 0.75:
            self.add_snapshot(0.85)
            for _ in range(chance.choice((0, 0, 1, 2))):
                self.add_entries(chance.choice((1, 2)))
        if chance.random() < 0.06:
            self.data += journals.block_of(self.version, chance.choice(WRONG_BLOCKS))


def damaged(chance: random.Random, data: bytes) -> bytes:
    """These bytes with one changed, or cut, most often in a header or near an end."""
    at = chance.choice((chance.randrange(len(data)), chance.randrange(min(40, len(data))), len(data) - 1))
    form = chance.randrange(4)
    if form == 0:
        return data[:at]
    if form == 1:
        return data[:at] + bytes([chance.randrange(256)]) + data[at + 1:]
    if form == 2:
        return data[:at] + bytes([data[at] ^ (1 << chance.randrange(8))]) + data[at + 1:]
    return data[:at] + chance.randbytes(chance.choice((1, 4))) + data[at:]


def other_table(chance: random.Random, symbols: tuple[str, ...]) -> tuple[str, ...]:
    """The journal's symbols, or seldom others."""
    return symbols if chance.random() < 0.93 else chance.choice(((*symbols, "NEW"), symbols[::-1], symbols[:1], ("XYZ",)))


def words(chance: random.Random, symbols: tuple[str, ...]) -> list[list[str]]:
    """What is run on a journal. Its snapshot comes late, and behind it what reads it; so does what was carried over."""
    client = f"C{chance.choice((1, 1, 1, 2, 2, 3, 8))}"
    first = [["J", "book", *symbols], ["J", client, *symbols], ["J", "check", *symbols], ["J", "carry", "N"],
             ["J", "snapshot", *symbols]]
    more = [[name, word, *symbols] for name in "JN" for word in ("book", "check", client, "snapshot")]
    return first + chance.sample(more, 2) + [["J", "carry", "N"]] * (chance.random() < 0.05)


def chosen(seed: str, number: int) -> Chosen:
    """The journal of this number."""
    chance = random.Random(f"{seed} {number}")
    symbols = chance.choice(TABLES)
    writer = Writer(chance, chance.choice((1, 2, 3, 3, 3, 3)), symbols)
    writer.grow()
    data = writer.data + chance.choice((journals.CLOSED, journals.CLOSED, b"\2", b"\0\1\0\0", b"\0" + chance.randbytes(400)))
    if chance.random() < 0.12:
        data = damaged(chance, data)
    return Chosen(data, words(chance, other_table(chance, symbols)))


class Deep(NamedTuple):
    """A journal with a deep book: its bytes, all reports of it, and the book at its end."""
    data: bytes
    told: list[Report]
    book: Book


def deep_price(chance: random.Random, side: str, trades: bool) -> int:
    """A price some ticks on the side's own side of the middle, or on the other one's where it is to trade."""
    return MIDDLE - 1 - chance.randrange(64) if (side == "1") != trades else MIDDLE + chance.randrange(64)


def deep_order(chance: random.Random, trades: bool) -> list[tuple[int, object]]:
    """A new order that rests, or one that trades: on any terms, one in four of these without a price."""
    side = chance.choice("12")
    fields = [(55, "ABC"), (54, side), (60, TIMES[0]), (38, chance.randint(1, 100))]
    if trades and chance.randrange(4) == 0:
        return fields + [(40, 1), (59, chance.choice("034"))]
    return fields + [(40, 2), (44, deep_price(chance, side, trades)), (59, chance.choice("034") if trades else 0)]


def deep_change(chance: random.Random, kind: str, order: Order) -> list[tuple[int, object]]:
    """A cancel of a resting order, or a replace: half of these keep its price, and one in eight is to trade."""
    side = order.side.decode()
    fields = [(55, "ABC"), (54, side), (60, TIMES[0]), (38, chance.randint(1, 100))]
    if kind == "F":
        return fields
    form = chance.randrange(8)
    return fields + [(40, 2), (44, order.price if form < 4 else deep_price(chance, side, form == 4))]


def deep_message(chance: random.Random, book: Book, is_full: bool) -> Entry:
    """Until the book is full a new order that rests; and then of a hundred some thirty rest, fifteen trade, twenty cancel
    and thirty-five replace."""
    number = chance.randrange(100) if is_full else 99
    kind = "F" if number < 20 else "G" if number < 55 else "D"
    order = chance.choice(book.resting) if kind != "D" else None
    client = order.client if order else chance.choice(journals.MEMBERS)
    fields = deep_change(chance, kind, order) if order else deep_order(chance, number < 70)
    names = [(41, order.name)] if order else []
    return Entry(client, coded(client, kind, 2, TIMES[0], names + [(11, book.greatest[client] + 1), *fields]))


def deep(seed: str, count: int) -> Deep:
    """A journal of so many messages, with snapshots in the midst of it and near its end."""
    chance, book = random.Random(f"{seed} deep"), Book()
    data, told, is_full = journals.header(journals.WITH_SNAPSHOTS), [], False
    for left in range(count, 0, -1):
        if left in (count // 4, 10):
            data += journals.snapshot_block(snapshot(book))
        is_full |= len(book.resting) >= DEEP
        entry = deep_message(chance, book, is_full)
        data += journals.block_of(journals.WITH_SNAPSHOTS, [entry])
        told += book.take(*entry)
    return Deep(data + journals.CLOSED, told, book)
