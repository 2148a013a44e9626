"""The rules for snapshots of a book in plain Python: the bytes of one, and the book that such bytes spell. Not a test: tests
import it. All numbers are big-endian: how many messages and outputs there were, the greatest ClOrdID of C1 to C8, how many
orders rest, and 47 bytes for each of these, by symbol in the order of the table, buys before sells, each ahead of the next."""
import struct

from gikvand.journals import MEMBERS, MOST_ENTRIES, ROW, SNAPSHOT_HEAD
from oracle.book_rules import MOST_RESTING, Book, Order, turn_of
from oracle.order_rules import NAMES, UNITS

HEAD = struct.Struct(">QQ8QH")
ORDER = struct.Struct(">QBQBBIIIQQ")
SIDES = {b"1": 1, b"2": 2}
OF_SIDES = {number: side for side, number in SIDES.items()}
MOST_OUTPUTS = 8194       # Of one message.
HIGHEST = UNITS[-1]       # Of a price.


class BadSnapshot(Exception):
    """The bytes are no snapshot of any book with these symbols: 61."""


def row(book: Book, order: Order) -> bytes:
    """The bytes of an order that rests."""
    return ORDER.pack(order.number, order.client, order.name, book.symbols.index(order.symbol), SIDES[order.side],
                      order.price, order.total, order.cum, order.paid, order.stamp)


def snapshot(book: Book) -> bytes:
    """The bytes of a snapshot of the book as it stands."""
    listed = book.listed()
    greatest = (book.greatest[it] for it in MEMBERS)
    return HEAD.pack(book.commands, book.outputs, *greatest, len(listed)) + b"".join(row(book, it) for it in listed)


def need(holds: bool, what: str) -> None:
    """Refuses the bytes unless this holds of them."""
    if not holds:
        raise BadSnapshot(what)


def order_of(data: bytes, symbols: list[bytes]) -> Order:
    """The order that 47 bytes spell."""
    number, client, name, symbol, side, price, total, cum, paid, stamp = ORDER.unpack(data)
    need(symbol < len(symbols), "symbol")
    need(side in OF_SIDES, "side")
    need(client in MEMBERS, "client")
    return Order(number, client, name, symbols[symbol], OF_SIDES[side], price, total, cum, paid, stamp)


def check_order(book: Book, order: Order) -> None:
    """Refuses an order that can't rest in a book of these counts and greatest names."""
    need(order.name in NAMES, "name")
    need(order.price in UNITS, "price")
    need(order.total in UNITS, "total")
    need(order.cum < order.total, "filled")
    need(order.paid <= order.cum * HIGHEST, "paid")
    need(1 <= order.number <= book.commands, "number")
    need(order.stamp < book.commands, "stamp")
    need(order.name <= book.greatest[order.client], "name above the greatest")


def check_counts(book: Book) -> None:
    """Refuses counts that no history has, and a greatest name that is none."""
    need(book.commands <= MOST_ENTRIES, "commands")
    need(book.outputs <= MOST_OUTPUTS * book.commands, "outputs")
    need(all(it <= NAMES[-1] for it in book.greatest.values()), "greatest name")


def check_list(book: Book) -> None:
    """Refuses a list in which an order isn't ahead of the next, or two orders of a member have one name."""
    places = [(book.symbols.index(it.symbol), it.side, turn_of(it)) for it in book.resting]
    need(all(one < two for one, two in zip(places, places[1:])), "order of the list")
    need(len({(it.client, it.name) for it in book.resting}) == len(book.resting), "name twice")


def restore(data: bytes, symbols: tuple[str, ...], cut: int) -> Book:
    """The book that the bytes spell."""
    need(len(data) >= SNAPSHOT_HEAD, "length")
    book = Book(symbols, cut)
    book.commands, book.outputs, *greatest, resting = HEAD.unpack_from(data)
    book.greatest = dict(zip(MEMBERS, greatest))
    need(len(data) == SNAPSHOT_HEAD + ROW * resting, "length")
    need(resting <= MOST_RESTING, "orders")
    check_counts(book)
    rows = (data[at:at + ROW] for at in range(SNAPSHOT_HEAD, len(data), ROW))
    book.resting = [order_of(it, book.symbols) for it in rows]
    for it in book.resting:
        check_order(book, it)
    check_list(book)
    return book
