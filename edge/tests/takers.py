"""Members who ask for the market: what they ask for, and the books that the answers lead to, beside those of the journal."""
import subprocess
import time
from collections.abc import Callable, Sequence
from typing import Any, TypeVar

from edges import EVENTS, JOURNAL, PATIENCE, SYMBOLS, RanOut, Trouble, replay
from engines import Engine
from gikvand.fix import value
from gikvand.words import sure

ONCE, ON, OFF = 0, 1, 2      # SubscriptionRequestType (263).
WHOLE, CHANGES = 0, 1        # MDUpdateType (265).
BID, OFFER, TRADE = "0", "1", "2"
SIDES = {"1": BID, "2": OFFER}
NEW, CHANGED, GONE = "0", "1", "2"
K = TypeVar("K", bound="Taker")
Book = dict[tuple[str, str], tuple[int, int]]  # By side and price the quantity and the count of the orders.
Trade = tuple[str, int]  # Its price, and its quantity.

SHOWN = 2000  # Letters of what is wrong.
STEPS = {"ABC": (100, 2), "XYZ": (4, 2)}  # Steps of a price in one, and its decimals.


def asks(name: str, kind: int = ON, depth: int = 0, update: int | None = CHANGES, entries: str = "012",
         symbols: Sequence[str] = tuple(SYMBOLS), more: str = "") -> str:
    """The body of a request for the market."""
    return (f"262={name}|263={kind}|264={depth}|{'' if update is None else f'265={update}|'}{more}"
            f"267={len(entries)}|{''.join(f'269={it}|' for it in entries)}"
            f"146={len(symbols)}|{''.join(f'55={it}|' for it in symbols)}")


def pairs_of(text: str) -> list[tuple[str, str]]:
    """The fields of a message, in their order."""
    return [(tag, it) for tag, it in (field.split("=", 1) for field in text.strip("|").split("|"))]


def entries_of(text: str) -> list[dict[str, str]]:
    """The entries of a W or X, each by its tags, with its symbol."""
    first = "279" if value(text, "35") == "X" else "269"
    symbol = value(text, "55") or ""
    entries: list[dict[str, str]] = []
    for tag, it in pairs_of(text):
        if tag == first:
            entries.append({"55": symbol})
        if entries and tag != "10":
            entries[-1][tag] = it
    if len(entries) != int(sure(value(text, "268"))):
        raise Trouble(f"{len(entries)} entries in {text}")
    return entries


def picked(one: Engine, **wanted: int | str) -> str:
    """Waits for a message of an engine whose fields, by tag, are these, and takes that one alone."""
    end = time.monotonic() + PATIENCE
    while time.monotonic() < end:
        for at, it in enumerate(one.reports):
            if all(value(it, tag[1:]) == str(wants) for tag, wants in wanted.items()):
                return one.reports.pop(at)
        if not one.pump(end - time.monotonic()):
            break
    raise (RanOut if one.socket else Trouble)(f"{one.sender}: no message of {wanted}; there were {one.reports[-4:]}, {one.admin[-2:]}")


class Taker:
    """A member who takes the market by one request, and the books that come of it."""

    def __init__(self, engine: Engine, name: str = "m", entries: str = "012", symbols: Sequence[str] = tuple(SYMBOLS), **more: Any) -> None:
        self.engine, self.name, self.symbols, self.entries = engine, name, symbols, entries
        self.words = asks(name, entries=entries, symbols=symbols, **more)
        self.books: dict[str, Book] = {}
        self.trades: dict[str, Trade] = {}
        self.count = {"W": 0, "X": 0}
        if engine.socket:
            self.begin()

    def begin(self) -> None:
        """Asks, and knows nothing yet."""
        self.books, self.trades = {}, {}
        self.engine.send("V", self.words)

    def come_back(self) -> None:
        """Logs on anew, and asks anew."""
        self.engine.log_on()
        self.begin()

    def take(self) -> None:
        """Takes in what has come for this request."""
        left = []
        for text in self.engine.reports:
            kind = value(text, "35")
            if kind not in ("W", "X") or value(text, "262") != self.name:
                left.append(text)
                continue
            self.count[kind] += 1
            if kind == "W":
                self.books[sure(value(text, "55"))] = {}
            for it in entries_of(text):
                self.enter(kind, it, text)
            self.need_uncrossed(text)
        self.engine.reports[:] = left

    def need_uncrossed(self, text: str) -> None:
        """No bid of a book that is told stands at an offer or above it: behind each command all that could trade has."""
        for symbol, book in self.books.items():
            bids, offers = ([float(price) for kind, price in book if kind == side] for side in (BID, OFFER))
            if bids and offers and max(bids) >= min(offers):
                raise Trouble(f"{symbol} is crossed, {max(bids)} at {min(offers)}, behind {text}"[:SHOWN])

    def enter(self, kind: str, it: dict[str, str], text: str) -> None:
        book, side, price = self.books.get(it["55"]), it["269"], it["270"]
        if side not in self.entries or book is None:
            raise Trouble(f"what wasn't asked for, or a change of nothing: {text}")
        if side == TRADE:
            self.trades[it["55"]] = (price, int(it["271"]))
            return
        action = it.get("279", NEW)
        if ((side, price) in book) != (action != NEW):
            raise Trouble(f"the action {action} at {price}, where the book has {sorted(book)}: {text}")
        if action == GONE:
            del book[side, price]
        else:
            book[side, price] = int(it["271"]), int(it["346"])

    def until(self: K, holds: Callable[[], object], what: str = "the state") -> K:
        """Waits until this holds of what has come."""
        end = time.monotonic() + PATIENCE
        while True:
            self.take()
            if holds():
                return self
            if time.monotonic() > end:
                raise RanOut(f"{self.engine.sender}: {what} doesn't come: {self.books} {self.trades}"[:SHOWN])
            self.engine.pump(0.05)

    def has(self: K, journal: str = JOURNAL, depth: int = 0) -> K:
        """Waits until its books, and its last trades, are those of the journal."""
        wanted = books_of(journal, depth, self.entries)
        wanted = {it: wanted[it] for it in self.symbols}
        trades = {symbol: it for symbol, it in trades_of(journal).items() if symbol in self.symbols and TRADE in self.entries}
        return self.until(lambda: (self.books, self.trades) == (wanted, trades), f"the book of {journal}, {wanted}, {trades}")


def books_of(journal: str = JOURNAL, depth: int = 0, entries: str = "01") -> dict[str, Book]:
    """The books that venue-replay has, of the prices and sides that a taker asks for."""
    books: dict[str, Book] = {symbol: {} for symbol in SYMBOLS}
    for line in replay(journal, "book", tuple(SYMBOLS))[0]:
        symbol, side, price, left = line.split()[:4]
        steps, decimals = STEPS[symbol]
        key = SIDES[side], f"{int(price) / steps:.{decimals}f}"
        quantity, orders = books[symbol].get(key, (0, 0))
        books[symbol][key] = quantity + int(left), orders + 1
    return {symbol: cut(book, depth, entries) for symbol, book in books.items()}


def trades_of(journal: str = JOURNAL) -> dict[str, Trade]:
    """The last trade of each symbol that has one: its price and its quantity."""
    trades: dict[str, Trade] = {}
    lines = subprocess.run([EVENTS, journal, "once", *SYMBOLS], capture_output=True, text=True, check=True).stdout
    for line in lines.splitlines():
        if line.startswith("output ") and "|150=F|" in line:
            it = dict(pairs_of(line.split(" ", 3)[3]))
            steps, decimals = STEPS[it["55"]]
            trades[it["55"]] = f"{int(it['31']) / steps:.{decimals}f}", int(it["32"])
    return trades


def cut(book: Book, depth: int, entries: str) -> Book:
    """The best prices of each side that is asked for."""
    kept: Book = {}
    for side in (it for it in (BID, OFFER) if it in entries):
        prices = sorted((key for key in book if key[0] == side), key=lambda key: float(key[1]), reverse=side == BID)
        kept |= {key: book[key] for key in prices[:depth or None]}
    return kept
