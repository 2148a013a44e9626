"""Wrong rules for journals and snapshots, each of which a test that compares has to tell from the right ones. Not a test:
tests import it. A wrong rule is a function, a method or a constant of the right ones that is another one."""
from collections.abc import Callable
from contextlib import AbstractContextManager
from typing import NamedTuple
from unittest import mock

from gikvand import journals
from gikvand.journals import Entry, Journal, Snapshot
from oracle import book_rules, order_rules, replay_rules, snapshot_rules
from oracle.book_rules import Book, Order, shown
from oracle.replay_rules import Replayer, Symbols, counts, fault
from oracle.snapshot_rules import BadSnapshot

# That of lengths and that of too many commands aren't among them: no journal has such a snapshot.
CONDITIONS = ("orders", "outputs", "greatest name", "symbol", "side", "client", "name", "price", "total", "filled", "paid",
              "number", "stamp", "name above the greatest", "order of the list", "name twice")
WITHOUT = "a snapshot whatever its "  # So begins the name of the wrong rule without one of them.


class Wrong(NamedTuple):
    """What is another one, and where: the place's name in a module or a class."""
    where: object
    name: str
    other: object

    def put(self) -> AbstractContextManager:
        """While this context lasts the rules are wrong."""
        return mock.patch.object(self.where, self.name, self.other)


def without(condition: str) -> Wrong:
    """Bytes that only this condition refuses are taken for a snapshot."""
    def need(holds: bool, what: str) -> None:
        if not holds and what != condition:
            raise BadSnapshot(what)
    return Wrong(snapshot_rules, "need", need)


def names_of_orders_alone(book: Book) -> bytes:
    """A snapshot that leaves out the greatest ClOrdIDs of members without orders."""
    clients = {it.client for it in book.resting}
    other = Book(tuple(it.decode() for it in book.symbols), book.cut)
    other.resting, other.commands, other.outputs = book.resting, book.commands, book.outputs
    other.greatest = {it: name if it in clients else 0 for it, name in book.greatest.items()}
    return right_snapshot(other)


def in_order_of_coming(book: Book) -> list[Order]:
    return sorted(book.resting, key=lambda it: it.stamp)


def sells_first(book: Book) -> list[Order]:
    return sorted(book.resting, key=lambda it: (book.symbols.index(it.symbol), -it.side[0], *book_rules.turn_of(it)))


def last_entry_again(_self: Replayer, journal: Journal, it: Snapshot) -> list[Entry]:
    return journal.entries[max(0, it.before - 1):]


def first_entry_left_out(_self: Replayer, journal: Journal, it: Snapshot) -> list[Entry]:
    return journal.entries[it.before + 1:]


def no_snapshot(_self: Replayer, _journal: Journal) -> None:
    """A book for which snapshots count for nothing."""


def oldest(_self: Replayer, journal: Journal) -> Snapshot | None:
    return journal.snapshots[0] if journal.snapshots else None


def restored_or_whole(self: Replayer, it: Snapshot, journal: Journal, symbols: Symbols) -> Book:
    """A snapshot that is none is passed over, and the whole journal read."""
    try:
        return snapshot_rules.restore(it.data, symbols, journal.cut)
    except BadSnapshot:
        book = Book(symbols, journal.cut)
        self.apply_all(book, journal.entries[:it.before])
        return book


def refused_behind_it(_self: Replayer, it: Snapshot, journal: Journal, symbols: Symbols) -> Book:
    """The offset of a snapshot that is none is that of the gate behind it."""
    try:
        return snapshot_rules.restore(it.data, symbols, journal.cut)
    except BadSnapshot:
        raise fault(42, it.offset + journals.HEAD + 1 + len(it.data)) from None


def stamps_apart(book: Book) -> None:
    """No two orders may have one stamp, wherever they rest."""
    right_check_list(book)
    snapshot_rules.need(len({it.stamp for it in book.resting}) == len(book.resting), "stamp twice")


def numbers_apart(book: Book) -> None:
    """No two orders may have one OrderID."""
    right_check_list(book)
    snapshot_rules.need(len({it.number for it in book.resting}) == len(book.resting), "number twice")


def uncrossed(book: Book) -> None:
    """No buy may cross a sell."""
    right_check_list(book)
    snapshot_rules.need(not any(one.crosses(two) for one in book.resting for two in book.resting), "crossed")


def check_newest(self: Replayer, journal: Journal, symbols: Symbols) -> int | None:
    """Only the newest snapshot is compared."""
    if not journal.snapshots:
        return None
    book, newest = Book(symbols, journal.cut), journal.snapshots[-1]
    self.apply_all(book, journal.entries[:newest.before])
    return None if newest.data == self.snapshot(book) else newest.offset


def check_last_false(self: Replayer, journal: Journal, symbols: Symbols) -> int | None:
    """The last false snapshot is named, and not the first."""
    book, done, found = Book(symbols, journal.cut), 0, None
    for it in journal.snapshots:
        self.apply_all(book, journal.entries[done:it.before])
        done, found = it.before, found if it.data == self.snapshot(book) else it.offset
    return found


def check_books_alone(self: Replayer, journal: Journal, symbols: Symbols) -> int | None:
    """What is printed of the books is compared, and nothing else of the snapshots."""
    def seen(book: Book) -> list[str]:
        return [*map(replay_rules.line_of, book.listed()), counts(book)]

    for it in journal.snapshots:
        book = Book(symbols, journal.cut)
        self.apply_all(book, journal.entries[:it.before])
        try:
            if seen(snapshot_rules.restore(it.data, symbols, journal.cut)) != seen(book):
                return it.offset
        except BadSnapshot:
            return it.offset
    return None


def check_nothing(_self: Replayer, _journal: Journal, _symbols: Symbols) -> None:
    """All snapshots are true."""


def snapshot_of_replay(self: Replayer, name: str, _word: str, symbols: Symbols) -> list[str]:
    """A snapshot of the state that the newest snapshot leads to, true or not."""
    journal = self.opened(name)
    book = self.replay(journal, symbols)
    if journal.version < journals.WITH_SNAPSHOTS:
        raise fault(45)
    self.files[name] = journals.added(self.files[name], journal.gate, journals.snapshot_block(self.snapshot(book)))
    return [f"snapshot at {journal.gate}"]


def reports_of_replay(self: Replayer, name: str, word: str, symbols: Symbols) -> list[str]:
    """The counts behind the reports are those that the newest snapshot leads to."""
    journal = self.opened(name)
    _, told = self.replay_whole(journal, symbols)
    mine = (it for it in told if f"C{it.to}" == word)
    return [*(f"35={it.kind}|52={shown(it.when)}|{shown(it.body)}" for it in mine), counts(self.replay(journal, symbols))]


def carried(cut: int | None, size: int, version: int = 3) -> Callable[[Replayer, Journal], bytes]:
    """An old journal carried over with this cut, or so many below the right one, in blocks of this size."""
    def carry(_self: Replayer, journal: Journal) -> bytes:
        right = len(journal.entries) if journal.version == 1 else 0
        head = journals.header(version, max(0, right - 1) if cut is None else right if cut < 0 else cut)
        return head + journals.in_blocks(version, journal.entries, size) + journals.CLOSED
    return carry


def file_cut_off(data: bytes, gate: int, new: bytes) -> bytes:
    """A file that ends behind the new gate, whatever stood there."""
    return data[:gate] + new + journals.CLOSED


def any_shape(data: bytes, before: int) -> bool:
    """A snapshot has the right length, whatever number of entries it says."""
    return right_has_shape(data, int.from_bytes(data[:8], "big"))


def any_length(data: bytes, before: int) -> bool:
    return len(data) >= 82 and int.from_bytes(data[:8], "big") == before


def newest_first(order: Order) -> tuple[int, int]:
    return right_turn_of(order)[0], -order.stamp


right_check_list, right_has_shape = snapshot_rules.check_list, journals.has_shape
right_snapshot, right_turn_of = snapshot_rules.snapshot, book_rules.turn_of

WRONG = {
    **{f"{WITHOUT}{it}": without(it) for it in CONDITIONS},
    "a snapshot without the names of members without orders": Wrong(snapshot_rules, "snapshot", names_of_orders_alone),
    "a snapshot in the order of coming": Wrong(Book, "listed", in_order_of_coming),
    "sells before buys": Wrong(Book, "listed", sells_first),
    "the last entry before a snapshot applied again": Wrong(Replayer, "entries_behind", last_entry_again),
    "the first entry behind a snapshot left out": Wrong(Replayer, "entries_behind", first_entry_left_out),
    "snapshots passed over": Wrong(Replayer, "newest", no_snapshot),
    "the oldest snapshot": Wrong(Replayer, "newest", oldest),
    "a snapshot that is none passed over": Wrong(Replayer, "restore", restored_or_whole),
    "a snapshot that is none at another offset": Wrong(Replayer, "restore", refused_behind_it),
    "equal stamps refused": Wrong(snapshot_rules, "check_list", stamps_apart),
    "equal numbers refused": Wrong(snapshot_rules, "check_list", numbers_apart),
    "crossed books refused": Wrong(snapshot_rules, "check_list", uncrossed),
    "the newest snapshot alone checked": Wrong(Replayer, "check", check_newest),
    "the last false snapshot named": Wrong(Replayer, "check", check_last_false),
    "the printed books alone checked": Wrong(Replayer, "check", check_books_alone),
    "nothing checked": Wrong(Replayer, "check", check_nothing),
    "a snapshot of what a snapshot leads to": Wrong(Replayer, "add_snapshot", snapshot_of_replay),
    "reports counted from a snapshot on": Wrong(Replayer, "reports", reports_of_replay),
    "a carried journal with the cut 0": Wrong(Replayer, "carried", carried(0, 4096)),
    "a carried journal with the greatest cut": Wrong(Replayer, "carried", carried(2 ** 48, 4096)),
    "a carried journal with a cut too low": Wrong(Replayer, "carried", carried(None, 4096)),
    "a carried journal in blocks of 4,095": Wrong(Replayer, "carried", carried(-1, 4095)),
    "a carried journal of version 2": Wrong(Replayer, "carried", carried(-1, 4096, 2)),
    "a journal cut off behind a new block": Wrong(journals, "added", file_cut_off),
    "a snapshot of other entries": Wrong(journals, "has_shape", any_shape),
    "a snapshot of any length": Wrong(journals, "has_shape", any_length),
    "4,097 records in a block": Wrong(journals, "MOST_IN_A_BLOCK", 4097),
    "messages of 321 bytes": Wrong(journals, "LENGTHS", range(1, 322)),
    "messages of no bytes": Wrong(journals, "LENGTHS", range(321)),
    "a ninth gateway": Wrong(journals, "MEMBERS", range(1, 10)),
    "a greater cut": Wrong(journals, "MOST_ENTRIES", 2 ** 64),
    "market orders in old journals": Wrong(order_rules, "MARKET_NEEDED", order_rules.NEEDED[b"D"]),
    "no market orders": Wrong(book_rules, "asks_for_market", lambda _kind, _found: False),
    "the newest order first": Wrong(book_rules, "turn_of", newest_first),
}
