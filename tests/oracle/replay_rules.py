#!/usr/bin/env python3
"""What venue-replay does, in plain Python: the state of a journal, from its newest snapshot on or as a whole, whether its
snapshots are true, and an old journal carried over. It shares nothing with the venue's own code.

    tests/oracle/replay_rules.py JOURNAL book|Cn|snapshot|check SYMBOL...
    tests/oracle/replay_rules.py JOURNAL carry NEW

It takes the words of venue-replay, and prints what that has to print; tests import it.
"""
import os
import re
import sys
from collections.abc import MutableMapping
from typing import NamedTuple

ROOT = os.path.dirname(os.path.dirname(os.path.dirname(os.path.abspath(__file__))))
sys.path[:0] = [os.path.join(ROOT, "tests"), os.path.join(ROOT, "dev")]

import with_scripts  # (in front of what stands there, and of what an older Python can't read)
from gikvand import journals
from gikvand.journals import Damaged, Entry, Journal, NotAJournal, Snapshot
from oracle import snapshot_rules
from oracle.book_rules import Book, Order, Report, shown
from oracle.order_rules import SYMBOL
from oracle.snapshot_rules import BadSnapshot

USAGE = "usage: venue-replay JOURNAL book|Cn|snapshot|check SYMBOL... or venue-replay JOURNAL carry NEW"
WRONG_WORDS: list[list[str]] = [
    [], ["J"], ["J", "book"], ["J", "check"], ["J", "snapshot"], ["J", "C1"], ["", "book", "ABC"],
    ["J", "", "ABC"], ["J", "C", "ABC"], ["J", "C0", "ABC"], ["J", "C9", "ABC"], ["J", "C01", "ABC"],
    ["J", "c1", "ABC"], ["J", "Check", "ABC"], ["J", "orders", "ABC"], ["J", "carry"], ["J", "carry", ""],
    ["J", "carry", "NEW", "ABC"], ["", "carry", "NEW"], ["J", "check", "abc"], ["J", "snapshot", "ABC", "ABC"],
    ["J", "book", "ABCDEFGHI"], ["J", "check", *"ABCDEFGHI"], ["J", "C1", ""]]
CLIENT = re.compile("C[1-8]")
MOST_SYMBOLS = 8
CARRIED_BLOCK = 4096
DEVICE, DAMAGED, NOT_A_JOURNAL, BAD_VERSION = 41, 42, 43, 45

Symbols = tuple[str, ...]


class Refused(Exception):
    """The line on standard error of a program that ends with status 1."""


class Outcome(NamedTuple):
    """How a program ended, and what it wrote to standard output and standard error."""
    status: int
    out: str
    err: str


def fault(number: int, offset: int | None = None) -> Refused:
    where = "" if offset is None else f" at {offset}"
    return Refused(f"venue-replay: journal fault {number}{where}")


def are_symbols(words: list[str]) -> bool:
    """Whether these words can be a venue's table of symbols."""
    spelled = all(SYMBOL.fullmatch(it.encode()) for it in words)
    return spelled and 1 <= len(words) <= MOST_SYMBOLS and len(set(words)) == len(words)


def line_of(order: Order) -> str:
    """An order of the book, as it is printed."""
    symbol, side = order.symbol.decode(), order.side.decode()
    return f"{symbol} {side} {order.price} {order.left} {order.number} C{order.client} {order.name}"


def said(report: Report) -> str:
    """A report, as it is printed."""
    return f"35={report.kind}|52={shown(report.when)}|{shown(report.body)}"


def counts(book: Book) -> str:
    return f"commands {book.commands} outputs {book.outputs}"


class Replayer:
    """The program over files, each a name and its bytes."""

    def __init__(self, files: MutableMapping[str, bytes]) -> None:
        self.files = files

    def run(self, words: list[str]) -> Outcome:
        """Runs the program with these words."""
        try:
            return Outcome(0, "".join(f"{line}\n" for line in self.lines(words)), "")
        except Refused as why:
            return Outcome(1, "", f"{why}\n")

    def lines(self, words: list[str]) -> list[str]:
        """The lines that it prints."""
        name, word, *rest = [*words, "", ""][:max(len(words), 2)]
        if name and word == "carry" and len(rest) == 1 and rest[0]:
            return self.carry(name, rest[0])
        jobs = {"book": self.book, "snapshot": self.add_snapshot, "check": self.check_snapshots}
        job = self.reports if CLIENT.fullmatch(word) else jobs.get(word)
        if not name or job is None or not are_symbols(rest):
            raise Refused(USAGE)
        return job(name, word, tuple(rest))

    def contents(self, name: str) -> bytes:
        """The bytes of a file that has to be there."""
        if name not in self.files:
            raise fault(DEVICE)
        return self.files[name]

    def opened(self, name: str) -> Journal:
        """The journal in a file that has to be there."""
        try:
            return journals.read(self.contents(name))
        except NotAJournal:
            raise fault(NOT_A_JOURNAL) from None
        except Damaged as why:
            raise fault(DAMAGED, why.offset) from None

    def version_of(self, data: bytes) -> int:
        """The version of a journal by its header."""
        try:
            return journals.begun(data).version
        except NotAJournal:
            raise fault(NOT_A_JOURNAL) from None

    def book(self, name: str, _word: str, symbols: Symbols) -> list[str]:
        """What rests, by the newest snapshot and what came after it."""
        book = self.replay(self.opened(name), symbols)
        return [*map(line_of, book.listed()), counts(book)]

    def reports(self, name: str, word: str, symbols: Symbols) -> list[str]:
        """All that a client was to be told."""
        book, told = self.replay_whole(self.opened(name), symbols)
        return [*(said(it) for it in told if f"C{it.to}" == word), counts(book)]

    def add_snapshot(self, name: str, _word: str, symbols: Symbols) -> list[str]:
        """Adds a snapshot of the state behind all entries."""
        journal = self.opened(name)
        book, _ = self.replay_whole(journal, symbols)
        if journal.version < journals.WITH_SNAPSHOTS:
            raise fault(BAD_VERSION)
        block = journals.snapshot_block(self.snapshot(book))
        self.files[name] = journals.added(self.files[name], journal.gate, block)
        return [f"snapshot at {journal.gate}"]

    def check_snapshots(self, name: str, _word: str, symbols: Symbols) -> list[str]:
        """Says whether all snapshots are true."""
        false = self.check(self.opened(name), symbols)
        if false is not None:
            raise Refused(f"venue-replay: false snapshot at {false}")
        return ["snapshots true"]

    def carry(self, name: str, new: str) -> list[str]:
        """Carries an old journal over to a new file. Its header alone says that it isn't old, whatever follows."""
        data = self.contents(name)
        if new in self.files:
            raise Refused("venue-replay: NEW exists")
        if self.version_of(data) >= journals.WITH_SNAPSHOTS:
            raise fault(BAD_VERSION)
        journal = self.opened(name)
        self.files[new] = self.carried(journal)
        return [f"carried {len(journal.entries)} commands"]

    def snapshot(self, book: Book) -> bytes:
        return snapshot_rules.snapshot(book)

    def restore(self, it: Snapshot, journal: Journal, symbols: Symbols) -> Book:
        """The book of a snapshot. One that is none damages the journal at its block."""
        try:
            return snapshot_rules.restore(it.data, symbols, journal.cut)
        except BadSnapshot:
            raise fault(DAMAGED, it.offset) from None

    def apply_all(self, book: Book, entries: list[Entry]) -> list[Report]:
        """Lets a book work on these entries: the reports."""
        return [report for it in entries for report in book.take(it.gateway, it.message)]

    def replay_whole(self, journal: Journal, symbols: Symbols) -> tuple[Book, list[Report]]:
        """The book of all entries, and all reports, whatever the snapshots say."""
        book = Book(symbols, journal.cut)
        return book, self.apply_all(book, journal.entries)

    def newest(self, journal: Journal) -> Snapshot | None:
        return journal.snapshots[-1] if journal.snapshots else None

    def entries_behind(self, journal: Journal, it: Snapshot) -> list[Entry]:
        return journal.entries[it.before:]

    def replay(self, journal: Journal, symbols: Symbols) -> Book:
        """The book of the newest snapshot and the entries behind it, or of all entries where there is none."""
        newest = self.newest(journal)
        if newest is None:
            return self.replay_whole(journal, symbols)[0]
        book = self.restore(newest, journal, symbols)
        self.apply_all(book, self.entries_behind(journal, newest))
        return book

    def check(self, journal: Journal, symbols: Symbols) -> int | None:
        """The offset of the first snapshot that isn't that of the entries before it, or None."""
        book, done = Book(symbols, journal.cut), 0
        for it in journal.snapshots:
            self.apply_all(book, journal.entries[done:it.before])
            done = it.before
            if it.data != self.snapshot(book):
                return it.offset
        return None

    def carried(self, journal: Journal) -> bytes:
        """The entries of an old journal in one of version 3: to its entries market orders mean what they meant there."""
        cut = len(journal.entries) if journal.version == 1 else 0
        blocks = journals.in_blocks(journals.WITH_SNAPSHOTS, journal.entries, CARRIED_BLOCK)
        return journals.header(journals.WITH_SNAPSHOTS, cut) + blocks + journals.CLOSED


def stored(words: list[str]) -> dict[str, bytes]:
    """The files that these words name and that are there."""
    found = {}
    for name in words[:1] + words[2:3] * (words[1:2] == ["carry"]):
        if os.path.isfile(name):
            with open(name, "rb") as file:
                found[name] = file.read()
    return found


def main() -> None:
    if set(sys.argv[1:]) & {"-h", "--help"}:
        sys.exit(print(__doc__.strip()))
    before = stored(sys.argv[1:])
    files = dict(before)
    outcome = Replayer(files).run(sys.argv[1:])
    for name in files:
        if files[name] != before.get(name):
            with open(name, "wb") as file:
                file.write(files[name])
    sys.stdout.write(outcome.out)
    sys.stderr.write(outcome.err)
    sys.exit(outcome.status)


if __name__ == "__main__":
    main()
