#!/usr/bin/env python3
"""What venue-events does, in plain Python, by docs/EVENTS.md and docs/PROFILE.md: what each command of a journal did. It
shares nothing with the venue's own code.

    tests/oracle/events_rules.py JOURNAL once|follow [--after N] SYMBOL...

It takes the words of venue-events, and prints what that has to print; tests import it. It looks once, whichever word it is.
"""
import os
import re
import sys
from typing import NamedTuple

ROOT = os.path.dirname(os.path.dirname(os.path.dirname(os.path.abspath(__file__))))
sys.path[:0] = [os.path.join(ROOT, "tests"), os.path.join(ROOT, "dev")]

import with_scripts  # (in front of what stands there, and of what an older Python can't read)
from gikvand import journals
from gikvand.journals import Damaged, Entry, NotAJournal
from gikvand.words import sure
from oracle.book_rules import Book, Order, turn_of
from oracle.order_rules import asks_for_market, order_fault, read_order
from oracle.replay_rules import Outcome, are_symbols, said

USAGE = "usage: venue-events JOURNAL once|follow [--after N] SYMBOL..."
WRONG_WORDS: list[list[str]] = [
    [], ["J"], ["J", "once"], ["J", "ABC"], ["", "once", "ABC"], ["J", "", "ABC"], ["J", "Once", "ABC"],
    ["J", "once", "abc"], ["J", "once", "ABC", "ABC"], ["J", "once", *"ABCDEFGHI"], ["J", "once", ""],
    ["J", "once", "ABCDEFGHI"], ["J", "once", "--after"], ["J", "once", "--after", "1"],
    ["J", "once", "--after", "ABC"], ["J", "once", "--after", "-1", "ABC"], ["J", "once", "--after", "+1", "ABC"],
    ["J", "once", "--after", "01", "ABC"], ["J", "once", "--after", "0", "ABC"], ["J", "once", "--after", "", "ABC"],
    ["J", "once", "--after", "1x", "ABC"], ["J", "once", "--after", str(2 ** 64), "ABC"],
    ["J", "once", "--after=1", "ABC"], ["J", "once", "ABC", "--after", "1"], ["J", "--after", "1", "once", "ABC"],
    ["J", "once", "--after", "1", "--after", "1", "ABC"], ["J", "follow"], ["J", "Follow", "ABC"],
    ["J", "follow", "once", "abc"], ["J", "once|follow", "ABC"], ["J", "follow", "--after", "0", "ABC"]]
NUMBER = re.compile(r"[1-9]\d*")

Level = tuple[bytes, bytes, int]


class Asked(NamedTuple):
    """What the words ask for."""
    journal: str
    after: int
    symbols: tuple[str, ...]


def read_words(words: list[str]) -> Asked | None:
    """What these words ask for, or nothing where they are wrong."""
    if len(words) < 3 or not words[0] or words[1] not in ("once", "follow"):
        return None
    journal, _, *rest = words
    after = 0
    if rest[0] == "--after" and len(rest) > 1:
        _, number, *rest = rest
        if not NUMBER.fullmatch(number) or int(number) >= 2 ** 64:
            return None
        after = int(number)
    return Asked(journal, after, tuple(rest)) if are_symbols(rest) else None


def level_of(order: Order) -> Level:
    return order.symbol, order.side, sure(order.price)


def in_turn(levels: list[Level]) -> list[Level]:
    """Each once where it stands several times in a row."""
    return [it for at, it in enumerate(levels) if not at or it != levels[at - 1]]


class Teller:
    """A book, and the lines of what each message did to it."""

    def __init__(self, symbols: tuple[str, ...], cut: int) -> None:
        self.book = Book(symbols, cut)

    def asked(self, message: bytes) -> tuple[str, str, dict[int, bytes]]:
        """Type and symbol of a message, and its fields where it has no fault."""
        found = read_order(message)
        if found is None:
            return "-", "-", {}
        kind, _, fields = found
        is_market = self.book.commands >= self.book.cut and asks_for_market(kind, fields)
        if order_fault(kind, fields, is_market):
            return kind.decode(), "-", {}
        told = dict(fields)
        return kind.decode(), told[55].decode(), told

    def resting(self) -> dict[int, tuple[Order, Level, int, tuple[int, int], int]]:
        """What rests: each order with its level, what is left, its turn, and its name."""
        return {id(it): (it, level_of(it), it.left, turn_of(it), it.name) for it in self.book.resting}

    def lines(self, entry: Entry) -> list[str]:
        """What this message did."""
        kind, symbol, told = self.asked(entry.message)
        was, sequence, place = self.resting(), self.book.commands, self.book.outputs
        reports = self.book.take(entry.gateway, entry.message)
        first = f"command {sequence} C{entry.gateway} {kind} {symbol} -"
        outputs = [f"output {place + at} C{it.to} {said(it)}" for at, it in enumerate(reports)]
        levels = [self.level_line(it) for it in in_turn(self.touched(was, told, entry.gateway, sequence))]
        return [first, *outputs, *levels]

    def touched(self, was: dict[int, tuple[Order, Level, int, tuple[int, int], int]], told: dict[int, bytes], client: int,
                sequence: int) -> list[Level]:
        """The levels that the message changed."""
        now = {(it.client, it.name) for it in self.book.resting}
        name = (client, int(told.get(41, 0)))
        left = [level for it, level, _, _, its in was.values() if (it.client, its) == name and name not in now]
        filled = sorted((turn, level) for it, level, size, turn, its in was.values()
                        if (it.client, its) != name and it.left < size)
        came = [level_of(it) for it in self.book.resting if it.stamp == sequence]
        return [*left, *(level for _, level in filled), *came]

    def level_line(self, level: Level) -> str:
        """What rests there now."""
        there = [it.left for it in self.book.resting if level_of(it) == level]
        symbol, side, price = level
        return f"level {symbol.decode()} {side.decode()} {price} {sum(there)} {len(there)}"


def events_of(data: bytes, symbols: tuple[str, ...]) -> list[list[str]]:
    """The lines of each command of a journal. Of a damaged one it is those of the blocks in front of the damage."""
    try:
        journal = journals.read(data)
    except Damaged as why:
        journal = journals.read(data[:why.offset] + journals.CLOSED)
    teller = Teller(symbols, journal.cut)
    return [teller.lines(it) for it in journal.entries]


def fault_of(data: bytes) -> str:
    """The line of a journal that can't be read to its end."""
    try:
        journals.read(data)
    except NotAJournal:
        return "venue-events: journal fault 43"
    except Damaged as why:
        return f"venue-events: journal fault 42 at {why.offset}"
    return ""


def outcome(words: list[str], files: dict[str, bytes]) -> Outcome:
    """How the program ends on these files, and what it prints."""
    asked = read_words(words)
    if asked is None:
        return Outcome(1, "", f"{USAGE}\n")
    if asked.journal not in files:
        return Outcome(1, "", "venue-events: journal fault 41\n")
    data = files[asked.journal]
    fault = fault_of(data)
    told = [] if fault.endswith("43") else events_of(data, asked.symbols)
    lines = [line for event in told[asked.after:] for line in event]
    return Outcome(int(bool(fault)), "".join(f"{it}\n" for it in lines), f"{fault}\n" if fault else "")


def main() -> None:
    words = sys.argv[1:]
    files = {}
    if words and os.path.isfile(words[0]):
        with open(words[0], "rb") as file:
            files[words[0]] = file.read()
    status, out, err = outcome(words, files)
    sys.stdout.write(out)
    sys.stderr.write(err)
    sys.exit(status)


if __name__ == "__main__":
    main()
