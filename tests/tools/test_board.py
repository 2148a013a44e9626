"""Tests of what `gikvand board` tells of a journal: what the page gets, beside what members heard and venue-replay
tells; and journals that change. How its page looks tests/test_board_page.py tries."""
import collections
import contextlib
import io
import json
import os
import subprocess
import time
from collections.abc import Callable
from unittest import mock

import pytest

from board_page import rows_heard, trades_heard
from days import each_version, made
from gikvand import board, events, journals, programs, tally
from gikvand.journals import Entry
from gikvand.fix import sealed
from made_journals import JOURNAL, contents, put, untimed, with_byte
from venues import PATIENCE, Trouble, message, order, replay, running

pytestmark = [pytest.mark.slow, pytest.mark.usefixtures("programs")]


class Followed(board.Board):
    """A board of the journal that lies here, which has caught up with it and ends with the test."""

    def __init__(self) -> None:
        super().__init__(JOURNAL, contents(f"{JOURNAL}.symbols").decode().split())
        running.append(self)
        self.turned(lambda it: it.has_caught_up or it.trouble)  # (its venue-events may have ended before it looks first)

    def kill(self) -> None:
        self.end()

    def turned(self, until: Callable[[board.Board], object]) -> "Followed":
        """The same, once it is so."""
        end = time.monotonic() + PATIENCE
        while not until(self):
            self.turn()
            time.sleep(0.005)
            if time.monotonic() > end:
                raise Trouble(f"it isn't so far within {PATIENCE} seconds: {self.told()}")
        return self


def followed(commands: int) -> Followed:
    """A board that has taken so many commands, all that the journal has."""
    return Followed().turned(lambda it: it.tally.commands >= commands)


class AtOnce:
    """The lines of a journal by venue-events that has run to its end, in the place of one that follows the journal."""

    def __init__(self, journal: str, symbols: list[str]) -> None:
        self.lines = told_once(*symbols)

    def come(self, seconds: float) -> list[str]:
        """Returns all lines at the first call, and none behind that."""
        lines, self.lines = self.lines, []
        return lines

    def end(self) -> None:
        """Does nothing: the program has ended."""


def shown(commands: int) -> tally.Json:
    """Returns what the page shows of the journal that lies here, which has so many commands."""
    with mock.patch.object(board, "Followed", AtOnce):
        return followed(commands).told()


def test_what_the_page_gets() -> None:
    """The counts, trades, members and depth of a day are those that its members heard of, and that venue-replay
    tells."""
    for it in each_version():
        lines, counts = replay(JOURNAL, "book", ("ABC", "XYZ"))
        told = shown(counts[0])
        assert ((told["commands"], told["outputs"]), told["resting"], told["bytes"], told["version"], told["trouble"]) == (
            counts, len(lines), len(it.data), it.version, "")
        assert told["members"] == rows_heard(it.heard, lines, journals.read(it.data).entries)
        trades = [(row["place"], symbol["name"], row["quantity"], row["price"], row["buyer"], row["seller"], row["by"])
                  for symbol in told["symbols"] for row in reversed(symbol["last"])]
        assert trades == trades_heard(it.heard)
        assert [(symbol["trades"], symbol["traded"]) for symbol in told["symbols"]] == (
            [(len(trades), sum(row[2] for row in trades)), (0, 0)])


def test_deep_books() -> None:
    """More levels than are shown, each with some orders; more trades than are shown; and a member who trades with
    itself."""
    names, entries = collections.Counter[int](), list[Entry]()
    def send(member: int, side: int, quantity: int, price: int, more: str = "") -> None:
        names[member] += 1
        body = order(names[member], side, quantity, price, more=more)
        entries.append(Entry(member, message(member, 1 + names[member], "D", body)))
    for at in range(14):
        for member in (1, 2, 1 + at % 3):
            send(member, 1, 10 + at, 100 - at)
            send(member, 2, 20 + at, 101 + 2 * at)
    for at in range(15):
        send(1 + at % 2, 1 + at % 2, 3, 200 if at % 2 == 0 else 1, "59=3|")
    put(JOURNAL, journals.header(3) + journals.in_blocks(3, entries, 7) + journals.CLOSED)
    put(f"{JOURNAL}.symbols", b"ABC\n")
    told = shown(len(entries))
    symbol, lines = told["symbols"][0], [line.split() for line in replay(JOURNAL, "book")[0]]
    assert told["commands"] == len(entries)
    for word, side, sign in (("buys", "1", -1), ("sells", "2", 1)):
        mine = [line for line in lines if line[1] == side]
        prices = sorted({int(line[2]) for line in mine}, key=lambda price: sign * price)
        levels = [[price, sum(int(line[3]) for line in own), len(own)] for price in prices
                  for own in [[line for line in mine if int(line[2]) == price]]]
        assert (word, json.loads(json.dumps(symbol[word]))) == (
            word, {"levels": levels[:10], "further": 4, "quantity": sum(level[1] for level in levels[10:])})
    assert (symbol["trades"], symbol["traded"], len(symbol["last"])) == (18, 45, 12)  # (three fill two orders each)
    assert [row["place"] for row in symbol["last"]] == sorted((row["place"] for row in symbol["last"]), reverse=True)
    assert sum(row["fills"] for row in told["members"]) == 36


@pytest.mark.soak
@pytest.mark.usefixtures("journal")
def test_programs_that_end() -> None:
    """A venue-events that ends keeps the page as it is, and what it said stands there; half a line counts once it is whole."""
    members = followed(commands_of(made(3).data)).told()["members"]
    first, *rest = [f"{line}\n".encode() for line in told_once("ABC", "XYZ")]
    put("lines", b"".join(rest))
    for how, said, status in (("exit 1", "events ended with 1", 2), ("echo of-old >&2; exit 3", "of-old", 2),
                              ("kill -KILL $$", "events ended with -9", 2), ("sleep 600", "", 0)):
        put("events", f"#!/bin/sh\nprintf '%s' '{first[:9].decode()}'; sleep 0.3; printf '%s\\n' '{first[9:-1].decode()}'\n"
                      f"cat lines; {how}\n".encode())
        os.chmod("events", 0o755)
        err = io.StringIO()
        with mock.patch.object(events, "EVENTS", os.path.abspath("events")), contextlib.redirect_stderr(err):
            it = followed(commands_of(made(3).data)).turned(lambda it: it.trouble or not said)
        trouble = f"the journal {JOURNAL} can't be read: {said} (" if said else ""
        assert (how, it.told()["trouble"][:len(trouble)], it.status(), it.told()["members"]) == (how, trouble, status, members)
        line = untimed(err.getvalue()) if said else err.getvalue()
        assert (how, line[:15 + len(trouble)]) == (how, f"gikvand board: {trouble}" if said else "")


def commands_of(data: bytes) -> int:
    return len(journals.read(data).entries)


def told_once(*symbols: str) -> list[str]:
    """What venue-events tells of the journal that lies here."""
    it = subprocess.run([programs.EVENTS, JOURNAL, "once", *symbols], capture_output=True, text=True, check=True)
    return it.stdout.splitlines()


def grow(data: bytes, gate: int) -> None:
    """The journal becomes these bytes as a venue adds to it: what stands behind this closed gate comes first."""
    with open(JOURNAL, "r+b") as file:
        file.seek(gate + 1)
        file.write(data[gate + 1:])
        file.flush()
        file.seek(gate)
        file.write(data[gate:gate + 1])


@pytest.mark.soak
def test_journals_that_change() -> None:
    """A journal that grows is followed. One that is cut, replaced, gone or damaged has a line, and the page keeps what
    it has."""
    data = made(3).data
    *_, start = made(3).starts
    put(f"{JOURNAL}.symbols", b"ABC XYZ\n")
    another = f"{JOURNAL} isn't the file any more that it was: another journal wants another start"
    damaged = f"the journal {JOURNAL} can't be read: venue-events: journal fault 42 at "
    cases = [(lambda: os.truncate(JOURNAL, 100), damaged, 8), (lambda: os.replace(put("other", data), JOURNAL), another, 8),
             (lambda: os.remove(JOURNAL), another, 8), (lambda: grow(data[:-9], start), f"{damaged}{start} (", 8),
             (lambda: grow(with_byte(data, start + 1, 255), start), f"{damaged}{start} (", 8), (lambda: grow(data, start), "", 9)]
    for change, line, commands in cases:
        put(JOURNAL, data[:start] + b"\0")
        it, err = followed(8), io.StringIO()
        assert it.told()["commands"] == 8
        change()
        with contextlib.redirect_stderr(err):
            it.turned(lambda it: it.trouble or it.tally.commands > 8).turn()
        told = it.told()
        assert (told["trouble"][:len(line)], bool(told["trouble"]), told["commands"]) == (line, bool(line), commands)
        assert (it.status(), err.getvalue().count("\n")) == (2 if line else 0, int(bool(line)))
        assert (untimed(err.getvalue())[:len(line) + 15] if line else err.getvalue()) == (
            f"gikvand board: {line}" if line else "")


def test_rates_of_a_while() -> None:
    """Rates are those of the last five seconds, and each second has its own for two minutes."""
    rates = tally.Rates()
    assert rates.told() == {"each": [], "commands": 0, "bytes": 0}
    for second in range(200):
        rates.note(second * second, 100 * second)
    told = rates.told()
    assert (told["commands"], told["bytes"]) == ((199 ** 2 - 194 ** 2) / 5, 100)
    assert (len(told["each"]), told["each"][-1], told["each"][0]) == (120, 199 ** 2 - 198 ** 2, 80 ** 2 - 79 ** 2)


def of_day(day: str, member: int, number: int, side: int, price: int) -> Entry:
    """A member's order number of this day, for one at this price."""
    text = message(member, 1 + number, "D", order(number, side, 1, price)).replace(b"20250102", day.encode())
    return Entry(member, sealed(text.split(b"\x01", 2)[2][:-7]))


def test_times_of_members() -> None:
    """The time of a member is that of its own last message, whatever became of its orders since."""
    put(JOURNAL, journals.header(3) + journals.in_blocks(3, [of_day("20250102", 1, 1, 2, 50), of_day("20250103", 2, 1, 1, 50)], 2)
        + journals.CLOSED)
    put(f"{JOURNAL}.symbols", b"ABC\n")
    assert [row["when"][:8] for row in shown(2)["members"]] == ["20250102", "20250103"]


def test_changes_of_prices() -> None:
    """A change is that since the last trade of the day before, or else since the first trade of all."""
    entries, numbers = list[Entry](), collections.Counter[int]()
    def send(day: str, price: int) -> None:
        for member, side in ((1, 2), (2, 1)):
            numbers[member] += 1
            entries.append(of_day(day, member, numbers[member], side, price))
    wanted = []
    for day, price, change in (("20250102", 50, 0), ("20250102", 53, 3), ("20250103", 51, -2), ("20250103", 60, 7),
                               ("20250106", 60, 0), ("20250106", 1, -59)):
        send(day, price)
        wanted.append(change)
        put(JOURNAL, journals.header(3) + journals.in_blocks(3, entries, 2) + journals.CLOSED)
        put(f"{JOURNAL}.symbols", b"ABC XYZ\n")
        told = shown(len(entries))["symbols"]
        assert (day, price, told[0]["change"], told[1]["change"]) == (day, price, change, None)
        assert [told[0][side]["levels"] for side in ("buys", "sells")] == [[], []]  # Each order that rested was filled.
