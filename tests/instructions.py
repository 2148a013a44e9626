#!/usr/bin/env python3
"""Counts the instructions of seven fixed runs of the built programs: what makes one of them dearer is seen, whatever
the machine does besides.

    tests/instructions.py [--show]

The runs, each of one thread, are

- `session`: `venued -` reads 2,000 messages of a client, orders that trade by turns among them, and answers them;
- `one_symbol`: `venue-replay` with `book` works off a day of 6,000 messages, of whose orders 2,000 rest, at one symbol;
- `eight_symbols`: the same of 5,600 messages, of whose orders 4,000 rest, at 250 prices on each side of eight symbols;
- `deep_sells` and `deep_buys`: the same of 4,000 messages, of whose orders 3,000 rest at 2,000 prices of one side, a
  tick apart, and the best price goes and comes; the two are the same but for the side, and as dear but for 1 in 100;
- `one_spot`: the same of 4,000 messages at eight symbols whose bytes lead to one place of any table of them;
- `last_of_eight`: the same of 4,000 messages at the last of eight symbols.

A count may be at most 2 in 100 above the one that stands here, and 4 below; where the code has become dearer or cheaper by
more, whoever changed it puts the new one here (--show prints them) and says why. It counts for one build: the compilers of
another kit make other code. Runs with a twentieth more input have to be refused. Valgrind counts (callgrind); where it
isn't installed nothing is tried, and a line says so. The last line is `N passed, M failed`, and the status is 1 where one
failed. Build both programs first, by scripts/build.
"""
import argparse
import functools
import os
import shutil
import subprocess
import sys
import tempfile
from collections.abc import Callable, Sequence
from typing import NamedTuple

ROOT = os.path.dirname(os.path.dirname(os.path.abspath(__file__)))
sys.path.insert(0, os.path.join(ROOT, "dev"))

import with_scripts  # (in front of what stands there, and of what an older Python can't read)
from checks import put
from gikvand import journals
from gikvand.journals import Entry
from measuring import instructions
from mixed_day import write_journal
from venues import MOST_RAN_OUT, NO_MORE, REPLAY, VENUED, Trouble, message, need_programs, order, ran_out

ABOVE, BELOW = 0.02, 0.04
SYMBOLS = ["A", "BB", "CCC", "DDDD", "EEEEE", "F6", "G77", "H888"]

# How many instructions each run has.
COUNTS = {
    "session": 22_858_000,
    "one_symbol": 25_408_000,
    "eight_symbols": 27_488_000,
    "deep_sells": 20_349_000,
    "deep_buys": 20_347_000,
    "one_spot": 17_539_000,
    "last_of_eight": 17_089_000,
}
MIRRORED = 0.01  # How far those of the two sides may be apart.
COLLIDING = [f"{it}OLD" for it in "ABCDEFGH"]


class Run(NamedTuple):
    """A program with its words, and its standard input."""

    words: list[str]
    data: bytes = b""


def session(folder: str, more: float) -> Run:
    """By turns a buy and a sell that trade; each tenth message is a TestRequest."""
    said = [message(1, 1, "A", "98=0|108=0|141=Y|")]
    for at in range(int(2_000 * more)):
        body = "112=still there?|" if at % 10 == 9 else order(at + 1, 1 + at % 2, 10, 50)
        said.append(message(1, at + 2, "1" if at % 10 == 9 else "D", body))
    return Run([VENUED, "-", os.path.join(folder, "venue.journal"), "1", "ABC"], b"".join(said))


def one_symbol(folder: str, more: float) -> Run:
    """A mixed day, over 64 prices."""
    path = os.path.join(folder, "day.journal")
    write_journal(path, int(6_000 * more), 2_000)
    return Run([REPLAY, path, "book", "ABC"])


def eight_symbols(folder: str, more: float) -> Run:
    """Orders that come to rest far apart, the symbols by turns, and orders that trade with the best of them."""
    rest = [(symbol, side, 10, 100_000 + 37 * at if side == 2 else 90_000 - 37 * at)
            for at in range(250) for side in (1, 2) for symbol in SYMBOLS]
    trade = [(symbol, side, 1, 200_000 if side == 1 else 1) for _ in range(int(100 * (1 + 3.5 * (more - 1))))
             for side in (1, 2) for symbol in SYMBOLS]
    return replayed(folder, [(*it, "") for it in rest] + [(*it, "59=3|") for it in trade], SYMBOLS)


def replayed(folder: str, orders: Sequence[tuple], symbols: list[str]) -> Run:
    """A day of these orders: symbol, side, quantity, price and terms of each."""
    entries = [Entry(1, message(1, at + 2, "D", order(at + 1, side, quantity, price, symbol, terms)))
               for at, (symbol, side, quantity, price, terms) in enumerate(orders)]
    path = os.path.join(folder, "day.journal")
    put(path, journals.header(1) + journals.in_blocks(1, entries, 64) + journals.CLOSED)
    return Run([REPLAY, path, "book", *symbols])


def deep_sells(folder: str, more: float) -> Run:
    """Sells above 500,000."""
    return deep(folder, more, 2)


def deep_buys(folder: str, more: float) -> Run:
    """Buys below 500,000."""
    return deep(folder, more, 1)


def deep(folder: str, more: float, side: int) -> Run:
    """Orders at each tick, more of them behind the best price, and the best one by turns taken and put back."""
    away, ticks = (1 if side == 2 else -1), int(2_000 * more)
    orders = [("ABC", side, 10, 500_000 + away * (1 + at), "") for at in range(ticks)]
    orders += [("ABC", side, 10, 500_000 + away * (20 + 7 * at % (ticks - 20)), "") for at in range(int(1_000 * more))]
    for _ in range(int(500 * more)):
        orders += [("ABC", 3 - side, 10, 500_000 + away, "59=3|"), ("ABC", side, 10, 500_000 + away, "")]
    return replayed(folder, orders, ["ABC"])


def one_spot(folder: str, more: float) -> Run:
    """At each symbol by turns a buy and a sell that trade."""
    orders = [(symbol, side, 10, 50, "") for _ in range(int(250 * more)) for side in (1, 2) for symbol in COLLIDING]
    return replayed(folder, orders, COLLIDING)


def last_of_eight(folder: str, more: float) -> Run:
    """By turns a buy and a sell that trade."""
    orders = [(SYMBOLS[-1], side, 10, 50, "") for _ in range(int(2_000 * more)) for side in (1, 2)]
    return replayed(folder, orders, SYMBOLS)


def fits(name: str, count: int) -> bool:
    """Whether the run is as dear as it was."""
    return COUNTS[name] * (1 - BELOW) <= count <= COUNTS[name] * (1 + ABOVE)


def counted(make: Callable[[str, float], Run], more: float = 1) -> int:
    with tempfile.TemporaryDirectory(prefix="instructions-") as folder:
        return instructions(*make(folder, more))


def tried(make: Callable[[str, float], Run]) -> str:
    """Counts a run as it is, and with more input."""
    name, count = make.__name__, counted(make)
    if name not in COUNTS:
        raise Trouble(f"expected a count of it in tests/instructions.py came {count:,}")
    if not fits(name, count):
        raise Trouble(f"expected {COUNTS[name]:,} instructions came {count:,}")
    dearer = counted(make, 1.05)
    if fits(name, dearer):
        raise Trouble(f"with a twentieth more input expected above {COUNTS[name] * (1 + ABOVE):,.0f} came {dearer:,}")
    return f"{count:,} instructions, and {dearer:,} with more input are refused"


def mirrored() -> str:
    """Whether a deep side is as dear as the other."""
    sells, buys = counted(deep_sells), counted(deep_buys)
    if abs(sells - buys) > MIRRORED * buys:
        raise Trouble(f"expected sells as dear as buys came {sells:,} and {buys:,}")
    return f"{sells:,} instructions with sells, {buys:,} with buys"


def main() -> int:
    parser = argparse.ArgumentParser(description=__doc__, formatter_class=argparse.RawDescriptionHelpFormatter)
    parser.add_argument("--show", action="store_true", help="print the counts, and compare none")
    asked = parser.parse_args()
    if not shutil.which("valgrind"):
        print("instructions: valgrind isn't installed: nothing was tried\n0 passed, 0 failed")
        return 0
    try:
        need_programs()
    except Trouble as why:
        sys.exit(f"instructions: {why}")
    runs = (session, one_symbol, eight_symbols, deep_sells, deep_buys, one_spot, last_of_eight)
    look: Callable[..., object] = tried
    if asked.show:
        look = counted
    tests: dict[str, Callable[[], object]] = {it.__name__: functools.partial(look, it) for it in runs}
    tests["mirrored"] = mirrored
    passed = failed = waits = 0
    for name, test in tests.items():
        try:
            print(f"{name}: {test()}", flush=True)
            passed += 1
        except (Trouble, OSError, subprocess.TimeoutExpired) as why:
            print(f"{name}: {why}", flush=True)
            failed, waits = failed + 1, waits + ran_out(why)
        if waits == MOST_RAN_OUT:
            print(NO_MORE, flush=True)
            break
    print(f"{passed} passed, {failed} failed")
    return 1 if failed else 0


if __name__ == "__main__":
    sys.exit(main())
