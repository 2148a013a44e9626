"""Starts the built programs on a journal of 100,000 entries: no start takes more memory for it, or reads it twice.

What memory a program takes at least, as its address space is limited, is found on a journal of 5,000 entries. On the
long one it has no more, and a megabyte: so what grows with the entries is refused, be it eleven bytes for each. What it
reads of the file is counted, by tests/refusals.c, and is not a tenth more than the file. Tried are

- `venued -` with one order more as its input: a first start, which adds a snapshot, and one behind that snapshot;
- `venue-replay` with `check`, and with `book`, behind that snapshot too.

A stop file that is made while a start reads the long journal stops the venue as soon as it is ready. Programs that keep
what they read, read twice, or have no memory for a long journal, by tests/stand_in.c, have to be refused. Without cc
its tests are skipped. All take some seconds.
"""
import functools
import os
import time
from collections.abc import Callable
from typing import NamedTuple

import pytest

from gikvand import journals
from gikvand.journals import Entry
from oracle.book_rules import Book, Order
from oracle.replay_rules import counts, line_of
from oracle.session_rules import Judged, told
from oracle.snapshot_rules import snapshot
from refusals import LOGON, Came, Refusal, Sweeps, compiled, greatest, kept, orders, put, ran, standard
from venues import PATIENCE, REPLAY, RanOut, Trouble, Venue, free_port, message, order

pytestmark = [pytest.mark.quick, pytest.mark.usefixtures("programs")]

SHORT, LONG = 5_000, 100_000  # How many entries the journals have.
RESTING = 3                   # How many of these, the last ones, rest.
BLOCK = 20                    # How many entries a block has.
STEP = 64                     # A limit is found to so many KiB.
A_BEGINNING = 1_000_000       # Bytes of which a start has read more where it surely reads its journal.
SLACK = 1024                  # What the long journal may take beyond the short one, in KiB.


def entries(count: int) -> list[Entry]:
    """So many entries: by turns a sell and a buy that trade, one that is no order, and a few that rest."""
    resting = [message(1, 2, "D", order(count - RESTING + 1 + it, 2, 10, 60 + it)) for it in range(RESTING)]
    return [Entry(1, it) for it in (*orders(1, count - RESTING - 1), b"x", *resting)]


@functools.lru_cache(maxsize=None)
def journal_of(count: int) -> bytes:
    """The bytes of a journal of these entries."""
    return journals.header(journals.MADE) + journals.in_blocks(journals.MADE, entries(count), BLOCK) + journals.CLOSED


@functools.lru_cache(maxsize=None)
def with_snapshot(count: int) -> bytes:
    """The same with the snapshot that the first start adds."""
    data = journal_of(count)
    return journals.added(data, len(data) - 1, journals.snapshot_block(snapshot(book_of(count))))


def book_of(count: int) -> Book:
    """The book behind them. Of two orders that trade there are four reports, of one that rests there is one."""
    book = Book()
    book.commands, book.outputs, book.greatest[1] = count, 2 * (count - RESTING - 1) + RESTING, count
    book.resting = [Order(at + 1, 1, at + 1, b"ABC", b"2", 60 + it, 10, stamp=at)
                    for it, at in enumerate(range(count - RESTING, count))]
    return book


def session(count: int) -> bytes:
    """A Logon, and an order that rests, behind so many entries."""
    return LOGON + message(1, 2, "D", order(count + 1, 1, 10, 50))


def answers(count: int) -> bytes:
    """What that session is told."""
    judged = Judged(session(count), book_of(count))
    whole = [told(kind, 1, when, own) for kind, when, own, _ in judged.session.answers]
    return b"".join(whole + [told(kind, 2, when, own) for kind, when, own, _ in judged.reports])


def book_lines(count: int) -> bytes:
    """What venue-replay prints of the book."""
    book = book_of(count)
    return "".join(f"{line}\n" for line in (*map(line_of, book.listed()), counts(book))).encode()


class Run(NamedTuple):
    """A program's words over a journal, and by the number of entries that journal, the input, and what has to come out."""
    words: Callable[[str], list[str]]
    journal: Callable[[int], bytes]
    data: Callable[[int], bytes]
    wanted: Callable[[int], bytes]

    def came(self, kib: int, journal: str, count: int) -> Came:
        """How it ends over the journal of so many entries, where it has so much memory for itself."""
        put(journal, self.journal(count))
        words = ["sh", "-c", 'ulimit -v "$0" && exec "$@"', str(kib), *self.words(journal)]
        return ran(words, self.data(count))

    def is_enough(self, kib: int, journal: str, count: int) -> bool:
        """Whether it does then what it does with ample memory."""
        return self.came(kib, journal, count) == (0, self.wanted(count), "")

    def least(self, journal: str) -> int:
        """What memory it takes at least on the short journal, in KiB."""
        return STEP * (1 + greatest(lambda it: not self.is_enough(STEP * it, journal, SHORT)))

    def read(self, noting: Refusal) -> int:
        """How many bytes of the long journal it reads."""
        put(noting.journal, self.journal(LONG))
        came = noting.ran(self.words(noting.journal), self.data(LONG))
        if came != (0, self.wanted(LONG), ""):
            raise Trouble(f"expected {(0, self.wanted(LONG), '')} came {came}")
        return sum(int(more) for name, _, more in noting.noted() if name == "pread")

    def check(self, sweeps: Sweeps) -> str:
        """Runs it with memory for the short journal, and looks how often it reads the long one."""
        noting = Refusal(sweeps.library, sweeps.folder, "device", 0, "note")
        limit = self.least(noting.journal)
        came = self.came(limit + SLACK, noting.journal, LONG)
        if came != (0, self.wanted(LONG), ""):
            raise Trouble(f"expected, with {limit + SLACK} KiB, {(0, self.wanted(LONG), '')} came {came}")
        read, size = self.read(noting), len(self.journal(LONG))
        if not 10 * size <= 10 * read <= 11 * size:
            raise Trouble(f"expected {size} bytes read came {read}")
        return f"{limit} KiB and {SLACK} more, {read} bytes read of {size}"


def no_input(_count: int) -> bytes:
    """Nothing."""
    return b""


def test_first_start(sweeps: Sweeps) -> None:
    """`venued -`, which adds a snapshot before it serves."""
    said = Run(standard, journal_of, session, answers).check(sweeps)
    came = kept(os.path.join(sweeps.folder, "venue.journal"))
    wanted = with_snapshot(LONG)
    if came[:len(wanted) - 1] != wanted[:-1]:
        raise Trouble("expected the entries and a snapshot of them came other bytes")
    print(said)


def test_second_start(sweeps: Sweeps) -> None:
    """`venued -` behind that snapshot."""
    print(Run(standard, with_snapshot, session, answers).check(sweeps))


def all_true(_count: int) -> bytes:
    """What it prints where all snapshots are true."""
    return b"snapshots true\n"


def test_snapshots_checked(sweeps: Sweeps) -> None:
    """`venue-replay` with `check`."""
    print(Run(lambda it: [REPLAY, it, "check", "ABC"], with_snapshot, no_input, all_true).check(sweeps))


def test_book_shown(sweeps: Sweeps) -> None:
    """`venue-replay` with `book`."""
    print(Run(lambda it: [REPLAY, it, "book", "ABC"], with_snapshot, no_input, book_lines).check(sweeps))


def await_reading(venue: Venue) -> None:
    """Waits until the venue reads its journal."""
    end = time.monotonic() + PATIENCE
    while time.monotonic() < end:
        with open(f"/proc/{venue.process.pid}/io", encoding="ascii") as file:
            if int(file.readline().removeprefix("rchar: ")) > A_BEGINNING:
                return
    raise RanOut(f"venued doesn't read its journal within {PATIENCE} seconds")


@pytest.mark.soak
def test_stop_at_the_start(sweeps: Sweeps) -> None:
    """A venue that is told to stop while it reads its journal."""
    path = os.path.join(sweeps.folder, "venue.journal")
    put(path, journal_of(LONG))
    put(f"{path}.stop", b"")  # (one that was left goes away)
    venue = Venue(free_port(1), path, 1)
    await_reading(venue)
    put(f"{path}.stop", b"")
    counts = venue.ready(), venue.counts("stopped")
    if status := venue.status():
        raise Trouble(f"status {status} of a venue that was stopped")
    if len(set(counts)) != 1:
        raise Trouble(f"expected the same counts came {counts}")
    print(f"it was ready, and stopped with {counts[1][0]} commands")


def stood_in(*words: str) -> list[str]:
    """The words of a program that stands in, with the journal as the last one."""
    return list(words)


def test_wrong_programs(sweeps: Sweeps) -> None:
    """Of programs that stand in for these, each with a fault or none, those with one are refused."""
    program, answer = os.path.join(sweeps.folder, "stand_in"), os.path.join(sweeps.folder, "answer")
    compiled("tests/stand_in.c", program)
    put(answer, all_true(LONG))
    seen = {}
    for wrong in ("none", "keeps", "twice", "most"):
        stands_in = Run(functools.partial(stood_in, program, wrong, answer), journal_of, no_input, all_true)
        try:
            stands_in.check(sweeps)
            seen[wrong] = "passed"
        except RanOut:
            raise
        except Trouble as why:
            seen[wrong] = "read" if "bytes read" in str(why) else "memory"
    if seen != {"none": "passed", "keeps": "memory", "twice": "read", "most": "memory"}:
        raise Trouble(f"expected three of four refused came {seen}")
    print("one that keeps what it reads, one that reads twice, and one without memory for a long journal are seen")
