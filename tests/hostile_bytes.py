#!/usr/bin/env python3
"""Feeds bytes of all kinds to `venued -`, and compares what comes out with the rules of docs/PROFILE.md in plain Python.

    tests/hostile_bytes.py                              the sample that the full check takes, the same each time, half a minute
    tests/hostile_bytes.py NAME...                      of the tests below, those whose names have one of these words in them
    tests/hostile_bytes.py --messages 1000000           as many mutated messages, however long that takes
    tests/hostile_bytes.py --messages N --seconds S     the same, for so long at most
    tests/hostile_bytes.py --seed N                     other mutated messages; --new-seed, by a seed that is drawn, and told
    tests/hostile_bytes.py --rules-alone                runs no program, and tells which rules the mutated messages meet

Four tests. `rules_corners`: the sessions of tests/corners.py, what just fits and what just doesn't, which reach each rule;
where one is reached by none of them the test fails. `cuts`: the bytes of the first order in two pieces, cut at each place,
are answered as in one. `replaced_bytes`: each of them is replaced by 00 and by other values. `mutated_sessions`: sessions
of up to a hundred messages, right ones and wrong ones, many on one journal, so that later ones find a book. A seed chooses the
sessions, which are the same however many programs run side by side; 50,000 messages have to meet each rule. A tenth of the
messages are market orders, or were before they were changed; the journals are of all versions by turns, and on those of
version 1 the venue refuses these. tests/oracle says which bytes may come out: the venue's own answers in their
order, the reports in theirs, numbered together, nothing behind a Logout; where a Logout ended the session, reports that were due may be missing
at the end. Behind every journal venue-replay has to print each report that the rules know of, and the journal has to have
the version that it had. That all this tells a wrong answer and a wrong rule is shown by tests/known_bad.py.

What differs is shown with its input as a line of hex digits. The last line is `N passed, M failed`, and the status is 1
where one failed. Nothing more is tried behind the third wait that ran out. Build both programs first, by scripts/build; others
are taken by the environment's VENUED and VENUE_REPLAY.
"""
import argparse
import collections
import concurrent.futures
import fcntl
import functools
import itertools
import os
import random
import re
import struct
import subprocess
import sys
import tempfile
import termios
import time
from collections.abc import Callable, Iterator
from typing import NamedTuple

ROOT = os.path.dirname(os.path.dirname(os.path.abspath(__file__)))
sys.path.insert(0, os.path.join(ROOT, "dev"))

import with_scripts  # (in front of what stands there, and of what an older Python can't read)
import corners
from checks import in_order, put
from corners import SYMBOLS, Corner, all_corners
from gikvand import journals
from gikvand.fix import sealed
from gikvand.words import positive, sure
from oracle.book_rules import Book
from oracle.order_rules import asks_for_market
from oracle.replay_rules import line_of
from oracle.session_rules import Judged, Session
from venues import MOST_RAN_OUT, NO_MORE, PATIENCE, REPLAY, TIME, VENUED, RanOut, Trouble, ended, message, need_programs, order, printed
from venues import ran_out

FIRST = message(1, 1, "A", "98=0|108=0|141=Y|") + message(1, 2, "D", order(1, 1, 100, 50))
OTHERS = b"\x00\x01\x30\x7f\x80\xff"
SEED = "1"           # Of the sample's mutated messages. Where they come to lack a rule, --rules-alone --new-seed finds another seed.
SAMPLE = 60_000      # How many these are at least.
ALL_MET = 50_000     # So many messages have to meet each rule.
MOST_DIFFER = 3      # Batches that may differ: behind the last of them no further one is tried.
SESSIONS = 16        # Sessions of one journal.
CUTS = {it: journals.begun(journals.empty(it)).cut for it in journals.VERSIONS}
WITHOUT_PRICE = r"\|38=\d+\|(?:32|151)="  # In a report: behind the quantity comes what stands behind a Price.
WANTED = [*(f"58={it}" for it in ("bad begin", "bad length", "bad checksum", "too long", "bad field", "bad header",
                                  "wrong party", "wrong number", "no logon", "bad logon", "bad test", "bad type")),
          *(f"373={it}" for it in (13, 2, 1, 6, 5)), *(f"150={it}" for it in "0F458"), *(f"103={it}" for it in (0, 1, 6)),
          *(f"102={it}" for it in (1, 2, 6))]
ASKED = "asked for a market order"
MARKET = {"market order accepted": rf"\|150=0\|.*{WITHOUT_PRICE}",
          "filled in part": rf"\|150=F\|39=1\|.*{WITHOUT_PRICE}",
          "filled": rf"\|150=F\|39=2\|.*{WITHOUT_PRICE}",
          "its remainder cancelled": rf"\|150=4\|.*{WITHOUT_PRICE}0\|14=[1-9]",
          "cancelled untouched": rf"\|150=4\|.*{WITHOUT_PRICE}0\|14=0\|",
          "refused as stale": rf"\|150=8\|.*{WITHOUT_PRICE}.*\|103=6\|",
          "refused for its symbol": rf"\|150=8\|.*{WITHOUT_PRICE}.*\|103=1\|",
          "rejected for its price": r"\|371=44\|372=D\|373=2\|"}
OLD = {"rejected by an old journal": r"\|371=44\|372=D\|373=1\|"}
SHOWN = {**{it: re.compile(rf"\|{re.escape(it)}\|") for it in WANTED},
         **{it: re.compile(form) for it, form in {**MARKET, **OLD}.items()}}
BY_CORNERS = ("103=0",)  # Met by corners alone: in no session by chance there is a full book.

NUMBERS = ["0", "00", "01", "-1", "+1", " 1", "1 ", "1.0", "1e3", "2", "7", "50", "999999", "1000000", "1000001",
           "4294967297", "999999999999999", "1000000000000000", "18446744073709551616", "9" * 40]
VALUES = NUMBERS + ["A", "abc", "ABC", "XYZ", "NONE", "ABCDEFGH", "ABCDEFGHI", "=", "1=2", "x" * 32, "x" * 33, "\0", "\x7f",
                    "\xff", "20250102-09:30:00", "20250102-09:30:0", "20250102 09:30:00", "2025x102-09:30:00",
                    "99999999-99:99:99", "20250102-09:30:00.000", "1", "3", "4", "12", "D", "Y"]
TAGS = ["1", "7", "8", "9", "10", "11", "21", "34", "35", "38", "40", "41", "43", "44", "49", "50", "52", "54", "55", "56",
        "58", "59", "60", "98", "108", "112", "141", "369", "99999"]
SIZES = [5, 6, 99, 100, 101, 295, 296, 297, 298, 299, 300, 999, 1000]  # Of a body, round the bounds.
NO_TAGS = ["100000", "0", "01", "011", "x", "", "-1", "1 "]

Fields = list[tuple[str, str]]  # Each a tag and a value.
Case = Callable[[str], str | None]  # What is run on a journal: how it differs from the rules, or None.


def coded(fields: Fields) -> bytes:
    """The frame round these fields, each a tag and a value."""
    return sealed("".join(f"{tag}={value}\x01" for tag, value in fields).encode("latin-1"))


def check_end(process: subprocess.Popen, out: bytes, err: bytes, judged: Judged) -> str | None:
    """The difference of a run from the rules, or None."""
    if (process.returncode, err) != (0, b""):
        return f"expected status 0 came status {process.returncode} {err.decode('latin-1')!r}"
    return judged.difference(out)


def ran(journal: str, data: bytes, judged: Judged) -> str | None:
    """Plays a session to its end: how it differs from the rules, or None."""
    process = subprocess.Popen([VENUED, "-", journal, "1", *SYMBOLS], stdin=subprocess.PIPE, stdout=subprocess.PIPE,
                               stderr=subprocess.PIPE)
    return at_its_end(process, data, judged)


def at_its_end(process: subprocess.Popen, data: bytes | None, judged: Judged) -> str | None:
    """Waits for the end of a run that gets this: how it differs from the rules, or None."""
    try:
        out, err = process.communicate(data, PATIENCE)
    except subprocess.TimeoutExpired:
        process.kill()
        process.communicate()
        raise RanOut(f"expected an end came none within {PATIENCE} seconds") from None
    return check_end(process, out, err, judged)


def in_pieces(journal: str, pieces: tuple[bytes, ...], judged: Judged) -> str | None:
    """The same, where each piece is sent once the one before was read."""
    process = subprocess.Popen([VENUED, "-", journal, "1", *SYMBOLS], stdin=subprocess.PIPE, stdout=subprocess.PIPE,
                               stderr=subprocess.PIPE, bufsize=0)
    end, given = time.monotonic() + PATIENCE, sure(process.stdin)
    for piece in pieces:
        given.write(piece)
        while struct.unpack("i", fcntl.ioctl(given, termios.FIONREAD, b"\0" * 4))[0] and process.poll() is None:
            if time.monotonic() > end:
                process.kill()
                process.communicate()
                raise RanOut(f"expected that a piece is read came one that wasn't within {PATIENCE} seconds")
            time.sleep(0.0002)
    return at_its_end(process, None, judged)


def fault_of(what: str, run: Callable[[], str | None]) -> Trouble | None:
    """Runs a case, and returns how the case differs from the rules, as a RanOut where a wait ran out, or None."""
    try:
        why = run()
    except RanOut as late:
        return RanOut(f"{what}: {late}")
    return Trouble(f"{what}: {why}") if why else None


def tried(cases: list[tuple[str, Case]], together: int) -> tuple[int, list[Trouble]]:
    """Runs these cases, each with its name, so many at a time, and returns how many ran, and what differed. No further case is run behind
    the third wait that ran out."""
    count, faults = 0, list[Trouble]()
    with tempfile.TemporaryDirectory(prefix="hostile-bytes-") as folder:
        calls = (functools.partial(fault_of, name, functools.partial(case, os.path.join(folder, f"{at}.journal")))
                 for at, (name, case) in enumerate(cases))
        for fault in in_order(concurrent.futures.ThreadPoolExecutor(together), calls, together):
            count, faults = count + 1, faults + ([fault] if fault else [])
            if sum(map(ran_out, faults)) == MOST_RAN_OUT:
                break
    return count, faults


def shown_in(judged: Judged, is_old: bool) -> list[str]:
    """Which rules the answers and reports of a session show."""
    ends = [f"|{printed(body)}" for _, _, body, _ in judged.session.answers[-1:]]
    return [name for text in judged.lines() + ends for name, form in SHOWN.items()
            if form.search(text) and (name not in OLD or is_old)]


def corner(it: Corner, journal: str) -> str | None:
    """Plays a session that goes to a corner of the rules: how it differs, or None."""
    data, book = corners.data_of(it.journal), corners.book_of(it.journal)
    if data is not None:
        put(journal, data)
    judged = Judged(it.data, book)
    if why := ran(journal, it.data, judged):
        return f"{why}; its bytes: {it.data.hex()}"
    if it.shows_book:
        wanted = [*map(line_of, book.listed()), f"commands {book.commands} outputs {book.outputs}"]
        return kept_difference("book", wanted, kept(journal, "book"))
    return None


def rules_corners(together: int) -> tuple[int, list[Trouble]]:
    """What just fits, and what just doesn't. All rules have to be met."""
    chosen = all_corners()
    met = {name for it in chosen
           for name in shown_in(Judged(it.data, corners.book_of(it.journal)), it.journal == corners.OLD)}
    count, faults = tried([(it.name, functools.partial(corner, it)) for it in chosen], together)
    return count, faults + [Trouble(f"no session met {it}") for it in SHOWN if it not in met]


def cuts(together: int) -> tuple[int, list[Trouble]]:
    """Each cut of the first order's bytes into two pieces."""

    def case(at: int) -> Case:
        return lambda journal: in_pieces(journal, (FIRST[:at], FIRST[at:]), Judged(FIRST, Book(SYMBOLS)))

    return tried([(f"cut behind byte {at}", case(at)) for at in range(1, len(FIRST))], together)


def replaced_bytes(together: int) -> tuple[int, list[Trouble]]:
    """Each byte of the first order replaced by others."""

    def case(data: bytes) -> Case:
        return lambda journal: ran(journal, data, Judged(data, Book(SYMBOLS)))

    changed = [(at, byte, FIRST[:at] + bytes([byte]) + FIRST[at + 1:]) for at in range(len(FIRST)) for byte in OTHERS
               if FIRST[at] != byte]
    return tried([(f"byte {at} replaced by {byte:02x}", case(data)) for at, byte, data in changed], together)


def padded(fields: Fields, size: int) -> Fields:
    """These fields, with a Text behind them that makes the body so long, where that can be."""
    room = size - sum(len(tag) + len(value) + 2 for tag, value in fields) - 4
    return fields + [("58", "x" * room)] * (room > 0)


class Writer:
    """The bytes of sessions, chosen by chance."""

    def __init__(self, chance: random.Random) -> None:
        self.chance, self.name = chance, 0

    def header(self, kind: str, number: int) -> Fields:
        return [("35", kind), ("49", "C1"), ("56", "VENUE"), ("34", str(number)), ("52", f"20250102-09:{number % 60:02}:00")]

    def body(self, kind: str) -> Fields:
        """A right body of an order message."""
        chance = self.chance
        self.name += chance.choice((1, 1, 1, 1, 2, 0, -1))
        fields = [("11", max(1, self.name)), ("55", chance.choice(("ABC", "ABC", "ABC", "XYZ", "QQQ"))),
                  ("54", chance.choice("12")), ("60", TIME), ("38", chance.choice((1, 2, 5, 10, 10, 100, 1_000_000)))]
        if kind != "D":
            fields.insert(0, ("41", max(1, self.name - chance.randint(0, 6))))
        if kind == "D" and chance.random() < 0.23:  # Half of all messages are new orders, and some of these are changed.
            fields += [("40", "1")] + [("59", chance.choice("034"))] * chance.randint(0, 1)
        elif kind != "F":
            fields += [("40", "2"), ("44", chance.choice((1, 48, 49, 50, 50, 50, 51, 52, 1_000_000)))]
            fields += [("59", chance.choice("0034"))] * chance.choice((0, 0, 1))
        return [(tag, str(value)) for tag, value in fields]

    def changed(self, fields: Fields, tags: list[str] = TAGS) -> Fields:
        """These fields with one to three changes."""
        chance, fields = self.chance, list(fields)
        for _ in range(chance.choice((1, 1, 1, 2, 3))):
            at = chance.randrange(len(fields) + 1)
            tag, value = fields[at] if at < len(fields) else ("58", "x")
            other = chance.choice(("drop", "twice", "swap", "value", "value", "value", "tag", "more"))
            if other == "more" or at == len(fields):
                fields.insert(at, (chance.choice(tags), chance.choice(VALUES)))
            elif other == "drop" and len(fields) > 1:
                del fields[at]
            elif other == "twice":
                fields.insert(chance.randrange(len(fields)), (tag, value))
            elif other == "swap":
                to = chance.randrange(len(fields))
                fields[at], fields[to] = fields[to], fields[at]
            elif other == "tag":
                fields[at] = (chance.choice(tags), value)
            else:
                fields[at] = (tag, chance.choice(VALUES))
        return fields

    def right(self, number: int) -> bytes:
        """A message that a session takes: an order message, or one of the session's own."""
        kind = self.chance.choice("DDDDDDDDFFGGG013")
        if kind in "DFG":
            body = self.body(kind)
            if self.chance.random() < 0.3:
                self.chance.shuffle(body)
        else:
            text = ("112", "x" * self.chance.choice((1, 5, 32)))
            body = [text] if kind == "1" else [("58", "x")] * self.chance.randint(0, 2)
        return coded(self.header(kind, number) + body)

    def faulty(self, number: int) -> bytes:
        """An order message whose body was changed, in a right frame."""
        kind = self.chance.choice("DDFG")
        if self.chance.random() < 0.05:
            return coded(padded(self.header(kind, number) + self.body(kind), self.chance.choice((295, 296, 297))))
        return coded(self.header(kind, number) + self.changed(self.body(kind)))

    def misheaded(self, number: int) -> Fields:
        """The header's fields with another number, another party or another time."""
        at, value = self.chance.choice((
            (3, number + 1), (3, number - 1), (3, 2 * number + 1), (3, f"0{number}"), (3, 10 ** 9 + number), (1, "C2"),
            (1, "c1"), (1, "C11"), (2, "VENUE2"), (2, "C1"), (4, "20250102-09:30:00.000"), (4, "20250102-9:30:000"),
            (4, "x" * 17)))
        fields = self.header(self.chance.choice("A01D"), number)
        fields[at] = (fields[at][0], str(value))
        return fields

    def resealed(self, data: bytes) -> bytes:
        """These bytes with the length and the sum that they would have to have, where they look like a frame."""
        parts = data.split(b"\x01")
        if self.chance.random() < 0.5 and len(parts) > 4:
            body = b"\x01".join(parts[2:-2]) + b"\x01"
            data = b"\x01".join([parts[0], b"9=%d" % len(body)]) + b"\x01" + body + b"10=000\x01"
        end = data.rfind(b"10=")
        return data if end < 0 else data[:end] + b"10=%03d\x01" % (sum(data[:end]) % 256)

    def spoiled(self, data: bytes) -> bytes:
        """These bytes with some of them replaced, left out, repeated or added."""
        chance, data = self.chance, bytearray(data)
        for _ in range(chance.choice((1, 1, 1, 2, 4))):
            at = chance.randrange(len(data) + 1)
            size = chance.choice((1, 1, 1, 2, 8))
            new = chance.choice((b"", bytes([chance.randrange(256)]), chance.choice((b"\x01", b"=", b"0", b"9", b"\x00")),
                                 bytes(data[at: at + size]) * 2, chance.randbytes(size)))
            data[at: at + (0 if chance.random() < 0.2 else size)] = new
        return self.resealed(bytes(data)) if chance.random() < 0.6 else bytes(data)

    def hostile(self, number: int) -> bytes:
        """Bytes that most likely end the session."""
        chance = self.chance
        kind = chance.choice("AAD01135FG2JZ")
        body = {"A": [("98", "0"), ("108", "0"), ("141", "Y")], "1": [("112", "hi")]}.get(kind, [])
        whole = self.header(kind, number) + (self.body(kind) if kind in "DFG" else body)
        form = chance.randrange(12)
        if form == 0:
            return chance.randbytes(chance.choice((1, 9, 30, 400)))
        if form == 1:
            return b"8=FIX.4.4\x019=" + chance.choice(VALUES + NO_TAGS).encode("latin-1") + b"\x01" + chance.randbytes(320)
        if form < 4:
            return coded(self.misheaded(number) + whole[5:])
        if form == 4:
            return coded(self.changed(self.header(kind, number)) + whole[5:])
        if form == 5:
            return coded(self.changed(whole, TAGS + NO_TAGS))
        if form == 6:
            return coded(self.header(kind, number) + self.changed(body or [("112", "hi")]))
        if form == 7:
            return coded(padded(whole, chance.choice(SIZES)))
        if form == 8:
            return coded(whole).replace(b"\x019=", b"\x019=%d" % chance.choice(SIZES), 1)
        if form == 9:
            return coded(whole)[:-4] + b"%03d\x01" % chance.randrange(256)
        return self.spoiled(coded(whole))

    def session(self) -> tuple[bytes, int]:
        """A whole session's bytes, and how many messages they are."""
        chance, told, data, rest = self.chance, Session(), b"", b""
        for count in itertools.count(1):
            number, luck = told.accepted + 1, chance.random()
            if count == 1 and luck < 0.95:
                piece = message(1, 1, "A", "98=0|108=0|141=Y|")
            elif luck < 0.02 or count == 1:
                piece = self.hostile(number)
            else:
                piece = self.faulty(number) if luck < 0.5 else self.right(number)
            data += piece
            rest = told.feed(rest + piece)
            if told.has_ended or rest or count == 100:
                break
        if told.has_ended:
            return data + chance.choice((b"", b"", piece, chance.randbytes(50))), count
        return data + chance.choice((b"", coded(self.header("5", told.accepted + 1))) if not rest else (b"", piece)), count


def kept(journal: str, what: str = "C1") -> list[str]:
    """What venue-replay prints of the book, or of a member. Where it fails, that."""
    status, out, err = ended([REPLAY, journal, what, *SYMBOLS])
    failed = [f"status {status}"] if status or err else []
    return (out + err).decode("latin-1").splitlines() + failed


def begun(journal: str, version: int) -> None:
    """A journal of this version for sessions to come. The venue makes one by itself, of the version that it makes."""
    if version != journals.MADE:
        put(journal, journals.empty(version))


def kept_difference(what: str, lines: list[str], came: list[str]) -> str | None:
    """How these lines of venue-replay differ from those that are due, or None."""
    for at, (one, two) in enumerate(itertools.zip_longest(lines, came), 1):
        if one != two:
            return f"venue-replay {what}, line {at}: expected {one} came {two}"
    return None


def check_kept(journal: str, version: int, lines: list[str]) -> str | None:
    """How a journal differs from these lines of venue-replay, or by its version from what it was, or None."""
    if why := kept_difference("C1", lines, kept(journal)):
        return why
    wanted = journals.header(version)
    with open(journal, "rb") as file:
        if (came := file.read(len(wanted))) != wanted:
            return f"expected a journal that begins with {wanted.hex()} came {came.hex()}"
    return None


class Batch(NamedTuple):
    """Sessions for one journal of this version: the bytes of each, and how many messages all of them have."""
    number: int
    version: int
    sessions: list[bytes]
    messages: int


def written(seed: str, number: int) -> Batch:
    """Writes the batch of this number."""
    writer = Writer(random.Random(f"{seed} {number}"))
    sessions = [writer.session() for _ in range(SESSIONS)]
    version = journals.VERSIONS[number % len(journals.VERSIONS)]
    return Batch(number, version, [data for data, _ in sessions], sum(count for _, count in sessions))


def batches(seed: str, messages: int) -> Iterator[Batch]:
    """Writes batches from the first one on, until the batches have so many messages."""
    numbers = itertools.count()
    while messages > 0:
        batch = written(seed, next(numbers))
        yield batch
        messages -= batch.messages


class Played(NamedTuple):
    """How many messages a batch has, which rules the batch met, and how a program differs from the rules, or None."""
    messages: int
    met: collections.Counter[str]
    fault: Trouble | None


def played(batch: Batch, run: Callable[[str, bytes, Judged], str | None] | None) -> Played:
    """Plays the sessions of a batch, one behind the other on one journal. Without `run` no program is run, and the rules alone say which of
    them are met."""
    book, met, lines, fault = Book(SYMBOLS, CUTS[batch.version]), collections.Counter[str](), list[str](), None
    what = f"batch {batch.number}, version {batch.version}"
    with tempfile.TemporaryDirectory(prefix="hostile-bytes-") as folder:
        journal = os.path.join(folder, "venue.journal")
        begun(journal, batch.version)
        for at, data in enumerate(batch.sessions):
            judged = Judged(data, book)
            met.update(shown_in(judged, batch.version == 1))
            met[ASKED] += sum(asks_for_market(kind, found) for _, kind, _, found in judged.session.orders)
            lines += judged.lines()
            if run and not fault and (why := fault_of(f"{what}, session {at}", functools.partial(run, journal, data, judged))):
                fault = type(why)(f"{why}; its bytes: {data.hex()}")
        lines.append(f"commands {book.commands} outputs {book.outputs}")
        if run and not fault:
            fault = fault_of(what, lambda: check_kept(journal, batch.version, lines))
    return Played(batch.messages, met, fault)


def mutated_sessions(given: argparse.Namespace) -> tuple[int, list[Trouble]]:
    """Plays batches of sessions until there were so many messages, or the time is over."""
    print(f"mutated_sessions: seed {given.seed}", flush=True)
    end = time.monotonic() + (given.seconds or float("inf"))
    chosen = itertools.takewhile(lambda _: time.monotonic() < end, batches(given.seed, given.messages))
    calls = (functools.partial(played, batch, None if given.rules_alone else ran) for batch in chosen)
    total, count, met, faults = 0, 0, collections.Counter[str](), list[Trouble]()
    for batch in in_order(concurrent.futures.ThreadPoolExecutor(given.together), calls, given.together):
        total, count, met = total + batch.messages, count + 1, met + batch.met
        faults += [batch.fault] if batch.fault else []
        if len(faults) == MOST_DIFFER:
            break
    print("    " + ", ".join(f"{it}: {met[it]}" for it in WANTED))
    print("    " + ", ".join(f"{it}: {met[it]}" for it in [ASKED, *MARKET, *OLD]))
    if total >= ALL_MET:
        faults += [Trouble(f"no session met {it}") for it in SHOWN if not met[it] and it not in BY_CORNERS]
    print(f"    {count * SESSIONS} sessions on {count} journals")
    return total, faults


def read_words() -> argparse.Namespace:
    parser = argparse.ArgumentParser(description=__doc__, formatter_class=argparse.RawDescriptionHelpFormatter)
    parser.add_argument("names", nargs="*", metavar="NAME", help="which tests; all, if left out")
    parser.add_argument("--messages", type=positive, default=SAMPLE, help=f"mutated messages; {SAMPLE:,}, if left out")
    parser.add_argument("--seconds", type=positive, help="how long they may take; any time, if left out")
    parser.add_argument("--together", type=positive, default=2, metavar="N", help="programs side by side; 2, if left out")
    parser.add_argument("--seed", default=SEED, help=f"what the choice begins with; {SEED}, if left out")
    parser.add_argument("--new-seed", action="store_true", help="draw the seed, and tell it")
    parser.add_argument("--rules-alone", action="store_true", help="run no program")
    given = parser.parse_args()
    if given.new_seed:
        given.seed = str(random.randrange(10 ** 9))
    return given


def tests_of(given: argparse.Namespace) -> dict[str, Callable[[], tuple[int, list[Trouble]]]]:
    """Returns the tests that are asked for, by their names."""
    tests: dict[str, Callable[[], tuple[int, list[Trouble]]]] = {"mutated_sessions": lambda: mutated_sessions(given)}
    if not given.rules_alone:
        first = (rules_corners, cuts, replaced_bytes)
        tests = {**{it.__name__: functools.partial(it, given.together) for it in first}, **tests}
    return {name: test for name, test in tests.items() if not given.names or any(word in name for word in given.names)}


def main() -> None:
    given = read_words()
    if not given.rules_alone:
        try:
            need_programs()
        except Trouble as why:
            sys.exit(f"hostile_bytes: {why}")
    passed = failed = waits = 0
    for name, test in tests_of(given).items():
        begun = time.monotonic()
        count, faults = test()
        for fault in faults[:5]:
            print(f"{name}: {fault}")
        print(f"{name}: {count} tried in {time.monotonic() - begun:.0f} s, {len(faults)} differ", flush=True)
        passed, failed, waits = passed + (not faults), failed + bool(faults), waits + sum(map(ran_out, faults))
        if waits >= MOST_RAN_OUT:
            print(NO_MORE, flush=True)
            break
    print(f"{passed} passed, {failed} failed")
    sys.exit(1 if failed else 0)


if __name__ == "__main__":
    main()
