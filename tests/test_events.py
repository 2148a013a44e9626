"""Tests of venue-events: worked rows, journals by chance beside the rules in plain Python, words, faults and outputs, and
journals that grow while it follows them.

Another venue-events is taken by the environment's VENUE_EVENTS, and tests/oracle/events_rules.py is one.
"""
import os
import random
import re
import select
import signal
import subprocess
import time
from collections.abc import Callable

import pytest

from checks import put, ran, text_of
from gikvand import journals
from gikvand.journals import Entry
from gikvand.words import sure
from journal_writer import TABLES, Writer, coded, damaged
from oracle.events_rules import WRONG_WORDS, events_of, outcome
from oracle.replay_rules import Outcome
from venues import EVENTS, PATIENCE, Client, Late, Venue, in_some_try, order, running

pytestmark = [pytest.mark.quick, pytest.mark.usefixtures("programs")]

PROGRAM = os.path.abspath(EVENTS)
JOURNALS = 300
KINDS = {"command": re.compile(r"command \d+ C[1-8] [DFG-] [A-Z0-9-]+ -"), "output": re.compile(r"output \d+ C[1-8] 35=.*\|"),
         "level": re.compile(r"level [A-Z0-9]{1,8} [12] \d+ \d+ \d+")}
MOST_MEMORY = 16_000  # Kibibytes of address space, for a journal of any length.


def told(*words: object) -> Outcome:
    """How the program ends on these words."""
    return Outcome(*ran(PROGRAM, *words))


def new_order(member: int, number: int, when: str, name: int, side: int, quantity: int, price: int) -> bytes:
    """The message of a limit order in ABC."""
    return coded(member, "D", number, when, [(11, name), (55, "ABC"), (54, side), (60, when), (38, quantity), (40, 2), (44, price)])


def by_rules(words: list[str], data: bytes) -> None:
    """The program does as the rules say."""
    put("J", data)
    assert (words, told(*words)) == (words, outcome(words, {"J": data}))


def test_the_worked_rows() -> None:
    """The example of docs/EVENTS.md, byte for byte."""
    page = text_of("docs/EVENTS.md")
    rows = re.split(r"^```(?:text)?\n", page[page.index("## An example"):], flags=re.MULTILINE)[1]
    day = [Entry(1, new_order(1, 2, "20260721-14:30:05", 1, 2, 100, 50)),
           Entry(2, new_order(2, 2, "20260721-14:30:06", 1, 1, 30, 50))]
    put("J", journals.header(3) + journals.block_of(3, day) + journals.CLOSED)
    assert told("J", "once", "ABC") == Outcome(0, rows, "")


def test_journals_by_chance() -> None:
    """Journals of each version with all kinds of messages: whole, damaged, with other symbols, and from any command on."""
    seen = dict.fromkeys(KINDS, 0)
    for number in range(JOURNALS):
        chance = random.Random(f"events {number}")
        symbols = chance.choice(TABLES)
        writer = Writer(chance, chance.choice((1, 2, 3)), symbols)
        for _ in range(chance.choice((1, 2, 4))):
            writer.grow()
        data = writer.data + journals.CLOSED
        if chance.random() < 0.2:
            data = damaged(chance, data)
        after = chance.choice((None, None, 1, 2, chance.randint(1, 60), 10 ** 6, 2 ** 64 - 1))
        words = ["J", "once", *([] if after is None else ["--after", str(after)]), *symbols]
        by_rules(words, data)
        for line in told(*words).out.splitlines():
            kind = line.split(" ")[0]
            assert (line, bool(KINDS[kind].fullmatch(line))) == (line, True)
            seen[kind] += 1
    assert [kind for kind, count in seen.items() if count < 1000] == []


def test_wrong_words() -> None:
    put("J", journals.empty())
    for words in WRONG_WORDS:
        assert (words, told(*words)) == (words, outcome(words, {"J": journals.empty()}))
    assert told("missing", "once", "ABC") == Outcome(1, "", "venue-events: journal fault 41\n")
    os.mkdir("folder")
    assert told("folder", "once", "ABC") == Outcome(1, "", "venue-events: journal fault 41\n")


def test_what_is_not_followed() -> None:
    """A journal that isn't there, and what is none, is refused as `once` refuses it."""
    assert told("missing", "follow", "ABC") == Outcome(1, "", "venue-events: journal fault 41\n")
    for data in (b"", b"VNJL", b"no journal at all"):
        put("J", data)
        assert told("J", "follow", "ABC") == Outcome(1, "", "venue-events: journal fault 43\n")
    put("J", long_journal(10)[:-1])
    assert told("J", "follow", "ABC") == outcome(["J", "follow", "ABC"], {"J": kept()})


def test_any_beginning() -> None:
    """Of a journal that is broken off at any byte, or damaged there, the events before it stand, and the fault is told."""
    chance = random.Random("beginnings")
    writer = Writer(chance, 3, ("ABC",))
    for _ in range(3):
        writer.add_entries(2)
        writer.add_snapshot(0)
    for size in range(0, len(writer.data), 3):
        by_rules(["J", "once", "ABC"], writer.data[:size])
        by_rules(["J", "once", "ABC"], writer.data[:size] + b"\7" + writer.data[size + 1:] + journals.CLOSED)


def long_journal(count: int) -> bytes:
    """Orders that rest and trade by turns, and a few bytes that are no message."""
    entries = []
    for number in range(1, count + 1):
        member, side, price = 1 + number % 8, 1 + number % 2, 50 + number % 7
        entries.append(Entry(member, new_order(member, number + 1, "20260721-14:30:05", number, side, 1 + number % 9, price)))
    return journals.header(3) + journals.in_blocks(3, entries, 64) + journals.CLOSED


def test_outputs_that_fail() -> None:
    """A closed pipe and a full disk end it with status 1 and no line, also where nothing is to be told."""
    put("J", long_journal(3_000))
    put("N", journals.empty())
    for word in ("once", "follow"):
        with open("/dev/full", "wb") as full:
            it = subprocess.run([PROGRAM, "J", word, "ABC"], stdout=full, stderr=subprocess.PIPE, timeout=PATIENCE)
        assert (word, it.returncode, it.stderr) == (word, 1, b"")
    process = subprocess.Popen([PROGRAM, "J", "once", "ABC"], stdout=subprocess.PIPE, stderr=subprocess.PIPE)
    sure(process.stdout).readline()
    sure(process.stdout).close()
    assert (process.wait(PATIENCE), sure(process.stderr).read()) == (1, b"")
    sure(process.stderr).close()
    assert told("N", "once", "ABC") == Outcome(0, "", "")


def tells_within(kib: int) -> bool:
    """Whether all is told with so much address space."""
    words = ["sh", "-c", 'ulimit -v "$0" && exec "$@"', str(kib), PROGRAM, "J", "once", "ABC"]
    return subprocess.run(words, stdout=subprocess.DEVNULL, stderr=subprocess.DEVNULL, timeout=PATIENCE).returncode == 0


def test_memory_that_does_not_grow() -> None:
    """A long journal is told in the memory that a short one takes at least, and half a megabyte."""
    put("J", long_journal(2_000))
    least = next((kib for kib in range(1_000, MOST_MEMORY, 250) if tells_within(kib)), None)
    assert least is not None
    put("J", long_journal(60_000))
    assert (least, tells_within(least + 500)) == (least, True)


@pytest.mark.soak
def test_beside_a_venue(venue: Callable[..., Venue], member: Callable[[Venue, int], Client]) -> None:
    """While a venue serves, what is told is what its members have heard of; at its end it is all of it."""
    serving = venue(1, journal="J")
    client = member(serving, 1)
    for number in range(1, 11):
        client.send("D", order(number, 1 + number % 2, 10, 50))
        assert f"|11={number}|" in (client.next() or "")
        so_far = told("J", "once", "ABC")
        assert (so_far.status, so_far.err, f"|11={number}|" in so_far.out) == (0, "", True)
        for _ in range(0 if number % 2 else 2):
            assert "|150=F|" in (client.next() or "")
    serving.stop()
    with open("J", "rb") as file:
        data = file.read()
    by_rules(["J", "once", "ABC"], data)
    assert len(events_of(data, ("ABC",))) == 10


class Follower:
    """venue-events at `follow` on the journal J, whose lines are read as they come. It ends with the test, however that ends."""

    def __init__(self, *words: str) -> None:
        # (A shell that starts the tests in its background has SIGINT passed over, and so would what they start.)
        self.process = subprocess.Popen([PROGRAM, "J", "follow", *words, "ABC"], stdout=subprocess.PIPE, stderr=subprocess.PIPE,
                                        preexec_fn=lambda: signal.signal(signal.SIGINT, signal.SIG_DFL))
        running.append(self)
        self.out = b""

    def hears(self, wanted: str) -> None:
        """All that it has printed comes to be this, without an end."""
        end = time.monotonic() + PATIENCE
        while len(self.out) < len(wanted) and time.monotonic() < end:
            if select.select([self.process.stdout], [], [], 1)[0]:
                part = os.read(sure(self.process.stdout).fileno(), 65_536)
                if not part:
                    break
                self.out += part
        assert (self.out.decode(), self.process.poll()) == (wanted, None)

    def ends(self, status: int, err: str = "") -> None:
        """It ends so, with nothing more on its output."""
        assert self.process.wait(PATIENCE) == status
        assert (sure(self.process.stdout).read(), sure(self.process.stderr).read().decode()) == (b"", err)
        self.close()

    def rests(self) -> None:
        """It sleeps while nothing comes."""
        in_some_try(lambda _: self.rests_for_a_second(), "rests")

    def rests_for_a_second(self) -> None:
        def used() -> int:
            with open(f"/proc/{self.process.pid}/stat", encoding="ascii") as file:
                return sum(map(int, file.read().rpartition(")")[2].split()[11:13]))
        before, begun = used(), time.monotonic()
        time.sleep(1)
        seconds = (used() - before) / os.sysconf("SC_CLK_TCK")
        if seconds > 0.3 * (took := time.monotonic() - begun):
            raise Late(f"expected hardly any of {took:.1f} s of a processor came {seconds:.1f} s")

    def end_by(self, number: int) -> None:
        """A signal ends it, with nothing on either output."""
        self.process.send_signal(number)
        self.ends(-number)

    def close(self) -> None:
        sure(self.process.stdout).close()
        sure(self.process.stderr).close()

    def kill(self) -> None:
        self.process.kill()
        self.process.wait()
        self.close()


def grow(block: bytes) -> None:
    """Adds a block to J as the venue does: it is written behind the closed gate, which is opened then."""
    with open("J", "r+b") as file:
        gate = file.seek(0, os.SEEK_END) - 1
        file.seek(gate + 1)
        file.write(block[1:] + journals.CLOSED)
        file.flush()
        os.fsync(file.fileno())
        file.seek(gate)
        file.write(block[:1])


def lines_of(data: bytes, after: int = 0) -> str:
    """What is told of these bytes."""
    return outcome(["J", "once", *(["--after", str(after)] if after else []), "ABC"], {"J": data}).out


def kept() -> bytes:
    with open("J", "rb") as file:
        return file.read()


def blocks_by_chance(chance: random.Random, count: int) -> tuple[bytes, list[bytes]]:
    """The header of a journal, and blocks of it."""
    writer = Writer(chance, 3, ("ABC",))
    header, blocks = writer.data, []
    for number in range(count):
        before = len(writer.data)
        if number % 4 == 3:
            writer.add_snapshot(0)
        else:
            writer.add_entries(chance.randint(1, 5))
        blocks.append(writer.data[before:])
    return header, blocks


@pytest.mark.soak
def test_follows_what_comes() -> None:
    """Each block's lines come before the next one is there, whatever stands in it, and behind any command; signals end it."""
    for number, stop in enumerate((signal.SIGTERM, signal.SIGINT, signal.SIGTERM)):
        header, blocks = blocks_by_chance(random.Random(f"follow {number}"), 12)
        whole = journals.read(header + b"".join(blocks) + journals.CLOSED).entries
        after = (0, 3, len(whole) - 1)[number]
        put("J", header + b"".join(blocks[:2]) + journals.CLOSED)
        follower = Follower(*(["--after", str(after)] if after else []))
        follower.hears(lines_of(kept(), after))
        for block in blocks[2:]:
            grow(block)
            follower.hears(lines_of(kept(), after))
        assert len(follower.out) > 0
        follower.rests()
        follower.end_by(stop)


@pytest.mark.soak
def test_follows_from_nothing() -> None:
    """An empty journal is followed."""
    put("J", journals.empty())
    follower = Follower()
    grow(journals.block_of(3, [Entry(1, new_order(1, 2, "20260721-14:30:05", 1, 2, 100, 50))]))
    follower.hears(lines_of(kept()))
    follower.end_by(signal.SIGTERM)


@pytest.mark.soak
def test_follows_to_damage() -> None:
    """What ends a journal while it is followed: it is cut behind what was told, its header changes, or a block is none."""
    data = long_journal(300)
    def cut() -> int:
        os.truncate("J", len(data) - 100)
        return 42
    def turned() -> int:
        with open("J", "r+b") as file:
            file.write(b"VNJX")
        grow(journals.block_of(3, [Entry(1, b"any")]))
        return 43
    def spoilt() -> int:
        with open("J", "ab") as file:
            file.write(bytes([0, 0, 0, 2, 9, 9]))
        with open("J", "r+b") as file:
            file.seek(len(data) - 1)
            file.write(b"\1")
        return 42
    for change in (cut, turned, spoilt):
        put("J", data)
        follower = Follower()
        follower.hears(lines_of(data))
        fault = change()
        at = f" at {len(data) - 1}" if fault == 42 else ""
        follower.ends(1, f"venue-events: journal fault {fault}{at}\n")


@pytest.mark.soak
def test_follows_to_a_closed_output() -> None:
    """A pipe that is closed ends it at the next line, with status 1 and none of its own."""
    put("J", long_journal(20))
    follower = Follower()
    follower.hears(lines_of(kept()))
    sure(follower.process.stdout).close()
    grow(journals.block_of(3, [Entry(1, new_order(1, 99, "20260721-14:30:05", 99, 2, 100, 50))]))
    assert (follower.process.wait(PATIENCE), sure(follower.process.stderr).read()) == (1, b"")
    follower.close()


@pytest.mark.soak
def test_follows_a_venue(venue: Callable[..., Venue], member: Callable[[Venue, int], Client]) -> None:
    """While a venue serves, the lines of each command come once its member has heard of it."""
    serving = venue(1, journal="J")
    client = member(serving, 1)
    follower = Follower()
    for number in range(1, 11):
        client.send("D", order(number, 1 + number % 2, 10, 50))
        assert f"|11={number}|" in (client.next() or "")
        for _ in range(0 if number % 2 else 2):
            assert "|150=F|" in (client.next() or "")
        follower.hears(lines_of(kept()))
    follower.rests()
    serving.stop()
    follower.hears(lines_of(kept()))
    assert follower.out.count(b"command ") == 10
    follower.end_by(signal.SIGTERM)
