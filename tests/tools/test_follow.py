"""Tests of `gikvand follow`: what a copy is at each moment, whatever stops it, and which it refuses."""
import contextlib
import errno
import fcntl
import importlib
import io
import os
import random
import re
import signal
import subprocess
import sys
import time
import types
from collections.abc import Iterator
from unittest import mock

import pytest

from days import each_version, made
from gikvand import journals
from gikvand.follow import Source
from gikvand.journals import Entry
from gikvand.words import sure
from made_journals import BEHIND, DAY, JOURNAL, TOOLS, Made, contents, followed, gikvand, put, untimed, with_byte
from noting import LOCKED, can_be_noted, noted, order_of
from running_tools import Follower, await_copy
from traders import Member
from venues import PATIENCE, Client, Trouble, await_that, started

pytestmark = [pytest.mark.slow, pytest.mark.usefixtures("programs")]

Came = tuple[int, list[str], list[str]]  # A status, and the lines of both outputs.

TAIL = 150  # So many bytes of a copy are its tail in most of these tests: less than its last two blocks have.
ONCE = ("--once",)


def module() -> types.ModuleType:
    return importlib.import_module("gikvand.follow")


@contextlib.contextmanager
def ending_by_itself() -> Iterator[None]:
    """While this lasts a follower ends where it would wait, as by a signal, and the tail that it compares first is short."""
    with mock.patch.multiple(module(), A_TAIL=TAIL, has_signal=lambda seconds: seconds > 0):
        yield


def both_ways(data: bytes) -> Iterator[tuple[tuple[str, ...], Came, bytes]]:
    """A copy of these bytes is followed once, and one until a signal: the words, what came, and the copy then."""
    for words in (ONCE, ()):
        with ending_by_itself(), mock.patch.object(os, "fdatasync"):
            came = followed(JOURNAL, put("the.copy", data), *words)
        yield words, came, contents("the.copy")
    os.remove("the.copy")


def test_followed_once() -> None:
    """A copy is made, and grows with its journal; what an earlier call left behind its gate doesn't matter."""
    for it in each_version():
        assert followed(JOURNAL, "new.copy", "--once") == (0, [f"new.copy: {len(DAY) + len(BEHIND)} entries, 0 bytes behind"], [])
        assert (contents("new.copy"), contents("new.copy.symbols")) == (it.data, b"ABC XYZ\n")
        assert oct(os.stat("new.copy").st_mode & 0o777) == "0o600"
        assert gikvand("verify", "new.copy")[0] == 0
        for start, end in zip(it.starts, [*it.starts[1:], len(it.data) - 1]):
            begun = it.data[:start] + b"\0"
            for left in (b"", it.data[start + 1:start + 2], it.data[start + 1:end], it.data[start + 1:], b"\1" * 2000):
                for words, (status, _, _), copy in both_ways(begun + left):
                    assert (words, start, status, copy == it.data) == (words, start, 0, True)
        put(JOURNAL, it.data + it.data[it.starts[-1] + 1:-5])
        assert (followed(JOURNAL, "new.copy", "--once")[0], contents("new.copy")) == (0, it.data)
        for name in ("new.copy", "new.copy.symbols", "the.copy.symbols"):
            os.remove(name)


class Device:
    """The calls at a copy, and what a crash may leave of it at each: what was synced, with any bytes where a write wasn't. Each
    such file has to be a journal of a beginning."""

    def __init__(self, whole: bytes) -> None:
        self.whole, self.calls = journals.read(whole).entries, list[str]()
        self.synced = self.now = b""

    def pwrite(self, fd: int, data: bytes, at: int) -> int:
        if not os.readlink(f"/proc/self/fd/{fd}").endswith("/the.copy"):  # (that of the symbols)
            return PWRITE(fd, data, at)
        part = data[:max(1, len(data) * 2 // 3)]
        self.now = os.pread(fd, 1 << 20, 0)
        count = PWRITE(fd, part, at)
        self.calls.append("open" if part == journals.OPEN and self.calls[-1:] == ["sync"] else "write")
        for torn in (part, part[:len(part) // 2], bytes(len(part)), b"\1" * len(part), b"\xff" * len(part)):
            self.look(self.synced[:at].ljust(at, b"\1") + torn + self.synced[at + len(torn):])
        self.look(os.pread(fd, 1 << 20, 0))
        return count

    def sync(self, fd: int) -> None:
        SYNC(fd)
        if not os.readlink(f"/proc/self/fd/{fd}").endswith("/the.copy"):
            return self.calls.append("journal")
        self.synced = os.pread(fd, 1 << 20, 0)
        self.calls.append("sync")

    def look(self, data: bytes) -> None:
        found = journals.read(data).entries
        assert found == self.whole[:len(found)]


PWRITE, SYNC = os.pwrite, os.fdatasync


def in_short_runs() -> contextlib.AbstractContextManager:
    """While this lasts some blocks alone are written between two syncs."""
    return mock.patch.object(module(), "A_RUN", 200)


def test_order_of_writes() -> None:
    """Whatever a crash leaves of a copy is a journal of a beginning; and each gate is opened by a write of its own. Also where
    a gate in the copy's midst was closed by something else, which shows once its end has grown."""
    for it in each_version():
        empty, begun, grown = (it.data[:it.starts[at]] + b"\0" for at in (0, 1, -2))
        for data, words in ((empty, ONCE), (empty, ()), (begun, ()), (with_byte(grown, it.starts[1], 0), ())):
            device = Device(it.data)
            device.synced = contents(put("the.copy", data))
            with mock.patch.multiple(os, pwrite=device.pwrite, fdatasync=device.sync), in_short_runs(), ending_by_itself():
                assert followed(JOURNAL, "the.copy", *words)[0] == 0
            assert contents("the.copy") == it.data
            calls = " ".join(device.calls)
            assert (calls, bool(re.fullmatch("(journal( write)+ sync open sync ){3,}sync", calls))) == (calls, True)
        os.remove("the.copy")


def test_gates_opened_later() -> None:
    """A block whose gate is closed at one look, and open at the next, is shipped then."""
    for it in each_version():
        *_, last = it.starts
        put(JOURNAL, with_byte(it.data, last, 0))
        source = module().Source(JOURNAL)
        assert (source.blocks(), source.blocks()) == (it.data[it.starts[0]:last], b"")
        with open(JOURNAL, "r+b") as file:
            os.pwrite(file.fileno(), journals.OPEN, last)
        assert (source.blocks(), source.blocks()) == (it.data[last:-1], b"")


def with_more(it: Made, gate: int, blocks: int) -> bytes:
    """A journal whose beginning, up to this gate, is that of this one, and which has so many other blocks behind it."""
    return it.data[:gate] + journals.block_of(it.version, [Entry(1, b"other")]) * blocks + b"\0"


def test_copies_that_are_refused() -> None:
    """What isn't a beginning of the journal stays as it is."""
    for it in each_version():
        other = with_byte(it.data, it.starts[1] + 60, it.data[it.starts[1] + 60] ^ 1)
        first, *_, last = it.starts
        other_words = "isn't a beginning of that journal, and stays as it is: {}. Name another file"
        too_long = f"the journal ends behind {len(DAY) + len(BEHIND)} entries, and it has more"
        spoiled = [(other, other_words.format(f"they differ in the block at {it.starts[1]}")),
                   (journals.empty(it.version % 3 + 1), other_words.format("its header is another one")),
                   (b"", other_words.format("it is no journal")),
                   (it.data[:-1], f"is damaged at {len(it.data) - 1}: the file ends where a gate should be")]
        spoiled += [(with_more(it, len(it.data) - 1, count), other_words.format(too_long)) for count in (1, 1000)]
        spoiled += [(with_more(it, gate, count), other_words.format(f"they differ in the block at {gate}"))
                    for gate in (first, last) for count in (1, 20, 1000)]
        for data, said_of in spoiled:
            for way, (status, out, err), copy in both_ways(data):
                assert (way, status, out, [line.startswith(f"gikvand follow: the.copy {said_of}") for line in err]) == (
                    way, 2, [], [True])
                assert (way, copy == data) == (way, True)
        put("the.copy", it.data)
        with open("the.copy", "rb") as file:
            fcntl.flock(file, fcntl.LOCK_EX)
            assert [line.split(" by ")[0] for line in followed(JOURNAL, "the.copy", "--once")[2]] == (
                ["gikvand follow: the.copy is in use"])
        put("the.copy.symbols", b"XYZ\n")
        of_both = "the journal the.copy is one of XYZ, as the.copy.symbols says, and not of ABC XYZ"
        assert followed(JOURNAL, "the.copy", "--once")[2] == [f"gikvand follow: {of_both}"]
        os.remove("the.copy.symbols")
        put("damaged", it.data[:-9])
        assert [line.split(": ")[1] for line in followed("damaged", "the.copy", "--once")[2]] == (
            [f"damaged is damaged at {it.starts[-1]}"])
        os.remove("the.copy")
    os.symlink(JOURNAL, "link")
    os.mkfifo("pipe")
    put("empty", b"")
    no_header = "it doesn't begin with the header of a journal of version 1, 2 or 3 (fault 43): is the name right?"
    cases: list[tuple[list[str], str | None]] = [
        ([], None),
        ([JOURNAL], None),
        (["missing", "the.copy"], "missing: No such file or directory"),
        ([JOURNAL, JOURNAL], f"{JOURNAL} is the journal itself"),
        ([JOURNAL, "link"], "link is the journal itself"),
        ([JOURNAL, "none/copy"], "none/copy can't be written: No such file or directory"),
        ([JOURNAL, "."], ".: Is a directory"),
        (["/dev/null", "the.copy"], "/dev/null is no file, but a pipe or a device"),
        (["empty", "the.copy"], f"empty: {no_header}"),
        ([JOURNAL, "pipe"], "pipe is no file, but a pipe or a device"),
        (["pipe", "the.copy"], "pipe is no file, but a pipe or a device")]
    for words, line in cases:
        status, out, err = followed(*words, *["--once"] * bool(line))
        assert (words, status, out) == (words, 2, [])
        assert (words, err[-1:] if line else bool(err)) == (words, [f"gikvand follow: {line}"] if line else True)
    assert os.path.exists("the.copy") == False


def said(came: Came) -> tuple[int, list[str]]:
    """The status and the lines of what is wrong, but for how many bytes a copy has behind the damage: it may have grown."""
    return came[0], [re.sub(r", and \d+ are there", "", line) for line in came[2]]


def test_changed_copies() -> None:
    """Where a byte of a copy was changed the words are those of --once, whichever it is. Nothing is written where its header or
    its tail shows it; where it stands before that the copy has caught up. A gate that was closed is opened again."""
    for it in each_version():
        gate, statuses = it.starts[-2], set()
        copy = it.data[:gate] + b"\0"
        tail = len(copy) - TAIL
        opened = [at for at in range(tail, len(copy)) if copy[at:at + 1] == journals.OPEN]
        for at in sorted({*range(it.starts[0] + 6), *range(it.starts[0], len(copy), 13), *it.starts[:-1], *opened}):
            changed = with_byte(copy, at, copy[at] ^ 1)
            (_, once, stays), (_, came, grown) = both_ways(changed)
            assert (at, said(came)) == (at, said(once))
            if once[0] == 0:
                assert (at, at in it.starts, came[1][0], stays == grown == it.data) == (at, True, once[1][0], True)
            else:
                is_seen = at < it.starts[0] or at >= tail
                wanted = changed if is_seen else changed[:gate] + it.data[gate:]
                assert (at, stays == changed, grown == wanted) == (at, True, True)
            statuses.add(once[0])
        assert statuses == {0, 2}
        os.remove("the.copy.symbols")


def test_long_copies() -> None:
    """A copy of some megabytes, with a tail as long as ever, catches up. A byte that was changed before the tail is told then,
    and one within it before that; a gate that was closed is opened again, within the tail or before."""
    block = journals.block_of(journals.MADE, [Entry(1, b"x" * 300)] * 64)
    data = journals.empty()[:-1] + block * 500 + b"\0"
    middle, gate = (len(data) - 1 - len(block) * blocks for blocks in (450, 50))
    put(JOURNAL, data)
    for at, byte, differs_at in ((gate, 0, None), (gate - len(block) * 50, 0, None), (middle, 0, None),
                                 (middle + 99, 1, middle), (gate - 99, 1, gate - len(block))):
        put("the.copy", with_byte(data[:gate] + b"\0", at, byte))
        with mock.patch.object(module(), "has_signal", lambda seconds: seconds > 0):
            status, _, err = followed(JOURNAL, "the.copy")
        copy = contents("the.copy")
        if differs_at is None:
            assert (at, status, copy == data) == (at, 0, True)
        else:
            grown = data if differs_at == middle else data[:gate] + b"\0"
            assert (at, status, [f"they differ in the block at {differs_at}. " in line for line in err]) == (at, 2, [True])
            assert (at, copy == with_byte(grown, at, byte)) == (at, True)


def test_gates_within_messages() -> None:
    """A message may have bytes in it that look like a block: a copy that has another byte in the place of the gate there isn't
    a beginning. That is told, and where more of its tail differs nothing is written."""
    for version in journals.VERSIONS:
        within = journals.block_of(version, [Entry(1, b"inside")])
        journal = journals.empty(version)[:-1] + journals.block_of(version, [Entry(1, b"around" + within)])
        gate = len(journal)
        put(JOURNAL, journal + journals.block_of(version, [Entry(1, b"behind")]) + b"\0")
        changed = with_byte(journal + b"\0", gate - len(within), 0)
        other = changed[:-3] + b"no\0"
        for copy, is_seen in ((changed, False), (other, True)):
            (_, once, stays), (_, came, grown) = both_ways(copy)
            assert (once[0], said(came), stays == copy, grown == copy) == (2, said(once), True, is_seen)


def test_blocks_that_never_counted() -> None:
    """A block that the journal has behind its closed gate isn't in it, whatever its bytes: a copy that has it is longer."""
    for it in each_version():
        copy, gate = with_more(it, len(it.data) - 1, 1), len(it.data) - 1
        put(JOURNAL, with_byte(copy, gate, 0))
        for way, (status, _, err), after in both_ways(copy):
            assert (way, status, [" and it has more. " in line for line in err], after == copy) == (way, 2, [True], True)
        for way, (status, out, _), after in both_ways(with_byte(copy, gate, 0)):
            assert (way, status, out[0]) == (way, 0, f"the.copy: {len(DAY) + len(BEHIND)} entries, 0 bytes behind")
            assert (way, after == it.data) == (way, True)
        os.remove("the.copy.symbols")


def test_snapshots_before_it_is_compared() -> None:
    """A snapshot says how many entries stand before it, so it waits until these are counted. A false number is damage."""
    it = made(3)
    snapshot, = journals.read(it.data).snapshots
    gates = [(block.offset, block.before) for block in journals.Reader(io.BytesIO(it.data)) if block.offset <= snapshot.offset]
    for gate, count in gates[1:]:
        put(JOURNAL, it.data)
        for way, (status, _, _), copy in both_ways(it.data[:gate] + b"\0"):
            assert (way, gate, status, copy == it.data) == (way, gate, 0, True)
        at, false = snapshot.offset + 6, (snapshot.before - count).to_bytes(8, "big")
        put(JOURNAL, it.data[:at] + false + it.data[at + 8:])
        line = f"{JOURNAL} is damaged at {snapshot.offset}: its snapshot isn't one behind {snapshot.before} entries"
        for way, came, copy in both_ways(it.data[:gate] + b"\0"):
            assert (way, gate, came) == (way, gate, (2, [], [f"gikvand follow: {line}"]))
            assert (way, gate, copy == it.data[:snapshot.offset] + b"\0") == (way, gate, True)


def test_ended_while_compared() -> None:
    """A signal that comes before all of the copy was compared is an end in order. It may have caught up by then."""
    it = made(3)
    put(JOURNAL, it.data)
    copy = it.data[:it.starts[-1]] + b"\0"
    for words, wanted in ((ONCE, copy), ((), it.data)):
        put("the.copy", copy)
        with mock.patch.object(module(), "has_signal", lambda seconds: True):
            assert followed(JOURNAL, "the.copy", *words) == (0, ["the.copy: ended by a signal, while it was compared"], [])
        assert (words, contents("the.copy") == wanted) == (words, True)


def entries_in(path: str) -> int:
    """How many entries a copy has, which may not be there yet."""
    return len(journals.read(contents(path)).entries) if os.path.exists(path) else 0


@pytest.mark.soak
def test_followed_while_in_use() -> None:
    """Members trade, and the follower is killed again and again, as it begins or once it has copied more: at each moment the copy
    is a beginning, and it catches up."""
    venue = started(JOURNAL, 2)
    traders = [Member(Client(venue.port, it).socket, it, 1, 0.01) for it in (1, 2)]
    chance, seen = random.Random(1), []
    for number in range(6):
        before, follower = entries_in("the.copy"), Follower(JOURNAL, "the.copy")
        if number % 2:
            await_that("the copy grows", lambda: entries_in("the.copy") > before + 50)
        for _ in range(10):
            time.sleep(chance.random() * 0.05)
            if os.path.exists("the.copy"):
                seen.append(contents("the.copy"))
        follower.kill()
    follower = Follower(JOURNAL, "the.copy").has_caught_up()
    for it in traders:
        it.cease()
    venue.stop()
    whole = contents(JOURNAL)
    gate = journals.read(whole).gate
    await_copy("the.copy", gate + 1)
    status, line, err = follower.end(signal.SIGTERM)
    entries = journals.read(whole).entries
    assert (status, line, err) == (0, f"the.copy: {len(entries)} entries, 0 bytes behind, ended by a signal", "")
    assert contents("the.copy") == whole[:gate] + b"\0"
    counts = [len(found.entries) for found in map(journals.read, seen) if found.entries == entries[:len(found.entries)]]
    assert (len(counts), counts, counts[-1] > 100) == (len(seen), sorted(counts), True)


@pytest.mark.soak
def test_told_of_writes() -> None:
    """A follower that would look again in ten minutes alone ships what is written at once, since the system tells of the write."""
    whole = made(3)
    put(JOURNAL, whole.data[:whole.starts[2]] + journals.CLOSED)
    words = "import gikvand.follow as it, gikvand.main as main; it.PAUSE = 600; main.run('follow', ['{}', 'the.copy'])"
    follower = subprocess.Popen([sys.executable, "-c", words.format(JOURNAL)], stdout=subprocess.PIPE,
                                env={**os.environ, "PYTHONPATH": TOOLS})
    try:
        assert b" 0 bytes behind" in sure(follower.stdout).readline()
        with open(JOURNAL, "r+b") as file:
            file.seek(whole.starts[2] + 1)
            file.write(whole.data[whole.starts[2] + 1:])
            file.flush()
            os.pwrite(file.fileno(), journals.OPEN, whole.starts[2])
        await_that("the copy is whole", lambda: contents("the.copy") == whole.data)
    finally:
        follower.kill()
        follower.communicate()


@pytest.mark.soak
def test_a_standby() -> None:
    """A venue is killed while it is followed, starts again, and goes on; then another one goes on with the copy."""
    put(f"{JOURNAL}.symbols", b"ABC\n")
    follower, first = None, 1
    for is_last in (False, False, True):
        venue = started(JOURNAL, 1)
        follower = follower or Follower(JOURNAL, "the.copy").has_caught_up()
        trader = Member(Client(venue.port, 1).socket, 1, first, 0.01)
        await_that("the member is answered", lambda: trader.answered() > 50)
        if is_last:
            trader.cease()
            counts = venue.stop()
        else:
            venue.kill()
            trader.reports()
        first = trader.name
    whole = contents(JOURNAL)
    await_copy("the.copy", journals.read(whole).gate + 1)
    assert sure(follower).end(signal.SIGTERM)[0] == 0
    assert contents("the.copy") == whole[:journals.read(whole).gate] + journals.CLOSED
    assert gikvand("verify", "the.copy")[0] == 0
    standby = started("the.copy", 1, contents("the.copy.symbols").decode().split())
    assert (standby.stop(), counts[0] > 100) == (counts, True)


@pytest.mark.soak
def test_ends_of_a_follower() -> None:
    """Both signals end it in order; another file under the journal's name, and one that is cut, end it with a line."""
    data = made(3).data
    for number in (signal.SIGTERM, signal.SIGINT):
        put(JOURNAL, data)
        follower = Follower(JOURNAL, "the.copy").has_caught_up()
        assert follower.end(number) == (0, "the.copy: 9 entries, 0 bytes behind, ended by a signal", "")
    another = "isn't the file any more that it was: another journal wants another copy"
    for change, words in ((lambda: os.replace(put("other", data), JOURNAL), another),
                          (lambda: os.remove(JOURNAL), another),
                          (lambda: os.truncate(JOURNAL, 100), "has become shorter than what was read of it")):
        put(JOURNAL, data)
        follower = Follower(JOURNAL, "the.copy").has_caught_up()
        change()
        err = follower.process.communicate(timeout=PATIENCE)[1]
        assert (follower.process.returncode, untimed(err)) == (2, f"gikvand follow: {JOURNAL} {words}\n")


def test_cut_behind_a_look() -> None:
    """A journal that is cut right behind a look at its length has become shorter as well, whatever is looked at next."""
    put(JOURNAL, made(3).data)
    check, has_caught_up = Source.check, False
    def rested(seconds: float) -> bool:
        nonlocal has_caught_up
        has_caught_up |= seconds > 0
        return False
    def cut(source: Source) -> None:
        check(source)
        if has_caught_up:
            os.truncate(JOURNAL, 100)
    with mock.patch.object(module(), "has_signal", rested), mock.patch.object(Source, "check", cut):
        assert followed(JOURNAL, "the.copy")[::2] == (2, [f"gikvand follow: {JOURNAL} has become shorter than what was read of it"])


@pytest.mark.soak
def test_copies_that_go() -> None:
    """A copy that is removed, moved or replaced while it is followed ends the follower with a line, with and without growth."""
    data, start = made(3).data, made(3).starts[-1]
    gone = ("isn't the file any more that it was: what came since isn't in the one of that name. Begin a new copy")
    for change in (lambda: os.remove("the.copy"), lambda: os.rename("the.copy", "moved"),
                   lambda: os.replace(put("other", data), "the.copy")):
        for grows in (False, True):
            put(JOURNAL, data[:start] + b"\0")
            follower = Follower(JOURNAL, "the.copy").has_caught_up()
            change()
            if grows:
                with open(JOURNAL, "r+b") as file:
                    os.pwrite(file.fileno(), data[start + 1:], start + 1)
                    os.pwrite(file.fileno(), journals.OPEN, start)
            err = follower.process.communicate(timeout=PATIENCE)[1]
            assert (follower.process.returncode, untimed(err)) == (2, f"gikvand follow: the.copy {gone}\n")
            for name in ("the.copy", "moved"):
                if os.path.exists(name):
                    os.remove(name)


def test_journals_written_over() -> None:
    """Another journal in the same file, as long or longer, is seen: at the next line, before more is copied, and at an end."""
    it = made(3)
    entries = journals.read(it.data).entries
    other = journals.header(3) + journals.in_blocks(3, entries[::-1], 1) + b"\0"
    changed = with_byte(it.data, len(it.data) - 20, it.data[-20] ^ 1)
    headless = journals.header(3, 5) + it.data[16:]
    cases = {"longer": other + bytes(len(it.data)), "as long": changed, "another header": headless,
             "grown": changed[:-1] + journals.block_of(3, [Entry(1, b"more")]) + b"\0"}
    for name, data in cases.items():
        for looks in (True, False):
            put(JOURNAL, it.data)
            calls = 0
            def signalled(seconds: float) -> bool:
                nonlocal calls
                if seconds > 0:
                    calls += 1
                    if calls == 1:
                        put(JOURNAL, data)  # (the same file)
                return calls > (100 if looks else 1)
            with mock.patch.multiple(module(), has_signal=signalled, EVERY=0 if looks else 10 ** 6):
                status, _, err = followed(JOURNAL, "the.copy")
            line = f"gikvand follow: {JOURNAL} or the.copy was written over: they differ before the byte "
            assert (name, looks, status, [found[:len(line)] for found in err], calls < 50) == (name, looks, 2, [line], True)
            assert (name, contents("the.copy") == it.data) == (name, True)
            os.remove("the.copy")


def test_calls_of_a_new_copy() -> None:
    """A new copy and its symbols have their names once their bytes are on the device, and the folder is synced behind that; nobody
    else may read the copy, and its lock is for one alone."""
    if not can_be_noted():
        return
    put(JOURNAL, made(3).data)
    put(f"{JOURNAL}.symbols", b"ABC XYZ\n")
    words = [sys.executable, "-S", "-m", "gikvand", "follow", JOURNAL, "the.copy", "--once"]
    mask = os.umask(0o022)  # (the follower has the mask of whoever starts the tests)
    try:
        status, calls = noted(*words, PYTHONPATH=TOOLS, PYTHONDONTWRITEBYTECODE="1")
    finally:
        os.umask(mask)
    def making(name: str) -> list[str]:
        return [f"open {name}.new", f"write {name}.new", f"sync {name}.new", f"rename {name}.new {name}", "sync ."]
    names = ("the.copy", "the.copy.symbols")
    found = order_of(calls, ".", *names, *(f"{it}.new" for it in names))
    first, second = (found.index(f"open {it}.new") for it in names)
    assert (status, found[first:first + 5], found[second:second + 5]) == (0, *map(making, names))
    assert f"flock the.copy {LOCKED}" in found[first:second]
    assert [oct(os.stat(it).st_mode & 0o777) for it in names] == ["0o600", "0o644"]


def test_lines_in_time() -> None:
    """A line each ten seconds where something came, and none where nothing did."""
    data, start = made(3).data, made(3).starts[-1]
    for grows, wanted in ((False, 2), (True, 3)):  # (the first as it has caught up, and the last at its end)
        put(JOURNAL, data[:start] + b"\0")
        calls = 0
        def signalled(seconds: float) -> bool:
            nonlocal calls
            calls += seconds > 0
            if grows and calls == 3:
                put(JOURNAL, data)
            return calls > 8
        with mock.patch.multiple(module(), has_signal=signalled, EVERY=0):
            status, out, err = followed(JOURNAL, "the.copy")
        # (with no time between lines there is one more, before it has caught up, and some while it grows)
        assert (grows, status, len(out) == len(set(out)) + 1, len(set(out)) >= wanted, err) == (grows, 0, True, True, [])
        assert (grows, grows or len(set(out)) == wanted) == (grows, True)
        os.remove("the.copy")


def test_ends_of_a_backup() -> None:
    """A backup ends where the journal ended as it began, however much comes meanwhile."""
    it, looks = made(3), 0
    class Growing(Source):  # A journal that has grown by a block at each look.
        def blocks(self) -> bytes:
            nonlocal looks
            looks += 1
            if looks > 50:
                raise Trouble("it goes on as long as something comes")
            with open(JOURNAL, "r+b") as file:
                data = file.read()
                file.seek(len(data) - 1)
                file.write(journals.block_of(3, [Entry(1, b"more")]) + b"\0")
            return super().blocks()
    put(JOURNAL, it.data)
    with mock.patch.object(module(), "Source", Growing):
        assert (followed(JOURNAL, "the.copy", "--once")[0], looks < 10) == (0, True)
    assert contents("the.copy").startswith(it.data[:-1])


@pytest.mark.soak
@pytest.mark.usefixtures("journal")
def test_one_follower_a_copy() -> None:
    """A second one on the same copy is refused, and so is `watch` told that no venue serves it; `why` names it by its words."""
    follower = Follower(JOURNAL, "the.copy").has_caught_up()
    who = f"gikvand follow (process {follower.process.pid})"
    assert followed(JOURNAL, "the.copy", "--once") == (2, [], [f"gikvand follow: the.copy is in use by {who}"])
    status, out, _ = gikvand("watch", "the.copy", "--quick", "--prometheus")
    assert (status, 'gikvand_up{journal="the.copy"} 0' in out) == (1, True)
    assert gikvand("why", "the.copy")[1] == [f"in use: {who} has it, and each other start is fault 41",
                                             f"    let it go on, or end it first: kill {follower.process.pid}"]
    assert follower.end(signal.SIGTERM)[0] == 0


def test_full_disks() -> None:
    """A write that fails leaves a journal, and a later call goes on."""
    data, full = made(3).data, "gikvand follow: the.copy can't be written: No space left on device"
    put(JOURNAL, data)
    for calls in range(4):
        def refused(fd: int, part: bytes, at: int) -> int:
            nonlocal calls
            calls -= 1
            if calls < 0:
                PWRITE(fd, part[:len(part) // 2], at)
                raise OSError(errno.ENOSPC, os.strerror(errno.ENOSPC))
            return PWRITE(fd, part, at)
        with mock.patch.object(os, "pwrite", refused), in_short_runs():
            status, _, err = followed(JOURNAL, "the.copy", "--once")
        if os.path.exists("the.copy"):
            assert (status, err) == (2, [f"{full}. It is a journal still, up to its gate"])
            found = journals.read(contents("the.copy")).entries
            assert found == journals.read(data).entries[:len(found)]
        else:
            assert (status, err) == (2, [full])
    assert (followed(JOURNAL, "the.copy", "--once")[0], contents("the.copy") == data) == (0, True)
