"""Ships a journal to a copy, also while it is in use: the copy is at each moment a journal of a beginning of the history.

    gikvand follow JOURNAL COPY            goes on until SIGTERM or SIGINT (Ctrl-C): for a standby
    gikvand follow JOURNAL COPY --once     ends where the journal ends: for a backup

Whole blocks are written behind the copy's closed gate and synced; then the gate is opened, and that is synced. So whatever
stops it, at any moment, leaves a journal, and a later call with the same words goes on from there. A missing copy is made, and
with it COPY.symbols where JOURNAL.symbols is there. A copy that somebody else has locked is refused.

So is one that isn't a beginning of this journal. With --once all of it is compared first, block by block, and nothing is written
to another one. Else its header and its last megabytes are, by which a copy of another journal shows; then it catches up, and all
of it is compared between looks. Where it differs then, it has got what came meanwhile.

It prints how many entries the copy has, and by how many bytes it is behind: once it has caught up and is compared, every ten
seconds while something comes, and at its end. Each line begins with the time of day. The status is 0 at an end by a signal too,
and 2 where it can't go on: where the copy isn't a beginning, can't be written, or isn't there any more; or where the journal was
replaced, written over, became shorter or is damaged. A copy that is there is then as whole as at any other moment.
"""
import argparse
import contextlib
import os
import signal
import time
from collections.abc import Iterator
from typing import BinaryIO

from gikvand import locks, mends, symbols
from gikvand.clock import Writes
from gikvand.files import is_named, make, need_regular, opened, write_all, writing
from gikvand.journals import CLOSED, OPEN, Block, Damaged, NotAJournal, Reader, exactly, header
from gikvand.words import Trouble, some, stamped, time_of_day

ENDS = {signal.SIGTERM, signal.SIGINT}
A_RUN = 1 << 20   # About so many bytes are written between two syncs, where so many wait.
A_TAIL = 2 << 20  # So many last bytes of a copy are compared first: mostly more than a run leaves behind a gate.
PAUSE = 0.05      # Seconds between two looks for what has come, at most: a write is told of by the system.
A_REST = 0.005    # So long it rests before it looks, that each block doesn't take syncs of its own.
A_PIECE = 0.02    # Seconds between two looks while the copy is compared.
EVERY = 10        # Seconds between two lines, and between two looks whether the journal was written over.
A_LOOK = 1 << 12  # So many last bytes are looked at then.


def add_words(parser: argparse.ArgumentParser) -> None:
    parser.add_argument("journal", metavar="JOURNAL", help="the journal's file")
    parser.add_argument("copy", metavar="COPY", help="the copy's file, which is made where it is missing")
    parser.add_argument("--once", action="store_true", help="end where the journal ends now")


@contextlib.contextmanager
def signals_held() -> Iterator[None]:
    """Keeps the signals that end it until it looks for them: so they come between two runs of blocks."""
    before = signal.pthread_sigmask(signal.SIG_BLOCK, ENDS)
    try:
        yield
    finally:
        signal.pthread_sigmask(signal.SIG_SETMASK, before)


def has_signal(seconds: float) -> bool:
    """Whether a signal has come that ends it, or comes within this time. (Python's sigtimedwait tells of one that never came, where the
    process is stopped while it waits, and goes on later.)"""
    if seconds:  # (A sleep for no time takes some.)
        time.sleep(seconds)
    return signal.sigtimedwait(ENDS, 0) is not None


def common(one: bytes, other: bytes) -> int:
    """How many first bytes both have."""
    same, more = 0, min(len(one), len(other))
    while same < more:
        middle = (same + more + 1) // 2
        if one[same:middle] == other[same:middle]:
            same = middle
        else:
            more = middle - 1
    return same


def bytes_at(file: BinaryIO, at: int, count: int) -> bytes:
    file.seek(at)
    return exactly(file, count)


class Ended(Exception):
    """A signal came that ends it, before all of the copy was compared."""


class Source:
    """The journal that is followed, and how far it was read."""

    def __init__(self, path: str, another: str = "another journal wants another copy") -> None:
        self.path, self.another = path, another
        self.file = opened(path, buffering=0)  # A buffer would show gates as they were.
        try:
            self.reader = Reader(self.file)
        except NotAJournal:
            raise Trouble(f"{path}: {mends.NOT_A_JOURNAL}") from None

    def size(self) -> int:
        return os.fstat(self.file.fileno()).st_size

    def behind(self) -> int:
        """How many bytes stand behind what was read. What stands behind a closed gate isn't in the journal yet."""
        is_open = os.pread(self.file.fileno(), 1, self.reader.gate) == OPEN
        return max(0, self.size() - 1 - self.reader.gate) if is_open else 0

    def next(self) -> Block | None:
        """The next block, if there is one."""
        return self.next_by(self.reader)

    def next_by(self, reader: Reader) -> Block | None:
        """The next block of one that reads this journal, if there is one."""
        try:
            return reader.next()
        except Damaged as why:
            raise Trouble(f"{self.path} is damaged at {why.offset}: {why.why}") from None

    def blocks(self) -> bytes:
        """The next whole blocks, as many as stand there and may be written between two syncs. Damage behind them comes next,
        and what looks like it where the entries before aren't counted, once they are."""
        found = b""
        try:
            while len(found) < A_RUN and (block := self.next()):
                found += block.data
        except Trouble:
            if not found and self.reader.is_counted:
                raise
        if found:
            os.fdatasync(self.file.fileno())  # Else a crash might take back there what the copy has.
        return found

    def check(self) -> None:
        """Stops where the name has another file now, or the file has lost what was read of it."""
        if not is_named(self.path, self.file.fileno()):
            raise Trouble(f"{self.path} isn't the file any more that it was: {self.another}")
        if self.size() <= self.reader.gate:
            raise Trouble(f"{self.path} has become shorter than what was read of it")

    def look_back(self, copy: "Copy") -> None:
        """Stops where the journal hasn't any more what was read of it: its header, and its last bytes."""
        for start in (0, max(0, copy.gate - A_LOOK)):
            end = min(copy.gate, start + A_LOOK)
            ours = os.pread(copy.fd, end - start, start)
            if os.pread(self.file.fileno(), end - start, start) != ours:
                self.check()  # It may have become shorter behind the look before.
                raise Trouble(f"{self.path} or {copy.path} was written over: they differ before the byte {end}")


class Copy:
    """The copy, which nobody else has meanwhile: a journal up to its closed gate."""

    def __init__(self, path: str, source: Source) -> None:
        self.path = path
        if os.path.exists(path) and os.path.samefile(path, source.path):
            raise Trouble(f"{path} is the journal itself")
        if not os.path.lexists(path):
            make(path, header(source.reader.version, source.reader.cut) + CLOSED)
        need_regular(path, os.stat(path).st_mode)
        self.file = open(path, "r+b", buffering=0)
        self.fd = self.file.fileno()
        locks.take(self.fd, path)
        self.gate = self.first_gate(source)

    def check(self) -> None:
        """Stops where the name has another file now, or none."""
        if not is_named(self.path, self.fd):
            raise Trouble(f"{self.path} isn't the file any more that it was: what came since isn't in the one of that name. Begin "
                          "a new copy")

    def first_gate(self, source: Source) -> int:
        """The offset behind its header. Stops where that isn't the journal's."""
        try:
            reader = Reader(self.file)
        except NotAJournal:
            raise self.another("it is no journal") from None
        if (reader.version, reader.cut) != (source.reader.version, source.reader.cut):
            raise self.another("its header is another one")
        return reader.gate

    def gate_by_tail(self, source: Source) -> int | None:
        """The offset of its closed gate, where its tail shows it: there the journal has the same bytes, but for this gate and the
        last byte. An earlier call may have left what stands behind the gate."""
        start = max(self.gate, os.fstat(self.fd).st_size - A_TAIL)
        ours = bytes_at(self.file, start, A_TAIL)
        theirs = bytes_at(source.file, start, len(ours))
        last = len(ours) - 1
        at = min(common(ours, theirs), last)
        is_shown = len(theirs) == len(ours) and ours[at:at + 1] == CLOSED and ours[at + 1:last] == theirs[at + 1:last]
        return start + at if is_shown else None

    def another(self, why: str) -> Trouble:
        return Trouble(f"{self.path} isn't a beginning of that journal, and stays as it is: {why}. Name another file")

    def writing(self) -> contextlib.AbstractContextManager[None]:
        return writing(self.path, ". It is a journal still, up to its gate")

    def cut_off(self) -> None:
        """Takes away what stands behind the closed gate, as an earlier call may have left it. It never counted."""
        with self.writing():
            os.ftruncate(self.fd, self.gate + 1)
            os.fdatasync(self.fd)

    def add(self, blocks: bytes) -> None:
        """Adds whole blocks. The gate of the first is opened last, once all else is on the device."""
        with self.writing():
            write_all(self.fd, blocks[1:] + CLOSED, self.gate + 1)
            os.fdatasync(self.fd)
            write_all(self.fd, OPEN, self.gate)
            os.fdatasync(self.fd)
        self.gate += len(blocks)


class Comparison:
    """Compares a copy with its journal block by block, from their fronts up to the gate at which the copy ends. `began` is the
    gate from which on it was written to before that, if it was."""

    def __init__(self, copy: Copy, source: Source) -> None:
        self.copy, self.source, self.began, self.is_done = copy, source, 0, False
        self.ours, self.theirs = Reader(copy.file), Reader(source.file)

    def go_on(self, seconds: float) -> None:
        """Compares for so long. Stops where the copy isn't a beginning of the journal, and where a signal came."""
        if has_signal(0):
            raise Ended
        end = time.monotonic() + seconds
        while not self.is_done and time.monotonic() < end:
            if block := self.next():
                self.compare(block)
            else:
                self.end()

    def next(self) -> Block | None:
        """The copy's next block, if there is one."""
        try:
            return self.ours.next()
        except Damaged as why:
            path = self.copy.path
            raise Trouble(f"{path} is damaged at {why.offset}: {why.why}. {mends.of_damage(path, why)}") from None

    def compare(self, block: Block) -> None:
        """Stops where the journal hasn't the same block, or the copy hadn't, as it was written to within: that was no gate."""
        is_same = bytes_at(self.source.file, block.offset, len(block.data)) == block.data
        if is_same and not block.offset < self.began < self.ours.gate:
            return self.theirs.go_past(block)
        before = some(self.theirs.count, "entry")
        if self.source.next_by(self.theirs) is None:
            raise self.copy.another(f"the journal ends behind {before}, and it has more")
        raise self.copy.another(f"they differ in the block at {block.offset}")

    def end(self) -> None:
        """The copy ends at this gate, whatever its tail has shown: both go on from there, with their entries counted."""
        self.copy.gate, self.source.reader, self.is_done = self.ours.gate, self.theirs, True


class Lines:
    """Says how far the copy is, and not too often."""

    def __init__(self, copy: Copy, source: Source) -> None:
        self.copy, self.source = copy, source
        self.said_at, self.last = time.monotonic(), ""

    def line(self) -> str:
        has = some(self.source.reader.count, "entry")
        return f"{self.copy.path}: {has}, {some(self.source.behind(), 'byte')} behind"

    def say(self, more: str = "") -> None:
        self.said_at, self.last = time.monotonic(), self.line()
        print(stamped(f"{self.last}{more}"), flush=True)

    def say_in_time(self) -> None:
        """A line where ten seconds have gone by, and another one is due. The journal is looked at once more before it."""
        if time.monotonic() - self.said_at >= EVERY:
            self.source.look_back(self.copy)
            if self.line() != self.last:
                return self.say()
            self.said_at = time.monotonic()


def come_since(source: Source, copy: Copy, comparison: Comparison) -> bytes:
    """What has come, where the journal is still the one that was read. What looks like damage may be another journal."""
    try:
        blocks = source.blocks()
    except Trouble:
        if comparison.is_done:
            source.look_back(copy)
        raise
    if blocks and comparison.is_done:
        source.look_back(copy)
    return blocks


def ship(source: Source, copy: Copy, comparison: Comparison, writes: Writes, end: int | None) -> None:
    """Ships what comes, until a signal. With an end, until nothing more stands there, or the copy is longer than that."""
    lines, has_caught_up = Lines(copy, source), False
    while True:
        source.check()
        copy.check()
        if blocks := come_since(source, copy, comparison):
            copy.add(blocks)
        if not comparison.is_done:
            comparison.go_on(A_PIECE if len(blocks) < A_RUN else 0)
            continue
        is_end = end is not None and (not blocks or copy.gate > end)
        if is_end or not blocks and not has_caught_up:
            source.look_back(copy)
            copy.cut_off()
            lines.say()
            has_caught_up = True
        if is_end:
            return
        if not blocks:
            writes.wait(PAUSE)
        if has_signal(0 if blocks else A_REST):
            source.look_back(copy)
            return lines.say(", ended by a signal")
        lines.say_in_time()


def keep_symbols(journal: str, copy: str) -> None:
    """Keeps the journal's symbols beside the copy too."""
    if found := symbols.known(copy, symbols.kept(journal)):
        symbols.keep(copy, found)


def begin(source: Source, copy: Copy, is_at_once: bool) -> Comparison:
    """Finds where the copy goes on: at once, by its tail, where that shows it; else once all of it is compared. No mark beside the
    copy says what was compared before: it would be believed of a copy that somebody has changed since."""
    comparison = Comparison(copy, source)
    gate = copy.gate_by_tail(source) if is_at_once else None
    if gate is None or gate == copy.gate:  # (an empty copy is compared in no time)
        while not comparison.is_done:
            comparison.go_on(A_PIECE)
    else:
        copy.gate = comparison.began = gate
        source.reader.go_to(gate)
    return comparison


def run(given: argparse.Namespace) -> int:
    source = Source(given.journal)
    end = source.size() if given.once else None
    with signals_held():
        try:
            copy = Copy(given.copy, source)
            comparison = begin(source, copy, not given.once)
            keep_symbols(given.journal, given.copy)
            with Writes(source.path) as writes:
                ship(source, copy, comparison, writes, end)
        except Trouble as why:
            raise Trouble(why if given.once else f"{why} (at {time_of_day()})") from None
        except Ended:
            print(stamped(f"{given.copy}: ended by a signal, while it was compared"))
    return 0
