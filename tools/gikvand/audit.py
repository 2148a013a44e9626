"""Keeps a log of when each block of a journal came, by this machine's clock, and of all bytes before it.

    gikvand audit JOURNAL LOG             goes on until SIGTERM or SIGINT (Ctrl-C), and appends to LOG, which it makes
    gikvand audit JOURNAL LOG --check     compares the journal with what LOG has, and ends

A line of LOG has seven words: the time in UTC; `came`, or `stood` where the block was there before this began; what the kernel
says of the clock, synchronized, unsynchronized or unknown, and its greatest error in microseconds; how many bytes the journal
had then; how many commands; and the SHA-256 of these bytes. So `head -c BYTES JOURNAL | sha256sum` says the same as long as
no byte of them was changed, and who has a line of yesterday sees whether one was. Keep lines where nobody who may write
the journal may write.

Each line is on the device before the next block is looked for. At its start all lines of LOG are compared with the journal.
The status is 0 at an end by a signal, and where all agree; 1 where the journal was changed, or is shorter than LOG says; and
2 where it couldn't be done: the journal was replaced or is damaged, or LOG can't be written or isn't one.
"""
import argparse
import hashlib
import os
import re
from collections.abc import Iterator
from typing import NamedTuple

from gikvand import clock, locks
from gikvand.files import PRIVATE, is_named, need_regular, opened, sync_folder, writing
from gikvand.follow import A_RUN, PAUSE, Ended, Source, has_signal, signals_held
from gikvand.journals import Block
from gikvand.words import Trouble, some, stamped

LINE = re.compile(r"(\d{4}-\d\d-\d\dT\d\d:\d\d:\d\d\.\d{6}Z) (came|stood) (\w+) (\d+|-) (\d+) (\d+) ([0-9a-f]{64})")
HEAD = "# time (UTC), came or stood, the clock and its greatest error in us, bytes, commands, SHA-256 of these bytes\n"
ANOTHER = "another journal wants another log"
A_TAIL = 1 << 12  # So many last bytes are looked at once more at each look.
A_LINE = 512      # A line is shorter than this.


class Changed(Exception):
    """What the journal has no more of what a line of the log says, in words."""


class Line(NamedTuple):
    """What a line of the log says: its number, when it was written, and bytes, commands and their sum."""
    number: int
    when: str
    size: int
    commands: int
    digest: str


def add_words(parser: argparse.ArgumentParser) -> None:
    parser.add_argument("journal", metavar="JOURNAL", help="the journal's file")
    parser.add_argument("log", metavar="LOG", help="the log's file, which is made where it is missing")
    parser.add_argument("--check", action="store_true", help="compare the journal with the log, and end")


def no_line(path: str, number: int) -> Trouble:
    return Trouble(f"{path}: line {number} is none of a log by gikvand audit")


def lines_of(path: str) -> Iterator[Line]:
    """The lines of a log. What was broken off at its end is none."""
    size = -1
    with opened(path) as file:
        for number, data in enumerate(file, 1):
            text = data.decode("ascii", "replace")
            if text.startswith("#") or not text.endswith("\n"):
                continue
            found = LINE.fullmatch(text[:-1])
            if not found or int(found[5]) < size:
                raise no_line(path, number)
            size = int(found[5])
            yield Line(number, found[1], size, int(found[6]), found[7])


class Summed:
    """A journal that is read, with the sum of all that was, and how many lines of a log agree with it."""

    def __init__(self, path: str) -> None:
        self.source = Source(path, ANOTHER)
        self.sum, self.tail, self.lines = hashlib.sha256(), b"", 0
        self.add(os.pread(self.source.file.fileno(), self.size, 0))

    @property
    def size(self) -> int:
        return self.source.reader.gate

    @property
    def commands(self) -> int:
        return self.source.reader.count

    def add(self, data: bytes) -> None:
        self.sum.update(data)
        self.tail = (self.tail + data)[-A_TAIL:]

    def next(self) -> Block | None:
        """The next block, if there is one."""
        if block := self.source.next():
            self.add(block.data)
        return block

    def line(self, how: str) -> str:
        """What is so now, as a line of the log."""
        return f"{clock.now()} {how} {clock.state()} {self.size} {self.commands} {self.sum.hexdigest()}\n"

    def look_back(self) -> None:
        """Stops where the last bytes that were read are others now, or gone."""
        if os.pread(self.source.file.fileno(), len(self.tail), self.size - len(self.tail)) != self.tail:
            raise Changed(f"{self.source.path} was changed before the byte {self.size} while it was followed")

    def go_to(self, line: Line, where: str) -> None:
        """Reads on to where a line was written. A signal ends that, where it is held."""
        try:
            while self.size < line.size and self.next():
                if has_signal(0):
                    raise Ended
        except Trouble as why:
            raise Changed(f"{where}: {why}") from None
        if self.size < line.size:
            has = f"{self.source.path} ends at {self.size}, and had {some(line.size, 'byte')}"
            raise Changed(f"{where}: {has}: is it an older copy?")

    def agree(self, path: str) -> int:
        """Reads on to where the last line of this log was written: at which byte that is. Stops at the first that isn't so."""
        before = 0
        for line in lines_of(path):
            where = f"{path}, line {line.number}, of {line.when}"
            self.go_to(line, where)
            if (self.size, self.commands, self.sum.hexdigest()) != (line.size, line.commands, line.digest):
                raise Changed(f"{where}: of the first {some(line.size, 'byte')} of {self.source.path} some are others now, behind "
                              f"the byte {before}")
            before, self.lines = line.size, self.lines + 1
        return before


class Log:
    """The log, which nobody else writes meanwhile."""

    def __init__(self, path: str) -> None:
        self.path, is_new = path, not os.path.lexists(path)
        with writing(path):
            if not is_new:
                need_regular(path, os.stat(path).st_mode)
            self.file = open(os.open(path, os.O_RDWR | os.O_CREAT | os.O_APPEND | os.O_CLOEXEC, PRIVATE), "r+b", buffering=0)
            self.fd = self.file.fileno()
            locks.take(self.fd, path)
            self.need_head()
            self.cut()
            if not os.fstat(self.fd).st_size:
                self.add(HEAD)
                sync_folder(path)

    def need_head(self) -> None:
        """Stops where this is the file of something else: nothing of that is touched."""
        begun = os.pread(self.fd, len(HEAD), 0)
        if not HEAD.encode().startswith(begun):
            raise no_line(self.path, 1)

    def cut(self) -> None:
        """Takes away half a line at its end, as a crash leaves it: nobody was told of that."""
        size = os.fstat(self.fd).st_size
        last = os.pread(self.fd, A_LINE, max(0, size - A_LINE))
        half = len(last) - 1 - last.rfind(b"\n")
        if half:
            os.ftruncate(self.fd, size - half)
            os.fdatasync(self.fd)

    def add(self, text: str) -> None:
        """Appends whole lines, which are on the device then. Of lines that can't all be written none stays."""
        data, size = text.encode(), os.fstat(self.fd).st_size
        with writing(self.path, ". What stands in it is whole"):
            try:
                while data:
                    data = data[os.write(self.fd, data):]
                os.fdatasync(self.fd)
            except OSError:
                os.ftruncate(self.fd, size)
                raise

    def check(self) -> None:
        """Stops where the name has another file now, or none."""
        if not is_named(self.path, self.fd):
            raise Trouble(f"{self.path} isn't the file any more that it was: what came since has no line in it")


def told(path: str, summed: Summed) -> str:
    has = f"{some(summed.size, 'byte')} and {some(summed.commands, 'command')} of {summed.source.path}"
    return f"{path}: {some(summed.lines, 'line')}, {has}"


def write(summed: Summed, log: Log, text: str) -> None:
    """Appends these lines, once what they are about is on the journal's device: else a crash might take it back there."""
    os.fdatasync(summed.source.file.fileno())
    log.add(text)
    summed.lines += text.count("\n")


def come(summed: Summed, log: Log) -> str:
    """A line for each block that has come, as many as make a run. Whatever else fails by it, a journal that was changed is told as
    one."""
    summed.look_back()
    lines: list[str] = []
    size = 0
    try:
        summed.source.check()
        log.check()
        while size < A_RUN and (block := summed.next()):
            lines.append(summed.line("came"))
            size += len(block.data)
    except Trouble:
        summed.look_back()  # It may have been changed behind the look before.
        if not lines:  # Damage behind blocks that have come is told at the next look.
            raise
    return "".join(lines)


def keep_on(summed: Summed, log: Log) -> None:
    """Appends a line for each block that comes, until a signal."""
    with clock.Writes(summed.source.path) as writes:
        while True:
            if text := come(summed, log):
                write(summed, log, text)
            elif has_signal(0):
                return
            else:
                writes.wait(PAUSE)


def begin(summed: Summed, log: Log) -> bool:
    """Compares the journal with the log, and appends a line for what stands behind its last one. A signal ends that: whether none
    came."""
    last, goes_on = summed.agree(log.path), True
    while goes_on and summed.next():
        goes_on = not has_signal(0)
    if not summed.lines or summed.size > last:
        write(summed, log, summed.line("stood"))
    return goes_on


def run(given: argparse.Namespace) -> int:
    try:
        summed = Summed(given.journal)
        if given.check:
            summed.agree(given.log)
            if not summed.lines:
                raise Trouble(f"{given.log} has no line to compare with")
            print(f"{told(given.log, summed)}: nothing of that was changed")
            return 0
        with signals_held():
            log = Log(given.log)
            with log.file:
                goes_on = begin(summed, log)
                print(stamped(told(given.log, summed)), flush=True)
                if goes_on:
                    keep_on(summed, log)
                print(stamped(f"{told(given.log, summed)}, ended by a signal"))
        return 0
    except Ended:
        print(stamped(f"{given.log}: ended by a signal, while it was compared"))
        return 0
    except Changed as why:
        print(why)
        return 1
