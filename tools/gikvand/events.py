"""What each command of a journal did, as venue-events tells it (docs/EVENTS.md): its reports, and the price levels that it
changed."""
import os
import select
import signal
import subprocess
from collections.abc import Iterator
from typing import NamedTuple

from gikvand import files
from gikvand.clock import libc
from gikvand.programs import A_READ, EVENTS, Unread, fault_of, lines_of, need
from gikvand.words import sure

PR_SET_PDEATHSIG = 1    # The call by which a process asks to be ended with the one that started it.
FIRST = len("output ")  # Where the place begins in the line of an output.


class Report(NamedTuple):
    """A report to a member, as venue-replay prints it."""
    member: int
    text: bytes


class Level(NamedTuple):
    """A price of a symbol and side, and the quantity that rests there behind the command."""
    symbol: str
    side: str
    price: int
    quantity: int


class Event(NamedTuple):
    """What a command did."""
    reports: list[Report]
    levels: list[Level]


class Events:
    """venue-events at work on a journal: an event for each command, as they come, or the reports to a member. Behind the last one
    `outputs` is their count, and behind events so is `commands`. A journal in use is read up to where it ends at one moment, and
    of a damaged one what stands before that, behind which it stops."""

    def __init__(self, journal: str, symbols: list[str]) -> None:
        need(EVENTS)
        files.need_journal(journal)  # It says more than the program, and doesn't wait for a pipe.
        self.journal, self.words = journal, ["once", *symbols]
        self.commands = self.outputs = 0

    def told_to(self, name: str) -> Iterator[str]:
        """The reports to a member of this name, C1 to C8."""
        member, last = f" {name} ".encode(), b""
        for line in lines_of(EVENTS, self.journal, self.words):
            if line.startswith(b"output "):
                last, at = line, line.index(b" ", FIRST)
                if line.startswith(member, at):
                    yield line[at + len(member):-1].decode("latin-1")
        self.outputs = int(last[FIRST:].split(b" ", 1)[0]) + 1 if last else 0

    def __iter__(self) -> Iterator[Event]:
        event, fault = Event([], []), None
        try:
            for line in lines_of(EVENTS, self.journal, self.words):
                if line.startswith(b"output "):
                    _, _, member, text = line.split(b" ", 3)
                    event.reports.append(Report(int(member[1:]), text[:-1]))
                    self.outputs += 1
                elif line.startswith(b"level "):
                    _, symbol, side, price, quantity, _ = line.split(b" ", 5)
                    event.levels.append(Level(symbol.decode(), side.decode(), int(price), int(quantity)))
                elif line.startswith(b"command "):
                    if self.commands:
                        yield event
                    event = Event([], [])
                    self.commands += 1
        except Unread as why:
            fault = why
        if self.commands:
            yield event
        if fault:
            raise fault


def ends_with_us() -> None:
    """Lets this process end where the one that started it does, however that ends."""
    libc.prctl(PR_SET_PDEATHSIG, signal.SIGKILL)


class Followed:
    """venue-events that follows a journal: the lines that have come, whenever they are asked for. It is to be ended."""

    def __init__(self, journal: str, symbols: list[str]) -> None:
        need(EVENTS)
        files.need_journal(journal)
        self.journal, self.rest, pipe = journal, b"", subprocess.PIPE
        self.process = subprocess.Popen([EVENTS, journal, "follow", *symbols], stdout=pipe, stderr=pipe, bufsize=0,
                                        preexec_fn=ends_with_us)
        self.out, self.err = sure(self.process.stdout), sure(self.process.stderr)
        os.set_blocking(self.out.fileno(), False)

    def come(self, seconds: float) -> list[str]:
        """Whole lines without their ends, which have come or come within this time; none where nothing does. Stops where
        venue-events has ended, with what it says."""
        select.select([self.out], [], [], seconds)
        data = self.out.read(A_READ)
        if data == b"":
            raise fault_of(EVENTS, self.journal, self.err.read(), self.process.wait())
        *lines, self.rest = (self.rest + (data or b"")).split(b"\n")
        return [line.decode("latin-1") for line in lines]

    def end(self) -> None:
        self.process.kill()
        self.process.wait()
        self.out.close()
        self.err.close()
