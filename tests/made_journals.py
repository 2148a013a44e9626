"""Journals that venued makes for tests of the commands of gikvand, and the commands called on them. Not a test: those of
tests/tools import it."""
import codecs
import contextlib
import datetime
import functools
import io
import os
import re
import subprocess
import sys
import tempfile
import time
from collections.abc import Iterator
from typing import NamedTuple

from checks import contents, put  # (for those that import this module)
from gikvand import main as tools
from gikvand import journals
from venues import PATIENCE, REPLAY, TIME, Client, Trouble, Venue, market_order, order, replay, started, value

TOOLS = os.path.dirname(os.path.dirname(os.path.abspath(tools.__file__)))
SYMBOLS = ("ABC", "XYZ")
JOURNAL = "venue.journal"
NOBODY = 65534
LONG_AGO = 600  # Seconds that a line may be old, on a machine that stands still at times.


def cancel(name: int, was: int, side: int, quantity: int) -> str:
    return f"41={was}|11={name}|55=ABC|54={side}|60={TIME}|38={quantity}|"


# A day of three members: who sends what, and which reports it leads to, to whom. The market order is refused in a journal of
# version 1. What comes behind the break has a snapshot before it in a journal of version 3.
DAY = [(1, "D", order(1, 2, 100, 50)),
       (2, "D", order(1, 1, 30, 51)),
       (2, "D", market_order(2, 1, 20)),
       (1, "F", cancel(2, 77, 2, 100)),
       (1, "F", cancel(2, 78, 2, 100)),
       (3, "D", order(1, 2, 5, 900, "XYZ")),
       (3, "D", order(2, 2, 0, 900, "XYZ"))]
BEHIND = [(1, "G", f"{cancel(3, 1, 2, 90)}40=2|44=50|"),
          (2, "D", order(3, 1, 10, 50, more="59=3|"))]


class Made(NamedTuple):
    """A journal that venued made, and the reports that each member got, as they came."""
    version: int
    data: bytes
    heard: dict[int, list[str]]

    @property
    def starts(self) -> list[int]:
        """Where its blocks begin."""
        return [it.offset for it in journals.Reader(io.BytesIO(self.data))]


def gikvand(*words: object) -> tuple[int, list[str], list[str]]:
    """Runs a command, in this process: its status, and the lines of both of its outputs."""
    out, err = io.StringIO(), io.StringIO()
    with contextlib.redirect_stdout(out), contextlib.redirect_stderr(err):
        try:
            status = tools.run(str(words[0]), [str(it) for it in words[1:]])
        except SystemExit as ended:
            status = int(ended.code or 0)
    return status, out.getvalue().splitlines(), err.getvalue().splitlines()


STAMP = re.compile(r"\d{4}-\d\d-\d\d \d\d:\d\d:\d\dZ")


def untimed(line: str) -> str:
    """A line of a command that goes on, without the time of day in front of it, or at its end, which is that of now."""
    found = STAMP.match(line) or re.search(rf"{STAMP.pattern}(?=\)$)", line)
    if not found:
        raise Trouble(f"no time of day in: {line}")
    told = datetime.datetime.fromisoformat(found[0].replace("Z", "+00:00"))
    if abs(told.timestamp() - time.time()) > LONG_AGO:
        raise Trouble(f"the time of day is {time.time()}, and not that of: {line}")
    return line[found.end() + 1:] if found.start() == 0 else line.replace(f" (at {found[0]})", "")


def followed(*words: object) -> tuple[int, list[str], list[str]]:
    """Runs `gikvand follow`, as `gikvand` does, and takes the times of day away: where it goes on, its last words have one, too."""
    status, out, err = gikvand("follow", *words)
    return status, [untimed(it) for it in out], [untimed(it) if " (at " in it else it for it in err]


def trade(venue: Venue, day: list[tuple[int, str, str]], heard: dict[int, list[str]]) -> None:
    """Lets the members send this, each message once the one before is answered, and hear all that the journal tells them: what they
    heard of it before is there already."""
    clients = {it: Client(venue.port, it).log_on() for it in (1, 2, 3)}
    for member, kind, body in day:
        it = clients[member]
        it.send(kind, body)
        name, number = value(body, "11"), str(it.number)
        while True:
            came = it.next() or "nothing"
            heard[member].append(came)
            if name == value(came, "11") or number == value(came, "45"):
                break
    for member, it in clients.items():
        told, _ = replay(venue.journal, f"C{member}", SYMBOLS)
        while len(heard[member]) < len(told) or not it.is_quiet(0.05):
            if not (more := it.next()):
                raise Trouble(f"C{member} has heard {len(heard[member])} of {len(told)} reports")
            heard[member].append(more)
        it.close()


@functools.cache
def made(version: int) -> Made:
    """The day in a journal of this version."""
    heard: dict[int, list[str]] = {1: [], 2: [], 3: []}
    with tempfile.TemporaryDirectory(prefix="made-") as folder:
        name = os.path.join(folder, JOURNAL)
        if version != journals.MADE:
            put(name, journals.empty(version))
        for day in (DAY, BEHIND):
            venue = started(name, 3, SYMBOLS)
            trade(venue, day, heard)
            venue.stop()
            if day is DAY and version >= journals.WITH_SNAPSHOTS:
                subprocess.run([REPLAY, name, "snapshot", *SYMBOLS], check=True, capture_output=True)
        return Made(version, contents(name), heard)


def each_version() -> Iterator[Made]:
    """The day in a journal of each version, which lies in this folder with its symbols."""
    put(f"{JOURNAL}.symbols", b"ABC XYZ\n")
    for version in journals.VERSIONS:
        put(JOURNAL, made(version).data)
        yield made(version)


def with_byte(data: bytes, at: int, byte: int) -> bytes:
    return data[:at] + bytes([byte]) + data[at + 1:]


def called(*words: str) -> tuple[int, list[str], list[str]]:
    """Runs a command as a program of its own: its status, and the lines of both of its outputs."""
    it = subprocess.run([sys.executable, "-m", "gikvand", *words], capture_output=True, text=True, timeout=PATIENCE,
                        stdin=subprocess.DEVNULL, env={**os.environ, "PYTHONPATH": TOOLS})
    return it.returncode, it.stdout.splitlines(), it.stderr.splitlines()


@contextlib.contextmanager
def as_nobody() -> Iterator[None]:
    """Lets this process be a user without rights, where it is root."""
    was = os.geteuid()
    codecs.lookup("latin-1")  # A Python below /root gives nobody no further modules.
    if was == 0:
        os.seteuid(NOBODY)
    try:
        yield
    finally:
        os.seteuid(was)
