"""An edge in front of a venue, for tests: its settings, the program, what its stores hold, what the journal tells."""
import contextlib
import functools
import os
import queue
import re
import select
import shutil
import signal
import sqlite3
import subprocess
import sys
import tempfile
import threading
import time
import urllib.request
from collections.abc import Callable, Iterable, Iterator, Mapping, Sequence
from typing import Any, NamedTuple, TypeVar

ROOT = os.path.dirname(os.path.dirname(os.path.dirname(os.path.abspath(__file__))))
sys.path.insert(0, os.path.join(ROOT, "dev"))

import with_scripts  # (in front of what stands there, and of what an older Python can't read)
from gikvand.words import sure
from venues import EVENTS, PATIENCE, RanOut, Test, Trouble, Venue, await_that, free_port, in_some_try, kill_all, replay, running, started
from venues import HOST, Client  # (for those that import this module)
from venues import order as venue_order  # (in the venue's own profile)

EDGE = os.path.abspath(os.environ.get("GIKVAND_EDGE", os.path.join(ROOT, "edge/out/gikvand-edge")))
if "GIKVAND_EDGE" in os.environ:
    os.environ["GIKVAND_EDGE"] = EDGE  # For programs that tests start in folders of their own.
DICTIONARY = os.path.join(ROOT, "edge/FIX44-edge.xml")
JOURNAL = "venue.journal"
SYMBOLS = {"ABC": "0.01", "XYZ": "0.25"}
PART = re.compile(rb"([a-z])(\d+) (\d+) ")  # In front of a name or a message in the row of a turn.
E = TypeVar("E", bound="Edge")
T = TypeVar("T")
Row = tuple[Any, ...]  # Of a record: what a query asks for.
Settings = dict[str, Any]  # Each with what is written for it, or with None where it is left out.
Others = Callable[[int], list[Settings]]  # More sessions, by the first port of the edge.

A_DAY, BEFORE_MIDNIGHT = 86400, 300  # Seconds: hardly any test takes as long as the second one.
COPIES = 5  # The first place at the edge that is of a session of copies, where there is one.
NAMES = {k: f"DESK-{letter}" for k, letter in enumerate("ABCDEF", 1)}  # The CompIDs that members have at the edge.

DEFAULTS: Settings = {
    "ConnectionType": "acceptor", "BeginString": "FIX.4.4", "SenderCompID": "GIKVAND", "StartTime": "00:00:00",
    "EndTime": "00:00:00", "CheckLatency": "N", "DataDictionary": DICTIONARY, "FileLogPath": "log", "EdgePath": "edge",
    "VenueJournal": JOURNAL, "VenueEvents": EVENTS, "SocketAcceptHost": "127.0.0.1", "AllowAnyone": "Y",
    "Symbols": " ".join(f"{symbol}:{step}" for symbol, step in SYMBOLS.items()),
}


def settings_of(common: Mapping[str, object], sessions: Iterable[Mapping[str, object]]) -> str:
    """The text of a settings file: the common ones, and those of each session. One that is None is left out."""
    parts = [("DEFAULT", {**DEFAULTS, **common}), *(("SESSION", it) for it in sessions)]
    return "\n".join(line for head, those in parts for line in
                     [f"[{head}]", *(f"{name}={value}" for name, value in those.items() if value is not None), ""])


def members_of(count: int, port: int | None = None, **more: object) -> list[Settings]:
    """The settings of so many sessions, each at its own port from there on."""
    return [{"TargetCompID": NAMES[k], "Member": f"C{k}", "SocketAcceptPort": port and port + k - 1, **more}
            for k in range(1, count + 1)]


class Edge:
    """A gikvand-edge that was told to start, in the present folder: a process for each member of its settings and one
    that keeps them, or, by other words, that of one member alone."""

    def __init__(self, settings: str, program: str = EDGE, words: Sequence[str] = ("--all",), env: dict[str, str] | None = None) -> None:
        with open("edge.cfg.new", "w", encoding="ascii") as file:
            file.write(settings)
        os.replace("edge.cfg.new", "edge.cfg")  # Another edge may just be reading it.
        self.process = subprocess.Popen([program, *words, "edge.cfg"], stderr=subprocess.PIPE, text=True, start_new_session=True, env=env)
        running.append(self)
        self.queue: queue.Queue[str | None] = queue.Queue()
        self.said: list[str] = []
        self.rest, self.taking = b"", threading.Lock()
        self.reader = threading.Thread(target=self.read, daemon=True)
        self.reader.start()

    def read(self) -> None:
        while self.take(None):
            pass
        self.queue.put(None)

    def take(self, seconds: float | None) -> bool:
        """Takes in the lines that its processes have written by now, or that come first within this time. Whether more may come."""
        pipe = sure(self.process.stderr).fileno()
        select.select([pipe], [], [], seconds)
        with self.taking:
            while select.select([pipe], [], [], 0)[0]:
                data = os.read(pipe, 1 << 16)
                *lines, self.rest = (self.rest + data).split(b"\n")
                if not data and self.rest:
                    lines, self.rest = [self.rest], b""
                for it in lines:
                    self.said.append(it.decode(errors="replace"))
                    self.queue.put(self.said[-1])
                if not data:
                    return False
        return True

    @property
    def lines(self) -> list[str]:
        """All its lines up to this moment: also one that was written just in front of what a test has seen elsewhere."""
        self.take(0)
        return self.said

    def hears(self, text: str, seconds: float = PATIENCE, or_counts: str | None = None) -> str:
        """Waits for a line with this text in it, and gives it; or for one that counts lines that begin so, which the edge
        says where there are too many of them in a second."""
        end, has_ended = time.monotonic() + seconds, False
        while not has_ended and (left := end - time.monotonic()) > 0:
            try:
                line = self.queue.get(timeout=left)
            except queue.Empty:
                break
            has_ended = line is None
            if line is not None and (text in line or or_counts and f"lines like this one: {or_counts}" in line):
                return line
        raise (Trouble if has_ended else RanOut)(f"no line of the edge has {text!r}; it said {self.lines[-12:]}")

    def ready(self: E, members: int = 1) -> E:
        """Waits until all processes listen, and so many members are served, in any order. What a member that is served says while
        others aren't is heard later."""
        wanted = {"gikvand-edge: ready, ": 1, ": serves, behind report": members}
        served, later = set[str](), list[str]()
        while any(wanted.values()):
            line = self.hears("")
            who = line.split()[1].rstrip(":").partition(".")[0] if " " in line else ""
            if who in served:
                later.append(line)
            for text in wanted:
                wanted[text] -= wanted[text] and text in line
            if ": serves, behind report" in line:
                served.add(who)
        with self.queue.mutex:
            self.queue.queue.extendleft(reversed(later))
        return self

    def process_of(self, member: int) -> int:
        """The process of a member that runs, by what the system says of the children."""
        return int(children_of(self.process.pid)[f"C{member}"])

    def status(self, seconds: float = PATIENCE) -> int:
        """Waits for its end, and for its last line."""
        status = self.process.wait(seconds)
        self.reader.join(PATIENCE)
        return status

    def stop(self) -> None:
        self.process.send_signal(signal.SIGTERM)
        if status := self.status():
            raise Trouble(f"status {status} of an edge that was stopped")

    def kill(self) -> None:
        """Kills all its processes at once, and waits until the last one has gone. None is left, whatever fails. Where its first process has
        ended before, the number may be another program's by now: its group is killed where a process of it is an edge's."""
        has_ended = self.process.poll() is not None
        try:
            with contextlib.suppress(ProcessLookupError, FileNotFoundError):
                if not has_ended:
                    freeze(self.process.pid)  # It starts none anew.
        finally:
            children, end = children_of(self.process.pid).values(), time.monotonic() + PATIENCE
            own = {it.group for it in all_processes() if it.group == self.process.pid and (not has_ended or it.is_of_an_edge())}
            for group in (*children, *own):
                with contextlib.suppress(ProcessLookupError):
                    os.killpg(group, signal.SIGKILL)
            self.process.wait()
            while any(map(is_there, children)) and time.monotonic() < end:  # One within a sync of its disk goes behind that.
                time.sleep(0.005)
            self.reader.join(PATIENCE)


def is_there(process: int | str) -> bool:
    """Whether this process runs, as the system says, in whichever of its threads: what it has open is closed by the last."""
    try:
        with open(f"/proc/{process}/stat", encoding="ascii", errors="replace") as file:
            return file.read().rpartition(")")[2].split()[0] not in "ZX" or len(os.listdir(f"/proc/{process}/task")) > 1
    except OSError:
        return False


class Running(NamedTuple):
    """A process that runs: its number, its parent's, its group's, and its words."""
    pid: int
    parent: int
    group: int
    words: list[str]

    def is_of_an_edge(self) -> bool:
        return any("gikvand-" in it for it in self.words)


def all_processes() -> Iterator[Running]:
    """All processes that run."""
    for entry in filter(str.isdecimal, os.listdir("/proc")):
        try:
            with open(f"/proc/{entry}/stat", encoding="ascii", errors="replace") as file:
                state, parent, group = file.read().rpartition(")")[2].split()[:3]
            with open(f"/proc/{entry}/cmdline", encoding="ascii", errors="replace") as file:
                words = file.read().split("\0")
        except OSError:
            continue
        if state != "Z":
            yield Running(int(entry), int(parent), int(group), words)


def processes_below(process: int) -> Iterator[tuple[int, list[str]]]:
    """The processes that this one has started and that run, each with its words."""
    return ((it.pid, it.words) for it in all_processes() if it.parent == process)


def children_of(process: int) -> dict[str, int]:
    """The processes of members that this one keeps, by the names of the members."""
    return {words[words.index("--member") + 1]: pid for pid, words in processes_below(process) if "--member" in words}


def freeze(process: int) -> None:
    """Stops all threads of a process. The signal alone only asks for that, and whoever lets all that is stopped go on, as a
    machine that stood still does, takes it back."""
    def is_stopped() -> bool:
        os.kill(process, signal.SIGSTOP)
        states = []
        for thread in os.listdir(f"/proc/{process}/task"):
            with contextlib.suppress(FileNotFoundError, ProcessLookupError):  # It has ended meanwhile.
                with open(f"/proc/{process}/task/{thread}/stat", encoding="ascii", errors="replace") as file:
                    states.append(file.read().rpartition(")")[2].split()[0])
        return set(states) <= set("TZX")  # One that has ended can't be stopped any more.
    await_that("a process that is stopped", is_stopped)


def in_folders(run: Callable[[int], T], what: str) -> T:
    """What `run` of a try's number comes to, each in a folder of its own, in which nothing is left of one that came too late."""
    above = os.getcwd()

    def tried(number: int) -> T:
        kill_all()
        folder = os.path.join(above, f"try-{number}")
        os.mkdir(folder)
        os.chdir(folder)
        return run(number)
    return in_some_try(tried, what)


def within_a_day(test: Test) -> Test:
    """The test, which begins behind midnight where it might run over that: sessions end there, by the clock of UTC."""
    @functools.wraps(test)
    def run(*given: object) -> None:
        while A_DAY - time.time() % A_DAY < BEFORE_MIDNIGHT:
            time.sleep(1)
        test(*given)
    return run


def copies_of(port: int, words: str, number: int = 1, **more: object) -> Settings:
    """The settings of a session that is sent copies of what these members are told: the first is beside the port of C5."""
    at = COPIES + number - 1
    return {"TargetCompID": NAMES[at], "Member": f"D{number}", "DropCopyOf": words, "SocketAcceptPort": port + at - 1, **more}


def pair(members: int = 1, venue: Venue | None = None, wait: bool = True, program: str = EDGE,
         common: Mapping[str, object] | None = None, env: dict[str, str] | None = None, others: Others = lambda port: [],
         **more: object) -> tuple[Venue, Edge, int]:
    """A venue, an edge in front of it, and the edge's port."""
    venue = venue or started(JOURNAL, members, list(SYMBOLS))
    port = free_port(len(NAMES))
    sessions = [*members_of(members, port, **more), *others(port)]
    edge = Edge(settings_of({"VenuePort": venue.port, **(common or {})}, sessions), program, env=env)
    if wait:
        edge.ready(len(sessions))
    return venue, edge, port


def again(port: int, members: int = 1, venue_port: int | None = None, journal: str = JOURNAL, gateways: int | None = None) -> Venue:
    """Another venue in the place of one that has ended, on the same ports."""
    venue = Venue(venue_port or port, journal, gateways or members, list(SYMBOLS))
    venue.ready()
    return venue


def session_files(member: int, folder: str) -> str:
    """How the names of a session's files begin, in the folder of all."""
    return os.path.join(folder, f"C{member}", f"FIX.4.4-GIKVAND-{NAMES[member]}.")


def page_at(port: int, what: str = "") -> str:
    """What the page at this port says. Who connects and asks half a second later, as a machine that stands still, is let go: it asks
    again."""
    end = time.monotonic() + PATIENCE
    while True:
        try:
            with urllib.request.urlopen(f"http://127.0.0.1:{port}/{what}", timeout=PATIENCE) as answer:
                return str(answer.read().decode())
        except OSError:
            if time.monotonic() > end:
                raise
        time.sleep(0.05)


@contextlib.contextmanager
def halted() -> Iterator[None]:
    """All edges that run stand still meanwhile, so that their files are those of one moment."""
    processes = [at for it in running if isinstance(it, Edge) and it.process.poll() is None
                 for at in (*map(int, children_of(it.process.pid).values()), it.process.pid)]
    for it in processes:
        with contextlib.suppress(ProcessLookupError, FileNotFoundError):
            freeze(it)
    try:
        yield
    finally:
        for it in processes:
            with contextlib.suppress(ProcessLookupError):
                os.kill(it, signal.SIGCONT)


def path_of(member: int | str, folder: str = "edge") -> str:
    """The database of the record of a member, or of a session of copies as D1, in the folder of all; its log stands beside it, as
    -wal."""
    name = member if isinstance(member, str) else f"C{member}"
    return os.path.join(folder, name, f"{name}.db")


def copied(member: int | str, into: str, folder: str = "edge") -> str:
    """Copies a member's record as it stands at this moment, to its place in another folder of all: the copy's path."""
    path, other = path_of(member, folder), path_of(member, into)
    os.makedirs(os.path.dirname(other), exist_ok=True)
    with halted():
        for end in ("", "-wal"):
            if os.path.exists(path + end):
                shutil.copy(path + end, other + end)
            elif os.path.exists(other + end):
                os.remove(other + end)
    return other


def fold(record: sqlite3.Connection) -> None:
    """Puts what the last turns have kept into the tables of an open record, as its edge does at some moment."""
    turns = record.execute("SELECT at, sender, target, report, reject, last, heard, settled, did FROM turns"
                           " ORDER BY turn").fetchall()
    for at, *state, did in turns:
        place = 0
        while place < len(did):
            kind, number, size = sure(PART.match(did, place)).groups()
            place = sure(PART.match(did, place)).end() + int(size)
            data = did[place - int(size):place]
            if kind == b"d":
                sender, target, heard = map(int, data.split())
                record.execute("UPDATE desks SET sender = ?, target = ?, heard = ? WHERE desk = ?", (sender, target, heard, int(number)))
            elif kind == b"v":
                record.execute("UPDATE venues SET report = ?, reject = ?, last = ?, settled = ? WHERE place = ?",
                               (*map(int, data.split()), int(number)))
            elif kind == b"m":
                record.execute("INSERT OR REPLACE INTO messages VALUES (?, ?)", (int(number), data))
            else:
                record.execute("INSERT INTO names VALUES (?, ?, ?, ?)",
                               (int(number), kind.decode(), data.decode(), at))
        record.execute("UPDATE session SET sender = ?, target = ?, report = ?, reject = ?, last = ?, heard = ?,"
                       " settled = ?, at = ?", (*state, at))
    record.execute("DELETE FROM turns")


def rows(member: int | str, query: str, folder: str = "edge") -> list[Row]:
    """What a member's record has, as this query asks."""
    with tempfile.TemporaryDirectory(prefix="record-") as place:
        with contextlib.closing(sqlite3.connect(copied(member, place, folder))) as record:
            fold(record)
            return record.execute(query).fetchall()


def changed(member: int | str, *words: str, at: float | None = None, folder: str = "edge") -> None:
    """Changes the record of a member whose edge doesn't run, by these words of SQL. Its last commit was in the second
    `at`, or so that nobody sees that somebody else has changed it."""
    with contextlib.closing(sqlite3.connect(path_of(member, folder))) as record, record:
        fold(record)
        for it in words:
            record.execute(it)
        record.execute("UPDATE session SET at = ?", (int(time.time()) + 3600 if at is None else at,))


def stored(member: int | str, folder: str = "edge") -> list[str]:
    """The messages that a member's record has for its session, in their order, with bars."""
    if not os.path.exists(path_of(member, folder)):
        return []
    return [data.decode("ascii").replace("\x01", "|")
            for data, in rows(member, "SELECT bytes FROM messages ORDER BY number", folder)]


def told(member: int, journal: str = JOURNAL, symbols: Sequence[str] = tuple(SYMBOLS)) -> list[str]:
    """What the journal tells of a member: its reports as venue-replay prints them."""
    return replay(journal, f"C{member}", symbols)[0]
