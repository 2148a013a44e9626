"""A venue that listens and its clients, for the scripts that drive the built programs over TCP, and what their tests share."""
import functools
import os
import queue
import re
import select
import signal
import socket
import subprocess
import sys
import tempfile
import threading
import time
import types
from collections.abc import Callable, Iterable, Sequence
from typing import IO, Any, TypeVar

import with_scripts  # (in front of what stands there, and of what an older Python can't read)
from gikvand import programs
from gikvand.fix import HEAD, framed, parted, printed, value  # (some of them for those that import this module)
from gikvand.ports import HOST, free_port
from gikvand.programs import EVENTS, REPLAY, ROOT, VENUED, Trouble  # (EVENTS for those that import this module)
from gikvand.words import sure

TIME = "20250102-09:30:00"
PATIENCE = int(os.environ.get("VENUE_PATIENCE", "300"))  # Seconds to wait for what has to come: only what hangs takes so long.
MOST_RAN_OUT = 3             # Waits of one run that may last PATIENCE seconds in vain: behind the last of them the run ends.
NO_MORE = "three waits ran out: the rest isn't tried"
TRIES = 10                   # Rows of ports to try: another process may take one before the venue does.
LATE = 3                     # Tries that have to come too late, one behind the other, so that it isn't the machine's doing.
SHOWN, LONG = 5, 10.0        # Tests whose seconds are told, and above how many.
COUNTS = re.compile(r"venued: (\w+), (\d+) commands, (\d+) outputs")

T = TypeVar("T")
Test = Callable[..., object]

running: list[Any] = []  # Venues, and other programs that can be killed as they are.


class Late(Trouble):
    """What came too late: by the venue, or since the machine itself stood still for a moment."""


class RanOut(Trouble):
    """A wait that ended by its bound, without what had to come."""


class Unseen(RanOut):
    """What wasn't seen to hold in its time."""


def expect(came: object, wanted: object) -> None:
    """Fails the test where something else came."""
    if came != wanted:
        raise Trouble(f"expected {wanted!r} came {came!r}")


def ran_out(why: BaseException | None) -> bool:
    """Whether an exception says that a wait ran out, or was raised from another one that says so."""
    while why and not isinstance(why, (RanOut, subprocess.TimeoutExpired, TimeoutError)):
        why = why.__cause__ or why.__context__
    return why is not None


def ended(words: Sequence[str], data: bytes = b"", **options: Any) -> tuple[int, bytes, bytes]:
    """Runs a program with this input to the program's end, and returns the status and the bytes of both outputs."""
    try:
        run = subprocess.run(words, input=data, capture_output=True, timeout=PATIENCE, **options)
    except subprocess.TimeoutExpired:
        raise RanOut(f"expected an end came none within {PATIENCE} seconds") from None
    return run.returncode, run.stdout, run.stderr


def in_some_try(run: Callable[[int], T], what: str) -> T:
    """What `run` of a try's number comes to, which may come too late in all tries but the last."""
    for number in range(1, LATE):
        try:
            return run(number)
        except Late as why:
            print(f"{what}: once more: {why}", flush=True)
    return run(LATE)


def await_that(what: str, holds: Callable[[], object], pause: float = 0.02) -> None:
    """Waits until something holds."""
    end = time.monotonic() + PATIENCE
    while not holds():
        if time.monotonic() > end:
            raise Unseen(f"{what}: not within {PATIENCE} seconds")
        time.sleep(pause)


def need_programs() -> None:
    """Stops where a program isn't built."""
    programs.need(VENUED, REPLAY)


def message(member: int, number: int, kind: str, body: str = "") -> bytes:
    """A whole message of this member."""
    return framed(f"35={kind}|49=C{member}|56=VENUE|34={number}|52={TIME}|{body}")


def order(name: int, side: int, quantity: int, price: int, symbol: str = "ABC", more: str = "") -> str:
    """The body of a new order: 1 buys, 2 sells."""
    return f"11={name}|55={symbol}|54={side}|60={TIME}|38={quantity}|40=2|44={price}|{more}"


def market_order(name: int, side: int, quantity: int, symbol: str = "ABC", more: str = "") -> str:
    """The body of a new order without a price: it trades at any, and never rests."""
    return f"11={name}|55={symbol}|54={side}|60={TIME}|38={quantity}|40=1|{more}"


class Lines:
    """The lines that come out of a program, read by a thread of their own."""

    def __init__(self, pipe: IO[str]) -> None:
        self.queue: queue.Queue[str | None] = queue.Queue()
        threading.Thread(target=self.read, args=(pipe,), daemon=True).start()

    def read(self, pipe: IO[str]) -> None:
        with pipe:
            for line in pipe:
                self.queue.put(line.rstrip("\n"))
        self.queue.put(None)

    def next(self, seconds: float = PATIENCE) -> str | None:
        """The next line, or None at the end."""
        try:
            return self.queue.get(timeout=seconds)
        except queue.Empty:
            raise RanOut(f"no line within {seconds} seconds") from None


class Venue:
    """A venued that listens, or was told to; or another program of its words and lines."""

    def __init__(self, port: int, journal: str, gateways: int, symbols: Sequence[str] = ("ABC",),
                 env: dict[str, str] | None = None, program: str | None = None) -> None:
        self.port, self.journal = port, journal
        words = [program or VENUED, str(port), journal, str(gateways), *symbols]
        self.process = subprocess.Popen(words, stdout=subprocess.PIPE, stderr=subprocess.PIPE, text=True, env=env)
        running.append(self)
        self.out, self.err = Lines(sure(self.process.stdout)), Lines(sure(self.process.stderr))

    def counts(self, word: str) -> tuple[int, int]:
        """The commands and outputs of its next line, which has to begin so."""
        line = self.out.next()
        found = COUNTS.fullmatch(line or "")
        if not found or found[1] != word:
            raise Trouble(f"not '{word}', but {line or self.err.next() or 'nothing'}")
        return int(found[2]), int(found[3])

    def ready(self) -> tuple[int, int]:
        """Waits until it listens: the counts of what it found in the journal."""
        return self.counts("ready")

    def status(self) -> int:
        """Waits for its end, behind which nothing more may have been printed."""
        try:
            status = self.process.wait(PATIENCE)
        except subprocess.TimeoutExpired:
            raise RanOut(f"venued hasn't ended within {PATIENCE} seconds") from None
        for lines in (self.out, self.err):
            if line := lines.next():
                raise Trouble(f"one line too many: {line}")
        return status

    def stop(self) -> tuple[int, int]:
        """Stops it by its file: the counts that it prints."""
        with open(f"{self.journal}.stop", "w", encoding="ascii"):
            pass
        counts = self.counts("stopped")
        if status := self.status():
            raise Trouble(f"status {status} of a venue that was stopped")
        return counts

    def pause(self) -> None:
        """Stops all of its threads, until it goes on or is killed. A signal alone only asks for that: on a busy machine
        they may read what comes behind it."""
        self.process.send_signal(signal.SIGSTOP)
        os.waitid(os.P_PID, self.process.pid, os.WSTOPPED)

    def go_on(self) -> None:
        self.process.send_signal(signal.SIGCONT)

    def kill(self) -> None:
        self.process.kill()
        self.process.wait()


def kill_all() -> None:
    """Ends all venues that may still run."""
    while running:
        running.pop().kill()


def chosen_of(tests: Iterable[Test]) -> list[Test]:
    """Those tests whose names have one of the command line's words in them, or all."""
    return [it for it in tests if not sys.argv[1:] or any(word in it.__name__ for word in sys.argv[1:])]


def tests_of(name: str, modules: Iterable[types.ModuleType], is_long: bool = False) -> list[Test]:
    """The tests that these modules list, with is_long also their long ones. Stops where a module has one that it doesn't list."""
    for module in modules:
        listed = {it.__name__ for it in [*module.TESTS, *getattr(module, "LONG_TESTS", [])]}
        there = [it for it, what in vars(module).items() if it.startswith("test_") and getattr(what, "__module__", "") == module.__name__]
        if listed and (left := [it for it in there if it not in listed]):
            sys.exit(f"{name}: {module.__name__} has {left[0]}, and doesn't list it among its TESTS")
    return [it for module in modules for it in module.TESTS] + [
        it for module in modules if is_long for it in getattr(module, "LONG_TESTS", [])]


def part_of(name: str, tests: list[Test]) -> list[Test]:
    """The tests of the part that the command line of this program asks for by --part K/N, of each N one; or all."""
    if "--part" not in sys.argv:
        return tests
    at = sys.argv.index("--part")
    number, _, count = "".join(sys.argv[at + 1:at + 2]).partition("/")
    del sys.argv[at:at + 2]
    if not (number.isdecimal() and count.isdecimal() and 1 <= int(number) <= int(count)):
        sys.exit(f"{name}: --part is K/N, with K from 1 to N")
    return tests[int(number) - 1::int(count)]


def in_a_folder(test: Test) -> Test:
    """The test in a folder of its own."""
    @functools.wraps(test)
    def run(*given: object) -> None:
        with tempfile.TemporaryDirectory(prefix="tests-") as folder:
            os.chdir(folder)
            try:
                test(*given)
            finally:
                kill_all()
                os.chdir(ROOT)
    return run


def watched(test: Test) -> Test:
    """The test, which fails as well where one of its threads ends by an exception."""
    @functools.wraps(test)
    def run() -> None:
        ends: list[threading.ExceptHookArgs] = []
        before = threading.excepthook
        threading.excepthook = ends.append
        try:
            test()
        finally:
            threading.excepthook = before
        if ends:
            raise Trouble(f"its thread {sure(ends[0].thread).name} ended by {ends[0].exc_value!r}") from ends[0].exc_value
    return run


def tried(tests: Sequence[Test], *given: object) -> int:
    """Tries each test with what is given, prints which fail, which took long, and how many passed and failed, and returns the status, 1
    where one failed. No further test is tried behind the third test whose wait ran out."""
    count = failed = waits = 0
    took = dict[str, float]()
    for test in tests:
        begun = time.monotonic()
        count += 1
        try:
            test(*given)
        except Exception as why:
            print(f"{test.__name__}: {why if isinstance(why, Trouble) else repr(why)}", flush=True)
            failed += 1
            waits += ran_out(why)
        finally:
            kill_all()
        took[test.__name__] = time.monotonic() - begun
        if waits == MOST_RAN_OUT:
            print(NO_MORE, flush=True)
            break
    longest = [it for it in sorted(took, key=lambda name: -took[name])[:SHOWN] if took[it] > LONG]
    print("".join(f"{it}: {took[it]:.0f} s\n" for it in longest), end="")
    print(f"{count - failed} passed, {failed} failed")
    return 1 if failed else 0


def main_of(name: str, doc: str, tests: Iterable[Test], run: Callable[[list[Test]], int] = tried) -> int:
    """What a file of tests of this name does: it runs those that the command line chooses, once the programs are there, or
    prints its own text where that asks for help. Answers the status."""
    if set(sys.argv[1:]) & {"-h", "--help"}:
        print(doc.strip())
        return 0
    try:
        need_programs()
    except Trouble as why:
        sys.exit(f"{name}: {why}")
    return run(chosen_of(tests))


def started(journal: str, gateways: int, symbols: Sequence[str] = ("ABC",), program: str | None = None) -> Venue:
    """A venue on free ports that is ready."""
    for _ in range(TRIES):
        venue = Venue(free_port(gateways), journal, gateways, symbols, program=program)
        line = venue.out.next()
        if COUNTS.fullmatch(line or ""):
            return venue
        fault = venue.err.next()
        if not (fault or "").startswith("venued: cannot listen"):
            raise Trouble(f"venued isn't ready; it said: {line or fault or 'nothing'}")
    raise Trouble(f"in {TRIES} tries no {gateways} ports stayed free")


class Client:
    """A connection of a member, and the FIX session over it."""

    def __init__(self, port: int, member: int, options: Iterable[tuple[int, int, int]] = ()) -> None:
        self.socket = socket.socket()
        self.socket.settimeout(PATIENCE)
        for option in (*options, (socket.IPPROTO_TCP, socket.TCP_NODELAY, 1)):
            self.socket.setsockopt(*option)
        self.socket.connect((HOST, port + member - 1))
        self.member, self.number = member, 0
        self.rest, self.is_over = b"", False
        self.came: list[str] = []

    def send_bytes(self, data: bytes) -> None:
        self.socket.sendall(data)

    def send(self, kind: str, body: str = "") -> None:
        """Sends the session's next message."""
        self.number += 1
        self.send_bytes(message(self.member, self.number, kind, body))

    def is_quiet(self, seconds: float) -> bool:
        """Whether nothing comes for this time."""
        return not self.came and not select.select([self.socket], [], [], seconds)[0]

    def next(self) -> str | None:
        """The next message, or None at the end of the bytes."""
        while not self.came and not self.is_over:
            try:
                data = self.socket.recv(65536)
            except socket.timeout:
                raise RanOut(f"C{self.member} hears nothing within {PATIENCE} seconds") from None
            self.is_over = not data
            self.came, self.rest = parted(self.rest + data)
        return self.came.pop(0) if self.came else None

    def log_on(self) -> "Client":
        self.send("A", "98=0|108=0|141=Y|")
        if value(came := self.next() or "nothing", "35") != "A":
            raise Trouble(f"the Logon of C{self.member} was answered by {came}")
        return self

    def close(self) -> None:
        self.socket.close()


def replay(journal: str, what: str, symbols: Sequence[str] = ("ABC",)) -> tuple[list[str], tuple[int, int]]:
    """The lines that venue-replay prints, and the commands and outputs of the last one."""
    told = programs.Replay(journal, what, list(symbols))
    lines = list(told)
    return lines, (told.commands, told.outputs)


def check_snapshots(journal: str, symbols: Sequence[str] = ("ABC",)) -> str:
    """The line that venue-replay prints of a journal's snapshots."""
    ran = subprocess.run([REPLAY, journal, "check", *symbols], capture_output=True, text=True)
    return (ran.stdout + ran.stderr).strip()
