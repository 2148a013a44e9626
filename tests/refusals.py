"""The built programs with a call of the system refused to them, by tests/refusals.c. Not a test: tests import it."""
import collections
import concurrent.futures
import functools
import os
import shutil
import subprocess
import sys
import tempfile
from collections.abc import Callable, Iterable, Sequence

ROOT = os.path.dirname(os.path.dirname(os.path.abspath(__file__)))
sys.path.insert(0, os.path.join(ROOT, "dev"))

import with_scripts  # (in front of what stands there, and of what an older Python can't read)
from gikvand import journals
from gikvand.journals import Entry
from gikvand.words import sure
from oracle.book_rules import Book
from oracle.replay_rules import Replayer
from oracle.session_rules import Judged, told
from venues import COUNTS, MOST_RAN_OUT, NO_MORE, PATIENCE, TRIES, VENUED, Trouble, Venue, ended, free_port, kill_all, message
from venues import need_programs, order, printed, ran_out, replay

FRESH = journals.empty()  # As venued makes one.
LOGON = message(1, 1, "A", "98=0|108=0|141=Y|")
MOST_CALLS = 10_000  # A bound for a test that goes wrong.
EDGE = 96  # Of a sample, so many of the first calls and of the last ones are refused one by one,
STEP = 24  # and of those between them one of so many.

Came = tuple[int, bytes, str]  # How a program ended: its status, and what it wrote.


def orders(first: int, count: int) -> list[bytes]:
    """Messages of so many orders of C1 behind a Logon, by turns a buy and a sell at one price."""
    return [message(1, 2 + at, "D", order(first + at, 1 + (first + at) % 2, 10, 50)) for at in range(count)]


class Refusal:
    """A call that is refused to a program, and the journal of that program, in a folder of their own."""

    def __init__(self, library: str, folder: str, group: str, at: int, how: str) -> None:
        self.journal, self.told, self.how = os.path.join(folder, "venue.journal"), os.path.join(folder, "told"), how
        self.set = {"LD_PRELOAD": library, "REFUSE": group, "REFUSE_AT": str(at), "REFUSE_HOW": how, "REFUSE_TOLD": self.told}

    def environment(self) -> dict[str, str]:
        """The environment of a program to which it is refused."""
        if os.path.exists(self.told):
            os.remove(self.told)
        return {**os.environ, **self.set}

    def came(self) -> str | None:
        """The name of the call that was refused, or None where the program made fewer."""
        name = contents(self.told)
        return name.decode() if name else None

    def noted(self) -> list[tuple[str, str, str]]:
        """The calls to the device that were noted, where that is how: each the call's name, the file's beside the journal,
        and what it has more."""
        calls = (line.split(" ") for line in (contents(self.told) or b"").decode().splitlines())
        return [(name, beside, more) for name, path, more in calls if (beside := self.beside(path))]

    def beside(self, path: str) -> str | None:
        """The name of a file beside the journal, or of their folder; of any other None."""
        name = os.path.relpath(path, os.path.dirname(self.journal)) if os.path.isabs(path) else "../"
        return None if name.startswith("../") else name

    def ran(self, words: list[str], data: bytes = b"") -> Came:
        """Runs a program with it to its end: its status, and what it wrote."""
        return ran(words, data, self.environment())

    def serve(self, data: bytes) -> Came:
        """The same of `venued -` with this input."""
        return self.ran(standard(self.journal), data)


def ran(words: list[str], data: bytes = b"", environment: dict[str, str] | None = None) -> Came:
    """Runs a program to its end: its status, and what it wrote."""
    status, out, err = ended(words, data, env=environment)
    return status, out, err.decode()


def standard(journal: str) -> list[str]:
    """The words of `venued -` on this journal."""
    return [VENUED, "-", journal, "1", "ABC"]


def greatest(holds: Callable[[int], object]) -> int:
    """The greatest number, from 1 on, for which something holds that holds for all below it too; 0 where it holds for none."""
    some, none = 0, 1
    while holds(none):
        some, none = none, 2 * none
    while some + 1 < none:
        middle = (some + none) // 2
        some, none = (middle, none) if holds(middle) else (some, middle)
    return some


def sample(count: int) -> list[int]:
    """The numbers of a sample of so many calls."""
    return [at for at in range(1, count + 1) if at <= EDGE or count - at < EDGE or at % STEP == 0]


def compiled(source: str, out: str, *more: str) -> None:
    """Compiles a file of the project with cc."""
    status, _, said = ran(["cc", "-O1", "-o", out, os.path.join(ROOT, source), *more])
    if status:
        raise Trouble(f"cc can't compile {source}: {said.strip()}")


class Sweeps:
    """What refuses calls, compiled into this folder, and which calls were refused so far, with how many of each name.
    All calls are, or a sample of those for memory."""

    def __init__(self, folder: str, is_sample: bool = False) -> None:
        self.folder, self.library, self.is_sample = folder, os.path.join(folder, "refusals.so"), is_sample
        self.met: collections.Counter[str] = collections.Counter()
        compiled("tests/refusals.c", self.library, "-shared", "-fPIC", "-ldl")

    def refused(self, check: Callable[[Refusal], object], group: str, at: int, how: str) -> str | None:
        """Lets a check run with this call refused: its name, or None where the program made fewer."""
        with tempfile.TemporaryDirectory(dir=self.folder) as folder:
            refusal = Refusal(self.library, folder, group, at, how)
            try:
                check(refusal)
            except (Trouble, OSError, subprocess.TimeoutExpired) as why:
                raise Trouble(f"{group} {how}, call {at} ({refusal.came() or 'not made'}): {why}") from why
            return refusal.came()

    def sweep(self, check: Callable[[Refusal], object], group: str, how: str, together: int = 4, each: bool = False) -> None:
        """Refuses the first call, the second, and so on until none is left; so many programs run side by side. Where all
        are a sample, each call is refused only if that is asked for."""
        if self.is_sample and group == "memory" and not each:
            chosen: Sequence[int] = sample(greatest(lambda at: self.refused(check, group, at, how)))
        else:
            chosen = range(1, MOST_CALLS)
        with concurrent.futures.ThreadPoolExecutor(together) as pool:
            for first in range(0, len(chosen), together):
                names = list(pool.map(lambda at: self.refused(check, group, at, how), chosen[first:first + together]))
                self.met.update(it for it in names if it)
                if None in names:
                    return
        if MOST_CALLS - 1 in chosen:
            raise Trouble(f"expected an end of the calls came more than {MOST_CALLS}")

    def said(self) -> str:
        """The calls that were refused, in words."""
        names = ", ".join(f"{count} {name}" for name, count in sorted(self.met.items()))
        return f"{sum(self.met.values())} calls refused ({names})"


def contents(name: str) -> bytes | None:
    """The bytes of a file, or None where there is none."""
    if not os.path.exists(name):
        return None
    with open(name, "rb") as file:
        return file.read()


def kept(name: str) -> bytes:
    """The bytes of a file that is there."""
    return sure(contents(name))


def put(name: str, data: bytes | None) -> None:
    """Makes a file of these bytes in the place of what was there; of None, none."""
    for other in (name, f"{name}.new", f"{name}.stop"):
        if os.path.exists(other):
            os.remove(other)
    if data is not None:
        with open(name, "wb") as file:
            file.write(data)


def journal_of(messages: Iterable[bytes], version: int = journals.MADE) -> bytes:
    """The bytes of a journal of these messages of C1, each in a block of its own."""
    return journals.header(version) + journals.in_blocks(version, [Entry(1, it) for it in messages], 1) + journals.CLOSED


def after(count: int) -> Book:
    """The book behind so many of the orders."""
    book = Book()
    Judged(LOGON + b"".join(orders(1, count)), book)
    return book


@functools.lru_cache(maxsize=None)
def answers(first: int, count: int) -> list[bytes]:
    """What a session is told of so many orders, from the one of this number on: its Logon's answer, and each order's."""
    judged = Judged(LOGON + b"".join(orders(first, count)), after(first - 1))
    whole = [b"".join(told(kind, 1, when, own) for kind, when, own, _ in judged.session.answers)]
    whole += [b""] * count
    for number, (kind, when, own, place) in enumerate(judged.reports, 2):
        whole[1 + place] += told(kind, number, when, own)
    return whole


def answered(out: bytes, first: int, count: int) -> int:
    """How many of these orders a session was told of, in whole or in part, by what came out; nothing else may have."""
    whole = answers(first, count)
    if not b"".join(whole).startswith(out):
        raise Trouble(f"expected a beginning of {printed(b''.join(whole))} came {printed(out)}")
    found = 0
    while len(out) > sum(map(len, whole[:found + 1])):
        found += 1
    return found


def check_history(journal: str, least: int, most: int) -> int:
    """The journal holds a beginning of the orders, no less and no more than so many: how many."""
    lines, (commands, _) = replay(journal, "C1") if os.path.exists(journal) else ([], (0, 0))
    if not least <= commands <= most:
        raise Trouble(f"expected {least} to {most} orders kept came {commands}")
    if lines != (wanted := history(commands)):
        raise Trouble(f"expected {wanted} kept came {lines}")
    return commands


@functools.lru_cache(maxsize=None)
def history(count: int) -> list[str]:
    """What venue-replay prints of so many of the orders, line by line."""
    return Judged(LOGON + b"".join(orders(1, count)), Book()).lines()


def by_rules(data: bytes, *words: str) -> tuple[Came, dict[str, bytes]]:
    """What the rules say of these words on a journal J: how venue-replay ends with ample memory and a device that works,
    and the files then."""
    files = {"J": data}
    outcome = Replayer(files).run(["J", *words])
    return (outcome.status, outcome.out.encode(), outcome.err), files


def listens(refusal: Refusal, gateways: int) -> tuple[Venue | None, str, Came]:
    """A venue to which a call is refused, and its first line, if it is ready; else None, and how it ended."""
    for _ in range(TRIES):
        venue = Venue(free_port(gateways), refusal.journal, gateways, env=refusal.environment())
        line = venue.out.next()
        if COUNTS.fullmatch(line or ""):
            return venue, line or "", (0, b"", "")
        fault = venue.err.next() or ""
        if not fault.startswith("venued: cannot listen"):
            return None, "", (venue.process.wait(PATIENCE), (line or "").encode(), f"{fault}\n")
    raise Trouble(f"in {TRIES} tries no {gateways} ports stayed free")


def run_tests(name: str, tests: Sequence[Callable[[Sweeps], str]], is_sample: bool = False) -> None:
    """Runs these tests, each in a folder of its own, and prints what they came to; the status is 1 where one failed. No further test is run
    behind the third one whose wait ran out."""
    if not shutil.which("cc"):
        print(f"{name}: cc isn't installed, which compiles tests/refusals.c: nothing was tried\n0 passed, 0 failed")
        sys.exit()
    try:
        need_programs()
    except Trouble as why:
        sys.exit(f"{name}: {why}")
    count = failed = waits = 0
    for test in tests:
        count += 1
        with tempfile.TemporaryDirectory(prefix="refusals-") as folder:
            try:
                print(f"{test.__name__}: {test(Sweeps(folder, is_sample))}", flush=True)
            except (Trouble, OSError, subprocess.TimeoutExpired) as why:
                print(f"{test.__name__}: {why}", flush=True)
                failed += 1
                waits += ran_out(why)
            finally:
                kill_all()
        if waits == MOST_RAN_OUT:
            print(NO_MORE, flush=True)
            break
    print(f"{count - failed} passed, {failed} failed")
    sys.exit(1 if failed else 0)
