"""Runs parts of the check or of the soak, and tells the verdict of each. Not a script: scripts/check and scripts/soak import this module.

All that a part says stands in out/check/NAME.txt. As root, each part with venues has a network of its own, so that no client of another
part comes to a port there.
"""
import concurrent.futures
import functools
import math
import os
import resource
import select
import shutil
import signal
import subprocess
import sys
import tempfile
import threading
import time
from collections.abc import Callable, Iterable
from typing import IO, NamedTuple

import debian
from crates import ROOT, room
from parts import GOT, PROOFS, Part, Verdict, lost_by

SAID = os.path.join(ROOT, "out/check")  # The folder of what the parts have said.
HEARD = 300.0  # Seconds behind which a part of a long run that still runs is heard of,
NEWEST = 100   # by so many characters of its newest line;
MOST = 3600.0  # and so many seconds behind which a part other than the proofs has come to a standstill, and is ended.
A_SLOW_ONE = 60.0  # Seconds of a slow part that hasn't run here yet.
RETRIED = "retried: "  # What the line of a test that was tried once more begins with.
OWN_NETWORK = ("unshare", "--net", "sh", "-c", 'ip link set lo up && exec "$@"', "sh")
CORES = len(os.sched_getaffinity(0))


class Ended(NamedTuple):
    """The end of a part: its status, its lines, the seconds for which it ran, and the seconds of a processor that it took."""
    status: int
    lines: list[str]
    seconds: float
    processor: float


def lines_of(path: str) -> list[str]:
    """Returns the lines that stand in a file by now."""
    with open(path, encoding="utf-8", errors="replace") as file:
        return file.read().splitlines()


def last_time(part: Part) -> str:
    """Returns how long a part took here the last time, or `-`."""
    try:
        with open(os.path.join(SAID, f"{part.name}.seconds"), encoding="ascii") as file:
            return f"{float(file.read()):.0f} s"
    except (OSError, ValueError):
        return "-"


def took(part: Part) -> float:
    """Returns the seconds that a part took the last time, or an estimate by its marks."""
    last = last_time(part)
    return float(last.removesuffix(" s")) if last != "-" else 0.0 if part.has("quick") else A_SLOW_ONE


def ended_within(process: subprocess.Popen, patience: float | None) -> float | None:
    """Returns the seconds of a processor that a process took together with all children that it waited for, or None where the process runs
    for longer than `patience` seconds. A process that has ended still has to be waited for."""
    ends = os.pidfd_open(process.pid)
    try:
        if not select.select([ends], [], [], patience)[0]:
            return None
    finally:
        os.close(ends)
    with open(f"/proc/{process.pid}/stat", encoding="utf-8", errors="replace") as file:
        fields = file.read().rpartition(")")[2].split()
    return sum(map(int, fields[11:15])) / os.sysconf("SC_CLK_TCK")


def jobs() -> int:
    """Returns how many checks `rt ci` runs side by side: one a core, where each may have 3 GB. By itself `rt ci` reckons with more memory
    than a check takes, and leaves cores idle."""
    return min(room(), CORES)


@functools.cache
def own_network() -> tuple[str, ...]:
    """Returns the words that give a command a network with nobody else in it, or nothing where none can be had."""
    return OWN_NETWORK if debian.succeeds(*OWN_NETWORK, "true") else ()


def machine() -> str:
    """Returns what this machine has for a run."""
    free = os.sysconf("SC_AVPHYS_PAGES") * os.sysconf("SC_PAGE_SIZE")
    return f"{CORES} cores; {free / 2**30:.1f} GiB of memory and {shutil.disk_usage(ROOT).free / 2**30:.1f} GiB of disk are free"


class Runs:
    """Runs of parts, and their verdicts so far."""

    def __init__(self) -> None:
        self.passed = self.failed = 0
        self.again: list[str] = []  # The last lines of the parts that failed.
        self.retried: list[str] = []  # The lines of the tests that were tried once more.
        self.processor: dict[str, float] = {}  # The seconds of a processor that each part took.
        self.running: set[subprocess.Popen] = set()
        self.lock, self.is_over = threading.RLock(), False  # (a signal may come while the lock is held)

    def started(self, part: Part, together: int, out: IO[bytes]) -> subprocess.Popen:
        """Starts a part. A command that can't be started says so, as a shell would."""
        words = part.words(together)
        program = words[0] if os.sep not in words[0] else os.path.join(ROOT, words[0])
        if not shutil.which(program):
            program, words = "/bin/sh", ["sh", "-c", 'echo "$0 can\'t be run"; exit 127', words[0]]
        apart = own_network() if part.has("built") and not part.has("debian") else ()  # (a part that installs packages needs the network)
        with self.lock:
            if self.is_over:
                raise KeyboardInterrupt  # As where a signal asks the run to end.
            process = subprocess.Popen([*apart, program, *words[1:]], cwd=ROOT, stdin=subprocess.DEVNULL, stdout=out, stderr=out)
            self.running.add(process)
        return process

    def ran(self, part: Part, together: int, patience: float | None = None, most: float = math.inf) -> Ended:
        """Runs a part, and keeps what the part says. The newest line of a part that runs on is shown each `patience` seconds, and behind
        `most` seconds the part is ended."""
        begun, path = time.monotonic(), os.path.join(SAID, f"{part.name}.txt")
        os.makedirs(SAID, exist_ok=True)
        with open(path, "wb") as said:  # (a process that is left may hold a pipe for ever)
            process = self.started(part, together, said)
            while (processor := ended_within(process, patience)) is None:
                minutes, newest = (time.monotonic() - begun) / 60, (lines_of(path) or ["none"])[-1]
                is_ended = minutes * 60 >= most
                print(f"{part.name:18}  {minutes:.0f} minutes{' are too many' * is_ended}; its newest line: {newest:.{NEWEST}}", flush=True)
                if is_ended:
                    process.kill()
            status = process.wait()
        self.running.discard(process)
        seconds = time.monotonic() - begun
        with open(os.path.join(SAID, f"{part.name}.seconds"), "w", encoding="ascii") as last:
            last.write(f"{seconds:.1f}")
        return Ended(status, lines_of(path), seconds, processor)

    def tell(self, part: Part, ended: Ended) -> Verdict:
        """Counts the verdict of a part, prints it in a line, and keeps the last lines of a part that failed."""
        verdict = part.judged(ended.status, ended.lines[-1] if ended.lines else "")
        again = [f"== what failed has said last: {part.shown(CORES)}", *part.last_words(ended.lines)]
        again += [f"{part.name}: {verdict.why}"] if verdict.why else []
        why = f": {verdict.why}" if verdict.why else ""
        with self.lock:
            self.passed, self.failed = self.passed + verdict.passed, self.failed + verdict.failed
            self.again += again if verdict.failed else []
            self.retried += [line for line in ended.lines if line.startswith(RETRIED)]
            self.processor[part.name] = ended.processor
            print(f"{part.name:18}  {verdict.passed} passed, {verdict.failed} failed, {ended.seconds:.0f} s, {ended.processor:.0f} s of a "
                  f"processor{why}", flush=True)
        return verdict

    def run_one(self, part: Part, together: int = CORES) -> Verdict:
        """Runs a part of a long run, and tells its verdict."""
        return self.tell(part, self.ran(part, together, HEARD, math.inf if part.name == PROOFS else MOST))

    def run_all(self, parts: list[Part]) -> None:
        """Runs these parts in their order, each with a line as the part ends. The parts that need nothing, and behind these the parts that
        wait, run one behind the other beside the rest. A part that needs what couldn't be made is left out, with a line."""
        print(f"check: {machine()}", flush=True)
        lost: set[str] = set()  # Marks of what couldn't be made.
        with concurrent.futures.ThreadPoolExecutor(1) as beside:
            try:
                waiting = [beside.submit(self.run_one, part, 1) for part in parts if part.is_free()]
                for part in parts:
                    if part.name in GOT:
                        debian.get(*GOT[part.name])
                    if lacks := lost.intersection(part.marks.split()):
                        print(f"{part.name:18}  is left out: what it needs couldn't be made ({', '.join(sorted(lacks))})", flush=True)
                    elif part.has("waits"):
                        waiting.append(beside.submit(self.run_one, part))
                    elif not part.is_free() and self.run_one(part).failed:
                        lost |= lost_by(part)
                for run in waiting:
                    run.result()
            except BaseException:
                self.end()
                raise

    def run_beside(self, parts: Iterable[Part], is_told: bool) -> None:
        """Runs these parts side by side, first the parts that took longest the last time: as many as there are cores, and besides all parts
        that wait. Each part has a line once it has ended, or with `is_told` all that it said."""
        first = sorted(parts, key=took, reverse=True)
        waiting = [part for part in first if part.has("waits")]
        pools = concurrent.futures.ThreadPoolExecutor(CORES), concurrent.futures.ThreadPoolExecutor(len(waiting) or 1)
        under_way = {pools[part in waiting].submit(self.ran, part, 1): part for part in first}
        try:
            for done in concurrent.futures.as_completed(under_way):
                part, ended = under_way[done], done.result()
                if is_told:
                    print(*(f"== {part.shown(1)}", *ended.lines), sep="\n")
                self.tell(part, ended)
        except BaseException:
            self.end()
            raise

    def end(self) -> None:
        """Stops the parts that still run."""
        with self.lock:
            self.is_over = True
            for process in self.running:
                process.terminate()

    def say(self, begun: float, how: str) -> int:
        """Prints the last lines of the parts that failed, what the run took, and the last line. Returns the status."""
        used = resource.getrusage(resource.RUSAGE_CHILDREN)
        user, system = (f"{int(seconds) // 60}m{seconds % 60:.3f}s" for seconds in (used.ru_utime, used.ru_stime))
        print("".join(f"{line}\n" for line in [*self.again, *self.retried]), end="")
        print(f"{int(time.monotonic() - begun) // 60} minutes with {how} side by side; {len(self.retried)} tests tried once more; processor "
              f"time, user and system: {user} {system}; {machine()}")
        print(f"{self.passed} passed, {self.failed} failed", flush=True)
        return 1 if self.failed else 0


def run(name: str, does: Callable[[Runs], int]) -> int:
    """Runs `does` for the script of this name, with a Python that has pytest first on the path, and returns the status. An interrupt or
    SIGTERM stops all parts that run."""
    runs = Runs()
    signal.signal(signal.SIGTERM, lambda *_: runs.end())
    os.environ["RT_JOBS"] = str(jobs())
    try:
        with tempfile.TemporaryDirectory(prefix="check-") as folder:  # (outside the project, in which rt takes no links)
            os.environ["PATH"] = debian.path_with_python(folder)
            return does(runs)
    except KeyboardInterrupt:
        runs.end()
        print(f"{name}: interrupted", file=sys.stderr)
        return 130
