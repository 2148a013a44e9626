"""A venue on one of the machines of dev/failover-drill, started again and again as its unit has it. Not a
script."""
import os
import threading
import time

from drill_machines import HOME, SHARED, Machine, children, kill
from drill_store import FOLDER, JOURNAL
from gikvand.programs import ROOT, VENUED
from gikvand.words import sure
from venues import Trouble, await_that

STANDBY = os.path.join(ROOT, "contrib/standby")
STEP, SERVE, LET_GO = (os.path.join(STANDBY, it) for it in ("before-start", "serve", "let-go"))
SYMBOL, PORT, GATEWAYS = "ABC", 9001, 6  # The last two are of members behind the edge.
LOCKED = "status 41"  # Of a start that another venue's lock refuses, by the step or, without it,
FAULT = "status 1"    # by the venue itself.
CUT_OFF = "serve: this machine is cut off from the store"  # Of the watch, which ends its venue.

# What contrib/standby/venued@.conf asks of systemd: the step, the venue, and half a second between two starts.
UNIT = f"""step="$1"
shift
while :; do
    if cd "{SHARED}/{FOLDER}"; then "$step" {JOURNAL} && "$@"; status=$?; else status=200; fi
    echo "status $status"
    case $status in 0 | 2) exit ;; esac
    sleep 0.5
done"""


# What of a program may be left out, the text that is it, and what stands there then.
LEFT_OUT = {
    "lock": (STEP, "fcntl.flock(fd, fcntl.LOCK_EX | fcntl.LOCK_NB)", "pass"),
    "pages": (STEP, "end = true_end(fd, start)", "end = end_of(fd, start)"),
    "let-go": (SERVE, 'goes "$1" || let_go', 'goes "$1"')}
LEFT_OUT["direct-io"] = LEFT_OUT["pages"]  # The option of the mount, and what makes up for it.


def without(program: str, left_out: str | None) -> str:
    """A program of contrib/standby, or a copy of it that lacks this."""
    of, text, other = LEFT_OUT.get(left_out or "", ("", "", ""))
    if of != program:
        return program
    copy = os.path.join(HOME, os.path.basename(program))
    with open(program, encoding="utf-8") as file:
        whole = file.read()
    if whole.count(text) != 1:
        raise Trouble(f"{text} stands {whole.count(text)} times in {program}")
    with open(copy, "w", encoding="utf-8") as file:
        file.write(whole.replace(text, other))
    os.chmod(copy, 0o755)
    return copy


def step_without(left_out: str | None) -> str:
    """The step before each start."""
    return "true" if left_out == "step" else without(STEP, left_out)


def watched(left_out: str | None = None) -> list[str]:
    """The words of a venue with the watch beside it, as the unit has it."""
    serve = without(SERVE, left_out)
    return ["env", f"PATH={os.path.dirname(VENUED)}:{os.environ['PATH']}", serve, str(PORT), JOURNAL, str(GATEWAYS)]


def alone() -> list[str]:
    """The words of a venue without the watch."""
    return [VENUED, str(PORT), JOURNAL, str(GATEWAYS), SYMBOL]


class Unit:
    """The unit on a machine, from now on, and the lines that it prints, each with its moment."""

    def __init__(self, machine: Machine, words: list[str], step: str = STEP) -> None:
        self.machine, self.lines = machine, list[tuple[float, str]]()
        self.process = machine.begin("bash", "-c", UNIT, "unit", step, *words)
        threading.Thread(target=self.read, daemon=True).start()

    def read(self) -> None:
        with sure(self.process.stdout) as pipe:
            for line in pipe:
                self.lines.append((time.monotonic(), line.rstrip("\n")))

    def when(self, begins: str, since: float) -> float | None:
        """The moment of its first line that begins so, since some moment."""
        return next((at for at, line in self.lines if at >= since and line.startswith(begins)), None)

    def ready(self, since: float) -> float | None:
        return self.when("venued: ready, ", since)

    def refused(self, since: float) -> int:
        """How often a start was refused for the lock."""
        return sum(at >= since and line in (LOCKED, FAULT) for at, line in self.lines)

    def await_line(self, begins: str, since: float) -> float:
        await_that(f"the venue on {self.machine.name} says '{begins}'", lambda: self.when(begins, since) is not None)
        return sure(self.when(begins, since))

    def end(self) -> None:
        """Kills it, and then the venue: nothing starts again here."""
        for loop in children(self.process.pid):
            its = children(loop)
            kill(loop)
            for it in its:
                kill(it)
        self.process.wait()

    def stop(self) -> None:
        """Stops the venue in order."""
        since = time.monotonic()
        with open(self.machine.path(f"{SHARED}/{FOLDER}/{JOURNAL}.stop"), "wb"):
            pass
        self.await_line("venued: stopped, ", since)
        await_that(f"the unit on {self.machine.name} ends", lambda: self.process.poll() is not None)
        if status := self.process.poll():
            raise Trouble(f"the unit of a venue that was stopped ended with {status}")


def first_ready(units: list[Unit], since: float) -> Unit:
    """The unit whose venue is ready first since some moment."""
    await_that("one of the other machines serves", lambda: any(it.ready(since) for it in units))
    return min((it for it in units if it.ready(since)), key=lambda it: sure(it.ready(since)))
