"""The built programs, and what venue-replay prints of a journal."""
import os
import re
import subprocess
from collections.abc import Iterator

from gikvand import files
from gikvand.words import Trouble, sure

ROOT = os.path.dirname(os.path.dirname(os.path.dirname(os.path.abspath(__file__))))
USR = os.path.dirname(os.path.dirname(ROOT))  # Where scripts/package has put this: /usr/share/gikvand and /usr/bin/gikvand.
IS_INSTALLED = ROOT == os.path.join(USR, "share/gikvand") and os.path.lexists(os.path.join(USR, "bin/gikvand"))
COUNTS = re.compile(r"commands (\d+) outputs (\d+)")
A_READ = 1 << 16  # Bytes that are read of a program at once.
WHERE = f"{os.path.join(USR, 'share/doc/gikvand') if IS_INSTALLED else 'docs'}/OPERATING.md says what that means"


def place_of(variable: str, built: str, installed: str) -> str:
    """Where a program lies: as the environment says, or else as scripts/build or the package leaves it."""
    return os.environ.get(variable, os.path.join(USR, "bin", installed) if IS_INSTALLED else os.path.join(ROOT, built))


VENUED = place_of("VENUED", "crates/venued/out/venued", "venued")
REPLAY = place_of("VENUE_REPLAY", "crates/venue_replay/out/venue_replay", "venue-replay")
EVENTS = place_of("VENUE_EVENTS", "crates/venue_events/out/venue_events", "venue-events")


def need(*programs: str) -> None:
    """Stops where one of these isn't there."""
    for program in programs:
        if not os.access(program, os.X_OK):
            why = "isn't there: the package gikvand has it" if IS_INSTALLED else "isn't built: scripts/build proves and builds it"
            raise Trouble(f"{os.path.relpath(program)} {why}")


class Unread(Trouble):
    """The journal can't be read, or not to its end, as a program said. What it printed before is whole."""


def fault_of(program: str, journal: str, said: bytes, status: int) -> Trouble:
    """What a program said of a journal as it ended with this status."""
    name = os.path.basename(program).replace("_", "-")
    words = said.decode("latin-1").strip() or f"{name} ended with {status}"
    return (Unread if status == 1 else Trouble)(f"the journal {journal} can't be read: {words} ({WHERE})")


def lines_of(program: str, journal: str, words: list[str]) -> Iterator[bytes]:
    """The whole lines that a program prints of a journal, with their ends, as they come. Stops where its status isn't 0, with what
    it says. It is ended where not all lines are taken."""
    pipe = subprocess.PIPE
    with subprocess.Popen([program, journal, *words], stdout=pipe, stderr=pipe, bufsize=A_READ) as process:
        try:
            for line in sure(process.stdout):
                if line.endswith(b"\n"):
                    yield line
            said, status = sure(process.stderr).read(), process.wait()
        finally:
            process.kill()
    if status:
        raise fault_of(program, journal, said, status)


class Replay:
    """venue-replay at work on a journal: its lines, as they come. Behind the last one `commands` and `outputs` are its counts."""

    def __init__(self, journal: str, what: str, symbols: list[str]) -> None:
        need(REPLAY)
        files.need_journal(journal)  # It says more than the program, and doesn't wait for a pipe.
        self.journal, self.words = journal, [what, *symbols]
        self.commands = self.outputs = 0

    def __iter__(self) -> Iterator[str]:
        last = None
        for line in lines_of(REPLAY, self.journal, self.words):
            if last is not None:
                yield last
            last = line[:-1].decode("latin-1")
        counts = COUNTS.fullmatch(last or "")
        if not counts:
            raise Trouble(f"the journal {self.journal} can't be read: venue-replay ended without its counts ({WHERE})")
        self.commands, self.outputs = map(int, counts.groups())


def false_snapshot(journal: str, symbols: list[str]) -> int | None:
    """Where the first snapshot stands that isn't that of the entries before it, by venue-replay, or None."""
    need(REPLAY)
    files.need_journal(journal)
    ran = subprocess.run([REPLAY, journal, "check", *symbols], capture_output=True, text=True, encoding="latin-1")
    if ran.stdout == "snapshots true\n" and not ran.returncode:
        return None
    found = re.fullmatch(r"venue-replay: false snapshot at (\d+)\n", ran.stderr)
    if not found:
        raise Trouble(f"the journal {journal} can't be read: {ran.stderr.strip()} ({WHERE})")
    return int(found[1])
