"""The load client of bench_venue.c, and a venue under its load, for the scripts that measure."""
import os
import shutil
import subprocess
import tempfile

from venues import ROOT, Trouble, Venue, replay, started

TICKS = os.sysconf("SC_CLK_TCK")

SOURCE = os.path.join(ROOT, "dev/bench_venue.c")
PIN = os.path.join(ROOT, "scripts/pin")

Load = tuple[int, float, float, float, int]  # Orders, seconds, p50 and p99 in microseconds, and reports.


def built(folder: str) -> str:
    """The load client, compiled."""
    if not shutil.which("cc"):
        raise Trouble("cc isn't installed, which compiles the load client")
    program = os.path.join(folder, "load")
    ran = subprocess.run(["cc", "-O2", "-pthread", "-o", program, SOURCE], capture_output=True, text=True)
    if ran.returncode:
        raise Trouble(f"cc can't compile {SOURCE}: {ran.stderr.strip()}")
    return program


def load(program: str, *words: object, heartbeat: int = 0, **more: str) -> Load:
    """Lets the load client trade: orders, seconds, p50 and p99 in microseconds, and reports. More words are of its environment."""
    ran = subprocess.run([program, "load", *map(str, words)], capture_output=True, text=True,
                         env={**os.environ, "BENCH_HEARTBEAT": str(heartbeat), **more})
    if ran.returncode:
        raise Trouble(ran.stderr.strip() or f"the load client ended with status {ran.returncode}")
    orders, micros, p50, p99, reports = map(int, ran.stdout.split())
    return orders, micros / 1e6, p50 / 1e3, p99 / 1e3, reports


def used(pid: int) -> float:
    """The seconds of a processor that this process has taken."""
    with open(f"/proc/{pid}/stat", encoding="utf-8") as file:
        fields = file.read().rpartition(")")[2].split()
    return (int(fields[11]) + int(fields[12])) / TICKS


def put_on_cores(venue: Venue) -> None:
    """Puts each thread of the venue on a core."""
    ran = subprocess.run([PIN, str(venue.process.pid)], capture_output=True, text=True)
    if ran.returncode:
        raise Trouble(ran.stderr.strip())


def traded(program: str, folder: str, members: int, window: int, seconds: int, rate: int = 0, venued: str | None = None,
           is_pinned: bool = False) -> Load:
    """The load against a venue whose journal lies in a folder of its own below this one; venued, or another program."""
    return traded_by(program, folder, members, window, seconds, rate, venued, is_pinned)[0]


def traded_by(program: str, folder: str, members: int, window: int, seconds: int, rate: int = 0, venued: str | None = None,
              is_pinned: bool = False) -> tuple[Load, float]:
    """The same, and the seconds of a processor that the venue took for it."""
    with tempfile.TemporaryDirectory(dir=folder, prefix="bench-venue-") as place:
        journal = os.path.join(place, "venue.journal")
        venue = started(journal, members, program=venued)
        if is_pinned:
            put_on_cores(venue)
        before = used(venue.process.pid)
        told = load(program, venue.port, members, window, seconds, rate)
        took = used(venue.process.pid) - before
        orders, *_, reports = told
        counts = [venue.stop()]
        if rate:
            counts.append(replay(journal, "book")[1])
    if set(counts) != {(orders, reports)}:
        raise Trouble(f"{orders} orders and {reports} reports, where venued and venue-replay count {counts}")
    return told, took
