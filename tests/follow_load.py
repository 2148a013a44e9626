#!/usr/bin/env python3
"""Follows a venue under load, while the follower is killed again and again and the venue once, and looks at the copy
meanwhile.

    tests/follow_load.py           two kills in some seconds, as the full check does
    tests/follow_load.py --long    3,000 orders a second for a minute, ten kills, and 1,000 looks, for MEASURED.md

Four members trade over TCP, at that pace together. At each look the copy has to be a journal: whole blocks up to a
closed gate, with the bytes of the venue's own journal at their places; and it may lose nothing of what it had. At the
end it has to be the whole journal, and `gikvand verify` finds nothing wrong. How old the oldest order was that the copy
hadn't is printed. With --long, which wants a machine that does little else, that may be half a second, also behind a
kill; in the full check it fails nothing, since times are those of the machine. The last line is `N passed, M failed`,
and the status is 1 where one failed. Build both programs first, by scripts/build; others are taken by the environment's
VENUED and VENUE_REPLAY.
"""
import math
import os
import signal
import socket
import sys
import threading
import time
from typing import BinaryIO, NamedTuple

ROOT = os.path.dirname(os.path.dirname(os.path.abspath(__file__)))
TOOLS = os.path.abspath(os.environ.get("TOOLS", os.path.join(ROOT, "tools")))
sys.path[:0] = [TOOLS, os.path.join(ROOT, "dev")]

import with_scripts  # (in front of what stands there, and of what an older Python can't read)
import gikvand as package  # (in front of what puts another path first)
from gikvand import journals
from made_journals import JOURNAL, contents, gikvand, put
from running_tools import Follower, await_copy
from traders import Member, request
from venues import Client, Trouble, Venue, expect, free_port, in_a_folder, main_of, message

MEMBERS = 4
A_BURST = 0.02     # Seconds between two bursts of a member.
COPY = "the.copy"
WHOLE = 25         # At each so manieth look the copy is compared from its front.
AFTER = 2.0        # For so many seconds a look counts as one behind a start of the follower.


class Load(NamedTuple):
    """How many orders a second, for how many seconds, how many kills of the follower, how many looks, and how old an order
    may be that the copy hasn't, in seconds."""
    orders: int
    seconds: float
    kills: int
    looks: int
    oldest: float


SHORT, LONG = Load(1000, 4, 2, 100, math.inf), Load(3000, 60, 10, 1000, 0.5)


class Paced(Member):
    """A member that sends so many orders a second, in even bursts."""

    def __init__(self, ends: socket.socket, member: int, first: int, pace: float) -> None:
        self.pace = pace
        super().__init__(ends, member, first)

    def write(self) -> None:
        try:
            self.ends.sendall(message(self.member, 1, "A", "98=0|108=0|141=Y|"))
            began, sent = time.monotonic(), 0
            while not (self.has_ended or self.has_ceased):
                due = int((time.monotonic() - began) * self.pace) - sent
                self.ends.sendall(b"".join(self.following() for _ in range(due)))
                sent += due
                time.sleep(A_BURST)
        except OSError:
            pass

    def following(self) -> bytes:
        """The next request."""
        kind, body = request(self.name)
        self.number, self.name = self.number + 1, self.name + 1
        return message(self.member, self.number, kind, body)


class Traders:
    """The venue, and the members that trade at it until it is killed; then it starts again, and they go on."""

    def __init__(self, load: Load) -> None:
        self.port, self.pace, self.names = free_port(MEMBERS), load.orders / MEMBERS, [1] * MEMBERS
        self.start()

    def start(self) -> None:
        self.venue = Venue(self.port, JOURNAL, MEMBERS)
        self.venue.ready()
        self.members = [Paced(Client(self.port, it).socket, it, self.names[it - 1], self.pace)
                        for it in range(1, MEMBERS + 1)]

    def restart(self) -> None:
        """Kills the venue, and starts it again. What a member sent last may be lost, so the names go on behind that."""
        self.venue.kill()
        for at, it in enumerate(self.members):
            it.reports()
            self.names[at] = it.name
        self.start()

    def stop(self) -> None:
        for it in self.members:
            it.cease()
        self.venue.stop()


class Looks:
    """What was seen of the journal and the copy: the times at which the journal had entries that the copy hadn't."""

    def __init__(self) -> None:
        self.journal = journals.Reader(open(JOURNAL, "rb", buffering=0))
        self.copy: journals.Reader | None = None
        self.faults: list[Exception] = []
        self.count, self.started_at, self.grown = 0, time.monotonic(), [(time.monotonic(), 0)]
        self.behind: dict[str, list[float]] = {"running": [], "behind a start": []}

    def look(self) -> None:
        """Reads what the copy has more, and compares it; and notes how old the oldest entry is that it hasn't."""
        now = time.monotonic()
        if os.path.exists(COPY):
            with open(COPY, "rb", buffering=0) as file:
                self.read_on(file)
        for _ in self.journal:
            pass
        self.grown.append((now, self.journal.count))
        self.count += 1
        if self.count % WHOLE == 0:
            self.compare()
        has = self.copy.count if self.copy else 0
        while len(self.grown) > 1 and self.grown[1][1] <= has:
            self.grown.pop(0)
        behind = now - self.grown[0][0] if self.journal.count > has else 0.0
        self.behind["behind a start" if now < self.started_at + AFTER else "running"].append(behind)

    def read_on(self, file: BinaryIO) -> None:
        """Reads the copy from the last gate on that was closed."""
        self.copy = self.copy or journals.Reader(file)
        self.copy.file = file
        for block in self.copy:
            theirs = os.pread(self.journal.file.fileno(), len(block.data), block.offset)
            expect((block.offset, theirs == block.data), (block.offset, True))

    def compare(self) -> None:
        """Compares the copy from its front on with the journal, up to the last gate that was closed."""
        if self.copy:
            gate = self.copy.gate
            expect((gate, contents(COPY)[:gate] == os.pread(self.journal.file.fileno(), gate, 0)), (gate, True))


def look_on(looks: Looks, load: Load, has_ended: threading.Event) -> None:
    """Looks again and again, until the end or a fault."""
    try:
        while not has_ended.wait(load.seconds / load.looks * 0.8):
            looks.look()
    except Exception as why:
        looks.faults.append(why)


def rest(looks: Looks, until: float) -> None:
    """Waits until then, unless something is wrong."""
    while not looks.faults and time.monotonic() < until:
        time.sleep(0.01)


def followed_under_load(load: Load) -> None:
    """The members trade, the follower is killed at even intervals, and the venue once in the middle."""
    put(f"{JOURNAL}.symbols", b"ABC\n")
    traders = Traders(load)
    follower, looks, has_ended = Follower(JOURNAL, COPY), Looks(), threading.Event()
    thread = threading.Thread(target=look_on, args=(looks, load, has_ended))
    thread.start()
    began = time.monotonic()
    try:
        for kill in range(load.kills):
            rest(looks, began + load.seconds * (kill + 1) / (load.kills + 1))
            follower.kill()
            looks.started_at = time.monotonic()
            follower = Follower(JOURNAL, COPY)
            if kill == load.kills // 2:
                traders.restart()
        rest(looks, began + load.seconds)
        pace = looks.journal.count / (time.monotonic() - began)
    finally:
        has_ended.set()
        thread.join()
    if looks.faults:
        raise looks.faults[0]
    traders.stop()
    ends(follower)
    running, started = (max(it, default=0) for it in looks.behind.values())
    print(f"{looks.count:,} looks at a copy that was a journal at each, {pace:,.0f} orders a second, "
          f"{looks.journal.count:,} entries; {load.kills} kills of the follower and one of the venue")
    print(f"the oldest order that it hadn't was at most {running:.2f} s old, "
          f"and within {AFTER:.0f} s behind a start of the follower {started:.2f} s")
    if max(running, started) > load.oldest:
        raise Trouble(f"an order that the copy hadn't was more than {load.oldest} s old")


def ends(follower: Follower) -> None:
    """Waits for the copy to be the whole journal, and ends the follower."""
    whole = contents(JOURNAL)
    gate = journals.read(whole).gate
    await_copy(COPY, gate + 1)
    status, _, err = follower.end(signal.SIGTERM)
    expect((status, err, contents(COPY) == whole[:gate] + journals.CLOSED), (0, "", True))
    expect(gikvand("verify", COPY)[0], 0)


def follower_under_load() -> None:
    followed_under_load(LONG if is_long else SHORT)


is_long = "--long" in sys.argv

if __name__ == "__main__":
    if is_long:
        sys.argv.remove("--long")
    sys.exit(main_of("follow_load", __doc__, [in_a_folder(follower_under_load)]))
