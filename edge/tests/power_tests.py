"""What goes out rests on what a disk has: in the order of the edge's calls, and behind a power that is cut."""
import contextlib
import os
import random
import shutil
import signal
import threading
import time
from collections.abc import Iterator

from differential import Member, compare, look_at, settle, wanted_of
from edges import JOURNAL, PATIENCE, SYMBOLS, Edge, Trouble, Venue, await_that, children_of, free_port, members_of, path_of, rows
from edges import settings_of, started, told
from engines import Engine, order
from power import Power
from trading_tests import expect

CUTS, AT_FIRST = 24, 8  # Cuts of the power, and so many of them while the records are made.
KILLS = 4               # One of so many of the other cuts comes behind the end of one member's process alone.
MEMBERS = 2             # That trade while the power is cut.
UNDER_WAY = 4           # Requests that a member has under way when the power is cut.
AROUND_A_SYNC = range(2, 5)  # Calls of a turn, of which one is its sync: behind it comes what is sent.


def powered(members: int = 1, **more: str) -> tuple[Venue, Power, str, int]:
    """A venue, the power of an edge in front of it, the edge's settings and its port."""
    power, venue = Power(), started(JOURNAL, members, list(SYMBOLS))
    port = free_port(members)
    common = {"VenuePort": venue.port, "EdgePath": power.folder}
    return venue, power, settings_of(common, members_of(members, port, **more)), port


def test_order_of_calls() -> None:
    """Each request and each message to a member is sent behind the sync of all that its turn wrote."""
    _, power, text, port = powered()
    edge = power.start(text, told=os.path.abspath("calls")).ready()
    one = Engine(port, 1).log_on()
    for at in range(5):
        one.send("D", order(f"n{at}", 1, 1, "50"))
        one.report(_150="0", _11=f"n{at}")
        one.send("D", order(f"r{at}", 1, 1, "50", symbol="NONE"))
        one.report(_150="8", _11=f"r{at}")
        one.send("1", f"112=t{at}|")
        one.next_of("0", 0.1)
    one.settle()
    edge.stop()
    with open("calls", encoding="ascii") as file:
        calls = [line.split() for line in file.read().splitlines()]
    is_synced, checked = False, []
    for at, (call, *more) in enumerate(calls):
        if call == "recv":
            is_synced = False
        elif call == "sync" and more == ["C1.db-wal"]:
            is_synced = calls[at - 1] == ["write", "C1.db-wal"]
        elif call == "send" and more[0] in "D890":
            checked.append(more[0])
            if not is_synced or more[-1] != "0":
                raise Trouble(f"{calls[at]} came behind {calls[max(0, at - 6):at]}")
    expect({it: checked.count(it) for it in ("D", "8")}, {"D": 5, "8": 10})


@contextlib.contextmanager
def armed() -> Iterator[None]:
    """The calls that are made meanwhile are counted."""
    open("armed", "w", encoding="ascii").close()
    try:
        yield
    finally:
        os.remove("armed")


def test_left_by_one_that_ended() -> None:
    """A process of a member ends alone about a sync of its record, and the next one goes on behind what that had written, which it
    syncs: a power cut takes none of it back."""
    _, power, text, port = powered()
    one = Engine(port)
    for at in AROUND_A_SYNC:
        edge = power.start(text, at=at, alone=1, armed=os.path.abspath("armed")).ready()
        one.log_on().settle()
        with armed():
            one.send("D", order(f"a{at}", 1, 1, "50"))
            edge.hears("C1: its process ended by signal 9")
        edge.hears("C1: serves, behind report")
        one.close()
        one.log_on().send("D", order(f"b{at}", 1, 1, "50"))
        one.report(_150="0", _11=f"b{at}")
        power.cut(edge)
        one.close()
        wanted_of(1, power.folder)


def test_made_by_one_that_ended() -> None:
    """The process that makes a member's record ends alone where it is to sync the folder above, and the next one goes on with that
    record: a power cut leaves it, as what was told rests on it."""
    _, power, text, port = powered()
    power.start(text, told=os.path.abspath("calls")).ready().stop()
    with open("calls", encoding="ascii") as file:
        at = file.read().splitlines().index("sync .") + 1
    shutil.rmtree(power.folder)
    with armed():
        edge = power.start(text, at=at, alone=1, armed=os.path.abspath("armed"))
        edge.hears("C1: its process ended by signal 9")
    edge.hears("C1: serves, behind report")
    Engine(port).log_on()
    power.cut(edge)
    expect(os.path.exists(path_of(1, power.folder)), True)
    expect(rows(1, "SELECT sender FROM session", power.folder), [(2,)])


def test_cut_by_one() -> None:
    """One process cuts the power. Another one that comes to that meanwhile kills nobody."""
    _, power, text, port = powered()
    calls = os.path.abspath("calls")
    edge = power.start(text, at=1, armed=os.path.abspath("armed"), told=calls).ready()
    one = Engine(port).log_on()
    one.settle()
    open(os.path.join(power.disk, "cut"), "x", encoding="ascii").close()  # Another one is cutting it.

    def is_late() -> bool:
        with open(calls, encoding="ascii") as file:
            return "late \n" in file or edge.process.poll() is not None
    with armed():
        one.send("D", order("a", 1, 1, "50"))
        await_that("a process that comes to its cut", is_late)
        expect(edge.process.poll(), None)
        expect(sorted(children_of(edge.process.pid)), ["C1"])


class Trading(Member):
    """A member that comes to the edge where its door is open."""
    door = threading.Event()

    def turn(self) -> None:
        if self.engine.socket or self.door.wait(0.05):
            super().turn()


class Cuts:
    """Members that trade by chance, while the power of the edge is cut again and again: first while the records are
    made, and then while members trade."""

    def __init__(self, seed: int) -> None:
        self.chance = random.Random(seed)
        _, self.power, self.text, self.port = powered(MEMBERS)
        self.cuts = 0
        self.members = [Trading(self.port, k, 0, seed + k) for k in range(1, MEMBERS + 1)]

    def go(self) -> None:
        for it in self.members:
            it.start()
        while self.cuts < CUTS:
            more: dict[str, int | str] = {"some": self.cuts} if self.cuts % 2 else {}
            if self.cuts < AT_FIRST:
                edge = self.power.start(self.text, at=6 * self.cuts + 1, **more)
            else:
                at = self.chance.randint(1, 200)
                more.update(boot=f"boot-{self.cuts}", armed=os.path.abspath("armed"))
                edge = self.power.start(self.text, at=at, **more).ready(MEMBERS)
            Trading.door.set()
            if self.cuts >= AT_FIRST and self.cuts % KILLS == 0:
                self.kill_one(edge)
            with armed():
                self.await_cut(edge)
            self.cuts += 1
            Trading.door.clear()
            if self.cuts > AT_FIRST:
                self.look_at_names()
        if (count := sum(len(told(k)) for k in range(1, MEMBERS + 1))) < 2 * CUTS:
            raise Trouble(f"only {count} reports came while the power was cut")
        self.power.start(self.text, boot="last").ready(MEMBERS)
        Trading.door.set()
        for it in self.members:
            it.left = 0
        settle(self.members, self.power.folder)

    def await_cut(self, edge: Edge) -> None:
        end = time.monotonic() + PATIENCE
        while not self.power.is_cut(edge):
            self.look()
            if time.monotonic() > end:
                raise Trouble("too few calls for a cut")
            time.sleep(0.01)

    def look_at_names(self) -> None:
        """What the venue has been sent by now has its name on the disk, where it is known which cut has taken one."""
        for k in range(1, MEMBERS + 1):
            try:
                wanted_of(k, self.power.folder)
            except Trouble as why:
                raise Trouble(f"behind cut {self.cuts}: {why}") from why

    def kill_one(self, edge: Edge) -> None:
        """Kills one member's process while its member trades. What that had written, and hadn't synced, the next one syncs."""
        number = self.chance.randint(1, MEMBERS)
        before = len(told(number))

        def has_traded() -> bool:
            self.look()
            return len(told(number)) >= before + UNDER_WAY
        await_that("reports of a member", has_traded)
        os.kill(children_of(edge.process.pid)[f"C{number}"], signal.SIGKILL)
        edge.hears(f"C{number}: its process ended by signal 9")
        edge.hears(f"C{number}: ready")

    def look(self) -> None:
        look_at(self.members)
        for it in self.members:
            it.left = max(it.left, UNDER_WAY)  # They go on as long as there are cuts.


def test_power_cuts() -> None:
    """The power of the edge is cut at many places of its calls. What its disk has kept is enough: each report is in the
    record once and comes to its member once, each request of the journal has its name, and none that was refused is
    taken later."""
    run = Cuts(20250102)
    run.go()
    compare(run.members, run.power.folder)


TESTS = [test_order_of_calls, test_left_by_one_that_ended, test_made_by_one_that_ended, test_cut_by_one, test_power_cuts]
