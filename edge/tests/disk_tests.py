"""Disks that fill, and that go away: what can't be kept isn't told, that is said, and all goes on with room."""
import contextlib
import os
import shutil
import signal
import subprocess
import time
from collections.abc import Iterator

from edges import JOURNAL, SYMBOLS, Client, Edge, Trouble, again, await_that, freeze, kill_all, pair, rows
from edges import session_files, started, stored, told, venue_order
from engines import Engine, at_rest, cancel, order, refused
from gikvand.fix import value
from gikvand.words import sure
from market import BEGUN, Market
from recovery_tests import places, restarted, settings
from trading_tests import expect

UNTIDY = 200    # Refusals whose names and messages wait to be tidied up in a quiet moment.
ROOM = 130_000  # Bytes of a disk in which there is room for the row of these, and none for them in the tables as well.
MOST_WRITES = 8  # In a second of a process that tries to begin a day in each: two or three a try.


def fill(path: str, left: int) -> None:
    """Takes the room of a disk but for so many bytes."""
    room = shutil.disk_usage(path).free - left
    with open(os.path.join(path, "ballast"), "ab", buffering=0) as file, contextlib.suppress(OSError):
        file.write(b"x" * max(0, room))  # A part of that where somebody else has taken some of it since.


@contextlib.contextmanager
def small_disk() -> Iterator[None]:
    """A disk of 8 MB, at `disk`."""
    if os.geteuid():
        raise Trouble("this test mounts a small disk, which takes root")
    os.mkdir("disk")
    subprocess.run(["mount", "-t", "tmpfs", "-o", "size=8m", "tmpfs", "disk"], check=True)
    try:
        yield
    finally:
        kill_all()
        subprocess.run(["umount", "-l", "disk"], check=True)


def test_full_disk() -> None:
    """The disk of the edge fills: new orders are refused in words, what was sent is told, and all goes on with room."""
    with small_disk():
        common = {"EdgePath": "disk/edge", "DiskReserve": "2000000"}
        venue, edge, port = pair(2, started(JOURNAL, 3, list(SYMBOLS)), common=common)
        one, other = at_rest(port, "a", 100), Engine(port, 2).log_on()
        fill("disk", 1000000)
        time.sleep(0.1)
        one.send("D", order("b", 1, 100, "50"))
        if "its disk is nearly full" not in one.report(_150="8", _11="b"):
            raise Trouble("a refusal doesn't say that the disk is full")
        one.send("F", cancel("c", "a", 1))
        one.report(_150="4")
        os.remove("disk/ballast")
        time.sleep(0.1)
        one.send("D", order("d", 1, 1000000, "50"))  # Whoever sells below finds it, however late the disk is seen to be full.
        one.report(_150="0", _11="d")
        for it in (one, other):
            it.settle()
        for member in (1, 2):  # Else the record of the second one may find no room for a note either.
            await_noted(member)
        fill("disk", 0)
        time.sleep(0.1)
        third, sold = Client(venue.port, 3).log_on(), 0
        while not any("C1: isn't served: disk/edge/C1/C1.db: database or disk is full" in it for it in edge.lines):
            sold += 1  # The last page of the file may have room for some.
            third.send("D", venue_order(sold, 2, 1, 5000))
            third.next()
            time.sleep(0.02)
        os.remove("disk/ballast")
        edge.hears("C1: serves, behind report")
        for it in (one, other):
            it.close()
            it.log_on()
        for _ in range(sold):
            one.report(_150="F", _11="d", _32="1")
        one.send("D", order("f", 1, 100, "50"))
        one.report(_150="0", _11="f")
        for member in (1, 2):
            wanted = [int(sure(value(it, "17"))) for it in told(member)]
            came = [int(sure(value(it, "17"))) for it in stored(member, "disk/edge") if (value(it, "17") or "").isdecimal()]
            expect(came, wanted)


def await_noted(member: int = 1) -> None:
    """Waits until the record of a member has a note of all that was sent: it is quiet then."""
    await_that("a note of what it was sent",
               lambda: rows(member, "SELECT sender - heard FROM session", "disk/edge") == [(0,)])


def test_full_store() -> None:
    """Heartbeats that can't be kept on the disk don't come: that is said, and all goes on with room, the log as well."""
    with small_disk():
        common = {"EdgePath": "disk/edge", "FileLogPath": "disk/log", "DiskReserve": "500000"}
        venue, edge, port = pair(common=common, MaxReadMessagesPerSecond="0")
        one = Engine(port, 1).log_on()
        one.settle()  # What it was sent is noted once it goes on behind its Logon.
        one.came.clear()
        await_noted()
        freeze(edge.process_of(1))
        for at in range(100):  # They are read in one turn, whose answers are more than the record's files have room for.
            one.send("1", f"112={at:0500}|")
        fill("disk", 0)
        os.kill(edge.process_of(1), signal.SIGCONT)
        edge.hears("C1: isn't served: disk/edge/C1/C1.db: database or disk is full")
        os.remove("disk/ballast")
        edge.hears("C1: serves, behind report")
        while one.pump(1):
            pass
        expect([it for it in one.came if value(it, "35") == "0"], [])
        one.log_on().settle()
        one.send("D", order("a", 1, 1, "50"))
        one.report(_150="0")
        with open(session_files(1, "disk/log") + "messages.current.log", encoding="ascii") as file:
            expect([value(it.replace("\x01", "|"), "11") for it in file if "\x0135=D" in it], ["a"])


def test_store_away() -> None:
    """The folder of the records goes away and comes back, like an unmounted disk: it is said, and nothing is lost."""
    venue, edge, port = pair()
    one = at_rest(port, "a")
    os.rename("edge", "away")
    time.sleep(0.1)
    one.send("D", order("b", 1, 1, "50"))
    edge.hears("C1: isn't served: can't look at edge/C1")
    edge.hears("C1: isn't served: edge/C1/C1.db: it isn't there any more")
    refused(Engine(port, 1), "wasn't answered")
    edge.hears("is let go: the store can't be read")
    os.rename("away", "edge")
    edge.hears("C1: serves, behind report 1")
    one.close()
    one.log_on().report(_150="0", _11="b")
    one.send("D", order("c", 1, 1, "50"))
    one.report(_150="0", _11="c")
    expect(places(1), [1, 2, 3])


def ordered_until_full(one: Engine, letter: str) -> int:
    """Fills the disk, and sends orders until the session ends: how many. The file's last page may have room for some."""
    fill("disk", 0)
    count = 0
    while one.socket:
        name = f"{letter}{count}"
        one.send("D", order(name, 1, 1, "50"))
        count += 1
        while one.pump(1) and not (one.reports and value(one.reports[-1], "11") == name):
            pass
    return count


def test_names_disk() -> None:
    """A request whose name can't be kept isn't taken, and the venue never sees it; sent again it is taken, once."""
    with small_disk():
        venue, edge, port = pair(common={"EdgePath": "disk/edge", "DiskReserve": "0"})
        one = Engine(port, 1).log_on()
        one.settle()
        await_noted()
        count = ordered_until_full(one, "a")
        edge.hears("C1: isn't served: disk/edge/C1/C1.db: database or disk is full")
        names = {number for number, in rows(1, "SELECT number FROM names", "disk/edge")}
        if unknown := {int(sure(value(it, "11"))) for it in told(1)} - names:
            raise Trouble(f"the venue has {unknown}, of which the record has no name")
        os.remove("disk/ballast")
        edge.hears("C1: serves, behind report")
        one.log_on().report(_150="0", _11=f"a{count - 1}")
        edge.kill()
        restarted()
        expect([value(it, "11") for it in one.history], [f"a{at}" for at in range(count)])
        expect((sum("|150=0|" in it for it in stored(1, "disk/edge")), len(told(1))), (count, count))


def test_full_of_refusals() -> None:
    """On a full disk a refusal isn't told before it is kept: the session ends instead. What was refused stays refused
    when there is room and nothing speaks against it any more; what wasn't told is taken, once."""
    with small_disk():
        venue, edge, port = pair(common={"EdgePath": "disk/edge", "DiskReserve": "0"}, MaxOpenOrders="1")
        one = at_rest(port, "a")
        await_noted()
        count = ordered_until_full(one, "r")
        edge.hears("C1: isn't served: disk/edge/C1/C1.db: database or disk is full")
        said = [value(it, "11") for it in one.history if value(it, "150") == "8"]
        expect(said, [f"r{at}" for at in range(count - 1)])
        kept = rows(1, "SELECT name FROM names WHERE kind = 'x' ORDER BY number", "disk/edge")
        expect([name for name, in kept], said)
        os.remove("disk/ballast")
        edge.hears("C1: serves, behind report")
        edge.kill()
        Edge(settings().replace("MaxOpenOrders=1", "MaxOpenOrders=9")).ready()
        one.log_on().report(_150="0", _11=f"r{count - 1}")
        expect(len(told(1)), 2)


def test_full_and_untidy() -> None:
    """A disk fills while much of a record waits to be tidied up, and the venue goes: both are tried once a second and no more,
    what is wrong with each is said once, and in between clients are answered. All is kept, and goes on with room."""
    with small_disk():
        common = {"EdgePath": "disk/edge", "DiskReserve": "0"}
        venue, edge, port = pair(common=common, MaxOpenOrders="1", MaxReadMessagesPerSecond="0")
        one = at_rest(port, "a")
        await_noted()
        freeze(edge.process_of(1))
        for at in range(UNTIDY):  # They are read in one turn, for whose row there is room, and not for more than that.
            one.send("D", order(f"{at:064}", 1, 1, "50"))
        fill("disk", ROOM)
        os.kill(edge.process_of(1), signal.SIGCONT)
        edge.hears("C1: isn't served: disk/edge/C1/C1.db: database or disk is full")
        venue.kill()
        edge.hears("C1: the venue: can't connect")
        for _ in range(3):
            refused(Engine(port, 1), "this member can't be served, and the operator of the venue is told why")
            time.sleep(1)
        wanted = ("C1: isn't served: ", "C1: the venue: can't connect")
        expect([sum(text in it for it in edge.lines) for text in wanted], [1, 1])
        os.remove("disk/ballast")
        again(port, 1, venue.port)
        edge.hears("C1: serves, behind report")
        one.close()
        one.log_on().report(_150="8", _11=f"{UNTIDY - 1:064}")
        expect(len(one.history), UNTIDY + 1)


def writes_of(process: int) -> int:
    """How often a process has asked the system to write, also where that failed."""
    with open(f"/proc/{process}/io", encoding="ascii") as file:
        return next(int(line.split()[1]) for line in file if line.startswith("syscw: "))


def test_no_room_for_a_day() -> None:
    """A day ends on a full disk: the next one is begun once a second and no more, until that is kept. What is wrong is said
    once, and the day once it is kept."""
    with small_disk():
        market = Market("2030-01-01 23:59:00", hours={"EdgePath": "disk/edge", "DiskReserve": "0"})
        at_rest(market.port, "a")
        await_noted()
        fill("disk", 0)
        market.clock.put("2030-01-02 00:00:00")
        market.edge.hears("C1: isn't served: disk/edge/C1/C1.db: database or disk is full")
        process = market.edge.process_of(1)
        before, begin = writes_of(process), time.monotonic()
        time.sleep(4)
        tried = writes_of(process) - before
        if tried > (most := MOST_WRITES * (time.monotonic() - begin)):
            raise Trouble(f"expected at most {most:.0f} writes came {tried}")
        expect((len(market.lines("C1: isn't served: ")), market.days(1)), (1, []))
        os.remove("disk/ballast")
        market.edge.hears("C1: serves, behind report 1")
        expect([line.endswith(BEGUN) for line in market.days(1)], [True])
        market.engine().log_on()


TESTS = [test_full_disk, test_full_store, test_store_away, test_names_disk, test_full_of_refusals,
         test_full_and_untidy, test_no_room_for_a_day]
