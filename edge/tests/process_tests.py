"""A process for each member: what happens to one, whether killed, stuck, damaged or full, the others don't notice."""
import fcntl
import itertools
import os
import select
import shutil
import signal
import socket
import stat
import time
from collections.abc import Iterator

import slices
from edges import EVENTS, PATIENCE, Edge, Trouble, Venue, again, children_of, freeze, is_there, pair, path_of, processes_below, settings_of, told
from engines import Engine, at_rest, cancel, order, refused
from gikvand.fix import value
from gikvand.words import sure
from kept_tests import put_old_files
from recovery_tests import places, restarted, settings
from takers import ONCE, asks
from trading_tests import expect
from venues import await_that

BOUND = 30  # Seconds that the processes have to end in order.
MOST = 16 << 20  # Bytes of a member's folders.


class Undisturbed:
    """Two members that trade with one another, and who must not notice what happens to a third."""

    def __init__(self, edge: Edge, port: int) -> None:
        self.edge, self.count = edge, 0
        self.one, self.other = (Engine(port, member).log_on() for member in (2, 3))
        self.processes = {name: it for name, it in children_of(edge.process.pid).items() if name != "C1"}

    def trade(self, times: int = 1) -> None:
        """Lets one buy from the other, each told of it by a fill."""
        for _ in range(times):
            self.count += 1
            self.one.send("D", order(f"u{self.count}", 1, 1, "40", "XYZ"))
            self.one.report(_150="0", _11=f"u{self.count}")
            self.other.send("D", order(f"v{self.count}", 2, 1, "40", "XYZ"))
            for it, name in ((self.one, "u"), (self.other, "v")):
                it.report(_150="F", _11=f"{name}{self.count}")

    def look(self) -> None:
        """Each was told all, once and in one session of one process."""
        found = {name: it for name, it in children_of(self.edge.process.pid).items() if name != "C1"}
        expect(found, self.processes)
        for member, it in ((2, self.one), (3, self.other)):
            lines = [line for line in self.edge.lines if f": C{member}: " in line and "client from" in line]
            expect((len(lines), bool(it.socket), [kind for kind, _ in it.sent.values() if kind == "2"]), (1, True, []))
            expect(sum(value(text, "150") == "F" for text in it.history), len(told_fills(member)))
            expect(places(member), [int(sure(value(text, "17"))) for text in told(member)])


def told_fills(member: int) -> list[str]:
    return [it for it in told(member) if value(it, "150") == "F"]


def with_others() -> tuple[Venue, Edge, int, Engine, Undisturbed]:
    """A venue, an edge of three members, its port, the first one with an order at rest, and two who trade."""
    venue, edge, port = pair(3)
    return venue, edge, port, at_rest(port, "a", 100), Undisturbed(edge, port)


def sell_to_first(others: Undisturbed, name: str, quantity: int) -> None:
    others.other.send("D", order(name, 2, quantity, "50"))
    others.other.report(_150="F", _11=name)


def test_killed_process() -> None:
    """The process of one member is killed: the others trade on in their sessions; it comes back, and its member is told
    what it missed. Each time it ends the pause before its next start is longer."""
    venue, edge, port, one, others = with_others()
    for at, pause in enumerate((1, 2, 4)):
        begin = time.monotonic()
        os.kill(edge.process_of(1), signal.SIGKILL)
        edge.hears(f"C1: its process ended by signal 9, and is started again in {pause} s")
        sell_to_first(others, f"s{at}", 10)
        others.trade(5)
        edge.hears("gikvand-edge: C1: ready")
        if time.monotonic() - begin < pause:
            raise Trouble(f"it was started again behind {time.monotonic() - begin:.1f} s")
        edge.hears("C1: serves, behind report")
        one.close()
        one.log_on().report(_150="F", _32="10")
    os.kill(edge.process_of(1), signal.SIGTERM)
    edge.hears("C1: its process ended with status 0, and is started again in 8 s")
    expect([value(it, "151") for it in one.history if value(it, "150") == "F"], ["90", "80", "70"])
    others.look()
    edge.stop()
    expect(edge.lines[-1], "gikvand-edge: stopped")


def test_stuck_process() -> None:
    """The process of one member is stopped, and so never answers: the others trade on. It goes on, and tells all."""
    venue, edge, port, one, others = with_others()
    stuck = edge.process_of(1)
    freeze(stuck)
    one.send("D", order("b", 1, 5, "49"))
    for at in range(5):
        sell_to_first(others, f"s{at}", 10)
        others.trade(5)
    expect((one.pump(), one.reports), (True, []))
    os.kill(stuck, signal.SIGCONT)
    one.report(_150="F", _151="50")
    one.report(_150="0", _11="b")
    expect((one.out, bool(one.socket)), (4, True))
    others.look()


def test_bounded_stop() -> None:
    """A process that doesn't end in order is killed, and the status says so; the others have ended in order."""
    venue, edge, port = pair(2)
    one, other = at_rest(port, "a"), Engine(port, 2).log_on()
    freeze(edge.process_of(1))
    begin = time.monotonic()
    edge.process.send_signal(signal.SIGTERM)
    expect(bool(other.next_of("5")), True)
    edge.hears("C2: stopped")
    edge.hears("C1: its process doesn't end, and is killed", PATIENCE + BOUND)
    expect(time.monotonic() - begin >= BOUND, True)
    expect((edge.status(), edge.lines[-1]), (1, "gikvand-edge: stopped"))
    restarted(2)
    one.close()
    one.log_on()


def test_crash_at_the_stop() -> None:
    """A process that crashes while all are stopped has a line, and the status says so; the others have ended in order."""
    venue, edge, port = pair(2)
    crashes = edge.process_of(1)
    freeze(crashes)
    edge.process.send_signal(signal.SIGTERM)
    edge.hears("C2: stopped")
    os.kill(crashes, signal.SIGKILL)
    expect((edge.status(), edge.lines[-2:]),
           (1, ["gikvand-edge: C1: its process ended by signal 9", "gikvand-edge: stopped"]))


def test_stop_within_a_start() -> None:
    """A process that SIGTERM ends before it listens has ended in order: a start leaves nothing half done."""
    venue, edge, port = pair()
    edge.stop()
    kept = "edge/C1/C1.symbols"
    with open(kept, encoding="ascii") as file:
        line = file.read().rstrip("\n")
    os.remove(kept)
    os.mkfifo(kept)
    edge = Edge(settings())
    with open(kept, "w", encoding="ascii") as pipe:  # The process that keeps the other one reads it first.
        pipe.write(line)
    await_that("a process of C1", lambda: "C1" in children_of(edge.process.pid))
    edge.stop()
    expect(edge.lines, ["gikvand-edge: stopped"])


def test_sessions_of_their_own() -> None:
    """Each member's process leads a session: a kernel that shares out its processors by sessions gives each a share."""
    venue, edge, port = pair(2)
    processes = list(children_of(edge.process.pid).values())
    expect([os.getsid(it) for it in processes], processes)


def test_short_slices() -> None:
    """Each thread of a member's process has the shortest slices of a core, where the system has slices to give."""
    slices.put_default()  # Else the edge has those that this process has.
    venue, edge, port = pair(2)
    at_rest(port, "a")
    found = [it for process in children_of(edge.process.pid).values() for it in slices.of_process(process)]
    expect((len(found) > 4, set(found)), (True, {slices.LEAST if slices.slice_of(0) else 0}))


def test_killed_supervisor() -> None:
    """What keeps the members' processes is killed: they end in order, and the next one finds their folders free."""
    venue, edge, port = pair(2)
    one, other = at_rest(port, "a"), Engine(port, 2).log_on()
    processes = list(children_of(edge.process.pid).values())
    edge.process.kill()
    try:
        for it in (one, other):
            expect(bool(it.next_of("5")), True)
            it.close()
        await_that("an end of the members' processes", lambda: not any(map(is_there, processes)))
    finally:  # Nobody else knows them any more.
        for process in filter(is_there, processes):
            os.kill(process, signal.SIGKILL)
    await_that("lines of both", lambda: sum(line.endswith(": stopped") for line in edge.lines) == 2)
    restarted(2)
    one.log_on().send("F", cancel("c", "a", 1))
    one.report(_150="4")


def test_damaged_member() -> None:
    """The record of one member is damaged: it isn't served, and says so once; the others are. With a copy it is, too,
    as soon as that is there."""
    venue, edge, port = pair(3)
    one = at_rest(port, "a", 100)
    one.log_out()
    edge.stop()
    os.rename(path_of(1), "copy")
    with open(path_of(1), "wb") as file:
        file.write(b"no database" * 1000)
    edge = Edge(settings())
    edge.hears("gikvand-edge: ready, 3 members")
    wanted = "gikvand-edge: C1: isn't served: edge/C1/C1.db: file is not a database"
    await_that("lines of all", lambda: wanted in edge.lines and all(
        any(f"C{k}: serves" in it for it in edge.lines) for k in (2, 3)))
    others = Undisturbed(edge, port)
    others.trade(5)
    time.sleep(2)  # It tries again each second.
    expect([it for it in edge.lines if ": C1: " in it], ["gikvand-edge: C1: ready", wanted])
    os.rename("copy", path_of(1))
    edge.hears("C1: serves, behind report")
    one.log_on().send("F", cancel("c", "a", 1))
    one.report(_150="4")
    others.trade(5)
    others.look()


def ordered_until(one: Engine, event: str, numbers: Iterator[int]) -> str:
    """Sends orders until one is answered so, and gives its report; what is taken before that is cancelled."""
    end = time.monotonic() + PATIENCE
    while time.monotonic() < end:
        name = f"o{next(numbers)}"
        one.send("D", order(name, 1, 100, "50"))
        report = one.report(_11=name)
        if value(report, "150") == event:
            return report
        if value(report, "150") == "0":
            one.send("F", cancel(f"c{next(numbers)}", name, 1))
            one.report(_150="4", _41=name)
        time.sleep(0.02)  # What these orders leave in the folders mustn't fill them.
    raise Trouble(f"no order was answered by {event}")


def test_full_folder() -> None:
    """The folders of one member are full: its new orders are refused in words, and its cancels and the others pass."""
    venue, edge, port = pair(3, common={"MaxFolderBytes": str(MOST)})
    one, others, numbers = at_rest(port, "o", 100), Undisturbed(edge, port), itertools.count()
    rests = "o"
    for folder in ("edge", "log"):
        with open(f"{folder}/C1/ballast", "wb") as file:
            file.write(b"x" * MOST)
        if "its disk is nearly full" not in ordered_until(one, "8", numbers):
            raise Trouble("a refusal doesn't say that the disk is full")
        edge.hears("C1: new orders are refused: its folders have more than MaxFolderBytes")
        one.send("F", cancel(f"c{next(numbers)}", rests, 1))
        one.report(_150="4", _41=rests)
        others.trade(2)
        os.remove(f"{folder}/C1/ballast")
        rests = sure(value(ordered_until(one, "0", numbers), "11"))
    others.look()


def test_private_files() -> None:
    """What the edge makes is for its user alone, whatever the mask of who starts it says."""
    before = os.umask(0)
    try:
        venue, edge, port = pair(common={"EdgePath": "a/b/edge"})
    finally:
        os.umask(before)
    at_rest(port, "a").log_out()
    edge.stop()
    made = [os.path.join(folder, it) for root in ("a", "log") for folder, those, files in os.walk(root)
            for it in (*those, *files)] + ["a", "log"]
    expect([it for it in made if stat.S_IMODE(os.stat(it).st_mode) & 0o077], [])
    expect(len(made) > 10, True)


def to_older_layout(member: int) -> None:
    """Puts what there is of a member where an edge of all members in one process had that, and as it had it."""
    put_old_files(member, "edge", "store")
    shutil.rmtree(f"edge/C{member}")
    for name in os.listdir(f"log/C{member}"):
        if not name.startswith("GLOBAL"):
            os.rename(f"log/C{member}/{name}", f"log/{name}")
    shutil.rmtree(f"log/C{member}")


def test_older_layout() -> None:
    """What an edge of all members in one process has left is taken over, also where that was broken off; nothing of it
    is forgotten. Where two files would be one, nothing is moved over either."""
    venue, edge, port = pair(2, common={"FileStorePath": "store"})
    one = at_rest(port, "a")
    one.log_out()
    edge.stop()
    os.mkdir("store")
    for member in (1, 2):
        to_older_layout(member)
    os.mkdir("store/C1")  # As a start that was broken off leaves it.
    os.rename("store/FIX.4.4-GIKVAND-DESK-A.body", "store/C1/FIX.4.4-GIKVAND-DESK-A.body")
    edge = restarted(2)
    line = "files of an edge of before are in folders of its own now"
    expect(sorted(it for it in edge.lines if line in it), [f"gikvand-edge: C1: 6 {line}", f"gikvand-edge: C2: 7 {line}"])
    expect(places(1), [1])
    one.log_on().send("D", order("a", 1, 1, "50"))
    expect(value(one.report(_150="8"), "103"), "6")
    one.log_out()
    edge.stop()
    left = {it for folder in ("edge", "store", "log") for it in os.listdir(folder)}
    expect(left, {"C1", "C2", "lock", "all.lock", "reading.lock"})
    for name in ("edge/C1.names", "edge/C1/C1.names"):
        open(name, "w", encoding="ascii").close()
    edge = Edge(settings(), words=("--member", "C1"))
    edge.hears("C1: both edge/C1.names and edge/C1/C1.names are there: one of them has to go")
    expect((edge.status(), os.path.exists("edge/C1.names")), (1, True))


def test_one_of_one_file() -> None:
    """A file of one member alone, which has no other part: one process, with folders as they stand there."""
    venue, edge, port = pair(2)
    edge.stop()
    text = settings_of({"VenuePort": venue.port}, []).replace("[DEFAULT]", "[SESSION]")
    with open("own.cfg", "w", encoding="ascii") as file:
        file.write(text.replace("Path=", "Path=own-"))
        file.write(f"Member=C2\nTargetCompID=DESK-B\nSocketAcceptPort={port + 1}\n")
    with open("own.cfg", encoding="ascii") as file:
        edge = Edge(file.read(), words=())
    edge.hears("gikvand-edge: C2: ready")
    edge.hears("gikvand-edge: C2: serves, behind report 0")
    one = at_rest(port, "a", member=2)
    expect((os.path.exists("own-edge/C2.db"), len(children_of(edge.process.pid))), (True, 0))
    edge.process.send_signal(signal.SIGTERM)
    expect((bool(one.next_of("5")), edge.status(), edge.lines[-1]), (True, 0, "gikvand-edge: C2: stopped"))


def test_told_to_systemd() -> None:
    """Once all ports listen, and not before that, systemd is told so, once, at a path or at a name without one: by the process of one
    member, and by who keeps several. Nothing that they start can tell it, and where nothing starts it isn't told."""
    _, edge, port = pair(2)
    edge.stop()
    text = settings()
    for words, place in itertools.product((("--all",), ("--member", "C1")), (os.path.abspath("systemd"), f"@gikvand-{os.getpid()}")):
        with socket.socket(socket.AF_UNIX, socket.SOCK_DGRAM) as at:
            at.bind(place.replace("@", "\0"))
            at.settimeout(PATIENCE)
            env = {**os.environ, "NOTIFY_SOCKET": place}
            wrong = Edge(text.replace("Member=C1", "Member=C9"), words=words, env=env)
            expect((wrong.status(), select.select([at], [], [], 0)[0]), (1, []))
            edge = Edge(text, words=words, env=env)
            expect(at.recv(100), b"READY=1")
            for k in range(2 if words == ("--all",) else 1):
                socket.create_connection(("127.0.0.1", port + k), PATIENCE).close()
            edge.hears("C1: serves, behind report")
            began = [name for pid, _ in processes_below(edge.process.pid) for name in started_with(pid)]
            expect((bool(began), "NOTIFY_SOCKET" in began), (words == ("--all",), False))
            edge.stop()
            expect(select.select([at], [], [], 0)[0], [])
        if place[0] == "/":
            os.remove(place)
    edge = Edge(text, env={**os.environ, "NOTIFY_SOCKET": os.path.abspath("systemd")}).ready(2)
    expect([it for it in edge.lines if "systemd" in it], ["gikvand-edge: systemd isn't told that it listens: No such file or directory"])


def started_with(pid: int) -> list[str]:
    """The names of the environment by which a process was started."""
    with open(f"/proc/{pid}/environ", encoding="utf-8") as file:
        return [it.partition("=")[0] for it in file.read().split("\0")]


BY_TURNS = """#!/bin/sh
mkdir busy 2>/dev/null || touch together
'{events}' "$@" >told.$$
sleep 0.2
rmdir busy
cat told.$$
"""
FOLLOWS_BY_TURNS = """#!/bin/sh
[ "$2" = once ] && exec '{events}' "$@"
mkdir busy 2>/dev/null || touch together
sleep 0.5
rmdir busy
exec '{events}' "$@"
"""
STUCK = """#!/bin/sh
touch reads
while [ -n "$STUCK" ] && [ -e stuck ]; do sleep 0.05; done
exec '{events}' "$@"
"""


def other_events(text: str) -> str:
    """The settings with this script in the place of venue-events."""
    with open("other-events", "w", encoding="ascii") as file:
        file.write(text.format(events=EVENTS))
    os.chmod("other-events", 0o755)
    return settings().replace(EVENTS, os.path.abspath("other-events"))


def test_readings_by_turns() -> None:
    """Members of one folder read the journal one after another, at the start and behind the venue's return."""
    venue, edge, port = pair(3)
    edge.stop()
    edge = Edge(other_events(BY_TURNS)).ready(3)
    venue.kill()
    again(port, 3, venue.port)
    for _ in range(3):
        edge.hears(": serves, behind report")
    expect(os.path.exists("together"), False)


def test_markets_by_turns() -> None:
    """What tells the market to several members reads the journal for one of them after another, at the start and behind the
    venue's return. No member is served later by that."""
    venue, edge, port = pair(3, MarketData="Y")
    engines = [at_rest(port, "a"), Engine(port, 2), Engine(port, 3)]
    engines[0].log_out()
    edge.stop()
    edge = Edge(other_events(FOLLOWS_BY_TURNS)).ready(3)
    for turn in ("start", "return"):
        for it in engines:
            it.log_on().send("V", asks(turn, ONCE, update=None, symbols=("ABC",)))
        for it in engines:
            it.report(_35="W", _262=turn)
            it.log_out()
        if turn == "return":
            break
        venue.kill()
        again(port, 3, venue.port)
        for _ in engines:
            edge.hears(": serves, behind report")
    expect(os.path.exists("together"), False)


def test_stuck_reading() -> None:
    """A reading that never ends holds up its own member, and another one for half a minute alone."""
    venue, edge, port = pair(2)
    edge.stop()
    text = other_events(STUCK)
    open("stuck", "w", encoding="ascii").close()
    one = Edge(text, words=("--member", "C1"), env={**os.environ, "STUCK": "Y"})
    await_that("a reading", lambda: os.path.exists("reads"))
    begin = time.monotonic()
    other = Edge(text, words=("--member", "C2"))
    other.hears("C2: serves, behind report", PATIENCE + BOUND)
    expect(time.monotonic() - begin >= BOUND, True)
    one.stop()
    expect([it for it in one.lines if "C1: serves" in it], [])
    os.remove("stuck")


CLOSES = """#!/bin/sh
'{events}' "$@"
exec >&-
touch closed
while [ -e stuck ]; do sleep 0.05; done
"""


def test_reading_that_stays() -> None:
    """A venue-events that has told all and doesn't end holds up nobody but its member, whose client is answered."""
    venue, edge, port = pair()
    edge.stop()
    open("stuck", "w", encoding="ascii").close()
    edge = Edge(other_events(CLOSES))
    await_that("the end of its lines", lambda: os.path.exists("closed"))
    refused(Engine(port, 1), "the venue isn't there yet")
    os.remove("stuck")
    edge.hears("C1: serves, behind report 0")
    Engine(port, 1).log_on()


RIGHT = """#!/bin/sh
exec '{events}' "$@"
"""


def is_turn_free() -> bool:
    """Whether nobody has the turn to read the journal."""
    with open("edge/reading.lock", encoding="ascii") as file:
        try:
            fcntl.flock(file, fcntl.LOCK_EX | fcntl.LOCK_NB)
        except BlockingIOError:
            return False
        return True


def test_reading_that_fails() -> None:
    """A venue-events that can't be started for one member leaves the turn to others; once it is there that one is served."""
    venue, edge, port = pair(2)
    edge.stop()
    plain, text = settings(), other_events(RIGHT)
    one = Edge(text, words=("--member", "C1"))
    one.hears("C1: serves, behind report")
    os.rename("other-events", "away")
    venue.kill()
    again(port, 2, venue.port)
    one.hears("C1: isn't served: venue-events can't be started: No such file or directory")
    await_that("a turn that is given back", is_turn_free)
    Edge(plain, words=("--member", "C2")).hears("C2: serves, behind report")
    os.rename("away", "other-events")
    one.hears("C1: serves, behind report")


def test_served_for_a_minute() -> None:
    """Who has listened for a minute is started again behind the first pause, however often its process ended before."""
    venue, edge, port = pair(1)
    for pause in (1, 2):
        os.kill(edge.process_of(1), signal.SIGKILL)
        edge.hears(f"started again in {pause} s")
        edge.hears("C1: ready")
    time.sleep(61)
    os.kill(edge.process_of(1), signal.SIGKILL)
    edge.hears("started again in 1 s")


TESTS = [test_killed_process, test_stuck_process, test_bounded_stop, test_crash_at_the_stop, test_stop_within_a_start,
         test_sessions_of_their_own, test_short_slices, test_killed_supervisor, test_damaged_member, test_full_folder,
         test_private_files, test_older_layout, test_one_of_one_file, test_told_to_systemd, test_readings_by_turns, test_markets_by_turns,
         test_stuck_reading, test_reading_that_stays, test_reading_that_fails]
LONG_TESTS = [test_served_for_a_minute]
