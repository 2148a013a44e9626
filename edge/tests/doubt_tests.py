"""What a record may lack: an older copy of it, or a system that was started anew. The session's numbers go on behind a
gap, so that its engine asks for what it can't know, and nothing is traded twice."""
import glob
import os
import shutil
import time

from edges import PATIENCE, ROOT, Edge, Trouble, changed, copied, pair, rows, told
from engines import Engine, at_rest, cancel, now, order
from gikvand.fix import value
from gikvand.words import sure
from power_tests import powered
from recovery_tests import places, restarted, settings
from trading_tests import expect

STEP = 1000  # Numbers that are passed over where messages may have been lost.
MOMENT = 5   # Seconds behind a last commit, within which a file may have been changed by it.


def has_all(one: Engine, member: int = 1) -> None:
    """Waits until this engine has been told each report that the journal has for it."""
    wanted = {int(sure(value(it, "17"))) for it in told(member) if value(it, "17")}
    end = time.monotonic() + PATIENCE
    while True:
        came = {int(sure(value(it, "17"))) for it in one.history if (value(it, "17") or "").isdecimal()}
        if came == wanted:
            return
        if not one.pump(0.1) or time.monotonic() > end:
            raise Trouble(f"it was told {sorted(came)} of {sorted(wanted)}")


def put_back(at: int | None) -> tuple[Engine, Edge]:
    """A member trades, is away while its order trades on, and an older copy of its record is put back, whose last
    commit was in this second: the engine and the edge."""
    venue, edge, port = pair(2)
    one, other = at_rest(port, "a", 100), Engine(port, 2).log_on()
    copied(1, "before")
    for number in range(3):
        one.send("1", f"112=t{number}|")
        other.send("D", order(f"first{number}", 2, 1, "50"))
        one.report(_150="F")
    one.send("D", order("later", 1, 10, "49"))
    one.report(_150="0", _11="later")
    one.settle()
    one.close()
    edge.hears("C1: the client from")
    for number in range(30):
        other.send("D", order(f"b{number}", 2, 1, "50"))
        other.report(_150="F", _11=f"b{number}")
    edge.kill()
    for it in glob.glob("edge/C1/C1.db*"):
        os.remove(it)
    for it in glob.glob("before/C1/C1.db*"):
        shutil.copy(it, "edge/C1")
    changed(1, at=at)
    return one, Edge(settings())


def is_taken_up(one: Engine, edge: Edge) -> None:
    """Nothing is missed by this engine, and nothing that it sends again is traded twice."""
    edge.hears("C1: the journal has 1 requests, up to the number 2, whose names aren't here")
    edge.hears("C1: serves")
    one.log_on()
    has_all(one)
    refused = one.report(_150="8", _11="later")
    if "may have been passed on before" not in refused:
        raise Trouble(f"what was sent again was refused by {refused}")
    one.send("F", cancel("c", "edge-lost-2", 1))
    expect(value(one.report(_150="4"), "41"), "edge-lost-2")
    expect([value(it, "11") for it in told(1) if value(it, "150") == "0"], ["1", "2"])
    for name, seconds, event in (("soon", 0, "8"), ("late", 600, "0")):  # What came in front of the copy isn't known.
        text = order(name, 1, 1, "49")
        text = text.replace(sure(value("|" + text, "60")), now(time.time() + seconds))
        one.write("D", text, head=f"43=Y|122={now()}|")
        one.out += 1
        expect(value(one.report(_11=name), "150"), event)
    expect(places(1), [int(sure(value(it, "17"))) for it in told(1)])


def test_copy_put_back() -> None:
    """An older copy of a record is put back, as its file's time shows: the numbers go on behind a gap, so that the
    engine asks for what it can't know."""
    one, edge = put_back(0)
    edge.hears("since messages may be lost: its file was put there behind its last commit")
    is_taken_up(one, edge)


def test_older_record() -> None:
    """An older copy whose time shows nothing: the journal has a request that it lacks, so the numbers go on behind a
    gap, and what was told since the start is told again behind that."""
    one, edge = put_back(None)
    edge.hears("since messages may be lost: the journal has requests that it lacks")
    is_taken_up(one, edge)


def sender() -> int:
    """The number of the next message to C1."""
    return rows(1, "SELECT sender FROM session")[0][0]


def test_another_run() -> None:
    """The numbers go on behind a gap where the system was started anew, which engines take; and not behind a kill or a
    stop of the edge alone."""
    _, power, text, port = powered()
    edge = power.start(text, boot="first").ready()
    one = at_rest(port, "a")
    one.settle()
    edge.kill()
    before = sender()
    edge = power.start(text, boot="first").ready()
    edge.stop()
    edge = power.start(text, boot="first").ready()
    expect((sender(), [it for it in edge.lines if "its next number" in it]), (before, []))
    edge.stop()
    edge = power.start(text, boot="second")
    edge.hears(f"C1: its next number is {before + STEP}, behind a gap of {STEP}, since messages may be lost: the sys")
    edge.hears("C1: serves")
    one.close()
    one.log_on().send("D", order("b", 1, 1, "50"))
    one.report(_150="0", _11="b")
    expect((one.next, sender()), (before + STEP + 2, before + STEP + 2))
    one.next = before - 2  # An engine that asks for its messages in pieces, of which one ends within the gap.
    one.has_asked = True
    one.send("2", f"7={before - 2}|16={before + 10}|")
    while one.next < before + 11:
        if not one.pump(PATIENCE):
            raise Trouble(f"the gap was filled up to {one.next}")
    expect(one.next, before + 11)


def test_kill_of_an_idle_edge() -> None:
    """An edge that is started long behind its stop, and killed before it has committed anything, makes no gap."""
    venue, edge, port = pair()
    at_rest(port, "a").log_out()
    edge.stop()
    before = sender()
    time.sleep(MOMENT + 2)  # The log of the record that the next start makes is younger than the last commit.
    restarted().kill()
    edge = restarted()
    expect((sender(), [it for it in edge.lines if "its next number" in it]), (before, []))


def test_run_by_the_environment() -> None:
    """A service that can't read the words of the system's run has them in its environment, as systemd gives them."""
    with open(os.path.join(ROOT, "contrib/edge/gikvand-edge@.service"), encoding="ascii") as file:
        expect("\nEnvironment=GIKVAND_BOOT=%b\n" in file.read(), True)
    venue, edge, port = pair()
    edge.stop()
    with open("/proc/sys/kernel/random/boot_id", encoding="ascii") as file:
        same = file.read().strip()
    for boot, steps in ((same.replace("-", ""), ()), (same, ()), ("other", (1 + STEP,)), ("other", ())):
        edge = Edge(settings(), env={**os.environ, "GIKVAND_BOOT": boot}).ready()
        edge.stop()
        line = "gikvand-edge: C1: its next number is {}, behind a gap of 1000, since messages may be lost: the system was"
        expect([it for it in edge.lines if "its next number" in it], [f"{line.format(it)} started anew" for it in steps])


TESTS = [test_copy_put_back, test_older_record, test_another_run, test_kill_of_an_idle_edge,
         test_run_by_the_environment]
