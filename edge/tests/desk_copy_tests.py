"""Copies of what the desks of a member are told: each has its own desk's CompID, which the settings have."""
import os
import re

from desk_record_tests import without
from desk_tests import NOBODYS, Session, desks, has, on, put, said, session
from edges import COPIES, NAMES, Edge, await_that, copies_of, free_port, rows, settings_of
from engines import Engine, cancel, order
from gikvand.words import sure
from market import Market
from recovery_tests import settings
from switch_tests import BY_OPERATOR, done
from trading_tests import expect


def elsewhere(port: int, words: str) -> tuple[Edge, Engine]:
    """A session of copies in a file of its own, of what these words name, and its engine."""
    with open("edge.cfg", encoding="ascii") as file:
        common = {"VenuePort": sure(re.search(r"VenuePort=(\d+)", file.read()))[1]}
    os.makedirs("copies", exist_ok=True)
    text = settings_of(common, [copies_of(port, words, DropCopyPath="edge", EdgePath="copies/D1", FileLogPath="copies/log")])
    return Edge(text, words=()), Engine(port, COPIES)


def test_copies_of_desks_that_the_settings_say() -> None:
    """A session of copies in another file names the CompIDs of all desks, that of the first one in front. What a process tells of a
    desk with another CompID is refused, with a line, until the settings have that."""
    _, edge, port = desks("C1", "C1.2", each={"C1": {"TargetCompID": "DESK-Z"}})
    one, two = Engine(port, 1, sender="DESK-Z").log_on(), *on(port, 2)
    put(one, "a")
    copies_edge, copies = elsewhere(port, "C1:DESK-Z,DESK-X")
    copies_edge.hears("D1: serves, behind report 0")
    copies.log_on()
    has(copies.report(_35="8"), _448="DESK-Z", _11="a", _38="10")
    put(two, "a", quantity=20)
    copies_edge.hears("D1: copies of C1 wait: its process says that it is of DESK-B, and the settings that it is of DESK-Z,DESK-X")
    put(one, "b")
    copies.settle()
    expect(len(copies.history), 1)
    copies.close()
    copies_edge.stop()
    copies_edge, _ = elsewhere(port, "C1:DESK-Z,DESK-X,DESK-B")
    copies_edge.hears("D1: serves, behind report 1")
    copies.log_on()
    has(copies.report(_11="a", _448="DESK-B"), _38="20")
    has(copies.report(_11="b"), _448="DESK-Z")


def test_settings_of_copied_desks() -> None:
    """The desks of a member are named by their CompIDs with commas, the first one in front; what is double, empty or other than in the
    same file is refused, with a text."""
    port = free_port(len(NAMES))

    def wrong(wanted: str, words: str, *sessions: Session) -> None:
        copies = copies_of(port, words, DropCopyPath="edge")
        status, out = said(settings_of({"VenuePort": 9001}, [*sessions, copies]))
        expect((status, out), (1 if wanted else 0, wanted and f"gikvand-edge: DropCopyOf: {wanted}\n"))

    here = [session("C1", 1, port, TargetCompID="DESK-Z"), session("C1.3", 2, port), session("C1.2", 3, port)]
    wrong("", "C1", *here)
    wrong("", "C1:DESK-Z,DESK-C,DESK-B", *here)
    for other in ("DESK-B,DESK-C,DESK-Z", "DESK-Z", "DESK-Z,DESK-C", ""):
        wrong(f"has C1:{other}, and this file has C1:DESK-Z,DESK-C,DESK-B", f"C1:{other}", *here)
    wrong("", "C1:DESK-Z,DESK-B")
    wrong("has one twice: DESK-Z", "C1:DESK-Z,DESK-B,DESK-Z")
    for empty in ("DESK-Z,", ",DESK-Z", "DESK-Z,,DESK-B", ","):
        wrong(f"has an empty CompID: C1:{empty}", f"C1:{empty}")
    wrong("has no CompID of C1, as C1:DESK-A has one: no session of this file is C1", "C1:")


def test_copies_of_nobody() -> None:
    """A copy of a report of a request whose desk nobody knows is of the first desk, and has the text that this is told."""
    _, edge, port = desks("C1", "C1.2", "C2", "C3", "D1", each={"D1": {"DropCopyOf": "C1"}})
    one, two, other, copies = on(port, 1, 2, 3, COPIES)
    put(two, "a", quantity=9)
    has(copies.report(_35="8"), _448="DESK-B", _11="a", _58=None)
    edge.stop()
    Edge("[SESSION]\n".join(it for it in settings().split("[SESSION]\n") if "Desk=2\n" not in it)).ready(4)
    for it in (one, other, copies):
        it.close()
        it.log_on()
    other.send("D", order("s", 2, 4, "50"))
    has(one.report(_150="F"), _11="edge-lost-1", _58=NOBODYS)
    has(copies.report(_150="F"), _448="DESK-A", _11="edge-lost-1", _58=NOBODYS)


def test_copies_of_nobodys_cancel() -> None:
    """What an operator had cancelled of a desk that the settings don't have any more is copied with both texts that the first desk is
    told."""
    _, edge, port = desks("C1", "C1.2")
    two, = on(port, 2)
    put(two, "a")
    done("stop C1", "C1: stopped, and the venue has answered the cancel of 1 order")
    has(two.report(_150="4"), _41="a", _58=BY_OPERATOR)
    edge.stop()
    Edge(without(settings(), 2)).ready()
    copies_edge, copies = elsewhere(port, "C1:DESK-A")
    copies_edge.hears("D1: serves, behind report 0")
    copies.log_on()
    has(copies.report(_150="0"), _448="DESK-A", _11="edge-lost-1", _58=NOBODYS)
    has(copies.report(_150="4"), _448="DESK-A", _41="edge-lost-1", _58=f"{NOBODYS}: {BY_OPERATOR}")


def test_late_copies_of_desks() -> None:
    """More than a day late nobody knows any more which desk has sent a request: a copy is of the first desk, and has a text that
    says so."""
    market = Market("2030-01-01 23:59:00", others=lambda port: [session("C1.2", 2, port)], wait=False)
    market.edge.ready()
    two, = on(market.port, 2)
    put(two, "a")
    two.send("F", cancel("b", "a", 1))
    two.report(_150="4")
    two.settle()
    two.close()
    for day in ("2030-01-02 00:00:00", "2030-01-03 00:00:00"):
        market.new_day(day)
    await_that("names that are dropped", lambda: rows(1, "SELECT count(*) FROM names WHERE kind = 'r'") == [(0,)])
    market.edge.stop()
    more = settings_of({}, [copies_of(market.port, "C1")]).partition("[SESSION]")[2]
    Edge(settings() + "[SESSION]" + more, env=market.clock.env).ready(2)
    copies, = on(market.port, COPIES)
    for event in "04":
        has(copies.report(_150=event), _448="DESK-A", _58=NOBODYS)


TESTS = [test_copies_of_desks_that_the_settings_say, test_settings_of_copied_desks, test_copies_of_nobody, test_copies_of_nobodys_cancel,
         test_late_copies_of_desks]
