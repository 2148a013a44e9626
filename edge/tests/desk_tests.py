"""Desks: several sessions behind one member, each with its own CompID, names, limits, numbers and reports. What each is told is its
own, each once, whatever is killed or lost; the venue knows the one member."""
import collections
import contextlib
import os
import re
import shutil
import signal
import socket
import sqlite3
import subprocess
from collections.abc import Iterable
from typing import Any

from differential import ENDED, STEP, Run, ended, is_same, names_of, refused_by, told_by
from edges import COPIES, EDGE, JOURNAL, NAMES, SYMBOLS, Edge, Trouble, again, await_that, changed, free_port
from edges import page_at, path_of, rows, settings_of, started, told
from engines import GTC, Engine, at_once, cancel, order, replace
from gikvand.fix import fields_of, value
from gikvand.words import sure
from market import BEGUN, Market
from recovery_tests import settings
from set_up_tests import checked, service, written
from switch_tests import called, done, failed, mass
from tradeclients import TradeClient
from trading_tests import expect

STEPS = 1000             # So far numbers go up where messages may have been lost.
PLACES = 10_000_000_000  # So many places among the messages of a record each desk has.
OF_DESK = re.compile(r"edge-desk-(\d):(.*)", re.DOTALL)
NOBODYS = "nobody knows which desk sent this request"
SHORT, LONG, SEED = 1500, 20000, 20261129
# The engines of the differential: those at the places 1 to 4 of the edge are three desks of C1, and C2.
PLAYED = {1: (1, 1), 2: (1, 2), 3: (1, 3), 4: (2, 1)}
MEMBERS, DESKS = 8, 8

Session = dict[str, Any]


def session(word: str, place: int, port: int, **more: Any) -> Session:
    """The settings of a session at a place of the edge, of a desk as C1 or C1.2."""
    member, _, desk = word.partition(".")
    return {"TargetCompID": NAMES.get(place, f"DESK-{place}"), "Member": member, "Desk": desk or None,
            "SocketAcceptPort": port + place - 1, **more}


def desks(*words: str, common: Session | None = None, each: dict[str, Session] | None = None, **more: Any) -> tuple[Any, Edge, int]:
    """A venue, an edge with a session for each of these words, at the places from 1 on, and the port of the first one."""
    members = {it.partition(".")[0] for it in words if it.startswith("C")}
    venue = started(JOURNAL, max(int(it[1:]) for it in members), list(SYMBOLS))
    port = free_port(max(len(words), len(NAMES)))
    sessions = [session(it, at, port, **{**more, **(each or {}).get(it, {})}) for at, it in enumerate(words, 1)]
    edge = Edge(settings_of({"VenuePort": venue.port, **(common or {})}, sessions)).ready(len({it.partition(".")[0] for it in words}))
    return venue, edge, port


def on(port: int, *places: int) -> list[Engine]:
    """The engines of these places of the edge, which are logged on."""
    return [Engine(port, at, sender=NAMES.get(at, f"DESK-{at}")).log_on() for at in places]


def put(one: Engine, name: str, side: int = 1, quantity: int = 10, price: str = "50", more: str = "") -> str:
    """An order that rests: its report."""
    one.send("D", order(name, side, quantity, price, more=more))
    return str(one.report(_150="0", _11=name))


def has(report: str, **wanted: str | None) -> None:
    """A report has these fields, by their tags."""
    expect({tag: value(report, tag[1:]) for tag in wanted}, wanted)


def refused(one: Engine, name: str, text: str, side: int = 1, quantity: int = 10, price: str = "50") -> None:
    """An order that is refused in words."""
    one.send("D", order(name, side, quantity, price))
    expect(value(one.report(_11=name), "58"), f"edge: {text}")


def names_told(one: Engine) -> list[str]:
    """What an engine was told in all, as ExecType (or MsgType) and ClOrdID."""
    one.settle()
    return [f"{value(it, '150') or value(it, '35')} {value(it, '11')}" for it in one.history]


def stored(member: int, desk: int, folder: str = "edge") -> list[str]:
    """The messages that the record has for the session of a desk, in order, with bars."""
    asked = f"SELECT bytes FROM messages WHERE number > {(desk - 1) * PLACES} AND number < {desk * PLACES} ORDER BY number"
    return [data.decode("ascii").replace("\x01", "|") for data, in rows(member, asked, folder)] if os.path.exists(
        path_of(member, folder)) else []


def parted(kept: str) -> tuple[int, str]:
    """The desk of a name as the record has it, and the name."""
    found = OF_DESK.fullmatch(kept)
    return (int(found[1]), found[2]) if found else (1, kept)


def test_desks_apart() -> None:
    """Two desks of a member trade under the same names: each is told its own alone, and knows no name of the other."""
    _, _, port = desks("C1", "C1.2", "C2")
    one, two, other = on(port, 1, 2, 3)
    put(one, "a", quantity=10, price="50")
    put(two, "a", quantity=20, price="51")
    put(two, "b", quantity=5, price="49")
    one.send("F", cancel("x", "b", 1))
    has(one.report(_35="9", _11="x"), _102="1")
    other.send("D", order("s", 2, 25, "50"))
    has(two.report(_150="F", _11="a"), _32="20", _31="51.00", _39="2")
    has(one.report(_150="F", _11="a"), _32="5", _31="50.00", _39="1")
    two.send("G", replace("c", "b", 1, 7, "48"))
    expect(value(two.report(_150="5", _11="c"), "41"), "b")
    two.send("D", order("a", 1, 1, "50"))
    expect(value(two.report(_150="8", _11="a"), "58"), "edge: ClOrdID (11) was used before")
    one.send("D", order("b", 1, 1, "50"))
    one.report(_150="0", _11="b")
    one.send("F", cancel("y", "edge-desk-2:c", 1))
    expect(value(one.report(_35="9", _11="y"), "58"), "edge: OrigClOrdID (41) is of no order")
    two.send("F", cancel("d", "c", 1))
    expect(value(two.report(_150="4", _11="d"), "41"), "c")
    expect(names_told(one), ["0 a", "9 x", "F a", "0 b", "9 y"])
    expect(names_told(two), ["0 a", "0 b", "F a", "5 c", "8 a", "4 d"])
    expect(len(told(2)), 3)


def test_kept_by_desks() -> None:
    """A desk that was away is sent what it missed, in its own numbers, also where the edge was killed; what it sends again is
    known, whatever another desk did under this name."""
    _, edge, port = desks("C1", "C1.2", "C2")
    one, two, other = on(port, 1, 2, 3)
    put(one, "a", quantity=3, price="49")
    put(two, "a")
    put(two, "b", price="48")
    two.settle()
    two.close()
    other.send("D", order("s", 2, 4, "50"))
    other.report(_150="F")
    await_that("it is stored", lambda: any("|150=F|" in it for it in stored(1, 2)))
    edge.kill()
    edge = Edge(settings()).ready(2)
    two.log_on()
    has(two.report(_150="F", _11="a"), _32="4", _43="Y")
    two.write("D", order("b", 1, 10, "48"), two.out, "97=Y|")
    two.sent[two.out] = ("D", order("b", 1, 10, "48"))
    two.out += 1
    edge.hears("C1.2: a request that was sent again has been passed on before: b")
    one.close()
    one.log_on()
    expect((names_told(one), names_told(two)), (["0 a"], ["0 a", "0 b", "F a"]))
    put(one, "b", price="47")
    put(two, "c", price="47")


def test_limits_by_desk() -> None:
    """Each desk has limits of its own, and where the settings say so the member has some for all of them."""
    each = {"C1": {"MaxOpenOrders": "2"}, "C1.2": {"MaxOpenOrders": "1", "MaxOrderQuantity": "10"}, "C1.3": {"MaxOpenValue": "500"}}
    _, edge, port = desks("C1", "C1.2", "C1.3", each=each, MemberMaxOpenOrders="4", MemberMaxOpenValue="2000")
    one, two, three = on(port, 1, 2, 3)
    put(two, "a")
    refused(two, "b", "more than 1 open orders")
    refused(two, "c", "more than 1 open orders", quantity=11)
    put(one, "a", quantity=11)
    put(one, "b", quantity=1)
    refused(one, "c", "more than 2 open orders")
    refused(three, "a", "the value of all that is open would be 550, above MaxOpenValue (500)", quantity=11)
    put(three, "c", quantity=10)
    refused(three, "d", "more than 4 open orders of all desks", quantity=1)
    two.send("F", cancel("x", "a", 1))
    two.report(_150="4")
    refused(two, "d", "OrderQty (38) 11 is above MaxOrderQuantity (10)", quantity=11)
    refused(two, "e", "the value of all that its member has open would be 2100, above MemberMaxOpenValue (2000)", price="100")
    put(two, "f", quantity=8)
    edge.kill()  # What is open of each desk is known again.
    Edge(settings()).ready()
    for it in (one, two, three):
        it.close()
        it.log_on()
    one.send("F", cancel("y", "b", 1))
    one.report(_150="4")
    refused(three, "g", "the value of all that is open would be 550, above MaxOpenValue (500)", quantity=1)
    three.send("F", cancel("y", "c", 1))
    three.report(_150="4")
    refused(two, "g", "more than 1 open orders", quantity=1)
    put(three, "h", quantity=10)


def test_under_way_of_desks() -> None:
    """What the venue hasn't answered counts for its own desk, as open orders and as requests under way: a desk whose requests wait
    holds up no other one."""
    venue, _, port = desks("C1", "C1.2", each={"C1.2": {"MaxOpenOrders": "1"}}, MaxRequestsUnderWay="2")
    one, two = on(port, 1, 2)
    venue.pause()
    for name in "ab":
        one.send("D", order(name, 1, 10, "50"))
    await_that("both are kept", lambda: rows(1, "SELECT count(*) FROM names WHERE kind = 'r'") == [(2,)])
    two.send("D", order("a", 1, 10, "50"))
    refused(two, "b", "more than 1 open orders")
    two.settle()
    expect(names_told(two), ["8 b"])
    venue.go_on()
    two.report(_150="0", _11="a")
    one.report(_150="0", _11="b")


def test_rate_of_all_desks() -> None:
    """A rate of a desk, and one of all desks together, refuse what is above them in words of their own."""
    _, _, port = desks("C1", "C1.2", each={"C1": {"MaxMessagesPerSecond": "3"}}, MemberMaxMessagesPerSecond="6")
    one, two = on(port, 1, 2)

    def refusals(it: Engine, front: str) -> list[str]:
        at_once(it, *(("D", order(f"{front}{at}", 1, 1, "50")) for at in range(40)))
        await_that("all answers", lambda: it.pump(0.05) and len(it.history) == 40)
        return [value(report, "58") or "" for report in it.history if value(report, "150") == "8"]

    expect(set(refusals(one, "a")) - {"edge: more than 6 requests a second of all desks"}, {"edge: more than 3 requests a second"})
    expect(set(refusals(two, "b")), {"edge: more than 6 requests a second of all desks"})


def test_trades_between_desks() -> None:
    """With CancelNew an order that would trade with one of another desk of the same member is refused, and that one rests."""
    _, _, port = desks("C1", "C1.2", "C2", SelfTrade="CancelNew")
    one, two, other = on(port, 1, 2, 3)
    put(one, "a")
    refused(two, "b", "it would trade with an order of this member: SelfTrade (CancelNew)", side=2)
    other.send("D", order("s", 2, 10, "50"))
    one.report(_150="F", _11="a")
    expect((names_told(one), names_told(two)), (["0 a", "F a"], ["8 b"]))


def test_old_orders_of_desks() -> None:
    """With CancelOld the order of another desk goes in front of the new one: its own desk is told, and nobody trades."""
    _, _, port = desks("C1", "C1.2", SelfTrade="CancelOld")
    one, two = on(port, 1, 2)
    put(one, "a")
    put(two, "a", side=2)
    it = one.report(_150="4")
    expect((value(it, "41"), (value(it, "11") or "").rpartition("-")[0]), ("a", "edge-cancel"))
    expect((names_told(one)[0], names_told(two)), ("0 a", ["0 a"]))


def test_closing_by_desks() -> None:
    """OnlyClosing of a desk is about the position that the member has, by the fills of all its desks."""
    _, edge, port = desks("C1", "C1.2", "C2", each={"C1.2": {"OnlyClosing": "Y"}})
    one, two, other = on(port, 1, 2, 3)
    refused(two, "a", "a sale of 10 beside 0 that are open would do more than close the position of 0: OnlyClosing (Y)", side=2)
    put(one, "a", quantity=6)
    other.send("D", order("s", 2, 6, "50"))
    one.report(_150="F")
    put(two, "b", side=2, quantity=6, price="60")
    refused(two, "c", "a sale of 1 beside 6 that are open would do more than close the position of 6: OnlyClosing (Y)", 2, 1)
    edge.kill()
    Edge(settings()).ready(2)
    two.close()
    two.log_on()
    refused(two, "d", "a sale of 1 beside 6 that are open would do more than close the position of 6: OnlyClosing (Y)", 2, 1)


def test_switch_of_desks() -> None:
    """An operator stops a member: what rests for each desk is cancelled, each is told, and none trades until it is resumed. A desk by
    itself isn't switched, in words."""
    _, _, port = desks("C1", "C1.2")
    one, two = on(port, 1, 2)
    put(one, "a")
    put(two, "a")
    failed("stop C1.2", "C1.2: it is about a whole member, and not about one desk: name C1: nothing was changed")
    failed("cancel C1.2", "C1.2: it is about a whole member, and not about one desk: name C1: nothing was changed")
    failed("status C1.2", "C1.2: it is about a whole member, and not about one desk: name C1: nothing was changed")
    done("stop C1", "C1: stopped, and the venue has answered the cancels of 2 orders")
    for it in (one, two):
        expect(value(it.report(_150="4"), "41"), "a")
        refused(it, "b", "the operator has stopped this member")
    done("resume C1", "C1: trades again")
    put(one, "c")
    put(two, "c", price="49")
    two.send("q", mass("m"))
    expect(value(two.report(_35="r"), "533"), "1")
    expect(value(two.report(_150="4", _11="m"), "41"), "c")
    put(two, "d")
    done("cancel C1", "C1: the venue has answered the cancels of 2 orders")
    expect((value(one.report(_150="4"), "41"), value(two.report(_150="4"), "41")), ("c", "d"))

    def is_told_of_both() -> bool:
        status, out, _ = called("status C1")
        return status == 0 and "C1 (DESK-A): serves, logged on, " in out and "; C1.2 (DESK-B): logged on, 0 bytes not taken" in out
    await_that("the status of both desks, whose clients have taken all", is_told_of_both)


def test_page_of_desks() -> None:
    """The page of a member and its figures have each further desk behind the first one."""
    page = free_port(1)
    _, edge, port = desks("C1", "C1.2", HttpAcceptPort=page)
    one, = on(port, 1)
    put(one, "a")

    line = page_at(page)
    expect(("C1 (DESK-A): serves, logged on, " in line, "; C1.2 (DESK-B): away, 0 bytes not taken, numbers since " in line), (True, True))
    figures = page_at(page, "metrics").splitlines()
    expect([it for it in figures if it.startswith("gikvand_edge_logged_on{")],
           ['gikvand_edge_logged_on{member="C1"} 1', 'gikvand_edge_logged_on{member="C1",desk="2"} 0'])


def test_stop_of_desks() -> None:
    """Where the edge stops each desk gets its Logout at once: a client that doesn't answer keeps no other desk waiting."""
    _, edge, port = desks("C1", "C1.2", LogoutTimeout="10")
    one, two = on(port, 1, 2)
    put(one, "a")
    put(two, "a")
    edge.process.send_signal(signal.SIGTERM)
    expect(bool(two.next_of("5")), True)
    two.send("5")
    expect(edge.hears(" is gone: ").split()[1], "C1.2:")
    expect((bool(one.next_of("5")), edge.status()), (True, 0))


def test_mass_cancel_of_a_desk() -> None:
    """A mass cancel is about the orders of its desk, also where edge and venue are killed before these are cancelled."""
    venue, edge, port = desks("C1", "C1.2")
    one, two = on(port, 1, 2)
    put(one, "a")
    put(two, "a")
    put(two, "b", price="49")
    venue.pause()
    two.send("q", mass("m"))
    expect(value(two.report(_35="r"), "533"), "2")
    edge.kill()
    venue.kill()
    again(venue.port, 1)
    Edge(settings()).ready()
    for it in (one, two):
        it.close()
        it.log_on()
    expect(sorted(value(two.report(_150="4", _11="m"), "41") or "" for _ in "ab"), ["a", "b"])
    one.send("F", cancel("x", "a", 1))
    expect(value(one.report(_11="x"), "150"), "4")


def test_numbers_of_desks() -> None:
    """Each desk has numbers of its own, which are looked at and set by its name, with a process or without one. Where a member has
    several desks and none is named nothing is set."""
    _, edge, port = desks("C1", "C1.2")
    one, two = on(port, 1, 2)
    for at in range(3):
        put(two, f"a{at}")
    put(one, "a")
    two.log_out()
    done("numbers C1", "C1: DESK-A: next out 3, next in 3; DESK-B: next out 6, next in 6")
    done("numbers C1.2", "C1.2: DESK-B: next out 6, next in 6")
    done("numbers C1.1", "C1.1: DESK-A: next out 3, next in 3")
    failed("numbers C1 10 10", "C1: it has several desks: name one, as C1.1 or C1.2: nothing was changed")
    failed("numbers C1.3 10 10", "C1.3: it has no desk 3: nothing was changed")
    failed("numbers C1.1 10 10", f"C1.1: its engine is there, from 127.0.0.1:{sure(one.socket).getsockname()[1]}, and has to log out first: "
           "nothing was changed")
    done("numbers C1.2 10 4", "C1.2: DESK-B: next out 10 instead of 6; next in 4 instead of 6")
    edge.kill()
    done("numbers C1", "C1: DESK-A: next out 3, next in 3; DESK-B: next out 10, next in 4")
    status, out, line = called("numbers C1.2 20 6")
    wanted = "DESK-B: next out 20 instead of 10; next in 6 instead of 4, and what its engine sent from 4 on isn't asked for\n"
    expect((status, out, line.startswith("gikvand-edge: C1.2: operator ") and line.endswith(f": numbers 20 6: done: {wanted}")),
           (0, f"C1.2: {wanted}", True))
    status, out, line = called("numbers C1 20 6")
    expect((status, out, line.splitlines()[-1]),
           (1, "", "gikvand-edge: C1: it has several desks: name one, as C1.1 or C1.2: nothing was changed"))
    Edge(settings()).ready()
    two.log_on()
    two.settle()
    expect((int(value(two.came[-1], "34") or 0) >= 20, len(two.history)), (True, 3))
    put(two, "b")


def test_client_of_a_desk_goes() -> None:
    """CancelOnDisconnect is a desk's own: what rests for it goes with its client, and that of another desk stays."""
    _, edge, port = desks("C1", "C1.2", each={"C1.2": {"CancelOnDisconnect": "Y"}})
    one, two = on(port, 1, 2)
    put(one, "a")
    put(two, "a")
    two.settle()
    two.close()
    edge.hears("C1.2: cancels 1 orders: the member is away")
    two.log_on()
    expect(value(two.report(_150="4"), "41"), "a")
    put(two, "b")
    edge.kill()
    edge = Edge(settings())
    edge.hears("C1.2: cancels 1 orders: the member is away")
    one.close()
    one.log_on()
    one.send("F", cancel("x", "a", 1))
    expect(value(one.report(_11="x"), "150"), "4")


def test_lost_record_of_desks() -> None:
    """Where the record is lost what rests for any desk is the first one's to be told, with a text; each desk begins anew with 1."""
    _, edge, port = desks("C1", "C1.2", "C2")
    one, two, other = on(port, 1, 2, 3)
    put(one, "a", price="50")
    put(two, "a", price="49")
    for it in (one, two):
        it.close()
    edge.kill()
    for end in ("", "-wal"):
        with contextlib.suppress(FileNotFoundError):
            os.remove(path_of(1) + end)
    Edge(settings()).ready(2)
    one, two = on(port, 1, 2)
    other.close()
    other.log_on()
    other.send("D", order("s", 2, 15, "49"))
    for number in ("1", "2"):
        has(one.report(_150="F"), _11=number, _58=NOBODYS)
    put(two, "b")
    expect(names_told(two), ["0 b"])


def test_numbers_of_lost_desks() -> None:
    """Behind a loss of the record the numbers of each desk are set as its engine has them: the first one is told all anew, with a
    text, the others miss nothing, and each trades on in its session."""
    _, edge, port = desks("C1", "C1.2", "C2")
    one, two, other = on(port, 1, 2, 3)
    put(one, "a", price="49")
    put(two, "a")
    for it in (one, two):
        it.settle()
        it.close()
    edge.kill()
    shutil.rmtree("edge/C1")
    for desk, it in ((1, one), (2, two)):
        status, out, _ = called(f"numbers C1.{desk} {it.next} {it.out}")
        expect((status, out.partition(" instead")[0]), (0, f"C1.{desk}: {it.sender}: next out {it.next}"))
    Edge(settings()).ready(2)
    before = one.next, two.next
    for it in (one, two, other):
        it.close()
        it.log_on()
    for number in ("1", "2"):
        has(one.report(_150="0"), _11=number, _58=NOBODYS)
    other.send("D", order("s", 2, 4, "50"))
    has(one.report(_150="F"), _11="2", _32="4", _58=NOBODYS)
    put(two, "b")
    put(one, "b", price="49")
    expect(names_told(two), ["0 a", "0 b"])
    expect([at.next > was + STEPS for at, was in zip((one, two), before)], [True, True])


def test_desk_that_has_gone() -> None:
    """A desk that the settings don't have any more: what comes of its orders is told to the first one, with a text and a name that
    is no other desk's, by which the order can be cancelled. With its settings the desk goes on where it was."""
    _, edge, port = desks("C1", "C1.2", "C2")
    one, two, other = on(port, 1, 2, 3)
    put(one, "a", price="48")
    put(two, "a", quantity=9)
    two.log_out()
    edge.stop()
    with open("edge.cfg", encoding="ascii") as file:
        both = file.read()
    alone = re.sub(r"\[SESSION\]\n(?:(?!\[).*\n)*?Desk=2\n(?:(?!\[).*\n)*", "", both)
    edge = Edge(alone).ready(2)
    for it in (one, other):
        it.close()
        it.log_on()
    other.send("D", order("s", 2, 4, "50"))
    has(one.report(_150="F"), _11="edge-lost-2", _32="4", _58=NOBODYS)
    edge.kill()
    edge = Edge(both).ready(2)
    one.close()
    for it in (two, other):
        it.close()
        it.log_on()
    other.send("D", order("t", 2, 1, "50"))
    has(two.report(_150="F"), _11="a", _32="1", _151="4", _58=None)
    edge.kill()
    edge = Edge(alone).ready(2)
    one.log_on()
    one.send("F", cancel("x", "edge-lost-2", 1))
    has(one.report(_11="x"), _150="4", _41="edge-lost-2", _58=NOBODYS)


def test_copies_of_desks() -> None:
    """A session of copies is told of each desk under the desk's own CompID."""
    _, _, port = desks("C1", "C1.2", "C2", "C1.4", "D1", each={"D1": {"DropCopyOf": "C1 C2"}})
    one, two, other, copies = on(port, 1, 2, 3, COPIES)
    put(one, "a")
    put(two, "a", price="49")
    put(other, "a", side=2, price="60")
    two.send("F", cancel("b", "a", 1))
    two.report(_150="4")
    came = [fields_of(copies.report(_35="8")) for _ in range(4)]
    expect([(it["448"], it["150"], it["11"]) for it in came if it["448"] != other.sender],
           [("DESK-A", "0", "a"), ("DESK-B", "0", "a"), ("DESK-B", "4", "b")])
    expect([(it["150"], it["11"]) for it in came if it["448"] == other.sender], [("0", "a")])


def prices(one: Engine) -> str | None:
    """How many prices to buy the market has, as a desk is told, some moments behind the venue."""
    one.send("V", "262=v|263=0|264=0|267=1|269=0|146=1|55=ABC|")
    return value(one.report(_35="W"), "268")


def test_questions_of_desks() -> None:
    """A desk asks for its own orders and trades, and for the market of all."""
    _, _, port = desks("C1", "C1.2", "C2", MarketData="Y")
    one, two, other = on(port, 1, 2, 3)
    put(one, "a", price="48")
    put(two, "a", quantity=9)
    put(two, "b", price="49")
    other.send("D", order("s", 2, 4, "50"))
    two.report(_150="F")
    two.send("H", "11=a|54=1|55=ABC|790=h|")
    has(two.report(_150="I"), _38="9", _14="4", _39="1")
    one.send("H", "11=b|54=1|55=ABC|")
    expect(value(one.report(_150="I"), "103"), "5")
    for it, names in ((one, ["a"]), (two, ["a", "b"])):
        it.send("AF", "584=m|585=7|")
        expect([value(it.report(_150="I"), "11") for _ in names], names)
        it.send("AD", "568=t|569=0|")
        expect(value(it.report(_35="AQ"), "749"), "0")
        expect(value(it.report(_35="AQ"), "748"), "1" if it is two else "0")
        await_that("the prices of all desks", lambda: prices(it) == "3")


def test_day_of_desks() -> None:
    """At the end of the hours the numbers of each desk begin with 1. A desk that was away is told again what it wasn't sent, and of
    its Day order's end, whatever the other desks have in the record."""
    market = Market("2030-01-01 23:59:00", others=lambda port: [session("C1.2", 2, port)], wait=False)
    market.edge.ready()
    one, two = on(market.port, 1, 2)
    put(one, "a", price="49", more=GTC)
    put(two, "a", more=GTC)
    put(two, "day", price="40")
    two.settle()
    two.close()
    await_that("its end", lambda: market.lines("C1.2: the client from"))
    market.sell(2)
    await_that("both are stored", lambda: sum("|150=F|" in it for it in stored(1, 2)) == 2)
    market.clock.put("2030-01-02 00:00:00")
    await_that("a new day of both", lambda: market.lines("C1: a new day: ") and market.lines("C1.2: a new day: "))
    expect([it.partition("edge: ")[2] for it in market.lines("a new day: ")],
           [f"C1: a new day: {BEGUN}", f"C1.2: a new day: {BEGUN}, and 2 reports that it wasn't sent are told again"])
    expect(value(sure(one.next_of("5")), "58"), "edge: the day ends")
    await_that("the end of the order is stored", lambda: any("|150=C|" in it for it in stored(1, 2)))  # Else the Logon's answer is in front.
    one, two = on(market.port, 1, 2)
    has(two.report(_150="C"), _11="day")
    expect(([(value(it, "34"), value(it, "97"), value(it, "11")) for it in two.history], names_told(one)),
           ([("1", "Y", "a"), ("2", "Y", "a"), ("3", None, "day")], []))
    two.send("F", cancel("b", "a", 1))
    has(two.report(_150="4"), _11="b", _41="a")


def test_older_copy_of_desks() -> None:
    """An older copy of a record is put in its place: the numbers of each desk go on behind a gap, and what the names lack is told to
    the first desk, with a text."""
    _, edge, port = desks("C1", "C1.2", "C2")
    one, two, other = on(port, 1, 2, 3)
    put(one, "a", price="49")
    put(two, "a", price="48")
    for it in (one, two):
        it.settle()
        it.close()
    edge.stop()
    shutil.copytree("edge/C1", "older")
    edge = Edge(settings()).ready(2)
    two.log_on()
    put(two, "b")
    two.settle()
    two.close()
    edge.stop()
    shutil.rmtree("edge/C1")
    shutil.copytree("older", "edge/C1")
    changed(1)
    edge = Edge(settings()).ready(2)
    lines = [it for it in edge.lines if ": its next number is " in it and "the journal has requests that it lacks" in it]
    expect([it.split()[1] for it in lines], ["C1:", "C1.2:"])
    for it in (one, two, other):
        it.close()
        it.log_on()
    has(one.report(_150="0"), _11="edge-lost-3", _58=NOBODYS)
    other.send("D", order("s", 2, 4, "50"))
    has(one.report(_150="F"), _11="edge-lost-3", _32="4", _58=NOBODYS)
    has(two.report(_150="8", _11="b"), _58="edge: it may have been passed on before, and its name lost: send a new one")
    put(two, "c", price="47")
    expect(names_told(two), ["0 a", "0 b", "8 b", "0 c"])


def said(text: str, words: Iterable[str] = ("--all",)) -> tuple[int, str]:
    """What --check says of these settings, and its status."""
    with open("edge.cfg", "w", encoding="ascii") as file:
        file.write(text)
    ran = subprocess.run([EDGE, "--check", *words, "edge.cfg"], capture_output=True, text=True)
    return ran.returncode, ran.stderr


def test_settings_of_desks() -> None:
    """--check refuses what is double or ambiguous of desks, with the setting and a text."""
    port = free_port(len(NAMES))

    def wrong(wanted: str, *changes: Session, words: Iterable[str] = ("--all",), common: Session | None = None) -> None:
        sessions = [session("C1", 1, port), session("C1.2", 2, port), session("C2", 3, port)]
        for at, more in enumerate(changes):
            sessions[at].update(more)
        status, out = said(settings_of({"VenuePort": 9001, **(common or {})}, sessions), words)
        expect((status, out), (1 if wanted else 0, wanted and f"gikvand-edge: {wanted}\n"))

    wrong("")
    wrong("", words=("--member", "C1"))
    wrong("Desk: isn't 1 to 8: 9", {}, {"Desk": "9"})
    wrong("Desk: isn't 1 to 8: 0", {}, {"Desk": "0"})
    wrong("Desk: is no number: b", {}, {"Desk": "b"})
    wrong("Member: has two sessions: C1", {}, {"Desk": None})
    wrong("C1: Member: has two sessions: C1", {}, {"Desk": "1"}, words=("--member", "C1"))
    wrong("Desk: is that of two sessions: C1.2", {}, {}, {"Member": "C1", "Desk": "2"})
    wrong("Desk: is 2, and no session is the first desk of C1", {"Member": "C3"})
    wrong("C1: Desk: is 2, and no session is the first desk of C1", {"Member": "C3"}, words=("--member", "C1"))
    wrong("SocketAcceptPort: is the same for C1 and C1.2, and has to be each one's own", {}, {"SocketAcceptPort": port})
    wrong("C1: SocketAcceptPort: is the same for C1 and C1.2, and has to be each one's own", {}, {"SocketAcceptPort": port},
          words=("--member", "C1"))
    wrong("SocketAcceptPort: is the same for C1.2 and C2, and has to be each one's own", {}, {}, {"SocketAcceptPort": port + 1})
    for name, one in (("EdgePath", "other"), ("FileLogPath", "other"), ("StartTime", "01:00:00"), ("DayEndTime", "17:00:00"),
                      ("SelfTrade", "CancelNew"), ("MemberMaxOpenOrders", "7"), ("SenderCompID", "OTHER"), ("DiskReserve", "5")):
        wrong(f"{name}: is another one for C1.2 than for C1, and is one for all desks of a member", {}, {name: one})
    wrong("Desk: is of one session, and belongs to its [SESSION]", common={"Desk": "2"})
    wrong("Desk: is for members that trade, and not for a session with DropCopyOf", {}, {},
          {"Member": "D1", "DropCopyOf": "C1", "Desk": "2"})
    wrong("Username: is missing: neither a password nor a certificate of its own, by StunnelConfig, tells who C1.2 is; AllowAnyone=Y "
          "takes anyone in", {}, {"AllowAnyone": "N"})


def test_identity_of_desks() -> None:
    """Each desk has a password of its own, which opens no other desk. Who tries wrong ones at one desk's port doesn't keep another
    desk out, though both come from one address."""
    with open("passwords", "w", encoding="ascii") as file:
        file.write("desk-a:first\ndesk-b:second\n")
    os.chmod("passwords", 0o600)
    users = {"C1": {"Username": "desk-a"}, "C1.2": {"Username": "desk-b"}}
    _, edge, port = desks("C1", "C1.2", AllowAnyone="N", PasswordFile="passwords", each=users)
    one, two = Engine(port, 1), Engine(port, 2)
    for pause in (100, 200, 400):
        await_that(f"a wait of {pause} ms", lambda: not_answered(two, "553=desk-a|554=first|") and any(
            "C1.2: a Logon from" in it and f"looked at in {pause} ms" in it for it in edge.lines))
    one.log_on("553=desk-a|554=first|")
    put(one, "a")
    await_that("the right password is looked at", lambda: logs_on(two, "553=desk-b|554=second|"))
    put(two, "a", price="49")
    wrong_door = Engine(port, 1, sender=NAMES[2])  # The second desk at the port of the first.
    expect(not_answered(wrong_door, "553=desk-b|554=second|"), True)


def not_answered(one: Engine, more: str) -> bool:
    """Whether a Logon comes to nothing."""
    number = one.out
    try:
        one.log_on(more)
        return False
    except (Trouble, OSError):
        one.close()
        one.out = number
        return True


def logs_on(one: Engine, more: str) -> bool:
    """Whether a Logon is taken, which may come too soon behind a wrong one."""
    return not not_answered(one, more)


def test_files_of_desks() -> None:
    """A member's file may have several sessions of its desks: it is checked as it is served, and beside the files of others, with
    each of its ports."""
    port = free_port(len(NAMES))
    own = [session("C1", 1, port), session("C1.2", 2, port)]
    folders = {"EdgePath": os.path.abspath("1/edge"), "FileLogPath": os.path.abspath("1/log")}
    written("services/C1.cfg", settings_of({"VenuePort": port, **folders}, own))
    expect(checked("services/C1.cfg")[::2], (0, []))
    taken = [f"gikvand-edge: SocketAcceptPort: {port + 1} is that of services/C1.cfg, too: each member has its own"]
    for at, wanted in ((3, list[str]()), (2, taken)):
        written("services/C2.cfg", service(2, port, SocketAcceptPort=port + at - 1))
        expect(checked("services/C2.cfg")[::2], (1 if wanted else 0, wanted))
    written("services/C3.cfg", settings_of({"VenuePort": port, **folders}, own))
    expect(checked("services/C3.cfg")[::2], (1, ["gikvand-edge: Member: is C1, and the file C3.cfg is that of C3"]))
    os.remove("services/C3.cfg")
    venue = started(JOURNAL, 1, list(SYMBOLS))
    edge = Edge(settings_of({"VenuePort": venue.port}, own), words=())
    edge.hears("C1: serves")
    one, two = on(port, 1, 2)
    put(one, "a")
    put(two, "a")
    edge.stop()
    held = socket.create_server(("127.0.0.1", port + 1))
    edge = Edge(settings_of({"VenuePort": venue.port}, own), words=())
    expect((edge.status(), "C1: ready" in " ".join(edge.lines)), (1, False))
    held.close()


def test_record_without_desks() -> None:
    """The record of a member with one desk is as it was, and one of before takes further desks in: the first one goes on in its
    numbers, and the others begin with 1."""
    _, edge, port = desks("C1")
    one, = on(port, 1)
    put(one, "a")
    one.log_out()
    edge.stop()
    asked = "SELECT name FROM sqlite_master WHERE name = 'desks'"
    with contextlib.closing(sqlite3.connect(path_of(1))) as record:
        expect((record.execute("PRAGMA user_version").fetchall(), record.execute(asked).fetchall()), ([(4,)], []))
    with open("edge.cfg", encoding="ascii") as file:
        text = file.read()
    more = settings_of({}, [session("C1.2", 2, port)]).partition("[SESSION]")[2]
    edge = Edge(text + "[SESSION]" + more)
    edge.hears("C1.2: its numbers begin with 1: the record knows nothing of this desk")
    edge.ready()
    one.log_on()
    two, = on(port, 2)
    put(two, "a", price="49")
    put(one, "b")
    expect((names_told(one), names_told(two)), (["0 a", "0 b"], ["0 a"]))
    edge.stop()
    with contextlib.closing(sqlite3.connect(path_of(1))) as record:
        expect(record.execute("PRAGMA user_version").fetchall(), [(5,)])


def test_stock_engines_of_desks() -> None:
    """QuickFIX's own client at each of two desks: both trade under the same names, and one that is killed is sent what it missed."""
    _, edge, port = desks("C1", "C1.2", "C2")
    one, two, other = (TradeClient(port, at).logged_on() for at in (1, 2, 3))
    for it, price in ((one, "50"), (two, "51")):
        it.order("ORD-7", 1, 100, price)
        expect(value(it.report(_150="0", _11="ORD-7"), "44"), f"{price}.00")
    two.kill()
    edge.hears("C1.2: the client from")
    other.order("s", 2, 150, "50")
    has(one.report(_150="F", _11="ORD-7"), _32="50", _31="50.00")
    back = TradeClient(port, 2).logged_on()
    has(back.report(_150="F", _11="ORD-7"), _32="100", _31="51.00", _43="Y")
    one.cancel("ORD-8", "ORD-7", 1, 100)
    one.report(_150="4", _11="ORD-8")


def test_all_sessions() -> None:
    """Eight members with eight desks each: 64 sessions log on, and each trades under the same name and is told its own alone."""
    words = [f"C{k}" + (f".{desk}" if desk > 1 else "") for k in range(1, MEMBERS + 1) for desk in range(1, DESKS + 1)]
    _, edge, port = desks(*words)
    engines = on(port, *range(1, len(words) + 1))
    for at, it in enumerate(engines, 1):
        it.send("D", order("a", 1, at, "50"))
    for at, it in enumerate(engines, 1):
        expect(value(it.report(_150="0", _11="a"), "38"), str(at))
    engines[0].send("D", order("all", 2, sum(range(1, len(engines) + 1)), "50", more="59=3|"))
    for at, it in enumerate(engines[1:], 2):
        expect(value(it.report(_150="F", _11="a"), "32"), str(at))
    expect([names_told(it) for it in engines[1:]], [["0 a", "F a"]] * (len(engines) - 1))
    expect(sorted({line.split()[1] for line in edge.lines if ": serves" in line}), [f"C{k}:" for k in range(1, MEMBERS + 1)])


class DeskRun(Run):
    """The differential of a member with three desks, and another one with one."""

    def __init__(self, requests: int, seed: int) -> None:
        super().__init__(requests, seed, True, {place: {"Member": f"C{member}", "Desk": desk if desk > 1 else None}
                                                for place, (member, desk) in PLAYED.items()})

    def wanted_of(self, engine: int, folder: str) -> list[dict[str, str]]:
        return wanted_of_desk(*PLAYED[engine], folder)


def wanted_of_desk(member: int, desk: int, folder: str = "edge") -> list[dict[str, str]]:
    """What a desk is to be told: the journal's reports to the member whose requests the desk sent, by the rules of docs/EDGE.md."""
    lines = told(member)  # In front of the names: one that came between them is without its report.
    kinds, names, _ = names_of(member, folder)
    wanted = []
    for line in lines:
        it = fields_of(line)
        kind, (own, _) = kinds[int(it["11"])], parted(names[int(it["11"])])
        if own != desk or it["35"] == "9" and kind in "ep":
            continue
        if kind == "e":
            it.update({"11": it.pop("41"), "150": "C", "39": "C", "58": ENDED})
        for tag in ("11", "41"):
            if tag in it:
                it[tag] = parted(names[int(it[tag])])[1]
        for tag in ("44", "31", "6"):
            if tag in it:
                it[tag] = f"{int(it[tag]) / STEP[it['55']]:.2f}"
        it["60"] = it.pop("52")
        wanted.append(it)
    return wanted


def test_desks_differential() -> None:
    """Three desks of one member and one of another trade by chance, under names that are the same here and there, while edge, venue
    and single processes are killed, and days end: each desk's store, and each engine, has exactly the reports of its requests."""
    run = DeskRun(LONG if os.environ.get("EDGE_LONG") else SHORT, SEED)
    run.go()
    counts = collections.Counter[int]()
    for place, (member, desk) in PLAYED.items():
        engine, wanted, kept = run.members[place - 1].engine, wanted_of_desk(member, desk), stored(member, desk)
        is_same(place, told_by(kept), wanted, "its record")
        is_same(place, told_by(engine.reports), wanted, "what it was sent")
        refusals = refused_by(engine.reports)
        expect((sorted(refused_by(kept)), len(set(refusals))), (sorted(refusals), len(refusals)))
        counts[member] += len(wanted)
    for member in (1, 2):
        kinds, _, _ = names_of(member)
        own = [it for it in map(fields_of, told(member)) if it["35"] == "8" or kinds[int(it["11"])] not in "ep"]
        expect((member, counts[member]), (member, len(own)))
    ends = sum(ended(member, run.end) for member in (1, 2))
    if min(run.kills) < 1 or not ends:
        raise Trouble(f"too few kills: {run.kills}, or ends of orders: {ends}")


TESTS = [test_desks_apart, test_kept_by_desks, test_limits_by_desk, test_under_way_of_desks, test_rate_of_all_desks,
         test_trades_between_desks,
         test_old_orders_of_desks, test_closing_by_desks, test_switch_of_desks, test_page_of_desks, test_stop_of_desks, test_mass_cancel_of_a_desk, test_numbers_of_desks,
         test_client_of_a_desk_goes, test_lost_record_of_desks, test_numbers_of_lost_desks, test_desk_that_has_gone, test_copies_of_desks,
         test_questions_of_desks, test_day_of_desks, test_older_copy_of_desks, test_settings_of_desks, test_identity_of_desks, test_files_of_desks, test_record_without_desks, test_stock_engines_of_desks, test_all_sessions,
         test_desks_differential]
