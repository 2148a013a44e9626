"""The market that members see: what they ask for, the books that come of it beside those of the journal, and what is refused.
Slow takers, kills and gaps change nothing of that."""
import contextlib
import itertools
import os
import signal
import socket
import sqlite3
import sys
import tempfile
import threading
import time
from collections.abc import Callable
from typing import Any

from differential import MEMBERS, Run, compare
from edges import EVENTS, HOST, JOURNAL, PATIENCE, SYMBOLS, Client, Edge, Settings, Trouble, Venue, again, await_that, changed, copied
from edges import free_port, pair, rows, started, stored, venue_order
from engines import Engine, cancel, order, replace
from gikvand.fix import fields_of, value
from gikvand.words import sure
from limit_tests import events_by, followers
from protection_tests import figure
from takers import BID, CHANGES, OFF, ONCE, WHOLE, Taker, asks, books_of, entries_of, picked, trades_of
from trading_tests import expect, logged

OPEN: Settings = {"MarketData": "Y", "MarketDataInterval": "10"}
MOST = 16       # Requests that may be open.
LEAST_UNSENT = 65536  # Of MaxUnsentBytes, by which a side has so many prices:
DEEP = LEAST_UNSENT // 2048
PRICES, UPDATES = 900, 50  # Of a book, and of that.
SWEPT = 8  # Prices of one sweep.
ONCES = 8  # Requests that go on, beside those of one moment.
LOOKS = 10  # At the little that its client takes at once, between two changes.
GREATEST = 900000000  # Of the numbers of a session that market data may have.
ENOUGH = 3.0  # Seconds in which an edge reads the market, and tells it where it may.
SHORT, LONG = 1500, 20000
TAKERS = (MEMBERS + 1, MEMBERS + 2)  # Members who only look.


def seen(members: int = 2, **more: Any) -> tuple[Venue, Edge, int, list[Engine]]:
    """A venue, an edge whose members may ask for the market, its port, and its members."""
    venue, edge, port = pair(members, **{**OPEN, **more})
    return venue, edge, port, [Engine(port, k).log_on() for k in range(1, members + 1)]


def rests(one: Engine, name: str, side: int, quantity: int, price: str, symbol: str = "ABC") -> str:
    """An order of a member that rests: its report. What else has come stays, since that may be of the market."""
    one.send("D", order(name, side, quantity, price, symbol))
    return picked(one, _150="0", _11=name)


def refused(one: Engine, body: str, reason: str | None, text: str) -> dict[str, str]:
    """A request that is refused by this reason, in words that have this text."""
    one.send("V", body)
    it = fields_of(picked(one, _35="Y"))
    if it.get("281") != reason or text not in it["58"] or not it["58"].startswith("edge: "):
        raise Trouble(f"{reason}, {text!r} wanted: {it}")
    return it


def once(one: Engine, name: str = "once", **more: Any) -> list[str]:
    """The answer of one moment for a symbol, as its entries."""
    symbols = more.pop("symbols", ("ABC",))
    one.send("V", asks(name, ONCE, update=None, symbols=symbols, **more))
    return [picked(one, _35="W", _262=name, _55=it) for it in symbols]


def sides(text: str, *tags: str) -> list[tuple[str | None, ...]]:
    """The entries of a message by these tags."""
    return [tuple(it.get(tag) for tag in tags) for it in entries_of(text)]


def test_market_once() -> None:
    """A request of one moment is answered by a message for each symbol, of the depth and the entries that it asks for."""
    _, _, port, (one, other) = seen()
    empty, = once(one)
    expect({tag: it for tag, it in fields_of(empty).items() if tag in ("262", "55", "268", "814")},
           {"262": "once", "55": "ABC", "268": "0"})
    for at, (side, quantity, price) in enumerate([(1, 10, "50"), (1, 5, "50"), (1, 7, "49.99"), (1, 1, "40"), (2, 3, "50.01"),
                                                  (2, 8, "51")]):
        rests(one, f"r-{at}", side, quantity, price)
    rests(one, "x", 2, 4, "10.25", "XYZ")
    taker = Taker(one, "wait").has()
    all_of, = once(one, "all")
    expect(sides(all_of, "269", "270", "271", "346"),
           [("0", "50.00", "15", "2"), ("0", "49.99", "7", "1"), ("0", "40.00", "1", "1"), ("1", "50.01", "3", "1"),
            ("1", "51.00", "8", "1")])
    best, = once(one, "best", depth=1)
    expect(sides(best, "269", "270"), [("0", "50.00"), ("1", "50.01")])
    two, = once(one, "two", depth=2, entries="0")
    expect(sides(two, "269", "270"), [("0", "50.00"), ("0", "49.99")])
    both = once(one, "both", entries="1", symbols=("XYZ", "ABC"))
    expect([sides(it, "269", "270") for it in both], [[("1", "10.25")], [("1", "50.01"), ("1", "51.00")]])
    other.send("D", order("t", 2, 12, "49"))
    other.report(_150="F", _39="2")
    taker.has()
    last, = once(one, "last", entries="2")
    it, = entries_of(last)
    expect((it["269"], it["270"], it["271"]), ("2", "50.00", "2"))
    fill = one.report(_150="F")
    expect(f"{it['272']}-{it['273']}", value(fill, "60"))


def test_market_changes() -> None:
    """A request that goes on is told all of it once, and then what has changed: what is new, other or gone, each by a message
    for each symbol; the entries beyond its depth come as others go."""
    _, _, port, (one, other) = seen()
    rests(one, "a", 1, 10, "50")
    rests(one, "b", 1, 10, "49")
    Taker(one, "known").has()
    taker = Taker(other, "m", depth=1, symbols=("ABC",))
    first = other.report(_35="W", _262="m")
    expect((value(first, "814"), sides(first, "269", "270", "271")), ("2", [("0", "50.00", "10")]))
    rests(one, "c", 1, 5, "50")
    change = other.report(_35="X")
    expect((value(change, "262"), value(change, "814")), ("m", "2"))
    expect(sides(change, "279", "269", "55", "270", "271", "346"), [("1", "0", "ABC", "50.00", "15", "2")])
    rests(one, "d", 1, 5, "48")  # Beyond its depth.
    one.send("F", cancel("e", "c", 1))
    change = other.report(_35="X")
    expect(sides(change, "279", "270", "271", "346"), [("1", "50.00", "10", "1")])
    one.send("F", cancel("f", "a", 1))
    change = other.report(_35="X")
    expect(sides(change, "279", "270", "271", "346"), [("2", "50.00", None, None), ("0", "49.00", "10", "1")])
    one.send("G", replace("g", "b", 1, 10, "50.5"))
    expect(sides(other.report(_35="X"), "279", "270"), [("2", "49.00"), ("0", "50.50")])
    other.send("D", order("t", 2, 4, "50"))
    trade = other.report(_35="X")
    expect(sides(trade, "279", "269", "270", "271"), [("1", "0", "50.50", "6"), ("0", "2", "50.50", "4")])
    rests(one, "i", 2, 5, "70")
    expect(sides(other.report(_35="X"), "279", "269", "270", "271"), [("0", "1", "70.00", "5")])
    other.send("V", asks("m", OFF, symbols=("ABC",)))
    other.settle()
    rests(one, "h", 2, 5, "60")
    once(one)
    other.settle()
    expect([value(it, "35") for it in other.reports if sure(value(it, "35")) in "WX"], [])
    taker.words = asks("m", symbols=("ABC",))
    taker.begin()
    taker.has()


def test_market_whole() -> None:
    """A request that goes on and asks for all of it each time is told that, where something has changed."""
    _, _, port, (one, other) = seen()
    taker = Taker(other, "m", update=WHOLE).has()
    before = taker.count["W"]
    expect(before, len(SYMBOLS))
    rests(one, "a", 1, 10, "50")
    taker.has()
    rests(one, "b", 2, 10, "20", "XYZ")
    taker.has()
    expect(taker.count, {"W": before + 2, "X": 0})


def test_market_refused() -> None:
    """Whatever is wrong in a request is refused by its reason and in words, and changes nothing of other requests."""
    _, _, port, (one, other) = seen()
    taker = Taker(one, "m").has()
    for body, reason, text in (
            (asks("a", 7), "4", "SubscriptionRequestType (263) 7 isn't 0, 1 or 2"),
            (asks("a", depth=-1), "5", "MarketDepth (264) -1 isn't 0 or a number of levels"),
            (asks("a", update=None), "6", "MDUpdateType (265) is missing"), (asks("a", update=3), "6", "(265) 3 isn't 0 or 1"),
            (asks("a", more="266=N|"), "7", "field 266 of N isn't had here: Y is, or none"),
            (asks("a", entries="03"), "8", "MDEntryType (269) 3 isn't had: 0 is a bid, 1 an offer, 2 a trade"),
            (asks("a", entries="00"), "8", "field 269 of 0 stands twice"),
            (asks("a", more="547=Y|"), "C", "field 547 of Y isn't had here: N is, or none"),
            (asks("a", more="546=1|"), "A", "field 546 of 1 isn't had here"),
            (asks("a", more="286=0|"), "B", "field 286 of 0 isn't had here"),
            (asks("a", more="386=1|336=day|"), "9", "field 386 of 1 isn't had here"),
            (asks("a", more="815=1|"), None, "field 815 of 1 isn't had here: 2 is, or none"),
            (asks("a", more="812=5|"), None, "field 812 of 5 isn't had here"),
            (asks("a", symbols=("ABC", "NONE")), "0", "Symbol (55) NONE isn't traded here"),
            (asks("a", symbols=("ABC", "ABC")), "0", "field 55 of ABC stands twice"),
            (asks("a") + "65=WI|", "0", "field 65 isn't one of this venue"),
            (asks("m"), "1", "MDReqID (262) is of a request that is open"),
            (asks("m", ONCE), "1", "MDReqID (262) is of a request that is open"),
            (asks("none", OFF), None, "MDReqID (262) is of no request that is open"),
            (asks("edge-a"), None, "MDReqID (262) isn't of 1 to 64 bytes that print, or begins with edge-"),
            (asks("n" * 65), None, "MDReqID (262) isn't of 1 to 64 bytes that print")):
        expect(refused(one, body, reason, text)["262"], fields_of(body)["262"])
    one.send("V", asks("a").replace("262=a|", ""))
    expect(fields_of(sure(one.next_of("3")))["371"], "262")
    one.send("V", asks("a").replace("264=0|", "264=deep|"))
    expect(fields_of(sure(one.next_of("3")))["371"], "264")
    rests(other, "r", 1, 10, "50")
    taker.has()


def test_market_bounds() -> None:
    """So many requests may be open, those of one moment don't stay, and a side has so many prices."""
    _, _, port, (one, other) = seen(MaxUnsentBytes=str(LEAST_UNSENT))
    for at in range(MOST):
        one.send("V", asks(f"m-{at}", symbols=("ABC",)))
        one.report(_35="W", _262=f"m-{at}")
    refused(one, asks("more"), "2", "16 requests are open, and no more may be")
    refused(one, asks("more", ONCE), "2", "16 requests are open")
    one.send("V", asks("m-3", OFF))
    once(one, "again")
    once(one, "again")
    for at in range(DEEP + 5):
        rests(other, f"r-{at}", 1, 1, f"{50 - at / 100:.2f}")
    rests(other, "last", 1, 1, "51")  # With this one the others are there.
    await_that("all prices", lambda: sides(once(one, "all")[0], "270")[0] == ("51.00",))
    whole = once(one, "all")[0]
    expect((len(entries_of(whole)), sides(whole, "270")[-1]), (DEEP, (f"{50 - (DEEP - 2) / 100:.2f}",)))


def test_market_closed() -> None:
    """A member that may not ask is refused, and nothing follows the market for it."""
    _, edge, port = pair(2)
    one = Engine(port).log_on()
    it = refused(one, asks("a"), "3", "MarketData (N): it isn't open to this member")
    expect(it["262"], "a")
    expect(followers(edge), [])


def test_market_is_of_its_moment() -> None:
    """What was told of the market isn't kept: who asks for it again is told that there is nothing, and is told the whole
    anew by each request that goes on. Reports between are sent again."""
    _, _, port, (one, other) = seen()
    taker = Taker(one, "m").has()
    for at in range(4):
        rests(one, f"a-{at}", 1, 1, f"{50 + at}")
        taker.has()
    kept = [data.decode() for data, in rows(1, "SELECT bytes FROM messages")]
    expect([it for it in kept if "\x0135=W\x01" in it or "\x0135=X\x01" in it], [])
    written = [it for it in logged(1) if "|35=W|" in it or "|35=X|" in it]
    expect((len(written) > 4, [it for it in written if "|269=" in it or "|268=" not in it]), (True, []))
    before, one.history[:] = one.next, []
    came = len(one.came)
    one.next = 1
    one.send("2", "7=1|16=0|")
    taker.books = {}
    taker.until(lambda: one.next >= before and len(taker.books) == len(SYMBOLS), "the whole anew").has()
    again_ = [it for it in one.came[came:] if value(it, "43") == "Y"]
    expect([value(it, "11") for it in again_ if value(it, "35") == "8"], [f"a-{at}" for at in range(4)])
    if wrong := [it for it in again_ if sure(value(it, "35")) in "WX"]:
        raise Trouble(f"what was of its moment is sent again: {wrong[0]}")
    rests(other, "b", 2, 1, "70")
    taker.has()


def test_market_anew() -> None:
    """Requests end with their connection. An engine that missed reports is answered behind these."""
    _, edge, port, (one, other) = seen()
    taker = Taker(one, "m").has()
    rests(one, "a", 1, 5, "50")
    one.close()
    one.reports.clear()
    edge.hears("C1: the client from")
    other.send("D", order("t", 2, 5, "50"))
    other.report(_150="F")
    one.log_on()
    one.settle()
    one.report(_150="F", _11="a")
    expect([value(it, "35") for it in one.reports if sure(value(it, "35")) in "WX"], [])
    taker.begin()
    taker.has()
    rests(other, "u", 2, 5, "60")
    taker.has()


def tells(taker: Taker, change: Callable[[], object]) -> None:
    """A change of which a taker is told by itself."""
    count = sum(taker.count.values())
    change()
    taker.until(lambda: sum(taker.count.values()) > count, "an update")


def test_quiet_market() -> None:
    """While nothing changes nothing is told, and what is told leaves no rows behind in the record."""
    _, _, port, (one, other) = seen()
    taker = Taker(one, "m").has()
    for at in range(100):
        tells(taker, lambda: rests(other, f"a-{at}", 1, 1, "50"))
        tells(taker, lambda: other.send("F", cancel(f"b-{at}", f"a-{at}", 1)))
        other.report(_150="4")
    rests(other, "last", 1, 1, "49")
    taker.has()
    count = sum(taker.count.values())
    for _ in range(3):
        one.settle()
    taker.take()
    expect(sum(taker.count.values()), count)
    await_that("few rows", lambda: rows_of_turns() < 100)


def rows_of_turns(member: int = 1) -> int:
    """So many turns stand in a record beside its tables."""
    with tempfile.TemporaryDirectory(prefix="record-") as place:
        with contextlib.closing(sqlite3.connect(copied(member, place))) as record:
            return record.execute("SELECT count(*) FROM turns").fetchone()[0]


def narrow(port: int, member: int, piece: int | None = None) -> Engine:
    """A member with hardly any room for what comes. Where pieces are small, the system holds hardly anything for it, too."""
    one = Engine(port, member)
    one.socket = socket.socket()
    if piece:
        one.socket.setsockopt(socket.IPPROTO_TCP, socket.TCP_MAXSEG, piece)
    one.socket.setsockopt(socket.SOL_SOCKET, socket.SO_RCVBUF, 2048)
    one.socket.connect((HOST, one.port))
    one.send("A", "98=0|108=60|")
    one.next_of("A")
    return one


# Follows the journal as venue-events does, and stops for a while in the middle of each line. Between two lines that came together
# it stops for no moment.
CUT = f"""#!{sys.executable}
import ctypes, os, subprocess, sys, time
words = [{EVENTS!r}, *sys.argv[1:]]
if words[2] == "once":
    os.execv(words[0], words)
it = subprocess.Popen(words, stdout=subprocess.PIPE, preexec_fn=lambda: ctypes.CDLL(None).prctl(1, 9))
while data := os.read(it.stdout.fileno(), 1 << 16):
    lines = data.splitlines(keepends=True)
    os.write(1, lines[0][:5])
    for line, after in zip(lines, [*lines[1:], b""]):
        time.sleep(0.03)
        os.write(1, line[5:] + after[:5])
"""


def test_market_of_whole_commands() -> None:
    """However slowly the lines of a command come, what it did is told as one: a sweep of many prices by one update."""
    with open("cut", "w", encoding="ascii") as file:
        file.write(CUT)
    os.chmod("cut", 0o755)
    _, _, port, (one, other) = seen(common={"VenueEvents": os.path.abspath("cut")})
    for at in range(SWEPT):
        rests(other, f"a-{at}", 1, 1, f"{50 + at}")
    taker = Taker(one, "m", symbols=("ABC",)).has()
    one.settle()
    one.came.clear()
    other.send("D", order("t", 2, SWEPT + 5, "50"))
    other.report(_150="F", _39="1")
    taker.has()
    told = [sides(it, "279", "269") for it in one.came if value(it, "35") == "X"]
    expect(told, [[("2", "0")] * SWEPT + [("0", "1"), ("0", "2")]])


def test_no_market_of_before() -> None:
    """While what tells the market hasn't caught up, nothing is told of it: a request waits for that."""
    held = events_by('while [ "$2" = follow ] && [ -e held ]; do sleep 0.05; done')
    _, edge, port, (one, other) = seen(common={"VenueEvents": held})
    rests(other, "a", 1, 5, "50")
    Taker(one, "m").has()
    with open("held", "w", encoding="ascii"):
        os.kill(followers(edge)[0], signal.SIGKILL)
    edge.hears("C1: the market isn't followed")
    rests(other, "b", 1, 5, "51")
    one.send("V", asks("n", ONCE, update=None, symbols=("ABC",)))
    await_that("another follower", lambda: len(followers(edge)) == 1)
    one.settle()
    expect([it for it in one.reports if value(it, "262") == "n"], [])
    os.remove("held")
    expect(sides(picked(one, _35="W", _262="n"), "269", "270"), [("0", "51.00"), ("0", "50.00")])


def test_no_market_behind_reports() -> None:
    """Where the market lacks for a second what a member was told of its own orders, nothing is told of the market."""
    _, edge, port, (one, other) = seen()
    Taker(one, "m").has()
    follower, = followers(edge)
    os.kill(follower, signal.SIGSTOP)
    rests(one, "a", 1, 5, "50")
    asked: list[str] = []

    def waits() -> bool:
        asked.append(f"n-{len(asked)}")
        one.send("V", asks(asked[-1], ONCE, update=None, symbols=("ABC",)))
        one.settle()
        return not any(value(it, "262") == asked[-1] for it in one.reports)

    await_that("a market that waits", waits)
    os.kill(follower, signal.SIGCONT)
    expect(sides(picked(one, _35="W", _262=asked[-1]), "269", "270"), [("0", "50.00")])


# Follows the journal as venue-events does, and tells each line a little later.
LATER = f"""#!{sys.executable}
import ctypes, os, queue, subprocess, sys, threading, time
words = [{EVENTS!r}, *sys.argv[1:]]
if words[2] == "once":
    os.execv(words[0], words)
it = subprocess.Popen(words, stdout=subprocess.PIPE, preexec_fn=lambda: ctypes.CDLL(None).prctl(1, 9))
came = queue.Queue()
def read():
    data = b"-"
    while data:
        data = os.read(it.stdout.fileno(), 1 << 16)
        came.put((time.monotonic() + 0.3, data))
threading.Thread(target=read, daemon=True).start()
while (next := came.get())[1]:
    time.sleep(max(0, next[0] - time.monotonic()))
    os.write(1, next[1])
"""


def test_market_beside_many_reports() -> None:
    """A member that is told of its own orders all the time, and so is always a little ahead of the market, sees that all the same."""
    with open("later", "w", encoding="ascii") as file:
        file.write(LATER)
    os.chmod("later", 0o755)
    venue = started(JOURNAL, 3, list(SYMBOLS))
    _, _, _, (one, _) = seen(venue=venue, common={"VenueEvents": os.path.abspath("later")})
    seller, is_over, sold = Client(venue.port, 3).log_on(), threading.Event(), 0
    rests(one, "a", 1, 1000000, "50")

    def sells() -> None:
        nonlocal sold
        while not is_over.is_set():
            sold += 1
            seller.send("D", venue_order(sold, 2, 1, 5000))
            while value(sure(seller.next()), "150") != "F":
                pass

    trader = threading.Thread(target=sells, daemon=True)
    trader.start()
    end = time.monotonic() + ENOUGH
    for name in itertools.count():
        it, = once(one, f"m-{name}")
        if time.monotonic() > end:
            break
    is_over.set()
    trader.join()
    (price, quantity), = sides(it, "270", "271")[:1]
    expect((price, 0 < int(sure(quantity)) < 1000000), ("50.00", True))


def test_slow_taker() -> None:
    """A taker that reads nothing holds up nobody, is told no queue of what was, and comes to the true book."""
    page = free_port(3)
    _, edge, port = pair(3, **OPEN, MaxUnsentBytes="2048000", common={"HttpAcceptPort": page})
    one, other, third = Engine(port, 1).log_on(), Engine(port, 2).log_on(), narrow(port, 3)
    for at in range(PRICES):
        for side, price in ((1, 40), (2, 60)):
            one.send("D", order(f"a-{at}-{side}", side, 1, f"{price + at / 100:.2f}"))
        if at % 50 == 49:
            one.report(_150="0", _11=f"a-{at}-{side}")
    slow = Taker(third, "m", update=WHOLE, symbols=("ABC",)).has()
    quick = Taker(one, "quick", entries="0", symbols=("ABC",)).has()
    for at in range(MOST - 1):
        third.send("V", asks(f"more-{at}", update=WHOLE, symbols=("ABC",)))
    for at in range(UPDATES):  # Each of 16 times some 50 KB: more than the system and MaxUnsentBytes hold together.
        rests(other, f"u-{at}", 1, 1, "39")
        quick.until(lambda: quick.books["ABC"].get((BID, "39.00")) == (at + 1, at + 1))
    if (unsent := figure(page + 2, "gikvand_edge_unsent_bytes", "C3")) > 3 * LEAST_UNSENT:
        raise Trouble(f"{unsent} bytes wait for a taker that read nothing")
    rests(other, "last", 2, 1, "70")
    slow.has()
    expect([line for line in edge.lines if "C3: the client from" in line], [])
    if slow.count["W"] >= UPDATES // 2:
        raise Trouble(f"{slow.count} messages for a taker that read nothing")


def test_heard_by_a_slow_taker() -> None:
    """Reports that a taker has taken count as sent, however little of the market it takes: none is told again in the next day."""
    _, _, port = pair(3, **OPEN)
    one, other, third = Engine(port, 1).log_on(), Engine(port, 2).log_on(), narrow(port, 3, piece=536)
    for at in range(PRICES):
        one.send("D", order(f"a-{at}", 1, 1, f"{40 + at / 100:.2f}"))
    one.report(_150="0", _11=f"a-{PRICES - 1}")
    third.send("V", asks("m", update=WHOLE, symbols=("ABC",)))
    quick = Taker(one, "quick", entries="0", symbols=("ABC",)).has()
    for at in range(UPDATES):
        rests(other, f"u-{at}", 1, 1, "39")
        quick.until(lambda: quick.books["ABC"].get((BID, "39.00")) == (at + 1, at + 1))
    third.send("D", order("own", 1, 1, "30"))
    await_that("a report", lambda: "|150=0|" in "".join(stored(3)))
    number, = rows(3, "SELECT max(number) FROM messages")[0]
    count = 0

    def is_heard() -> bool:
        nonlocal count
        for _ in range(20):
            rests(other, f"v-{count}", 1, 1, "39")
            third.pump(0.01)
            count += 1
        return rows(3, "SELECT heard FROM session")[0][0] > number

    await_that("a report that was sent", is_heard)


def test_market_once_is_once() -> None:
    """A request of one moment is answered once for each symbol, also where its client takes a part of that, and the book changes
    then."""
    _, _, port = pair(3, **OPEN, MaxUnsentBytes=str(LEAST_UNSENT))
    one, other, third = Engine(port, 1).log_on(), Engine(port, 2).log_on(), narrow(port, 3, piece=536)
    for at in range(DEEP):
        one.send("D", order(f"a-{at}", 1, 1, f"{40 + at / 100:.2f}"))
    one.report(_150="0", _11=f"a-{DEEP - 1}")
    quick, count = Taker(one, "quick", entries="0", symbols=("ABC",)).has(), 0

    def changes() -> None:
        nonlocal count
        count += 1
        rests(other, f"u-{count}", 1, 1, "50")
        quick.until(lambda: quick.books["ABC"].get((BID, "50.00")) == (count, count))

    for at in range(ONCES):
        third.send("V", asks(f"m-{at}", update=WHOLE, symbols=("ABC",)))
    for _ in range(UPDATES):
        changes()
    for at in range(MOST - ONCES):
        third.send("V", asks(f"n-{at}", ONCE, update=None))

    def came() -> list[tuple[str | None, str | None]]:
        return [(value(it, "262"), value(it, "55")) for it in third.came if (value(it, "262") or "").startswith("n-")]

    def has_all() -> bool:
        changes()
        for _ in range(LOOKS):
            third.pump(0.01)
        return len(set(came())) == len(SYMBOLS) * (MOST - ONCES)

    end = time.monotonic() + 4 * PATIENCE  # What waits for its client comes in small pieces.
    while not has_all():
        if time.monotonic() > end:
            raise Trouble(f"not all answers come: {came()}")
    third.settle()
    expect(sorted(came()), sorted(set(came())))


def test_market_behind_all_numbers() -> None:
    """The last numbers of a session are for reports: nothing of the market is told by them."""
    _, edge, port, (one, other) = seen()
    rests(one, "a", 1, 1, "50")
    edge.kill()
    one.close()
    changed(1, f"UPDATE session SET sender = {GREATEST}")
    with open("edge.cfg", encoding="ascii") as file:
        Edge(file.read()).ready(2)
    one.next = GREATEST
    one.log_on()
    one.send("V", asks("m", symbols=("ABC",)))
    rests(one, "b", 1, 1, "50")
    since = time.monotonic()
    while time.monotonic() < since + ENOUGH:  # In which an edge that tells it would have read the market.
        one.pump(0.1)
    one.settle()
    expect([it for it in one.reports if sure(value(it, "35")) in "WX"], [])


def test_market_over_kills() -> None:
    """The venue, the edge and what tells the market are killed: the books go on where they stood, or begin anew."""
    venue, edge, port, (one, other) = seen()
    taker = Taker(one, "m").has()
    rests(other, "a", 1, 5, "50")
    taker.has()
    for at, follower in enumerate(followers(edge)):
        os.kill(follower, signal.SIGKILL)
        rests(other, f"f-{at}", 1, 5, f"{51 + at}")
    taker.has()
    venue.kill()
    one.send("V", asks("meanwhile", ONCE, update=None, symbols=("ABC",)))
    venue = again(venue.port, 2)
    picked(one, _35="W", _262="meanwhile")
    rests_again(other, "b")
    taker.has()
    edge.kill()
    for it in (one, other):
        it.close()
    with open("edge.cfg", encoding="ascii") as file:
        Edge(file.read()).ready(2)
    other.log_on()
    taker.come_back()
    taker.has()
    rests(other, "c", 2, 5, "80")
    taker.has()


def rests_again(one: Engine, name: str) -> None:
    """An order that rests behind a venue's return: until then each is refused."""
    end, at = time.monotonic() + PATIENCE, 0
    while time.monotonic() < end:
        one.send("D", order(f"{name}-{at}", 1, 5, "45"))
        if value(one.report(_11=f"{name}-{at}"), "150") == "0":
            return
        at += 1
        time.sleep(0.1)
    raise Trouble("no order is taken behind the venue's return")


class Looker(threading.Thread):
    """A member that takes the market all the time, whatever is killed, and compares its books at each pause."""

    def __init__(self, port: int, number: int, depth: int, update: int) -> None:
        super().__init__(daemon=True)
        self.taker = Taker(Engine(port, number), depth=depth, update=update)
        self.fault: Exception | None = None
        self.depth, self.is_done, self.looks = depth, threading.Event(), 0
        self.wants = threading.Event()

    def run(self) -> None:
        try:
            while not self.is_done.is_set():
                self.turn()
        except Exception as why:
            self.fault = why

    def turn(self) -> None:
        engine = self.taker.engine
        if not engine.socket:
            try:
                self.taker.come_back()
            except (Trouble, OSError):
                engine.close()
                time.sleep(0.05)
                return
        engine.pump(0.05)
        self.taker.take()
        if self.wants.is_set() and self.taker.books == books_of(JOURNAL, self.depth) and self.taker.trades == trades_of():
            self.looks += 1
            self.wants.clear()


class Looked(Run):
    """Members that trade while others look, with a pause in front of each kill."""

    def __init__(self, requests: int, seed: int) -> None:
        super().__init__(requests, seed, limits={k: OPEN for k in TAKERS}, lookers=len(TAKERS))
        self.lookers = [Looker(self.port, TAKERS[0], 0, CHANGES), Looker(self.port, TAKERS[1], 3, WHOLE)]
        for it in self.lookers:
            it.start()

    def strike(self) -> None:
        self.pause()
        super().strike()

    def pause(self) -> None:
        """Nobody sends anything now, and each book that is taken comes to be that of the journal."""
        for it in self.members:
            it.may = it.count
        for looker in self.lookers:
            looker.wants.set()
        await_that("the books of the journal", lambda: not any(it.wants.is_set() for it in self.lookers) or self.has_fault())
        if self.has_fault():
            raise Trouble(f"{[it.fault for it in self.lookers]}")

    def has_fault(self) -> bool:
        return any(it.fault for it in self.lookers)


def test_market_differential() -> None:
    """Members trade by chance while all is killed, and others take the market: at each pause their books are the journal's."""
    run = Looked(LONG if os.environ.get("EDGE_LONG") else SHORT, 20250103)
    run.go()
    run.pause()
    compare(run.members)
    for it in run.lookers:
        it.is_done.set()
        it.join()
    expect([it.fault for it in run.lookers], [None, None])
    if min(it.looks for it in run.lookers) < 3 or min(run.kills) < 1:
        raise Trouble(f"too few looks or kills: {[it.looks for it in run.lookers]}, {run.kills}")


TESTS = [test_market_once, test_market_changes, test_market_whole, test_market_refused, test_market_bounds,
         test_market_closed, test_market_is_of_its_moment, test_market_anew, test_quiet_market,
         test_market_of_whole_commands, test_no_market_of_before, test_no_market_behind_reports, test_market_beside_many_reports,
         test_slow_taker,
         test_heard_by_a_slow_taker, test_market_once_is_once, test_market_behind_all_numbers,
         test_market_over_kills, test_market_differential]
