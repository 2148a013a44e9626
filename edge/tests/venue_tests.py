"""One edge in front of two venues, by symbol: a member's session is one, each venue's reports are told once and in order, and what is
wrong with one venue holds up no other. Whatever is killed, each engine has what the journals have."""
import contextlib
import os
import random
import re
import shutil
import socket
import sqlite3
import subprocess
import sys
import time
from collections.abc import Callable, Iterable, Iterator
from typing import Any

from book_tests import rows_of_turns
from clocks import Clock
from desk_tests import Session, has, on, said, session
from edges import DICTIONARY, EVENTS, HOST, JOURNAL, NAMES, PATIENCE, ROOT, Client, Edge, Settings, Trouble, Venue, await_that, changed
from edges import children_of, free_port, page_at, pair, path_of, replay, rows, settings_of, started, stored, venue_order
from engines import GTC, Engine, cancel, order
from gikvand.edge import of as known_by
from gikvand.fix import framed, printed, value
from gikvand.words import sure
from kept_tests import GREATEST
from market import BEGUN
from recovery_tests import settings
from relay import Relay
from switch_tests import called, mass
from takers import ONCE, SIDES, Book, Taker, asks, picked
from trading_tests import expect

SYMBOLS = {"A": {"ABC": "0.01", "XYZ": "0.25"}, "B": {"DEF": "0.01", "GHI": "1"}}  # Of each venue, with their steps.
STEPS = {"ABC": (100, 2), "XYZ": (4, 2), "DEF": (100, 2), "GHI": (1, 0)}  # Steps of a price in one, and its decimals.
GATEWAYS = 8                                                              # Ports of each venue.
MEMBERS, DESKS = 8, 8
ROUNDS, LONG, BATCH, SEED = 6, 60, 20, 20261129  # Of kills, each behind so many requests of each engine.
PAUSES, OF_SESSION = 2, 4               # Of 64 sessions, each of which sends so many requests in front of each.
EXEC_ID = re.compile(r"([A-Z])(\d+)")   # Of a venue's report.
MESSAGE = re.compile(r"8=[^|]*\|9=[^|]*\|(.*)10=\d{3}\|")
COPIES = "D1"
SAID = ("11", "41", "37", "55", "54", "150", "39", "44", "32", "151")  # Tags of what a report says of an order.
TUNNEL = "127.0.0.2"  # Where the venue itself doesn't listen.
STEP = 1000                             # So far numbers go up where messages may be lost.
LONG_READING, WAITS = 120, 15           # Seconds: of what reads a journal, and of a Logon that waits for that.
SMALL = 1024                            # Bytes.
PIECE = 200                             # Requests that are sent in one go.
TRICKLE = 30000                         # Bytes that a venue takes: the system holds some times as many more then, and not half a MiB.
PLACES = 10 ** 16                       # Of names that each venue has in a record.
BESIDE = 10 ** 15                       # Names from here on are of no number that a venue takes.
MANY = 64                               # Turns that the edge puts into its tables in a quiet moment.
AWAY = "edge: B isn't there: what rests there is cancelled once it is"


def journal_of(letter: str) -> str:
    return f"{letter}.journal"


class Two:
    """The venues A and B, and an edge in front of both with a session for each of these words, at the places from 1 on."""

    def __init__(self, *words: str, common: Session | None = None, each: dict[str, Session] | None = None, wait: bool = True,
                 env: dict[str, str] | None = None, **more: Any) -> None:
        self.words, self.env = words, env
        self.members = sorted({it.partition(".")[0] for it in words})
        self.venues = {letter: started(journal_of(letter), GATEWAYS, list(SYMBOLS[letter])) for letter in SYMBOLS}
        self.ports = {letter: it.port for letter, it in self.venues.items()}
        self.port = free_port(max(len(words), len(NAMES)))
        self.sessions = [session(it, at, self.port, **{**more, **(each or {}).get(it, {})}) for at, it in enumerate(words, 1)]
        self.common = {**of_venues(self.ports), **(common or {})}
        self.edge = Edge(settings_of(self.common, self.sessions), env=env)
        if wait:
            self.serves()

    def venue(self, letter: str) -> Venue:
        """Starts a venue, at the ports and with the journal that it has."""
        venue = Venue(self.ports[letter], journal_of(letter), GATEWAYS, list(SYMBOLS[letter]))
        venue.ready()
        return venue

    def serves(self, letters: str = "AB") -> None:
        """Waits until each member is served at each of these venues, as the edge's lines say from now on, and at all of them copies."""
        wanted = {f"{member}: {letter} serves, behind report" for member in self.members for letter in letters if member[0] == "C"}
        if set(letters) == set(SYMBOLS):
            wanted |= {f"{member}: serves, behind report" for member in self.members if member[0] == "D"}
        while wanted:
            line = self.edge.hears("serves, behind report")
            wanted -= {it for it in wanted if it in line}

    def kill(self, letter: str) -> None:
        """Kills a venue, and waits until the edge has seen that of each member."""
        self.venues[letter].kill()
        wanted = {f"{member}: the venue {letter}: " for member in self.members if member[0] == "C"}
        while wanted:
            line = self.edge.hears(f": the venue {letter}: ")
            wanted -= {it for it in wanted if it in line}

    def again(self, letter: str) -> None:
        """Starts a venue that was killed, which each member is served at."""
        self.venues[letter] = self.venue(letter)
        self.serves(letter)

    def edge_again(self, **common: Any) -> None:
        """Starts the edge that was killed or stopped, by its settings and by these."""
        self.edge = Edge(settings_of({**self.common, **common}, self.sessions), env=self.env)


def second_beside(venue: Venue) -> int:
    """Starts the venue B beside another one: its port, which is far enough from that one's."""
    while abs((it := started(journal_of("B"), GATEWAYS, list(SYMBOLS["B"]))).port - venue.port) < GATEWAYS:
        it.kill()
    return it.port


def of_venues(ports: dict[str, int], letters: str = "AB") -> Settings:
    """The settings of venues at these ports."""
    found: Settings = {"VenueJournal": None, "Symbols": None, "Venues": " ".join(letters)}
    for letter in letters:
        symbols = " ".join(f"{symbol}:{step}" for symbol, step in SYMBOLS[letter].items())
        found |= {f"VenuePort{letter}": ports[letter], f"VenueJournal{letter}": journal_of(letter), f"Symbols{letter}": symbols}
    return found


def rest(one: Engine, name: str, symbol: str = "ABC", side: int = 1, quantity: int = 10, price: str = "50", more: str = "") -> str:
    """An order that rests: its report. What else has come is passed over."""
    one.send("D", order(name, side, quantity, price, symbol, more))
    return one.report(_150="0", _11=name)


def refused(one: Engine, name: str, text: str, symbol: str = "ABC", quantity: int = 10, price: str = "50") -> str:
    """An order that is refused in words."""
    one.send("D", order(name, 1, quantity, price, symbol))
    it = one.report(_11=name)
    expect((value(it, "150"), value(it, "58")), ("8", f"edge: {text}"))
    return it


def placed_in(reports: Iterable[str], letter: str) -> list[int]:
    """The ExecIDs of a venue's reports among these, in their order."""
    found = (EXEC_ID.fullmatch(value(it, "17") or "") for it in reports if value(it, "35") == "8" and value(it, "150") != "I")
    return [int(it[2]) for it in found if it and it[1] == letter]


def of_journal(letter: str, member: str) -> list[int]:
    """The ExecIDs of a venue's reports to a member, as its journal has them: of orders of the venue's symbols."""
    lines = replay(journal_of(letter), member, tuple(SYMBOLS[letter]))[0]
    return [int(sure(value(it, "17"))) for it in lines if value(it, "35") == "8" and value(it, "55") in SYMBOLS[letter]]


def book_of(letter: str) -> dict[str, Book]:
    """The books of a venue's symbols, as `venue-replay book` has them."""
    books: dict[str, Book] = {symbol: {} for symbol in SYMBOLS[letter]}
    for line in replay(journal_of(letter), "book", tuple(SYMBOLS[letter]))[0]:
        symbol, side, price, left = line.split()[:4]
        steps, decimals = STEPS[symbol]
        key = SIDES[side], f"{int(price) / steps:.{decimals}f}"
        quantity, orders = books[symbol].get(key, (0, 0))
        books[symbol][key] = quantity + int(left), orders + 1
    return books


def has_books(takers: Iterable[Taker]) -> None:
    """Waits until each taker has built the books of both venues."""
    wanted = {symbol: book for letter in SYMBOLS for symbol, book in book_of(letter).items()}
    for it in takers:
        it.until(lambda: it.books == wanted, f"the books of both venues, {wanted}")


def takes(one: Engine) -> Taker:
    """A taker of the market of all symbols."""
    return Taker(one, entries="01", symbols=tuple(STEPS))


def logs_on(one: Engine) -> Engine:
    """An engine that comes back, as soon as it is let on."""
    def is_on() -> bool:
        number = one.out
        try:
            one.log_on()
            return True
        except (Trouble, OSError):
            one.close()
            one.out = number
            return False

    one.close()
    await_that("a Logon", is_on)
    return one


def is_told_all(engines: dict[str, list[Engine]]) -> None:
    """Waits until the engines of each member have been told all that each journal has for it, and looks that each report is told
    once, and each engine's in order."""
    for member, those in engines.items():
        for letter in SYMBOLS:
            wanted = of_journal(letter, member)
            for it in those:
                it.settle()
            await_that("all reports", lambda: [it.pump(0.01) for it in those] and
                       sum(len(placed_in(it.history, letter)) for it in those) >= len(wanted))
            each = [placed_in(it.history, letter) for it in those]
            expect([it == sorted(set(it)) for it in each], [True] * len(those))
            expect((member, letter, sorted(at for it in each for at in it)), (member, letter, wanted))


def is_told_as_known(engines: dict[str, list[Engine]]) -> None:
    """Looks that each report that engines were told has the names, and all else, that it has by the venue's journal and the records,
    and that no name has both a refusal by the edge and a report of a venue."""
    for letter in SYMBOLS:
        known = sure(known_by(["edge.cfg"], journal_of(letter)))
        for member, those in engines.items():
            lines = replay(journal_of(letter), member, tuple(SYMBOLS[letter]))[0]
            wanted = {sure(value(it, "17")): it for it in known.reports(member, lines) if value(it, "35") == "8"}
            for came in (it for one in those for it in one.history if placed_in([it], letter)):
                it = wanted[sure(value(came, "17"))]
                expect([(tag, value(came, tag)) for tag in SAID], [(tag, value(it, tag)) for tag in SAID])
    for one in (it for those in engines.values() for it in those):
        refusals = [it for it in one.history if (value(it, "58") or "").startswith("edge: ") and value(it, "150") == "8"]
        by_edge = {value(it, "11") for it in refusals if "was used before" not in it}
        by_venues = {value(it, "11") for it in one.history if placed_in([it], "A") or placed_in([it], "B")}
        expect(by_edge & by_venues, set())


def has_copies(copies: Engine, members: Iterable[str], names: Callable[[str], set[str]]) -> None:
    """The same of a session of copies, of whose reports a party says which one of a member's desks was told."""
    for member in members:
        for letter in SYMBOLS:
            wanted = of_journal(letter, member)

            def came() -> list[int]:
                return placed_in((it for it in copies.history if value(it, "448") in names(member)), letter)

            await_that("all copies", lambda: copies.pump(0.01) is not None and len(came()) >= len(wanted))
            expect((member, letter, came()), (member, letter, wanted))


def test_two_venues() -> None:
    """A member's one session trades at both venues: the letter of the venue stands in front of ExecID and OrderID, a name is used
    once at both, and each question is answered for both."""
    two = Two("C1", "C2")
    one, other = on(two.port, 1, 2)
    has(rest(one, "a", price="50"), _17="A1", _37="A1", _44="50.00")
    has(rest(one, "b", "DEF", price="40"), _17="B1", _37="B1")
    has(rest(one, "c", "GHI", price="7"), _17="B2", _37="B2", _44="7")
    other.send("D", order("s", 2, 4, "50"))
    has(one.report(_150="F"), _11="a", _32="4", _37="A1")
    other.send("D", order("t", 2, 3, "40", "DEF"))
    has(one.report(_150="F"), _11="b", _32="3", _37="B1")
    refused(one, "a", "ClOrdID (11) was used before", "DEF")
    has(refused(one, "n", "Symbol (55) isn't traded here", "NONE"), _103="1")
    one.send("F", cancel("x", "b", 1))
    has(one.report(_11="x"), _35="9", _102="1", _58="edge: OrigClOrdID (41) is of no order")
    one.send("F", cancel("y", "c", 1, symbol="GHI"))
    has(one.report(_11="y"), _150="4", _41="c")
    one.send("F", cancel("z", "y", 1, symbol="GHI"))
    has(one.report(_11="z"), _35="9", _37="NONE")
    one.send("x", "320=l|559=4|")
    expect(re.findall(r"\|55=(\w+)", one.report(_35="y")), list(STEPS))
    one.send("H", "11=b|54=1|55=DEF|")
    has(one.report(_150="I"), _37="B1", _14="3", _39="1")
    one.send("H", "11=b|54=1|55=ABC|")
    has(one.report(_150="I"), _39="8", _103="5")
    one.send("AF", "584=m|585=7|")
    expect([value(one.report(_150="I"), "37") for _ in "ab"], ["A1", "B1"])
    one.send("AF", "584=n|585=1|55=DEF|")
    has(one.report(_150="I"), _37="B1", _911="1", _912="Y")
    one.send("AD", "568=t|569=0|")
    expect([value(one.report(_35="AE"), "17") for _ in "ab"], ["A3", "B4"])
    has(one.report(_35="AQ", _750="1"), _748="2")
    one.send("q", mass("m"))
    has(one.report(_35="r"), _531="7", _533="2", _58=None)
    expect(sorted(sure(value(one.report(_150="4"), "41")) for _ in "ab"), ["a", "b"])
    is_told_all({"C1": [one], "C2": [other]})
    for letter in SYMBOLS:  # What `gikvand reports --edge` tells by a venue's journal.
        lines = replay(journal_of(letter), "C1", tuple(SYMBOLS[letter]))[0]
        known = sure(known_by(["edge.cfg"], journal_of(letter))).reports("C1", lines)
        came = [it for it in one.history if placed_in([it], letter)]
        expect([(value(it, "17"), value(it, "11"), value(it, "44")) for it in known if value(it, "35") == "8"],
               [(value(it, "17"), value(it, "11"), value(it, "44")) for it in came])
    line = called("status C1")[1]
    if "C1 (DESK-A): A serves, B serves, logged on, " not in line or f"the last A{of_journal('A', 'C1')[-1]} B" not in line:
        raise Trouble(f"status says {line}")


def test_venue_away() -> None:
    """While a venue is away its symbols are refused, and all else goes on: orders, a Logon, questions. What was to be cancelled there
    is, once it is back."""
    page = free_port(1)
    two = Two("C1", "C2", common={"HttpAcceptPort": page})
    one, other = on(two.port, 1, 2)
    rest(one, "a")
    rest(one, "b", "DEF")
    two.kill("B")
    has(refused(one, "c", "the venue isn't there", "DEF"), _103="2")
    one.send("F", cancel("d", "b", 1, symbol="DEF"))
    has(one.report(_11="d"), _35="9", _58="edge: the venue isn't there")
    rest(one, "e")
    other.send("D", order("s", 2, 2, "50"))
    has(one.report(_150="F"), _11="a", _32="2")
    one.send("H", "11=b|54=1|55=DEF|")
    has(one.report(_35="j"), _380="4", _58="edge: the venue isn't there")
    one.send("H", "11=a|54=1|55=ABC|")
    has(one.report(_150="I"), _14="2")
    one.send("AF", "584=m|585=7|")
    has(one.report(_35="j"), _380="4")
    logs_on(one)
    rest(one, "f")
    figures = page_at(page, "metrics")
    for letter, serves in (("A", 1), ("B", 0)):
        if f'gikvand_edge_venue_serves{{member="C1",venue="{letter}"}} {serves}\n' not in figures:
            raise Trouble(f"the page says {figures}")
    expect(": A serves, B waits for the venue, logged on, " in called("status C1")[1], True)
    one.send("q", mass("m"))
    has(one.report(_35="r"), _531="7", _533="3", _58=AWAY)
    expect(sorted(sure(value(one.report(_150="4"), "41")) for _ in "aef"), ["a", "e", "f"])
    two.edge.kill()
    two.edge_again()
    two.serves("A")
    for it in (one, other):
        logs_on(it)
    rest(one, "g")
    two.again("B")
    has(one.report(_150="4"), _41="b", _11="m")
    rest(one, "h", "DEF")
    is_told_all({"C1": [one], "C2": [other]})


def test_operator_and_a_venue_away() -> None:
    """An operator's stop holds at once, and cancels at the venue that is away once it is back."""
    two = Two("C1")
    one, = on(two.port, 1)
    rest(one, "a")
    rest(one, "b", "DEF")
    two.kill("B")
    status, out, line = called("stop C1")
    wanted = "stopped, and the venue hasn't answered all cancels within 10 s; A: 0 of its orders may rest; B: 1 of its orders may rest: b"
    expect((status, out, line), (1, "", f"gikvand-edge: C1: {wanted}\n"))
    has(one.report(_150="4"), _41="a")
    refused(one, "c", "the operator has stopped this member")
    two.again("B")
    has(one.report(_150="4"), _41="b")
    expect(called("resume C1")[0], 0)
    rest(one, "d", "DEF")


def test_venue_that_never_was() -> None:
    """An edge starts with one of its venues away: a Logon is taken, and the other trades. A venue whose journal can't be read is said
    to be so, and holds up nothing."""
    two = Two("C1", wait=False)
    two.edge.kill()
    two.venues["B"].kill()
    two.edge_again()
    two.serves("A")
    one, = on(two.port, 1)
    rest(one, "a")
    refused(one, "b", "the venue isn't there", "DEF")
    two.edge.kill()
    shutil.copy(journal_of("B"), "kept")
    two.venues["B"] = two.venue("B")
    with open(journal_of("B"), "r+b") as file:  # An entry of it that nobody can read.
        file.write(b"\0" * 16)
    two.edge_again()
    two.edge.hears(f"C1: B isn't served: venue-events can't read the journal {journal_of('B')}: status ")
    logs_on(one)
    rest(one, "c")
    refused(one, "d", "the venue isn't there", "DEF")


def test_venue_that_hangs() -> None:
    """A venue that doesn't answer holds up its own requests alone: also where the edge starts beside it, a Logon is taken."""
    two = Two("C1")
    one, = on(two.port, 1)
    rest(one, "a", "DEF")
    two.venues["B"].pause()
    one.send("D", order("b", 1, 10, "50", "DEF"))
    rest(one, "c")
    one.send("H", "11=b|54=1|55=DEF|")
    has(one.report(_150="I"), _39="A")
    two.edge.kill()
    two.edge_again()
    two.serves("A")
    logs_on(one)
    rest(one, "d")
    refused(one, "e", "the venue isn't there", "DEF")
    two.venues["B"].go_on()
    two.serves("B")
    one.report(_11="b")
    rest(one, "f", "DEF")
    is_told_all({"C1": [one]})


@contextlib.contextmanager
def deaf(port: int) -> Iterator[socket.socket]:
    """A venue in the place of one that was killed, which answers the Logon of C1 and reads nothing more: its connection. The system
    holds little of that."""
    with socket.socket() as door:
        for level, option, most in ((socket.SOL_SOCKET, socket.SO_REUSEADDR, 1), (socket.SOL_SOCKET, socket.SO_RCVBUF, SMALL),
                                    (socket.IPPROTO_TCP, socket.TCP_MAXSEG, SMALL)):
            door.setsockopt(level, option, most)
        door.bind((HOST, port))
        door.listen()
        door.settimeout(PATIENCE)
        link, _ = door.accept()
        with link:
            link.recv(SMALL)
            link.sendall(framed("35=A|49=VENUE|56=C1|34=1|52=20300101-00:00:00|98=0|108=0|141=Y|"))
            link.settimeout(PATIENCE)
            yield link


def test_venue_that_takes_nothing() -> None:
    """A venue to which more waits to be written than may be holds up no other one for long: its own requests are refused then, also
    where it takes a little at times."""
    two = Two("C1", MaxRequestsUnderWay="1000000", MaxReadMessagesPerSecond="0", MaxReadBytesPerSecond="0")
    one, = on(two.port, 1)
    sure(one.socket).settimeout(PATIENCE)
    sent, told, wanted = list[str](), dict[str, str](), "requests wait for the venue, which doesn't answer"

    def comes() -> int:
        """So many requests are told of by now. What has come is looked at once."""
        one.pump(0.05)
        told.update((sure(value(it, "11")), it) for it in one.reports)
        one.reports.clear()
        return len(told)

    def is_answered(name: str) -> str:
        await_that(f"an answer to {name}", lambda: comes() and name in told)
        return told[name]

    two.kill("B")
    with deaf(two.ports["B"]) as link:
        two.serves("B")
        while not any(wanted in it for it in one.reports):
            for _ in range(PIECE):
                sent.append(f"f{len(sent)}")
                one.send("D", order(sent[-1], 1, 1, "50", "DEF"))
            if not one.pump():
                raise Trouble(f"the edge takes nothing more behind {len(sent)} requests")
        one.send("D", order("a", 1, 10, "50"))
        has(is_answered("a"), _150="0")
        taken = 0
        while taken < TRICKLE:
            taken += len(link.recv(TRICKLE))
        for name in ("g", "h", "i"):
            one.send("D", order(name, 1, 1, "50", "DEF"))
            expect(wanted in is_answered(name), True)
    two.again("B")
    while len(told) < len(sent) + len("aghi"):  # However many they are: each time more of them.
        before = len(told)
        await_that(f"more answers than {before}", lambda: comes() > before)


def test_venue_behind_a_tunnel() -> None:
    """A venue at another address, as at the near end of a tunnel, is one of the others, also where the tunnel is cut."""
    two = Two("C1", wait=False)
    two.edge.kill()
    tunnel = Relay(free_port(1), two.ports["B"])
    tunnel.door.close()
    tunnel.door = socket.create_server((TUNNEL, two.ports["B"]))
    tunnel.start()
    two.edge_again(VenueHostB=TUNNEL)
    two.serves()
    one, = on(two.port, 1)
    rest(one, "a")
    rest(one, "b", "DEF")
    expect([value(it, "35") for it in tunnel.said], ["A", "D"])
    tunnel.cuts = lambda text, is_members: not is_members
    one.send("D", order("c", 1, 10, "50", "DEF"))
    one.report(_150="0", _11="c")
    two.serves("B")
    rest(one, "d", "DEF")
    is_told_all({"C1": [one]})


def test_venue_that_closes() -> None:
    """A venue that takes the connection and ends it, as a tunnel whose other end is away, keeps no Logon waiting behind its first end,
    however long it takes for the next."""
    two = Two("C1", wait=False)
    two.edge.kill()
    two.venues["B"].kill()
    with socket.create_server((HOST, two.ports["B"])) as door:
        two.edge_again()
        two.serves("A")
        door.settimeout(PATIENCE)
        first, _ = door.accept()
        first.close()
        two.edge.hears("C1: the venue B: ")
        held, _ = door.accept()
        with held:
            held.settimeout(PATIENCE)
            expect(held.recv(1) != b"", True)  # Its Logon: from now on the edge waits for the answer.
            one, = on(two.port, 1)
            rest(one, "a")
            refused(one, "b", "the venue isn't there", "DEF")


def slow_for(letter: str) -> str:
    """A program that reads the journals of all venues but one as venue-events does, and of that one slowly: the file `reads` is there
    once it has begun with that."""
    with open("slow", "w", encoding="ascii") as file:
        file.write(f"#!/bin/sh\ncase $1 in {letter}.*) echo >reads; sleep {LONG_READING} ;; esac\nexec {EVENTS} \"$@\"\n")
    os.chmod("slow", 0o755)
    return os.path.abspath("slow")


def begins_to_read() -> None:
    """Waits until the program above has begun with that journal."""
    await_that("a reading of the journal", lambda: os.path.exists("reads"))


def test_venue_that_is_lost_while_it_is_read() -> None:
    """A venue that is lost while its journal is read keeps no Logon waiting from then on, as one that closes."""
    two = Two("C1", wait=False)
    two.edge.kill()
    two.venues["B"].kill()
    two.edge_again(VenueEvents=slow_for("B"))
    two.serves("A")
    two.venues["B"] = two.venue("B")
    begins_to_read()
    two.kill("B")
    os.remove("reads")
    two.venues["B"] = two.venue("B")
    begins_to_read()
    one, = on(two.port, 1)
    rest(one, "a")
    refused(one, "b", "the venue isn't there", "DEF")


def test_connection_that_isnt_made() -> None:
    """A venue whose connection isn't made, as that of a machine which is off, keeps no Logon waiting."""
    two = Two("C1", wait=False)
    two.edge.kill()
    two.venues["B"].kill()
    with contextlib.ExitStack() as those:
        door = those.enter_context(socket.socket())
        door.setsockopt(socket.SOL_SOCKET, socket.SO_REUSEADDR, 1)
        door.bind((HOST, two.ports["B"]))
        door.listen(0)
        for _ in "ab":  # Behind these nobody has room.
            other = those.enter_context(socket.socket())
            other.setblocking(False)
            with contextlib.suppress(BlockingIOError):
                other.connect((HOST, two.ports["B"]))
        two.edge_again()
        two.serves("A")
        one, = on(two.port, 1)
        rest(one, "a")
        refused(one, "b", "the venue isn't there", "DEF")


def sweeps(place: int) -> int:
    """So many rows of cancels of many orders are in the record of C1, of the venue at this place."""
    return sure(rows(1, f"SELECT COUNT(*) FROM names WHERE kind = 'w' AND number / {PLACES} = {place}")[0][0])


def test_cancels_for_a_venue_away() -> None:
    """Of cancels that are kept for a venue which is away one takes the place of all like it. Orders of later have a cancel of their own."""
    two = Two("C1")
    one, = on(two.port, 1)
    rest(one, "a", "DEF")
    two.kill("B")
    for name in ("m", "n", "o"):
        one.send("q", mass(name))
        has(one.report(_35="r", _11=name), _531="7", _533="0", _58=AWAY)
    expect(sweeps(1), 1)
    two.again("B")
    has(one.report(_150="4"), _41="a", _11="m")
    rest(one, "b", "DEF")
    two.kill("B")
    one.send("q", mass("p"))
    has(one.report(_35="r", _11="p"), _533="0", _58=AWAY)
    two.again("B")
    has(one.report(_150="4"), _41="b", _11="p")
    rest(one, "c", "DEF")
    one.settle()
    await_that("no cancel that is kept", lambda: sweeps(1) == 0)
    is_told_all({"C1": [one]})


def without_record(two: Two, away: str = "") -> Engine:
    """The edge begins anew without the record that it had, beside these venues that are away: a client's new session."""
    two.edge.stop()
    shutil.rmtree("edge/C1")
    for letter in away:
        two.venues[letter].kill()
    two.edge_again()
    two.serves("".join(it for it in SYMBOLS if it not in away))
    one, = on(two.port, 1)
    return one


def test_late_venue_with_a_past() -> None:
    """A venue comes late, and its journal has requests that the record knows nothing of: what was refused or is to be cancelled there
    isn't taken for one of these, and all that rests there by then is cancelled."""
    two = Two("C1")
    one, = on(two.port, 1)
    rest(one, "a", "DEF")
    rest(one, "b", "GHI")
    one.log_out()
    one = without_record(two, "B")
    for name in ("c", "d"):
        refused(one, name, "the venue isn't there", "DEF")
    one.send("q", mass("m"))
    has(one.report(_35="r"), _533="0", _58=AWAY)
    expect("; A: 0 of its orders may rest; B: what rests there isn't known\n" in called("cancel C1")[2], True)
    two.edge.kill()
    two.edge_again()
    two.serves("A")
    logs_on(one)
    refused(one, "e", "the venue isn't there", "DEF")
    refused(one, "c", "ClOrdID (11) was used before")
    two.again("B")
    for number in "12":
        has(one.report(_17=f"B{number}"), _11=f"B{number}", _150="0")
    for number in "12":
        has(one.report(_150="4"), _11="m", _41=f"B{number}")
    rest(one, "f", "DEF")
    for name in ("d", "e", "m"):
        refused(one, name, "ClOrdID (11) was used before", "DEF")
    one.settle()
    two.edge.kill()
    two.edge_again()
    two.serves()
    logs_on(one)
    one.send("F", cancel("g", "f", 1, symbol="DEF"))
    has(one.report(_150="4"), _41="f")
    await_that("no cancel that is kept", lambda: sweeps(1) == 0)
    is_told_all({"C1": [one]})


def test_names_of_another_venue() -> None:
    """A request that goes by its number, since its name is lost, has used that up at each venue."""
    two = Two("C1")
    one, = on(two.port, 1)
    rest(one, "a")
    rest(one, "b", "DEF")
    one.log_out()
    one = without_record(two)
    await_that("both reports", lambda: one.pump(0.05) and {"1", "B1"} <= {value(it, "11") for it in one.reports})
    one.reports.clear()
    for number, symbol in (("1", "DEF"), ("B1", "ABC")):
        refused(one, number, "ClOrdID (11) was used before", symbol)
    rest(one, "2", "DEF")
    rest(one, "B2")


def test_kill_and_a_late_venue() -> None:
    """With CancelOnDisconnect what rested at a kill of the edge is cancelled at each venue, also at one that comes once the engine is
    there again. What was spared by the end of a day isn't."""
    clock = Clock("2030-01-01 12:00:00")
    two = Two("C1", env=clock.env, CancelOnDisconnect="Y")
    one, = on(two.port, 1)

    rest(one, "a")
    rest(one, "b", "DEF")
    one.settle()
    two.kill("B")
    two.edge.kill()
    two.edge_again()
    two.serves("A")
    logs_on(one)
    has(one.report(_150="4"), _41="a")
    two.again("B")
    has(one.report(_150="4"), _41="b")
    rest(one, "c", "DEF", more=GTC)
    one.settle()
    clock.put("2030-01-02 00:00:00")
    two.edge.hears(f"C1: a new day: {BEGUN}")
    one.close()
    one = Engine(two.port)
    two.kill("B")
    two.edge.kill()
    two.edge_again()
    two.serves("A")
    one.log_on()
    two.again("B")
    rest(one, "d", "DEF")
    one.send("H", "11=c|54=1|55=DEF|")
    has(one.report(_150="I"), _11="c", _39="0")


def test_damaged_record_of_venues() -> None:
    """A record whose venues can't be read isn't served, and a copy in its place is, by the same process."""
    two = Two("C1")
    one, = on(two.port, 1)
    rest(one, "a")
    rest(one, "b", "DEF")
    one.settle()
    two.edge.stop()
    shutil.copytree("edge/C1", "kept")
    changed(1, "DROP TABLE venues")
    two.edge_again()
    two.edge.hears("C1: isn't served: edge/C1/C1.db: ")
    process = two.edge.process_of(1)
    for name in ("C1.db-wal", "C1.db-shm"):
        with contextlib.suppress(FileNotFoundError):
            os.remove(os.path.join("edge/C1", name))
    shutil.copy("kept/C1.db", "copy")
    os.replace("copy", "edge/C1/C1.db")  # At once: the edge looks at it at any moment.
    two.serves()
    logs_on(one)
    rest(one, "c", "DEF")
    expect(two.edge.process_of(1), process)


def foreign(port: int, symbol: str, *numbers: int) -> None:
    """Another client of the port of C1 at a venue, which no edge uses now, has orders of these numbers rest there."""
    client = Client(port, 1).log_on()
    for number in numbers or (7,):
        client.send("D", venue_order(number, 1, 1, 1, symbol))
        expect(value(sure(client.next()), "150"), "0")
    client.close()


def test_refused_while_a_venue_is_away() -> None:
    """A venue that was served is away, and its port is another client's meanwhile: what is refused or is to be cancelled there has
    none of the numbers that this client's requests may have."""
    two = Two("C1")
    one, = on(two.port, 1)
    rest(one, "a", "DEF")
    two.kill("B")
    refused(one, "x", "the venue isn't there", "DEF")
    one.send("q", mass("m"))
    has(one.report(_35="r"), _531="7", _533="0", _58=AWAY)
    other = started(journal_of("B"), GATEWAYS, list(SYMBOLS["B"]))  # At another port, so that the edge doesn't come first.
    foreign(other.port, "DEF", 2, 3)
    other.kill()
    two.again("B")
    for number in "23":
        has(one.report(_17=f"B{number}"), _11=f"edge-lost-B{number}", _150="0")
    expect([value(one.report(_150="4", _11="m"), "41") for _ in "abc"], ["a", "edge-lost-B2", "edge-lost-B3"])
    for name in "xm":
        refused(one, name, "ClOrdID (11) was used before", "DEF")
    rest(one, "b", "DEF")
    one.settle()
    is_told_all({"C1": [one]})
    is_told_as_known({"C1": [one]})


def test_cancels_lost_on_their_way() -> None:
    """With CancelOnDisconnect cancels go to a venue that hangs, and is lost before it has read them: they are sent once more when it is
    back, though the engine is there again. What that has sent since the venue is back stays."""
    two = Two("C1", CancelOnDisconnect="Y")
    one, = on(two.port, 1)
    rest(one, "a")
    rest(one, "b", "DEF")
    one.settle()
    two.venues["B"].pause()
    one.close()
    for _ in SYMBOLS:
        two.edge.hears("C1: cancels 1 orders: the member is away")
    logs_on(one)
    has(one.report(_150="4"), _41="a")
    one.send("D", order("c", 1, 10, "50", "DEF"))
    one.settle()
    two.kill("B")
    two.again("B")
    has(one.report(_11="c"), _150="8", _58="edge: this request never reached the venue")
    has(one.report(_150="4"), _41="b")
    rest(one, "d", "DEF")
    one.settle()
    two.kill("B")
    two.again("B")
    one.send("H", "11=d|54=1|55=DEF|")
    has(one.report(_150="I"), _11="d", _39="0")
    is_told_all({"C1": [one]})


def test_cancel_of_all_beside_a_full_venue() -> None:
    """A cancel of all is taken while the first venue hangs, and as many requests as may be wait for it. The others cancel at once."""
    two = Two("C1", MaxRequestsUnderWay="1")
    one, = on(two.port, 1)
    rest(one, "a")
    rest(one, "b", "DEF")
    one.settle()
    two.venues["A"].pause()
    one.send("D", order("c", 1, 10, "50"))
    one.send("q", mass("m"))
    has(one.report(_35="r"), _11="m", _531="7", _533="3", _58=None)
    has(one.report(_150="4"), _11="m", _41="b")
    two.venues["A"].go_on()
    expect(sorted(sure(value(one.report(_150="4", _11="m"), "41")) for _ in "ac"), ["a", "c"])
    one.settle()
    is_told_all({"C1": [one]})


def test_cancel_of_all_beside_a_venue_without_numbers() -> None:
    """A cancel of all is taken where the first venue takes no greater number, which the answer says."""
    two = Two("C1")
    one, = on(two.port, 1)
    rest(one, "a")
    rest(one, "b", "DEF")
    one.settle()
    one.close()
    two.edge.stop()
    changed(1, f"UPDATE session SET last = {GREATEST}")
    two.edge_again()
    two.serves()
    logs_on(one)
    one.send("q", mass("m"))
    has(one.report(_35="r"), _11="m", _531="7", _533="1", _58="edge: A cancels nothing: the venue takes no greater number")
    has(one.report(_150="4"), _11="m", _41="b")


def failing_for(letter: str, act: str = "exit 1") -> str:
    """A program that reads journals as venue-events does, but for that of one venue, with which it does this: the file `times` has the
    moments at which it began with that."""
    with open("failing", "w", encoding="ascii") as file:
        file.write(f"#!/bin/sh\ncase $1 in {letter}.*) date +%s.%N >>times; {act} ;; esac\nexec {EVENTS} \"$@\"\n")
    os.chmod("failing", 0o755)
    return os.path.abspath("failing")


def read_more_rarely() -> None:
    """Waits until that journal has been read three times, and looks that the third time came later behind the second one than that
    behind the first one has to."""
    def times() -> list[float]:
        if not os.path.exists("times"):
            return []
        with open("times", encoding="ascii") as file:
            return [float(it) for it in file.read().split()]

    for count in range(1, 4):
        await_that(f"reading {count} of a journal", lambda: len(times()) >= count)
    _, second, third, *_ = times()
    if third - second < 2:
        raise Trouble(f"a journal that fails is read behind {third - second:.2f} s again")


def test_journal_that_cant_be_read() -> None:
    """A venue whose journal can't be read is tried more and more rarely: others wait for each of its readings."""
    two = Two("C1", wait=False)
    two.edge.kill()
    two.edge_again(VenueEvents=failing_for("B"))
    two.edge.hears("C1: B isn't served: venue-events can't read the journal B.journal: status 1")
    read_more_rarely()
    rest(logs_on(Engine(two.port)), "a")


def test_journal_that_lacks_what_was_copied() -> None:
    """A journal that lacks what was copied of it is read more and more rarely, and copies of the others go on."""
    two = Two("C1", COPIES, each={COPIES: {"DropCopyOf": "C1"}})
    one, copies = on(two.port, 1, 2)
    rest(one, "a", "DEF")
    shutil.copy(journal_of("B"), "older")
    rest(one, "b", "DEF")
    copies.report(_17="B2")
    one.settle()
    two.edge.stop()
    two.venues["B"].kill()
    os.replace("older", journal_of("B"))
    two.edge_again(VenueEvents=failing_for("B", ":"))
    two.edge.hears("D1: B the journal isn't read, and that begins anew: its store has report 2 of C1, which the journal hasn't")
    read_more_rarely()
    for it in (one, copies):
        logs_on(it)
    rest(one, "c")
    copies.report(_17="A1")


def test_reading_that_breaks_off() -> None:
    """What a journal tells in the middle of a reading that breaks off counts for no limit: it may have ended long ago."""
    two = Two("C1", MaxOpenOrders="2")
    one, = on(two.port, 1)
    for name in "ab":
        rest(one, name, "DEF")
    for name, original in ("c", "a"), ("d", "b"):
        one.send("F", cancel(name, original, 1, symbol="DEF"))
        one.report(_150="4")
    one.settle()
    one.close()
    two.edge.stop()
    two.edge_again(VenueEvents=failing_for("B", f"{EVENTS} \"$@\" | sed '/150=4/,$d'; exit 1"))
    for wanted in ("C1: A serves, ", "C1: B isn't served: venue-events can't read the journal B.journal: status 1"):  # In any order.
        await_that(wanted, lambda: any(wanted in it for it in two.edge.lines))
    logs_on(one)
    rest(one, "e")


def test_names_beside_a_venues_numbers() -> None:
    """What was refused at a venue that was away goes as other names do, however much it is. What is younger stays."""
    two = Two("C1")
    one, = on(two.port, 1)
    rest(one, "a", "DEF")
    one.settle()
    one.close()
    two.edge.stop()
    at, now = PLACES + BESIDE, int(time.time())
    changed(1, "INSERT INTO names WITH RECURSIVE n(i) AS (SELECT 0 UNION ALL SELECT i + 1 FROM n WHERE i < 1199) "
            f"SELECT {at} + i, 'x', 'old-' || i, {now - 100} FROM n", f"INSERT INTO names VALUES ({at + 1200}, 'x', 'young', {now})",
            f"UPDATE venues SET drop_before = {now - 50} WHERE place = 1")
    two.edge_again()
    two.serves()
    await_that("no old name", lambda: rows(1, "SELECT COUNT(*) FROM names WHERE name LIKE 'old-%'") == [(0,)])
    expect(rows(1, "SELECT name FROM names WHERE kind != 'p' ORDER BY name"), [("a",), ("young",)])
    logs_on(one)
    refused(one, "young", "ClOrdID (11) was used before", "DEF")


def test_quiet_moments_while_cancels_wait() -> None:
    """While cancels are kept for a venue that is away the record is tidied up in quiet moments."""
    two = Two("C1")
    one, = on(two.port, 1)
    rest(one, "a", "DEF")
    two.kill("B")
    one.send("q", mass("m"))
    has(one.report(_35="r"), _58=AWAY)
    for at in range(MANY):
        rest(one, f"b{at}")
    one.settle()
    await_that("few rows of turns", lambda: rows_of_turns() < MANY)


def taken_back(late: str) -> None:
    """A late venue's journal has what the record lacks, so what was told since the start is taken back: also that a request never reached
    the other venue, which is told anew."""
    first, = set(SYMBOLS) - {late}
    symbols = {letter: list(SYMBOLS[letter])[0] for letter in SYMBOLS}
    two = Two("C1")
    one, = on(two.port, 1)
    rest(one, "a", symbols[first])
    one.settle()
    one.close()
    two.edge.stop()
    foreign(two.ports[late], symbols[late])
    two.venues[late].kill()
    place, table = (0, "session") if first == "A" else (PLACES, "venues")
    last = rows(1, f"SELECT MAX(last) FROM {table}")[0][0] + 1
    changed(1, f"INSERT INTO names VALUES ({place + last}, 'r', 'lost', {int(time.time())})", f"UPDATE {table} SET last = {last}"
            + (" WHERE place = 1" if place else ""))
    two.edge_again()
    two.serves(first)
    two.edge.hears("C1: this request never reached the venue: lost")
    two.again(late)
    logs_on(one)
    has(one.report(_11="lost"), _150="8", _58="edge: this request never reached the venue")
    one.settle()
    is_told_all({"C1": [one]})


def test_taken_back_at_two_venues() -> None:
    """What the venue at the first place of the record was told to lack is taken back where the second one comes late."""
    taken_back("B")


def test_taken_back_at_the_first_venue() -> None:
    """The same of the second one where the first one comes late."""
    taken_back("A")


def test_new_day_and_a_late_venue() -> None:
    """A new day has begun before a venue comes whose journal has what the record lacks: what is told again in that day is told once, and
    numbers go up, since the record may be an older copy."""
    clock = Clock("2030-01-01 12:00:00")
    two = Two("C1", "C2", env=clock.env)
    one, other = on(two.port, 1, 2)
    rest(one, "a", more=GTC)
    one.settle()
    one.close()
    two.edge.stop()
    foreign(two.ports["B"], "DEF")
    two.venues["B"].kill()
    two.edge_again()
    two.serves("A")
    logs_on(other)
    other.send("D", order("s", 2, 4, "50"))
    other.report(_150="F", _11="s")
    await_that("the fill in the store", lambda: any(value(it, "150") == "F" for it in stored(1)))
    clock.put("2030-01-02 00:00:00")
    two.edge.hears(f"C1: a new day: {BEGUN}")
    await_that("the fill in the new day", lambda: any(value(it, "97") == "Y" for it in stored(1)))
    two.venues["B"] = two.venue("B")
    two.edge.hears(f"behind a gap of {STEP}, since messages may be lost: the journal has requests that it lacks")
    two.edge.hears("C1: B serves, behind report 1")
    one = Engine(two.port)
    logs_on(one)
    has(one.report(_17="B1"), _150="0")
    one.settle()
    expect([value(it, "97") for it in one.history if value(it, "150") == "F"], ["Y"])


def test_long_reading() -> None:
    """A venue whose journal is read for long keeps a Logon waiting for some seconds, and no longer."""
    two = Two("C1", wait=False)
    two.edge.kill()
    two.venues["B"].kill()
    two.edge_again(VenueEvents=slow_for("B"))
    two.serves("A")
    two.venues["B"] = two.venue("B")
    begins_to_read()
    begun, one = os.stat("reads").st_mtime, Engine(two.port)
    end = begun + LONG_READING / 2
    while not one.socket and time.time() < end:
        before = one.out
        try:
            one.log_on()
        except (Trouble, OSError):
            one.close()
            one.out = before
            time.sleep(0.1)
    if not one.socket or time.time() - begun < WAITS / 2:  # The file is there some moments behind the connection.
        raise Trouble(f"a Logon {time.time() - begun:.1f} s behind the beginning of the reading")
    rest(one, "a")
    refused(one, "b", "the venue isn't there", "DEF")


def test_exchanged_ports() -> None:
    """Ports of two venues that are exchanged are seen by the first order, before its answer is told. By the right ones all goes on."""
    two = Two("C1")
    two.edge.stop()
    two.edge_again(VenuePortA=two.ports["B"], VenuePortB=two.ports["A"])
    two.serves()
    one, = on(two.port, 1)
    one.send("D", order("a", 1, 10, "50"))
    two.edge.hears("C1: A isn't served: the venue at its port doesn't know ABC: VenuePortA is another one's")
    two.edge.stop()
    two.edge_again()
    two.serves()
    logs_on(one)
    has(one.report(_11="a"), _150="8", _58="edge: this request never reached the venue")
    for name, symbol in (("b", "ABC"), ("c", "DEF")):
        rest(one, name, symbol)
    is_told_all({"C1": [one]})


def test_ports_of_a_venue_with_orders() -> None:
    """Ports that are exchanged are seen, too, where the other venue has had requests of as great numbers, and where it tells of orders.
    Nothing of that is told then, nor by the right ports, where the journals have it; and what rests is known on."""
    two = Two("C1", COPIES, each={COPIES: {"DropCopyOf": "C1"}})
    one, copies = on(two.port, 1, 2)
    for name in "xyz":
        rest(one, name, "DEF")
    one.settle()
    two.edge.stop()
    two.edge_again(VenuePortA=two.ports["B"], VenuePortB=two.ports["A"])
    two.serves()
    logs_on(one)
    other = Client(two.ports["B"], 2).log_on()
    other.send("D", venue_order(1, 2, 4, 5000, "DEF"))
    two.edge.hears("C1: A isn't served: the venue at its port tells of DEF: VenuePortA is another one's")
    other.close()
    two.serves("A")
    one.send("D", order("a", 1, 10, "50"))
    for number in "12":  # The order, and what asks what has become of that.
        wanted = f"the venue at its port has had a request of the number {number}: VenuePortA is another one's"
        two.edge.hears(f"C1: A isn't served: {wanted}")
    for _ in range(2):
        two.edge.stop()
        two.edge_again()
        two.serves()
        for it in (one, copies):
            logs_on(it)
        one.settle()  # An answer behind a gap isn't sent again.
        one.send("H", "11=x|54=1|55=DEF|")
        has(one.report(_150="I"), _11="x", _39="1", _14="4")
        is_told_all({"C1": [one]})
        is_told_as_known({"C1": [one]})
        has_copies(copies, ("C1",), lambda _: {NAMES[1]})
        expect([value(it, "58") for it in one.history if value(it, "11") == "a"], ["edge: this request never reached the venue"])
        others = [it for it in one.history if value(it, "35") == "9" and not sure(value(it, "11")).startswith("edge-lost-")]
        expect(others, [])
    one.send("q", mass("m"))
    has(one.report(_35="r"), _533="3", _58=None)


def test_first_letter() -> None:
    """The record of a member who had one venue is of the venue with the symbols of that, whatever the order of the letters. A question
    about its numbers keeps nothing."""
    venue, edge, port = pair()
    one = Engine(port).log_on()
    rest(one, "a")
    one.settle()
    one.close()
    edge.stop()
    common = {**of_venues({"A": venue.port, "B": second_beside(venue)}), "VenueJournalA": JOURNAL, "Venues": "B A"}
    both = settings_of(common, [session("C1", 1, port)])
    with open("edge.cfg", "w", encoding="ascii") as file:
        file.write(both)
    expect((called("numbers C1")[0], [it for it in os.listdir("edge/C1") if it.endswith(".symbols")]), (0, ["C1.symbols"]))
    edge = Edge(both)
    edge.hears("C1: A serves, behind report 1")
    logs_on(one)
    has(rest(one, "b"), _17="A2")
    one.send("F", cancel("c", "a", 1))
    has(one.report(_150="4"), _41="a")
    expect(rows(1, "SELECT place, venue FROM venues ORDER BY place"), [(0, "A"), (1, "B")])


def test_commands_of_two_venues() -> None:
    """`gikvand verify` and `reports` take what a member's log has of the venue of a journal, and know it by that venue's ExecIDs."""
    two = Two("C1", "C2")
    one, other = on(two.port, 1, 2)
    for at, symbol in enumerate((*STEPS, *STEPS)):
        rest(one, f"a{at}", symbol, price="50")
    for symbol in STEPS:
        other.send("D", order(f"s{symbol}", 2, 4, "50", symbol))
        one.report(_150="F", _55=symbol)
    one.send("F", cancel("c", "a0", 1))
    one.report(_150="4")
    one.send("F", cancel("d", "a0", 1))
    has(one.report(_35="9"), _11="d", _37="NONE")
    refused(one, "e", "Symbol (55) isn't traded here", "NONE")
    is_told_all({"C1": [one], "C2": [other]})

    def gikvand(letter: str, *words: str) -> list[str]:
        more = ["--edge", "edge.cfg", "--symbols", ",".join(SYMBOLS[letter])]
        command = [sys.executable, os.path.join(ROOT, "scripts/gikvand"), *words, *more]
        ran = subprocess.run(command, capture_output=True, text=True, timeout=4 * PATIENCE)
        expect((ran.returncode, ran.stderr, ran.stdout[-600:] if ran.returncode else ""), (0, "", ""))
        return ran.stdout.splitlines()

    for letter in SYMBOLS:
        wanted = len(replay(journal_of(letter), "C1", tuple(SYMBOLS[letter]))[0])
        without = (re.sub(rf"\|(17|37)={letter}(?=\d)", r"|\1=", it) for it in one.history)  # As the member had it with one venue.
        before = [printed(framed(sure(MESSAGE.fullmatch(it))[1])) for it in without] if letter == "A" else one.history
        for at, messages in enumerate((one.history, before)):
            with open(f"log-{at}", "w", encoding="ascii") as file:
                file.write("".join(f"20260102-09:30:00.000 : {it}\n" for it in messages))
            line = next(it for it in gikvand(letter, "verify", journal_of(letter), f"C1=log-{at}") if it.startswith("C1: "))
            expect((letter, int(line.split()[1]), int(line.split()[-2])), (letter, wanted, 0))
        last = placed_in(one.history, letter)[-1]
        behind = [value(it, "17") for it in gikvand(letter, "reports", journal_of(letter), "C1", "--after", str(last - 1))]
        expect([it for it in behind if it], [f"{letter}{last}"])


def test_second_venue() -> None:
    """A member of one venue gets a second one: what rests at the first one rests on, under its name, and the record is of both from
    then on. Settings of one venue without a letter don't serve it any more; with its letter alone they do."""
    venue, edge, port = pair()
    one = Engine(port).log_on()
    has(rest(one, "a"), _17="1", _37="1")
    one.close()
    edge.stop()
    asked = "SELECT name FROM sqlite_master WHERE name = 'venues'"
    with contextlib.closing(sqlite3.connect(path_of(1))) as record:
        expect((record.execute("PRAGMA user_version").fetchall(), record.execute(asked).fetchall()), ([(4,)], []))
    alone, other_port = settings(), second_beside(venue)
    common = {**of_venues({"A": venue.port, "B": other_port}), "VenueJournalA": JOURNAL}
    both = settings_of(common, [session("C1", 1, port)])
    edge = Edge(both)
    edge.hears("C1: its requests at the venue B begin with 1: the record knows nothing of this venue")
    wanted = {"A serves, behind report 1", "B serves, behind report 0"}
    while wanted:
        wanted.discard(edge.hears(" serves, behind report ").partition("C1: ")[2])
    logs_on(one)
    has(rest(one, "b", "DEF"), _17="B1")
    one.send("F", cancel("c", "a", 1))
    has(one.report(_150="4"), _17="A2", _37="A1", _41="a")
    rest(one, "d")
    one.settle()
    edge.kill()
    edge = Edge(both)
    edge.hears("C1: A serves, behind report 3")
    logs_on(one)
    has(rest(one, "e"), _17="A4")
    edge.stop()
    with contextlib.closing(sqlite3.connect(path_of(1))) as record:
        expect(record.execute("PRAGMA user_version").fetchall(), [(6,)])
    edge = Edge(alone)
    edge.hears("C1: isn't served: edge/C1/C1.db: it is of the venues A B, and settings without Venues don't say which they mean")
    edge.kill()
    common = {**of_venues({"A": venue.port}, "A"), "VenueJournalA": JOURNAL}
    Edge(settings_of(common, [session("C1", 1, port)])).hears("C1: A serves, behind report 4")
    logs_on(one)
    has(rest(one, "f"), _17="A5")


def test_order_of_venues() -> None:
    """The order of the venues in the settings may change: what the record has is each venue's own, by its letter."""
    two = Two("C1")
    one, = on(two.port, 1)
    rest(one, "a")
    rest(one, "b", "DEF")
    one.settle()
    for letters in ("B A", "A B"):
        two.edge.kill()
        two.edge_again(Venues=letters)
        two.serves()
        logs_on(one)
        for name, symbol in ((f"c{letters[0]}", "ABC"), (f"d{letters[0]}", "DEF")):
            rest(one, name, symbol)
        one.settle()
    one.send("F", cancel("x", "b", 1, symbol="DEF"))
    has(one.report(_150="4"), _41="b", _37="B1")
    is_told_all({"C1": [one]})


def test_eight_venues() -> None:
    """As many venues as there may be stand behind one session, also behind a kill of the edge."""
    letters = "ABCDEFGH"
    common: Settings = {"VenueJournal": None, "Symbols": None, "Venues": " ".join(letters)}
    for letter in letters:
        venue = started(journal_of(letter), GATEWAYS, [f"S{letter}"])
        common |= {f"VenuePort{letter}": venue.port, f"VenueJournal{letter}": journal_of(letter), f"Symbols{letter}": f"S{letter}:1"}
    port = free_port(1)
    one = Engine(port)
    for number in (1, 2):
        edge, wanted = Edge(settings_of(common, [session("C1", 1, port)])), set(letters)
        while wanted:
            wanted.discard(edge.hears(" serves, behind report ").partition("C1: ")[2][:1])
        logs_on(one)
        for letter in letters:
            has(rest(one, f"{letter}-{number}", f"S{letter}"), _17=f"{letter}{number}", _37=f"{letter}{number}")
        one.settle()
        edge.kill()


def test_other_steps_of_a_venue() -> None:
    """The steps of each venue's symbols stay as they were, whichever venue stands in front."""
    two = Two("C1")
    two.edge.stop()
    two.edge_again(SymbolsB="DEF:0.1 GHI:1")
    expect(two.edge.status() != 0, True)
    line = "SymbolsB: have DEF:0.1, whose step was 0.01 (edge/C1/C1.B.symbols): what rests in the book would have other prices"
    expect([it for it in two.edge.lines if line in it] != [], True)
    two.edge_again(Venues="A C", VenuePortB=None, VenueJournalB=None, SymbolsB=None, VenuePortC=two.ports["B"], VenueJournalC=journal_of("B"),
                   SymbolsC="DEF:0.01 GHI:1")
    expect(two.edge.status() != 0, True)
    line = "Venues: lack B, where DEF was traded (edge/C1/C1.B.symbols): its reports would be told once more"
    expect([it for it in two.edge.lines if line in it] != [], True)


def test_limits_over_venues() -> None:
    """What is open at both venues counts for the limits of a member, also while one of them is away. Where that isn't known since a
    start, an order that a value bounds is refused."""
    two = Two("C1", MaxOpenValue="1000", MaxOpenOrders="3")
    one, = on(two.port, 1)
    rest(one, "a")
    rest(one, "b", "DEF")
    above = "the value of all that is open would be 1000.01, above MaxOpenValue (1000)"
    refused(one, "c", above, quantity=1, price="0.01")
    refused(one, "d", above, "DEF", 1, "0.01")
    two.kill("B")
    refused(one, "e", above, quantity=1, price="0.01")
    one.send("F", cancel("f", "a", 1))
    one.report(_150="4")
    rest(one, "g", quantity=1, price="1")
    rest(one, "h", quantity=1, price="1")
    refused(one, "i", "more than 3 open orders", quantity=1, price="1")
    two.edge.kill()
    two.edge_again()
    two.serves("A")
    logs_on(one)
    refused(one, "j", "MaxOpenValue (1000) can't be judged: the venue hasn't said what it has taken of before", quantity=1, price="1")
    one.send("F", cancel("k", "g", 1))
    one.report(_150="4")
    two.again("B")
    rest(one, "l", quantity=1, price="1")
    refused(one, "m", "more than 3 open orders", "DEF", 1, "1")


def test_day_over_venues() -> None:
    """At the end of a day what is Day ends at each venue, also at one that is away then: once it is back, and once."""
    clock = Clock("2030-01-01 23:59:00")
    two = Two("C1", env=clock.env)
    one, = on(two.port, 1)
    for name, symbol, more in (("a", "ABC", ""), ("b", "DEF", ""), ("c", "ABC", GTC), ("d", "DEF", GTC)):
        rest(one, name, symbol, more=more)
    one.settle()
    one.close()
    two.kill("B")
    clock.put("2030-01-02 00:00:00")
    two.edge.hears("C1: the day has ended: cancels 1 orders that are Day")
    two.edge.hears(f"C1: a new day: {BEGUN}")
    one = Engine(two.port).log_on()
    has(one.report(_150="C"), _11="a", _37="A1")
    two.again("B")
    has(one.report(_150="C"), _11="b", _37="B1")
    two.edge.kill()
    two.edge_again()
    two.serves()
    logs_on(one)
    for name, original, symbol in (("x", "c", "ABC"), ("y", "d", "DEF")):
        one.send("F", cancel(name, original, 1, symbol=symbol))
        has(one.report(_150="4"), _41=original)
    one.settle()
    expect([value(it, "11") for it in one.history if value(it, "150") == "C"], ["a", "b"])


def test_older_copy_and_a_late_venue() -> None:
    """An older copy of a record is put in its place, and the venue that would show that comes late: nothing that an engine was told is
    taken back, names of before are in doubt, and each report is told once."""
    two = Two("C1")
    one, = on(two.port, 1)
    rest(one, "a", "DEF")
    one.settle()
    one.close()
    two.edge.stop()
    shutil.copytree("edge/C1", "older")
    two.edge_again()
    two.serves()
    logs_on(one)
    rest(one, "b", "DEF")
    one.settle()
    one.close()
    two.edge.stop()
    shutil.rmtree("edge/C1")
    shutil.copytree("older", "edge/C1")
    changed(1)
    two.venues["B"].kill()
    two.edge_again()
    two.serves("A")
    one.next, one.out = rows(1, "SELECT sender, target FROM session")[0]  # An engine with a store of then, too.
    one.log_on()
    rest(one, "c")
    two.again("B")
    has(one.report(_150="0"), _11="edge-lost-B2", _17="B2")
    one.settle()
    expect(rows(1, "SELECT doubtful FROM session"), [(1,)])
    one.write("D", order("b", 1, 10, "50", "DEF"), one.out, "97=Y|")
    one.out += 1
    has(one.report(_11="b"), _150="8", _58="edge: it may have been passed on before, and its name lost: send a new one")
    rest(one, "d", "DEF")
    numbers = [int(sure(value(it, "34"))) for it in one.history]
    expect([later - it < STEP for it, later in zip(numbers, numbers[1:])], [True] * (len(numbers) - 1))


def requests(one: Engine, at: int, chance: random.Random, names: list[str], count: int = BATCH) -> None:
    """So many orders and cancels of an engine at both venues, by chance, that may trade."""
    for _ in range(count):
        name = f"{at}-{len(names)}"
        symbol = chance.choice(list(STEPS))
        names.append(name)
        if chance.random() < 0.2:
            one.send("F", cancel(name, chance.choice(names), 1, symbol=symbol))
        else:
            price = chance.choice(["49", "50", "51"])
            one.send("D", order(name, chance.choice([1, 2]), chance.randint(1, 9), price, symbol, GTC))


def test_kills_of_everything() -> None:
    """Members trade at both venues while the edge, each venue, single processes and all of them are killed: each report of each
    journal is told once and in order, and copied so, and each request is answered."""
    two = Two("C1", "C2", COPIES, each={COPIES: {"DropCopyOf": "C1 C2"}})
    one, other, copies = (Engine(two.port, at, sender=NAMES[at]).log_on() for at in (1, 2, 3))
    chance = random.Random(SEED)
    sent: dict[int, list[str]] = {1: [], 2: []}
    for kind in ["edge", "A", "B", "member", "copies", "all"] * ((LONG if os.environ.get("EDGE_LONG") else ROUNDS) // 6):
        for at, it in ((1, one), (2, other)):
            requests(it, at, chance, sent[at])
        time.sleep(chance.random() / 10)
        if kind in SYMBOLS or kind == "all":
            for letter in SYMBOLS if kind == "all" else kind:
                two.venues[letter].kill()
        if kind in ("edge", "all"):
            two.edge.kill()
        if kind in ("member", "copies"):
            os.kill(int(children_of(two.edge.process.pid)["C1" if kind == "member" else COPIES]), 9)
        for letter in SYMBOLS if kind == "all" else kind:
            if letter in SYMBOLS:
                two.venues[letter] = two.venue(letter)
        if kind in ("edge", "all"):
            two.edge_again()
        for it in (one, other, copies):
            logs_on(it)
    for at, it in ((1, one), (2, other)):
        await_that("each answer", lambda: it.pump(0.05) and set(sent[at]) <= {value(report, "11") for report in it.history})
    is_told_all({"C1": [one], "C2": [other]})
    is_told_as_known({"C1": [one], "C2": [other]})
    has_copies(copies, ("C1", "C2"), lambda member: {NAMES[int(member[1])]})


def test_sixty_four_sessions() -> None:
    """Sixty-four sessions, of eight members with eight desks each, trade at once over two venues, with the market to all of them. At
    each pause the books that each has built are those of `venue-replay book` of each venue, and a session of copies has each report
    once and in order, also behind kills of everything."""
    words = [f"C{k}" + (f".{desk}" if desk > 1 else "") for k in range(1, MEMBERS + 1) for desk in range(1, DESKS + 1)]
    copied = " ".join(f"C{k}" for k in range(1, MEMBERS + 1))
    two = Two(*words, COPIES, common={"MarketData": "Y", "MarketDataInterval": "50"}, each={COPIES: {"DropCopyOf": copied}})
    engines = on(two.port, *range(1, len(words) + 1))
    copies, = on(two.port, len(words) + 1)
    takers = [takes(it) for it in engines]
    of = {f"C{k}": engines[(k - 1) * DESKS:k * DESKS] for k in range(1, MEMBERS + 1)}
    chance, sent = random.Random(SEED), [list[str]() for _ in engines]

    def trade() -> None:
        for at, it in enumerate(engines):
            requests(it, at + 1, chance, sent[at], OF_SESSION)
        for at, it in enumerate(engines):
            await_that("each answer", lambda: it.pump(0.05) and set(sent[at]) <= {value(report, "11") for report in it.history})

    for _ in range(PAUSES):
        trade()
        has_books(takers)
    is_told_all(of)
    two.edge.kill()
    for letter in SYMBOLS:
        two.venues[letter].kill()
    for letter in SYMBOLS:
        two.venues[letter] = two.venue(letter)
    two.edge_again()
    two.serves()
    for it in (*engines, copies):
        logs_on(it)
    for taker in takers:
        taker.begin()
    trade()
    has_books(takers)
    is_told_all(of)
    has_copies(copies, of, lambda member: {it.sender for it in of[member]})


def test_market_of_two_venues() -> None:
    """A market of both venues is told as each has it. While one is away the other one's goes on, and a request of one moment waits."""
    two = Two("C1", MarketData="Y", MarketDataInterval="10")
    one, = on(two.port, 1)
    taker = takes(one)

    def put(name: str, price: str, symbol: str = "ABC") -> None:
        one.send("D", order(name, 1, 5, price, symbol))
        picked(one, _150="0", _11=name)
        has_books([taker])

    put("a", "50")
    put("b", "40", "DEF")
    one.send("V", asks("none", symbols=("ABC", "NONE")))
    has(picked(one, _35="Y"), _262="none", _281="0")
    two.kill("B")
    put("c", "49")
    one.send("V", asks("once", ONCE, update=None, symbols=("DEF", "XYZ")))
    picked(one, _262="once", _55="XYZ")
    one.settle()
    expect([it for it in one.reports if value(it, "262") == "once"], [])
    two.again("B")
    picked(one, _262="once", _55="DEF")
    put("d", "41", "DEF")


def test_settings_of_venues() -> None:
    """--check refuses what is double, missing or ambiguous of venues, with the setting and a text."""
    port = free_port(len(NAMES))

    def wrong(wanted: str, **changes: Any) -> None:
        common = {**of_venues({"A": 9001, "B": 9101}), **changes}
        status, out = said(settings_of(common, [session("C1", 1, port)]))
        expect((status, out), (1 if wanted else 0, wanted and f"gikvand-edge: {wanted}\n"))

    wrong("")
    wrong("", VenueHostB="192.0.2.7")
    wrong("", VenueEvents=None, VenueEventsA="/bin/true", VenueEventsB="/bin/true")
    wrong("Venues: has what isn't one capital: a", Venues="A a")
    wrong("Venues: has what isn't one capital: AB", Venues="AB")
    wrong("Venues: has one twice: A", Venues="A B A")
    wrong("Venues: has more than eight", Venues="A B C D E F G H I")
    wrong("Venues: is empty", Venues="")
    wrong("VenuePortC: is missing", Venues="A B C")
    wrong("VenuePortB: is of the venue B, which Venues doesn't have", Venues="A")
    wrong("VenuePort: is of a venue without a letter, and Venues has letters: name it VenuePortA", VenuePort=9001)
    wrong("Symbols: is of a venue without a letter, and Venues has letters: name it SymbolsA", Symbols="ABC:0.01")
    wrong("VenuePortA: is of the venue A, which Venues doesn't have", Venues=None, VenuePort=9001, VenueJournal="j", Symbols="Q:1")
    wrong("SymbolsB: has one twice: ABC", SymbolsB="ABC:0.01")
    wrong("SymbolsB: isn't of SYMBOL:STEP, as ABC:0.01: DEF", SymbolsB="DEF")
    wrong("VenueJournalB: A.journal is that of the venue A, too", VenueJournalB="A.journal")
    wrong("VenuePortB: 9008 is less than eight from that of the venue A: each member has a port at each venue", VenuePortB=9008)
    wrong("", VenuePortB=9008, VenueHostB="192.0.2.7")
    wrong("VenueHostB: is no address, as 127.0.0.1: venue", VenueHostB="venue")
    wrong("VenueEventsB: can't be used: none", VenueEventsB="none")
    wrong("VenuePorts2: is no setting", VenuePorts2="9001")


def test_example_of_two_venues() -> None:
    """The settings of `contrib/edge/examples` for two venues are right, with a dictionary, a program and passwords of here."""
    with open(os.path.join(ROOT, "contrib/edge/examples/two-venues.cfg"), encoding="ascii") as file:
        text = file.read()
    with open("passwords", "w", encoding="ascii") as file:
        file.write("desk-a:first\ndesk-b:second\n")
    os.chmod("passwords", 0o600)
    for old, new in (("/usr/bin/venue-events", EVENTS), ("/etc/gikvand-edge/C1.passwords", os.path.abspath("passwords")),
                     ("[DEFAULT]\n", f"[DEFAULT]\nDataDictionary={DICTIONARY}\n")):
        expect(text.count(old), 1)
        text = text.replace(old, new)
    expect(said(text), (0, ""))


TESTS = [test_two_venues, test_venue_away, test_operator_and_a_venue_away, test_venue_that_never_was, test_venue_that_hangs,
         test_venue_that_takes_nothing, test_venue_behind_a_tunnel, test_venue_that_closes, test_venue_that_is_lost_while_it_is_read,
         test_connection_that_isnt_made, test_cancels_for_a_venue_away, test_cancels_lost_on_their_way,
         test_cancel_of_all_beside_a_full_venue, test_cancel_of_all_beside_a_venue_without_numbers, test_refused_while_a_venue_is_away,
         test_late_venue_with_a_past, test_names_of_another_venue, test_names_beside_a_venues_numbers, test_kill_and_a_late_venue,
         test_damaged_record_of_venues, test_taken_back_at_two_venues, test_taken_back_at_the_first_venue, test_new_day_and_a_late_venue,
         test_long_reading, test_reading_that_breaks_off, test_journal_that_cant_be_read, test_journal_that_lacks_what_was_copied,
         test_quiet_moments_while_cancels_wait, test_exchanged_ports, test_ports_of_a_venue_with_orders, test_first_letter,
         test_commands_of_two_venues, test_second_venue, test_order_of_venues, test_eight_venues, test_other_steps_of_a_venue,
         test_limits_over_venues, test_day_over_venues, test_older_copy_and_a_late_venue, test_market_of_two_venues,
         test_settings_of_venues, test_example_of_two_venues, test_kills_of_everything, test_sixty_four_sessions]
