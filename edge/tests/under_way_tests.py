"""What happens between two messages: requests that the venue hasn't answered when their member goes or has as many orders
as it may, a request that the venue rejects, and what the venue sends while its journal is read."""
import contextlib
import os
import socket
import sqlite3
import tempfile
import threading
import time

from bounds_tests import most_memory
from edges import EVENTS, HOST, JOURNAL, PATIENCE, SYMBOLS, Edge, Trouble, Venue, await_that, copied, free_port, members_of, pair
from edges import replay, rows, settings_of, started, stored
from engines import Engine, at_once, at_rest, cancel, order, replace
from gikvand.fix import framed, value
from recovery_tests import SLOW_EVENTS, places, restarted
from relay import Relay
from trading_tests import expect

TIME = "20250102-09:30:00"
FLOOD, TEXT = 70_000, 1000  # Reports of the venue that come while the journal is read, and bytes in the text of each.
MOST_MEMORY = 64 << 20
MOST_STEPS = 1_000_000  # Of a price of the venue.
UNTIDY = 100            # Requests of which the names alone are so many that a quiet moment puts them into the tables.


def resting(commands: int) -> list[str]:
    """What rests, as soon as the journal has so many commands."""
    await_that(f"{commands} commands", lambda: replay(JOURNAL, "book", tuple(SYMBOLS))[1][0] >= commands)
    return replay(JOURNAL, "book", tuple(SYMBOLS))[0]


def goes(venue: Venue, edge: Edge, one: Engine, cancels: int, commands: int) -> None:
    """A member goes while its venue stands still: so many of its orders are cancelled, and nothing rests behind that."""
    one.settle()
    one.close()
    edge.hears(f"C1: cancels {cancels} orders: the member is away")
    venue.go_on()
    expect(resting(commands), [])


def test_goes_with_an_order() -> None:
    """An order that the venue hasn't answered when its member goes is cancelled, as one that rests is."""
    venue, edge, port = pair(CancelOnDisconnect="Y")
    one = Engine(port, 1).log_on()
    venue.pause()
    one.send("D", order("a", 1, 5, "49"))
    goes(venue, edge, one, 1, 2)


def test_goes_with_a_replace() -> None:
    """A replace that the venue hasn't answered when its member goes leaves nothing behind, by the new name or the old."""
    venue, edge, port = pair(CancelOnDisconnect="Y")
    one = at_rest(port, "a", 5)
    venue.pause()
    one.send("G", replace("b", "a", 1, 6, "50"))
    goes(venue, edge, one, 2, 4)


def test_goes_with_a_cancel() -> None:
    """A cancel that the venue hasn't answered when its member goes is no order, and isn't cancelled."""
    venue, edge, port = pair(CancelOnDisconnect="Y")
    one = at_rest(port, "a", 5)
    venue.pause()
    one.send("F", cancel("b", "a", 1))
    goes(venue, edge, one, 1, 3)


def test_unanswered_orders_count() -> None:
    """Orders that the venue hasn't answered are open ones; a cancel that it hasn't answered is none."""
    venue, edge, port = pair(MaxOpenOrders="2")
    one = at_rest(port, "a")
    venue.pause()
    one.send("F", cancel("x", "a", 2))  # The wrong side: the venue refuses it.
    one.send("D", order("b", 1, 1, "50"))
    one.send("D", order("c", 1, 1, "50"))
    expect(value(one.report(_150="8"), "58"), "edge: more than 2 open orders")
    venue.go_on()
    one.report(_150="0", _11="b")
    expect([value(it, "11") for it in one.history], ["a", "c", "x", "b"])


def test_rate_behind_a_pause() -> None:
    """A member that has sent nothing for long may send no more at once for that."""
    venue, edge, port = pair(MaxMessagesPerSecond="5")
    one = at_rest(port, "a")
    time.sleep(5)
    begin = time.monotonic()
    at_once(one, *(("D", order(f"b{at}", 1, 1, "50")) for at in range(28)))
    one.report(_11="b27")
    taken, most = sum(value(it, "150") == "0" for it in one.history[1:]), 6 + 5 * (time.monotonic() - begin)
    if taken > most:
        raise Trouble(f"{taken} requests were taken at once, where {most:.0f} are the most")


class Spoiler(Relay):
    """A relay in front of the venue, which changes a field of the request with this number."""

    def __init__(self, venue: Venue, number: str, old: str, new: str) -> None:
        super().__init__(free_port(1), venue.port)
        self.number: str | None = number
        self.old, self.new = old, new
        self.start()

    def pass_on(self, text: str, is_members: bool, to: socket.socket) -> bool:
        if is_members and value(text, "35") == "D" and value(text, "11") == self.number:
            fields = text.partition("|35=")[2].rpartition("10=")[0]
            fields = fields.replace(f"|{self.old}|", f"|{self.new}|")
            text, self.number = framed(f"35={fields}").decode("ascii").replace("\x01", "|"), None
        return super().pass_on(text, is_members, to)


def spoiled(number: str, old: str, new: str, **more: str) -> tuple[Venue, Spoiler, Edge, int]:
    """A venue, a relay in front of it that changes a field of this request, an edge that takes the relay for the venue,
    and the edge's port."""
    venue, port = started(JOURNAL, 1, list(SYMBOLS)), free_port(1)
    relay = Spoiler(venue, number, old, new)
    edge = Edge(settings_of({"VenuePort": relay.door.getsockname()[1]}, members_of(1, port, **more))).ready()
    return venue, relay, edge, port


def test_rejected_by_the_venue() -> None:
    """A request that the venue rejects as a message: its member is told that, once, also where the edge is started anew;
    the name stays used, and the request isn't under way any more."""
    venue, relay, edge, port = spoiled("2", "40=2", "40=P", MaxOpenOrders="3")
    one = at_rest(port, "a")
    one.send("D", order("b", 1, 1, "50"))
    told = one.report(_11="b")
    expect([value(told, tag) for tag in ("150", "39", "58")],
           ["8", "8", "edge: the venue rejected field 40 of this request, by reason 5"])
    edge.kill()
    edge = restarted()
    one.close()
    one.log_on().settle()
    expect([value(it, "11") for it in one.history], ["a", "b"])
    one.send("D", order("b", 1, 1, "50"))
    expect(value(one.report(_11="b"), "103"), "6")
    relay.number = "3"
    one.send("D", order("c", 1, 1, "50"))
    one.report(_150="8", _11="c")
    for name in ("d", "e"):
        one.send("D", order(name, 1, 1, "50"))
        one.report(_150="0", _11=name)


def test_ended_by_the_venue() -> None:
    """The venue ends its session with the edge: the edge says what the venue says, and comes back; the request that was
    the cause is told as one that never reached the venue."""
    venue, relay, edge, port = spoiled("2", "49=C1", "49=C2")
    one = at_rest(port, "a")
    one.send("D", order("b", 1, 1, "50"))
    line = edge.hears("C1: the venue: it ended the session: ")
    if line.endswith(": "):
        raise Trouble(f"the line doesn't say why: {line}")
    expect(value(one.report(_11="b"), "58"), "edge: this request never reached the venue")
    one.send("D", order("c", 1, 1, "50"))
    one.report(_150="0", _11="c")


def report(number: int, more: str) -> str:
    """The fields of a report of the venue with this ExecID."""
    return (f"11=1|17={number}|37=1|38=1000000|39=1|54=1|55=ABC|150=F|151={1000000 - number}|14={number}|6=5000|31=5000|32=1|"
            f"44=5000|{more}")


class Flood(threading.Thread):
    """A stand-in of the venue, which answers Logons, and has so many reports to tell behind the first."""

    def __init__(self, count: int) -> None:
        super().__init__(daemon=True)
        self.door = socket.create_server((HOST, 0))
        self.door.settimeout(PATIENCE)
        self.port, self.count, self.sent = self.door.getsockname()[1], count, 0
        self.start()

    def run(self) -> None:
        with self.door, contextlib.suppress(OSError):
            while True:
                with self.door.accept()[0] as edge:
                    self.serve(edge)

    def serve(self, edge: socket.socket) -> None:
        head = f"49=VENUE|56=C1|34=1|52={TIME}|"
        edge.recv(65536)
        edge.sendall(framed(f"35=A|{head}98=0|108=0|141=Y|"))
        while self.sent < self.count:
            edge.sendall(framed(f"35=8|{head}{report(self.sent + 1, f'58={TEXT * chr(120)}|')}"))
            self.sent += 1
        while edge.recv(65536):
            pass

    def stands_still(self) -> None:
        """Waits until the edge takes no more, or has taken all."""
        before = -1
        while before < self.sent < self.count:
            before = self.sent
            time.sleep(1)


def are_stored(count: int) -> None:
    """Waits until the record of C1 has so many reports, as long as they come."""
    before, end = -1, time.monotonic() + PATIENCE
    while (found := rows(1, "SELECT report FROM session")[0][0]) < count:
        end = time.monotonic() + PATIENCE if found > before else end
        before = found
        if time.monotonic() > end:
            raise Trouble(f"{found} reports are stored, and no more come")
        time.sleep(0.2)


def test_flood_meanwhile() -> None:
    """Of what the venue tells while its journal is read little is held, and the rest is left to the venue, which keeps it:
    the member's process stays below its bound, and each report is told once, in order."""
    with open("slow-events", "w", encoding="ascii") as file:
        file.write(SLOW_EVENTS.format(events=EVENTS))
    os.chmod("slow-events", 0o755)
    started(JOURNAL, 1, list(SYMBOLS)).stop()
    flood = Flood(FLOOD)
    common = {"VenuePort": flood.port, "VenueEvents": os.path.abspath("slow-events")}
    edge = Edge(settings_of(common, members_of(1, free_port(1))))
    await_that("a reading", lambda: os.path.exists("read"))
    flood.stands_still()
    open("go", "w", encoding="ascii").close()
    edge.ready()
    are_stored(FLOOD)
    if (most := most_memory(edge)) > MOST_MEMORY:
        raise Trouble(f"{most >> 20} MB of memory")
    expect(places(1), list(range(1, FLOOD + 1)))
    late = ("no answer to the Logon", "it takes the Logon at last")  # Where the stand-in itself stood still for seconds.
    wrong = [line for line in edge.lines if "the venue:" in line or "isn't served" in line]
    expect([line for line in wrong if not any(it in line for it in late)], [])


def tabled(member: int) -> int:
    """How many names the table of a member's record has at this moment, without those that turns have kept."""
    with tempfile.TemporaryDirectory(prefix="record-") as place:
        with contextlib.closing(sqlite3.connect(copied(member, place))) as record:
            return record.execute("SELECT count(*) FROM names").fetchone()[0]


def test_untidy_meanwhile() -> None:
    """While the venue has requests to answer, what turns have kept stays in their rows: an answer would have to wait for more.
    Behind the last answer it comes into the tables."""
    venue, edge, port = pair()
    one = Engine(port, 1).log_on()
    venue.pause()
    for at in range(UNTIDY):
        one.send("D", order(f"u{at}", 1, 1, "50"))
    for _ in range(3):
        one.settle()
        time.sleep(0.1)  # A quiet moment, but for the venue.
    expect(tabled(1), 0)
    venue.go_on()
    one.report(_150="0", _11=f"u{UNTIDY - 1}")
    await_that(f"{UNTIDY} names in their table", lambda: tabled(1) == UNTIDY)
    expect(places(1), list(range(1, UNTIDY + 1)))


def test_prices_out_of_bounds() -> None:
    """A price that the venue can't have isn't told, and its member isn't served; the greatest that there is is told."""
    started(JOURNAL, 1, list(SYMBOLS)).stop()
    venue, made_up = Flood(0), report(1, "").replace("44=5000|", "44=%d|").replace("55=ABC", "55=XYZ")

    def journal_has(steps: int) -> None:
        with open("events.new", "w", encoding="ascii") as file:
            file.write(f"#!/bin/sh\necho 'output 0 C1 35=8|52={TIME}|{made_up % steps}'\n")
        os.chmod("events.new", 0o755)
        os.replace("events.new", "made-up-events")
    journal_has(MOST_STEPS + 1)
    edge = Edge(settings_of({"VenuePort": venue.port, "VenueEvents": os.path.abspath("made-up-events")},
                            members_of(1, free_port(1))))
    edge.hears(f"C1: isn't served: no price of the venue: {MOST_STEPS + 1}")
    expect(stored(1), [])
    journal_has(MOST_STEPS)
    edge.hears("C1: serves, behind report 1")
    expect([value(it, "44") for it in stored(1)], ["250000.00"])


TESTS = [test_goes_with_an_order, test_goes_with_a_replace, test_goes_with_a_cancel, test_unanswered_orders_count,
         test_rate_behind_a_pause, test_rejected_by_the_venue, test_ended_by_the_venue, test_flood_meanwhile,
         test_untidy_meanwhile, test_prices_out_of_bounds]
