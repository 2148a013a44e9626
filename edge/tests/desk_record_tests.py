"""Desks beside one another: what a member's record and folder keep of each, and what one of them leaves to the others. An older copy,
settings that lack or swap desks, a long backlog and a venue that doesn't answer are each desk's own."""
import contextlib
import os
import re
import shutil
import sqlite3
import threading
import time

from copy_tests import await_more
from desk_tests import NOBODYS, Session, desks, has, names_told, on, put, refused, said, session, stored
from edges import EVENTS, PATIENCE, Edge, again, await_that, changed, path_of, rows, settings_of, venue_order
from engines import GTC, Engine, cancel, order
from gikvand.fix import value
from gikvand.words import sure
from limit_tests import events_by
from market import BEGUN, Market
from number_tests import too_low
from question_tests import lists
from recovery_tests import settings
from switch_tests import called, mass
from trading_tests import expect

PIECE = 1000  # Messages that are told again in one turn.
LONG, LONGER = 2 * PIECE + 300, 8 * PIECE + 300
AT_ONCE = 100  # Sales that the venue hasn't answered.
FAR = 100 * PIECE  # A number of a session.
LONGEST_PAUSE = 30  # Seconds between an end of a process and its next start.
ONE_PIECE = (  # Of a record: in its table of what is told again in pieces no more than one is kept.
    "CREATE TABLE owed (next INTEGER NOT NULL, last INTEGER NOT NULL, sender INTEGER NOT NULL, count INTEGER NOT NULL)",
    f"CREATE TRIGGER pieces BEFORE INSERT ON owed WHEN NEW.count > {PIECE} BEGIN SELECT raise(ABORT, 'none of these'); END")
PATIENCE_OF_DESKS, AFTER = 5, 4  # Seconds for which a desk waits for the venue, and behind which another one begins to wait.
KEPT = "edge/C1/C1.desks"


def begun_anew(folder: str = "edge") -> list[tuple[int, int]]:
    """What is told again in pieces, by the numbers of the desks: how many messages by now."""
    return [(int(desk), int(count)) for desk, count in rows(1, "SELECT rowid, count FROM owed", folder)]


def without(text: str, desk: int) -> str:
    """Settings without the session of this desk."""
    return "[SESSION]\n".join(it for it in text.split("[SESSION]\n") if f"Desk={desk}\n" not in it)


def test_numbers_on_an_older_copy() -> None:
    """Numbers that are set for one desk while the venue is away, on an older copy of the record, leave the gap to the other
    desks: what the record lacks is told to them behind that, and passed over by none."""
    venue, edge, port = desks("C1", "C1.2")
    one, two = on(port, 1, 2)
    put(one, "a", price="49")
    put(two, "a", price="48")
    for it in (one, two):
        it.settle()
        it.close()
    edge.stop()
    shutil.copytree("edge/C1", "older")
    edge = Edge(settings()).ready()
    one.log_on()
    two.log_on()
    put(one, "b", price="47")
    put(two, "b", price="46")
    for it in (one, two):
        it.settle()
        it.close()
    edge.stop()
    venue.kill()
    puts_back("older")
    edge = Edge(settings())
    edge.hears("C1: the venue: ")
    status, out, _ = called(f"numbers C1.2 6000 {two.out}")
    expect((status, out.partition(" instead")[0]), (0, "C1.2: DESK-B: next out 6000"))
    again(venue.port, 1)
    edge.hears("C1: serves, behind report")
    expect([it.split()[1] for it in edge.lines if ": its next number is " in it], ["C1:"])
    one.log_on()
    for number in ("3", "4"):
        has(one.report(_150="0"), _11=f"edge-lost-{number}", _58=NOBODYS)
    two.log_on()
    put(two, "c", price="45")
    has(one.report(_11="b", _150="8"), _58="edge: it may have been passed on before, and its name lost: send a new one")
    put(one, "c", price="45")
    number = rows(1, "SELECT sender FROM desks")[0][0]
    expect((one.next > PIECE, number == two.next, 6000 < two.next < 6100), (True, True, True))
    expect((names_told(one), names_told(two)), (["0 a", "0 b", "0 edge-lost-3", "0 edge-lost-4", "8 b", "0 c"], ["0 a", "0 b", "0 c"]))


def test_swapped_desks() -> None:
    """Each desk keeps its CompID: --check and a start refuse settings that give its number to another CompID, or its CompID
    another number, with a text. A member that never had several desks may have another CompID."""
    venue, edge, port = desks("C1")
    first, second = session("C1", 1, port), session("C1.2", 2, port)

    def text(*sessions: Session) -> str:
        return settings_of({"VenuePort": venue.port}, sessions)

    def wrong(wanted: str, *sessions: Session) -> None:
        status, out = said(text(*sessions))
        expect((status, out), (1 if wanted else 0, wanted and f"gikvand-edge: Desk: {wanted}\n"))

    def served(*sessions: Session) -> None:
        Edge(text(*sessions)).ready().stop()

    def kept() -> list[str]:
        with open(KEPT, encoding="ascii") as file:
            return file.read().splitlines()

    edge.stop()
    other = {**first, "TargetCompID": "DESK-Z Y"}
    wrong("", other)
    served(other)
    expect(kept(), ["1 DESK-Z Y"])
    served(first)
    swapped = [{**first, "TargetCompID": "DESK-B"}, {**second, "TargetCompID": "DESK-A"}]
    sent, missed = "its engine would be sent what another desk was told", "its engine would miss what it was told there"
    wrong(f"is 1 for DESK-B, and was that of DESK-A ({KEPT}): {sent}", *swapped)
    served(first, second)
    expect(kept(), ["1 DESK-A", "2 DESK-B"])
    wrong(f"is 1 for DESK-B, and was that of DESK-A ({KEPT}): {sent}", *swapped)
    wrong(f"is 1 for DESK-Z, and was that of DESK-A ({KEPT}): {sent}", {**first, "TargetCompID": "DESK-Z"}, second)
    edge = Edge(text(*swapped), words=("--member", "C1"))
    expect((edge.status(), edge.lines), (1, [f"gikvand-edge: C1: Desk: is 1 for DESK-B, and was that of DESK-A ({KEPT}): {sent}"]))
    served(first)
    expect(kept(), ["1 DESK-A", "2 DESK-B"])
    wrong(f"is 1 for DESK-B, and was that of DESK-A ({KEPT}): {sent}", {**first, "TargetCompID": "DESK-B"})
    wrong(f"is 2 for DESK-C, and was that of DESK-B ({KEPT}): {sent}", first, {**second, "TargetCompID": "DESK-C"})
    wrong(f"is 3 for DESK-B, and was 2 ({KEPT}): {missed}", first, {**second, "Desk": "3"})
    status, out, err = called("numbers C1")
    expect((status, out, f"its record can't be used: Desk: is 3 for DESK-B, and was 2 ({KEPT}): {missed}" in err), (1, "", True))
    wrong("", first, second)
    for bytes_ in ("", "2DESK-B\n", "9 DESK-B\n", "2 \n"):
        with open(KEPT, "w", encoding="ascii") as file:
            file.write(bytes_)
        wrong(f"which CompIDs they had can't be read: {KEPT}", first, second)
    os.remove(KEPT)  # As an edge of before had none.
    wrong("", *swapped)


def test_unreadable_desks_of_one_member() -> None:
    """Where the CompIDs of one member's desks can't be read, that member alone isn't served, and it is once they are right."""
    _, edge, port = desks("C1", "C1.2", "C2")
    edge.stop()
    with open(KEPT, encoding="ascii") as file:
        right = file.read()
    text, wrong = settings(), f"Desk: which CompIDs they had can't be read: {KEPT}"
    with open(KEPT, "w", encoding="ascii"):
        pass
    expect(said(text), (1, f"gikvand-edge: {wrong}\n"))
    edge = Edge(text)
    edge.hears("C2: serves, behind report")
    edge.hears(f"C1: {wrong}")  # (at each start of its process anew)
    on(port, 3)
    with open(KEPT, "w", encoding="ascii") as file:
        file.write(right)
    edge.hears("C1: serves, behind report", PATIENCE + LONGEST_PAUSE)
    on(port, 1, 2)


def test_limits_beside_a_desk_that_has_gone() -> None:
    """The orders of a desk that the settings don't have any more are none of the first one's: they stay when its client goes, and
    its limits don't count them. With its settings that desk goes on with them."""
    venue, edge, port = desks("C1", "C1.2")
    one, two = on(port, 1, 2)
    put(one, "a", price="48")
    put(two, "a", quantity=9)
    two.log_out()
    one.close()
    edge.stop()
    both = settings()
    bounds = {"CancelOnDisconnect": "Y", "MaxOpenOrders": "1", "MaxOpenValue": "800"}
    edge = Edge(settings_of({"VenuePort": venue.port}, [session("C1", 1, port, **bounds)])).ready()
    expect([it for it in edge.lines if "the member is away" in it], ["gikvand-edge: C1: cancels 1 orders: the member is away"])
    one.log_on()
    has(one.report(_150="4"), _41="a")
    put(one, "b")
    refused(one, "c", "more than 1 open orders", quantity=1)
    one.close()
    edge.hears("C1: cancels 1 orders: the member is away")
    one.log_on()
    has(one.report(_150="4"), _41="b")
    one.close()
    edge.stop()
    Edge(both).ready()
    two.log_on()
    two.send("F", cancel("x", "a", 1))
    has(two.report(_11="x"), _150="4", _41="a", _58=None)


def test_mass_cancel_of_a_desk_that_has_gone() -> None:
    """A mass cancel is carried out for its desk's orders also where the settings lack that desk when the venue is back. The first
    desk is told of them, by names that aren't its own."""
    venue, edge, port = desks("C1", "C1.2")
    one, two = on(port, 1, 2)
    put(one, "a")
    put(two, "a")
    put(two, "b", price="49")
    venue.pause()
    two.send("q", mass("m"))
    expect(value(two.report(_35="r"), "533"), "2")
    edge.kill()
    venue.kill()
    again(venue.port, 1)
    Edge(without(settings(), 2)).ready()
    one.close()
    one.log_on()
    came = [one.report(_150="4", _58=NOBODYS) for _ in "ab"]
    expect(sorted(sure(value(it, "41")) for it in came), ["edge-lost-2", "edge-lost-3"])
    expect([sure(value(it, "11"))[:10] for it in came], ["edge-lost-"] * 2)
    one.send("F", cancel("x", "a", 1))
    has(one.report(_11="x"), _150="4", _41="a")


def sell_many(market: Market, count: int) -> None:
    """Lets so many orders of one trade at 50, some at once."""
    while count:
        some = min(count, AT_ONCE)
        for _ in range(some):
            market.sold += 1
            market.seller.send("D", venue_order(market.sold, 2, 1, 5000))
        fills_ = 0
        while fills_ < some:
            fills_ += value(sure(market.seller.next()), "150") == "F"
        count -= some


def puts_back(folder: str) -> None:
    """An older copy of the first member's record is put in its place, so that nobody sees that by its time."""
    shutil.rmtree("edge/C1")
    shutil.copytree(folder, "edge/C1")
    changed(1)


def away_with(count: int) -> Market:
    """An edge with two desks, and many reports of an order of the second one, which is away. They take their time: it is noon."""
    market = Market("2030-01-01 12:00:00", others=lambda port: [session("C1.2", 2, port)], wait=False)
    market.edge.ready()
    two, = on(market.port, 2)
    put(two, "a", quantity=1000000, more=GTC)
    two.settle()
    two.close()
    await_that("its end", lambda: market.lines("C1.2: the client from"))
    sell_many(market, count)
    await_more("all is stored", lambda: fills(2), count)
    return market


def fills(desk: int) -> int:
    """So many trades the record has for the session of a desk."""
    return sum("|150=F|" in it for it in stored(1, desk))


def test_long_backlog_of_a_desk() -> None:
    """What a desk wasn't sent in its day is told again in pieces, of which each is kept: neither a fault nor a kill leaves one
    out, or tells one twice."""
    market = away_with(LONG)
    market.edge.stop()
    changed(1, *ONE_PIECE)
    market.clock.put("2030-01-02 00:00:00")
    text = settings()
    edge = Edge(text, env=market.clock.env)
    edge.hears("C1: isn't served: edge/C1/C1.db: none of these")
    expect(edge.lines.count(f"gikvand-edge: C1.2: a new day: {BEGUN}"), 1)
    words = r"; C1\.2 \(DESK-B\): away, 0 bytes not taken, numbers since 20300102-00:\d\d:\d\d, is told again what it wasn't sent$"
    expect(bool(re.search(words, called("status C1")[1].rstrip())), True)
    edge.kill()
    expect((rows(1, "SELECT sender FROM desks"), begun_anew()), ([(PIECE + 1,)], [(2, PIECE)]))
    changed(1, "DROP TRIGGER pieces")
    edge = Edge(text, env=market.clock.env)
    edge.hears(f"C1.2: {LONG} reports that it wasn't sent are told again")
    edge.hears("C1: serves, behind report")
    two, = on(market.port, 2)
    two.settle()
    shown = [(value(it, "34"), value(it, "97"), value(it, "151")) for it in two.history]
    expect(shown, [(str(at), "Y", str(1000000 - at)) for at in range(1, LONG + 1)])
    expect((begun_anew(), "told again" in called("status C1")[1]), ([], False))


def test_backlog_of_a_desk_that_has_gone() -> None:
    """What a desk wasn't told again yet in its new day stays, where the settings lack that desk and an older copy of the record is put
    back: with its settings it is told all of that."""
    market = away_with(LONG)
    market.edge.stop()
    changed(1, *ONE_PIECE)
    market.clock.put("2030-01-02 00:00:00")
    both = settings()
    edge = Edge(both, env=market.clock.env)
    edge.hears("C1: isn't served: edge/C1/C1.db: none of these")
    edge.kill()
    changed(1, "DROP TRIGGER pieces")
    expect(begun_anew(), [(2, PIECE)])
    shutil.copytree("edge/C1", "older", ignore=shutil.ignore_patterns("*.control", "*.copies"))  # Sockets.
    edge = Edge(without(both, 2), env=market.clock.env).ready()
    one, = on(market.port, 1)
    put(one, "b", price="40")
    one.settle()
    one.close()
    edge.stop()
    puts_back("older")
    edge = Edge(without(both, 2), env=market.clock.env)
    edge.hears("since messages may be lost: the journal has requests that it lacks")
    edge.hears("C1: serves, behind report")
    edge.stop()
    edge = Edge(both, env=market.clock.env)
    edge.hears(f"C1.2: {LONG} reports that it wasn't sent are told again")
    edge.hears("C1: serves, behind report")
    two, = on(market.port, 2)
    two.settle()
    shown = [(value(it, "97"), value(it, "151")) for it in two.history]
    expect(shown, [("Y", str(1000000 - at)) for at in range(1, LONG + 1)])


def test_far_backlog_of_a_desk() -> None:
    """However far the numbers go of what a desk wasn't sent, its client is read again soon: the messages cost that are there, and not
    the numbers."""
    _, edge, port = desks("C1", "C1.2", MaxReadMessagesPerSecond="1000")
    two, = on(port, 2)
    put(two, "a")
    two.settle()
    two.close()
    edge.stop()
    changed(1, f"UPDATE desks SET sender = {FAR}")
    edge = Edge(settings()).ready()
    two.next = FAR + PIECE
    too_low(two, two.next)
    edge.hears(f"C1.2: its engine expects number {two.next} where {FAR + 2} is next, as if in another day: the numbers go on with {two.next}")
    await_that("all is looked through", lambda: begun_anew() == [])
    two.log_on()
    put(two, "b")


IN_PART = """[ "$2" = once ] && [ -e held ] && {{
    '{events}' "$@" >all || exit 1
    sed '/^output .* C1 .*|150=F|/q' all
    while [ -e held ]; do sleep 0.05; done
    sed '1,/^output .* C1 .*|150=F|/d' all
    exit
}}"""


def read_in_part() -> tuple[Market, Edge, Engine, Engine]:
    """An edge with two desks on an older copy of their record. It has read the journal up to a trade of the first one that the copy
    lacks, in front of a request that it lacks, too, and waits there as long as the file `held` is there; and both engines, which are away."""
    market = Market("2030-01-01 12:00:00", others=lambda port: [session("C1.2", 2, port)], wait=False)
    market.edge.ready()
    one, two = on(market.port, 1, 2)
    put(one, "a", more=GTC)
    put(two, "a", price="48", more=GTC)
    for it in (one, two):
        it.settle()
        it.close()
    market.edge.stop()
    shutil.copytree("edge/C1", "older")
    edge = Edge(settings(), env=market.clock.env).ready()
    one.log_on()
    market.sell()
    one.report(_150="F")
    put(one, "b", price="47")
    one.settle()
    one.close()
    edge.stop()
    puts_back("older")
    with open("held", "w", encoding="ascii"):
        pass
    market.edge = Edge(settings().replace(EVENTS, events_by(IN_PART.format(events=EVENTS))), env=market.clock.env)
    await_that("a part of the journal", lambda: fills(1) == 1)
    return market, market.edge, one, two


def is_told_once(edge: Edge, one: Engine, two: Engine) -> None:
    """The rest of the journal comes, and each report is in the record once, by which both engines go on."""
    os.remove("held")
    edge.hears("since messages may be lost: the journal has requests that it lacks")
    edge.hears("C1: serves, behind report")
    expect((fills(1), fills(2)), (1, 0))
    for it in (one, two):
        it.log_on()
    has(one.report(_150="0", _58=NOBODYS), _11="edge-lost-3")
    put(one, "c", price="46")
    put(two, "c", price="46")


def test_numbers_while_the_journal_is_read() -> None:
    """No numbers are set while the journal is read and something of that is told, which may be taken back."""
    _, edge, one, two = read_in_part()
    status, out, err = called(f"numbers C1.1 6000 {one.out}")
    expect((status, out, "the journal isn't read to its end yet: ask once more: nothing was changed" in err), (1, "", True))
    is_told_once(edge, one, two)
    for it in (one, two):
        it.log_out()
    edge.hears("C1.2: the client from")
    status, out, _ = called(f"numbers C1.1 6000 {one.out}")
    expect((status, out.partition(" instead")[0]), (0, "C1.1: DESK-A: next out 6000"))


def test_day_while_the_journal_is_read() -> None:
    """Nor does a day end before that is read: then it does."""
    market, edge, one, two = read_in_part()
    before = rows(1, "SELECT created FROM session")
    market.clock.put("2030-01-02 00:00:00")
    expect(called("numbers C1")[0], 0)  # It is answered behind a look at the day.
    expect((market.days(1), rows(1, "SELECT created FROM session")), ([], before))
    os.remove("held")
    edge.hears("C1: serves, behind report")
    await_that("a new day", lambda: market.days(1))
    expect((len(market.days(1)), fills(1), fills(2)), (1, 1, 0))


def test_trades_beside_a_long_backlog() -> None:
    """While a desk is told again in pieces another one is answered, and what the venue tells the first one meanwhile comes behind
    all of that: each report once, in the venue's order."""
    market = away_with(LONGER)
    is_over, count = threading.Event(), 0

    def trade() -> None:
        while not is_over.is_set():
            market.sell()

    trader = threading.Thread(target=trade, daemon=True)
    trader.start()
    market.clock.put("2030-01-02 00:00:00")
    await_that("a new day", lambda: market.lines("C1: a new day: "))
    one, = on(market.port, 1)
    while not market.lines(" reports that it wasn't sent are told again"):
        count += 1
        one.send("D", order(f"b{count}", 1, 1, "40"))
        one.pump(0.005)
    is_over.set()
    trader.join()
    put(one, "last", price="40")
    expect(names_told(one), [*(f"0 b{at}" for at in range(1, count + 1)), "0 last"])
    two, = on(market.port, 2)

    def came() -> list[str]:
        return [it for it in two.history if value(it, "150") == "F"]

    await_more("all reports", lambda: two.pump(0.05) and len(came()), market.sold)
    two.settle()
    marked = [value(it, "97") for it in came()]
    expect([value(it, "151") for it in came()], [str(1000000 - at) for at in range(1, market.sold + 1)])
    expect((marked, marked.count("Y") >= LONGER), (["Y"] * marked.count("Y") + [None] * marked.count(None), True))


def test_look_that_adds_no_desk() -> None:
    """Who only looks at the numbers of a member, where no process runs, changes nothing: a desk that is new in the settings comes
    into the record with the first start."""
    _, edge, port = desks("C1")
    one, = on(port, 1)
    put(one, "a")
    one.log_out()
    edge.stop()
    text = settings() + "[SESSION]" + settings_of({}, [session("C1.2", 2, port)]).partition("[SESSION]")[2]
    with open("edge.cfg", "w", encoding="ascii") as file:
        file.write(text)

    def known() -> tuple[list[tuple[int]], int, str]:
        with contextlib.closing(sqlite3.connect(path_of(1))) as record, open(KEPT, encoding="ascii") as file:
            tables = record.execute("SELECT name FROM sqlite_master WHERE name = 'desks'").fetchall()
            return record.execute("PRAGMA user_version").fetchall(), len(tables), file.read()

    before = known()
    status, out, _ = called("numbers C1")
    expect((status, out), (0, "C1: DESK-A: next out 4, next in 4; DESK-B: next out 1, next in 1\n"))
    expect((before, known()), (([(4,)], 0, "1 DESK-A\n"), before))
    Edge(text).ready().stop()
    expect(known(), ([(5,)], 1, "1 DESK-A\n2 DESK-B\n"))


def test_patience_of_each_desk() -> None:
    """A desk whose requests wait for a venue that doesn't answer is read again behind five seconds of its own, whenever another one has
    begun to wait."""
    venue, _, port = desks("C1", "C1.2", MaxRequestsUnderWay="1")
    one, two = on(port, 1, 2)
    count = 0

    def is_read_in_time() -> bool:
        nonlocal count
        count += 1
        venue.pause()
        one.send("D", order(f"a{count}", 1, 1, "50"))
        one.send("D", order(f"b{count}", 1, 1, "50"))
        time.sleep(AFTER)
        since = time.monotonic()
        two.send("D", order(f"a{count}", 1, 1, "50"))
        text = "edge: 1 requests wait for the venue, which doesn't answer"
        expect(value(one.report(_11=f"b{count}"), "58"), text)
        waited = time.monotonic() - since
        venue.go_on()
        one.report(_150="0", _11=f"a{count}")
        two.report(_150="0", _11=f"a{count}")
        return waited < PATIENCE_OF_DESKS  # Where the other one held it up it has waited for longer.

    await_that("a desk that is read again", is_read_in_time)


def test_value_of_all_desks_told() -> None:
    """What all desks together may have open is a limit as each other one: a list of symbols has it, and what it has refused is
    counted under its own name."""
    _, _, port = desks("C1", "C1.2", MemberMaxOpenValue="700")
    one, two = on(port, 1, 2)
    put(one, "a")
    refused(two, "a", "the value of all that its member has open would be 1000, above MemberMaxOpenValue (700)")
    _, symbols = lists(two, "l")
    expect({name: it for name, it in symbols["ABC"].items() if "Value" in name}, {"MemberMaxOpenValue": "700"})
    status, out, _ = called("status C1")
    expect((status, "2 requests, 1 refused by the edge (1 by MemberMaxOpenValue), " in out), (0, True))


TESTS = [test_numbers_on_an_older_copy, test_swapped_desks, test_unreadable_desks_of_one_member,
         test_limits_beside_a_desk_that_has_gone, test_mass_cancel_of_a_desk_that_has_gone, test_long_backlog_of_a_desk,
         test_backlog_of_a_desk_that_has_gone, test_far_backlog_of_a_desk, test_numbers_while_the_journal_is_read,
         test_day_while_the_journal_is_read, test_trades_beside_a_long_backlog, test_look_that_adds_no_desk, test_patience_of_each_desk,
         test_value_of_all_desks_told]
