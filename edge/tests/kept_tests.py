"""What is kept of a member: the names of its requests, as long as they are needed, its messages and its numbers."""
import contextlib
import glob
import os
import signal
import sqlite3
import time

import sanitized
from doubt_tests import sender
from edges import NAMES, PATIENCE, Client, Edge, Trouble, again, await_that, changed, free_port, freeze, pair, path_of
from edges import rows, stored, told, venue_order
from engines import Engine, at_rest, cancel, now, order
from gikvand.fix import value
from gikvand.words import sure
from recovery_tests import places, restarted, settings
from trading_tests import expect

FAR = 1795790321850  # A ClOrdID as scripts/trade gives them, of the time.
GREATEST = 999999999999999
MANY = 1100          # Names, of which the edge has some 1000 at hand.
MEMORY = 60 << 20    # Bytes that the process of a member may take.
AT_ONCE = 500        # Names that are looked at in one go, to be dropped.


def memory(edge: Edge) -> int:
    """The most bytes that the process of C1 has taken; 0 where that tells nothing."""
    if not sanitized.is_measured():
        return 0
    with open(f"/proc/{edge.process_of(1)}/status", encoding="ascii") as file:
        return next(int(line.split()[1]) * 1024 for line in file if line.startswith("VmHWM"))


def test_far_number() -> None:
    """Somebody else has used a member's port, with a number far above, and a request was lost before: members start,
    the lost one is told, and the foreign order can be cancelled by a name that stands for its number."""
    venue, edge, port = pair(2)
    one = at_rest(port, "a")
    venue.pause()
    one.send("D", order("lost", 1, 1, "50"))
    one.settle()
    edge.kill()
    venue.kill()
    again(port, 2, venue.port)
    foreign = Client(venue.port, 1).log_on()
    foreign.send("D", venue_order(FAR, 1, 7, 4900))
    foreign.next()
    foreign.close()
    edge = Edge(settings())
    edge.hears(f"C1: the journal has 1 requests, up to the number {FAR}, whose names aren't here")
    edge.hears("C1: serves")
    edge.hears("C1: this request never reached the venue: lost")
    one.close()
    one.log_on()
    expect(value(one.report(_150="0"), "11"), f"edge-lost-{FAR}")
    one.report(_150="8", _11="lost")
    one.send("F", cancel("c", f"edge-lost-{FAR}", 1, 7))
    one.report(_150="4", _11="c")
    one.send("F", cancel("d", f"edge-lost-{FAR}x", 1, 7))
    expect(value(one.report(_35="9"), "58"), "edge: OrigClOrdID (41) is of no order")
    expect([it for it in told(1) if int(sure(value(it, "11"))) > FAR][-1].split("|11=")[1].split("|")[0], str(FAR + 2))
    if memory(edge) > MEMORY:
        raise Trouble(f"the process of C1 took {memory(edge)} bytes")
    at_rest(port, "other", member=2)
    edge.kill()
    edge = restarted(2)
    expect([it for it in edge.lines if "names aren't here" in it or "its next number" in it], [])


def test_greatest_number() -> None:
    """Somebody else has used a member's port with the greatest number that the venue takes: what would have a greater one,
    as a cancel by the edge, isn't sent, and that is said."""
    venue, edge, port = pair(CancelOnDisconnect="Y")
    one = at_rest(port, "a")
    edge.kill()
    foreign = Client(venue.port, 1).log_on()
    foreign.send("D", venue_order(GREATEST, 1, 7, 4900))
    foreign.next()
    foreign.close()
    edge = Edge(settings())
    edge.hears("C1: 2 orders stay, though the member is away: the venue takes no greater number")
    edge.hears("C1: serves")
    one.close()
    one.log_on().send("D", order("b", 1, 1, "50"))
    expect(value(one.report(_11="b"), "58"), "edge: the venue takes no greater number")
    expect([it for it in edge.lines if "cancels" in it], [])


def test_any_bytes() -> None:
    """A stored message with a byte 0 is sent again as it was, and what stands behind it too."""
    venue, edge, port = pair()
    one = at_rest(port, "a")
    at_rest_again = one.next
    one.send("D", order("b", 1, 1, "50"))
    one.report(_150="0", _11="b")
    one.close()
    edge.kill()
    [(number, data)] = rows(1, f"SELECT number, bytes FROM messages WHERE number = {at_rest_again}")
    data = data.replace(b"\x0111=b\x01", b"\x0111=\x00\x01")
    data = data[:-4] + b"%03d\x01" % (sum(data[:-7]) % 256)
    changed(1, f"UPDATE messages SET bytes = x'{data.hex()}' WHERE number = {number}")
    restarted()
    one.next = number - 1
    one.log_on()
    expect([value(one.report(_43="Y"), "11") for _ in range(2)], ["a", "\x00"])


def test_refused_name() -> None:
    """A request that the edge refused, as its member was told, isn't taken when it is sent again and could be."""
    venue, edge, port = pair()
    one = at_rest(port, "a")
    venue.kill()
    edge.hears("C1: the venue:")
    one.send("D", order("b", 1, 1, "50"))
    expect(value(one.report(_150="8"), "58"), "edge: the venue isn't there")
    edge.kill()
    changed(1, "UPDATE session SET target = target - 1")  # As if the edge hadn't come to count it.
    again(port, 1, venue.port)
    edge = restarted()
    one.close()
    one.log_on().settle()
    edge.hears("C1: a request that was sent again was refused before: b")
    one.send("D", order("b", 1, 1, "50"))
    expect(value(one.report(_11="b"), "103"), "6")
    expect([value(it, "11") for it in told(1)], ["1"])


def test_refused_write() -> None:
    """A heartbeat that the record refuses to take, in a turn that changes the tables since it also answers a ResendRequest:
    it isn't sent, nothing of its turn is kept, and that is said, though the library passes over what a store can't do."""
    venue, edge, port = pair()
    edge.stop()
    changed(1, "CREATE TRIGGER heartbeats BEFORE INSERT ON messages WHEN instr(NEW.bytes, x'0133353d3001')"
               " BEGIN SELECT raise(ABORT, 'no heartbeats'); END")
    edge = restarted()
    one = at_rest(port, "a")
    freeze(edge.process_of(1))
    one.send("2", "7=1|16=0|")
    one.send("1", "112=x|")
    os.kill(edge.process_of(1), signal.SIGCONT)
    edge.hears("C1: isn't served: edge/C1/C1.db: no heartbeats")
    while one.pump(PATIENCE):
        pass
    edge.stop()
    expect(([value(it, "35") for it in one.came], sender()), (["A", "8"], 3))


def test_name_of_a_lost_turn() -> None:
    """A name whose turn was lost is none: somebody else's request of its number isn't told by it."""
    venue, edge, port = pair()
    edge.stop()
    changed(1, "CREATE TRIGGER lost BEFORE INSERT ON turns WHEN instr(NEW.did, CAST('2 4 lost' AS BLOB))"
               " BEGIN SELECT raise(ABORT, 'none is lost'); END")
    edge = restarted()
    one = at_rest(port, "a")
    venue.kill()
    edge.hears("C1: the venue:")
    one.send("D", order("lost", 1, 1, "50"))
    edge.hears("C1: isn't served: edge/C1/C1.db: none is lost")
    other = again(free_port(1), 1)  # Where the edge isn't.
    foreign = Client(other.port, 1).log_on()
    foreign.send("D", venue_order(2, 1, 7, 4900))
    foreign.next()
    other.kill()
    again(port, 1, venue.port)
    edge.hears("C1: serves")
    one.close()
    one.log_on()
    expect(value(one.report(_150="0", _38="7"), "11"), "edge-lost-2")


def test_many_names() -> None:
    """A request is told by its name however many came behind it."""
    venue, edge, port = pair()
    one = at_rest(port, "a")
    for turn in range(MANY // 100):
        for at in range(100):
            one.send("D", order(f"name-{turn}-{at}", 1, 1, "50", more="59=3|"))
        while len(one.reports) < 200:
            if not one.pump(PATIENCE):
                raise Trouble("the connection ended")
        expect([value(it, "11") for it in one.reports[::2]], [f"name-{turn}-{at}" for at in range(100)])
        one.reports.clear()
    one.send("F", cancel("c", "a", 1))
    expect(value(one.report(_150="4"), "41"), "a")


def test_names_dropped() -> None:
    """At the end of a session's day the names of finished requests go that are older than a day; others stay."""
    venue, edge, port = pair()
    one = Engine(port, 1).log_on()
    for name in ("rests", "old", "young"):
        one.send("D", order(name, 1, 1, "50"))
        one.report(_150="0", _11=name)
        if name != "rests":
            one.send("F", cancel(f"{name}-c", name, 1))
            one.report(_150="4", _11=f"{name}-c")
    one.log_out()
    edge.stop()
    changed(1, "UPDATE session SET created = '20250102-09:30:00'",
            "UPDATE names SET at = at - 90000 WHERE name NOT LIKE 'young%'")
    edge = restarted()
    one = Engine(port, 1).log_on()
    end = time.monotonic() + PATIENCE
    while len(names := [name for name, in rows(1, "SELECT name FROM names ORDER BY number")]) > 3:
        if time.monotonic() > end:
            raise Trouble(f"the names are {names}")
        time.sleep(0.1)
    expect(names, ["rests", "young", "young-c"])
    for name, event in (("young", "8"), ("old", "0")):
        one.send("D", order(name, 1, 1, "50"))
        expect(value(one.report(_11=name), "150"), event)
    one.send("F", cancel("end", "rests", 1))
    expect(value(one.report(_150="4"), "41"), "rests")
    for head in ("97=Y|", f"43=Y|122={now()}|"):  # Nobody knows any longer whether such a one came before.
        for hours, event in ((13, "8"), (11, "0")):
            name = f"gone-{head[:2]}-{hours}"
            text = order(name, 1, 1, "50")
            one.write("D", text.replace(sure(value("|" + text, "60")), now(time.time() - hours * 3600)), head=head)
            one.out += 1
            report = one.report(_11=name)
            expect((value(report, "150"), "is older than 12 hours" in report), (event, event == "8"))


def test_refused_names_dropped() -> None:
    """Names of refused requests go as well, though the venue has answered nothing behind them."""
    venue, edge, port = pair()
    one = Engine(port, 1).log_on()
    one.send("D", order("no", 1, 1, "50.001"))
    one.report(_150="8")
    one.log_out()
    edge.stop()
    changed(1, "UPDATE session SET created = '20250102-09:30:00'", "UPDATE names SET at = at - 90000")
    restarted()
    await_that("an end of the name", lambda: not rows(1, "SELECT name FROM names"))


def test_dropping_goes_on() -> None:
    """Names are dropped by pieces. An edge that was stopped between two of them goes on, past orders that rest."""
    venue, edge, port = pair()
    one, resting = Engine(port, 1).log_on(), AT_ONCE + 10
    for at in range(resting):
        one.send("D", order(f"r{at}", 1, 1, "49"))
    for at in range(20):
        one.send("D", order(f"i{at}", 1, 1, "50", more="59=3|"))
    one.report(_150="4", _11="i19")
    one.log_out()
    edge.stop()
    changed(1, f"UPDATE session SET drop_before = {int(time.time()) - 86400}", "UPDATE names SET at = at - 90000")
    restarted()
    await_that("an end of the names", lambda: rows(1, "SELECT count(*) FROM names") == [(resting,)])
    await_that("an end of the dropping", lambda: rows(1, "SELECT drop_before FROM session") == [(0,)])


def put_old_files(member: int, edge: str, store: str) -> None:
    """Writes what a member's record has as an edge of before kept that: a file of names, and the library's store."""
    names = rows(member, "SELECT number, kind, name FROM names ORDER BY number")
    messages = rows(member, "SELECT number, bytes FROM messages ORDER BY number")
    (out, into), = rows(member, "SELECT sender, target FROM session")
    with open(f"{edge}/C{member}.names", "w", encoding="ascii") as file:
        file.write("00000000 gikvand-edge names 1 from 1\n")
        for number, kind, name in names:
            file.write(f"00000000 {0 if kind == 'x' else number} {kind} {name}\n")
        file.write("00000000 99 r cut sh")
    front, at = f"{store}/FIX.4.4-GIKVAND-{NAMES[member]}.", 0
    with open(front + "body", "wb") as body, open(front + "header", "w", encoding="ascii") as header:
        for number, data in messages:
            body.write(data)
            header.write(f"{number},{at},{len(data)} ")
            at += len(data)
    with open(front + "seqnums", "w", encoding="ascii") as file:
        file.write(f"{out:010} : {into:010}")
    with open(front + "session", "w", encoding="ascii") as file:
        file.write(time.strftime("%Y%m%d-%H:%M:%S", time.gmtime()))


def test_taken_over() -> None:
    """What an edge of before kept is taken over at the first start: names, numbers, and what was told."""
    venue, edge, port = pair(common={"FileStorePath": "store"})
    one = at_rest(port, "a b")
    one.send("F", cancel("c", "a b", 2))
    one.report(_35="9")
    for name in ("no 1", "no 2"):
        one.send("D", order(name, 1, 1, "50.001"))
        one.report(_150="8", _11=name)
    one.settle()
    one.close()
    edge.stop()
    before = stored(1)
    os.makedirs("store/C1")
    put_old_files(1, "edge/C1", "store/C1")
    for it in glob.glob("edge/C1/C1.db*"):
        os.remove(it)
    edge = Edge(settings())
    edge.hears("C1: the names up to 4 and the numbers")
    edge.hears("C1: serves")
    expect((stored(1), os.path.exists("edge/C1/C1.names")), (before, False))
    one.log_on()
    for name in ("a b", "no 1", "no 2"):
        one.send("D", order(name, 1, 1, "50"))
        expect(value(one.report(_11=name), "103"), "6")
    one.send("F", cancel("d", "a b", 1))
    one.report(_150="4", _11="d")
    expect(len(one.came), one.next - 1)  # Nothing was sent twice, and nothing left out.


def test_kept_by_turns() -> None:
    """What the last turns have kept is all there behind a kill, also when they were: no number steps, the next request
    has the next number, names are known, and messages are sent again."""
    venue, edge, port = pair()
    one = at_rest(port, "a")
    one.send("D", order("no", 1, 1, "50.001"))
    one.report(_150="8", _11="no")
    one.write("D", order("no", 1, 1, "50"), head="97=Y|")
    one.out += 1
    edge.hears("C1: a request that was sent again was refused before: no")
    one.settle()
    one.close()
    edge.kill()
    with contextlib.closing(sqlite3.connect(path_of(1))) as record, record:
        (turns, names), = record.execute("SELECT count(*), (SELECT count(*) FROM names) FROM turns")
        record.execute("UPDATE turns SET at = at + 3600")
        record.execute("UPDATE session SET at = at - 3600")
    if turns < 3 or names:
        raise Trouble(f"{turns} turns are kept by themselves, and {names} names aren't")
    edge = restarted()
    expect([it for it in edge.lines if "its next number" in it], [])
    one.next = 2
    one.log_on()
    expect([value(one.report(_43="Y"), "11") for _ in range(2)], ["a", "no"])
    for name, what in (("a", "has been passed on before"), ("no", "was refused before")):
        one.write("D", order(name, 1, 1, "50"), head="97=Y|")
        one.out += 1
        edge.hears(f"C1: a request that was sent again {what}: {name}")
        one.send("D", order(name, 1, 1, "50"))
        expect(value(one.report(_11=name), "103"), "6")
    one.send("D", order("b", 1, 1, "50"))
    one.report(_150="0", _11="b")
    names = rows(1, "SELECT number, kind, name FROM names ORDER BY number")
    expect(names, [(1, "r", "a"), (2, "x", "no"), (3, "r", "b")])


def test_record_of_before() -> None:
    """A record whose edge kept no turn by itself is taken as it is, and so is one whose edge had no switch, or ended no
    orders with the day."""
    venue, edge, port = pair()
    one = at_rest(port, "a")
    one.log_out()
    edge.stop()
    no_ends = "ALTER TABLE session DROP COLUMN orders_ended"
    changed(1, no_ends, "DROP TABLE turns", "DROP TABLE switches", "DROP INDEX sweeps", "PRAGMA user_version = 1")
    edge = restarted()
    one.log_on().send("D", order("b", 1, 1, "50"))
    one.report(_150="0", _11="b")
    one.send("F", cancel("c", "a", 1))
    one.report(_150="4", _11="c")
    edge.kill()
    edge = restarted()
    expect(places(1), [1, 2, 3])
    one.close()
    one.log_on().log_out()
    edge.stop()
    changed(1, no_ends, "DROP TABLE switches", "DROP INDEX sweeps", "PRAGMA user_version = 2")
    edge = restarted()
    one.log_on().send("F", cancel("d", "b", 1))
    one.report(_150="4", _11="d")
    edge.kill()
    restarted()
    expect((places(1), rows(1, "SELECT * FROM switches"), rows(1, "PRAGMA user_version")), ([1, 2, 3, 4], [], [(4,)]))


def test_growth() -> None:
    """The log of a record doesn't grow with what is committed, and memory doesn't with names."""
    venue, edge, port = pair()
    one = Engine(port, 1).log_on()
    most, first = 0, 0
    for turn in range(60):
        for at in range(100):
            one.send("D", order(f"name-{turn}-{at}-{'x' * 40}", 1, 1, "50", more="59=3|"))
        while len(one.reports) < 200:
            if not one.pump(PATIENCE):
                raise Trouble("the connection ended")
        one.reports.clear()
        most = max(most, os.path.getsize(path_of(1) + "-wal"))
        first = first or memory(edge)
    if most > 4 << 20 or memory(edge) > first + (16 << 20):
        raise Trouble(f"the log has {most} bytes, and memory went from {first} to {memory(edge)}")


TESTS = [test_far_number, test_greatest_number, test_any_bytes, test_refused_name, test_refused_write,
         test_name_of_a_lost_turn, test_many_names, test_names_dropped, test_dropping_goes_on, test_refused_names_dropped,
         test_taken_over, test_kept_by_turns, test_record_of_before, test_growth]
