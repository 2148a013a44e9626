"""A session's days, by a clock that the test puts forward: what comes around the end of a day, and what wasn't sent by
then, is told once, with numbers of the day that it is told in."""
import os
import shutil
import signal
import socket

from canonical_tests import until
from edges import HOST, PATIENCE, Client, again, await_that, copied, freeze, path_of, rows
from engines import GTC, order
from gikvand.fix import value
from gikvand.words import sure
from market import BEGUN, SELLER, Market, at_rest_for_long, await_heard, is_caught_up, kept, leave, of_journal, places
from trading_tests import expect


def test_through_the_day() -> None:
    """Fills before the end of a day, at it and behind it, of a member that is there and one that is away: each is told
    once, in order, with numbers of the day that it is told in. The one that is there is logged out in words."""
    market = Market("2030-01-01 23:59:00", 2)
    one, two = at_rest_for_long(market.port, "a", 5), at_rest_for_long(market.port, "b", 9, 2)
    market.sell(5)
    for _ in range(5):
        one.report(_150="F")
    leave(market, two, 2)
    market.sell(2)
    await_that("both are stored", lambda: kept(2)["report"] == of_journal(2)[-1])
    one.send("D", order("c", 1, 9, "50.25", more=GTC))
    one.report(_150="0", _11="c")
    came = market.new_day("2030-01-02 00:00:00", 1, 2)
    expect(came, {1: BEGUN, 2: f"{BEGUN}, and 2 reports that it wasn't sent are told again"})
    expect(value(sure(one.next_of("5")), "58"), "edge: the day ends")
    market.sell(4)
    expect(one.pump(PATIENCE), False)
    back, other = market.engine().log_on(), market.engine(2).log_on()
    market.sell(2)
    for it in (is_caught_up(back), is_caught_up(other)):
        expect(it.history[0] in it.came, True)
    expect(places(one) + places(back), of_journal(1))
    expect(places(two) + places(other), of_journal(2))
    expect([value(it, "97") for it in back.history + other.history], [None] * 6 + ["Y"] * 2)
    expect([value(it, "34") for it in other.history], ["1", "2"])
    expect(len(market.lines("a new day")), 2)


def test_at_the_end() -> None:
    """What waits to be read when the day ends is told behind it: with the new numbers, and as new."""
    market = Market("2030-01-01 21:59:00", hours={"StartTime": "22:00:00", "EndTime": "22:00:00"})
    one = at_rest_for_long(market.port, "a", 9)
    market.sell()
    one.report(_150="F")
    process = market.edge.process_of(1)
    freeze(process)
    market.clock.put("2030-01-01 22:00:00")
    market.sell(3)
    os.kill(process, signal.SIGCONT)
    one.next_of("5")
    await_that("a new day", lambda: market.days(1))
    expect([line.endswith(BEGUN) for line in market.days(1)], [True])
    expect((len(one.history), one.pump(PATIENCE)), (2, False))
    back = is_caught_up(market.engine().log_on())
    expect((places(one) + places(back), [value(it, "97") for it in back.history]), (of_journal(), [None] * 3))


def test_held_up_at_the_end() -> None:
    """A day ends while what a client has sent waits for its turn to be read: the client is let go, and the process that
    serves its member goes on."""
    market = Market("2030-01-01 23:59:00", MaxReadMessagesPerSecond="100")
    one, process = at_rest_for_long(market.port, "a"), market.edge.process_of(1)
    freeze(process)
    for at in range(50):  # They are read at once, and one in a second is passed on, since each is answered.
        one.send("1", f"112=t{at}|")
    os.kill(process, signal.SIGCONT)
    until(one, lambda: any(value(it, "112") == "t0" for it in one.came))
    expect(market.new_day("2030-01-02 00:00:00")[1], BEGUN)
    expect(value(sure(one.next_of("5")), "58"), "edge: the day ends")
    is_caught_up(market.engine().log_on())
    expect(market.edge.process_of(1), process)


def test_stream() -> None:
    """Fills come one behind the other while the clock goes over the end of a day: each is told once, in order, and none
    that was sent before the end has a number of the new day."""
    market = Market("2030-01-01 12:00:00", 2)
    one, two = at_rest_for_long(market.port, "a", 900), at_rest_for_long(market.port, "b", 1000000, 2)
    leave(market, two, 2)
    market.clock.put("2030-01-01 23:59:59")
    while len(market.lines("a new day")) < 2:
        market.sell(5)
    market.sell(5)
    while one.pump(PATIENCE):
        pass
    back, other = is_caught_up(market.engine().log_on()), is_caught_up(market.engine(2).log_on())
    expect(places(one) + places(back), of_journal(1))
    expect(places(two) + places(other), of_journal(2))
    again = [it for it in back.history + other.history if value(it, "97") != "Y"]
    expect([it for it in again if (value(it, "122") or "2031") < "20300102"], [])


def test_down_over_the_end() -> None:
    """The edge is down when a day ends: what was stored and not sent, and what came meanwhile, is told in the new one.
    So it is behind a weekend of ends. Each reset is done once."""
    market = Market("2030-01-01 23:59:00")
    one = at_rest_for_long(market.port, "a", 900)
    market.sell(2)
    is_caught_up(one)
    leave(market, one)
    market.sell(2)
    await_that("both are stored", lambda: kept()["report"] == of_journal()[-1])
    engines = [one]
    for day, stop in (("2030-01-02 08:00:00", "kill"), ("2030-01-05 08:00:00", "stop")):
        getattr(market.edge, stop)()
        market.sell(3)
        market.clock.put(day)
        market.start_again()
        expect(len(market.lines("a new day")), 1)
        market.sell()
        await_that("it is stored", lambda: kept()["report"] == of_journal()[-1])
        if stop == "kill":
            continue  # Nobody logs on in this day: all of it is told again in the next one.
        engines.append(is_caught_up(market.engine().log_on()))
    expect([number for it in engines for number in places(it)], of_journal())
    expect([value(it, "97") for it in engines[-1].history], ["Y"] * 6 + [None] * 4)
    await_heard()
    market.edge.kill()
    market.clock.put("2030-01-08 08:00:00")
    market.start_again()
    expect([line.endswith(BEGUN) for line in market.lines("a new day")], [True])


def test_venue_away_at_the_end() -> None:
    """The venue isn't there when a day ends: that ends all the same, and what the venue tells later has new numbers."""
    market = Market("2030-01-01 23:59:00", 2)
    one, two = at_rest_for_long(market.port, "a", 9), at_rest_for_long(market.port, "b", 9, 2)
    leave(market, two, 2)
    market.sell(10)
    await_that("it is stored", lambda: kept(2)["report"] == of_journal(2)[-1])
    is_caught_up(one)
    market.venue.kill()
    await_that("both see that", lambda: all(market.lines(f"C{k}: the venue: ") for k in (1, 2)))
    expect(market.new_day("2030-01-02 00:00:00", 1, 2),
           {1: BEGUN, 2: f"{BEGUN}, and 1 reports that it wasn't sent are told again"})
    expect(value(sure(one.next_of("5")), "58"), "edge: the day ends")
    market.venue = again(market.port, SELLER, market.venue.port)
    for _ in range(2):
        market.edge.hears(": serves, behind report")
    market.seller = Client(market.venue.port, SELLER).log_on()
    market.sell(3)
    back, other = is_caught_up(market.engine().log_on()), is_caught_up(market.engine(2).log_on())
    expect(places(one) + places(back), of_journal(1))
    expect(places(two) + places(other), of_journal(2))
    expect(kept(1)["sender"], back.next)


def test_what_was_sent() -> None:
    """What an engine has asked for is told; what its Logon showed it to miss, and it didn't ask for, isn't; and what it
    was away for isn't, until it has asked. Whatever isn't told is told again in the next day, marked as such. An engine
    that asks for nothing and goes on misses nothing, also where it has asked in a connection before."""
    market = Market("2030-01-01 23:59:00")
    one = at_rest_for_long(market.port, "a", 900)
    leave(market, one)
    market.sell(3)
    await_that("they are stored", lambda: kept()["report"] == of_journal()[-1])
    for asks in (False, True):
        one.connect().has_asked = True  # It doesn't ask by itself.
        one.send("A", "98=0|108=30|")
        expect(value(sure(one.next_of("A5")), "35"), "A")
        if asks:
            one.send("2", f"7={one.next}|16={one.next}|")
            one.report(_150="F", _43="Y")
        leave(market, one)
    expect(market.new_day("2030-01-02 00:00:00")[1], f"{BEGUN}, and 2 reports that it wasn't sent are told again")
    await_that("the last day's are gone", lambda: rows(1, "SELECT max(number) FROM messages") == [(2,)])
    back = is_caught_up(market.engine().log_on())
    expect((places(one) + places(back), [value(it, "97") for it in back.history]), (of_journal(), ["Y", "Y"]))
    await_heard()
    leave(market, back)
    market.sell(2)
    await_that("both are stored", lambda: kept()["report"] == of_journal()[-1])
    back.connect().has_asked = True
    back.send("A", "98=0|108=30|")
    expect(value(sure(back.next_of("A5")), "35"), "A")
    back.send("0")
    await_heard()
    back.close()
    expect(market.new_day("2030-01-03 00:00:00")[1], BEGUN)


def test_half_sent_again() -> None:
    """A day ends while a member is sent again, by pieces, what it missed: what it wasn't sent is told in the next day."""
    market = Market("2030-01-01 12:00:00", MaxReadMessagesPerSecond="100")
    one = at_rest_for_long(market.port, "a", 1200)
    leave(market, one)
    market.sell(1100)
    await_that("they are stored", lambda: kept()["report"] == of_journal()[-1])
    market.clock.put("2030-01-01 23:59:00")  # Only now: so many take their time.
    one.log_on()
    while len(one.history) < 999:
        one.pump(1)
    count = int(market.new_day("2030-01-02 00:00:00")[1].partition(", and ")[2].partition(" ")[0])
    back = market.engine().connect()
    back.send("A", "98=0|108=30|")
    until(back, lambda: back.next > count, 4 * PATIENCE)  # What was sent again is what may be read in ten seconds.
    is_caught_up(back)
    expect((places(one) + places(back), [value(it, "97") for it in back.history]), (of_journal(), count * ["Y"]))
    expect(count > 0, True)


def deaf(port: int) -> socket.socket:
    """A connection with hardly any room for what comes."""
    it = socket.socket()
    it.setsockopt(socket.SOL_SOCKET, socket.SO_RCVBUF, 4096)
    it.connect((HOST, port))
    return it


def test_not_taken() -> None:
    """What a member's connection hasn't taken when it ends wasn't sent, though the engine has asked for that once more, and
    has come again since without asking: it is told again in the next day, in pieces of the store."""
    market = Market("2030-01-01 12:00:00", MaxUnsentBytes="4000000", MaxReadMessagesPerSecond="0")
    one, count = market.engine(), 3000
    one.socket = deaf(market.port)
    one.send("A", "98=0|108=30|")
    one.next_of("A5")
    for at in range(count):  # Their refusals are more than the system takes.
        one.send("D", order("x" * 60 + f"{at:04}", 1, 1, "50", "NONE"))
    await_that("all are refused", lambda: kept()["sender"] > count + 1)
    leave(market, one)
    heard = kept()["heard"]
    expect(heard < count - 1000, True)
    one.socket, one.rest = deaf(market.port), b""
    one.send("A", "98=0|108=30|")
    while not any(value(it, "43") == "Y" for it in one.came):
        expect(one.pump(PATIENCE), True)
    leave(market, one)
    one.connect().has_asked = True  # It doesn't ask by itself.
    one.send("A", "98=0|108=30|")
    one.next_of("A5")
    leave(market, one)
    expect(kept()["heard"], heard)
    came = market.new_day("2030-01-02 00:00:00")[1]
    expect(came, f"{BEGUN}, and {count + 2 - heard} reports that it wasn't sent are told again")
    back = is_caught_up(market.engine().log_on())
    expect([sure(value(it, "11"))[-4:] for it in back.history], [f"{at:04}" for at in range(heard - 2, count)])


def test_older_copy() -> None:
    """An older copy of a record is put back, and a day has ended since: the journal has requests that the record lacks.
    What was told since the copy is told once more in the new day, and each report once."""
    market = Market("2030-01-01 23:59:00")
    one = at_rest_for_long(market.port, "a", 900)
    for _ in range(30):  # So many messages that the numbers of the new day don't reach those of the old one.
        one.settle()
    leave(market, one)
    market.sell(2)
    await_that("both are stored", lambda: kept()["report"] == of_journal()[-1])
    market.edge.stop()
    copied(1, "older")
    market.start_again()
    market.sell()
    one.log_on().send("D", order("b", 1, 9, "50"))
    one.report(_150="0", _11="b")
    market.sell()
    is_caught_up(one)
    market.edge.stop()
    market.clock.put("2030-01-02 08:00:00")
    shutil.copy(path_of(1, "older"), path_of(1))
    market.start_again()
    back = market.engine().log_on()
    back.report(_150="C", _11="edge-lost-2")  # Nobody knows any more whether it was to stay.
    expect((places(is_caught_up(back)), [value(it, "97") for it in back.history][:3]), (of_journal()[1:], ["Y", "Y", None]))


TESTS = [test_through_the_day, test_at_the_end, test_held_up_at_the_end, test_stream, test_down_over_the_end,
         test_venue_away_at_the_end, test_what_was_sent, test_half_sent_again, test_not_taken, test_older_copy]
