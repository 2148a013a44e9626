"""A day that ends: each Day order is cancelled at the end of the hours, or at DayEndTime, asked for once and told once as
expired, whatever is killed or away meanwhile. What is good till it is cancelled stays."""
import os
import shutil
import signal
import time

from clocks import seconds_of
from differential import ENDED, OWED, ended_at, names_of
from edges import JOURNAL, PATIENCE, Client, Edge, Trouble, again, await_that, changed, freeze, is_there as is_there_yet, rows, stored, told
from edges import venue_order
from engines import GTC, Engine, cancel, order, replace
from gikvand.fix import fields_of, value
from gikvand.words import sure
from hours_tests import FRIDAY, NIGHT, WEEK
from kept_tests import GREATEST
from market import SELLER, Market, await_heard, is_caught_up, kept, leave, of_journal, places
from process_tests import STUCK, other_events
from switch_tests import Call, is_kept, mass
from tradeclients import GTC as GTC_OF_STOCK, TradeClient
from trading_tests import expect, logged, rejects

EVENING, OVER, MORNING = "2030-01-01 21:59:00", "2030-01-01 22:00:00", "2030-01-02 06:00:01"
NEXT_EVENING, NEXT_OVER = "2030-01-02 21:59:30", "2030-01-02 22:00:00"
WAITS = "edge: the day has ended, and its orders aren't cancelled yet"
AT_TEN = {"DayEndTime": "22:00:00"}  # The session goes on, so its member hears at once.


def put(one: Engine, name: str, more: str = "", side: int = 1, price: str = "50", quantity: int = 10, symbol: str = "ABC") -> None:
    """An order of a member that rests."""
    one.send("D", order(name, side, quantity, price, symbol, more))
    one.report(_150="0", _11=name)


def expired(one: Engine, *names: str) -> dict[str, dict[str, str]]:
    """These orders of a member have expired, each told once: what was told of each."""
    came = {}
    for _ in names:
        it = fields_of(one.report(_150="C"))
        expect([it.get(tag) for tag in ("39", "41", "58", "151", "32")], ["C", None, ENDED, "0", None])
        came[it["11"]] = it
    expect(sorted(came), sorted(names))
    return came


def asked(member: int = 1) -> list[tuple[str, bool]]:
    """The orders whose end the edge has asked for, in the venue's order, each with whether it was still there."""
    kinds, names, _ = names_of(member)
    answers = [fields_of(line) for line in told(member)]
    return [(names[int(it["41"])], it["35"] == "8") for it in answers if "41" in it and kinds.get(int(it["11"])) == "e"]


def cancels() -> int:
    """How many orders were cancelled at the venue: also where their names have been dropped."""
    return sum(value(it, "150") == "4" for it in told(1))


def ended_once(one: Engine, *names: str) -> None:
    """Each of these orders, and no other one, was ended at the venue by one cancel, and told by one report; no cancel of
    that was told to be refused."""
    is_caught_up(one)
    expect(sorted(asked()), sorted((name, True) for name in names))
    expect(sorted(sure(value(it, "11")) for it in stored(1) if value(it, "150") == "C"), sorted(names))
    expect([it for it in stored(1) if value(it, "35") == "9"], [])


def is_there(one: Engine, name: str, quantity: int = 10, symbol: str = "ABC") -> None:
    """An order still rests: its member cancels it."""
    one.send("F", cancel(f"{name}-x", name, 1, quantity, symbol))
    expect(value(one.report(_11=f"{name}-x"), "150"), "4")


def over(market: Market, now: str = OVER, *lines: str) -> None:
    """The clock goes over the end of a day, and the edge has seen that."""
    market.clock.put(now)
    await_that("an end of the day", lambda: ended_at() >= seconds_of(now))
    for it in lines:
        market.edge.hears(it)


def back(market: Market, now: str = MORNING) -> Engine:
    """The member, on the next day."""
    market.clock.put(now)
    return market.engine().log_on()


def test_day_played_through() -> None:
    """QuickFIX's own client plays a day: it orders for the day and for longer, is filled in part, and is logged out at the
    end. On the next day it is told that the one has expired, and what it had been filled; the other one trades on. Its
    own dictionary takes all of it."""
    market = Market(EVENING, hours=NIGHT)
    client = TradeClient(market.port, 1, tuple(NIGHT.values()), market.clock.env).logged_on()
    client.order("day", 1, 100, "50")
    client.report(_150="0", _11="day")
    client.order("gtc", 1, 10, "50", term=GTC_OF_STOCK)
    client.report(_150="0", _11="gtc")
    market.sell(3)
    for left in ("99", "98", "97"):
        client.report(_150="F", _11="day", _151=left)
    over(market, OVER, "C1: the day has ended: cancels 1 orders that are Day")
    await_that("the end of it", lambda: asked() == [("day", True)])
    market.sell()
    market.clock.put(MORNING)
    client.logged_on(2)
    it = fields_of(client.report(_150="C"))
    expect([it.get(tag) for tag in ("39", "11", "41", "37", "38", "14", "151", "6", "44", "58", "97")],
           ["C", "day", None, "1", "100", "3", "0", "50.00", "50.00", ENDED, None])
    client.report(_150="F", _11="gtc", _151="9")
    client.cancel("late", "day", 1, 100)
    expect(value(client.report(_35="9", _11="late"), "102"), "1")
    client.cancel("soon", "gtc", 1, 10)
    client.report(_150="4", _41="gtc")
    client.order("next", 1, 10, "50")
    client.report(_150="0", _11="next")
    expect([it for it in stored(1) if value(it, "35") == "3"], [])
    over(market, NEXT_OVER, "C1: the day has ended: cancels 1 orders that are Day")
    await_that("its end", lambda: cancels() == 3)  # The client's own is one of them.
    market.clock.put("2030-01-03 06:00:01")
    client.logged_on(3)
    client.report(_150="C", _11="next")
    expect(rejects(logged(1)), [])


def test_terms() -> None:
    """Which orders end: Day by 0 or by nothing, as the last replace says it, and not what is good till it is cancelled. The
    venue is told nothing of that. Reports have no TimeInForce, whatever was asked for."""
    market = Market(EVENING, hours=AT_TEN)
    one = market.engine().log_on()
    for name, more in (("none", ""), ("day", "59=0|"), ("gtc", GTC), ("to gtc", ""), ("to day", GTC), ("to none", GTC),
                       ("twice", "59=0|")):
        put(one, name, more)
    for name, old, more in (("now gtc", "to gtc", GTC), ("now day", "to day", "59=0|"), ("now none", "to none", ""),
                            ("once", "twice", GTC), ("day again", "once", "")):
        one.send("G", replace(name, old, 1, 10, "50", more=more))
        one.report(_150="5", _11=name)
    one.send("G", replace("no", "gtc", 1, 10, "50", more="59=3|"))  # The venue refuses that: the order is as it was.
    expect(value(one.report(_35="9", _11="no"), "102"), "2")
    one.send("D", order("market", 1, 1, "", more=GTC).replace("40=2|44=|", "40=1|"))
    one.report(_150="4", _11="market")
    for kind, body in (("D", order("gtd", 1, 1, "50", more="59=6|")), ("G", replace("gtx", "gtc", 1, 1, "50", more="59=5|"))):
        one.send(kind, body)
        expect(f"TimeInForce (59) {body[-2]} isn't traded: 0, 1, 3 and 4 are" in sure(value(one.report(_11=body[3:6]), "58")), True)
    over(market)
    expired(one, "none", "day", "now day", "now none", "day again")
    is_caught_up(one)
    expect(sorted(asked()), [(name, True) for name in ("day", "day again", "none", "now day", "now none")])
    for name in ("gtc", "now gtc"):
        is_there(one, name)
    with open(JOURNAL, "rb") as file:
        sent = file.read()
    expect((b"\x0159=1\x01" in sent, sent.count(b"\x0159=0\x01"), [it for it in one.history if value(it, "59")]), (False, 3, []))


def test_lost_for_long() -> None:
    """An order that is good till it is cancelled, and that the venue hadn't taken in when it was killed: its member is told."""
    market = Market(EVENING)
    one = market.engine().log_on()
    put(one, "gtc", GTC)
    market.venue.pause()
    one.send("D", order("lost", 1, 1, "50", more=GTC))
    one.settle()
    market.venue.kill()
    market.venue = again(market.port, SELLER, market.venue.port)
    expect(value(one.report(_11="lost"), "58"), "edge: this request never reached the venue")
    is_there(one, "gtc")


def down_over_the_end(stop: str) -> None:
    """The edge is down when a day ends, by this call: its next start ends what is Day, in front of what the member sends."""
    market = Market(EVENING, hours=NIGHT)
    one = market.engine().log_on()
    put(one, "day")
    put(one, "gtc", GTC, price="49")
    await_heard()  # Else a kill may come in front of that, and what it was sent is told again.
    leave(market, one)
    getattr(market.edge, stop)()
    market.sell()
    market.clock.put(MORNING)
    market.start_again()
    one = market.engine().log_on()
    one.send("D", order("sale", 2, 9, "50"))
    one.report(_150="0", _11="sale")
    one.send("D", order("low", 2, 1, "49"))
    one.report(_150="F", _11="gtc")
    ended_once(one, "day")
    expect([value(it, "14") for it in stored(1) if value(it, "150") == "C"], ["1"])
    expect(sorted(places(one)), [it for it in of_journal() if it > 2])
    lines = [fields_of(line) for line in told(1)]
    number = next(str(number) for number, name in names_of(1)[1].items() if name == "sale")
    sale = next(at for at, it in enumerate(lines) if it["11"] == number)
    expect([it["150"] for it in lines[:sale]], ["0", "0", "F", "4"])  # It comes behind the end.


def test_killed_over_the_end() -> None:
    down_over_the_end("kill")


def test_stopped_over_the_end() -> None:
    down_over_the_end("stop")


def test_many_ends_missed() -> None:
    """The edge is down over many ends, in each of which an order is missed: each order ends once."""
    market = Market(EVENING, hours=NIGHT)
    one = market.engine().log_on()
    put(one, "gtc", GTC)
    for day in range(2, 5):
        put(one, f"day {day}")
        await_heard()
        market.edge.kill()
        market.clock.put(f"2030-01-0{day} 12:00:00")
        market.start_again()
        one.close()
        one = market.engine().log_on()
        expired(one, f"day {day}")
    one.settle()  # A report counts as heard once its engine goes on behind its Logon.
    await_heard()
    market.edge.kill()
    market.clock.put("2030-01-09 12:00:00")
    market.start_again()
    one.close()
    one = market.engine().log_on()
    is_there(one, "gtc")
    expect((cancels(), sum("|41=" in it for it in told(1))), (4, 4))  # That one's own among them, and none refused.


def venue_away(is_killed: bool) -> None:
    """The venue is down when a day ends: the end is asked for as soon as the venue is there, once, also where the edge is
    killed meanwhile. The member, which is away, is told by a resend."""
    market = Market(EVENING, hours=NIGHT)
    one = market.engine().log_on()
    put(one, "day")
    put(one, "gtc", GTC)
    market.venue.kill()
    market.edge.hears("C1: the venue: ")
    market.clock.put(OVER)
    await_that("a new day", lambda: market.days(1))
    if is_killed:
        market.edge.kill()
    market.venue = again(market.port, SELLER, market.venue.port)
    if is_killed:
        market.start_again()
    else:
        market.edge.hears("C1: serves")
    await_that("the end of it", lambda: asked() == [("day", True)])
    one.close()
    one = back(market)
    expired(one, "day")
    ended_once(one, "day")
    is_there(one, "gtc")


def test_end_without_the_venue() -> None:
    venue_away(False)


def test_end_without_the_venue_and_killed() -> None:
    venue_away(True)


def killed_before_the_answers(is_venue_killed: bool) -> None:
    """The edge is killed when a day's end is kept, and the venue hasn't read the cancels, or loses them: they are asked for
    once, and told once, by the next start. Another kill behind that tells nothing twice."""
    market = Market(EVENING, hours=NIGHT)
    one = market.engine().log_on()
    put(one, "day")
    put(one, "day, too", price="49")
    put(one, "gtc", GTC)
    market.venue.pause()
    market.clock.put(OVER)
    is_kept(OWED)
    market.edge.kill()
    if is_venue_killed:
        market.venue.kill()
        market.venue = again(market.port, SELLER, market.venue.port)
    else:
        market.venue.go_on()
    market.start_again()
    one.close()
    one = back(market)
    expired(one, "day", "day, too")
    ended_once(one, "day", "day, too")
    if is_venue_killed:
        market.edge.hears("C1: the day has ended: cancels 2 orders that are Day")
    await_that("an end of what was asked for", lambda: not rows(1, OWED))
    put(one, "new")
    market.edge.kill()
    market.start_again()
    one.close()
    one.log_on()
    ended_once(one, "day", "day, too")
    for name in ("gtc", "new"):
        is_there(one, name)


def test_ends_killed() -> None:
    killed_before_the_answers(False)


def test_ends_and_venue_killed() -> None:
    killed_before_the_answers(True)


def stuck(market: Market) -> Edge:
    """The edge again, by a program for the journal that waits while there is a file of that name."""
    return Edge(other_events(STUCK), env={**market.clock.env, "STUCK": "Y"})


def venue_says_nothing(market: Market) -> float:
    """The edge reads the journal of a venue that is back, and that doesn't say what else it has taken in: a moment in front of
    that."""
    await_that("a look at the journal", lambda: os.path.exists("reads"))
    market.venue.pause()
    begin = time.monotonic()
    os.remove("stuck")
    market.edge.hears("C1: serves, behind report")
    return begin


def test_ends_killed_twice() -> None:
    """The edge is killed again when the end isn't asked for anew, since the venue doesn't say what it has taken in: it is
    asked for by the start behind that, once."""
    market = Market(EVENING, hours=NIGHT)
    one = market.engine().log_on()
    put(one, "day")
    market.venue.pause()
    market.clock.put(OVER)
    is_kept(OWED)
    market.edge.kill()
    market.venue.kill()
    market.venue = again(market.port, SELLER, market.venue.port)
    open("stuck", "w", encoding="ascii").close()
    market.edge = stuck(market)
    venue_says_nothing(market)
    market.edge.kill()
    market.venue.go_on()
    market.edge = stuck(market).ready()
    one.close()
    one = back(market)
    expired(one, "day")
    ended_once(one, "day")


def test_filled_meanwhile() -> None:
    """An order is filled before the cancel by the day's end comes: its fill is told, and no end, nor that a cancel was
    refused. One that was filled in part has what it was filled in its end."""
    market = Market(EVENING, hours=AT_TEN)
    one = market.engine().log_on()
    put(one, "whole", quantity=3)
    put(one, "part")
    process = market.edge.process_of(1)
    freeze(process)
    market.sell(5)
    market.clock.put(OVER)
    os.kill(process, signal.SIGCONT)
    expect(expired(one, "part")["part"]["14"], "2")
    is_caught_up(one)
    expect(asked()[-1:], [("part", True)])
    expect((set(asked()) <= {("whole", False), ("part", True)}, [it for it in one.history if value(it, "35") == "9"]), (True, []))
    expect([(value(it, "11"), value(it, "150")) for it in one.history][2:],
           [("whole", "F")] * 3 + [("part", "F")] * 2 + [("part", "C")])


def test_replaced_meanwhile() -> None:
    """Replaces are under way when the day ends: what they make of an order is what counts, and where one is refused the order
    that it was about."""
    market = Market(EVENING, hours=AT_TEN)
    one = market.engine().log_on()
    for name, more in (("a", ""), ("b", GTC), ("c", ""), ("d", GTC), ("e", "")):
        put(one, name, more)
    market.venue.pause()
    one.send("G", replace("a gtc", "a", 1, 10, "50", more=GTC))
    one.send("G", replace("b day", "b", 1, 10, "50"))
    one.send("G", replace("c gtc", "c", 2, 10, "50", more=GTC))  # The wrong side: the venue refuses these two.
    one.send("G", replace("d day", "d", 2, 10, "50"))
    one.send("F", cancel("e-x", "e", 1))
    one.send("D", order("f", 1, 10, "50"))
    one.settle()
    market.clock.put(OVER)
    is_kept(OWED)
    one.send("G", replace("f gtc", "f", 1, 10, "50", more=GTC))  # It comes too late.
    one.send("D", order("g", 1, 10, "50"))
    one.settle()
    market.venue.go_on()
    expired(one, "b day", "c", "f")
    one.report(_150="0", _11="g")
    is_caught_up(one)
    expect(sorted(asked()), [("a", False), ("b day", True), ("c", True), ("d day", False), ("e", False), ("f", True)])
    expect(sorted(sure(value(it, "11")) for it in one.history if value(it, "35") == "9"), ["c gtc", "d day", "f gtc"])
    for name in ("a gtc", "d", "g"):
        is_there(one, name)


def test_with_other_cancels() -> None:
    """A mass cancel and an operator's command come at the same time: each order is cancelled once, and told once, by what
    came first."""
    market = Market(EVENING, hours=AT_TEN)
    one = market.engine().log_on()
    for name, symbol in (("a", "ABC"), ("x", "XYZ")):
        put(one, name, symbol=symbol)
    put(one, "gtc", GTC)
    market.venue.pause()
    one.send("q", mass("first", 1, "55=XYZ|"))
    one.report(_35="r", _533="1")
    market.clock.put(OVER)
    is_kept("SELECT * FROM names WHERE kind = 'e'")
    one.send("q", mass("second"))
    one.report(_35="r", _533="1")
    call = Call("stop C1")
    is_kept("SELECT * FROM switches")
    market.venue.go_on()
    expect(call.end(), (0, "C1: stopped, and the venue has answered the cancels of 3 orders\n", ""))
    is_caught_up(one)
    expect(sorted((value(it, "150"), value(it, "11"), value(it, "41")) for it in one.history if value(it, "151") == "0"),
           [("4", "first", "x"), ("4", "second", "gtc"), ("C", "a", None)])
    expect((asked(), [it for it in one.history if value(it, "35") == "9"]), ([("a", True)], []))


def test_away_with_cancel_on_disconnect() -> None:
    """CancelOnDisconnect: of a member whose day ends what is Day expires, and the rest stays until it has been back and goes."""
    market = Market(EVENING, hours=NIGHT, CancelOnDisconnect="Y")
    one = market.engine().log_on()
    put(one, "day")
    put(one, "gtc", GTC)
    over(market)
    await_that("the end of it", lambda: asked() == [("day", True)])
    market.edge.kill()
    market.start_again()
    one.close()
    one = back(market)
    expired(one, "day")
    ended_once(one, "day")
    leave(market, one)
    market.edge.hears("C1: cancels 1 orders: the member is away")
    one.log_on().report(_150="4", _41="gtc")


def test_days_of_a_week() -> None:
    """A session of a week with a DayEndTime: each day ends at that, while the member is logged on, and is told at once. At the
    week's own end nothing more ends. Without a DayEndTime the week is the day."""
    market = Market("2030-01-02 23:59:00", hours={**WEEK, "DayEndTime": "20:30:00"})
    one = market.engine().log_on()
    put(one, "gtc", GTC)
    for day, before, name in (("2030-01-03 ", list[str](), "thursday"), (FRIDAY, ["thursday night"], "friday")):
        leave(market, one)  # A session in which nothing comes for hours is ended by the library.
        market.clock.put(day + "20:29:30")
        put(one.log_on(), name)
        over(market, day + "20:30:00")
        expired(one, *before, name)
        put(one, f"{name} night")
    expect([name for name, _ in asked()], ["thursday", "thursday night", "friday"])
    market.new_day(FRIDAY + "21:00:00")
    one.close()
    one = back(market, "2030-01-06 22:00:01")
    expired(one, "friday night")
    is_there(one, "gtc")


def test_whole_week() -> None:
    """A session of a week without a DayEndTime: the week is the day."""
    market = Market("2030-01-02 23:59:00", hours=WEEK)
    one = market.engine().log_on()
    put(one, "wednesday")
    leave(market, one)
    market.clock.put(FRIDAY + "20:59:30")
    put(one.log_on(), "friday")
    expect(asked(), [])
    over(market, FRIDAY + "21:00:00")
    expired(back(market, "2030-01-06 22:00:01"), "wednesday", "friday")


def test_ended_once() -> None:
    """A day ends once, whatever the clock does: put back over the end, and forward again, it ends no second time. Behind a
    clock that was years ahead, what that has sent ends with the next day."""
    market = Market(EVENING, hours=AT_TEN)
    one = market.engine().log_on()
    put(one, "first")
    over(market)
    expired(one, "first")
    market.clock.put("2030-01-01 21:59:50")
    put(one, "second")
    market.clock.put("2030-01-01 22:00:10")
    put(one, "third")
    is_caught_up(one)
    market.edge.kill()
    market.start_again()
    one.close()
    is_caught_up(one.log_on())
    expect(asked(), [("first", True)])
    leave(market, one)
    market.clock.put("2036-01-01 12:00:00")
    one = market.engine().log_on()
    expired(one, "second", "third")
    put(one, "ahead")
    leave(market, one)
    market.clock.put(NEXT_EVENING)
    await_that("the clock is seen", lambda: ended_at() < seconds_of("2031-01-01 00:00:00"))
    expect(cancels(), 3)
    over(market, NEXT_OVER)
    await_that("the end of it", lambda: cancels() == 4)


def test_end_of_nothing() -> None:
    """A day ends in which nothing rests. That is kept as well: what is sent when the clock is put back, behind a kill, stays."""
    market = Market(EVENING, hours=AT_TEN)
    over(market)
    market.clock.put("2030-01-01 21:59:50")
    one = market.engine().log_on()
    put(one, "day")
    market.clock.put("2030-01-01 22:00:10")
    market.edge.kill()
    market.start_again()
    one.close()
    is_caught_up(one.log_on())
    expect(asked(), [])


def test_made_anew() -> None:
    """The record is made anew from nothing, so nobody knows what was asked for: what was sent before the last end of the day
    ends at once, and all else, whatever it was, with the next one."""
    market = Market("2030-01-01 21:58:00", hours=AT_TEN)
    one = market.engine().log_on()
    put(one, "of yesterday", GTC, price="49")
    market.edge.stop()
    shutil.rmtree("edge")
    market.clock.put("2030-01-02 12:00:00")
    market.start_again()
    one.close()
    one = market.engine().log_on()
    expired(one, "1")
    put(one, "of today", GTC)
    market.sell()  # Its own time, as the venue has it, is of years ago.
    one.report(_150="F", _11="of today")
    market.edge.stop()
    shutil.rmtree("edge")
    market.start_again()
    one.close()
    one = market.engine().log_on()
    one.report(_150="0", _17="3")
    is_caught_up(one)
    expect([it for it in one.history if value(it, "150") == "C"], [])
    leave(market, one)
    market.clock.put(NEXT_EVENING)
    one.log_on()
    over(market, NEXT_OVER)
    expired(one, "4")


def test_record_without_ends() -> None:
    """A record whose edge ended no orders with the day: what rests by it ends with the next day, and not at the start."""
    market = Market(EVENING, hours=AT_TEN)
    one = market.engine().log_on()
    put(one, "old")
    market.edge.stop()
    changed(1, "ALTER TABLE session DROP COLUMN orders_ended", "PRAGMA user_version = 3")
    market.clock.put("2030-01-02 12:00:00")
    market.start_again()
    one.close()
    one = market.engine().log_on()
    put(one, "new", GTC)
    is_caught_up(one)
    expect(asked(), [])
    leave(market, one)
    market.clock.put(NEXT_EVENING)
    one.log_on()
    over(market, NEXT_OVER)
    expired(one, "old")
    is_there(one, "new")


def test_end_while_it_is_asked() -> None:
    """A day ends while the edge asks a venue that is back what that has taken in: it is kept, and nothing is sent before that is
    known."""
    market = Market(EVENING, hours=AT_TEN)
    market.edge.stop()
    market.edge = stuck(market).ready()
    one = market.engine().log_on()
    put(one, "day")
    market.venue.pause()
    one.send("D", order("lost", 1, 1, "50"))
    one.settle()
    with open("stuck", "w", encoding="ascii"):
        os.remove("reads")
    market.venue.kill()
    market.venue = again(market.port, SELLER, market.venue.port)
    venue_says_nothing(market)
    market.clock.put(OVER)
    is_kept(OWED)
    expect(rows(1, "SELECT * FROM names WHERE kind = 'e'"), [])
    market.venue.go_on()
    expect(value(one.report(_11="lost"), "58"), "edge: this request never reached the venue")
    expired(one, "day")
    is_caught_up(one)
    expect(asked(), [("day", True)])


def test_waits_for_the_venue() -> None:
    """The venue is back from a kill that has taken the cancels of a day's end, and doesn't say yet what it has: the member is
    held up, its orders and replaces are refused when that takes too long, and its cancels pass. Then what is Day ends."""
    market = Market(EVENING, hours=AT_TEN)
    market.edge.stop()
    market.edge = stuck(market).ready()
    one = market.engine().log_on()
    put(one, "day")
    put(one, "gtc", GTC)
    market.venue.pause()
    market.clock.put(OVER)
    is_kept(OWED)
    with open("stuck", "w", encoding="ascii"):
        os.remove("reads")
    market.venue.kill()
    market.venue = again(market.port, SELLER, market.venue.port)
    begin = venue_says_nothing(market)
    one.send("D", order("new", 1, 1, "50"))
    one.send("G", replace("other", "day", 1, 5, "50", more=GTC))
    one.send("F", cancel("gtc-x", "gtc", 1))
    expect([value(one.report(_11=name), "58") for name in ("new", "other")], [WAITS, WAITS])
    if time.monotonic() - begin < 3:
        raise Trouble("the member wasn't held up")
    market.venue.go_on()
    one.report(_150="4", _41="gtc")
    expired(one, "day")
    is_caught_up(one)
    expect(asked(), [("day", True)])
    put(one, "new, too")


TOLD_ALL = """#!/bin/sh
'{events}' "$@"
touch told
while [ -n "$STUCK" ] && [ -e stuck ]; do sleep 0.05; done
"""


def reads_nothing(process: int) -> bool:
    """Whether no program at work for the journal is a child of this process."""
    children = []
    for thread in os.listdir(f"/proc/{process}/task"):
        with open(f"/proc/{process}/task/{thread}/children", encoding="ascii") as file:
            children += file.read().split()
    return not any(map(is_there_yet, children))


def test_end_in_front_of_what_waits() -> None:
    """A day ends while the venue is away. What its member has sent by the time at which the journal is read to its end is read
    behind the day's end: a replace of an order that has ended comes too late."""
    market = Market(EVENING, hours=AT_TEN)
    market.edge.stop()
    market.edge = Edge(other_events(TOLD_ALL), env={**market.clock.env, "STUCK": "Y"}).ready()
    one = market.engine().log_on()
    put(one, "day")
    with open("stuck", "w", encoding="ascii"):
        os.remove("told")
    market.venue.kill()
    market.edge.hears("C1: the venue: ")
    market.clock.put(OVER)
    market.venue = again(market.port, SELLER, market.venue.port)
    await_that("all that the journal has", lambda: os.path.exists("told"))
    one.settle()
    process = market.edge.process_of(1)
    freeze(process)
    os.remove("stuck")
    one.send("G", replace("other", "day", 1, 5, "50"))
    await_that("the end of a reading", lambda: reads_nothing(process))
    os.kill(process, signal.SIGCONT)
    expired(one, "day")
    expect(value(one.report(_11="other"), "35"), "9")
    is_caught_up(one)
    expect(asked(), [("day", True)])


def test_end_not_kept() -> None:
    """The end of a day can't be kept: nothing is sent, and nothing told. It is ended once it can be."""
    market = Market(EVENING, hours=AT_TEN)
    one = market.engine().log_on()
    put(one, "day")
    market.edge.stop()
    changed(1, "CREATE TRIGGER no_ends BEFORE INSERT ON names WHEN NEW.kind = 'w' BEGIN SELECT raise(ABORT, 'no ends'); END")
    market.start_again()
    one.close()
    one.log_on()
    market.clock.put(OVER)
    market.edge.hears("C1: isn't served: edge/C1/C1.db: no ends")
    while one.pump(PATIENCE):
        pass
    market.edge.kill()
    expect((asked(), kept()["report"], rows(1, OWED)), ([], 1, []))
    changed(1, "DROP TRIGGER no_ends")
    market.start_again()
    one.log_on()
    expired(one, "day")
    ended_once(one, "day")


def test_end_of_numbers() -> None:
    """The venue takes no greater number than one that somebody else has used: what is Day stays, and that is said, once."""
    market = Market(EVENING, hours=AT_TEN)
    one = market.engine().log_on()
    put(one, "day")
    market.edge.kill()
    foreign = Client(market.venue.port, 1).log_on()
    foreign.send("D", venue_order(GREATEST, 1, 7, 4900))
    foreign.next()
    foreign.close()
    market.start_again()
    over(market, OVER, "C1: orders stay that were to be cancelled: the venue takes no greater number")
    one.close()
    one.log_on().settle()
    expect((asked(), len(market.lines("orders stay"))), ([], 1))


TESTS = [test_day_played_through, test_terms, test_lost_for_long, test_killed_over_the_end, test_stopped_over_the_end,
         test_many_ends_missed, test_end_without_the_venue, test_end_without_the_venue_and_killed, test_ends_killed,
         test_ends_and_venue_killed, test_ends_killed_twice, test_filled_meanwhile, test_replaced_meanwhile,
         test_with_other_cancels, test_away_with_cancel_on_disconnect, test_days_of_a_week, test_whole_week,
         test_ended_once, test_end_of_nothing, test_made_anew, test_record_without_ends, test_end_while_it_is_asked,
         test_waits_for_the_venue, test_end_in_front_of_what_waits, test_end_not_kept, test_end_of_numbers]
