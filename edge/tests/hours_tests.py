"""The hours of a session, by a clock that the test puts forward: its numbers begin anew at their end, once, and nobody
logs on outside of them. No order is cancelled by that."""
import os
import time

from clocks import Clock
from edges import PATIENCE, Client, again, await_that, free_port, page_at, told
from engines import GTC, order
from gikvand.fix import value
from gikvand.words import sure
from market import BEGUN, SELLER, Market, at_rest_for_long, is_caught_up, kept, leave, of_journal, places
from tradeclients import TradeClient
from trading_tests import expect

WEEK = {"StartDay": "Sunday", "StartTime": "22:00:00", "EndDay": "Friday", "EndTime": "21:00:00"}  # In January 2030,
FRIDAY, SATURDAY, SUNDAY = "2030-01-04 ", "2030-01-05 ", "2030-01-06 "                             # these are its days.
NIGHT = {"StartTime": "06:00:00", "EndTime": "22:00:00"}
SECRET = "553=desk|554=secret|"


def secrets() -> str:
    with open("passwords", "w", encoding="ascii") as file:
        file.write("desk:secret\n")
    os.chmod("passwords", 0o600)
    return "passwords"


def test_week() -> None:
    """A session of a week: its numbers go on over each midnight, and begin anew at its end. Who logs on at the weekend
    is told the hours, and no number moves; what is filled there is told in the new week."""
    market = Market("2030-01-03 23:59:00", hours=WEEK)
    one = at_rest_for_long(market.port, "a", 9)
    leave(market, one)  # A session in which nothing comes for hours is ended by the library.
    market.clock.put(FRIDAY + "20:59:30")
    market.sell()
    one.log_on().report(_150="F")
    is_caught_up(one)
    expect(market.lines("a new day"), [])
    expect(market.new_day(FRIDAY + "21:00:00")[1], BEGUN)
    expect(value(sure(one.next_of("5")), "58"), "edge: the day ends")
    market.clock.put(SATURDAY + "12:00:00")
    market.sell(2)
    await_that("both are stored", lambda: kept()["report"] == of_journal()[-1])
    for number in (7, 1):
        early = market.engine().connect()
        early.out = number
        early.send("A", "98=0|108=30|")
        while early.pump(PATIENCE):
            pass
        expect([[value(it, tag) for tag in ("35", "34", "43", "45", "58")] for it in early.came],
               [["3", "0", "Y", str(number), "edge: the session's hours are Sunday 22:00:00 to Friday 21:00:00 UTC"]])
        expect([kept()[name] for name in ("sender", "target", "heard")], [3, 1, 1])
    expect(len(market.lines("is refused: the session's hours are Sunday")), 2)
    market.clock.put(SUNDAY + "21:59:00")
    early.connect().write("A", "98=0|108=30|")
    while early.pump(PATIENCE):
        pass
    market.clock.put(SUNDAY + "22:00:00")
    back = is_caught_up(market.engine().log_on())
    expect((places(one) + places(back), len(market.lines("a new day"))), (of_journal(), 1))
    leave(market, back)
    market.clock.put("2030-01-07 00:00:30")
    market.sell()
    back.log_on().report(_150="F", _17=of_journal()[-1])
    is_caught_up(back)
    expect(len(market.lines("a new day")), 1)


def test_once() -> None:
    """A day ends once, whatever the clock does: put back over the end, and forward again, it ends no second time.
    Behind a clock that was years ahead days go on to end."""
    market = Market("2030-01-01 21:59:00", hours={"StartTime": "08:00:00", "EndTime": "22:00:00"})
    expect(market.new_day("2030-01-01 22:00:01")[1], BEGUN)
    market.clock.put("2030-01-02 08:00:00")
    one = at_rest_for_long(market.port, "a", 9)
    for now in ("2030-01-01 21:59:58", "2030-01-01 22:00:02"):
        market.clock.put(now)
        market.sell()
        one.report(_150="F")
        is_caught_up(one)
        is_caught_up(one)
    leave(market, one)  # A session in which nothing comes for hours is ended by the library.
    market.clock.put("2030-01-02 21:55:00")
    market.sell()
    one.log_on().report(_150="F")
    is_caught_up(one)
    expect((len(market.lines("a new day")), places(one)), (1, of_journal()))
    expect((kept()["sender"], kept()["target"]), (one.next, one.out))
    market.new_day("2036-01-01 12:00:00")
    market.clock.put("2030-01-02 21:59:30")
    market.edge.hears("its numbers began at 20360101-12:0")
    expect(market.new_day("2030-01-02 22:00:00")[1], BEGUN)


def test_orders_stay() -> None:
    """CancelOnDisconnect: what rests stays when the day ends, also where the venue or the edge is started again, or a
    stranger comes and goes, before its member is back. When its own connection is cut in the new day it goes."""
    market = Market("2030-01-01 21:59:00", hours=NIGHT, CancelOnDisconnect="Y", Username="desk", PasswordFile=secrets())
    one = market.engine().log_on(SECRET)
    one.send("D", order("a", 1, 9, "50", more=GTC))
    one.report(_150="0", _11="a")
    market.new_day("2030-01-01 22:00:00")
    market.sell()
    market.venue.kill()
    market.edge.hears("C1: the venue: ")
    market.venue = again(market.port, SELLER, market.venue.port)
    market.edge.hears("C1: serves")
    market.edge.stop()
    market.start_again()
    market.clock.put("2030-01-02 06:00:00")
    stranger = market.engine().connect()
    stranger.send("A", "98=0|108=30|553=desk|554=wrong|")
    while stranger.pump(PATIENCE):
        pass
    time.sleep(0.5)  # Longer than the edge waits behind a wrong password.
    market.seller = Client(market.venue.port, SELLER).log_on()
    market.sell()
    one.close()
    back = market.engine().log_on(SECRET)
    back.report(_150="F", _151="7")
    expect(([it for it in told(1) if value(it, "150") == "4"], market.lines("cancels")), ([], []))
    leave(market, back)
    market.edge.hears("C1: cancels 1 orders: the member is away")


def test_stock_engine_at_night() -> None:
    """QuickFIX's own client, whose clock is ahead, logs on before the hours, and is refused in words that it doesn't
    count. When the hours have begun it asks for all that was filled at night."""
    market = Market("2030-01-01 21:59:00", hours=NIGHT)
    one = at_rest_for_long(market.port, "a", 9)
    market.new_day("2030-01-01 22:00:00")
    one.close()
    market.sell(2)
    await_that("both are stored", lambda: kept()["report"] == of_journal()[-1])
    market.clock.put("2030-01-02 05:59:20")
    ahead = Clock("2030-01-02 06:00:20", "clock-ahead")
    client = TradeClient(market.port, 1, tuple(NIGHT.values()), ahead.env)
    for _ in range(2):
        market.edge.hears("is refused: the session's hours are 06:00:00 to 22:00:00 UTC")
    market.clock.put("2030-01-02 06:00:01")
    client.logged_on()
    for number in of_journal()[-2:]:
        client.report(_150="F", _17=number)


def test_page() -> None:
    """The page says when the numbers began."""
    page = free_port(1)
    market = Market("2030-01-01 23:59:00", HttpAcceptPort=page)
    market.new_day("2030-01-02 00:00:00")
    expect(", numbers since 20300102-00:00:" in page_at(page), True)
    expect('gikvand_edge_day_began_seconds{member="C1"} 18935424' in page_at(page, "metrics"), True)


TESTS = [test_week, test_once, test_orders_stay, test_stock_engine_at_night, test_page]
