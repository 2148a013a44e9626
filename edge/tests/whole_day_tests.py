"""A market's day, played through: a symbol is halted, a member stopped while it sends, the venue goes on at another machine, the
day ends, and the next one begins. What was told to each member is compared with the journal at the end."""
import os
import shutil

from differential import told_by, wanted_of
from edges import Client, again, await_that
from engines import GTC, cancel, order
from expiry_tests import MORNING, NIGHT, asked, expired, is_there, over, put
from market import SELLER, Market, is_caught_up
from switch_tests import HALTED, cancelled, done, is_refused, stopped_as_it_sends
from tradeclients import GTC as GTC_OF_STOCK, TradeClient
from trading_tests import expect

OPENING = "2030-01-01 08:00:00"
MACHINE = "another"  # The folder of what the other machine has.


def fail_over(market: Market) -> None:
    """Venue and edge are killed, and go on at another machine: with what stood on the disk, at the addresses that they had."""
    market.edge.kill()
    market.venue.kill()
    shutil.copytree(".", MACHINE, ignore=shutil.ignore_patterns(MACHINE, "client-*", "*.control", "*.copies"))
    os.chdir(MACHINE)
    market.venue = again(market.port, venue_port=market.venue.port, gateways=SELLER)
    market.start_again()
    market.seller = Client(market.venue.port, SELLER).log_on()


def test_whole_day() -> None:
    """One member has QuickFIX's own client. It is told of each fill as if nothing had happened, its Day order expires, and its GTC
    order trades on the next day. The other one is stopped as it sends, and nothing of that rests; its Day order goes, too."""
    market = Market(OPENING, 2, hours=NIGHT)
    one = TradeClient(market.port, 1, tuple(NIGHT.values()), market.clock.env).logged_on()
    two = market.engine(2).log_on()
    for name, term in (("day", 1), ("gtc", GTC_OF_STOCK)):
        one.order(name, 1, 100, "50", term=term)
        one.report(_150="0", _11=name)
    market.sell(2)
    for left in ("99", "98"):
        one.report(_150="F", _11="day", _151=left)

    done("halt ABC", "C1: ABC is halted", "C2: ABC is halted")
    put(two, "elsewhere", symbol="XYZ")
    is_refused(two, "D", order("halted", 1, 1, "48"), HALTED)
    two.send("F", cancel("x", "elsewhere", 1, 10, "XYZ"))
    cancelled(two, "elsewhere")
    done("resume ABC", "C1: ABC trades again", "C2: ABC trades again")

    stopped_as_it_sends(two)
    is_caught_up(two)
    done("stop C2", "C2: stopped, and no order rested")
    done("resume C2", "C2: trades again")
    put(two, "theirs", price="48")
    put(two, "their gtc", GTC, price="48")

    fail_over(market)
    market.sell()
    one.report(_150="F", _11="day", _151="97")
    two.close()
    is_caught_up(two.log_on())
    expect(told_by(two.history), wanted_of(2))
    over(market)
    for member, name in ((1, "day"), (2, "theirs")):
        await_that("its end", lambda: asked(member) == [(name, True)])
    market.clock.put(MORNING)
    one.report(_150="C", _11="day", _14="3")
    market.sell()
    one.report(_150="F", _11="gtc", _151="99")
    two = market.engine(2).log_on()
    expired(two, "theirs")
    is_there(two, "their gtc")
    expect(told_by(is_caught_up(two).history), wanted_of(2)[-2:])
    expect([it["150"] for it in wanted_of(1)], ["0", "0", "F", "F", "F", "C", "F"])


TESTS = [test_whole_day]
