"""A member's limits in front of the venue: symbols, quantities, values, a collar, only closing and self-trades. Each is tried
at its value, one above and one below. What a limit refuses never reaches the venue, and stays refused over kills."""
import os
import re
import signal
import socket
import threading
import time
from collections.abc import Iterator, Mapping, Sequence
from decimal import Decimal

from differential import MEMBERS, Run, are_refused, compare, is_same, refused_by, told_by, wanted_of
from edges import EVENTS, JOURNAL, PATIENCE, SYMBOLS, Client, Edge, Trouble, Venue, again, await_that, free_port, freeze, members_of
from edges import children_of, in_folders, is_there, page_at, processes_below, settings_of, started, stored, told, venue_order
from engines import GTC, Engine, cancel, order, replace
from gikvand.fix import fields_of, value
from gikvand.words import sure
from relay import Relay
from recovery_tests import restarted
from switch_tests import called, is_refused
from tradeclients import TradeClient
from trading_tests import expect, logged, rejects
from venues import Late

EXCEEDS, OPTION = "3", "0"  # Reasons of 103.
UNREAD, WAITED = 1, 5  # Seconds in which nothing is answered, of those in which the venue is waited for.
MARKET = "40=1|"


def limited(members: int = 2, others: Mapping[str, object] | None = None, common: Mapping[str, object] | None = None,
            **limits: str) -> tuple[Venue, Edge, int]:
    """A venue, an edge and its port: C1 has these limits, and the other members have others."""
    venue = started(JOURNAL, members, list(SYMBOLS))
    port = free_port(members)
    sessions = members_of(members, port)
    for at, it in enumerate(sessions):
        it.update(limits if at == 0 else others or {})
    edge = Edge(settings_of({"VenuePort": venue.port, **(common or {})}, sessions)).ready(members)
    return venue, edge, port


def desks(port: int, members: int = 2) -> list[Engine]:
    return [Engine(port, k).log_on() for k in range(1, members + 1)]


def market(name: str, side: int, quantity: int, symbol: str = "ABC", more: str = "") -> str:
    return order(name, side, quantity, "", symbol, more).replace("40=2|44=|", MARKET)


def taken(one: Engine, name: str, side: int, quantity: int, price: str, symbol: str = "ABC", more: str = "") -> None:
    """An order that no limit refuses."""
    one.send("D", order(name, side, quantity, price, symbol, more))
    one.report(_150="0", _11=name)


def replaced(one: Engine, name: str, original: str, side: int, quantity: int, price: str, symbol: str = "ABC") -> None:
    one.send("G", replace(name, original, side, quantity, price, symbol))
    one.report(_150="5", _11=name, _41=original)


def cancelled(one: Engine, name: str, original: str, side: int, symbol: str = "ABC") -> None:
    one.send("F", cancel(name, original, side, symbol=symbol))
    one.report(_150="4", _41=original)


def traded(one: Engine, other: Engine, name: str, quantity: int, price: str, symbol: str = "ABC", side: int = 1) -> None:
    """One buys of the other, or sells where the side says so."""
    taken(one, name, side, quantity, price, symbol)
    other.send("D", order(name, 3 - side, quantity, price, symbol))
    other.report(_150="F", _11=name)
    one.report(_150="F", _11=name)


def no_order(one: Engine, body: str, text: str, reason: str = EXCEEDS) -> None:
    """An order that a limit refuses, in these words."""
    is_refused(one, "D", body, f"edge: {text}", _35="8", _150="8", _39="8", _103=reason)


def no_replace(one: Engine, body: str, text: str, status: str = "0") -> None:
    is_refused(one, "G", body, f"edge: {text}", _35="9", _102="2", _434="2", _39=status)


def agrees(*engines: Engine) -> None:
    """What each of these was told, and its record has, is what the journal has: no refusal is told twice, or traded."""
    for k, it in enumerate(engines, 1):
        it.settle()
        wanted, end = wanted_of(k), time.monotonic() + PATIENCE
        while len(told_by(it.history)) < len(wanted) and time.monotonic() < end:  # Another member may have been told before it.
            it.pump(0.1)
        is_same(k, told_by(stored(k)), wanted, "its record")
        is_same(k, told_by(it.history), wanted, "what it was sent")
        are_refused(k, refused_by(stored(k)), "its record")
        are_refused(k, refused_by(it.history), "what it was sent")


def killed(venue: Venue, edge: Edge, port: int, *engines: Engine, is_venue: bool = True) -> tuple[Venue, Edge]:
    """All processes are killed, and started again: the venue and the edge. The engines come back."""
    edge.kill()
    if is_venue:
        venue.kill()
        venue = again(port, len(engines), venue.port)
    edge = restarted(len(engines))
    for it in engines:
        it.close()
        it.log_on()
    return venue, edge


def sent_again(one: Engine, body: str) -> None:
    """What was refused is sent again, as engines do behind a kill: it is passed over."""
    count = len(one.history)
    one.write("D", body, head="97=Y|")
    one.out += 1
    one.settle()
    expect(one.history[count:], [])


def test_symbols() -> None:
    """A member trades the symbols of its settings, and no other one; another member trades all."""
    venue, edge, port = limited(TradeSymbols="XYZ")
    one, other = desks(port)
    text = "Symbol (55) ABC is none of TradeSymbols (XYZ)"
    body = order("a", 1, 10, "50")
    no_order(one, body, text, OPTION)
    taken(one, "b", 1, 10, "50", "XYZ")
    replaced(one, "c", "b", 1, 9, "50", "XYZ")
    no_replace(one, replace("d", "c", 1, 9, "50"), text)
    taken(other, "x", 1, 10, "50")
    venue, edge = killed(venue, edge, port, one, other)
    no_order(one, order("e", 2, 10, "50"), text, OPTION)
    sent_again(one, body)
    cancelled(one, "f", "c", 1, "XYZ")
    agrees(one, other)


def test_quantity() -> None:
    """The greatest OrderQty, of orders and replaces."""
    venue, edge, port = limited(MaxOrderQuantity="100")
    one, other = desks(port)

    def above(quantity: int) -> str:
        return f"OrderQty (38) {quantity} is above MaxOrderQuantity (100)"
    taken(one, "a", 1, 99, "50")
    taken(one, "b", 1, 100, "50")
    no_order(one, order("c", 1, 101, "50"), above(101))
    no_order(one, market("d", 1, 1000000), above(1000000))
    replaced(one, "e", "a", 1, 100, "50")
    no_replace(one, replace("f", "e", 1, 101, "50"), above(101))
    taken(other, "x", 1, 101, "49")
    venue, edge = killed(venue, edge, port, one, other)
    no_order(one, order("g", 1, 101, "50"), above(101))
    sent_again(one, order("c", 1, 101, "50"))
    no_replace(one, replace("h", "e", 1, 101, "50"), above(101))
    taken(one, "i", 1, 100, "50")
    agrees(one, other)


def test_value() -> None:
    """The greatest value of an order: price times quantity. A market order has that of the market's last trade, and is
    refused before there is one."""
    venue, edge, port = limited(MaxOrderValue="5000")
    one, other = desks(port)

    def above(worth: str) -> str:
        return f"the order's value {worth} is above MaxOrderValue (5000)"
    taken(one, "a", 1, 1, "4999.99")
    taken(one, "b", 1, 1, "5000")
    no_order(one, order("c", 1, 1, "5000.01"), above("5000.01"))
    no_order(one, order("d", 1, 1000000, "10000"), above("10000000000"))
    taken(one, "e", 1, 20000, "0.25", "XYZ")
    no_order(one, order("f", 1, 20001, "0.25", "XYZ"), above("5000.25"))
    replaced(one, "g", "e", 1, 100, "50", "XYZ")
    no_replace(one, replace("h", "g", 1, 101, "50", "XYZ"), above("5050"))
    needs = "a market order has no value before the first trade of ABC, which MaxOrderValue (5000) needs: send a limit order"
    no_order(one, market("i", 2, 1), needs)
    for name in "ab":
        cancelled(one, f"-{name}", name, 1)
    traded(one, other, "t", 10, "50")
    taken(other, "x", 2, 300, "50")
    one.send("D", market("j", 1, 100))
    one.report(_150="F", _11="j", _39="2")
    no_order(one, market("k", 1, 101), above("5050"))
    venue, edge = killed(venue, edge, port, one, other)
    no_order(one, market("l", 1, 101), above("5050"))
    one.send("D", market("m", 1, 99))
    one.report(_150="F", _11="m", _39="2")
    no_order(one, order("n", 1, 1, "5000.01"), above("5000.01"))
    agrees(one, other)


def open_above(worth: str) -> str:
    return f"the value of all that is open would be {worth}, above MaxOpenValue (1000)"


def test_open_value() -> None:
    """The greatest value of all that is open, over symbols: a fill, a cancel and a smaller replace give room, and a replace
    counts in the place of its order. It is known again behind kills."""
    venue, edge, port = limited(MaxOpenValue="1000")
    one, other = desks(port)
    taken(one, "a", 1, 10, "60")
    no_order(one, order("b", 1, 401, "1", "XYZ"), open_above("1001"))
    no_order(one, order("c", 2, 1, "400.01"), open_above("1000.01"))
    taken(one, "d", 1, 399, "1", "XYZ")
    taken(one, "e", 2, 1, "1", "XYZ", "59=4|")  # It trades with d.
    cancelled(one, "f", "d", 1, "XYZ")
    taken(one, "g", 1, 400, "1", "XYZ")
    no_order(one, order("h", 1, 1, "0.01"), open_above("1000.01"))
    replaced(one, "i", "a", 1, 60, "10")
    no_replace(one, replace("j", "i", 1, 61, "10"), open_above("1010"))
    other.send("D", order("x", 2, 10, "10"))
    one.report(_150="F", _11="i", _151="50")
    no_order(one, order("k", 1, 1, "100.01"), open_above("1000.01"))
    no_replace(one, replace("l", "i", 1, 71, "10"), open_above("1010"), status="1")
    venue.pause()
    one.send("D", order("k1", 1, 1, "100"))
    one.settle()
    venue.kill()
    edge.hears("C1: the venue:")
    venue = again(port, 2, venue.port)
    edge.hears("C1: serves, behind report")
    expect(value(one.report(_11="k1"), "58"), "edge: this request never reached the venue")
    no_order(one, order("k2", 1, 1, "100.01"), open_above("1000.01"))
    taken(one, "k3", 1, 1, "100")
    cancelled(one, "k4", "k3", 1)
    venue, edge = killed(venue, edge, port, one, other)
    no_order(one, order("m", 1, 1, "100.01"), open_above("1000.01"))
    no_replace(one, replace("n", "i", 1, 71, "10"), open_above("1010"), status="1")
    replaced(one, "o", "i", 1, 70, "10")
    no_order(one, order("p", 1, 1, "0.01"), open_above("1000.01"))
    replaced(one, "q", "o", 1, 69, "10")
    taken(one, "r", 1, 1, "9.99")
    sent_again(one, order("h", 1, 1, "0.01"))
    agrees(one, other)


def test_open_value_of_a_market_order() -> None:
    """A market order counts as open while the venue hasn't answered it, by the last trade."""
    venue, edge, port = limited(MaxOpenValue="1000")
    one, other = desks(port)
    no_order(one, market("a", 2, 1),
             "a market order has no value before the first trade of ABC, which MaxOpenValue (1000) needs: send a limit order")
    traded(one, other, "t", 10, "50")
    no_order(one, market("b", 2, 21), open_above("1050"))
    venue.pause()
    one.send("D", market("c", 2, 19))
    no_order(one, order("d", 1, 1, "50.01"), open_above("1000.01"))
    one.send("D", order("e", 1, 1, "50"))
    venue.go_on()
    one.report(_150="4", _11="c")
    one.report(_150="0", _11="e")
    taken(one, "f", 1, 19, "50")
    agrees(one, other)


def test_open_under_way() -> None:
    """What the venue hasn't answered is open. A replace counts as the greater one of both until it is answered, and what
    the venue refuses is open no longer."""
    venue, edge, port = limited(MaxOpenValue="1000")
    one, other = desks(port)
    taken(one, "a", 1, 10, "50")
    venue.pause()
    one.send("D", order("b", 1, 1, "400"))
    no_order(one, order("c", 1, 1, "100.01"), open_above("1000.01"))
    one.send("G", replace("d", "a", 1, 12, "50"))
    no_order(one, order("e", 1, 1, "0.01"), open_above("1000.01"))
    one.send("G", replace("f", "d", 1, 2, "50"))
    no_order(one, order("g", 1, 1, "0.01"), open_above("1000.01"))
    no_replace(one, replace("h", "b", 1, 1, "400.01"), open_above("1000.01"), status="8")
    venue.go_on()
    one.report(_150="5", _11="f")
    taken(one, "i", 1, 1, "500")
    no_order(one, order("j", 1, 1, "0.01"), open_above("1000.01"))
    venue.pause()
    one.send("G", replace("k", "i", 1, 1, "499") + "59=3|")  # The venue refuses that.
    no_order(one, order("l", 1, 1, "0.01"), open_above("1000.01"))
    venue.go_on()
    one.report(_35="9", _11="k")
    no_order(one, order("m", 1, 1, "0.01"), open_above("1000.01"))
    cancelled(one, "n", "i", 1)
    taken(one, "o", 1, 1, "500")
    agrees(one, other)


def test_open_in_doubt(is_venue_killed: bool = False) -> None:
    """The edge is killed when the venue hasn't answered an order. Until it is known what became of that, no other one passes
    that would be too much together with it."""
    venue, edge, port = limited(MaxOpenValue="1000")
    one, other = desks(port)
    taken(one, "a", 1, 10, "50")
    venue.pause()
    one.send("D", order("b", 1, 10, "50"))
    one.settle()
    edge.kill()
    if is_venue_killed:
        venue.kill()
        again(port, 2, venue.port)
    else:
        venue.go_on()
    edge = restarted(2)
    one.close()
    other.close()
    other.log_on()
    one.log_on().send("D", order("c", 1, 10, "50"))
    came = fields_of(one.report(_11="c"))
    told_of_b = fields_of(next(it for it in one.history if value(it, "11") == "b"))
    wanted = {"8": ("0", None), "0": ("8", open_above("1500"))}[told_of_b["150"]]
    expect((came["150"], came.get("58", "").removeprefix("edge: ") or None), wanted)
    agrees(one, other)


def test_open_in_doubt_of_a_venue() -> None:
    test_open_in_doubt(True)


class Silent(Relay):
    """A relay in front of the venue, which loses a new order, and holds back what tells the edge so."""

    def __init__(self, venue: Venue) -> None:
        super().__init__(free_port(1), venue.port)
        self.held: list[tuple[str, socket.socket]] = []
        self.is_holding = True
        self.loses = lambda text, is_edges: is_edges and value(text, "35") == "D" and value(text, "38") == "7"
        self.start()

    def pass_on(self, text: str, is_members: bool, to: socket.socket) -> bool:
        with self.changed:
            if self.is_holding and not is_members and value(text, "35") == "9":
                self.held.append((text, to))
                return True
        return super().pass_on(text, is_members, to)

    def let_go(self) -> None:
        with self.changed:
            self.is_holding, held = False, self.held
        for text, to in held:
            super().pass_on(text, False, to)


def in_doubt() -> tuple[Venue, Edge, Silent, int, Engine]:
    """An edge that was killed when the venue hadn't got an order of 350, and that isn't told so yet; the relay that holds it
    back, the venue, the edge's port, and the member, of whom an order of 500 rests."""
    venue, port = started(JOURNAL, 1, list(SYMBOLS)), free_port(1)
    relay = Silent(venue)
    edge = Edge(settings_of({"VenuePort": relay.door.getsockname()[1]}, members_of(1, port, MaxOpenValue="1000"))).ready()
    one, = desks(port, 1)
    taken(one, "a", 1, 10, "50")
    one.send("D", order("b", 1, 7, "50"))
    await_that("a lost order", lambda: any(value(it, "38") == "7" for it in relay.said))
    edge.kill()
    edge = restarted()
    one.close()
    await_that("what the edge isn't told", lambda: relay.held)
    return venue, edge, relay, port, one


def test_open_unknown() -> None:
    """The venue doesn't say what it has taken of before: what a limit on all that is open is about is refused, behind five
    seconds. Cancels pass. Once the venue says so the limit is judged again."""
    venue, edge, relay, port, one = in_doubt()
    unknown = "MaxOpenValue (1000) can't be judged: the venue hasn't said what it has taken of before"
    one.log_on()
    no_order(one, order("c", 1, 1, "50"), unknown, OPTION)
    no_replace(one, replace("d", "a", 1, 1, "50"), unknown)
    relay.let_go()
    expect(value(one.report(_11="b"), "58"), "edge: this request never reached the venue")
    no_order(one, order("e", 1, 1, "500.01"), open_above("1000.01"))
    taken(one, "f", 1, 1, "500")
    cancelled(one, "g", "a", 1)
    agrees(one)


def test_open_waits() -> None:
    """The member isn't read until that is known, and none of its requests is refused for it."""
    def run(number: int) -> None:
        venue, edge, relay, port, one = in_doubt()
        count, begin = len(one.came), time.monotonic()
        one.connect().send("A", "98=0|108=30|")
        one.send("D", order("c", 1, 1, "500"))
        edge.hears("C1: a client from")
        one.pump(UNREAD)
        if one.came[count:]:
            raise Late(f"the relay was too late: {one.came[count:]}")
        relay.let_go()
        event = value(one.report(_11="c"), "150")
        if event != "0" and time.monotonic() - begin > WAITED:
            raise Late(f"the relay was {time.monotonic() - begin:.1f} s late")
        expect(event, "0")
        agrees(one)
    in_folders(run, "test_open_waits")


def with_limits(edge: Edge, *engines: Engine, **limits: str) -> Edge:
    """The edge is stopped, and started with these limits of C1; the engines come back."""
    edge.stop()
    with open("edge.cfg", encoding="ascii") as file:
        text = file.read()
    text = re.sub(rf"^({'|'.join(limits)})=.*\n", "", text, flags=re.M)
    more = "".join(f"{name}={it}\n" for name, it in limits.items())
    edge = Edge(text.replace("Member=C1\n", f"Member=C1\n{more}")).ready(max(1, len(engines)))
    for it in engines:
        it.close()
        it.log_on()
    return edge


def closes(what: str, quantity: int, beside: int, position: int) -> str:
    return (f"a {what} of {quantity} beside {beside} that are open would do more than close the position of {position}: "
            "OnlyClosing (Y)")


def test_only_closing() -> None:
    """Only what makes a position smaller passes, together with all that is open of its side. The position is that of all
    fills in the journal, so it is known again behind kills."""
    venue, edge, port = limited()
    one, other = desks(port)
    traded(one, other, "long", 100, "50")
    traded(one, other, "short", 20, "50", "XYZ", side=2)
    edge = with_limits(edge, one, other, OnlyClosing="Y")
    no_order(one, order("a", 2, 101, "51"), closes("sale", 101, 0, 100), OPTION)
    no_order(one, order("b", 1, 1, "49"), closes("purchase", 1, 0, 100), OPTION)
    no_order(one, market("c", 2, 101), closes("sale", 101, 0, 100), OPTION)
    taken(one, "d", 2, 60, "51")
    no_order(one, order("e", 2, 41, "51"), closes("sale", 41, 60, 100), OPTION)
    taken(one, "f", 2, 39, "51")
    no_replace(one, replace("g", "f", 2, 41, "51"), closes("sale", 41, 60, 100))
    replaced(one, "h", "f", 2, 40, "51")
    no_order(one, order("i", 1, 21, "49", "XYZ"), closes("purchase", 21, 0, -20), OPTION)
    no_order(one, order("j", 2, 1, "51", "XYZ"), closes("sale", 1, 0, -20), OPTION)
    taken(one, "k", 1, 20, "49", "XYZ")
    other.send("D", order("x", 1, 30, "51"))
    one.report(_150="F", _11="d", _151="30")
    no_order(one, order("l", 2, 1, "51"), closes("sale", 1, 70, 70), OPTION)
    no_replace(one, replace("m", "d", 2, 61, "51"), closes("sale", 31, 40, 70), status="1")
    venue.kill()
    edge.hears("C1: the venue:")
    venue = again(port, 2, venue.port)
    edge.hears("C1: serves, behind report")
    no_order(one, order("m2", 2, 1, "51"), closes("sale", 1, 70, 70), OPTION)
    venue, edge = killed(venue, edge, port, one, other)
    no_order(one, order("n", 2, 1, "51"), closes("sale", 1, 70, 70), OPTION)
    sent_again(one, order("e", 2, 41, "51"))
    cancelled(one, "o", "h", 2)
    taken(one, "p", 2, 39, "51")
    taken(one, "q", 2, 1, "51")
    no_order(one, order("r", 2, 1, "51"), closes("sale", 1, 70, 70), OPTION)
    other.send("D", order("y", 1, 70, "51"))
    one.report(_150="F", _11="q")
    no_order(one, order("s", 2, 1, "51"), closes("sale", 1, 0, 0), OPTION)
    no_order(one, order("t", 1, 1, "51"), closes("purchase", 1, 0, 0), OPTION)
    agrees(one, other)


def test_only_closing_under_way() -> None:
    """What the venue hasn't answered may close the position already, and no fill closes it twice."""
    venue, edge, port = limited()
    one, other = desks(port)
    traded(one, other, "long", 100, "50")
    edge = with_limits(edge, one, other, OnlyClosing="Y")
    venue.pause()
    one.send("D", order("a", 2, 99, "50"))
    no_order(one, order("b", 2, 2, "50"), closes("sale", 2, 99, 100), OPTION)
    one.send("D", order("c", 2, 1, "50"))
    no_order(one, market("d", 2, 1), closes("sale", 1, 100, 100), OPTION)
    venue.go_on()
    one.report(_150="0", _11="c")
    other.send("D", order("x", 1, 100, "50"))
    one.report(_150="F", _11="c")
    no_order(one, order("e", 2, 1, "50"), closes("sale", 1, 0, 0), OPTION)
    agrees(one, other)


def outside(price: str, low: str, high: str, collar: str, reference: str) -> str:
    return f"Price (44) {price} isn't {low} to {high}, which is PriceCollar ({collar}) round {reference}"


def tries(one: Engine, name: str, price: str, symbol: str = "ABC") -> bool:
    """Whether no limit refuses an order at this price: it trades all at once, or nothing."""
    one.send("D", order(name, 1, 1000000, price, symbol, "59=4|"))
    return value(one.report(_11=name), "150") == "0"


def awaits(one: Engine, name: str, price: str, symbol: str = "ABC") -> None:
    """Waits until an order at this price is taken, since the market has come there."""
    count = iter(range(10000))
    await_that(f"an order at {price}", lambda: tries(one, f"{name}{next(count)}", price, symbol))


def no_price(one: Engine, name: str, price: str, text: str, symbol: str = "ABC") -> None:
    no_order(one, order(name, 1, 1000000, price, symbol, "59=4|"), text)


def bounds(one: Engine, name: str, low: float, high: float, collar: str, reference: str, symbol: str = "ABC", step: float = 0.01) -> None:
    """Prices at both ends of the collar pass, and those one step beyond don't."""
    for price in (low, high):
        expect((price, tries(one, f"{name}{price}", f"{price:.2f}", symbol)), (price, True))
    for price in (low - step, high + step):
        no_price(one, f"{name}{price}", f"{price:.2f}",
                 outside(f"{price:.2f}", f"{low:.2f}", f"{high:.2f}", collar, reference), symbol)


def test_collar() -> None:
    """Prices are within so many steps of the last trade in the market, whoever traded. A symbol without a trade has a price of
    the settings in its place, or is refused. A market order is refused."""
    venue, edge, port = limited(3, PriceCollar="500", ReferencePrices="ABC:50")
    one, other, third = desks(port, 3)
    bounds(one, "a", 45, 55, "500", "50.00")
    no_order(one, market("b", 1, 1), "a market order has no price to be within PriceCollar (500): send a limit order")
    no_price(one, "c", "50", "no trade of XYZ is known, nor a ReferencePrices, for PriceCollar (500)", "XYZ")
    traded(third, other, "t", 10, "52")
    traded(third, other, "u", 10, "300.25", "XYZ")
    awaits(one, "d", "57")
    bounds(one, "e", 47, 57, "500", "52.00")
    awaits(one, "f", "425.25", "XYZ")
    bounds(one, "g", 175.25, 425.25, "500", "300.25", "XYZ", 0.25)
    taken(one, "h", 1, 1, "47")
    no_replace(one, replace("i", "h", 1, 1, "57.01"), outside("57.01", "47.00", "57.00", "500", "52.00"))
    replaced(one, "j", "h", 1, 1, "48")
    venue, edge = killed(venue, edge, port, one, other, third)
    bounds(one, "k", 47, 57, "500", "52.00")
    bounds(one, "l", 175.25, 425.25, "500", "300.25", "XYZ", 0.25)
    sent_again(one, market("b", 1, 1))
    traded(third, other, "v", 10, "49")
    awaits(one, "m", "44")
    bounds(one, "n", 44, 54, "500", "49.00")
    agrees(one, other, third)


def test_collar_in_per_cent() -> None:
    """The same by a part of the price, which is rounded down to a step. No bound is below the least price, or above the greatest."""
    venue, edge, port = limited(3, PriceCollar="10%", ReferencePrices="ABC:33.33 XYZ:0.25")
    one, other, third = desks(port, 3)
    bounds(one, "a", 30, 36.66, "10%", "33.33")
    no_price(one, "b", "0.50", outside("0.50", "0.25", "0.25", "10%", "0.25"), "XYZ")
    expect(tries(one, "c", "0.25", "XYZ"), True)
    traded(third, other, "t", 1, "9999")
    awaits(one, "d", "10000")
    no_price(one, "e", "8999.09", outside("8999.09", "8999.10", "10000.00", "10%", "9999.00"))
    expect(tries(one, "f", "8999.10"), True)
    agrees(one, other, third)


def followers(edge: Edge, member: str = "C1") -> list[int]:
    """The processes that tell that of C1 of the market, or that of another one of what it copies."""
    process = int(children_of(edge.process.pid).get(member, -1))
    return [pid for pid, words in processes_below(process) if "follow" in words]


def test_market_followed() -> None:
    """What tells the market ends, and begins anew behind that: the last trade is known meanwhile, and the next one soon. A
    member without such a limit has none of it."""
    venue, edge, port = limited(3, PriceCollar="1%")
    one, other, third = desks(port, 3)
    traded(third, other, "t", 10, "50")
    awaits(one, "a", "50")
    await_that("a follower", lambda: len(followers(edge)) == 1)
    os.kill(followers(edge)[0], signal.SIGKILL)
    edge.hears("C1: the market isn't followed, and that begins anew: venue-events can't read the journal venue.journal: signal 9")
    bounds(one, "b", 49.5, 50.5, "1%", "50.00")
    traded(third, other, "u", 10, "60")
    awaits(one, "c", "60.60")
    bounds(one, "d", 59.4, 60.6, "1%", "60.00")
    expect(len(followers(edge)), 1)
    last, = followers(edge)
    os.kill(edge.process_of(1), signal.SIGKILL)
    await_that("an end of what told it", lambda: not is_there(last))
    edge.hears("C1: serves, behind report")
    one.close()
    one.log_on()
    bounds(one, "f", 59.4, 60.6, "1%", "60.00")
    edge = with_limits(edge, one, other, third, PriceCollar="0")
    taken(one, "e", 1, 1, "1")
    expect(followers(edge), [])
    agrees(one, other, third)


def events_by(text: str) -> str:
    """A program in the place of venue-events, which does this in front of it: its path."""
    with open("events", "w", encoding="ascii") as file:
        file.write(f'#!/bin/sh\n{text}\nexec {EVENTS} "$@"\n')
    os.chmod("events", 0o755)
    return os.path.abspath("events")


def test_market_that_cannot_be_followed() -> None:
    """Where the program that tells the market can't be started the member trades by what was told last, and it is tried again."""
    events = events_by("")
    venue, edge, port = limited(2, common={"VenueEvents": events}, PriceCollar="1%", ReferencePrices="ABC:50")
    one, other = desks(port)
    await_that("a follower", lambda: len(followers(edge)) == 1)
    os.chmod(events, 0o644)
    os.kill(followers(edge)[0], signal.SIGKILL)
    edge.hears("C1: the market isn't followed, and that begins anew: venue-events can't be started: Permission denied")
    bounds(one, "a", 49.5, 50.5, "1%", "50.00")
    os.chmod(events, 0o755)
    await_that("another follower", lambda: len(followers(edge)) == 1)
    expect([it for it in edge.lines if "isn't served" in it or "the client from" in it], [])
    agrees(one, other)


def is_linked(port: int) -> bool:
    """Whether a client of this machine is connected to this port."""
    with open("/proc/net/tcp", encoding="ascii") as file:
        return any(words[2].endswith(f":{port:04X}") and words[3] == "01" for words in map(str.split, file))


def test_market_behind_a_venue() -> None:
    """While a member's process logs on at a venue that was started again, others trade there: what tells it of them is read no
    further, and nothing ends."""
    venue = started(JOURNAL, 2, list(SYMBOLS))
    port = free_port(1)
    settings = members_of(1, port, PriceCollar="1%", ReferencePrices="ABC:50")
    edge = Edge(settings_of({"VenuePort": venue.port}, settings)).ready(1)
    process, number = edge.process_of(1), 0
    for _ in range(3):
        await_that("a follower", lambda: len(followers(edge)) == 1)
        venue.kill()
        venue = again(port, 1, venue.port, gateways=2)
        venue.pause()
        await_that("a connection", lambda: is_linked(venue.port))
        freeze(process)
        venue.go_on()
        trader = Client(venue.port, 2).log_on()
        for _ in range(20):
            number += 1
            trader.send("D", venue_order(number, 1, 1, 1 + number))
            trader.next()
        os.kill(process, signal.SIGCONT)
        edge.hears("C1: serves, behind report")
        trader.close()
    expect((edge.process_of(1), [it for it in edge.lines if "ended by" in it]), (process, []))


def no_self_trade(*members: int) -> None:
    """No order of these members has traded with another one of the same member: such a trade tells both of its sides, one
    behind the other."""
    for member in members:
        fills = [it for it in map(fields_of, told(member)) if it.get("150") == "F"]
        for first, second in zip(fills, fills[1:]):
            if int(second["17"]) == int(first["17"]) + 1 and first["54"] != second["54"]:
                raise Trouble(f"C{member} traded with itself: {first}, {second}")


def itself(words: str) -> str:
    return f"it would trade with an order of this member: SelfTrade ({words})"


def test_self_trade_new() -> None:
    """A new order that would trade with the member's own is refused, whether that one rests or is under way; so is a replace.
    Another member's order may trade with both."""
    venue, edge, port = limited(SelfTrade="CancelNew")
    one, other = desks(port)
    taken(one, "a", 2, 10, "50")
    no_order(one, order("b", 1, 1, "50"), itself("CancelNew"), OPTION)
    no_order(one, order("c", 1, 1, "50.01", more="59=3|"), itself("CancelNew"), OPTION)
    no_order(one, market("d", 1, 1), itself("CancelNew"), OPTION)
    taken(one, "e", 1, 10, "49.99")
    no_order(one, order("f", 2, 1, "49.99"), itself("CancelNew"), OPTION)
    no_replace(one, replace("g", "e", 1, 10, "50"), itself("CancelNew"))
    replaced(one, "h", "e", 1, 11, "49.99")
    taken(one, "i", 1, 1, "50", "XYZ")
    venue.pause()
    one.send("D", order("j", 2, 1, "50.25", "XYZ"))
    no_order(one, order("k", 1, 1, "50.25", "XYZ"), itself("CancelNew"), OPTION)
    one.send("G", replace("l", "a", 2, 10, "50.02"))
    no_order(one, order("m", 1, 1, "50.01"), itself("CancelNew"), OPTION)
    venue.go_on()
    one.report(_150="5", _11="l")
    taken(one, "n", 1, 1, "50.01")
    no_order(one, order("o", 1, 1, "50.02"), itself("CancelNew"), OPTION)
    venue, edge = killed(venue, edge, port, one, other)
    no_order(one, order("p", 1, 1, "50.02"), itself("CancelNew"), OPTION)
    no_order(one, order("q", 2, 1, "50.01"), itself("CancelNew"), OPTION)
    sent_again(one, order("b", 1, 1, "50"))
    other.send("D", order("x", 1, 10, "50.02"))
    one.report(_150="F", _11="l", _39="2")
    taken(one, "r", 1, 1, "50.02")
    agrees(one, other)
    no_self_trade(1)


def test_self_trade_old() -> None:
    """The orders of the member itself that a new one would trade with are cancelled in front of it, also those under way."""
    venue, edge, port = limited(SelfTrade="CancelOld")
    one, other = desks(port)
    for name, price in (("a", "50"), ("b", "50.01"), ("c", "50.02")):
        taken(one, name, 2, 10, price)
    taken(other, "x", 2, 5, "50")
    one.send("D", order("d", 1, 10, "50.01"))
    expect([sure(value(one.report(_150="4", _41=name), "11"))[:12] for name in "ab"], ["edge-cancel-"] * 2)
    one.report(_150="F", _11="d", _32="5")
    one.send("G", replace("e", "c", 2, 9, "50.01"))
    one.report(_150="4", _41="d")
    one.report(_150="5", _11="e")
    one.send("D", market("f", 1, 1))
    one.report(_150="4", _41="e")
    one.report(_150="4", _11="f")
    venue.pause()
    one.send("D", order("s", 2, 10, "50", "XYZ"))
    one.send("G", replace("t", "s", 2, 10, "51", "XYZ"))
    one.send("D", order("u", 1, 10, "50", "XYZ"))
    one.settle()
    venue.go_on()
    one.report(_150="4", _41="t")
    one.report(_150="0", _11="u")
    cancelled(one, "v", "u", 1, "XYZ")
    venue.pause()
    one.send("D", order("g", 2, 10, "50"))
    one.send("G", replace("h", "g", 2, 10, "51"))
    one.send("D", order("i", 1, 10, "50"))
    one.settle()
    edge.kill()
    venue.go_on()
    edge = restarted(2)
    for it in (one, other):
        it.close()
        it.log_on()
    taken(one, "j", 1, 1, "49")
    one.send("D", order("k", 2, 1, "1"))
    one.report(_150="4", _41="j")
    one.report(_150="0", _11="k")
    agrees(one, other)
    no_self_trade(1)


def test_self_trade_under_way() -> None:
    """An order that the venue hasn't answered yet counts as one that may rest, whatever its term is: no order trades with it."""
    venue, edge, port = limited(1, SelfTrade="CancelNew")
    one, = desks(port, 1)
    for at, more in enumerate(["", "59=0|", GTC]):
        venue.pause()
        one.send("D", order(f"buy-{at}", 1, 1, "50", more=more))
        no_order(one, order(f"sell-{at}", 2, 1, "50"), itself("CancelNew"), OPTION)
        venue.go_on()
        one.report(_150="0", _11=f"buy-{at}")
        cancelled(one, f"gone-{at}", f"buy-{at}", 1)
    agrees(one)
    no_self_trade(1)


def test_self_trade_with_gtc() -> None:
    """What is good till it is cancelled is seen while it is under way, as an order and as a replace."""
    venue, edge, port = limited(2, SelfTrade="CancelNew")
    one, other = desks(port)
    taken(one, "a", 2, 10, "52")
    venue.pause()
    one.send("D", order("b", 2, 1, "50", "XYZ", GTC))
    no_order(one, order("c", 1, 1, "50", "XYZ"), itself("CancelNew"), OPTION)
    one.send("G", replace("d", "a", 2, 10, "50", more=GTC))
    no_order(one, order("e", 1, 1, "50"), itself("CancelNew"), OPTION)
    venue.go_on()
    one.report(_150="5", _11="d")
    agrees(one, other)
    no_self_trade(1)


def test_self_trade_old_with_gtc() -> None:
    """The same with CancelOld: of an order with a replace under way both names are cancelled, and one of these cancels is refused."""
    venue, edge, port = limited(2, SelfTrade="CancelOld")
    one, other = desks(port)
    taken(one, "a", 2, 10, "50")
    venue.pause()
    one.send("G", replace("b", "a", 2, 9, "50", more=GTC))
    one.send("D", order("c", 2, 1, "50", "XYZ", GTC))
    for name, symbol in (("d", "ABC"), ("e", "XYZ")):
        one.send("D", order(name, 1, 1, "50", symbol))
    one.settle()
    venue.go_on()
    one.report(_35="9", _41="a")
    for old, new in (("b", "d"), ("c", "e")):
        one.report(_150="4", _41=old)
        one.report(_150="0", _11=new)
    agrees(one, other)
    no_self_trade(1)


def test_self_trade_of_no_replace() -> None:
    """A replace that the venue refuses cancels nothing: by another side, by a TimeInForce that no replace has, of what isn't there."""
    venue, edge, port = limited(2, SelfTrade="CancelOld")
    one, other = desks(port)
    taken(one, "a", 1, 10, "50")
    taken(one, "b", 2, 10, "51")
    taken(one, "c", 1, 10, "49")
    cancelled(one, "d", "c", 1)
    for body in (replace("e", "a", 2, 10, "40"), replace("f", "a", 1, 10, "51", more="59=3|"), replace("g", "c", 1, 10, "51")):
        one.send("G", body)
        one.report(_35="9", _11=sure(value(body, "11")))
    expect([it for it in one.history if "edge-cancel" in it], [])
    cancelled(one, "h", "a", 1)
    cancelled(one, "i", "b", 2)
    agrees(one, other)


def of_firm(desk: str, words: str = "CancelNew") -> str:
    return f"it would trade with an order of {desk}, of the same firm: SelfTrade ({words})"


def firm(common: Mapping[str, object] | None = None, **more: str) -> tuple[Venue, Edge, int]:
    """Two desks of one firm, and a member of another one."""
    venue = started(JOURNAL, 3, list(SYMBOLS))
    port = free_port(3)
    sessions = members_of(3, port)
    for it in sessions[:2]:
        it.update({"SelfTrade": "CancelNew", "Firm": "C1 C2", **more})
    return venue, Edge(settings_of({"VenuePort": venue.port, **(common or {})}, sessions)).ready(3), port


def awaits_desk(one: Engine, name: str, side: int, price: str, desk: str, words: str = "CancelNew") -> None:
    """Waits until orders are refused, since what rests for the other desk is known: more is asked for than there is, and all of
    that or nothing, so that none of them trades."""
    count = iter(range(10000))

    def is_known() -> bool:
        it = f"{name}{next(count)}"
        one.send("D", order(it, side, 1000000, price, more="59=4|"))
        return value(one.report(_11=it), "58") == f"edge: {of_firm(desk, words)}"
    await_that("what rests for the other desk", is_known)


def test_self_trade_of_a_firm() -> None:
    """What rests for another desk of the firm is known by the journal: an order that would trade with it is refused, and one of
    another firm isn't."""
    venue, edge, port = firm()
    one, other, third = desks(port, 3)
    taken(other, "x", 2, 10, "50")
    awaits_desk(one, "a", 1, "50", "C2")
    no_order(one, order("b", 1, 1, "50"), of_firm("C2"), OPTION)
    no_order(one, market("c", 1, 1), of_firm("C2"), OPTION)
    taken(one, "d", 1, 2, "49.99")
    no_replace(one, replace("e", "d", 1, 2, "50"), of_firm("C2"))
    awaits_desk(other, "y", 2, "49.99", "C1")
    third.send("D", order("t", 2, 1, "49.99"))
    one.report(_150="F", _11="d", _151="1")
    taken(third, "u", 1, 1, "50")
    other.report(_150="F", _11="x")
    taken(third, "v", 2, 1, "50")
    venue, edge = killed(venue, edge, port, one, other, third)
    no_order(one, order("f", 1, 1, "50"), of_firm("C2"), OPTION)
    no_order(other, order("z", 2, 1, "49.99"), of_firm("C1"), OPTION)
    cancelled(other, "-x", "x", 2)
    awaits(one, "g", "50")
    one.send("D", order("h", 1, 1, "50"))
    third.report(_150="F", _11="v")
    agrees(one, other, third)


def test_firm_behind_half_a_command() -> None:
    """What tells the market ends behind the line of a command: what that command did is told by the next one."""
    told_of = '[ "$2" = once ] || [ -e "told.$PPID" ] || { touch "told.$PPID"; echo "command 0 C2 D ABC -"; exit 1; }'
    venue, edge, port = firm({"VenueEvents": events_by(told_of)})
    one, other, third = desks(port, 3)
    taken(other, "x", 2, 10, "50")
    awaits_desk(one, "a", 1, "50", "C2")
    expect(len([it for it in edge.lines if it.startswith("gikvand-edge: C1: the market isn't followed")]), 1)
    agrees(one, other, third)


def test_market_beside_a_busy_venue() -> None:
    """What tells the market to one member lets that of the next one begin as soon as something of it has come, however much the
    venue goes on to tell."""
    venue, port = started(JOURNAL, 3, list(SYMBOLS)), free_port(2)
    buyer, is_over, count = Client(venue.port, 3).log_on(), threading.Event(), 0

    def buys() -> None:
        nonlocal count
        while not is_over.is_set():
            count += 1
            buyer.send("D", venue_order(count, 1, 1, 1))
            buyer.next()

    trader = threading.Thread(target=buys, daemon=True)
    trader.start()
    await_that("a venue that is busy", lambda: count > 100)
    edge = Edge(settings_of({"VenuePort": venue.port}, members_of(2, port, PriceCollar="1", ReferencePrices="ABC:50"))).ready(2)
    await_that("what tells the market to both", lambda: followers(edge) and followers(edge, "C2"))
    is_over.set()
    trader.join()


def test_self_trade_old_of_a_firm() -> None:
    """With CancelOld the member's own orders go in front of a new one. Those of another desk are in other hands: the new one is
    refused."""
    venue, edge, port = firm(SelfTrade="CancelOld")
    one, other, third = desks(port, 3)
    taken(other, "x", 2, 10, "50")
    awaits_desk(one, "a", 1, "50", "C2", "CancelOld")
    taken(one, "b", 2, 10, "49.99")
    no_order(one, order("c", 1, 1, "50"), of_firm("C2", "CancelOld"), OPTION)
    one.send("D", order("d", 1, 1, "49.99"))
    one.report(_150="4", _41="b")
    one.report(_150="0", _11="d")
    agrees(one, other, third)


def test_figures() -> None:
    """The page, the answer to `status` and the figures say what is open and what each limit has refused."""
    page = free_port(1)
    venue, edge, port = limited(1, common={"HttpAcceptPort": page}, MaxOrderQuantity="100", TradeSymbols="ABC")
    one, = desks(port, 1)
    taken(one, "a", 1, 100, "50.25")
    for name in "bcd":
        is_refused(one, "D", order(name, 1, 101, "50"), "edge: OrderQty (38) 101 is above MaxOrderQuantity (100)")
    is_refused(one, "D", order("e", 1, 101, "50", "XYZ"), "edge: Symbol (55) XYZ is none of TradeSymbols (ABC)")
    words = ("C1 (DESK-A): serves, logged on, 5 requests, 4 refused by the edge (1 by TradeSymbols, 3 by MaxOrderQuantity), "
             "1 reports, the last 1, 1 open orders worth 5025, 0 bytes not taken, numbers since")
    await_that("its client has taken all", lambda: ", 0 bytes not taken, " in called("status C1")[1])
    status, out, err = called("status C1")
    expect((status, out.rpartition(" ")[0], err), (0, words, ""))
    figures = page_at(page, "metrics").splitlines()
    by = 'gikvand_edge_limit_refusals_total{{member="C1",limit="{}"}} {}'
    counts = {"TradeSymbols": 1, "MaxOrderQuantity": 3, "MaxOrderValue": 0, "PriceCollar": 0, "OnlyClosing": 0,
              "MaxOpenValue": 0, "MemberMaxOpenValue": 0, "SelfTrade": 0}
    expect([it for it in figures if "_limit_" in it], [by.format(name, count) for name, count in counts.items()])
    expect([it for it in figures if "open_value" in it], ['gikvand_edge_open_value{member="C1"} 5025'])
    replaced(one, "f", "a", 1, 99, "50.25")
    expect("1 open orders worth 4974.75," in called("status C1")[1], True)
    cancelled(one, "g", "f", 1)
    expect("0 open orders worth 0," in called("status C1")[1], True)


def test_tradeclient_with_limits() -> None:
    """QuickFIX's own client, with its own dictionary and validation, takes what a limit refuses as it takes the venue's reports. All
    processes but the client's are killed in between."""
    venue, edge, port = limited(1, TradeSymbols="ABC", MaxOrderQuantity="100", MaxOrderValue="5000", MaxOpenValue="6000",
                                PriceCollar="10%", ReferencePrices="ABC:50", SelfTrade="CancelNew")
    one = TradeClient(port).logged_on()

    def no(name: str, side: int, quantity: int, price: str, reason: str, text: str, symbol: str = "ABC") -> None:
        one.order(name, side, quantity, price, symbol)
        got = fields_of(one.report(_11=name))
        expect([got[tag] for tag in ("35", "150", "39", "103", "58")], ["8", "8", "8", reason, f"edge: {text}"])

    def refuses(names: Sequence[str]) -> None:
        no(names[0], 1, 101, "45", EXCEEDS, "OrderQty (38) 101 is above MaxOrderQuantity (100)")
        no(names[1], 1, 1, "50", OPTION, "Symbol (55) XYZ is none of TradeSymbols (ABC)", "XYZ")
        no(names[2], 1, 100, "50.01", EXCEEDS, "the order's value 5001 is above MaxOrderValue (5000)")
        no(names[3], 1, 1, "55.01", EXCEEDS, outside("55.01", "45.00", "55.00", "10%", "50.00"))
        no(names[4], 1, 21, "50", EXCEEDS, "the value of all that is open would be 6050, above MaxOpenValue (6000)")
        no(names[5], 2, 1, "50", OPTION, itself("CancelNew"))
        one.replace(names[6], "a", 1, 101, "45")
        got = fields_of(one.report(_11=names[6]))
        expect([got[tag] for tag in ("35", "39", "102", "434", "58")],
               ["9", "0", "2", "2", "edge: OrderQty (38) 101 is above MaxOrderQuantity (100)"])
    one.order("a", 1, 100, "50")
    one.report(_150="0", _11="a")
    refuses("bcdefgh")
    edge.kill()
    venue.kill()
    venue = again(port, 1, venue.port)
    edge = restarted()
    one.logged_on(2)
    refuses("ijklmno")
    one.order("p", 1, 20, "50")
    one.report(_150="0", _11="p")
    edge = with_limits(edge, OnlyClosing="Y")
    one.logged_on(3)
    no("q", 2, 1, "55", OPTION, closes("sale", 1, 0, 0))
    if wrong := rejects(logged(1)):
        raise Trouble(f"something was rejected: {wrong[0]}")
    is_same(1, told_by(stored(1)), wanted_of(1), "its record")
    are_refused(1, refused_by(stored(1)), "its record")


LIMITS = {  # Of each member of the differential.
    1: {"MaxOrderQuantity": "15", "MaxOrderValue": "900", "TradeSymbols": "XYZ"},
    2: {"MaxOpenValue": "4000", "SelfTrade": "CancelNew"},
    3: {"SelfTrade": "CancelOld", "MaxOrderValue": "800"},
    4: {"PriceCollar": "1", "ReferencePrices": "ABC:50.50 XYZ:62.50", "SelfTrade": "CancelNew", "Firm": "C4"},
}
REQUESTS = 1000


def open_values(member: int) -> Iterator[Decimal | int]:
    """The values of all that rests for a member, behind each of its reports in the journal."""
    rests: dict[str, Decimal] = {}
    for it in map(fields_of, told(member)):
        if it["35"] != "8" or it["150"] == "8":
            continue
        rests.pop(it.get("41", ""), None)
        rests.pop(it["11"], None)
        if it["150"] != "4" and it["39"] != "2" and "44" in it:
            rests[it["11"]] = int(it["44"]) * Decimal(SYMBOLS[it["55"]]) * int(it["151"])
        yield sum(rests.values())


def keeps_limits(member: int, limits: Mapping[str, str]) -> None:
    """What the journal has of a member keeps its limits: of each order that the venue took, and of all that was open."""
    orders = [it for it in map(fields_of, told(member)) if it.get("150") in ("0", "5")]
    for it in orders:
        worth = int(it.get("44", 0)) * Decimal(SYMBOLS[it["55"]]) * int(it["38"])
        if int(it["38"]) > int(limits.get("MaxOrderQuantity", 10**6)) or worth > int(limits.get("MaxOrderValue", 10**9)) or \
                it["55"] not in limits.get("TradeSymbols", "ABC XYZ"):
            raise Trouble(f"C{member}: the venue took {it}, in spite of {limits}")
    if "MaxOpenValue" in limits and max(open_values(member)) > int(limits["MaxOpenValue"]):
        raise Trouble(f"C{member}: {max(open_values(member))} were open, in spite of {limits}")
    if "SelfTrade" in limits:
        no_self_trade(member)


def test_limited_differential() -> None:
    """Members with limits trade by chance while edge, venue and single processes are killed: what each is told is what the
    journal has, what a limit refused is told once, and the journal keeps all limits."""
    run = Run(REQUESTS, 20261128, limits=LIMITS)
    run.go()
    compare(run.members)
    for k in range(1, MEMBERS + 1):
        keeps_limits(k, LIMITS[k])
        texts = [value(it, "58") or "" for it in run.members[k - 1].engine.history]
        for name in LIMITS[k]:
            if name not in ("ReferencePrices", "Firm") and LIMITS[k][name] != "CancelOld" and \
                    not any(f"{name} ({LIMITS[k][name]})" in it for it in texts):
                raise Trouble(f"C{k}: {name} has refused nothing")


TESTS = [test_symbols, test_quantity, test_value, test_open_value, test_open_value_of_a_market_order,
         test_open_under_way, test_open_in_doubt, test_open_in_doubt_of_a_venue, test_open_unknown, test_open_waits,
         test_only_closing, test_only_closing_under_way, test_collar, test_collar_in_per_cent, test_market_followed,
         test_market_that_cannot_be_followed, test_market_behind_a_venue, test_self_trade_new, test_self_trade_old,
         test_self_trade_under_way, test_self_trade_with_gtc, test_self_trade_old_with_gtc, test_self_trade_of_no_replace,
         test_self_trade_of_a_firm, test_firm_behind_half_a_command, test_market_beside_a_busy_venue, test_self_trade_old_of_a_firm,
         test_tradeclient_with_limits, test_figures, test_limited_differential]
