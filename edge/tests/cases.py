"""The cases of a member's test day: what its people are asked to do, and what its engine has to do then."""
import re
import subprocess
import time
from collections.abc import Callable, Sequence
from typing import Any

from edges import COPIES, EDGE, NAMES, PATIENCE, Edge, Settings, Trouble
from engines import Engine, order
from gikvand.fix import fields_of, value
from gikvand.words import sure
from relay import Relay

MEMBER, OTHER = 1, 2
SOON = 2  # Seconds behind a start of the edge, in which the day ends.
STEP = 1000  # So far the numbers of the edge are set up.


class Failed(Exception):
    """A case that wasn't passed, in words."""


class Day:
    """A member's test day: the relay that its engine connects to, the edge behind that, and the other side of its trades."""

    name = NAMES[MEMBER]

    def __init__(self, relay: Relay, edge: Edge, edge_port: int, patience: float, ask: Callable[[str], None]) -> None:
        self.relay, self.edge, self.patience, self.ask = relay, edge, patience, ask
        self.other = Engine(edge_port, OTHER).log_on()
        self.at, self.told_at, self.looked_at, self.trades, self.heartbeat = 0, 0, 0, 0, 0
        self.names: list[str] = []
        self.name_of_day: str | None = None

    def mark(self) -> None:
        """What is said from now on belongs to the next case."""
        self.at, self.told_at = len(self.relay.said), len(self.relay.told)

    def said(self, kind: str, why: str) -> dict[str, str]:
        """The member's next message of this type behind the mark, apart from what it sends again."""
        found = self.relay.wait(lambda: next((it for it in self.relay.said[self.at:] if value(it, "35") == kind and
                                              value(it, "43") != "Y"), None), self.patience)
        if not found:
            raise Failed(why)
        return fields_of(found)

    def told(self, why: str, **wanted: str | None) -> dict[str, str]:
        """A report to the member behind the mark, whose fields are these."""
        def look() -> str | None:
            return next((it for it in self.relay.told[self.told_at:]
                         if all(value(it, tag[1:]) == wants for tag, wants in wanted.items())), None)
        found = self.relay.wait(look, self.patience)
        if not found:
            raise Failed(why)
        return fields_of(found)

    def sell(self, quantity: int, price: str) -> None:
        """Lets the other side sell to the member."""
        self.trades += 1
        self.other.send("D", order(f"t{self.trades}", 2, quantity, price))
        self.other.report(_150="F", _11=f"t{self.trades}")

    def end(self) -> None:
        """Lets the day end: the edge is started again by settings that say so."""
        self.edge.stop()
        at = time.strftime("%H:%M:%S", time.gmtime(time.time() + SOON))
        self.start_again(f"[DEFAULT]\nDayEndTime={at}")

    def set_numbers(self) -> tuple[int, int]:
        """Lets the session's numbers be set while the edge is away, its own one up and the member's down: what they were."""
        self.edge.stop()
        out, in_ = self.numbers()
        self.numbers(out + STEP, in_ - 1)
        self.start_again("[DEFAULT]")
        return out, in_

    def numbers(self, *wanted: int) -> tuple[int, ...]:
        """Looks at the numbers of the member's session, or sets them: the first ones that the command tells."""
        words = [EDGE, "numbers", f"C{MEMBER}", *map(str, wanted), "edge.cfg"]
        ran = subprocess.run(words, capture_output=True, text=True, timeout=PATIENCE)
        if ran.returncode:
            raise Trouble(f"its numbers aren't set: {ran.stderr}")
        return tuple(map(int, re.findall(r"next (?:out|in) (\d+)", ran.stdout)))

    def start_again(self, begins: str) -> None:
        """Starts the edge by its settings, which begin so now."""
        with open("edge.cfg", encoding="ascii") as file:
            settings = file.read()
        self.edge = Edge(settings.replace("[DEFAULT]", begins, 1)).ready(len((MEMBER, OTHER)))
        self.other.close()
        self.other.log_on()

    def no_protest(self) -> None:
        """The member hasn't rejected what it was told since this was last asked."""
        looked_at, self.looked_at = self.looked_at, len(self.relay.said)
        for it in self.relay.said[looked_at:self.looked_at]:
            if value(it, "35") in ("3", "j"):
                raise Failed(f"the engine rejected what it was told: {value(it, '58') or it}")

    def sends_again(self, number: int) -> None:
        """The member answers a ResendRequest behind the mark, of the message of this number."""
        def look() -> str | None:
            return next((it for it in self.relay.said[self.at:] if value(it, "43") == "Y" and int(sure(value(it, "34"))) <= number), None)
        if not self.relay.wait(look, self.patience):
            raise Failed("the engine answered the ResendRequest neither by the message nor by a SequenceReset")

    def last_name(self) -> str:
        if not self.names:
            raise Failed("there is no order that this is about")
        return self.names[-1]

    def new_name(self, it: dict[str, str]) -> str:
        name = it.get("11")
        if not name or name in self.names:
            raise Failed(f"the ClOrdID (11) {name} isn't a new one")
        self.names.append(name)
        return name

    def has(self, it: dict[str, str], **wanted: str | None) -> None:
        for tag, wants in wanted.items():
            came = it.get(tag[1:])
            if came != wants and not (tag in ("_38", "_44") and came and float(came) == float(sure(wants))):
                raise Failed(f"the field {tag[1:]} is {came}, and not {wants}")

    def asks_for_order(self, quantity: int, symbol: str, price: str, event: str = "0",
                       terms: Sequence[str | None] = (None, "0"), word: str = "") -> str:
        """Asks for an order, and looks at it and at its answer: its name. Its TimeInForce is one of these."""
        self.ask(f"buy {quantity} {symbol} {price}{word}")
        it = self.said("D", "no order came")
        self.has(it, _55=symbol, _54="1", _38=str(quantity), _44=price, _40="2")
        if it.get("59") not in terms:
            raise Failed(f"the field 59 is {it.get('59')}, and not {terms[-1]}")
        name = self.new_name(it)
        self.told("the order wasn't answered as it should be: see the field 58 of the answer", _11=name, _150=event)
        return name


class DayOfCopies(Day):
    """The test day of a session that is sent copies, for which both sides of a trade are there."""

    name = NAMES[COPIES]

    def __init__(self, relay: Relay, edge: Edge, edge_port: int, patience: float, ask: Callable[[str], None]) -> None:
        super().__init__(relay, edge, edge_port, patience, ask)
        self.one = Engine(edge_port, MEMBER).log_on()

    def buy(self, quantity: int) -> str:
        """Lets the one side buy: the order's name."""
        self.trades += 1
        name = f"o{self.trades}"
        self.one.send("D", order(name, 1, quantity, "50"))
        self.one.report(_150="0", _11=name)
        return name


def logon(day: Day) -> None:
    """log on, with numbers as your engine has them and a HeartBtInt (108) of 5 to 60"""
    day.ask("log on")
    it = day.said("A", "no Logon came")
    day.has(it, _49=day.name, _56="GIKVAND", _98="0")
    if not 5 <= int(it["108"]) <= 60:
        raise Failed(f"HeartBtInt (108) is {it['108']}, and not 5 to 60")
    day.heartbeat = int(it["108"])
    day.told("the Logon wasn't taken: see the field 58 of the answer", _35="A")


def new_order(day: Day) -> None:
    """send an order, which is acknowledged"""
    day.asks_for_order(100, "ABC", "50")


def partial_fill(day: Day) -> None:
    """take a fill in part"""
    day.sell(40, "50")
    day.told("the fill wasn't told", _150="F", _39="1")
    day.ask("nothing")


def replaced(day: Day) -> None:
    """replace the order"""
    day.ask("replace 90 ABC 50.25")
    it = day.said("G", "no OrderCancelReplaceRequest came")
    day.no_protest()
    day.has(it, _41=day.last_name(), _38="90", _44="50.25", _55="ABC", _54="1")
    day.told("the replace wasn't taken: see the field 58 of the answer", _11=day.new_name(it), _150="5")


def cancelled(day: Day) -> None:
    """cancel the order by its new name"""
    day.ask("cancel ABC")
    it = day.said("F", "no OrderCancelRequest came")
    day.has(it, _41=day.last_name(), _55="ABC", _54="1")
    day.told("the cancel wasn't taken: see the field 58 of the answer", _11=day.new_name(it), _150="4")


def refused_order(day: Day) -> None:
    """send an order that is refused: its symbol isn't traded"""
    day.asks_for_order(10, "NONE", "50", "8")


def refused_cancel(day: Day) -> None:
    """cancel the order once more, which is refused"""
    day.no_protest()
    day.ask("cancel ABC")
    it = day.said("F", "no OrderCancelRequest came")
    day.told("the cancel wasn't refused", _35="9", _11=day.new_name(it))


def limited_order(day: Day) -> None:
    """send an order that a limit refuses: its quantity is above the greatest one, 1000"""
    day.no_protest()
    name = day.asks_for_order(1001, "ABC", "50", "8")
    day.told("the refusal wasn't by the limit", _11=name, _103="3")


def limited_price(day: Day) -> None:
    """send an order that a limit refuses: its price is outside of the collar, 50 per cent round the last trade"""
    day.no_protest()
    name = day.asks_for_order(10, "ABC", "80", "8")
    day.told("the refusal wasn't by the limit", _11=name, _103="3")


def limited_replace(day: Day) -> None:
    """send an order, and a replace of it that a limit refuses, so that the order rests on"""
    day.no_protest()
    name = day.asks_for_order(10, "ABC", "30")
    day.ask("replace 1001 ABC 30")
    it = day.said("G", "no OrderCancelReplaceRequest came")
    day.has(it, _41=name, _38="1001", _44="30", _55="ABC", _54="1")
    day.told("the replace wasn't refused", _35="9", _11=day.new_name(it), _102="2", _434="2")


def gap(day: Day) -> None:
    """notice that a message was lost on its way to you, and ask for it again"""
    day.no_protest()
    with day.relay.changed:
        day.relay.loses = lambda text, is_members: not is_members and value(text, "150") == "0"
    day.ask("buy 10 ABC 40")
    it = day.said("D", "no order came")
    name = day.new_name(it)
    lost = int(day.told("the order wasn't answered", _11=name, _150="0")["34"])
    day.sell(5, "40")
    asked = day.said("2", "the engine didn't ask for the lost message by a ResendRequest")
    if not int(asked["7"]) <= lost:
        raise Failed(f"it asked from {asked['7']} on, and not from {lost} on")
    day.told("the lost message wasn't sent again", _11=name, _150="0", _43="Y")


def own_gap(day: Day) -> None:
    """send two orders, the first of which is lost on its way, and answer the ResendRequest"""
    day.no_protest()
    with day.relay.changed:
        day.relay.loses = lambda text, is_members: is_members and value(text, "35") == "D"
    day.ask("buy 1 ABC 30")
    lost = day.said("D", "no order came")
    day.names.append(lost["11"])
    day.mark()
    day.ask("buy 2 ABC 30")
    day.names.append(day.said("D", "no second order came")["11"])
    day.told("the edge noticed no gap", _35="2")
    day.sends_again(int(lost["34"]))


def cut_in_a_fill(day: Day) -> None:
    """lose the connection in the middle of a fill, come back, and be told what you missed"""
    day.no_protest()
    name = day.asks_for_order(100, "ABC", "50")
    with day.relay.changed:
        day.relay.cuts = lambda text, is_members: not is_members and value(text, "150") == "F" and value(text, "43") != "Y"
    day.mark()  # It may be back before the next line.
    day.sell(30, "50")
    day.told("the fill wasn't told", _11=name, _150="F", _39="1")
    day.sell(70, "50")
    day.ask("come back")
    it = day.said("A", "the engine didn't come back")
    if it.get("141") == "Y" or it["34"] == "1":
        raise Failed("the engine began its numbers anew, and so would miss what was told meanwhile")
    day.told("the missed fill wasn't told: did the engine ask for it by a ResendRequest?", _11=name, _150="F", _39="2")


def numbers_set(day: Day) -> None:
    """come back to numbers that were set while you were away: ask for the gap, and send again what you are asked for"""
    day.no_protest()
    day.ask("come back")
    out, in_ = day.set_numbers()
    day.said("A", "the engine didn't come back")
    asked = day.said("2", "the engine didn't ask for the gap by a ResendRequest")
    if not int(asked["7"]) <= out:
        raise Failed(f"it asked from {asked['7']} on, and not from {out} on")
    day.told("the edge noticed no gap", _35="2")
    day.sends_again(in_ - 1)
    day.no_protest()
    day.asks_for_order(1, "ABC", "30")


def good_till_cancel(day: Day) -> None:
    """send an order for the day, and one that is good till it is cancelled"""
    day.no_protest()
    day.name_of_day = day.asks_for_order(10, "ABC", "30")
    day.mark()
    day.asks_for_order(20, "ABC", "30", terms=("1",), word=" gtc")


def day_end(day: Day) -> None:
    """be told that the one has expired when its day ends, and cancel the other one"""
    day.ask("come back")
    day.end()
    day.said("A", "the engine didn't come back")
    day.told("the end of the order wasn't told", _11=day.name_of_day, _150="C", _39="C")
    day.ask("cancel ABC")
    it = day.said("F", "no OrderCancelRequest came")
    day.no_protest()
    day.has(it, _41=day.last_name(), _55="ABC", _54="1")
    day.told("the cancel wasn't taken: see the field 58 of the answer", _11=day.new_name(it), _150="4")


def market(day: Day) -> None:
    """ask for the market of ABC, all prices, and for what changes, and take what comes"""
    day.no_protest()
    day.ask("market ABC")
    it = day.said("V", "no MarketDataRequest came")
    day.has(it, _263="1", _265="1")
    name = it.get("262")
    day.told("the request wasn't granted: see the field 58 of the answer", _35="W", _262=name, _55="ABC")
    day.trades += 1
    day.other.send("D", order(f"t{day.trades}", 1, 7, "30"))
    day.told("no change of the market was told", _35="X", _262=name)
    day.mark()
    day.ask("no market ABC")
    day.has(day.said("V", "no end of the request came"), _262=name, _263="2")


def securities(day: Day) -> None:
    """ask which symbols there are"""
    day.no_protest()
    day.ask("symbols")
    it = day.said("x", "no SecurityListRequest came")
    day.told("the request wasn't answered as it should be", _35="y", _320=it.get("320"), _560="0")


def order_status(day: Day) -> None:
    """send an order, and ask how it is"""
    day.no_protest()
    name = day.asks_for_order(10, "ABC", "30")
    day.ask("status ABC")
    it = day.said("H", "no OrderStatusRequest came")
    day.has(it, _11=name, _55="ABC", _54="1")
    day.told("the question wasn't answered as it should be", _35="8", _11=name, _150="I", _39="0")


def all_orders(day: Day) -> None:
    """ask how all of your orders are"""
    day.no_protest()
    day.ask("all orders")
    it = day.said("AF", "no OrderMassStatusRequest came")
    day.has(it, _585="7")
    day.told("the question wasn't answered as it should be: see the field 58 of the answer", _35="8", _150="I", _584=it.get("584"), _912="Y")


def own_trades(day: Day) -> None:
    """ask for your trades, and take what comes"""
    day.no_protest()
    day.ask("trades")
    it = day.said("AD", "no TradeCaptureReportRequest came")
    name = it.get("568")
    day.told("the request wasn't granted: see the field 58 of the answer", _35="AQ", _568=name, _749="0")
    day.told("no trade was told", _35="AE", _568=name)
    day.told("the end of the trades wasn't told", _35="AQ", _568=name, _750="1")


def copies(day: DayOfCopies) -> None:
    """be sent copies of what two members are told: an order, and both sides of its fill"""
    day.ask("nothing")
    name = day.buy(10)
    day.told("no copy of the order was sent", _11=name, _150="0", _448=NAMES[MEMBER])
    day.sell(10, "50")
    for member in (MEMBER, OTHER):
        day.told("no copy of the fill was sent", _150="F", _39="2", _448=NAMES[member])


def lost_copy(day: DayOfCopies) -> None:
    """notice that a copy was lost on its way to you, and ask for it again"""
    day.no_protest()
    with day.relay.changed:
        day.relay.loses = lambda text, is_members: not is_members and value(text, "150") == "0"
    day.ask("nothing")
    lost, name = day.buy(10), day.buy(5)
    number = int(day.told("no copy was sent", _11=lost)["34"])
    day.told("no second copy was sent", _11=name)
    asked = day.said("2", "the engine didn't ask for the lost copy by a ResendRequest")
    if not int(asked["7"]) <= number:
        raise Failed(f"it asked from {asked['7']} on, and not from {number} on")
    day.told("the lost copy wasn't sent again", _11=lost, _43="Y")


def cut_in_a_copy(day: DayOfCopies) -> None:
    """lose the connection in the middle of a copy, come back, and be sent what you missed"""
    day.no_protest()
    with day.relay.changed:
        day.relay.cuts = lambda text, is_members: not is_members and value(text, "150") == "0" and value(text, "43") != "Y"
    day.mark()  # It may be back before the next line.
    day.told("no copy was sent", _11=day.buy(3))
    name = day.buy(4)
    day.ask("come back")
    it = day.said("A", "the engine didn't come back")
    if it.get("141") == "Y" or it["34"] == "1":
        raise Failed("the engine began its numbers anew, and so would miss what was told meanwhile")
    day.told("the missed copy wasn't sent: did the engine ask for it by a ResendRequest?", _11=name, _150="0")


def heartbeat(day: Day) -> None:
    """do nothing, for the time of two heartbeats"""
    day.no_protest()
    day.ask("nothing")
    day.patience, before = day.patience + 2 * day.heartbeat, day.patience
    found = day.relay.wait(lambda: next((it for it in day.relay.said[day.at:] if value(it, "35") == "0" and
                                         not value(it, "112")), None), day.patience)
    day.patience = before
    if not found:
        raise Failed("no Heartbeat came, apart from answers to TestRequests")


def logout(day: Day) -> None:
    """log out"""
    day.no_protest()
    day.ask("log out")
    day.said("5", "no Logout came")
    day.told("the Logout wasn't answered", _35="5")


Case = Callable[[Any], None]  # Its text says what is to be done; Failed is raised where that wasn't.

# Of each member of the day.
LIMITS: Settings = {"MaxOrderQuantity": "1000", "PriceCollar": "50%", "ReferencePrices": "ABC:50", "MarketData": "Y"}
CASES: list[Case] = [logon, new_order, partial_fill, replaced, cancelled, refused_order, refused_cancel, limited_order, limited_price,
                     limited_replace, gap, own_gap, cut_in_a_fill, numbers_set, good_till_cancel, day_end]
QUESTIONS: list[Case] = [market, securities, order_status, all_orders, own_trades]  # For an engine that asks for these.
OF_COPIES: list[Case] = [logon, copies, lost_copy, cut_in_a_copy]
LAST: list[Case] = [heartbeat, logout]
