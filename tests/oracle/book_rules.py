"""The rules of docs/PROFILE.md for the book in plain Python: what rests, and what each message of a member leads to. Not a
test: tests import it. It was written from that page alone, and shares nothing with the venue's own code."""
from dataclasses import dataclass
from typing import NamedTuple

from gikvand.fix import Field, body
from gikvand.words import sure
from oracle.order_rules import asks_for_market, order_fault, read_order

MOST_RESTING = 4096


class Report(NamedTuple):
    """An output: to which member, its type, the time that it repeats, and its body."""
    to: int
    kind: str
    when: bytes
    body: bytes


def shown(data: bytes) -> str:
    """These bytes as a line of text, with the byte 01 as a bar."""
    return data.decode("latin-1").replace("\x01", "|")


@dataclass(eq=False)
class Order:
    """An order of a member. A market order has no price. The stamp says when it came to its place."""
    number: int
    client: int
    name: int
    symbol: bytes
    side: bytes
    price: int | None
    total: int
    cum: int = 0
    paid: int = 0
    stamp: int = 0

    @property
    def left(self) -> int:
        return self.total - self.cum

    def average(self) -> int:
        return self.paid // self.cum if self.cum else 0

    def fill(self, quantity: int, price: int) -> None:
        self.cum, self.paid = self.cum + quantity, self.paid + quantity * price

    def crosses(self, other: "Order") -> bool:
        """Whether it trades with an order of the other side."""
        return self.symbol == other.symbol and self.side != other.side and self.takes(sure(other.price))

    def takes(self, price: int) -> bool:
        """Whether it trades at this price: a market order does at any."""
        if self.price is None:
            return True
        return self.price >= price if self.side == b"1" else self.price <= price


def turn_of(order: Order) -> tuple[int, int]:
    """The turn of an order that rests, among those of its symbol and side: the lesser one is ahead."""
    price = sure(order.price)
    return (-price if order.side == b"1" else price), order.stamp


class Book:
    """The book of a venue: what rests, the greatest ClOrdID of each member, and how many messages and outputs there were. A
    message below the cut is read as it was before there were market orders."""

    def __init__(self, symbols: tuple[str, ...] = ("ABC",), cut: int = 0) -> None:
        self.symbols, self.cut = [it.encode() for it in symbols], cut
        self.resting: list[Order] = []
        self.greatest = dict.fromkeys(range(1, 9), 0)
        self.commands = self.outputs = 0
        self.reports: list[Report] = []
        self.client, self.when = 1, b""

    def take(self, client: int, message: bytes) -> list[Report]:
        """The reports of a message in the journal. What is no message with an order counts, and has none."""
        found = read_order(message)
        if found is None:
            self.commands += 1
            return []
        return self.apply(*found, client)

    def apply(self, kind: bytes, when: bytes, found: list[Field], client: int = 1) -> list[Report]:
        """The reports of an order message with these fields."""
        self.reports, self.client, self.when = [], client, when
        is_market = self.commands >= self.cut and asks_for_market(kind, found)
        self.commands += 1
        if fault := order_fault(kind, found, is_market):
            self.say(client, "3", f"45={found[5][1].decode()}|371={fault[1]}|372={kind.decode()}|373={fault[0]}|")
        else:
            {b"D": self.enter, b"F": self.cancel, b"G": self.replace}[kind](dict(found))
        return self.reports

    def say(self, to: int, kind: str, text: str) -> None:
        """Adds an output."""
        self.outputs += 1
        self.reports.append(Report(to, kind, self.when, body(text)))

    def report(self, event: str, status: str, order: Order, left: int, name: int = 0, was: int = 0,
               fill: tuple[int, int] | None = None, more: str = "") -> None:
        """Adds an ExecutionReport of this order."""
        told = f"41={was}|" if was else ""
        filled = f"32={fill[0]}|31={fill[1]}|" if fill else ""
        price = "" if order.price is None else f"44={order.price}|"
        self.say(order.client, "8",
                 f"37={order.number}|17={self.outputs + 1}|150={event}|39={status}|11={name or order.name}|{told}"
                 f"55={order.symbol.decode()}|54={order.side.decode()}|38={order.total}|{price}{filled}"
                 f"151={left}|14={order.cum}|6={order.average()}|{more}")

    def enter(self, told: dict[int, bytes]) -> None:
        price = int(told[44]) if 44 in told else None
        order = Order(self.commands, self.client, int(told[11]), told[55], told[54], price, int(told[38]))
        term = told.get(59, b"0")
        if price is None and term == b"0":
            term = b"3"  # What is left of a market order never rests.
        if why := self.entry_refusal(order, term):
            self.report("8", "8", order, 0, more=why)
            return
        self.greatest[order.client] = order.name
        self.report("0", "0", order, order.left)
        if term != b"4" or sum(it.left for it in self.crossed(order)) >= order.left:
            self.match(order)
        if order.left and term != b"0":
            self.report("4", "4", order, 0)
        else:
            self.rest(order)

    def entry_refusal(self, order: Order, term: bytes) -> str:
        """What the report on a new order says where it is refused, or nothing."""
        if order.name <= self.greatest[order.client]:
            return "103=6|"
        if order.symbol not in self.symbols:
            return "103=1|"
        return "103=0|58=book full|" if term == b"0" and len(self.resting) == MOST_RESTING else ""

    def crossed(self, order: Order) -> list[Order]:
        """The resting orders that this one crosses, each ahead of the next."""
        return sorted((it for it in self.resting if order.crosses(it)), key=turn_of)

    def match(self, order: Order) -> None:
        """Fills what the order crosses, as long as it has something left."""
        for other in self.crossed(order):
            if not order.left:
                break
            quantity, price = min(order.left, other.left), sure(other.price)
            for it in (other, order):
                it.fill(quantity, price)
                self.report("F", "1" if it.left else "2", it, it.left, fill=(quantity, price))
        self.resting = [it for it in self.resting if it.left]

    def rest(self, order: Order) -> None:
        """Lets what is left of an order rest behind all that came before."""
        if order.left:
            order.stamp = self.commands - 1
            self.resting.append(order)

    def refusal(self, told: dict[int, bytes], order: Order | None, is_wrong: bool) -> int | None:
        """The reason for which a cancel or replace is refused, or None."""
        if int(told[11]) <= self.greatest[self.client]:
            return 6
        if not order:
            return 1
        return 2 if (order.symbol, order.side) != (told[55], told[54]) or is_wrong else None

    def is_refused(self, told: dict[int, bytes], order: Order | None, answered: int, is_wrong: bool = False) -> bool:
        """Whether a request is refused, with the report that says so."""
        reason = self.refusal(told, order, is_wrong)
        if reason:
            number, status = (order.number, 1 if order.cum else 0) if order else ("NONE", 8)
            self.say(self.client, "9", f"37={number}|11={int(told[11])}|41={int(told[41])}|39={status}|434={answered}|"
                                       f"102={reason}|")
        return bool(reason)

    def named(self, told: dict[int, bytes]) -> Order | None:
        """The sender's resting order of the name in 41."""
        return next((it for it in self.resting if (it.client, it.name) == (self.client, int(told[41]))), None)

    def cancel(self, told: dict[int, bytes]) -> None:
        order = self.named(told)
        if not self.is_refused(told, order, 1) and order:
            self.greatest[self.client] = int(told[11])
            self.resting.remove(order)
            self.report("4", "4", order, 0, name=int(told[11]), was=order.name)

    def replace(self, told: dict[int, bytes]) -> None:
        order, total, price = self.named(told), int(told[38]), int(told[44])
        is_wrong = order is not None and (told.get(59, b"0") != b"0" or total <= order.cum)
        if self.is_refused(told, order, 2, is_wrong) or not order:
            return
        keeps_place = price == order.price and total <= order.total
        was, self.greatest[self.client] = order.name, int(told[11])
        order.name, order.total, order.price = int(told[11]), total, price
        self.report("5", "1" if order.cum else "0", order, order.left, was=was)
        if not keeps_place:
            self.resting.remove(order)
            self.match(order)
            self.rest(order)

    def listed(self) -> list[Order]:
        """What rests, by symbol in the order of the table, buys before sells, each ahead of the next."""
        return sorted(self.resting, key=lambda it: (self.symbols.index(it.symbol), it.side, *turn_of(it)))
