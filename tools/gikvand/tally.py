"""What `gikvand board` shows of a journal: the book's depth and the last trades of each symbol, each member's counts and what
rests for it, and how fast the journal grows. It is counted by the lines of venue-events (docs/EVENTS.md), and its size doesn't
grow."""
import collections
import itertools
from dataclasses import dataclass, field
from typing import Any, NamedTuple

from gikvand.fix import fields_of

LEVELS = 10         # So many of the best levels of a side are shown,
TRADES = 12         # and of a symbol so many of the last trades.
SECONDS = 120       # For so long the commands of each second are kept,
A_WHILE = 5         # and over so many a rate is reckoned.
DAY = len("20250102")  # The day in a time stands in front.
BUY, SELL = "1", "2"

Json = dict[str, Any]
Side = dict[int, tuple[int, int]]  # By price the quantity and the count of the orders that rest there.


class Trade(NamedTuple):
    """A trade: the place of the first of its two reports (ExecID, 17), the time of the message, and both sides."""
    place: int
    when: str
    symbol: str
    quantity: int
    price: int
    buyer: str
    seller: str
    by_buyer: bool  # Whether the buy is the one that came in.


@dataclass
class Member:
    """The counts of a member."""
    commands: int = 0
    orders: int = 0
    refused: int = 0
    fills: int = 0
    bought: int = 0
    sold: int = 0
    when: str = ""


@dataclass
class Market:
    """The levels and trades of a symbol. `before` is the last price of the day before the one of the last trade, or else the first
    of all."""
    sides: dict[str, Side] = field(default_factory=lambda: {BUY: {}, SELL: {}})
    trades: int = 0
    traded: int = 0
    before: int | None = None
    last: collections.deque[Trade] = field(default_factory=lambda: collections.deque(maxlen=TRADES))


class Rates:
    """How many commands and bytes there were behind each of the last seconds."""

    def __init__(self) -> None:
        self.seen: collections.deque[tuple[int, int]] = collections.deque(maxlen=SECONDS + 1)

    def note(self, commands: int, size: int) -> None:
        """Notes both at the end of a second."""
        self.seen.append((commands, size))

    def told(self) -> Json:
        """The commands of each second, and those and the bytes of a second lately."""
        each = [after[0] - before[0] for before, after in itertools.pairwise(self.seen)]
        lately = list(self.seen)[-A_WHILE - 1:]
        seconds = max(1, len(lately) - 1)
        commands, size = (last - first for first, last in zip(lately[0], lately[-1])) if lately else (0, 0)
        return {"each": each, "commands": round(commands / seconds, 1), "bytes": round(size / seconds)}


class Tally:
    """All that is counted."""

    def __init__(self, symbols: list[str]) -> None:
        self.commands = self.outputs = 0
        self.rates = Rates()
        self.markets: dict[str, Market] = collections.defaultdict(Market, {it: Market() for it in symbols})
        self.members: dict[str, Member] = collections.defaultdict(Member)
        self.resting: dict[str, tuple[str, int]] = {}  # By OrderID (37) whose order it is, and what it has left.
        self.sender: Member | None = None              # Of the last command, until its first report.
        self.half: tuple[str, dict[str, str]] | None = None  # The first report of a trade, and to whom, until the second.

    def take(self, line: str) -> None:
        """Takes the next line, without its end. One of another kind says nothing here."""
        kind, _, rest = line.partition(" ")
        if kind == "output":
            place, member, text = rest.split(" ", 2)
            self.outputs = int(place) + 1
            self.report(member, fields_of(text))
        elif kind == "level":
            symbol, side, price, quantity, orders = rest.split(" ")[:5]
            self.level(self.markets[symbol].sides[side], int(price), int(quantity), int(orders))
        elif kind == "command":
            sequence, member = rest.split(" ", 2)[:2]
            self.commands, self.sender = int(sequence) + 1, self.members[member]
            self.sender.commands += 1

    def level(self, side: Side, price: int, quantity: int, orders: int) -> None:
        if quantity:
            side[price] = quantity, orders
        else:
            side.pop(price, None)

    def report(self, member: str, told: dict[str, str]) -> None:
        """Takes a report to a member. The first of a command is to the one who sent that."""
        if self.sender:
            self.sender.when, self.sender = told["52"], None
        is_refusal = told["35"] != "8" or told["150"] == "8"
        row = self.members[member]
        row.refused += is_refusal
        if is_refusal:
            return
        row.orders += told["150"] == "0"
        if left := int(told["151"]):
            self.resting[told["37"]] = member, left
        else:
            self.resting.pop(told["37"], None)
        if told["150"] == "F":
            self.fill(row, member, told)

    def fill(self, row: Member, member: str, told: dict[str, str]) -> None:
        """Notes a fill for its member, and the second of a trade for its symbol. That is of the order that came in."""
        quantity, is_buy = int(told["32"]), told["54"] == BUY
        row.fills += 1
        if is_buy:
            row.bought += quantity
        else:
            row.sold += quantity
        if self.half is None:
            self.half = member, told
            return
        (other, first), self.half = self.half, None
        buyer, seller = (member, other) if is_buy else (other, member)
        self.trade(Trade(int(first["17"]), told["52"], told["55"], quantity, int(told["31"]), buyer, seller, is_buy))

    def trade(self, trade: Trade) -> None:
        market = self.markets[trade.symbol]
        market.trades, market.traded = market.trades + 1, market.traded + trade.quantity
        if not market.last:
            market.before = trade.price
        elif market.last[-1].when[:DAY] != trade.when[:DAY]:
            market.before = market.last[-1].price
        market.last.append(trade)

    def told(self) -> Json:
        """All of it, as the page gets it."""
        return {"commands": self.commands, "outputs": self.outputs, "resting": len(self.resting), "rates": self.rates.told(),
                "symbols": [symbol(*it) for it in self.markets.items()], "members": self.rows()}

    def rows(self) -> list[Json]:
        """A row for each member who has sent something."""
        resting, left = collections.Counter[str](), collections.Counter[str]()
        for member, quantity in self.resting.values():
            resting[member] += 1
            left[member] += quantity
        return [{"name": member, **vars(row), "resting": resting[member], "left": left[member]}
                for member, row in sorted(self.members.items())]


def symbol(name: str, market: Market) -> Json:
    """What is told of a symbol."""
    change = market.last[-1].price - market.before if market.last and market.before is not None else None
    return {"name": name, "trades": market.trades, "traded": market.traded, "change": change,
            "buys": depth(market.sides[BUY], -1), "sells": depth(market.sides[SELL], 1),
            "last": [{"place": it.place, "time": it.when, "price": it.price, "quantity": it.quantity, "buyer": it.buyer,
                      "seller": it.seller, "by": "buy" if it.by_buyer else "sell"} for it in reversed(market.last)]}


def depth(side: Side, sign: int) -> Json:
    """The best levels of a side, each with its price, quantity and count of orders, and the sums of those further
    off."""
    levels = [(price, *side[price]) for price in sorted(side, key=lambda price: sign * price)]
    further = levels[LEVELS:]
    return {"levels": levels[:LEVELS], "further": len(further), "quantity": sum(it[1] for it in further)}
