"""A venue and an edge by a clock of its own, for tests of the days of a session."""
from collections.abc import Mapping
from typing import Any

from clocks import Clock
from edges import JOURNAL, SYMBOLS, Client, Edge, await_that, pair, rows, started, told, venue_order
from engines import GTC, Engine, at_rest
from gikvand.fix import value
from gikvand.words import sure

SELLER = 3  # A member of the venue itself, with whom all others trade.
BEGUN = "numbers begin with 1"


class Market:
    """A venue, an edge by a clock of its own in front of it, and the member of the venue who sells."""

    def __init__(self, now: str, members: int = 1, hours: Mapping[str, object] | None = None, **more: Any) -> None:
        self.clock, self.members = Clock(now), members
        self.venue = started(JOURNAL, SELLER, list(SYMBOLS))
        _, self.edge, self.port = pair(members, self.venue, env=self.clock.env, common=hours, **more)
        self.seller, self.sold = Client(self.venue.port, SELLER).log_on(), 0

    def sell(self, count: int = 1) -> None:
        """Lets so many orders of one trade at 50, one behind the other."""
        for _ in range(count):
            self.sold += 1
            self.seller.send("D", venue_order(self.sold, 2, 1, 5000))
            while value(sure(self.seller.next()), "150") != "F":
                pass

    def engine(self, member: int = 1) -> Engine:
        """An engine that begins a day: its numbers are 1."""
        return Engine(self.port, member)

    def new_day(self, now: str, *members: int) -> dict[int, str]:
        """Puts the clock forward, and waits until each of these members has begun a day: what its line says of that."""
        before = {k: len(self.days(k)) for k in members or (1,)}
        self.clock.put(now)
        await_that("a new day", lambda: all(len(self.days(k)) > count for k, count in before.items()))
        return {k: self.days(k)[-1].partition("a new day: ")[2] for k in before}

    def days(self, member: int) -> list[str]:
        return self.lines(f"C{member}: a new day: ")

    def lines(self, text: str) -> list[str]:
        return [line for line in self.edge.lines if text in line]

    def start_again(self) -> None:
        with open("edge.cfg", encoding="ascii") as file:
            settings = file.read()
        self.edge = Edge(settings, env=self.clock.env).ready(self.members)


def at_rest_for_long(port: int, name: str, quantity: int = 1, member: int = 1) -> Engine:
    """A member that is logged on, and whose order to buy at 50 rests over the ends of days."""
    return at_rest(port, name, quantity, member, GTC)


def places(engine: Engine) -> list[int]:
    """The ExecIDs of what an engine was told."""
    return [int(sure(value(it, "17"))) for it in engine.history]


def of_journal(member: int = 1) -> list[int]:
    return [int(sure(value(it, "17"))) for it in told(member) if value(it, "35") == "8"]


def leave(market: Market, engine: Engine, member: int = 1) -> None:
    """Its connection is cut, and the edge has seen that."""
    count = len(market.lines(f"C{member}: the client from"))
    engine.close()
    await_that("its end", lambda: len(market.lines(f"C{member}: the client from")) > count)


def kept(member: int = 1) -> dict[str, int]:
    """What the record of a member has of its session."""
    names = ("sender", "target", "heard", "report")
    return dict(zip(names, rows(member, f"SELECT {', '.join(names)} FROM session")[0]))


def is_caught_up(engine: Engine) -> Engine:
    """An engine that has been told all that the venue has told its member by now."""
    if those := of_journal(engine.member):
        await_that("all is stored", lambda: kept(engine.member)["report"] >= those[-1])
    engine.settle()
    return engine


def await_heard(member: int = 1) -> None:
    """Waits until the record says that all was sent."""
    await_that("all is heard", lambda: kept(member)["heard"] == kept(member)["sender"])
