"""A journal of a day by chance, for the programs that measure: so many entries, with about so many orders resting. It has
limit orders alone, and version 1 where no other is asked for, so that the programs of two releases can be measured on the
same day."""
import random

from gikvand import journals
from gikvand.journals import Entry
from venues import message

A_BLOCK = 64
MIDDLE, PRICES = 10_000, 32
LOTS = 900_000           # The least that a resting order asks for: so much that trades of one never fill it.
TIME = "60=20250102-09:30:00|"

Said = tuple[int, bytes]  # A member, and a message.
Resting = tuple[int, int, int, int]  # Of an order: member, name, side and price.


class Day:
    """Eight members who trade ABC. Each order that rests is known by its member, name, side and price."""

    def __init__(self, resting: int) -> None:
        self.chance, self.resting = random.Random(1), resting
        self.live: list[Resting] = []
        self.names, self.numbers = [0] * 8, [1] * 8

    def say(self, member: int, kind: str, body: str) -> tuple[int, int, bytes]:
        """A message, its member and the name in it, which is the member's next."""
        self.names[member] += 1
        self.numbers[member] += 1
        name = self.names[member]
        return member, name, message(member + 1, self.numbers[member], kind, f"11={name}|{body}")

    def rest(self) -> Said:
        side = self.chance.randrange(2)
        ticks = self.chance.randrange(PRICES)
        price = MIDDLE + ticks if side else MIDDLE - 1 - ticks
        body = f"55=ABC|54={side + 1}|{TIME}38={self.lots()}|40=2|44={price}|"
        member, name, said = self.say(self.chance.randrange(8), "D", body)
        self.live.append((member, name, side, price))
        return member, said

    def trade(self) -> Said:
        side = self.chance.randrange(2)
        price = MIDDLE - PRICES if side else MIDDLE + PRICES
        body = f"55=ABC|54={side + 1}|{TIME}38=1|40=2|44={price}|59=3|"
        member, _, said = self.say(self.chance.randrange(8), "D", body)
        return member, said

    def cancel(self) -> Said:
        member, name, side, _ = self.taken()
        _, _, said = self.say(member, "F", f"41={name}|55=ABC|54={side + 1}|{TIME}38=1|")
        return member, said

    def replace(self) -> Said:
        member, old, side, price = self.taken()
        body = f"41={old}|55=ABC|54={side + 1}|{TIME}38={self.lots()}|40=2|44={price}|"
        _, name, said = self.say(member, "G", body)
        self.live.append((member, name, side, price))
        return member, said

    def lots(self) -> int:
        return LOTS + self.chance.randrange(100_000)

    def taken(self) -> Resting:
        """An order that rests, no longer known."""
        place = self.chance.randrange(len(self.live))
        self.live[place], self.live[-1] = self.live[-1], self.live[place]
        return self.live.pop()

    def next(self) -> Said:
        """The next member and message: until enough rest, orders that do; then of a hundred 25 more of these, 35 orders
        that trade, 15 replaces and 25 cancels."""
        kind = self.chance.randrange(100)
        if len(self.live) < self.resting or kind < 25:
            return self.rest()
        if kind < 60:
            return self.trade()
        return self.replace() if kind < 75 else self.cancel()


def write_journal(path: str, entries: int, resting: int, version: int = 1) -> None:
    """Writes the journal of such a day, in blocks of 64 entries, without a snapshot."""
    day = Day(resting)
    with open(path, "wb") as file:
        file.write(journals.header(version))
        for first in range(0, entries, A_BLOCK):
            said = (day.next() for _ in range(min(A_BLOCK, entries - first)))
            file.write(journals.block_of(version, [Entry(member + 1, text) for member, text in said]))
        file.write(journals.CLOSED)
