"""The rules of docs/PROFILE.md for order messages in plain Python: their tables, and the fault that a Reject tells. Not a test: the
other rules and tests import it. It was written from that page alone, and shares nothing with the venue's own code."""
import re

from gikvand.fix import HEADER, NUMBER, TIME, Field, fields, has_header, next_frame
from gikvand.words import sure

SYMBOL = re.compile(rb"[A-Z0-9]{1,8}")
BYTE = re.compile(rb".", re.DOTALL)
UNITS = range(1, 1_000_001)
NAMES = range(1, 10 ** 15)

# The format and the range of each tag, and what each type of order message needs and may have. A D that asks for a market
# order has a table of its own, in which OrdType is what has brought it there.
Formats = dict[int, tuple[re.Pattern[bytes], range | tuple[bytes, ...] | None]]
FIELDS: Formats = {
    11: (NUMBER, NAMES), 41: (NUMBER, NAMES), 38: (NUMBER, UNITS), 44: (NUMBER, UNITS),
    40: (BYTE, (b"2",)), 54: (BYTE, (b"1", b"2")), 59: (BYTE, (b"0", b"3", b"4")), 55: (SYMBOL, None), 60: (TIME, None)}
NEEDED = {b"D": {11, 38, 40, 44, 54, 55, 60}, b"F": {11, 38, 41, 54, 55, 60}, b"G": {11, 38, 40, 41, 44, 54, 55, 60}}
ALLOWED: dict[bytes, set[int]] = {b"D": {59}, b"F": set(), b"G": {59}}
MARKET_FIELDS: Formats = {**FIELDS, 40: (BYTE, (b"1",))}
MARKET_NEEDED = NEEDED[b"D"] - {44}


def asks_for_market(kind: bytes, found: list[Field]) -> bool:
    """Whether a message asks for a market order: a D whose one OrdType is exactly 1."""
    return kind == b"D" and [value for tag, value in found if tag == 40] == [b"1"]


def order_fault(kind: bytes, found: list[Field], is_market: bool) -> tuple[int, int] | None:
    """The reason and the tag of an order message's fault, or None. A market order is read by its own table."""
    needed, formats = (MARKET_NEEDED, MARKET_FIELDS) if is_market else (NEEDED[kind], FIELDS)
    tags = [tag for tag, _ in found]
    own = [(tag, value) for tag, value in found if tag not in HEADER and tag != 10]
    given = {tag for tag, _ in own}
    faults = [(13, {tag for tag in tags if tags.count(tag) > 1}),
              (2, given - needed - ALLOWED[kind]),
              (1, needed - given),
              (6, {tag for tag, value in own if tag in formats and not formats[tag][0].fullmatch(value)}),
              (5, {tag for tag, value in own if tag in formats and not is_in_range(formats[tag][1], value)})]
    return next(((reason, min(wrong)) for reason, wrong in faults if wrong), None)


def is_in_range(kept: range | tuple[bytes, ...] | None, value: bytes) -> bool:
    if isinstance(kept, range):
        return value.isdigit() and int(value) in kept
    return kept is None or value in kept


def read_order(data: bytes) -> tuple[bytes, bytes, list[Field]] | None:
    """The type, the time and the fields of these bytes, or None where they aren't exactly one message with an order."""
    if next_frame(data) != (data, None):
        return None
    found = sure(fields(data))
    if not has_header(found):
        return None
    told = dict(found[:7])
    return (told[35], told[52], found) if told[35] in NEEDED else None
