"""The trades that a journal tells, each once, with both of its sides: for back offices.

    gikvand trades JOURNAL                   in words
    gikvand trades JOURNAL --csv             as a table, with a first line of names
    gikvand trades JOURNAL --json --after 17 as JSON, an object a line: only those behind the place 17
    gikvand trades JOURNAL --edge /etc/gikvand-edge
                                             with the CompIDs, names and decimals of members behind gikvand-edge

A trade's place is the ExecID of the first of its two reports, that of the order that rested; the other's is the next number.
Places rise through the whole history and never change, so who has all up to a place asks for what is behind it. A place behind
the journal's end is refused, since then the journal is an older copy. Time is the SendingTime of the message that brought the
trade about, and Incoming the side of that message's order. It reads by venue-events. The journal may be in use: the
trades are those up to one moment. Where it is damaged those before that are told, and the status is 2.
"""
import argparse
import itertools
from collections.abc import Iterable, Iterator

from gikvand import edge, symbols, tables
from gikvand.events import Event, Events
from gikvand.fix import fields_of
from gikvand.programs import Trouble
from gikvand.reports import exec_id, need_place_of, number_of
from gikvand.tables import Row

SIDES = {"1": "Buyer", "2": "Seller"}
NAMES = ["Place", "Time", "Symbol", "Quantity", "Price", "Incoming",
         *(f"{side}{what}" for side in SIDES.values() for what in ("", "OrderID", "ClOrdID", "ExecID"))]
Fill = tuple[int, dict[str, str]]  # Its member, and its fields.
NO_FILL: Fill = (0, {"17": "0"})


def add_words(parser: argparse.ArgumentParser) -> None:
    parser.add_argument("journal", metavar="JOURNAL", help="the journal's file")
    parser.add_argument("--after", metavar="PLACE", type=exec_id, default=0, help="only trades behind this place")
    symbols.add_option(parser)
    edge.add_option(parser)
    tables.add_options(parser)


def side_of(member: int, fill: dict[str, str]) -> Row:
    """What a fill says of its side of the trade."""
    side = SIDES[fill["54"]]
    return {side: f"C{member}", f"{side}OrderID": fill["37"], f"{side}ClOrdID": fill["11"], f"{side}ExecID": fill["17"]}


def trade_of(resting: Fill, incoming: Fill) -> Row:
    """The trade whose two reports these are."""
    (_, one), (_, two) = resting, incoming
    place, behind = int(one["17"]), int(two["17"])
    if behind != place + 1 or any(one[tag] != two[tag] for tag in ("52", "55", "32", "31")) or one["54"] == two["54"]:
        raise Trouble(f"the reports with ExecID {place} and {behind} aren't those of one trade: is the journal changed?")
    row: Row = {"Place": place, "Time": one["52"], "Symbol": one["55"], "Quantity": int(one["32"]), "Price": number_of(one["31"]),
                "Incoming": "buy" if two["54"] == "1" else "sell"}
    row |= side_of(*resting) | side_of(*incoming)
    return {name: row[name] for name in NAMES}


def in_words(row: Row) -> str:
    sides = {side: f"{row[side]} (order {row[f'{side}OrderID']}, ClOrdID {row[f'{side}ClOrdID']})" for side in SIDES.values()}
    return (f"{row['Place']}, {row['Time']}: {row['Quantity']} {row['Symbol']} at {row['Price']}, {sides['Buyer']} buys from "
            f"{sides['Seller']}, by a {row['Incoming']} that came in")


def trades(events: Iterable[Event]) -> Iterator[Row]:
    """The trades that these commands brought about, in the order of their places."""
    for event in events:
        fills = iter([(it.member, fields_of(it.text.decode())) for it in event.reports if b"|150=F|" in it.text])
        for fill in fills:
            yield trade_of(fill, next(fills, NO_FILL))


def as_known(behind: edge.Edge, row: Row, ids: dict[str, str]) -> Row:
    """A trade as members behind the edge know it. One that isn't behind it stays as it is."""
    row = {**row, "Price": number_of(behind.price_of(str(row["Symbol"]), str(row["Price"])))}
    for side in SIDES.values():
        member = str(row[side])
        if member in ids:
            known = behind.member(int(member[1:]))
            desk, name = known.parted(str(row[f"{side}ClOrdID"]))
            row |= {side: known.comp_ids.get(desk, ids[member]), f"{side}ClOrdID": name}
            row |= {it: behind.of_venue(str(row[it])) for it in (f"{side}OrderID", f"{side}ExecID")}
    return row


def run(given: argparse.Namespace) -> int:
    traded, behind = symbols.needed(given.journal, given.symbols), edge.of(given.edge, given.journal)
    events = Events(given.journal, traded)
    rows = (row for row in trades(events) if row["Place"] > given.after)
    first = list(itertools.islice(rows, 1))
    if not first:
        need_place_of(given.journal, events.outputs, given.after)
    symbols.warn_of_strangers("trades", given.journal, traded)
    ids = edge.ids_of(behind) if behind else {}
    write = tables.writer(given, NAMES, dict, in_words)
    for row in itertools.chain(first, rows):
        write(as_known(behind, row, ids) if behind else row)
    return 0
