"""Draws the day that a journal holds: trades, best bid and best offer, and what rests at the end. Writes SVG.

    gikvand day JOURNAL [SYMBOL...] >day.svg

The symbols are those of the journal, all of them and in their order; where they are left out, those that JOURNAL.symbols
keeps. Each has a row of two charts on one price axis. On the left, over the places of the venue's outputs (ExecID, 17) and
the times of their messages, stand the best prices as each command left them, and each trade, pointing up where the order that
came in bought and down where it sold, and hollow where that was a market order. Below stands how much was traded. Few prices
far from all others don't stretch the axis: such trades stand at its edge, and a line says how many they are. On the right stands
the depth. Prices far from all trades and best prices are left out there, and counted. It reads by venue-events, and may be run
while venued serves.
"""
import argparse
import bisect
import collections
import dataclasses
import math
import os
from collections.abc import Callable, Iterator
from xml.sax.saxutils import escape

from gikvand import symbols
from gikvand.events import Events, Level
from gikvand.files import shown
from gikvand.fix import fields_of
from gikvand.programs import Trouble

BUY, SELL = "1", "2"
COLOURS = {BUY: "#0072b2", SELL: "#d55e00"}  # Told apart with any colour vision, and by their lightness.
TRADE, TEXT, LINE, FAINT = "#1a1a1a", "#333333", "#888888", "#e4e4e4"
WIDTH, TOP, ROW, LEFT, GAP, CHART = 1100, 96, 440, 96, 84, 600
PRICES, VOLUME = 240, 48  # The heights of both charts of the left side.
BARS = 60                 # Bars of what was traded.
FAR = 3                   # Prices that lie so many times further out than the middle half is wide are far from all others;
A_LITTLE, FEW = 0.02, 10  # but not those as near as such a part of the price, or as so many ticks.
DEPTH_LEFT = LEFT + CHART + GAP
DEPTH = WIDTH - DEPTH_LEFT - 30

Times = list[tuple[int, str]]  # Places at which the time of the messages went on, each with the time.
Best = tuple[int, int | None]  # A place, and the best price from there on.


@dataclasses.dataclass(slots=True)
class Trade:
    place: int
    price: int
    quantity: int
    side: str  # Of the order that came in.
    is_market: bool  # Whether that was a market order.


class Day:
    """The day of one symbol: its trades, the best price of each side as it changed, and the depth at the end."""

    def __init__(self) -> None:
        self.trades: list[Trade] = []
        self.depth: dict[str, dict[int, int]] = {BUY: {}, SELL: {}}
        self.best: dict[str, list[Best]] = {BUY: [], SELL: []}

    def trade(self, report: dict[str, str]) -> None:
        """Takes a trade in by the report to the order that came in, which is the second of its two."""
        self.trades.append(Trade(int(report["17"]), int(report["31"]), int(report["32"]), report["54"], "44" not in report))

    def change(self, level: Level) -> None:
        """Takes in what rests at a price now."""
        if level.quantity:
            self.depth[level.side][level.price] = level.quantity
        else:
            self.depth[level.side].pop(level.price, None)

    def settle(self, place: int) -> None:
        """Notes the best prices behind a command whose last output has this place."""
        for side, best in ((BUY, max), (SELL, min)):
            price = best(self.depth[side], default=None)
            if (self.best[side][-1][1] if self.best[side] else None) != price:
                self.best[side].append((place, price))

    def prices(self) -> list[int]:
        """All prices that the left chart has."""
        best = [price for side in self.best.values() for _, price in side if price is not None]
        return [*best, *(trade.price for trade in self.trades)]

    def span(self) -> tuple[int, int]:
        """The lowest and the highest of these prices that aren't far from all others."""
        found = sorted(self.prices())
        first, middle, last = (found[(len(found) - 1) * at // 4] for at in (1, 2, 3))
        room = max(FAR * (last - first), middle * A_LITTLE, FEW)
        near = [it for it in found if first - room <= it <= last + room]
        return near[0], near[-1]


class Axis:
    """A range of numbers on a range of the picture."""

    def __init__(self, low: float, high: float, at: float, length: float) -> None:
        self.low, self.high, self.start, self.length = low, max(high, low + 1), at, length

    def within(self, number: float) -> float:
        """The number, or the last whole one of the range on that side."""
        return min(max(number, math.ceil(self.low)), math.floor(self.high))

    def at(self, number: float) -> float:
        return self.start + self.length * (number - self.low) / (self.high - self.low)

    def ticks(self, about: int) -> range:
        """Round numbers within the range, about so many."""
        rough = (self.high - self.low) / about
        power = 10 ** math.floor(math.log10(rough)) if rough > 1 else 1
        step = next(it for it in (power, 2 * power, 5 * power, 10 * power) if it >= rough)
        return range(math.ceil(self.low / step) * step, math.floor(self.high) + 1, step)


def days(journal: str, traded: list[str]) -> tuple[dict[str, Day], tuple[int, int], Times]:
    """The day of each symbol, the counts of commands and outputs, up to one moment, and the places at which the time went on."""
    found, events = {symbol: Day() for symbol in traded}, Events(journal, traded)
    times: Times = []
    for event in events:
        told = [fields_of(it.text.decode()) for it in event.reports if it.text.startswith(b"35=8|")]
        if told and (not times or times[-1][1] != told[0]["52"]):
            times.append((int(told[0]["17"]), told[0]["52"]))
        for report in [it for it in told if it["150"] == "F"][1::2]:
            found[report["55"]].trade(report)
        for level in event.levels:
            found[level.symbol].change(level)
        for symbol in {it.symbol for it in event.levels}:
            found[symbol].settle(int(told[-1]["17"]))
    return found, (events.commands, events.outputs), times


def text(x: float, y: float, words: str, size: int = 12, anchor: str = "start", more: str = "") -> str:
    return f'<text x="{x:.1f}" y="{y:.1f}" font-size="{size}" text-anchor="{anchor}" {more}>{escape(words)}</text>'


def line(x1: float, y1: float, x2: float, y2: float, colour: str = LINE) -> str:
    return f'<line x1="{x1:.1f}" y1="{y1:.1f}" x2="{x2:.1f}" y2="{y2:.1f}" stroke="{colour}"/>'


def marker(x: float, y: float, side: str, size: float, is_market: bool = False) -> str:
    """A triangle: up for an incoming buy, down for an incoming sell. A small one has no edge. A market order's is hollow."""
    way = -1 if side == BUY else 1
    points = f"{x:.1f},{y + way * size:.1f} {x - size:.1f},{y - way * size:.1f} {x + size:.1f},{y - way * size:.1f}"
    if is_market:
        return f'<polygon points="{points}" fill="white" stroke="{COLOURS[side]}" stroke-width="1.2"/>'
    edge = f' stroke="{TRADE}" stroke-width="0.8"' if size > 2 else ""
    return f'<polygon points="{points}" fill="{COLOURS[side]}"{edge}/>'


def steps(changes: list[Best], end: int, across: Axis, up: Axis, colour: str) -> str:
    """A line of level steps, broken where a side has no order."""
    parts, pen = [], False
    for (place, price), (until, _) in zip(changes, [*changes[1:], (end, None)]):
        if price is None:
            pen = False
            continue
        parts.append(f"{'L' if pen else 'M'}{across.at(place):.1f},{up.at(up.within(price)):.1f}H{across.at(until):.1f}")
        pen = True
    return f'<path d="{"".join(parts)}" fill="none" stroke="{colour}" stroke-width="2"/>' if parts else ""


def frame(across: Axis, up: Axis) -> list[str]:
    """A chart's ground: a grid, and the upright axis with its numbers."""
    left, right, bottom, top = across.start, across.start + across.length, up.start, up.start + up.length
    drawn = []
    for tick in up.ticks(8):
        y = up.at(tick)
        drawn += [line(left, y, right, y, FAINT), line(left - 5, y, left, y)]
        drawn.append(text(left - 9, y + 4, f"{tick:,}", 11, "end"))
    return [*drawn, line(left, bottom, right, bottom), line(left, top, left, bottom)]


def foot(across: Axis, bottom: float, what: str, about: int, named: Callable[[int], str] | None = None) -> list[str]:
    """A lower axis with its numbers, and what it counts; below a number stands the name that it has, too."""
    drawn = [line(across.start, bottom, across.start + across.length, bottom)]
    for tick in across.ticks(about):
        x = across.at(tick)
        drawn += [line(x, bottom, x, bottom + 5), text(x, bottom + 18, f"{tick:,}", 11, "middle")]
        if named and (name := named(tick)):
            drawn.append(text(x, bottom + 32, name, 11, "middle"))
    return [*drawn, text(across.start + across.length / 2, bottom + (50 if named else 36), what, 12, "middle")]


def volume(day: Day, across: Axis, top: float) -> list[str]:
    """How much was traded, over the same places."""
    sums: collections.Counter[int] = collections.Counter()
    width = across.high / BARS
    for it in day.trades:
        sums[min(BARS - 1, int(it.place / width))] += it.quantity
    most = max(sums.values(), default=1)
    drawn = [text(across.start - 9, top + 10, f"at most {most:,}" if sums else "", 11, "end")]
    for at, quantity in sorted(sums.items()):
        height = max(1.0, (VOLUME - 4) * quantity / most)
        x, end = across.at(at * width), across.at((at + 1) * width)
        drawn.append(f'<rect class="volume" x="{x + 0.5:.1f}" y="{top + VOLUME - height:.1f}" width="{end - x - 1:.1f}" '
                     f'height="{height:.1f}" fill="{LINE}"><title>{quantity:,} traded</title></rect>')
    return [*drawn, line(across.start, top, across.start, top + VOLUME)]


def left_chart(day: Day, outputs: int, up: Axis, times: Times) -> list[str]:
    """Best prices and trades over the places of outputs, and what was traded."""
    end = outputs + 1
    across, top = Axis(0, end, LEFT, CHART), up.start + 10
    places = [place for place, _ in times]
    def time_at(place: int) -> str:
        at = bisect.bisect_right(places, place) - 1
        return times[at][1][len("20250102-"):] if at >= 0 else ""
    drawn = [*frame(across, up), *volume(day, across, top),
             *foot(across, top + VOLUME, "place among all outputs of the venue (ExecID, 17), and the time of its message", 8,
                   time_at)]
    middle = up.start + up.length / 2
    drawn.append(text(18, middle, "price in ticks", 12, "middle", f'transform="rotate(-90 18 {middle:.1f})"'))
    for side in (BUY, SELL):
        drawn.append(steps(day.best[side], end, across, up, COLOURS[side]))
    size = 4 if len(day.trades) < 300 else 3 if len(day.trades) < 2000 else 2
    drawn += [marker(across.at(it.place), up.at(up.within(it.price)), it.side, size, it.is_market) for it in day.trades]
    if far := [it.price for it in day.trades if it.price != up.within(it.price)]:
        words = f"{plural(len(far), 'trade')} at the edge: the prices are {min(far):,} to {max(far):,}"
        drawn.append(text(LEFT + CHART, up.start + up.length - 8, words, 11, "end"))
    return drawn


def plural(count: int, noun: str) -> str:
    return f"{count:,} {noun}{'' if count == 1 else 's'}"


def right_chart(day: Day, up: Axis) -> list[str]:
    """What rests at the end, by price."""
    depth = {(side, price): left for side, levels in day.depth.items() for price, left in levels.items()}
    shown = {key: left for key, left in depth.items() if up.low <= key[1] <= up.high}
    across = Axis(0, 1.04 * max(shown.values(), default=1), DEPTH_LEFT, DEPTH)
    drawn = [*frame(across, up), *foot(across, up.start, "quantity that rests at the end", 3)]
    thick = max(1.5, min(12, 0.8 * abs(up.at(1) - up.at(0))))
    for (side, price), left in sorted(shown.items()):
        box = f'x="{DEPTH_LEFT}" y="{up.at(price) - thick / 2:.1f}" height="{thick:.1f}"'
        drawn.append(f'<rect {box} width="{across.at(left) - DEPTH_LEFT:.1f}" fill="{COLOURS[side]}"/>')
    if further := {key: left for key, left in depth.items() if key not in shown}:
        count, rest = len(further), sum(further.values())
        words = f"{plural(count, 'price')} further off {'is' if count == 1 else 'are'}n't shown: {rest:,} rest there"
        drawn.append(text(DEPTH_LEFT + DEPTH / 2, up.start + 52, words, 11, "middle"))
    return drawn


def row(symbol: str, day: Day, outputs: int, top: float, times: Times) -> list[str]:
    """The two charts of a symbol."""
    if not day.prices():
        return [text(LEFT, top + 20, f"{symbol}: no order rested, and none was filled", 15)]
    traded = sum(it.quantity for it in day.trades)
    words = f"{symbol}: {plural(len(day.trades), 'trade')} of {plural(traded, 'unit')}" if day.trades else f"{symbol}: no trades"
    if day.trades:
        words += f", the last at {day.trades[-1].price:,}"
    if by_market := sum(it.is_market for it in day.trades):
        words += f"; {by_market:,} by market orders"
    low, high = day.span()
    room = max(2, math.ceil(0.15 * (high - low)))
    up = Axis(max(0, low - room) - 0.5, high + room + 0.5, top + 50 + PRICES, -PRICES)
    title = text(LEFT, top + 20, words, 15, more='font-weight="bold"')
    return [title, *left_chart(day, outputs, up, times), *right_chart(day, up)]


def legend() -> list[str]:
    """What lines, triangles and bars mean."""
    drawn, x, y = [], LEFT, 70
    for side, words in ((BUY, "best bid; buys that rest"), (SELL, "best offer; sells that rest")):
        drawn += [f'<line x1="{x}" y1="{y - 4}" x2="{x + 26}" y2="{y - 4}" stroke="{COLOURS[side]}" stroke-width="3"/>',
                  text(x + 33, y, words)]
        x += 205
    for side, words in ((BUY, "trade, by a buy that came in"), (SELL, "trade, by a sell that came in")):
        drawn += [marker(x + 8, y - 4, side, 5), text(x + 20, y, words)]
        x += 205
    for at, side in enumerate((BUY, SELL)):
        drawn.append(marker(x + 8 + 14 * at, y - 4, side, 5, True))
    return [*drawn, text(x + 34, y, "by a market order")]


def picture(journal: str, traded: list[str]) -> Iterator[str]:
    """The whole picture, part by part."""
    found, (commands, outputs), times = days(journal, traded)
    height = TOP + ROW * len(traded)
    head = f'<svg xmlns="http://www.w3.org/2000/svg" width="{WIDTH}" height="{height}" viewBox="0 0 {WIDTH} {height}"'
    title = f"The day in {shown(os.path.basename(journal))}: {commands:,} commands, {outputs:,} outputs"
    yield f'{head} font-family="DejaVu Sans, Helvetica, Arial, sans-serif" fill="{TEXT}">'
    yield from (f"<title>{escape(title)}</title>", '<rect width="100%" height="100%" fill="white"/>')
    yield from (text(LEFT, 36, title, 20, more='font-weight="bold"'), *legend())
    for place, symbol in enumerate(traded):
        yield from filter(None, row(symbol, found[symbol], outputs, TOP + ROW * place, times))
    yield "</svg>"


def add_words(parser: argparse.ArgumentParser) -> None:
    parser.add_argument("journal", metavar="JOURNAL", help="the journal's file")
    parser.add_argument("symbols", metavar="SYMBOL", nargs="*", help="the journal's symbols")


def run(given: argparse.Namespace) -> int:
    if given.symbols and not symbols.are_symbols(given.symbols):
        raise Trouble(f"not one to {symbols.MOST} different symbols: {' '.join(given.symbols)}")
    for part in picture(given.journal, symbols.needed(given.journal, given.symbols or None)):
        print(part)
    return 0
