"""The pictures of docs/MEASURED.md, drawn of the results in bench/results: round trips and rates of one member, and orders a second over
members. Not a script: dev/pages writes them.

Each is a text of SVG, in the colours that its reader's browser prefers, light or dark. A bar or a point is a median, and the line
through it goes from the least to the greatest. All letters have 16 px in a picture of 520, so that 11 are left on a page of 360.
"""
import statistics
import textwrap
from collections.abc import Callable, Iterator
from typing import NamedTuple
from xml.sax.saxutils import escape

from results import Result, Unfit, day_of, number, result_of, shown

WIDTH, LETTER, LINE = 520, 16, 22      # Of a picture, of its letters, and from one line of text to the next.
LEFT, RIGHT, BAR = 148, 164, 26         # What labels and values have beside bars, and the height of one.
PLOT = 300                             # The height of the plot with lines.
LETTERS_OF_A_LINE = 54
CPP, EDGE, TCP = "beside-cpp", "edge-speed", "tcp-rates"
STYLE = """\
<style>
text { font: 16px "DejaVu Sans", Helvetica, Arial, sans-serif; fill: #222222 }
.title { font-weight: bold } .small { fill: #444444 }
.back { fill: #ffffff } .grid { stroke: #dddddd } .axis { stroke: #666666 } .range { stroke: #222222; stroke-width: 1.5 }
.own { fill: #0072b2; stroke: #0072b2 } .other { fill: #d55e00; stroke: #d55e00 } .third { fill: #8a8a8a; stroke: #8a8a8a }
.line { fill: none; stroke-width: 2.5 } .disk { stroke-dasharray: 7 5 } .newer { stroke-dasharray: 2 4 }
@media (prefers-color-scheme: dark) {
text { fill: #e6e6e6 } .small { fill: #c4c4c4 } .back { fill: #0d1117 } .grid { stroke: #30363d } .axis { stroke: #9a9a9a }
.range { stroke: #e6e6e6 } .own { fill: #56b4e9; stroke: #56b4e9 } .other { fill: #e69f00; stroke: #e69f00 }
.third { fill: #9a9a9a; stroke: #9a9a9a } .line { fill: none }
}
</style>"""


class Seen(NamedTuple):
    """A figure: its median, with the least and the greatest, and what stands at it, where that isn't the median."""
    median: float
    least: float
    greatest: float
    said: str = ""


class Bar(NamedTuple):
    """A bar: whose it is, its colour, and what was seen."""
    name: str
    colour: str
    seen: Seen


class Series(NamedTuple):
    """A line: whose it is, its colour and kind, and what was seen of each number of members."""
    name: str
    style: str
    seen: dict[int, Seen]


def of_cpp(name: str, whose: str) -> Seen:
    """A figure of dev/bench, of the project or of the plain C++."""
    found = {it["name"]: it for it in result_of(CPP).get("figures", [])}
    if whose not in found.get(name, {}):
        raise Unfit(f"{CPP}.json has no figure {name} of {whose}, which a picture shows")
    it = found[name][whose]
    return Seen(it["median"], it["least"], it["greatest"])


def of_row(name: str, row: str, column: str) -> Seen:
    """The figures of a cell: those of several runs. Of two each is said, of more the least and the greatest."""
    result = result_of(name)
    cells = {(it["what"], head): cell for it in result.get("rows", []) for head, cell in zip(result["columns"][1:], it["cells"])}
    if not cells.get((row, column)):
        raise Unfit(f"{name}.json has no {column} of {row}, which a picture shows")
    figures = cells[row, column]["figures"]
    least, greatest = min(figures), max(figures)
    said = " and ".join(map(shown, figures)) if len(figures) < 3 else f"{shown(least)} to {shown(greatest)}"
    return Seen(statistics.median(figures), least, greatest, said)


def steps(greatest: float) -> list[float]:
    """The numbers of an axis from 0 on to the greatest, up to seven of them, in steps of 1, 2, 2.5 or 5."""
    step = next(step for power in range(-3, 9) for of in (1, 2, 2.5, 5) if greatest <= 6 * (step := of * 10.0 ** power))
    return [at * step for at in range(int(-(-greatest // step)) + 1)]


def text(x: float, y: float, words: str, anchor: str = "start", style: str = "") -> str:
    style = f' class="{style}"' if style else ""
    return f'<text x="{x:.1f}" y="{y:.1f}" text-anchor="{anchor}"{style}>{escape(words)}</text>'


def line(x: float, y: float, to_x: float, to_y: float, style: str) -> str:
    return f'<line x1="{x:.1f}" y1="{y:.1f}" x2="{to_x:.1f}" y2="{to_y:.1f}" class="{style}"/>'


def how(command: str, name: str) -> str:
    """By what a result was taken, when, and on which machine."""
    result: Result = result_of(name)
    return f"{command}, {day_of(result, True)}, on {result['machine']}"


def picture(title: str, draws: list[Callable[[float], Iterator[str | float]]], sources: list[str]) -> str:
    """A picture of parts one below the other, each of which gives its lines and at the end where it ends, and a caption."""
    lines, y = [text(12, 28, title, style="title")], 40.0
    for draw in draws:
        for it in draw(y):
            if isinstance(it, str):
                lines.append(it)
            else:
                y = it
    for source in sources:
        for words in textwrap.wrap(source, LETTERS_OF_A_LINE):
            lines.append(text(12, y + LETTER, words, style="small"))
            y += LINE
    height = round(y + 12)
    head = f'<svg xmlns="http://www.w3.org/2000/svg" width="{WIDTH}" height="{height}" viewBox="0 0 {WIDTH} {height}">'
    return "\n".join([head, f"<title>{escape(title)}</title>", STYLE, '<rect width="100%" height="100%" class="back"/>', *lines,
                      "</svg>"]) + "\n"


def bars(title: str, axis: str, groups: dict[str, list[Bar]]) -> Callable[[float], Iterator[str | float]]:
    """Bars that lie, in groups, over an axis of their own."""
    every = [it for group in groups.values() for it in group]
    ticks = steps(max(it.seen.greatest for it in every))
    scale = (WIDTH - LEFT - RIGHT) / ticks[-1]

    def draw(y: float) -> Iterator[str | float]:
        yield text(12, y + 24, title, style="title")
        y += 34
        bottom = y + sum(LINE + BAR * len(group) + 6 for group in groups.values())
        for name, group in groups.items():
            yield text(12, y + LETTER, name, style="small")
            y += LINE
            for tick in ticks:
                yield line(LEFT + tick * scale, y, LEFT + tick * scale, y + BAR * len(group), "grid")
            for it in group:
                middle, end = y + BAR / 2, LEFT + it.seen.median * scale
                yield text(LEFT - 8, middle + 6, it.name, "end")
                yield f'<rect x="{LEFT}" y="{y + 4:.1f}" width="{it.seen.median * scale:.1f}" height="{BAR - 8}" class="{it.colour}"/>'
                yield line(LEFT + it.seen.least * scale, middle, LEFT + it.seen.greatest * scale, middle, "range")
                yield text(max(end, LEFT + it.seen.greatest * scale) + 6, middle + 6, it.seen.said or number(it.seen.median, 3))
                y += BAR
            y += 6
        yield line(LEFT, bottom, WIDTH - RIGHT, bottom, "axis")
        for tick in ticks[::2]:
            yield text(LEFT + tick * scale, bottom + 18, number(tick, 3) if tick else "0", "middle", "small")
        yield text(WIDTH - 12, bottom + 40, axis, "end", "small")
        yield bottom + 54

    return draw


def lines_over_members(axis: str, series: list[Series]) -> Callable[[float], Iterator[str | float]]:
    """Lines over numbers of members, with what each is below."""
    members = sorted({it for one in series for it in one.seen})
    ticks = steps(max(it.greatest for one in series for it in one.seen.values()))
    left, right = 96, WIDTH - 24

    def x(count: int) -> float:
        return left + (count - 0.5) * (right - left) / (members[-1])

    def draw(top: float) -> Iterator[str | float]:
        bottom = top + PLOT + 24
        scale = PLOT / ticks[-1]
        yield text(12, top + 12, axis, style="small")
        for tick in ticks:
            yield line(left, bottom - tick * scale, right, bottom - tick * scale, "grid" if tick else "axis")
            yield text(left - 8, bottom - tick * scale + 6, f"{tick:,.0f}", "end", "small")
        for count in members:
            yield text(x(count), bottom + 22, str(count), "middle", "small")
        yield text((left + right) / 2, bottom + 44, "members, 64 orders of each under way", "middle", "small")
        for it in series:
            places = [(x(count), bottom - seen.median * scale) for count, seen in it.seen.items()]
            yield f'<path d="M{" L".join(f"{a:.1f},{b:.1f}" for a, b in places)}" class="{it.style} line"/>'
            for (across, down), seen in zip(places, it.seen.values()):
                yield line(across, bottom - seen.least * scale, across, bottom - seen.greatest * scale, f"{it.style.split()[0]} range")
                yield f'<circle cx="{across:.1f}" cy="{down:.1f}" r="4" class="{it.style.split()[0]}"/>'
        y = bottom + 58
        for it in series:
            yield line(12, y + 11, 60, y + 11, f"{it.style} line")
            yield text(70, y + 17, it.name)
            y += LINE + 2
        yield y + 6

    return draw


def trips() -> str:
    """Round trips and rates of one member."""
    def venue(figure: str) -> list[Bar]:
        return [Bar("Gikvand", "own", of_cpp(figure, "project")), Bar("plain C++", "other", of_cpp(figure, "cpp"))]

    def edge(row: str) -> list[Bar]:
        return [Bar("Gikvand's edge", "own", of_row(EDGE, row, "edge and venue")),
                Bar("SocketAcceptor", "third", of_row(EDGE, row, "SocketAcceptor")),
                Bar("Threaded", "third", of_row(EDGE, row, "ThreadedSocketAcceptor"))]

    memory, disk, behind = "over TCP, journal in memory", "over TCP, journal on disk", "beside QuickFIX's own acceptors, in memory"
    return picture("One member: round trips and rates", [
        bars("A round trip", "microseconds, p50: less is better", {
            memory: venue("tcp.c1.w1.p50"), disk: venue("tcp.disk.c1.w1.p50"), behind: edge("1 member, a round trip, p50")}),
        bars("Orders, 64 under way", "orders a second: more is better", {memory: venue("tcp.c1.w64"), disk: venue("tcp.disk.c1.w64")}),
        bars("Orders behind an acceptor, 64 under way", "orders a second: more is better", {
            behind: edge("1 member, 64 under way, orders/s")})],
        ["A bar is a median, or the middle of two runs; the line through it goes from the least to the greatest.",
         f"Beside plain C++: {how('dev/bench all', CPP)}. The edge with its venue, and acceptors: {how('edge/speed', EDGE)}."])


def members() -> str:
    """Orders a second over members."""
    def of(where: str, whose: str) -> dict[int, Seen]:
        return {count: of_cpp(f"{where}.c{count}.w64", whose) for count in (1, 4, 8)}

    newer = {count: of_row(TCP, str(count), "orders/s") for count in (1, 4, 8)}
    return picture("Orders a second over members", [lines_over_members("orders a second", [
        Series("plain C++, in memory", "other", of("tcp", "cpp")), Series("plain C++, on disk", "other disk", of("tcp.disk", "cpp")),
        Series(f"Gikvand, in memory, newer ({day_of(result_of(TCP))})", "own newer", newer),
        Series("Gikvand, in memory", "own", of("tcp", "project")), Series("Gikvand, on disk", "own disk", of("tcp.disk", "project"))])],
        ["A point is a median; the line through it goes from the least to the greatest.",
         f"{how('dev/bench all', CPP)}; dotted: {how('dev/bench-venue', TCP)}."])


PICTURES: dict[str, Callable[[], str]] = {"docs/images/trips.svg": trips, "docs/images/members.svg": members}
