"""The numbers of a picture by scripts/day, read by the axes and the legend that stand in it. Not a test: tests import it."""
import re
import xml.etree.ElementTree as xml
from typing import TypedDict

from venues import Trouble


class Row(TypedDict):
    """What the row of a symbol tells: of each side the best prices, the trades, and the depth by side and price."""
    best: dict[str, list[tuple[int, int, int]]]
    trades: list[tuple[int, int, str, str, bool]]
    depth: dict[tuple[str, int], int]


class Picture:
    """The numbers of a picture, each read by the axes that stand beside it."""

    def __init__(self, text: str) -> None:
        space = "{http://www.w3.org/2000/svg}"
        every = list(xml.fromstring(text).iter())
        self.title = next(it.text or "" for it in every if it.tag == f"{space}title")
        self.texts = [(float(it.get("x", "")), float(it.get("y", "")), it.text or "", it.get("text-anchor", "")) for it in every
                      if it.tag == f"{space}text"]
        self.lines = [it for it in every if it.tag == f"{space}line"]
        self.paths = [(it.get("d", ""), it.get("stroke", "")) for it in every if it.tag == f"{space}path"]
        boxes = [it for it in every if it.tag == f"{space}rect" and it.get("x")]
        self.bars = [it for it in boxes if it.get("class") != "volume"]
        self.volumes = [it for it in boxes if it.get("class") == "volume"]
        self.marks = [(it.get("points", ""), it.get("fill", ""), it.get("stroke", "")) for it in every if it.tag == f"{space}polygon"]

    def said(self) -> list[str]:
        """The words in it that aren't numbers of an axis."""
        return [words for _, _, words, _ in self.texts if not re.fullmatch(r"[\d,]+", words)]

    def colour(self, words: str) -> str:
        """The colour that the legend gives these words."""
        x, y = next((x, y) for x, y, it, _ in self.texts if it == words)
        return min((it for it in self.lines if it.get("stroke-width") == "3" and abs(float(it.get("y1", "")) - y) < 9),
                   key=lambda it: abs(float(it.get("x2", "")) - x)).get("stroke", "")

    def scale(self, row: tuple[float, float], left: float, right: float, anchor: str) -> tuple[float, float]:
        """How a place in the picture becomes a number, a + b * place, by the numbers of an axis in this row: upright ones
        end beside their tick (`end`), flat ones stand under it (`middle`)."""
        ticks = [((y - 4 if anchor == "end" else x), int(words.replace(",", ""))) for x, y, words, of in self.texts
                 if of == anchor and re.fullmatch(r"[\d,]+", words) and left <= x <= right and row[0] <= y <= row[1]]
        (first, low), (last, high) = min(ticks, key=lambda it: it[1]), max(ticks, key=lambda it: it[1])
        slope = (high - low) / (last - first)
        return low - slope * first, slope


def near(number: float) -> int:
    """A whole number that was drawn, within what a tenth of a pixel is."""
    if abs(number - round(number)) > 0.2:
        raise Trouble(f"expected a whole number in the picture came {number}")
    return round(number)


def row_of(picture: Picture, symbol: str) -> Row:
    """The row of a symbol."""
    tops = sorted(y for _, y, words, _ in picture.texts if re.match(r"(ABC|XYZ|NIX): ", words))
    top = next(y for _, y, words, _ in picture.texts if words.startswith(f"{symbol}: "))
    row = (top, min([it for it in tops if it > top], default=10_000) - 1)
    middle = min(float(it.get("x", "")) for it in picture.bars)
    (a, b), (c, d), (e, f) = (picture.scale(row, 0, middle - 50, "middle"), picture.scale(row, 0, middle - 50, "end"),
                              picture.scale(row, middle - 5, 10_000, "middle"))
    sides = {picture.colour("best bid; buys that rest"): "buy", picture.colour("best offer; sells that rest"): "sell"}
    found: Row = {"best": {}, "trades": [], "depth": {}}
    for path, colour in picture.paths:
        steps = re.findall(r"([ML])([\d.]+),([\d.]+)H([\d.]+)", path)
        if row[0] < float(steps[0][2]) < row[1]:
            found["best"][sides[colour]] = [(near(a + b * float(x)), near(c + d * float(y)), near(a + b * float(end)))
                                            for _, x, y, end in steps]
    for points, fill, stroke in picture.marks:
        (x, tip), (_, base), _ = (map(float, it.split(",")) for it in points.split())
        if row[0] < tip < row[1]:
            market = fill == "white"
            found["trades"].append((near(a + b * x), near(c + d * (tip + base) / 2), "buy" if tip < base else "sell",
                                    sides[stroke if market else fill], market))
    for bar in picture.bars:
        y = float(bar.get("y", "")) + float(bar.get("height", "")) / 2
        if row[0] < y < row[1]:
            end = float(bar.get("x", "")) + float(bar.get("width", ""))
            found["depth"][sides[bar.get("fill", "")], near(c + d * y)] = near(e + f * end)
    return found
