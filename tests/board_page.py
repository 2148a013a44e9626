"""What `gikvand board` and its page have to say of a journal, by venue-replay and by what members heard. Not a test: tests import it."""
import collections

from chromium import Json, Page
from gikvand import journals
from gikvand.fix import fields_of
from gikvand.journals import Entry
from oracle.order_rules import read_order
from made_journals import SYMBOLS, contents
from venues import replay

ROWS = """(table) => [...table.tBodies[0].rows].map((row) => [...row.cells].map((cell) => cell.textContent))"""
READ = f"""(() => {{
  const rows = {ROWS};
  const text = (id) => document.getElementById(id).textContent;
  return {{figures: ["commands", "outputs", "resting"].map(text), state: text("state"), holder: text("holder"),
    alarm: text("alarm"), lost: text("lost"), ended: text("ended"), journal: text("journal"),
    looks: ["state", "holder"].map((it) => document.getElementById(it).className),
    overview: rows(document.getElementById("overview")), members: rows(document.getElementById("members")),
    symbols: [...document.querySelectorAll("#symbols > section")].map((it) => [it.querySelector("h2").textContent,
      it.querySelector(".head p").textContent, rows(it.querySelector(".depth")), rows(it.querySelector(".trades"))])}};
}})()"""
NONE, MINUS = "\u2013", "\u2212"
UP_TO_DATE = "\u2713 up to date"
LEVELS, TRADES = 10, 12
Heard = tuple[int, str, int, int, str, str, str]


def rows_heard(heard: dict[int, list[str]], lines: list[str], entries: list[Entry]) -> list[dict[str, str | int]]:
    """Each member's row, by the reports that it heard, the orders that rest, and what it has sent."""
    rows, sent = list[dict[str, str | int]](), collections.Counter(it.gateway for it in entries)
    times = {it.gateway: found[1].decode() for it in entries if (found := read_order(it.message))}
    for member, reports in heard.items():
        told = [fields_of(it) for it in reports]
        fills = [it for it in told if it.get("150") == "F"]
        mine = [line.split() for line in lines if line.split()[5] == f"C{member}"]
        refused = [it for it in told if it["35"] in ("9", "3") or it.get("150") == "8"]
        rows.append({"name": f"C{member}", "commands": sent[member], "orders": sum(it.get("150") == "0" for it in told),
                     "refused": len(refused), "fills": len(fills), "when": times[member],
                     "bought": sum(int(it["32"]) for it in fills if it["54"] == "1"),
                     "sold": sum(int(it["32"]) for it in fills if it["54"] == "2"),
                     "resting": len(mine), "left": sum(int(it[3]) for it in mine)})
    return rows


def trades_heard(heard: dict[int, list[str]]) -> list[Heard]:
    """Place, symbol, quantity, price, buyer, seller and incoming side of each trade that members heard of, in their
    order."""
    fills = sorted((int(it["17"]), member, it) for member, reports in heard.items() for it in map(fields_of, reports)
                   if it.get("150") == "F")
    found = []
    for (place, one, it), (_, two, other) in zip(fills[::2], fills[1::2]):
        buyer, seller = (one, two) if it["54"] == "1" else (two, one)
        found.append((place, it["55"], int(it["32"]), int(it["31"]), f"C{buyer}", f"C{seller}",
                      "buy" if other["54"] == "1" else "sell"))
    return found


def named(number: int, noun: str) -> str:
    return f"{number:,} {noun}{'' if number == 1 else 's'}"


def depth_told(lines: list[str], symbol: str) -> list[list[str]]:
    """The rows of a symbol's depth, by the resting orders that venue-replay tells."""
    sides = []
    for side, sign in (("1", -1), ("2", 1)):
        mine = [it for it in (line.split() for line in lines) if it[:2] == [symbol, side]]
        prices = sorted({int(it[2]) for it in mine}, key=lambda price: sign * price)[:LEVELS]
        sides.append([[f"{len(own):,}", f"{sum(int(it[3]) for it in own):,}", f"{price:,}"] for price in prices
                      for own in [[it for it in mine if int(it[2]) == price]]])
    buys, sells = sides
    empty, count = [""] * 3, max(map(len, sides))
    return [[*(buys[at] if at < len(buys) else empty), *reversed(sells[at] if at < len(sells) else empty)]
            for at in range(count)]


def overview_told(name: str, lines: list[str], trades: list[Heard], times: dict[int, str]) -> list[str]:
    """The row of a symbol in the table of all: best prices, their spread, the last price, how it changed since the day before or
    the first trade, and what was traded."""
    prices = [[int(it[2]) for it in map(str.split, lines) if it[:2] == [name, side]] for side in "12"]
    bid, ask = max(prices[0], default=None), min(prices[1], default=None)
    spread = ask - bid if bid is not None and ask is not None else None
    last, change = None, NONE
    if trades:
        days = [times[it[0]][:8] for it in trades]
        before = [it[3] for it, day in zip(trades, days) if day != days[-1]]
        last, moved = trades[-1][3], trades[-1][3] - (before[-1] if before else trades[0][3])
        change = f"{'+' if moved > 0 else MINUS if moved < 0 else ''}{abs(moved):,}"
    shown = [NONE if it is None else f"{it:,}" for it in (bid, ask, spread, last)]
    return [name, *shown, change, f"{sum(it[2] for it in trades):,}"]


def page_told(journal: str) -> Json:
    """What the page has to say of this journal, by venue-replay."""
    lines, (commands, outputs) = replay(journal, "book", SYMBOLS)
    entries = journals.read(contents(journal)).entries
    heard = {it: replay(journal, f"C{it}", SYMBOLS)[0] for it in sorted({it.gateway for it in entries})}
    members = [[f"{value:,}" if isinstance(value, int) else value for value in (
        row["name"], row["commands"], row["orders"], row["refused"], row["fills"], row["bought"], row["sold"],
        row["resting"], row["left"], str(row["when"])[9:])] for row in rows_heard(heard, lines, entries)]
    told = [fields_of(it) for reports in heard.values() for it in reports]
    symbols, overview, times = [], [], {int(it["17"]): it["52"] for it in told if "17" in it}
    for name in SYMBOLS:
        mine = [it for it in trades_heard(heard) if it[1] == name]
        rows = [[times[place][9:], f"{chr(0x25b2) if by == 'buy' else chr(0x25bc)} {price:,} by a {by} that came in", f"{quantity:,}",
                 buyer, seller, f"{place:,}"]
                for place, _, quantity, price, buyer, seller, by in reversed(mine[-TRADES:])]
        words = f"{named(len(mine), 'trade')} of {named(sum(it[2] for it in mine), 'unit')}" if mine else "no trades"
        words += f", the last at {mine[-1][3]:,}, {times[mine[-1][0]][9:]}" if mine else ""
        overview.append(overview_told(name, lines, mine, times))
        symbols.append([name, words, depth_told(lines, name), rows])
    return {"figures": [f"{it:,}" for it in (commands, outputs, len(lines))], "members": members, "symbols": symbols,
            "overview": overview}


def commands_of(journal: str) -> int:
    return len(journals.read(contents(journal)).entries)


def await_shown(page: Page, journal: str) -> Json:
    """What the page says, once it shows the whole journal."""
    wanted = [UP_TO_DATE, f"{commands_of(journal):,}"]
    page.until('["state", "commands"].map((it) => document.getElementById(it).textContent)', lambda it: it == wanted)
    return page.value(READ)


def compare(page: Page, journal: str) -> None:
    """Compares the page with what venue-replay tells."""
    came = await_shown(page, journal)
    for part, wanted in page_told(journal).items():
        assert (part, came[part]) == (part, wanted)
    assert (came["alarm"], came["lost"], came["ended"], page.errors) == ("", "", "", [])
    assert came["looks"][0] == "good"
