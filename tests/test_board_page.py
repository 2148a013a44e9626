"""Looks at the page of `gikvand board` and at the picture of `gikvand day` in Chromium, without a window.

The numbers on the page have to be those that venue-replay tells of the journal, in each of its tables, also while
members trade; no script may fail; what goes wrong has to stand there in words; and the page has to be readable: in
light and dark, wide and narrow, by keys and by a screen reader. Without Chromium its tests are skipped. KEEP in the
environment names a folder in which the pictures of the pages are kept, to be looked at.
"""
import collections
import os
import random
import re
import subprocess
import sys

import pytest

import chromium
import pictures
from board_page import READ, await_shown, compare, named, page_told, trades_heard
from chromium import Browser, Page
from gikvand import journals
from gikvand.journals import Entry
from gikvand.words import sure
from journal_writer import Orders
from made_journals import BEHIND, DAY, JOURNAL, SYMBOLS, TOOLS, contents, put, trade
from running_tools import Running
from venues import TIME, message, order, replay, started

pytestmark = [pytest.mark.slow, pytest.mark.browser, pytest.mark.usefixtures("programs")]

KEEP = os.environ.get("KEEP") and os.path.abspath(os.environ["KEEP"])


def write_day(journal: str, count: int) -> None:
    """A journal by chance, of three members, with orders far from each other besides."""
    orders = Orders(random.Random(3), SYMBOLS, 0)
    orders.members = 3
    entries = [orders.message() for _ in range(count)]
    put(journal, journals.header(3) + journals.in_blocks(3, entries, 5) + journals.CLOSED)
    put(f"{journal}.symbols", b"ABC XYZ\n")


def keep_picture(page: Page, name: str) -> bytes:
    if KEEP:
        os.makedirs(KEEP, exist_ok=True)
    return page.picture(os.path.join(KEEP, f"{name}.png") if KEEP else None)


def test_numbers_of_a_day(browser: Browser) -> None:
    """A day by chance, in both schemes of colours: its numbers, and that something of it is drawn."""
    write_day(JOURNAL, 700)
    it, page = Running(JOURNAL), browser.page()
    page.look(1280, 900)
    page.go(it.address())
    compare(page, JOURNAL)
    for scheme, ground in (("light", (0xf7, 0xf6, 0xf3)), ("dark", (0x14, 0x17, 0x1a))):
        page.look(1280, 900, scheme)
        drawn = chromium.colours(keep_picture(page, f"board-{scheme}"))
        assert (scheme, ground in [it for it, _ in drawn.most_common(3)], len(drawn) > 30) == (scheme, True, True)
    assert (it.end(), page.errors) == ((0, None), [])


def test_a_day_as_it_comes(browser: Browser) -> None:
    """The page is there before the first order, and follows what members do."""
    put(f"{JOURNAL}.symbols", b"ABC XYZ\n")
    venue = started(JOURNAL, 3, SYMBOLS)
    it, page = Running(JOURNAL), browser.page()
    page.go(it.address())
    came = await_shown(page, JOURNAL)
    assert (came["figures"], came["members"], came["holder"], came["looks"][1]) == (
        ["0", "0", "0"], [], f"a journal of version 3, in use by venued (process {venue.process.pid})", "soft")
    assert page.value("document.getElementById('age').textContent") == ""
    heard: dict[int, list[str]] = {1: [], 2: [], 3: []}
    trade(venue, DAY, heard)
    compare(page, JOURNAL)
    ages = page.until("document.getElementById('age').textContent", lambda it: it not in ("", "the last 0 s ago"))
    assert re.fullmatch(r"the last \d+ (s|min) ago", ages) is not None
    venue.stop()
    venue = started(JOURNAL, 3, SYMBOLS)
    trade(venue, BEHIND, heard)
    compare(page, JOURNAL)
    venue.stop()
    page.until("document.getElementById('holder').textContent",
               lambda it: it == "a journal of version 3, no venue serves it")
    assert page.value(READ)["looks"][1] == "bad"
    keep_picture(page, "board-worked")
    assert it.end() == (0, None)


def test_books_that_shrink(browser: Browser) -> None:
    """Levels and trades that have gone don't stay, and bars of both sides have one measure, that of the greatest quantity."""
    put(f"{JOURNAL}.symbols", b"ABC XYZ\n")
    venue = started(JOURNAL, 3, SYMBOLS)
    it, page = Running(JOURNAL), browser.page()
    page.go(it.address())
    resting = [(1, "D", order(name, 1 + name % 2, 10 * name * (3 if name % 2 else 1), 50 + (name if name % 2 else -name)))
               for name in range(1, 9)]
    heard: dict[int, list[str]] = {1: [], 2: [], 3: []}
    trade(venue, resting, heard)
    compare(page, JOURNAL)
    quantities = [int(body.partition("|38=")[2].partition("|")[0]) for _, _, body in resting]
    parts = page.value("[...document.querySelectorAll('#symbol-ABC td.bar')].map((it) => "
                       "[it.textContent, it.style.getPropertyValue('--part')])")
    assert sorted(parts) == sorted([str(it), f"{max(2, int(100 * it / max(quantities) + 0.5))}%"] for it in quantities)
    trade(venue, [(1, "F", f"41={name}|11={20 + name}|55=ABC|54={1 + name % 2}|60={TIME}|38={quantities[name - 1]}|")
                  for name in range(1, 8)], heard)
    compare(page, JOURNAL)
    assert len(page.value(READ)["symbols"][0][2]) == 1
    venue.stop()
    assert it.end() == (0, None)


def test_a_board_that_comes_again(browser: Browser) -> None:
    """A page that has lost its board says so in grey and red, until it hears of it again; before the first data it shows no figure."""
    write_day(JOURNAL, 60)
    it, page = Running(JOURNAL), browser.page()
    page.go(it.address())
    await_shown(page, JOURNAL)
    came = page.value(f"(source.onerror(), {READ})")  # (at once: each second something comes)
    assert (came["lost"][:25], came["looks"][0]) == ("The board doesn't answer.", "soft")
    page.until("document.getElementById('lost').hidden && document.getElementById('state').className", lambda it: it == "good")
    assert it.end() == (0, None)
    page.until("document.getElementById('ended').textContent", lambda it: it.startswith("This board has ended."))
    assert (page.value(READ)["lost"], page.value(READ)["looks"][0], page.errors) == ("", "soft", [])
    with open(os.path.join(TOOLS, "gikvand/board.html"), encoding="utf-8") as file:
        text = file.read()
    figures = [sure(re.search(rf'id="{name}">([^<]*)<', text))[1] for name in ("commands", "outputs", "resting", "bytes", "pace-now")]
    assert figures == ["\u2013"] * 5


def test_what_goes_wrong(browser: Browser) -> None:
    """A journal that is cut or damaged, and a board that ends or vanishes: each stands there in words."""
    page, other = browser.page(), browser.page()
    write_day(JOURNAL, 60)
    for name in ("cut.journal", "cut.journal.before"):
        write_day(name, 60)
    truth, cut = Running(JOURNAL), Running("cut.journal")
    page.go(cut.address())
    await_shown(page, "cut.journal")
    os.remove("cut.journal")
    page.until("document.getElementById('alarm').textContent", bool)
    assert page.value(READ)["alarm"] == (
        "cut.journal isn't the file any more that it was: another journal wants another start. What stands before that is shown.")
    assert (page.value(READ)["state"], page.value(READ)["looks"][0]) == ("the journal was read up to 60 commands, and no further", "bad")
    keep_picture(page, "board-alarm")
    assert cut.end()[0] == 2
    page.until("document.getElementById('ended').textContent", lambda it: it.startswith("This board has ended."))
    put("damaged.journal", contents("cut.journal.before")[:-400])
    put("damaged.journal.symbols", b"ABC XYZ\n")
    damaged = Running("damaged.journal")
    page.go(damaged.address())
    page.until("document.getElementById('state').textContent", lambda it: it.endswith(" commands, and no further"))
    wrong = "the journal damaged.journal can't be read: venue-events: journal fault 42 at "
    assert (page.value(READ)["alarm"].startswith(wrong), page.value(READ)["looks"][0]) == (True, "bad")
    assert damaged.end()[0] == 2
    other.go(truth.address())
    await_shown(other, JOURNAL)
    truth.kill()
    other.until("document.getElementById('lost').textContent", lambda it: it.startswith("The board doesn't answer."))
    assert [it for it in page.errors + other.errors if "ERR_" not in it] == []


def test_hostile_names(browser: Browser) -> None:
    """A journal whose name is HTML is shown by that name, and nothing of it is done; nor is anything that is put into
    the page."""
    name = "<img src=x onerror=alert(1)><b>&amp;\"'.journal"
    write_day(name, 20)
    it, page = Running(name), browser.page()
    page.go(it.address())
    assert await_shown(page, name)["journal"] == name
    inside = page.value("document.images.length + document.querySelectorAll('h1 *').length")
    assert (inside, page.value("document.title"), page.errors) == (0, f"{name} \u2013 Gikvand board", [])
    os.remove(name)
    page.until("document.getElementById('alarm').textContent", bool)
    assert (page.value("document.querySelectorAll('#alarm *').length"), page.errors) == (0, [])
    evil = "<img src='http://127.0.0.1:1/x' onerror='window.evil = 1'>"
    page.value(f"document.body.insertAdjacentHTML('beforeend', `{evil}`)")
    page.until("[...document.images].every((it) => it.complete)", bool)
    assert (page.value("window.evil === undefined"), len(page.errors) > 0) == (True, True)
    it.end()


CONTRAST = """(() => {
  const parts = (colour) => colour.match(/[\\d.]+/g).map(Number);
  const light = (colour) => [0.2126, 0.7152, 0.0722].reduce((sum, part, at) => {
    const it = parts(colour)[at] / 255;
    return sum + part * (it <= 0.03928 ? it / 12.92 : ((it + 0.055) / 1.055) ** 2.4);
  }, 0);
  const ground = (node) => {
    if (node.matches("td.bar")) return getComputedStyle(node).getPropertyValue("--tint").trim();
    const own = getComputedStyle(node).backgroundColor;
    return parts(own)[3] === 0 ? ground(node.parentElement) : own;
  };
  const rgb = (colour) => {
    const it = document.createElement("i");
    it.style.color = colour;
    document.body.append(it);
    const found = getComputedStyle(it).color;
    it.remove();
    return found;
  };
  return [...document.querySelectorAll("h1, h2, p, dt, dd, th, td, caption, footer")]
    .filter((it) => it.textContent && !it.hidden)
    .map((it) => [it, light(rgb(getComputedStyle(it).color)), light(rgb(ground(it)))])
    .map(([it, one, two]) => [it.textContent.slice(0, 20), (Math.max(one, two) + 0.05) / (Math.min(one, two) + 0.05)])
    .filter(([, contrast]) => contrast < 4.5);
})()"""
TOO_WIDE = """[...document.querySelectorAll("th, td")].filter((it) => it.scrollWidth > it.clientWidth + 1)
  .map((it) => it.textContent)"""
NOT_WHOLE = """[...document.querySelectorAll("[role=region]")].filter((it) => it.scrollWidth > it.clientWidth)
  .map((it) => it.ariaLabel)"""
REACHED = "[document.activeElement.ariaLabel, getComputedStyle(document.activeElement).outlineStyle]"
A_PHONE, A_DESK = 640, 1280  # Below the one and from the other on no table has to be moved to be seen whole.
REGIONS = ["All symbols"] + [f"{what} of {symbol}" for symbol in SYMBOLS for what in ("Depth", "Last trades")] + ["Members"]


def test_how_it_looks(browser: Browser) -> None:
    """In both schemes and at any width all is legible, and nothing stands over the page's edge or its cell's; keys
    reach each table, and a screen reader finds its name and its heads."""
    write_near_day(JOURNAL)
    it, page = Running(JOURNAL), browser.page()
    page.go(it.address())
    compare(page, JOURNAL)
    for scheme in ("light", "dark"):
        for width in (1920, 1280, 1000, 720, 390, 360):
            page.look(width, 800, scheme)
            seen = [page.value(it) for it in ("document.documentElement.scrollWidth", TOO_WIDE, CONTRAST)]
            assert (scheme, width, seen) == (scheme, width, [width, [], []])
            if width < A_PHONE or width >= A_DESK:
                assert (scheme, width, page.value(NOT_WHOLE)) == (scheme, width, [])
            keep_picture(page, f"board-{scheme}-{width}")
    nodes = page.call("Accessibility.getFullAXTree")["nodes"]
    names = [(it["role"]["value"], it["name"]["value"]) for it in nodes if not it["ignored"] and it.get("name")]
    assert sorted(name for role, name in names if role == "region") == sorted(["The venue", *REGIONS])
    tables = sorted(name.split(" ")[0] for role, name in names if role == "table")
    assert tables == ["All", "Depth", "Depth", "Last", "Last", "Members"]
    counts = [sum(role == what for role, _ in names) for what in ("heading", "status", "rowheader")]
    assert counts == [1 + len(SYMBOLS), 1, 3 + len(SYMBOLS)]
    reached = []
    for _ in (*REGIONS, *SYMBOLS):  # (each symbol has a link, too)
        for kind in ("keyDown", "keyUp"):
            page.call("Input.dispatchKeyEvent", type=kind, key="Tab", code="Tab", windowsVirtualKeyCode=9)
        reached.append(page.value(REACHED))
    assert [it for it in reached if it[0]] == [[name, "solid"] for name in REGIONS]
    assert (it.end(), page.errors) == ((0, None), [])


def write_near_day(journal: str) -> None:
    """A journal of three members whose orders are near each other, with more levels and trades than are shown."""
    names, entries, chance = collections.Counter[int](), list[Entry](), random.Random(5)
    for at in range(160):
        member, side = 1 + at % 3, 1 + at % 2
        names[member] += 1
        price = 100 + (1 if side == 2 else -1) * chance.randint(-2, 14)
        body = order(names[member], side, chance.randint(1, 90), price, SYMBOLS[at % 5 // 4])
        entries.append(Entry(member, message(member, 1 + names[member], "D", body)))
    put(journal, journals.header(3) + journals.in_blocks(3, entries, 7) + journals.CLOSED)
    put(f"{journal}.symbols", b"ABC XYZ\n")


WORDS = '[...document.querySelectorAll("text")].map((it) => [it.textContent, it.getBoundingClientRect()])'
OUTSIDE = f"""{WORDS}.filter(([, it]) => it.left < 0 || it.top < 0 || it.bottom > document.documentElement.height.baseVal.value
  || it.right > Math.min(innerWidth, document.documentElement.width.baseVal.value)).map(([words]) => words)"""
OVER = f"""{WORDS}.flatMap(([one, a], at, all) => all.slice(at + 1).filter(([, b]) => a.left < b.right
  && b.left < a.right && a.top + 2 < b.bottom - 2 && b.top + 2 < a.bottom - 2).map(([two]) => [one, two]))"""


def test_the_day_as_a_picture(browser: Browser) -> None:
    """`gikvand day` of the same journal: as the browser has it, its trades and its depth are those that venue-replay
    tells, no words stand in others or outside, and both sides' colours are there."""
    write_near_day(JOURNAL)
    told, page = page_told(JOURNAL), browser.page()
    words, env = [sys.executable, "-m", "gikvand", "day", JOURNAL], {**os.environ, "PYTHONPATH": TOOLS}
    drawn = subprocess.run(words, capture_output=True, env=env, check=True).stdout
    page.look(1100, 900)
    page.go(f"file://{os.path.abspath(put('day.svg', drawn))}")
    assert (page.value(OUTSIDE), page.value(OVER), page.errors) == ([], [], [])
    picture = pictures.Picture(page.value("new XMLSerializer().serializeToString(document)"))
    heard = {it: replay(JOURNAL, f"C{it}", SYMBOLS)[0] for it in (1, 2, 3)}
    lines = [line.split() for line in replay(JOURNAL, "book", SYMBOLS)[0]]
    for symbol in SYMBOLS:
        row = pictures.row_of(picture, symbol)
        trades = [(it[0] + 1, it[3], it[6]) for it in trades_heard(heard) if it[1] == symbol]
        assert [it[:3] for it in row["trades"]] == trades
        depth = collections.Counter[tuple[str, int]]()
        for line in lines:
            depth[{"1": "buy", "2": "sell"}[line[1]], int(line[2])] += int(line[3]) * (line[0] == symbol)
        further = {level: left for level, left in depth.items() if left and level not in row["depth"]}
        assert row["depth"] == {level: left for level, left in depth.items() if left and level not in further}
        rest = f"{named(len(further), 'price')} further off {'is' if len(further) == 1 else 'are'}n't shown: " \
               f"{sum(further.values()):,} rest there"
        assert (rest, rest in picture.said()) == (rest, bool(further))
    said = " ".join(picture.said())
    assert [f"{name}: {words.rpartition(', ')[0]}" in said for name, words, *_ in told["symbols"]] == [True] * len(SYMBOLS)
    seen = chromium.colours(keep_picture(page, "day"))
    assert [colour in seen for colour in ((0x00, 0x72, 0xb2), (0xd5, 0x5e, 0x00), (255, 255, 255))] == [True] * 3


def test_days_with_far_prices(browser: Browser) -> None:
    """One far trade doesn't flatten the day: it stands at the edge, and a line says how many do. A day at the lowest prices has no
    price below zero; bars fill their chart, and what was traded adds up."""
    for name, prices, far in (("far.journal", [5190 + at % 25 for at in range(60)] + [5002, 9000], 2),
                              ("low.journal", [1 + at % 3 for at in range(40)], 0)):
        names, entries = collections.Counter[int](), list[Entry]()
        for at, price in enumerate(prices):
            for member, side in ((1, 2), (2, 1)):
                names[member] += 1
                body = order(names[member], side, 1 + at % 7, price)
                entries.append(Entry(member, message(member, 1 + names[member], "D", body)))
        entries.append(Entry(3, message(3, 2, "D", order(1, 1, 40, min(prices[:40])))))
        put(name, journals.header(3) + journals.in_blocks(3, entries, 7) + journals.CLOSED)
        words, env = [sys.executable, "-m", "gikvand", "day", name, "ABC"], {**os.environ, "PYTHONPATH": TOOLS}
        drawn = subprocess.run(words, capture_output=True, env=env, check=True).stdout
        page = browser.page()
        page.look(1100, 900)
        page.go(f"file://{os.path.abspath(put(f'{name}.svg', drawn))}")
        assert (name, page.value(OUTSIDE), page.value(OVER), page.errors) == (name, [], [], [])
        keep_picture(page, name)
        picture = pictures.Picture(drawn.decode())
        said = [it for it in picture.said() if "at the edge" in it]
        assert (name, said) == (name, [f"{far} trades at the edge: the prices are 5,002 to 9,000"] * bool(far))
        trades = pictures.row_of(picture, "ABC")["trades"]
        near = [it[1] for it in trades if it[1] in prices[:60]]
        assert (name, len(trades), near) == (name, len(prices), prices[:len(prices) - far])
        heights = [float(point.split(",")[1]) for points, *_ in picture.marks[4:] for point in points.split()[:1]]
        assert (name, max(heights) - min(heights) > 70) == (name, True)
        assert (name, [words for _, _, words, _ in picture.texts if words.startswith("-")]) == (name, [])
        longest = max(float(it.get("width", "")) for it in picture.bars)
        ground = max(float(it.get("x2", "")) - float(it.get("x1", "")) for it in picture.lines if float(it.get("x1", "")) > 700)
        assert (name, 0.9 < longest / ground <= 1) == (name, True)
        sums = page.value("[...document.querySelectorAll('.volume title')].map((it) => it.textContent)")
        assert (name, sum(int(it.split()[0].replace(",", "")) for it in sums)) == (
            name, sum(1 + at % 7 for at in range(len(prices))))
        times = {words for _, _, words, _ in picture.texts if re.fullmatch(r"\d\d:\d\d:\d\d", words)}
        assert (name, times) == (name, {TIME[9:]})
