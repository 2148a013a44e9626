"""Tests of dev/results.py and dev/charts.py: how a result of a benchmark is kept, told as a table and drawn, which ones are refused, and
what the scripts that measure write of made-up figures."""
import argparse
import collections
import json
import re
import xml.etree.ElementTree as xml
from typing import Any

import pytest

import charts
import measuring
import results
from checks import put_text
from measuring import Figure, Figures
from script_modules import loaded

pytestmark = pytest.mark.quick

ROWS: dict[str, Any] = {"command": "edge/speed", "date": "2026-11-29", "machine": "4 cores of x86-64", "load": "quiet", "rounds": 2,
                        "columns": ["", "one", "two"],
                        "rows": [{"what": "a trip", "cells": [{"figures": [1370, 146], "says": "{} and {} us"}, None]},
                                 {"what": "a rate", "command": "dev/siege", "date": "2026-11-28", "load": "busy",
                                  "cells": [{"figures": [0.7], "says": "{:.2f}"}, {"figures": [4.5, 12], "says": "{} to {} s"}]}]}
SAID = """
By `edge/speed`, 2 rounds, quiet, on 4 cores of x86-64, 29 November:

|  | one | two |
|---|---|---|
| a trip | 1,370 and 146 us |  |
| a rate (`dev/siege`, busy, 28 November) | 0.70 | 4.5 to 12 s |

"""
FIGURES: dict[str, Any] = {"command": "dev/bench all", "date": "2026-11-27", "machine": "4 cores", "figures": [
    {"name": "a.b", "unit": "us", "project": {"median": 20.5, "least": 20.4, "greatest": 23},
     "cpp": {"median": 16.83, "least": 15.7, "greatest": 1044000},
     "ratio": {"median": 1.2184, "least": 1.17, "greatest": 1.3, "of": "time"}, "best": 1.3},
    {"name": "c", "unit": "orders/s", "project": {"median": 281049, "least": 1, "greatest": 285400}}]}
CRATES: dict[str, Any] = {"command": "dev/costs", "date": "2026-10-31", "until": "2026-11-02", "machine": "4 cores", "crates": [
    {"crate": "book", "proof": 4.04, "edits": 6}, {"crate": "journal", "proof": 4.0},
    {"crate": "tests", "tests": 5.1, "and more": ["tests"]}]}


@pytest.fixture(autouse=True)
def tree(folder: Any, monkeypatch: pytest.MonkeyPatch) -> None:
    """The results are those of the test's folder."""
    monkeypatch.setattr(results, "ROOT", str(folder))


def put(name: str, result: object) -> None:
    put_text(f"bench/results/{name}.json", json.dumps(result))


def changed(result: dict[str, Any], **others: object) -> dict[str, Any]:
    """A result with other keys, and without those that are to be None."""
    return {key: it for key, it in {**result, **others}.items() if it is not None}


def test_rows() -> None:
    """A row says what it was taken by where that isn't as of the others, and a figure has commas, or the digits that its braces name."""
    put("edge-speed", ROWS)
    assert results.part_of("edge-speed") == SAID
    put("edge-speed", changed(ROWS, rounds=None, load=None) | {"command": None})
    assert results.part_of("edge-speed").splitlines()[1] == "On 4 cores of x86-64, 29 November:"


def test_figures() -> None:
    """A figure stands beside that of the plain C++ where that has one, with four digits that count, and their ratios with three."""
    put("beside-cpp", FIGURES)
    assert results.part_of("beside-cpp").splitlines()[1:] == [
        "By `dev/bench all`, on 4 cores, 27 November:", "", "| figure | project | C++ | project : C++ | best : best |",
        "|---|---|---|---|---|",
        "| `a.b`, us | 20.5 (20.4 to 23) | 16.83 (15.7 to 1,044,000) | 1.22 (1.17 to 1.3) of its time | 1.3 |",
        "| `c`, orders/s | 281,000 (1 to 285,400) |  |  |  |", ""]


def test_costs() -> None:
    """A proof of more than four minutes is marked, and the sums stand below."""
    put("costs", CRATES)
    assert results.part_of("costs").splitlines()[1:] == [
        "By `dev/costs`, on 4 cores, 31 October to 2 November:", "", "| crate | proof | tests | edits |", "|---|---|---|---|",
        "| `book` | 4.0 **!** |  | 6.0 |", "| `journal` | 4.0 |  |  |", "| `tests` |  | 5.1 and more |  |",
        "| **sum** | **8** | **5** | **6** |", ""]


def test_page() -> None:
    """What stands between two lines is made anew, and nothing else."""
    put("one", ROWS)
    page = "# Page\n\n<!-- results: one -->\nold\n<!-- end -->\n\nBy hand.\n"
    assert results.filled(page) == f"# Page\n\n<!-- results: one -->\n{SAID}<!-- end -->\n\nBy hand.\n"
    assert results.filled(results.filled(page)) == results.filled(page)
    put("two", ROWS)
    assert results.named(page + page) == [("one", 2), ("two", 0)]
    assert list(map(results.faults_of, [("one", 1), ("one", 2), ("two", 0), ("no", 1)])) == [
        [], ["docs/MEASURED.md has the result one 2 times"], ["docs/MEASURED.md has the result two 0 times"],
        ["bench/results/no.json isn't there"]]


@pytest.mark.parametrize("wrong, fault", [
    ([], "it is no object"), (changed(ROWS, command=None), "it lacks its command"),
    (changed(ROWS, machine=None), "it lacks its command or its machine"),
    (changed(ROWS, rows=None), "it has no table"), (changed(ROWS, rows=[]), "it has no table"),
    (changed(ROWS, crates=[1]), "it has no table"),
    (changed(ROWS, seen="much"), "it has other keys"), (changed(ROWS, date=None), "its date is no day"),
    (changed(ROWS, date="2026-11-31"), "its date is no day"), (changed(ROWS, until="soon"), "its date or until is no day"),
    (changed(ROWS, columns=["", "one"]), "a trip has other columns"),
    (changed(ROWS, rows=[{"what": "x", "cells": [{"figures": [1, 2], "says": "{}"}, None]}]), "{} has other figures"),
    (changed(ROWS, rows=[{"what": "x", "cells": [{"figures": [1], "says": "{} and {}"}, None]}]), "{} and {} has other figures"),
    (changed(ROWS, rows=[{"what": "x", "date": "29 November", "cells": [None, None]}]), "its date or until is no day")])
def test_forms(wrong: object, fault: str) -> None:
    """What isn't the form of a result is told, with the file."""
    put("one", wrong)
    assert results.faults_of(("one", 1))[0].startswith(f"bench/results/one.json: {fault}")


def test_no_json() -> None:
    put_text("bench/results/one.json", "{")
    assert results.faults_of(("one", 1))[0].startswith("bench/results/one.json is no JSON: ")


def test_write() -> None:
    """What was measured is kept with the command, the day and the machine, one line for each row. Rows of before that weren't measured
    stay, and say how they were taken; those of another table don't."""
    put("edge-speed", ROWS)
    new: dict[str, Any] = {"columns": ["", "one", "two"],
                           "rows": [{"what": "a trip", "cells": [results.cell("{} us", 7), None]}, {"what": "new", "cells": [None, None]}]}
    assert results.write("edge-speed", "edge/speed", new, "quiet", 5) == "bench/results/edge-speed.json"
    came = results.result_of("edge-speed")
    assert (came["command"], came["rounds"], came["machine"]) == ("edge/speed", 5, results.machine())
    assert results.is_date(came["date"]) and came["date"] >= "2025"
    assert came["rows"] == [new["rows"][0], {**ROWS["rows"][1], "machine": "4 cores of x86-64"}, new["rows"][1]]
    with open("bench/results/edge-speed.json", encoding="utf-8") as file:
        assert sum('"what"' in it for it in file) == 3
    results.write("edge-speed", "edge/speed", {"columns": ["", "other"], "rows": [{"what": "x", "cells": [None]}]})
    assert [it["what"] for it in results.result_of("edge-speed")["rows"]] == ["x"]
    with pytest.raises(results.Unfit):
        results.write("edge-speed", "edge/speed", {"columns": ["", "other"], "rows": [{"what": "x", "cells": []}]})


def test_what_bench_writes() -> None:
    """The medians of the rounds, with the least and the greatest, and the ratios of rounds and of the best ones."""
    figures = Figures()
    for one, other in ((120, 50), (300, 100), (200, 400)):
        figures.add([Figure("a.project", one, "us"), Figure("a.cpp", other, "us"), Figure("alone.project", one, "orders/s")])
    results.write("beside-cpp", "dev/bench all", {"figures": figures.listed()})
    assert results.part_of("beside-cpp").splitlines()[-3:-1] == [
        "| `a`, us | 200 (120 to 300) | 100 (50 to 400) | 2 (0.5 to 3) of its time | 2.4 |",
        "| `alone`, orders/s | 200 (120 to 300) |  |  |  |"]


def test_what_costs_writes() -> None:
    """CPU minutes of the crates that cost anything."""
    costs = collections.defaultdict(float, {("book", "proof"): 300.0, ("book", "edits"): 30.0})
    results.write("costs", "dev/costs", {"crates": loaded("dev/costs").listed(costs, ["disks", "book"])})
    assert results.part_of("costs").splitlines()[-3:-1] == ["| `book` | 5.0 **!** |  | 0.5 |", "| **sum** | **5** | **0** | **0** |"]


def test_what_the_edge_writes() -> None:
    """Round trips and rates of each kind, and the ratio to the bare acceptor."""
    module = loaded("edge/speed")
    figures = {(name, kind): 1000.4 * place for name in module.RUNS for place, kind in enumerate(("edge", "bare", "threaded", "venue"), 1)}
    results.write("edge-speed", "edge/speed", module.table(figures))
    rows = results.part_of("edge-speed").splitlines()
    assert rows[3] == "|  | edge and venue | SocketAcceptor | ratio | ThreadedSocketAcceptor | the venue alone |"
    assert rows[5] == "| 1 member, a round trip, p50 | 1,000 us | 2,001 us | 0.50 | 3,001 us | 4,002 us |"
    assert [it.split(" | ")[0] for it in rows[6:9]] == ["| 4 members, a round trip, p50", "| 1 member, 64 under way, orders/s",
                                                        "| 4 members, 64 each, orders/s"]


def test_what_the_feed_writes() -> None:
    module = loaded("feed/speed")
    took = module.Taken(4.46, 24.2, 1, 20.4, 142.4, 3)
    rows = [*(module.row_of_rate(300_000, it, "2.9", 34_945.4, took) for it in (8, 0)), module.row_of_lag(10_000, "2.9", 4.66, 11.64)]
    results.write("feed-speed", "feed/speed", {"columns": ["what", "seen"], "rows": rows})
    rate = "34,945 a second, 50,000 are the aim; 4.5 s and 24 MB for the feed, 20 s and 142 MB each for the servers |"
    assert [it.split(" | ") for it in results.part_of("feed-speed").splitlines()[5:8]] == [
        ["| 300,000 events with trades, books and drop copies, nats-server 2.9", rate],
        ["| 300,000 events with trades and books, without drop copies, nats-server 2.9", rate],
        ["| from where an event is read to where it is acknowledged, nats-server 2.9 (`feed/speed --rate 10000`)", "p50 4.7 ms, p99 11.6 ms |"]]


def test_what_the_venue_writes(monkeypatch: pytest.MonkeyPatch) -> None:
    """The venue's rate, its share of the twin's in the same rounds, and what an order takes."""
    module = loaded("dev/bench-venue")
    told = {"venue": (400.0, 4.44, 10.0, 20.0), "twin": (800.0, 2.0, 5.0, 9.0)}
    monkeypatch.setattr(module, "rounds_of", lambda *_: [told, told])
    monkeypatch.setattr(module.measuring, "compiled", lambda *_: "twin")
    rows = module.beside("load", "place", argparse.Namespace(beside=0, against=None, memory="", rounds=2))
    results.write("tcp-rates", "dev/bench-venue --beside 0", {"columns": module.COLUMNS["tcp-rates"], "rows": rows})
    assert results.part_of("tcp-rates").splitlines()[5:8] == [f"| {it} | 400 | 0.50 | 4.4 |" for it in (1, 4, 8)]


def test_what_tools_write() -> None:
    """The least and the greatest time of a command, and the most memory of Python and of the program that it reads by, if there is one."""
    module = loaded("dev/bench-tools")
    rows = [module.row("`a`", [module.Took(1.04, 17_000_000, 5_000_000), module.Took(2.0, 16_000_000, 5_400_000)]),
            module.row("`b`", [module.Took(1, 2e6, 0)])]
    results.write("tools", "dev/bench-tools", {"columns": ["command", "time", "memory"], "rows": rows})
    assert results.part_of("tools").splitlines()[5:7] == ["| `a` | 1.0 to 2.0 s | 17 and 5 MB |", "| `b` | 1.0 to 1.0 s | 2 MB |"]


# The pictures.

FONT, NARROWEST, A_LETTER = 16, 360, 8.9  # Of letters: their size, a page's width, and how wide one is, on the average.
SPACE = "{http://www.w3.org/2000/svg}"


def drawn(text: str) -> tuple[list[xml.Element], list[tuple[float, float, str, str]]]:
    """All that is in a picture, and of its texts the place, the words and where they stand there."""
    every = list(xml.fromstring(text).iter())
    return every, [(float(it.get("x", "")), float(it.get("y", "")), it.text or "",
                    it.get("text-anchor", "")) for it in every if it.tag == f"{SPACE}text"]


@pytest.fixture
def shown(monkeypatch: pytest.MonkeyPatch) -> None:
    """Results of which both pictures are drawn."""
    def seen(value: float) -> dict[str, float]:
        return {"median": value, "least": value / 2, "greatest": value * 1.5}

    figures = [{"name": f"{where}.c{count}.{what}", "unit": "x", "project": seen(100.0 * count), "cpp": seen(200.0 * count)}
               for where in ("tcp", "tcp.disk") for count in (1, 4, 8) for what in ("w1.p50", "w64")]
    put("beside-cpp", changed(FIGURES, figures=figures))
    cells = [results.cell("{} and {}", 90, 110), results.cell("{} and {}", 30, 50), results.cell("{}, {} and {}", 60, 70, 90)]
    put("edge-speed", changed(ROWS, columns=["", "edge and venue", "SocketAcceptor", "ThreadedSocketAcceptor"], rows=[
        {"what": it, "cells": cells} for it in ("1 member, a round trip, p50", "1 member, 64 under way, orders/s")]))
    put("tcp-rates", changed(ROWS, columns=["members", "orders/s"], rows=[
        {"what": str(it), "cells": [results.cell("{}", 300 * it)]} for it in (1, 4, 8)]))


@pytest.mark.usefixtures("shown")
def test_bars() -> None:
    """A bar is as long as its figure by the axis below it, and its figure stands at it: of two runs both, of three the least and the greatest."""
    every, texts = drawn(charts.trips())
    ticks = sorted((y, x, float(words.replace(",", ""))) for x, y, words, anchor in texts if anchor == "middle")
    rows = {y for x, y, words,
            anchor in texts if anchor == "end" and words in ("Gikvand", "plain C++", "Gikvand's edge", "SocketAcceptor", "Threaded")}
    found = []
    for bar in (it for it in every if it.tag == f"{SPACE}rect" and it.get("x")):
        y = float(bar.get("y", ""))
        axis = [it for it in ticks if it[0] > y]
        (_, left, zero), (_, right, most) = min(it for it in axis if it[0] == axis[0][0]), max(it for it in axis if it[0] == axis[0][0])
        assert zero == 0 and float(bar.get("x", "")) == pytest.approx(left)
        near = min(rows, key=lambda it: abs(it - y - 15))
        name, value = [words for x, at, words, _ in sorted(texts) if at == near]
        found.append((name, value, round(float(bar.get("width", "")) * most / (right - left), 1)))
    venue = [("Gikvand", "100", 100), ("plain C++", "200", 200)]
    edge = [("Gikvand's edge", "90 and 110", 100), ("SocketAcceptor", "30 and 50", 40), ("Threaded", "60 to 90", 70)]
    assert found == [*venue, *venue, *edge, *venue, *venue, *edge]


@pytest.mark.usefixtures("shown")
def test_lines() -> None:
    """A point stands at its number of members and at its rate, by both axes."""
    every, texts = drawn(charts.members())
    across = {int(words): x for x, _, words, anchor in texts if anchor == "middle" and words in ("1", "4", "8")}
    up = {float(words.replace(",", "")): y - 6 for _, y, words, anchor in texts if anchor == "end"}
    most = max(up)
    points = [(float(it.get("cx", "")),
               (up[0] - float(it.get("cy", ""))) * most / (up[0] - up[most])) for it in every if it.tag == f"{SPACE}circle"]
    assert [x for x, _ in points] == [across[it] for it in (1, 4, 8)] * 5
    assert [round(y / 10) * 10 for _, y in points] == [rate * count for rate in (200, 200, 300, 100, 100) for count in (1, 4, 8)]
    assert len([it for it in every if it.tag == f"{SPACE}path"]) == 5
    ranges = [(up[0] - float(it.get("y2", ""))) / (up[0] - float(it.get("y1", ""))) for it in every if "range" in it.get("class", "")]
    assert [round(it) for it in ranges] == [3] * 6 + [1] * 3 + [3] * 6  # (from half of it to one and a half)


@pytest.mark.usefixtures("shown")
@pytest.mark.parametrize("name, words", [
    ("trips",
     ["microseconds, p50: less is better", "orders a second: more is better", "dev/bench all, 27 November 2026, on 4 cores.",
      "29 November 2026"]),
    ("members",
     ["orders a second", "members, 64 orders of each under way", "dev/bench all, 27 November 2026, on 4 cores;", "29 November 2026"])])
def test_readable(name: str, words: list[str]) -> None:
    """Axes have titles and units, and a caption the day and the machine. Letters have 11 px at least on a narrow page and stay within the
    picture, and there are colours for a dark page."""
    text = getattr(charts, name)()
    _, texts = drawn(text)
    said = " ".join(it for _, _, it, _ in texts)
    assert [it for it in words if it not in said] == []
    assert set(map(int, re.findall(r"font: (\d+)px", text))) == {FONT} and "font-size" not in text
    assert FONT * NARROWEST / charts.WIDTH >= 11
    for x, _, it, anchor in texts:
        wide = len(it) * A_LETTER
        left = x - {"start": 0, "middle": wide / 2, "end": wide}[anchor]
        assert left >= -2 and left + wide <= charts.WIDTH, it
    light, _, dark = text.partition("@media (prefers-color-scheme: dark)")
    for colour in ("text", ".back", ".grid", ".axis", ".range", ".own", ".other", ".third"):
        assert f"{colour} {{" in light and f"{colour} {{" in dark, colour


@pytest.mark.usefixtures("shown")
def test_what_a_picture_lacks() -> None:
    """A picture of a figure that isn't there can't be drawn, and it is told which one."""
    put("tcp-rates", changed(ROWS, columns=["members", "orders/s"], rows=[{"what": "1", "cells": [results.cell("{}", 3)]}]))
    with pytest.raises(results.Unfit, match="tcp-rates.json has no orders/s of 4, which a picture shows"):
        charts.members()
    put("beside-cpp", changed(FIGURES))
    with pytest.raises(results.Unfit, match="beside-cpp.json has no figure tcp.c1.w1.p50 of project, which a picture shows"):
        charts.trips()


@pytest.mark.parametrize("greatest, said",
                         [(146, [0, 25, 50, 75, 100, 125, 150]), (150, [0, 25, 50, 75, 100, 125, 150]),
                          (1_086_000, [200_000 * it for it in range(7)]),
                          (23_000, [0, 5_000, 10_000, 15_000, 20_000, 25_000])])
def test_axes(greatest: float, said: list[float]) -> None:
    assert charts.steps(greatest) == said


def test_rounding() -> None:
    assert [measuring.rounded(it) for it in (1234567.8, 20.5, 3.0, 0.123456789)] == [1234570, 20.5, 3, 0.123457]
