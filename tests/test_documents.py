"""Tests of dev/pages on a made-up tree: that a made page which differs is found and written anew, what form a decision has, how long a
page may be, which results it takes, and which links lead somewhere. And the figures of README.md, docs/OPERATING.md, docs/EDGE.md,
docs/FEED.md and docs/FAILOVER.md are those of docs/MEASURED.md.

PAGES in the environment names another dev/pages: tests/known_bad.py puts wrong ones there.
"""
import os
import re
import subprocess
import sys
from typing import NamedTuple

import pytest

import checks
import results
from gikvand.words import sure

pytestmark = pytest.mark.quick

OWN = (*(f"dev/{it}" for it in ("pages", "results.py", "with_scripts.py")),
       *(f"scripts/{it}" for it in ("crates.py", "needs_python.py", "with_tools.py")))
INDEX, WRONG_BODIES, CLAUSES = "docs/decisions/README.md", "docs/WRONG_BODIES.md", "docs/CLAUSES.md"
EDITS = "print('### rings\\n\\n- `claim`: **`claims_all`**, `claims_none`\\n\\n### venue\\n\\n- `f`: `g`\\n')\n"
PARTS = ("**Context.** One has to.", "**Choice.** Two.", "**Price.** Three.")
DECISION = "\n\n".join(("# We do", *PARTS)) + "\n"
RESULT = """\
{"command": "dev/some", "date": "2026-11-29", "machine": "4 cores", "columns": ["what", "seen"],
 "rows": [{"what": "a trip", "cells": [{"figures": [1370], "says": "{} us"}]}]}
"""
MEASURED = "# Measured\n\n<!-- results: one -->\n<!-- end -->\n"
PAGE = """\
# A page

## What it has: `dev/some-thing`, and more

## Twice

## Twice

```text
# no heading
[nothing](of-it.md)
```
"""
FILES = {
    "README.md": "# One\n\n[The page](docs/PAGE.md#twice-1), [a folder](docs), [a site](https://example.org/no) and `[x](no.md)`.\n",
    "docs/PAGE.md": PAGE,
    "docs/PROMISES.md": "# Promises\n",
    "docs/decisions/0001-we-do.md": DECISION,
    "docs/decisions/0012-others.md": DECISION.replace("We do", "Others do"),
    "docs/decisions/functions.md": "# Functions\n",
    "docs/decisions/raised.md": "# Raised\n",
    "dev/edits": EDITS,
    "dev/clauses.py": "def page() -> str:\n    return '# Clauses\\n'\n",
    "dev/charts.py": "from results import result_of\nPICTURES = {'docs/images/a.svg': lambda: f\"<svg>{result_of('one')['date']}</svg>\\n\"}\n",
    "bench/results/one.json": RESULT,
    "docs/MEASURED.md": MEASURED,
    "docs/images/b.svg": "<svg></svg>\n",
    "dev/completion.py": "def filled(text: str) -> str:\n    return text.replace('no words', 'words')\n",
    "contrib/gikvand.bash": "echo no words\n",
}


def put(path: str, text: str) -> None:
    os.makedirs(os.path.dirname(path) or ".", exist_ok=True)
    with open(path, "w", encoding="utf-8") as file:
        file.write(text)


def text_of(path: str) -> str:
    with open(path, encoding="utf-8") as file:
        return file.read()


def pages(*words: str) -> tuple[int, list[str]]:
    """The status of dev/pages, and all its lines."""
    it = subprocess.run([sys.executable, "dev/pages", *words], stdout=subprocess.PIPE, stderr=subprocess.STDOUT, text=True,
                        timeout=checks.LONG)
    return it.returncode, it.stdout.splitlines()


@pytest.fixture(autouse=True)
def tree(request: pytest.FixtureRequest) -> None:
    """Makes the test's folder the made-up tree, with dev/pages and its modules, and its made pages as they are made. Tests that look at the
    project's own pages have none."""
    if request.function in OF_OWN_PAGES:
        return
    for path in OWN:
        checks.copy_program(path, os.environ.get("PAGES", "") if path == "dev/pages" else "")
    for path, text in FILES.items():
        put(path, text)
    assert pages("--write") == (0, [])


def refused(*parts: str) -> None:
    """The check refuses the tree for just as many things as there are texts, and each of these stands in a line."""
    status, lines = pages()
    assert (status, lines[-1].split(", ")[-1]) == (1, f"{len(parts)} failed"), lines
    for part in parts:
        assert any(part in it for it in lines), f"{part} isn't in {lines}"


def passes() -> int:
    """The check takes the tree: how many things passed."""
    status, lines = pages()
    assert (status, len(lines), lines[-1].endswith(" passed, 0 failed")) == (0, 1, True), lines
    return int(lines[0].split()[0])


def test_made_pages() -> None:
    """The list of decisions has each by its number and first line, and no other file; that of wrong bodies is what dev/edits prints."""
    rows = [it for it in text_of(INDEX).splitlines() if it.startswith("- ")]
    assert rows == ["- [0001](0001-we-do.md) We do", "- [0012](0012-others.md) Others do"]
    assert text_of(WRONG_BODIES).endswith("\n\n## rings\n\n- `claim`: **`claims_all`**, `claims_none`\n\n## venue\n\n- `f`: `g`\n")
    said = "\nBy `dev/some`, on 4 cores, 29 November:\n\n| what | seen |\n|---|---|\n| a trip | 1,370 us |\n\n"
    assert text_of("docs/MEASURED.md") == MEASURED.replace(" -->\n<!--", f" -->\n{said}<!--")
    assert text_of("docs/images/a.svg") == "<svg>2026-11-29</svg>\n"
    # Six made files, two decisions, a result, two links of README.md, four of the list, two of which lead to files without a
    # number, and one of the wrong bodies.
    assert text_of("contrib/gikvand.bash") == "echo words\n"
    assert text_of(CLAUSES) == "# Clauses\n"
    assert passes() == 16


@pytest.mark.parametrize("path, old, new", [("docs/decisions/0001-we-do.md", "# We do", "# We did"), (INDEX, "Others do", "Others did"),
                                            (WRONG_BODIES, "claims_none", "claims_some"), ("dev/edits", "claims_none", "claims_some"),
                                            (CLAUSES, "Clauses", "Promises"), ("dev/clauses.py", "Clauses", "Promises"),
                                            ("contrib/gikvand.bash", "words", "no words"), ("docs/MEASURED.md", "1,370", "1,369"),
                                            ("docs/MEASURED.md", "29 November", "28 November"), ("docs/images/a.svg", "29", "28")])
def test_what_differs(path: str, old: str, new: str) -> None:
    """A made page that isn't as it would be made is refused with its lines, and mended by --write."""
    put(path, text_of(path).replace(old, new))
    refused("as dev/pages --write makes it")
    assert any(new.removeprefix("# ") in it for it in pages()[1])
    assert pages("--write") == (0, [])
    passes()


def test_a_figure_that_differs() -> None:
    """Another figure of a result makes another page, and another day another picture besides."""
    put("bench/results/one.json", RESULT.replace("1370", "1380").replace("-29", "-28"))
    refused("docs/MEASURED.md isn't as dev/pages --write makes it", "docs/images/a.svg isn't as dev/pages --write makes it")
    assert pages("--write") == (0, [])
    assert "| a trip | 1,380 us |" in text_of("docs/MEASURED.md")
    passes()


@pytest.mark.parametrize("result, page, parts", [
    (RESULT, MEASURED + MEASURED.partition("\n\n")[2], ["docs/MEASURED.md has the result one 2 times"]),
    (RESULT, "# Measured\n", ["docs/MEASURED.md has the result one 0 times"]),
    ("", MEASURED,
     ["docs/MEASURED.md can't be made: bench/results/one.json is no JSON", "docs/images/a.svg can't be made", "one.json is no JSON"]),
    (RESULT.replace("[1370]", "[1370, 2]"), MEASURED,
     ["docs/MEASURED.md can't be made", "docs/images/a.svg can't be made", "{} us has other figures"])])
def test_results(result: str, page: str, parts: list[str]) -> None:
    """A result has its form, and stands once in the page."""
    put("bench/results/one.json", result)
    put("docs/MEASURED.md", page)
    status, lines = pages("--write")
    assert (status, len(lines)) == ((1, 1) if len(parts) > 1 else (0, 0))
    refused(*parts)


def test_a_result_of_no_page() -> None:
    put("bench/results/two.json", RESULT)
    refused("docs/MEASURED.md has the result two 0 times")
    put("docs/MEASURED.md", text_of("docs/MEASURED.md") + "\n<!-- results: three -->\n<!-- end -->\n")
    refused("docs/MEASURED.md has the result two 0 times", "docs/MEASURED.md can't be made: bench/results/three.json isn't there",
            "bench/results/three.json isn't there")


@pytest.mark.parametrize("path", [INDEX, WRONG_BODIES, CLAUSES, "docs/images/a.svg"])
def test_a_page_that_is_not_there(path: str) -> None:
    os.remove(path)
    refused(f"{path} isn't as dev/pages --write makes it")
    assert pages("--write") == (0, [])
    passes()


def test_a_decision_that_comes() -> None:
    """A new decision stands in the list, in the order of the numbers, once that is written."""
    put("docs/decisions/0002-more.md", DECISION.replace("We do", "More"))
    refused("as dev/pages --write makes it")
    assert pages("--write") == (0, [])
    assert [it[3:7] for it in text_of(INDEX).splitlines() if it.startswith("- ")] == ["0001", "0002", "0012"]
    assert passes() == 18


@pytest.mark.parametrize("text, part", [
    ("\n\n".join(("## We do", *PARTS)), "its first line is no title"),
    ("\n\n".join(("# We do", *PARTS[:2])), "its paragraphs aren't"),
    ("\n\n".join(("# We do", PARTS[0], PARTS[2], PARTS[1])), "its paragraphs aren't"),
    ("\n\n".join(("# We do", *PARTS, "More.")), "its paragraphs aren't"),
    ("\n\n".join(("# We do", "**Context** is that", *PARTS[1:])), "its paragraphs aren't"),
    (DECISION.rstrip("\n") + "é" * 700 + "." * (1500 - len(DECISION.encode()) - 1400) + "\n\n", "1501 bytes, of 1500 at most"),
])
def test_form(text: str, part: str) -> None:
    """A decision has a title and three paragraphs, and 1,500 bytes at most."""
    put("docs/decisions/0001-we-do.md", text)
    assert pages("--write") == (0, [])
    refused(part)


def test_the_longest_decision() -> None:
    put("docs/decisions/0001-we-do.md", DECISION.rstrip("\n") + "." * (1500 - len(DECISION.encode())) + "\n")
    assert len(text_of("docs/decisions/0001-we-do.md")) == 1500
    passes()


def test_a_number_twice() -> None:
    put("docs/decisions/0012-more.md", DECISION)
    assert pages("--write") == (0, [])
    refused("0012-more.md: its number is another one's too", "0012-others.md: its number is another one's too")


@pytest.mark.parametrize("link, why", [
    ("docs/PAGE.md", ""), ("docs/PAGE.md#what-it-has-devsome-thing-and-more", ""), ("docs/PAGE.md#twice", ""), ("#one", ""),
    ("docs/decisions/functions.md#functions", ""), ("https://example.org/docs/NO.md#no", ""),
    ("docs/NO.md", "leads to no file"), ("PAGE.md", "leads to no file"), ("docs/NO.md#twice", "leads to no file"),
    ("docs/PAGE.md#twice-2", "leads to no heading"), ("docs/PAGE.md#no-heading", "leads to no heading"), ("#two", "leads to no heading"),
])
def test_links(link: str, why: str) -> None:
    """A link leads to a file from its page on, and to a heading by its words, in small letters and without signs."""
    put("README.md", f"{FILES['README.md']}\n[More]({link}).\n")
    if why:
        refused(f"README.md: {link} {why}")
    else:
        passes()


@pytest.mark.parametrize("path", ["CHANGELOG.md", "docs/PAGE.md", "docs/decisions/functions.md", "tests/README.md"])
def test_links_of_each_page(path: str) -> None:
    """Links are followed in the pages of all folders."""
    put(path, "# Page\n\n[More](no.md).\n")
    refused(f"{path}: no.md leads to no file", *(["README.md: docs/PAGE.md#twice-1 leads to no heading"] if path == "docs/PAGE.md" else []))


# The figures that pages take from docs/MEASURED.md.

SPEED = {  # Rows of README.md, with what dev/bench calls their figures.
    "a round trip of 1 member over TCP, journal in memory, p50": ["tcp.c1.w1.p50"],
    "orders a second, 1, 4 and 8 members, 64 each under way": ["tcp.c1.w64", "tcp.c4.w64", "tcp.c8.w64"],
    "a round trip, journal synced on disk, p50": ["tcp.disk.c1.w1.p50"],
    "orders a second on disk, 1, 4 and 8 members": ["tcp.disk.c1.w64", "tcp.disk.c4.w64", "tcp.disk.c8.w64"],
}


def rows_of(page: str) -> dict[str, list[str]]:
    """The rows of all tables of a page, by their first cells."""
    rows = ([cell.strip() for cell in line[1:-1].split("|")] for line in checks.text_of(page).splitlines() if line.startswith("| "))
    return {re.sub(r"`([^`]*)`.*", r"\1", first): cells for first, *cells in rows}


def numbers(text: str) -> list[str]:
    return re.findall(r"\d[\d,.]*\d|\d", text)


def is_rounded(said: str, figure: str) -> bool:
    """Whether a number is a figure to as many places as it has."""
    digits, value = said.replace(",", ""), float(said.replace(",", ""))
    unit = 10.0 ** (len(digits) - len(digits.rstrip("0"))) if "." not in digits else 10.0 ** -len(digits.partition(".")[2])
    return abs(value - float(figure.replace(",", ""))) <= unit / 2


def test_rounding() -> None:
    for said, figure, is_so in (("348,000", "348,400", True), ("349,000", "348,400", False), ("21", "20.5", True), ("22", "20.5", False),
                                ("0.9", "0.93", True), ("0.9", "0.96", False), ("129", "129", True)):
        assert is_rounded(said, figure) == is_so, (said, figure)


@pytest.mark.parametrize("row", SPEED)
def test_speed_of_the_front_page(row: str) -> None:
    """README.md has the figures of dev/bench's table in docs/MEASURED.md, of the venue and of the plain C++, rounded."""
    found = rows_of("docs/MEASURED.md")
    for column, cell in enumerate(rows_of("README.md")[row]):
        figures = [numbers(found[name][column])[0] for name in SPEED[row]]
        assert len(numbers(cell)) == len(figures), cell
        for said, figure in zip(numbers(cell), figures):
            assert is_rounded(said, figure), f"{row}: {said}, and docs/MEASURED.md has {figure}"


def test_speed_of_the_edge() -> None:
    """README.md's rates of the edge and of a bare acceptor are those of one run of edge/speed in docs/MEASURED.md."""
    said = sure(re.search(r"a member has some ([\d,]+) orders a second, and a\s+bare acceptor of QuickFIX that answers at once ([\d,]+)",
                          checks.text_of("README.md"))).groups()
    edge, bare, *_ = map(numbers, rows_of("docs/MEASURED.md")["1 member, 64 under way, orders/s"])
    assert any(is_rounded(said[0], one) and is_rounded(said[1], other) for one, other in zip(edge, bare)), said


def test_shares_of_a_core() -> None:
    """docs/OPERATING.md says what is left beside one busy program, with the services' weight and with equal shares."""
    assert "keep nine tenths of their rate, where they had seven (" in " ".join(checks.text_of("docs/OPERATING.md").split())
    for members in ("4", "8"):
        weighed, equal = numbers(next(line for line in checks.text_of("docs/MEASURED.md").partition("CPUWeight")[2].splitlines()
                                      if line.startswith(f"| {members} |")).split("|")[2])
        assert is_rounded("0.9", weighed) and is_rounded("0.7", equal), (weighed, equal)


class Quoted(NamedTuple):
    """What a page says of figures: its words, with a group for each that it quotes, and where these stand in bench/results, as the result,
    the row and the places behind it. `is_bound` is what is at most so much."""
    page: str
    said: str
    figures: list[list[tuple[str, str, int, int]]]
    is_bound: bool = False


WORDS = {"half a second": "0.5", "half a minute": "30", "half an hour": "30", "one": "1", "five": "5", "some tenths of a second": "0.3"}
KILLED, DIES, ORDER = "the process is killed: the next machine is ready after", "the machine dies", "an order and its answer, in ms; on one"
QUOTED = [
    Quoted("README.md", r"scripts/first-order +(half a minute): an order", [[("check", "`scripts/first-order`", 0, 0)]]),
    Quoted("README.md", r"`scripts/build` takes up to (half an hour) on four cores", [[("check", "`scripts/build` from nothing", 0, 0)]],
           True),
    Quoted("docs/OPERATING.md", r"`--check` compares all lines, some (\d+) MB a second", [[("tools", "`audit --check`", 0, 0)]]),
    Quoted("docs/OPERATING.md", r"the rest between the looks, (\d+) MB a second", [[("tools", "`follow`, what it compares", 0, 0)]]),
    Quoted("docs/OPERATING.md", r"a start, `check`, `snapshot` and `carry` take (\d+) MB",
           [[("restart", it, 0, 1) for it in ("a first start", "a start", "`venue-replay check`")]]),
    Quoted("docs/OPERATING.md", r"`book` takes (\d+) bytes more for each message", [[("restart", "`venue-replay book`, version 1", 0, 1)]]),
    Quoted("docs/MARKET.md", r"\| memory of a process \| (\d+) to (\d+) MB",
           [[("edge-load", "ten minutes of the same", 0, it)] for it in (4, 5)]),
    Quoted("docs/MARKET.md", r"(\d+) to (\d+) MB each, one for each venue; (one) second of a processor for a million entries",
           [[("tools", "`trades --csv`", 1, 1)], [("tools", "`trades --csv`", 1, 2)], [("tools", "`venue-events once`", 0, 0)]]),
    Quoted("docs/EDGE.md", r"A million names of 16 bytes are (\d+) MB", [[("edge-load", "a record of a million names", 0, 0)]]),
    Quoted("docs/FEED.md", r"`feed/check` looks that the feed never has (\d+) MB",
           [[("feed-speed", "300,000 events with trades, books and drop copies, nats-server 2.10", 0, 4)]], True),
    Quoted("docs/FAILOVER.md", r"(half a second) where the process was killed, (five) seconds else",
           [[("drill", KILLED, 0, it) for it in (0, 1)], [("drill", DIES, 0, it) for it in (0, 1)]]),
    Quoted("docs/FAILOVER.md", r"an order's round trip \| some (\d+) ms longer", [[("drill", ORDER, 0, it) for it in (0, 1)]]),
    Quoted("docs/FAILOVER.md", r"Where a store's client stands still they are (\d+) to (\d+) seconds",
           [[("drill", "the store's client stands still", 0, it)] for it in (0, 1)]),
    Quoted("docs/FAILOVER.md", r"for a million orders ([\d.]+) seconds, and ([\d.]+) without `direct-io-mode=enable`",
           [[("drill", "a start on a million orders adds", 0, it)] for it in (0, 1)]),
    Quoted("docs/FAILOVER.md", r"With both killed at once that is \[(some tenths of a second)\]",
           [[("follow", "the oldest order that a copy", 0, it) for it in (0, 1)]]),
]
# What pages say of their own bounds and steps, which nobody has measured.
NO_FIGURES = ("some 100,000 reports", "some 30 MB", "some 20 ms", "some 100 bytes", "some 90", "some 3.5 seconds")
OF_A_FIGURE = re.compile(r"\bsome [\d,.]*\d(?: [a-zA-Z]+)?")


def words_of(page: str) -> str:
    """A page without the ends of its lines."""
    return " ".join(checks.text_of(page).split())


@pytest.mark.parametrize("it", QUOTED, ids=lambda it: it.said[:40])
def test_quoted(it: Quoted) -> None:
    """A figure that a page has is one of bench/results, rounded, or lies between two of them."""
    found = re.findall(it.said, words_of(it.page))
    assert len(found) == 1, f"{it.page} says {it.said} {len(found)} times"
    groups = found[0] if isinstance(found[0], tuple) else found
    assert len(groups) == len(it.figures)
    for said, places in zip(groups, it.figures):
        figures = []
        for result, row, column, place in places:
            (cells,) = [one["cells"] for one in results.result_of(result)["rows"] if one["what"].startswith(row)]
            figures.append(cells[column]["figures"][place])
        digits = WORDS.get(said, said)
        if it.is_bound:
            assert max(figures) <= float(digits), (said, figures)
        else:
            assert min(figures) <= float(digits) <= max(figures) or all(is_rounded(digits, str(one)) for one in figures), (said, figures)


@pytest.mark.parametrize("page", ["README.md", *(f"docs/{it}.md" for it in ("PROFILE", "OPERATING", "EDGE", "FEED", "FAILOVER"))])
def test_no_other_figures(page: str) -> None:
    """Each figure of these pages that is told as a round one is compared above, or is a bound."""
    text = words_of(page)
    compared = [found.span() for it in QUOTED if it.page == page for found in re.finditer(it.said, text)]
    compared += [found.span() for found in re.finditer(r"a member has some [\d,]+ orders a second", text)]
    others = [found[0] for found in OF_A_FIGURE.finditer(text)
              if not any(first <= found.start() < last for first, last in compared) and not found[0].startswith(NO_FIGURES)]
    assert others == []


OF_OWN_PAGES = (test_rounding, test_speed_of_the_front_page, test_speed_of_the_edge, test_shares_of_a_core, test_quoted, test_no_other_figures)
