"""The results of benchmarks, bench/results/NAME.json, and what docs/MEASURED.md shows of them. Not a script: those that measure write
them, and dev/pages shows them.

A result has the command that took it, the date, and `until` which date where it took days; the machine; where that is known the load of
other work beside it and how many rounds there were. Its table stands in one of three forms:

    rows and columns    each row has `what` it is of, and its cells; a row may have a command, date, load or machine of its own
    figures             of dev/bench: each with the project's median, least and greatest, and those of the plain C++
    crates              of dev/costs: CPU minutes of each crate's proof, tests and edits

A cell has figures, and `says` with a pair of braces for each of them. Between `<!-- results: NAME -->` and `<!-- end -->` the page has
the result of that name: a line of how it was taken, and its table. One line of a table is one of the file, so that a diff shows what
changed.
"""
import datetime
import glob
import json
import os
import re
import textwrap
from collections.abc import Iterator
from typing import Any

from crates import ROOT

FOLDER, PAGE = "bench/results", "docs/MEASURED.md"
MARKED = re.compile(r"(?<=^<!-- results: )([a-z0-9-]+)( -->\n).*?(?=^<!-- end -->$)", re.M | re.S)
TAKEN = ("command", "date", "until", "machine", "load", "rounds")  # How a result was taken: the first, second and fourth at least.
OF_A_ROW = ("command", "date", "until", "machine", "load")
LISTS = ("rows", "figures", "crates")  # What a result has one of.
PHASES = ("proof", "tests", "edits")
MOST_OF_A_CRATE = 4.0  # CPU minutes of a proof: what is above is marked.
WIDTH = 120
BRACES = re.compile(r"\{:?([^{}]*)\}")
Result = dict[str, Any]  # Of a file, whose form is looked at below.


class Unfit(Exception):
    """A result that isn't one, in words."""


# Writing.


def path_of(name: str) -> str:
    return os.path.join(ROOT, FOLDER, f"{name}.json")


def cores() -> int:
    """How many cores this program may use, and those that it starts: taskset leaves it some."""
    return len(os.sched_getaffinity(0))


def machine() -> str:
    """This machine, in words: its cores and its processor."""
    with open("/proc/cpuinfo", encoding="utf-8") as file:
        found = re.search(r"^model name\s*: (.*)$", file.read(), re.M)
    return f"{cores()} cores ({found[1] if found else 'an unknown processor'})"


def spelled(result: Result) -> str:
    """The text of a file: one line for each key, and for each line of a table."""
    def line(value: object) -> str:
        return json.dumps(value, ensure_ascii=False)

    parts = [f"  {line(key)}: " + ("[\n" + ",\n".join(f"    {line(it)}" for it in value) + "\n  ]" if key in LISTS else line(value))
             for key, value in result.items()]
    return "{\n" + ",\n".join(parts) + "\n}\n"


def kept(name: str, table: Result) -> list[Result]:
    """The rows of a table with those of the result that stands there and that it hasn't: each of these says how it was taken."""
    if "rows" not in table or name not in names() or result_of(name).get("columns") != table["columns"]:
        return table.get("rows", [])
    before, new = result_of(name), {it["what"]: it for it in table["rows"]}
    old = [new.pop(it["what"], None) or {"what": it["what"], **{key: found for key in OF_A_ROW if (found := it.get(key, before.get(key)))},
                                         "cells": it["cells"]} for it in before["rows"]]
    return [*old, *new.values()]


def write(name: str, command: str, table: Result, load: str | None = None, rounds: int | None = None) -> str:
    """Writes what a command has measured today, on this machine: the file's name. Rows of before that it hasn't measured stay."""
    taken: Result = {"command": command, "date": datetime.date.today().isoformat(), "machine": machine(), "load": load, "rounds": rounds}
    result: Result = {**{key: value for key, value in taken.items() if value is not None}, **table}
    if "rows" in table:
        result["rows"] = kept(name, table)
    need_form(name, result)
    os.makedirs(os.path.join(ROOT, FOLDER), exist_ok=True)
    with open(path_of(name), "w", encoding="utf-8") as file:
        file.write(spelled(result))
    return f"{FOLDER}/{name}.json"


def cell(says: str, *figures: float) -> Result:
    """A cell that says these figures."""
    return {"figures": list(figures), "says": says}


# Reading.


def names() -> list[str]:
    """The results that there are."""
    return sorted(os.path.basename(it).removesuffix(".json") for it in glob.glob(os.path.join(ROOT, FOLDER, "*.json")))


def result_of(name: str) -> Result:
    """A result, whose form is right."""
    try:
        with open(path_of(name), encoding="utf-8") as file:
            found = json.load(file)
    except FileNotFoundError:
        raise Unfit(f"{FOLDER}/{name}.json isn't there") from None
    except ValueError as why:
        raise Unfit(f"{FOLDER}/{name}.json is no JSON: {why}") from None
    need_form(name, found)
    return found


def need_form(name: str, found: Result) -> None:
    """A result has the command, the date and the machine, and one table, each of whose cells says as many figures as it has."""
    def need(is_right: object, fault: str) -> None:
        if not is_right:
            raise Unfit(f"{FOLDER}/{name}.json: {fault}")

    need(isinstance(found, dict), "it is no object")
    need("command" in found and found.get("machine"), "it lacks its command or its machine")
    lists = [it for it in LISTS if it in found]
    need(len(lists) == 1 and found[lists[0]], f"it has no table, which is one of {', '.join(LISTS)}")
    need(set(found) <= {*TAKEN, *lists, "columns"}, "it has other keys than there are")
    rows: list[Result] = found.get("rows", [])
    need(is_date(found.get("date")), "its date is no day")
    for it in [found, *rows]:
        need(all(is_date(it[key]) for key in ("date", "until") if key in it), "its date or until is no day")
    for row in rows:
        need(len(row["cells"]) == len(found["columns"]) - 1, f"{row['what']} has other columns")
        for one in (it for it in row["cells"] if it):
            need(len(BRACES.findall(one["says"])) == len(one["figures"]), f"{one['says']} has other figures")


def is_date(text: object) -> bool:
    try:
        return bool(datetime.date.fromisoformat(str(text)))
    except ValueError:
        return False


# Showing.


def day_of(taken: Result, has_year: bool = False) -> str:
    """The day or the days on which something was taken, in words."""
    def said(day: datetime.date, has_month: bool) -> str:
        return f"{day.day}" + (day.strftime(" %B") if has_month else "") + (f" {day.year}" if has_month and has_year else "")

    first = datetime.date.fromisoformat(taken["date"])
    last = datetime.date.fromisoformat(taken.get("until", taken["date"]))
    return said(last, True) if first == last else f"{said(first, first.month != last.month)} to {said(last, True)}"


def how(taken: Result) -> str:
    """How something was taken, in words: what is known of it."""
    parts = [f"`{taken['command']}`" if taken.get("command") else "", f"{taken['rounds']} rounds" if taken.get("rounds") else "",
             taken.get("load", ""), f"on {taken['machine']}" if taken.get("machine") else "", day_of(taken) if taken.get("date") else ""]
    return ", ".join(filter(None, parts))


def number(value: float, digits: int) -> str:
    """A number with as many digits that count, and none of its own behind them."""
    shown = float(f"{value:.{digits}g}")
    return f"{shown:,.0f}" if shown >= 1000 else f"{shown:g}"


def shown(figure: float) -> str:
    """A figure of a cell, as the page has it."""
    return f"{figure:,}" if isinstance(figure, int) else f"{figure:g}"


def said_by(it: Result | None) -> str:
    """What a cell says of its figures: each as it is, or in the form that its braces have."""
    if it is None:
        return ""
    left = iter(it["figures"])

    def one(found: re.Match[str]) -> str:
        return f"{next(left):{found[1]}}" if found[1] else shown(next(left))

    return BRACES.sub(one, it["says"])


def markdown(heads: list[str], rows: list[list[str]]) -> Iterator[str]:
    yield f"| {' | '.join(heads)} |"
    yield "|---" * len(heads) + "|"
    for row in rows:
        yield f"| {' | '.join(row)} |"


def rows_of(result: Result) -> list[list[str]]:
    """The rows of a result of rows and columns: each says what is particular in how it was taken."""
    found = []
    for row in result["rows"]:
        own = how({key: row[key] for key in OF_A_ROW if key in row and row[key] != result.get(key)})
        found.append([f"{row['what']} ({own})" if own else row["what"], *map(said_by, row["cells"])])
    return found


def spread(it: Result, digits: int = 4) -> str:
    median, least, greatest = (number(it[key], digits) for key in ("median", "least", "greatest"))
    return f"{median} ({least} to {greatest})"


def table(result: Result) -> list[str]:
    """The table of a result as Markdown."""
    if "rows" in result:
        return list(markdown(result["columns"], rows_of(result)))
    if "figures" in result:
        rows = [[f"`{it['name']}`, {it['unit']}", spread(it["project"]), *of_the_twin(it)] for it in result["figures"]]
        return list(markdown(["figure", "project", "C++", "project : C++", "best : best"], rows))
    rows = [[f"`{it['crate']}`", *(minutes(it, phase) for phase in PHASES)] for it in result["crates"]]
    sums = [sum(it.get(phase, 0) for it in result["crates"]) for phase in PHASES]
    return list(markdown(["crate", *PHASES], [*rows, ["**sum**", *(f"**{it:.0f}**" for it in sums)]]))


def of_the_twin(it: Result) -> list[str]:
    """What stands behind a figure of the project's: the C++'s, their ratio, and that of the best rounds."""
    if "cpp" not in it:
        return ["", "", ""]
    return [spread(it["cpp"]), f"{spread(it['ratio'], 3)} of its {it['ratio']['of']}", number(it["best"], 3)]


def minutes(it: Result, phase: str) -> str:
    """CPU minutes of a phase of a crate: marked where a proof has more than it may, or where there were more that weren't seen."""
    if phase not in it:
        return ""
    mark = " **!**" if phase == "proof" and it[phase] > MOST_OF_A_CRATE else ""
    return f"{it[phase]:.1f}{mark}" + (" and more" if phase in it.get("and more", []) else "")


def part_of(name: str) -> str:
    """What the page has of a result."""
    result = result_of(name)
    taken = textwrap.wrap(f"{'By ' if result['command'] else ''}{how(result)}:", WIDTH, break_long_words=False, break_on_hyphens=False)
    return "\n".join(["", *[it[:1].upper() + it[1:] for it in taken[:1]], *taken[1:], "", *table(result), "", ""])


def filled(page: str) -> str:
    """The page with its results."""
    return MARKED.sub(lambda found: f"{found[1]}{found[2]}{part_of(found[1])}", page)


def named(page: str) -> list[tuple[str, int]]:
    """The results that there are, or that the page names, each with how often the page does."""
    there = [it[1] for it in MARKED.finditer(page)]
    return [(it, there.count(it)) for it in dict.fromkeys([*names(), *there])]


def faults_of(one: tuple[str, int]) -> list[str]:
    """What is wrong with a result: with its form, or with how often the page has it."""
    name, count = one
    try:
        result_of(name)
    except Unfit as why:
        return [str(why)]
    return [f"{PAGE} has the result {name} {count} times"] if count != 1 else []
