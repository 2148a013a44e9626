"""Tests of dev/homes.py, by which dev/measures counts where the table of order fields and a match stand: what it takes for one of these, and
what it passes over. And that no tool has the rules of the tests' oracle."""
import os
import re
import subprocess
import sys

import pytest

import homes
from checks import ROOT, put_text, text_of
from script_modules import loaded

pytestmark = pytest.mark.quick

TABLE = text_of("tests/oracle/order_rules.py")
BY_NAME = "".join(f"    case FIELD::{it}: return true;\n" for it in (
    "ClOrdID", "OrderQty", "OrdType", "OrigClOrdID", "Price", "Side", "Symbol", "TimeInForce", "TransactTime"))
MESSAGE = "35=G|41=1|11=2|55=ABC|54=1|60=20250102-09:30:00|38=80|40=2|44=51|59=0|\n[(41, 1), (11, 2), (55, it), (54, 1), (60, 1), (38, 5), (40, 2)]\n"
A_MATCH = "            quantity = min(order.left, other.left)\n"
# Files, and where a table and a match are found then, beside the three homes of each.
FURTHER: dict[str, tuple[dict[str, str], list[str], list[str]]] = {
    "a tool with the table": ({"tools/gikvand/rules.py": TABLE}, ["tools/gikvand/rules.py:7"], []),
    "an engine with the table": ({"feed/fields.cpp": BY_NAME}, ["feed/fields.cpp:1"], []),
    "a table that is far apart": ({"feed/fields.cpp": BY_NAME.replace("\n", "\n\n")}, [], []),
    "a table that lacks a field": ({"feed/fields.cpp": BY_NAME.replace("TimeInForce", "Account")}, [], []),
    "messages": ({"tests/some.play": MESSAGE, "tools/gikvand/said.py": MESSAGE}, [], []),
    "a tool that matches": ({"tools/gikvand/book.py": A_MATCH}, [], ["tools/gikvand/book.py:1"]),
    "two tools that do": ({"tools/one.py": A_MATCH, "dev/two": f"\n{A_MATCH}"}, [], ["dev/two:2", "tools/one.py:1"]),
    "a page that tells of one": ({"docs/MORE.md": A_MATCH}, [], []),
    "the dictionary that is made": ({"docs/FIX44-gikvand.xml": text_of("docs/FIX44-gikvand.xml")}, [], []),
    "a dictionary of others": ({"docs/other.xml": text_of("docs/FIX44-gikvand.xml")}, ["docs/other.xml:"], []),
}
OWN = {"crates/fix_orders/src/tables.rt": TABLE, "tests/oracle/order_rules.py": TABLE, "tests/wrong_rules.py": TABLE, "dev/twins/fix.h": TABLE,
       "crates/book/src/matching.rt": A_MATCH, "tests/oracle/book_rules.py": A_MATCH, "dev/twins/book.cpp": A_MATCH, "dev/twins/venue.h": A_MATCH}


def put(files: dict[str, str]) -> None:
    """Makes the test's folder a repository with these files."""
    for path, text in files.items():
        put_text(path, text)
    for words in (["init", "-q"], ["add", "."]):  # (without the settings of whoever runs the tests)
        subprocess.run(["git", *words], check=True, env={**os.environ, "GIT_CONFIG_GLOBAL": os.devnull, "GIT_CONFIG_SYSTEM": os.devnull})


@pytest.mark.parametrize("what", FURTHER)
def test_further_homes(what: str) -> None:
    files, tables, matches = FURTHER[what]
    put({**OWN, **files})
    found = homes.counted(".")
    for kind, wanted in (("tables", tables), ("matches", matches)):
        assert [it.split()[0] for it in found[kind] if it.split()[0] in ("proved", "oracle", "twin")] == ["proved", "twin", "oracle"]
        further = [it.split()[1] for it in found[kind] if it.split()[0] not in ("proved", "oracle", "twin")]
        assert [it[:len(place)] for it, place in zip(further, wanted, strict=True)] == wanted


def test_without_git(monkeypatch: pytest.MonkeyPatch) -> None:
    """In a folder that git doesn't know each file counts."""
    monkeypatch.setenv("GIT_CEILING_DIRECTORIES", os.path.dirname(os.getcwd()))  # (a repository around the test's folder doesn't count)
    for path, text in OWN.items():
        put_text(path, text)
    assert [sorted(it.split()[0] for it in found) for found in homes.counted(".").values()] == [["oracle", "proved", "twin"]] * 2


@pytest.mark.parametrize("kind, count, status", (("tables", 3, 0), ("tables", 4, 1), ("matches", 3, 0), ("matches", 4, 1)))
def test_more_than_three(kind: str, count: int, status: int, monkeypatch: pytest.MonkeyPatch, capsys: pytest.CaptureFixture) -> None:
    """A fourth home is above the bound, and dev/measures says where it stands."""
    measures = loaded("dev/measures")
    monkeypatch.setattr(sys, "argv", ["measures"])
    monkeypatch.setattr(measures, "measured", lambda names: {})
    monkeypatch.setattr(measures, "tell_house", lambda is_all: (0, []))
    monkeypatch.setattr(measures.homes, "counted", lambda root: {"tables": [], "matches": [], kind: [f"home{at}" for at in range(count)]})
    assert measures.main() == status
    lines = capsys.readouterr().out.splitlines()
    above = [f"homes of {kind}: {count}, and 3 at most"] if status else []
    assert [it for it in lines if "at most" in it] == above
    assert (lines[-1].split(" passed, ")[1], f"    home{count - 1}" in lines) == (f"{count - 3} failed", True)


def test_homes_of_the_project() -> None:
    """The project has the three homes of each."""
    for found in homes.counted(ROOT).values():
        assert sorted(it.split()[0] for it in found) == ["oracle", "proved", "twin"]


def test_no_tool_has_the_oracle() -> None:
    """What ships imports nothing of the tests."""
    listed = subprocess.run(["git", "-C", ROOT, "ls-files", "tools", "scripts", "contrib"], stdout=subprocess.PIPE, text=True).stdout
    imports = [path for path in listed.split() if re.search(r"^\s*(?:from|import) (?:oracle|tests)\b", text_of(path), re.MULTILINE)]
    assert (imports, "tools/gikvand/verify.py" in listed) == ([], True)
