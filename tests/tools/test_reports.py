"""Tests of `gikvand reports` and `trades`: what they show of a day that was worked out by hand."""
import csv
import json
import os
import subprocess
import sys
from collections.abc import Callable, Iterator
from unittest import mock

import pytest

from days import each_version, made
from gikvand import events, journals, programs
from gikvand.journals import Entry
from made_journals import JOURNAL, TOOLS, as_nobody, gikvand, put
from venues import TIME, Client, message, order, started, value

pytestmark = [pytest.mark.slow, pytest.mark.usefixtures("programs")]


def as_printed(report: str) -> str:
    """A report as venue-replay prints it: without what only a session has."""
    head, _, rest = report.partition("|52=")
    return f"35={value(head + '|', '35')}|52={rest[:-len('10=000|')]}"


def test_what_members_were_told() -> None:
    """All reports of a member, and those behind each ExecID: who was away till then has no others."""
    for it in each_version():
        for member, heard in it.heard.items():
            told = [as_printed(line) for line in heard]
            assert gikvand("reports", JOURNAL, f"C{member}") == (0, told, [])
            for after in range(14):
                known = max((at for at, line in enumerate(told, 1) if int(value(line, "17") or 99) <= after), default=0)
                status, out, err = gikvand("reports", JOURNAL, f"C{member}", "--after", after)
                assert (it.version, member, after, status, out, err) == (it.version, member, after, 0, told[known:], [])
        assert gikvand("reports", JOURNAL, "C8") == (0, [], [])
        last = 13 if it.version == 1 else 15
        for after in (last + 1, 16, 10 ** 10, 10 ** 18 - 1):
            for words in (["reports", JOURNAL, "C1"], ["reports", JOURNAL, "C8"], ["trades", JOURNAL]):
                line = f"gikvand {words[0]}: the journal {JOURNAL} ends with the ExecID {last}: is it an older copy?"
                assert (words, after, gikvand(*words, "--after", after)) == (words, after, (2, [], [line]))
        for words in (["reports", JOURNAL, "C1"], ["trades", JOURNAL]):
            assert gikvand(*words, "--after", last)[0] == 0
            assert gikvand(*words, "--after", 10 ** 18)[:2] == (2, [])


TOLD = {"MsgType": "8", "SendingTime": TIME, "OrderID": "1", "ExecID": "3", "ExecType": "F", "OrdStatus": "1", "ClOrdID": "1",
        "Symbol": "ABC", "Side": "2", "OrderQty": 100, "Price": 50, "LastQty": 30, "LastPx": 50, "LeavesQty": 70, "CumQty": 30,
        "AvgPx": 50}
REFUSED = {"MsgType": "9", "SendingTime": TIME, "OrderID": "NONE", "ClOrdID": "2", "OrigClOrdID": "77", "OrdStatus": "8",
           "CxlRejResponseTo": "1", "CxlRejReason": "1"}
REJECTED = {"MsgType": "3", "SendingTime": TIME, "RefSeqNum": "3", "RefTagID": "38", "RefMsgType": "D",
            "SessionRejectReason": "5"}


def test_reports_as_tables() -> None:
    for it in each_version():
        rows = [json.loads(line) for line in gikvand("reports", JOURNAL, "C1", "--json")[1]]
        assert (rows[1], next(row for row in rows if row["MsgType"] == "9")) == (TOLD, REFUSED)
        assert json.loads(gikvand("reports", JOURNAL, "C3", "--json")[1][1]) == REJECTED
        table = list(csv.DictReader(gikvand("reports", JOURNAL, "C1", "--csv")[1]))
        assert [{name: text for name, text in row.items() if text} for row in table] == (
            [{name: str(text) for name, text in row.items()} for row in rows])
        assert gikvand("reports", JOURNAL, "C8", "--csv")[1] == [",".join(table[0])]


SIDES = ["Buyer", "BuyerOrderID", "BuyerClOrdID", "BuyerExecID", "Seller", "SellerOrderID", "SellerClOrdID", "SellerExecID"]
COLUMNS = ["Place", "Time", "Symbol", "Quantity", "Price", "Incoming", *SIDES]
FIRST: list[int | str] = [3, TIME, "ABC", 30, 50, "buy", "C2", "2", "1", "4", "C1", "1", "1", "3"]
BY_MARKET: list[int | str] = [6, TIME, "ABC", 20, 50, "buy", "C2", "3", "2", "7", "C1", "1", "1", "6"]
LAST: list[int | str] = [14, TIME, "ABC", 10, 50, "buy", "C2", "9", "3", "15", "C1", "1", "3", "14"]
OLD_LAST: list[int | str] = [12, *LAST[1:9], "13", *LAST[10:13], "12"]


def test_trades_of_a_day() -> None:
    """Each trade once, with both sides, in each form; and only those behind a place."""
    for it in each_version():
        rows = [FIRST, BY_MARKET, LAST] if it.version > 1 else [FIRST, OLD_LAST]
        assert [list(json.loads(line).values()) for line in gikvand("trades", JOURNAL, "--json")[1]] == rows
        status, out, err = gikvand("trades", JOURNAL, "--csv")
        assert (status, out, err) == (0, [",".join(COLUMNS), *(",".join(map(str, row)) for row in rows)], [])
        for after in range(16):
            status, out, _ = gikvand("trades", JOURNAL, "--json", "--after", after)
            if after > (13 if it.version == 1 else 15):
                assert (after, status, out) == (after, 2, [])
                continue
            assert (after, [json.loads(line)["Place"] for line in out]) == (after, [row[0] for row in rows if int(row[0]) > after])
        sides = "C2 (order 2, ClOrdID 1) buys from C1 (order 1, ClOrdID 1)"
        assert gikvand("trades", JOURNAL)[1][0] == f"3, {TIME}: 30 ABC at 50, {sides}, by a buy that came in"


def test_trades_with_oneself_and_in_a_row() -> None:
    """One order that trades with three, one of them its own member's, and a sell that comes in."""
    said = [(1, order(1, 1, 5, 50)), (2, order(1, 1, 5, 49)), (3, order(1, 1, 5, 48)), (2, order(2, 2, 12, 48))]
    entries = [Entry(member, message(member, 2, "D", body)) for member, body in said]
    put(JOURNAL, journals.header(3) + journals.block_of(3, entries) + journals.CLOSED)
    found = [json.loads(line) for line in gikvand("trades", JOURNAL, "--json", "--symbols", "ABC")[1]]
    assert [[row[it] for it in ("Place", "Buyer", "BuyerExecID", "Seller", "SellerExecID", "Quantity", "Price", "Incoming")]
            for row in found] == [[5, "C1", "5", "C2", "6", 5, 50, "sell"], [7, "C2", "7", "C2", "8", 5, 49, "sell"],
                                  [9, "C3", "9", "C2", "10", 2, 48, "sell"]]


def test_words_of_reports_and_trades() -> None:
    put(JOURNAL, made(3).data)
    unknown = f"the symbols of {JOURNAL} aren't known: name them, or write them into {JOURNAL}.symbols"
    os.mkfifo("pipe")
    of_abc = ["--symbols", "ABC"]
    cases = [(["reports"], None),
             (["reports", JOURNAL], None),
             (["reports", JOURNAL, "C9"], None),
             (["reports", JOURNAL, "C1", "--after", "-1"], None),
             (["reports", JOURNAL, "C1", "--csv", "--json"], None),
             (["reports", JOURNAL, "C1"], unknown),
             (["trades"], None),
             (["trades", JOURNAL, "--after", "x"], None),
             (["trades", JOURNAL], unknown),
             (["trades", "missing", *of_abc], "missing: No such file or directory"),
             (["reports", "missing", "C1", *of_abc], "missing: No such file or directory"),
             (["reports", "pipe", "C1", *of_abc], "pipe is no file, but a pipe or a device"),
             (["trades", "pipe", *of_abc], "pipe is no file, but a pipe or a device"),
             (["reports", "caf\udce9", "C1", *of_abc], "the name caf\udce9 isn't UTF-8, and the programs take no other")]
    for words, line in cases:
        status, out, err = gikvand(*words)
        assert (words, status, out, err[-1:] if line else bool(err)) == (
            words, 2, [], [f"gikvand {words[0]}: {line}"] if line else True)
    os.chmod(".", 0o755)
    os.chmod(JOURNAL, 0)
    with as_nobody():
        assert gikvand("trades", JOURNAL, "--symbols", "ABC") == (2, [], [f"gikvand trades: {JOURNAL}: Permission denied"])


def test_what_stands_before_damage() -> None:
    """Of a journal that is broken off in its last block what stands before that is shown, with a line and status 2."""
    for it in each_version():
        for size in (len(it.data) - 1, it.starts[-1] + 9):
            put("whole.journal", it.data if size > it.starts[-1] + 9 else it.data[:it.starts[-1]] + b"\0")
            put("broken.journal", it.data[:size])
            at = size if size == len(it.data) - 1 else it.starts[-1]
            for words in (["reports", "C1"], ["reports", "C1", "--csv"], ["trades"], ["trades", "--json"]):
                name, *more = words
                whole, broken = (gikvand(name, f"{one}.journal", *more, "--symbols", "ABC,XYZ") for one in ("whole", "broken"))
                line = (f"gikvand {name}: the journal broken.journal can't be read: venue-events: journal fault 42 at {at} "
                        "(docs/OPERATING.md says what that means)")
                assert (words, size, whole[0], broken) == (words, size, 0, (2, whole[1], [line]))


@pytest.mark.soak
def test_reports_of_a_journal_in_use() -> None:
    """While a member trades each call shows a beginning of what it is told, and all of it once it is told that."""
    venue = started(JOURNAL, 2)
    one, other = (Client(venue.port, it).log_on() for it in (1, 2))
    for name in range(1, 15):
        one.send("D", order(name, 2, 5, 50))
        heard = one.next()
        other.send("D", order(name, 1, 5, 50))
        other.next(), other.next(), one.next()
        out = gikvand("reports", JOURNAL, "C1", "--after", value(heard or "", "17"), "--symbols", "ABC")[1]
        assert [value(line, "150") for line in out] == ["F"]
        assert len(gikvand("trades", JOURNAL, "--symbols", "ABC")[1]) == name
    venue.stop()


def test_trades_of_the_last_member() -> None:
    """A trade of C8 with C1, each of whom alone has an entry."""
    entries = [Entry(1, message(1, 2, "D", order(1, 2, 5, 50))), Entry(8, message(8, 2, "D", order(1, 1, 5, 50)))]
    put(JOURNAL, journals.header(3) + journals.block_of(3, entries) + journals.CLOSED)
    found = [json.loads(line) for line in gikvand("trades", JOURNAL, "--json", "--symbols", "ABC")[1]]
    assert [(row["Seller"], row["Buyer"]) for row in found] == [("C1", "C8")]


def altered(old: str, new: str) -> Callable[..., Iterator[bytes]]:
    """What a program prints of a journal, where one report is another one."""
    def lines(program: str, journal: str, words: list[str]) -> Iterator[bytes]:
        for line in programs.lines_of(program, journal, words):
            yield line.replace(old.encode(), new.encode()) if b"|17=4|" in line else line
    return lines


@pytest.mark.usefixtures("journal")
def test_reports_of_no_trade() -> None:
    """Two fills that aren't those of one trade are told: whose time, symbol, quantity, price or sides don't fit, or whose places."""
    for old, new in ((f"|52={TIME}|", "|52=20250102-09:30:01|"), ("|55=ABC|", "|55=XYZ|"), ("|32=30|", "|32=31|"),
                     ("|31=50|", "|31=51|"), ("|54=1|", "|54=2|"), ("|17=4|", "|17=5|")):
        change = (f"35=8{old}", f"35=8{new}") if "52=" in old else (old, new)
        with mock.patch.object(events, "lines_of", altered(*change)):
            status, out, err = gikvand("trades", JOURNAL)
        other = 5 if "17=" in old else 4
        line = f"gikvand trades: the reports with ExecID 3 and {other} aren't those of one trade: is the journal changed?"
        assert (old, status, out, err) == (old, 2, [], [line])


@pytest.mark.usefixtures("journal")
def test_ends_of_lines() -> None:
    """Tables have a line feed alone at the end of a line, as other programs of this system write them."""
    for words in (("trades", JOURNAL), ("reports", JOURNAL, "C1")):
        for form in ((), ("--csv",), ("--json",)):
            it = subprocess.run([sys.executable, "-m", "gikvand", *words, *form], capture_output=True,
                                env={**os.environ, "PYTHONPATH": TOOLS})
            lines = gikvand(*words, *form)[1]
            assert (words, form, it.returncode, it.stdout) == (words, form, 0, "".join(f"{line}\n" for line in lines).encode())
