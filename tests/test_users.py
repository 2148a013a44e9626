"""Tests of the scripts that users hold in their hands: scripts/trade, demo, day, first-order and build.

Members trade by words, the demo is shown, a day is drawn, over the built programs; scripts/build runs with commands in the
place of the checker that succeed and fail. What is expected was worked out from the scripts' own words, README.md and
docs/PROFILE.md: the lines that are printed, the numbers in the picture, read by its own axes, and the statuses.
"""
import contextlib
import fcntl
import io
import os
import pty
import re
import select
import shutil
import signal
import socket
import subprocess
import sys
import time
from unittest import mock

import pytest

import crates
from checks import LONG, ROOT, contents, put, put_text, text_of
from gikvand import journals
from gikvand.fix import sealed
from gikvand.journals import Entry
from gikvand.words import sure
from pictures import Picture, row_of
from script_modules import loaded
from venues import EVENTS, HOST, PATIENCE, REPLAY, TIME, VENUED, Late, Trouble, await_that, in_some_try
from venues import market_order, message, order, running, started

pytestmark = [pytest.mark.quick, pytest.mark.usefixtures("programs")]

PROGRAMS = {"VENUED": os.path.abspath(VENUED), "VENUE_REPLAY": os.path.abspath(REPLAY), "VENUE_EVENTS": os.path.abspath(EVENTS)}
JOURNAL = "venue.journal"
BUILT = "isn't built: scripts/build proves and builds it"


def script(name: str) -> str:
    return os.path.join(ROOT, "scripts", name)


def ran(words: list[str], given: str = "", **environment: str) -> tuple[int, list[str], list[str]]:
    """Runs a script with this input to its end: its status, and the lines of both of its outputs."""
    it = subprocess.run(words, input=given, env={**os.environ, **PROGRAMS, **environment}, capture_output=True, text=True,
                        timeout=LONG)
    return it.returncode, it.stdout.splitlines(), it.stderr.splitlines()


def expect_lines(came: list[str], wanted: list[str]) -> None:
    """The same of lines: only the first that differs is shown."""
    for at in range(max(len(came), len(wanted))):
        if came[at:at + 1] != wanted[at:at + 1]:
            raise Trouble(f"line {at + 1}: expected {wanted[at:at + 1]} came {came[at:at + 1]}")


def trade(*words: str, given: str = "", **environment: str) -> tuple[int, list[str], list[str]]:
    return ran([script("trade"), *words], given, **environment)


def expect_trade(words: str, status: int, lines: list[str], given: str = "") -> None:
    """What scripts/trade prints to these words, and nothing on standard error."""
    came, out, err = trade(*words.split(), given=given)
    expect_lines(out, lines)
    assert (words, came, err) == (words, status, [])


def test_first_steps_of_the_readme() -> None:
    """The commands of README.md print what stands there."""
    with open(os.path.join(ROOT, "README.md"), encoding="utf-8") as file:
        lines = [it[4:].rstrip("\n") for it in file if it.startswith("    ")]
    at = lines.index("$ scripts/trade buy 100 ABC 50")
    assert lines[at + 3] == "$ scripts/trade sell 30 ABC 49"
    expect_trade("buy 100 ABC 50", 0, lines[at + 1:at + 3])
    expect_trade("sell 30 ABC 49", 0, lines[at + 4:at + 8])
    assert sorted(os.listdir()) == ["trade.journal", "trade.journal.symbols"]


# What a member says, and what it is told. Where the answer isn't the venue's there is nothing under way before it.
A_DAY = [
    ("buy 100 ABC 50", ["order 1 accepted: buy 100 ABC at 50 (ClOrdID 1)"]),
    ("sell 30 ABC 49", ["order 2 accepted: sell 30 ABC at 49 (ClOrdID 2)", "order 1 filled 30 at 50, 70 left",
                        "order 2 filled 30 at 50, nothing left"]),
    ("sell 100 ABC 50 ioc", ["order 3 accepted: sell 100 ABC at 50 (ClOrdID 3)", "order 1 filled 70 at 50, nothing left",
                             "order 3 filled 70 at 50, 30 left",
                             "order 3 ends, and what is left is cancelled: 70 of 100 filled"]),
    ("sell 10 ABC 60", ["order 4 accepted: sell 10 ABC at 60 (ClOrdID 4)"]),
    ("orders", ["order 4: sell 10 ABC at 60, 10 left"]),
    ("buy 11 ABC 60 fok", ["order 5 accepted: buy 11 ABC at 60 (ClOrdID 5)",
                           "order 5 ends, and what is left is cancelled: 0 of 11 filled"]),
    ("buy 10 ABC 60 fok", ["order 6 accepted: buy 10 ABC at 60 (ClOrdID 6)", "order 4 filled 10 at 60, nothing left",
                           "order 6 filled 10 at 60, nothing left"]),
    ("buy 5 ABC 40", ["order 7 accepted: buy 5 ABC at 40 (ClOrdID 7)"]),
    ("sell 3 ABC market", ["order 8 accepted: sell 3 ABC at any price (ClOrdID 8)", "order 7 filled 3 at 40, 2 left",
                           "order 8 filled 3 at 40, nothing left"]),
    ("buy 4 ABC market", ["order 9 accepted: buy 4 ABC at any price (ClOrdID 9)",
                          "order 9 ends, and what is left is cancelled: 0 of 4 filled"]),
    ("sell 4 ABC market fok", ["order 10 accepted: sell 4 ABC at any price (ClOrdID 10)",
                               "order 10 ends, and what is left is cancelled: 0 of 4 filled"]),
    ("replace 7 9 41", ["order 7 replaced: buy 9 ABC at 41, 6 left (ClOrdID 11)"]),
    ("orders", ["order 7: buy 9 ABC at 41, 6 left"]),
    ("sell 1 ABC 41 ioc", ["order 12 accepted: sell 1 ABC at 41 (ClOrdID 12)", "order 7 filled 1 at 41, 5 left",
                           "order 12 filled 1 at 41, nothing left"]),
    ("sell 8 XYZ 41", ["order 13 accepted: sell 8 XYZ at 41 (ClOrdID 13)"]),
    ("sell 6 ABC market ioc", ["order 14 accepted: sell 6 ABC at any price (ClOrdID 14)",
                               "order 7 filled 5 at 41, nothing left", "order 14 filled 5 at 41, 1 left",
                               "order 14 ends, and what is left is cancelled: 5 of 6 filled"]),
    ("replace 13 7 1000000", ["order 13 replaced: sell 7 XYZ at 1000000, 7 left (ClOrdID 15)"]),
    ("cancel 13", ["order 13 cancelled: 0 of 7 filled"]),
    ("orders", ["no order rests"])]
REFUSALS: list[tuple[str, list[str]]] = [
    ("buy 9 ABC 50", ["order 1 accepted: buy 9 ABC at 50 (ClOrdID 1)"]),
    ("buy 1 ABC", ["not sent: 'buy 1 ABC' isn't one of the words; 'help' lists them"]),
    ("buy 1 ABC 50 gtc", ["not sent: 'buy 1 ABC 50 gtc' isn't one of the words; 'help' lists them"]),
    ("hello", ["not sent: 'hello' isn't one of the words; 'help' lists them"]),
    ("cancel 99", ["not sent: there is no order 99 of yours; 'orders' lists those that rest"]),
    ("replace 99 1 50", ["not sent: there is no order 99 of yours; 'orders' lists those that rest"]),
    ("buy 1 A|C 50", ["not sent: a word has a character that no field here can have"]),
    ("", []),
    ("buy 0 ABC 50", ["rejected: quantity (38) is out of its range"]),
    ("buy 01 ABC 50", ["rejected: quantity (38) is not written as it must be"]),
    ("buy 1 abc 50", ["rejected: symbol (55) is not written as it must be"]),
    ("sell 1 ABC 1000001", ["rejected: price (44) is out of its range"]),
    ("sell 1 QQQ 50", ["order refused: the venue doesn't trade its symbol"]),
    ("sell 4 ABC 50", ["order 7 accepted: sell 4 ABC at 50 (ClOrdID 7)", "order 1 filled 4 at 50, 5 left",
                       "order 7 filled 4 at 50, nothing left"]),
    ("replace 1 4 50", ["replace refused: the total isn't above what has been filled"]),
    ("cancel 1", ["order 1 cancelled: 4 of 9 filled"]),
    ("cancel 1", ["cancel refused: no such order rests"])]


def told(day: list[tuple[str, list[str]]]) -> list[str]:
    return [line for _, lines in day for line in lines]


def said(day: list[tuple[str, list[str]]]) -> str:
    return "".join(f"{words}\n" for words, _ in day)


def test_a_day_by_words() -> None:
    """A day of one member, and its end by `quit`, behind which nothing is read."""
    expect_trade(f"--journal {JOURNAL} --symbols ABC,XYZ", 0, [f"The new journal {JOURNAL}, for ABC XYZ.", *told(A_DAY)],
                 said(A_DAY) + "quit\nbuy 1 ABC 1\n")
    expect_trade(f"--journal {JOURNAL} --symbols ABC,XYZ orders", 0,
                 [f"The journal {JOURNAL}, for ABC XYZ.", "no order rests"])


def test_what_trade_refuses() -> None:
    """What isn't sent, is rejected or refused has its line, and makes the status 1."""
    head = f"The new journal {JOURNAL}, for ABC."
    expect_trade(f"--journal {JOURNAL}", 1, [head, *told(REFUSALS)], said(REFUSALS))
    for words, line in (("cancel 9", "not sent: there is no order 9 of yours; 'orders' lists those that rest"),
                        ("buy 1 ABC 0", "rejected: price (44) is out of its range")):
        expect_trade(f"--journal {JOURNAL} {words}", 1, [head.replace("new ", ""), line])


def test_requests_that_are_refused() -> None:
    """A request that is refused makes the status 1, also where it is the only one: by a report, a cancel reject, or a Reject."""
    head = f"The journal {JOURNAL}, for ABC."
    expect_trade(f"--journal {JOURNAL} buy 5 ABC 50", 0, [f"The new journal {JOURNAL}, for ABC.",
                                                          "order 1 accepted: buy 5 ABC at 50 (ClOrdID 1)"])
    expect_trade(f"--journal {JOURNAL} sell 2 ABC 50 ioc", 0,
                 [head, "order 2 accepted: sell 2 ABC at 50 (ClOrdID 2)", "order 1 filled 2 at 50, 3 left",
                  "order 2 filled 2 at 50, nothing left"])
    expect_trade(f"--journal {JOURNAL} replace 1 2 50", 1, [head, "replace refused: the total isn't above what has been filled"])
    expect_trade(f"--journal {JOURNAL} cancel 2", 1, [head, "cancel refused: no such order rests"])
    expect_trade(f"--journal {JOURNAL} buy 1 QQQ 5", 1, [head, "order refused: the venue doesn't trade its symbol"])


def test_bytes_of_all_kinds() -> None:
    """A line that is no UTF-8 isn't sent, and one without its end is: nothing of what stands there is lost."""
    words = [script("trade"), "--journal", JOURNAL]
    it = subprocess.run(words, input=b"\xff\xfe 1\nbuy \xe9 ABC 50\nbuy 5 ABC 50", capture_output=True, timeout=LONG,
                        env={**os.environ, **PROGRAMS})
    assert (it.returncode, it.stderr) == (1, b"")
    assert [line.split(b":")[0] for line in it.stdout.splitlines()[1:]] == [b"not sent", b"not sent", b"order 1 accepted"]
    it = subprocess.run(["sh", "-c", 'exec "$@" <&-', "sh", *words], capture_output=True, timeout=LONG, env={**os.environ, **PROGRAMS})
    assert (it.returncode, it.stdout, it.stderr) == (0, f"The journal {JOURNAL}, for ABC.\n".encode(), b"")


def test_venues_that_end() -> None:
    """A venue that ends with a fault behind its answers leaves a line, and the status 1: the journal has to be looked at."""
    put_text("venued", f"#!/bin/sh\n{PROGRAMS['VENUED']} \"$@\"\nexit 2\n", 0o755)
    status, out, err = trade("--journal", JOURNAL, "buy", "5", "ABC", "50", VENUED=os.path.abspath("venued"))
    assert (status, out[1:], err) == (1, ["order 1 accepted: buy 5 ABC at 50 (ClOrdID 1)",
                                          "venued ended with status 2 (docs/OPERATING.md says what that means)"], [])


def test_answers_in_their_order() -> None:
    """All that a request leads to is shown before the next one is read: by a pipe, line by line."""
    with subprocess.Popen([script("trade"), "--journal", JOURNAL], stdin=subprocess.PIPE, stdout=subprocess.PIPE, text=True,
                          env={**os.environ, **PROGRAMS}) as it:
        def said(line: str, count: int) -> list[str]:
            sure(it.stdin).write(f"{line}\n")
            sure(it.stdin).flush()
            return [sure(it.stdout).readline().rstrip("\n").split(":")[0].split(",")[0] for _ in range(count)]
        assert sure(it.stdout).readline() == f"The new journal {JOURNAL}, for ABC.\n"
        assert said("sell 3 ABC 50", 1) == ["order 1 accepted"]
        assert said("buy 2 ABC 50", 3) == ["order 2 accepted", "order 1 filled 2 at 50", "order 2 filled 2 at 50"]
        assert said("orders", 1) == ["order 1"]
        sure(it.stdin).close()
        assert it.wait(LONG) == 0


@pytest.mark.soak
def test_a_terminal() -> None:
    """At a terminal the arrow up brings the line of before, and what comes meanwhile stands above the line that is edited."""
    venue = started(JOURNAL, 2)
    us, theirs = pty.openpty()
    words = [script("trade"), "--port", str(venue.port), "--journal", JOURNAL, "--symbols", "ABC"]
    process = subprocess.Popen(words, stdin=theirs, stdout=theirs, stderr=theirs, start_new_session=True,
                               env={**os.environ, **PROGRAMS, "TERM": "dumb", "INPUTRC": "/dev/null"})
    os.close(theirs)
    seen = ""
    def awaits(text: str) -> None:
        nonlocal seen
        end = time.monotonic() + PATIENCE
        while text not in seen:
            if time.monotonic() > end:
                raise Trouble(f"expected {text!r} came {seen!r}")
            if select.select([us], [], [], 0.1)[0]:
                try:
                    seen += os.read(us, 4096).decode("utf-8", "replace")
                except OSError:
                    raise Trouble(f"expected {text!r} came {seen!r}, and its end") from None
        seen = seen[seen.index(text) + len(text):]
    try:
        awaits("> ")
        os.write(us, b"sell 5 ABC 50\r")
        awaits("order 1 accepted: sell 5 ABC at 50 (ClOrdID 1)")
        awaits("> ")
        os.write(us, b"\x1b[A\x1b[A\r")
        awaits("order 2 accepted: sell 5 ABC at 50 (ClOrdID 2)")
        awaits("> ")
        os.write(us, b"orde")
        awaits("orde")
        assert trade("--port", str(venue.port), "--member", "2", "--journal", JOURNAL, "--symbols", "ABC", "buy", "5", "ABC",
                     "50")[0] == 0
        awaits("order 1 filled 5 at 50, nothing left")
        awaits("> orde")
        os.write(us, b"rs\r")
        awaits("order 2: sell 5 ABC at 50, 5 left")
        awaits("> ")
        venue.stop()
        assert process.wait(PATIENCE) == 1
        awaits("the venue closed the connection")
    finally:
        process.kill()
        process.wait()
        os.close(us)


def test_market_orders_of_an_old_journal() -> None:
    put(JOURNAL, journals.empty(1))
    expect_trade(f"--journal {JOURNAL} buy 1 ABC market", 1, [f"The journal {JOURNAL}, for ABC.",
                 "rejected: the venue takes no market orders: its journal is an old one, of version 1"])


def test_help_in_a_session() -> None:
    """`help` lists all words."""
    status, out, _ = trade("--journal", JOURNAL, given="help\n")
    assert status == 0
    assert [it.split()[0] for it in out[1:]] == ["buy", "sell", "buy", "sell", "cancel", "replace", "orders", "quit"]


def test_what_is_sent() -> None:
    """With --fix the messages are shown: what was said stands in them."""
    days = {"sell 8 ABC market": "35=D|49=C1|55=ABC|54=2|38=8|40=1|",
            "buy 5 ABC 70": "35=D|55=ABC|54=1|38=5|40=2|44=70|",
            "sell 6 ABC 71 ioc": "35=D|54=2|38=6|40=2|44=71|59=3|",
            "buy 7 ABC 72 fok": "35=D|54=1|38=7|40=2|44=72|59=4|",
            "buy 8 ABC market ioc": "35=D|54=1|38=8|40=1|59=3|",
            "replace 2 6 73": "35=G|41=2|54=1|38=6|40=2|44=73|55=ABC|",
            "cancel 2": "35=F|41=6|54=1|38=6|55=ABC|"}
    _, out, _ = trade("--journal", JOURNAL, "--fix", given="".join(f"{it}\n" for it in days))
    sent = [it[2:] for it in out if it.startswith("> ")]
    assert len(sent) == 1 + len(days)
    for number, (line, wanted) in enumerate(zip(sent, ["35=A|34=1|98=0|108=0|141=Y|", *days.values()]), 1):
        fields = line.strip("|").split("|")
        if missing := [it for it in [*wanted.strip("|").split("|"), f"34={number}"] if it not in fields]:
            raise Trouble(f"expected {missing} in what is sent came {line}")
        more = {it.split("=")[0] for it in fields} & {"44", "59"} - {it.split("=")[0] for it in wanted.strip("|").split("|")}
        assert (line, more) == (line, set())
    heard = [it for it in out if it.startswith("< 8=FIX.4.4|")]
    assert len([it for it in heard if "|35=A|" in it]) == 1
    assert len([it for it in heard if "|150=5|" in it and "|44=73|" in it]) == 1


def test_wrong_words_of_trade() -> None:
    for words in (["--port", "0"], ["--port", "65529"], ["--port", "x"], ["--member", "9"], ["--member", "0"], ["--wrong"]):
        status, out, err = trade(*words)
        assert (words, status, out, bool(err)) == (words, 2, [], True)
    assert trade("--member", "2", "buy", "1", "ABC", "1") == (
        2, [], ["gikvand trade: without --port only the member 1 is served"])
    assert os.listdir() == []


def test_venues_that_cannot_be_had() -> None:
    """Where there is no venue, or it doesn't start, the status is 2, and a line says why."""
    with socket.socket() as kept:  # (a port that somebody has, and at which nobody listens)
        kept.bind((HOST, 0))
        port = kept.getsockname()[1]
        assert trade("--port", str(port), "orders") == (
            2, [], [f"gikvand trade: no venue answers at {HOST}, port {port}: Connection refused"])
    put("none.journal", b"no journal")
    status, out, err = trade("--journal", "none.journal", "orders")
    assert (status, out) == (2, [])
    assert err == ["gikvand trade: the journal none.journal can't be read: venue-replay: journal fault 43 (docs/OPERATING.md "
                   "says what that means)"]
    with open(put(JOURNAL, journals.empty()), "rb") as locked:  # (as a venue has its journal)
        fcntl.flock(locked, fcntl.LOCK_EX)
        status, out, err = trade("--journal", JOURNAL, "buy", "1", "ABC", "1")
    assert (status, out) == (2, [f"The journal {JOURNAL}, for ABC."])
    assert err == ["venued: journal fault 41",
                   "gikvand trade: venued ended with status 1 (docs/OPERATING.md says what that means)"]
    assert contents(JOURNAL) == journals.empty()
    assert trade("--port", str(port), "--journal", "typo", "orders") == (
        2, [], ["gikvand trade: typo: No such file or directory"])
    for name in ("VENUED", "VENUE_REPLAY"):
        status, out, err = trade("orders", **{name: os.path.abspath("missing")})
        assert (name, status, out, [it.endswith(BUILT) for it in err]) == (name, 2, [], [True])


@pytest.mark.soak
def test_members_over_tcp() -> None:
    """Two members of one venue: each has its own port, name and orders."""
    venue = started(JOURNAL, 2, ("ABC", "XYZ"))
    port = str(venue.port)
    common = f"--port {port} --journal {JOURNAL} --symbols ABC,XYZ"
    expect_trade(f"{common} --member 2 sell 10 XYZ 50", 0,
                 [f"The member C2, at port {venue.port + 1}.", "order 1 accepted: sell 10 XYZ at 50 (ClOrdID 1)"])
    expect_trade(f"{common} buy 4 XYZ 51", 0,
                 [f"The member C1, at port {port}.", "order 2 accepted: buy 4 XYZ at 51 (ClOrdID 1)",
                  "order 2 filled 4 at 50, nothing left"])
    expect_trade(f"{common} orders", 0, [f"The member C1, at port {port}.", "no order rests"])
    expect_trade(f"{common} --member 2 orders", 0,
                 [f"The member C2, at port {venue.port + 1}.", "order 1: sell 10 XYZ at 50, 6 left"])
    expect_trade(f"{common} --member 2 replace 1 9 49", 0,
                 [f"The member C2, at port {venue.port + 1}.", "order 1 replaced: sell 9 XYZ at 49, 5 left (ClOrdID 2)"])
    status, out, err = trade("--port", port, "sell", "3", "XYZ", "60")
    assert (status, len(out), err) == (0, 2, [])
    name = re.fullmatch(r"order 4 accepted: sell 3 XYZ at 60 \(ClOrdID (\d+)\)", out[1])
    if not name or int(name[1]) < 1_700_000_000_000:
        raise Trouble(f"expected a ClOrdID by the time came {out[1]}")
    status, out, _ = trade("--port", port, "cancel", "4")
    assert (status, out[1]) == (1, "not sent: there is no order 4 of yours that this session knows of; 'orders' lists those "
                                "that rest")
    assert venue.stop() == (4, 6)


REPORT = "35=8|52=T|37={}|17={}|150={}|39={}|11={}|55=ABC|54={}|38={}|{}151={}|14={}|6={}|"
DEMO = f"""A venue of two members, with the journal demo.journal:

    venued PORT demo.journal 2 ABC
    venued: ready, 0 commands, 0 outputs

C1 says: sell 100 ABC 50

    order 1 accepted: sell 100 ABC at 50 (ClOrdID 1)

C2 says: buy 30 ABC 51

    order 2 accepted: buy 30 ABC at 51 (ClOrdID 1)
    order 2 filled 30 at 50, nothing left

Meanwhile C1 hears

    order 1 filled 30 at 50, 70 left

C2 says, at whatever price: buy 20 ABC market

    order 3 accepted: buy 20 ABC at any price (ClOrdID 2)
    order 3 filled 20 at 50, nothing left

And C1 hears

    order 1 filled 20 at 50, 50 left

The venue is stopped by a file:

    touch demo.journal.stop
    venued: stopped, 3 commands, 7 outputs

What rests, by the journal: symbol, side (2 sells), price, left, OrderID, member, ClOrdID

    venue-replay demo.journal book ABC
    ABC 2 50 50 1 C1 1
    commands 3 outputs 7

All reports to C1, as FIX

    venue-replay demo.journal C1 ABC
    {REPORT.format(1, 1, 0, 0, 1, 2, 100, "44=50|", 100, 0, 0)}
    {REPORT.format(1, 3, "F", 1, 1, 2, 100, "44=50|32=30|31=50|", 70, 30, 50)}
    {REPORT.format(1, 6, "F", 1, 1, 2, 100, "44=50|32=20|31=50|", 50, 50, 50)}
    commands 3 outputs 7

All reports to C2, as FIX

    venue-replay demo.journal C2 ABC
    {REPORT.format(2, 2, 0, 0, 1, 1, 30, "44=51|", 30, 0, 0)}
    {REPORT.format(2, 4, "F", 2, 1, 1, 30, "44=51|32=30|31=50|", 0, 30, 50)}
    {REPORT.format(3, 5, 0, 0, 2, 1, 20, "", 20, 0, 0)}
    {REPORT.format(3, 7, "F", 2, 2, 1, 20, "32=20|31=50|", 0, 20, 50)}
    commands 3 outputs 7"""


@pytest.mark.soak
def test_the_demo() -> None:
    """All that the demo shows, but for its port and the times, and nothing of it left behind."""
    status, out, err = ran([script("demo")], TMPDIR=os.getcwd())
    text = re.sub(r"(?m)\|52=\d{8}-\d\d:\d\d:\d\d\|", "|52=T|", "\n".join(out))
    shown = os.path.basename(PROGRAMS["VENUE_REPLAY"]).replace("_", "-")
    expect_lines(re.sub(r"venued \d+ demo", "venued PORT demo", text).splitlines(),
                 DEMO.replace("    venue-replay ", f"    {shown} ").splitlines())
    assert (status, err, os.listdir()) == (0, [], [])


@pytest.mark.soak
def test_a_demo_that_is_kept() -> None:
    """With a folder the journal stays there, with its symbols, and other commands read it; one that is there is left as it is."""
    status, out, err = ran([script("demo"), "--keep", "kept"])
    assert (status, err, out[-1], sorted(os.listdir("kept"))) == (
        0, [], "The journal stays: gikvand trades kept/demo.journal", ["demo.journal", "demo.journal.symbols"])
    status, out, _ = ran([script("gikvand"), "verify", "kept/demo.journal"])
    assert (status, out[-1]) == (0, "kept/demo.journal: nothing is wrong")
    trades = ran([script("gikvand"), "trades", "kept/demo.journal"])[1]
    assert [it.partition(": ")[2].partition(",")[0] for it in trades] == ["30 ABC at 50", "20 ABC at 50"]
    status, out, err = ran([script("demo"), "--keep", "kept"])
    assert (status, out, err) == (2, [], ["gikvand demo: kept: File exists"])


def test_demos_that_fail() -> None:
    """A venue that isn't there, or can't start, has a line, and status 2. So have wrong words."""
    assert ran([script("demo"), "x"])[:2] == (2, [])
    status, out, err = ran([script("demo")], VENUED=os.path.abspath("missing"))
    assert (status, out, [it.endswith(BUILT) for it in err]) == (2, [], [True])
    put_text("venued", "#!/bin/sh\necho 'venued: no memory' >&2\nexit 1\n", 0o755)
    status, out, err = ran([script("demo")], VENUED=os.path.abspath("venued"))
    assert (status, out) == (2, [])
    assert err == ["gikvand demo: venued isn't ready; it said: venued: no memory (docs/OPERATING.md says what that means)"]


@pytest.mark.soak
def test_demos_that_fail_at_their_end() -> None:
    """A venue that ends with another status has a line, and status 2."""
    put_text("venued", f"#!/bin/sh\n{PROGRAMS['VENUED']} \"$@\"\nexit 3\n", 0o755)
    status, out, err = ran([script("demo")], VENUED=os.path.abspath("venued"))
    assert (status, err) == (2, ["gikvand demo: venued ended with status 3"])


def processes_in(folder: str) -> list[int]:
    """The processes that have this folder, or one in it, as theirs."""
    found = []
    for pid in filter(str.isdecimal, os.listdir("/proc")):
        try:
            where = os.readlink(f"/proc/{pid}/cwd")
        except OSError:
            continue
        if where.removesuffix(" (deleted)").startswith(f"{folder}/"):
            found.append(int(pid))
    return found


def end_all_in(folder: str) -> None:
    """Kills what is left there."""
    for pid in processes_in(folder):
        with contextlib.suppress(ProcessLookupError):
            os.kill(pid, signal.SIGKILL)


@pytest.mark.soak
def test_demos_that_are_ended() -> None:
    """SIGTERM ends the demo with all that it has started, and nothing of it is left behind."""
    with contextlib.ExitStack() as behind:
        behind.callback(end_all_in, os.getcwd())
        in_some_try(lambda _: end_a_demo(), "demos_that_are_ended")


def end_a_demo() -> None:
    """Ends a demo that has begun. It takes a moment alone, and may be over where this process stands still meanwhile."""
    with subprocess.Popen([script("demo")], stdout=subprocess.PIPE, stderr=subprocess.PIPE, text=True,
                          env={**os.environ, **PROGRAMS, "TMPDIR": os.getcwd(), "PYTHONUNBUFFERED": "1"}) as demo:
        while "ready" not in (line := sure(demo.stdout).readline()):
            assert line != ""
        count = len(processes_in(os.getcwd()))
        demo.terminate()
        sure(demo.stdout).read()
        came = demo.wait(LONG), sure(demo.stderr).read()
    await_that("nothing of the demo runs", lambda: not processes_in(os.getcwd()))
    assert os.listdir() == []
    if came == (0, ""):
        raise Late("the demo was over before it got the signal")
    assert (count > 0, came) == (True, (1, "gikvand demo: ended by a signal\n"))


def replaced(name: int, was: int, symbol: str, side: int, total: int, price: int) -> str:
    return f"41={was}|11={name}|55={symbol}|54={side}|60={TIME}|38={total}|40=2|44={price}|"


DRAWN = [(1, "D", order(1, 2, 10, 52)),                     # 1
         (2, "D", order(1, 1, 10, 48)),                     # 2
         (2, "D", order(2, 1, 5, 49)),                      # 3
         (2, "D", order(3, 1, 4, 52)),                      # 4, and filled: 5 and 6
         (1, "D", market_order(2, 2, 7)),                   # 7, and filled: 8 and 9 at 49, 10 and 11 at 48
         (1, "G", replaced(3, 1, "ABC", 2, 10, 51)),        # 12
         (2, "D", order(4, 2, 3, 900, "XYZ")),              # 13
         (1, "D", order(4, 1, 2, 901, "XYZ")),              # 14, and filled: 15 and 16
         (2, "D", order(5, 2, 7, 5000, "XYZ")),             # 17
         (1, "D", order(5, 1, 1, 50, "QQQ"))]               # 18, refused


def test_a_day_drawn() -> None:
    """The trades, best prices and depth of a day, by the picture of it. A trade stands at the place of its second report,
    and points where the order that came in went; a best price holds from its command's last report on."""
    numbers = {1: 1, 2: 1}
    entries = []
    for member, kind, text in DRAWN:
        numbers[member] += 1
        entries.append(Entry(member, message(member, numbers[member], kind, text)))
    put("my.journal", journals.header(3) + journals.in_blocks(3, entries, 3) + journals.CLOSED)
    status, out, err = ran([script("day"), "my.journal", "ABC", "XYZ", "NIX"])
    assert (status, err) == (0, [])
    picture = Picture("\n".join(out))
    assert picture.title == "The day in my.journal: 10 commands, 18 outputs"
    assert (
        [it for it in picture.said() if ": " in it or "n't shown" in it]
        == [picture.title, "ABC: 3 trades of 11 units, the last at 48; 2 by market orders",
            "XYZ: 1 trade of 2 units, the last at 900", "1 price further off isn't shown: 7 rest there",
            "NIX: no order rested, and none was filled"])
    assert row_of(picture, "ABC") == {
        "best": {"buy": [(2, 48, 3), (3, 49, 11), (11, 48, 19)], "sell": [(1, 52, 12), (12, 51, 19)]},
        "trades": [(6, 52, "buy", "buy", False), (9, 49, "sell", "sell", True), (11, 48, "sell", "sell", True)],
        "depth": {("buy", 48): 8, ("sell", 51): 6}}
    assert row_of(picture, "XYZ") == {"best": {"sell": [(13, 900, 19)]}, "trades": [(16, 900, "buy", "buy", False)],
                                      "depth": {("sell", 900): 1}}


def test_a_day_of_leftovers() -> None:
    """What an order that may not rest has left is no best price, not for a moment; and a name may have any letters."""
    entries = [Entry(1, message(1, 2, "D", order(1, 2, 5, 50))), Entry(2, message(2, 2, "D", order(1, 1, 9, 60, more="59=3|"))),
               Entry(1, message(1, 3, "D", order(2, 2, 4, 55)))]
    name = put("a&b <c> \"d\".journal", journals.header(3) + journals.in_blocks(3, entries, 1) + journals.CLOSED)
    status, out, err = ran([script("day"), name, "ABC"])
    assert (status, err) == (0, [])
    picture = Picture("\n".join(out))
    assert picture.title == f"The day in {name}: 3 commands, 6 outputs"
    assert row_of(picture, "ABC") == {"best": {"sell": [(1, 50, 5), (6, 55, 7)]}, "trades": [(4, 50, "buy", "buy", False)],
                                      "depth": {("sell", 55): 4}}


def test_days_that_cannot_be_drawn() -> None:
    assert ran([script("day")])[:2] == (2, [])
    assert (
        ran([script("day"), "my.journal"])
        == (2, [], ["gikvand day: the symbols of my.journal aren't known: name them, or write "
                    "them into my.journal.symbols"]))
    assert ran([script("day"), "missing", "ABC"]) == (2, [], ["gikvand day: missing: No such file or directory"])
    status, out, err = ran([script("day"), "missing", "ABC"], VENUE_EVENTS=os.path.abspath("missing"))
    assert (status, out, [it.endswith(BUILT) for it in err]) == (2, [], [True])


ANSWERS = ["8=FIX.4.4|9=63|35=A|49=VENUE|56=C1|34=1|52=20250102-09:30:00|98=0|108=0|141=Y|10=026|",
           "8=FIX.4.4|9=114|35=8|49=VENUE|56=C1|34=2|52=20250102-09:30:00|37=1|17=1|150=0|39=0|11=1|55=ABC|54=1|38=100|44=50|"
           "151=100|14=0|6=0|10=243|"]
PATH = "/usr/bin:/bin"


def test_the_first_order() -> None:
    """By the program that is built, else by a trial run, else by nothing; its folder of work is gone each time."""
    for name in ("scripts/first-order", "examples/first_order.fix"):
        os.makedirs(os.path.dirname(name), exist_ok=True)
        shutil.copy(os.path.join(ROOT, name), name)
    os.makedirs("crates/venued/out")
    os.makedirs("work")
    call, work = [os.path.abspath("scripts/first-order")], {"TMPDIR": os.path.abspath("work"), "PATH": PATH}
    status, out, err = ran(call, **work)
    assert (status, out) == (1, [])
    assert err == ["first-order: there is no rt on the path, and no built program: README.md says what is needed"]
    data = "\\n".join(it.replace("|", "\\001") for it in ANSWERS).replace("\\n", "")
    put_text("kit/rt", f"#!/bin/sh\necho \"$@\" >{os.getcwd()}/asked\ncat >{os.getcwd()}/given\nprintf '{data}'\necho hello >&2\n", 0o755)
    trial = {**work, "PATH": f"{os.path.abspath('kit')}:{PATH}"}
    status, out, err = ran(call, **trial)
    assert (status, out[1:], err) == (0, ANSWERS, [])
    assert "not proved" in out[0]
    assert contents("asked") == b"try -- - first.journal 1 ABC\n"
    assert contents("given") == contents("examples/first_order.fix")
    put_text("kit/rt", "#!/bin/sh\necho 'error: no' >&2\nexit 3\n", 0o755)
    status, out, err = ran(call, **trial)
    assert (status, err) == (1, ["error: no", "first-order: the trial run failed; what rt said stands above"])
    assert [it for it in out if it.startswith("8=")] == []
    put_text("crates/venued/out/venued", f"#!/bin/sh\nexec {PROGRAMS['VENUED']} \"$@\"\n", 0o755)
    assert ran(call, **trial) == (0, ["By crates/venued/out/venued, the proved program as it was built last:", *ANSWERS], [])
    put_text("crates/venued/out/venued", "#!/bin/sh\necho 'venued: no memory' >&2\nexit 1\n", 0o755)
    status, out, err = ran(call, **work)
    assert (status, err) == (1, ["venued: no memory"])
    assert (ran([*call, "x"], **work)[0], ran([*call, "--help"], **work)[0]) == (1, 0)
    assert os.listdir("work") == []


CHECKER = """#!/bin/sh
# In the place of rt and of rattle: does what the file `fails` beside it says of this crate and this command.
here="{here}"
crate="$(basename "$PWD")"
command="$(basename "$0") $1"
[ "$command" = "rt doc" ] && {{ echo "$here/kit/README"; exit 0; }}
echo "$crate $command" >>"$here/asked"
rule="$(grep "^$crate $command:" "$here/fails" | head -n 1 | cut -d: -f2)"
if [ "$rule" = once ]; then
    grep -q "^$crate $command$" "$here/killed" && rule="" || echo "$crate $command" >>"$here/killed"
fi
case "$rule" in
    fails) echo "error: not proved: a goal is open in $crate"; exit 1 ;;
    killed | once) kill -9 $$ ;;
    open) echo "logic=unproved goals=3 functions=7"; exit 0 ;;
    silent) exit 0 ;;
    slow) exec sleep 600 ;;
esac
mkdir -p out/rlib
case "$command" in
    "rattle check") echo "logic=proved functions=7 goals=9" ;;
    "rt lib") mkdir -p "out/rlib/$crate.rlib"; touch out/rlib/stamp ;;
    "rt run") [ "$rule" = nothing ] || {{ touch "out/$crate.stamp"; touch "out/$crate"; chmod +x "out/$crate"; }} ;;
esac
"""
CRATES = {"low": "", "wide": "", "middle": "low", "venued": "low middle", "venue_replay": "low", "venue_events": "low",
          "other": "low"}
NEEDED = [it for it in CRATES if it != "other"]


def prepare(fails: str = "", **others: str) -> None:
    """Makes a small repository, where these commands fail."""
    shutil.rmtree("repository", ignore_errors=True)
    here = os.path.abspath("repository")
    for name in ("build", "crates.py", "needs_python.py"):
        os.makedirs("repository/scripts", exist_ok=True)
        shutil.copy(script(name), "repository/scripts")
    sources = [put_text("repository/crates.txt", "".join(f"{name}: {below}\n" for name, below in {**CRATES, **others}.items()))]
    for name in CRATES:
        sources.append(put_text(f"repository/crates/{name}/src/{'main' if name.startswith('venue') else 'lib'}.rt", "//\n"))
    for path in sources:
        os.utime(path, (0, 0))  # (older than what is made of them, also where the file system keeps whole seconds)
    for name in ("rt", "rattle"):
        put_text(f"repository/kit/bin/{name}", CHECKER.format(here=here), 0o755)
    put_text("repository/fails", fails)
    put_text("repository/killed", "")
    put_text("repository/asked", "")


def build(fails: str = "", **others: str) -> tuple[int, list[str], list[str], list[str]]:
    """Runs scripts/build in a small repository, where these commands fail: how it ended, and which commands it gave."""
    prepare(fails, **others)
    return again()


def path_with_kit() -> str:
    """The path of programs, with that repository's own kit in front."""
    return f"{os.path.abspath('repository/kit/bin')}:{os.path.dirname(sys.executable)}:{PATH}"


def again(*words: str) -> tuple[int, list[str], list[str], list[str]]:
    """The same once more, over what was built."""
    put_text("repository/asked", "")
    status, out, err = ran([os.path.abspath("repository/scripts/build"), "--jobs", "2", *words], PATH=path_with_kit())
    with open("repository/asked", encoding="utf-8") as file:
        return status, out, err, file.read().splitlines()


def proved(out: list[str]) -> list[str]:
    """The crates of which a build says that they are proved."""
    return sorted(it.split()[3] for it in out if re.search(r"^ *\d+ of \d+ .*\d+ functions proved", it))


# Runs a script of Python on one day, whatever day it is and though midnight comes meanwhile.
ON_ONE_DAY = ("import runpy, sys, time; day = time.gmtime(); time.gmtime = lambda *_: day; del sys.argv[0]; "
              "runpy.run_path(sys.argv[0], run_name='__main__')")


def test_the_example_member() -> None:
    """Its help is what it says of itself. An edge that begins anew is told from what the file of its numbers has, by that file's name."""
    member = [sys.executable, os.path.join(ROOT, "examples/member.py")]
    status, out, err = ran([*member, "--help"])
    assert (status, out[:1], err) == (0, [text_of("examples/member.py").splitlines()[1].removeprefix('"""')], [])
    assert ran(member) == (1, [], out)
    put_text("DESK-A.numbers", "7 4\n")
    body = "35=A\x0134=1\x0149=GIKVAND\x0152=20250102-09:30:00\x0156=DESK-A\x0198=0\x01108=30\x01"
    with socket.create_server((HOST, 0)) as server:
        words = [member[0], "-c", ON_ONE_DAY, member[1], str(server.getsockname()[1])]
        it = subprocess.Popen(words, stdin=subprocess.PIPE, stderr=subprocess.PIPE, text=True)
        running.append(it)
        server.settimeout(PATIENCE)
        with server.accept()[0] as edge:
            edge.sendall(sealed(body.encode()))
            said = it.communicate(timeout=PATIENCE)[1]
    assert (it.returncode, said.partition(": 8=")[0]) == (
        1, "number 1 where 4 is next, as DESK-A.numbers says: remove that file where the edge is another one than before")


def test_a_build() -> None:
    """Each crate that the programs stand on is proved, once those below it are, and the programs are built at the end. A
    second run proves nothing again."""
    status, out, err, asked = build(venued="low middle wide")
    assert (status, err, proved(out)) == (0, [], sorted(NEEDED))
    for name in NEEDED:
        assert (name, f"{name} rattle check" in asked or f"{name} rt lib" in asked) == (name, True)
    for name in ("low", "middle", "wide"):
        assert (name, asked.count(f"{name} rt lib")) == (name, 1)
    for name in ("venued", "venue_replay", "venue_events"):
        assert (name, asked.count(f"{name} rattle check"), asked.count(f"{name} rt run")) == (name, 1, 1)
    assert [it for it in asked if it.startswith("other")] == []
    assert asked.index("low rt lib") < asked.index("middle rt lib") < asked.index("venued rattle check")
    assert any(it.startswith("The programs are venued, venue_replay and venue_events") for it in out)
    status, out, err, asked = again()
    assert (status, err, proved(out), [it for it in asked if "check" in it]) == (0, [], [], [])
    for part in ("src/lib.rt", "specs/Low.antt", "proofs/deep/Answers.antt"):
        path = put_text(f"repository/crates/low/{part}", "// changed\n")
        os.utime(path, (time.time() + 60,) * 2)
        status, out, err, asked = again()
        os.utime(path, (0, 0))
        assert (part, status, proved(out)) == (part, 0, ["low", "middle", "venue_events", "venue_replay", "venued"])
        assert (part, "wide rattle check" in asked, "venued rattle check" in asked) == (part, False, True)


def test_crates_below_others() -> None:
    """Each crate comes behind those that it stands on, and each once."""
    listed: crates.Crates = {"top": ["left", "right", "std"], "left": ["low"], "right": ["middle"], "middle": ["low"], "low": [], "other": ["low"]}
    found = crates.below("top", listed)
    assert (sorted(found), found.index("low") < found.index("left"),
            found.index("low") < found.index("middle") < found.index("right")) == (["left", "low", "middle", "right"], True, True)


def test_room_for_proofs() -> None:
    """As many crates are proved at once as memory has 3 GB for each, by what the system says is available, and one at least."""
    module = loaded("scripts/build")
    for kilobytes, count in ((900_000, 1), (3_000_000, 1), (5_900_000, 2), (24_000_000, 8)):
        text = f"MemTotal: 99000000 kB\nMemFree: 1 kB\nMemAvailable:   {kilobytes} kB\n"
        with mock.patch("builtins.open", lambda *_, text=text, **__: io.StringIO(text)):
            assert (kilobytes, module.room()) == (kilobytes, count)


@pytest.mark.soak
def test_builds_that_end_others() -> None:
    """Where a crate isn't proved those that are proved beside it end with the script."""
    prepare("wide rattle check:fails\nlow rt lib:slow\nlow rattle check:slow", venued="low middle wide")
    words = [os.path.abspath("repository/scripts/build"), "--jobs", "2"]
    subprocess.run(words, env={**os.environ, "PATH": path_with_kit()}, stdout=subprocess.DEVNULL, stderr=subprocess.DEVNULL, timeout=PATIENCE)
    await_that("nothing of the build runs", lambda: not processes_in(os.path.abspath("repository")))


@pytest.mark.soak
def test_builds_that_are_ended() -> None:
    """SIGTERM ends a build with all that it has started: the proofs, and the making of a program."""
    with contextlib.ExitStack() as behind:
        behind.callback(end_all_in, os.getcwd())
        for slow in (["low rattle check", "wide rattle check"], ["venued rt run"]):
            end_a_build(slow)


def end_a_build(slow: list[str]) -> None:
    """Ends a build that waits for these commands."""
    prepare("".join(f"{it}:slow\n" for it in slow), venued="low middle wide")
    words = [sys.executable, "repository/scripts/build", "--jobs", "2"]  # (both at once, whatever memory there is)
    with subprocess.Popen(words, stdout=subprocess.PIPE, stderr=subprocess.PIPE, text=True,
                          env={**os.environ, "PATH": path_with_kit()}) as it:
        await_that(f"the build comes to {slow}", lambda: {*slow} <= {*contents("repository/asked").decode().splitlines()})
        it.terminate()
        out, err = it.communicate(timeout=LONG)
    assert (slow, it.returncode, err) == (slow, 1, "build: interrupted; what was proved so far is kept\n")
    assert (slow, "The programs are" in out) == (slow, False)
    await_that(f"nothing of the build runs behind {slow}", lambda: not processes_in(os.path.abspath("repository")))


def test_builds_that_fail() -> None:
    """Whichever command fails, nothing is said to be proved that isn't, nothing is said to be built, and the status is 1."""
    for fails, crate in (("low rattle check:fails", "low"), ("low rt lib:fails", "low"), ("low rt lib:silent", "low"),
                         ("middle rattle check:fails\nmiddle rt lib:fails", "middle"),
                         ("venued rattle check:fails", "venued"), ("venued rattle check:killed", "venued"),
                         ("venued rattle check:silent", "venued"), ("venued rt run:fails", "venued"),
                         ("venue_replay rattle check:open", "venue_replay"), ("venue_replay rt run:fails", "venue_replay"),
                         ("venue_replay rt run:nothing", "venue_replay")):
        status, out, err, asked = build(fails, venued="low middle wide")
        assert (fails, status) == (fails, 1)
        assert (fails, [it for it in out if "The programs are" in it]) == (fails, [])
        if not err or not err[-1].startswith(f"build: {crate} isn't proved or built"):
            raise Trouble(f"{fails}: expected a line on {crate} came {err}")
        unproved = {crate, *(it for it in NEEDED if crate in {**CRATES, "venued": "low middle wide"}[it].split())}
        if "rt run" not in fails and unproved & set(proved(out)):
            raise Trouble(f"{fails}: expected no word that {unproved} are proved came {out}")
        if ":fails" in fails and "error: not proved: a goal is open in" not in "\n".join(err):
            raise Trouble(f"{fails}: expected what the checker said came {err}")
        if "rt run" not in fails:
            assert (fails, [it for it in asked if it.endswith("rt run") and crate not in it]) == (fails, [])


def test_builds_that_go_on() -> None:
    """A check that was killed, as for memory, is tried once more by one process. The check had more processes, since nothing else is left
    to be proved beside it."""
    status, out, err, asked = build("venued rattle check:once", venued="low middle wide", venue_replay="venued", venue_events="venued")
    assert (status, err, "venued" in proved(out), asked.count("venued rattle check")) == (0, [], True, 2)


def test_builds_without_a_checker() -> None:
    build()
    status, out, err = ran([sys.executable, os.path.abspath("repository/scripts/build")], PATH=PATH)
    assert (status, out, err) == (1, [], ["build: there is no rt on the path: README.md says what is needed"])
    status, out, _ = ran([sys.executable, os.path.abspath("repository/scripts/build"), "--jobs", "0"], PATH=PATH)
    assert (status, out) == (2, [])
