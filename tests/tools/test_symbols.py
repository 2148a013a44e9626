"""Tests of the symbols that are kept beside a journal: by the commands that start a venue, and by the service."""
import contextlib
import os
import shlex
import socket
import subprocess
import sys

import pytest

from checks import ROOT
from gikvand import journals
from made_journals import JOURNAL, TOOLS, called, contents, gikvand, put
from noting import can_be_noted, noted, order_of
from running_tools import kept_ports
from venues import HOST, PATIENCE

pytestmark = [pytest.mark.slow, pytest.mark.usefixtures("programs")]


def test_symbols_of_a_journal() -> None:
    """A journal's symbols are kept from its first start on, and a start with others is refused by a line that says both."""
    of_both = f"the journal {JOURNAL} is one of ABC, as {JOURNAL}.symbols says, and not of ABC XYZ"
    trade = ["trade", "--journal", JOURNAL]
    assert called(*trade, "buy", "5", "XYZ", "50") == (
        1, [f"The new journal {JOURNAL}, for ABC.", "order refused: the venue doesn't trade its symbol"], [])
    assert contents(f"{JOURNAL}.symbols") == b"ABC\n"
    before = contents(JOURNAL)
    assert called(*trade, "--symbols", "ABC,XYZ", "sell", "5", "XYZ", "50") == (2, [], [f"gikvand trade: {of_both}"])
    assert contents(JOURNAL) == before
    for word in (["verify", JOURNAL], ["reports", JOURNAL, "C1"], ["trades", JOURNAL]):
        assert gikvand(*word, "--symbols", "ABC,XYZ")[2] == [f"gikvand {word[0]}: {of_both}"]
        assert gikvand(*word, "--symbols", "ABC")[0] == 0
    assert gikvand("day", JOURNAL, "ABC", "XYZ")[2] == [f"gikvand day: {of_both}"]
    os.remove(f"{JOURNAL}.symbols")
    assert called(*trade, "--symbols", "ABC,XYZ", "orders")[0] == 0
    assert contents(f"{JOURNAL}.symbols") == b"ABC XYZ\n"
    assert called(*trade, "orders")[1][0] == f"The journal {JOURNAL}, for ABC XYZ."
    os.remove(JOURNAL)
    assert called(*trade, "orders")[:2] == (0, [f"The new journal {JOURNAL}, for ABC.", "no order rests"])
    assert contents(f"{JOURNAL}.symbols") == b"ABC\n"


NOBODY = {"PORT": "1", "GATEWAYS": "1"}  # A port at which nobody listens.


def words_of_the_service(head: str) -> list[list[str]]:
    """The words of what the unit does, one behind the other, as systemd gives them to the shell, but for what it puts in the place of
    $MAINPID."""
    with open(os.path.join(ROOT, "contrib/venued.service"), encoding="utf-8") as file:
        lines = file.read().replace("\\\n", " ").splitlines()  # As systemd joins them.
    said = [line.partition("=")[2] for line in lines if line.startswith(f"{head}=")]
    return [shlex.split(it.replace("$$", "$").replace("%%", "%")) for it in said]


def of_the_service(head: str, symbols: str, *more: str, **environment: str) -> tuple[int, str]:
    """What the unit does before a start, or behind it, with these symbols: its status and its line."""
    for words in words_of_the_service(head):
        it = subprocess.run([*words[:3], *more], env={"SYMBOLS": symbols, "PATH": "/usr/bin:/bin", **NOBODY, **environment}, timeout=PATIENCE,
                            capture_output=True, text=True)
        if it.returncode:
            break
    return it.returncode, it.stderr


@pytest.mark.parametrize("settings, why", [
    ({}, ""), ({"GATEWAYS": "8"}, ""), ({"SYMBOLS": "A="}, ""), ({"PORT": ""}, "PORT is missing"), ({"GATEWAYS": ""}, "GATEWAYS is missing"),
    ({"SYMBOLS": ""}, "SYMBOLS is missing"), *(({"GATEWAYS": it}, f"GATEWAYS is 1 to 8, and not {it}") for it in ("0", "9", "08", "1 2", "x"))])
def test_words_of_the_service(settings: dict[str, str], why: str) -> None:
    """A setting that is missing is told by its name, and so is a number of gateways that the program doesn't take."""
    given = {"SYMBOLS": "ABC", **settings}
    assert of_the_service("ExecStartPre", given.pop("SYMBOLS"), **given) == ((1, f"/etc/venued.conf: {why}\n") if why else (0, ""))


def test_symbols_of_the_service() -> None:
    """What the unit does before a start and behind it. Symbols that are kept have a journal, which is one of these."""
    def before(symbols: str) -> tuple[int, str]:
        return of_the_service("ExecStartPre", symbols)
    def behind(symbols: str) -> bytes:
        with socket.create_server((HOST, 0)) as listener:
            status, err = of_the_service("ExecStartPost", symbols, str(os.getpid()), PORT=str(listener.getsockname()[1]), GATEWAYS="1")
        assert (status, err) == (0, "")
        return contents(f"{JOURNAL}.symbols")
    assert (before("ABC  XYZ"), os.listdir()) == ((0, ""), [])
    put(JOURNAL, journals.empty())
    assert (before("ABC  XYZ"), behind("ABC  XYZ")) == ((0, ""), b"ABC XYZ\n")
    made_by = os.stat(f"{JOURNAL}.symbols")
    assert (before("ABC XYZ"), behind("ABC XYZ")) == ((0, ""), b"ABC XYZ\n")
    assert os.path.samestat(os.stat(f"{JOURNAL}.symbols"), made_by) == True
    for other in ("ABC", "XYZ ABC", "ABC XYZ Q"):
        line = f"{JOURNAL} is one of ABC XYZ, as {JOURNAL}.symbols says, and not of {other}\n"
        assert (before(other), contents(f"{JOURNAL}.symbols")) == ((2, line), b"ABC XYZ\n")
    os.rename(JOURNAL, "away")
    gone = f"{JOURNAL} is missing, and {JOURNAL}.symbols says that there was one: remove that for a new one\n"
    assert (before("ABC XYZ"), os.path.exists(JOURNAL)) == ((2, gone), False)
    os.rename("away", JOURNAL)
    put(f"{JOURNAL}.symbols", b"")
    assert before("ABC XYZ") == (2, f"{JOURNAL}.symbols is empty: write the symbols of {JOURNAL} into it\n")
    os.remove(f"{JOURNAL}.symbols")
    assert (before("Q"), behind("Q")) == ((0, ""), b"Q\n")
    assert sorted(os.listdir()) == [JOURNAL, f"{JOURNAL}.symbols"]
    assert gikvand("verify", JOURNAL, "--symbols", "Q")[0] == 0


def test_calls_of_the_symbols() -> None:
    """Whoever keeps the symbols, they stand under their name whole: a new file, which is synced and then renamed, and then its
    folder. Where they stand there already nothing is written."""
    if not can_be_noted():
        return
    name = f"{JOURNAL}.symbols"
    wanted = [f"open {name}.new", f"sync {name}.new", f"rename {name}.new {name}", "sync ."]
    def of_trade() -> list[str]:
        status, calls = noted(sys.executable, "-S", "-m", "gikvand", "trade", "--journal", JOURNAL, "orders", PYTHONPATH=TOOLS,
                              PYTHONDONTWRITEBYTECODE="1")
        assert status == 0
        return [it for it in order_of(calls, name, f"{name}.new", ".") if it != f"write {name}.new"]
    def of_the_unit() -> list[str]:
        with socket.create_server((HOST, 0)) as listener:
            port = str(listener.getsockname()[1])
            status, calls = noted(*words_of_the_service("ExecStartPost")[0][:3], str(os.getpid()), PORT=port, GATEWAYS="1",
                                  SYMBOLS="ABC", PATH="/usr/bin:/bin")
        assert status == 0
        return order_of(calls, name, f"{name}.new", ".")
    for way in (of_trade, of_the_unit):
        found = way()
        at = found.index(wanted[0])
        assert (way.__name__, found[at:at + 4]) == (way.__name__, wanted)
        assert (way.__name__, [it for it in way() if name in it]) == (way.__name__, [])
        os.remove(name)


@pytest.mark.soak
def test_starts_of_the_service() -> None:
    """A start is done once each port listens, and has failed where the program ended before. Nobody else may listen there."""
    with kept_ports(2) as first:
        ports = {"PORT": str(first), "GATEWAYS": "2"}
        put(JOURNAL, journals.empty())
        with socket.create_server((HOST, first + 1)):
            assert of_the_service("ExecStartPre", "ABC", **ports) == (1, f"somebody listens at port {first + 1}\n")
        assert of_the_service("ExecStartPre", "ABC", **ports) == (0, "")
        main = subprocess.Popen(["sleep", "600"])
        waits = subprocess.Popen([*words_of_the_service("ExecStartPost")[0][:3], str(main.pid)],
                                 env={"SYMBOLS": "ABC", "PATH": "/usr/bin:/bin", **ports})
        try:
            with socket.create_server((HOST, first)):
                with contextlib.suppress(subprocess.TimeoutExpired):
                    assert waits.wait(1) == "no end while one of both ports listens"
                with socket.create_server((HOST, first + 1)):
                    assert (waits.wait(PATIENCE), contents(f"{JOURNAL}.symbols")) == (0, b"ABC\n")
        finally:
            for it in (main, waits):
                it.kill()
                it.wait()
        assert of_the_service("ExecStartPost", "ABC", str(main.pid), **ports)[0] == 1
