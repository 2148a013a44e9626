#!/usr/bin/env python3
"""Checks that the plain C++ programs beside which the venue is measured do what the venue does.

    tests/twins.py [NAME...]      the tests whose names have one of these words in them; without one all

Each twin, dev/twins/NAME.cpp, is compiled and answers the same bytes as the built program:

- `fix`: as many messages are read and written as `bench fix` reads and writes, with the same sum;
- `serve`: sessions of tests/corners.py and two by chance: what goes out, and the journal, are those of `venued -`;
- `restart`: the book behind journals of all versions is the one that venue-replay prints;
- `tcp`: members trade at once, and each gets the reports that venue-replay finds in the twin's journal, in their order;
- `wrong`: each of some wrong twins, of which one line was changed, has to be refused by the test of its name;
- `bench`: `dev/bench --try` prints a figure for each twin, and the program's beside it; those of book, rings and journal
  check what they did themselves.

One that fails has a line that says what came; the last line is `N passed, M failed`, and the status is 1 where one failed.
Where c++ isn't installed nothing is tried, and a line says so. Build the programs first: scripts/build makes venued and
venue-replay, and `rt run` in crates/bench the benchmark; others are taken by the environment's VENUED, VENUE_REPLAY and BENCH.
"""
import os
import random
import re
import shutil
import sys
import tempfile
import threading
from collections.abc import Callable
from typing import NamedTuple

ROOT = os.path.dirname(os.path.dirname(os.path.abspath(__file__)))
sys.path.insert(0, os.path.join(ROOT, "dev"))

import with_scripts  # (in front of what stands there, and of what an older Python can't read)
import corners
import measuring
from checks import contents, put
from corners import SYMBOLS
from gikvand import journals
from measuring import FIGURE, PROJECT, TWIN
from mixed_day import write_journal
from venues import PATIENCE, REPLAY, TIME, VENUED, Client, RanOut, Trouble, chosen_of, ended, kill_all, market_order, message
from venues import need_programs, order, replay, started, tried

BENCH = os.environ.get("BENCH", os.path.join(ROOT, "crates/bench/out/bench"))
EACH = 9                  # Of the corners, one of so many is tried.
MESSAGES = 600            # Of the session by chance.
MEMBERS, ORDERS = 3, 150  # Who trade over TCP, and how many orders of each.
SAID = re.compile(r"8=FIX\.4\.4\|9=\d+\|(35=.\|)49=VENUE\|56=C\d\|34=(\d+)\|(52=[^|]*\|.*)10=\d{3}\|")

Program = Callable[[str], str]  # From a twin's name to the program.


def expect_same(what: str, twin: object, project: object) -> None:
    if twin != project:
        raise Trouble(f"{what}: the program has {str(project)[-300:]}, the twin {str(twin)[-300:]}")


def fix(program: Program) -> None:
    status, _, told = ended([BENCH, "fix", "1003"])
    expect_same("what was read and written", ended([program("fix"), "1003"])[::2], (status, told))


def by_chance(chance: random.Random) -> bytes:
    """A session of C1 of all kinds of messages, some of them with a fault, with a Logout at its end."""
    said, name = [message(1, 1, "A", "98=0|108=0|141=Y|")], 0
    for number in range(2, MESSAGES + 2):
        name += chance.randrange(3)
        symbol, side = chance.choice(["ABC", "ABC", "XYZ", "QQQ"]), chance.randrange(1, 3)
        quantity, price, old = chance.randrange(1, 40), chance.randrange(45, 56), max(1, name - chance.randrange(1, 12))
        term = chance.choice(["", "", "", "59=0|", "59=3|", "59=4|", "59=1|"])
        kind, body = chance.choice([
            ("D", order(name, side, quantity, price, symbol, term)), ("D", order(name, side, quantity, price, "ABC", term)),
            ("D", market_order(name, side, quantity, symbol, term)), ("1", f"112=test {number}|"), ("0", ""), ("3", ""),
            ("F", f"11={name}|41={old}|55={symbol}|54={side}|60={TIME}|38={quantity}|"),
            ("G", f"41={old}|{order(name, side, quantity, price, 'ABC', term)}")])
        if chance.randrange(12) == 0:
            body = chance.choice([body.replace("38=", "38=0"), body.replace("54=", "54=x"), body + body[-6:],
                                  body.replace("55=", "5=")])
        said.append(message(1, number, kind, body))
    return b"".join(said) + message(1, MESSAGES + 2, "5")


def served(program: str, data: bytes, kept: bytes | None) -> tuple[int, bytes, bytes]:
    """The status, what goes out, and the journal behind a session on a journal with these bytes."""
    with tempfile.TemporaryDirectory(prefix="twins-") as folder:
        path = os.path.join(folder, "venue.journal")
        if kept is not None:
            put(path, kept)
        status, out, _ = ended([program, "-", path, "1", *SYMBOLS], data)
        return status, out, contents(path)


def serve(program: Program) -> None:
    chosen = [it for it in corners.all_corners()[::EACH] if it.journal != corners.CROWDED]
    sessions = [(it.name, it.data, corners.data_of(it.journal)) for it in chosen]
    log_on = message(1, 1, "A", "98=0|108=0|141=Y|")
    sessions += [(f"number {it}", log_on + message(1, it, "1", "112=hi|"), None) for it in (1, 3)]
    sessions += [(f"by chance, {seed}", by_chance(random.Random(seed)), None) for seed in (1, 2)]
    for name, data, kept in sessions:
        came, wanted = served(program("serve"), data, kept), served(VENUED, data, kept)
        for part, twin, project in zip(("status", "output", "journal"), came, wanted):
            expect_same(f"{name}: {part}", twin, project)


def restart(program: Program) -> None:
    with tempfile.TemporaryDirectory(prefix="twins-") as folder:
        path = os.path.join(folder, "day.journal")
        for version in journals.VERSIONS:
            write_journal(path, 2_000, 300, version)
            entries = [journals.Entry(1, message(1, at, "D", market_order(10 ** 6 + at, 2, 3))) for at in (2, 3)]
            with open(path, "r+b") as file:
                file.seek(-1, os.SEEK_END)
                file.write(journals.block_of(version, entries) + journals.CLOSED)
            words = [path, "book", "ABC"]
            expect_same(f"version {version}", ended([program("restart"), *words])[:2], ended([REPLAY, *words])[:2])


class Trading(threading.Thread):
    """A member who trades at once with the others: it sends a few orders, waits for the reports of these, and so on."""

    def __init__(self, port: int, member: int) -> None:
        super().__init__(daemon=True)
        self.client, self.chance = Client(port, member), random.Random(member)
        self.reports: list[str] = []
        self.trouble = ""

    def run(self) -> None:
        try:
            self.trade()
        except (Trouble, OSError) as why:
            self.trouble = str(why)

    def trade(self) -> None:
        self.client.log_on()
        for name in range(1, ORDERS + 1):
            more = self.chance.choice(["", "59=3|", ""])
            side, quantity, price = self.chance.randrange(1, 3), self.chance.randrange(1, 9), self.chance.randrange(48, 53)
            self.client.send("D", order(name, side, quantity, price, more=more))
            if name % 5 == 0:
                self.hear_test(f"112={name}|")

    def hear_test(self, body: str) -> None:
        """Takes reports up to the answer to a TestRequest."""
        self.client.send("1", body)
        while f"|{body}" not in (said := self.client.next() or "nothing"):
            self.reports.append(said)

    def hear_rest(self) -> None:
        """Takes what is left once all have traded: all is due before the answer to an order that trades with nobody."""
        self.client.send("D", order(ORDERS + 1, 1, 1, 1, more="59=3|"))
        said: str | None
        while f"|11={ORDERS + 1}|" not in (said := self.client.next() or "nothing") or "|150=4|" not in said:
            self.reports.append(said)
        self.reports.append(said)
        self.client.send("5")
        while said := self.client.next():
            self.reports.append(said)


def tcp(program: Program) -> None:
    """Once all have sent their orders each takes what is left: a TestRequest may be answered before a report that is due."""
    with tempfile.TemporaryDirectory(prefix="twins-") as folder:
        path = os.path.join(folder, "venue.journal")
        venue = started(path, MEMBERS, program=program("tcp"))
        trading = [Trading(venue.port, member) for member in range(1, MEMBERS + 1)]
        for it in trading:
            it.start()
        for it in trading:
            it.join(PATIENCE)
            if it.is_alive():
                raise RanOut(f"C{it.client.member} trades yet behind {PATIENCE} seconds")
        for it in trading:
            it.hear_rest()
        counts = venue.stop()
        if trouble := "".join(it.trouble for it in trading):
            raise Trouble(trouble)
        for member, it in enumerate(trading, 1):
            lines, found = replay(path, f"C{member}")
            expect_same("counts", counts, found)
            heard = [SAID.fullmatch(said) for said in it.reports if "|35=8|" in said]
            expect_same(f"reports of C{member}", [f"{said[1]}{said[3]}" if said else None for said in heard], lines)


class Wrong(NamedTuple):
    """A wrong twin: one line of its sources is another."""

    test: Callable[[Program], None]
    old: str
    new: str


WRONGS = [
    Wrong(fix, "found = found * 10 + digit;", "found = found * 9 + digit;"),
    Wrong(serve, "return side == 0 ? a > b : a < b;", "return a < b;"),
    Wrong(serve, 'if (h.number != accepted + 1)', 'if (h.number > accepted + 1)'),
    Wrong(serve, 'pwrite(file, "\\1", 1, gate)', 'pwrite(file, "\\1", 1, gate + size)'),
    Wrong(restart, "kinds = version == 3, cut = version == 1 ? ~0ull :", "kinds = version == 3, cut = version == 1 ? 0 :"),
    Wrong(tcp, "if (c.name <= greatest[c.client]) return out.execution(REFUSED", "if (c.name % 50 == 0) return out.execution(REFUSED"),
]


class Compiled:
    """The twins of these sources, each compiled once it is asked for."""

    def __init__(self, folder: str, sources: str) -> None:
        self.folder, self.sources, self.programs = folder, sources, dict[str, str]()

    def __call__(self, name: str) -> str:
        if name not in self.programs:
            source = os.path.join(self.sources, f"{name}.cpp")
            self.programs[name] = measuring.compiled(name, self.folder, source)
        return self.programs[name]


def changed(wrong: Wrong, folder: str) -> None:
    """Copies the sources there, with the change: those of the twins that share them."""
    places, own = 0, [f"{name}.cpp" for name in measuring.OLDER_TWINS]
    for name in os.listdir(measuring.TWINS):
        if name not in own:
            with open(os.path.join(measuring.TWINS, name), encoding="utf-8") as file:
                text = file.read()
            places += text.count(wrong.old)
            with open(os.path.join(folder, name), "w", encoding="utf-8") as file:
                file.write(text.replace(wrong.old, wrong.new))
    if places != 1:
        raise Trouble(f"{wrong.old!r} stands {places} times in the sources")


def wrong(_program: Program) -> None:
    for it in WRONGS:
        with tempfile.TemporaryDirectory(prefix="twins-") as folder:
            changed(it, folder)
            programs = Compiled(folder, folder)
            programs(it.test.__name__)
            try:
                it.test(programs)
            except RanOut:
                raise
            except Trouble:
                continue
            finally:
                kill_all()
        raise Trouble(f"{it.test.__name__} takes a twin with {it.new!r}")


def bench(_program: Program) -> None:
    status, out, err = ended([os.path.join(ROOT, "dev/bench"), "--try"])
    names = [found[1] for line in out.decode().splitlines() if (found := FIGURE.fullmatch(line))]
    twins = {name for name in names if TWIN in name}
    without = [name for name in names if PROJECT in name and name.replace(PROJECT, TWIN) not in twins]
    expect_same("status, and what has no twin", (status, without, err), (0, ["market.1000.project", "tcp.pinned.c1.w64.project"], b""))


TESTS = (fix, serve, restart, tcp, wrong, bench)


def main() -> int:
    if any(it.startswith("-") for it in sys.argv[1:]):
        print(__doc__)
        return 0
    if not shutil.which("c++"):
        print("twins: c++ isn't installed: nothing was tried\n0 passed, 0 failed")
        return 0
    try:
        need_programs()
        if not os.access(BENCH, os.X_OK):
            raise Trouble(f"{os.path.relpath(BENCH)} isn't built: rt run in crates/bench proves and builds it")
    except Trouble as why:
        sys.exit(f"twins: {why}")
    with tempfile.TemporaryDirectory(prefix="twins-") as folder:
        return tried(chosen_of(TESTS), Compiled(folder, measuring.TWINS))


if __name__ == "__main__":
    sys.exit(main())
