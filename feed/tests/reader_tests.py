"""What reads the streams: the board of a feed, the examples, and what a reader is told of wrong words and servers that are gone."""
import json
import os
import subprocess
import sys
from collections.abc import Callable, Iterable

from feeds import ROOT, Trouble, expect_same, expect_streams, feed, lines_of, named, nats, servers, venue_and_traders, wait_for
from gikvand import board as boards
from gikvand.tally import Json, Tally


def told_of(lines: Iterable[str]) -> Json:
    """What a page shows that has taken these events, but for rates."""
    tally = Tally([])
    for line in lines:
        tally.take(line)
    return {name: it for name, it in json.loads(json.dumps(tally.told())).items() if name != "rates"}


def url(name: str, number: int = 0, user: str = "machines") -> str:
    return f"tls://{user}@127.0.0.1:{servers().ports[number]}/{name}"


def ca() -> str:
    return os.path.join(servers().folder, "ca.pem")


def passwords() -> str:
    return os.path.join(servers().folder, "passwords")


class Shown:
    """A board of a feed, as its page has it."""

    def __init__(self, name: str, *numbers: int) -> None:
        feed = boards.Feed([boards.place_of(url(name, it), passwords()) for it in numbers], ca())
        self.board = boards.FeedBoard(feed, [])

    def turned(self, what: str, holds: Callable[[Json], object]) -> Json:
        """What is told once this holds."""
        told: list[Json] = []
        def look() -> object:
            self.board.turn()
            told.append(self.board.told())
            return holds(told[-1])
        wait_for(what, look)
        return told[-1]


def test_board() -> None:
    """A board on the stream shows the journal's numbers, how old they are, and goes on by another server."""
    with named() as name:
        _, traders = venue_and_traders()
        feed(name)
        traders.pairs(100)
        expect_streams(name, lines := lines_of())
        shown = Shown(name, 0, 1, 2)
        try:
            wanted = told_of(lines)["outputs"]
            told = shown.turned("a board that has caught up, and says how old it is", lambda it: it["caught_up"] and it["outputs"] == wanted
                                and it["age"] is not None and not it["feed"]["why"])
            expect_told(told, lines)
            servers().kill(0)
            traders.pairs(50)
            wanted = told_of(lines := lines_of())["outputs"]
            expect_told(shown.turned("a board that goes on", lambda it: it["outputs"] == wanted), lines)
        finally:
            shown.board.end()


def expect_told(told: Json, lines: list[str]) -> None:
    """Fails unless a board tells the numbers of these events."""
    for name, wanted in told_of(lines).items():
        if json.loads(json.dumps(told[name])) != wanted:
            raise Trouble(f"{name}: the board tells {told[name]}, and the journal {wanted}")


def test_board_without_servers() -> None:
    """A board whose servers are gone says for how long, and keeps what it has."""
    with named() as name:
        _, traders = venue_and_traders()
        feed(name)
        traders.pairs(20)
        expect_streams(name, lines := lines_of())
        shown = Shown(name, 1)
        try:
            shown.turned("a board that has caught up", lambda it: it["outputs"] == told_of(lines)["outputs"])
            servers().kill(1)
            told = shown.turned("a board that isn't heard", lambda it: it["feed"]["why"] and it["feed"]["silent"] >= 2)
            expect_told(told, lines)
            if told["is_served"] or told["trouble"]:
                raise Trouble(f"it tells {told['is_served']} {told['trouble']}")
            servers()
            shown.turned("a board that is heard again", lambda it: it["is_served"])
        finally:
            shown.board.end()


def test_words_of_the_board() -> None:
    """Wrong words, users and passwords have one line each, and status 2."""
    with named() as name:
        with open("open", "w", encoding="ascii") as file:
            file.write("machines:x\n")
        os.chmod("open", 0o644)
        rights = ["--password-file", passwords(), "--ca", ca()]
        wrong: list[tuple[list[str], str]] = [
            ([], "a JOURNAL is needed, or --feed URL, and not both"),
            (["j", "--feed", url(name)], "a JOURNAL is needed, or --feed URL, and not both"),
            (["--feed", "http://h/x"], "not tls://HOST:PORT/NAME: http://h/x"),
            (["--feed", "tls://h"], "not tls://HOST:PORT/NAME: tls://h"),
            (["--feed", url(name, user="nobody"), *rights], f"{passwords()} has no line of nobody"),
            (["--feed", url(name), "--password-file", "open"], "open may be used by others than its owner: chmod 0600 open"),
            (["--feed", url(name), "--feed", url("other"), *rights], "all --feed are servers of one feed, with one NAME")]
        for words, line in wrong:
            ran = subprocess.run([os.path.join(ROOT, "scripts/gikvand"), "board", *words], capture_output=True, text=True, timeout=60)
            if (ran.returncode, ran.stdout, ran.stderr) != (2, "", f"gikvand board: {line}\n"):
                raise Trouble(f"{words}: {ran}")


def expect_lines(program: list[str], name: str, lines: list[str]) -> None:
    """Fails unless an example prints these lines of a stream that has ended. Its server may answer nothing for a while, or be behind the
    others: then it is called again."""
    words = [*program, f"127.0.0.1:{servers().ports[2]}", "machines", passwords(), ca(), f"venue_{name}_events", "1", "once"]
    def are_printed() -> bool:
        ran = subprocess.run(words, capture_output=True, text=True, timeout=120)
        if ran.returncode or ran.stderr:
            raise nats.Unheard(f"{words}: {ran.returncode} {ran.stderr}")
        came = ran.stdout.splitlines()
        if len(came) >= len(lines):
            expect_same(f"line of {os.path.basename(program[-1])}", came, lines)
        return len(came) >= len(lines)
    wait_for(f"the lines of {os.path.basename(program[-1])}", are_printed)


def test_examples() -> None:
    """The examples in Python and C print the events of the stream."""
    with named() as name:
        _, traders = venue_and_traders()
        feed(name)
        traders.pairs(50)
        expect_streams(name, lines := lines_of())
        examples = os.path.join(ROOT, "examples")
        expect_lines([sys.executable, f"{examples}/feed_reader.py"], name, lines)
        subprocess.run(["cc", "-Wall", "-Wextra", "-Werror", "-o", "reader", f"{examples}/feed_reader.c", "-lnats"], check=True)
        expect_lines(["./reader"], name, lines)


TESTS = [test_board, test_board_without_servers, test_words_of_the_board, test_examples]
