"""Shows a venue of two members: starts it on free ports, lets C1 sell and C2 buy, at a price and by a market order, stops
it, and reads its journal.

    gikvand demo [--keep FOLDER]

What each member hears is said in words by `gikvand trade`, which speaks FIX to the venue. The journal lies in a folder of
its own, which is removed at the end; with --keep that is FOLDER, which is made, and stays: a journal to look at by all
other commands. Both programs have to be built, or installed; it takes others by the environment's VENUED and VENUE_REPLAY.
"""
import argparse
import contextlib
import os
import queue
import signal
import subprocess
import sys
import tempfile
import threading
from collections.abc import Iterator

from gikvand import symbols
from gikvand.ports import free_port
from gikvand.programs import REPLAY, ROOT, VENUED, WHERE, Trouble, need
from gikvand.words import sure

TRADE = [os.path.join(ROOT, "scripts/gikvand"), "trade"]
JOURNAL, TRADED = "demo.journal", ["ABC"]
PATIENCE = 10  # Seconds to wait for a line.
TRIES = 10     # Pairs of ports to try: another process may take one before the venue does.

running: list[subprocess.Popen[str]] = []


class Program:
    """A program that runs, and the lines that it prints."""

    def __init__(self, name: str, *words: str) -> None:
        pipe = subprocess.PIPE
        self.name = name
        self.process = subprocess.Popen(words, stdin=pipe, stdout=pipe, stderr=subprocess.STDOUT, text=True)
        running.append(self.process)
        self.lines: queue.Queue[str | None] = queue.Queue()
        threading.Thread(target=self.read, daemon=True).start()

    def read(self) -> None:
        for line in sure(self.process.stdout):
            self.lines.put(line.rstrip("\n"))
        self.lines.put(None)

    def say(self, text: str) -> None:
        """Gives it a line."""
        pipe = sure(self.process.stdin)
        pipe.write(text + "\n")
        pipe.flush()

    def line(self) -> str | None:
        """Its next line, or None at its end."""
        try:
            return self.lines.get(timeout=PATIENCE)
        except queue.Empty:
            raise Trouble(f"{self.name} has printed nothing for {PATIENCE} seconds") from None

    def show_until(self, word: str) -> None:
        """Shows its lines up to the first that has this word in it."""
        while (line := self.line()) is not None:
            print(f"    {line}")
            if word in line:
                return
        raise Trouble(f"{self.name} ended before '{word}' came, with status {self.process.wait()}")

    def end(self) -> int:
        """Closes its input, shows what it still prints, and waits for its end."""
        sure(self.process.stdin).close()
        while (line := self.line()) is not None:
            print(f"    {line}")
        return self.process.wait(PATIENCE)


def started() -> tuple[Program, int]:
    """A venue of two gateways that is ready, and its port."""
    symbols.keep(JOURNAL, TRADED)
    for _ in range(TRIES):
        port = free_port(2)
        venue = Program("venued", VENUED, str(port), JOURNAL, "2", *TRADED)
        line = venue.line()
        if line and line.startswith("venued: ready"):
            print("A venue of two members, with the journal demo.journal:\n")
            print(f"    venued {port} demo.journal 2 ABC\n    {line}")
            return venue, port
        if not (line and line.startswith("venued: cannot listen")):
            raise Trouble(f"venued isn't ready; it said: {line or 'nothing'} ({WHERE})")
    raise Trouble(f"in {TRIES} tries no two ports stayed free")


def member(port: int, number: int) -> Program:
    """A member of the venue, whose session has begun."""
    it = Program("trade", *TRADE, "--port", str(port), "--member", str(number), "--journal", JOURNAL)
    it.line()
    return it


def show(why: str, *words: str) -> None:
    """Runs a program to its end, and shows what it prints."""
    shown = [os.path.basename(words[0]).replace("_", "-"), *words[1:]]
    print(f"\n{why}\n\n    {' '.join(shown)}")
    ran = subprocess.run(words, capture_output=True, text=True)
    print("".join(f"    {line}\n" for line in (ran.stdout + ran.stderr).splitlines()), end="")
    if ran.returncode:
        raise Trouble(f"{shown[0]} ended with status {ran.returncode}")


def trade(port: int) -> None:
    """Both members trade, and each hears its own side."""
    seller, buyer = member(port, 1), member(port, 2)
    print("\nC1 says: sell 100 ABC 50\n")
    seller.say("sell 100 ABC 50")
    seller.show_until("accepted")
    print("\nC2 says: buy 30 ABC 51\n")
    buyer.say("buy 30 ABC 51")
    buyer.show_until("filled")
    print("\nMeanwhile C1 hears\n")
    seller.show_until("filled")
    print("\nC2 says, at whatever price: buy 20 ABC market\n")
    buyer.say("buy 20 ABC market")
    buyer.show_until("filled")
    print("\nAnd C1 hears\n")
    seller.show_until("filled")
    for it in (seller, buyer):
        if it.end():
            raise Trouble("a member's session didn't end well")


def demo() -> None:
    venue, port = started()
    trade(port)
    print("\nThe venue is stopped by a file:\n\n    touch demo.journal.stop")
    with open("demo.journal.stop", "w", encoding="ascii"):
        pass
    venue.show_until("stopped")
    if status := venue.end():
        raise Trouble(f"venued ended with status {status}")
    show("What rests, by the journal: symbol, side (2 sells), price, left, OrderID, member, ClOrdID", REPLAY,
         "demo.journal", "book", "ABC")
    for name in ("C1", "C2"):
        show(f"All reports to {name}, as FIX", REPLAY, "demo.journal", name, "ABC")


def add_words(parser: argparse.ArgumentParser) -> None:
    parser.add_argument("--keep", metavar="FOLDER", help="make this folder, and leave the journal there")


@contextlib.contextmanager
def folder_of(keep: str | None) -> Iterator[str]:
    """The folder of the journal: one that stays, or one that is removed."""
    if keep is None:
        with tempfile.TemporaryDirectory(prefix="demo-") as folder:
            yield folder
        return
    os.mkdir(keep)
    yield keep
    print(f"\nThe journal stays: gikvand trades {os.path.join(keep, JOURNAL)}")


def run(given: argparse.Namespace) -> int:
    signal.signal(signal.SIGTERM, lambda *_: sys.exit("gikvand demo: ended by a signal"))
    need(VENUED, REPLAY)
    with folder_of(given.keep) as folder:
        before = os.getcwd()
        os.chdir(folder)
        try:
            demo()
            os.remove(f"{JOURNAL}.stop")
        finally:
            for process in running:
                process.kill()
                process.wait()
            os.chdir(before)
    return 0
