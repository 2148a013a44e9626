"""The members of examples/: each logs on, trades, takes the market, is killed and told what it missed, where its tools are."""
import contextlib
import os
import queue
import shutil
import signal
import socket
import subprocess
import sys
import threading
import time
from collections.abc import Sequence

from edges import PATIENCE, ROOT, Edge, Trouble, pair, running
from engines import Engine, order
from gikvand.fix import value
from gikvand.words import sure
from switch_tests import done
from takers import entries_of
from tradeclients import STOCK
from trading_tests import expect, logged, rejects
from venues import await_that

EXAMPLES = os.path.join(ROOT, "examples")
MEMBER = 2  # Which the example is; the first one trades with it.
NAME = "DESK-B"
USERNAME, PASSWORD = "desk", "a secret"
QUICKFIX = "./engine"  # The example on QuickFIX, which tries again by itself.
WRONG = "Username (553) or Password (554) is wrong"
A_WAIT = 0.05  # Seconds: behind a wrong password twice as long no Logon is looked at, and behind each further one twice as long again.
LAST_MINUTE = (23, 59)  # Behind which the numbers of the examples begin anew, and not those of a test's edge.


class Example:
    """One that runs: its lines, as they come."""

    def __init__(self, words: Sequence[str], port: int, password: str = PASSWORD) -> None:
        self.words, self.port = words, port
        pipe, who = subprocess.PIPE, {"FIX_USERNAME": USERNAME, "FIX_PASSWORD": password}
        self.process = subprocess.Popen([it.format(port=port + MEMBER - 1, name=NAME) for it in words], stdin=pipe, stdout=pipe,
                                        text=True, env={**os.environ, **who})
        running.append(self)
        self.lines: list[str] = []
        self.queue: queue.Queue[str | None] = queue.Queue()  # None stands behind the last one.
        threading.Thread(target=self.read, daemon=True).start()

    def read(self) -> None:
        for line in sure(self.process.stdout):
            self.queue.put(line.rstrip("\n"))
        self.queue.put(None)

    def hears(self, text: str = "", **wanted: str | None) -> str:
        """Waits for a line with this text in it, or for a message with these fields; gives it."""
        end = time.monotonic() + PATIENCE
        while time.monotonic() < end:
            try:
                line = self.queue.get(timeout=max(0.01, end - time.monotonic()))
            except queue.Empty:
                break
            if line is None:
                self.queue.put(None)
                break
            self.lines.append(line)
            if text in line and all(value(line, tag[1:]) == it for tag, it in wanted.items()):
                return line
        raise Trouble(f"{self.words[0]}: no line has {text!r} {wanted}; it said {self.lines[-8:]}")

    def end(self) -> None:
        """Ends it by the end of its standard input: it logs out."""
        sure(self.process.stdin).close()
        expect(self.process.wait(PATIENCE), 0)

    def kill(self) -> None:
        self.process.kill()
        self.process.wait()


def plays(words: Sequence[str]) -> None:
    """An example isn't let in with a wrong password. With the right one it trades, sees the market, goes, is killed, and is told what
    it missed."""
    while time.gmtime()[3:5] == LAST_MINUTE:
        time.sleep(1)
    with open("passwords", "w", encoding="ascii", opener=lambda path, flags: os.open(path, flags, 0o600)) as file:
        file.write(f"{USERNAME}:{PASSWORD}\n")
    _, edge, port = pair(2, MarketData="Y", MarketDataInterval="10", Username=USERNAME, PasswordFile="passwords")
    other = Engine(port, 1).log_on(f"553={USERNAME}|554={PASSWORD}|")
    refuses(words, edge, port)
    sold = 0

    def sells() -> None:
        nonlocal sold
        sold += 1
        other.send("D", order(f"s-{sold}", 2, 1, "50"))
        other.report(_150="F", _11=f"s-{sold}")

    one = Example(words, port)
    one.hears("logged on")
    first = value(one.hears(_35="8", _150="0", _44="50.00"), "11")
    whole = next((it for it in one.lines if value(it, "35") == "W"), None) or one.hears(_35="W", _262="market")
    expect((value(whole, "55"), value(whole, "814")), ("ABC", "2"))
    entries_of(whole)
    at = len(one.lines)
    sells()
    one.hears(_35="8", _150="F", _11=first)
    if not any(value(it, "35") == "X" for it in one.lines[at:]):  # The market may be told in front of its own report.
        one.hears(_35="X", _262="market")
    done("halt ABC", "C1: ABC is halted", "C2: ABC is halted")
    one.hears(_35="f", _55="ABC", _326="2")
    done("resume ABC", "C1: ABC trades again", "C2: ABC trades again")
    one.hears(_35="f", _55="ABC", _326="3")
    one.end()
    if words[0] == QUICKFIX:
        one.hears(_35="5")
        expect(one.hears("logged out"), "logged out")
    two = Example(words, port)
    two.hears("logged on")
    second = value(two.hears(_35="8", _150="0"), "11")
    two.kill()
    edge.hears("C2: the client from")
    sells()
    three = Example(words, port)
    missed = three.hears(_35="8", _150="F", _11=second)
    expect(value(missed, "43"), "Y")
    three.hears(_35="W", _262="market")
    three.end()
    if wrong := [line for line in rejects(logged(MEMBER)) if f"|49={NAME}|" in line]:
        raise Trouble(f"{words[0]} rejects what it was told: {wrong[0]}")


def refuses(words: Sequence[str], edge: Edge, port: int) -> None:
    """With a wrong password, which has no answer, an example ends badly, or tries again until somebody ends it. What it keeps is taken
    away, and the time goes by in which no Logon is looked at: behind a gap it doesn't send its first order again."""
    one = Example(words, port, "another")
    if words[0] == QUICKFIX:
        one.hears("logged out: the Logon wasn't taken")
        one.end()
    else:
        expect(one.process.wait(PATIENCE), 1)
    edge.hears(WRONG)
    forget()
    waited = 0
    while (wrong := sum(WRONG in it for it in edge.lines)) > waited:
        time.sleep(A_WAIT * 2 ** wrong)
        waited = wrong


def forget() -> None:
    """Takes away what an example keeps that wasn't let in."""
    shutil.rmtree("store", ignore_errors=True)
    with contextlib.suppress(FileNotFoundError):
        os.remove(f"{NAME}.numbers")


def needs(tool: str, package: str) -> bool:
    """Whether the tools of an example are there; else a line says what has them."""
    if shutil.which(tool):
        return True
    print(f"edge/check: an example isn't tried: that needs {tool}, of Debian's {package}", flush=True)
    return False


IN_PYTHON = (sys.executable, os.path.join(EXAMPLES, "member.py"), "{port}", "{name}")


def test_example_in_python() -> None:
    plays(IN_PYTHON)


def test_interrupted_example() -> None:
    """Ctrl-C lets the one in Python log out, and ends it at once where it isn't let in."""
    _, edge, port = pair(2)
    one = Example(IN_PYTHON, port)
    one.hears(_35="8", _150="0")
    one.process.send_signal(signal.SIGINT)
    expect(one.process.wait(PATIENCE), 0)
    await_that("its Logout", lambda: f"|35=5|34=4|49={NAME}|" in " ".join(logged(MEMBER)))
    edge.stop()
    with socket.create_server(("127.0.0.1", port + MEMBER - 1)) as deaf:
        other = Example(IN_PYTHON, port)
        with deaf.accept()[0] as it:
            expect(b"35=A" in it.recv(1000), True)
            other.process.send_signal(signal.SIGINT)
            expect(other.process.wait(PATIENCE), 1)


def test_example_in_java() -> None:
    if needs("javac", "default-jdk-headless"):
        subprocess.run(["javac", "-d", "classes", os.path.join(EXAMPLES, "Member.java")], check=True)
        plays(["java", "-cp", "classes", "Member", "{port}", "{name}"])


def test_example_in_go() -> None:
    if needs("go", "golang-go"):
        subprocess.run(["go", "build", "-o", "member", os.path.join(EXAMPLES, "member.go")], check=True,
                       env={**os.environ, "GOFLAGS": "-mod=mod", "GOCACHE": os.path.abspath("cache"), "GO111MODULE": "off"})
        plays(["./member", "{port}", "{name}"])


def test_example_on_quickfix() -> None:
    """The one on QuickFIX takes each answer by the library's own dictionary."""
    subprocess.run(["c++", "-std=c++14", "-O0", "-Wall", "-Wextra", "-Wno-deprecated", "-o", QUICKFIX,
                    os.path.join(EXAMPLES, "member.cpp"), "-lquickfix", "-lpthread"], check=True)
    plays([QUICKFIX, "{port}", STOCK, "{name}"])
    kinds = {value(line, "35") for line in logged(MEMBER) if f"|56={NAME}|" in line}
    if lacking := {"8", "W", "X", "f", "y", "AQ", "AE"} - kinds:
        raise Trouble(f"the example was told no {lacking}")


TESTS = [test_example_in_python, test_interrupted_example, test_example_in_java, test_example_in_go, test_example_on_quickfix]
