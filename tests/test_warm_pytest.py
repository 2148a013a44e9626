"""Tests of tests/warm_pytest.py: that a run which ends says its status and its words, that one which doesn't end has an end, also the
next one by the same process, and that a process which doesn't answer is no wait without one.

WARM_PYTEST in the environment names another tests/warm_pytest.py: tests/known_bad.py puts wrong ones there.
"""
import os
import signal
import sys
import threading
from collections.abc import Callable, Iterator

import pytest

from checks import ROOT, put_text
from script_modules import loaded
from venues import PATIENCE, await_that

pytestmark = pytest.mark.quick

warm = loaded(os.environ.get("WARM_PYTEST", os.path.join(ROOT, "tests/warm_pytest.py")))
LONGEST = 64.0  # Seconds for a run to come to where it hangs, on a machine that is busy.
MODULE = """
import os, signal, subprocess, time

def left():
    with open("own", "w") as file:
        file.write(str(os.getpid()))
    child = subprocess.Popen(["sleep", "600"])
    with open("left.new", "w") as file:
        file.write(str(child.pid))
    os.rename("left.new", "left")

def test_that_passes(): print("one word")
def test_that_fails(): assert 1 == 2
def test_that_says_it(): assert os.environ["SAYS"] == "it" and os.path.exists("test_made.py")
def test_that_leaves_a_child(): left()
def test_that_hangs():
    left()
    time.sleep(600)
def test_that_stops():
    left()
    os.kill(os.getpid(), signal.SIGSTOP)
"""

Ran = Callable[..., tuple[int | None, str]]


@pytest.fixture
def server() -> Iterator[Ran]:
    """Runs a test of the module by one process: ran(TEST, SECONDS)."""
    put_text("test_made.py", MODULE)
    one = warm.WarmPytest(sys.executable)

    def ran(test: str, seconds: float = LONGEST) -> tuple[int | None, str]:
        words = ["-q", "-s", "-p", "no:cacheprovider", "-o", f"faulthandler_timeout={seconds / 2}", f"test_made.py::test_that_{test}"]
        return one.ran(words, {**os.environ, "SAYS": "it"}, seconds)
    yield ran
    if one.is_there:
        one.end()


def is_gone(pid: int) -> bool:
    """Whether a process has ended, also where nobody has waited for it yet."""
    try:
        with open(f"/proc/{pid}/stat", encoding="ascii") as file:
            return file.read().rpartition(")")[2].split()[0] == "Z"
    except (FileNotFoundError, ProcessLookupError):
        return True


def number_in(path: str) -> int:
    with open(path, encoding="ascii") as file:
        return int(file.read())


def expect_that_child_is_gone() -> None:
    await_that("the child is gone", lambda: is_gone(number_in("left")))
    os.remove("left")


def hung(server: Ran, test: str, word: str = "") -> None:
    """A run hangs, and says this word. It gets more seconds where the machine doesn't let it get there."""
    seconds = 1.0
    while True:
        status, said = server(test, seconds)
        assert (status, "the process that plays" in said) == (None, False), said
        has_hung = os.path.exists("left")
        if has_hung:
            expect_that_child_is_gone()
        if has_hung and word in said:
            return
        assert seconds <= LONGEST, said
        seconds *= 4


def test_runs_that_end(server: Ran) -> None:
    """One behind the other, each with its status, its words, its environment and its folder."""
    for test, status, word in (("passes", 0, "one word"), ("fails", 1, "assert 1 == 2"), ("says_it", 0, "1 passed"), ("isn't", 4, "not found"),
                               ("passes", 0, "one word")):
        came, said = server(test)
        assert (test, came, word in said) == (test, status, True), said


def test_a_child_that_is_left(server: Ran) -> None:
    """What a run that ends has left behind it is ended."""
    assert server("leaves_a_child")[0] == 0
    expect_that_child_is_gone()


def test_a_run_that_hangs(server: Ran, monkeypatch: pytest.MonkeyPatch) -> None:
    """It says where it is, and is ended with its children: the second time as well, and what comes behind it ends as it does by itself."""
    monkeypatch.setattr(warm, "A_START", PATIENCE)
    for _ in range(2):
        hung(server, "hangs", "in test_that_hangs")
    assert server("passes")[0] == 0


def test_a_run_that_stops(server: Ran, monkeypatch: pytest.MonkeyPatch) -> None:
    monkeypatch.setattr(warm, "A_START", PATIENCE)
    for _ in range(2):
        hung(server, "stops")
    assert server("passes")[0] == 0


def test_a_run_without_its_process() -> None:
    """A run doesn't outlive the process that plays it."""
    put_text("test_made.py", MODULE)
    one = warm.WarmPytest(sys.executable)
    thread = threading.Thread(target=one.ran, args=(["-q", "-p", "no:cacheprovider", "test_made.py::test_that_hangs"], dict(os.environ), LONGEST))
    thread.start()
    try:
        await_that("the run hangs", lambda: os.path.exists("left"))
        one.process.kill()
        await_that("the run has ended", lambda: is_gone(number_in("own")))
    finally:
        one.process.kill()
        thread.join(PATIENCE)
        os.kill(number_in("left"), signal.SIGKILL)


@pytest.mark.parametrize("does, why", (("exec sleep 600", "hasn't answered within "), ("exit 3", "has ended"), ("read it", "has ended")))
def test_no_answer(does: str, why: str, monkeypatch: pytest.MonkeyPatch) -> None:
    """A process that doesn't answer, or that ends, is told. It isn't asked again."""
    monkeypatch.setattr(warm, "A_START", PATIENCE if why == "has ended" else 0.2)
    monkeypatch.setattr(warm, "A_KILL", 2.0)
    python, runs = put_text("python", f"#!/bin/sh\n{does}\n", 0o755), warm.WarmPytests()
    for _ in range(2):
        status, said = runs.ran(python, ["-q"], {}, 0.1)
        assert (status, f"the process that plays runs of pytest {why}" in said, runs.idle.empty()) == (None, True, True), said
    runs.end()
