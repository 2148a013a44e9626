"""pytest that has been read before, and is forked for each run: of many short runs each would take half a second of a processor to read it.
Not a test: tests/known_bad.py imports this, and starts it with the Python that has pytest. A run has an environment of its own, and finds
no module of the project that was read before."""
import contextlib
import ctypes
import gc
import importlib
import io
import json
import os
import queue
import select
import signal
import subprocess
import sys
import tempfile
from typing import NoReturn

PR_SET_PDEATHSIG = 1
A_KILL = 10.0  # Seconds for what was killed to end,
A_START = 120.0  # and for a server to read pytest, and to answer.
# What runs read of Python's own modules, but for what pytest does.
READ_BEFORE = ("concurrent.futures", "faulthandler", "http.server", "pdb", "pty", "secrets", "sqlite3", "ssl", "statistics", "tomllib",
               "unittest.mock", "urllib.request", "xml.sax.saxutils")


class WarmPytest:
    """A process that has read pytest, and plays one run at a time, as long as it is there."""

    def __init__(self, python: str) -> None:
        self.is_there = True
        self.process = subprocess.Popen([python, os.path.abspath(__file__)], stdin=subprocess.PIPE, stdout=subprocess.PIPE, text=True)

    def ran(self, words: list[str], environment: dict[str, str], seconds: float) -> tuple[int | None, str]:
        """Runs pytest with these words and this environment: its status, None where so many seconds weren't enough, and what it said. Where
        the process doesn't answer it is ended, and a line says so."""
        with tempfile.NamedTemporaryFile("r", prefix="said-", errors="replace") as said:
            assert self.process.stdin and self.process.stdout
            with contextlib.suppress(BrokenPipeError):
                self.process.stdin.write(json.dumps([words, environment, said.name, os.getcwd(), seconds]) + "\n")
                self.process.stdin.flush()
            longest = seconds + A_KILL + A_START
            has_answered = bool(select.select([self.process.stdout], [], [], longest)[0])
            if has_answered and (answer := self.process.stdout.readline()):
                return json.loads(answer), said.read()
            why = "has ended" if has_answered else f"hasn't answered within {longest:g} seconds"
            self.end(0)
            return None, f"{said.read()}\nthe process that plays runs of pytest {why}\n"

    def end(self, patience: float = A_KILL) -> None:
        """Ends the process, which nobody waits for any longer than so. What its runs took of a processor is then counted as its parent's."""
        assert self.process.stdin and self.process.stdout
        self.is_there = False
        with contextlib.suppress(BrokenPipeError):
            self.process.stdin.close()
        with contextlib.suppress(subprocess.TimeoutExpired):
            self.process.wait(patience)
        self.process.kill()
        self.process.wait(A_KILL)
        self.process.stdout.close()


class WarmPytests:
    """As many of these as runs are side by side."""

    def __init__(self) -> None:
        self.idle: queue.SimpleQueue[WarmPytest] = queue.SimpleQueue()

    def ran(self, python: str, words: list[str], environment: dict[str, str], seconds: float) -> tuple[int | None, str]:
        """The same by one that has nothing to do."""
        try:
            one = self.idle.get_nowait()
        except queue.Empty:
            one = WarmPytest(python)
        came = one.ran(words, environment, seconds)
        if one.is_there:
            self.idle.put(one)
        return came

    def end(self) -> None:
        """Ends all of them, once no run is under way."""
        while not self.idle.empty():
            self.idle.get().end()


def run(words: list[str], environment: dict[str, str], said: str, folder: str) -> NoReturn:
    """Becomes a run of pytest, in a session of its own. It ends where the server does."""
    os.setsid()
    ctypes.CDLL(None).prctl(PR_SET_PDEATHSIG, signal.SIGKILL)
    os.dup2(os.open(os.devnull, os.O_RDONLY), 0)
    file = os.open(said, os.O_WRONLY | os.O_APPEND)
    for number in (1, 2):
        os.dup2(file, number)
    os.environ.clear()
    os.environ.update(environment)
    os.chdir(folder)
    sys.argv, sys.path[0] = ["pytest", *words], ""  # (as `python -m pytest` has them)
    sys.dont_write_bytecode = bool(environment.get("PYTHONDONTWRITEBYTECODE"))  # (as Python does at its start)
    status = 1
    try:
        status = int(pytest.main(words))
    finally:
        sys.stdout.flush()
        sys.stderr.flush()
        os._exit(status)


def status_within(child: int, seconds: float) -> int | None:
    """The status of a child that ends within so many seconds. None for one that doesn't: it is killed, and is left where even that doesn't
    end it, as one that waits for a file system. What it has left of its session is killed too."""
    ends = os.pidfd_open(child)
    try:
        has_ended = bool(select.select([ends], [], [], seconds)[0])
        for kill in (os.kill, os.killpg):  # (while its number is its own; it may have no session yet)
            with contextlib.suppress(ProcessLookupError):
                kill(child, signal.SIGKILL)
        status = os.waitpid(child, 0)[1] if has_ended or select.select([ends], [], [], A_KILL)[0] else 0
        return os.waitstatus_to_exitcode(status) if has_ended else None
    finally:
        os.close(ends)


def serve() -> None:
    """Plays each run that a line of standard input asks for, and answers with its status."""
    with contextlib.redirect_stdout(io.StringIO()):
        pytest.main(["--noconftest", "-c", os.devnull, "--version"])  # (which reads what else a run reads)
    for name in READ_BEFORE:
        with contextlib.suppress(ImportError):  # (not every Python has all of them)
            importlib.import_module(name)
    gc.freeze()  # (so that no run touches, and so copies, what all of them share)
    for line in sys.stdin:
        words, environment, said, folder, seconds = json.loads(line)
        if not (child := os.fork()):
            run(words, environment, said, folder)
        print(json.dumps(status_within(child, seconds)), flush=True)


if __name__ == "__main__":
    import pytest
    serve()
