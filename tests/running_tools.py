"""`gikvand follow` and `gikvand board` as programs of their own, for tests that let them run. Not a test: tests import it."""
import contextlib
import os
import select
import signal
import socket
import subprocess
import sys
from collections.abc import Iterator
from typing import TypeVar

from gikvand.words import sure
from made_journals import TOOLS, contents, untimed
from venues import HOST, PATIENCE, TRIES, Lines, Trouble, await_that, free_port, running

T = TypeVar("T", bound="Tool")


@contextlib.contextmanager
def kept_ports(count: int) -> Iterator[int]:
    """The first of so many ports that other tests find in use meanwhile. A program may listen there still, as it shares its address."""
    for _ in range(TRIES):
        with contextlib.ExitStack() as left:
            first = free_port(count)
            try:
                for port in range(first, first + count):
                    it = left.enter_context(socket.socket())
                    it.setsockopt(socket.SOL_SOCKET, socket.SO_REUSEADDR, 1)
                    it.bind((HOST, port))
            except OSError:
                continue
            yield first
            return
    raise Trouble(f"in {TRIES} tries no {count} ports stayed free")


class Tool:
    """A command of gikvand as a program of its own. It ends with the test, however that ends."""

    def __init__(self, *command: str, is_apart: bool = False, **settings: str) -> None:
        self.process = subprocess.Popen([sys.executable, *command], stdout=subprocess.PIPE, stderr=subprocess.PIPE, text=True,
                                        start_new_session=is_apart, env={**os.environ, "PYTHONPATH": TOOLS, **settings})
        running.append(self)

    def kill(self) -> None:
        self.process.kill()
        self.process.wait()

    def has_begun(self: T) -> T:
        """Waits for its first line."""
        if not select.select([self.process.stdout], [], [], PATIENCE)[0]:
            raise Trouble(f"its first line: not within {PATIENCE} seconds")
        if not sure(self.process.stdout).readline():
            raise Trouble(f"it ended: {self.process.communicate()[1]}")
        return self


class Follower(Tool):
    """`gikvand follow`, with Python's own library alone, and in a session of its own, as a service has: else it would share its
    turns at the processor with the venue."""

    def __init__(self, *words: str) -> None:
        super().__init__("-S", "-m", "gikvand", "follow", *words, is_apart=True)

    has_caught_up = Tool.has_begun

    def end(self, number: int) -> tuple[int, str, str]:
        """Its status, its last line and what it said on standard error, where it gets this signal."""
        self.process.send_signal(number)
        out, err = self.process.communicate(timeout=PATIENCE)
        return self.process.returncode, (list(map(untimed, out.splitlines())) or [""])[-1], err


def await_copy(path: str, size: int) -> None:
    await_that("the copy is there",
               lambda: os.path.exists(path) and os.path.getsize(path) >= size and contents(path)[size - 1:] == b"\0")


class Running(Tool):
    """`gikvand board`, whose lines are read as they come."""

    def __init__(self, *words: str, **settings: str) -> None:
        super().__init__("-m", "gikvand", "board", *words, is_apart=False, **settings)
        self.out, self.err = Lines(sure(self.process.stdout)), Lines(sure(self.process.stderr))

    def address(self) -> str:
        """The address that its first line says."""
        line = self.out.next()
        if not line:
            raise Trouble(f"the board ended: {self.err.next()}")
        return line.split()[0]

    def end(self, number: int = signal.SIGTERM) -> tuple[int, str | None]:
        """Its status and what it said on standard error, where it gets this signal."""
        self.process.send_signal(number)
        return self.process.wait(PATIENCE), self.err.next()
