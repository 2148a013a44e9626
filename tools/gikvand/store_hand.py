"""What `gikvand store-contract` runs on each machine: it does at a file of the store what it is asked, and answers. It needs nothing
but Python 3, by its text alone.

A request is a line of JSON: its number, and a list of calls, each its name and its words. The answer is one too: the same number,
what each call found, and the number of the system's error that has ended them, or 0. A call that goes on sends lines of its own
before that.
"""
from __future__ import annotations  # (the Python of a machine of the store may be an older one)

import contextlib
import errno
import fcntl
import json
import os
import select
import signal
import socket
import subprocess
import sys
import threading
import time
from typing import NoReturn

RECORD = 8           # Bytes of a record, as "a000017\n": who has written it, and its number.
MOST = 100_000       # Records, at most.
A_KILL = 2           # Seconds within which a process that is killed has to go.
A_LOOK = 0.02        # Seconds between two looks for that, and between two tries to take a lock
A_WAIT = 30          # that is let go of, within so many.
A_PAUSE = 0.002      # Seconds between two records.
WINDOW = 1 << 20     # So many bytes of a member's answers are read at once, at most.
TIME = "20250102-09:30:00"

lines = threading.Lock()


def say(what: object) -> None:
    with lines:
        sys.stdout.write(json.dumps(what) + "\n")
        sys.stdout.flush()


def contents(fd: int) -> str:
    """All bytes of a file, as text of their numbers."""
    found = b""
    while piece := os.pread(fd, 1 << 16, len(found)):
        found += piece
    return found.hex()


def has_gone(pid: int) -> bool:
    """Whether a child that was killed goes in time."""
    end = time.monotonic() + A_KILL
    while time.monotonic() < end:
        if os.waitpid(pid, os.WNOHANG)[0]:
            return True
        time.sleep(A_LOOK)
    return False


def framed(member: int, number: int, kind: str, body: str) -> bytes:
    """A message of FIX of this member."""
    fields = f"35={kind}|49=C{member}|56=VENUE|34={number}|52={TIME}|{body}".replace("|", "\x01").encode()
    whole = b"8=FIX.4.4\x019=%d\x01" % len(fields) + fields
    return whole + b"10=%03d\x01" % (sum(whole) % 256)


def order(name: int) -> str:
    return f"11={name}|55=ABC|54={1 + name % 2}|60={TIME}|38={1 + name % 7}|40=2|44={49 + name % 3}|"


class Member(threading.Thread):
    """A member that trades, one order behind the other's answer, until it is asked to cease or the venue is gone."""

    def __init__(self, port: int, member: int, first: int) -> None:
        super().__init__(daemon=True)
        self.port, self.member, self.next, self.number, self.ceases = port, member, first, 1, False

    def run(self) -> None:
        try:
            with socket.create_connection(("127.0.0.1", self.port + self.member - 1)) as ends:
                self.ask(ends, "A", "98=0|108=0|141=Y|", b"\x0135=A\x01")
                while not self.ceases:
                    self.ask(ends, "D", order(self.next), b"\x0111=%d\x01" % self.next)
                    self.next += 1
        except OSError:
            pass  # The venue is gone.

    def ask(self, ends: socket.socket, kind: str, body: str, wanted: bytes) -> None:
        """Sends a message, and passes on what comes until this is in it."""
        ends.sendall(framed(self.member, self.number, kind, body))
        self.number += 1
        got = b""
        while wanted not in got:
            piece = ends.recv(WINDOW)
            if not piece:
                raise OSError("the venue has ended")
            got += piece
            say({"member": self.member, "got": piece.hex()})


class Hand:
    """An open file, and what can be done at files."""

    def __init__(self) -> None:
        self.fd, self.step_text = -1, ""
        self.venue: subprocess.Popen[bytes] | None = None
        self.members: list[Member] = []

    def open(self, name: str) -> None:
        self.fd = os.open(name, os.O_RDWR | os.O_CREAT, 0o600)

    def take(self, name: str) -> bool:
        """Opens a file and locks it, where nobody else has the lock: whether that was so."""
        self.open(name)
        try:
            fcntl.flock(self.fd, fcntl.LOCK_EX | fcntl.LOCK_NB)
        except (BlockingIOError, PermissionError):
            self.close()
            return False
        return True

    def get(self, name: str) -> None:
        """Takes a lock that is let go of just now: some stores tell of that a moment later."""
        end = time.monotonic() + A_WAIT
        while not self.take(name):
            if time.monotonic() > end:
                raise OSError(errno.ETIMEDOUT, "nobody has the lock, and it can't be had")
            time.sleep(A_LOOK)

    def close(self) -> None:
        fd, self.fd = self.fd, -1
        os.close(fd)

    def read(self) -> str:
        return contents(self.fd)

    def look(self, name: str) -> str:
        """What stands in a file, as to somebody who looks at it without its lock."""
        fd = os.open(name, os.O_RDONLY)
        try:
            return contents(fd)
        finally:
            os.close(fd)

    def put(self, at: int, text: str) -> None:
        """Writes this, and waits for the device."""
        os.pwrite(self.fd, text.encode(), at)
        os.fsync(self.fd)

    def pairs(self, count: int) -> list[float]:
        """How long two writes with their syncs take, so often."""
        took = []
        for _ in range(count):
            began = time.monotonic()
            for at in (0, RECORD):
                self.put(at, "x")
            took.append(time.monotonic() - began)
        return took

    def write_on(self, who: str, first: int, within: float) -> dict[str, object]:
        """Writes record behind record, each with a sync, and says how many there are: until one is refused, a line comes, or none was
        done for so many seconds. Then what writes is killed. How it ended: by an error's number or "", how long behind the last one
        that was done, whether the writer has gone in time, and whether it wrote on until a line came."""
        take, give = os.pipe()
        pid = os.fork()
        if not pid:
            os.close(take)
            self.write_records(give, who, first)
        os.close(give)
        count, said, last = first, "", time.monotonic()
        while not said and (came := select.select([take, 0], [], [], max(0, last + within - time.monotonic()))[0]) == [take]:
            said = os.read(take, 1 << 16).decode()
            if done := said.count("."):
                count, last, said = count + done, time.monotonic(), said.strip(".")
                say({"count": count})
        os.kill(pid, signal.SIGKILL)
        return {"count": count, "said": said, "took": time.monotonic() - last, "has_gone": has_gone(pid), "was_asked": 0 in came}

    def write_records(self, give: int, who: str, first: int) -> NoReturn:
        """What writes, as a process of its own: never returns."""
        said = "!"
        try:
            for number in range(first, MOST):
                self.put(number * RECORD, f"{who}{number:06}\n")
                os.write(give, b".")
                time.sleep(A_PAUSE)
        except OSError as why:
            said = f"{why.errno}"
        finally:
            with contextlib.suppress(OSError):  # Who has begun it may be gone.
                os.write(give, said.encode())
            os._exit(0)

    def learn(self, text: str) -> None:
        """The text of the step before each start."""
        self.step_text = text

    def step(self, name: str) -> tuple[int, str]:
        """Does that step: its status, and what it says."""
        it = subprocess.run([sys.executable, "-IS", "-c", self.step_text, name], stdin=subprocess.DEVNULL,
                            stdout=subprocess.PIPE, stderr=subprocess.STDOUT)
        return it.returncode, it.stdout.decode()

    def make(self, folder: str) -> None:
        os.makedirs(folder, exist_ok=True)

    def names(self, folder: str) -> list[str]:
        return sorted(os.listdir(folder))

    def remove(self, folder: str) -> None:
        for name in os.listdir(folder):
            os.remove(os.path.join(folder, name))

    def signal(self, pid: int, number: int) -> None:
        os.kill(pid, number)

    def has_venue(self) -> bool:
        """Whether the program is there."""
        return any(os.access(os.path.join(it, "venued"), os.X_OK) for it in os.get_exec_path())

    def make_journal(self, name: str) -> int:
        return subprocess.run(["venued", "-", name, "1", "ABC"], stdin=subprocess.DEVNULL, stdout=subprocess.DEVNULL).returncode

    def serve(self, name: str, port: int) -> str:
        """Serves a journal to four members: its first line."""
        self.venue = subprocess.Popen(["venued", f"{port}", name, "4", "ABC"], stdin=subprocess.DEVNULL, stdout=subprocess.PIPE,
                                      stderr=subprocess.STDOUT)
        return self.venue.stdout.readline().decode() if self.venue.stdout else ""

    def trade(self, port: int, first: int) -> None:
        """Lets four members trade."""
        self.members = [Member(port, it, first) for it in (1, 2, 3, 4)]
        for it in self.members:
            it.start()

    def cease(self) -> None:
        """Lets them have the answers that are due, and trade no more."""
        for it in self.members:
            it.ceases = True
        for it in self.members:
            it.join()

    def end_venue(self) -> None:
        if self.venue:
            self.venue.kill()
            self.venue.wait()


def answer(hand: Hand, number: int, calls: list[list]) -> dict[str, object]:
    """Does these calls, up to one that is refused."""
    found, error, why = [], 0, ""
    try:
        for name, *words in calls:
            found.append(getattr(hand, name)(*words))
    except OSError as fault:
        error, why = fault.errno or -1, f"{name}: {fault.strerror or fault}"
    return {"number": number, "found": found, "error": error, "why": why}


def main() -> None:
    hand = Hand()
    say({"pid": os.getpid()})
    # Byte by byte, since a call that goes on looks at the descriptor itself for the next line.
    request = b""
    while byte := os.read(0, 1):
        request += byte
        if byte == b"\n":
            if request.strip():  # (a line without words ends a call that goes on)
                say(answer(hand, *json.loads(request)))
            request = b""
    hand.end_venue()


if __name__ == "__main__":
    main()
