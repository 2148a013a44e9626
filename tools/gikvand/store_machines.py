"""The machines on which `gikvand store-contract` tries a store: what runs there, by ssh, and what is done to them."""
import contextlib
import json
import os
import queue
import shlex
import subprocess
import threading
import time
from collections.abc import Callable
from typing import Any

from gikvand import programs
from gikvand.words import Trouble, sure

HAND = os.path.join(os.path.dirname(os.path.abspath(__file__)), "store_hand.py")
STEP = os.path.join(programs.ROOT, "standby" if programs.IS_INSTALLED else "contrib/standby", "before-start")
LENGTH = 8       # Digits of the length of the program, which goes there first.
BOOT = f"import os; r = lambda n: (lambda p: p + r(n - len(p)))(os.read(0, n)) if n else b''; exec(r(int(r({LENGTH}))))"
LONGEST = 60     # Seconds for an answer,
TO_BOOT = 600    # for a machine that was started,
A_TRY = 10       # for a try to reach it,
TO_END = 2       # and for its end.
A_PAUSE = 0.2    # Seconds between two tries.
SAID = 500       # So many last bytes of what it says on standard error are kept.

Call = list[Any]


class Silent(Trouble):
    """A machine that gives no answer in time, or whose connection has ended."""


class Refused(Trouble):
    """A call at the store that was refused."""


def text_of(path: str) -> str:
    with open(path, encoding="utf-8") as file:
        return file.read()


class Hand:
    """A process on a machine that does what it is asked at a file of the store."""

    def __init__(self, machine: "Machine") -> None:
        self.machine = machine
        pipe, program = subprocess.PIPE, text_of(HAND).encode()
        self.process = subprocess.Popen([*machine.words, f"exec python3 -IS -c {shlex.quote(BOOT)}"], stdin=pipe, stdout=pipe,
                                        stderr=subprocess.DEVNULL, start_new_session=True)
        self.lines: queue.Queue[dict[str, Any] | None] = queue.Queue()
        self.got: dict[int, bytes] = {}
        self.count = self.number = 0
        threading.Thread(target=self.read, daemon=True).start()
        try:
            self.write(b"%0*d" % (LENGTH, len(program)) + program)
            self.pid = self.next(A_TRY)["pid"]
        except Silent:
            self.close()
            raise

    def read(self) -> None:
        """Takes its lines. Those of a call that goes on are put aside."""
        with sure(self.process.stdout) as pipe:
            for line in pipe:
                said = json.loads(line)
                if "got" in said:
                    self.got[said["member"]] = self.got.get(said["member"], b"") + bytes.fromhex(said["got"])
                elif "count" in said:
                    self.count = said["count"]
                else:
                    self.lines.put(said)
        self.lines.put(None)
        self.process.wait()  # (at once: a machine of namespaces dies once all of its processes are taken in)

    def write(self, data: bytes) -> None:
        try:
            pipe = sure(self.process.stdin)
            pipe.write(data)
            pipe.flush()
        except OSError:
            raise Silent(f"{self.machine.name} has ended its connection") from None

    def next(self, seconds: float) -> dict[str, Any]:
        """Its next answer, within this time."""
        try:
            said = self.lines.get(timeout=seconds)
        except queue.Empty:
            raise Silent(f"{self.machine.name} gives no answer within {seconds:.0f} seconds") from None
        if said is None:
            self.lines.put(None)
            raise Silent(f"{self.machine.name} has ended its connection")
        return said

    def begin(self, *calls: Call) -> None:
        """Asks for these calls. The answer is taken later."""
        self.number += 1
        self.write(json.dumps([self.number, calls]).encode() + b"\n")

    def end(self, seconds: float = LONGEST) -> list[Any]:
        """What the calls have found that were asked for last. Stops where one was refused. Answers that came late are passed over."""
        while (said := self.next(seconds))["number"] != self.number:
            pass
        if said["error"]:
            raise Refused(f"the store refuses a call of {self.machine.name}: {said['why']}")
        return said["found"]

    def interrupt(self) -> None:
        """Ends a call that goes on."""
        self.write(b"\n")

    def ask(self, *calls: Call, seconds: float = LONGEST) -> list[Any]:
        self.begin(*calls)
        return self.end(seconds)

    def close(self) -> None:
        """Ends it, by the end of its input, and what has run it where that isn't enough."""
        with contextlib.suppress(OSError):
            sure(self.process.stdin).close()
        with contextlib.suppress(subprocess.TimeoutExpired):
            self.process.wait(TO_END)
        self.process.kill()
        self.process.wait()


class Machine:
    """One of the operator's machines: the words that run a program there, and its name, the last one of them, without a path."""

    def __init__(self, words: str) -> None:
        self.words = shlex.split(words)
        self.name = os.path.basename(self.words[-1])
        self.hands: list[Hand] = []

    def hand(self) -> Hand:
        """One more process there."""
        self.hands.append(Hand(self))
        return self.hands[-1]

    def hand_once_it_is_there(self) -> Hand:
        """The same on a machine that boots, or is joined again."""
        end = time.monotonic() + TO_BOOT
        while True:
            try:
                return self.hand()
            except Silent:
                if time.monotonic() > end:
                    raise
                time.sleep(A_PAUSE)

    def close(self) -> None:
        for it in self.hands:
            it.close()
        self.hands = []

    def does(self, command: str) -> None:
        """Runs a command of the operator's, with the last word of this machine's in the place of NAME."""
        words = [it.replace("NAME", self.words[-1]) for it in shlex.split(command)]
        try:
            ran = subprocess.run(words, stdin=subprocess.DEVNULL, stdout=subprocess.PIPE, stderr=subprocess.STDOUT)
        except OSError as why:
            raise Trouble(f"a command ended badly: {shlex.join(words)}: {why.strerror}") from None
        if ran.returncode:
            said = ran.stdout[-SAID:].decode("utf-8", "replace").strip()
            raise Trouble(f"a command ended badly: {shlex.join(words)}: status {ran.returncode}: {said}")


def until(seconds: float, holds: Callable[[], bool]) -> float | None:
    """How long it took until something held, or None where it didn't within this time."""
    began = time.monotonic()
    while not holds():
        if time.monotonic() - began > seconds:
            return None
        time.sleep(A_PAUSE)
    return time.monotonic() - began
