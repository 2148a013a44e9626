"""Lets processes stand still for a while, as on a machine that is busy or out of memory. Not a script: scripts and dev import this module.

The kernel's freezer stops the processes of a cgroup without a signal, so that no process notices a stop. Root alone may make cgroups.
"""
import contextlib
import os
import random
import subprocess
import tempfile
import threading
import time
from collections.abc import Callable

FIRST, SECOND = "/sys/fs/cgroup/freezer", "/sys/fs/cgroup"  # The folders of the two versions of cgroups.
SHORTEST, LONGEST = 0.1, 5.0  # Seconds of a standstill,
PAUSE = 2.0                   # and at most so many between two.


def put(path: str, text: str) -> None:
    """Writes a word to a file of the kernel."""
    with open(path, "w", encoding="ascii") as file:
        file.write(text)


class Freezer:
    """Two cgroups: the processes of a program run in one, and the frozen processes stand in the other."""

    def __init__(self) -> None:
        self.is_first = os.path.isdir(FIRST)
        self.folder = tempfile.mkdtemp(prefix="gikvand-", dir=FIRST if self.is_first else SECOND)
        self.warm, self.cold = (os.path.join(self.folder, name) for name in ("warm", "cold"))
        for path in (self.warm, self.cold):
            os.mkdir(path)

    def enter(self) -> None:
        """Puts the calling process, and so each process that it starts from now on, into the freezer's reach."""
        put(f"{self.warm}/cgroup.procs", str(os.getpid()))

    def processes(self, folder: str) -> list[int]:
        """Returns the numbers of the processes of one of the two cgroups."""
        with open(f"{folder}/cgroup.procs", encoding="ascii") as file:
            return [int(line) for line in file]

    def freeze(self, pids: list[int], seconds: float) -> None:
        """Lets these processes stand still for so many seconds. A process that has ended meanwhile is passed over."""
        try:
            self.move(pids, self.cold)
            self.hold(True)
            time.sleep(seconds)
        finally:
            self.hold(False)
            self.move(self.processes(self.cold), self.warm)

    def move(self, pids: list[int], folder: str) -> None:
        """Moves these processes to one of the two cgroups."""
        for pid in pids:
            with contextlib.suppress(OSError):
                put(f"{folder}/cgroup.procs", str(pid))

    def hold(self, is_frozen: bool) -> None:
        """Freezes what stands in the cold cgroup, or lets it go on."""
        if self.is_first:
            put(f"{self.cold}/freezer.state", "FROZEN" if is_frozen else "THAWED")
        else:
            put(f"{self.cold}/cgroup.freeze", str(int(is_frozen)))

    def freeze_at_times(self, chance: random.Random, has_ended: Callable[[], bool]) -> int:
        """Freezes one process, or all of them, again and again until the program has ended. Returns how often."""
        count = 0
        while not has_ended():
            time.sleep(chance.uniform(0, PAUSE))
            pids = self.processes(self.warm)
            if pids and not has_ended():
                self.freeze(pids if chance.random() < 0.5 else [chance.choice(pids)], chance.uniform(SHORTEST, LONGEST))
                count += 1
        return count

    def close(self) -> None:
        """Removes both cgroups, once no process is left in them."""
        for path in (self.warm, self.cold, self.folder):
            with contextlib.suppress(OSError):
                os.rmdir(path)


def ran_frozen(words: list[str], folder: str, chance: random.Random) -> tuple[int, str, int]:
    """Runs a program in the reach of a freezer: its status, what the program said on both of its outputs, and how often something stood
    still."""
    freezer, counts = Freezer(), list[int]()
    with tempfile.TemporaryFile("w+", errors="replace") as said:
        program = subprocess.Popen(words, cwd=folder, stdin=subprocess.DEVNULL, stdout=said, stderr=subprocess.STDOUT, preexec_fn=freezer.enter)
        thread = threading.Thread(target=lambda: counts.append(freezer.freeze_at_times(chance, lambda: program.poll() is not None)))
        thread.start()
        status = program.wait()
        thread.join()
        freezer.close()
        said.seek(0)
        return status, said.read(), sum(counts)
