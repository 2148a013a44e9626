"""`gikvand store-contract` on the machines of dev/failover-drill: it tells the store that has all its settings from one that
lacks one of them. Not a script."""
import contextlib
import os
import subprocess
import sys
import threading
from collections.abc import Callable, Iterator

from drill import Drill
from drill_machines import HOME, SHARED, Machine, children, die_with_us
from gikvand.programs import ROOT, VENUED
from venues import Trouble

GIKVAND = os.path.join(ROOT, "scripts/gikvand")
LONGEST = 900  # Seconds for all of it.
A_LOOK = 0.05  # Seconds between two looks for what is asked.
STAY = "5"

# A machine, by its number, and what asks this process for what happens to one, and waits until that is done.
MACHINE = """#!/bin/sh
PATH={programs}:$PATH
exec nsenter -t "$(cat {home}/init.$(basename "$0"))" -m -n -p -u -i sh -c "$1"
"""
HAPPENS = """#!/bin/sh
asked="{home}/asked.{what}.$(basename "$1")"
rm -f "$asked.fault"
: >"$asked"
while [ -e "$asked" ]; do sleep 0.05; done
[ ! -e "$asked.fault" ] || {{ cat "$asked.fault"; exit 1; }}
"""


def put(name: str, text: str) -> None:
    """A program in the drill's folder."""
    path = os.path.join(HOME, name)
    with open(path, "w", encoding="utf-8") as file:
        file.write(text)
    os.chmod(path, 0o755)


def note_first_process(machine: Machine) -> None:
    with open(f"{HOME}/init.machine{machine.number}", "w", encoding="ascii") as file:
        file.write(f"{machine.init}")


def is_left(pid: int) -> bool:
    """Whether a child of ours has ended that ran on a machine, and that we haven't begun: its parent is gone. It has a number there too.
    Those that we have begun have one here alone, and are waited for by who began them."""
    with contextlib.suppress(OSError), open(f"/proc/{pid}/status", encoding="utf-8", errors="replace") as file:
        told = dict(line.split(":", 1) for line in file)
        return told["State"].split()[0] == "Z" and len(told["NSpid"].split()) > 1
    return False


@contextlib.contextmanager
def happening(drill: Drill) -> Iterator[None]:
    """Within this, what is asked for happens to the machines."""
    def start(machine: Machine) -> None:
        drill.store.come_back(machine)
        note_first_process(machine)

    does: dict[str, Callable[[Machine], None]] = {"cut": Machine.cut, "join": Machine.join, "kill": Machine.die, "start": start}
    is_over = threading.Event()

    def look() -> None:
        while not is_over.wait(A_LOOK):
            for what, do in does.items():
                for it in drill.machines:
                    asked = f"{HOME}/asked.{what}.machine{it.number}"
                    if os.path.exists(asked):
                        try:
                            do(it)
                        except Exception as why:  # Else the command would wait for it without a bound.
                            put(f"{os.path.basename(asked)}.fault", f"{why}")
                        os.remove(asked)

    def take_in() -> None:
        """Takes in what a machine's processes left to us, so that the machine may end."""
        while not is_over.wait(A_LOOK):
            for pid in filter(is_left, children(os.getpid())):
                os.waitpid(pid, os.WNOHANG)

    for what in does:
        put(what, HAPPENS.format(home=HOME, what=what))
    for it in drill.machines:
        put(f"machine{it.number}", MACHINE.format(home=HOME, programs=os.path.dirname(VENUED)))
        note_first_process(it)
    threads = [threading.Thread(target=it, daemon=True) for it in (look, take_in)]
    for thread in threads:
        thread.start()
    try:
        yield
    finally:
        is_over.set()
        for thread in threads:
            thread.join()


def contract(drill: Drill, machine: Machine) -> str:
    """All properties of the contract, with this machine as the one that is cut off and loses its power."""
    others = [it for it in drill.machines if it is not machine]
    words = [word for it in (machine, *others) for word in ("--machine", f"{HOME}/machine{it.number}")]
    words += [word for it in ("cut", "join", "kill", "start") for word in (f"--{it}", f"{HOME}/{it} NAME")]
    with happening(drill):
        try:
            it = subprocess.run([sys.executable, GIKVAND, "store-contract", *words, "--folder", f"{SHARED}/contract", "--stay", STAY],
                                capture_output=True, text=True, timeout=LONGEST, preexec_fn=die_with_us)
        except subprocess.TimeoutExpired as late:
            raise Trouble(f"store-contract takes more than {LONGEST} seconds; it said {late.stdout!r}") from None
    lines = it.stdout.splitlines()
    failed = [line for line in lines if " fail: " in line]
    wrong = [line for line in failed if not line.startswith(drill.store.BY_WATCH)] + it.stderr.splitlines()
    if it.returncode != bool(failed) or wrong:
        raise Trouble("; ".join(" ".join(line.split()) for line in wrong) or f"store-contract ended with {it.returncode}, and said {lines}")
    drill.store.await_whole()
    for line in lines:
        print(f"    {line}", flush=True)
    return lines[-1]
