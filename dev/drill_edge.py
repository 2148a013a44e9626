"""Edges on the machines of dev/failover-drill, and engines that trade by them: one whose folder lies on the volume, and
one whose folder goes with its machine. Not a script."""
import contextlib
import os
import signal
import sys
import threading
import time

from drill_machines import HOME, SHARED, Machine, children, kill
from drill_store import FOLDER, JOURNAL
from drill_venue import GATEWAYS, PORT, SYMBOL
from gikvand.fix import value
from gikvand.words import sure
from gikvand.programs import ROOT
from venues import Trouble, await_that, replay

sys.path.append(os.path.join(ROOT, "edge/tests"))

from edges import EDGE, settings_of
from engines import Engine, now, order

KEPT, LOST = GATEWAYS - 1, GATEWAYS  # The member whose folder is on the volume, and the one whose folder isn't.
EDGE_PORT = 9801  # Of C1; that of Ck is k - 1 above it.
SETTINGS = f"{HOME}/edge.cfg"
BEFORE = 5000    # Messages of the session of which the drill plays the end: more than any gap by itself.
ROUNDS, AT_ONCE = 40, 10  # Trades one by one, and orders that nobody waits for.
ALL = 1000000    # A quantity above all that may rest.

# What the edge's unit asks of systemd: it is started again until it holds its folder, and ends behind a stop in order.
UNIT = """while :; do
    "$@"
    status=$?
    echo "status $status"
    [ "$status" = 0 ] && exit
    sleep 0.5
done"""


def missing() -> str | None:
    """Why no edge can be tried, or None."""
    return None if os.path.exists(EDGE) else f"it needs {os.path.relpath(EDGE)}: edge/setup"


def folder_of(member: int) -> str:
    """The folder of what is kept of a member: of the volume, or of the machine's memory."""
    return f"{SHARED if member == KEPT else '/run'}/edges/C{member}"


def write_settings() -> None:
    """Writes the settings of both members, which are the same on all machines. What is free doesn't count: CephFS tells of no free byte
    without a ceph-mgr, which the drill hasn't."""
    common = {"VenuePort": PORT, "VenueJournal": f"{SHARED}/{FOLDER}/{JOURNAL}", "Symbols": f"{SYMBOL}:0.01",
              "FileLogPath": "/run/edges/log", "EdgePath": "/run/edges", "DiskReserve": 0}
    sessions = [{"TargetCompID": comp_id(it), "Member": f"C{it}", "SocketAcceptPort": EDGE_PORT + it - 1,
                 "EdgePath": folder_of(it)} for it in (KEPT, LOST)]
    with open(SETTINGS, "w", encoding="ascii") as file:
        file.write(settings_of(common, sessions))


def comp_id(member: int) -> str:
    return f"DESK-{member}"


class EdgeUnit:
    """The edge of a member on a machine, from now on, and the lines that it prints, each with its moment."""

    def __init__(self, machine: Machine, member: int) -> None:
        self.machine, self.member, self.lines = machine, member, list[tuple[float, str]]()
        words = ["bash", "-c", UNIT, "unit", EDGE, "--member", f"C{member}", SETTINGS]
        self.process = machine.begin(*in_its_run(machine), *words)
        threading.Thread(target=self.read, daemon=True).start()

    def read(self) -> None:
        with sure(self.process.stdout) as pipe:
            for line in pipe:
                self.lines.append((time.monotonic(), line.rstrip("\n")))

    def await_line(self, text: str) -> None:
        await_that(f"the edge of C{self.member} on {self.machine.name} says '{text}'",
                   lambda: any(text in line for _, line in self.lines))

    def stop(self) -> None:
        """Stops the edge in order."""
        for shell in children(self.process.pid):
            for it in children(shell):
                os.kill(it, signal.SIGTERM)
        await_that(f"the edge of C{self.member} ends", lambda: self.process.poll() is not None)
        if status := self.process.poll():
            raise Trouble(f"the edge of C{self.member} ended with {status}: {[line for _, line in self.lines[-3:]]}")

    def end(self) -> None:
        """Kills it: nothing starts again here."""
        for shell in children(self.process.pid):
            its = children(shell)
            kill(shell)
            for it in its:
                kill(it)
        self.process.wait()


def in_its_run(machine: Machine) -> list[str]:
    """The words before a program that say which run of its machine this is: all machines here have one kernel."""
    return ["env", f"GIKVAND_BOOT=run{machine.init}of{machine.number}"]


def set_numbers(machine: Machine, engine: Engine) -> None:
    """Lets the session of an engine go on with the numbers that the engine has, as an operator does."""
    numbers = [f"C{engine.member}", str(engine.next), str(engine.out)]
    machine.do(*in_its_run(machine), EDGE, "numbers", *numbers, SETTINGS)


def places(lines: list[str]) -> list[int]:
    """The ExecIDs of reports of the venue."""
    return [int(place) for it in lines if (place := value(it, "17") or "").isdecimal()]


class Desks:
    """The engines of both members, and their edges on the machine where the venue is."""

    def __init__(self, machine: Machine, machines: list[Machine]) -> None:
        write_settings()
        for it in machines:
            it.do("rm", "-rf", *map(folder_of, (KEPT, LOST)))
        self.engines = {it: Engine(EDGE_PORT, it, sender=comp_id(it)) for it in (KEPT, LOST)}
        self.since = dict.fromkeys(self.engines, 0)  # What of their histories the edges have to tell.
        self.count = 0
        for engine in self.engines.values():
            engine.next = engine.out = BEFORE
        self.start(machine, True)

    def start(self, machine: Machine, sets: bool) -> None:
        """Starts the edges on a machine. What is lost there goes on with the engines' numbers, where these are set."""
        self.machine = machine
        for member, engine in self.engines.items():
            engine.close()
            is_lost = not os.path.exists(machine.path(f"{folder_of(member)}/C{member}.db"))
            if is_lost and sets:
                set_numbers(machine, engine)
            if is_lost:
                self.since[member] = len(engine.history)
        self.units = {it: EdgeUnit(machine, it) for it in self.engines}
        for member, unit in self.units.items():
            unit.await_line(f"C{member}: serves, behind report")

    def log_on(self) -> None:
        """Both members log on, and get what they missed."""
        for engine in self.engines.values():
            with self.machine.network():
                engine.log_on()
            engine.settle()

    def make_room(self) -> None:
        """Takes all that rests: behind some fifty cases the book is full, and no order would rest any more."""
        kept = self.engines[KEPT]
        for side in (1, 2):
            kept.send("D", f"11=room-{side}|21=1|38={ALL}|40=1|54={side}|55={SYMBOL}|60={now()}|")
            kept.report(_150="4", _11=f"room-{side}")

    def trade(self) -> None:
        """One of both buys from the other, again and again, and each is told."""
        kept, lost = self.engines.values()
        for _ in range(ROUNDS):
            self.count += 1
            for engine, side in ((kept, 1), (lost, 2)):
                engine.send("D", order(f"{side}-{self.count}", side, 1, "50", SYMBOL))
                engine.report(_150="0", _11=f"{side}-{self.count}")
            for engine in (kept, lost):
                engine.report(_150="F")

    def leave(self) -> None:
        """The one whose folder stays is away while its order trades, and both have sent what nobody waits for."""
        kept, lost = self.engines.values()
        kept.send("D", order("away", 1, ROUNDS, "50", SYMBOL))
        kept.report(_150="0", _11="away")
        kept.close()
        for at in range(AT_ONCE):
            lost.send("D", order(f"last-{at}", 2, 1, "50", SYMBOL))
        lost.report(_150="F")

    def miss_nothing(self, journal: str) -> None:
        """Each engine has what the journal tells its member, each report once and in its order, and was sent a gap."""
        for member, engine in self.engines.items():
            def has_all(engine: Engine = engine, member: int = member) -> bool:
                engine.pump(0.02)
                told = places(engine.history[self.since[member]:])
                return told == places(replay(journal, f"C{member}", (SYMBOL,))[0])
            await_that(f"C{member} is told what the journal has", has_all, 0.1)
            if not any(kind == "2" for kind, _ in engine.sent.values()):
                raise Trouble(f"C{member} has seen no gap")

    def close(self) -> None:
        """Ends it all in order: nobody is connected to the venue any more."""
        for it in self.engines.values():
            it.close()
        for unit in self.units.values():
            unit.stop()

    def end(self) -> None:
        """Ends it, whatever runs of it."""
        for it in self.engines.values():
            it.close()
        for unit in self.units.values():
            with contextlib.suppress(OSError):
                unit.end()
