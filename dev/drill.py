"""The machines of dev/failover-drill at work: members that trade at one of them, and what the others have then. Not
a script."""
import contextlib
import shutil
import socket
import threading
import time
from collections.abc import Callable, Iterator

from drill_edge import EdgeUnit
from drill_machines import SHARED, Machine
from drill_store import FOLDER, Store, contents
from drill_venue import CUT_OFF, PORT, SYMBOL, Unit, alone, first_ready, step_without, watched
from gikvand.words import sure
from traders import Member, Rounds, request, standstills
from venues import Client, Late, Trouble, Unseen, await_that, message

MEMBERS = [1, 2, 3, 4]
ENOUGH = 100     # Answers that each member gets before something happens.
PAUSE = 0.3      # Seconds between two bursts of a member, at most.
A_VIEW = 1.1     # Seconds for which a machine may hold that there is no stop file, since it last looked for it.
LINES = 12       # So many of a unit's last lines are shown where a case fails.
A_LOOK = 0.05    # Seconds between two looks at the journal.
STOOD = 2.0      # Seconds in all for which the machine that plays may stand still in a case.


def trading(machine: Machine, rounds: Rounds) -> list[Member]:
    """Members that trade at this machine, each of which was answered for some time."""
    with machine.network():
        ends = {it: Client(PORT, it).socket for it in MEMBERS}
    traders = [Member(end, it, rounds.names[it], PAUSE) for it, end in ends.items()]
    await_answers(traders, ENOUGH)
    return traders


def await_answers(traders: list[Member], more: int) -> None:
    """Waits until each member was answered so often more."""
    wanted = {it.member: it.answered() + more for it in traders}
    await_that("members are answered",
               lambda: all(it.answered() >= wanted[it.member] or it.has_ended for it in traders))
    if any(it.has_ended for it in traders):
        raise Trouble("a session has ended by itself")


def cease(traders: list[Member]) -> None:
    """The members have sent all that they want, and have their answers."""
    for it in traders:
        it.cease()


def send_one_more(trader: Member) -> None:
    """One more request of a member who has ceased."""
    kind, body = request(trader.name)
    trader.number, trader.name = trader.number + 1, trader.name + 1
    with contextlib.suppress(OSError):
        trader.ends.sendall(message(trader.member, trader.number, kind, body))


@contextlib.contextmanager
def looked_at(names: list[str]) -> Iterator[None]:
    """Within this the journal is looked at by each of these names again and again, as by people on machines that wait."""
    is_over = threading.Event()

    def look(name: str) -> None:
        while not is_over.wait(A_LOOK):
            with contextlib.suppress(OSError):
                contents(name)

    threads = [threading.Thread(target=look, args=(it,)) for it in names]
    for thread in threads:
        thread.start()
    try:
        yield
    finally:
        is_over.set()
        for thread in threads:
            thread.join()


def stop_listening(traders: list[Member]) -> None:
    """Lets the members' sessions stand, but reads no more of them."""
    for it in traders:
        it.ends.shutdown(socket.SHUT_RD)


def heard(trader: Member) -> bool:
    """Whether something came to a member since it stopped listening."""
    try:
        return bool(trader.ends.recv(1, socket.MSG_DONTWAIT))
    except OSError:
        return False


@contextlib.contextmanager
def late_where_it_stood() -> Iterator[None]:
    """What isn't seen in its time within this came too late where the machine that plays stood still meanwhile: no case plays that. What is
    lost is lost all the same."""
    stood, since = standstills(), time.monotonic()
    try:
        yield
    except Unseen as why:
        if (seconds := stood.between(since, time.monotonic())) > STOOD:
            raise Late(f"{why} (this machine stood still for {seconds:.1f} s)") from why
        raise


class Drill:
    """The machines, their store, and what the journal held after each case."""

    def __init__(self, kind: type[Store], left_out: str | None) -> None:
        self.kind, self.left_out, self.times = kind, left_out, dict[str, list[float]]()
        self.units: list[Unit] = []
        self.edges: list[EdgeUnit] = []

    def make(self) -> None:
        """Boots the machines, and makes the store and the first journal by hand."""
        since = time.monotonic()
        self.machines = [Machine(number, self.kind.DISK) for number in (1, 2, 3)]
        for it in self.machines:
            it.boot()
        self.store = self.kind(self.machines, self.left_out)
        self.store.make()
        first = self.machines[0]
        first.do("mkdir", f"{SHARED}/{FOLDER}")
        self.rounds = Rounds(self.store.journal(first), MEMBERS)
        with open(self.store.journal(first, ".symbols"), "w", encoding="ascii") as file:
            file.write(f"{SYMBOL}\n")
        self.store.sync()
        self.store.await_whole()
        took = time.monotonic() - since
        print(f"three machines, and {self.store.IS}: made in {took:.0f} s", flush=True)

    def unit(self, machine: Machine, words: list[str]) -> Unit:
        unit = Unit(machine, words, step_without(self.left_out))
        self.units.append(unit)
        return unit

    def serve(self, machine: Machine, words: list[str]) -> Unit:
        """The venue on this machine, once it serves."""
        time.sleep(A_VIEW)
        since = time.monotonic()
        unit = self.unit(machine, words)
        unit.await_line("venued: ready, ", since)
        return unit

    def standbys(self, machine: Machine) -> list[Unit]:
        """The units of all machines but this one, once each was refused for the lock."""
        since = time.monotonic()
        units = [self.unit(it, self.words()) for it in self.machines if it is not machine]
        for it in units:
            await_that(f"{it.machine.name} waits for the lock", lambda: it.refused(since))
        return units

    def words(self) -> list[str]:
        return alone() if self.left_out == "watch" else watched(self.left_out)

    def play(self, case: Callable[["Drill", Machine], str], number: int) -> str:
        """Plays a case, and says what was seen."""
        self.units, self.edges = [], []
        before = sum(map(len, self.rounds.kept.values()))
        with late_where_it_stood():
            said = case(self, self.machines[number % len(self.machines)])
        kept = sum(map(len, self.rounds.kept.values())) - before
        return f"{said}; {kept} reports more in the journal, all that were told among them; {self.store.EQUAL}"

    def took(self, what: str, seconds: float) -> str:
        """Notes how long something took."""
        self.times.setdefault(what, []).append(seconds)
        return f"{what} {seconds:.1f} s"

    def say_times(self) -> None:
        for what, found in self.times.items():
            print(f"{what} {min(found):.2f} to {max(found):.2f} s, in {len(found)} rounds")

    def say_lines(self) -> None:
        """What the units have said lately, for who looks why a case failed."""
        units: list[Unit | EdgeUnit] = [*self.units, *self.edges]
        for it in units:
            for at, line in it.lines[-LINES:]:
                print(f"    {it.machine.name}, {time.monotonic() - at:.1f} s ago: {line}", flush=True)
        for line in self.store.said():
            print(f"    {line}", flush=True)

    def check(self, machine: Machine, traders: list[Member]) -> None:
        """Checks that all that these members were told is in the journal, as this machine has it."""
        self.rounds.journal = self.store.journal(machine)
        for it in traders:
            told = it.reports()
            self.rounds.names[it.member] = it.name
            self.rounds.check(it, told)

    def goes_on(self, units: list[Unit], since: float) -> Unit:
        """Waits until one of these machines serves, and sees that no other one does."""
        unit = first_ready(units, since)
        for other in units:
            if other is not unit:
                at = sure(unit.ready(since))
                await_that(f"{other.machine.name} is refused", lambda: other.refused(at) > 1 or other.ready(since))
        serving = [it.machine.name for it in self.units if it.ready(since)]
        if serving != [unit.machine.name]:
            # (one that stood still behind its start is ended by its watch, and another one goes on)
            kind = Late if unit.when(CUT_OFF, sure(unit.ready(since))) else Trouble
            raise kind(f"expected one machine to go on came {' and '.join(serving)}")
        return unit

    def traded_on(self, unit: Unit, out: Machine | None = None) -> list[Member]:
        """Members that have traded at the new machine, and have all their answers. These have to be on each brick but
        that of a machine which is out."""
        traders = trading(unit.machine, self.rounds)
        cease(traders)
        counts = {it.name: self.store.entries(it) for it in self.machines if it is not out}
        if len(set(counts.values())) > 1:
            told = " and ".join(f"{count} on that of {name}" for name, count in counts.items())
            raise Trouble(f"what members were told isn't on each brick: there are {told}")
        return traders

    def end(self, unit: Unit, traders: list[Member]) -> None:
        """Stops the venue in order, with nobody who waits for it, and checks the bricks and then the journal."""
        for it in self.units:
            if it is not unit:
                it.end()
        unit.stop()
        self.store.await_whole()
        self.check(unit.machine, traders)

    def start_anew(self) -> None:
        """Behind a failed case: all machines anew, and an empty journal."""
        for it in self.units:
            it.end()
        for machine in self.machines:
            if machine.process.poll() is None:
                machine.die()
            machine.await_free_disk()
            shutil.rmtree(machine.folder)
        self.make()
