"""What keeps the journal for the machines of dev/failover-drill. Each store is a file of its own, with a class of this one.
Not a script."""
import threading
from collections.abc import Callable

from drill_machines import SHARED, Machine
from gikvand import journals
from venues import Trouble, await_that

# What is told where a plant is seen: an order that a member was told of, and that the next venue hasn't; a venue that goes on where it
# must not; a case that comes no further than there; and members without answers.
LOST = "lost, or told otherwise|isn't there any more, or is told otherwise"
LIVES_ON = "says 'status 137': not within "
NOBODY_SERVES = "one of the other machines serves: not within "
ANSWERS = "the venue that was cut off answers"
NO_ANSWERS = "a session has ended by itself|members are answered: not within "

FOLDER, JOURNAL = "day", "venue.journal"
KEPT = [JOURNAL, f"{JOURNAL}.symbols"]  # What has to be the same wherever it is kept.


def side_by_side(do: Callable[[Machine], object], machines: list[Machine]) -> None:
    """Does this for all of these machines at once."""
    faults: list[Exception] = []

    def tried(it: Machine) -> None:
        try:
            do(it)
        except Exception as why:
            faults.append(why)

    threads = [threading.Thread(target=tried, args=(it,)) for it in machines]
    for thread in threads:
        thread.start()
    for thread in threads:
        thread.join()
    if faults:
        raise faults[0]


def contents(path: str) -> bytes:
    with open(path, "rb") as file:
        return file.read()


class Store:
    """A store that all machines have mounted, with all settings but one that may be left out."""

    PROGRAMS: dict[str, str] = {}  # What it needs, each of a package.
    DISK = 192 << 20               # Bytes of each machine's disk.
    IS, EQUAL = "", ""             # What it is, and what its copies are at the end, in words.
    PATIENCE = 30                  # Seconds to wait for what has to come.

    # What may be left out, the case that has to fail then, in how many rounds at the most, and by what text; and what is seen to do harm
    # by chance.
    PLANTS: dict[str, tuple[str, int, str]] = {}
    BY_CHANCE: list[str] = []
    LACKS: dict[str, str] = {}     # The same of `gikvand store-contract`, and the property that fails, as it is said.
    BY_WATCH: tuple[str, ...] = ()  # Properties that the store hasn't by itself: the watch makes up for them.

    def __init__(self, machines: list[Machine], left_out: str | None) -> None:
        self.machines, self.left_out, self.looks = machines, left_out, 0

    def journal(self, machine: Machine, more: str = "") -> str:
        """The journal, or a file beside it, as this machine has it on the store."""
        return machine.path(f"{SHARED}/{FOLDER}/{JOURNAL}{more}")

    def make(self) -> None:
        """Makes the store, and mounts it on all machines."""
        raise NotImplementedError

    def agree(self, do: Callable[[], object], is_done: str = "") -> None:
        """Does what all of them have to agree on, again where they don't in time: until it is done, or was by a try that came too late."""
        said: list[str] = []

        def are_at_one() -> bool:
            try:
                do()
                return True
            except Trouble as why:
                said.append(str(why))
                return bool(is_done) and is_done in said[-1]
        try:
            await_that("they agree", are_at_one, 1)
        except Trouble as why:
            raise Trouble(f"{why}: {said[-1]}") from None

    def mount(self, machine: Machine, is_guarded: bool = True) -> None:
        """Mounts it there, or mounts it anew, once it can be had: with or without what keeps the system from a memory of its own."""
        raise NotImplementedError

    def come_back(self, machine: Machine) -> None:
        """Boots a machine that has died."""
        raise NotImplementedError

    def client(self, machine: Machine) -> int:
        """The process that serves the mount there."""
        raise NotImplementedError

    def reaches_all(self, machine: Machine) -> bool:
        """Whether what is written on this machine comes to all copies at once."""
        raise NotImplementedError

    def sync(self) -> None:
        """Waits until all that is written is on the devices."""
        raise NotImplementedError

    def kill_server(self, machine: Machine) -> None:
        """Kills what keeps this machine's copy."""
        raise NotImplementedError

    def start_servers(self) -> None:
        """Starts those that aren't there."""
        raise NotImplementedError

    def leave_mount(self, machine: Machine) -> None:
        """From now on nobody but the venue sees that this machine was cut off,"""

    def see_to_mount(self, machine: Machine) -> None:
        """until now."""

    def parts(self) -> tuple[Machine, Machine, Machine]:
        """Who serves, who gets its last write alone, and who is cut off, where a write comes to one of two others."""
        raise NotImplementedError

    def is_torn(self, holder: Machine, second: Machine, third: Machine) -> bool:
        """Whether the last write has come to the second one, and not to the third."""
        raise NotImplementedError

    def said(self) -> list[str]:
        """What it has said lately, for who looks why a case failed."""
        return []

    def copy(self, machine: Machine) -> str:
        """The journal as this machine's own copy has it."""
        raise NotImplementedError

    def entries(self, machine: Machine) -> int:
        """How many entries the journal has there."""
        return len(journals.read(contents(self.copy(machine))).entries)

    def await_whole(self) -> None:
        """Waits until all copies are there again. They have to be equal then."""
        raise NotImplementedError
