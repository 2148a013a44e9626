"""The volume on which the machines of dev/failover-drill keep the journal: GlusterFS, a brick on each of them. Not
a script."""
import contextlib
import os
import socket
import subprocess
import uuid

from drill_machines import BRICK, SHARED, Machine, children, ran
from drill_store import ANSWERS, FOLDER, JOURNAL, KEPT, LIVES_ON, LOST, NOBODY_SERVES, NO_ANSWERS, Store, contents, side_by_side
from gikvand.programs import ROOT
from venues import Trouble, await_that

SETTINGS = os.path.join(ROOT, "contrib/standby/volume-settings")
VOLUME, ON_BRICK = "venue", f"{BRICK}/venue"
GLUSTERD = 24007  # Its port.
READS = 100       # Of the journal, so that one sees which brick they come from.
PID = f"cat /run/gluster/vols/{VOLUME}/*.pid"  # Prints that of a machine's brick.
NO_VIEWS = "entry-timeout=0,attribute-timeout=0,negative-timeout=1"
OPTIONS = f"{NO_VIEWS},direct-io-mode=enable"  # Of the mount.
VIEWS = ("quick-read", "stat-prefetch", "open-behind", "read-ahead", "io-cache", "readdir-ahead")
AS_GIVEN = ("write-behind", "flush-behind", *VIEWS)  # Each is on as given.
OLD = r"fresh opens +fail: an old byte in \d+ of \d+ rounds; behind before-start in "  # (so many rounds)
STALE = f"{OLD}[1-9]"  # Behind the step too.
OTHERWISE = {  # What a setting is where it is left out.
    **{it: [f"performance.{it}", "on"] for it in AS_GIVEN},
    "strict-locks": ["client.strict-locks", "off"],
    "times": ["network.ping-timeout", "42", *(word for it in ("server", "client") for word in (
        f"{it}.keepalive-time", "20", f"{it}.keepalive-interval", "2", f"{it}.keepalive-count", "9", f"{it}.tcp-user-timeout", "42"))],
    "majority": ["cluster.quorum-type", "fixed", "cluster.quorum-count", "3"],
    "quorum": ["cluster.quorum-type", "none"],
    "no-views": [word for it in VIEWS for word in (f"performance.{it}", "on")]}


def listens(machine: Machine) -> bool:
    """Whether the machine's glusterd takes connections."""
    try:
        with machine.network(), socket.create_connection((machine.address, GLUSTERD), 1):
            return True
    except OSError:
        return False


class Gluster(Store):
    """The volume."""

    PROGRAMS = {"glusterd": "glusterfs-server", "gluster": "glusterfs-server"}
    IS, EQUAL = "a volume with a brick on each of them", "the bricks are equal"
    # What is seen of each that is left out. `lock`, that of the step: machines that wait write old bytes over the orders of the one
    # that serves. `direct-io`, and what the step drops: the next venue has its machine's old view of the last block, which doesn't
    # count then, and an acknowledged order is lost. `pages`, what the step drops: the same. `let-go`: the venue lives on, with the
    # lock, and nobody takes over. `times`, those of the connections: nobody takes over within half a minute. `quorum`: the venue that
    # was cut off goes on by its own brick alone, and answers. `strict-locks`: it answers once it is joined again, while another one
    # serves. `watch`: the idle venue lives on. `majority`, a write that wants all three bricks: the venue ends, as one brick is lost.
    # `step`: the next venue counts a block that the other brick lacks, and so tells of nothing behind it: 3,163 entries stood on one
    # brick, and 2,331 counted on the other. A heal takes one of both; it may come first, so this is seen in two of three rounds.
    # `numbers`, those of the session whose folder is lost: its engine has had greater ones, and ends the session.
    PLANTS = {"lock": ("killed", 3, LOST), "direct-io": ("looked", 1, LOST), "pages": ("cached", 1, LOST), "let-go": ("stuck", 1, LIVES_ON),
              "times": ("dies", 1, NOBODY_SERVES), "quorum": ("parted", 1, ANSWERS), "strict-locks": ("joined", 1, ANSWERS),
              "watch": ("watched", 1, LIVES_ON), "majority": ("brick", 1, NO_ANSWERS), "step": ("half", 6, f"{LOST}|on each brick: "),
              "numbers": ("edge", 1, r"number \d+ where \d+ is next: ")}
    # Without `no-views` one of some forty rounds of `killed` ended with fault 42: the step had read an old end of the journal, and
    # written it again. Of each of `AS_GIVEN` alone, but for quick-read, nothing was seen in a hundred rounds, with the mount's options
    # and without them: they stay off as a second guard.
    BY_CHANCE = ["no-views", *AS_GIVEN]
    LACKS = {"strict-locks": "no late writes fail: ", "quorum": "no false success fail: ", "direct-io": rf"{OLD}0\b",
             "quick-read": STALE, "no-views": STALE}

    def make(self) -> None:
        """Makes the volume, and mounts it on all machines."""
        side_by_side(self.serve, self.machines)
        first, *others = self.machines
        for it in others:
            self.gluster("peer", "probe", it.address)
        for it in self.machines:
            await_that(f"{it.name} knows the others",
                       lambda: self.gluster("pool", "list", on=it).count("Connected") == len(self.machines))
        bricks = [f"{it.address}:{ON_BRICK}" for it in self.machines]
        self.agree(lambda: self.gluster("volume", "create", VOLUME, "replica", str(len(bricks)), *bricks), f"{VOLUME} already exists")
        self.agree(lambda: first.do(SETTINGS, VOLUME))
        otherwise = OTHERWISE.get(self.left_out or "", [])
        if otherwise:
            self.agree(lambda: self.gluster("volume", "set", VOLUME, *otherwise))
        self.agree(lambda: self.gluster("volume", "start", VOLUME), "already started")
        side_by_side(self.mount, self.machines)

    def gluster(self, *words: str, on: Machine | None = None) -> str:
        return (on or self.machines[0]).do("gluster", "--mode=script", *words)

    def serve(self, machine: Machine) -> None:
        """Starts what looks after the machine's brick."""
        machine.do("mount", "--bind", f"{machine.folder}/lib", "/var/lib/glusterd")
        machine.do("mount", "--bind", f"{machine.folder}/log", "/var/log/glusterfs")
        ran(*machine.words("glusterd", "--log-level", "WARNING"))
        await_that(f"glusterd of {machine.name} listens", lambda: listens(machine), 0.1)

    def mount(self, machine: Machine, is_guarded: bool = True) -> None:
        """Mounts the volume there, once there are bricks enough, by a line of fstab: so let-go mounts it as well."""
        options = OPTIONS if is_guarded and self.left_out != "direct-io" else NO_VIEWS
        if self.left_out in ("no-views", *VIEWS):  # What keeps the system from views of its own is the second guard.
            options = "rw"
        with open(f"{machine.folder}/fstab", "w", encoding="ascii") as file:
            file.write(f"{machine.address}:/{VOLUME} {SHARED} glusterfs {options} 0 0\n")
        with contextlib.suppress(Trouble):  # Nothing may be mounted there.
            machine.do("umount", "--lazy", SHARED)
        words = machine.words("mount", "--fstab", file.name, SHARED)
        await_that(f"{machine.name} mounts the volume",
                   lambda: not subprocess.run(words, capture_output=True).returncode, 0.3)

    def client(self, machine: Machine) -> int:
        """The process that serves the mount there, whose parent is the machine's first one."""
        found: list[int] = []

        def words(pid: int) -> list[str]:
            with contextlib.suppress(OSError):  # It has ended meanwhile.
                return contents(f"/proc/{pid}/cmdline").decode().split("\0")
            return []

        def is_alone() -> bool:
            """Whether there is one, and none of a mount of before."""
            found[:] = [it for it in children(machine.init) if SHARED in words(it)]
            return len(found) == 1
        await_that(f"one client serves the mount on {machine.name}", is_alone, 0.1)
        return found[0]

    def come_back(self, machine: Machine) -> None:
        """Boots a machine that has died."""
        machine.await_free_disk()
        machine.boot()
        self.serve(machine)
        self.mount(machine)

    def sync(self) -> None:
        for it in self.machines:
            it.do("sync", "-f", BRICK)

    def kill_server(self, machine: Machine) -> None:
        machine.do("bash", "-c", f'kill -KILL "$({PID})"')

    def is_read_from(self) -> Machine:
        """The machine whose brick all machines read the journal from: one of three, as the number of the file has it."""
        before = [self.has_read(it) for it in self.machines]
        for _ in range(READS):
            contents(self.journal(self.machines[0]))
        return max(zip(self.machines, before), key=lambda it: self.has_read(it[0]) - it[1])[0]

    def has_read(self, machine: Machine) -> int:
        """How many bytes the machine's brick has read so far."""
        return int(machine.do("bash", "-c", f'grep rchar "/proc/$({PID})/io"').split()[1])

    def parts(self) -> tuple[Machine, Machine, Machine]:
        second = self.is_read_from()
        holder, third = (it for it in self.machines if it is not second)
        return holder, second, third

    def is_torn(self, holder: Machine, second: Machine, third: Machine) -> bool:
        return self.entries(second) == self.entries(third) + 1

    def start_servers(self) -> None:
        self.agree(lambda: self.gluster("volume", "start", VOLUME, "force"))

    def reaches_all(self, machine: Machine) -> bool:
        """Whether what is written on this machine comes to all three bricks at once."""
        self.looks += 1
        name, data = f"look.{machine.number}", f"{self.looks}\n".encode()
        try:
            with open(machine.path(f"{SHARED}/{name}"), "wb", buffering=0) as file:
                file.write(data)
            return all(contents(it.path(f"{ON_BRICK}/{name}")) == data for it in self.machines)
        except OSError:
            return False

    def on_brick(self, machine: Machine, name: str = JOURNAL) -> str:
        """The journal, or another file of its folder, as it stands on a machine's brick."""
        return machine.path(f"{ON_BRICK}/{FOLDER}/{name}")

    def copy(self, machine: Machine) -> str:
        """The journal as this machine's brick has it."""
        return self.on_brick(machine)

    def is_healed(self, machine: Machine) -> bool:
        """Whether no other brick needs what this one has of the journal."""
        number = uuid.UUID(bytes=os.getxattr(self.on_brick(machine), "trusted.gfid"))
        return not os.path.exists(machine.path(f"{ON_BRICK}/.glusterfs/indices/xattrop/{number}"))

    def await_whole(self) -> None:
        """Waits until each machine reaches each brick and none waits for a heal. Then all bricks have to be equal."""
        for it in self.machines:
            await_that(f"{it.name} reaches all bricks", lambda: self.reaches_all(it), 0.2)
        await_that("the bricks are healed", lambda: all(map(self.is_healed, self.machines)), 0.2)
        for name in KEPT:
            first, *others = (contents(self.on_brick(it, name)) for it in self.machines)
            for machine, other in zip(self.machines[1:], others):
                if first != other:
                    raise Trouble(f"{name} has {len(first)} bytes on the brick of machine 1, and {len(other)} others "
                                  f"on that of {machine.name}")
