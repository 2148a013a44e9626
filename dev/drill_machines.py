"""Three machines within one, for dev/failover-drill: each has processes, mounts, a network and a disk of its own.
Not a script."""
import contextlib
import ctypes
import fcntl
import os
import shutil
import signal
import struct
import subprocess
import sys
from collections.abc import Iterator

from gikvand.words import sure
from venues import Trouble, await_that

INSIDE = "FAILOVER_DRILL_INSIDE"
HOME = "/mnt"            # Where all that the drill makes lies: in memory, and seen by its own processes alone.
BRICK, SHARED = "/srv/brick", "/srv/venue"  # The disk and the volume, in each machine.
NEW_NETWORK = 0x40000000     # CLONE_NEWNET
PR_SET_PDEATHSIG = 1
SHUT_DOWN = 0x8004587D       # EXT4_IOC_SHUTDOWN,
AT_ONCE = struct.pack("I", 2)  # with what isn't on the disk yet thrown away.
OWN = ["unshare", "--mount", "--net", "--pid", "--ipc", "--fork", "--kill-child", "--mount-proc"]
PROGRAMS = {"unshare": "util-linux", "nsenter": "util-linux", "losetup": "mount", "ip": "iproute2", "mkfs.ext4": "e2fsprogs"}

# Whether the system lets one have such machines.
TRY = f"""set -e
exec 2>&1 3<>/dev/fuse
mount --make-rprivate /
mount -t tmpfs tmpfs {HOME}
ip link add switch type bridge
ip link add cable type veth peer name eth0
truncate -s 4M {HOME}/disk
mkfs.ext4 -q {HOME}/disk
mkdir {HOME}/at
mount -o loop {HOME}/disk {HOME}/at"""

# A machine's first process, which takes in those that are left without a parent.
BOOT = f"""set -e
mount --make-rprivate /
mount -t tmpfs tmpfs /srv
mkdir {BRICK} {SHARED}
mount -o loop "$1/disk" {BRICK}
mount --bind "$1/fstab" /etc/fstab
hostname "$2"
mount -t tmpfs tmpfs /run
ip link set lo up
echo up
while read -r; do :; done"""


def missing(more: dict[str, str]) -> str | None:
    """Why there can be no drill here, or None. A store needs more programs, each of a package."""
    if os.geteuid():
        return "it is for root, who may make namespaces and mount"
    packages = {package for program, package in {**PROGRAMS, **more}.items() if not shutil.which(program)}
    if packages:
        return f"it needs of Debian: apt-get install {' '.join(sorted(packages))}"
    it = subprocess.run([*OWN, "bash", "-c", TRY], stdout=subprocess.PIPE, stderr=subprocess.STDOUT, text=True)
    said = it.stdout.strip().splitlines()[-1:] or ["no reason is told"]
    return f"namespaces, a loop device or FUSE can't be had: {said[0]}" if it.returncode else None


def enter() -> int:
    """Runs the program again, in namespaces of its own: its status. Whatever ends this process ends those, and with them
    all that was made in there."""
    it = subprocess.Popen([*OWN, sys.executable, *sys.argv], env={**os.environ, INSIDE: "1"}, preexec_fn=die_with_us)
    signal.signal(signal.SIGTERM, lambda *_: sys.exit(128 + signal.SIGTERM))
    try:
        return it.wait()
    finally:
        end_clients(it.pid)
        it.kill()
        it.wait()


def end_clients(pid: int) -> None:
    """Kills all of FUSE that this process has begun. Who waits for one of these isn't ended by a signal, nor are its namespaces."""
    parents = dict(filter(None, map(parent_of, os.listdir("/proc"))))
    for it in parents:
        above = it
        while above in parents and above != pid:
            above = parents[above]
        if above == pid and has_fuse(it):
            kill(it)


def parent_of(name: str) -> tuple[int, int] | None:
    """A process and its parent, or None where it isn't one, or has ended."""
    with contextlib.suppress(OSError, ValueError), open(f"/proc/{int(name)}/stat", encoding="utf-8", errors="replace") as file:
        return int(name), int(file.read().rpartition(")")[2].split()[1])
    return None


def has_fuse(pid: int) -> bool:
    """Whether a process serves a mount by FUSE."""
    folder = f"/proc/{pid}/fd"
    with contextlib.suppress(OSError):
        return any(os.readlink(f"{folder}/{it}") == "/dev/fuse" for it in os.listdir(folder))
    return False


def die_with_us() -> None:
    """The program that this process becomes is killed where its parent ends."""
    ctypes.CDLL(None).prctl(PR_SET_PDEATHSIG, signal.SIGKILL)


def ran(*words: str) -> str:
    """What a program prints, which has to end well."""
    it = subprocess.run(words, capture_output=True, text=True)
    if it.returncode:
        raise Trouble(f"{' '.join(words)}: status {it.returncode}: {(it.stdout + it.stderr).strip()}")
    return it.stdout


def make_switch() -> None:
    """What the machines' cables come together in, in namespaces of our own. Ctrl-C is for the process outside."""
    signal.signal(signal.SIGINT, signal.SIG_IGN)
    ran("mount", "--make-rprivate", "/")
    ran("mount", "-t", "tmpfs", "tmpfs", HOME)
    ran("ip", "link", "add", "switch", "type", "bridge")
    ran("ip", "link", "set", "switch", "up")


def children(pid: int) -> list[int]:
    """The processes that this one has begun, and that haven't ended."""
    try:
        with open(f"/proc/{pid}/task/{pid}/children", encoding="ascii") as file:
            return [int(it) for it in file.read().split()]
    except (FileNotFoundError, ProcessLookupError):
        return []


def kill(pid: int) -> None:
    with contextlib.suppress(ProcessLookupError):
        os.kill(pid, signal.SIGKILL)


class Machine:
    """A machine, with a disk that it keeps, and a cable to the switch."""

    def __init__(self, number: int, disk_size: int) -> None:
        self.number, self.name, self.address = number, f"machine {number}", f"10.0.0.{number}"
        self.host, self.cable, self.folder = f"m{number}", f"cable{number}", f"{HOME}/{number}"
        for it in ("lib", "log"):
            os.makedirs(f"{self.folder}/{it}")
        with open(f"{self.folder}/fstab", "wb"):
            pass
        with open(f"{self.folder}/disk", "wb") as file:
            file.truncate(disk_size)  # (with holes)
        ran("mkfs.ext4", "-q", "-m", "0", file.name)

    def boot(self) -> None:
        pipe = subprocess.PIPE
        words = [*OWN, "--uts", "bash", "-c", BOOT, "boot", self.folder, self.host]
        self.process = subprocess.Popen(words, stdin=pipe, stdout=pipe, stderr=subprocess.DEVNULL)
        if sure(self.process.stdout).readline() != b"up\n":
            raise Trouble(f"{self.name} doesn't boot")
        self.init, = children(self.process.pid)
        ran("ip", "link", "add", self.cable, "type", "veth", "peer", "name", "eth0", "netns", str(self.init))
        self.join()
        ran("ip", "link", "set", self.cable, "up")
        self.do("ip", "address", "add", f"{self.address}/24", "dev", "eth0")
        self.do("ip", "link", "set", "eth0", "up")

    def words(self, *words: str) -> list[str]:
        """The words that run a program on this machine."""
        return ["nsenter", "-t", str(self.init), "-m", "-n", "-p", "-u", "-i", *words]

    def do(self, *words: str) -> str:
        return ran(*self.words(*words))

    def begin(self, *words: str) -> subprocess.Popen:
        """Begins a program there, and leaves its lines to be read."""
        return subprocess.Popen(self.words(*words), stdout=subprocess.PIPE, stderr=subprocess.STDOUT, text=True)

    def path(self, name: str) -> str:
        """A file of this machine, as it is known here."""
        return f"/proc/{self.init}/root{name}"

    def network(self) -> contextlib.AbstractContextManager[None]:
        """Within this, sockets of this thread are of that machine, as its members' tunnels are."""
        return network_of(self.init)

    def cut(self) -> None:
        """From now on nothing comes to it from the others, nor from it to them."""
        ran("ip", "link", "set", self.cable, "nomaster")

    def join(self) -> None:
        ran("ip", "link", "set", self.cable, "master", "switch")

    def die(self) -> None:
        """All at once: its cable, its disk, its processes."""
        self.cut()
        disk = os.open(self.path(BRICK), os.O_RDONLY)
        try:
            fcntl.ioctl(disk, SHUT_DOWN, AT_ONCE)
        finally:
            os.close(disk)
        kill(self.init)
        self.process.wait()
        ran("ip", "link", "delete", self.cable)

    def await_free_disk(self) -> None:
        """Waits until the disk of a machine that has died isn't in use any more."""
        await_that(f"the disk of {self.name} is free", lambda: not ran("losetup", "-j", f"{self.folder}/disk"))


@contextlib.contextmanager
def network_of(pid: int) -> Iterator[None]:
    """Within this, sockets of this thread are in the network of that process, and so are programs that it starts."""
    with open(f"/proc/{pid}/ns/net", "rb") as there, open("/proc/thread-self/ns/net", "rb") as here:
        enter_network(there.fileno())
        try:
            yield
        finally:
            enter_network(here.fileno())


def enter_network(fd: int) -> None:
    if ctypes.CDLL(None, use_errno=True).setns(fd, NEW_NETWORK):
        raise OSError(ctypes.get_errno(), "setns")
