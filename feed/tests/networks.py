"""Hosts with networks of their own on this machine, for tests. Each has an address on one switch, and what parts two of them is a
route that leads nowhere. They end with the process that made them."""
import itertools
import socket
import subprocess
from collections.abc import Sequence
from contextlib import AbstractContextManager

import with_scripts  # (in front of what stands there, and of what an older Python can't read)
from drill_machines import network_of, ran
from gikvand.words import sure
from venues import PATIENCE, Trouble

BOOT = ["unshare", "--net", "sh", "-c", "echo up; exec cat"]  # (what it reads from ends with us)


class Host:
    """A network of its own, as a process has it."""

    def __init__(self, number: int) -> None:
        self.address = f"10.0.0.{number}"
        self.process = subprocess.Popen(BOOT, stdin=subprocess.PIPE, stdout=subprocess.PIPE)
        if sure(self.process.stdout).readline() != b"up\n":
            raise Trouble("no network can be made")
        self.do("ip", "link", "set", "lo", "up")

    def words(self) -> list[str]:
        """The words in front of those of a program that is to run there."""
        return ["nsenter", "-t", str(self.process.pid), "--net"]

    def do(self, *words: str) -> str:
        return ran(*self.words(), *words)

    def network(self) -> AbstractContextManager[None]:
        """Within this, sockets of this thread are of that host, and so are programs that it starts."""
        return network_of(self.process.pid)

    def parts(self, other: "Host", how: str) -> None:
        """From now on (`add`) nothing goes from here to another host, or (`del`) all does again."""
        self.do("ip", "route", how, "blackhole", f"{other.address}/32")

    def end(self) -> None:
        sure(self.process.stdin).close()
        sure(self.process.stdout).close()
        self.process.wait()


class Networks:
    """So many hosts on a switch."""

    def __init__(self, count: int) -> None:
        self.switch = Host(0)
        self.parted: list[tuple[Host, Host]] = []
        self.switch.do("ip", "link", "add", "switch", "type", "bridge")
        self.switch.do("ip", "link", "set", "switch", "up")
        self.hosts = [Host(number) for number in range(1, count + 1)]
        for number, it in enumerate(self.hosts):
            cable = f"cable{number}"
            self.switch.do("ip", "link", "add", cable, "type", "veth", "peer", "name", "eth0", "netns", str(it.process.pid))
            self.switch.do("ip", "link", "set", cable, "master", "switch", "up")
            it.do("ip", "address", "add", f"{it.address}/24", "dev", "eth0")
            it.do("ip", "link", "set", "eth0", "up")

    def part(self, *groups: Sequence[Host]) -> None:
        """Nothing comes from a host of one group to that of another. Hosts of no group reach all."""
        self.parted = [pair for one, other in itertools.permutations(groups, 2) for pair in itertools.product(one, other)]
        for one, other in self.parted:
            one.parts(other, "add")

    def join(self) -> None:
        """All reach all again."""
        for one, other in self.parted:
            one.parts(other, "del")
        self.parted = []

    def end(self) -> None:
        for it in (*self.hosts, self.switch):
            it.end()


def can_be_had() -> bool:
    """Whether networks can be made here: by root, where the system lets one have namespaces."""
    networks = None
    try:
        networks = Networks(2)
        first, second = networks.hosts
        with first.network(), socket.create_server((first.address, 0)) as listener, second.network():
            socket.create_connection(listener.getsockname(), PATIENCE).close()
        return True
    except (OSError, Trouble):
        return False
    finally:
        if networks:
            networks.end()
