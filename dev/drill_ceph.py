"""CephFS as what the machines of dev/failover-drill keep the journal on: each has a monitor, an OSD and a metadata server. Not a script."""
import contextlib
import json
import os
import socket
import subprocess
import uuid
from typing import Any

from drill_machines import BRICK, HOME, SHARED, Machine, kill, ran
from drill_store import ANSWERS, FOLDER, KEPT, LIVES_ON, LOST, NO_ANSWERS, Store, contents, side_by_side
from gikvand.programs import ROOT
from venues import Trouble, await_that

STANDBY = os.path.join(ROOT, "contrib/standby")
SETTINGS, FENCE = (os.path.join(STANDBY, it) for it in ("ceph-settings", "fence-ceph"))
NAME, META, DATA = "venue", "meta", "data"  # The file system, and its pools.
CONF = f"{HOME}/ceph"   # Is /etc/ceph on each machine.
OF_A_CALL = 6           # Seconds for a command of Ceph, which hangs while monitors elect,
OF_MAKING = 30          # for one by which something is made, which may begin late on a busy machine,
OF_A_LOOK = 5           # and for a look at a mount.
PAUSE = 0.3
UNCACHED = "fuse_disable_pagecache"
OPTIONS = f"ceph.client_fs={NAME},_netdev"  # Of the mount.
# What Ceph needs on such machines, without keys, and where one of them is cut off again and again.
OF_THE_DRILL = """auth_cluster_required = none
auth_service_required = none
auth_client_required = none
public_network = 10.0.0.0/24
osd_max_markdown_count = 1000
mon_data_avail_crit = 1
mon_allow_pool_delete = true
bluestore_block_size = 805306368
bluestore_block_wal_create = false
bluestore_block_db_create = false
bluestore_cache_autotune = false
bluestore_cache_size = 67108864
mds_cache_memory_limit = 67108864
osd_op_num_shards = 2
osd_op_num_threads_per_shard = 1
osd_max_pg_log_entries = 200
rocksdb_cache_size = 16777216
osd_pool_default_pg_autoscale_mode = off
osd_crush_chooseleaf_type = 1
"""
# What a setting is where it is left out, or what else is done then.
OTHERWISE = {"blocklist": ("mon_osd_blocklist_default_expire", "6"), "strict-locks": ("mds_session_blocklist_on_evict", "false"),
             "direct-io": (UNCACHED, "false"), "majority": ("osd_pool_default_min_size", "3")}


def settings(text: str, fsid: str, hosts: list[str], left_out: str | None) -> str:
    """The words of ceph.conf, by those of contrib/standby, of which one may be left out."""
    name, value = OTHERWISE.get(left_out or "", ("", ""))
    lines = text.splitlines()
    found = [at for at, line in enumerate(lines) if name and line.partition(" = ")[0] == name]
    if name and len(found) != 1:
        raise Trouble(f"{name} stands {len(found)} times in {SETTINGS}")
    for at in found:
        lines[at] = f"{name} = {value}"
    at = lines.index("[global]") + 1
    mine = [f"fsid = {fsid}", f"mon_host = {','.join(hosts)}", *OF_THE_DRILL.splitlines()]
    return "\n".join([*lines[:at], *mine, *lines[at:], ""])


def addresses(machine: Machine) -> str:
    """Of its monitor."""
    return f"[v2:{machine.address}:3300,v1:{machine.address}:6789]"


def processes(machine: Machine, program: str) -> list[int]:
    """Those on a machine that run a program, by their numbers here."""
    found = []
    for it in filter(str.isdecimal, os.listdir("/proc")):
        with contextlib.suppress(OSError):
            is_there = os.stat(f"/proc/{it}/ns/pid").st_ino == os.stat(f"/proc/{machine.init}/ns/pid").st_ino
            if is_there and program in contents(f"/proc/{it}/cmdline").decode().split("\0")[:3]:
                found.append(int(it))
    return found


def is_clean(said: dict[str, Any]) -> bool:
    """Whether a group of objects is whole, as Ceph tells of it."""
    return set(said.get("state", "").split("+")) >= {"active", "clean"}


def is_with_one_more(ops: dict[str, Any]) -> bool:
    """Whether an OSD holds a write that is on its own device and on another one's, and that a third one owes."""
    def events(it: dict[str, Any]) -> list[str]:
        return [event["event"] for event in it["type_data"]["events"]]
    return any({"op_commit", "sub_op_commit_rec"} <= set(events(it)) for it in ops.get("ops", []))


def asked(path: str, what: str) -> dict[str, Any]:
    """What a daemon answers at its own socket, or nothing yet. `ceph daemon` asks the same, and takes seconds to begin on a busy machine:
    by then a write that one OSD owes is over."""
    with contextlib.suppress(OSError, ValueError), socket.socket(socket.AF_UNIX) as ends:
        ends.settimeout(OF_A_CALL)
        ends.connect(path)
        ends.sendall(json.dumps({"prefix": what}).encode() + b"\0")
        with ends.makefile("rb") as came:
            size = int.from_bytes(came.read(4), "big")
            return json.loads(came.read(size))
    return {}


class Ceph(Store):
    """The file system, by ceph-fuse."""

    PROGRAMS = {"ceph-mon": "ceph-mon", "ceph-osd": "ceph-osd", "ceph-mds": "ceph-mds", "ceph-fuse": "ceph-fuse", "ceph": "ceph-common"}
    DISK = 1100 << 20
    IS, EQUAL = "CephFS with a monitor, an OSD and a metadata server on each of them", "all machines read the same"
    PATIENCE = 100
    PLANTS = {"lock": ("killed", 3, LOST), "direct-io": ("looked", 4, LOST), "pages": ("cached", 4, LOST), "let-go": ("stuck", 1, LIVES_ON),
              "blocklist": ("joined", 1, ANSWERS), "watch": ("watched", 1, LIVES_ON), "majority": ("brick", 1, NO_ANSWERS)}
    # Nothing was seen without `fencer` in two rounds of `dies`, nor without `strict-locks`, the fence of an eviction, in one of `parted`:
    # on a busy machine. Without `direct-io` no old byte was seen in two contracts of 100 looks each, and in `looked` an order was lost.
    BY_CHANCE = ["strict-locks", "fencer"]
    BY_WATCH = ("errors in time",)

    def make(self) -> None:
        """Makes the file system, and mounts it on all machines."""
        self.numbers = {it.name: str(uuid.uuid4()) for it in self.machines}
        os.makedirs(CONF, exist_ok=True)
        fsid = str(uuid.uuid4())
        with open(f"{CONF}/ceph.conf", "w", encoding="ascii") as file:
            file.write(settings(contents(SETTINGS).decode(), fsid, list(map(addresses, self.machines)), self.left_out))
        monitors = [word for it in self.machines for word in ("--addv", it.host, addresses(it))]
        ran("monmaptool", "--create", "--clobber", "--fsid", fsid, *monitors, f"{CONF}/monmap")
        side_by_side(self.settle, self.machines)
        side_by_side(self.make_monitor, self.machines)
        await_that("the monitors elect", lambda: len(self.told("quorum_status").get("quorum", [])) == len(self.machines), PAUSE)
        for it in self.machines:
            self.does("osd", "new", self.numbers[it.name])
        side_by_side(self.make_osd, self.machines)
        self.await_osds()
        for pool in (META, DATA):
            self.does("osd", "pool", "create", pool, "1", "1")
        self.does("fs", "new", NAME, META, DATA)
        for what in ("session_timeout", "session_autoclose"):
            self.does("fs", "set", NAME, what, "300" if self.left_out == "fencer" and what == "session_autoclose" else "30")
        first, *others = self.machines  # The first one's serves, so that a round has one elsewhere.
        self.start_server(first)
        await_that("a metadata server is active", self.is_active, PAUSE)
        side_by_side(self.start_server, others)
        side_by_side(self.mount, self.machines)
        side_by_side(self.fence, self.machines)

    # What runs on a machine.

    def settle(self, machine: Machine) -> None:
        """Puts the folders of Ceph where the machine keeps them: what its daemons have on its disk, and their lines not."""
        machine.do("mkdir", "-p", f"{BRICK}/lib", "/run/ceph")
        for it, where in ((f"{BRICK}/lib", "/var/lib/ceph"), (f"{machine.folder}/log", "/var/log/ceph"), (CONF, "/etc/ceph")):
            machine.do("mount", "--bind", it, where)

    def make_monitor(self, machine: Machine) -> None:
        machine.do("mkdir", "-p", f"/var/lib/ceph/mon/ceph-{machine.host}")
        machine.do("ceph-mon", "--mkfs", "-i", machine.host, "--monmap", f"{CONF}/monmap")
        self.start_monitor(machine)

    def start_monitor(self, machine: Machine) -> None:
        machine.do("ceph-mon", "-i", machine.host, "--public-addrv", addresses(machine))

    def osd(self, machine: Machine) -> str:
        return f"{machine.number - 1}"

    def make_osd(self, machine: Machine) -> None:
        machine.do("mkdir", "-p", f"/var/lib/ceph/osd/ceph-{self.osd(machine)}")
        machine.do("ceph-osd", "-i", self.osd(machine), "--mkfs", "--osd-uuid", self.numbers[machine.name])
        self.start_osd(machine)

    def start_osd(self, machine: Machine) -> None:
        machine.do("ceph-osd", "-i", self.osd(machine))

    def start_server(self, machine: Machine) -> None:
        """Of the metadata."""
        machine.do("ceph-mds", "-i", machine.host)

    def fence(self, machine: Machine) -> None:
        """Starts what evicts the others, and sees to the own mount, unless that is left out."""
        if self.left_out == "fencer":
            return
        words = machine.words(FENCE, SHARED, *(f"{it.host}={it.address}" for it in self.machines))
        with open(f"{machine.folder}/fence.log", "ab") as log:
            subprocess.Popen(words, stdin=subprocess.DEVNULL, stdout=log, stderr=log)

    def leave_mount(self, machine: Machine) -> None:
        """What fences from there ends. Where its look at the mount hangs nsenter alone does."""
        for it in processes(machine, FENCE):
            kill(it)

    def see_to_mount(self, machine: Machine) -> None:
        self.fence(machine)

    # The commands of Ceph.

    def ceph(self, *words: str, on: Machine | None = None, within: float = OF_A_CALL) -> str:
        """What a command of Ceph prints, on the first machine that has an answer."""
        said = ""
        for it in [on] if on else self.machines:
            command = it.words("timeout", "-s", "KILL", f"{within}", "ceph", *words)
            ended = subprocess.run(command, stdin=subprocess.DEVNULL, capture_output=True, text=True)
            if not ended.returncode:
                return ended.stdout
            said = said or ended.stderr.strip()
        raise Trouble(f"ceph {' '.join(words)}: {said or 'no answer'}")

    def does(self, *words: str) -> None:
        """A command by which something is made: again where nobody answers in time. Twice is as good as once."""
        self.agree(lambda: self.ceph(*words, within=OF_MAKING))

    def told(self, *words: str, on: Machine | None = None) -> dict[str, Any]:
        """The same of one that answers in JSON, or nothing yet."""
        with contextlib.suppress(Trouble, ValueError):
            return json.loads(self.ceph(*words, "-f", "json", on=on))
        return {}

    def is_active(self) -> bool:
        """Whether a metadata server serves."""
        with contextlib.suppress(Trouble):
            return "up:active" in self.ceph("mds", "stat")
        return False

    def await_osds(self) -> None:
        await_that("all OSDs are up", lambda: self.told("osd", "stat").get("num_up_osds") == len(self.machines), PAUSE)

    # What the drill asks for.

    def mount(self, machine: Machine, is_guarded: bool = True) -> None:
        """By a line of fstab: so let-go mounts it as well. A mount of before ends in order."""
        options = OPTIONS if is_guarded else f"{OPTIONS},ceph.{UNCACHED}=false"
        with open(f"{machine.folder}/fstab", "w", encoding="ascii") as file:
            file.write(f"none {SHARED} fuse.ceph {options} 0 0\n")
        with contextlib.suppress(Trouble):  # Nothing may be mounted there.
            machine.do("umount", SHARED)
        words = machine.words("timeout", "20", "mount", SHARED)
        await_that(f"{machine.name} mounts the store", lambda: not subprocess.run(words, capture_output=True).returncode
                   and self.looks_at(machine), PAUSE)

    def come_back(self, machine: Machine) -> None:
        machine.await_free_disk()
        machine.boot()
        self.settle(machine)
        self.start_monitor(machine)
        self.start_osd(machine)
        self.start_server(machine)
        self.mount(machine)
        self.fence(machine)

    def client(self, machine: Machine) -> int:
        found: list[int] = []

        def is_alone() -> bool:
            """Whether there is one, and none of a mount of before."""
            found[:] = processes(machine, "ceph-fuse")
            return len(found) == 1
        await_that(f"one client serves the mount on {machine.name}", is_alone, 0.1)
        return found[0]

    def sync(self) -> None:
        for it in self.machines:
            it.do("sync", "-f", SHARED)

    def looks_at(self, machine: Machine) -> bool:
        """Whether the machine sees the store, which may answer nothing."""
        words = machine.words("timeout", "-s", "KILL", f"{OF_A_LOOK}", "mountpoint", "-q", SHARED)
        return not subprocess.run(words, capture_output=True).returncode

    def reaches_all(self, machine: Machine) -> bool:
        """Whether its monitor and its OSD are with the others again."""
        return (len(self.told("quorum_status").get("quorum", [])) == len(self.machines)
                and self.told("osd", "stat").get("num_up_osds") == len(self.machines))

    def is_whole(self) -> bool:
        found = [self.told("tell", f"{number}.0", "query") for number in (1, 2)]
        return all(map(is_clean, found))

    def kill_server(self, machine: Machine) -> None:
        for it in processes(machine, "ceph-osd"):
            kill(it)

    def start_servers(self) -> None:
        for it in self.machines:
            if not processes(it, "ceph-osd"):
                self.start_osd(it)
        self.await_osds()

    def parts(self) -> tuple[Machine, Machine, Machine]:
        """Who holds the first copy serves, and dies; who is cut off is the next that would hold it."""
        inode, said = os.stat(self.journal(self.machines[0])).st_ino, dict[str, Any]()
        await_that("Ceph says where the journal lies",
                   lambda: said.update(self.told("osd", "map", DATA, f"{inode:x}.00000000")) or "acting" in said, PAUSE)
        holder, third, second = (self.machines[osd] for osd in said["acting"])
        return holder, second, third

    def is_torn(self, holder: Machine, second: Machine, third: Machine) -> bool:
        return is_with_one_more(asked(holder.path(f"/run/ceph/ceph-osd.{self.osd(holder)}.asok"), "ops"))

    def copy(self, machine: Machine) -> str:
        """As this machine has it: there is no other way to see it."""
        return self.journal(machine)

    def said(self) -> list[str]:
        """What the fencers have said lately."""
        return [f"{it.name}: {line}" for it in self.machines
                for line in contents(f"{it.folder}/fence.log").decode(errors="replace").splitlines()[-12:]]

    def read(self, machine: Machine, name: str) -> bytes | None:
        """A file beside the journal, or None where the machine gives no answer."""
        words = machine.words("timeout", "-s", "KILL", f"{OF_A_LOOK}", "cat", f"{SHARED}/{FOLDER}/{name}")
        it = subprocess.run(words, capture_output=True)
        return None if it.returncode else it.stdout

    def await_whole(self) -> None:
        """Waits until all machines are there, and all copies. All machines have to read the same then."""
        self.await_osds()
        await_that("all copies are whole", self.is_whole, PAUSE)
        for it in self.machines:
            words = it.words("timeout", "-s", "KILL", f"{OF_A_LOOK}", "dd", "if=/dev/zero", f"of={SHARED}/{FOLDER}/look.{it.number}",
                             "bs=1", "count=1", "conv=fsync,notrunc")
            await_that(f"{it.name} writes to the store", lambda: not subprocess.run(words, capture_output=True).returncode, PAUSE)
        for name in KEPT:
            found = dict[str, bytes]()
            for it in self.machines:
                await_that(f"{it.name} reads {name}",
                           lambda: (came := self.read(it, name)) is not None and not found.update({it.name: came}), PAUSE)
            if len(set(found.values())) > 1:
                raise Trouble(f"the machines read other bytes of {name}: {[len(it) for it in found.values()]}")
