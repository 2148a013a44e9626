"""Tests of contrib/standby/fence-ceph, which evicts machines from CephFS, on a machine of its own network, mounts and processes, whose
ceph is a script that notes what it is asked; and of what dev/drill_ceph.py makes of Ceph's words. dev/failover-drill --store cephfs has
both on Ceph's own programs."""
import contextlib
import fcntl
import json
import os
import re
import shutil
import socket
import subprocess
import sys
import tempfile
import termios
import threading
import time
from collections.abc import Iterator

import pytest

import drill_ceph
from checks import ROOT, text_of
from gikvand.words import sure
from test_standby import STANDBY, put, stub
from venues import Late, Lines, Trouble, await_that, in_some_try

pytestmark = pytest.mark.quick
for_root = pytest.mark.skipif(os.geteuid() != 0 or not shutil.which("ip"), reason="it is for root, who may have a network, by ip")

FENCE = os.path.join(STANDBY, "fence-ceph")
# Machines answer as long as they have an address here: each port is one that refuses.
OTHERS = {f"m{it}": f"10.9.0.{it}" for it in (1, 2, 3, 4)}
MACHINE = ("unshare", "--mount", "--net", "--uts", "--pid", "--fork", "--kill-child", "--mount-proc", "bash", "-c")
BOOT = """set -e
mount --make-rprivate /
hostname m1
ip link set lo up
mount --bind "$1/fstab" /etc/fstab
for it in 1 2 3; do ip address add 10.9.0.$it/32 dev lo; done
set +e
echo up
while read -r line; do eval "$line"; echo "$?"; done"""
LONG = 120  # Seconds for a line of the machine's shell.
# What is asked for, and how it is answered, as long as these files are there.
CEPH = """echo "$*" >>"{folder}/asked"
if [ -e "{folder}/hangs" ]; then echo $$ >"{folder}/hung"; exec sleep 600; fi
[ ! -e "{folder}/late" ] || sleep "$(cat "{folder}/late")"
[ ! -e "{folder}/refuses" ] || exit 1
case "$*" in *"session ls"*) cat "{folder}/left" ;; esac"""


def put_whole(path: str, data: bytes) -> None:
    """Puts a file in the place of one that may be read just then."""
    os.replace(put(f"{path}.new", data), path)


class Network:
    """Machines, of which one is played, with a folder for what is asked of ceph there."""

    def __init__(self, folder: str, fstab: str) -> None:
        self.folder = folder
        put(f"{folder}/fstab", fstab.encode())
        put(f"{folder}/left", b"[]")
        environment = {**os.environ, **stub(folder, "ceph", CEPH.format(folder=folder))}
        pipe = subprocess.PIPE
        self.machine = subprocess.Popen([*MACHINE, BOOT, "boot", folder], stdin=pipe, stdout=pipe, text=True, env=environment)
        self.said = Lines(sure(self.machine.stdout))
        assert self.answer("its boot") == "up"

    def answer(self, what: str) -> str:
        """The next line that the machine says, behind this."""
        try:
            return self.said.next(LONG) or "nothing more"
        except Trouble as why:
            raise Trouble(f"of the machine behind {what}: {why}") from None

    def does(self, line: str) -> int:
        """Runs a line of a shell there: its status."""
        pipe = sure(self.machine.stdin)
        pipe.write(f"{line}\n")
        pipe.flush()
        return int(self.answer(f"`{line}`"))

    def end(self) -> None:
        """Ends the machine, and waits until nothing runs there: its first process is the shell, which ends behind its last line."""
        with contextlib.suppress(BrokenPipeError):
            sure(self.machine.stdin).close()
        with contextlib.suppress(subprocess.TimeoutExpired):
            self.machine.wait(LONG)
        self.machine.kill()
        self.machine.wait(LONG)

    def fences(self, program: str = FENCE, *more: str) -> None:
        """Starts it, for all machines."""
        words = " ".join([program, "/srv/venue", *(f"{name}={address}" for name, address in OTHERS.items()), *more])
        assert self.does(f"{words} 2>>{self.folder}/said &") == 0

    def falls_silent(self, name: str) -> None:
        """A machine that has answered answers no more."""
        await_that(f"{name} answers", lambda: self.last_of(name) == f"fence-ceph: {name} answers")
        assert self.does(f"ip address del {OTHERS[name]}/32 dev lo") == 0

    def answers(self, name: str) -> None:
        assert self.does(f"ip address add {OTHERS[name]}/32 dev lo") == 0

    def last_of(self, name: str) -> str:
        """What was said last of a machine."""
        return next((it for it in reversed(self.lines("said")) if it.startswith(f"fence-ceph: {name} ")), "")

    def evicted(self) -> list[str]:
        """Which machines were said to be evicted, one behind the other."""
        said = [it for it in self.lines("said") if not it.endswith((" answers", " is silent"))]
        assert [it for it in said if not it.endswith(" is evicted: it has answered nothing for 2 seconds")] == []
        return [it.split()[1] for it in said]

    def lines(self, name: str) -> list[str]:
        """What stands in a file of the folder."""
        try:
            with open(os.path.join(self.folder, name), encoding="utf-8") as file:
                return file.read().splitlines()
        except FileNotFoundError:
            return []

    def await_evicted(self, *names: str) -> None:
        await_that(f"{' and '.join(names)} are evicted", lambda: self.evicted() == list(names))


@pytest.fixture
def network() -> Iterator[Network]:
    with tempfile.TemporaryDirectory(prefix="fence-") as folder:
        it = Network(folder, "none /srv/venue fuse.ceph ceph.id=admin,ceph.client_fs=day,_netdev 0 0\n")
        try:
            yield it
        finally:
            it.end()


def of_an_eviction(name: str) -> list[str]:
    whose = f"client_metadata.hostname={name}"
    return [f"tell mds.day:0 client evict {whose}", "tell mds.day:0 session ls"]


def with_times(network: Network, **seconds: int) -> str:
    """The program with other times, by their names."""
    text = text_of("contrib/standby/fence-ceph")
    for name, count in seconds.items():
        text, found = re.subn(rf"^{name} = \d+ ", f"{name} = {count} ", text, flags=re.MULTILINE)
        assert (name, found) == (name, 1)
    return put(f"{network.folder}/fence-ceph", text.encode(), 0o755)


@for_root
def test_silent_machines(network: Network) -> None:
    """Who falls silent is evicted, each time that this happens; who answers isn't, nor the own machine."""
    network.fences()
    network.falls_silent("m3")
    network.await_evicted("m3")
    assert network.does("ip address del 10.9.0.1/32 dev lo") == 0  # (its own)
    network.answers("m3")
    for count in (1, 2):
        await_that("m3 answers", lambda: network.last_of("m3").endswith(" answers"))
        network.falls_silent("m2")
        network.await_evicted("m3", *("m2",) * count)
        network.answers("m2")
    assert network.lines("asked") == [*of_an_eviction("m3"), *of_an_eviction("m2"), *of_an_eviction("m2")]


@for_root
def test_machines_that_never_answered(network: Network) -> None:
    """Who hasn't answered since this began may stand behind a firewall, and isn't evicted before it has."""
    network.fences()
    network.falls_silent("m3")
    network.await_evicted("m3")
    assert [it for it in network.lines("asked") if "m4" in it] == []
    network.answers("m4")
    network.falls_silent("m4")
    network.await_evicted("m3", "m4")


@for_root
def test_a_machine_that_hears_nobody(network: Network) -> None:
    """Who hears nobody is cut off itself, and evicts nobody, until it hears one again."""
    network.fences()
    network.answers("m4")
    for name in ("m2", "m3", "m4"):
        await_that(f"{name} answers", lambda: network.last_of(name).endswith(" answers"))
    assert network.does("ip address flush dev lo") == 0
    for name in ("m2", "m3", "m4"):
        await_that(f"{name} is silent", lambda: network.last_of(name).endswith(" is silent"))
    assert (network.does("sleep 1"), network.lines("asked")) == (0, [])  # (time for a wrong one)
    network.answers("m4")
    await_that("both are evicted", lambda: sorted(network.evicted()) == ["m2", "m3"])


@for_root
def test_a_machine_that_stood_still(network: Network) -> None:
    """Who stands still as it is cut off has heard the others just before, and evicts nobody by that: m2 and m3 are found silent at once, and
    m4 only where nothing comes back from a cable."""
    network.fences()
    network.answers("m4")
    for name in ("m2", "m3", "m4"):
        await_that(f"{name} answers", lambda: network.last_of(name).endswith(" answers"))
    assert network.does("kill -STOP $!; ip address flush dev lo") == 0
    assert network.does("ip link add cable type veth peer name other && ip link set cable up && ip link set other up") == 0
    assert network.does(f"ip address add 10.9.1.1/32 dev cable && ip route add {OTHERS['m4']} dev cable") == 0
    assert network.does("sleep 3; kill -CONT $!") == 0
    for name in ("m2", "m3", "m4"):
        await_that(f"{name} is silent", lambda: network.last_of(name).endswith(" is silent"))
    assert (network.does("sleep 1"), network.lines("asked")) == (0, [])  # (time for a wrong one)


@for_root
def test_evictions_that_fail(network: Network) -> None:
    """Where the metadata server refuses, or a client is left, it is asked again and again, until there is none."""
    put(f"{network.folder}/refuses", b"")
    network.fences()
    network.falls_silent("m3")
    evict, look = of_an_eviction("m3")
    await_that("it is asked again", lambda: network.lines("asked").count(evict) > 1)
    assert (network.evicted(), look in network.lines("asked")) == ([], False)
    put_whole(f"{network.folder}/left", b'[{"client_metadata": {"hostname": "m3"}}]')
    os.remove(f"{network.folder}/refuses")
    await_that("a client is left", lambda: network.lines("asked").count(look) > 1)
    assert network.evicted() == []
    put_whole(f"{network.folder}/left", b'[{"client_metadata": {"hostname": "m2"}}, {"client_metadata": {}}]')
    network.await_evicted("m3")
    assert network.lines("asked")[-2:] == [evict, look]


@for_root
def test_answers_that_say_no_word(network: Network) -> None:
    """An answer that is no list of clients shows nothing: it is asked again, and the machine is fenced also later."""
    put_whole(f"{network.folder}/left", b"")
    network.fences()
    network.falls_silent("m3")
    await_that("it is asked again", lambda: network.lines("asked").count(of_an_eviction("m3")[0]) > 1)
    assert network.last_of("m3").startswith("fence-ceph: m3 isn't evicted yet: Expecting value")
    put_whole(f"{network.folder}/left", b"[]")
    await_that("m3 is evicted", lambda: network.last_of("m3").endswith("nothing for 2 seconds"))


@for_root
def test_machines_that_answer_again(network: Network) -> None:
    """A command that is under way is ended where the machine answers meanwhile, as where this one was cut off itself."""
    put(f"{network.folder}/hangs", b"")
    network.fences(with_times(network, LONGEST=600))
    network.falls_silent("m3")
    await_that("a command is under way", lambda: bool(network.lines("hung")))
    network.answers("m3")
    await_that("the command is ended", lambda: network.does(f"[ ! -e /proc/{network.lines('hung')[0]} ]") == 0)
    os.remove(f"{network.folder}/hangs")
    network.falls_silent("m2")
    network.await_evicted("m2")


@for_root
def test_commands_that_hang(network: Network) -> None:
    """A command that hangs, as one to a server that is gone, is ended in time, and begun anew, however often."""
    put(f"{network.folder}/hangs", b"")
    network.fences(with_times(network, LONGEST=1, MOST=1))
    network.falls_silent("m3")
    await_that("it is asked again", lambda: len(network.lines("asked")) > 5)
    assert set(network.lines("asked")) == {of_an_eviction("m3")[0]}


@for_root
def test_commands_that_begin_late(network: Network) -> None:
    """A command that was ended lets the next one take longer: so one that only begins late comes to its end."""
    put(f"{network.folder}/late", b"2")
    network.fences(with_times(network, LONGEST=1))
    in_some_try(lambda number: begins_late(network, number), "commands_that_begin_late")


def begins_late(network: Network, number: int) -> None:
    """The eviction of this number. Where fence-ceph stands still meanwhile it finds the first command at its end, and ends none."""
    before = len(network.lines("asked"))
    network.falls_silent("m3")
    network.await_evicted(*("m3",) * number)
    first, second = network.lines("asked")[before:][:2]
    network.answers("m3")
    evict, look = of_an_eviction("m3")
    if second == look:
        raise Late(f"expected that {first} is ended came {second}")
    assert [first, second] == [evict, evict]


@for_root
def test_an_eviction_of_this_machine(network: Network) -> None:
    """A mount that refuses all, as of one who was evicted, is let go of; another fault, and a mount that is there, are left alone."""
    folder = network.folder
    shutil.copy(FENCE, folder)
    stub(folder, "let-go", f'echo "$*" >>{folder}/gone\numount --lazy "$1"')
    deaf = os.path.join(ROOT, "tests/deaf_store.py")
    assert network.does("mount -t tmpfs tmpfs /srv; mkdir /srv/venue") == 0
    network.fences(f"{folder}/fence-ceph")
    for error in ("EIO", "ESHUTDOWN"):
        assert network.does(f"{sys.executable} {deaf} /srv/venue {error} & client=$!") == 0
        await_that("the store is mounted", lambda: network.does("grep -q ' /srv/venue ' /proc/self/mountinfo") == 0)
        if error == "EIO":
            await_that("the mount is looked at", lambda: network.does("[ $(stat -c %s /srv/venue.asked) -gt 200 ]") == 0)
            assert (network.does("kill $client; umount --lazy /srv/venue"), network.lines("gone")) == (0, [])
    await_that("the mount is let go of", lambda: bool(network.lines("gone")))
    assert network.lines("gone")[0] == "/srv/venue"
    assert "fence-ceph: this machine was evicted: its client is ended" in network.lines("said")


@for_root
def test_the_own_mounts(network: Network) -> None:
    """Without machines what is left of the own mounts is evicted, and the status says whether that could be done."""
    assert (network.does(f"{FENCE} /srv/venue"), network.lines("asked")) == (0, of_an_eviction("m1"))
    put(f"{network.folder}/refuses", b"")
    in_some_try(lambda _: is_refused(network), "the_own_mounts")


def is_refused(network: Network) -> None:
    """It is asked again and again until its time is over, of which nothing may be left where fence-ceph stands still meanwhile."""
    before = len(network.lines("asked"))
    assert network.does(f"{with_times(network, OWN=3)} /srv/venue") == 1
    asked = network.lines("asked")[before:]
    if len(asked) < 2:
        raise Late(f"expected to be asked again came {asked}")
    assert set(asked) == {of_an_eviction("m1")[0]}


@for_root
def test_words_of_the_fence(network: Network) -> None:
    """A mount that fstab hasn't, a name that is none, and words that can't be meant are refused before anything is asked."""
    for words, said in (("/srv/other", "/etc/fstab has no fuse.ceph at /srv/other"),
                        ("/srv/venue a:b=10.9.0.2", "not a machine's name: a:b"), ("/srv/venue =10.9.0.2", "not a machine's name: "),
                        ("", "usage: fence-ceph MOUNT [MACHINE[=ADDRESS]...]"),
                        ("--help", "usage: fence-ceph MOUNT [MACHINE[=ADDRESS]...]")):
        put(f"{network.folder}/said", b"")
        assert (words, network.does(f"timeout 20 {FENCE} {words} 2>{network.folder}/said")) == (words, 1)
        assert network.lines("said") == [said if said.startswith("usage") else f"fence-ceph: {said}"]
    assert network.lines("asked") == []


@for_root
def test_let_go_of_cephfs(network: Network) -> None:
    """Before the store is mounted anew, what is left of the old mount is evicted."""
    folder = network.folder
    stub(folder, "mount", f'echo "mount $*" >>{folder}/asked\nexec /bin/mount -t tmpfs tmpfs "$1"')
    shutil.copy(FENCE, folder)
    shutil.copy(os.path.join(STANDBY, "let-go"), folder)
    deaf = os.path.join(ROOT, "tests/deaf_store.py")
    assert network.does("mount -t tmpfs tmpfs /srv; mkdir /srv/venue") == 0
    assert network.does(f"{sys.executable} {deaf} /srv/venue &") == 0
    await_that("the store is mounted", lambda: network.does("grep -q ' /srv/venue ' /proc/self/mountinfo") == 0)
    assert network.does(f"{folder}/let-go /srv/venue") == 0
    assert network.lines("asked") == [*of_an_eviction("m1"), "mount /srv/venue"]


def test_settings_of_the_drill() -> None:
    """The words of the drill's ceph.conf are those that are packed, but for one that is left out."""
    packed = text_of("contrib/standby/ceph-settings")
    whole = drill_ceph.settings(packed, "f", ["a", "b"], None)
    lines = [it for it in packed.splitlines() if it]
    assert [it for it in whole.splitlines() if it in lines] == lines
    assert [it for it in ("fsid = f", "mon_host = a,b") if it not in whole.partition("[client]")[0].splitlines()] == []
    for left_out, (name, value) in drill_ceph.OTHERWISE.items():
        changed = drill_ceph.settings(packed, "f", ["a", "b"], left_out)
        differ = set(changed.splitlines()) ^ set(whole.splitlines())
        assert (left_out, sorted(differ)[0].split(" = ")[0], f"{name} = {value}" in differ, len(differ)) == (left_out, name, True, 2)
        with pytest.raises(Trouble):
            drill_ceph.settings(packed.replace(name, "other"), "f", ["a"], left_out)


def test_settings_of_the_page() -> None:
    """Each setting of Ceph that docs/FAILOVER.md names is one that is packed, or one of a pool or a file system."""
    page = text_of("docs/FAILOVER.md").partition("## CephFS")[2].partition("\n## ")[0]
    packed = re.findall(r"^(\w+) = ", text_of("contrib/standby/ceph-settings"), re.MULTILINE)
    named = {it for it in re.findall(r"`((?:mds|mon|osd|fuse|defer)_\w+)`", page)}
    assert (sorted(named - set(packed)), len(set(packed))) == ([], len(packed))
    assert {"mon_osd_blocklist_default_expire", "fuse_disable_pagecache", "defer_client_eviction_on_laggy_osds"} <= named


def test_what_ceph_says() -> None:
    """Groups of objects that are whole, and a write that two of three OSDs have."""
    for state, wanted in (("active+clean", True), ("active+clean+scrubbing", True), ("active+undersized", False), ("clean", False),
                          ("", False)):
        assert (state, drill_ceph.is_clean({"state": state} if state else {})) == (state, wanted)

    def op(*events: str) -> dict[str, object]:
        return {"description": "osd_op", "type_data": {"events": [{"event": it} for it in events]}}
    for ops, is_torn in (([], False), ([op("initiated", "op_commit")], False), ([op("op_commit"), op("sub_op_commit_rec")], False),
                         ([op("initiated"), op("initiated", "sub_op_commit_rec", "op_commit")], True)):
        said = json.loads(json.dumps({"ops": ops}))
        assert (ops, drill_ceph.is_with_one_more(said)) == (ops, is_torn)


def send_in_pieces(ends: socket.socket, answer: bytes) -> None:
    """Sends so much, each piece of which the other end has taken before the next one comes: no read can have two."""
    for at in range(0, len(answer), 30_000):
        ends.sendall(answer[at:at + 30_000])
        while int.from_bytes(fcntl.ioctl(ends, termios.TIOCOUTQ, bytes(4)), sys.byteorder):
            time.sleep(0.0002)


def test_what_a_daemon_answers() -> None:
    """A daemon's socket takes a command and a byte 0, and answers a length of four bytes and so many, in pieces. Where there is none, or
    none that answers so, nothing is told yet."""
    said, requests = json.dumps({"ops": [{"description": "x" * 4_000_000}]}).encode(), list[bytes]()
    with tempfile.TemporaryDirectory(prefix="fence-") as folder, socket.socket(socket.AF_UNIX) as door:
        path = os.path.join(folder, "asok")
        assert drill_ceph.asked(path, "ops") == {}
        door.bind(path)
        door.listen()

        def serve() -> None:
            for answer in (len(said).to_bytes(4, "big") + said, b"\0\0"):
                ends, _ = door.accept()
                with ends:
                    requests.append(b"")
                    while not requests[-1].endswith(b"\0"):
                        requests[-1] += ends.recv(100)
                    send_in_pieces(ends, answer)

        thread = threading.Thread(target=serve, daemon=True)
        thread.start()
        assert (drill_ceph.asked(path, "ops"), drill_ceph.asked(path, "ops")) == (json.loads(said), {})
        thread.join(LONG)
        assert requests == 2 * [b'{"prefix": "ops"}\0']
