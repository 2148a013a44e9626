"""Tests of contrib/standby, which serves a journal on a replicated volume: the step before each start, the watch, and
the settings of the volume. Here the volume is a folder; dev/failover-drill has one of GlusterFS."""
import contextlib
import fcntl
import os
import re
import shutil
import signal
import subprocess
import sys
import tempfile

import pytest

from checks import ROOT, contents, ran, text_of
from drill_gluster import OPTIONS
from gikvand.words import sure
from noting import LOCKED, MADE, can_be_noted, noted, order_of
from refusals import compiled
from venues import PATIENCE, Late, await_that, in_some_try

pytestmark = [pytest.mark.quick, pytest.mark.usefixtures("programs")]

STANDBY = os.path.join(ROOT, "contrib/standby")
STEP, SERVE, SETTINGS, LET_GO = (os.path.join(STANDBY, it) for it in ("before-start", "serve", "volume-settings", "let-go"))
JOURNAL = "venue.journal"
WRITTEN_AGAIN = 2 << 20  # So many bytes at the end.
LONG = 120  # Seconds for what a program that was killed has said to come to its end.


def put(path: str, data: bytes, mode: int = 0o600) -> str:
    with open(path, "wb") as file:
        file.write(data)
    os.chmod(path, mode)
    return path


def stub(folder: str, name: str, lines: str) -> dict[str, str]:
    """A program of this name that comes first on the path, of a shell's lines."""
    put(os.path.join(folder, name), f"#!/bin/sh\n{lines}\n".encode(), 0o755)
    return {"PATH": f"{folder}:{os.environ['PATH']}"}


def written(path: str) -> bool:
    """Whether something wrote to the file since its time was set to 0."""
    return os.stat(path).st_mtime != 0


def test_step_of_a_start() -> None:
    """The step writes to the journal, and changes no byte of it, however long it is."""
    with tempfile.TemporaryDirectory(prefix="standby-") as folder:
        for size in (1, 17, (1 << 16) + 1, WRITTEN_AGAIN, WRITTEN_AGAIN + 70_001):
            data = os.urandom(size)
            path = put(os.path.join(folder, JOURNAL), data)
            os.utime(path, (0, 0))
            assert (size, ran(STEP, path)) == (size, (0, "", ""))
            assert (size, written(path), contents(path) == data) == (size, True, True)


def test_step_that_is_refused() -> None:
    """Where another one has the lock nothing is written; a missing journal isn't made; an empty one is none."""
    with tempfile.TemporaryDirectory(prefix="standby-") as folder:
        path = put(os.path.join(folder, JOURNAL), b"some")
        os.utime(path, (0, 0))
        with open(path, "rb") as file:
            fcntl.flock(file, fcntl.LOCK_EX)
            assert ran(STEP, path) == (41, "", "")
        assert written(path) == False
        assert ran(STEP, f"{path}.none") == (1, "", f"before-start: {path}.none: No such file or directory\n")
        assert ran(STEP, put(path, b"")) == (1, "", f"before-start: {path} is empty\n")
        assert ran(STEP)[0] == 1
        assert os.listdir(folder) == [JOURNAL]


def test_step_writes_by_its_lock() -> None:
    """It writes by the descriptor that has the lock: whoever opens the journal meanwhile finds it locked."""
    text = text_of("contrib/standby/before-start")
    assert (text.count("os.open("), text.count("open(")) == (1, 1)
    assert text.index("fcntl.flock") < text.index("    write_again(fd, size)\n    os.close")


def test_calls_of_the_step() -> None:
    """It locks the journal for itself alone, lets the system forget what it has of it, and writes the last two megabytes again, all
    of them and no more, as they stand behind the lock; then it waits for the device."""
    if not can_be_noted():
        return
    with tempfile.TemporaryDirectory(prefix="standby-") as folder:
        path = os.path.join(folder, JOURNAL)
        for size, again in ((17, 17), (WRITTEN_AGAIN, WRITTEN_AGAIN), (WRITTEN_AGAIN + 70_001, WRITTEN_AGAIN)):
            put(path, os.urandom(size))
            status, calls = noted("python3", STEP, JOURNAL, folder=folder)
            assert (size, status, order_of(calls, JOURNAL)) == (
                size, 0, [f"flock {JOURNAL} {LOCKED}", f"sync {JOURNAL}", f"drop {JOURNAL}", f"write {JOURNAL}", f"sync {JOURNAL}"])
            assert (size, [it.more for it in calls if it.name == "drop"]) == (size, ["0"])  # (all of it)
            assert (size, sum(int(it.more) for it in calls if it.name == "pwrite")) == (size, again)


def test_step_of_a_long_journal() -> None:
    """Of a journal above a gigabyte, of which most is a hole, its end is written again."""
    with tempfile.TemporaryDirectory(prefix="standby-") as folder:
        path = put(os.path.join(folder, JOURNAL), b"")
        size = (1 << 30) + (300 << 20)
        os.truncate(path, size)
        assert (ran(STEP, path), os.path.getsize(path)) == ((0, "", ""), size)
        with open(path, "rb") as file:
            assert os.lseek(file.fileno(), 0, os.SEEK_DATA) == size - WRITTEN_AGAIN


def test_step_beside_another() -> None:
    """Where another one looks at the journal, by a lock that others may share, nothing is written either."""
    with tempfile.TemporaryDirectory(prefix="standby-") as folder:
        path = put(os.path.join(folder, JOURNAL), b"some")
        os.utime(path, (0, 0))
        with open(path, "rb") as file:
            fcntl.flock(file, fcntl.LOCK_SH)
            assert (ran(STEP, path), written(path)) == ((41, "", ""), False)


def liar(folder: str, lie: str, old: bytes = b"") -> dict[str, str]:
    """What makes the folder's journal one of a store that lies so, on a machine that remembers these bytes of it."""
    state = os.path.join(folder, "state")
    os.mkdir(state)
    put(os.path.join(state, f"memory-a-{JOURNAL}"), old)
    compiled("tests/liar.c", os.path.join(folder, "liar.so"), "-shared", "-fPIC", "-ldl")
    return {"LD_PRELOAD": os.path.join(folder, "liar.so"), "LIAR_FOLDER": folder, "LIAR_NAME": "a", "LIAR_STATE": state, "LIE": lie}


@pytest.mark.skipif(not shutil.which("cc"), reason="cc compiles tests/liar.c")
def test_step_that_trusts_no_memory() -> None:
    """What the machine remembers of the journal is dropped, and isn't written over what the store has, also where that has become
    longer; where it can't be dropped the step ends, and has written nothing."""
    for lie in ("stale", "mapped"):
        for more in (b"", os.urandom(9), os.urandom(70_001)):
            with tempfile.TemporaryDirectory(prefix="standby-") as folder:
                data = os.urandom(70_000)
                path = put(os.path.join(folder, JOURNAL), data + b"\1" + more)
                environment = liar(folder, lie, data + b"\0")
                os.utime(path, (0, 0))
                came = ran(STEP, path, **environment)
                assert (lie, contents(path) == data + b"\1" + more, written(path)) == (lie, True, lie == "stale")
                said = f"before-start: {path}: this machine's memory has other bytes of it than the store\n"
                assert (lie, came) == (lie, (0, "", "") if lie == "stale" else (1, "", said))


def test_calls_of_the_watch() -> None:
    """The watch writes a byte beside the journal and waits for the device; a new time of the file alone would be no proof."""
    if not can_be_noted():
        return
    with tempfile.TemporaryDirectory(prefix="standby-") as folder:
        put(os.path.join(folder, f"{JOURNAL}.symbols"), b"ABC\n")
        watched = f"{JOURNAL}.watch"
        lines = f'until [ -s {folder}/{watched} ] && grep -q "^fsync .*{watched}" "$REFUSE_TOLD"; do sleep 0.1; done'
        status, calls = noted(SERVE, "9001", JOURNAL, "2", folder=folder, **stub(folder, "venued", lines))
        mine = [it for it in calls if it.file == watched]
        assert (status, os.path.getsize(os.path.join(folder, watched))) == (0, 1)
        assert [it.name for it in mine if it.name != "open" or int(it.more) & MADE][:2] == ["open", "fsync"]


def said_of(folder: str, user: int, is_taken: bool) -> list[str]:
    """What is said of a venue, by this user, on a store that takes no byte, until its watch has ended. As long as nobody takes its
    status a process that was killed is there yet. In the place of let-go is what says its words."""
    put(os.path.join(folder, f"{JOURNAL}.symbols"), b"ABC\n")
    serve = os.path.join(folder, "there", "serve")
    os.mkdir(os.path.dirname(serve))
    shutil.copy(SERVE, serve)
    stub(os.path.dirname(serve), "let-go", 'echo "let-go $*" >&2')
    for name, lines in (("venued", "exec sleep 600"), ("dd", "exit 1"), ("id", f"echo {user}")):
        environment = stub(folder, name, lines)
    venue = subprocess.Popen([serve, "9001", os.path.join(folder, JOURNAL), "2"], stderr=subprocess.PIPE, text=True,
                             env={**os.environ, **environment, "RUNTIME_DIRECTORY": folder})
    try:
        if is_taken:
            assert venue.wait(PATIENCE) == -9
        return venue.communicate(timeout=LONG)[1].splitlines()
    finally:
        venue.kill()
        venue.communicate(timeout=LONG)


def test_a_venue_that_stays() -> None:
    """Where the venue is there two seconds after it was killed the end of the store's client is asked for, or is done where this is
    root's; where it has gone it isn't."""
    ended = "serve: this machine is cut off from the store: the venue is ended"
    waits = "serve: the venue waits for the store, whose client is ended"
    for user, is_taken, said in ((1000, True, [ended]), (1000, False, [ended, waits]), (0, True, [ended]), (0, False, [ended, waits])):
        in_some_try(lambda _: stays(user, is_taken, said), "a_venue_that_stays")


def stays(user: int, is_taken: bool, said: list[str]) -> None:
    """What is said of a venue, and what is done. A status that this process takes two seconds late is one that nobody has taken."""
    with tempfile.TemporaryDirectory(prefix="standby-") as folder:
        came, is_asked = said_of(folder, user, is_taken), os.path.exists(os.path.join(folder, "let-go"))
        if is_taken and len(came) > len(said):
            raise Late(f"expected {said} came {came}")
        assert (user, is_taken, came[:2], is_asked) == (user, is_taken, said, len(said) > 1 and user != 0)
        assert (user, is_taken, came[2:]) == (user, is_taken, [f"let-go {mount_of(folder)}"] if said[1:] and user == 0 else [])


def mount_of(folder: str) -> str:
    return ran("stat", "-c", "%m", folder)[1].strip()


# A machine of its own processes and mounts.
ALONE = ("unshare", "--mount", "--pid", "--fork", "--kill-child", "--mount-proc", "bash", "-c")

# It has a store that answers nothing, whose client stands still, and somebody who
# waits for it, and whom no signal ends.
DEAF = """set -e
mount --make-rprivate /
mkdir "$1/at"
echo "kept $1/at tmpfs rw 0 0" >"$1/fstab"
mount --bind "$1/fstab" /etc/fstab
"$2" "$3" "$1/at" &
client=$!
until grep -q " $1/at " /proc/self/mountinfo; do sleep 0.05; done
stat "$1/at/some" >/dev/null 2>"$1/said" &
waiter=$!
until grep -q "some" "$1/at.asked"; do sleep 0.05; done
kill -STOP $client
kill -KILL $waiter
sleep 1
[ -e /proc/$waiter ]
"$4" "$1/at"
kill -CONT $client 2>/dev/null && kill -TERM $client || true
wait $waiter || echo "waiter $?"
wait $client || echo "client $?"
findmnt -no FSTYPE "$1/at"
"""


@pytest.mark.skipif(os.geteuid() != 0 or not os.path.exists("/dev/fuse"), reason="it is for root, who may mount by FUSE")
def test_let_go() -> None:
    """A store that answers nothing is let go of: its client is ended, who waited goes, and what fstab has is mounted."""
    deaf = os.path.join(ROOT, "tests/deaf_store.py")
    with tempfile.TemporaryDirectory(prefix="standby-") as folder:
        assert ran(*ALONE, DEAF, "deaf", folder, sys.executable, deaf, LET_GO)[:2] == (0, "waiter 137\nclient 137\ntmpfs\n")


# The same, with what isn't mounted by FUSE.
OTHERS = """set -e
mount --make-rprivate /
mount -t tmpfs tmpfs "$1"
! "$2" "$1"
! "$2" "$1/none"
! "$2"
findmnt -no FSTYPE "$1"
"""


@pytest.mark.skipif(os.geteuid() != 0, reason="it is for root, who may mount")
def test_let_go_of_what_is_no_store() -> None:
    """What isn't mounted by FUSE stays as it is. (A wrong one may take away mounts of its own machine alone.)"""
    with tempfile.TemporaryDirectory(prefix="standby-") as folder:
        status, out, err = ran(*ALONE, OTHERS, "others", folder, LET_GO)
        said = [f"let-go: nothing is mounted at {it} by FUSE" for it in (folder, f"{folder}/none")]
        assert (status, out, err.splitlines()) == (0, "tmpfs\n", [*said, "usage: let-go MOUNT"])


def test_a_touch_that_hangs() -> None:
    """A store that is dead answers nothing: the venue is ended once a write has hung for its longest time."""
    with tempfile.TemporaryDirectory(prefix="standby-") as folder:
        put(os.path.join(folder, f"{JOURNAL}.symbols"), b"ABC\n")
        environment = {**stub(folder, "venued", "exec sleep 600"), **stub(folder, "dd", "exec sleep 600")}
        text = text_of("contrib/standby/serve")
        assert text.count("LONGEST=10 ") == 1  # (here it is one second)
        path = put(os.path.join(folder, "serve"), text.replace("LONGEST=10 ", "LONGEST=1 ").encode(), 0o755)
        venue = subprocess.Popen([path, "9001", os.path.join(folder, JOURNAL), "2"], stderr=subprocess.PIPE, text=True,
                                 env={**os.environ, **environment}, start_new_session=True)
        try:
            assert venue.wait(PATIENCE) == -9
            assert sure(venue.stderr).readline() == "serve: this machine is cut off from the store: the venue is ended\n"
        finally:
            with contextlib.suppress(ProcessLookupError):
                os.killpg(venue.pid, signal.SIGKILL)
            venue.communicate(timeout=LONG)


def test_symbols_of_the_volume() -> None:
    """The venue is started with the symbols that lie beside the journal; without them it isn't."""
    with tempfile.TemporaryDirectory(prefix="standby-") as folder:
        environment = stub(folder, "venued", 'echo "$*"')
        put(os.path.join(folder, f"{JOURNAL}.symbols"), b"ABC XYZ\n")
        assert ran(SERVE, 9001, JOURNAL, 2, folder=folder, **environment) == (0, f"9001 {JOURNAL} 2 ABC XYZ\n", "")
        status, out, err = ran(SERVE, 9001, "none", 2, folder=folder, **environment)
        assert (status, out, err.splitlines()[-1]) == (1, "", "serve: none.symbols can't be read")
        assert ran(SERVE, 9001, JOURNAL, folder=folder, **environment) == (2, "", "usage: serve PORT JOURNAL GATEWAYS\n")


def test_the_watch() -> None:
    """The venue lives as long as the watch may touch its file, and is killed once that fails."""
    with tempfile.TemporaryDirectory(prefix="standby-") as folder:
        volume = os.path.join(folder, "volume")
        os.mkdir(volume)
        put(os.path.join(volume, f"{JOURNAL}.symbols"), b"ABC\n")
        environment = {**os.environ, **stub(folder, "venued", "exec sleep 600")}
        venue = subprocess.Popen([SERVE, "9001", os.path.join(volume, JOURNAL), "2"], stderr=subprocess.PIPE, text=True,
                                 env=environment)
        try:
            for _ in range(2):
                await_that("the watch touches its file",
                           lambda: os.path.exists(os.path.join(volume, f"{JOURNAL}.watch")))
                os.remove(os.path.join(volume, f"{JOURNAL}.watch"))
            assert venue.poll() == None
            os.rename(volume, f"{volume}.gone")
            assert venue.wait(PATIENCE) == -9
            assert sure(venue.stderr).readline() == "serve: this machine is cut off from the store: the venue is ended\n"
        finally:
            venue.kill()
            venue.communicate(timeout=LONG)


def test_settings_of_the_volume() -> None:
    """The settings that the script makes are those that docs/FAILOVER.md has, each with its reason."""
    with tempfile.TemporaryDirectory(prefix="standby-") as folder:
        status, out, err = ran(SETTINGS, "venue", **stub(folder, "gluster", 'printf "%s\\n" "$@"'))
        assert (status, err) == (0, "")
        words = out.split()
        assert words[:4] == ["--mode=script", "volume", "set", "venue"]
        made = list(zip(words[4::2], words[5::2]))
        page = re.findall(r"^\| (`.*`) \| (\w+) \|", text_of("docs/FAILOVER.md"), re.MULTILINE)
        assert made == [(name, value) for names, value in page for name in re.findall(r"`([\w.-]+)`", names)]
        assert ran(SETTINGS)[0] == 2


def test_options_of_the_mount() -> None:
    """The script's text, docs/FAILOVER.md, in its words and in its line of fstab, and the drill have the same ones."""
    found = re.compile(r"\bentry-timeout=[\w=,-]+")
    page = text_of("docs/FAILOVER.md")
    assert found.findall(page) == 2 * found.findall(text_of("contrib/standby/volume-settings"))
    assert set(found.findall(page)) == {OPTIONS}


def test_unit_of_a_standby() -> None:
    """What the unit asks of systemd is what docs/FAILOVER.md tells of it."""
    lines = text_of("contrib/standby/venued@.conf").splitlines()
    told = re.findall(r"`(\w+=[\w.-]+)`", text_of("docs/FAILOVER.md").partition("### The unit")[2].partition("###")[0])
    assert [it for it in told if it.startswith("Restart") and it not in lines] == []
    assert [it for it in lines if it.startswith("Restart") and it not in told] == []
