"""Tests of gikvand store-contract, on a folder of this machine in the place of a store, whose three machines are processes that
tests/liar.c is loaded into: it is honest, or lies in one way. dev/failover-drill has it on GlusterFS."""
import contextlib
import os
import re
import shutil
import stat
import sys
import tempfile
from collections.abc import Iterator

import pytest

from checks import put_text, ran
from gikvand.words import sure
from made_journals import TOOLS
from refusals import compiled
from running_tools import kept_ports
from venues import REPLAY, VENUED, Late, in_some_try

pytestmark = [pytest.mark.slow, pytest.mark.skipif(not shutil.which("cc"), reason="cc compiles tests/liar.c")]

COMMAND = [sys.executable, "-m", "gikvand", "store-contract"]
NAMES = ("a", "b", "c")
ALONE = ["one lock", "passed on", "fresh opens", "cost of syncs"]
BY_A_CUT, BY_A_LOSS = ["no late writes", "no false success", "errors in time"], ["majority syncs", "whole replicas"]
ALL = [*ALONE, *BY_A_CUT, *BY_A_LOSS, "known times"]

# A machine: what it is asked runs in this folder's store. And what happens to one: NAME is the machine's file.
MACHINE = """#!/bin/sh
export LD_PRELOAD={folder}/liar.so LIAR_FOLDER={folder}/store LIAR_STATE={folder}/state LIAR_NAME=$(basename "$0") LIE={lie}
export PATH={programs}:$PATH
exec sh -c "$1"
"""
# Whoever is cut off is fenced at once, between two calls: there is one fence more, and this machine was fenced last.
CUT = """#!/bin/sh
name=$(basename "$1") state={folder}/state
exec 9>>"$state/moment"
flock 9
: >"$state/cut-$name"
printf x >>"$state/epoch"
cp "$state/epoch" "$state/fenced-$name"
"""
JOIN = """#!/bin/sh
rm "{folder}/state/cut-$(basename "$1")"
"""
# All processes of the machine. (Their numbers may be others' by now.)
KILL = """#!/bin/sh
name=$(basename "$1") state={folder}/state
mv "$state/pids-$name" "$state/gone"
while read -r pid; do
    grep -qzF "LIAR_STATE=$state" "/proc/$pid/environ" 2>/dev/null && kill -KILL "$pid"
done <"$state/gone"
exit 0
"""
START = "#!/bin/sh\n"


@contextlib.contextmanager
def store(lie: str = "", programs: str = "/nowhere") -> Iterator[str]:
    """A folder with such a store, its machines with programs in this folder, and what may happen to them."""
    with tempfile.TemporaryDirectory(prefix="contract-") as folder:
        for name in ("state", "store"):
            os.mkdir(os.path.join(folder, name))
        compiled("tests/liar.c", os.path.join(folder, "liar.so"), "-shared", "-fPIC", "-ldl")
        for name, text in (*((it, MACHINE) for it in NAMES), ("cut", CUT), ("join", JOIN), ("kill", KILL), ("start", START)):
            put_text(os.path.join(folder, name), text.format(folder=folder, lie=lie, programs=programs), stat.S_IRWXU)
        yield folder


def words(folder: str, *happens: str) -> list[str]:
    """The words of the command on this store, with what may happen to a machine."""
    machines = [word for it in NAMES for word in ("--machine", f"{folder}/{it}")]
    return [*machines, "--folder", f"{folder}/store", *(word for it in happens for word in (f"--{it}", f"{folder}/{it} NAME"))]


def called(*more: str, **environment: str) -> tuple[int, str, str]:
    """Runs the command with these words: its status, and both of its outputs."""
    return ran(*COMMAND, *more, PYTHONPATH=TOOLS, **environment)


def tried(folder: str, *happens: str, more: tuple[str, ...] = (), **environment: str) -> tuple[int, dict[str, str], str]:
    """Tries the store: the status, what is said of each property, and the last line."""
    status, out, err = called(*words(folder, *happens), "--stay", "2", "--rounds", "20", *more, **environment)
    assert err == ""
    *lines, last = out.splitlines()
    return status, {it[:17].strip(): it[18:] for it in lines}, last


def failed(lie: str) -> dict[str, str]:
    """What fails on a store that lies so."""
    with store(lie) as folder:
        status, said, _ = tried(folder, "cut", "join", "kill", "start")
        found = {name: line for name, line in said.items() if line.startswith("fail")}
        assert (lie, status) == (lie, 1 if found else 0)
        return found


@pytest.mark.soak
def test_honest_store() -> None:
    """A store that keeps its contract passes in all; nothing of ours is left on it."""
    with store() as folder:
        status, said, last = tried(folder, "cut", "join", "kill", "start")
        assert (status, {it: line.split(":")[0] for it, line in said.items() if it != "a venue"}) == (0, dict.fromkeys(ALL, "pass"))
        assert os.listdir(f"{folder}/store") == []
        assert "EIO after " in said["errors in time"]
        assert said["fresh opens"] == "pass: an old byte in 0 of 20 rounds; behind before-start in 0"


@pytest.mark.soak
def test_what_is_not_tried() -> None:
    """Without what cuts or kills a machine the properties that need it aren't tried."""
    for happens, wanted in (((), [*BY_A_CUT, *BY_A_LOSS]), (("cut", "join"), BY_A_LOSS), (("kill", "start"), BY_A_CUT)):
        with store() as folder:
            status, said, last = tried(folder, *happens)
            left = [it for it, line in said.items() if line.startswith("not tried") and it != "a venue"]
            assert (happens, status, sorted(left)) == (happens, 0, sorted(wanted))


@pytest.mark.soak
def test_late_writes() -> None:
    """A store that lets in, later, who was cut off."""
    assert list(failed("late")) == ["no late writes"]


@pytest.mark.soak
def test_stale_reads() -> None:
    """A machine that remembers what it looked at: before-start makes up for that where the machine can forget."""
    assert failed("stale") == {"fresh opens": "fail: an old byte in 20 of 20 rounds; behind before-start in 0"}


@pytest.mark.soak
def test_stale_reads_for_good() -> None:
    """A machine that remembers, and can't forget."""
    with store("mapped") as folder:
        status, said, _ = tried(folder, more=("--rounds", "2"))
        assert (status, said["fresh opens"]) == (1, "fail: an old byte in 2 of 2 rounds; behind before-start in 2")


@pytest.mark.soak
def test_locks_passed_early() -> None:
    """A lock that passes on by a time, as a lease does."""
    found = in_some_try(lambda _: passed_early(), "locks_passed_early")
    assert found.startswith("fail: b got the lock after ")


def passed_early() -> str:
    """What is said of such a lock. It is asked for during two seconds, most of which a machine may stand still."""
    if "passed on" not in (found := failed("early")):
        raise Late(f"expected a lock that is seen to pass on came {found}")
    return found["passed on"]


@pytest.mark.soak
def test_syncs_that_lie() -> None:
    """A store that tells of a sync before it has the bytes."""
    found = failed("sync")
    assert found["majority syncs"].startswith("fail: b has 1 of ")


@pytest.mark.soak
def test_success_while_cut_off() -> None:
    """A store that tells a machine of success which is cut off."""
    found = failed("cut")
    assert "no false success" in found and "majority syncs" not in found


@pytest.mark.soak
@pytest.mark.usefixtures("programs")
def test_a_venue_goes_on() -> None:
    """Last a real venue goes on: behind its end, a cut and a loss; what its members were told stands in the journal."""
    for happens, what in (((), "its end"), (("cut", "join"), "a cut"), (("kill", "start"), "a loss")):
        with store(programs=os.path.dirname(VENUED)) as folder, kept_ports(4) as port:
            status, said, last = tried(folder, *happens, more=("--port", f"{port}", "--rounds", "1"))
            found = re.fullmatch(rf"pass: it goes on [\d.]+ s behind {what}, and (\d+) reports that its members were told stand in "
                                 "the journal", said["a venue"])
            assert (happens, status, said["a venue"] if not found else "") == (happens, 0, "")
            assert (happens, int(sure(found)[1]) > 300) == (happens, True)


@pytest.mark.soak
@pytest.mark.usefixtures("programs")
def test_a_venue_that_loses_reports() -> None:
    """A report that a member was told, and that the journal doesn't tell, is found: here venue-replay leaves one out."""
    with store(programs=os.path.dirname(VENUED)) as folder, kept_ports(4) as port:
        path = put_text(f"{folder}/replay", f'#!/bin/sh\n{REPLAY} "$@" | sed 3d\n', stat.S_IRWXU)
        more = ("--port", f"{port}", "--rounds", "1")
        status, said, last = tried(folder, more=more, VENUE_REPLAY=path)
        assert (status, said["a venue"][:34]) == (1, "fail: C1: the venue didn't tell it")


@pytest.mark.soak
def test_folders_in_use() -> None:
    """A folder in which something else is stays as it is, as one of a venue; so does one that isn't the same on all machines."""
    with store() as folder:
        with open(f"{folder}/store/venue.journal", "wb"):
            pass
        said = called(*words(folder))
        assert said == (2, "", f"gikvand store-contract: the folder isn't empty: {folder}/store has venue.journal. A store isn't tried "
                        "beside a venue\n")
        assert os.listdir(f"{folder}/store") == ["venue.journal"]


def test_words() -> None:
    """Words that can't be meant are refused before anything is done."""
    for more, said in ((["--machine", "x"], "give --machine 3 times, and not 4"), (["--folder", "here"], "not a whole path"),
                       (["--stay", "-1"], "not a number of seconds"), (["--rounds", "0"], "not a number above 0")):
        with store() as folder:
            status, out, err = called(*words(folder), *more)
            assert (more, status, out, said in err) == (more, 2, "", True)


@pytest.mark.soak
def test_commands_that_fail() -> None:
    """A command that ends badly is told, with what it said; a machine that can't be reached too."""
    with store() as folder:
        status, out, err = called(*words(folder), "--cut", "sh -c 'echo no; exit 3'", "--join", "true", "--stay", "1",
                                  "--rounds", "1")
        assert (status, err) == (2, "gikvand store-contract: a command ended badly: sh -c 'echo no; exit 3': status 3: no\n")
        os.remove(f"{folder}/b")
        put_text(f"{folder}/b", "#!/bin/sh\nexit 255\n", stat.S_IRWXU)
        status, out, err = called(*words(folder))
        assert (status, out, err) == (2, "", "gikvand store-contract: b has ended its connection\n")
