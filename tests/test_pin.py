"""Tests of scripts/pin: which thread it takes for which, where it puts them, and its line for each wrong word.

It is run on a venue, whose threads it asks the system about, and on a program that stands in for one, whose threads have the names
that they are given; a placement that is another one has to be seen.
"""
import os
import subprocess
import sys
import tempfile

import pytest

from checks import ROOT
from gikvand.words import sure
from script_modules import loaded
from venues import PATIENCE, Trouble, started

pytestmark = [pytest.mark.quick, pytest.mark.usefixtures("programs")]

PIN = os.path.join(ROOT, "scripts/pin")
CORES = sorted(os.sched_getaffinity(0))
GATEWAYS = 3
STAND_IN = """
import ctypes, sys, threading, time
def name(it): ctypes.CDLL(None).prctl(15, it.encode(), 0, 0, 0)
def work(it): name(it), together.wait(), time.sleep(600)
together = threading.Barrier(len(sys.argv))
for it in sys.argv[1:]: threading.Thread(target=work, args=(it,), daemon=True).start()
name("venued")
together.wait()
print("ready", flush=True)
sys.stdin.read()
"""
NAMES = ["gateway2", "marshaller", "gateway1", "journaller", "processor", "unmarshaller", "gateway3"]  # As they are started.


def pinned(*words: object) -> tuple[int, list[str], str]:
    """Runs scripts/pin: its status, its lines, and those on standard error."""
    it = subprocess.run([PIN, *map(str, words)], capture_output=True, text=True, timeout=PATIENCE)
    return it.returncode, it.stdout.splitlines(), it.stderr.strip()


def is_where(lines: list[str]) -> bool:
    """Whether each thread may run where these lines say it may."""
    return all(os.sched_getaffinity(int(line.split()[0])) == {int(it) for it in line.split()[-1].split(",")} for line in lines)


class Running:
    """A program with so many threads, which ends with the test."""

    def __init__(self, *names: str) -> None:
        words = [sys.executable, "-c", STAND_IN, *names]
        self.process = subprocess.Popen(words, stdin=subprocess.PIPE, stdout=subprocess.PIPE, text=True)

    def __enter__(self) -> int:
        if sure(self.process.stdout).readline() != "ready\n":
            self.process.kill()
            raise Trouble("expected a program that is ready came none")
        return self.process.pid

    def __exit__(self, *_: object) -> None:
        self.process.communicate()


def test_threads_with_names() -> None:
    """Each is known by its name, whatever their order is."""
    with Running(*NAMES) as pid:
        cores = CORES[:2]
        status, lines, err = pinned(pid, "--cores", ",".join(map(str, cores)))
        assert (status, err) == (0, "")
        roles = {role: f"core {core}" for role, core in (line.split(" ", 1)[1].split(", core ") for line in lines[1:])}
        first, last = cores[0], cores[-1]
        stages = {"unmarshaller": first, "processor": last, "marshaller": first, "journaller": last}
        gateways = dict.fromkeys(("gateway1", "gateway2", "gateway3"), last)
        assert roles == {it: f"core {core}" for it, core in {**stages, **gateways}.items()}
        assert is_where(lines) == True
        if len(cores) > 1:
            os.sched_setaffinity(int(lines[1].split()[0]), {first} if lines[1].endswith(f" {last}") else {last})
            assert is_where(lines) == False
        status, lines, err = pinned(pid, "--free")
        assert (status, err, [line.split(", core")[1].split()[-1] for line in lines]) == (0, "", [",".join(map(str, CORES))] * 8)
        assert is_where(lines) == True


@pytest.mark.soak
def test_threads_of_a_venue() -> None:
    """A venue has a thread for each stage and each gateway, and the watch."""
    with tempfile.TemporaryDirectory(prefix="pin-") as folder:
        venue = started(os.path.join(folder, "venue.journal"), GATEWAYS)
        pid = venue.process.pid
        tids = sorted(map(int, os.listdir(f"/proc/{pid}/task")))
        for at, tid in enumerate(tids):  # (somewhere, so that a move shows)
            os.sched_setaffinity(tid, {CORES[-1 - at % len(CORES)]})
        before = [os.sched_getaffinity(tid) for tid in tids]
        assert pinned(pid, "--show")[::2] == (0, "")
        assert [os.sched_getaffinity(tid) for tid in tids] == before
        for words in (("--show",), (), ("--free",)):
            status, lines, err = pinned(pid, *words)
            assert (status, err, is_where(lines)) == (0, "", True)
            assert sorted(line.split(" ", 1)[1].split(", ")[0] for line in lines) == sorted(["watch", *NAMES])
        assert venue.stop() == (0, 0)


def test_where_they_are_put() -> None:
    """The stages have the first cores, and the gateways what is left, or the last ones back to the second."""
    module = loaded("scripts/pin")
    threads = [module.Thread(at, role) for at, role in enumerate(["watch", *NAMES])]
    tid = {it.role: it.tid for it in threads}
    for cores, wanted in (([7], "7777777"), ([0, 1], "0101111"), ([0, 1, 2, 3], "0123321"), ([0, 1, 2, 3, 4, 5], "0123454"),
                          ([9, 8, 7, 6, 5, 4, 3, 2], "9876543")):
        found = module.places(threads, cores)
        order = ["unmarshaller", "processor", "marshaller", "journaller", "gateway1", "gateway2", "gateway3"]
        assert "".join(str(core) for it in order for core in found[tid[it]]) == wanted
        assert found[tid["watch"]] == set(cores)


def test_wrong_words() -> None:
    with Running(*NAMES) as pid, Running("one") as few, Running(*NAMES, *["more"] * 8) as many, Running(*NAMES[1:], NAMES[1]) as twice:
        usable = ",".join(map(str, CORES))
        other = os.getpid()
        with open(f"/proc/{other}/comm", encoding="ascii") as file:
            name = file.read().strip()
        with open("/proc/sys/kernel/pid_max", encoding="ascii") as file:
            nobody = int(file.read())  # (above the number of any process)
        for words, line in (
                (("x",), "PID is a number, and not 'x'"),
                ((nobody,), f"no process {nobody}"),
                ((other,), f"{other} is no venued, but {name}"),
                ((few,), f"{few} is no venued that listens: it has 2 threads, and not 6 to 13"),
                ((many,), f"{many} is no venued that listens: it has 16 threads, and not 6 to 13"),
                ((twice,), f"{twice} is no venued that listens: its threads have other names than unmarshaller, processor, marshaller, "
                           "journaller and gateway1 to gateway8"),
                ((pid, "--cores", "a"), "a core is a number, and not 'a'"),
                ((pid, "--cores", "1,"), "a core is a number, and not ''"),
                ((pid, "--cores", "4096"), f"core 4096 isn't one of {usable}"),
                ((pid, "--cores", f"{CORES[0]},{CORES[0]}"), f"core {CORES[0]} stands twice")):
            assert (words, *pinned(*words)) == (words, 1, [], f"pin: {line}")
        assert pinned()[0] == 2
        assert pinned(pid, "--show", "--free")[0] == 2
