"""Tests of scripts/check, of .ci/run, which calls scripts/check, and of scripts/soak: what is counted of the parts, that a part which
fails, crashes or tries too few tests makes the check fail, that no part is left out, and what is said where something isn't there.

Each part is a script here, which says what the test wants. CI_RUN and CHECK in the environment name another .ci/run and another
scripts/check: tests/known_bad.py puts wrong ones there.
"""
import collections
import fnmatch
import glob
import os
import re
import shlex
import shutil
import subprocess
import sys
from collections.abc import Iterable
from typing import NamedTuple

import pytest

import crates
import part_runs
import venues
from checks import ROOT, copy_program, put_text, text_of
from part_runs import CORES, Runs
from parts import GATE, PARTS, PROOFS, SETUPS, SOAK, Part

pytestmark = pytest.mark.quick

RUN, CHECK = (os.path.abspath(os.environ.get(name, os.path.join(ROOT, path)))
              for name, path in (("CI_RUN", ".ci/run"), ("CHECK", "scripts/check")))
MODULES = ("scripts/crates.py", "scripts/debian.py", "scripts/needs_python.py", "scripts/parts.py", "scripts/part_runs.py")
SCRIPTS = {"scripts/check": CHECK, ".ci/run": RUN, "scripts/soak": ""}
PATIENCE = 300
PART = '#!/bin/bash\necho "{name} $*" >>{asked}\n{does}\n'
NOTES = 'echo "${0##*/} $* in ${PWD##*/}" >>"$NOTED"\n'
A_PLAY = "tests/one.play"
# In the place of Python, which is started once in a check, and not for each part: that takes as long as ten scripts. Asked for pytest it
# does what the script does that has the name of its words, with as many workers as the table says; asked for modules it has them all.
PYTHON = r"""#!/bin/bash
set -f
case "$1 $2" in
"-m pytest")
    play=A_PLAY words="pytest ${*:4}"
    words=${words//"$play"/tests/*.play} script=$words
    [[ $words =~ (.*-n )[0-9]+(.*) ]] && script=${BASH_REMATCH[1]}N${BASH_REMATCH[2]}
    exec bash "MODULES/${script//\//:}" ${words#* } ;;
"-c "*) exit 0 ;;
*) exec -a "$0" PYTHON "$@" ;;
esac
"""
ELSEWHERE = ("rt", "chromium", "glusterd", "valgrind", "apt-get")  # Programs of the path.
MARKED = "marked"  # The part of the tests that have the mark of the soak.
BUILT = ("crates/venued/out/venued", "crates/venue_replay/out/venue_replay", "crates/venue_events/out/venue_events",
         "crates/bench/out/bench", "edge/out/gikvand-edge", "edge/out/tradeclient", "edge/out/FIX44.xml",
         "crates/edge_frames_c/out/libedge_frames_c.a", "feed/out/gikvand-feed")
# Executables that are no parts, or are called by one.
NO_PARTS = {"dev/play", "dev/same-verdict", "dev/images", "dev/bench", "dev/bench-tools", "dev/bench-venue", "dev/kill-and-restart", "dev/reads",
            "tests/oracle/replay_rules.py", "tests/oracle/events_rules.py", "edge/certify", "edge/speed", "edge/try",
            "feed/servers", "feed/speed"}


def counted(found: Iterable[Part] = PARTS) -> dict[str, int]:
    """Returns the least counts of these parts, but for the setups, which have no last line."""
    return {part.name: part.least for part in found if part.name not in SETUPS}


def every() -> int:
    """Returns how many tests pass in a full check in which all pass: the sum of the least counts."""
    return sum(counted(GATE).values())


def until(path: str) -> str:
    """Returns what a part does that waits until this file is there."""
    return f"for at in $(seq {20 * venues.PATIENCE}); do [ -e {path} ] && break; sleep 0.05; done; [ -e {path} ] || exit 1"


def passes(count: int) -> str:
    """Returns what a part does of which `count` tests pass."""
    return f"echo something; echo '{count} passed, 0 failed'"


class Ran(NamedTuple):
    """How a check ended, all its lines, what it said on standard error, and which parts it called, in their order."""
    status: int
    lines: list[str]
    err: str
    called: list[str]

    @property
    def last(self) -> str:
        return self.lines[-1] if self.lines else ""

    def again(self) -> list[str]:
        """What it has shown at the end of the parts that failed."""
        return self.lines[min((at for at, it in enumerate(self.lines) if it.startswith("== what failed")), default=len(self.lines)):]


def ran(*words: str, by: str = "scripts/check", without: tuple[str, ...] = (), **others: str) -> Ran:
    """Runs the check where these parts, by names, do something else, and what is built is there but for these files or programs."""
    shutil.rmtree("tree", ignore_errors=True)
    asked = os.path.abspath("tree/asked")
    stubs = {f"path/{it}": (it, ["true"]) for it in ELSEWHERE if it not in without}
    for part in PARTS:
        program, _, given = flat(part.command).partition(" ")
        if program == "pytest":
            path = "modules/" + re.sub("-n ([0-9]+|{cores})", "-n N", flat(part.command)).replace("/", ":")
        else:
            path = program if os.sep in program else f"path/{program}"
        if program not in without:
            given, does = given.replace("{cores}", '"*"'), others.get(part.name, passes(max(1, part.least)))
            stubs.setdefault(path, (program, []))[1].append(f'case "$*" in "{given}") {does};; esac')  # (one may be two parts)
    for path in [*BUILT, *MODULES, *SCRIPTS]:
        os.makedirs(os.path.dirname(os.path.join("tree", path)), exist_ok=True)
    for path, (name, texts) in stubs.items():
        put_text(os.path.join("tree", path), PART.format(name=name, asked=asked, does="\n".join(texts)), 0o755)
    put_text(os.path.join("tree", A_PLAY), "")
    python = put_text("tree/path/python3", PYTHON.replace("A_PLAY", A_PLAY).replace("MODULES", os.path.abspath("tree/modules"))
                      .replace("PYTHON", sys.executable), 0o755)
    for path in BUILT:
        if path not in without:
            shutil.copy("/bin/true", os.path.join("tree", path))
    for path, source in (*SCRIPTS.items(), *((it, "") for it in MODULES)):
        copy_program(path, source, "tree")
        os.chmod(os.path.join("tree", path), 0o755)
    kept = {name: value for name, value in os.environ.items()
            if name not in ("VENUED", "VENUE_REPLAY", "VENUE_EVENTS", "GIKVAND_EDGE", "GIKVAND_FEED", "BENCH", "CHROMIUM")}
    path = f"{os.path.abspath('tree/path')}:/usr/bin:/bin"
    it = subprocess.run(["bash" if by == ".ci/run" else python, f"tree/{by}", *words], capture_output=True, text=True, timeout=PATIENCE,
                        env={**kept, "PATH": path}, stdin=subprocess.DEVNULL)
    called = []
    if os.path.exists(asked):
        with open(asked, encoding="ascii") as file:
            called = [line.strip() for line in file if line.split()[0] != "apt-get"]
    return Ran(it.returncode, it.stdout.splitlines(), it.stderr, called)


def flat(command: str) -> str:
    """Returns the words of a command, as a script is told them."""
    return " ".join(shlex.split(command))


def commands(names: Iterable[str], cores: int) -> list[str]:
    """Returns the commands of these parts, in the order of the table, where each may run so many programs."""
    return [flat(part.shown(cores)) for part in PARTS if part.name in {*names}]


def of_check(names: Iterable[str] | None = None) -> list[str]:
    """Returns the commands of these parts of the full check, or of all of them: a part beside the proofs runs one program."""
    return [flat(part.shown(1 if part.is_free() else CORES)) for part in GATE if names is None or part.name in {*names}]


def test_all_pass() -> None:
    """Where all parts pass, their counts are added, and each part of the full check was called and no other one: in the order of the
    table, but for the parts beside the proofs."""
    came = ran(by=".ci/run")
    assert (came.status, came.last, came.again()) == (0, f"{every()} passed, 0 failed", [])
    ends = [line.split()[0] for line in came.lines[1:-3]]  # (a line for each part; what a part says stands in its file)
    beside = [part.name for part in [*filter(Part.is_free, GATE), *(it for it in GATE if it.has("waits"))]]
    for names in (beside, [part.name for part in GATE if part.name not in beside]):
        of_these = [command for name in names for command in of_check([name])]
        assert [command for command in came.called if command in of_these] == of_these
        assert [name for name in ends if name in names] == names
    assert (sorted(came.called), len(ends)) == (sorted(of_check()), len(GATE))
    assert said_by("play") == ["something", f"{counted()['play']} passed, 0 failed"]
    assert [re.search(r"(?:check: |; )\d+ cores; .* of memory and .* of disk are free$", came.lines[at]) is None for at in (0, -2)] == [False] * 2
    assert re.search(r"^\d+ minutes of a processor; the bound from nothing is 125, or 0: 70 times the 0 s of the proof", came.lines[-3])


def test_retries() -> None:
    """A line of a smoke test that was tried once more stands among the last lines, and is counted there."""
    came = ran(by=".ci/run", smoke_edge="echo retried: edge: why; echo '1 passed, 0 failed'", smoke_feed="echo 'retried: feed: why'; exit 1")
    assert (came.status, came.last) == (1, f"{every() - 1} passed, 1 failed")
    assert {line for line in came.lines[-4:] if line.startswith("retried: ")} == {"retried: edge: why", "retried: feed: why"}
    assert "; 2 tests tried once more; " in came.lines[-2]


def test_the_soak() -> None:
    """The soak calls each of its parts and no other one, or the parts that are named, and counts what passed. A part that can't be tried
    has a line."""
    came = ran(by="scripts/soak")
    shown = [flat(part.shown(1 if part.is_free() else CORES)) for part in SOAK]
    assert (came.status, came.last, sorted(came.called)) == (0, f"{sum(counted(SOAK).values())} passed, 0 failed", sorted(shown))
    came = ran("members", "siege", by="scripts/soak", siege="echo why; echo '12 passed, 1 failed'; exit 1")
    assert (came.status, came.last) == (1, f"{counted()['members'] + 12} passed, 1 failed")
    assert sorted(came.called) == sorted(commands(("members", "siege"), 1))
    came = ran(by="scripts/soak", without=("feed/out/gikvand-feed",))
    left = {part.name for part in SOAK if part.has("feed")}
    assert {line.split()[0] for line in came.lines if "is left out: feed/out/gikvand-feed isn't built" in line} == left
    assert (came.status, len(came.called)) == (0, len(SOAK) - len(left))
    for words in (("members",), ("play",)):
        assert ran(*words, by="scripts/soak", without=BUILT).status == 2


def test_parts_beside() -> None:
    """A part that waits runs beside the parts behind it, and one behind the other of its kind; a smoke test of the edge or the feed is
    behind its setup. A part that needs nothing runs beside the proofs."""
    came = ran(by=".ci/run", without=(), proofs=f"touch proofs; {until('dictionary')}; {passes(counted()['proofs'])}",
               dictionary=f"{until('proofs')}; touch dictionary; {passes(counted()['dictionary'])}",
               smoke_member=f"{until('users')}; touch member; {passes(1)}", users=f"touch users; {passes(counted()['users'])}",
               **{f"smoke_{name}": f"[ -e member ] && [ -e {name}-setup ] || exit 1; {passes(1)}" for name in ("edge", "feed")},
               **{name: f"touch {name}" for name in SETUPS})
    assert (came.status, came.last, came.again()) == (0, f"{every()} passed, 0 failed", [])
    came = ran(by=".ci/run", smoke_edge="echo '1 passed, 1 failed'; exit 1", dictionary=f"echo '{counted()['dictionary']} passed, 1 failed'")
    assert (came.status, came.last) == (1, f"{every()} passed, 2 failed")


def said_by(part: str) -> list[str]:
    """What a part of the last check has said, by what the check kept."""
    with open(f"tree/out/check/{part}.txt", encoding="ascii") as file:
        return file.read().splitlines()


def test_a_part_that_takes_long(monkeypatch: pytest.MonkeyPatch) -> None:
    """The newest line of a part that takes long is shown from time to time. At the end of the part all of its lines are there, and what it
    took of a processor."""
    monkeypatch.setattr(part_runs, "SAID", os.path.abspath("said"))
    counts = "i=0; while [ $i -lt 100000 ]; do i=$((i + 1)); done"  # By a process of its own.
    slow = put_text("slow", f"#!/bin/sh\necho first\nsh -c '{counts}'\n{until(os.path.abspath('shown'))}\necho '3 passed, 0 failed'\n", 0o755)
    monkeypatch.setattr(part_runs, "print", shows_first, raising=False)
    ended = Runs().ran(Part("slow", slow, "quick", 3), 1, 0.05)
    assert (ended.status, ended.lines, ended.processor > 0) == (0, ["first", "3 passed, 0 failed"], True)


def shows_first(line: str, **_: object) -> None:
    """Lets the slow part end, once its first line is shown as the newest one."""
    if re.fullmatch(r"slow +\d+ minutes; its newest line: first", line):
        put_text("shown", "")


def test_a_part_that_stands_still(monkeypatch: pytest.MonkeyPatch) -> None:
    """A part of the full check that comes to no end is ended, and has failed; the proofs may take as long as they take."""
    monkeypatch.setattr(part_runs, "SAID", os.path.abspath("said"))
    monkeypatch.setattr(part_runs, "HEARD", 0.05)
    monkeypatch.setattr(part_runs, "MOST", 0.05)
    told = list[str]()

    def noted(line: str, **_: object) -> None:
        """Lets the part end whose line is told."""
        told.append(line)
        put_text(f"{line.split()[0]}-told", "")
    monkeypatch.setattr(part_runs, "print", noted, raising=False)
    is_told = until(f"{os.path.abspath(PROOFS)}-told")
    for name, does, verdict in (("still", f"exec sleep {venues.PATIENCE}", (0, 1, "the part ended with status -9, and without its last line")),
                                (PROOFS, f"{is_told}; echo '1 passed, 0 failed'", (1, 0, ""))):
        told.clear()
        assert Runs().run_one(Part(name, put_text(name, f"#!/bin/sh\n{does}\n", 0o755), "quick", 1)) == verdict
        assert any("are too many; its newest line" in line for line in told) == (name == "still")


def test_the_longest_first(monkeypatch: pytest.MonkeyPatch) -> None:
    """Those begin first that took longest the last time. What hasn't run yet counts by its mark."""
    monkeypatch.setattr(part_runs, "SAID", os.path.abspath("said"))
    monkeypatch.setattr(part_runs, "CORES", 1)
    does = put_text("does", '#!/bin/sh\necho "$1" >>asked\necho "1 passed, 0 failed"\n', 0o755)
    monkeypatch.setattr(part_runs, "ROOT", os.getcwd())
    parts = [Part(name, f"{does} {name}", marks, 1) for name, marks in (
        ("one", "quick"), ("two", "slow"), ("three", "quick"), ("four", "slow"), ("five", "quick"))]
    for name, seconds in (("three", "70.5"), ("four", "2"), ("five", "no number")):
        put_text(f"said/{name}.seconds", seconds)
    assert [part_runs.last_time(it) for it in parts] == ["-", "-", "70 s", "2 s", "-"]
    runs = Runs()
    runs.run_beside(parts, False)
    with open("asked", encoding="ascii") as file:
        assert file.read().split() == ["three", "two", "four", "one", "five"]
    assert (runs.passed, runs.failed, part_runs.last_time(parts[2]) != "70 s") == (5, 0, True)


EVERY_KIND = pytest.mark.parametrize("part", ("users", "proofs", "refused_memory"))  # By pytest, by a program of the path, and by one of the tree.


@EVERY_KIND
@pytest.mark.parametrize("does, passed, failed", (("echo why it fails; echo '{least} passed, 3 failed'; exit 1", "least", 3),
                                                  ("echo why it fails; echo '{least} passed, 3 failed'", "least", 3),
                                                  ("echo why it fails", 0, 1), ("exit 0", 0, 1),
                                                  ("echo '{least} passed, 0 failed'; echo more", 0, 1),
                                                  ("echo '{least} passed, 0 failed, 1 left out'", 0, 1)))
def test_parts_that_fail(part: str, does: str, passed: int | str, failed: int) -> None:
    """A part whose last line counts a failure, or that ends without such a line, or says something behind it, makes the status 1. Its
    last lines are shown at the end."""
    least = counted()[part]
    came = ran(by=".ci/run", without=(), **{part: does.format(least=least)})
    wanted = every() - least + (least if passed == "least" else int(passed))
    assert (came.status, came.last) == (1, f"{wanted} passed, {failed} failed")
    command, = of_check({part})
    assert came.again()[:1] == [f"== what failed has said last: {command}"]
    if "why" in does:
        assert "why it fails" in came.again()


def test_a_setup_that_fails() -> None:
    """Where edge/setup ends badly that counts, and no part of the edge is called, and so with the feed's; dev/measures counts as any
    part."""
    for setup, behind in (("edge-setup", {"framer", "smoke_edge"}), ("feed-setup", {"smoke_feed"})):
        came = ran(by=".ci/run", without=(), **{setup: "exit 1"})
        assert (came.status, came.last) == (1, f"{every() - sum(counted()[it] for it in behind)} passed, 1 failed")
        assert sorted(came.called) == sorted(set(of_check()) - set(of_check(behind)))
    came = ran(by=".ci/run", without=(), measures="echo bad; exit 1")
    assert (came.status, came.last) == (1, f"{every() - counted()['measures']} passed, 1 failed")


def test_proofs_that_fail() -> None:
    """Where the proofs fail and make no programs, no part is called that takes one, and what is shown at the end are the prover's
    reasons and last lines. Where the programs are there all others are called."""
    fails = f"echo x NOT PROVED; seq 100; echo '{counted()['proofs']} passed, 1 failed'; exit 1"
    cases: list[tuple[tuple[str, ...], set[str]]] = [(BUILT[:1], {"built"}), (BUILT[:4], {"built", "bench"}), ((), set())]
    for without, marks in cases:
        came = ran(by=".ci/run", without=without, proofs=fails)
        behind = {it.name for it in GATE if marks.intersection(it.marks.split())}
        assert (came.status, came.last) == (1, f"{every() - sum(counted()[it] for it in behind)} passed, 1 failed")
        assert sorted(came.called) == sorted(set(of_check()) - set(of_check(behind)))
        assert {it.split()[0] for it in came.lines if "  is left out: what it needs couldn't be made (" in it} == behind
        assert came.again()[:3] == ["== what failed has said last: rt ci", "x NOT PROVED", "62"]


@pytest.mark.skipif(os.geteuid() != 0, reason="a network of its own is for root")
def test_the_python_of_a_part() -> None:
    """In a part python3 is at once the Python of the tests, which the path may have behind a script that looks for one. No link to it
    stands in the project, in which rt takes none."""
    count, own = counted()["users"], os.path.abspath("tree/path/python3")
    is_so = f'[[ $(readlink "$(command -v python3)") == "{own}" && -z $(find . -type l) ]]'
    assert ran("users", users=f"{is_so} || exit 1; {passes(count)}").last == f"{count} passed, 0 failed"


def test_a_network_of_its_own() -> None:
    """Each part with venues has one, in which the system's own address is there, and a part that installs packages has none."""
    if subprocess.run(["unshare", "--net", "ip", "link", "set", "lo", "up"], stderr=subprocess.DEVNULL).returncode:
        pytest.skip("no network of its own can be had")
    sees = "readlink /proc/self/ns/net >net-{name}; ip -o addr show up >at-{name}; {waits}; {passes}"
    names, beside = ("users", "smoke_member", "smoke_package"), {"users": "smoke_member", "smoke_member": "users"}
    # (A number is given again once its network has gone: two that are compared are there at the same time.)
    waits = {it: until(f"net-{other}") for it, other in beside.items()}
    ran(by=".ci/run", without=(), **{it: sees.format(name=it, waits=waits.get(it, "true"), passes=passes(counted()[it])) for it in names})
    networks = []
    for name in names:
        with open(f"tree/net-{name}", encoding="ascii") as net, open(f"tree/at-{name}", encoding="ascii") as at:
            networks.append(net.read().strip())
            assert (name, "inet 127.0.0.1/8" in at.read()) == (name, True)
    ours = os.readlink("/proc/self/ns/net")
    assert (len(set(networks[:2])), ours in networks[:2], networks[2:]) == (2, False, [ours])


@pytest.mark.parametrize("words", (
    [sys.executable, "-c", "import sys; sys.path[:0] = ['scripts']; import debian; debian.install('a-package')"],
    ["bash", "-c", "cd edge && . ./packages.bash && need a-package"]))
def test_packages_while_others_are_installed(words: list[str]) -> None:
    """Whoever installs packages waits for somebody else who does so just then, as a Debian that looks for new ones by itself."""
    put_text("path/apt-get", PART.format(name="apt-get", asked=os.path.abspath("asked"), does="true"), 0o755)
    put_text("path/dpkg-query", "#!/bin/sh\nexit 1\n", 0o755)
    put_text("path/sudo", '#!/bin/sh\nexec "$@"\n', 0o755)
    assert subprocess.run(words, cwd=ROOT, env={**os.environ, "PATH": f"{os.path.abspath('path')}:/usr/bin:/bin"}, timeout=PATIENCE).returncode == 0
    with open("asked", encoding="ascii") as file:
        options = [" ".join(line.split()[1:3]) for line in file]
    assert options == ["-o DPkg::Lock::Timeout=600"]


@pytest.mark.parametrize("words, status, asked", (
    (("--tests",), 0, ["rt lib"]), (("--tests", "--as-made"), 0, ["rt doc", "rattle build"]), (("--tests", "--as-made"), 3, ["rt doc", "rattle build"])))
def test_framer_as_made(words: tuple[str, ...], status: int, asked: list[str]) -> None:
    """Behind `rt ci` the crates below the framer are taken as they stand: the prover makes the library of that crate, and rt none."""
    for name in ("edge/setup", "edge/packages.bash", "scripts/library-for-c", "scripts/crates.py", "scripts/needs_python.py", "crates.txt"):
        copy_program(name)
    put_text("kit/bin/rattle", f"#!/bin/sh\n{NOTES}echo says\necho why >&2\nexit {status}\n", 0o755)
    put_text("path/rt", f"#!/bin/sh\n{NOTES}echo {os.path.abspath('kit')}/START-HERE.md\n", 0o755)
    put_text("path/dpkg-query", "#!/bin/sh\necho installed\n", 0o755)
    put_text("path/cmake", "#!/bin/sh\nexit 1\n", 0o755)
    put_text("crates/edge_frames_c/src/lib.rt", "")
    environment = {**os.environ, "PATH": f"{os.path.abspath('path')}:{os.environ['PATH']}", "NOTED": os.path.abspath("asked")}
    made = subprocess.run(["edge/setup", *words], env=environment, capture_output=True, text=True)
    lines = text_of(os.path.abspath("asked")).splitlines()
    assert [" ".join(it.split()[:2]) for it in lines] == asked
    why = "the proved framer can't be built: crates/edge_frames_c/out/lib.log says why" if status else "cmake can't prepare out"
    assert (made.returncode, made.stderr) == (1, f"edge/setup: {why}\n")
    if words[1:]:
        assert re.search(r"--crate-name edge_frames_c src/lib.rt .* --crate-type staticlib .* -o out/libedge_frames_c.a in edge_frames_c$", lines[-1])
        assert text_of(os.path.abspath("crates/edge_frames_c/out/lib.log")) == "says\nwhy\n"


@EVERY_KIND
@pytest.mark.parametrize("does", ("exit 3", "kill -KILL $$", "kill -SEGV $$"))
def test_parts_that_crash(part: str, does: str) -> None:
    """A part that ends by a signal, or with a status that its last line doesn't say, has failed."""
    came = ran(by=".ci/run", without=(), **{part: f"{passes(counted()[part])}; {does}"})
    assert (came.status, came.last) == (1, f"{every()} passed, 1 failed")
    assert any(it.startswith(f"{part}: the part ended with status ") for it in came.again())


def test_a_part_that_is_not_there() -> None:
    came = ran(by=".ci/run", without=("dev/measures",))
    assert (came.status, came.last) == (1, f"{every() - counted()['measures']} passed, 1 failed")
    assert "dev/measures can't be run" in came.again()


def test_parts_of_fewer_tests() -> None:
    """A part of which fewer tests were tried than its least count has failed, and a line says so; what failed of them counts as tried."""
    fewer = {name: passes(least - 1) for name, least in counted().items()}
    for words, by, names in (((), ".ci/run", list(counted(GATE))), ((), "scripts/check", list(counted(without_proof())))):
        came = ran(*words, by=by, without=(), **fewer)
        passed = sum(counted()[it] - 1 for it in names)
        assert (by, came.status, came.last) == (by, 1, f"{passed} passed, {len(names)} failed")
        for it in names:
            said = f"{counted()[it] - 1} tests of the part were tried, and the part has {counted()[it]} at least"
            assert (by, it, f"{it}: {said}" in came.again()) == (by, it, True)
    came = ran(by=".ci/run", users=f"echo '{counted()['users'] - 1} passed, 1 failed'; exit 1")
    assert (came.status, came.last) == (1, f"{every() - 1} passed, 1 failed")
    assert [it for it, least in counted().items() if least < 1] == []


def without_proof() -> list[Part]:
    """Returns the parts of the full check that need no proof."""
    return [part for part in GATE if not part.has("long")]


def test_side_by_side() -> None:
    """Without words each part that takes no proof is called once, and with names those alone. The last lines of each that fails are
    shown at the end."""
    short = {it.name for it in without_proof()}
    came = ran()
    assert (came.status, came.last) == (0, f"{sum(counted()[it] for it in short)} passed, 0 failed")
    assert sorted(came.called) == sorted(commands(short, 1))
    least = counted()["wrong_edges"]
    came = ran("users", "wrong_edges", wrong_edges=f"echo why it fails; echo '{least} passed, 2 failed'; exit 1")
    assert (came.status, came.last) == (1, f"{counted()['users'] + least} passed, 2 failed")
    assert sorted(came.called) == sorted(commands({"users", "wrong_edges"}, 1))
    command, = commands({"wrong_edges"}, CORES)
    assert came.again()[:2] == [f"== what failed has said last: {command}", "why it fails"]
    came = ran(users="kill -KILL $$")
    assert (came.status, came.last.endswith(" passed, 1 failed")) == (1, True)


def test_nothing_is_built() -> None:
    """Where the programs aren't built it says what builds them, tries nothing, and ends with status 2; without the edge, a browser, the
    benchmark or a package it says what is left out, and tries all others."""
    for without in (BUILT, BUILT[:1], BUILT[2:3]):
        came = ran(without=without)
        wanted = [f"check: {it} isn't built: {f'{it[:4]}/setup --tests' if it.startswith(('edge/', 'feed/')) else 'scripts/build'} builds it"
                  for it in without if not it.startswith(("crates/bench", "crates/edge"))]
        assert (came.status, came.lines, came.err.splitlines(), came.called) == (2, [], wanted, [])
    came = ran("users", without=BUILT[:1])
    assert (came.status, came.called) == (2, [])
    came = ran("dictionary", without=BUILT)
    assert (came.status, len(came.called)) == (0, 1)
    for without, part, why in ((("edge/out/tradeclient",), "smoke_edge", "edge/out/tradeclient isn't built: edge/setup --tests builds it"),
                               (("crates/bench/out/bench",), "twins", "crates/bench/out/bench isn't built: `rt run` in crates/bench")):
        came = ran(without=without)
        assert (came.status, [it for it in came.lines if it.startswith(f"{part:18}  is left out: {why}")] != []) == (0, True)
        command, = commands({part}, 1)
        assert (part, command in came.called) == (part, False)


def test_lacking_packages(monkeypatch: pytest.MonkeyPatch) -> None:
    """A part is left out whose program of Debian isn't there, and the reason names the packages."""
    monkeypatch.setenv("PATH", os.getcwd())
    monkeypatch.delenv("CHROMIUM", raising=False)
    lacking = {part.name: part.lacking() for part in PARTS if part.name in ("smoke_board", "instructions", "drill")}
    assert lacking == {"smoke_board": "without Chromium nothing of it can be tried", "instructions": "without Debian's valgrind nothing of it can be tried",
                       "drill": "without Debian's glusterfs-server and glusterfs-client nothing of it can be tried"}


def test_words_of_the_check() -> None:
    """Its help and its list say what there is, and run nothing; words that are none end it with status 2."""
    names = [it.name for it in PARTS]
    assert len(set(names)) == len(names)
    for by in ("scripts/check", ".ci/run"):
        came = ran("--help", by=by)
        assert (by, came.status, came.err, came.called) == (by, 0, "", [])
        assert (by, [it for it in ("--all", "--list", "NAME...") if f"scripts/check {it}" not in "\n".join(came.lines)]) == (
            by, [])
    came = ran("--list")
    assert (came.status, [it.split()[0] for it in came.lines], came.called) == (0, names, [])
    assert {it.split()[2] for it in came.lines} == {"-"}
    for words, by in ((("nothing",), "scripts/check"), (("users", "nothing"), "scripts/check"), (("--all", "users"), "scripts/check"),
                      (("--nothing",), "scripts/check"), (("users",), ".ci/run")):
        came = ran(*words, by=by)
        assert (words, came.status, came.lines, came.called, came.err != "") == (words, 2, [], [], True)


def test_no_part_is_left_out() -> None:
    """Each test and check that can be called is a part of the full check or of the soak, or one of those that are no parts. Each module of
    tests and each play is of one part, and of one more where tests of the module have the mark of the soak."""
    listed = subprocess.run(["git", "-C", ROOT, "ls-files", "-s", "tests", "dev", "edge", "feed"], capture_output=True, text=True).stdout
    files = {line.split("\t")[1]: line.split()[0] for line in listed.splitlines()}
    programs = {it for it, mode in files.items() if mode == "100755"}
    shown = [part.command for part in PARTS]
    called = {it.split()[0] for it in shown} - {"rt", "pytest"}
    assert sorted(programs - called - NO_PARTS) == []
    assert sorted(called - programs) == []
    assert len(set(shown)) == len(shown)
    tried = [path for it in of_pytest() for path in files if is_of(it, path)]
    assert sorted(tried) == sorted(it for it in files if covers("tests/test_*.py", os.path.join("tests", os.path.basename(it)))
                                   or it.endswith(".play"))


def of_pytest() -> list[Part]:
    """Returns the parts that pytest runs, but for the tests of all modules that have the mark of the soak."""
    return [part for part in PARTS if part.command.startswith("pytest ") and part.name != MARKED]


def is_of(part: Part, path: str) -> bool:
    """Whether tests of this file are of a part that pytest runs."""
    words = part.command.split()
    return any(covers(word, path) for word in words) and f"--ignore={path}" not in words


def covers(word: str, path: str) -> bool:
    """Whether pytest finds tests in this file by this word."""
    is_one = fnmatch.fnmatch(os.path.basename(path), "test_*.py") and path.startswith(f"{word}/")
    return is_one or fnmatch.fnmatch(path, word)


def test_what_the_prover_refuses() -> None:
    """Git has no links: `rt ci` stops at one before it proves anything, wherever it stands. So it does at a source outside of the crates."""
    listed = subprocess.run(["git", "-C", ROOT, "ls-files", "-s"], capture_output=True, text=True).stdout.splitlines()
    assert [it for it in listed if it.startswith("120000")] == []
    names = [it.split("\t")[1] for it in listed]
    assert [it for it in names if it.endswith((".rt", ".antt")) and not it.startswith("crates/")] == []


def test_least_counts() -> None:
    """The least count of a part that pytest runs is no more than there are tests, and not much less; that of the proofs is of all crates
    and of all edits that the kit tries; and of the wrong bodies that were asked for none is left out, and a right one is tried."""
    least = {it.command.split(" --as-made")[0]: it.least for it in PARTS}
    apart, within = (len(glob.glob(os.path.join(ROOT, it))) for it in ("must-fail/*/*.edit", "crates/*/must-fail/*.edit"))
    assert least["rt ci"] == len(crates.listed()) + within
    assert least["dev/edits --must-fail"] == apart + within + 1
    tests = collected()
    counts = {it.name: sum(tests[path] for path in tests if is_of(it, path)) for it in of_pytest()}
    counts[MARKED] = sum(collected("-m", "soak and not long").values())
    for it in PARTS:
        count = counts.get(it.name, it.least)
        assert 0.9 * count <= it.least <= count, f"{it.name} has {count} tests, and the least count is {it.least}"


def collected(*words: str) -> collections.Counter[str]:
    """Returns how many tests each file has that pytest runs with these words."""
    said = subprocess.run([sys.executable, "-m", "pytest", "-q", "-n", "0", "--collect-only", *words, "tests"], cwd=ROOT, capture_output=True,
                          text=True, timeout=4 * PATIENCE).stdout
    return collections.Counter(line.partition("::")[0] for line in said.splitlines() if "::" in line)
