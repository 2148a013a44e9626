"""The parts of the full check and of the soak: what each part runs, what a part needs, and what the end of a part says. Not a script:
scripts/check and scripts/soak import this module.

A part is a command whose last line is `N passed, M failed`; `pytest` stands for a Python that has pytest. GATE has the parts of the full
check, whose verdicts follow from the sources alone. SOAK has the parts whose verdicts depend on time, on scheduling, on kills at a
moment or on draws. The marks of a part say how long the part takes, and what the part needs:

    quick, slow     takes up to half a minute, or more
    long            takes minutes of the prover, of the compiler, of kills or of wrong programs
    waits           mostly waits, and so runs beside other parts without a core of its own
    built           venued, venue-replay and venue-events, which scripts/build makes
    bench, framer   crates/bench and the framer of the edge, which the full check makes, or `rt run` in crates/bench, and edge/setup
    edge            gikvand-edge and the programs of its tests, which edge/setup --tests makes
    feed            gikvand-feed and the server of NATS, which feed/setup --tests makes and installs
    root, browser   a user who may make namespaces; Chromium
    debian          some tests of the part need debhelper, mandoc, lintian and systemd-analyze
    lint            Debian's mypy, autopep8 and pyflakes
"""
import glob
import os
import re
import shlex
import shutil
from typing import NamedTuple

import debian
from crates import ROOT

LAST_LINE = re.compile(r"(\d+) passed, (\d+) failed")
TELLS = re.compile(r"NOT |FAILED|BAD EDIT|killed|: not proved|error")  # A line of the prover that says why a proof is refused.
SHOWN = 40    # Lines of a part that failed, which are shown at the end,
WIDTH = 1000  # and characters of each line.
BROWSERS = ("chromium", "chromium-browser", "google-chrome")
OF_DEBIAN = ("dh_builddeb", "mandoc", "lintian", "systemd-analyze", "systemd-sysusers")
NEEDS = ("built", "bench", "framer", "edge", "feed")  # Marks of what a full check makes before a part can run.


class Verdict(NamedTuple):
    """The result of a part: how many tests passed and failed, and in words what the lines of the part don't say."""
    passed: int
    failed: int
    why: str = ""


class Part(NamedTuple):
    """A part: its command, started in the folder of the repository, its marks, and the least number of tests that it has."""
    name: str
    command: str
    marks: str
    least: int

    def has(self, mark: str) -> bool:
        return mark in self.marks.split()

    def is_free(self) -> bool:
        """Whether the part needs nothing that a full check makes, and so can run beside the proofs."""
        return not self.has("long") and not any(map(self.has, NEEDS))

    def shown(self, together: int) -> str:
        """Returns the command with `together` as the number of programs that the part runs side by side."""
        return self.command.format(cores=together)

    def words(self, together: int) -> list[str]:
        """Returns the words by which the part is started."""
        program, *words = shlex.split(self.shown(together))
        words = [path for word in words for path in (sorted(glob.glob(word, root_dir=ROOT)) if "*" in word else [word])]
        return [debian.python_with_pytest(), "-m", "pytest", "-q", *words] if program == "pytest" else [program, *words]

    def last_words(self, said: list[str]) -> list[str]:
        """Returns the lines of a failed part that are shown at the end: its last lines, and of the prover the lines that say why."""
        tells = [line for line in said[:-SHOWN] if TELLS.search(line)] if self.command.startswith("rt ") else []
        return [line[:WIDTH] for line in tells[:SHOWN] + said[-SHOWN:]]

    def judged(self, status: int, last: str) -> Verdict:
        """Returns the verdict of a part that ended with this status and this last line."""
        if self.name in SETUPS:
            return Verdict(0, int(status != 0), f"status {status}" if status else "")
        counted = LAST_LINE.fullmatch(last)
        if not counted:
            return Verdict(0, 1, f"the part ended with status {status}, and without its last line")
        passed, failed = int(counted[1]), int(counted[2])
        if passed + failed < self.least:
            return Verdict(passed, failed + 1, f"{passed + failed} tests of the part were tried, and the part has {self.least} at least")
        if status and not failed:
            return Verdict(passed, 1, f"the part ended with status {status}")
        return Verdict(passed, failed)

    def lacking(self) -> str:
        """Returns why no test of the part can be tried here, or nothing."""
        program, *packages = GOT.get(self.name, ("",))
        if program and not self.has("browser") and not shutil.which(program):
            return f"without Debian's {' and '.join(packages)} nothing of it can be tried"
        if self.has("root") and os.geteuid():
            return "it is for root"
        if self.has("browser") and not os.environ.get("CHROMIUM") and not any(map(shutil.which, BROWSERS)):
            return "without Chromium nothing of it can be tried"
        if self.has("lint") and os.geteuid() and not debian.has_modules(debian.PYTHON, *debian.LINTERS):
            return f"without Debian's {', '.join(debian.LINTERS)} nothing of it can be tried"
        return "; ".join(missing(self.marks))

    def partly(self) -> str:
        """Returns what some tests of the part lack here, or nothing. Root gets the lacking packages of Debian."""
        programs = [program for program in OF_DEBIAN if self.has("debian") and os.geteuid() and not shutil.which(program)]
        return f"without {' and '.join(programs)} some of its tests aren't tried" if programs else ""


def in_pieces(name: str, count: int, least: int) -> list[Part]:
    """Returns the tests of the edge or of the feed as `count` parts, which mostly wait and so run side by side."""
    return [Part(f"{name}_{number}" if number > 1 else name, f"{name}/check --part {number}/{count}", f"slow waits built {name}", least)
            for number in range(1, count + 1)]


# The full check. The parts that need nothing run beside the proofs, and all others run in this order.
GATE = [
    Part("proofs", "rt ci", "long", 33),
    Part("must_fail", "dev/edits --must-fail --as-made", "long", 46),
    Part("changed_edits", "dev/edits --changed --as-made", "long", 1),
    Part("yardstick", "dev/costs --alone fix_orders", "long", 1),
    Part("edge-setup", "edge/setup --tests --as-made", "long", 0),
    Part("feed-setup", "feed/setup --tests", "long", 0),
    # One test at each boundary to other programs. A smoke test may be tried once more.
    Part("smoke_member", "tests/smoke.py member", "quick waits built", 1),
    Part("smoke_edge", "tests/smoke.py edge", "quick waits built edge", 1),
    Part("smoke_feed", "tests/smoke.py feed", "quick waits built feed", 1),
    Part("smoke_board", "tests/smoke.py board", "quick waits built browser", 1),
    Part("smoke_package", "tests/smoke.py package", "quick waits built debian", 1),
    # The programs, with given bytes, journals, memory and devices.
    Part("play", "pytest -n {cores} tests/*.play", "quick built", 76),
    Part("worked_journals", "pytest -n {cores} tests/test_worked_journals.py", "quick built", 17),
    Part("hostile_bytes", "tests/hostile_bytes.py --together {cores}", "slow built", 4),
    Part("journals_by_chance", "tests/journals_by_chance.py --together {cores}", "slow built", 4),
    # Wrong rules, answers and programs, each of which a test above has to refuse: those that need no venue that listens.
    Part("oracle", "tests/known_bad.py wrong_rules wrong_answers wrong_lines wrong_memory", "slow built", 4),
    Part("refused_memory", "tests/refused_memory.py --sample", "slow built", 5),
    Part("failing_device", "pytest -n 1 -rP tests/test_failing_device.py", "slow built", 10),
    Part("long_journal", "pytest -n 1 -rP tests/test_long_journal.py", "quick built", 5),
    Part("instructions", "tests/instructions.py", "quick built", 8),
    Part("twins", "tests/twins.py", "slow built bench", 6),
    Part("framer", "edge/tests/framer_tests.py", "quick framer", 1140),
    Part("tools", "pytest -n {cores} tests/tools", "slow built", 137),
    Part("users", "pytest -n {cores} tests/test_users.py tests/test_events.py tests/test_pin.py", "quick built", 34),
    # Pages and the house.
    Part("plays", "pytest -n {cores} tests/test_plays.py", "quick", 118),
    Part("ci", "pytest -n {cores} tests/test_ci.py tests/test_conftest.py tests/test_lint.py tests/test_homes.py "
         "tests/test_history.py tests/test_edits.py tests/test_wrong_versions.py", "quick", 165),
    Part("dictionary", "tests/dictionary.py", "quick", 80),
    Part("promises", "tests/promises.py", "quick", 2300),
    # Made pages equal what dev/pages makes, decisions have their form, and each link leads somewhere.
    Part("pages", "dev/pages", "quick", 250),
    Part("documents", "pytest -n {cores} tests/test_documents.py tests/test_clauses.py tests/test_results.py tests/test_operating.py", "quick",
         150),
    Part("headline", "tests/headline.py", "quick", 30),
    Part("reads", "tests/reads.py", "slow", 54),
    Part("surfaces", "tests/surface.py", "quick", 49),
    Part("surface", "dev/surface", "quick", 424),
    # What a reader has to take in at once stays within its bounds, and no figure of the house rises without a word.
    Part("measures", "dev/measures", "quick", 150),
    Part("measured", "pytest -n {cores} tests/test_measures.py", "quick", 21),
    Part("lint", "dev/lint", "slow lint", 500),
]

# The soak.
SOAK = [
    *in_pieces("edge", 6, 75),
    *in_pieces("feed", 4, 10),
    Part("feed_kills", "feed/check --long kills partitions", "long waits built feed", 1),
    Part("members", "pytest -n 2 tests/test_members.py", "slow waits built", 28),
    Part("held_ports", "pytest -n 7 tests/test_held_ports.py", "slow waits built", 7),
    Part("drill", "dev/failover-drill", "slow waits built root", 11),
    Part("marked", "pytest -n 2 -m 'soak and not long' tests", "slow waits built", 62),
    Part("edits", "dev/edits --minutes 4 --as-made", "long", 10),
    Part("board", "pytest tests/test_board_page.py", "slow built browser", 9),
    Part("follow_load", "tests/follow_load.py", "quick built", 1),
    Part("package", "pytest -n {cores} --dist loadgroup tests/package --ignore=tests/package/test_edge_package.py", "quick built debian", 75),
    Part("edge_package", "pytest -n {cores} --dist loadgroup tests/package/test_edge_package.py", "quick built edge debian", 23),
    Part("siege", "dev/siege --short", "slow built", 13),
    Part("noted_calls", "pytest -n 1 -rP tests/test_noted_calls.py", "quick built", 13),
    Part("warm_pytest", "pytest tests/test_warm_pytest.py", "quick", 8),
    Part("new_bytes", "tests/hostile_bytes.py --new-seed --together {cores}", "slow built", 4),
    Part("new_journals", "tests/journals_by_chance.py --new-seed --together {cores}", "slow built", 4),
    Part("known_bad", "tests/known_bad.py", "long built edge debian", 11),
    Part("wrong_edges", "edge/tests/wrong_edges.py --minutes 8", "long built edge", 10),
    Part("wrong_feeds", "feed/tests/wrong_feeds.py --minutes 2", "long built feed", 2),
]
PARTS = [*GATE, *SOAK]

# Parts without a last line: a setup counts a failure alone, by its status. Where one fails, no part with one of its marks is started.
SETUPS = {"edge-setup": {"edge", "framer"}, "feed-setup": {"feed"}}

# The part that makes the programs: where it fails and the programs aren't there, no part with one of these marks is started.
PROOFS, PROVED = "proofs", ("built", "bench")

# A program and Debian's packages for it, which the full check gets before the part is started.
GOT = {"smoke_board": ("chromium", "chromium"), "board": ("chromium", "chromium"),
       "drill": ("glusterd", "glusterfs-server", "glusterfs-client"), "instructions": ("valgrind", "valgrind")}


def missing(marks: str) -> list[str]:
    """Returns what has to be built for a part of these marks and isn't, each with the command that builds it."""
    built = [os.environ.get(name.upper(), f"crates/{name}/out/{name}") for name in ("venued", "venue_replay", "venue_events")]
    edge = [os.environ.get("GIKVAND_EDGE", "edge/out/gikvand-edge"), "edge/out/tradeclient", "edge/out/FIX44.xml"]
    made = {"built": (built, "scripts/build"), "bench": ([os.environ.get("BENCH", "crates/bench/out/bench")], "`rt run` in crates/bench"),
            "edge": (edge, "edge/setup --tests"), "framer": (["crates/edge_frames_c/out/libedge_frames_c.a"], "edge/setup"),
            "feed": ([os.environ.get("GIKVAND_FEED", "feed/out/gikvand-feed")], "feed/setup --tests")}
    return [f"{os.path.relpath(path, ROOT)} isn't built: {how} builds it"
            for mark in marks.split() if mark in made for paths, how in [made[mark]]
            for path in [os.path.join(ROOT, name) for name in paths] if not os.path.exists(path)]


def lost_by(part: Part) -> set[str]:
    """Returns the marks of what can't be had behind this part, which failed."""
    return SETUPS.get(part.name, set()) | {mark for mark in PROVED if part.name == PROOFS and missing(mark)}


def possible(found: list[Part]) -> list[Part]:
    """Returns the parts that can be tried here. Each other part has a line; a part of which some tests can't be tried has no least count."""
    left = []
    for part in found:
        if why := part.lacking():
            print(f"{part.name:18}  is left out: {why}", flush=True)
        else:
            if why := part.partly():
                print(f"{part.name:18}  {why}", flush=True)
            left.append(part._replace(least=0) if why else part)
    return left
