"""What all tests share: the folders of modules, a folder of its own for each test, the built programs, a venue, its members and its
journal, a browser, plays as tests, the end of a run in which three waits ran out, and the last line, `N passed, M failed`, by which
scripts/check counts.

The package gikvand is that of the folder tools, or of the one that the environment's TOOLS names: tests/known_bad.py puts wrong ones
there. The programs are those of scripts/build and edge/setup, or those that VENUED, VENUE_REPLAY, VENUE_EVENTS and GIKVAND_EDGE name;
CHROMIUM names a browser.
"""
import contextlib
import fcntl
import os
import pathlib
import shutil
import signal
import sys
import tempfile
from collections.abc import Callable, Generator, Iterator
from typing import Any

import pytest
from _pytest.assertion import util
from _pytest.terminal import TerminalReporter

ROOT = os.path.dirname(os.path.dirname(os.path.abspath(__file__)))
TOOLS = os.path.abspath(os.environ.get("TOOLS", os.path.join(ROOT, "tools")))
OWN = ("VENUED", "VENUE_REPLAY", "VENUE_EVENTS", "GIKVAND_EDGE", "PLAY", "CHECK", "CI_RUN", "LINT", "MEASURES", "EDITS", "PAGES", "WARM_PYTEST")
os.environ.update({it: os.path.abspath(os.environ[it]) for it in OWN if it in os.environ})
sys.path[:0] = [TOOLS, *(os.path.join(ROOT, it) for it in ("tests", "dev", "scripts"))]
pytest.register_assert_rewrite("board_page", "checks", "installed", "made_journals", "packed", "running_tools")

import checks
import debian
import gikvand  # (of TOOLS, in front of what puts another path first)
import made_journals
import refusals
import venues
from gikvand import journals
from gikvand.words import sure
from script_modules import loaded

FROM_DEBIAN = {"mandoc": "mandoc", "lintian": "lintian", "systemd-analyze": "systemd", "systemd-sysusers": "systemd",
               "dh_builddeb": "debhelper", "mmdebstrap": "mmdebstrap", "nft": "nftables", "ip": "iproute2", "pgrep": "procps"}
LAST_LINE = pytest.StashKey[str]()
A_TEST = 1_800  # Seconds for a test, which are there to end one that hangs.
SHOWN = 2_000  # Characters of what came, where it isn't what was expected.


def difference(config: pytest.Config, op: str, left: object, right: object, use_ascii: bool = False) -> list[str] | None:
    """What came and what was expected, of long ones the beginning, in the place of what pytest would say, and find out first: how two
    packages of a million bytes differ, where the environment has CI, and how two texts do, which takes hours."""
    return ["another thing came", f"came     {left!r:.{SHOWN}}", f"expected {right!r:.{SHOWN}}"] if op == "==" else None


util.assertrepr_compare = difference


@pytest.fixture(autouse=True)
def folder() -> Iterator[pathlib.Path]:
    """A folder of its own for each test, in which it runs. Of its venues none is left."""
    with tempfile.TemporaryDirectory(prefix="tests-") as path:
        os.chdir(path)
        try:
            yield pathlib.Path(path)
        finally:
            venues.kill_all()
            os.chdir(ROOT)


@pytest.fixture(autouse=True)
def has_an_end(request: pytest.FixtureRequest) -> Iterator[None]:
    """A test that waits for what never comes fails there, but for those that may take long."""
    def ends(number: int, frame: object) -> None:
        raise venues.RanOut(f"the test hasn't ended within {A_TEST} seconds")
    before = signal.signal(signal.SIGALRM, ends)
    signal.alarm(0 if request.node.get_closest_marker("long") else A_TEST)
    yield
    signal.alarm(0)
    signal.signal(signal.SIGALRM, before)


@pytest.fixture(scope="session", autouse=True)
def left_at_end() -> Iterator[None]:
    """Leaves behind all tests what they share."""
    with checks.AT_END:
        yield


@pytest.fixture(scope="session")
def programs() -> None:
    """The built programs. Where they aren't there a test that wants them fails, and says what builds them."""
    venues.programs.need(venues.VENUED, venues.REPLAY, venues.EVENTS)


@pytest.fixture
def venue(programs: None) -> Callable[..., venues.Venue]:
    """Starts a venue on free ports, which is ready: venue(GATEWAYS, SYMBOLS, JOURNAL)."""
    def start(gateways: int = 1, symbols: tuple[str, ...] = ("ABC",), journal: str = made_journals.JOURNAL) -> venues.Venue:
        return venues.started(journal, gateways, symbols)
    return start


@pytest.fixture
def member() -> Iterator[Callable[[venues.Venue, int], venues.Client]]:
    """Lets a member log on at a venue: member(VENUE, NUMBER). Its connection is closed behind the test."""
    with contextlib.ExitStack() as left:
        def log_on(it: venues.Venue, number: int) -> venues.Client:
            client = venues.Client(it.port, number)
            left.callback(client.close)
            return client.log_on()
        yield log_on


@pytest.fixture
def journal(programs: None) -> made_journals.Made:
    """A day's journal in the test's folder, with its symbols beside it."""
    made_journals.put(f"{made_journals.JOURNAL}.symbols", b"ABC XYZ\n")
    made_journals.put(made_journals.JOURNAL, made_journals.made(journals.MADE).data)
    return made_journals.made(journals.MADE)


@pytest.fixture
def sweeps() -> Iterator[refusals.Sweeps]:
    """What refuses calls of the system to a program, or notes them. Where cc isn't there to compile it its tests are skipped."""
    if not shutil.which("cc"):
        pytest.skip("cc isn't installed, which compiles tests/refusals.c")
    with tempfile.TemporaryDirectory(prefix="refusals-") as path:
        yield refusals.Sweeps(path)


@pytest.fixture(scope="session")
def browser() -> Iterator[object]:
    """A Chromium without a window. Where there is none its tests are skipped."""
    import chromium
    if not chromium.program():
        pytest.skip("without Chromium nothing of it can be tried")
    with chromium.browser() as it:
        yield it


@pytest.fixture(autouse=True)
def of_debian(request: pytest.FixtureRequest) -> None:
    """What a test takes of Debian's packages: root gets it where it isn't there, and where it can't be had the test is skipped."""
    needed = [it for mark in request.node.iter_markers("debian") for it in mark.args]
    with open(__file__, encoding="utf-8") as lock:  # (of several workers one gets them)
        fcntl.flock(lock, fcntl.LOCK_EX)
        if os.geteuid() == 0 and (missing := [FROM_DEBIAN[it] for it in needed if not shutil.which(it)]):
            debian.install(*missing)
    if lacking := [FROM_DEBIAN[it] for it in needed if not shutil.which(it)]:
        pytest.skip(f"it needs {' and '.join(lacking)} of Debian")


class Play(pytest.Item):
    """A play, by dev/play, as a test."""

    def runtest(self) -> None:
        built = {"venued": venues.VENUED, "venue-replay": venues.REPLAY}
        venues.programs.need(*built.values())
        if fault := loaded("dev/play").play(str(self.path), built):
            raise fault

    def repr_failure(self, excinfo: pytest.ExceptionInfo, style: object = None) -> str:
        return str(excinfo.value)

    def reportinfo(self) -> tuple[pathlib.Path, int, str]:
        return self.path, 0, f"play {self.name}"


class PlayFile(pytest.File):
    """A file that holds a play."""

    def collect(self) -> Iterator[Play]:
        item = Play.from_parent(self, name=self.path.stem)
        item.add_marker("quick")
        yield item


def pytest_collect_file(file_path: pathlib.Path, parent: pytest.Collector) -> pytest.Collector | None:
    return PlayFile.from_parent(parent, path=file_path) if file_path.suffix == ".play" else None


class Waits:
    """Counts the tests of a run whose waits ran out. No further test begins behind the third one."""

    def __init__(self, session: pytest.Session) -> None:
        self.session, self.count = session, 0

    @pytest.hookimpl(trylast=True)  # (behind who counts the test as failed)
    def pytest_runtest_logreport(self, report: pytest.TestReport) -> None:
        """Counts the report of a test, and ends the run at the third one. pytest-xdist, whose plugin dsession hands tests to workers, doesn't
        look at shouldfail: there an exception ends the run."""
        self.count += getattr(report, "ran_out", False)
        if self.count == venues.MOST_RAN_OUT:
            self.session.shouldfail = venues.NO_MORE
            if self.session.config.pluginmanager.has_plugin("dsession"):
                raise self.session.Failed(venues.NO_MORE)


def pytest_sessionstart(session: pytest.Session) -> None:
    """Begins to count. Where workers play the tests, the process that hands the tests to the workers counts the reports of all."""
    session.config.pluginmanager.register(Waits(session))


@pytest.hookimpl(hookwrapper=True)
def pytest_runtest_makereport(call: pytest.CallInfo[None]) -> Generator[None, Any, None]:
    """Marks the report of a test that failed since a wait ran out. A worker sends the mark along with the report."""
    report = (yield).get_result()
    report.ran_out = report.failed and venues.ran_out(sure(call.excinfo).value)


def pytest_addoption(parser: pytest.Parser) -> None:
    parser.addoption("--named", metavar="WORD", action="append", help="only tests whose own names have one of these words in them")
    parser.addoption("--rules-alone", action="store_true", help="run no program beside the rules for journals")


def pytest_collection_modifyitems(config: pytest.Config, items: list[pytest.Item]) -> None:
    """Leaves those tests whose own names have one of the words in them: -k also looks at modules and marks."""
    words = config.getoption("--named") or [""]
    left = [it for it in items if not any(word in it.name for word in words)]
    items[:] = [it for it in items if it not in left]
    config.hook.pytest_deselected(items=left)


def pytest_terminal_summary(terminalreporter: TerminalReporter, exitstatus: int, config: pytest.Config) -> None:
    """Keeps the last line, which a run that couldn't read all modules hasn't."""
    counts = {it: len(terminalreporter.stats.get(it, [])) for it in ("passed", "failed", "error")}
    if exitstatus in (pytest.ExitCode.OK, pytest.ExitCode.TESTS_FAILED, pytest.ExitCode.NO_TESTS_COLLECTED):
        config.stash[LAST_LINE] = f"{counts['passed']} passed, {counts['failed'] + counts['error']} failed"


@pytest.hookimpl(trylast=True)
def pytest_unconfigure(config: pytest.Config) -> None:
    if LAST_LINE in config.stash:
        print(config.stash[LAST_LINE], flush=True)
