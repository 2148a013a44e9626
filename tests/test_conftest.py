"""Tests of conftest.py: the last line by which scripts/check counts, which tests are chosen, the folder of each, plays as tests, and the
end of a run in which three waits ran out, as also scripts of tests end then; of the projects of links that checks.py makes; and of samples
that a seed chooses, which are the same each time."""
import argparse
import concurrent.futures
import functools
import itertools
import os
import re
import shutil
import subprocess
import sys
from collections.abc import Callable

import pytest

import hostile_bytes
import journals_by_chance
import refusals
import venues
from checks import LONG, ROOT, contents, in_order, link_there, put_text

pytestmark = pytest.mark.quick

LAST_LINE = re.compile(r"\d+ passed, \d+ failed")
Sample = Callable[[argparse.Namespace], tuple[object, list[venues.Trouble]]]
MODULE = """
import os
import pytest

@pytest.fixture
def broken():
    raise ValueError

def test_that_passes(): pass
def test_that_fails(): assert 1 == 2
def test_without_its_fixture(broken): pass
def test_in_a_thread(): pytest.skip("not here")
"""
FOLDERS = """
import os

def test_one():
    assert os.listdir() == []
    open("one", "w").close()

def test_two():
    assert os.listdir() == []
    os.mkdir("two")

def test_three():
    assert os.listdir() == []
"""
DIFFERENCES = """
import difflib
import os
import pytest

@pytest.mark.parametrize("one, other", ((b"one", b"other"), ("one", "other"), (["one"], ["other"])))
def test_it(one, other, monkeypatch):
    monkeypatch.setattr(difflib, "ndiff", lambda *_: open(os.environ["ASKED"], "w"))
    assert one == other

def test_other():
    assert "a" not in "ab"
"""
WAITS = """
import os
import subprocess
import pytest
import venues

@pytest.fixture
def waiting():
    raise venues.Unseen("a fixture")

def test_in_a_fixture(waiting): pass

def test_that_fails(): assert 1 == 2

def test_that_is_skipped():
    try:
        raise venues.RanOut("a thing")
    except venues.RanOut:
        pytest.skip("not here")

def test_of_a_program(): subprocess.run(["sleep", "600"], timeout=0.1)

def test_behind_another():
    try:
        raise venues.RanOut("a line")
    except venues.Trouble as why:
        raise venues.Trouble("a session") from why

def test_behind_three(): os.mkdir(os.environ["TRIED"])
"""
ALL_WAIT = """
import pytest
import venues

@pytest.mark.parametrize("number", range(12))
def test_that_waits(number): raise venues.RanOut("a line")
"""
SHELL = '#!/bin/bash\neval "$1"\n'


def tried(*words: str, **environment: str) -> tuple[int, str]:
    """How pytest ends on these words, with conftest.py: its status, and its last line."""
    command = [sys.executable, "-m", "pytest", "-q", "-p", "conftest", "-p", "no:cacheprovider", "-c", os.path.join(ROOT, "pyproject.toml"),
               "--rootdir", os.getcwd()]  # (else what conftest.py has would be for the modules beside it alone)
    it = subprocess.run([*command, *words], stdout=subprocess.PIPE, stderr=subprocess.STDOUT, text=True, timeout=LONG,
                        env={**os.environ, "PYTHONPATH": os.path.join(ROOT, "tests"), **environment})
    return it.returncode, (it.stdout.splitlines() or [""])[-1]


@pytest.mark.parametrize("words, status, last", (
    ([], 1, "1 passed, 2 failed"), (["-n", "2"], 1, "1 passed, 2 failed"), (["-x", "--named", "fails"], 1, "0 passed, 1 failed"),
    (["--named", "passes"], 0, "1 passed, 0 failed"), (["--named", "passes", "--named", "without"], 1, "1 passed, 1 failed"),
    (["--named", "thread"], 0, "0 passed, 0 failed"), (["--named", "made"], 5, "0 passed, 0 failed")))
def test_last_lines(words: list[str], status: int, last: str) -> None:
    """What fails, and what has no fixture, counts as failed; what is skipped doesn't count, and what isn't named by its own name isn't
    tried."""
    assert tried(put_text("test_made.py", MODULE), *words) == (status, last)


def test_what_cannot_be_read() -> None:
    """A module that isn't Python, and words that are none, leave no last line."""
    for words in ([put_text("test_made.py", "def test_it(:\n")], ["--nothing"], ["test_that_there_is_not.py"]):
        status, last = tried(*words)
        assert status not in (0, 1)
        assert not LAST_LINE.fullmatch(last)


def test_differences() -> None:
    """How two things differ is looked for by nobody, also where the environment has CI: of long ones that takes hours."""
    made, asked = put_text("test_made.py", DIFFERENCES), os.path.abspath("asked")
    for name in ("NO_CI", "CI"):
        assert tried(made, **{"ASKED": asked, name: "true"}) == (1, "0 passed, 4 failed")
    assert not os.path.exists(asked)


def test_folders() -> None:
    """Each test has an empty folder of its own, and nothing of it is left."""
    os.mkdir("folders")
    assert tried(put_text("test_made.py", FOLDERS), TMPDIR=os.path.abspath("folders")) == (0, "3 passed, 0 failed")
    assert os.listdir("folders") == []


def test_three_waits() -> None:
    """No further test begins behind the third wait that ran out. The wait may lie behind another fault, or be for a program's end. A test
    that is skipped hasn't failed by a wait."""
    assert tried(put_text("test_made.py", WAITS), TRIED=os.path.abspath("tried")) == (1, "0 passed, 4 failed")
    assert not os.path.exists("tried")


@pytest.mark.parametrize("words", ([], ["-n", "2"], ["-p", "no:xdist"]))
def test_three_waits_of_all(words: list[str]) -> None:
    """The run ends at the third wait as well where several workers play the tests: the waits of all workers count together."""
    assert tried(put_text("test_made.py", ALL_WAIT), *words) == (1, "0 passed, 3 failed")


def late(number: int) -> Callable[..., str]:
    """Makes the test of this number of a script: each but the second one fails by a wait that ran out."""
    def run(*_: object) -> str:
        if number != 2:
            raise venues.Trouble(f"call {number}") from venues.RanOut("a line")
        return "done"
    run.__name__ = f"test_{number}"
    return run


def test_three_waits_of_scripts(capsys: pytest.CaptureFixture[str], monkeypatch: pytest.MonkeyPatch) -> None:
    """Scripts of tests end at the third wait as well, with a last line that counts what was tried."""
    tests = [late(number) for number in range(1, 7)]
    assert venues.tried(tests) == 1
    assert capsys.readouterr().out.splitlines()[-2:] == [venues.NO_MORE, "1 passed, 3 failed"]
    for name, stands in (("need_programs", lambda: None), ("Sweeps", lambda *_: None)):
        monkeypatch.setattr(refusals, name, stands)
    monkeypatch.setattr(shutil, "which", lambda _: "cc")
    with pytest.raises(SystemExit, match="^1$"):
        refusals.run_tests("refused_memory", tests)
    assert capsys.readouterr().out.splitlines()[-2:] == [venues.NO_MORE, "1 passed, 3 failed"]


@pytest.mark.parametrize("together", (1, 2, 5))
def test_calls_in_order(together: int) -> None:
    """The results of calls come in the order of the calls, however many run side by side. Few calls begin behind the last result that is
    taken."""
    begun = list[int]()

    def call(number: int) -> int:
        begun.append(number)
        return number
    calls = (functools.partial(call, number) for number in itertools.count())
    results = in_order(concurrent.futures.ThreadPoolExecutor(together), calls, together)
    assert [next(results) for _ in range(7)] == list(range(7))
    results.close()
    assert set(range(7)) <= set(begun) <= set(range(7 + together))


def sampled(capsys: pytest.CaptureFixture[str], sample: Sample, **words: object) -> tuple[object, list[str], list[str]]:
    """Takes a sample by the rules alone, and returns how much was tried, what the sample lacks, and what it meets."""
    came, faults = sample(argparse.Namespace(rules_alone=True, **words))
    return came, [str(fault) for fault in faults], [line for line in capsys.readouterr().out.splitlines() if "seed" not in line]


def test_mutated_messages(capsys: pytest.CaptureFixture[str], monkeypatch: pytest.MonkeyPatch) -> None:
    """The mutated messages are the same however many programs run side by side. Many of them have to meet all rules, and a few needn't."""
    few = functools.partial(sampled, capsys, hostile_bytes.mutated_sessions, seconds=None, messages=1_500)
    monkeypatch.setattr(hostile_bytes, "ALL_MET", 3_000)
    monkeypatch.setattr(hostile_bytes, "SHOWN", {"a rule that is met": re.compile("35="), "another one": re.compile("36=")})
    assert few(seed="1", together=1) == (one := few(seed="1", together=3))
    assert few(seed="2", together=3) != one
    assert one[1] == []
    monkeypatch.setattr(hostile_bytes, "ALL_MET", 1_500)
    assert few(seed="1", together=3)[1] == ["no session met another one"]


def test_journals_of_a_seed(capsys: pytest.CaptureFixture[str], monkeypatch: pytest.MonkeyPatch) -> None:
    """The journals by chance are the same, too. As many as the sample has meet all that is wanted by the sample's seed; by another seed they
    needn't."""
    few = functools.partial(sampled, capsys, journals_by_chance.journals, only=None, keep=None, journals=60)
    assert few(seed="1", together=1) == (one := few(seed="1", together=3))
    assert few(seed="2", together=3) != one
    assert one[1] == []
    monkeypatch.setattr(journals_by_chance, "SAMPLE", 60)
    assert "no journal met refused for its side" in few(seed="1", together=3)[1]
    assert few(seed="2", together=3)[1] == []


def test_projects_of_links() -> None:
    """What is copied there may be another one, and what Python compiles anew stays there. All else is the project's own."""
    own = {it: it.encode() for it in ("one/a.py", "one/b.py", "one/__pycache__/a.pyc", "one/in/e", "two/c.py", "three/f", "d")}
    for path in own:
        put_text(f"project/{path}", path)
    os.mkdir("there")
    link_there(os.path.abspath("project"), ("one/a.py", "three"), "there")
    assert {it: contents(f"there/{it}") for it in own} == own
    below = [os.path.join(folder, it) for folder, folders, names in os.walk("there") for it in (*folders, *names)]
    assert sorted(it for it in below if os.path.islink(it)) == [f"there/{it}" for it in ("d", "one/__pycache__/a.pyc", "one/b.py", "one/in", "two")]
    assert os.stat("there/one/a.py").st_mtime == os.stat("project/one/a.py").st_mtime
    for path in ("one/a.py", "three/f", "one/__pycache__/new"):
        put_text(f"there/{path}", "another one")
    os.replace("there/one/__pycache__/new", "there/one/__pycache__/a.pyc")
    assert {it: contents(f"project/{it}") for it in own} == own


def test_plays() -> None:
    """A play is a test, which fails where dev/play says why, and where the programs aren't built."""
    shell = put_text("shell", SHELL, 0o755)
    one, two = put_text("one.play", "run venued 'exit 3'\nstatus 3\n"), put_text("two.play", "run venued 'exit 3'\nstatus 0\n")
    assert tried(one, two, VENUED=shell, VENUE_REPLAY=shell) == (1, "1 passed, 1 failed")
    assert tried(one, VENUED=shell, VENUE_REPLAY="none") == (1, "0 passed, 1 failed")
