"""Tests of dev/lint: what it finds in the Python files of a small repository, and what it passes over.

LINT in the environment names another dev/lint: tests/known_bad.py puts wrong ones there.
"""
import glob
import os
import shutil
import subprocess
import sys
import tempfile
from collections.abc import Iterator

import pytest

from checks import LONG, ROOT, copy_program, put_text

pytestmark = pytest.mark.quick

LINT = os.path.abspath(os.environ.get("LINT", os.path.join(ROOT, "dev/lint")))
OWN = ("dev/with_scripts.py", "scripts/crates.py", "scripts/debian.py", "scripts/needs_python.py", "scripts/with_tools.py")
# Git and mypy without the settings of whoever runs the tests.
OWN_SETTINGS = {"GIT_CONFIG_GLOBAL": os.devnull, "GIT_CONFIG_SYSTEM": os.devnull, "MYPY_FORCE_COLOR": "0"}
FORM = "autopep8 has another form of what stands here: dev/lint --write"
FILES: dict[str, tuple[str, list[str]]] = {
    "unused.py": ('import os\nimport sys  # (in front of what a later Python has)\n', ["1: 'os' imported but unused"]),
    "typed.py": ('def half(it: int) -> int:\n    return it / 2\n',
                 ['2: error: Incompatible return value type (got "float", expected "int")  [return-value]']),
    "untyped.py": ("def half(it):\n    return it / 2\n", ["1: error: Function is missing a type annotation  [no-untyped-def]"]),
    "edge/tests/untyped_too.py": ("def half(it):\n    return it / 2\n",
                                  ["1: error: Function is missing a type annotation  [no-untyped-def]"]),
    "form.py": ("ONE = 1\nTWO = 2\nTHREE = 3\nCOUNT=4\n\n\ndef one( ) -> int:\n    return 1\n", [f"4: {FORM}"]),
    "right.py": ("def one() -> int:\n    def two() -> int:\n        return 2\n    return two() - 1\n", []),
    "dev/one": ('#!/usr/bin/env python3\nimport os\nfrom right import one\nCOUNT: str = one()\n',
                ["2: 'os' imported but unused", '4: error: Incompatible types in assignment (expression has type "int", variable has type '
                 '"str")  [assignment]']),
    "scripts/one": ('#!/usr/bin/env python3\nprint(COUNT)\n', ["2: undefined name 'COUNT'",
                                                               '2: error: Name "COUNT" is not defined  [name-defined]']),
    "scripts/two": ("#!/bin/sh\nimport os\n", []),
}


@pytest.fixture(scope="module", autouse=True)
def read_before() -> Iterator[None]:
    """What mypy has read of Python's own modules it keeps for the next time."""
    with pytest.MonkeyPatch.context() as patch, tempfile.TemporaryDirectory(prefix="mypy-") as path:
        patch.setenv("MYPY_CACHE_DIR", os.environ.get("MYPY_CACHE_DIR", path))
        yield


def known(*paths: str) -> None:
    """Makes the test's folder a repository that knows dev/lint, its modules and these files."""
    for path in ("dev/lint", *OWN):
        copy_program(path, LINT if path == "dev/lint" else "")
    shutil.copy(os.path.join(ROOT, "pyproject.toml"), ".")
    for words in (["init", "-q"], ["add", "dev/lint", *OWN, *paths]):
        subprocess.run(["git", *words], check=True, env={**os.environ, **OWN_SETTINGS})


def lint(*words: str) -> tuple[int, list[str]]:
    """The status of dev/lint, and all its lines."""
    it = subprocess.run([sys.executable, "dev/lint", *words], stdout=subprocess.PIPE, stderr=subprocess.STDOUT, text=True, timeout=LONG,
                        env={**os.environ, **OWN_SETTINGS, "GIT_CEILING_DIRECTORIES": os.path.dirname(os.getcwd())})
    return it.returncode, it.stdout.splitlines()


def test_findings() -> None:
    """Each import that isn't used, each wrong type and each other form is told by its place, also in scripts that have no ending, and one
    that isn't there; what git doesn't know isn't looked at. By --write a file gets its form. No link is left: rt takes none."""
    for path, (text, _) in FILES.items():
        put_text(path, text)
    put_text("gone.py", "")
    known(*FILES, "gone.py")
    os.remove("gone.py")
    put_text("later/unknown.py", "import os\n")
    form = ["form.py:4: " + FORM]
    rest = [f"{path}:{it}" for path, (_, found) in FILES.items() for it in found if f"{path}:{it}" not in form]
    tests = 2 * (len(FILES) - 1 + len(OWN) + 2) + 1
    status, lines = lint()
    assert (status, sorted(lines[:-1])) == (1, sorted([*rest, *form, "gone.py:1: isn't there"]))
    assert lines[-1] == f"{tests - 7} passed, 7 failed"
    assert not [it for it in glob.glob("**", recursive=True) if os.path.islink(it)]
    assert lint("--write") == (0, [])
    with open("form.py", encoding="ascii") as file:
        assert file.read() == "ONE = 1\nTWO = 2\nTHREE = 3\nCOUNT = 4\n\n\ndef one() -> int:\n    return 1\n"


@pytest.mark.parametrize("path", ("unused.py", "typed.py", "untyped.py", "edge/tests/untyped_too.py", "form.py", "right.py"))
def test_one_file(path: str) -> None:
    """A finding of one kind alone makes the status 1, and where there is none all pass."""
    text, found = FILES[path]
    put_text(path, text)
    known(path)
    tests = 2 * (len(OWN) + 2) + 1
    assert lint() == (1 if found else 0, [*(f"{path}:{it}" for it in found), f"{tests - len(found)} passed, {len(found)} failed"])


def test_nothing_is_known() -> None:
    """Where git knows no file, or isn't there, nothing has passed."""
    known()
    subprocess.run(["git", "rm", "-q", "--cached", "-r", "."], check=True)
    said = "dev/lint: git knows no file of Python here"
    assert lint() == (1, [said])
    shutil.rmtree(".git")
    status, lines = lint()
    assert (status, lines[-1]) == (1, said)
