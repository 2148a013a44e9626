"""Tests of all commands of scripts/gikvand, on journals that venued made: of each version, whole, cut, changed and in use. Each
command has a module of its own beside this one.

What is expected was worked out from docs/OPERATING.md, docs/PROFILE.md and docs/JOURNAL.md.
"""
import errno
import os
import shlex
import subprocess
import sys
import xml.etree.ElementTree
from unittest import mock

import pytest

from checks import ROOT
from days import each_version, made
from gikvand import main as tools
from made_journals import JOURNAL, NOBODY, TOOLS, as_nobody, called, contents, followed, gikvand, put
from venues import PATIENCE

pytestmark = [pytest.mark.slow, pytest.mark.usefixtures("programs")]

GIKVAND = os.path.join(ROOT, "scripts/gikvand")


def commands_on(journal: str) -> list[list[str]]:
    """Each command that reads a journal."""
    return [["verify", journal], ["reports", journal, "C1"], ["trades", journal], ["follow", journal, "the.copy", "--once"],
            ["why", journal], ["watch", journal]]


def test_broken_journals() -> None:
    """Of a journal that is broken off at any byte each command says so, in lines of its own."""
    for it in each_version():
        *_, start, last = it.starts
        for size in range(start, len(it.data), 9):
            put(JOURNAL, it.data[:size])
            statuses = []
            for words in commands_on(JOURNAL):
                status, out, err = gikvand(*words)
                statuses.append(status)
                assert (words, size, len(err)) == (words, size, int(status == 2))
            assert statuses == [1, 2, 2, 2, 1, 1]
            assert contents("the.copy") == it.data[:max(at for at in it.starts if at <= size)] + b"\0"
            os.remove("the.copy")


def test_no_rights() -> None:
    """Who may not read the journal, or write the copy, is told so."""
    os.chmod(".", 0o755)
    for name in (JOURNAL, "mine.journal"):
        put(name, made(3).data, 0o644)
        put(f"{name}.symbols", b"ABC XYZ\n", 0o644)  # (whatever the mask of whoever starts the tests)
    os.chmod(JOURNAL, 0)
    for name, *_ in commands_on(JOURNAL):
        tools.module_of(name)  # (the user nobody can read no module of a project below /root)
    with as_nobody():
        for words in commands_on(JOURNAL):
            status, out, err = gikvand(*words)
            if words[0] in ("why", "watch"):
                assert (words, status, err) == (words, 1, [])
                assert (words, any("Permission denied" in line for line in out)) == (words, True)
            else:
                assert (words, status, err) == (words, 2, [f"gikvand {words[0]}: {JOURNAL}: Permission denied"])
        if os.geteuid() == NOBODY:
            assert followed("mine.journal", "the.copy")[2] == ["gikvand follow: the.copy can't be written: Permission denied"]


@pytest.mark.usefixtures("journal")
def test_broken_pipes() -> None:
    """Where nobody takes what a command prints it ends without a further word."""
    for words in commands_on(JOURNAL):
        line = f"{shlex.join([sys.executable, '-m', 'gikvand', *words])} | true"
        it = subprocess.run(["bash", "-c", line], env={**os.environ, "PYTHONPATH": TOOLS}, stderr=subprocess.PIPE, timeout=PATIENCE)
        assert (words, it.stderr) == (words, b"")


def ran_by(shell: str, *words: str, **environment: str) -> tuple[int, str]:
    """Runs a command by the shell, with this behind its words: its status, and what it says on standard error."""
    line = f"{shlex.join([sys.executable, '-m', 'gikvand', *words])} {shell}"
    it = subprocess.run(["bash", "-c", line], env={**os.environ, "PYTHONPATH": TOOLS, **environment}, stdin=subprocess.DEVNULL,
                        stdout=subprocess.DEVNULL, stderr=subprocess.PIPE, timeout=PATIENCE)
    return it.returncode, it.stderr.decode("utf-8", "surrogateescape")


@pytest.mark.usefixtures("journal")
def test_outputs_that_take_nothing() -> None:
    """Where standard output is closed or full each command says so, with status 2, whatever it has found; so does its help."""
    full = "standard output: No space left on device"
    for words in [*commands_on(JOURNAL), ["trades", JOURNAL, "--csv"], ["trades", JOURNAL, "--json"], ["day", JOURNAL],
                  *([name, "--help"] for name in tools.COMMANDS), ["--help"], ["help"], ["--version"]]:
        name = f"gikvand {words[0]}" if words[0] in tools.COMMANDS else "gikvand"
        assert (words, ran_by(">&-", *words)) == (words, (2, "gikvand: standard output is closed\n"))
        assert (words, ran_by(">/dev/full", *words)) == (words, (2, f"{name}: {full}\n"))
        assert (words, ran_by("2>/dev/full >/dev/full", *words)[0]) == (words, 2)
        if words[0] != "follow":
            assert (words, "Traceback" in ran_by("2>&1 <&- | cat >&2", *words)[1]) == (words, False)
    assert ran_by("2>&-", "verify", JOURNAL)[0] == 0
    assert ran_by("<&- 2>&-", "verify", "missing")[0] == 2


def test_names_of_all_bytes() -> None:
    """A name that isn't UTF-8, or has what a terminal would do, is shown as its bytes, wherever the outputs go."""
    for name, shown in ((b"caf\xe9.journal", "caf\\xe9.journal"), (b"esc\x1b[31m.journal", "esc\\x1b[31m.journal"),
                        ("caf\u00e9.journal".encode(), None)):
        put(name, made(3).data)
        put(name + b".symbols", b"ABC XYZ\n")
        for words in [*commands_on(os.fsdecode(name)), ["day", os.fsdecode(name)]]:
            for encoding in ("ascii", "utf-8:strict", "latin-1:strict"):
                line = [sys.executable, "-m", "gikvand", *words]
                it = subprocess.run(line, env={**os.environ, "PYTHONPATH": TOOLS, "PYTHONIOENCODING": encoding},
                                    capture_output=True, timeout=PATIENCE, stdin=subprocess.DEVNULL)
                is_taken = b"\xe9" not in name
                wanted = {0} if is_taken and words[0] != "watch" else {1} if words[0] in ("why", "watch") else {0, 2}
                assert (words, encoding, it.returncode in wanted, b"Traceback" in it.stderr) == (words, encoding, True, False)
                said = it.stdout + it.stderr
                assert (words, encoding, b"\x1b" in said or b"\xe9." in said and encoding != "latin-1:strict") == (
                    words, encoding, False)
                if shown and words[0] not in ("reports", "trades", "follow"):
                    assert (words, encoding, shown.encode() in said) == (words, encoding, True)
                if words[0] == "day" and is_taken:
                    xml.etree.ElementTree.fromstring(it.stdout.decode(encoding.partition(":")[0]))
            if os.path.exists("the.copy"):
                os.remove("the.copy")


def test_pipes_that_nobody_writes_to() -> None:
    """A pipe in the place of a journal isn't waited for."""
    os.mkfifo("pipe")
    put("pipe.symbols", b"ABC\n")
    for words in [*commands_on("pipe"), ["day", "pipe"], ["board", "pipe"], ["audit", "pipe", "the.log"]]:
        status, out, err = called(*words)
        assert (words, status, any("pipe is" in line for line in out + err)) == (words, 1 if words[0] == "why" else 2, True)


def test_words_without_docstrings() -> None:
    """Help is the same where Python keeps no docstrings."""
    for name in tools.COMMANDS:
        words = [sys.executable, "-m", "gikvand", name, "--help"]
        same = [subprocess.run(words, env={**os.environ, "PYTHONPATH": TOOLS, "PYTHONOPTIMIZE": level}, capture_output=True,
                               text=True, timeout=PATIENCE) for level in ("", "2")]
        assert (name, same[1].stdout, same[1].stderr) == (name, same[0].stdout, "")


def test_devices_that_fail() -> None:
    """A fault of the journal's device has its name in the line."""
    put(JOURNAL, made(3).data)
    def failing(*_: object) -> bytes:
        raise OSError(errno.EIO, os.strerror(errno.EIO))
    with mock.patch("gikvand.journals.exactly", failing):
        for words in commands_on(JOURNAL):
            if words[0] in ("verify", "trades", "follow"):
                put(f"{JOURNAL}.symbols", b"ABC XYZ\n")
                assert (words, gikvand(*words)[2]) == (words, [f"gikvand {words[0]}: {JOURNAL}: Input/output error"])


def test_the_command_line(monkeypatch: pytest.MonkeyPatch) -> None:
    """scripts/gikvand itself: its help, its version, and words that are none."""
    monkeypatch.setenv("COLUMNS", "80")  # (a narrow terminal parts the words of a usage)
    def ran(*words: str) -> tuple[int, str, str]:
        it = subprocess.run([GIKVAND, *words], capture_output=True, text=True, timeout=PATIENCE)
        return it.returncode, it.stdout, it.stderr
    status, out, err = ran("--help")
    assert (status, err, [name for name in tools.COMMANDS if f"    {name} " not in out]) == (0, "", [])
    with open(os.path.join(ROOT, "VERSION"), encoding="ascii") as file:
        assert ran("--version") == (0, f"gikvand {file.read()}", "")
    assert ran("nothing") == (2, "", "gikvand: 'nothing' is no command; gikvand --help lists them\n")
    assert ran()[0] == 2
    assert ran("--version", "x") == (2, "", "gikvand: --version takes no word like 'x'\n")
    assert ran("help", "verify")[1] == ran("verify", "--help")[1]
    assert "required: JOURNAL\n" in ran("verify")[2]
    for name in tools.COMMANDS:
        status, lines, errors = gikvand(name, "--help")
        assert (name, status, lines[0].startswith(f"usage: gikvand {name} "), errors) == (name, 0, True, [])
