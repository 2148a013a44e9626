"""Tests of the completion of words, as bash runs contrib/gikvand.bash."""
import os
import pty
import select
import shlex
import subprocess
import tempfile
import time

import pytest

from checks import ROOT, put_text, ran
from gikvand import main as tools
from venues import PATIENCE

pytestmark = [pytest.mark.quick, pytest.mark.usefixtures("programs")]

COMPLETION = os.path.join(ROOT, "contrib/gikvand.bash")
COMPLETE = """source "$1"; shift
compopt() { :; }
COMP_WORDS=("$@") COMP_CWORD=$(($# - 1))
line="$(complete -p "$1")"
"$(sed 's/.*-F \\([a-z_]*\\) .*/\\1/' <<<"$line")"
printf '%s\\n' "${COMPREPLY[@]}"
"""


def completed(*words: str, folder: str | None = None) -> list[str]:
    """What bash answers for the last of these words, which it has cut at each =."""
    status, out, err = ran("bash", "--norc", "-c", COMPLETE, "bash", COMPLETION, *words, folder=folder)
    assert (words, status, err) == (words, 0, "")
    return sorted(out.split())


def test_options_completed() -> None:
    """The commands of gikvand and the options of each are those that it takes."""
    assert completed("gikvand", "") == sorted([*tools.COMMANDS, "--help", "--version"])
    assert completed("gikvand", "tr") == ["trade", "trades"]
    for name in tools.COMMANDS:
        options = [it for action in tools.parser_of(name)._actions for it in action.option_strings if it.startswith("--")]
        assert (name, completed("gikvand", name, "-")) == (name, sorted(options))
        taking = [it.option_strings[0] for it in tools.parser_of(name)._actions if it.option_strings and it.nargs is None]
        for option in taking:
            assert (option, completed("gikvand", name, option, "-")) == (option, [])


def test_words_completed() -> None:
    """The words of each program by their place, files, and a journal's symbols."""
    members = [f"C{number}" for number in range(1, 9)]
    with tempfile.TemporaryDirectory(prefix="completion-") as folder:
        for name, text in (("day.journal", ""), ("day.journal.symbols", "ABC XYZ\n"), ("c1.log", ""),
                           ("bad.symbols", "$(touch${IFS}run) `touch${IFS}run` * Q\n")):
            put_text(os.path.join(folder, name), text)
        journal = ["day.journal", "day.journal.symbols"]
        for words, wanted in (
                ("gikvand verify d", journal), ("gikvand verify --symbols A d", journal),
                ("gikvand verify day.journal C", [f"{it}=" for it in members]),
                ("gikvand verify day.journal C1 = c", ["c1.log"]), ("gikvand verify day.journal C1 = c1.log C2 = c", ["c1.log"]),
                ("gikvand reports day.journal ", members), ("gikvand reports --after 3 day.journal C8", ["C8"]),
                ("gikvand trades d", journal), ("gikvand trades day.journal ", []), ("gikvand follow day.journal d", journal),
                ("gikvand follow day.journal x ", []), ("gikvand audit d", journal), ("gikvand audit day.journal d", journal),
                ("gikvand audit day.journal x ", []), ("gikvand verify --edge d", journal),
                ("gikvand reports --edge c1.log day.journal C8", ["C8"]), ("gikvand why d", journal), ("gikvand watch d", journal),
                ("gikvand board d", journal), ("gikvand board --port 8700 d", journal), ("gikvand board day.journal ", []),
                ("gikvand board --feed ", []), ("gikvand board --feed = t", []), ("gikvand board --password-file c", ["c1.log"]),
                ("gikvand board --feed tls://h/N --ca = c", ["c1.log"]), ("gikvand board --password-file c1.log d", journal),
                ("gikvand trade ", ["buy", "cancel", "orders", "replace", "sell"]), ("gikvand trade --member ", list("12345678")),
                ("gikvand trade --journal d", journal), ("gikvand trade --journal day.journal buy 5 ", ["ABC", "XYZ"]),
                ("gikvand trade --journal = d", journal), ("gikvand trade --journal = day.journal buy 5 ", ["ABC", "XYZ"]),
                ("gikvand trade --member = ", list("12345678")), ("gikvand verify --edge = c", ["c1.log"]),
                ("gikvand trade --port = ", []), ("gikvand trade buy 5 ABC m", ["market"]), ("gikvand trade sell 5 ABC 50 ", ["fok", "ioc"]),
                ("gikvand demo ", []), ("gikvand day d", journal), ("gikvand day day.journal ABC ", ["XYZ"]),
                ("gikvand provenance d", journal), ("gikvand provenance day.journal c", ["c1.log"]),
                ("gikvand provenance --sources c", ["c1.log"]), ("gikvand provenance day.journal --sources = c", ["c1.log"]),
                ("gikvand day bad ", ["Q"]), ("gikvand nothing ", sorted(os.listdir(folder))),
                ("venued ", ["-"]), ("venued 9001 d", journal), ("venued 9001 day.journal ", list("12345678")),
                ("venued - day.journal ", ["1"]), ("venued - day.journal 1 ", ["ABC", "XYZ"]),
                ("venued 9001 day.journal 2 XYZ ", ["ABC"]), ("venued 9001 bad 1 ", ["Q"]), ("venued 9001 none 1 ", []),
                ("venue-replay d", journal),
                ("venue-replay day.journal ", sorted(["book", *members, "snapshot", "check", "carry"])),
                ("venue-replay day.journal book ", ["ABC", "XYZ"]), ("venue-replay day.journal C1 ABC ", ["XYZ"]),
                ("venue-replay day.journal carry d", journal), ("venue-replay day.journal carry new ", []),
                ("venue-events d", journal), ("venue-events day.journal ", ["follow", "once"]),
                ("venue-events day.journal once ", ["ABC", "XYZ"]), ("venue-events day.journal once --", ["--after"]),
                ("venue-events day.journal once --after ", []), ("venue-events day.journal once --after 2 ABC ", ["XYZ"]),
                ("venue-events day.journal follow ", ["ABC", "XYZ"]), ("venue-events day.journal follow --", ["--after"])):
            assert (words, completed(*words.split(" "), folder=folder)) == (words, wanted)
        assert sorted(os.listdir(folder)) == ["bad.symbols", "c1.log", *journal]


def test_typed() -> None:
    """At a prompt, with the key for completion."""
    us, bash = pty.openpty()
    process = subprocess.Popen(["bash", "--norc", "--noprofile", "-i"], stdin=bash, stdout=bash, stderr=bash, start_new_session=True,
                               env={**os.environ, "TERM": "dumb", "PS1": "> ", "HISTFILE": "/dev/null"})
    try:
        os.write(us, f"source {shlex.quote(COMPLETION)}\ngikvand rep\tday.journal C1 --a\t17".encode())
        seen, end = "", time.monotonic() + PATIENCE
        while "--after 17" not in seen and time.monotonic() < end:
            if select.select([us], [], [], 0.1)[0]:
                seen += os.read(us, 4096).decode("ascii", "replace")
        assert seen[seen.rfind("gikvand"):] == "gikvand reports day.journal C1 --after 17"
    finally:
        process.kill()
        process.wait()
        os.close(us)
        os.close(bash)
