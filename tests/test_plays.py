"""Tests of dev/play itself: each word of a play has a play that passes and some that have to fail, with the line that says why.

The programs of these plays are shells, which do what the play has them do. It also looks that dev/play without a name plays
all of tests/*.play. It needs no built program. PLAY in the environment names another dev/play: tests/known_bad.py puts wrong ones
there.
"""
import glob
import importlib.machinery
import io
import os
import re
import subprocess
import sys
import types
from contextlib import redirect_stdout
from typing import NamedTuple
from unittest import mock

import pytest

from checks import LONG, ROOT, put_text
from gikvand.words import sure
from venues import NO_MORE, RanOut, Trouble

pytestmark = pytest.mark.quick

PLAY = os.path.abspath(os.environ.get("PLAY", os.path.join(ROOT, "dev/play")))
SHELL = '#!/bin/bash\n# The words of a play are what it does.\neval "$1"\n'
A_WAIT = 1  # Seconds for a play that waits in vain.
SOON = "20250102-09:30:00"
LOGON = f"8=FIX.4.4|9=64|35=A|49=C1|56=VENUE|34=1|52={SOON}|98=0|108=0|141=Y|10=027|"
ANSWER = f"8=FIX.4.4|9=46|35=0|49=VENUE|56=C1|34=1|52={SOON}|10=210|"


class Case(NamedTuple):
    """A play of this word: its lines, the number of the line at which the play fails with this fault, or none where it passes, and whether
    the fault is a wait that runs out. Such a play waits for nothing that comes."""
    word: str
    lines: list[str]
    at: int = 0
    fault: str = ""
    waits: bool = False


def sealed(fields: str) -> str:
    """A frame as it has to be, by its own sums: that of dev/play isn't asked."""
    text = f"8=FIX.4.4|9={len(fields)}|{fields}"
    return f"{text}10={sum(1 if it == '|' else ord(it) for it in text) % 256:03}|"


def says(text: str, more: str = "") -> str:
    """A program that prints this with the byte 01 for a bar."""
    return f"run venued \"printf '%s' '{text}' | tr '|' '\\001'; {more}\""


def echoes(count: int) -> str:
    """A program that prints what it got, up to so many bytes, as hex."""
    return f"run venued \"head -c {count} | od -An -v -tx1 | tr -d ' \\n'; echo\""


def hexed(text: str) -> str:
    return text.replace("|", "\x01").encode().hex()


BEAT = sealed(f"35=0|49=VENUE|56=C1|34=1|52={SOON}|")
SENT = sealed(f"35=0|49=C1|56=VENUE|34=1|52={SOON}|112=hi|")
NEXT = sealed(f"35=0|49=C1|56=VENUE|34=2|52={SOON}|")
JOURNAL = "564e4a4c00000003" + "00" * 8
ENTRY = sealed(f"35=D|49=C2|56=VENUE|34=2|52={SOON}|11=1|")
BLOCK = "01" + f"{1 + 3 + len(ENTRY):08x}" + "01" + "02" + f"{len(ENTRY):04x}" + hexed(ENTRY)
HAS_ENDED = "until grep -q ^State:.Z /proc/$(cat own)/status; do sleep 0.1; done"  # The program of this number, which nobody waited for.
CASES = [
    Case("run", ["run venued 'echo one'", "prints one"]),
    Case("run", ["run venued 'echo $2,$3' '' third", "prints ,third"]),
    Case("run", ["run venued 'echo $2,$3' '' third", "prints third,"], 2, "expected third,.* came ,third"),
    Case("run", ["run nobody"], 1, "run venued or venue-replay"),
    Case("run", ["run venued 'exit 4'"], 1, "expected status 0 came status 4"),
    Case("run", ["run venued 'exit 4'", "run venued true"], 2, "expected status 0 came status 4"),
    Case("run", ["run venued 'echo more'"], 1, "expected nothing more came more"),
    Case("run closed", ["run closed=0 venued 'cat 2>/dev/null || echo none'", "prints none"]),
    Case("run closed", ["run venued 'cat 2>/dev/null || echo none'", "close", "prints none"], 3, "expected none.* came nothing"),
    Case("run full", ["run out=full venued 'echo x 2>/dev/null || exit 5'", "status 5"]),
    Case("run broken", ["run out=broken venued 'trap \"\" PIPE; echo x 2>/dev/null || exit 6'", "status 6"]),
    Case("run size", ["run size=10 venued 'head -c 100 /dev/zero >file 2>/dev/null; exit 0'", "status 0", "file file " + "00" * 10]),
    Case("run size", ["run size=10 venued 'head -c 100 /dev/zero >file 2>/dev/null; exit 0'", "status 0", "file file " + "00" * 9], 3,
         "expected file"),
    Case("run stopped", ["run stopped=9 venued 'ulimit -n'", "prints 9"]),
    Case("run memory", ["run memory=90000000 venued 'ulimit -d'", "prints 87890"]),
    Case(">", [echoes(len(SENT)), "> 0 112=hi|", f"prints {hexed(SENT)}"]),
    Case(">", [echoes(len(SENT)), "> 0 112=hx|", f"prints {hexed(SENT)}"], 3, "expected .* came "),
    Case("> again", [echoes(len(SENT) + len(NEXT)), "> 0 112=hi|", "> 0", f"prints {hexed(SENT)}{hexed(NEXT)}"]),
    Case("> hex", [echoes(3), "> hex 00 ff 31", "prints 00ff31"]),
    Case("> hex", [echoes(3), "> hex 0 0x"], 2, "no hex bytes"),
    Case("> frame", [echoes(len(sealed("35=Q|"))), "> frame 35=Q|", f"prints {hexed(sealed('35=Q|'))}"]),
    Case("> text", [echoes(4), "> 8=a|", "prints 383d6101"]),
    Case("> header", [echoes(9), "> A [35=7|] 98=0|"], 2, "not of the header: 35=7"),
    Case(">", ["> 0"], 1, "no program runs"),
    Case("+", [echoes(4), "+ hex 3131", "> hex 3232", "prints 31313232"]),
    Case("+", ["run venued 'exec cat'", "+ hex 31310a", "prints 11"], 3, "expected 11.* came nothing", True),
    Case("<", [says(BEAT), "< 0"]),
    Case("<", [says(BEAT.replace("10=", "11=")), "< 0"], 2, "expected 8=FIX.4.4"),
    Case("<", [says(BEAT + BEAT), "< 0"], 2, "expected nothing more came 8=FIX.4.4"),
    Case("<", [says(BEAT + "x"), "< 0", "status 0"], 2, "expected nothing more came x"),
    Case("< twice", [says(BEAT + sealed(f"35=0|49=VENUE|56=C1|34=2|52={SOON}|")), "< 0", "< 0"]),
    Case("< twice", [says(BEAT + BEAT), "< 0", "< 0"], 3, "expected 8=FIX.4.4"),
    Case("< ended", [says(BEAT), "< 0 112=more|"], 2, "expected 8=FIX.4.4"),
    Case("prints", ["run venued 'echo one; echo two'", "prints one", "prints two"]),
    Case("prints", ["run venued '/usr/bin/printf \"one\\ntwo\\n\"'", "prints one"], 2, "expected nothing more came two"),
    Case("prints", ["run venued '/usr/bin/printf \"one\\ntwo\\n\"; echo ready >&2'", "prints one", "! ready", "prints two"], 2,
         "expected nothing more came two"),
    Case("prints", ["run venued 'echo one'", "prints two"], 2, "expected two.* came one"),
    Case("prints", ["run out=full venued true", "prints two"], 2, "nobody reads this output"),
    Case("!", ["run venued 'echo fault >&2; exit 1'", "! fault", "status 1"]),
    Case("!", ["run venued 'echo fault >&2; exit 1'", "! other", "status 1"], 2, "expected other.* came fault"),
    Case("!", ["run venued '/usr/bin/printf \"fault\\nmore\\n\" >&2; exit 1'", "! fault", "status 1"], 2, "expected nothing more came more"),
    Case("!", ["run venued 'echo fault; exit 1'", "! fault", "status 1"], 2, "expected fault.* came nothing"),
    Case("quiet", ["run venued 'exec sleep 600'", "quiet", "kill"]),
    Case("quiet", ["run venued 'echo one; echo ready >&2; exec sleep 600'", "! ready", "quiet"], 3, "expected nothing more came one"),
    Case("quiet", ["run venued 'echo one >&2; echo ready; exec sleep 600'", "prints ready", "quiet"], 3, "expected nothing more came one"),
    Case("pieces", ["run venued 'dd bs=9 count=1 2>/dev/null; echo; cat >/dev/null'", "pieces 2", "> hex 31323334", "prints 12"]),
    Case("pieces", ["run venued 'dd bs=9 count=1 2>/dev/null; echo; cat >/dev/null'", "> hex 31323334", "prints 12"], 3,
         "expected 12.* came 1234"),
    Case("pieces", ["run venued 'exec sleep 600'", "pieces 2", "> hex 31323334"], 3, "expected that the program reads each piece", True),
    Case("pieces 0", ["run venued 'dd bs=9 count=1 2>/dev/null; echo; cat >/dev/null'", "pieces 2", "pieces 0", "> hex 31323334",
                      "prints 1234"]),
    Case("close", ["run venued 'cat >/dev/null; echo end'", "close", "prints end"]),
    Case("close", ["run venued 'cat >/dev/null; echo end'", "prints end"], 2, "expected end.* came nothing", True),
    Case("kill", ["run venued 'exec sleep 600'", "kill", "run venued true"]),
    Case("kill", ["run venued 'echo $$ >own; echo end; exit 3'", "prints end", f"@other run venue-replay '{HAS_ENDED}; echo so'",
                  "@other prints so", "kill"], 5, "expected status 137 came status 3"),
    Case("status", ["run venued 'exit 3'", "status 3"]),
    Case("status", ["run venued 'exit 3'", "status 1"], 2, "expected status 1 came status 3"),
    Case("status", ["run venued 'kill -KILL $$'", "status 137"]),
    Case("status", ["run venued 'kill -KILL $$'", "status 0"], 2, "expected status 0 came status 137"),
    Case("status", ["run venued 'exec sleep 600'", "status 0"], 2, "expected status 0 came no end", True),
    Case("status", ["write held 31", "run venued 'while [ -e held ]; do sleep 0.1; done & exit 3'", "status 3"], 3,
         "expected (that the output ends with its program|status 3 came no end)", True),  # (which of both is the machine's doing)
    Case("status", ["run venued 'echo more; exit 3'", "status 3"], 2, "expected nothing more came more"),
    Case("status", ["run venued 'echo more >&2; exit 3'", "status 3"], 2, "expected nothing more came more"),
    Case("@", ["run venued 'echo one; cat'", "@other run venue-replay 'echo two; exit 2'", "prints one", "@other prints two",
               "@other status 2"]),
    Case("@", ["run venued 'echo one; cat'", "@other run venue-replay 'echo two; exit 2'", "prints one", "@other prints one"], 4,
         "expected one.* came two"),
    Case("@", ["@other run venue-replay 'exit 2'"], 1, "expected status 0 came status 2"),
    Case("write", ["write file 00 ff", "run venued 'od -An -tx1 file'", "prints  00 ff"]),
    Case("write", ["write file 00 ff", "file file 00 fe"], 2, "expected file 00fe came 00ff"),
    Case("empty", ["empty journal 3", f"file journal {JOURNAL} 00", "empty old 1", "file old 564e4a4c 00000001 00"]),
    Case("empty", ["empty journal 3 5", f"file journal {JOURNAL} 00"], 2, "expected journal"),
    Case("entry", ["entry journal 2 D 11=1|", f"file journal {JOURNAL} {BLOCK} 00"]),
    Case("entry", ["entry journal 3 D 11=1|", f"file journal {JOURNAL} {BLOCK} 00"], 2, "expected journal .* at byte "),
    Case("entry", ["write journal 00", "entry journal 2 D 11=1|"], 2, "no journal: journal"),
    Case("snapshot", ["empty journal 3", "snapshot journal abcd", f"file journal {JOURNAL} 01 00000003 02 abcd 00"]),
    Case("snapshot", ["empty journal 3", "snapshot journal abce", f"file journal {JOURNAL} 01 00000003 02 abcd 00"], 3, "expected journal"),
    Case("snapshot", ["empty journal 2", "snapshot journal abcd"], 2, "a journal without snapshots: journal"),
    Case("copy", ["write one 31", "copy one two", "file two 31", "file one 31"]),
    Case("copy", ["write one 31", "copy one two", "file two 32"], 3, "expected two 32 came 31"),
    Case("folder", ["folder place", "run venued '[ -d place ] || exit 1'", "status 0"]),
    Case("folder", ["run venued '[ -d place ] || exit 1'", "status 0"], 2, "expected status 0 came status 1"),
    Case("link", ["link name nothing", "run venued 'readlink name'", "prints nothing"]),
    Case("link", ["link name nothing", "file name absent"], 2, "expected name absent came a file that is there"),
    Case("mode", ["write one 31", "mode 0 one", "run venued 'cat one 2>/dev/null || exit 7'", "status 7"]),
    Case("mode", ["write one 31", "run venued 'cat one >/dev/null 2>&1 || exit 7'", "status 7"], 3, "expected status 7 came status 0"),
    Case("file", ["write one 31 32", "file one 3132"]),
    Case("file", ["write one 31 32", "file one 3133"], 2, "expected one 3133 came 3132"),
    Case("file", ["write one 31 32", "file one 31"], 2, "expected one 31 came 3132"),
    Case("file", ["file one 31"], 1, "expected one 31 came no file"),
    Case("file", ["write one", "file one 31"], 2, "expected one 31 came an empty file"),
    Case("file kept", ["write one 31", "run venued true", "status 0", "file one kept"]),
    Case("file kept", ["write one 31", "run venued 'printf 2 >one'", "status 0", "file one kept"], 4, "expected one 31 came 32"),
    Case("file kept", ["run venued 'printf 2 >one'", "status 0", "file one kept"], 3, "expected one no file came 32"),
    Case("file kept", ["write one 31", "run venued 'rm one'", "status 0", "file one kept"], 4, "expected one 31 came no file"),
    Case("file absent", ["file one absent"]),
    Case("file absent", ["write one 31", "file one absent"], 2, "expected one absent came a file that is there"),
    Case("file present", ["write one 31", "file one present"]),
    Case("file present", ["file one present"], 1, "expected one present came a file that is missing"),
    Case("file as", ["write one 31", "write two 31", "file one as two"]),
    Case("file as", ["write one 31", "write two 32", "file one as two"], 3, "expected one 32 came 31"),
    Case("file as", ["write one 31", "file one as two"], 2, "expected one no file came 31"),
    Case("repeat", ["run venued 'cat'", "repeat 3", "> hex 3{i} 0a", "prints {i}", "end", "close"]),
    Case("repeat", ["run venued 'printf \"1\\n2\\n\"'", "repeat 3", "prints {i}", "end"], 3, "expected 3.* came nothing"),
    Case("repeat", ["run venued 'printf \"3\\n6\\n\"'", "repeat 2", "prints {3*i}", "end"]),
    Case("repeat", ["run venued 'printf \"3\\n7\\n\"'", "repeat 2", "prints {3*i}", "end"], 3, "expected 6.* came 7"),
    Case("repeat", ["repeat 2", "write one 31"], 1, "repeat without end"),
    Case("repeat", ["end"], 1, "1: end without repeat"),
    Case("other", ["nothing of a play"], 1, "no line of a play: nothing of a play"),
    Case("other", ["# a comment", "", "  # another"])]


def put_case(case: Case) -> dict[str, str]:
    """Makes the play of a case, and its programs, and returns the paths of the programs."""
    put_text("case.play", "".join(f"{line}\n" for line in case.lines))
    return {name: put_text(name, SHELL, 0o755) for name in ("venued", "venue-replay")}


@pytest.mark.parametrize("case", CASES, ids=[f"{it.word}-{number}" for number, it in enumerate(CASES)])
def test_word(case: Case) -> None:
    """A play with this word passes, or fails at its line with its fault."""
    programs = [f"--{name}={path}" for name, path in put_case(case).items()]
    patience = {"VENUE_PATIENCE": str(A_WAIT)} if case.waits else {}
    it = subprocess.run([sys.executable, PLAY, "case.play", *programs], capture_output=True, text=True, timeout=LONG,
                        env={**os.environ, "PYTHONPATH": os.path.join(ROOT, "dev"), **patience})  # (where another dev/play finds modules)
    said = it.stdout.replace("\n", " ")
    wanted = rf"case\.play:{case.at}: {case.fault}.*0 passed, 1 failed " if case.fault else r"1 passed, 0 failed "
    assert (it.returncode, it.stderr) == (int(bool(case.fault)), "")
    assert re.fullmatch(wanted, said)


def module() -> types.ModuleType:
    """dev/play's own functions."""
    it = types.ModuleType("play")
    it.__file__ = os.path.join(ROOT, "dev/play")
    loader = importlib.machinery.SourceFileLoader("play", PLAY)
    exec(compile(loader.get_data(PLAY), PLAY, "exec"), it.__dict__)
    return it


def played_all(faults: dict[int, Trouble]) -> tuple[list[str], int | str | None, list[str]]:
    """Lets dev/play play without a name, where the plays of these numbers fail so, and returns the played files, the status, and the printed
    lines."""
    play, seen = module(), list[str]()

    def played(file: str, _: object) -> Trouble | None:
        seen.append(file)
        return faults.get(len(seen))
    words = ["play", "--venued", "/bin/true", "--venue-replay", "/bin/true"]
    with mock.patch.multiple(play, play=played, ROOT=ROOT), \
            mock.patch.object(sys, "argv", words), redirect_stdout(io.StringIO()) as out:
        with pytest.raises(SystemExit) as ended:
            play.main()
    return seen, ended.value.code, out.getvalue().splitlines()


def test_all_plays() -> None:
    """dev/play without a name plays each file of tests, and counts those that fail."""
    files = sorted(glob.glob(os.path.join(ROOT, "tests/*.play")))
    assert files
    assert played_all({3: Trouble("a fault")}) == (files, 1, ["a fault", f"{len(files) - 1} passed, 1 failed"])


def test_three_waits() -> None:
    """No further play is played behind the third one whose wait ran out. A play that fails in another way doesn't count there."""
    seen, status, said = played_all({1: RanOut("1"), 2: Trouble("2"), 4: RanOut("4"), 6: RanOut("6"), 7: RanOut("7")})
    assert (len(seen), status, said) == (6, 1, ["1", "2", "4", "6", NO_MORE, "2 passed, 4 failed"])


@pytest.mark.parametrize("case", [case for case in CASES if case.waits or case.word == "prints" and case.fault], ids=lambda case: case.word)
def test_waits_that_run_out(case: Case, monkeypatch: pytest.MonkeyPatch) -> None:
    """A play tells a wait that ran out from any other fault."""
    play, programs = module(), put_case(case)
    if case.waits:
        monkeypatch.setattr(play, "PATIENCE", A_WAIT)
    assert type(play.play("case.play", programs)) is (RanOut if case.waits else Trouble)


def test_bytes_that_wait_in_the_pipe() -> None:
    """Bytes that a program has written count as more also where the thread that reads them had no turn yet."""
    play, (reader, writer) = module(), os.pipe()
    with mock.patch.object(play.Stream, "read", lambda _: None), open(reader, "rb", buffering=0) as source, open(writer, "wb", buffering=0) as pipe:
        stream = play.Stream(source)
        stream.nothing_more()
        pipe.write(b"x")
        with pytest.raises(play.Failed, match="^expected nothing more came x$"):
            stream.nothing_more()


def words_of_a_play() -> set[str]:
    """The words that the help of dev/play lists."""
    text = sure(module().__doc__).partition("Lines are blank")[2].partition("A program without")[0]
    return {found[1] for line in text.splitlines() if (found := re.match(r"    (\S+)", line)) and not line.startswith("     ")}


def test_words_that_may_fail() -> None:
    """Each word of a play has a play here that has to fail."""
    failing = {case.word.split()[0] for case in CASES if case.fault} | {"#"}
    assert {it.replace("@NAME", "@") for it in words_of_a_play()} - failing == set()
