#!/usr/bin/env python3
"""Wrong versions of gikvand-edge, each of which a test of edge/check has to refuse.

    edge/tests/wrong_edges.py [NAME...]      those whose names have one of these words in them; without one all
    edge/tests/wrong_edges.py --minutes N    begins no further one behind so many minutes: the commit says which come first
    edge/tests/wrong_edges.py --right        puts the right edge to each of their tests: one that fails by itself sees nothing

wrong_versions.py has them: each is a text of a source that stands there once and is another one. It is compiled, linked
with the rest as it is, and put to the test that is to see it. The last line is `N passed, M failed`: a version that its
test doesn't refuse has failed, and with --right a test that refuses the edge. Build the edge by `edge/setup --tests` first.
"""
import argparse
import hashlib
import os
import shutil
import subprocess
import sys
import tempfile
import time
from collections.abc import Callable, Iterable

import slices
from wrong_versions import WRONG, Wrong

EDGE = os.path.dirname(os.path.dirname(os.path.abspath(__file__)))
ROOT = os.path.dirname(EDGE)
FRAMER = os.path.join(ROOT, "crates/edge_frames_c/out/libedge_frames_c.a")
RIGHT = os.path.join(EDGE, "out/gikvand-edge")
CHECK, VARIABLE = os.path.join(EDGE, "check"), "GIKVAND_EDGE"  # The tests, and by what they are told of a program.
TRIES = 3  # Of a test with a wrong version.
PATIENCE = 6  # Seconds that a test waits for what has to come, and mostly doesn't come of a wrong version.
LEAST = 10    # So many are tried, however long that takes: the check counts on them on a busy machine, too.
OF_SLICES = "slices as all others have them"  # Before Linux 6.12 all others have none, and so have those of the edge.


def build(wrong: Wrong, place: str) -> str:
    """Compiles the wrong version in this folder: its program."""
    sources, program = os.path.join(place, "src"), os.path.join(place, "wrong-edge")
    shutil.rmtree(sources, ignore_errors=True)
    shutil.copytree(os.path.join(EDGE, "src"), sources)
    name, compiled = wrong.file(), wrong.by or wrong.source
    with open(os.path.join(sources, name), "r+", encoding="utf-8") as file:
        text = file.read()
        if text.count(wrong.old) != 1:
            raise ValueError(f"{wrong.old!r} stands {text.count(wrong.old)} times in {name}")
        file.seek(0)
        file.truncate()
        file.write(text.replace(wrong.old, wrong.new))
    built = [f"{EDGE}/out/CMakeFiles/gikvand-edge.dir/src/main.cpp.o"] if compiled != "main" else []
    built += [f"{EDGE}/out/libedge.a", FRAMER]
    words = ["c++", "-std=c++14", "-O0", "-w", '-DGIKVAND_VERSION="0"', "-o", program, os.path.join(sources, f"{compiled}.cpp"), *built]
    made = subprocess.run([*words, "-lquickfix", "-lsqlite3", "-lpthread"], capture_output=True, text=True)
    if made.returncode:
        raise ValueError(f"it can't be compiled: {made.stderr[-600:]}")
    return program


def refusal(program: str, test: str) -> str:
    """How this test of edge/check fails with this program, or nothing."""
    environment = {**os.environ, VARIABLE: program, "VENUE_PATIENCE": str(PATIENCE)}
    with tempfile.TemporaryFile("w+") as said:  # A process that is left may hold a pipe for ever.
        ran = subprocess.run([CHECK, test], env=environment, stdout=said, stderr=subprocess.STDOUT)
        said.seek(0)
        lines = said.read().splitlines() or ["it said nothing"]
    if not lines[-1].endswith(" failed") or lines[-1].startswith("0 passed, 0"):
        raise ValueError(f"no test of the name {test} ran: {lines[-1]}")
    return "\n".join(lines) if ran.returncode else ""


def need_refused(name: str, place: str) -> None:
    """The test of this version has to fail with it, in one of some tries: where a machine is slow, a wrong version may do right by chance."""
    program = build(WRONG[name], place)
    if not any(refusal(program, WRONG[name].test) for _ in range(TRIES)):
        raise ValueError(f"{WRONG[name].test} doesn't see it")


def need_taken(test: str, _: str) -> None:
    """A test may not fail with the right edge."""
    if words := refusal(RIGHT, test):
        raise ValueError(f"it fails with the right edge: {words}")


def drawn(names: Iterable[str]) -> list[str]:
    """These names in an order that the commit decides, so that each comes first at some time."""
    head = subprocess.run(["git", "rev-parse", "HEAD"], cwd=EDGE, stdout=subprocess.PIPE, stderr=subprocess.DEVNULL, text=True).stdout
    return sorted(names, key=lambda name: hashlib.sha256((head + name).encode()).digest())


def tried(names: Iterable[str], need: Callable[[str, str], None], minutes: float) -> tuple[int, int]:
    """Tries each of these, for so long, and the least count: how many there were, and how many of them aren't as they need to be."""
    count = failed = 0
    end = time.monotonic() + 60 * minutes
    with tempfile.TemporaryDirectory(prefix="wrong-edges-") as place:
        for name in names:
            if time.monotonic() > end and count >= LEAST:
                break
            count += 1
            try:
                need(name, place)
            except ValueError as why:
                failed += 1
                print(f"{name}: {why}", flush=True)
    return count, failed


def main() -> int:
    parser = argparse.ArgumentParser(description=__doc__, formatter_class=argparse.RawDescriptionHelpFormatter)
    parser.add_argument("names", nargs="*", metavar="NAME", help="those whose names have this word in them")
    parser.add_argument("--minutes", type=float, metavar="N", help="begin no further one behind so many minutes, and the least count")
    parser.add_argument("--right", action="store_true", help="put the right edge to their tests")
    asked = parser.parse_args()
    names = [it for it in WRONG if not asked.names or any(word in it for word in asked.names)]
    if OF_SLICES in names and not slices.slice_of(0):
        names.remove(OF_SLICES)
        print(f"{OF_SLICES}: it isn't tried, since this system gives threads no slices of their own", flush=True)
    tests = sorted({WRONG[name].test for name in names})
    those, what, need = (tests, "tests", need_taken) if asked.right else (names, "wrong versions", need_refused)
    count, failed = tried(drawn(those) if asked.minutes else those, need, asked.minutes or float("inf"))
    if count < len(those):
        print(f"{count} of {len(those)} {what} were tried", flush=True)
    print(f"{count - failed} passed, {failed} failed")
    return 1 if failed else 0


if __name__ == "__main__":
    sys.exit(main())
