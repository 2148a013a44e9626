#!/usr/bin/env python3
"""Tries the venue once at a boundary to other programs, as the smoke tests of the full check do.

    tests/smoke.py NAME     the test of this name:
                            member     three members over TCP play worked days, and the venue stops
                            edge       QuickFIX's own client trades through the edge, is killed, and comes back
                            feed       a feed publishes a venue's events to servers of NATS
                            board      Chromium shows the board of a day
                            package    a venue is started as Debian's package has it

A smoke test is a test of the soak, at which other programs take part, so its verdict may depend on more than the sources. A smoke
test that fails is tried once more, and a line `retried: NAME: why` says so. The last line is `N passed, M failed`, and the status is 1 where
the test failed both times. The venue, the edge and the feed have to be built.
"""
import argparse
import os
import re
import subprocess
import sys

ROOT = os.path.dirname(os.path.dirname(os.path.abspath(__file__)))
sys.path.insert(0, os.path.join(ROOT, "dev"))

import with_scripts  # (in front of what stands there, and of what an older Python can't read)
import debian
from part_runs import RETRIED

SMOKES = {
    "member": ("pytest", "tests/test_members.py", "--named", "test_worked_days"),
    "edge": ("edge/check", "test_tradeclients"),
    "feed": ("feed/check", "test_streams"),
    "board": ("pytest", "tests/test_board_page.py", "--named", "test_numbers_of_a_day"),
    "package": ("pytest", "tests/package/test_package.py", "--named", "test_a_venue_of_the_package"),
}
PASSED = "1 passed, 0 failed"
TELLS = re.compile(r"FAILED |ERROR |test_\w+: ")  # A line that says which test failed, and why.


def tried(name: str) -> list[str]:
    """Runs a test once, prints what the test says, and returns these lines."""
    program, *words = SMOKES[name]
    start = [debian.python_with_pytest(), "-m", "pytest", "-q"] if program == "pytest" else [os.path.join(ROOT, program)]
    said = subprocess.run([*start, *words], cwd=ROOT, stdin=subprocess.DEVNULL, stdout=subprocess.PIPE, stderr=subprocess.STDOUT, text=True,
                          errors="replace").stdout
    print(said, end="", flush=True)
    return said.splitlines() or ["nothing was said"]


def main() -> int:
    parser = argparse.ArgumentParser(description=__doc__, formatter_class=argparse.RawDescriptionHelpFormatter)
    parser.add_argument("name", metavar="NAME", choices=SMOKES, help="a smoke test")
    name = parser.parse_args().name
    lines = tried(name)
    if lines[-1] != PASSED:
        why = next((line for line in reversed(lines) if TELLS.match(line)), lines[-1])
        print(f"{RETRIED}{name}: {why}", flush=True)
        lines = tried(name)
    has_passed = lines[-1] == PASSED
    print(PASSED if has_passed else "0 passed, 1 failed")
    return 0 if has_passed else 1


if __name__ == "__main__":
    sys.exit(main())
