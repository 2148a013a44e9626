#!/usr/bin/env python3
"""Wrong versions of gikvand-feed, each of which a test of feed/check has to refuse.

    feed/tests/wrong_feeds.py [NAME...]      those whose names have one of these words in them; without one all
    feed/tests/wrong_feeds.py --minutes N    begins no further one behind so many minutes: the commit says which come first
    feed/tests/wrong_feeds.py --right        puts the right feed to each of their tests: one that fails by itself sees nothing

wrong_feed_versions.py has them, in the form of those of the edge (edge/tests/wrong_edges.py), which tries them. The last line
is `N passed, M failed`. Build the feed by `feed/setup --tests` first.
"""
import os
import shutil
import subprocess
import sys

FEED = os.path.dirname(os.path.dirname(os.path.abspath(__file__)))
sys.path[:0] = [os.path.join(FEED, "../edge/tests"), os.path.join(FEED, "../dev")]

import networks
import wrong_edges
import wrong_feed_versions
from wrong_feed_versions import WRONG
from wrong_versions import Wrong

LEAST = 2      # Wrong versions that are tried, however long they take.
PATIENCE = 20  # Seconds that a test waits: servers that come back take that.
SHARED = os.path.join(os.path.dirname(FEED), "edge/src")
PARTED = "partitions"  # The test that wants networks.
SERVERS = "FEED_SERVERS"  # By this feeds.py is told of other servers.


def make_wrong(path: str, wrong: Wrong) -> None:
    """Puts the other text into a file."""
    with open(path, "r+", encoding="utf-8") as file:
        text = file.read()
        if text.count(wrong.old) != 1:
            raise ValueError(f"{wrong.old!r} stands {text.count(wrong.old)} times in {os.path.basename(path)}")
        file.seek(0)
        file.truncate()
        file.write(text.replace(wrong.old, wrong.new))


def build(wrong: Wrong, place: str) -> str:
    """Compiles the wrong version in this folder: its program. Of wrong servers it is the right one, and a variable names them."""
    os.environ.pop(SERVERS, None)
    if wrong.source == wrong_feed_versions.SCRIPT:
        os.environ[SERVERS] = shutil.copy(os.path.join(FEED, "servers"), place)
        make_wrong(os.environ[SERVERS], wrong)
        return os.path.join(FEED, "out/gikvand-feed")
    sources, program = os.path.join(place, "src"), os.path.join(place, "wrong-feed")
    shutil.rmtree(sources, ignore_errors=True)
    shutil.copytree(os.path.join(FEED, "src"), sources)
    make_wrong(source := os.path.join(sources, wrong.file()), wrong)
    built = [os.path.join(FEED, "out/CMakeFiles/gikvand-feed.dir/src/main.cpp.o")] if wrong.source != "main" else []
    built.append(os.path.join(FEED, "out/libfeed.a"))
    made = subprocess.run(["c++", "-std=c++14", "-O0", "-w", '-DGIKVAND_VERSION="0"', f"-I{SHARED}", "-o", program, source, *built, "-lnats",
                           "-lpthread"], capture_output=True, text=True)
    if made.returncode:
        raise ValueError(f"it can't be compiled: {made.stderr[-600:]}")
    return program


def tried_here() -> dict[str, Wrong]:
    """The wrong versions that can be tried here. Each other one has a line."""
    if networks.can_be_had():
        return WRONG
    print(*(f"{name}: it isn't tried, since no networks can be had here" for name, it in WRONG.items() if it.test == PARTED), sep="\n")
    return {name: it for name, it in WRONG.items() if it.test != PARTED}


def main() -> int:
    wrong_edges.WRONG, wrong_edges.build, wrong_edges.RIGHT = tried_here(), build, os.path.join(FEED, "out/gikvand-feed")
    wrong_edges.CHECK, wrong_edges.VARIABLE, wrong_edges.PATIENCE = os.path.join(FEED, "check"), "GIKVAND_FEED", PATIENCE
    wrong_edges.LEAST = LEAST
    wrong_edges.__doc__ = __doc__
    return wrong_edges.main()


if __name__ == "__main__":
    sys.exit(main())
