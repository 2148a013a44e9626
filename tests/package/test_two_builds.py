"""Two builds of the edge, and of the feed, in two folders: they have the same bytes. It compiles each once more, and so is run by hand
(`-m long`), behind `edge/setup` and `feed/setup` of the same sources. The quick form is test_traces, of edge/check and of feed/check."""
import os
import shutil
import subprocess

import pytest

from checks import EDGE, ROOT, contents, copy_there, put_text

FEED = os.path.abspath(os.environ.get("GIKVAND_FEED", os.path.join(ROOT, "feed/out/gikvand-feed")))
FRAMERS = "crates/edge_frames_c/out"


@pytest.mark.long
@pytest.mark.parametrize("part, program", (("feed", FEED), ("edge", EDGE)))
def test_two_builds(part: str, program: str) -> None:
    """The sources in another folder, built by their setup, are the program that is built already. The framer is the same."""
    if not os.access(program, os.X_OK):
        pytest.skip(f"{os.path.relpath(program)} isn't built: {part}/setup builds it")
    os.mkdir("another")
    copy_there(ROOT, ("VERSION", "edge", "feed"), "another")
    if part == "edge":
        os.makedirs(f"another/{FRAMERS}")
        shutil.copy(os.path.join(ROOT, FRAMERS, "libedge_frames_c.a"), f"another/{FRAMERS}")
    rt = put_text("bin/rt", "#!/bin/sh\n", 0o755)  # The framer stays as it is.
    subprocess.run([f"another/{part}/setup"], env={**os.environ, "PATH": f"{os.path.dirname(rt)}:{os.environ['PATH']}"}, check=True)
    assert contents(f"another/{part}/out/gikvand-{part}") == contents(program)
