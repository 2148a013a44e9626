"""Tests of the form that commits have, as docs/CONTRIBUTING.md says: the newest ten, and messages that are wrong in one thing."""
import re
import subprocess

import pytest

from checks import ROOT

pytestmark = pytest.mark.quick

NEWEST = 10  # Commits that are looked at: a landing has mostly no more.
LONGEST, WIDEST = 72, 120  # Letters of a subject, and of a line of a body.
SUBJECT = re.compile(r"[a-z0-9_./-]+(, [a-z0-9_./-]+)*: \S.*[^.\s]")
RIGHT = "edge, feed: one form for both\n\nTwo forms differed in three lines. 12 files change.\n"


def faults(message: str) -> list[str]:
    """What is wrong with the form of a commit's message."""
    subject, _, rest = message.rstrip("\n").partition("\n")
    lines = rest.split("\n")
    found = ["a subject is `crate: what`, without a full stop"] if not SUBJECT.fullmatch(subject) else []
    found += [f"a subject has at most {LONGEST} letters"] if len(subject) > LONGEST else []
    found += ["an empty line stands behind the subject"] if lines[0] else []
    found += ["a body says why"] if not "".join(lines[1:]).strip() else []
    return found + ([f"a line of a body has at most {WIDEST} letters"] if any(len(it) > WIDEST for it in lines) else [])


def test_newest() -> None:
    """The newest commits have that form, where git has them."""
    log = ["git", "-C", ROOT, "-c", "log.showSignature=false", "log", f"-{NEWEST}", "--no-merges", "--encoding=UTF-8", "--format=%B%x00"]
    said = subprocess.run(log, capture_output=True, encoding="utf-8")
    if said.returncode:
        pytest.skip("git has no history here")
    messages = [it.strip("\n") for it in said.stdout.split("\0") if it.strip()]
    assert messages and [(it.partition("\n")[0], faults(it)) for it in messages if faults(it)] == []


@pytest.mark.parametrize("old, new, fault", (
    ("edge, feed: ", "", "a subject is"), ("edge, feed: ", "Edge: ", "a subject is"), ("both\n", "both.\n", "a subject is"),
    ("one form", "one form " + "and another " * 5, "a subject has"), ("both\n\n", "both\n", "an empty line"),
    ("\n\nTwo forms differed in three lines. 12 files change.", "", "a body says"), ("Two forms", "Two forms " + "and more " * 10, "a line of")))
def test_wrong_messages(old: str, new: str, fault: str) -> None:
    """Each of these is told, and the right one isn't."""
    assert faults(RIGHT) == []
    assert RIGHT.count(old) == 1
    assert [it[:len(fault)] for it in faults(RIGHT.replace(old, new))][:1] == [fault]
