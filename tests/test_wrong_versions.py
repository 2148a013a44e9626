"""Tests of all wrong versions at once, of which a check tries some by chance, or late: that what each changes stands in its file once.
Who changes a file sees here within seconds which of them no longer say anything."""
import os
import sys
from collections.abc import Iterator

import pytest

import planted
import wrong_package
import wrong_rules
import wrong_scripts
import wrong_tools
from checks import ROOT, text_of
from script_modules import loaded

sys.path += [os.path.join(ROOT, it) for it in ("edge/tests", "feed/tests")]  # (behind all others)

import wrong_feed_versions
import wrong_versions

pytestmark = pytest.mark.quick


def changes(kind: str) -> Iterator[tuple[str, str, str]]:
    """The wrong versions of a kind by name: the file that each changes, and the text that is another one there."""
    if kind == "rules":
        yield from ((name, wrong_rules.FILES[it.file], it.old) for name, it in wrong_rules.WRONG.items())
    elif kind == "tools":
        yield from ((name, f"tools/{it.file()}", it.old) for name, it in wrong_tools.WRONG.items())
    elif kind == "packages":
        yield from ((name, it.file, it.old) for name, it in wrong_package.WRONG.items())
    elif kind == "scripts":
        yield from ((name, it.file, it.old) for name, it in wrong_scripts.WRONG.items())
    elif kind == "edges":
        yield from ((name, f"edge/src/{it.file()}", it.old) for name, it in wrong_versions.WRONG.items())
    else:
        yield from ((name, wrong_feed_versions.path(it), it.old) for name, it in wrong_feed_versions.WRONG.items())


@pytest.mark.parametrize("kind", ("rules", "tools", "packages", "scripts", "edges", "feeds"))
def test_texts(kind: str) -> None:
    found = [(name, file, text_of(file).count(old)) for name, file, old in changes(kind)]
    assert found and [it for it in found if it[2] != 1] == []


def test_wrong_bodies() -> None:
    """The same of what the prover is to refuse: each can be made, and changes a function or a constant that one names."""
    edits = loaded("dev/edits")
    faults = []
    for crate in edits.all_crates().values():
        for edit in (it for place in planted.PLACES for it in crate.edits(place)):
            try:
                crate.look(edit)
            except edits.BadEdit as why:
                faults.append(f"{edit.name} ({crate.name}): {why}")
    assert faults == []
