"""Tests of `gikvand provenance`, on manifests and programs that are made here."""
import hashlib
import json
import os
from typing import Any

import pytest

from checks import put_text
from gikvand.provenance import FORMAT, Manifest, Verdict
from made_journals import gikvand

pytestmark = pytest.mark.quick

NAME, PROGRAM = "release.json", "bin/venued"
HEAD = ["gikvand 1.2.3, commit abc", "proved by a kit: 2 crates with 5 functions", "the prover took as they stood: logic-built, statements"]
FOOT = "to build it again: git checkout abc && scripts/build && scripts/package"


def sum_of(text: str) -> str:
    return hashlib.sha256(text.encode()).hexdigest()


def put_manifest(**others: Any) -> None:
    """A manifest of a venued, which is `built` or `packaged`, and of two sources, one of them a link; but for these fields."""
    made = Manifest("1.2.3", "abc", "a kit", {"a": Verdict(2, ["logic-built"]), "b": Verdict(3, ["statements", "logic-built"])},
                    {"venued": {"built": sum_of("built"), "packaged": sum_of("packaged")}, "venue-replay": {"built": sum_of("other")}},
                    {}, {"src/one.rt": sum_of("one"), "src/link": sum_of("one.rt")})
    put_text(NAME, json.dumps({**json.loads(made.text()), **others}))


def test_programs() -> None:
    """A program is the release's as it was built, or as it was packaged, and by its own name alone."""
    put_manifest()
    for text, how in (("built", "built"), ("packaged", "packaged")):
        put_text(PROGRAM, text, 0o755)
        assert gikvand("provenance", NAME, PROGRAM) == (0, [*HEAD, f"{PROGRAM}: venued of this release, as it was {how}", FOOT], [])
    put_text("bin/venue_replay", "other", 0o755)
    assert gikvand("provenance", NAME, PROGRAM, "bin/venue_replay") == (
        0, [*HEAD, f"{PROGRAM}: venued of this release, as it was packaged", "bin/venue_replay: venue-replay of this release, as it was built",
            FOOT], [])
    put_text(PROGRAM, "other", 0o755)
    wrong = f"{PROGRAM}: not venued of this release: its SHA-256 is {sum_of('other')}"
    assert gikvand("provenance", NAME, PROGRAM, "bin/venue_replay")[:2] == (
        1, [*HEAD, wrong, "bin/venue_replay: venue-replay of this release, as it was built", FOOT])
    put_text("bin/more", "built", 0o755)
    assert gikvand("provenance", NAME, "bin/more")[:2] == (1, [*HEAD, "bin/more: the release has no program more", FOOT])


def test_programs_on_the_path(monkeypatch: pytest.MonkeyPatch) -> None:
    """Without names those on the path are looked at."""
    put_manifest()
    put_text(PROGRAM, "packaged", 0o755)
    monkeypatch.setenv("PATH", os.path.abspath("bin"))  # (a gikvand that is installed has its programs in /usr/bin)
    status, out, _ = gikvand("provenance", NAME)
    assert (status, out[3]) == (0, f"{os.path.abspath(PROGRAM)}: venued of this release, as it was packaged")
    os.remove(PROGRAM)
    status, out, err = gikvand("provenance", NAME)
    assert (status, [it.partition(" is on ")[0] for it in err]) == (
        2, ["gikvand provenance: none of venued, venue-replay, venue-events, gikvand-edge, gikvand-feed"])


def test_sources() -> None:
    """A tree is compared file by file, a link by its words; what the release hasn't isn't looked at."""
    put_manifest()
    put_text("tree/src/one.rt", "one")
    os.symlink("one.rt", "tree/src/link")
    put_text("tree/out/more", "")
    assert gikvand("provenance", NAME, "--sources", "tree") == (0, [*HEAD, "tree: all 2 sources are those of this release"], [])
    put_text("tree/src/one.rt", "another")
    os.remove("tree/src/link")
    assert gikvand("provenance", NAME, "--sources", "tree")[:2] == (
        1, [*HEAD, "tree/src/link: isn't there", "tree/src/one.rt: not that of this release", "tree: 2 of 2 sources differ"])
    put_text("tree/src/one.rt", "one")
    put_text("tree/src/link", "one")  # (what the link led to)
    assert gikvand("provenance", NAME, "--sources", "tree")[:2] == (
        1, [*HEAD, "tree/src/link: not that of this release", "tree: 1 of 2 sources differ"])


def test_what_cannot_be_told() -> None:
    """A file that is no manifest, one that isn't there, and words that don't go together have a line each, and the status 2."""
    put_manifest()
    put_text(PROGRAM, "built", 0o755)
    for words, line in (((NAME, "--sources", "none"), "none is no folder"), ((NAME, "none"), "none: No such file or directory"),
                        ((NAME, PROGRAM, "--sources", "bin"), "programs or --sources, and not both"),
                        (("none", PROGRAM), "none: No such file or directory"), (("bin", PROGRAM), "bin: Is a directory")):
        status, _, err = gikvand("provenance", *words)
        assert (words, status, err) == (words, 2, [f"gikvand provenance: {line}"])
    wrong: list[dict[str, Any]] = [{"format": f"{FORMAT}0"}, {"verdicts": {"a": {"functions": "many", "trusted": []}}}, {"more": 1},
                                   {"programs": {"venued": "built"}}, {"programs": {"venued": {"built": 5}}}, {"commit": None}]
    for fields in wrong:
        put_manifest(**fields)
        assert (fields, gikvand("provenance", NAME, PROGRAM)) == (
            fields, (2, [], [f"gikvand provenance: {NAME} is no manifest of a release: {FORMAT!r}"]))
    for text in ("", "[]", "{}", "\0"):
        put_text(NAME, text)
        assert gikvand("provenance", NAME, PROGRAM)[0] == 2
