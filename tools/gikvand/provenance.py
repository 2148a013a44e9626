"""Tells of programs whether they are those of a release, by the manifest that the release has, and how to build them again.

    gikvand provenance MANIFEST [PROGRAM...]
    gikvand provenance MANIFEST --sources FOLDER

A release's manifest, gikvand_VERSION.provenance.json, has the SHA-256 of each program, as the compiler left it and as a package has it,
and of each source, and what the prover said of each crate. Without PROGRAM the programs on the path are looked at. With --sources
the files of a folder are compared with the release's sources, as a checkout or an unpacked archive has them.
Get the manifest from whom you believe, and not from where the programs came from.

The status is 0 where all are the release's, 1 where one isn't, and 2 where that can't be told.
"""
import argparse
import hashlib
import json
import os
import shutil
from collections.abc import Iterator
from typing import NamedTuple

from gikvand import files
from gikvand.words import Trouble, some

FORMAT = "gikvand provenance 1"
PROGRAMS = ("venued", "venue-replay", "venue-events", "gikvand-edge", "gikvand-feed")
SHOWN = 10  # Sources that differ, of which each has a line.
A_READ = 1 << 20  # Bytes of a file that are read at once.


class Verdict(NamedTuple):
    """What the prover said of a crate: how many functions it proved, and what it took as it stood."""
    functions: int
    trusted: list[str]


class Manifest(NamedTuple):
    """What a release says of itself. Sums are SHA-256, in hexadecimal digits; those of a program by how it was made."""
    version: str
    commit: str
    kit: str
    verdicts: dict[str, Verdict]
    programs: dict[str, dict[str, str]]
    packages: dict[str, str]
    sources: dict[str, str]

    def text(self) -> str:
        """The manifest as its file has it."""
        fields = {**self._asdict(), "verdicts": {name: it._asdict() for name, it in self.verdicts.items()}}
        return json.dumps({"format": FORMAT, **fields}, indent=1, sort_keys=True) + "\n"


def read(path: str) -> Manifest:
    """The manifest of this file."""
    with files.opened(path) as file:
        data = file.read()
    try:
        fields = json.loads(data)
        if fields.pop("format") != FORMAT:
            raise ValueError
        verdicts = {name: Verdict(int(it["functions"]), list(map(str, it["trusted"]))) for name, it in fields.pop("verdicts").items()}
        found = Manifest(verdicts=verdicts, **fields)
        sums = [it for by in found.programs.values() for it in by.values()] + [*found.sources.values(), *found.packages.values()]
        if not all(isinstance(it, str) for it in (*sums, found.version, found.commit, found.kit)):
            raise ValueError
        return found
    except (ValueError, KeyError, TypeError, AttributeError):
        raise Trouble(f"{path} is no manifest of a release: {FORMAT!r}") from None


def sum_of(path: str) -> str:
    """The SHA-256 of a file's bytes."""
    found = hashlib.sha256()
    with files.opened(path) as file:
        while piece := file.read(A_READ):
            found.update(piece)
    return found.hexdigest()


def add_words(parser: argparse.ArgumentParser) -> None:
    parser.add_argument("manifest", metavar="MANIFEST", help="the release's manifest")
    parser.add_argument("programs", metavar="PROGRAM", nargs="*", help="a program's file; those on the path, if left out")
    parser.add_argument("--sources", metavar="FOLDER", help="compare a tree of sources, and no programs")


def tells(manifest: Manifest) -> Iterator[str]:
    """What the release says of its proofs."""
    functions, trusted = sum(it.functions for it in manifest.verdicts.values()), {word for it in manifest.verdicts.values() for word in it.trusted}
    yield f"gikvand {manifest.version}, commit {manifest.commit}"
    yield f"proved by {manifest.kit}: {some(len(manifest.verdicts), 'crate')} with {some(functions, 'function')}"
    yield f"the prover took as they stood: {', '.join(sorted(trusted)) or 'nothing'}"


def program_of(path: str) -> str:
    """The name that a program has in a manifest: that of its file, as scripts/build or a package leaves it."""
    return os.path.basename(path).replace("_", "-")


def on_the_path() -> list[str]:
    """The programs of a release that are installed here."""
    found = [path for it in PROGRAMS if (path := shutil.which(it))]
    if not found:
        raise Trouble(f"none of {', '.join(PROGRAMS)} is on the path: name a program's file")
    return found


def judged(manifest: Manifest, path: str) -> tuple[bool, str]:
    """Whether this program is the release's, and a line that says so."""
    name, came = program_of(path), sum_of(path)
    for how, wanted in sorted(manifest.programs.get(name, {}).items()):
        if came == wanted:
            return True, f"{path}: {name} of this release, as it was {how}"
    if name not in manifest.programs:
        return False, f"{path}: the release has no program {name}"
    return False, f"{path}: not {name} of this release: its SHA-256 is {came}"


def differing(manifest: Manifest, folder: str) -> Iterator[str]:
    """What differs in a tree of sources, a line each. Files that the release hasn't aren't looked at."""
    for name, wanted in sorted(manifest.sources.items()):
        path = os.path.join(folder, name)
        if not os.path.lexists(path):
            yield f"{path}: isn't there"
        elif sum_of_source(path) != wanted:
            yield f"{path}: not that of this release"


def sum_of_source(path: str) -> str:
    """The SHA-256 of a source: of a link's words, where it is a link."""
    return hashlib.sha256(os.fsencode(os.readlink(path))).hexdigest() if os.path.islink(path) else sum_of(path)


def run(given: argparse.Namespace) -> int:
    manifest = read(given.manifest)
    if given.sources and given.programs:
        raise Trouble("programs or --sources, and not both")
    for line in tells(manifest):
        print(line)
    if given.sources:
        if not os.path.isdir(given.sources):
            raise Trouble(f"{given.sources} is no folder")
        differ = list(differing(manifest, given.sources))
        for line in differ[:SHOWN]:
            print(line)
        print(f"{given.sources}: {len(differ)} of {some(len(manifest.sources), 'source')} differ" if differ else
              f"{given.sources}: all {some(len(manifest.sources), 'source')} are those of this release")
        return 1 if differ else 0
    found = [judged(manifest, it) for it in given.programs or on_the_path()]
    for _, line in found:
        print(line)
    print(f"to build it again: git checkout {manifest.commit} && scripts/build && scripts/package")
    return 0 if all(is_right for is_right, _ in found) else 1
