"""What a file of a wrong body says of itself, in lines that `rt` doesn't read. Not a script: the scripts import it.

    // promise 4                                the promise of docs/PROMISES.md, or promises, because of which it is refused
    // does: a gateway claims at once           what the wrong body does: each in must-fail says so,
    // refused by: try_claim (claimed, held)    and which function's clauses refuse it, or which function where it has one alone
"""
import glob
import os
import re
from collections.abc import Iterator
from typing import NamedTuple

import contracts
import crates
from crates import ROOT

PLACES = ("must-fail", "edits")
DOES, REFUSED_BY = "// does: ", "// refused by: "
BY = re.compile(r"(?P<function>(?:\w+::)*\w+)(?: \((?P<clauses>\w+(?:, \w+)*)\))?")


class Planted(NamedTuple):
    """A wrong body: its crate and folder, its name, the promises, what it does, what refuses it, and lines that say nothing known."""
    crate: str
    place: str
    name: str
    promises: tuple[int, ...]
    does: str
    refused_by: str
    unknown: tuple[str, ...]
    path: str


def promises_in(line: str) -> tuple[int, ...]:
    """The numbers of the promises that a line ends with, as `// promise 3` or `// promises 3, 15`."""
    found = contracts.MARK.search(line)
    return tuple(map(int, found["numbers"].split(", "))) if found else ()


def read(path: str) -> Planted:
    """What stands in the comments of a wrong body's file, which is one of a crate's folder, or of must-fail at the top."""
    *_, above, folder, name = path.split(os.sep)
    crate, place = (folder, above) if above == PLACES[0] else (above, folder)
    with open(path, encoding="utf-8") as file:
        said = [it.rstrip("\n") for it in file if it.startswith("//")]
    numbers = [it for line in said if contracts.MARK.fullmatch(line) for it in promises_in(line)]
    does, by = ([line.removeprefix(head) for line in said if line.startswith(head)] for head in (DOES, REFUSED_BY))
    unknown = [it for it in said if not contracts.MARK.fullmatch(it) and not it.startswith((DOES, REFUSED_BY))]
    twice = [f"{head.strip()} stands {len(them)} times" for head, them in ((DOES, does), (REFUSED_BY, by)) if len(them) > 1]
    return Planted(crate, place, name.removesuffix(".edit"), tuple(numbers), "".join(does[:1]), "".join(by[:1]), (*unknown, *twice),
                   os.path.relpath(path, ROOT))


def of_crate(crate: str, place: str) -> list[Planted]:
    """Those of a crate and of one of PLACES: of must-fail most stand at the top."""
    folders = [f"{ROOT}/crates/{crate}/{place}", *([f"{ROOT}/{place}/{crate}"] if place == PLACES[0] else [])]
    return [read(it) for folder in folders for it in sorted(glob.glob(f"{folder}/*.edit"))]


def all_planted() -> Iterator[Planted]:
    """All wrong bodies, by crates in the order of their layers, those that are tried at every check in front."""
    for crate in crates.listed():
        for place in PLACES:
            yield from of_crate(crate, place)
