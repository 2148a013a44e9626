"""What the house comes to, in figures that are to fall: counted in the sources alone, and kept in dev/measured.json by dev/ratchet.py. Not
a script: the scripts import it.

A figure's name is its path: `crates/gateway/lines` is the number of lines of the sources of the crate gateway.
"""
import collections
import functools
import glob
import math
import os
import re
import sys
from collections.abc import Iterator
from typing import NamedTuple

import antt
import contracts
import crates
from below import OF_TESTS, Entry, Leaf, Project, crate_of, modules_of, reading_order, short
from crates import ROOT
from way import Way

CLAUSES, LONG, LONGEST = 8, 40, 100  # Clauses that a function may have, and lines of an answer: to begin with, and at the most.
CRATE_LINES, CRATE_FUNCTIONS, PROOFS_TO_CODE = 1500, 100, 1.5  # What a crate may have without a word.
PARTS = {"proofs": "proofs/**/*.antt", "specs": "specs/**/*.antt", "sources": "src/**/*.rt"}
ORDER_TAG = re.compile(r"pub enum OrderTag \{(.*?)\n\}", re.S)
NUMBER = re.compile(r"(?<![\w.])\d+(?![\w.])")
TYPES = ("struct", "enum", "trait", "type")
BENCHMARKS = ("bench",)


class Figure(NamedTuple):
    """How much there is of something, and how much there may be without a word: None where all there may be, since it is told alone."""
    name: str
    value: float
    free: float | None = 0


class Page(NamedTuple):
    """What somebody reads at once: a definition, or a function's clause, with what stands below it; and its row in docs/HEADLINE.md. A
    record leaves its chapters to themselves."""
    name: str
    clause: str = ""
    is_record: bool = False
    row: str = ""

    @property
    def title(self) -> str:
        return f"{self.name} {self.clause}{' as a record' if self.is_record else ''}".strip()


RECORDS = (Page("listen", "seen", True, "the record of `listen`, with ports, wires and disks"), Page("venue::serve", "seen", True))
CHAPTERS = (Page("gateway::Standing::At", row="a session"), Page("outputs_of", row="the outputs of a history"), Page("state_of"),
            Page("texts_to", row="the texts of reports"), Page("IsJournal", row="the bytes of a journal"), Page("HasCut", row="its cut"),
            Page("HasTrueSnapshots", row="its snapshots"), Page("gateway::Standing::Standing"))
WHOLE = Page("listen", "seen", row="all of them, each definition once")
ENDS = Page("listen", "ends")


# Functions, answers and widths.


def files_of(part: str, crate: str = "*") -> list[str]:
    """The files of one of these parts of a crate, or of all: sources without those of tests."""
    found = glob.glob(f"{ROOT}/crates/{crate}/{PARTS[part]}", recursive=True)
    return sorted(it for it in found if part != "sources" or not OF_TESTS.search(it))


@functools.cache
def lines_of(path: str) -> list[str]:
    return contracts.lines_of(path)


@functools.cache
def functions_of(path: str) -> list[contracts.Function]:
    return contracts.functions(lines_of(path))


def clauses() -> dict[str, int]:
    """The functions that have more clauses than they may, public or not, each with how many: those of closures are theirs."""
    found = {}
    for path in files_of("sources"):
        for it in functions_of(path):
            if (count := len(contracts.own_clauses(lines_of(path), it))) > CLAUSES:
                found["::".join([crate_of(path), *modules_of(path), *([it.owner] if it.owner else []), it.name])] = count
    return found


def answers() -> dict[str, int]:
    """The answers files that are longer than an answer is, each with its lines."""
    counted = {short(it): len(lines_of(it)) for it in files_of("proofs") if os.path.basename(it) == "Answers.antt"}
    return {path: count for path, count in counted.items() if count > LONG}


def wide(part: str) -> int:
    """How many lines of a part are wider than a screen."""
    return sum(len(line) > antt.WIDTH for path in files_of(part) for line in lines_of(path))


# What has several homes.


def kinds_of_names() -> dict[str, dict[str, set[str]]]:
    """The names of definitions in specs, and of types in sources, that stand for two or more, each with its files."""
    types = collections.defaultdict[str, set[str]](set)
    for crate in of_programs():
        for path in files_of("sources", crate) if crate not in BENCHMARKS else ():
            for it in contracts.items(lines_of(path)):
                if it.kind in TYPES:
                    types[it.name].add(short(path))
    return {kind: {name: files for name, files in found.items() if len(files) > 1}
            for kind, found in (("definitions", antt.homes()), ("types", types))}


def table_homes() -> list[str]:
    """The homes of the order table in crates: the files of sources and specs that spell the numbers of all tags of an order but one at the
    most, as the enum `OrderTag` has them."""
    found = []
    texts = {path: "\n".join(re.sub(r"(//|--).*", "", line) for line in lines_of(path))
             for crate in of_programs() for part in ("sources", "specs") for path in files_of(part, crate)}
    tags = {number for text in texts.values() for it in ORDER_TAG.findall(text) for number in NUMBER.findall(it)}
    if not tags:
        sys.exit("the tags of an order are those of the enum `OrderTag`, which isn't there: dev/figures.py")
    for path, text in texts.items():
        if len(tags - set(NUMBER.findall(text))) <= 1:
            found.append(short(path))
    return found


# What somebody reads.


def pages() -> Iterator[tuple[Page, int, int]]:
    """Each page with the number of its definitions, and of their files."""
    project = Project()
    chapters = {it for page in CHAPTERS for it in below(project, page) if isinstance(it, Entry)}
    for page in (*RECORDS, *CHAPTERS, WHOLE, ENDS):
        roots = below(project, page)
        closed = [it for it in chapters if it not in roots] if page.is_record or page in CHAPTERS else []
        entries, _ = reading_order(project, roots, closed)
        yield page, len(entries), len({it.path for it in entries})


def below(project: Project, page: Page) -> list[Entry | Leaf]:
    """Where the reading of a page begins."""
    found = list[Entry | Leaf]()
    for _, it in project.candidates(page.name.split("::"))[:1]:
        if isinstance(it, Entry):
            found.append(it)
        else:
            found += [other for one in project.clauses(*it) if one.clause.name == page.clause for other in project.below_clause(one)]
    if not found:
        sys.exit(f"nothing is read as {page.title}: dev/figures.py")
    return found


# Crates.


def of_programs() -> list[str]:
    """The crates that programs and libraries for C stand on, and these themselves: tests are none of them."""
    listed = crates.listed()
    tops = [it for it in listed if os.path.isfile(f"{ROOT}/crates/{it}/src/main.rt")] + crates.for_c()
    below_them = {name for it in tops for name in (*crates.below(it, listed), it)}
    return [it for it in listed if it in below_them]


def of_crate(name: str) -> Iterator[Figure]:
    """The lines of a crate's parts, its functions, and how many lines of proofs come to one of its sources, in tenths above."""
    lines = {part: sum(len(lines_of(it)) for it in files_of(part, name)) for part in PARTS}
    functions = sum(len(functions_of(it)) for it in files_of("sources", name))
    yield Figure("lines", lines["sources"], CRATE_LINES)
    yield Figure("functions", functions, CRATE_FUNCTIONS)
    yield Figure("lines of specs", lines["specs"], None)
    yield Figure("lines of proofs", lines["proofs"], None)
    yield Figure("proofs to code", math.ceil(10 * lines["proofs"] / max(1, lines["sources"])) / 10, PROOFS_TO_CODE)


# All of them.


def all_figures() -> list[Figure]:
    """The figures of the tree, in the order in which they stand in dev/measured.json."""
    many, long, way, names = clauses(), answers(), Way().counts(), kinds_of_names()
    found = [Figure("clauses/functions above eight", len(many)), Figure("clauses/beyond eight", sum(many.values()) - CLAUSES * len(many))]
    found += [Figure(f"clauses/of {name}", count, None) for name, count in sorted(many.items())]
    found += [Figure("answers/above 40 lines", len(long)), Figure("answers/lines beyond 40", sum(long.values()) - LONG * len(long)),
              Figure("answers/above 100 lines", sum(count > LONGEST for count in long.values()))]
    found += [Figure(f"wide lines/{part}", wide(part)) for part in PARTS]
    found += [Figure(f"names with two homes/{kind}", len(them)) for kind, them in names.items()]
    found += [Figure("order table/homes in crates", len(table_homes()))]
    found += [Figure(f"order's way/{name}", count, None if name == "pairs" else 0) for name, count in way._asdict().items()]
    for page, definitions, files in pages():
        found += [Figure(f"pages/{page.title}/definitions", definitions), Figure(f"pages/{page.title}/files", files)]
    found += [it._replace(name=f"crates/{name}/{it.name}") for name in of_programs() for it in of_crate(name)]
    return found
