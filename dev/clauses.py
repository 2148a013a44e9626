"""docs/CLAUSES.md, as it is made: which functions and clauses carry each promise of docs/PROMISES.md, what they cite, on what it rests,
and which wrong bodies are refused because of it. Not a script: dev/pages writes the page and compares it, tests/promises.py checks what it is
made of.

That a clause carries a promise is said once, in the source, by a comment `// promise 3`, or `// promises 3, 15`. The comment stands

    behind the last line of a clause, or on a line above the clause where its own would be too long: that clause
    behind the last line of a function's head, above the first clause: all of them
    behind `impl Trait for Type {`: the trait's contract as the type keeps it
    behind a type's `ghost invariant`: what is so between calls
    behind `mod name;`: all public functions of the module

A wrong body says it in its own file (dev/planted.py). What a clause cites are the definitions of specs that stand in its text, and of records
the fields.
"""
import functools
import os
import re
import textwrap
from collections.abc import Container, Iterable, Iterator
from typing import NamedTuple

import antt
import contracts
import crates
import exports
import planted
from below import QUALIFIED, Entry, Place, Project, crate_of
from crates import ROOT

PROMISES = "docs/PROMISES.md"
WIDTH = 120
HEADING = re.compile(r"## (\d+)\. \S.*")
PREMISE = "**Premise**: "
OF_BODIES = "the proof of each body"  # What carries a promise that no clause carries, in the words of its section.
MODULE = re.compile(r"mod (\w+);")
SAID = re.compile(r"(?<!/)//(?![/!]) *promise", re.I)  # What is meant as such a comment, in whatever form.
DOC = re.compile(r" */// ?")
SENTENCE = re.compile(r"(?<=[^.]\.) ")

TOP = """\
# Clauses

This page says which clauses of which public functions carry each of the [promises](PROMISES.md), and which wrong
bodies of the code are refused because of it. `dev/pages --write` makes the page of the sources, where a comment at a
clause names the clause's promise. [WRONG_BODIES.md](WRONG_BODIES.md) has all wrong bodies by function.

A clause stands in the source of its function, as `ensures NAME { .. }`. One in brackets is a condition, which stands
there as `requires NAME { .. }`, and `one` is a clause without a name. Behind `of` stand the definitions that the text
of the clause cites. Definitions stand in the folders `specs/`, and are what one has to believe. All that stands below a
clause `dev/reads FUNCTION --clause NAME` prints. Behind the functions of a crate stand the fields of its records, of
those that are cited and of those below. Each record stands once, where it comes first. A law is a public function with
an empty body, whose clause is a theorem about definitions. An invariant holds of a type's value between calls.
"""
TOP_OF_TRIED = """\
## Tried at every check

These wrong bodies were named when the promises were set. Each is the body that its row tells of. Every check tries all
of them by `dev/edits --must-fail`, which sees that the function of its row refuses it, and by `rt ci` one of
`sequencer` once more. Of all others a check tries those whose function
has changed (`dev/edits --changed`); `dev/edits` tries all.

| wrong body | what it does | refused by |
|---|---|---|
"""
BEHIND_TRIED = """\

A function without a clause in brackets has one clause alone, or it isn't proved that it ends. Two more are refused by
tests, since no clause speaks of threads or of want of memory. Two workers on one thread are refused by `side_by_side`
(`crates/venue_tests/src/tests/meeting.rt`). Calls that always want memory are refused by the runs with ample memory
(`tests/refused_memory.py`).
"""
TOP_OF_PARTS = """\

## The parts, by crate

What the sections above stand on, or leave to them: all other public functions with clauses, each with these in brackets
where they have names.
"""


# The promises.


class Promise(NamedTuple):
    """A section of the page of promises: its number, the line of its heading, that heading, and its text."""
    number: int
    line: int
    heading: str
    text: str

    @property
    def premise(self) -> str:
        """What it rests on, or nothing where it doesn't say so."""
        return self.text.partition(PREMISE)[2].replace("](#", "](PROMISES.md#")


def promises_in(lines: list[str]) -> Iterator[Promise]:
    """The promises of a page, in their order."""
    heads = [at for at, line in enumerate(lines) if line.startswith("## ")]
    for first, end in zip(heads, [*heads[1:], len(lines)]):
        if found := HEADING.fullmatch(lines[first]):
            yield Promise(int(found[1]), first + 1, lines[first], " ".join(" ".join(lines[first + 1:end]).split()))


def promises() -> list[Promise]:
    with open(os.path.join(ROOT, PROMISES), encoding="utf-8") as file:
        return list(promises_in(file.read().split("\n")))


# What carries them.


class Carrier(NamedTuple):
    """What a comment stands at: its name, what that is if no function, its place (where it is public), and what it says: each of its
    clauses that are meant, or of the facts, with what these cite."""
    name: str
    kind: str
    path: str
    line: int
    says: tuple[tuple[str, tuple[Entry, ...]], ...]


class Mark(NamedTuple):
    """A comment that names promises: its place, their numbers, and what it stands at; nothing where that carries no promise."""
    path: str
    line: int
    numbers: tuple[int, ...]
    carriers: tuple[Carrier, ...]


class Sources:
    """What the sources say of the promises."""

    def __init__(self) -> None:
        self.project = Project()
        self.crates = [*exports.exporting(), *map(exports.Crate, crates.for_c())]
        self.types = {it.name for crate in self.crates for it in crate.exports}

    @functools.cached_property
    def marks(self) -> list[Mark]:
        """All such comments, by crates in the order of their layers."""
        found = []
        for crate in self.crates:
            for path in crate.files:
                with open(path, encoding="utf-8") as file:
                    for line, text in enumerate(file, 1):
                        if SAID.search(text):
                            found.append(Mark(path, line, planted.promises_in(text.rstrip()), tuple(self.carriers(path, line))))
        return found

    def strays(self) -> Iterator[tuple[str, int]]:
        """The comments of other files, as of tests and benchmarks, which carry no promise."""
        own = {path for crate in self.crates for path in crate.files}
        for path in antt.sources(".rt"):
            if path not in own:
                with open(path, encoding="utf-8") as file:
                    yield from ((path, line) for line, text in enumerate(file, 1) if SAID.search(text))

    def carriers(self, path: str, line: int) -> Iterator[Carrier]:
        """What a comment on this line stands at, if that carries promises."""
        lines = self.project.code[path]
        if found := MODULE.fullmatch(lines[line - 1]):
            inside = os.path.join(re.sub(r"(/lib|/main|\.rt)*$", "", path), f"{found[1]}.rt")
            for it in self.project.functions.get(inside, []):
                if is_public(it):
                    yield self.function(inside, it, contracts.own_clauses(self.project.code[inside], it))
            return
        for it in self.project.functions[path]:
            clauses = contracts.own_clauses(lines, it)
            own = [one for one in clauses if is_at(lines, one, line)]
            if not own and clauses and it.line <= line < clauses[0].line:
                own = clauses
            if own and is_public(it):
                yield self.function(path, it, own)
        for block in self.project.blocks[path]:
            if block.type not in self.types:
                continue
            if block.trait and block.first < line <= head_end(lines, block):
                yield self.kept(path, block)
            for fact in contracts.facts(lines, block):
                if fact.name == "invariant" and fact.first < line <= fact.last:
                    text = " ".join(lines[fact.first:fact.last]).partition("=")[2].strip().removesuffix(";")
                    cited = self.cited(Place(path, block), text, contracts.bounds(block.head))
                    yield Carrier(block.type, "invariant of", path, line, (("one", cited),))

    def function(self, path: str, it: contracts.Function, clauses: Iterable[contracts.Clause]) -> Carrier:
        """A function that carries promises by these of its clauses."""
        name = f"{it.owner}::{it.name}" if it.owner else it.name
        is_law = not it.owner and contracts.signature(it.head)[1:] == ("", "")
        return Carrier(name, "law" if is_law else "", path, it.line, tuple(self.said(path, it, one) for one in clauses))

    def kept(self, path: str, block: contracts.Block) -> Carrier:
        """The contract of a trait as a type keeps it: the clauses of its functions, or where it has none the facts that stand for these."""
        says = [self.said(home, it, clause) for home, it in self.of_trait(block.trait)
                for clause in contracts.own_clauses(self.project.code[home], it)]
        facts = contracts.facts(self.project.code[path], block)
        says = [*dict(says).items()] if says else [(it.name, ()) for it in facts]
        return Carrier(f"{block.trait} for {block.type}", "", path, block.first + 1, tuple(says))

    def of_trait(self, trait: str) -> list[tuple[str, contracts.Function]]:
        """The functions of a trait of ours, with its file."""
        if trait not in self.project.facts:
            return []
        home = self.project.facts[trait][0]
        return [(home.path, it) for it in self.project.functions[home.path] if it.block == home.block]

    def said(self, path: str, it: contracts.Function, clause: contracts.Clause) -> tuple[str, tuple[Entry, ...]]:
        """How a clause is told, and what it cites."""
        name = "one" if clause.name in ("requires", "ensures") else clause.name
        is_condition = self.project.code[path][clause.line - 1].lstrip().startswith("requires")
        values = {*(contracts.bounds(it.block.head) if it.block else ()), *contracts.bounds(it.head), *contracts.parameters(it.head)}
        cited = self.cited(Place(path, it.block), clause.text.partition("{")[2].rpartition("}")[0], values)
        return f"({name})" if is_condition else name, cited

    def cited(self, place: Place, text: str, own: Container[str]) -> tuple[Entry, ...]:
        """The definitions of specs that a term of the code names itself, where these names are values and types."""
        names = self.project.ghosts(place)
        words = antt.free_names(QUALIFIED.sub(" ", text), (), lambda it: it[0].isupper())
        known = (it for it in words if it.partition(".")[0] not in own and self.project.is_known(it, names))
        them = dict.fromkeys(self.project.named(it, names, place.path) for it in known)
        return tuple(it for it in them if isinstance(it, Entry) and it.path in self.project.specs)

    # What is read of definitions.

    def fields(self, it: Entry) -> list[str]:
        """The fields of a record, none of another definition."""
        definition = self.project.specs[it.path][it.name]
        parts = antt.clauses(self.project.lines[it.path], definition)[1:] if definition.kind == "record" else []
        return [part.strip().removeprefix("pub ").partition(" :")[0] for part in parts]

    def records(self, cited: Iterable[Entry], crate: str) -> list[Entry]:
        """The records of a crate among these, and those that definitions of the crate name below these."""
        found, waiting = dict[Entry, None](), list(cited)
        while waiting:
            it = waiting.pop(0)
            if it not in found and crate_of(it.path) == crate:
                found[it] = None
                waiting += [one for one in self.project.below(it) if isinstance(one, Entry) and one.path in self.project.specs]
        return [it for it in found if self.fields(it)]


def is_public(it: contracts.Function) -> bool:
    """Whether others than its own module may call a function."""
    return it.visibility == "pub " or it.block is not None and bool(it.block.trait)


def is_at(lines: list[str], clause: contracts.Clause, line: int) -> bool:
    """Whether a line is one of a clause, or stands above the clause with nothing but a comment that names promises."""
    return clause.line <= line <= clause.line + clause.text.count("\n") or line == clause.line - 1 and not lines[line - 1]


def head_end(lines: list[str], block: contracts.Block) -> int:
    """The last line of what stands in front of a block's members."""
    return next(at for at in range(block.first, block.last + 1) if "{" in lines[at]) + 1


# The page.


def wrapped(text: str) -> list[str]:
    """An item of a list, in as many lines as it takes: none ends within a name."""
    whole = re.sub(r"`[^`]*`", lambda it: it[0].replace(" ", "\0"), text)
    lines = textwrap.wrap(whole, WIDTH, subsequent_indent="  ", break_long_words=False, break_on_hyphens=False)
    return [it.replace("\0", " ") for it in lines]


def quoted(names: Iterable[str]) -> str:
    return ", ".join(f"`{it}`" for it in names)


def told(name: str, cited: Iterable[Entry]) -> str:
    """A clause with what it cites."""
    said = "one" if name == "one" else f"(`{name[1:-1]}`)" if name[0] == "(" else f"`{name}`"
    said = "(one)" if name == "(one)" else said
    names = quoted(dict.fromkeys(it.name for it in cited))
    return f"{said} of {names}" if names else said


def carriers_of(sources: Sources, number: int) -> list[Carrier]:
    """What carries a promise, each once with all of its clauses that are meant."""
    found = dict[tuple[str, int, str], Carrier]()
    for mark in sources.marks:
        for it in mark.carriers if number in mark.numbers else ():
            key = (it.path, it.line, it.kind)
            found[key] = it._replace(says=tuple(dict.fromkeys((*found[key].says, *it.says)))) if key in found else it
    return list(found.values())


def section(sources: Sources, promise: Promise, wrong: list[planted.Planted], told_of: set[Entry]) -> list[str]:
    """What the page says of a promise, where the records that it told of before aren't told of again."""
    lines = [promise.heading, "", *wrapped(f"{PREMISE}{promise.premise}"), ""]
    carriers = carriers_of(sources, promise.number)
    for crate in dict.fromkeys(crate_of(it.path) for it in carriers):
        lines += [f"**`{crate}`**", ""]
        for it in carriers:
            if crate_of(it.path) == crate:
                said = "; ".join(told(*one) for one in it.says)
                lines += wrapped(f"- {it.kind}{' ' if it.kind else ''}`{it.name}`: {said}")
        cited = (entry for it in carriers if crate_of(it.path) == crate for _, them in it.says for entry in them)
        if records := [it for it in sources.records(cited, crate) if it not in told_of]:
            told_of |= {*records}
            lines += wrapped(f"- records: {'; '.join(f'`{it.name}` has {quoted(sources.fields(it))}' for it in records)}")
        lines += [""]
    if not carriers:
        lines += [f"**Clauses**: none; {OF_BODIES} carries it.", ""]
    names = dict.fromkeys(it.name for it in wrong if promise.number in it.promises)
    return [*lines, *wrapped(f"**Refused**: {quoted(names)}."), ""]


def row(it: planted.Planted) -> str:
    """The row of a wrong body that is tried at every check."""
    by = planted.BY.fullmatch(it.refused_by)
    clauses = f" ({quoted(by['clauses'].split(', '))})" if by and by["clauses"] else ""
    return f"| `{it.crate}/{it.name}` | {it.does} | `{by['function'] if by else it.refused_by}`{clauses} |"


def first_sentence(lines: list[str], it: contracts.Function) -> str:
    """What a function's comment says first."""
    above = lines[contracts.comment_above(lines, it.line - 1):it.line - 1]
    text = " ".join(DOC.sub("", line) for line in above if DOC.match(line))
    return SENTENCE.split(text)[0]


def has_contract(sources: Sources, lines: list[str], block: contracts.Block) -> bool:
    """Whether an impl keeps a trait of ours with clauses, or says what the facts of another's contract are."""
    of_ours = (contracts.own_clauses(sources.project.code[home], it) for home, it in sources.of_trait(block.trait))
    return any(of_ours) or block.trait not in ("", "Model") and bool(contracts.facts(lines, block))


def part(sources: Sources, crate: exports.Crate, carried: set[tuple[str, int]]) -> list[str]:
    """The other public functions of a crate, and the traits of ours that its types keep."""
    items = []
    for path, it in crate.functions:
        lines = crate.files[path]
        clauses = contracts.own_clauses(lines, it)
        if clauses and is_public(it) and (path, it.line) not in carried:
            names = quoted(dict.fromkeys(one.name for one in clauses if one.name not in ("requires", "ensures")))
            said = first_sentence(lines, it)
            name = f"{it.owner}::{it.name}" if it.owner else it.name
            items += wrapped(f"- `{name}`{f' ({names})' if names else ''}{f': {said}' if said else ''}")
    kept = dict.fromkeys(f"{block.trait} for {block.type}" for path, block in crate.blocks
                         if block.type in sources.types and has_contract(sources, crate.files[path], block))
    if kept:
        items += wrapped(f"- Contracts of traits are kept by {quoted(kept)}.")
    return [f"**`{crate.name}`**", "", *items, ""] if items else []


def page() -> str:
    """The page as the sources and the wrong bodies have it."""
    sources, wrong = Sources(), list(planted.all_planted())
    told_of = set[Entry]()
    lines = [line for it in promises() for line in section(sources, it, wrong, told_of)]
    rows = [row(it) for it in wrong if it.place == planted.PLACES[0]]
    carried = {(it.path, it.line) for mark in sources.marks for it in mark.carriers if it.kind != "invariant of"}
    parts = [line for crate in sources.crates for line in part(sources, crate, carried)]
    return "\n".join([TOP, *lines, TOP_OF_TRIED + "\n".join(rows), BEHIND_TRIED.rstrip("\n"), TOP_OF_PARTS, *parts]).rstrip("\n") + "\n"
