#!/usr/bin/env python3
"""Checks what docs/CLAUSES.md is made of: the comments of the sources and of the wrong bodies that name promises, and docs/PROMISES.md.

    tests/promises.py [PART...]     the parts of these names: promises, marks, planted, listed, tested; without one all

The promises of docs/PROMISES.md are numbered from 1 on, and each has a premise. Each is carried by a clause, where its
section doesn't say that the proof of each body carries it, and each has a wrong body that is refused because of it.

A comment `// promise 3` in a source names promises that there are. It stands at a clause of a public function or of a
law, at all clauses of one, or at what else dev/clauses.py says carries promises, of a crate that a program stands on.

A wrong body's comments are those of dev/planted.py, with promises that there are. Each of those in must-fail says what
it does, and which function refuses it, of its crate, public or not, or of another that is public, with clauses that
this has. And each that there is stands in the list that `dev/edits --promises` prints, under the function that it
changes.

What docs/PROMISES.md says is only tested or isn't kept names tests, programs and crates that there are, and so does what
stands behind the table of docs/CLAUSES.md.

Each fault has a line of its own; the last line is `N passed, M failed`, and the status is 1 where one failed.
"""
import collections
import functools
import glob
import os
import re
import subprocess
import sys
from collections.abc import Iterator

ROOT = os.path.dirname(os.path.dirname(os.path.abspath(__file__)))
sys.path[:0] = [os.path.join(ROOT, it) for it in ("dev", "tests")]

import with_scripts  # (in front of what stands there, and of what an older Python can't read)
import checks
import clauses
import contracts
import planted
from below import crate_of, modules_of, short

NOT_PROVED = ("## What isn't kept", "## Only tested")
PATH = re.compile(r"(?:tests|dev|edge|feed|scripts|tools|contrib|crates)/[\w./-]*")
OF_TESTS = re.compile(r"\w+_tests")
QUOTED = re.compile(r"`([^`]+)`")
EDIT = re.compile(r"`([a-z]\w*)`")
LISTED = re.compile(r"^- ", re.M)

Found = list[tuple[str, contracts.Function]]  # Functions with their files.


class Tree:
    """What there is: the promises by their numbers, what the sources say of them, and the wrong bodies."""

    def __init__(self) -> None:
        self.promises = clauses.promises()
        self.known = {it.number for it in self.promises}

    @functools.cached_property
    def sources(self) -> clauses.Sources:
        return clauses.Sources()

    @functools.cached_property
    def wrong(self) -> list[planted.Planted]:
        return list(planted.all_planted())


def check_promises(check: checks.Check, tree: Tree) -> None:
    """The page of the promises: their numbers, on what each rests, and that each has what carries it and what it refuses."""
    numbers = [it.number for it in tree.promises]
    check.count(numbers == [*range(1, len(numbers) + 1)] and bool(numbers), f"{clauses.PROMISES}: its promises have the numbers {numbers}")
    carried = {number for mark in tree.sources.marks if mark.carriers for number in mark.numbers}
    refusing = {number for it in tree.wrong for number in it.promises}
    for it in tree.promises:
        place = f"{clauses.PROMISES}:{it.line}: promise {it.number}"
        check.count(bool(it.premise), f"{place} has no premise")
        is_of_bodies = clauses.OF_BODIES in it.text
        check.count(is_of_bodies != (it.number in carried), f"{place} has {'clauses, and says that it has none' if is_of_bodies else 'no clause'}")
        check.count(it.number in refusing, f"{place} has no wrong body")


def check_marks(check: checks.Check, tree: Tree) -> None:
    """The comments of the sources."""
    for mark in tree.sources.marks:
        place = f"{short(mark.path)}:{mark.line}"
        check.count(bool(mark.numbers) and {*mark.numbers} <= tree.known, f"{place}: it names no promises that there are")
        check.count(bool(mark.carriers), f"{place}: it stands at nothing that carries a promise")
    for path, line in tree.sources.strays():
        check.count(False, f"{short(path)}:{line}: what stands here carries no promise")


def named(sources: clauses.Sources, crate: str, name: str) -> Found:
    """The functions of a crate that are named so, or where it has none the public ones of others: a type's own go before those of traits."""
    word, _, name = name.rpartition("::")
    there = [(path, it) for path, them in sources.project.functions.items() for it in them if it.name == name]
    if word:
        there = [(path, it) for path, it in there if word in ([it.owner] if it.owner else [crate_of(path), *modules_of(path)[-1:]])]
    near = [(path, it) for path, it in there if crate_of(path) == crate] or [(path, it) for path, it in there if clauses.is_public(it)]
    return [(path, it) for path, it in near if not (it.block and it.block.type and it.block.trait)] or near


def check_refusal(check: checks.Check, sources: clauses.Sources, it: planted.Planted) -> None:
    """What a wrong body says it does, and is refused by."""
    check.count(bool(it.does), f"{it.path}: it doesn't say what it does")
    by = planted.BY.fullmatch(it.refused_by)
    them = named(sources, it.crate, by["function"]) if by else []
    check.count(len(them) == 1, f"{it.path}: {len(them)} functions are named '{it.refused_by}'")
    for clause in (by["clauses"] or "").split(", ") if by and len(them) == 1 and by["clauses"] else ():
        has = any(clause == one.name for path, function in them for one in contracts.own_clauses(sources.project.code[path], function))
        check.count(has, f"{it.path}: {it.refused_by} has no clause {clause}")


def check_planted(check: checks.Check, tree: Tree) -> None:
    """The comments of the wrong bodies."""
    for it in tree.wrong:
        check.count({*it.promises} <= tree.known, f"{it.path}: promises {it.promises}, of which there aren't all")
        check.count(not it.unknown, f"{it.path}: '{'; '.join(it.unknown)}' says nothing that is known")
        if it.place == planted.PLACES[0] or it.does or it.refused_by:
            check_refusal(check, tree.sources, it)


def check_listed(check: checks.Check, tree: Tree) -> None:
    """The list of the wrong bodies by function."""
    words = [sys.executable, os.path.join(ROOT, "dev/edits"), "--promises"]
    printed = subprocess.run(words, stdout=subprocess.PIPE, text=True, timeout=checks.LONG).stdout
    listed = collections.Counter(name for item in LISTED.split(printed) for name in EDIT.findall(item.partition(": ")[2]))
    there = collections.Counter(it.name for it in tree.wrong)
    unlisted = sorted((there - listed) + (listed - there))
    check.count(not unlisted and bool(there), f"not listed by function as they are: {', '.join(unlisted)}")
    check.count(len(tree.wrong) == len([it for place in ("crates/*/*", "must-fail/*") for it in glob.glob(f"{ROOT}/{place}/*.edit")]), "there is one in another folder, or of a crate without a layer")


def tested() -> Iterator[tuple[str, str]]:
    """The tests, programs and crates that pages say try what isn't proved, each with its place."""
    section = ""
    for number, line in enumerate(checks.text_of(clauses.PROMISES).splitlines(), 1):
        section = line if line.startswith("## ") else section
        if section in NOT_PROVED:
            yield from ((f"{clauses.PROMISES}:{number}", it) for it in QUOTED.findall(line))
    yield from (("dev/clauses.py", it) for it in QUOTED.findall(clauses.BEHIND_TRIED))


def check_tested(check: checks.Check, _: Tree) -> None:
    crates = os.listdir(f"{ROOT}/crates")
    for place, name in tested():
        if PATH.fullmatch(name) or OF_TESTS.fullmatch(name):
            check.count(os.path.exists(f"{ROOT}/{name}") or name in crates, f"{place}: no `{name}`")


PARTS = {"promises": check_promises, "marks": check_marks, "planted": check_planted, "listed": check_listed, "tested": check_tested}


def main() -> None:
    if set(sys.argv[1:]) & {"-h", "--help"}:
        print(__doc__.strip())
        return
    if unknown := {*sys.argv[1:]} - {*PARTS}:
        sys.exit(f"promises: there is no part {', '.join(sorted(unknown))}")
    check, tree = checks.Check(), Tree()
    for name, part in PARTS.items():
        if name in sys.argv[1:] or not sys.argv[1:]:
            part(check, tree)
    check.end()


if __name__ == "__main__":
    main()
