"""An order's way: the functions that a turn of a gateway or a poll of a stage may come to, found by their names as dev/callers.py finds
them. Not a script: the scripts import it.

A call `x.name(..)` may come to each function of this name of a type that `x` may have. Where nothing tells the type of `x`, the call may
come to those of each type that the file reaches. A function of a trait stands for those of all types that implement the trait. A crate
sees the crates that crates.txt names for it, and those that implement a trait of these. What only doubles and tests have is left out: a
file counts where the program's own sources name its types, or what they name does.
"""
import collections
import re
import sys
from collections.abc import Iterator
from typing import NamedTuple

import antt
import callers
import contracts
import crates
from below import OF_TESTS, crate_of

PROGRAM = "venued"
BEGINS = (("Worker", "turn"), ("Stage", "poll"))  # The functions of traits with whose implementations the way begins.
WORD = re.compile(r"\w+")


class Step(NamedTuple):
    """A function on the way: its file, the crate, the lines that it takes (from 0), its name, and what it is of, if anything."""
    path: str
    crate: str
    first: int
    last: int
    name: str
    owner: str
    trait: str


class Counts(NamedTuple):
    """How long a way is: its files and crates, the functions of other crates that are called, by crate and name, and how many pairs of a
    caller in one crate and a function of another there are."""
    files: int
    crates: int
    crossings: int
    pairs: int


class Way:
    """The functions of all crates below a program, and which may call which. A value that is given as a slice or a number has no methods of
    ours."""

    def __init__(self, program: str = PROGRAM) -> None:
        self.code, self.listed = callers.Callers(), crates.listed()
        below = {program, *crates.below(program, self.listed)}
        self.sources = {it.path: it for it in self.code.sources if crate_of(it.path) in below and not OF_TESTS.search(it.path)}
        self.texts = {path: contracts.lines_of(path) for path in self.sources}
        self.imports = {path: dict(antt.imports(lines, "::")) for path, lines in self.texts.items()}
        self.blocks = {path: contracts.blocks(lines) for path, lines in self.texts.items()}
        self.trait_homes = {block.trait: crate_of(path) for path, blocks in self.blocks.items() for block in blocks if not block.type}
        used = self.used_by(program)
        self.functions = dict[tuple[str, int], contracts.Function]()
        self.methods, self.free = (collections.defaultdict[str, list[Step]](list) for _ in range(2))
        for path in sorted(used):
            for it in self.sources[path].functions:
                trait = it.block.trait if it.block else ""
                step = Step(path, crate_of(path), it.line - 1, callers.end_of(self.texts[path], it), it.name, it.owner, trait)
                self.functions[path, step.first] = it
                (self.methods if it.owner else self.free)[it.name].append(step)

    def sees(self, crate: str, it: Step) -> bool:
        """Whether code of a crate may call a function: one of its own crate, of those it stands on, or of a trait of these."""
        near = (crate, *self.listed[crate])
        return it.crate in near or self.trait_homes.get(it.trait) in near

    # The files that the program uses.

    def used_by(self, program: str) -> set[str]:
        """The files that a program's own files name, or that these name, and so on: by the types, constants and functions in them."""
        homes, used = self.homes(), set[str]()
        todo = [path for path in self.sources if crate_of(path) == program]
        while todo:
            path = todo.pop()
            if path not in used:
                used.add(path)
                below = {crate_of(path), *crates.below(crate_of(path), self.listed)}
                words = set(WORD.findall(self.sources[path].text))
                todo += [it for word in words for it in homes.get(word, ()) if crate_of(it) in below]
        return used

    def homes(self) -> dict[str, set[str]]:
        """The files that have a type, a constant, or a function that others see, by its name, and those that implement something for a type."""
        found = collections.defaultdict[str, set[str]](set)
        for path, lines in self.texts.items():
            names = [it.name for it in contracts.items(lines) if it.kind != "trait"]
            names += [it.name for it in self.sources[path].functions if it.visibility and not it.owner]
            for name in [*names, *(it.type for it in self.blocks[path] if it.type)]:
                found[name].add(path)
        return found

    # Which function may call which.

    def called_by(self, caller: Step) -> set[Step]:
        """What a function may call."""
        source = self.sources[caller.path]
        own = range(caller.first, caller.last)
        text = "\n".join(line if at in own else "" for at, line in enumerate(source.lines))
        found = {*self.by_value(caller, text), *self.by_path(caller, text), *self.by_name(caller, text)}
        return {it for it in found if it != caller and self.sees(caller.crate, it)}

    def by_value(self, caller: Step, text: str) -> Iterator[Step]:
        """What is called as `x.name(..)`."""
        source = self.sources[caller.path]
        for it in callers.METHOD.finditer(text):
            if (there := self.methods.get(it[1])) and not self.code.is_plain(source, text, it.start()):
                types = self.code.receiver(source, text, it.start())
                yield from (step for step in there if (types & {step.owner, step.trait} if types else
                                                       self.code.reaches(source, {step.owner})))

    def by_path(self, caller: Step, text: str) -> Iterator[Step]:
        """What is called, or passed on, as `Type::name` or `module::name`."""
        function = self.functions[caller.path, caller.first]
        for it in callers.PATH.finditer(text):
            front = caller.owner if it[1] == "Self" else it[1]
            owners = {front, *self.code.aliases.get(front, ()), *self.code.types_in(front, function)}
            yield from (step for step in self.methods.get(it[2], ()) if owners & {step.owner, step.trait})
            if not front[:1].isupper():
                yield from (step for step in self.free.get(it[2], ()) if step.crate in (front, caller.crate))

    def by_name(self, caller: Step, text: str) -> Iterator[Step]:
        """What is called as `name(..)`, or passed on by its name alone."""
        source = self.sources[caller.path]
        head = re.compile(r"\bfn \w+")
        words = {it[1] for it in callers.PLAIN.finditer(head.sub("", text))}
        words |= {word for it in callers.PASSED.finditer(text) for word in it.groups() if word}
        for step in (it for word in words & self.free.keys() for it in self.free[word]):
            home = self.home_of(self.imports[source.path].get(step.name), caller.crate)
            if step.path == source.path or step.crate == home:
                yield step

    def home_of(self, way: list[str] | None, crate: str) -> str | None:
        """The crate in which what a `use` line of a crate brings stands, also where the crate that is named there has it of another."""
        home = crate if way and way[0] in ("crate", "self", "super") else way[0] if way else None
        if way and home not in (None, crate):
            further = self.imports.get(f"{crates.ROOT}/crates/{way[0]}/src/lib.rt", {}).get(way[-1], ["crate"])
            return self.home_of(further, way[0]) if len(way) == 2 and further[0] in self.listed else home
        return home

    # The way.

    def steps(self) -> dict[Step, set[Step]]:
        """The functions on the way, each with those that it may call."""
        found, todo = dict[Step, set[Step]](), list[Step]()
        for trait, name in BEGINS:
            begins = [it for it in self.methods.get(name, ()) if it.trait == trait != it.owner]
            if not begins:
                sys.exit(f"an order's way begins with {trait}::{name}, which nothing implements: dev/way.py")
            todo += begins
        while todo:
            it = todo.pop()
            if it not in found:
                found[it] = self.called_by(it)
                todo += found[it]
        return found

    def counts(self) -> Counts:
        steps = self.steps()
        pairs = {(caller, it) for caller, called in steps.items() for it in called if it.crate != caller.crate}
        return Counts(len({it.path for it in steps}), len({it.crate for it in steps}), len({(it.crate, it.name) for _, it in pairs}),
                      len(pairs))
