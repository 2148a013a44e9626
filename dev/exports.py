"""What crates let others call: the items that they export, the functions of these, and the numbers of their faults. Not
a script: the scripts import it."""
import functools
import glob
import os
import re
import typing

import antt
import contracts
import crates
from below import GHOST_FIELD, OF_TESTS
from crates import ROOT

BENCHMARKS = ("bench",)
NAMED_ON = re.compile(r"pub use ")
PUBLIC_MODULE = re.compile(r"pub mod (\w+);")
FREE_FUNCTION = re.compile(r"pub (?:const )?(?:unsafe )?fn (\w+)")
PUBLIC_ITEM = re.compile(r"pub (?:struct|enum|trait|type|const|static) (\w+)")
VARIANT = re.compile(r"(?P<name>[A-Z]\w*)(?:\((?P<holds>.*)\)|\s*\{.*\})?(?: = (?P<number>\d+))?$", re.S)
ARM = re.compile(r"(?P<left>(?:\|? *(?:\w+::)+\w+(?:\([^()]*\)| \{[^{}]*\})? *)+)=> *(?P<right>[^,\n]+)")


class Export(typing.NamedTuple):
    """What a crate exports: its name there, the file, the line (from 0) and the kind (`fn` or that of an item)."""

    name: str
    path: str
    line: int
    kind: str


class Call(typing.NamedTuple):
    """A function that others may call: its crate, the type or trait that it is of, or nothing, and its file."""

    crate: str
    owner: str
    path: str
    function: contracts.Function

    @property
    def name(self) -> str:
        return f"{self.owner}::{self.function.name}" if self.owner else self.function.name


class Crate:
    """A crate's files, and what it exports."""

    def __init__(self, name: str) -> None:
        self.name = name
        self.folder = f"{ROOT}/crates/{name}/src"
        self.files = {}  # (without those of tests)
        for path in sorted(glob.glob(f"{self.folder}/**/*.rt", recursive=True)):
            if not OF_TESTS.search(path):
                self.files[path] = contracts.lines_of(path)
        self.exports = list[Export]()  # What it exports itself,
        self.named_on = list[tuple[str, list[str]]]()  # and the paths of what others have.
        if (root := f"{self.folder}/lib.rt") in self.files:
            self.export(root, [])

    def export(self, path: str, modules: list[str]) -> None:
        """Takes up what a public file of these modules exports."""
        lines = self.files[path]
        self.exports += filter(None, (self.public_at(path, line, at) for at, line in enumerate(lines)))
        for line in lines:
            if (it := PUBLIC_MODULE.match(line)) and (inside := self.file_of([*modules, it[1]])):
                self.export(inside, [*modules, it[1]])
        for name, way in named_on(lines):
            if found := self.found(modules, name, way):
                self.exports.append(found)
            else:
                self.named_on.append((name, way))

    def public_at(self, path: str, line: str, at: int) -> Export | None:
        """What is public on a line that stands in no block."""
        if it := FREE_FUNCTION.match(line):
            return Export(it[1], path, at, "fn")
        if it := PUBLIC_ITEM.match(line):
            return Export(it[1], path, at, line.split()[1])
        return None

    def file_of(self, modules: list[str]) -> str | None:
        """The file that a path of modules is."""
        inside = "/".join([self.folder, *modules])
        ways = (f"{inside}.rt", f"{inside}/mod.rt") if modules else (f"{self.folder}/lib.rt",)
        return next((it for it in ways if it in self.files), None)

    def found(self, modules: list[str], name: str, way: list[str]) -> Export | None:
        """The item of this crate that a `pub use` in a file of these modules brings; None where another has it."""
        if way[0] in ("crate", "self", "super"):
            front = {"crate": list[str](), "self": modules, "super": modules[:-1]}[way[0]]
            way = way[1:]
        else:
            front = modules
        path = self.file_of([*front, *way[:-1]]) if way[:-1] or front != modules else None
        if not path:
            return None
        lines = self.files[path]
        there = (self.public_at(path, line, at) for at, line in enumerate(lines))
        if own := next((it for it in there if it and it.name == way[-1]), None):
            return own._replace(name=name)
        for other, further in named_on(lines):
            if other == way[-1]:
                return self.found([*front, *way[:-1]], name, further)
        return None

    @functools.cached_property
    def blocks(self) -> list[tuple[str, contracts.Block]]:
        """The traits and impls of all its files."""
        return [(path, it) for path, lines in self.files.items() for it in contracts.blocks(lines)]

    @functools.cached_property
    def functions(self) -> list[tuple[str, contracts.Function]]:
        return [(path, it) for path, lines in self.files.items() for it in contracts.functions(lines)]

    def calls_of(self, it: Export) -> list[Call]:
        """The functions that others may call by an export: itself, those of a trait, or a type's own public ones."""
        found = []
        for path, function in self.functions:
            block = function.block
            if it.kind == "fn":
                is_its = not block and (path, function.line) == (it.path, it.line + 1)
            elif it.kind == "trait":
                is_its = block is not None and path == it.path and (block.trait, block.type) == (it.name, "")
            else:
                is_its = block is not None and (block.trait, block.type) == ("", it.name) and function.visibility == "pub "
            if is_its:
                found.append(Call(self.name, "" if it.kind == "fn" else it.name, path, function))
        return found

    def calls(self) -> list[Call]:
        return [call for it in self.exports for call in self.calls_of(it)]

    def traits_of(self, it: Export) -> list[str]:
        """The traits that a type implements itself, those that it derives and `Model` left out."""
        found = []
        for _, block in self.blocks:
            if block.type == it.name and block.trait and block.trait != "Model":
                text = re.sub(r"^impl\b", "", block.head).strip()
                if text.startswith("<"):
                    text = text[len(contracts.between(text.replace("->", "→"), "<", ">")) + 2:]
                found.append(text.partition(" for ")[0].strip())
        return found

    def text_of(self, it: Export) -> str:
        """An item without its comments, attributes and ghost fields."""
        lines = self.files[it.path]
        own = lines[it.line:contracts.end_of(lines, it.line)]
        return GHOST_FIELD.sub("", "\n".join(re.sub(r" *//.*| *#\[.*\]$", "", line) for line in own))


def named_on(lines: list[str]) -> typing.Iterator[tuple[str, list[str]]]:
    """What the `pub use` lines of a file bring: each name with its path."""
    text = ""
    for line in lines:
        if text or NAMED_ON.match(line):
            text += line.strip() + " "
            if ";" in line:
                yield from antt.imported(NAMED_ON.sub("", text, count=1).strip().rstrip(";"), [], "::")
                text = ""


def exporting() -> list[Crate]:
    """The crates that a program or a library for C stands on, benchmarks left out, in the order of their layers: tests
    are none of these."""
    listed = crates.listed()
    programs = [it for it in listed if it not in BENCHMARKS and os.path.isfile(f"{ROOT}/crates/{it}/src/main.rt")]
    below = {it for name in [*programs, *crates.for_c()] for it in crates.below(name, listed)}
    return [Crate(it) for it in listed if it in below]


# What refuses, by its number.


class Faults:
    """The enums of all crates, and the numbers of their variants."""

    def __init__(self, them: list[Crate]) -> None:
        self.enums, self.structs = dict[str, tuple[Crate, Export]](), dict[str, tuple[Crate, Export]]()
        self.constants = dict[str, int]()
        for crate in them:
            for it in crate.exports:
                if it.kind in ("enum", "struct"):
                    homes = self.enums if it.kind == "enum" else self.structs
                    homes.setdefault(it.name, (crate, it))
            for lines in crate.files.values():
                for line in lines:
                    if found := re.match(r"(?:pub(?:\(\w+\))? )?const (\w+): \w+ = ([\d_]+);", line):
                        self.constants[found[1]] = int(found[2])

    def variants(self, name: str) -> dict[str, re.Match]:
        """The variants of an enum."""
        crate, it = self.enums[name]
        inside = contracts.between(crate.text_of(it), "{", "}")
        parts = [VARIANT.match(" ".join(part.split())) for part in contracts.listed(inside)]
        return {part["name"]: part for part in parts if part}

    def body_of_number(self, name: str) -> str | None:
        """The body of an enum's `number`, if it has one that is public."""
        crate, it = self.enums[name]
        for call in crate.calls_of(it):
            if call.function.name == "number":
                lines = crate.files[call.path]
                first = next(at for at in range(call.function.line - 1, len(lines)) if lines[at].strip() == "{" or
                             lines[at].endswith(" {") and "fn number" in lines[at])
                return "\n".join(lines[first + 1:lines.index("    }", first)])
        return None

    def numbers(self, name: str) -> dict[str, list[int]]:
        """The numbers of each variant of an enum, with those of a fault in it; nothing where it has no `number`."""
        body = self.body_of_number(name)
        if body is None:
            return {}
        variants = self.variants(name)
        if re.search(r"\bself as u\d+", body):
            return {it: [int(part["number"])] for it, part in variants.items() if part["number"]}
        found = {}
        for arm in ARM.finditer(body):
            for variant in re.findall(r"::([A-Z]\w*)(?![\w:])", arm["left"]):
                if variant in variants:
                    found[variant] = self.said(arm["right"], variants[variant]["holds"] or "")
        return found

    def said(self, right: str, holds: str) -> list[int]:
        """The numbers that the right side of an arm gives, where the variant holds values of these types."""
        if ".number()" in right:
            return self.all_of(holds)
        digits = [int(it) for it in re.findall(r"\b\d+\b", right)]
        return digits or [self.constants[it] for it in re.findall(r"\b[A-Z][A-Z_]+\b", right) if it in self.constants]

    def all_of(self, of_type: str) -> list[int]:
        """All numbers that the faults named in a type have."""
        found = [one for name in self.in_type(of_type) for them in self.numbers(name).values() for one in them]
        return sorted(set(found))

    def in_type(self, of_type: str) -> list[str]:
        """The enums that a type names, also in the fields of a struct that it names."""
        found = []
        for word in re.findall(r"\b[A-Z]\w*", of_type):
            if word in self.enums:
                found.append(word)
            elif word in self.structs:
                crate, it = self.structs[word]
                public = re.findall(r"^    pub \w+: (.*)", crate.text_of(it), re.M)
                found += [one for one in re.findall(r"\b[A-Z]\w*", " ".join(public)) if one in self.enums]
        return list(dict.fromkeys(found))

    def refusals(self, result: str) -> list[str]:
        """What a call with this result may refuse: numbers, and the variants that have none where others have some."""
        numbers, words = [], []
        for name in self.in_type(error_in(result)):
            if them := self.numbers(name):
                numbers += [one for each in them.values() for one in each]
                words += [it for it in self.variants(name) if not them.get(it)]
        return spans(sorted(set(numbers))) + list(dict.fromkeys(words))


def error_in(result: str) -> str:
    """What stands for the fault in a result."""
    parts = contracts.listed(contracts.between(result, "<", ">")) if (at := result.find("Result<")) >= 0 else []
    if at > 0:
        parts = contracts.listed(contracts.between(result[at:], "<", ">"))
    return parts[1] if len(parts) == 2 else ""


def spans(numbers: list[int]) -> list[str]:
    """Numbers in words, as `1 to 5`."""
    found = list[list[int]]()
    for it in numbers:
        if found and found[-1][1] == it - 1:
            found[-1][1] = it
        else:
            found.append([it, it])
    return [str(a) if a == b else f"{a}, {b}" if b == a + 1 else f"{a} to {b}" for a, b in found]
