"""Who calls a function of a crate: found by names, and by the types that the value in front of a dot may have. Not a
script: the scripts import it."""
import collections
import functools
import glob
import re
import typing

import antt
import contracts
from crates import ROOT

METHOD = re.compile(r"\.(\w+)(?:::<[^>()]*>)?\(")
PATH = re.compile(r"\b(\w+)(?:::<[^>()]*>)?::(\w+)\b")
PLAIN = re.compile(r"(?<![\w.:])(\w+)(?:::<[^>()]*>)?(?=\()")
PASSED = re.compile(r"(?<=[(,] )(\w+)(?=[,)])|(?<=\()(\w+)(?=[,)])|^\s+(\w+)(?=,$)", re.M)
USE = re.compile(r"\s*(?:pub(?:\(\w+\))? )?use ")
FIELD = re.compile(r"^\s+(?:pub(?:\(\w+\))? )?(\w+): (.*?),?$")
LET = re.compile(
    r"\b(?:let|for) (?P<pattern>[^=;{]*?)(?:: (?P<type>[^=;]+?))? ?(?:=|\bin\b)(?P<value>[^;]*)"
)
CALLED = re.compile(r"((?:\b(\w+)(?:::<[^>()]*>)?::)|\.)?\b([a-z_]\w*)(?:::<[^>()]*>)?\(")
MATCH = re.compile(r"\bmatch (.*?) \{$", re.M | re.S)
ARM = re.compile(r"^ *(\S.*?) =>", re.M)
TYPE = re.compile(r"\b[A-Z]\w*")
STEPS = 200  # (lines that a function may have)


class Source(typing.NamedTuple):
    """A file: its code without comments, clauses, ghosts and `use` lines, and the names that these bring."""

    path: str
    lines: list[str]
    text: str  # (the same lines)
    names: set[str]
    functions: list[contracts.Function]


def code_of(lines: list[str]) -> tuple[list[str], set[str]]:
    """The lines of a file with nothing but code in them, and the names that its `use` lines bring."""
    kept, names, at = [], {name for name, _ in antt.imports(lines, "::")}, 0
    while at < len(lines):
        line = lines[at]
        is_ghost = line.strip().startswith("ghost ")
        if contracts.CLAUSE.match(line) or is_ghost or USE.match(line):
            text = line
            while antt.depth(text) > 0:
                kept.append("")
                at += 1
                text += lines[at]
            kept.append("")
        else:
            kept.append(re.sub(r"\s*//.*", "", line))
        at += 1
    return kept, names


def end_of(lines: list[str], it: contracts.Function) -> int:
    """The line behind a function."""
    last, has_begun = " " * antt.indentation(lines[it.line - 1]) + "}", False
    for at in range(it.line - 1, len(lines)):
        has_begun = has_begun or lines[at].endswith("{")
        if lines[at] == last or not has_begun and lines[at].endswith(("{}", ";")):
            return at + 1
    return len(lines)


class Callers:
    """The code of all crates, tests and programs too."""

    def __init__(self) -> None:
        self.sources, self.types = list[Source](), set[str]()
        self.results, self.fields, self.owners, self.traits, self.aliases = (collections.defaultdict[str, set[str]](set) for _ in range(5))
        self.results_of = collections.defaultdict[tuple[str, str], set[str]](set)
        for path in sorted(glob.glob(f"{ROOT}/crates/*/src/**/*.rt", recursive=True)):
            self.add(path)

    def add(self, path: str) -> None:
        lines = contracts.lines_of(path)
        kept, names = code_of(lines)
        them = contracts.functions(lines)
        for it in them:
            answer = contracts.parameters(it.head)["result"].replace("Self", it.owner)
            types = self.types_in(answer, it)
            self.results[it.name] |= types
            self.results_of[it.owner, it.name] |= types
            if it.owner:
                self.owners[it.name].add(it.owner)
                self.types.add(it.owner)
        for block in contracts.blocks(lines):
            if block.type and block.trait:
                self.traits[block.trait].add(block.type)
        for item in contracts.items(lines):
            text = kept[item.first:item.last]
            if item.kind == "struct":
                for found in filter(None, map(FIELD.match, text)):
                    self.fields[found[1]] |= {*TYPE.findall(found[2])}
            elif item.kind == "type":
                self.aliases[item.name] |= {*TYPE.findall(" ".join(text).partition("=")[2])}
        self.sources.append(Source(path, kept, "\n".join(kept), names, them))

    def types_in(self, text: str, it: contracts.Function | None) -> set[str]:
        """The types that a piece of a signature names, of a parameter the traits that bound it."""
        bounds = contracts.bounds(it.head) if it else {}
        if it and it.block:
            bounds = {**contracts.bounds(it.block.head), **bounds}
        found = set()
        for word in TYPE.findall(text):
            found |= {*bounds.get(word, []), word} | self.aliases.get(word, set())
        return found

    def is_called(self, it: contracts.Function, path: str) -> bool:
        """Whether something else calls a function of this file, or passes it on."""
        for source in self.sources:
            if it.name in source.text and self.has_call(source, it, path):
                return True
        return False

    def has_call(self, source: Source, it: contracts.Function, path: str) -> bool:
        text = source.text
        if source.path == path:
            own = range(it.line - 1, end_of(contracts.lines_of(path), it))
            text = "\n".join("" if at in own else line for at, line in enumerate(source.lines))
        if it.owner:
            return self.calls_method(source, text, it.name, it.owner)
        return calls_free(source, text, it.name, path)

    def calls_method(self, source: Source, text: str, name: str, owner: str) -> bool:
        names = {owner} | {it for it, others in self.aliases.items() if owner in others}
        for it in PATH.finditer(text):
            if it[2] == name and (it[1] in names or self.of_path(source, text, it, owner)):
                return True
        others = self.owners[name] - {owner} - self.traits[owner]
        for it in METHOD.finditer(text):
            if it[1] == name:
                types = self.receiver(source, text, it.start())
                if types & (names | self.traits[owner]):
                    return True
                if not types & others and self.reaches(source, names | self.traits[owner]):
                    return True
        return False

    def of_path(self, source: Source, text: str, it: re.Match, owner: str) -> bool:
        """Whether `Self` or a type parameter in front of a name may be this owner."""
        function = self.around(source, text, it.start())
        if it[1] == "Self":
            return bool(function and function.owner == owner)
        return bool(function and owner in self.types_in(it[1], function))

    def around(self, source: Source, text: str, place: int) -> contracts.Function | None:
        """The function in which a place stands."""
        line = text.count("\n", 0, place) + 1
        before = [it for it in source.functions if it.line <= line]
        return before[-1] if before else None

    def reaches(self, source: Source, names: set[str]) -> bool:
        """Whether a file names one of these types, or a function or a field that gives a value of one."""
        return bool(self.reached(source.path) & names)

    @functools.cache
    def reached(self, path: str) -> set[str]:
        source = next(it for it in self.sources if it.path == path)
        found = {*TYPE.findall(source.text)} | source.names
        for word in {*re.findall(r"\b[a-z_]\w*", source.text)}:
            found |= self.results.get(word, set()) | self.fields.get(word, set())
        return found

    def receiver(self, source: Source, text: str, dot: int) -> set[str]:
        """The types that the value in front of a dot may have; none where nothing tells."""
        word, is_call, at = value_at(text, dot)
        if not word:
            return set()
        if is_call:
            return self.results.get(word, set())
        function = self.around(source, text, dot)
        if word == "self":
            return {function.owner} if function and function.owner else set()
        if text[at - 1:at] == ".":
            return self.fields.get(word, set())
        return self.local(source, word, function)

    def is_plain(self, source: Source, text: str, dot: int) -> bool:
        """Whether the value in front of a dot is a slice or a number, which has no methods of ours: as a parameter, as a
        field, or as what a call of ours answers."""
        word, is_call, at = value_at(text, dot)
        if is_call or text[at - 1:at] == ".":
            known = self.results if is_call else self.fields
            return word in known and not known[word]
        function = self.around(source, text, dot)
        of_type = contracts.parameters(function.head).get(word) if function else None
        return bool(of_type and not TYPE.search(of_type))

    def local(self, source: Source, word: str, function: contracts.Function | None) -> set[str]:
        """The types that a variable of a function may have."""
        if not function:
            return set()
        of_type = contracts.parameters(function.head).get(word)
        if of_type:
            return self.types_in(of_type.replace("Self", function.owner), function)
        body = "\n".join(source.lines[function.line - 1:function.line - 1 + STEPS])
        found = set()
        for it in LET.finditer(body):
            if re.search(rf"\b{word}\b", it["pattern"]):
                found |= self.types_in(it["type"] or "", function) | self.given(it["value"])
        if any(re.search(rf"\b{word}\b", it[1]) for it in ARM.finditer(body)):
            for it in MATCH.finditer(body):
                found |= self.given(it[1])
        return found

    def given(self, value: str) -> set[str]:
        """The types of which the calls and fields in a term give values."""
        found = {*TYPE.findall(value)}
        for front, owner, word in CALLED.findall(value):
            if front == "." or front and owner not in self.types:
                found |= self.results.get(word, set())
            else:
                found |= self.results_of.get((owner, word), set())
        for word in re.findall(r"\.([a-z_]\w*)\b(?!\()", value):
            found |= self.fields.get(word, set())
        return found


def value_at(text: str, dot: int) -> tuple[str, bool, int]:
    """The last word of the value in front of a dot, whether that is a call, and where the word begins."""
    at = dot
    while at and text[at - 1] in " \n?":
        at -= 1
    end = at
    while at and text[at - 1] in ")]":
        at = opening(text, at - 1)
        end = at
    while at and (text[at - 1].isalnum() or text[at - 1] == "_"):
        at -= 1
    return text[at:end], text[end:end + 1] == "(", at


def opening(text: str, at: int) -> int:
    """Where the bracket opens that closes here."""
    depth = 0
    while at >= 0:
        depth += (text[at] in ")]}") - (text[at] in "([{")
        if depth == 0:
            return at
        at -= 1
    return 0


def calls_free(source: Source, text: str, name: str, path: str) -> bool:
    """Whether a file calls a free function, or passes it on."""
    if any(it[2] == name and not it[1][0].isupper() for it in PATH.finditer(text)):
        return True
    if name not in source.names and source.path != path:
        return False
    words = [it[1] for it in PLAIN.finditer(re.sub(r"\bfn \w+", "", text))]
    is_variable = re.search(rf"\b{name}: |\blet (?:mut )?{name}\b|\b{name}(?:, \.\.)? }}", text)
    return name in words or not is_variable and any(name in it.groups() for it in PASSED.finditer(text))
