"""What stands below a clause or a definition: what its names stand for, down to std and the kit. Not a script: the
scripts import it."""
import functools
import os
import re
import typing
from collections.abc import Collection, Iterator

import antt
import contracts
from crates import ROOT

UNREAD = ("bench",)
QUALIFIED = re.compile(r"⟦<.*? as (?:\w+::)*(\w+)>⟧\.(\w+)")
RUST_NAME = re.compile(r"\w+(?:::\w+)*")
FIELD = re.compile(r"^    (?:pub(?:\([a-z ]+\))? )?(?:ghost )?(\w+):", re.M)
GHOST_FIELD = re.compile(r"^    (?:pub(?:\([a-z ]+\))? )?ghost \w+: \{(.*?)\}(?: by \{.*?\})?,$", re.M | re.S)
OF_TESTS = re.compile(r"/tests(/|\.rt$)")
CONSTRUCTORS = {"true", "false", "zero", "suc", "pos", "negsuc", "some", "none", "inl", "inr", "refl"}
# What a term may name that stands in no module.
BUILT_IN = {*"as elim in record unfold IsProp Type Unit tt absurd × → ∗ ⌜ ⌝ ¬ ⊥ λ ↦ | = . : _ ∥ ∥₁".split()}


class Entry(typing.NamedTuple):
    """A definition, a type, a constant or a fact: its file, the line above that on which it begins, and its name."""

    path: str
    line: int
    name: str


class Leaf(typing.NamedTuple):
    """A name of std or of the kit, with the module that it stands in."""

    module: str
    name: str


class Place(typing.NamedTuple):
    """Where the code of a term stands: its file, and the trait or impl round it."""

    path: str
    block: contracts.Block | None


class Promised(typing.NamedTuple):
    """A clause with its function, and the function's file."""

    path: str
    function: contracts.Function
    clause: contracts.Clause


@functools.cache
def short(path: str) -> str:
    return os.path.relpath(path, ROOT)


def crate_of(path: str) -> str:
    return short(path).split(os.sep)[1]


def modules_of(path: str) -> list[str]:
    """The modules that a file of a crate is, behind the crate's name."""
    words = re.sub(r"\.\w+$", "", short(path)).split(os.sep)[3:]
    return [it for it in words if it not in ("lib", "main", "mod")]


class Project:
    """The definitions of all crates, and what stands below each."""

    def __init__(self) -> None:
        self.unknown = set[tuple[str, str]]()  # Names without a definition: the file, the name.
        self.lines = dict[str, list[str]]()
        self.names = dict[str, dict[str, list[str]]]()  # What the `use` lines of a file bring.
        # Of each file of specs: its definitions, and the constructors of its data, by their names.
        self.specs = dict[str, dict[str, antt.Definition]]()
        for path in antt.sources(".antt"):
            if "/specs/" in path:
                self.lines[path] = lines = antt.read(path)
                self.specs[path] = found = dict[str, antt.Definition]()
                for it in antt.definitions(lines):
                    found.setdefault(it.name, it)
                for it in [it for it in found.values() if it.kind == "data"]:
                    for part in antt.clauses(lines, it)[1:]:
                        found.setdefault(part.strip().removeprefix("pub ").split(" ")[0], it)
                self.names[path] = dict(antt.imports(lines))
        # Of files of code: the lines, and what stands there.
        self.code, self.blocks = dict[str, list[str]](), dict[str, list[contracts.Block]]()
        self.functions = dict[str, list[contracts.Function]]()
        self.items = dict[str, list[tuple[str, contracts.Item]]]()  # By names: items with their files, and the ghost facts of traits.
        self.facts = dict[str, tuple[Place, list[contracts.Item]]]()
        for path in antt.sources(".rt"):
            if not OF_TESTS.search(path) and crate_of(path) not in UNREAD:
                self.add_code(path)

    def add_code(self, path: str) -> None:
        self.code[path] = lines = contracts.lines_of(path)
        for it in contracts.items(lines):
            self.items.setdefault(it.name, []).append((path, it))
        self.blocks[path], self.functions[path] = contracts.blocks(lines), contracts.functions(lines)
        for block in self.blocks[path]:
            if not block.type:
                self.facts[block.trait] = (Place(path, block), contracts.facts(lines, block))
        self.names[path] = dict(antt.imports((line for line in lines if "ghost use " not in line), "::"))

    # Names and what they stand for.

    def module(self, way: list[str]) -> str | None:
        """The file of specs that a path of modules is."""
        if way[:1] == ["Rattle"] and way[2:3] == ["specs"]:
            path = os.path.join(ROOT, "crates", way[1], "specs", *way[3:]) + ".antt"
            return path if path in self.specs else None
        return None

    def is_ours(self, way: list[str]) -> bool:
        return way[:1] == ["Rattle"] and len(way) > 1 and os.path.isdir(os.path.join(ROOT, "crates", way[1]))

    def found(self, way: list[str], from_path: str) -> Entry | Leaf | None:
        """What a path of modules with a name at its end stands for; None where it is nothing to read."""
        *front, name = way
        if not self.is_ours(way):
            return Leaf(".".join(front), name)
        if path := self.module(front) or self.module(front[:-1]):  # (a constructor may stand behind its data)
            return self.definition(path, name, from_path)
        if front[3:4] == ["declared"]:
            inside = front[-1] in ("TheVariants", "TheInside")
            return self.declared(front[-2] if inside else name, way[1], front[4:], from_path)
        if front[2:3] != ["proofs"] and front[2:4] != ["specs", "contracts"]:  # (lemmas, and what the check makes)
            self.unknown.add((from_path, ".".join(way)))
        return None

    def definition(self, path: str, name: str, from_path: str) -> Entry | Leaf | None:
        if it := self.specs[path].get(name):
            return Entry(path, it.first, it.name)
        if way := self.names[path].get(name):  # (it is named on by a `pub use`)
            return self.found(way, path)
        self.unknown.add((from_path, name))
        return None

    def declared(self, name: str, crate: str, words: list[str], from_path: str) -> Entry | None:
        """A struct, an enum or a constant that specs name: of this crate, in the file that fits these modules best."""
        there = [(path, it) for path, it in self.items.get(name, []) if crate_of(path) == crate]
        there.sort(key=lambda pair: -len(os.path.commonprefix([modules_of(pair[0]), words])))
        if there:
            return Entry(there[0][0], there[0][1].first, name)
        self.unknown.add((from_path, name))
        return None

    def named(self, word: str, names: dict[str, list[str]], path: str) -> Entry | Leaf | None:
        """What a word stands for where these names were brought; it may be a module's, with a dot and a name of it."""
        head, _, behind = word.partition(".")
        for name in (head, *(it for it in names if "◌" in it and head in it.split("◌"))):
            if name in names:
                way = names[name]
                is_module = self.module(way) or way[-1] in ("TheVariants", "TheConstants")
                if not is_module:
                    return self.found(way, path)
                return self.found([*way, behind.partition(".")[0]], path) if behind else None
        return None

    def is_known(self, word: str, names: dict[str, list[str]]) -> bool:
        head = word.partition(".")[0]
        return head in names or any("◌" in it and head in it.split("◌") for it in names)

    def is_constructor(self, path: str) -> typing.Callable[[str], bool]:
        """Whether a word in a pattern is no variable, in a file of specs."""
        names = self.names[path]

        def answer(word: str) -> bool:
            if not word[0].isalpha() or "." in word:
                return word != "_"
            if own := self.specs[path].get(word):
                return own.name != word
            if not (way := names.get(word)):
                return word == "tt"
            if (home := self.module(way[:-1])) and (it := self.specs[home].get(way[-1])):
                return it.name != way[-1]
            return "TheVariants" in way or not self.is_ours(way) and (way[-1][0].isupper() or way[-1] in CONSTRUCTORS)

        return answer

    # What stands below.

    def below(self, entry: Entry) -> list[Entry | Leaf]:
        """What a definition names itself, in the order of its text."""
        if entry.path in self.specs:
            return self.below_definition(entry)
        lines = self.code[entry.path]
        if "." in entry.name:
            trait, _, fact = entry.name.partition(".")
            place, them = self.facts[trait]
            it = next(it for it in them if it.name == fact)
            text = " ".join(lines[it.first:it.last]).partition(":")[2].strip().removesuffix(";")
            return self.below_term(place, text, {}, {"Self": [trait]})
        it = next(it for it in contracts.items(lines) if it.name == entry.name and it.first == entry.line)
        place = Place(entry.path, None)
        text = "\n".join(re.sub(r"//.*|#\[.*", "", line) for line in lines[it.first:it.last])
        if it.kind == "enum":
            text = re.sub(r"^    \w+", "", text, flags=re.M)  # (the variants' names)
        ghosts, fields = GHOST_FIELD.findall(text), dict.fromkeys(FIELD.findall(text), "")
        found = self.below_type(place, GHOST_FIELD.sub("", text).replace(it.name, "", 1))
        return found + [other for term in ghosts for other in self.below_term(place, term, fields, {})]

    def below_definition(self, entry: Entry) -> list[Entry | Leaf]:
        path, lines, own = entry.path, self.lines[entry.path], self.specs[entry.path]
        it = own[entry.name]
        found = list[Entry | Leaf | None]()
        for word in antt.names_of(lines, it, self.is_constructor(path)):
            head = word.partition(".")[0]
            if head in own:
                found.append(self.definition(path, head, path))
            elif self.is_known(word, self.names[path]):
                found.append(self.named(word, self.names[path], path))
            elif head not in BUILT_IN:
                self.unknown.add((path, word))
        return [other for other in found if other and not self.is_proved(other)]

    def is_proved(self, entry: Entry | Leaf) -> bool:
        """Whether it is a lemma, which a definition may name for a proof."""
        if isinstance(entry, Leaf):
            return ".proofs.lemmas." in f".{entry.module}."
        return entry.path in self.specs and antt.is_lemma(self.lines[entry.path], self.specs[entry.path][entry.name])

    def below_type(self, place: Place, text: str) -> list[Entry | Leaf]:
        """What a type of Rust is for a contract: the values of models, and the structs and enums that have none."""
        found = []
        for word in RUST_NAME.findall(text):
            for part in dict.fromkeys((word.split("::")[0], word.split("::")[-1])):
                if there := self.rust(part, place):
                    found += self.model(*there)
        return found

    @functools.cache
    def model(self, path: str, item: contracts.Item) -> list[Entry | Leaf]:
        """What contracts see of a type, or an item itself where it has no model; of a trait they see nothing."""
        lines = self.code[path]
        if item.kind == "type":
            return self.below_type(Place(path, None), " ".join(lines[item.first:item.last]).partition("=")[2])
        for block in self.blocks[path]:
            if (block.trait, block.type) == ("Model", item.name):
                for it in contracts.facts(lines, block):
                    if it.name == "Value":
                        text = " ".join(lines[it.first:it.last]).partition("=")[2].strip().removesuffix(";")
                        return self.below_term(Place(path, block), text, {}, contracts.bounds(block.head))
        return [] if item.kind == "trait" else [Entry(path, item.first, item.name)]

    def rust(self, name: str, place: Place) -> tuple[str, contracts.Item] | None:
        """The item of the sources that a name of Rust stands for in a file."""
        if name == "Self" and place.block and place.block.type:
            name = place.block.type
        own = [(path, it) for path, it in self.items.get(name, []) if path == place.path]
        way = self.names[place.path].get(name, ["std"])
        if own or way[0] in ("std", "core"):
            return own[0] if own else None
        crate = crate_of(place.path) if way[0] in ("crate", "self", "super") else way[0]
        there = sorted(self.items.get(way[-1], []), key=lambda pair: crate_of(pair[0]) != crate)
        return there[0] if there else None  # (one of another crate is named on by a `pub use`)

    @functools.cache
    def ghosts(self, place: Place) -> dict[str, list[str]]:
        """What the `ghost use` lines bring there."""
        lines = self.code[place.path]
        near = lines[place.block.first:place.block.last] if place.block else []
        of_file = [line for line in lines if line.startswith("ghost use ")]
        return dict(antt.imports([*of_file, *(line for line in near if line.startswith("    ghost use "))]))

    def below_term(
        self, place: Place, text: str, values: dict[str, str], of_bounds: dict[str, list[str]]
    ) -> list[Entry | Leaf]:
        """What a term of the code names, where these values have types, and these type parameters have traits."""
        ghosts, found = self.ghosts(place), list[Entry | Leaf | None]()
        trait = place.block.trait if place.block and not place.block.type else ""
        own_facts = {it.name for it in self.facts[trait][1]} if trait else set()
        for one, fact in QUALIFIED.findall(text):
            found += self.fact([one], [fact])
        for word in antt.free_names(QUALIFIED.sub(" ", text), (), lambda it: it[0].isupper()):
            head, *parts = word.split(".")
            if head in values:
                found += self.below_type(place, values[head])
            elif head in of_bounds:
                found += self.fact(of_bounds[head], parts)
            elif head in own_facts:
                found += self.fact([trait], [head])
            elif self.is_known(word, ghosts):
                found.append(self.named(word, ghosts, place.path))
            elif there := self.rust(head, place):
                found += self.model(*there)
            elif head.isidentifier() and not head[0].isupper() and head not in BUILT_IN | {*self.names[place.path]}:
                self.unknown.add((place.path, word))
        return [other for other in found if other]

    def fact(self, traits: list[str], parts: list[str]) -> list[Entry | Leaf]:
        """The ghost fact that stands behind a type parameter's name, or behind that of a type of its trait."""
        for trait in traits if parts else []:
            if trait not in self.facts:
                continue
            home, them = self.facts[trait]
            for it in them:
                if it.name == parts[0]:
                    return [Entry(home.path, it.first, f"{trait}.{it.name}")]
            for line in self.code[home.path][home.block.first:home.block.last] if home.block else []:
                if within := re.match(rf"    type {re.escape(parts[0])}: ([^;]*);", line):
                    return self.fact([it.strip() for it in within[1].split("+")], parts[1:])
        return []

    # What is asked for.

    def candidates(self, words: list[str]) -> list[tuple[str, Entry | tuple[str, contracts.Function]]]:
        """The functions and definitions of this name, with full names in which the words in front stand in order."""
        called, found = list[tuple[str, tuple[str, contracts.Function]]](), list[tuple[str, Entry]]()
        for path, functions in self.functions.items():
            for it in (it for it in functions if it.name == words[-1]):
                full = [crate_of(path), *modules_of(path), *([it.owner] if it.owner else []), it.name]
                if stands_in(words, full):
                    called.append(("::".join(full), (path, it)))
        public = [pair for pair in called if pair[1][1].visibility == "pub "]
        for path, definitions in self.specs.items():
            if one := definitions.get(words[-1]):
                full = [crate_of(path), *modules_of(path), words[-1]]
                if stands_in(words, full) or words == ["Rattle", full[0], "specs", *full[1:]]:
                    found.append(("::".join(full), Entry(path, one.first, one.name)))
        return [*(public or called), *found]

    def clauses(self, path: str, it: contracts.Function) -> list[Promised]:
        """A function's clauses, and those of the trait that it is of."""
        own = [Promised(path, it, clause) for clause in contracts.own_clauses(self.code[path], it)]
        if it.block and it.block.type and it.block.trait in self.facts:
            home = self.facts[it.block.trait][0]
            for other in self.functions[home.path]:
                if other.block == home.block and other.name == it.name:
                    own += self.clauses(home.path, other)
        return own

    def below_clause(self, it: Promised) -> list[Entry | Leaf]:
        block, head = it.function.block, it.function.head
        of_bounds = {**(contracts.bounds(block.head) if block else {}), **contracts.bounds(head)}
        if block and not block.type:
            of_bounds["Self"] = [block.trait]
        text = it.clause.text.partition("{")[2].rpartition("}")[0]
        return self.below_term(Place(it.path, block), text, contracts.parameters(head), of_bounds)


def stands_in(words: list[str], full: list[str]) -> bool:
    """Whether the words stand in a full name in their order, the last of them at its end."""
    rest = iter(full[:-1])
    return words[-1] == full[-1] and all(it in rest for it in words[:-1])


def reading_order(project: Project, roots: list[Entry | Leaf],
                  closed: Collection[Entry] = ()) -> tuple[list[Entry], set[Leaf]]:
    """All that stands below these, each above what it uses, but in circles; and what it comes down to. What stands below
    those that are closed isn't looked at."""
    order, seen, leaves = list[Entry](), set[Entry](), set[Leaf]()
    waiting: list[tuple[Entry | None, Iterator[Entry | Leaf]]] = [(None, iter(list(dict.fromkeys(roots))[::-1]))]
    while waiting:
        entry, rest = waiting[-1]
        for it in rest:
            if isinstance(it, Leaf):
                leaves.add(it)
            elif it not in seen:
                seen.add(it)
                uses = [] if it in closed else list(dict.fromkeys(project.below(it)))[::-1]
                waiting.append((it, iter(uses)))
                break
        else:
            waiting.pop()
            order += [entry] if entry else []
    return order[::-1], leaves
