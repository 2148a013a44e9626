"""What stands in .rt files, in rt fmt's layout: functions with their clauses, types, traits and constants. Not a
script: the scripts import it."""
import re
import typing

import antt

TEST = re.compile(r"\s*#\[cfg\(test\)\]")
TRAIT = re.compile(r"(?:pub(?:\([a-z ]+\))? )?trait (\w+)")
IMPL = re.compile(r"impl\b(?:<[^{]*?>)? (?:(?:\w+::)*(?P<trait>\w+)(?:<[^{]*>)? for )?(?:\w+::)*(?P<type>\w+)")
BLOCK = re.compile(r"impl\b|(?:pub(?:\([a-z ]+\))? )?trait ")
FUNCTION = re.compile(r"\s*(?P<before>(?:pub(?:\([a-z ]+\))? )?)(?:const )?(?:unsafe )?(?:extern \"C\" )?fn (?P<name>\w+)")
CLAUSE = re.compile(r"\s*(requires|ensures)\*? (?:(\w+) )?\{")
ITEM = re.compile(r"(?:pub(?:\([a-z ]+\))? )?(?P<kind>struct|enum|trait|type|const|static) (?P<name>\w+)")
GHOST = re.compile(r"    ghost (\w+)(?::| =)")
# Which promises of docs/PROMISES.md a clause carries, or a function by all of its clauses: what dev/clauses.py reads.
MARK = re.compile(r"(?:^| ) *// promises? (?P<numbers>\d+(?:, \d+)*)$")


class Clause(typing.NamedTuple):
    """A condition or a promise: its name, else `requires` or `ensures`; its line, its text and its indentation."""

    name: str
    line: int
    text: str
    depth: int


class Block(typing.NamedTuple):
    """A trait or an impl: the trait, the type (none for a trait), its lines and what stands in front of its `{`."""

    trait: str
    type: str
    first: int
    last: int
    head: str


class Function(typing.NamedTuple):
    """A function with its clauses, those of closures in it too."""

    name: str
    block: Block | None
    visibility: str  # `pub `, `pub(crate) ` or nothing
    line: int
    head: str
    clauses: list[Clause]

    @property
    def owner(self) -> str:
        return (self.block.type or self.block.trait) if self.block else ""


class Item(typing.NamedTuple):
    """A type, a trait or a constant, or a ghost fact of a trait, with the line behind its last."""

    name: str
    kind: str
    first: int
    last: int


def lines_of(path: str) -> list[str]:
    """The lines of a file, without what says which promises they carry."""
    with open(path, encoding="utf-8") as file:
        return [MARK.sub("", it.rstrip()) for it in file]


def blocks(lines: list[str]) -> list[Block]:
    """The traits and impls of a file."""
    found = []
    for at, line in enumerate(lines):
        if not BLOCK.match(line):
            continue
        last = at if line.endswith("}") else lines.index("}", at)
        head = " ".join(it.strip() for it in lines[at:last + 1]).partition("{")[0]
        if begins := TRAIT.match(head) or IMPL.match(head):
            names = begins.groupdict() or {"trait": begins[1], "type": ""}
            found.append(Block(names["trait"] or "", names["type"], at, last, head))
    return found


def functions(lines: list[str]) -> list[Function]:
    """The functions of a file, but for those of its tests."""
    found, at = [], 0
    all_blocks = blocks(lines)
    while at < len(lines):
        line = lines[at]
        if TEST.match(line) and lines[at + 1].endswith("{"):
            at = lines.index(" " * antt.indentation(line) + "}", at)
        elif it := FUNCTION.match(line):
            block = next((b for b in all_blocks if b.first < at < b.last), None)
            found.append(Function(it["name"], block, it["before"], at + 1, head_of(lines, at), []))
        elif (it := CLAUSE.match(line)) and found:
            first, text, depth = at + 1, line.strip(), antt.indentation(line)
            while antt.depth(text):
                at += 1
                text += "\n" + lines[at].strip()
            found[-1].clauses.append(Clause(it[2] or it[1], first, text.removesuffix(";"), depth))
        at += 1
    return found


def head_of(lines: list[str], at: int) -> str:
    """A function's signature, on one line."""
    text = ""
    for line in lines[at:]:
        if CLAUSE.match(line) or line.strip() == "{" or line.strip().startswith("ghost "):
            break
        text += line.strip().removesuffix("{}").removesuffix("{").removesuffix(";") + " "
        if line.endswith(("{", ";", "{}")):
            break
    return text.strip()


def own_clauses(lines: list[str], it: Function) -> list[Clause]:
    """A function's clauses without those of its closures."""
    return [clause for clause in it.clauses if clause.depth == antt.indentation(lines[it.line - 1]) + 4]


def items(lines: list[str]) -> list[Item]:
    """The types, traits and constants of a file."""
    found = []
    for at, line in enumerate(lines):
        if it := ITEM.match(line):
            found.append(Item(it["name"], it["kind"], at, end_of(lines, at)))
    return found


def facts(lines: list[str], block: Block) -> list[Item]:
    """The ghost facts of a trait, or what an impl takes them for: `Value` of a `Model` is one."""
    found = [(at, GHOST.match(lines[at])) for at in range(block.first, block.last)]
    return [Item(it[1], "fact", at, end_of(lines, at)) for at, it in found if it]


def end_of(lines: list[str], at: int) -> int:
    """The line behind an item that begins at this one."""
    text = ""
    for last in range(at, len(lines)):
        text += lines[last]
        if lines[last].endswith((";", "}")) and antt.depth(text) == 0:
            return last + 1
    return len(lines)


def comment_above(lines: list[str], at: int) -> int:
    """The first line of the comment and the attributes that stand right above this line."""
    while at and lines[at - 1].strip().startswith(("//", "--", "#[")) and not lines[at - 1].strip().startswith("//!"):
        at -= 1
    return at


def between(text: str, first: str, last: str) -> str:
    """What stands between the first bracket of this kind and the one that closes it."""
    depth, begin = 0, text.find(first)
    for at in range(begin, len(text)) if begin >= 0 else ():
        depth += (text[at] == first) - (text[at] == last)
        if depth == 0:
            return text[begin + 1:at]
    return ""


def listed(text: str) -> list[str]:
    """The parts between a text's commas, which stand in no brackets, angled ones too."""
    depth, parts = 0, [""]
    for it in text:
        depth += (it in "([{<") - (it in ")]}>")
        if it == "," and depth == 0:
            parts.append("")
        else:
            parts[-1] += it
    return [part.strip() for part in parts if part.strip()]


def bounds(head: str) -> dict[str, list[str]]:
    """The type parameters of a signature or an impl, each with the names of its traits."""
    text = re.sub(r"^.*?(?:\bfn \w+|\bimpl|\btrait \w+)", "", head.replace("->", "→"), count=1)
    found = {}
    for part in listed(between(text, "<", ">")) if text.startswith("<") else []:
        name, colon, traits = part.partition(":")
        if colon and not name.startswith(("const ", "'")):
            found[name.strip()] = [re.sub(r"<.*", "", it).strip().rpartition("::")[2] for it in traits.split("+")]
        elif not colon:
            found[name.strip()] = []
    return found


def signature(head: str) -> tuple[str, str, str]:
    """What stands in the angled and in the round brackets of a signature, and its answer; `→` stands for `->`."""
    text = re.sub(r"^.*?\bfn \w+", "", head.replace("->", "→"), count=1)
    generic = between(text, "<", ">") if text.startswith("<") else ""
    if generic:
        text = text[len(generic) + 2:]
    inside = between(text, "(", ")")
    return generic, inside, text[len(inside) + 2:].strip().removeprefix("→").strip()


def parameters(head: str) -> dict[str, str]:
    """The values of a signature, each with its type: those that are passed, and the result."""
    _, inside, answer = signature(head)
    found = {}
    for part in listed(inside):
        name, colon, of_type = part.partition(":")
        if re.search(r"\bself\b", name):
            found["self"] = "Self"
        elif colon:
            found[name.removeprefix("mut ").strip()] = of_type
    found["result"] = answer
    return found
