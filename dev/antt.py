"""What the definitions and lemmas of .antt files are called, what they say, and what names them. Not a script: the
scripts import it."""
import os
import re
import typing

from crates import ROOT

WORD = re.compile(r"[^\s(){}\[\];,.:⟨⟩\"]+")
COMMENT = re.compile(r"(^| )(--|//)( .*|/.*|!.*|$)")
DEFINITION = re.compile(r" *(?:pub (?:record|data) (?=[A-Z])|(?:abbrev|unfoldable) pub )(\S+)")
SIGNATURE = re.compile(r"( *)(?:(?:abbrev|pub|unfoldable) )*([^\s(){}\[\];|,.⟨⟩\"]+)(?: \{[^}]*\})? :(?: |$)")
OTHER = {"use", "mod", "module", "record", "data", "let", "in", "open", "deriving", "ruleset", "unfolding", "where", "mutual"}
WIDTH = 120
LEMMAS = re.compile(r"/proofs/\w+\.antt$|/specs/\w*Laws\.antt$")
HEAD = re.compile(
    r" *(?P<words>(?:(?:pub|abbrev|unfoldable) )*)"
    r"(?:(?P<kind>record|data) (?P<type>[A-Z]\S*)|(?P<name>[^\s(){}\[\];|,.⟨⟩\"]+)(?: \{[^}]*\})? :(?=\s|$))"
)
MEMBER = re.compile(r" *(?:pub )?[^\s(){}\[\];|,.⟨⟩\"]+ :(?= |$)")
MODULE = re.compile(r" *(?:pub )?module \S+")
IMPORT = re.compile(r" *(?:pub |ghost )*use ")
TOKEN = re.compile(r'"[^"]*"|\[\]|[(){}\[\]⟨⟩;,]|:(?=\s|$)|[^\s(){}\[\]⟨⟩;,"]+')
PLAIN = re.compile(r"(?:Type|Bool|ℕ|ℤ|List|Option|Result|Unit)(?=[\s({]|$)[^≡≢≤<⊎×↔]*$")
WORKED = re.compile(r"/(Worked\w*|Examples|Vectors|Lib)\.antt$")


def indentation(line: str) -> int:
    return len(line) - len(line.lstrip())


def read(path: str) -> list[str]:
    """The lines of a file, without comments."""
    with open(path, encoding="utf-8") as file:
        return [COMMENT.sub("", line.rstrip()) for line in file]


def sources(ending: str) -> list[str]:
    """The files of all crates with this ending, but for those that are made."""
    found = []
    for folder, folders, names in os.walk(f"{ROOT}/crates", followlinks=True):
        folders[:] = [it for it in folders if it != "out"]
        found += [os.path.join(folder, it) for it in names if it.endswith(ending)]
    return sorted(found)


def wide() -> typing.Iterator[tuple[int, str, int]]:
    """The lines of proofs that are wider than a screen: each its width, file and line."""
    for path in sources(".antt"):
        if "/proofs/" in path:
            with open(path, encoding="utf-8") as file:
                for number, line in enumerate(file, 1):
                    if len(line.rstrip()) > WIDTH:
                        yield len(line.rstrip()), os.path.relpath(path, ROOT), number


def homes() -> dict[str, set[str]]:
    """Each name of a definition that clauses may cite, with the files of specs that have one of this name."""
    found: dict[str, set[str]] = {}
    for path in sources(".antt"):
        if "/specs/" in path:
            for heading in filter(None, map(DEFINITION.match, read(path))):
                found.setdefault(heading[1], set()).add(os.path.relpath(path, ROOT))
    return found


def goes_on(line: str, depth: int, name: str) -> bool:
    """Whether a line belongs to the declaration of this name that begins at this indentation."""
    said = line.strip()
    if not said or indentation(line) != depth:
        return not said or indentation(line) > depth
    return said[0] in ")]}" or said.startswith("unfolding ") or is_equation(said, name)


def is_equation(text: str, name: str) -> bool:
    """Whether a text begins with a name, as a clause of what is called so does."""
    return text.startswith(name) and (text[len(name):] or " ")[0] in " \t="


def declared(lines: list[str]) -> typing.Iterator[tuple[str, int, int]]:
    """The lemmas of a file, each as its name and the lines from its signature to behind its last clause."""
    for first, line in enumerate(lines):
        if not (heading := SIGNATURE.match(line)) or heading[2] in OTHER:
            continue
        depth, name = len(heading[1]), heading[2]
        last = first + 1
        while last < len(lines) and goes_on(lines[last], depth, name):
            last += 1
        if any(is_equation(it, " " * depth + name) for it in lines[first + 1:last]):
            yield name, first, last


def without_imports(lines: list[str]) -> typing.Iterator[tuple[int, str]]:
    """The numbered lines, but for those that import names."""
    within = False
    for number, line in enumerate(lines):
        begins = re.match(r"\s*(?:pub |ghost )*use ", line)
        if begins or within:
            within = "}" not in line and ("{" in line or within)
        else:
            yield number, line


def unnamed() -> list[tuple[str, int, str]]:
    """Each lemma that no code, answer, definition or living lemma names: its file, line and name.

    Names are told apart by their spelling alone, so two lemmas of one name live together. Files of worked examples
    (`Worked*`, `Examples`, `Vectors`) are computed by the check, and named by nothing.
    """
    texts = {path: read(path) for path in sources(".antt") + sources(".rt")}
    places: dict[str, list[tuple[str, int]]] = {}
    owners: dict[tuple[str, int], tuple[str, int]] = {}
    for path in texts:
        if LEMMAS.search(path) and not WORKED.search(path):
            for name, first, last in declared(texts[path]):
                places.setdefault(name, []).append((path, first))
                owners.update({(path, it): (path, first) for it in range(first, last)})
    named: dict[tuple[str, int] | None, set[str]] = {}
    for path, lines in texts.items():
        for number, line in without_imports(lines):
            named.setdefault(owners.get((path, number)), set()).update(it for it in WORD.findall(line) if it in places)
        renamed = re.findall(r"([^\s{},]+) as ", "\n".join(lines))
        named.setdefault(None, set()).update(it for it in renamed if it in places)
    living, asked = set(), list(named.get(None, ()))
    while asked:
        name = asked.pop()
        if name not in living:
            living.add(name)
            for place in places[name]:
                asked += named.get(place, ())
    dead = [(path, first + 1, name) for name in places.keys() - living for path, first in places[name]]
    return sorted((os.path.relpath(path, ROOT), line, name) for path, line, name in dead)


class Definition(typing.NamedTuple):
    """A definition or a lemma of a file: its name, kind and lines, and the parameters of the modules round it."""

    name: str
    kind: str  # record or data, abbrev or unfoldable, or nothing where proofs see its type alone
    first: int
    last: int  # (behind it)
    around: tuple[str, ...]


def definitions(lines: list[str]) -> typing.Iterator[Definition]:
    """All definitions and lemmas of a file's lines (of `read`), in their order, also those that are private."""
    modules, at = list[tuple[int, str]](), 0
    numbers = {number for number, _ in without_imports(lines)}
    while at < len(lines):
        line, first = lines[at], at
        at += 1
        if not line.strip() or first not in numbers:
            continue
        depth = indentation(line)
        modules = [it for it in modules if it[0] < depth]
        if MODULE.match(line):
            while not lines[at - 1].endswith("where"):
                at += 1
            text = " ".join(lines[first:at]).strip().removesuffix("where")
            modules.append((depth, MODULE.sub("", text, count=1)))
        elif (it := HEAD.match(line)) and (it["kind"] or it["name"] not in OTHER):
            while at < len(lines) and goes_on(lines[at], depth, it["type"] or it["name"]):
                at += 1
            while not lines[at - 1].strip():
                at -= 1
            kind = it["kind"] or next((word for word in it["words"].split() if word != "pub"), "")
            yield Definition(it["type"] or it["name"], kind, first, at, tuple(text for _, text in modules))


def clauses(lines: list[str], it: Definition) -> list[str]:
    """What a definition consists of, a text each: its head, then its fields, constructors or equations."""
    own = [line for line in lines[it.first:it.last] if line.strip()]
    depth, parts = indentation(own[0]), list[str]()
    has_members = it.kind in ("record", "data")
    deeper = [indentation(line) for line in own if indentation(line) > depth]
    deep = min(deeper) if has_members and deeper else depth
    for line in own:
        begins = indentation(line) == deep and (MEMBER.match(line) if has_members else line.strip()[0] not in ")]}")
        if begins or not parts:
            parts.append(line)
        else:
            parts[-1] += "\n" + line
    return [part for part in parts if not part.strip().startswith("unfolding ")]


def is_lemma(lines: list[str], it: Definition) -> bool:
    """Whether it is a statement with its proof: its body is hidden, and it gives no type and no plain value."""
    if it.kind:
        return False
    of_type = clauses(lines, it)[0].partition(" :")[2]
    return not PLAIN.match(parted(of_type, "→")[-1].strip())


def depths(text: str) -> typing.Iterator[tuple[str, int]]:
    """Each character of a text with the number of brackets that are open behind it."""
    depth = 0
    for it in text:
        depth += (it in "({⟨[") - (it in ")}⟩]")
        yield it, depth


def depth(text: str) -> int:
    """The number of brackets that are open behind a text."""
    return sum(map(text.count, "({⟨[")) - sum(map(text.count, ")}⟩]"))


def parted(text: str, sign: str) -> list[str]:
    """The parts of a text between those of these signs that stand in no brackets."""
    parts = [""]
    for it, depth in depths(text):
        if it == sign and depth == 0:
            parts.append("")
        else:
            parts[-1] += it
    return parts


def imports(lines: typing.Iterable[str], dot: str = ".") -> typing.Iterator[tuple[str, list[str]]]:
    """What `use` lines bring, of antt or, with the dot `::`, of Rust: a name, and the path that it stands for."""
    text = ""
    for line in lines:
        if text or IMPORT.match(line):
            text += line.strip() + " "
            if text.count("{") == text.count("}") and (dot == "." or ";" in text):
                yield from imported(IMPORT.sub("", text, count=1).strip().rstrip(";"), [], dot)
                text = ""


def imported(text: str, before: list[str], dot: str) -> typing.Iterator[tuple[str, list[str]]]:
    """What one path brings, or a group of them behind this path."""
    if text.endswith("}"):
        front, _, group = text[:-1].partition("{")
        path = before + [it for it in front.strip().split(dot) if it]
        for it in parted(group, ","):
            if it.strip():
                yield from imported(it.strip(), path, dot)
    else:
        name, _, other = text.partition(" as ")
        path = before + name.strip().split(dot)
        path = path[:-1] if path[-1] == "self" else path
        yield other.strip() or path[-1], path


def tokens(text: str) -> list[str]:
    return TOKEN.findall(text)


def free_names(
    text: str, bound: typing.Iterable[str], is_constructor: typing.Callable[[str], bool]
) -> typing.Iterator[str]:
    """The names in a term that nothing in it binds, and that aren't among these: each with its fields, as `old.state`.

    What a `λ`, a `let`, a group `(x : A)` or the pattern of a case binds counts up to the end of the brackets round it.
    """
    words, scopes, groups = tokens(text), [set(bound)], [list[str]()]
    at = 0
    while at < len(words):
        word = words[at]
        at += 1
        if word in "({⟨[":
            group, till = [], at
            while till < len(words) and words[till] not in "(){}⟨⟩[];,:":
                group.append(words[till])
                till += 1
            binds = word in "({" and group and till < len(words) and words[till] == ":"
            scopes.append(set(scopes[-1]))
            groups.append(group if binds else [])
            at = till if binds else at
            if word == "[":
                scopes[-1] |= bound_by_case(words, at, is_constructor)
        elif word in ")}⟩]":
            scopes.pop()
            scopes[-1] |= {*groups.pop()}
        elif word in ("λ", "let"):
            while at < len(words) and not words[at].endswith("." if word == "λ" else (":", "=")):
                scopes[-1].add(words[at])
                at += 1
            if word == "λ" and at < len(words):
                scopes[-1].add(words[at][:-1])
                at += 1
        elif word == "|" and len(scopes) > 1:
            scopes[-1] = scopes[-2] | bound_by_case(words, at, is_constructor)
        elif at < len(words) and words[at] in ("=", "↦") and words[at - 2:at - 1] and words[at - 2] in ("{", ";"):
            pass  # (the name of a field, or of an argument that is given by its name)
        elif word[0] not in '".;,:=' and not word[0].isdigit() and word.partition(".")[0] not in scopes[-1]:
            yield word.rstrip(".")


def bound_by_case(words: list[str], at: int, is_constructor: typing.Callable[[str], bool]) -> set[str]:
    """What the pattern of a case binds that begins here; nothing where it is no case."""
    depth = 0
    for till in range(at, len(words)):
        depth += (words[till] in "({[⟨") - (words[till] in ")}]⟩")
        if depth < 0 or words[till] == "|":
            break
        if words[till] == "↦" and depth == 0:
            return {it for it in words[at:till] if not is_constructor(it)}
    return set()


def names_of(
    lines: list[str], it: Definition, is_constructor: typing.Callable[[str], bool]
) -> typing.Iterator[str]:
    """The names that a definition stands on, each with its fields, as often as they come; of a lemma, its statement."""
    scope = {it.name}
    for text in it.around:
        yield from free_names(text, scope, is_constructor)
        scope |= bound_by(text)
    head, *parts = clauses(lines, it)
    behind = HEAD.sub("", head, count=1)
    if it.kind in ("record", "data"):
        text = behind.strip().removesuffix("where")
        yield from free_names(text, scope, is_constructor)
        scope |= bound_by(parted(text, ":")[0])
        for part in parts:
            name, _, of_type = part.strip().removeprefix("pub ").partition(" :")
            yield from free_names(of_type, scope, is_constructor)
            scope |= {name}
        return
    yield from free_names(behind, scope, is_constructor)
    for part in [] if is_lemma(lines, it) else parts:
        left, _, right = part.partition("=")
        given = [word for word in tokens(left) if word not in "(){}[]⟨⟩;,"][1:]
        yield from filter(is_constructor, given)
        yield from free_names(right, scope | {word for word in given if not is_constructor(word)}, is_constructor)


def bound_by(text: str) -> set[str]:
    """The names that groups such as `(a b : ℕ) {c : ℕ}` bind."""
    found = set()
    for group in re.findall(r"[({]([^(){}:]+) :", text):
        found |= {*group.split()}
    return found
