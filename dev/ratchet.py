"""The ratchet: figures of dev/figures.py may fall, and rise only by a word. Not a script: the scripts import it.

dev/measured.json has each figure as the tree has it, and `dev/measures --write` alone writes the file. So a figure that fell stands there
lower, and can't rise again unseen. A figure rises by a paragraph of docs/decisions/raised.md, which stays there for as long as it is true:

    Raised: NAME from OLD to NEW: why

Former figures are those of the file as it stands, and, where git has them, those of the newest commit and of its parents.
"""
import json
import os
import re
import subprocess
from collections.abc import Iterable, Iterator
from typing import NamedTuple

from crates import ROOT
from figures import CHAPTERS, RECORDS, WHOLE, Figure

KEPT, DECISIONS, HEADLINE = "dev/measured.json", "docs/decisions/raised.md", "docs/HEADLINE.md"
WRITES = "dev/measures --write"
RAISED = re.compile(r"Raised: (?P<name>.+) from (?P<old>[\d.]+) to (?P<new>[\d.]+): (?P<why>\S.*)")
ROWS = re.compile(r"(?<=^  \| to read \| definitions \| files \|\n  \|---\|---\|---\|\n)(?:  \|.*\n)*", re.M)


class Raise(NamedTuple):
    """What a paragraph says of a figure: the least that it was, and what it is."""
    name: str
    old: float
    new: float

    def lets(self, figure: Figure, former: float) -> bool:
        """Whether a figure that was this may be what it is, by this paragraph."""
        return self.name == figure.name and self.new == figure.value and self.old <= former


# Files.


def text_of(name: str) -> str:
    """A text of the repository, or nothing where it isn't there."""
    try:
        with open(os.path.join(ROOT, name), encoding="utf-8") as file:
            return file.read()
    except FileNotFoundError:
        return ""


def put(name: str, text: str) -> None:
    with open(os.path.join(ROOT, name), "w", encoding="utf-8") as file:
        file.write(text)


def spelled(figures: Iterable[Figure]) -> str:
    """The figures as dev/measured.json has them: a group's figures each on a line, and those of one thing together."""
    groups: dict[str, dict[str, list[str]]] = {}
    for it in figures:
        group, *of, name = it.name.split("/")
        groups.setdefault(group, {}).setdefault("/".join(of) or f"\0{name}", []).append(f"{json.dumps(name)}: {it.value}")
    texts = []
    for group, things in groups.items():
        lines = [said[0] if name[:1] == "\0" else f"{json.dumps(name)}: {{{', '.join(said)}}}" for name, said in things.items()]
        texts.append(f"  {json.dumps(group)}: {{\n    " + ",\n    ".join(lines) + "\n  }")
    return "{\n" + ",\n".join(texts) + "\n}\n"


def flat(there: dict, front: str = "") -> Iterator[tuple[str, float]]:
    for name, it in there.items():
        if isinstance(it, dict):
            yield from flat(it, f"{front}{name}/")
        else:
            yield f"{front}{name}", it


def kept_in(text: str) -> dict[str, float] | None:
    """The figures that stand in a text, or None where it has none."""
    try:
        return dict(flat(json.loads(text)))
    except (ValueError, AttributeError):
        return None


def of_git() -> Iterator[dict[str, float]]:
    """The figures of the newest commit and of its parents, as far as git has them."""
    def said(*words: str) -> str:
        try:
            return subprocess.run(["git", "-C", ROOT, *words], stdout=subprocess.PIPE, stderr=subprocess.DEVNULL, text=True).stdout
        except OSError:
            return ""
    for commit in dict.fromkeys([*said("rev-parse", "HEAD").split(), *said("rev-parse", "HEAD^@").split()]):
        if (found := kept_in(said("show", f"{commit}:{KEPT}"))) is not None:
            yield found


def raises() -> list[Raise]:
    """What the paragraphs of docs/decisions/raised.md let rise."""
    found = []
    for text in text_of(DECISIONS).split("\n\n"):
        if it := RAISED.fullmatch(" ".join(text.split())):
            found.append(Raise(it["name"], float(it["old"]), float(it["new"])))
    return found


# What is wrong.


def limits(figures: list[Figure]) -> Iterator[tuple[Figure, float]]:
    """The figures that have been less than they are, each with what it was; one that is new, with what it may be without a word."""
    formers = [it for it in (kept_in(text_of(KEPT)), *of_git()) if it]
    for it in figures:
        if it.free is not None:
            was = [max(former[it.name], it.free) for former in formers if it.name in former]
            limit = min(was, default=it.free if formers and it.free else it.value)
            if it.value > limit:
                yield it, limit


def risen(figures: list[Figure], said: list[Raise]) -> list[str]:
    """The figures that have risen without a word, each with the paragraph that is wanted."""
    return [f"{it.name} has risen: where that is meant, {DECISIONS} says `Raised: {it.name} from {limit:g} to {it.value:g}: why`"
            for it, limit in limits(figures) if not any(one.lets(it, limit) for one in said)]


def idle(figures: list[Figure], said: list[Raise]) -> list[str]:
    """The paragraphs that let nothing rise, since the figure is another one, is held by nobody or was as much before."""
    held = {it.name: it.value for it in figures if it.free is not None}
    return [f"{DECISIONS} has {it.name} raised from {it.old:g} to {it.new:g}, which it isn't: the paragraph is changed or goes"
            for it in said if held.get(it.name) != it.new or it.old >= it.new]


def differing(figures: list[Figure]) -> list[str]:
    """What dev/measured.json has otherwise than the tree."""
    text, there = text_of(KEPT), {it.name: it.value for it in figures}
    if text == spelled(figures):
        return []
    kept = kept_in(text) or {}
    found = [f"{name} is {there.get(name, 'nothing')}, and {KEPT} has {kept.get(name, 'nothing')}"
             for name in dict.fromkeys([*there, *kept]) if there.get(name) != kept.get(name)]
    return found or [f"{KEPT} isn't as {WRITES} writes it"]


def headline(figures: list[Figure]) -> str:
    """docs/HEADLINE.md with the rows of the pages that somebody reads."""
    values = {it.name: it.value for it in figures}
    rows = [f"  | {it.row} | {values[f'pages/{it.title}/definitions']} | {values[f'pages/{it.title}/files']} |\n"
            for it in (*RECORDS, *CHAPTERS, WHOLE) if it.row]
    return ROWS.sub(lambda _: "".join(rows), text_of(HEADLINE))


def unsaid(figures: list[Figure]) -> list[str]:
    """What docs/decisions/raised.md should say otherwise, a line each."""
    said = raises()
    return [*risen(figures, said), *idle(figures, said)]


def faults(figures: list[Figure]) -> list[str]:
    """What is wrong with a tree that has these figures, a line each."""
    found = [f"{it} ({WRITES})" for it in differing(figures)]
    found += [f"the rows of {HEADLINE} are others ({WRITES})"] if text_of(HEADLINE) != headline(figures) else []
    return unsaid(figures) + found


def write(figures: list[Figure]) -> list[str]:
    """Writes the figures down, and the rows of docs/HEADLINE.md; or nothing, where docs/decisions/raised.md should say something, a line
    each."""
    found = unsaid(figures)
    for name, text in ((KEPT, spelled(figures)), (HEADLINE, headline(figures))) if not found else ():
        if text != text_of(name):
            put(name, text)
    return found
