#!/usr/bin/env python3
"""Checks that the FIX dictionary docs/FIX44-gikvand.xml says what docs/PROFILE.md says, and nothing else.

    tests/dictionary.py [DICTIONARY [PROFILE]]
    tests/dictionary.py --write [DICTIONARY [PROFILE]]      makes the dictionary's header, messages and trailer of the profile anew

What the profile says is read out of its tables: the header, the trailer, the fields of each type with what is required,
in the order of the tables, the name of each tag, and the values of each tag that has codes. A difference has a line of
its own, and so has a part that isn't as it is made; the last line is `N passed, M failed`, and the status is 1 where one failed.
"""
import argparse
import os
import re
import sys
import xml.etree.ElementTree as xml
from collections.abc import Iterable, Iterator

ROOT = os.path.dirname(os.path.dirname(os.path.abspath(__file__)))
sys.path.insert(0, os.path.join(ROOT, "dev"))

import with_scripts  # (in front of what stands there, and of what an older Python can't read)

DOCS = os.path.join(ROOT, "docs")
CODED = ("39", "40", "54", "59", "102", "103", "150", "372", "373", "434")  # Tags whose values the tables list.
NAMED_TAG = re.compile(r"\b([A-Z]\w+) \((\d+)\)")
NAMED_TYPE = re.compile(r"\b([A-Z]\w+) \(`(\w)`\)")
CODE = re.compile(r"\b(\d{1,2}|[A-Z])\b")
MADE = re.compile(r"  <header>\n.*  </trailer>\n", re.DOTALL)  # What is made of the profile.
OF_SESSIONS = ("0", "1", "3", "5", "A")  # The types that FIX counts among those of a session.

Fields = list[tuple[str, str]]  # Each a tag, and Y where it is required.
Table = tuple[list[str], list[list[str]]]  # The cells of its head, and those of each row.


class Profile:
    """What PROFILE.md says of messages, tags and values."""

    def __init__(self, text: str) -> None:
        self.text, self.tables = text, list(tables_of(text))

    def table(self, section: str) -> Table:
        """The head and the rows of the first table of this section."""
        return next((head, rows) for at, head, rows in self.tables if at == section)

    def header(self) -> Fields:
        return [(row[0], "Y") for row in self.table("Header")[1]]

    def trailer(self) -> Fields:
        return [(tag, "Y") for tag in re.findall(r"`(\d+)=ddd\|`", self.text)]

    def types(self) -> dict[str, str]:
        """The name of each type of the header's table."""
        written = next(row for row in self.table("Header")[1] if row[0] == "35")[2:]
        names = {kind: name for name, kind in NAMED_TYPE.findall(self.text)}
        for head, rows in (self.table("Order messages"), self.table("Reports")):
            cells = [*head, *(row[0] for row in rows)]
            names.update((found[1], found[2]) for cell in cells if (found := re.match(r"`(\w)` (\w+)", cell)))
        return {kind: names.get(kind, "") for kind in quoted(" ".join(written))}

    def fields(self) -> dict[str, Fields]:
        """The fields of each type: tag, and Y or N."""
        none: dict[str, Fields] = {kind: [] for kind in self.types()}
        return none | self.session() | self.orders() | self.reports()

    def session(self) -> dict[str, Fields]:
        """The session's messages: what one needs is required, and what else stands in an answer is optional."""
        found: dict[str, Fields] = {}
        kinds = {name: kind for kind, name in self.types().items()}
        for message, needs, answer in self.table("What each message does")[1]:
            for tag in re.findall(r"`(\d+)=|\((\d+)\)", needs):
                found.setdefault(kinds[message.split()[0]], []).append(("".join(tag), "Y"))
            for tag in re.findall(r"\b\d{2,3}\b", answer):
                found.setdefault(kinds[answer.split()[0]], []).append((tag, "N"))
        return found

    def orders(self) -> dict[str, Fields]:
        """Where a type has several columns, one for each form of it, a field is required if each form demands it."""
        head, rows = self.table("Order messages")
        columns: dict[str, list[int]] = {}
        for at, kind in enumerate(head):
            if kind.startswith("`"):
                columns.setdefault(quoted(kind)[0], []).append(at)
        return {kind: [(row[0], mark) for row in rows if (mark := mark_of([row[at] for at in places]))]
                for kind, places in columns.items()}

    def reports(self) -> dict[str, Fields]:
        """The venue's messages behind the session's: what stands in brackets is optional."""
        found: dict[str, Fields] = {}
        for kind, fields in self.table("Reports")[1]:
            for part in re.findall(r"\[[^]]*\]|\d+", fields):
                mark = "N" if part.startswith("[") else "Y"
                found.setdefault(quoted(kind)[0], []).extend((tag, mark) for tag in re.findall(r"\d+", part))
        return found

    def names(self) -> dict[str, set[str]]:
        """The names that each tag of a message has, in the tables and in the text."""
        found: dict[str, set[str]] = {}
        for name, tag in NAMED_TAG.findall(self.text):
            found.setdefault(tag, set()).add(name)
        for _, head, rows in self.tables:
            for row in rows if head[:2] == ["tag", "name"] else ():
                for tag, name in zip(row[0].split(", "), row[1].split(", ")):
                    found.setdefault(tag, set()).add(name)
        used = {tag for them in [self.header(), self.trailer(), *self.fields().values()] for tag, _ in them}
        return {tag: found.get(tag, set()) for tag in used}

    def rows(self) -> set[str]:
        """The tags that have a row in a table of tags."""
        return {tag for _, head, rows in self.tables for row in rows if head[:2] == ["tag", "name"] for tag in row[0].split(", ")}

    def values(self) -> dict[str, set[str]]:
        """The values of each tag that has only some."""
        found = {"35": set(self.types())}
        for tag, value in re.findall(r"`(\d+)=(\w)`", str(self.table("What each message does")[1])):
            found.setdefault(tag, set()).add(value)
        for section, head, rows in self.tables:
            for row in rows:
                for tag, cell in zip(head, row):
                    if tag in CODED:
                        found.setdefault(tag, set()).update(CODE.findall(cell))
                if head[-1] in ("value", "range") and row[0] in CODED:
                    found.setdefault(row[0], set()).update(CODE.findall(row[-1]))
        return found


class Dictionary:
    """What the dictionary's file says of the same."""

    def __init__(self, root: xml.Element) -> None:
        self.root = root
        self.known = [(it.get("number", ""), it.get("name", "")) for it in root.findall("fields/field")]
        self.tags = {name: tag for tag, name in self.known}

    def listed(self, parent: Iterable[xml.Element] | None) -> Fields:
        """The fields of a part, each with its tag, or with its name where no tag is defined for it."""
        return [(self.tags.get(name := it.get("name", ""), name), it.get("required", "")) for it in parent or []]

    def header(self) -> Fields:
        return self.listed(self.root.find("header"))

    def trailer(self) -> Fields:
        return self.listed(self.root.find("trailer"))

    def types(self) -> dict[str, str]:
        return {it.get("msgtype", ""): it.get("name", "") for it in self.root.findall("messages/message")}

    def fields(self) -> dict[str, Fields]:
        return {it.get("msgtype", ""): self.listed(it) for it in self.root.findall("messages/message")}

    def names(self) -> dict[str, set[str]]:
        found: dict[str, set[str]] = {}
        for tag, name in self.known:
            found.setdefault(tag, set()).add(name)
        return found

    def values(self) -> dict[str, set[str]]:
        found = {it.get("number", ""): {value.get("enum", "") for value in it} for it in self.root.findall("fields/field")}
        return {tag: values for tag, values in found.items() if values}


def tables_of(text: str) -> Iterator[tuple[str, list[str], list[list[str]]]]:
    """The tables of a page: the section's heading, the cells of the head, those of each row."""
    section = ""
    rows: list[list[str]] = []
    for line in [*text.splitlines(), ""]:
        if line.startswith("|"):
            rows.append([cell.strip() for cell in line.strip().strip("|").split("|")])
            continue
        if rows:
            yield section, rows[0], rows[2:]
            rows = []
        if line.startswith("#"):
            section = line.lstrip("# ")


def mark_of(cells: list[str]) -> str | None:
    """Y where a field is required in all forms of a type, N where it may be left out in some, None where it stands in none."""
    if not any(cells):
        return None
    if set(cells) - {"required", "optional", ""}:
        raise ValueError(f"neither required nor optional: {cells}")
    return "Y" if set(cells) == {"required"} else "N"


def quoted(text: str) -> list[str]:
    """What stands between backquotes."""
    return re.findall(r"`(\w+)`", text)


def said(what: object) -> str:
    """Fields in words, those that aren't required in brackets; or another part."""
    if isinstance(what, list):
        return " ".join(tag if mark == "Y" else f"[{tag}]" for tag, mark in what)
    return str(what)


def difference(one: object, other: object) -> str | None:
    """How the profile's part and the dictionary's differ, in words, or None."""
    if one == other:
        return None
    if isinstance(one, set) and isinstance(other, set):
        parts = [("missing", one - other), ("too many", other - one)]
        return "; ".join(f"{what} {' '.join(sorted(them, key=str))}" for what, them in parts if them)
    return f"the profile has {said(one)}, the dictionary {said(other)}"


def compared(profile: Profile, dictionary: Dictionary) -> Iterator[tuple[str, str | None]]:
    """Each thing that is compared, and how it differs."""
    yield "header", difference(profile.header(), dictionary.header())
    yield "trailer", difference(profile.trailer(), dictionary.trailer())
    parts = {"types": "name of type", "fields": "fields of type", "names": "name of tag", "values": "values of tag"}
    for part, words in parts.items():
        one, other = getattr(profile, part)(), getattr(dictionary, part)()
        yield f"all with a {words}", difference(set(one), set(other))
        for key in sorted(set(one) & set(other)):
            yield f"{words} {key}", difference(one[key], other[key])
    tags = [tag for tag, _ in dictionary.known]
    yield "rows of tags that no message has", difference(set(), profile.rows() - set(profile.names()))
    yield "tags defined twice", difference(set(), {tag for tag in tags if tags.count(tag) > 1})


def made(profile: Profile) -> str:
    """The header, the messages and the trailer, as the dictionary has them."""
    names = {tag: min(names, default="") for tag, names in profile.names().items()}

    def part(fields: Fields, indent: str) -> str:
        return "".join(f'{indent}<field name="{names[tag]}" required="{mark}"/>\n' for tag, mark in fields)

    types, messages = profile.types(), ""
    for kind, fields in sorted(profile.fields().items()):
        category = "admin" if kind in OF_SESSIONS else "app"
        messages += (f'    <message name="{types[kind]}" msgtype="{kind}" msgcat="{category}">\n{part(fields, "      ")}'
                     "    </message>\n")
    return (f"  <header>\n{part(profile.header(), '    ')}  </header>\n  <messages>\n{messages}  </messages>\n"
            f"  <trailer>\n{part(profile.trailer(), '    ')}  </trailer>\n")


def main() -> None:
    parser = argparse.ArgumentParser(description=__doc__, formatter_class=argparse.RawDescriptionHelpFormatter)
    parser.add_argument("dictionary", nargs="?", default=os.path.join(DOCS, "FIX44-gikvand.xml"))
    parser.add_argument("profile", nargs="?", default=os.path.join(DOCS, "PROFILE.md"))
    parser.add_argument("--write", action="store_true")
    given = parser.parse_args()
    with open(given.dictionary, encoding="utf-8") as file:
        text = file.read()
    with open(given.profile, encoding="utf-8") as page:
        profile = Profile(page.read())
    anew = MADE.sub(lambda _: made(profile), text)
    if given.write:
        with open(given.dictionary, "w", encoding="utf-8") as file:
            file.write(anew)
        return
    try:
        root = xml.fromstring(text)
    except xml.ParseError as why:
        print(f"{os.path.relpath(given.dictionary)} is no well-formed XML: {why}\n0 passed, 1 failed")
        sys.exit(1)
    found = [*compared(profile, Dictionary(root)), ("what is made", "" if anew == text else "it is made anew by --write")]
    faults = [f"{what}: {why}" for what, why in found if why]
    for fault in faults:
        print(f"{os.path.relpath(given.dictionary)}: {fault}")
    print(f"{len(found) - len(faults)} passed, {len(faults)} failed")
    sys.exit(1 if faults else 0)


if __name__ == "__main__":
    main()
