"""The functions of .rt files with their whole texts, in rt fmt's layout: a block ends at the indentation that it began at. Not a script:
dev/edits and dev/changed.py import it."""
import re

import contracts

FUNCTION = re.compile(r"\s*(?:pub(?:\([a-z ]+\))? )?(?:const )?(?:unsafe )?fn (\w+)")
IMPL = re.compile(r"impl\b(?:<[^{]*?>)? (?:(?:\w+::)*(?P<trait>[\w<>]+) for )?(?:\w+::)*(?P<type>\w+)")

Texts = dict[str, str]  # Of the files of a crate, by their paths.


class Function:
    """A function as it stands in a file, on the lines from first to last."""

    def __init__(self, module: list[str], owner: str | None, name: str, file: str, first: int, last: int, text: str,
                 made_of: str = "") -> None:
        self.module, self.owner, self.name, self.file = module, owner or "", name, file
        self.first, self.last, self.text = first, last, text
        self.short = "::".join([*([owner] if owner else module[-1:]), name])
        # the end of its path as a check prints it: with its type, what that is made of, and its trait, or else its module
        self.told_as = "::".join([*([owner + made_of] if owner else module[-1:]), name])

    def body(self) -> str:
        """Its text without its clauses, in front of a body's brace on a line of its own, and without comments."""
        return re.sub(r"//.*", "", re.split(r"(?m)^ *\{$", self.text, 1)[-1])

    def has_lines(self) -> bool:
        """Whether it has a body with lines of its own: a trait leaves that of a function to others."""
        return self.text.endswith("}") and not self.text.endswith("{}") and self.first + 1 < self.last

    def may_be(self, dot: str, owner: str) -> bool:
        """Whether a call of its name may mean it, as a method or with this word in front."""
        if dot or owner == "Self":
            return bool(self.owner)
        return self.owner.startswith(owner) if owner[:1].isupper() else not self.owner

    def stands_at(self, file: str, line: int) -> bool:
        return self.file == file and self.first <= line <= self.last


def functions_of(texts: Texts) -> list[Function]:
    """Returns the functions of the sources among these files."""
    found = []
    for file, text in texts.items():
        if not file.startswith("src/") or not file.endswith(".rt"):
            continue
        module = [word for word in file[len("src/"):-len(".rt")].split("/") if word not in ("lib", "main")]
        owner, made_of, lines, at = None, "", [contracts.MARK.sub("", line) for line in text.split("\n")], 0
        while at < len(lines):
            line = lines[at]
            if kind := IMPL.match(line):
                owner = kind["type"] + re.sub(r"\W", "", kind["trait"] or "")
                words = re.findall(r"\b[A-Z]\w*", line[kind.end():]) if not kind["trait"] else []
                made_of = "".join(f"+{word}" for word in words) if any(len(word) > 1 for word in words) else ""
            elif line == "}":
                owner = None
            elif name := FUNCTION.match(line):
                first, margin = at, line[:len(line) - len(line.lstrip())]
                ends, has_body = (margin + "}", margin + "{}"), False
                while not line.endswith("}") and at + 1 < len(lines) and lines[at] not in ends:
                    has_body = has_body or lines[at].endswith("{") and not lines[at].startswith(margin + " ")
                    if not has_body and lines[at].endswith(";") and not lines[at + 1].startswith(margin + " "):
                        break  # A trait's function that it leaves to others.
                    at += 1
                whole = "\n".join(lines[first:at + 1])
                found.append(Function(module, owner, name[1], file, first + 1, at + 1, whole, made_of))
            at += 1
    return found
