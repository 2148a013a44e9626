"""A man page in mdoc, as far as tests look into it: what its sections, lists and headings show. Not a test."""
import re

CLOSING = {",", ".", ":", ";", ")"}
SILENT = {"Ar", "Cm", "Pa", "Ev", "Ql", "No", "It", "Ss", "Dl", "Nm"}


def spelled(line: str) -> str:
    """What a line shows: of a macro its words, without their type."""
    if not line.startswith("."):
        return line
    text, end, dash, joined = "", "", "", True
    words = iter(line[1:].replace('"', "").split())
    for word in words:
        if word in SILENT:
            continue
        if word == "Ns":
            joined = True
        elif word == "Fl":
            dash = "-"
        elif word == "Op":
            text, end, joined = f"{text} [", "]", True
        elif word == "Oo":
            text, joined = f"{text} [", True
        elif word == "Oc":
            text += "]"
        else:
            shown = "{}({})".format(next(words), next(words)) if word == "Xr" else dash + word
            text += shown if joined or word in CLOSING else f" {shown}"
            dash, joined = "", False
    return (text + end).strip()


class Page:
    """A page: the lines of each of its sections."""

    def __init__(self, name: str, text: str) -> None:
        self.name = name.rpartition(".")[0]
        _, *parts = re.split(r"^\.Sh (.*)\n", text, flags=re.MULTILINE)
        self.sections = {head: text.splitlines() for head, text in zip(parts[::2], parts[1::2])}

    def synopsis(self) -> list[str]:
        """Each form of the command line, with its name in front."""
        forms: list[list[str]] = []
        for line in self.sections["SYNOPSIS"]:
            if line == ".Nm":
                forms.append([self.name])
            else:
                forms[-1].append(spelled(line))
        return [" ".join(it).replace(" ...", "...") for it in forms]

    def items(self, section: str) -> dict[str, str]:
        """What each item of the section's lists says, by its head."""
        return items_in([self.name if it == ".Nm" else it for it in self.sections[section]])

    def parts(self, section: str) -> dict[str, list[str]]:
        """The lines below each heading of a section."""
        found: dict[str, list[str]] = {}
        below: list[str] = []
        for line in self.sections[section]:
            if line.startswith(".Ss "):
                below = found[spelled(line)] = []
            else:
                below.append(line)
        return found


def items_in(lines: list[str]) -> dict[str, str]:
    """What each item says, by its head, up to the end of its list."""
    found: dict[str, list[str]] = {}
    below: list[str] = []
    for line in lines:
        if line.startswith(".It"):
            below = found[spelled(line)] = []
        elif line == ".El":
            below = []
        else:
            below.append(spelled(line))
    return {head: re.sub(r" ([,.:;)])", r"\1", " ".join(it)) for head, it in found.items()}


def literal(lines: list[str]) -> list[str]:
    """The lines that are shown as they stand."""
    text = "\n".join(lines)
    blocks = re.findall(r"^\.Bd -literal.*\n((?:.*\n)*?)\.Ed$", text, re.MULTILINE)
    return [line for it in blocks for line in it.splitlines()]
