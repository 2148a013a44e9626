"""Tests of the man pages: what they say, beside docs/OPERATING.md, the programs, and the commands of gikvand."""
import argparse
import ast
import functools
import os
import re
import socket
import tempfile

import pytest

import commands_page
from checks import ROOT, put, put_text, ran, text_of
from gikvand import journals
from gikvand import main as tools
from gikvand.words import sure
from mdoc import Page, items_in, literal, spelled
from venues import EVENTS, HOST, REPLAY, VENUED

pytestmark = [pytest.mark.quick, pytest.mark.usefixtures("programs")]

PAGES = ("venued.8", "venue-replay.1", "venue-events.1", "gikvand.1", "venue.journal.5")
PROGRAMS = {it.rsplit(".", 1)[0]: it for it in PAGES[:3]}
OTHERS = "|".join(re.escape(" ".join(it.rsplit(".", 1))) for it in PAGES)
USAGE = "usage: .."  # As the runbook has it, of each program.
NO_FINDING = re.compile(rf".*STYLE: referenced manual not found: Xr ({OTHERS})\b.*")


def packed_page(name: str) -> str:
    """The text of a page as the package has it."""
    return commands_page.filled(text_of(f"contrib/man/{name}"))


@functools.cache
def page(name: str) -> Page:
    return Page(name, packed_page(name))


def plain(text: str) -> str:
    """A text of either page without marks, so that both can be compared."""
    return re.sub(r"[`.,;:]|\(\d\)$|(?<=venued)\(8\)|(?<=venue-replay)\(1\)|(?<=venue-events)\(1\)", "", text).strip().lower()


def rows(section: str, head: str) -> list[list[str]]:
    """The rows of the table in a section of OPERATING.md whose first line begins so."""
    part = re.split(rf"^#+ {section}$", text_of("docs/OPERATING.md"), flags=re.MULTILINE)[1]
    lines = part[part.index(head):].split("\n\n")[0].splitlines()
    return [[cell.strip() for cell in line.strip()[1:-1].split("|")] for line in lines[2:]]


def any_place(line: str) -> str:
    """A line with N for the number of a byte or a port."""
    return re.sub(r"(at|on) \d+$", r"\1 N", line)


def test_usages() -> None:
    """The forms of the command line are those of OPERATING.md, and the programs print them."""
    block = re.split(r"^## Commands$", text_of("docs/OPERATING.md"), flags=re.MULTILINE)[1].strip().split("\n\n")[0]
    assert [it for name in PAGES[:3] for it in page(name).synopsis()] == [line.strip() for line in block.splitlines()]
    for name, program, forms in ((PAGES[0], VENUED, 1), (PAGES[1], REPLAY, 2), (PAGES[2], EVENTS, 1)):
        for words in ((), ("--help",), ("--version",), ("x",)):
            line = f"usage: {' or '.join(page(name).synopsis()[:forms])}"
            assert (words, *ran(program, *words)) == (words, 1, "", f"{line}\n")
            assert line in page(name).items("DIAGNOSTICS")
    assert page("gikvand.1").synopsis()[0] == tools.usage().splitlines()[0].removeprefix("usage: ")


def test_words_of_the_programs() -> None:
    """Each word is told as OPERATING.md tells it, and no other stands there."""
    wanted = {plain(head): plain(what) for head, what in rows("Commands", "| word | what it is |")}
    found: dict[str, str] = {}
    for name in PAGES[:3]:
        for head, what in page(name).items("DESCRIPTION").items():
            head = plain(head.replace(" ...", "..."))
            assert (name, head, plain(what)[:len(wanted.get(head, "-"))]) == (name, head, wanted.get(head))
            found[head] = what
    assert sorted(found) == sorted(wanted)


def told() -> dict[str, dict[str, str]]:
    """The lines on standard error in the runbook, by the programs that say them, each with its status."""
    found: dict[str, dict[str, str]] = {it: {} for it in PROGRAMS}
    for lines, of, status, _ in rows("Runbook", "| line | of | status |"):
        for program in PROGRAMS if of == "each" else re.findall(r"`([^`]*)`", of):
            for line in re.findall(r"`([^`]*)`", lines) if status not in ("", "0") else ():
                found[program][line if line == USAGE else any_place(f"{program}: {line}")] = status
    return found


def test_statuses() -> None:
    """Each program's column says what its page says."""
    columns = {**PROGRAMS, "gikvand": "gikvand.1"}
    table = rows("Exit statuses", f"| status | {' | '.join(f'`{it}`' for it in columns)} |\n")
    for column, (program, name) in enumerate(columns.items(), 1):
        wanted = {cells[0]: plain(cells[column]) for cells in table if cells[column]}
        said = page(name).items("EXIT STATUS")
        assert (program, {status: plain(what)[:len(wanted.get(status, ""))] for status, what in said.items()}) == (program, wanted)
    assert [int(it) for it in said] == [tools.DONE, tools.FOUND, tools.NOT_DONE]


def test_lines_on_standard_error() -> None:
    """The pages have the lines of the runbook, each with its status, and no others; and so has the rest of OPERATING.md."""
    text = text_of("docs/OPERATING.md")
    for program, lines in told().items():
        said = {any_place(re.sub("^usage: .*", USAGE, line)): what
                for line, what in page(PROGRAMS[program]).items("DIAGNOSTICS").items()}
        assert (program, sorted(said)) == (program, sorted(lines))
        for line, what in said.items():
            status = what.split(":")[0] if program == "venued" else "Status 1"
            assert (line, status) == (line, f"Status {lines[line]}")
        named = {any_place(it.replace("\n", " ")) for it in re.findall(rf"`({program}: (?!ready|stopped)[^`]*)`", text)}
        assert (program, named - set(said)) == (program, set())


def line_of(it: ast.Call) -> list[str]:
    """The words of a line that a command says, without what it puts in."""
    text = it.args[0]
    parts = text.values if isinstance(text, ast.JoinedStr) else [text]
    return [it.value for it in parts if isinstance(it, ast.Constant)]


def test_the_runbook() -> None:
    """The runbook has each line of the commands of gikvand, and each figure of `watch` that may wake somebody."""
    text = text_of("docs/OPERATING.md")
    part = re.split(r"^## ", re.split(r"^## Runbook$", text, flags=re.MULTILINE)[1], flags=re.MULTILINE)[0]
    figures = rows("Who is there: `watch`", "| figure (each begins with `gikvand_`)")
    woken = re.findall(r"`(\w+)`", " ".join(cells[0] for cells in figures if cells[1] != "for graphs"))
    assert [it for it in woken if f"`{it}`" not in part] == []
    modules = [it for it in os.listdir(os.path.join(ROOT, "tools/gikvand")) if it.endswith(".py") and it != "demo.py"]
    for name in modules:
        for it in ast.walk(ast.parse(text_of(f"tools/gikvand/{name}"))):
            if isinstance(it, ast.Call) and getattr(it.func, "id", "") == "Trouble":
                found = [re.split("[:;.]", words)[0].strip() for words in line_of(it) if len(words) > 7]
                assert (name, found, not found or any(words and words in part for words in found)) == (name, found, True)


def test_lines_of_the_programs() -> None:
    """The programs say what the pages have."""
    with tempfile.TemporaryDirectory(prefix="lines-") as folder, socket.create_server((HOST, 0)) as taken:
        port = str(taken.getsockname()[1])
        for name, data in (("empty", journals.empty()), ("old", journals.empty(1)), ("cut", journals.empty()[:-1]), ("none", b"x")):
            put(os.path.join(folder, name), data)
        for program, words, line in (
                (VENUED, [port, "empty", "1", "ABC"], f"venued: cannot listen on {port}"),
                (VENUED, [port, "no/folder", "1", "ABC"], "venued: journal fault 41"),
                (VENUED, [port, "cut", "1", "ABC"], "venued: journal fault 42 at 16"),
                (VENUED, [port, "none", "1", "ABC"], "venued: journal fault 43"),
                (REPLAY, ["missing", "book", "ABC"], "venue-replay: journal fault 41"),
                (REPLAY, ["cut", "C1", "ABC"], "venue-replay: journal fault 42 at 16"),
                (REPLAY, ["none", "check", "ABC"], "venue-replay: journal fault 43"),
                (REPLAY, ["old", "snapshot", "ABC"], "venue-replay: journal fault 45"),
                (REPLAY, ["old", "carry", "none"], "venue-replay: NEW exists"),
                (EVENTS, ["missing", "once", "ABC"], "venue-events: journal fault 41"),
                (EVENTS, ["cut", "once", "ABC"], "venue-events: journal fault 42 at 16"),
                (EVENTS, ["none", "once", "ABC"], "venue-events: journal fault 43")):
            status, out, err = ran(program, *words, folder=folder)
            assert (words, status, out, err) == (words, 1, "", f"{line}\n")
            shown = page(dict(zip((VENUED, REPLAY, EVENTS), PAGES))[program]).items("DIAGNOSTICS")
            assert any_place(line) in map(any_place, shown)


def option_of(it: argparse.Action) -> str:
    """An option as the pages write it, with its value."""
    return " ".join([*it.option_strings, *([str(it.metavar or it.dest.upper())] if it.nargs is None else [])])


def test_commands_of_gikvand() -> None:
    """Each command has its heading, as its own usage line says, what it says of itself, and its options, as its own help tells them."""
    parts = page("gikvand.1").parts("COMMANDS")
    assert [it.split()[0] for it in parts] == list(tools.COMMANDS)
    for head, lines in parts.items():
        parser = tools.parser_of(head.split()[0])
        usage = " ".join(parser.format_usage().split()).removeprefix("usage: gikvand ").replace("[-h] ", "").removesuffix(" [-h]")
        assert head == usage
        options = {option_of(it): it.help or "" for it in parser._actions if it.option_strings}
        said = items_in(lines)
        assert set(said) - set(options) == set()
        assert ("--symbols ABC,XYZ" in said) == head.startswith("trade ")  # (that of all others stands once)
        for option in options.keys() - {"-h --help", "--symbols ABC,XYZ"} | said.keys():
            assert (head, plain(said.get(option, ""))) == (head, plain(options[option]))
        shown = ["" if it == ".Pp" else it for it in lines[:next((at for at, it in enumerate(lines) if it.startswith(".Bl ")), None)]]
        told = [it for it in map(spelled, shown) if not it.startswith(("Bd ", "Ed"))]
        assert plain("".join(" ".join(told).split())) == plain("".join(sure(parser.description).split()))
        indented = [it.strip() for it in sure(parser.description).splitlines() if it.startswith("  ")]
        assert [it.strip() for it in literal(lines)] == indented


def test_the_page_of_the_journal() -> None:
    """Its examples are journals, and its numbers those by which the tools read and write one."""
    it = page("venue.journal.5")
    empty, one = (bytes.fromhex(line) for line in literal(it.sections["EXAMPLES"]))
    assert empty == journals.empty()
    assert one == journals.header(1) + journals.block_of(1, [journals.Entry(1, b"AB")]) + journals.CLOSED
    text = "\n".join(it.sections["DESCRIPTION"])
    for what in (journals.MAGIC.hex(" "), journals.MAGIC.decode(), f"1 to {journals.MEMBERS[-1]} Ta its gateway", "at most 2^48",
                 f"1 to {journals.LENGTHS[-1]} Ta its length", f"1 to {journals.MOST_IN_A_BLOCK} records", "1, 2 or 3"):
        assert (what, what in text) == (what, True)


@pytest.mark.debian("mandoc")
def test_lint_of_the_pages() -> None:
    """mandoc has nothing to say of them, but that the other ones aren't among the system's."""
    with tempfile.TemporaryDirectory(prefix="pages-") as folder:
        for name in PAGES:
            _, out, err = ran("mandoc", "-Tlint", put_text(os.path.join(folder, name), packed_page(name)))
            assert (name, [line for line in out.splitlines() if not NO_FINDING.fullmatch(line)], err) == (name, [], "")
