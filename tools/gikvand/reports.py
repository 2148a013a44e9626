"""What the journal has for a member: each report of its orders, or what came behind an ExecID that the member has.

    gikvand reports JOURNAL C1                     each report as FIX, with a bar behind each field
    gikvand reports JOURNAL C1 --after 17 --csv    what came behind the report with ExecID 17, as a table
    gikvand reports JOURNAL C1 --edge /etc/gikvand-edge/C1.cfg
                                                   with the names and decimals of a member behind gikvand-edge; of one of its
                                                   desks as C1.2

Who was away, or whose connection was ended, gets nothing later: this is how it learns what it missed. Which of the reports
reached the member, the journal doesn't say, and its own log does: gikvand verify compares both. Reports that refuse a cancel or
a replace, or reject a message, have no ExecID, so of these all are shown that stand behind the last report up to that ExecID:
the member may know the first of them. An ExecID behind the journal's end is refused, since then the journal is an older copy.
It reads by venue-events, and the journal may be in use.
"""
import argparse
import re
from collections.abc import Iterable, Iterator

from gikvand import edge, symbols, tables
from gikvand.events import Events
from gikvand.fix import COUNTED, NAMES, fields_of
from gikvand.logs import place_of
from gikvand.programs import Trouble
from gikvand.tables import Row


def member_of(word: str) -> str:
    if not re.fullmatch(r"C[1-8](\.[1-8])?", word):
        raise argparse.ArgumentTypeError(f"not a member, C1 to C8: {word}")
    return word


def exec_id(word: str) -> int:
    if not re.fullmatch("[0-9]{1,18}", word):
        raise argparse.ArgumentTypeError(f"not an ExecID, a number: {word}")
    return int(word)


def add_words(parser: argparse.ArgumentParser) -> None:
    parser.add_argument("journal", metavar="JOURNAL", help="the journal's file")
    parser.add_argument("member", metavar="Cn", type=member_of, help="the member, C1 to C8, or a desk of it, as C1.2")
    parser.add_argument("--after", metavar="EXECID", type=exec_id, default=0, help="only what came behind this ExecID (17)")
    symbols.add_option(parser)
    edge.add_option(parser)
    tables.add_options(parser)


def behind(told: Events, lines: Iterable[str], place: int) -> Iterator[str]:
    """The reports behind the last one whose place is no greater. Stops where the journal ends before that place."""
    held: list[str] = []  # Those without a place, behind that one as far as is known.
    is_behind = False
    for line in lines:
        now = place_of(line)
        if now is not None:
            is_behind = now > place
        if now is not None and not is_behind:
            held = []
        elif is_behind:
            yield from held
            held = []
            yield line
        else:
            held.append(line)
    need_place_of(told.journal, told.outputs, place)
    yield from held


def need_place_of(journal: str, outputs: int, place: int) -> None:
    """Stops where a journal with so many outputs ends before this place."""
    if outputs < place:
        raise Trouble(f"the journal {journal} ends with the ExecID {outputs}: is it an older copy?")


def number_of(text: str) -> int | str:
    """What counts something. A price by the edge has decimals, and stays the text that its member knows."""
    return int(text) if text.isdecimal() else text


def row_of(report: str) -> Row:
    """A report by the names of its fields."""
    return {NAMES[tag]: number_of(text) if tag in COUNTED else text for tag, text in fields_of(report).items()}


def run(given: argparse.Namespace) -> int:
    traded, behind_edge = symbols.needed(given.journal, given.symbols), edge.needed(given.edge, [given.member], given.journal)
    told = Events(given.journal, traded)
    lines: Iterable[str] = told.told_to(given.member[:len("C1")])
    if behind_edge:
        lines = behind_edge.reports(given.member, lines)
    symbols.warn_of_strangers("reports", given.journal, traded)
    write = tables.writer(given, list(NAMES.values()), row_of, str)
    for report in behind(told, lines, given.after):
        write(report)
    return 0
