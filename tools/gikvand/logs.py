"""A member's own log of FIX: the venue's messages in it, whatever stands between them, and whether the venue told them so. Or what
`gikvand reports` has printed, and the log of a member behind the edge."""
import itertools
import re
from collections.abc import Iterable, Iterator
from typing import BinaryIO

from gikvand.edge import Edge, as_compared, printed_as_compared
from gikvand.fix import REPORTS, fields_of, printed, sealed, value

# A message, whose fields end with the byte 01, or with what the log has in its place. What is broken off is none.
MESSAGE = re.compile(rb"8=FIX\.4\.4(\x01|\||\^A)9=\d+\1(?:(?!8=FIX).)*?\1(?:10=\d{3})(?!\d)", re.DOTALL)
LONGEST = 4096        # Of a message in a log, in bytes.
PLACE = re.compile(r"[A-Z]?(\d+)")  # An ExecID, which has the letter of its venue in front where a member has several.
PIECE = 1 << 20       # So many bytes are read at once.
PRINTED = re.compile(rb"35=[389]\|52=[^\n]*\|")  # A line as `gikvand reports` prints it.
HEADER = re.compile(r"8=[^|]*\|9=[^|]*\|(35=[^|]*\|)49=VENUE\|56=C\d\|34=[^|]*\|(52=[^|]*\|)(.*)10=\d{3}\|")


def messages(file: BinaryIO, rest: bytes = b"") -> Iterator[bytes]:
    """The messages of a log, with the byte 01 behind each field. Its beginning may have been read already."""
    is_end = False
    while not is_end:
        piece = file.read(PIECE)
        is_end, data, end = not piece, rest + piece, 0
        for found in MESSAGE.finditer(data):
            if not is_end and found.end() == len(data):
                break  # The next byte may be a further digit.
            end = found.end()
            yield found[0].replace(found[1], b"\x01") + b"\x01"
        rest = data[max(end, len(data) - LONGEST):]


def is_whole(message: bytes) -> bool:
    """Whether a message has the length and the sum that it says."""
    body = message.split(b"\x01", 2)[2][:-len("10=000|")]
    return sealed(body) == message


Logged = tuple[str, bool, bool]  # A report, whether it is whole, and whether it may be there twice, as it was sent again.


def reports(file: BinaryIO, member: str, edge: Edge | None = None) -> Iterator[Logged]:
    """The venue's reports to this member in a log, as venue-replay prints them."""
    if PRINTED.match(first := file.readline(LONGEST)):
        for line in itertools.chain([first], file):
            if found := PRINTED.fullmatch(line.strip()):
                text = found[0].decode("ascii", "replace")
                yield printed_as_compared(text) if edge else text, True, False
        return
    if edge:
        yield from of_the_edge(file, member, edge, first)
        return
    for message in messages(file, first):
        head = HEADER.fullmatch(text := printed(message))
        if head and value(text, "56") == member and value(text, "35") in REPORTS:
            yield f"{head[1]}{head[2]}{head[3]}", is_whole(message), False


def of_the_edge(file: BinaryIO, member: str, edge: Edge, first: bytes) -> Iterator[Logged]:
    """The same of a member behind the edge, in the form in which that gives them to compare. What was missed is sent again."""
    for message in messages(file, first):
        told = fields_of(printed(message))
        if edge.is_to(member, told):
            yield as_compared(edge.with_letter(told)), is_whole(message), "Y" in (told.get("43"), told.get("97"))


def place_of(report: str) -> int | None:
    """The place of an execution report among all that the venue has told, by its ExecID. The other reports have none."""
    found = PLACE.fullmatch(fields_of(report).get("17", "")) if report.startswith("35=8|") else None
    return int(found[1]) if found else None


class Told:
    """What the venue told a member, in its order."""

    def __init__(self, lines: Iterable[str]) -> None:
        self.lines = iter(lines)
        self.next: str | None = None
        self.take()

    def take(self) -> str | None:
        """Takes the next report."""
        taken, self.next = self.next, next(self.lines, None)
        return taken

    def before(self, place: int | None) -> tuple[int, list[str]]:
        """Takes all in front of this place, or all: how many have places, and those that have none."""
        count, without = 0, []
        while self.next is not None and ((now := place_of(self.next)) is None or place is None or now < place):
            if now is None:
                without.append(self.next)
            count += now is not None
            self.take()
        return count, without


class Compared:
    """A log beside what the venue told its member: how many reports were found, how many it misses, and what is wrong."""

    def __init__(self, told: Iterable[str]) -> None:
        self.told, self.last = Told(told), 0
        self.found = self.missed = self.logged = 0
        self.waiting: list[str] = []  # Reports of the log that have no places, behind the last one that has.
        self.known: set[str] = set()  # Those that have none and may come, sent again: the log has had them, or misses them.

    def compare(self, logged: Iterable[Logged]) -> Iterator[str]:
        """What is wrong with the log, line by line."""
        for report, whole, is_again in logged:
            self.logged, place = self.logged + 1, place_of(report)
            if is_again and (report in self.known if place is None else place <= self.last):
                continue
            if place is None:
                self.known.add(report)
            if not whole:
                yield f"the log has another text than its length and CheckSum say: {report}"
            elif place is None:
                self.waiting.append(report)
            elif place <= self.last:
                yield f"the log has it twice, or not in its order: {report}"
            else:
                yield from self.pass_by(place)
                yield from self.meet(place, report)
        yield from self.pass_by(None)

    def pass_by(self, place: int | None) -> Iterator[str]:
        """Goes on to this place, or to the end. What waited has to stand in front of it, in its order."""
        count, without = self.told.before(place)
        at, met = 0, 0
        for report in self.waiting:
            if report in without[at:]:
                at, met = without.index(report, at) + 1, met + 1
            else:
                yield f"the venue didn't tell it, or not there: {report}"
        self.waiting = []
        self.known.update(without)
        self.found, self.missed = self.found + met, self.missed + count + len(without) - met

    def meet(self, place: int, report: str) -> Iterator[str]:
        """A report of this place, at which what was told stands now."""
        self.last = place
        if self.told.next is None:
            yield f"the journal's reports end before it: {report}"
        elif place_of(self.told.next) != place:
            yield f"the venue didn't tell it: {report}"
        elif (told := self.told.take()) == report:
            self.found += 1
        else:
            yield f"the venue told it otherwise, as {told}: {report}"
