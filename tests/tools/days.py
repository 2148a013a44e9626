"""Days of trading by the rules of tests/oracle: the journal that a venue writes of a day, and the reports that each member hears. No venue
listens for them, so no test waits for one; test_days.py compares them with a venue. Not a test: tests of this folder import it."""
import functools
from collections.abc import Iterator

from gikvand import journals
from gikvand.fix import body, printed, sealed
from gikvand.journals import Entry
from made_journals import BEHIND, DAY, JOURNAL, SYMBOLS, Made, put
from oracle.book_rules import Book, Report
from oracle.snapshot_rules import snapshot
from venues import message

Sent = tuple[int, str, str]  # The number of a member, and the type and the body of a message that the member sends.


def as_heard(report: Report, number: int) -> str:
    """Returns a report as its member hears it: as the message of this number in the session."""
    head = body(f"35={report.kind}|49=VENUE|56=C{report.to}|34={number}|52=")
    return printed(sealed(head + report.when + b"\x01" + report.body))


class Day:
    """A journal that grows by the messages of C1, C2 and C3, with the reports that these members hear."""

    def __init__(self, version: int = journals.MADE) -> None:
        self.version, self.blocks = version, journals.header(version)
        self.book = Book(SYMBOLS, journals.begun(journals.empty(version)).cut)
        self.heard: dict[int, list[str]] = {1: [], 2: [], 3: []}

    @property
    def data(self) -> bytes:
        """The bytes of the journal."""
        return self.blocks + journals.CLOSED

    def trade(self, day: list[Sent]) -> "Day":
        """Adds a block for each message. The members have logged on before, and each message is answered before the next one is sent."""
        sent, told = dict.fromkeys(self.heard, 1), dict.fromkeys(self.heard, 1)  # (the Logon and its answer)
        for member, kind, text in day:
            sent[member] += 1
            entry = Entry(member, message(member, sent[member], kind, text))
            self.blocks += journals.block_of(self.version, [entry])
            for report in self.book.take(*entry):
                told[report.to] += 1
                self.heard[report.to].append(as_heard(report, told[report.to]))
        return self

    def add_snapshot(self) -> None:
        """Adds a snapshot of the book, as `venue-replay snapshot` does."""
        self.blocks += journals.snapshot_block(snapshot(self.book))


@functools.cache
def made(version: int) -> Made:
    """Returns the day of made_journals in a journal of this version."""
    day = Day(version).trade(DAY)
    if version >= journals.WITH_SNAPSHOTS:
        day.add_snapshot()
    day.trade(BEHIND)
    return Made(version, day.data, day.heard)


def each_version() -> Iterator[Made]:
    """Yields the day in a journal of each version, which lies in the folder of the test, with its symbols beside it."""
    put(f"{JOURNAL}.symbols", b"ABC XYZ\n")
    for version in journals.VERSIONS:
        put(JOURNAL, made(version).data)
        yield made(version)
