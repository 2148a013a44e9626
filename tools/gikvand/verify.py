"""Says whether a journal, or a copy of one, is whole and unchanged, as far as its own bytes tell.

    gikvand verify JOURNAL                      the journal alone
    gikvand verify JOURNAL C1=c1.log C2=c2.log  and whether the reports in members' logs are those that it tells
    gikvand verify JOURNAL C1=c1.log --edge /etc/gikvand-edge
                                                the same of members behind gikvand-edge, whose settings these are; the log
                                                of one of several desks is that of C1.2

It looks at the header and at each block; at each entry, which has to be a message of its member with the right length and
CheckSum, as every message that a session publishes; at the bytes behind the last gate; and at the snapshots, by venue-replay.
A log is any file in which FIX messages stand, with the byte 01, a bar or ^A behind each field, or what gikvand reports printed.
Each report in it has to be told so by the journal, in that order. What the member missed is counted; a log without a single one
of its reports is a finding. For snapshots and logs the symbols have to be known.

The file is only read, and may be in use. The status is 0 where nothing is wrong, 1 where something was found, and 2 where it
couldn't be looked at.
"""
import argparse
import os
import re
from collections.abc import Iterator
from typing import BinaryIO, NamedTuple

from gikvand import edge, files, locks, mends, symbols
from gikvand.fix import ORDERS, fields, has_header, next_frame
from gikvand.glance import is_published
from gikvand.journals import HEAD, Block, Damaged, Entry, NotAJournal, Reader, exactly
from gikvand.logs import Compared, reports
from gikvand.programs import Replay, false_snapshot
from gikvand.words import Trouble, some, sure

SHOWN = 10  # So many findings of a kind are shown, and the others counted.


class Log(NamedTuple):
    """A member, and the file of its log."""
    member: str
    path: str


def log_of(word: str) -> Log:
    found = re.fullmatch(r"(C[1-8](?:\.[1-8])?)=(.+)", word)
    if not found:
        raise argparse.ArgumentTypeError(f"not a member and its log, as C1=FILE: {word}")
    return Log(*found.groups())


def add_words(parser: argparse.ArgumentParser) -> None:
    parser.add_argument("journal", metavar="JOURNAL", help="the journal's file")
    parser.add_argument("logs", metavar="Cn=FILE", nargs="*", default=[], type=log_of,
                        help="a member, or a desk of it as C1.2, and a log of what it was told")
    symbols.add_option(parser)
    edge.add_option(parser)


def fault_of(entry: Entry) -> str | None:
    """Why no session publishes this, in words, or None."""
    if is_published(entry.message, entry.gateway):
        return None
    found = next_frame(entry.message)
    if not found or found[1] or found[0] != entry.message:
        return (found and found[1]) or "not exactly one message"
    told = sure(fields(entry.message))
    if not has_header(told):
        return "bad header"
    head = dict(told[:7])
    if head[49] != b"C%d" % entry.gateway or head[56] != b"VENUE":
        return "wrong party"
    if head[34] == b"1":
        return "wrong number: the first message of a session is its Logon"
    return None if head[35] in ORDERS else "no order, cancel or replace"


class Report:
    """What was found, line by line. Of each kind only the first are shown."""

    def __init__(self) -> None:
        self.count = 0

    def wrong(self, *lines: str) -> None:
        """Something that isn't as it should be."""
        self.count += 1
        for line in lines:
            print(line)

    def each(self, lines: Iterator[str]) -> int:
        """How many these are. All of them are wrong."""
        count = 0
        for count, line in enumerate(lines, 1):
            self.count += 1
            if count <= SHOWN:
                print(line)
        if count > SHOWN:
            print(f"and {count - SHOWN} more")
        return count


class Journal:
    """A journal that is looked at: what it has, and where its gate is closed."""

    def __init__(self, file: BinaryIO) -> None:
        self.reader, self.blocks, self.snapshots = Reader(file), 0, 0
        self.damage: Damaged | None = None
        self.cut_is_at_a_block = self.reader.cut == 0 or self.reader.version == 1

    def faults(self) -> Iterator[str]:
        """What is wrong with its entries."""
        try:
            for block in self.reader:
                self.blocks += 1
                self.snapshots += block.snapshot is not None
                yield from self.faults_in(block)
        except Damaged as why:
            self.damage = why
        if not self.cut_is_at_a_block and self.reader.cut != self.reader.count:
            yield f"header: its cut is {self.reader.cut}, and no block of entries begins there"

    def faults_in(self, block: Block) -> Iterator[str]:
        self.cut_is_at_a_block |= block.before == self.reader.cut
        for number, entry in enumerate(block.entries, block.before + 1):
            if why := fault_of(entry):
                yield f"entry {number}, in the block at {block.offset}: C{entry.gateway}, {why}"

    def pending(self) -> tuple[int, int]:
        """How many whole blocks stand behind the closed gate, and how many entries they have, whatever their gates are."""
        blocks, before = 0, self.reader.count
        while True:
            self.reader.file.seek(self.reader.gate)
            try:
                self.reader.behind(exactly(self.reader.file, HEAD))
            except Damaged:
                return blocks, self.reader.count - before
            blocks += 1


def look_behind(journal: Journal, size: int, report: Report) -> None:
    """Looks at what stands behind the closed gate."""
    gate = journal.reader.gate
    blocks, entries = journal.pending()
    if blocks:
        report.wrong(f"behind the closed gate at {gate}: {some(blocks, 'whole block')} with {some(entries, 'entry')} that "
                     f"{'doesn' if blocks == 1 else 'don'}'t count", f"    {mends.of_pending(blocks)}")
    elif size > gate + 1:
        print(f"behind the closed gate at {gate}: {some(size - gate - 1, 'byte')} of no whole block, as a write leaves that "
              "was broken off")


def look_at_blocks(name: str, file: BinaryIO, report: Report) -> Journal | None:
    """Looks at a journal's own bytes: what it has, or None where it is none."""
    pid, size = locks.holder(name), os.fstat(file.fileno()).st_size
    try:
        journal = Journal(file)
    except NotAJournal:
        report.wrong(f"header: {mends.NOT_A_JOURNAL}")
        return None
    if report.each(journal.faults()):
        print(f"    {mends.CHANGED}")
    reader = journal.reader
    print(f"version {reader.version}: {some(journal.blocks, 'block')} with {some(reader.count, 'entry')} and "
          f"{some(journal.snapshots, 'snapshot')}, and a gate at {reader.gate}")
    if journal.damage:
        report.wrong(f"fault 42 at {journal.damage.offset}: {journal.damage.why}",
                     f"    {mends.of_damage(name, journal.damage)}")
    elif pid is not None:
        print(f"in use by {locks.name_of(pid)}: what stands behind that gate isn't looked at")
    else:
        look_behind(journal, size, report)
    return journal


def look_at_snapshots(given: argparse.Namespace, journal: Journal, report: Report) -> None:
    """Looks at the snapshots, where there are any."""
    if not journal.snapshots:
        return
    false = false_snapshot(given.journal, symbols.needed(given.journal, given.symbols))
    if false is None:
        print("snapshots: each is that of the entries before it")
    else:
        report.wrong(f"snapshots: a false one at {false}", f"    {mends.FALSE}")


def look_at_log(given: argparse.Namespace, log: Log, behind: edge.Edge | None, report: Report) -> None:
    """Looks at a member's log. One that has none of its reports is another's, or of a form that isn't read."""
    replay = Replay(given.journal, log.member[:len("C1")], symbols.needed(given.journal, given.symbols))
    told = behind.logged(log.member, replay) if behind else iter(replay)
    with files.opened(log.path) as file:
        compared = Compared(told)
        if report.each(f"{log.path}: {line}" for line in compared.compare(reports(file, log.member, behind))):
            print(f"    {mends.LOGGED}")
    print(f"{log.member}: {some(compared.found, 'report')} of {log.path} as the journal tells them, which has "
          f"{compared.missed} more")
    if not compared.logged and compared.missed:
        report.wrong(f"{log.path}: it has no report of the venue to {log.member}",
                     "    Is it another member's log? For a member behind gikvand-edge give --edge, with the edge's settings")


def need_files(given: argparse.Namespace) -> None:
    """Stops before anything is looked at where a log, or what it takes to read one, isn't there."""
    (symbols.needed if given.logs else symbols.known)(given.journal, given.symbols)
    for log in given.logs:
        files.opened(log.path).close()


def run(given: argparse.Namespace) -> int:
    report = Report()
    if why := files.fault_of_name(given.journal):
        raise Trouble(why)
    with files.opened(given.journal) as file:
        need_files(given)
        behind = edge.needed(given.edge, [it.member for it in given.logs], given.journal)
        journal = look_at_blocks(given.journal, file, report)
    if journal and not journal.damage:
        look_at_snapshots(given, journal, report)
        for log in given.logs:
            look_at_log(given, log, behind, report)
        if (known := symbols.known(given.journal, given.symbols)) and (odd := symbols.strangers(given.journal, known)):
            print(f"symbols: {odd}")
    elif given.logs:
        print("no log is looked at")
    print(f"{given.journal}: {some(report.count, 'finding') if report.count else 'nothing is wrong'}")
    return 1 if report.count else 0
