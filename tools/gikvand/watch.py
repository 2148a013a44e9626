"""Looks at a venue once, from outside: its process, its journal, the room on its disk, and who is connected.

    gikvand watch JOURNAL                   in words
    gikvand watch JOURNAL --prometheus      as figures, for the textfile folder of node_exporter
    gikvand watch JOURNAL 9001              where the process's own words, which say the PORT, can't be read

The process is the venued that has the journal's lock. A member's row says how many connections its port has, how many wait
there to be let in, and how many bytes the served one hasn't taken. Commands and outputs are counted by venue-replay, which
reads the whole journal, some seconds for a million entries: --quick leaves them out, and so do symbols that aren't known. Where
the journal can't be read, as one that is damaged, they are left out too, and a line says why (journal_readable is 0).

The status is 0 where a venue serves, 1 where none does, and 2 where it can't be looked at.
"""
import argparse
import os
import time
from collections.abc import Iterator
from typing import NamedTuple

from gikvand import files, locks, symbols
from gikvand.ports import MOST_GATEWAYS, port_of
from gikvand.programs import Replay
from gikvand.words import Trouble, size, some, while_of

ESTABLISHED, LISTENS = "01", "0A"
TICK = os.sysconf("SC_CLK_TCK")


class Process(NamedTuple):
    """A venue that runs: its words, for how many seconds, its memory in bytes, and its threads."""
    pid: int
    words: list[str]
    seconds: float
    memory: int
    threads: int


class Socket(NamedTuple):
    """A row of the system's table of TCP."""
    port: int
    state: str
    sent: int
    came: int
    is_taken: bool  # Whether a process has it: one that waits to be let in belongs to none.


class Member(NamedTuple):
    """A member's port: its connections, how many others wait there still, and the bytes that the system holds for it and of it."""
    name: str
    port: int
    connections: int
    waiting: int
    unsent: int
    unread: int


class Seen(NamedTuple):
    """All that was seen."""
    journal: str
    process: Process | None
    size: int
    age: float
    room: int
    counts: tuple[int, int] | None
    fault: str  # Why they can't be counted, if that is so.
    members: list[Member]


def add_words(parser: argparse.ArgumentParser) -> None:
    parser.add_argument("journal", metavar="JOURNAL", help="the journal's file")
    parser.add_argument("port", metavar="PORT", nargs="?", type=port_of,
                        help="the venue's first port; that of its own words, if left out")
    parser.add_argument("--prometheus", action="store_true", help="figures for node_exporter, in place of words")
    parser.add_argument("--quick", action="store_true", help="don't count commands and outputs")
    symbols.add_option(parser)


def text_of(name: str) -> str:
    with open(name, encoding="utf-8", errors="replace") as file:
        return file.read()


def process_of(pid: int) -> Process | None:
    """What the system tells of a process, or None where it has ended."""
    try:
        words = text_of(f"/proc/{pid}/cmdline").rstrip("\0").split("\0")
        fields = text_of(f"/proc/{pid}/stat").rpartition(")")[2].split()
        status = dict(line.split(":", 1) for line in text_of(f"/proc/{pid}/status").splitlines() if ":" in line)
    except OSError:
        return None
    seconds = float(text_of("/proc/uptime").split()[0]) - int(fields[19]) / TICK
    memory = int(status.get("VmRSS", "0 kB").split()[0]) * 1024
    return Process(pid, words, max(0.0, seconds), memory, int(status.get("Threads", "0")))


def sockets() -> Iterator[Socket]:
    """The sockets of TCP on this machine's own addresses."""
    for line in text_of("/proc/net/tcp").splitlines()[1:]:
        row = line.split()
        unsent, unread = (int(it, 16) for it in row[4].split(":"))
        yield Socket(int(row[1].split(":")[1], 16), row[3], unsent, unread, row[9] != "0")


def ports_of(given: argparse.Namespace, process: Process | None) -> range:
    """The ports of a venue, by its own words or by the PORT that is given."""
    words = process.words if process else []
    own = [int(words[1]), int(words[3])] if len(words) > 4 and words[1].isdecimal() and words[3].isdecimal() else []
    if given.port is None and not own:
        return range(0)
    first, count = given.port or own[0], own[1] if own else MOST_GATEWAYS
    return range(first, first + count)


def members_at(ports: range) -> Iterator[Member]:
    """The members whose ports the venue listens on."""
    rows = [it for it in sockets() if it.port in ports]
    for number, port in enumerate(ports, 1):
        here = [it for it in rows if it.port == port]
        taken = [it for it in here if it.state == ESTABLISHED and it.is_taken]
        waiting = [it for it in here if it.state == ESTABLISHED and not it.is_taken]  # (the listener's queue has closed ones too)
        if any(it.state == LISTENS for it in here):
            yield Member(f"C{number}", port, len(taken), len(waiting), max((it.sent for it in taken), default=0),
                         max((it.came for it in taken), default=0))


def counts_of(given: argparse.Namespace) -> tuple[tuple[int, int] | None, str]:
    """Commands and outputs, where they are asked for and the symbols are known; and why they can't be counted, if that is so."""
    if given.quick:
        return None, ""
    try:
        kept = symbols.kept(given.journal)
    except Trouble as why:
        return None, str(why)
    if not (found := symbols.known(given.journal, given.symbols) if kept else given.symbols):
        return None, ""
    try:
        book = Replay(given.journal, "book", found)
        for _ in book:
            pass
    except Trouble as why:
        return None, str(why)
    except OSError as why:
        return None, f"the journal {given.journal} can't be read: {why.strerror}"
    return (book.commands, book.outputs), ""


def look(given: argparse.Namespace) -> Seen:
    it = os.stat(given.journal)
    files.need_regular(given.journal, it.st_mode)
    pid = locks.holder(given.journal)
    process = process_of(pid) if pid and locks.name_of(pid).startswith("venued") else None
    disk = os.statvfs(given.journal)
    members = list(members_at(ports_of(given, process))) if process else []
    return Seen(given.journal, process, it.st_size, max(0.0, time.time() - it.st_mtime), disk.f_bavail * disk.f_frsize,
                *counts_of(given), members)


def in_words(seen: Seen) -> Iterator[str]:
    it = seen.process
    if it:
        yield (f"{locks.name_of(it.pid)} serves {seen.journal} for {while_of(it.seconds)}, with {some(it.threads, 'thread')} and "
               f"{it.memory / 1e6:.1f} MB")
    else:
        yield f"nobody serves {seen.journal}"
    yield f"the journal has {size(seen.size)}, the newest block is {while_of(seen.age)} old, and {size(seen.room)} are free"
    if seen.fault:
        yield f"commands and outputs can't be counted: {seen.fault}"
    if seen.counts:
        yield f"{some(seen.counts[0], 'command')}, {some(seen.counts[1], 'output')}"
    for member in seen.members:
        yield (f"{member.name} at {member.port}: {some(member.connections, 'connection')}, {member.waiting} waiting, "
               f"{size(member.unsent)} not taken, {size(member.unread)} not read")


def figures(seen: Seen) -> Iterator[tuple[str, str, str, list[tuple[str, float]]]]:
    """Each figure: its name, its kind, what it is, and its values with their labels."""
    it = seen.process
    yield "up", "gauge", "Whether a process has the journal.", [("", int(bool(it)))]
    if it:
        yield "uptime_seconds", "gauge", "How long the process has run.", [("", round(it.seconds, 2))]
        yield "memory_bytes", "gauge", "The process's resident memory.", [("", it.memory)]
        yield "threads", "gauge", "The process's threads.", [("", it.threads)]
    yield "journal_bytes", "gauge", "The journal's length.", [("", seen.size)]
    yield "newest_block_age_seconds", "gauge", "The time since the journal was written to.", [("", round(seen.age, 2))]
    yield "disk_free_bytes", "gauge", "What may still be written on the journal's disk.", [("", seen.room)]
    if seen.counts or seen.fault:
        yield "journal_readable", "gauge", "Whether commands and outputs could be counted.", [("", int(not seen.fault))]
    if seen.counts:
        yield "commands_total", "counter", "The commands in the journal.", [("", seen.counts[0])]
        yield "outputs_total", "counter", "What they led to.", [("", seen.counts[1])]
    for name, what, value in (("member_connections", "Connections at a member's port.", lambda it: it.connections),
                              ("member_waiting", "Connections that wait at it.", lambda it: it.waiting),
                              ("member_unsent_bytes", "What the member hasn't taken.", lambda it: it.unsent),
                              ("member_unread_bytes", "What the venue hasn't read.", lambda it: it.unread)):
        if seen.members:
            yield name, "gauge", what, [(f'member="{it.name}"', value(it)) for it in seen.members]


def in_figures(seen: Seen) -> Iterator[str]:
    name_of_journal = seen.journal.replace("\\", r"\\").replace('"', r"\"").replace("\n", r"\n")
    for name, kind, what, values in figures(seen):
        yield f"# HELP gikvand_{name} {what}"
        yield f"# TYPE gikvand_{name} {kind}"
        for labels, value in values:
            yield f'gikvand_{name}{{journal="{name_of_journal}"{"," * bool(labels)}{labels}}} {value}'


def run(given: argparse.Namespace) -> int:
    seen = look(given)
    print("\n".join((in_figures if given.prometheus else in_words)(seen)))
    return 0 if seen.process else 1
