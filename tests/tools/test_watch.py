"""Tests of `gikvand why` and `watch`: each cause of a fault, beside what venued says of it, and a venue seen from
outside."""
import errno
import importlib
import io
import os
import resource
import socket
import subprocess
import time
from typing import BinaryIO, NamedTuple
from unittest import mock

import pytest

from days import each_version, made
from gikvand import journals
from made_journals import JOURNAL, SYMBOLS, as_nobody, cancel, contents, gikvand, put, with_byte
from venues import PATIENCE, REPLAY, VENUED, Client, await_that, order, started

pytestmark = [pytest.mark.slow, pytest.mark.usefixtures("programs")]


def causes(*words: object) -> tuple[int, list[str]]:
    """The status of `why`, and the causes that it names, without what mends them."""
    status, out, err = gikvand("why", *words)
    assert err == []
    return status, [line for line in out if not line.startswith("    ")]


def test_whys_of_names() -> None:
    """A folder, a link to nothing, what is no file, a missing folder, a file in the way of a new journal, and none of these."""
    os.mkdir("folder")
    os.symlink("nothing", "link")
    os.mkfifo("pipe")
    os.symlink("loop", "round")
    os.symlink("round", "loop")
    for name, cause in (("folder", "folder is a folder"), ("link", "link is a link to nothing"),
                        ("loop", "loop is a link that leads to itself"),
                        ("pipe", "pipe is neither a file nor missing"), ("none/venue.journal", "there is no folder none")):
        assert causes(name) == (1, [f"fault 41: {cause}"])
    for name, what in (("", "an empty name is none"), ("caf\udce9", "the name caf\udce9 isn't UTF-8, and the programs take no other")):
        assert causes(name) == (1, [f"the usage line: {what}"])
        assert subprocess.run([REPLAY, os.fsencode(name), "book", "ABC"], capture_output=True).returncode == 1
    put(f"{JOURNAL}.new", journals.empty())
    who = subprocess.run(["id", "-un"], capture_output=True, text=True).stdout.strip()
    assert causes(JOURNAL) == (0, [f"{JOURNAL}: nothing stands in the way, as {who}: it is missing, and is made at a start"])
    put(f"{JOURNAL}.symbols", b"ABC\n")
    assert causes(JOURNAL) == (1, [f"the service's line: {JOURNAL} is missing, and {JOURNAL}.symbols says that there was one"])
    os.remove(f"{JOURNAL}.symbols")
    put(f"{JOURNAL}.new", journals.empty() + b"\0")
    assert causes(JOURNAL) == (1, [f"fault 41: {JOURNAL}.new is in the way: it is more than an empty journal"])
    assert started_with(JOURNAL) == "venued: journal fault 41"
    os.remove(f"{JOURNAL}.new")
    for it in each_version():
        assert causes(JOURNAL) == (0, [f"{JOURNAL}: nothing stands in the way, as {who}: it opens"])


def started_with(journal: str) -> str:
    """What venued says that doesn't start on this journal."""
    ran = subprocess.run([VENUED, "-", journal, "1", *SYMBOLS], stdin=subprocess.DEVNULL, capture_output=True, text=True, timeout=PATIENCE)
    return (ran.stdout + ran.stderr).strip()


@pytest.mark.soak
def test_whys_of_a_lock() -> None:
    venue = started(JOURNAL, 1, SYMBOLS)
    assert causes(JOURNAL) == (1, [f"in use: venued (process {venue.process.pid}) has it, and each other start is fault 41"])
    assert started_with(JOURNAL) == "venued: journal fault 41"
    venue.stop()
    assert causes(JOURNAL)[0] == 0


def test_whys_of_rights() -> None:
    """Who may not read and write the file, or not make one in its folder, is told so."""
    os.chmod(".", 0o755)
    put(JOURNAL, made(3).data)
    put(f"{JOURNAL}.symbols", b"ABC XYZ\n", 0o644)
    importlib.import_module("gikvand.why")  # (the user nobody can read no module of a project below /root)
    if os.geteuid():
        os.chmod(JOURNAL, 0o444)
        assert [it.rpartition(": ")[2] for it in causes(JOURNAL)[1]] == ["Permission denied"]
        return
    os.chmod(JOURNAL, 0o600)
    with as_nobody():
        assert [it.rpartition(": ")[2] for it in causes(JOURNAL)[1]] == ["Permission denied"]
        status, found = causes("other.journal")
        assert (status, [" may not make files in ." in it for it in found]) == (1, [True])
    os.mkdir("closed", 0o700)
    with as_nobody():
        for name in (JOURNAL, "none"):
            assert [it.partition(" may not ")[2] for it in causes(f"closed/{name}")[1]] == [f"look for closed/{name}"]
    os.chmod(".", 0o711)
    os.chmod(JOURNAL, 0o666)
    with as_nobody():
        assert any("the folder . can't be read" in it for it in causes(JOURNAL)[1])


class Room(NamedTuple):
    """What a full disk says of itself, in the place of os.statvfs."""
    f_bavail: int = 10 ** 9
    f_frsize: int = 1
    f_flag: int = 0
    f_files: int = 10
    f_favail: int = 10


def test_whys_of_a_machine() -> None:
    """A disk that takes no writes, no room for a file, too few open files, and a device that doesn't read."""
    data = made(3).data
    put(JOURNAL, data)
    put(f"{JOURNAL}.symbols", b"ABC XYZ\n")
    cases = [(Room(f_flag=os.ST_RDONLY), JOURNAL, f"the file system of {JOURNAL} takes no writes"),
             (Room(f_favail=0), "new.journal", "the file system of . has no room for a further file")]
    for room, name, cause in cases:
        with mock.patch.object(os, "statvfs", lambda _, room=room: room):
            assert causes(name) == (1, [f"fault 41: {cause}"])
    real = importlib.import_module("gikvand.why").refusal
    with mock.patch.object(importlib.import_module("gikvand.why"), "refusal",
                           lambda path, flags: "No such file" if path == "/dev/null" else real(path, flags)):
        assert causes(JOURNAL) == (1, ["fault 41: there is no /dev/null to open"])
    few = resource.getrlimit(resource.RLIMIT_NOFILE)
    with mock.patch.object(resource, "getrlimit", lambda _: (7, few[1])):
        assert causes(JOURNAL) == (1, ["fault 41: a process may open 7 files here, and 8 are needed"])
    start = made(3).starts[2]
    def failing(file: BinaryIO, size: int) -> bytes:
        if file.tell() >= start:
            raise OSError(errno.EIO, os.strerror(errno.EIO))
        return file.read(size)
    with mock.patch.object(importlib.import_module("gikvand.journals"), "exactly", failing):
        assert causes(JOURNAL) == (1, [f"fault 41: the device doesn't read {JOURNAL}, near byte {start}: Input/output error"])
    assert contents(JOURNAL) == data


def test_whys_of_a_full_disk() -> None:
    """A start wants room for a missing journal, and for a snapshot that is due; else an order ends the venue, which is told."""
    order = next(iter(journals.Reader(io.BytesIO(made(3).data)))).entries[0]

    def of(version: int, size: int, more: bytes = b"") -> bytes:
        return journals.header(version) + journals.in_blocks(version, [order] * size, 100) + more + journals.CLOSED
    snapshot = journals.snapshot_block((500).to_bytes(8, "big") + bytes(journals.SNAPSHOT_HEAD - 8))
    behind = journals.in_blocks(3, [order] * 999, 100)
    free = f"1000 bytes are free on the disk of {JOURNAL}"
    later = f"journal failed: {free}: it opens, and an order that finds no room ends the venue"
    due = f"fault 41: {free}, and the snapshot that is due may need 200000"
    cases = [(of(3, 999), later), (of(3, 1000), due), (of(2, 1000), later), (of(1, 1000), later), (of(3, 500, snapshot + behind), later),
             (of(3, 500, snapshot + behind + journals.block_of(3, [order])), due)]
    with mock.patch.object(os, "statvfs", lambda _: Room(f_bavail=1000)):
        for data, line in cases:
            put(JOURNAL, data)
            found = causes(JOURNAL)
            assert (found[0], [it for it in found[1] if "weren't compared" not in it]) == (1, [line])
        assert causes("new.journal") == (1, [later.replace(JOURNAL, "new.journal")])
    with mock.patch.object(os, "statvfs", lambda _: Room(f_bavail=16)):
        assert causes("new.journal") == (1, ["fault 41: 16 bytes are free on the disk of new.journal, and an empty journal has 17"])


def test_whys_of_bytes() -> None:
    """Which block is damaged, and how; what is no journal; and a snapshot that isn't true. venued says the same."""
    for it in each_version():
        for number, start in enumerate(it.starts[:3]):
            for data, words in ((it.data[:start], "the file ends where a gate should be"),
                                (it.data[:start + 20], "the file ends within a block, which has "),
                                (with_byte(it.data, start + 1, 255), "no block has a length of "),
                                (with_byte(it.data, start + 5 + (it.version == 3), 9), "record 1 has the gateway 9")):
                status, found = causes(put(JOURNAL, data))
                line = f"fault 42 at {start}: block {number + 1}, behind {number} entr{'y' if number == 1 else 'ies'}: {words}"
                assert (status, [cause[:len(line)] for cause in found]) == (1, [line])
                assert started_with(JOURNAL) == f"venued: journal fault 42 at {start}"
        assert causes(put(JOURNAL, it.data[:7])) == (1, [f"fault 43: {JOURNAL} is no journal"])
    snapshot = journals.read(made(3).data).snapshots[0]
    false = with_byte(made(3).data, snapshot.offset + 6 + 15, 99)
    assert causes(put(JOURNAL, false)) == (1, [f"false snapshot at {snapshot.offset}: it isn't that of the entries before it"])
    assert started_with(JOURNAL) == f"venued: false snapshot at {snapshot.offset}"
    os.remove(f"{JOURNAL}.symbols")
    assert [it.split(":")[0] for it in causes(JOURNAL)[1]] == ["its snapshots weren't compared", JOURNAL]


@pytest.mark.usefixtures("journal")
def test_words_of_why_and_watch() -> None:
    of_both = f"the journal {JOURNAL} is one of ABC XYZ, as {JOURNAL}.symbols says, and not of XYZ"
    cases = [(["why"], None),
             (["why", JOURNAL, "more"], None),
             (["why", JOURNAL, "--symbols", "XYZ"], of_both),
             (["watch"], None),
             (["watch", JOURNAL, "0"], None),
             (["watch", JOURNAL, "65529"], None),
             (["watch", JOURNAL, "x"], None),
             (["watch", "missing"], "missing: No such file or directory"),
             (["watch", "."], ".: Is a directory"),
             (["watch", "/dev/null"], "/dev/null is no file, but a pipe or a device"),
             (["watch", JOURNAL, "--symbols", "XYZ"], of_both)]
    for words, line in cases:
        status, _, err = gikvand(*words)
        assert (words, status, err[-1:] if line else bool(err)) == (words, 2, [f"gikvand {words[0]}: {line}"] if line else True)


def figures_of(lines: list[str]) -> dict[str, float]:
    """The figures in a text for Prometheus. Each has its help and its kind above it: what only rises is a counter."""
    found, known = {}, set()
    for line in lines:
        if line.startswith("# "):
            known.add(tuple(line.split()[1:3]))
            continue
        name, value = line.rsplit(" ", 1)
        bare = name.partition("{")[0]
        assert {("HELP", bare), ("TYPE", bare)} <= known
        assert f"# TYPE {bare} {'counter' if bare.endswith('_total') else 'gauge'}" in lines
        found[name.replace(f'journal="{JOURNAL}"', "").replace("{,", "{").replace("{}", "")] = float(value)
    return found


@pytest.mark.soak
def test_a_venue_watched() -> None:
    """Its process, journal and members, in words and as figures: who is connected, who waits, and what isn't taken."""
    put(f"{JOURNAL}.symbols", b"ABC\n")
    put(JOURNAL, journals.empty())
    status, out, err = gikvand("watch", JOURNAL)
    assert (status, out[0], out[2:], err) == (1, f"nobody serves {JOURNAL}", ["0 commands, 0 outputs"], [])
    venue = started(JOURNAL, 2)
    one = Client(venue.port, 1).log_on()
    one.send("D", order(1, 1, 5, 50))
    one.next()
    waiting = [Client(venue.port, 1) for _ in range(3)]
    mine, other = '{member="C1"}', '{member="C2"}'
    quick = ["watch", JOURNAL, "--prometheus", "--quick"]

    def there() -> float:
        """How many are connected to C1, or wait."""
        found = figures_of(gikvand(*quick)[1])
        return found[f"gikvand_member_connections{mine}"] + found[f"gikvand_member_waiting{mine}"]
    await_that("all four are there", lambda: there() == 4)
    status, out, err = gikvand("watch", JOURNAL)
    size = os.path.getsize(JOURNAL)
    assert (status, err, out[0].startswith(f"venued (process {venue.process.pid}) serves {JOURNAL} for "), out[2]) == (
        0, [], True, "1 command, 1 output")
    assert out[1].startswith(f"the journal has {size} bytes, the newest block is ")
    assert [out[3].split(",")[0].split(" at ")[0], out[4]] == (
        ["C1", f"C2 at {venue.port + 1}: 0 connections, 0 waiting, 0 bytes not taken, 0 bytes not read"])
    found = figures_of(gikvand("watch", JOURNAL, "--prometheus")[1])
    assert [found[f"gikvand_{it}"] for it in ("up", "journal_bytes", "commands_total", "outputs_total", "threads")] == (
        [1, size, 1, 1, 7])
    assert found[f"gikvand_member_connections{mine}"] + found[f"gikvand_member_waiting{mine}"] == 4
    assert (found[f"gikvand_member_connections{mine}"] >= 1, found[f"gikvand_member_waiting{mine}"] >= 2) == (True, True)
    assert [found[f"gikvand_member_{it}{other}"] for it in ("connections", "waiting", "unsent_bytes", "unread_bytes")] == [0] * 4
    assert "gikvand_commands_total" not in figures_of(gikvand("watch", JOURNAL, "--prometheus", "--quick")[1])
    await_that("both ways say the same", lambda: gikvand("watch", JOURNAL, venue.port)[1][3:] == gikvand("watch", JOURNAL)[1][3:])
    assert [it.split(":")[0] for it in gikvand("watch", JOURNAL, venue.port + 1)[1][3:]] == [f"C1 at {venue.port + 1}"]
    with open(f"/proc/{venue.process.pid}/status", encoding="ascii") as file:
        resident = next(int(line.split()[1]) for line in file if line.startswith("VmRSS:"))
    memory = figures_of(gikvand("watch", JOURNAL, "--prometheus")[1])["gikvand_memory_bytes"]
    assert (memory % 1024, 0.98 < memory / (1024 * resident) < 1.02) == (0, True)
    for it in (one, *waiting):
        it.close()
    deaf = Client(venue.port, 2)
    deaf.socket.setsockopt(socket.SOL_SOCKET, socket.SO_RCVBUF, 4096)
    deaf.log_on()
    for name in range(1, 3000):
        deaf.send("F", cancel(name, 10 ** 9, 1, 5))
    await_that("reports aren't taken", lambda: figures_of(gikvand(*quick)[1])[f"gikvand_member_unsent_bytes{other}"] > 1000)
    assert figures_of(gikvand(*quick)[1])[f"gikvand_member_connections{other}"] == 1
    deaf.close()
    venue.stop()
    found = figures_of(gikvand("watch", JOURNAL, "--prometheus")[1])
    assert (found["gikvand_up"], [it for it in found if "member" in it]) == (0, [])


@pytest.mark.soak
def test_closed_connections_watched() -> None:
    """Who waited at a port, and has closed the connection, waits no more, though the port still has it."""
    put(f"{JOURNAL}.symbols", b"ABC\n")
    venue = started(JOURNAL, 1)
    one = Client(venue.port, 1).log_on()
    waiting = [Client(venue.port, 1) for _ in range(4)]

    def seen() -> tuple[float, float]:
        found = figures_of(gikvand("watch", JOURNAL, "--prometheus", "--quick")[1])
        return found['gikvand_member_connections{member="C1"}'], found['gikvand_member_waiting{member="C1"}']
    await_that("four wait", lambda: sum(seen()) == 5)
    for it in waiting[1:]:
        it.close()
    await_that("one of them waits", lambda: sum(seen()) == 2)
    watch = importlib.import_module("gikvand.watch")
    assert next(it.came for it in watch.sockets() if (it.port, it.state) == (venue.port, watch.LISTENS)) >= 3
    waiting[0].close()
    await_that("none waits", lambda: seen() == (1, 0))
    assert f"C1 at {venue.port}: 1 connection, 0 waiting, " in gikvand("watch", JOURNAL)[1][-1]
    one.send("D", order(1, 1, 5, 50))
    one.next()
    venue.stop()


def test_damaged_journals_watched() -> None:
    """Where the journal or its symbols can't be read a look has all else, and says why."""
    data = made(3).data
    fault = f"journal fault 42 at {made(3).starts[-1]}"
    cases = [(data[:-9], b"ABC XYZ\n", fault), (b"no journal", b"ABC XYZ\n", "journal fault 43"),
             (data, b"no symbols\n", "isn't a line of one to 8 different symbols")]
    for journal, kept, words in cases:
        put(JOURNAL, journal)
        put(f"{JOURNAL}.symbols", kept)
        status, out, err = gikvand("watch", JOURNAL)
        assert (status, out[0], err) == (1, f"nobody serves {JOURNAL}", [])
        assert (out[2].startswith("commands and outputs can't be counted: "), words in out[2]) == (True, True)
        found = figures_of(gikvand("watch", JOURNAL, "--prometheus")[1])
        assert (found["gikvand_journal_readable"], found["gikvand_journal_bytes"], "gikvand_commands_total" in found) == (
            0, len(journal), False)
        assert "gikvand_journal_readable" not in figures_of(gikvand("watch", JOURNAL, "--prometheus", "--quick")[1])
    put(f"{JOURNAL}.symbols", b"ABC XYZ\n")
    assert figures_of(gikvand("watch", JOURNAL, "--prometheus")[1])["gikvand_journal_readable"] == 1


@pytest.mark.soak
def test_a_venue_watched_without_symbols() -> None:
    """A venue whose symbols can't be read is one that serves."""
    venue = started(put("other.journal", made(3).data), 1, SYMBOLS)
    put("other.journal.symbols", b"?\n")
    assert [line.split(" for ")[0] for line in gikvand("watch", "other.journal")[1][:1]] == (
        [f"venued (process {venue.process.pid}) serves other.journal"])
    venue.stop()


def test_figures_of_a_disk() -> None:
    """Root's reserve is no room, the age is that of the bytes, and a name's quotes are escaped."""
    name = 'a"b\\c.journal'
    put(name, made(3).data)
    os.utime(name, (0, 1_000_000))
    disk = Room(f_bavail=7, f_frsize=4096)
    with mock.patch.object(os, "statvfs", lambda _: mock.Mock(f_bavail=disk.f_bavail, f_bfree=9, f_frsize=4096, f_bsize=8192)), \
            mock.patch.object(time, "time", lambda: 1_004_980.0):
        _, out, _ = gikvand("watch", name, "--quick", "--prometheus")
        _, words, _ = gikvand("watch", name, "--quick")
    label = '{journal="a\\"b\\\\c.journal"}'
    assert f"gikvand_disk_free_bytes{label} {7 * 4096}" in out
    assert f"gikvand_newest_block_age_seconds{label} 4980.0" in out
    assert words[1:] == [f"the journal has {len(made(3).data)} bytes, the newest block is 83 min old, and 28672 bytes are free"]


def test_holders_of_locks() -> None:
    """Who has a lock on a file of the same number on another device isn't the holder. One is a command of gikvand by its words, and
    a venue whose journal has that name is none."""
    put(JOURNAL, journals.empty())
    it = os.stat(JOURNAL)
    own, other = (f"{os.major(it.st_dev):02x}:{number:02x}" for number in (os.minor(it.st_dev), os.minor(it.st_dev) + 1))
    locks = importlib.import_module("gikvand.locks")
    for where, holder in ((own, 1), (other, None)):
        with mock.patch.object(locks, "rows_of", lambda _, where=where: [(1, where)]), \
                mock.patch.object(locks, "has_open", lambda *_: False):
            assert (where, locks.holder(JOURNAL)) == (where, holder)
    for words, command in ((["python3", "/usr/bin/gikvand", "follow", "J"], "follow"),
                           (["/usr/bin/python3.12", "-S", "-m", "gikvand", "why"], "why"), (["python3", "gikvand"], None),
                           (["venued", "9001", "/srv/gikvand", "2", "ABC"], None), ([""], None), ([], None)):
        with mock.patch.object(locks, "own_words", lambda _, words=words: words):
            assert (words, locks.command_of(1)) == (words, command)


def test_words_of_figures() -> None:
    """Sizes and times as people say them."""
    words = importlib.import_module("gikvand.words")
    assert [words.size(it) for it in (0, 1, 999_999, 1_000_000, 52_428_800_000, 3 * 10 ** 12)] == (
        ["0 bytes", "1 byte", "999999 bytes", "1.0 MB", "52.4 GB", "3.0 TB"])
    assert [words.while_of(it) for it in (0, 119, 120, 7199, 7200, 172_799, 172_800)] == (
        ["0 s", "119 s", "2 min", "120 min", "2 h", "48 h", "2 days"])
