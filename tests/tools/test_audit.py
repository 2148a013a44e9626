"""Tests of `gikvand audit`: what its log has of each block, and what it finds of a journal that was changed."""
import ctypes
import datetime
import errno
import fcntl
import hashlib
import importlib
import os
import re
import signal
import struct
import subprocess
import time
from collections.abc import Callable
from typing import BinaryIO
from unittest import mock

import pytest

from days import each_version, made
from gikvand import clock, journals
from gikvand.follow import Source
from gikvand.words import sure
from made_journals import JOURNAL, contents, gikvand, put, untimed, with_byte
from running_tools import Tool
from venues import PATIENCE, Client, Trouble, await_that, order, started

pytestmark = [pytest.mark.slow, pytest.mark.usefixtures("programs")]

LOG = "the.log"
LINE = re.compile(r"(\S+Z) (came|stood) (synchronized|unsynchronized|unknown) (\d+|-) (\d+) (\d+) ([0-9a-f]{64})")


# `gikvand` where the system tells nothing of writes.
UNTOLD = "import sys; from gikvand import clock, main; clock.libc.inotify_init1 = lambda _: -1; sys.exit(main.main())"


class Auditor(Tool):
    """`gikvand audit`, in a session of its own."""

    def __init__(self, journal: str = JOURNAL, tells: bool = True) -> None:
        super().__init__("-S", *(["-m", "gikvand"] if tells else ["-c", UNTOLD]), "audit", journal, LOG, is_apart=True)

    def end(self, number: int = signal.SIGTERM) -> tuple[int, str, str]:
        """Its status, its last line and what it said on standard error, where it gets this signal."""
        self.process.send_signal(number)
        return self.ended()

    def ended(self) -> tuple[int, str, str]:
        out, err = self.process.communicate(timeout=PATIENCE)
        return self.process.returncode, (out.splitlines() or [""])[-1], err


def lines() -> list[tuple[str, ...]]:
    """The words of each whole line that the log has."""
    whole = contents(LOG).decode().rpartition("\n")[0].splitlines()
    return [sure(LINE.fullmatch(line)).groups() for line in whole if not line.startswith("#")]


def sums_of(data: bytes) -> list[tuple[str, str, str]]:
    """Bytes, commands and sum behind each block of a journal, by its bytes alone."""
    found = [(it.offset + len(it.data), it.before + len(it.entries)) for it in journals.Reader(open_of(data))]
    return [(str(size), str(count), hashlib.sha256(data[:size]).hexdigest()) for size, count in found]


def open_of(data: bytes) -> BinaryIO:
    return open(put("of.sums", data), "rb")


def audited(data: bytes, blocks: list[int]) -> None:
    """Lets the journal grow by its blocks one behind the other, from the first of these gates on, while it is audited."""
    put(JOURNAL, data[:blocks[0]] + b"\0")
    it = Auditor().has_begun()
    for number, end in enumerate(blocks[1:], 2):
        with open(JOURNAL, "r+b") as file:
            os.pwrite(file.fileno(), data[blocks[number - 2] + 1:end] + b"\0", blocks[number - 2] + 1)
            os.pwrite(file.fileno(), b"\1", blocks[number - 2])
        await_that("a line came", lambda: len(lines()) == number)
    status, line, err = it.end()
    assert (status, err) == (0, "")
    assert untimed(line).endswith(f" of {JOURNAL}, ended by a signal")


def logged(data: bytes, *ends: int) -> None:
    """Keeps a log of a journal that ends at one of these gates after the other. Each run of `gikvand audit` ends once it has caught up."""
    for end in ends:
        put(JOURNAL, data[:end] + b"\0")
        with mock.patch.object(importlib.import_module("gikvand.audit"), "keep_on"):
            assert gikvand("audit", JOURNAL, LOG)[0] == 0


@pytest.mark.soak
def test_blocks_as_they_come() -> None:
    """Each block has a line once it came, with the time, and the bytes, commands and sum of all up to it."""
    for it in each_version():
        ends = [*it.starts[1:], len(it.data) - 1]
        before = time.time()
        audited(it.data, [it.starts[0], *ends])
        found = lines()
        head = journals.header(it.version)
        assert [row[4:] for row in found] == [(str(len(head)), "0", hashlib.sha256(head).hexdigest()), *sums_of(it.data)]
        assert [row[1] for row in found] == ["stood", *["came"] * len(ends)]
        times = [datetime.datetime.strptime(row[0], "%Y-%m-%dT%H:%M:%S.%fZ").replace(tzinfo=datetime.timezone.utc).timestamp()
                 for row in found]
        assert (times == sorted(times), before - 1 < times[0], times[-1] < time.time() + 1) == (True, True, True)
        assert oct(os.stat(LOG).st_mode & 0o777) == "0o600"
        assert gikvand("audit", JOURNAL, LOG, "--check")[0] == 0
        size = found[-1][4]
        shell = subprocess.run(f"head -c {size} {JOURNAL} | sha256sum", shell=True, capture_output=True, text=True)
        assert shell.stdout.split()[0] == found[-1][6]
        os.remove(LOG)


@pytest.mark.soak
def test_blocks_at_once() -> None:
    """Of blocks that come within one look each has its line."""
    for it in each_version():
        ends = [*it.starts, len(it.data) - 1]
        put(JOURNAL, it.data[:ends[0]] + b"\0")
        auditor = Auditor().has_begun()
        with open(JOURNAL, "r+b") as file:
            os.pwrite(file.fileno(), it.data[ends[0] + 1:], ends[0] + 1)
            os.pwrite(file.fileno(), b"\1", ends[0])
        await_that("a line of the last came", lambda: lines()[-1][4] == str(ends[-1]))
        assert (auditor.end()[0], [row[4:] for row in lines()[1:]]) == (0, sums_of(it.data))
        os.remove(LOG)


def test_goes_on() -> None:
    """A later start has a line for what came meanwhile, and none where nothing did; half a line at the end is taken away."""
    it = made(3)
    gate, last = it.starts[2], len(it.data) - 1
    logged(it.data, gate, gate)
    assert len(lines()) == 1
    before = contents(LOG)
    for half in (b"", b"2", before.splitlines()[-1][:-1]):
        put(LOG, before + half)
        logged(it.data, last)
        assert (contents(LOG).startswith(before), len(lines()), lines()[-1][1]) == (True, 2, "stood")


@pytest.mark.soak
def test_goes_on_behind_a_signal() -> None:
    """Both signals end an audit in order, and the next one goes on in the same log."""
    day = made(3)
    put(JOURNAL, day.data[:day.starts[2]] + b"\0")
    for number in (signal.SIGTERM, signal.SIGINT):
        assert Auditor().has_begun().end(number)[0] == 0
    assert len(lines()) == 1
    put(JOURNAL, day.data)
    assert Auditor().has_begun().end()[0] == 0
    assert [row[1] for row in lines()] == ["stood", "stood"]


def test_changed_journals() -> None:
    """Each byte that was changed is found, between which lines it stands; so is a journal that is shorter than the log says."""
    it = made(3)
    ends = [*it.starts, len(it.data) - 1]
    logged(it.data, *ends)
    sizes = [int(row[4]) for row in lines()]
    for at in range(len(it.data) - 1):
        put(JOURNAL, with_byte(it.data, at, it.data[at] ^ 1))
        status, out, err = gikvand("audit", JOURNAL, LOG, "--check")
        if at < 16:  # (the header)
            assert (at, status in (1, 2), len(out + err)) == (at, True, 1)
            continue
        number = next(number for number, size in enumerate(sizes) if at < size)
        assert (at, status, [line.startswith(f"{LOG}, line {number + 2}, of ") for line in out], err) == (at, 1, [True], [])
        if "some are others now" in out[0]:
            assert (at, out[0].endswith(f" behind the byte {sizes[number - 1]}")) == (at, True)
    for data in (it.data[:ends[-2]] + b"\0", it.data[:ends[-2]], it.data[:40]):
        put(JOURNAL, data)
        for words in (("--check",), ()):
            status, out, _ = gikvand("audit", JOURNAL, LOG, *words)
            assert (len(data), status, len(out)) == (len(data), 1, 1)
            if data[-1:] == b"\0":
                assert out[0].endswith(f"{JOURNAL} ends at {ends[-2]}, and had {ends[-1]} bytes: is it an older copy?")
    put(JOURNAL, it.data + b"what a write left")
    assert gikvand("audit", JOURNAL, LOG, "--check")[0] == 0


@pytest.mark.soak
def test_changed_while_it_goes_on() -> None:
    """A journal that is cut, replaced, gone or written over while it is followed ends it, and so does a log that goes."""
    data = made(3).data
    def turned() -> None:
        with open(JOURNAL, "r+b") as file:  # (a file that is written anew is empty for a moment)
            os.pwrite(file.fileno(), bytes([data[-9] ^ 1]), len(data) - 9)
    for change, status, words in ((lambda: os.truncate(JOURNAL, 100), 1, f"{JOURNAL} was changed before the byte "),
                                  (turned, 1, f"{JOURNAL} was changed before the byte "),
                                  (lambda: os.replace(put("other", data), JOURNAL), 2, "gikvand audit: "),
                                  (lambda: os.remove(JOURNAL), 2, "gikvand audit: "),
                                  (lambda: os.remove(LOG), 2, f"gikvand audit: {LOG} isn't the file any more that it was: "),
                                  (lambda: os.rename(LOG, "moved"), 2, f"gikvand audit: {LOG} isn't the file any more that it was: ")):
        put(JOURNAL, data)
        it = Auditor().has_begun()
        change()
        came, line, err = it.ended()
        assert (came, (line + err)[:len(words)] if status == 2 else line[:len(words)]) == (status, words)
        if os.path.exists(LOG):
            os.remove(LOG)


@pytest.mark.soak
def test_damage_behind_blocks() -> None:
    """Blocks that come in one go with damage behind them have their lines, and then the damage is told."""
    it = made(3)
    first, damaged = it.starts[0], it.starts[-1]
    put(JOURNAL, it.data[:first] + b"\0")
    auditor = Auditor().has_begun()
    with open(JOURNAL, "r+b") as file:
        os.pwrite(file.fileno(), it.data[first + 1:damaged + 1] + b"\xff" * 9, first + 1)
        os.pwrite(file.fileno(), journals.OPEN, first)
    status, _, err = auditor.ended()
    assert (status, err.startswith(f"gikvand audit: {JOURNAL} is damaged at {damaged}: ")) == (2, True)
    assert [row[4:] for row in lines()[1:]] == sums_of(it.data)[:-1]


def test_a_signal_as_it_begins() -> None:
    """A signal that comes while what stands there is read ends that, and all: what was read has its line."""
    it = made(3)
    put(JOURNAL, it.data)
    looks = iter([True, *100 * [False]])
    def signalled(_: float) -> bool:
        if (came := next(looks, None)) is None:
            raise Trouble("the signal was lost")
        return came
    with mock.patch.object(importlib.import_module("gikvand.audit"), "has_signal", signalled):
        status, out, err = gikvand("audit", JOURNAL, LOG)
    assert (status, len(out), out[-1].endswith(", ended by a signal"), err) == (0, 2, True, [])
    assert [row[1] + row[4] for row in lines()] == [f"stood{it.starts[1]}"]


def test_a_signal_while_it_compares() -> None:
    """A signal that comes while the log is compared ends that, and the log stays as it was."""
    it = made(3)
    logged(it.data, len(it.data) - 1)
    before = contents(LOG)
    looks = iter([False, True])
    with mock.patch.object(importlib.import_module("gikvand.audit"), "has_signal", lambda _: next(looks)):
        status, out, err = gikvand("audit", JOURNAL, LOG)
    assert (status, untimed(out[-1]), err) == (0, f"{LOG}: ended by a signal, while it was compared", [])
    assert (len(out), contents(LOG)) == (1, before)


def test_changed_behind_a_look() -> None:
    """A journal that is cut right behind a look at its bytes was changed as well, whatever is looked at next."""
    put(JOURNAL, made(3).data)
    check = Source.check
    def cut(source: Source) -> None:
        os.truncate(JOURNAL, 100)
        check(source)
    with mock.patch.object(Source, "check", cut):
        status, out, err = gikvand("audit", JOURNAL, LOG)
    assert (status, out[-1].startswith(f"{JOURNAL} was changed before the byte "), err) == (1, True, [])


def test_calls_of_a_log() -> None:
    """A line is written once the journal is on its device, and synced before the next look; the log's folder is synced, too."""
    put(JOURNAL, made(3).data)
    calls: list[str] = []
    def name(fd: int) -> str:
        return os.path.basename(os.readlink(f"/proc/self/fd/{fd}"))
    def writes(fd: int, data: bytes) -> int:
        calls.append(f"write {name(fd)}")
        return WRITE(fd, data[:max(1, len(data) // 2)])
    def syncs(fd: int) -> None:
        if calls[-1:] != [f"sync {name(fd)}"]:
            calls.append(f"sync {name(fd)}")
    folder, looks = os.path.basename(os.getcwd()), iter(range(1000))
    with mock.patch.multiple(os, write=writes, fdatasync=syncs, fsync=syncs), \
            mock.patch.object(importlib.import_module("gikvand.audit"), "has_signal",
                              lambda _: calls.count(f"sync {LOG}") > 1 or next(looks) > 20):
        assert gikvand("audit", JOURNAL, LOG)[0] == 0
    once = [it for at, it in enumerate(calls) if calls[at - 1:at] != [it]]
    assert once == [f"write {LOG}", f"sync {LOG}", f"sync {folder}", f"sync {JOURNAL}", f"write {LOG}", f"sync {LOG}"]
    assert len(lines()) == 1


def test_logs_that_take_nothing_more() -> None:
    """Of lines that can't all be written none stays, and the line says which file it is; later it goes on."""
    put(JOURNAL, made(3).data)
    def writes(fd: int, data: bytes) -> int:
        if data.startswith(b"#"):
            return WRITE(fd, data)
        if len(data) < 50:
            raise OSError(errno.ENOSPC, os.strerror(errno.ENOSPC))
        return WRITE(fd, data[:60])
    with mock.patch.object(os, "write", writes):
        assert gikvand("audit", JOURNAL, LOG) == (2, [], [f"gikvand audit: {LOG} can't be written: No space left on device. "
                                                          "What stands in it is whole"])
    assert (contents(LOG).startswith(b"#") and contents(LOG).count(b"\n") == 1 and contents(LOG).endswith(b"\n")) == True
    logged(made(3).data, len(made(3).data) - 1)
    assert len(lines()) == 1


WRITE = os.write


def test_states_of_the_clock() -> None:
    """The clock's state is what adjtimex says: whether something sets it, and its greatest error."""
    def saying(answer: int, status: int, error: int) -> Callable[[ctypes.Array], int]:
        def adjtimex(words: ctypes.Array) -> int:
            struct.pack_into("iqqqqi", words, 0, 0, 0, 0, error, 5, status)
            return answer
        return adjtimex
    for answer, status, error, wanted in ((0, 0, 77, "synchronized 77"), (0, 0x2001, 0, "synchronized 0"),
                                          (0, 0x40, 9, "unsynchronized 9"), (5, 0, 16000000, "unsynchronized 16000000"),
                                          (-1, 0, 0, "unknown -")):
        with mock.patch.object(clock, "libc", mock.Mock(adjtimex=saying(answer, status, error))):
            assert (answer, status, clock.state()) == (answer, status, wanted)
    assert re.fullmatch(r"(un)?synchronized \d+|unknown -", clock.state())


@pytest.mark.soak
def test_audited_in_use() -> None:
    """Of a venue in use each order has its line within a moment, also where the system tells nothing of writes."""
    for tells in (True, False):
        put(f"{JOURNAL}.symbols", b"ABC\n")
        venue = started(JOURNAL, 1)
        it = Auditor(tells=tells).has_begun()
        client = Client(venue.port, 1).log_on()
        for number in range(1, 20):
            client.send("D", order(number, 1 + number % 2, 5, 50))
            client.next()
            await_that("its line is there", lambda: lines()[-1][5] == str(number))
        client.close()
        venue.stop()
        assert (it.end()[0], gikvand("audit", JOURNAL, LOG, "--check")[0]) == (0, 0)
        os.remove(JOURNAL)
        os.remove(LOG)


def test_words_of_audit() -> None:
    put(JOURNAL, made(3).data)
    put("text", b"no log\n")
    put("nothing", b"")
    put("begun", b"# time (UTC)\n2026-11-28T04:55:12")
    size, count, digest = sums_of(made(3).data)[-1]
    put("back", "".join(f"2026-11-28T04:55:12.586486Z came unknown - {it} {count} {digest}\n" for it in (size, 9)).encode())
    put("damaged", made(3).data[:-9])
    os.mkfifo("pipe")
    cases: list[tuple[list[str], str | None]] = [
        ([], None), ([JOURNAL], None), ([JOURNAL, "text", "more"], None),
        (["missing", LOG], "missing: No such file or directory"),
        (["text", LOG], "text: it doesn't begin with the header of a journal of version 1, 2 or 3 (fault 43): is the name right?"),
        ([JOURNAL, "text"], "text: line 1 is none of a log by gikvand audit"),
        ([JOURNAL, JOURNAL], f"{JOURNAL}: line 1 is none of a log by gikvand audit"),
        ([JOURNAL, "missing", "--check"], "missing: No such file or directory"),
        ([JOURNAL, "nothing", "--check"], "nothing has no line to compare with"),
        ([JOURNAL, "begun", "--check"], "begun has no line to compare with"),
        ([JOURNAL, "pipe"], "pipe is no file, but a pipe or a device"),
        ([JOURNAL, "none/log"], "none/log can't be written: No such file or directory"),
        (["pipe", LOG], "pipe is no file, but a pipe or a device"),
        ([JOURNAL, "back", "--check"], "back: line 2 is none of a log by gikvand audit"),
        (["damaged", LOG], None)]
    for words, line in cases:
        status, _, err = gikvand("audit", *words)
        assert (words, status, err[-1:] if line else bool(err)) == (words, 2, [f"gikvand audit: {line}"] if line else True)
    assert (contents(JOURNAL) == made(3).data, contents("text")) == (True, b"no log\n")
    put(LOG, b"")
    with open(LOG, "rb") as file, mock.patch.object(importlib.import_module("gikvand.audit"), "has_signal", lambda _: True):
        fcntl.flock(file, fcntl.LOCK_EX | fcntl.LOCK_NB)
        assert [line.split(" by ")[0] for line in gikvand("audit", JOURNAL, LOG)[2]] == [f"gikvand audit: {LOG} is in use"]
    def full(fd: int, data: bytes) -> int:
        raise OSError(errno.ENOSPC, os.strerror(errno.ENOSPC))
    with mock.patch.object(os, "write", full):
        assert gikvand("audit", JOURNAL, LOG)[::2] == (
            2, [f"gikvand audit: {LOG} can't be written: No space left on device. What stands in it is whole"])
