"""Tests of `gikvand verify`: journals whole, cut, changed and stale, and logs of members."""
import importlib
import io
import os
import subprocess
from unittest import mock

import pytest

from days import each_version, made
from gikvand import journals, mends
from gikvand.journals import Entry
from made_journals import BEHIND, DAY, JOURNAL, SYMBOLS, contents, gikvand, put, with_byte
from venues import Client, Trouble, message, order, replay, started, value

pytestmark = [pytest.mark.slow, pytest.mark.usefixtures("programs")]

FORMS = {"soh.log": "\x01", "bar.log": "|", "caret.log": "^A"}  # What stands behind each field in logs of members.


def told_of(data: bytes) -> object:
    """All that venue-replay tells of these bytes."""
    put("other.journal", data)
    try:
        return [replay("other.journal", what, SYMBOLS) for what in ("book", "C1", "C2", "C3")]
    except Trouble as why:
        return str(why)


def test_whole_journals() -> None:
    """Of a journal as venued made it nothing is wrong, and nothing of a copy by `cp` either."""
    for it in each_version():
        status, out, err = gikvand("verify", JOURNAL)
        entries, snapshots = len(DAY) + len(BEHIND), int(it.version == 3)
        blocks = len(it.starts)
        has = f"{blocks} blocks with {entries} entries and {snapshots} snapshot{'s' * (not snapshots)}"
        assert (status, err) == (0, [])
        assert out == [f"version {it.version}: {has}, and a gate at {len(it.data) - 1}",
                       *["snapshots: each is that of the entries before it"] * snapshots, f"{JOURNAL}: nothing is wrong"]
        put(JOURNAL, journals.empty(it.version))
        assert gikvand("verify", JOURNAL)[0] == 0


def test_cut_journals() -> None:
    """Each beginning that isn't whole is found, and mended by the command that is shown."""
    for it in each_version():
        *_, start, last = it.starts
        for size in [*range(20), *range(start, len(it.data))]:
            status, out, err = gikvand("verify", put("cut.journal", it.data[:size]))
            gate = max((at for at in [*it.starts, len(it.data) - 1] if at <= size), default=0)
            head = len(journals.header(it.version))
            line = "header: " if size < head else f"fault 42 at {gate}: "
            if status != 1 or err or not any(found.startswith(line) for found in out):
                raise Trouble(f"version {it.version}, {size} bytes: expected '{line}' came {status} {out} {err}")
        for size, mended in ((last + 9, it.data[:last] + b"\0"), (len(it.data) - 1, it.data)):
            _, out, _ = gikvand("verify", put("cut.journal", it.data[:size]))
            subprocess.run(["bash", "-c", next(line.rpartition(": ")[2] for line in out if "mended" in line)], check=True)
            assert gikvand("verify", "mended.journal", "--symbols", "ABC,XYZ")[0] == 0
            assert contents("mended.journal") == mended


def test_changed_bytes() -> None:
    """Each byte of the last two blocks, and of a snapshot before them, that is another one is found, or makes no difference to
    what venue-replay tells."""
    for it in each_version():
        before = told_of(it.data)
        for at in range(it.starts[-2 - (it.version == 3)], len(it.data)):
            data = with_byte(it.data, at, it.data[at] ^ (1 << at % 8))
            status = gikvand("verify", put("changed.journal", data), "--symbols", "ABC,XYZ")[0]
            if status == 0 and told_of(data) != before:
                raise Trouble(f"version {it.version}: byte {at} is {data[at]}, and nothing is found")


def test_changed_digits() -> None:
    """Each digit of each entry that is another one is found, with the number of its entry."""
    for version in journals.VERSIONS:
        entries = journals.read(made(version).data).entries
        data = journals.header(version) + journals.in_blocks(version, entries, 1) + journals.CLOSED
        for number, block in enumerate(journals.Reader(io.BytesIO(data)), 1):
            start, message = data.index(block.entries[0].message, block.offset), block.entries[0].message
            for at in (start + place for place, byte in enumerate(message) if chr(byte).isdigit()):
                put("changed.journal", with_byte(data, at, ord("0") + (data[at] - ord("0") + 1) % 10))
                status, out, _ = gikvand("verify", "changed.journal")
                line = f"entry {number}, in the block at {block.offset}: C{block.entries[0].gateway}, "
                if status != 1 or not out[0].startswith(line):
                    raise Trouble(f"version {version}: digit {at} of entry {number}: {status} {out}")


def test_entries_that_no_session_publishes() -> None:
    """A right message at the wrong place."""
    right = made(3)
    message = next(iter(journals.Reader(io.BytesIO(right.data)))).entries[0].message
    def sent(old: bytes, new: bytes) -> bytes:
        body = message.replace(old, new).split(b"\x01", 2)[2][:-7]
        head = b"8=FIX.4.4\x019=%d\x01" % len(body) + body
        return head + b"10=%03d\x01" % (sum(head) % 256)
    cases = [(2, message, "wrong party"),
             (1, sent(b"VENUE", b"OTHER"), "wrong party"),
             (1, sent(b"\x0134=2\x01", b"\x0134=1\x01"), "wrong number: the first message of a session is its Logon"),
             (1, sent(b"35=D", b"35=0"), "no order, cancel or replace"),
             (1, sent(b"\x0134=2\x01", b"\x0134=02\x01"), "bad header"),
             (1, message[:-1], "not exactly one message"),
             (1, message + b"8", "not exactly one message"),
             (1, message[:-2] + b"?\x01", "bad checksum")]
    for gateway, text, why in cases:
        data = journals.header(3) + journals.block_of(3, [Entry(gateway, text)]) + journals.CLOSED
        assert (why, gikvand("verify", put(JOURNAL, data))[1][0]) == (why, f"entry 1, in the block at 16: C{gateway}, {why}")


def test_many_findings() -> None:
    """Of very many the first are shown, and all are counted."""
    data = journals.header(3) + journals.block_of(3, [Entry(1, b"x")] * 37) + journals.CLOSED
    status, out, _ = gikvand("verify", put(JOURNAL, data))
    assert (status, out[9], out[10], out[-1]) == (1, "entry 10, in the block at 16: C1, bad begin", "and 27 more",
                                                  f"{JOURNAL}: 37 findings")


def test_headers() -> None:
    for data, line in ((b"", "header: "), (b"no journal", "header: "), (b"VNJL\0\0\0\4" + bytes(9), "header: "),
                       (journals.empty(3, 7), "header: its cut is 7, ")):
        status, out, err = gikvand("verify", put(JOURNAL, data))
        assert (status, out[0][:len(line)], err) == (1, line, [])
    old = journals.read(made(1).data)
    carried = journals.header(3, len(old.entries)) + journals.block_of(3, old.entries) + journals.CLOSED
    for cut, status in ((0, 0), (1, 1), (2, 0), (3, 1), (4, 0), (5, 1)):  # A cut within a block, of two each, in front of others.
        data = journals.header(3, cut) + journals.in_blocks(3, old.entries[:4], 2) + journals.CLOSED
        assert (cut, gikvand("verify", put(JOURNAL, data))[0]) == (cut, status)
    for cut, status in ((len(old.entries), 0), (len(old.entries) - 1, 1), (len(old.entries) + 1, 1), (0, 0)):
        assert (cut, gikvand("verify", put(JOURNAL, journals.header(3, cut) + carried[16:]))[0]) == (cut, status)


def test_stale_copies() -> None:
    """What only appends leaves gates closed: how many entries don't count is told. What was broken off doesn't matter."""
    for it in each_version():
        for count, start in enumerate(it.starts):
            status, out, err = gikvand("verify", put("stale.journal", with_byte(it.data, start, 0)), "--symbols", "ABC,XYZ")
            left = len(it.starts) - count
            line = f"behind the closed gate at {start}: {left} whole block"
            assert (status, [found[:len(line)] for found in out if found.startswith("behind")], err) == (1, [line], [])
        for more in (b"x", it.data[it.starts[-1] + 1:-10]):
            status, out, err = gikvand("verify", put("torn.journal", it.data + more), "--symbols", "ABC,XYZ")
            assert (status, [found.split(": ")[0] for found in out if found.startswith("behind")], err) == (
                0, [f"behind the closed gate at {len(it.data) - 1}"], [])


def log_of(lines: list[str], end: str) -> bytes:
    """A log of an engine: each message behind a time, with what the member sends between them."""
    sent = "8=FIX.4.4|9=65|35=5|49=C1|56=VENUE|34=9|52=20250102-09:30:00|10=254|"
    return "".join(f"20250102-09:30:00.123 : {it}\n<sent> {sent}\n".replace("|", end) for it in lines).encode()


def test_logs_of_members() -> None:
    """Each report in a log is found, whatever stands behind fields; what the member missed is counted."""
    for it in each_version():
        for name, end in FORMS.items():
            for member, heard in it.heard.items():
                put(name, log_of(heard, end))
                status, out, err = gikvand("verify", JOURNAL, f"C{member}={name}")
                line = f"C{member}: {len(heard)} reports of {name} as the journal tells them, which has 0 more"
                assert (status, out[-2], err) == (0, line, [])
        for missing in range(len(heard := it.heard[1])):
            put("some.log", log_of(heard[:missing] + heard[missing + 1:], "|"))
            line = f"C1: {len(heard) - 1} reports of some.log as the journal tells them, which has 1 more"
            assert gikvand("verify", JOURNAL, "C1=some.log")[:2][0] == 0
            assert gikvand("verify", JOURNAL, "C1=some.log")[1][-2] == line
        for piece in (1, 13, 200):
            with mock.patch.object(importlib.import_module("gikvand.logs"), "PIECE", piece):
                assert gikvand("verify", JOURNAL, "C1=some.log")[1][-2] == line
        put("all.log", b"".join(log_of(heard, "\x01") for heard in it.heard.values()))
        status, out, _ = gikvand("verify", JOURNAL, *(f"C{member}=all.log" for member in it.heard))
        assert (status, [line.split(": ")[1].split()[0] for line in out[-4:-1]]) == (
            0, [str(len(heard)) for heard in it.heard.values()])


def sealed_again(report: str, old: str, new: str) -> str:
    """A report with another text in it, and the length and sum for that."""
    body = report.split("|", 2)[2][:-len("10=000|")].replace(old, new)
    head = f"8=FIX.4.4|9={len(body)}|{body}"
    return f"{head}10={sum(head.replace('|', chr(1)).encode()) % 256:03}|"


def test_wrong_logs() -> None:
    """A log with a report that the venue didn't tell, told otherwise, or at another place."""
    for it in each_version():
        heard = it.heard[1]
        first, last, reject = heard[0], heard[-1], next(line for line in heard if "|35=9|" in line)
        place = heard.index(reject)
        before, behind = heard[:place], heard[place + 1:]
        twice, elsewhere = "the log has it twice, or not in its order: ", "the venue didn't tell it, or not there: "
        cases = [([first.replace("|38=100|", "|38=101|"), *heard[1:]], "the log has another text than its length and"),
                 ([sealed_again(first, "|38=100|", "|38=101|"), *heard[1:]], "the venue told it otherwise, as "),
                 ([*heard, last], twice),
                 ([heard[1], heard[0], *heard[2:]], twice),
                 ([*heard, sealed_again(last, f"|17={value(last, '17')}|", "|17=999|")], "the journal's reports end before it"),
                 ([*before, sealed_again(reject, "|102=1|", "|102=6|"), *behind], elsewhere),
                 ([*before, *behind[:2], reject, *behind[2:]], elsewhere),
                 ([*before, behind[0], reject, *behind[1:]], elsewhere),
                 ([*heard, reject], elsewhere)]
        for lines, words in cases:
            put("wrong.log", log_of(lines, "|"))
            status, out, err = gikvand("verify", JOURNAL, "C1=wrong.log")
            found = [line for line in out if line.startswith(f"wrong.log: {words}")]
            assert (words, status, len(found), err) == (words, 1, 1, [])
            assert out[-3] == f"    {mends.LOGGED}"  # (behind the findings of a log, of which none knows its cause)
        other = it.heard[2][0]
        put("wrong.log", log_of([*heard[:1], sealed_again(other, "56=C2", "56=C1"), *heard[1:]], "|"))
        status, out, _ = gikvand("verify", JOURNAL, "C1=wrong.log")
        assert (status, any(line.startswith("wrong.log: the venue didn't tell it: ") for line in out)) == (1, True)
        put(JOURNAL, it.data[:it.starts[-1]] + b"\0")
        put("right.log", log_of(heard, "|"))
        status, out, _ = gikvand("verify", JOURNAL, "C1=right.log")
        assert (status, any("the journal's reports end before it" in line for line in out), out[-3]) == (1, True, f"    {mends.LOGGED}")


@pytest.mark.soak
def test_journals_in_use() -> None:
    """While members trade a journal may be looked at, and what is just being written is no finding."""
    put(f"{JOURNAL}.symbols", b"ABC\n")
    venue = started(JOURNAL, 1)
    client = Client(venue.port, 1).log_on()
    for name in range(1, 40):
        client.send("D", order(name, 1 + name % 2, 5, 50))
        status, out, err = gikvand("verify", JOURNAL)
        assert (status, err, any(it.startswith("in use by ") for it in out)) == (0, [], True)
    client.close()
    venue.stop()


def test_words_of_verify() -> None:
    """What can't be looked at has a line on standard error, and the status 2."""
    put(JOURNAL, made(3).data)
    put("c1.log", b"")
    os.mkfifo("pipe")
    unknown = f"the symbols of {JOURNAL} aren't known: name them, or write them into {JOURNAL}.symbols"
    cases: list[tuple[list[str], str | None]] = [
        ([], None),
        ([JOURNAL, "C9=c1.log"], None),
        ([JOURNAL, "c1.log"], None),
        ([JOURNAL, "--symbols", "abc"], None),
        ([JOURNAL, "--symbols", "ABC,ABC"], None),
        (["missing"], "missing: No such file or directory"),
        (["."], ".: Is a directory"),
        (["pipe"], "pipe is no file, but a pipe or a device"),
        ([""], "an empty name is none"),
        (["caf\udce9"], "the name caf\udce9 isn't UTF-8, and the programs take no other"),
        ([JOURNAL, "C1=none.log", "--symbols", "ABC,XYZ"], "none.log: No such file or directory"),
        ([JOURNAL, "C1=pipe", "--symbols", "ABC,XYZ"], "pipe is no file, but a pipe or a device"),
        ([JOURNAL], unknown),
        ([JOURNAL, "C1=c1.log"], unknown)]
    for words, line in cases:
        status, _, err = gikvand("verify", *words)
        assert (words, status, err[-1:] if line else bool(err)) == (words, 2, [f"gikvand verify: {line}"] if line else True)
    put(f"{JOURNAL}.symbols", b"ABC XYZ\n")
    of_both = f"the journal {JOURNAL} is one of ABC XYZ, as {JOURNAL}.symbols says, and not of XYZ ABC"
    assert gikvand("verify", JOURNAL, "--symbols", "XYZ,ABC")[2] == [f"gikvand verify: {of_both}"]
    put(f"{JOURNAL}.symbols", b"no symbols\n")
    assert gikvand("verify", JOURNAL)[0] == 2


def test_longest_blocks() -> None:
    """A block of as many records as may be, each as long as may be, is a block, and one of a byte more isn't."""
    records = [Entry(1, b"x" * max(journals.LENGTHS))] * journals.MOST_IN_A_BLOCK
    put(JOURNAL, journals.header(3) + journals.block_of(3, records) + journals.CLOSED)
    assert [it for it in gikvand("verify", JOURNAL)[1] if "fault 42" in it] == []
    assert gikvand("why", JOURNAL)[0] == 0
    put(JOURNAL, journals.header(3) + journals.block_of(3, [*records, records[0]]) + journals.CLOSED)
    assert [it[:15] for it in gikvand("verify", JOURNAL)[1] if "fault 42" in it] == ["fault 42 at 16:"]


def test_logs_of_nobody() -> None:
    """A log without a report of the member is a finding, where the journal has some: the log of another, or of another form."""
    for it in each_version():
        put("none.log", b"")
        put("text.log", b"no message\n" * 100)
        put("other.log", log_of(it.heard[2], "|"))
        put("spaces.log", log_of(it.heard[1], " "))
        put("edge.log", log_of(it.heard[1], "|").replace(b"49=VENUE", b"49=EDGE"))
        for name in ("none.log", "text.log", "other.log", "spaces.log", "edge.log", JOURNAL):
            status, out, err = gikvand("verify", JOURNAL, f"C1={name}")
            assert (name, status, [line for line in out if line.startswith(name)][0], out[-1], err) == (
                name, 1, f"{name}: it has no report of the venue to C1", f"{JOURNAL}: 1 finding", [])
        assert gikvand("verify", JOURNAL, "C8=none.log")[0] == 0  # (the journal has none for C8 either)


def test_logs_as_reports_prints_them() -> None:
    """What `gikvand reports` has printed is a log, too: whole, with a gap, and changed."""
    for it in each_version():
        lines = gikvand("reports", JOURNAL, "C1")[1]
        assert len(lines) == len(it.heard[1])
        line = "C1: {} reports of some.log as the journal tells them, which has {} more"
        for at in range(len(lines)):
            put("some.log", "".join(f"{it}\n" for it in lines[:at] + lines[at + 1:]).encode())
            assert gikvand("verify", JOURNAL, "C1=some.log")[1][-2] == line.format(len(lines) - 1, 1)
        put("some.log", "".join(f"{it}\n" for it in lines).replace("|38=100|", "|38=101|", 1).encode())
        assert gikvand("verify", JOURNAL, "C1=some.log")[0] == 1


def test_logs_of_megabytes() -> None:
    """A log is read in pieces: what stands before, across and behind their seams is found once."""
    it = made(3)
    put(JOURNAL, it.data)
    put(f"{JOURNAL}.symbols", b"ABC XYZ\n")
    heard, line = it.heard[1], "C1: {} reports of long.log as the journal tells them, which has 0 more"
    logs = importlib.import_module("gikvand.logs")
    for at in (0, 1, len(heard) // 2, len(heard)):
        for size in (logs.PIECE - 4200, logs.PIECE - 100, logs.PIECE - 1, logs.PIECE, 2 * logs.PIECE + 77):
            junk = b"-" * (size - len(log_of(heard[:at], "|")))
            put("long.log", log_of(heard[:at], "|") + junk + log_of(heard[at:], "|") + junk[:999])
            status, out, _ = gikvand("verify", JOURNAL, "C1=long.log")
            assert (at, size, status, out[-2]) == (at, size, 0, line.format(len(heard)))


def test_refusals_twice() -> None:
    """Refusals between two reports have to stand there in their order: one that the venue told twice, with another one between,
    doesn't let that one stand twice."""
    refused = [f"41={was}|11={name}|55=ABC|54=1|60=20250102-09:30:00|38=5|" for name, was in ((2, 7), (3, 8), (2, 7))]
    entries = [Entry(1, message(1, 2, "D", order(1, 1, 5, 50)))]
    entries += [Entry(1, message(1, at, "F", body)) for at, body in enumerate(refused, 3)]
    put(JOURNAL, journals.header(3) + journals.block_of(3, entries) + journals.CLOSED)
    put(f"{JOURNAL}.symbols", b"ABC\n")
    first, one, two, again = gikvand("reports", JOURNAL, "C1")[1]
    assert (one == again, one == two) == (True, False)
    for lines, status in (([first, one, two, one], 0), ([first, two, one], 0), ([first, one, two], 0), ([first, one, one], 0),
                          ([first, one, two, one, two], 1), ([first, two, one, two], 1), ([first, one, one, two], 1),
                          ([first, one, one, one], 1)):
        put("some.log", "".join(f"{it}\n" for it in lines).encode())
        assert (lines, gikvand("verify", JOURNAL, "C1=some.log")[0]) == (lines, status)


def test_missing_logs() -> None:
    """Where a log isn't there nothing is looked at."""
    put(JOURNAL, made(3).data)
    assert gikvand("verify", JOURNAL, "C1=none.log", "--symbols", "ABC,XYZ")[:2] == (2, [])


def test_symbols_of_another_journal() -> None:
    """Where no order is for one of the symbols that is said, and a journal without orders has none."""
    put(JOURNAL, made(3).data)
    put(f"{JOURNAL}.symbols", b"NIX Q\n")
    line = f"none of 6 orders in {JOURNAL} is for NIX Q, but for ABC XYZ: are its symbols others?"
    assert [it for it in gikvand("verify", JOURNAL)[1] if it.startswith("symbols: ")] == [f"symbols: {line}"]
    for words in (["reports", JOURNAL, "C1"], ["trades", JOURNAL]):
        assert (words, gikvand(*words)[2]) == (words, [f"gikvand {words[0]}: {line}"])
    put(f"{JOURNAL}.symbols", b"NIX XYZ\n")
    assert [it for it in gikvand("verify", JOURNAL)[1] if it.startswith("symbols: ")] == []
    put(JOURNAL, journals.empty())
    assert [it for it in gikvand("verify", JOURNAL)[1] if it.startswith("symbols: ")] == []
