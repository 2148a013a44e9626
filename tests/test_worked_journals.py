"""Checks journals and snapshots by worked examples, byte for byte: the rules in plain Python, and venue-replay.

The bytes that are expected stand here as literals: empty journals, blocks, a journal with a snapshot and what a crash may
leave of it, an old journal carried over, each way in which a journal can be damaged, and each way in which bytes are no
snapshot, beside the nearest that are one. Whatever the rules say of a journal, venue-replay has to do: its status, its
output, and the files then. With `--rules-alone` no program is run.
"""
import tempfile
from collections.abc import Iterator

import pytest

from gikvand import journals
from gikvand.journals import Damaged, Entry, NotAJournal, Snapshot
from gikvand.fix import sealed
from gikvand.words import sure
from replay_program import FOLDERS, Program
from oracle.book_rules import Book, shown
from oracle.order_rules import read_order
from oracle.replay_rules import USAGE, WRONG_WORDS, Outcome, Replayer
from oracle.snapshot_rules import BadSnapshot, restore
from venues import Trouble, framed, message, order

pytestmark = pytest.mark.quick

BUY = framed("35=D|49=C1|56=VENUE|34=2|52=20250102-09:30:00|11=1|55=ABC|54=1|60=20250102-09:30:00|38=100|40=2|44=50|")
SELL = message(2, 2, "D", order(1, 2, 30, 50))
MARKET = (b"8=FIX.4.4|9=96|35=D|49=C1|56=VENUE|34=2|52=20250102-09:30:00|11=1|55=ABC|54=1|60=20250102-09:30:00|38=100|40=1|"
          b"10=050|").replace(b"|", b"\1")
HEADER = "564e4a4c 00000003 0000000000000000"
BUY_BLOCK = "01 00000081 01 01 007d" + BUY.hex()
COUNTS = "0000000000000001 0000000000000001"
GREATEST = "0000000000000001" + 7 * "0000000000000000"
ROW = "0000000000000001 01 0000000000000001 00 01 00000032 00000064 00000000 0000000000000000 0000000000000000"
SNAPSHOT = f"{COUNTS} {GREATEST} 0001 {ROW}"
WITH_BUY = f"{HEADER} {BUY_BLOCK} 00"
WITH_SNAPSHOT = f"{HEADER} {BUY_BLOCK} 01 00000082 02 {SNAPSHOT} 00"
OF_51 = WITH_SNAPSHOT.replace("00000032 00000064", "00000033 00000064")


def of(text: str) -> bytes:
    return bytes.fromhex(text)


programs: list[Program] = []  # The one that is run beside the rules, if one is.


@pytest.fixture(autouse=True)
def beside(request: pytest.FixtureRequest) -> Iterator[None]:
    """The program that does as the rules say, in a folder of its own."""
    with tempfile.TemporaryDirectory(prefix="journals-", dir=FOLDERS) as folder:
        if not request.config.getoption("--rules-alone"):
            request.getfixturevalue("programs")
            programs.append(Program(folder))
        yield
        programs.clear()


def run(files: dict[str, bytes], *words: str) -> Outcome:
    """What the rules say of these words on these files, which change by it. A program has to do the same."""
    before = dict(files)
    outcome = Replayer(files).run(list(words))
    for program in programs:
        program.put(before)
        assert (words, program.run(list(words)), program.files()) == (words, outcome, files)
    return outcome


def ran(data: bytes, *words: str) -> tuple[Outcome, bytes]:
    """What is said to these words on a journal, and its bytes then."""
    files = {"JOURNAL": data}
    return run(files, "JOURNAL", *words), files["JOURNAL"]


def said(data: bytes, *words: str) -> list[str]:
    """The lines of words that have to succeed and to change nothing."""
    outcome, after = ran(data, *words)
    assert (outcome.status, outcome.err, after) == (0, "", data)
    return outcome.out.splitlines()


def refused(line: str) -> Outcome:
    return Outcome(1, "", f"venue-replay: {line}\n")


def test_empty_journals() -> None:
    assert journals.empty(1) == of("564e4a4c 00000001 00")
    assert journals.empty(2) == of("564e4a4c 00000002 00")
    assert journals.empty(3) == of("564e4a4c 00000003 0000000000000000 00")
    assert len(journals.empty(3)) == 17
    assert journals.empty(3, 2 ** 48) == of("564e4a4c 00000003 0001000000000000 00")
    for version, cut in ((1, 2 ** 48), (2, 0), (3, 0)):
        journal = journals.read(journals.empty(version))
        assert (journal.version, journal.cut, journal.entries, journal.snapshots) == (version, cut, [], [])


def test_blocks() -> None:
    entry = Entry(1, b"AB")
    one = of("564e4a4c 00000001 01 00000005 01 0002 4142 00")
    assert journals.added(journals.empty(1), 8, journals.block_of(1, [entry])) == one
    five = of("564e4a4c 00000001 01 00000019 0100024142 0100024142 0100024142 0100024142 0100024142 00")
    assert (journals.added(journals.empty(1), 8, journals.block_of(1, [entry] * 5)), len(five)) == (five, 39)
    assert journals.read(five).entries == [entry] * 5
    third = of(f"{HEADER} 01 00000006 01 01 0002 4142 00")
    assert journals.added(journals.empty(3), 16, journals.block_of(3, [entry])) == third
    assert journals.added(third + b"\7\7", 27, journals.block_of(3, [entry])) == third[:-1] + third[16:]
    assert journals.read(third + b"\1\1").gate == 27


def test_snapshot_of_one_order() -> None:
    assert (len(BUY), len(of(WITH_BUY)), len(of(WITH_SNAPSHOT))) == (125, 151, 286)
    entries = [Entry(1, BUY)]
    assert journals.added(journals.empty(3), 16, journals.block_of(3, entries)) == of(WITH_BUY)
    assert ran(of(WITH_BUY), "snapshot", "ABC") == (Outcome(0, "snapshot at 150\n", ""), of(WITH_SNAPSHOT))
    journal = journals.read(of(WITH_SNAPSHOT))
    assert (journal.gate, journal.snapshots) == (285, [Snapshot(150, 1, of(SNAPSHOT))])
    assert said(of(WITH_SNAPSHOT), "check", "ABC") == ["snapshots true"]
    assert said(of(WITH_SNAPSHOT), "book", "ABC") == ["ABC 1 50 100 1 C1 1", "commands 1 outputs 1"]


def test_snapshot_of_nothing() -> None:
    wanted = of(f"{HEADER} 01 00000053 02 {10 * '0000000000000000'} 0000 00")
    assert ran(journals.empty(3), "snapshot", "ABC") == (Outcome(0, "snapshot at 16\n", ""), wanted)
    assert said(wanted, "book", "ABC") == ["commands 0 outputs 0"]


def test_entries_behind_a_snapshot() -> None:
    """From the snapshot on one entry is applied, and the whole journal leads to the same."""
    data = journals.added(of(WITH_SNAPSHOT), 285, journals.block_of(3, [Entry(2, SELL)]))
    assert said(data, "book", "ABC") == ["ABC 1 50 70 1 C1 1", "commands 2 outputs 4"]
    replayer, journal = Replayer({}), journals.read(data)
    book = replayer.restore(journal.snapshots[0], journal, ("ABC",))
    told = replayer.apply_all(book, replayer.entries_behind(journal, journal.snapshots[0]))
    assert [shown(it.body).split("|")[:3] for it in told] == (
        [["37=2", "17=2", "150=0"], ["37=1", "17=3", "150=F"], ["37=2", "17=4", "150=F"]])
    assert vars(book)["greatest"] == {**dict.fromkeys(range(1, 9), 0), 1: 1, 2: 1}
    assert said(data, "C1", "ABC")[-1] == "commands 2 outputs 4"
    assert [len(said(data, f"C{it}", "ABC")) for it in (1, 2, 3)] == [3, 3, 1]


def test_only_what_follows_is_applied() -> None:
    """A snapshot says that nothing rests, that nobody has a ClOrdID, and that one message came: the buy before it is
    applied no more, so the sell behind it rests. It is the one message that is applied."""
    nothing = of(f"{COUNTS[:16]} {9 * '0000000000000000'} 0000")
    data = of(WITH_BUY)[:150] + journals.snapshot_block(nothing) + journals.block_of(3, [Entry(2, SELL)]) + b"\0"
    assert said(data, "book", "ABC") == ["ABC 2 50 30 2 C2 1", "commands 2 outputs 1"]
    assert said(data, "C2", "ABC")[-1] == "commands 2 outputs 4"
    assert ran(data, "check", "ABC")[0] == refused("false snapshot at 150")


def crashes(old: bytes, gate: int, block: bytes) -> Iterator[bytes]:
    """What a crash at each device call may leave, while this block is added: the write behind the gate in part, any bytes
    in its place, and the gate's own byte."""
    new = block[1:] + journals.CLOSED
    for size in range(len(new) + 1):
        yield old[:gate + 1] + new[:size]
    for fill in (b"\0", b"\1", b"\xff"):
        yield old[:gate + 1] + fill * len(new)
    for byte in range(256):
        yield old[:gate] + bytes([byte]) + new


def test_crash_in_a_snapshot() -> None:
    with_it = 0
    for data in crashes(of(WITH_BUY), 150, of(WITH_SNAPSHOT)[150:285]):
        assert said(data, "book", "ABC") == ["ABC 1 50 100 1 C1 1", "commands 1 outputs 1"]
        assert said(data, "check", "ABC") == ["snapshots true"]
        with_it += len(journals.read(data).snapshots)
    assert with_it == 1


def test_old_journal_carried() -> None:
    """A market order that an old journal refused stays refused, and the next one is read as one."""
    old = of(f"564e4a4c 00000001 01 00000079 01 0076 {MARKET.hex()} 00")
    new = of(f"564e4a4c 00000003 0000000000000001 01 0000007a 01 01 0076 {MARKET.hex()} 00")
    files = {"OLD": old}
    assert run(files, "OLD", "carry", "NEW") == Outcome(0, "carried 1 commands\n", "")
    assert files == {"OLD": old, "NEW": new}
    rejected = "35=3|52=20250102-09:30:00|45=2|371=44|372=D|373=1|"
    for data in (old, new):
        assert said(data, "C1", "ABC") == [rejected, "commands 1 outputs 1"]
    behind = journals.added(new, len(new) - 1, journals.block_of(3, [Entry(1, MARKET)]))
    assert [it.split("|")[2:5] for it in said(behind, "C1", "ABC")[1:-1]] == (
        [["37=2", "17=2", "150=0"], ["37=2", "17=3", "150=4"]])
    assert run(files, "OLD", "carry", "NEW") == refused("NEW exists")
    assert run(files, "NEW", "carry", "OTHER") == refused("journal fault 45")
    assert run(files, "OLD", "snapshot", "ABC") == refused("journal fault 45")
    assert files == {"OLD": old, "NEW": new}


def test_second_version_carried() -> None:
    """All market orders of a journal of version 2 are read as such, so the cut is 0. Blocks are full but for the last."""
    count = 4096 + 2
    files = {"OLD": journals.header(2) + journals.in_blocks(2, [Entry(8, b"x")] * count, 3) + journals.CLOSED}
    assert run(files, "OLD", "carry", "NEW") == Outcome(0, "carried 4098 commands\n", "")
    full, rest = 4096 * "08000178", 2 * "08000178"
    assert files["NEW"] == of(f"{HEADER} 01 00004001 01 {full} 01 00000009 01 {rest} 00")


def test_which_fault_comes_first() -> None:
    """A journal that can't be opened, then the new file, then what the journal holds: its version, and last damage. A
    snapshot is asked of a journal that is open, so there damage comes first."""
    broken = {"FIRST": of("564e4a4c 00000001"), "THIRD": of(HEADER), "NEW": b"", "NONE": b"x", "WHOLE": journals.empty(3)}
    for words, line in ((["MISSING", "carry", "NEW"], "journal fault 41"), (["NONE", "carry", "NEW"], "NEW exists"),
                        (["WHOLE", "carry", "WHOLE"], "NEW exists"), (["NONE", "carry", "OTHER"], "journal fault 43"),
                        (["FIRST", "carry", "OTHER"], "journal fault 42 at 8"),
                        (["THIRD", "carry", "OTHER"], "journal fault 45"),
                        (["WHOLE", "carry", "OTHER"], "journal fault 45"),
                        (["FIRST", "snapshot", "ABC"], "journal fault 42 at 8")):
        files = dict(broken)
        assert (words, run(files, *words), files) == (words, refused(line), broken)
    behind = of(WITH_SNAPSHOT.replace(ROW, ROW.replace("00000032", "00000000"))[:-2])
    assert ran(behind, "book", "ABC")[0] == refused("journal fault 42 at 285")


def test_false_snapshot() -> None:
    assert ran(of(OF_51), "check", "ABC")[0] == refused("false snapshot at 150")
    assert said(of(OF_51), "book", "ABC") == ["ABC 1 51 100 1 C1 1", "commands 1 outputs 1"]
    told = "35=8|52=20250102-09:30:00|37=1|17=1|150=0|39=0|11=1|55=ABC|54=1|38=100|44=50|151=100|14=0|6=0|"
    assert said(of(OF_51), "C1", "ABC") == [told, "commands 1 outputs 1"]
    again, after = ran(of(OF_51), "snapshot", "ABC")
    assert (again, after[-136:]) == (Outcome(0, "snapshot at 285\n", ""), of(WITH_SNAPSHOT)[-136:])
    assert said(after, "book", "ABC") == ["ABC 1 50 100 1 C1 1", "commands 1 outputs 1"]
    assert ran(after, "check", "ABC")[0] == refused("false snapshot at 150")


def test_snapshot_that_is_none() -> None:
    """Its block is damaged for who needs its book, and nobody else needs it."""
    data = of(WITH_SNAPSHOT.replace(ROW, ROW.replace("00000032", "00000000")))
    assert ran(data, "book", "ABC")[0] == refused("journal fault 42 at 150")
    assert ran(data, "check", "ABC")[0] == refused("false snapshot at 150")
    assert said(data, "C1", "ABC")[-1] == "commands 1 outputs 1"
    behind = ran(data, "snapshot", "ABC")[1]
    assert said(behind, "book", "ABC")[0] == "ABC 1 50 100 1 C1 1"


NO_JOURNALS = ["", "564e4a", "564e4a4c 000000", "564e4a4c 00000000 00", "564e4a4c 00000004 00", "564e4a4c 02000000 00",
               "564e4a4d 00000001 00", "564e4a4c 00000003", "564e4a4c 00000003 00000000000000",
               "564e4a4c 00000003 0001000000000001 00", "564e4a4c 00000003 ffffffffffffffff 00"]
SHORT_SNAPSHOT = f"0000000000000000 {9 * '0000000000000000'} 0000"
DAMAGED = [  # Behind the header of version 3, and at which offset.
    ("", 16), ("01", 16), ("01 000000", 16), ("01 00000000 00", 16), ("01 00000001 01 00", 16), ("01 00000001 02 00", 16),
    ("01 00000006 01 01 0002 41", 16), ("01 00000006 01 01 0002 4142", 27), ("01 00000006 00 01 0002 4142 00", 16),
    ("01 00000006 03 01 0002 4142 00", 16), ("01 00000006 01 00 0002 4142 00", 16), ("01 00000006 01 09 0002 4142 00", 16),
    ("01 00000004 01 01 0000 00", 16), ("01 00000006 01 01 0001 4142 00", 16), ("01 00000006 01 01 0003 4142 00", 16),
    ("01 00000007 01 01 0002 4142 01 00", 16), (f"01 00000145 01 01 0141 {321 * '41'} 00", 16),
    ("01 00000006 01 01 0002 4142 01 00000000 00", 27), (f"01 00004005 01 {4097 * '01000141'} 00", 16),
    (f"01 00000052 02 {SHORT_SNAPSHOT[:-2]} 00", 16), (f"01 00000054 02 {SHORT_SNAPSHOT} 00 00", 16),
    (f"01 00000053 02 {SHORT_SNAPSHOT[:-1]}1 00", 16), (f"01 00000053 02 0000000000000001 {SHORT_SNAPSHOT[17:]} 00", 16),
    (f"01 00000006 01 01 0002 4142 01 00000053 02 {SHORT_SNAPSHOT} 00", 27)]
WHOLE = ["00", "02", "ff", f"01 00000144 01 01 0140 {320 * '41'} 00", f"01 00004001 01 {4096 * '01000141'} 00",
         f"01 00000053 02 {SHORT_SNAPSHOT} 00", f"01 00000053 02 {SHORT_SNAPSHOT} 01 00000053 02 {SHORT_SNAPSHOT} 00",
         f"01 000000b1 02 {SHORT_SNAPSHOT[:-1]}2 {94 * 'ff'} 00"]


def test_damage() -> None:
    for text in NO_JOURNALS:
        try:
            raise Trouble(f"expected no journal in {text!r} came {journals.read(of(text))}")
        except NotAJournal:
            assert ran(of(text), "check", "ABC")[0] == refused("journal fault 43")
    for text, offset in DAMAGED:
        try:
            raise Trouble(f"expected damage at {offset} in {text[:60]!r} came {journals.read(of(HEADER + text))}")
        except Damaged as why:
            assert (text[:60], why.offset) == (text[:60], offset)
            assert ran(of(HEADER + text), "check", "ABC")[0] == refused(f"journal fault 42 at {offset}")
    for text in WHOLE:
        journals.read(of(HEADER + text))
    assert run({}, "JOURNAL", "book", "ABC") == refused("journal fault 41")


def row(**changed: str) -> str:
    """The bytes of an order that rests, of whose fields some are changed."""
    usual = {"number": "0000000000000003", "client": "01", "name": "0000000000000005", "symbol": "00", "side": "01",
             "price": "00000032", "total": "00000064", "filled": "00000004", "paid": "00000000000000c8",
             "stamp": "0000000000000002"}
    return "".join({**usual, **changed}.values())


def spelled(*rows: str, commands: str = "0000000000000009", outputs: str = "0000000000000014",
            greatest: str = "0000000000000007", of_c8: str = "0000000000000007", count: int | None = None) -> bytes:
    """The bytes of a snapshot of these rows, where C1 and C8 have these greatest ClOrdIDs."""
    return of(commands + outputs + greatest + 6 * "0000000000000007" + of_c8
              + f"{len(rows) if count is None else count:04x}" + "".join(rows))


def other(**changed: str) -> str:
    """The same of another order of C1."""
    return row(**{"name": "0000000000000006", **changed})


def untouched(**changed: str) -> str:
    """The same of an order of which nothing was filled."""
    return row(**{"filled": "00000000", "paid": "0000000000000000", **changed})


BUY_5, SELL_6 = row(), row(name="0000000000000006", side="02", price="00000033")
MANY = [row(price=f"{1_000_000 - it:08x}", name=f"{it + 1:016x}") for it in range(4097)]
MOST, ABOVE = "00038d7ea4c67fff", "00038d7ea4c68000"  # 999,999,999,999,999 and one more.
PAIRS = [  # What is refused, the nearest bytes that are a snapshot, and the nearest that are none.
    ("length", spelled(BUY_5), spelled(BUY_5) + b"\0"),
    ("length", spelled(BUY_5), spelled(BUY_5)[:-1]),
    ("length", spelled(BUY_5), spelled(BUY_5, count=0)),
    ("length", spelled(BUY_5, SELL_6), spelled(BUY_5, SELL_6, count=3)),
    ("length", spelled(), spelled()[:-1]),
    ("length", spelled(), b""),
    ("orders", spelled(*MANY[:4096], greatest=MOST), spelled(*MANY, greatest=MOST)),
    ("commands", spelled(commands="0001000000000000"), spelled(commands="0001000000000001")),
    ("outputs", spelled(outputs="0000000000012012"), spelled(outputs="0000000000012013")),
    ("greatest name", spelled(greatest=MOST), spelled(greatest=ABOVE)),
    ("greatest name", spelled(of_c8=MOST), spelled(of_c8=ABOVE)),
    ("symbol", spelled(row(symbol="01")), spelled(row(symbol="02"))),
    ("side", spelled(row(side="02")), spelled(row(side="03"))),
    ("side", spelled(row(side="01")), spelled(row(side="00"))),
    ("client", spelled(row(client="08")), spelled(row(client="09"))),
    ("client", spelled(row(client="01")), spelled(row(client="00"))),
    ("name", spelled(row(name="0000000000000001")), spelled(row(name="0000000000000000"))),
    ("name", spelled(row(name=MOST), greatest=MOST), spelled(row(name=ABOVE), greatest=MOST)),
    ("price", spelled(row(price="00000001")), spelled(row(price="00000000"))),
    ("price", spelled(row(price="000f4240")), spelled(row(price="000f4241"))),
    ("total", spelled(row(total="00000005")), spelled(row(total="00000000"))),
    ("total", spelled(row(total="000f4240")), spelled(row(total="000f4241"))),
    ("total", spelled(untouched(total="00000001")), spelled(untouched(total="00000000"))),
    ("filled", spelled(row(total="00000005")), spelled(row(total="00000004"))),
    ("filled", spelled(row(total="00000005")), spelled(row(total="00000003"))),
    ("paid", spelled(row(paid="00000000003d0900")), spelled(row(paid="00000000003d0901"))),
    ("paid", spelled(row(paid="0000000000000000")), spelled(row(paid="00000000003d0901"))),
    ("paid", spelled(untouched()), spelled(row(filled="00000000"))),
    ("number", spelled(row(number="0000000000000001")), spelled(row(number="0000000000000000"))),
    ("number", spelled(row(number="0000000000000009")), spelled(row(number="000000000000000a"))),
    ("stamp", spelled(row(stamp="0000000000000008")), spelled(row(stamp="0000000000000009"))),
    ("name above the greatest", spelled(row(name="0000000000000007")), spelled(row(name="0000000000000008"))),
    ("name above the greatest", spelled(BUY_5, greatest="0000000000000005"), spelled(BUY_5, greatest="0000000000000000")),
    ("order of the list", spelled(BUY_5, SELL_6), spelled(SELL_6, BUY_5)),
    ("order of the list", spelled(SELL_6, row(symbol="01")), spelled(row(symbol="01"), SELL_6)),
    ("order of the list", spelled(row(price="00000033"), other()), spelled(row(price="00000031"), other())),
    ("order of the list", spelled(row(side="02", price="00000031"), other(side="02")),
     spelled(row(side="02", price="00000033"), other(side="02"))),
    ("order of the list", spelled(row(), other(stamp="0000000000000003")), spelled(row(), other(stamp="0000000000000001"))),
    ("order of the list", spelled(row(price="00000033"), other()), spelled(row(), other())),  # Two with one stamp.
    ("name twice", spelled(BUY_5, other(symbol="01")), spelled(BUY_5, row(symbol="01"))),
    ("name twice", spelled(BUY_5, row(symbol="01", client="02")), spelled(BUY_5, SELL_6, row(symbol="01")))]


def test_snapshots() -> None:
    for reason, good, bad in PAIRS:
        book = restore(good, ("ABC", "XYZ"), 0)
        assert (reason, replayed(book)) == (reason, good)
        try:
            raise Trouble(f"expected a refusal for its {reason} came {vars(restore(bad, ('ABC', 'XYZ'), 0))}")
        except BadSnapshot as why:
            assert str(why) == reason
        if reason != "commands":  # (no journal has so many entries)
            assert (reason, behind_nine(good).err) == (reason, "")
            assert (reason, behind_nine(bad)) == (reason, refused(f"journal fault 42 at {len(NINE)}"))


NINE = journals.header(3) + journals.block_of(3, [Entry(1, b"x")] * 9)


def behind_nine(snapshot: bytes) -> Outcome:
    """What is said to a book from this snapshot on, in a journal of nine entries."""
    return ran(NINE + journals.snapshot_block(snapshot) + journals.CLOSED, "book", "ABC", "XYZ")[0]


def replayed(book: Book) -> bytes:
    """The snapshot of a book that was restored: the one of which it was made."""
    return Replayer({}).snapshot(book)


def test_crossed_books_go_on() -> None:
    """What isn't refused is a book, also where no history leads to it: both sides cross, numbers and stamps are the same."""
    book = restore(spelled(BUY_5, row(name="0000000000000006", side="02", price="0000002f")), ("ABC",), 0)
    told = book.take(2, message(2, 2, "D", order(8, 2, 1, 48)))
    assert [shown(it.body).split("|")[:3] for it in told] == (
        [["37=10", "17=21", "150=0"], ["37=3", "17=22", "150=F"], ["37=10", "17=23", "150=F"]])


def test_wrong_words() -> None:
    for words in WRONG_WORDS:
        assert (words, run({}, *words)) == (words, Outcome(1, "", f"{USAGE}\n"))


def test_entries_that_are_no_orders() -> None:
    """They count, and say nothing: another type, two messages, a message cut short, a header out of its order."""
    logon = message(1, 1, "A", "98=0|108=0|141=Y|")
    swapped = sealed(b"35=D\x0156=VENUE\x0149=C1\x0134=2\x0152=20250102-09:30:00\x0111=1\x01")
    for data in (logon, BUY + BUY, BUY[:-1], swapped, b"x"):
        assert read_order(data) == None
        assert Book().take(1, data) == []
    assert sure(read_order(BUY))[:2] == (b"D", b"20250102-09:30:00")
