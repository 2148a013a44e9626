"""Sessions that are sent copies of what members are told: each report once and in order, whatever is killed, lost, full or slow,
with its member's name, and nothing that can be asked for."""
import contextlib
import os
import random
import re
import shutil
import signal
import socket
import subprocess
import threading
import time
from collections.abc import Callable, Mapping, Sequence
from typing import Any

from book_tests import narrow
from differential import BY_OPERATOR, MEMBERS, Run, compare, is_killed
from disk_tests import fill, small_disk
from edges import COPIES, EVENTS, JOURNAL, NAMES, PATIENCE, ROOT, Edge, Trouble, again, await_that, changed, children_of, copies_of
from edges import free_port, freeze, members_of, pair, rows, settings_of, told
from engines import GTC, Engine, at_once, cancel, order, refused, replace
from gikvand.fix import fields_of, printed, value
from gikvand.words import sure
from limit_tests import followers
from market import BEGUN, Market
from recovery_tests import settings
from settings_tests import said
from switch_tests import answered, called, done, failed
from takers import asks
from tradeclients import IN, TradeClient
from trading_tests import expect

CLEARER = NAMES[COPIES]
OF_SESSIONS = "8 9 10 34 43 49 52 56 97 122".split()
PARTY, IN_HEADER = "|453=1|448={name}|447=D|452=1|10=", "|{by}={name}|"
DOOR = "edge/C1/C1.copies"  # Where the process of C1 is asked for names.
MOST_HELD = 8192  # Reports of one member that wait to be told, at most; with half as many no more are read for a second.
AT_ONCE = 64      # Names of an answer.
PIECE = 1000      # Messages that are told again in one turn.
ROOMFUL = 8192    # Bytes that wait for a reader at most while it is told copies: the names of one answer have more.
HELD = 3000       # Copies that would take 40 s, with one roomful at each look at the clock.
SHORT, LONG = 1500, 20000


def copied_pair(members: int = 2, common: Mapping[str, object] | None = None, **more: Any) -> tuple[Edge, int, list[Engine]]:
    """A venue, an edge with members and a session of copies of all of them, its port, and their engines, the last one that of the
    copies."""
    words = " ".join(f"C{k}" for k in range(1, members + 1))
    _, edge, port = pair(members, common=common, others=lambda at: [copies_of(at, words, **more)])
    return edge, port, [Engine(port, k).log_on() for k in (*range(1, members + 1), COPIES)]


def body_of(text: str) -> dict[str, str]:
    """A report without what a session adds."""
    return {tag: it for tag, it in fields_of(text).items() if tag not in OF_SESSIONS}


def reports_of(one: Engine) -> list[dict[str, str]]:
    """The venue's ExecutionReports that a member's engine was told, in order."""
    return [it for it in map(body_of, one.history) if it["35"] == "8" and it["17"].isdecimal()]


def copies_in(copies: Engine, one: Engine, by: str = "448") -> list[dict[str, str]]:
    """The copies of one member's reports that an engine was told, in order, without the member's name."""
    found = []
    for text in copies.history:
        it, name = body_of(text), value(text, by)
        if it["35"] != "8" or (PARTY if by == "448" else IN_HEADER).format(by=by, name=name) not in text:
            raise Trouble(f"what is no copy: {text}")
        if name == one.sender:
            found.append({tag: what for tag, what in it.items() if tag not in ("453", "448", "447", "452", by)})
    return found


def is_same(came: Sequence[dict[str, str]], wanted: Sequence[dict[str, str]], name: str) -> None:
    for at, (one, other) in enumerate(zip(came, wanted)):
        if one != other:
            raise Trouble(f"{name}: copy {at + 1} is {one}, where the member was told {other}")
    expect((name, len(came)), (name, len(wanted)))


def await_more(what: str, count: Callable[[], int], wanted: int) -> None:
    """Waits until there are so many, as long as more come."""
    before, end = -1, time.monotonic() + PATIENCE
    while (found := count()) < wanted:
        end = time.monotonic() + PATIENCE if found > before else end
        before = max(before, found)
        if time.monotonic() > end:
            raise Trouble(f"{what}: {found} of {wanted}, and no more within {PATIENCE} seconds")
        time.sleep(0.01)


def has_copies(copies: Engine, *members: Engine, by: str = "448") -> None:
    """Waits until an engine has the copies of all that these members were told. Each is there once, and as it was told."""
    for it in members:
        it.settle()
    wanted = sum(len(reports_of(it)) for it in members)
    await_more("all copies", lambda: copies.pump(0.05) and len(copies.history), wanted)
    for it in members:
        is_same(copies_in(copies, it, by), reports_of(it), it.sender)
    expect(len(copies.history), wanted)


def has_those_of(copies: Engine, one: Engine) -> None:
    """The same of one member, whatever has come of others."""
    one.settle()
    await_more("its copies", lambda: copies.pump(0.05) and len(copies_in(copies, one)), len(reports_of(one)))
    is_same(copies_in(copies, one), reports_of(one), one.sender)


def await_kept(*members: Engine, folder: str = "edge") -> int:
    """Waits until the record of the copies has all that these members were told: how many that are."""
    for it in members:
        it.settle()
    wanted = sum(len(reports_of(it)) for it in members)

    def kept() -> int:
        return sum(b"\x0135=8\x01" in it for it, in rows("D1", "SELECT bytes FROM messages", folder))

    await_more("all is kept", kept, wanted)
    return wanted


def trade(one: Engine, other: Engine, name: str = "a") -> None:
    """What may become of orders: one rests, is filled in part, replaced and filled, others are cancelled or over at once."""
    one.send("D", order(f"{name}-1", 1, 10, "50"))
    one.report(_150="0", _11=f"{name}-1")
    other.send("D", order(f"{name}-2", 2, 4, "49.5"))
    one.report(_150="F")
    one.send("G", replace(f"{name}-3", f"{name}-1", 1, 12, "51", more=GTC))
    one.report(_150="5")
    other.send("D", order(f"{name}-4", 2, 20, "51"))
    one.report(_150="F", _39="2")
    other.send("F", cancel(f"{name}-5", f"{name}-4", 2))
    other.report(_150="4")
    one.send("D", order(f"{name}-6", 2, 3, "20.25", "XYZ", "59=3|"))
    one.report(_150="4", _11=f"{name}-6")


def rests(one: Engine, name: str = "rest", quantity: int = 1000000) -> None:
    one.send("D", order(name, 1, quantity, "50"))
    one.report(_150="0", _11=name)


def sells(one: Engine, count: int, name: str = "t") -> None:
    """So many orders of one, each of which fills a part of what rests."""
    for at in range(count):
        one.send("D", order(f"{name}-{at}", 2, 1, "50"))
        if at % 200 == 199 or at == count - 1:
            one.report(_150="F", _11=f"{name}-{at}")


def come_to_nothing(one: Engine, count: int) -> None:
    """So many orders of one that find nobody at once, each of which has two reports."""
    for at in range(count):
        one.send("D", order(f"a-{at}", 1, 1, "40", more="59=3|"))
        if at % 200 == 199 or at == count - 1:
            one.report(_150="4", _11=f"a-{at}")


def test_copies() -> None:
    """Copies are each report of the venue to the members as these are told it, with their names, and nothing else of them."""
    _, edge, port = pair(3, others=lambda at: [copies_of(at, "C1 C2")])
    one, other, third, copies = (Engine(port, k).log_on() for k in (1, 2, 3, COPIES))
    trade(one, other)
    one.send("F", cancel("none", "a-1", 1))  # Refused by the venue, and what comes then by the edge.
    one.report(_35="9", _11="none")
    one.send("D", order("a-1", 1, 1, "50"))
    one.send("F", cancel("b", "unknown", 1))
    one.report(_35="9", _11="b")
    one.send("q", "11=m|530=7|60=20260101-00:00:00|")
    one.report(_35="r")
    rests(third, "c", 1)
    trade(other, one, "d")
    has_copies(copies, one, other)
    expect([int(sure(value(it, "34"))) for it in copies.history], list(range(2, 2 + len(copies.history))))
    line = called("status D1")[1]
    if f"D1 ({CLEARER}): serves, logged on, {len(copies.history)} copies of C1 C2, the last " not in line:
        raise Trouble(f"status says {line}")


def test_names_in_the_header() -> None:
    """The name of the member stands in OnBehalfOfCompID (115) or DeliverToCompID (128), where the settings say so, also where a
    copy is sent again."""
    _, _, port = pair(2, others=lambda at: [copies_of(at, "C1 C2", DropCopyNames="115"),
                                            copies_of(at, "C1 C2", 2, DropCopyNames="128")])
    one, other, *both = (Engine(port, k).log_on() for k in (1, 2, COPIES, COPIES + 1))
    trade(one, other)
    for by, copies in zip(("115", "128"), both):
        has_copies(copies, one, other, by=by)
        before, copies.history[:], copies.next = copies.next, [], 1
        copies.send("2", "7=1|16=0|")
        await_that("all of it again", lambda: copies.pump(0.05) and copies.next >= before)
        has_copies(copies, one, other, by=by)


def test_nothing_to_ask_for() -> None:
    """Whatever is asked for in such a session is refused, and an operator can neither stop it nor cancel for it."""
    edge, port, (one, copies) = copied_pair(1, {"MarketData": "Y"})
    for kind, body in (("D", order("a", 1, 1, "50")), ("F", cancel("b", "a", 1)), ("G", replace("c", "a", 1, 1, "51")),
                       ("q", "11=d|530=7|60=20260101-00:00:00|"), ("V", asks("m")), ("x", "320=x|559=4|"),
                       ("H", "11=a|55=ABC|54=1|"), ("AF", "584=x|585=7|"), ("AD", "568=x|569=0|")):
        copies.send(kind, body)
        it = fields_of(copies.report(_35="j"))
        expect((it["372"], it["380"], it["58"]), (kind, "3", "edge: this session is sent copies, and takes no requests"))
    expect(told(1), [])
    for words in ("stop D1", "cancel D1"):
        failed(words, "D1: it is sent copies, and trades nothing: nothing was changed")
    done("cancel all", "C1: no order rested")
    done("halt ABC", "C1: ABC is halted")
    done("numbers D1", f"D1: {CLEARER}: next out {copies.next}, next in {copies.out}")


def test_reader_away() -> None:
    """What was copied while the engine was away, or the edge was killed, is in the store: the engine asks for it, and has it once."""
    edge, port, (one, other, copies) = copied_pair()
    trade(one, other)
    has_copies(copies, one, other)
    copies.close()
    edge.hears("D1: the client from")
    trade(other, one, "b")
    await_kept(one, other)
    edge.kill()
    Edge(settings()).ready(3)
    for it in (one, other):
        it.close()
        it.log_on()
    trade(one, other, "c")
    await_kept(one, other)
    copies.log_on()
    has_copies(copies, one, other)
    expect([it for it in copies.came if value(it, "97") == "Y"], [])


def test_member_away() -> None:
    """The reports of a member whose process stands still wait for the names that only this has. Those of others go on."""
    edge, _, (one, other, copies) = copied_pair()
    rests(one)
    has_copies(copies, one, other)
    process = edge.process_of(1)
    freeze(process)
    os.kill(children_of(edge.process.pid)["D1"], signal.SIGKILL)
    edge.hears("D1: serves, behind report")
    copies.close()
    copies.log_on()
    sells(other, 20)
    has_those_of(copies, other)
    await_that("word of that", lambda: ", waits for C1 (20), " in called("status D1")[1])
    os.kill(process, signal.SIGCONT)
    has_copies(copies, one, other)
    os.kill(process, signal.SIGKILL)
    one.close()
    sells(other, 20, "u")
    edge.hears("C1: serves, behind report")
    one.log_on()
    has_copies(copies, one, other)
    if "waits" in (line := called("status D1")[1]):
        raise Trouble(f"status says {line}")


def test_many_waiting() -> None:
    """More reports of a member than can be held are read again once its process tells the names."""
    edge, _, (one, other, copies) = copied_pair()
    rests(one)
    has_copies(copies, one, other)
    os.remove(DOOR)
    come_to_nothing(one, MOST_HELD + 500)
    sells(other, 20)
    has_those_of(copies, other)
    await_that("no more than is held", lambda: f", waits for C1 ({MOST_HELD}), " in called("status D1")[1])
    os.kill(edge.process_of(1), signal.SIGKILL)
    edge.hears("C1: serves, behind report")
    one.close()
    one.log_on()
    has_copies(copies, one, other)


def told_names(names: Mapping[int, str], comp_id: str = NAMES[1]) -> bytes:
    """An answer of a process that says that it is of this member: names by their numbers, none of which ends what is Day."""
    words = [f"{len(comp_id)} {comp_id}", *(f"{number} 1 o {len(name)} {name}" for number, name in names.items())]
    return f"done: 7 {' '.join(words)} \n".encode()


class FalseProcess(threading.Thread):
    """Somebody who answers in the place of C1's process: what this says to a number from which on names are asked for."""

    def __init__(self, answer: Callable[[int], bytes] = lambda number: b"") -> None:
        super().__init__(daemon=True)
        os.remove(DOOR)
        self.asked: list[int] = []
        self.socket, self.answer = socket.socket(socket.AF_UNIX), answer
        self.socket.bind(DOOR)
        self.socket.listen(8)
        self.start()

    def run(self) -> None:
        while True:
            try:
                there = self.socket.accept()[0]
            except OSError:
                return
            with there, contextlib.suppress(OSError):  # Who asks may have gone.
                if not (words := there.recv(64).decode()):
                    continue
                number = int(sure(re.fullmatch(r"C1 names (\d+)\n", words))[1])
                self.asked.append(number)
                there.sendall(self.answer(number))

    def says(self, answer: bytes) -> None:
        """Answers so from now on, until that was taken at least once."""
        self.answer, count = lambda _: answer, len(self.asked) + 2
        await_that("two questions", lambda: len(self.asked) >= count)

    def ends(self, edge: Edge, one: Engine) -> None:
        """The process of C1 takes its place again, to which its engine comes back."""
        self.socket.close()
        os.kill(edge.process_of(1), signal.SIGKILL)
        edge.hears("C1: serves, behind report")
        one.close()
        one.log_on()


def test_false_names() -> None:
    """Who has broken into a member's process, or answers in its place, can put nothing into a copy but names that print."""
    edge, _, (one, other, copies) = copied_pair()
    rests(one, "first")
    has_copies(copies, one, other)
    false = FalseProcess()
    rests(one, "second")
    sells(other, 1)
    await_that("a question", lambda: false.asked)
    number = false.asked[-1]
    for answer in (b"", b"\n", b"failed: no\n", b"done: \n", b"done: 7 6 DESK-A \n", b"x" * 5000,
                   b"done: 7 6 DESK-A %d 1 o 5 a\x01b=c \n" % number, b"done: 7 6 DESK\x01A %d 1 o 1 a \n" % number,
                   b"done: 7 6 DESK-A %d 1 o 500 a \n" % number, b"done: 7 6 DESK-A %d 1 o 0  \n" % number,
                   b"done: 7 6 DESK-A %d 1 o 5 abc\n" % number, b"done: 7 99 DESK-A %d 1 o 1 a \n" % number,
                   b"done: 0 6 DESK-A %d 1 o 1 a \n" % number, b"done: 6 DESK-A %d 1 o 1 a \n" % number):
        false.says(answer)
    has_those_of(copies, other)
    expect(len(copies_in(copies, one)), 1)
    false.ends(edge, one)
    has_copies(copies, one, other)


def test_copies_of_whom_the_settings_say() -> None:
    """A process says names, and not whose copies they are: one that says that it is another member's is refused, with a line."""
    edge, _, (one, other, copies) = copied_pair()
    false = FalseProcess(lambda number: told_names({number: "b"}, NAMES[2]))
    rests(one, "a")
    line = f"D1: copies of C1 wait: its process says that it is of {NAMES[2]}, and the settings that it is of {NAMES[1]}"
    edge.hears(line)
    false.says(told_names({1: "b"}, NAMES[2]))
    rests(other, "c", 1)
    has_those_of(copies, other)
    expect(len(copies.history), 1)
    false.ends(edge, one)
    has_copies(copies, one, other)
    expect(sum(line in it for it in edge.lines), 1)


def test_names_of_no_order() -> None:
    """A name of a number that the journal doesn't have yet is none: where a member's record is lost another request gets it."""
    _, _, (one, _, copies) = copied_pair()
    names = {1: {1: "a", 3: "bad"}, 2: {2: "b"}, 3: {3: "c"}}
    false = FalseProcess(lambda number: told_names(names[number]))
    rests(one, "a")
    await_that("the first copy", lambda: copies.pump(0.05) and copies.history)
    at_once(one, ("D", order("b", 1, 1, "50")), ("D", order("c", 1, 1, "50")))
    one.report(_150="0", _11="c")
    has_copies(copies, one)
    expect(sorted(set(false.asked)), [1, 2, 3])


def test_names_of_a_lost_record() -> None:
    """A member's process is started anew, and its record is lost meanwhile: copies have the names that the member is told from
    then on, whatever names its process has told before."""
    edge, port, (one, other, copies) = copied_pair()
    process = children_of(edge.process.pid)["D1"]
    freeze(process)
    rests(one, "first", 10)
    one.send("D", order("second", 1, 10, "51"))
    one.report(_150="0", _11="second")
    one.send("F", cancel("bad", "unknown", 1))  # It has the next number, and the venue never hears of that.
    one.report(_35="9", _11="bad")
    os.kill(process, signal.SIGCONT)
    has_those_of(copies, one)
    process = edge.process_of(1)
    freeze(process)
    shutil.rmtree("edge/C1")
    os.kill(process, signal.SIGKILL)
    edge.hears("C1: serves, behind report")
    one.close()
    one = Engine(port, 1).log_on()
    other.send("D", order("both", 2, 11, "50"))
    other.report(_150="F", _39="2")
    rests(one, "fresh", 1)
    await_that("all copies", lambda: copies.pump(0.05) and len(copies_in(copies, one)) >= 5)
    expect([it["11"] for it in reports_of(one)], ["1", "2", "2", "1", "fresh"])
    expect([it["11"] for it in copies_in(copies, one)], ["first", "second", "2", "1", "fresh"])


def test_slow_member() -> None:
    """A member whose process tells its names slowly holds up no other, and its own copies come as they can be told."""
    edge, _, (one, other, copies) = copied_pair()
    rests(one)
    has_copies(copies, one, other)

    def slowly(number: int) -> bytes:
        time.sleep(0.5)
        return told_names({number: f"a-{number - 2}"})

    false = FalseProcess(slowly)
    come_to_nothing(one, MOST_HELD // 2 + 500)
    sells(other, 20)
    has_those_of(copies, other)
    if ", waits for C1 (" not in (line := called("status D1")[1]):
        raise Trouble(f"status says {line}")
    false.ends(edge, one)
    has_copies(copies, one, other)


def test_doors() -> None:
    """Sessions of copies ask at a socket of their own for names, and for nothing else, and operators ask there for nothing."""
    _, _, (one, copies) = copied_pair(1)
    rests(one)
    has_copies(copies, one)
    for path, words in ((DOOR, "stop"), (DOOR, "status"), (DOOR, "numbers"), (DOOR, "halt ABC"), ("edge/C1/C1.control", "names 1")):
        expect((words, answered(f"C1 {words}\n".encode(), path=path)), (words, b"failed: these are no words to the process of C1\n"))
    expect(os.stat(DOOR).st_mode & 0o777, 0o600)
    expect(os.path.exists("edge/D1/D1.copies"), False)


def test_questions_in_one_look() -> None:
    """However many names are asked for, a member's thread looks into its record once for all of them."""
    subprocess.run(["cc", "-O1", "-shared", "-fPIC", "-o", "looks.so", f"{ROOT}/edge/tests/looks.c", "-ldl"], check=True)
    _, edge, port = pair()
    come_to_nothing(Engine(port).log_on(), AT_ONCE + 50)
    edge.stop()  # Behind that all names are in the record's table.
    Edge(settings(), env={**os.environ, "LD_PRELOAD": os.path.abspath("looks.so"), "LOOKS": os.path.abspath("looks")}).ready()
    with open("looks", "a+", encoding="ascii") as file:
        file.seek(0, os.SEEK_END)
        came = re.sub(rb"^done: \d+ ", b"done: 7 ", answered(b"C1 names 11\n", path=DOOR).rstrip(b"\n"))
        expect((came, len(file.read().split())), (told_names({at: f"a-{at - 1}" for at in range(11, 11 + AT_ONCE)}).rstrip(b"\n"), 1))


def test_journal_lost_again() -> None:
    """Each end of what reads the journal has a line, and status says that nothing reads it as long as that is so."""
    os.symlink(EVENTS, "events")
    edge, _, (one, copies) = copied_pair(1, {"VenueEvents": os.path.abspath("events")})

    def end(name: str, goes: bool = False) -> None:
        await_that("a follower", lambda: followers(edge, "D1"))
        rests(one, name, 1)
        has_copies(copies, one)
        if goes:
            os.rename("events", "away")
        os.kill(followers(edge, "D1")[0], signal.SIGKILL)
        edge.hears("D1: the journal isn't read, and that begins anew: venue-events can't read the journal venue.journal: signal 9")

    end("a")
    end("b")
    end("c", True)
    edge.hears("D1: the journal isn't read, and that begins anew: venue-events can't be started")
    await_that("word of that", lambda: ", doesn't read the journal, " in called("status D1")[1])
    os.rename("away", "events")
    rests(one, "d", 1)
    has_copies(copies, one)
    if "doesn't" in (line := called("status D1")[1]):
        raise Trouble(f"status says {line}")


def test_lost_records() -> None:
    """A member that has lost its record is told all anew, and nothing of that is copied twice. A session of copies that has lost its
    own is told all once more, from number 1 on."""
    edge, port, (one, other, copies) = copied_pair()
    trade(one, other)
    has_copies(copies, one, other)
    before = len(copies.history)
    edge.kill()
    shutil.rmtree("edge/C1")
    edge = Edge(settings()).ready(3)
    copies.close()
    copies.log_on()
    one = Engine(port, 1).log_on()
    rests(one, "fresh", 1)
    await_that("one copy more", lambda: copies.pump(0.05) and len(copies.history) > before)
    copies.settle()
    expect([value(it, "11") for it in copies.history[before:]], ["fresh"])
    edge.kill()
    shutil.rmtree("edge/D1")
    Edge(settings()).ready(3)
    anew = Engine(port, COPIES).log_on()
    await_that("all of it", lambda: anew.pump(0.05) and len(anew.history) > before)
    anew.settle()
    expect(sorted(int(sure(value(it, "17"))) for it in anew.history), sorted(int(sure(value(it, "17"))) for it in copies.history))
    is_same(copies_in(anew, other), reports_of(other), other.sender)
    expect([it["11"] for it in copies_in(anew, one) if not it["11"].isdecimal()], ["fresh"])  # Other names of it are lost.


def test_another_journal() -> None:
    """Where the journal lacks what was copied nothing is told, and that is said."""
    venue, edge, port = pair(1, others=lambda at: [copies_of(at, "C1")])
    one, copies = Engine(port).log_on(), Engine(port, COPIES).log_on()
    rests(one)
    has_copies(copies, one)
    edge.kill()
    venue.kill()
    os.remove(JOURNAL)
    again(venue.port)
    edge = Edge(settings())
    edge.hears("D1: isn't served: its store has report 1 of C1, which the journal hasn't: that is another journal, or an older copy")
    refused(Engine(port, COPIES), "this member can't be served")
    expect([it for it in edge.lines if "D1: serves" in it], [])


def test_journal_unread() -> None:
    """Nobody is let in before the journal is known to have what was copied."""
    with open("events", "w", encoding="ascii") as file:
        file.write(f'#!/bin/sh\nwhile [ "$2" = once ] && [ -e wait ]; do sleep 0.05; done\nexec {EVENTS} "$@"\n')
    os.chmod("events", 0o755)
    edge, port, (one, copies) = copied_pair(1, {"VenueEvents": os.path.abspath("events")})
    rests(one)
    has_copies(copies, one)
    with open("wait", "w", encoding="ascii"):
        pass
    os.kill(children_of(edge.process.pid)["D1"], signal.SIGKILL)
    edge.hears("D1: ready")
    copies.close()
    refused(Engine(port, COPIES), "the journal isn't read yet: try again")
    await_that("its state", lambda: f"D1 ({CLEARER}): reads the journal, away, " in called("status D1")[1])
    os.remove("wait")
    edge.hears("D1: serves, behind report 1")
    copies.log_on()
    rests(one, "b", 1)
    has_copies(copies, one)


def test_reader_of_nothing() -> None:
    """Who takes no copies holds up nobody and isn't let go, and comes to have all of them."""
    _, edge, port = pair(2, others=lambda at: [copies_of(at, "C1 C2", MaxUnsentBytes="65536")])
    one, other, copies = Engine(port, 1).log_on(), Engine(port, 2).log_on(), narrow(port, COPIES)
    rests(one)
    sells(other, 2000)  # Three times as many copies as the edge and the system hold for it.
    sure(copies.socket).setsockopt(socket.SOL_SOCKET, socket.SO_RCVBUF, 1 << 17)  # From now on it takes as much as comes.
    has_copies(copies, one, other)
    expect([it for it in edge.lines if "D1: the client from" in it and " is gone: " in it], [])


def test_held_copies() -> None:
    """Copies that were held are told as fast as they are taken, and not one roomful at each look at the clock: those would take longer
    than a test waits."""
    _, _, (one, copies) = copied_pair(1, MaxUnsentBytes=str(8 * ROOMFUL))
    rests(one)
    has_copies(copies, one)
    os.rename(DOOR, "door")
    come_to_nothing(one, HELD // 2)
    await_that("word of that", lambda: f", waits for C1 ({HELD}), " in called("status D1")[1])
    os.rename("door", DOOR)
    await_that("all copies", lambda: copies.pump(0.05) and len(copies.history) > HELD)
    has_copies(copies, one)


def test_no_room_for_copies() -> None:
    """Where the disk of the copies is full they wait, that is said, and members go on. With room all of them come."""
    with small_disk():
        edge, _, (one, other, copies) = copied_pair(EdgePath="disk/D1", DiskReserve="2000000")
        trade(one, other)
        has_copies(copies, one, other)
        fill("disk", 1000000)
        time.sleep(0.1)  # It is looked at so often.
        before = len(copies.history)
        trade(one, other, "b")
        edge.hears("D1: copies wait: the disk is nearly full")
        copies.settle()
        expect(len(copies.history), before)
        os.remove("disk/ballast")
        has_copies(copies, one, other)


def test_copies_of_an_operators_cancels() -> None:
    """What an operator has cancelled is copied with the text that its member is told; what the edge cancels otherwise has none."""
    _, edge, port = pair(2, others=lambda at: [copies_of(at, "C1 C2")], CancelOnDisconnect="Y")
    one, other, copies = (Engine(port, k).log_on() for k in (1, 2, COPIES))
    rests(one, "a", 5)
    rests(other, "b", 5)
    done("stop C1", "C1: stopped, and the venue has answered the cancel of 1 order")
    expect(value(one.report(_150="4"), "58"), BY_OPERATOR)
    other.close()
    edge.hears("C2: cancels 1 orders: the member is away")
    other.log_on()
    expect(value(other.report(_150="4"), "58"), None)
    has_copies(copies, one, other)


def test_copies_over_a_day() -> None:
    """The numbers of the copies begin anew with their day. What the engine wasn't sent is told again, and the end of a Day order is
    copied as its member is told it."""
    market = Market("2030-01-01 23:59:00", 2, others=lambda port: [copies_of(port, "C1 C2")])
    one, other, copies = (market.engine(k).log_on() for k in (1, 2, COPIES))
    rests(one, "a", 5)
    has_copies(copies, one, other)
    copies.settle()
    copies.close()
    market.edge.hears("D1: the client from")
    one.send("D", order("b", 1, 5, "50", more=GTC))
    one.report(_150="0", _11="b")
    await_kept(one, other)
    market.clock.put("2030-01-02 00:00:00")
    market.edge.hears(f"D1: a new day: {BEGUN}")
    market.edge.hears("D1: 1 reports that it wasn't sent are told again")
    back = market.engine(COPIES).log_on()
    await_that("both", lambda: back.pump(0.05) and len(back.history) >= 2)
    back.settle()
    expect([tuple(value(it, tag) for tag in ("34", "11", "150", "97", "448")) for it in back.history],
           [("1", "b", "0", "Y", one.sender), (value(back.history[-1], "34"), "a", "C", None, one.sender)])
    expect(len(copies_in(back, one)), 2)


def told_again(back: Engine, *members: Engine, since: int = 0) -> None:
    """An engine that begins a day is told again what it wasn't sent in the day before, each report once, in order and marked; and
    behind that so many copies of reports since."""
    wanted = sum(len(reports_of(it)) for it in members)
    back.log_on()
    await_more("all copies", lambda: back.pump(0.05) and len(back.history), wanted)
    back.settle()
    for it in members:
        is_same(copies_in(back, it), reports_of(it), it.sender)
    expect([value(it, "97") for it in back.history], ["Y"] * (wanted - since) + [None] * since)


def begins_a_day(one: Engine) -> Engine:
    """The engine of a member in a new day, whose numbers begin with 1."""
    one.close()
    one.out, one.next, one.greatest = 1, 1, 0
    one.sent.clear()
    return one.log_on()


def on_a_disk(disk: str, **more: Any) -> tuple[Market, Engine, Engine]:
    """A venue, an edge with two members and a session of copies that has its record on a disk, and the engines of the two."""
    market = Market("2030-01-01 12:00:00", 2, others=lambda port: [copies_of(port, "C1 C2", EdgePath=f"{disk}/D1", **more)])
    one, other = (market.engine(k).log_on() for k in (1, 2))
    one.send("D", order("r" * 60, 1, 1000000, "50", more=GTC))
    one.report(_150="0")
    return market, one, other


def test_long_away() -> None:
    """What a reader was long away for is told again in its next day in pieces: there needs to be no room for it a second time."""
    with small_disk():
        market, one, other = on_a_disk("disk", DiskReserve="100000")
        sells(other, 4000, "s" * 50)
        count = await_kept(one, other, folder="disk")
        fill("disk", 1000000)
        market.clock.put("2030-01-02 00:00:00")
        market.edge.hears(f"D1: {count} reports that it wasn't sent are told again")
        told_again(market.engine(COPIES), one, other)


def test_told_again_later() -> None:
    """What is to be told again waits for room on the disk, whatever is killed or lost meanwhile. Until then nobody is let in, and
    numbers aren't set."""
    with small_disk():
        market, one, other = on_a_disk("disk", DiskReserve="2000000")
        sells(other, 2 * PIECE)  # So many pieces that copies would come between them.
        count = await_kept(one, other, folder="disk")
        fill("disk", 1000000)
        market.edge.hears("D1: copies wait: the disk is nearly full")
        market.clock.put("2030-01-02 00:00:00")
        market.edge.hears(f"D1: a new day: {BEGUN}")
        refused(market.engine(COPIES), "what it wasn't sent is being told again: try again")
        failed("numbers D1 5000 1", "D1: its engine is being told again what it wasn't sent: ask once more: nothing was changed")
        rests(begins_a_day(one), "since", 1)
        status = f"D1 ({CLEARER}): tells again what its engine wasn't sent, away, "
        await_that("word of that", lambda: status in called("status D1")[1])
        market.edge.kill()
        changed("D1", at=1, folder="disk")  # As where the system was started anew.
        with open("edge.cfg", encoding="ascii") as file:
            market.edge = Edge(file.read(), env=market.clock.env)
        market.edge.hears("D1: its next number is 1001, behind a gap of 1000")
        market.edge.hears("D1: copies wait: the disk is nearly full")
        os.remove("disk/ballast")
        market.edge.hears(f"D1: {count} reports that it wasn't sent are told again")
        told_again(market.engine(COPIES), one, other, since=1)


def test_numbers_of_copies() -> None:
    """What a reader wasn't sent comes behind numbers that an operator has set, each copy once."""
    edge, _, (one, other, copies) = copied_pair()
    rests(one)
    has_copies(copies, one, other)
    copies.settle()
    copies.close()
    edge.hears("D1: the client from")
    sells(other, 20)
    await_kept(one, other)
    done(f"numbers D1 5000 {copies.out}",
         f"D1: {CLEARER}: next out 5000 instead of {copies.next + 60}; next in {copies.out}, as it was; what it wasn't sent is told "
         "again from 5000 on")
    edge.hears("D1: 60 reports that it wasn't sent are told again")
    copies.log_on()
    has_copies(copies, one, other)
    expect([int(sure(value(it, "34"))) for it in copies.history[1:]], list(range(5000, 5060)))
    expect([value(it, "97") for it in copies.history], [None, *["Y"] * 60])


def test_stock_reader() -> None:
    """QuickFIX's own client takes copies by its own dictionary, and rejects none."""
    _, _, port = pair(2, others=lambda at: [copies_of(at, "C1 C2")])
    one, other, clearer = Engine(port, 1).log_on(), Engine(port, 2).log_on(), TradeClient(port, COPIES).logged_on()
    trade(one, other)
    for it in (one, other):
        it.settle()
    wanted = {it["17"]: name for name, those in ((it.sender, reports_of(it)) for it in (one, other)) for it in those}
    clearer.until(lambda: len(IN.findall(clearer.out)) >= len(wanted))
    came = [printed(it) for it in IN.findall(clearer.out)]
    expect([(value(it, "35"), value(it, "448")) for it in came], [("8", wanted[sure(value(it, "17"))]) for it in came])
    expect(sorted(sure(value(it, "17")) for it in came), sorted(wanted))
    with open(f"log/D1/FIX.4.4-GIKVAND-{CLEARER}.messages.current.log", encoding="ascii") as file:
        expect([it for it in file if "\x0135=3\x01" in it or "\x0135=j\x01" in it], [])


def test_no_reset_of_copies() -> None:
    """A Logon that would drop the copies that were missed is refused, whatever [DEFAULT] allows members: the next one brings them."""
    _, edge, port = pair(1, common={"ResetByMember": "Y"}, others=lambda at: [copies_of(at, "C1")])
    one = Engine(port, 1).log_on("141=Y|")
    one.send("D", order("a", 1, 1, "50"))
    one.report(_150="0", _11="a")
    refused(Engine(port, COPIES), "ResetSeqNumFlag (141) isn't taken", "141=Y|")
    edge.hears("is refused: ResetSeqNumFlag (141) isn't taken")
    has_copies(Engine(port, COPIES).log_on(), one)


def test_settings_of_copies() -> None:
    """What can't be of a session of copies is said in a line, and nothing starts."""
    port = free_port(len(NAMES))
    for changes, wanted in list[tuple[dict[str, object], str]]([
            ({"Member": "C3"}, "Member: isn't D1 to D8, as of a session with DropCopyOf: C3"),
            ({"Member": "D9"}, "Member: isn't D1 to D8, as of a session with DropCopyOf: D9"),
            ({"DropCopyOf": None}, "Member: isn't C1 to C8: D1"),
            ({"DropCopyOf": ""}, "DropCopyOf: is empty"),
            ({"DropCopyOf": "C1 D2"}, "DropCopyOf: has what isn't C1 to C8: D2"),
            ({"DropCopyOf": "C1 C1"}, "DropCopyOf: has one twice: C1"),
            ({"DropCopyOf": "C1 C3"}, "DropCopyPath: is missing: no session of this file is C3"),
            ({"DropCopyOf": "C1 C3", "DropCopyPath": "edge"},
             "DropCopyOf: has no CompID of C3, as C3:DESK-A has one: no session of this file is C3"),
            ({"DropCopyOf": "C1:DESK-X C2"}, "DropCopyOf: has C1:DESK-X, and this file has C1:DESK-A"),
            ({"DropCopyOf": "C1 C1:DESK-A"}, "DropCopyOf: has one twice: C1"),
            ({"DropCopyNames": "129"}, "DropCopyNames: isn't Parties, 115 or 128: 129"),
            ({"MarketData": "Y"}, "MarketData: is for members that trade, and not for a session with DropCopyOf"),
            ({"MaxOpenOrders": "3"}, "MaxOpenOrders: is for members that trade, and not for a session with DropCopyOf"),
            ({"CancelOnDisconnect": "Y"}, "CancelOnDisconnect: is for members that trade"),
            ({"ResetByMember": "Y"}, "ResetByMember: is for members that trade"),
            ({"SocketAcceptPort": port}, "SocketAcceptPort: is the same for C1 and D1")]):
        text = settings_of({"VenuePort": port + 9}, [*members_of(2, port), {**copies_of(port, "C1 C2"), **changes}])
        status, lines = said(text, "--check", "--all")
        if status != 1 or len(lines) != 1 or not lines[0].startswith(f"gikvand-edge: {wanted}"):
            raise Trouble(f"{changes}: wanted {wanted!r}, came {status} {lines}")
    for common, more, wanted in (({"DropCopyOf": "C1"}, dict[str, str](), "DropCopyOf: is of one session, and belongs to its [SESSION]"),
                                 (dict[str, str](), {"DropCopyNames": "115"}, "DropCopyNames: is for a session with DropCopyOf"),
                                 (dict[str, str](), {"DropCopyPath": "edge"}, "DropCopyPath: is for a session with DropCopyOf")):
        text = settings_of({"VenuePort": port + 9, **common}, members_of(1, port, **more))
        expect(said(text, "--check"), (1, [f"gikvand-edge: {wanted}"]))
    alone = settings_of({"VenuePort": port + 9}, [copies_of(port, "C1:DESK-A C2:DESK-B", DropCopyPath="edge")])
    expect(said(alone, "--check"), (0, []))


def test_copies_in_a_file_of_their_own() -> None:
    """A session of copies whose members stand in another file finds their processes by DropCopyPath."""
    _, _, port = pair(1)
    one = Engine(port).log_on()
    with open("edge.cfg", encoding="ascii") as file:
        common = {"VenuePort": sure(re.search(r"VenuePort=(\d+)", file.read()))[1]}
    os.mkdir("copies")
    text = settings_of(common, [copies_of(port, f"C1:{NAMES[1]}", DropCopyPath="edge", EdgePath="copies/D1", FileLogPath="copies/log")])
    Edge(text, words=()).hears("D1: serves, behind report 0")
    copies = Engine(port, COPIES).log_on()
    rests(one)
    has_copies(copies, one)


class Reader(threading.Thread):
    """An engine that takes copies all the time, and comes back whenever its connection or its edge has ended."""

    def __init__(self, port: int, seed: int) -> None:
        super().__init__(daemon=True)
        self.engine, self.chance = Engine(port, COPIES), random.Random(seed)
        self.fault: Exception | None = None
        self.is_done, self.ends = threading.Event(), 0

    def run(self) -> None:
        try:
            while not self.is_done.is_set():
                self.turn()
        except Exception as why:
            self.fault = why

    def turn(self) -> None:
        if not self.engine.socket:
            try:
                self.engine.log_on()
            except (Trouble, OSError):
                self.engine.close()
                time.sleep(0.05)
                return
        self.engine.pump(0.05)
        if self.chance.random() < 0.003:
            self.engine.close()
            self.ends += 1


class Copied(Run):
    """Members that trade, and a session of copies of all. Its process and what reads the journal for it are killed, too."""

    def __init__(self, requests: int, seed: int) -> None:
        words = " ".join(f"C{k}" for k in range(1, MEMBERS + 1))
        super().__init__(requests, seed, True, others=lambda port: [copies_of(port, words)])
        self.ended = [0, 0]  # Processes and readings.

    def strike(self) -> None:
        is_process = self.chance.random() < 0.5
        process = children_of(self.edge.process.pid).get("D1")
        for it in ([process] if process else []) if is_process else followers(self.edge, "D1"):
            self.ended[not is_process] += is_killed(it)
        super().strike()


def test_copies_differential() -> None:
    """Members trade by chance while all is killed: the copies are what they were told, each once, those of a member in order."""
    run = Copied(LONG if os.environ.get("EDGE_LONG") else SHORT, 20250104)
    reader = Reader(run.port, 20250105)
    reader.start()
    run.go()
    compare(run.members)
    wanted = sum(len(reports_of(it.engine)) for it in run.members)
    await_more("all copies", lambda: wanted if reader.fault else len(reader.engine.history), wanted)
    reader.is_done.set()
    reader.join()
    if reader.fault:
        raise reader.fault
    for it in run.members:
        is_same(copies_in(reader.engine, it.engine), reports_of(it.engine), it.engine.sender)
    expect(len(reader.engine.history), wanted)
    if min(*run.kills, *run.ended, reader.ends) < 1:
        raise Trouble(f"too few kills: {run.kills}, {run.ended}, {reader.ends}")


TESTS = [test_copies, test_names_in_the_header, test_nothing_to_ask_for, test_reader_away, test_member_away, test_many_waiting,
         test_false_names, test_copies_of_whom_the_settings_say, test_names_of_no_order, test_names_of_a_lost_record, test_slow_member,
         test_doors, test_journal_lost_again, test_lost_records, test_another_journal, test_journal_unread, test_reader_of_nothing,
         test_held_copies, test_no_room_for_copies, test_copies_of_an_operators_cancels, test_copies_over_a_day,
         test_long_away, test_told_again_later, test_numbers_of_copies,
         test_questions_in_one_look, test_stock_reader, test_no_reset_of_copies, test_settings_of_copies,
         test_copies_in_a_file_of_their_own, test_copies_differential]
