"""The numbers of a session, as an operator looks at them and sets them: beside a process that runs, and where none does.
What was told, or lost, leaves no hole that an engine doesn't see."""
import contextlib
import os
import re
import shutil
import signal
import subprocess
from collections.abc import Iterable, Iterator

from edges import DICTIONARY, EDGE, JOURNAL, PATIENCE, SYMBOLS, Edge, Trouble, Venue, again, await_that, changed, copied, free_port, freeze
from edges import members_of, pair, path_of, rows, settings_of, started, stored, told
from engines import Engine, at_rest, order
from gikvand.fix import value
from gikvand.words import sure
from process_tests import Undisturbed, sell_to_first, with_others
from recovery_tests import places, restarted, settings, two_members
from switch_tests import UNCHANGED, audited, called, done, failed, resting
from trading_tests import expect

GREATEST = 900000000  # That is taken.
NUMBERS = "SELECT sender, target FROM session"
TOO_LOW = "58=MsgSeqNum too low|"
NOBODY = 65534


def shown(member: int = 1) -> tuple[int, int]:
    """The numbers of a member's session, as the command shows them."""
    status, out, err = called(f"numbers C{member}")
    found = re.fullmatch(r"C(\d): DESK-(.): next out (\d+), next in (\d+)\n", out)
    if status or err or not found or (int(found[1]), found[2]) != (member, "ABCD"[member - 1]):
        raise Trouble(f"numbers: {status} {out} {err}")
    return int(found[3]), int(found[4])


def not_asked(before: int) -> str:
    return f", and what its engine sent from {before} on isn't asked for"


def told_again(count: int, first: int) -> str:
    return f"; {count} reports that it wasn't sent are told again as {first} to {first + count - 1}" if count else ""


def changes(out: int, in_: int, before: tuple[int, int], count: int = 0) -> str:
    """What a command says that sets both numbers, which were these before."""
    more = not_asked(before[1]) if in_ > before[1] else ""
    first = f"{out} instead of {before[0]}" if out != before[0] else f"{out}, as it was"
    second = f"{in_} instead of {before[1]}" if in_ != before[1] else f"{in_}, as it was"
    return f"DESK-A: next out {first}; next in {second}{more}{told_again(count, out)}"


def set_to(out: int, in_: int, count: int = 0) -> str:
    """Sets the numbers of C1, whose process runs, and so many reports come again: what was said."""
    said = changes(out, in_, shown(), count)
    done(f"numbers C1 {out} {in_}", f"C1: {said}")
    return said


def set_alone(out: int, in_: int, before: tuple[int, int], count: int = 0) -> str:
    """Sets the numbers of C1, whose process doesn't run: the line of the log that the command prints as well."""
    status, printed, err = called(f"numbers C1 {out} {in_}")
    said = changes(out, in_, before, count)
    expect((status, printed), (0, f"C1: {said}\n"))
    lines = [it for it in err.splitlines() if ": operator " in it]
    if len(lines) != 1 or not lines[0].endswith(f": numbers {out} {in_}: done: {said}"):
        raise Trouble(f"numbers: {err}")
    return lines[0].partition("C1: ")[2]


def in_the_log(line: str) -> int:
    """How often a line stands among the events of C1's session."""
    with open("log/C1/FIX.4.4-GIKVAND-DESK-A.event.current.log", encoding="ascii") as file:
        return sum(it.rstrip("\n").endswith(f" : {line}") for it in file)


def is_in_the_log(line: str) -> None:
    """Whether a line stands once among these events."""
    expect(in_the_log(line), 1)


def left(edge: Edge, one: Engine) -> None:
    """A member's engine has gone, and its edge knows that."""
    one.close()
    edge.hears(f"C{one.member}: the client from")


def goes_on(one: Engine, out: int, name: str) -> None:
    """An engine whose edge has numbers from this one on sees the gap in front of that, asks for all of it, and trades on."""
    before, since = one.next, one.out
    one.log_on().settle()
    asked = [body for number, (kind, body) in sorted(one.sent.items()) if kind == "2" and number > since]
    expect((asked[:1], one.next > out), ([f"7={before}|16=0|"], True))
    resting(one, name)


def ids(lines: Iterable[str]) -> list[int]:
    return [int(sure(value(it, "17"))) for it in lines if (value(it, "17") or "").isdecimal()]


def test_shown_and_set() -> None:
    """Both numbers are shown, and set while the member is away. Its engine sees the gap, asks for it, and trades on; the edge
    asks for what is below its own expected number. The set ones stand over a kill, and a line of the log says who, when, from
    what to what. Other members' stay."""
    venue, edge, port = pair(2)
    one, other = at_rest(port, "a"), at_rest(port, "x", member=2)
    expect((shown(), shown(2)), ((3, 3), (3, 3)))
    expect(called("numbers all"), (0, "C1: DESK-A: next out 3, next in 3\nC2: DESK-B: next out 3, next in 3\n", ""))
    one.log_out()
    edge.hears("is gone")
    before = shown()
    said = set_to(2000, 50)
    audited(edge, "numbers 2000 50", re.escape(f"done: {said}"))
    line = next(it for it in edge.lines if "numbers 2000 50" in it).partition("C1: ")[2]
    await_that("its line in the log", lambda: in_the_log(line))
    edge.kill()
    edge = restarted(2)
    is_in_the_log(line)
    expect((before, shown(), shown(2), rows(1, NUMBERS)), ((4, 4), (2000, 50), (3, 3), [(2000, 50)]))
    one.out = 50
    goes_on(one, 2000, "b")
    one.log_out()
    edge.hears("is gone")
    out, in_ = shown()
    set_to(out, in_ - 2)  # The order, and the Logout: the edge asks for them, and knows the order.
    one.log_on().settle()
    edge.hears("has been passed on before: b")
    resting(one, "c")
    expect(([value(it, "11") for it in told(1)], [value(it, "150") for it in one.history]), (["1", "2", "3"], ["0"] * 3))
    expect([it for it in edge.lines if "numbers" in it and ("C2" in it or ": numbers: " in it)], [])
    other.close()
    other.log_on()
    expect(len(other.sent), 3)  # Two Logons and an order: it has missed nothing.


def test_numbers_not_set() -> None:
    """Numbers that can't be set change nothing, say why, and end with status 1; wrong words end with status 2. While its engine
    is there a member's numbers stay."""
    venue, edge, port = pair(2)
    one = at_rest(port, "a")
    client = sure(re.search(r"C1: a client from (\S+)", "\n".join(edge.lines)))[1]
    failed("numbers C1 2000 50", f"C1: its engine is there, from {client}, and has to log out first: {UNCHANGED}")
    one.log_out()
    edge.hears("is gone")
    for out, in_, why in ((0, 5, "next out can't be 0: numbers begin with 1"), (5, 0, "next in can't be 0: numbers begin with 1"),
                          (GREATEST + 1, 5, f"next out can't be {GREATEST + 1}, which is above {GREATEST}"),
                          (5, 10 ** 18 - 1, f"next in can't be {10 ** 18 - 1}, which is above {GREATEST}"),
                          (3, 5, "next out 3 is below 4, and its engine would never ask for what stands between")):
        failed(f"numbers C1 {out} {in_}", f"C1: {why}: {UNCHANGED}")
        audited(edge, f"numbers {out} {in_}", re.escape(f"failed: {why}: {UNCHANGED}"))
    expect(shown(), (4, 4))
    failed("numbers C3 5 5", "no session of these settings is of C3")
    for words in (["numbers"], ["numbers", "C1"], ["numbers", "ABC", "edge.cfg"], ["numbers", "C1", "5", "edge.cfg"],
                  ["numbers", "C1", "5", "5"], ["numbers", "all", "5", "5", "edge.cfg"], ["numbers", "C1", "5", "x", "edge.cfg"],
                  ["numbers", "C1", "5", "-5", "edge.cfg"], ["numbers", "C1", "05", "5", "edge.cfg"], ["numbers", "C1", "9" * 19, "5", "edge.cfg"],
                  ["numbers", "ABC", "5", "5", "edge.cfg"], ["stop", "C1", "5", "5", "edge.cfg"]):
        ran = subprocess.run([EDGE, *words], capture_output=True, text=True, timeout=PATIENCE)
        expect((words, ran.returncode, ran.stdout, ran.stderr.partition(":")[0]), (words, 2, "", "usage"))
    set_to(4, GREATEST)
    set_to(GREATEST, 4)
    expect(shown(), (GREATEST, 4))


def test_in_behind_all_numbers() -> None:
    """Where the edge's own numbers are used up, and stay as they are, the engine's one is set all the same."""
    venue, edge, port = pair()
    at_rest(port, "a").log_out()
    edge.stop()
    changed(1, f"UPDATE session SET sender = {GREATEST + 5}")
    edge = restarted()
    set_to(GREATEST + 5, 7)
    expect(shown(), (GREATEST + 5, 7))
    failed(f"numbers C1 {GREATEST + 6} 7", f"C1: next out can't be {GREATEST + 6}, which is above {GREATEST}: {UNCHANGED}")


def test_numbers_not_kept() -> None:
    """Numbers that can't be committed are told as that, and stay."""
    venue, edge, port = pair()
    at_rest(port, "a").log_out()
    edge.stop()
    for name, moment in (("rows", "INSERT ON turns"), ("tables", "UPDATE ON session")):
        changed(1, f"CREATE TRIGGER {name} BEFORE {moment} WHEN NEW.sender > 1999 BEGIN SELECT raise(ABORT, 'none of these'); END")
    edge = restarted()
    failed("numbers C1 2000 50", f"C1: it isn't served: edge/C1/C1.db: none of these: {UNCHANGED}")
    edge.hears("C1: serves, behind report")
    expect(shown(), (4, 4))
    set_to(1999, 4)


def away_while_sold(count: int) -> tuple[Edge, int, Engine, Engine]:
    """An edge, its port, a member that has gone while its order trades, so often, and the other side."""
    _, edge, port, one, other = two_members()
    left(edge, one)
    for at in range(count):
        other.send("D", order(f"s{at}", 2, 10, "50"))
        other.report(_150="F", _11=f"s{at}")
    await_that("all of its fills", lambda: sum(value(it, "150") == "F" for it in stored(1)) == count)
    return edge, port, one, other


def test_unsent_reports() -> None:
    """What a member wasn't sent goes on behind the numbers that were set, once: also to an engine that expects these already,
    and so never asks for what is below them."""
    edge, port, one, other = away_while_sold(3)
    edge.kill()
    edge = restarted(2)
    out, _ = shown()
    set_to(5000, 7, 3)
    expect((shown(), [int(sure(value(it, "34"))) for it in stored(1) if value(it, "150") == "F"]), ((5003, 7), [5000, 5001, 5002]))
    expect(rows(1, "SELECT heard FROM session"), [(5000,)])  # Nothing below is looked through at the end of a day.
    one.next, one.out = 5000, 7
    one.log_on()
    for left_over in ("90", "80", "70"):
        expect(value(one.report(_150="F", _151=left_over), "97"), "Y")
    expect((out < 5000, places(1), ids(one.history)), (True, [int(sure(value(it, "17"))) for it in told(1)], ids(told(1))))
    left(edge, one)
    set_to(6000, shown()[1])
    goes_on(one, 6000, "b")
    expect(ids(one.history), ids(told(1)))


def test_too_low_told() -> None:
    """An engine whose Logon is answered by a number that it has had says so by a Logout, and goes. That is no sign that it has
    got what it wasn't sent, which is told behind the numbers that are set then."""
    edge, port, one, other = away_while_sold(1)
    one.next = 5000
    with contextlib.suppress(Trouble):
        one.log_on()
    one.send("5", TOO_LOW)
    edge.hears("is gone")
    one.close()
    set_to(5000, one.out, 1)
    one.log_on().report(_150="F", _97="Y")
    expect(ids(one.history), ids(told(1)))


def too_low(one: Engine, wanted: object, more: str = "") -> None:
    """An engine that expects this number refuses the number of its Logon's answer, as engines do, and goes."""
    with contextlib.suppress(Trouble):
        one.log_on()
    one.send("5", f"58=MsgSeqNum too low, expecting {wanted} but received {value(one.came[-1], '34')}{more}|")
    with contextlib.suppress(Trouble):
        one.next_of("5")
    one.close()


def test_engine_of_another_day() -> None:
    """An engine whose numbers are above ours, as its day is another one, would pass over what it is told below them without a word: the
    numbers go on with what it expects at once, and it is told again there what it wasn't sent, each report once."""
    edge, port, one, other = away_while_sold(2)
    out, in_ = shown()
    one.next = 5000
    too_low(one, 5000, ": 8=FIX.4.4")
    edge.hears(f"C1: its engine expects number 5000 where {out + 2} is next, as if in another day: the numbers go on with 5000, and 2 "
               "reports that it wasn't sent are told again")
    expect((shown(), rows(1, "SELECT heard FROM session")), ((5002, in_ + 2), [(5000,)]))
    edge.kill()
    edge = restarted(2)
    one.log_on()
    for left_over in ("90", "80"):
        expect(value(one.report(_150="F", _151=left_over), "97"), "Y")
    expect((ids(one.history), places(1)), (ids(told(1)), [int(sure(value(it, "17"))) for it in told(1)]))
    resting(one, "b")


def test_engine_a_little_ahead() -> None:
    """The same where the engine's numbers are so little above ours that the end of its session has used them up."""
    edge, port, one, other = away_while_sold(2)
    out, _ = shown()
    one.next = out + 1
    too_low(one, out + 1)
    edge.hears(f"C1: its engine expects number {out + 1} where {out + 2} is next, as if in another day: the numbers go on with {out + 2}, and "
               "2 reports that it wasn't sent are told again")
    one.log_on()
    for left_over in ("90", "80"):
        expect(value(one.report(_150="F", _151=left_over), "97"), "Y")
    expect(ids(one.history), ids(told(1)))
    resting(one, "b")


def test_told_before_too_low() -> None:
    """What is told behind a Logon's answer that its engine refuses, before the engine says so, hasn't reached it. Where the engine says so
    once more, and has heard nothing since, nothing is told again."""
    _, edge, port, one, other = two_members()
    one.settle()
    left(edge, one)
    one.next = 5000
    with contextlib.suppress(Trouble):
        one.log_on()
    number = value(one.came[-1], "34")
    other.send("D", order("s", 2, 10, "50"))
    other.report(_150="F", _11="s")
    await_that("its fill", lambda: [value(it, "150") for it in stored(1)].count("F") == 1)  # Which its own process takes.
    one.send("5", f"58=MsgSeqNum too low, expecting 5000 but received {number}|")
    edge.hears("the numbers go on with 5000, and 1 reports that it wasn't sent are told again")
    one.close()
    one.next = 6000
    too_low(one, 6000)
    edge.hears("is gone")
    expect((shown()[0] < 6000, [it for it in edge.lines if "its engine expects number 6000" in it]), (True, []))
    one.next = 5000
    one.log_on().report(_150="F", _97="Y")
    expect(ids(one.history), ids(told(1)))


def test_words_of_another_day() -> None:
    """Numbers go by an engine's word alone where that is a number above ours, and not too far; else the session ends as it does."""
    edge, port, one, other = away_while_sold(1)
    out, in_ = shown()
    for count, wanted in enumerate((2, 10 ** 8 + 100, 9 * 10 ** 8 + 1, 10 ** 9, 10 ** 20, "", "x", "-9", "70 but received 5000", "7 0",
                                    f"{out} but received 3"), 1):
        one.next = 4000
        too_low(one, wanted)
        edge.hears("C1: the client from")
        expect((wanted, shown()), (wanted, (out + 2 * count, in_ + 2 * count)))
    far = [it.partition("is next, ")[2] for it in edge.lines if "its engine expects" in it]
    expect(far, ["as if in another day: that is too far away"] * 2)
    one.next = out - 1
    one.log_on().report(_150="F")
    expect(ids(one.history), ids(told(1)))


class Waiting(Engine):
    """An engine that sends nothing again before it has all that it lacks itself."""
    asked: int | None = None

    def send_again(self, first: int) -> None:
        self.asked = first

    def pump(self, seconds: float = 0.0) -> bool:
        stands = super().pump(seconds)
        if self.asked is not None and self.next > self.greatest:
            first, self.asked = self.asked, None
            super().send_again(first)
        return stands


def test_long_resend_before_the_first_number() -> None:
    """An engine asks for more than a piece of numbers while the edge awaits its first one, as where both lack some behind a power cut. No
    piece counts as that first number, and the engine, which fills it then, trades on."""
    _, _, port = pair()
    set_to(1500, 1)
    one = Waiting(port)
    one.send("0")  # Which nobody hears.
    one.log_on()
    resting(one, "a")
    one.settle()
    expect((shown()[1], 1), (one.out, sum(kind == "2" for kind, _ in one.sent.values())))


def test_in_front_of_the_journal() -> None:
    """Numbers are set while the venue isn't there, on a record that an older copy has taken the place of. What the journal
    tells behind that comes with numbers above the set ones."""
    venue, edge, port = pair()
    one = at_rest(port, "a")
    one.log_out()
    edge.stop()
    copied(1, "copy")
    edge = restarted()
    one.log_on()
    resting(one, "b", "c")
    edge.kill()
    venue.kill()
    os.replace(path_of(1, "copy"), path_of(1))
    with contextlib.suppress(FileNotFoundError):
        os.remove(f"{path_of(1)}-wal")
    changed(1)
    edge = Edge(settings())
    edge.hears("C1: the venue: ")
    expect(shown()[0] < 10, True)
    one.close()
    set_to(9000, one.out)
    again(port, 1, venue.port)
    edge.hears("C1: serves, behind report")
    expect([int(sure(value(it, "34"))) >= 9000 for it in stored(1) if value(it, "11") == "edge-lost-3"], [True])
    one.next = 9000
    one.log_on().settle()
    expect((ids(one.history[-2:]), shown()[0] < 9100), (ids(told(1))[-2:], True))
    resting(one, "d")


def test_numbers_over_a_day() -> None:
    """A day has ended since the process stopped. Numbers that are set then are those of the day that has begun."""
    venue, edge, port = pair()
    at_rest(port, "a").log_out()
    edge.stop()
    changed(1, "UPDATE session SET created = '20250102-09:30:00'")
    set_alone(2000, 50, (1, 1))
    edge = restarted()
    expect((shown(), rows(1, NUMBERS)), ((2000, 50), [(2000, 50)]))


def alone() -> tuple[Venue, Edge, Edge, str, int, Engine, Undisturbed]:
    """A venue, an edge of C2 and C3, one of C1 in a process that nobody starts again, all their settings, the port of C1,
    C1's engine with an order at rest, and two who trade."""
    venue, port = started(JOURNAL, 3, list(SYMBOLS)), free_port(3)
    common, sessions = {"VenuePort": venue.port}, members_of(3, port)
    others = Edge(settings_of(common, sessions[1:])).ready(2)
    text = settings_of(common, sessions)
    edge = Edge(text, words=("--member", "C1"))
    edge.hears("C1: serves, behind report")
    return venue, others, edge, text, port, at_rest(port, "a", 100), Undisturbed(others, port)


def lost(one: Engine) -> tuple[int, int]:
    """The engine of C1 knows more of its session than the edge, which has lost its record. Its numbers: what it is told next,
    and what it sends next."""
    one.close()
    one.next, one.out = 5000, 3000
    one.reports.clear()
    return one.next, one.out


def told_as_the_journal(one: Engine, since: int) -> None:
    """What this engine was told from a place of its history on is what the journal has, report by report, and each once."""
    one.settle()
    got = [(value(it, "17"), value(it, "150"), value(it, "39"), value(it, "32"), value(it, "151")) for it in one.history[since:]]
    expect(got, [(value(it, "17"), value(it, "150"), value(it, "39"), value(it, "32"), value(it, "151")) for it in told(1)])


def test_lost_store() -> None:
    """A member's process stops, and its folder is lost, while others trade. Its numbers are set as docs/OPERATING.md has it, and
    the next start tells its engine all that the journal has. The others have noticed nothing."""
    venue, others, edge, text, port, one, traders = alone()
    sell_to_first(traders, "s0", 10)
    one.report(_150="F")
    edge.stop()
    sell_to_first(traders, "s1", 10)
    shutil.rmtree("edge/C1")
    traders.trade(3)
    out, in_ = lost(one)
    line = set_alone(out, in_, (1, 1))
    traders.trade(3)
    edge = Edge(text, words=("--member", "C1"))
    edge.hears("C1: serves, behind report")
    is_in_the_log(line)
    since, before = len(one.history), one.next
    one.log_on()
    one.report(_150="F", _151="80")
    told_as_the_journal(one, since)
    expect(([body for kind, body in one.sent.values() if kind == "2"], value(one.history[since], "11")), ([f"7={before}|16=0|"], "1"))
    resting(one, "b")
    sell_to_first(traders, "s2", 10)
    one.report(_150="F", _151="70")
    traders.trade(3)
    traders.look()
    expect([it for it in edge.lines if "passed on before" in it], [])


def test_lost_store_beside_others() -> None:
    """The same where one process keeps those of all members, and starts the one anew that has lost its folder: its engine may
    come in front of the operator, and is told that its numbers are others. They are set while the process runs."""
    venue, edge, port, one, traders = with_others()
    sell_to_first(traders, "s0", 10)
    one.report(_150="F")
    freeze(edge.process_of(1))
    shutil.rmtree("edge/C1")
    os.kill(edge.process_of(1), signal.SIGKILL)
    edge.hears("C1: its process ended by signal 9")
    sell_to_first(traders, "s1", 10)
    out, in_ = lost(one)
    edge.hears("C1: serves, behind report")
    with contextlib.suppress(Trouble):
        one.log_on()
    left(edge, one)
    traders.trade(3)
    one.out, count = in_, len(told(1))
    set_to(out, in_, count)
    since = len(one.history)
    one.log_on()
    one.report(_150="F", _151="80")
    told_as_the_journal(one, since)
    expect([value(it, "97") for it in one.history[since:]], ["Y"] * count)
    resting(one, "b")
    traders.trade(3)
    traders.look()


def test_numbers_without_a_process() -> None:
    """Where no process runs the record itself is looked at, and set. A look changes nothing; where there is no record it says
    so. A process that starts at the same time and the command keep one another away. What is made is its folder's owner's."""
    shutil.copy(DICTIONARY, "dictionary.xml")  # Which its folder's owner may read.
    venue, edge, port = pair(common={"DataDictionary": "dictionary.xml"})
    one = at_rest(port, "a")
    one.log_out()
    edge.stop()
    changed(1)  # (so that another commit would have another second)
    before = rows(1, "SELECT * FROM session")
    expect((shown(), rows(1, "SELECT * FROM session")), ((4, 4), before))
    status, out, err = called("numbers C1 3 4")
    expect((status, out), (1, ""))
    expect(f"C1: next out 3 is below 4, and its engine would never ask for what stands between: {UNCHANGED}" in err, True)
    set_alone(2000, 50, (4, 4))
    expect((shown(), rows(1, NUMBERS)), ((2000, 50), [(2000, 50)]))
    with edge_that_holds("edge/C1"):
        status, out, err = called("numbers C1 3000 50")
        why = "its process doesn't run, and its record can't be used: EdgePath: is another edge's: edge/C1"
        expect((status, out, err.splitlines()[-1:]), (1, "", [f"gikvand-edge: C1: {why}"]))
    one.out = 50
    edge = restarted()
    goes_on(one, 2000, "b")
    edge.stop()
    shutil.rmtree("edge/C1")
    why = "its process doesn't run, and its record can't be used: edge/C1/C1.db isn't there, so numbers begin with 1"
    failed("numbers C1", f"C1: {why}")
    expect(os.path.exists("edge/C1"), False)
    if os.getuid():
        return
    os.chmod(".", 0o755)
    for folder, _, names in [it for top in ("edge", "log") for it in os.walk(top)]:
        for name in ("", *names):
            os.chown(os.path.join(folder, name), NOBODY, NOBODY)
    set_alone(2000, 50, (1, 1))
    expect({os.stat(os.path.join("edge/C1", it)).st_uid for it in ("", *os.listdir("edge/C1"))}, {NOBODY})


@contextlib.contextmanager
def edge_that_holds(folder: str) -> Iterator[None]:
    """Within this another process has the lock of a member's folder."""
    script = "import fcntl, sys; file = open(sys.argv[1], 'a'); fcntl.flock(file, fcntl.LOCK_EX); print(flush=True); sys.stdin.read()"
    with subprocess.Popen(["python3", "-c", script, os.path.join(folder, "lock")], stdin=subprocess.PIPE,
                          stdout=subprocess.PIPE) as it:
        sure(it.stdout).readline()
        try:
            yield
        finally:
            it.kill()


TESTS = [test_shown_and_set, test_numbers_not_set, test_in_behind_all_numbers, test_numbers_not_kept, test_unsent_reports,
         test_too_low_told,
         test_engine_of_another_day, test_engine_a_little_ahead,
         test_told_before_too_low, test_words_of_another_day, test_long_resend_before_the_first_number, test_in_front_of_the_journal, test_numbers_over_a_day, test_lost_store,
         test_lost_store_beside_others, test_numbers_without_a_process]
