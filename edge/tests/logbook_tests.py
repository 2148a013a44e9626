"""What is written and what is sent again is bounded: lines, logs, and the answer to a ResendRequest of many messages."""
import datetime
import os
import re
import time

from bounds_tests import bytes_of, most_memory, wait_until
from canonical_tests import rejected, trades, until
from edges import PATIENCE, Edge, Trouble, pair, session_files
from engines import Engine, at_rest, order
from gikvand.fix import value
from gikvand.words import sure
from hostile_tests import sent
from recovery_tests import restarted, settings
from trading_tests import expect

PIECE = 1000       # Messages of a resend that are sent in one go,
A_RATE = 500       # and in a second: a busy machine reads more of them than that, so that a test tells who sends at any rate.
LOGGED_AGAIN = 20  # Messages of a resend that are logged again.


def test_lines() -> None:
    """Lines of one kind are said some times in a second, and those that aren't are counted."""
    venue, edge, port = pair()
    begin = time.monotonic()
    for _ in range(200):
        expect(sent(port, b"junk" * 10), b"")
    took = time.monotonic() - begin
    said = lambda: [line for line in edge.lines if "what came is no message of FIX.4.4" in line]
    counts = lambda: [int(found[1]) for line in edge.lines if (found := re.search(r"C1: (\d+) more lines like this one", line))]
    wait_until("all lines counted", lambda: len(said()) + sum(counts()) == 200)
    if len(said()) > 20 * (took + 2) or (took < 8 and not counts()):  # In more time each of them may be said.
        raise Trouble(f"{len(said())} lines in {took:.1f} s, and {counts()} weren't said")


def test_lines_of_many_kinds() -> None:
    """However many kinds of lines a client brought forth, lines of a later second are counted by their own kind."""
    venue, edge, port = pair(MaxReadMessagesPerSecond="0")
    one = Engine(port, 1).log_on()

    def junk(word: str) -> None:
        sure(one.socket).sendall(word.encode())
        one.send("0")
    for first in "abcdefghij":
        for second in "abcdefghij":
            junk(first + second)
    one.settle()
    time.sleep(1.2)  # Kinds are those of a second.
    end = time.monotonic() + PATIENCE
    while not any("more lines like this one: a message can't be read: zz" in it for it in edge.lines):
        junk("zz")
        if time.monotonic() > end:
            raise Trouble(f"the lines are {edge.lines[-4:]}")


def log_lines(kind: str = "messages") -> tuple[list[str], list[bytes]]:
    """The files of a log from the oldest on, and all their lines."""
    front = f"{session_files(1, 'log')}{kind}."
    paths = [path for at in range(20, 0, -1) if os.path.exists(path := f"{front}backup.{at}.log")] + [f"{front}current.log"]
    lines = []
    for path in paths:
        with open(path, "rb") as file:
            lines += file.read().split(b"\n")[:-1]
    return paths, lines


def moment_of(line: bytes) -> float:
    """When a line of a log says that it was written, in seconds."""
    there = datetime.datetime.strptime(line[:24].decode(), "%Y%m%d-%H:%M:%S.%f")
    return there.replace(tzinfo=datetime.timezone.utc).timestamp()


def test_log_times() -> None:
    """Each line of a log begins with the moment in which it was written."""
    begin = time.time()
    venue, edge, port = pair()
    one = at_rest(port, "a")
    time.sleep(1.1)
    middle = time.time()
    one.send("D", order("b", 1, 1, "50"))
    one.report(_150="0", _11="b")
    moments = [moment_of(line) for line in log_lines()[1]]
    expect((moments, begin <= moments[0], middle <= moments[-1] <= time.time()), (sorted(moments), True, True))


def test_log_bounds() -> None:
    """A log begins anew at its size, keeps so many files and no more, and the last lines are all there."""
    venue, edge, port = pair(MaxLogBytes="65536", MaxLogFiles="3")
    one = Engine(port, 1).log_on()
    for _ in range(3000):
        one.send("0")
    one.settle()
    paths, lines = log_lines()
    sizes = [os.path.getsize(it) for it in paths]
    if len(paths) != 3 or not all(50000 < it <= 65536 for it in sizes[:-1]) or sizes[-1] > 65536:
        raise Trouble(f"the log has files of {sizes}")
    numbers = [int(sure(re.search(rb"\x0134=(\d+)\x01", it))[1]) for it in lines if b"\x0135=0\x01" in it and b"49=DESK-A" in it]
    expect((numbers, len(numbers) > 1000), (list(range(numbers[0], numbers[0] + len(numbers))), True))
    edge.stop()
    edge = restarted()
    one.close()
    one.log_on()
    for _ in range(1000):  # So many that the file of before is still there.
        one.send("0")
    one.settle()
    paths = log_lines()[0]
    expect((len(paths), max(map(os.path.getsize, paths)) <= 65536), (3, True))


def test_log_forgery() -> None:
    """What doesn't print is in the log by its number, so that nobody writes a line of its own."""
    venue, edge, port = pair()
    one = Engine(port, 1).log_on()
    one.send("D", order("a", 1, 1, "50", more="58=x\n20261127-00:00:00 : 8=FIX\\x0A\x80|"))
    rejected(one, _371="58")
    one.settle()
    lines = log_lines()[1]
    expect(any(rb"58=x\x0A20261127-00:00:00 : 8=FIX\x5Cx0A\x" in it for it in lines), True)
    expect([it for it in lines if not re.fullmatch(rb"\d{8}-[0-9:.]+ : 8=FIX[ -~\x01]*", it)], [])


def test_long_resend() -> None:
    """A ResendRequest of many messages: they come in pieces at a bounded rate, a new report between two of them, hardly any
    is logged again, and none of it is held in memory."""
    venue, edge, port = pair(2, MaxReadMessagesPerSecond="0", MaxUnsentBytes="65536")
    one, other, count = at_rest(port, "a", 100), Engine(port, 2).log_on(), 12 * PIECE
    for at in range(count):
        one.send("D", order("a", 1, 1, "50"))
        one.pump()
        if at % 500 == 499:
            one.settle()
    one.settle()
    one.close()
    edge.stop()
    edge = Edge(settings().replace("MaxReadMessagesPerSecond=0", f"MaxReadMessagesPerSecond={A_RATE}")).ready(2)
    begin, logged = most_memory(edge), bytes_of(1, "log")
    other.close()
    other.log_on()
    one.log_on()
    one.send("0")
    last, begin_at = one.next - 1, len(one.came)
    one.send("2", "7=1|16=0|")
    begin_time = time.monotonic()
    until(one, lambda: any(value(it, "43") == "Y" for it in one.came[begin_at:]))
    other.send("D", order("b", 2, 1, "50"))
    ends = lambda it: value(it, "43") == "Y" and (int(sure(value(it, "34"))) >= last - 2 or int(value(it, "36") or 0) >= last)
    until(one, lambda: any(ends(it) for it in one.came[begin_at:]) and any(value(it, "150") == "F" for it in one.came),
          4 * PATIENCE)
    if (took := time.monotonic() - begin_time) < count / A_RATE - 2:
        raise Trouble(f"a resend of {count} messages took {took:.2f} s, where {A_RATE} are sent in a second")
    came = one.came[begin_at:]
    fill = next(at for at, it in enumerate(came) if value(it, "150") == "F")
    again = [at for at, it in enumerate(came) if value(it, "43") == "Y"]
    if fill > again[-1]:
        raise Trouble(f"a report came behind {len(again)} messages that were sent again")
    numbers = sorted({int(sure(value(came[at], "34"))) for at in again if value(came[at], "35") == "8"})
    expect(len(numbers), count + 1)
    one.settle()
    if (grown := most_memory(edge) - begin) > 4 << 20:
        raise Trouble(f"a resend of {count} messages takes {grown >> 10} KB of memory")
    if (grown := bytes_of(1, "log") - logged) > 300 * LOGGED_AGAIN + 20000:
        raise Trouble(f"a resend of {count} messages is {grown >> 10} KB of log")


def test_resends_logged() -> None:
    """The log has the first messages of each resend, also of one that comes behind another."""
    venue, edge, port = pair()
    one = at_rest(port, "a")
    for _ in range(2 * LOGGED_AGAIN):
        one.send("D", order("a", 1, 1, "50"))
        one.report(_150="8")
    for at in range(1, 4):
        one.send("2", "7=1|16=0|")
        one.settle()
        expect(sum(b"\x0143=Y\x01" in it for it in log_lines()[1]), at * LOGGED_AGAIN)


def test_resend_while_resending() -> None:
    """Who asks again while a long resend is under way is answered from there on, and all comes in the end."""
    venue, edge, port = pair(MaxReadMessagesPerSecond="0")
    one, count = at_rest(port, "a"), 3 * PIECE
    for at in range(count):
        one.send("D", order("a", 1, 1, "50"))
        if at % 500 == 499:
            one.settle()
    expected = one.next
    for _ in range(5):
        one.send("2", "7=1|16=0|")
    one.send("2", f"7={expected - 10}|16=0|")
    one.settle()
    until(one, lambda: any(value(it, "43") == "Y" and int(value(it, "36") or 0) >= expected for it in one.came) or
          any(value(it, "43") == "Y" and int(sure(value(it, "34"))) >= expected - 1 for it in one.came))
    trades(one, "z")
    expect([it for it in one.came if value(it, "35") == "2"], [])  # Each of them was counted, so that none is asked for.


TESTS = [test_lines, test_lines_of_many_kinds, test_log_times, test_log_bounds, test_log_forgery, test_long_resend,
         test_resends_logged, test_resend_while_resending]
