"""What anybody may make the edge do is bounded, before and behind a Logon: what is read, passwords, who waits at the door,
requests under way. What is over a bound is left unread, or refused in words, and who trades goes on."""
import contextlib
import os
import re
import signal
import socket
import time
from collections.abc import Callable, Iterable
from typing import Any

import sanitized
from canonical_tests import rejected, trades, until
from disk_tests import writes_of
from edges import HOST, PATIENCE, Edge, Trouble, free_port, freeze, in_folders, pair, session_files, stored
from engines import Engine, at_rest, now, order, refused
from gikvand.fix import framed, value
from gikvand.words import sure
from hostile_tests import logon
from protection_tests import figure
from recovery_tests import places
from trading_tests import expect
from venues import Late

PAUSES = (100, 200, 400, 800, 1600)  # Milliseconds behind wrong passwords, one behind the other.
SHARE, OLD, ENDED = 16, 2, 10  # Of the door: places of an address, seconds behind which who is silent may go, or has to.
DOOR, ADDRESSES = 64, 256      # Places of the door, and addresses of which it is known that passwords were wrong.
HANDED = 16                    # So many wait for their member's thread.
SILENCE = 5                    # Seconds that a venue which answers nothing is waited for.
ANSWERED = 100                 # What an answer of the edge itself costs, in messages that go on to the venue.
AT_ONCE = 200                  # So many answers are a second's worth.
MOST_WRITES = 3                # For each message of more; a turn of its own has five at least.
OVERDRAWN = 3 * ANSWERED       # Messages of three seconds.


class From(Engine):
    """An engine that connects from another address of this machine."""

    def __init__(self, address: str, port: int, member: int = 1, **more: Any) -> None:
        super().__init__(port, member, **more)
        self.address = address

    def connect(self) -> "From":
        self.socket, self.rest, self.has_asked = connected(self.port, self.address), b"", False
        return self


def connected(port: int, address: str = HOST) -> socket.socket:
    return socket.create_connection((HOST, port), PATIENCE, (address, 0))


def is_ended(one: socket.socket) -> bool:
    """Whether the other side has ended this connection."""
    one.setblocking(False)
    try:
        return not one.recv(1)
    except BlockingIOError:
        return False
    except OSError:
        return True


def wait_until(what: str, holds: Callable[[], object]) -> None:
    end = time.monotonic() + PATIENCE
    while not holds():
        if time.monotonic() > end:
            raise Trouble(f"{what}: not within {PATIENCE} seconds")
        time.sleep(0.02)


def most_memory(edge: Edge, member: int = 1) -> int:
    """The most memory that the process of a member has had, in bytes; 0 where that tells nothing."""
    if not sanitized.is_measured():
        return 0
    with open(f"/proc/{edge.process_of(member)}/status", encoding="ascii") as file:
        return 1024 * int(sure(re.search(r"VmHWM:\s+(\d+)", file.read()))[1])


def bytes_of(member: int, folder: str) -> int:
    """What the files of a member's folder take."""
    return sum(it.stat().st_size for it in os.scandir(os.path.join(folder, f"C{member}")))


def least_time(seconds: float, act: Callable[[], object], what: str) -> None:
    """What took less than this was read faster than it may be. A busy machine only makes it longer."""
    begin = time.monotonic()
    act()
    if (took := time.monotonic() - begin) < seconds:
        raise Trouble(f"{what} took {took:.2f} s, where {seconds} s are the least")


def answers(one: Engine, count: int, messages: Iterable[tuple[str, str]] = ()) -> None:
    """Sends these messages, and waits for so many answers to TestRequests."""
    for kind, body in messages:
        one.send(kind, body)
    until(one, lambda: sum(value(it, "35") == "0" and value(it, "112") == "x" for it in one.came) >= count)


def test_rate_of_answers() -> None:
    """What the edge has to answer itself is read at a bounded rate, which a new connection doesn't begin anew; requests
    within it, and another member, aren't held up."""
    venue, edge, port = pair(2, MaxReadMessagesPerSecond=str(2 * ANSWERED))
    one, other = Engine(port, 1).log_on(), Engine(port, 2).log_on()
    least_time(2, lambda: answers(one, 8, [("1", "112=x|")] * 50), "eight answers at two in a second")
    for at in range(20):
        other.send("D", order(f"b{at}", 1, 1, "50"))
    other.report(_150="0", _11="b19")
    one.close()
    edge.hears("C1: the client from")
    one.sent = {number: ("0", "") for number in range(1, one.out)}

    def come_and_go() -> None:
        for _ in range(6):
            one.log_on().close()
    least_time(1, come_and_go, "six Logons at two in a second")


def test_read_in_pieces() -> None:
    """Of who sends more than may be read of it several messages are read in one turn, and kept by one sync."""
    venue, edge, port = pair()
    one = Engine(port, 1).log_on()
    process, count = edge.process_of(1), 2 * AT_ONCE
    freeze(process)
    for _ in range(count):  # Half of them are read at once.
        one.send("1", "112=x|")
    before = writes_of(process)
    os.kill(process, signal.SIGCONT)
    answers(one, count)
    if (writes := writes_of(process) - before) > MOST_WRITES * AT_ONCE:
        raise Trouble(f"{writes} writes for {AT_ONCE} messages of more than may be read")


def test_rate_of_looks() -> None:
    """What the edge only looks at, as heartbeats, is read at a bounded rate, too: ten of them are one answer's worth."""
    venue, edge, port = pair(MaxReadMessagesPerSecond=str(2 * ANSWERED))
    one = Engine(port, 1).log_on()
    messages = [("0", "")] * 60 + [("1", "112=x|")]
    least_time(2, lambda: answers(one, 1, messages), "60 heartbeats at twenty in a second")


def test_rate_of_bytes() -> None:
    """Bytes are read at a bounded rate, whatever they are, and no more of them are held than of a look."""
    venue, edge, port = pair(2, MaxReadBytesPerSecond="100000")
    one = Engine(port, 1).log_on()
    begin = most_memory(edge)
    messages = [("0", f"112={'y' * 3900}|")] * 100 + [("1", "112=x|")]
    least_time(2, lambda: answers(one, 1, messages), "400,000 bytes at 100,000 in a second")
    if (grown := most_memory(edge) - begin) > 4 << 20:
        raise Trouble(f"{grown} bytes are held for a client that isn't read")


def test_back_while_unread() -> None:
    """A client that isn't read now leaves and comes back: it finds its place free."""
    venue, edge, port = pair(MaxReadMessagesPerSecond=str(ANSWERED))
    one = Engine(port, 1).log_on()
    for _ in range(100):
        one.send("1", "112=x|")
    answers(one, 1)
    one.close()
    one.sent = {number: ("0", "") for number in range(1, one.out)}
    one.log_on()


def test_report_in_front_of_a_logon() -> None:
    """What is reported while a Logon lies unread isn't sent to its client, who isn't logged on: it is sent behind that."""
    venue, edge, port = pair(2, MaxReadMessagesPerSecond=str(ANSWERED))
    one, other = at_rest(port, "a", 10), Engine(port, 2).log_on()
    for at in range(OVERDRAWN // 2):
        one.send("D", order(f"n{at}", 1, 1, "40", more="59=3|"))  # Each has two reports.
    one.report(_150="4", _11=f"n{at}")
    one.send("2", "7=1|16=0|")  # What is sent again is as much as may be read in some seconds, in which nothing is.
    until(one, lambda: any(value(it, "43") == "Y" and value(it, "11") == f"n{at}" for it in one.came))
    one.close()
    one.sent = {number: ("0", "") for number in range(1, one.out)}
    before = len(one.came)
    one.connect().send("A", f"98=0|108={one.heartbeat}|")
    wait_until("its client", lambda: sum("C1: a client from" in it for it in edge.lines) == 2)
    other.send("D", order("b", 2, 10, "50"))
    other.report(_150="F")
    until(one, lambda: any(value(it, "150") == "F" for it in one.history), 2 * PATIENCE)
    expect(value(one.came[before], "35"), "A")


def passwords_file() -> None:
    with open("passwords", "w", encoding="ascii") as file:
        file.write("desk:secret\n")
    os.chmod("passwords", 0o600)


def test_wrong_passwords() -> None:
    """A wrong password reaches no session: nothing is answered, stored or counted, and the next one waits twice as long.
    Another address doesn't wait, and the right one makes an end of it."""
    def run(number: int) -> None:
        passwords_file()
        venue, edge, port = pair(Username="desk", PasswordFile="passwords")
        one = Engine(port, 1).log_on("553=desk|554=secret|")
        trades(one, "a")
        one.log_out()
        edge.hears("C1: the client from")
        before, stored_, begin = one.next, stored(1), 0.0

        def is_refused(pause: int) -> bool:
            nonlocal begin
            begin = time.monotonic()
            expect(answer(port, one.out, "no"), b"")
            return any(f"looked at in {pause} ms" in line for line in edge.lines)
        for pause in PAUSES:
            wait_until(f"a wait of {pause} ms", lambda: is_refused(pause))
        soon = answer(port, one.out, "secret")  # Too soon.
        if soon and 1000 * (time.monotonic() - begin) >= PAUSES[-1]:
            raise Late(f"the right one came {time.monotonic() - begin:.1f} s behind the last wrong one")
        expect(soon, b"")
        edge.hears("it comes too soon behind a wrong password")
        expect(stored(1), stored_)
        other = From("127.0.0.2", port)
        other.out, other.next = one.out, before
        other.log_on("553=desk|554=secret|")
        expect(other.next, before + 1)
        other.log_out()
        wait_until("an end of the wait", lambda: b"35=A" in answer(port, other.out, "secret"))
        edge.hears("C1: the client from")
        expect(answer(port, 99, "no"), b"")
        edge.hears("looked at in 100 ms")
    in_folders(run, "test_wrong_passwords")


def test_wrong_passwords_of_many() -> None:
    """Of few addresses it is known that passwords from there were wrong. Where there are more the one whose wait ends first
    is forgotten, so that the memory for them is bounded. One that fails again takes no other's place."""
    passwords_file()
    venue, edge, port = pair(Username="desk", PasswordFile="passwords")
    first, *crowd = [f"127.0.{1 + at // 200}.{1 + at % 200}" for at in range(ADDRESSES)]
    for address in (first, *crowd):
        expect(answer(port, 1, "no", address), b"")

    def fails_again(address: str, *pauses: int) -> None:
        time.sleep(1.2)  # Lines of one kind are said some times in a second.
        expect(answer(port, 1, "no", address), b"")
        said = lambda: [line for line in edge.lines if f"a Logon from {address}:" in line and "looked at" in line]
        wait_until("its lines", lambda: len(said()) == len(pauses))
        expect([line.rpartition("in ")[2] for line in said()], [f"{it} ms" for it in pauses])
    fails_again(crowd[0], 100, 200)
    fails_again(first, 100, 200)
    fails_again("127.0.0.2", 100)
    fails_again(crowd[1], 100, 100)


def answer(port: int, number: int, password: str, address: str = HOST) -> bytes:
    """What a Logon by this password brings at once."""
    with connected(port, address) as it:
        it.sendall(logon(number=number, body=f"98=0|108=30|553=desk|554={password}|"))
        it.settimeout(PATIENCE)
        with contextlib.suppress(OSError):
            return it.recv(65536)
        return b""


def test_under_way() -> None:
    """While as many requests as may be wait for the venue no more are read, and all are taken once it goes on; one that
    answers nothing for long has its member's further requests refused in words, and its heartbeats are read."""
    def run(number: int) -> None:
        page = free_port(1)
        venue, edge, port = pair(common={"HttpAcceptPort": page}, MaxRequestsUnderWay="50")
        one, begin = at_rest(port, "a"), time.monotonic()
        venue.pause()
        for at in range(1000):
            one.send("D", order(f"b{at}", 1, 1, "49"))
        wait_until("requests under way", lambda: figure(page, "gikvand_edge_requests_total") >= 51)
        time.sleep(0.5)
        requests = figure(page, "gikvand_edge_requests_total")
        venue.go_on()
        one.report(_11="b999")
        events = {value(it, "150") for it in one.history}
        if "8" in events and time.monotonic() - begin > SILENCE:
            raise Late(f"the venue stood still for up to {time.monotonic() - begin:.1f} s")
        expect((requests, events), (51, {"0"}))
        venue.pause()
        for at in range(60):
            one.send("D", order(f"c{at}", 1, 1, "49"))
        until(one, lambda: any(value(it, "150") == "8" for it in one.reports), PATIENCE + SILENCE)
        if "wait for the venue, which doesn't answer" not in one.report(_150="8"):
            raise Trouble("a refusal doesn't say that the venue answers nothing")
        one.settle()
        venue.go_on()
        one.report(_150="0", _11="c49")
    in_folders(run, "test_under_way")


def test_burst() -> None:
    """A burst of orders that go at once, each with two reports: all reach the venue, and the link stands."""
    burst(40_000)


def test_long_burst() -> None:
    """The same with 200,000 of them."""
    burst(200_000)


def burst(count: int) -> None:
    venue, edge, port = pair()
    one = Engine(port, 1).log_on()
    head = f"49={one.sender}|52={now()}|56={one.target}"
    sure(one.socket).setblocking(False)
    waits, at, ends = b"", 0, 0
    while ends < count:
        if not waits and at < count:
            waits = b"".join(framed(f"35=D|34={one.out + k}|{head}|{order(f'a{at + k}', 1, 1, '50', more='59=3|')}")
                             for k in range(500))
            one.out, at = one.out + 500, at + 500
        with contextlib.suppress(BlockingIOError):
            waits = waits[sure(one.socket).send(waits):] if waits else waits
        if not one.pump(0 if waits else 1):
            raise Trouble("the connection ended")
        ends += sum(value(it, "150") in ("4", "8") for it in one.reports)
        if bad := [it for it in one.reports if value(it, "150") not in ("0", "4")]:
            raise Trouble(f"an order was refused: {bad[0]}")
        for those in (one.reports, one.came, one.history):
            those.clear()
    expect([line for line in edge.lines if "the venue:" in line or "never reached" in line], [])


def test_heartbeat_bounds() -> None:
    """HeartBtInt is 5 to 60; another one is refused in words, and resets nothing."""
    venue, edge, port = pair(ResetByMember="Y")
    one = at_rest(port, "a")
    one.log_out()
    for beat in (0, 4, 61, 86400, 999999999):
        one.heartbeat = beat
        refused(one, "HeartBtInt (108) must be 5 to 60")
        edge.hears("is refused: HeartBtInt (108) must be 5 to 60")
    refused(one, "HeartBtInt (108) must be 5 to 60", "141=Y|")
    expect(places(1), [1])
    for beat in (5, 60):
        one.heartbeat = beat
        one.log_on().log_out()


def test_share_of_the_door() -> None:
    """Who takes an address's share of the door keeps nobody of another address out, nor displaces who has just come from
    its own; who has been silent for some seconds goes first."""
    def run(number: int) -> None:
        venue, edge, port = pair()
        begin = time.monotonic()
        first, more = ([connected(port) for _ in range(count)] for count in (SHARE, 3 * SHARE))
        wait_until("the newest of an address refused", lambda: all(map(is_ended, more)))
        gone = sum(map(is_ended, first))
        took = time.monotonic() - begin
        if took > ENDED - OLD:
            raise Late(f"the newest weren't refused at once, but in {took:.1f} s")
        if gone and took < OLD:
            raise Trouble(f"{gone} of the first are gone in {took:.1f} s")
        From("127.0.0.2", port).log_on().close()
        edge.hears("C1: the client from 127.0.0.2")
        crowd = [connected(port, f"127.0.0.{at}") for at in (3, 4, 5) for _ in range(SHARE)]
        one: Engine = From("127.0.0.6", port)
        one.out = one.next = 2
        one.log_on().close()
        edge.hears("C1: the client from 127.0.0.6")
        first.append(connected(port))  # In the place that was taken of the first ones.
        time.sleep(OLD)
        one = Engine(port)
        one.out = one.next = 3
        one.log_on()
        trades(one, "a")
        lines = [line for line in edge.lines if "too many wait to log on" in line]
        if not 0 < len(lines) < 10:
            raise Trouble(f"{len(lines)} lines of who is let go")
        for it in first + more + crowd:
            it.close()
    in_folders(run, "test_share_of_the_door")


def test_many_handed_over() -> None:
    """Clients that come while their member's thread is held up, by a log that takes no more, wait for it; of those beyond 16
    each is let go with a line."""
    path = session_files(1, "log") + "messages.current.log"
    os.makedirs(os.path.dirname(path))
    os.mkfifo(path)
    log = os.open(path, os.O_RDWR | os.O_NONBLOCK)
    venue, edge, port = pair()
    one = Engine(port, 1).log_on()
    with contextlib.suppress(BlockingIOError):
        while True:
            os.write(log, b"x" * 4096)
    one.send("1", "112=x|")
    crowd: list[socket.socket] = []
    end = time.monotonic() + PATIENCE
    while not (lines := [it for it in edge.lines if "is let go: too many wait to be looked at" in it]):
        expect(time.monotonic() < end, True)
        crowd.append(connected(port))
        with contextlib.suppress(OSError):  # Where the door stood still some of them were too many for it.
            crowd[-1].sendall(logon())
        time.sleep(0.1)
    expect((len(crowd) > HANDED, lines[0].startswith("gikvand-edge: C1: a client from 127.0.0.1:")), (True, True))
    with contextlib.suppress(BlockingIOError):
        while True:
            os.read(log, 4096)
    edge.hears("a second client from 127.0.0.1:")
    os.close(log)


def test_even_shares() -> None:
    """Where the door is full an address gets no place of another one that has hardly more than its own."""
    def run(number: int) -> None:
        venue, edge, port = pair()
        process = edge.process_of(1)
        freeze(process)  # It takes all of them in at one time, in their order.
        crowd = [connected(port, f"127.0.0.{at}") for at in (3, 4, 5, 6) for _ in range(SHARE)]
        own = [connected(port, "127.0.0.7") for _ in range(SHARE)]
        last, begin = DOOR // 5, time.monotonic()
        os.kill(process, signal.SIGCONT)
        wait_until("the last of them refused", lambda: all(map(is_ended, own[last:])))
        left = sum(not is_ended(it) for it in own)
        if left != last and (took := time.monotonic() - begin) >= OLD:
            raise Late(f"the last of them were refused in {took:.1f} s")
        expect(left, last)
        for it in crowd + own:
            it.close()
    in_folders(run, "test_even_shares")


def test_garbled_again() -> None:
    """A message that comes garbled each time that it is asked for ends the session in words, and doesn't leave both sides
    waiting for ever."""
    venue, edge, port = pair()
    one = Engine(port, 1).log_on()
    bad, one.out = one.out, one.out + 1  # A message that the engine sends without a MsgType, each time that it is asked for.
    one.send("0", "112=later|")
    logout = one.next_of("5") or ""
    if f"message {bad} was asked for 3 times, and what came can't be read" not in logout:
        raise Trouble(f"the session wasn't ended in words: {logout}")
    edge.hears(f"is gone: message {bad} was asked for 3 times")
    expect([value(it, "7") for it in one.came if value(it, "35") == "2"], [str(bad)] * 3)
    one.close()
    one.sent = {number: ("0", "") for number in range(1, one.out)}
    one.log_on()
    trades(one, "a")


class Mute(Engine):
    """An engine that sends nothing again, and notes from which numbers on it is asked for that."""

    def __init__(self, port: int, member: int) -> None:
        super().__init__(port, member)
        self.asked: list[int] = []

    def send_again(self, first: int) -> None:
        self.asked.append(first)

    def is_asked(self, *wanted: int) -> None:
        """Waits until it has been asked for these on this connection, in this order."""
        until(self, lambda: len(self.asked) >= len(wanted) or not self.socket)
        expect(self.asked, list(wanted))


def test_garbled_of_two() -> None:
    """What came garbled on one connection isn't counted on the next one, where the same number is asked for."""
    venue, edge, port = pair()
    one = Mute(port, 1).log_on()
    missing, one.out = one.out, one.out + 1
    bad = framed(f"35=0|34={missing}|49={one.sender}|52={now()}|56={one.target}|")[:-4] + b"999\x01"
    for way in ("a message behind the missing one", "a Logon behind it"):
        if way.startswith("a Logon"):
            one.close()
            edge.hears("C1: the client from")
            one.asked.clear()
            one.log_on()
        else:
            one.send("0")
        for count in (1, 2, 3):
            one.is_asked(*[missing] * count)
            if count < 3:
                sure(one.socket).sendall(bad)
    one.write("4", f"123=Y|36={one.out}|", missing, f"43=Y|122={now()}|")
    trades(one, "a")


def test_far_numbers() -> None:
    """A SequenceReset that goes too far is rejected, so that numbers never have more than nine digits."""
    venue, edge, port = pair()
    one = Engine(port, 1).log_on()
    step, most = 100_000_000, 900_000_000
    for to in (one.out + step + 1, 999_999_999):
        one.send("4", f"123=Y|36={to}|")
        rejected(one, _371="36", _372="4", _373="5")
    trades(one, "a")
    while one.out + step <= most:
        to = one.out + step
        one.send("4", f"123=Y|36={to}|")
        one.out = to
    one.send("4", f"123=Y|36={most + 1}|")
    rejected(one, _371="36", _372="4", _373="5")
    trades(one, "b")


TESTS = [test_rate_of_answers, test_read_in_pieces, test_rate_of_looks, test_rate_of_bytes, test_back_while_unread,
         test_report_in_front_of_a_logon, test_wrong_passwords, test_wrong_passwords_of_many, test_under_way,
         test_burst, test_heartbeat_bounds, test_share_of_the_door, test_many_handed_over, test_even_shares,
         test_garbled_again, test_garbled_of_two, test_far_numbers]
LONG_TESTS = [test_long_burst]
