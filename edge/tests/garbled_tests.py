"""What can't be read of a member is passed over, as FIX asks: the session asks for it, and nothing behind it is lost.

The cases are bytes of QuickFIX's acceptance tests 2d, 2i, 2m, 2t, 3b and 3c, and more of their kind. Each is played
against the edge in one write for each message, byte by byte, and in one write for all."""
import contextlib
import os
import shutil
import socket
import subprocess
import time
from collections.abc import Callable, Iterable, Sequence
from typing import Any

from edges import HOST, PATIENCE, ROOT, Edge, Trouble, free_port, members_of, pair, session_files, settings_of
from gikvand.fix import framed, parted, value
from gikvand.words import sure
from hostile_tests import sent
from trading_tests import expect
from venues import await_that

GARBLED = 10    # So many in a row are passed over, and the last one ends the connection.
LONGEST = 4096  # A message has so many bytes at most, where MaxMessageBytes says nothing else.
EXECUTIONS = 1_000_000
FUZZED = 662    # A message has so many bytes at most in the inputs from which libFuzzer begins.
WAYS = ["one by one", "byte by byte", "glued"]
TIME = "20261127-14:33:49"
PARTIES = f"49=TW|52={TIME}|56=ISLD|"
ORDER = f"35=D|34=%d|{PARTIES}11=ID|21=3|40=1|54=1|55=INTC|60={TIME}|"


def raw(text: str) -> bytes:
    return text.replace("|", "\x01").encode()


def good(number: int, kind: str = "0", more: str = "") -> bytes:
    """A message with this number, as the definitions have them."""
    return framed(f"35={kind}|34={number}|{PARTIES}{more}")


def length(by: int) -> bytes:
    """A Heartbeat whose BodyLength is another one by so much, and whose CheckSum is right for that."""
    body = raw(f"35=0|34=2|{PARTIES}")
    front = b"8=FIX.4.4\x019=%d\x01" % (len(body) + by) + body
    return front + b"10=%03d\x01" % (sum(front) % 256)


def sized(size: int, kind: str, number: int, more: str) -> bytes:
    """A message of so many bytes, by the value of its last field."""
    left = size - len(good(number, kind, f"{more}={'x' * 100}|"))
    return good(number, kind, f"{more}={'x' * (100 + left)}|")


def summed(text: str) -> bytes:
    """These fields as they are, with the CheckSum behind them that they have."""
    return raw(text) + b"10=%03d\x01" % (sum(raw(text)) % 256)


BAD = good(2)[:-4] + b"999\x01"  # Its sum is wrong.
LOGON = framed(f"35=A|34=1|{PARTIES}98=0|108=30|141=Y|")

Case = tuple[list[bytes], int | None, int]
# What a member sends behind its Logon, from which number on the edge asks for it again (None: it asks for nothing), and
# the number that comes next.
CASES: dict[str, Case] = {
    "2d and 3c: a garbled tag, and a CheckSum of one digit": ([
        raw(f"8=FIX.4.4|9=52|35=0|34=2|4garbled9=TW|52={TIME}|56=ISLD|10=0|"), good(2),
        raw(f"8=FIX.4.4|9=81|35=D|34=3|49garbled=TW|52={TIME}|56=ISLD|11=ID|21=3|40=1|54=1|55=INTC|10=0|"),
        good(4)], 3, 5),
    "2m: a BodyLength of 30": ([
        raw(f"8=FIX.4.4|9=30|{ORDER % 2}10=142|"), framed(ORDER % 3 + "38=100|44=50.00|")], 2, 4),
    "2m: a BodyLength of 111": ([
        raw(f"8=FIX.4.4|9=111|{ORDER % 2}10=158|"), framed(ORDER % 3 + "38=100|44=50.00|")], 2, 4),
    "2t: MsgType in front of BeginString": ([
        raw(f"35=0|8=FIX.4.4|9=29|34=2|{PARTIES}10=121|"), good(2, "1", "112=HELLO|")], None, 3),
    "2t: MsgType isn't the third": ([summed(f"8=FIX.4.4|9=45|34=2|35=0|{PARTIES}"), good(3)], 2, 4),
    "3b: a wrong CheckSum, and a BodyLength one too small": ([
        raw(f"8=FIX.4.4|9=44|35=0|34=2|{PARTIES}10=256|"), good(2),
        raw(f"8=FIX.4.4|9=73|{ORDER % 3}10=256|"), good(4)], 3, 5),
    "a wrong CheckSum alone": ([BAD, good(3)], 2, 4),
    "a CheckSum of one digit": ([good(2)[:-4] + b"0\x01", good(3)], 2, 4),
    "a garbled tag, length and sum right": ([framed(f"35=0|34=2|4garbled9=TW|52={TIME}|56=ISLD|"), good(3)], 2, 4),
    "junk between": ([good(2), b"junk", good(3)], None, 4),
    "a BodyLength that ends in no digit": ([summed(f"8=FIX.4.4|9=4x|35=0|34=2|{PARTIES}"), good(3)], 2, 4),
    "a BodyLength that isn't the second": ([summed(f"8=FIX.4.4|35=0|9=40|34=2|{PARTIES}"), good(3)], 2, 4),
    "a BodyLength one less": ([length(-1), good(3)], 2, 4),
    "a BodyLength one more": ([length(1), good(3)], 2, 4),
    "a BodyLength 16 more": ([length(16), good(3)], 2, 4),
    "a BodyLength 3,000 more": ([length(3000), good(3)], 2, 4),
    "a BodyLength 16 less": ([length(-16), good(3)], 2, 4),
    "MsgType first": ([summed(f"35=0|8=FIX.4.4|9=40|34=2|{PARTIES}"), good(3)], 2, 4),
    "a message that breaks off": ([good(2)[:60], good(3)], 2, 4),
    "a BeginString that breaks off": ([good(2)[:7], BAD, good(3)], 2, 4),
    "a message that begins twice": ([good(2)[:13], good(2)], None, 3),
    "the end of a message": ([good(2)[-20:], good(2)], None, 3),
    "a message longer than it may be": ([good(2, "0", f"58={'x' * LONGEST}|"), good(3)], 2, 4),
    "nine in a row": ([BAD] * (GARBLED - 1) + [good(3)], 2, 4),
    "nine, and nine behind a good one": (
        [BAD] * (GARBLED - 1) + [good(2)] + [BAD] * (GARBLED - 1), None, 3),
    "as many bytes of junk as may be": ([b"\0" * (GARBLED * LONGEST), good(2)], None, 3),
    "zeros in front of numbers": ([
        framed(f"35=0|34=0002|{PARTIES}"), framed(f"35=4|34=000000003|{PARTIES}123=Y|36=00005|"),
        good(5, "1", "112=ZEROS|").replace(b"\x019=", b"\x019=0000", 1)], None, 6),
}


class Player:
    """A client of the definitions: what it sends are bytes, and what comes are messages; the last one is empty where the
    connection has ended."""

    def __init__(self, port: int, messages: Sequence[bytes] = (), way: str = "one by one") -> None:
        """One that sends a Logon and these; one by one it waits for the Logon's answer first."""
        self.socket = socket.create_connection((HOST, port), PATIENCE)
        self.socket.setsockopt(socket.IPPROTO_TCP, socket.TCP_NODELAY, 1)
        self.rest = b""
        self.came: list[str] = []
        if way == "one by one":
            self.socket.sendall(LOGON)
            self.until("a Logon", lambda it: value(it, "35") == "A")
            self.send(messages)
        elif way == "byte by byte" and sum(map(len, messages)) < 10_000:
            self.send(bytes([it]) for it in LOGON + b"".join(messages))
        else:
            self.send([LOGON + b"".join(messages)])

    def until(self, what: str, is_it: Callable[[str], object]) -> None:
        """Takes in what comes until this has come."""
        end = time.monotonic() + PATIENCE
        while not any(is_it(it) for it in self.came):
            self.socket.settimeout(max(0.01, end - time.monotonic()))
            try:
                data = self.socket.recv(65536)
            except ConnectionResetError:
                data = b""
            except OSError as why:
                raise Trouble(f"{what} didn't come; there were {self.came}") from why
            found, self.rest = parted(self.rest + data)
            self.came += found if data else [""]
            if not data and not is_it(""):
                raise Trouble(f"the connection ended before {what} came; there were {self.came}")

    def send(self, messages: Iterable[bytes]) -> None:
        """Sends these, each in a write of its own, until the edge takes no more."""
        with contextlib.suppress(OSError):  # Whoever asks what came is told that the connection has ended.
            for it in messages:
                self.socket.sendall(it)

    def is_answered(self, edge: Edge) -> None:
        """Waits for the answer to the last TestRequest, and leaves."""
        self.until("the answer to the last TestRequest", lambda it: value(it, "112") == "END")
        self.socket.close()
        edge.hears("the client closed the connection", or_counts="the client from")

    def ends(self, text: str) -> None:
        """The connection ends, by a Logout of this text."""
        self.until("the end", lambda it: not it)
        expect([value(it, "58") for it in self.came if value(it, "35") == "5"], [text])


def definitions(**more: Any) -> tuple[Edge, int]:
    """An edge for the parties of the definitions, in front of a venue, and its port."""
    _, edge, port = pair(common={"SenderCompID": "ISLD"}, TargetCompID="TW", ResetByMember="Y", **more)
    return edge, port


def is_passed_over(edge: Edge, port: int, case: Case, way: str) -> None:
    """What stands between a Logon and a TestRequest is passed over, or is read, as the case says."""
    messages, asked, after = case
    filled = [good(asked, "4", f"43=Y|122={TIME}|123=Y|36={after}|")] if asked else []
    it = Player(port, [*map(mended, messages), *filled, good(after, "1", "112=END|")], way)
    it.is_answered(edge)
    told = [(value(found, "35"), value(found, "7"), value(found, "16"), value(found, "112")) for found in it.came]
    tests = [word for word in ("HELLO", "ZEROS") if any(f"112={word}".encode() in data for data in messages)]
    expect([found for found in told if found[0] not in ("A", "8")],
           [("2", str(asked), "0", None)] * bool(asked) + [("0", None, None, word) for word in (*tests, "END")])


def mended(data: bytes) -> bytes:
    """These bytes with the sum made right of a message that has got zeros."""
    at = data.rfind(b"10=")
    return data[:at] + b"10=%03d\x01" % (sum(data[:at]) % 256) if b"\x019=0000" in data else data


def test_garbled() -> None:
    """Each case, whatever the pieces in which it comes: what is asked for, and that all behind it is read."""
    edge, port = definitions()
    for name, case in CASES.items():
        for way in WAYS:
            try:
                is_passed_over(edge, port, case, way)
            except Trouble as why:
                raise Trouble(f"{name}, {way}: {why}") from why


def test_too_much_garbled() -> None:
    """Ten garbled messages in a row, or as many bytes as ten may have and one more, end the connection with a word."""
    edge, port = definitions()
    for way in WAYS:
        for messages, text in (([BAD] * GARBLED, "10 messages in a row can't be read"),
                               ([good(2)[:40]] * GARBLED + [b"\1x\1"], "10 messages in a row can't be read"),
                               ([framed(f"35=0|{PARTIES}")] * GARBLED, "10 messages in a row can't be read"),
                               ([BAD, framed(f"35=0|{PARTIES}")] * 5, "10 messages in a row can't be read"),
                               ([b"x"] * (GARBLED * LONGEST + 1), "more than 40960 bytes in a row are no message"),
                               ([b"8=FOX" * LONGEST] * 100, "more than 40960 bytes in a row are no message")):
            Player(port, messages, way).ends(f"edge: {text}")
            edge.hears(f"is gone: {text}")


def test_other_version() -> None:
    """A message of another BeginString ends the session by a Logout, as the library has it."""
    edge, port = definitions()
    for begin in (b"FIX.4.2", b"FIX.4.9", b"FIXT.1.1", b"FIX.4.4x"):
        for way in WAYS:
            Player(port, [good(2).replace(b"FIX.4.4", begin), good(3)], way).ends("Incorrect BeginString")
            edge.hears("is gone: Incorrect BeginString")


def test_refused_between() -> None:
    """A message that is refused has a Reject of its own fields, whatever stands in front of it and behind."""
    edge, port = definitions()
    bad = good(3, "D", f"11=A|21=1|58=|{'1=x|' * 40}60={TIME}|")
    for way in WAYS:
        it = Player(port, [good(2, "0", "112=a|"), b"junk", bad, good(4, "1", "112=HELLO|"), BAD,
                           good(5, "1", "112=END|")], way)
        it.is_answered(edge)
        tags = ("35", "45", "371", "372", "373", "112")
        expect([tuple(value(found, tag) for tag in tags) for found in it.came[1:]],
               [("3", "3", "58", "D", "4", None), ("0", *[None] * 4, "HELLO"), ("0", *[None] * 4, "END")])


def test_longest() -> None:
    """A message of MaxMessageBytes passes, in a session and at the door, and one of a byte more doesn't."""
    edge, port = definitions(MaxMessageBytes="256")
    for way in WAYS:
        for size, case in ((256, (None, 3)), (257, (2, 4))):
            message = sized(size, "0", 2, "112")
            expect(len(message), size)
            is_passed_over(edge, port, ([message, *([good(3)] if case[0] else [])], *case), way)
    with socket.create_connection((HOST, port), PATIENCE) as it:
        it.sendall(sized(256, "A", 1, "98=0|108=30|141=Y|553"))
        expect(value(parted(it.recv(65536))[0][0], "35"), "A")
    edge.hears("the client closed the connection")
    expect(sent(port, sized(257, "A", 1, "98=0|108=30|141=Y|553")), b"")
    edge.hears("no message of FIX.4.4, or too long a one")


def test_garbled_strangers() -> None:
    """Who sends anything in front of a Logon is let go at once, though the Logon is right; and so is a bad first message."""
    edge, port = definitions()
    for data in (b"junk" + LOGON, b"\r\n" + LOGON, BAD + LOGON, LOGON[:-4] + b"999\x01" + LOGON, LOGON[20:] + LOGON,
                 LOGON.replace(b"FIX.4.4", b"FIX.4.2") + LOGON, b"x"):
        expect(sent(port, data), b"")
        edge.hears("is let go: what came is no message of FIX.4.4")
    expect(sent(port, framed(f"35=A|34=1|{PARTIES}98=0|108=|") + LOGON), b"")
    edge.hears("is let go: its first message can't be read: field 108 has no value")
    Player(port).socket.close()


def waits_unread(port: int, client: socket.socket) -> bool:
    """Whether something that this client sent to the port hasn't been read, by what the system says of the two."""
    ends = [f":{number:04X}" for number in (port, client.getsockname()[1])]
    with open("/proc/net/tcp", encoding="ascii") as file:
        rows = [line.split() for line in file]
    return any([it[1][-5:], it[2][-5:]] == ends and int(it[4].split(":")[1], 16) for it in rows[1:])


def test_many_pieces() -> None:
    """A first message that comes in more pieces than the edge looks at is let go, before it is whole."""
    edge, port = definitions(MaxMessageBytes="65536")
    first = iter(good(1, "A", f"98=0|108=30|553={'x' * 60_000}|"))
    line = "is let go: its first message comes in too many pieces"
    with socket.create_connection((HOST, port), PATIENCE) as it, contextlib.suppress(OSError):
        for _ in range(60):  # A stranger has ten seconds for all of them.
            if any(line in said for said in edge.lines):
                break
            it.sendall(bytes([next(first) for _ in range(1000)]))
            await_that("a piece that is read", lambda: not waits_unread(port, it), 0.002)
    edge.hears(line)
    Player(port, [good(2, "1", "112=END|")], "byte by byte").is_answered(edge)


def test_garbled_passwords() -> None:
    """The line and the log show how what can't be read begins, and no password in it."""
    edge, port = definitions()
    for way in WAYS:
        for data in (good(2, "A", "98=0|108=30|553=desk|554=s=cret|")[:-4] + b"999\x01", raw("554=s=cret|925=s=cret|"),
                     raw("x|554=s=cret")):
            is_passed_over(edge, port, ([data], None, 2), way)
    it = Player(port, [raw("x|554=s=")])
    edge.hears("can't be read: x|554=***")
    it.send([raw("cret|") + good(2, "1", "112=END|")])
    it.is_answered(edge)
    expect([line for line in edge.lines if "cret" in line], [])
    edge.stop()
    front = session_files(1, "log").replace("GIKVAND-DESK-A", "ISLD-TW")
    for name in ("messages", "event"):
        with open(f"{front}{name}.current.log", encoding="ascii") as file:
            expect("cret" in file.read(), False)


def test_venues_junk() -> None:
    """What isn't the venue, or what it says is no good message: the edge says so, and connects again."""
    with socket.create_server((HOST, 0)) as venue:
        venue.settimeout(PATIENCE)
        edge = Edge(settings_of({"VenuePort": venue.getsockname()[1]}, members_of(1, free_port(1))))
        answer = framed(f"35=A|49=VENUE|56=C1|34=1|52={TIME[:17]}|98=0|108=0|141=Y|")
        for data in (b"HTTP/1.0 400 Bad Request\r\n\r\n", b"x" + answer, answer[:-4] + b"999\x01",
                     framed(f"35=A|49=VENUE|56=C1|34=1|52={TIME[:17]}|98=0|108=0|141=Y|58=|")):
            client, _ = venue.accept()
            with client, contextlib.suppress(ConnectionResetError):
                client.settimeout(PATIENCE)
                client.sendall(data)
                while client.recv(65536):
                    pass
        edge.hears("C1: the venue: what came is no message of the venue")
        known = ("is no message of the venue", ": ready", "C1.db is made", "no answer to the Logon")  # The last one where it is late.
        expect([line for line in edge.lines if not any(it in line for it in known)], [])


def test_setup_without_a_framer() -> None:
    """Where neither the kit's rt nor a framer that was built is there, edge/setup says so, and builds nothing."""
    os.mkdir("edge")
    for name in ("setup", "packages.bash"):
        shutil.copy(f"{ROOT}/edge/{name}", f"edge/{name}")
    os.mkdir("bin")
    for name in ("dirname", "dpkg-query", "env", "bash"):
        os.symlink(sure(shutil.which(name)), f"bin/{name}")
    ran = subprocess.run(["edge/setup"], env={"PATH": os.path.abspath("bin")}, capture_output=True, text=True)
    expect((ran.returncode, ran.stdout), (1, ""))
    if "can't be built without its proved framer" not in ran.stderr:
        raise Trouble(f"edge/setup said {ran.stderr!r}")


def test_framer_fuzz() -> None:
    """A million inputs of libFuzzer: the framer cuts each alike in one piece and in several, within its bounds."""
    if not shutil.which("clang++"):
        raise Trouble("clang++ isn't there: edge/setup --tests installs it")
    subprocess.run(["clang++", "-std=c++14", "-O1", "-g", "-fsanitize=fuzzer,address,undefined",
                    f"-I{ROOT}/edge/src", "-o", "fuzz", f"{ROOT}/edge/tests/framer_fuzz.cpp",
                    f"{ROOT}/crates/edge_frames_c/out/libedge_frames_c.a"], check=True)
    os.mkdir("corpus")
    begins = [b"".join(messages)[:1000] for messages, *_ in CASES.values()]
    begins += [sized(size, "0", 2, "112") for size in (FUZZED - 1, FUZZED, FUZZED + 1)]
    for at, data in enumerate(begins):
        with open(f"corpus/{at}", "wb") as file:
            file.write(bytes([(FUZZED - 22) // 16, 15, at]) + data)
    ran = subprocess.run(["./fuzz", f"-runs={EXECUTIONS}", "-seed=1", "-max_len=1024", "corpus"], capture_output=True,
                         text=True, errors="replace")
    if ran.returncode or f"Done {EXECUTIONS} runs" not in ran.stderr:
        raise Trouble(f"status {ran.returncode}: {ran.stderr[-3000:]}")


TESTS = [test_garbled, test_too_much_garbled, test_other_version, test_refused_between, test_longest,
         test_garbled_strangers, test_many_pieces, test_garbled_passwords, test_venues_junk, test_setup_without_a_framer]
LONG_TESTS = [test_framer_fuzz]
