"""Tests of what `gikvand board --feed` makes of a server's bytes, whatever server that is. What it shows of a feed is tried by
feed/check."""
import contextlib
import socket
import threading

import pytest

from gikvand import feed, nats
from venues import PATIENCE

pytestmark = pytest.mark.quick

WHEN = b"\r\nNats-Time-Stamp: 2026-07-21T14:30:05.123456789Z"
OWN = b"\r\nNats-Stream: venue_day_events\r\nNats-Subject: venue.day.events.x"
FIRST = OWN + b"\r\nNats-Sequence: 1"
SECOND = OWN + b"\r\nNats-Sequence: 2"
BEGUN = b"INFO {}\r\nPONG\r\n"
LONG = 3 << 20


@pytest.fixture(autouse=True)
def patience(monkeypatch: pytest.MonkeyPatch) -> None:
    """Lets a reader wait for a server of the tests as long as any test waits."""
    monkeypatch.setattr(nats, "PATIENCE", PATIENCE)


def answered(header: bytes, text: bytes = b"", word: int = 0) -> bytes:
    """The bytes of an answer with this header, to the request of this word."""
    header = b"NATS/1.0" + header + b"\r\n\r\n"
    return b"HMSG a.%d 1 %d %d\r\n%s\r\n" % (word, len(header), len(header) + len(text), header + text)


RIGHT = BEGUN + answered(FIRST + WHEN) + answered(FIRST + WHEN, b"command 0 C1 D ABC -", 1)


def says(listener: socket.socket, data: bytes) -> None:
    """Says this to whoever connects, whatever that sends, and goes."""
    with listener.accept()[0] as ends, contextlib.suppress(OSError):
        ends.sendall(data)
        ends.shutdown(socket.SHUT_WR)
        while ends.recv(1 << 16):
            pass


def heard(data: bytes) -> tuple[list[str], str]:
    """The events that come of a server which says this, and why no more do."""
    with socket.create_server(("127.0.0.1", 0)) as listener:
        threading.Thread(target=says, args=(listener, data), daemon=True).start()
        reader = feed.Feed([feed.place_of(f"nats://127.0.0.1:{listener.getsockname()[1]}/day", None)], None)
        try:
            return reader.come(0), reader.why
        finally:
            reader.end()


def test_right_server() -> None:
    """A message of the number that was asked for comes, with PINGs in front."""
    assert heard(RIGHT) == (["command 0 C1 D ABC -"], "")
    assert heard(BEGUN + b"PING\r\n" + RIGHT[len(BEGUN):]) == (["command 0 C1 D ABC -"], "")


@pytest.mark.parametrize("data, why", (
    (b"", "the server has ended the connection"), (BEGUN, "the server has ended the connection"), (b"x" * LONG, nats.NONE),
    (b"INFO {}\r\n" + b"PING\r\n" * 1000, "the server has ended the connection"),
    (BEGUN + answered(b" 503"), "the stream venue_day_events isn't there now"),
    *((BEGUN + it, nats.NONE) for it in (
        b"MSG\r\n", b"MSG a.0 1 x\r\n", b"MSG a.b 1 0\r\n\r\n", b"MSG a.0 1 -1\r\n", b"MSG a.0 1 99999999\r\n", b"y" * LONG,
        answered(OWN + b"\r\nNats-Sequence: x" + WHEN), answered(FIRST), answered(OWN + b"\r\nNats-Sequence: 0" + WHEN),
        answered(FIRST + b"\r\nNats-Time-Stamp: 2026-07-21"),
        answered(FIRST + WHEN) + answered(FIRST + b"\r\nNats-Time-Stamp: 2026-19-21T14:30:05Z", b"x", 1)))))
def test_other_servers(data: bytes, why: str) -> None:
    """Of what is no server of a feed, or says what none does, nothing comes, and a line says so."""
    assert heard(data) == ([], why)


@pytest.mark.parametrize("other", (
    answered(SECOND + WHEN, b"x", 1), answered(SECOND + WHEN, b"x", 2),
    answered((FIRST + WHEN).replace(b"venue_day", b"venue_night"), b"x", 1)))
def test_answers_to_others(other: bytes) -> None:
    """A message of another number or stream than what was asked for is passed over, and the right one behind it is taken."""
    newest = answered(FIRST + WHEN)
    assert heard(RIGHT.replace(newest, newest + other)) == (["command 0 C1 D ABC -"], "")


@pytest.mark.parametrize("old, new", ((b"venue_day", b"venue_night"), (b"venue.day.events.x", b"venue.day.trades.ABC")))
def test_newest_of_another(old: bytes, new: bytes) -> None:
    """The newest message of another stream or subject is passed over, too."""
    assert heard(BEGUN + answered((SECOND + WHEN).replace(old, new), b"x") + RIGHT[len(BEGUN):]) == (["command 0 C1 D ABC -"], "")


def test_no_server_of_nats() -> None:
    came, why = heard(b"HTTP/1.0 200 OK\r\n")
    assert (came, why.partition(" ")[2]) == ([], "is no server of NATS")


@pytest.mark.parametrize("data", (b"INFO {}\r\n-ERR 'no'\r\n", BEGUN + b"-ERR 'no'\r\n"))
def test_refusals(data: bytes) -> None:
    """A server that refuses ends the reading: asking again would change nothing."""
    with pytest.raises(nats.Trouble, match="refuses.*: 'no'") as raised:
        heard(data)
    assert not isinstance(raised.value, nats.Unheard)


@pytest.mark.parametrize("why", ("Authentication Timeout", "Stale Connection", "Slow Consumer"))
def test_late_readers(why: str) -> None:
    """A server that lets a reader go who answered too late, as on a machine that stood still, is asked again later."""
    for said in (b"INFO {}\r\n", BEGUN):
        came, told = heard(said + f"-ERR '{why}'\r\n".encode())
        assert (came, "refuses" in told, told.endswith(f": '{why}'")) == ([], True, True)


@pytest.mark.soak
def test_a_server_that_says_on(monkeypatch: pytest.MonkeyPatch) -> None:
    """One that says something for ever, and never what was asked for, is left in time."""
    monkeypatch.setattr(nats, "PATIENCE", 0.5)
    with socket.create_server(("127.0.0.1", 0)) as listener:
        def say() -> None:
            with listener.accept()[0] as ends, contextlib.suppress(OSError):
                ends.sendall(BEGUN)
                while True:
                    ends.sendall(b"PING\r\n")
        threading.Thread(target=say, daemon=True).start()
        reader = feed.Feed([feed.place_of(f"nats://127.0.0.1:{listener.getsockname()[1]}/day", None)], None)
        assert (reader.come(0), reader.why) == ([], "the server doesn't answer")
