"""Tests of `gikvand board` as browsers meet it: its server, whatever they ask, how slow they are and when they
leave; and its words and ends."""
import contextlib
import itertools
import json
import os
import select
import signal
import socket
import time
from collections.abc import Iterator
from typing import Any, BinaryIO
from unittest import mock

import pytest

from days import made
from gikvand import board, follow, pages
from made_journals import JOURNAL, contents, gikvand, put
from running_tools import Running, kept_ports
from venues import HOST, PATIENCE, Trouble, await_that, replay

pytestmark = [pytest.mark.slow, pytest.mark.usefixtures("programs")]


def port_in(address: str) -> int:
    return int(address.split(":")[2].split("/")[0])


def asked(address: str, request: bytes) -> bytes:
    """What a server answers to these bytes."""
    with socket.create_connection((HOST, port_in(address)), PATIENCE) as it:
        it.sendall(request)
        return b"".join(iter(lambda: it.recv(65536), b""))


def get(path: str, host: str = "127.0.0.1:1", more: str = "") -> bytes:
    return f"GET {path} HTTP/1.0\r\nHost: {host}\r\n{more}\r\n".encode("latin-1")


PAGE = "<script>x</script><style>y</style>"


@pytest.mark.soak
def test_requests() -> None:
    """The page is there under its name alone; every other request is refused, with none of its own words in the
    answer."""
    with pages.serving(0, PAGE, pages.Shown()) as address:
        folder = address[address.index("/", 7):]
        assert (len(folder) > 12, address.startswith("http://127.0.0.1:")) == (True, True)
        for host in ("127.0.0.1:5", "localhost:5", "localhost", "127.0.0.1"):
            head, _, body = asked(address, get(folder, host)).partition(b"\r\n\r\n")
            assert (head.split(b"\r\n")[0], body.decode()) == (b"HTTP/1.0 200 OK", PAGE)
            for line in (b"Content-Security-Policy: default-src 'none'; script-src 'sha256-",
                         b"Cache-Control: no-store", b"X-Content-Type-Options: nosniff", b"Referrer-Policy: no-referrer"):
                assert (line, line in head) == (line, True)
        other = "127.0.0.2", port_in(address)
        with contextlib.suppress(ConnectionRefusedError), socket.create_connection(other, PATIENCE):
            raise Trouble("it is reached by another address than 127.0.0.1")
        evil = "<script>alert(1)</script>"
        for status, request in ((404, get("/")), (404, get("/events")), (404, get(f"{folder}{evil}")),
                                (404, get(f"/{evil}/")), (404, get(f"{folder}../board.py")),
                                (404, get(f"{folder}?{evil}")), (404, get(folder[:-2])),
                                (421, get(folder, "evil.example")), (421, get(folder, "127.0.0.1.evil.example")),
                                (421, get(f"{folder}events", "evil.example:80")),
                                (421, f"GET {folder} HTTP/1.0\r\n\r\n".encode()),
                                (501, get(folder).replace(b"GET", b"POST")),
                                (501, get(folder).replace(b"GET", evil.encode())),
                                (400, f"GET {evil} {evil} {evil}\r\n\r\n".encode()), (400, b"\xff\xfe\r\n\r\n"),
                                (414, get("/" + "x" * 70000)), (431, get(folder, more=f"X: {'x' * 70000}\r\n"))):
            answer = asked(address, request)
            head, _, body = answer.partition(b"\r\n\r\n")
            assert (request[:80], head.startswith(b"HTTP/1.0 %d " % status), b"script" in body) == (request[:80], True, False)


def listening(address: str) -> socket.socket:
    """A browser that listens."""
    it = socket.create_connection((HOST, port_in(address)), PATIENCE)
    it.sendall(get(f"{address[address.index('/', 7):]}events"))
    return it


@pytest.mark.soak
def test_browsers() -> None:
    """Who listens hears the newest at once, and what comes, while another takes nothing. One that leaves is let go."""
    shown = pages.Shown()
    with mock.patch.object(pages, "A_SIGN", 0.1), pages.serving(0, PAGE, shown) as address:
        deaf, one = listening(address), listening(address)
        heard = one.makefile("rb")
        for number in range(30):
            shown.put(b"%d" % number + b" " * 1_000_000 * (number < 29))
            await_that(f"{number} is heard", lambda: heard.readline().startswith(b"data: %d" % number))
        for close in (heard.close, one.close, deaf.close):
            close()
        await_that("who left is let go", lambda: shown.listeners == 0)


@pytest.mark.soak
def test_last_words() -> None:
    """The server ends once who listens was told of that, however late its turn at the processor comes."""
    shown, following = pages.Shown(), pages.Shown.next

    def late(it: pages.Shown, number: int) -> tuple[int, bytes]:
        found = following(it, number)
        time.sleep(1)
        return found
    with mock.patch.object(pages.Shown, "next", late), mock.patch.object(pages, "PATIENCE", PATIENCE):
        with pages.serving(0, PAGE, shown) as address:
            one = listening(address)
            await_that("one listens", lambda: shown.listeners == 1)
        assert shown.listeners == 0
    with one, one.makefile("rb") as heard:
        assert heard.read().endswith(pages.ENDED)


@pytest.mark.soak
def test_slow_browsers() -> None:
    """One that takes nothing, and one that stops within its request or sends it byte by byte, is let go in time."""
    shown, count = pages.Shown(), itertools.count()

    def is_let_go() -> bool:
        shown.put(b"%d" % next(count) + b" " * 1_000_000)
        return shown.listeners == 0
    with mock.patch.object(pages, "PATIENCE", 2), mock.patch.object(pages.Handler, "timeout", 2), \
            mock.patch.object(pages, "A_SIGN", 0.1), pages.serving(0, PAGE, shown) as address:
        idle = [socket.create_connection((HOST, port_in(address)), PATIENCE) for _ in range(5)]
        idle[0].sendall(b"GET /")
        deaf = listening(address)
        await_that("the deaf one listens", lambda: shown.listeners == 1)
        await_that("the deaf one is let go", is_let_go)
        for it in idle:
            assert it.recv(10) == b""
        slow = socket.create_connection((HOST, port_in(address)))
        await_that("who sends byte by byte is let go", lambda: is_cut(slow))
        deaf.close()


@pytest.mark.soak
def test_crowds() -> None:
    """Where there are too many connections a further one is closed at once. Once some have left there is room again."""
    with mock.patch.object(pages, "PATIENCE", 90), mock.patch.object(pages.Handler, "timeout", 90), \
            pages.serving(0, PAGE, pages.Shown()) as address:
        path = address[address.index("/", 7):]
        crowd: list[socket.socket] = []
        def is_full() -> bool:
            """Whether a further one is closed, and as many as there is room for aren't. (Who was answered may still take room.)"""
            crowd.append(socket.create_connection((HOST, port_in(address))))
            return not asked_quietly(address, path) and len(crowd) - len(select.select(crowd, [], [], 0)[0]) >= pages.MOST
        await_that("there is no room", is_full)
        for it in crowd:
            it.close()
        await_that("there is room again", lambda: PAGE.encode() in asked_quietly(address, path))


def is_cut(it: socket.socket) -> bool:
    """Whether a further byte doesn't come through."""
    try:
        it.sendall(b"x")
    except OSError:
        return True
    return False


def asked_quietly(address: str, path: str) -> bytes:
    with contextlib.suppress(OSError):
        return asked(address, get(path))
    return b""


def told_in(heard: BinaryIO) -> Iterator[dict[str, Any]]:
    """What a board tells a browser, one after the other."""
    return (json.loads(line.removeprefix(b"data: ")) for line in heard if line.startswith(b"data: "))


@pytest.mark.soak
@pytest.mark.usefixtures("journal")
def test_ends_of_a_board() -> None:
    """Both signals end it in order, and who listens hears of that. Its page is the one that lies beside the module. With it ends
    its venue-events, also where it is killed."""
    for number in (signal.SIGTERM, signal.SIGINT):
        it = Running(JOURNAL)
        address = it.address()
        path = address[address.index("/", 7):]
        assert contents(board.PAGE) in asked(address, get(path))
        with socket.create_connection((HOST, port_in(address)), PATIENCE) as ends:
            ends.sendall(get(f"{path}events"))
            heard = ends.makefile("rb")
            told = next(told_in(heard))
            assert (told["journal"], told["holder"]) == (JOURNAL, "")
            assert it.end(number) == (0, None)
            assert heard.read().endswith(pages.ENDED)
    it = Running(JOURNAL)
    address = it.address()
    _, counts = replay(JOURNAL, "book", ("ABC", "XYZ"))
    with socket.create_connection((HOST, port_in(address)), PATIENCE) as listens:  # (else it may end by what it can't tell any more)
        listens.sendall(get(f"{address[address.index('/', 7):]}events"))
        next(it for it in told_in(listens.makefile("rb")) if it["caught_up"] and (it["commands"], it["outputs"]) == counts)
    with open(f"/proc/{it.process.pid}/task/{it.process.pid}/children", encoding="ascii") as file:
        (follower,) = file.read().split()
    it.kill()
    await_that("its venue-events has ended", lambda: not os.path.exists(f"/proc/{follower}/exe"))


@pytest.mark.soak
@pytest.mark.usefixtures("journal")
def test_a_board_that_stands_still() -> None:
    """A board that is stopped, and goes on behind that, serves its page still: that was no signal which ends it."""
    it = Running(JOURNAL)
    address = it.address()
    with socket.create_connection((HOST, port_in(address)), PATIENCE) as listens:
        listens.sendall(get(f"{address[address.index('/', 7):]}events"))
        next(it for it in told_in(listens.makefile("rb")) if it["caught_up"])
    for _ in range(5):
        it.process.send_signal(signal.SIGSTOP)
        os.waitid(os.P_PID, it.process.pid, os.WSTOPPED)
        time.sleep(2 * follow.PAUSE)
        it.process.send_signal(signal.SIGCONT)
        assert contents(board.PAGE) in asked(address, get(address[address.index("/", 7):]))
    assert it.end() == (0, None)


def test_words_of_board() -> None:
    put(JOURNAL, made(3).data)
    put("known.journal", made(3).data)
    put("known.journal.symbols", b"ABC XYZ\n")
    put("empty", b"")
    no_header = "it doesn't begin with the header of a journal of version 1, 2 or 3 (fault 43): is the name right?"
    with socket.create_server((HOST, 0)) as taken:
        port = taken.getsockname()[1]
        cases: list[tuple[list[str], str | None]] = [
            ([], None),
            ([JOURNAL, "more"], None),
            ([JOURNAL, "--port", "0"], None),
            (["missing", "--symbols", "ABC"], "missing: No such file or directory"),
            ([JOURNAL], f"the symbols of {JOURNAL} aren't known: name them, or write them into {JOURNAL}.symbols"),
            (["known.journal", "--symbols", "XYZ"],
             "the journal known.journal is one of ABC XYZ, as known.journal.symbols says, and not of XYZ"),
            ([".", "--symbols", "ABC"], ".: Is a directory"),
            (["/dev/null", "--symbols", "ABC"], "/dev/null is no file, but a pipe or a device"),
            (["empty", "--symbols", "ABC"], f"empty: {no_header}"),
            (["known.journal", "--port", str(port)], f"cannot listen on {port}: Address already in use")]
        for words, line in cases:
            status, out, err = gikvand("board", *words)
            assert (words, status, out) == (words, 2, [])
            assert (words, err[-1:] if line else bool(err)) == (words, [f"gikvand board: {line}"] if line else True)


@pytest.mark.soak
def test_port_of_a_board() -> None:
    """A board has its page at the port that the command line names."""
    put("known.journal", made(3).data)
    put("known.journal.symbols", b"ABC XYZ\n")
    with kept_ports(1) as port:
        it = Running("known.journal", "--port", str(port))
        assert it.address().startswith(f"http://127.0.0.1:{port}/")
        assert it.end() == (0, None)
