"""Tests of how long a connection may hold a member's port: the built venue, with members at some of its eight ports.

Who says nothing, or half a message, is let go ten seconds later where another connection waits at the port, and only then; who
is logged on is kept, unless his machine vanishes without a word, as the last two do, over whose connections the system here lets
nothing come in any more. They want a minute and a quarter, in which nothing is done: scripts/check runs them at once. One that comes
too late is tried again: the machine may have stood still.
"""
import contextlib
import ctypes
import socket
import struct
import time
from collections.abc import Callable

import pytest

from venues import Client, Late, Trouble, Venue, in_some_try, message, order, value

pytestmark = pytest.mark.slow

LOGON = "98=0|108=0|141=Y|"
GATEWAYS = 8
PARTNER = 8                       # The member that trades with others.
PATIENCE = 30                     # Seconds more for an answer that comes too late, as another try takes its place.
LEAST, MOST = 10.0, 13.0          # Seconds for which a silent connection holds its port where another one waits,
KEPT = 14.0                       # and for which one is watched that is kept.
VANISHED = 55.0, 75.0             # Seconds behind which a connection whose other end has vanished is ended.
SO_ATTACH_FILTER = 26
DROP_ALL = struct.pack("HBBI", 6, 0, 0, 0)  # A filter of one step, which lets no byte of a packet through.


@pytest.fixture
def port(venue: Callable[..., Venue]) -> int:
    """The first port of a venue."""
    return venue(GATEWAYS).port


def knocks(port: int, member: int) -> Client:
    """A connection that waits at the port, with its Logon."""
    client = Client(port, member)
    client.send("A", LOGON)
    return client


def answered(client: Client, since: float, least: float, most: float) -> None:
    """Waits until the Logon of one who waits is answered, and leaves: behind so many seconds, which have to be within these bounds."""
    client.socket.settimeout(most + PATIENCE)
    if value(client.next() or "nothing", "35") != "A":
        raise Trouble(f"expected a Logon's answer for C{client.member} came another message")
    took = time.monotonic() - since
    client.close()
    if took < least:
        raise Trouble(f"expected the port of C{client.member} free behind {least} s at the earliest came {took:.1f} s")
    if took > most:
        raise Late(f"expected the port of C{client.member} free behind {most} s at the latest came {took:.1f} s")


def is_over(client: Client) -> None:
    """The connection has come to its end, without a word."""
    try:
        if came := client.next():
            raise Trouble(f"expected the end of the bytes came {came}")
    except ConnectionResetError:
        pass


def test_says_nothing(port: int) -> None:
    """Kept while nobody waits, and let go as soon as somebody does."""
    in_some_try(lambda _: says_nothing(port), "says_nothing")


def says_nothing(port: int) -> None:
    client = Client(port, 1)
    if not client.is_quiet(KEPT):
        raise Trouble(f"expected a silent connection to be kept came {client.next()}")
    begun = time.monotonic()
    answered(knocks(port, 1), begun, 0, MOST - LEAST)
    is_over(client)


def test_half_a_logon(port: int) -> None:
    """Let go behind ten seconds, though it has begun to speak."""
    in_some_try(lambda _: half_a_logon(port), "half_a_logon")


def half_a_logon(port: int) -> None:
    begun, client = time.monotonic(), Client(port, 2)
    client.send_bytes(message(2, 1, "A", LOGON)[:40])
    answered(knocks(port, 2), begun, LEAST, MOST)
    is_over(client)


def test_a_byte_now_and_then(port: int) -> None:
    """Let go all the same."""
    in_some_try(lambda _: a_byte_now_and_then(port), "a_byte_now_and_then")


def a_byte_now_and_then(port: int) -> None:
    begun, client, waits = time.monotonic(), Client(port, 3), knocks(port, 3)
    with contextlib.suppress(ConnectionError):  # It may be let go before, where this process stands still.
        for byte in message(3, 1, "A", LOGON)[:10]:
            client.send_bytes(bytes([byte]))
            time.sleep(0.8)
    answered(waits, begun, LEAST, MOST)
    is_over(client)


def test_half_an_order(port: int) -> None:
    """A member that stops in the middle of an order is let go; the order never was one."""
    in_some_try(lambda _: half_an_order(port), "half_an_order")


def half_an_order(port: int) -> None:
    client = Client(port, 4).log_on()
    time.sleep(2)
    begun = time.monotonic()
    client.send_bytes(message(4, 2, "D", order(1, 1, 1, 1))[:60])
    answered(knocks(port, 4), begun, LEAST, MOST)
    is_over(client)


def test_logged_on_and_silent(port: int) -> None:
    """Kept, though another one waits, until it leaves by itself."""
    in_some_try(lambda _: logged_on_and_silent(port), "logged_on_and_silent")


def logged_on_and_silent(port: int) -> None:
    client = Client(port, 5).log_on()
    waits = knocks(port, 5)
    if not waits.is_quiet(KEPT) or not client.is_quiet(0):
        raise Trouble("expected a member that is logged on to be kept")
    begun = time.monotonic()
    client.close()
    answered(waits, begun, 0, MOST - LEAST)


def vanish(client: Client) -> None:
    """From now on nothing that is sent to this client arrives, and nothing is answered, as if its machine were gone."""
    steps = ctypes.create_string_buffer(DROP_ALL)
    program = struct.pack("HL", 1, ctypes.addressof(steps))
    client.socket.setsockopt(socket.SOL_SOCKET, SO_ATTACH_FILTER, program)


def test_vanished_in_silence(port: int) -> None:
    """A silent member whose machine is gone: the system asks for it, and ends its connection within a minute."""
    in_some_try(lambda _: vanished_in_silence(port), "vanished_in_silence")


def vanished_in_silence(port: int) -> None:
    begun = time.monotonic()  # (the system counts from what it heard last)
    client = Client(port, 6).log_on()
    time.sleep(1)
    vanish(client)
    answered(knocks(port, 6), begun, *VANISHED)


def test_vanished_while_told(port: int) -> None:
    """And so one that doesn't take its reports."""
    in_some_try(lambda number: vanished_while_told(port, number), "vanished_while_told")


def vanished_while_told(port: int, name: int) -> None:
    client, partner = Client(port, 7).log_on(), Client(port, PARTNER).log_on()
    client.send("D", order(name, 2, 10, 50))
    client.next()
    begun = time.monotonic()
    vanish(client)
    partner.send("D", order(name, 1, 1, 50))
    partner.next()
    partner.close()
    answered(knocks(port, 7), begun, *VANISHED)
