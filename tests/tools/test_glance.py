"""Tests of messages at a glance, beside the rules."""
import collections
from unittest import mock

import pytest

from corners import all_corners
from gikvand import fix, glance, verify
from gikvand.journals import Entry
from oracle.order_rules import read_order
from oracle.session_rules import Session
from venues import message, order

pytestmark = [pytest.mark.slow, pytest.mark.usefixtures("programs")]


def slowly(entry: Entry) -> str | None:
    """What the rules alone find wrong with an entry."""
    with mock.patch.object(verify, "is_published", lambda *_: False):
        return verify.fault_of(entry)


def test_glances() -> None:
    """What is right at a glance is so by the rules too; and each right order is."""
    seen = collections.Counter[object]()
    sessions = [Session() for _ in all_corners()]
    for session, corner in zip(sessions, all_corners()):
        session.feed(corner.data)
    frames = {frame for session in sessions for frame, *_ in session.orders}
    first = message(1, 2, "D", order(1, 1, 5, 50))
    changed = {first[:at] + other + first[at + 1:] for at in range(len(first))
               for other in (b"", b"0", b"\x01", b"=", b"C")}
    resealed = {fix.sealed(it.split(b"\x01", 2)[-1][:-7]) for it in changed}
    begun = first[:-7].replace(b"\x019=", b"\x019=1", 1)
    others = {first + b"8", b"", first.replace(b"C1", b"C2"), message(1, 1, "D", order(1, 1, 5, 50)),
              begun + b"10=%03d\x01" % (sum(begun) % 256),
              message(1, 2, "D", order(1, 1, 5, 50, more=f"58={'x' * 200}|"))}
    for it in frames | changed | resealed | others:
        for member in (1, 2):
            found, fault = glance.is_published(it, member), slowly(Entry(member, it))
            seen[found] += 1
            if found:
                assert (it, fault) == (it, None)
            elif fault is None and read_order(it):
                seen["missed"] += 1
    assert (seen[True] > 250, seen[False] > 1000, seen["missed"]) == (True, True, 0)
