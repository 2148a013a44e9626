"""Tests of what dev/failover-drill goes by, where it doesn't play: what it takes in of its machines, and by which texts it sees what was
left out. The drill itself has both on GlusterFS and on Ceph."""
import os
import re
import shutil
import signal
import subprocess

import pytest

import drill
from drill_ceph import Ceph
from drill_contract import is_left
from drill_gluster import Gluster
from drill_machines import children
from venues import Late, Trouble, Unseen, await_that

pytestmark = pytest.mark.quick
for_root = pytest.mark.skipif(os.geteuid() != 0 or not shutil.which("unshare"), reason="it is for root, who may have a machine, by unshare")

# What is told where the venue, a machine or the store is broken, or the machine too slow, whatever is left out.
OF_ANYTHING = ["the venue on machine 1 says 'venued: ready, ': not within 30 seconds", "machine 2 waits for the lock: not within 30 seconds",
               "machine 1 mounts the volume: not within 30 seconds", "[Errno 107] Transport endpoint is not connected",
               "C1 has no answer to request 7", "C1 is connected yet, though the venue has ended", "the bricks are healed: not within 30 seconds",
               "a write is held: not within 30 seconds", "C7: the connection ended", "store-contract ended with 2, and said []"]


@for_root
def test_what_machines_leave() -> None:
    """Of its children that have ended the drill takes in those that ran on a machine, and none that it has begun itself: whoever has
    begun that one waits for its status."""
    ours = subprocess.Popen(["false"])
    os.waitid(os.P_PID, ours.pid, os.WEXITED | os.WNOWAIT)
    theirs = subprocess.Popen(["unshare", "--pid", "sh", "-c", "true & exec sleep 600"])
    lasting = subprocess.Popen(["unshare", "--pid", "--fork", "--kill-child", "sleep", "600"])
    try:
        assert (is_left(ours.pid), ours.wait()) == (False, 1)
        await_that("a process of a machine has ended", lambda: any(map(is_left, children(theirs.pid))))
        await_that("a process of a machine runs", lambda: children(lasting.pid))
        assert not any(map(is_left, [*children(lasting.pid), theirs.pid, lasting.pid]))
    finally:
        for it in (theirs, lasting):
            it.send_signal(signal.SIGKILL)
            it.wait()


class Stood:
    """A machine that stood still for so many seconds, whenever that is asked."""

    def __init__(self, seconds: float) -> None:
        self.seconds = seconds

    def between(self, since: float, until: float) -> float:
        return self.seconds


@pytest.mark.parametrize("fault, seconds, kind", ((Unseen, 1.9, Unseen), (Unseen, 17.2, Late), (Trouble, 17.2, Trouble)))
def test_machines_that_stand_still(fault: type[Trouble], seconds: float, kind: type[Trouble], monkeypatch: pytest.MonkeyPatch) -> None:
    """What isn't seen in its time came too late where the machine stood still, and there alone. What is lost is no such thing."""
    monkeypatch.setattr(drill, "standstills", lambda: Stood(seconds))
    with pytest.raises(Trouble, match="^nobody serves") as seen, drill.late_where_it_stood():
        raise fault("nobody serves")
    assert (type(seen.value), "still for 17.2 s" in str(seen.value)) == (kind, kind is Late)


def test_what_plants_tell() -> None:
    """Each thing that is left out is seen by a text of its own, and by none that a broken venue comes to."""
    for store in (Gluster, Ceph):
        told = {**{what: told for what, (_, _, told) in store.PLANTS.items()}, **{f"contract without {it}": told for it, told in store.LACKS.items()}}
        assert [(what, it) for what, text in told.items() for it in OF_ANYTHING if re.search(text, it)] == []
