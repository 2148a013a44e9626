"""Looks at the calls that the built venue makes at its members' connections, and at the stop file.

Each connection is set not to wait, to send at once and to be ended where its client has vanished, before a byte is read
of it; one that can't be set so is let go. Bytes are read and written many in a call; a client whose session has ended
is told so by a half close, behind the last byte that it is told and however late it takes that one, and its connection
is closed once it has closed its side. A look for the stop file that fails stops nothing, and the next one is made. A
worker that finds nothing parks, each time no longer than it is to, and is woken for an order that comes, for a fill that
another member brings about, for room in the output ring, for a client that comes, and for one that takes what it is told
late; the watch sleeps between its looks. One that can't have what it parks with, or whose parks fail, sleeps for short in
its place, and the venue serves. The calls are noted, and some refused, by
tests/refusals.c, which cc compiles into a folder of its own; without cc its tests are skipped. What each test has come to
is printed, as pytest shows it by -rP.
"""
import collections
import itertools
import os
import socket
import tempfile
import time
from collections.abc import Callable

import pytest

from gikvand.words import sure
from refusals import Refusal, Sweeps
from venues import COUNTS, PATIENCE, Client, Late, Trouble, Venue, free_port, in_some_try, message, order, value

pytestmark = [pytest.mark.quick, pytest.mark.usefixtures("programs")]

MANY = 300            # Orders that are sent in one go,
MOST_READS = 60       # and in how many reads they come at most: one would do, and the system may cut them.
MOST_WRITES = 30      # In so many writes the answers go out, a tenth of them: mostly it's two or three.
SHUT_WRITE = 1
PARKS = 100           # How long a worker parks at most, in milliseconds,
MOST_PARKS = 10       # and how often in each second in which nothing happens.
MOST_YIELDS = 2_000   # How often a thread lets others run, at most, before it parks.
A_NAP = 2_000         # How long one sleeps that can't park, in microseconds;
A_LOOK = 5_000        # and how long the watch does.
WORKERS = 6           # Four stages, and two gateways.
ORDERS = 20           # So many orders are sent, each behind a silence of so many seconds;
A_SILENCE = 0.2
SOON = 0.02           # and most of them are answered as soon: far sooner than a worker that isn't woken looks again.
NAPPED = 0.06         # Where none can park, an order waits for five of these naps, which a busy machine makes longer.
MEMBERS = 8           # Each of so many members rests,
FILLS = 11            # and hears of so many fills, each behind such a silence.
RESTING = 4_096       # Orders that one order fills, and that don't fit into the output ring together;
SWEEPS = 7            # and how often.
A_WHILE = 1.0         # For so many seconds workers that can't park are looked at.
# What is set at a connection: all is sent at once; a silent client is asked behind half a minute and then each ten
# seconds, and is gone behind a minute (docs/OPERATING.md).
SET = {("nodelay", 1), ("is_asked", 1), ("first_asked", 30), ("asked_again", 10), ("unheard", 60_000)}
LOOKS = 3             # A look somewhere behind the first.
TRIES = 12            # So often a client comes while all rest, or takes what waits: mostly this ends a rest.
A_BATCH = 100         # TestRequests that are sent in one go,
MOST_BATCHES = 50     # and in how many of these a connection for which little is held fills.
A_TEST = 32 * "x"     # What each of them has to have back.
HELD = 8_192          # How many bytes the system holds for it, at each end.

Call = tuple[str, int, int]  # The name of a call, its descriptor, and how many bytes it moved or what it set.


def venue_of(folder: str, gateways: int, more: dict[str, str]) -> Venue:
    """A venue in this folder that is ready, with this environment added."""
    venue = Venue(free_port(gateways), os.path.join(folder, "venue.journal"), gateways, env={**os.environ, **more})
    line = venue.out.next()
    if not COUNTS.fullmatch(line or ""):
        raise Trouble(f"expected a venue that is ready came {line or venue.err.next()}")
    return venue


def noted(sweeps: Sweeps, gateways: int, use: Callable[[Venue], None], **more: str) -> list[list[Call]]:
    """The calls at each connection of a venue that is used so, up to its stop, in the order in which they came in."""
    with tempfile.TemporaryDirectory(dir=sweeps.folder) as folder:
        path = os.path.join(folder, "noted")
        venue = venue_of(folder, gateways, {"LD_PRELOAD": sweeps.library, "NOTED": path, **more})
        use(venue)
        venue.stop()
        with open(path, encoding="ascii") as file:
            calls = [(name, int(file_), int(what)) for name, file_, what in map(str.split, file)]
    found: list[list[Call]] = []
    open_now: dict[int, list[Call]] = {}
    for call in calls:
        if call[0] == "accept":
            open_now[call[1]] = []
            found.append(open_now[call[1]])
        open_now[call[1]].append(call)
    return found


def names(calls: list[Call]) -> list[str]:
    return [name for name, _, _ in calls]


def check_set(calls: list[Call]) -> None:
    """A connection is set before a byte of it is read or written."""
    moved = next(at for at, name in enumerate(names(calls)) if name in ("read", "write"))
    before = {(name, what) for name, _, what in calls[:moved]}
    if not before >= SET:
        raise Trouble(f"expected {SET} set at first came {calls[:moved + 1]}")
    if ("nonblocking", 1) not in before and ("accept", 1) not in before:
        raise Trouble(f"expected a connection that doesn't wait came {calls[:moved + 1]}")


def check_left(calls: list[Call]) -> None:
    """Behind the last write the side is shut, once and for writing alone; it is read to the end, and closed."""
    last = max(at for at, name in enumerate(names(calls)) if name == "write")
    behind = [(name, what) for name, _, what in calls[last + 1:]]
    wanted = [("shutdown", SHUT_WRITE), ("read", 0), ("close", 0)]
    came = [it for it in behind if it[0] != "read" or it[1] == 0]
    if came == [wanted[0], wanted[2]]:  # It waits for some seconds, in which this process may stand still.
        raise Late(f"expected a client that is read to its end came {behind}")
    if came != wanted:
        raise Trouble(f"expected {wanted} behind the last write came {behind}")


def test_connections_of_clients(sweeps: Sweeps) -> None:
    """A client that trades and logs out, one that is refused and sends more, and one of another member."""
    print(in_some_try(lambda _: clients_who_leave(sweeps), "connections_of_clients"))


def test_last_words_that_wait(sweeps: Sweeps) -> None:
    """The same where two of three writes move nothing: what a client is told last goes out before its side is shut."""
    print(in_some_try(lambda _: clients_who_leave(sweeps, LATE="1"), "last_words_that_wait"))


def clients_who_leave(sweeps: Sweeps, **more: str) -> str:
    """Each is told all, and its connection is set at first and shut at last; this is added to the environment."""

    def use(venue: Venue) -> None:
        client = Client(venue.port, 1).log_on()
        client.send("D", order(1, 1, 10, 50))
        client.next()
        client.send("5")
        if value(client.next() or "nothing", "35") != "5" or client.next() is not None:
            raise Trouble("expected a Logout, and the end")
        client.close()
        client = Client(venue.port, 1)
        client.send_bytes(message(1, 2, "A", "98=0|108=0|141=Y|") + 5_000 * b"x")
        if value(client.next() or "nothing", "58") != "wrong number" or client.next() is not None:
            raise Trouble("expected a Logout, and the end")
        client.close()
        client = Client(venue.port, 2).log_on()
        client.send("5")
        client.next()
        client.next()
        client.close()
        Client(venue.port, 1).log_on()  # The first port has seen its clients off by now,
        Client(venue.port, 2).log_on()  # and so has the second.

    found = noted(sweeps, 2, use, **more)
    if len(found) != 5:
        raise Trouble(f"expected 5 connections came {len(found)}")
    for calls in found:
        check_set(calls)
    for calls in found[:3]:
        check_left(calls)
    return f"{sum(map(len, found))} calls at {len(found)} connections"


def is_let_go(port: int) -> bool:
    """Whether a client comes to its end without an answer to its Logon."""
    client = Client(port, 1)
    try:
        client.send("A", "98=0|108=0|141=Y|")
        return client.next() is None
    except OSError:
        return True
    finally:
        client.close()


def test_options_refused(sweeps: Sweeps) -> None:
    """A client whose connection can't be set as it is to be is let go, and the next one is served."""
    refused = []
    for at in range(1, len(SET) + 1):
        with tempfile.TemporaryDirectory(dir=sweeps.folder) as folder:
            refusal = Refusal(sweeps.library, folder, "options", at, "once")
            venue = venue_of(folder, 1, refusal.set)
            if not is_let_go(venue.port):
                raise Trouble(f"expected a client let go where {refusal.came()} is refused came an answer")
            refused.append(sure(refusal.came()))
            Client(venue.port, 1).log_on()
            venue.stop()
    if {*refused} != {name for name, _ in SET}:
        raise Trouble(f"expected each option of {SET} refused came {refused}")
    print(", ".join(refused))


def test_many_bytes_in_a_call(sweeps: Sweeps) -> None:
    """Orders that are sent in one go are read in a few calls, and no report is written in pieces."""
    print(in_some_try(lambda _: many_bytes_in_a_call(sweeps), "many_bytes_in_a_call"))


def many_bytes_in_a_call(sweeps: Sweeps) -> str:
    """The calls of a venue that is sent many orders. Where its threads take turns with other programs reports come one by one."""

    def use(venue: Venue) -> None:
        client = Client(venue.port, 1).log_on()
        client.send_bytes(b"".join(message(1, 2 + at, "D", order(1 + at, 1, 10, 50)) for at in range(MANY)))
        for _ in range(MANY):
            if value(client.next() or "nothing", "150") != "0":
                raise Trouble("expected an acknowledgement of each order")

    calls = noted(sweeps, 1, use)[0]
    reads = [what for name, _, what in calls if name == "read" and what]
    writes = [what for name, _, what in calls if name == "write"]
    if len(reads) > MOST_READS:
        raise Late(f"expected at most {MOST_READS} reads of {sum(reads)} bytes came {len(reads)}")
    if len(writes) > MOST_WRITES:
        raise Late(f"expected at most {MOST_WRITES} writes of {1 + MANY} messages came {len(writes)}")
    return f"{sum(reads)} bytes in {len(reads)} reads, {sum(writes)} in {len(writes)} writes"


def test_looks_that_fail(sweeps: Sweeps) -> None:
    """A look for the stop file that fails, one of them or all, has seen none: the venue serves on. Where later ones don't
    fail, it stops as it is told to; the file stays."""
    for how, at in (("once", 1), ("once", LOOKS), ("on", 1)):
        with tempfile.TemporaryDirectory(dir=sweeps.folder) as folder:
            refusal = Refusal(sweeps.library, folder, "look", at, how)
            venue = venue_of(folder, 1, refusal.set)
            end = time.monotonic() + PATIENCE
            while not refusal.came() and time.monotonic() < end:
                time.sleep(0.01)
            if refusal.came() != "statx":
                raise Trouble(f"expected a look refused came {refusal.came()}")
            time.sleep(0.3)
            client = Client(venue.port, 1).log_on()
            client.send("D", order(1, 1, 10, 50))
            if value(client.next() or "nothing", "150") != "0":
                raise Trouble("expected an acknowledgement behind a look that failed")
            if how == "on":
                venue.kill()
            elif venue.stop() != (1, 1) or not os.path.exists(f"{venue.journal}.stop"):
                raise Trouble("expected a stop, and the stop file left where it is")
    print("one look, or all")


def rests(path: str) -> dict[str, dict[int, list[int]]]:
    """Of each kind of rest the threads that rested so, and how long each time; and how often they let others run, and were away."""
    found: dict[str, dict[int, list[int]]] = {"nap": {}, "park": {}, "yield": {}, "away": {}}
    if os.path.exists(path):
        with open(path, encoding="ascii") as file:
            for thread, kind, long in (line.split() for line in file if line.endswith("\n")):
                found[kind].setdefault(int(thread), []).append(int(long))
    return found


def rests_of_an_idle_venue(sweeps: Sweeps) -> str:
    """What the rests of a venue come to, to which nobody comes. One whose threads were kept away by other programs is told by Late."""
    with tempfile.TemporaryDirectory(dir=sweeps.folder) as folder:
        path = os.path.join(folder, "slept")
        venue = venue_of(folder, 2, {"LD_PRELOAD": sweeps.library, "SLEPT": path})
        end = time.monotonic() + 2 * PATIENCE
        while len(rests(path)["park"]) < WORKERS and time.monotonic() < end:
            time.sleep(0.1)
        time.sleep(1)
        before, begun = rests(path), time.monotonic()
        time.sleep(1)
        found, most = rests(path), MOST_PARKS * (time.monotonic() - begun) + 3
        venue.stop()
    if len(found["park"]) != WORKERS or [set(them) for them in found["nap"].values()] != [{A_LOOK}]:
        raise Trouble(f"expected {WORKERS} workers that park, and a watch came {found}")
    for thread, them in found["park"].items():
        if set(them) != {PARKS}:
            raise Trouble(f"expected a worker to park for {PARKS} milliseconds came {them[:5]}")
        if not 0 < len(them) - len(before["park"][thread]) <= most:
            raise Late(f"expected at most {most:.0f} rests, and some, came {len(them) - len(before['park'][thread])}")
    for thread, them in found["yield"].items():
        is_more = len(them) > WORKERS or them != before["yield"].get(thread)
        if max(them) > MOST_YIELDS or is_more and not found["away"]:
            raise Late(f"expected at most {MOST_YIELDS} turns that let others run, and all before a rest came {them[:5]}")
    is_beside = ", beside programs that kept them away" if found["away"] else ""
    return f"{sum(map(len, found['park'].values()))} rests of {WORKERS} threads{is_beside}"


def test_rests_of_an_idle_venue(sweeps: Sweeps) -> None:
    """Nobody comes to a venue of two members: each of its six workers lets others run for a while, and from then on parks, for a
    tenth of a second each time, and the watch sleeps. No thread lets others run between two of its rests. (One that rests while
    others haven't begun may be woken as each of these has. Where a thread was away for long as it let another program run, all of
    them park at once for a while, and let others run later.)"""
    print(in_some_try(lambda _: rests_of_an_idle_venue(sweeps), "rests_of_an_idle_venue"))


def median_of_tries(took: list[float], what: str, soon: float = SOON) -> float:
    """Their median, which has to be so soon."""
    median = sorted(took)[len(took) // 2]
    if median > soon:
        raise Late(f"expected {what} within {soon} seconds came it within {median:.3f}")
    return median


def check_woken(venue: Venue, soon: float = SOON) -> float:
    """Sends orders behind silences, most of which have to be answered so soon in some try: the median."""
    client, names = Client(venue.port, 1).log_on(), itertools.count(1)
    def answered() -> float:
        time.sleep(A_SILENCE)
        begun = time.monotonic()
        client.send("D", order(next(names), 1, 10, 50))
        if value(client.next() or "nothing", "150") != "0":
            raise Trouble("expected an acknowledgement")
        return time.monotonic() - begun
    median = in_some_try(lambda _: median_of_tries([answered() for _ in range(ORDERS)], "an answer", soon), "check_woken")
    client.close()
    return median


def test_workers_are_woken(sweeps: Sweeps) -> None:
    """An order that comes while all workers rest is answered soon: each of them is woken."""
    with tempfile.TemporaryDirectory(dir=sweeps.folder) as folder:
        venue = venue_of(folder, 2, {})
        median = check_woken(venue)
        venue.stop()
    print(f"{ORDERS} orders, half of them within {1000 * median:.1f} ms")


def told_of_fill(resting: Client, other: Client, name: int) -> float:
    """One member's order rests, and all workers do; then another one's fills it: how long until the first is told."""
    resting.send("D", order(2 * name, 2, 10, 50))
    if value(resting.next() or "nothing", "150") != "0":
        raise Trouble("expected an acknowledgement")
    time.sleep(A_SILENCE)
    begun = time.monotonic()
    other.send("D", order(2 * name + 1, 1, 10, 50))
    told, took = resting.next(), time.monotonic() - begun
    if [value(it or "nothing", "150") for it in (told, other.next(), other.next())] != ["F", "0", "F"]:
        raise Trouble(f"expected a fill came {told}")
    return took


def test_each_member_is_woken(sweeps: Sweeps) -> None:
    """Eight members rest, and an order of one fills that of another: who is told of it is woken, whichever of them it is."""
    with tempfile.TemporaryDirectory(dir=sweeps.folder) as folder:
        venue = venue_of(folder, MEMBERS, {})
        clients, names = [Client(venue.port, member).log_on() for member in range(1, MEMBERS + 1)], itertools.count(1)
        def told(at: int) -> float:
            took = [told_of_fill(clients[at], clients[at - 1], next(names)) for _ in range(FILLS)]
            return median_of_tries(took, f"a fill told to member {at + 1}")
        worst = max(in_some_try(lambda _: told(at), "each_member_is_woken") for at in range(MEMBERS))
        venue.stop()
    print(f"{MEMBERS} members, half of the fills of each within {1000 * worst:.1f} ms")


def swept(resting: Client, other: Client, name: int) -> float:
    """One order fills a whole book of another member's, while all workers rest: how long until that one is told first."""
    numbers = range(resting.number + 1, resting.number + RESTING + 1)
    resting.send_bytes(b"".join(message(resting.member, number, "D", order(number, 2, 1, 50)) for number in numbers))
    resting.number += RESTING
    for _ in numbers:
        resting.next()
    time.sleep(A_SILENCE)
    begun = time.monotonic()
    other.send("D", order(name, 1, RESTING, 50, more="59=3|"))
    told, took = resting.next(), time.monotonic() - begun
    found = [value(it or "nothing", "150") for it in (told, *(resting.next() for _ in range(RESTING - 1)))]
    if found != RESTING * ["F"] or [value(other.next() or "nothing", "150") for _ in range(RESTING + 1)] != ["0", *found]:
        raise Trouble(f"expected {RESTING} fills came {told}")
    return took


def test_sweep_wakes_all(sweeps: Sweeps) -> None:
    """An order has more outputs than the output ring has room for, and comes while all workers rest: those that make room there are
    woken though the order isn't worked off."""
    with tempfile.TemporaryDirectory(dir=sweeps.folder) as folder:
        venue = venue_of(folder, 2, {})
        resting, other = (Client(venue.port, member).log_on() for member in (1, 2))
        names = itertools.count(1)
        median = in_some_try(lambda _: median_of_tries([swept(resting, other, next(names)) for _ in range(SWEEPS)],
                                                       "the first of many fills"), "sweep_wakes_all")
        venue.stop()
    print(f"{SWEEPS} orders that fill {RESTING} each, half of them told of within {1000 * median:.1f} ms")


def done(path: str) -> dict[int, list[tuple[str, int]]]:
    """What each thread did, in order: `park`, as it began to, `rest` with how many events ended that, `accept`, and
    `write` with how many bytes went, or -1."""
    found = collections.defaultdict(list)
    if os.path.exists(path):
        with open(path, encoding="ascii") as file:
            for line in file.read().rpartition("\n")[0].splitlines():
                thread, name, what = line.split()
                found[int(thread)].append((name, int(what)))
    return found


def waits_for(holds: Callable[[], bool], what: str) -> None:
    end = time.monotonic() + 2 * PATIENCE
    while not holds():
        if time.monotonic() > end:
            raise Trouble(f"expected {what}")
        time.sleep(0.01)


def are_resting(path: str) -> bool:
    """Whether all workers of a venue of one gateway rest, and nothing has ended the last two rests of any of them."""
    them = [[it for it in own if it[0] != "park"] for own in done(path).values() if ("park", PARKS) in own]
    return len(them) == WORKERS - 1 and all(own[-2:] == 2 * [("rest", 0)] for own in them)


def is_ended_before(calls: list[tuple[str, int]], name: str) -> bool:
    """Whether the last rest before the first such call that moved something was ended by an event."""
    at = next((at for at, it in enumerate(calls) if it[0] == name and it[1] >= 0), 0)
    return next((what for kind, what in reversed(calls[:at]) if kind == "rest"), 0) > 0


def check_most(count: int, what: str) -> str:
    if 2 * count <= TRIES:  # (a thread that gets no turn for as long as its rest is finds that over)
        raise Late(f"expected most of {TRIES} rests ended by {what} came {count}")
    return f"{count} of {TRIES} rests ended by {what}"


def test_clients_end_rests(sweeps: Sweeps) -> None:
    """A client that comes while all workers rest is let in behind a rest that it has ended: it doesn't wait for the next
    look. (One that comes just as a worker looks has ended none.)"""
    print(in_some_try(lambda _: clients_end_rests(sweeps), "clients_end_rests"))


def clients_end_rests(sweeps: Sweeps) -> str:
    count = 0
    with tempfile.TemporaryDirectory(dir=sweeps.folder) as folder:
        path = os.path.join(folder, "done")
        venue = venue_of(folder, 1, {"LD_PRELOAD": sweeps.library, "SLEPT": path, "ENDED": path})
        for _ in range(TRIES):
            waits_for(lambda: are_resting(path), "workers that rest")
            before = {thread: len(them) for thread, them in done(path).items()}
            Client(venue.port, 1).log_on().close()
            behind = [them[before.get(thread, 0):] for thread, them in done(path).items()]
            count += any(is_ended_before(them, "accept") for them in behind if "accept" in dict(them))
        venue.stop()
    return check_most(count, "clients")


def fill(client: Client, path: str) -> int:
    """Has the client told more and more, of which it takes nothing, until its connection takes no more: the gateway's
    thread. It parks each time, and so what waits stays less than the gateway can hold."""
    thread, own = next((thread, own) for thread, own in done(path).items() if "accept" in dict(own))
    first = len(own)
    for _ in range(MOST_BATCHES):
        size = len(own)
        numbers = range(client.number + 1, client.number + A_BATCH + 1)
        client.send_bytes(b"".join(message(1, it, "1", f"112={A_TEST}|") for it in numbers))
        client.number += A_BATCH
        waits_for(lambda: len(done(path)[thread]) > size + 2 and done(path)[thread][-1] == ("park", PARKS), "a rest")
        own = done(path)[thread]
        if [it for it in own[first:] if it[0] == "write"][-1:] == [("write", -1)]:
            return thread
    raise Trouble(f"expected a connection that is full came none within {MOST_BATCHES} batches")


def test_readers_end_rests(sweeps: Sweeps) -> None:
    """What a client is told and doesn't take waits; as it takes some, the rest ends, and more goes out at once."""
    print(in_some_try(lambda _: readers_end_rests(sweeps), "readers_end_rests"))


def readers_end_rests(sweeps: Sweeps) -> str:
    count = 0
    with tempfile.TemporaryDirectory(dir=sweeps.folder) as folder:
        path = os.path.join(folder, "done")
        venue = venue_of(folder, 1, {"LD_PRELOAD": sweeps.library, "SLEPT": path, "ENDED": path, "SMALL": str(HELD)})
        client, taken = Client(venue.port, 1, [(socket.SOL_SOCKET, socket.SO_RCVBUF, HELD)]).log_on(), 1
        for _ in range(TRIES):
            thread = fill(client, path)
            size = len(done(path)[thread])
            while taken < client.number:
                if value(client.next() or "nothing", "112") != A_TEST:
                    raise Trouble("expected an answer to each TestRequest")
                taken += 1
            count += is_ended_before(done(path)[thread][size:], "write")
        venue.stop()
    return check_most(count, "readers")


def test_rests_refused(sweeps: Sweeps) -> None:
    """Where the system gives no descriptors to rest with, to one of them or to all, those threads sleep for short in its place, and
    the venue serves as ever."""
    for how, at in [("once", at) for at in range(1, 2 * WORKERS + 1)] + [("on", 1)]:
        with tempfile.TemporaryDirectory(dir=sweeps.folder) as folder:
            path = os.path.join(folder, "slept")
            refusal = Refusal(sweeps.library, folder, "rests", at, how)
            venue = venue_of(folder, 2, {**refusal.set, "SLEPT": path})
            if refusal.came() not in ("epoll_create1", "eventfd"):
                raise Trouble(f"expected a rest refused came {refusal.came()}")
            if how == "on":
                check_woken(venue, NAPPED)
            client = Client(venue.port, 2).log_on()
            client.send("D", order(1, 1, 10, 50))
            if value(client.next() or "nothing", "150") != "0":
                raise Trouble("expected an acknowledgement where a rest was refused")
            naps, end = set(), time.monotonic() + PATIENCE
            while A_NAP not in naps and time.monotonic() < end:
                time.sleep(0.05)
                naps = {it for them in rests(path)["nap"].values() for it in them}
            if A_NAP not in naps:
                raise Trouble(f"expected naps of {A_NAP} microseconds came {naps}")
            venue.stop()
    print("each descriptor but the copy that a port keeps, or all")


def test_parks_that_fail(sweeps: Sweeps) -> None:
    """Where the system fails each park, a thread sleeps for short behind it, and the venue serves as ever."""
    with tempfile.TemporaryDirectory(dir=sweeps.folder) as folder:
        path = os.path.join(folder, "slept")
        venue = venue_of(folder, 2, {**Refusal(sweeps.library, folder, "parks", 1, "on").set, "SLEPT": path})
        check_woken(venue, NAPPED)
        time.sleep(A_WHILE)
        venue.stop()
        found = rests(path)
    for thread, parks in found["park"].items():
        naps = found["nap"].get(thread, []).count(A_NAP)
        if not len(parks) - 1 <= naps <= len(parks):
            raise Trouble(f"expected a nap of {A_NAP} microseconds behind each of {len(parks)} parks came {naps}")
    if len(found["park"]) != WORKERS:
        raise Trouble(f"expected {WORKERS} workers that park came {len(found['park'])}")
    print(f"{sum(map(len, found['park'].values()))} parks of {WORKERS} threads, each with a nap")
