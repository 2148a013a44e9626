#!/usr/bin/env python3
"""Refuses memory, or a thread, to the built programs: the first request, the second, and so on until none is left.

    tests/refused_memory.py [NAME...]   the tests whose names have one of these words in them; without one all, each
                                        request refused: a minute or more
    tests/refused_memory.py --sample    the first requests for memory, the last ones, and some of those between them;
                                        but each of the first session

Each program either does what it does with ample memory, or says that it has none: `venued: no memory` on standard
error, nothing on standard output, status 1, and the journal as it was. Each request is refused alone, and then with all
that come behind it. The first session is a Logon and an order, in the bytes of examples/first_order.fix; its answers
are those of tests/first_acknowledgement.play. A venue that listens prints no `ready` line where it has no memory, and
lets nobody in before all its threads have begun; one that is ready lets a client go that it has no room for, serves the
next, and stops in order.

Requests are refused by tests/refusals.c, which cc compiles into a folder of its own; without cc nothing is tried, and a
line says so. The last line is `N passed, M failed`, and the status is 1 where one failed. Build both programs first, by
scripts/build; others are taken by the environment's VENUED and VENUE_REPLAY.
"""
import argparse
import collections
import concurrent.futures
import os
import time

from refusals import FRESH, LOGON, MOST_CALLS, ROOT, Came, Refusal, Sweeps, answers, by_rules, check_history, contents, journal_of
from refusals import kept, listens, orders, put, run_tests  # (in front of what it finds)
from gikvand import journals
from gikvand.fix import body
from venues import COUNTS, LATE, PATIENCE, REPLAY, TRIES, Client, RanOut, Trouble, Venue, free_port, message, order, printed, replay

ORDERS = 3
MANY = 48  # Venues side by side that wait for threads that can't be started, which takes them ten seconds each.


def check_no_memory(program: str, came: Came, journal: str, before: bytes | None) -> None:
    """A program that has no memory says so, and leaves the journal as it was; a missing one may have been made by then."""
    wanted = (1, b"", f"{program}: no memory\n")
    if came != wanted:
        raise Trouble(f"expected {wanted} came {came}")
    now = contents(journal)
    if now != before and (before is not None or now != FRESH):
        raise Trouble(f"expected the journal {before!r} came {now!r}")


def said(sweeps: Sweeps, ends: collections.Counter[str]) -> str:
    """What sweeps came to, in words. They tell nothing where no refusal was noticed."""
    if not ends["no memory"] or not ends["went on"]:
        raise Trouble(f"expected ends of both kinds came {dict(ends)}")
    return f"{sweeps.said()}, {ends['no memory']} times 'no memory'"


def played(name: str) -> tuple[bytes, bytes]:
    """The bytes that go to a program in a played file, and those that have to come."""
    lines = kept(os.path.join(ROOT, "tests", f"{name}.play")).decode().splitlines()
    sent, told = ("".join(it[2:] for it in lines if it.startswith(sign)) for sign in "><")
    return body(sent), body(told)


def check_first_session(refusal: Refusal) -> str:
    """The first session writes its answers with status 0, and the order is kept; or nothing, with status 1 and a
    line."""
    data, told = played("first_acknowledgement")
    put(refusal.journal, None)
    came = refusal.serve(data)
    if came[0]:
        check_no_memory("venued", came, refusal.journal, None)
        return "no memory"
    if came != (0, told, "") or replay(refusal.journal, "C1")[1] != (1, 1):
        raise Trouble(f"expected {printed(told)} and an order kept came {printed(came[1])} {came[2]!r}")
    return "went on"


def first_session(sweeps: Sweeps) -> str:
    """`venued -` with the first session, and each of its requests refused; with ample memory it goes on."""
    if played("first_acknowledgement")[0] != contents(os.path.join(ROOT, "examples", "first_order.fix")):
        raise Trouble("expected the bytes of examples/first_order.fix played came others")
    ends: collections.Counter[str] = collections.Counter()
    sweeps.refused(lambda it: ends.update([check_first_session(it)]), "memory", MOST_CALLS, "once")
    if not ends["went on"]:
        raise Trouble("expected a session with ample memory that goes on came none")
    for how in ("once", "on"):
        sweeps.sweep(lambda it: ends.update([check_first_session(it)]), "memory", how, os.cpu_count() or 1, each=True)
    return said(sweeps, ends)


def standard_session(sweeps: Sweeps) -> str:
    """`venued -` with orders as its input, on a missing journal and on one with an order in it."""
    ends: collections.Counter[str] = collections.Counter()

    def check(refusal: Refusal, before: bytes | None, first: int) -> str:
        put(refusal.journal, before)
        came = refusal.serve(LOGON + b"".join(orders(first, ORDERS)))
        if came[0]:
            check_no_memory("venued", came, refusal.journal, before)
            return "no memory"
        if came[1:] != (b"".join(answers(first, ORDERS)), ""):
            raise Trouble(f"expected {printed(b''.join(answers(first, ORDERS)))} came {printed(came[1])} {came[2]!r}")
        check_history(refusal.journal, first + ORDERS - 1, first + ORDERS - 1)
        return "went on"

    for before, first in ((None, 1), (journal_of(orders(1, 1)), 2)):
        for how in ("once", "on"):
            sweeps.sweep(lambda it: ends.update([check(it, before, first)]), "memory", how)
    return said(sweeps, ends)


def is_served(port: int, number: int) -> bool:
    """Whether the member is served: its Logon is answered and its order acknowledged. One that isn't is let go. Between the two may
    stand reports of earlier orders, which the venue hadn't passed over yet when the client before it went."""
    client, earlier = Client(port, 1), [f"|11={it}|" for it in range(1, number)]
    heard: list[str | None] = []
    try:
        client.send_bytes(LOGON + b"".join(orders(number, 1)))
        heard = [client.next(), client.next()]
        while heard[0] and any(it in (heard[-1] or "") for it in earlier):
            heard.append(client.next())
    except OSError:
        heard = [None]
    client.close()
    if heard[0] is None:
        return False
    if f"|11={number}|" not in (heard[-1] or ""):
        raise Trouble(f"expected the report of order {number} came {heard}")
    return True


def check_listening(refusal: Refusal) -> str:
    """Starts a venue that is refused something, and lets three clients of one member come to it, if it is ready."""
    before = journal_of(orders(1, 1))
    put(refusal.journal, before)
    venue, line, ended = listens(refusal, 1)
    if not venue:
        check_no_memory("venued", ended, refusal.journal, before)
        return "no memory"
    if line != "venued: ready, 1 commands, 1 outputs":
        raise Trouble(f"expected the counts of the journal came {line}")
    served = sum(is_served(venue.port, number) for number in (2, 3, 4))
    if refusal.how == "once" and served < 2:
        raise Trouble(f"expected two of three clients served came {served}")
    if (commands := venue.stop()[0]) != 1 + served:
        raise Trouble(f"expected {1 + served} commands at the stop came {commands}")
    return "went on"


def listening(sweeps: Sweeps) -> str:
    """A venue that listens, and the clients of one member."""
    ends: collections.Counter[str] = collections.Counter()
    kinds = [(group, how) for group in ("memory", "threads") for how in ("once", "on")]
    with concurrent.futures.ThreadPoolExecutor(len(kinds)) as pool:
        done = [pool.submit(sweeps.sweep, lambda it: ends.update([check_listening(it)]), *kind, MANY) for kind in kinds]
        for it in done:
            it.result()
    return said(sweeps, ends)


def connected(port: int, venue: Venue) -> Client | None:
    """A client at a port of a venue that has to listen soon, or None where it has ended."""
    end = time.monotonic() + PATIENCE
    while venue.process.poll() is None:
        try:
            return Client(port, 1)
        except ConnectionRefusedError:
            if time.monotonic() > end:
                raise RanOut(f"a venue that listens, or ends: not within {PATIENCE} seconds") from None
            time.sleep(0.01)
    return None


def what_came(client: Client) -> str | None:
    """The first message that a client hears of a venue that has ended, or None."""
    try:
        return client.next()
    except OSError:
        return None


def check_early_client(refusal: Refusal) -> bool:
    """A client that comes while a thread is refused isn't let in: it hears nothing but the end. Answers whether it came."""
    for _ in range(TRIES):
        if (came := came_early(refusal)) is not None:
            return came
    raise Trouble(f"in {TRIES} tries no two ports stayed free")


def came_early(refusal: Refusal) -> bool | None:
    """The same at two ports that were free. None where another venue, of those side by side, took one of them before."""
    put(refusal.journal, None)
    port = free_port(2)
    venue = Venue(port, refusal.journal, 2, env=refusal.environment())
    clients = [it for it in (connected(port, venue), connected(port + 1, venue)) if it]
    try:
        for member, client in enumerate(clients, 1):
            client.send_bytes(message(member, 1, "A", "98=0|108=0|141=Y|") + message(member, 2, "D", order(1, 1, 10, 50)))
    except OSError:
        pass  # It has ended.
    line = venue.out.next()
    if COUNTS.fullmatch(line or ""):
        venue.kill()
        return False  # It makes fewer threads.
    fault = venue.err.next() or ""
    if fault.startswith("venued: cannot listen"):
        for it in clients:
            it.close()
        return None
    if any(heard := [what_came(it) for it in clients]):
        raise Trouble(f"expected no client let in came {heard}")
    came = (venue.process.wait(PATIENCE), (line or "").encode(), f"{fault}\n")
    check_no_memory("venued", came, refusal.journal, None)
    return len(clients) == 2


def early_clients(sweeps: Sweeps) -> str:
    """Two clients at the ports of a venue that can't start one of its threads, whichever that is. Such a venue ends behind ten seconds. All
    venues are tried again where this process stood still for so long, and so no client came before the end."""
    came: collections.Counter[bool] = collections.Counter()
    for _ in range(LATE):
        sweeps.sweep(lambda it: came.update([check_early_client(it)]), "threads", "on", 12)
        if came[True]:
            break
    else:
        raise Trouble("expected clients that came before the end came none")
    return f"{sweeps.said()}, {came[True]} times two clients waited"


def replays(sweeps: Sweeps) -> str:
    """`venue-replay` on a journal of three orders, with a snapshot behind them in one of version 3."""
    old = journal_of(orders(1, ORDERS), 1)
    third = by_rules(journal_of(orders(1, ORDERS), journals.WITH_SNAPSHOTS), "snapshot", "ABC")[1]["J"]
    ends: collections.Counter[str] = collections.Counter()

    def check(refusal: Refusal, before: bytes, *words: str) -> str:
        put(refusal.journal, before)
        put(f"{refusal.journal}.3", None)
        wanted, files = by_rules(before, *words)
        came = refusal.ran([REPLAY, refusal.journal, *(f"{refusal.journal}.3" if it == "N" else it for it in words)])
        now = {"J": contents(refusal.journal), "N": contents(f"{refusal.journal}.3")}
        if came == wanted and now == {"N": files.get("N"), "J": files["J"]}:
            return "went on"
        check_no_memory("venue-replay", came, refusal.journal, before)
        if now["N"] is not None or contents(f"{refusal.journal}.3.new") is not None:
            raise Trouble("expected no new journal came one")
        return "no memory"

    for before, words in ((third, ("book", "ABC")), (third, ("C1", "ABC")), (third, ("check", "ABC")),
                          (third, ("snapshot", "ABC")), (old, ("carry", "N"))):
        for how in ("once", "on"):
            sweeps.sweep(lambda it: ends.update([check(it, before, *words)]), "memory", how)
    return said(sweeps, ends)


if __name__ == "__main__":
    parser = argparse.ArgumentParser(description=__doc__, formatter_class=argparse.RawDescriptionHelpFormatter)
    parser.add_argument("names", nargs="*", metavar="NAME", help="a word in a test's name")
    parser.add_argument("--sample", action="store_true", help="refuse a sample of the requests for memory")
    asked = parser.parse_args()
    tests = [first_session, standard_session, listening, early_clients, replays]
    chosen = [it for it in tests if not asked.names or any(word in it.__name__ for word in asked.names)]
    run_tests("refused_memory", chosen, asked.sample)
