"""Lets each call to the journal's device fail, or kills the program at it, and looks at what the file holds then.

The calls are those that open, lock, read, write, sync, cut and rename files. A session of some orders is played again and
again: the first call fails, then the second, and so on until none is left; alone, or with all that come behind it. Or it
moves half of its bytes, which is no failure; or the program is killed in its place, or right behind it. Each time

- a program that hadn't begun says `venued: journal fault 41` with status 1, writes nothing else, and leaves the journal
  as it was; one that served says `venued: journal failed` with status 2, or, killed, nothing;
- what came out is a beginning of what the member is to be told;
- venue-replay finds a beginning of the orders that has each of which anything was told;
- the journal has the version and the cut that it had, or those with which the program makes one;
- a new start on that journal goes on behind it, with the next OrderID and ExecID.

The same for a venue that listens. Where venue-replay only reads it says `venue-replay: journal fault 41` with status 1.
Where it adds a snapshot the journal has its entries behind that, and the snapshot or not. Where it carries a journal over
that one stays as it was, and under the new name there is nothing, or the whole new journal.

Calls are refused by tests/refusals.c, which cc compiles into a folder of its own; without cc its tests are skipped. A
killed program leaves what it wrote: that an unsynced write may be lost is a matter of the proofs. What each test has
come to is printed, as pytest shows it by -rP. All take some ten seconds.
"""
import collections
import fcntl
import os
import signal
from collections.abc import Callable

import pytest

from gikvand import journals
from gikvand.journals import Entry
from gikvand.words import sure
from refusals import FRESH, LOGON, Came, Refusal, Sweeps, answered, answers, by_rules, check_history, contents, journal_of, listens
from refusals import kept as kept_in
from refusals import orders, put, ran, standard
from venues import REPLAY, Client, Trouble, printed

pytestmark = [pytest.mark.slow, pytest.mark.usefixtures("programs")]

ORDERS = 4
A_THOUSAND = 1_000  # Orders behind which the next start writes a snapshot.
KILLED = -signal.SIGKILL
NOT_BEGUN = (1, b"", "venued: journal fault 41\n")
FAILED = (2, "venued: journal failed\n")
UNREAD = (1, b"", "venue-replay: journal fault 41\n")

Ends = collections.Counter[tuple[str, int]]  # How a run ended, and what it left, with how often.


# What is asked of the device besides reads, call by call, where J is the journal, N a new one, and the point their folder.
OPENS_FOR = {os.O_RDONLY: "to read", os.O_RDWR: "to write", os.O_RDWR | os.O_CREAT: "to make",
             os.O_RDWR | os.O_CREAT | os.O_EXCL: "to make anew"}
LOCKS_FOR = {fcntl.LOCK_EX | fcntl.LOCK_NB: "alone"}
FOLDER_SYNCED = ["open . to read", "fsync ."]
OPENED = ["open J to write", "flock J alone", *FOLDER_SYNCED, "fdatasync J"]
READ = ["open J to read", "fdatasync J"]
LOCKED = ["flock J.new alone", "statx J.new file", "statx J.new name", "statx J.new file"]  # (its name and its length)
NAMED = ["statx J.new file", "statx J.new name", "statx J name", "rename J.new J", *FOLDER_SYNCED]
MADE = ["open J to write", "open J.new to make", *LOCKED, "pwrite J.new 17", "fdatasync J.new", *NAMED, "fdatasync J"]


def appended(block: bytes, file: str = "J") -> list[str]:
    """A block: behind the closed gate all of it but its own gate, and a closed one; then that gate, which opens it."""
    return [f"pwrite {file} {len(block)}", f"fdatasync {file}", f"pwrite {file} 1", f"fdatasync {file}"]


def for_new(calls: list[str]) -> list[str]:
    """The same of a new journal."""
    return [it.replace("J", "N") for it in calls]


def check_goes_on(journal: str, kept: int) -> None:
    """A new start serves one more order behind those that are kept."""
    came = ran(standard(journal), LOGON + b"".join(orders(kept + 1, 1)))
    wanted = (0, b"".join(answers(kept + 1, 1)), "")
    if came != wanted:
        raise Trouble(f"expected, at the next start, {printed(wanted[1])} came {printed(came[1])} {came}")
    check_history(journal, kept + 1, kept + 1)


def check_version(journal: str, before: bytes | None) -> None:
    """A journal has the header that it had, or that of an empty one which venued makes."""
    came, before = contents(journal) or FRESH, before or FRESH
    wanted = before[:len(journals.header(journals.version_of(before)))]
    if not came.startswith(wanted):
        raise Trouble(f"expected a journal that begins with {wanted.hex()} came {came[:16].hex()}")


def is_as_it_was(journal: str, before: bytes | None) -> bool:
    """Whether a program that hadn't begun left a journal as it was. A missing one may have been made, and one of version
    3 may have another snapshot."""
    now = contents(journal)
    if now == before or before is None and now == FRESH:
        return True
    if before is None or journals.version_of(before) < journals.WITH_SNAPSHOTS:
        return False
    return journals.read(sure(now)).entries == journals.read(before).entries


def check_ended(how: str, came: Came, journal: str, before: bytes | None, first: int) -> int:
    """How a session with a refused call ended: how many of its orders were answered."""
    status, out, error = came
    told = answered(out, first, ORDERS)
    if (status, error) == (0, ""):
        if out != b"".join(answers(first, ORDERS)):
            raise Trouble(f"expected {ORDERS} orders answered came {told}")
        return told
    if how in ("before", "after") and (status, error) == (KILLED, ""):
        return told
    if came == NOT_BEGUN and is_as_it_was(journal, before):
        return told
    if (status, error) != FAILED:
        raise Trouble(f"expected one of {NOT_BEGUN} {FAILED} came status {status} {error!r} {printed(out)}")
    return told


def check_session(refusal: Refusal, before: bytes | None) -> int:
    """Plays a session in which a call is refused, and checks what came of it: its status."""
    first = 1 + (len(journals.read(before).entries) if before else 0)
    put(refusal.journal, before)
    came = refusal.serve(LOGON + b"".join(orders(first, ORDERS)))
    name = refusal.came()
    told = check_ended(refusal.how, came, refusal.journal, before, first)
    if came[0] == 0 and name and refusal.how in ("once", "on"):
        raise Trouble(f"expected status 1 or 2 behind a failed {name} came 0")
    check_version(refusal.journal, before)
    kept = check_history(refusal.journal, first - 1 + told, first - 1 + ORDERS)
    check_goes_on(refusal.journal, kept)
    check_version(refusal.journal, before)
    return came[0]


def test_standard_session(sweeps: Sweeps) -> None:
    """`venued -`, on a missing journal, and on one of each version with an order in it."""
    statuses: collections.Counter[int] = collections.Counter()
    for before in (None, *(journal_of(orders(1, 1), it) for it in journals.VERSIONS)):
        for how in ("once", "on", "short", "before", "after"):
            sweeps.sweep(lambda it: statuses.update([check_session(it, before)]), "device", how)
    if not all(statuses[it] for it in (0, 1, 2, KILLED)):
        raise Trouble(f"expected ends of all kinds came {dict(statuses)}")
    print(f"{sweeps.said()}; {statuses[1]} times not begun, {statuses[2]} times failed, {statuses[KILLED]} times killed")


def test_snapshot_at_the_start(sweeps: Sweeps) -> None:
    """`venued -` on a journal of a thousand orders, of which it writes a snapshot before it serves."""
    whole = orders(1, A_THOUSAND)
    before = journals.header(3) + journals.in_blocks(3, [Entry(1, it) for it in whole], A_THOUSAND) + journals.CLOSED
    wanted = by_rules(before, "snapshot", "ABC")[1]["J"]
    statuses: collections.Counter[int] = collections.Counter()
    found: collections.Counter[int] = collections.Counter()

    def check(refusal: Refusal) -> None:
        statuses.update([check_session(refusal, before)])
        kept = journals.read(kept_in(refusal.journal))
        if any(it not in journals.read(wanted).snapshots for it in kept.snapshots[:1]):
            raise Trouble(f"expected a snapshot of {A_THOUSAND} orders came {kept.snapshots}")
        if (came := ran([REPLAY, refusal.journal, "check", "ABC"])) != (0, b"snapshots true\n", ""):
            raise Trouble(f"expected true snapshots came {came}")
        found.update([len(kept.snapshots)])

    for how in ("once", "short", "before", "after"):
        sweeps.sweep(check, "device", how)
    if set(found) != {1} or not all(statuses[it] for it in (0, 1, 2, KILLED)):
        raise Trouble(f"expected one snapshot at last, and ends of all kinds, came {dict(found)} {dict(statuses)}")
    print(f"{sweeps.said()}; {statuses[1]} times not begun, {statuses[2]} times failed, {statuses[KILLED]} times killed")


def test_first_sync(sweeps: Sweeps) -> None:
    """Where the first sync of the first append fails, the Logon's answer alone was written, and the status is 2."""
    found = []

    def check(refusal: Refusal) -> None:
        put(refusal.journal, FRESH)
        came = refusal.serve(LOGON + b"".join(orders(1, 1)))
        if came[0] == 2 and refusal.came() == "fdatasync":
            found.append((came, check_history(refusal.journal, 0, 1)))

    sweeps.sweep(check, "device", "once", together=1)
    wanted = (2, answers(1, 1)[0], FAILED[1])
    if not found or found[0][0] != wanted:
        raise Trouble(f"expected {wanted} came {found[:1]}")
    print(f"{printed(wanted[1])} and status 2")


def heard(port: int) -> bytes:
    """What one member hears that sends an order, waits for its report, and so on, until the venue is gone."""
    client, out = Client(port, 1), []
    try:
        client.send_bytes(LOGON)
        out.append(client.next())
        for it in orders(2, ORDERS):
            client.send_bytes(it)
            out.append(client.next())
            if int(it.partition(b"\x0111=")[2].partition(b"\x01")[0]) % 2 == 0:
                continue
            out += [client.next(), client.next()]  # A sell, behind a buy at its price: both are filled.
    except OSError:
        pass
    client.close()
    return "".join(it for it in out if it).replace("|", "\x01").encode()


def check_listening(refusal: Refusal, before: bytes) -> int:
    """Lets a member trade with a venue to which a call is refused: its status."""
    put(refusal.journal, before)
    venue, _, ended = listens(refusal, 1)
    if not venue:
        if ended != NOT_BEGUN or contents(refusal.journal) != before:
            raise Trouble(f"expected {NOT_BEGUN} came {ended}")
        return 1
    told = answered(heard(venue.port), 2, ORDERS)
    if refusal.came():
        came = (f"{venue.err.next()}\n", venue.status())
        if came != FAILED[::-1]:
            raise Trouble(f"expected {FAILED} came {came}")
    elif told != ORDERS or venue.stop()[0] != 1 + ORDERS:
        raise Trouble(f"expected {ORDERS} orders answered came {told}")
    check_goes_on(refusal.journal, check_history(refusal.journal, 1 + told, 1 + ORDERS))
    return venue.process.returncode


def test_listening(sweeps: Sweeps) -> None:
    """A venue that listens: its journal fails while it serves, and it ends by itself, with the line and status 2."""
    statuses: collections.Counter[int] = collections.Counter()
    sweeps.sweep(lambda it: statuses.update([check_listening(it, journal_of(orders(1, 1)))]), "device", "once")
    if not statuses[1] or not statuses[2]:
        raise Trouble(f"expected ends of both kinds came {dict(statuses)}")
    print(f"{sweeps.said()}; {statuses[1]} times not begun, {statuses[2]} times failed")


def test_replays(sweeps: Sweeps) -> None:
    """`venue-replay` that reads: where a call fails it prints no report. A read of half the bytes is none that fails."""
    before = by_rules(journal_of(orders(1, ORDERS), journals.WITH_SNAPSHOTS), "snapshot", "ABC")[1]["J"]

    def check(refusal: Refusal, what: str) -> None:
        put(refusal.journal, before)
        came = refusal.ran([REPLAY, refusal.journal, what, "ABC"])
        fails = refusal.came() and refusal.how != "short"
        wanted = UNREAD if fails else by_rules(before, what, "ABC")[0]
        if came != wanted or contents(refusal.journal) != before:
            raise Trouble(f"expected {wanted} came {came}")

    for what in ("C1", "book", "check"):
        for how in ("once", "on", "short"):
            sweeps.sweep(lambda it: check(it, what), "device", how)
    print(sweeps.said())


def check_changed(refusal: Refusal, came: Came, wanted: Came) -> str:
    """How a run of venue-replay that writes ended: as without a refusal, by 41, or by the kill."""
    if came == wanted and (refusal.how == "short" or not refusal.came()):
        return "done"
    if came == UNREAD and refusal.came() and refusal.how in ("once", "on"):
        return "failed"
    if came == (KILLED, b"", "") and refusal.how in ("before", "after"):
        return "killed"
    raise Trouble(f"expected {wanted} {UNREAD} or a kill came {came}")


def check_same_entries(journal: str, before: bytes) -> int:
    """A journal has the entries that it had, and its snapshots are those that it had, or with one more, and true."""
    kept = journals.read(kept_in(journal))
    was = journals.read(before)
    if (kept.entries, kept.snapshots[:len(was.snapshots)]) != (was.entries, was.snapshots):
        raise Trouble(f"expected the entries and snapshots of before came {kept}")
    for what in ("check", "book", "C1"):
        if (came := ran([REPLAY, journal, what, "ABC"])) != (wanted := by_rules(before, what, "ABC")[0]):
            raise Trouble(f"expected, of {what}, {wanted} came {came}")
    return len(kept.snapshots) - len(was.snapshots)


def test_added_snapshots(sweeps: Sweeps) -> None:
    """`venue-replay` that adds a snapshot: it is in the journal, or isn't, and the next one is added behind."""
    before = journal_of(orders(1, ORDERS), journals.WITH_SNAPSHOTS)
    wanted, ends = by_rules(before, "snapshot", "ABC")[0], Ends()

    def check(refusal: Refusal) -> None:
        put(refusal.journal, before)
        end = check_changed(refusal, refusal.ran([REPLAY, refusal.journal, "snapshot", "ABC"]), wanted)
        more = check_same_entries(refusal.journal, before)
        if more not in {"done": (1,)}.get(end, (0, 1)):
            raise Trouble(f"expected a snapshot where it was {end} came {more}")
        ends.update([(end, more)])
        next_one, files = by_rules(kept_in(refusal.journal), "snapshot", "ABC")
        came = ran([REPLAY, refusal.journal, "snapshot", "ABC"])
        if (came, contents(refusal.journal)) != (next_one, files["J"]):
            raise Trouble(f"expected, of the next snapshot, {next_one} came {came}")

    for how in ("once", "on", "short", "before", "after"):
        sweeps.sweep(check, "device", how)
    print(said_of(sweeps, ends, [("done", 1), ("failed", 0), ("failed", 1), ("killed", 0), ("killed", 1)]))


def said_of(sweeps: Sweeps, ends: Ends, wanted: list[tuple[str, int]]) -> str:
    """What sweeps came to, in words. Each of these ends has to be among them."""
    if missed := [it for it in wanted if not ends[it]]:
        raise Trouble(f"expected ends of all kinds came none {missed} in {dict(ends)}")
    return f"{sweeps.said()}; " + ", ".join(f"{ends[it]} {it[0]} with {it[1]}" for it in wanted)


def test_carried_over(sweeps: Sweeps) -> None:
    """`venue-replay` that carries over: the old journal stays, and there is a whole new one, or none. Then it is done."""
    ends = Ends()

    def check(refusal: Refusal, before: bytes) -> None:
        old, new = refusal.journal, f"{refusal.journal}.3"
        wanted, files = by_rules(before, "carry", "N")
        put(old, before)
        put(new, None)
        end = check_changed(refusal, refusal.ran([REPLAY, old, "carry", new]), wanted)
        came = contents(new)
        if came not in ((files["N"],) if end == "done" else (None, files["N"])) or contents(old) != before:
            raise Trouble(f"expected the old journal, and the whole new one or none, came {contents(old)!r} {came!r}")
        if end == "failed" and contents(f"{new}.new"):  # (it is empty where it was made, and couldn't be locked)
            raise Trouble("expected nothing that a failed carrying left came a file")
        ends.update([(end, int(came is not None))])
        put(new, None)  # What a killed one left is in the way.
        if (again := (ran([REPLAY, old, "carry", new]), contents(new), contents(old))) != (wanted, files["N"], before):
            raise Trouble(f"expected {wanted} behind that came {again}")

    for version in (1, 2):
        for how in ("once", "on", "short", "before", "after"):
            sweeps.sweep(lambda it: check(it, journal_of(orders(1, ORDERS), version)), "device", how)
    print(said_of(sweeps, ends, [("done", 1), ("failed", 0), ("failed", 1), ("killed", 0), ("killed", 1)]))


def test_anothers_file(sweeps: Sweeps) -> None:
    """A file of somebody's where the new one would be made: it stays as it is, whichever call is refused, and the old one too."""
    whose = b"somebody's file, which is longer than a new journal"

    def check(refusal: Refusal) -> None:
        old, new = refusal.journal, f"{refusal.journal}.3"
        put(old, before)
        put(f"{new}.new", whose)
        came = refusal.ran([REPLAY, old, "carry", new])
        left = contents(f"{new}.new"), contents(old), contents(new)
        put(f"{new}.new", None)
        if came[0] != 1 or left != (whose, before, None):
            raise Trouble(f"expected status 1 and both files as they were came {came} and {left}")

    before = journal_of(orders(1, ORDERS), 1)
    sweeps.sweep(check, "device", "once")
    print(sweeps.said())


def shown(noting: Refusal, call: tuple[str, str, str]) -> str:
    """A call in words."""
    name, file, more = call
    if name == "open":
        more = OPENS_FOR.get(int(more), more)
    elif name == "flock":
        more = LOCKS_FOR.get(int(more), more)
    elif name == "rename":
        more = sure(noting.beside(more))
    return f"{name} {file} {more}".rstrip().replace("venue.journal.3", "N").replace("venue.journal", "J")


def check_asked(noting: Refusal, what: str, wanted: list[str]) -> int:
    """What a program asked of the device that ran last."""
    came = [shown(noting, it) for it in noting.noted() if it[0] != "pread"]
    if came != wanted:
        raise Trouble(f"expected, of {what}, {wanted} came {came}")
    return len(wanted)


def listened(noting: Refusal) -> None:
    """Lets a venue that listens take one order behind the first."""
    venue, _, ended = listens(noting, 1)
    if not venue:
        raise Trouble(f"expected a venue came {ended}")
    client = Client(venue.port, 1)
    for it in (LOGON, *orders(2, 1)):
        client.send_bytes(it)
        client.next()
    client.close()
    venue.stop()


def test_calls_asked(sweeps: Sweeps) -> None:
    """Which calls the programs make: none is left out of the locks, the syncs of files and folders, and the renames."""
    noting = Refusal(sweeps.library, sweeps.folder, "device", 0, "note")
    whole, block = orders(1, 1)[0], journals.block_of(journals.MADE, [Entry(1, orders(1, 1)[0])])
    put(noting.journal, None)
    noting.serve(LOGON + whole)
    count = check_asked(noting, "a first start and an order", MADE + appended(block))
    listened(noting)
    count += check_asked(noting, "a later start and an order", OPENED + appended(block))
    for what in ("book", "C1", "check"):
        noting.ran([REPLAY, noting.journal, what, "ABC"])
        count += check_asked(noting, what, READ)
    data = kept_in(noting.journal)
    noting.ran([REPLAY, noting.journal, "snapshot", "ABC"])
    more = len(kept_in(noting.journal)) - len(data)
    count += check_asked(noting, "a snapshot", OPENED + appended(bytes(more)))
    put(noting.journal, journal_of([whole], 1))
    noting.ran([REPLAY, noting.journal, "carry", f"{noting.journal}.3"])
    wanted = ["open J to read", *for_new(["statx J name", "open J.new to make anew", *LOCKED]), "fdatasync J"]
    wanted += ["pwrite N.new 17", "fdatasync N.new", *appended(block, "N.new"), *for_new(NAMED)]
    count += check_asked(noting, "a journal carried over", wanted)
    print(f"{count} calls, in their order")


def test_lock_raced(sweeps: Sweeps) -> None:
    """Another process puts its own file in the place of the new one before that is locked: this one has then locked a
    file without a name. It says so, gives no journal that name, and leaves the other's file where it is."""
    found: collections.Counter[str] = collections.Counter()

    def check(refusal: Refusal, words: Callable[[str], list[str]], data: bytes, name: str, wanted: Came) -> None:
        put(refusal.journal, None if data else journal_of(orders(1, 1), 1))
        came = refusal.ran(words(refusal.journal), data)
        if refusal.came() != "flock":
            return
        found.update([name])
        left = contents(f"{refusal.journal}{name}"), contents(f"{refusal.journal}{name}.new")
        if (came, left) != (wanted, (None, b"")):
            raise Trouble(f"expected {wanted} and the other's file came {came} and {left}")

    serves = LOGON + orders(1, 1)[0]
    sweeps.sweep(lambda it: check(it, standard, serves, "", NOT_BEGUN), "device", "swap")
    sweeps.sweep(lambda it: check(it, lambda name: [REPLAY, name, "carry", f"{name}.3"], b"", ".3", UNREAD), "device", "swap")
    if found != {"": 1, ".3": 1}:
        raise Trouble(f"expected a lock of each new file came {dict(found)}")
    print("2 locks, of a new journal and of one that is carried over")
