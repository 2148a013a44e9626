"""The properties that a store has to have for a venue that goes on at another machine, each with the try that shows it, for
`gikvand store-contract`. docs/FAILOVER.md says why, and what happens where one isn't kept."""
import argparse
import contextlib
import errno
import os
import signal
import statistics
import tempfile
import time
from typing import Any

from gikvand.logs import Compared, reports
from gikvand.programs import REPLAY, Replay
from gikvand.store_machines import LONGEST, STEP, Hand, Machine, Refused, Silent, text_of, until
from gikvand.words import Trouble, some

PROPERTIES = ("one lock", "passed on", "no late writes", "majority syncs", "no false success", "fresh opens", "whole replicas",
              "errors in time", "known times", "cost of syncs")
VENUE = "a venue"    # And last a real one.
OURS = "contract."   # So begin the names of our files.
WITHIN = 30          # Seconds within which a store has to answer, and its lock to pass on.
TO_PASS = 180        # For so long that is waited for.
TRIES = 10           # Of a lock that another one has.
SIZE = 5000          # Bytes of the file whose bytes change in their places,
STRIDE = 37          # and so many places on in each round.
RECORD = 8           # Bytes of a record, as store_hand.py writes them.
ENOUGH = 50          # Records, or reports to each member, before something happens.
PAIRS = 200          # Of two writes, with their syncs.
MEMBERS = (1, 2, 3, 4)
LATER = 1_000_000    # The first ClOrdID at the next machine.
REPORT = b"\x0135=8\x01"
SYMBOL = "ABC"


def records(who: str, first: int, count: int) -> str:
    return "".join(f"{who}{it:06}\n" for it in range(first, first + count))


def count_of(found: bytes, who: str) -> int:
    """How many whole records of this writer stand at the front."""
    count = 0
    while found[count * RECORD:(count + 1) * RECORD] == records(who, count, 1).encode():
        count += 1
    return count


def named(error: str) -> str:
    return errno.errorcode.get(int(error), error) if error.isdecimal() else error


class Contract:
    """The machines, and what was seen of the store."""

    def __init__(self, given: argparse.Namespace) -> None:
        self.given, self.machines = given, [Machine(it) for it in given.machine]
        self.times: dict[str, float | None] = {}
        self.passed = self.failed = self.left = 0

    # What was seen.

    def say(self, name: str, fault: str, seen: str = "") -> None:
        """A property that holds, as was seen, or doesn't, for this reason."""
        self.passed, self.failed = self.passed + (not fault), self.failed + bool(fault)
        print(f"{name:17} {f'fail: {fault}' if fault else f'pass: {seen}'}", flush=True)

    def fail(self, why: str, *names: str) -> None:
        """Properties of which none holds, for one reason."""
        for it in names:
            self.say(it, why)

    def leave(self, why: str, *names: str) -> None:
        """Properties that can't be tried, for one reason."""
        self.left += len(names)
        for it in names:
            print(f"{it:17} not tried: {why}", flush=True)

    # The machines.

    def path(self, kind: str) -> str:
        return f"{self.given.folder}/{OURS}{kind}"

    def begin(self) -> None:
        """One process on each machine. All have to see one folder, in which nothing is but ours."""
        self.hands = [self.ready(it) for it in self.machines]
        self.hands[0].ask(["make", self.given.folder])
        for it in self.hands:
            others = [name for name in it.ask(["names", self.given.folder])[0] if not name.startswith(OURS)]
            if others:
                raise Trouble(f"the folder isn't empty: {self.given.folder} has {others[0]}. A store isn't tried beside a venue")
        mark = f"{time.time_ns()}"
        self.hands[0].ask(["remove", self.given.folder], ["open", self.path("mark")], ["put", 0, mark], ["close"])
        for it in self.hands:
            if until(WITHIN, lambda: self.sees(it, "mark", mark.encode())) is None:
                raise Trouble(f"the folder isn't on one store: {it.machine.name} doesn't see what "
                              f"{self.hands[0].machine.name} has written")

    def ready(self, machine: Machine) -> Hand:
        hand = machine.hand()
        hand.ask(["learn", text_of(STEP)])
        return hand

    def end(self) -> None:
        for it in self.machines:
            it.close()

    def sees(self, hand: Hand, kind: str, wanted: bytes) -> bool:
        try:
            return bytes.fromhex(hand.ask(["look", self.path(kind)])[0]) == wanted
        except (Refused, Silent):
            return False

    def gets(self, hand: Hand, kind: str) -> bool:
        """Whether a machine gets the lock now. Where the store refuses to say the machine hasn't got it."""
        try:
            return hand.ask(["take", self.path(kind)])[0]
        except (Refused, Silent):
            return False

    def steps(self, hand: Hand, kind: str) -> bool:
        """Whether the step before each start could be done."""
        status, _ = hand.ask(["step", self.path(kind)])[0]
        return status == 0

    def goes_on(self, hand: Hand, kind: str) -> bool:
        """Whether a machine goes on, as a venue does: by the step before each start, and then the lock."""
        try:
            return self.steps(hand, kind) and self.gets(hand, kind)
        except (Refused, Silent):
            return False

    def contents(self, hand: Hand) -> bytes:
        return bytes.fromhex(hand.ask(["read"])[0])

    def reads(self, hand: Hand, kind: str) -> bytes:
        """What a machine goes on from, which lets go of it again."""
        if until(TO_PASS, lambda: self.goes_on(hand, kind)) is None:
            raise Trouble(f"nobody gets the lock any more: {hand.machine.name} didn't within {TO_PASS} seconds")
        found = self.contents(hand)
        hand.ask(["close"])
        return found

    def await_back(self, machine: Machine) -> Hand:
        """A process on a machine that comes back, once the machine sees the store."""
        machine.hand_once_it_is_there().close()
        hand = self.ready(machine)
        if until(TO_PASS, lambda: bool(self.names(hand))) is None:
            raise Trouble(f"the store isn't there again: {machine.name} didn't see it within {TO_PASS} seconds")
        return hand

    def names(self, hand: Hand) -> list[str]:
        try:
            return hand.ask(["names", self.given.folder])[0]
        except (Refused, Silent):
            return []

    # Without a fault of a machine.

    def one_lock(self) -> None:
        """Each machine holds the lock in turn, and the others try."""
        wrong, tries = [], 0
        for holder in self.hands:
            holder.ask(["get", self.path("lock")])
            for other in (it for it in self.hands if it is not holder):
                for _ in range(TRIES):
                    tries += 1
                    if self.gets(other, "lock"):
                        wrong.append(f"{other.machine.name} got it, though {holder.machine.name} had it")
                        other.ask(["close"])
            holder.ask(["close"])
        self.say("one lock", wrong[0] if wrong else "", f"refused in all of {tries} tries")

    def passed_on(self) -> None:
        """The holder stands still, and is killed later."""
        first, second, _ = self.hands
        holder = first.machine.hand()
        holder.ask(["get", self.path("end")])
        first.ask(["signal", holder.pid, signal.SIGSTOP])
        early = until(self.given.stay, lambda: self.gets(second, "end"))
        first.ask(["signal", holder.pid, signal.SIGCONT], ["signal", holder.pid, signal.SIGKILL])
        took = self.times["an end"] = 0.0 if early is not None else until(TO_PASS, lambda: self.gets(second, "end"))
        holder.close()
        if took is not None:
            second.ask(["close"])
        stood = f"{second.machine.name} got the lock after {early:.1f} s, while its holder stood still" if early is not None else ""
        fault = stood or ("" if took is not None else f"nobody got the lock within {TO_PASS} s of its holder's end")
        self.say("passed on", fault, f"kept for {self.given.stay:g} s by a holder that stood still, passed on behind its end")

    def old_bytes(self, has_step: bool) -> int:
        """The stale look: in how many rounds a machine read an old byte that had looked right before."""
        holder, *lookers = self.hands
        kind, old = f"byte-{has_step:d}", 0
        name = self.path(kind)
        holder.ask(["open", name], ["put", 0, "0" * SIZE], ["close"])
        for number in range(self.given.rounds):
            looker, at, byte = lookers[number % 2], number * STRIDE % SIZE, chr(ord("a") + number % 26)
            looker.ask(["look", name])
            holder.ask(["get", name], ["put", at, byte], ["close"])
            if has_step:
                until(WITHIN, lambda: self.steps(looker, kind))
            found = bytes.fromhex(looker.ask(["get", name], ["read"], ["close"])[1])
            old += found[at:at + 1] != byte.encode()
        return old

    def fresh_opens(self) -> None:
        plain, behind, rounds = self.old_bytes(False), self.old_bytes(True), self.given.rounds
        seen = f"an old byte in {plain} of {rounds} rounds; behind before-start in {behind}"
        self.say("fresh opens", seen if plain or behind else "", seen)

    def cost(self) -> None:
        hand = self.hands[0]
        took = hand.ask(["get", self.path("cost")], ["pairs", PAIRS], ["close"], seconds=10 * LONGEST)[1]
        self.say("cost of syncs", "", f"{1000 * statistics.median(took):.2f} ms for two writes with their syncs, the middle one of "
                 f"{PAIRS}; the longest {1000 * max(took):.0f}")

    # With a machine that is cut off, or loses its power.

    def writing(self, kind: str) -> Hand:
        """A process on the first machine that has the lock, and writes record behind record."""
        holder = self.machines[0].hand()
        name = self.path(kind)
        holder.ask(["open", name], ["put", 0, records("a", 0, 1)], ["close"], ["get", name])
        holder.begin(["write_on", "a", 1, WITHIN])
        if until(LONGEST, lambda: holder.count >= ENOUGH) is None:
            raise Trouble(f"the store takes too long: {holder.count} records in {LONGEST} seconds")
        return holder

    def next_one(self, kind: str) -> tuple[Hand, bytes] | None:
        """The second machine, once it goes on, and what it reads there."""
        second = self.hands[1]
        took = self.times["a cut" if kind == "cut" else "a loss"] = until(TO_PASS, lambda: self.goes_on(second, kind))
        return None if took is None else (second, self.contents(second))

    def cut(self) -> None:
        """The first machine is cut off while it writes, and joined again later."""
        names, machine = ("no late writes", "no false success", "errors in time"), self.machines[0]
        if not (self.given.cut and self.given.join):
            return self.leave("that needs --cut and --join", *names)
        holder = self.writing("cut")
        machine.does(self.given.cut)
        try:
            went = self.next_one("cut")
            mine = self.written(*went) if went else b""
            came = self.ended(holder, WITHIN + LONGEST / 10)
        finally:
            machine.does(self.given.join)
        self.hands[0] = self.await_back(machine)
        came = came or self.interrupted(holder)
        if not (went and came):
            why = "nobody got the lock" if not went else f"the connection to {machine.name} broke; let --cut leave it"
            return self.fail(why, *names)
        self.judge_late(holder, went[0], mine)
        has = count_of(went[1], "a")
        self.say("no false success", f"{machine.name} was told that {came['count']} writes are synced, and {went[0].machine.name} has "
                 f"{has} of them" if came["count"] > has else "", f"all of the {came['count']} writes that were told as synced are there")
        self.judge_error(came)

    def written(self, hand: Hand, found: bytes) -> bytes:
        """What the next one has behind records of its own, which stand where the old one would go on."""
        count = count_of(found, "a")
        hand.ask(["put", count * RECORD, records("b", count, ENOUGH)])
        return self.contents(hand)

    def ended(self, holder: Hand, seconds: float) -> dict[str, Any] | None:
        """How the old holder's writes have ended, if that is told within this time."""
        try:
            return holder.end(seconds)[0]
        except Silent:
            return None

    def interrupted(self, holder: Hand) -> dict[str, Any] | None:
        """The same of one who has written on until now."""
        with contextlib.suppress(Silent):
            holder.interrupt()
        return self.ended(holder, LONGEST)

    def judge_late(self, holder: Hand, second: Hand, mine: bytes) -> None:
        """The old holder writes once more, at once and later. Nothing of it may be done, nor stand there."""
        fault = ""
        for pause in (0, self.given.stay):
            time.sleep(pause)
            if self.writes(holder, count_of(mine, "a")):
                fault = fault or f"{holder.machine.name} wrote {pause:g} s after it was joined again, by what it had open before"
        if self.contents(second) != mine:
            fault = f"what {holder.machine.name} wrote late stands over what {second.machine.name} was told is synced"
        holder.close()  # As long as a refused file is open a store may refuse it to all of that machine.
        second.ask(["close"])
        others = [it.machine.name for it in self.hands if not fault and self.reads(it, "cut") != mine]
        if others:
            fault = f"{others[0]} reads other bytes than {second.machine.name} has written"
        self.say("no late writes", fault, f"refused at once, and {self.given.stay:g} s later")

    def writes(self, holder: Hand, number: int) -> bool:
        """Whether the old holder is told that a write is synced."""
        try:
            holder.ask(["put", number * RECORD, "a late!\n"])
            return True
        except (Refused, Silent):
            return False

    def judge_error(self, came: dict[str, Any]) -> None:
        fault = "it wrote on while it was cut off" if came["was_asked"] else "" if came["said"] or came["has_gone"] else (
            f"a write waited for {came['took']:.0f} s, and its process stayed where it was killed: a watch has to end the store's client")
        seen = f"{named(came['said'])} after {came['took']:.1f} s" if came["said"] else "a write waited, and its process could be ended"
        self.say("errors in time", fault, seen)

    def killed(self) -> None:
        """The first machine loses its power while it writes, and comes back later."""
        names, machine = ("majority syncs", "whole replicas"), self.machines[0]
        if not (self.given.kill and self.given.start):
            return self.leave("that needs --kill and --start", *names)
        holder = self.writing("loss")
        machine.does(self.given.kill)
        machine.close()
        try:
            went = self.next_one("loss")
        finally:
            machine.does(self.given.start)
        if not went:
            self.hands[0] = self.await_back(machine)
            return self.fail("nobody got the lock", *names)
        second, has = went[0], count_of(went[1], "a")
        self.say("majority syncs", f"{second.machine.name} has {has} of {holder.count} writes that were told as synced"
                 if has < holder.count else "", f"all of the {holder.count} writes that were told as synced are there")
        mine = self.written(*went)
        second.ask(["close"])
        fault = self.differs(self.hands[1:], mine)
        self.hands[0] = self.await_back(machine)
        self.say("whole replicas", fault or self.differs(self.hands, mine), "all machines read the same, before and behind its return")

    def differs(self, hands: list[Hand], mine: bytes) -> str:
        """Which machine goes on from other bytes than were written last, if one does."""
        for it in hands:
            if self.reads(it, "loss") != mine:
                return f"{it.machine.name} reads other bytes than {self.hands[1].machine.name} has written"
        return ""

    def known_times(self) -> None:
        late = [what for what, took in self.times.items() if took is None or took > WITHIN]
        told = ", ".join(f"{took:.1f} s behind {what}" for what, took in self.times.items() if took is not None)
        self.say("known times", f"more than {WITHIN} s behind {late[0]}" if late else "", told)

    # A real venue.

    def venue(self) -> None:
        """A venue serves four members at the first machine, something happens to it, and it goes on at the second one. All that members
        were told has to stand in the journal."""
        first, second, _ = self.hands
        if not (first.ask(["has_venue"])[0] and second.ask(["has_venue"])[0] and os.access(REPLAY, os.X_OK)):
            return self.leave("venued isn't on both machines, or venue-replay isn't here", VENUE)
        name, port = self.path("journal"), self.given.port
        old = self.machines[0].hand()
        if old.ask(["make_journal", name])[0]:
            raise Trouble(f"the venue doesn't start: it made no journal on {old.machine.name}")
        if not (line := old.ask(["serve", name, port])[0]).startswith("venued: ready"):
            raise Trouble(f"the venue doesn't start: on {old.machine.name} it says {line.strip()}")
        self.trade(old, 1)
        what, back = self.happens(old)
        came = until(TO_PASS, lambda: self.serves(second, name))
        if came is not None:
            self.trade(second, LATER)
            second.ask(["cease"])
        back()
        if came is None:
            return self.say(VENUE, f"nobody serves within {TO_PASS} s of {what}")
        second.ask(["end_venue"])
        data = bytes.fromhex(second.ask(["look", name])[0])
        faults, count = self.compared(data, {it: old.got.get(it, b"") + second.got.get(it, b"") for it in MEMBERS})
        self.say(VENUE, faults[0] if faults else "", f"it goes on {came:.1f} s behind {what}, and {some(count, 'report')} that its "
                 "members were told stand in the journal")

    def trade(self, hand: Hand, first: int) -> None:
        hand.ask(["trade", self.given.port, first])
        if until(LONGEST, lambda: all(hand.got.get(it, b"").count(REPORT) >= ENOUGH for it in MEMBERS)) is None:
            raise Trouble(f"the members aren't answered on {hand.machine.name}")

    def serves(self, hand: Hand, name: str) -> bool:
        try:
            return self.steps(hand, "journal") and hand.ask(["serve", name, self.given.port])[0].startswith("venued: ready")
        except (Refused, Silent):
            return False

    def happens(self, old: Hand) -> tuple[str, Any]:
        """Lets something happen to the venue: what it was, and what makes it good again."""
        given, machine = self.given, old.machine
        if given.kill and given.start:
            machine.does(given.kill)
            return "a loss", lambda: machine.does(given.start)
        if given.cut and given.join:
            machine.does(given.cut)
            return "a cut", lambda: self.joined(old)
        old.ask(["end_venue"])
        return "its end", lambda: None

    def joined(self, old: Hand) -> None:
        """Joins a machine again, and takes what its members were told meanwhile."""
        old.machine.does(self.given.join)
        self.hands[0] = self.await_back(old.machine)
        old.ask(["end_venue"])

    def compared(self, data: bytes, told: dict[int, bytes]) -> tuple[list[str], int]:
        """What is wrong with what members were told, beside this journal, and how many of their reports stand in it."""
        faults, count = [], 0
        with tempfile.TemporaryDirectory(prefix="contract-") as folder:
            journal = os.path.join(folder, "journal")
            with open(journal, "wb") as file:
                file.write(data)
            for member, got in told.items():
                with open(os.path.join(folder, "log"), "w+b") as log:
                    log.write(got)
                    log.seek(0)
                    compared = Compared(Replay(journal, f"C{member}", [SYMBOL]))
                    faults += [f"C{member}: {it}" for it in compared.compare(reports(log, f"C{member}"))]
                    count += compared.found
        return faults, count

    def run(self) -> int:
        """Tries all: the status."""
        try:
            self.begin()
            for it in (self.one_lock, self.passed_on, self.fresh_opens, self.cost, self.cut, self.killed, self.known_times, self.venue):
                it()
            self.hands[1].ask(["remove", self.given.folder])
        finally:
            self.end()
        print(f"{self.passed} passed, {self.failed} failed, {self.left} not tried")
        return 1 if self.failed else 0
