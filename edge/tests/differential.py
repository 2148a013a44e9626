"""Four members trade by chance through an edge, while edge, venue and processes of single members are killed, and days end
about each kill: each member's store, and each member, has exactly the reports that the journal has for it, in order, each
once. Each Day order ends once, and none that is good till it is cancelled does."""
import itertools
import os
import random
import signal
import threading
import time
from collections.abc import Callable, Iterable, Mapping, Sequence

from edges import JOURNAL, NAMES, PATIENCE, SYMBOLS, Edge, Others, Settings, Trouble, Venue, await_that, free_port, members_of
from edges import children_of, rows, settings_of, started, stored, told
from engines import GTC, Engine, cancel, order, replace
from gikvand.fix import fields_of, value

MEMBERS = 4
SHORT, LONG = 1500, 20000
BETWEEN = (120, 260)     # Requests of all members between two kills.
BURST = 8
STRIKES = ["member", "both", "edge", "venue"]
STEP = {"ABC": 100, "XYZ": 4}  # Steps of a price in one.
TERMS = ["", "", "59=0|", GTC, "59=3|", "59=4|"]
ENDED, BY_OPERATOR = "edge: the day has ended", "edge: the operator has cancelled this order"
OWED = "SELECT * FROM names WHERE kind = 'w'"  # What was asked for, and the venue hasn't answered.
AROUND = (-1, 2)         # Seconds behind a start of the edge, between which a day ends.


class Member(threading.Thread):
    """A member that sends so many requests, whatever is killed meanwhile."""

    def __init__(self, port: int, number: int, requests: int, seed: int) -> None:
        super().__init__(daemon=True)
        self.engine, self.left, self.chance = Engine(port, number), requests, random.Random(seed)
        self.names: list[str] = []
        self.fault: Exception | None = None
        self.count, self.is_done = 0, threading.Event()
        self.may = float("inf")  # As many requests as it may have sent by now.

    def run(self) -> None:
        try:
            while not self.is_done.is_set():
                self.turn()
        except Exception as why:
            self.fault = why

    def turn(self) -> None:
        if not self.engine.socket:
            try:
                self.engine.log_on()
            except (Trouble, OSError):
                self.engine.close()
                time.sleep(0.05)
                return
        for _ in range(int(min(self.left, self.chance.randint(1, BURST), max(0, self.may - self.count)))):
            self.engine.send(*self.request())
            self.left -= 1
        self.engine.pump(0.05 if self.left else 0.2)

    def request(self) -> tuple[str, str]:
        chance, self.count = self.chance, self.count + 1
        name, symbol = f"{NAMES[1 + self.count % 4]}/{self.engine.sender}-{self.count}", chance.choice(list(SYMBOLS))
        side, quantity = chance.randint(1, 2), chance.randint(1, 20)
        price = f"{chance.randint(48, 52) / STEP[symbol] + 50:.2f}"
        kind, old = chance.random(), chance.choice(self.names or ["none"])
        self.names.append(name)
        if kind < 0.15:
            return "F", cancel(name, old, side, quantity, symbol)
        if kind < 0.3:
            return "G", replace(name, old, side, quantity, price, symbol, chance.choice(TERMS[:4]))
        if kind < 0.4:
            return "D", order(name, side, quantity, "", symbol).replace("40=2|44=|", "40=1|")
        return "D", order(name, side, quantity, price, symbol, chance.choice(TERMS))


def names_of(member: int, folder: str = "edge") -> tuple[dict[int, str], dict[int, str], set[str]]:
    """Kinds and names by their numbers, out of the edge's record, and those names that the edge refused; none may stand
    there twice."""
    kinds: dict[int, str] = {}
    names: dict[int, str] = {}
    refused: set[str] = set()
    for number, kind, name in rows(member, "SELECT number, kind, name FROM names", folder):
        if name in refused or (kind in "grsx" and name in names.values()):
            raise Trouble(f"C{member}: a name twice: {number} {kind} {name}")
        if kind == "x":
            refused.add(name)
        else:
            kinds[number], names[number] = kind, name
    return kinds, names, refused


def wanted_of(member: int, folder: str = "edge") -> list[dict[str, str]]:
    """What the member is to be told: the journal's reports by the rules of docs/EDGE.md, but for answers to probes, and to
    ends of orders that had gone."""
    lines = told(member)  # In front of the names: one that came between them is without its report.
    kinds, names, _ = names_of(member, folder)
    wanted = []
    for line in lines:
        it = fields_of(line)
        if (kind := kinds.get(int(it["11"]))) is None:
            raise Trouble(f"C{member}: the record has no name of the journal's request {it['11']}; it has {len(names)}, the last of "
                          f"{max(names, default=0)}")
        if it["35"] == "9" and kind in "ep":
            continue
        if kind == "o" and it["35"] == "8":
            it["58"] = BY_OPERATOR
        if kind == "e":
            it.update({"11": it.pop("41"), "150": "C", "39": "C", "58": ENDED})
        for tag in ("11", "41"):
            if tag in it:
                it[tag] = names[int(it[tag])]
        for tag in ("44", "31", "6"):
            if tag in it:
                it[tag] = f"{int(it[tag]) / STEP[it['55']]:.2f}"
        it["60"] = it.pop("52")
        wanted.append(it)
    return wanted


def told_by(messages: Iterable[str]) -> list[dict[str, str]]:
    """The venue's reports among messages, without what a session adds."""
    told = []
    for text in messages:
        it = fields_of(text)
        is_report = it["35"] == "8" and it["17"].isdecimal()
        if is_report or it["35"] == "9" and not it.get("58", "").startswith("edge:"):
            told.append({tag: it[tag] for tag in it if tag not in "8 9 10 34 43 49 52 56 122".split()})
    return told


def refused_by(messages: Iterable[str]) -> list[str]:
    """The names of the requests that the edge says to have refused, but for those that never reached the venue."""
    all_of_edge = [it for it in map(fields_of, messages) if it["35"] in "89" and it.get("58", "").startswith("edge:")]
    return [it["11"] for it in all_of_edge if not it.get("17", "").startswith("EL") and it.get("150") not in ("4", "C")]


def are_refused(member: int, came: Sequence[str], where: str, folder: str = "edge") -> None:
    """Each refusal is told once, and its request never taken."""
    _, names, refused = names_of(member, folder)
    if len(came) != len(set(came)) or not set(came) <= refused or set(came) & set(names.values()):
        twice = [it for it in set(came) if came.count(it) > 1]
        raise Trouble(f"C{member}: refusals in {where} of {twice} come twice, of {set(came) - refused} aren't kept, and "
                      f"of {set(came) & set(names.values())} were taken")


def is_same(member: int, came: Sequence[dict[str, str]], wanted: Sequence[dict[str, str]], where: str) -> None:
    for at, (one, other) in enumerate(zip(came, wanted)):
        if one != other:
            raise Trouble(f"C{member}: report {at + 1} in {where} is {one}, where the journal has {other}")
    if len(came) != len(wanted):
        raise Trouble(f"C{member}: {len(came)} reports in {where}, where the journal has {len(wanted)}")


def ended(member: int, end: float, folder: str = "edge") -> int:
    """How many orders of a member were ended, of which each was Day, and ended by one cancel. None that is Day and was sent
    before this second, in which a day ended, rests."""
    kinds, names, _ = names_of(member, folder)
    resting: dict[int, str] = {}
    asked: list[int] = []
    for it in map(fields_of, told(member)):
        number, event = int(it["11"]), it.get("150")
        if kinds[number] == "e":
            asked.append(int(it["41"]))
        if event in ("4", "5"):
            resting.pop(int(it.get("41", number)), None)
        if event in ("0", "5"):
            resting[number] = it["52"]
        if event == "8" or it["39"] == "2":
            resting.pop(number, None)
    wrong = [names[it] for it in asked if kinds[it] == "g" or asked.count(it) > 1]
    last = time.strftime("%Y%m%d-%H:%M:%S", time.gmtime(end))
    late = [names[it] for it, sent in resting.items() if kinds[it] != "g" and sent < last]
    if wrong or late:
        raise Trouble(f"C{member}: {wrong} were ended, and {late} weren't")
    return len(asked)


def ended_at(member: int = 1) -> int:
    """The last end of a day by which what is Day of a member was ended."""
    return rows(member, "SELECT orders_ended FROM session")[0][0]


def look_at(members: Iterable[Member]) -> None:
    """Trouble where one of these has ended by a fault."""
    for it in members:
        if it.fault:
            raise Trouble(f"{it.engine.sender}: {it.fault!r}")


def settle(members: Sequence[Member], folder: str = "edge",
           wanted_of: Callable[[int, str], list[dict[str, str]]] = wanted_of) -> None:
    """Waits until these have been told all that there is to be told, as long as more comes, and ends them."""
    end, before = time.monotonic() + PATIENCE, list[tuple[int, int]]()
    while time.monotonic() < end:
        look_at(members)
        are_answered = all(set(it.names) <= {value(text, "11") for text in it.engine.reports[:]} for it in members)
        counts = [(len(told_by(it.engine.reports[:])), len(wanted_of(k, folder))) for k, it in enumerate(members, 1)]
        if are_answered and all(came >= wanted for came, wanted in counts):
            break
        end, before = time.monotonic() + PATIENCE if counts != before else end, counts
        time.sleep(0.2)
    for it in members:
        it.is_done.set()
    for it in members:
        it.join()


def compare(members: Iterable[Member], folder: str = "edge") -> int:
    """What the records have, and what these were sent, is what the journal tells: how many reports that is."""
    reports = 0
    for k, it in enumerate(members, 1):
        wanted = wanted_of(k, folder)
        is_same(k, told_by(stored(k, folder)), wanted, "its record")
        is_same(k, told_by(it.engine.reports), wanted, "what it was sent")
        are_refused(k, refused_by(stored(k, folder)), "its record", folder)
        are_refused(k, refused_by(it.engine.reports), "what it was sent", folder)
        reports += len(wanted)
    return reports


def is_killed(process: int) -> bool:
    """Kills a process, which may have ended since it was looked for: whether it was there."""
    try:
        os.kill(process, signal.SIGKILL)
    except ProcessLookupError:
        return False
    return True


class Run:
    """A venue, an edge and four members, some of them with limits, until all requests are answered. With days one ends about each
    start of the edge."""

    def __init__(self, requests: int, seed: int, has_days: bool = False, limits: Mapping[int, Settings] | None = None,
                 lookers: int = 0, others: Others = lambda port: []) -> None:
        self.chance, self.requests, self.kills = random.Random(seed), requests, [0, 0, 0]
        self.strikes, self.has_days, self.end = itertools.cycle(STRIKES), has_days, 0
        self.served = MEMBERS + lookers  # Those behind the members that trade only look.
        self.venue = started(JOURNAL, self.served, list(SYMBOLS))
        self.port = free_port(len(NAMES))
        self.sessions = [{**it, **(limits or {}).get(k, {})} for k, it in enumerate(members_of(self.served, self.port), 1)]
        self.sessions += others(self.port)
        self.processes = sorted({it["Member"] for it in self.sessions})  # A member may have several sessions.
        self.edge = self.start().ready(len(self.processes))
        self.members = [Member(self.port, k, requests // MEMBERS, seed + k) for k in range(1, MEMBERS + 1)]

    def start(self) -> Edge:
        """The edge, by settings that let a day end soon, or just before."""
        common: Settings = {"VenuePort": self.venue.port}
        if self.has_days:
            self.end = int(time.time()) + self.chance.randint(*AROUND)
            common["DayEndTime"] = time.strftime("%H:%M:%S", time.gmtime(self.end))
        return Edge(settings_of(common, self.sessions))

    def go(self) -> None:
        for it in self.members:
            it.start()
        due = self.chance.randint(*BETWEEN)
        while any(it.left for it in self.members):
            look_at(self.members)
            count = sum(it.count for it in self.members)
            is_due = count >= due
            due = count + self.chance.randint(*BETWEEN) if is_due else due
            for it in self.members:  # None of them is far ahead of the next kill, however late that comes.
                it.may = it.count + (due - count) // MEMBERS + 1
            if is_due:
                self.strike()
            time.sleep(0.01)
        if self.has_days:
            own = [int(it[1:]) for it in self.processes if it <= f"C{MEMBERS}"]
            await_that("the last end of a day", lambda: all(ended_at(k) >= self.end and not rows(k, OWED) for k in own))
        settle(self.members, wanted_of=self.wanted_of)

    def wanted_of(self, engine: int, folder: str) -> list[dict[str, str]]:
        """What the engine of this place is to be told."""
        return wanted_of(engine, folder)

    def strike(self) -> None:
        """Kills the process of one member, the edge, the venue, or both, by turns."""
        which = next(self.strikes)
        if which == "member":
            if found := children_of(self.edge.process.pid):
                self.kills[2] += is_killed(self.chance.choice(sorted(found.values())))
            return
        if which != "venue":
            self.edge.kill()
            self.kills[0] += 1
        if which != "edge":
            self.venue.kill()
            self.kills[1] += 1
            self.venue = Venue(self.venue.port, JOURNAL, self.served, list(SYMBOLS))
            self.venue.ready()
        if which == "venue":
            return
        while self.chance.random() < 0.4:  # Killed again while it starts, or reads the journal.
            self.edge = self.start()
            time.sleep(self.chance.random() / 10)
            self.edge.kill()
            self.kills[0] += 1
        self.edge = self.start().ready(len(self.processes))


def test_differential() -> None:
    """The short form, or the long one with --long, which says its figures."""
    is_long = bool(os.environ.get("EDGE_LONG"))
    begin = time.monotonic()
    run = Run(LONG if is_long else SHORT, 20250102, True)
    run.go()
    reports = compare(run.members)
    ends = sum(ended(k, run.end) for k in range(1, MEMBERS + 1))
    if min(run.kills) < 1 or not ends:
        raise Trouble(f"too few kills: {run.kills}, or ends of orders: {ends}")
    if is_long:
        print(f"{run.requests} requests of {MEMBERS} members, {reports} reports, {run.kills[0]} kills of the edge and "
              f"{run.kills[1]} of the venue, {time.monotonic() - begin:.0f} s", flush=True)
        print(f"the process of one member alone was killed {run.kills[2]} times, and {ends} orders ended with their days",
              flush=True)


TESTS = [test_differential]
