"""Members that trade without a break, and checks of what a journal kept for them. Not a script: the scripts import it."""
import functools
import os
import random
import re
import socket
import struct
import threading
import time
from collections.abc import Callable
from typing import Any

from gikvand import journals
from gikvand.words import sure
from venues import HOST, PATIENCE, TIME, Client, Trouble, Venue, check_snapshots, market_order, message, order, parted
from venues import replay, value

BURST = 32     # Requests that a member sends in one go, so that many are under way at a kill.
A_SIP = 1024   # So many bytes a slow client takes at once.
A_ROUND = 1_000  # Requests that are answered between two starts at least: the next start then writes a snapshot.
A_MOMENT, STANDS = 0.02, 0.2  # Seconds between two looks at the time, and behind how many this process stood still in between.
PLACE = re.compile(r"\|17=(\d+)\|")
ANSWERS = re.compile(rb"\x01150=[058]\x01|\x0135=9\x01")  # Of all but cancels.


def request(name: int) -> tuple[str, str]:
    """Type and body of a member's request of this ClOrdID. Of eight in a row each has another form; the last of each
    sixteen is a market order."""
    side, quantity, price = 1 + name % 2, 1 + name % 7, 49 + name % 3
    if name % 16 == 0:
        return "D", market_order(name, 1 + name // 16 % 2, quantity)
    of_before = f"11={name}|41={name - 1}|55=ABC|54={3 - side}|60={TIME}|38={quantity + 5}|"
    forms = {2: ("D", order(name, side, quantity, price, more="59=3|")),
             3: ("D", order(name, side, quantity, price, more="59=4|")),
             5: ("F", of_before),
             7: ("G", f"{of_before}40=2|44={price}|")}
    return forms.get(name % 8, ("D", order(name, side, quantity, 50)))


def is_answer(report: str) -> bool:
    """Whether a report answers a request, and isn't one of a fill or of what is left of an order."""
    kind = value(report, "150")
    return kind in ("0", "5", "8") or kind == "4" and value(report, "41") is not None or report.startswith("35=9|")


def narrow_client(port: int, member: int) -> Client:
    """A client with hardly any room for what comes, which is logged on."""
    client = Client(port, member)
    client.socket.close()
    client.socket = socket.socket()
    client.socket.setsockopt(socket.SOL_SOCKET, socket.SO_RCVBUF, A_SIP)
    client.socket.settimeout(PATIENCE)
    client.socket.connect((HOST, port + member - 1))
    return client.log_on()


def vanish(client: Client) -> None:
    """Resets the connection, so that nothing more is sent or read."""
    client.socket.setsockopt(socket.SOL_SOCKET, socket.SO_LINGER, struct.pack("ii", 1, 0))
    client.close()


def sip(client: Client, pause: float, taken: list[int]) -> None:
    """Takes little of what comes, with pauses of so many seconds, until nothing does: notes how many bytes."""
    try:
        while piece := client.socket.recv(A_SIP):
            taken.append(len(piece))
            time.sleep(pause)
    except OSError:
        pass


class Standstills:
    """When this process stood still, as it does with its machine: a thread that looks at the time again and again couldn't."""

    def __init__(self) -> None:
        self.looked_at, self.found = time.monotonic(), list[tuple[float, float]]()
        threading.Thread(target=self.look, daemon=True).start()

    def look(self) -> None:
        while True:
            time.sleep(A_MOMENT)
            now = time.monotonic()
            if now - self.looked_at > STANDS:
                self.found.append((self.looked_at, now))
            self.looked_at = now

    def between(self, since: float, until: float) -> float:
        """For how many seconds between these moments, the later of which is now, or was."""
        while self.looked_at < until:
            time.sleep(A_MOMENT)
        return sum(max(0.0, min(to, until) - max(at, since)) for at, to in self.found)

    def sleep(self, seconds: float) -> None:
        """Sleeps until so many seconds have gone in which it didn't stand still."""
        begun = time.monotonic()
        while (left := begun + seconds - (now := time.monotonic()) + self.between(begun, now)) > 0:
            time.sleep(left)


@functools.cache
def standstills() -> Standstills:
    """Those of this process, from the first call on."""
    return Standstills()


class Member:
    """A member that trades in one session until the venue is gone. It rests for up to `pause` seconds between bursts. Its
    ends are a socket, or what sends and receives as one."""

    def __init__(self, ends: Any, member: int, first: int, pause: float = 0.06) -> None:
        self.ends, self.member, self.first, self.name, self.pause = ends, member, first, first, pause
        self.got, self.number, self.stood = bytearray(), 1, standstills()
        self.heard_at, self.longest = time.monotonic(), 0.0
        self.has_ended = self.has_ceased = False
        self.threads = [threading.Thread(target=it, daemon=True) for it in (self.read, self.write)]
        for thread in self.threads:
            thread.start()

    def read(self) -> None:
        try:
            while piece := self.ends.recv(65536):
                self.got.extend(piece)
                self.longest, self.heard_at = self.silence(), time.monotonic()
        except OSError:
            pass  # It was reset, as the venue was killed.
        self.has_ended = True

    def write(self) -> None:
        try:
            self.ends.sendall(message(self.member, 1, "A", "98=0|108=0|141=Y|"))
            while not (self.has_ended or self.has_ceased):
                kind, body = request(self.name)
                self.number, self.name = self.number + 1, self.name + 1
                self.ends.sendall(message(self.member, self.number, kind, body))
                if self.name % BURST == 0:
                    time.sleep(random.random() * self.pause)
        except OSError:
            pass

    def answered(self) -> int:
        """How many of its requests were answered, at least."""
        return len(ANSWERS.findall(bytes(self.got)))

    def silence(self) -> float:
        """The longest time for which nothing came, in seconds, since `longest` was 0. Times in which this process stood still don't count."""
        since, now = self.heard_at, time.monotonic()
        if now - since > max(self.longest, STANDS):
            return max(self.longest, now - since - self.stood.between(since, now))
        return max(self.longest, now - since)

    def cease(self) -> None:
        """Sends no more, and waits until the last request is answered. There may be none: this process may stand still behind the start."""
        self.has_ceased = True
        self.threads[1].join(PATIENCE)
        end = time.monotonic() + PATIENCE
        while self.name > self.first and f"\x0111={self.name - 1}\x01".encode() not in self.got:
            if time.monotonic() > end:
                raise Trouble(f"C{self.member} has no answer to request {self.name - 1}")
            time.sleep(0.005)

    def reports(self) -> list[str]:
        """Waits for the end: all reports that came, from 35 on, without 49, 56 and 34, which only a session has."""
        for thread in self.threads:
            thread.join(PATIENCE)
        if any(thread.is_alive() for thread in self.threads):
            raise Trouble(f"C{self.member} is connected yet, though the venue has ended")
        told, _ = parted(bytes(self.got))
        if [value(it, "34") for it in told] != [str(number + 1) for number in range(len(told))]:
            raise Trouble(f"C{self.member}'s MsgSeqNums aren't 1, 2, 3, ..")
        if told and value(told[0], "35") != "A" or any(value(it, "35") not in ("8", "9") for it in told[1:]):
            raise Trouble(f"C{self.member} was told what is neither a Logon nor a report")
        return [re.sub(r"^.*?\|(35=.\|)49=.*?\|(52=.*?\|)", r"\1\2", it)[: -len("10=000|")] for it in told[1:]]


def await_round(traders: list[Member]) -> None:
    """Waits until the members were answered as often as a round asks."""
    end = time.monotonic() + PATIENCE
    while (answered := sum(it.answered() for it in traders)) < A_ROUND:
        if any(it.has_ended for it in traders) or time.monotonic() > end:
            raise Trouble(f"expected {A_ROUND} answers came {answered}")
        time.sleep(0.02)


def check_kept(who: str, before: list[str], kept: list[str]) -> None:
    """Checks that what was kept before still is, and that the places of reports rise."""
    if kept[: len(before)] != before:
        raise Trouble(f"what was kept for {who} before isn't there any more, or is told otherwise")
    places = [int(found[1]) for found in map(PLACE.search, kept) if found]
    if places != sorted(set(places)):
        raise Trouble(f"the places of {who}'s reports don't rise")


def check_told(trader: Member, told: list[str], kept: list[str]) -> None:
    """Checks what is kept of a session: all that this member was told stands in it, and it answers what the member sent."""
    who = f"C{trader.member}"
    if told and told[0] not in kept:
        raise Trouble(f"lost, or told otherwise, or an old report told again to {who}: {told[0]}")
    at = kept.index(told[0]) if told else 0
    for place, report in enumerate(told):
        if kept[at + place: at + place + 1] != [report]:
            raise Trouble(f"lost, or told otherwise, or out of order to {who}: {report}")
    answered = [int(sure(value(it, "11"))) for it in kept if is_answer(it)]
    if answered != list(range(trader.first, trader.first + len(answered))):
        raise Trouble(f"{who} sent requests from {trader.first} on, and {answered[:5]}..{answered[-5:]} are answered")
    if trader.first + len(answered) > trader.name:
        raise Trouble(f"{who} was answered more than it sent")


Trade = Callable[["Rounds"], list[Member]]  # Lets members trade in a round, until its end.


class Rounds:
    """Rounds on one journal of version 3, and what it held after each."""

    def __init__(self, journal: str, members: list[int], gateways: int | None = None) -> None:
        self.journal, self.members, self.gateways = journal, members, gateways or len(members)
        self.names = {member: 1 for member in members}
        self.kept: dict[int, list[str]] = {member: [] for member in members}
        self.counts, self.seen, self.sent, self.starts = (0, 0), 0, 0, 0
        with open(journal, "wb") as file:
            file.write(journals.empty(journals.WITH_SNAPSHOTS))

    def round(self, trade: Trade) -> str:
        """Lets the members trade, and checks what is kept behind the end of the venue. Says it in words."""
        traders = trade(self)
        told = {it.member: it.reports() for it in traders}
        sent = sum(it.name - it.first for it in traders)
        for it in traders:
            self.names[it.member] = it.name
            self.check(it, told[it.member])
        self.starts += 1
        self.check_snapshots()
        seen, total = sum(map(len, told.values())), sum(map(len, self.kept.values()))
        self.seen, self.sent = self.seen + seen, self.sent + sent
        return (f"{sent} requests sent, {seen} reports seen; {total} kept, all {self.seen} seen so far among them; "
                f"{self.starts - 1} snapshots")

    def check(self, trader: Member, told: list[str]) -> None:
        """Checks what is kept for a member against what was kept before, was told and was sent."""
        who, before = f"C{trader.member}", self.kept[trader.member]
        kept, self.counts = replay(self.journal, who)
        self.kept[trader.member] = kept
        check_kept(who, before, kept)
        check_told(trader, told, kept[len(before):])

    def check_snapshots(self) -> None:
        """Checks that each start but the first wrote a snapshot, that all are true, and that the book from the newest one
        on is that of the entries alone."""
        with open(self.journal, "rb") as file:
            journal = journals.read(file.read())
        if len(journal.snapshots) != self.starts - 1:
            raise Trouble(f"expected {self.starts - 1} snapshots, one of each start but the first, "
                          f"came {len(journal.snapshots)}")
        if (came := check_snapshots(self.journal)) != "snapshots true":
            raise Trouble(f"expected true snapshots came {came}")
        alone = f"{self.journal}.alone"
        write_entries(alone, journal, len(journal.entries))
        if (book := replay(self.journal, "book")) != (wanted := replay(alone, "book")):
            raise Trouble(f"expected, from the newest snapshot on, {wanted} came {book}")


def write_entries(name: str, journal: journals.Journal, count: int) -> None:
    """Makes a journal of the first entries of this one, so many, without snapshots."""
    blocks = journals.in_blocks(journal.version, journal.entries[:count], journals.MOST_IN_A_BLOCK)
    with open(name, "wb") as file:
        file.write(journals.header(journal.version, journal.cut) + blocks + journals.CLOSED)


def started_again(rounds: Rounds, port: int) -> Venue:
    """The venue, ready at the same ports as before, with the counts of its journal."""
    venue = Venue(port, rounds.journal, rounds.gateways)
    if (counts := venue.ready()) != rounds.counts:
        venue.kill()
        raise Trouble(f"ready with {counts} commands and outputs, where venue-replay counts {rounds.counts}")
    if os.path.exists(f"{rounds.journal}.stop"):
        venue.kill()
        raise Trouble("the stop file of before is still there")
    return venue
