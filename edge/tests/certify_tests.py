"""edge/certify passes QuickFIX's own client, and finds each engine that does one thing wrong."""
import concurrent.futures
import os
import subprocess
import threading
import time
from collections.abc import Callable, Iterator

from cases import STEP
from edges import COPIES, NAMES, ROOT, Trouble, free_port, running
from engines import GTC, Engine, cancel, order, replace
from gikvand.fix import value
from gikvand.words import sure
from takers import OFF, ON, ONCE, asks
from tradeclients import DAY, GTC as GTC_OF_STOCK, TradeClient
from trading_tests import expect

CERTIFY = os.path.join(ROOT, "edge/certify")
AT_ONCE = 5  # Days that are played side by side: they mostly wait.
PATIENCES = (4, 20, 60)  # Seconds for each step of a day that has to fail: more where a busy machine spoiled one before.


class Day:
    """A run of edge/certify: its lines, as they come."""

    def __init__(self, patience: int, *more: str) -> None:
        self.port = free_port(1)
        self.process = subprocess.Popen([CERTIFY, "--port", str(self.port), "--patience", str(patience), *more], text=True,
                                        stdout=subprocess.PIPE)
        running.append(self)
        self.lines: list[str] = []

    def __iter__(self) -> Iterator[str]:
        for line in sure(self.process.stdout):
            self.lines.append(line.rstrip("\n"))
            yield self.lines[-1]

    def kill(self) -> None:
        self.process.kill()
        self.process.wait()

    def failed(self) -> list[str]:
        return [it for it in self.lines if ": failed: " in it]


def played(day: Day, acts: Callable[..., None]) -> int:
    """Does what each line asks for, and gives the status."""
    for line in day:
        if line.startswith("do: "):
            acts(*line[4:].split())
    return day.process.wait(60)


def test_tradeclient() -> None:
    """The client of QuickFIX passes all cases."""
    day, client, names = Day(60), [], ["none"]

    def acts(word: str, *rest: str) -> None:
        if word == "log":
            client.append(TradeClient(day.port)) if rest == ("on",) else client[0].answer("Action", Action="5")
        if word in ("buy", "replace", "cancel"):
            names.append(f"certify-{len(names)}")
        if word == "buy":
            client[0].order(names[-1], 1, *(rest[0], rest[2], rest[1]), term=GTC_OF_STOCK if "gtc" in rest else DAY)
        if word == "replace":
            client[0].replace(names[-1], names[-2], 1, rest[0], rest[2], rest[1])
        if word == "cancel":
            client[0].cancel(names[-1], names[-2], 1, 90, rest[0])

    expect((played(day, acts), day.lines[-1]), (0, "certified: 18 cases passed"))


class Desk(threading.Thread):
    """An engine of a member that does what certify asks for, and one thing wrong."""

    def __init__(self, day: Day, fault: str | None, name: str) -> None:
        super().__init__(daemon=True)
        self.day, self.fault, self.lock, self.is_over = day, fault, threading.Lock(), False
        self.engine = Engine(day.port, 1, sender=name, heartbeat=5)
        self.names, self.is_on, self.beat_at = ["none"], False, 0.0
        self.take, self.send_again = self.engine.take, self.engine.send_again
        setattr(self.engine, "take", self.takes)
        setattr(self.engine, "send_again", self.sends_again)

    def takes(self, it: str) -> None:
        ahead = int(sure(value(it, "34"))) - self.engine.next
        if self.fault == "no gap" and ahead > 0 or self.fault == "takes numbers as they come" and ahead >= STEP // 2:
            self.engine.next = int(sure(value(it, "34")))
        self.take(it)
        if self.fault == "rejects" and value(it, "150") == "F":
            self.engine.send("3", f"45={value(it, '34')}|58=never heard of it|")
        if self.fault == "rejects all" and value(it, "150") == "5":
            self.engine.send("3", f"45={value(it, '34')}|58=what|")
        if self.fault == "rejects ends" and value(it, "150") == "C":
            self.engine.send("3", f"45={value(it, '34')}|58=no end|")

    def sends_again(self, first: int) -> None:
        if self.fault != "no resend":
            self.send_again(first)

    def run(self) -> None:
        """Takes what comes, beats, and comes back where the connection is cut."""
        while not self.is_over:
            with self.lock:
                if self.is_on and not self.engine.socket and self.fault != "stays away":
                    self.come_back()
                self.engine.pump(0.02)
                is_due = self.is_on and self.engine.socket and time.monotonic() > self.beat_at
                if is_due and self.fault != "no heartbeat":
                    self.engine.send("0")
                    self.beat_at = time.monotonic() + 1
            time.sleep(0.005)

    def come_back(self) -> None:
        try:
            if self.fault == "begins anew":
                self.engine.out, self.engine.next = 1, 1
                self.engine.log_on("141=Y|")
            else:
                self.engine.log_on()
        except (Trouble, OSError):
            self.engine.close()

    def acts(self, word: str, *rest: str) -> None:
        with self.lock:
            self.act(word, *rest)

    def act(self, word: str, *rest: str) -> None:
        fault = self.fault
        if word == "log" and rest == ("on",):
            if fault == "another name":
                self.engine.sender = "DESK-X"
            try:
                self.engine.log_on()
                self.is_on = True
            except Trouble:
                pass
        if word == "log" and rest == ("out",):
            self.is_on = False
            self.engine.close() if fault == "no logout" else self.engine.send("5")
        if word in ("buy", "replace", "cancel"):
            self.names.append("again" if fault == "one name" else f"d-{len(self.names)}")
        new, old = self.names[-1], self.names[-2] if len(self.names) > 1 else ""
        old = "other" if fault == "other original" else old
        if word == "buy":
            side = 2 if fault == "other side" and rest[1] == "NONE" else 1
            price = str(float(rest[2]) + 1) if fault == "other price" else rest[2]
            self.engine.send("D", order(new, side, rest[0], price, rest[1], GTC if "gtc" in rest and fault != "all day" else ""))
        if word == "replace":
            self.engine.send("G", replace(new, old, 1, rest[0], rest[2], rest[1]))
        if word == "cancel":
            self.engine.send("F", cancel(new, old, 2 if fault == "cancels another side" else 1, 90, rest[0]))
        if word == "market":
            self.engine.send("V", asks("m", ONCE if fault == "one look" else ON, symbols=rest))
        if word == "no":
            self.engine.send("V", asks("n" if fault == "other end" else "m", OFF, symbols=rest[1:]))
        if word == "symbols" and fault != "no list":
            self.engine.send("x", "320=s|559=4|")
        if word == "status":
            self.engine.send("H", f"11={old if fault == 'other status' else new}|55={rest[0]}|54=1|")
        if word == "all":
            self.engine.send("AF", f"584=all|{'585=1|55=ABC|' if fault == 'one symbol' else '585=7|'}")
        if word == "trades" and fault != "no trades":
            self.engine.send("AD", "568=trades|569=0|")


FAULTS = {  # What an engine does wrong, and what the line of a case that it fails has in it.
    "another name": "logon: failed", "one name": "isn't a new one", "other price": "new order: failed: the field 44",
    "other side": "refused order: failed: the field 54", "rejects": "rejected what it was told",
    "rejects all": "rejected what it was told", "other original": "replaced: failed: the field 41",
    "cancels another side": "cancelled: failed: the field 54", "no gap": "gap: failed: the engine didn't ask",
    "no resend": "own gap: failed: the engine answered", "begins anew": "cut in a fill: failed",
    "stays away": "cut in a fill: failed: the engine didn't come back", "no heartbeat": "heartbeat: failed",
    "takes numbers as they come": "numbers set: failed: the engine didn't ask for the gap",
    "no logout": "logout: failed", "all day": "good till cancel: failed: the field 59",
    "rejects ends": "day end: failed: the engine rejected what it was told: no end",
    "one look": "market: failed: the field 263 is 0, and not 1", "other end": "market: failed: the field 262 is n, and not m",
    "no list": "securities: failed: no SecurityListRequest came", "other status": "order status: failed: the field 11",
    "one symbol": "all orders: failed: the field 585 is 1, and not 7", "no trades": "own trades: failed: no TradeCaptureReportRequest came",
}
FAULTS_OF_COPIES = {  # The same of an engine that is sent copies.
    "another name": "logon: failed", "rejects": "rejected what it was told", "no gap": "lost copy: failed: the engine didn't ask",
    "begins anew": "cut in a copy: failed: the engine began its numbers anew",
    "stays away": "cut in a copy: failed: the engine didn't come back", "no heartbeat": "heartbeat: failed", "no logout": "logout: failed",
}
DAYS = {"--questions": (NAMES[1], FAULTS), "--copies": (NAMES[COPIES], FAULTS_OF_COPIES)}


def status_of(kind: str, fault: str | None, patience: int) -> tuple[int, Day]:
    """Lets an engine with this fault play a day: the status, and the cases that failed."""
    day = Day(patience, kind)
    desk = Desk(day, fault, DAYS[kind][0])
    desk.start()
    status = played(day, desk.acts)
    desk.is_over = True
    return status, day


def test_right_engine() -> None:
    """An engine that does nothing wrong passes, so that what others fail is their fault."""
    for kind in DAYS:
        status, day = status_of(kind, None, 60)
        if status:
            raise Trouble(f"status {status}, failed were {day.failed()}")


def unseen(kind: str, fault: str) -> str | None:
    """What came of days that were to show this fault, or nothing where one has."""
    for patience in PATIENCES:
        status, day = status_of(kind, fault, patience)
        if status == 1 and any(DAYS[kind][1][fault] in it for it in day.failed()):
            return None
    return f"{kind}: {fault}: status {status}, failed were {day.failed()}"


def test_wrong_engines() -> None:
    """Each engine that does one thing wrong fails, and by the words that are about it."""
    with concurrent.futures.ThreadPoolExecutor(AT_ONCE) as pool:
        if wrong := list(filter(None, pool.map(lambda it: unseen(*it), [(kind, fault) for kind, it in DAYS.items() for fault in it[1]]))):
            raise Trouble("; ".join(wrong))


TESTS = [test_tradeclient, test_right_engine, test_wrong_engines]
