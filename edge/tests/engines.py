"""A member's engine in plain Python: sessions with numbers on both sides, heartbeats, resends, gap fills."""
import select
import socket
import time
from typing import TypeVar

from edges import HOST, NAMES, PATIENCE, RanOut, Trouble
from gikvand.fix import framed, parted, value
from gikvand.words import sure

E = TypeVar("E", bound="Engine")

ADMIN = "0 1 2 3 4 5 A".split()
GTC = "59=1|"  # In an order that stays over the ends of days.
BEHIND_HEADER = {"8", "9", "10", "35", "49", "56", "34", "52", "43", "122"}
AGAIN = 1  # Seconds of silence behind which an engine asks for what came behind a gap that is filled.


def now(at: float | None = None) -> str:
    """The time, with milliseconds: this one of the system's, or the present one."""
    at = time.time() if at is None else at
    return time.strftime("%Y%m%d-%H:%M:%S", time.gmtime(at)) + f".{int(at * 1000) % 1000:03}"


class Engine:
    """A member of the edge. What it is told is in `history`, each once and in order, however often it was sent; what of
    that hasn't been asked for yet is in `reports`."""

    def __init__(self, port: int, member: int = 1, target: str = "GIKVAND", sender: str | None = None, heartbeat: int = 60) -> None:
        """One that connects to a member's port, which is so far above the port of C1 as the member's number says. Its session ends
        where the edge hears nothing of it for more than two heartbeats: a test may take as long while another engine is busy."""
        self.port, self.target, self.heartbeat = port + member - 1, target, heartbeat
        self.member, self.sender = member, sender or NAMES[member]
        self.out = self.next = 1       # The number of the next message that it sends, and of the next that it takes.
        self.greatest = 0              # The greatest number of what came, also of what came behind a gap.
        self.sent: dict[int, tuple[str, str]] = {}
        self.came: list[str] = []
        self.reports: list[str] = []
        self.history: list[str] = []
        self.admin: list[str] = []
        self.socket: socket.socket | None = None
        self.rest, self.has_asked = b"", False
        self.asked_for: int | None = None  # The greatest number that had come when it asked in this connection.
        self.heard_at = 0.0
        self.filled: set[int] = set()  # The numbers of what isn't sent again.

    def connect(self: E) -> E:
        self.socket, self.rest, self.has_asked = socket.create_connection((HOST, self.port), PATIENCE), b"", False
        self.asked_for = None
        self.socket.setsockopt(socket.IPPROTO_TCP, socket.TCP_NODELAY, 1)
        self.admin.clear()
        return self

    def close(self) -> None:
        if self.socket:
            self.socket.close()
        self.socket = None

    def write(self, kind: str, body: str = "", number: int | str | None = None, head: str = "") -> None:
        number = number or self.out
        sure(self.socket).sendall(framed(f"35={kind}|34={number}|49={self.sender}|52={now()}|56={self.target}|{head}{body}"))

    def send(self, kind: str, body: str = "") -> None:
        """Sends the next message of the session; what the connection doesn't take is sent again later."""
        number, self.out = self.out, self.out + 1
        self.sent[number] = kind, body
        try:
            if self.socket:
                self.write(kind, body, number)
        except OSError:
            self.close()

    def log_on(self: E, more: str = "") -> E:
        """Connects and logs on; Trouble with what came in its place."""
        self.connect().send("A", f"98=0|108={self.heartbeat}|{more}")
        if not (came := self.next_of("A53")):
            raise (RanOut if self.socket else Trouble)(f"{self.sender}: the Logon wasn't answered")
        if value(came, "35") != "A":
            raise Trouble(f"{self.sender}: the Logon was answered by {came}")
        return self

    def log_out(self) -> None:
        self.send("5")
        self.next_of("5")
        self.close()

    def next_of(self, kinds: str, seconds: float = PATIENCE) -> str | None:
        """The next message of these types of the session itself, or None where there is none or the connection ends."""
        end = time.monotonic() + seconds
        while time.monotonic() < end:
            for at, it in enumerate(self.admin):
                if sure(value(it, "35")) in kinds:
                    return self.admin.pop(at)
            if not self.pump(end - time.monotonic()):
                return None
        return None

    def pump(self, seconds: float = 0.0) -> bool:
        """Takes in what comes within this time. Whether the connection stands."""
        if not self.socket:
            return False
        lacks = self.asked_for is not None and self.asked_for <= self.next <= self.greatest
        try:
            if not select.select([self.socket], [], [], max(0, min(seconds, AGAIN) if lacks else seconds))[0]:
                if lacks and time.monotonic() - self.heard_at >= AGAIN:  # Else the next Heartbeat would show that it lacks some.
                    self.ask()
                return True
            data, self.heard_at = self.socket.recv(65536), time.monotonic()
        except OSError:
            data = b""
        if not data:
            self.close()
            return False
        found, self.rest = parted(self.rest + data)
        for it in found:
            self.take(it)
        return True

    def take(self, it: str) -> None:
        self.came.append(it)
        kind, number = sure(value(it, "35")), int(sure(value(it, "34")))
        if kind == "4" and value(it, "123") != "Y":
            self.next = int(sure(value(it, "36")))
            return
        self.greatest = max(self.greatest, number)
        if number > self.next:
            if kind in "A5":
                self.admin.append(it)
            if kind == "2":
                self.send_again(int(sure(value(it, "7"))))
            if not self.has_asked:
                self.ask()
            return
        if number < self.next:
            if value(it, "43") != "Y":
                raise Trouble(f"{self.sender}: number {number} where {self.next} is next: {it}")
            if not number:
                self.admin.append(it)  # A word to who isn't let in, which isn't counted.
            return
        self.has_asked = False
        self.next = int(sure(value(it, "36"))) if kind == "4" else number + 1
        self.act(kind, it)

    def ask(self) -> None:
        """Asks for all that it lacks."""
        self.has_asked, self.asked_for = True, self.greatest
        self.send("2", f"7={self.next}|16=0|")

    def act(self, kind: str, it: str) -> None:
        """What a message that is the next asks for."""
        if kind not in ADMIN:
            self.reports.append(it)
            self.history.append(it)
        elif kind == "1":
            self.send("0", f"112={value(it, '112')}|")
        elif kind == "2":
            self.send_again(int(sure(value(it, "7"))))
        elif kind in "A53":
            self.admin.append(it)

    def send_again(self, first: int) -> None:
        """Sends its orders again from this number on, and fills the numbers of all else, as long as it is connected."""
        try:
            self.write_again(first)
        except OSError:
            self.close()

    def write_again(self, first: int) -> None:
        """The same where the connection is sure to stand."""
        gap = None
        for number in range(first, self.out + 1):
            kind, body = self.sent.get(number, ("", ""))
            if number < self.out and kind in ADMIN:
                gap = gap or number
                self.filled.add(number)
                continue
            if gap:
                self.write("4", f"123=Y|36={number}|", gap, f"43=Y|122={now()}|")
                gap = None
            if number < self.out:
                self.write(kind, body, number, f"43=Y|122={now()}|")

    def settle(self) -> None:
        """Waits until the edge has passed on all that was sent to it: it has answered a TestRequest behind that, and one
        behind that answer, which it reads when it has written all of the turn before. One whose number was filled, since the
        edge has asked for what was in front of it, gets no answer, and another one is sent. An answer that comes behind a
        gap counts once the gap is filled, which the edge does in pieces."""
        answered = 0
        while answered < 2:
            number, name = self.out, f"settle-{self.out}"
            self.send("1", f"112={name}|")
            while not (is_answered := self.has_all_up_to(name)) and number not in self.filled:
                if not self.pump(PATIENCE):
                    raise Trouble(f"{self.sender}: the connection ended")
            answered += is_answered

    def has_all_up_to(self, name: str) -> bool:
        """Whether the TestRequest of this name is answered, and nothing is missing in front of what came."""
        return self.next > self.greatest and any(f"|112={name}|" in it for it in reversed(self.came))

    def report(self, **wanted: int | str) -> str:
        """Waits for a report whose fields, by tag, are these, behind those that were taken; gives it."""
        end = time.monotonic() + PATIENCE
        while time.monotonic() < end:
            for at, it in enumerate(self.reports):
                if all(value(it, tag[1:]) == str(wants) for tag, wants in wanted.items()):
                    del self.reports[:at + 1]
                    return it
            if not self.pump(end - time.monotonic()):
                break
        raise (RanOut if self.socket else Trouble)(f"{self.sender}: no report of {wanted}; there were {self.reports[-4:]}, {self.admin[-2:]}")


def at_once(one: Engine, *messages: tuple[str, str]) -> None:
    """Sends messages by one write, so that they are read as one."""
    data = b""
    for kind, body in messages:
        number, one.out = one.out, one.out + 1
        one.sent[number] = kind, body
        data += framed(f"35={kind}|34={number}|49={one.sender}|52={now()}|56={one.target}|{body}")
    sure(one.socket).sendall(data)


def refused(one: Engine, wanted: str, more: str = "") -> None:
    """This engine's Logon is refused in words that have this text, or isn't answered."""
    try:
        one.log_on(more)
    except Trouble as why:
        if wanted not in str(why):
            raise
        one.close()
        return
    raise Trouble(f"a Logon was taken, where {wanted!r} should come")


def at_rest(port: int, name: str, quantity: int = 1, member: int = 1, more: str = "") -> Engine:
    """A member that is logged on, and whose order to buy at 50 rests."""
    one = Engine(port, member).log_on()
    one.send("D", order(name, 1, quantity, "50", more=more))
    one.report(_150="0", _11=name)
    return one


def order(name: str, side: int, quantity: int | str, price: str, symbol: str = "ABC", more: str = "") -> str:
    """The body of an order as engines write it."""
    return f"11={name}|21=1|38={quantity}|40=2|44={price}|54={side}|55={symbol}|60={now()}|{more}"


def cancel(name: str, original: str, side: int, quantity: int = 1, symbol: str = "ABC") -> str:
    return f"11={name}|38={quantity}|41={original}|54={side}|55={symbol}|60={now()}|"


def replace(name: str, original: str, side: int, quantity: int | str, price: str, symbol: str = "ABC", more: str = "") -> str:
    return f"11={name}|21=1|38={quantity}|40=2|41={original}|44={price}|54={side}|55={symbol}|60={now()}|{more}"
