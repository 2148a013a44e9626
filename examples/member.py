#!/usr/bin/env python3
"""A small member in plain Python: it logs on at the edge, buys 1 ABC at 50, asks for the market, and prints what comes.

    examples/member.py PORT [SENDER [TARGET]]

Where the edge asks for a password FIX_USERNAME and FIX_PASSWORD of the environment are written into the Logon. It ends with
its standard input, or by Ctrl-C, and logs out then. Its order rests until somebody sells. Where the market isn't open to
the member (`MarketData` of the edge), a 35=Y says so. Its numbers go on from one session to the next, and begin with 1 at midnight, UTC, as
those of the edge's example: they stand in the file SENDER.numbers of the present folder. What it missed while it was away is
sent again. Of its own messages none is: an order that was lost on its way was never sent, as far as the venue knows. The status
is 1 where it isn't let in.
"""
import os
import select
import signal
import socket
import sys
import time

HEARTBEAT = 30          # Seconds.
ADMIN = "0 1 2 3 4 5 A".split()
SOH = "\x01"


def now() -> str:
    at = time.time()
    return time.strftime("%Y%m%d-%H:%M:%S", time.gmtime(at)) + f".{int(at * 1000) % 1000:03}"


def framed(body: str) -> bytes:
    """A message of these fields, which begin with MsgType, with bars in the place of the byte 01."""
    text = body.replace("|", SOH)
    text = f"8=FIX.4.4{SOH}9={len(text)}{SOH}{text}"
    return (text + f"10={sum(text.encode()) % 256:03}{SOH}").encode()


class Numbers:
    """The next number of each side, in a file. Those of another day are over."""

    def __init__(self, path: str) -> None:
        self.path, self.out, self.into = path, 1, 1
        if os.path.exists(path) and time.gmtime(os.path.getmtime(path))[:3] == time.gmtime()[:3]:
            with open(path, encoding="ascii") as file:
                self.out, self.into = map(int, file.read().split())

    def keep(self) -> None:
        with open(self.path + ".new", "w", encoding="ascii") as file:
            file.write(f"{self.out} {self.into}\n")
            file.flush()
            os.fsync(file.fileno())
        os.replace(self.path + ".new", self.path)


class Member:
    """A session with the edge."""

    def __init__(self, port: int, sender: str, target: str) -> None:
        self.sender, self.target = sender, target
        self.numbers = Numbers(f"{sender}.numbers")
        self.socket = socket.create_connection(("127.0.0.1", port))
        self.rest, self.sent_at, self.has_asked, self.is_on, self.is_over = b"", time.monotonic(), False, False, False
        self.is_interrupted = False

    def write(self, kind: str, body: str, number: int, head: str = "") -> None:
        self.socket.sendall(framed(f"35={kind}|34={number}|49={self.sender}|52={now()}|56={self.target}|{head}{body}"))
        self.sent_at = time.monotonic()

    def send(self, kind: str, body: str = "") -> None:
        """Sends the next message. Its number is kept first, so that no number is given twice."""
        number, self.numbers.out = self.numbers.out, self.numbers.out + 1
        self.numbers.keep()
        self.write(kind, body, number)

    def log_on(self) -> None:
        name, password = (os.environ.get(it, "") for it in ("FIX_USERNAME", "FIX_PASSWORD"))
        self.send("A", f"98=0|108={HEARTBEAT}|" + (f"553={name}|554={password}|" if name else ""))

    def order(self) -> None:
        """Buys 1 ABC at 50, for the day. Its name is never used again."""
        self.send("D", f"11={self.sender}-{time.time_ns()}|21=1|38=1|40=2|44=50|54=1|55=ABC|59=0|60={now()}|")

    def market(self) -> None:
        """Asks for all prices of ABC and its last trade, and for what changes from then on."""
        self.send("V", "262=market|263=1|264=0|265=1|267=3|269=0|269=1|269=2|146=1|55=ABC|")

    def read(self) -> None:
        """Takes in what has come. The edge writes whole messages, which are right."""
        data = self.socket.recv(65536)
        self.is_over = not data
        self.rest += data
        while (end := self.rest.find(b"\x0110=")) >= 0 and len(self.rest) >= end + 8:
            text, self.rest = self.rest[:end + 8].decode("latin-1"), self.rest[end + 8:]
            self.take(dict(it.split("=", 1) for it in text.strip(SOH).split(SOH)), text.replace(SOH, "|"))

    def take(self, it: dict[str, str], text: str) -> None:
        number, is_reset = int(it["34"]), it["35"] == "4" and it.get("123") != "Y"
        if is_reset or number == self.numbers.into:
            self.numbers.into = int(it["36"]) if it["35"] == "4" else number + 1
            self.numbers.keep()
            self.has_asked = False
            self.act(it, text)
        elif number > self.numbers.into:
            self.missed(it)
        elif it.get("43") != "Y":
            sys.exit(f"number {number} where {self.numbers.into} is next, as {self.numbers.path} says: remove that file where the edge is "
                     f"another one than before: {text}")
        elif not self.is_on:
            print(text, flush=True)  # A word that isn't counted: it isn't let in.

    def missed(self, it: dict[str, str]) -> None:
        """Something was missed: it is asked for once, and what has come is sent again behind it."""
        if it["35"] == "2":
            self.fill(int(it["7"]))
        if not self.has_asked:
            self.has_asked = True
            self.send("2", f"7={self.numbers.into}|16=0|")
        self.begin(it)

    def act(self, it: dict[str, str], text: str) -> None:
        kind = it["35"]
        if kind not in ADMIN or kind in "35":
            print(text, flush=True)
        if kind == "1":
            self.send("0", f"112={it['112']}|")
        if kind == "2":
            self.fill(int(it["7"]))
        if kind == "5":
            self.is_over = True
        self.begin(it)

    def begin(self, it: dict[str, str]) -> None:
        """Behind the answer to its Logon it trades."""
        if it["35"] != "A" or self.is_on:
            return
        self.is_on = True
        print("logged on", flush=True)
        self.order()
        self.market()

    def fill(self, first: int) -> None:
        """Says that none of its messages from this number on is sent again."""
        self.write("4", f"123=Y|36={self.numbers.out}|", first, f"43=Y|122={now()}|")

    def beat(self) -> None:
        if self.is_on and time.monotonic() - self.sent_at > HEARTBEAT / 2:
            self.send("0")

    def interrupt(self, *_: object) -> None:
        """Who isn't logged on yet can't log out, and so ends at once."""
        if not self.is_on:
            sys.exit("interrupted before it was let in")
        self.is_interrupted = True

    def run(self) -> None:
        signal.signal(signal.SIGINT, self.interrupt)
        self.log_on()
        is_leaving = False
        while not self.is_over:
            listens = self.is_on and not is_leaving
            ready = select.select([self.socket, *[sys.stdin] * listens], [], [], 1)[0]
            if self.socket in ready:
                self.read()
            if listens and (self.is_interrupted or sys.stdin in ready and not sys.stdin.readline()):
                is_leaving = True
                self.send("5")
            self.beat()
        if not self.is_on:
            sys.exit("the Logon had no answer, and the connection has ended: is it the right password, name and hour?")


def main() -> None:
    if {"-h", "--help"} & set(sys.argv):
        print(__doc__)
        return
    if not 2 <= len(sys.argv) <= 4 or not sys.argv[1].isdecimal():
        sys.exit(__doc__)
    port, sender, target = (sys.argv[1:] + ["DESK-A", "GIKVAND"][len(sys.argv) - 2:])[:3]
    Member(int(port), sender, target).run()


if __name__ == "__main__":
    main()
