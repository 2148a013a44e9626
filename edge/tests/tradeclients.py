"""QuickFIX's own example client, tradeclient, as it comes, answered by a script: each of its questions by its name."""
import os
import re
import subprocess
import threading
import time
from collections.abc import Callable, Sequence
from typing import TypeVar

from edges import NAMES, PATIENCE, ROOT, Trouble, running
from gikvand.fix import printed, value
from gikvand.words import sure

T = TypeVar("T")

CLIENT = os.path.join(ROOT, "edge/out/tradeclient")
STOCK = os.path.join(ROOT, "edge/out/FIX44.xml")
EXAMPLE = os.path.join(ROOT, "examples/quickfix.cfg")  # Its settings, but for places, names, hours, and how soon it comes back.
ALSO = "ValidateUserDefinedFields=Y\n\n[SESSION]\n"
# The questions that it asks, and which of its choices is meant.
QUESTIONS = re.compile(rb"(Action|BeginString|ClOrdID|OrigClOrdID|Side|OrdType|Symbol|OrderQty|TimeInForce|Price|"
                       rb"SenderCompID|TargetCompID|Use a TargetSubID\?|Send order\?|Send cancel\?|Send replace\?|"
                       rb"New price\?|New quantity\?): ")
DAY, GTC = 1, 4  # Of its choices for TimeInForce.
IN = re.compile(rb"\nIN: (8=FIX[^\n]*)\n")


def settings(**values: str | int) -> str:
    """The example's settings with other values of these names."""
    with open(EXAMPLE, encoding="ascii") as file:
        text = file.read().replace("[SESSION]\n", ALSO)
    for name, other in values.items():
        text, count = re.subn(rf"(?m)^{name}=.*$", f"{name}={other}", text)
        if count != 1:
            raise Trouble(f"{name} stands {count} times in {EXAMPLE}")
    return text


class TradeClient:
    """One that runs, as a member of the edge."""

    def __init__(self, port: int, member: int = 1, hours: Sequence[str] = ("00:00:00", "00:00:00"),
                 env: dict[str, str] | None = None, dictionary: str = STOCK) -> None:
        self.name = NAMES[member]
        config = f"client-{self.name}.cfg"
        with open(config, "w", encoding="ascii") as file:
            file.write(settings(ReconnectInterval=1, StartTime=hours[0], EndTime=hours[1], FileStorePath=f"client-{self.name}",
                                FileLogPath=f"client-{self.name}", DataDictionary=dictionary, SenderCompID=self.name,
                                SocketConnectPort=port + member - 1))
        pipe = subprocess.PIPE
        self.process = subprocess.Popen([CLIENT, config], stdin=pipe, stdout=pipe, stderr=subprocess.STDOUT,
                                        env=env)
        running.append(self)
        self.out, self.at, self.seen = b"", 0, 0
        threading.Thread(target=self.read, daemon=True).start()

    def read(self) -> None:
        while piece := os.read(sure(self.process.stdout).fileno(), 65536):
            self.out += piece

    def until(self, look: Callable[[], T | None]) -> T:
        """Waits until this finds something, and gives it."""
        end = time.monotonic() + PATIENCE
        while time.monotonic() < end:
            if found := look():
                return found
            time.sleep(0.01)
        raise Trouble(f"{self.name}: its last words are {printed(self.out[-600:])}")

    def logged_on(self, times: int = 1) -> "TradeClient":
        self.until(lambda: self.out.count(b"\nLogon - ") >= times)
        return self

    def answer(self, last: str, **answers: int | str) -> None:
        """Answers its questions until this one has been answered."""
        answers = {"BeginString": "5", "SenderCompID": self.name, "TargetCompID": "GIKVAND", "Use a TargetSubID?": "N",
                   **{name.replace("_", " "): it for name, it in answers.items()}}
        name = None
        while name != last:
            found = self.until(lambda: QUESTIONS.search(self.out, self.at))
            self.at, name = found.end(), found[1].decode()
            sure(self.process.stdin).write(f"{answers.get(name, 'Y')}\n".encode())
            sure(self.process.stdin).flush()

    def order(self, name: str, side: int, quantity: int | str, price: str, symbol: str = "ABC", term: int = DAY) -> None:
        self.answer("Send order?", Action="1", ClOrdID=name, Side=side, OrderQty=quantity, OrdType=2, Price=price,
                    Symbol=symbol, TimeInForce=term)

    def cancel(self, name: str, original: str, side: int, quantity: int | str, symbol: str = "ABC") -> None:
        self.answer("Send cancel?", Action="2", ClOrdID=name, OrigClOrdID=original, Side=side, OrderQty=quantity,
                    Symbol=symbol)

    def replace(self, name: str, original: str, side: int, quantity: int | str, price: str, symbol: str = "ABC") -> None:
        self.answer("Send replace?", Action="3", ClOrdID=name, OrigClOrdID=original, Side=side, OrderQty=quantity,
                    OrdType=2, Price=price, Symbol=symbol)

    def report(self, **wanted: int | str) -> str:
        """Waits for a report whose fields, by tag, are these, behind those that were waited for; gives it."""
        def look() -> str | None:
            for found in IN.finditer(self.out, self.seen):
                text = printed(found[1])
                if all(value(text, tag[1:]) == str(wants) for tag, wants in wanted.items()):
                    self.seen = found.end() - 1
                    return text
            return None
        return self.until(look)

    def has_counted(self, report: str) -> None:
        """Waits until its store has counted a message that it has shown: killed before that it would ask for the message again."""
        def look() -> bool:
            with open(f"client-{self.name}/FIX.4.4-{self.name}-GIKVAND.seqnums", encoding="ascii") as file:
                found = re.match(r"\d+ : (\d+)", file.read())
            return bool(found) and int(sure(found)[1]) > int(sure(value(report, "34")))
        self.until(look)

    def kill(self) -> None:
        self.process.kill()
        self.process.wait()
