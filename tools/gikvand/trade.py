"""Trades by words: speaks FIX 4.4 to a venue as one of its members, and says its answers in words.

    gikvand trade buy 100 ABC 50          an order, and what came of it
    gikvand trade                         a prompt; or the lines of standard input, where that is no terminal
    gikvand trade --port 9001 --member 2 buy 100 ABC 50
                                          the same as C2, at the venue that was started with PORT 9001

Without --port it starts a venued of its own on a journal, and is the member C1. The words are

    buy QTY SYMBOL PRICE [ioc|fok]        a new order; what doesn't trade rests, or with ioc or fok is cancelled
    sell QTY SYMBOL PRICE [ioc|fok]
    buy QTY SYMBOL market [ioc|fok]       a market order: it trades at any price, and what doesn't trade is cancelled
    sell QTY SYMBOL market [ioc|fok]
    cancel ORDER                          ORDER is the number that the venue gave, and stays through each replace
    replace ORDER QTY PRICE               QTY is the new total: what has been filled is a part of it
    orders                                your resting orders
    quit

Numbers and symbols go to the venue as they are written: it alone says what is wrong with them. Each request gets the
next ClOrdID above all that the journal holds as accepted. The session ends where its words end, with no Logout, so that
the venue still writes each report that is due. The status is 0, 1 where a request was refused, and 2 where there is no
venue to ask.

The symbols of a journal are kept beside it, in JOURNAL.symbols, from its first start on, and a start with others is
refused, since the same messages would lead to another book. With --port the journal is read only where --journal names it, and it
has to be there. Without it ClOrdIDs begin at the time in milliseconds, and only the orders of this session are known: the others
rest, but can't be listed, cancelled or replaced.

At a terminal a line is edited with the keys of readline, and the arrow up brings the lines of before. Reports that come meanwhile
stand above the line.
"""
import argparse
import dataclasses
import datetime
import os
import select
import signal
import socket
import subprocess
import sys
import threading
import time
from collections.abc import Callable, Iterator

from gikvand import files, symbols
from gikvand.fix import fields_of, framed, parted, printed
from gikvand.ports import HOST, port_of
from gikvand.programs import REPLAY, VENUED, WHERE, Replay, Trouble, need
from gikvand.words import sure, text_of

OWN_JOURNAL, OWN_SYMBOLS = "trade.journal", ["ABC"]
TERMS = {"ioc": "3", "fok": "4"}
MARKET = "market"
SIDES = {"1": "buy", "2": "sell"}
STALE = "its ClOrdID isn't above all that were accepted before"
ORDER_REFUSED = {"0": "the book is full", "1": "the venue doesn't trade its symbol", "6": STALE}
REQUEST_REFUSED = {"1": "no such order rests", "2": "the total isn't above what has been filled", "6": STALE}
TAGS = {"38": "quantity", "44": "price", "55": "symbol"}
FAULTS = {"5": "out of its range", "6": "not written as it must be"}
NO_MARKET_ORDERS = "the venue takes no market orders: its journal is an old one, of version 1"
PROMPT = "> "
PATIENCE, PAUSE = 10, 0.05  # Seconds to wait for an answer, and for what else may come behind it.

Fields = dict[str, str]  # Of a message, by tag.


@dataclasses.dataclass
class Order:
    """An order of this member, as the last report on it says. Its name is its ClOrdID. A market order has no price."""

    number: str
    name: str
    side: str
    symbol: str
    price: str | None
    total: int
    left: int

    def __str__(self) -> str:
        return f"{SIDES[self.side]} {self.total} {self.symbol} {f'at {self.price}' if self.price else 'at any price'}"


class Orders:
    """All orders of this member that reports have told of, by OrderID, and the greatest ClOrdID that was accepted."""

    def __init__(self, greatest: int = 0, scope: str = "") -> None:
        self.known: dict[str, Order] = {}
        self.greatest, self.scope = greatest, scope

    def take(self, report: Fields) -> None:
        """Takes an execution report in. One that refuses an order changes nothing."""
        if report["150"] == "8":
            return
        number, name, side, symbol = (report[tag] for tag in ("37", "11", "54", "55"))
        self.known[number] = Order(number, name, side, symbol, report.get("44"), int(report["38"]), int(report["151"]))
        self.greatest = max(self.greatest, int(report["11"]))

    def of(self, number: str) -> Order:
        """The order of this number. One that no report told of has no ClOrdID to name it by, so it is refused here."""
        if number not in self.known:
            raise ValueError(f"there is no order {number} of yours{self.scope}; 'orders' lists those that rest")
        return self.known[number]

    def resting(self) -> list[str]:
        """A line for each order that has something left."""
        found = [f"order {it.number}: {it}, {it.left} left" for it in self.known.values() if it.left]
        return found or [f"no order rests{self.scope}"]


def now() -> str:
    """The time as FIX writes it."""
    return datetime.datetime.now(datetime.timezone.utc).strftime("%Y%m%d-%H:%M:%S")


def recorded(journal: str, member: str, traded: list[str]) -> Orders:
    """The orders of this member out of the journal. A missing one has none."""
    orders = Orders()
    if os.path.exists(journal):
        for line in Replay(journal, member, traded):
            if line.startswith("35=8|"):
                orders.take(fields_of(line))
    return orders


class Venue:
    """A venued of our own on a journal, as two ends of bytes."""

    def __init__(self, journal: str, traded: list[str]) -> None:
        words = [VENUED, "-", journal, "1", *traded]
        self.process = subprocess.Popen(words, stdin=subprocess.PIPE, stdout=subprocess.PIPE, bufsize=0)
        self.ready, self.input = sure(self.process.stdout), sure(self.process.stdin)

    def send(self, data: bytes) -> None:
        try:
            self.input.write(data)
        except BrokenPipeError:
            pass  # Its end is seen where its bytes end.

    def receive(self, seconds: float) -> bytes | None:
        """What has come within this time: None for nothing yet, no bytes at the end."""
        if not select.select([self.ready], [], [], seconds)[0]:
            return None
        return os.read(self.ready.fileno(), 65536)

    def close(self) -> None:
        """No more is sent. What is due still comes."""
        self.input.close()

    def fault(self) -> str | None:
        """How it ended, where that was a fault."""
        status = self.process.wait()
        return f"venued ended with status {status} ({WHERE})" if status else None


class Connection:
    """A connection to a venue that listens, as two ends of bytes."""

    def __init__(self, port: int) -> None:
        try:
            self.ready = socket.create_connection((HOST, port), PATIENCE)
        except OSError as why:
            raise Trouble(f"no venue answers at {HOST}, port {port}: {why.strerror or why}") from None
        self.ready.setsockopt(socket.IPPROTO_TCP, socket.TCP_NODELAY, 1)
        self.is_closed = self.was_left = False

    def send(self, data: bytes) -> None:
        try:
            self.ready.sendall(data)
        except OSError:
            pass  # Its end is seen where its bytes end.

    def receive(self, seconds: float) -> bytes | None:
        """What has come within this time: None for nothing yet, no bytes at the end."""
        if not select.select([self.ready], [], [], seconds)[0]:
            return None
        try:
            data = self.ready.recv(65536)
        except OSError:
            data = b""
        self.was_left = self.was_left or not data and not self.is_closed
        return data

    def close(self) -> None:
        """No more is sent. What is due still comes."""
        self.is_closed = True
        try:
            self.ready.shutdown(socket.SHUT_WR)
        except OSError:
            pass

    def fault(self) -> str | None:
        """How it ended, where the venue ended it first."""
        self.ready.close()
        return "the venue closed the connection" if self.was_left else None


class Session:
    """One FIX session over a venue: frames, numbers and times."""

    def __init__(self, venue: Venue | Connection, member: str, shows_fix: bool) -> None:
        self.venue, self.member, self.shows_fix = venue, member, shows_fix
        self.number, self.rest, self.is_over = 0, b"", False

    def send(self, kind: str, body: str) -> str:
        """Sends a message of this type with this body behind its header, and gives its MsgSeqNum."""
        self.number += 1
        message = framed(f"35={kind}|49={self.member}|56=VENUE|34={self.number}|52={now()}|{body}")
        if self.shows_fix:
            print(f"> {printed(message)}")
        self.venue.send(message)
        return str(self.number)

    def messages(self, seconds: float) -> list[Fields]:
        """The whole messages that have come, after this time at most. Where the bytes end the session is over."""
        data = self.venue.receive(seconds)
        self.is_over = self.is_over or data == b""
        found, self.rest = parted(self.rest + (data or b""))
        if self.shows_fix:
            print("".join(f"< {message}\n" for message in found), end="")
        return [fields_of(message) for message in found]


class Trader:
    """A member's requests, and what comes of them in words."""

    def __init__(self, session: Session, orders: Orders) -> None:
        self.session, self.orders = session, orders
        self.next_name, self.all_went = orders.greatest + 1, True

    def log_on(self) -> None:
        """Logs on. A venue that serves another session of this member doesn't answer until that has ended."""
        self.session.send("A", "98=0|108=0|141=Y|")
        while not self.session.is_over:
            came = self.session.messages(PATIENCE)
            self.show(came)
            if any(message["35"] == "A" for message in came):
                return
            if not came and not self.session.is_over:
                raise Trouble(f"no answer to the Logon: does another session of {self.session.member} last?")
        raise Trouble(self.session.venue.fault() or "the session ended before it began")

    def refuse(self, why: str) -> None:
        self.all_went = False
        print(why)

    def do(self, line: str) -> bool:
        """Does what a line asks. Answers whether there may be more."""
        words = line.split()
        try:
            if words[:1] in (["quit"], ["exit"]):
                return False
            if words == ["orders"]:
                print("\n".join(self.orders.resting()))
            elif words == ["help"]:
                print(text_of(sys.modules[__name__]).split("\n\n")[3])
            elif words:
                self.request(words)
        except ValueError as why:
            self.refuse(f"not sent: {why}")
        return not self.session.is_over

    def request(self, words: list[str]) -> None:
        """Sends a request, and shows what comes until its own answer is there."""
        name = str(self.next_name)
        kind, body = message_of(words, name, self.orders)
        number = self.session.send(kind, body)
        self.next_name += 1
        while not self.session.is_over:
            came = self.session.messages(PATIENCE)
            if not came and not self.session.is_over:
                return self.refuse(f"no answer yet to this request, ClOrdID {name}")
            self.show(came)
            if any(it.get("11") == name or it.get("45") == number for it in came):
                return self.show_rest()
        self.refuse("the session ended before an answer came")

    def show_rest(self) -> None:
        """Shows what else comes until nothing has come for a pause."""
        while came := self.session.messages(PAUSE):
            self.show(came)

    def show(self, messages: list[Fields]) -> None:
        for message in messages:
            text, went = words_of(message, self.orders)
            self.all_went = self.all_went and went
            if text:
                print(text, flush=True)

    def end(self) -> int:
        """Closes our end, shows what was still due, and answers the status."""
        self.session.venue.close()
        while not self.session.is_over:
            self.show(self.session.messages(PATIENCE))
        if fault := self.session.venue.fault():
            self.refuse(fault)
        return 0 if self.all_went else 1


def message_of(words: list[str], name: str, orders: Orders) -> tuple[str, str]:
    """The type and the body of the message that asks for this."""
    if not all(word.isascii() and word.isprintable() and "|" not in word for word in words):
        raise ValueError("a word has a character that no field here can have")
    head = f"11={name}|60={now()}|"
    verb, count = words[0], len(words)
    if verb in ("buy", "sell") and count >= 4 and words[4:] in ([], ["ioc"], ["fok"]):
        _, quantity, symbol, price, *terms = words
        side = "1" if verb == "buy" else "2"
        until = "".join(f"59={TERMS[term]}|" for term in terms)
        kind = "40=1|" if price == MARKET else f"40=2|44={price}|"
        return "D", f"{head}55={symbol}|54={side}|38={quantity}|{kind}{until}"
    if verb == "cancel" and count == 2:
        order = orders.of(words[1])
        return "F", f"{head}41={order.name}|55={order.symbol}|54={order.side}|38={order.total}|"
    if verb == "replace" and count == 4:
        _, number, quantity, price = words
        order = orders.of(number)
        return "G", f"{head}41={order.name}|55={order.symbol}|54={order.side}|38={quantity}|40=2|44={price}|"
    raise ValueError(f"'{' '.join(words)}' isn't one of the words; 'help' lists them")


def words_of(message: Fields, orders: Orders) -> tuple[str | None, bool]:
    """What a message of the venue says, and whether it is no refusal."""
    kind = message["35"]
    if kind == "8":
        orders.take(message)
        return words_of_report(message, orders)
    if kind == "9":
        asked = "cancel" if message["434"] == "1" else "replace"
        return f"{asked} refused: {REQUEST_REFUSED[message['102']]}", False
    if kind == "3":
        tag, reason = message["371"], message["373"]
        if (tag, reason) == ("44", "1"):  # A limit order is never sent without its price.
            return f"rejected: {NO_MARKET_ORDERS}", False
        what = f"{TAGS.get(tag, 'the field')} ({tag}) is {FAULTS.get(reason, f'wrong, for reason {reason}')}"
        return f"rejected: {what}", False
    if kind == "5":
        return f"the venue ended the session: {message.get('58', 'logged out')}", False
    return None, True


def words_of_report(report: Fields, orders: Orders) -> tuple[str, bool]:
    """What an execution report says, and whether it is no refusal."""
    if report["150"] == "8":
        return f"order refused: {ORDER_REFUSED[report['103']]}", False
    order = orders.known[report["37"]]
    event = f"order {order.number}"
    if report["150"] == "0":
        return f"{event} accepted: {order} (ClOrdID {order.name})", True
    if report["150"] == "F":
        return f"{event} filled {report['32']} at {report['31']}, {order.left or 'nothing'} left", True
    if report["150"] == "4":
        what = "cancelled" if "41" in report else "ends, and what is left is cancelled"
        return f"{event} {what}: {report['14']} of {order.total} filled", True
    return f"{event} replaced: {order}, {order.left or 'nothing'} left (ClOrdID {order.name})", True


def lines(trader: Trader, prompt: str) -> Iterator[str]:
    """The lines of standard input. Reports that come meanwhile are shown."""
    buffer = b""
    print(prompt, end="", flush=True)
    while not trader.session.is_over:
        ready = select.select([0, trader.session.venue.ready], [], [])[0]
        if 0 not in ready:
            trader.show(trader.session.messages(0))
            continue
        piece = os.read(0, 4096)
        *whole, buffer = (buffer + piece).split(b"\n")
        if not piece:
            whole = [buffer]
        for line in whole:
            yield line.decode("utf-8", "replace")
        if not piece:
            return
        print(prompt, end="", flush=True)


class Over(Exception):
    """The session ended while a line was edited."""


class Meanwhile(threading.Thread):
    """Shows what comes while a line is edited, and begins the line anew below it."""

    def __init__(self, trader: Trader, prompt: str, edited: Callable[[], str]) -> None:
        super().__init__(daemon=True)
        self.trader, self.prompt, self.edited, self.may = trader, prompt, edited, threading.Lock()
        self.is_needed, self.is_edited = True, False

    def run(self) -> None:
        session = self.trader.session
        while self.is_needed and not session.is_over:
            if not select.select([session.venue.ready], [], [], PAUSE)[0]:
                continue
            with self.may:  # Else it is an answer, for which the request waits.
                if self.is_needed and not session.is_over and select.select([session.venue.ready], [], [], 0)[0]:
                    print(flush=True)
                    self.trader.show(session.messages(0))
                    print(f"{self.prompt}{self.edited()}", end="", flush=True)
                    if session.is_over:
                        signal.pthread_kill(threading.main_thread().ident, signal.SIGUSR1)


def edited_line(trader: Trader, prompt: str, meanwhile: Meanwhile) -> str | None:
    """A line, or None at the end of the input or of the session, which ends a line that is edited, and nothing else."""
    try:
        try:
            meanwhile.is_edited = True  # In front of the look: who is told of an end behind it is edited.
            return None if trader.session.is_over else input(prompt)
        finally:
            meanwhile.is_edited = False
    except (EOFError, Over):
        return None


def edited_lines(trader: Trader, prompt: str) -> Iterator[str]:
    """The lines of a terminal, edited with the keys of readline. Reports that come meanwhile are shown."""
    import readline  # (here, since no other command wants it)

    meanwhile = Meanwhile(trader, prompt, readline.get_line_buffer)
    def is_over(*_: object) -> None:
        if meanwhile.is_edited:
            raise Over
    signal.signal(signal.SIGUSR1, is_over)
    meanwhile.start()
    try:
        while (line := edited_line(trader, prompt, meanwhile)) is not None:
            with meanwhile.may:
                yield line
        print()
    finally:
        with meanwhile.may:
            meanwhile.is_needed = False  # What comes now is for who asked for these lines.


def has_readline() -> bool:
    """Whether lines can be edited here."""
    try:
        return sys.stdin.isatty() and sys.stdout.isatty() and bool(__import__("readline"))
    except ImportError:
        return False


def own_venue(given: argparse.Namespace) -> Trader:
    """The trader of C1 at a venued of its own, which serves the journal."""
    if given.member != 1:
        raise Trouble("without --port only the member 1 is served")
    need(VENUED, REPLAY)
    journal = given.journal or OWN_JOURNAL
    new = "" if os.path.exists(journal) else "new "
    traded = symbols.chosen(journal, given.symbols, OWN_SYMBOLS)
    orders = recorded(journal, "C1", traded)
    symbols.keep(journal, traded)
    print(f"The {new}journal {journal}, for {' '.join(traded)}.", flush=True)
    return Trader(Session(Venue(journal, traded), "C1", given.fix), orders)


def listening_venue(given: argparse.Namespace) -> Trader:
    """The trader of a member at a venue that listens: gateway K has the port PORT + K - 1."""
    member = f"C{given.member}"
    if given.journal:
        files.need_journal(given.journal)
        orders = recorded(given.journal, member, symbols.known(given.journal, given.symbols) or OWN_SYMBOLS)
    else:
        orders = Orders(time.time_ns() // 1_000_000, " that this session knows of")
    port = given.port + given.member - 1
    trader = Trader(Session(Connection(port), member, given.fix), orders)
    print(f"The member {member}, at port {port}.", flush=True)
    return trader


def asked(trader: Trader) -> Iterator[str]:
    """The lines of standard input: of a terminal, or of a file or a pipe."""
    if has_readline():
        return edited_lines(trader, PROMPT)
    return lines(trader, PROMPT if sys.stdin.isatty() else "")


def add_words(parser: argparse.ArgumentParser) -> None:
    option = parser.add_argument
    option("--port", type=port_of, help="the PORT of a venue that listens, which is its first gateway's")
    option("--member", type=int, choices=range(1, 9), default=1, metavar="K", help="the member, 1 to 8; 1, if left out")
    option("--journal", help=f"the journal's file; without --port {OWN_JOURNAL} in this folder, if left out")
    option("--symbols", type=symbols.given_as, metavar="ABC,XYZ",
           help="the journal's symbols, in their order; those that are kept beside it, or ABC, if left out")
    option("--fix", action="store_true", help="show each message as FIX too, sent (>) and received (<)")
    option("words", nargs="*", help="one request, as above")


def run(given: argparse.Namespace) -> int:
    """Does what the command line or standard input says, and answers the status."""
    try:
        trader = (listening_venue if given.port else own_venue)(given)
        trader.log_on()
        for line in [" ".join(given.words)] if given.words else asked(trader):
            if not trader.do(line):
                break
        return trader.end()
    except KeyboardInterrupt:
        raise Trouble("interrupted; what the venue acknowledged stands in the journal") from None
