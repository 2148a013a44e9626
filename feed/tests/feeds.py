"""A feed behind a venue, and three NATS servers, for tests: what runs, what it is told, and what the streams have."""
import contextlib
import fcntl
import itertools
import json
import os
import random
import re
import signal
import socket
import struct
import subprocess
import sys
import termios
import threading
import time
from collections.abc import Callable, Iterable, Iterator, Sequence
from typing import Any

ROOT = os.path.dirname(os.path.dirname(os.path.dirname(os.path.abspath(__file__))))
sys.path[:0] = [os.path.join(ROOT, "dev"), os.path.join(ROOT, "edge/tests")]

import with_scripts  # (in front of what stands there, and of what an older Python can't read)
from edges import Edge, freeze, processes_below
from gikvand import nats
from gikvand.fix import value
from gikvand.words import sure
from networks import Host
from venues import EVENTS, HOST, PATIENCE, TIME, Client, Late, RanOut, Trouble, free_port, message, order, running, started
from venues import Venue, kill_all  # (for those that import this module)

FEED = os.path.abspath(os.environ.get("GIKVAND_FEED", os.path.join(ROOT, "feed/out/gikvand-feed")))
SERVERS = os.environ.get("FEED_SERVERS", os.path.join(ROOT, "feed/servers"))
JOURNAL, SYMBOLS, MEMBERS = "venue.journal", ("ABC", "XYZ"), 2
MARKET = ("market", "other")  # Who reads trades and books.
CONNECTIONS = 24         # That a reader's account may have.
PARTS = ("events", "trades", *(f"member_C{k}" for k in range(1, MEMBERS + 1)), "book")  # Streams of a feed.
COUNT = 3                # Servers.
ESTABLISHED = "01"       # A connection, in /proc/net/tcp.
POLL = "7"               # The call of the system in which a thread waits for whatever comes.
NO_STREAM = 10059        # What the servers say of a stream that isn't there.
PATIENT = 3 * PATIENCE   # Seconds for servers that come back: they take half a minute on a machine with other work.
SOON = 30                # Seconds for what may never come, where a slow machine let something else come first.
IS_LONG = "FEED_LONG" in os.environ
NAMES = [f"day{it}" for it in range(80)]  # Of the feeds of all tests, one behind the other, some of which are tried again.


def held(port: int) -> socket.socket:
    """Keeps a port for who listens there by its number, also while that is down: others who look for a free one pass it over."""
    it = socket.socket()
    it.setsockopt(socket.SOL_SOCKET, socket.SO_REUSEADDR, 1)
    it.bind((HOST, port))
    return it


class Servers:
    """Three servers on this machine, as feed/servers configures them: on loopback, or on hosts of networks.py."""

    def __init__(self, folder: str, hosts: Sequence[Host] = ()) -> None:
        self.folder, first = folder, 4222 if hosts else free_port(2 * COUNT)
        self.ports = [first + it for it in range(COUNT)]
        self.held = [] if hosts else [held(first + it) for it in range(2 * COUNT)]
        self.addresses, self.fronts = [it.address for it in hosts] or [HOST] * COUNT, [it.words() for it in hosts] or [[]] * COUNT
        places = [f"{address}:{port}:{port + COUNT}" for address, port in zip(self.addresses, self.ports)]
        subprocess.run([SERVERS, *NAMES, "--hosts", *places, "--output", folder, "--members", str(MEMBERS), "--market", *MARKET,
                        "--connections", str(CONNECTIONS)], check=True)
        with open(os.path.join(folder, "passwords"), encoding="ascii") as file:
            self.passwords = dict(line.rstrip("\n").split(":", 1) for line in file)
        self.processes: list[subprocess.Popen[bytes] | None] = [None] * COUNT

    def start(self, number: int, *by: str) -> None:
        """Starts one that doesn't run, by what becomes it where more words stand in front."""
        place = os.path.join(self.folder, f"server-{number + 1}")
        words = [*self.fronts[number], *by, "nats-server", "-c", "nats-server.conf"]
        with open(os.path.join(place, "log"), "ab") as log:
            self.processes[number] = subprocess.Popen(words, cwd=place, stdout=log, stderr=log, start_new_session=True)

    def bound(self, number: int, most: int | None = None) -> None:
        """Lets one that doesn't run keep so many bytes of streams and no more, or what its disk has room for."""
        path = os.path.join(self.folder, f"server-{number + 1}/nats-server.conf")
        with open(path, encoding="ascii") as file:
            text = re.sub(", max_file: [0-9]+", "", file.read())
        with open(path, "w", encoding="ascii") as file:
            file.write(text.replace('store"}', f'store", max_file: {most}}}' if most else 'store"}'))

    def log(self, number: int) -> str:
        """What one has said since it was first started."""
        with open(os.path.join(self.folder, f"server-{number + 1}/log"), encoding="utf-8", errors="replace") as file:
            return file.read()

    def process(self, number: int) -> subprocess.Popen[bytes]:
        """The process of one that was started."""
        return sure(self.processes[number])

    def started(self) -> list[subprocess.Popen[bytes]]:
        """The processes of all, which were started."""
        return [self.process(number) for number in range(COUNT)]

    def kill(self, number: int) -> None:
        self.process(number).kill()
        self.process(number).wait()

    def stand(self, number: int, still: bool = True) -> None:
        """Lets a server stand still, in all its threads, or go on."""
        if still:
            freeze(self.process(number).pid)
        else:
            self.process(number).send_signal(signal.SIGCONT)

    def mend(self) -> None:
        """Starts what doesn't run, and lets go on what stands still."""
        for number, process in enumerate(self.processes):
            if process and process.poll() is None:
                self.stand(number, False)
            else:
                self.start(number)

    def end(self) -> None:
        for number, process in enumerate(self.processes):
            if process:
                self.kill(number)
        for it in self.held:
            it.close()

    def place(self, user: str, name: str, number: int = 0) -> nats.Place:
        """A server, as a reader names it."""
        return nats.Place(self.addresses[number], self.ports[number], True, user, self.passwords[user], name)

    def urls(self, last: int = COUNT - 1) -> str:
        """The servers in their order, but this one last."""
        numbers = [*(it for it in range(COUNT) if it != last), last]
        return " ".join(f"tls://{self.addresses[it]}:{self.ports[it]}" for it in numbers)

    def connection(self, user: str, name: str, but: int | None = None) -> nats.Connection:
        """A connection to any of them that answers, but for one that stands still."""
        why: nats.Unheard | None = None
        for number in range(COUNT):
            if number != but and self.process(number).poll() is None:
                try:
                    return self.connection_to(number, user, name)
                except nats.Unheard as unheard:
                    why = unheard
        raise why or nats.Unheard("no server runs")

    def connection_to(self, number: int, user: str, name: str) -> nats.Connection:
        return nats.Connection(self.place(user, name, number), os.path.join(self.folder, "ca.pem"))

    def server_of(self, fed: Edge) -> int:
        """The number of the server that a feed is connected to, once it is to one."""
        found: list[int] = []
        own = f"/proc/{fed.process.pid}"
        def look() -> bool:
            sockets = set()
            for it in os.listdir(f"{own}/fd"):
                with contextlib.suppress(FileNotFoundError):  # It was closed meanwhile.
                    sockets.add(os.readlink(f"{own}/fd/{it}"))
            with open(f"{own}/net/tcp", encoding="ascii") as file:
                rows = [line.split() for line in file]
            ends = [int(row[2].partition(":")[2], 16) for row in rows if row[3] == ESTABLISHED and f"socket:[{row[9]}]" in sockets]
            found[:] = [self.ports.index(it) for it in ends if it in self.ports]
            return len(found) == 1
        wait_for("a feed that is connected", look)
        return found[0]

    def asked(self, name: str, subject: str, body: bytes = b"") -> bytes:
        """The text of the answer to a request. One may be lost between the servers, and isn't answered then."""
        connection = self.connection("feed", name)
        try:
            connection.send(connection.ask(subject, body, 0))
            return connection.answer()[2]
        finally:
            connection.end()

    def delete(self, name: str, *parts: str) -> None:
        """Deletes streams of a feed, and asks again until the servers have said that they are gone."""
        def is_gone(part: str) -> bool:
            told = json.loads(self.asked(name, f"$JS.API.STREAM.DELETE.venue_{name}_{part}") or b"{}")
            return bool(told.get("success")) or told.get("error", {}).get("err_code") == NO_STREAM
        for it in parts:
            wait_for(f"the stream of {it} deleted", lambda: is_gone(it))

    def leader(self, name: str) -> int:
        """The number of the server that leads the stream of events of a feed, once one does."""
        found: list[int] = []

        def look() -> list[int]:
            told = json.loads(self.asked(name, f"$JS.API.STREAM.INFO.venue_{name}_events") or b"{}").get("cluster", {}).get("leader")
            found[:] = [self.ports.index(int(told.rpartition(":")[2]))] if told else []
            return found
        wait_for("a server that leads", look)
        return found[0]

    def has_none(self, name: str, part: str) -> bool:
        """Whether the servers say that there is no such stream."""
        told = json.loads(self.asked(name, f"$JS.API.STREAM.INFO.venue_{name}_{part}") or b"{}")
        return bool(told.get("error", {}).get("err_code") == NO_STREAM)

    def info(self, name: str, part: str) -> Any:
        """What the servers say of a stream, once they do."""
        found: list[Any] = []
        def look() -> list[Any]:
            told = json.loads(self.asked(name, f"$JS.API.STREAM.INFO.venue_{name}_{part}") or b"{}")
            found[:] = [told] if "state" in told else []
            return found
        wait_for(f"the stream of {part}", look)
        return found[0]

    def leader_of_all(self) -> int:
        """The number of the server that leads the servers, once one does."""
        found: list[int] = []
        def look() -> list[int]:
            connection = self.connection("sys", "")
            try:
                connection.send(connection.ask("$SYS.REQ.SERVER.PING.JSZ", b"", 0))
                told = json.loads(connection.answer()[2])["data"].get("meta_cluster", {}).get("leader")
            finally:
                connection.end()
            found[:] = [self.number_of(told)] if told else []
            return found
        wait_for("a server that leads all", look)
        return found[0]

    def number_of(self, leader: str) -> int:
        """The number of a server by its name."""
        return self.ports.index(int(leader.rpartition(":")[2]))

    def has_all(self, number: int, name: str) -> bool:
        """Whether a server has all of the streams of a feed, as those say that lead them."""
        for it in PARTS:
            told = self.info(name, it)["cluster"]
            behind = [one for one in told.get("replicas", []) if self.number_of(one["name"]) == number]
            if told.get("leader") and not all(one["current"] and not one.get("lag") for one in behind):
                return False
        return True

    def forget(self, name: str) -> None:
        """Deletes the streams of a feed."""
        with contextlib.suppress(nats.Unheard):
            connection = self.connection("feed", name)
            for it in PARTS:
                connection.send(connection.ask(f"$JS.API.STREAM.DELETE.venue_{name}_{it}", b"", 0))
                connection.answer()
            connection.end()


class All:
    """What the tests have in common: the servers, which the first test starts, and the names of feeds."""
    servers: Servers | None = None
    names = iter(NAMES)


def configured() -> Servers:
    """The servers, which may not run yet."""
    if not All.servers:
        All.servers = Servers(os.environ["FEED_FOLDER"])
    return All.servers


def servers() -> Servers:
    """The servers, all of which run."""
    it = configured()
    it.mend()
    return it


def settings_of(name: str, **more: object) -> str:
    """The text of a settings file. One that is None is left out."""
    it = configured()
    common = {"VenueJournal": JOURNAL, "VenueEvents": EVENTS, "Symbols": " ".join(SYMBOLS), "Members": MEMBERS, "FeedName": name,
              "Servers": it.urls(), "Username": "feed",
              "PasswordFile": os.path.join(it.folder, "passwords"), "CaFile": os.path.join(it.folder, "ca.pem"), "TakeOver": 500}
    return "".join(f"{key}={wanted}\n" for key, wanted in {**common, **more}.items() if wanted is not None)


class Feed(Edge):
    """A gikvand-feed that was told to start, in the present folder. Its lines are heard as those of an edge are."""

    def __init__(self, settings: str, *by: str) -> None:
        words = (*by, FEED)
        super().__init__(settings, words[0], words[1:])

    def hears(self, text: str, seconds: float = PATIENT, or_counts: str | None = None) -> str:
        return super().hears(text, seconds, or_counts)

    def stand(self) -> None:
        """Lets it stand still, in all its threads: from now on it reads and publishes nothing."""
        freeze(self.process.pid)

    def stand_idle(self) -> None:
        """The same where it waits for whatever comes, and not for the answer to a question, which would come too late then."""
        def is_idle() -> bool:
            self.stand()
            with open(f"/proc/{self.process.pid}/syscall", encoding="ascii") as file:
                if file.read().split()[0] == POLL:
                    return True
            self.go_on()
            return False
        wait_for("a feed that waits for whatever comes", is_idle)

    def go_on(self) -> None:
        self.process.send_signal(signal.SIGCONT)

    def need_said(self, text: str) -> None:
        """Fails where it hasn't said by now what it has done before. Where the servers answered behind its patience it doesn't hear that
        they did what it asked for, and says nothing."""
        if not any(text in line for line in self.lines):
            raise Late(f"no line of the feed has {text!r}; it said {self.lines[-12:]}")

    def has_unread(self) -> bool:
        """Whether events are at hand that it hasn't read."""
        for pid, _ in processes_below(self.process.pid):
            with open(f"/proc/{pid}/fd/1", "rb", buffering=0) as pipe:
                return struct.unpack("i", fcntl.ioctl(pipe, termios.FIONREAD, bytes(4)))[0] > 0
        return False


def feed(name: str, **more: object) -> Feed:
    """A feed of this name, in front of servers that run."""
    servers()
    return Feed(settings_of(name, **more))


@contextlib.contextmanager
def named() -> Iterator[str]:
    """The name of a feed of its own, whose streams are deleted behind the test."""
    name = next(All.names)
    try:
        yield name
    finally:
        while running:
            running.pop().kill()
        servers().forget(name)


class Traders:
    """Two members who trade: what rests is taken, for the most part, so that the book stays small."""

    def __init__(self, port: int, seed: int) -> None:
        self.chance, self.name, self.port = random.Random(seed), 0, port
        self.clients: list[Client] = []
        self.connect()

    def connect(self) -> None:
        """Logs on, as behind a venue that was started anew."""
        self.clients = [Client(self.port, k).log_on() for k in (1, 2)]

    def pairs(self, count: int) -> None:
        """Each member sends so many orders, of which one of each pair rests and the other takes; what is told is waited for."""
        bodies: list[list[str]] = [[], []]
        for _ in range(count):
            symbol, price = self.chance.choice(SYMBOLS), self.chance.randint(40, 60)
            buyer, quantity = self.chance.randint(0, 1), self.chance.randint(1, 100)
            self.name += 1
            bodies[buyer].append(order(self.name, 1, quantity, price, symbol))
            bodies[1 - buyer].append(order(self.name, 2, quantity if self.chance.random() < 0.98 else 101, price, symbol))
        for client, each in zip(self.clients, bodies):
            data = b""
            for body in each:
                client.number += 1
                data += message(client.member, client.number, "D", body)
            threading.Thread(target=client.send_bytes, args=(data,), daemon=True).start()
        for client, each in zip(self.clients, bodies):
            acknowledged = 0
            while acknowledged < len(each):
                came = client.next()
                if came is None:
                    raise Trouble("the venue is gone")
                acknowledged += value(came, "35") == "8" and value(came, "150") in ("0", "8")

    def alone(self, count: int) -> None:
        """The first member sends so many orders that rest, each behind the answer to the one before."""
        client = self.clients[0]
        for _ in range(count):
            self.name += 1
            client.send("D", order(self.name, 1, 5, 1))
            while value(came := client.next() or "nothing", "11") != str(self.name):  # (fills of before may come, too)
                if came == "nothing":
                    raise Trouble("the venue is gone")


def venue_and_traders(seed: int = 1) -> tuple[Venue, Traders]:
    """A venue that serves two members, and these."""
    venue = started(JOURNAL, MEMBERS, SYMBOLS)
    return venue, Traders(venue.port, seed)


# What prints a journal in place of venue-events, where a test makes the events up: the file has the lines themselves.
MADE_EVENTS = "#!/bin/sh\nexec tail -n +1 -s 0.02 -f \"$1\"\n"


class Made:
    """A journal of made-up events, for feeds alone: pairs of orders of two members that trade, eight events each."""

    def __init__(self, path: str, *before: str) -> None:
        self.path, self.lines = path, list(before)
        with open(path, "w", encoding="ascii") as file:
            file.writelines(f"{it}\n" for it in before)

    def add(self, pairs: int, quantity: int, symbols: Sequence[str] = SYMBOLS) -> None:
        """Adds so many pairs, each of this quantity, in one piece."""
        self.write([line for _ in range(pairs) for symbol in symbols for line in self.pair(symbol, quantity)])

    def tell(self, member: int, count: int) -> None:
        """Adds so many reports to one member alone, in one piece."""
        place = sum(it.startswith("output ") for it in self.lines)
        new = [f"output {place + at} C{member} 35=8|52={TIME}|17={place + at + 1}|150=0|" for at in range(count)]
        self.lines += new
        self.write(new)

    def write(self, new: list[str]) -> None:
        with open(self.path, "a", encoding="ascii") as file:
            file.write("".join(f"{it}\n" for it in new))

    def pair(self, symbol: str, quantity: int) -> list[str]:
        command = sum(it.startswith("command ") for it in self.lines)
        place = sum(it.startswith("output ") for it in self.lines)
        report = f"11={command}|55={symbol}|38={quantity}|44=50|"
        of = f"35=8|52={TIME}|37={command + 1}|17={place + 1}|"
        new = [f"command {command} C1 D {symbol} -", f"output {place} C1 {of}150=0|39=0|54=1|{report}", f"level {symbol} 1 50 {quantity} 1",
               f"command {command + 1} C2 D {symbol} -", f"output {place + 1} C2 {of}150=0|39=0|54=2|{report}",
               *(f"output {place + 1 + k} C{k} {of}150=F|39=2|54={k}|32={quantity}|31=50|{report}" for k in (1, 2)),
               f"level {symbol} 1 50 0 0"]
        self.lines += new
        return new

    def feed(self, name: str, **more: object) -> "Feed":
        """A feed of this journal, in front of servers that run."""
        servers()
        return Feed(self.settings(name, **more))

    def settings(self, name: str, **more: object) -> str:
        """The settings of such a feed."""
        with open(program := os.path.abspath("made-events"), "w", encoding="ascii") as file:
            file.write(MADE_EVENTS)
        os.chmod(program, 0o755)
        return settings_of(name, VenueJournal=os.path.abspath(self.path), VenueEvents=program, **more)


def lines_of(journal: str = JOURNAL) -> list[str]:
    """The events of the journal: what venue-events prints."""
    return subprocess.run([EVENTS, journal, "once", *SYMBOLS], capture_output=True, text=True, check=True).stdout.splitlines()


def subject_of(part: str) -> str:
    """The end of the subject of a stream: that of the events has a word more, of the feed which publishes."""
    return f"{part}.*" if part == "events" else part


def texts(user: str, name: str, part: str, count: int, subject: str | None = None, first: int = 1) -> list[nats.Message]:
    """All messages of a stream from a number on, of which there are so many at least. A server may be behind the others, or lack
    one that it had told of as the newest by another, and one that comes back may not answer yet: what it hasn't told is asked of
    the servers anew, as a reader would."""
    found: list[nats.Message] = []
    end = time.monotonic() + PATIENT
    while True:
        try:
            read_on(found, user, name, part, subject or subject_of(part), count, first, end)
            return found
        except nats.Trouble:
            if time.monotonic() > end:
                raise


def read_on(found: list[nats.Message], user: str, name: str, part: str, subject: str, count: int, first: int, end: float) -> None:
    """Adds the messages behind those that were found, by one connection, until there are so many, or it is too late."""
    connection = configured().connection(user, name)
    try:
        stream = nats.Stream(connection, f"venue_{name}_{part}", f"venue.{name}.{subject}", first + len(found))
        while (came := stream.come()) or len(found) < count and time.monotonic() < end:
            found += came
    finally:
        connection.end()


def has(user: str, name: str, part: str, count: int, subject: str | None = None, but: int | None = None) -> bool:
    """Whether a stream has so many messages by now, as a server says that doesn't stand still."""
    try:
        connection = configured().connection(user, name, but)
        try:
            newest = nats.Stream(connection, f"venue_{name}_{part}", f"venue.{name}.{subject or subject_of(part)}").newest()
        finally:
            connection.end()
    except nats.Unheard:
        return False
    return (newest.number if newest else 0) >= count


def most_memory(process: subprocess.Popen[bytes] | subprocess.Popen[str]) -> float:
    """The greatest memory that a process had, in MB."""
    with open(f"/proc/{process.pid}/status", encoding="ascii") as file:
        return next(int(line.split()[1]) for line in file if line.startswith("VmHWM:")) / 1024


def wait_for(what: str, holds: Callable[[], object], seconds: float = PATIENT) -> None:
    """Waits until something holds. Servers that aren't heard are asked again: they may come back, or have lost a request."""
    end = time.monotonic() + seconds
    while True:
        why = ""
        try:
            if holds():
                return
        except nats.Unheard as unheard:
            why = f": {unheard}"
        if time.monotonic() > end:
            raise RanOut(f"{what}: not within {seconds} seconds{why}")
        time.sleep(0.1)


def wait_soon(what: str, holds: Callable[[], object]) -> None:
    """Waits until something holds that holds soon, unless a slow machine lets something else come first: then that was too late."""
    try:
        wait_for(what, holds, SOON)
    except Trouble as why:
        raise Late(str(why)) from None


def expect_same(what: str, came: Sequence[object], wanted: Sequence[object]) -> None:
    """Fails where a list isn't the wanted one, by the first place."""
    for number, (one, other) in enumerate(itertools.zip_longest(came, wanted), 1):
        if one != other:
            raise Trouble(f"{what} {number} of {len(wanted)}: {one!r} came, and not {other!r}; {len(came)} came")


def trades_of(lines: Iterable[str]) -> list[str]:
    """The trades that events tell, each by its two reports: the subject's last word and the text."""
    fills = [(number, line) for number, line in enumerate(lines, 1) if line.startswith("output ") and "|150=F|" in line]
    found = []
    for (_, first), (number, second) in zip(fills[::2], fills[1::2]):
        told = dict(it.split("=", 1) for it in second.split(" ", 3)[3].rstrip("|").split("|"))
        found.append(f"trade {number} {first.split()[1]} {told['55']} {told['31']} {told['32']} {told['54']} {told['52']}")
    return found


def levels_of(lines: Iterable[str], symbol: str, depth: int = 10) -> str:
    """The levels of a symbol that events lead to, as a book tells them."""
    sides: dict[str, dict[int, tuple[str, str]]] = {"1": {}, "2": {}}
    for line in lines:
        kind, *words = line.split(" ")
        if kind == "level" and words[0] == symbol:
            _, side, price, quantity, orders = words
            sides[side][int(price)] = (quantity, orders)
            if quantity == "0":
                del sides[side][int(price)]
    def told(side: str, backward: bool) -> str:
        return "".join(f" {price}:{':'.join(sides[side][price])}" for price in sorted(sides[side], reverse=backward)[:depth])
    return f"{symbol} buys{told('1', True)} sells{told('2', False)}"


def expect_streams(name: str, lines: list[str], members: int = MEMBERS) -> None:
    """Fails unless all streams have what these events tell, each once and in order, where so many members have a drop copy."""
    wait_for(f"{len(lines)} events", lambda: has("machines", name, "events", len(lines)))
    came = texts("machines", name, "events", len(lines))
    expect_same("event", [it.text for it in came], lines)
    expect_same("number", [it.number for it in came], list(range(1, len(lines) + 1)))
    trades = trades_of(lines)
    wait_for(f"{len(trades)} trades", lambda: not trades or has("market", name, "trades", len(trades), "trades.*"))
    expect_same("trade", [it.text for it in texts("market", name, "trades", len(trades), "trades.*")], trades)
    for k in range(1, members + 1):
        told = [it for it in lines if it.startswith("output ") and it.split(" ", 3)[2] == f"C{k}"]
        wait_for(f"{len(told)} reports", lambda: not told or has(f"C{k}", name, f"member_C{k}", len(told), f"member.C{k}"))
        expect_same(f"report to C{k}", [it.text for it in texts(f"C{k}", name, f"member_C{k}", len(told), f"member.C{k}")], told)
    for symbol in SYMBOLS:
        if any(it.startswith(f"level {symbol} ") for it in lines):
            expect_book(name, lines, symbol)


def book(name: str, symbol: str) -> tuple[int, str]:
    """The newest book of a symbol: its event, and its levels."""
    connection = configured().connection("market", name)
    try:
        found = nats.Stream(connection, f"venue_{name}_book", f"venue.{name}.book.{symbol}").newest()
    finally:
        connection.end()
    if not found:
        return 0, ""
    _, event, levels = found.text.split(" ", 2)
    return int(event), levels


def expect_book(name: str, lines: list[str], symbol: str) -> None:
    """Waits for the book of all these events."""
    wanted = levels_of(lines, symbol)
    wait_for(f"the book of {symbol} as {wanted}", lambda: book(name, symbol)[1] == wanted)
