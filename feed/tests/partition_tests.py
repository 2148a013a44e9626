"""Networks that part servers, feed and readers from one another, in several ways: servers and feed have hosts of their own."""
import contextlib
import tempfile
import threading
import time
from collections.abc import Callable, Iterator

from fence_tests import figures
from feeds import COUNT, IS_LONG, All, Feed, Servers, Traders, Trouble, configured, expect_same, expect_streams, has, kill_all, lines_of
from feeds import nats, settings_of, sure, venue_and_traders, wait_for
from networks import Host, Networks, can_be_had

PORT = 8100   # Of the feed's page, on its host.
A_LOOK = 0.1  # Seconds between two looks of a reader.
SHOWN = 10    # Lines of the feed, where something fails.


@contextlib.contextmanager
def apart() -> Iterator[Networks]:
    """Within this the servers are three on hosts of their own: the networks, which have two hosts more."""
    before, networks = All.servers, Networks(COUNT + 2)
    with tempfile.TemporaryDirectory(prefix="feed-apart-") as folder:
        try:
            All.servers = Servers(folder, networks.hosts[:COUNT])
            yield networks
        finally:
            kill_all()
            sure(All.servers).end()
            All.servers = before
            networks.end()


class Reader(threading.Thread):
    """Reads the events by one server from the first one on, however often the connection ends: their texts."""

    def __init__(self, name: str, number: int) -> None:
        super().__init__(daemon=True)
        self.texts: list[str] = []
        self.name_of_feed, self.number, self.is_over = name, number, False
        self.start()

    def run(self) -> None:
        while not self.is_over:
            with contextlib.suppress(nats.Unheard):
                self.read(sure(All.servers).connection_to(self.number, "machines", self.name_of_feed))

    def read(self, connection: nats.Connection) -> None:
        try:
            stream = nats.Stream(connection, f"venue_{self.name_of_feed}_events", f"venue.{self.name_of_feed}.events.*", len(self.texts) + 1)
            while not self.is_over:
                came = next_of(stream)
                time.sleep(0 if came else A_LOOK)
                for it in came:
                    if it.number != len(self.texts) + 1:
                        raise Trouble(f"message {it.number} came behind {len(self.texts)}")
                    self.texts.append(it.text)
        finally:
            connection.end()

    def end(self, lines: list[str]) -> None:
        """What it read is to be these lines, once it has read so many."""
        wait_for(f"{len(lines)} events by server {self.number + 1}", lambda: len(self.texts) >= len(lines) or not self.is_alive())
        self.is_over = True
        self.join()
        expect_same(f"event by server {self.number + 1}", self.texts, lines)


def next_of(stream: nats.Stream) -> list[nats.Message]:
    """The next messages of a stream. One that a server lacks for long, and that others have, may come later."""
    try:
        return stream.come()
    except nats.Trouble as why:
        raise nats.Unheard(f"{why}") from None


class Parted:
    """A feed behind a venue, its servers and readers, which networks part."""

    def __init__(self, networks: Networks, name: str, fed: Feed, traders: Traders) -> None:
        *self.servers, self.feed, self.reader = networks.hosts
        self.networks, self.name, self.fed, self.traders = networks, name, fed, traders

    def leader(self) -> int:
        return configured().leader(self.name)

    def others(self, *numbers: int) -> list[Host]:
        return [it for number, it in enumerate(self.servers) if number not in numbers]

    def is_publishing(self) -> bool:
        with self.feed.network():
            return figures(PORT)["gikvand_feed_publishes"] == "1"

    def go_on(self, but: int) -> None:
        """Events come to the streams while the networks are parted, as another server says than the one that is alone."""
        self.traders.pairs(50)
        count = len(lines_of())
        wait_for("events beside a server that is alone", lambda: has("machines", self.name, "events", count, but=but))

    def stand_still(self) -> None:
        """No events can come to the streams: the feed finds out."""
        self.traders.pairs(50)
        wait_for("a feed that waits", lambda: not self.is_publishing())

    def play(self, cut: Callable[["Parted"], None]) -> None:
        """Parts the networks so, and joins them again: the streams have all events then."""
        try:
            cut(self)
            self.networks.join()
            self.traders.pairs(20)
            expect_streams(self.name, lines_of())
        except Trouble as why:
            raise Trouble(f"{cut.__name__}: {why}; the feed said {self.fed.lines[-SHOWN:]}") from None


def server_alone(it: Parted) -> None:
    """The server that the feed is connected to reaches no other one, and the feed reaches all."""
    number = configured().server_of(it.fed)
    it.networks.part([it.servers[number]], it.others(number))
    it.go_on(number)
    left = ("leaves a server that answers nothing", "is connected again")  # (a server that stood still besides has lost it before)
    wait_for("a feed that says why it is elsewhere", lambda: any(why in line for line in it.fed.lines for why in left))


def with_the_leader(it: Parted) -> None:
    """The feed and the leader of the events reach one another, and nobody else."""
    number = it.leader()
    it.networks.part([it.servers[number], it.feed], it.others(number))
    it.stand_still()


def feed_alone(it: Parted) -> None:
    """The feed reaches no server."""
    it.networks.part([it.feed], it.servers)
    it.stand_still()


def each_alone(it: Parted) -> None:
    """No server reaches another one."""
    it.networks.part(*([one] for one in it.servers))
    it.stand_still()


def leader_alone(it: Parted) -> None:
    """The leader of the events reaches nobody."""
    number = it.leader()
    it.networks.part([it.servers[number]], [*it.others(number), it.feed])
    it.go_on(number)


def one_cable(it: Parted) -> None:
    """Two servers don't reach one another, and the third one reaches both."""
    number = it.leader()
    it.networks.part([it.servers[number]], it.others(number)[:1])
    it.traders.pairs(50)


def test_partitions() -> None:
    """Networks that part servers and feed: no reader at any server finds an event doubled, lost or out of order, the feed goes on where
    two servers reach one another and the feed, and all streams have all once the networks are whole."""
    with apart() as networks:
        name, (_, traders) = next(All.names), venue_and_traders()
        configured().mend()
        it = Parted(networks, name, Feed(settings_of(name, HttpAcceptPort=PORT), *networks.hosts[COUNT].words()), traders)
        with it.reader.network():
            traders.pairs(20)
            expect_streams(name, lines_of())
            readers = [Reader(name, number) for number in range(COUNT)]
            try:
                for cut in CUTS if IS_LONG else CUTS[:2]:
                    it.play(cut)
                for reader in readers:
                    reader.end(lines_of())
            finally:
                for reader in readers:
                    reader.is_over = True


CUTS = [server_alone, with_the_leader, feed_alone, each_alone, leader_alone, one_cable]
TESTS = [test_partitions]
if not can_be_had():
    TESTS.clear()
    print("feed/check: no network is parted: that is for root, where namespaces can be had", flush=True)
