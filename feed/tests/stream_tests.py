"""What the streams have is what venue-events prints, whatever is killed, stands still or was lost."""
import collections
import os
import random
import shutil
import threading
import time

import disks
from disks import Disk
from feeds import COUNT, IS_LONG, JOURNAL, MEMBERS, PATIENT, SYMBOLS, Traders, Trouble, Venue, expect_same, expect_streams, feed, has
from feeds import lines_of, named, nats, servers, venue_and_traders, wait_for

SHOWN = 10          # Lines of a feed, where something fails.
ROOM = 8 << 20      # Bytes of room on a small disk,
LEFT = 256 << 10    # and what is left where others fill it:
ROUNDS = 2          # so many rounds of trade take more,
TRADED = 500        # each of so many pairs,
BOUND = 1 << 20     # and more than these, to which a server is bound.
OUTAGE = 8          # Seconds of an outage in which nothing is said, once each reason was.
ALONE = 90          # Seconds in which two servers go on without the third, where they can.


def test_streams() -> None:
    """Events, trades, books and drop copies of a venue that trades, also behind a stop of the feed, and of the venue."""
    with named() as name:
        venue, traders = venue_and_traders()
        traders.pairs(200)
        it = feed(name)
        it.hears("publishes behind event 0")
        traders.pairs(200)
        expect_streams(name, lines_of())
        it.stop()
        traders.pairs(100)
        venue.stop()
        it = feed(name)
        expect_streams(name, lines_of())
        venue = Venue(venue.port, JOURNAL, MEMBERS, SYMBOLS)
        venue.ready()
        traders.connect()
        traders.pairs(50)
        expect_streams(name, lines_of())
        it.stop()


def test_no_drop_copies() -> None:
    """Without drop copies all else is there, and no stream of a member; once members have drop copies these are filled."""
    with named() as name:
        _, traders = venue_and_traders()
        traders.pairs(50)
        it = feed(name, Members=0)
        expect_streams(name, lines_of(), 0)
        wait_for("no stream of C1", lambda: servers().has_none(name, "member_C1"))
        it.stop()
        it = feed(name)
        expect_streams(name, lines_of())
        it.stop()


def test_numbers_fence() -> None:
    """A publish that names another number than the stream's end is refused, at its front, its end and behind it."""
    with named() as name:
        _, traders = venue_and_traders()
        it = feed(name)
        traders.pairs(5)
        expect_streams(name, lines_of())
        it.stop()
        end, subject = len(lines_of()), servers().info(name, "events")["config"]["subjects"][0]
        def is_refused(expected: int) -> bool:
            header = f"NATS/1.0\r\nNats-Expected-Last-Sequence: {expected}\r\n\r\n".encode()
            connection = servers().connection("feed", name)
            try:
                connection.send(b"HPUB %s %s.7 %d %d\r\n%sfalse\r\n" %
                                (subject.encode(), connection.inbox.encode(), len(header), len(header) + 5, header))
                answer = connection.answer()[2]
            finally:
                connection.end()
            if answer and b'"error"' not in answer:
                raise Trouble(f"a publish behind {expected} of {end} was answered by {answer!r}")
            return b"wrong last sequence" in answer  # (else no server has the stream now)
        for expected in (0, 1, end - 1, end + 1):
            wait_for(f"a publish behind {expected} refused", lambda: is_refused(expected))
        expect_streams(name, lines_of())


def go_on_alone(name: str) -> bool:
    """Whether two servers go on without the third. One that was killed before, and doesn't have all again yet, may need the third for
    that: NATS doesn't let it catch up by each one alone, so docs/FEED.md lets nobody end a server before that."""
    try:
        wait_for("events of two servers", lambda: has("machines", name, "events", len(lines_of())), ALONE)
    except Trouble:
        return False
    return True


def test_kills() -> None:
    """Feed, servers and venue are killed while members trade: each event is in its stream once, and in order."""
    with named() as name:
        chance, it, moments = random.Random(5), servers(), 60 if IS_LONG else 4
        venue, traders = venue_and_traders(5)
        fed, went_on = feed(name), list[bool]()
        each = 260 if IS_LONG else 150
        for moment in range(moments):
            worker = threading.Thread(target=traders.pairs, args=(each,))
            worker.start()
            time.sleep(chance.random())
            victim = chance.choice(["feed", "server", "server"]) if moment else "feed"
            if victim == "feed":
                fed.kill()
                fed = feed(name)
            else:
                it.kill(number := chance.randrange(COUNT))
            worker.join(PATIENT)
            if victim == "server":
                if chance.random() < 0.5:
                    went_on.append(go_on_alone(name))
                it.start(number)
            if moment % 3 == 2:
                venue.kill()
                venue = Venue(venue.port, JOURNAL, MEMBERS, SYMBOLS)
                venue.ready()
                traders.connect()
        expect_streams(name, lines_of())
        if went_on and not any(went_on):
            raise Trouble("no two servers went on without the third")


def test_all_servers_stop() -> None:
    """All three servers are stopped and started: the feed waits, says so once, and goes on."""
    with named() as name:
        _, traders = venue_and_traders()
        it, fed = servers(), feed(name)
        traders.pairs(50)
        expect_streams(name, lines_of())
        for number in range(COUNT):
            it.kill(number)
        before = len(fed.lines)
        traders.pairs(50)
        fed.hears("waits for a server: ")
        time.sleep(2)
        said = collections.Counter(line for line in fed.lines[before:] if "waits for a server" in line)
        it.mend()
        traders.pairs(50)
        expect_streams(name, lines_of())
        if max(said.values(), default=0) > 2:  # (an answer of a server before its end, that is read late, lets it say so again)
            raise Trouble(f"it said again and again that it waits: {said}")


def test_one_server() -> None:
    """One server is left of three: nothing is published, and the feed says so by each line once. It goes on once there are two."""
    with named() as name:
        _, traders = venue_and_traders()
        it, fed = servers(), feed(name)
        traders.pairs(20)
        expect_streams(name, lines_of())
        it.kill(0)
        it.kill(1)
        traders.pairs(20)
        fed.hears("waits for a server: ")
        fed.hears("leaves a server that answers nothing")
        def is_quiet() -> bool:
            """Whether it says nothing more. A server that doesn't know yet that it is alone may answer, and so let lines come again."""
            before = len(fed.lines)
            time.sleep(OUTAGE)
            return len(fed.lines) == before
        wait_for("a feed that has said all of an outage", is_quiet)
        it.start(0)
        expect_streams(name, lines_of())


def test_no_server() -> None:
    """Without a server the feed waits, says so once, and ends by a signal."""
    with named() as name:
        venue_and_traders()
        fed = feed(name, Servers="tls://127.0.0.1:1")
        fed.hears("waits for a server: ")
        time.sleep(2)
        if len(set(fed.lines)) < len(fed.lines):
            raise Trouble(f"it said {fed.lines}")
        fed.stop()


def test_server_stands_still() -> None:
    """A server that stands still, whichever it is: the others go on, and it catches up."""
    with named() as name:
        _, traders = venue_and_traders()
        it, _ = servers(), feed(name)
        traders.pairs(50)
        expect_streams(name, lines_of())
        for number in range(COUNT if IS_LONG else 1):
            it.stand(number)
            traders.pairs(50)
            count = len(lines_of())
            wait_for("events of two servers", lambda: has("machines", name, "events", count, but=number))
            it.stand(number, False)
            expect_streams(name, lines_of())


def go_on(what: str, name: str, traders: Traders, but: int | None = None) -> None:
    """Members trade, and the events come to the stream, as another server says than this one."""
    traders.pairs(TRADED)
    count = len(lines_of())
    wait_for(what, lambda: has("machines", name, "events", count, but=but))


def come_back(name: str, number: int) -> None:
    """Starts a server that was ended, and waits until it has all: no other one may end before that. What it has itself is that."""
    it = servers()  # (starts it)
    wait_for("a server that has all again", lambda: it.has_all(number, name))
    lines = lines_of()
    expect_streams(name, lines)
    expect_same(f"event of server {number + 1}", texts_of(name, number, len(lines)), lines)


def texts_of(name: str, number: int, count: int) -> list[str]:
    """The events that a server has itself: it answers of those without the others."""
    found: list[str] = []
    def are_read() -> bool:
        connection = servers().connection_to(number, "machines", name)
        try:
            stream = nats.Stream(connection, f"venue_{name}_events", f"venue.{name}.events.*", len(found) + 1)
            while came := stream.come():
                found.extend(it.text for it in came)
        finally:
            connection.end()
        return len(found) >= count
    wait_for(f"{count} events of server {number + 1}", are_read)
    return found


def test_full_store() -> None:
    """A server takes no more than it may: the others go on by themselves, and it has all once it may have more."""
    with named() as name:
        _, traders = venue_and_traders()
        it, fed = servers(), feed(name)
        traders.pairs(50)
        expect_streams(name, lines_of())
        small = (it.leader_of_all() + 1) % COUNT
        it.kill(small)
        it.bound(small, BOUND)
        try:
            it.start(small)
            for _ in range(ROUNDS):
                go_on("events beside a server that takes no more", name, traders, small)
            wait_for("a server that takes no more", lambda: "JetStream resource limits exceeded" in it.log(small))
            go_on("events beside a server that takes no more", name, traders, small)
        except Trouble as why:
            raise Trouble(f"{why}; the feed said {fed.lines[-SHOWN:]}") from None
        finally:
            it.kill(small)
            it.bound(small)
        come_back(name, small)


def test_no_store() -> None:
    """A server has lost its files: it comes back without any, and has all again."""
    with named() as name:
        _, traders = venue_and_traders()
        it, fed = servers(), feed(name)
        traders.pairs(50)
        expect_streams(name, lines_of())
        lost = (it.leader_of_all() + 1) % COUNT
        it.kill(lost)
        shutil.rmtree(os.path.join(it.folder, f"server-{lost + 1}/store"))
        try:
            go_on("events of two servers", name, traders, lost)
            come_back(name, lost)
            go_on("events of three servers", name, traders)
            expect_streams(name, lines_of())
        except Trouble as why:
            raise Trouble(f"{why}; the feed said {fed.lines[-SHOWN:]}") from None


def test_full_disk() -> None:
    """The disk of a server is full: the venue isn't held up, and the others go on once that server was ended, which may hang. It has all
    once it was started with room again."""
    with named() as name:
        _, traders = venue_and_traders()
        it, fed = servers(), feed(name)
        traders.pairs(50)
        expect_streams(name, lines_of())
        small = (it.leader_of_all() + 1) % COUNT
        it.kill(small)
        disk = Disk(os.path.join(it.folder, f"server-{small + 1}/store"), ROOM)
        try:
            it.start(small, *disk.words())
            wait_for("a server that has all, on a small disk", lambda: it.has_all(small, name))
            go_on("events of three servers", name, traders)
            disk.fill(LEFT)
            for _ in range(ROUNDS):
                traders.pairs(TRADED)
            disk.fill(0)
            traders.pairs(TRADED)
            it.kill(small)
            go_on("events beside a server that was ended", name, traders, small)
        except Trouble as why:
            raise Trouble(f"{why}; the feed said {fed.lines[-SHOWN:]}") from None
        finally:
            it.kill(small)
            disk.end()
        come_back(name, small)


def test_disk_that_others_fill() -> None:
    """Where others take room behind a look at a disk, who fills that finds it full, and goes on."""
    class Crowded(Disk):
        """A disk on which a piece is taken behind each look."""

        def room(self) -> int:
            return super().room() + disks.A_PIECE

    os.mkdir("place")
    disk = Crowded(os.path.abspath("place"), ROOM)
    try:
        disk.fill(0)
        if (left := disk.room() - disks.A_PIECE) != 0:
            raise Trouble(f"{left} bytes are left")
    finally:
        disk.close()


TESTS = [test_streams, test_no_drop_copies, test_numbers_fence, test_kills, test_all_servers_stop, test_one_server, test_no_server,
         test_server_stands_still, test_full_store, test_no_store]
if disks.can_be_had():
    TESTS += [test_full_disk, test_disk_that_others_fill]
else:
    print("feed/check: no disk is filled: that is for root, where a file system can be mounted", flush=True)
