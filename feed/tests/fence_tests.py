"""Two feeds, streams that lost something or are of another journal, and who may read what."""
import contextlib
import json
import os
import time
from collections.abc import Callable

from feeds import CONNECTIONS, COUNT, JOURNAL, MARKET, Traders, Trouble, configured, expect_same, expect_streams, feed, free_port, has
from feeds import lines_of, most_memory, named, nats, servers, texts, venue_and_traders, wait_for, wait_soon
from edges import in_folders, page_at
from venues import PATIENCE, Late, in_some_try


MOST = 8192      # Events that a feed holds,
A_READ = 1 << 11  # and so many that one read of 64 KiB may bring besides.
PATIENT_FOR = 4   # Seconds that the second feed of a test waits,
VERY_PATIENT_FOR = 20  # and where the first one may stand still by itself, as while the servers elect.
ROUNDS = 4        # Of trade beside a second feed that waits.
MOST_MEMORY = 40  # MB, whatever is held.
MOST_BYTES = 20000  # Of a stream with a limit.


def asked(connection: nats.Connection, subject: str, body: bytes = b"") -> bytes:
    """The text of the answer to a request of the servers."""
    connection.send(connection.ask(subject, body, 0))
    return connection.answer()[2]


def test_second_feed() -> None:
    """A second feed waits while the first one publishes, and goes on behind its end: each event once, in order."""
    in_folders(lambda _: go_on_behind(), "second_feed")


def go_on_behind() -> None:
    """A second feed waits beside a first one, which may stand still by itself for longer than that: then it takes over by right."""
    with named() as name:
        _, traders = venue_and_traders()
        first = feed(name)
        traders.pairs(20)
        expect_streams(name, lines_of())
        second = feed(name, TakeOver=1000 * VERY_PATIENT_FOR)
        def waits() -> bool:
            traders.pairs(20)
            time.sleep(0.3)
            return any("waits behind event " in line for line in second.lines)
        wait_for("a second feed that waits", waits)
        for _ in range(ROUNDS):
            waits()
        expect_streams(name, lines_of())
        if any("publishes behind event" in line for line in second.lines):
            raise Late(f"the second feed published beside the first: {second.lines}")
        first.kill()
        traders.pairs(20)
        second.hears("publishes behind event ")
        expect_streams(name, lines_of())


def test_first_comes_back() -> None:
    """A feed that stood still while another one took over is refused by number, and waits."""
    in_folders(lambda _: come_back(), "first_comes_back")


def come_back() -> None:
    """A first feed stands still in front of events that it would publish, and goes on behind a second one. Where its connection was lost
    meanwhile it looks where the streams end before it publishes."""
    with named() as name:
        (_, traders), port = venue_and_traders(), free_port(1)
        first = feed(name, HttpAcceptPort=port)
        def publishes() -> bool:
            """Whether it does by now. One that had no answer waits until there is something to publish."""
            traders.pairs(20)
            return figures(port)["gikvand_feed_publishes"] == "1"
        wait_for("a feed that publishes", publishes)
        expect_streams(name, lines_of())
        second = feed(name, TakeOver=1000 * PATIENT_FOR)
        first.stand_idle()
        begun = time.monotonic()
        traders.pairs(20)
        second.hears("publishes behind event ")
        if (waited := time.monotonic() - begun) < PATIENT_FOR:
            raise Trouble(f"the second feed took over behind {waited:.1f} s")
        expect_streams(name, lines_of())
        wait_for("events that it publishes once more", first.has_unread)  # (else it would look first where the stream ends)
        said = len(first.lines)
        first.go_on()
        first.hears("was claimed by another feed")
        for _ in range(4):
            traders.pairs(20)
            time.sleep(0.3)
        expect_streams(name, lines_of())
        if not any(" refuses " in it for it in first.lines[said:]):
            raise Late(f"the first feed looked before it published: {first.lines[said:]}")


def test_another_journal() -> None:
    """The events of another journal under this name are refused, with both hashes, and the stream stays as it is."""
    with named() as name:
        venue, traders = venue_and_traders(1)
        fed = feed(name)
        traders.pairs(30)
        expect_streams(name, before := lines_of())
        fed.stop()
        venue.stop()
        servers().delete(name, "book")  # The mark would tell, too.
        for count in (60, 3):  # Longer than the stream, and shorter.
            os.rename(JOURNAL, f"{JOURNAL}.of-before")
            venue, others = venue_and_traders(2)
            others.pairs(count)
            venue.stop()
            fed = feed(name)
            fed.hears(f"the stream venue_{name}_events differs from the journal at ")
            if (status := fed.status()) != 1:
                raise Trouble(f"status {status} behind a stream that differs")
            expect_same("event", [it.text for it in texts("machines", name, "events", len(before))], before)


def test_lost_streams() -> None:
    """A stream that was deleted is filled anew, while the feed runs and by a start."""
    in_folders(lambda _: lose_streams(), "lost_streams")


def lose_streams() -> None:
    """Streams are deleted, and the feed says which one it has made."""
    with named() as name:
        _, traders = venue_and_traders()
        fed = feed(name)
        traders.pairs(30)
        expect_streams(name, lines_of())
        servers().delete(name, "trades", "events")
        traders.pairs(30)
        fed.hears("reads the journal anew")
        expect_streams(name, lines_of())
        fed.stop()
        servers().delete(name, "member_C1")
        fed = feed(name)
        expect_streams(name, lines_of())
        fed.need_said(f"the stream venue_{name}_member_C1 is made")


def test_lost_stream_of_who_is_quiet() -> None:
    """The stream of a member who has no more reports is filled anew behind a fault, though others trade."""
    with named() as name:
        _, traders = venue_and_traders()
        it, fed = servers(), feed(name)
        traders.pairs(30)
        expect_streams(name, lines_of())
        it.delete(name, "member_C2")
        number = it.server_of(fed)
        it.kill(number)
        traders.alone(5)
        expect_streams(name, lines_of())
        it.start(number)


def test_lost_books() -> None:
    """Books that were deleted are told anew by a start, though nothing trades."""
    in_folders(lambda _: lose_books(), "lost_books")


def lose_books() -> None:
    """Books are deleted, and the feed says that it has made their stream."""
    with named() as name:
        _, traders = venue_and_traders()
        fed = feed(name)
        traders.pairs(30)
        expect_streams(name, lines_of())
        fed.stop()
        servers().delete(name, "book")
        fed = feed(name)
        expect_streams(name, lines_of())
        fed.need_said(f"the stream venue_{name}_book is made")


def test_limits() -> None:
    """A limit of the settings takes the oldest messages; the numbers go on, and a reader from the front is told."""
    in_folders(lambda _: limit(), "limits")


def limit() -> None:
    """A feed sets a limit though nothing trades, and says so."""
    with named() as name:
        _, traders = venue_and_traders()
        fed = feed(name)
        traders.pairs(100)
        expect_streams(name, lines_of())
        fed.stop()
        fed = feed(name, MaxBytes=MOST_BYTES)
        wait_for("the limit", lambda: servers().info(name, "events")["config"]["max_bytes"] == MOST_BYTES)
        traders.pairs(20)
        count = len(lines_of())
        wait_for("the newest event", lambda: has("machines", name, "events", count))
        late = texts("machines", name, "events", 6, first=count - 5)
        expect_same("event", [it.text for it in late], lines_of()[count - 6:])
        fed.need_said(f"the stream venue_{name}_events gets the limits of the settings")
        def read_one(connection: nats.Connection) -> None:
            front = nats.Stream(connection, f"venue_{name}_events", f"venue.{name}.events.*")
            while not front.come():
                pass
        wait_for("the first event gone", lambda: is_refused("machines", read_one, name, "hasn't got the message 1 any more"))


def test_other_version() -> None:
    """A stream of another version, or of somebody else, isn't touched."""
    with named() as name:
        _, traders = venue_and_traders()
        it, subject = servers(), f"$JS.API.STREAM.CREATE.venue_{name}_events"
        body = json.dumps({"name": f"venue_{name}_events", "subjects": [f"venue.{name}.events.x"], "num_replicas": 1}).encode()
        wait_for("a stream of somebody else", lambda: b'"config"' in it.asked(name, subject, body))
        traders.pairs(5)
        fed = feed(name)
        fed.hears(f"the stream venue_{name}_events is another one's, or of another version: '', and not 'gikvand feed 1'")
        if has("machines", name, "events", 1):
            raise Trouble("the feed published to it")
        fed.stop()


def test_rights() -> None:
    """Who reads has its own streams, and may neither read others, nor publish, nor delete."""
    with named() as name:
        _, traders = venue_and_traders()
        feed(name)
        traders.pairs(20)
        expect_streams(name, lines_of())
        own = {"machines": {"events"}, "market": {"trades", "book"}, "C1": {"member_C1"}, "C2": {"member_C2"}}
        parts = {"events": "events.*", "trades": "trades.*", "book": "book.ABC", "member_C1": "member.C1", "member_C2": "member.C2"}
        for user, may in own.items():
            for part, subject in parts.items():
                read = is_let(user, lambda it:
                              nats.Stream(it, f"venue_{name}_{part}", f"venue.{name}.{subject}").newest(), name)
                if read != (part in may):
                    raise Trouble(f"{user} {'reads' if read else 'may not read'} {part}")
                for subject in (f"venue.{name}.{subject}", f"$JS.API.STREAM.DELETE.venue_{name}_{part}",
                                f"$JS.API.CONSUMER.CREATE.venue_{name}_{part}", f"$JS.API.STREAM.UPDATE.venue_{name}_{part}"):
                    if is_let(user, lambda it: asked(it, subject.replace("*", "ABC"), b"{}"), name):
                        raise Trouble(f"{user} may ask {subject}")
        expect_streams(name, lines_of())


def test_readers_apart() -> None:
    """A reader can let the servers answer to a subject that readers of its own account hear. Those of another account hear nothing of
    that; and what they could hear in the same one says that it is an answer."""
    with named() as name:
        _, traders = venue_and_traders()
        feed(name)
        traders.pairs(20)
        expect_streams(name, lines_of())
        heard = in_some_try(lambda _: heard_apart(name), "readers_apart")
        own = (2, f"venue_{name}_trades".encode())
        expect_same("subject that another account hears", [(it[0], it[2]) for it in heard["other"]], [own])
        if not all(it[2] == own[1] for it in heard["market"]):
            raise Trouble(f"within its account an answer doesn't say that it is one: {heard['market']}")


def heard_apart(name: str) -> dict[str, list[tuple[int, bytes, bytes]]]:
    """What readers hear up to an answer of their own, where an attacker of one account has let the servers answer to others before.
    Servers may answer late, or in another order where the readers are at several of them."""
    forged = f"venue.{name}.book.ABC".encode()
    heard: dict[str, list[tuple[int, bytes, bytes]]] = {}
    try:
        with contextlib.ExitStack() as left:
            attacker = servers().connection("market", name)
            left.callback(attacker.end)
            readers = {user: servers().connection(user, name) for user in MARKET}
            for reader in readers.values():
                left.callback(reader.end)
                reader.send(b"SUB venue.%s.book.* 7\r\nSUB %s.* 8\r\nPING\r\n" % (name.encode(), attacker.inbox.encode()))
                while reader.line() != b"PONG":
                    pass
            for subject in (forged, attacker.inbox.encode() + b".1"):
                body = b'{"seq":1}'
                attacker.send(b"PUB $JS.API.DIRECT.GET.venue_%s_trades %s %d\r\n%s\r\n" % (name.encode(), subject, len(body), body))
            attacker.answer()  # All of it was sent by now: what readers are to hear is in front of their next answer.
            for user, reader in readers.items():
                reader.send(reader.ask(f"$JS.API.DIRECT.GET.venue_{name}_trades", b'{"seq":2}', 2))
                heard[user] = []
                while not heard[user] or heard[user][-1][0] != 2:
                    kind, *words = reader.line().split(b" ")
                    if kind == b"HMSG":
                        data = reader.piece(int(words[-1]))
                        number = 2 if words[0].startswith(reader.inbox.encode()) else 0
                        heard[user].append((number, words[0], nats.fields_of(data[:int(words[-2])]).get(b"Nats-Stream", b"")))
    except nats.Unheard as why:
        raise Late(f"{why}") from None
    if forged not in [it[1] for it in heard["market"]]:
        raise Late(f"within its account an answer isn't heard: {heard['market']}")
    return heard


def test_bounds_of_readers() -> None:
    """A reader's account has so many connections and no more, and takes no long request; the others are served on."""
    with named() as name:
        _, traders = venue_and_traders()
        feed(name)
        traders.pairs(5)
        expect_streams(name, lines_of())
        connections: list[nats.Connection] = []
        def is_full() -> bool:
            """Whether there is no room for one more, at one server: others hear of that late."""
            if refuses(lambda: connections.append(servers().connection_to(0, "C2", name)), "maximum account active connections exceeded"):
                return True
            if len(connections) > CONNECTIONS:
                raise Trouble(f"C2 has {len(connections)} connections")
            return False
        try:
            wait_for("a bound of connections", is_full)
        finally:
            for it in connections:
                it.end()
        if len(connections) < CONNECTIONS // 2:
            raise Trouble(f"C2 has {len(connections)} connections alone")
        def ask_much(connection: nats.Connection) -> None:
            asked(connection, f"$JS.API.DIRECT.GET.venue_{name}_member_C1", b" " * 2000)
            raise Trouble("a request of 2,000 bytes is taken")
        wait_for("a request of 2,000 bytes refused", lambda: is_refused("C1", ask_much, name, "aximum Payload Violation"))
        traders.pairs(5)
        expect_streams(name, lines_of())


def refuses(does: Callable[[], object], words: str) -> bool:
    """Whether the servers refuse what this does, by these words. Where they aren't heard nobody knows: that is told on."""
    try:
        does()
    except nats.Unheard:
        raise
    except nats.Trouble as why:
        if words in str(why):
            return True
        raise
    return False


def is_refused(user: str, does: Callable[[nats.Connection], object], name: str, words: str) -> bool:
    """Whether the servers refuse this to a user."""
    connection = servers().connection(user, name)
    try:
        return refuses(lambda: does(connection), words)
    finally:
        connection.end()


def is_let(user: str, does: Callable[[nats.Connection], object], name: str) -> bool:
    """Whether the servers let this user do it, once they are heard."""
    found: list[bool] = []
    def look() -> bool:
        found.append(not is_refused(user, does, name, "ermissions Violation"))
        return True
    wait_for(f"an answer to {user}", look)
    return found[0]


def figures(port: int) -> dict[str, str]:
    """The figures of a feed's page."""
    return dict(line.rsplit(" ", 1) for line in page_at(port, "metrics").splitlines())


def test_bounded() -> None:
    """While no server answers, a feed holds so many events and no more, in bounded memory; then it goes on."""
    in_folders(lambda _: hold_what_it_may(), "bounded")


def hold_what_it_may() -> None:
    """A feed reads events beside servers that stand still. Where it is slow itself it looks for other servers before it holds enough."""
    with named() as name:
        _, traders = venue_and_traders()
        port = free_port(1)
        fed = feed(name, HttpAcceptPort=port)
        traders.pairs(20)
        expect_streams(name, lines_of())
        for number in range(COUNT):
            configured().stand(number)
        fed.stand()  # Behind some seconds without an answer it looks for servers, and reads no more: all has to come before.
        traders.pairs(3000)
        fed.go_on()
        held: list[int] = []
        def is_full() -> bool:
            """Whether it holds what it may, and reads no more."""
            told = figures(port)
            held.append(int(told["gikvand_feed_events_read"]) - int(told["gikvand_feed_events_published"]))
            return held[-1] >= MOST and held[-1:] == held[-2:-1]
        wait_soon("a feed that holds what it may", is_full)
        if (behind := max(held)) > MOST + A_READ:
            raise Trouble(f"it holds {behind} events")
        servers()
        expect_streams(name, lines_of())
        if (memory := most_memory(fed.process)) > MOST_MEMORY:
            raise Trouble(f"it has had {memory:.0f} MB")


def test_leader() -> None:
    """A feed that begins goes to the server that leads the events, wherever that stands in its settings."""
    with named() as name:
        _, traders = venue_and_traders()
        fed = feed(name)
        traders.pairs(5)
        expect_streams(name, lines_of())
        fed.stop()
        in_some_try(lambda _: go_to_leader(name, traders), "leader")


def go_to_leader(name: str, traders: Traders) -> None:
    """A feed begins, and is where the leader is. Servers may elect another one meanwhile."""
    leader = configured().leader(name)
    fed = feed(name, Servers=configured().urls(leader))
    traders.pairs(5)
    fed.hears("publishes behind event ")
    server = configured().server_of(fed)
    expect_streams(name, lines_of())
    fed.stop()
    if server != leader:
        raise Late(f"it is at server {server + 1}, and {leader + 1} led")


def test_page() -> None:
    """The page has how the feed fares, for people and for Prometheus."""
    with named() as name:
        _, traders = venue_and_traders()
        in_some_try(lambda _: shown_by_its_page(name, traders), "page")


def shown_by_its_page(name: str, traders: Traders) -> None:
    """A feed begins and publishes, and its page says so. Servers that don't answer for a while are refusals there."""
    port = free_port(1)
    fed = feed(name, HttpAcceptPort=port)
    try:
        traders.pairs(20)
        expect_streams(name, lines := lines_of())
        expect_figures(port, len(lines))
        if not float(figures(port)['gikvand_feed_lag_seconds{quantile="0.99"}']) > 0:
            raise Trouble(f"no lag: {figures(port)}")
        line = page_at(port)
        if not line.startswith(f"publishes, connected, {len(lines)} of {len(lines)} events published, 0 s behind"):
            raise Late(line)
    finally:
        fed.kill()


def expect_figures(port: int, count: int) -> None:
    """Waits for the figures of a feed that has published so many events, without a fault."""
    wanted = {"gikvand_feed_publishes": "1", "gikvand_feed_connected": "1", "gikvand_feed_events_read": str(count),
              "gikvand_feed_events_published": str(count), "gikvand_feed_behind_events": "0",
              "gikvand_feed_behind_seconds": "0", "gikvand_feed_refusals_total": "0", "gikvand_feed_restarts_total": "0"}
    try:
        wait_for("the figures", lambda: {it: figures(port).get(it) for it in wanted} == wanted, PATIENCE)
    except Trouble as why:
        raise Late(f"{why}: {figures(port)}") from None


TESTS = [test_second_feed, test_first_comes_back, test_another_journal, test_lost_streams,
         test_lost_stream_of_who_is_quiet, test_lost_books, test_limits, test_other_version, test_rights, test_readers_apart,
         test_bounds_of_readers, test_bounded, test_leader, test_page]
