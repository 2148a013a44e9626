"""Journals that differ behind a common beginning, streams that lose something while nobody trades, and books: of made-up events."""
import itertools
import os
import shutil
import time

from fence_tests import figures
from feeds import COUNT, Feed, Made, Trouble, book, configured, expect_same, expect_streams, free_port, has, levels_of, named, nats
from feeds import servers, wait_for, wait_soon
from edges import in_folders
from venues import Late, in_some_try

WAITS = 4  # Seconds for which a stream has to stand still, where that is looked at.


def publish(name: str, subject: str, number: int, text: str, more: str = "") -> None:
    """Publishes a message as a feed would, as this one of its stream. One that isn't answered may be lost, or may be there: it is
    published again, and refused by its number in the second case."""
    header, tries = f"NATS/1.0\r\nNats-Expected-Last-Sequence: {number - 1}\r\n{more}\r\n".encode(), itertools.count()
    def is_there() -> bool:
        is_again, connection = next(tries) > 0, servers().connection("feed", name)
        try:
            connection.send(b"HPUB %s %s.1 %d %d\r\n%s%s\r\n" % (subject.encode(), connection.inbox.encode(), len(header),
                                                                 len(header) + len(text), header, text.encode()))
            answer = connection.answer()[2]
        finally:
            connection.end()
        if f'"seq":{number}'.encode() in answer or is_again and f"wrong last sequence: {number}\"".encode() in answer:
            return True
        if answer and (b'"error"' not in answer or b"wrong last sequence" in answer):
            raise Trouble(f"{subject} {number} was answered by {answer!r}")
        return False  # No server has the stream now.
    wait_for(f"{subject} {number}", is_there)


def mark(name: str) -> str:
    """The newest mark, or nothing."""
    connection = servers().connection("market", name)
    try:
        found = nats.Stream(connection, f"venue_{name}_book", f"venue.{name}.mark").newest()
    finally:
        connection.end()
    return found.text if found else ""


def hash_of(lines: list[str]) -> str:
    """The hash of these events, as docs/FEED.md has it."""
    found = 14695981039346656037
    for it in "".join(f"{line}\n" for line in lines).encode():
        found = (found ^ it) * 1099511628211 % 2**64
    return f"{found:016x}"


def header_at(connection: nats.Connection, name: str, part: str, number: int) -> dict[bytes, bytes]:
    """The header of a message of a stream; nothing where the server that answers hasn't got the message."""
    connection.send(connection.ask(f"$JS.API.DIRECT.GET.venue_{name}_{part}", b'{"seq":%d}' % number, number))
    return nats.fields_of(connection.answer()[1])


def headers_of(name: str, part: str, count: int) -> list[dict[bytes, bytes]]:
    """The headers of the first messages of a stream, once servers have them."""
    found: list[dict[bytes, bytes]] = []
    def are_had() -> bool:
        connection = servers().connection("feed", name)
        try:
            while len(found) < count and (header := header_at(connection, name, part, len(found) + 1)):
                found.append(header)
        finally:
            connection.end()
        return len(found) == count
    wait_for(f"{count} messages of {part}", are_had)
    return found


def test_hashes() -> None:
    """Each event bears the hash of all up to it, and the mark that of the last one. Each message bears the number of the one before."""
    with named() as name:
        made = Made("journal")
        made.add(3, 10)
        made.feed(name)
        expect_streams(name, made.lines)
        hashes = [it.get(b"Gikvand-Hash", b"").decode() for it in headers_of(name, "events", len(made.lines))]
        expect_same("hash of event", hashes, [hash_of(made.lines[:number]) for number, _ in enumerate(made.lines, 1)])
        for part, count in (("events", len(made.lines)), ("trades", 6), ("member_C1", 12), ("member_C2", 12)):
            befores = [it.get(b"Nats-Expected-Last-Sequence") for it in headers_of(name, part, count)]
            expect_same(f"number in front of a message of {part}", befores, [b"%d" % number for number in range(count)])
        wanted = f"mark {len(made.lines)} {hash_of(made.lines)}"
        wait_for("the mark", lambda: mark(name) == wanted)


def test_two_journals() -> None:
    """A feed that stood still while one of another journal went on behind the common beginning adds nothing, and ends."""
    with named() as name:
        one = Made("one")
        one.add(3, 10)
        first = one.feed(name)
        expect_streams(name, one.lines)
        other = Made("other", *one.lines)
        other.add(1, 20)
        first.stand()
        one.add(50, 30)
        second = other.feed(name)
        second.hears("publishes behind event ")
        expect_streams(name, other.lines)
        first.go_on()
        first.hears(f"the stream venue_{name}_events differs from the journal at {len(other.lines)}: {hash_of(other.lines)} ")
        if (status := first.status()) != 1:
            raise Trouble(f"status {status} behind a stream that differs")
        expect_streams(name, other.lines)


def test_messages_under_way() -> None:
    """What a server held back of a feed, until one of another journal had gone on behind the common beginning, comes to no stream."""
    in_folders(lambda _: publish_late(), "messages_under_way")


def publish_late() -> None:
    """A feed has events under way at a server that stands still. Where it is slow itself it looks for other servers first."""
    with named() as name:
        one, it, port = Made("one"), servers(), free_port(1)
        one.add(3, 10)
        fed = one.feed(name)
        expect_streams(name, one.lines)
        fed.stop()
        slow = (it.leader(name) + 1) % COUNT
        place = f"tls://{it.addresses[slow]}:{it.ports[slow]}"
        first = one.feed(name, Servers=place, HttpAcceptPort=port)
        one.add(1, 15)
        expect_streams(name, one.lines)
        other = Made("other", *one.lines)
        other.add(1, 20)
        first.stand_idle()  # Behind some seconds without an answer it reads no more: all has to come before.
        one.add(50, 30)
        wait_for("events at hand", first.has_unread)
        it.stand(slow)
        first.go_on()
        looks = []
        def are_sent() -> bool:
            told = figures(port)
            looks.append(told["gikvand_feed_publishes"] == "1" and int(told["gikvand_feed_events_read"]) == len(one.lines))
            return sum(looks) > 3
        wait_soon("events under way", are_sent)
        first.stand()
        Feed(other.settings(name, Servers=it.urls(slow).rpartition(" ")[0])).hears("publishes behind event ")
        wait_for("the other's events", lambda: has("machines", name, "events", len(other.lines), but=slow))
        it.stand(slow, False)
        first.go_on()
        first.hears("differs from the journal at ")
        expect_streams(name, other.lines)


def test_same_last_event() -> None:
    """A journal whose last event is that of the stream, and which differs before, is refused."""
    with named() as name:
        one, other = Made("one"), Made("other")
        for made, quantity in ((one, 10), (other, 20)):
            made.add(2, quantity)
        if one.lines[-1] != other.lines[-1]:
            raise Trouble("the journals don't end alike")
        fed = one.feed(name)
        expect_streams(name, one.lines)
        fed.stop()
        servers().delete(name, "book")  # The mark would tell, too.
        fed = other.feed(name)
        fed.hears(f"the stream venue_{name}_events differs from the journal at {len(one.lines)}: {hash_of(one.lines)} ")
        if (status := fed.status()) != 1:
            raise Trouble(f"status {status} behind a stream that differs")


def test_last_event_is_gone() -> None:
    """Another journal is refused by the mark, where a limit has taken all events."""
    with named() as name:
        one, other = Made("one"), Made("other")
        one.add(2, 10)
        other.add(4, 20)
        fed = one.feed(name, MaxAge=1)
        fed.hears("publishes behind event 0")
        wait_for("the mark", lambda: mark(name).startswith(f"mark {len(one.lines)} "))
        fed.stop()
        wait_for("a stream without a message", lambda: servers().info(name, "events")["state"]["messages"] == 0)
        fed = other.feed(name, MaxAge=1)
        fed.hears(f"the mark of the feed {name} differs from the journal at {len(one.lines)}: {hash_of(one.lines)} there, ")
        if (status := fed.status()) != 1:
            raise Trouble(f"status {status} behind a mark that differs")
        if (last := servers().info(name, "events")["state"]["last_seq"]) != len(one.lines):
            raise Trouble(f"the stream ends at {last}")


def test_lost_while_idle() -> None:
    """A stream that was deleted is filled anew though nothing comes, and no connection was lost."""
    with named() as name:
        made = Made("journal")
        made.add(5, 10)
        made.feed(name)
        expect_streams(name, made.lines)
        for part in ("member_C2", "book"):
            servers().delete(name, part)
            expect_streams(name, made.lines)


def test_power() -> None:
    """Power goes at the servers with nothing under way, and takes what came last: the feed looks, and fills the streams."""
    with named() as name:
        made = Made("journal")
        made.add(5, 10)
        fed = made.feed(name)
        expect_streams(name, made.lines)
        in_some_try(lambda _: lose_power(name, made, fed), "power")


def lose_power(name: str, made: Made, fed: Feed) -> None:
    """The servers lose what came last, and the feed says that it looks. A feed that had to go to another server meanwhile, since
    they came back too slowly, has looked without a word."""
    it, said = servers(), len(fed.lines)
    stores = [os.path.join(it.folder, f"server-{number + 1}", "store") for number in range(COUNT)]
    for number, store in enumerate(stores):
        it.process(number).terminate()
        it.process(number).wait()
        shutil.copytree(store, f"{store}.before")
    it.mend()
    made.add(5, 20)
    expect_streams(name, made.lines)
    for number, store in enumerate(stores):
        it.kill(number)
        shutil.rmtree(store)
        os.rename(f"{store}.before", store)
    it.mend()
    expect_streams(name, made.lines)
    if not any("is connected again, and looks where the streams end" in line for line in fed.lines[said:]):
        raise Late(f"the feed said {fed.lines[said:]}")


def test_book_behind_a_refusal() -> None:
    """A book that is refused is told again, though another one behind it is taken."""
    with named() as name:
        made = Made("journal")
        made.add(2, 10)
        fed = made.feed(name)
        expect_streams(name, made.lines)
        wait_for("the mark", lambda: mark(name).startswith(f"mark {len(made.lines)} "))
        fed.stand()
        number = configured().info(name, "book")["state"]["last_seq"] + 1
        publish(name, f"venue.{name}.book.ABC", number, "book 1 ABC buys 1:1:1 sells")
        made.add(1, 20)
        fed.go_on()
        expect_streams(name, made.lines)
        wanted = levels_of(made.lines, "ABC")
        wait_for(f"the book of ABC as {wanted}", lambda: book(name, "ABC") == (len(made.lines), wanted))


def test_wait_for_derived() -> None:
    """Who waits goes on for a trade that the stream lacks once that was at hand for long enough, however long none came before."""
    with named() as name:
        made = Made("journal")
        made.add(2, 10)
        fed = made.feed(name)
        expect_streams(name, made.lines)
        wait_for("the mark", lambda: mark(name).startswith(f"mark {len(made.lines)} "))  # (else who waits would tell that)
        fed.stop()
        fed = made.feed(name, TakeOver=1000 * WAITS)
        before, more = len(made.lines), Made("more", *made.lines)
        more.add(1, 20)
        time.sleep(1.5 * WAITS)  # For that long there is nothing to publish.
        subject = servers().info(name, "events")["config"]["subjects"][0]
        for number, line in enumerate(more.lines[before:], before + 1):
            publish(name, subject, number, line, f"Gikvand-Hash: {hash_of(more.lines[:number])}\r\n")
        begun = time.monotonic()
        made.add(1, 20)
        fed.hears("publishes behind event ")
        if (waited := time.monotonic() - begun) < WAITS:
            raise Trouble(f"it took over behind {waited:.1f} s")
        expect_streams(name, made.lines)


TESTS = [test_hashes, test_two_journals, test_messages_under_way, test_same_last_event, test_last_event_is_gone,
         test_lost_while_idle, test_power, test_book_behind_a_refusal, test_wait_for_derived]
