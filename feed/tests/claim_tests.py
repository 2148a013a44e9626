"""Who publishes: claims, the limits that come with them, and streams that lack more than a feed holds. The events are made up."""
import json
import os
import time
from typing import Any

from chain_tests import mark
from fence_tests import A_READ, MOST, figures
from feeds import Feed, Made, Trouble, expect_same, expect_streams, free_port, has, named, nats, servers, wait_for, wait_soon
from edges import in_folders
from venues import Late

MANY = MOST + A_READ + 500  # Messages of a member: a feed that holds no more of them has read no event behind these.
MORE, NONE = 1 << 20, -1    # Bytes of a stream: a bound that no test reaches, and none.
LONG = 600000               # Milliseconds for which no test lets a stream stand still,
SHORT = 200                 # and the fewest that a feed waits for.
CLAIMED = "was claimed by another feed"
A_FAULT = 7                 # Seconds behind which a feed would say that a stream doesn't answer,
A_TURN = 6                  # and in which one that could would take over again.
# A program that prints a journal whole at first. When it is started again it stops behind so many lines, until a file is there.
GATED = """#!/bin/sh
mkdir "$1.read" 2>/dev/null && exec tail -n +1 -s 0.02 -f "$1"
head -n {lines} "$1"
until [ -e "$1.go" ]; do sleep 0.1; done
exec tail -n +{next} -s 0.02 -f "$1"
"""


def config_of(name: str, part: str = "events") -> Any:
    """The configuration of a stream."""
    return servers().info(name, part)["config"]


def take_claim(name: str, word: str) -> None:
    """Claims the stream of events as another feed would."""
    config = json.dumps({**config_of(name), "subjects": [f"venue.{name}.events.{word}"]}).encode()
    wait_for("a claim", lambda: b'"config"' in servers().asked(name, f"$JS.API.STREAM.UPDATE.venue_{name}_events", config))


def faults_of(fed: Feed) -> int:
    """How often a feed has said that a stream refuses, or doesn't answer, but for those whose reason is a claim: that comes behind."""
    lines = fed.lines
    return sum(("refuses " in line or "doesn't answer" in line) and CLAIMED not in behind for line, behind in zip(lines, [*lines[1:], ""]))


class Marks:
    """The marks of a feed as they are published, from now on."""

    def __init__(self, name: str) -> None:
        self.connection = servers().connection("feed", name)
        self.connection.send(b"SUB venue.%s.mark 7\r\n" % name.encode())
        self.texts()

    def texts(self) -> list[str]:
        """The texts of those that have come by now. A server that stood still may have ended the connection."""
        try:
            return self.read()
        except nats.Unheard as why:
            raise Late(f"the marks aren't heard: {why}") from None

    def read(self) -> list[str]:
        self.connection.send(b"PING\r\n")
        found = []
        while (line := self.connection.line()) != b"PONG":
            kind, *words = line.split(b" ")
            if kind == b"HMSG":
                found.append(self.connection.piece(int(words[-1]))[int(words[-2]):].decode())
        return found


def told_to_one(name: str) -> Made:
    """A journal with many reports to the second member, whose events are in the streams of a feed that knows the first one alone."""
    made = Made("journal")
    made.add(3, 10)
    made.tell(2, MANY)
    made.add(3, 20)
    fed = made.feed(name, Members=1)
    wait_for("all events", lambda: has("machines", name, "events", len(made.lines)))
    wait_for("all trades", lambda: has("market", name, "trades", 12, "trades.*"))
    fed.stop()
    return made


def test_more_than_is_held() -> None:
    """The stream of a member that lacks more than a feed holds is filled: of one that was added late, and where it was deleted. What is
    told meanwhile is nothing of the midst of the journal."""
    in_folders(lambda _: fill_one(), "more_than_is_held")


def fill_one() -> None:
    """The stream of the second member is missing, and then deleted: each time the feed says that it has made it."""
    with named() as name:
        made = told_to_one(name)
        marks = Marks(name)
        for _ in range(2):
            fed = made.feed(name)
            expect_streams(name, made.lines)
            fed.need_said(f"the stream venue_{name}_member_C2 is made")
            made.add(1, 30)
            expect_streams(name, made.lines)
            fed.stop()
            servers().delete(name, "member_C2")
        ends = {it.split()[1] for it in marks.texts()}
        if early := [it for it in ends if int(it) < len(made.lines) - 32]:
            raise Trouble(f"marks of {early} were told of {len(made.lines)}")


def test_nothing_of_other_events() -> None:
    """A stream that lacks more than a feed holds gets nothing of a journal that isn't the one of the events."""
    with named() as name:
        made = told_to_one(name)
        other = Made("other", *made.lines)
        other.lines[0] = other.lines[0].replace(" ABC ", " XYZ ")
        with open(other.path, "w", encoding="ascii") as file:
            file.writelines(f"{it}\n" for it in other.lines)
        subject = config_of(name)["subjects"]
        fed = other.feed(name)
        fed.hears("differs from the journal at ")
        if (status := fed.status()) != 1:
            raise Trouble(f"status {status} behind a stream that differs")
        if count := servers().info(name, "member_C2")["state"]["last_seq"]:
            raise Trouble(f"{count} messages of another journal were published")
        expect_same("subject", config_of(name)["subjects"], subject)


def test_nothing_under_way() -> None:
    """While a stream is filled the others don't count as silent, however long that takes: nothing of theirs is under way."""
    with named() as name:
        made = told_to_one(name)
        lines = len(made.lines) - 8
        settings = made.settings(name)
        with open(program := os.path.abspath("gated-events"), "w", encoding="ascii") as file:
            file.write(GATED.format(lines=lines, next=lines + 1))
        os.chmod(program, 0o755)
        fed = Feed("".join(f"VenueEvents={program}\n" if it.startswith("VenueEvents=") else it for it in settings.splitlines(True)))
        fed.hears("fills what streams lack up to event ")
        wait_for("reports of the second member", lambda: has("C2", name, "member_C2", MANY, "member.C2"))
        time.sleep(A_FAULT)
        if faults := [it for it in fed.lines if "doesn't answer" in it and "member_C2" not in it]:
            raise Trouble(f"it said {faults}")
        with open(f"{os.path.abspath(made.path)}.go", "w", encoding="ascii"):
            pass
        expect_streams(name, made.lines)


def test_waiting_with_other_limits() -> None:
    """A feed of other limits that waits changes nothing."""
    with named() as name:
        made = Made("journal")
        made.add(3, 10)
        made.feed(name)
        expect_streams(name, made.lines)
        second = Feed(made.settings(name, MaxBytes=MORE, TakeOver=LONG))
        def is_waiting() -> bool:
            made.add(1, 20)
            return any("waits behind event " in it for it in second.lines)
        wait_for("a feed that waits", is_waiting)
        expect_streams(name, made.lines)
        expect_same("limit", [config_of(name, it)["max_bytes"] for it in ("events", "trades", "member_C1")], 3 * [NONE])


def test_new_limits_are_claims() -> None:
    """Limits come with a claim, by a word of its own: no subject comes back that the stream took before."""
    in_folders(lambda _: claim_by_limits(), "new_limits")


def claim_by_limits() -> None:
    """A feed sets new limits, and says so."""
    with named() as name:
        made = Made("journal")
        made.add(3, 10)
        fed = made.feed(name)
        expect_streams(name, made.lines)
        fed.stop()
        before = config_of(name)
        fed = made.feed(name, MaxBytes=MORE)
        wait_for("the limit", lambda: config_of(name)["max_bytes"] == MORE)
        if config_of(name)["subjects"] == before["subjects"]:
            raise Trouble(f"the stream takes {before['subjects']} again")
        made.add(1, 20)
        expect_streams(name, made.lines)
        fed.need_said(f"the stream venue_{name}_events gets the limits of the settings")


def test_two_of_other_limits() -> None:
    """Of two feeds of other limits the one that began last publishes: they don't take turns."""
    with named() as name:
        made, port = Made("journal"), free_port(1)
        made.add(3, 10)
        first = made.feed(name, HttpAcceptPort=port)
        first.hears("publishes behind event ")
        expect_streams(name, made.lines)
        wait_for("the mark", lambda: mark(name).startswith(f"mark {len(made.lines)} "))  # (else the first one would tell that)
        Feed(made.settings(name, MaxBytes=MORE))
        wait_for("the limit", lambda: config_of(name)["max_bytes"] == MORE)
        first.hears(f"the stream venue_{name}_events {CLAIMED}")
        wait_for("a feed that waits", lambda: figures(port)["gikvand_feed_publishes"] == "0")
        expect_same("claim lost", [figures(port)["gikvand_feed_claims_lost_total"]], ["1"])
        time.sleep(A_TURN)
        behind = first.lines[next(at for at, it in enumerate(first.lines) if CLAIMED in it):]
        if turns := [it for it in behind if "publishes behind event " in it]:
            raise Trouble(f"it said {turns}")
        expect_same("limit", [config_of(name)["max_bytes"]], [MORE])
        made.add(1, 20)
        expect_streams(name, made.lines)


def test_lost_claim() -> None:
    """A feed whose claim another one took, while events came and while none did, says so, and waits as a second feed does."""
    in_folders(lambda _: lose_claim(), "lost_claim")


def lose_claim() -> None:
    """The claim of a feed is taken twice. Where servers don't answer then, it counts a refusal before it hears of that."""
    with named() as name:
        made, port = Made("journal"), free_port(1)
        made.add(3, 10)
        fed = made.feed(name, HttpAcceptPort=port)
        fed.hears("publishes behind event ")
        expect_streams(name, made.lines)
        for count, more in enumerate((1, 0), 1):
            fed.stand()  # It isn't to look meanwhile.
            take_claim(name, f"other{count}")
            if more:
                made.add(more, 20)
                wait_for("events that it publishes by its own claim", fed.has_unread)
            fed.go_on()
            fed.hears(f"the stream venue_{name}_events {CLAIMED}")
            told, faults = figures(port), faults_of(fed)
            expect_same("claim lost", [told["gikvand_feed_claims_lost_total"]], [str(count)])
            if told["gikvand_feed_refusals_total"] != str(faults):
                raise Late(f"{told['gikvand_feed_refusals_total']} refusals are counted, and it said {fed.lines}")
            made.add(1, 30)
            fed.hears("publishes behind event ")
            expect_streams(name, made.lines)


def test_limits_that_another_set() -> None:
    """A feed that waits, and was to set limits, takes nothing from one that has set them meanwhile."""
    in_folders(lambda _: set_limits_twice(), "limits_that_another_set")


def set_limits_twice() -> None:
    """One feed sets limits while another one waits. One that doesn't hear that it has set them waits for events."""
    with named() as name:
        made = Made("journal")
        made.add(3, 10)
        fed = made.feed(name)
        expect_streams(name, made.lines)
        fed.stop()
        copy = Made("copy", *made.lines[:-8])
        second = Feed(copy.settings(name, MaxBytes=MORE))
        second.hears("the journal ends before the stream ")
        first = made.feed(name, MaxBytes=MORE)
        wait_for("the limit", lambda: config_of(name)["max_bytes"] == MORE)
        wait_soon("a feed that publishes", lambda: any("publishes behind event " in it for it in first.lines))
        expect_streams(name, made.lines)
        wait_for("the mark", lambda: mark(name).startswith(f"mark {len(made.lines)} "))
        copy.write(made.lines[-8:])
        time.sleep(A_TURN)
        if taken := [it for it in second.lines if "publishes behind event " in it]:
            raise Trouble(f"it said {taken}")


def test_stream_made_anew() -> None:
    """The stream of events is deleted while a feed publishes, and while nothing comes: no other feed has claimed it then."""
    with named() as name:
        made, port = Made("journal"), free_port(1)
        made.add(3, 10)
        fed = made.feed(name, HttpAcceptPort=port)
        fed.hears("publishes behind event ")
        expect_streams(name, made.lines)
        for more in (1, 0):
            fed.stand()  # It isn't to look meanwhile.
            servers().delete(name, "events")
            if more:
                made.add(more, 20)
                wait_for("events that it publishes to no stream", fed.has_unread)
            fed.go_on()
            fed.hears("reads the journal anew")
            expect_streams(name, made.lines)
        if claimed := [it for it in fed.lines if CLAIMED in it]:
            raise Trouble(f"it said {claimed}")
        expect_same("claims lost", [figures(port)["gikvand_feed_claims_lost_total"]], ["0"])


def test_nothing_goes_on_beside_a_loss() -> None:
    """A stream that was deleted is filled first, where a feed is to begin again: nothing is published before."""
    with named() as name:
        made = Made("journal")
        made.add(3, 10)
        fed = made.feed(name, TakeOver=SHORT)
        fed.hears("publishes behind event ")
        expect_streams(name, made.lines)
        fed.stand()  # It isn't to look meanwhile.
        servers().delete(name, "member_C2")
        take_claim(name, "other")
        made.tell(1, 5)
        wait_for("events that it publishes by its own claim", fed.has_unread)
        said = len(fed.lines)
        fed.go_on()
        fed.hears("reads the journal anew")
        before = fed.lines[said:next(at for at, it in enumerate(fed.lines) if "reads the journal anew" in it)]
        if early := [it for it in before if "publishes behind event " in it]:
            raise Trouble(f"it said {early} while a stream was lost")
        expect_streams(name, made.lines)


TESTS = [test_more_than_is_held, test_nothing_of_other_events, test_nothing_under_way, test_waiting_with_other_limits,
         test_new_limits_are_claims, test_two_of_other_limits, test_lost_claim, test_limits_that_another_set, test_stream_made_anew,
         test_nothing_goes_on_beside_a_loss]
