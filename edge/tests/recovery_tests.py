"""Members, edge and venue end at any moment and come back: what was missed is told once, and no name is used twice."""
import os
import signal
import socket
import time

from edges import EVENTS, JOURNAL, PATIENCE, SYMBOLS, Client, Edge, Venue, again, changed, free_port, freeze, pair, started
from edges import rows, stored, told, venue_order
from engines import Engine, at_rest, cancel, order, refused
from gikvand.fix import fields_of, value
from gikvand.words import sure
from relay import Relay
from trading_tests import expect


def settings() -> str:
    with open("edge.cfg", encoding="ascii") as file:
        return file.read()


def restarted(members: int = 1) -> Edge:
    return Edge(settings()).ready(members)


def places(member: int) -> list[int]:
    """The ExecIDs of the venue's reports in a member's store."""
    return [int(sure(value(it, "17"))) for it in stored(member) if (value(it, "17") or "").isdecimal()]


def two_members() -> tuple[Venue, Edge, int, Engine, Engine]:
    """A venue, an edge, its port and two members that are logged on; an order of the first one rests."""
    venue, edge, port = pair(2)
    return venue, edge, port, at_rest(port, "a", 100), Engine(port, 2).log_on()


def unread_order(first: str, second: str) -> tuple[Venue, Edge, int, Engine]:
    """An edge, its port, a member and the venue, which is stopped: the member's first order rests there, and the second
    one waits to be read."""
    venue, edge, port = pair()
    one = at_rest(port, first)
    venue.pause()
    one.send("D", order(second, 1, 1, "50"))
    one.settle()
    return venue, edge, port, one


def test_away() -> None:
    """A member is away while its orders trade, and the edge is killed meanwhile: it is told all of it, once."""
    _, edge, _, one, other = two_members()
    one.close()
    edge.hears("C1: the client from")
    for at in range(3):
        other.send("D", order(f"b{at}", 2, 10, "50"))
        other.report(_150="F")
    edge.kill()
    edge = restarted(2)
    other.close()
    other.log_on().send("D", order("b3", 2, 10, "50"))
    other.report(_150="F", _11="b3")
    one.log_on().report(_150="F", _151="60")
    expect([value(it, "32") for it in one.history if value(it, "150") == "F"], ["10"] * 4)
    expect(places(1), [int(sure(value(it, "17"))) for it in told(1)])
    edge.stop()
    edge = restarted(2)
    expect(len(places(1)), len(told(1)))


def test_venue_restarts() -> None:
    """The venue is killed while members are logged on: they stay, hear that it isn't there, and go on when it is."""
    venue, edge, port, one, other = two_members()
    venue.kill()
    edge.hears("C1: the venue:")
    one.send("D", order("gone", 1, 1, "50"))
    expect(value(one.report(_150="8"), "103"), "2")
    one.send("F", cancel("gone2", "a", 1))
    one.report(_35="9", _102="2")
    again(port, 2, venue.port)
    for _ in range(2):
        edge.hears(": serves, behind report")
    one.send("D", order("gone", 1, 5, "50"))
    expect(value(one.report(_11="gone"), "103"), "6")  # A name that was refused is a used one.
    one.send("D", order("back", 1, 5, "50"))
    one.report(_150="0", _11="back")
    other.send("D", order("b", 2, 105, "50"))
    one.report(_150="F", _11="back", _39="2")


def test_edge_first() -> None:
    """The edge starts before the venue, and a member that logs on meanwhile is refused in words."""
    venue, edge, port = pair()
    venue.stop()
    edge.stop()
    edge = Edge(settings())
    edge.hears("C1: the venue: can't connect")
    one = Engine(port, 1)
    refused(one, "the venue isn't there yet")
    again(port, 1, venue.port)
    edge.hears("C1: serves")
    one.log_on().send("D", order("a", 1, 1, "50"))
    one.report(_150="0")


def test_lost_request() -> None:
    """A request that the venue hadn't taken in when it was killed: its member is told, once; the name stays used."""
    venue, edge, port, one = unread_order("kept", "lost")
    venue.kill()
    again(port, 1, venue.port)
    got = fields_of(one.report(_11="lost"))
    expect([got["150"], got["58"]], ["8", "edge: this request never reached the venue"])
    one.send("D", order("lost", 1, 1, "50"))
    expect(value(one.report(_11="lost"), "103"), "6")
    edge.kill()
    restarted()
    one.close()
    one.log_on().send("D", order("next", 1, 1, "50"))
    one.report(_11="next", _150="0")
    expect(sum("never reached" in it for it in stored(1)), 1)
    expect([value(it, "11") for it in stored(1) if value(it, "150") == "0"], ["kept", "next"])


def test_request_under_way() -> None:
    """The edge is killed when a request is at the venue, which hasn't read it yet: its report is told all the same."""
    venue, edge, port, one = unread_order("first", "second")
    edge.kill()
    venue.go_on()
    edge = restarted()
    one.close()
    one.log_on().report(_150="0", _11="second")
    one.send("D", order("third", 1, 1, "50"))
    one.report(_150="0", _11="third")
    expect([value(it, "11") for it in stored(1) if value(it, "150") == "0"], ["first", "second", "third"])
    expect(sum("never reached" in it for it in stored(1)), 0)


def forget(count: int) -> None:
    """Lets the session of C1 expect the last messages of the member once more, so many of them."""
    changed(1, f"UPDATE session SET target = target - {count}")


def test_many_sent_again() -> None:
    """More requests that are sent again than the rate allows: none is refused, since each was passed on before."""
    venue, edge, port = pair(MaxMessagesPerSecond="3")
    one = at_rest(port, "a")
    for name in "bcde":
        time.sleep(0.4)
        one.send("D", order(name, 1, 1, "50"))
        one.report(_150="0", _11=name)
    edge.kill()
    forget(5)
    edge = restarted()
    one.close()
    one.log_on().settle()
    edge.hears("has been passed on before: e")
    expect([value(it, "11") for it in one.history if value(it, "150") == "8"], [])


def test_sent_again() -> None:
    """What is sent again with PossDupFlag, since the edge was killed before it noted the number, is taken once."""
    venue, edge, port = pair()
    one = at_rest(port, "a")
    edge.kill()
    forget(1)
    edge = restarted()
    one.close()
    one.log_on().send("D", order("b", 1, 1, "50"))
    one.report(_150="0", _11="b")
    edge.hears("has been passed on before: a")
    expect([value(it, "11") for it in told(1)], ["1", "2"])


def test_possible_resend() -> None:
    """A PossResend of a name that is known is passed over, as its order rests; one of a new name is taken."""
    venue, edge, port = pair()
    one = at_rest(port, "a")
    one.write("D", order("a", 1, 1, "50"), head="97=Y|")
    one.out += 1
    edge.hears("has been passed on before: a")
    one.write("D", order("b", 1, 1, "50"), head="97=Y|")
    one.out += 1
    one.report(_150="0", _11="b")
    one.write("D", order("b", 1, 1, "50"), head="97=N|")
    one.out += 1
    expect(value(one.report(_11="b"), "103"), "6")
    expect([value(it, "11") for it in one.history], ["a", "b", "b"])


def refusals(name: str) -> list[str | None]:
    """What the store of C1 has of this name."""
    return [value(it, "58") for it in stored(1) if value(it, "11") == name]


def full_of(port: int, edge: Edge, name: str) -> Engine:
    """A member that has as many open orders as it may, and one more, of this name, that was refused; the edge is killed
    before it noted that request's number."""
    one = at_rest(port, "a")
    one.send("D", order(name, 1, 1, "50"))
    one.report(_150="8", _11=name)
    edge.kill()
    forget(1)
    return one


def test_refusal_sent_again() -> None:
    """The edge is killed when a refusal has been told and its request's number isn't noted: the request, which is sent
    again, stays refused, though nothing speaks against it any more, and its name stays used."""
    venue, edge, port = pair(MaxOpenOrders="1")
    one = full_of(port, edge, "no")
    edge = Edge(settings().replace("MaxOpenOrders=1", "MaxOpenOrders=9")).ready()
    one.close()
    one.log_on().settle()
    edge.hears("was refused before: no")
    one.send("D", order("yes", 1, 1, "50"))
    one.report(_150="0", _11="yes")
    one.write("D", order("no", 1, 1, "50"), head="97=Y|")
    one.out += 1
    edge.hears("was refused before: no")
    one.send("D", order("no", 1, 1, "50"))
    expect(value(one.report(_11="no"), "103"), "6")
    one.send("F", cancel("c", "no", 1))
    expect(value(one.report(_35="9"), "102"), "1")
    expect((refusals("no"), len(told(1))), (["edge: more than 1 open orders", "edge: ClOrdID (11) was used before"], 2))
    one.send("D", order("never", 1, 1, "50.001"))
    one.report(_150="8", _11="never")
    edge.stop()
    restarted()
    one.close()
    one.log_on().send("D", order("no", 1, 1, "50"))
    expect(value(one.report(_11="no"), "103"), "6")


def test_refusal_untold() -> None:
    """The record takes a refused name and not its refusal: neither is kept, and the member isn't told. Sent again, the
    request is taken, once."""
    venue, edge, port = pair(MaxOpenOrders="1")
    one = at_rest(port, "a")
    one.log_out()
    edge.stop()
    changed(1, "CREATE TRIGGER refusals BEFORE INSERT ON turns WHEN instr(NEW.did, x'013135303d3801')"
               " BEGIN SELECT raise(ABORT, 'no refusals'); END")
    edge = restarted()
    one.log_on().send("D", order("no", 1, 1, "50"))
    edge.hears("C1: isn't served: edge/C1/C1.db: no refusals")
    while one.pump(PATIENCE):
        pass
    edge.kill()
    expect((rows(1, "SELECT name FROM names WHERE name = 'no'"), refusals("no"), len(one.history)), ([], [], 1))
    changed(1, "DROP TRIGGER refusals")
    edge = Edge(settings().replace("MaxOpenOrders=1", "MaxOpenOrders=9")).ready()
    one.log_on().report(_150="0", _11="no")
    expect((refusals("no"), len(told(1))), ([None], 2))


def test_name_not_taken() -> None:
    """The record doesn't take a request's name, in a turn that changes the tables since it also answers a ResendRequest:
    nothing of that turn is kept, so the request isn't counted, and is taken once when it is sent again."""
    venue, edge, port = pair()
    one = at_rest(port, "a")
    one.log_out()
    edge.stop()
    changed(1, "CREATE TRIGGER no_names BEFORE INSERT ON names WHEN NEW.name = 'b' BEGIN SELECT raise(ABORT, 'no names'); END")
    edge = restarted()
    one.log_on().send("D", order("x", 1, 1, "50"))
    one.report(_150="0", _11="x")
    freeze(edge.process_of(1))
    one.send("2", "7=1|16=0|")
    one.send("D", order("b", 1, 1, "50"))
    os.kill(edge.process_of(1), signal.SIGCONT)
    edge.hears("C1: isn't served: edge/C1/C1.db: no names")
    while one.pump(PATIENCE):
        pass
    edge.kill()
    changed(1, "DROP TRIGGER no_names")
    restarted()
    one.log_on().report(_150="0", _11="b")
    expect((len(told(1)), len(one.history)), (3, 3))


def trade_a_little(port: int) -> Engine:
    one = Engine(port, 1).log_on()
    for at in range(6):
        one.send("D", order(f"n{at}", 1, 1, "50"))
        one.report(_150="0", _11=f"n{at}")
    one.send("F", cancel("none", "n0", 2))  # The wrong side: the venue refuses it.
    one.report(_35="9")
    one.log_out()
    return one


def sell(other: Client, name: int, quantity: int) -> None:
    """Lets a member of the venue itself sell so many at 50, and waits until it has."""
    other.send("D", venue_order(name, 2, quantity, 5000))
    while value(sure(other.next()), "150") != "F":
        pass


class Together(Relay):
    """A relay that keeps the venue's Logon, and passes it on in one piece with what comes behind."""
    kept = ""

    def pass_on(self, text: str, is_members: bool, to: socket.socket) -> bool:
        if is_members:
            return super().pass_on(text, is_members, to)
        if value(text, "35") == "A":
            with self.changed:
                self.kept = text
                self.changed.notify_all()
            return True
        text, self.kept = self.kept + text, ""
        return super().pass_on(text, is_members, to)


def test_behind_logon() -> None:
    """A report that comes in one piece with the venue's Logon is told behind what the journal has in front of it."""
    venue, edge, port = pair(1, started(JOURNAL, 2, list(SYMBOLS)))
    one, other = at_rest(port, "a", 100), Client(venue.port, 2).log_on()
    edge.kill()
    sell(other, 1, 10)
    relay = Together(free_port(1), venue.port)
    relay.start()
    edge = Edge(settings().replace(f"VenuePort={venue.port}", f"VenuePort={relay.door.getsockname()[1]}"))
    relay.wait(lambda: relay.kept, PATIENCE)
    sell(other, 2, 10)
    edge.ready()
    one.close()
    one.log_on().report(_150="F", _151="80")
    expect(places(1), [int(sure(value(it, "17"))) for it in told(1)])


SLOW_EVENTS = """#!/bin/sh
'{events}' "$@" >told.$$
touch read
while [ ! -e go ]; do sleep 0.01; done
cat told.$$
"""


def test_meanwhile() -> None:
    """What the venue tells while the journal is being read waits, and is told behind that, once."""
    venue, edge, port = pair()
    edge.stop()
    with open("slow-events", "w", encoding="ascii") as file:
        file.write(SLOW_EVENTS.format(events=EVENTS))
    os.chmod("slow-events", 0o755)
    venue.stop()
    venue = again(port, 2, venue.port)
    open("go", "w", encoding="ascii").close()
    edge = Edge(settings().replace(EVENTS, os.path.abspath("slow-events"))).ready()
    one = at_rest(port, "a", 10)
    os.remove("go")
    os.remove("read")
    venue.kill()
    again(port, 2, venue.port)
    while not os.path.exists("read"):
        one.pump(0.02)
    sell(Client(venue.port, 2).log_on(), 1, 4)
    one.send("D", order("b", 1, 10, "50"))
    expect(value(one.report(_11="b"), "103"), "2")
    open("go", "w", encoding="ascii").close()
    one.report(_150="F", _32="4")
    expect(places(1), [int(sure(value(it, "17"))) for it in told(1)])


def test_other_journal() -> None:
    """A journal that lacks what the store has told isn't gone on from: it is another one, or an older copy. Nothing of
    it is told, not even what has greater numbers."""
    venue, edge, port = pair(1, started(JOURNAL, 2, list(SYMBOLS)))
    trade_a_little(port)
    edge.stop()
    venue.stop()
    os.remove(JOURNAL)
    again(port, 2, venue.port)
    for member, orders in ((2, 6), (1, 1)):
        client = Client(venue.port, member).log_on()
        for name in range(1, orders + 1):
            client.send("D", venue_order(name, 1, 1, 5000))
            client.next()
        client.close()
    edge = Edge(settings())
    edge.hears("C1: isn't served: its store has report 6, which the journal hasn't")
    time.sleep(2.5)  # It tries again each second.
    one = Engine(port, 1)
    one.out = rows(1, "SELECT target FROM session")[0][0]
    refused(one, "this member can't be served, and the operator of the venue is told why")
    expect((places(1), [it for it in edge.lines if ": serves" in it]), ([1, 2, 3, 4, 5, 6], []))


def test_new_day() -> None:
    """A day has ended while the edge was down: nothing that was told before is told again, and nothing is missed."""
    venue, edge, port = pair()
    one = at_rest(port, "a")
    one.send("F", cancel("b", "zz", 1))
    one.send("F", cancel("c", "a", 2))
    one.report(_35="9", _11="c")
    one.log_out()
    edge.stop()
    changed(1, "UPDATE session SET created = '20250102-09:30:00'")
    edge = restarted()
    expect(places(1), [])
    one = at_rest(port, "d")
    expect([len(places(1)), len([it for it in one.history if "|35=9|" in it])], [1, 0])
    edge.kill()
    edge = restarted()
    expect(len(places(1)), 1)


TESTS = [test_away, test_venue_restarts, test_edge_first, test_lost_request, test_request_under_way, test_sent_again,
         test_many_sent_again, test_possible_resend, test_refusal_sent_again, test_refusal_untold, test_name_not_taken,
         test_behind_logon, test_meanwhile, test_other_journal, test_new_day]
