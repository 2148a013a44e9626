"""A session ends while its engine misses something: nothing that was told is lost by that. QuickFIX counts a Logout and a
Reject whatever their numbers are, and never asks for the first message that it misses behind one."""
import socket
from typing import Any

from canonical_tests import trades, until
from edges import JOURNAL, PATIENCE, SYMBOLS, Client, Edge, Trouble, Venue, changed, free_port, pair, rows, started
from edges import stored, told
from engines import Engine, now, order
from garbled_tests import GARBLED
from gikvand.fix import framed, value
from gikvand.words import sure
from recovery_tests import places, restarted, sell
from relay import Relay
from tradeclients import TradeClient
from trading_tests import expect, logged
from venues import await_that

PIECE = 1000  # So many messages of a ResendRequest are sent again at once.
FILLS = 2


class Stock(Engine):
    """An engine that counts a Logout and a Reject as QuickFIX does, and asks for what it misses by itself or not at all."""
    asks = True

    def take(self, it: str) -> None:
        if sure(value(it, "35")) in "35" and int(sure(value(it, "34"))) > self.next:
            self.came.append(it)
            self.admin.append(it)
            self.next += 1
            return
        self.has_asked = self.has_asked or not self.asks
        super().take(it)

    def ends(self, text: str) -> None:
        """The connection ends, and the last that came is a word of this text that isn't counted."""
        until(self, lambda: not self.socket)
        is_word(self.came[-1], text)


def is_word(it: str, text: str) -> None:
    expect([value(it, tag) for tag in ("35", "34", "43", "58")], ["3", "0", "Y", text])


class Seller:
    """A member of the venue itself."""

    def __init__(self, venue: Venue) -> None:
        self.client, self.count = Client(venue.port, 2).log_on(), 0

    def sell(self) -> list[str]:
        """Lets some orders trade with what C1 has at rest, and gives the ExecIDs of the fills once C1's record has them."""
        for _ in range(FILLS):
            self.count += 1
            sell(self.client, self.count, 1)
        found = [sure(number) for number in [value(it, "17") for it in told(1)][-FILLS:]]
        await_that("both are stored", lambda: places(1)[-FILLS:] == [int(it) for it in found])
        return found


def with_seller() -> tuple[Edge, int, Seller]:
    """A member at the edge, and one at the venue itself."""
    venue, edge, port = pair(1, started(JOURNAL, 2, list(SYMBOLS)))
    return edge, port, Seller(venue)


def missing(is_away: bool = True) -> tuple[Edge, Seller, Stock, list[str]]:
    """An edge, who sells, an engine of C1 that is away, and the ExecIDs of fills that it wasn't told; or that came to a
    connection of its that it didn't read any more."""
    edge, port, seller = with_seller()
    one = Stock(port, 1).log_on()
    one.send("D", order("a", 1, 9, "50"))
    one.report(_150="0")
    if is_away:
        one.close()
        edge.hears("C1: the client from")
    wanted = seller.sell()
    if not is_away:
        await_that("all is written", lambda: rows(1, "SELECT heard = sender FROM session") == [(1,)])
        one.close()
        edge.hears("C1: the client from")
    return edge, seller, one, wanted


def comes_back(one: Stock, wanted: list[str]) -> None:
    """It logs on again, is told these fills, each once, and goes on."""
    one.close()
    one.asks = True
    one.log_on().report(_150="F", _17=wanted[-1])
    trades(one, "z")
    expect([value(it, "17") for it in one.history if value(it, "150") == "F"], wanted)


def test_end_behind_a_logout() -> None:
    """Who logs out gets a Logout, and then the edge ends the connection: its client needn't."""
    venue, edge, port = pair()
    one = Engine(port, 1).log_on()
    one.send("5")
    expect(value(one.next_of("5") or "", "35"), "5")
    until(one, lambda: not one.socket)
    edge.hears("is gone: its session has ended")


def test_words_of_a_logout() -> None:
    """What an engine says by its Logout stands in the line of its end, and in that of no later connection."""
    venue, edge, port = pair()
    one = Engine(port, 1).log_on()
    one.send("5", "58=out of orders|")
    until(one, lambda: not one.socket)
    line = edge.hears("is gone: its session has ended")
    expect(line.partition("is gone: ")[2], "its session has ended: out of orders")
    one.connect().send("A", "98=0|108=1|")  # It is refused for its HeartBtInt.
    until(one, lambda: not one.socket)
    line = edge.hears("is gone: its session has ended")
    expect(line.partition("is gone: ")[2], "its session has ended")


def test_end_behind_a_wrong_message() -> None:
    """A message with a low number, or of another sender, or behind a gap in its numbers, doesn't show that an engine misses
    nothing: it is told why its session ends, or that the edge stops, by a word that it doesn't count."""
    edge, seller, one, wanted = missing()
    one.asks = False
    one.log_on().write("0", number=one.out - 2)
    one.ends(f"MsgSeqNum too low, expecting {one.out} but received {one.out - 2}")
    one.log_on()
    sure(one.socket).sendall(framed(f"35=0|34={one.out}|49=OTHER|52={now()}|56={one.target}|"))
    until(one, lambda: not one.socket)
    expect([(value(it, "35"), value(it, "34")) for it in one.came[-2:]], [("3", "0")] * 2)
    one.out += 1
    one.log_on().write("0", number=one.out + 1)
    until(one, lambda: value(one.came[-1], "35") == "2")
    edge.stop()
    one.ends("edge: the session ends")
    restarted()
    comes_back(one, wanted)


class Holding(Relay):
    """A relay that holds a ResendRequest of its member back, and sends other bytes in its place."""

    def __init__(self, edge: int, instead: bytes) -> None:
        super().__init__(free_port(1), edge)
        self.instead = instead
        self.has_held: bool | None = None
        self.start()

    def pass_on(self, text: str, is_members: bool, to: socket.socket) -> bool:
        if self.has_held is not False or not is_members or value(text, "35") != "2":
            return super().pass_on(text, is_members, to)
        with self.changed:
            self.has_held = True
            self.changed.notify_all()
        to.sendall(self.instead)
        return True


def stock_engine(instead: bytes) -> tuple[Edge, TradeClient, list[str]]:
    """QuickFIX's own client, which is killed, misses some fills and comes back: what it asks for hasn't reached the edge."""
    edge, port, seller = with_seller()
    relay = Holding(port, instead)
    at = relay.door.getsockname()[1]
    client = TradeClient(at).logged_on()
    client.order("ORD-1", 1, 9, "50")
    client.report(_150="0", _11="ORD-1")
    client.kill()
    edge.hears("C1: the client from")
    wanted = seller.sell()
    relay.has_held = False
    client = TradeClient(at)
    if not relay.wait(lambda: relay.has_held, PATIENCE):
        raise Trouble("the client asked for nothing")
    return edge, client, wanted


def asks_anew(client: TradeClient, wanted: list[str]) -> None:
    for number in wanted:
        client.report(_150="F", _17=number)


def test_stock_engine_at_the_stop() -> None:
    """The edge stops before QuickFIX's client has asked for what it missed: the client asks at its next Logon, for all."""
    edge, client, wanted = stock_engine(b"")
    edge.stop()
    restarted()
    asks_anew(client, wanted)


def test_stock_engine_behind_garbled() -> None:
    """What comes in the place of its ResendRequest can't be read, ten times in a row, and the session ends: QuickFIX's
    client comes back, and asks for all that it missed."""
    bad = framed(f"35=0|34=9|49=DESK-A|52={now()}|56=GIKVAND|")[:-4] + b"999\x01"
    edge, client, wanted = stock_engine(bad * GARBLED)
    edge.hears("is gone: 10 messages in a row can't be read")
    asks_anew(client, wanted)


def test_end_behind_a_gap() -> None:
    """An engine that was away, and hasn't asked for what it missed, is told why its session ends by a word that it doesn't
    count: behind garbled messages, at the edge's stop, and where its Logon has too low a number."""
    ends(*missing())


def test_end_behind_unread_reports() -> None:
    """So is one whose last connection broke before it had read all that was written to it."""
    ends(*missing(False))


def ends(edge: Edge, seller: Seller, one: Stock, wanted: list[str]) -> None:
    one.asks = False
    one.log_on()
    bad = framed(f"35=0|34={one.out}|49={one.sender}|52={now()}|56={one.target}|")[:-4] + b"999\x01"
    sure(one.socket).sendall(bad * GARBLED)
    one.ends("edge: 10 messages in a row can't be read")
    one.out -= 2
    one.connect().send("A", "98=0|108=30|")
    why = f"MsgSeqNum too low, expecting {one.out + 1} but received {one.out - 1}"
    one.ends(why)
    expect([it.partition(" is refused: ")[2] for it in edge.lines if "C1: a Logon from 127.0.0.1:" in it][-1:], [why])
    one.out += 1
    one.log_on()
    edge.stop()
    one.ends("edge: the session ends")
    restarted()
    comes_back(one, wanted)


def test_end_of_who_has_all() -> None:
    """An engine that is known to miss nothing gets a Logout, which it counts: it has gone on behind its Logon, has asked for
    all that it missed, or logs out itself."""
    edge, seller, one, wanted = missing()
    one.log_on().report(_150="F", _17=wanted[-1])
    edge.stop()
    expect(value(one.next_of("5") or "", "34"), str(one.next - 1))
    one.close()
    edge = restarted()
    one.log_on().settle()
    edge.stop()
    expect(value(one.next_of("5") or "", "34"), str(one.next - 1))
    one.close()
    restarted()
    one.log_on().log_out()
    expect(value(one.came[-1], "35"), "5")
    seller.sell()
    one.asks = False
    one.log_on().send("2", f"7={one.next}|16={one.next}|")
    one.log_out()
    expect(value(one.came[-1], "35"), "5")


def many(count: int, **more: Any) -> tuple[Edge, Stock, int]:
    """An edge, and an engine of C1 that misses so many reports, of which a second brings one piece again."""
    venue, edge, port = pair(MaxReadMessagesPerSecond=str(PIECE), **more)
    one = Stock(port, 1).log_on()
    trades(one, "a")
    one.log_out()
    edge.stop()
    first, report = one.next, next(it for it in stored(1) if value(it, "150") == "0")
    body = report.partition("|52=")[2].partition("|")[2].rpartition("10=")[0]
    texts = (f"35=8|34={number}|49=GIKVAND|52={now()}|{body}" for number in range(first, first + count))
    changed(1, *(f"INSERT INTO messages VALUES ({value(it, '34')}, x'{framed(it).hex()}')" for it in texts),
            f"UPDATE session SET sender = {first + count}")
    return restarted(), one, first


def test_between_two_pieces() -> None:
    """Between two pieces of what an engine has asked for a Reject and a Logout aren't counted: the rest comes behind the one,
    and is asked for at the next Logon behind the other."""
    count = 3 * PIECE
    edge, one, first = many(count)
    one.asks = False
    one.log_on()
    head = f"49={one.sender}|52={now()}|56={one.target}"
    bodies = (f"35=2|34={one.out}|{head}|7={first}|16=0|",
              f"35=D|34={one.out + 1}|{head}|{order('b', 1, 1, '50', more='58=|')}", f"35=5|34={one.out + 2}|{head}|")
    sure(one.socket).sendall(b"".join(map(framed, bodies)))
    one.out += 3
    one.ends("edge: the session ends")
    expect(one.next, first + PIECE)
    is_word(one.came[-2], "edge: field 58 has no value")
    last = set(one.came[-2:])  # Their lines are written behind them.
    await_that("both words in the log", lambda: last <= {line.partition(" : ")[2] for line in logged(1)})
    comes_back_for_all(one, first, count)


def comes_back_for_all(one: Stock, first: int, count: int) -> None:
    """It logs on again, and is told each of so many reports once."""
    one.close()
    one.asks = True
    one.log_on()
    until(one, lambda: one.next >= first + count, 4 * PATIENCE)
    expect([int(sure(value(it, "34"))) for it in one.history if first <= int(sure(value(it, "34"))) < first + count],
           list(range(first, first + count)))


def test_read_between_pieces() -> None:
    """A client is read between two pieces of what it has asked for, however fast those go."""
    count = 8 * PIECE
    edge, one, first = many(count)
    one.log_on()
    until(one, lambda: one.next > first)
    one.send("1", "112=x|")
    until(one, lambda: any(value(it, "112") == "x" for it in one.came))
    if one.next >= first + count:
        raise Trouble("all was sent again before the client was read")
    comes_back_for_all(one, first, count)


TESTS = [test_end_behind_a_logout, test_words_of_a_logout, test_stock_engine_at_the_stop, test_stock_engine_behind_garbled,
         test_end_behind_a_wrong_message, test_end_behind_a_gap, test_end_behind_unread_reports,
         test_end_of_who_has_all, test_between_two_pieces, test_read_between_pieces]
