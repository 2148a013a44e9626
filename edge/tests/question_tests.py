"""What the edge itself answers of symbols, orders and trades, field by field, and what is refused. No answer is kept, and no
question reaches the venue."""
import time

from back_office_tests import logged, verified
from book_tests import rests, seen
from edges import JOURNAL, PATIENCE, Edge, Trouble, await_that, changed, pair, rows, told
from engines import Engine, at_once, cancel, now, order, replace
from expiry_tests import AT_TEN, EVENING, over
from gikvand.fix import fields_of, framed, value
from gikvand.words import sure
from limit_tests import in_doubt
from market import Market
from switch_tests import done
from takers import asks, pairs_of
from trading_tests import expect

STATE = ("11", "39", "55", "54", "38", "44", "14", "151", "6")
MOST_ENDED = 1000
FILLS = 320  # More than a piece of messages that are looked at,
WAITS = 3    # behind which, and as many trades, it takes some seconds more until a hundred in a second have room again.


def lists(one: Engine, name: str, more: str = "559=4|") -> tuple[str | None, dict[str, dict[str, str]]]:
    """The symbols that a list has, each with its texts."""
    one.send("x", f"320={name}|{more}")
    text = one.report(_35="y", _320=name)
    expect((value(text, "893"), sure(value(text, "322"))[:1]), ("Y", "E"))
    symbols: dict[str, dict[str, str]] = {}
    current: dict[str, str] | None = None
    for tag, it in pairs_of(text):
        if tag == "55":
            current = symbols[it] = {}
        if tag in ("561", "562"):
            sure(current)[tag] = it
        if tag == "872":
            key, worth = it.split("=", 1)
            sure(current)[key] = worth
    expect(int(sure(value(text, "393"))), len(symbols))
    return value(text, "560"), symbols


def rejected(one: Engine, kind: str, body: str, name: str, reason: str, text: str) -> None:
    """A question that is refused by a BusinessMessageReject."""
    one.send(kind, body)
    it = fields_of(one.report(_35="j"))
    expect((it["372"], it.get("379"), it["380"]), (kind, name, reason))
    if text not in it["58"] or not it["58"].startswith("edge: "):
        raise Trouble(f"{text!r} wanted: {it}")


def status(one: Engine, name: str, side: int = 1, symbol: str = "ABC", more: str = "") -> dict[str, str]:
    one.send("H", f"11={name}|{more}55={symbol}|54={side}|")
    return fields_of(one.report(_35="8", _150="I"))


def state(it: dict[str, str]) -> tuple[str | None, ...]:
    """What a report says of its order."""
    return tuple(it.get(tag) for tag in STATE)


def statuses(one: Engine, more: str, name: str = "many") -> list[dict[str, str]]:
    """All answers to a question about many orders."""
    one.send("AF", f"584={name}|{more}")
    came: list[dict[str, str]] = []
    while not came or came[-1].get("912") != "Y":
        came.append(fields_of(one.report(_35="8", _584=name)))
    expect({it["911"] for it in came}, {str(len(came))})
    return came


def trades(one: Engine, name: str, more: str = "") -> list[dict[str, str]]:
    """The trades that a request is told, and what its end says."""
    one.send("AD", f"568={name}|569=0|{more}")
    it = fields_of(one.report(_35="AQ", _568=name))
    expect((it["749"], it["750"]), ("0", "0"))
    came: list[dict[str, str]] = []
    end = time.monotonic() + PATIENCE
    while time.monotonic() < end:
        for at, text in enumerate(one.reports):
            if value(text, "568") != name:
                continue
            del one.reports[:at + 1]
            if value(text, "35") == "AQ":
                expect((value(text, "750"), value(text, "748")), ("1", str(len(came))))
                expect([it.get("912") for it in came], [*[None] * (len(came) - 1), *["Y"] * bool(came)])
                return came
            came.append(fields_of(text))
            break
        else:
            one.pump(0.05)
    raise Trouble(f"no end of the trades behind {came}")


def test_security_list() -> None:
    """A list of symbols has their steps, what the venue takes, the member's limits, and what is halted."""
    _, edge, port, (one, other) = seen(MaxOrderQuantity="1000", PriceCollar="10%")
    result, symbols = lists(one, "all")
    limits = {"MaxOrderQuantity": "1000", "PriceCollar": "10%"}
    expect((result, symbols["ABC"]), ("0", {
        "561": "1", "562": "1", "PriceStep": "0.01", "GreatestPrice": "10000.00", "GreatestQuantity": "1000000",
        "Halted": "N", **limits}))
    expect((list(symbols), symbols["XYZ"]["PriceStep"]), (["ABC", "XYZ"], "0.25"))
    done("halt XYZ", "C1: XYZ is halted", "C2: XYZ is halted")
    expect(lists(one, "one", "559=0|55=XYZ|")[1]["XYZ"]["Halted"], "Y")
    expect(lists(one, "none", "559=0|55=NONE|"), ("2", {}))
    for body, text in (("320=a|559=1|", "SecurityListRequestType (559) 1 isn't had: 0 is of one symbol, 4 of all"),
                       ("320=a|559=0|", "Symbol (55) is missing"),
                       ("320=a|559=4|55=ABC|", "Symbol (55) stands beside a SecurityListRequestType (559) of 4"),
                       ("320=a|559=4|263=3|", "SubscriptionRequestType (263) 3 isn't 0, 1 or 2"),
                       ("320=a|559=4|336=day|", "field 336 isn't one of this venue"),
                       ("320=edge-1|559=4|", "SecurityReqID (320) isn't of 1 to 64 bytes that print")):
        rejected(one, "x", body, fields_of(body)["320"], "0", text)


def test_halts() -> None:
    """Who has subscribed, or takes the market of a symbol, is told of its halt and of its end, and nobody else."""
    _, edge, port, (one, other, third) = seen(3)
    lists(one, "all", "559=4|263=1|")
    other.send("V", asks("m", symbols=("ABC",)))
    other.report(_35="W")

    def halts(engine: Engine, symbol: str, state_: str) -> None:
        it = fields_of(engine.report(_35="f"))
        expect((it["55"], it["326"], it["325"]), (symbol, state_, "Y"))
        if symbol not in it["58"] or not it["58"].startswith("edge: the operator "):
            raise Trouble(f"no text of a halt: {it}")

    one.next = 1
    one.send("2", "7=1|16=0|")  # Nothing was halted, so nothing is told.
    one.settle()
    expect([it for it in one.reports if value(it, "35") == "f"], [])
    done("halt ABC", *(f"C{k}: ABC is halted" for k in (1, 2, 3)))
    halts(one, "ABC", "2")
    halts(other, "ABC", "2")
    done("halt XYZ", *(f"C{k}: XYZ is halted" for k in (1, 2, 3)))
    halts(one, "XYZ", "2")
    third.send("V", asks("m", symbols=("ABC",)))
    halts(third, "ABC", "2")
    one.next = 1
    one.send("2", "7=1|16=0|")  # What was told may be lost: it is told anew.
    halts(one, "ABC", "2")
    halts(one, "XYZ", "2")
    lists(one, "off", "559=4|263=2|")
    done("resume ABC", *(f"C{k}: ABC trades again" for k in (1, 2, 3)))
    halts(other, "ABC", "3")
    halts(third, "ABC", "3")
    for it in (one, other, third):
        it.settle()
        expect([text for text in it.reports if value(text, "35") == "f"], [])
    if kept := [data for k in (1, 2, 3) for data, in rows(k, "SELECT bytes FROM messages") if b"\x0135=f\x01" in data]:
        raise Trouble(f"what is of its moment is kept: {kept[0]}")


def test_order_status() -> None:
    """How an order is, in each state that it may have: open, filled in part, replaced, filled, cancelled, refused, unknown."""
    venue, edge, port = pair(2)
    one, other = Engine(port, 1).log_on(), Engine(port, 2).log_on()
    opened = rests(one, "a", 1, 10, "50")
    it = status(one, "a", more="790=ask-1|")
    expect((state(it), it["17"], it["37"], it["790"]),
           (("a", "0", "ABC", "1", "10", "50.00", "0", "10", "0.00"), "0", value(opened, "37"), "ask-1"))
    other.send("D", order("t", 2, 4, "49"))
    one.report(_150="F")
    expect(state(status(one, "a")), ("a", "1", "ABC", "1", "10", "50.00", "4", "6", "50.00"))
    one.send("G", replace("b", "a", 1, 12, "50.5"))
    one.report(_150="5")
    expect(state(status(one, "b")), ("b", "1", "ABC", "1", "12", "50.50", "4", "8", "50.00"))
    expect(state(status(one, "a")), ("a", "5", "ABC", "1", "10", "50.00", "4", "0", "50.00"))
    other.send("D", order("u", 2, 8, "50.5"))
    one.report(_150="F", _39="2")
    expect(state(status(one, "b")), ("b", "2", "ABC", "1", "12", "50.50", "12", "0", "50.33"))
    rests(one, "c", 2, 5, "60.25", "XYZ")
    one.send("F", cancel("d", "c", 2, 5, "XYZ"))
    one.report(_150="4")
    expect(state(status(one, "c", 2, "XYZ")), ("c", "4", "XYZ", "2", "5", "60.25", "0", "0", "0.00"))
    it = status(one, "none")
    expect((it["39"], it["103"], it["58"]),
           ("8", "5", "edge: ClOrdID (11) is of no order that is known here: of none that has come to the venue, or of one that "
            "ended in a day before"))
    for side, symbol in ((2, "ABC"), (1, "XYZ")):
        rejected(one, "H", f"11=b|55={symbol}|54={side}|", "b", "0", "the order has another Symbol (55) or Side (54)")
    rejected(one, "H", "11=d|55=XYZ|54=2|", "d", "0", "or the name is of a cancel or a replace")
    rejected(one, "H", f"11={'n' * 65}|55=ABC|54=1|", "n" * 65, "0", "ClOrdID (11) is longer than 64 bytes")
    for name in ("n" * 65, "edge-a"):
        rejected(one, "H", f"11=b|790={name}|55=ABC|54=1|", "b", "0", "OrdStatusReqID (790) isn't of 1 to 64 bytes that print")
    it = status(other, "a")
    expect((it["39"], it["103"]), ("8", "5"))
    rejected(one, "H", "11=b|55=ABC|54=1|453=1|448=x|", "b", "0", "field 453 isn't one of this venue")
    kept = [data for data, in rows(1, "SELECT bytes FROM messages") if b"\x01150=I\x01" in data or b"\x0135=j\x01" in data]
    expect(kept, [])
    expect([it for it in told(1) if "|150=I|" in it], [])


def test_status_under_way() -> None:
    """How an order is that the venue hasn't answered, and one whose replace it hasn't; a cancel's name is of no order."""
    venue, edge, port = pair(1)
    one = Engine(port).log_on()
    rests(one, "a", 1, 10, "50")
    venue.pause()
    one.send("D", order("b", 2, 7, "60"))
    one.send("G", replace("c", "a", 1, 12, "50.5"))
    one.send("F", cancel("d", "a", 1))
    expect(state(status(one, "b", 2)), ("b", "A", "ABC", "2", "7", "60.00", "0", "7", "0.00"))
    it = status(one, "c")
    expect((*state(it), it["41"]), ("c", "E", "ABC", "1", "12", "50.50", "0", "12", "0.00", "a"))
    rejected(one, "H", "11=d|55=ABC|54=1|", "d", "0", "the name is of a cancel, which the venue hasn't answered")
    venue.go_on()
    one.report(_35="9", _11="d")
    expect(state(status(one, "c"))[:2], ("c", "0"))


def test_status_in_doubt() -> None:
    """Behind a start the venue is asked what it has taken of before: until it has said that no order's state is told."""
    venue, edge, relay, port, one = in_doubt()
    one.log_on()
    unknown = "the venue hasn't said what it has taken of before"
    rejected(one, "H", "11=b|55=ABC|54=1|", "b", "4", unknown)
    rejected(one, "AF", "584=many|585=7|", "many", "4", unknown)
    relay.let_go()
    one.report(_11="b")
    expect([it["11"] for it in statuses(one, "585=7|")], ["a"])


def test_last_ended_orders() -> None:
    """The orders that ended last are known, not those that came last."""
    venue, edge, port = pair(1)
    one = Engine(port).log_on()
    rests(one, "first", 1, 1, "40")
    for at in range(MOST_ENDED):
        one.send("D", order(f"a-{at}", 1, 1, "50", more="59=3|"))
        if at % 100 == 0:
            one.report(_150="4", _11=f"a-{at}")
    one.report(_150="4", _11=f"a-{MOST_ENDED - 1}")
    one.send("F", cancel("end", "first", 1))
    one.report(_150="4", _11="end")
    expect(state(status(one, "first"))[:2], ("first", "4"))
    rejected(one, "H", "11=a-0|55=ABC|54=1|", "a-0", "0", "no order of this name rests")


def test_ended_orders() -> None:
    """Of orders that have ended the last ones are known; of one before them that is said, and after a start all is known that
    the journal has."""
    venue, edge, port = pair(1)
    one = Engine(port).log_on()
    for at in range(MOST_ENDED + 2):
        one.send("D", order(f"a-{at}", 1, 1, "50", more="59=3|"))
        if at % 100 == 0:
            one.report(_150="4", _11=f"a-{at}")
    one.report(_150="4", _11=f"a-{MOST_ENDED + 1}")
    rejected(one, "H", "11=a-0|55=ABC|54=1|", "a-0", "0", "no order of this name rests, and how it ended isn't known")
    expect(state(status(one, "a-2"))[:2], ("a-2", "4"))
    edge.kill()
    one.close()
    with open("edge.cfg", encoding="ascii") as file:
        Edge(file.read()).ready(1)
    one.log_on()
    expect(state(status(one, "a-2"))[:2], ("a-2", "4"))


def test_expired_status() -> None:
    """An order that its day has ended is told so."""
    market = Market(EVENING, hours=AT_TEN)
    one = market.engine().log_on()
    rests(one, "a", 1, 10, "50")
    over(market)
    one.report(_150="C")
    expect(state(status(one, "a"))[:2], ("a", "C"))


def test_mass_status() -> None:
    """All orders that rest, of a symbol or a side, each once and the last one marked; what can't be asked is refused."""
    venue, edge, port = pair(1)
    one = Engine(port).log_on()
    for name, side, price, symbol in (("a", 1, "50", "ABC"), ("b", 1, "49", "ABC"), ("c", 2, "60", "ABC"), ("d", 2, "60", "XYZ")):
        rests(one, name, side, 10, price, symbol)
    names = [[it["11"] for it in statuses(one, more)]
             for more in ("585=7|", "585=1|55=ABC|", "585=1|55=ABC|54=1|", "585=7|54=2|", "585=1|55=XYZ|")]
    expect(names, [["a", "b", "c", "d"], ["a", "b", "c"], ["a", "b"], ["c", "d"], ["d"]])
    for more, text in (("585=2|", "MassStatusReqType (585) 2 isn't had: 1 is of a symbol's orders, 7 of all"),
                       ("585=7|55=ABC|", "Symbol (55) stands beside a MassStatusReqType (585) of 7, which is of all symbols"),
                       ("585=1|", "Symbol (55) is missing"), ("585=1|55=NONE|", "Symbol (55) isn't traded here"),
                       ("585=7|54=5|", "Side (54) 5 isn't traded: 1 buys, 2 sells"),
                       ("585=1|55=XYZ|54=1|", "there is no such order")):
        one.send("AF", f"584=wrong|{more}")
        it = fields_of(one.report(_584="wrong"))
        expect((it["150"], it["39"], it["103"], it["58"], it["911"], it["912"]), ("I", "8", "99", f"edge: {text}", "0", "Y"))
    for name in ("n" * 65, "edge-a"):
        rejected(one, "AF", f"584={name}|585=7|", name, "0", "MassStatusReqID (584) isn't of 1 to 64 bytes that print")
    venue.kill()
    edge.hears("C1: the venue: ")
    rejected(one, "AF", "584=away|585=7|", "away", "4", "the venue isn't there")


def test_many_statuses() -> None:
    """More orders than one answer has are refused, and as many as it has are told."""
    venue, edge, port = pair(1, MaxUnsentBytes="65536")
    one, most = Engine(port).log_on(), 65536 // 1024
    for at in range(most):
        one.send("D", order(f"a-{at}", 1, 1, "50"))
    one.report(_150="0", _11=f"a-{most - 1}")
    expect([it["11"] for it in statuses(one, "585=7|")], [f"a-{at}" for at in range(most)])
    rests(one, "more", 2, 1, "60")
    one.send("AF", "584=all|585=7|")
    it = fields_of(one.report(_584="all"))
    expect(it["58"], f"edge: {most + 1} orders are more than one answer has, {most}: ask by Symbol (55) and Side (54)")
    expect(len(statuses(one, "585=7|54=1|")), most)


def test_own_trades() -> None:
    """The trades of a member, all or by their symbols, sides, orders and days, as their reports have them."""
    _, _, port, (one, other) = seen()
    for at, (symbol, side, price) in enumerate((("ABC", 1, "50"), ("XYZ", 2, "10.25"), ("ABC", 2, "51"))):
        rests(one, f"a-{at}", side, 10, price, symbol)
        other.send("D", order(f"t-{at}", 3 - side, 4, price, symbol))
        other.report(_150="F", _11=f"t-{at}")
        fill = fields_of(one.report(_150="F"))
    came = trades(one, "all")
    expect([(it["11"], it["55"], it["54"], it["32"], it["31"]) for it in came],
           [("a-0", "ABC", "1", "4", "50.00"), ("a-1", "XYZ", "2", "4", "10.25"), ("a-2", "ABC", "2", "4", "51.00")])
    expect({tag: came[-1][tag] for tag in ("571", "17", "37", "60", "75", "570")},
           {"571": fill["17"], "17": fill["17"], "37": fill["37"], "60": fill["60"], "75": fill["60"][:8], "570": "N"})
    day = fill["60"][:8]
    for name, more, wanted in (("symbol", "55=ABC|", ["a-0", "a-2"]), ("side", "54=1|", ["a-0"]), ("order", "11=a-1|", ["a-1"]),
                               ("id", f"37={fill['37']}|", ["a-2"]), ("day", f"580=1|75={day}|", ["a-0", "a-1", "a-2"]),
                               ("days", f"580=2|75=20000101|75={day}|", ["a-0", "a-1", "a-2"]),
                               ("other", "580=1|75=20000101|", []), ("none", "11=none|", [])):
        expect([it["11"] for it in trades(one, name, more)], wanted)
    expect([it["11"] for it in trades(other, "others")], ["t-0", "t-1", "t-2"])
    for body, result, text in (("568=a|569=2|", "8", "TradeRequestType (569) 2 isn't had: 0 and 1 are"),
                               ("568=a|569=0|55=NONE|", "1", "Symbol (55) isn't traded here"),
                               ("568=a|569=0|263=1|", "99", "SubscriptionRequestType (263) 1 isn't had: 0 is, or none"),
                               ("568=a|569=0|571=3|", "99", "field 571 isn't one of this venue"),
                               ("568=edge-a|569=0|", "99", "TradeRequestID (568) isn't of 1 to 64 bytes that print"),
                               ("568=a|569=0|580=1|75=2026|", "99", "NoDates (580) isn't of one or two TradeDates (75)")):
        one.send("AD", body)
        it = fields_of(one.report(_35="AQ"))
        expect((it["749"], it["750"], it["55"]), (result, "2", fields_of(body).get("55", "[N/A]")))
        if text not in it["58"]:
            raise Trouble(f"{text!r} wanted: {it}")
    if kept := [data for data, in rows(1, "SELECT bytes FROM messages") if b"\x0135=A" in data and b"\x0135=A\x01" not in data]:
        raise Trouble(f"what is of its moment is kept: {kept[0]}")


def test_trades_that_are_lost() -> None:
    """A request for trades whose answers may be lost, as a ResendRequest says, is refused in words, and can be made again."""
    _, _, port, (one, other) = seen()
    rests(one, "a", 1, 10, "50")
    other.send("D", order("t", 2, 4, "50"))
    one.report(_150="F")
    at_once(one, ("AD", "568=lost|569=0|"), ("2", f"7={one.next}|16=0|"))
    one.report(_35="AQ", _568="lost", _750="0")
    it = fields_of(one.report(_568="lost"))
    expect((it["35"], it["749"], it["750"]), ("AQ", "99", "2"))
    expect(it["58"], "edge: what was told of it may be lost, as a ResendRequest says: ask again")
    expect([it["11"] for it in trades(one, "again")], ["a"])


def test_trades_cost() -> None:
    """What is looked at for a request for trades costs as much as what is sent again: behind a piece the next one waits."""
    _, _, port, (one, other) = seen(MaxReadMessagesPerSecond="100")
    rests(one, "a", 1, FILLS, "50")
    for at in range(FILLS):
        other.send("D", order(f"t-{at}", 2, 1, "50"))
    one.report(_150="F", _39="2")
    began = time.monotonic()
    expect(len(trades(one, "all")), FILLS)
    if time.monotonic() - began < WAITS:
        raise Trouble("more was looked at than may be")


def test_long_gap_of_answers() -> None:
    """Who asks for many numbers of which hardly any message is kept is told so at once: it costs what is sent again."""
    _, edge, port, (one, other) = seen(MaxReadMessagesPerSecond="100")
    rests(one, "a", 1, 10, "50")
    one.close()
    edge.kill()
    changed(1, "UPDATE session SET sender = 500000")
    with open("edge.cfg", encoding="ascii") as file:
        Edge(file.read()).ready(2)
    one.next = 2
    one.log_on()
    one.settle()
    if one.next < 500000:
        raise Trouble(f"{one.next} is next")
    rests(one, "b", 1, 10, "50")


def test_questions_behind_a_partial_resend() -> None:
    """An engine that asks for a part of what it misses, and goes on, is told the market."""
    _, edge, port, (one, other) = seen()
    rests(one, "a", 1, 10, "50")
    one.close()
    edge.hears("C1: the client from")
    for at in range(4):
        other.send("D", order(f"t-{at}", 2, 1, "50"))
    other.report(_150="F", _11="t-3")
    one.connect().has_asked = True  # It asks for less than all.
    one.send("A", "98=0|108=30|")
    one.next_of("A")
    one.send("2", f"7={one.next}|16={one.next}|")
    before = one.next
    await_that("what was asked for", lambda: one.pump(PATIENCE) and one.next > before)
    one.next = one.greatest + 1
    one.settle()
    one.send("V", asks("m", symbols=("ABC",)))
    one.report(_35="W", _262="m")


def test_questions_sent_again() -> None:
    """A question that is sent again since its number was asked for is answered where it was asked in this connection, and
    else passed over: its moment has gone."""
    _, edge, port, (one, other) = seen()
    number, one.out = one.out, one.out + 1
    one.sent[number] = "V", asks("lost", symbols=("ABC",))
    one.settle()
    one.report(_35="W", _262="lost")
    lists(one, "before", "559=4|263=1|")
    one.settle()
    one.close()
    edge.hears("C1: the client from")
    one.log_on()
    at = f"43=Y|122={now(time.time() - 3600)}|"
    for kind, body in (("V", asks("of before")), ("x", "320=of-before|559=4|"), ("AD", "568=of-before|569=0|")):
        number, one.out = one.out, one.out + 1
        one.sent[number] = kind, body
        sure(one.socket).sendall(framed(f"35={kind}|34={number}|49={one.sender}|52={now()}|56={one.target}|{at}{body}"))
    one.settle()
    expect([it for it in one.reports if value(it, "35") in ("W", "X", "Y", "y", "AQ")], [])
    one.send("V", asks("of before", symbols=("ABC",)))
    one.report(_35="W", _262="of before")


def test_verified_with_answers() -> None:
    """A log that has answers beside reports is found to be as the journal tells."""
    _, _, port, (one, other) = seen()
    rests(one, "a", 1, 10, "50")
    status(one, "a")
    statuses(one, "585=7|")
    rests(one, "b", 1, 10, "49")
    expect(verified(1, logged("member.log", one.history)), (2, 0))


def test_no_question_reaches_the_venue() -> None:
    """No question is in the journal, nor in the names of a member's requests."""
    _, _, port, (one, other) = seen()
    names, = rows(1, "SELECT count(*) FROM names")[0]
    before = told(1)
    one.send("V", asks("q"))
    one.report(_35="W")
    lists(one, "q")
    status(one, "q")
    one.send("AF", "584=q|585=7|")
    one.report(_584="q")
    trades(one, "q")
    rests(one, "q", 1, 1, "50")  # The venue takes it behind all that was sent before.
    expect((len(told(1, JOURNAL)), rows(1, "SELECT count(*) FROM names")[0]), (len(before) + 1, (names + 1,)))


TESTS = [test_security_list, test_halts, test_order_status, test_status_under_way, test_status_in_doubt,
         test_last_ended_orders, test_ended_orders, test_expired_status, test_mass_status,
         test_many_statuses, test_own_trades, test_trades_that_are_lost, test_trades_cost, test_long_gap_of_answers, test_questions_behind_a_partial_resend,
         test_questions_sent_again, test_verified_with_answers,
         test_no_question_reaches_the_venue]
