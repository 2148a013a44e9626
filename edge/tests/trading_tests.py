"""Members trade through the edge: QuickFIX's own client as it comes, and what becomes of each field of an order."""
import os
import re
from collections.abc import Iterable

from edges import DICTIONARY, ROOT, Trouble, pair, session_files, stored, told
from engines import Engine, cancel, order, replace
from gikvand.fix import fields_of, value
from gikvand.words import sure
from tradeclients import STOCK, TradeClient
from venues import expect

TOLD = ["r", "W", "X", "Y", "y", "f", "AE", "AQ"]  # Types that the edge alone sends.


def logged(member: int) -> list[str]:
    """What passed between a member and the edge, by the edge's log."""
    with open(session_files(member, "log") + "messages.current.log", encoding="ascii") as file:
        return file.read().replace("\x01", "|").splitlines()


def rejects(lines: Iterable[str]) -> list[str]:
    """Those of a log's messages that reject another one, but for a Logon that came too early: its member tries again."""
    return [it for it in lines if ("|35=3|" in it or "|35=j|" in it) and "|372=A|" not in it]


def is_as_documented(lines: list[str]) -> None:
    """The first messages of the day are those that docs/EDGE.md shows, but for times, lengths and sums."""
    with open(os.path.join(ROOT, "docs/EDGE.md"), encoding="utf-8") as file:
        shown = [line for line in file.read().splitlines() if line.startswith("8=FIX.4.4|")]
    came = [line[line.index("8=FIX"):] for line in lines[:len(shown)]]
    vary = re.compile(r"\|(9|10|52|60|122)=[^|]*")
    for one, other in zip(shown, came, strict=True):
        expect(vary.sub("", other), vary.sub("", one))


def test_tradeclients() -> None:
    """The unchanged client trades with another one, is killed, comes back, and is sent again what it missed. One has the library's own
    dictionary, and the other one the edge's."""
    venue, edge, port = pair(2)
    one, other = TradeClient(port, 1).logged_on(), TradeClient(port, 2, dictionary=DICTIONARY).logged_on()
    one.order("ORD-7", 1, 100, "50.25")
    got = fields_of(one.report(_150="0"))
    expect([got[tag] for tag in ("11", "38", "44", "55", "54", "151")], ["ORD-7", "100", "50.25", "ABC", "1", "100"])
    other.order("first", 2, 40, "50.2")
    other.report(_150="0", _11="first", _44="50.20")
    expect(value(other.report(_150="F"), "31"), "50.25")
    fill = one.report(_150="F")
    got = fields_of(fill)
    expect([got[tag] for tag in ("11", "39", "32", "31", "151", "14", "6")],
           ["ORD-7", "1", "40", "50.25", "60", "40", "50.25"])
    one.has_counted(fill)
    one.kill()
    edge.hears("C1: the client from")
    other.order("second", 2, 60, "50.25")
    other.report(_150="F", _39="2", _11="second")
    back = TradeClient(port, 1).logged_on()
    got = fields_of(back.report(_150="F"))
    expect([got[tag] for tag in ("11", "39", "32", "43", "151")], ["ORD-7", "2", "60", "Y", "0"])
    back.order("ORD-8", 2, 10, "51")
    back.report(_150="0", _11="ORD-8")
    back.replace("ORD-9", "ORD-8", 2, 12, "51.50")
    expect(value(back.report(_150="5"), "44"), "51.50")
    back.cancel("ORD-10", "ORD-9", 2, 12)
    expect(value(back.report(_150="4", _11="ORD-10"), "41"), "ORD-9")
    back.cancel("ORD-11", "ORD-9", 2, 12)
    expect(value(back.report(_35="9"), "102"), "1")
    is_as_documented(logged(1))
    for member in (1, 2):
        if wrong := rejects(logged(member)):
            raise Trouble(f"something was rejected: {wrong[0]}")


def test_each_report() -> None:
    """Each kind of report, as the venue tells it, with the member's names and prices."""
    venue, edge, port = pair(2)
    one, other = Engine(port, 1).log_on(), Engine(port, 2).log_on()
    one.send("D", order("a b=c", 1, "100.00", "50.00"))
    got = fields_of(one.report(_150="0"))
    expect({tag: got.get(tag) for tag in ("37", "17", "39", "11", "54", "38", "44", "151", "14", "6")},
           {"37": "1", "17": "1", "39": "0", "11": "a b=c", "54": "1", "38": "100", "44": "50.00", "151": "100",
            "14": "0", "6": "0.00"})
    other.send("D", order("m", 2, 30, "", more="59=3|").replace("40=2|44=|", "40=1|"))
    got = fields_of(other.report(_150="0"))
    expect((got.get("44"), got["11"]), (None, "m"))
    expect(value(other.report(_150="F", _39="2"), "31"), "50.00")
    one.report(_150="F", _39="1", _32="30")
    one.send("G", replace("a2", "a b=c", 1, 90, "50"))
    expect(value(one.report(_150="5", _39="1"), "41"), "a b=c")
    other.send("D", order("f", 2, 99, "50", more="59=4|"))
    other.report(_150="0", _11="f")
    other.report(_150="4", _11="f", _39="4")
    one.send("F", cancel("a3", "a2", 1).replace("38=1|", ""))  # FIX lets a cancel leave its OrderQty out.
    expect(value(one.report(_150="4"), "41"), "a2")
    one.send("G", replace("a4", "a2", 1, 90, "50"))
    expect(value(one.report(_35="9", _434="2"), "102"), "1")
    one.send("D", order("x1", 1, 10, "0.25", symbol="XYZ"))
    expect(value(one.report(_150="0"), "44"), "0.25")
    one.log_out()
    for member in (1, 2):
        expect(len([it for it in stored(member) if "|17=" in it or "|434=" in it]), len(told(member)))


REFUSED = [  # A body, tags of the refusal, and a word of its text.
    (order("p1", 1, 10, "50.005"), {"103": "99", "44": "50.005", "6": "0.00"}, "steps of 0.01"),
    (order("p2", 1, 10, "-1"), {"103": "99"}, "Price (44)"),
    (order("p3", 1, 10, "10000.01"), {"103": "99"}, "Price (44)"),
    (order("q1", 1, "0.5", "50"), {"103": "99", "44": "50.00"}, "OrderQty (38)"),
    (order("q4", 1, "10.5", "50"), {"103": "99"}, "OrderQty (38) 10.5 isn't a whole number"),
    (order("q5", 1, "999999.9", "50"), {"103": "99"}, "OrderQty (38)"),
    (order("q2", 1, 1000001, "50"), {"103": "99"}, "OrderQty (38) 1000001 isn't a whole number"),
    (order("q3", 1, 10, "50").replace("38=10|", ""), {"103": "99"}, "OrderQty (38) is missing"),
    (order("s1", 5, 10, "50"), {"103": "99"}, "Side (54)"),
    (order("t1", 1, 10, "50", more="59=6|"), {"103": "99", "44": "50.00", "6": "0.00"},
     "TimeInForce (59) 6 isn't traded: 0, 1, 3 and 4 are"),
    (order("t2", 1, 10, "50", more="59=2|"), {"103": "99"}, "TimeInForce (59) 2"),
    (order("u1", 1, 10, "50", symbol="NONE"), {"103": "1", "44": "50", "6": "0"}, "Symbol (55)"),
    (order("o1", 1, 10, "50").replace("40=2", "40=3"), {"103": "99"}, "OrdType (40)"),
    (order("o2", 1, 10, "50").replace("40=2", "40=1"), {"103": "99"}, "Price (44)"),
    (order("o3", 1, 10, "50", more="110=5|"), {"103": "99"}, "field 110"),
    (order("edge-1", 1, 10, "50"), {"103": "99"}, "ClOrdID (11)"),
    (order("x" * 65, 1, 10, "50"), {"103": "99"}, "ClOrdID (11)"),
]


COPIED = ("11", "38", "54", "55")  # Fields that a refusal of an order has out of the order, as they are.


def test_refused_fields() -> None:
    """What the venue doesn't have is refused in words, and never reaches it; what the settings drop is dropped. Each
    refusal has an ExecID of its own, and what the order said of itself."""
    venue, edge, port = pair()
    one, ids = Engine(port, 1).log_on(), set()
    for body, tags, word in REFUSED:
        one.send("D", body)
        got, asked = fields_of(one.report(_150="8")), fields_of(f"|{body}")
        if any(got.get(tag) != wanted for tag, wanted in tags.items()) or word not in got["58"]:
            raise Trouble(f"{body} was refused by {got}")
        expect({tag: got.get(tag) for tag in COPIED}, {tag: asked.get(tag) for tag in COPIED})
        ids.add(got["17"])
    expect(len(ids), len(REFUSED))
    one.send("D", order("good", 1, 10, "50", more="1=ACC|15=USD|528=A|"))
    expect(value(one.report(_150="0"), "17"), "1")
    one.send("D", order("good", 1, 10, "50"))
    got = fields_of(one.report(_150="8"))
    expect([got[tag] for tag in ("103", "6", "44")], ["6", "0.00", "50.00"])
    one.write("D", order("good", 1, 10, "50"), head="43=N|")
    one.out += 1
    expect(value(one.report(_150="8"), "103"), "6")
    one.send("F", cancel("c1", "never", 1))
    expect(value(one.report(_35="9"), "102"), "1")
    one.send("F", cancel("good", "good", 1))
    expect(value(one.report(_35="9"), "102"), "6")
    one.send("G", replace("g1", "good", 1, 10, "50").replace("40=2", "40=1"))
    expect(value(one.report(_35="9", _434="2"), "39"), "0")
    one.send("R", "131=q|146=1|55=ABC|")
    one.send("D", order("last", 1, 10, "50"))
    one.report(_150="0", _11="last")
    expect([len(told(1)), len([it for it in one.came if "|35=j|" in it or "|35=3|" in it])], [2, 1])


def test_other_types() -> None:
    """Each type of FIX 4.4 that the edge has nothing to do with, or only sends, is answered by a BusinessMessageReject, and
    counts; what is no type of FIX by a Reject."""
    with open(DICTIONARY, encoding="utf-8") as file:
        own = re.findall(r'<message [^>]*msgtype="([^"]*)"', file.read())
    types = ["6", "B", "R", "W", "AE", "BH", "n"]
    if os.path.exists(STOCK):
        with open(STOCK, encoding="utf-8") as file:
            types = [it for it in re.findall(r"<message [^>]*msgtype='([^']*)'", file.read()) if it not in own or it in TOLD]
        expect(len(types), 74)
    venue, edge, port = pair()
    one = Engine(port, 1).log_on()
    for it in types:
        one.send(it, "131=q|146=1|55=ABC|")
        got = fields_of(one.report(_35="j"))
        expect((got["45"], got["372"], got["380"]), (str(one.out - 1), it, "3"))
    for it in ("I", "O", "U", "BI", "ZZ", "AAA", "a1"):
        one.send(it)
        expect(value(sure(one.next_of("3")), "373"), "11")
    one.send("D", order("a", 1, 10, "50"))
    one.report(_150="0")
    expect([it for it in one.came if "|35=2|" in it], [])


def test_last_capacity() -> None:
    """LastCapacity stands in reports of fills where the settings ask for it, and not elsewhere."""
    venue, edge, port = pair(2, LastCapacity="1")
    one, other = Engine(port, 1).log_on(), Engine(port, 2).log_on()
    one.send("D", order("a", 1, 10, "50"))
    expect(value(one.report(_150="0"), "29"), None)
    other.send("D", order("b", 2, 10, "50"))
    expect(value(other.report(_150="F"), "29"), "1")


def tags(report: str) -> tuple[list[int], list[int]]:
    """The tags of a report: those of its header, and those of its body."""
    those = [int(tag) for tag in fields_of(report)]
    return those[:7], those[7:-1]


def test_written_as_by_the_session() -> None:
    """Reports of the venue, which the edge writes itself, have the header of what the library writes, the form of its times,
    and the fields of their bodies in its order."""
    venue, edge, port = pair(TimestampPrecision="6", LastCapacity="1")
    one = Engine(port, 1).log_on()
    one.send("D", order("no", 1, 1, "50.001"))
    librarys = one.report(_150="8")
    for name, side in (("a", 1), ("b", 2)):
        one.send("D", order(name, side, 1, "50"))
    one.send("F", cancel("c", "a", 1))
    for it in (librarys, one.report(_150="0"), one.report(_150="F"), one.report(_35="9")):
        head, body = tags(it)
        expect((head, body, len(sure(value(it, "52")))), (tags(librarys)[0], sorted(body), len(sure(value(librarys, "52")))))


TESTS = [test_tradeclients, test_each_report, test_refused_fields, test_other_types, test_last_capacity,
         test_written_as_by_the_session]
