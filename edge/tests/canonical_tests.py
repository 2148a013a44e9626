"""Messages that aren't runs of canonical fields are refused before the library sees them, in FIX's way: none of them ends
the edge, fills its memory, stops a member's thread, or stays in a store that can't be sent again."""
import contextlib
import os
import re
import time
from collections.abc import Callable

import sanitized
from edges import PATIENCE, ROOT, Edge, Trouble, pair, session_files
from engines import Engine, at_rest, now, order, refused
from gikvand.fix import fields_of, framed, value
from gikvand.words import sure
from hostile_tests import logon, sent
from recovery_tests import places
from trading_tests import expect

GARBLED = 10  # So many in a row are passed over, and the last one ends the connection.
KEPT = 200    # So many are kept behind a gap.
STOCK = os.path.join(ROOT, "edge/out/FIX44.xml")
# A field of data, and the field in front that says how long it is, which isn't true.
LENGTHS = ["93=-1|89=x|", "93=2000000000|89=x|", "93=100000|89=x|", "95=-1|96=x|", "95=2000000000|96=x|", "354=9|355=x|"]


def rejected(one: Engine, **wanted: str | None) -> str:
    """The next Reject, whose fields are these, by tag; None is for a field that isn't there."""
    came = one.next_of("35")
    if not came or value(came, "35") != "3":
        raise Trouble(f"{one.sender}: no Reject of {wanted}, but {came}; there were {one.reports[-2:]}")
    got = fields_of(came)
    expect({tag: got.get(tag[1:]) for tag in wanted}, wanted)
    return got["58"]


def raw(one: Engine, fields: str, count: bool = True) -> None:
    """Sends these fields as they are, with this engine's next number, CompIDs and time for NUMBER and HEAD."""
    head = f"49={one.sender}|52={now()}|56={one.target}"
    sure(one.socket).sendall(framed(fields.replace("NUMBER", str(one.out)).replace("HEAD", head)))
    one.out += count


def memory(edge: Edge) -> int:
    """The memory that the process of the first member has, in bytes."""
    if not sanitized.is_measured():
        return 0
    with open(f"/proc/{edge.process_of(1)}/status", encoding="ascii") as file:
        return 1024 * int(sure(re.search(r"VmRSS:\s+(\d+)", file.read()))[1])


def until(one: Engine, holds: Callable[[], object], seconds: float = PATIENCE) -> None:
    """Takes in what comes until this holds."""
    end = time.monotonic() + seconds
    while not holds():
        if time.monotonic() > end:
            raise Trouble(f"{one.sender}: it didn't come to pass; the last that came are {one.came[-3:]}")
        one.pump(0.1)


def trades(one: Engine, name: str) -> None:
    """This member's next order is taken."""
    one.send("D", order(name, 1, 1, "50"))
    one.report(_150="0", _11=name)


def test_lengths_of_data() -> None:
    """A field of data, whose length isn't true: as a Logon it is let go without an answer, as an order it is rejected, and
    who trades goes on."""
    venue, edge, port = pair(2)
    other = at_rest(port, "b", member=2)
    for body in LENGTHS:
        expect(sent(port, logon(body=f"98=0|108=30|{body}")), b"")
        edge.hears("first message can't be read: field")
    one = Engine(port, 1).log_on()
    for at, body in enumerate(LENGTHS):
        one.send("D", order(f"a{at}", 1, 1, "50", more=body))
        tag = body.split("|")[1].split("=")[0]
        rejected(one, _45=str(one.out - 1), _371=tag, _372="D", _373="0")
    trades(one, "a")
    trades(other, "c")


def test_all_data() -> None:
    """Each field that the library's own FIX44.xml has as data is refused as one, and no other field is."""
    if not os.path.exists(STOCK):
        return
    with open(STOCK, encoding="utf-8") as file:
        fields = re.findall(r"<field number='(\d+)' name='\w+' type='(\w+)'", file.read())
    wanted = [tag for tag, kind in fields if kind == "DATA"]
    if len(wanted) < 10 or len(fields) < 900:
        raise Trouble(f"{STOCK} has {len(wanted)} fields of data, of {len(fields)}")
    venue, edge, port = pair()
    one = Engine(port, 1).log_on()
    header = "8 9 35 34 49 56 10 52 43 122".split()
    for tag, _ in fields:
        if tag not in header:
            one.send("0", f"{tag}=1|")
            one.pump()
    one.settle()
    expect([value(it, "371") for it in one.came if "is one of data" in it], wanted)
    expect(sum(value(it, "35") == "3" for it in one.came) > len(fields) / 2, True)


def test_wrapped_numbers() -> None:
    """Numbers and tags that are others by 2 to the 32nd: no MsgSeqNum for the edge, passed over, and soon the end."""
    venue, edge, port = pair()
    one = Engine(port, 1).log_on()
    for fields in ("35=0|4294967330=1000|HEAD|", "35=0|34=-3294967296|HEAD|"):
        begin = memory(edge)
        for _ in range(GARBLED - 1):
            raw(one, fields, False)
        one.settle()
        for _ in range(GARBLED):
            raw(one, fields, False)
        if "10 messages in a row can't be read" not in (one.next_of("5") or ""):
            raise Trouble("what can't be read ends the connection without a word")
        edge.hears("is gone: 10 messages in a row")
        until(one, lambda: not one.socket)
        expect(memory(edge) - begin < 1 << 24, True)
        one.close()
        one.log_on()
    one.send("0", "4294967330=1000|")
    rejected(one, _371=None, _372="0", _373="0")
    trades(one, "a")


def test_far_behind_a_gap() -> None:
    """More comes behind a gap than the edge keeps: its memory stays, and all of it is taken once when the gap is filled."""
    venue, edge, port = pair(2)
    one, begin = Engine(port, 1).log_on(), memory(edge)
    parties = "453=60|" + 60 * "448=x|447=D|452=1|"
    number = one.out
    for at in range(1, 5000):
        one.write("D", order(f"a{at}", 1, 1, "50", more=parties), number + at)
    one.write("2", "7=1|16=0|", number + 5000)  # Answered at once, behind all others.
    until(one, lambda: any(value(it, "35") == "4" for it in one.came))
    grown = memory(edge) - begin
    if grown > 40 << 20:
        raise Trouble(f"5000 messages behind a gap take {grown >> 20} MB")
    one.close()
    other, wanted = Engine(port, 2).log_on(), []
    for gap in "bc":  # The second one finds the places free again that the first one took.
        missing, other.out = other.out, other.out + 1
        other.sent[missing] = "D", order(gap, 1, 1, "50")
        for at in range(3 * KEPT):
            other.send("D", order(f"{gap}{at}", 1, 1, "50"))
        wanted += [gap, *(f"{gap}{at}" for at in range(3 * KEPT))]
        other.report(_150="0", _11=wanted[-1])
    expect([value(it, "11") for it in other.history], wanted)


def test_gaps_without_end() -> None:
    """A member passes over numbers again and again behind which it has sent something: that isn't kept without a bound."""
    venue, edge, port = pair()
    one = Engine(port, 1).log_on()
    with contextlib.suppress(OSError):
        for _ in range(2 * KEPT):
            one.write("0", "", one.out + 1)
            one.write("4", f"123=Y|36={one.out + 3}|")
            one.out += 3
    edge.hears("is gone: too many gaps in its numbers")
    one.close()
    one.sent = {number: ("0", "") for number in range(1, one.out)}
    one.log_on()
    trades(one, "a")


def test_byte_0_in_a_name() -> None:
    """A byte 0 in a ClOrdID is rejected, and isn't kept where it would end what is sent again."""
    venue, edge, port = pair(2)
    one, other = at_rest(port, "a", 10), Engine(port, 2).log_on()
    one.send("D", order("A\0B", 1, 1, "50"))
    rejected(one, _371="11", _372="D", _373="6")
    for at in range(3):
        other.send("D", order(f"b{at}", 2, 1, "50"))
        one.report(_150="F")
    one.next = 2
    one.history.clear()
    one.send("2", "7=2|16=0|")
    one.settle()
    expect([value(it, "150") for it in one.history], ["0", "F", "F", "F"])


def test_numbers_of_the_session() -> None:
    """Numbers below 0, above nine digits or in the wrong order: rejected at once, and the session's own numbers stay."""
    venue, edge, port = pair()
    one = at_rest(port, "a")
    for kind, body, tag, reason in (("2", "7=-2147483648|16=0|", "7", "6"), ("2", "7=1|16=-1|", "16", "6"),
                                    ("2", "7=5|16=3|", "16", "5"), ("2", "7=0|16=0|", "7", "5"),
                                    ("2", "7=4294967297|16=0|", "7", "5"), ("4", "36=2147483647|", "36", "5"),
                                    ("4", "123=Y|36=+5|", "36", "6"), ("4", "123=Y|36=-2147483648|", "36", "6"),
                                    ("2", "7=1|7=2|16=0|", "7", "13")):
        one.send(kind, body)
        rejected(one, _45=str(one.out - 1), _371=tag, _372=kind, _373=reason)
    trades(one, "b")
    one.close()
    for body in ("98=0|108=-1|", "98=0|108=2147483647|", "98=0|108=x|", "98=0|108=30|108=0|", "98=0|108=30|141=N|141=Y|"):
        expect(sent(port, logon(number=one.out, body=body)), b"")
        edge.hears("first message can't be read: field")
    one.log_on()
    trades(one, "c")


def test_wrapped_type() -> None:
    """A Logon whose MsgType has a tag that is another by 2 to the 32nd: no way round what a reset asks for."""
    venue, edge, port = pair()
    one = at_rest(port, "a")
    raw(one, "4294967331=A|34=NUMBER|HEAD|98=0|108=30|141=Y|", False)
    edge.hears("a message can't be read: 8=FIX.4.4|9=")
    trades(one, "b")
    expect(places(1), [1, 2])


# What stands in an order behind its other fields, and the Reject: its field, its reason, and a word of its text.
FORMS = [("58=|", "58", "4", "no value"), ("58=a\x80b|", "58", "6", "doesn't print"), ("58=a\nb|", "58", "6", "doesn't print"),
         ("58=\x7f|", "58", "6", "doesn't print"), ("058=a|", None, "0", "tag"), ("100000=a|", None, "0", "tag"),
         ("0=a|", None, "0", "tag"), ("43=N|43=Y|", "43", "13", "twice"),
         ("58=x|" * 200, None, "99", "more than 200 fields")]


def test_refused_forms() -> None:
    """Each kind of field that isn't canonical: a Reject with number, field, type and reason, and the session goes on."""
    venue, edge, port = pair()
    one = Engine(port, 1).log_on()
    for at, (more, tag, reason, word) in enumerate(FORMS):
        name = f"a{at}"
        one.send("D", order(name, 1, 1, "50", more=more))
        text = rejected(one, _45=str(one.out - 1), _371=tag, _372="D", _373=reason)
        if word not in text or not text.startswith("edge: "):
            raise Trouble(f"{more!r} was rejected by {text!r}")
        trades(one, name)
    expect(([it for it in one.came if "|35=2|" in it], len(places(1))), ([], len(FORMS)))
    with open(f"{session_files(1, 'log')}messages.current.log", "rb") as file:
        lines = file.read().splitlines()
    expect([line for line in lines if not re.fullmatch(rb"\d{8}-[0-9:.]+ : 8=FIX[ -~\x01]*", line)], [])


# Fields of a message whose header isn't canonical, or that has what is no field, and how what is said of it begins.
PASSED = "8=FIX.4.4|9="
BAD_HEADERS = [("35=0|HEAD|", "field 34 is missing"), ("35=0|34=NUMBER|34=NUMBER|HEAD|", "field 34 stands twice"),
               ("35=0|34=x|HEAD|", PASSED), ("35=0|34=|HEAD|", PASSED), ("35=0|34=1234567890|HEAD|", PASSED),
               ("34=NUMBER|35=0|HEAD|", PASSED), ("35=|34=NUMBER|HEAD|", PASSED),
               ("35=0|34=NUMBER|56=GIKVAND|", "field 49 is missing"),
               ("35=0|34=NUMBER|49=DESK-A|", "field 56 is missing"), ("35=0|34=NUMBER|HEAD|35=D|", "field 35 stands twice"),
               ("35=0|34=NUMBER|HEAD|49=x|", "field 49 stands twice"), ("35=\x02|34=NUMBER|HEAD|", PASSED),
               ("35=0|34=NUMBER|HEAD|58=|34=1|", "field 34 stands twice"), ("35=0|34=x|HEAD|34=NUMBER|", "field 34 "),
               *((f"35=0|34=NUMBER|HEAD|{field}|", PASSED) for field in ("+58=a", "-58=a", "x=a", "=a", "58", "", "5 8=a"))]


def test_garbled_headers() -> None:
    """A message whose header isn't canonical is passed over, and asked for when the next one comes."""
    venue, edge, port = pair()
    one = Engine(port, 1).log_on()
    for at, (fields, word) in enumerate(BAD_HEADERS):
        number = one.out
        one.sent[number] = "D", order(f"a{at}", 1, 1, "50")
        raw(one, fields)
        edge.hears(f"C1: a message can't be read: {word}")
        trades(one, f"b{at}")
        expect([value(it, "11") for it in one.history[-2:]], [f"a{at}", f"b{at}"])


def test_refused_out_of_turn() -> None:
    """What isn't canonical and has another number than the next: asked for later, passed over, or the session's end."""
    venue, edge, port = pair()
    one = Engine(port, 1).log_on()
    lost, one.out = one.out, one.out + 1
    one.sent[lost] = "D", order("a", 1, 1, "50")
    one.send("D", order("b", 1, 1, "50", more="58=|"))
    bad = one.out - 1
    trades(one, "c")
    expect([value(it, "11") for it in one.history], ["a", "c"])
    rejected(one, _45=str(bad), _371="58", _373="4")
    one.write("D", order("d", 1, 1, "50", more="58=|"), lost, f"43=Y|122={now()}|")
    trades(one, "e")
    one.write("D", order("f", 1, 1, "50", more="58=|"), lost)
    if f"MsgSeqNum too low, expecting {one.out} but received {lost}" not in (one.next_of("5") or ""):
        raise Trouble("a number that is too low wasn't refused by a Logout")
    one.close()
    one.log_on().settle()
    one.sender = "DESK-B"
    one.send("D", order("g", 1, 1, "50", more="58=|"))
    one.sender = "DESK-A"
    if "is another one" not in (one.next_of("5") or ""):
        raise Trouble("another CompID wasn't refused by a Logout")
    one.close()
    one.out -= 1
    one.log_on()
    trades(one, "h")
    refused(Engine(port, 1, sender="DESK-A\n"), "wasn't answered")


TESTS = [test_lengths_of_data, test_all_data, test_wrapped_numbers, test_far_behind_a_gap, test_gaps_without_end,
         test_byte_0_in_a_name, test_numbers_of_the_session, test_wrapped_type, test_refused_forms, test_garbled_headers,
         test_refused_out_of_turn]
