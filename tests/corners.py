"""Sessions of C1 that go to the corners of the rules of docs/PROFILE.md: what just fits, and what just doesn't. Not a test:
tests import it. What the venue has to answer stands in tests/oracle; these are the bytes alone."""
from collections.abc import Iterator
from typing import Any, NamedTuple

from gikvand import journals
from gikvand.fix import sealed
from gikvand.journals import Entry
from oracle import book_rules
from venues import TIME, market_order, message, order

SYMBOLS = ("ABC", "XYZ")
MILLION, MOST_NAME = 1_000_000, 10 ** 15 - 1
FULL = book_rules.MOST_RESTING - 2  # How many orders rest in the book in which there is hardly room.
LOGON = ("A", "98=0|108=0|141=Y|")
EMPTY, OLD, CROWDED = "empty", "old", "crowded"

Sent = tuple[str, str] | bytes  # A message of the session, by its type and its body; or any bytes.


class Corner(NamedTuple):
    """Bytes, and the journal at which they are sent: a new one, one of version 1, or one with a book that is all but full.
    Of some the book is looked at behind them."""
    name: str
    journal: str
    data: bytes
    shows_book: bool = False


def spelled(*sent: Sent) -> bytes:
    """The bytes of a session. Messages are numbered from 1 on; other bytes take a number too."""
    return b"".join(it if isinstance(it, bytes) else message(1, at, *it) for at, it in enumerate(sent, 1))


def crowd(at: int) -> tuple[str, int]:
    """The symbol and the ClOrdID of an order of C2 in the crowded book, from 1 on."""
    return SYMBOLS[at % 2], at


def data_of(journal: str) -> bytes | None:
    """The bytes of such a journal, or None where it isn't there yet."""
    if journal == EMPTY:
        return None
    if journal == OLD:
        return journals.empty(1)
    orders = [order(name, 2, MILLION, MILLION, symbol) for symbol, name in map(crowd, range(1, FULL + 1))]
    entries = [Entry(2, message(2, 1 + at, "D", body)) for at, body in enumerate(orders, 1)]
    return journals.header(3) + journals.in_blocks(3, entries, journals.MOST_IN_A_BLOCK) + journals.CLOSED


def book_of(journal: str, rules: Any = book_rules) -> book_rules.Book:
    """The book behind such a journal, by these rules."""
    book = rules.Book(SYMBOLS, journals.MOST_ENTRIES if journal == OLD else 0)
    if journal == CROWDED:
        book.resting = [rules.Order(at, 2, name, symbol.encode(), b"2", MILLION, MILLION, stamp=at - 1)
                        for at, (symbol, name) in ((at, crowd(at)) for at in range(1, FULL + 1))]
        book.commands = book.outputs = book.greatest[2] = FULL
    return book


def header(number: int = 2, kind: str = "0", sender: str = "C1", target: str = "VENUE", time: str = TIME) -> str:
    return f"35={kind}|49={sender}|56={target}|34={number}|52={time}|"


def whole(fields: str) -> bytes:
    """The frame round these fields."""
    return sealed(fields.replace("|", "\x01").encode("latin-1"))


def cut(name: int, was: int, symbol: str = "ABC", side: int = 1, quantity: int = 5, more: str = "") -> tuple[str, str]:
    """A cancel request."""
    return "F", f"41={was}|11={name}|55={symbol}|54={side}|60={TIME}|38={quantity}|{more}"


def change(name: int, was: int, quantity: int, price: int, side: int = 1, symbol: str = "ABC",
           more: str = "") -> tuple[str, str]:
    """A cancel/replace request."""
    return "G", f"41={was}|11={name}|55={symbol}|54={side}|60={TIME}|38={quantity}|40=2|44={price}|{more}"


def buy(name: int, quantity: int, price: int, symbol: str = "ABC", more: str = "") -> tuple[str, str]:
    return "D", order(name, 1, quantity, price, symbol, more)


def sell(name: int, quantity: int, price: int, symbol: str = "ABC", more: str = "") -> tuple[str, str]:
    return "D", order(name, 2, quantity, price, symbol, more)


def market(name: int, side: int, quantity: int, symbol: str = "ABC", more: str = "") -> tuple[str, str]:
    return "D", market_order(name, side, quantity, symbol, more)


def frames() -> Iterator[tuple[str, bytes]]:
    """Bytes that are no frame, and the nearest that are one, behind a Logon."""
    begun = b"8=FIX.4.4\x019="
    right = whole(header())
    for text in ("8=FIX.4.2|9=46|", "9=46|", "8=FIX.4.4|8=46|", "8=FIX.4.4|10=46|", "8=FIX.4.4|9:46|"):
        yield f"begun by {text}", text.replace("|", "\x01").encode()
    for text in ("8=FIX.4.2", "8=FIX.4.4|8", "8=FIX.4.4|9=0", "8=FIX.4.4|9=|", "8=FIX.4.4|9=4|", "8=FIX.4.4|9=298",
                 "8=FIX.4.4|9=1x", "8=FIX.4.4|9=5|"):
        yield f"up to {text}", text.replace("|", "\x01").encode()
        yield f"up to {text}, but for a byte", text.replace("|", "\x01").encode()[:-1]
    for length in ("4|", "5x", "|", "0", "05|", "+5|", "-5|", " 5|", "298", "299", "300", "1000", "2970", "29|", "46,"):
        yield f"a length of {length}", begun + length.replace("|", "\x01").encode() + b"35=0" + 40 * b"\x01"
    spare = right[:-7].replace(b"9=", b"9=0")
    yield "a length with a zero in front", spare + b"10=%03d\x01" % (sum(spare) % 256)
    yield "a body of 5 bytes", whole("35=0|")
    yield "a body of 4 bytes", whole("35=|")
    room = 297 - len(header()) - len("58=|")
    yield "a body of 297 bytes", whole(f"{header()}58={room * 'x'}|")
    yield "a body of 298 bytes", whole(f"{header()}58={(room + 1) * 'x'}|")
    yield "a body without an end", sealed(header().replace("|", "\x01").encode()[:-1])
    summed = right[:-7] + b"11="
    for name, trailer in (("11", b"11=" + right[-4:]), ("1O", b"1O=" + right[-4:]), ("two digits", b"10=%02d\x01\x01" % 49),
                          ("another sum", b"10=%03d\x01" % ((int(right[-4:-1]) + 1) % 256)),
                          ("another end", right[-7:-1] + b"|"), ("256 more", b"10=%03d\x01" % (int(right[-4:-1]) + 256))):
        yield f"a trailer of {name}", right[:-7] + trailer
    yield "no trailer", summed
    for field in ("058=x", "0=x", "100000=x", "58", "58=", "=x", "5x=x", "-5=x", "58 =x", "", "99999=x", "58==",
                  "58=\x7f\xff"):
        yield f"the field {field!a}", whole(f"{header()}{field}|")
    yield "another first field", whole(f"49=C1|35=0|56=VENUE|34=2|52={TIME}|")


def headers() -> Iterator[tuple[str, bytes]]:
    """Headers that are wrong in one thing, or in two, behind a Logon."""
    for number in ("0", "1", "3", "02", "+2", "2x", "-2", "999999999", "1000000000", "99999999999"):
        yield f"the number {number}", whole(header().replace("34=2", f"34={number}"))
    for time in ("20250102-09:30:0", "20250102 09:30:00", "2025010209:30:000", "20250102-09.30.00", "x0250102-09:30:00",
                 "20250102-09:30:00.000", "99999999-99:99:99"):
        yield f"the time {time}", whole(header(time=time))
    for sender, target in (("C2", "VENUE"), ("c1", "VENUE"), ("C11", "VENUE"), ("C1", "C1"), ("C1", "VENUE2"),
                           ("VENUE", "C1")):
        yield f"from {sender} to {target}", whole(header(sender=sender, target=target, time="20250102-09:30:09"))
        yield f"from {sender} to {target}, number 3", whole(header(3, sender=sender, target=target))
    fields = header().split("|")[:-1]
    for at in range(1, 5):
        less = [it for place, it in enumerate(fields) if place != at]
        yield f"no {fields[at]}", whole("|".join(less) + "|")
        yield f"{fields[at]} twice", whole("|".join(fields[:at] + [fields[at]] + fields[at:]) + "|")
    yield "34 behind 35", whole(f"35=0|34=2|49=C1|56=VENUE|52={TIME}|")
    yield "50 in the header", whole(f"35=0|49=C1|50=x|56=VENUE|34=2|52={TIME}|")


def messages() -> Iterator[tuple[str, bytes]]:
    """Messages of the session's own, behind a Logon."""
    for kind, body in (("0", ""), ("0", "58=x|112=y|"), ("3", ""), ("3", "45=1|"), ("5", ""), ("5", "58=bye|"),
                       ("A", LOGON[1]),
                       ("A", "98=0|108=30|141=Y|"), ("1", "112=hi|"), ("1", f"112={32 * 'x'}|"), ("1", f"112={33 * 'x'}|"),
                       ("1", ""), ("1", "58=hi|"), ("1", "112=a|112=b|"), ("1", "112=a|58=b|"), ("1", "112=a=b|"), ("2", ""),
                       ("4", ""), ("8", ""), ("9", ""), ("B", ""), ("DD", ""), ("a", ""), ("j", "")):
        yield f"{kind} with {body[:20]}", message(1, 2, kind, body) + message(1, 3, "1", "112=behind it|")


def sessions() -> Iterator[tuple[str, bytes]]:
    """How a session may begin and end."""
    for name, sent in (("nothing", ()), ("an order first", (buy(1, 1, 50),)), ("a Heartbeat first", (("0", ""),)),
                       ("a Logout first", (("5", ""),)), ("a TestRequest first", (("1", "112=x|"),)), ("2 first", (("2", ""),))):
        yield name, spelled(*sent)
    for body in ("", "98=0|108=30|141=Y|", "98=1|108=0|141=Y|", "98=0|108=0|141=N|", "98=0|141=Y|108=0|", "98=0|108=0|",
                 "98=0|108=0|141=Y|58=x|", "58=x|"):
        yield f"a Logon of {body}", spelled(("A", body), ("1", "112=x|"))
    yield "a Logon of number 2", message(1, 2, *LOGON)
    yield "no byte", b""
    yield "a fault before any header", b"8=FIX.5"
    yield "a wrong header before any other", whole(header(1, "A", time="x"))
    yield "another time, and a fault", spelled(LOGON, whole(header(time="20250102-09:30:07")), b"8=FIX.5")
    yield "another time of a test", spelled(LOGON, whole(f"{header(kind='1', time='20250102-09:30:07')}112=x|"), ("5", ""))
    yield "bytes behind a Logout", spelled(LOGON, ("5", ""), ("1", "112=x|"))
    yield "orders behind a refused message", spelled(LOGON, ("2", ""), buy(1, 1, 50))
    yield "half a message", spelled(LOGON, ("0", ""))[:-3]


def spellings() -> Iterator[tuple[str, Sent]]:
    """New orders, cancels and replaces with one field of another value."""
    numbers = ["0", "1", "01", "00", "+1", "-1", "1.0", " 1", "1 ", "1e3", "x", "999999", "1000000", "1000001", "10000000",
               "999999999999998", "999999999999999", "1000000000000000", "18446744073709551617"]
    symbols = ["ABCDEFG", "ABCDEFGH", "ABCDEFGHI", "abc", "AB1", "X9", "9", "A B", "A-B", "XYZ"]
    times = ["20250102-09:30:0", "20250102 09:30:00", "99999999-99:99:99", "20250102-09:30:00.000", "2025x102-09:30:00"]
    values = {"11": numbers, "41": numbers, "38": numbers, "44": numbers, "40": ["0", "1", "2", "3", "22", "P"],
              "54": ["0", "1", "2", "3", "5", "12"], "59": ["0", "1", "2", "3", "4", "6", "03", "x"], "55": symbols,
              "60": times}
    forms = {"D": buy(3, 5, 60, more="59=0|"), "F": cut(3, 2), "G": change(3, 2, 6, 50, more="59=0|"), "M": market(3, 1, 5)}
    for form, (kind, body) in forms.items():
        for tag, others in values.items():
            before, found, rest = f"|{body}".partition(f"|{tag}=")
            for value in others if found else []:
                yield f"{form}, {tag}={value}", (kind, f"{before}{found}{value}|{rest.partition('|')[2]}"[1:])


def shapes() -> Iterator[tuple[str, Sent]]:
    """New orders, cancels and replaces with a field too few, too many, or twice, and with two faults at once."""
    forms = {"D": buy(3, 5, 60), "F": cut(3, 2), "G": change(3, 2, 6, 50), "M": market(3, 1, 5),
             "D, day": buy(3, 5, 60, more="59=0|")}
    extra = ["1=x", "21=1", "40=2", "41=2", "44=50", "59=0", "59=3", "112=x", "99999=x"]
    for form, (kind, body) in forms.items():
        fields = body.split("|")[:-1]
        for at, field in enumerate(fields):
            less = fields[:at] + fields[at + 1:]
            yield f"{form} without {field[:3]}", (kind, "|".join(less) + "|")
            yield f"{form}, twice {field[:3]}", (kind, "|".join(fields + [field]) + "|")
            yield f"{form}, {field[:3]} twice, another one missing", (kind, "|".join(less[1:] + [less[-1]]) + "|")
        for field in extra:
            yield f"{form} with {field}", (kind, f"{body}{field}|")
        for field in ("8=FIX.4.4", "9=1", "35=D", "49=C1", "56=VENUE", "34=2", f"52={TIME}", "10=000"):
            yield f"{form} with {field[:3]} again", (kind, f"{body}{field}|")
        yield f"{form}, two foreign", (kind, f"{body}21=1|1=x|")
        yield f"{form}, foreign and missing", (kind, "|".join(fields[1:] + ["21=1"]) + "|")
        yield f"{form}, two missing", (kind, "|".join(fields[2:]) + "|")
        yield f"{form}, missing and badly written", (kind, "|".join(fields[1:]).replace("54=1", "54=12") + "|")
        yield f"{form}, badly written and out of range", (kind, body.replace("54=1", "54=3").replace("38=5", "38=x"))
        low = body.replace("38=5", "38=0").replace("38=6", "38=0")
        yield f"{form}, two out of range", (kind, low.replace("54=1", "54=3"))
        yield f"{form}, two badly written", (kind, body.replace("54=1", "54=33").replace("38=", "38=0"))
        yield f"{form} in another order", (kind, "|".join(reversed(fields)) + "|")


def days() -> Iterator[tuple[str, list[Sent]]]:
    """What the book does, each from an empty one on."""
    two = [sell(1, 5, 50), sell(2, 5, 51)]
    yield "time goes by turns", [buy(1, 5, 50), buy(2, 5, 50), buy(3, 5, 50), sell(4, 7, 50), sell(5, 7, 50)]
    yield "the best buy first", [buy(1, 5, 50), buy(2, 5, 52), buy(3, 5, 51), sell(4, 12, 50)]
    yield "the best sell first", [sell(1, 5, 52), sell(2, 5, 50), sell(3, 5, 51), buy(4, 12, 52)]
    yield "a price that just crosses", [sell(1, 5, 50), buy(2, 5, 49), buy(3, 5, 50), sell(4, 5, 50), sell(5, 5, 49)]
    yield "a sell that just crosses", [buy(1, 5, 50), sell(2, 5, 51), sell(3, 5, 50), buy(4, 5, 50)]
    yield "one side alone", [buy(1, 5, 50), buy(2, 5, 51), buy(3, 5, 49)]
    yield "the price of what rests", [sell(1, 5, 50), buy(2, 5, 60), buy(3, 5, 50), sell(4, 5, 40)]
    yield "an average that isn't whole", [*two, sell(3, 1, 53), buy(4, 11, 60)]
    yield "two symbols", [sell(1, 5, 50, "XYZ"), buy(2, 5, 50), buy(3, 5, 50, "XYZ"), sell(4, 5, 50)]
    yield "immediate or cancel", [*two, buy(3, 12, 51, more="59=3|"), buy(4, 1, 60, more="59=3|"), sell(5, 1, 1)]
    yield "immediate or cancel, filled", [*two, buy(3, 10, 51, more="59=3|"), sell(4, 1, 50)]
    for quantity in (9, 10, 11):
        yield f"fill or kill of {quantity}", [*two, buy(3, quantity, 51, more="59=4|"), buy(4, quantity, 50, more="59=4|"),
                                              market(5, 1, quantity, more="59=4|"), sell(6, 1, 1)]
    yield "fill or kill of what is too dear", [*two, sell(3, 5, 60), sell(4, 5, 50, "XYZ"), buy(5, 11, 55, more="59=4|"),
                                               buy(6, 5, 50), buy(7, 5, 40), sell(8, 6, 45, more="59=4|")]
    yield "names that end alike", [buy(1, 5, 50), buy(1001, 5, 50), cut(1002, 2), cut(1003, 1001), cut(1004, 1),
                                   sell(1005, 5, 50)]
    yield "times", [whole(f"{header(at, kind, time=f'20250102-09:30:{at:02}')}{body}")
                    for at, (kind, body) in enumerate((buy(1, 5, 50), sell(2, 3, 50), change(3, 1, 5, 51), cut(4, 3),
                                                       cut(5, 3), ("D", "11=1|"), ("1", "112=x|")), 2)]
    for more in ("", "59=0|", "59=3|", "59=4|"):
        yield f"market orders, {more}", [*two, market(3, 1, 7, more=more), market(4, 1, 7, more=more),
                                         market(5, 2, 1, more=more), sell(6, 1, 1)]
    yield "names", [buy(5, 5, 50), buy(5, 5, 50), buy(4, 5, 50), buy(6, 5, 50, "QQQ"), buy(6, 5, 50), buy(3, 5, 50, "QQQ"),
                    market(2, 1, 5), market(9, 1, 5, "QQQ"), market(7, 1, 5), sell(7, 1, 50), sell(8, 30, 50)]
    yield "a name that is refused counts not", [buy(9, 5, 50, "QQQ"), buy(3, 5, 50), cut(4, 3)]
    yield "requests of wrong names", [buy(5, 5, 50), cut(5, 5), cut(4, 5), cut(6, 4), cut(6, 7), cut(6, 5, "XYZ"),
                                      cut(6, 5, side=2), cut(6, 5, quantity=1), cut(7, 5), buy(6, 5, 50), sell(7, 5, 50),
                                      buy(8, 5, 50)]
    yield "unknown and stale", [buy(5, 5, 50), cut(3, 1), change(3, 1, 5, 50), cut(6, 1), change(6, 1, 5, 50)]
    yield "a cancel of what is filled in part", [buy(1, 5, 50), sell(2, 2, 50), cut(3, 1, "XYZ"), cut(3, 1), sell(4, 5, 50)]
    yield "a cancel's name", [buy(1, 5, 50), cut(9, 1), buy(8, 5, 50), buy(9, 5, 50), buy(10, 5, 50)]
    yield "two that rest, and one is cancelled", [buy(1, 5, 50), buy(2, 6, 50), cut(3, 1), sell(4, 3, 50), cut(5, 2)]
    for total, price in ((4, 50), (5, 50), (6, 50), (5, 51), (4, 49), (4, 51)):
        yield f"a replace, {total} at {price}", [buy(1, 5, 50), buy(2, 5, 50), change(3, 1, total, price), sell(4, 3, 49),
                                                 sell(5, 9, 49), cut(6, 3), cut(7, 1)]
    for total in (2, 3, 4):
        yield f"a replace to {total} where 3 are filled", [buy(1, 5, 50), sell(2, 3, 50), change(3, 1, total, 50),
                                                           sell(4, 5, 50)]
    yield "a replace that trades", [sell(1, 5, 55), buy(2, 7, 50), change(3, 2, 7, 55), sell(4, 5, 55), sell(5, 5, 50)]
    yield "a sell replaced so that it trades", [buy(1, 5, 50), sell(2, 7, 55), change(3, 2, 8, 50, side=2), buy(4, 5, 50)]
    yield "replaces of wrong things", [buy(5, 5, 50), change(5, 5, 6, 50), change(6, 5, 6, 50, side=2),
                                       change(6, 5, 6, 50, symbol="XYZ"), change(6, 5, 6, 50, more="59=3|"),
                                       change(6, 5, 6, 50, more="59=0|"), buy(6, 1, 50), cut(7, 6)]
    yield "a replace's name", [buy(1, 5, 50), change(9, 1, 6, 50), buy(8, 5, 50), buy(9, 5, 50), cut(10, 1), cut(10, 9)]
    yield "a replace of what is filled in part", [buy(1, 9, 50), sell(2, 4, 50), change(3, 1, 8, 50), change(4, 3, 9, 51),
                                                  sell(5, 9, 50)]
    yield "a book of many", [buy(1, 5, 48), sell(2, 5, 55, "XYZ"), sell(3, 5, 56), buy(4, 5, 49), sell(5, 5, 55),
                             buy(6, 5, 49), buy(7, 5, 40, "XYZ"), sell(8, 2, 55)]
    yield "rejects count", [("D", "11=1|"), ("F", "21=1|"), ("G", "11=0|"), buy(1, 5, 50), ("5", "")]
    yield "an order, and a Logout", [buy(1, 5, 50), ("5", "")]


def crowded() -> Iterator[tuple[str, list[Sent]]]:
    """In a book in which two more orders can rest."""
    yield "the last place", [buy(1, 5, 50), buy(2, 5, 50), buy(3, 5, 50), buy(3, 5, 50, more="59=3|"), market(4, 2, 1),
                             market(5, 1, 1, more="59=4|"), buy(6, 5, 50, "QQQ"), buy(2, 5, 50), sell(6, 5, 50),
                             sell(7, 5, 50), cut(8, 2), sell(9, 1, 60), buy(10, 1, 40)]
    yield "what others have", [cut(1, 7), change(1, 7, 5, MILLION, side=2), cut(1, FULL), sell(2, 1, MILLION),
                               market(3, 1, MILLION), market(4, 1, MILLION, "XYZ"), buy(5, MILLION, MILLION), buy(6, 1, 50)]


def all_corners() -> list[Corner]:
    """All of them."""
    resting = [LOGON, buy(2, 5, 50)]
    found = [Corner(name, EMPTY, spelled(LOGON) + data) for name, data in (*frames(), *headers(), *messages())]
    found += [Corner(name, EMPTY, data) for name, data in sessions()]
    found += [Corner(name, EMPTY, spelled(*resting, it, ("0", ""))) for name, it in (*spellings(), *shapes())]
    found += [Corner(f"old, {name}", OLD, spelled(*resting, it)) for name, it in spellings() if name.startswith("M, 40")]
    found += [Corner(name, EMPTY, spelled(LOGON, *sent), True) for name, sent in days()]
    return found + [Corner(name, CROWDED, spelled(LOGON, *sent), True) for name, sent in crowded()]
