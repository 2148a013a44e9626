"""Messages of FIX 4.4: as bytes, by their frame and their header (docs/PROFILE.md), and as texts, in which a bar stands for the byte
01: built, found in a stream of bytes, and read by tags."""
import re

SHORT = re.compile(rb"[1-9][0-9]{0,4}")
NUMBER = re.compile(rb"0|[1-9][0-9]*")
TIME = re.compile(rb"[0-9]{8}-[0-9]{2}:[0-9]{2}:[0-9]{2}")
BEGIN = b"8=FIX.4.4\x01"
HEAD = re.compile(rb"8=FIX\.4\.4\x019=(\d+)\x01")
HEADER = [8, 9, 35, 49, 56, 34, 52]
ORDERS = (b"D", b"F", b"G")  # The types of what a member asks of the book.
REPORTS = ("8", "9", "3")  # The types of what the venue tells of a member's orders.

# The tags of those, by their names, in the order of docs/PROFILE.md. What counts something is a number, all else a text.
NAMES = {"35": "MsgType", "52": "SendingTime", "37": "OrderID", "17": "ExecID", "150": "ExecType", "39": "OrdStatus",
         "11": "ClOrdID", "41": "OrigClOrdID", "55": "Symbol", "54": "Side", "38": "OrderQty", "44": "Price", "32": "LastQty",
         "31": "LastPx", "151": "LeavesQty", "14": "CumQty", "6": "AvgPx", "103": "OrdRejReason", "58": "Text",
         "434": "CxlRejResponseTo", "102": "CxlRejReason", "45": "RefSeqNum", "371": "RefTagID", "372": "RefMsgType",
         "373": "SessionRejectReason"}
COUNTED = {"38", "44", "32", "31", "151", "14", "6"}

Field = tuple[int, bytes]  # A tag and its value.


def body(text: str) -> bytes:
    """The bytes of a body that is written with bars."""
    return text.replace("|", "\x01").encode()


def sealed(fields: bytes) -> bytes:
    """The frame round the bytes of these fields."""
    begun = b"8=FIX.4.4\x019=%d\x01" % len(fields) + fields
    return begun + b"10=%03d\x01" % (sum(begun) % 256)


def framed(fields: str) -> bytes:
    """The frame round these fields, which are written with bars."""
    return sealed(body(fields))


def printed(data: bytes) -> str:
    """Bytes of FIX with the byte 01 as a bar."""
    return data.decode("ascii", "replace").replace("\x01", "|")


def parted(data: bytes) -> tuple[list[str], bytes]:
    """The whole messages at the front of these bytes, as texts, and the bytes behind them."""
    found, at = [], 0
    while head := HEAD.match(data, at):
        end = head.end() + int(head[1]) + len("10=000|")
        if len(data) < end:
            break
        found.append(printed(data[at:end]))
        at = end
    return found, data[at:]


def value(text: str, tag: str) -> str | None:
    """The value of the first field of this tag, or None."""
    found = re.search(rf"(?:^|\|){tag}=([^|]*)\|", text)
    return found[1] if found else None


def fields_of(text: str) -> dict[str, str]:
    """The fields of a message or of a printed report, by tag."""
    return dict(field.split("=", 1) for field in text.split("|") if field)


def fields(data: bytes) -> list[Field] | None:
    """The fields of these bytes, each a tag and a value, or None where they are no run of fields."""
    if not data.endswith(b"\x01"):
        return None
    found = []
    for field in data[:-1].split(b"\x01"):
        tag, equals, value = field.partition(b"=")
        if not SHORT.fullmatch(tag) or not equals or not value:
            return None
        found.append((int(tag), value))
    return found


def begin_fault(data: bytes) -> tuple[int, str | None] | None:
    """The fault of the bytes up to the length's end: where it shows, and its text. Or where the body begins, and None."""
    for at, wanted in enumerate(BEGIN + b"9="):
        if at == len(data):
            return None
        if data[at] != wanted:
            return at + 1, "bad begin" if at < len(BEGIN) else "bad length"
    first = at = len(BEGIN) + 2
    while at < len(data):
        byte = data[at: at + 1]
        if byte == b"\x01" and at > first:
            return at + 1, "bad length" if int(data[first:at]) < 5 else None
        if not byte.isdigit() or at == first and byte == b"0":
            return at + 1, "bad length"
        if at - first == 3 or int(data[first:at + 1]) > 297:
            return at + 1, "too long"
        at += 1
    return None


def trailer_fault(frame: bytes, start: int) -> str | None:
    """The fault of a frame whose last byte has come, and whose body begins there, or None."""
    trailer, rest = frame[-7:], frame[:-7]
    if not rest.endswith(b"\x01") or not trailer.startswith(b"10="):
        return "bad length"
    if trailer[3:] != b"%03d\x01" % (sum(rest) % 256):
        return "bad checksum"
    found = fields(rest[start:])
    return None if found and found[0][0] == 35 else "bad field"


def next_frame(data: bytes) -> tuple[bytes, str | None] | None:
    """The first frame of these bytes and its fault, or None as long as neither shows: the frame, the text of the fault."""
    begun = begin_fault(data)
    if begun is None:
        return None
    at, fault = begun
    if fault:
        return data[:at], fault
    end = at + int(data[len(BEGIN) + 2:at - 1]) + 7
    return None if len(data) < end else (data[:end], trailer_fault(data[:end], at))


def has_header(found: list[Field]) -> bool:
    """Whether the fields of a frame begin with the header, each of it right in itself."""
    told = dict(found[:7])
    return ([tag for tag, _ in found[:7]] == HEADER and bool(NUMBER.fullmatch(told[34]) and TIME.fullmatch(told[52]))
            and 1 <= int(told[34]) <= 999_999_999)
