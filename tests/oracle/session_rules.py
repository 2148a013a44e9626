"""The rules of docs/PROFILE.md for one member in plain Python: from its bytes to the venue's answers. The reports of its orders are
those of book_rules.py. Not a test: those of bytes import it. It was written from that page alone, and shares nothing with the venue's
own code."""
import itertools

from gikvand.fix import HEAD, Field, body, fields, has_header, next_frame, sealed
from gikvand.words import sure
from oracle.book_rules import Book, shown
from oracle.order_rules import NEEDED

NO_TIME = b"00000000-00:00:00"
LOGON = [(98, b"0"), (108, b"0"), (141, b"Y")]

Answer = tuple[str, bytes, bytes, int]          # A message of the venue: type, time, body, and how many orders came before it.
Sent = tuple[bytes, bytes, bytes, list[Field]]  # The bytes, the type, the time and the fields of an order message.


class Session:
    """A session of C1: what the venue answers by itself, and the order messages that it takes."""

    def __init__(self) -> None:
        self.accepted, self.time, self.is_open = 0, NO_TIME, False
        self.answers: list[Answer] = []  # Of the venue's own.
        self.orders: list[Sent] = []
        self.has_ended = False

    def feed(self, data: bytes) -> bytes:
        """Takes the next bytes, and gives those of a frame that hasn't ended."""
        while not self.has_ended and (found := next_frame(data)):
            frame, fault = found
            data = data[len(frame):]
            if fault:
                self.end(fault)
            else:
                self.judge(frame, sure(fields(frame)))
        return data

    def answer(self, kind: str, data: bytes) -> None:
        self.answers.append((kind, self.time, data, len(self.orders)))

    def end(self, text: str | None) -> None:
        self.answer("5", body(f"58={text}|" if text else ""))
        self.has_ended = True

    def judge(self, frame: bytes, found: list[Field]) -> None:
        """Answers a whole frame."""
        if not has_header(found):
            return self.end("bad header")
        told, kind = dict(found[:7]), found[2][1]
        self.time = told[52]
        if told[49] != b"C1" or told[56] != b"VENUE":
            return self.end("wrong party")
        if int(told[34]) != self.accepted + 1:
            return self.end("wrong number")
        self.accepted += 1
        return self.take(kind, frame, found)

    def take(self, kind: bytes, frame: bytes, found: list[Field]) -> None:
        """Does what a message of the right header and number asks for."""
        own = found[7:-1]
        if not self.is_open and kind != b"A":
            return self.end("no logon")
        if kind == b"A":
            if self.is_open or own != LOGON:
                return self.end("bad logon")
            self.is_open = True
            return self.answer("A", body("98=0|108=0|141=Y|"))
        if kind == b"1":
            if len(own) != 1 or own[0][0] != 112 or len(own[0][1]) > 32:
                return self.end("bad test")
            return self.answer("0", b"112=%s\x01" % own[0][1])
        if kind == b"5":
            return self.end(None)
        if kind in NEEDED:
            return self.orders.append((frame, kind, self.time, found))
        return None if kind in (b"0", b"3") else self.end("bad type")


def told(kind: str, number: int, when: bytes, own: bytes) -> bytes:
    """The bytes of a message of the venue to C1."""
    return sealed(body(f"35={kind}|49=VENUE|56=C1|34={number}|52=") + when + b"\x01" + own)


class Judged:
    """What the rules say of a session's bytes: the venue's own answers, and the reports of each order."""

    def __init__(self, data: bytes, book: Book) -> None:
        self.session = Session()
        self.session.feed(data)
        self.reports = [(it.kind, it.when, it.body, place) for place, (_, kind, when, found) in enumerate(self.session.orders)
                        for it in book.apply(kind, when, found) if it.to == 1]

    def difference(self, out: bytes) -> str | None:
        """How these bytes differ from what may come, in words, or None."""
        answers, reports = list(self.session.answers), list(self.reports)
        for number in itertools.count(1):
            head = HEAD.match(out)
            if not head:
                break
            size = head.end() + int(head[1]) + 7
            came, out = out[:size], out[size:]
            if self.session.has_ended and not answers:
                return f"expected nothing behind the Logout came {shown(came)}"
            due = reports if came[head.end():].startswith((b"35=8\x01", b"35=9\x01", b"35=3\x01")) else answers
            if not due:
                return f"expected nothing of this kind came {shown(came)}"
            kind, when, own, place = due.pop(0)
            if due is reports and answers and answers[0][3] <= place:
                return f"expected {answers[0]} before the reports of a later message came {shown(came)}"
            wanted = told(kind, number, when, own)
            if came != wanted:
                return f"expected {shown(wanted)} came {shown(came)}"
        if out or answers:
            return f"expected {answers[:1] or 'nothing more'} came {shown(out) or 'nothing more'}"
        if reports and not self.session.has_ended:
            return f"expected {len(reports)} further reports came none of them"
        return None

    def lines(self) -> list[str]:
        """The reports as venue-replay prints them."""
        return [f"35={kind}|52={shown(when)}|{shown(data)}" for kind, when, data, _ in self.reports]
