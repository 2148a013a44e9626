"""What a member behind `gikvand-edge` knows a report by: the names that it gave its requests in the place of the venue's numbers,
decimals in the place of steps, and both CompIDs. All of it stands in the edge's settings and in the records of its members, of
which a copy is read, so the edge may be in use."""
import argparse
import contextlib
import itertools
import os
import re
import shutil
import sqlite3
import tempfile
from collections.abc import Iterable, Iterator
from typing import NamedTuple

from gikvand.fix import fields_of, value
from gikvand.journals import MEMBERS
from gikvand.words import Trouble

NAMES, PRICES = ("11", "41"), ("44", "31", "6")  # Tags of what is translated.
OF_A_SESSION = {"8", "9", "10", "34", "43", "49", "52", "56", "97", "122"}  # Tags that a report gets by being sent,
NOT_COMPARED = OF_A_SESSION | {"29"}        # and that of a setting which the journal doesn't know.
BY_EDGE = "edge: "                          # So begins the text of what the edge itself says.
PROBE, EXPIRY = "p", "e"                    # The kinds of its own requests: a question, and a cancel at the end of a day.
CANCELLED, EXPIRED = "4", "C"               # The ExecTypes (150) of such a cancel, as the venue tells it and as the edge does.
DAY_ENDED = {"150": EXPIRED, "39": EXPIRED, "58": f"{BY_EDGE}the day has ended"}
OPERATOR, OF_OPERATOR = "o", f"{BY_EDGE}the operator has cancelled this order"  # A cancel that an operator asks for, and its text.
REFUSED, NO_NAMES = "x", ("m", "d", "v")    # The kind of a name that the edge refused; what is no name in the row of a turn.
PLACES = 10 ** 16                           # Of names that each venue has in the record of a member with several.
OF_A_VENUE = ("17", "37")                   # Tags of what has the letter of its venue in front, where a member has several.
FIRST, NOBODYS = 1, "nobody knows which desk sent this request"  # The first desk, and the text that it is told then.
OF_DESK = re.compile(r"edge-desk-(\d+):(.*)", re.DOTALL)  # A name of one of the further desks of a member.
OF_NUMBER = re.compile(r"(?:edge-lost-)?([A-Z]?)\d+")  # What the edge calls a request whose name nobody knows: the letter of its venue.
PART = re.compile(rb"(.)(\d+) (\d+) ", re.DOTALL)  # Of a turn's row: what it is, its number, and how many bytes follow.
TRIES = 20                                  # Looks at a record that is written to meanwhile.
A_HEAD = 32                                 # Bytes of what a log of SQLite begins with: two of its words are others in each log.

Settings = dict[str, str]


def add_option(parser: argparse.ArgumentParser) -> None:
    parser.add_argument("--edge", metavar="FILE", action="append", default=[],
                        help="the settings of gikvand-edge, for members behind it: their names, decimals and CompIDs; a folder stands "
                        "for each NAME.cfg in it, and the option may be given several times")


def files_of(path: str) -> list[str]:
    """The files of settings that a path stands for: itself, or those in it, where it is a folder of services."""
    if not os.path.isdir(path):
        return [path]
    names = sorted(it for it in os.listdir(path) if it.endswith(".cfg"))
    if not names:
        raise Trouble(f"{path} has no NAME.cfg: are these the settings of gikvand-edge?")
    return [os.path.join(path, it) for it in names]


def sections(path: str) -> list[tuple[str, Settings]]:
    """The sections of a file of settings, as QuickFIX reads it: names are the same in capitals."""
    found: list[tuple[str, Settings]] = []
    with open(path, encoding="utf-8", errors="surrogateescape") as file:
        for line in map(str.strip, file):
            if head := re.fullmatch(r"\[(\w+)\]", line):
                found.append((head[1].upper(), {}))
            elif line and not line.startswith("#") and found and "=" in line:
                name, _, text = line.partition("=")
                found[-1][1][name.strip().upper()] = text.strip()
    return found


class Step:
    """The step of a symbol's prices, as 0.01, and how many decimals it has."""

    def __init__(self, text: str) -> None:
        if not re.fullmatch(r"(?=.*[1-9])\d{1,9}(\.\d{0,9})?|(?=.*[1-9])\.\d{1,9}", text):
            raise ValueError(text)
        whole, _, part = text.partition(".")
        self.decimals, self.mantissa = len(part), int(whole + part)

    def price_of(self, steps: int) -> str:
        digits = str(steps * self.mantissa).zfill(self.decimals + 1)
        return f"{digits[:-self.decimals]}.{digits[-self.decimals:]}" if self.decimals else digits


class Member(NamedTuple):
    """A member behind the edge: the CompIDs of its desks and that of the edge, and the names by their numbers, with the kinds of
    these; behind `first` a number without one has a name by the edge. A name of a further desk begins with that desk. The letter
    is that of the venue, where the record has had another one before."""
    comp_ids: dict[int, str]
    edge_id: str
    names: dict[int, str]
    kinds: dict[int, str]
    first: int
    has_desks: bool  # Or it never had more than one.
    letter: str
    called: frozenset[str]  # The names, as the desks gave them.

    def parted(self, number: str) -> tuple[int, str]:
        """The desk that sent what has this number, and how that desk called it; desk 0 where nobody knows, or the settings don't have
        it any more: then it has a name by the edge."""
        at = int(number)
        kept = self.names.get(at, "")
        desk, name = (int(found[1]), found[2]) if (found := OF_DESK.fullmatch(kept)) else (FIRST, kept)
        if kept and desk in self.comp_ids:
            return desk, name
        return 0, f"{'edge-lost-' if self.first and at >= self.first else ''}{self.letter}{number}"

    def name_of(self, number: str) -> str:
        return self.parted(number)[1]

    def has_order(self, name: str) -> bool:
        """Whether a desk has called a request at this venue so, or the edge has by its number."""
        by_number = OF_NUMBER.fullmatch(name)
        return name in self.called or by_number is not None and by_number[1] == self.letter

    def desk_of(self, report: dict[str, str]) -> int:
        """The desk that is told a report: the first one where nobody knows whose it is."""
        return self.parted(report["11"])[0] or FIRST

    def is_nobodys(self, report: dict[str, str]) -> bool:
        """Whether the first of several desks is told that nobody knows whose a report is."""
        return self.has_desks and any(not self.parted(report[tag])[0] for tag in NAMES if tag in report)


def log_of(path: str) -> bytes:
    """How the log of a record begins: otherwise once its pages are in the record and it has begun anew. SQLite's format."""
    with contextlib.suppress(FileNotFoundError), open(f"{path}-wal", "rb") as file:
        return file.read(A_HEAD)
    return b""


def copied(path: str, folder: str) -> str:
    """A copy of a record, in this folder, as it stood at one moment. What the log has stands in front of the record's own pages,
    and each part of it has a sum: so what is written meanwhile is there or not, as long as the log doesn't begin anew."""
    copy = os.path.join(folder, "copy.db")
    for _ in range(TRIES):
        before = log_of(path)
        for end in ("", "-wal"):
            with contextlib.suppress(FileNotFoundError):
                os.remove(copy + end)
            if end == "" or os.path.exists(path + end):
                shutil.copyfile(path + end, copy + end)
        if log_of(path) == before:
            return copy
    raise Trouble(f"{path} is written to all the time: ask once more")


def parts_of(row: bytes) -> Iterator[tuple[int, str, str]]:
    """Names out of the row of a turn, with numbers and kinds, as a record's table of names gets them later."""
    at = 0
    while at < len(row):
        if not (head := PART.match(row, at)) or head.end() + int(head[3]) > len(row):
            raise ValueError("a turn can't be read")
        at = head.end() + int(head[3])
        if (kind := head[1].decode("latin-1")) not in NO_NAMES:
            yield int(head[2]), kind, row[head.end():at].decode("utf-8", "surrogateescape")


class Kept(NamedTuple):
    """Of a member's record, of one venue: names and kinds by their numbers, the first number, whether it is of several desks, and the
    letter that stands in names of the edge's own."""
    names: dict[int, str]
    kinds: dict[int, str]
    first: int
    has_desks: bool
    letter: str


def has_table(record: sqlite3.Connection, name: str) -> bool:
    return bool(record.execute("SELECT 1 FROM sqlite_master WHERE name = ?", (name,)).fetchone())


def place_of(record: sqlite3.Connection, letter: str) -> tuple[int, int]:
    """The place of a venue in a member's record, and its first number; of one that has no letters, or not this one, the first."""
    first = record.execute("SELECT first FROM session").fetchone()[0]
    if letter and has_table(record, "venues"):
        if found := record.execute("SELECT place, first FROM venues WHERE venue = ? AND place > 0", (letter,)).fetchone():
            return found[0], found[1]
    return 0, first


def record_of(path: str, letter: str = "") -> Kept:
    """What a member's record has of the venue of this letter. A member that never came has nothing."""
    if not os.path.exists(path):
        return Kept({}, {}, 0, False, "")
    try:
        with tempfile.TemporaryDirectory(prefix="edge-") as folder:
            with contextlib.closing(sqlite3.connect(copied(path, folder))) as record:
                rows = record.execute("SELECT number, kind, name FROM names").fetchall()
                if record.execute("SELECT 1 FROM sqlite_master WHERE name = 'turns'").fetchone():
                    for turn, in record.execute("SELECT did FROM turns ORDER BY turn"):
                        rows += parts_of(turn)
                place, first = place_of(record, letter)
                has_desks = has_table(record, "desks") and bool(record.execute("SELECT 1 FROM desks").fetchone())
    except (sqlite3.Error, TypeError, ValueError) as why:
        raise Trouble(f"{path} isn't a member's record of gikvand-edge: {why}") from why
    names = [(at % PLACES, kind, name) for at, kind, name in rows if at // PLACES == place and kind != REFUSED]
    return Kept({number: name for number, _, name in names}, {number: kind for number, kind, _ in names}, first, has_desks,
                letter if place else "")


class Session(NamedTuple):
    """A session, the file that has it, and what is in that for all."""
    path: str
    settings: Settings
    common: Settings

    def need(self, name: str) -> str:
        if not (text := self.settings.get(name.upper())):
            raise Trouble(f"{self.path} has no {name}")
        return text

    def folder(self, member: str) -> str:
        """Where the member's record is."""
        folder = self.need("EdgePath")
        return os.path.join(folder, member) if folder == self.common.get("EDGEPATH") else folder  # One of [DEFAULT] is for all.

    def venue_of(self, journal: str) -> str:
        """The letter of the venue whose journal this is; nothing where the settings have one venue without a letter."""
        letters = self.settings.get("VENUES", "").split()
        found = [it for it in letters if os.path.realpath(self.need(f"VenueJournal{it}")) == os.path.realpath(journal)]
        if letters and not found:
            raise Trouble(f"{self.path} has the venues {' '.join(letters)}, and {journal} is the journal of none of them")
        return found[0] if found else ""

    def steps(self, letter: str = "") -> dict[str, Step]:
        return dict(map(self.step_of, self.need(f"Symbols{letter}").split()))

    def step_of(self, word: str) -> tuple[str, Step]:
        symbol, _, step = word.partition(":")
        try:
            return symbol, Step(step)
        except ValueError:
            raise Trouble(f"{self.path} has Symbols that aren't of SYMBOL:STEP, as ABC:0.01: {word}") from None


def sessions_of(path: str) -> list[Session]:
    parts = sections(path)
    common: Settings = next((it for head, it in parts if head == "DEFAULT"), {})
    if not (found := [Session(path, {**common, **it}, common) for head, it in parts if head == "SESSION"]):
        raise Trouble(f"{path} has no [SESSION]: are these the settings of gikvand-edge?")
    return found


class Edge:
    """The settings of an edge, of one file or of several, and what they say of its members at the venue of a journal."""

    def __init__(self, *paths: str, journal: str = "") -> None:
        self.path, self.journal, self.sessions = ", ".join(paths), journal, dict[str, Session]()
        self.comp_ids = dict[str, dict[int, str]]()
        for it in itertools.chain.from_iterable(map(sessions_of, paths)):
            self.add(it)
        first = next(iter(self.sessions.values()))
        self.letter = first.venue_of(journal)
        self.steps = first.steps(self.letter)
        self.known: dict[int, Member] = {}

    def add(self, it: Session) -> None:
        """Takes a session, which is of a further member of the same venue. A member is known by the session of its first desk."""
        first, name = next(iter(self.sessions.values()), it), it.need("Member")
        desk = it.settings.get("DESK", str(FIRST))
        if desk.isdecimal():
            self.comp_ids.setdefault(name, {})[int(desk)] = it.need("TargetCompID")
        if desk != str(FIRST):
            return
        if other := self.sessions.get(name):
            raise Trouble(f"{other.path} and {it.path} both have a session of {name}: give one of these files")
        symbols = f"Symbols{first.venue_of(self.journal)}"
        if it.need(symbols).split() != first.need(symbols).split():
            raise Trouble(f"{it.path} has other Symbols than {first.path}: are both of one venue?")
        self.sessions[name] = it

    def has(self, member: int) -> bool:
        return f"C{member}" in self.sessions

    def member(self, number: int) -> Member:
        """A member, by its session and its record."""
        if number not in self.known:
            name = f"C{number}"
            if not (session := self.sessions.get(name)):
                raise Trouble(f"{self.path} has no session of {name}")
            kept, comp_ids = record_of(os.path.join(session.folder(name), f"{name}.db"), self.letter), self.comp_ids[name]
            called = frozenset(OF_DESK.sub(r"\2", it) for it in kept.names.values())
            self.known[number] = Member(comp_ids, session.need("SenderCompID"), kept.names, kept.kinds, kept.first,
                                        kept.has_desks or len(comp_ids) > 1, kept.letter, called)
        return self.known[number]

    def price_of(self, symbol: str, steps: str) -> str:
        step = self.steps.get(symbol)
        return step.price_of(int(steps)) if step else steps

    def told(self, number: int, report: dict[str, str]) -> dict[str, str]:
        """A report of the venue as its member knows it. An order that ends with its day has expired: no cancel was asked for. One
        that an operator has had cancelled says so."""
        member = self.member(number)
        if "41" in report and report.get("150") == CANCELLED and self.is_of_an_end(number, report):
            report = {tag: text for tag, text in {**report, "11": report["41"], **DAY_ENDED}.items() if tag != "41"}
        else:
            report = self.with_text(number, report)
        return {tag: member.name_of(text) if tag in NAMES else self.price_of(report.get("55", ""), text) if tag in PRICES else
                self.of_venue(text) if tag in OF_A_VENUE else text for tag, text in report.items()}

    def of_venue(self, text: str) -> str:
        """An ExecID or OrderID with the letter of the venue in front, where the member has several."""
        return f"{self.letter}{text}" if text.isdecimal() else text

    def with_text(self, number: int, report: dict[str, str]) -> dict[str, str]:
        """A report with the text of the edge, where that has one for it: an operator has had an order cancelled, or nobody knows which
        desk a request was of."""
        text = OF_OPERATOR if self.is_of_operator(number, report) else report.get("58", "")
        if self.member(number).is_nobodys(report):
            text = f"{NOBODYS}: {text}" if text else NOBODYS
        return {**report, "58": text} if text else report

    def need_desk(self, word: str) -> None:
        """Stops where no session is of this desk."""
        member, desk = parted_word(word)
        if desk and desk not in self.member(member).comp_ids:
            raise Trouble(f"{self.path} has no session of {word}")

    def is_of_an_end(self, number: int, report: dict[str, str]) -> bool:
        """Whether a report answers a cancel at the end of a day."""
        return self.member(number).kinds.get(int(report["11"])) == EXPIRY

    def is_of_operator(self, number: int, report: dict[str, str]) -> bool:
        """Whether a report tells the end of an order by a cancel that an operator has asked for."""
        is_end = "41" in report and (report["35"], report.get("150")) == ("8", CANCELLED)
        return is_end and self.member(number).kinds.get(int(report["11"])) == OPERATOR

    def is_for_member(self, number: int, report: dict[str, str]) -> bool:
        """Whether the edge tells its member of this report: not of what it asked for by itself, nor of rejected messages. Where a
        cancel at the end of a day is refused its order has an end of its own. An order for another venue came by a wrong port."""
        if report["35"] == "9":
            return self.member(number).kinds.get(int(report["11"])) != PROBE and not self.is_of_an_end(number, report)
        return report["35"] == "8" and (not self.letter or report["55"] in self.steps)

    def reports(self, word: str, lines: Iterable[str]) -> Iterator[str]:
        """The venue's reports to a member as it knows them, as of C1, or to one of its desks, as of C1.2."""
        self.need_desk(word)
        number, desk = parted_word(word)
        for line in lines:
            report = fields_of(line)
            if self.is_for_member(number, report) and (not desk or self.member(number).desk_of(report) == desk):
                yield text_of(self.told(number, report))

    def logged(self, word: str, lines: Iterable[str]) -> Iterator[str]:
        """The same in the form in which a log is compared: that of the engine, whatever the order of its fields."""
        return map(printed_as_compared, self.reports(word, lines))

    def is_to(self, word: str, message: dict[str, str]) -> bool:
        """Whether a message in a log is a report of the venue that the edge told this member, or this desk of a member, and no answer
        of the edge to who has asked how an order is."""
        number, desk = parted_word(word)
        member = self.member(number)
        ids = member.edge_id, member.comp_ids[desk or FIRST]
        if (message.get("49"), message.get("56")) != ids or message.get("150") == "I":
            return False
        is_own = message.get("58", "").startswith(BY_EDGE) and message.get("150") not in (CANCELLED, EXPIRED)
        return message.get("35") in ("8", "9") and not is_own and self.is_of_this_venue(member, message)

    def is_of_this_venue(self, member: Member, message: dict[str, str]) -> bool:
        """Whether a report in a log is one of this venue, where the member has several: by the letter in front of its ExecID, or by the
        names of a refused cancel. What stands in a log of before has none."""
        if not self.letter:
            return True
        exec_id, order_id = message.get("17", ""), message.get("37", "")
        if exec_id or order_id != "NONE":
            return (exec_id or order_id).startswith(self.letter) or not member.letter and (exec_id or order_id).isdecimal()
        return member.has_order(message.get("41", ""))

    def with_letter(self, message: dict[str, str]) -> dict[str, str]:
        """A message of a log of before, when the member had one venue, as it would be told now."""
        return {tag: self.of_venue(text) if tag in OF_A_VENUE else text for tag, text in message.items()}


def parted_word(word: str) -> tuple[int, int]:
    """The member and the desk that a word names, as C1 or C1.2; desk 0 where it names none."""
    member, _, desk = word.partition(".")
    return int(member[1:]), int(desk or 0)


def needed(paths: list[str], words: Iterable[str], journal: str) -> Edge | None:
    """The edge whose settings these are, where there is one: without it no word names a desk."""
    if not paths and (desks := [it for it in words if "." in it]):
        raise Trouble(f"{desks[0]} is a desk of a member behind gikvand-edge: give --edge, with the edge's settings")
    return of(paths, journal)


def text_of(fields: dict[str, str]) -> str:
    return "".join(f"{tag}={text}|" for tag, text in fields.items())


def as_compared(fields: dict[str, str]) -> str:
    """A report with the fields that are compared, in the order of their tags behind its type."""
    rest = sorted((int(tag), text) for tag, text in fields.items() if tag not in NOT_COMPARED and tag != "35" and tag.isdecimal())
    return f"35={fields['35']}|" + "".join(f"{tag}={text}|" for tag, text in rest)


def printed_as_compared(line: str) -> str:
    """The same of a report as `gikvand reports` prints it: an engine has its time as TransactTime (60)."""
    return as_compared({**fields_of(line), "60": value(line, "52") or ""})


def of(paths: list[str], journal: str) -> Edge | None:
    """The edge whose settings these are, where there is one, as it stands in front of the venue of a journal."""
    return Edge(*itertools.chain.from_iterable(map(files_of, paths)), journal=journal) if paths else None


def ids_of(it: Edge) -> dict[str, str]:
    """The members' CompIDs by their names at the venue."""
    return {f"C{number}": it.member(number).comp_ids[FIRST] for number in MEMBERS if it.has(number)}
