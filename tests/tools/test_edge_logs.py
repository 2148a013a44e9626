"""Tests of `--edge`: logs, reports and trades of members behind gikvand-edge, whose settings and records are made here
by the words of docs/EDGE.md and of edge/src/record.cpp."""
import contextlib
import csv
import itertools
import json
import os
import re
import sqlite3
import threading
from unittest import mock

import pytest

from checks import ROOT
from days import Day, each_version, made
from gikvand import edge, logs
from gikvand.fix import fields_of, sealed
from made_journals import JOURNAL, cancel, contents, gikvand, put
from test_reports import as_printed
from venues import Trouble, order, value

pytestmark = [pytest.mark.slow, pytest.mark.edge, pytest.mark.usefixtures("programs")]

SETTINGS = "edge.cfg"
PLACES = 10 ** 16               # Of names that each venue has in a record.
STEPS = {"ABC": 100, "XYZ": 4}  # Steps of a price in one, by 0.01 and 0.25.


def schema(*names: str) -> str:
    """The tables of a record, as edge/src/record.cpp makes them, or these of them."""
    with open(os.path.join(ROOT, "edge/src/record.cpp"), encoding="utf-8") as file:
        texts = dict(re.findall(r"const char \*const (\w+) =\n(.*?\");\n\n", file.read(), re.DOTALL))
    return "".join("".join(re.findall('"([^"]*)"', texts[name])) + ";" for name in names or ("TURNS", "TABLES", "SWITCHES"))


def settings(**more: str) -> str:
    """The settings of an edge for C1 and C2; C2's record lies in a folder of its own."""
    lines = ["# of a test", "[DEFAULT]", "SenderCompID = GIKVAND", "EdgePath=edge", "Symbols=ABC:0.01 XYZ:0.25",
             *(f"{name}={text}" for name, text in more.items()),
             "[SESSION]", "TargetCompID=DESK-A", "Member=C1", "", "[SESSION]", "targetcompid=DESK-B", "Member=C2", "EdgePath=other"]
    return put(SETTINGS, "".join(f"{it}\n" for it in lines).encode())


def record(folder: str, member: int, rows: list[tuple[int, str, str]], first: int = 1, front: bytes = b"m7 3 a1 ") -> None:
    """A member's record with these names, which is in use: what was written last stands in the log beside it, and the last name
    in the row of a turn, behind what is no name."""
    os.makedirs(folder, exist_ok=True)
    path = os.path.join(folder, f"C{member}.db")
    for end in ("", "-wal", "-shm"):
        if os.path.exists(path + end):
            os.remove(path + end)
    with contextlib.closing(sqlite3.connect(path)) as it:
        it.execute("PRAGMA journal_mode = WAL")
        it.executescript(schema())
        it.execute("UPDATE session SET first = ?", (first,))
        it.executemany("INSERT INTO names VALUES (?, ?, ?, 0)", rows[:-1])
        did = front + b"".join(b"%b%d %d %b" % (kind.encode(), number, len(name), name.encode())
                               for number, kind, name in rows[-1:])
        it.execute("INSERT INTO turns VALUES (1, 0, 1, 1, 0, 0, 0, 0, 0, ?)", (did,))
        it.commit()


NAMES = {1: {1: "ORD-1", 2: "cut/2", 3: "new 3", 77: "never", 78: "nor this"}, 2: {1: "b1", 2: "b2"}}


def edges() -> str:
    """An edge for the day of made_journals: of C2 the last name is lost, and C1 had a probe of the edge's own."""
    record("edge/C1", 1, [(at, "r", name) for at, name in NAMES[1].items()] + [(9, "x", "refused")])
    record("other", 2, [(at, "r", name) for at, name in NAMES[2].items()])
    return settings()


def name_of(member: int, number: str) -> str:
    return NAMES[member].get(int(number), f"edge-lost-{number}")


def told(member: int, report: str) -> dict[str, str]:
    """A report as the edge tells it, by docs/EDGE.md."""
    it = fields_of(as_printed(report))
    for tag in ("11", "41"):
        if tag in it:
            it[tag] = name_of(member, it[tag])
    for tag in ("44", "31", "6"):
        if tag in it:
            it[tag] = f"{int(it[tag]) / STEPS[it['55']]:.2f}"
    it["60"] = it.pop("52")
    return it


def sent(number: int, to: str, report: dict[str, str], more: str = "") -> str:
    """A message of the edge: the header as QuickFIX writes it, and the fields in the order of their tags."""
    body = "".join(f"{tag}={text}|" for tag, text in sorted(report.items(), key=lambda it: int(it[0])) if tag != "35")
    head = f"35={report['35']}|34={number}|{more}49=GIKVAND|52=20261126-20:57:09.093|56={to}|"
    return sealed(f"{head}{body}".replace("|", "\x01").encode()).decode().replace("\x01", "|")


def log_of(member: int, reports: list[str], more: str = "", first: int = 2) -> list[str]:
    return [sent(number, f"DESK-{'AB'[member - 1]}", told(member, it), more) for number, it in enumerate(reports, first)]


def logged(lines: list[str], name: str = "c1.log") -> str:
    """A log of an engine, with heartbeats, and what the edge refused by itself, between them."""
    beat = sent(99, "DESK-A", {"35": "0"})
    refusal = sent(98, "DESK-A", {"35": "8", "17": "E17.1", "11": "x", "58": "edge: too many"})
    text = "".join(f"20261126-20:57:09.093 : {it}\n" for line in lines for it in (line, beat, refusal))
    return put(name, text.replace("|", "\x01").encode())


def told_by_edge(heard: list[str]) -> list[str]:
    """What of these the edge tells: rejected messages it told itself."""
    return [it for it in heard if value(it, "35") in ("8", "9")]


def test_logs_behind_the_edge() -> None:
    """A log of a member behind the edge is read: whole, with a gap, sent again, also late, and in the order of any engine's fields."""
    for it in each_version():
        edges()
        for member in (1, 2):
            heard = told_by_edge(it.heard[member])
            lines = log_of(member, heard)
            whole = f"C{member}: {len(heard)} reports of c1.log as the journal tells them, which has 0 more"
            words = ["verify", JOURNAL, f"C{member}=c1.log", "--edge", SETTINGS]
            put("c1.log", "".join(f"{line}\n" for line in gikvand("reports", JOURNAL, f"C{member}", "--edge", SETTINGS)[1]).encode())
            status, out, err = gikvand(*words)
            assert (it.version, member, "as reports prints it", status, out[-2], err) == (
                it.version, member, "as reports prints it", 0, whole, [])
            again = log_of(member, heard, "43=Y|")
            for name, log in (("whole", lines), ("again", [*lines, *again]),
                              ("all by a resend", again), ("of a new day", log_of(member, heard, "97=Y|", 1)),
                              ("the rest by a resend", [*lines[:2], *again])):
                logged(log)
                status, out, err = gikvand(*words)
                assert (it.version, member, name, status, out[-2], err) == (it.version, member, name, 0, whole, [])
            for at in range(len(lines)):
                logged(lines[:at] + lines[at + 1:])
                assert ((gikvand(*words)[1][-2]) == (f"C{member}: {len(heard) - 1} reports of c1.log as the journal tells them, which "
                                                     "has 1 more"))
                logged(lines[:at] + lines[at + 1:] + again[at:at + 1])
                assert (it.version, member, at, gikvand(*words)[0]) == (it.version, member, at, 0)  # (as behind a kill, by a resend)


def test_wrong_logs_behind_the_edge() -> None:
    """A price, a name, a quantity or a time that is another one is found, and so is a report twice that wasn't sent again."""
    it = made(3)
    put(JOURNAL, it.data)
    put(f"{JOURNAL}.symbols", b"ABC XYZ\n")
    edges()
    heard = told_by_edge(it.heard[1])
    words = ["verify", JOURNAL, "C1=c1.log", "--edge", SETTINGS]
    for at in range(len(heard)):
        for tag, text in (("44", "0.51"), ("31", "0.49"), ("6", "0.1"), ("11", "ORD-9"), ("32", "1"), ("60", "20250102-09:30:01"),
                          ("41", "none"), ("102", "6"), ("17", "400")):
            report = told(1, heard[at])
            if tag in report:
                lines = log_of(1, heard)
                lines[at] = sent(2 + at, "DESK-A", {**report, tag: text})
                logged(lines)
                assert (at, tag, gikvand(*words)[0]) == (at, tag, 1)
        lines = log_of(1, heard)
        if (report := told(1, heard[at]))["35"] == "9":
            logged([*lines[:at], *lines[at + 1:], sent(99, "DESK-A", {**report, "102": "6"}, "43=Y|")])
            assert (at, "another one sent again", gikvand(*words)[0]) == (at, "another one sent again", 1)
        logged(lines[:at + 1] + lines[at:])
        assert (at, "twice", gikvand(*words)[0]) == (at, "twice", 1)
        logged([*lines[:at], lines[at].replace("|151=", "|0151=").replace("|102=", "|0102="), *lines[at + 1:]])
        assert (at, "another sum", gikvand(*words)[0]) == (at, "another sum", 1)
    for name, more in (("C2", []), ("C1", [SETTINGS])):
        logged(log_of(1, heard))
        status, out, _ = gikvand("verify", JOURNAL, f"{name}=c1.log", *(["--edge", SETTINGS] if not more else []))
        assert (name, status, any("it has no report of the venue to" in line for line in out)) == (name, 1, True)


def test_reports_and_trades_behind_the_edge() -> None:
    """Reports and trades have the member's names, decimals and CompIDs; who isn't behind the edge stays as it is."""
    for it in each_version():
        edges()
        for member in (1, 2):
            wanted = [told(member, line) for line in told_by_edge(it.heard[member])]
            status, out, err = gikvand("reports", JOURNAL, f"C{member}", "--edge", SETTINGS)
            came = [fields_of(line) for line in out]
            for row in came:
                row["60"] = row.pop("52")
            assert (status, err, came) == (0, [], wanted)
            rows = [json.loads(line) for line in gikvand("reports", JOURNAL, f"C{member}", "--json", "--edge", SETTINGS)[1]]
            assert [row.get("Price") for row in rows] == [row.get("44") for row in wanted]
            assert [row.get("OrderQty") for row in rows] == [int(row["38"]) if "38" in row else None for row in wanted]
        rows = list(csv.DictReader(gikvand("trades", JOURNAL, "--csv", "--edge", SETTINGS)[1]))
        assert [(row["Buyer"], row["BuyerClOrdID"], row["Seller"], row["SellerClOrdID"], row["Price"]) for row in rows][0] == (
            "DESK-B", "b1", "DESK-A", "ORD-1", "0.50")
        assert rows[-1]["BuyerClOrdID"] == "edge-lost-3"
        assert gikvand("reports", JOURNAL, "C3", "--edge", SETTINGS) == (2, [], [f"gikvand reports: {SETTINGS} has no session of C3"])


def test_names_of_desks() -> None:
    """A name of a further desk is told as the desk gave it, though another desk has given one that is the same. What the row of a turn
    has of the desk's numbers is no name, and a member is known by the session of its first desk."""
    record("edge/C1", 1, [(1, "r", "ORD-1"), (2, "r", "edge-desk-2:ORD-1"), (3, "c", "edge-desk-2:edge-cancel-3")], front=b"d2 5 7 8 9")
    text = contents(settings()) + b"[SESSION]\nTargetCompID=DESK-C\nMember=C1\nDesk=2\n"
    behind = edge.Edge(put(SETTINGS, text))
    assert [behind.member(1).name_of(str(number)) for number in (1, 2, 3, 4)] == ["ORD-1", "ORD-1", "edge-cancel-3", "edge-lost-4"]
    assert edge.ids_of(edge.Edge(SETTINGS)) == {"C1": "DESK-A", "C2": "DESK-B"}


# Of three orders of C1 one is of the first desk, one of the second, and one of a third one, which the settings don't have any more.
DESKS = [(1, "D", order(1, 2, 10, 50)), (1, "D", order(2, 2, 10, 50)), (1, "D", order(3, 2, 10, 50)), (2, "D", order(1, 1, 30, 50))]
DESKS_NAMES = [(1, "r", "a"), (2, "r", "edge-desk-2:a"), (3, "r", "edge-desk-3:a")]


def test_reports_of_desks() -> None:
    """The reports to one of several desks, as C1.2, are those of its requests, and its log is looked at by its CompID. The first desk is
    told what nobody's are, with a text. Trades are those of the desk that has traded."""
    put(JOURNAL, Day().trade(DESKS).data)
    put(f"{JOURNAL}.symbols", b"ABC XYZ\n")
    record("edge/C1", 1, DESKS_NAMES)
    put(SETTINGS, contents(settings()) + b"[SESSION]\nTargetCompID=DESK-C\nMember=C1\nDesk=2\n")

    def told(word: str) -> list[tuple[str | None, ...]]:
        lines = gikvand("reports", JOURNAL, word, "--edge", SETTINGS)[1]
        return [tuple(value(line, tag) for tag in ("150", "11", "58")) for line in lines]

    nobodys, own = ("edge-lost-3", "nobody knows which desk sent this request"), ("a", None)
    assert told("C1.2") == [("0", *own), ("F", *own)]
    assert told("C1.1") == [("0", *own), ("0", *nobodys), ("F", *own), ("F", *nobodys)]
    assert told("C1") == [("0", *own), ("0", *own), ("0", *nobodys), ("F", *own), ("F", *own), ("F", *nobodys)]
    for word, comp_id, count in (("C1.1", "DESK-A", 4), ("C1.2", "DESK-C", 2)):
        rows = [fields_of(line) for line in gikvand("reports", JOURNAL, word, "--edge", SETTINGS)[1]]
        for row in rows:
            row["60"] = row.pop("52")
        logged([sent(at, comp_id, row) for at, row in enumerate(rows, 2)])
        assert gikvand("verify", JOURNAL, f"{word}=c1.log", "--edge", SETTINGS)[1][-2] == (
            f"{word}: {count} reports of c1.log as the journal tells them, which has 0 more")
    sides = [row.split(",") for row in gikvand("trades", JOURNAL, "--edge", SETTINGS, "--csv")[1][1:]]
    assert [sorted({"DESK-A", "DESK-C"} & set(row)) for row in sides] == [["DESK-A"], ["DESK-C"], ["DESK-A"]]
    alone = "C1.2 is a desk of a member behind gikvand-edge: give --edge, with the edge's settings"
    for words, fault in ((["reports", JOURNAL, "C1.2"], alone), (["verify", JOURNAL, "C1.2=c1.log"], alone),
                         (["reports", JOURNAL, "C1.4", "--edge", SETTINGS], f"{SETTINGS} has no session of C1.4")):
        status, _, err = gikvand(*words)
        assert (status, err) == (2, [f"gikvand {words[0]}: {fault}"])


def told_at(letter: str, report: str) -> dict[str, str]:
    """A report to C1 as the edge tells it where the member has several venues: the second one has a letter in names by numbers, too."""
    it = told(1, report)
    for tag in ("17", "37"):
        if it.get(tag, "").isdecimal():
            it[tag] = f"{letter}{it[tag]}"
    for tag in ("11", "41"):
        if letter == "B" and it.get(tag, "").startswith("edge-lost-"):
            it[tag] = it[tag].replace("edge-lost-", "edge-lost-B")
    return it


def settings_of_two(own: str, other: str, steps: str = "ABC:0.01 XYZ:0.25") -> None:
    """The settings of an edge in front of two venues, of which one has the journal."""
    journals = {f"VenueJournal{own}": JOURNAL, f"VenueJournal{other}": "other.journal"}
    text = contents(settings(Venues="A B", SymbolsA=steps, SymbolsB=steps, **journals))
    put(SETTINGS, text.replace(b"\nSymbols=ABC:0.01 XYZ:0.25", b""))


def test_several_venues_behind_the_edge() -> None:
    """Of a member with several venues the log has the reports of all, and those of the journal's venue are taken: by the letter of ExecID
    or OrderID, and a refused cancel of no order by names. Those of before, without a letter, are of the venue that the record had first."""
    assert [logs.place_of(f"35=8|17={text}|") for text in ("A17", "17", "AE17.1", "E17.1")] == [17, 17, None, None]
    it = made(3)
    put(JOURNAL, it.data)
    put(f"{JOURNAL}.symbols", b"ABC XYZ\n")
    put("other.journal", b"")
    edges()
    with contextlib.closing(sqlite3.connect("edge/C1/C1.db")) as kept:
        kept.executescript(f"""{schema("VENUES")}
            INSERT INTO venues VALUES (0, 'A', 0, 0, 1, 0, 0, 0, 0), (1, 'B', 0, 0, 1, 0, 0, 0, 0);
            INSERT INTO names SELECT number + {PLACES}, kind, name, at FROM names WHERE number < 80;
            INSERT INTO names VALUES ({PLACES + 80}, 'r', 'edge-desk-2:of-desk', 0);""")
        kept.commit()
    heard = told_by_edge(it.heard[1])
    words = ["verify", JOURNAL, "C1=c1.log", "--edge", SETTINGS]
    whole = f"C1: {len(heard)} reports of c1.log as the journal tells them, which has 0 more"

    def refused(original: str) -> dict[str, str]:
        """A refused cancel of no order."""
        return {"35": "9", "37": "NONE", "11": "x", "41": original, "39": "8", "434": "1", "102": "1", "60": "20250102-09:30:00"}

    for letter, other in (("A", "B"), ("B", "A")):
        settings_of_two(letter, other)
        own, before = [told_at(letter, line) for line in heard], [told(1, line) for line in heard]
        others = [row for row in (told_at(other, line) for line in heard) if row["37"] != "NONE"]
        here, there = ("edge-lost-5", "edge-lost-B5") if letter == "A" else ("edge-lost-B5", "edge-lost-5")
        of_before = before if letter == "A" else [*own, *(row for row in before if row["37"] != "NONE")]  # Of B they are the other one's.
        for name, rows, is_right in (("its own", own, True), ("of both", [*own, *others, refused(there), refused("unknown")], True),
                                     ("of before", of_before, True), ("of a number here", [*own, refused(here)], False),
                                     ("of a desk", [*own, refused("of-desk")], letter == "A")):
            logged([sent(at, "DESK-A", row) for at, row in enumerate(rows, 2)])
            status, out, err = gikvand(*words)
            assert (letter, name, status, whole in out, err) == (letter, name, 0 if is_right else 1, True, [])
        lines, again = ([sent(at, "DESK-A", row, more) for at, row in enumerate(own, 2)] for more in ("", "43=Y|"))
        for name, log in (("again", [*lines, *again]), ("all by a resend", again), ("a part once more", [*lines, *again[1:3]]),
                          ("the rest by a resend", [*lines[:2], *again])):
            logged(log)
            status, out, err = gikvand(*words)
            assert (letter, name, status, whole in out, err) == (letter, name, 0, True, [])
        logged([*lines[:2], *lines[3:]])
        assert f"C1: {len(heard) - 1} reports of c1.log as the journal tells them, which has 1 more" in gikvand(*words)[1]
        trades = list(csv.DictReader(gikvand("trades", JOURNAL, "--csv", "--edge", SETTINGS)[1]))
        assert {it[f"{side}{what}"][:1] for it in trades for side in ("Buyer", "Seller") for what in ("OrderID", "ExecID")
                if it[side].startswith("DESK")} == {letter}
        settings_of_two(letter, other, "XYZ:0.25")  # What the journal has of other symbols came by a wrong port.
        assert {value(line, "35") for line in gikvand("reports", JOURNAL, "C1", "--edge", SETTINGS)[1]} == {"9"}


def test_probes_of_the_edge() -> None:
    """What the edge asked for by itself is told to nobody, and who is of before the edge's first number has its own name."""
    it = made(3)
    put(JOURNAL, it.data)
    put(f"{JOURNAL}.symbols", b"ABC XYZ\n")
    record("edge/C1", 1, [(2, "p", "edge-probe"), (3, "r", "third")], first=2)
    settings()
    out = gikvand("reports", JOURNAL, "C1", "--edge", SETTINGS)[1]
    assert ([line for line in out if line.startswith("35=9|")], value(out[0], "11"), value(out[-1], "11")) == ([], "1", "third")
    os.remove("edge/C1/C1.db")
    assert value(gikvand("reports", JOURNAL, "C1", "--edge", SETTINGS)[1][0], "11") == "1"


# Three orders of C1, a part of which trades. One ends with its day, as the edge asks, a cancel of an order that has gone comes too
# late, the member cancels the second order itself, and an operator the third one.
ENDS = [(1, "D", order(1, 2, 100, 50)), (1, "D", order(2, 2, 10, 51)), (2, "D", order(1, 1, 30, 50)),
        (1, "F", cancel(3, 1, 2, 100)), (1, "F", cancel(4, 1, 2, 100)), (1, "F", cancel(5, 2, 2, 10)),
        (1, "D", order(6, 2, 10, 52)), (1, "F", cancel(7, 6, 2, 10))]
ENDS_NAMES = [(1, "r", "day"), (2, "g", "gtc"), (3, "e", "edge-expiry-3"), (4, "e", "edge-expiry-4"), (5, "r", "own"),
              (6, "r", "more"), (7, "o", "edge-cancel-7")]


def told_of_ends(heard: list[str]) -> list[dict[str, str]]:
    """What the edge tells C1 of these, by docs/EDGE.md: that the order has expired, and nothing of the cancel that came late."""
    names, rows = {str(at): name for at, _, name in ENDS_NAMES}, []
    for it in map(fields_of, map(as_printed, heard)):
        for tag in {"11", "41"} & it.keys():
            it[tag] = names[it[tag]]
        for tag in {"44", "31", "6"} & it.keys():
            it[tag] = f"{int(it[tag]) / STEPS['ABC']:.2f}"
        it["60"] = it.pop("52")
        if it["11"] == "edge-expiry-3":
            it.update({"11": it.pop("41"), "150": "C", "39": "C", "58": "edge: the day has ended"})
        if it["11"] == "edge-cancel-7":
            it["58"] = "edge: the operator has cancelled this order"
        if it["11"] != "edge-expiry-4":
            rows.append(it)
    return rows


def test_ends_of_days_behind_the_edge() -> None:
    """An order that ends with its day has expired, as its member knows it; a cancel of the edge's that comes too late is told to
    nobody, and any other cancel stays what it is. A log has to have it so."""
    day = Day().trade(ENDS)
    put(JOURNAL, day.data)
    put(f"{JOURNAL}.symbols", b"ABC XYZ\n")
    record("edge/C1", 1, ENDS_NAMES)
    settings()
    wanted = told_of_ends(day.heard[1])
    assert [(it["150"], it["11"]) for it in wanted] == [("0", "day"), ("0", "gtc"), ("F", "day"), ("C", "day"), ("4", "own"),
                                                        ("0", "more"), ("4", "edge-cancel-7")]
    came = [fields_of(line) for line in gikvand("reports", JOURNAL, "C1", "--edge", SETTINGS)[1]]
    for row in came:
        row["60"] = row.pop("52")
    assert came == wanted
    words = ["verify", JOURNAL, "C1=c1.log", "--edge", SETTINGS]
    lines = [sent(number, "DESK-A", row) for number, row in enumerate(wanted, 2)]
    logged(lines)
    status, out, err = gikvand(*words)
    assert (status, out[-2], err) == (0, "C1: 7 reports of c1.log as the journal tells them, which has 0 more", [])
    logged([*lines[:3], *lines[4:], sent(5, "DESK-A", wanted[3], "43=Y|")])
    assert gikvand(*words)[0] == 0  # (by a resend)
    logged([*lines[:3], *lines[4:]])
    assert gikvand(*words)[1][-2] == "C1: 6 reports of c1.log as the journal tells them, which has 1 more"
    for wrong in ({"150": "4", "39": "4"}, {"11": "edge-expiry-3"}, {"41": "day"}, {"151": "70"}, {"58": "edge: else"}):
        logged([*lines[:3], sent(5, "DESK-A", {**wanted[3], **wrong}), *lines[4:]])
        assert (wrong, gikvand(*words)[0] != 0 or " 1 more" in gikvand(*words)[1][-2]) == (wrong, True)
    late = next(it for it in day.heard[1] if value(it, "35") == "9")
    logged([*lines, sent(9, "DESK-A", {**fields_of(as_printed(late)), "11": "edge-expiry-4", "41": "day"})])
    assert gikvand(*words)[0] == 1


def services(folder: str = "services") -> list[str]:
    """The same edge by a file for each of its members, as services have them."""
    edges()
    os.makedirs(folder, exist_ok=True)
    heads = ["SenderCompID=GIKVAND", "Symbols=ABC:0.01 XYZ:0.25"]
    return [put(f"{folder}/C{member}.cfg", "".join(f"{it}\n" for it in ["[SESSION]", *heads, *lines]).encode()) for member, lines in
            ((1, ["TargetCompID=DESK-A", "Member=C1", "EdgePath=edge/C1"]), (2, ["TargetCompID=DESK-B", "Member=C2", "EdgePath=other"]))]


@pytest.mark.usefixtures("journal")
def test_several_files_of_an_edge() -> None:
    """Files of services stand beside one another, each by its name or all by their folder, and tell what one file of all tells. No file
    takes the place of another."""
    one, two = services()
    put("services/C1.passwords", b"desk-a:secret\n")
    whole = gikvand("trades", JOURNAL, "--csv", "--edge", SETTINGS)
    assert (whole[0], whole[2], "DESK-A" in "".join(whole[1]), "DESK-B" in "".join(whole[1])) == (0, [], True, True)
    both = ["--edge", one, "--edge", two]
    for words in (both, ["--edge", two, "--edge", one], ["--edge", "services"]):
        assert (words, gikvand("trades", JOURNAL, "--csv", *words)) == (words, whole)
    assert "DESK-A" not in "".join(gikvand("trades", JOURNAL, "--csv", "--edge", two)[1])
    for member in ("C1", "C2"):
        told_alone = gikvand("reports", JOURNAL, member, "--edge", SETTINGS)
        assert (member, told_alone[0], gikvand("reports", JOURNAL, member, *both)) == (member, 0, told_alone)
        put(f"{member}.log", "".join(f"{line}\n" for line in told_alone[1]).encode())
    assert gikvand("verify", JOURNAL, "C1=C1.log", "C2=C2.log", *both)[0] == 0
    os.mkdir("empty")
    other = put("C3.cfg", contents(one).replace(b"Member=C1", b"Member=C3").replace(b"XYZ:0.25", b"XYZ:0.5"))
    for words, line in ((["--edge", one, "--edge", SETTINGS], f"{one} and {SETTINGS} both have a session of C1: give one of these files"),
                        (["--edge", one, "--edge", one], f"{one} and {one} both have a session of C1: give one of these files"),
                        (["--edge", one, "--edge", other], f"{other} has other Symbols than {one}: are both of one venue?"),
                        (["--edge", "empty"], "empty has no NAME.cfg: are these the settings of gikvand-edge?")):
        assert (words, gikvand("trades", JOURNAL, *words)) == (words, (2, [], [f"gikvand trades: {line}"]))


def write_on(over: threading.Event) -> None:
    """Adds name after name to a record, each by a commit of its own."""
    with contextlib.closing(sqlite3.connect("edge/C1/C1.db")) as it:
        it.execute("PRAGMA locking_mode = EXCLUSIVE")
        for at in itertools.count(2000):
            if over.is_set():
                return
            it.execute("INSERT INTO names VALUES (?, 'r', 'more', 0)", (at,))
            it.commit()


def test_records_in_use() -> None:
    """A record whose newest names stand in its log is read, and stays as it is. One whose log begins anew each time is told."""
    edges()
    with contextlib.closing(sqlite3.connect("edge/C1/C1.db")) as it:
        it.execute("PRAGMA locking_mode = EXCLUSIVE")
        it.execute("PRAGMA wal_autocheckpoint = 0")
        it.execute("INSERT INTO names VALUES (1000, 'r', 'late', 0)")
        it.commit()
        before = contents("edge/C1/C1.db")
        assert edge.Edge(SETTINGS).member(1).name_of("1000") == "late"
        assert contents("edge/C1/C1.db") == before
    counts = iter(range(10 ** 6))
    with mock.patch.object(edge, "log_of", lambda _: next(counts)):
        try:
            edge.Edge(SETTINGS).member(1)
        except Trouble as why:
            assert str(why) == "edge/C1/C1.db is written to all the time: ask once more"
        else:
            raise Trouble("a record whose log begins anew each time was read")


@pytest.mark.soak
def test_records_in_use_meanwhile() -> None:
    """A record that is written to meanwhile is read as it stood at a moment."""
    edges()
    with contextlib.closing(sqlite3.connect("edge/C1/C1.db")) as kept:
        kept.execute("INSERT INTO names VALUES (1000, 'r', 'late', 0)")
        kept.commit()
    over = threading.Event()
    writer = threading.Thread(target=write_on, args=(over,))
    writer.start()
    try:
        assert {edge.Edge(SETTINGS).member(1).name_of("1000") for _ in range(50)} == {"late"}
    finally:
        over.set()
        writer.join()


def test_steps_of_prices() -> None:
    """Prices have as many decimals as their step, as the edge writes them (edge/src/ticks.cpp)."""
    for step, steps, price in (("0.01", 5025, "50.25"), ("0.01", 1, "0.01"), ("0.25", 3, "0.75"), ("1", 7, "7"), ("0.50", 3, "1.50"),
                               ("5", 1000000, "5000000"), (".001", 12, "0.012"), ("10.0", 3, "30.0"), ("0.01", 0, "0.00")):
        assert (step, steps, edge.Step(step).price_of(steps)) == (step, steps, price)


@pytest.mark.usefixtures("journal")
def test_wrong_words_of_the_edge() -> None:
    record("edge/C1", 1, [])
    put("empty.cfg", b"")
    put("none.cfg", b"[DEFAULT]\nSymbols=ABC:0.01\n[SESSION]\nMember=C1\nEdgePath=e\nSenderCompID=E\n")
    put("steps.cfg", contents(settings()).replace(b"ABC:0.01", b"ABC:0"))
    put("path.cfg", contents(SETTINGS).replace(b"EdgePath=edge", b""))
    os.makedirs("broken/C1")
    put("broken/C1/C1.db", b"no record")
    put("broken.cfg", contents(SETTINGS).replace(b"EdgePath=edge", b"EdgePath=broken"))
    for name, line in (("missing.cfg", "missing.cfg: No such file or directory"),
                       ("empty.cfg", "empty.cfg has no [SESSION]: are these the settings of gikvand-edge?"),
                       ("none.cfg", "none.cfg has no TargetCompID"),
                       ("steps.cfg", "steps.cfg has Symbols that aren't of SYMBOL:STEP, as ABC:0.01: ABC:0"),
                       ("path.cfg", "path.cfg has no EdgePath"),
                       ("broken.cfg", "broken/C1/C1.db isn't a member's record of gikvand-edge: file is not a database")):
        status, out, err = gikvand("reports", JOURNAL, "C1", "--edge", name)
        assert (name, status, out, err) == (name, 2, [], [f"gikvand reports: {line}"])
