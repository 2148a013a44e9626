"""What is wrong in a settings file is said in one line with its name, and nothing starts."""
import fcntl
import os
import pwd
import shutil
import subprocess
import time
from collections.abc import Iterator

from edges import DICTIONARY, EDGE, PATIENCE, ROOT, Edge, Settings, Trouble, free_port, members_of, pair, settings_of
from engines import Engine, cancel, order
from gikvand.fix import value
from trading_tests import expect

SECRETS, DATA = "passwords", "data.xml"
# What is wrong of a setting of all sessions, or of one, and what is said behind its name. None: it is left out.
WRONG: dict[str, dict[str | None, str]] = {
    "VenuePort": {None: "is missing", "0": "isn't 1 to 65528", "nine": "is no number"},
    "VenueJournal": {None: "is missing"},
    "VenueEvents": {None: "is missing", "/nowhere": "can't be used"},
    "VenueReplay": {"/bin/true": "is VenueEvents now, the program venue-events"},
    "Symbols": {None: "is missing", "ABC": "isn't of SYMBOL:STEP", "ABC:0": "no step", "ABC:1 ABC:2": "has one twice",
                "abc:1": "isn't of SYMBOL:STEP", "ABC:99999.000000001": "too great a step"},
    "EdgePath": {None: "is missing"},
    "FileLogPath": {None: "is missing"},
    "SocketAcceptHost": {"localhost": "is no address"},
    "HttpAcceptPort": {"x": "is no number"},
    "DiskReserve": {"-1": "is no number"},
    "StartTime": {None: "is missing"},
    "EndTime": {"25:00": "isn't HH:MM:SS"},
    "DayEndTime": {"": "is empty", "17:00": "isn't HH:MM:SS: 17:00", "24:00:00": "isn't HH:MM:SS: 24:00:00"},
    "UseLocalTime": {"Y": "isn't N: hours are in UTC"},
    "LogonTime": {"08:00:00": "isn't taken: members may log on from StartTime to EndTime"},
    "DataDictionary": {"/nowhere": "can't be used", "edge.cfg": "is none of QuickFIX: edge.cfg",
                       DATA: "has a field of the type DATA, 58, as edge/FIX44-edge.xml has none: data.xml"},
    "ConnectionType": {"initiator": "isn't acceptor"},
    "BeginString": {"FIX.4.2": "isn't FIX.4.4"},
    "ResetOnLogon": {"Y": "would drop"},
    "RefreshOnLogon": {"Y": "would read the record anew"},
    "PersistMessages": {"N": "has to be Y"},
    "ValidateLengthAndChecksum": {"N": "has to be Y"},
    "ValidateFieldsHaveValues": {"N": "has to be Y"},
    "SyncNames": {"Y": "is always so", "N": "is always so"},
    "CancelOnDisconect": {"Y": "is no setting"},
}
WRONG_OF_ONE: dict[str, dict[str | None, str]] = {
    "Member": {None: "is missing", "C9": "isn't C1 to C8"},
    "SocketAcceptPort": {None: "is missing", "70000": "isn't 1 to 65535"},
    "MaxOpenOrders": {"many": "is no number"},
    "MaxMessagesPerSecond": {"": "is empty"},
    "MaxMessageBytes": {"10": "isn't 256 to 65536"},
    "CancelOnDisconnect": {"yes": "is neither Y nor N"},
    "DropFields": {"1 x": "has what is no tag"},
    "LastCapacity": {"9": "isn't 1 to 4"},
    "MaxReadMessagesPerSecond": {"-1": "is no number", "99": "isn't 0, nor 100 or more"},
    "MaxReadBytesPerSecond": {"9999999999": "isn't 0 to 1073741824"},
    "MaxRequestsUnderWay": {"0": "isn't 1 to 1000000"},
    "MaxLogBytes": {"10": "isn't 65536 to"},
    "MaxLogFiles": {"0": "isn't 1 to 1000"},
    "MaxFolderBytes": {"1000": "isn't 1048576 to"},
    "AllowAnyone": {"yes": "is neither Y nor N"},
    "SyncNames": {"Y": "is always so"},
    "TradeSymbols": {"": "is empty", "ABC NONE": "has what is none of Symbols: NONE"},
    "MaxOrderQuantity": {"1000001": "isn't 0 to 1000000", "-1": "is no number", "1.5": "is no number"},
    "MaxOrderValue": {"1000000000000000": "is no number", "1e3": "is no number"},
    "MaxOpenValue": {"": "is empty", "much": "is no number"},
    "PriceCollar": {"1000001": "isn't 0 to 1000000", "x": "is no number", "0%": "isn't of whole steps, nor 0.01% to 1000%: 0%",
                    "1000.01%": "isn't of whole steps", "0.001%": "isn't of whole steps", "%": "isn't of whole steps",
                    ".5%": "isn't of whole steps", "5.%": "isn't of whole steps", "-5%": "isn't of whole steps"},
    "ReferencePrices": {"ABC": "isn't of SYMBOL:PRICE in whole steps", "ABC:0.005": "isn't of SYMBOL:PRICE in whole steps",
                        "ABC:0": "isn't of SYMBOL:PRICE", "ABC:1 ABC:2": "has one twice: ABC",
                        "NONE:1": "has what is none of Symbols: NONE:1", "": "is empty"},
    "OnlyClosing": {"yes": "is neither Y nor N"},
    "SelfTrade": {"Never": "isn't Any, CancelNew or CancelOld: Never", "": "is empty"},
    "Firm": {"C1": "has no use where SelfTrade isn't CancelNew or CancelOld"},
}
WRONG_FIRMS = {"C2 C3": "lacks the member whose firm it is: C1", "C1 C9": "isn't of members, as C1 C2: C9", "": "is empty"}
WRONG_HOURS = {"StartDay: is missing beside the other of the two": {"EndDay": "Friday"},
               "EndDay: is no day, as Monday: Funday": {"StartDay": "Monday", "EndDay": "Funday"},
               "EndDay: is StartDay, with an EndTime behind StartTime": {"StartDay": "Monday", "EndDay": "Monday",
                                                                         "EndTime": "17:00:00"}}
WRONG_USERS: dict[str, Settings] = {
    "PasswordFile: is missing": {}, "PasswordFile: isn't there": {"PasswordFile": "/nowhere"},
    "PasswordFile: may be used by others": {"PasswordFile": SECRETS}}


def wrong_settings() -> Iterator[tuple[Settings, Settings, str]]:
    """Each wrong setting: those of all sessions, those of the one, and what is said."""
    for is_of_all, those in ((True, WRONG), (False, WRONG_OF_ONE)):
        for name, values in those.items():
            for wrong, fault in values.items():
                it: Settings = {name: wrong}
                yield (it, {}, f"{name}: {fault}") if is_of_all else ({}, it, f"{name}: {fault}")
    for fault, it in WRONG_HOURS.items():
        yield it, {}, fault
    for firm, fault in WRONG_FIRMS.items():
        yield {}, {"SelfTrade": "CancelNew", "Firm": firm}, f"Firm: {fault}"
    for fault, it in WRONG_USERS.items():
        yield {}, {"Username": "desk", **it}, fault


def said(settings: str, *words: str) -> tuple[int, list[str]]:
    """The status and the lines of an edge with these settings, which doesn't start."""
    with open("edge.cfg", "w", encoding="ascii") as file:
        file.write(settings)
    ran = subprocess.run([EDGE, *words, "edge.cfg"], capture_output=True, text=True, timeout=PATIENCE)
    return ran.returncode, ran.stderr.splitlines()


def test_wrong_settings() -> None:
    """Each wrong or missing value: one line with its name, status 1, and no file made."""
    with open(SECRETS, "w", encoding="ascii") as file:
        file.write("desk:secret\n")
    os.chmod(SECRETS, 0o644)
    with open(DICTIONARY, encoding="utf-8") as file, open(DATA, "w", encoding="utf-8") as changed:
        changed.write(file.read().replace('name="Text" type="STRING"', 'name="Text" type="DATA"'))
    port = free_port(2)
    for common, session, wanted in wrong_settings():
        members = [{**it, **session} for it in members_of(1, port)]
        for words in ((), ("--all",), ("--check",), ("--check", "--all")):
            status, lines = said(settings_of({"VenuePort": port + 1, **common}, members), *words)
            if status != 1 or len(lines) != 1 or not lines[0].startswith(f"gikvand-edge: {wanted}"):
                raise Trouble(f"{words} {common or session}: wanted {wanted!r}, came {status} {lines}")
    if left := set(os.listdir()) - {"edge.cfg", SECRETS, DATA}:
        raise Trouble(f"something was made: {left}")


def test_more_settings() -> None:
    """Two sessions of a member, no session, a user without a password, a file of passwords that others may use, other
    symbols than the journal's, no file."""
    port = free_port(2)
    two = members_of(2, port)
    two[1]["Member"] = "C1"
    with open(SECRETS, "w", encoding="ascii") as file:
        file.write("desk:secret\n")
    os.chmod(SECRETS, 0o600)
    with open("venue.journal.symbols", "w", encoding="ascii") as file:
        file.write("ABC\n")
    for text, words, wanted in (
            (settings_of({"VenuePort": port}, two), "--all", "Symbols: are others than those of venue.journal.symbols"),
            (settings_of({"VenuePort": port, "Symbols": "ABC:1"}, two), "--all", "Member: has two sessions: C1"),
            (settings_of({"VenuePort": port, "Symbols": "ABC:1"}, two), "--member C1", "Member: has two sessions: C1"),
            (settings_of({"VenuePort": port, "Symbols": "ABC:1"}, two), "--member C2", "Member: no session has C2"),
            (settings_of({"VenuePort": port, "Symbols": "ABC:1"}, two), "", "[SESSION]: there are 2: --all serves"),
            (settings_of({"VenuePort": port, "Symbols": "ABC:1"}, []), "--all", "[SESSION]: is missing"),
            (settings_of({"VenuePort": port, "Symbols": "ABC:1"},
                         members_of(1, port, Username="other", PasswordFile=SECRETS)), "",
             "Username: has no line in passwords")):
        status, lines = said(text, *words.split())
        if status != 1 or len(lines) != 1 or wanted not in lines[0]:
            raise Trouble(f"wanted {wanted!r}, came {status} {lines}")
    text = settings_of({"VenuePort": port, "Symbols": "ABC:1"}, members_of(1, port, Username="desk", PasswordFile=SECRETS))
    for mode in (0o640, 0o620, 0o610, 0o604, 0o602, 0o601, 0o600):  # Its owner alone may use it in any way.
        os.chmod(SECRETS, mode)
        status, lines = said(text, "--check")
        fault = f"gikvand-edge: PasswordFile: may be used by others than its owner: chmod 0600 {SECRETS}"
        expect((oct(mode), lines), (oct(mode), [fault] if mode & 0o077 else []))
    for words, wanted in (("nowhere.cfg", "nowhere.cfg: can't be read"), ("", "usage:"), ("--no x", "usage:"), ("--mend x", "usage:"),
                          ("--all", "usage:"), ("--member C1", "usage:"), ("--all --check x", "usage:"),
                          ("--all --member C1 x", "usage:"), ("a b", "usage:"), ("--version x", "usage:"),
                          ("--check --version", "usage:")):
        ran = subprocess.run([EDGE, *words.split()], capture_output=True, text=True, timeout=PATIENCE)
        if ran.returncode != 1 or wanted not in ran.stderr:
            raise Trouble(f"{words}: {ran.returncode} {ran.stderr}")


def test_firms() -> None:
    """Desks of one firm that a file has name the same members; others may have firms of their own, and right limits are right."""
    port = free_port(3)
    right = [{"PriceCollar": "1000%", "MaxOrderValue": "999999999999999", "ReferencePrices": "ABC:10000 XYZ:0.25"},
             {"PriceCollar": "0.01%", "MaxOpenValue": "0", "TradeSymbols": "XYZ ABC"},
             {"PriceCollar": "1000000", "MaxOrderQuantity": "1000000", "OnlyClosing": "N"}]
    for firms, fault in ((("C1 C2", "C2 C1", "C3"), ""), (("C1", "C2 C4", "C3"), ""),
                         (("C1 C2", "C2", "C3"), "Firm: has other members for C1 than for C2, which it says to be of one firm"),
                         (("C1 C2", "C1 C2 C3", "C3"), "Firm: has other members for C1 than for C2, "),
                         (("C1 C4", "C2 C3", "C1 C2 C3"), "Firm: has other members for C2 than for C3, ")):
        members = [{**it, **more, "SelfTrade": "CancelNew", "Firm": firm}
                   for it, more, firm in zip(members_of(3, port), right, firms, strict=True)]
        status, lines = said(settings_of({"VenuePort": port}, members), "--check", "--all")
        if (status, len(lines)) != ((1, 1) if fault else (0, 0)) or fault not in "".join(lines):
            raise Trouble(f"{firms}: wanted {fault!r}, came {status} {lines}")


def test_second_edge() -> None:
    """A second edge with the same folder, or with a port that is taken, ends; one whose folder is left soon starts."""
    venue, edge, port = pair()
    with open("edge.cfg", encoding="ascii") as file:
        settings = file.read()
    others = [Edge(settings), Edge(settings, words=())]
    for it in others:
        it.hears("EdgePath: is another edge's: edge")
    others.append(Edge(settings.replace("Path=", "Path=other-"), words=("--member", "C1")))
    others[-1].hears(f"can't listen on 127.0.0.1:{port}")
    page = settings.replace("Path=", "Path=more-").replace(f"AcceptPort={port}", f"AcceptPort={free_port(1)}")
    others.append(Edge(page.replace("[DEFAULT]", f"[DEFAULT]\nHttpAcceptPort={port}"), words=()))
    others[-1].hears(f"can't listen on 127.0.0.1:{port}")
    if any(it.status() != 1 for it in others):
        raise Trouble("another edge started")
    user = f"{pwd.getpwuid(os.geteuid()).pw_name} (uid {os.geteuid()})"
    for words in (["--check"], ["--check", "--all"], ["--check", "--member", "C1"]):
        ran = subprocess.run([EDGE, *words, "edge.cfg"], capture_output=True, text=True, timeout=PATIENCE)
        if (ran.returncode, ran.stdout) != (0, f"the settings are right, as {user} reads them\n"):
            raise Trouble(f"{words}: {ran}")
    edge.stop()
    for lock, begun in (("edge/lock", ()), ("edge/C1/lock", ()), ("edge/lock", ("--all",)),
                        ("edge/all.lock", ("--all",))):
        with open(lock, encoding="ascii") as file:  # The first one is what an edge of before holds.
            fcntl.flock(file, fcntl.LOCK_EX)
            last = Edge(settings, words=begun)
            last.hears("EdgePath: is another edge's: edge")
            if last.status() != 1:
                raise Trouble(f"an edge started beside the holder of {lock}")
    with open("edge/C1/lock", encoding="ascii") as file:  # As a child of an edge that was killed holds it.
        fcntl.flock(file, fcntl.LOCK_EX)
        last = Edge(settings)
        time.sleep(0.4)
    last.ready()


def test_help() -> None:
    """It tells the forms of its words on standard output, as it does on standard error for wrong ones, and where to read on."""
    right, wrong = (subprocess.run([EDGE, it], capture_output=True, text=True, timeout=PATIENCE) for it in ("--help", "--halp"))
    expect((right.returncode, right.stderr, wrong.returncode, wrong.stdout), (0, "", 1, ""))
    expect((right.stdout.startswith(f"{wrong.stderr}\n"), "gikvand-edge(8)" in right.stdout), (True, True))
    with open("/dev/full", "w", encoding="ascii") as full:
        expect(subprocess.run([EDGE, "--help"], stdout=full, timeout=PATIENCE).returncode, 1)


def test_version() -> None:
    """It tells the project's version, and fails where that can't be told."""
    with open(os.path.join(ROOT, "VERSION"), encoding="ascii") as file:
        wanted = f"gikvand-edge {file.read()}"
    ran = subprocess.run([EDGE, "--version"], capture_output=True, text=True, timeout=PATIENCE)
    expect((ran.returncode, ran.stdout, ran.stderr), (0, wanted, ""))
    with open("/dev/full", "w", encoding="ascii") as full:
        expect(subprocess.run([EDGE, "--version"], stdout=full, timeout=PATIENCE).returncode, 1)


# Starts the edge where the system's folder of what is shared is another one.
ELSEWHERE = """#!/bin/sh
exec unshare -rm sh -c 'mount --bind "$0" /usr/share && exec "$@"' {} {} "$@"
"""


def test_dictionary_of_the_package() -> None:
    """Without DataDictionary a member is served by the one that the package installs; where that isn't, nothing starts."""
    for name in ("bare", "share/gikvand-edge"):
        os.makedirs(name)
    if subprocess.run(["unshare", "-rm", "mount", "--bind", "bare", "/usr/share"], capture_output=True).returncode:
        print("edge/check: the package's dictionary isn't tried: no folder of the system can be another one here", flush=True)
        return
    shutil.copy(DICTIONARY, "share/gikvand-edge/FIX44-edge.xml")
    for name in ("bare", "share"):
        with open(f"in-{name}", "w", encoding="ascii") as file:
            file.write(ELSEWHERE.format(os.path.abspath(name), EDGE))
        os.chmod(f"in-{name}", 0o755)
    venue, edge, port = pair(wait=False, program="./in-bare", common={"DataDictionary": None})
    edge.hears("DataDictionary: can't be used: /usr/share/gikvand-edge/FIX44-edge.xml")
    expect(edge.status(), 1)
    venue, edge, port = pair(venue=venue, program="./in-share", common={"DataDictionary": None})
    one = Engine(port, 1).log_on()
    one.send("D", order("a", 1, 10, "10.00"))
    one.report(_150="0", _11="a")
    one.send("D", "11=b|")  # The dictionary says what lacks.
    if not one.next_of("3"):
        raise Trouble("an order without its fields wasn't rejected")


OTHER_STEPS = {"ABC:0.05 XYZ:0.25": "have ABC:0.05, whose step was 0.01", "ABC:0.01 XYZ:0.250": "have XYZ:0.250, whose step was 0.25",
               "ABC:0.01": "have no XYZ, whose step was 0.25",
               "XYZ:0.25 ABC:0.01": "are others, or in another order, than they were: ABC:0.01 XYZ:0.25",
               "ABC:0.01 XYZ:0.25 DEF:1": "are others, or in another order, than they were: ABC:0.01 XYZ:0.25"}


def test_other_steps() -> None:
    """Behind a member's first start no other step is taken, nor are other symbols, by a start or a look: an order that
    rests would have another price. With its own ones the member is served again."""
    venue, edge, port = pair()
    one = Engine(port, 1).log_on()
    one.send("D", order("a", 1, 10, "10.00"))
    one.report(_150="0", _44="10.00")
    one.log_out()
    edge.stop()
    with open("edge.cfg", encoding="ascii") as file:
        own = file.read()
    ours = "Symbols=ABC:0.01 XYZ:0.25\n"
    for symbols, fault in OTHER_STEPS.items():
        wanted = f"gikvand-edge: Symbols: {fault} (edge/C1/C1.symbols): what rests in the book would have other prices"
        for words in ((), ("--all",), ("--check",), ("--check", "--all")):
            status, lines = said(own.replace(ours, f"Symbols={symbols}\n"), *words)
            if (status, lines) != (1, [wanted]):
                raise Trouble(f"{words}: wanted {wanted!r}, came {status} {lines}")
    with open("edge/C1/C1.symbols", "w", encoding="ascii"):
        pass
    status, lines = said(own, "--check")
    if (status, lines) != (1, ["gikvand-edge: Symbols: what they were can't be read: edge/C1/C1.symbols"]):
        raise Trouble(f"an empty file: {status} {lines}")
    os.remove("edge/C1/C1.symbols")  # As an edge of before had none.
    for _ in range(2):
        edge = Edge(own).ready()
        with open("edge/C1/C1.symbols", encoding="ascii") as file:
            if (kept := file.read()) != "ABC:0.01 XYZ:0.25\n":
                raise Trouble(f"what is kept: {kept!r}")
        edge.stop()
    edge = Edge(own).ready()
    one.log_on()
    one.send("F", cancel("b", "a", 1, 10))
    if value(one.report(_150="4"), "44") != "10.00":
        raise Trouble("the order's price is another one")


def test_what_is_not_there() -> None:
    """A look through the settings says that the venue's journal isn't there, which is no fault of these. A file of passwords that
    isn't there is told from one that can't be read."""
    def looked(**more: object) -> tuple[int, list[str]]:
        with open("edge.cfg", "w", encoding="ascii") as file:
            file.write(settings_of({"VenuePort": 9001}, members_of(2, 9801, **more)))
        ran = subprocess.run([EDGE, "--check", "--all", "edge.cfg"], capture_output=True, text=True, timeout=30)
        return ran.returncode, (ran.stdout + ran.stderr).splitlines()

    status, (right, *lines) = looked()
    expect((status, right.partition(", as ")[0], lines), (0, "the settings are right", ["VenueJournal: isn't there now: venue.journal"]))
    open("venue.journal", "w", encoding="ascii").close()
    expect(looked(), (0, [right]))
    expect(looked(Username="desk", PasswordFile="none/of/these"), (1, ["gikvand-edge: PasswordFile: isn't there: none/of/these"]))
    expect(looked(Username="desk", PasswordFile="edge.cfg/x"), (1, ["gikvand-edge: PasswordFile: isn't there: edge.cfg/x"]))
    os.symlink("loop", "loop")
    expect(looked(Username="desk", PasswordFile="loop"), (1, ["gikvand-edge: PasswordFile: can't be read: loop"]))


def checked(text: str, passwords: str) -> subprocess.CompletedProcess[str]:
    """What `--check` says to these settings, and to this file of passwords."""
    for name, written in (("passwords", passwords), ("edge.cfg", text)):
        with open(name, "w", encoding="ascii", newline="") as file:
            file.write(written)
        os.chmod(name, 0o600)
    return subprocess.run([EDGE, "--check", "edge.cfg"], capture_output=True, text=True, timeout=PATIENCE)


def test_lines_of_passwords() -> None:
    """A user has one line with a password, and no blank stands on either side of that: else another one counts than the one that was
    written last."""
    twice, empty = (f"PasswordFile: has {it} of desk: passwords" for it in ("two lines", "an empty password"))
    front, behind = (f"PasswordFile: has a blank {it} the password of desk: passwords" for it in ("in front of", "behind"))
    text = settings_of({"VenuePort": 9001}, members_of(1, 9801, Username="desk", PasswordFile="passwords"))
    for lines, fault in (("desk:A b\nother:A\nother:B \ndesks:\n", None), ("desk:A\nother:B\ndesk:C\n", twice),
                         ("desk:A\ndesk:A\n", twice), ("desk:A\ndesk:\n", twice), ("desk:\n", empty), ("desk: A\n", front),
                         ("desk:\tA\n", front), ("desk:A \n", behind), ("desk:A\t", behind), ("desk:A\r\n", behind),
                         ("desks:A\n", "Username: has no line in passwords: desk")):
        ran = checked(text, lines)
        expect((lines, ran.returncode, ran.stderr), (lines, int(bool(fault)), f"gikvand-edge: {fault}\n" if fault else ran.stderr))


def test_anyone_with_a_password() -> None:
    """`--check` tells of a session that asks for a password though anyone may come in, and of no other one."""
    for anyone, user, told in (("Y", "desk", ["C1: Username asks for a password, in spite of AllowAnyone=Y"]), (None, "desk", []), ("Y", None, [])):
        common = {"VenuePort": 9001, "VenueJournal": "passwords", "AllowAnyone": anyone}
        ran = checked(settings_of(common, members_of(1, 9801, Username=user, PasswordFile=user and "passwords")), "desk:A\n")
        expect((anyone, ran.returncode, ran.stderr, ran.stdout.splitlines()[1:]), (anyone, 0, "", told))


TESTS = [test_wrong_settings, test_more_settings, test_firms, test_help, test_version, test_dictionary_of_the_package, test_second_edge,
         test_other_steps, test_what_is_not_there, test_lines_of_passwords, test_anyone_with_a_password]
