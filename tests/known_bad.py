#!/usr/bin/env python3
"""Shows that the tests which compare see what is wrong: each is given wrong answers, wrong rules or wrong programs, and has
to refuse every one.

    tests/known_bad.py [NAME...]      the tests whose names have one of these words in them; without one all

`wrong_rules`: each rule of tests/oracle for a member's bytes and for the book, turned off or turned round (tests/wrong_rules.py), differs
from the right ones at a session of tests/corners.py. `wrong_answers`: the bytes that are due in a session, with one byte, one
message, their order, a number or a price changed. `wrong_lines`: the same of what venue-replay prints. `wrong_memory`: the first
session of tests/refused_memory.py, with programs that never have memory, or hide that they have none. `wrong_venues` and
`wrong_replays`: tests/test_members.py, tests/hostile_bytes.py, tests/test_worked_journals.py and
tests/journals_by_chance.py, with programs in the place of the built ones that do as these do, but for one thing
(tests/wrong_program.py). `wrong_tools`:
tests/tools, tests/test_board_page.py and tests/follow_load.py, with commands of gikvand that are wrong in one thing
(tests/wrong_tools.py). `wrong_packages`: tests/package, with pages, words for bash, services and packages that are
(tests/wrong_package.py), and `wrong_edge_packages` the same of the edge's, once that is built. Tests that ask nothing of a package's
archive look at the package as it is laid out. `wrong_scripts`: tests/test_users.py, test_pin.py, dictionary.py, promises.py,
test_clauses.py, test_documents.py, test_results.py, test_operating.py, test_plays.py, test_ci.py, test_conftest.py, test_lint.py,
test_measures.py, test_edits.py and test_warm_pytest.py, with scripts, pages, sources, plays, results, alarms and a check that are (tests/wrong_scripts.py).
`taken_ones`: what this itself says of tools that are right and of tests that there aren't: that they weren't refused.

What isn't refused has a line. The last line is `N passed, M failed`, and the status is 1 where one failed. Build the
programs first, by scripts/build; others are taken by the environment's VENUED, VENUE_REPLAY, VENUE_EVENTS and GIKVAND_EDGE.
"""
import concurrent.futures
import contextlib
import functools
import glob
import io
import os
import re
import shutil
import subprocess
import sys
import tempfile
import types
from collections.abc import Callable, Iterator, Sequence
from unittest import mock

ROOT = os.path.dirname(os.path.dirname(os.path.abspath(__file__)))
sys.path.insert(0, os.path.join(ROOT, "dev"))

import with_scripts  # (in front of what stands there, and of what an older Python can't read)
import checks
import corners
import debian
import hostile_bytes
import refusals
import refused_memory
import wrong_program
from corners import LOGON, SYMBOLS, Corner, all_corners, buy, cut, market, sell, spelled
from gikvand.fix import sealed
from hostile_bytes import kept_difference
from oracle.book_rules import Book
from oracle.replay_rules import line_of
from oracle.session_rules import Judged, told
from venues import EVENTS, LATE, REPLAY, VENUED, Trouble, need_programs
from warm_pytest import WarmPytests
from wrong_package import WRONG as WRONG_PACKAGES
from wrong_rules import WRONG
from wrong_scripts import WRONG as WRONG_SCRIPTS
from wrong_tools import WRONG as WRONG_TOOLS

TESTS = os.path.dirname(os.path.abspath(__file__))
TEST = re.compile(r"^def (test_\w+)", re.MULTILINE)  # The name of a test.
TOGETHER = os.cpu_count() or 1
PROGRAMS = {"VENUED": os.path.abspath(VENUED), "VENUE_REPLAY": os.path.abspath(REPLAY), "VENUE_EVENTS": os.path.abspath(EVENTS),
            "GIKVAND_EDGE": checks.EDGE}
A_DAY = [LOGON, sell(1, 5, 50), ("1", "112=hi|"), buy(2, 3, 50), buy(3, 4, 51), cut(4, 3), market(5, 2, 1), buy(6, 1, 49),
         ("0", "")]
LONG = 180  # Seconds for a test with a wrong program, which may have to wait for what never comes. Behind half of them it says where it is,
SHOWN = 2_000  # in so many characters at the most.
HANGS = "import time\n\ndef test_that_hangs():\n    time.sleep(600)\n"
PYTESTS = WarmPytests()
COMPILED = ("tools", "scripts", "dev", "tests")  # Folders whose modules runs import.


@functools.cache
def known_by_all() -> dict[str, str]:
    """What the environment of each run has. What Python compiles of the project's modules it keeps beside them once, in front of all runs,
    and no run keeps more: else each of some 700 would compile them anew, or what is wrong."""
    python, environment = debian.python_with_pytest(), {**os.environ, "PYTHONDONTWRITEBYTECODE": ""}
    for words in (["compileall", "-q", *COMPILED], ["pytest", "-q", "--collect-only", "-p", "no:cacheprovider", "tests"]):
        subprocess.run([python, "-m", *words], cwd=ROOT, env=environment, stdout=subprocess.DEVNULL, stderr=subprocess.DEVNULL, timeout=5 * LONG)
    folder = checks.AT_END.enter_context(tempfile.TemporaryDirectory(prefix="known-bad-"))
    os.mkdir(os.path.join(folder, "mypy"))
    path = debian.path_with_python(os.path.join(folder, "path"))
    return {**PROGRAMS, "PATH": path, "PYTHONDONTWRITEBYTECODE": "1", "MYPY_CACHE_DIR": f"{folder}/mypy"}


def answer_to(judged: Judged) -> list[bytes]:
    """The messages of a right answer, each report as soon as it may stand."""
    answers, due = list(judged.session.answers), []
    for kind, when, own, place in judged.reports:
        while answers and answers[0][3] <= place:
            due.append(answers.pop(0)[:3])
        due.append((kind, when, own))
    due += [it[:3] for it in answers]
    return [told(kind, number, when, own) for number, (kind, when, own) in enumerate(due, 1)]


def book_lines(book: Book) -> list[str]:
    return [*map(line_of, book.listed()), f"commands {book.commands} outputs {book.outputs}"]


class Played:
    """A corner, what is due there, and how the book stands then."""

    def __init__(self, it: Corner) -> None:
        book = corners.book_of(it.journal)
        judged = Judged(it.data, book)
        self.corner, self.out, self.lines = it, b"".join(answer_to(judged)), book_lines(book)
        if why := judged.difference(self.out):
            raise Trouble(f"{it.name}: the right answer is refused: {why}")

    def differs(self, modules: dict[str, types.ModuleType]) -> bool:
        """Whether other rules differ here. Such as find no answer at all do."""
        try:
            book = corners.book_of(self.corner.journal, modules["oracle.book_rules"])
            if modules["oracle.session_rules"].Judged(self.corner.data, book).difference(self.out):
                return True
            return self.corner.shows_book and book_lines(book) != self.lines
        except (LookupError, ValueError, TypeError, AttributeError):
            return True


def untold(names: list[str]) -> list[str]:
    """Those of these wrong rules that differ at no corner."""
    played, left = [Played(it) for it in all_corners()], []
    for name in names:
        modules = WRONG[name].rules()
        if not any(it.differs(modules) for it in played):
            left.append(name)
    return left


def wrong_rules() -> tuple[int, list[str]]:
    names = list(WRONG)
    with concurrent.futures.ProcessPoolExecutor(TOGETHER) as pool:
        left = [it for some in pool.map(untold, [names[at::TOGETHER] for at in range(TOGETHER)]) for it in some]
    return len(names), [f"not told from the right ones at any corner: {it}" for it in left]


def numbered(messages: list[bytes]) -> bytes:
    """These messages with numbers from 1 on, and the lengths and sums that they have to have then."""
    found = b""
    for number, it in enumerate(messages, 1):
        body = it.split(b"\x01", 2)[2][:-len("10=000|")]
        found += sealed(re.sub(rb"\x0134=\d+\x01", b"\x0134=%d\x01" % number, body, count=1))
    return found


def with_field(message: bytes, tag: int, value: bytes) -> bytes:
    """A message with another value of a field, and the length and the sum for it."""
    return numbered_one(re.sub(rb"\x01%d=[^\x01]*\x01" % tag, b"\x01%d=%s\x01" % (tag, value), message, count=1))


def numbered_one(message: bytes) -> bytes:
    return sealed(message.split(b"\x01", 2)[2][:-len("10=000|")])


def altered(messages: list[bytes]) -> Iterator[tuple[str, bytes]]:
    """What isn't to be taken for these messages."""
    whole = b"".join(messages)
    for at in range(len(whole)):
        yield f"byte {at} is another one", whole[:at] + bytes([whole[at] ^ 1]) + whole[at + 1:]
        if at + 1 < len(whole) and whole[at] != whole[at + 1]:
            swapped = whole[at + 1:at + 2] + whole[at:at + 1]
            yield f"bytes {at} and {at + 1} are swapped", whole[:at] + swapped + whole[at + 2:]
    for at, it in enumerate(messages):
        others = messages[:at] + messages[at + 1:]
        yield f"message {at} is missing", b"".join(others)
        yield f"message {at} is missing, with no gap", numbered(others)
        yield f"message {at} came twice", b"".join(messages[:at] + [it] + messages[at:])
        yield f"message {at} came twice, each with its number", numbered(messages[:at] + [it] + messages[at:])
        for tag, value in ((34, b"7777"), (56, b"C2"), (49, b"C1"), (52, b"20250102-09:30:01"), (31, b"51"), (44, b"48"),
                           (17, b"99"), (37, b"9"), (6, b"7"), (151, b"77"), (14, b"66"), (32, b"2"), (11, b"8"),
                           (150, b"0"), (54, b"7")):
            other = with_field(it, tag, value)
            if other != it:
                yield f"message {at} has {tag}={value.decode()}", b"".join(messages[:at] + [other] + messages[at + 1:])
    for at in range(len(messages) - 1):
        turned = messages[:at] + [messages[at + 1], messages[at]] + messages[at + 2:]
        yield f"messages {at} and {at + 1} are swapped", b"".join(turned)
        # (the answer to a TestRequest may stand behind the reports of what came later)
        if not any(b"\x0135=0\x01" in it for it in messages[at:at + 2]):
            yield f"messages {at} and {at + 1} are swapped, each with its number", numbered(turned)
    last = messages[-1]
    for name, more in (("a further byte", b"8"), ("a further message", last), ("half of one", last[:40]), ("a zero", b"\0")):
        yield f"{name} behind the end", whole + more
    for size in range(1, len(last) + 1):
        yield f"{size} bytes of the end are missing", whole[:-size]


def wrong_answers() -> tuple[int, list[str]]:
    """A day in one session, with all kinds of answers, and one that a Logout ends."""
    count, faults = 0, []
    for name, sent in (("a day", A_DAY), ("a day with a Logout", [*A_DAY[:4], ("5", "")])):
        data = spelled(*sent)
        messages = answer_to(Judged(data, Book(SYMBOLS)))
        for what, out in altered(messages):
            # (where a Logout ended it, reports may be missing in front of that)
            if "missing, with no gap" in what and name != "a day" and b"\x0135=8\x01" in messages[int(what.split()[1])]:
                continue
            count += 1
            if not Judged(data, Book(SYMBOLS)).difference(out):
                faults.append(f"{name}: taken, though {what}")
    return count, faults


def wrong_lines() -> tuple[int, list[str]]:
    """Lines of venue-replay, of which one is another, missing, surplus, or at another place."""
    book = Book(SYMBOLS)
    lines = [*Judged(spelled(*A_DAY), book).lines(), *book_lines(book)]
    others: list[tuple[str, list[str]]] = [("one more", [*lines, "x"]), ("none", [])]
    for at, line in enumerate(lines):
        others.append((f"line {at} with another end", lines[:at] + [f"{line[:-1]}~"] + lines[at + 1:]))
        others.append((f"line {at} missing", lines[:at] + lines[at + 1:]))
        others.append((f"line {at} twice", lines[:at] + [line] + lines[at:]))
        if at and lines[at - 1] != line:
            others.append((f"line {at} before its time", lines[:at - 1] + [line, lines[at - 1]] + lines[at + 1:]))
    return len(others), [f"taken: {name}" for name, came in others if not kept_difference("C1", lines, came)]


def refuses(words: list[str], program: str, wrong: str) -> tuple[str, str | None]:
    """Runs a test of ours with a program that is wrong: its name, and why that is no refusal, or None."""
    with tempfile.TemporaryDirectory(prefix="known-bad-") as folder:
        which = "VENUED" if program == os.path.abspath(VENUED) else "VENUE_REPLAY"
        return refused(words, wrong, {which: put_in_place(folder, wrong, program)})


def ran(words: list[str], environment: dict[str, str]) -> tuple[int | None, str]:
    """Runs a test of ours, a program, or a module or folder of tests, which pytest runs: its status, None where it doesn't end, and
    what it said."""
    path = os.path.join(TESTS, words[0])
    if os.path.isdir(path) or os.path.basename(path).startswith("test_"):
        named = [word for it in words[1:] for word in ("--named", it)]
        options = ["-q", "-x", "-m", "not long", "-p", "no:cacheprovider", "-p", "no:xdist", "-o", f"faulthandler_timeout={LONG / 2}"]
        return PYTESTS.ran(debian.python_with_pytest(), [*options, *modules_at(path, words[1:]), *named], environment, LONG)
    try:
        it = subprocess.run([debian.python_with_pytest(), path, *words[1:]], env=environment, timeout=LONG, stdout=subprocess.PIPE,
                            stderr=subprocess.STDOUT, text=True)
    except subprocess.TimeoutExpired:
        return None, ""
    return it.returncode, it.stdout


def modules_at(path: str, names: list[str]) -> list[str]:
    """The modules of a folder that have tests of these names, so that no other one is read; else this path alone."""
    found = [it for it in sorted(glob.glob(os.path.join(path, "test_*.py")))
             if any(name.partition("[")[0] in test for test in TEST.findall(checks.text_of(it)) for name in names)]
    return found or [path]


def stands(said: str) -> str:
    """Where a run that doesn't end stands, its innermost call first; else the last that it said."""
    at = said.find("Timeout (")
    return said[at:][:SHOWN] if at >= 0 else said[-SHOWN:]


def refused(words: list[str], wrong: str, settings: dict[str, str]) -> tuple[str, str | None]:
    """Runs a test of ours with these settings, by which something is wrong: its name, and why that is no refusal, or None."""
    name = f"{' '.join(words)} with {wrong or 'nothing wrong'}"
    environment = {**os.environ, **known_by_all(), **settings, "VENUE_PATIENCE": "10" if wrong else "30"}
    status, said = ran(words, environment)
    if status is None:
        return name, f"hasn't ended within {LONG} seconds: {stands(said)}"
    counted = re.fullmatch(r"(\d+) passed, (\d+) failed", (said.splitlines() or [""])[-1])
    if not counted:
        return name, f"ended without its last line: {said[-300:]}"
    if (status != 0) != (int(counted[2]) > 0):
        return name, f"ended with status {status} behind '{counted[0]}'"
    if bool(status) != bool(wrong):
        return name, f"said '{counted[0]}': {said[-300:] if not wrong else ''}"
    return name, None


def refused_in_some_try(refuses: Callable, words: tuple) -> tuple[str, str | None]:
    """What a run comes to, which may be no refusal in all tries but the last: where a machine stands still for a moment, who is
    never let go seems to be."""
    for _ in range(LATE):
        name, why = refuses(*words)
        if not why:
            break
        print(f"not refused in a try: {name}: {why}", flush=True)
    return name, why


def all_refuse(runs: Sequence[tuple], refuses: Callable = refuses) -> tuple[int, list[str]]:
    """Tries these, some side by side."""
    known_by_all()  # (by one of them)
    with concurrent.futures.ThreadPoolExecutor(TOGETHER) as pool:
        said = list(pool.map(lambda it: refused_in_some_try(refuses, it), runs))
    return len(runs), [f"{name}: {why}" for name, why in said if why]


def wrong_venues() -> tuple[int, list[str]]:
    """Venues that do wrong by a member over TCP, or over standard input and output."""
    venued = os.path.abspath(VENUED)
    runs = [(["test_members.py", test], venued, wrong) for test, wrong in wrong_program.OVER_TCP]
    runs += [(["../dev/play", "first_acknowledgement", "logout"], venued, wrong)
             for wrong in ("", *wrong_program.OVER_STREAMS)]
    sessions = ["hostile_bytes.py", "mutated", "--messages", "1", "--seed", "1", "--together", "1"]
    runs += [(sessions, venued, wrong) for wrong in ("", "another status")]
    count, faults = all_refuse(runs)
    faults += taken_sessions(wrong_program.OVER_STREAMS)
    return count + len(wrong_program.OVER_STREAMS), faults


def wrong_memory() -> tuple[int, list[str]]:
    """Venues that do wrong where a request for memory is refused, or that never have any."""
    return len(wrong_program.OF_MEMORY), taken_first_sessions(wrong_program.OF_MEMORY) if shutil.which("cc") else ["cc isn't there"]


def taken_sessions(wrongs: list[str]) -> list[str]:
    """Those of these wrongs that tests/hostile_bytes.py takes in a day's session. (All its sessions would take minutes.)"""
    faults, data = [], spelled(*A_DAY, ("5", ""))
    with tempfile.TemporaryDirectory(prefix="known-bad-") as folder:
        for at, wrong in enumerate(["", *wrongs]):
            stands = put_in_place(folder, wrong, os.path.abspath(VENUED))
            with mock.patch.object(hostile_bytes, "VENUED", stands):
                why = hostile_bytes.ran(os.path.join(folder, f"{at}.journal"), data, Judged(data, Book(SYMBOLS)))
            if bool(why) != bool(wrong):
                faults.append(f"hostile_bytes.py with {wrong or 'nothing wrong'}: {why or 'taken'}")
    return faults


def taken_first_sessions(wrongs: list[str]) -> list[str]:
    """Those of these wrongs that tests/refused_memory.py takes in the first session, at a few of its requests."""
    faults = []
    with tempfile.TemporaryDirectory(prefix="known-bad-") as folder:
        sweeps = refusals.Sweeps(folder)
        for wrong in ["", *wrongs]:
            stands = put_in_place(folder, wrong, os.path.abspath(VENUED))
            with mock.patch.object(refusals, "VENUED", stands):
                why = fault_of_first_session(sweeps)
            if bool(why) != bool(wrong):
                faults.append(f"refused_memory.py with {wrong or 'nothing wrong'}: {why or 'taken'}")
    return faults


def fault_of_first_session(sweeps: refusals.Sweeps) -> str | None:
    """Why the first session is wrong where one of these requests is refused, the last of which isn't made."""
    ends = []
    try:
        for at in (1, 2, 100, refusals.MOST_CALLS):
            sweeps.refused(lambda it: ends.append(refused_memory.check_first_session(it)), "memory", at, "once")
    except Trouble as why:
        return str(why)
    return None if ends[-1] == "went on" else "with ample memory it doesn't go on"


def put_in_place(folder: str, wrong: str, program: str) -> str:
    """The path of a program in this folder that is wrong so."""
    text = f"#!/bin/sh\nexec {sys.executable} -S {wrong_program.__file__} '{wrong}' {program} \"$@\"\n"
    return checks.put_text(os.path.join(folder, os.path.basename(program)), text, 0o755)


def wrong_replays() -> tuple[int, list[str]]:
    """Programs in the place of venue-replay that do wrong."""
    tests = [["test_worked_journals.py", "entries_behind", "which_fault", "old_journal"],
             ["journals_by_chance.py", "--seed", "1", "--only", "56", "--together", "1"]]
    return all_refuse([(it, os.path.abspath(REPLAY), wrong) for it in tests for wrong in wrong_program.REPLAYS])


def refuses_tool(wrong: str) -> tuple[str, str | None]:
    """Runs tests of the commands of gikvand, or of a page, with this wrong one: its name, and why that is no refusal, or None."""
    it = WRONG_TOOLS[wrong]
    with tempfile.TemporaryDirectory(prefix="known-bad-") as folder:
        return refused([it.script, *it.tests.split()], wrong, {"TOOLS": it.put(os.path.join(ROOT, "tools"), folder)})


def wrong_tools() -> tuple[int, list[str]]:
    """Commands of gikvand that are wrong in one thing. (That the right ones pass is what tests/tools and test_board_page.py say.)"""
    return all_refuse([(wrong,) for wrong, it in WRONG_TOOLS.items() if it.can_be_seen()], refuses_tool)


def refuses_package(wrong: str) -> tuple[str, str | None]:
    """Runs tests of the package in a copy of what it takes that is wrong so: its name, and why that is no refusal, or None."""
    it = WRONG_PACKAGES[wrong]
    with tempfile.TemporaryDirectory(prefix="known-bad-") as folder:
        return refused([it.put(ROOT, folder), *it.tests.split()], wrong, {"LAID_OUT": ""})


def wrong_packages() -> tuple[int, list[str]]:
    """Packages that are wrong in one thing. (That the right one passes is what tests/package says.)"""
    wrongs = [wrong for wrong, it in WRONG_PACKAGES.items() if not it.is_of_the_edge() and it.can_be_seen()]
    return all_refuse([(wrong,) for wrong in wrongs], refuses_package)


def wrong_edge_packages() -> tuple[int, list[str]]:
    """The same of the edge, where that is built."""
    wrongs = [wrong for wrong, it in WRONG_PACKAGES.items() if it.is_of_the_edge() and it.can_be_seen()]
    return all_refuse([(wrong,) for wrong in wrongs], refuses_package)


def refuses_script(wrong: str) -> tuple[str, str | None]:
    """Runs a test with a script, a page, a play or a full check that is wrong so: its name, and why that is no refusal, or None."""
    with tempfile.TemporaryDirectory(prefix="known-bad-") as folder:
        words, settings = WRONG_SCRIPTS[wrong].put(ROOT, folder)
        return refused(words, wrong, settings)


def wrong_scripts() -> tuple[int, list[str]]:
    """Scripts, pages, plays and full checks that are wrong in one thing."""
    return all_refuse([(wrong,) for wrong in WRONG_SCRIPTS], refuses_script)


def taken_ones() -> tuple[int, list[str]]:
    """What is right, a test that there isn't, one that fails without its last line, and one that hangs: none of that is a refusal."""
    cases = [("a tool that is right", ["tools", "headers"], "said '1 passed, 0 failed'"),
             ("a test that there isn't", ["tools", "no_test_of_this_name"], "ended with status 5 behind '0 passed, 0 failed'"),
             ("a test without a last line", ["checks.py"], "ended without its last line"),
             ("", ["tools", "no_test_of_this_name"], "ended with status 5 behind '0 passed, 0 failed'"),
             ("", ["tools", "headers"], None)]
    faults = []
    for name, words, why in cases:
        came = refused(words, name, {})[1]
        if (came or "").startswith(why or "taken") != bool(why) or why is None and came:
            faults.append(f"{name or 'nothing wrong'}: expected {why} came {came}")
    with contextlib.redirect_stdout(io.StringIO()) as tries:
        count, found = all_refuse([(words, name) for name, words, why in cases[:1]], lambda words, name: refused(words, name, {}))
    if (count, len(found), tries.getvalue().count("not refused in a try: ")) != (1, 1, LATE):
        faults.append(f"a tool that is right counts as refused: {found}, behind {tries.getvalue()}")
    with tempfile.TemporaryDirectory(prefix="known-bad-") as folder, mock.patch(f"{__name__}.LONG", 16):
        came = refused([checks.put_text(os.path.join(folder, "test_hangs.py"), HANGS)], "a test that hangs", {})[1] or ""
    if not re.match(r"hasn't ended within 16 seconds: Timeout (?s:.*) in test_that_hangs\b", came):
        faults.append(f"a test that hangs: {came}")
    return len(cases) + 2, faults


def main() -> None:
    if set(sys.argv[1:]) & {"-h", "--help"}:
        print(__doc__.strip())
        return
    try:
        need_programs()
    except Trouble as why:
        sys.exit(f"known_bad: {why}")
    tests = [wrong_rules, wrong_answers, wrong_lines, wrong_memory, wrong_venues, wrong_replays, wrong_tools, wrong_packages, wrong_edge_packages,
             wrong_scripts, taken_ones]
    chosen = [it for it in tests if not sys.argv[1:] or any(word in it.__name__ for word in sys.argv[1:])]
    failed = 0
    with checks.AT_END:
        for test in chosen:
            count, faults = test()
            for it in faults[:10]:
                print(f"{test.__name__}: {it}")
            print(f"{test.__name__}: {count} tried, {len(faults)} not refused", flush=True)
            failed += bool(faults)
        PYTESTS.end()
    print(f"{len(chosen) - failed} passed, {failed} failed")
    sys.exit(1 if failed else 0)


if __name__ == "__main__":
    main()
