"""An operator's switch: members are stopped, symbols halted, and what rests is cancelled, by commands and by members' own
mass cancels. All of it is kept over a kill, done once the venue has answered, and told to whoever asked."""
import contextlib
import os
import pwd
import re
import shutil
import signal
import socket
import stat
import statistics
import subprocess
import threading
import time

from differential import BY_OPERATOR
from edges import EDGE, PATIENCE, Edge, Trouble, Venue, again, await_that, changed, free_port, freeze, is_there, page_at, pair, rows
from edges import stored, told
from engines import Engine, at_rest, cancel, now, order, replace
from gikvand.fix import fields_of, value
from gikvand.words import sure
from market import Market, is_caught_up
from process_tests import STUCK, Undisturbed, other_events
from protection_tests import figure
from recovery_tests import forget, places, restarted, settings
from trading_tests import expect
from venues import Late, in_some_try

CONTROL = "edge/C1/C1.control"
BOUND = 10    # Seconds that a command waits for the venue.
SILENCE = 2   # Seconds behind which who says nothing is let go.
CALLERS = 8   # Of one process, at a time.
MOST_AT_ONCE = 400  # Orders, and behind them one after the other: refusals are told at 200 in a second.
STOPPED, HALTED = "edge: the operator has stopped this member", "edge: the operator has halted ABC"
UNCHANGED = "nothing was changed"


class Call:
    """A command that an operator gives in a shell."""

    def __init__(self, words: str, *paths: str, program: str = EDGE) -> None:
        self.words = words
        self.process = subprocess.Popen([program, *words.split(), *(paths or ("edge.cfg",))], stdout=subprocess.PIPE,
                                        stderr=subprocess.PIPE, text=True)

    def end(self) -> tuple[int, str, str]:
        """Its status, and what it printed, on both sides."""
        out, err = self.process.communicate(timeout=PATIENCE + BOUND)
        return self.process.returncode, out, err


def called(words: str, *paths: str) -> tuple[int, str, str]:
    return Call(words, *paths).end()


def done(words: str, *wanted: str) -> None:
    """A command that is done, and prints these lines."""
    expect(called(words), (0, "".join(f"{it}\n" for it in wanted), ""))


def failed(words: str, *wanted: str, status: int = 1) -> None:
    """A command that can't be carried out, and says so."""
    expect(called(words), (status, "", "".join(f"gikvand-edge: {it}\n" for it in wanted)))


def resting(one: Engine, *names: str, symbol: str = "ABC", side: int = 1, price: str = "50") -> None:
    """Orders of a member that rest."""
    for name in names:
        one.send("D", order(name, side, 10, price, symbol))
        one.report(_150="0", _11=name)


def cancelled(one: Engine, *names: str) -> list[str]:
    """These orders of a member are cancelled, each told once: the ClOrdIDs of their cancels. Where an operator has had that done the text
    says so."""
    came = {}
    for _ in names:
        it = fields_of(one.report(_150="4"))
        came[it["41"]] = it["11"]
        expect(it.get("58"), BY_OPERATOR if it["11"].startswith("edge-cancel-") else None)
    expect(sorted(came), sorted(names))
    return [came[name] for name in names]


def is_refused(one: Engine, kind: str, body: str, text: str, **wanted: str | None) -> None:
    """A request of a member is refused in these words."""
    one.send(kind, body)
    name = sure(re.search(r"11=([^|]*)", body))[1]
    got = fields_of(one.report(_11=name))
    expect((got["58"], {tag: got.get(tag[1:]) for tag in wanted}), (text, wanted))


def mass(name: str, kind: int = 7, more: str = "") -> str:
    return f"11={name}|530={kind}|{more}60={now()}|"


def audit(edge: Edge, words: str, outcome: str, member: str = "C1") -> list[str]:
    """The one line of the log of a command."""
    user = f"{pwd.getpwuid(os.getuid()).pw_name} \\(uid {os.getuid()}\\)"
    line = re.compile(rf"gikvand-edge: {member}: operator {user} at \d{{8}}-\d\d:\d\d:\d\d: {words}: {outcome}")
    return [it for it in edge.lines if line.fullmatch(it)]


def audited(edge: Edge, words: str, outcome: str, member: str = "C1", count: int = 1) -> None:
    await_that(f"a line of {words}", lambda: len(audit(edge, words, outcome, member)) >= count)
    expect(len(audit(edge, words, outcome, member)), count)


def test_stop_and_resume() -> None:
    """A member is stopped: what rests for it is cancelled, its orders and replaces are refused, and its cancels pass, as
    do others. It trades again once it is resumed. Each command is a line of the log, and one of its events."""
    venue, edge, port = pair(2)
    one, other = Engine(port, 1).log_on(), Engine(port, 2).log_on()
    resting(one, "a", "b")
    resting(other, "x", price="49")
    done("stop C1", "C1: stopped, and the venue has answered the cancels of 2 orders")
    names = cancelled(one, "a", "b")
    expect([it.rpartition("-")[0] for it in names], ["edge-cancel"] * 2)
    is_refused(one, "D", order("c", 1, 1, "50"), STOPPED, _150="8", _103="2")
    is_refused(one, "G", replace("d", "a", 1, 1, "50"), STOPPED, _35="9", _102="2", _434="2")
    one.send("F", cancel("e", "a", 1))
    expect(value(one.report(_35="9"), "102"), "1")
    resting(other, "y", price="49")
    done("stop C1", "C1: stopped, and no order rested")
    done("resume C1", "C1: trades again")
    done("resume C1", "C1: wasn't stopped")
    resting(one, "f")
    done("cancel C1", "C1: the venue has answered the cancel of 1 order")
    cancelled(one, "f")
    resting(one, "g")
    done("cancel all", "C1: the venue has answered the cancel of 1 order",
         "C2: the venue has answered the cancels of 2 orders")
    cancelled(one, "g")
    cancelled(other, "x", "y")
    done("stop all", "C1: stopped, and no order rested", "C2: stopped, and no order rested")
    for it, name in ((one, "h"), (other, "z")):
        is_refused(it, "D", order(name, 1, 1, "50"), STOPPED)
    done("resume all", "C1: trades again", "C2: trades again")
    resting(one, "i")
    audited(edge, "stop", "done: stopped, and the venue has answered the cancels of 2 orders")
    audited(edge, "resume", "done: trades again", count=2)
    audited(edge, "cancel", "done: the venue has answered the cancels of 2 orders", "C2")
    await_that("the lines of all", lambda: sum("operator" in it for it in edge.lines) >= 11)
    expect(sum("operator" in it for it in edge.lines), 11)
    with open("log/C1/FIX.4.4-GIKVAND-DESK-A.event.current.log", encoding="ascii") as file:
        expect(sum(" : operator " in line for line in file), 8)


def test_halt() -> None:
    """A symbol is halted for all members: orders and replaces of it are refused, its cancels pass, and other symbols
    trade. What rests stays."""
    venue, edge, port = pair(2)
    one, other = Engine(port, 1).log_on(), Engine(port, 2).log_on()
    resting(one, "a", "b")
    done("halt ABC", "C1: ABC is halted", "C2: ABC is halted")
    for it, name in ((one, "c"), (other, "x")):
        is_refused(it, "D", order(name, 2, 10, "50"), HALTED, _150="8", _103="2")
    is_refused(one, "G", replace("d", "a", 1, 5, "50"), HALTED, _35="9", _102="2", _39="0")
    one.send("F", cancel("e", "a", 1))
    one.report(_150="4", _41="a")
    resting(one, "f", symbol="XYZ")
    resting(other, "y", symbol="XYZ")
    done("resume XYZ", "C1: XYZ wasn't halted", "C2: XYZ wasn't halted")
    done("resume C1", "C1: wasn't stopped")
    done("resume ABC", "C1: ABC trades again", "C2: ABC trades again")
    other.send("D", order("z", 2, 10, "50"))
    other.report(_150="F")
    one.report(_150="F", _11="b")
    audited(edge, "halt ABC", "done: ABC is halted", "C2")


def test_status() -> None:
    """What is switched off stands on the page and in the answer to `status`, with since when and by whom."""
    page = free_port(2)
    venue, edge, port = pair(2, common={"HttpAcceptPort": str(page)})
    one = at_rest(port, "a")
    done("halt XYZ", "C1: XYZ is halted", "C2: XYZ is halted")
    status, out, err = called("status all")
    line = r"\(DESK-{}\): serves, {}, \d requests, .*, numbers since [-\d:]+, {}"
    who = f"since [-\\d:]+ by {pwd.getpwuid(os.getuid()).pw_name} \\(uid {os.getuid()}\\)"
    wanted = [f"C1 {line.format('A', 'logged on', f'XYZ halted {who}')}", f"C2 {line.format('B', 'away', f'XYZ halted {who}')}"]
    if status or err or not all(map(re.fullmatch, wanted, out.splitlines())):
        raise Trouble(f"status: {status} {out} {err}")
    done("stop C1", "C1: stopped, and the venue has answered the cancel of 1 order")
    cancelled(one, "a")
    words = page_at(page)
    if not re.fullmatch(f"C1 {line.format('A', 'logged on', f'stopped {who}, XYZ halted {who}')}\n", words):
        raise Trouble(f"the page: {words}")
    expect(called("status C1"), (0, words, ""))
    expect(figure(page, "gikvand_edge_stopped"), 1)
    figures = page_at(page, "metrics").splitlines()
    expect([it for it in figures if "halted" in it], ['gikvand_edge_halted{member="C1",symbol="ABC"} 0',
                                                      'gikvand_edge_halted{member="C1",symbol="XYZ"} 1'])
    done("resume C1", "C1: trades again")
    done("resume XYZ", "C1: XYZ trades again", "C2: XYZ trades again")
    expect(called("status C1")[1].partition("numbers since ")[2].count(","), 0)


def test_not_carried_out() -> None:
    """What can't be carried out changes nothing, says so, and ends with status 1; wrong words end with status 2. What is
    asked of all is done where it can be."""
    venue, edge, port = pair(2)
    one = at_rest(port, "a")
    failed("stop C3", "no session of these settings is of C3")
    failed("halt NONE", *(f"C{k}: NONE isn't a symbol of the venue: {UNCHANGED}" for k in (1, 2)))
    for words in (["stop"], ["stop", "C1"], ["halt", "ABC"], ["stop", "C9", "edge.cfg"], ["stop", "ABC", "edge.cfg"],
                  ["halt", "C1", "edge.cfg"], ["halt", "all", "edge.cfg"], ["halt", "abc", "edge.cfg"],
                  ["resume", "x y", "edge.cfg"], ["cancel", "ABC", "edge.cfg"], ["status", "ABC", "edge.cfg"],
                  ["cancel", "all", "--all"], ["cancel", "C1", ""]):
        ran = subprocess.run([EDGE, *words], capture_output=True, text=True, timeout=PATIENCE)
        expect((words, ran.returncode, ran.stdout, ran.stderr.partition(":")[0]), (words, 2, "", "usage"))
    status, out, err = called("stop C1", "nowhere.cfg")
    expect((status, out, err), (1, "", "gikvand-edge: nowhere.cfg: can't be read\n"))
    process = edge.process_of(2)
    freeze(edge.process.pid)  # It starts the process that ends now anew behind the command, however long that takes.
    os.kill(process, signal.SIGKILL)
    await_that("its end", lambda: not is_there(process))
    status, out, err = called("cancel all")
    expect((status, out), (1, "C1: the venue has answered the cancel of 1 order\n"))
    expect(err, "gikvand-edge: C2: its process doesn't run: edge/C2/C2.control: Connection refused\n")
    os.kill(edge.process.pid, signal.SIGCONT)
    edge.hears("C2: its process ended by signal 9")
    cancelled(one, "a")
    edge.hears("C2: serves, behind report")
    venue.kill()
    edge.hears("C1: the venue:")
    for command in ("stop C1", "cancel C1"):
        failed(command, f"C1: the venue isn't there: {UNCHANGED}")
    audited(edge, "stop", f"failed: the venue isn't there: {UNCHANGED}")
    done("halt ABC", "C1: ABC is halted", "C2: ABC is halted")
    again(port, 2, venue.port)
    edge.hears("C1: serves, behind report")
    is_refused(one, "D", order("b", 1, 1, "50"), HALTED)
    done("resume ABC", "C1: ABC trades again", "C2: ABC trades again")
    resting(one, "c")
    edge.stop()
    expect(os.path.exists(CONTROL), False)
    failed("resume C1", "C1: its process doesn't run: edge/C1/C1.control: No such file or directory")


def test_folder_of_settings() -> None:
    """A folder stands for each NAME.cfg in it, so that no member is forgotten; one without such a file is refused."""
    venue, edge, port = pair(2)
    one = at_rest(port, "a")
    text = settings()
    os.mkdir("members")
    for name, gone in (("C1", "2"), ("C2", "1")):
        with open(f"members/{name}.cfg", "w", encoding="ascii") as file:
            file.write("".join(f"[{it}" for it in text.split("[")[1:] if f"Member=C{gone}" not in it))
    with open("members/notes.txt", "w", encoding="ascii") as file:
        file.write("no settings")
    for path in ("members", "members/"):
        expect(called("halt ABC", path), (0, "C1: ABC is halted\nC2: ABC is halted\n", ""))
    expect(called("cancel C1", "members"), (0, "C1: the venue has answered the cancel of 1 order\n", ""))
    cancelled(one, "a")
    expect(called("resume ABC", "members/C2.cfg"), (0, "C2: ABC trades again\n", ""))
    os.mkdir("empty")
    expect(called("halt ABC", "empty"), (1, "", "gikvand-edge: empty: has no NAME.cfg: are these the settings of gikvand-edge?\n"))


def test_kept() -> None:
    """What is switched off stays so over a kill and over a stop, with who switched it and when; what was resumed stays so
    as well. A member that is stopped may log on."""
    venue, edge, port = pair(2)
    one, other = at_rest(port, "a"), Engine(port, 2).log_on()
    done("stop C1", "C1: stopped, and the venue has answered the cancel of 1 order")
    done("halt ABC", "C1: ABC is halted", "C2: ABC is halted")
    before = rows(1, "SELECT * FROM switches ORDER BY what")
    expect([it[0] for it in before], ["", "ABC"])
    edge.kill()
    edge = restarted(2)
    for it in (one, other):
        it.close()
        it.log_on()
    cancelled(one, "a")
    is_refused(one, "D", order("b", 1, 1, "50", "XYZ"), STOPPED)
    is_refused(other, "D", order("x", 1, 1, "50"), HALTED)
    resting(other, "y", symbol="XYZ")
    expect((rows(1, "SELECT * FROM switches ORDER BY what"), "stopped since" in called("status C1")[1]), (before, True))
    done("resume C1", "C1: trades again")
    edge.stop()
    edge = restarted(2)
    one.close()
    one.log_on()
    resting(one, "c", symbol="XYZ")
    is_refused(one, "D", order("d", 1, 1, "50"), HALTED)
    done("resume ABC", "C1: ABC trades again", "C2: ABC trades again")
    edge.kill()
    edge = restarted(2)
    one.close()
    one.log_on()
    resting(one, "e")


def is_kept(query: str) -> None:
    """Waits until the record of C1 has a row of this query."""
    await_that(query, lambda: rows(1, query))


def told_once(one: Engine, *names: str) -> None:
    """Each of these orders was cancelled once, as the journal has it, and no cancel was refused."""
    one.settle()
    expect(sorted(sure(value(it, "41")) for it in stored(1) if value(it, "150") == "4"), sorted(names))
    expect([it for it in stored(1) if value(it, "35") == "9"], [])
    expect(places(1), [int(sure(value(it, "17"))) for it in told(1) if value(it, "35") == "8"])


def stopped_in_the_midst() -> tuple[Venue, Edge, int, Engine, Call]:
    """A venue that doesn't answer, an edge, its port, a member of whom two orders rest, and the call that stops that member: it
    is kept, and waits."""
    venue, edge, port = pair()
    one = Engine(port, 1).log_on()
    resting(one, "a", "b")
    venue.pause()
    call = Call("stop C1")
    is_kept("SELECT * FROM switches")
    return venue, edge, port, one, call


def goes_on_stopped(one: Engine) -> Edge:
    """The next start of an edge goes on with what stopped a member: its two orders are cancelled, each told once, and it stays
    stopped. The edge."""
    edge = restarted()
    one.close()
    one.log_on()
    cancelled(one, "a", "b")
    is_refused(one, "D", order("c", 1, 1, "50"), STOPPED)
    told_once(one, "a", "b")
    return edge


def killed_before_the_answers(is_venue_killed: bool) -> None:
    """The edge is killed when a command is kept, and the venue hasn't answered. Its operator is told that nothing is known.
    The next start goes on with it: the member stays stopped, and each order is cancelled, and told, once."""
    venue, edge, port, one, call = stopped_in_the_midst()
    edge.kill()
    why = "its process ended before it answered: ask for its status once it runs"
    expect(call.end(), (1, "", f"gikvand-edge: C1: {why}\n"))
    if is_venue_killed:
        venue.kill()
        again(port, 1, venue.port)
    else:
        venue.go_on()
    edge = goes_on_stopped(one)
    if is_venue_killed:
        edge.hears("C1: cancels 2 orders, as was asked for before")
    done("resume C1", "C1: trades again")
    resting(one, "d")
    await_that("an end of what was asked for", lambda: not rows(1, "SELECT * FROM names WHERE kind = 'w'"))
    edge.kill()
    edge = restarted()
    one.close()
    one.log_on()
    resting(one, "e")
    told_once(one, "a", "b")


def test_killed_before_the_answers() -> None:
    killed_before_the_answers(False)


def test_killed_with_the_venue() -> None:
    killed_before_the_answers(True)


def test_killed_again() -> None:
    """The edge is killed again when what was asked for before isn't sent anew yet, since the venue doesn't say what it has
    taken in. It is sent anew all the same by the start behind that."""
    venue, edge, port = pair()
    one = Engine(port, 1).log_on()
    resting(one, "a", "b")
    venue.pause()
    call = Call("cancel C1")
    is_kept("SELECT * FROM names WHERE kind = 'w'")
    edge.kill()
    expect(call.end()[0], 1)
    venue.kill()
    venue = again(port, 1, venue.port)
    edge = Edge(settings())
    edge.hears("C1: serves, behind report")
    edge.kill()
    edge = restarted()
    one.close()
    one.log_on()
    cancelled(one, "a", "b")
    resting(one, "c")
    told_once(one, "a", "b")


def test_venue_comes_back() -> None:
    """The venue is killed when it hasn't answered a command's cancels, and comes back: they are sent anew, and the command is
    done then. An order that comes behind the command stays."""
    venue, edge, port = pair()
    one = Engine(port, 1).log_on()

    def run(number: int) -> list[str]:
        nonlocal venue
        names = [f"{name}{number}" for name in "ab"]
        resting(one, *names)
        venue.pause()
        call = Call("cancel C1")
        is_kept("SELECT * FROM names WHERE kind = 'w'")
        venue.kill()
        venue = again(port, 1, venue.port)
        status, out, err = call.end()
        if f"within {BOUND} s" in err:
            raise Late(f"the venue came back too late: {err}")
        expect((status, out, err), (0, "C1: the venue has answered the cancels of 2 orders\n", ""))
        cancelled(one, *names)
        return names

    names = in_some_try(run, "test_venue_comes_back")
    resting(one, "c")
    await_that("an end of what was asked for", lambda: not rows(1, "SELECT * FROM names WHERE kind = 'w'"))
    edge.hears("C1: cancels 2 orders, as was asked for before")
    expect([value(it, "41") for it in stored(1) if value(it, "150") == "4"][-2:], names)


def test_no_answer() -> None:
    """A venue that doesn't answer: the command says so behind its bound, and what may still rest. The cancels go on."""
    venue, edge, port = pair()
    one = Engine(port, 1).log_on()
    resting(one, "a", "b")
    venue.pause()
    begin = time.monotonic()
    call = Call("stop C1")
    is_kept("SELECT * FROM switches")
    one.send("D", order("c", 1, 1, "50"))
    why = f"stopped, and the venue hasn't answered all cancels within {BOUND} s; 2 of its orders may rest: a b"
    expect(call.end(), (1, "", f"gikvand-edge: C1: {why}\n"))
    if time.monotonic() - begin < BOUND:
        raise Trouble(f"it ended behind {time.monotonic() - begin:.1f} s")
    audited(edge, "stop", f"failed: {why}")
    venue.go_on()
    cancelled(one, "a", "b")
    is_refused(one, "D", order("d", 1, 1, "50"), STOPPED)
    expect([value(it, "58") for it in one.history if value(it, "11") == "c"], [STOPPED])
    told_once(one, "a", "b")


def test_edge_stops() -> None:
    """The edge is stopped in order while a command waits for the venue: its operator is told what may still rest. The next
    start goes on with it."""
    venue, edge, port, one, call = stopped_in_the_midst()
    edge.stop()
    why = "stopped, and the edge stops; 2 of its orders may rest: a b"
    expect(call.end(), (1, "", f"gikvand-edge: C1: {why}\n"))
    audited(edge, "stop", f"failed: {why}")
    venue.go_on()
    goes_on_stopped(one)


def test_not_kept() -> None:
    """What a command has switched can't be committed: it is told that nothing was changed, and nothing is."""
    venue, edge, port = pair()
    one = at_rest(port, "a")
    one.log_out()
    edge.stop()
    changed(1, "CREATE TRIGGER none BEFORE UPDATE ON session WHEN EXISTS (SELECT 1 FROM switches)"
               " BEGIN SELECT raise(ABORT, 'no switches'); END")
    edge = restarted()
    for words in ("halt ABC", "stop C1"):
        failed(words, f"C1: it isn't served: edge/C1/C1.db: no switches: {UNCHANGED}")
        edge.hears("C1: serves, behind report")
    one.log_on()
    resting(one, "b")
    one.send("F", cancel("c", "a", 1))
    one.report(_150="4", _41="a")
    expect([value(it, "11") for it in told(1)], ["1", "2", "3"])


def caller(path: str = CONTROL) -> socket.socket:
    """A connection to the process of C1, as a command makes one."""
    it = socket.socket(socket.AF_UNIX)
    it.settimeout(PATIENCE)
    it.connect(path)
    return it


def answer(it: socket.socket, words: bytes) -> bytes:
    it.sendall(words)
    with contextlib.suppress(ConnectionResetError), it:
        return it.recv(4096)
    return b""


def answered(*pieces: bytes, path: str = CONTROL) -> bytes:
    """What these pieces bring, by a caller of their own, who says none of them so late that it is let go for that."""
    def run(number: int) -> bytes:
        begin, came = time.monotonic(), b""
        with contextlib.suppress(BrokenPipeError):
            it = caller(path)
            for piece in pieces[:-1]:
                it.sendall(piece)
            came = answer(it, pieces[-1])
        if not came and time.monotonic() - begin >= SILENCE:
            raise Late(f"{pieces} took {time.monotonic() - begin:.1f} s")
        return came
    return in_some_try(run, "a caller")


def can_call_as(user: int) -> bool:
    """Whether another user can connect, whom the folders don't keep away."""
    child = os.fork()
    if not child:
        status = 2
        try:
            os.setgroups([])
            os.setgid(user)
            os.setuid(user)
            socket.socket(socket.AF_UNIX).connect(CONTROL)
            status = 0
        except PermissionError:
            status = 1
        finally:
            os._exit(status)
    return {0: True, 1: False}[os.waitstatus_to_exitcode(os.waitpid(child, 0)[1])]


def test_callers() -> None:
    """The socket is for the process's user alone. Who says nothing, or no command, is let go; no number of callers takes
    more than their places, and a command passes behind them."""
    venue, edge, port = pair()
    it = os.stat(CONTROL)
    expect((stat.S_ISSOCK(it.st_mode), stat.S_IMODE(it.st_mode), it.st_uid), (True, 0o600, os.getuid()))
    if os.getuid() == 0:
        for folder in (".", "edge", "edge/C1"):
            os.chmod(folder, 0o755)
        expect(can_call_as(65534), False)
        program = os.path.abspath(shutil.copy(EDGE, "gikvand-edge-of-all"))
        ran = subprocess.run([program, "status", "C1", "edge.cfg"], user=65534, group=65534, extra_groups=[], capture_output=True, text=True,
                             timeout=PATIENCE)
        refused = f"gikvand-edge: C1: this user may not ask its process: {CONTROL}: Permission denied\n"
        expect((ran.returncode, ran.stdout, ran.stderr), (1, "", refused))
    process = edge.process_of(1)
    before = len(os.listdir(f"/proc/{process}/fd"))
    begin = time.monotonic()
    silent = [caller() for _ in range(CALLERS)]
    more = caller()  # It waits for a place.
    expect(answer(more, b"C1 status\n")[:9], b"done: C1 ")
    if time.monotonic() - begin < SILENCE:
        raise Trouble("it was answered before others were let go")
    expect([one.recv(1) for one in silent], [b""] * CALLERS)
    for words in (b"", b"stop", b"C1", b"C1 ", b"C2 stop", b"C1 stop C1", b"C1 halt", b"C1 halt abc", b"C1 halt ", b"C1 stopp",
                  b"\0\xff", b"C1 halt " + b"A" * 9):
        expect((words, answered(words + b"\n")), (words, b"failed: these are no words to the process of C1\n"))
    expect(answered(b"x" * 100 + b"\n"), b"")
    expect(answered(*(bytes([byte]) for byte in b"C1 halt XYZ\n")), b"done: XYZ is halted\n")
    await_that("an end of all", lambda: len(os.listdir(f"/proc/{process}/fd")) <= before)
    at_rest(port, "a")


def test_late_words() -> None:
    """A process that stood still since a caller came reads first what that has said meanwhile: it lets nobody go for its own silence."""
    venue, edge, port = pair()
    process = edge.process_of(1)

    def run(number: int) -> bytes:
        before, begin = len(os.listdir(f"/proc/{process}/fd")), time.monotonic()
        with caller() as it:
            await_that("a caller who is taken in, as far as that can be seen",
                       lambda: len(os.listdir(f"/proc/{process}/fd")) > before or time.monotonic() - begin > SILENCE / 2)
            freeze(process)
            took = time.monotonic() - begin
            with contextlib.suppress(BrokenPipeError):
                it.sendall(b"C1 resume ABC\n")
            time.sleep(1.5 * SILENCE)
            os.kill(process, signal.SIGCONT)
            if took >= SILENCE:
                raise Late(f"the words came behind {took:.1f} s")
            return it.recv(4096)

    expect(in_some_try(run, "late_words"), b"done: ABC wasn't halted\n")


def test_false_process() -> None:
    """What answers in the place of a process, without an end or by no answer, makes an operator's command print one line."""
    venue, edge, port = pair()
    edge.stop()
    for words in (b"x" * (1 << 20), b"\x1b[2Jdone\n", b"\n"):
        with contextlib.suppress(FileNotFoundError):
            os.remove(CONTROL)
        with socket.socket(socket.AF_UNIX) as false:
            false.bind(CONTROL)
            false.listen()
            call = Call("status C1")
            it, _ = false.accept()
            with it, contextlib.suppress(BrokenPipeError, ConnectionResetError):
                expect(it.recv(100), b"C1 status\n")
                it.sendall(words)
            expect((len(words), call.end()), (len(words), (1, "", "gikvand-edge: C1: its process gives no answer\n")))


def test_operator_gone() -> None:
    """A process that stands still answers no operator, who is told so. What was asked of it meanwhile isn't carried out when
    it goes on, since nobody knows of that any more."""
    venue, edge, port = pair()
    one = at_rest(port, "a")
    process = edge.process_of(1)
    freeze(process)
    with caller() as gone:
        gone.sendall(b"C1 halt ABC\n")
    expect(called("stop C1"), (1, "", "gikvand-edge: C1: its process doesn't answer: ask for its status\n"))
    os.kill(process, signal.SIGCONT)
    for words in ("halt ABC", "stop"):
        edge.hears(f"C1: a command isn't carried out, since its operator has gone: {words}")
    resting(one, "b")
    expect([it for it in edge.lines if "operator root" in it], [])


def stopped_as_it_sends(one: Engine) -> int:
    """A member that is stopped while it sends orders without an end: how many it has sent by then. The command is done."""
    sent, call, end = 0, None, time.monotonic() + PATIENCE + BOUND

    def is_told() -> bool:
        return any(value(it, "58") == STOPPED for it in one.history) or time.monotonic() > end
    while not call or call.process.poll() is None or not is_told():
        for _ in range(20 if sent < MOST_AT_ONCE else 1):  # The command may take its time to begin.
            sent += 1
            one.send("D", order(f"o{sent}", 1, 1, "50"))
        one.pump()
        if sent == 200:
            call = call or Call(f"stop C{one.member}")
        time.sleep(0.005)
    status, out, err = call.end()
    line = rf"C{one.member}: stopped, and the venue has answered the cancels of \d+ orders\n"
    expect((status, bool(re.fullmatch(line, out)), err), (0, True, ""))
    return sent


def test_stopped_while_it_sends() -> None:
    """A member is stopped while it sends orders without an end. Once that is done nothing of it rests, and all that it sends
    further is refused. Others trade on."""
    venue, edge, port = pair(2)
    one, other = Engine(port, 1).log_on(), Engine(port, 2).log_on()
    sent = stopped_as_it_sends(one)
    resting(other, "x")
    is_refused(one, "D", order("last", 1, 1, "50"), STOPPED)
    taken = [sure(value(it, "11")) for it in one.history if value(it, "150") == "0"]
    refused = [sure(value(it, "11")) for it in one.history if value(it, "150") == "8"]
    expect(taken + refused, [f"o{at}" for at in range(1, sent + 1)] + ["last"])
    told_once(one, *taken)
    expect(len(refused) > 1, True)


def test_mass_cancel() -> None:
    """A member cancels all its orders, those of a symbol, those of a side of one. The answer says how many, and each order is
    told by a report of its own under the name of the mass cancel. Orders of others stay."""
    venue, edge, port = pair(2)
    one, other = Engine(port, 1).log_on(), Engine(port, 2).log_on()
    resting(other, "x", price="49")
    for number, (more, kind, names) in enumerate((("", 7, "abcd"), ("55=ABC|", 1, "ab"), ("54=2|", 7, "bd"),
                                                  ("55=XYZ|54=1|", 1, "c"), ("55=XYZ|54=2|", 1, "d"))):
        for name, symbol, side in (("a", "ABC", 1), ("b", "ABC", 2), ("c", "XYZ", 1), ("d", "XYZ", 2)):
            resting(one, f"{name}{number}", symbol=symbol, side=side, price="50" if side == 1 else "60")
        one.send("q", mass(f"mc {number}", kind, more))
        got = fields_of(one.report(_35="r"))
        shown = {tag: got.get(tag) for tag in ("11", "530", "531", "533", "55", "54", "532", "58")}
        asked = fields_of(f"|{more}")
        expect(shown, {"11": f"mc {number}", "530": str(kind), "531": str(kind), "533": str(len(names)),
                       "55": asked.get("55"), "54": asked.get("54"), "532": None, "58": None})
        expect((got["37"][0], got["37"][1:].isdecimal(), len(got["60"])), ("E", True, 17))
        expect(cancelled(one, *(f"{name}{number}" for name in names)), [f"mc {number}"] * len(names))
        left = [name for name in "abcd" if name not in names]
        for name in left:
            one.send("F", cancel(f"f{name}{number}", f"{name}{number}", 1 + (name in "bd"), 10, "ABC" if name in "ab" else "XYZ"))
            one.report(_150="4", _11=f"f{name}{number}")
    one.send("q", mass("none"))
    expect(value(one.report(_35="r"), "533"), "0")
    one.send("q", mass("none"))
    expect(value(one.report(_35="r"), "531"), "0")
    other.send("F", cancel("y", "x", 1, 10))
    other.report(_150="4")
    one.settle()
    expect([it for it in one.history if sure(value(it, "35")) in "9j3"], [])


REFUSED = [  # A body, the reason of 532, and a word of the text.
    (mass("m1", 3), "0", "MassCancelRequestType (530) 3 isn't one of this venue"),
    (mass("m2", 1), "1", "Symbol (55) is missing"),
    (mass("m3", 1, "55=NONE|"), "1", "Symbol (55) isn't traded here"),
    (mass("m4", 7, "55=ABC|"), None, "Symbol (55) stands beside"),
    (mass("m5", 7, "54=5|"), None, "Side (54) 5 isn't traded"),
    (mass("m6", 7, "336=A|"), None, "field 336 isn't one of this venue"),
    (mass("edge-m", 7), None, "ClOrdID (11) begins with edge-"),
    (mass("a", 7), None, "ClOrdID (11) was used before"),
    (mass("m1", 7), None, "ClOrdID (11) was used before"),
]


def test_mass_cancel_refused() -> None:
    """What the edge hasn't of mass cancels is refused in words, and cancels nothing. One without a needed field is rejected;
    names are used once, those of mass cancels as well, and no order is of one."""
    venue, edge, port = pair()
    one = at_rest(port, "a")
    for body, reason, word in REFUSED:
        one.send("q", body)
        got = fields_of(one.report(_35="r"))
        expect((body, got["531"], got.get("532"), got["37"], word in got["58"], got["58"][:6], got.get("533")),
               (body, "0", reason, "NONE", True, "edge: ", None))
    for body, tag in ((mass("m7").replace("530=7|", ""), "530"), (mass("m8").replace("11=m8|", ""), "11")):
        one.send("q", body)
        got = fields_of(sure(one.next_of("3")))
        expect((got["372"], got["371"], got["373"]), ("q", tag, "1"))
    one.send("r", mass("m9"))
    expect(value(one.report(_35="j"), "380"), "3")
    venue.pause()
    one.send("q", mass("good", 7, "58=text|"))
    expect(value(one.report(_35="r"), "533"), "1")
    one.send("D", order("good", 1, 1, "50"))
    expect(value(one.report(_11="good", _150="8"), "103"), "6")
    venue.go_on()
    cancelled(one, "a")
    one.send("F", cancel("f", "good", 1))
    expect(value(one.report(_35="9"), "102"), "1")
    venue.kill()
    edge.hears("C1: the venue:")
    one.send("q", mass("gone"))
    got = fields_of(one.report(_35="r"))
    expect((got["531"], got.get("532"), got["58"]), ("0", None, "edge: the venue isn't there"))


def test_mass_cancel_while_stopped() -> None:
    """A mass cancel passes while the member is stopped, as a cancel does."""
    venue, edge, port = pair()
    one = at_rest(port, "a")
    done("halt ABC", "C1: ABC is halted")
    one.send("q", mass("m", 1, "55=ABC|"))
    one.report(_35="r", _533="1")
    cancelled(one, "a")
    done("stop C1", "C1: stopped, and no order rested")
    one.send("q", mass("n"))
    one.report(_35="r", _533="0")


def test_mass_cancel_of_what_is_under_way() -> None:
    """Orders and replaces that the venue hasn't answered are cancelled as well. A second mass cancel, and a command, find
    cancels under way and send none again; the command waits for these."""
    venue, edge, port = pair()
    one = Engine(port, 1).log_on()
    resting(one, "a")
    venue.pause()
    one.send("D", order("b", 1, 1, "50"))
    one.send("G", replace("c", "a", 1, 5, "50"))
    one.send("q", mass("m"))
    one.report(_35="r", _533="3")
    one.send("q", mass("n"))
    one.report(_35="r", _533="0")
    call = Call("cancel C1")
    is_kept("SELECT * FROM (SELECT count(*) AS count FROM names WHERE kind = 'w') WHERE count = 2")
    expect(call.process.poll(), None)
    (name,), _ = rows(1, "SELECT name FROM names WHERE kind = 'w'")
    one.send("D", order(name, 1, 1, "50"))  # What is kept of mass cancels takes no name away.
    one.settle()
    venue.go_on()
    expect(call.end(), (0, "C1: the venue has answered the cancels of 3 orders\n", ""))
    one.settle()
    shown = [(value(it, "35"), value(it, "150"), value(it, "11"), value(it, "41")) for it in one.history]
    expect(shown[-6:], [("8", "0", "b", None), ("8", "5", "c", "a"), ("9", None, "m", "a"), ("8", "4", "m", "b"),
                        ("8", "4", "m", "c"), ("8", "0", name, None)])


def test_mass_cancel_sent_again() -> None:
    """A mass cancel that is sent again is passed over where it is known, and taken once where the edge was killed before it
    was read. The answer that was told is told again by a resend."""
    venue, edge, port = pair()
    one = Engine(port, 1).log_on()
    resting(one, "a")
    freeze(edge.process_of(1))
    one.send("q", mass("m"))
    edge.kill()
    edge = restarted()
    one.close()
    one.log_on().report(_35="r", _11="m", _533="1")
    cancelled(one, "a")
    resting(one, "b")
    edge.kill()
    forget(3)
    edge = restarted()
    one.close()
    one.log_on().settle()
    edge.hears("has been passed on before: m")
    one.write("q", mass("m"), head="97=Y|")
    one.out += 1
    edge.hears("has been passed on before: m")
    one.send("q", mass("x", 3))
    one.report(_35="r", _531="0")
    one.write("q", mass("x"), head="97=Y|")
    one.out += 1
    edge.hears("was refused before: x")
    one.settle()
    expect([value(it, "11") for it in stored(1) if value(it, "35") == "r"], ["m", "x"])
    told_once(one, "a")
    one.next = 2
    one.close()
    one.log_on().report(_35="r", _11="m", _43="Y")


def test_mass_cancel_killed() -> None:
    """Edge and venue are killed when the answer to a mass cancel has been told, and its cancels haven't been read: they are
    sent anew, under its name, and each order is told once. What the member orders behind it stays."""
    venue, edge, port = pair()
    one = Engine(port, 1).log_on()
    resting(one, "a", "b")
    resting(one, "x", symbol="XYZ")
    venue.pause()
    one.send("q", mass("m", 1, "55=ABC|"))
    one.report(_35="r", _533="2")
    edge.kill()
    venue.kill()
    venue = again(port, 1, venue.port)
    edge = restarted()
    one.close()
    one.log_on()
    expect(cancelled(one, "a", "b"), ["m", "m"])
    resting(one, "c")
    one.send("q", mass("m"))
    expect(value(one.report(_35="r"), "531"), "0")
    told_once(one, "a", "b")
    edge.kill()
    edge = restarted()
    one.close()
    one.log_on().send("F", cancel("f", "c", 1, 10))
    one.report(_150="4", _41="c")
    one.send("F", cancel("g", "x", 1, 10, "XYZ"))
    one.report(_150="4", _41="x")


def test_ordered_behind() -> None:
    """A mass cancel is sent anew when the venue has come back, and has answered what came before. An order that comes
    meanwhile stays."""
    venue, edge, port = pair()
    edge.stop()
    edge = Edge(other_events(STUCK), env={**os.environ, "STUCK": "Y"}).ready()
    one = at_rest(port, "a")
    venue.pause()
    one.send("q", mass("m"))
    one.report(_35="r", _533="1")
    with open("stuck", "w", encoding="ascii"):
        os.remove("reads")
    venue.kill()
    venue = again(port, 1, venue.port)
    await_that("a look at the journal", lambda: os.path.exists("reads"))
    venue.pause()
    os.remove("stuck")
    edge.hears("C1: serves, behind report")
    one.send("D", order("b", 1, 1, "50"))
    one.settle()
    venue.go_on()
    one.report(_150="0", _11="b")
    cancelled(one, "a")
    told_once(one, "a")
    one.send("F", cancel("c", "b", 1))
    one.report(_150="4", _41="b")


def test_mass_cancel_of_the_day_before() -> None:
    """The answer to a mass cancel that its member wasn't sent before the day ended is told again, as reports are."""
    market = Market("2030-01-01 23:59:00")
    one = at_rest(market.port, "a")
    one.send("q", mass("m"))
    one.report(_35="r", _533="1")
    cancelled(one, "a")
    one.log_out()
    market.edge.stop()
    changed(1, "UPDATE session SET heard = 1")
    market.clock.put("2030-01-02 00:00:00")
    market.start_again()
    back = is_caught_up(market.engine().log_on())
    expect([(value(it, "35"), value(it, "97")) for it in back.history], [("8", "Y"), ("r", "Y"), ("8", "Y")])


def measured(port: int, rounds: int, count: int = 1000) -> dict[str, list[float]]:
    """How long commands and mass cancels take, in milliseconds: until the last cancel of so many orders was told."""
    one = Engine(port, 1).log_on()
    figures: dict[str, list[float]] = {}
    for turn in range(rounds):
        for kind in ("command", "mass cancel"):
            for at in range(count):
                one.send("D", order(f"{kind[0]}{turn}-{at}", 1, 1, f"{40 + at % 10}"))
            while sum(value(it, "150") == "0" for it in one.reports) < count:
                if not one.pump(PATIENCE):
                    raise Trouble("the connection ended")
            one.reports.clear()
            begin = time.monotonic()
            if kind == "command":
                asked = caller()
                asked.sendall(b"C1 cancel\n")
            else:
                one.send("q", mass(f"m{turn}"))
            came, at, found = bytearray(), 0, 0
            while found < count:
                data = sure(one.socket).recv(1 << 20)
                if not data:
                    raise Trouble("the connection ended")
                came += data
                found += came.count(b"\x01150=4\x01", at)
                at = max(at, came.rfind(b"\x01150=4\x01") + 1)
            figures.setdefault(kind, []).append(1000 * (time.monotonic() - begin))
            if kind == "command":
                expect(asked.recv(4096), f"done: the venue has answered the cancels of {count} orders\n".encode())
                figures.setdefault("answer to the command", []).append(1000 * (time.monotonic() - begin))
                asked.close()
            one.rest += bytes(came)
            one.pump()
            one.settle()
            one.reports.clear()
            one.history.clear()
            one.came.clear()
    return figures


def test_thousand_cancels() -> None:
    """How long it takes until a thousand orders that rest are cancelled, and told, while two others trade."""
    venue, edge, port = pair(3)
    others, is_over = Undisturbed(edge, port), threading.Event()

    def trade() -> None:
        while not is_over.is_set():
            others.trade()

    thread = threading.Thread(target=trade, name="others")
    thread.start()
    try:
        figures = measured(port, 50 if os.environ.get("EDGE_LONG") else 3)
    finally:
        is_over.set()
        thread.join()
    others.look()
    if not os.environ.get("EDGE_LONG"):
        return
    for name, those in figures.items():
        those.sort()
        print(f"a thousand cancels, {name}: half within {statistics.median(those):.1f} ms, 99 of 100 within "
              f"{those[int(0.99 * len(those))]:.1f} ms, all within {those[-1]:.1f} ms, {others.count} trades of others",
              flush=True)


TESTS = [test_stop_and_resume, test_halt, test_status, test_not_carried_out, test_folder_of_settings, test_kept, test_killed_before_the_answers,
         test_killed_with_the_venue, test_killed_again, test_venue_comes_back, test_no_answer, test_edge_stops, test_not_kept,
         test_callers, test_late_words, test_false_process, test_operator_gone, test_stopped_while_it_sends, test_mass_cancel, test_mass_cancel_refused,
         test_mass_cancel_while_stopped, test_mass_cancel_of_what_is_under_way, test_mass_cancel_sent_again,
         test_mass_cancel_killed, test_ordered_behind, test_mass_cancel_of_the_day_before, test_thousand_cancels]
