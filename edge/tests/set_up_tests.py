"""What an operator meets who sets an edge up: hours, passwords, files of services beside one another, the user of a service,
and a venue that has no port for a member, or has it given to another edge."""
import os
import re
import shutil
import signal
import stat
import subprocess
import sys
import time
from collections.abc import Sequence

from clocks import Clock
from edges import DEFAULTS, DICTIONARY, EDGE, EVENTS, JOURNAL, PATIENCE, ROOT, SYMBOLS, Edge, Settings, Trouble, await_that, free_port
from edges import in_folders, members_of, page_at, pair, settings_of, started, told
from engines import Engine, at_rest, order
from gikvand.programs import VENUED
from gikvand.words import sure
from hours_tests import NIGHT, SATURDAY, SECRET, SUNDAY, WEEK, secrets
from identity_tests import stunnel_configuration
from market import Market
from protection_tests import figure, unknown
from recovery_tests import restarted
from switch_tests import called
from trading_tests import expect
from venues import Late
from wire_tests import Stunnel

OPENS = "outside its hours until 20300106-22:00:00"
LAST_WAIT = 6.4  # Seconds behind the last of seven wrong passwords.
STRANGER, NAME = 12345, "gikvand-edge-C1 (uid 12345)"  # The user of a service.
# Runs a program where /etc is another folder, by a namespace of its own.
ELSEWHERE = ["unshare", "-m", "sh", "-c", 'mount --bind "$0" /etc && exec "$@"', "etc"]


def checked(*words: str, env: dict[str, str] | None = None, front: Sequence[str] = ()) -> tuple[int, list[str], list[str]]:
    """What --check comes to with these words: its status, and the lines of both outputs."""
    ran = subprocess.run([*front, EDGE, "--check", *words], capture_output=True, text=True, timeout=PATIENCE, env=env)
    return ran.returncode, ran.stdout.splitlines(), ran.stderr.splitlines()


def right(user: str = "root (uid 0)") -> str:
    return f"the settings are right, as {user} reads them"


def written(path: str, text: str, mode: int = 0o644) -> str:
    if folder := os.path.dirname(path):
        os.makedirs(folder, exist_ok=True)
        os.chmod(folder, 0o755)
    with open(path, "w", encoding="ascii") as file:
        file.write(text)
    os.chmod(path, mode)
    return path


def test_outside_hours() -> None:
    """Outside of a member's hours its line, its status, its page and --check say until when that is so; within them none does."""
    page = free_port(1)
    market = Market(SATURDAY + "12:00:00", hours=WEEK, HttpAcceptPort=page)
    expect(market.lines("C1: serves"), [f"gikvand-edge: C1: serves, behind report 0, {OPENS}"])

    def shown() -> tuple[str, str]:
        return called("status C1")[1].strip(), page_at(page).strip()
    for words in shown():
        expect(words.partition(", away, ")[0], f"C1 (DESK-A): serves, {OPENS}")
    expect(figure(page, "gikvand_edge_within_hours"), 0)
    for given in (["edge.cfg"], ["--all", "edge.cfg"], ["--member", "C1", "edge.cfg"]):
        status, out, err = checked(*given, env=market.clock.env)
        expect((status, len(out), out[1:], err), (0, 2, [f"C1: {OPENS}"], []))
    market.clock.put(SUNDAY + "22:00:00")
    for words in shown():
        expect(words.partition(", away, ")[0], "C1 (DESK-A): serves")
    expect(figure(page, "gikvand_edge_within_hours"), 1)
    expect(len(checked("edge.cfg", env=market.clock.env)[1]), 1)
    market.edge.stop()
    market.start_again()
    expect(market.lines("C1: serves"), ["gikvand-edge: C1: serves, behind report 0"])
    written("night/night.cfg", settings_of({"VenuePort": market.venue.port, **NIGHT}, members_of(1, market.port)))
    clock = Clock(SATURDAY + "12:00:00", "night/clock")
    for now, until in (("2030-01-01 05:59:59", "20300101-06:00:00"), ("2030-01-01 06:00:00", None), ("2030-01-01 21:59:59", None),
                       ("2030-01-01 22:00:00", "20300102-06:00:00")):
        clock.hold(now)
        expect((now, checked("night/night.cfg", env=clock.env)[1][1:]),
               (now, [f"C1: outside its hours until {until}"] if until else []))


def test_missing_passwords() -> None:
    """A Logon that lacks its name or its password is told from a wrong one. Behind such Logons the right engine at their address isn't
    looked at either, until the process is started again."""
    def run(number: int) -> None:
        venue, edge, port = pair(Username="desk", PasswordFile=secrets())
        one, begin = Engine(port, 1), 0.0
        for more, fault in (("", "Username (553) is missing"), ("554=secret|", "Username (553) is missing"),
                            ("553=desk|", "Password (554) is missing"),
                            ("553=desk|554=other|", "Username (553) or Password (554) is wrong"),
                            ("553=other|554=secret|", "Username (553) or Password (554) is wrong"), ("", "Username (553) is missing"),
                            ("", "Username (553) is missing")):
            begin = time.monotonic()
            unknown(edge, one, more, fault)
        one.connect().write("A", f"98=0|108=30|{SECRET}")
        while not one.came and one.pump(PATIENCE):
            pass
        if one.came and time.monotonic() - begin > LAST_WAIT:
            raise Late(f"the right one came {time.monotonic() - begin:.1f} s behind the last wrong one")
        edge.hears("it comes too soon behind a wrong password")
        expect(one.came, [])
        edge.stop()
        restarted()
        Engine(port, 1).log_on(SECRET)
    in_folders(run, "test_missing_passwords")


def service(member: int, port: int, **more: int | str) -> str:
    """The settings of a member's service."""
    it = {**DEFAULTS, "TargetCompID": f"DESK-{member}", "Member": f"C{member}", "VenuePort": port, "SocketAcceptPort": port + 10 + member,
          **{name: os.path.abspath(f"{member}/{folder}") for name, folder in (("EdgePath", "edge"), ("FileLogPath", "log"))}, **more}
    return "".join(f"{line}\n" for line in ("[SESSION]", *(f"{name}={value}" for name, value in it.items())))


def test_names_of_services() -> None:
    """A file that has the name of a member, as the service of this name has it, is no other one's, for a start and a look."""
    port = free_port(1)
    for path, member, fault in (("C3.cfg", 1, "Member: is C1, and the file C3.cfg is that of C3"), ("C3.cfg", 3, ""), ("x/C3.cfg", 3, ""),
                                ("x/C2.cfg", 8, "Member: is C8, and the file C2.cfg is that of C2"), ("metals-C1.cfg", 2, ""),
                                ("C9.cfg", 4, ""), ("C1.settings", 5, "")):
        for name in ("C3.cfg", "x/C3.cfg", "x/C2.cfg"):
            if os.path.exists(name):
                os.remove(name)
        written(path, service(member, port))
        status, out, err = checked(path)
        expect((path, status, err), (path, 1 if fault else 0, [f"gikvand-edge: {fault}"] if fault else []))
        if fault:
            ran = subprocess.run([EDGE, path], capture_output=True, text=True, timeout=PATIENCE)
            expect((ran.returncode, ran.stderr), (1, f"gikvand-edge: {fault}\n"))


def test_files_beside() -> None:
    """A look at a service's file finds what another file of the folder has too. Files that can't be read aren't looked at."""
    port = free_port(1)
    one, other = written("services/C1.cfg", service(1, port, HttpAcceptPort=port + 30)), "services/C2.cfg"
    written("services/junk.cfg", "no settings\n")
    written("services/several.cfg", settings_of({"VenuePort": port}, members_of(2, port + 11)))
    written("services/C2.cfg.old", service(2, port))
    os.symlink("C2.cfg", "services/link.cfg")
    cases: list[tuple[Settings, str, int | str]] = [
        ({}, "", ""), ({"SocketAcceptPort": port + 11}, "SocketAcceptPort", port + 11),
        ({"SocketAcceptPort": port + 11, "SocketAcceptHost": "0.0.0.0"}, "SocketAcceptPort", port + 11),
        ({"SocketAcceptPort": port + 11, "SocketAcceptHost": "127.0.0.2"}, "", ""),
        ({"SocketAcceptPort": port + 30}, "SocketAcceptPort", port + 30),
        ({"HttpAcceptPort": port + 30}, "HttpAcceptPort", port + 30), ({"HttpAcceptPort": port + 31}, "", ""),
        ({"EdgePath": os.path.abspath("1/edge")}, "EdgePath", os.path.abspath("1/edge")),
        ({"FileLogPath": os.path.abspath("1/log")}, "FileLogPath", os.path.abspath("1/log"))]
    for more, name, what in cases:
        written(other, service(2, port, **more))
        fault = [f"gikvand-edge: {name}: {what} is that of {one}, too: each member has its own"] if name else []
        expect((more, *checked(other)[::2]), (more, 1 if fault else 0, fault))
    os.remove("services/link.cfg")
    os.remove(other)
    second = written("services/second.cfg", service(1, port, SocketAcceptPort=port + 12))
    expect(checked(second)[2], [f"gikvand-edge: Member: C1 is that of {one}, too: each member has its own"])
    written(second, service(1, port + 100, EdgePath="edge", FileLogPath="log"))  # C1 of another venue.
    expect(checked(second)[2], [])
    written(one, service(1, port, EdgePath="edge", FileLogPath="log"))
    written(other, service(2, port, EdgePath="edge", FileLogPath="log"))
    expect(checked(other)[::2], (0, []))  # Each service has a folder of its own.


def can_have_places() -> bool:
    """Whether /etc can be another folder for a program here, which is for root."""
    os.makedirs("etc/venued", exist_ok=True)
    os.chmod("etc", 0o755)
    has = not os.geteuid() and not subprocess.run([*ELSEWHERE, "true"], capture_output=True).returncode
    if not has:
        print("edge/check: what --check reads in /etc isn't tried: no folder of the system can be another one here", flush=True)
    return has


def test_gateways() -> None:
    """A look finds a member for whom the venue's service has no port, and a VenuePort that isn't its PORT. At run time the line of the
    log says which port it is that can't be had."""
    port = free_port(4)
    venue, edge, _ = pair(2, started(JOURNAL, 1, list(SYMBOLS)), wait=False)
    edge.hears(f"C2: the venue: can't connect to its port {venue.port + 1}: Connection refused")
    if not can_have_places():
        return
    written("etc/venued.conf", f"PORT={port}\nGATEWAYS=2\nSYMBOLS=ABC XYZ\n")
    written("etc/venued/metals.conf", f'# of a test\nGATEWAYS="3"\nPORT="{port + 100}"\n')
    written("etc/passwd", "root:x:0:0:root:/root:/bin/sh\n")
    for member, first, fault in ((1, port, ""), (2, port, ""),
                                 (3, port, "Member: is above GATEWAYS of /etc/venued.conf, 2: C3"), (3, port + 100, ""),
                                 (4, port + 100, "Member: is above GATEWAYS of /etc/venued/metals.conf, 3: C4"),
                                 (2, port + 1, f"VenuePort: isn't PORT of /etc/venued.conf, {port}, but the port of C2: {port + 1}"),
                                 (2, port + 2, ""), (8, port + 50, "")):
        path = written(f"{member}/C{member}.cfg", service(member, first))
        written("all.cfg", settings_of({"VenuePort": first}, [it for it in members_of(4, port) if it["Member"] == f"C{member}"]))
        for words in ((path,), ("--all", "all.cfg")) if member < 5 else ((path,),):
            status, out, err = checked(*words, front=ELSEWHERE)
            expect((words, first, status, out, err), (words, first, 1, [], [f"gikvand-edge: {fault}"]) if fault else
                   (words, first, 0, [right()], []))


def test_user_of_a_service() -> None:
    """Root's look at the file of a service is that of the service's user, and says so; another file's is root's own."""
    if not can_have_places():
        return
    port, path, secret = free_port(1), "/etc/gikvand-edge/C1.cfg", "/etc/gikvand-edge/C1.passwords"
    written("etc/passwd", f"root:x:0:0:root:/root:/bin/sh\ngikvand-edge-C1:x:{STRANGER}:{STRANGER}::/:/bin/sh\n")
    written("etc/group", "root:x:0:\nvenued:x:12346:\n")
    with open(DICTIONARY, encoding="ascii") as file:
        written("etc/dictionary.xml", file.read())
    more = {"DataDictionary": "/etc/dictionary.xml", "VenueJournal": "/bin/true", "VenueEvents": "/bin/true", "Username": "desk",
            "PasswordFile": secret, "AllowAnyone": "N"}
    for name in ("C1", "C2"):
        written(f"etc/gikvand-edge/{name}.cfg", service(int(name[1]), port, **more))
    os.symlink("gikvand-edge/C1.cfg", "etc/link.cfg")
    written(f".{secret}".replace("./etc", "etc"), "desk:secret\n", 0o600)
    for owner, mode, line in ((0, 0o644, f"PasswordFile: can't be read: {secret}, as {NAME} reads it"),
                              (STRANGER, 0o600, f"{path}: can't be read, as {NAME} reads it"), (STRANGER, 0o644, "")):
        os.chown("etc/gikvand-edge/C1.passwords", owner, owner)
        os.chown("etc/gikvand-edge/C1.cfg", 0, 0)
        os.chmod("etc/gikvand-edge/C1.cfg", mode)
        for words in ((path,), ("/etc/link.cfg",), ("--member", "C1", path)):
            at = line.replace(path, words[-1])
            front = "C1: " * ("--member" in words)
            expect((words, *checked(*words, front=ELSEWHERE)), (words, 1, [], [f"gikvand-edge: {front}{at}"]) if line else
                   (words, 0, [right(NAME)], []))
    expect(checked("/etc/gikvand-edge/C2.cfg", front=ELSEWHERE), (0, [right()], []))  # There is no such user.
    written("other/C1.cfg", service(1, port, **more))
    expect(checked("other/C1.cfg", front=ELSEWHERE), (0, [right()], []))
    os.chmod("etc/gikvand-edge/C1.passwords", 0o640)  # What is wrong for anybody is said as before.
    expect(checked(path, front=ELSEWHERE)[2],
           [f"gikvand-edge: PasswordFile: may be used by others than its owner: chmod 0600 {secret}"])


def test_second_edge_of_a_member() -> None:
    """A second edge of a member says that its record is a new one, and what keeps it waiting. Once the first one has gone it says
    that it goes on in that one's place."""
    venue, edge, port = pair()
    one = at_rest(port, "a")
    other = Edge(settings_of({"VenuePort": venue.port, "EdgePath": "other", "FileLogPath": "other-log"}, members_of(1, free_port(1))),
                 words=("--member", "C1"))
    held = f"C1: the venue: its port {venue.port} is held by another client, as a second edge of C1, or it hangs: no answer to the Logon"
    other.hears("C1: other/C1/C1.db is made: no name of before is known")
    other.hears(held)
    one.send("D", order("b", 1, 10, "50"))
    one.report(_150="0", _11="b")
    expect([": serves" in it for it in other.lines].count(True), 0)
    one.log_out()
    edge.stop()
    other.hears("C1: the venue: it takes the Logon at last: where another client held its port, this edge goes on in its place")
    other.hears("C1: the journal has 2 requests, up to the number 2, whose names aren't here")
    other.hears("C1: serves, behind report 2")
    expect((sum(held in it for it in other.lines), len(told(1))), (1, 2))
    await_that("it isn't held any more", lambda: "serves" in called("status C1")[1])


def of_the_page(pattern: str) -> str:
    """What of docs/EDGE.md stands in the group of this pattern, which is there once."""
    with open(os.path.join(ROOT, "docs/EDGE.md"), encoding="utf-8") as file:
        part, = re.findall(pattern, file.read(), re.DOTALL)
    return part


def test_tls_by_the_page() -> None:
    """By the page's lines for keys and certificates, and its configuration of a member's stunnel, a member logs on and trades."""
    if not shutil.which("stunnel"):
        raise Trouble("stunnel isn't there: edge/setup --tests installs it")
    lines = of_the_page(r"\n    cd /etc/gikvand-edge\n((?:    openssl[^\n]*\n)+    chmod[^\n]*\n)\n")
    subprocess.run(["sh", "-ec", lines], check=True, capture_output=True, timeout=120)
    expect({name: stat.S_IMODE(os.stat(name).st_mode) for name in ("edge.key", "edge.pem", "C1.key", "C1.pem")},
           {"edge.key": 0o600, "edge.pem": 0o644, "C1.key": 0o600, "C1.pem": 0o644})
    port, tls, own = free_port(1), free_port(1), free_port(1)
    venue, own_settings = started(JOURNAL, 1, list(SYMBOLS)), stunnel_configuration("C1", tls, port)
    edge = Edge(settings_of({"VenuePort": venue.port, "AllowAnyone": None}, members_of(1, port, StunnelConfig=own_settings))).ready()
    expect(checked("edge.cfg")[0], 0)
    Stunnel(own_settings, tls)
    text = of_the_page(r"```text\n(foreground = yes\n[^`]*\[gikvand\]\n[^`]*)```")
    for old, new in (("127.0.0.1:9801", f"127.0.0.1:{own}"), ("VENUE:9843", f"127.0.0.1:{tls}")):
        expect((old, text.count(old)), (old, 1))
        text = text.replace(old, new)
    Stunnel(written("member.conf", text), own)
    one = at_rest(own, "a")
    one.log_out()
    expect([line for line in edge.lines if "isn't served" in line], [])


def test_certify_by_installed_programs() -> None:
    """edge/certify takes the programs that it is told, with nothing built beside it, and begins its day."""
    for name in ("edge", "dev", "scripts", "tools"):
        shutil.copytree(os.path.join(ROOT, name), name, ignore=shutil.ignore_patterns("out*", "__pycache__"))
    variables = of_the_page(r"\n    (VENUED=[^\n]*) edge/certify --port PORT\n").split()
    programs = {"/usr/bin/venued": VENUED, "/usr/bin/venue-events": EVENTS, "/usr/bin/gikvand-edge": EDGE}
    env = {**os.environ, **{name: programs[path] for name, _, path in (it.partition("=") for it in variables)}}
    process = subprocess.Popen(["edge/certify", "--port", str(free_port(1)), "--patience", "1"], env=env, text=True,
                               stdout=subprocess.PIPE, stderr=subprocess.STDOUT)
    out, _ = process.communicate(timeout=4 * PATIENCE)
    expect((process.returncode, [line.startswith("do: ") for line in out.splitlines()].count(True) > 0,
            out.splitlines()[-1].startswith("not certified: ")), (1, True, True))


def test_first_try() -> None:
    """edge/try says how two engines connect, which trade then, and ends by a signal. An example whose standard input is at its end
    sends its order, and goes."""
    port = free_port(2)
    with subprocess.Popen([os.path.join(ROOT, "edge/try"), "--port", str(port)], text=True, stdout=subprocess.PIPE,
                          stderr=subprocess.DEVNULL) as tried:
        try:
            said: list[str] = []
            while said[-1:] != ["Ctrl-C ends it"]:
                said.append(sure(tried.stdout).readline().rstrip("\n"))
                expect(tried.poll(), None)
            expect(said[:2], [f"connect to 127.0.0.1:{port + at} as SenderCompID {name}, TargetCompID GIKVAND"
                              for at, name in enumerate(("DESK-A", "DESK-B"))])
            client = said[-5].removeprefix("a first client, which buys 1 ABC at 50 as DESK-A: python3 ").split()
            expect([it.partition(",")[0] for it in said[-4:-2]],
                   ["behind it an engine of your own is DESK-B", "the next edge/try begins with 1 as well: remove DESK-A.numbers then"])
            words = said[-2].removeprefix("an operator's words: ")
            asked = subprocess.run(["sh", "-c", words], capture_output=True, text=True, timeout=PATIENCE)
            expect((asked.returncode, asked.stderr, asked.stdout.count(": serves, away, ")), (0, "", 2))
            ran = subprocess.run([sys.executable, os.path.join(ROOT, client[0]), *client[1:]], stdin=subprocess.DEVNULL,
                                 capture_output=True, text=True, timeout=PATIENCE)
            expect((ran.returncode, ran.stderr, "logged on" in ran.stdout), (0, "", True))  # It may be gone before the venue answers.
            other = Engine(port, 2).log_on()
            other.send("D", order("t", 2, 1, "50"))
            other.report(_150="F", _11="t")
            tried.send_signal(signal.SIGINT)
            expect(tried.wait(PATIENCE), 0)
        finally:
            tried.kill()


TESTS = [test_outside_hours, test_missing_passwords, test_names_of_services, test_files_beside, test_gateways, test_first_try,
         test_user_of_a_service, test_second_edge_of_a_member, test_tls_by_the_page, test_certify_by_installed_programs]
