"""The packages' life in a small Debian, which is made for that from Debian's mirror and booted in namespaces of its own. Not a test
by itself: pytest -m long tests/package runs it, as root."""
import contextlib
import glob
import itertools
import os
import re
import shutil
import subprocess
import tempfile
import time
from collections.abc import Callable, Iterator, Sequence

from checks import ran
from gikvand.fix import framed
from venues import Trouble

TAKES = 60    # Seconds for what is asked of it.
RESTARTS = 5  # Seconds after which a service starts again that a signal ended.
INCLUDED = "python3,systemd,systemd-sysv"
PATH = "/usr/sbin:/usr/bin:/sbin:/bin"
CGROUPS = ("/sys/fs/cgroup", "/sys/fs/cgroup/unified")
JOURNALS, VOLUME = "/var/lib/venued", "/srv/venue"
PROGRAMS = ("gikvand", "venued", "venue-replay", "venue-events")
NUMBERS = itertools.count(1)  # Of machines.

RECORDS, EDGE_SETTINGS, EXAMPLES = "/var/lib/gikvand-edge", "/etc/gikvand-edge", "/usr/share/doc/gikvand-edge/examples"
EDGE, LOG = "gikvand-edge@C1", f"{RECORDS}/C1/log/FIX.4.4-GIKVAND-DESK-A.messages.current.log"
EDGE_PORT = 9801
# A member's engine, as short as may be: it sends each message, and waits for one of the type that stands behind it.
ENGINE = r"""import socket, sys
came = b""
with socket.create_connection(("127.0.0.1", int(sys.argv[1])), 30) as it:
    for sent, kind in zip(sys.argv[2::2], sys.argv[3::2]):
        at = len(came)
        it.sendall(bytes.fromhex(sent))
        while f"\x0135={kind}\x01".encode() not in came[at:]:
            if not (more := it.recv(65536)):
                sys.exit(f"the connection ended behind {came!r}")
            came += more
print(came.decode("latin-1").replace("\x01", "|"))
"""

# What makes a machine of a root folder: mounts and devices of its own. It becomes systemd, with the id 1.
BOOT = """set -eu
mount --make-rprivate /
mount --bind "$1" "$1"
cd "$1"
mount -t proc proc proc
mount -t sysfs sysfs sys
mount -t cgroup2 cgroup2 sys/fs/cgroup
for it in "${@:3}"; do mkdir -p ".${it#*:}"; mount --bind "${it%%:*}" ".${it#*:}"; done
mount -t tmpfs -o mode=755 tmpfs run
mount -t tmpfs -o mode=755 tmpfs dev
for it in null zero full random urandom tty; do touch "dev/$it"; mount --bind "/dev/$it" "dev/$it"; done
mkdir dev/pts dev/shm
mount -t tmpfs tmpfs dev/shm
ln -s pts/ptmx dev/ptmx
hostname small
ip link set lo up
mkdir -p old
pivot_root . old
umount -l old
exec env -i container=small PATH="$2" /lib/systemd/systemd --log-target=null
"""


class Machine:
    """A Debian that boots, and is asked by its shell. It has a network of its own, or that of another one, and folders of this machine
    as HERE:THERE says."""

    def __init__(self, root: str, beside: "Machine | None" = None, volumes: Sequence[str] = ()) -> None:
        self.cgroup = os.path.join(cgroups(), f"small-{os.getpid()}-{next(NUMBERS)}")
        self.seen: dict[str, int] = {}  # How many lines of a service's log were waited for, or passed by.
        os.mkdir(self.cgroup)
        network = ["nsenter", "-t", beside.init(), "--net", "unshare"] if beside else ["unshare", "--net"]
        words = [*network, "--mount", "--pid", "--fork", "--uts", "--ipc", "--cgroup", "--kill-child", "bash", "-c", BOOT, "boot", root, PATH,
                 *volumes]
        self.process = subprocess.Popen(["bash", "-c", 'echo $$ >"$0/cgroup.procs"; exec "$@"', self.cgroup, *words],
                                        stdin=subprocess.DEVNULL, stdout=subprocess.DEVNULL, stderr=subprocess.DEVNULL)

    def await_boot(self) -> None:
        for _ in range(TAKES):
            time.sleep(1)
            if self.process.poll() is not None:
                raise Trouble(f"the small Debian doesn't boot here: status {self.process.returncode}")
            if self.init() and self.ask("systemctl is-system-running")[1].strip() in ("running", "degraded"):
                return
        raise Trouble("the small Debian hasn't booted")

    def init(self) -> str:
        """The id of its first process, as it is known here."""
        return ran("pgrep", "-P", self.process.pid)[1].strip()

    def ask(self, line: str) -> tuple[int, str, str]:
        """Lets its shell do this."""
        return ran("nsenter", "-t", self.init(), "-m", "-p", "-u", "-i", "-n", "-C", "env", "-i", f"PATH={PATH}", "HOME=/root",
                   "LC_ALL=C", "DEBIAN_FRONTEND=noninteractive", "bash", "-c", f"cd /root; {line}")

    def do(self, line: str) -> str:
        """What its shell prints to this, which has to end well."""
        status, out, err = self.ask(line)
        if status:
            raise Trouble(f"{line}: status {status}: {out}{err}")
        return out.strip()

    def await_line(self, unit: str, wanted: str) -> None:
        """Waits until this line stands in a service's log, behind the last one that was waited for."""
        lines: list[str] = []
        for _ in range(TAKES * 5):
            lines = self.do(f"journalctl -o cat -u {unit} --no-pager | grep -E '^(venued|gikvand-edge): ' || true").splitlines()
            if wanted in lines[self.seen.get(unit, 0):]:
                self.seen[unit] = lines.index(wanted, self.seen.get(unit, 0)) + 1
                return
            time.sleep(0.2)
        raise Trouble(f"{unit} didn't say {wanted!r}, but {lines[self.seen.get(unit, 0):]}")

    def await_that(self, what: str, holds: Callable[[], bool]) -> None:
        for _ in range(TAKES * 5):
            if holds():
                return
            time.sleep(0.2)
        raise Trouble(f"{what}: not within {TAKES} seconds")

    def state(self, unit: str) -> str:
        return self.ask(f"systemctl show -P ActiveState {unit}")[1].strip()

    def end(self) -> None:
        self.process.kill()
        self.process.wait()
        for _ in range(50):
            with contextlib.suppress(OSError):
                for folder, _, _ in os.walk(self.cgroup, topdown=False):
                    os.rmdir(folder)
                return
            time.sleep(0.1)


def cgroups() -> str:
    """Where a group of processes of its own can be made."""
    for it in reversed(CGROUPS):
        if os.path.exists(os.path.join(it, "cgroup.procs")) and os.path.exists(os.path.join(it, "cgroup.controllers")):
            return it
    raise Trouble("there is no cgroup2 here, in which a small Debian could boot")


def release() -> str:
    """The name of this machine's Debian, whose keys are here."""
    with open("/etc/os-release", encoding="utf-8") as file:
        found = re.search(r"^VERSION_CODENAME=(\w+)$", file.read(), re.MULTILINE)
    return found[1] if found else "stable"


def libraries(packages: list[str]) -> list[str]:
    """What these packages need of Debian, but for what is there and for one another."""
    needed = {it.split()[0] for name in packages for it in ran("dpkg-deb", "-f", name, "Depends")[1].split(",") if "|" not in it}
    return sorted(needed - {os.path.basename(it).split("_")[0] for it in packages})


@contextlib.contextmanager
def machine(packages: list[str]) -> Iterator[Machine]:
    """A small Debian in which these packages lie, with what they need."""
    with tempfile.TemporaryDirectory(prefix="debian-") as folder:
        root = os.path.join(folder, "root")
        included = ",".join([INCLUDED, *libraries(packages)])
        status, _, err = ran("mmdebstrap", "--quiet", "--variant=minbase", f"--include={included}", release(), root)
        assert (status, err if status else "") == (0, "")
        for package in packages:
            shutil.copy(package, os.path.join(root, "root"))
        it = Machine(root)
        try:
            it.await_boot()
            yield it
        finally:
            it.end()


def write_words(it: Machine, name: str, port: int, gateways: int, traded: str) -> None:
    """Writes a service's words, as OPERATING.md does."""
    it.do(f"mkdir -p /etc/venued; printf 'PORT={port}\\nGATEWAYS={gateways}\\nSYMBOLS={traded}\\n' >/etc/{name}.conf")


def install(it: Machine, package: str) -> None:
    """Nothing starts by that, and the user is there."""
    it.do(f"dpkg -i {package}")
    assert it.state("venued") == "inactive"
    assert it.do("getent passwd venued | cut -d: -f6,7") == f"{JOURNALS}:/usr/sbin/nologin"
    assert it.do(f"command -v {' '.join(PROGRAMS)}").split() == [f"/usr/bin/{name}" for name in PROGRAMS]


def serve(it: Machine) -> None:
    """The service serves, its journal is its user's alone, and what a signal ends starts again."""
    write_words(it, "venued", 9001, 2, "ABC XYZ")
    it.do("systemctl start venued")  # It comes back once members may connect.
    it.do("gikvand trade --port 9001 sell 5 ABC 50")
    it.await_line("venued", "venued: ready, 0 commands, 0 outputs")
    assert it.do(f"cat {JOURNALS}/venue.journal.symbols") == "ABC XYZ"
    assert it.do("gikvand trade --port 9001 --member 2 buy 5 ABC 50").splitlines()[-1] == "order 2 filled 5 at 50, nothing left"
    assert it.do(f"stat -c '%U %a %n' {JOURNALS} {JOURNALS}/venue.journal").splitlines() == (
        [f"venued 700 {JOURNALS}", f"venued 600 {JOURNALS}/venue.journal"])
    pid = it.do("systemctl show -P MainPID venued")
    closed = it.do(f"grep -E '^(CapEff|NoNewPrivs|Seccomp):' /proc/{pid}/status").split()
    assert closed == ["CapEff:", "0" * 16, "NoNewPrivs:", "1", "Seccomp:", "2"]
    assert it.do(f"gikvand watch {JOURNALS}/venue.journal").splitlines()[2] == "2 commands, 4 outputs"
    it.do(f"kill -KILL {pid}")
    it.await_line("venued", "venued: ready, 2 commands, 4 outputs")


def end_by_a_signal(it: Machine) -> None:
    """SIGTERM is an end that somebody wanted: nothing starts again."""
    it.do("kill -TERM $(systemctl show -P MainPID venued)")
    time.sleep(RESTARTS + 2)
    assert it.state("venued") == "inactive"
    it.do("systemctl start venued")
    it.await_line("venued", "venued: ready, 2 commands, 4 outputs")


def start_by_hand(it: Machine) -> None:
    """A start is never refused for those before it, and what has failed isn't started again by itself."""
    write_words(it, "venued", 9001, 2, "XYZ")
    it.do("systemctl stop venued")
    for _ in range(8):
        assert it.ask("systemctl start venued")[0] == 1
    said = "venue.journal is one of ABC XYZ, as venue.journal.symbols says, and not of XYZ"
    assert it.do("journalctl -o cat -u venued | grep ^venue.journal | sort | uniq -c").split(maxsplit=1) == ["8", said]
    assert it.state("venued") == "failed"
    write_words(it, "venued", 9001, 2, "ABC XYZ")
    it.do("systemctl start venued")
    it.await_line("venued", "venued: ready, 2 commands, 4 outputs")


def starts_that_fail(it: Machine) -> None:
    """`systemctl start` says whether the venue listens: it fails where the journal has gone, can't be opened, or the words are wrong,
    and a journal that has gone isn't made anew. Behind it the symbols are kept as they were."""
    journal = f"{JOURNALS}/venue.journal"
    for name, before, behind, line in (
            ("gone", f"mv {journal} /root/away", f"[ ! -e {journal} ] && mv /root/away {journal}", "venue.journal is missing, and "
             "venue.journal.symbols says that there was one: remove that for a new one"),
            ("damaged", f"cp -p {journal} /root/away; truncate -s 20 {journal}", f"cp -p /root/away {journal}",
             "venued: journal fault 42 at 16"),
            ("wrong", "sed -i s/GATEWAYS=2/GATEWAYS=9/ /etc/venued.conf", "sed -i s/GATEWAYS=9/GATEWAYS=2/ /etc/venued.conf",
             "usage: venued PORT JOURNAL GATEWAYS SYMBOL...")):
        it.do(f"systemctl stop venued; {before}")
        assert (name, it.ask("systemctl start venued")[0], it.state("venued")) == (name, 1, "failed")
        said = it.do("journalctl -o cat -u venued -n 30 | grep -E '^(venue|usage)' | tail -n 1")
        assert (name, said[:len(line)]) == (name, line)
        it.do(behind)
    assert it.do(f"cat {journal}.symbols; ls {JOURNALS}/*.new 2>/dev/null || true") == "ABC XYZ"
    it.do("systemctl start venued")
    assert (it.do("ss -ltnH 'sport = :9001 or sport = :9002' | wc -l") if it.ask("command -v ss")[0] == 0 else "2") == "2"
    it.await_line("venued", "venued: ready, 2 commands, 4 outputs")


def several(it: Machine) -> None:
    """Two more venues beside it, each in its own folder; one whose port is taken says so, and stays ended."""
    write_words(it, "venued/metals", 9101, 1, "ABC")
    write_words(it, "venued/grains", 9201, 3, "Q R")
    write_words(it, "venued/taken", 9202, 1, "ABC")
    it.do("systemctl start venued@metals venued@grains")
    for name in ("metals", "grains"):
        it.await_line(f"venued@{name}", "venued: ready, 0 commands, 0 outputs")
        assert it.do(f"cd {JOURNALS}/{name}; ls") == "venue.journal\nvenue.journal.symbols"
    assert it.ask("systemctl start venued@taken")[0] == 1
    assert it.do("journalctl -o cat -u venued@taken | grep ^somebody") == "somebody listens at port 9202"
    assert [it.state(f"venued@{name}") for name in ("metals", "grains", "taken")] == ["active", "active", "failed"]
    it.do("systemctl stop venued@grains")
    it.await_line("venued@grains", "venued: stopped, 0 commands, 0 outputs")


def standby(it: Machine) -> None:
    """The unit of a venue whose journal lies on a volume, here a folder in memory: it waits for the lock of another, the
    watch ends it where it may write nothing, and it serves again once that is mended."""
    drop_in, folder = "/etc/systemd/system/venued@day.service.d", f"{VOLUME}/day"
    it.do(f"mkdir -p {VOLUME}; mount -t tmpfs tmpfs {VOLUME}; install -d -m 0700 -o venued -g venued {folder}; cd {folder}; "
          "printf 'PORT=9301\nGATEWAYS=1\n' >venued.conf; echo ABC >venue.journal.symbols; "
          "venued - venue.journal 1 ABC </dev/null; chown venued:venued *")
    it.do(f"mkdir -p {drop_in}; ln -s /usr/share/gikvand/standby/venued@.conf {drop_in}/standby.conf; systemctl daemon-reload")
    it.do(f"flock --no-fork {folder}/venue.journal sleep 600 >/dev/null 2>&1 & echo $! >/root/other; "
          "systemctl start --no-block venued@day")
    it.await_that("three starts of venued@day", lambda: int(it.do("systemctl show -P NRestarts venued@day")) > 2)
    it.do("kill $(cat /root/other)")
    it.await_line("venued@day", "venued: ready, 0 commands, 0 outputs")
    it.do("gikvand trade --port 9301 --symbols ABC sell 5 ABC 50")
    it.do(f"chown root:root {folder}; rm -f {folder}/venue.journal.watch")
    it.await_that("the watch", lambda: "serve: this machine is cut off" in it.do("journalctl -o cat -u venued@day"))
    it.await_that("no venue", lambda: it.state("venued@day") != "active")
    it.do(f"chown venued:venued {folder}")
    it.await_line("venued@day", "venued: ready, 1 commands, 1 outputs")
    # (A stop in the midst of a start ends the venue by a signal.)
    it.await_that("the end of the start", lambda: it.state("venued@day") == "active")
    it.do("systemctl stop venued@day")
    it.await_line("venued@day", "venued: stopped, 1 commands, 1 outputs")


def upgrade_and_back(it: Machine, older: str, newer: str) -> None:
    """The venue runs on through an upgrade; stopped, it goes on with the same journal, and so it does on the way back."""
    pid = it.do("systemctl show -P MainPID venued")
    it.do(f"dpkg -i {newer}")
    assert it.do("systemctl show -P MainPID venued") == pid
    assert it.do(f"ls -l /proc/{pid}/exe").endswith("(deleted)")
    for name, outputs in (("buy 7 ABC 40", 4), ("sell 7 ABC 40", 5)):
        it.do("systemctl restart venued")
        it.await_line("venued", f"venued: ready, {2 + outputs - 4} commands, {outputs} outputs")
        it.do(f"gikvand trade --port 9001 {name}")
        it.do(f"dpkg -i {older}")
    assert it.do(f"gikvand verify {JOURNALS}/venue.journal").splitlines()[-1] == f"{JOURNALS}/venue.journal: nothing is wrong"


def modes(it: Machine) -> list[str]:
    """Those of the venue's folder and journal."""
    return it.do(f"stat -c '%U %a' {JOURNALS} {JOURNALS}/venue.journal {JOURNALS}/venue.journal.symbols").splitlines()


def counts_of(it: Machine) -> str:
    """How many commands and outputs the venue's journal has, as its lines count them."""
    return it.do(f"gikvand watch {JOURNALS}/venue.journal").splitlines()[2]


def restart_venue(it: Machine) -> None:
    counts = counts_of(it)
    it.do("systemctl restart venued")
    it.await_line("venued", f"venued: ready, {counts}")


def install_edge(it: Machine, package: str) -> None:
    """Nothing starts by that, the users are there, and the venue that serves goes on as it is."""
    pid, before = it.do("systemctl show -P MainPID venued"), modes(it)
    it.do(f"dpkg -i {package}")
    assert it.state(EDGE) == "inactive"
    assert it.do("getent passwd gikvand-edge-C1 gikvand-edge-C8 | cut -d: -f6,7").splitlines() == (
        [f"{RECORDS}/{name}:/usr/sbin/nologin" for name in ("C1", "C8")])
    assert (it.do("systemctl show -P MainPID venued"), modes(it)) == (pid, before)
    assert it.do("gikvand-edge --version").split()[0] == "gikvand-edge"


def set_up_edge(it: Machine) -> None:
    """Writes a member's settings as EDGE.md has it, and has them read as its service reads them."""
    it.do(f"cp {EXAMPLES}/C1.cfg {EDGE_SETTINGS}; "
          f"install -m 0600 -o gikvand-edge-C1 /dev/null {EDGE_SETTINGS}/C1.passwords; "
          f"echo desk-a:secret >>{EDGE_SETTINGS}/C1.passwords")
    assert it.do(f"gikvand-edge --check {EDGE_SETTINGS}/C1.cfg").startswith("the settings are right, as gikvand-edge-C1 (uid ")


def messages(first: int, *bodies: tuple[str, str], answers: tuple[str, ...]) -> str:
    """The words for ENGINE: messages of the member with numbers from this one on, each with the type that answers it."""
    words = []
    for number, ((kind, body), answer) in enumerate(zip(bodies, answers), first):
        now = time.strftime("%Y%m%d-%H:%M:%S", time.gmtime())
        data = framed(f"35={kind}|34={number}|49=DESK-A|52={now}|56=GIKVAND|{body.replace('NOW', now)}")
        words += [data.hex(), answer]
    return " ".join(words)


def spoken(it: Machine, words: str) -> tuple[int, str]:
    """What a member is told for these messages by its edge."""
    it.do(f"cat >/root/engine <<'END'\n{ENGINE}\nEND")
    status, out, err = it.ask(f"python3 /root/engine {EDGE_PORT} {words}")
    return status, out if status == 0 else err


def logon(password: str) -> tuple[str, str]:
    return "A", f"98=0|108=30|553=desk-a|554={password}|"


def serve_by_edge(it: Machine) -> None:
    """A venue that served before is closed to its edge, which waits for its next start; then the member trades by a password, and
    what it was told is what the journal tells."""
    set_up_edge(it)
    it.do(f"systemctl start {EDGE}")
    it.await_line(EDGE, "gikvand-edge: C1: ready")
    it.await_that("a line of the journal that can't be read", lambda: "C1: isn't served: " in it.do(f"journalctl -o cat -u {EDGE}"))
    assert modes(it) == ["venued 700", "venued 600", "venued 600"]
    restart_venue(it)
    assert modes(it) == ["venued 750", "venued 640", "venued 640"]
    it.await_that("an edge that serves", lambda: "C1: serves, behind report " in it.do(f"journalctl -o cat -u {EDGE}"))
    status, said = spoken(it, messages(1, logon("wrong"), answers=("A",)))
    assert (status, said.strip()) == (1, "the connection ended behind b''")
    time.sleep(1)  # (the next Logon has to wait for a moment)
    bodies = [logon("secret"), ("D", "11=ORD-7|21=1|38=5|40=2|44=0.40|54=1|55=ABC|59=0|60=NOW|"), ("5", "")]
    status, said = spoken(it, messages(1, *bodies, answers=("A", "8", "5")))
    assert (status, [part in said for part in ("|35=A|", "|11=ORD-7|", "|44=0.40|", "|150=0|")]) == (0, [True] * 4)
    assert it.do(f"gikvand verify {JOURNALS}/venue.journal C1={LOG} --edge {EDGE_SETTINGS}/C1.cfg").splitlines()[-1] == (
        f"{JOURNALS}/venue.journal: nothing is wrong")
    pid = it.do(f"systemctl show -P MainPID {EDGE}")
    assert it.do(f"awk '/^Uid:/ {{ print $2 }}' /proc/{pid}/status") == it.do("id -u gikvand-edge-C1")
    closed = it.do(f"grep -E '^(CapEff|NoNewPrivs|Seccomp):' /proc/{pid}/status").split()
    assert closed == ["CapEff:", "0" * 16, "NoNewPrivs:", "1", "Seccomp:", "2"]
    assert it.do(f"stat -c '%U %a' {RECORDS}/C1 {RECORDS}/C1/edge/C1.db").splitlines() == ["gikvand-edge-C1 700", "gikvand-edge-C1 600"]


def starts_of_an_edge_that_fail(it: Machine) -> None:
    """`systemctl start` says whether the member's port listens, and fails where the settings are wrong."""
    it.do(f"systemctl stop {EDGE}; sed -i s/^Member=C1/Member=C9/ {EDGE_SETTINGS}/C1.cfg")
    assert it.ask(f"systemctl start {EDGE}")[0] == 1
    assert "gikvand-edge: Member: " in it.do(f"journalctl -o cat -u {EDGE}")
    it.do(f"systemctl stop {EDGE}; sed -i s/^Member=C9/Member=C1/ {EDGE_SETTINGS}/C1.cfg; systemctl start {EDGE}")
    it.await_line(EDGE, "gikvand-edge: C1: stopped")
    it.await_line(EDGE, "gikvand-edge: C1: ready")
    it.await_that("an edge that serves behind a start that failed", lambda: serves_last(it))


def upgrade_edge_and_back(it: Machine, older: list[str], newer: list[str]) -> None:
    """Edge and venue run on through an upgrade of both packages; started anew, the edge goes on with its record, and so it does on
    the way back."""
    pids = [it.do(f"systemctl show -P MainPID {unit}") for unit in ("venued", EDGE)]
    for number, packages in ((4, newer), (7, older)):
        it.do(f"dpkg -i {' '.join(packages)}")
        assert [it.do(f"systemctl show -P MainPID {unit}") for unit in ("venued", EDGE)] == pids
        it.do(f"systemctl restart {EDGE}")
        it.await_line(EDGE, "gikvand-edge: C1: stopped")
        it.await_line(EDGE, "gikvand-edge: C1: ready")
        it.await_that("an edge that serves again", lambda: serves_last(it))
        bodies = [logon("secret"), ("D", f"11=ORD-{number}|21=1|38=5|40=2|44=0.40|54=1|55=ABC|59=0|60=NOW|"), ("5", "")]
        status, said = spoken(it, messages(number, *bodies, answers=("A", "8", "5")))
        assert (status, f"|11=ORD-{number}|" in said) == (0, True)
        pids[1] = it.do(f"systemctl show -P MainPID {EDGE}")


def serves_last(it: Machine) -> bool:
    """Whether the edge serves, by its last line that says whether it does."""
    lines = it.do(f"journalctl -o cat -u {EDGE}").splitlines()
    return next((": serves, " in line for line in reversed(lines) if re.search(": (serves, |ready|stopped)", line)), False)


def remove_edge(it: Machine) -> None:
    """The edge is stopped in order, nothing of the package is left, and records, settings and users stay. The venue's folder is closed
    again from its next start on."""
    it.do("dpkg -r gikvand-edge")
    it.await_line(EDGE, "gikvand-edge: C1: stopped")
    assert (it.state(EDGE), it.state("venued")) == ("inactive", "active")
    left = it.do("ls -d /usr/share/gikvand-edge /usr/bin/gikvand-edge /usr/lib/systemd/system/venued.service.d 2>/dev/null || true")
    assert left == ""
    assert it.do("dpkg -P gikvand-edge").splitlines()[-1] == (
        f"gikvand-edge: the records in {RECORDS} stay, the settings, and the users gikvand-edge-C1 to C8")
    assert it.do(f"stat -c %U {RECORDS}/C1/edge/C1.db {EDGE_SETTINGS}/C1.passwords").split() == ["gikvand-edge-C1"] * 2
    restart_venue(it)
    assert modes(it)[0] == "venued 700"


def remove(it: Machine) -> None:
    """The venues are stopped in order, nothing of the package is left, and the journals and their user stay."""
    counts = counts_of(it)
    it.do("dpkg -r gikvand")
    it.await_line("venued", f"venued: stopped, {counts}")
    assert [it.state(f"venued{name}") for name in ("", "@metals")] == ["inactive", "inactive"]
    assert it.do("ls -d /usr/share/gikvand /usr/bin/gikvand 2>/dev/null || true") == ""
    assert it.do("dpkg -P gikvand").splitlines()[-1] == f"gikvand: the journals in {JOURNALS} stay, and the user venued"
    assert it.do(f"stat -c %U {JOURNALS}/venue.journal") == "venued"


def lives_in_a_debian(older: str, newer: str, edges: tuple[str, ...] = ()) -> None:
    """The package's whole life on a machine, and that of the edge's, of which there is an older and a newer one too, or none."""
    names = [os.path.basename(it) for it in (older, newer)]
    with machine([older, newer, *edges]) as it:
        install(it, names[0])
        serve(it)
        end_by_a_signal(it)
        start_by_hand(it)
        starts_that_fail(it)
        several(it)
        standby(it)
        upgrade_and_back(it, *names)
        assert counts_of(it) == "4 commands, 8 outputs"
        if edges:
            pairs = [[name, os.path.basename(edge)] for name, edge in zip(names, edges)]
            install_edge(it, pairs[0][1])
            serve_by_edge(it)
            starts_of_an_edge_that_fail(it)
            upgrade_edge_and_back(it, *pairs)
            remove_edge(it)
        remove(it)


# The two images of contrib/container, each the root of a machine that is made as the recipe says.

IN_A_ROOT = """set -eu
for it in dev proc; do mount --rbind "/$it" "$0/$it"; done
cp --remove-destination /etc/resolv.conf "$0/etc/resolv.conf"
exec chroot "$0" env -i PATH="$1" DEBIAN_FRONTEND=noninteractive sh -c "$2"
"""


def steps_of(recipe: str, target: str) -> list[tuple[str, str]]:
    """The instructions of a recipe that lead to a target, each with its words, from the base on."""
    stages: dict[str, list[tuple[str, str]]] = {}
    lines = re.sub(r"\\\n *", "", recipe).splitlines()
    for instruction, _, words in (it.partition(" ") for it in lines if it and not it.startswith("#")):
        if instruction == "FROM":
            base, _, name = words.split()
            stages[name] = list(stages.get(base, [("FROM", base)]))
        else:
            stages[name].append((instruction, words))
    return stages[target]


def made_root(recipe: str, target: str, packages: str, root: str) -> None:
    """Makes the root folder of an image, with this machine's Debian in the place of the same one's image."""
    for instruction, words in steps_of(recipe, target):
        if instruction == "FROM":
            assert words == f"debian:{release()}-slim"
            status, _, err = ran("mmdebstrap", "--quiet", "--variant=apt", release(), root)
        elif instruction == "COPY":
            *patterns, folder = words.split()
            found = [it for pattern in patterns for it in glob.glob(os.path.join(packages, pattern))]
            assert len(found) == len(patterns)
            status, _, err = ran("cp", *found, f"{root}{folder}")
        elif instruction == "RUN":
            status, _, err = ran("unshare", "--mount", "bash", "-c", IN_A_ROOT, root, PATH, words)
        else:
            continue  # What a container is told of its start, end and folders.
        assert (words, status, err if status else "") == (words, 0, "")


def lives_in_two_containers(recipe: str, packages: str) -> None:
    """The venue and the edge, each in a container of its own: members trade, and both go on behind an end and a start."""
    with tempfile.TemporaryDirectory(prefix="containers-") as folder:
        roots, volume = {it: os.path.join(folder, it) for it in ("venue", "edge")}, os.path.join(folder, "venued")
        os.mkdir(volume)
        for target, root in roots.items():
            made_root(recipe, target, packages, root)
        for number in (2, 5):
            venue = Machine(roots["venue"], volumes=[f"{volume}:{JOURNALS}"])
            try:
                venue.await_boot()
                venue.await_that("a venue that serves", lambda: venue.state("venued") == "active")
                edge = Machine(roots["edge"], venue, [f"{volume}:{JOURNALS}"])
                try:
                    edge.await_boot()
                    trades_by_edge(edge, number)
                    assert edge.state("venued") == "inactive"
                finally:
                    edge.end()
                assert venue.do(f"gikvand verify {JOURNALS}/venue.journal").splitlines()[-1] == f"{JOURNALS}/venue.journal: nothing is wrong"
                venue.do("systemctl stop venued")
            finally:
                venue.end()


def trades_by_edge(it: Machine, number: int) -> None:
    """The member C1 sends an order by its edge, with this number of its session; the settings are written at the first time."""
    if number == 2:
        set_up_edge(it)
        it.do(f"systemctl restart {EDGE}")
    it.await_that("an edge that serves", lambda: serves_last(it))
    bodies = [logon("secret"), ("D", f"11=ORD-{number}|21=1|38=5|40=2|44=0.40|54=1|55=ABC|59=0|60=NOW|"), ("5", "")]
    status, said = spoken(it, messages(number - 1, *bodies, answers=("A", "8", "5")))
    assert (status, [part in said for part in ("|35=A|", f"|11=ORD-{number}|", "|150=0|")]) == (0, [True] * 3)
