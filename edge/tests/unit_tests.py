"""The service of systemd for a member's edge: systemd takes it, and hardly anything that may be kept from it is open."""
import os
import shutil
import subprocess

from edges import ROOT, Trouble
from trading_tests import expect

FOLDER = os.path.join(ROOT, "contrib/edge")
UNIT = "gikvand-edge@.service"
SLICES = "SystemCallFilter=sched_getattr sched_setattr"  # The venue asks for none.
FAMILIES = "RestrictAddressFamilies=AF_INET"
OPERATORS = FAMILIES + " AF_UNIX"  # By which no operator asks the venue.
EXPOSED = 15  # The greatest exposure of a service that is taken, in tenths, as systemd-analyze reckons it.


def lines_of(path: str) -> list[str]:
    """The lines of a unit that say something."""
    with open(os.path.join(ROOT, "contrib", path), encoding="utf-8") as file:
        return [line for line in file.read().splitlines() if line and not line.startswith("#")]


def test_unit() -> None:
    """What the venue's service keeps from the venue, that of the edge keeps from the edge, but for the calls by which it asks
    for short slices, and the socket of its operators; each member is bounded."""
    venues, own = lines_of("venued@.service"), lines_of(f"edge/{UNIT}")
    kept = venues[venues.index("NoNewPrivileges=yes"):venues.index("[Install]")]
    expect([FAMILIES if it == OPERATORS else it for it in own[own.index("NoNewPrivileges=yes"):own.index("[Install]")]
            if it != SLICES], kept)
    for name in (SLICES, OPERATORS, "Type=notify", "User=gikvand-edge-%i", "StateDirectory=gikvand-edge/%i", "StateDirectoryMode=0700", "UMask=0077",
                 "CPUWeight=1000", "MemoryMax=", "TasksMax=", "LimitNOFILE=", "StartLimitIntervalSec=0",
                 "ExecStart=/usr/bin/gikvand-edge /etc/gikvand-edge/%i.cfg"):
        expect((name, sum(line.startswith(name) for line in own)), (name, 1))
    users = lines_of("edge/gikvand-edge.sysusers")
    expect([line.split()[1] for line in users], [f"gikvand-edge-C{k}" for k in range(1, 9)])


def test_unit_by_systemd() -> None:
    """systemd takes the service and the venue's with its drop-in, and reckons little exposure; it makes the users."""
    if not shutil.which("systemd-analyze"):
        print("edge/check: the services aren't tried: that needs systemd-analyze, of Debian's systemd", flush=True)
        return
    units = os.path.abspath("root/etc/systemd/system")
    os.makedirs(os.path.join(units, "venued.service.d"))
    shutil.copytree("/usr/lib/systemd/system", "root/usr/lib/systemd/system", symlinks=True)
    os.makedirs("root/usr/bin")
    os.makedirs("root/bin")
    for program in ("usr/bin/gikvand-edge", "usr/bin/venued", "bin/sh"):
        shutil.copy("/bin/true", os.path.join("root", program))
    shutil.copy(os.path.join(FOLDER, UNIT), units)
    shutil.copy(os.path.join(ROOT, "contrib/venued.service"), units)
    shutil.copy(os.path.join(FOLDER, "venued-edge.conf"), os.path.join(units, "venued.service.d/edge.conf"))
    for unit in ("gikvand-edge@C1.service", "venued.service"):
        ran = subprocess.run(["systemd-analyze", "verify", "--man=no", "--recursive-errors=no",
                              f"--root={os.path.abspath('root')}", unit], capture_output=True, text=True)
        expect((unit, ran.returncode, ran.stdout, ran.stderr), (unit, 0, "", ""))
    ran = subprocess.run(["systemd-analyze", "security", "--offline=true", f"--threshold={EXPOSED}", "--no-pager",
                          os.path.join(FOLDER, UNIT)], capture_output=True, text=True)
    if ran.returncode:
        raise Trouble(f"the exposure of {UNIT}: {ran.stdout.splitlines()[-1:]} {ran.stderr}")
    os.makedirs("root/etc", exist_ok=True)
    ran = subprocess.run(["systemd-sysusers", f"--root={os.path.abspath('root')}",
                          os.path.join(FOLDER, "gikvand-edge.sysusers")], capture_output=True, text=True)
    expect((ran.returncode, ran.stderr if ran.returncode else ""), (0, ""))
    with open("root/etc/passwd", encoding="ascii") as file:
        users = [line.split(":") for line in file if line.startswith("gikvand-edge-")]
    expect({line[0] for line in users}, {f"gikvand-edge-C{k}" for k in range(1, 9)})
    expect({line[6] for line in users}, {"/usr/sbin/nologin\n"})


TESTS = [test_unit, test_unit_by_systemd]
