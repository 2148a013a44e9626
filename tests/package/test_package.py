"""Tests of scripts/package and of what it packs: services, and the programs as they are installed. Its man pages, completion and
scripts have modules of their own beside this one.

The package is made twice, unpacked, and a venue is started from it. With `-m long` a small Debian is made and booted, as root and in a
minute or more: the package is installed in it, serves there, is upgraded, goes back, and is removed; and so are the two images of
contrib/container.
"""
import fnmatch
import gzip
import os
import re
import shlex
import shutil
import subprocess
import sys
import tempfile

import pytest

import installed
import test_edge_package
from checks import ROOT, contents, put_text, ran, text_of
from packed import SCRIPT, VENUE, entries, expect_libraries, expect_sums, packing, put_packer, version
from test_pages import PAGES, packed_page
from venues import EVENTS, PATIENCE, REPLAY, VENUED, started

pytestmark = [pytest.mark.quick, pytest.mark.usefixtures("programs"), pytest.mark.xdist_group("package")]

UNITS = ("venued.service", "venued@.service")
OF_WATCH = ("gikvand-watch.service", "gikvand-watch.timer", "gikvand-watch-all.service", "gikvand-watch-all.timer")
PACKAGES = ("gikvand", "gikvand-edge", "gikvand-feed")
OF_A_STANDBY = ("venued-fence-ceph.service", "venued-let-go@.path", "venued-let-go@.service")
PROGRAMS = ("venued", "venue-replay", "venue-events")
RECIPE = "contrib/container/Containerfile"
LATE = "4000000000"  # In seconds: 2 October 2096.
EXPOSED = 15  # The greatest exposure of a service that is taken, in tenths, as systemd-analyze reckons it.
made, unpacked = VENUE.made, VENUE.unpacked


def file_name() -> str:
    """The package's."""
    return f"gikvand_{version()}_amd64.deb"


@packing
def test_files_of_the_package() -> None:
    """What is in it, and with which rights; and that its programs are stripped."""
    found = entries(unpacked())
    assert set(found.values()) == {"drwxr-xr-x", "-rwxr-xr-x", "-rw-r--r--", "lrwxrwxrwx"}
    programs = {it for it in found if found[it] == "-rwxr-xr-x"}
    assert programs == {*(f"usr/bin/{it}" for it in PROGRAMS), "usr/share/gikvand/scripts/gikvand",
                        *(f"usr/share/gikvand/standby/{it}" for it in ("before-start", "fence-ceph", "let-go", "serve",
                                                                       "volume-settings"))}
    modules = [it for it in os.listdir(os.path.join(ROOT, "tools/gikvand")) if it.endswith((".py", ".html"))]
    wanted = ["usr/bin/gikvand", *(f"usr/share/man/man{it[-1]}/{it}.gz" for it in PAGES),
              *(f"usr/lib/systemd/system/{it}" for it in (*UNITS, *OF_A_STANDBY, *OF_WATCH)), "usr/share/gikvand/standby/venued@.conf",
              "usr/share/gikvand/watch/rules.yml", *(f"usr/share/doc/gikvand/examples/{it}" for it in ("members.nft", "sshd.conf")), *(f"usr/share/doc/gikvand/images/{it}.svg" for it in ("members", "trips")),
              "usr/share/gikvand/standby/ceph-settings",
              "usr/lib/sysusers.d/venued.conf", "usr/share/doc/gikvand/README.Debian", "usr/share/doc/gikvand/copyright", "usr/share/doc/gikvand/changelog.gz",
              *(f"usr/share/bash-completion/completions/{it}" for it in ("gikvand", *PROGRAMS)),
              *(f"usr/share/gikvand/tools/gikvand/{it}" for it in modules)]
    assert [it for it in wanted if it not in found] == []
    assert [it for it in found if "__pycache__" in it] == []
    for it in PAGES:
        assert ran("gzip", "-dc", os.path.join(unpacked(), f"usr/share/man/man{it[-1]}/{it}.gz"))[1] == packed_page(it)
    for name in PROGRAMS:
        assert ".symtab" not in ran("readelf", "-S", os.path.join(unpacked(), "usr/bin", name))[1]


def test_the_page_to_begin_with() -> None:
    """Each page that it names is in a package, and has the heading that stands in front of its name."""
    text = text_of("contrib/debian/gikvand.README.Debian")
    packed = {page for it in PACKAGES for page in text_of(f"contrib/debian/{it}.docs").split()}
    assert {f"docs/{it}" for it in re.findall(r"[A-Z]+\.md", text)} <= packed
    named = re.findall(r'"([^"]+)" in ([A-Z]+\.md)', text)
    assert text.count('"') == 2 * len(named) and len(named) >= 6
    assert [it for it in named if not re.search(rf"^#+ {it[0]}$", text_of(f"docs/{it[1]}"), re.MULTILINE)] == []
    assert max(map(len, text.splitlines())) <= 80


@packing
def test_archive_of_the_package() -> None:
    """Its name and version, whose its files are, and its sums."""
    assert ran("dpkg-deb", "-f", made(), "Version") == (0, f"{version()}\n", "")
    assert (os.path.basename(made()), version().split("+")[0]) == (file_name(), text_of("VERSION").strip())
    expect_sums(VENUE)


@packing
def test_needs_of_the_package() -> None:
    """Each library that a program is linked with has its package, and the C library is as new as the programs ask."""
    *libraries, python, users = VENUE.needed()
    assert (python, users) == ("python3 (>= 3.10)", "systemd | systemd-standalone-sysusers | systemd-sysusers")
    expect_libraries(libraries, VENUED, REPLAY, EVENTS)


@packing
def test_the_changelog() -> None:
    """It has each release of CHANGELOG.md with its number and its day, and each change."""
    with gzip.open(os.path.join(unpacked(), "usr/share/doc/gikvand/changelog.gz"), "rt", encoding="utf-8") as file:
        text = file.read()
    own = text_of("CHANGELOG.md")
    released = re.findall(r"^## \[(\d[^\]]*)\]", own, re.MULTILINE)
    assert re.findall(r"^gikvand \((\S+)\)", text, re.MULTILINE)[-len(released):] == released
    assert re.findall(r"^gikvand \((\S+)\)", text, re.MULTILINE)[0] == version()
    assert text.count("\n  * ") == len(re.findall("^- ", own, re.MULTILINE))


@packing
def test_the_same_bytes() -> None:
    """The same tree and programs give the same package, whatever umask, folder, time zone and number of files are there."""
    with tempfile.TemporaryDirectory(prefix="again-") as folder:
        words = 'umask 077; cd /; exec "$0" --output "$1"'
        names = {it: os.path.abspath(path) for it, path in (("VENUED", VENUED), ("VENUE_REPLAY", REPLAY), ("VENUE_EVENTS", EVENTS))}
        assert ran("bash", "-c", words, SCRIPT, folder, TZ="Asia/Tokyo", LC_ALL="C", **names)[::2] == (0, "")
        assert contents(os.path.join(folder, os.path.basename(made()))) == contents(made())
        status, out, err = ran(SCRIPT, "--output", folder, "--version", "99.1", SOURCE_DATE_EPOCH=LATE)
        assert (status, os.path.basename(out.strip()), err) == (0, "gikvand_99.1_amd64.deb", "")
        assert {line.split()[3] for line in ran("dpkg-deb", "-c", out.strip(), TZ="UTC")[1].splitlines()} == {"2096-10-02"}


@packing
def test_words_of_the_script() -> None:
    bare, packer = dict[str, str](), {"PATH": put_packer("packer", f"echo packed >{file_name()}; mkdir -p debian/gikvand\n")}
    for place, rule in (("ends", "echo why >&2; exit 3"), ("lacks", "dh_nothing")):
        put_text(f"{place}/make", f"#!/bin/sh\necho {shlex.quote(rule)}\necho exit 0\n", 0o755)
    of_rules = "package: contrib/debian/rules: perl ended with status"
    os.mkdir("path")
    os.symlink(sys.executable, "path/python3")
    with tempfile.TemporaryDirectory(prefix="words-") as folder:
        for words, environment, line in (
                (("--output", "none"), packer, f"package: none/{file_name()} can't be written: No such file or directory"),
                (("--tree", "."), packer, "package: .: File exists"),
                ((), {"PATH": f"{os.path.abspath('ends')}:{os.environ['PATH']}"}, f"{of_rules} 1: why"),
                ((), {"PATH": f"{os.path.abspath('lacks')}:{os.environ['PATH']}"}, f"{of_rules} 1: dh_nothing isn't there"),
                (("--version", "x"), bare, None), (("x",), bare, None), (("--all", "--tree", "new"), bare, None),
                ((), {"SOURCE_DATE_EPOCH": "now"}, "package: SOURCE_DATE_EPOCH is a number of seconds, and not 'now'"),
                ((), {"VENUED": "none"}, "package: none isn't built: scripts/build proves and builds it"),
                ((), {"VENUED": "/bin/sh", "VENUE_REPLAY": SCRIPT}, f"package: {SCRIPT} is no program of this machine"),
                ((), {"PATH": os.path.abspath("path")}, "package: dh_builddeb isn't there: Debian's package debhelper has it")):
            status, out, err = ran(SCRIPT, *words, folder=folder, **environment)
            assert (words, status, out, err == f"{line}\n" if line else bool(err)) == (words, 2, "", True)
        assert os.listdir(folder) == []


@packing
@pytest.mark.debian("lintian")
def test_lint_of_the_package() -> None:
    status, out, _ = ran("lintian", "--fail-on", "error,warning", made(), LC_ALL="C.UTF-8")
    assert (status, out) == (0, "")


@packing
def test_a_venue_of_the_package() -> None:
    """A venue from the unpacked package: an order traded, its journal looked at, the demo, and who is there."""
    binaries = os.path.join(unpacked(), "usr/bin")
    bare = {"PATH": f"{binaries}:/usr/bin:/bin", "PYTHONDONTWRITEBYTECODE": "1"}
    def gikvand(*words: object) -> tuple[int, str, str]:
        it = subprocess.run(["gikvand", *map(str, words)], env=bare, cwd=folder, capture_output=True, text=True, timeout=PATIENCE,
                            stdin=subprocess.DEVNULL)
        return it.returncode, it.stdout, it.stderr
    with tempfile.TemporaryDirectory(prefix="venue-") as folder:
        journal = os.path.join(folder, "day.journal")
        venue = started(journal, 2, program=os.path.join(binaries, "venued"))
        trade = ["trade", "--port", venue.port, "--journal", journal, "--symbols", "ABC"]
        assert gikvand(*trade, "sell", 5, "ABC", 50)[::2] == (0, "")
        assert gikvand(*trade, "--member", 2, "buy", 5, "ABC", 50)[1].splitlines()[-1:] == (
            ["order 2 filled 5 at 50, nothing left"])
        assert venue.stop() == (2, 4)
        assert gikvand("verify", journal)[1].splitlines()[-1:] == [f"{journal}: nothing is wrong"]
        assert gikvand("reports", journal, "C2", "--symbols", "ABC")[1].count("\n") == 2
        assert ran("venue-replay", journal, "book", "ABC", **bare) == (0, "commands 2 outputs 4\n", "")
        assert ran("venue-events", journal, "once", "ABC", **bare)[1].splitlines()[-1:] == ["level ABC 2 50 0 0"]
        assert gikvand("demo")[::2] == (0, "")
        assert gikvand("--version") == (0, f"gikvand {text_of('VERSION')}", "")
        with open(journal, "wb"):
            pass
        where = os.path.join(unpacked(), "usr/share/doc/gikvand/OPERATING.md")
        assert gikvand("reports", journal, "C2", "--symbols", "ABC") == (
            2, "", f"gikvand reports: the journal {journal} can't be read: venue-events: journal fault 43 ({where} says what that means)\n")
        assert os.path.exists(where)


def section_of(unit: str, head: str) -> list[str]:
    """The lines of a unit's section that say something."""
    text = text_of(f"contrib/{unit}").partition(f"[{head}]\n")[2].partition("\n[")[0]
    return [line for line in text.splitlines() if line and not line.startswith("#")]


def test_settings_of_the_services() -> None:
    """Both services are the same but for their places. What starts by itself is what a signal ended, with no limit of starts."""
    one, several = ([section_of(unit, head) for head in ("Unit", "Service", "Install")] for unit in UNITS)
    assert several == [[of_several(line) for line in lines] for lines in one]
    for line in ("StartLimitIntervalSec=0", "Restart=on-abnormal", "User=venued", "UMask=0077", "CPUWeight=1000"):
        assert (line, any(line in lines for lines in one)) == (line, True)
    assert "2/INVALIDARGUMENT" in text_of("contrib/venued.service")


def of_several(line: str) -> str:
    """A line of the one service as it is among several, each with places of its own."""
    if line.startswith(("Description=", "StateDirectory=")):
        return f"{line}{' ' if line.startswith('D') else '/'}%i"
    return line.replace("/var/lib/venued", "/var/lib/venued/%i").replace("/etc/venued.conf", "/etc/venued/%i.conf")


@packing
@pytest.mark.debian("systemd-analyze")
def test_services() -> None:
    """systemd takes both services of the package, and hardly any of what it could keep from them is open to them."""
    with tempfile.TemporaryDirectory(prefix="services-") as folder:
        shutil.copytree(unpacked(), folder, symlinks=True, dirs_exist_ok=True)
        os.makedirs(os.path.join(folder, "bin"))
        shutil.copy("/bin/true", os.path.join(folder, "bin/sh"))
        units = os.path.join(folder, "usr/lib/systemd/system")
        standby = os.path.join(folder, "etc/systemd/system/venued@standby.service.d")
        os.makedirs(standby)
        shutil.copy(os.path.join(folder, "usr/share/gikvand/standby/venued@.conf"), standby)
        for unit in ("venued.service", "venued@one.service", "venued@standby.service", "venued-let-go@standby.path",
                     "venued-let-go@standby.service", "venued-fence-ceph.service", *OF_WATCH):
            assert ran("systemd-analyze", "verify", "--man=no", "--recursive-errors=no", f"--root={folder}", unit) == (0, "", "")
        for unit in UNITS:
            status, out, err = ran("systemd-analyze", "security", "--offline=true", f"--threshold={EXPOSED}", "--no-pager",
                                   os.path.join(units, unit))
            assert (unit, status, out.splitlines()[-1:] if status else [], err) == (unit, 0, [], "")


@packing
@pytest.mark.debian("systemd-sysusers")
def test_the_user_of_the_services() -> None:
    """The user that the package makes may not log in."""
    with tempfile.TemporaryDirectory(prefix="user-") as folder:
        os.mkdir(os.path.join(folder, "etc"))
        status, _, err = ran("systemd-sysusers", f"--root={folder}", os.path.join(unpacked(), "usr/lib/sysusers.d/venued.conf"))
        assert (status, err if status else "") == (0, "")
        with open(os.path.join(folder, "etc/passwd"), encoding="ascii") as file:
            assert [line.split(":")[5:] for line in file if line.startswith("venued:")] == (
                [["/var/lib/venued", "/usr/sbin/nologin\n"]])


def test_the_recipe_of_containers() -> None:
    """It takes the package by its name, and starts the venue in one of its images, and an edge in the other."""
    for target, unit in (("venue", "venued"), ("edge", "gikvand-edge@C1")):
        steps = installed.steps_of(text_of(RECIPE), target)
        copied = [it for instruction, words in steps if instruction == "COPY" for it in words.split()[:-1]]
        assert [fnmatch.fnmatch(file_name(), it) for it in copied] == [True, False]
        runs = [words for instruction, words in steps if instruction == "RUN"]
        assert all(f"/root/{it}" in runs[0] for it in copied)
        assert [it.split("&& ")[-1] for it in runs[1:]] == [f"systemctl enable {unit}"]


@packing
@pytest.mark.long
@pytest.mark.root
@pytest.mark.debian("mmdebstrap", "ip", "pgrep")
@pytest.mark.skipif(os.geteuid() != 0, reason="it is for root, who may make and boot a small Debian")
def test_life_in_a_debian() -> None:
    """The packages in a small Debian: installed, served from, upgraded to later ones and back, and removed."""
    status, out, err = ran(SCRIPT, "--output", os.path.dirname(made()), "--version", "99.1")
    assert (status, err) == (0, "")
    installed.lives_in_a_debian(made(), out.strip(), test_edge_package.older_and_newer())


@packing
@test_edge_package.of_the_edge
@pytest.mark.long
@pytest.mark.root
@pytest.mark.debian("mmdebstrap", "ip", "pgrep")
@pytest.mark.skipif(os.geteuid() != 0, reason="it is for root, who may make and boot a small Debian")
def test_life_in_containers() -> None:
    """The images of contrib/container, made as their recipe says and booted as containers would be: the venue, and the edge beside it."""
    with tempfile.TemporaryDirectory(prefix="packages-") as folder:
        for it in (made(), test_edge_package.made()):
            shutil.copy(it, folder)
        installed.lives_in_two_containers(text_of(RECIPE), folder)
