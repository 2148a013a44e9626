"""Tests of the package gikvand-edge: its files, man pages, settings, services, scripts and the completion of its words. Those that
need the edge are skipped where edge/setup hasn't built it."""
import functools
import glob
import os
import re
import shutil
import stat
import subprocess
import tempfile
from collections.abc import Callable
from unittest import mock

import pytest

import test_debian
from checks import EDGE, ROOT, can_have_places, contents, is_edge_built, put_text, ran, text_of
from gikvand.words import sure
from mdoc import Page
from packed import EDGES, SCRIPT, entries, expect_libraries, expect_sums, packing
from script_modules import loaded
from test_completion import completed
from test_pages import PAGES, plain

pytestmark = [pytest.mark.quick, pytest.mark.edge]

COMMANDS, SETTINGS = "gikvand-edge.8", "gikvand-edge.cfg.5"
WORDS = "| words | what they do |"
DROP_IN = "contrib/edge/venued-edge.conf"
MEMBERS = [f"C{number}" for number in range(1, 9)]
UNITS, DOC = "usr/lib/systemd/system", "usr/share/doc/gikvand-edge"
DICTIONARY, EXAMPLE = "usr/share/gikvand-edge/FIX44-edge.xml", "contrib/edge/examples/C1.cfg"
RIGHT = "the settings are right, as root (uid 0) reads them"
LINK = re.compile(r"\[([^\]]*)\]\(([^)#:\s]*)(?:#[^)]*)?\)")
EXPOSED = 15  # The greatest exposure of the service that is taken, in tenths, as systemd-analyze reckons it.
NO_FINDING = re.compile(r".*STYLE: referenced manual not found: Xr ({})\b.*".format(
    "|".join(re.escape(" ".join(it.rsplit(".", 1))) for it in (*PAGES, COMMANDS, SETTINGS))))
of_the_edge = pytest.mark.skipif(not is_edge_built(), reason=f"{os.path.relpath(EDGE)} isn't built (edge/setup builds it)")
made, unpacked = EDGES.made, EDGES.unpacked


def of_the_package(test: Callable[..., None]) -> Callable[..., None]:
    """Marks a test of the package: it takes the edge and debhelper, and one process makes the package for all of them."""
    return of_the_edge(packing(pytest.mark.xdist_group("edge_package")(test)))


def older_and_newer() -> tuple[str, ...]:
    """The package and one of a later version, or none where the edge isn't built, which has a line."""
    if not is_edge_built():
        print("package: no edge is installed: it isn't built (edge/setup builds it)")
        return ()
    status, out, err = ran(SCRIPT, "--edge", "--output", os.path.dirname(made()), "--version", "99.1")
    assert (status, err) == (0, "")
    return made(), out.strip()


def packed_page(name: str) -> str:
    """The text of a page as the package has it."""
    return loaded("scripts/package").man_page(name)


@functools.cache
def page(name: str) -> Page:
    return Page(name, packed_page(name))


def rows_of(head: str, behind: str = "") -> list[list[str]]:
    """The rows of the first table of EDGE.md whose first line this is, behind this text."""
    lines = text_of("docs/EDGE.md").partition(behind or "\n")[2].split(f"\n{head}\n")[1].split("\n\n")[0].splitlines()[1:]
    return [[cell.strip() for cell in re.split(r"(?<= )\|(?= )", line[1:-1])] for line in lines]


@of_the_edge
def test_edge_usage() -> None:
    """The forms of the command line are those that the program prints, and it tells the project's version."""
    lines = "\n       ".join(page(COMMANDS).synopsis())
    for status, words in ((1, ()), (1, ("--help", "x")), (1, ("--version", "x")), (1, ("--check",)), (1, ("--all", "--version")), (1, ("x", "y")),
                          (2, ("stop",)), (2, ("halt", "ABC")), (2, ("numbers", "C1", "5", "edge.cfg"))):
        assert (words, *ran(EDGE, *words)) == (words, status, "", f"usage: {lines}\n")
    assert f"usage: {page(COMMANDS).synopsis()[0]} ..." in page(COMMANDS).items("DIAGNOSTICS")
    assert ran(EDGE, "--help")[1].startswith(f"usage: {lines}\n\n")
    assert ran(EDGE, "--version") == (0, f"gikvand-edge {text_of('VERSION')}", "")
    with open("/dev/full", "w", encoding="ascii") as full:
        assert subprocess.run([EDGE, "--version"], stdout=full).returncode == 1


def test_edge_words() -> None:
    """Each word of EDGE.md's table is told as it stands there, and no other is."""
    said = {head.split()[0]: plain(what) for head, what in page(COMMANDS).items("DESCRIPTION").items()}
    wanted = {}
    for words, what in rows_of(WORDS):
        option = re.search(r"--[a-z]+", words)
        if " stop " not in words:
            wanted[option[0] if option else "SETTINGS"] = plain(what)
    assert {name: what if what in said.get(name, "") else said.get(name) for name, what in wanted.items()} == wanted
    assert sorted(said) == sorted(wanted)


def test_edge_switch() -> None:
    """And each word for processes that run."""
    said = page(COMMANDS).items("SWITCH")
    rows = [(sure(re.search(r"gikvand-edge (\w+ \w+)", words))[1], what) for words, what in rows_of(WORDS, "\n## An operator's switch\n")]
    assert list(said) == [words.replace("C1", "Ck").replace("ABC", "SYMBOL") for words, _ in rows]
    for (words, what), told in zip(rows, said.values()):
        begun = plain(what.partition(", as [")[0])
        assert (words, plain(told)[:len(begun)]) == (words, begun)


@of_the_edge
def test_edge_statuses() -> None:
    """The program ends with the statuses of its page, and no other one stands there."""
    assert list(page(COMMANDS).items("EXIT STATUS")) == ["0", "1", "2"]
    with tempfile.TemporaryDirectory(prefix="statuses-") as folder:
        assert ran(EDGE, "none.cfg", folder=folder) == (1, "", "gikvand-edge: none.cfg: can't be read\n")
        assert ran(EDGE, "--check", "none.cfg", folder=folder) == (1, "", "gikvand-edge: none.cfg: can't be read\n")
    assert "gikvand-edge: NAME: ..." in page(COMMANDS).items("DIAGNOSTICS")


def known_names() -> list[str]:
    """The edge's own settings, as the program knows them, in capitals."""
    own = text_of("edge/src/setting_names.h").partition("// The edge's own.")[2]
    return re.findall(r'"([A-Z]+)"', own)


def test_edge_settings() -> None:
    """The page has each setting that the program knows as EDGE.md's table has it, and no other one."""
    rows = rows_of("| setting | value | where it is left out |")
    wanted = {", ".join(re.findall(r"`(\w+)`", names)): (plain(value), plain(left_out)) for names, value, left_out in rows}
    said = page(SETTINGS).items("DESCRIPTION")
    assert list(said) == list(wanted)
    for names, (value, left_out) in wanted.items():
        told = plain(said[names].replace("( ", "("))
        assert (names, told.startswith(value), told.endswith(left_out)) == (names, True, True)
        assert (names, "it is needed" in told or "where it is left out" in told) == (names, True)
    # (SyncNames and VenueReplay are known so that they are refused in words, and the library knows the port too.)
    own = {*known_names(), "SOCKETACCEPTPORT"} - {"SYNCNAMES", "VENUEREPLAY"}
    assert sorted(it.upper() for names in wanted for it in names.split(", ")) == sorted(own)
    for name, text in (("settings.cpp", text_of("edge/src/settings.cpp")), ("EDGE.md", text_of("docs/EDGE.md")),
                       *((name, packed_page(name)) for name in (COMMANDS, SETTINGS))):
        assert (name, f"/{DICTIONARY}" in text) == (name, True)


def text_of_limits() -> str:
    """The source that reads the limits, with each limit's name in the place of the call that gives it."""
    text, header = text_of("edge/src/order_limits.cpp"), text_of("edge/src/order_limits.h")
    constants = dict(re.findall(r'constexpr const char \*(\w+) = "(\w+)";', header))
    limits = re.findall(r"\w+", sure(re.search(r"enum class Limit {(.*)}", header))[1])
    names = [constants.get(it, it) for it in re.findall(r"\w+", sure(re.search(r"NAMES\[\] = {([^}]*)}", text))[1])]
    assert len(names) == len(limits)
    return re.sub(r"nameOf\(Limit::(\w+)\)", lambda limit: f'"{dict(zip(limits, names))[limit[1]]}"', text)


def test_edge_defaults() -> None:
    """Where the table has a number for a setting that is left out, it is the program's."""
    told = {sure(re.search(r"`(\w+)`", names))[1]: left_out for names, _, left_out in rows_of("| setting | value | where it is left out |")}
    found = re.findall(r'numberOr\(from, "(\w+)", .*, ([0-9L< ]+)\)', text_of("edge/src/settings.cpp") + text_of_limits())
    assert len(found) == sum(bool(re.fullmatch(r"\d+|no bound", it)) for it in told.values())
    for name, number in found:
        first, _, by = number.replace("L", "").partition("<<")
        assert (name, told[name]) == (name, str(int(first) << int(by or 0)) if int(first) else "no bound")


def put_example(folder: str, **others: str) -> str:
    """Writes the package's settings of C1 for this folder, with other values of some: the path."""
    text = text_of(EXAMPLE).replace("/var/lib/gikvand-edge/C1", folder)
    for name, it in {"VenueJournal": "/bin/true", "VenueEvents": "/bin/true", "PasswordFile": f"{folder}/passwords", **others}.items():
        text, count = re.subn(rf"^#?{name}=.*", f"{name}={it}", text, flags=re.MULTILINE)
        assert (name, count) == (name, 1)
    put_text(os.path.join(folder, "passwords"), "desk-a:secret\n", stat.S_IRUSR | stat.S_IWUSR)
    return put_text(os.path.join(folder, "C1.cfg"), text)


@of_the_package
def test_edge_example() -> None:
    """The example of a member's settings, with that of its stunnel, is right as it stands; the dictionary is the installed one."""
    with tempfile.TemporaryDirectory(prefix="example-") as folder:
        stunnel = put_text(os.path.join(folder, "gikvand-C1.conf"), text_of("edge/stunnel/member.conf").replace("/etc/gikvand-edge", folder))
        key = ["-nodes", "-newkey", "rsa:2048", "-keyout", os.path.join(folder, "key.pem"), "-subj", "/CN=C1"]
        assert ran("openssl", "req", "-x509", *key, "-out", os.path.join(folder, "C1.pem"))[0] == 0
        share = os.path.join(unpacked(), "usr/share")
        places = 'mount --bind "$0" /usr/share && exec "$@"'
        if ran("unshare", "-rm", "sh", "-c", places, share, "true")[0]:
            print("package: the example isn't tried: no folder of the system can be another one here")
            return
        right = (0, f"{RIGHT}\n", "")
        for others, wanted in ((dict[str, str](), right), ({"StunnelConfig": stunnel}, right),
                               ({"Symbols": "ABC"}, (1, "", "gikvand-edge: Symbols: isn't of SYMBOL:STEP, as ABC:0.01: ABC\n"))):
            said = ran("unshare", "-rm", "sh", "-c", places, share, EDGE, "--check", put_example(folder, **others))
            assert (others, *said) == (others, *wanted)
        with tempfile.TemporaryDirectory(prefix="bare-") as bare:
            said = ran("unshare", "-rm", "sh", "-c", places, bare, EDGE, "--check", put_example(folder))
            assert said == (1, "", f"gikvand-edge: DataDictionary: can't be used: /{DICTIONARY}\n")


def checked(*words: str, **environment: str) -> tuple[int, str, str]:
    """What --check comes to where the package's dictionary is, for the user who may name himself root."""
    folder = tempfile.mkdtemp(prefix="share-")
    try:
        os.mkdir(os.path.join(folder, "gikvand-edge"))
        shutil.copy(os.path.join(ROOT, "edge/FIX44-edge.xml"), os.path.join(folder, "gikvand-edge"))
        places = 'mount --bind "$0" /usr/share && exec "$@"'
        return ran("unshare", "-rm", "sh", "-c", places, folder, EDGE, "--check", *words, **environment)
    finally:
        shutil.rmtree(folder)


@of_the_edge
def test_edge_example_hours() -> None:
    """By the example a member may log on at any hour of any day; by the two days that stand there as words it is a week."""
    clocks = glob.glob("/usr/lib/*/faketime/libfaketime.so.1")
    if not clocks or not can_have_places():
        print("package: the example's hours aren't tried: that needs faketime, and another folder in the system's place")
        return
    with tempfile.TemporaryDirectory(prefix="hours-") as folder:
        week = {"StartDay": "Monday", "EndDay": "Saturday"}
        for days in (dict[str, str](), week):
            path, said = put_example(folder, **days), {}
            for day in range(1, 8):  # (the first of these is a Tuesday)
                for hour in ("00:00:00", "12:00:00", "23:59:50"):
                    status, out, err = checked(path, LD_PRELOAD=clocks[0], FAKETIME=f"2030-01-0{day} {hour}", TZ="UTC")
                    assert (day, hour, status, err) == (day, hour, 0, "")
                    said[day, hour] = out.splitlines()[1:]
            weekend = {at: ["C1: outside its hours until 20300107-00:00:00"] for at in said if days and at[0] in (5, 6)}
            assert said == {at: weekend.get(at, []) for at in said}


@of_the_edge
def test_edge_second_member() -> None:
    """The lines of EDGE.md that make a second member's settings make right ones, which share nothing with those of the first."""
    if not can_have_places():
        return
    block, = re.findall(r"\n    cd /etc/gikvand-edge\n((?:    [^\n]*\n)*?)    gikvand-edge --check ", text_of("docs/EDGE.md"))
    with tempfile.TemporaryDirectory(prefix="second-") as folder:
        first = put_example(folder, PasswordFile=f"{folder}/C1.passwords", EdgePath=f"{folder}/C1/edge", FileLogPath=f"{folder}/C1/log")
        os.rename(os.path.join(folder, "passwords"), os.path.join(folder, "C1.passwords"))
        status, _, err = ran("sh", "-ec", block.replace(" -o gikvand-edge-C2", ""), folder=folder)
        assert (status, err) == (0, "")
        for path in (first, os.path.join(folder, "C2.cfg")):
            assert (path, *checked(path)) == (path, 0, f"{RIGHT}\n", "")
        texts = [dict(re.findall(r"^(\w+)=(.*)$", text_of(path), re.MULTILINE)) for path in (first, os.path.join(folder, "C2.cfg"))]
        other = {name for name, it in texts[0].items() if texts[1][name] != it}
        assert other == {"TargetCompID", "EdgePath", "FileLogPath", "Member", "SocketAcceptPort", "Username", "PasswordFile"}


def without_links(text: str) -> str:
    """A page's words alone."""
    return LINK.sub(r"\1", text).replace(" of the sources", "")


def test_edge_links_of_the_pages() -> None:
    """Each link of a page that the packages install leads to a file of theirs, and each page has the words that it has here."""
    it = loaded("scripts/package")
    with tempfile.TemporaryDirectory(prefix="pages-") as folder:
        for name, place in it.pages().items():
            put_text(os.path.join(folder, place), it.installed(name, place))
        for place in ("changelog.gz", *(f"images/{os.path.basename(picture)}" for picture in it.PICTURES)):
            put_text(os.path.join(folder, "usr/share/doc/gikvand", place), "")
        pages = {place: name for name, place in it.pages().items() if name.endswith(".md")}
        assert {os.path.basename(place) for place in pages} >= {"EDGE.md", "OPERATING.md", "MEASURED.md", "FAILOVER.md", "FEED.md"}
        count = 0
        for place, name in pages.items():
            text = contents(os.path.join(folder, place)).decode()
            assert (place, without_links(text)) == (place, without_links(text_of(name)))
            targets = [link[1] for link in LINK.findall(text) if link[1]]
            count += len(targets)
            assert (place, [to for to in targets if not os.path.exists(os.path.join(folder, os.path.dirname(place), to))]) == (place, [])
        assert count > 50
        for link in ("](../gikvand/MEASURED.md#the-edge)", "](../gikvand/OPERATING.md#install)"):
            assert (link, link in contents(os.path.join(folder, DOC, "EDGE.md")).decode()) == (link, True)


@of_the_package
def test_files_of_the_edge_package() -> None:
    """What is in it, and with which rights; and that its program is stripped."""
    found = entries(unpacked())
    assert set(found.values()) == {"drwxr-xr-x", "-rwxr-xr-x", "-rw-r--r--", "lrwxrwxrwx"}
    assert [it for it in found if found[it] == "-rwxr-xr-x"] == ["usr/bin/gikvand-edge"]
    files = {it for it in found if found[it][0] != "d"}
    assert files == {"usr/bin/gikvand-edge", f"{UNITS}/gikvand-edge@.service", "usr/lib/sysusers.d/gikvand-edge.conf",
                     *(f"{UNITS}/{it}.service.d/gikvand-edge.conf" for it in ("venued", "venued@")), DICTIONARY,
                     *(f"usr/share/man/man{it[-1]}/{it}.gz" for it in (COMMANDS, SETTINGS)),
                     "usr/share/bash-completion/completions/gikvand-edge", "usr/share/doc/gikvand/EDGE.md",
                     *(f"{DOC}/{it}" for it in ("EDGE.md", "MARKET.md", "copyright", "changelog.gz", "examples/C1.cfg", "examples/two-venues.cfg",
                                                "examples/gikvand-C1.conf")),
                     *(f"{DOC}/examples/{it}" for it in ("member.py", "member.go", "Member.java", "member.cpp", "quickfix.cfg"))}
    assert found["etc/gikvand-edge"] == "drwxr-xr-x"
    for name, place in (("edge/FIX44-edge.xml", DICTIONARY), (EXAMPLE, f"{DOC}/examples/C1.cfg"), ("LICENSE", f"{DOC}/copyright")):
        assert (name, contents(os.path.join(unpacked(), place)) == contents(os.path.join(ROOT, name))) == (name, True)
    program = os.path.join(unpacked(), "usr/bin/gikvand-edge")
    assert ".symtab" not in ran("readelf", "-S", program)[1]
    assert ran(program, "--version") == (0, f"gikvand-edge {text_of('VERSION')}", "")
    for name in (COMMANDS, SETTINGS):
        assert ran("gzip", "-dc", os.path.join(unpacked(), f"usr/share/man/man{name[-1]}/{name}.gz"))[1] == packed_page(name)


@of_the_package
def test_archive_of_the_edge_package() -> None:
    """Its name and version, whose its files are, and its sums."""
    version = field("Version")
    assert version.split("+")[0] == text_of("VERSION").strip()
    assert os.path.basename(made()) == f"gikvand-edge_{version}_amd64.deb"
    expect_sums(EDGES)


def field(name: str) -> str:
    return ran("dpkg-deb", "-f", made(), name)[1].strip()


@of_the_package
def test_needs_of_the_edge_package() -> None:
    """It comes with the venue's package of its version, and each library that its program is linked with has its package."""
    venue, *libraries, users = EDGES.needed()
    assert (venue, users) == (f"gikvand (= {field('Version')})", "systemd | systemd-standalone-sysusers | systemd-sysusers")
    assert field("Recommends") == "stunnel4"
    expect_libraries(libraries, EDGE)


@of_the_package
def test_changelog_of_the_edge_package() -> None:
    """It is the project's: the package's version stands first."""
    assert ran("gzip", "-dc", os.path.join(unpacked(), f"{DOC}/changelog.gz"))[1].splitlines()[0] == (
        f"gikvand ({field('Version')}) unstable; urgency=medium")
    assert field("Source") == "gikvand"


@of_the_package
def test_same_bytes_of_the_edge_package() -> None:
    """The same tree and program give the same package, whatever umask, folder and time zone are there."""
    with tempfile.TemporaryDirectory(prefix="again-") as folder:
        words = 'umask 077; cd /; exec "$0" --edge --output "$1"'
        assert ran("bash", "-c", words, SCRIPT, folder, TZ="Asia/Tokyo", LC_ALL="C", GIKVAND_EDGE=EDGE)[::2] == (0, "")
        assert contents(os.path.join(folder, os.path.basename(made()))) == contents(made())
        status, out, err = ran(SCRIPT, "--edge", "--output", folder, "--version", "99.1", SOURCE_DATE_EPOCH="4000000000")
        assert (status, os.path.basename(out.strip()), err) == (0, "gikvand-edge_99.1_amd64.deb", "")
        assert {line.split()[3] for line in ran("dpkg-deb", "-c", out.strip(), TZ="UTC")[1].splitlines()} == {"2096-10-02"}
        assert ran("dpkg-deb", "-f", out.strip(), "Depends")[1].split(",")[0] == "gikvand (= 99.1)"


def test_unbuilt_edge() -> None:
    """Where the edge isn't built there is no package of it, and a line that says how it is."""
    with tempfile.TemporaryDirectory(prefix="unbuilt-") as folder:
        status, out, err = ran(SCRIPT, "--edge", folder=folder, GIKVAND_EDGE="none")
        assert (status, out, err) == (2, "", "package: none isn't built: edge/setup builds it\n")
        assert os.listdir(folder) == []


@pytest.mark.debian("mandoc")
def test_lint_of_the_edge_pages() -> None:
    """mandoc has nothing to say of them, but that the other ones aren't among the system's."""
    for name in (COMMANDS, SETTINGS):
        _, out, err = ran("mandoc", "-Tlint", given=packed_page(name))
        assert (name, [line for line in out.splitlines() if not NO_FINDING.fullmatch(line)], err) == (name, [], "")


@of_the_package
@pytest.mark.debian("lintian")
def test_lint_of_the_edge_package() -> None:
    status, out, _ = ran("lintian", "--fail-on", "error,warning", made(), LC_ALL="C.UTF-8")
    assert (status, out) == (0, "")


@of_the_package
@pytest.mark.debian("systemd-analyze")
def test_services_of_the_edge_package() -> None:
    """systemd takes its service, and the venue's with what it changes of these; hardly anything is open to it."""
    with tempfile.TemporaryDirectory(prefix="services-") as folder:
        units = os.path.join(folder, UNITS)
        shutil.copytree(f"/{UNITS}", units, symlinks=True)
        shutil.copytree(unpacked(), folder, symlinks=True, dirs_exist_ok=True)
        for unit in ("venued.service", "venued@.service"):
            shutil.copy(os.path.join(ROOT, "contrib", unit), units)
        os.makedirs(os.path.join(folder, "bin"))
        for program in ("usr/bin/venued", "bin/sh"):
            shutil.copy("/bin/true", os.path.join(folder, program))
        for unit in ("gikvand-edge@C1.service", "venued.service", "venued@one.service"):
            assert ran("systemd-analyze", "verify", "--man=no", "--recursive-errors=no", f"--root={folder}", unit) == (0, "", "")
        words = ["--offline=true", f"--threshold={EXPOSED}", "--no-pager", os.path.join(units, "gikvand-edge@.service")]
        status, out, err = ran("systemd-analyze", "security", *words)
        assert (status, out.splitlines()[-1:] if status else [], err) == (0, [], "")


@pytest.mark.debian("systemd-sysusers")
def test_users_of_the_edge_package() -> None:
    """Each member's edge has a user of its own, who may not log in."""
    with tempfile.TemporaryDirectory(prefix="users-") as folder:
        os.mkdir(os.path.join(folder, "etc"))
        status, _, err = ran("systemd-sysusers", f"--root={folder}", os.path.join(ROOT, "contrib/edge/gikvand-edge.sysusers"))
        assert (status, err if status else "") == (0, "")
        with open(os.path.join(folder, "etc/passwd"), encoding="ascii") as file:
            users = {line.split(":")[0]: line.split(":")[5:] for line in file if line.startswith("gikvand-edge-")}
        assert users == {f"gikvand-edge-{it}": [f"/var/lib/gikvand-edge/{it}", "/usr/sbin/nologin\n"] for it in MEMBERS}


def test_edge_reads_a_journal_of_before() -> None:
    """At the venue's next start its journal and symbols are opened to the group, and nothing else; where there is none it starts."""
    line, = re.findall(r"^ExecStartPre=-/bin/sh -c '(.*)'$", text_of(DROP_IN), re.MULTILINE)
    with tempfile.TemporaryDirectory(prefix="opened-") as folder:
        assert ran("sh", "-c", line.replace("$$", "$"), folder=folder) == (0, "", "")
        for name in ("venue.journal", "venue.journal.symbols", "other"):
            with open(os.path.join(folder, name), "w", encoding="ascii"):
                os.chmod(os.path.join(folder, name), 0o600)
        assert ran("sh", "-c", line.replace("$$", "$"), folder=folder) == (0, "", "")
        assert {name: oct(os.stat(os.path.join(folder, name)).st_mode & 0o777) for name in os.listdir(folder)} == (
            {"venue.journal": "0o640", "venue.journal.symbols": "0o640", "other": "0o600"})
    for it in ("StateDirectoryMode=0750", "UMask=0027"):
        assert (it, f"\n{it}\n" in text_of(DROP_IN)) == (it, True)


def asked_by(script: str, *words: str, by_systemd: bool = True) -> list[str]:
    """What a script of this package calls with these words. Records in /var/lib/gikvand-edge have to be there behind it."""
    places = test_debian.PLACES.replace("/var/lib/venued", "/var/lib/gikvand-edge")
    with mock.patch.object(test_debian, "PLACES", places):
        return test_debian.asked_by(script, *words, by_systemd=by_systemd, packed=EDGES)


@of_the_package
def test_edge_as_it_is_installed() -> None:
    """The users are made and systemd looks again; nothing is started, and no venue is touched."""
    if can_have_places():
        made_users = ["systemd-sysusers gikvand-edge.conf"]
        assert asked_by("postinst", "configure", "") == [*made_users, "systemctl --system daemon-reload"]
        assert asked_by("postinst", "configure", "0.3.0", by_systemd=False) == made_users
        assert asked_by("postinst", "abort-upgrade", "0.3.0") == made_users


@of_the_package
def test_edge_as_it_is_removed() -> None:
    """An upgrade leaves the edges as they run, before a removal they are stopped in order, and behind a purge the records stay."""
    if can_have_places():
        stop = "deb-systemd-invoke stop gikvand-edge@*.service"
        for words, wanted in ((["upgrade", "99.1"], []), (["deconfigure"], []), (["failed-upgrade", "99.1"], []),
                              (["remove"], [stop])):
            assert (words, asked_by("prerm", *words)) == (words, wanted)
        assert asked_by("prerm", "remove", by_systemd=False) == []
        assert asked_by("postrm", "remove") == ["systemctl --system daemon-reload"]
        for words in (["purge"], ["upgrade", "99.1"], ["abort-install"]):
            assert (words, asked_by("postrm", *words)) == (words, [])


def test_edge_words_completed() -> None:
    """The program's words by their place, files and members."""
    options = re.findall(r"--[a-z]+", " ".join(page(COMMANDS).synopsis()))
    assert completed("gikvand-edge", "-") == sorted(options)
    with tempfile.TemporaryDirectory(prefix="completion-") as folder:
        for name in ("C1.cfg", "edge.cfg"):
            with open(os.path.join(folder, name), "w", encoding="ascii"):
                pass
        files = ["C1.cfg", "edge.cfg"]
        verbs = ["cancel", "halt", "numbers", "resume", "status", "stop"]
        for words, wanted in (("", sorted([*files, *verbs])), ("e", ["edge.cfg"]), ("s", ["status", "stop"]), ("stop ", [*MEMBERS, "all"]),
                              ("numbers C", MEMBERS), ("status a", ["all"]), ("halt ", []), ("cancel all ", files),
                              ("halt ABC e", ["edge.cfg"]), ("numbers C1 2000 17 ", files), ("--check s", []), ("--check ", files), ("--check -", ["--all", "--member"]),
                              ("--all ", files), ("--check --all e", ["edge.cfg"]), ("--member ", MEMBERS), ("--member C1 ", files),
                              ("--check --member C", MEMBERS), ("--check --member C2 ", files), ("--version ", []), ("edge.cfg ", []),
                              ("--all edge.cfg ", []), ("--member C1 edge.cfg ", []), ("--all -", [])):
            assert (words, completed("gikvand-edge", *words.split(" "), folder=folder)) == (words, wanted)
