"""Tests of what the package runs as it is installed, upgraded and removed (contrib/debian, with debhelper's lines), and of what
scripts/package reckons: the version, and the Python of its scripts."""
import os
import re
import subprocess
import sys
import tempfile
from unittest import mock

import pytest

from checks import ROOT, can_have_places, put_text, ran, text_of
from noting import can_be_noted, noted, order_of
from packed import VENUE, Packed, packing, put_packer
from script_modules import loaded
from venues import EVENTS, REPLAY, VENUED

pytestmark = [pytest.mark.quick, pytest.mark.usefixtures("programs"), pytest.mark.xdist_group("package")]

STUBS = ("systemd-sysusers", "py3compile", "py3clean", "systemctl", "deb-systemd-invoke")
STAND_IN = '#!/bin/sh\necho "$(basename "$0") $*" >>"$ASKED"\n'
# In the place of the system's folders: one of a system that systemd runs, and journals that lie there.
PLACES = ("mount -t tmpfs none /run && mount -t tmpfs none /var/lib && {}mkdir -p /var/lib/venued && "
          "echo journal >/var/lib/venued/venue.journal && \"$@\" && cat /var/lib/venued/venue.journal")
BY_SYSTEMD = "mkdir -p /run/systemd/system && "


def asked_by(script: str, *words: str, by_systemd: bool = True, packed: Packed = VENUE) -> list[str]:
    """The programs that a script of the package calls with these words, with theirs. The journals have to be there behind it."""
    with tempfile.TemporaryDirectory(prefix="debian-") as folder:
        for name in STUBS:
            put_text(os.path.join(folder, name), STAND_IN, 0o755)
        asked = os.path.join(folder, "asked")
        places = PLACES.format(BY_SYSTEMD if by_systemd else "")
        status, out, err = ran("unshare", "-rm", "sh", "-c", places, "sh", "sh", os.path.join(packed.unpacked(), "DEBIAN", script), *words,
                               ASKED=asked, PATH=f"{folder}:/usr/bin:/bin")
        assert (script, words, status, out.splitlines()[-1:], err) == (script, words, 0, ["journal"], "")
        with open(asked, "a+", encoding="ascii") as file:
            file.seek(0)
            return file.read().splitlines()


@packing
def test_as_it_is_installed() -> None:
    """The user is made before anything starts, and nothing is started."""
    if can_have_places():
        user, compiled = "systemd-sysusers venued.conf", "py3compile -p gikvand /usr/share/gikvand"
        assert asked_by("postinst", "configure", "") == [user, compiled, "systemctl --system daemon-reload"]
        assert asked_by("postinst", "configure", "0.3.0", by_systemd=False) == [user, compiled]
        assert asked_by("postinst", "abort-upgrade", "0.3.0") == [user]


@packing
def test_as_it_is_upgraded_and_removed() -> None:
    """An upgrade leaves the venues as they run; before a removal they are stopped in order."""
    if can_have_places():
        stop = "deb-systemd-invoke stop gikvand-watch.timer gikvand-watch-all.timer venued.service venued@*.service"
        for words, wanted in ((("upgrade", "99.1"), ()), (("deconfigure",), ()), (("failed-upgrade", "99.1"), ()),
                              (("remove",), (stop,))):
            assert (words, asked_by("prerm", *words)) == (words, [*wanted, "py3clean -p gikvand"])
        assert asked_by("prerm", "remove", by_systemd=False) == ["py3clean -p gikvand"]


@packing
def test_behind_it() -> None:
    """Behind a removal and a purge the journals are there."""
    if can_have_places():
        assert asked_by("postrm", "remove") == ["systemctl --system daemon-reload"]
        for words in (["purge"], ["upgrade", "99.1"], ["abort-install"]):
            assert (words, asked_by("postrm", *words)) == (words, [])


def test_calls_of_the_package() -> None:
    """The package has its name once its bytes are on the device: who finds it has all of it. (It has other bytes here.)"""
    if not can_be_noted():
        return
    with tempfile.TemporaryDirectory(prefix="packed-") as folder:
        name = "gikvand_99.1_amd64.deb"
        path = put_packer("packer", f"echo packed >{name}\n")
        programs = {it: os.path.abspath(path) for it, path in (("VENUED", VENUED), ("VENUE_REPLAY", REPLAY), ("VENUE_EVENTS", EVENTS))}
        status, calls = noted(sys.executable, os.path.join(ROOT, "scripts/package"), "--version", "99.1", folder=folder,
                              PATH=path, **programs)
        assert (status, order_of(calls, ".", name, f"{name}.new")) == (
            0, [f"open {name}.new", f"write {name}.new", f"sync {name}.new", f"rename {name}.new {name}", "sync ."])
        assert os.listdir(folder) == [name]


@packing
def test_python_of_the_package() -> None:
    """Its scripts are run by the system's Python, and not by the first on the path."""
    with open(os.path.join(VENUE.unpacked(), "usr/share/gikvand/scripts/gikvand"), encoding="utf-8") as file:
        assert file.readline() == "#!/usr/bin/python3\n"
    heads = subprocess.run(["grep", "-rlE", "^#!.*(env|/local/)", VENUE.unpacked()], capture_output=True, text=True).stdout
    assert heads == ""


def test_versions_of_the_package() -> None:
    """What no release has makes the version a later one, for apt too; what a release has doesn't."""
    it = loaded("scripts/package")
    number = text_of("VERSION").strip()
    release = f"\n## [{number}] - 2026-01-01\n\n- One.\n"
    for text, version in ((f"# C\n\n## [Unreleased]\n\n- More.\n{release}", f"{number}+unreleased"),
                          (f"# C\n\n## [Unreleased]\n{release}", number), (f"# C\n{release}", number)):
        with mock.patch.object(it, "contents", lambda name, text=text: text if name == "CHANGELOG.md" else number):
            assert (text, it.version_of(it.releases())) == (text, version)
    assert ran("dpkg", "--compare-versions", f"{number}+unreleased", "gt", number)[0] == 0
    assert re.search(r"^## \[Unreleased\]", text_of("CHANGELOG.md"), re.MULTILINE)
