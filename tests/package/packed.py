"""A package that scripts/package makes for tests, and what is in it. Not a test.

Tests look into the package itself. Where the environment has LAID_OUT, those that ask nothing of its file look at the tree and the
scripts as they are laid out for it, in half the time: tests/known_bad.py sets it, whose wrong ones are many.
"""
import functools
import os
import re
import stat
import tempfile

import pytest

from checks import AT_END, ROOT, put_text, ran
from gikvand.words import sure
from script_modules import loaded

SCRIPT = os.path.join(ROOT, "scripts/package")
packing = pytest.mark.debian("dh_builddeb")
IS_LAID_OUT = "LAID_OUT" in os.environ


class Packed:
    """The package that comes of these words, once it is asked for. It lies in a folder that is removed at the end."""

    def __init__(self, *words: str) -> None:
        self.words = words

    @functools.cache
    def folder(self) -> str:
        return AT_END.enter_context(tempfile.TemporaryDirectory(prefix="made-"))

    @functools.cache
    def made(self) -> str:
        """Its file."""
        status, out, err = ran(SCRIPT, *self.words, "--output", self.folder())
        assert (status, err) == (0, "")
        return out.strip()

    @functools.cache
    def whole(self) -> str:
        """The folder in which it is unpacked, with its description, its sums and its scripts in DEBIAN there."""
        folder = os.path.join(self.folder(), "whole")
        assert ran("dpkg-deb", "-R", self.made(), folder) == (0, "", "")
        return folder

    @functools.cache
    def tree(self) -> str:
        """The folder in which it is laid out, with its scripts in DEBIAN there."""
        status, out, err = ran(SCRIPT, *self.words, "--tree", os.path.join(self.folder(), "tree"))
        assert (status, err) == (0, "")
        return out.strip()

    def unpacked(self) -> str:
        """The folder below which its files lie, with its scripts in DEBIAN there."""
        return self.tree() if IS_LAID_OUT else self.whole()

    def needed(self) -> list[str]:
        """The packages that it needs."""
        return [it.strip() for it in ran("dpkg-deb", "-f", self.made(), "Depends")[1].split(",")]


VENUE, EDGES = Packed(), Packed("--edge")  # (tests of several modules share them)


def version() -> str:
    """The version that the packages have."""
    it = loaded("scripts/package")
    return it.version_of(it.releases())


def put_packer(folder: str, text: str) -> str:
    """Puts a script in the place of debhelper into a folder: the path by which it is found."""
    for name, it in (("dh_builddeb", ""), ("make", ""), ("perl", text)):
        put_text(os.path.join(folder, name), f"#!/bin/sh -e\n{it}", 0o755)
    return f"{os.path.abspath(folder)}:{os.environ['PATH']}"


def entries(folder: str) -> dict[str, str]:
    """All that lies below a folder but for DEBIAN there: its kind and rights, as `ls -l` shows them."""
    found = [os.path.join(path, name) for path, folders, names in os.walk(folder) for name in (*folders, *names)]
    names = {os.path.relpath(it, folder): stat.filemode(os.lstat(it).st_mode) for it in found}
    return {name: it for name, it in names.items() if name.split("/")[0] != "DEBIAN"}


def expect_sums(it: Packed) -> None:
    """All files in a package are root's, and its sums are those of all of them."""
    lines = [line.split(maxsplit=5) for line in ran("dpkg-deb", "-c", it.made())[1].splitlines()]
    assert {line[1] for line in lines} == {"root/root"}
    with open(os.path.join(it.whole(), "DEBIAN/md5sums"), encoding="utf-8") as file:
        sums = file.read()
    assert ran("md5sum", "--check", "--quiet", given=sums, folder=it.whole()) == (0, "", "")
    assert len(sums.splitlines()) == sum(line[0][0] == "-" for line in lines)


def expect_libraries(needed: list[str], *programs: str) -> None:
    """These packages are those that have the libraries which these programs are linked with; the C library is as new as they ask."""
    owners, versions = set(), set()
    for program in programs:
        linked = re.findall(r"NEEDED +(\S+)", ran("objdump", "-p", program)[1])
        for path in re.findall(r"=> (/\S+)", ran("ldd", program)[1]):
            status, out, _ = ran("dpkg", "-S", path)
            out = ran("dpkg", "-S", f"/usr{path}")[1] if status else out  # (as a system has it whose /lib is a link)
            owners |= {out.split(":")[0]} if os.path.basename(path) in linked else set()
        versions |= set(re.findall(r"GLIBC_(\d[\d.]*)", ran("readelf", "--version-info", program)[1]))
    assert {it.split()[0] for it in needed} == owners
    libc = next(sure(re.fullmatch(r"libc6 \(>= (.*)\)", it))[1] for it in needed if it.startswith("libc6"))
    assert [it for it in versions if ran("dpkg", "--compare-versions", it, "gt", libc)[0] == 0] == []
    assert libc in versions
