"""Tests of scripts/release: what a release has, that the same commit and programs give the same bytes, and what it refuses.

A release is made of a small tree, which git has, with programs of the system in the place of the built ones, with a prover in the
place of rt that says of each crate what rt ci says, and but for one test with a packer in the place of debhelper, which takes long.
"""
import glob
import hashlib
import json
import os
import shutil
import subprocess

import pytest

import crates
from checks import NOT_COPIED, ROOT, put_text, ran
from gikvand.provenance import PROGRAMS
from made_journals import gikvand
from packed import packing, put_packer

pytestmark = pytest.mark.quick

TAKEN = ("scripts", "tools", "contrib", "docs", "examples", "feed/servers", "edge/FIX44-edge.xml", "edge/stunnel", "VERSION",
         "CHANGELOG.md", "LICENSE", "crates.txt")
BUILT = {"VENUED": "venued", "VENUE_REPLAY": "venue_replay", "VENUE_EVENTS": "venue_events", "GIKVAND_EDGE": "gikvand-edge",
         "GIKVAND_FEED": "gikvand-feed"}
SAID = "".join(f"== {it}\nfn {it}::f: proved\nlogic=proved functions={at} sum=5 logic-built=trusted statements=trusted\nrt: {it} proved\n"
               f"== {it}: its tests\nlogic=proved functions=900 tests=trusted\n" for at, it in enumerate(crates.listed(), 1))
RT = '#!/bin/sh\ncase "$*" in\n"ci --anew") cat {said}; [ -z "{fails}" ] ;;\nversion) echo a kit ;;\n*) exit 9 ;;\nesac\n'
PACKER = """for package in $DH_OPTIONS; do
    rm -rf root
    mkdir -p root/DEBIAN root/usr
    cp -r programs root/usr/bin
    for it in root/usr/bin/*; do echo packed >>"$it"; done
    printf 'Package: %s\\nVersion: %s\\n' "${package#*=}" "$VERSION" >root/DEBIAN/control
    printf 'Architecture: amd64\\nMaintainer: N <n@n>\\nDescription: n\\n' >>root/DEBIAN/control
    find root -exec touch -d "@$SOURCE_DATE_EPOCH" {} +
    dpkg-deb -Znone --build root .
done
"""


def put_tree(said: str = f"{SAID}80 passed, 0 failed\n", fails: str = "") -> None:
    """A tree that git has, programs, and a prover that says this."""
    for name in TAKEN:
        path = os.path.join("tree", name)
        os.makedirs(os.path.dirname(path), exist_ok=True)
        source = os.path.join(ROOT, name)
        if os.path.isdir(source):
            shutil.copytree(source, path, ignore=NOT_COPIED, symlinks=True)
        else:
            shutil.copy(source, path)
    os.symlink("VERSION", "tree/link")
    put_text("tree/.gitignore", "__pycache__/\n")
    git("init", "-q")
    commit()
    for at, name in enumerate(BUILT.values(), 1):
        shutil.copy("/bin/true", name)
        with open(name, "ab") as file:
            file.write(b"x" * at)  # (each has bytes of its own)
    put_text("said", said)
    put_text("path/rt", RT.format(said=os.path.abspath("said"), fails=fails), 0o755)
    put_packer("packer", PACKER)


def git(*words: str) -> str:
    who = ["-c", "user.name=n", "-c", "user.email=e", "-c", "commit.gpgsign=false"]
    return subprocess.run(["git", "-C", "tree", *who, *words], capture_output=True, text=True, check=True,
                          env={**os.environ, "GIT_COMMITTER_DATE": "2026-02-03T04:05:06Z"}).stdout.strip()


def commit() -> None:
    git("add", "-A")
    git("commit", "-q", "-m", "all of it")


def release(*words: str, tree: str = "tree") -> tuple[int, list[str], list[str]]:
    """Runs scripts/release of a tree: its status, and the lines of both outputs."""
    built = {variable: os.path.abspath(name) for variable, name in BUILT.items()}
    path = ":".join([os.path.abspath("packer"), os.path.abspath("path"), os.environ["PATH"]])
    status, out, err = ran(f"{tree}/scripts/release", *words, PATH=path, **built)
    return status, out.splitlines(), err.splitlines()


def sum_of(path: str) -> str:
    with open(path, "rb") as file:
        return hashlib.sha256(file.read()).hexdigest()


def test_a_release() -> None:
    """It has three packages, the sources, the verdicts, a manifest by which the packages' programs are those of the release, and sums. What
    is packed has the time of the commit, or none."""
    put_tree()
    status, out, err = release("--output", "one")
    assert (status, [it for it in err if not it.startswith("rt: ")]) == (0, [])
    assert sorted(out) == sorted(glob.glob("one/*"))
    assert ran("sh", "-c", "cd one && sha256sum --quiet -c SHA256SUMS")[:2] == (0, "")
    with open("one/SHA256SUMS", encoding="ascii") as file:
        assert sorted(line.split()[1] for line in file) == sorted(os.path.basename(it) for it in out if not it.endswith("SUMS"))
    manifest, = glob.glob("one/*.provenance.json")
    with open(manifest, encoding="utf-8") as file:
        found = json.load(file)
    assert (found["commit"], found["kit"], set(found["programs"])) == (git("rev-parse", "HEAD"), "a kit", set(PROGRAMS))
    assert found["verdicts"] == {it: {"functions": at, "trusted": ["logic-built", "statements"]} for at, it in enumerate(crates.listed(), 1)}
    assert set(found["sources"]) == set(git("ls-files").splitlines())
    packages = [it for it in out if it.endswith(".deb")]
    assert found["packages"] == {os.path.basename(it): sum_of(it) for it in packages}
    assert times_in(packages) == {"2026-02-03 04:05"}
    for package in packages:
        ran("dpkg-deb", "--extract", package, "root")
    programs = [f"root/usr/bin/{it}" for it in PROGRAMS]
    assert len(packages) == 3 and gikvand("provenance", manifest, *programs)[0] == 0
    status, lines, _ = gikvand("provenance", manifest, programs[0])
    assert (status, lines[3]) == (0, f"{programs[0]}: venued of this release, as it was packaged")
    archive, = glob.glob("one/*.tar.gz")
    with open(archive, "rb") as file:
        assert file.read(8)[4:] == bytes(4)  # (where gzip has a time)
    os.mkdir("unpacked")
    ran("tar", "-xzf", archive, "-C", "unpacked")
    root, = glob.glob("unpacked/*")
    assert os.path.basename(root) == f"gikvand-{found['version']}"
    assert gikvand("provenance", manifest, "--sources", root)[0] == 0


def times_in(packages: list[str]) -> set[str]:
    """The times that what is in these has."""
    return {" ".join(line.split()[3:5]) for it in packages for line in ran("dpkg-deb", "-c", it, TZ="UTC")[1].splitlines()}


@packing
def test_release_of_a_clone() -> None:
    """All of it has the time of its commit, and from a clone in another folder come the same bytes."""
    put_tree()
    shutil.rmtree("packer")
    status, out, _ = release("--output", "one")
    packages = [it for it in out if it.endswith(".deb")]
    assert (status, len(packages), times_in(packages)) == (0, 3, {"2026-02-03 04:05"})
    git("clone", "-q", os.path.abspath("tree"), os.path.abspath("once/more"))
    assert release("--output", "two", tree="once/more")[0] == 0
    assert {os.path.basename(it): sum_of(it) for it in glob.glob("two/*")} == {os.path.basename(it): sum_of(it) for it in glob.glob("one/*")}


def test_verdicts_of_before() -> None:
    """What rt ci said before may be given; then rt proves nothing, and the release has these words."""
    put_tree(said="nothing")
    put_text("before", f"{SAID}7 passed, 0 failed\n")
    status, out, _ = release("--output", "one", "--verdicts", "before")
    assert status == 0
    kept, = glob.glob("one/*.verdicts.txt")
    assert sum_of(kept) == sum_of("before")


def last_of(said: str) -> str:
    """The name of the last crate."""
    return said.split("== ")[-1].split(":")[0]


@pytest.mark.parametrize("said, line", (
    (f"{SAID}80 passed, 1 failed\n", "the verdicts don't end with `N passed, 0 failed`: something isn't proved"),
    (SAID, "the verdicts don't end with `N passed, 0 failed`: something isn't proved"),
    ("80 passed, 0 failed\n", f"the verdicts have none of the crate {[*crates.listed()][0]}: `rt ci --anew` gives those of all"),
    (SAID.replace(f"== {last_of(SAID)}\n", f"== {last_of(SAID)}: kept\n") + "80 passed, 0 failed\n",
     f"the verdicts have none of the crate {last_of(SAID)}: `rt ci --anew` gives those of all")), ids=("failed", "unended", "none", "one"))
def test_verdicts_that_lack(said: str, line: str) -> None:
    """Where a crate has no verdict of its own, or anything failed, there is no release."""
    put_tree(said)
    status, out, err = release("--output", "one")
    assert (status, out, err[-1:], os.path.exists("one")) == (2, [], [f"release: {line}"], False)


def test_changes_that_no_commit_has() -> None:
    """A tree with a change, or with a file that git doesn't know, is refused, and so is a program that isn't built."""
    put_tree()
    put_text("tree/more", "")
    assert release("--output", "one") == (2, [], ["release: the tree has what no commit has: ?? more"])
    os.remove("tree/more")
    put_text("tree/VERSION", "9.9.9\n")
    assert release("--output", "one") == (2, [], ["release: the tree has what no commit has: M VERSION"])
    commit()
    os.remove("venue_events")
    status, out, err = release("--output", "one")
    assert (status, out, len(err), "venue_events isn't built" in err[0], os.path.exists("one")) == (2, [], 1, True, False)
