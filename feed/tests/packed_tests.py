"""What the package has, and that its man page, the table of FEED.md and the program know the same settings."""
import os
import re
import shutil
import subprocess
import sys

import traces
from feeds import FEED, NAMES, ROOT, Trouble, expect_same, settings_of, sure

FILES = ["etc/gikvand-feed", "usr/bin/gikvand-feed", "usr/lib/systemd/system/gikvand-feed@.service",
         "usr/lib/sysusers.d/gikvand-feed.conf", "usr/share/doc/gikvand-feed/FEED.md",
         "usr/share/doc/gikvand-feed/examples/NAME.cfg", "usr/share/doc/gikvand-feed/examples/feed_reader.py",
         "usr/share/doc/gikvand-feed/examples/feed_reader.c", "usr/share/doc/gikvand-feed/examples/feed_reader.go",
         "usr/share/gikvand-feed/servers", "usr/share/man/man8/gikvand-feed.8.gz"]


def contents(path: str) -> str:
    with open(os.path.join(ROOT, path), encoding="utf-8") as file:
        return file.read()


def test_settings_of_the_page() -> None:
    """FEED.md's table has the settings that the program knows, in its order, and the example and the tests use no others."""
    rows = contents("docs/FEED.md").partition("| setting | value | where it is left out |\n")[2].partition("\n\n")[0].splitlines()[1:]
    listed = [sure(re.match(r"\| `(\w+)` \|", row))[1] for row in rows]
    known = re.findall(r'"(\w+)"', contents("feed/src/settings.cpp").partition("NAMES{")[2].partition("};")[0])
    expect_same("setting", listed, known)
    for text in (contents("contrib/feed/examples/NAME.cfg"), settings_of(NAMES[0])):
        if others := set(re.findall(r"^(\w+)=", text, re.MULTILINE)) - set(known):
            raise Trouble(f"no settings: {others}")


def test_package() -> None:
    """The package has its files, a man page with each setting, in which mandoc finds nothing, and a program that runs."""
    environment = {**os.environ, "GIKVAND_FEED": FEED}
    words = [sys.executable, os.path.join(ROOT, "scripts/package"), "--feed", "--version", "1.0"]
    ran = subprocess.run(words, capture_output=True, text=True, env=environment)
    if (ran.returncode, ran.stdout, ran.stderr) != (0, "./gikvand-feed_1.0_amd64.deb\n", ""):
        raise Trouble(f"scripts/package: {ran}")
    subprocess.run(["dpkg-deb", "-x", "gikvand-feed_1.0_amd64.deb", "root"], check=True)
    if lacks := [it for it in FILES if not os.path.exists(os.path.join("root", it))]:
        raise Trouble(f"the package lacks {lacks}")
    with open("page", "wb") as file:
        subprocess.run(["gzip", "-dc", "root/usr/share/man/man8/gikvand-feed.8.gz"], stdout=file, check=True)
    page = contents(os.path.abspath("page"))
    if "(here stands" in page or ".It Cm VenueJournal\n" not in page or "FeedName=NAME\n" not in page:
        raise Trouble("the man page lacks the settings or the example")
    if shutil.which("mandoc"):
        said = subprocess.run(["mandoc", "-T", "lint", "page"], capture_output=True, text=True).stdout.splitlines()
        if found := [it for it in said if "referenced manual not found" not in it]:
            raise Trouble(f"mandoc finds {found}")
    if subprocess.run(["root/usr/bin/gikvand-feed", "--version"], capture_output=True, check=True).stdout[:13] != b"gikvand-feed ":
        raise Trouble("the program of the package doesn't run")


def test_traces() -> None:
    """The program tells neither the folder nor the day that it was built in: built in another one it has the same bytes."""
    traces.need_none(FEED)


TESTS = [test_settings_of_the_page, test_package, test_traces]
