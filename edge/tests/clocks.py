"""A clock of the edge's own, by Debian's faketime: it stands where a test puts it, and goes on from there."""
import calendar
import glob
import os
import time

from edges import Trouble

LIBRARIES = "/usr/lib/*/faketime/libfaketimeMT.so.1"


def seconds_of(text: str) -> int:
    """The second that this is, of UTC, behind the beginning of 1970."""
    return calendar.timegm(time.strptime(text, "%Y-%m-%d %H:%M:%S"))


class Clock:
    """What the edge takes for the time. Waits are as long as they are: the clock that only goes on isn't changed."""

    def __init__(self, text: str, name: str = "clock") -> None:
        """One that shows this, as "2030-01-04 23:59:50" of UTC, by a file of this name. That is ahead of the
        system's, which the times of files go by."""
        found = glob.glob(LIBRARIES)
        if not found:
            raise Trouble("faketime isn't there: edge/setup --tests installs it")
        self.path = os.path.abspath(name)
        self.put(text)
        self.env = {**os.environ, "LD_PRELOAD": found[0], "FAKETIME_TIMESTAMP_FILE": self.path,
                    "FAKETIME_NO_CACHE": "1", "FAKETIME_DONT_FAKE_MONOTONIC": "1", "DONT_FAKE_MONOTONIC": "1",
                    "NO_FAKE_STAT": "1", "TZ": "UTC"}

    def put(self, text: str) -> None:
        """Puts it forward or back, for all that go by it, at once."""
        self.write(f"{seconds_of(text) - time.time():+.6f}")

    def hold(self, text: str) -> None:
        """Puts it there, where it stands still: for a program that looks at it and ends."""
        self.write(text)

    def write(self, words: str) -> None:
        with open(self.path + ".new", "w", encoding="ascii") as file:
            file.write(f"{words}\n")
        os.replace(self.path + ".new", self.path)
