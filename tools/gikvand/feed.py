"""The events that a feed publishes, as `gikvand board` follows them: by any of its servers, and by another one where that is
gone (docs/FEED.md)."""
import datetime
import os
import stat
import time

from gikvand.nats import NONE, Connection, Place, Stream, Unheard
from gikvand.nats import place_of as place_by
from gikvand.tally import Json
from gikvand.words import Trouble

AGAIN = 1.0                 # Seconds between two tries to connect.
OTHERS = stat.S_IRWXG | stat.S_IRWXO


def password_of(path: str, user: str) -> str:
    """The password of a user, of a file of lines USER:PASSWORD that its owner alone may read."""
    with open(path, encoding="utf-8") as file:
        if os.fstat(file.fileno()).st_mode & OTHERS:
            raise Trouble(f"{path} may be used by others than its owner: chmod 0600 {path}")
        known = dict(line.rstrip("\n").partition(":")[::2] for line in file)
    if user not in known:
        raise Trouble(f"{path} has no line of {user or 'the user, whom the URL has to name'}")
    return known[user]


def place_of(url: str, passwords: str | None) -> Place:
    """The place that a URL names, with the password of its user."""
    it = place_by(url)
    return it._replace(password=password_of(passwords, it.user)) if passwords else it


class Feed:
    """The events of a feed, from the first one on, as they come. It is to be ended."""

    def __init__(self, places: list[Place], authority: str | None) -> None:
        self.places, self.authority, self.tries, self.name = places, authority, 0, places[0].name
        self.connection: Connection | None = None
        self.next, self.bytes, self.at = 1, 0, 0.0
        self.heard_at, self.try_at, self.why = time.monotonic(), 0.0, "no server was asked yet"
        if any(it.name != self.name for it in places):
            raise Trouble("all --feed are servers of one feed, with one NAME")

    def end(self) -> None:
        if self.connection:
            self.connection.end()

    def check(self) -> None:
        """(Nothing but its servers says that a feed is there.)"""

    def size(self) -> int:
        """How many bytes all events have that came."""
        return self.bytes

    def come(self, seconds: float) -> list[str]:
        """The events that have come; none where no server answers, or nothing is new within this time. Stops where it is refused,
        or an event was taken away."""
        if not self.connection and time.monotonic() < self.try_at:
            time.sleep(seconds)
            return []
        try:
            return self.heard(seconds)
        except Unheard as why:
            self.end()
            self.connection, self.why, self.try_at = None, str(why), time.monotonic() + AGAIN
            return []

    def heard(self, seconds: float) -> list[str]:
        """The events that a server has."""
        if not self.connection:
            self.connect()
        messages = self.stream.come()
        self.heard_at, self.why, self.next = time.monotonic(), "", self.stream.next
        if not messages:
            time.sleep(seconds)
            return []
        try:
            self.at = moment_of(messages[-1].when)
        except ValueError:
            raise Unheard(NONE) from None
        self.bytes += sum(len(it.text) + 1 for it in messages)
        return [it.text for it in messages]

    def connect(self) -> None:
        """Connects to the next server."""
        self.place = self.places[self.tries % len(self.places)]
        self.tries += 1
        self.connection = Connection(self.place, self.authority)
        self.stream = Stream(self.connection, f"venue_{self.name}_events", f"venue.{self.name}.events.*", self.next)

    def told(self) -> Json:
        """What the page shows of it: also how old the last event is, by the clocks of the servers and of this machine."""
        age = int(max(0.0, time.time() - self.at)) if self.at else None
        return {"journal": f"feed {self.name}", "is_served": not self.why, "age": age, "bytes": self.bytes,
                "feed": {"server": f"{self.place.host}:{self.place.port}" if self.tries else "", "why": self.why,
                         "silent": int(time.monotonic() - self.heard_at)}}


def moment_of(when: str) -> float:
    """A moment as the servers write it, 2026-07-21T14:30:05.123456789Z, in seconds."""
    seconds = datetime.datetime.strptime(when[:19], "%Y-%m-%dT%H:%M:%S").replace(tzinfo=datetime.timezone.utc).timestamp()
    return seconds + float(f"0{when[19:].rstrip('Z') or '.0'}")
