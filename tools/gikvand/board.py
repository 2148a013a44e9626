"""Shows a journal as a page for a browser, also while it is in use: for who would rather look than read.

    gikvand board JOURNAL                   prints the page's address; goes on until SIGTERM or SIGINT (Ctrl-C)
    gikvand board JOURNAL --port 8700       at a port that you choose, as for a tunnel of ssh
    gikvand board --feed tls://machines@10.0.0.1:4222/NAME --password-file FILE --ca ca.pem
                                            shows what a feed publishes, on any machine (FEED.md)

For each symbol the page has the depth of the book and the last trades; for each member its orders, fills and what
rests; and commands a second, and the journal's growth. It follows the journal by venue-events, whose book is the proved
one, and only counts. The address is one of this machine's own, 127.0.0.1, and has a word in it that is another at each
start: whoever doesn't know that word sees nothing.

The journal is only read. Where it is damaged, cut, replaced or gone, the page says so and keeps what it has. Of a feed the
page says how old the last event is, and for how long no server has answered; --feed may stand there for each server. The
status is 0 at an end by a signal, and 2 where the journal or the feed couldn't be followed to the end.
"""
import argparse
import json
import os
import sys
import time

from gikvand import locks, symbols
from gikvand.events import Followed
from gikvand.feed import Feed, place_of
from gikvand.files import shown
from gikvand.follow import PAUSE, Source, has_signal, signals_held
from gikvand.pages import Shown, serving
from gikvand.ports import port_of
from gikvand.programs import Trouble
from gikvand.tally import Json, Tally
from gikvand.words import stamped

PAGE = os.path.join(os.path.dirname(os.path.abspath(__file__)), "board.html")
A_RUN = 0.2        # Seconds for which it reads on before it looks for anything else,
A_FRAME = 0.25     # between two pictures,
A_SECOND = 1.0     # between two counts of what came,
QUIET = 0.1        # and for which venue-events has nothing to tell where it has come to the journal's end.


def add_words(parser: argparse.ArgumentParser) -> None:
    parser.add_argument("journal", metavar="JOURNAL", nargs="?", help="the journal's file")
    parser.add_argument("--feed", metavar="URL", action="append", default=[], help="shows in place of a journal what a feed publishes")
    parser.add_argument("--password-file", metavar="FILE", help="lines USER:PASSWORD, one of which is of that user")
    parser.add_argument("--ca", metavar="FILE", help="the certificate of the authority that signed those of the servers")
    parser.add_argument("--port", metavar="PORT", type=port_of, default=0,
                        help="the page's port; a free one, if left out")
    symbols.add_option(parser)


class Board:
    """A journal that is followed, and what the page shows of it. It is to be ended."""

    def __init__(self, journal: str, traded: list[str]) -> None:
        self.journal, self.kept = journal, Source(journal, "another journal wants another start")
        self.begin(self.kept, Followed(journal, traded), traded)

    def begin(self, source: Source | Feed, events: Followed | Feed, traded: list[str]) -> None:
        """Nothing is read yet."""
        self.source, self.events = source, events
        self.tally, self.shown, self.trouble = Tally(traded), Shown(), ""
        self.has_caught_up = False
        self.came_at = self.counted_at = self.drawn_at = time.monotonic()

    def end(self) -> None:
        self.events.end()
        self.kept.file.close()

    def follow(self) -> None:
        """Follows the journal until a signal comes."""
        while not has_signal(PAUSE if self.has_caught_up or self.trouble else 0):
            self.turn()

    def turn(self) -> None:
        """Takes what has come, and does what is due."""
        now = time.monotonic()
        if not self.trouble:
            self.read_on(now)
        if self.has_caught_up and now >= self.counted_at + A_SECOND:
            self.counted_at = now
            self.tally.rates.note(self.tally.commands, self.source.size())
        if self.shown.listeners and now >= self.drawn_at + A_FRAME:
            self.drawn_at = now
            self.shown.put(json.dumps(self.told(), separators=(",", ":")).encode())

    def read_on(self, now: float) -> None:
        """Takes the next lines, for a while. What keeps it from that is said once, and is the end of it."""
        try:
            self.source.check()
            while time.monotonic() < now + A_RUN and (lines := self.events.come(0 if self.has_caught_up else PAUSE)):
                for line in lines:
                    self.tally.take(line)
                self.came_at = time.monotonic()
            self.has_caught_up |= time.monotonic() >= self.came_at + QUIET
        except Trouble as why:
            self.trouble = str(why)
            print(stamped(f"gikvand board: {why}. The page keeps what stands before that"), file=sys.stderr, flush=True)

    def told(self) -> Json:
        """All that the page shows."""
        return {**self.origin(), "trouble": self.trouble, "caught_up": self.has_caught_up, **self.tally.told()}

    def origin(self) -> Json:
        """What the page shows of the journal itself."""
        try:
            pid = locks.holder(self.journal)
        except OSError:
            pid = None
        holder, it = locks.name_of(pid) if pid else "", os.fstat(self.kept.file.fileno())
        return {"journal": shown(os.path.basename(self.journal)), "holder": holder, "is_served": holder.startswith("venued"),
                "age": int(max(0.0, time.time() - it.st_mtime)) if self.tally.commands else None,
                "version": self.kept.reader.version, "bytes": it.st_size}

    def status(self) -> int:
        return 2 if self.trouble else 0


class FeedBoard(Board):
    """The same of the events that a feed publishes."""

    def __init__(self, feed: Feed, traded: list[str]) -> None:
        self.feed = feed
        self.begin(feed, feed, traded)

    def end(self) -> None:
        self.feed.end()

    def origin(self) -> Json:
        return self.feed.told()


def opened(given: argparse.Namespace) -> tuple[Board, str]:
    """The board that the words ask for, and of what."""
    if bool(given.journal) == bool(given.feed):
        raise Trouble("a JOURNAL is needed, or --feed URL, and not both")
    if given.journal:
        return Board(given.journal, symbols.needed(given.journal, given.symbols)), given.journal
    feed = Feed([place_of(it, given.password_file) for it in given.feed], given.ca)
    return FeedBoard(feed, given.symbols or []), f"the feed {feed.name}"


def run(given: argparse.Namespace) -> int:
    board, what = opened(given)
    try:
        with open(PAGE, encoding="utf-8") as file:
            page = file.read()
        with signals_held(), serving(given.port, page, board.shown) as address:
            print(f"{address} shows {what}", flush=True)
            board.follow()
    finally:
        board.end()
    return board.status()
