"""The hours of a session by a plain model: it goes through the days of a calendar, backwards from a moment."""
import calendar
import datetime
import os
import random
import subprocess
from collections.abc import Iterable, Iterator, Sequence

from edges import ROOT, Trouble
from trading_tests import expect

EDGE = os.path.join(ROOT, "edge")
DAYS = list(calendar.day_name)  # Monday is the first one.
Case = tuple[datetime.time, datetime.time, str | None, str | None, datetime.datetime]  # Start and end, the days of both, and a moment.

DAY = datetime.timedelta(days=1)
CASES = 6000
SEED = 20250102


def times_before(moment: datetime.datetime, day: str | None, time: datetime.time) -> Iterator[datetime.datetime]:
    """The moments with this time of the day, on this day of the week or on each, from the last one on backwards."""
    at = datetime.datetime.combine(moment.date(), time)
    while True:
        if at <= moment and day in (None, DAYS[at.weekday()]):
            yield at
        at -= DAY


def model(start: datetime.time, end: datetime.time, first: str | None, last: str | None,
          moment: datetime.datetime) -> tuple[datetime.datetime, bool]:
    """The last end of the hours, and whether they are open: their last start is behind that, or there is no pause."""
    last_end = next(times_before(moment, last, end))
    last_start = next(times_before(moment, first, start))
    return last_end, last_start >= last_end


def next_start(start: datetime.time, first: str | None, moment: datetime.datetime) -> datetime.datetime:
    """The first moment behind this one with that time of the day, on that day of the week or on each."""
    at = datetime.datetime.combine(moment.date(), start)
    while at <= moment or first not in (None, DAYS[at.weekday()]):
        at += DAY
    return at


def seconds(moment: datetime.datetime) -> int:
    return calendar.timegm(moment.timetuple())


def some_time(chance: random.Random) -> datetime.time:
    """A time of the day: often one of a few, so that two are the same or next to one another."""
    if chance.random() < 0.5:
        return chance.choice([datetime.time(0, 0, 0), datetime.time(0, 0, 1), datetime.time(23, 59, 59),
                              datetime.time(12, 0, 0), datetime.time(21, 30, 0)])
    return datetime.time(chance.randrange(24), chance.randrange(60), chance.randrange(60))


def some_moment(chance: random.Random, times: Sequence[datetime.time]) -> datetime.datetime:
    """A moment of some century, often at a time of the hours or a second beside it, or about a leap day."""
    at = datetime.datetime(1971, 1, 1) + datetime.timedelta(seconds=chance.randrange(130 * 365 * 86400))
    if chance.random() < 0.3:
        year = chance.choice([1972, 2000, 2024, 2028, 2099, 2100])
        at = datetime.datetime(year, 2, 27) + datetime.timedelta(seconds=chance.randrange(4 * 86400))
    if chance.random() < 0.5:
        at = datetime.datetime.combine(at.date(), chance.choice(times))
        at += datetime.timedelta(seconds=chance.choice([-1, 0, 1]))
    return at


def some_case(chance: random.Random) -> Case:
    """Settings and a moment, by chance: each day's hours, or each week's that engines don't take for others."""
    while True:
        start, end = some_time(chance), some_time(chance)
        first, last = (None, None) if chance.random() < 0.4 else (chance.choice(DAYS), chance.choice(DAYS))
        if not (first and first == last and start < end):
            return start, end, first, last, some_moment(chance, [start, end])


def written(chance: random.Random, day: str | None) -> str:
    """A day as settings may have it."""
    name = day and day[:chance.choice([2, 3, len(day)])]
    return name and chance.choice([name, name.lower(), name.upper()]) or "-"


def reckoned(lines: Iterable[str]) -> list[str]:
    """What the program says to each line."""
    program = os.path.abspath("scheduled")
    made = subprocess.run(["c++", "-std=c++14", "-O1", "-Wall", "-Wextra", "-Wno-deprecated", f"-I{EDGE}/src", "-o",
                           program, os.path.join(EDGE, "tests/scheduled.cpp"),
                           os.environ.get("EDGE_LIBRARY", f"{EDGE}/out/libedge.a"), "-lquickfix", "-lpthread"],
                          capture_output=True, text=True)
    if made.returncode:
        raise Trouble(f"it can't be compiled: {made.stderr[-600:]}")
    return subprocess.run([program], input="\n".join(lines), capture_output=True, text=True,
                          check=True).stdout.splitlines()


def test_schedule() -> None:
    """Thousands of hours and moments by chance: the last end, whether a member may log on, and the next start are those of the
    model."""
    chance = random.Random(SEED)
    cases = [some_case(chance) for _ in range(CASES)]
    cases += [(*it, datetime.datetime(2024, 2, 29, 23, 59, 59) + datetime.timedelta(seconds=more))
              for it in ((datetime.time(0), datetime.time(0), None, None),
                         (datetime.time(0), datetime.time(0), "Sunday", "Sunday"),
                         (datetime.time(22), datetime.time(21), "Sunday", "Friday"))
              for more in (-86400, -1, 0, 1, 86400)]
    came = reckoned([f"{start} {end} {written(chance, first)} {written(chance, last)} {seconds(moment)}"
                     for start, end, first, last, moment in cases])
    expect(len(came), len(cases))
    for case, line in zip(cases, came):
        last_end, is_open = model(*case)
        is_end = last_end == case[-1]  # One who began a second before an end has to begin anew at it, and only then.
        start, _, first, _, moment = case
        begins = next_start(start, first, moment)
        if line != f"{seconds(last_end)} {is_open:d} {is_end:d}0 {seconds(begins)}":
            raise Trouble(f"{case}: came {line!r}, and the model has {last_end} {is_open} {begins}")


def test_wrong_hours() -> None:
    """Hours that contradict themselves are refused in words, and so is what engines would take for others."""
    wrong = {"24:00:00 22:00:00 - -": "StartTime: isn't HH:MM:SS: 24:00:00",
             "06:00:00 -6:00:00 - -": "EndTime: isn't HH:MM:SS: -6:00:00",
             "06:00:00 22:00 - -": "EndTime: isn't HH:MM:SS: 22:00",
             "06:00:00 22:00:00 Monday -": "EndDay: is missing beside the other of the two",
             "06:00:00 22:00:00 - Friday": "StartDay: is missing beside the other of the two",
             "06:00:00 22:00:00 Mo Mundayy": "EndDay: is no day, as Monday: Mundayy",
             "06:00:00 22:00:00 M Friday": "StartDay: is no day, as Monday: M",
             "06:00:00 22:00:00 Mondays Friday": "StartDay: is no day, as Monday: Mondays",
             "06:00:00 22:00:00 Monday MON": "EndDay: is StartDay, with an EndTime behind StartTime: engines take that "
                                             "for a whole week"}
    expect(reckoned([f"{it} 0" for it in wrong]), list(wrong.values()))


TESTS = [test_schedule, test_wrong_hours]
