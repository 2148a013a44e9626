"""What the scripts that measure share: a machine on which nothing else works, the C++ twins, figures with their medians and
ratios, and instructions as valgrind counts them."""
import collections
import os
import re
import shutil
import statistics
import subprocess
import time
from collections.abc import Iterable, Iterator
from typing import NamedTuple

from results import cores, number
from venues import ROOT, Trouble

FIGURE = re.compile(r"([a-z][a-z0-9_.]*): ([0-9.]+) (\S+)")
COUNTED = re.compile(r"Collected : (\d+)")
IDLE = (3, 4)            # The places of idle time, and of time waited for devices, behind `cpu` in /proc/stat.
MOST_BY_OTHERS = 0.1     # Of a core.
TICKS = os.sysconf("SC_CLK_TCK")
PATIENCE = 300           # Seconds for a run under valgrind, which takes some fifty times as long as without.
NOTHING = 1e-9           # What a rate of 0.00 is taken for.
PROJECT, TWIN = ".project", ".cpp"
TWINS = os.path.join(ROOT, "dev/twins")
OLDER_TWINS = {"book": 17, "rings": 17}  # The C++ of each, where it isn't 14.


class Figure(NamedTuple):
    """A figure of one run: `fix.parse.project`, and `fix.parse.cpp` of its twin."""

    name: str
    value: float
    unit: str


def busy_ticks() -> int:
    """The ticks for which some core of the machine has worked."""
    with open("/proc/stat", encoding="ascii") as file:
        ticks = [int(word) for word in file.readline().split()[1:9]]
    return sum(ticks) - sum(ticks[place] for place in IDLE)


def taken_by_others(seconds: float = 1.0) -> float:
    """How many cores others keep busy, while this program sleeps."""
    before = busy_ticks()
    time.sleep(seconds)
    return (busy_ticks() - before) / TICKS / seconds


def quiet(may_be_busy: bool) -> float:
    """How many cores others take. A busy machine is refused, unless it may be busy."""
    others = taken_by_others()
    if others > MOST_BY_OTHERS and not may_be_busy:
        raise Trouble(f"others take {others:.1f} of {os.cpu_count()} cores: figures would be theirs "
                      "(--busy measures all the same)")
    return others


def printed_by(*words: object) -> Iterator[Figure]:
    """The figures that a program prints."""
    ran = subprocess.run([str(word) for word in words], capture_output=True, text=True)
    if ran.returncode:
        raise Trouble(ran.stderr.strip() or f"{words[0]} ended with status {ran.returncode}")
    for line in ran.stdout.splitlines():
        found = FIGURE.fullmatch(line)
        if found:
            yield Figure(found[1], float(found[2]), found[3])


def need(program: str, what: str) -> None:
    """Stops where a program isn't installed."""
    if not shutil.which(program):
        raise Trouble(f"{program} isn't installed, which {what}")


def compiled(name: str, folder: str, source: str | None = None) -> str:
    """The twin of this name, dev/twins/NAME.cpp or another source of it, as a program in this folder."""
    path = source or os.path.join(TWINS, f"{name}.cpp")
    program = os.path.join(folder, f"{name}_twin")
    words = ["c++", "-O2", f"-std=c++{OLDER_TWINS.get(name, 14)}", "-pthread", "-o", program, path]
    ran = subprocess.run(words, capture_output=True, text=True)
    if ran.returncode:
        raise Trouble(f"c++ can't compile {os.path.relpath(path)}: {ran.stderr.strip()[:500]}")
    return program


def instructions(words: Iterable[str], data: bytes = b"", within: str = "") -> int:
    """How many instructions a program takes that has to end well: in all, or in calls of one function."""
    counting = ["valgrind", "--tool=callgrind", "--callgrind-out-file=/dev/null"]
    if within:
        counting.append(f"--toggle-collect={within}")
    told = [*counting, *words]
    it = subprocess.run(told, input=data, capture_output=True, timeout=PATIENCE)
    found = COUNTED.search(it.stderr.decode("utf-8", "replace"))
    if it.returncode or not found:
        raise Trouble(f"{' '.join(told)} ended with {it.returncode}: {it.stderr.decode('utf-8', 'replace')[-300:]}")
    return int(found[1])


def of(name: str) -> str:
    """What a figure is of, the project's or the twin's."""
    return name.replace(PROJECT, "")


class Spread(NamedTuple):
    """A median, with the least and the greatest."""

    median: float
    least: float
    greatest: float

    def shown(self, digits: int = 4) -> str:
        return f"{number(self.median, digits)} ({number(self.least, digits)} to {number(self.greatest, digits)})"

    def rounded(self) -> dict[str, float]:
        return {name: rounded(value) for name, value in self._asdict().items()}


def spread(values: list[float]) -> Spread:
    return Spread(statistics.median(values), min(values), max(values))


def rounded(value: float) -> float:
    """A number of at most six digits that count, as a file keeps it."""
    shown = float(f"{value:.6g}")
    return int(shown) if shown == int(shown) else shown


def plain(value: float) -> str:
    """A number without commas and exponents, for programs that read it."""
    return f"{float(f'{value:.6g}'):.9f}".rstrip("0").rstrip(".")


class Figures:
    """The figures of several rounds, by their names."""

    def __init__(self) -> None:
        self.values: dict[str, list[float]] = collections.defaultdict(list)
        self.units: dict[str, str] = {}
        self.most_by_others = 0.0

    def add(self, figures: Iterable[Figure]) -> None:
        for name, value, unit in figures:
            self.values[name].append(value)
            self.units[name] = unit

    def print_all(self) -> None:
        """Each figure's median, with the least and the greatest as a comment; and the ratio to its twin's."""
        for name, found in self.values.items():
            it = spread(found)
            print(f"{name}: {plain(it.median)} {self.units[name]}")
            print(f"# {name}: {plain(it.least)} to {plain(it.greatest)} in {len(found)} run{'s' * (len(found) > 1)}")
        for name, twin in self.pairs():
            best = f"of the best rounds {number(self.best_ratio(name, twin), 3)}"
            print(f"# {of(name)}: {self.ratio(name, twin).shown(3)} of the C++'s {self.what(name)}, {best}")
        print(f"# {cores()} cores, of which others took {self.most_by_others:.1f} at most", flush=True)

    def pairs(self) -> list[tuple[str, str]]:
        """The figures that have a twin, and the twin's."""
        twins = [(name, name.replace(PROJECT, TWIN)) for name in self.values if PROJECT in name]
        return [(name, twin) for name, twin in twins if twin in self.values]

    def what(self, name: str) -> str:
        unit = self.units[name]
        return "rate" if unit.endswith("/s") else "instructions" if unit.startswith("instructions") else "time"

    def ratio(self, name: str, twin: str) -> Spread:
        """That of the medians, and the least and the greatest of a round."""
        mine, other = self.values[name], self.values[twin]
        rounds = spread([one / max(two, NOTHING) for one, two in zip(mine, other)])
        return rounds._replace(median=statistics.median(mine) / max(statistics.median(other), NOTHING))

    def best(self, name: str) -> float:
        """The greatest rate, or the least time: what was measured while the host took least away."""
        return (max if self.what(name) == "rate" else min)(self.values[name])

    def best_ratio(self, name: str, twin: str) -> float:
        """That of the best rounds of each."""
        return self.best(name) / max(self.best(twin), NOTHING)

    def listed(self) -> list[dict[str, object]]:
        """The project's figures as data, each with its twin's, as dev/results.py has them."""
        twins, found = dict(self.pairs()), []
        for name in self.values:
            if PROJECT not in name:
                continue
            one: dict[str, object] = {"name": of(name), "unit": self.units[name], "project": spread(self.values[name]).rounded()}
            if name in twins:
                one["cpp"] = spread(self.values[twins[name]]).rounded()
                one["ratio"] = dict[str, object](self.ratio(name, twins[name]).rounded(), of=self.what(name))
                one["best"] = rounded(self.best_ratio(name, twins[name]))
            found.append(one)
        return found
