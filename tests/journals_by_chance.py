#!/usr/bin/env python3
"""Runs venue-replay on journals that are chosen by chance, and compares what it does with the rules in plain Python.

    tests/journals_by_chance.py                     the sample that the full check takes, the same each time
    tests/journals_by_chance.py --journals 100000   as many journals, however long that takes
    tests/journals_by_chance.py --seed N            other journals; --new-seed, by a seed that is drawn, and told
    tests/journals_by_chance.py --only NUMBER       one of them
    tests/journals_by_chance.py --rules-alone       no program is run: the wrong rules are tried, and what the journals meet is told

The journals are of all versions, with limit and market orders, cancels, replaces and messages with faults; those of version
3 have snapshots at any places, true ones and such as have one byte or one field changed; some journals are damaged. On each
the words book, Cn, check, carry and snapshot are run, one after the other, and then some again, on what was carried over
too. Status, standard output, standard error and the files have to be those of tests/oracle/replay_rules.py. Of a file that a failed
carry leaves nothing is asked; it is deleted.

`wrong_rules` shows that these journals tell: each of the wrong rules of tests/wrong_replays.py has to differ on one of them.
`journals` compares the program. The sample's journals, or 10,000 others, have to meet each end that venue-replay has, and break each
condition of a snapshot.

What differs is shown with the number of its journal, which is kept as a file of that name where --keep says a folder. The
last line is `N passed, M failed`, and the status is 1 where one failed. Nothing more is tried behind the third wait that ran out. Build the program first, by scripts/build; another is
taken by the environment's VENUE_REPLAY, and tests/oracle/replay_rules.py is one.
"""
import argparse
import collections
import concurrent.futures
import functools
import os
import random
import re
import sys
import tempfile
import time
from collections.abc import Callable, Iterator
from itertools import zip_longest
from typing import NamedTuple

from oracle.replay_rules import USAGE, WRONG_WORDS, Outcome, Replayer, Symbols, counts, line_of, said  # (first: it finds others)
from checks import in_order, put
from gikvand.journals import MEMBERS, Journal, Snapshot
from gikvand.words import positive
from journal_writer import DEEP, Chosen, chosen, deep
from replay_program import FOLDERS, Program, is_built, not_built
from oracle import snapshot_rules
from oracle.book_rules import Book
from oracle.snapshot_rules import BadSnapshot
from venues import MOST_RAN_OUT, NO_MORE, RanOut, Trouble, ran_out
from wrong_replays import CONDITIONS, WITHOUT, WRONG, Wrong

SEED = "1"           # Of the sample. Where its journals come to lack something, --rules-alone --new-seed finds another seed.
SAMPLE = 1_200       # Journals of the full check,
MANY = 10_000        # and those among which one has to tell a wrong rule, by any seed.
A_BATCH = 50
DEEP_JOURNAL = 6_000  # Messages of the journal with a deep book.
MET = {"book": r"J book 0", "reports": r"J Cn 0", "true snapshots": r"J check 0",
       "false snapshot": r"J check 1 .*false snapshot", "snapshot added": r"J snapshot 0",
       "carried over": r"J carry 0", "no carry": r"J carry 1 .*fault 45",
       "no snapshot": r"J snapshot 1 .*fault 45", "NEW exists": r".*NEW exists", "no journal": r"J .*fault 43",
       "damaged": r"J check 1 .*fault 42 at", "new book": r"N book 0", "new reports": r"N Cn 0", "new checked": r"N check 0",
       "new snapshot": r"N snapshot 0", "missing": r"N .*fault 41"}
SHOWN = {name: re.compile(form) for name, form in MET.items()}

Test = Callable[[argparse.Namespace], tuple[str, list[Trouble]]]  # What a test came to, and what differs.


class Step(NamedTuple):
    """A run that the rules know of: its words, how it ends, and the files then."""
    words: list[str]
    outcome: Outcome
    files: dict[str, bytes]


class Telling(Replayer):
    """The rules, which tell why a snapshot was none."""

    def __init__(self, files: dict[str, bytes]) -> None:
        super().__init__(files)
        self.met: list[str] = []

    def restore(self, it: Snapshot, journal: Journal, symbols: Symbols) -> Book:
        try:
            snapshot_rules.restore(it.data, symbols, journal.cut)
        except BadSnapshot as why:
            self.met.append(f"refused for its {why}")
        return super().restore(it, journal, symbols)


class WrongRules:
    """A program that goes by a wrong rule."""

    def __init__(self, wrong: Wrong) -> None:
        self.wrong, self.stored = wrong, dict[str, bytes]()

    def put(self, files: dict[str, bytes]) -> None:
        self.stored = dict(files)

    def drop(self, name: str) -> None:
        self.stored.pop(name, None)

    def run(self, words: list[str]) -> Outcome:
        with self.wrong.put():
            try:
                return Replayer(self.stored).run(words)
            except (LookupError, ValueError, TypeError) as why:
                return Outcome(-1, "", f"{why!r}")

    def files(self) -> dict[str, bytes]:
        return self.stored


def judged(it: Chosen) -> tuple[list[Step], list[str]]:
    """The runs on this journal as the rules know them, and why snapshots were refused in them."""
    rules, steps = Telling({"J": it.data}), []
    for words in it.runs:
        outcome = rules.run(words)
        steps.append(Step(words, outcome, dict(rules.files)))
    return steps, rules.met


def short(it: object) -> str:
    """This in words that fit into a line or two."""
    text = it.hex() if isinstance(it, bytes) else repr(it)
    return text if len(text) < 400 else f"{text[:200]}..{text[-200:]} ({len(text)} characters)"


def files_difference(wanted: dict[str, bytes], came: dict[str, bytes]) -> str | None:
    for name in sorted({*wanted, *came}):
        if wanted.get(name) != came.get(name):
            return f"expected {name} {short(wanted.get(name))} came {short(came.get(name))}"
    return None


def difference(it: Chosen, steps: list[Step], tried: Program | WrongRules) -> str | None:
    """How what is tried differs from the rules on this journal, or None."""
    tried.put({"J": it.data})
    for at, (words, wanted, files) in enumerate(steps):
        came = tried.run(words)
        if came != wanted:
            return f"run {at}, {' '.join(words)}: expected {short(wanted)} came {short(came)}"
        if "N" not in files:
            tried.drop("N")
        if why := files_difference(files, tried.files()):
            return f"run {at}, {' '.join(words)}: {why}"
    return None


def seen(steps: list[Step]) -> Iterator[str]:
    """What these runs met."""
    for words, outcome, _ in steps:
        line = f"{words[0]} {re.sub('C[1-8]', 'Cn', words[1])} {outcome.status} {outcome.err}"
        yield from (name for name, form in SHOWN.items() if form.match(line))


def batch(numbers: list[int], given: argparse.Namespace) -> tuple[collections.Counter[str], int, list[Trouble]]:
    """Compares the program on these journals: what they met, how often it ran, and what differs, up to a wait that ran out."""
    met, runs, faults = collections.Counter[str](), 0, list[Trouble]()
    with tempfile.TemporaryDirectory(prefix="journals-", dir=FOLDERS) as folder:
        for number in numbers:
            it = chosen(given.seed, number)
            steps, refused = judged(it)
            met.update([*seen(steps), *refused])
            if given.rules_alone or any(map(ran_out, faults)):
                continue
            runs += len(steps)
            try:
                why = difference(it, steps, Program(folder))
            except RanOut as late:
                faults.append(RanOut(f"journal {number}: {late}{kept(given.keep, number, it.data)}"))
            else:
                faults += [Trouble(f"journal {number}: {why}{kept(given.keep, number, it.data)}")] if why else []
    return met, runs, faults


def kept(folder: str | None, number: int, data: bytes) -> str:
    """Keeps a journal that shows a difference, and says where; a short one is shown."""
    if folder is None:
        return f"; its bytes: {short(data)}"
    os.makedirs(folder, exist_ok=True)
    return f"; kept as {put(os.path.join(folder, f'{number}.journal'), data)}"


def journals(given: argparse.Namespace) -> tuple[str, list[Trouble]]:
    """The program on journals by chance."""
    numbers = [given.only] if given.only is not None else list(range(given.journals))
    calls = [functools.partial(batch, numbers[at:at + A_BATCH], given) for at in range(0, len(numbers), A_BATCH)]
    met, runs, faults = collections.Counter[str](), 0, list[Trouble]()
    for some, count, differ in in_order(concurrent.futures.ProcessPoolExecutor(given.together), calls, given.together):
        met, runs, faults = met + some, runs + count, faults + differ
        if sum(map(ran_out, faults)) == MOST_RAN_OUT:
            return f"{runs} runs", faults
    wanted = [*MET, *(f"refused for its {it}" for it in CONDITIONS)]
    print("    " + ", ".join(f"{it}: {met[it]}" for it in wanted))
    if len(numbers) >= (SAMPLE if given.seed == SEED else MANY):
        faults += [Trouble(f"no journal met {it}") for it in wanted if not met[it]]
    return f"{len(numbers)} journals, {runs} runs", faults


def deep_book(given: argparse.Namespace) -> tuple[str, list[Trouble]]:
    """The program on a journal in whose book some three thousand orders rest."""
    it = deep(given.seed, DEEP_JOURNAL)
    wanted = {"book": [line_of(order) for order in it.book.listed()],
              **{f"C{client}": [said(report) for report in it.told if report.to == client] for client in MEMBERS}}
    faults = [] if len(it.book.resting) > DEEP // 2 else [Trouble(f"too few orders rest: {len(it.book.resting)}")]
    with tempfile.TemporaryDirectory(prefix="journals-", dir=FOLDERS) as folder:
        program = Program(folder)
        program.put({"J": it.data})
        for word, lines in wanted.items():
            came, lines = program.run(["J", word, "ABC"]), [*lines, counts(it.book)]
            if came != Outcome(0, "".join(f"{line}\n" for line in lines), ""):
                faults.append(Trouble(f"{word}: {first_difference(lines, came)}"))
        if (came := program.run(["J", "check", "ABC"])) != Outcome(0, "snapshots true\n", ""):
            faults.append(Trouble(f"check: came {came}"))
    return f"{DEEP_JOURNAL} messages, at the end {len(it.book.resting)} orders", faults


def first_difference(lines: list[str], came: Outcome) -> str:
    """The first line that differs."""
    pairs = zip_longest(lines, came.out.splitlines())
    where = next((f"line {at}: expected {one} came {two}" for at, (one, two) in enumerate(pairs, 1) if one != two), "")
    return f"{where} {came.status} {came.err}"


def can_differ(name: str, met: list[str]) -> bool:
    """Whether a wrong rule may differ from the rules, which have met this: one that lacks a condition does where that refuses a snapshot."""
    condition = name.removeprefix(WITHOUT)
    return condition == name or f"refused for its {condition}" in met


def told(seed: str, numbers: range, names: list[str]) -> dict[str, int]:
    """Which of these wrong rules differ on some of these journals, and on which one first."""
    found: dict[str, int] = {}
    for number in numbers:
        it = chosen(seed, number)
        steps, met = judged(it)
        for name in names:
            if name not in found and can_differ(name, met) and difference(it, steps, WrongRules(WRONG[name])):
                found[name] = number
    return found


def wrong_rules(given: argparse.Namespace) -> tuple[str, list[Trouble]]:
    """Each wrong rule differs on one of the journals. Those that are told are tried no more."""
    found: dict[str, int] = {}
    first, left = 0, list(WRONG)
    with concurrent.futures.ProcessPoolExecutor(given.together) as pool:
        while left and first < MANY:
            ranges = [range(at, at + A_BATCH) for at in range(first, min(first + A_BATCH * given.together, MANY), A_BATCH)]
            for some in pool.map(told, [given.seed] * len(ranges), ranges, [left] * len(ranges)):
                found = {**some, **found}
            first, left = ranges[-1].stop, [it for it in WRONG if it not in found]
    faults = [Trouble(f"not told from the rules by {first} journals: {it}") for it in left]
    return f"{len(found)} wrong rules, the last one by journal {max(found.values(), default=0)}", faults


def wrong_words(_: argparse.Namespace) -> tuple[str, list[Trouble]]:
    """Words that are none get the usage line, and nothing is made."""
    with tempfile.TemporaryDirectory(prefix="journals-") as folder:
        program = Program(folder)
        came = {tuple(words): program.run(words) for words in WRONG_WORDS}
        faults = [Trouble(f"{list(words)}: came {it}") for words, it in came.items() if it != Outcome(1, "", f"{USAGE}\n")]
        return f"{len(came)} runs", faults + [Trouble(f"made {it}") for it in os.listdir(folder)]


def read_words() -> argparse.Namespace:
    parser = argparse.ArgumentParser(description=__doc__, formatter_class=argparse.RawDescriptionHelpFormatter)
    parser.add_argument("--journals", type=positive, default=SAMPLE, metavar="N", help=f"so many; {SAMPLE:,}, if left out")
    parser.add_argument("--only", type=int, metavar="NUMBER", help="the journal of this number alone")
    parser.add_argument("--seed", default=SEED, help=f"what the choice begins with; {SEED}, if left out")
    parser.add_argument("--new-seed", action="store_true", help="draw the seed, and tell it")
    parser.add_argument("--together", type=positive, default=os.cpu_count(), metavar="N", help="processes side by side")
    parser.add_argument("--keep", metavar="FOLDER", help="keep the journals on which something differs")
    parser.add_argument("--rules-alone", action="store_true", help="run no program")
    given = parser.parse_args()
    if given.new_seed:
        given.seed = str(random.randrange(10 ** 9))
    return given


def tried(test: Test, given: argparse.Namespace) -> tuple[str, list[Trouble]]:
    """Runs a test, and returns what the test came to, and what differs. A wait that ran out ends the test."""
    try:
        return test(given)
    except RanOut as why:
        return "ended", [why]


def main() -> None:
    given = read_words()
    if not given.rules_alone and not is_built():
        sys.exit(f"journals_by_chance: {not_built()}")
    tests: list[Test] = [wrong_rules, journals] if given.rules_alone else [wrong_rules, wrong_words, journals, deep_book]
    tests = [journals] if given.only is not None else tests
    print(f"journals_by_chance: seed {given.seed}", flush=True)
    passed = failed = waits = 0
    for test in tests:
        begun = time.monotonic()
        what, faults = tried(test, given)
        for it in faults[:5]:
            print(f"{test.__name__}: {it}")
        print(f"{test.__name__}: {what} in {time.monotonic() - begun:.0f} s, {len(faults)} differ", flush=True)
        passed, failed, waits = passed + (not faults), failed + bool(faults), waits + sum(map(ran_out, faults))
        if waits >= MOST_RAN_OUT:
            print(NO_MORE, flush=True)
            break
    print(f"{passed} passed, {failed} failed")
    sys.exit(1 if failed else 0)


if __name__ == "__main__":
    main()
