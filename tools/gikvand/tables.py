"""Rows for people and for programs: as words, as CSV with a line of names, or as JSON, an object a line."""
import argparse
import csv
import json
import sys
from collections.abc import Callable
from typing import TypeVar

Row = dict[str, str | int]
Item = TypeVar("Item")


def add_options(parser: argparse.ArgumentParser) -> None:
    form = parser.add_mutually_exclusive_group()
    form.add_argument("--csv", action="store_true", help="as CSV, with a first line of names")
    form.add_argument("--json", action="store_true", help="as JSON, an object a line")


def writer(given: argparse.Namespace, names: list[str], row_of: Callable[[Item], Row],
           words_of: Callable[[Item], str]) -> Callable[[Item], None]:
    """What writes something to standard output in the form that is asked for: as a row with these names, or in words."""
    if given.csv:
        table = csv.DictWriter(sys.stdout, names, restval="", lineterminator="\n")
        table.writeheader()
        return lambda it: table.writerow(row_of(it))
    if given.json:
        return lambda it: print(json.dumps(row_of(it)))
    return lambda it: print(words_of(it))
