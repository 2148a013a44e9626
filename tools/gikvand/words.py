"""Counts and times in words, as the commands print them, numbers in words of the command line, what a module says of itself, what went
wrong, and what has to be there."""
import argparse
import ast
import datetime
import types
from typing import TypeVar

T = TypeVar("T")


class Trouble(Exception):
    """What went wrong, in words."""


def sure(it: T | None) -> T:
    """What has to be there: the pipe of a program that was started with one, or the match of a text that has such a form."""
    if it is None:
        raise TypeError("what has to be there isn't")
    return it


def positive(word: str) -> int:
    """A number above 0, as a word of a command line."""
    if not word.isdecimal() or not int(word):
        raise argparse.ArgumentTypeError(f"not a number above 0: {word}")
    return int(word)


def some(count: int, noun: str) -> str:
    """So many of these, as `1 block` and `2 entries`."""
    if count == 1:
        return f"1 {noun}"
    return f"{count} {noun[:-1]}ies" if noun.endswith("y") else f"{count} {noun}s"


def size(count: int) -> str:
    """So many bytes, as `133009 bytes` and `52.4 GB`."""
    if count < 1_000_000:
        return some(count, "byte")
    unit, name = next((unit, name) for unit, name in ((10 ** 12, "TB"), (10 ** 9, "GB"), (10 ** 6, "MB")) if count >= unit)
    return f"{count / unit:.1f} {name}"


def while_of(seconds: float) -> str:
    """So long, as `2 s`, `5 min`, `3 h` and `2 days`."""
    for unit, most, name in ((1, 120, "s"), (60, 120, "min"), (3600, 48, "h")):
        if seconds < most * unit:
            return f"{seconds / unit:.0f} {name}"
    return f"{seconds / 86400:.0f} days"


def time_of_day() -> str:
    """The time by this machine's clock, in UTC."""
    return datetime.datetime.now(datetime.timezone.utc).strftime("%Y-%m-%d %H:%M:%SZ")


def stamped(line: str) -> str:
    """A line of a command that goes on, behind the time of day."""
    return f"{time_of_day()} {line}"


def text_of(module: types.ModuleType) -> str:
    """What a module says of itself, also where Python has dropped that (PYTHONOPTIMIZE=2)."""
    if module.__doc__:
        return module.__doc__
    with open(str(module.__file__), encoding="utf-8") as file:
        return ast.get_docstring(ast.parse(file.read()), clean=False) or ""
