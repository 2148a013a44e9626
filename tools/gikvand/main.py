"""The command line: `gikvand COMMAND`, each a module of this package with the functions `add_words` and `run`."""
import argparse
import importlib
import os
import sys
import types
from collections.abc import Callable
from typing import TextIO

from gikvand.files import Output
from gikvand.words import Trouble, text_of

COMMANDS = {"verify": "says whether a journal, or a copy of one, is whole and unchanged",
            "reports": "shows what a journal has for a member, as for one who was away",
            "trades": "lists the trades, each once with both of its sides",
            "follow": "ships a journal to a copy, also while it is in use",
            "audit": "keeps a log of when each block came, and of all bytes before it",
            "why": "says why a journal isn't opened: which cause fault 41 has, which block fault 42",
            "watch": "looks at a venue once: its process, journal, disk and members",
            "board": "shows a journal as a page for a browser, also while it is in use",
            "trade": "trades by words, as a member",
            "demo": "shows a venue of two members, from its start to its journal",
            "day": "draws the day that a journal holds",
            "store-contract": "tries whether a venue may go on at another machine by a store",
            "provenance": "tells whether installed programs are those of a release"}
DONE, FOUND, NOT_DONE = 0, 1, 2  # The statuses: as it should be; something was found that isn't; it couldn't be done.


def module_of(name: str) -> types.ModuleType:
    """The module of a command."""
    return importlib.import_module(f"gikvand.{name.replace('-', '_')}")


def parser_of(name: str) -> argparse.ArgumentParser:
    """What reads the words of a command."""
    command = module_of(name)
    parser = argparse.ArgumentParser(prog=f"gikvand {name}", description=text_of(command), formatter_class=argparse.RawDescriptionHelpFormatter)
    command.add_words(parser)
    return parser


def usage() -> str:
    listed = "".join(f"    {name:14} {what}\n" for name, what in COMMANDS.items())
    return ("usage: gikvand COMMAND WORD...\n\n"
            f"Tools for the venue's journal and members.\n\n{listed}\n"
            "`gikvand COMMAND --help` tells the words of one. `gikvand --version` is the release's number.")


def version() -> str:
    from gikvand.programs import ROOT  # (here, since that takes a while, and not each command wants it)
    with open(os.path.join(ROOT, "VERSION"), encoding="ascii") as file:
        return f"gikvand {file.read().strip()}"


def stop(line: str) -> int:
    """The status of what couldn't be done, with a line that says why."""
    try:
        print(line, file=sys.stderr, flush=True)
    except OSError:
        forget(sys.stderr)
    return NOT_DONE


def forget(output: TextIO) -> None:
    """What this output holds can't be written: else Python would say that once more at its end."""
    if isinstance(output, Output):
        output.forget()


def ended(name: str, work: Callable[[], int], about: dict[str, str]) -> int:
    """Does this work of the command of this name, and answers the status, however that ends. A fault of the system that has no
    file's name in it is one of the journal, where there is one."""
    try:
        try:
            return work()
        finally:
            sys.stdout.flush()  # Behind the help of a command, too, which ends by an exit of its own.
    except Trouble as why:
        return stop(f"{name}: {why}")
    except BrokenPipeError:
        forget(sys.stdout)
        return NOT_DONE
    except OSError as why:
        forget(sys.stdout)
        file = why.filename or about.get("journal")
        return stop(f"{name}: {f'{file}: ' if file else ''}{why.strerror or why}")
    except KeyboardInterrupt:
        return stop(f"{name}: interrupted")


def run(name: str, words: list[str]) -> int:
    """Runs a command, and answers the status."""
    about = dict[str, str]()
    def work() -> int:
        given = parser_of(name).parse_args(words)
        about.update((it, value) for it, value in vars(given).items() if it == "journal" and value)
        return module_of(name).run(given)
    return ended(f"gikvand {name}", work, about)


def say(text: str) -> int:
    print(text)
    return DONE


def chosen(name: str, words: list[str]) -> int:
    """Does what the first word of the command line asks, and answers the status."""
    if name == "help" and words[:1] and words[0] in COMMANDS:
        name, words = words[0], ["--help"]
    if name in ("-h", "--help", "help", "--version"):
        if words:
            return stop(f"gikvand: {name} takes no word like {words[0]!r}")
        return ended("gikvand", lambda: say(version() if name == "--version" else usage()), {})
    if name not in COMMANDS:
        return stop(f"gikvand: {name!r} is no command; gikvand --help lists them" if name else usage())
    return run(name, words)


def is_open(fd: int) -> bool:
    try:
        os.fstat(fd)
    except OSError:
        return False
    return True


def has_output() -> bool:
    """Whether there is a standard output. A descriptor that is closed would be the next file's: it gets /dev/null."""
    found = is_open(1)
    for fd in (0, 1, 2):
        if not is_open(fd):
            os.open(os.devnull, os.O_RDWR)  # The lowest that is free.
    if sys.stdin is None:
        sys.stdin = open(0, encoding="utf-8", closefd=False)
    for name, fd in (("stdout", 1), ("stderr", 2)):
        was = getattr(sys, name)
        how = {"encoding": was.encoding, "line_buffering": was.line_buffering, "write_through": was.write_through} if was else {}
        inside = was.detach() if was else open(fd, "wb", closefd=False)
        setattr(sys, name, Output(inside, errors="backslashreplace", **how))
    return found


def main() -> int:
    if not has_output():
        return stop("gikvand: standard output is closed")
    name, *words = sys.argv[1:] or [""]
    return chosen(name, words)
