"""The man page of gikvand: its commands are told by what each says of itself, and by the words that each takes. Not a program:
scripts/package imports it."""
import argparse
import textwrap
from collections.abc import Iterator

import with_tools  # (in front of what stands in the package gikvand)
from gikvand import main as tools
from gikvand import symbols
from gikvand.words import sure
from settings_page import prose

HERE = '.\\" (here stand the commands)\n'  # The line of the page in whose place they come.


def filled(page: str) -> str:
    """The page, with the commands in the place of that line, where it has the line."""
    if HERE not in page:
        return page
    return page.replace(HERE, "".join(f"{line}\n" for name in tools.COMMANDS for line in command(name)))


def command(name: str) -> Iterator[str]:
    """The lines of a command: how it is called, what it says of itself, and its options, but for one that the page has of all."""
    parser = tools.parser_of(name)
    yield f".Ss {' '.join([name, *called(parser)])}"
    for number, part in enumerate(sure(parser.description).strip("\n").split("\n\n")):
        if part.startswith(" "):
            yield from literal(part)
        else:
            yield from [".Pp"] * (number > 0) + prose(" ".join(part.split()))
    options = [it for it in parser._actions if it.option_strings and not isinstance(it, argparse._HelpAction) and not is_common(it)]
    if options:
        yield ".Bl -tag -width Ds"
        for it in options:
            words = sure(it.help)
            yield f".It {macro(it)}"
            yield from prose(f"{words[0].upper()}{words[1:]}.")
        yield ".El"


def called(parser: argparse.ArgumentParser) -> list[str]:
    """The words of a command in their order, as mdoc writes them: first its options, and those together of which one is given."""
    found: list[str] = []
    groups = {id(it): group for group in parser._mutually_exclusive_groups for it in group._group_actions}
    for it in parser._actions:
        group = groups.get(id(it))
        if isinstance(it, argparse._HelpAction) or group and it is not group._group_actions[0]:
            continue
        words = " | ".join(map(macro, group._group_actions)) if group else macro(it)
        is_needed = it.required and it.nargs not in ("?", "*")
        found.append(words if is_needed else f"Oo {words} Oc" if it.option_strings else f"Op {words}")
    return sorted(found, key=lambda it: "Fl" not in it)


def macro(it: argparse.Action) -> str:
    """An option or a word, as mdoc writes it."""
    value = str(it.metavar or (it.dest.upper() if it.option_strings else it.dest))
    if not it.option_strings:
        return f"Ar {value}{' ...' if it.nargs == '*' else ''}"
    return f"Fl {it.option_strings[0].removeprefix('-')}{f' Ar {value}' if it.nargs is None else ''}"


def is_common(it: argparse.Action) -> bool:
    """Whether the page tells of an option for all commands."""
    common = argparse.ArgumentParser()
    symbols.add_option(common)
    return it.help == common._actions[-1].help


def literal(part: str) -> list[str]:
    """Lines that are shown as they stand: examples, or a command's own words."""
    lines = textwrap.dedent(part).replace("\\", "\\e").splitlines()
    return [".Bd -literal -offset 2n", *(f"\\&{it}" if it.startswith((".", "'")) else it for it in lines), ".Ed"]
