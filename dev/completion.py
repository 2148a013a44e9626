"""The words that bash completes for `gikvand`, as its commands take them. Not a script: dev/pages imports it."""
import re
import textwrap

import with_scripts  # (in front of what stands there, and of what an older Python can't read)
from gikvand import main as tools

# What stands between these lines is made.
MADE = re.compile(r"(?<=^# made by dev/pages --write: what the commands of gikvand take\n).*?(?=^# end of that$)", re.M | re.S)
FILED = ("FILE", "FOLDER", "JOURNAL")  # What a value is called that is a file's name.
WIDTH = 120


def filled(text: str) -> str:
    """The completion, with what is made in its place."""
    return MADE.sub(lambda _: made(), text, count=1)


def made() -> str:
    """The options of each command, those of all that have a value, and those whose value is a file's name."""
    options = {name: [it for it in tools.parser_of(name)._actions if it.option_strings and it.dest != "help"] for name in tools.COMMANDS}
    rows = "".join(f'    [{name}]="{" ".join(it.option_strings[0] for it in found)}"\n' for name, found in options.items())
    valued = {it.option_strings[0]: it.metavar or it.dest.upper() for found in options.values() for it in found if it.nargs is None}
    lines = [assigned(name, words) for name, words in (
        ("_gikvand_valued", sorted(valued)), ("_gikvand_filed", sorted(it for it in valued if valued[it] in FILED)))]
    return f"declare -gA _gikvand_options=(\n{rows})\n{''.join(lines)}"


def assigned(name: str, words: list[str]) -> str:
    """The line that gives a variable these words, with a blank round each."""
    return "\n".join(textwrap.wrap(f'{name}=" {" ".join(words)} "', WIDTH, drop_whitespace=False, break_long_words=False,
                                   break_on_hyphens=False)).replace("\n", "\\\n") + "\n"
