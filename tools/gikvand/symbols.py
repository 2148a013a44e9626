"""The symbols of a journal. The journal doesn't hold them, so the file JOURNAL.symbols keeps them, as a line `ABC XYZ`."""
import argparse
import os
import re
import sys

from gikvand import files
from gikvand.journals import Damaged, NotAJournal, Reader
from gikvand.words import Trouble, some

MOST = 8
SYMBOL = re.compile("[A-Z0-9]{1,8}")
MODE = 0o666  # Of the file, but for what the user's mask keeps: it holds nothing that the journal's readers don't know.
OF_AN_ORDER = re.compile(rb"\x0135=D\x01.*?\x0155=(%b)\x01" % SYMBOL.pattern.encode())


def place_of(journal: str) -> str:
    return f"{journal}.symbols"


def are_symbols(words: list[str]) -> bool:
    """Whether these words can be a venue's symbols."""
    spelled = all(SYMBOL.fullmatch(it) for it in words)
    return spelled and 1 <= len(words) <= MOST and len(set(words)) == len(words)


def given_as(word: str) -> list[str]:
    """The symbols that a word of the command line says."""
    words = word.replace(",", " ").split()
    if not are_symbols(words):
        raise argparse.ArgumentTypeError(f"not one to {MOST} different symbols, as ABC,XYZ: {word}")
    return words


def add_option(parser: argparse.ArgumentParser) -> None:
    parser.add_argument("--symbols", type=given_as, metavar="ABC,XYZ",
                        help="the journal's symbols, in their order; those of JOURNAL.symbols, if left out")


def kept(journal: str) -> list[str] | None:
    """The symbols that stand beside a journal, or None."""
    try:
        with open(place_of(journal), encoding="latin-1") as file:
            words = file.read(1000).split()
    except FileNotFoundError:
        return None
    if not are_symbols(words):
        raise Trouble(f"{place_of(journal)} isn't a line of one to {MOST} different symbols, as ABC XYZ")
    return words


def known(journal: str, given: list[str] | None) -> list[str] | None:
    """The symbols of a journal, by the file beside it or the command line, or None. Where these differ it says so."""
    found = kept(journal)
    if found and given and found != given:
        raise Trouble(f"the journal {journal} is one of {' '.join(found)}, as {place_of(journal)} says, and not of "
                      f"{' '.join(given)}")
    return found or given


def needed(journal: str, given: list[str] | None) -> list[str]:
    """The symbols of a journal, which have to be known."""
    if (found := known(journal, given)) is None:
        raise Trouble(f"the symbols of {journal} aren't known: name them, or write them into {place_of(journal)}")
    return found


def keep(journal: str, words: list[str]) -> None:
    """Writes the symbols beside a journal, unless they stand there."""
    if kept(journal) != words:
        files.make(place_of(journal), f"{' '.join(words)}\n".encode(), MODE)


def chosen(journal: str, given: list[str] | None, default: list[str]) -> list[str]:
    """The symbols with which a venue starts on a journal: those that are kept, or else given, or the default. Given ones that
    aren't those that are kept are refused. Where the journal is missing, what is kept was another's."""
    found = known(journal, given) if os.path.exists(journal) else given
    return found or default


def strangers(journal: str, known_ones: list[str]) -> str | None:
    """What is odd about a journal's orders, in words, where not one of them is for one of these symbols; else None. It reads
    up to the first that is, or to the end of what is whole."""
    names, count, found = {it.encode() for it in known_ones}, 0, set()
    with files.opened(journal) as file:
        try:
            for block in Reader(file):
                for entry in block.entries:
                    if order := OF_AN_ORDER.search(entry.message):
                        if order[1] in names:
                            return None
                        count += 1
                        found.add(order[1].decode())
        except (NotAJournal, Damaged):
            pass
    if not found:
        return None
    shown = " ".join(sorted(found)[:MOST]) + " .." * (len(found) > MOST)
    return (f"none of {some(count, 'order')} in {journal} is for {' '.join(known_ones)}, but for {shown}: are its symbols "
            "others?")


def warn_of_strangers(command: str, journal: str, known_ones: list[str]) -> None:
    """Says on standard error where no order of a journal is for one of its symbols."""
    if odd := strangers(journal, known_ones):
        print(f"gikvand {command}: {odd}", file=sys.stderr)
