"""Tries a store on three machines: whether a venue whose journal lies there may go on at another one.

    gikvand store-contract --machine 'ssh a' --machine 'ssh b' --machine 'ssh c' --folder /srv/venue/contract
        --cut './net off NAME' --join './net on NAME' --kill './power off NAME' --start './power on NAME' --stay 3700

FAILOVER.md says which properties these are, and what happens where one isn't kept. Each has a line here: `pass` or `fail`, and what
was seen. A word of --machine runs a command there, and wants no password; Python 3 is enough. The folder is one that all three have
mounted, of its own: never that of a venue. NAME in the other words is the last word of a machine's.

Without --cut and --join, or --kill and --start, the properties that need them aren't tried. What they do happens to the first
machine, and to all that is on it. Last a real venue goes on at the second one, where venued is on both. The status is 0 where nothing
failed, 1 where something did, and 2 where it couldn't be tried.
"""
import argparse

from gikvand.ports import port_of
from gikvand.store_tries import Contract
from gikvand.words import Trouble, positive

MACHINES = 3


def seconds_of(word: str) -> float:
    try:
        if 0 < (found := float(word)) < 1e9:
            return found
    except ValueError:
        pass
    raise argparse.ArgumentTypeError(f"not a number of seconds: {word}")


def folder_of(word: str) -> str:
    if not word.startswith("/"):
        raise argparse.ArgumentTypeError(f"not a whole path, which begins with /: {word}")
    return word.rstrip("/")


def add_words(parser: argparse.ArgumentParser) -> None:
    parser.add_argument("--machine", metavar="WORDS", action="append", required=True, help="what runs a command on one of three machines")
    parser.add_argument("--folder", metavar="FOLDER", type=folder_of, required=True, help="a folder of its own on the store")
    parser.add_argument("--cut", metavar="WORDS", help="what parts the machine NAME from the others")
    parser.add_argument("--join", metavar="WORDS", help="what joins it again")
    parser.add_argument("--kill", metavar="WORDS", help="what takes the power of the machine NAME")
    parser.add_argument("--start", metavar="WORDS", help="what boots it again, with the store")
    parser.add_argument("--stay", metavar="SECONDS", type=seconds_of, default=10.0,
                        help="for so long a holder stands still, and a late write waits; 10, if left out")
    parser.add_argument("--rounds", metavar="N", type=positive, default=100, help="rounds of the stale look; 100, if left out")
    parser.add_argument("--port", metavar="PORT", type=port_of, default=9801, help="the real venue's port; 9801, if left out")


def run(given: argparse.Namespace) -> int:
    if len(given.machine) != MACHINES:
        raise Trouble(f"give --machine {MACHINES} times, and not {len(given.machine)}")
    return Contract(given).run()
