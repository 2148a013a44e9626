#!/usr/bin/env python3
"""Checks that the definitions in docs/HEADLINE.md stand there as they do in the sources.

    tests/headline.py [--write] [HEADLINE]

A definition stands behind a line `<!-- NAME -->`, in a block of its own, without the comment above it in the sources.
Each one that differs has a line; with --write it is put there as it is. The last line is `N passed, M failed`, and the
status is 1 where one failed.
"""
import argparse
import os
import re
import sys
import textwrap

ROOT = os.path.dirname(os.path.dirname(os.path.abspath(__file__)))
sys.path.insert(0, os.path.join(ROOT, "dev"))

import with_scripts  # (in front of what stands there, and of what an older Python can't read)
import contracts
from below import Entry, Project

SHOWN = re.compile(r"^<!-- (\S+) -->\n(?:```\w*\n.*?^```\n)?", re.M | re.S)
FEWEST = 15


def text_of(project: Project, name: str) -> str | None:
    """A definition's text, without its comment; None where there isn't just one of this name."""
    found = sorted({it for _, it in project.candidates(name.split("::")) if isinstance(it, Entry)})
    if len(found) != 1:
        return None
    entry = found[0]
    lines = contracts.lines_of(entry.path)[entry.line:project.specs[entry.path][entry.name].last]
    return textwrap.dedent("\n".join(lines)).rstrip()


def main() -> int:
    parser = argparse.ArgumentParser(description=__doc__, formatter_class=argparse.RawDescriptionHelpFormatter)
    parser.add_argument("--write", action="store_true", help="put the definitions there")
    parser.add_argument("path", nargs="?", default=os.path.join(ROOT, "docs", "HEADLINE.md"), metavar="HEADLINE")
    asked = parser.parse_args()
    with open(asked.path, encoding="utf-8") as file:
        page = file.read()
    project, counts = Project(), {"same": 0, "other": 0}

    def as_it_is(shown: re.Match) -> str:
        text = text_of(project, shown[1])
        block = f"<!-- {shown[1]} -->\n```text\n{text}\n```\n"
        counts["same" if block == shown[0] and text else "other"] += 1
        if text is None:
            print(f"{shown[1]}: there isn't just one definition of this name")
            return shown[0]
        if block != shown[0] and not asked.write:
            print(f"{shown[1]}: the sources have it otherwise")
        return block

    written = SHOWN.sub(as_it_is, page)
    if asked.write:
        with open(asked.path, "w", encoding="utf-8") as file:
            file.write(written)
    if sum(counts.values()) < FEWEST:
        print(f"the page shows fewer than {FEWEST} definitions")
        counts["other"] += 1
    print(f"{counts['same']} passed, {counts['other']} failed")
    return 1 if counts["other"] else 0


if __name__ == "__main__":
    sys.exit(main())
