"""Where two rules stand, beside the page that states them: the table of order fields, and what two orders trade. Each has a proved home,
one in the tests' oracle, and one in the twins that the venue is measured beside. Not a program: dev/measures counts them."""
import os
import re
import subprocess
from collections.abc import Iterable

# Which home a file belongs to, by the beginning of its path. Any other file is a home of its own.
HOMES = {"crates/": "proved", "tests/oracle/": "oracle", "tests/wrong_rules.py": "oracle", "dev/twins/": "twin"}
# What states the table or is made of it, what is another table, that of the edge's own members, and what looks for tables.
APART = {"docs/PROFILE.md": "the page", "docs/FIX44-gikvand.xml": "made by tests/dictionary.py", "edge/src/orders.cpp": "of docs/EDGE.md",
         "dev/homes.py": "this", "tests/test_homes.py": "its tests"}

# The order fields. A table names them bare, by number or by name, and no message does: there a value follows, as in 38=5 or (38, 5).
FIELDS = {11: "ClOrdI[Dd]", 38: "OrderQty", 40: "OrdType", 41: "OrigClOrdI[Dd]", 44: "Price", 54: "Side", 55: "Symbol",
          59: "TimeInForce", 60: "TransactTime"}
BARE = [re.compile(rf"(?:(?<=[\s<{{\[,|∷])|(?<=case )){tag}(?=\s*[,:>}}\]|∷]| =>)|(?<![A-Za-z_]){name}(?![A-Za-z_])")
        for tag, name in FIELDS.items()]
ROWS = 12  # A table has all of them in so many lines.
# What two orders trade is the lesser of what is left of them.
LEFT = r"\b(?:left|leaves|cum)\b"
TRADED = re.compile(rf"\bmin\b.*{LEFT}.*{LEFT}|{LEFT}.*\bmin\b.*{LEFT}")


def paths(root: str) -> list[str]:
    """The files that git knows, or where git knows nothing of this folder all that lie there."""
    asked = subprocess.run(["git", "-C", root, "ls-files", "-z"], capture_output=True, text=True)
    if not asked.returncode:
        return asked.stdout.split("\0")
    return [os.path.relpath(os.path.join(folder, name), root) for folder, _, names in os.walk(root) for name in sorted(names)]


def texts(root: str) -> Iterable[tuple[str, str]]:
    """The text of each file, but for what is no text."""
    for path in paths(root):
        if os.path.isfile(place := os.path.join(root, path)):
            with open(place, encoding="utf-8", errors="replace") as file:
                yield path, file.read()


def first_table(text: str) -> int | None:
    """The first line of a table of order fields, or None."""
    lines = text.splitlines() if all(it.search(text) for it in BARE) else []
    named = [{at for at, it in enumerate(BARE) if it.search(line)} for line in lines]
    return next((at + 1 for at in range(len(lines)) if len(set().union(*named[at:at + ROWS])) == len(BARE)), None)


def first_match(text: str) -> int | None:
    """The first line that says what two orders trade, or None."""
    return next((at for at, line in enumerate(text.splitlines(), 1) if TRADED.search(line)), None)


def homes(found: Iterable[tuple[str, int | None]]) -> list[str]:
    """The homes of what stands at these lines of files, each with the first of them."""
    places: dict[str, str] = {}
    for path, line in found:
        if line and path not in APART:
            places.setdefault(next((home for start, home in HOMES.items() if path.startswith(start)), path), f"{path}:{line}")
    return [f"{home}  {place}" for home, place in places.items()]


def counted(root: str) -> dict[str, list[str]]:
    """The homes of the table of order fields, and those of a match."""
    files = list(texts(root))
    code = [it for it in files if not it[0].endswith(".md")]
    return {"tables": homes((path, first_table(text)) for path, text in files),
            "matches": homes((path, first_match(text)) for path, text in code)}
