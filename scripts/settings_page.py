"""The man page of gikvand-edge's settings: their list is made from the table of docs/EDGE.md, and its example is a file. Not a
program: scripts/package imports it."""
import re
import textwrap

HEAD = "| setting | value | where it is left out |"
HERE = '.\\" (here stands the {})\n'  # A line of the page in whose place something comes.
WIDTH = 78
LINK = re.compile(r"\[([^]]*)\]\([^)]*\)")
SENTENCE = re.compile(r"(?<=[.!?]) +")


def filled(page: str, edge: str, example: str) -> str:
    """The page, with the list and the example in the places of their lines, where it has them."""
    return page.replace(HERE.format("list of settings"), listed(edge)).replace(HERE.format("example"), example)


def listed(edge: str) -> str:
    """The table's settings: the name of each, its value, and what holds where it is left out."""
    items = [line for names, value, left_out in rows_of(edge) for line in item(names, value, left_out)]
    return "\n".join([".Bl -tag -width Ds", *items, ".El", ""])


def rows_of(edge: str) -> list[list[str]]:
    """The cells of each row."""
    lines = edge.partition(f"\n{HEAD}\n")[2].partition("\n\n")[0].splitlines()[1:]
    if not lines:
        raise ValueError(f"docs/EDGE.md has no table {HEAD}")
    return [[cell.strip() for cell in line.strip("|").split(" | ")] for line in lines]


def item(names: str, value: str, left_out: str) -> list[str]:
    head = " , ".join(f"Cm {it}" for it in re.findall(r"`(\w+)`", names))
    left_out = f"It is {left_out}" if left_out.startswith("needed") else f"Where it is left out: {left_out}"
    return [f".It {head}", *prose(f"{value[0].upper()}{value[1:]}."), *prose(f"{left_out}.")]


def prose(text: str) -> list[str]:
    """A text of Markdown as lines of mdoc, each sentence beginning one: what is code there is quoted here."""
    plain, *rest = LINK.sub(r"\1", text).split("`")
    lines: list[str] = []
    for code, behind in zip(rest[::2], rest[1::2]):
        opening, plain = ("( ", plain[:-1]) if plain.endswith("(") else ("", plain)
        closing = behind[:len(behind) - len(behind.lstrip(",.;:)"))]
        lines += [*wrapped(plain), " ".join([f".Ql {opening}{code}", *closing])]
        plain = behind[len(closing):]
        if plain and not plain.startswith(" "):
            raise ValueError(f"in a setting's words something follows a quote at once: {text}")
    return lines + wrapped(plain)


def wrapped(words: str) -> list[str]:
    """Plain words as lines. None begins with what mdoc would take for its own."""
    sentences = SENTENCE.split(words.strip())
    found = [line for it in sentences for line in textwrap.wrap(it, WIDTH, break_on_hyphens=False)]
    return [f"\\&{it}" if it[0] in ".'" else it for it in found]
