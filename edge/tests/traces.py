"""What a program tells of how it was built. One that tells nothing has the same bytes in whatever folder and on whatever day."""
import os
import re

import sanitized
from edges import ROOT, Trouble

DAY = re.compile(rb"(?:Jan|Feb|Mar|Apr|May|Jun|Jul|Aug|Sep|Oct|Nov|Dec) [ 0-3]\d 2\d{3}")


def need_none(program: str) -> None:
    """A program may tell neither a folder nor a day that it was built in, but with a sanitizer, which tells lines of sources."""
    with open(program, "rb") as file:
        data = file.read()
    folders = [it for it in (f"{ROOT}/", f"{os.path.dirname(program)}/") if it.encode() in data]
    found = [*folders, *(it.decode() for it in DAY.findall(data))]
    if found and not any(it in data for it in sanitized.MARKS.values()):
        raise Trouble(f"the program tells how it was built: {found}")
