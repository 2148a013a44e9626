"""The crates of the repository, and how the checker is told of one. Not a script: the scripts import it."""
import os
import subprocess
from collections.abc import Iterator

ROOT = os.path.dirname(os.path.dirname(os.path.abspath(__file__)))
BYTES = 3_000_000_000  # What a process that proves a crate takes of memory. That of ring_tests ends with 4 GB.

Crates = dict[str, list[str]]  # Each with what it stands on.


def kit() -> str:
    """The folder of the toolchain."""
    return os.path.dirname(subprocess.run(["rt", "doc"], stdout=subprocess.PIPE, text=True, check=True).stdout.strip())


def room() -> int:
    """How many processes that prove a crate there is memory for."""
    free = os.sysconf("SC_AVPHYS_PAGES") * os.sysconf("SC_PAGE_SIZE")
    try:
        with open("/proc/meminfo", encoding="utf-8") as file:
            free = next(int(it.split()[1]) * 1024 for it in file if it.startswith("MemAvailable:"))
    except (OSError, StopIteration):
        pass
    return max(1, free // BYTES)


def lines() -> Iterator[tuple[str, list[str], list[str]]]:
    """The lines of crates.txt: a crate's name, what else is said of it, and what it stands on."""
    with open(f"{ROOT}/crates.txt", encoding="utf-8") as file:
        for line in file:
            head, colon, names = line.partition("#")[0].partition(":")
            if colon:
                name, *said = head.split()
                yield name, said, names.split()


def listed() -> Crates:
    """The crates in the order of crates.txt, each with what it stands on: names of crates, and of the kit's libraries."""
    return {name: names for name, _, names in lines()}


def for_c() -> list[str]:
    """The crates that are made into libraries for C."""
    return [name for name, said, _ in lines() if "staticlib" in said]


def below(crate: str, crates: Crates) -> list[str]:
    """The crates that one stands on, directly or not, lowest first."""
    found = []
    for name in crates[crate]:
        if name in crates:
            found += [it for it in [*below(name, crates), name] if it not in found]
    return found


def library(crate: str) -> str:
    """Where a crate's library is made."""
    return f"{ROOT}/crates/{crate}/out/rlib/{crate}.rlib"


def words(crate: str, crates: Crates, toolchain: str, jobs: int = 1) -> list[str]:
    """What a check of a crate by so many processes is told, in the crate's folder or in a copy of it."""
    rlibs = f"{toolchain}/rlibs"
    root = "src/main.rt" if os.path.isfile(f"{ROOT}/crates/{crate}/src/main.rt") else "src/lib.rt"
    told = ["--crate-name", crate, root]
    for name in ["std", *crates[crate]]:
        told += ["--extern", f"{name}={library(name) if name in crates else f'{rlibs}/{name}.rlib'}"]
    for folder in [rlibs, *(os.path.dirname(library(name)) for name in below(crate, crates))]:
        told += ["-L", f"dependency={folder}"]
    told += ["--antt-project", f"{toolchain}/rattle/logic/antt-project.json", "--logic-built", f"{toolchain}/logic_built"]
    return [*told, "--links", f"{crate}=", "--jobs", str(jobs)]
