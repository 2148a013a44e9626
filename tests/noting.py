"""What scripts ask of the system, as tests/refusals.c notes it: opens, writes, syncs, renames, locks and modes, in their order. Not
a test: tests import it."""
import atexit
import fcntl
import functools
import os
import shutil
import subprocess
import tempfile
from typing import NamedTuple

from refusals import compiled
from venues import PATIENCE

LOCKED = str(fcntl.LOCK_EX | fcntl.LOCK_NB)
MADE, SHORTENED = os.O_CREAT, os.O_TRUNC


class Call(NamedTuple):
    """A call: its name, the file, beside the folder in which the script ran, and its flags, bytes or other name."""
    name: str
    file: str
    more: str


def can_be_noted() -> bool:
    """Whether cc is there, which compiles what notes them. Where it isn't a line says so."""
    if shutil.which("cc"):
        return True
    print("cc isn't installed, which compiles tests/refusals.c: what scripts ask of the system isn't looked at")
    return False


@functools.cache
def library() -> str:
    folder = tempfile.mkdtemp(prefix="noting-")
    atexit.register(shutil.rmtree, folder, ignore_errors=True)
    path = os.path.join(folder, "refusals.so")
    compiled("tests/refusals.c", path, "-shared", "-fPIC", "-ldl")
    return path


def noted(*words: str, folder: str = ".", **environment: str) -> tuple[int, list[Call]]:
    """Runs a script in this folder to its end: its status, and its calls at the files there."""
    folder = os.path.realpath(folder)
    with tempfile.TemporaryDirectory(prefix="noted-") as place:
        told = os.path.join(place, "told")
        settings = {"LD_PRELOAD": library(), "REFUSE": "device", "REFUSE_AT": "1", "REFUSE_HOW": "note", "REFUSE_TOLD": told,
                    "REFUSE_SCRIPTS": "1"}
        it = subprocess.run(words, cwd=folder, env={**os.environ, **settings, **environment}, capture_output=True, timeout=PATIENCE)
        with open(told, encoding="utf-8", errors="surrogateescape") as file:
            calls = [Call(*line.rstrip("\n").split(" ")) for line in file]
    return it.returncode, [Call(name, beside(path, folder), beside(more, folder) if name == "rename" else more)
                           for name, path, more in calls if is_in(path, folder)]


def is_in(path: str, folder: str) -> bool:
    return os.path.join(folder, path) == folder or os.path.join(folder, path).startswith(f"{folder}/")


def beside(path: str, folder: str) -> str:
    return os.path.relpath(os.path.join(folder, path), folder)


def order_of(calls: list[Call], *files: str) -> list[str]:
    """What is done to these files, in words, and each of some in a row once: reads, and opens that make nothing, left out."""
    found: list[str] = []
    for name, file, more in calls:
        if file not in files or name in ("pread", "statx") or name == "open" and not int(more) & MADE:
            continue
        word = {"fsync": "sync", "fdatasync": "sync", "pwrite": "write"}.get(name, name)
        words = f"{word} {file} {more}" if name in ("rename", "flock") else f"{word} {file}"
        if found[-1:] != [words]:
            found.append(words)
    return found
