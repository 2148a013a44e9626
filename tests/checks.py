"""What tests of programs and pages share: a program that is run to its end, a text of the repository, how many passed, and what can be
had here. Not a test."""
import collections
import concurrent.futures
import contextlib
import functools
import os
import shutil
import subprocess
import sys
from collections.abc import Callable, Generator, Iterable
from importlib.util import cache_from_source
from typing import AnyStr, TypeVar

import with_scripts  # (in front of what stands there, and of what an older Python can't read)

ROOT = os.path.dirname(os.path.dirname(os.path.abspath(__file__)))
EDGE = os.path.abspath(os.environ.get("GIKVAND_EDGE", os.path.join(ROOT, "edge/out/gikvand-edge")))
LONG = 300  # Seconds for a program.
AT_END = contextlib.ExitStack()  # What is left behind all tests of a run.
# What Python has compiled goes along, so that no copy compiles it anew; a file of that which is just being written doesn't.
NOT_COPIED = shutil.ignore_patterns("out", "out-*", "*.pyc.*")
T = TypeVar("T")


class Check:
    """Counts what passed; each fault has a line of its own."""

    def __init__(self) -> None:
        self.passed, self.failed = 0, 0

    def count(self, is_right: bool, fault: str) -> None:
        if is_right:
            self.passed += 1
        else:
            self.failed += 1
            print(fault)

    def end(self) -> None:
        """Prints the last line of a test, and ends with its status."""
        print(f"{self.passed} passed, {self.failed} failed")
        sys.exit(1 if self.failed else 0)


def ran(*words: object, given: str = "", folder: str | None = None, **environment: str) -> tuple[int, str, str]:
    """Runs a program to its end: its status, and both of its outputs."""
    it = subprocess.run([str(word) for word in words], input=given, cwd=folder, env={**os.environ, **environment},
                        capture_output=True, text=True, timeout=LONG)
    return it.returncode, it.stdout, it.stderr


def printed(*words: object) -> tuple[str, int]:
    """What a program of Python prints on both of its outputs, one behind the other as they come, and its status."""
    it = subprocess.run([sys.executable, *(str(word) for word in words)], stdout=subprocess.PIPE, stderr=subprocess.STDOUT,
                        text=True, timeout=LONG)
    return it.stdout, it.returncode


def in_order(pool: concurrent.futures.Executor, calls: Iterable[Callable[[], T]], together: int) -> Generator[T, None, None]:
    """Yields the results of these calls, in the order of the calls, while so many calls run side by side. No further call begins once the
    caller takes no further result."""
    under_way = collections.deque[concurrent.futures.Future[T]]()
    try:
        for call in calls:
            under_way.append(pool.submit(call))
            if len(under_way) > together:
                yield under_way.popleft().result()
        while under_way:
            yield under_way.popleft().result()
    finally:
        pool.shutdown(cancel_futures=True)


def text_of(name: str) -> str:
    with open(os.path.join(ROOT, name), encoding="utf-8") as file:
        return file.read()


def contents(path: str | bytes) -> bytes:
    with open(path, "rb") as file:
        return file.read()


def put(path: AnyStr, data: bytes, mode: int | None = None) -> AnyStr:
    """Makes a file of these bytes, with this mode if one is given."""
    with open(path, "wb") as file:
        file.write(data)
    if mode is not None:
        os.chmod(path, mode)
    return path


def put_text(path: str, text: str, mode: int | None = None) -> str:
    """Makes a file of this text, and the folders that it stands in: its path from the root."""
    os.makedirs(os.path.dirname(os.path.abspath(path)), exist_ok=True)
    return os.path.abspath(put(path, text.encode(), mode))


def with_another(text: str, old: str, new: str, where: str) -> str:
    """A text with another part in the place of one that stands there once."""
    if text.count(old) != 1:
        raise ValueError(f"{old!r} stands {text.count(old)} times in {where}")
    return text.replace(old, new)


def change(path: str, old: str, new: str) -> None:
    """Puts another text in the place of one that stands in a file once."""
    put(path, with_another(contents(path).decode(), old, new, path).encode())


def copy_there(root: str, names: Iterable[str], folder: str) -> None:
    """Copies these files and folders of the project into a folder, without what was built."""
    for name in names:
        if os.path.isdir(path := os.path.join(root, name)):
            shutil.copytree(path, os.path.join(folder, name), ignore=NOT_COPIED)
        else:
            shutil.copy(path, folder)


def copy_program(path: str, source: str = "", folder: str = ".") -> None:
    """Copies a program or a module of the project, or another one in its place, to its place below a folder, with what Python has compiled
    of it."""
    source, path = source or os.path.join(ROOT, path), os.path.join(folder, path)
    for it, there in ((source, path), (cache_from_source(source), cache_from_source(path))):
        if it == source or os.path.exists(it):
            os.makedirs(os.path.dirname(there), exist_ok=True)
            shutil.copy2(it, there)


def link_there(root: str, copied: Iterable[str], folder: str) -> None:
    """Makes a folder the project by links, but for these files and folders, which are copied: to copy all of it takes longer than most
    tests. A program that imports what is another one there has to be a copy too: Python looks for modules where the program's link leads.
    What Python has compiled is linked file by file, so that nothing new gets into the project."""
    copies = set(copied)
    for name in os.listdir(root):
        path, there = os.path.join(root, name), os.path.join(folder, name)
        below = {it.partition("/")[2] for it in copies if it.partition("/")[0] == name}
        if "" in below and os.path.isdir(path):
            shutil.copytree(path, there, ignore=NOT_COPIED)
        elif "" in below:
            shutil.copy2(path, there)  # (of the same time, by which Python knows what it has compiled of it)
        elif below or name == "__pycache__":
            os.mkdir(there)
            link_there(path, below, there)
        else:
            os.symlink(path, there)


def is_edge_built() -> bool:
    return os.access(EDGE, os.X_OK)


@functools.cache
def can_have_places() -> bool:
    """Whether the system's folders can be others for a program here. Where they can't a line says so."""
    has = ran("unshare", "-rm", "sh", "-c", "mount -t tmpfs none /run")[0] == 0
    if not has:
        print("contrib/debian isn't tried: no folder of the system can be another one here")
    return has
