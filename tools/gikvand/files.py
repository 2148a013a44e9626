"""Files as the commands open and make them: a journal is a file and nothing else, and what is made has its name once it is on
the device. Also how names of files are shown, whatever bytes they have."""
import contextlib
import errno
import io
import os
import re
import stat
from collections.abc import Iterator
from typing import BinaryIO

from gikvand.words import Trouble

PRIVATE = 0o600
UNSHOWN = re.compile("[\0-\x08\x0b-\x1f\x7f-\x9f\udc80-\udcff]")  # What a terminal would do, and bytes of no letter.


def shown(text: str) -> str:
    """A text as it may go to a terminal: other bytes than those of letters stand there as `\\x1b`."""
    return UNSHOWN.sub(lambda it: f"\\x{ord(it[0]) & 0xff:02x}", text)


@contextlib.contextmanager
def naming(path: str) -> Iterator[None]:
    """Names the file in faults of the system that have no name in them."""
    try:
        yield
    except OSError as why:
        why.filename = why.filename or path
        raise


def is_named(path: str, fd: int) -> bool:
    """Whether the file of this descriptor still has this name."""
    try:
        return os.path.samestat(os.stat(path), os.fstat(fd))
    except FileNotFoundError:
        return False


class Output(io.TextIOWrapper):
    """One of the standard outputs, to which all goes as it is shown. A write that failed shows at the next flush again, whoever
    passed it over."""
    fault: OSError | None = None

    def write(self, text: str) -> int:
        try:
            with naming("standard output"):
                super().write(shown(text))
        except OSError as why:
            self.fault = why
            raise
        return len(text)

    def flush(self) -> None:
        if self.fault:
            raise self.fault
        with naming("standard output"):
            super().flush()

    def forget(self) -> None:
        """Lets what it holds go, and all that comes."""
        self.fault = None
        os.dup2(os.open(os.devnull, os.O_WRONLY), self.fileno())


def fault_of_name(path: str) -> str | None:
    """Why the programs take no file of this name, or None."""
    if not path:
        return "an empty name is none"
    try:
        path.encode()
    except UnicodeEncodeError:
        return f"the name {path} isn't UTF-8, and the programs take no other"
    return None


def need_regular(path: str, mode: int) -> None:
    """Stops where this is no file, but a folder, a pipe or a device."""
    if stat.S_ISDIR(mode):
        raise IsADirectoryError(errno.EISDIR, os.strerror(errno.EISDIR), path)
    if not stat.S_ISREG(mode):
        raise Trouble(f"{path} is no file, but a pipe or a device")


def opened(path: str, buffering: int = -1) -> BinaryIO:
    """A file to read. A pipe into which nobody writes isn't waited for."""
    fd = os.open(path, os.O_RDONLY | os.O_NONBLOCK | os.O_CLOEXEC)
    try:
        need_regular(path, os.fstat(fd).st_mode)
        return os.fdopen(fd, "rb", buffering)
    except BaseException:
        os.close(fd)
        raise


def need_journal(path: str) -> None:
    """Stops where this is no file that may be read, or has a name that the programs don't take."""
    if why := fault_of_name(path):
        raise Trouble(why)
    opened(path).close()


def sync_folder(path: str) -> None:
    folder = os.open(os.path.dirname(os.path.abspath(path)), os.O_RDONLY)
    try:
        os.fsync(folder)
    finally:
        os.close(folder)


def write_all(fd: int, data: bytes, at: int) -> None:
    while data:
        count = os.pwrite(fd, data, at)
        data, at = data[count:], at + count


@contextlib.contextmanager
def writing(path: str, stands: str = "") -> Iterator[None]:
    """Says which file can't be written, and what stands there."""
    try:
        yield
    except OSError as why:
        raise Trouble(f"{path} can't be written: {why.strerror}{stands}") from why


def make(path: str, data: bytes, mode: int = PRIVATE) -> None:
    """Makes a file of these bytes, which has its name once they are on the device. Where that fails nothing is left of it."""
    new = f"{path}.new"
    with writing(path):
        fd = os.open(new, os.O_WRONLY | os.O_CREAT | os.O_TRUNC, mode)
        try:
            try:
                write_all(fd, data, 0)
                os.fsync(fd)
            finally:
                os.close(fd)
            os.rename(new, path)
        except OSError:
            with contextlib.suppress(OSError):
                os.remove(new)
            raise
        sync_folder(path)
