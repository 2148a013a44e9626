"""Who has a file open and locked, as venued does with its journal: the system is asked. And the same lock, for what writes."""
import fcntl
import os

from gikvand.words import Trouble


def rows_of(inode: int) -> list[tuple[int, str]]:
    """The processes that have a lock on a file of this number, and the device that each lock is on."""
    try:
        with open("/proc/locks", encoding="ascii") as file:
            rows = [line.split() for line in file]
    except OSError:
        return []
    locked = [(int(row[4]), row[5]) for row in rows if row[1] == "FLOCK"]
    return [(pid, where.rpartition(":")[0]) for pid, where in locked if where.rpartition(":")[2] == str(inode)]


def has_open(pid: int, it: os.stat_result) -> bool:
    """Whether this process has this file open, as far as we may look at it."""
    try:
        found = [f"/proc/{pid}/fd/{fd}" for fd in os.listdir(f"/proc/{pid}/fd")]
        return any(os.path.samestat(os.stat(name), it) for name in found if os.path.exists(name))
    except OSError:
        return False


def holder(path: str) -> int | None:
    """The process that has a lock on this file, or None. The lock isn't tried: that might refuse it to a venued that starts. (Some
    file systems are told by other devices in the table.)"""
    it = os.stat(path)
    device = f"{os.major(it.st_dev):02x}:{os.minor(it.st_dev):02x}"
    return next((pid for pid, where in rows_of(it.st_ino) if where == device or has_open(pid, it)), None)


def take(fd: int, path: str) -> None:
    """Takes the lock on this file, which is open. Stops where somebody else has the lock."""
    try:
        fcntl.flock(fd, fcntl.LOCK_EX | fcntl.LOCK_NB)
    except BlockingIOError:
        pid = holder(path)
        raise Trouble(f"{path} is in use by {name_of(pid) if pid else 'another process'}") from None


def own_words(pid: int) -> list[str]:
    """The words with which a process was started, where they can be read."""
    try:
        with open(f"/proc/{pid}/cmdline", "rb") as file:
            return os.fsdecode(file.read()).rstrip("\0").split("\0")
    except OSError:
        return []


def command_of(pid: int) -> str | None:
    """The command of gikvand that a process is, as `follow`, or None. Other programs may have a word like its name."""
    words = own_words(pid)
    if not os.path.basename("".join(words[:1])).startswith("python"):
        return None
    at = next((at for at, it in enumerate(words[:-1]) if os.path.basename(it) == "gikvand"), None)
    return None if at is None else words[at + 1]


def name_of(pid: int) -> str:
    """What a process is called, as `venued (process 17)`, or `gikvand follow (process 18)`."""
    try:
        with open(f"/proc/{pid}/comm", encoding="utf-8", errors="replace") as file:
            name = file.read().strip()
    except OSError:
        return f"process {pid}"
    command = command_of(pid)
    return f"{f'gikvand {command}' if command else name} (process {pid})"
