"""This machine's clock: the time, and what the kernel knows of how right that is. And waiting for writes to a file."""
import ctypes
import datetime
import os
import select
import struct

STATES = {True: "synchronized", False: "unsynchronized"}
UNSYNCHRONIZED = 0x40    # A bit of the kernel's status (STA_UNSYNC).
TIME_ERROR = 5           # What adjtimex answers of a clock that nothing sets.
WORDS_OF_TIMEX = "iqqqqi"  # Of struct timex what stands in front: modes, offset, freq, maxerror, esterror, status.
SIZE_OF_TIMEX = 256
IN_MODIFY, IN_NONBLOCK = 0x2, os.O_NONBLOCK

libc = ctypes.CDLL(None, use_errno=True)


def state() -> str:
    """What the kernel says of the clock: whether something sets it, and its greatest error in microseconds."""
    words = ctypes.create_string_buffer(SIZE_OF_TIMEX)  # All zeros: nothing is set.
    try:
        answer = libc.adjtimex(words)
    except AttributeError:  # A C library without that call.
        answer = -1
    if answer < 0:
        return "unknown -"
    *_, error, _, status = struct.unpack_from(WORDS_OF_TIMEX, words.raw)
    return f"{STATES[answer != TIME_ERROR and not status & UNSYNCHRONIZED]} {error}"


def now() -> str:
    """The time in UTC, to the microsecond."""
    return datetime.datetime.now(datetime.timezone.utc).strftime("%Y-%m-%dT%H:%M:%S.%fZ")


class Writes:
    """Writes to a file, by inotify; where the system has none of that left, or the file's system doesn't tell, time goes by."""

    def __init__(self, path: str) -> None:
        self.poll = select.poll()
        self.fd = libc.inotify_init1(IN_NONBLOCK)
        if self.fd >= 0 and libc.inotify_add_watch(self.fd, os.fsencode(path), IN_MODIFY) >= 0:
            self.poll.register(self.fd, select.POLLIN)

    def __enter__(self) -> "Writes":
        return self

    def __exit__(self, *_: object) -> None:
        if self.fd >= 0:
            os.close(self.fd)

    def wait(self, seconds: float) -> None:
        """Waits for a write, and no longer than this."""
        if self.poll.poll(1000 * seconds):
            os.read(self.fd, 1 << 16)
