"""How long a thread keeps its core while another one waits for that: its slice, which Linux gives a thread since 6.12."""
import ctypes
import os

SET, GET = 314, 315  # The numbers of sched_setattr and sched_getattr on x86-64.
LEAST = 100          # Microseconds: the system gives nothing shorter.
A_MICRO = 1000       # In nanoseconds.

libc = ctypes.CDLL(None, use_errno=True)


class Attributes(ctypes.Structure):
    """What the system keeps of how a thread is scheduled (struct sched_attr, its first version)."""
    _fields_ = [("size", ctypes.c_uint32), ("policy", ctypes.c_uint32), ("flags", ctypes.c_uint64), ("nice", ctypes.c_int32),
                ("priority", ctypes.c_uint32), ("runtime", ctypes.c_uint64), ("deadline", ctypes.c_uint64),
                ("period", ctypes.c_uint64)]


def called(number: int, tid: int, it: Attributes, *more: int) -> Attributes:
    if libc.syscall(ctypes.c_long(number), ctypes.c_int(tid), ctypes.byref(it), *more) < 0:
        error = ctypes.get_errno()
        raise OSError(error, os.strerror(error))
    return it


def attributes(tid: int) -> Attributes:
    return called(GET, tid, Attributes(), ctypes.sizeof(Attributes), 0)


def slice_of(tid: int) -> int:
    """The slice of a thread, 0 for the one that calls, in microseconds; 0 where the system gives none."""
    return attributes(tid).runtime // A_MICRO


def put(micros: int) -> None:
    """Gives the thread that calls a slice of so many microseconds, and what it starts; for 0 the system's own."""
    it = attributes(0)
    it.size, it.runtime = ctypes.sizeof(it), micros * A_MICRO
    called(SET, 0, it, 0)


def put_default() -> None:
    """Gives the thread that calls the system's own slice, and what it starts."""
    put(0)


def of_process(pid: int) -> list[int]:
    """The slice of each thread of a process."""
    return [slice_of(int(tid)) for tid in os.listdir(f"/proc/{pid}/task")]
