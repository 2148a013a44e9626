#!/usr/bin/env python3
"""A store, mounted by FUSE at a folder, that takes what it is asked and answers nothing behind its first word, or this error alone. Not a
test: tests/package/test_standby.py and test_fence.py run it. The file FOLDER.asked has what was asked.

    deaf_store.py FOLDER [ERROR]
"""
import ctypes
import errno
import os
import struct
import sys

INIT = 26             # The kind of the first word,
UNANSWERED = (2, 42)  # and those of words that want no answer.
HEAD, ANSWER = struct.Struct("=IIQQIIIi"), struct.Struct("=IiQ")
SAID = struct.Struct("=IIIIHHIIHH32x")  # Version, what it can, and how much it takes.


def main() -> None:
    folder = sys.argv[1]
    store = os.open("/dev/fuse", os.O_RDWR)
    words = f"fd={store},rootmode=40000,user_id=0,group_id=0".encode()
    if ctypes.CDLL(None, use_errno=True).mount(b"deaf", folder.encode(), b"fuse.deaf", 0, words):
        raise OSError(ctypes.get_errno(), "mount")
    with open(f"{folder}.asked", "wb", buffering=0) as asked:
        while True:
            said = os.read(store, 1 << 18)
            size, kind, number, *_ = HEAD.unpack_from(said)
            asked.write(said)
            if kind == INIT:
                said = SAID.pack(7, 31, 0, 0, 0, 0, 4096, 1, 0, 0)
                os.write(store, ANSWER.pack(ANSWER.size + len(said), 0, number) + said)
            elif len(sys.argv) > 2 and kind not in UNANSWERED:
                os.write(store, ANSWER.pack(ANSWER.size, -getattr(errno, sys.argv[2]), number))


if __name__ == "__main__":
    main()
