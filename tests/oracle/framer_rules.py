"""The rules for what comes out of a member's bytes, in plain Python, apart from the proved framer: framer_tests.py
compares the two. Not a script."""
import re
from typing import NamedTuple

DATA = {89, 91, 96, 213, 349, 351, 353, 355, 357, 359, 361, 363, 365, 446, 619, 622}
COUNTED = {7, 16, 34, 36, 108}
INVALID_TAG, NO_VALUE, OUT_OF_RANGE, BAD_FORMAT, OTHER = 0, 4, 5, 6, 99
HEAD = re.compile(rb"8=FIX\.4\.4\x019=([0-9]{1,9})\x01")
FIELD = re.compile(rb"([0-9]+)=(.*)", re.S)
OPENING = b"8=FIX.4.4\x019="


class Message(NamedTuple):
    """What comes out: its size, the first field that isn't taken with the reason, or None, and its fields."""
    size: int
    refused: tuple[int, int] | None
    fields: list[tuple[int, bytes]]


def tag_of(text: bytes) -> int:
    return int(text) if re.fullmatch(rb"[1-9][0-9]{0,4}", text) else 0


def fault(tag: int, text: bytes) -> int | None:
    """Why a field isn't taken, if it isn't."""
    if not tag or tag in DATA:
        return INVALID_TAG
    if not text:
        return NO_VALUE
    if any(not 32 <= byte <= 126 for byte in text):
        return BAD_FORMAT
    if tag not in COUNTED or re.fullmatch(rb"[0-9]{1,9}", text):
        return None
    return OUT_OF_RANGE if re.fullmatch(rb"[0-9]+", text) else BAD_FORMAT


def may_stand(fields: list[bytes]) -> bool:
    """Whether these can be the first fields of a body."""
    for index, it in enumerate(fields):
        found = FIELD.fullmatch(it)
        if not found or tag_of(found[1]) in (8, 9, 10) or (index == 0 and tag_of(found[1]) != 35):
            return False
    return True


def begun(data: bytes) -> bool:
    """Whether part of a head has come, and nothing else."""
    return OPENING.startswith(data) or re.fullmatch(re.escape(OPENING) + rb"[0-9]{0,9}", data) is not None


def front(data: bytes, longest: int, most: int) -> Message | bool:
    """The message at the front; else whether one may begin there, so that more has to come."""
    head = HEAD.match(data)
    if not head:
        return begun(data)
    at, size = head.end(), int(head[1])
    end = at + size
    if end + 7 > longest:
        return False
    body = data[at:end]
    *whole, left = body.split(b"\x01")
    if not may_stand(whole):
        return False
    if len(data) < end + 7:
        return True
    if left or not whole or data[end:end + 7] != b"10=%03d\x01" % (sum(data[:end]) % 256):
        return False
    fields = [(tag_of(it[1]), it[2]) for it in map(FIELD.fullmatch, whole) if it]
    faults = [(k, found) for k, it in enumerate(fields[:most]) if (found := fault(*it)) is not None]
    if len(fields) > most:
        faults.append((most, OTHER))
    good = {tag for tag, text in fields[:most] if fault(tag, text) is None}
    if faults and not {35, 34, 49, 56} <= good:
        return False
    return Message(end + 7, faults[0] if faults else None, fields[:most])


def cut(stream: bytes, longest: int, most: int) -> tuple[list[Message], int]:
    """The messages of a whole stream, and how many bytes are left."""
    found: list[Message] = []
    at = 0
    while at < len(stream):
        it = front(stream[at:at + longest + 32], longest, most)
        if isinstance(it, Message):
            found.append(it)
            at += it.size
        elif it:
            break
        else:
            at += 1
    return found, len(stream) - at
