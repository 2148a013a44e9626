"""Says why a journal isn't opened: which cause fault 41 has, which block fault 42 is about, and what mends it.

    gikvand why JOURNAL

venued says fault 41 for a lock, for rights, for a folder, a full disk and a device that fails, and doesn't say for which. Ask
as the user who runs it, on its machine: rights and limits are those of whoever asks. It looks at the name, at who may read
and write what, at who has the lock, at the room on the disk, at what a process needs, and reads the file from front to back.
It changes nothing and takes no lock. Snapshots are compared where the symbols are known. Of a journal in use it says who has it.

The status is 0 where it finds nothing that stands in the way, 1 where something does, and 2 where it can't look.
"""
import argparse
import errno
import os
import pwd
import resource
import shlex
import stat
from collections.abc import Iterator
from typing import NamedTuple

from gikvand import files, locks, mends, symbols
from gikvand.journals import WITH_SNAPSHOTS, Damaged, NotAJournal, Reader, empty
from gikvand.programs import false_snapshot
from gikvand.words import some

A_SNAPSHOT = 200_000   # The most that a start may have to add, in bytes,
DUE = 1000             # and behind how many entries without a snapshot it has to.
FEWEST_FILES = 8       # The three standard streams, three that hold their numbers, the file and its folder.


class Cause(NamedTuple):
    """Something that stands in the way: which fault it is, what it is, and what mends it."""
    fault: str
    what: str
    mend: str


def add_words(parser: argparse.ArgumentParser) -> None:
    parser.add_argument("journal", metavar="JOURNAL", help="the journal's file")
    symbols.add_option(parser)


def device(what: str, mend: str) -> Cause:
    return Cause("fault 41", what, mend)


def user() -> str:
    try:
        return pwd.getpwuid(os.geteuid()).pw_name
    except KeyError:
        return f"user {os.geteuid()}"


def folder_of(path: str) -> str:
    return os.path.dirname(path) or "."


def refusal(path: str, flags: int) -> str | None:
    """Why the system doesn't open this, in its words, or None."""
    try:
        os.close(os.open(path, flags | os.O_NONBLOCK))
    except OSError as why:
        return why.strerror
    return None


def is_loop(path: str) -> bool:
    """Whether a link leads back to itself."""
    try:
        os.stat(path)
    except OSError as why:
        return why.errno == errno.ELOOP
    return False


def of_who_asks(path: str) -> Iterator[Cause]:
    """What keeps whoever asks from seeing whether there is a file of this name: the edge of a member must not get more rights for that."""
    try:
        os.stat(path)
    except OSError as why:
        if why.errno == errno.EACCES:
            yield device(f"{user()} may not look for {path}", "ask as the user who runs the venue; an edge's user, whose venue-events can't "
                         "read the journal, gets no right here: systemctl restart venued, or \"Set-up\" in EDGE.md")


def of_the_name(path: str) -> Iterator[Cause]:
    """What is wrong with a name, or with one under which there is no file."""
    if why := files.fault_of_name(path):
        yield Cause("the usage line", why, "give the file another name")
    elif os.path.islink(path) and not os.path.exists(path):
        where = "that leads to itself" if is_loop(path) else "to nothing"
        yield device(f"{path} is a link {where}", "give the name of the file itself, and not of a link")
    elif os.path.isdir(path):
        yield device(f"{path} is a folder", "give the name of a file in it")
    elif os.path.exists(path) and not os.path.isfile(path):
        yield device(f"{path} is neither a file nor missing", "give the name of a file")


def of_a_new_one(path: str) -> Iterator[Cause]:
    """What keeps venued from making a missing journal, or would make it begin with an empty book where there was one."""
    folder, new = folder_of(path), f"{path}.new"
    if os.path.exists(kept := symbols.place_of(path)):
        yield Cause("the service's line", f"{path} is missing, and {kept} says that there was one",
                    f"put it back, or a copy; for a new and empty one remove {kept}")
    if not os.path.isdir(folder):
        yield device(f"there is no folder {folder}", "make it, or mend the name")
        return
    if not os.access(folder, os.W_OK | os.X_OK, effective_ids=True):
        yield device(f"{user()} may not make files in {folder}", f"give {user()} that right: chown or chmod of the folder")
    if os.path.lexists(new):
        if os.path.isfile(new) and (pid := locks.holder(new)) is not None:
            yield device(f"{locks.name_of(pid)} is making {new}", "wait for it, or end it")
        elif not os.path.isfile(new) or os.path.getsize(new) > len(empty()):
            yield device(f"{new} is in the way: it is more than an empty journal", "look what it is, and move it away")
    if os.statvfs(folder).f_files and not os.statvfs(folder).f_favail:
        yield device(f"the file system of {folder} has no room for a further file", "remove files there")


def of_rights(path: str) -> Iterator[Cause]:
    """What keeps venued from opening the file, or its folder, which it syncs."""
    it = os.stat(path)
    who = f"{user()}; the file has the mode {stat.filemode(it.st_mode)} and the owner {it.st_uid}"
    if why := refusal(path, os.O_RDWR):
        yield device(f"{path} can't be opened to read and write, as {who}: {why}", "start as its owner, or chown it")
    if why := refusal(folder_of(path), os.O_RDONLY):
        yield device(f"the folder {folder_of(path)} can't be read, as {user()}: {why}", "give the user that right: chmod u+rx")


def of_the_lock(path: str) -> Iterator[Cause]:
    if (pid := locks.holder(path)) is None:
        return
    mend = f"let it serve, or stop it first: touch {shlex.quote(path)}.stop stops a venue that listens"
    if locks.command_of(pid):
        mend = f"let it go on, or end it first: kill {pid}"
    yield Cause("in use", f"{locks.name_of(pid)} has it, and each other start is fault 41", mend)


def of_the_disk(path: str) -> Iterator[Cause]:
    """What keeps venued from writing there, or from making a missing journal."""
    if os.statvfs(folder_of(path)).f_flag & os.ST_RDONLY:
        yield device(f"the file system of {path} takes no writes", "mount it to read and write")
    elif not os.path.exists(path):
        yield from of_the_room(path, "an empty journal has", len(empty()))


def of_the_room(path: str, what: str, needed: int) -> Iterator[Cause]:
    """What a disk that is nearly full does to a start which needs so many bytes for this, and to the venue behind a start."""
    it = os.statvfs(folder_of(path))
    room = it.f_bavail * it.f_frsize
    free = f"{some(room, 'byte')} are free on the disk of {path}"
    if room < needed:
        yield device(f"{free}, and {what} {needed}", "make room")
    elif room < A_SNAPSHOT:
        yield Cause("journal failed", f"{free}: it opens, and an order that finds no room ends the venue", "make room")


def of_the_machine() -> Iterator[Cause]:
    if refusal("/dev/null", os.O_RDWR):
        yield device("there is no /dev/null to open", "make it: mknod -m 666 /dev/null c 1 3")
    most = resource.getrlimit(resource.RLIMIT_NOFILE)[0]
    if most != resource.RLIM_INFINITY and most < FEWEST_FILES:
        yield device(f"a process may open {some(most, 'file')} here, and {FEWEST_FILES} are needed", "raise ulimit -n")


def of_the_bytes(path: str, given: list[str] | None) -> Iterator[Cause]:
    """What is wrong with the file's contents, or with reading them, and whether there is room for what follows them."""
    snapshots, blocks, newest = 0, 0, 0
    with files.opened(path) as file:
        try:
            reader = Reader(file)
            for blocks, block in enumerate(reader, 1):
                snapshots += block.snapshot is not None
                newest = newest if block.snapshot is None else block.before
        except NotAJournal:
            yield Cause("fault 43", f"{path} is no journal", mends.NOT_A_JOURNAL)
            return
        except Damaged as why:
            yield Cause(f"fault 42 at {why.offset}", f"block {blocks + 1}, behind {some(reader.count, 'entry')}: {why.why}",
                        mends.of_damage(path, why))
            return
        except OSError as why:
            yield device(f"the device doesn't read {path}, near byte {file.tell()}: {why.strerror}",
                         "look at the system's log; copy the file as far as it goes, and look for a whole copy")
            return
    is_due = reader.version >= WITH_SNAPSHOTS and reader.count - newest >= DUE
    yield from of_the_room(path, "the snapshot that is due may need", A_SNAPSHOT * is_due)
    if snapshots and (found := symbols.known(path, given)):
        if (false := false_snapshot(path, found)) is not None:
            yield Cause(f"false snapshot at {false}", "it isn't that of the entries before it", mends.FALSE)
    elif snapshots:
        print(f"its snapshots weren't compared: the symbols aren't known ({symbols.place_of(path)}, or --symbols)")


def causes(given: argparse.Namespace) -> Iterator[Cause]:
    """All that stands in the way of a start with this journal."""
    path = given.journal
    wrong = [*of_who_asks(path)] or [*of_the_name(path)]
    yield from wrong
    if wrong:
        return
    yield from of_the_machine()
    if not os.path.exists(path):
        yield from of_a_new_one(path)
    else:
        yield from of_rights(path)
        yield from of_the_lock(path)
    if os.path.isdir(folder_of(path)):
        yield from of_the_disk(path)
    if os.path.exists(path) and os.access(path, os.R_OK, effective_ids=True):
        yield from of_the_bytes(path, given.symbols)


def run(given: argparse.Namespace) -> int:
    count = 0
    for count, cause in enumerate(causes(given), 1):
        print(f"{cause.fault}: {cause.what}\n    {cause.mend}")
    if not count:
        made = "it opens" if os.path.exists(given.journal) else "it is missing, and is made at a start"
        print(f"{given.journal}: nothing stands in the way, as {user()}: {made}")
    return 1 if count else 0
