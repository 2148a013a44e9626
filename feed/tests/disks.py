"""Disks of their own for programs on this machine, for tests: who is started by their words sees them, and nobody else. They end with
the process that made them."""
import errno
import os
import shutil
import subprocess
import tempfile

import with_scripts  # (in front of what stands there, and of what an older Python can't read)
from gikvand.words import sure
from venues import Trouble

A_PIECE = 1 << 12  # Bytes: of so many a disk has its room.
# What mounts a disk in a folder, with what that had, until its input ends.
HOLD = ('cp -a "$0" "$0.on-disk" && mount -t tmpfs -o size="$1" tmpfs "$0" && cp -a "$0.on-disk/." "$0" && rm -r "$0.on-disk" && '
        "echo up && exec cat")


class Disk:
    """A small disk in a folder, on which is what the folder had, and so much room besides."""

    def __init__(self, place: str, room: int) -> None:
        used = sum(os.lstat(os.path.join(folder, it)).st_size // A_PIECE * A_PIECE + 2 * A_PIECE
                   for folder, folders, files in os.walk(place) for it in (*folders, *files))
        self.place = place
        words = ["unshare", "--mount", "sh", "-c", HOLD, place, str(used + room)]
        self.process = subprocess.Popen(words, stdin=subprocess.PIPE, stdout=subprocess.PIPE, stderr=subprocess.DEVNULL)
        if sure(self.process.stdout).readline() != b"up\n":
            raise Trouble("no disk can be mounted")
        self.seen = f"/proc/{self.process.pid}/root{place}"  # How others see what is on it.

    def words(self) -> list[str]:
        """The words in front of those of a program that is to see it. The program stays in its folder."""
        return ["nsenter", "-t", str(self.process.pid), "--mount", "--wd=."]

    def room(self) -> int:
        """How many bytes are left."""
        disk = os.statvfs(self.seen)
        return disk.f_bavail * disk.f_frsize

    def fill(self, room: int) -> None:
        """Writes a file to it, so that no more than this is left. Whoever else writes there may take room behind a look: then it is full."""
        with open(os.path.join(self.seen, "of-others"), "wb", buffering=0) as file:
            try:
                while (more := self.room() - room) > 0:
                    file.write(bytes(min(more, 1 << 20)))
            except OSError as full:
                if full.errno != errno.ENOSPC:
                    raise

    def end(self) -> None:
        """Moves what is on it into the folder itself, but for what filled it. Who uses it has to have ended."""
        for it in os.listdir(self.place):
            shutil.rmtree(os.path.join(self.place, it))
        if os.path.exists(filling := os.path.join(self.seen, "of-others")):
            os.remove(filling)
        shutil.copytree(self.seen, self.place, symlinks=True, dirs_exist_ok=True)
        self.close()

    def close(self) -> None:
        """Lets it go, with all that is on it."""
        sure(self.process.stdin).close()
        sure(self.process.stdout).close()
        self.process.wait()


def can_be_had() -> bool:
    """Whether disks can be mounted here: by root, where the system lets one have namespaces."""
    with tempfile.TemporaryDirectory(prefix="disk-") as place:
        try:
            Disk(place, 1 << 20).close()
            return True
        except (OSError, Trouble):
            return False
