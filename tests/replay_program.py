"""The built venue-replay over files in a folder of its own. Not a test: tests import it."""
import os

from checks import contents, put
from oracle.replay_rules import Outcome
from venues import REPLAY, ended

MEMORY = "/dev/shm"
FOLDERS = MEMORY if os.path.isdir(MEMORY) else None  # Where tests make such folders: in memory, where there is one.


def is_built() -> bool:
    return os.access(REPLAY, os.X_OK)


def not_built() -> str:
    return f"{os.path.relpath(REPLAY)} isn't built: scripts/build proves and builds it"


class Program:
    """The program, in a folder."""

    def __init__(self, folder: str) -> None:
        self.folder, self.path = folder, os.path.abspath(REPLAY)

    def place(self, name: str) -> str:
        return os.path.join(self.folder, name)

    def put(self, files: dict[str, bytes]) -> None:
        """Makes these the files of the folder, and lets all others go."""
        for name in os.listdir(self.folder):
            os.remove(self.place(name))
        for name, data in files.items():
            put(self.place(name), data)

    def drop(self, name: str) -> None:
        """Deletes a file, if it is there."""
        if os.path.lexists(self.place(name)):
            os.remove(self.place(name))

    def run(self, words: list[str]) -> Outcome:
        """Runs the program with these words: how it ended, and what it wrote."""
        status, out, err = ended([self.path, *words], cwd=self.folder)
        return Outcome(status, out.decode("latin-1"), err.decode("latin-1"))

    def files(self) -> dict[str, bytes]:
        """What stands in the folder."""
        return {name: contents(self.place(name)) for name in sorted(os.listdir(self.folder))}
