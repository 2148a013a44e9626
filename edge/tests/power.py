"""A power cut that is played to an edge, by edge/tests/power.c. Not a test: tests import it."""
import os
import shutil
import signal
import subprocess

from edges import ROOT, Edge, Trouble, await_that, is_there

SOURCE = os.path.join(ROOT, "edge/tests/power.c")


class Power:
    """The disk of an edge whose power is cut, in the present folder; `folder` is to be the EdgePath of all members."""

    def __init__(self) -> None:
        self.folder, self.library, self.runs = os.path.abspath("edge"), os.path.abspath("power.so"), 0
        words = ["cc", "-O1", "-shared", "-fPIC", "-o", self.library, SOURCE, "-ldl"]
        made = subprocess.run(words, capture_output=True, text=True)
        if made.returncode:
            raise Trouble(f"{SOURCE} can't be compiled: {made.stderr}")

    def start(self, settings: str, **more: int | str) -> Edge:
        """Starts an edge on what the disk has. `at` and others are those of power.c."""
        self.runs += 1
        self.disk = os.path.abspath(f"disk-{self.runs}")
        os.makedirs(os.path.join(self.disk, "entries"))
        os.makedirs(self.folder, exist_ok=True)
        for folder in os.scandir(self.folder):
            if not folder.is_dir():
                continue
            os.mkdir(os.path.join(self.disk, "entries", folder.name))
            os.mkdir(self.names(folder.name))
            for it in filter(os.DirEntry.is_file, os.scandir(folder.path)):  # A socket that a kill has left has no bytes.
                held = os.path.join(self.disk, f"held-{it.inode()}")
                shutil.copy(it.path, held)
                os.link(held, os.path.join(self.names(folder.name), it.name))
        words = {f"POWER_{name.upper()}": str(value) for name, value in more.items()}
        return Edge(settings, env={**os.environ, "LD_PRELOAD": self.library, "POWER_FOLDER": self.folder,
                                   "POWER_DISK": self.disk, **words})

    def names(self, folder: str) -> str:
        """Where the disk has the names of a member's files."""
        return os.path.join(self.disk, f"names-{folder}")

    def is_cut(self, edge: Edge) -> bool:
        """Whether the power has been cut: then only what the disk has is left."""
        status = edge.process.poll()
        if status is None:
            return False
        if status != -signal.SIGKILL:
            raise Trouble(f"the edge ended with {status}: {edge.lines[-4:]}")
        if faults := [it for it in edge.lines if it.startswith("power.c: ")]:
            raise Trouble(f"the disk can't be played: {faults}")
        self.lose()
        return True

    def cut(self, edge: Edge) -> None:
        """Cuts the power at this moment."""
        edge.kill()
        self.lose()

    def lose(self) -> None:
        """Leaves only what the disk has, once all processes have ended."""
        with open(os.path.join(self.disk, "processes"), encoding="ascii") as file:
            processes = [int(line) for line in file]
        await_that("an end of all processes", lambda: not any(is_there(it) for it in processes))
        shutil.rmtree(self.folder)
        os.mkdir(self.folder)
        for folder in os.listdir(os.path.join(self.disk, "entries")):
            if os.path.exists(self.names(folder)):
                shutil.copytree(self.names(folder), os.path.join(self.folder, folder))
        shutil.rmtree(self.disk)
