"""What the project gets of Debian's packages, as root, where it isn't there. Not a script: scripts and tests import it."""
import contextlib
import functools
import os
import shutil
import subprocess
import sys

PYTHON = "/usr/bin/python3"
PACKAGES = {"pytest": "python3-pytest", "xdist": "python3-pytest-xdist", "pyflakes": "python3-pyflakes", "autopep8": "python3-autopep8",
            "mypy": "python3-mypy"}
LINTERS = ("pyflakes", "autopep8", "mypy")
LONGEST = 900  # Seconds for a command,
WAITS = 600    # and so many of them for somebody else who installs packages just now.


def succeeds(*words: str, **environment: str) -> bool:
    """Whether a command that nobody hears can be run, and ends with status 0, and in time."""
    with contextlib.suppress(OSError, subprocess.TimeoutExpired):
        return subprocess.run(words, env={**os.environ, **environment}, stdin=subprocess.DEVNULL, stdout=subprocess.DEVNULL,
                              stderr=subprocess.DEVNULL, timeout=LONGEST).returncode == 0
    return False


def install(*packages: str) -> None:
    """Installs these packages, if that can be: once more behind an update of the lists, where these lack them."""
    def installs() -> bool:
        return succeeds("apt-get", "-o", f"DPkg::Lock::Timeout={WAITS}", "install", "-y", "--no-install-recommends", *packages,
                        DEBIAN_FRONTEND="noninteractive")
    if not installs() and succeeds("apt-get", "update"):
        installs()


def get(program: str, *packages: str) -> None:
    """Installs these packages where this program isn't on the path."""
    if not shutil.which(program):
        install(*packages)


def has_modules(python: str, *modules: str) -> bool:
    """Whether this Python has these modules. They aren't read for that: it would take half a second."""
    return succeeds(python, "-c", f"import importlib.util as it, sys; sys.exit(not all(map(it.find_spec, {modules})))")


def get_modules(*modules: str) -> None:
    """Installs the packages of these modules for Debian's Python where it lacks one."""
    if not has_modules(PYTHON, *modules):
        install(*(PACKAGES[it] for it in modules))


@functools.cache
def python_with_pytest() -> str:
    """The Python that the tests are run by: the one that runs this, or else Debian's, for which pytest is installed where it lacks."""
    if has_modules(sys.executable, "pytest", "xdist"):
        return sys.executable
    get_modules("pytest", "xdist")
    return PYTHON


def path_with_python(folder: str) -> str:
    """The path of programs, on which python3 is at once the Python of the tests, by a link in this folder. Else python3 may be a script that
    looks for one, as pyenv's is: each start takes six times as long."""
    link = os.path.join(folder, "python3")
    os.makedirs(folder, exist_ok=True)
    os.symlink(python_with_pytest(), f"{link}.{os.getpid()}")
    os.replace(f"{link}.{os.getpid()}", link)
    return f"{folder}{os.pathsep}{os.environ['PATH']}"
