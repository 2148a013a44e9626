"""How the edge is built: edge/setup fails where the compiler does, the program is hardened, and edge/check says what lacks."""
import os
import shutil
import subprocess
import sys

import sanitized
import traces
from edges import EDGE, ROOT, Trouble
from trading_tests import expect

NOT_COPIED = shutil.ignore_patterns("out", "out-*", "__pycache__")


def test_compile_error() -> None:
    """Where the compiler fails edge/setup says so, with status 1, though a program of before is there."""
    shutil.copytree(f"{ROOT}/edge", "edge", ignore=NOT_COPIED)
    shutil.copy(f"{ROOT}/VERSION", ".")
    os.makedirs("edge/out")
    shutil.copy(EDGE, "edge/out/gikvand-edge")
    os.makedirs("crates/edge_frames_c/out")
    shutil.copy(f"{ROOT}/crates/edge_frames_c/out/libedge_frames_c.a", "crates/edge_frames_c/out")
    os.mkdir("bin")
    with open("bin/rt", "w", encoding="ascii") as file:  # The framer stays as it is.
        file.write("#!/bin/sh\n")
    os.chmod("bin/rt", 0o755)
    with open("edge/src/cancels.cpp", "a", encoding="ascii") as file:  # The first one that is compiled.
        file.write("#error planted\n")
    path = f"{os.path.abspath('bin')}:{os.environ['PATH']}"
    ran = subprocess.run(["edge/setup"], env={**os.environ, "PATH": path}, capture_output=True, text=True)
    expect((ran.returncode, "is built" in ran.stdout), (1, False))
    if "#error planted" not in ran.stdout or "edge/setup: gikvand-edge can't be built" not in ran.stderr:
        raise Trouble(f"edge/setup said {ran.stdout[-500:]!r} {ran.stderr!r}")


def test_hardened() -> None:
    """The program has an address that nobody knows, tables that are written once, guards of its stack, and checked copies."""
    def told(words: str) -> str:
        return subprocess.run(["readelf", "-W", words, EDGE], capture_output=True, text=True, check=True).stdout

    wanted = {"-h": ["Type:                              DYN"], "-l": ["GNU_RELRO", "GNU_STACK"],
              "-d": ["BIND_NOW", "NOW PIE"], "--dyn-syms": ["__stack_chk_fail"]}
    if not sanitized.kind():
        wanted["--dyn-syms"].append("_chk@")  # Checked copies: a sanitizer has others in their place.
    for words, texts in wanted.items():
        if missing := [it for it in texts if it not in told(words)]:
            raise Trouble(f"readelf {words}: the program lacks {missing}")
    if any("GNU_STACK" in line and "E" in line.split()[-2] for line in told("-l").splitlines()):
        raise Trouble("its stack may be executed")


def test_traces() -> None:
    """The program tells neither the folder nor the day that it was built in: built in another one it has the same bytes."""
    traces.need_none(EDGE)


def test_unbuilt() -> None:
    """edge/check says what isn't built, and by which words it is; its own words it says all the same."""
    for name in ("edge", "dev", "tools", "scripts"):
        os.symlink(f"{ROOT}/{name}", name) if name != "edge" else shutil.copytree(f"{ROOT}/edge", name, ignore=NOT_COPIED)
    words = {it: value for it, value in os.environ.items() if it != "GIKVAND_EDGE"}
    for made, wanted in ((None, "edge/check: edge/out/gikvand-edge isn't built: edge/setup builds it"),
                         ("gikvand-edge", "edge/check: edge/out/tradeclient isn't built: edge/setup --tests builds it"),
                         ("tradeclient", "edge/check: edge/out/FIX44.xml isn't built: edge/setup --tests builds it")):
        os.makedirs("edge/out", exist_ok=True)
        if made:
            with open(f"edge/out/{made}", "w", encoding="ascii"):
                pass
        ran = subprocess.run([sys.executable, "edge/check"], env=words, capture_output=True, text=True)
        expect((ran.returncode, ran.stdout, ran.stderr), (1, "", wanted + "\n"))
        ran = subprocess.run([sys.executable, "edge/check", "--help"], env=words, capture_output=True, text=True)
        expect((ran.returncode, "edge/check [NAME...]" in ran.stdout, ran.stderr), (0, True, ""))


TESTS = [test_compile_error, test_hardened, test_traces, test_unbuilt]
