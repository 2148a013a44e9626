"""Each parser of the edge that isn't the framer, for so many inputs of libFuzzer, by its target in edge/tests/fuzz."""
import os
import shutil
import subprocess
from collections.abc import Callable

from edges import ROOT, Trouble, members_of, settings_of

EXECUTIONS = 100_000
NAMES = b"00000000 gikvand-edge names 1 from 5\n3bd9f1c4 5 r ORD-7\n00000000 6 c edge-6\n00000000 5 s \n00000000 0 x no\n"
REPORT = (b"35=8|34=7|52=20250102-09:30:00|11=1|17=3|37=1|38=100|39=1|54=1|55=ABC|150=F|151=60|14=40|6=5025|31=5025|32=40|"
          b"44=5025|41=1|58=x|103=99|")
REJECT = b"35=9|11=1|37=NONE|39=8|41=1|52=20250102-09:30:00|102=1|434=1|"
SMALL = b'<fix major="4" minor="4"><header/><trailer/><messages/><components/><fields/></fix>'

# Of each target: the parsers' sources, which are compiled with its checks (the rest of the edge is as it is), and what it
# begins with.
TARGETS: dict[str, tuple[tuple[str, ...], list[bytes]]] = {
    "reports": (("reports", "names", "ticks", "exposure"), [it.replace(b"|", b"\x01") for it in (REPORT, REJECT)]),
    "venue": (("venue_frame",), [it.replace(b"|", b"\x01") for it in (REPORT, REJECT)]),
    "replay": (("replay", "reports", "names", "ticks", "exposure", "market", "books"),
               [b"command 0 C1 D ABC -\noutput 6 C1 " + REPORT + b"\noutput 7 C1 " + REJECT + b"\nlevel ABC 2 5025 60 1\n"]),
    "ticks": (("ticks",), [b"0.01\n50.25\n100\n", b"0.000000001\n0.5\n1.00\n", b"1000\n5000\n1000000\n"]),
    "settings": (("settings", "setting_values", "order_limits", "hours", "identity", "stunnel", "schedule", "steps", "ticks"), []),
    "names": (("take_over",), [NAMES]),
    "commands": (("commands",), [b"stop", b"resume", b"cancel", b"status", b"halt ABC", b"resume XYZ", b"names 5 B"]),
}


def begins_of_settings() -> list[bytes]:
    """Settings that are right, with a dictionary that is read at once, and what follows one that isn't there."""
    with open("small.xml", "wb") as file:
        file.write(SMALL)
    right = settings_of({"VenuePort": 9001, "DataDictionary": "small.xml", "VenueEvents": "/bin/true"}, members_of(2, 9101))
    return [it.encode("ascii") for it in (right, right.replace("small.xml", "none"), right.replace("00:00:00", "08:00:00"))]


def fuzzed(name: str) -> None:
    sources, begins = TARGETS[name]
    os.makedirs(f"{name}/corpus")
    os.chdir(name)
    for at, data in enumerate(begins or begins_of_settings()):
        with open(f"corpus/{at}", "wb") as file:
            file.write(data)
    subprocess.run(["clang++", "-std=c++14", "-O1", "-g", "-w", "-fsanitize=fuzzer,address,undefined",
                    "-fno-sanitize-recover=undefined", f"-I{ROOT}/edge/src", "-o", "fuzz",
                    f"{ROOT}/edge/tests/fuzz/{name}_fuzz.cpp", *(f"{ROOT}/edge/src/{it}.cpp" for it in sources),
                    f"{ROOT}/edge/out/libedge.a", f"{ROOT}/crates/edge_frames_c/out/libedge_frames_c.a", "-lquickfix",
                    "-lsqlite3", "-lpthread"], check=True)
    ran = subprocess.run(["./fuzz", f"-runs={EXECUTIONS}", "-seed=1", "-max_len=2048", "-timeout=60", "-close_fd_mask=3",
                          "corpus"], capture_output=True, text=True, errors="replace")
    os.chdir("..")
    if ran.returncode or f"Done {EXECUTIONS} runs" not in ran.stderr:
        raise Trouble(f"{name}: status {ran.returncode}: {ran.stderr[-3000:]}")


def test_parsers_fuzz() -> None:
    """Reports of the venue, its messages as they are cut, lines of venue-events, ticks and quantities, settings, names of an edge of
    before, and what operators say."""
    if not shutil.which("clang++"):
        raise Trouble("clang++ isn't there: edge/setup --tests installs it")
    for name in TARGETS:
        fuzzed(name)


TESTS = list[Callable[[], None]]()
LONG_TESTS = [test_parsers_fuzz]
