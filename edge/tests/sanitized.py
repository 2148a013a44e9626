"""An edge that was built with a sanitizer (edge/setup --sanitize): where its reports go, and that each fails its test. None
is left out: Debian's QuickFIX isn't built with the sanitizer, so what is reported is of the edge."""
import atexit
import functools
import glob
import os
import shutil
import tempfile

from edges import EDGE, Trouble
from venues import Test

MARKS = {"address": b"__asan_init", "thread": b"__tsan_init"}
SHOWN = 1500  # Bytes of a report that are told.


def kind() -> str:
    """What the edge that is tried is sanitized with: address, thread or nothing."""
    with open(EDGE, "rb") as file:
        program = file.read()
    return next((name for name, mark in MARKS.items() if mark in program), "")


@functools.lru_cache(maxsize=1)
def is_measured() -> bool:
    """Whether memory can be measured: a sanitizer takes many times what the edge takes, and the test says so."""
    if found := kind():
        print(f"edge/check: no memory is measured of an edge that is sanitized ({found})", flush=True)
    return not found


def looked_through(test: Test, folder: str) -> Test:
    """The test, which fails where a report came, too."""
    @functools.wraps(test)
    def run(*given: object) -> None:
        fault = None
        try:
            test(*given)
        except Exception as why:  # A report says more than what came of it.
            fault = why
        texts = []
        for path in sorted(glob.glob(os.path.join(folder, "report*"))):
            with open(path, encoding="utf-8", errors="replace") as file:
                texts.append(file.read()[:SHOWN])
            os.remove(path)
        if texts:
            raise Trouble(f"{len(texts)} reports of the sanitizer, the first: {texts[0]}") from fault
        if fault:
            raise fault
    return run


def prepared(tests: list[Test]) -> list[Test]:
    """These tests, for the edge that there is. What keeps a sanitizer's reports is in the environment from here on."""
    if not kind():
        return tests
    folder = tempfile.mkdtemp(prefix="sanitized-")
    atexit.register(shutil.rmtree, folder, ignore_errors=True)
    common = f"log_path={folder}/report"
    for name, more in (("ASAN", ":verify_asan_link_order=0:detect_stack_use_after_return=1"), ("UBSAN", ":print_stacktrace=1"),
                       ("TSAN", "")):
        os.environ[f"{name}_OPTIONS"] = common + more
    return [looked_through(it, folder) for it in tests]
