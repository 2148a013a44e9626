"""A Chromium without a window, told what to do over two pipes by the protocol of its DevTools. Not a test:
tests/test_board_page.py imports it."""
import base64
import collections
import contextlib
import json
import os
import select
import shutil
import struct
import subprocess
import tempfile
import time
import zlib
from collections.abc import Callable, Iterator
from typing import Any

from gikvand.words import sure
from venues import PATIENCE, Trouble

NAMES = ("chromium", "chromium-browser", "google-chrome")
WORDS = ["--headless=new", "--no-sandbox", "--remote-debugging-pipe", "--no-first-run", "--disable-gpu",
         "--disable-extensions", "--disable-background-networking", "--disable-component-update", "--disable-sync",
         "--disable-dev-shm-usage", "--no-default-browser-check", "--mute-audio", "--hide-scrollbars"]
Json = dict[str, Any]  # Of the browser: what an expression gives is anything.


def program() -> str | None:
    """The browser of this machine, or None."""
    return os.environ.get("CHROMIUM") or next(filter(None, map(shutil.which, NAMES)), None)


class Page:
    """A page: what is asked of it, and what went wrong in it."""

    def __init__(self, browser: "Browser", session: str) -> None:
        self.browser, self.session, self.errors = browser, session, list[str]()
        for name in ("Page", "Runtime", "Log", "Network"):
            self.call(f"{name}.enable")

    def call(self, method: str, **words: object) -> Json:
        return self.browser.call(method, words, self.session)

    def go(self, address: str) -> None:
        self.call("Page.navigate", url=address)
        self.until("document.readyState === 'complete'", lambda it: it)

    def value(self, code: str) -> Any:
        """What an expression of JavaScript gives."""
        found = self.call("Runtime.evaluate", expression=code, returnByValue=True, awaitPromise=True)
        if "exceptionDetails" in found:
            raise Trouble(f"{code} failed: {found['exceptionDetails']}")
        return found["result"].get("value")

    def until(self, code: str, is_right: Callable[[Any], object]) -> Any:
        """What an expression gives, once that is right."""
        end = time.monotonic() + PATIENCE
        while not is_right(found := self.value(code)):
            if time.monotonic() > end:
                raise Trouble(f"{code} stayed {found!r}; errors: {self.errors}")
            time.sleep(0.05)
        return found

    def look(self, width: int, height: int, scheme: str = "light") -> None:
        """Has it drawn so wide and high, in this scheme of colours."""
        self.call("Emulation.setDeviceMetricsOverride", width=width, height=height, deviceScaleFactor=1, mobile=False)
        self.call("Emulation.setEmulatedMedia", features=[{"name": "prefers-color-scheme", "value": scheme}])

    def picture(self, path: str | None) -> bytes:
        """A part of the page as a PNG; the whole is kept under this name."""
        if path:
            data = self.call("Page.captureScreenshot", format="png", captureBeyondViewport=True)["data"]
            with open(path, "wb") as file:
                file.write(base64.b64decode(data))
        part = {"x": 0, "y": 0, "width": 640, "height": 480, "scale": 0.5}
        return base64.b64decode(self.call("Page.captureScreenshot", format="png", clip=part)["data"])

    def note(self, method: str, told: Json) -> None:
        """Notes what went wrong."""
        if method == "Runtime.exceptionThrown":
            why = told["exceptionDetails"]
            self.errors.append(why.get("exception", {}).get("description") or why["text"])
        elif method == "Runtime.consoleAPICalled" and told["type"] in ("error", "warning", "assert"):
            self.errors.append(f"console: {[it.get('value', it.get('description')) for it in told['args']]}")
        elif method == "Log.entryAdded" and told["entry"]["level"] in ("error", "warning"):
            self.errors.append(f"{told['entry']['source']}: {told['entry']['text']}")


class Browser:
    """The browser, and its pages by their sessions."""

    def __init__(self, process: subprocess.Popen, to: int, of: int) -> None:
        self.process, self.to, self.of = process, to, of
        self.number, self.rest, self.answers, self.pages = 0, b"", dict[int, Json](), dict[str, Page]()

    def call(self, method: str, words: Json, session: str | None = None) -> Json:
        """Asks something, and waits for the answer."""
        self.number += 1
        asked = {"id": self.number, "method": method, "params": words, **({"sessionId": session} if session else {})}
        os.write(self.to, json.dumps(asked).encode() + b"\0")
        end = time.monotonic() + PATIENCE
        while self.number not in self.answers:
            self.take(max(0, end - time.monotonic()))
        answer = self.answers.pop(self.number)
        if "error" in answer:
            raise Trouble(f"{method}: {answer['error']['message']}")
        return answer["result"]

    def take(self, seconds: float) -> None:
        """Takes what it says next."""
        data = os.read(self.of, 1 << 20) if select.select([self.of], [], [], seconds)[0] else b""
        if not data:
            raise Trouble(f"the browser says nothing within {PATIENCE} seconds, or has ended")
        *said, self.rest = (self.rest + data).split(b"\0")
        for it in map(json.loads, said):
            if "id" in it:
                self.answers[it["id"]] = it
            elif it.get("sessionId") in self.pages:
                self.pages[it["sessionId"]].note(it["method"], it["params"])

    def page(self) -> Page:
        """A new page, which is empty."""
        target = self.call("Target.createTarget", {"url": "about:blank"})["targetId"]
        session = self.call("Target.attachToTarget", {"targetId": target, "flatten": True})["sessionId"]
        page = self.pages[session] = Page(self, session)
        return page


@contextlib.contextmanager
def browser() -> Iterator[Browser]:
    """A browser that runs meanwhile, in a folder of its own."""
    its_in, to = os.pipe()
    of, its_out = os.pipe()
    with tempfile.TemporaryDirectory(prefix="chromium-", ignore_cleanup_errors=True) as folder:
        words = ["bash", "-c", f'exec "$@" 3<&{its_in} 4>&{its_out}', "bash", sure(program()), *WORDS,
                 f"--user-data-dir={folder}"]
        with subprocess.Popen(words, pass_fds=(its_in, its_out), stdout=subprocess.DEVNULL, stderr=subprocess.DEVNULL,
                              start_new_session=True) as process:
            os.close(its_in)
            os.close(its_out)
            it = Browser(process, to, of)
            try:
                yield it
                it.call("Browser.close", {})
            finally:
                with contextlib.suppress(subprocess.TimeoutExpired):
                    process.wait(5)
                process.kill()
                os.close(to)
                os.close(of)


def unfiltered(kind: int, row: bytearray, above: bytearray, size: int) -> bytearray:
    """A row of a picture, of which each dot has so many bytes, without the filter that it was kept by."""
    for at in range(len(row)):
        left, up = row[at - size] if at >= size else 0, above[at]
        if kind == 1:
            row[at] = row[at] + left & 255
        elif kind == 2:
            row[at] = row[at] + up & 255
        elif kind == 3:
            row[at] = row[at] + (left + up) // 2 & 255
        elif kind == 4:
            corner = above[at - size] if at >= size else 0
            guess = left + up - corner
            row[at] = row[at] + min((left, up, corner), key=lambda it: abs(guess - it)) & 255
    return row


def colours(png: bytes) -> collections.Counter[tuple[int, int, int]]:
    """How many dots of a picture have each colour."""
    width, at, data = struct.unpack(">I", png[16:20])[0], 8, b""
    while at < len(png):
        size, kind = struct.unpack(">I4s", png[at:at + 8])
        data += png[at + 8:at + 8 + size] if kind == b"IDAT" else b""
        at += 12 + size
    rows, size = zlib.decompress(data), {2: 3, 6: 4}[png[25]]
    above, found = bytearray(width * size), collections.Counter[tuple[int, int, int]]()
    for start in range(0, len(rows), 1 + width * size):
        above = unfiltered(rows[start], bytearray(rows[start + 1:start + 1 + width * size]), above, size)
        found.update(zip(above[0::size], above[1::size], above[2::size]))
    return found
