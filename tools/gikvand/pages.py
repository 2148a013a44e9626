"""Serves one page on this machine's own address, and what it is to show, to browsers that listen. Whoever may not read
what it shows doesn't know the page's name, and no word of a request comes into an answer."""
import base64
import contextlib
import hashlib
import http.server
import re
import secrets
import socket
import socketserver
import threading
from collections.abc import Iterator

from gikvand.ports import HOST
from gikvand.programs import Trouble
from gikvand.words import sure

OURS = re.compile(r"(127\.0\.0\.1|localhost)(:[0-9]{1,5})?")  # Whom requests are for. Other names are another page's trick.
PATIENCE = 10      # Seconds that a browser has for its request, and to take what is sent, also at the end,
A_SIGN = 10        # and after which it hears that nothing has changed.
MOST = 32          # Connections at a time.
ENDED = b"event: ended\ndata: \n\n"


class Shown:
    """What the page is to show now. Who listens gets the newest alone, however slow it is."""

    def __init__(self) -> None:
        self.changed, self.number, self.data, self.has_ended = threading.Condition(), 0, b"", False
        self.listeners = 0

    def put(self, data: bytes) -> None:
        with self.changed:
            if data != self.data:
                self.number, self.data = self.number + 1, data
                self.changed.notify_all()

    def end(self) -> None:
        """Lets those who listen know that nothing more comes, and waits until they were told: else the program may end before."""
        with self.changed:
            self.has_ended = True
            self.changed.notify_all()
            self.changed.wait_for(lambda: not self.listeners, PATIENCE)

    def next(self, number: int) -> tuple[int, bytes]:
        """What is newer than this, with its number, or nothing where nothing is for a while."""
        with self.changed:
            self.changed.wait_for(lambda: self.number > number or self.has_ended, A_SIGN)
            return self.number, b"" if self.number == number else self.data

    @contextlib.contextmanager
    def listening(self) -> Iterator[None]:
        with self.changed:
            self.listeners += 1
        try:
            yield
        finally:
            with self.changed:
                self.listeners -= 1
                self.changed.notify_all()


def policy(page: str) -> str:
    """What a browser may do with the page: run and draw what stands in it, and ask us."""
    hashes = {}
    for part in ("script", "style"):
        inside = sure(re.search(f"<{part}>(.*?)</{part}>", page, re.DOTALL))[1]
        hashes[part] = base64.b64encode(hashlib.sha256(inside.encode()).digest()).decode()
    return (f"default-src 'none'; script-src 'sha256-{hashes['script']}'; style-src 'sha256-{hashes['style']}'; "
            "connect-src 'self'; img-src data:; base-uri 'none'; form-action 'none'; frame-ancestors 'none'")


Request = socket.socket | tuple[bytes, socket.socket]  # (as any server has it: with no stream there are bytes)


class Server(http.server.ThreadingHTTPServer):
    """The page, its name, and what it shows."""
    daemon_threads, block_on_close, request_queue_size = True, False, MOST

    def __init__(self, port: int, page: str, shown: Shown) -> None:
        self.page, self.policy, self.shown = page.encode(), policy(page), shown
        self.folder = f"/{secrets.token_urlsafe(12)}/"
        self.room = threading.BoundedSemaphore(MOST)
        super().__init__((HOST, port), Handler)
        self.address = f"http://{HOST}:{self.server_address[1]}{self.folder}"

    def server_bind(self) -> None:
        """Binds as any server does. (The one of http.server would ask for this machine's name, wherever that is
        kept.)"""
        socketserver.TCPServer.server_bind(self)
        self.server_name, self.server_port = HOST, self.server_address[1]

    def process_request(self, request: Request, address: tuple) -> None:
        if self.room.acquire(blocking=False):
            super().process_request(request, address)
        else:
            self.shutdown_request(request)

    def process_request_thread(self, request: Request, address: tuple) -> None:
        try:
            super().process_request_thread(request, address)
        finally:
            self.room.release()

    def handle_error(self, request: Request, address: tuple) -> None:
        """A browser that left, or took nothing for too long. Nobody else has to hear of it."""


class Handler(http.server.BaseHTTPRequestHandler):
    """A connection of a browser, for one request."""
    server: Server
    timeout, server_version, sys_version, default_request_version = PATIENCE, "gikvand", "", "HTTP/1.0"

    def setup(self) -> None:
        super().setup()
        self.limit = threading.Timer(PATIENCE, self.cut)
        self.limit.daemon = True
        self.limit.start()

    def finish(self) -> None:
        self.limit.cancel()
        super().finish()

    def cut(self) -> None:
        """Ends a connection whose request hasn't come in time."""
        with contextlib.suppress(OSError):
            self.connection.shutdown(socket.SHUT_RDWR)

    def do_GET(self) -> None:
        self.limit.cancel()
        if not OURS.fullmatch(self.headers.get("Host", "")):
            self.send_error(421)
        elif self.path == self.server.folder:
            self.begin("text/html; charset=utf-8")
            self.wfile.write(self.server.page)
        elif self.path == f"{self.server.folder}events":
            self.begin("text/event-stream")
            self.tell()
        else:
            self.send_error(404)

    def begin(self, kind: str, status: int = 200) -> None:
        self.send_response(status)
        for name, value in (("Content-Type", kind), ("Content-Security-Policy", self.server.policy),
                            ("Cache-Control", "no-store"), ("X-Content-Type-Options", "nosniff"),
                            ("Referrer-Policy", "no-referrer"), ("Cross-Origin-Resource-Policy", "same-origin")):
            self.send_header(name, value)
        self.end_headers()

    def tell(self) -> None:
        """Tells what is to be shown, whenever that changes, until the browser leaves."""
        shown, number = self.server.shown, 0
        self.wfile.write(b"retry: 2000\n\n")
        with shown.listening():
            while not shown.has_ended:
                number, data = shown.next(number)
                self.wfile.write(b"data: %s\n\n" % data if data else b": nothing new\n\n")
            self.wfile.write(ENDED)

    def send_error(self, code: int, message: str | None = None, explain: str | None = None) -> None:
        """Refuses a request, in words that have none of it in them."""
        self.close_connection = True
        self.begin("text/plain; charset=utf-8", code)
        self.wfile.write(f"{code}: gikvand has no such page here; it printed its address as it began\n".encode())

    def log_message(self, form: str, *words: object) -> None:
        """Says nothing of requests."""


@contextlib.contextmanager
def serving(port: int, page: str, shown: Shown) -> Iterator[str]:
    """Serves the page meanwhile: its address."""
    try:
        server = Server(port, page, shown)
    except OSError as why:
        raise Trouble(f"cannot listen on {port}: {why.strerror}") from None
    threading.Thread(target=server.serve_forever, kwargs={"poll_interval": 0.1}, daemon=True).start()
    try:
        yield server.address
    finally:
        shown.end()
        server.shutdown()
        server.server_close()
