"""A program that stands in the place of venued or venue-replay, and does as that does, but for one thing.

    tests/wrong_program.py WRONG PROGRAM WORD...      runs PROGRAM with these words; WRONG names what is wrong, or is empty

tests/known_bad.py lets other tests run with it, and each of them has to refuse it. A venue that listens is one at other
ports, to which this one hands on what comes in.
"""
import ctypes
import os
import re
import signal
import socket
import subprocess
import sys
import threading
from collections.abc import Callable

ROOT = os.path.dirname(os.path.dirname(os.path.abspath(__file__)))
sys.path.insert(0, os.path.join(ROOT, "dev"))

import with_scripts  # (in front of what stands there, and of what an older Python can't read)
from gikvand.words import sure
from venues import HEAD, HOST, free_port

REPORT = b"\x0135=8\x01"
DIES_WITH_US = 1  # PR_SET_PDEATHSIG: the program that stands behind ends with this one.


def sealed(text: bytes) -> bytes:
    """A message with the length and the sum for the fields of its body, the sum's own field left out."""
    body = text.split(b"\x01", 2)[2]
    head = b"8=FIX.4.4\x019=%d\x01" % len(body) + body
    return head + b"10=%03d\x01" % (sum(head) % 256)


def with_field(message: bytes, tag: bytes, change: Callable[[bytes], bytes]) -> bytes:
    """A message whose first field of this tag is changed."""
    return sealed(re.sub(rb"(?<=\x01%s=)[^\x01]*(?=\x01)" % tag, lambda it: change(it[0]), message[:-7], count=1))


def risen(value: bytes) -> bytes:
    return b"%d" % (int(value) + 1)


class Answers:
    """What goes out to a member, message by message, and what is wrong with it."""

    def __init__(self, wrong: str) -> None:
        self.wrong, self.rest, self.held, self.reports = wrong, b"", b"", 0

    def take(self, data: bytes) -> bytes:
        """What goes out where these bytes have come."""
        self.rest, out = self.rest + data, b""
        while (head := HEAD.match(self.rest)) and len(self.rest) >= (size := head.end() + int(head[1]) + 7):
            out += self.altered(self.rest[:size])
            self.rest = self.rest[size:]
        return out

    def end(self) -> bytes:
        """What still goes out at the end of the bytes."""
        held, self.held = self.held + self.rest, b""
        return held + (b"\0" if self.wrong == "a byte too many" else b"")

    def altered(self, message: bytes) -> bytes:
        if REPORT not in message:
            held, self.held = self.held, b""
            return held + (b"" if self.wrong == "no Logout" and b"\x0135=5\x01" in message else message)
        self.reports += 1
        if self.wrong == "another price":
            return with_field(message, b"44", risen)
        if self.wrong == "another total":
            return with_field(message, b"14", risen)
        if self.wrong == "another number":
            return with_field(message, b"34", risen)
        if self.wrong == "another ExecID":
            return with_field(message, b"17", risen)
        if self.wrong == "another sum":
            return message[:-4] + b"%03d\x01" % ((int(message[-4:-1]) + 1) % 256)
        if self.wrong == "a report missing":
            return b""
        if self.wrong == "a report twice":
            return message + message
        if self.wrong == "reports swapped":
            held, self.held = self.held, message if not self.held else b""
            return message + held if held else b""
        return message


class Relay:
    """A port of the venue: each client that comes in is handed on to the program behind, one after another."""

    def __init__(self, port: int, behind: int, wrong: str) -> None:
        self.listener = socket.socket()
        self.listener.setsockopt(socket.SOL_SOCKET, socket.SO_REUSEADDR, 1)
        self.listener.bind(("0.0.0.0" if wrong == "all addresses" else HOST, port))
        self.listener.listen()
        self.behind, self.wrong = behind, wrong
        threading.Thread(target=self.serve, daemon=True).start()

    def serve(self) -> None:
        while True:
            client, _ = self.listener.accept()
            venue = socket.create_connection((HOST, self.behind))
            for it in (client, venue):
                it.setsockopt(socket.IPPROTO_TCP, socket.TCP_NODELAY, 1)
            threading.Thread(target=self.inward, args=(client, venue), daemon=True).start()
            threading.Thread(target=self.outward, args=(client, venue), daemon=True).start()

    def inward(self, client: socket.socket, venue: socket.socket) -> None:
        try:
            while data := client.recv(65536):
                venue.sendall(data)
            venue.shutdown(socket.SHUT_WR)
        except OSError:
            venue.close()

    def outward(self, client: socket.socket, venue: socket.socket) -> None:
        answers = Answers(self.wrong)
        try:
            while data := venue.recv(65536):
                client.sendall(answers.take(data))
            client.sendall(answers.end())
            client.shutdown(socket.SHUT_WR)
        except OSError:
            client.close()


def dies_with_us() -> None:
    ctypes.CDLL(None).prctl(DIES_WITH_US, signal.SIGKILL)


def spin() -> None:
    """Keeps a core busy."""
    while True:
        pass


def listen(wrong: str, program: str, port: str, journal: str, gateways: str, *symbols: str) -> int:
    """A venue that listens."""
    if not (port.isdecimal() and gateways.isdecimal()):
        return subprocess.run([program, port, journal, gateways, *symbols]).returncode
    first, count, behind = int(port), int(gateways), free_port(int(gateways))
    served = count - (wrong == "a port too few") + (wrong == "a port too many")
    words = [program, str(behind), journal, gateways, *symbols]
    venue = subprocess.Popen(words, stdout=subprocess.PIPE, text=True, preexec_fn=dies_with_us)
    try:
        relays = [Relay(first + at, behind + min(at, count - 1), wrong) for at in range(served)]
    except OSError:
        print(f"venued: cannot listen on {port}", file=sys.stderr)
        return 1
    for line in sure(venue.stdout):
        if wrong == "another count" and "stopped" in line:
            line = line.replace(" commands", "0 commands")
        print(line, end="", flush=True)
        if wrong == "a line too many":
            print("venued: hello", flush=True)
        if wrong == "a busy core" and relays and "ready" in line:
            threading.Thread(target=spin, daemon=True).start()
    status = venue.wait()
    return 3 if wrong == "another status" else status


def short_of_memory(wrong: str, words: list[str]) -> int:
    """A venue over standard input and output that may be refused memory."""
    it = subprocess.run(words, capture_output=True)
    out, err, status = it.stdout, it.stderr, it.returncode
    if wrong == "never any memory":
        out, err, status = b"", b"venued: no memory\n", 1
    elif status == 1 and wrong == "no line of no memory":
        err = b""
    elif status == 1 and wrong == "no memory with status 0":
        status = 0
    elif status == 1 and wrong == "bytes in front of no memory":
        out = b"8=FIX.4.4\x01"
    elif status == 1 and wrong == "no memory passed over":
        err, status = b"", 0
    put(1, out)
    put(2, err)
    return status


def stream(wrong: str, words: list[str]) -> int:
    """A venue over standard input and output."""
    answers = Answers(wrong)
    venue = subprocess.Popen(words, stdout=subprocess.PIPE, preexec_fn=dies_with_us)
    while data := os.read(sure(venue.stdout).fileno(), 65536):
        put(1, answers.take(data))
    put(1, answers.end())
    status = venue.wait()
    if wrong == "a line of fault":
        put(2, b"venued: journal failed\n")
    return 3 if wrong == "another status" else status


def put(file: int, data: bytes) -> None:
    """Writes all of these bytes."""
    while data:
        data = data[os.write(file, data):]


def replay(wrong: str, words: list[str]) -> int:
    """A run of venue-replay."""
    it = subprocess.run(words, capture_output=True)
    out, err, status = wrong_run(wrong, words, it.stdout, it.stderr, it.returncode)
    put(1, out)
    put(2, err)
    return 3 if wrong == "another status" else status


def wrong_run(wrong: str, words: list[str], out: bytes, err: bytes, status: int) -> tuple[bytes, bytes, int]:
    """What a wrong run of venue-replay says."""
    lines = out.splitlines(keepends=True)
    if wrong == "a line missing":
        lines = lines[1:]
    if wrong == "a line twice":
        lines = lines[:1] + lines
    if wrong == "lines swapped":
        lines = lines[1:2] + lines[:1] + lines[2:]
    out = b"".join(lines)
    if wrong == "another digit":
        out = re.sub(rb"\d(?=\D*\Z)", lambda it: b"%d" % (9 - int(it[0])), out)
    if wrong == "no line of fault":
        err = b""
    if wrong == "another offset":
        err = re.sub(rb"\d+", lambda it: risen(it[0]), err)
    if wrong == "always status 0":
        status = 0
    if wrong == "a changed journal" and os.path.exists(words[1]):
        with open(words[1], "ab") as file:
            file.write(b"\0")
    if wrong == "a further file":
        with open(f"{words[1]}.more", "wb"):
            pass
    return out, err, status


OF_REPORTS = ["another price", "another total", "another number", "another ExecID", "another sum", "a report missing",
              "a report twice", "reports swapped"]
OVER_TCP = [("the_worked_example", it)
            for it in ("", *OF_REPORTS, "no Logout", "another count", "another status", "a line too many")]
OVER_TCP += [("each_count_of_gateways", it) for it in ("", "a port too few", "a port too many")]
OVER_TCP += [("the_local_host_alone", "all addresses"), ("an_idle_venue", "a busy core")]
OVER_STREAMS = [*OF_REPORTS, "no Logout", "a byte too many", "another status", "a line of fault"]
OF_MEMORY = ["another price", "another status", "never any memory", "no line of no memory", "no memory with status 0",
             "bytes in front of no memory", "no memory passed over"]
REPLAYS = ["", "a line missing", "a line twice", "lines swapped", "another digit", "no line of fault", "another offset",
           "always status 0", "another status", "a changed journal", "a further file"]


def main() -> None:
    wrong, program, *words = sys.argv[1:]
    if not os.path.basename(program).startswith("venued"):
        status = replay(wrong, [program, *words])
    elif len(words) > 3 and words[0] != "-":
        status = listen(wrong, program, *words)
    elif wrong in OF_MEMORY and wrong not in OVER_STREAMS:
        status = short_of_memory(wrong, [program, *words])
    else:
        status = stream(wrong, [program, *words])
    sys.stdout.flush()
    os._exit(status)


if __name__ == "__main__":
    main()
