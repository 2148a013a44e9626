#!/usr/bin/env python3
"""Prints the messages of a stream of a feed, by their numbers (FEED.md), with Python's own library alone.

    feed_reader.py HOST:PORT USER PASSWORDS CA.PEM venue_NAME_events 1 [once]

from that number on, each once and in order. It goes on as the stream grows, or ends where that ends with `once`.
"""
import json
import secrets
import socket
import ssl
import sys
import time
from typing import BinaryIO

INBOX = b"_INBOX.reader" + secrets.token_hex(8).encode()  # Nobody else in this account hears what comes there.


def line_of(server: BinaryIO) -> bytes:
    line = server.readline()
    if not line.endswith(b"\r\n"):
        raise ConnectionError("the server has ended the connection")
    return line[:-2]


def connected(place: str, user: str, password: str, authority: str) -> ssl.SSLSocket:
    """A connection that is logged on, and hears what comes to its inbox."""
    host, port = place.rsplit(":", 1)
    plain = socket.create_connection((host, int(port)), timeout=10)
    said = b""
    while not said.endswith(b"\r\n"):  # What a server is, without TLS yet.
        said += plain.recv(1)
    safe = ssl.create_default_context(cafile=authority).wrap_socket(plain, server_hostname=host)
    words = {"verbose": False, "pedantic": False, "user": user, "pass": password, "headers": True, "no_responders": True,
             "protocol": 1, "lang": "python", "version": "1"}
    safe.sendall(b"CONNECT %s\r\nSUB %s 1\r\n" % (json.dumps(words).encode(), INBOX))
    return safe


def message(safe: ssl.SSLSocket, server: BinaryIO, stream: str, number: int) -> bytes | None:
    """The message of this number, or None where the stream hasn't got it yet. A message of another number or stream is passed over:
    it answers somebody else."""
    body = b'{"seq":%d}' % number
    safe.sendall(b"PUB $JS.API.DIRECT.GET.%s %s %d\r\n%s\r\n" % (stream.encode(), INBOX, len(body), body))
    while True:
        header, text = answer(safe, server)
        if header.startswith(b"NATS/1.0 404"):
            return None
        if b"\r\nNats-Sequence: " not in header:
            raise ConnectionError(f"the stream isn't there now: {header.decode('latin-1').strip()}")
        if b"\r\nNats-Sequence: %d\r\n" % number in header and b"\r\nNats-Stream: %s\r\n" % stream.encode() in header:
            return text


def answer(safe: ssl.SSLSocket, server: BinaryIO) -> tuple[bytes, bytes]:
    """The next answer: its header and its text."""
    while not (line := line_of(server)).startswith((b"MSG", b"HMSG")):
        if line.startswith(b"-ERR"):
            raise PermissionError(line.decode("latin-1"))
        if line == b"PING":
            safe.sendall(b"PONG\r\n")
    kind, *words = line.split(b" ")
    header, size = int(words[-2]) if kind == b"HMSG" else 0, int(words[-1])
    data = server.read(size + 2)
    return data[:header], data[header:size]


def password_of(path: str, user: str) -> str:
    """The password of a user, of a file of lines USER:PASSWORD."""
    with open(path, encoding="utf-8") as file:
        return dict(line.rstrip("\n").partition(":")[::2] for line in file)[user]


def main() -> None:
    place, user, passwords, authority, stream, first, *more = sys.argv[1:]
    safe = connected(place, user, password_of(passwords, user), authority)
    server, number = safe.makefile("rb"), int(first)
    while True:
        text = message(safe, server, stream, number)
        if text is not None:
            sys.stdout.buffer.write(text + b"\n")
            number += 1
        elif more == ["once"]:
            return
        else:
            sys.stdout.buffer.flush()
            time.sleep(0.05)


if __name__ == "__main__":
    if len(sys.argv) not in (7, 8):
        sys.exit(__doc__.strip())
    main()
