"""A relay between a member's engine and the edge, which notes what both say, and can lose a message or cut them off."""
import select
import socket
import threading
import time
from collections.abc import Callable
from typing import TypeVar

from edges import HOST, PATIENCE
from gikvand.fix import parted

T = TypeVar("T")
Picks = Callable[[str, bool], object]  # Of a message, and whether the member says it: whether it is meant.

AWAY = 1.0  # Seconds in which nobody is taken in, behind a cut.


class Relay(threading.Thread):
    """One that listens at this port and passes on to the edge's."""

    def __init__(self, port: int, edge: int) -> None:
        super().__init__(daemon=True)
        self.edge, self.closed_until = edge, 0.0
        self.said: list[str] = []  # By the member: whole messages in their order, those lost among them.
        self.told: list[str] = []  # To the member, likewise.
        self.loses: Picks | None = None  # The message that is lost.
        self.cuts: Picks | None = None  # The last message of the connection.
        self.changed = threading.Condition()
        self.door = socket.create_server((HOST, port))

    def run(self) -> None:
        while True:
            member = self.door.accept()[0]
            if time.monotonic() < self.closed_until:
                member.close()
                continue
            try:
                with member, socket.create_connection((HOST, self.edge), PATIENCE) as edge:
                    self.serve(member, edge)
            except OSError:  # One of both went, or the edge isn't there yet: the member connects anew.
                pass

    def serve(self, member: socket.socket, edge: socket.socket) -> None:
        rests = {member: b"", edge: b""}
        while True:
            for it in select.select([member, edge], [], [])[0]:
                data = it.recv(65536)
                if not data:
                    return
                is_members = it is member
                found, rests[it] = parted(rests[it] + data)
                for text in found:
                    if not self.pass_on(text, is_members, edge if is_members else member):
                        return

    def pass_on(self, text: str, is_members: bool, to: socket.socket) -> bool:
        """Passes a message on, or loses it. Whether the connection goes on behind it."""
        with self.changed:
            is_lost = self.loses and self.loses(text, is_members)
            is_last = self.cuts and self.cuts(text, is_members)
            self.loses = None if is_lost else self.loses
            if is_last:
                self.cuts, self.closed_until = None, time.monotonic() + AWAY
            (self.said if is_members else self.told).append(text)
            self.changed.notify_all()
        if not is_lost:
            to.sendall(text.replace("|", "\x01").encode())
        return not is_last

    def wait(self, look: Callable[[], T | None], patience: float) -> T | None:
        """Waits until this finds something among what was said and told, and gives it, or None."""
        end = time.monotonic() + patience
        with self.changed:
            while not (found := look()):
                if not self.changed.wait(end - time.monotonic()) and time.monotonic() >= end:
                    return None
            return found
