"""What passes on the wire, seen by others' programs: tshark on both sides of the edge, and members behind stunnel."""
import shutil
import socket
import ssl
import struct
import subprocess
from collections.abc import Iterable

from edges import HOST, JOURNAL, PATIENCE, SYMBOLS, Edge, Trouble, free_port, members_of, running, settings_of, started
from engines import Engine, cancel, order, replace
from gikvand.words import sure
from identity_tests import certificate, stunnel_configuration
from relay import Relay
from trading_tests import expect
from venues import await_that

PCAP = struct.pack("<IHHiIII", 0xA1B2C3D4, 2, 4, 0, 0, 65535, 101)  # Of packets that begin with their IP header.
MEMBERS_PORT, VENUES_PORT = 9800, 9001

Conversation = tuple[int, list[str], list[str]]  # A port, what was said to that port, and what was told by that.


def packet(source: int, target: int, number: int, data: bytes) -> bytes:
    """A TCP segment with these bytes, from one port to the other."""
    tcp = struct.pack(">HHIIBBHHH", source, target, number, 0, 0x50, 0x18, 65535, 0, 0) + data
    ip = struct.pack(">BBHHHBBH", 0x45, 0, 20 + len(tcp), 0, 0, 64, 6, 0) + 2 * socket.inet_aton(HOST)
    return struct.pack("<IIII", 0, 0, 20 + len(tcp), 20 + len(tcp)) + ip + tcp


def capture(name: str, conversations: Iterable[Conversation]) -> None:
    """Writes a capture of conversations, each a server's port, what its client said and what it was told."""
    with open(name, "wb") as file:
        file.write(PCAP)
        for client, (port, said, told) in enumerate(conversations, 40000):
            for source, target, messages in ((client, port, said), (port, client, told)):
                at = 1
                for text in messages:
                    data = text.replace("|", "\x01").encode()
                    file.write(packet(source, target, at, data))
                    at += len(data)


def tshark(name: str, *words: str) -> list[str]:
    ports = [it for port in (MEMBERS_PORT, VENUES_PORT) for it in ("-d", f"tcp.port=={port},fix")]
    ran = subprocess.run(["tshark", "-r", name, *ports, "-o", "tcp.check_checksum:FALSE", *words], capture_output=True,
                         text=True)
    if ran.returncode:
        raise Trouble(f"tshark: {ran.stderr}")
    return ran.stdout.splitlines()


def test_dissected() -> None:
    """tshark reads each message on both sides of the edge as FIX, with a right sum and without a warning."""
    if not shutil.which("tshark"):
        raise Trouble("tshark isn't there: edge/setup --tests installs it")
    venue = started(JOURNAL, 2, list(SYMBOLS))
    to_venue, to_edge, port = free_port(2), free_port(1), free_port(2)
    inner = [Relay(to_venue + k, venue.port + k) for k in range(2)]
    outer = Relay(to_edge, port)
    for it in (*inner, outer):
        it.start()
    Edge(settings_of({"VenuePort": to_venue}, members_of(2, port))).ready(2)
    one, other = Engine(to_edge, 1).log_on(), Engine(port, 2).log_on()
    one.send("D", order("a-1", 1, 10, "50.25"))
    one.report(_150="0")
    other.send("D", order("b", 2, 4, "50"))
    one.report(_150="F")
    one.send("G", replace("a-2", "a-1", 1, 12, "50.5"))
    one.report(_150="5")
    one.send("F", cancel("a-3", "a-2", 1))
    one.report(_150="4")
    one.send("F", cancel("a-4", "a-2", 1))
    one.report(_35="9")
    one.send("D", order("a-5", 1, 10, "50.001"))
    one.report(_150="8")
    one.next -= 2
    one.send("2", f"7={one.next}|16=0|")
    one.report(_43="Y")
    one.log_out()
    capture("both.pcap", [(MEMBERS_PORT, outer.said, outer.told), *((VENUES_PORT, it.said, it.told) for it in inner)])
    count = sum(len(it.said) + len(it.told) for it in (*inner, outer))
    expect(len(tshark("both.pcap", "-Y", "fix")), count)
    if wrong := tshark("both.pcap", "-Y", "_ws.malformed || _ws.expert.severity >= 4194304 && fix"):
        raise Trouble(f"tshark warns: {wrong[0]}")
    broken = [text.replace("|54=1|", "|54=2|") for text in outer.said]
    capture("broken.pcap", [(MEMBERS_PORT, broken, outer.told)])
    if not tshark("broken.pcap", "-Y", "_ws.malformed || _ws.expert.severity >= 4194304 && fix"):
        raise Trouble("tshark sees no wrong sum, so it shows nothing")


class Stunnel:
    """stunnel by this configuration, that of the edge for one member or another one, which listens at this port."""

    def __init__(self, configuration: str, tls: int) -> None:
        words = ["stunnel", configuration]
        nothing = subprocess.DEVNULL
        self.process = subprocess.Popen(words, stdout=nothing, stderr=nothing)
        running.append(self)
        await_that("a stunnel that listens", lambda: self.listens(tls))

    @staticmethod
    def listens(tls: int) -> bool:
        try:
            socket.create_connection((HOST, tls), 5).close()
            return True
        except OSError:
            return False

    def kill(self) -> None:
        self.process.kill()
        self.process.wait()


class TlsEngine(Engine):
    """An engine that speaks TLS to this port, with this certificate or with none."""

    def __init__(self, port: int, name: str | None, sender: str) -> None:
        super().__init__(port, 1, sender=sender)
        self.context = ssl.create_default_context(cafile="edge.pem")
        self.context.check_hostname = False
        if name:
            self.context.load_cert_chain(f"{name}.pem", f"{name}.key")

    def connect(self) -> "TlsEngine":
        super().connect()
        self.socket = self.context.wrap_socket(sure(self.socket))
        self.socket.settimeout(PATIENCE)
        return self


def test_tls() -> None:
    """A member trades through its own stunnel with its own certificate. With another's, with none, with one of the same
    issuer, or by the stunnel of another one with that one's certificate, nobody logs on as it."""
    if not shutil.which("stunnel"):
        raise Trouble("stunnel isn't there: edge/setup --tests installs it")
    for name in ("edge", "issuer", "stranger"):
        certificate(name)
    for name in ("a", "b", "c"):
        certificate(name, "issuer")
    port, tls, venue = free_port(2), free_port(2), started(JOURNAL, 2, list(SYMBOLS))
    members = [{**it, "StunnelConfig": stunnel_configuration(name, tls + at, port + at)}
               for at, (it, name) in enumerate(zip(members_of(2, port), "ab"))]
    edge = Edge(settings_of({"VenuePort": venue.port, "AllowAnyone": None}, members)).ready(2)
    for at, name in enumerate("ab"):
        Stunnel(stunnel_configuration(name, tls + at, port + at), tls + at)
    wrong: list[tuple[int, str | None, str]] = [(tls, name, "DESK-A") for name in (None, "stranger", "b", "c", "issuer")]
    wrong += [(tls + 1, "a", "DESK-A"), (tls + 1, "a", "DESK-B"), (tls, "a", "DESK-B"), (tls + 1, "b", "DESK-A")]
    for door, whose, sender in wrong:
        try:
            TlsEngine(door, whose, sender).log_on()
        except (OSError, Trouble):
            continue
        raise Trouble(f"{sender} came in with the certificate {whose}")
    logons = lambda: sorted(line[:17] for line in edge.lines if "whose first message is no Logon of a member" in line)
    await_that("each of the two says what came", lambda: len(logons()) >= 2)
    expect(logons(), ["gikvand-edge: C1:", "gikvand-edge: C2:"])
    for at, (name, sender) in enumerate((("a", "DESK-A"), ("b", "DESK-B"))):
        one = TlsEngine(tls + at, name, sender).log_on()
        one.send("D", order(f"{name}1", 1, 10, "50.25"))
        one.report(_150="0")
    expect([line for line in edge.lines if "isn't served" in line], [])


TESTS = [test_dissected, test_tls]
