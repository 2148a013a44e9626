"""Who a member is: a port of its own, a password or a certificate of its own, and members that can't be mixed up."""
import os
import subprocess
from collections.abc import Iterable

from edges import ROOT, Trouble, free_port, members_of, settings_of
from settings_tests import said

TEMPLATE = os.path.join(ROOT, "edge/stunnel/member.conf")


def certificate(name: str, issuer: str | None = None) -> None:
    """Makes a key and a certificate: its own issuer, or by another one."""
    words = ["openssl", "req", "-x509", "-newkey", "rsa:2048", "-nodes", "-keyout", f"{name}.key", "-out",
             f"{name}.pem", "-days", "2", "-subj", f"/CN={name}"]
    subprocess.run(words + (["-CA", f"{issuer}.pem", "-CAkey", f"{issuer}.key"] if issuer else []), check=True,
                   capture_output=True)


def stunnel_configuration(name: str, tls: int, port: int) -> str:
    """Writes the configuration of stunnel that comes with the edge, for a member with the certificate of this name."""
    with open(TEMPLATE, encoding="ascii") as file:
        text = file.read()
    for old, new in (("0.0.0.0:9843", f"127.0.0.1:{tls}"), ("127.0.0.1:9801", f"127.0.0.1:{port}"),
                     ("/etc/gikvand-edge/C1.pem", os.path.abspath(f"{name}.pem")), ("/etc/gikvand-edge/", "")):
        if old not in text:
            raise Trouble(f"{TEMPLATE} has no {old}")
        text = text.replace(old, new)
    with open(f"{name}.conf", "w", encoding="ascii") as file:
        file.write(text)
    return f"{name}.conf"


ALL = [["--all"], ["--check", "--all"]]
EITHER: list[list[str]] = [[], ["--check"], *ALL]


def refused(wanted: str, settings: str, words_of: Iterable[list[str]] = ALL) -> None:
    """An edge with these settings says this in one line and doesn't start, with each of these words."""
    for words in words_of:
        status, lines = said(settings, *words)
        if status != 1 or len(lines) != 1 or not lines[0].startswith(f"gikvand-edge: {wanted}"):
            raise Trouble(f"{words}: wanted {wanted!r}, came {status} {lines}")


def is_right(settings: str, *words: str) -> None:
    status, lines = said(settings, "--check", *words)
    if status or lines:
        raise Trouble(f"--check {words}: {status} {lines}")


def test_own_places() -> None:
    """Two members with one port, page or folder: refused by its name, in one line, and not one member is served."""
    port = free_port(3)
    common = {"VenuePort": port + 2}
    two = members_of(2, port)
    is_right(settings_of(common, two), "--all")
    for name, values, setting in (
            ("SocketAcceptPort", (port, port), "SocketAcceptPort"), ("HttpAcceptPort", (port, port), "HttpAcceptPort"),
            ("EdgePath", ("here", "here"), "EdgePath"), ("FileStorePath", ("here", "here"), "FileStorePath"),
            ("FileLogPath", ("here", "here"), "FileLogPath")):
        members = [{**it, name: each} for it, each in zip(two, values)]
        refused(f"{setting}: is the same for C1 and C2, and has to be each one's own", settings_of(common, members))
    one_port = [{**it, "SocketAcceptPort": port} for it in two]
    refused("SocketAcceptPort: is the same for C1 and C2", settings_of(
        common, [{**it, "SocketAcceptHost": host} for it, host in zip(one_port, ("127.0.0.1", "0.0.0.0"))]))
    is_right(settings_of(common, [{**it, "SocketAcceptHost": host} for it, host in
                                  zip(one_port, ("127.0.0.1", "127.0.0.2"))]), "--all")
    refused("VenuePort: is one for all sessions", settings_of(common, [two[0], {**two[1], "VenuePort": port}]))
    if left := set(os.listdir()) - {"edge.cfg"}:
        raise Trouble(f"something was made: {left}")


def test_known_members() -> None:
    """A member that neither a password nor a certificate of its own tells isn't served, unless anyone may come in."""
    port = free_port(2)
    with open("passwords", "w", encoding="ascii") as file:
        file.write("desk:secret\n")
    os.chmod("passwords", 0o600)
    certificate("a")
    common = {"VenuePort": port + 1, "AllowAnyone": None}
    own = stunnel_configuration("a", port + 1, port)
    wanted = "Username: is missing: neither a password nor a certificate of its own"
    refused(wanted, settings_of(common, members_of(1, port)), EITHER)
    refused(wanted, settings_of(common, members_of(1, port, AllowAnyone="N")), EITHER)
    for more in ({"Username": "desk", "PasswordFile": "passwords"}, {"StunnelConfig": own}, {"AllowAnyone": "Y"}):
        is_right(settings_of(common, members_of(1, port, **more)))
        is_right(settings_of(common, members_of(1, port, **more)), "--all")
    refused("SocketAcceptHost: isn't of the loopback", settings_of(
        common, members_of(1, port, StunnelConfig=own, SocketAcceptHost="0.0.0.0")), EITHER)


WRONG_SERVICES = {  # A text of the configuration, what stands in its place, and what is said of that.
    "two services": ("[C1]", "[C1]\naccept = 1\n[C2]", "it has more than one service"),
    "none": ("[C1]", ";", "may let others in, or stands in the wrong place"),
    "another member's port": ("connect = 127.0.0.1:", "connect = 127.0.0.1:1", "connect isn't 127.0.0.1:"),
    "another machine": ("connect = 127.0.0.1:", "connect = 10.0.0.1:", "connect isn't 127.0.0.1:"),
    "two members' ports": ("verifyPeer", "connect = 127.0.0.1:9\nverifyPeer", "connect stands there twice"),
    "a chain": ("verifyPeer = yes", "verifyChain = yes", "verifyPeer isn't yes"),
    "no look": ("verifyPeer = yes", "verifyPeer = no", "verifyPeer isn't yes"),
    "no look behind one": ("verifyPeer = yes", "verifyPeer = yes\nverifyPeer = no", "verifyPeer stands there twice"),
    "a look that isn't needed": ("requireCert = yes", "requireCert = no", "requireCert isn't yes"),
    "others by a password": ("verifyPeer", "PSKsecrets = keys\nverifyPeer", "PSKsecrets may let others in"),
    "others in a folder": ("verifyPeer", "CApath = /etc/ssl/certs\nverifyPeer", "CApath may let others in"),
    "an older look": ("verifyPeer", "verify = 0\nverifyPeer", "verify may let others in"),
    "another file": ("foreground", "include = /etc/stunnel\nforeground", "include may let others in"),
    "a client's": ("verifyPeer", "client = yes\nverifyPeer", "client may let others in"),
    "a path of nowhere": ("CAfile = /", "CAfile = ", "CAfile is no path that begins with /"),
    "a file of nowhere": ("CAfile = /", "CAfile = /nowhere/", "can't be read: /nowhere/"),
    "no option": ("verifyPeer = yes", "verifyPeer", "a line is no option: verifyPeer"),
}
WRONG_FILES = {  # What a file of certificates has in the place of one, and what is said of that.
    "two": (lambda text: 2 * text, "has 2 certificates, and not one"), "none": (lambda text: "", "has 0 certificates"),
    "half of one": (lambda text: text[:400], "has a certificate that isn't whole"),
    "a revocation list": (lambda text: text.replace("CERTIFICATE", "X509 CRL"), "has something else than certificates"),
    "one that is trusted": (lambda text: text + text.replace("CERTIFICATE", "TRUSTED CERTIFICATE"),
                            "has something else than certificates"),
}


def test_stunnel_configurations() -> None:
    """A configuration of stunnel by which others than its member may come in is refused, and by what is wrong in it."""
    port = free_port(2)
    certificate("a")
    settings = settings_of({"VenuePort": port + 1, "AllowAnyone": None}, members_of(1, port, StunnelConfig="a.conf"))
    with open(stunnel_configuration("a", port + 1, port), encoding="ascii") as file:
        right = file.read()
    with open("a.pem", encoding="ascii") as file:
        whole = file.read()

    def tried(name: str, text: str, certificates: str, wanted: str) -> None:
        for path, content in (("a.conf", text), ("a.pem", certificates)):
            with open(path, "w", encoding="ascii") as file:
                file.write(content)
        status, lines = said(settings)
        begin = "gikvand-edge: StunnelConfig: "
        if status != 1 or len(lines) != 1 or not lines[0].startswith(begin) or wanted not in lines[0]:
            raise Trouble(f"{name}: wanted {wanted!r}, came {status} {lines}")

    for name, (old, new, wanted) in WRONG_SERVICES.items():
        if right.count(old) != 1:
            raise Trouble(f"{name}: {old!r} stands {right.count(old)} times in the configuration")
        tried(name, right.replace(old, new), whole, wanted)
    for name, (change, wanted) in WRONG_FILES.items():
        tried(name, right, change(whole), f"isn't one member's own: a.conf: CAfile {os.path.abspath('a.pem')} {wanted}")
    path = os.path.abspath("a.pem")
    for spelled in (right.upper().replace(path.upper(), path), right.replace(" = ", "=")):
        with open("a.conf", "w", encoding="ascii") as file:
            file.write(spelled)
        with open("a.pem", "w", encoding="ascii") as file:
            file.write("text in front of it\n" + whole)
        is_right(settings)


def test_common_certificate() -> None:
    """Two members whose stunnels take the same certificate are refused, also where it stands in two files."""
    port = free_port(3)
    certificate("a")
    with open("a.pem", encoding="ascii") as file:
        whole = file.read()
    with open("b.pem", "w", encoding="ascii") as file:
        file.write("of another name\n" + whole.replace("\n", "\r\n"))
    two = [{**it, "StunnelConfig": stunnel_configuration(name, port + 2, port + at)}
           for at, (it, name) in enumerate(zip(members_of(2, port), "ab"))]
    settings = settings_of({"VenuePort": port + 2, "AllowAnyone": None}, two)
    refused("StunnelConfig: is the same for C1 and C2", settings)
    certificate("b")
    is_right(settings, "--all")


TESTS = [test_own_places, test_known_members, test_stunnel_configurations, test_common_certificate]
