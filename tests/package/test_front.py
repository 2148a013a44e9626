"""Tests of contrib/front, examples of what stands in front of a venue: the firewall's rules in a network of their own, and that sshd's
words are about the same member."""
import os
import re
import socket
import subprocess
import sys

import pytest

from checks import put_text, text_of

pytestmark = pytest.mark.quick

RULES, SSHD = "contrib/front/members.nft", "contrib/front/sshd.conf"
USERS = {"gikvand-edge-C1": 61_001, "member-c2": 61_002}  # In the place of names that this machine hasn't.
ANOTHER, PORTS = 61_003, (9001, 9002, 9003)
SEEN = "SEEN"


def connects(user: int, port: int) -> bool:
    """Whether a process of this user can connect to a port of this machine."""
    pid = os.fork()
    if pid == 0:
        try:
            os.setgroups([])
            os.setuid(user)
            socket.socket().connect(("127.0.0.1", port))
        except OSError:
            os._exit(1)
        os._exit(0)
    return os.waitpid(pid, 0)[1] == 0


def look() -> None:
    """Prints who can connect where, in a network with these rules."""
    "x".encode("idna")  # (what a name of a host takes, which another user may not read)
    subprocess.run(["ip", "link", "set", "lo", "up"], check=True)
    subprocess.run(["nft", "-f", "rules"], check=True)
    listeners = [socket.create_server(("127.0.0.1", it)) for it in PORTS]
    print(SEEN, [(user, port) for user in (*USERS.values(), ANOTHER, 0) for port in PORTS if connects(user, port)])
    for it in listeners:
        it.close()


@pytest.mark.root
@pytest.mark.debian("nft", "ip")
def test_rules_of_the_firewall() -> None:
    """Each member's user comes to its own port, and nobody else to any of them, root neither. Other ports stay open."""
    rules = text_of(RULES)
    for name, number in USERS.items():
        assert rules.count(f'"{name}"') == 1
        rules = rules.replace(f'"{name}"', str(number))
    put_text("rules", rules)
    came = subprocess.run(["unshare", "--net", sys.executable, os.path.abspath(__file__)], capture_output=True, text=True, timeout=60,
                          env={**os.environ, "PYTHONPATH": os.pathsep.join(sys.path)})
    edge, member = USERS.values()
    wanted = [(edge, 9001), (edge, 9003), (member, 9002), (member, 9003), (ANOTHER, 9003), (0, 9003)]
    assert (came.stdout, came.stderr) == (f"{SEEN} {wanted}\n", "")


def test_users() -> None:
    """The edge's user is the one that its package makes, and sshd lets the other member to its port alone, of the same number."""
    rules, sshd = text_of(RULES), text_of(SSHD)
    ports = dict((name, port) for port, name in re.findall(r'tcp dport (\d+) meta skuid "([^"]+)" accept', rules))
    assert set(ports) == set(USERS) and "u gikvand-edge-C1 " in re.sub(" +", " ", text_of("contrib/edge/gikvand-edge.sysusers"))
    assert re.findall(r"^Match User (.*)$", sshd, re.M) == ["member-c2"]
    assert re.findall(r"^ +PermitOpen (.*)$", sshd, re.M) == [f"127.0.0.1:{ports['member-c2']}"]
    words = dict(it.split(None, 1) for it in sshd.splitlines() if it.startswith("    "))
    assert {it for it, value in words.items() if value in ("no", "none")} == {
        "AllowStreamLocalForwarding", "AllowAgentForwarding", "X11Forwarding", "PermitTunnel", "PermitListen", "PermitTTY",
        "PasswordAuthentication"}
    assert (words["AllowTcpForwarding"], words["ForceCommand"]) == ("local", "/usr/sbin/nologin")
    assert f"-L {ports['member-c2']}:127.0.0.1:{ports['member-c2']} member-c2@" in sshd


if __name__ == "__main__":
    look()
