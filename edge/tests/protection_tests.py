"""What a member may do is bounded, and none holds up another: rates, sizes, orders, passwords, slow readers."""
import contextlib
import math
import os
import socket
import subprocess
import time

from edges import HOST, PATIENCE, ROOT, Edge, Settings, Trouble, again, await_that, free_port, page_at, pair, session_files, told
from engines import Engine, at_once, at_rest, cancel, now, order, refused, replace
from gikvand.fix import framed, value
from gikvand.words import sure
from recovery_tests import places, restarted
from trading_tests import expect

AT_ONCE = 40


def test_rate() -> None:
    """More requests than a member may send in a second are refused in words, and those within it pass."""
    venue, edge, port = pair(2, MaxMessagesPerSecond="5")
    one, other = Engine(port, 1).log_on(), Engine(port, 2).log_on()
    for at in range(AT_ONCE):
        one.send("D", order(f"a{at}", 1, 1, "50"))
    while len(one.reports) < AT_ONCE:
        one.pump(1)
    events = {value(it, "11"): value(it, "150") for it in one.reports}
    expect(([events[f"a{at}"] for at in range(5)], "8" in events.values()), (["0"] * 5, True))
    if not any("more than 5 requests a second" in it for it in one.came):
        raise Trouble("no refusal says why")
    other.send("D", order("b", 1, 1, "50"))
    other.report(_150="0")


def test_open_orders() -> None:
    """More open orders than allowed are refused; what is cancelled or filled makes room again."""
    venue, edge, port = pair(2, MaxOpenOrders="2")
    one, other = Engine(port, 1).log_on(), Engine(port, 2).log_on()
    for at, event in enumerate("008"):
        one.send("D", order(f"a{at}", 1, 10, "50"))
        one.report(_150=event, _11=f"a{at}")
    one.send("F", cancel("c", "a0", 1))
    one.report(_150="4")
    one.send("D", order("a3", 1, 10, "49"))
    one.report(_150="0")
    other.send("D", order("b", 2, 10, "50"))
    one.report(_150="F", _11="a1", _39="2")
    one.send("G", replace("a4", "a3", 1, 12, "49"))
    one.report(_150="5")
    one.send("D", order("a5", 1, 10, "49"))
    one.report(_150="0", _11="a5")
    one.send("D", order("a6", 1, 10, "49"))
    one.report(_150="8", _11="a6")
    other.send("D", order("d", 2, 4, "49"))
    one.report(_150="F", _11="a4", _39="1")
    one.send("F", cancel("e", "a4", 1))
    one.report(_150="4")
    for name, event in (("a7", "0"), ("a8", "8")):
        one.send("D", order(name, 1, 10, "48"))
        one.report(_150=event, _11=name)


def test_message_size() -> None:
    """A message above the bound is passed over and asked for, and the session goes on without it."""
    venue, edge, port = pair(MaxMessageBytes="256")
    one = Engine(port, 1).log_on()
    one.send("D", order("a", 1, 1, "50", more="58=" + "x" * 300 + "|"))
    edge.hears("a message can't be read: 8=FIX.4.4|9=")
    one.sent[2] = "0", ""  # Its engine gives the order up, and fills its number.
    one.send("D", order("b", 1, 1, "50"))
    one.report(_150="0", _11="b")


def test_cancel_on_disconnect() -> None:
    """A member that goes away leaves no order behind, where the settings say so, whatever ends: client or edge."""
    venue, edge, port = pair(2, CancelOnDisconnect="Y")
    one, other = Engine(port, 1).log_on(), Engine(port, 2).log_on()
    for at in range(3):
        one.send("D", order(f"a{at}", 1, 1, "50"))
        one.report(_150="0", _11=f"a{at}")
    one.send("G", replace("a9", "a0", 1, 5, "51"))
    one.report(_150="5")
    one.close()
    edge.hears("cancels 3 orders")
    one.log_on()
    expect(sorted(sure(value(one.report(_150="4"), "41")) for _ in range(3)), ["a1", "a2", "a9"])
    other.send("D", order("b", 2, 1, "50", more="59=3|"))
    other.report(_150="4", _11="b")
    one.send("D", order("c", 1, 1, "50"))
    one.report(_150="0", _11="c")
    edge.kill()
    edge = restarted(2)
    one.close()
    one.log_on().report(_150="4", _41="c")


def test_lost_cancels() -> None:
    """The venue is killed before it has read the cancels of a member that went away: they are sent again."""
    venue, edge, port = pair(CancelOnDisconnect="Y")
    one = at_rest(port, "a")
    venue.pause()
    one.close()
    edge.hears("cancels 1 orders")
    venue.kill()
    again(port, 1, venue.port)
    edge.hears("cancels 1 orders")
    one.log_on().report(_150="4", _41="a")


def unknown(edge: Edge, one: Engine, more: str, fault: str = "Username (553) or Password (554) is wrong") -> None:
    """This engine's Logon has a wrong password: nothing answers it, once it is looked at."""
    wrong, seen, end = f"is refused: {fault}; ", len(edge.lines), time.monotonic() + PATIENCE
    while not any(wrong in line for line in edge.lines[seen:]):
        if time.monotonic() > end:
            raise Trouble(f"no line says {wrong!r}")
        refused(one, "wasn't answered", more)
        time.sleep(0.05)


def test_passwords() -> None:
    """A session with a password takes no other, keeps it out of its log, and its store is safe from who hasn't it."""
    with open("passwords", "w", encoding="ascii") as file:
        file.write("someone:else\ndesk:s=cret\n")
    os.chmod("passwords", 0o600)
    venue, edge, port = pair(Username="desk", PasswordFile="passwords", ResetByMember="Y")
    one = Engine(port, 1).log_on("553=desk|554=s=cret|")
    one.send("D", order("a", 1, 1, "50"))
    one.report(_150="0")
    one.log_out()
    before = places(1)
    refused(one, "wasn't answered", "553=desk|554=s=cret|925=s=cret2|")  # FIX 4.4 has no NewPassword (925).
    for more in ("", "553=desk|554=secret|", "553=other|554=s=cret|", "553=desk|", "553=desk|554=s=cre|",
                 "141=Y|553=desk|554=no|"):
        unknown(edge, one, more, *(["Username (553) is missing"] if not more else
                                   ["Password (554) is missing"] if more == "553=desk|" else []))
    expect((before, places(1)), ([1], [1]))
    with open(session_files(1, "log") + "messages.current.log", encoding="ascii") as file:
        if "cret" in file.read():
            raise Trouble("the log has a password")
    refused(Engine(port, 1, sender="DESK-X"), "wasn't answered", "553=desk|554=s=cret|")
    if "cret" in edge.hears("no Logon of a member"):
        raise Trouble("a line has a password")
    time.sleep(4)  # As long as the edge waits behind the last wrong password.
    one = Engine(port, 1).log_on("141=Y|553=desk|554=s=cret|")
    expect((one.next, places(1)), (2, []))


def test_no_reset() -> None:
    """A member's ResetSeqNumFlag isn't taken where the settings don't say so, since it would drop what was missed."""
    venue, edge, port = pair()
    one = at_rest(port, "a")
    one.log_out()
    refused(one, "ResetSeqNumFlag (141) isn't taken", "141=Y|")
    edge.hears("is refused: ResetSeqNumFlag (141) isn't taken")
    expect(places(1), [1])
    one.out -= 1  # Its Logon was never looked at.
    one.log_on().write("A", "98=0|108=30|141=Y|")
    edge.hears("is refused: ResetSeqNumFlag (141) isn't taken")
    while one.pump(1):
        pass
    one.log_on()
    expect(places(1), [1])


def narrow(port: int) -> Engine:
    """A member with hardly any room for what comes, and an order that all others may trade with."""
    one = Engine(port, 1).connect()
    sure(one.socket).close()
    one.socket = socket.socket()
    one.socket.setsockopt(socket.SOL_SOCKET, socket.SO_RCVBUF, 2048)
    one.socket.connect((HOST, port))
    one.send("A", "98=0|108=60|")
    one.next_of("A")
    one.send("D", order("rest", 1, 1000000, "50"))
    one.report(_150="0")
    return one


def sold(member: Engine, count: int) -> float:
    """Lets a member sell one, and gives the seconds until it was told."""
    begin = time.monotonic()
    member.send("D", order(f"b{count}", 2, 1, "50"))
    member.report(_150="F", _11=f"b{count}")
    return time.monotonic() - begin


def test_slow_reader() -> None:
    """A member that takes nothing is let go, and has missed nothing when it is back; another one waits for nothing."""
    venue, edge, port = pair(2, MaxUnsentBytes="65536")
    one, other = narrow(port), Engine(port, 2).log_on()
    is_gone, count, longest = False, 0, 0.0
    while not is_gone:
        longest = max(longest, sold(other, count))
        at_once(other, *(("D", order(f"b{count + at}", 2, 1, "50")) for at in range(1, AT_ONCE)))
        count += AT_ONCE
        other.report(_150="F", _11=f"b{count - 1}")
        is_gone = any("it takes too few of its reports" in line for line in edge.lines)
        if count > 5000:  # Three times as many as the edge and the system hold for it.
            raise Trouble("a member that takes nothing wasn't let go")
    if longest > PATIENCE / 2:
        raise Trouble(f"a member waited {longest:.1f} s for another one")
    one.close()
    one.log_on()
    fills = 0
    while fills < count:
        one.report(_150="F")
        fills += 1
    expect(places(1), [int(sure(value(it, "17"))) for it in told(1)])


def figure(page: int, name: str, member: str = "C1") -> int:
    """A figure of a member, of its page."""
    lines = page_at(page, "metrics").splitlines()
    return int(next(line for line in lines if line.startswith(f'{name}{{member="{member}"}}')).split()[1])


def test_many_resends() -> None:
    """A member asks for all again a hundred times in one go, and takes nothing: the edge holds no more than for one."""
    page = free_port(1)
    venue, edge, port = pair(common={"HttpAcceptPort": page}, MaxUnsentBytes="65536")
    one = at_rest(port, "a")
    for _ in range(300):
        one.send("D", order("a", 1, 1, "50"))
        one.report(_150="8")
    first, one.out = one.out, one.out + 100
    head = f"49={one.sender}|52={now()}|56={one.target}"
    sure(one.socket).sendall(b"".join(framed(f"35=2|34={at}|{head}|7=1|16=0|") for at in range(first, one.out)))
    await_that("bytes that it doesn't take", lambda: figure(page, "gikvand_edge_unsent_bytes") > 1000, 0.1)
    most, end = 0, time.monotonic() + 3
    while time.monotonic() < end:
        most = max(most, figure(page, "gikvand_edge_unsent_bytes"))
        time.sleep(0.1)
    if most >= 200000:
        raise Trouble(f"the edge holds {most} bytes for a member")
    one.settle()
    expect(sum(value(it, "43") == "Y" and value(it, "150") == "0" for it in one.came), 100)


def test_bound_behind_a_resend() -> None:
    """A resend may take more than a member's bound; behind the resend the bound is what it was, and a member that takes
    nothing then is let go by it."""
    page = free_port(1)
    limits: Settings = {"MaxMessageBytes": "65536", "MaxReadMessagesPerSecond": "0", "MaxReadBytesPerSecond": "0"}
    venue, edge, port = pair(2, common={"HttpAcceptPort": page}, MaxUnsentBytes="65536", **limits)
    one, other = at_rest(port, "rest", 1000000), Engine(port, 2).log_on()
    for at in range(1000):
        one.send("D", order("far", 1, 1, "50", "X" * 1000))  # Its refusal is as long.
        if at % 50 == 49:
            one.settle()
    one.send("2", "7=1|16=0|")
    one.settle()
    head, far = f"49={one.sender}|52={now()}|56={one.target}", order("far", 1, 1, "50", "X" * 30000)
    sure(one.socket).setblocking(False)
    with contextlib.suppress(BlockingIOError):
        while True:
            data, one.out = framed(f"35=D|34={one.out}|{head}|{far}"), one.out + 1
            while data:  # The system may take a part of it, and the rest when the edge has read some.
                data = data[sure(one.socket).send(data):]
    count, end = 0, math.inf
    while not any("it takes too few of its reports" in line for line in edge.lines):
        sold(other, count)
        count += 1
        if count % 20 == 0 and (unsent := figure(page, "gikvand_edge_unsent_bytes")) > 200000:
            # Its process may be busy with what the member has sent, and comes to the reports behind that.
            end = min(end, time.monotonic() + PATIENCE)
            if time.monotonic() > end:
                raise Trouble(f"{unsent} bytes wait for a member that takes nothing")


def test_waits_for_room() -> None:
    """What a client doesn't take at once is written as soon as it has room: the edge waits for that, and not for the next
    moment at which it would look anyway."""
    subprocess.run(["cc", "-O1", "-shared", "-fPIC", "-o", "full.so", f"{ROOT}/edge/tests/full.c", "-ldl"], check=True)
    env = {**os.environ, "LD_PRELOAD": os.path.abspath("full.so"), "FULL": os.path.abspath("full")}
    venue, edge, port = pair(env=env, MaxMessageBytes="65536", MaxReadMessagesPerSecond="0", MaxReadBytesPerSecond="0")
    one = at_rest(port, "rest")
    for at in range(900):
        one.send("D", order("far", 1, 1, "50", "X" * 3000))  # Its refusal is as long.
        if at % 50 == 49:
            one.settle()
    one.send("2", "7=1|16=0|")
    await_that("a client that has no room", lambda: os.path.exists("full"))
    one.settle()
    with open("full", encoding="ascii") as file:
        expect(set(file.read().split()), {"asked"})


def test_deaf_for_a_minute() -> None:
    """A member takes nothing for a minute, in which another trades with it all the time; then it is told all of it."""
    venue, edge, port = pair(2)
    one, other = narrow(port), Engine(port, 2).log_on()
    waits: list[float] = []
    end = time.monotonic() + 60
    while time.monotonic() < end:
        waits.append(sold(other, len(waits)))
        if len(waits) % 100 == 0:
            time.sleep(0.5)
    waits.sort()
    print(f"a minute beside a member that takes nothing: {len(waits)} trades, each told within "
          f"{1000 * waits[-1]:.0f} ms, half of them within {1000 * waits[len(waits) // 2]:.1f} ms", flush=True)
    if not one.socket or not one.pump(0):
        one.close()
        one.log_on()
    for _ in waits:
        one.report(_150="F")
    expect(places(1), [int(sure(value(it, "17"))) for it in told(1)])


def test_status_page() -> None:
    """The page of each member says how it fares, as words and as figures, on loopback alone."""
    page = free_port(2)
    venue, edge, port = pair(2, common={"HttpAcceptPort": str(page)})
    one = at_rest(port, "a")
    for _ in range(2):
        one.send("D", order("a", 1, 1, "50"))
        one.report(_150="8")
    await_that("its client has taken all", lambda: not figure(page, "gikvand_edge_unsent_bytes"))
    lines = [page_at(it) for it in (page, page + 1)]
    expect(lines[0].rpartition(" ")[0], "C1 (DESK-A): serves, logged on, 3 requests, 2 refused by the edge, 1 reports, "
                                        "the last 1, 1 open orders worth 50, 0 bytes not taken, numbers since")
    expect((lines[1][:27], lines[1].count("\n")), ("C2 (DESK-B): serves, away, ", 1))
    names = ("serves", "logged_on", "requests_total", "refusals_total", "reports_total", "open_orders", "unsent_bytes")
    expect([figure(page, f"gikvand_edge_{name}") for name in names], [1, 1, 3, 2, 1, 1, 0])


TESTS = [test_rate, test_open_orders, test_message_size, test_cancel_on_disconnect, test_lost_cancels, test_passwords,
         test_no_reset, test_slow_reader, test_many_resends, test_bound_behind_a_resend, test_waits_for_room,
         test_status_page]
LONG_TESTS = [test_deaf_for_a_minute]
