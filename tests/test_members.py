"""Tests of the venue that listens: the built programs, with members over TCP. Each test has free ports of its own. All take about a
minute, most of it without work."""
import contextlib
import os
import re
import socket
import subprocess
import threading
import time

import pytest

from checks import ROOT, contents, put
from gikvand import journals
from gikvand.words import sure
from traders import Member, check_told, narrow_client, sip, standstills, vanish
from venues import HOST, PATIENCE, VENUED, Client, Late, Trouble, Venue, framed, free_port, in_some_try
from venues import market_order, message, order, replay, started, value

pytestmark = [pytest.mark.slow, pytest.mark.usefixtures("programs")]

UNPRINTED = re.compile(r"\|(?:8|9|34|49|56|10)=[^|]*(?=\|)")
DAYS = ["first_trade", "time_priority", "sweep_two_levels", "fill_or_kill", "replace_and_place_in_queue",
        "replace_crosses", "replace_below_filled", "market_order_without_match", "market_sweep"]
JOURNAL = "venue.journal"
SOON, LONG = 10, 90             # Seconds for what has to come without a wait for somebody else, and behind one.
FALLS_ASLEEP, A_REST = 1.0, 2.0  # Seconds until all workers of an idle venue rest, and for which it is watched then;
MOST_IDLE = 0.05                # and what it may take of a core meanwhile.
TOO_MUCH = 5_000                # Orders of a member that doesn't take its reports.
BEATS, BIDS = 1_000_000, 200_000  # What members send without a pause: more than is read before a stop.
EMPTY, OLD_EMPTY = journals.empty(), journals.empty(1)  # Without entries, as venued makes one and as it did at first.
PROFILE = os.path.join(ROOT, "docs", "PROFILE.md")
USAGE = "usage: venued PORT JOURNAL GATEWAYS SYMBOL..."
LOGON = "8=FIX.4.4|9=63|35=A|49=C1|56=VENUE|34=1|52=20250102-09:30:00|98=0|108=0|141=Y|10=026|"
ORDER = ("8=FIX.4.4|9=102|35=D|49=C1|56=VENUE|34=2|52=20250102-09:30:00|11=1|55=ABC|54=1|60=20250102-09:30:00|38=100|"
         "40=2|44=50|10=098|")
WELCOME = "8=FIX.4.4|9=63|35=A|49=VENUE|56=C1|34=1|52=20250102-09:30:00|98=0|108=0|141=Y|10=026|"
ACCEPTED = ("8=FIX.4.4|9=114|35=8|49=VENUE|56=C1|34=2|52=20250102-09:30:00|37=1|17=1|150=0|39=0|11=1|55=ABC|54=1|38=100|"
            "44=50|151=100|14=0|6=0|10=243|")
BAD_LOGON = "8=FIX.4.4|9=59|35=5|49=VENUE|56=C1|34=1|52=20250102-09:30:00|58=bad logon|10=017|"


def coded(text: str) -> bytes:
    """The bytes of a message that is written with bars."""
    return text.replace("|", "\x01").encode()


def hears(client: Client, *wanted: str | None) -> None:
    """The next messages are these."""
    for text in wanted:
        assert client.next() == text


def hears_reports(client: Client, *wanted: str) -> None:
    """The next messages are reports to this member with these fields, each written as `17=2|150=0|`."""
    for fields in wanted:
        report = client.next() or "nothing"
        for field in fields.strip("|").split("|"):
            tag, _, text = field.partition("=")
            if value(report, tag) != text:
                raise Trouble(f"expected {fields} came {report}")


def ran(*words: str) -> tuple[int, str, str]:
    """Runs venued with these words to its end: its status, and what it printed."""
    try:
        it = subprocess.run([VENUED, *words], capture_output=True, text=True, timeout=PATIENCE)
    except subprocess.TimeoutExpired:
        raise Trouble(f"venued {' '.join(words)} hasn't ended within {PATIENCE} seconds") from None
    return it.returncode, it.stdout, it.stderr


def trades_once(venue: Venue, member: int, name: int) -> Client:
    """A member logs on, sells, is answered, and stays."""
    client = Client(venue.port, member).log_on()
    client.send("D", order(name, 2, 10, 50))
    hears_reports(client, f"150=0|11={name}|")
    return client


def test_the_worked_example() -> None:
    """One member trades and logs out, another one comes and trades with its order, and the venue stops."""
    venue = started(JOURNAL, 2)
    first = Client(venue.port, 1)
    first.send_bytes(coded(LOGON + ORDER))
    hears(first, WELCOME, ACCEPTED)
    first.send_bytes(coded("8=FIX.4.4|9=46|35=5|49=C1|56=VENUE|34=3|52=20250102-09:30:00|10=254|"))
    hears(first, "8=FIX.4.4|9=46|35=5|49=VENUE|56=C1|34=3|52=20250102-09:30:00|10=254|", None)
    second = Client(venue.port, 2).log_on()
    second.send("D", order(1, 2, 30, 50))
    hears_reports(second, "34=2|37=2|17=2|150=0|39=0|11=1|151=30|", "34=3|37=2|17=4|150=F|39=2|32=30|31=50|151=0|14=30|")
    assert second.is_quiet(0.1) == True
    assert venue.stop() == (2, 4)
    lines, counts = replay(JOURNAL, "C1")
    assert [value(line, "17") for line in lines] == ["1", "3"]
    assert counts == (2, 4)
    assert replay(JOURNAL, "book") == (["ABC 1 50 70 1 C1 1"], (2, 4))


def test_trades_of_eight() -> None:
    """Eight members trade with one another, and each hears its own reports alone, numbered without a gap."""
    venue = started(JOURNAL, 8)
    clients = [Client(venue.port, member).log_on() for member in range(1, 9)]
    for client in clients:
        client.send("D", order(1, 1 + client.member % 2, 10, 50))
        hears_reports(client, "34=2|150=0|11=1|")
        if client.member % 2 == 0:
            hears_reports(client, "34=3|150=F|39=2|")
            hears_reports(clients[client.member - 2], "34=3|150=F|39=2|")
    for client in clients:
        assert client.is_quiet(0) == True
        assert len(replay(JOURNAL, f"C{client.member}")[0]) == 2
    assert venue.stop() == (8, 16)


def test_two_slow_of_eight() -> None:
    """Of eight members one takes none of its reports, and one takes few: the six others lose none, and don't wait for them."""
    in_some_try(lambda number: six_beside_two_slow_ones(f"{number}.journal"), "two_slow_of_eight")


def six_beside_two_slow_ones(journal: str) -> None:
    """The six trade for two seconds, in which they never wait for an answer for more than one. (When this process stands still counts for
    neither.)"""
    venue = started(journal, 8)
    deaf, slow = narrow_client(venue.port, 7), narrow_client(venue.port, 8)
    threading.Thread(target=sip, args=(slow, 0.1, []), daemon=True).start()
    traders = [Member(Client(venue.port, it).socket, it, 1, pause=0.2) for it in range(1, 7)]
    time.sleep(0.5)
    for it in traders:
        it.longest, it.heard_at = 0.0, time.monotonic()
    for client in (deaf, slow):
        client.send_bytes(b"".join(message(client.member, 2 + at, "D", order(1 + at, 1, 1, 1, more="59=3|"))
                                   for at in range(TOO_MUCH)))
    standstills().sleep(2)
    silence = max(it.silence() for it in traders)
    for it in traders:
        it.cease()
    kept = {it.member: replay(journal, f"C{it.member}")[0] for it in traders}
    for it in traders:
        awaits(it, len(kept[it.member]))
    venue.stop()
    for it in traders:
        told = it.reports()
        check_told(it, told, kept[it.member])
        assert len(told) == len(kept[it.member])
    if silence > 1:
        raise Late(f"expected an answer within a second came none for {silence:.1f} s")


def awaits(trader: Member, count: int) -> None:
    """Waits until a member has heard so many reports, behind its Logon."""
    end = time.monotonic() + PATIENCE
    while trader.got.count(b"8=FIX.4.4\x01") <= count:
        if time.monotonic() > end:
            raise Trouble(f"expected {count} reports to C{trader.member} came fewer")
        time.sleep(0.01)


def played(name: str) -> dict[str, tuple[list[tuple[int, str, str]], dict[str, list[str]]]]:
    """The days of a played file by their journals: who sends what in which order, and what is told of it by venue-replay."""
    days: dict[str, tuple[list[tuple[int, str, str]], dict[str, list[str]]]] = {}
    told: list[str] = []
    with open(os.path.join(ROOT, "tests", f"{name}.play"), encoding="utf-8") as file:
        for line in filter(None, map(str.strip, file)):
            if line.startswith("# "):
                continue
            kind, *words = line.split(" ", 4)
            if kind == "entry" and len(words) == 4:
                journal, member, message_type, body = words
                days.setdefault(journal, ([], {}))[0].append((int(member), message_type, body))
            elif kind == "run" and words[:1] == ["venue-replay"] and len(words) == 4:
                told = days[words[1]][1].setdefault(words[2], [])
            elif kind == "prints":
                told.append(line.removeprefix("prints "))
            else:
                raise Trouble(f"{name} has a line of another kind: {line}")
    return days


def test_worked_days() -> None:
    """The worked days of several members: over TCP each one is told what the played files say of it, and no more."""
    for name in DAYS:
        for journal, (sent, told) in played(name).items():
            journal = f"{name}.{journal}"
            venue = started(journal, 3)
            clients = {it: Client(venue.port, it).log_on() for it in (1, 2, 3)}
            heard: dict[int, list[str]] = {it: [] for it in clients}
            for member, kind, body in sent:
                clients[member].send(kind, body)
                while not heard[member] or value(heard[member][-1], "11") != value(body, "11"):
                    heard[member].append(clients[member].next() or "nothing")
            counts = told["C1"][-1]
            for member, client in clients.items():
                reports = told.get(f"C{member}", [counts])[:-1]
                while len(heard[member]) < len(reports):
                    heard[member].append(client.next() or "nothing")
                assert [UNPRINTED.sub("", f"|{it}")[1:] for it in heard[member]] == reports
                assert [value(it, "34") for it in heard[member]] == [str(2 + at) for at in range(len(reports))]
            assert "commands {} outputs {}".format(*venue.stop()) == counts
            for client in clients.values():
                hears(client, None)
            for what, lines in told.items():
                assert replay(journal, what)[0] == lines[:-1]


def example(words: str) -> list[str]:
    """The messages of the example of PROFILE.md whose paragraph begins with these words."""
    with open(PROFILE, encoding="utf-8") as file:
        _, found, rest = file.read().partition(f"\n\n{words}")
    if not found:
        raise Trouble(f"PROFILE.md has no example that begins with: {words}")
    return rest.partition("```text\n")[2].partition("```")[0].splitlines()


def test_market_orders_of_the_profile() -> None:
    """The examples of PROFILE.md on market orders, byte by byte: the reports of each, behind sells of C1."""
    sent = coded("".join(example("A market order:")))
    assert sent == message(1, 2, "D", market_order(1, 1, 100))
    two, none = [order(1, 2, 5, 50), order(2, 2, 5, 60)], list[str]()
    for words, sells, member, body in (
            ("A market order that finds nothing", none, 1, market_order(1, 1, 100)),
            ("A market order that trades", two, 2, market_order(1, 1, 12)),
            ("A market order that is filled whole or not", two, 2, market_order(1, 1, 12, more="59=4|")),
            ("A market order that is refused", none, 1, market_order(1, 1, 10, "XYZ"))):
        venue = started(words.replace(" ", "_"), 2)
        clients = {it: Client(venue.port, it).log_on() for it in (1, 2)}
        for sell in sells:
            clients[1].send("D", sell)
            hears_reports(clients[1], "150=0|")
        clients[member].send("D", body)
        lines = example(words)
        for line in lines:
            hears(clients[int(sure(value(line, "56"))[1:])], line)
        assert all(it.is_quiet(0) for it in clients.values())
        assert venue.stop() == (len(sells) + 1, len(sells) + len(lines))


def test_rejected_market_orders_of_the_profile() -> None:
    """The examples of PROFILE.md on market orders that are rejected: for a price, and all on a journal of version 1."""
    for words, empty in (("2, Price isn't defined for a market order", None), ("On a journal of version 1", OLD_EMPTY)):
        journal = f"{words.split()[0]}.journal"
        if empty:
            put(journal, empty)
        venue = started(journal, 1)
        client = Client(venue.port, 1)
        sent, answer = example(words)
        client.send_bytes(coded(LOGON + sent))
        hears(client, WELCOME, answer)
        assert venue.stop() == (1, 1)


def test_an_old_journal() -> None:
    """A journal of version 1 goes on as version 1, over stops and kills, and its members have no market orders. A missing
    one is made with version 3."""
    put(JOURNAL, OLD_EMPTY)
    venue = started(JOURNAL, 2)
    clients = [Client(venue.port, it).log_on() for it in (1, 2)]
    clients[0].send("D", order(1, 2, 10, 50))
    hears_reports(clients[0], "34=2|17=1|150=0|")
    clients[1].send("D", market_order(1, 1, 4))
    hears_reports(clients[1], "35=3|34=2|45=2|371=44|372=D|373=1|")
    venue.kill()
    assert contents(JOURNAL)[:8] == OLD_EMPTY[:8]
    venue = Venue(venue.port, JOURNAL, 2)
    assert venue.ready() == (2, 2)
    client = Client(venue.port, 2).log_on()
    client.send("D", market_order(1, 1, 4, more="59=3|"))
    hears_reports(client, "35=3|34=2|45=2|371=44|372=D|373=1|")
    client.send("D", order(1, 1, 4, 50, more="59=3|"))
    hears_reports(client, "34=3|17=4|150=0|44=50|", "34=4|17=6|150=F|39=2|")
    assert venue.stop() == (4, 6)
    assert contents(JOURNAL)[:8] == OLD_EMPTY[:8]
    assert replay(JOURNAL, "book") == (["ABC 2 50 6 1 C1 1"], (4, 6))
    venue = started("new.journal", 1)
    assert contents("new.journal") == EMPTY
    assert venue.stop() == (0, 0)


def test_a_full_book() -> None:
    """4,096 orders of one member rest; the next is refused, and another member's trade makes room. A market order is
    accepted whether there is room or not."""
    venue = started(JOURNAL, 2)
    first, second = (Client(venue.port, member).log_on() for member in (1, 2))
    for name in range(1, 4098):
        first.send("D", order(name, 1, 1, 1))
        if name % 64 == 0:
            hears_reports(first, *(f"37={it}|17={it}|150=0|" for it in range(name - 63, name + 1)))
    hears_reports(first, "34=4098|37=4097|17=4097|150=8|39=8|151=0|103=0|58=book full|")
    second.send("D", order(1, 2, 1, 1, more="59=3|"))
    hears_reports(second, "34=2|37=4098|17=4098|150=0|", "34=3|37=4098|17=4100|150=F|39=2|32=1|31=1|")
    hears_reports(first, "34=4099|37=1|17=4099|150=F|39=2|11=1|")
    first.send("D", order(4098, 1, 1, 1))
    hears_reports(first, "34=4100|37=4099|17=4101|150=0|")
    first.send("D", market_order(4099, 1, 1))
    hears_reports(first, "34=4101|37=4100|17=4102|150=0|", "34=4102|37=4100|17=4103|150=4|39=4|14=0|")
    second.send("D", market_order(2, 2, 1, more="59=4|"))
    hears_reports(second, "34=4|37=4101|17=4104|150=0|", "34=5|37=4101|17=4106|150=F|39=2|32=1|31=1|")
    assert venue.stop() == (4101, 4106)


def test_a_report_without_a_session() -> None:
    """What is reported to a member while it has no session isn't sent later."""
    in_some_try(lambda number: away_for_a_report(f"{number}.journal"), "a_report_without_a_session")


def away_for_a_report(journal: str) -> None:
    """A member is away while an order of its trades. Its gateway may stand still, and see the report only behind the next Logon."""
    venue = started(journal, 2)
    first = trades_once(venue, 1, 1)
    first.send("5")
    hears_reports(first, "35=5|34=3|")
    first.close()
    second = Client(venue.port, 2).log_on()
    second.send("D", order(1, 1, 4, 50))
    hears_reports(second, "17=2|150=0|", "17=4|150=F|")
    time.sleep(0.5)  # The gateway of the first passes its report over.
    again = Client(venue.port, 1).log_on()
    second.send("D", order(2, 1, 4, 50))
    report = again.next() or "nothing"
    assert venue.stop() == (3, 7)
    if value(report, "17") == "3":
        raise Late(f"expected no report of before came {report}")
    assert [value(report, it) for it in ("34", "17", "150", "151")] == ["2", "6", "F", "2"]


def test_one_at_a_time() -> None:
    """A second connection to a port isn't served beside the first, and is served after it."""
    venue = started(JOURNAL, 1)
    first = trades_once(venue, 1, 1)
    second = Client(venue.port, 1)
    second.send("A", "98=0|108=0|141=Y|")
    second.send("D", order(2, 2, 10, 50))
    assert second.is_quiet(0.3) == True
    first.send("D", order(3, 2, 10, 50))
    hears_reports(first, "34=3|17=2|11=3|")
    assert second.is_quiet(0) == True
    first.close()
    hears_reports(second, "35=A|34=1|", "34=2|17=3|150=8|103=6|")
    assert venue.stop() == (3, 3)


def test_no_other_member() -> None:
    """A member is no other one: its port takes its own CompID alone."""
    venue = started(JOURNAL, 2)
    client = Client(venue.port, 2)
    client.send_bytes(coded(LOGON))
    hears_reports(client, "35=5|34=1|58=wrong party|")
    hears(client, None)
    assert venue.stop() == (0, 0)


def half_closed(client: Client) -> None:
    """The client sends no more, and still reads: nothing is due, and the venue ends the session."""
    client.socket.shutdown(socket.SHUT_WR)
    hears(client, None)
    client.close()


def reset_in_a_message(client: Client) -> None:
    client.send_bytes(message(client.member, client.number + 1, "D", order(9, 2, 10, 50))[:40])
    time.sleep(0.02)
    vanish(client)


def reset_with_reports_due(client: Client) -> None:
    """It vanishes while its orders are under way."""
    for name in range(2, 42):
        client.send("D", order(name, 2, 10, 50))
    vanish(client)


def test_vanishing_clients() -> None:
    """A client that vanishes, in whatever way, leaves the gateway to the next one."""
    for goes in (vanish, half_closed, Client.close, reset_in_a_message, reset_with_reports_due):
        journal = f"{goes.__name__}.journal"
        venue = started(journal, 2)
        goes(trades_once(venue, 1, 1))
        again = Client(venue.port, 1).log_on()
        again.send("D", order(100, 2, 10, 50))
        while value(again.next() or "nothing", "11") != "100":
            pass  # A report of the session before, whose order the venue had only now worked on.
        trades_once(venue, 2, 1)
        assert venue.stop() == replay(journal, "book")[1]


def test_half_closed_behind_an_order() -> None:
    """The order of a client that closes its side behind it counts. Its report may come, or the session's end before."""
    venue = started(JOURNAL, 1)
    client = Client(venue.port, 1)
    client.send_bytes(coded(LOGON + ORDER))
    client.socket.shutdown(socket.SHUT_WR)
    hears(client, WELCOME)
    if last := client.next():
        assert last == ACCEPTED
        hears(client, None)
    client.close()
    again = Client(venue.port, 1).log_on()
    again.send("D", order(2, 2, 10, 50))
    while value(again.next() or "nothing", "17") != "4":
        pass  # Its own acknowledgement, both fills, and maybe the first report.
    assert venue.stop() == (2, 4)


def test_in_single_bytes() -> None:
    """It doesn't matter how the bytes come."""
    venue = started(JOURNAL, 1)
    client = Client(venue.port, 1)
    for byte in coded(LOGON + ORDER):
        client.send_bytes(bytes([byte]))
    hears(client, WELCOME, ACCEPTED)
    assert venue.stop() == (1, 1)


def test_a_wrong_logon() -> None:
    """A wrong Logon is answered, and the Logout reaches the client though it sent much more behind it."""
    venue = started(JOURNAL, 1)
    for more in (b"", b"x" * 50_000):
        client = Client(venue.port, 1)
        client.send_bytes(framed("35=A|49=C1|56=VENUE|34=1|52=20250102-09:30:00|98=0|108=30|141=Y|") + more)
        time.sleep(0.05)
        hears(client, BAD_LOGON, None)
        client.close()
    trades_once(venue, 1, 1)
    assert venue.stop() == (1, 1)


def in_time(begun: float, what: str) -> None:
    """Fails the try where more than ten seconds have gone since then."""
    if (seconds := time.monotonic() - begun) > SOON:
        raise Late(f"expected {what} within {SOON} seconds came it after {seconds:.1f}")


def test_a_client_that_stays() -> None:
    """A client that keeps its connection behind the Logout hears the end soon. It is let go after some seconds, and the next
    one is served; where it closes, that one is served soon."""
    in_some_try(lambda number: stays(f"{number}.journal"), "a_client_that_stays")


def stays(journal: str) -> None:
    venue = started(journal, 1)
    begun, client = time.monotonic(), Client(venue.port, 1).log_on()
    client.send("5")
    hears_reports(client, "35=5|34=2|")
    hears(client, None)
    in_time(begun, "the end of the bytes")
    second = Client(venue.port, 1)
    second.socket.settimeout(LONG)
    second.log_on().close()
    client, begun = Client(venue.port, 1).log_on(), time.monotonic()
    client.send("5")
    hears_reports(client, "35=5|34=2|")
    hears(client, None)
    client.close()
    Client(venue.port, 1).log_on()
    in_time(begun, "the next client served")
    assert venue.stop() == (0, 0)


def test_a_client_that_sends_on() -> None:
    """A client that is refused, and goes on sending meanwhile, gets the last Logout and the end, and no reset."""
    in_some_try(lambda number: sends_on(f"{number}.journal"), "a_client_that_sends_on")


def sends_on(journal: str) -> None:
    """For some seconds the venue waits for the client to close: one that stands still for as long is reset."""
    venue = started(journal, 1)
    begun, client = time.monotonic(), Client(venue.port, 1)
    try:
        client.send_bytes(framed("35=A|49=C1|56=VENUE|34=1|52=20250102-09:30:00|98=0|108=30|141=Y|"))
        for _ in range(100):
            client.send_bytes(2_000 * b"x")
            time.sleep(0.01)
        hears(client, BAD_LOGON, None)
        client.send_bytes(b"x")
    except ConnectionError as why:
        raise Late(f"expected no reset came {why} after {time.monotonic() - begun:.1f} s") from None
    in_time(begun, "the end of the bytes")
    client.close()
    trades_once(venue, 1, 1)
    assert venue.stop() == (1, 1)


def test_each_count_of_gateways() -> None:
    """As many gateways as the words say listen at ports in a row, each for its member, and nothing at the next port."""
    for gateways in range(1, 9):
        in_some_try(lambda number: listens_at(gateways, f"{gateways}.{number}.journal"), "each_count_of_gateways")


def listens_at(gateways: int, journal: str) -> None:
    """A venue with so many gateways. Where it is at the next port that may be another test's."""
    venue = started(journal, gateways)
    clients = [Client(venue.port, member).log_on() for member in range(1, gateways + 1)]
    with contextlib.suppress(ConnectionRefusedError), socket.create_connection((HOST, venue.port + gateways), PATIENCE):
        raise Late(f"expected {gateways} ports came one more")
    assert venue.stop() == (0, 0)
    for client in clients:
        hears(client, None)


def processor_time(process: subprocess.Popen) -> float:
    """The processor time that a process has taken, in seconds."""
    with open(f"/proc/{process.pid}/stat", encoding="ascii") as file:
        user, system = file.read().rpartition(")")[2].split()[11:13]
    return (int(user) + int(system)) / os.sysconf("SC_CLK_TCK")


def rests(venue: Venue) -> None:
    """It takes hardly any processor time for a while, once it has had time to fall asleep."""
    time.sleep(FALLS_ASLEEP)
    before = processor_time(venue.process)
    time.sleep(A_REST)
    if (taken := (processor_time(venue.process) - before) / A_REST) > MOST_IDLE:
        raise Late(f"expected at most {MOST_IDLE:.0%} of a core while it idles came {taken:.0%}")


def test_an_idle_venue() -> None:
    """A venue in which nothing happens, with a member that is connected and one that isn't, leaves the processor to others
    once its workers rest, and still answers."""
    venue = started(JOURNAL, 2)
    client = trades_once(venue, 1, 1)
    in_some_try(lambda _: rests(venue), "an_idle_venue")
    client.send("D", order(2, 2, 10, 50))
    hears_reports(client, "17=2|150=0|")
    assert venue.stop() == (2, 2)


def test_a_taken_port() -> None:
    """Where a port is taken the venue says so, and the journal stays as it is."""
    put(JOURNAL, EMPTY)
    port = in_some_try(lambda _: finds_ports_taken(), "a_taken_port")
    venue = Venue(port, JOURNAL, 3)
    assert venue.ready() == (0, 0)
    assert venue.stop() == (0, 0)


def finds_ports_taken() -> int:
    """Takes one of three ports after the other, and starts a venue there: the first port. Another test may take one as well."""
    port = free_port(3)
    for taken in range(3):
        with socket.socket() as other:
            try:
                other.bind((HOST, port + taken))
            except OSError as why:
                raise Late(f"expected the port {port + taken} free came {why}") from None
            other.listen()
            came, wanted = ran(str(port), JOURNAL, "3", "ABC"), (1, "", f"venued: cannot listen on {port + taken}\n")
        assert contents(JOURNAL) == EMPTY
        if came != wanted:
            raise Late(f"expected {wanted} came {came}")
    return port


def own_addresses() -> list[str]:
    """The IPv4 addresses of this machine beside 127.0.0.1: another one of the loopback, and that by which it sends out."""
    addresses = {"127.0.0.2"}
    with socket.socket(socket.AF_INET, socket.SOCK_DGRAM) as probe:
        try:
            probe.connect(("192.0.2.1", 9))  # Of the addresses that are for examples; nothing is sent.
            addresses.add(probe.getsockname()[0])
        except OSError:
            pass  # It has no way out.
    return sorted(addresses - {HOST})


def test_the_local_host_alone() -> None:
    """The ports are those of 127.0.0.1, and no other address of the machine takes a connection there."""
    venue = started(JOURNAL, 2)
    for port in (venue.port, venue.port + 1):
        for address in own_addresses():
            try:
                socket.create_connection((address, port), PATIENCE).close()
                raise Trouble(f"expected no venue at {address}:{port} came a connection")
            except ConnectionRefusedError:
                pass
    Client(venue.port, 1).log_on()
    assert venue.stop() == (0, 0)


def test_the_ports_of_another_venue() -> None:
    """A second venue on another journal doesn't get the ports of the first, which serves on."""
    venue = started(JOURNAL, 2)
    client = trades_once(venue, 2, 1)
    port = venue.port + 1
    assert ran(str(port), "other.journal", "1", "ABC") == (1, "", f"venued: cannot listen on {port}\n")
    client.send("D", order(2, 2, 10, 50))
    hears_reports(client, "17=2|150=0|")
    assert venue.stop() == (2, 2)


def test_one_venue_a_journal() -> None:
    """A second venue on the same journal ends at once, and harms nothing."""
    venue = started(JOURNAL, 1)
    client = trades_once(venue, 1, 1)
    before = contents(JOURNAL)
    assert ran(str(free_port(1)), JOURNAL, "1", "ABC") == (1, "", "venued: journal fault 41\n")
    assert contents(JOURNAL) == before
    client.send("D", order(2, 2, 10, 50))
    hears_reports(client, "17=2|150=0|")
    assert venue.stop() == (2, 2)


def test_a_stop_file_of_before() -> None:
    """A stop file that lies there at the start is removed, and stops nothing."""
    with open(f"{JOURNAL}.stop", "w", encoding="ascii"):
        pass
    venue = started(JOURNAL, 1)
    assert os.path.exists(f"{JOURNAL}.stop") == False
    trades_once(venue, 1, 1)
    assert venue.stop() == (1, 1)


def test_start_after_stop() -> None:
    """After a stop, and after a kill, the venue goes on at the same ports with the counts of its journal."""
    venue = started(JOURNAL, 2)
    trades_once(venue, 1, 1)
    assert venue.stop() == (1, 1)
    venue = Venue(venue.port, JOURNAL, 2)
    assert venue.ready() == (1, 1)
    assert os.path.exists(f"{JOURNAL}.stop") == False
    client = Client(venue.port, 2).log_on()
    client.send("D", order(1, 1, 4, 50))
    hears_reports(client, "34=2|37=2|17=2|150=0|", "34=3|37=2|17=4|150=F|")
    venue.kill()
    venue = Venue(venue.port, JOURNAL, 1)
    assert venue.ready() == (2, 4)
    client = Client(venue.port, 1).log_on()
    client.send("D", order(1, 2, 10, 50))
    hears_reports(client, "34=2|37=3|17=5|150=8|103=6|")
    assert venue.stop() == (3, 5)


def test_a_stop_with_members() -> None:
    """The members' connections end with the venue, without a Logout. The stop file stays."""
    venue = started(JOURNAL, 2)
    clients = [trades_once(venue, member, 1) for member in (1, 2)]
    assert venue.stop() == (2, 2)
    assert os.path.exists(f"{JOURNAL}.stop")
    for client in clients:
        hears(client, None)


def test_a_stop_while_members_send() -> None:
    """A stop waits neither for a member who never pauses nor for one who reads no report: both are cut off. The next start
    carries out what stood in the journal by then and not in the book."""
    in_some_try(lambda number: stops_while_members_send(f"{number}.journal"), "a_stop_while_members_send")


def stops_while_members_send(journal: str) -> None:
    """What members have to send is enough for a while, and no more: the stop comes too late where this process stands still so long."""
    venue = started(journal, 2)
    clients = [trades_once(venue, member, 1) for member in (1, 2)]
    beats = b"".join(message(1, number, "0") for number in range(3, BEATS))
    bids = b"".join(message(2, number, "D", order(number, 1, 1, 1)) for number in range(3, BIDS))
    sent_all = []

    def pour(client: Client, data: bytes) -> None:
        try:
            client.send_bytes(data)
            sent_all.append(client.member)
        except OSError:
            pass  # The venue has closed the connection.

    floods = [threading.Thread(target=pour, args=it) for it in zip(clients, (beats, bids))]
    for flood in floods:
        flood.start()
    begun = time.monotonic()
    counts = venue.stop()
    in_time(begun, "the stop")
    for flood in floods:
        flood.join()
    whole = replay(journal, "book")[1]
    if whole < counts:
        raise Trouble(f"expected at least {counts} in the journal came {whole}")
    assert Venue(venue.port, journal, 1).ready() == whole
    if sent_all:
        raise Late(f"expected a stop before the members had sent all came it behind that of {sent_all}")


def test_wrong_words() -> None:
    """Wrong words are answered by the usage line, and make no journal."""
    free = str(free_port(1))
    wrong: list[tuple[str, ...]] = [(port, JOURNAL, "1", "ABC") for port in ("0", "65529", "65536", "+9001", "09001", "-1", "", "x", "9001 ")]
    wrong += [(free, JOURNAL, gateways, "ABC") for gateways in ("0", "9", "01", "+1", "", "-", "257")]
    wrong += [("-", JOURNAL, "2", "ABC"), (free, "", "1", "ABC"), (free, JOURNAL, "1"), (free, JOURNAL, "1", "abc"), ()]
    for words in wrong:
        assert (words, *ran(*words)) == (words, 1, "", f"{USAGE}\n")
    assert os.listdir() == []
