"""Records that were cut short or damaged, or that another program has: found at the start, and others go on."""
import contextlib
import shutil
import sqlite3

from edges import Edge, Trouble, await_that, copied, pair, path_of, rows, told
from engines import Engine, at_rest, order
from gikvand.fix import value
from gikvand.words import sure
from recovery_tests import places, restarted, settings, trade_a_little
from trading_tests import expect

CUTS = 40
PAGE = 2048  # Bytes of a page of the database.


def await_second_alone(edge: Edge, why: str) -> None:
    """Waits until C2 is served, and C1 said to be not, in any order."""
    texts = (f"C1: isn't served: edge/C1/C1.db: {why}", "C2: serves")
    await_that("C2 alone that is served", lambda: all(any(text in line for line in edge.lines) for text in texts))


def bytes_of(path: str) -> bytes:
    with open(path, "rb") as file:
        return file.read()


def put(path: str, data: bytes) -> None:
    with open(path, "wb") as file:
        file.write(data)


def is_whole(many: int) -> int:
    """The names and the messages of a record that was cut: both are those of one commit, so the last requests of the
    member, the answers to them and the two numbers agree."""
    names = rows(1, "SELECT number, name FROM names ORDER BY number")
    (sender, target, report), = rows(1, "SELECT sender, target, report FROM session")
    expect(names, [(at + 1, f"n{at}") for at in range(len(names))])
    expect(places(1), list(range(1, report + 1)))
    if not report <= len(names) <= many or target < len(names) + 1 or sender < report + 1:
        raise Trouble(f"{len(names)} names, report {report}, numbers {sender} and {target}")
    return len(names)


def test_torn_record() -> None:
    """The log of a record cut at many places, as a power cut may leave it: what is there is all of some turns, in their
    order, and the rest is told and asked for again."""
    venue, edge, port = pair()
    one = Engine(port, 1).log_on()
    for at in range(12):
        one.send("D", order(f"n{at}", 1, 1, "50"))
        one.report(_150="0", _11=f"n{at}")
    copied(1, "before")
    edge.kill()
    log, found = bytes_of("before/C1/C1.db-wal"), []
    for cut in range(CUTS):
        shutil.copy("before/C1/C1.db", path_of(1))
        put(path_of(1) + "-wal", log[:len(log) * cut // CUTS])
        found.append(is_whole(12) if cut > CUTS // 2 else 0)
    if found != sorted(found) or len(set(found)) < 4:
        raise Trouble(f"the names of each cut are {found}")
    edge = restarted()
    expect(places(1), [int(sure(value(it, "17"))) for it in told(1)])


def test_damaged_record() -> None:
    """A record whose bytes were changed, also where no start reads them: its member isn't served, in words, and another one
    is; a copy helps."""
    venue, edge, port = pair(2)
    trade_a_little(port)
    edge.stop()
    (page,), = rows(1, "SELECT rootpage FROM sqlite_master WHERE name = 'by_name'")
    whole = bytes_of(path_of(1))
    for data in (b"x" * 100 + whole[100:], whole[:PAGE * (page - 1)] + bytes(PAGE) + whole[PAGE * page:],
                 whole[:-PAGE] + bytes(PAGE), whole[:len(whole) // 2]):
        put(path_of(1), data)
        edge = Edge(settings())
        await_second_alone(edge, "")
        edge.stop()
    put(path_of(1), whole)
    restarted(2)
    expect(places(1), [int(sure(value(it, "17"))) for it in told(1) if value(it, "17")])


def test_busy_record() -> None:
    """Another program has a record open: its member isn't served, and is as soon as that has ended."""
    venue, edge, port = pair(2)
    edge.stop()
    with contextlib.closing(sqlite3.connect(path_of(1), isolation_level=None)) as other:
        other.execute("BEGIN EXCLUSIVE")
        edge = Edge(settings())
        await_second_alone(edge, "database is locked")
    edge.hears("C1: serves")
    at_rest(port, "a")


TESTS = [test_torn_record, test_damaged_record, test_busy_record]
