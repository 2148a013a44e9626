"""How the files of a record are read where nothing was written to them yet, as at a start: in large pieces, and as they stand."""
import contextlib
import os
import random
import subprocess
from collections.abc import Iterator

from edges import EDGE, ROOT, Trouble, pair, path_of, rows
from engines import Engine, order
from gikvand.words import sure
from recovery_tests import restarted
from trading_tests import expect

PIECE = 1 << 17
SIZE = 5 * PIECE + 77   # Of a file that is read.
PAGE, HEAD, LOG_HEAD = 2048, 24, 32  # Of a record's log: each page has a head.
ROUNDS, ACTS = 25, 60   # By chance.
SEED = 20250102
FRAMES = 150            # So many pages a log has to have that is read, and so many there may be.
MOST_FRAMES = 500


class File:
    """A file that is read and written to as SQLite does it, by tests/pieces.cpp."""

    def __init__(self, program: str, path: str) -> None:
        pipe = subprocess.PIPE
        self.process = subprocess.Popen([program, path], stdin=pipe, stdout=pipe, text=True)
        self.bytes = 0  # So many were read, but for some of what counts them.

    def ask(self, *words: int | str) -> list[str]:
        sure(self.process.stdin).write(" ".join(map(str, words)) + "\n")
        sure(self.process.stdin).flush()
        return sure(self.process.stdout).readline().split()

    def read(self, at: int, size: int, wanted: bytes) -> int:
        """Reads there what has to stand there: how many reads of the system that took."""
        came, *is_short, count, read = self.ask("read", at, size)
        there = wanted[at:at + size]
        if bytes.fromhex(came) != there.ljust(size, b"\0") or is_short != ["short"] * (len(there) < size):
            raise Trouble(f"other bytes at {at}, of {size}")
        self.bytes += int(read)
        return int(count)

    def end(self) -> None:
        sure(self.process.stdin).close()
        expect((self.process.wait(), sure(self.process.stdout).read()), (0, ""))


def program() -> str:
    """The program, of the source that stands beside the edge that is tried, or else of that here."""
    sources = os.path.join(os.path.dirname(EDGE), "src")
    sources = sources if os.path.isdir(sources) else os.path.join(ROOT, "edge/src")
    words = ["c++", "-std=c++14", "-O1", "-Wall", "-Wextra", f"-I{sources}", "-o", "pieces", os.path.join(ROOT, "edge/tests/pieces.cpp"),
             os.path.join(sources, "read_ahead.cpp"), "-lsqlite3"]
    made = subprocess.run(words, capture_output=True, text=True)
    if made.returncode:
        raise Trouble(f"it can't be compiled: {made.stderr[-600:]}")
    return os.path.abspath("pieces")


@contextlib.contextmanager
def opened(program: str, data: bytes) -> Iterator[File]:
    """A file of these bytes."""
    with open("file", "wb") as file:
        file.write(data)
    it = File(program, os.path.abspath("file"))
    try:
        yield it
        it.end()
    finally:
        it.process.kill()
        it.process.wait()


def test_pieces() -> None:
    """A file is read in pieces where it is read forwards or backwards, until it is written to, and else as it is asked for."""
    built, data = program(), random.Random(SEED).randbytes(SIZE)
    forwards = [(at, PAGE) for at in range(0, SIZE, PAGE)]
    for places in (forwards, [(LOG_HEAD + at, HEAD + PAGE) for at in range(0, SIZE - HEAD - PAGE, HEAD + PAGE)], forwards[::-1]):
        with opened(built, data) as file:
            count = sum(file.read(at, size, data) for at, size in places)
            if count > SIZE // PIECE + 4:
                raise Trouble(f"{len(places)} pages took {count} reads")
    with opened(built, data) as file:
        far = [at * 2 * PIECE % SIZE // PAGE * PAGE for at in range(1, 40)]
        expect([file.read(at, PAGE, data) for at in far], [1] * len(far))
        if file.bytes > 2 * PAGE * len(far):
            raise Trouble(f"{len(far)} pages took {file.bytes} bytes")
    with opened(built, data) as file:
        expect(file.ask("write", 5, 3, 7), ["done"])
        data = data[:5] + b"\7" * 3 + data[8:]
        expect([file.read(at, size, data) for at, size in forwards[:20]], [1] * 20)


def test_pieces_by_chance() -> None:
    """What is read is what stands there: behind what is written and cut off here, and behind a lock what others wrote."""
    built, chance = program(), random.Random(SEED)
    for _ in range(ROUNDS):
        data, place = bytearray(chance.randbytes(chance.choice([0, 100, PIECE, SIZE]))), 0
        with opened(built, bytes(data)) as file:
            for act in range(ACTS):
                size = chance.choice([1, 100, PAGE, PAGE + HEAD, 3 * PAGE])
                near = place + chance.choice([-2 * PIECE, -3 * PAGE, -size, 0, size, 3 * PAGE, 2 * PIECE])
                place = max(0, min(near if chance.random() < 0.9 else chance.randrange(SIZE), SIZE))
                if act < ACTS // 2 or chance.random() < 0.7:
                    file.read(place, size, bytes(data))
                elif chance.random() < 0.5:
                    del data[place:]
                    expect(file.ask("truncate", len(data)), ["done"])
                else:
                    value = chance.randrange(256)
                    expect(file.ask("write", place, size, value), ["done"])
                    data.extend(bytes(max(0, place - len(data))))
                    data[place:place + size] = bytes([value]) * size
                if act < ACTS // 2 and chance.random() < 0.2:
                    data = bytearray(chance.randbytes(len(data)))
                    with open("file", "r+b") as others:
                        others.write(data)
                    expect(file.ask("lock"), ["done"])


def reads_of(process: int) -> int:
    """How many reads of the system a process has asked for."""
    with open(f"/proc/{process}/io", encoding="ascii") as file:
        return next(int(line.split()[1]) for line in file if line.startswith("syscr:"))


def test_start_in_pieces() -> None:
    """A start reads the log of a record in pieces, and has all of it: no number steps, and names are known."""
    _, edge, port = pair()
    one = Engine(port).log_on()
    for count in range(MOST_FRAMES):
        one.send("D", order(f"a-{count}", 1, 1, "50", more="59=3|"))
        one.report(_150="4", _11=f"a-{count}")
        frames = (os.path.getsize(f"{path_of(1)}-wal") - LOG_HEAD) // (HEAD + PAGE)
        if frames >= FRAMES:
            break
    edge.kill()
    one.close()
    edge = restarted()
    taken = reads_of(edge.process_of(1))
    if not FRAMES <= frames < MOST_FRAMES or taken > frames:
        raise Trouble(f"a log of {frames} pages, and {taken} reads")
    expect([it for it in edge.lines if "its next number" in it], [])
    one.log_on().send("D", order(f"a-{count}", 1, 1, "50"))
    one.report(_150="8", _11=f"a-{count}", _103="6")
    expect(rows(1, "PRAGMA integrity_check"), [("ok",)])


TESTS = [test_pieces, test_pieces_by_chance, test_start_in_pieces]
