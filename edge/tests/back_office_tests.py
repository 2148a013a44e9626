"""What a back office does with members behind the edge: `gikvand verify`, `reports` and `trades` by the edge's settings, beside
what members were sent and what the edge's own logs have, also while the edge serves and behind a kill of it."""
import csv
import glob
import json
import os
import subprocess
import sys
from collections.abc import Iterable

from differential import SHORT, Run, told_by, wanted_of
from edges import JOURNAL, NAMES, ROOT, SYMBOLS, Trouble
from engines import at_rest
from gikvand.fix import fields_of
from market import Market
from trading_tests import expect

REQUESTS = SHORT // 3
LONG = 120  # Seconds for a command.


def gikvand(*words: str) -> tuple[int, list[str]]:
    """A command on the journal with the edge's settings: its status, and its lines."""
    more = ["--edge", "edge.cfg", "--symbols", ",".join(SYMBOLS)]
    it = subprocess.run([sys.executable, os.path.join(ROOT, "scripts/gikvand"), *words, *more], capture_output=True, text=True,
                        timeout=LONG)
    if it.stderr:
        raise Trouble(f"gikvand {' '.join(words)}: {it.stderr}")
    return it.returncode, it.stdout.splitlines()


def logged(name: str, messages: Iterable[str]) -> str:
    """A log of these messages, as an engine writes one."""
    with open(name, "w", encoding="ascii") as file:
        file.write("".join(f"20260102-09:30:00.000 : {it}\n" for it in messages))
    return name


def verified(member: int, log: str) -> tuple[int, int]:
    """How many reports of a log are as the journal tells them, and how many more that has. Nothing else may be wrong."""
    status, out = gikvand("verify", JOURNAL, f"C{member}={log}")
    line = next(it for it in out if it.startswith(f"C{member}: "))
    found = out[:-1] if status else []
    expect((member, log, status, out[-1], found), (member, log, 0, f"{JOURNAL}: nothing is wrong", []))
    words = line.split()
    return int(words[1]), int(words[-2])


def test_back_office() -> None:
    """Behind a day with kills each member's own log, and that of the edge, is found to be as the journal tells; a price, a name or a
    report that is another one is found; and reports and trades have the member's words."""
    run = Run(REQUESTS, 7)
    run.go()
    for k, it in enumerate(run.members, 1):
        wanted = wanted_of(k)
        heard = [text for text in it.engine.reports if told_by([text])]
        expect((k, verified(k, logged("member.log", it.engine.reports))), (k, (len(wanted), 0)))
        some = heard[:-3]
        expect((k, verified(k, logged("some.log", some))), (k, (len(some), len(wanted) - len(some))))
        files = sorted(glob.glob(f"log/C{k}/*messages*"), key=os.path.getmtime)
        messages = [line for name in files for line in open(name, encoding="ascii", errors="replace")]
        found, missed = verified(k, logged("edge.log", [line.rstrip("\n") for line in messages]))
        expect((k, found + missed, found > len(wanted) / 2), (k, len(wanted), True))  # (a kill leaves some unsent and unlogged)
        priced = next(text for text in heard if "|44=50" in text)
        other = priced.replace("|44=50", "|44=51").replace("|11=", "|11=x")
        expect((k, gikvand("verify", JOURNAL, f"C{k}={logged('other.log', [other])}")[0]), (k, 1))
        came = [fields_of(line) for line in gikvand("reports", JOURNAL, f"C{k}")[1]]
        for row in came:
            row["60"] = row.pop("52")
        expect((k, came == wanted), (k, True))
    rows = [json.loads(line) for line in gikvand("trades", JOURNAL, "--json")[1]]
    fills = [(it, k) for k in range(1, len(run.members) + 1) for it in wanted_of(k) if it.get("150") == "F"]
    expect(2 * len(rows), len(fills))
    told = {(it["17"], NAMES[k], it["11"], it["31"]) for it, k in fills}
    for row in rows:
        for side in ("Buyer", "Seller"):
            fact = (row[f"{side}ExecID"], row[side], row[f"{side}ClOrdID"], str(row["Price"]))
            expect((fact, fact in told), (fact, True))
    expect(len(list(csv.DictReader(gikvand("trades", JOURNAL, "--csv")[1]))), len(rows))


def test_ended_order() -> None:
    """An order that has expired: to the venue that is a cancel by the edge, and a log and the reports have it as it was told."""
    market = Market("2030-01-01 21:59:00", hours={"DayEndTime": "22:00:00"})
    one = at_rest(market.port, "a")
    market.clock.put("2030-01-01 22:00:00")
    one.report(_150="C", _11="a")
    expect(verified(1, logged("member.log", one.history)), (2, 0))
    other = one.history[-1].replace("|150=C|", "|150=4|")
    expect(gikvand("verify", JOURNAL, f"C1={logged('other.log', [other])}")[0], 1)
    came = [fields_of(line) for line in gikvand("reports", JOURNAL, "C1")[1]]
    expect([(it["150"], it["11"], it.get("41")) for it in came], [("0", "a", None), ("C", "a", None)])


TESTS = [test_back_office, test_ended_order]
