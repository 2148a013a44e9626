"""Tests of what docs/OPERATING.md says of the commands of `gikvand`: that none is left out, what `watch` prints, and the alarms and timers
of contrib/watch by its figures."""
import os
import re
import shlex
from typing import NamedTuple

import pytest

import checks
from gikvand import locks, watch
from gikvand import main as tools
from gikvand.watch import Member, Process, Seen

pytestmark = pytest.mark.quick

OPERATING = checks.text_of("docs/OPERATING.md")
RULES, UNITS = "contrib/watch/rules.yml", ("gikvand-watch", "gikvand-watch-all")
PROCESS = Process(4711, ["venued"], 24 * 3600, 6_100_000, 7)
MEMBERS = [Member("C1", 9001, 1, 0, 0, 0), Member("C2", 9002, 0, 0, 0, 0)]
SEEN = Seen("J", PROCESS, 133009, 2, 52_400_000_000, (1000, 1834), "", MEMBERS)
OF_AN_EDGE = {"edge_logged_on", "edge_serves", "edge_unsent_bytes", "edge_within_hours"}
FAKE = '#!/bin/sh\necho "$(printf "%s|" "$@")" >>asked\ncat "$FIGURES"\nexit "$STATUS"\n'


@pytest.fixture(autouse=True)
def name(monkeypatch: pytest.MonkeyPatch) -> None:
    monkeypatch.setattr(locks, "name_of", lambda pid: f"venued (process {pid})")


def test_commands() -> None:
    """An operator's pages name each command."""
    text = OPERATING + checks.text_of("docs/FAILOVER.md")
    assert [it for it in tools.COMMANDS if not re.search(rf"\bgikvand {it}\b", text)] == []


def test_words_of_watch() -> None:
    """The example of the page is what watch prints of such a venue."""
    found = re.search(r"^    \$ gikvand watch J\n((?:    .+\n)+)", OPERATING, re.M)
    assert found and [it.strip() for it in found[1].splitlines()] == list(watch.in_words(SEEN))


@pytest.mark.parametrize("seen, line", [
    (SEEN._replace(process=None), r"`(nobody serves J)` \(`up` is 0\)"),
    (SEEN._replace(fault="x"), r"`(commands and outputs can't be counted: )\.\.` \(`journal_readable` is 0"),
    (SEEN, r"`(0 connections)` in trading hours"), (SEEN, r"some are `(waiting)` for more"), (SEEN, r"stays `(not taken)`"),
    (SEEN, r"bytes stay `(not read)`")])
def test_lines_of_the_runbook(seen: Seen, line: str) -> None:
    """What the runbook says is seen is what watch prints."""
    found = re.search(line, OPERATING)
    assert found and found[1] in "\n".join(watch.in_words(seen))


def printed() -> set[str]:
    return {name for name, *_ in [*watch.figures(SEEN), *watch.figures(SEEN._replace(fault="x", counts=None))]}


def rows() -> tuple[set[str], set[str]]:
    """The figures of the page's table: those for alarms, and those for graphs."""
    alarms, graphs = (re.findall(r"`(\w+)`", line.split("|")[1]) for line in re.findall(r"^\| `.*\| (?:alarms|for graphs).*$", OPERATING,
                                                                                        re.M))
    return set(alarms), set(graphs)


def test_figures_of_watch() -> None:
    """The table has each figure, and no other."""
    alarms, graphs = rows()
    assert (alarms | graphs, alarms & graphs) == (printed(), set())


class Rule(NamedTuple):
    """An alarm: its name, when it is one, for how many seconds that lasts, whom it is for, and what it says."""
    alert: str
    expr: str
    seconds: int
    severity: str
    summary: str


FORM = re.compile(r"""(\w+)\n +expr: (?:>-\n)?((?:.|\n {10})+?)\n(?: +for: (\d+)([sm])\n)? +labels: {severity: (page|ticket)}
 +annotations: {summary: "([^"]+)"}\n(?: +#.*\n)?""")


def rules() -> list[Rule]:
    """The alarms of the file, each of which has this form."""
    head, *parts = checks.text_of(RULES).split("      - alert: ")
    assert re.sub("(?m)^ *#.*\n", "", head) == "groups:\n  - name: gikvand\n    rules:\n"
    found = [FORM.fullmatch(it) for it in parts]
    assert [part for part, it in zip(parts, found) if not it] == []
    return [Rule(it[1], " ".join(it[2].split()), int(it[3] or 0) * (60 if it[4] == "m" else 1), it[5], it[6]) for it in found if it]


def test_alarms() -> None:
    """Each figure for alarms has an alarm, and an alarm takes figures that there are."""
    named = {it for rule in rules() for it in re.findall(r"gikvand_(\w+)", rule.expr)}
    assert (named - OF_AN_EDGE, named & OF_AN_EDGE) == (rows()[0], OF_AN_EDGE)
    edge = "".join(checks.text_of(f"edge/src/{it}") for it in ("page.cpp", "status.cpp"))
    assert [it for it in OF_AN_EDGE if it.removeprefix("edge_") not in edge] == []
    assert len({it.alert for it in rules()}) == len(rules())
    at_once = {it.alert for it in rules() if not it.seconds}
    assert at_once == {"JournalUnreadable", "VenueFiguresOld"}  # (what is told each ten minutes, and what has waited)


def test_names_of_alarms() -> None:
    """The runbook has each alarm once by its name, in the row of a figure by which it is one, and no other name."""
    shown = OPERATING.partition("### What `watch` shows\n")[2].partition("\n#")[0]
    cells = [line.split("|")[1] for line in shown.splitlines() if line.startswith("| ")]
    named = [(name, it) for it in cells for name in re.findall(r"\b[A-Z][a-z]+(?:[A-Z][a-z]+)+\b", it)]
    assert sorted(name for name, _ in named) == sorted(it.alert for it in rules())
    cell = dict(named)
    lost = {it.alert for it in rules() if not any(f"`{name}`" in cell[it.alert] for name in re.findall(r"gikvand_\w+", it.expr))
            and not any(f"`{name}`" in cell[it.alert] for name in re.findall(r"gikvand_(\w+)", it.expr))}
    assert lost == {"VenueUnseen", "VenueFiguresOld"}  # (which have none)


def test_thresholds() -> None:
    """What the runbook says of thresholds is in the alarms: a megabyte not taken, and more than ten seconds of waiting."""
    by_name = {it.alert: it for it in rules()}
    assert by_name["VenueDown"].expr == "gikvand_up == 0" and by_name["VenueUnseen"].expr == "absent(gikvand_up)"
    assert by_name["MemberSlow"].expr == "gikvand_member_unsent_bytes > 1e6"
    assert by_name["MemberWaits"].seconds > 10
    (back,) = re.findall(r"^RestartSec=(\d+)$", checks.text_of("contrib/venued.service"), re.M)
    assert by_name["VenueDown"].seconds > int(back)


def command(unit: str) -> list[str]:
    """The words that a unit's service runs."""
    (line,) = re.findall(r"^ExecStart=(.*)$", checks.text_of(f"contrib/watch/{unit}.service"), re.M)
    return shlex.split(line)


def ran(unit: str, seen: Seen | None) -> str:
    """Runs a unit's command with a `gikvand` that prints this, and gives the file that it leaves."""
    figures = "".join(f"{it}\n" for it in watch.in_figures(seen)) if seen else ""
    checks.put_text("figures", figures)
    checks.put_text("bin/gikvand", FAKE, 0o755)
    checks.ran(*command(unit), FIGURES="figures", STATUS="2" if not seen else "0" if seen.process else "1", JOURNAL="/a b/J",
               PATH=f"{os.path.abspath('bin')}:{os.environ['PATH']}")
    assert not [it for it in os.listdir() if it.endswith(".new")]
    with open({"gikvand-watch": "venue.prom", "gikvand-watch-all": "venue-all.prom"}[unit], encoding="utf-8") as file:
        return file.read()


def test_timers() -> None:
    """The file has the figures also where no venue serves, and none where there is no journal. The whole journal's are in a file of their
    own, and none is in both: node_exporter takes no figure twice."""
    for seen in (SEEN, SEEN._replace(process=None, members=[])):
        few, whole = ran("gikvand-watch", seen._replace(counts=None)), ran("gikvand-watch-all", seen)
        assert few == "".join(f"{it}\n" for it in watch.in_figures(seen._replace(counts=None)))
        assert sorted({it.partition("{")[0] for it in whole.splitlines() if it[0] != "#"}) == [
            f"gikvand_{it}" for it in ("commands_total", "journal_readable", "outputs_total")]
        assert [it for it in whole.splitlines() if it in few.splitlines()] == []
        assert sum(it.startswith("# TYPE") for it in whole.splitlines()) == 3
    assert (ran("gikvand-watch", None), ran("gikvand-watch-all", None)) == ("", "")
    with open("asked", encoding="utf-8") as file:
        assert set(file.read().splitlines()) == {"watch|/a b/J|--quick|--prometheus|", "watch|/a b/J|--prometheus|"}
