"""Tests of dev/measures on a made-up venue: what its figures are, that each that fell is written down, that none rises without a word,
and that a measured.json which isn't the tree's is refused.

MEASURES in the environment names another dev/measures, or another module of it: tests/known_bad.py puts wrong ones there.
"""
import json
import os
import re
import subprocess
import sys

import pytest

from checks import LONG, copy_program

pytestmark = pytest.mark.quick

OWN = (*(f"dev/{it}" for it in ("measures", "figures.py", "ratchet.py", "way.py", "homes.py", "callers.py", "below.py", "antt.py", "contracts.py",
                                "with_scripts.py")), *(f"scripts/{it}" for it in ("crates.py", "needs_python.py", "with_tools.py")))
KEPT, DECISIONS, HEADLINE = "dev/measured.json", "docs/decisions/raised.md", "docs/HEADLINE.md"
WHY = "a reason that\nstands on two lines"
NINE = "".join(f"    ensures e{it} {{ result ≡ {it} }}\n" for it in range(9))
TAGS = (11, 38, 40, 41, 44, 54, 55, 59, 60)
FILES = {
    ".gitignore": "__pycache__/\n",
    "crates.txt": "rings:\nbarrier: rings\nwires:\nworkers: wires\ngateway: rings barrier wires workers\nvenue: workers gateway\n"
                  "venued: venue\nring_tests: rings\n",
    "crates/rings/src/lib.rt": """
pub use rings::{Rings, step};
""",
    "crates/rings/src/rings.rt": """
/// A type of this name stands in wires too.
pub struct Place;

pub struct Rings {
    count: u64,
}

impl Rings {
    pub fn claim(&self) -> u64 {
        first(self.count)
    }

    pub fn unclaimed(&self) -> u64 {
        0
    }
}

fn first(count: u64) -> u64 {
    count
}

pub fn step(rings: &Rings) -> u64 {
    rings.claim()
}
""",
    "crates/rings/src/tests.rt": "pub fn tried()\n" + NINE + "{}\n" + "//\n" * 30,
    "crates/barrier/src/lib.rt": """
pub use rings::step;
""",
    "crates/wires/src/wire.rt": """
pub trait Wire {
    fn read(&mut self) -> u64;
}
""",
    "crates/wires/src/socket.rt": """
use crate::wire::Wire;

pub struct Place;

pub struct Socket;

impl Wire for Socket {
    fn read(&mut self) -> u64 {
        asked()
    }
}

fn asked() -> u64 {
    1
}
""",
    "crates/wires/src/memory.rt": """
use crate::wire::Wire;

pub struct Memory;

impl Wire for Memory {
    fn read(&mut self) -> u64 {
        asked()
    }
}

fn asked() -> u64 {
    1
}
""",
    "crates/workers/src/worker.rt": """
use wires::Wire;

pub trait Worker {
    fn turn(&mut self) -> u64;
}

pub trait Stage {
    fn poll(&mut self) -> u64;
}

/// It isn't on the way.
pub(crate) fn work<W: Worker>(worker: &mut W) -> u64
""" + NINE + """{
    worker.turn()
}
""",
    "crates/gateway/src/gateway.rt": """
use barrier::step;
use rings::Rings;
use wires::Wire;
use workers::{Stage, Worker};

pub struct Gateway<W: Wire> {
    wire: W,
    rings: Rings,
}

impl<W: Wire> Worker for Gateway<W> {
    fn turn(&mut self) -> u64 {
        Self::hear(&mut self.wire);
        step(&self.rings)
    }
}

impl<W: Wire> Gateway<W> {
    fn hear(wire: &mut W) -> u64
""" + NINE.replace("    ensures", "        ensures") + """        ensures closed { result ≡ 9 }
    {
        sized(b"", |byte| -> u64
            requires nothing { Unit }
            { byte })
            + wire.read()
    }
}

/// A method of a slice is none of ours, whatever a type of ours has: of one that is given, or that a call answers.
fn sized(bytes: &[u8]) -> u64 {
    bytes.unclaimed() + whole(bytes).unclaimed()
}

fn whole(bytes: &[u8]) -> &[u8] {
    bytes
}

pub struct Processor {
    rings: Rings,
}

impl Stage for Processor {
    fn poll(&mut self) -> u64 {
        self.rings.claim()
    }
}
""",
    "crates/venue/src/lib.rt": """
ghost use Rattle.venue.specs.Headline.{Seen, Ends};

use gateway::{Gateway, Processor};
use wires::Socket;

/// All members.
pub fn listen() -> Gateway<Socket>
    ensures seen { Seen result }
    ensures ends { Ends result }
{
    Gateway { wire: Socket, rings: Rings::new() }
}

pub fn serve() -> Processor
    ensures seen { Seen result }
{
    Processor::new()
}
""",
    "crates/venue/src/tables.rt": """
pub enum OrderTag {
""" + "".join(f"    Tag{it} = {it},\n" for it in TAGS) + """}
""",
    "crates/venue/specs/Headline.antt": """
use Rattle.std.specs.Prelude.{ℕ}
use Rattle.venue.specs.Chapters.{outputs_of, state_of, texts_to, IsJournal, HasCut, HasTrueSnapshots}
use Rattle.gateway.specs.Standing.{At, Standing}

-- all there is
abbrev pub Seen : ℕ → Type 0
Seen n = At n × Standing n × IsJournal n × HasCut n × HasTrueSnapshots n

-- the end of it
abbrev pub Ends : ℕ → Type 0
Ends n = Seen n × over (state_of (outputs_of (texts_to n)))

abbrev over : ℕ → Type 0
over n = Unit
""",
    "crates/venue/specs/Chapters.antt": """
use Rattle.std.specs.Prelude.{ℕ}

abbrev pub outputs_of : ℕ → ℕ
outputs_of n = deep n

abbrev pub state_of : ℕ → ℕ
state_of n = deep n

abbrev pub texts_to : ℕ → ℕ
texts_to n = n

abbrev pub IsJournal : ℕ → Type 0
IsJournal n = Unit

abbrev pub HasCut : ℕ → Type 0
HasCut n = IsJournal n

abbrev pub HasTrueSnapshots : ℕ → Type 0
HasTrueSnapshots n = Unit

abbrev deep : ℕ → ℕ
deep n = deeper n

-- of a name that gateway has too
abbrev pub deeper : ℕ → ℕ
deeper n = n
""",
    "crates/venue/specs/Tags.antt": "-- " + "x" * 118 + "\ntags = " + " ∷ ".join(map(str, TAGS[1:])) + "\n",
    "crates/venue/specs/Some.antt": "tags = " + " ∷ ".join(map(str, TAGS[2:])) + " -- 38\n",
    "crates/gateway/specs/Standing.antt": """
use Rattle.std.specs.Prelude.{ℕ}

abbrev pub At : ℕ → Type 0
At n = Standing (deeper n)

abbrev pub Standing : ℕ → Type 0
Standing n = Unit

abbrev pub deeper : ℕ → ℕ
deeper n = n
""",
    "crates/gateway/proofs/gateway/turn/Answers.antt": "-- \n" * 40,
    "crates/gateway/proofs/gateway/hear/Answers.antt": "-- \n" * 41,
    "crates/gateway/proofs/gateway/poll/Answers.antt": "-- \n" * 101,
    "crates/gateway/proofs/Lemmas.antt": "-- \n" * 203 + "-- " + "x" * 118 + "\n",
    "crates/venued/src/main.rt": """
use venue::listen;

fn main() {
    listen();
}
""",
    HEADLINE: "# Headline\n\n  | to read | definitions | files |\n  |---|---|---|\n  | something | 1 | 1 |\n\nMore.\n",
    DECISIONS: "# Figures that rose\n\n**One.** Raised: nothing.\n",
}
WAY = [
    "files: 3",
    "    crates/gateway/src/gateway.rt  hear, poll, sized, turn, whole",
    "    crates/rings/src/rings.rt  claim, first, step",
    "    crates/wires/src/socket.rt  asked, read",
    "crossings: 3",
    "    rings: claim  gateway: poll",
    "    rings: step  gateway: turn",
    "    wires: read  gateway: hear",
]
FIGURES = {
    "clauses": {"functions above eight": 2, "beyond eight": 3, "of gateway::gateway::Gateway::hear": 10, "of workers::worker::work": 9},
    "answers": {"above 40 lines": 2, "lines beyond 40": 62, "above 100 lines": 1},
    "wide lines": {"proofs": 1, "specs": 1, "sources": 0},
    "names with two homes": {"definitions": 1, "types": 1},
    "order table": {"homes in crates": 2},
    "order's way": {"files": 3, "crates": 3, "crossings": 3, "pairs": 3},
    "pages": {
        # The types of what it gives are read too: of the first three, each in a file, and of the second two.
        "listen seen as a record": {"definitions": 9, "files": 6}, "venue::serve seen as a record": {"definitions": 8, "files": 5},
        "gateway::Standing::At": {"definitions": 3, "files": 1}, "outputs_of": {"definitions": 3, "files": 1},
        "state_of": {"definitions": 3, "files": 1}, "texts_to": {"definitions": 1, "files": 1}, "IsJournal": {"definitions": 1, "files": 1},
        "HasCut": {"definitions": 2, "files": 1}, "HasTrueSnapshots": {"definitions": 1, "files": 1},
        "gateway::Standing::Standing": {"definitions": 1, "files": 1}, "listen seen": {"definitions": 10, "files": 6},
        "listen ends": {"definitions": 17, "files": 6}},
}
ROWS = """\
  | the record of `listen`, with ports, wires and disks | 9 | 6 |
  | a session | 3 | 1 |
  | the outputs of a history | 3 | 1 |
  | the texts of reports | 1 | 1 |
  | the bytes of a journal | 1 | 1 |
  | its cut | 2 | 1 |
  | its snapshots | 1 | 1 |
  | all of them, each definition once | 10 | 6 |
"""
LINES = {name: sum(text.lstrip().count("\n") for path, text in FILES.items() if path.startswith(f"crates/{name}/src/{name}"))
         + FILES.get(f"crates/{name}/src/lib.rt", "\n").count("\n") - 1 for name in ("rings", "gateway")}
A_LINE = "// one more\n"


def put(path: str, text: str) -> None:
    os.makedirs(os.path.dirname(path) or ".", exist_ok=True)
    with open(path, "w", encoding="utf-8") as file:
        file.write(text)


def text_of(path: str) -> str:
    with open(path, encoding="utf-8") as file:
        return file.read()


def add(path: str, text: str) -> None:
    put(path, text_of(path) + text)


@pytest.fixture(autouse=True)
def venue(monkeypatch: pytest.MonkeyPatch) -> None:
    """Makes the test's folder the made-up venue, with dev/measures and its modules. Git reads no settings of whoever runs the tests."""
    for name in ("GIT_CONFIG_GLOBAL", "GIT_CONFIG_SYSTEM"):
        monkeypatch.setenv(name, os.devnull)
    other = os.environ.get("MEASURES", "")
    for path in OWN:
        copy_program(path, other if os.path.basename(other) == os.path.basename(path) else "")
    for path, text in FILES.items():
        put(path, text.lstrip("\n"))


def measures(*words: str) -> tuple[int, list[str]]:
    """The status of dev/measures, and all its lines."""
    it = subprocess.run([sys.executable, "dev/measures", *words], stdout=subprocess.PIPE, stderr=subprocess.STDOUT, text=True,
                        timeout=LONG, env={**os.environ, "GIT_CEILING_DIRECTORIES": os.path.dirname(os.getcwd())})
    return it.returncode, it.stdout.splitlines()


def written() -> str:
    """Writes the figures down, and gives them."""
    assert measures("--write") == (0, [])
    return text_of(KEPT)


def refused(*parts: str, failed: int | None = None) -> list[str]:
    """The lines by which the check refuses the tree, one for each of these texts, which has it."""
    status, lines = measures()
    found = [it for it in lines if KEPT in it or DECISIONS in it or HEADLINE in it]
    assert (status, len(found)) == (1, len(parts) if failed is None else failed), lines
    for part in parts:
        assert any(part in it for it in found), f"{part} isn't in {found}"
    assert lines[-1].endswith(f" passed, {len(found)} failed")
    return found


def passes() -> None:
    status, lines = measures()
    count = len(re.findall(r": [\d.]+[,}\n]", text_of(KEPT)))
    assert (status, lines[-1]) == (0, f"{count + 6} passed, 0 failed"), lines


def raised(name: str, old: float, new: float, why: str = WHY) -> None:
    """Has docs/decisions/raised.md say that a figure rises, and nothing else."""
    put(DECISIONS, f"{FILES[DECISIONS]}\nRaised: {name} from\n{old} to {new}: {why}\n\n**Two.**\n")


def committed(*words: str) -> None:
    """Commits all there is."""
    for told in (("add", "-A"), ("commit", "-q", "-m", "one", *words)):
        subprocess.run(["git", "-c", "user.name=a", "-c", "user.email=b", *told], check=True)


def test_figures() -> None:
    """The figures of the made-up venue are those that its few lines have."""
    there = json.loads(written())
    crates = there.pop("crates")
    assert there == FIGURES
    assert list(crates) == ["rings", "barrier", "wires", "workers", "gateway", "venue", "venued"]
    assert crates["gateway"] == {"lines": LINES["gateway"], "functions": 5, "lines of specs": 10, "lines of proofs": 386,
                                 "proofs to code": 7.1}
    assert (crates["rings"]["lines"], crates["rings"]["functions"], crates["rings"]["proofs to code"]) == (LINES["rings"], 4, 0.0)
    assert ROWS in text_of(HEADLINE)


def test_way() -> None:
    """An order's way has what turns and polls may call, through traits and what a crate has of another. Doubles and tests aren't on it."""
    assert measures("--way") == (0, WAY)


@pytest.mark.parametrize("path, old, new, why", (
    ("crates/gateway/src/gateway.rt", "impl Stage for", "impl Other for", "Stage::poll"),
    ("crates/venue/src/tables.rt", "OrderTag", "Tag", "OrderTag"),
    ("crates/venue/specs/Chapters.antt", "HasCut", "IsCut", "HasCut"),
    ("crates/venue/src/lib.rt", "ensures ends", "ensures ended", "listen ends")))
def test_what_is_not_there(path: str, old: str, new: str, why: str) -> None:
    """Figures of what isn't there any more are no figures: it ends with a line, and nothing is written down as less."""
    written()
    put(path, text_of(path).replace(old, new))
    put("crates/venue/specs/Headline.antt", text_of("crates/venue/specs/Headline.antt").replace(old, new))
    for words in ((), ("--write",)):
        status, lines = measures(*words)
        assert (status, why in lines[-1]) == (1, True), lines


def test_as_the_tree_has_it() -> None:
    """What is written is the same each time and passes; without it, or with another figure or form, the check refuses."""
    first = written()
    passes()
    assert written() == first
    for old, new, part, failed in (('"files": 3,', '"files": 4,', "order's way/files is 3, and", 1),
                                   ('"types": 1', '"types": 0', "types has risen", 2),
                                   ("\n  }", "\n  }\n", "isn't as dev/measures --write writes it", 1)):
        put(KEPT, first.replace(old, new))
        refused(part, failed=failed)
    put(KEPT, first.replace("  \"order table\": {\n    \"homes in crates\": 2\n  },\n", ""))
    refused("order table/homes in crates is 2, and dev/measured.json has nothing")
    os.remove(KEPT)
    assert measures()[0] == 1
    assert written() == first
    put(HEADLINE, text_of(HEADLINE).replace("| 10 | 6 |", "| 10 | 5 |"))
    refused("the rows of docs/HEADLINE.md are others")
    written()
    passes()


def test_less_is_written_down() -> None:
    """A figure that fell is refused until it is written down; then it can't be again what it was."""
    written()
    path = "crates/workers/src/worker.rt"
    before = text_of(path)
    put(path, before.replace("    ensures e8 { result ≡ 8 }\n", ""))
    refused("clauses/functions above eight is 1, and", failed=4)  # With those beyond eight, that function's, and the crate's lines.
    written()
    passes()
    put(path, before)
    refused("Raised: clauses/functions above eight from 1 to 2: why", "Raised: clauses/beyond eight from 2 to 3: why", failed=6)


RISES = {
    "clauses/functions above eight": ("crates/rings/src/rings.rt", "\nfn nine()\n" + NINE + "{}\n", 2, 3),
    "answers/above 40 lines": ("crates/gateway/proofs/gateway/turn/Answers.antt", "-- \n", 2, 3),
    "answers/lines beyond 40": ("crates/gateway/proofs/gateway/poll/Answers.antt", "-- \n", 62, 63),
    "wide lines/sources": ("crates/rings/src/rings.rt", "//" + "x" * 119 + "\n", 0, 1),
    "names with two homes/types": ("crates/rings/src/rings.rt", "\npub struct Socket;\n", 1, 2),
    "order table/homes in crates": ("crates/venue/specs/Some.antt", "more = 38\n", 2, 3),
    "order's way/crossings": ("crates/gateway/src/gateway.rt", "\nimpl Stage for Gateway {\n    fn poll(&mut self) -> u64 {\n"
                              "        self.rings.unclaimed()\n    }\n}\n", 3, 4),
    "pages/texts_to/definitions": ("crates/venue/specs/Chapters.antt", "\nabbrev pub more : ℕ → ℕ\nmore n = n\n", 1, 2),
}


@pytest.mark.parametrize("name", RISES)
def test_more_is_refused(name: str) -> None:
    """A figure that rose is refused, and not written down, until docs/decisions/raised.md has the paragraph that is told, with a
    reason."""
    before = written()
    path, more, old, new = RISES[name]
    add(path, more)
    if name.startswith("pages"):
        put(path, text_of(path).replace("texts_to n = n", "texts_to n = more n"))
    told = f"Raised: {name} from {old} to {new}: why"
    assert any(told in it for it in measures()[1])
    status, lines = measures("--write")
    assert (status, any(told in it for it in lines), text_of(KEPT)) == (1, True, before)
    others = [it for it in lines if told not in it]
    for of, was, now, why in ((name, old, new + 1, WHY), (name, old + 1, new, WHY), (f"{name}s", old, new, WHY), (name, old, new, "")):
        raised(of, was, now, why)
        assert any(told in it for it in measures("--write")[1]), (of, was, now, why)
        assert text_of(KEPT) == before
    raised(name, old, new)
    for it in others:
        of, was, now = re.findall(r"Raised: (.*) from (\S+) to (\S+): why", it)[0]
        add(DECISIONS, f"\nRaised: {of} from {was} to {now}: {WHY}\n")
    written()
    status, lines = measures()
    assert status == 0, lines
    assert f'"{name.split("/")[-1]}": {new}' in text_of(KEPT)


def test_paragraphs_that_are_not_so() -> None:
    """A paragraph for a figure that is another one, that isn't held, or that was no less before, is refused: what it says has to be so."""
    written()
    for name, old, new in (("order's way/files", 2, 4), ("order's way/files", 3, 3), ("order's way/files", 4, 3),
                           ("order's way/pairs", 2, 3), ("order's way/miles", 2, 3)):
        raised(name, old, new)
        refused(f"{DECISIONS} has {name} raised from {old} to {new}, which it isn't")
        assert measures("--write")[0] == 1
    raised("order's way/files", 2, 3)
    passes()


def test_without_a_word() -> None:
    """Up to its bound a crate's figure rises without a word, also that of a new crate, and what is told alone as far as it likes."""
    written()
    add("crates/rings/src/rings.rt", A_LINE * (1500 - LINES["rings"]))
    put("crates/rings/specs/Some.antt", A_LINE.replace("//", "--") * 5000)
    put("crates.txt", text_of("crates.txt").replace("venued: venue", "news:\nvenued: venue news"))
    put("crates/news/src/lib.rt", A_LINE * 1500)
    refused("crates/rings/lines is 1500, and", "crates/news/lines is 1500, and", failed=7)
    written()
    passes()
    add("crates/rings/src/rings.rt", A_LINE)
    refused("Raised: crates/rings/lines from 1500 to 1501: why", "crates/rings/lines is 1501, and")
    raised("crates/rings/lines", 1500, 1501)
    written()
    passes()
    put("crates/old/src/lib.rt", A_LINE * 1501)
    put("crates.txt", text_of("crates.txt").replace("news:\n", "news:\nold:\n").replace("venue news", "venue news old"))
    assert any("Raised: crates/old/lines from 1500 to 1501: why" in it for it in measures("--write")[1])


def test_written_by_hand() -> None:
    """Who writes a higher figure by hand is refused where git has the figure of before: of the newest commit, or of one of its parents."""
    subprocess.run(["git", "init", "-q"], check=True)
    written()
    committed()
    path = "crates/gateway/proofs/gateway/turn/Answers.antt"
    add(path, "-- \n")
    higher = text_of(KEPT).replace('"above 40 lines": 2', '"above 40 lines": 3').replace('"lines beyond 40": 62', '"lines beyond 40": 63')
    higher = higher.replace('"lines of proofs": 386', '"lines of proofs": 387')
    put(KEPT, higher)
    found = refused("Raised: answers/above 40 lines from 2 to 3: why", "Raised: answers/lines beyond 40 from 62 to 63: why")
    committed()
    assert refused("above 40 lines from 2 to 3", "lines beyond 40 from 62 to 63") == found
    committed("--allow-empty")
    passes()  # Two commits behind it git isn't asked any more: what was landed is what counts.


def test_merged() -> None:
    """Where two landings are merged, none of the figures may be above the lesser of the two."""
    subprocess.run(["git", "init", "-q", "-b", "one"], check=True)
    written()
    committed()
    subprocess.run(["git", "checkout", "-q", "-b", "two"], check=True)
    put("crates/gateway/proofs/gateway/hear/Answers.antt", "-- \n" * 40)
    less = written()
    committed()
    subprocess.run(["git", "checkout", "-q", "one"], check=True)
    add("crates/gateway/proofs/Lemmas.antt", "-- \n")
    written()
    committed()
    subprocess.run(["git", "-c", "user.name=a", "-c", "user.email=b", "merge", "-q", "-s", "ours", "two", "-m", "both"], check=True)
    assert '"above 40 lines": 1' in less
    refused("Raised: answers/above 40 lines from 1 to 2: why", "Raised: answers/lines beyond 40 from 61 to 62: why",
            "Raised: crates/gateway/proofs to code from 7 to 7.1: why")


def test_bounds() -> None:
    """What is above a bound of one clause, definition or public function fails, and so does a lemma that nothing names."""
    add("crates/rings/src/rings.rt", "\npub fn wide()\n    ensures { " + "x" * 240 + " }\n{}\n\npub fn nine()\n" + NINE + "{}\n")
    put("crates/rings/specs/Many.antt", "abbrev pub many : ℕ → ℕ → ℕ → ℕ → ℕ → ℕ → ℕ → ℕ\nmany a b c d e f g = a\n")
    put("crates/rings/proofs/Some.antt", "pub one-is-one : 1 ≡ 1\none-is-one = refl\n")
    written()
    status, lines = measures()
    for part in ("above  wide, ensures", "above  many  crates/rings/specs/Many.antt:1", "above  nine  crates/rings/src/rings.rt",
                 "nothing names one-is-one  crates/rings/proofs/Some.antt:1"):
        assert any(part in it for it in lines), part
    assert (status, lines[-1].endswith(" passed, 4 failed")) == (1, True), lines


def test_words() -> None:
    """A crate's name alone measures that crate; what no word is, is refused."""
    written()
    status, lines = measures("rings")
    assert (status, lines[-1], any(KEPT in it for it in lines)) == (0, "3 passed, 0 failed", False)
    for words in (("nothing",), ("rings", "--write"), ("rings", "--way"), ("--way", "--write")):
        assert measures(*words)[0] == 2
