"""Tests of dev/edits on a made-up crate, by a prover of the test's that says of each body what it is told to: what counts as refused, what
doesn't, that a right body has to be proved, and which edits are tried.

EDITS in the environment names another dev/edits or dev/changed.py, and CLAUSES another dev/planted.py: tests/known_bad.py puts wrong ones
there.
"""
import math
import os
import subprocess
import sys

import pytest

from checks import ROOT, copy_program
from script_modules import loaded

pytestmark = pytest.mark.quick

OWN = ("dev/edits", *(f"dev/{name}.py" for name in ("antt", "below", "bodies", "changed", "clauses", "contracts", "exports", "planted",
                                                    "with_scripts")),
       *(f"scripts/{it}.py" for it in ("crates", "needs_python", "with_tools")))
PATIENCE = 120
SOURCE = """\
//! Sums.

pub fn sum(a: u64, b: u64) -> u64
    ensures sum { result ≡ a + b }
{
    a + b
}

pub fn twice(a: u64) -> u64
    ensures twice { result ≡ a + a }
{
    sum(a, a)
}

pub fn last(a: u64) -> u64
    ensures last { result ≡ a - 1 }
{
    a - 1
}
"""
# What the prover says of a function whose body has the word: of its proof, and in its own line.
SAYS = {
    "goal": ("./proofs/{}/Answers.antt:3:1: error: `returns-clause-{}`: expected type `Path.◌≡◌ {{A = Nat}} a b`\n"
             "  but this has type `Path.◌≡◌ {{A = Nat}} a c`", "not proved"),
    "gone": ("./proofs/{}/Answers.antt:3:1: error: `returns-clause-{}`: `c.left` is not in scope", "not proved"),
    "form": ("./proofs/{}/Answers.antt:3:1: error: `returns-clause-{}`: expected type `Specs.Pair a b`\n  but this has type `Specs.One a`",
             "not proved"),
    "asks": ("./proofs/{}/Answers.antt:3:1: error: `sum-requires-clause-small`: expected type `Path.◌≡◌ {{A = Nat}} a b`\n"
             "  but this has type `Path.◌≡◌ {{A = Nat}} a c`", "not proved"),
    "turn": ("", "no proof: expected a measure for a loop"),
    "index": ("note: src/lib.rt:6:5: it is not proved that it is in bounds (`index-{1}`)", "not proved"),
    "callee": ("", "proved if `sum` is"),
    "same": ("", "proved"),
}
PROVER = """\
#!{python}
import re, sys
source, words = open("src/lib.rt", encoding="utf-8").read(), {says!r}
if "((" in source:
    sys.exit("src/lib.rt:6:5: error[parse]: a bracket is open")
asked = [it for at, it in enumerate(sys.argv) if sys.argv[at - 1] == "--only"]
with open({log!r}, "a") as log:
    print(*asked, file=log)
for name, body in re.findall(r"pub fn (\\w+).*?\\n{{\\n(.*?)\\n}}\\n", source, re.S):
    if name not in asked:
        continue
    found = next((it for it in words if it in body), "same")
    told, line = ("// A comment" in body and {refuses_all!r}) and words["goal"] or words[found]
    if told:
        print(told.format(name, name))
    print(f"fn sums::{{name}}: {{line}}")
"""


def put(path: str, text: str) -> None:
    os.makedirs(os.path.dirname(path) or ".", exist_ok=True)
    with open(path, "w", encoding="utf-8") as file:
        file.write(text)


def prover(refuses_all: bool = False) -> None:
    """Makes the prover, and the command that names its folder."""
    put("kit/bin/rattle", PROVER.format(python=sys.executable, says=SAYS, log=os.path.abspath("asked"), refuses_all=refuses_all))
    put("bin/rt", f"#!/bin/sh\necho {os.path.abspath('kit')}/START-HERE.md\n")
    for path in ("kit/bin/rattle", "bin/rt"):
        os.chmod(path, 0o755)


@pytest.fixture(autouse=True)
def crate() -> None:
    """Makes the test's folder a repository of one crate."""
    others = {os.path.basename(it): it for it in (os.environ.get("EDITS", ""), os.environ.get("CLAUSES", ""))}
    for path in OWN:
        copy_program(path, others.get(os.path.basename(path), ""))
    os.symlink(os.path.join(ROOT, "tools"), "tools")
    put("crates.txt", "sums:\n")
    put("crates/sums/src/lib.rt", SOURCE)
    prover()


def edit(path: str, new: str, old: str = "    a + b", file: str = "src/lib.rt") -> None:
    put(f"{path}.edit", f"file: {file}\nold: {old}\nnew: {new}\n")


def edits(*words: str, path: str = os.environ["PATH"]) -> tuple[int, list[str]]:
    """The status of dev/edits, and its lines."""
    ran = subprocess.run([sys.executable, "dev/edits", "--as-made", *words], capture_output=True, text=True, timeout=PATIENCE,
                         env={**os.environ, "PATH": f"{os.path.abspath('bin')}:{path}", "RT_JOBS": "1"})
    return ran.returncode, (ran.stdout + ran.stderr).splitlines()


@pytest.mark.parametrize("new, line", [
    ("    a + goal", "refused one (sums) by `returns-clause-sum` of sum"),
    ("    turn(a)", "refused one (sums) by `the end of its loop` of sum"),
    ("    index[a]", "refused one (sums) by `index-sum` of sum"),
    ("    same(a)", "FAILED one (sums): not refused: sums::sum: proved"),
    ("    callee(a)", "FAILED one (sums): not refused: sums::sum: proved if `sum` is"),
    ("    gone(a)", "FAILED one (sums): refused for its shape alone: ./proofs/sum/Answers.antt:3:1: error: `returns-clause-sum`: "
                    "`c.left` is not in scope"),
    ("    form(a)", "FAILED one (sums): refused for its shape alone: ./proofs/sum/Answers.antt:3:1: error: `returns-clause-sum`: "
                    "expected type `Specs.Pair a b`"),
    ("    ((a", "FAILED one (sums): BAD EDIT: it isn't read as code: src/lib.rt:6:5: error[parse]: a bracket is open")])
def test_what_is_refused(new: str, line: str) -> None:
    """An edit is refused by an open goal of the function that it changes, and by nothing else."""
    edit("crates/sums/edits/one", new)
    status, lines = edits()
    assert lines[0] == line and status == line.startswith("FAILED")
    assert lines[-1] == ("0 passed, 1 failed" if status else "1 passed, 0 failed")


@pytest.mark.parametrize("words, why", [({"old": "    a * b"}, "an old text stands 0 times in src/lib.rt"),
                                        ({"old": "u64"}, f"an old text stands {SOURCE.count('u64')} times in src/lib.rt"),
                                        ({"file": "src/none.rt"}, "it names no file of the crate, or no old text"),
                                        ({"old": "//! Sums."}, "it changes no function, and no constant that a function names")])
def test_what_can_not_be_applied(words: dict[str, str], why: str) -> None:
    edit("crates/sums/edits/one", "    goal", **words)
    status, lines = edits()
    assert (status, lines[0], lines[-1]) == (1, f"FAILED one (sums): BAD EDIT: {why}", "0 passed, 1 failed")


def test_what_refuses_it() -> None:
    """An edit that says what refuses it is refused by that function, or by what a call of it requires, and by no other."""
    for name, status in (("sum (sum)", 0), ("lib::sum", 0), ("twice (twice)", 1)):
        put("crates/sums/edits/one.edit", f"// refused by: {name}\nfile: src/lib.rt\nold:     a + b\nnew:     goal\n")
        assert edits()[0] == status
    assert edits()[1][0] == "FAILED one (sums): refused by `returns-clause-sum` of sum, and not by twice (twice)"
    put("crates/sums/edits/one.edit", "// refused by: sum (small)\nfile: src/lib.rt\nold:     sum(a, a)\nnew:     asks(a)\n")
    assert edits()[1][0] == "refused one (sums) by `sum-requires-clause-small` of twice"


def test_where_they_stand() -> None:
    """With --must-fail those at the top are tried, and those of that name in a crate: not the others, which are tried without it."""
    edit("must-fail/sums/above", "    goal + b")
    edit("crates/sums/must-fail/inside", "    goal", "    a - 1")
    edit("crates/sums/edits/other", "    goal", "    sum(a, a)")
    status, lines = edits("--must-fail")
    assert status == 0 and lines[-1] == "3 passed, 0 failed"
    assert sorted(it.split(" (")[0] for it in lines[:-2]) == ["proved a_comment_more", "refused above", "refused inside"]
    assert edits()[1][0] == "refused other (sums) by `returns-clause-twice` of twice"
    assert edits()[1][-1] == "1 passed, 0 failed"
    assert sorted(it.split(":")[0] for it in edits("--must-fail", "--list")[1]) == ["sums/above", "sums/inside"]


def test_no_such_crate() -> None:
    """Edits at the top of a crate that there isn't would be tried by nobody."""
    edit("must-fail/sum/one", "    goal")
    assert edits("--must-fail") == (1, ["edits: must-fail has sum, which is no crate of crates.txt"])


def test_a_right_body() -> None:
    """A prover that refuses whatever it is shown would refuse each wrong body as well: a right one has to be proved in front of them."""
    edit("must-fail/sums/one", "    goal")
    edit("crates/sums/edits/one", "    goal")
    for words in (["--must-fail"], ["--minutes", "5"]):
        assert edits(*words)[1][0] == "proved a_comment_more (sums)"
    prover(refuses_all=True)
    for words in (["--must-fail"], ["--minutes", "5"]):
        status, lines = edits(*words)
        assert (status, lines[0], lines[-1]) == (1, "FAILED a_comment_more (sums): `returns-clause-sum` of sum", "1 passed, 1 failed")


def test_a_right_body_behind_a_trait() -> None:
    """A function of a trait that has no body can't be the right one: what it promises is proved by others."""
    trait = "pub trait Sums {\n    fn first(&self) -> u64\n        ensures one { result ≡ 1 }\n        ensures two { result ≡ 1 };\n}\n\n"
    put("crates/sums/src/lib.rt", SOURCE.replace("pub fn sum", f"{trait}pub fn sum", 1))
    edit("must-fail/sums/one", "    goal")
    status, lines = edits("--must-fail")
    assert (status, lines[0], lines[-1]) == (0, "proved a_comment_more (sums)", "2 passed, 0 failed")
    with open("asked", encoding="utf-8") as asked:
        assert asked.read().splitlines() == ["sum"] * 2


def test_batches() -> None:
    """Edits of functions that don't call one another go into one check; of one that does, into another."""
    edit("crates/sums/edits/first", "    goal")
    edit("crates/sums/edits/second", "    goal", "    a - 1")
    edit("crates/sums/edits/third", "    goal", "    sum(a, a)")
    assert edits()[1][-1] == "3 passed, 0 failed"
    with open("asked", encoding="utf-8") as asked:
        assert asked.read().splitlines() == ["last sum", "twice"]


def test_a_budget(monkeypatch: pytest.MonkeyPatch) -> None:
    """What runs counts as much as the ended ones took on average: nothing begins that would go beyond the budget with them, once enough
    were tried. Of the lanes there is one for two minutes each, since the first check of a crate takes longest."""
    module, real, left = loaded(os.path.abspath("dev/edits")), subprocess.Popen, list[bool]()

    def popen(*words: object, **how: object) -> object:
        left.append(budget.is_left())
        return real(*words, **how)  # type: ignore[call-overload]
    monkeypatch.setattr(module.subprocess, "Popen", popen)
    assert [module.Budget(it).lanes(4) for it in (0.5, 3, 4, 60, math.inf)] == [1, 1, 2, 4, 4]
    for spent, ended, is_left in ((0, 0, True), (2, 1, True), (119, 2, True), (120, 1, False), (120, 2, True), (160, 2, False)):
        budget = module.Budget(4)
        budget.spent, budget.ended, budget.tried = spent, ended, module.LEAST
        said, status = budget.run(["sh", "-c", "echo so; exit 3"], ".")
        assert (said, status, left.pop(), budget.is_left(), budget.ended, left) == ("so\n", 3, is_left, True, ended + 1, [])
    for spent, tried, is_left in ((239, 10, True), (240, 9, True), (240, 10, False)):
        budget.spent, budget.tried = spent, tried
        assert budget.is_left() == is_left


def test_at_least_ten() -> None:
    """Where the budget is spent at once ten are tried all the same, each here by a check of its own, and no more."""
    for it in range(12):
        edit(f"crates/sums/edits/edit_{it}", f"    goal + {it}")
    status, lines = edits("--minutes", "0.0001")
    assert (status, len([it for it in lines if it.startswith("refused ")]), lines[-1]) == (0, 10, "11 passed, 0 failed")


# Edits of functions that differ from a commit.

LIB, MORE, PROOFS = "crates/sums/src/lib.rt", "crates/sums/src/more.rt", "crates/sums/proofs"
SPECS, OTHER, TRAIT = "crates/sums/specs/Sums.antt", "crates/sums/specs/Other.antt", "crates/counts/src/lib.rt"
OF_SUM = SOURCE[SOURCE.index("pub fn sum"):SOURCE.index("pub fn twice")]
OF_LAST = SOURCE[SOURCE.index("pub fn last"):].replace("{ result ≡ a - 1 }", "{ IsBelow result a }")
OF_BELOW = "abbrev pub IsBelow : ℕ → ℕ → Type 0\nIsBelow n m = n < m\n"
HISTORIES = 1_700_000_000  # The second in which the histories of these tests begin.
OF_HISTORY = {
    "crates.txt": "counts:\nsums: counts\n",
    TRAIT: "//! What counts.\n\npub trait Counts {\n    fn count(&self) -> u64\n        ensures count { result ≡ 1 };\n}\n",
    LIB: SOURCE[:SOURCE.index("pub fn last")] + OF_LAST + """
impl Counts for One {
    fn count(&self) -> u64 {
        1
    }
}

// More of them.
ghost use Rattle.sums.specs.Sums.{IsBelow};
""",
    MORE: f"//! More.\n\npub fn more(a: u64) -> u64 {{\n    a + a\n}}\n\n{OF_LAST.replace('a - 1', 'a - 1 + 0')}",
    SPECS: f"-- Sums.\n{OF_BELOW}\nabbrev pub IsAbove : ℕ → ℕ → Type 0\nIsAbove n m = m < n\n",
    OTHER: "-- Others.\n",
    **{f"{PROOFS}/{name}.antt": "-- A proof.\n"
       for name in ("Lemmas", "sum/Answers", "+last/Answers", "OneCounts/count/Answers", "more/last/Answers")},
}


def git(*words: str, hours: float = 0) -> None:
    """Runs git, by no settings of the user's, so many hours behind the beginning of the history."""
    date, own = f"{HISTORIES + round(hours * 3_600)} +0000", ["user.name=Nobody", "user.email=nobody@example.org", "commit.gpgsign=false"]
    subprocess.run(["git", *(word for setting in own for word in ("-c", setting)), *words], check=True, timeout=PATIENCE,
                   env={**os.environ, "GIT_CONFIG_GLOBAL": os.devnull, "GIT_CONFIG_NOSYSTEM": "1", "GIT_AUTHOR_DATE": date,
                        "GIT_COMMITTER_DATE": date})


def commit(hours: float) -> None:
    """Commits all files, so many hours behind the beginning of the history."""
    git("add", "-A")
    git("commit", "-q", "-m", "A change.", hours=hours)


def head() -> str:
    """The beginning of the last commit's hash."""
    return subprocess.run(["git", "rev-parse", "HEAD"], capture_output=True, text=True, timeout=PATIENCE, check=True).stdout[:10]


def change(path: str, old: str, new: str) -> None:
    """Replaces a text that stands in a file once."""
    with open(path, encoding="utf-8") as file:
        text = file.read()
    assert text.count(old) == 1
    put(path, text.replace(old, new))


def move(path: str, text: str, there: str) -> None:
    """Moves a text of a file to the end of another one."""
    change(path, text, "")
    with open(there, "a", encoding="utf-8") as file:
        file.write(f"\n{text}")


@pytest.fixture
def history() -> None:
    """Makes the test's folder a repository with one commit: a crate with edits, and one below it."""
    for path, text in OF_HISTORY.items():
        put(path, text)
    edit("crates/sums/edits/sum", "    goal")
    edit("crates/sums/edits/twice", "    goal", "    sum(a, a)")
    edit("crates/sums/edits/count", "        goal", "        1")
    edit("crates/sums/edits/more", "    goal", "    a + a", "src/more.rt")
    adds = "old: // More of them.\nnew: fn added() { one() }\n"
    put("crates/sums/edits/last.edit", f"file: src/lib.rt\nold:     a - 1\nnew:     goal\n{adds}")
    git("init", "-q")
    commit(0)


def reasons(*words: str) -> dict[str, str]:
    """The edits that dev/edits lists, each with what has changed."""
    status, lines = edits("--changed", *words, "--list")
    assert status == 0 and lines[0] == "5 edits can be applied"
    return {name.removeprefix("sums/"): reason for name, _, _, reason in (line.split(": ") for line in lines[2:])}


@pytest.mark.parametrize("path, old, new, tried", [
    (LIB, "    a - 1\n", "    a - 1 + 0\n", {"last": "the text of last"}),
    (LIB, "{ result ≡ a + a }", "{ a + a ≡ result }", {"twice": "the text of twice"}),
    (LIB, "{ result ≡ a + b }", "{ a + b ≡ result }", {"sum": "the text of sum", "twice": "the text of sum"}),
    (TRAIT, "{ result ≡ 1 }", "{ 1 ≡ result }", {"count": "the text of count"}),
    (LIB, "//! Sums.", "//! Sums of numbers.", {}),
    (f"{PROOFS}/sum/Answers.antt", "A proof", "A short proof", {"sum": "the proof of sum"}),
    (f"{PROOFS}/+last/Answers.antt", "A proof", "A short proof", {"last": "the proof of last"}),
    (f"{PROOFS}/OneCounts/count/Answers.antt", "A proof", "A short proof", {"count": "the proof of OneCounts::count"}),
    (f"{PROOFS}/more/last/Answers.antt", "A proof", "A short proof", {}),
    (f"{PROOFS}/Lemmas.antt", "A proof", "A short proof", {}),
    (SPECS, "n < m", "n < m × n < m", {"last": "the definition IsBelow"}),
    (SPECS, "m < n", "m < n × m < n", {}),
    ("crates/sums/edits/twice.edit", "goal", "goal + 1", {"twice": "its own file"}),
    ("crates.txt", "sums:", "sums: # all", {})],
    ids=["body", "clause", "callee", "trait_below", "outside", "proof", "proof_of_itself", "proof_of_a_type", "proof_of_another_module",
         "lemma", "definition", "definition_that_no_clause_names", "edit", "other_file"])
def test_what_has_changed(history: None, path: str, old: str, new: str, tried: dict[str, str]) -> None:
    """An edit is listed where something has changed for it, with what that is, and else it isn't: what no commit has counts."""
    change(path, old, new)
    assert reasons("HEAD") == tried


def test_a_new_edit(history: None) -> None:
    os.rename("crates/sums/edits/sum.edit", "crates/sums/edits/new.edit")
    assert reasons("HEAD") == {"new": "its own file"}


def test_what_has_moved(history: None) -> None:
    """A function or a definition that has the same text in another file hasn't changed. An edit of such a function has, since an edit names
    the function's file."""
    move(LIB, OF_SUM, MORE)
    move(SPECS, OF_BELOW, OTHER)
    change(LIB, "specs.Sums.", "specs.Other.")
    change("crates/sums/edits/sum.edit", "src/lib.rt", "src/more.rt")
    assert reasons("HEAD") == {"sum": "its own file"}
    commit(0)
    os.rename(MORE, "crates/sums/src/most.rt")
    for name in ("sum", "more"):
        change(f"crates/sums/edits/{name}.edit", "src/more.rt", "src/most.rt")
    commit(0)
    assert reasons("HEAD~1") == {"sum": "its own file", "more": "its own file"}


def test_as_another_was(history: None) -> None:
    """A function has changed where its text is now that of another file's function of its name."""
    change(LIB, "    a - 1\n", "    a - 1 + 0\n")
    change(MORE, "//! More.", "//! More of them.")
    assert reasons("HEAD") == {"last": "the text of last"}


@pytest.mark.parametrize("hours, tried", [((7.5, 12, 13.5), {"twice", "sum"}), ((7.8, 12, 13.5), {"last", "twice", "sum"}),
                                          ((0.3, 0.6, 5.7), {"last", "twice", "sum"}), ((0.3, 0.6, 6.6), {"sum"})])
def test_the_commit_before(history: None, hours: tuple[float, ...], tried: set[str]) -> None:
    """Without a name the commit is the newest one that is at least six hours older than the last, or the first one where none is."""
    for (path, old, new), when in zip(((LIB, "    a - 1\n", "    a - 1 + 0\n"), (LIB, "{ result ≡ a + a }", "{ a + a ≡ result }"),
                                       (f"{PROOFS}/sum/Answers.antt", "A proof", "A short proof")), hours, strict=True):
        change(path, old, new)
        commit(when)
    assert reasons().keys() == tried


def test_the_commit_before_a_merge(history: None) -> None:
    """A commit that came in by a merge is no first parent of the last."""
    git("checkout", "-q", "-b", "side")
    change(LIB, "    a - 1\n", "    a - 1 + 0\n")
    commit(2)
    git("checkout", "-q", "-")
    change(f"{PROOFS}/sum/Answers.antt", "A proof", "A short proof")
    commit(1)
    git("merge", "-q", "--no-ff", "-m", "A merge.", "side", hours=12)
    assert reasons().keys() == {"last"}


def test_changed_ones(history: None) -> None:
    """The edits for which something has changed are tried, behind a right body; where nothing has, the prover isn't asked at all."""
    looked = ["5 edits can be applied", f"changed since {head()}: 0 functions in 0 crates, 0 edits"]
    assert edits("--changed") == (0, [*looked, "1 passed, 0 failed"])
    assert not os.path.exists("asked")
    change(LIB, "{ result ≡ a + b }", "{ a + b ≡ result }")
    status, lines = edits("--changed")
    assert (status, lines[:3], lines[-1]) == (0, ["5 edits can be applied", f"changed since {head()}: 2 functions in 1 crates, 2 edits",
                                                  "proved a_comment_more (sums)"], "4 passed, 0 failed")
    assert sorted(it.split(" (")[0] for it in lines[3:-2]) == ["refused sum", "refused twice"]
    change("crates/sums/edits/twice.edit", "goal", "same(a)")
    status, lines = edits("--changed")
    assert (status, lines[-1]) == (1, "3 passed, 1 failed") and "FAILED twice (sums): not refused: sums::twice: proved" in lines
    assert edits("--changed", "--crate", "counts")[1][-1] == "1 passed, 0 failed"


@pytest.mark.parametrize("place", ["crates/sums/edits", "crates/sums/must-fail", "must-fail/sums"])
def test_what_can_not_be_applied_though_nothing_has_changed(history: None, place: str) -> None:
    edit(f"{place}/bad", "    goal", "    a * b")
    commit(0)
    assert edits("--changed", "HEAD") == (1, ["FAILED bad (sums): BAD EDIT: an old text stands 0 times in src/lib.rt",
                                              f"changed since {head()}: 0 functions in 0 crates, 0 edits", "0 passed, 1 failed"])


@pytest.mark.parametrize("path", [os.environ["PATH"], "none"], ids=["git", "no_git"])
def test_without_history(path: str) -> None:
    """In a folder that git doesn't know, and without git, nothing is known to have changed, and all edits are looked at."""
    edit("crates/sums/edits/one", "    goal")
    status, lines = edits("--changed", path=path)
    assert (status, lines[1:]) == (0, ["1 edits can be applied", "1 passed, 0 failed"])
    assert lines[0].startswith("nothing is known to have changed: there is no history (") and not os.path.exists("asked")


def test_history_of_a_folder_around(monkeypatch: pytest.MonkeyPatch) -> None:
    """A repository that the project's folder stands in says nothing of the project."""
    names = os.listdir(".")
    os.mkdir("project")
    for name in names:
        os.rename(name, f"project/{name}")
    put("others", "")
    git("init", "-q")
    git("add", "others")
    git("commit", "-q", "-m", "Others.")
    monkeypatch.chdir("project")
    edit("crates/sums/edits/one", "    goal")
    assert edits("--changed")[1][1:] == ["1 edits can be applied", "1 passed, 0 failed"]


def test_no_such_commit(history: None) -> None:
    assert edits("--changed", "HEAD~9") == (2, ["edits: git knows no commit HEAD~9"])


@pytest.mark.parametrize("words", [["sum"], ["--must-fail"], ["--minutes", "5"], ["--promises"]])
def test_what_changed_goes_with(words: list[str]) -> None:
    status, lines = edits(*words, "--changed")
    assert status == 2 and "--changed goes with no NAME" in lines[-1]
