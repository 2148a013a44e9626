"""Tests of dev/clauses.py and tests/promises.py on made-up crates: what the page of the clauses is made of, and that comments which name
promises, and those of wrong bodies, are refused where they aren't right.

CLAUSES in the environment names another file in the place of one of these or of dev/planted.py: tests/known_bad.py puts wrong ones there.
"""
import os
import re
import subprocess
import sys

import pytest

from checks import LONG, copy_program

pytestmark = pytest.mark.quick

OWN = (*(f"dev/{it}" for it in ("clauses.py", "planted.py", "exports.py", "below.py", "antt.py", "contracts.py", "with_scripts.py")),
       *(f"scripts/{it}" for it in ("crates.py", "needs_python.py", "with_tools.py")), "tests/promises.py", "tests/checks.py")
MAKES = "import sys; sys.path.insert(0, 'dev'); import with_scripts, clauses; sys.stdout.write(clauses.page())"
CLAIMS, ONE, PROMISES = "crates/lower/src/claims.rt", "crates/lower/src/steps/one.rt", "docs/PROMISES.md"
ALL, NONE = "crates/lower/must-fail/claims_all.edit", "crates/lower/edits/claims_none.edit"
FILES = {
    "crates.txt": "lower:\nprogram: lower\nlower_tests: lower\n",
    PROMISES: """\
# Promises

## The headline

No promise. **Premise**: none.

## 1. Claims are kept

A claim is kept. **Premise**: an honest
ring ([more](#what-isnt-kept)).

## 2. Turns mean what they say

They do. **Premise**: as in 1.

## 3. Each call returns

So says the proof of each body. **Premise**: none.

## What isn't kept

- **Time**: `tests/promises.py`, `lower_tests`.

## Only tested

- `dev/edits`, not `dev_edits`.
""",
    "crates/lower/src/lib.rt": """\
//! What lies below.
mod claims;
mod steps;

pub use claims::{Claim, Turns, claims_are_kept, left};
pub use steps::stepped;
""",
    CLAIMS: """\
//! Claims.
ghost use Rattle.std.specs.Prelude.{◌≡◌, ℕ};
ghost use Rattle.lower.specs.Claims.{IsClaimed, IsKept, number, least as lowest};

use std::marker::Model;

/// Promised is a claim.
pub struct Claim {
    number: u64,
}

impl Model for Claim {
    ghost Value = { ℕ };

    ghost invariant = { λ c. IsKept c.number
        × (c.number ≡ c.number) }; // promise 1
}

/// What can be turned.
pub trait Turns {
    /// Turns.
    fn turn(&mut self, by: u64) -> u64
        requires few { by ≡ 0 }
        ensures turned { IsKept result };
}

impl Turns for Claim { // promise 2
    fn turn(&mut self, by: u64) -> u64 {
        by
    }
}

impl Claim {
    /// The first claim.
    pub fn new(number: u64) -> Claim // promise 1
        requires { lowest ≡ number }
        ensures kept { IsKept result }
        ensures { result ≡ 0 }
    {
        Claim { number }
    }

    /// Its number. It stays.
    pub fn number(&self) -> u64
        ensures value { result ≡ self.now }
        // promises 1, 2
        ensures claimed { IsClaimed result self.now
            × IsClaimed self.now result }
        ensures twice { result ≡ result
            × (lowest ≡ lowest) } // promise 1
    {
        self.number
    }

    /// Of this module alone.
    fn hidden(&self) -> u64
        ensures own { result ≡ self.now }
    {
        self.number
    }
}

/// Claims are kept.
pub fn claims_are_kept() // promise 2
    ensures { (n : ℕ) → IsKept n }
{
}

/// Left to others. It carries nothing.
pub fn left(by: u64) -> u64
    requires few { by ≡ 0 }
    ensures same { result ≡ by }
{
    by
}
""",
    "crates/lower/src/steps.rt": "//! Steps.\nmod one; // promise 2\n\npub use one::stepped;\n",
    ONE: """\
//! One step.
ghost use Rattle.lower.specs.Claims.{IsKept};

/// A step.
pub fn stepped(by: u64) -> u64
    ensures stepped { IsKept result }
{
    unseen(by)
}

/// No step.
fn unseen(by: u64) -> u64
    ensures unseen { IsKept result }
{
    by
}
""",
    "crates/lower/specs/Claims.antt": """\
-- Claims.
use Rattle.std.specs.Prelude.{◌≡◌, ℕ}

-- the least
abbrev pub least : ℕ
least = 0

-- of the name of a value
abbrev pub number : ℕ
number = 1

-- what is said
pub record IsKept (n : ℕ) : Type 0 where
  pub from : least ≡ n
  pub upto : Both n

-- both
pub record Both (n : ℕ) : Type 0 where
  pub one : n ≡ n

-- no record
abbrev pub IsClaimed : ℕ → ℕ → Type 0
IsClaimed n m = Below n m

-- below
pub record Below (n : ℕ) (m : ℕ) : Type 0 where
  pub less : n ≡ m

-- no claim names it
pub record Unused : Type 0 where
  pub nothing : ℕ
""",
    "crates/program/src/main.rt": "//! A program.\nuse lower::left;\n\nfn main() {\n    left(0);\n}\n",
    "crates/lower_tests/src/lib.rt": "//! Tests.\nfn tried() {}\n",
    ALL: "// promise 1\n// does: all is claimed\n// refused by: Claim::number (claimed, twice)\nfile: src/claims.rt\nold: a\nnew: b\n",
    "crates/lower/must-fail/steps_back.edit": "// does: it steps back\n// refused by: unseen\nfile: src/claims.rt\nold: a\nnew: b\n",
    NONE: "// promises 2, 3\nfile: src/claims.rt\nold: a\nnew: b\n",
    "dev/edits": "print('### lower\\n\\n- `a`: **`claims_all`** (1),\\n  `claims_none` (2)\\n- `b`: **`steps_back`**')\n",
    "crates/venue_tests/src/tests/meeting.rt": "",
    "tests/refused_memory.py": "",
}
SECTIONS = """\
## 1. Claims are kept

**Premise**: an honest ring ([more](PROMISES.md#what-isnt-kept)).

**`lower`**

- invariant of `Claim`: one of `IsKept`
- `Claim::new`: (one) of `least`; `kept` of `IsKept`; one
- `Claim::number`: `claimed` of `IsClaimed`; `twice` of `least`
- records: `IsKept` has `from`, `upto`; `Both` has `one`; `Below` has `less`

**Refused**: `claims_all`.

## 2. Turns mean what they say

**Premise**: as in 1.

**`lower`**

- `Turns for Claim`: (`few`); `turned` of `IsKept`
- `Claim::number`: `claimed` of `IsClaimed`
- law `claims_are_kept`: one of `IsKept`
- `stepped`: `stepped` of `IsKept`

**Refused**: `claims_none`.

## 3. Each call returns

**Premise**: none.

**Clauses**: none; the proof of each body carries it.

**Refused**: `claims_none`.

## Tried at every check
"""
ROWS = """
|---|---|---|
| `lower/claims_all` | all is claimed | `Claim::number` (`claimed`, `twice`) |
| `lower/steps_back` | it steps back | `unseen` |

"""
PARTS = """
where they have names.

**`lower`**

- `Turns::turn` (`few`, `turned`): Turns.
- `left` (`few`, `same`): Left to others.
- Contracts of traits are kept by `Turns for Claim`.
"""


def put(path: str, text: str) -> None:
    os.makedirs(os.path.dirname(path) or ".", exist_ok=True)
    with open(path, "w", encoding="utf-8") as file:
        file.write(text)


def ran(*words: str) -> tuple[int, list[str]]:
    """A program's status, and all its lines."""
    it = subprocess.run([sys.executable, *words], stdout=subprocess.PIPE, stderr=subprocess.STDOUT, text=True, timeout=LONG)
    return it.returncode, it.stdout.splitlines()


@pytest.fixture(autouse=True)
def tree() -> None:
    """Makes the test's folder the made-up tree, with the scripts."""
    other = os.environ.get("CLAUSES", "")
    for path in OWN:
        copy_program(path, other if os.path.basename(path) == os.path.basename(other) else "")
    for path, text in FILES.items():
        put(path, text)


def change(path: str, old: str, new: str) -> None:
    assert FILES[path].count(old) == 1, (path, old)
    put(path, FILES[path].replace(old, new))


def page() -> str:
    status, lines = ran("-c", MAKES)
    assert status == 0, lines
    return "\n".join(lines) + "\n"


def test_sections() -> None:
    """Each promise has its premise, the functions with their clauses by crates, the records once, and its wrong bodies."""
    assert SECTIONS in page()


def test_rows() -> None:
    """The table has the wrong bodies of must-fail, with what they do and what refuses them."""
    assert ROWS in page()


def test_parts() -> None:
    """What carries no promise stands by crates, with the first sentence that is said of each function."""
    assert page().endswith(PARTS)


def test_a_function_that_comes() -> None:
    """A public function in a module that carries a promise carries it too; a clause that comes to a function does."""
    change(ONE, "/// No step.\nfn unseen", "/// No step.\npub fn unseen")
    assert "- `stepped`: `stepped` of `IsKept`\n- `unseen`: `unseen` of `IsKept`\n" in page()
    change(CLAIMS, "    ensures { (n : ℕ) → IsKept n }\n", "    ensures { (n : ℕ) → IsKept n }\n    ensures more { IsClaimed 1 1 }\n")
    assert "- law `claims_are_kept`: one of `IsKept`; `more` of `IsClaimed`\n" in page()


def test_values_of_a_name() -> None:
    """A value isn't the definition of its name, which is cited where there is no such value."""
    assert "- `Claim::new`: (one) of `least`; kept" in page().replace("`kept`", "kept")
    change(CLAIMS, "ensures same { result ≡ by }", "ensures same { result ≡ number } // promise 1")
    assert "- `left`: `same` of `number`\n" in page()


def test_right() -> None:
    """The tree is taken, with each comment, wrong body and promise looked at."""
    assert ran("tests/promises.py") == (0, ["43 passed, 0 failed"])


WRONG = {
    "a promise without a premise": (PROMISES, "**Premise**: as in 1.", "", "promise 2 has no premise"),
    "a promise without a clause": (PROMISES, "the proof of each body", "nobody", "promise 3 has no clause"),
    "a promise with clauses that has none": (PROMISES, "They do.", "So does the proof of each body.", "promise 2 has clauses, and says that it has none"),
    "a promise without a wrong body": (ALL, "// promise 1\n", "", "promise 1 has no wrong body"),
    "a promise that there isn't": (CLAIMS, "// promise 1\n        requires", "// promise 7\n        requires",
                                   f"{CLAIMS}:35: it names no promises that there are"),
    "one of two that there aren't": (CLAIMS, "// promises 1, 2", "// promises 1, 4", f"{CLAIMS}:46: it names no promises that there are"),
    "a number in words": (CLAIMS, "by ≡ 0 }\n    ensures same", "by ≡ 0 } // promise one\n    ensures same",
                          f"{CLAIMS}:71: it names no promises that there are"),
    "a comment in a body": (CLAIMS, "        Claim { number }", "        Claim { number } // promise 1", f"{CLAIMS}:40: it stands at nothing"),
    "a comment at a private function": (CLAIMS, "fn hidden(&self) -> u64", "fn hidden(&self) -> u64 // promise 1", f"{CLAIMS}:56: it stands at nothing"),
    "a comment at a private clause": (CLAIMS, "ensures own { result ≡ self.now }", "ensures own { result ≡ self.now } // promise 1",
                                      f"{CLAIMS}:57: it stands at nothing"),
    "a comment at a type": (CLAIMS, "pub struct Claim {", "pub struct Claim { // promise 1", f"{CLAIMS}:8: it stands at nothing"),
    "a comment at an impl of no trait": (CLAIMS, "\nimpl Claim {", "\nimpl Claim { // promise 1", f"{CLAIMS}:33: it stands at nothing"),
    "a comment two lines above": (CLAIMS, "    /// Its number.", "    // promise 1\n\n    /// Its number.", f"{CLAIMS}:43: it stands at nothing"),
    "a comment of a test": ("crates/lower_tests/src/lib.rt", "fn tried() {}", "fn tried() {} // promise 1", "lib.rt:2: what stands here carries no promise"),
    "a wrong body of a promise that there isn't": (NONE, "2, 3", "2, 3, 4", f"{NONE}: promises (2, 3, 4), of which there aren't all"),
    "a line that says nothing": (NONE, "// promises 2, 3", "// promises 2, 3\n// it does", f"{NONE}: '// it does' says nothing"),
    "a promise's comment in other words": (NONE, "// promises 2, 3", "// promises 2, 3\n// promise: 1", f"{NONE}: '// promise: 1' says nothing"),
    "what it does twice": (ALL, "// does: all is claimed\n", "// does: all is claimed\n// does: more\n", f"{ALL}: '// does: stands 2 times' says nothing"),
    "a wrong body that does nothing": (ALL, "// does: all is claimed\n", "", f"{ALL}: it doesn't say what it does"),
    "a wrong body that nothing refuses": (ALL, "// refused by: Claim::number (claimed, twice)\n", "", f"{ALL}: 0 functions are named ''"),
    "a function that there isn't": (ALL, "Claim::number (", "Claim::numbers (", f"{ALL}: 0 functions are named"),
    "a function of another type": (ALL, "Claim::number (", "Turns::number (", f"{ALL}: 0 functions are named"),
    "a clause that there isn't": (ALL, "(claimed, twice)", "(claimed, thrice)", f"{ALL}: Claim::number (claimed, thrice) has no clause thrice"),
    "a wrong body that isn't listed": ("dev/edits", "`claims_none` (2)", "`claims_no` (2)", "not listed by function as they are: claims_no, claims_none"),
    "a wrong body that is listed twice": ("dev/edits", "`claims_none` (2)", "`claims_none` (2), `claims_none`",
                                          "not listed by function as they are: claims_none"),
    "a test that there isn't": (PROMISES, "`tests/promises.py`", "`tests/promise.py`", f"{PROMISES}:22: no `tests/promise.py`"),
    "tests of a crate that there isn't": (PROMISES, "`lower_tests`", "`upper_tests`", f"{PROMISES}:22: no `upper_tests`"),
    "a program that there isn't": (PROMISES, "`dev/edits`", "`dev/edit`", f"{PROMISES}:26: no `dev/edit`"),
}


@pytest.mark.parametrize("what", WRONG, ids=[it.replace(" ", "_") for it in WRONG])
def test_wrong(what: str) -> None:
    """What is wrong in one thing is refused for this alone."""
    path, old, new, part = WRONG[what]
    change(path, old, new)
    status, lines = ran("tests/promises.py")
    assert (status, len(lines)) == (1, 2), lines
    assert part in lines[0], lines
    assert re.fullmatch(r"\d+ passed, 1 failed", lines[1]), lines


def test_numbers() -> None:
    """A promise whose number isn't the next one is refused, and so is what names the number that is missing."""
    change(PROMISES, "## 3. Each", "## 4. Each")
    status, lines = ran("tests/promises.py")
    assert (status, lines[0]) == (1, f"{PROMISES}: its promises have the numbers [1, 2, 4]")
    assert any(f"{NONE}: promises (2, 3)" in it for it in lines), lines


def test_a_folder_that_is_unknown() -> None:
    """A wrong body in a folder that nobody tries is refused."""
    put("crates/lower/more/claims_some.edit", FILES[NONE])
    status, lines = ran("tests/promises.py")
    assert (status, len(lines)) == (1, 2) and "in another folder" in lines[0], lines


def test_parts_by_name() -> None:
    """A part alone looks at its own things."""
    change(PROMISES, "`lower_tests`", "`upper_tests`")
    assert ran("tests/promises.py", "marks", "planted")[0] == 0
    assert ran("tests/promises.py", "tested")[0] == 1
    assert ran("tests/promises.py", "no_part")[0] == 1
