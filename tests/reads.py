#!/usr/bin/env python3
"""Checks dev/reads: on two made-up crates, whose definitions are few enough to say what it has to print, and on the
project's own, where each name of each clause has to be found, and each page is as long as dev/measured.json says.

    tests/reads.py

Each fault has a line of its own; the last line is `N passed, M failed`, and the status is 1 where one failed.
"""
import os
import re
import shutil
import signal
import subprocess
import sys
import tempfile

ROOT = os.path.dirname(os.path.dirname(os.path.abspath(__file__)))
sys.path.insert(0, os.path.join(ROOT, "dev"))

import with_scripts  # (in front of what stands there, and of what an older Python can't read)
import ratchet
from below import Entry, Project
from checks import Check, printed, put_text
from figures import CHAPTERS, ENDS, RECORDS, WHOLE, Page

SCRIPTS = [*(f"dev/{it}" for it in ("reads", "below.py", "antt.py", "contracts.py", "with_scripts.py")),
           *(f"scripts/{it}" for it in ("crates.py", "needs_python.py", "with_tools.py"))]

LEAST = (250, 30)  # What one has to read of `listen` never is nothing,
A_PAGE = (250, 20)  # and the record of the headline is a page, as each chapter is that it leaves to itself.

FILES = {
    "lower/specs/Numbers.antt": """
-- Numbers.
use Rattle.std.specs.Prelude.{◌≡◌, ◌+◌, ℕ, zero, suc, Bool, true, false, length, List}

-- twice a number
abbrev pub twice : ℕ → ℕ
twice n = once n + once n

-- (private)
abbrev once : ℕ → ℕ
once twice = twice

-- a circle
abbrev pub even : ℕ → Bool
even zero = true
even (suc n) = odd n

abbrev pub odd : ℕ → Bool
odd zero = false
odd (suc n) = even n

-- nobody names it
abbrev pub unused : ℕ
unused = twice 1

module _ {A : Type 0} where
  -- how long a list is
  unfoldable pub long : List A → ℕ
  long xs = length xs

-- a lemma
pub twice-one : even (twice 1) ≡ true
unfolding twice
twice-one = refl
""",
    "lower/specs/Shapes.antt": """
-- Shapes, and what is named on.
use Rattle.std.specs.Prelude.{◌≡◌, ℕ, List}
use Rattle.lower.specs.Numbers.{long}
pub use Rattle.lower.specs.Numbers.{even}

pub data Shape : Type 0 where
  Round : ℕ → Shape
  Flat : Side → Shape

-- a side
pub record Side : Type 0 where
  pub from : ℕ
  pub long : List ℕ
  pub is_long : long ≡ long

pub record Unused : Type 0 where
  pub side : Side
""",
    "lower/src/colours.rt": """
use std::marker::Model;

/// A colour.
pub enum Colour {
    Red,
    Depth(Shade),
}

/// Its shade.
pub struct Shade {
    pub depth: [u64; MOST],
}

/// How many.
pub const MOST: usize = 8;

/// Of the same name as one that is public.
fn look() {}

/// No clause sees it.
pub struct Depth {
    inner: u64,
}

/// Contracts see a shape.
pub struct Hidden {
    inner: Depth,
}

impl Model for Hidden {
    ghost use Rattle.lower.specs.Shapes.{Shape};

    ghost Value = { Shape };
}

/// Something kept.
pub trait Keeps {
    ghost use Rattle.lower.specs.Shapes.{Side};

    /// What it keeps.
    ghost kept: { Self → Side };

    /// No clause names it.
    ghost lost: { Self → Side };
}
""",
    "upper/specs/Above.antt": """
-- What stands above.
use Rattle.std.specs.Prelude.{◌≡◌, ◌×◌, ℕ, Bool}
use Rattle.lower.specs.Numbers as numbers
use Rattle.lower.specs.Numbers.{twice, twice-one, odd}
use Rattle.lower.specs.Shapes.{even as is_even}
use Rattle.lower.specs.declared.colours.Colour.{Colour}
use Rattle.lower.specs.declared.colours.Colour.TheVariants as colours

-- by its number
abbrev pub number_of : Colour → ℕ
number_of colours.Red = numbers.twice 1
number_of (colours.Depth odd) = let twice = 2 in (λ (odd : ℕ). odd) twice

-- a fact, with a proof
pub record IsAbove (colour : Colour) (twice : ℕ) : Type 0 where
  pub number : number_of colour ≡ twice
  pub even : is_even twice ≡ is_even (elim twice as (λ odd. ℕ) [ zero ↦ 0 | suc odd ↦ odd ])
  pub proof : let fact = twice-one in ℕ
""",
    "upper/src/lib.rt": """
ghost use Rattle.std.specs.Prelude.{◌≡◌, ◌≤◌};
ghost use Rattle.upper.specs.Above.{IsAbove};
ghost use Rattle.lower.specs.Numbers.{long, twice-one};

use lower::{Colour, Hidden, Keeps, MOST};

/// One function.
pub fn look<K: Keeps>(colour: Colour, hidden: &Hidden, keeps: K) -> u64
    requires kept { K.kept keeps ≡ K.kept keeps }
    requires few { long hidden.now.list ≤ MOST }
    ensures above { IsAbove colour result }
    ensures lemma { twice-one ≡ twice-one }
{
    0
}

impl Other {
    /// Of the same name as another.
    pub fn twin(&self) {}
}

/// Of the same name.
pub fn twin() {}
""",
}

# Words, and what has to be printed of them in this order; in front of a word of the code stands its crate's name.
READ = {
    ("look", "--clause", "above"): ["IsAbove", "number_of", "twice", "once", "even", "odd", "Colour", "Shade", "MOST"],
    ("look", "--clause", "few"): ["long", "Shape", "Side", "MOST"],
    ("look", "--clause", "kept"): ["Keeps.kept", "Side"],
    ("look", "--clause", "lemma"): ["twice-one", "even", "odd", "twice", "once"],
    ("look", "--clause", "above", "--but", "number_of"): ["IsAbove", "number_of", "even", "odd", "Colour", "Shade", "MOST"],
    ("Shape",): ["Shape", "Side"],
    ("Rattle.lower.specs.Numbers.odd",): ["odd", "even"],
    ("lower::Numbers::unused",): ["unused", "twice", "once"],
}

# Words, a part of what has to be printed, and the status.
TOLD = {
    ("twin",): ("stands for several:\n    upper::Other::twin\n    upper::twin", 1),
    ("upper::Other::twin",): ("upper::Other::twin has no clause", 2),
    ("look", "--clause", "below"): ("upper::look has no clause below: it has kept, few, above, lemma", 2),
    ("Shape", "--clause", "above"): ("lower::Shapes::Shape is a definition", 2),
    ("nothing",): ("no function and no definition of specs is called nothing", 2),
    ("Shape", "--most", "2", "1"): ("2 definitions in 1 file", 0),
    ("Shape", "--most", "1", "1"): ("more than 1 definitions in 1 files", 1),
    ("look", "--most", "99", "3"): ("more than 99 definitions in 3 files", 1),
    ("look", "--clause", "few", "--text"): ("    -- how long a list is\n    unfoldable pub long : List A → ℕ\n    long xs", 0),
    ("Shape", "--by-file"): ("lower: crates/lower/specs/Shapes.antt, 2\n    Shape\n    Side\n", 0),
    ("look", "--clause", "above", "--but", "nothing"): ("no function and no definition of specs is called nothing", 2),
    ("look", "--clause", "above", "--but", "look"): ("look is no definition", 2),
    ("Shape", "--by-file", "--text"): ("        -- a side\n        pub record Side", 0),
}


def run(root: str, words: tuple[str, ...]) -> tuple[str, int]:
    """What the script there prints, with the last of its standard error, and its status."""
    return printed(f"{root}/dev/reads", *words)


def made_up(check: Check) -> None:
    """The two crates, and then one that names what isn't there."""
    with tempfile.TemporaryDirectory() as root:
        for folder in ("dev", "scripts"):
            os.mkdir(f"{root}/{folder}")
        for name in SCRIPTS:
            shutil.copy(f"{ROOT}/{name}", f"{root}/{name}")
        for name, text in FILES.items():
            put_text(f"{root}/crates/{name}", text.lstrip())
        for words, names in READ.items():
            said, status = run(root, words)
            found = re.findall(r"^\w+ +\S+:\d+  (\S+)$", said, re.M)
            check.count((found, status) == (names, 0), f"{' '.join(words)}: {' '.join(found)}, status {status}")
            check.count(f"\n{len(names)} definitions in " in said, f"{' '.join(words)}: {said}")
        for words, (part, status) in TOLD.items():
            said, its = run(root, words)
            check.count(part in said and its == status, f"{' '.join(words)}: status {its}\n{said}")
        reader, writer = os.pipe()
        os.close(reader)  # (before it begins, so that it has nobody from its first line on)
        it = subprocess.run([f"{root}/dev/reads", "look"], stdout=writer, stderr=subprocess.PIPE)
        os.close(writer)
        check.count((it.returncode, it.stderr) == (-signal.SIGPIPE, b""), f"nobody reads it: status {it.returncode}\n{it.stderr!r}")
        with open(f"{root}/crates/lower/specs/Numbers.antt", "a", encoding="utf-8") as file:
            file.write("\nuse Rattle.lower.specs.Shapes.{Gone}\n\nabbrev pub lost : ℕ\nlost = unfound Gone\n")
        said, status = run(root, ("lost",))
        for name in ("unfound", "Gone"):
            check.count(f"{name} has no definition" in said and status == 1, f"lost: status {status}\n{said}")


def of_project(check: Check) -> None:
    """The project's own clauses and definitions."""
    project = Project()
    for path, functions in project.functions.items():
        for function in functions:
            for clause in project.clauses(path, function):
                project.below_clause(clause)
    for path, found in project.specs.items():
        for it in found.values():
            project.below(Entry(path, it.first, it.name))
    for path, name in sorted(project.unknown):
        print(f"{os.path.relpath(path, ROOT)}: {name} has no definition")
    check.count(not project.unknown, "names have no definition")
    kept = ratchet.kept_in(ratchet.text_of(ratchet.KEPT)) or {}
    for page in (*RECORDS, *CHAPTERS, WHOLE, ENDS):
        said, status = run(ROOT, words_of(page))
        counts = re.search(r"^(\d+) definitions in (\d+) files", said, re.M)
        there = (int(counts[1]), int(counts[2])) if counts else (0, 0)
        wanted = (kept.get(f"pages/{page.title}/definitions"), kept.get(f"pages/{page.title}/files"))
        check.count((there, status) == (wanted, 0), f"{page.title}: {there}, status {status}, and {ratchet.KEPT} has {wanted}")
        if page in (WHOLE, ENDS):
            check.count(there[0] >= LEAST[0] and there[1] >= LEAST[1], f"{page.title}: but {there}")
        else:
            check.count(there[0] <= A_PAGE[0] and there[1] <= A_PAGE[1], f"{page.title}: {there} is more than a page")


def words_of(page: Page) -> tuple[str, ...]:
    """What dev/reads is told to print a page."""
    closed = [it.name for it in CHAPTERS if it != page] if page.is_record or page in CHAPTERS else []
    return (page.name, *(("--clause", page.clause) if page.clause else ()), *(("--but", *closed) if closed else ()))


def main() -> None:
    if set(sys.argv[1:]) & {"-h", "--help"}:
        print(__doc__.strip())
        return
    check = Check()
    made_up(check)
    of_project(check)
    check.end()


if __name__ == "__main__":
    main()
