#!/usr/bin/env python3
"""Checks dev/surface on two made-up crates: what its page has to say of them, that a call which changes is refused, and
which functions nobody calls.

    tests/surface.py

Each fault has a line of its own; the last line is `N passed, M failed`, and the status is 1 where one failed.
"""
import os
import re
import shutil
import sys
import tempfile

ROOT = os.path.dirname(os.path.dirname(os.path.abspath(__file__)))
sys.path.insert(0, os.path.join(ROOT, "dev"))

import with_scripts  # (in front of what stands there, and of what an older Python can't read)
from checks import Check, change, printed, put_text

SCRIPTS = [*(f"dev/{it}" for it in ("surface", "exports.py", "callers.py", "below.py", "antt.py", "contracts.py",
                                    "with_scripts.py")),
           *(f"scripts/{it}" for it in ("crates.py", "needs_python.py", "with_tools.py"))]

FILES = {
    "crates.txt": "lower:\nupper: lower\nprogram: upper\nbench: upper\nfor_tests: upper\nupper_tests: for_tests\n",
    "crates/lower/src/lib.rt": """
//! What lies below.
mod faults;
mod inner;
mod shapes;

pub use faults::{Blank, Fault, Wrapped};
pub use inner::deep;
pub use shapes::{Corner, Hidden as Shown, MOST, Shape, Sized, Turns, turned, turns_back};
""",
    "crates/lower/src/faults.rt": """
/// Why not.
pub enum Fault {
    /// 1: none.
    None,
    /// 2 and 3: by its number.
    Far(u64),
    Near { by: u64 },
    Unnumbered,
}

impl Fault {
    /// Its number.
    pub fn number(&self) -> u8
        ensures { result ≡ number_of self }
    {
        match self {
            Fault::None => 1,
            Self::Far(_) | Fault::Near { .. } => FAR,
            Fault::Unnumbered => 0,
        }
    }
}

/// Its own.
const FAR: u8 = 3;

/// One in another.
pub enum Wrapped {
    Below(Fault),
    Own,
}

impl From<Fault> for Wrapped {
    fn from(fault: Fault) -> Wrapped {
        Wrapped::Below(fault)
    }
}

impl Wrapped {
    pub fn number(&self) -> u8 {
        match self {
            Wrapped::Below(fault) => fault.number(),
            Wrapped::Own => 9,
        }
    }
}

/// It has no numbers.
pub enum Blank {
    Nothing,
}
""",
    "crates/lower/src/inner.rt": """
mod deepest;

pub use deepest::deep;
""",
    "crates/lower/src/inner/deepest.rt": """
/// As deep as it gets.
pub fn deep(rt: &mut Deeper) {}

/// Nobody outside can call it.
pub fn deeper() {}
""",
    "crates/lower/src/shapes.rt": """
use std::alloc::{AllocError, Global};

/// How many.
pub const MOST: usize = 8;

/// A shape with corners.
pub struct Shape<'a, L: Logic + Drop, const N: usize> {
    /// Its name.
    pub name: &'a [u8],
    corners: [L; N],
    ghost few: { 0 < N → N < 8 } by { few-prop N },
}

/// A pair.
pub struct Corner(pub u64, u64);

/// Named otherwise outside.
pub struct Hidden;

impl<'a, L: Logic + Drop, const N: usize> Shape<'a, L, N> {
    /// The shape of these corners.
    pub fn new(alloc: Global, corners: [L; N]) -> Result<Shape<'a, L, N>, Fault>
        requires few { N < 8 }
        ensures new { IfOk result (λ shape. shape.corners ≡ corners) }
    {
        Shape { name: "", corners }
    }

    /// What it may wait for.
    pub fn rest<C: Clock + Sync, W: Wire>(
        &mut self,
        clock: &C,
        mut wire: W,
    ) -> Result<(), (Wrapped, [u8; MOST])> {
        self.inside()
    }

    /// What it answers.
    pub fn has(&self, corner: u64) -> bool {
        self.has(corner)
    }

    pub(crate) fn inside(&self) {}
}

impl<'a, L: Logic + Drop, const N: usize> Turns<L> for Shape<'a, L, N> {
    fn turn(&mut self, by: u64) -> Option<L> {
        None
    }
}

/// What can be turned.
pub trait Turns<L>: Sized {
    /// By so much.
    fn turn(&mut self, by: u64) -> Option<L>
        ensures { turned self.old self.new by };

    /// How many turns fit into memory.
    fn turns(&self) -> Result<u64, AllocError>;
}

/// What is turned, by threads.
pub fn turned<R: Threads + AllocGlobal, F: FnOnce(u64) -> X, X>(rt: &R, by: F) -> X {
    by(1)
}

/// What is turned twice is as before.
pub fn turns_back()
    ensures { (n : ℕ) → turned (turned n) ≡ n }
{}
""",
    "crates/upper/src/lib.rt": """
mod bag;

pub use bag::Bag;
pub use lower::{Fault, Shape};
""",
    "crates/upper/src/bag.rt": """
use lower::{Corner, Shape, deep, turned};

/// A bag.
pub struct Bag {
    items: Vec<u64>,
}

impl Bag {
    /// Whether it has one.
    pub fn has(&self, item: u64) -> bool {
        self.items.contains(&item)
    }

    /// Rests.
    pub fn rest(&self, shape: &mut Shape<Model, 4>) {
        // shape.turns() isn't called, nor is it here:
        let mut other = Shape::new(alloc, corners)?;
        other.rest(clock, wire);
        deep(&mut other);
        shape.turn(turned(rt, corner));
        fault.number()
    }
}
""",
    "crates/program/src/main.rt": """
use upper::Bag;

fn main(rt: HostRuntime) {
    let bag = Bag::new();
    bag.rest(bag.has(3));
}
""",
    "crates/bench/src/main.rt": """
fn main() {}
""",
    "crates/for_tests/src/lib.rt": """
pub fn unsaid() {}
""",
    "crates/upper_tests/src/lib.rt": """
#[cfg(test)]
mod tests;
""",
    "crates/upper_tests/src/tests.rt": """
use upper::Bag;

fn used() {
    turns(3);
}
""",
}

SAID = """\
turned<R: Threads + AllocGlobal, F: FnOnce(u64) -> X, X>(rt: &R, by: F) -> X; memory, threads
enum Blank { Nothing }
enum Fault { None = 1, Far(u64) = 3, Near { by: u64 } = 3, Unnumbered = 0 }
    number(&self) -> u8
enum Wrapped { Below(Fault) = 0, 1, 3, Own = 9 }: From<Fault>
    number(&self) -> u8
deep(rt: &mut Deeper)
struct Corner(u64)
struct Shown
const MOST: usize = 8
struct Shape<L: Logic> { name: &[u8] }: Turns<L>
    new(alloc: Global, corners: [L; N]) -> Result<Shape<L>, Fault>; 0, 1, 3, memory
    rest<C: Clock, W: Wire>(&mut self, clock: &C, wire: W) -> Result<(), (Wrapped, [u8; MOST])>; 0, 1, 3, 9, waits
    has(&self, corner: u64) -> bool
trait Turns<L>: Sized
    turn(&mut self, by: u64) -> Option<L>
    turns(&self) -> Result<u64, AllocError>; memory
laws: turns_back
struct Bag
    has(&self, item: u64) -> bool
    rest(&self, shape: &mut Shape<Model, 4>)
of lower: Fault, Shape
""".splitlines()
UNSAID = ("deeper", "inside", "corners: [L; N] }", "few", "main", "used", "unsaid", "## program", "_tests")
NOBODYS = ["Shape::has", "Turns::turns"]

# What changes in a file, and what has to stand among the differences.
CHANGES: dict[str, tuple[str, str, str, list[str]]] = {
    "a call is renamed": ("shapes.rt", "pub fn rest<", "pub fn sleep<", ["-    rest<C", "+    sleep<C"]),
    "an argument comes": ("shapes.rt", "by: F)", "by: F, at: u64)", ["-turned<R", "+turned<R"]),
    "an answer changes": ("shapes.rt", "-> Option<L>\n        ensures", "-> L\n        ensures",
                          ["-    turn(&mut self, by: u64) -> Option<L>", "+    turn(&mut self, by: u64) -> L"]),
    "a number changes": ("faults.rt", "FAR: u8 = 3", "FAR: u8 = 4",
                         ["+enum Fault { None = 1, Far(u64) = 4", "+    new("]),
    "a call is hidden": ("shapes.rt", "pub fn new(", "pub(crate) fn new(", ["-    new("]),
    "a field is public": ("shapes.rt", "    corners: [L; N],\n", "    pub corners: [L; N],\n",
                          ["+struct Shape<L: Logic> { name: &[u8], corners: [L; N] }"]),
    "a module shows more, but the crate doesn't": ("inner.rt", "::deep;", "::{deep, deeper};", []),
}


def run(root: str, *words: str) -> tuple[str, int]:
    """What the script there prints, with its standard error, and its status."""
    return printed(f"{root}/dev/surface", *words)


def made(root: str) -> None:
    """Puts the crates and the scripts there."""
    for name in SCRIPTS:
        os.makedirs(os.path.dirname(f"{root}/{name}"), exist_ok=True)
        shutil.copy(f"{ROOT}/{name}", f"{root}/{name}")
    os.mkdir(f"{root}/docs")
    for name, text in FILES.items():
        put_text(f"{root}/{name}", text.lstrip())


def changed(root: str, name: str, old: str, new: str) -> None:
    change(f"{root}/crates/lower/src/{name}", old, new)


def told(check: Check, root: str) -> None:
    """The page, and who is called."""
    said, status = run(root)
    check.count("there is no docs/SURFACE.md" in said and status == 1, f"without a page: status {status}\n{said}")
    run(root, "--write")
    with open(f"{root}/docs/SURFACE.md", encoding="utf-8") as file:
        page = file.read()
    lines = page.splitlines()
    for line in SAID:
        check.count(line in lines, f"the page lacks: {line}")
    for text in UNSAID:
        check.count(text not in page.partition("## ")[2], f"the page has {text}")
    for words in ((), ("--unused",)):
        said, status = run(root, *words)
        names = re.findall(r"nobody calls (\S+),", said)
        check.count((names, status) == (NOBODYS, 1), f"called by nobody: {names}, status {status}\n{said}")
    check.count(said.endswith("\n10 passed, 2 failed\n"), said)


def main() -> None:
    if set(sys.argv[1:]) & {"-h", "--help"}:
        print(__doc__.strip())
        return
    check = Check()
    with tempfile.TemporaryDirectory() as root:
        made(root)
        told(check, root)
        for what, (name, old, new, parts) in CHANGES.items():
            changed(root, name, old, new)
            said, status = run(root)
            right = all(re.search(f"^{re.escape(part)}", said, re.M) for part in parts)
            check.count(right and status == 1, f"{what}: status {status}\n{said}")
            check.count(("writes the page anew" in said) == bool(parts), f"{what}\n{said}")
            changed(root, name, new, old)
    check.end()


if __name__ == "__main__":
    main()
