"""Compares the project with a commit: files as git tells them, functions by their texts, and definitions that clauses name. Not a script:
dev/edits imports this module.

The files of the work tree are compared with those of the commit, so that work counts which no commit has yet. A function or a definition
that stands in another file of its crate, with the same text as before, hasn't changed.
"""
import collections
import functools
import os
import subprocess
from collections.abc import Iterable, Iterator

import antt
import contracts
from below import Entry, crate_of, short
from bodies import Function, Texts, functions_of
from clauses import Sources
from crates import ROOT

HOURS = 6  # The commit before a landing is at least so much older than the newest commit: a landing consists of younger commits.


class GitFailed(Exception):
    """What git says where git fails."""


def said_by_git(*words: str) -> str:
    """Returns what git prints about the project's own repository, and about none around it. Raises GitFailed where git fails."""
    environment = {**os.environ, "GIT_CEILING_DIRECTORIES": os.path.dirname(ROOT)}
    try:
        ran = subprocess.run(["git", *words], cwd=ROOT, env=environment, stdin=subprocess.DEVNULL, capture_output=True, encoding="utf-8")
    except OSError as why:
        raise GitFailed(str(why)) from why
    if ran.returncode:
        raise GitFailed(ran.stderr.partition("\n")[0])
    return ran.stdout


def commit_named(name: str) -> str:
    """Returns the hash of the commit that has this name for git. Raises GitFailed where there is no such commit."""
    return said_by_git("rev-parse", "--verify", f"{name}^{{commit}}").strip()


def commit_before() -> str:
    """Returns the hash of the newest first-parent ancestor of HEAD that is at least HOURS older than HEAD, or of the oldest ancestor where
    none is as old. Raises GitFailed where the project has no history."""
    commits = [line.split() for line in said_by_git("rev-list", "--first-parent", "--timestamp", "HEAD").splitlines()]
    latest = int(commits[0][0]) - HOURS * 3_600
    return next((name for seconds, name in commits if int(seconds) <= latest), commits[-1][1])


class Pieces:
    """The texts of functions or definitions as they were, by file and name."""

    def __init__(self, pieces: Iterable[tuple[str, str, str]]) -> None:
        self.by_place: dict[tuple[str, str], set[str]] = collections.defaultdict(set)
        self.by_name: dict[str, set[str]] = collections.defaultdict(set)
        for file, name, text in pieces:
            self.by_place[file, name].add(text)
            self.by_name[name].add(text)

    def has(self, file: str, name: str, text: str) -> bool:
        """Whether what has this name in this file had this text; or in another file, where this file had nothing of this name."""
        return text in (self.by_place[file, name] or self.by_name[name])


class Changes:
    """What differs from a commit: nothing where no commit is given."""

    def __init__(self, commit: str) -> None:
        self.commit = commit
        self.paths = set[str]()  # The files that differ, that are new, and that are gone, from the project's folder.
        if commit:
            differing = said_by_git("diff", "--name-only", "--no-renames", "-z", commit, "--")
            untracked = said_by_git("ls-files", "--others", "--exclude-standard", "-z")
            self.paths = {path for path in (differing + untracked).split("\0") if path}

    def reasons(self, crate: str, function: Function, called: Iterable[Function]) -> Iterator[str]:
        """Says what has changed of a function and of what the function rests on: its text, the texts of the functions that it calls and of
        the trait's function whose clauses it keeps, its own proof, and the definitions that its clauses name."""
        promising = self.promising(f"{ROOT}/crates/{crate}/{function.file}", function.first)
        of_trait = (whole(self.sources, path, contract) for path, contract in promising[1:])
        callees = sorted(called, key=lambda callee: (callee.short, callee.file))
        for home, read in ((crate, function), *((crate, callee) for callee in callees), *of_trait):
            if self.is_changed(home, read):
                yield f"the text of {read.short}"
        if any(is_proof_of(path, crate, function) for path in self.paths):
            yield f"the proof of {function.short}"
        for path, contract in promising:
            for clause in contracts.own_clauses(self.sources.project.code[path], contract):
                cited = self.sources.said(path, contract, clause)[1]
                yield from (f"the definition {entry.name}" for entry in cited if self.is_definition_changed(entry))

    # Texts of then and now.

    def is_changed(self, crate: str, function: Function) -> bool:
        """Whether the text of a function of this crate differs from what it was."""
        differs = f"crates/{crate}/{function.file}" in self.paths
        return differs and not self.functions(crate).has(function.file, name_of(function), function.text)

    def is_definition_changed(self, entry: Entry) -> bool:
        """Whether the lines of a definition differ from what they were, apart from comments."""
        if short(entry.path) not in self.paths:
            return False
        crate, project = crate_of(entry.path), self.sources.project
        text = text_of(project.lines[entry.path], project.specs[entry.path][entry.name])
        return not self.definitions(crate).has(inside(entry.path), entry.name, text)

    @functools.cache
    def functions(self, crate: str) -> Pieces:
        """The functions as they were of the files of a crate that differ."""
        return Pieces((function.file, name_of(function), function.text) for function in functions_of(self.texts(crate, "src")))

    @functools.cache
    def definitions(self, crate: str) -> Pieces:
        """The definitions as they were of the files of a crate that differ."""
        texts = self.texts(crate, "specs")
        files = {file: [antt.COMMENT.sub("", line.rstrip()) for line in text.split("\n")] for file, text in texts.items()}
        return Pieces((file, definition.name, text_of(lines, definition))
                      for file, lines in files.items() for definition in antt.definitions(lines))

    def texts(self, crate: str, part: str) -> Texts:
        """Returns the texts of a crate's files that differ, as they were, by the files' paths in the crate: those of one part, as `src`."""
        folder, texts = f"crates/{crate}/", Texts()
        for path in sorted(self.paths):
            if path.startswith(f"{folder}{part}/"):
                try:
                    texts[path.removeprefix(folder)] = said_by_git("show", f"{self.commit}:{path}")
                except GitFailed:
                    pass  # (the commit has no such file)
        return texts

    # Clauses, as dev/clauses.py reads them.

    @functools.cached_property
    def sources(self) -> Sources:
        return Sources()

    def promising(self, path: str, line: int) -> list[tuple[str, contracts.Function]]:
        """Returns the function that begins on this line of a file, and behind it the trait's function whose clauses the first one keeps,
        each with its file; nothing where no file of a crate has changed."""
        if not any(changed.startswith("crates/") for changed in self.paths):
            return []
        found = [(path, function) for function in self.sources.project.functions.get(path, []) if function.line == line]
        for _, function in found[:1]:
            if function.block and function.block.type:
                found += [(home, kept) for home, kept in self.sources.of_trait(function.block.trait) if kept.name == function.name]
        return found


def whole(sources: Sources, path: str, function: contracts.Function) -> tuple[str, Function]:
    """Returns the crate of a function, and the function with its text."""
    functions = functions_of({inside(path): "\n".join(sources.project.code[path])})
    return crate_of(path), next(found for found in functions if found.first == function.line)


def is_proof_of(path: str, crate: str, function: Function) -> bool:
    """Whether a file belongs to the proof of this function alone: a file in a folder with the function's name, behind a plus where the
    function calls itself. The folder stands in that of the function's type, or in those of the modules where the function has no type."""
    proofs = f"crates/{crate}/proofs/"
    *above, folder = ["", *path.removeprefix(proofs).split("/")[:-1]]
    if not path.startswith(proofs) or folder.rpartition("+")[2] != function.name:
        return False
    return function.owner in above[-1] if function.owner else above[1:] == function.module


def name_of(function: Function) -> str:
    """Returns a function's name with that of its type, without its module: a function may move to another file."""
    return f"{function.owner}::{function.name}"


def text_of(lines: list[str], definition: antt.Definition) -> str:
    return "\n".join(lines[definition.first:definition.last])


def inside(path: str) -> str:
    """Returns the path of a crate's file from the crate's folder."""
    return os.path.relpath(path, f"{ROOT}/crates/{crate_of(path)}")
