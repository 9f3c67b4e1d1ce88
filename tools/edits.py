#!/usr/bin/env python3
"""Tests the mutations of a crate, and keeps a record of those that the prover rejected:

    tools/edits.py FOLDER KEPT COMMAND..            tries all; if all are rejected, FOLDER/must-fail/tried.md says so
    tools/edits.py --draw N FOLDER KEPT COMMAND..   tries one of its lists, drawn by a hexadecimal number, and records
                                                    nothing
    tools/edits.py --untried                        the crates that have changed since theirs were tried
    tools/edits.py --tried                          fails for each of these

FOLDER is the crate's folder, KEPT holds the kept work of a check of it, or is none, and COMMAND runs such a check.
Prints for each mutation whether the prover rejects it, and last 'N passed, M failed'. A record has a hash of the
crate's code, definitions, proofs without their imports, and mutations, without comments, and not of the crates below
it. A mutation that is no longer rejected makes a test weaker, and no claim false, so the gate believes the record. (rt
must-fail takes any file but *.md for a mutation.)

A mutation (an edit, in this file) changes the code of a crate. Since a proof uses only the contracts of other
functions, mutations of different functions are tested in one check, and each is rejected if its own function isn't
proved, for another reason than a missing name. If one check doesn't decide a mutation in this way, it is tested
alone."""
from __future__ import annotations

import hashlib
import os
import re
import shutil
import subprocess
import sys
import tempfile
from collections.abc import Callable, Sequence
from concurrent.futures import ThreadPoolExecutor
from dataclasses import dataclass, field
from functools import partial
from pathlib import Path

# The prover's errors for a proof that cites a name which the mutation removed: they show nothing about the contract.
NAMES = re.compile(
    r"has no field|is not in scope|has no `|was not admitted|that depends on `[^`]*`, which was rejected"
)
# The greatest length of a reason that is printed.
SHOWN = 160
# Lines that say nothing of what is proved, and lines of a proof that import a name or declare a module.
COMMENT = re.compile(rb"\s*(?:(?://|--).*)?$")
IMPORT = re.compile(rb"\s*(?:pub )?(?:use|mod) .*$")
# The folders of a crate that the prover reads.
READ = ["src", "specs", "proofs"]
TOP = Path(__file__).resolve().parent.parent
TOOLCHAIN = re.compile(r"(rattle-kit-\d+)[a-z]? (logic [0-9a-f]+)")

Function = tuple[str, str]


class BadEdit(Exception):
    """A mutation that can't be applied."""


@dataclass
class Edit:
    """A mutation: its name, the texts of the changed files, and the changed functions, each with its file; None if a
    change is in no function."""

    crate: str
    name: str
    texts: dict[str, str] = field(default_factory=dict)
    functions: set[Function] | None = field(default_factory=lambda: set[Function]())

    def change(self, folder: Path, path: str | None, old: str | None, new: str) -> None:
        """Replaces a text, which occurs once in a file, by another: one line for one line."""
        if not path or not old or not (folder / path).is_file():
            raise BadEdit(f"{self.crate}/{self.name}: a new text without an old one, or without a file")
        text = self.texts.get(path) or (folder / path).read_text()
        if text.count(old) != 1:
            raise BadEdit(
                f"{self.crate}/{self.name}: the old text stands in {path} {text.count(old)} times, and not once"
            )
        self.texts[path] = text.replace(old, new)
        function = function_at(text, text.index(old) + len(old)) if path.startswith("src/") else None
        self.functions = None if function is None or self.functions is None else {*self.functions, (path, function)}


Check = Callable[[list[Edit]], tuple[int, str]]


def function_at(text: str, at: int) -> str | None:
    """The name of the function whose body contains a place of a formatted file, if any."""
    found = [*re.finditer(r"^( *)(?:[a-z]+(?:\([a-z]+\)| \"C\")? )*fn (\w+)", text[:at], re.MULTILINE)]
    if not found:
        return None
    last = found[-1]
    return None if f"\n{last[1]}}}" in text[last.start() : at] else last[2]


def read(folder: Path) -> list[Edit]:
    """The mutations of a crate's folder."""
    return [read_one(folder, file) for file in sorted((folder / "must-fail").glob("*.edit"))]


def read_one(folder: Path, file: Path) -> Edit:
    edit = Edit(folder.name, file.stem)
    path: str | None = None
    old: str | None = None
    for line in file.read_text().splitlines():
        if line.startswith("file: "):
            path = line.removeprefix("file: ").strip()
        elif line.startswith("old: "):
            old = line.removeprefix("old: ")
        elif line.startswith("new:"):
            edit.change(folder, path, old, line.removeprefix("new:").removeprefix(" "))
            old = None
    if not edit.texts:
        raise BadEdit(f"{edit.crate}/{edit.name}: it changes nothing")
    return edit


def together(edits: list[Edit]) -> list[list[Edit]]:
    """Lists of mutations to test in one check: those of one list change different functions."""
    lists: list[list[Edit]] = []
    taken: list[set[Function]] = []
    for edit in edits:
        own = edit.functions or set()
        at = next((at for at, functions in enumerate(taken) if own and functions and not own & functions), None)
        if at is None:
            lists.append([edit])
            taken.append(own)
        else:
            lists[at].append(edit)
            taken[at] = taken[at] | own
    return lists


def apply(edits: list[Edit], folder: Path) -> None:
    """Applies mutations to a copy of their crate: no two change the same line."""
    for path in {path for edit in edits for path in edit.texts}:
        was = (folder / path).read_text().split("\n")
        lines = list(was)
        for edit in (it for it in edits if path in it.texts):
            for at, line in enumerate(edit.texts[path].split("\n")):
                if line != was[at]:
                    lines[at] = line
        (folder / path).write_text("\n".join(lines))


def path_of(function: Function, crate: str) -> tuple[list[str], str]:
    """The prover's path for a function of a file: the module's path, and the function's name."""
    file, name = function
    module = [it for it in re.sub(r"^src/|\.rt$", "", file).split("/") if it not in ("lib", "main", "mod")]
    return [crate, *module], name


def not_proved(said: str) -> dict[str, str | None]:
    """The functions that failed by themselves, by their paths, each with a reason, or None if only names are missing.

    A function that only calls one that isn't proved is not included."""
    found: dict[str, str | None] = {}
    for path, what in re.findall(r"^fn (\S+): (.*)$", said, re.MULTILINE):
        of_search = re.search(r"`search` did not prove .*?(?=;|$)", what)
        folder = re.escape(f"./proofs/{'/'.join(path.split('::')[1:])}/")
        told = re.findall(rf"^{folder}\w+\.antt:\S+ error: .*$", said, re.MULTILINE)
        real = [it for it in told if not NAMES.search(it)]
        if real or of_search:
            found[path] = (real[0] if real else of_search[0] if of_search else "")[:SHOWN]
        elif what.startswith("not proved"):
            found[path] = None
    return found


def is_of(path: str, function: Function, crate: str) -> bool:
    """Whether the prover's path is that of a function of a file, or of something inside it."""
    module, name = path_of(function, crate)
    words = path.split("::")
    return words[: len(module)] == module and name in words[len(module) :]


def is_refused(status: int, said: str) -> bool:
    """Whether the prover reached the verdict that the crate isn't proved."""
    return status == 1 and re.search(r"^logic=not-proved", said, re.MULTILINE) is not None


def reasons(edits: list[Edit], status: int, said: str) -> dict[str, str]:
    """Why mutations were rejected in one check, by name, as far as the check decides that.

    If a function that none of them changes isn't proved either, nothing is decided."""
    failed = not_proved(said) if is_refused(status, said) else {}
    by = {
        path: edit.name
        for path in failed
        for edit in edits
        if any(is_of(path, it, edit.crate) for it in edit.functions or ())
    }
    return {by[path]: why for path, why in failed.items() if why} if by.keys() == failed.keys() else {}


def reason_alone(status: int, said: str) -> str | None:
    """Why a mutation tested alone was rejected, or None if it wasn't, or if only names are missing."""
    told: list[str] = re.findall(r"^\S+:\d+:\d+: error.*$|^fn .*`search` did not prove.*$", said, re.MULTILINE)
    return next((it[:SHOWN] for it in told if is_refused(status, said) and not NAMES.search(it)), None)


def tried(edits: list[Edit], check: Check) -> list[tuple[Edit, str | None]]:
    """Tests mutations: returns each with the reason for its rejection, or None if it wasn't rejected. `check` returns
    the prover's status and output."""
    why = reasons(edits, *check(edits)) if len(edits) > 1 else dict[str, str]()
    return [(edit, why.get(edit.name) or reason_alone(*check([edit]))) for edit in edits]


def link(source: str, target: str) -> None:
    """Links a file of kept work, which the prover replaces and never writes into; its notes are copied."""
    if source.endswith(".oantt"):
        os.link(source, target)
    else:
        shutil.copy2(source, target)


def check_edited(folder: Path, kept: Path | None, command: Sequence[str], edits: list[Edit]) -> tuple[int, str]:
    """Checks a crate with mutations applied, over a copy of its kept work, if there is any: the prover's status and
    output."""
    with tempfile.TemporaryDirectory(prefix="edits-", dir=kept.parent if kept else None) as place:
        for part in (it for it in READ if (folder / it).is_dir()):
            shutil.copytree(folder / part, Path(place, part))
        apply(edits, Path(place))
        words = [*command, "--jobs", "1"]
        if kept:
            own = shutil.copytree(kept, Path(place, "kept"), copy_function=link)
            words += ["--incremental", str(own)]
        ran = subprocess.run(
            words, cwd=place, capture_output=True, text=True, errors="replace", stdin=subprocess.DEVNULL
        )
        return ran.returncode, ran.stderr + ran.stdout


def content(path: Path, is_proof: bool) -> bytes:
    """What a record has of a file: no comment, and of a proof no line that imports a name or declares a module."""
    lines = path.read_bytes().split(b"\n")
    return b"\n".join(it for it in lines if not COMMENT.match(it) and not (is_proof and IMPORT.match(it)))


def record(folder: Path, toolchain: str) -> str:
    """What is on record of a crate whose mutations were all rejected."""
    files = [it for part in READ for it in (folder / part).rglob("*") if it.is_file()]
    edits = [*(folder / "must-fail").glob("*.edit")]
    made = hashlib.sha256()
    for path in sorted([*files, *edits]):
        text = content(path, path.is_relative_to(folder / "proofs"))
        made.update(f"{path.relative_to(folder)} {len(text)}\n".encode() + text if text else b"")
    kit, logic = TOOLCHAIN.findall(toolchain)[0]
    return f"{made.hexdigest()}\n{len(edits)} mutations are refused by {kit} {logic}\n"


def compare(says: bool) -> int:
    """Compares the records of all crates, with the toolchain that README.md names, and prints each crate, or the names
    of those that were changed: returns the exit status."""
    toolchain, failed = (TOP / "README.md").read_text(), 0
    crates = sorted(it.parent for it in TOP.glob("crates/*/must-fail"))
    for folder in crates:
        file, wanted = folder / "must-fail" / "tried.md", record(folder, toolchain)
        is_tried = file.exists() and file.read_text() == wanted
        failed += not is_tried
        if says:
            why = wanted.splitlines()[1] if is_tried else "CHANGED SINCE IT WAS TRIED: make edits tries it"
            print(f"{folder.name}: {why}")
        elif not is_tried:
            print(folder.name)
    if says:
        print(f"{len(crates) - failed} passed, {failed} failed")
    return 1 if says and failed else 0


def main(folder: str, kept: str, *command: str, draw: int | None = None) -> int:
    """Tests a crate's mutations, several lists in parallel: returns the exit status."""
    passed = failed = 0
    lists = together(read(Path(folder)))
    drawn = lists if draw is None else [lists[draw % len(lists)]]
    check = partial(check_edited, Path(folder), None if kept == "none" else Path(kept), command)
    before = record(Path(folder), Path(command[0]).parents[1].joinpath("KIT-ID").read_text())
    with ThreadPoolExecutor(max(1, len(os.sched_getaffinity(0)) // 2)) as pool:
        for results in pool.map(partial(tried, check=check), drawn):
            for edit, why in results:
                said = f"is refused: {why}" if why else f"IS NOT REFUSED: rt must-fail {edit.crate} says more"
                print(f"{edit.crate}/{edit.name} {said}", flush=True)
                passed, failed = passed + (why is not None), failed + (why is None)
    if draw is None and not failed:
        (Path(folder) / "must-fail" / "tried.md").write_text(before)
    print(f"{passed} passed, {failed} failed")
    return 1 if failed else 0


if __name__ == "__main__":
    words = sys.argv[1:]
    try:
        if words in (["--tried"], ["--untried"]):
            sys.exit(compare(words == ["--tried"]))
        draw = int(words[1], 16) if words[0] == "--draw" else None
        sys.exit(main(*words[0 if draw is None else 2 :], draw=draw))
    except BadEdit as why:
        print(f"an edit that can't be applied: {why}\n0 passed, 1 failed")
        sys.exit(1)
