"""What is promised: README.md lists it, and promised.txt names each promise.

The expected texts aren't the program's own: where the reader of tests/independent, which was written from
docs/FORMATS.md and docs/DEFINITIONS.md alone, computes a text, it must be the expected one. The worked cases that the
list names are run on the program by tests/cases, and the programs and files of packages by their own checks."""
from __future__ import annotations

import json
import re
import shutil
import sys
from collections.abc import Iterator
from dataclasses import dataclass
from fractions import Fraction
from hashlib import sha256
from pathlib import Path
from typing import Any

import pytest

from tests.cases.case_files import Case
from tests.independent.counts import CLAUSES, TooLarge
from tests.independent.inputs import Input
from tests.independent.register import Sheet
from tests.independent.runs import answer, reading
from tests.independent.test_independent import ran_by
from tests.promises.check import of_program, of_reader, wrong_in
from tests.promises.compare import difference
from tests.promises.promised import HERE, broken, found, listed_cases, own_cases, written
from tests.shared.commands import TOP, Words, ended, printed
from tests.shared.kept import Kept
from tests.shared.libraries import C_FILE, STRICT, TEXTS, native
from tests.shared.statuses import faults

OWN, LISTED = own_cases(), listed_cases()
NAMES = [it.name for it in [*OWN, *LISTED]]
# The one board that the reader can't count.
LARGE = "boards/twenty-four-chairs"
STUDIES = sorted((HERE / "studies").glob("*.study.json"))
PROGRAMS = sorted((HERE / "c").glob("*.c"))
LONGEST = 4_194_304
# What the program says of an input or an output that fails, by docs/FORMATS.md.
DEVICES = {
    "a-folder-can't-be-read": (Input(None), b"fault,0,ReadFault\n", b"board: ReadFault\n", 1),
    "a-full-disk": (Input(b"member,votes\nscript\nopen,1\n", output="full"), b"", b"board: WriteFault\n", 1),
    "an-ended-reader": (Input(b"member,votes\nscript\nopen,1\n", output="ended"), b"", b"board: WriteFault\n", 1),
    "a-full-disk-where-nothing-is-printed": (Input(b"member,votes\nscript\n", output="full"), b"", b"", 0),
    "the-longest-input": (Input(b"member,votes\nscript\n".ljust(LONGEST, b"\n")), b"", b"", 0),
    "a-byte-more": (
        Input(b"member,votes\nscript\n".ljust(LONGEST + 1, b"\n")), b"fault,0,TooLong\n", b"board: TooLong\n", 1,
    ),
}  # fmt: skip


def test_list() -> None:
    # Catches: a promise that has changed or gone without a line that says so, or a file that the list doesn't name.
    assert not broken(), f"{broken()}: tests/promises/README.md says what that asks for"
    new = [name for name in found() if name not in written()]
    assert not new, f"tests/promises/promised.py adds to the list: {new}"


def test_changed(tmp_path: Path) -> None:
    # Catches: a list that is written again though a promise has changed or gone, and the version says nothing of it.
    for name in ("cases", "independent", "promises"):
        shutil.copytree(TOP / "tests" / name, tmp_path / "tests" / name)
    changes, promises = tmp_path / "CHANGELOG.md", tmp_path / "tests" / "promises"
    words = [str(promises / "promised.py")]
    lines = promises / "replay-prints.txt"
    lines.write_text(lines.read_text().replace("> reading,3,8,half,3,9,", "> reading,3,8,half,3,10,"))
    (promises / "tables" / "strict-since-0.10.0.csv").unlink()
    for version, status in {"1.0.1": 1, "1.1.0": 1, "2.0.0": 0}.items():
        changes.write_text(f"## {version}, 2027-01-01\n\n## 1.0.0, 2026-11-30\n")
        done = ended(words)
        assert done.status == status, done.complaint
        assert (b"replay-prints/every-column-of-a-reading has changed" in done.output) == (status == 1)
        assert (b"strict-since-0.10.0.csv has gone" in done.output) == (status == 1)
    assert "\n2.0.0 " in (promises / "promised.txt").read_text()


@pytest.mark.parametrize("case", OWN, ids=NAMES[: len(OWN)])
def test_program(case: Case, program: Path) -> None:
    # Catches: a line, a fault or a status of the program that is no longer what was promised.
    assert not wrong_in(case, of_program(case, program))


@pytest.mark.parametrize("case", [*OWN, *LISTED], ids=NAMES)
def test_reader(case: Case) -> None:
    # Catches: an expected text that was taken from the program, and isn't what the documents say.
    try:
        said = of_reader(case)
    except TooLarge:
        assert case.name == LARGE
        return
    assert not wrong_in(case, said)


def test_check(program: Path) -> None:
    # Catches: a check that passes whatever a program prints.
    words = [sys.executable, str(HERE / "check.py")]
    assert ended([*words, str(program)]).output == b"%d passed, 0 failed\n" % (2 * len(OWN))
    silent = sum(not it.printed and not it.complained and not it.status for it in OWN)
    done = ended([*words, "/bin/true"])
    assert done.output.endswith(b"\n%d passed, %d failed\n" % (len(OWN) + silent, len(OWN) - silent)) and done.status


@pytest.mark.deep("the reader counts all boards but this one, which another count of 2^24 coalitions takes")
def test_recount(tmp_path: Path) -> None:
    # Catches: swings of the one board that the reader can't count.
    [case] = [it for it in LISTED if it.name == LARGE]
    (tmp_path / "input.csv").write_bytes(case.given)
    recount = str(TOP / "bindings" / "python" / "commands" / "board-recount")
    assert b"all swings agree" in printed([sys.executable, recount, str(tmp_path / "input.csv")])


@pytest.mark.parametrize("name", DEVICES)
def test_device(name: str, program: Path) -> None:
    # Catches: another fault, or another end, where a device fails or an input is too long.
    given, *wanted = DEVICES[name]
    made = ran_by(program, given)
    assert [made.printed, made.reason, made.status] == wanted
    assert made == answer(given.words, given.given, given.output == "taken")


def test_statuses(program: Path) -> None:
    # Catches: another end than that of all commands where nothing can be printed or read.
    found = faults([str(program), "replay"], (TOP / "examples" / "three-chairs.csv").read_bytes())
    assert not any(found.values()), found


@pytest.mark.parametrize("words", [["--help"], ["-h"], ["help"], ["replay", "--help"], ["trace", "-h"]])
def test_help(words: Words, program: Path) -> None:
    # Catches: a help on standard error, or with another status.
    done = ended([str(program), *words])
    assert done.output and (done.status, done.complaint) == (0, b"")


@pytest.mark.parametrize("word", ["--version", "-V"])
def test_version(word: str, program: Path) -> None:
    # Catches: a version in another form than `board NUMBER (..)`, which scripts cut.
    done = ended([str(program), word])
    assert re.fullmatch(rb"board \d+\.\d+\.\d+ \([^\n]+\)\n", done.output)
    assert (done.status, done.complaint) == (0, b"")


@pytest.mark.parametrize("source", PROGRAMS, ids=[it.name for it in PROGRAMS])
def test_c(source: Path, kept: Kept, tmp_path: Path) -> None:
    # Catches: a program of a user that no longer compiles over board.h without a warning, or prints something else.
    libraries, more = native(), TEXTS
    if libraries == [str(C_FILE)]:
        made = tmp_path.parent / "promised_board.o"
        kept("promised_board", lambda: printed(["cc", "-O0", "-c", str(C_FILE), "-o", str(made)]))
        libraries, more = [str(made)], []
    printed(["cc", *STRICT, *more, str(source), *libraries, "-o", str(tmp_path / "it")])
    assert not difference(source.with_suffix(".txt").read_bytes(), printed([str(tmp_path / "it")]))


def test_numbers_of_refusals() -> None:
    # Catches: a number of a refusal in board.h that isn't the one of docs/FORMATS.md.
    names = dict(re.findall(r"^\| (\d+) \| (\w+) \|", (TOP / "docs" / "FORMATS.md").read_text(), re.MULTILINE))
    lines = (HERE / "c" / "numbers-and-places.txt").read_text()
    block = lines.partition("BOARD_CHAIR_OPEN 1\n")[2].partition("BOARD_TRAPPED")[0]
    given = {number: name.replace("_", "").lower() for name, number in re.findall(r"BOARD_(\w+) (\d+)\n", block)}
    assert len(given) > 25 and all(names[number].lower() == name for number, name in given.items())


# What c/every-call counts: its words for it, the weights by chair, the total and the majority.
COUNTED = [
    *((majority, {1: 50, 2: 49, 3: 1}, 100, majority) for majority in CLAUSES),
    ("members", {1: 50, 2: 40, 9: 0}, 97, "half"),
    ("now", {1: 50, 2: 49, 3: 0}, 102, "half"),
    ("published", {1: 50, 2: 49, 3: 3}, 102, "quorum"),
    ("of the sheet", {1: 50, 2: 49, 3: 0}, 102, "70"),
    ("by all", {1: 50, 2: 49, 3: 0}, 102, "85"),
    ("by all of the register", {1: 50, 2: 49, 3: 0}, 102, "quorum"),
]


def least_size(chairs: int, majority: str) -> int:
    """The least number of chairs that can win: more than half of them for the quorum, and else none is asked for."""
    return chairs // 2 + 1 if majority == "quorum" else 0


@pytest.mark.parametrize("what, weights, total, majority", COUNTED, ids=[it[0] for it in COUNTED])
def test_c_counts(what: str, weights: dict[int, int], total: int, majority: str) -> None:
    # Catches: counts in a text for C that aren't those of the definitions.
    head, *rows = reading(1, Sheet(0, total, weights), majority)
    _, _, _, _, chairs, quota, cast, _, winning, coalitions = head.split(",")
    size = least_size(int(chairs), majority)
    lines = [f"{what}: done", f"  {quota} and {size} of {total}, {cast} cast, {winning} of {coalitions} win"]
    for _, chair, weight, swings, *_ in (row.split(",") for row in rows):
        lines.append(f"  chair {chair}: weight {weight}, {swings} swings")
    assert "\n".join(["", *lines, ""]) in (HERE / "c" / "every-call.txt").read_text()


def test_c_texts() -> None:
    # Catches: a replay or a trace in a text for C that isn't the one that the documents say.
    source, text = ((HERE / "c" / f"every-call.{it}").read_text() for it in ("c", "txt"))
    for name, command in {"input": "replay", "schedule": "trace"}.items():
        [given] = re.findall(rf'char {name}\[\] =\s+"(.*)";', source)
        lines = answer((command,), given.replace("\\n", "\n").encode(), True).printed.decode()
        assert f", whole\n{lines}" in text


@dataclass(frozen=True)
class Board:
    """A board in the text that the packages print: its chairs by number with names and weights, and the total."""

    chairs: dict[int, tuple[str, int]]
    total: int
    majorities: tuple[str, ...] = ("half",)

    def lines(self) -> Iterator[str]:
        """The lines of the board as the packages print them, with the reader's numbers."""
        for majority in self.majorities:
            sheet = Sheet(0, self.total, {chair: weight for chair, (_, weight) in self.chairs.items()})
            head, *rows = reading(1, sheet, majority)
            _, _, _, _, chairs, quota, cast, total, winning, coalitions = head.split(",")
            size = least_size(int(chairs), majority)
            yield f"{majority}: {quota} and {size} of {total}, {cast} cast"
            yield f"  {winning} of {coalitions} win"
            for _, chair, weight, swings, *fractions in (row.split(",") for row in rows):
                least = [it if it == "-" else str(Fraction(it)) for it in fractions]
                yield f"  {chair} {self.chairs[int(chair)][0]} {weight} {swings} {' '.join(least)}"


THREE = {1: ("North", 50), 2: ("South", 49), 3: ("East", 1)}
BOARDS = [
    Board(THREE, 100, tuple(CLAUSES)),
    Board(THREE, 1000, ("85",)),
    Board({1: ("North", 50), 2: ("South", 40)}, 97),
    Board({1: ("North", 67), 2: ("South", 40), 3: ("East", 0)}, 107),
    Board({1: ("North", 60), 2: ("West", 40), 3: ("East", 7)}, 108),
]


def test_packages_text() -> None:
    # Catches: a text, the same for all packages, whose numbers aren't those of the definitions.
    text = (HERE / "packages" / "printed.txt").read_text()
    for board in BOARDS:
        block = "\n".join([*board.lines(), ""])
        assert block in text
        text = text.partition(block)[2]
    script = text.partition("accepted,1\n")[0].encode()
    lines = answer(("replay",), script, True).printed.splitlines()
    assert lines == [b"accepted,%d" % it for it in range(1, 11)] + [b"published,10"]
    assert answer(("replay",), (HERE / "packages" / "replayed.csv").read_bytes(), True).printed.decode() in text


def parts_of(text: str) -> dict[str, list[str]]:
    """The lines of a study's text by their headings."""
    parts = re.split(r"^(base|scenario .*|sweep .*)\n", text, flags=re.MULTILINE)
    return {head: body.splitlines() for head, body in zip(parts[1::2], parts[2::2])}


def page_script(text: str, data: Any) -> bytes:
    """The script of a study that the page saved: its base, the readings, its changes, and the readings again."""
    parts, reads = parts_of(text), ["publish", *(f"read,1,{it}" for it in data["view"]["majorities"])]
    return "\n".join([*parts["base"], *reads, *parts["scenario changed"], *reads, ""]).encode()


@pytest.mark.parametrize("file", STUDIES, ids=[it.name for it in STUDIES])
def test_study(file: Path, program: Path) -> None:
    # Catches: a text of a saved study that isn't what the version that saved it took it for; lines of its script that
    # are no longer those that it was saved with.
    data = json.loads(file.read_text())
    text = file.with_name(file.name.replace(".study.json", ".txt")).read_text()
    parts = parts_of(text)
    bases = [[*parts["base"], *records] for head, records in parts.items() if head.startswith("scenario ")]
    for lines in bases:
        given = ("\n".join([*lines, "publish", "read,1,half", ""])).encode()
        said = answer(("replay",), given, True)
        assert b"refused" not in said.printed and said == ran_by(program, Input(given))
    if file.name.startswith("page-"):
        script = page_script(text, data)
        sums = dict(re.findall(r"^(script|lines) sha256 (\w+)$", "\n".join(data["provenance"]), re.MULTILINE))
        lines_sum = sha256(answer(("replay",), script, True).printed).hexdigest()
        assert {"script": sha256(script).hexdigest(), "lines": lines_sum} == sums


def test_compare(tmp_path: Path) -> None:
    # Catches: a comparison that passes whatever is printed, or that doesn't show the first line that differs.
    (tmp_path / "it").write_bytes(b"one\ntwo\n")
    words = [sys.executable, str(HERE / "compare.py"), str(tmp_path / "it")]
    assert ended(words, b"one\ntwo\n").status == 0
    for given, shown in {b"one\n": "no line", b"one\nTwo\n": r"'Two\n'", b"one\r\ntwo\n": r"'one\r\n'"}.items():
        done = ended(words, given)
        assert done.status == 1 and f"and is {shown}" in done.output.decode()
