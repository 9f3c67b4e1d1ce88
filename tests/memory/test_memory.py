"""The built program, calls of the library and the tests of memory_tests, with memory refused. refuse.c defines a
growth, and refuses it."""
from __future__ import annotations

import os
import subprocess
from collections import Counter
from dataclasses import dataclass
from itertools import count
from pathlib import Path

import pytest

from tests.cases.case_files import case_named
from tests.shared.commands import TOP, Ended, Say, Words, printed
from tests.shared.kept import Kept
from tests.shared.libraries import STRICT, kit, over_libraries

HERE = Path(__file__).parent
TESTS = TOP / "out" / "memory_tests"
SECONDS = 600
FAULT = b"fault,0,OutOfMemory\n"
# How a run ends with a growth refused: it wrote nothing, first lines and the fault's, or all, as with ample memory.
NOTHING, LINES, ALL = "without a line", "with one", "did no harm"


@dataclass(frozen=True)
class Run:
    """How a command ended, and how many growths were refused."""

    ended: Ended
    refused: int


class Refusing:
    """Runs commands with growths refused."""

    def __init__(self, library: str, work: Path) -> None:
        self.library, self.work = library, work

    def run(self, words: Words, given: bytes, **more: str) -> Run:
        """A run. A line for each growth that is refused is added to the file at descriptor 99. Output goes to files,
        since a program may ask for memory to write to a pipe."""
        out, err, refusals = (self.work / name for name in ("out", "err", "refusals"))
        with open(out, "wb") as to, open(err, "wb") as complaint, open(refusals, "wb") as log:
            os.dup2(log.fileno(), 99)
            try:
                environment = {**os.environ, "LD_PRELOAD": self.library, **more}
                done = subprocess.run(
                    words, input=given, stdout=to, stderr=complaint, env=environment, pass_fds=[99], timeout=SECONDS
                )
            finally:
                os.close(99)
        return Run(Ended(done.returncode, out.read_bytes(), err.read_bytes()), refusals.read_bytes().count(b"\n"))


@pytest.fixture
def refusing(kept: Kept, tmp_path: Path) -> Refusing:
    made = kept.folder / "refuse.so"
    words = ["cc", "-shared", "-fPIC", "-O1", "-o", str(made), str(HERE / "refuse.c")]
    kept(made.name, lambda: printed(words))
    return Refusing(str(made), tmp_path)


@dataclass(frozen=True)
class Ending:
    """The status and the complaint of a run."""

    status: int
    complaint: bytes


def written(output: bytes, whole: bytes) -> str:
    """What a run wrote: all, nothing, whole first lines and the fault's line, or something else."""
    if output == whole:
        return ALL
    if not output:
        return NOTHING
    lines = output.splitlines(keepends=True)
    first = whole.splitlines(keepends=True)[: len(lines) - 1]
    return LINES if lines == [*first, FAULT] else "badly"


def check_in_turn(
    refusing: Refusing, name: str, words: Words, ample: Ending, short: Ending, say: Say, **more: str
) -> None:
    """Runs a command on a worked example with each growth refused in turn, until it makes no more. It must end as with
    ample memory, or in the short way. While a program reads its words, a refused run writes nothing; from the first run
    that writes lines, all do."""
    case, many = case_named(name), Counter[str]()
    for number in count(1):
        run = refusing.run(words, case.given, REFUSE_GROWTH=str(number), **more)
        ending = Ending(run.ended.status, run.ended.complaint)
        wrote = written(run.ended.output, case.printed)
        if not run.refused:
            assert (ending, wrote) == (ample, ALL), f"growth {number} isn't asked for"
            break
        is_short = ending == short and (wrote == LINES or wrote == NOTHING and not many[LINES])
        assert is_short or (ending, wrote) == (ample, ALL), f"growth {number} refused: {ending}, {wrote}"
        many[wrote] += 1
    assert many[LINES]
    say("growths refused", f"{many.total()}: {', '.join(f'{it} {how}' for how, it in many.items())}")


@pytest.mark.parametrize("name", ["boards/three-chairs-half", "trace/reader-in-the-way", "serve/three-publications"])
def test_program(refusing: Refusing, program: Path, name: str, record_property: Say) -> None:
    # Catches: a run that ends in another way than docs/FORMATS.md says of out of memory.
    words = [str(program), *case_named(name).words]
    ample, short = Ending(0, b""), Ending(1, b"board: OutOfMemory\n")
    check_in_turn(refusing, name, words, ample, short, record_property)


@pytest.mark.parametrize("name", ["boards/three-chairs-half", "trace/reader-in-the-way"])
def test_library(refusing: Refusing, kept: Kept, name: str, record_property: Say) -> None:
    # Catches: a refused call that doesn't return OutOfMemory, with a prefix of the lines and that fault's line; after
    # which the same call differs from the one with ample memory; or that keeps memory.
    made = kept("memory-replay", lambda: over_libraries(HERE / "replay.c", kept.folder / "replay"))
    words = [made, *[it for it in case_named(name).words if it == "trace"]]
    ample, short = Ending(0, b"blocks kept: 0\n"), Ending(10, b"blocks kept: 0\n")
    check_in_turn(refusing, name, words, ample, short, record_property, COUNT_KEPT="1")


def memory_tests() -> list[str]:
    """The tests of memory_tests, which refuse growths themselves."""
    if not TESTS.is_file():
        return ["memory_tests, which make memory builds"]
    lines = printed([str(TESTS), "--list"]).decode().splitlines()
    return [it.removesuffix(": test") for it in lines if it.endswith(": test")]


@pytest.mark.parametrize("name", memory_tests())
def test_calls(refusing: Refusing, name: str, record_property: Say) -> None:
    # Catches: a test of memory_tests that fails, or that refuses nothing. Each asserts that the growths refused were
    # those of its calls.
    run = refusing.run([str(TESTS), name], b"")
    record_property("growths refused", run.refused)
    assert run.ended.status == 0 and run.refused, run


def test_assumed(tmp_path: Path, record_property: Say) -> None:
    # Catches: a function of C that doesn't do at its limits what the proof assumes of it.
    made = tmp_path / "assumed"
    archives = [f"{kit()}/c/libos_c.a", f"{kit()}/c/liblibc_c.a"]
    printed(["cc", *STRICT, "-O1", "-o", str(made), str(HERE / "assumed.c"), *archives])
    record_property("output", printed([str(made), "/dev/full"]).decode().strip())
