"""Changes planted in compiled code, each of which tools/steps must refuse.

They are made in the text of the LLVM module of memory_tests, cut down to the functions that some calls need, and of the
program's main."""
from __future__ import annotations

import re
from collections.abc import Callable
from pathlib import Path
from typing import Any

import pytest

from tests.shared.commands import TOP, ended, tool

TOOL, TABLE = TOP / "tools" / "steps", TOP / "tools" / "steps.txt"
MODULE, PROGRAM = TOP / "out" / "memory_tests.bc", TOP / "out" / "board.bc"
steps = tool("steps")

Calls = tuple[str, ...]
Change = Callable[[str], str]

# The calls of the running board, of `serve`, and the one that makes an evaluator.
BOARD = (
    "board_share::opening::start",
    "board_share::readers::Reader::read",
    "board_share::readers::Reader::step",
    "board_share::writers::Writer::publish",
    "board_share::writers::Writer::submit",
)
SERVE, MAKE = ("board_serve::serving::serve",), ("power_index::evaluator::Evaluator::new",)
LOAD = "load atomic i64, ptr %a0 seq_cst, align 8"
AT = "ptr inttoptr (i64 8 to ptr)"


def line_with(body: str, text: str) -> str:
    """The one line of a function with a text."""
    [line] = [line for line in body.split("\n") if text in line]
    return line


def again(text: str) -> Change:
    """Adds the one line with a text a second time."""

    def change(body: str) -> str:
        line = line_with(body, text)
        return body.replace(line, f"{line}\n{re.sub(r'^  %[^ ]+ = ', '  %again = ', line)}")

    return change


def first(line: str) -> Change:
    """Adds an instruction before all others."""
    return lambda body: body.replace(":\n", f":\n  {line}\n", 1)


def other(old: str, new: str) -> Change:
    """Replaces a text, which occurs once."""

    def change(body: str) -> str:
        if body.count(old) != 1:
            raise AssertionError(f"{old} occurs {body.count(old)} times")
        return body.replace(old, new)

    return change


class Planted:
    """The module of memory_tests, with changes."""

    def __init__(self) -> None:
        self.module: Any = steps.Module.of_file(MODULE, steps.clang())
        self.table = TABLE.read_text().splitlines()
        self.parts = {calls: self.module.part(*self.named(*calls)) for calls in (BOARD, SERVE, MAKE)}

    def named(self, *names: str) -> list[str]:
        """The functions with some names, which the table has without types."""
        found = [it for it in self.module.functions if steps.untyped(it) in names]
        assert len(found) == len(names), f"{len(found)} functions instead of {len(names)}: {found}"
        return found

    def text(self, calls: Calls, function: str = "", change: Change | None = None) -> str:
        """The text of what some calls need, with a change in one function."""
        text: str = self.parts[calls]
        if change:
            [name] = self.named(function)
            body = self.module.functions[name].text.partition("\n")[2]
            assert text.count(body) == 1 and change(body) != body
            text = text.replace(body, change(body))
        return text

    def refused(self, calls: Calls, function: str = "", change: Change | None = None) -> set[str]:
        """The parts that a text isn't in line with the table in."""
        module = steps.Module(self.text(calls, function, change))
        lines = [line for part in steps.PARTS for line in steps.lines_of(part, [module])]
        absent = ": in none of the modules"
        return {line.split()[0] for line in lines if line not in self.table and not line.endswith(absent)}


@pytest.fixture(scope="module")
def planted() -> Planted:
    assert MODULE.is_file(), f"{MODULE} isn't here: make steps-tests builds it"
    return Planted()


READ, LOADS = "board_share::reader_steps::read_all", "core::raw_atomic::load"
SUBMIT, OUTPUT = "board_share::writers::Writer::submit", "board_text::output::Output::new"
SHEET_WORD = "council_core::registers::Register::sheet_word"
PIN = '%planted = call i64 @"two_copy_steps::table::pin"(i8 1)'
OWN = [f"%planted = load atomic i64, {AT} seq_cst, align 8", "fence seq_cst", "call void %a0()"]
OWN += ['call void asm sideeffect "pause", ""()']
GROWS = "%planted = call { i64, i64 } @rattle_alloc(i64 8, i64 8)"


@pytest.mark.parametrize("calls", [BOARD, SERVE, MAKE])
def test_nothing_planted(planted: Planted, calls: Calls) -> None:
    # Catches: a table that isn't that of the compiled code.
    assert planted.refused(calls) == set()


@pytest.mark.parametrize("line", ["%planted = add i64 1, 1", PIN, 'call void asm sideeffect "", "~{memory}"()'])
def test_what_takes_no_step(planted: Planted, line: str) -> None:
    # Catches: a change without a step that is refused.
    assert planted.refused(BOARD, READ, first(line)) == set()


@pytest.mark.parametrize(
    "calls, function, change, parts",
    [
        pytest.param(BOARD, READ, again("reader_steps::load_side"), "steps order", id="a step more: side"),
        pytest.param(
            BOARD, "board_share::reader_steps::arrive", again("Shared::store"), "steps order", id="a step more: store"
        ),
        pytest.param(
            BOARD, "board_share::reader_steps::load_word", again("Shared::load"), "steps order", id="a step more: load"
        ),
        pytest.param(BOARD, READ, other(", 34\n", ", 35\n"), "order", id="one more round with the same calls"),
        pytest.param(
            BOARD,
            "board_share::writer_steps::see_all",
            again("writer_steps::load_pin"),
            "steps order",
            id="a second look at a pin",
        ),
        pytest.param(
            BOARD, "board_share::opening::build_board", again("Table::of_words"), "steps", id="a second table"
        ),
        pytest.param(
            BOARD,
            LOADS,
            other(LOAD, "atomicrmw add ptr %a0, i64 0 seq_cst, align 8"),
            "instructions order",
            id="an addition of zero in the place of a load",
        ),
        pytest.param(BOARD, LOADS, other("seq_cst", "acquire"), "instructions", id="a weaker order"),
        pytest.param(
            BOARD,
            "board_share::reader_steps::leave",
            first("%planted = call i32 @sched_yield()"),
            "system",
            id="a system call while reading",
        ),
        pytest.param(
            MAKE,
            "half_sums::ordered::OrderedSums::new",
            lambda body: body.replace("65536", "131072"),
            "size",
            id="more room",
        ),
        pytest.param(SERVE, SERVE[0], again("Output::new"), "writes", id="a second output"),
        pytest.param(
            SERVE,
            SERVE[0],
            first(f"%planted = call i64 @write(i32 1, {AT}, i64 1)"),
            "writes foreign",
            id="a write past it",
        ),
        pytest.param(BOARD, READ, first(f"%planted = load i64, {AT}, align 8"), "plain", id="a plain load"),
        pytest.param(BOARD, READ, first(f"store i64 1, {AT}, align 8"), "plain", id="a plain store"),
        pytest.param(
            SERVE, SERVE[0], first("%planted = call i64 @rattle_env(i64 8)"), "foreign", id="a look at the environment"
        ),
        pytest.param(
            SERVE,
            SERVE[0],
            first(f"%planted = call i64 @read(i32 0, {AT}, i64 1)"),
            "foreign",
            id="a read past the run",
        ),
        pytest.param(
            SERVE, SERVE[0], first('call void @"core::mem::forget::<i64>"(i64 0)'), "kept", id="memory that is kept"
        ),
    ],
)
def test_refused(planted: Planted, calls: Calls, function: str, change: Change, parts: str) -> None:
    # Catches: a change of the compiled code that stays in line with the table, or that is refused for another reason.
    assert planted.refused(calls, function, change) == set(parts.split())


@pytest.mark.parametrize("calls, function", [(BOARD, SUBMIT), (SERVE, OUTPUT)])
@pytest.mark.parametrize("line", OWN)
def test_instructions_of_the_boards_own(planted: Planted, calls: Calls, function: str, line: str) -> None:
    # Catches: an atomic instruction, a barrier or a call through a pointer outside the core's steps.
    assert "instructions" in planted.refused(calls, function, first(line))


@pytest.mark.parametrize("function", ["two_copy_steps::table::copy_word", SHEET_WORD])
def test_an_atomic_call_of_another_crate(planted: Planted, function: str) -> None:
    # Catches: a step of a crate that takes none.
    [load] = planted.named(LOADS)
    call = first(f'%planted = call i64 @"{load}"({AT}, i8 0)')
    assert planted.refused(BOARD, function, call) >= {"steps", "others"}


@pytest.mark.parametrize("function", [SHEET_WORD, "board_share::reader_steps::arrive"])
def test_memory_in_a_call_that_takes_none(planted: Planted, function: str) -> None:
    # Catches: memory that a call without an allocator takes.
    assert planted.refused(BOARD, function, first(GROWS)) >= {"memory", "system"}


def test_a_refusal_fails_the_check(planted: Planted, tmp_path: Path) -> None:
    # Catches: a check that finds a change and passes.
    text = planted.text(BOARD, READ, again("reader_steps::load_side"))
    (tmp_path / "changed.ll").write_text(text)
    done = ended([str(TOOL), str(TABLE), str(tmp_path / "changed.ll")])
    output = done.output.decode()
    assert done.status == 1
    assert "not in the table: order board_share::readers::Reader::read: store load x36 store\n" in output
    assert "in no module: size " in output
    assert re.search(r"\n\d+ passed, [1-9]\d* failed\n$", output)


@pytest.fixture(scope="module")
def program() -> Any:
    assert PROGRAM.is_file(), f"{PROGRAM} isn't here: make steps-tests builds it"
    return steps.Module.of_file(PROGRAM, steps.clang())


def exchanged(body: str) -> str:
    """The call of `process` with the two outputs, its last arguments, exchanged."""
    call = line_with(body, "programs::process")
    return body.replace(call, re.sub(r"(ptr %\w+), (ptr %\w+)\)$", r"\2, \1)", call))


@pytest.mark.parametrize(
    "change",
    [
        pytest.param(lambda body: body + "\n", id="nothing"),
        pytest.param(first(f"%planted = call i64 @write(i32 1, {AT}, i64 1)"), id="a line first"),
        pytest.param(lambda body: re.sub(r"store i8 %\w+, ptr", "store i8 0, ptr", body), id="always status 0"),
        pytest.param(exchanged, id="output and errors exchanged"),
    ],
)
def test_the_program(program: Any, change: Change, request: pytest.FixtureRequest) -> None:
    # Catches: a main that does more than `process`, or passes on something else, which no clause excludes.
    [name] = [it for it in program.functions if steps.untyped(it) == steps.PROGRAM]
    body = program.functions[name].text
    module = steps.Module(program.text.replace(body, change(body)))
    table = TABLE.read_text().splitlines()
    assert (steps.lines_of("main", [module])[0] in table) == request.node.name.endswith("[nothing]")
