"""The calls of the library and of the WebAssembly module, against the program."""
from __future__ import annotations

import struct
from collections.abc import Callable
from math import comb
from pathlib import Path

import pytest

from tests.shared.boards import CHAIRS, boards
from tests.shared.commands import TOP, Say, Words, printed
from tests.shared.inputs import Call, at_limits, mutated, of_cases
from tests.shared.kept import Kept
from tests.shared.runs import Run, all_by_program, by_c, by_module, check_same
from tests.shared.sizes import drawn, seed
from tests.targets.modules import MODULE, WIDE, calling, on_register

EXAMPLE = (TOP / "examples" / "three-chairs.csv").read_bytes()
# What the calls answer is proved, and tests/portable also compares board.c, which is made of the same modules, with the
# program. So the gate draws few; a fault of the compiler for WebAssembly that rare inputs show is left to the deep
# gate.
INPUTS = drawn(500, 5_000)
BOARDS = drawn(300, 1_500)
COMMANDS = drawn(20_000, 100_000)
# Each of the four kinds of registers and limits that tests/register/commands.c makes of a seed.
DRAWS = [4 * seed() + it for it in range(4)]
# One in this many is tried on the module that board.wasm is lowered from.
FEW = 5

Build = Callable[[str], Words]


class Calls:
    """The inputs, and the program's runs of them."""

    def __init__(self, program: Path, kept: Kept) -> None:
        self.rows, self.changed = [*of_cases(), *at_limits()], mutated(seed(), INPUTS)
        self.every, self.few = [*self.rows, *self.changed], [*self.rows, *self.changed[::FEW]]
        self.schedules = of_cases("trace")
        calls = [*self.every, *self.schedules]
        runs = kept("runs", lambda: all_by_program(program, calls))
        self.wanted = {call.name: run for call, run in zip(calls, runs, strict=True)}

    def runs(self, calls: list[Call]) -> list[Run]:
        return [self.wanted[it.name] for it in calls]


@pytest.fixture(scope="session")
def calls(program: Path, kept: Kept) -> Calls:
    return Calls(program, kept)


def check_module(words: Words, calls: Calls, some: list[Call], say: Say) -> None:
    """The runs of a module are the program's."""
    say("inputs", len(some))
    check_same(some, by_module(words, some), calls.runs(some))


def check_c(words: Words, calls: Calls, some: list[Call], say: Say) -> None:
    """The runs of a program in C are the program's."""
    say("inputs", len(some))
    check_same(some, by_c(words, some, calls.runs(some)), calls.runs(some))


@pytest.mark.parametrize("called", [calling, on_register], ids=["by one call", "as data"])
@pytest.mark.parametrize("part", ["rows", "changed"])
def test_module(calls: Calls, called: Callable[..., Words], part: str, record_property: Say) -> None:
    # Catches: a text, a fault or its record that isn't the program's.
    check_module(called(MODULE, "replays"), calls, getattr(calls, part), record_property)


@pytest.mark.parametrize("called", [calling, on_register], ids=["by one call", "as data"])
def test_wide_module(calls: Calls, called: Callable[..., Words], record_property: Say) -> None:
    # Catches: the same of the module with a 64-bit memory.
    check_module(called(WIDE, "replays"), calls, calls.few, record_property)


def test_replays(calls: Calls, built: Build, record_property: Say) -> None:
    # Catches: the same of the library, by one call.
    check_c(built("targets/replays"), calls, calls.every, record_property)


def test_schedules(calls: Calls, built: Build, record_property: Say) -> None:
    # Catches: a trace by the library that isn't the program's.
    check_c([*built("targets/replays"), "trace"], calls, calls.schedules, record_property)


@pytest.mark.parametrize("module", [MODULE, WIDE])
@pytest.mark.parametrize("called, what", [(calling, "limits"), (on_register, "limits"), (on_register, "copies")])
def test_limits(called: Callable[..., Words], what: str, module: str) -> None:
    # Catches: a call at its limits that isn't refused or isn't carried out, and memory of what-ifs that is kept.
    printed(called(module, what), EXAMPLE)


@pytest.mark.parametrize("module, every", [(MODULE, 1), (WIDE, FEW)])
def test_counts(built: Build, module: str, every: int, record_property: Say) -> None:
    # Catches: a count or a refusal of a board that isn't the library's.
    some = [struct.pack(f"<{len(it)}Q", *it) for it in boards(seed(), BOARDS)][::every]
    record_property("boards", len(some))
    assert printed(calling(module, "counts"), b"".join(some)) == printed(built("targets/counts"), b"".join(some))


# What counts.c writes for a call: the answer, and the words of struct board_counts. Those of the first call for members
# stand behind five for weights, and one by all four majorities.
COUNTS = struct.Struct("<B103Q")
OF_MEMBERS = 5 * COUNTS.size + 1 + 4 * (COUNTS.size - 1)


def counts(head: list[int], rows: list[tuple[int, int, int]]) -> tuple[int, ...]:
    """The words of struct board_counts, behind the answer of a call that counted."""
    return (0, *head, *(word for row in rows for word in row), *[0, 0, 0] * (CHAIRS - len(rows)))


@pytest.mark.parametrize("chairs", [0, 1, CHAIRS - 1, CHAIRS])
def test_equal_chairs(built: Build, chairs: int) -> None:
    # Catches: wrong counts without chairs, with all of them, or of the last one alone. Each chair has one vote, so more
    # than half of the chairs win; and one member with seven votes sits in the last chair.
    board = [chairs, *[1] * chairs, chairs, 1, 7, CHAIRS, 0, 0]
    found = printed(built("targets/counts"), struct.pack(f"<{len(board)}Q", *board))
    quota = chairs // 2 + 1
    omega = sum(comb(chairs, size) for size in range(quota, chairs + 1))
    rows = [(chair, 1, comb(chairs - 1, quota - 1)) for chair in range(1, chairs + 1)]
    assert COUNTS.unpack_from(found) == counts([quota, 0, chairs, chairs, chairs, omega, 2**chairs], rows)
    assert COUNTS.unpack_from(found, OF_MEMBERS) == counts([4, 0, 7, 7, 1, 1, 2], [(CHAIRS, 7, 1)])


@pytest.mark.parametrize("draw", DRAWS)
@pytest.mark.parametrize("module", [MODULE, WIDE])
def test_commands(built: Build, module: str, draw: int, record_property: Say) -> None:
    # Catches: an answer to a command, or a sheet, that isn't the library's.
    record_property("commands", COMMANDS)
    commands = built("register/commands")
    made = printed([*commands, "made", str(draw), str(COMMANDS)])
    assert printed(on_register(module, "answers"), made) == printed([*commands, "answers"], made)
