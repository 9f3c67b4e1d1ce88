"""The calls of board.c, by programs in C of the other tests, against the program and the libraries."""
from __future__ import annotations

from pathlib import Path

import pytest
from tests.portable.answers import Answers, batch, boards_drawn, inputs
from tests.portable.compilers import AARCH64, CLANG, CPLUSPLUS, GCC, I686, MUSL, RISCV64, SANITIZERS, SYSTEMS, THREADED
from tests.portable.compilers import HERE, WINDOWS, Built, on
from tests.shared.commands import TOP, printed
from tests.shared.libraries import REFUSING
from tests.shared.runs import by_c, check_same
from tests.shared.sizes import drawn, seed

EXAMPLE = (TOP / "examples" / "twenty-four-chairs.csv").read_bytes()
# Each of the four kinds of registers and limits that tests/register makes of a seed.
DRAWS = [str(4 * seed() + it) for it in range(4)]
COMMANDS, SLOW_COMMANDS = drawn(5_000, 20_000), drawn(500, 1_000)


@on([*SYSTEMS, *SANITIZERS])
@pytest.mark.parametrize("command", ["replay", "trace"])
def test_texts(built: Built, answers: Answers, command: str) -> None:
    # Catches: a text, its length, a fault or its record that isn't the program's, and a byte written beyond the text.
    calls = built.some(inputs(command))
    wanted = answers.runs(calls)
    check_same(calls, by_c([*built.calling("targets/replays.c"), command], calls, wanted), wanted)


@on([*SYSTEMS, *SANITIZERS])
def test_counts(built: Built, answers: Answers) -> None:
    # Catches: a count or a refusal of a board that isn't the library's.
    some = built.some(boards_drawn())
    boards = b"".join(some)
    found = printed(built.calling("targets/counts.c"), boards)
    assert found == answers.native("targets/counts.c", [], boards), "other counts"


@on([*SYSTEMS, *SANITIZERS])
@pytest.mark.parametrize("draw", DRAWS)
def test_commands(built: Built, answers: Answers, draw: str) -> None:
    # Catches: an answer to a command, or a sheet, that isn't the library's.
    source, many = "register/commands.c", SLOW_COMMANDS if built.compiler.is_slow else COMMANDS
    commands = answers.native(source, ["made", draw, str(many)], b"")
    found = printed([*built.calling(source), "answers"], commands)
    assert found == answers.native(source, ["answers"], commands), "other answers"


@on([*(it for it in SYSTEMS if it != WINDOWS), *SANITIZERS])
@pytest.mark.parametrize("draw", DRAWS)
def test_registers(built: Built, program: Path, draw: str) -> None:
    # Catches: a count, a member, a command or a copy of a register that isn't the model's, or the program's.
    printed([*built.calling("register/commands.c"), "test", str(program), draw, str(SLOW_COMMANDS)])


@on([*SYSTEMS, *SANITIZERS])
def test_scripts(built: Built, answers: Answers) -> None:
    # Catches: records of a script that aren't the library's, also with less room and with memory refused.
    scripts = batch(built.some(inputs("replay")))
    found = printed([*built.calling("script/read.c", *REFUSING), "batch"], scripts)
    assert found == answers.native("script/read.c", ["batch"], scripts, *REFUSING), "other records"


@on([*SYSTEMS, *SANITIZERS])
def test_memory(built: Built) -> None:
    # Catches: a call that changes a register though memory is refused, and memory that is kept.
    printed([*built.calling("register/memory.c", *REFUSING), DRAWS[0], str(SLOW_COMMANDS)], EXAMPLE)


@on([*SYSTEMS, *SANITIZERS])
def test_handles(built: Built) -> None:
    # Catches: a call that does something to a handle without a register.
    printed(built.calling("register/handles.c"))


@on([AARCH64, GCC, CLANG])
def test_boards(built: Built) -> None:
    # Catches: a count that isn't the one over all coalitions, and more stack than board.h asks for.
    printed(built.calling("release/calls.c"))


@on(SYSTEMS)
def test_structs(built: Built) -> None:
    # Catches: a struct whose size isn't the one that board.h gives.
    assert printed(built.calling("release/structs.c")).split() == [b"3", b"swings"]


@on([RISCV64, AARCH64, I686, MUSL, GCC, CLANG, THREADED])
def test_threads(built: Built) -> None:
    # Catches: a state that calls share, and more stack than board.h asks for.
    printed([*built.calling("register/threads.c"), DRAWS[0], str(SLOW_COMMANDS)], EXAMPLE)


@on([AARCH64, WINDOWS, GCC, CLANG, CPLUSPLUS])
def test_traps(built: Built) -> None:
    # Catches: a trap that ends the process, that isn't reported, or after which calls fail.
    assert printed(built.including(HERE / "trap.c")).split() == [b"trapped"]
