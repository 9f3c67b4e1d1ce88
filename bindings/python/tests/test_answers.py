"""The package against the program's answers: boards, scripts, and a long register."""
from __future__ import annotations

from collections.abc import Iterator
from pathlib import Path

import pytest
from lines import board_lines, text_of

from voting_board import (
    MAJORITIES,
    Command,
    Indices,
    Majority,
    Reading,
    Refused,
    Register,
    Replay,
    indices,
    indices_of_all,
    indices_of_many,
    indices_of_members,
    replay,
    replay_text,
)

Board = tuple[list[int], int, list[str]]


@pytest.fixture(scope="module")
def boards(answers: Path) -> list[Board]:
    """The weights, the total and the lines of each board."""
    found: list[Board] = []
    for line in (answers / "boards.txt").read_text().splitlines():
        if line.startswith("board,"):
            total, *weights = map(int, line.split(",")[1:])
            found.append((weights, total, []))
        else:
            found[-1][2].append(line)
    assert found
    return found


def all_lines(counts: dict[Majority, Indices]) -> list[str]:
    assert tuple(counts) == MAJORITIES
    return [line for it in counts.values() for line in board_lines(it)]


def test_indices(boards: list[Board]) -> None:
    for weights, total, lines in boards:
        assert all_lines({it: indices(weights, it, total=total) for it in MAJORITIES}) == lines


def test_indices_of_all(boards: list[Board]) -> None:
    for weights, total, lines in boards:
        assert all_lines(indices_of_all(weights, total=total)) == lines


def test_indices_of_members(boards: list[Board]) -> None:
    for weights, total, lines in boards:
        rest = total - sum(weights)
        seats = [*range(1, len(weights) + 1), None, None]
        table = {"votes": [*weights, rest, 7], "chair": seats, "suspended": [False] * (len(seats) - 1) + [True]}
        assert all_lines({it: indices_of_members(table, it) for it in MAJORITIES}) == lines


@pytest.mark.parametrize("processors", [None, 1, 3])
def test_indices_of_many(boards: list[Board], processors: int | None) -> None:
    many = indices_of_many(
        [it for it, _, _ in boards], MAJORITIES, totals=[it for _, it, _ in boards], processors=processors
    )
    for found, (_, _, lines) in zip(many, boards):
        assert all_lines(found) == lines


def scripts(answers: Path) -> Iterator[tuple[int, int, int, bytes, str]]:
    lines = (answers / "scripts.txt").read_text().splitlines()
    assert lines
    for line in lines:
        readers, journal, status, given, text = line.split(",")
        yield int(readers), int(journal), int(status), bytes.fromhex(given), bytes.fromhex(text).decode()


def check_numbers(run: Replay) -> None:
    """The numbers of the records that outcomes name follow each other, up to that of the fault."""
    records = [it.record for it in run]
    if records:
        assert records == list(range(records[0], records[0] + len(records)))
    if records and run.fault and run.fault.record:
        assert run.fault.record == records[-1] + 1


def test_scripts(answers: Path) -> None:
    for readers, journal, status, script, text in scripts(answers):
        run = replay(script, readers=readers, journal=journal)
        assert text_of(run, run.fault) == text
        assert replay_text(script, readers=readers, journal=journal) == (text, run.fault)
        assert (run.fault is not None) == (status == 1)
        check_numbers(run)


def test_registers_of_scripts(answers: Path) -> None:
    # The register that a script leaves, made by a replay, by from_script and from its own script, is the same.
    for _, journal, status, script, _ in scripts(answers):
        run = replay(script, readers=4, journal=journal)
        if run.fault or run.refused:
            with pytest.raises(Refused):
                Register.from_script(script, journal=journal)
            continue
        assert status in (0, 1)
        left = run.register()
        for other in (Register.from_script(script, journal=journal), Register.from_script(left.script())):
            assert state(other) == state(left)


def state(register: Register) -> tuple[object, ...]:
    """All that can be seen of a register."""
    seen = register.members, register.chairs, register.journal, register.published, register.opening
    return (*seen, register.indices_of_all(), register.read("half"))


def by_method(register: Register, record: str) -> int:
    """Carries out a record by the method of its kind."""
    kind, *parts = record.split(",")
    if kind in ("open", "close"):
        return register.open(int(parts[0])) if kind == "open" else register.close(int(parts[0]))
    if kind == "move":
        return register.move(parts[0], None if parts[1] == "none" else int(parts[1]))
    if kind in ("votes", "admit"):
        return (register.set_votes if kind == "votes" else register.admit)(parts[0], int(parts[1]))
    simple = {"suspend": register.suspend, "restore": register.restore, "withdraw": register.withdraw}
    return simple[kind](parts[0])


@pytest.mark.parametrize("call", [Register.submit, by_method])
def test_register(answers: Path, call) -> None:  # type: ignore[no-untyped-def]
    head, _, tail = (answers / "register.csv").read_text().partition("script\n")
    register = Register({code: int(votes) for code, votes in (it.split(",") for it in head.splitlines()[1:])})
    lines: list[str] = []
    for record in tail.splitlines():
        kind, *parts = record.split(",")
        if kind == "read":
            assert isinstance(parts[1], str)
            board = register.indices(parts[1])  # type: ignore[arg-type]
            assert board == register.read(parts[1])  # type: ignore[arg-type]
            first, *rest = board_lines(board)
            lines += [f"reading,1,{register.published},{first}", *rest]
            check_members(register, board)
        elif kind == "publish":
            lines.append(f"published,{register.publish()}")
        else:
            lines.append(answer(register, record, call))
    assert lines == (answers / "register.txt").read_text().splitlines()
    check_end(register)


def answer(register: Register, record: str, call) -> str:  # type: ignore[no-untyped-def]
    """The line of a command. What `check` says comes true, and a refused command changes nothing."""
    said, before = register.check(record), register.accepted
    try:
        return f"accepted,{call(register, record)}"
    except Refused as why:
        assert said is not None and (said.number, str(said)) == (why.number, str(why)) and why.command == record
        assert register.accepted == before
        return f"refused,{why.number},{why.name}"


def check_members(register: Register, board: Indices) -> None:
    """The members and chairs that the register names make the same board."""
    rows = list(register.members.values())
    assert indices_of_members(rows, board.majority, open_chairs=register.chairs) == board
    seats = {code: chair for chair, codes in register.chairs.items() for code in codes}
    assert seats == {code: it.chair for code, it in register.members.items() if it.chair}


def check_end(register: Register) -> None:
    """The script makes the register again, and the journal carries out the same."""
    again = Register.from_script(register.script())
    assert state(again) == state(register)
    other = Register(register.opening)
    assert other.submit(register.journal) == register.accepted
    assert (other.members, other.journal) == (register.members, register.journal)
    assert all(isinstance(it, Command) for it in other.journal)
    run = replay(register.script() + "read,1,half\n")
    assert isinstance(run.readings[0], Reading) and run.register().journal == register.journal
