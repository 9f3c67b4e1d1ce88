"""Names of chairs, by the table that all packages and the page read, and what is Python's own."""
from __future__ import annotations

import copy
import pickle
from pathlib import Path
from typing import Any, Callable

import pytest

from voting_board import Refused, Register
from voting_board.registers import restored

TABLE = Path(__file__).resolve().parents[3] / "tests" / "packages" / "chair_names.txt"


def cases() -> dict[str, list[str]]:
    """The steps of each case, by what it is."""
    blocks = [it.splitlines() for it in TABLE.read_text().split("\n\n")[1:]]
    return {first: steps for first, *steps in blocks}


def names_in(text: str) -> dict[int, str]:
    found = (it.partition("=") for it in text.split(";") if it)
    return {int(chair): name for chair, _, name in found}


def named(indices: Any) -> dict[int, str]:
    return {chair: name for chair, name in zip(indices.numbers, indices.names) if name is not None}


def by_case(steps: list[str]) -> Register:
    rows = [it.split(",")[1:] for it in steps if it.startswith("table,")]
    parts = ("code", "votes", "chair", "chair_name")
    return Register([dict(zip(parts, (code, int(votes), int(chair), name))) for code, votes, chair, name in rows])


CHANGES: dict[str, Callable[[Register, str], object]] = {
    "submit": lambda it, given: it.submit(given.split(";")),
    "open": lambda it, given: it.open(int(given.split(",")[0]), given.split(",")[1]),
    "rename": lambda it, given: it.rename(int(given.split(",")[0]), given.split(",")[1] or None),
    "undo": lambda it, given: it.undo(int(given)),
}
OTHERS: dict[str, Callable[[Register], Register]] = {
    "copy": lambda it: it.copy(),
    "save": lambda it: Register.from_script(it.script(), names=it.chair_names),
    "keep": lambda it: kept(it),
}


def kept(register: Register) -> Register:
    found: Register = pickle.loads(pickle.dumps(register))
    return found


def state(register: Register) -> object:
    return register.script(), register.chair_names, named(register.indices("half")), named(register.read("half"))


@pytest.mark.parametrize("steps", cases().values(), ids=cases())
def test_table(steps: list[str]) -> None:
    # Catches: a name that outlives its chair, is lost with `undo`, a copy or a pickle, or comes from a refused call.
    register, before = by_case(steps), None
    for step in steps:
        kind, _, given = step.partition(",")
        if kind in CHANGES:
            CHANGES[kind](register, given)
        elif kind == "refused":
            number, kind, given = given.split(",", 2)
            was = state(register)
            with pytest.raises(Refused) as why:
                CHANGES[kind](register, given)
            assert (why.value.number, state(register)) == (int(number), was), step
        elif kind in OTHERS:
            other = OTHERS[kind](register)
            before, register = (register, state(register)) if kind == "copy" else before, other
        elif kind == "names":
            assert register.chair_names == names_in(given), step
            for found in (register.indices("half"), register.indices_of_all()["85"]):
                assert named(found) == names_in(given), step
        elif kind == "read":
            assert named(register.read("half")) == names_in(given), step
        else:
            assert kind == "table", step
    assert before is None or state(before[0]) == before[1]


@pytest.mark.parametrize("copied", [copy.copy, copy.deepcopy, kept])
def test_copies(copied: Callable[[Register], Register]) -> None:
    # Catches: a copy that shares its names with the register.
    register = Register([{"code": "AAA", "votes": 5, "chair": 1, "chair_name": "North"}])
    register.submit(["move,AAA,none", "close,1", "open,1"])
    other = copied(register)
    other.rename(1, "South")
    register.undo(3)
    assert (other.chair_names, register.chair_names) == ({1: "South"}, {1: "North"})
    assert (other.undo(3), other.chair_names) == (3, {1: "North"})


def test_pickles_of_before() -> None:
    # Catches: a pickle of version 0.10 that can't be read. It has the names by chair, and the call that reads them.
    script = Register([{"code": "AAA", "votes": 5, "chair": 4}]).script() + "open,7\n"
    register = restored(Register, script, 1000, {4: "North", 9: "gone"})
    assert (register.chair_names, register.undo(0), register.chair_names) == ({4: "North"}, 0, {})


def test_values() -> None:
    # Catches: a name that is no text, and a name of a closed chair, that are taken.
    register = Register({"AAA": 5})
    with pytest.raises(TypeError, match="the name is 5 .*: a name is text"):
        register.open(1, 5)  # type: ignore[arg-type]
    with pytest.raises(TypeError, match="a name is text"):
        register.rename(1, b"North")  # type: ignore[arg-type]
    assert register.accepted == 0
    with pytest.raises(Refused, match="no name for chair 2"):
        Register.from_script("member,votes\nscript\nopen,1\n", names={1: "North", 2: "South"})


def test_many_changes() -> None:
    # Catches: openings that are read wrongly where the journal was read before, in part, or not at all.
    register = Register([{"code": "AAA", "votes": 5, "chair": 1, "chair_name": "North"}])
    expected, opened = dict[int, str](), set[int]()
    for number in range(3, 200):
        chair = 2 + number * 7 % 30
        if chair in opened:
            register.close(chair)
            opened.discard(chair)
            expected.pop(chair, None)
        else:
            name = f"name {number}" if number % 3 else None
            register.open(chair, name)
            opened.add(chair)
            expected.update({chair: name} if name else {})
        if number % 5 == 0:
            assert register.chair_names == {1: "North", **expected}
    assert Register.from_script(register.script(), names=register.chair_names).chair_names == register.chair_names
