"""Values that callers pass: what is taken, and what each mistake says."""
from __future__ import annotations

import pickle
from array import array
from collections import namedtuple
from collections.abc import Callable
from dataclasses import dataclass
from decimal import Decimal
from fractions import Fraction
from typing import Any

import pytest

from voting_board import (
    Command,
    Member,
    Refused,
    Register,
    indices,
    indices_of_all,
    indices_of_many,
    indices_of_members,
    replay,
)

NAN, INFINITE = float("nan"), float("inf")
#: Values of a wrong type, where a number is wanted; None may be no number.
WRONG = [True, False, "50", b"5", [1], (1,), {}, 1j, object, Fraction(1), Decimal(1)]
VOTES = "votes are whole numbers from 0"
MEMBER_VOTES = f"{VOTES} to 1099511627776"
CHAIR = "a chair is a whole number from 1 to 32"
Call = Callable[[], object]


def refused(call: Call) -> Refused:
    """The refusal of a call."""
    with pytest.raises(Refused) as caught:
        call()
    assert isinstance(caught.value, ValueError)
    return caught.value


def says(call: Call, number: int, message: str) -> None:
    why = refused(call)
    assert (why.number, str(why)) == (number, message)


def wrong(call: Call, message: str, kind: type[Exception] = TypeError) -> None:
    with pytest.raises(kind) as caught:
        call()
    assert type(caught.value) is kind and str(caught.value) == message


def of_weights(weights: Any, **more: Any) -> list[Call]:
    """The calls that take the weights of a board."""
    return [lambda: indices(weights, "half", **more), lambda: indices_of_all(weights, **more)]


def test_whole_floats() -> None:
    # Catches: 5.0 refused, and a count that is a float.
    board = indices([50.0, 49, 1.0], "half", total=100.0)
    assert board == indices([50, 49, 1], "half") and all(type(it) is int for it in (*board.weights, board.total))
    register = Register({"AAA": 2.0}, journal=9.0)
    assert (register.open(1.0), register.move("AAA", 1.0), register.set_votes("AAA", 3.0)) == (1, 2, 3)
    assert register.members == {"AAA": Member(3, 1)}
    assert indices_of_members({"votes": [5.0, 4], "chair": [1.0, NAN]}, "half", open_chairs=[3.0]).numbers == (1, 3)
    assert replay("member,votes\nscript\n", readers=2.0, journal=3.0).fault is None


@pytest.mark.parametrize("value", [*WRONG, None], ids=repr)
def test_wrong_types(value: Any) -> None:
    # Catches: a bool that counts as 1, text that is a number, and None that is 0.
    shown = f"{value!r} ({type(value).__name__})"
    for call in of_weights([1, value]):
        wrong(call, f"weight 2 is {shown}: {VOTES}")
    wrong(lambda: indices_of_many([[1], [1, value]], ["half"]), f"board 2: weight 2 is {shown}: {VOTES}")
    table = {"votes": [1, value], "chair": [1, 1]}
    wrong(lambda: indices_of_members(table, "half"), f"row 2: the votes are {shown}: {VOTES}")
    if not hasattr(value, "__len__"):  # a mapping to lists is a table
        wrong(lambda: Register({"AAA": value}), f"the votes of AAA are {shown}: {MEMBER_VOTES}")
    register = Register({"AAA": 1})
    wrong(lambda: register.set_votes("AAA", value), f"the votes of AAA are {shown}: {MEMBER_VOTES}")
    wrong(lambda: register.admit("BBB", value), f"the votes of BBB are {shown}: {MEMBER_VOTES}")
    wrong(lambda: register.open(value), f"the chair is {shown}: {CHAIR}")
    wrong(lambda: Register({}, journal=value), f"the journal is {shown}: a whole number from 1 to 1000000")
    wrong(lambda: replay(b"", readers=value), f"the number of readers is {shown}: a whole number from 1 to 4")
    if value is not None:
        for call in of_weights([1], total=value):
            wrong(call, f"the total is {shown}: {VOTES}")
        wrong(lambda: register.move("AAA", value), f"the chair is {shown}: {CHAIR}, or None for no chair")
        length = "a whole number from 0 to the number of accepted commands"
        wrong(lambda: register.undo(value), f"the length is {shown}: {length}")
    assert register.accepted == 0


@pytest.mark.parametrize("value", [1.5, NAN, INFINITE, -1, -1.0])
def test_refused_votes(value: float) -> None:
    # Catches: a fraction that is cut, and a number below 0 that wraps.
    shown = -1 if value == -1 else value
    for call in of_weights([1, value]):
        says(call, 32, f"weight 2 is {shown}: {VOTES}")
    for call in of_weights([1], total=value):
        says(call, 32, f"the total is {shown}: {VOTES}")
    says(lambda: indices_of_many([[], [1, value]], ["half"]), 32, f"board 2: weight 2 is {shown}: {VOTES}")
    table = {"votes": [1, value], "chair": [1, 1]}
    says(lambda: indices_of_members(table, "half"), 32, f"row 2: the votes are {shown}: {VOTES}")
    table = {"votes": [1, value], "code": ["AAA", "BBB"]}
    says(lambda: Register(table), 17, f"row 2: the votes are {shown}: {MEMBER_VOTES}")
    register = Register({"AAA": 1})
    says(lambda: Register({"AAA": value}), 17, f"the votes of AAA are {shown}: {MEMBER_VOTES}")
    says(lambda: register.set_votes("AAA", value), 17, f"the votes of AAA are {shown}: {MEMBER_VOTES}")
    says(lambda: register.open(value), 14, f"the chair is {shown}: {CHAIR}")
    says(lambda: Register({}, journal=value), 13, f"the journal is {shown}: a whole number from 1 to 1000000")


def test_limits_of_boards() -> None:
    for call in of_weights([1] * 33):
        says(call, 32, "33 weights: a board has at most 32 chairs")
    for call in of_weights([2, 3], total=4):
        says(call, 32, "the total is 4: at least the sum of the weights, 5")
    for call in [*of_weights([2**48, 1]), *of_weights([1], total=2**48 + 1)]:
        says(call, 32, "the total is 281474976710657: at most 281474976710656")
    for call in of_weights([2**64], total=5):
        says(call, 32, "the total is 5: at least the sum of the weights, 18446744073709551616")
    says(
        lambda: indices_of_many([[1], [2, 3]], ["half"], totals=[1, 4]),
        32,
        "board 2: the total is 4: at least the sum of the weights, 5",
    )
    assert indices([2**43] * 32, "half").total == 2**48
    for call in of_weights([10**5000]):
        says(call, 32, "the total is a number of 16610 bits: at most 281474976710656")
    for call in of_weights([1], total=-(10**5000)):
        says(call, 32, f"the total is a number of 16610 bits: {VOTES}")


def test_limits_of_registers() -> None:
    register = Register({"AAA": 1})
    says(lambda: register.set_votes("AAA", 2**40 + 1), 16, f"the votes of AAA are 1099511627777: {MEMBER_VOTES}")
    says(lambda: Register({"AAA": 2**64}), 16, f"the votes of AAA are 18446744073709551616: {MEMBER_VOTES}")
    for chair in (0, 33, -1):
        says(lambda: register.open(chair), 14, f"the chair is {chair}: {CHAIR}")
        says(lambda: register.move("AAA", chair), 14, f"the chair is {chair}: {CHAIR}, or None for no chair")
        table = {"code": ["AAA"], "votes": [1], "chair": [chair]}
        says(lambda: Register(table), 14, f"row 1: the chair is {chair}: {CHAIR}")
        board = {"votes": [1], "chair": [chair]}
        says(lambda: indices_of_members(board, "half"), 32, f"row 1: the chair is {chair}: {CHAIR}")
        says(
            lambda: indices_of_members(board | {"chair": [1]}, "half", open_chairs=[3, chair]),
            32,
            f"open chair 2 is {chair}: {CHAIR}",
        )
    for journal in (0, 1_000_001):
        says(lambda: Register({}, journal=journal), 13, f"the journal is {journal}: a whole number from 1 to 1000000")
    for readers in (0, 5):
        says(
            lambda: replay(b"", readers=readers), 13, f"the number of readers is {readers}: a whole number from 1 to 4"
        )
    many = {f"{chr(65 + at // 26)}{chr(65 + at % 26)}A": 1 for at in range(257)}
    says(lambda: Register(many), 12, "TooManyMembers (12), there are more than 256 members")


@pytest.mark.parametrize("code", ["aaa", "AA", "AAAA", "", "AÄA", "A1A", "AAA\n", "A,A", "ＡＡＡ", "²²²"])
def test_codes(code: str) -> None:
    message = f"the code is {code!r}: a code is three ASCII capitals"
    register = Register({"AAA": 1})
    for call in [
        lambda: Register({code: 1}),
        lambda: register.suspend(code),
        lambda: register.move(code, 1),
        lambda: register.admit(code, 1),
        lambda: register.submit(Command("restore", code)),
    ]:
        says(call, 15, message)
    for rows in [{"code": ["AAA", code], "votes": [1, 2]}, {"code": ["AAA", code], "votes": [1, 2], "chair": [1, 1]}]:
        why = refused(lambda: Register(rows))
        assert (why.number, why.row, str(why)) == (15, 2, f"row 2: {message}")
    says(lambda: indices_of_members(rows, "half"), 15, f"row 2: {message}")


def test_codes_of_wrong_types() -> None:
    register = Register({"AAA": 1})
    for code in (None, 5, b"AAA", ["AAA"]):
        message = f"the code is {code!r} ({type(code).__name__}): a code is three ASCII capitals"
        wrong(lambda: register.suspend(code), message)  # type: ignore[arg-type]
        wrong(lambda: Register({"code": [code], "votes": [1]}), f"row 1: {message}")
    wrong(lambda: Register({5: 1}), "the code is 5 (int): a code is three ASCII capitals")  # type: ignore[dict-item]


def test_majorities() -> None:
    register = Register({})
    for majority in ("HALF", " half", "70%", "", "seventy", "half\n"):
        message = f"no majority {majority!r}: half, 70, 85 or quorum"
        for call in (
            lambda: indices([1], majority),
            lambda: register.indices(majority),
            lambda: indices_of_many([[1]], ["half", majority]),
            lambda: register.read(majority),
            lambda: indices_of_members([Member(1, 1)], majority),
        ):
            says(call, 17, message)  # type: ignore[arg-type]
    for value in (70, 0, 0.7, None, True, b"half", ["half"]):
        shown = f"the majority is {value!r} ({type(value).__name__}): half, 70, 85 or quorum"
        wrong(lambda: indices([1], value), shown)  # type: ignore[arg-type]
        wrong(lambda: register.read(value), shown)  # type: ignore[arg-type]
    with pytest.raises(TypeError, match="a list of half, 70, 85 or quorum"):
        indices_of_many([[1]], "half")
    with pytest.raises(TypeError, match="majority"):
        indices([1])  # type: ignore[call-arg]
    says(lambda: indices([-1], "HALF"), 32, f"weight 1 is -1: {VOTES}")  # type: ignore[arg-type]


def test_weights_that_are_no_list() -> None:
    # Catches: text of digits and sets, whose order isn't known, taken for weights.
    for weights in ("50", b"50", 5, None, {50, 49}, frozenset([1]), {"A": 1}.keys(), {}.items()):
        for call in of_weights(weights):
            with pytest.raises(TypeError, match=r"^the weights are "):
                call()
    for good in [(50, 49, 1), iter([50, 49, 1]), array("Q", [50, 49, 1]), {"A": 50, "B": 49, "C": 1}.values()]:
        assert indices(good, "half").swings == (3, 1, 1)


def test_names() -> None:
    # Catches: a mapping whose keys are counted, and names that are lost.
    wrong(lambda: indices({1: 50, 2: 49}, "half"), "name 1 is 1 (int): a name is text")
    wrong(lambda: indices({"A": 50, None: 49}, "half"), "name 2 is None (NoneType): a name is text")
    wrong(lambda: indices_of_many([[1], {1: 50}], ["half"]), "board 2: name 1 is 1 (int): a name is text")
    wrong(lambda: indices({"A": "x"}, "half"), f"weight 1 is 'x' (str): {VOTES}")
    board = indices({"North": 50, "South": 49}, "half")
    assert (board.names, board.chairs[1].name, board.records()[0]["name"]) == (("North", "South"), "South", "North")
    assert all(it.names == ("North", "South") for it in indices_of_all({"North": 50, "South": 49}).values())
    assert indices([50], "half").names == (None,) and "name" not in indices([50], "half").records()[0]


def test_columns() -> None:
    # Catches: a misspelled column that is ignored, and a table without one that it needs.
    columns = "the columns are code, name, votes, chair, chair_name and suspended"
    table: dict[str, Any] = {"code": ["AAA", "BBB"], "votes": [1, 2], "chair": [1, None]}
    for name in ("Suspended", "suspended_before", "suspend", "Chair", "open", "Name", "", 5):
        bad = table | {name: [False, False]}
        wrong(lambda: Register(bad), f"unknown column {name!r}: {columns}", ValueError)
        wrong(lambda: indices_of_members(bad, "half"), f"unknown column {name!r}: {columns}", ValueError)
        rows = [dict(zip(bad, row)) for row in zip(*bad.values())]
        wrong(lambda: Register(rows), f"unknown column {name!r}: {columns}", ValueError)
    assert Register(table | {"name": ["Alland", None]}).members == Register(table).members
    wrong(lambda: Register(table | {"name": ["Alland", 5]}), "row 2: the name is 5 (int): a name is text")
    wrong(
        lambda: Register({"votes": [1]}),
        f"no column 'code': a register needs code and votes, and {columns}",
        ValueError,
    )
    wrong(
        lambda: indices_of_members({"votes": [1]}, "half"),
        f"no column 'chair': a board needs votes and chair, and {columns}",
        ValueError,
    )
    wrong(lambda: Register(table | {"votes": [1]}), "columns of unequal length: code 2, votes 1, chair 2", ValueError)
    for empty in ([], {"code": [], "votes": []}, iter([])):
        assert Register(empty).members == {}
    wrong(
        lambda: Register({"code": []}), f"no column 'votes': a register needs code and votes, and {columns}", ValueError
    )
    assert indices_of_members([], "half") == indices([], "half")
    wrong(lambda: Register([{"code": "AAA", "votes": 1}, {"code": "BBB"}]), "row 2: no 'votes'", ValueError)
    wrong(lambda: Register(table | {"code": "AAABBB"}), "the column 'code' is 'AAABBB' (str): a list or an array")
    for value in (5, None, "AAA", b"AAA", {"AAA"}):
        with pytest.raises(TypeError, match="^the table is "):
            Register(value)  # type: ignore[arg-type]


def test_cells() -> None:
    table: dict[str, Any] = {"code": ["AAA", "BBB", "CCC"], "votes": [1, 2, 3], "chair": [1, None, NAN]}
    assert Register(table).chairs == {1: ("AAA",)}
    for value in (0, 1, None, "no", NAN):
        bad = table | {"suspended": [False, True, value]}
        for call in (lambda: Register(bad), lambda: indices_of_members(bad, "half")):
            wrong(call, f"row 3: suspended is {value!r} ({type(value).__name__}): True or False")
    for value in (True, "1", [1]):
        bad = table | {"chair": [1, value, 2]}
        wrong(lambda: Register(bad), f"row 2: the chair is {value!r} ({type(value).__name__}): {CHAIR}")
    says(lambda: Register(table | {"chair": [1, 1.5, 2]}), 14, f"row 2: the chair is 1.5: {CHAIR}")
    says(
        lambda: indices_of_members(table | {"votes": [1, 2, 2**64], "suspended": [False, False, True]}, "half"),
        32,
        "row 3: the votes are 18446744073709551616: at most 281474976710656",
    )
    says(
        lambda: indices_of_members(table | {"votes": [2**48, 1, 0]}, "half"),
        32,
        "the total is 281474976710657: at most 281474976710656",
    )


def test_duplicates() -> None:
    table: dict[str, Any] = {"code": ["AAA", "BBB", "AAA"], "votes": [1, 2, 3], "chair": [1, 1, 2]}
    for call in (lambda: Register(table), lambda: indices_of_members(table, "half")):
        why = refused(call)
        message = "row 3: the code 'AAA' is there already, in row 1"
        assert (why.number, why.name, why.row, str(why)) == (11, "DuplicateMember", 3, message)


def test_chair_names() -> None:
    table: dict[str, Any] = {"code": ["AAA", "BBB", "CCC"], "votes": [5, 4, 1], "chair": [2, 2, 7]}
    named = table | {"chair_name": ["Hills", None, "Lakes"]}
    register = Register(named)
    assert register.chair_names == {2: "Hills", 7: "Lakes"}
    for board in (
        register.indices("half"),
        register.read("half"),
        register.indices_of_all()["70"],
        register.copy().indices("half"),
        indices_of_members(named, "half"),
    ):
        assert board.names in (("Hills", "Lakes"), ())
    assert register.indices("half").chairs[1].name == "Lakes"
    twice = table | {"chair_name": ["Hills", "Mills", None]}
    for call, number in ((lambda: Register(twice), 14), (lambda: indices_of_members(twice, "half"), 32)):
        says(call, number, "row 2: the name of chair 2 is 'Mills', and in row 1 it is 'Hills'")
    wrong(lambda: Register(table | {"chair_name": [5, None, None]}), "row 1: the chair_name is 5 (int): a name is text")


def test_rows() -> None:
    # Catches: rows that are read by position, also named tuples in another order.
    @dataclass
    class Row:
        votes: int
        code: str
        suspended: bool = False

    named = namedtuple("named", "chair code votes")
    rows = [{"code": "AAA", "votes": 5, "chair": 3}, Row(4, "BBB", True), named(3, "CCC", 1)]
    register = Register(rows)  # type: ignore[arg-type]
    assert register.members == {"AAA": Member(5, 3), "BBB": Member(4, None, True), "CCC": Member(1, 3)}
    assert [str(it) for it in register.journal] == ["open,3", "move,AAA,3", "move,CCC,3", "suspend,BBB"]
    assert indices_of_members([Member(5, 1), Member(4, 2), Member(3)], "half").total == 12
    for row in [("AAA", 5), ["AAA", 5], "AAA", 5, None, Row]:
        shown = "row 2 is .*: a row has names: a dict, a dataclass or a named tuple"
        for call in (lambda: Register([rows[0], row]), lambda: indices_of_members([Member(1, 1), row], "half")):
            with pytest.raises(TypeError, match=shown):
                call()


def test_refused() -> None:
    # Catches: a refusal that a process pool can't send back.
    why = refused(lambda: Register({"code": ["AAA", "b"], "votes": [1, 2]}))
    other = pickle.loads(pickle.dumps(why))
    assert [getattr(other, it) for it in ("number", "name", "command", "record", "row", "args")] == [
        15,
        "BadMember",
        None,
        None,
        2,
        why.args,
    ]
    again = refused(lambda: Register({"AAA": 1}).move("AAA", 3))
    assert (again.command, again.name, again.record) == ("move,AAA,3", "ChairNotOpen", None)
    assert str(again) == "refused 'move,AAA,3': ChairNotOpen (2), the chair is not open"
