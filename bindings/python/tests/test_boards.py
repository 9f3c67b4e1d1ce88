"""The counts of boards: published games, a count over all coalitions, and what the results are."""
from __future__ import annotations

import copy
import json
import pickle
import pydoc
from dataclasses import FrozenInstanceError, fields
from fractions import Fraction
from typing import Any

import pytest
from hypothesis import given
from hypothesis import strategies as st

import voting_board
from tests.independent.counts import by_coalitions, rule_of
from voting_board import (
    MAJORITIES,
    MEANINGS,
    Indices,
    Majority,
    Member,
    Reading,
    indices,
    indices_of_all,
    indices_of_many,
    indices_of_members,
    replay,
)

BOARD = indices([50, 49, 1], "half")


@pytest.mark.parametrize(
    "weights, majority, quota, omega, swings",
    [
        ([31, 31, 28, 21, 2, 2], "half", 58, 32, (16, 16, 16, 0, 0, 0)),
        ([4, 4, 4, 2, 2, 1], "70", 12, 14, (10, 10, 10, 6, 6, 0)),
        ([7] * 5 + [1] * 10, "85", 39, 848, (848,) * 5 + (84,) * 10),
    ],
)
def test_published_games(weights: list[int], majority: Majority, quota: int, omega: int, swings: Any) -> None:
    # The figures and their sources are in docs/VALIDATION.md.
    board = indices(weights, majority)
    assert (board.quota, board.omega, board.swings) == (quota, omega, swings)


WEIGHTS = st.lists(st.one_of(st.integers(0, 3), st.integers(0, 1000), st.integers(0, 2**40)), max_size=7)


@given(WEIGHTS, st.one_of(st.just(0), st.integers(0, 2**40)))
def test_all_coalitions(weights: list[int], spare: int) -> None:
    total = sum(weights) + spare
    every = indices_of_all(weights, total=total)
    many = indices_of_many([weights], MAJORITIES, totals=[total])[0]
    rows = [*map(Member, weights, range(1, 33)), Member(spare)]
    for majority in MAJORITIES:
        board = indices(weights, majority, total=total)
        found = by_coalitions(tuple(weights), rule_of(tuple(weights), total, majority))
        assert (board.omega, board.swings) == (found.winning, found.swings)
        assert (board.cast, board.total, board.coalitions) == (sum(weights), total, 2 ** len(weights))
        assert board == every[majority] == many[majority] == indices_of_members(rows, majority)
        assert board.act == Fraction(board.omega, board.coalitions)


def test_fractions() -> None:
    first, second, _ = BOARD.chairs
    assert (first.banzhaf, first.share, first.prevent, first.initiate) == (
        Fraction(3, 4),
        Fraction(3, 5),
        Fraction(1),
        Fraction(3, 5),
    )
    assert second.share is not None and first.share is not None and second.share < first.share
    nothing = indices([0], "half").chairs[0]
    assert (nothing.banzhaf, nothing.share, nothing.prevent, nothing.initiate) == (0, None, None, 0)


def test_no_chairs() -> None:
    for board in [indices([], "half"), indices([], "quorum", total=5), *indices_of_all([]).values()]:
        assert (board.omega, board.coalitions, board.chairs, board.records()) == (0, 1, (), [])


def test_members() -> None:
    # A chair is open without a member, and if all of its members are suspended.
    rows = [Member(50, 3), Member(49, 5), Member(1, 5, True), Member(7), Member(9, 9, suspended=True)]
    board = indices_of_members(rows, "85", open_chairs=[32, 3, 3])
    assert (board.numbers, board.weights, board.total) == ((3, 5, 9, 32), (50, 49, 0, 0), 106)
    alike = indices([50, 49, 0, 0], "85", total=106)
    assert (board.quota, board.swings) == (alike.quota, alike.swings)
    columns = {name: [getattr(it, name) for it in rows] for name in ("votes", "chair", "suspended")}
    for chairs in ({32, 3}, {32: "Hills"}, (32,), iter([32.0])):
        assert indices_of_members(columns, "85", open_chairs=chairs) == board
    with pytest.raises(TypeError, match=r"^the open chairs are 32 \(int\): a chair is a whole number from 1 to 32$"):
        indices_of_members(columns, "85", open_chairs=32)  # type: ignore[arg-type]


RUN = replay("member,votes\nAAA,1\nscript\nopen,1\nopen,1\npublish\nread,1,half\nopen,33\n")


RESULTS = [BOARD, BOARD.chairs[0], Member(1), *RUN, RUN.fault]


@pytest.mark.parametrize("value", RESULTS, ids=lambda it: type(it).__name__)
def test_results_are_immutable(value: Any) -> None:
    # Catches: a chair that can be changed below frozen counts.
    for field in fields(value):
        with pytest.raises(FrozenInstanceError):
            setattr(value, field.name, None)
    for other in (pickle.loads(pickle.dumps(value)), copy.copy(value), copy.deepcopy(value)):
        assert other == value and hash(other) == hash(value)


@pytest.mark.parametrize("name", [it for it in voting_board.__all__ if it[0].isupper()])
def test_help(name: str) -> None:
    # Catches: a field or a method that help() doesn't explain.
    kind = getattr(voting_board, name)
    if not isinstance(kind, type):
        return
    text = pydoc.render_doc(kind, renderer=pydoc.plaintext)
    names = [it.name for it in fields(kind)] if hasattr(kind, "__dataclass_fields__") else getattr(kind, "_fields", ())
    for field in names:
        inherited = issubclass(kind, Indices) and field in Indices.__dataclass_fields__ and kind is not Indices
        assert field.startswith("_") or inherited or f"{field}: " in (kind.__doc__ or ""), field
    for member, value in vars(kind).items():
        if not member.startswith("_") and (callable(value) or isinstance(value, property)):
            assert value.__doc__ and member in text, member


def test_reprs() -> None:
    assert repr(BOARD.chairs[0]) == "Chair(chair=1, name=None, weight=50, swings=3)"
    assert repr(Member(5, 1)) == "Member(votes=5, chair=1, suspended=False)"
    assert repr(RUN) == (
        "Replay(readers=1, journal=1000000, fault=Fault(record=8, number=17, name='BadRecord', "
        "reason='a record is not well formed'))"
    )
    assert set(MEANINGS) == set(MAJORITIES)


def test_tables() -> None:
    named = indices({"North": 50, "<b>": 49, "East": 1}, "half")
    assert repr(named).splitlines() == [
        "Majority half: 51 of 100 votes win, 3 of 8 coalitions do",
        "chair   name  weight  swings   banzhaf     share   prevent  initiate",
        "    1  North      50       3  0.750000  0.600000  1.000000  0.600000",
        "    2    <b>      49       1  0.250000  0.200000  0.333333  0.200000",
        "    3   East       1       1  0.250000  0.200000  0.333333  0.200000",
    ]
    html = named._repr_html_()
    assert html.count("<tr>") == 4 and "<td>&lt;b&gt;</td>" in html and "<th>share</th>" in html
    none = indices([0], "half")
    assert repr(none).split()[-4:] == ["0.000000", "-", "-", "0.000000"]
    assert repr(indices([], "quorum")).startswith("Majority quorum: 0 of 0 votes of 1 chairs or more win, 0 of 1 ")
    reading = next(it for it in RUN if isinstance(it, Reading))
    assert repr(reading).startswith(f"Record {reading.record}, reader 1, after {reading.front} commands. Majority ")


def test_lookup() -> None:
    board = indices_of_members({"votes": [5, 4], "chair": [3, 25], "chair_name": ["North", "South"]}, "half")
    assert board.chair(25) is board.chair("South") is board.chairs[1]
    twice = indices_of_members({"votes": [5, 4], "chair": [1, 2], "chair_name": ["North", "North"]}, "half")
    for it, which, message in [
        (board, 2, "0 chairs have the number 2"),
        (board, "East", "0 chairs have the name 'East'"),
        (twice, "North", "2 chairs have the name 'North'"),
    ]:
        with pytest.raises(KeyError, match=message):
            it.chair(which)


def test_records() -> None:
    assert BOARD.records()[0] == {
        "chair": 1,
        "weight": 50,
        "swings": 3,
        "banzhaf": Fraction(3, 4),
        "share": Fraction(3, 5),
        "prevent": Fraction(1),
        "initiate": Fraction(3, 5),
    }
    assert json.loads(json.dumps(BOARD.records(floats=True)))[0]["share"] == 0.6
    assert indices([0], "half").records(floats=True)[0]["share"] is None
    assert BOARD.values("share") == [0.6, 0.2, 0.2] and str(indices([0], "half").values("prevent")) == "[nan]"
    with pytest.raises(ValueError, match="no index 'power': banzhaf, share, prevent, initiate"):
        BOARD.values("power")  # type: ignore[arg-type]
