"""Arrays of numpy, tables of pandas and charts of matplotlib."""
from __future__ import annotations

import pickle
import sys
from collections.abc import Callable
from fractions import Fraction
from pathlib import Path
from typing import Any

import matplotlib
import numpy
import pandas
import pytest

from voting_board import (
    MAJORITIES,
    Member,
    Refused,
    Register,
    indices,
    indices_of_all,
    indices_of_many,
    indices_of_members,
    replay,
)

from voting_board.many import ARRAYS
from voting_board.results import INDEX_NAMES

matplotlib.use("Agg")
BOARD = indices([50, 49, 1], "half")
FRAME = pandas.DataFrame({"code": ["AAA", "BBB", "CCC"], "votes": [50, 49, 1], "chair": [1, 2, None]})
COLUMNS = ["chair", "weight", "swings", "banzhaf", "share", "prevent", "initiate"]


@pytest.mark.parametrize("kind", ["uint8", "int32", "uint64", "float32", "float64", object])
def test_arrays(kind: Any) -> None:
    array = numpy.array([50, 49, 1], kind)
    for given in (array, list(array), pandas.Series(array), pandas.Series(array, index=[7, 3, 5])):
        assert indices(given, "half") == BOARD == indices_of_all(given)["half"]
    assert indices(array[:0], "half").chairs == ()
    with pytest.raises(Refused, match="weight 1 is 0.5: votes are whole numbers from 0"):
        indices(numpy.array([0.5], "float32"), "half")
    with pytest.raises(TypeError, match="weight 1 is"):
        indices(numpy.array([[1, 2]]), "half")


def test_scalars() -> None:
    register = Register({"AAA": numpy.uint8(5), "BBB": numpy.float32(4)}, journal=numpy.int64(9))
    assert register.open(numpy.int16(1)) == 1 and register.move("AAA", numpy.float64(1)) == 2
    assert indices([numpy.int64(50)], "half", total=numpy.float64(60)).total == 60
    for value in (numpy.bool_(True), numpy.array([1]), numpy.str_("5"), numpy.datetime64("2026-01-01")):
        with pytest.raises(TypeError, match="^the chair is "):
            register.open(value)
    for value in (numpy.nan, numpy.inf, numpy.float32(1.5), numpy.int8(-1)):
        with pytest.raises(Refused, match="^the chair is "):
            register.open(value)


def test_series() -> None:
    assert indices(pandas.Series({"North": 50, "South": 49}), "half").names == ("North", "South")
    assert indices(pandas.Series([50, 49], dtype="Int64"), "half").names == (None, None)
    with pytest.raises(TypeError, match=r"name 2 is 5 \(int\): a name is text"):
        indices(pandas.Series([1, 2], index=["North", 5]), "half")
    with pytest.raises(TypeError, match=r"weight 2 is <NA> \(NAType\)"):
        indices(pandas.Series([1, None], dtype="Int64"), "half")
    with pytest.raises(Refused, match="weight 2 is nan"):
        indices(pandas.Series([1, None]), "half")
    assert Register(pandas.Series({"AAA": 5, "BBB": 4.0})).opening == {"AAA": 5, "BBB": 4}
    with pytest.raises(TypeError, match=r"the code is 0 \(int\)"):
        Register(pandas.Series([5, 4]))


@pytest.mark.parametrize(
    "frame",
    [
        FRAME,
        FRAME.astype({"chair": "Int64"}),
        FRAME.astype({"votes": "uint8", "code": "string"}),
        FRAME.astype({"votes": float, "code": "category"}),
        FRAME[["chair", "votes", "code"]],
        FRAME.set_index("code", drop=False),
        FRAME.assign(suspended=numpy.array([False] * 3)),
        FRAME.assign(suspended=pandas.array([False] * 3, "boolean")),
        FRAME.assign(chair_name=["North", None, numpy.nan]),
        FRAME.to_dict("list"),
        FRAME.to_dict("records"),
        list(FRAME.itertuples(index=False)),
        list(FRAME[["chair", "votes", "code"]].itertuples(index=False)),
    ],
)
def test_tables(frame: Any) -> None:
    # Catches: members that are read by position, and chairs that pandas has as floats.
    register = Register(frame)
    assert register.members == {"AAA": Member(50, 1), "BBB": Member(49, 2), "CCC": Member(1)}
    board = indices_of_members(frame, "half")
    assert (board.weights, board.total) == ((50, 49), 100) and board == register.indices("half")


def test_frames_without_rows() -> None:
    # Catches: a filter that leaves no member, which stops a study.
    for frame in (FRAME[:0], pandas.DataFrame()):
        assert Register(frame).members == {}
        assert indices_of_members(frame, "half") == indices([], "half")


def test_wrong_tables() -> None:
    for name in ("Suspended", "suspended_before", "open"):
        with pytest.raises(ValueError, match=f"unknown column '{name}': the columns are code, name, votes, chair, "):
            Register(FRAME.assign(**{name: True}))
    with pytest.raises(ValueError, match="the column 'votes' is there 2 times"):
        Register(pandas.concat([FRAME, FRAME[["votes"]]], axis=1))
    with pytest.raises(ValueError, match="unknown column 'Index'"):
        Register(list(FRAME.itertuples()))
    wrong = [([0, 1, 0], "0 (int)"), ([True, False, None], "None (NoneType)"), (pandas.NA, "<NA> (NAType)")]
    for suspended, shown in wrong:
        with pytest.raises(TypeError) as caught:
            Register(FRAME.assign(suspended=suspended))
        assert shown in str(caught.value) and "True or False" in str(caught.value)
    with pytest.raises(Refused, match="row 2: the chair is 1.5: a chair is a whole number from 1 to 32") as refused:
        Register(FRAME.assign(chair=[1, 1.5, None]))
    assert refused.value.row == 2
    with pytest.raises(TypeError, match=r"row 1: the votes are '50' \(str\)"):
        Register(FRAME.astype({"votes": str}))


def test_example() -> None:
    file = Path(__file__).resolve().parents[3] / "examples" / "members.csv"
    frame = pandas.read_csv(file)
    register = Register(frame)
    assert register.indices("85").chairs[0].name == frame[frame["chair"] == 1]["chair_name"].iloc[0]
    assert register.indices("85").total == frame["votes"].sum()


def test_dataframes() -> None:
    table = BOARD.to_dataframe()
    assert list(table.columns) == COLUMNS and list(table["share"]) == [Fraction(3, 5), Fraction(1, 5), Fraction(1, 5)]
    assert BOARD.to_dataframe(floats=True)["share"].dtype == "float64"
    assert indices([0], "half").to_dataframe(floats=True)["share"].isna().all()
    assert list(indices({"A": 1}, "half").to_dataframe()["name"]) == ["A"]
    assert list(indices([], "half").to_dataframe().columns) == COLUMNS
    run = replay("member,votes\nAAA,1\nscript\nopen,1\npublish\nread,1,half\n")
    assert len(run.readings[0].to_dataframe()) == 1


def test_many() -> None:
    rows = [[50, 49, 1], [0, 255, 3]]
    wanted = indices_of_many(rows, MAJORITIES)
    for given in [*(numpy.array(rows, it) for it in ("uint8", "int32", float, object)), pandas.DataFrame(rows)]:
        many = indices_of_many(given, MAJORITIES)
        # Catches: counts that wrap where they are subtracted.
        assert (many.swings.dtype, many.swings.shape) == (numpy.dtype("int64"), (2, len(MAJORITIES), 3))
        assert (many.swings == wanted.swings).all() and (many.omega == wanted.omega).all()
        assert list(many) == list(wanted)
    assert (wanted.swings - 9 < 0).any()
    assert indices_of_many(numpy.zeros((0, 3), int), ["half"]).swings.shape == (0, 1, 0)
    with pytest.raises(ValueError, match="read-only"):
        wanted.total[0] = 1
    with pytest.raises(Refused, match="board 2: weight 1 is 0.5"):
        indices_of_many(numpy.array([[1.0], [0.5]]), ["half"])
    totals = indices_of_many(pandas.DataFrame(rows), ["half"], totals=pandas.Series([200, 300]))
    assert totals.total.tolist() == [200, 300]


def test_many_as_a_table() -> None:
    many = indices_of_many(pandas.DataFrame({"North": [50, 1], "South": [49, 2]}), ["half", "85"])
    table = many.to_dataframe()
    assert list(table.columns) == ["board", "majority", "chair", "name", *COLUMNS[1:]]
    assert table.groupby(["board", "majority"])["share"].sum().tolist() == [1.0] * 4
    assert many[0]["half"].names == ("North", "South")
    assert list(indices_of_many([], ["half"]).to_dataframe().columns) == ["board", "majority", *COLUMNS]
    # Catches: fractions that were rounded on their way, and a majority without swings that has a share.
    exact = indices_of_many([[50, 49, 1], [0]], ["half"]).to_dataframe(floats=False)
    assert list(exact["share"]) == [Fraction(3, 5), Fraction(1, 5), Fraction(1, 5), None]
    assert list(exact.columns) == ["board", "majority", *COLUMNS]
    for name in ("banzhaf", "share", "prevent", "initiate"):
        own = [getattr(chair, name) for counts in many for it in counts.values() for chair in it.chairs]
        assert list(many.to_dataframe(floats=False)[name]) == own
    assert many.share.dtype == "float64" and many.share.shape == (2, 2, 2) and many.act.shape == (2, 2)


def test_labels() -> None:
    # Catches: a panel by year that can't be joined with what else is known of the years.
    table = pandas.DataFrame({"North": [50, 1], "South": [49, 2]}, index=pandas.Index([1991, 2026], name="year"))
    many = indices_of_many(table, ["half", "85"])
    assert many.to_dataframe()["board"].tolist() == [1991] * 4 + [2026] * 4
    assert list(many.labels) == list(pickle.loads(pickle.dumps(many)).labels) == [1991, 2026]
    assert "<td>2026</td><td>85</td>" in many._repr_html_() and "<th>South</th>" in many._repr_html_()
    both = table.set_index(pandas.MultiIndex.from_tuples([("a", 1), ("b", 2)]))
    assert set(indices_of_many(both, ["half"]).to_dataframe()["board"]) == {("a", 1), ("b", 2)}
    days = table.set_index(pandas.to_datetime(["1991-01-01", "2026-01-01"]))
    assert indices_of_many(days, ["half"]).to_dataframe()["board"].dt.year.tolist() == [1991, 1991, 2026, 2026]
    series = pandas.Series([[1, 2], [3]], index=["x", "y"])
    assert indices_of_many(series, ["half"]).to_dataframe()["board"].tolist() == ["x", "x", "y"]
    assert indices_of_many(table.to_numpy(), ["half"]).to_dataframe()["board"].tolist() == [0, 0, 1, 1]
    with pytest.raises(Refused, match="^board 2: weight 1 is -1: ") as caught:
        indices_of_many(table.assign(North=[50, -1]), ["half"])
    assert caught.value.board == 2026
    # Names are there once, however many boards have them.
    assert many._names == {1: "North", 2: "South"} and many.names == (many._names,) * 2


@pytest.mark.parametrize("kind", ["int8", "uint16", "int64", "uint64", ">i4", "float16", "float32", "float64"])
def test_arrays_and_rows_agree(kind: str) -> None:
    rows = numpy.random.default_rng(7).integers(0, 100, (300, 9)).astype(kind)
    wanted = indices_of_many([list(map(int, row)) for row in rows], MAJORITIES)
    for given in (rows, numpy.asfortranarray(rows), rows[::-1][::-1], pandas.DataFrame(rows)):
        many = indices_of_many(given, MAJORITIES)
        for name in (*ARRAYS, *INDEX_NAMES, "act"):
            found = getattr(many, name)
            assert (found.dtype, found.tobytes()) == (getattr(wanted, name).dtype, getattr(wanted, name).tobytes())
    kept = rows.copy()
    many = indices_of_many(rows, ["half"])
    rows[0] = 0
    assert (many.weights == kept).all()


@pytest.mark.parametrize(
    ("given", "message"),
    [
        ([[1, 2], [3, -1]], "board 2: weight 2 is -1: votes are whole numbers from 0"),
        ([[1, 2], [3, 0.5]], "board 2: weight 2 is 0.5: votes are whole numbers from 0"),
        ([[1, numpy.nan], [3, 0.5]], "board 1: weight 2 is nan: votes are whole numbers from 0"),
        ([[1, 2], [2**48, 1]], "board 2: the total is 281474976710657: at most 281474976710656"),
        ([[1, 2], [2**48 + 1, 0]], "board 2: the total is 281474976710657: at most 281474976710656"),
        ([[1] * 33], "board 1: 33 weights: a board has at most 32 chairs"),
    ],
)
def test_arrays_that_are_refused(given: Any, message: str) -> None:
    # Catches: a check of a whole array that lets pass what the check of a row doesn't.
    with pytest.raises(Refused) as caught:
        indices_of_many(numpy.array(given), ["half"])
    assert str(caught.value) == message and caught.value.board == int(message[6]) - 1


def test_arrays_of_wrong_types() -> None:
    for given in (numpy.ones((2, 2), bool), numpy.ones((2, 2, 2), int), numpy.ones(2, int), numpy.array([["5"]])):
        with pytest.raises(TypeError, match="^board 1: "):
            indices_of_many(given, ["half"])
    with pytest.raises(TypeError, match="^board 1: weight 2 is None"):
        indices_of_many(numpy.ma.masked_array([[1, 2]], [[0, 1]]), ["half"])
    for totals, message in (
        (numpy.array([3, 2]), "^board 2: the total is 2: at least the sum of the weights, 3$"),
        (numpy.array([3, 2**48 + 1]), "^board 2: the total is 281474976710657: at most 281474976710656$"),
        (numpy.array([3, 3.5]), "^board 2: the total is 3.5: "),
    ):
        with pytest.raises(Refused, match=message):
            indices_of_many(numpy.array([[1, 2], [1, 2]]), ["half"], totals=totals)


def test_work_per_board() -> None:
    # Catches: work of Python on each board of an array, beside its count.
    boards = numpy.random.default_rng(1).integers(1, 400_000, (20_000, 3))
    many = indices_of_many(boards, ["half"], processors=1)
    for act in (lambda: indices_of_many(boards, ["half"], processors=1), lambda: many._floats("share")):
        assert calls_in(act) < 500


def calls_in(act: Callable[[], object]) -> int:
    """How many functions in Python a call runs."""
    events = list[str]()
    sys.setprofile(lambda _frame, event, _argument: events.append(event))
    try:
        act()
    finally:
        sys.setprofile(None)
    return events.count("call")


def test_frame_of_many_is_made_by_columns() -> None:
    # Catches: a frame that is made row by row, which takes longer than its counts.
    rows = numpy.random.default_rng(1).integers(1, 400_000, (2000, 24))
    few, many = indices_of_many(rows[:20], ["85"]), indices_of_many(rows, ["85"], processors=1)
    table = many.to_dataframe()
    assert calls_in(many.to_dataframe) < 2 * calls_in(few.to_dataframe)
    one = many[1999]["85"].to_dataframe(floats=True)
    pandas.testing.assert_frame_equal(table[-24:][one.columns].reset_index(drop=True), one)
    repeated = indices_of_many([[2, 1], [1]], ["half", "85", "half"])
    for floats in (True, False):
        frame = repeated.to_dataframe(floats=floats)
        wanted = [it[name].to_dataframe(floats=floats) for it in repeated for name in repeated.majorities]
        pandas.testing.assert_frame_equal(frame[COLUMNS], pandas.concat(wanted, ignore_index=True))


def test_plot() -> None:
    from matplotlib import pyplot

    axes = BOARD.plot()
    assert [bar.get_height() for bar in axes.patches] == [0.6, 0.2, 0.2]
    assert [it.get_text() for it in axes.get_xticklabels()] == ["1", "2", "3"]
    named = indices({"North": 1, "South": 1}, "85")
    assert named.plot("prevent", axes) is axes and axes.get_ylabel() == "prevent"
    assert [it.get_text() for it in axes.get_xticklabels()] == ["North", "South"]
    assert len(indices([], "half").plot().patches) == 0
    with pytest.raises(ValueError, match="no index 'power'"):
        BOARD.plot("power")  # type: ignore[arg-type]
    pyplot.close("all")
