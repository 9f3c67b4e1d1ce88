"""Many boards in one call."""
from __future__ import annotations

import pickle
import signal
import threading
from typing import Any

import pytest

from voting_board import MAJORITIES, Majority, ManyIndices, Refused, indices, indices_of_all, indices_of_many
from voting_board.many import Job
from voting_board.results import INDEX_NAMES

ROWS = [[50, 49, 1], [5, 5], [], [0, 0, 0, 7]]


def check(many: ManyIndices) -> None:
    """The arrays have the answers of `indices`, followed by zeros."""
    assert (len(many), many.chairs.tolist(), many.total.tolist()) == (4, [3, 2, 0, 4], [100, 10, 0, 7])
    assert many.weights.tolist() == [[50, 49, 1, 0], [5, 5, 0, 0], [0] * 4, [0, 0, 0, 7]]
    indexes = {name: getattr(many, name).tolist() for name in INDEX_NAMES}
    for at, (row, found) in enumerate(zip(ROWS, many)):
        assert tuple(found) == tuple(dict.fromkeys(many.majorities))
        for place, majority in enumerate(many.majorities):
            one = indices(row, majority)
            assert found[majority] == many[at][majority] == one
            assert (many.omega[at, place], many.quota[at, place]) == (one.omega, one.quota)
            assert many.least_size[at, place] == one.least_size
            assert many.swings.tolist()[at][place] == [*one.swings, *[0] * (4 - len(row))]
            assert many.act[at, place] == float(one.act)
            for name, found_by in indexes.items():
                wanted = [*one.values(name), *[float("nan")] * (4 - len(row))]
                assert str(found_by[at][place]) == str(wanted)


@pytest.mark.parametrize(
    "majorities",
    [
        MAJORITIES,
        ["quorum", "half"],
        ["85"],
        ["quorum", "85", "half", "70"],
        ["quorum", "85", "half", "70", "half"],
    ],
)
@pytest.mark.parametrize("processors", [None, 1, 2])
def test_rows(majorities: list[Majority], processors: int | None) -> None:
    check(indices_of_many(ROWS, majorities, processors=processors))
    check(indices_of_many((iter(row) for row in ROWS), iter(majorities), processors=processors))


def test_indexing() -> None:
    many = indices_of_many(ROWS, ["half", "85"])
    assert many[3]["half"].chairs[3].share == 1 and many[-1] == many[3]
    assert [list(it) for it in many] == [["half", "85"]] * 4
    for at in (4, -5):
        with pytest.raises(IndexError, match=f"^no board {at}: there are 4, counted from 0$"):
            many[at]
    for wrong in ("half", slice(0, 1), 1.0, None):
        with pytest.raises(TypeError, match="^the board is .*: a whole number; arrays such as many.share take slices"):
            many[wrong]  # type: ignore[index]
    with pytest.raises(KeyError):
        many[0]["70"]


def test_order_over_chunks() -> None:
    # Catches: results in the order in which threads end.
    rows = [[at, 2 * at % 7, 3, *[1] * (at % 9)] for at in range(500)]
    many = indices_of_many(rows, MAJORITIES, processors=4)
    assert [it["half"] for it in many] == [indices(row, "half") for row in rows]
    assert [it["quorum"] for it in many] == [indices(row, "quorum") for row in rows]


def test_empty() -> None:
    assert len(indices_of_many([], MAJORITIES)) == 0 and list(indices_of_many([], ["half"])) == []
    assert indices_of_many([[]], ["half"])[0]["half"].coalitions == 1
    assert indices_of_many([[1]], [])[0] == {}
    assert indices_of_many([], ["half"]).share.tolist() == []


def test_arguments() -> None:
    many = indices_of_many([[1, 2], [3]], ["70"], totals=iter([10, 4]))
    assert [it["70"].quota for it in many] == [7, 3]
    with pytest.raises(ValueError, match="there are 1 totals for 2 rows"):
        indices_of_many([[1], [1]], ["70"], totals=[1])
    for processors in (0, -1, 1.5, "2", True):
        with pytest.raises(ValueError, match="^processors is .*: a whole number from 1$"):
            indices_of_many([[1]], ["half"], processors=processors)  # type: ignore[arg-type]


def test_named_rows() -> None:
    many = indices_of_many([{"A": 50, "B": 49}, [1]], ["half"])
    assert (many[0]["half"].names, many[1]["half"].names) == (("A", "B"), (None,))


def test_names_of_each_board() -> None:
    many = indices_of_many([{"A": 50, "B": 49}, [1]], ["half"])
    assert many.names == ({1: "A", 2: "B"}, {}) and many.labels is None
    assert indices_of_many(ROWS, ["half"]).names == ({},) * 4


def test_refused_board() -> None:
    # Catches: a board that is named in words alone, to which the caller of a part can't add its beginning.
    for rows in ([[1], [], [2, -5]], iter([[1], [2], [0.5]]), [[1], [2], [2**48, 1]]):
        with pytest.raises(Refused, match="^board 3: ") as caught:
            indices_of_many(rows, ["half"])
        again = pickle.loads(pickle.dumps(caught.value))
        assert caught.value.board == again.board == 2 and again.row is None
    with pytest.raises(Refused) as caught:
        indices_of_many([[1], [2, 3]], ["half"], totals=[1, 4])
    assert caught.value.board == 1
    with pytest.raises(Refused) as caught:
        indices([-1], "half")
    assert caught.value.board is None


def test_shown() -> None:
    # Catches: seven arrays in place of a line, and a table of all boards in a notebook.
    assert repr(indices_of_many(ROWS, ["half", "85"])) == "ManyIndices(boards=4, chairs=4, majorities=half, 85)"
    assert repr(indices_of_many([], [])) == "ManyIndices(boards=0, chairs=0, majorities=None)"
    shown = indices_of_many([{"A": 3, "<B>": 1}], ["half"])._repr_html_()
    assert "<th>board</th><th>majority</th><th>quota</th><th>total</th><th>1</th><th>2</th>" in shown
    assert "<td>0</td><td>half</td><td>3</td><td>4</td><td>1.000000</td><td>0.000000</td>" in shown
    many = indices_of_many([[0]] * 11, ["half", "85"])._repr_html_()
    assert (many.count("<tr>"), many.count("<td>-</td>"), many.count("1 more boards")) == (21, 20, 1)


def test_parts() -> None:
    # Catches: a part that begins or ends at a wrong board, for parts of all sizes.
    for width, boards in ((1, 5000), (5, 3000), (14, 600), (20, 120), (26, 40)):
        rows = [[at + chair for chair in range(width)] for at in range(boards)]
        for processors in (1, 3):
            many = indices_of_many(rows, ["85"], processors=processors)
            some = {0, 1, boards - 1, *range(0, boards, 37)}
            assert all(many[at]["85"] == indices(rows[at], "85") for at in some)


def test_pickle() -> None:
    for rows in (ROWS, [], [[]], [{"A": 1}]):
        many = indices_of_many(rows, ["half", "85"])  # type: ignore[arg-type]
        other = pickle.loads(pickle.dumps(many))
        assert list(other) == list(many) and other.swings.tolist() == many.swings.tolist()


def test_results_are_immutable() -> None:
    many: Any = indices_of_many(ROWS, ["half"])
    with pytest.raises(AttributeError):
        many.total = 5
    with pytest.raises((ValueError, TypeError)):
        many.total[0] = 5


def test_interrupt(monkeypatch: pytest.MonkeyPatch) -> None:
    # Catches: a call that Ctrl-C doesn't end, which takes two minutes of the processors.
    rows = [[2**43 - at - chair for chair in range(32)] for at in range(20_000)]
    count, done = Job.count, list[int]()

    def counted(job: Job, boards: range) -> None:
        done.append(len(boards))
        count(job, boards)

    monkeypatch.setattr(Job, "count", counted)
    threading.Timer(0.7, signal.raise_signal, [signal.SIGINT]).start()
    with pytest.raises(KeyboardInterrupt):
        indices_of_many(rows, MAJORITIES, processors=2)
    assert sum(done) < len(rows) / 2


def test_majorities_that_are_left_out() -> None:
    # Catches: another default than in the other languages.
    assert indices_of_many([[50, 49, 1]])[0] == indices_of_all([50, 49, 1])
