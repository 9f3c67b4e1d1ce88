"""The counts of many boards in one call, on all processors."""
from __future__ import annotations

import os
from array import array
from collections.abc import Callable, Iterable, Iterator, Sequence
from concurrent.futures import ThreadPoolExecutor
from ctypes import addressof
from dataclasses import dataclass
from functools import cached_property
from html import escape
from itertools import repeat
from math import prod
from typing import TYPE_CHECKING, Any, NamedTuple, Optional, TypeVar, Union, cast

from .boards import sheet_of
from .library import COUNT_WORDS, FIRST_ROW, ROW_WORDS, SHEET_WORDS, long, rooms
from .names import ALLOWED, CHAIRS, MAJORITIES, TOTAL_VOTES, Majority
from .refusals import Refused, check_done
from .results import INDEX_NAMES, IndexName, Indices
from .values import Weights, Whole, items_of, number_of, total_of, weights_of, wrong_type

if TYPE_CHECKING:
    from numpy import float64, int64
    from numpy.typing import NDArray
    from pandas import DataFrame, Index  # type: ignore[import]
    from typing_extensions import TypeAlias

    #: Arrays of numpy; without numpy they are memoryviews of the same shape.
    Integers: TypeAlias = NDArray[int64]
    Floats: TypeAlias = NDArray[float64]

QUOTA, LEAST_SIZE, OMEGA, SWINGS = 0, 1, 5, FIRST_ROW + 2
NAN = float("nan")
#: As many boards have a row where the counts of many boards are shown.
SHOWN = 10
Rows = Union["DataFrame", Iterable[Weights]]
#: The names of chairs by number: those of all boards, or of each board.
Names = Union[dict[int, str], tuple[dict[int, str], ...]]
Item = TypeVar("Item")
Found = TypeVar("Found")


@dataclass(frozen=True, eq=False, repr=False)
class ManyIndices:
    """The voting power of many boards, in the order of the rows. `many[3]["half"]` is the `Indices` of the fourth
    board, and a loop over it yields a dict from majorities to `Indices` for each board. Notebooks show the shares of
    the first boards.

    Its arrays are numpy's (int64), or memoryviews of the same shape where numpy isn't installed, and can't be written
    to. A board with fewer chairs than the largest has zeros after its own numbers in `weights` and `swings`.

    majorities: the majorities, as they were asked for
    chairs: the number of chairs of each board
    total: the total voting power of each board, in votes
    weights: the weights in votes, by board and chair
    quota: the least weight that can win, in votes, by board and majority
    least_size: the least number of chairs that can win, by board and majority
    omega: the number of winning coalitions, by board and majority
    swings: the swings, by board, majority and chair
    banzhaf, share, prevent, initiate: the indices as floats, by board, majority and chair
    act: the power of the board to act as a float, by board and majority
    names: the names of the chairs of each board, where its row had names
    labels: the index of the table of pandas that the rows were, or None
    """

    majorities: tuple[Majority, ...]
    chairs: Integers
    total: Integers
    weights: Integers
    quota: Integers
    least_size: Integers
    omega: Integers
    swings: Integers
    _names: Names
    labels: Optional[Index]

    def __len__(self) -> int:
        return len(self.chairs)

    def __getitem__(self, board: int) -> dict[Majority, Indices]:
        if not hasattr(board, "__index__"):
            allowed = "a whole number; arrays such as many.share take slices, and many[3] takes majorities"
            raise wrong_type(board, "the board is", allowed)
        if not -len(self) <= board < len(self):
            raise IndexError(f"no board {board}: there are {len(self)}, counted from 0")
        at = range(len(self))[board]
        many, total = int(self.chairs[at]), int(self.total[at])
        numbers = tuple(range(1, many + 1))
        names = tuple(map(self._names_of(at).get, numbers))
        weights = tuple(int(self.weights[at, chair]) for chair in range(many))
        found = {}
        for place, majority in enumerate(self.majorities):
            quota, least_size, omega = (int(it[at, place]) for it in (self.quota, self.least_size, self.omega))
            swings = tuple(int(self.swings[at, place, chair]) for chair in range(many))
            counts = quota, least_size, sum(weights), total, omega, 2**many
            found[majority] = Indices(majority, *counts, numbers, weights, swings, names)
        return found

    def __iter__(self) -> Iterator[dict[Majority, Indices]]:
        return map(self.__getitem__, range(len(self)))

    def _names_of(self, board: int) -> dict[int, str]:
        return self._names if isinstance(self._names, dict) else self._names[board]

    @property
    def names(self) -> tuple[dict[int, str], ...]:
        """The names of the chairs of each board by number, where its row had names."""
        return tuple(map(self._names_of, range(len(self))))

    def _floats(self, index: IndexName) -> Floats:
        """An index by board, majority and chair; nan where its divisor is 0, or where there is no chair."""
        shape = len(self), len(self.majorities), width_of(self.weights)
        if isinstance(self.swings, memoryview):
            rows = [board[it].values(index) for board in self for it in self.majorities]
            values = array("d", [it for row in rows for it in (*row, *[NAN] * (shape[2] - len(row)))])
            return cast("Floats", shaped(values, *shape))
        import numpy

        over = self._divisors(index)
        found = self.swings / numpy.where(over, over, NAN)[..., None]
        numpy.copyto(found, NAN, where=numpy.arange(shape[2]) >= self.chairs[:, None, None])
        return cast("Floats", shaped(found, *shape))

    def _divisors(self, index: IndexName) -> Integers:
        """What the swings are divided by for an index, by board and majority."""
        if index == "share":
            return cast("Integers", self.swings.sum(axis=2))
        coalitions = (1 << self.chairs)[:, None]
        return {"banzhaf": coalitions // 2, "prevent": self.omega}.get(index, coalitions - self.omega)

    @cached_property
    def banzhaf(self) -> Floats:
        """The Banzhaf measure of each chair as a float, by board, majority and chair; nan where there is no chair."""
        return self._floats("banzhaf")

    @cached_property
    def share(self) -> Floats:
        """The normalised Banzhaf index, likewise; nan also where no chair has a swing."""
        return self._floats("share")

    @cached_property
    def prevent(self) -> Floats:
        """Coleman's power to prevent action, likewise; nan also where no coalition wins."""
        return self._floats("prevent")

    @cached_property
    def initiate(self) -> Floats:
        """Coleman's power to initiate action, likewise."""
        return self._floats("initiate")

    @cached_property
    def act(self) -> Floats:
        """Coleman's power of each board to act as a float, by board and majority."""
        shape = len(self), len(self.majorities)
        if isinstance(self.omega, memoryview):
            values = array("d", [float(board[it].act) for board in self for it in self.majorities])
            return cast("Floats", shaped(values, *shape))
        return cast("Floats", shaped(self.omega / (1 << self.chairs)[:, None], *shape))

    def to_dataframe(self, *, floats: bool = True) -> DataFrame:
        """A table of pandas with a row for each chair of each board at each majority: board (its label in the index
        that the rows had, else counted from 0), majority, chair, name (if any chair has one), weight, swings, and the
        indices as floats. With `floats=False` they are exact fractions, as in the table of an `Indices`."""
        import numpy
        from pandas import DataFrame

        shape = len(self), len(self.majorities), width_of(self.weights)
        there = numpy.arange(shape[2]) < self.chairs[:, None, None]
        board, kind, chair = numpy.nonzero(numpy.broadcast_to(there, shape))
        columns: dict[str, object] = {
            "board": board if self.labels is None else self.labels[board].to_flat_index(),
            "majority": numpy.array(self.majorities, object)[kind],
            "chair": chair + 1,
        }
        if isinstance(self._names, tuple):
            columns["name"] = [self._names[at].get(number + 1) for at, number in zip(board.tolist(), chair.tolist())]
        elif self._names:
            columns["name"] = numpy.array([self._names.get(it + 1) for it in range(shape[2])], object)[chair]
        columns.update(weight=self.weights[board, chair], swings=self.swings[board, kind, chair])
        if floats:
            columns.update((name, getattr(self, name)[board, kind, chair]) for name in INDEX_NAMES)
        else:
            chairs = [it for found in self for majority in self.majorities for it in found[majority].chairs]
            columns.update((name, [getattr(it, name) for it in chairs]) for name in INDEX_NAMES)
        return DataFrame(columns)

    def __repr__(self) -> str:
        majorities = ", ".join(self.majorities)
        return f"ManyIndices(boards={len(self)}, chairs={width_of(self.weights)}, majorities={majorities or None})"

    def _repr_html_(self) -> str:
        """The shares of the first boards in a notebook."""
        names = self._names if isinstance(self._names, dict) else {}
        chairs = range(1, width_of(self.weights) + 1)
        rows: list[list[object]] = [["board", "majority", "quota", "total", *(names.get(it, it) for it in chairs)]]
        for board in range(min(len(self), SHOWN)):
            label = board if self.labels is None else self.labels[board]
            for majority, it in self[board].items():
                shares = ["-" if share != share else f"{share:.6f}" for share in it.values("share")]
                rows.append([label, majority, it.quota, it.total, *shares, *[""] * (len(chairs) - len(shares))])
        head, *body = ["".join(f"<td>{escape(str(cell))}</td>" for cell in row) for row in rows]
        lines = "".join(f"<tr>{row}</tr>" for row in body)
        more = f"<p>… {len(self) - SHOWN} more boards</p>" if len(self) > SHOWN else ""
        table = f"<table><thead><tr>{head.replace('td>', 'th>')}</tr></thead><tbody>{lines}</tbody></table>"
        return f"<p>{escape(repr(self))}: shares of power</p>{table}{more}"

    def __reduce__(self) -> tuple[object, ...]:
        arrays = [getattr(self, name).tobytes() for name in ARRAYS]
        return restored, (self.majorities, len(self), arrays, self._names, self.labels)


ARRAYS = ("chairs", "total", "weights", "quota", "least_size", "omega", "swings")


def restored(
    majorities: tuple[Majority, ...], boards: int, arrays: list[bytes], names: Names, labels: Optional[Index]
) -> ManyIndices:
    """The counts of boards from the bytes of their arrays."""
    many, width = len(majorities), len(arrays[2]) // 8 // boards if boards else 0
    shapes: list[list[int]] = [[], [], [width], [many], [many], [many], [many, width]]
    found = [shaped(array("q", it), boards, *shape) for it, shape in zip(arrays, shapes)]
    return ManyIndices(majorities, *found, names, labels)  # type: ignore[call-arg]


def shaped(numbers: Any, *shape: int) -> Any:
    """Numbers as an array of numpy of a shape, or as a memoryview without numpy, that can't be written to."""
    try:
        import numpy
    except ImportError:
        view = memoryview(numbers)
        return (view.cast("B").cast(numbers.typecode, list(shape)) if all(shape) else view).toreadonly()
    found = numpy.asarray(numbers).reshape(shape)
    found.flags.writeable = False
    return found


class Boards(NamedTuple):
    """Boards that are checked, as `ManyIndices` has them."""

    chairs: Integers
    total: Integers
    weights: Integers
    names: Names
    labels: Optional[Index]


@dataclass(frozen=True)
class Job:
    """Boards to be counted, the numbers of the majorities, and the places for what is found."""

    boards: Boards
    numbers: list[int]
    found: dict[int, memoryview]

    def sheets(self, some: range) -> array[int]:
        """The words of the sheets of some boards."""
        chairs, total, weights, *_ = self.boards
        if isinstance(weights, memoryview):
            rows = [[weights[at, chair] for chair in range(chairs[at])] for at in some]
            return array("q", [word for at, row in zip(some, rows) for word in sheet_of(row, total[at])])
        import numpy

        words = array("q", [0]) * (SHEET_WORDS * len(some))
        sheets = numpy.frombuffer(words, "int64").reshape(len(some), SHEET_WORDS)
        part, width = slice(some.start, some.stop), width_of(weights)
        is_open = numpy.arange(width) < chairs[part, None]
        numpy.add(weights[part], 1, out=sheets[:, :width], where=is_open)
        sheets[:, CHAIRS] = total[part]
        return words

    def count(self, some: range) -> None:
        """Counts some boards, and puts their numbers in place."""
        is_all = set(self.numbers) == set(range(len(MAJORITIES)))
        step = COUNT_WORDS * (len(MAJORITIES) if is_all else len(self.numbers))
        sheets, raw = self.sheets(some), array("q", [0]) * (step * len(some))
        (first, words), (to, room) = sheets.buffer_info(), (raw.buffer_info()[0], addressof(rooms.room))
        given = range(first, first + 8 * words, 8 * SHEET_WORDS), repeat(SHEET_WORDS)
        if is_all:
            places = range(to, to + 8 * len(raw), 8 * step)
            check_all_done(map(long.board_all_counts_of_sheet, *given, repeat(room), places))
        for at, number in enumerate(self.numbers):
            if not is_all:
                places = range(to + 8 * COUNT_WORDS * at, to + 8 * len(raw), 8 * step)
                check_all_done(map(long.board_counts_of_sheet, *given, repeat(number), repeat(room), places))
            self.put(memoryview(raw)[COUNT_WORDS * (number if is_all else at) :], step, at, some)

    def put(self, raw: memoryview, step: int, majority: int, some: range) -> None:
        """Copies what was found by a majority to its places: a column of all boards at a time."""
        many, width = len(self.numbers), width_of(self.boards.weights)
        for word in (QUOTA, LEAST_SIZE, OMEGA):
            places = slice(some.start * many + majority, some.stop * many, many)
            self.found[word][places] = raw[word::step]
        for chair in range(width):
            first = (some.start * many + majority) * width + chair
            places = slice(first, some.stop * many * width, many * width)
            self.found[SWINGS][places] = raw[SWINGS + ROW_WORDS * chair :: step]

    def run(self, processors: int) -> None:
        """Counts all boards, on some processors at a time. Between two parts the call sees that it was interrupted, so
        boards of many chairs have small ones."""
        boards = len(self.boards.chairs)
        part = min(16 << (CHAIRS - width_of(self.boards.weights)) // 4, boards // processors + 1)
        in_threads(self.count, [range(at, min(at + part, boards)) for at in range(0, boards, part)], processors)


def check_all_done(numbers: Iterable[int]) -> None:
    """Raises the exception for the first number that isn't 0, of those that calls return."""
    for number in filter(None, numbers):
        check_done(number)


def in_threads(call: Callable[[Item], Found], items: Sequence[Item], threads: int) -> list[Found]:
    """The results of a call for each item, in the order of the items, by some threads at a time."""
    if min(threads, len(items)) < 2:
        return list(map(call, items))
    pool = ThreadPoolExecutor(threads)
    try:
        return list(pool.map(call, items))
    finally:
        pool.shutdown(cancel_futures=True)


def all_processors() -> int:
    """The number of processors that this process may use."""
    return len(os.sched_getaffinity(0)) if hasattr(os, "sched_getaffinity") else os.cpu_count() or 1


def boards_of(rows: Any, totals: Optional[Iterable[Whole]]) -> Boards:
    """Boards that are checked. Where an array isn't of numbers in range, each row is looked at by itself."""
    labels = getattr(rows, "index", None) if hasattr(rows, "to_numpy") else None
    table, given = (it.to_numpy() if hasattr(it, "to_numpy") else it for it in (rows, totals))
    columns, weights = names_of_columns(rows), integers_in(table, 2)
    if weights is not None and weights.shape[1] <= CHAIRS:
        cast_votes = weights.sum(axis=1)
        total = cast_votes if given is None else integers_in(given, 1)
        if total is not None and len(total) == len(weights) and ((cast_votes <= total) & (total <= TOTAL_VOTES)).all():
            chairs = array("q", [weights.shape[1]]) * len(weights)
            return Boards(shaped(chairs, len(chairs)), shaped(total, len(total)), weights, columns, labels)
    return boards_in(items_of(table, "the rows are", "weights of boards"), given, columns, labels)


def integers_in(given: Any, dimensions: int) -> Optional[Integers]:
    """The whole numbers of an array of numpy that has no others, and none out of range; else None."""
    try:
        from numpy import int64, ma, ndarray
    except ImportError:
        return None
    if not isinstance(given, ndarray) or isinstance(given, ma.MaskedArray) or given.dtype.kind not in "iuf":
        return None
    if given.ndim != dimensions or not given.size or not (given.min() >= 0 and given.max() <= TOTAL_VOTES):
        return None
    found = given.astype(int64, order="C")
    return shaped(found, *found.shape) if (found == given).all() else None


def boards_in(rows: list[Any], totals: Any, columns: dict[int, str], labels: Optional[Index]) -> Boards:
    """Boards of some rows, which are checked one by one."""
    given = [None] * len(rows) if totals is None else items_of(totals, "the totals are", ALLOWED["total"])
    if len(given) != len(rows):
        raise ValueError(f"there are {len(given)} totals for {len(rows)} rows")
    weights, wholes, names = [], array("q"), []
    for at, (row, total) in enumerate(zip(rows, given)):
        try:
            votes, named = weights_of(row, f"board {at + 1}: ")
            wholes.append(total_of(votes, total, f"board {at + 1}: "))
        except Refused as why:
            why.board = at if labels is None else labels[at]
            raise
        weights.append(array("q", votes).tobytes())
        names.append(named)
    many, size = len(weights), max(map(len, weights), default=0)
    padded = array("q", b"".join(it.ljust(size, b"\0") for it in weights))
    chairs = array("q", [len(it) // 8 for it in weights])
    own: Names = tuple(names) if any(names) else {}
    return Boards(shaped(chairs, many), shaped(wholes, many), shaped(padded, many, size // 8), columns or own, labels)


def names_of_columns(rows: Any) -> dict[int, str]:
    """The names of chairs, if the rows are a data frame whose columns have names."""
    columns = list(rows.columns) if hasattr(rows, "columns") else []
    return dict(enumerate(columns, 1)) if columns and all(isinstance(it, str) for it in columns) else {}


def width_of(weights: Integers) -> int:
    """The number of chairs of the largest board."""
    return weights.shape[1] if weights.ndim == 2 else 0


def indices_of_many(
    rows: Rows,
    majorities: Iterable[Majority] = MAJORITIES,
    *,
    totals: Optional[Iterable[Whole]] = None,
    processors: Optional[int] = None,
) -> ManyIndices:
    """The voting power of many boards, counted by several threads at a time.

        >>> many = indices_of_many([[50, 49, 1], [5, 5]], ["half", "85"])
        >>> many.omega.tolist()
        [[3, 2], [1, 1]]
        >>> many[1]["half"].swings
        (1, 1)

    rows: the weights of each board's chairs, as `indices` takes them: an array of numpy, a table of pandas, whose
        columns name the chairs and whose index labels the boards, or any iterable of rows, which may differ in length
    majorities: a list of "half", "70", "85" and "quorum"; by default all of them
    totals: the total voting power of each board, in votes; by default the sum of its weights
    processors: how many threads count; by default one for each processor

    All boards are checked before the first is counted. It raises what `indices` does, with the board counted from 1 in
    the message, and its label or its place from 0 as `board` of a `Refused`.

    A million boards of 12 chairs, by "half" and "85", take 352 MB beside the rows, 8 bytes for each number of the
    result, and each index as floats, when it is asked for, 192 MB more. Boards are counted in parts, and nothing else
    grows with their number, where the rows are an array of numpy or a table of pandas, of numbers. Other rows are
    looked at one by one, which takes some 10 microseconds a board.
    """
    if isinstance(majorities, str):
        raise wrong_type(majorities, "the majorities are", "a list of " + ALLOWED["majority"])
    threads = all_processors() if processors is None else processors
    if type(threads) is not int or threads < 1:
        raise ValueError(f"processors is {threads!r}: a whole number from 1")
    boards = boards_of(rows, totals)
    return counted(boards, [number_of(majority) for majority in majorities], threads)


def counted(boards: Boards, numbers: list[int], processors: int) -> ManyIndices:
    """The counts of boards that are checked, by the majorities of these numbers."""
    many, kinds, width = len(boards.chairs), len(numbers), width_of(boards.weights)
    sizes = {QUOTA: [kinds], LEAST_SIZE: [kinds], OMEGA: [kinds], SWINGS: [kinds, width]}
    found = {word: array("q", [0]) * (many * prod(size)) for word, size in sizes.items()}
    Job(boards, numbers, {word: memoryview(it) for word, it in found.items()}).run(processors)
    arrays = [shaped(found[word], many, *size) for word, size in sizes.items()]
    majorities = tuple(MAJORITIES[number] for number in numbers)
    return ManyIndices(majorities, *boards[:3], *arrays, *boards[3:])  # type: ignore[call-arg]
