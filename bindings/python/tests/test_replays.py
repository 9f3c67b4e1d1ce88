"""Replays as data and as text."""
from __future__ import annotations

import pickle
from pathlib import Path
from typing import Any

import pytest

from voting_board import (
    Accepted,
    Command,
    Fault,
    Published,
    Reading,
    Refusal,
    Refused,
    indices,
    library,
    replay,
    replay_text,
    replays,
)

SCRIPT = "member,votes\nAAA,50\nBBB,49\nscript\nopen,1\nmove,AAA,1\npublish\nread,1,half\nopen,1\n"


def test_outcomes() -> None:
    run = replay(SCRIPT)
    accepted, moved, published, reading, refused = run
    assert (accepted, moved, published) == (Accepted(5, 1), Accepted(6, 2), Published(7, 2))
    assert refused == Refusal(9, 1, "ChairOpen", "the chair is open already", Command("open", chair=1))
    assert isinstance(reading, Reading) and (reading.reader, reading.front, reading.record) == (1, 2, 8)
    board = indices([50], "half", total=99)
    assert (reading.swings, reading.quota, reading.least_size) == (board.swings, board.quota, board.least_size)
    assert (run.readings, run.refused, run.fault) == ((reading,), (refused,), None)
    assert list(run) == list(run) and pickle.loads(pickle.dumps(run)) == run
    assert list(pickle.loads(pickle.dumps(run))) == list(run)


def test_iterations_are_independent() -> None:
    run = replay(SCRIPT)
    first, second = iter(run), iter(run)
    next(first)
    assert [next(second), next(first), next(second)] == [Accepted(5, 1), Accepted(6, 2), Accepted(6, 2)]


def test_readings_before_the_first_publication() -> None:
    run = replay("member,votes\nAAA,5\nscript\nopen,1\nread,1,half\nread,1,half\npublish\nread,1,half\n")
    assert [(it.front, it.numbers, it.total) for it in run.readings] == [(0, (), 5), (0, (), 5), (1, (1,), 5)]


def test_readings_are_counted_once(monkeypatch: pytest.MonkeyPatch) -> None:
    counted, read = [], replays.read

    def counting(handle: library.Handle, majority: int) -> Any:
        counted.append(majority)
        return read(handle, majority)

    monkeypatch.setattr(replays, "read", counting)
    readings = "read,1,half\nread,1,half\nread,1,70\nread,1,half\n"
    run = replay(f"member,votes\nscript\nopen,1\n{readings}publish\n{readings}")
    assert len(run.readings) == 8 and counted == [0, 1, 0, 1]


def test_quoted_records() -> None:
    # Catches: records that are counted by a second reader: the mark and the words may be quoted in part.
    run = replay('\ufeff\n"member",votes\r"AAA",5\n\n"scr"ipt\r\n"op"en,1\n\n"rea"d,1,"ha"lf\n"open",1\n')
    assert [it.record for it in run] == [4, 5, 6] and run.refused[0].record == 6 and len(run.readings) == 1
    assert replay_text("member,votes\nscript\n" + '"re"ad,1,half\n' * 5)[0].count("reading") == 5


def test_limits() -> None:
    run = replay(SCRIPT + "open,2\nread,4,half\n", readers=4, journal=2)
    assert [it.name for it in run.refused] == ["ChairOpen", "JournalFull"] and run.readings[-1].reader == 4
    assert run.register().accepted == 2
    with pytest.raises(Refused, match="JournalFull"):
        run.register().open(2)
    fault = replay(SCRIPT + "read,4,half\nopen,9\n").fault
    assert fault == Fault(10, 22, "BadReader", "there is no reader of this number")


@pytest.mark.parametrize(
    "script, fault",
    [
        (b"", (0, 21, "BadHeader")),
        (b"member,votes\nAAA,1\n", (0, 28, "NoScript")),
        (b"member,votes\nAAA,1\nAAA,2\nscript\nopen,1\n", (0, 11, "DuplicateMember")),
        (b"member,votes\nAAA,1\nBBB\n", (3, 17, "BadRecord")),
        (
            b"member,votes\n" + b"".join(b"%c%cA,1\n" % (65 + at // 26, 65 + at % 26) for at in range(257)),
            (0, 12, "TooManyMembers"),
        ),
        (b"\xff" * 4_194_305, (0, 29, "TooLong")),
    ],
    ids=["BadHeader", "NoScript", "DuplicateMember", "BadRecord", "TooManyMembers", "TooLong"],
)
def test_faults_of_the_opening(script: bytes, fault: tuple[int, int, str]) -> None:
    run = replay(script)
    assert run.fault is not None and (run.fault.record, run.fault.number, run.fault.name) == fault
    assert list(run) == [] and replay_text(script) == (f"fault,{fault[0]},{fault[2]}\n", run.fault)
    with pytest.raises(Refused) as caught:
        run.register()
    assert caught.value.number == fault[1]


def test_the_register_of_a_run_with_a_fault() -> None:
    run = replay(SCRIPT + "open,2\nopne\n")
    assert run.fault is not None and run.fault.record == 11
    assert (run.register().accepted, run.register().published) == (3, 2)


def test_what_is_given(tmp_path: Path) -> None:
    # Catches: the name of a file that is replayed as a script.
    file = tmp_path / "script.csv"
    file.write_text(SCRIPT)
    for given in (SCRIPT.encode(), bytearray(SCRIPT.encode()), file):
        assert list(replay(given)) == list(replay(SCRIPT))  # type: ignore[arg-type]
        assert replay_text(given) == replay_text(SCRIPT)  # type: ignore[arg-type]
    for call in (replay, replay_text):
        with pytest.raises(ValueError, match=r"a single line: a file is given as pathlib.Path\('script.csv'\)"):
            call("script.csv")
        for value in (5, None, [SCRIPT]):
            with pytest.raises(TypeError, match="^the script is .*: text or bytes"):
                call(value)  # type: ignore[arg-type]
        with pytest.raises(FileNotFoundError):
            call(tmp_path / "none.csv")
