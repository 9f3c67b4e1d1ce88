"""Studies: scenarios, sweeps, thresholds, sentences and tables, compared with replays and with counts of their own."""
from __future__ import annotations

import json
import random
import re
import signal
import threading
from fractions import Fraction
from pathlib import Path
from typing import Any

import pytest
from hypothesis import given
from hypothesis import strategies as some

from voting_board import MAJORITIES, Register, indices_of_members, replay, replay_text, studies
from voting_board.amounts import BadStudy, shared_out
from voting_board.operations import records_of
from voting_board.saved_studies import command_of
from voting_board.scenarios import scenarios_in, sweep_of
from voting_board.studies import Moved, Study, study, thresholds
from voting_board.study_files import STUDY_COLUMNS, study_table
from voting_board.values import Whole

EXAMPLE = Path(__file__).resolve().parents[3] / "examples" / "members.csv"
ROWS = [("AAA", 40, 1), ("BBB", 25, 2), ("CCC", 16, 2), ("DDD", 12, 3), ("EEE", 8, None)]
SMALL = [{"code": code, "votes": votes, "chair": chair} for code, votes, chair in ROWS]
SCENARIOS = {
    "More": "votes,AAA,+12.5%",
    "Together": "votes,BBB+CCC,30% of total; move,EEE,1",
    "A new chair": ["open,4", "move,DDD,4", "close,3", "open,3"],
    "Away": "suspend,AAA; admit,ZZZ,5; move,ZZZ,2; move,DDD,none; withdraw,DDD",
}
SWEEPS = ["AAA 10..60 by 5 %", "from More: chair 2 10..30 by 10 %"]


@pytest.fixture(scope="module")
def small() -> Study:
    return study(SMALL, scenarios=SCENARIOS, sweeps=SWEEPS)


def test_script(small: Study) -> None:
    # Catches: a script whose readings are those of another register than the study's.
    readings = replay(small.script()).readings
    wanted = [found for it in small.results.values() for found in it.indices.values()]
    assert len(wanted) == len(MAJORITIES) * (1 + 4 + 11 + 3)
    for reading, it in zip(readings, wanted):
        for name in ("majority", "quota", "cast", "total", "omega", "numbers", "weights", "swings"):
            assert getattr(reading, name) == getattr(it, name)
    assert not replay(small.script()).refused
    sides = [pair for swept in small.sweeps for pair in swept.sides]
    assert sides and [it.majority for it in readings[len(wanted) :]] == [majority for majority, _ in sides]


def test_example() -> None:
    found = study(EXAMPLE, at=["85"], scenarios=["XAB +30%: votes,XAB,+30%"], sweeps="XAA 10..20 by 0.5 %")
    assert found.results["XAB +30%"].answers() == [
        "At 85 per cent, chair 1 Harbours keeps its veto, with 52,430 votes more than it needs. In share of power: "
        "chair 2 Hills gains most, +0.317 percentage points; chair 3 Plains loses most, -0.192 percentage points."
    ]
    assert found.sweeps[0].answers() == [
        "At 85 per cent, from 847,524 votes of XAA on, 14.886 per cent of the total voting power: chair 1 Harbours has "
        "a veto. With 847,523 votes it is not so."
    ]
    text, fault = replay_text(found.script())
    assert fault is None and len(found.hashes()["lines"]) == 64 and text.count("reading,") == 25


def test_thresholds_are_exact() -> None:
    # Catches: a threshold that is one vote too high or too low, or is another chair's.
    found = thresholds(SMALL, "AAA 10..60 by 25 %")
    assert {it.kind for it in found} == {"prevents", "powerless"}
    for it in found:
        for votes, is_so in ((it.votes, it.begins), (it.votes - 1, not it.begins)):
            rows = [{"votes": votes if code == "AAA" else own, "chair": chair} for code, own, chair in ROWS]
            board = indices_of_members(rows, it.majority)
            chair = board.chairs[board.numbers.index(it.chair)]
            assert (chair.swings == 0 if it.kind == "powerless" else 0 < chair.swings == board.omega) == is_so
        assert it.share == Fraction(it.votes, it.votes + 61)


def commands() -> list[str]:
    codes, chairs = ["AAA", "BBB", "CCC", "DDD", "EEE", "ZZZ"], ["1", "2", "3", "4", "none"]
    return [f"{kind},{code}" for kind in ("suspend", "restore", "withdraw") for code in codes] + [
        *(f"move,{code},{chair}" for code in codes for chair in chairs),
        "admit,ZZZ,7",
        "votes,AAA,3",
        "votes,ZZZ,9",
        *(f"{kind},{chair}" for kind in ("open", "close") for chair in "1234"),
    ]


@pytest.mark.parametrize("seed", range(40))
def test_way_back(seed: int) -> None:
    # Catches: a script whose later readings start from another register than the base.
    lot, moved = random.Random(seed), Moved(Register(SMALL))
    for command in lot.choices(commands(), k=60):
        try:
            moved = moved.after([command])
        except BadStudy:
            continue
    assert len(moved.taken) > 5
    again = moved.register.copy()
    again.submit(list(moved.back))
    base = Register(SMALL)
    assert again.members == base.members and again.chairs.keys() == base.chairs.keys()


@given(some.integers(0, 10**6), some.lists(some.integers(0, 10**6), min_size=1, max_size=6).filter(any))
def test_shared_out(votes: int, weights: list[int]) -> None:
    # Catches: votes that are lost or made when they are shared out.
    parts = shared_out(votes, dict(zip("abcdef", weights)))
    assert sum(parts.values()) == votes
    assert all(abs(part - Fraction(votes * own, sum(weights))) < 1 for part, own in zip(parts.values(), weights))


@pytest.mark.parametrize(
    "command, records",
    [
        ("votes,EEE,+25%", ["votes,EEE,10"]),
        ("votes,EEE,-31.25%", ["votes,EEE,6"]),
        ("votes,BBB,+2%", ["votes,BBB,26"]),
        ("votes,AAA,50% of total", ["votes,AAA,61"]),
        ("votes,chair 2,+100%", ["votes,BBB,50", "votes,CCC,32"]),
        ("votes,BBB+CCC,-90%", ["votes,BBB,2", "votes,CCC,2"]),
        ("votes,BBB+CCC,3", ["votes,BBB,2", "votes,CCC,1"]),
    ],
)
def test_amounts(command: str, records: list[str]) -> None:
    assert records_of(Register(SMALL).members, command) == records


def operations() -> list[dict[str, Any]]:
    """The cases that the page's units read, too."""
    path = EXAMPLE.parents[1] / "tests" / "packages" / "operations.json"
    return list(json.loads(path.read_text())) if path.exists() else []


@pytest.mark.parametrize("case", operations(), ids=lambda it: str(it["text"]))
def test_operations(case: dict[str, Any]) -> None:
    # Catches: another meaning of an operation than in the page, also where members or all others have no votes; a text
    # that the page's study becomes and that means something else.
    votes = {"AAA": 50, "BBB": 30, "CCC": 20, "DDD": 45, "EEE": 5}
    register = Register({"code": [*votes], "votes": [*votes.values()]})
    places = [("AAA", 1), ("BBB", 1), ("CCC", 1), ("DDD", 2)]
    register.submit(
        [*(f"open,{it}" for it in (1, 2, 3)), *(f"move,{code},{it}" for code, it in places), *case["start"]]
    )
    assert command_of(case["data"]) == case["text"]
    if "why" in case:
        with pytest.raises(BadStudy, match=re.escape(case["why"])):
            Moved(register).after([case["text"]])
        return
    [taken] = Moved(register).after([case["text"]]).taken
    assert list(map(str, taken.done)) == case["records"]
    # A move or a split of one member is the register's own command in a text.
    assert taken.operation == case["data"]


@pytest.mark.parametrize(
    "command, said",
    [
        ("merge,1", "'merge,1': '' isn't a chair, which is a whole number from 1 to 32"),
        ("merge,1,33", "'merge,1,33': '33' isn't a chair"),
        ("dissolve,2,3,4", "'dissolve,2,3,4': dissolve takes chair, to"),
        ("split,Bland", "'split,Bland': 'Bland' isn't codes joined by +"),
        ("scale,BBB,10%", "'scale,BBB,10%': '10%' isn't per cent with a sign, such as +10%"),
        ("share,BBB,+6%,pay", "'share,BBB,+6%,pay': '+6%' isn't per cent of the total such as 20%, or points"),
        ("share,BBB,6%", "'share,BBB,6%': '' isn't what the others do: pay or keep"),
        ("move,BBB+CCC,x", "'move,BBB+CCC,x': 'x' isn't a chair, or nothing for no chair"),
    ],
)
def test_wrong_operations(command: str, said: str) -> None:
    # Catches: a wrong operation that is carried out as another one.
    with pytest.raises(BadStudy, match=re.escape(said)):
        study(SMALL, scenarios={"It": command})


@pytest.mark.parametrize(
    "scenario, said",
    [
        ("Moved: move,AAA,9", "scenario 'Moved': refused 'move,AAA,9': ChairNotOpen (2), the chair is not open"),
        ("Half: votes,AAA,50%", "scenario 'Half': '50%' has two meanings: write 50% of total for a share of the total"),
        ("Who: votes,QQQ,+5%", "scenario 'Who': 'votes,QQQ,+5%': no member has the code QQQ"),
        ("Twice: votes,AAA+AAA,5", "scenario 'Twice': 'votes,AAA+AAA,5': AAA+AAA names a member twice"),
        ("Less: votes,AAA,-150%", "scenario 'Less': 'votes,AAA,-150%': AAA would have -20 votes, and votes are from 0"),
        ("Read: read,1,half", "scenario 'Read': 'read,1,half' is no command of a scenario: these are open, close,"),
        ("base: open,9", "two scenarios have the label 'base'"),
        ("open,9", "'open,9' isn't of the form 'LABEL: command; command'"),
        ("Nothing: ;", "the scenario 'Nothing' has no command"),
    ],
)
def test_refused_scenarios(scenario: str, said: str) -> None:
    # Catches: a scenario that is counted without one of its commands.
    with pytest.raises(BadStudy) as why:
        study(SMALL, scenarios=[scenario, "Good: open,9"])
    assert str(why.value).startswith(said) and "\n" not in str(why.value)


@pytest.mark.parametrize(
    "sweep, said",
    [
        ("AAA 10..20 by 3 %", "whole steps lead from FROM to TO"),
        ("AAA 20..10 by 1 %", "whole steps lead from FROM to TO"),
        ("AAA 0..99 by 0.01 %", "has more than 1001 steps"),
        ("AAA 1..2", "isn't of the form"),
        ("EEE 1..2 by 1 %", "EEE sits in no chair"),
        ("chair 9 1..2 by 1 %", "chair 9 has no member whose votes count"),
        ("from None: chair 2 1..2 by 1 %", "these members have no votes, so no proportions to keep"),
        ("from Lost: AAA 1..2 by 1 %", "no scenario has the label 'Lost'"),
    ],
)
def test_refused_sweeps(sweep: str, said: str) -> None:
    with pytest.raises(BadStudy, match=said):
        study(SMALL, scenarios={"None": "votes,BBB,0; votes,CCC,0"}, sweeps=[sweep])


@pytest.mark.parametrize(
    "name, text, said",
    [
        ("a.toml", "x = " + "[" * 3000, "a.toml: no TOML of scenarios: it is nested too deeply"),
        ("a.toml", "x = " + "1" * 5000, "a.toml: no TOML"),
        ("a.toml", "[[scenario]]\nlabel = 1\ncommands = 2", "a.toml: scenario 1: the label is a text"),
        ("a.toml", "scenario = 5", "a.toml: no TOML of scenarios: it has a table [[scenario]] for each"),
        ("a.csv", "label,commands\nA,votes,AAA,5\n", "a.csv: row 2: a scenario has a label and commands"),
        ("a.csv", "label\nA\n", "a.csv: row 1: the header of scenarios is label,commands"),
        ("a.csv", "label,commands\n", "a.csv: there is no scenario in the file"),
        ("a.csv", 'label,commands\n"A', "a.csv: no CSV: unexpected end of data"),
        ("a.csv", "label,commands\nA,\udcff\n", "a.csv: no UTF-8 at byte 17"),
    ],
)
def test_refused_files(name: str, text: str, said: str) -> None:
    # Catches: a traceback.
    if name.endswith("toml"):
        pytest.importorskip("tomllib")
    with pytest.raises(BadStudy) as why:
        scenarios_in(name, text.encode("utf-8", "surrogateescape"))
    assert str(why.value).startswith(said) and "\n" not in str(why.value)


def test_files() -> None:
    text = 'label,commands\n"A, B","votes,AAA,5; open,9"\n'
    wanted = [("A, B", ("votes,AAA,5", "open,9"))]
    assert [(it.label, it.commands) for it in scenarios_in("a.csv", b"\xef\xbb\xbf" + text.encode())] == wanted
    pytest.importorskip("tomllib")
    text = '[[scenario]]\nlabel = "A, B"\ncommands = ["votes,AAA,5", "open,9"]\n'
    assert [(it.label, it.commands) for it in scenarios_in("a.toml", text.encode())] == wanted


def test_new_and_closed_chairs(small: Study) -> None:
    # Catches: a difference between a chair that was closed and the one that was opened later in its place.
    found = small.results["A new chair"]
    assert found.opened == {3, 4} and found.gains("share", "half").keys() == {1, 2}
    said = found.answers()[0]
    assert "Chair 3 is new: 0.000 %. Chair 4 DDD is new:" in said and "Chair 3 DDD is closed; in the ba" in said


def test_records(small: Study) -> None:
    # Catches: a difference from another result than the base, or a float where a fraction is exact.
    rows = small.records()
    assert list(rows[0])[:4] == ["scenario", "sweep", "percent", "majority"]
    base = {(row["majority"], row["chair"]): row for row in rows if row["scenario"] == "base"}
    for row in rows:
        old, share = base[row["majority"], 1], row["share"]
        if row["chair"] == 1 and share is not None:
            assert isinstance(share, Fraction) and row["share_difference"] == share - Fraction(str(old["share"]))
    assert len(rows) == sum(len(it.numbers) for one in small.results.values() for it in one.indices.values())
    assert all(isinstance(row["banzhaf"], float) for row in small.records(floats=True))


def test_frame(small: Study) -> None:
    pandas = pytest.importorskip("pandas")
    frame = small.to_dataframe(floats=True)
    columns = ["chair", "name", "weight", "swings", "vote_share", "banzhaf", "share", "prevent", "initiate"]
    assert [it for it in frame if it in columns] == columns and frame["share"].dtype == float
    pivot = frame[frame["sweep"] == SWEEPS[0]].pivot_table(index="percent", columns="majority", values="share")
    assert set(pivot) == set(MAJORITIES) and len(pivot) == 11
    assert study(pandas.DataFrame(SMALL)).results["base"].indices == small.results["base"].indices


def test_table(small: Study) -> None:
    # Catches: a decimal that is rounded twice, and a cell of another row.
    header, *lines = study_table(small, []).splitlines()
    assert header == ",".join(STUDY_COLUMNS)
    for line, row in zip(lines, small.records()):
        cells = dict(zip(STUDY_COLUMNS, line.split(",")))
        assert (cells["scenario"], cells["chair"]) == (row["scenario"], str(row["chair"]))
        for column, name in zip(("vote_share", "power_share", "prevent"), ("vote_share", "share", "prevent")):
            if isinstance(exact := row[name], Fraction):
                parts = tuple(int(cells[f"{column}_{end}"]) for end in ("numerator", "denominator"))
                assert parts == exact.as_integer_ratio()
                assert abs(Fraction(cells[column]) - exact) <= Fraction(1, 2 * 10**10)
                added = row[f"{name}_difference"]
                if isinstance(added, Fraction):
                    assert abs(Fraction(cells[f"{column}_difference"]) - added) <= Fraction(1, 2 * 10**10)
            else:
                assert cells[column] == ""


def test_sweep_of_a_group() -> None:
    votes: Whole = 40
    assert sweep_of("AAA+BBB 1..2 by 0.25 %").percents == ["1.00", "1.25", "1.50", "1.75", "2.00"]
    found = study(Register({"AAA": votes, "BBB": 60}), at="half")
    assert found.results["base"].answers() == [
        "At a simple majority no coalition wins: the open chairs cast 0 of 100 votes."
    ]


@pytest.mark.parametrize("processors", [1, 2, 5])
def test_processors(small: Study, processors: int, monkeypatch: pytest.MonkeyPatch) -> None:
    # Catches: results in the order in which threads end, and counts of another result's register.
    monkeypatch.setattr("voting_board.studies.all_processors", lambda: processors)
    found = study(SMALL, scenarios=SCENARIOS, sweeps=SWEEPS)
    assert list(found.results) == list(small.results)
    assert found.records() == small.records() and found.script() == small.script()
    assert [it.thresholds for it in found.sweeps] == [it.thresholds for it in small.sweeps]


def test_interrupt(monkeypatch: pytest.MonkeyPatch) -> None:
    # Catches: a study that counts to its end after Ctrl-C, for minutes of the processors.
    monkeypatch.setattr("voting_board.studies.all_processors", lambda: 2)
    codes = [f"A{tens}{ones}" for tens in "AB" for ones in "ABCDEFGHIJKLMNOP"]
    rows = [{"code": code, "votes": 2**30 + at, "chair": at} for at, code in enumerate(codes, 1)]
    counted, done = studies.counted, list[int]()

    def counted_once(*given: Any) -> Any:
        done.append(1)
        return counted(*given)

    monkeypatch.setattr(studies, "counted", counted_once)
    threading.Timer(0.7, signal.raise_signal, [signal.SIGINT]).start()
    with pytest.raises(KeyboardInterrupt):
        study(rows, sweeps=[f"{it} 1..91 by 0.1 %" for it in codes])
    assert len(done) < 32 * 901 / 2
