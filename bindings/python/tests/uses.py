"""Lines of programs that use voting_board: mypy finds an error in each line that ends in `# wrong`, and in no other."""
from array import array
from collections.abc import Iterator
from dataclasses import dataclass
from fractions import Fraction
from pathlib import Path
from typing import NamedTuple, Optional

import numpy
from typing_extensions import assert_type

from voting_board import (
    Accepted,
    Command,
    Indices,
    Majority,
    Member,
    Reading,
    Refused,
    Register,
    indices,
    indices_of_all,
    indices_of_many,
    indices_of_members,
    replay,
    replay_text,
)
from voting_board.studies import Study, study, thresholds


def weights() -> Iterator[int]:
    yield 50


@dataclass
class Row:
    code: str
    votes: int


class Named(NamedTuple):
    votes: int
    chair: int


majority: Majority = "half"
board: Indices = indices([50, 49, 1], majority)
indices(weights(), "70", total=50)
indices(array("Q", [1, 2]), "quorum")
indices(numpy.array([1, 2]), "quorum")
indices([5.0, 4], "85")
indices({"North": 50}, majority="85")
share: Optional[Fraction] = board.chairs[0].share
quota: int = indices_of_all([1])["70"].quota
many = indices_of_many((weights() for _ in range(3)), ["half", "85"], processors=2)
assert_type(many[3]["half"], Indices)
half: Indices = many[0]["half"]
omega: int = int(many.omega.sum())
difference = many.swings - many.swings
shares: list[float] = many.share[0, 0].tolist()
wins: list[int] = [it["85"].omega for it in many]
many.to_dataframe(floats=False)
indices_of_members([Member(5, 1), Named(1, 2)], "half", open_chairs=[3])
indices_of_members({"votes": [5], "chair": [None]}, "half")
register = Register({"AAA": 50})
Register([Row("AAA", 5)], journal=5)
Register([{"code": "AAA", "votes": 5}])
accepted: int = register.move("AAA", None)
register.submit(["open,1", Command("open", chair=2)])
refusal: Optional[Refused] = register.attempt("open,1")
command: Optional[str] = Refused(1, "", "open,1").command
register.copy().undo()
for outcome in replay(Path("script.csv")):
    if isinstance(outcome, (Reading, Accepted)):
        record: int = outcome.record
text: str = replay_text(b"")[0]
found: Study = study(Path("members.csv"), at="85", scenarios={"More": "votes,AAA,+5%"}, sweeps=["AAA 1..2 by 1 %"])
gain: Fraction = found.results["More"].gains("share", "85")[1]
least: int = thresholds(register, "AAA 1..2 by 1 %")[0].votes
study(Path("members.csv"), at=["90"])  # wrong
indices([50, 49, 1])  # wrong
indices([50, 49, 1], "seventy")  # wrong
indices(["50"], "half")  # wrong
indices([50], "half", 60)  # wrong
register.open("1")  # wrong
register.move("AAA")  # wrong
register.submit(5)  # wrong
replay(5)  # wrong
many["half"]  # wrong
many[0]["70%"]  # wrong
many.to_dataframe(False)  # wrong
board.omega = 5  # wrong
board.chairs[0].swings = 5  # wrong
Command("opne")  # wrong
board.chair(None)  # wrong
with register.copy():  # wrong
    pass
indices_of_members([(50, 1)], "half")  # wrong
fraction: Fraction = board.chairs[0].share  # wrong
board.values("power")  # wrong
