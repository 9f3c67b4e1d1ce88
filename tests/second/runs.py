"""Runs of `board replay` that Coq computes: the worked cases, and inputs from a seed."""
from __future__ import annotations

from collections.abc import Callable
from dataclasses import dataclass
from pathlib import Path
from random import Random

from tests.independent.counts import CLAUSES
from tests.independent.inputs import Input, hostile, many_members, scripts
from tests.independent.inputs import some_codes, some_command, some_votes, styled
from tests.independent.runs import limits_of
from tests.shared.inputs import Call, of_cases, replays
from tests.shared.runs import all_by_program
from tests.shared.sizes import drawn, seed

# With more chairs than this the weights are small, so that many coalitions have one weight and size.
MOST_CHAIRS = 10
# A case whose 2^24 coalitions have almost as many weights. The program counts it in tests/cases.
TOO_LARGE = "boards/twenty-four-chairs"


@dataclass(frozen=True)
class Compared:
    """A call of replay, and the text that it should print."""

    call: Call
    text: bytes


def boards(chance: Random) -> Input:
    """A board with zeros and ties, read at all majorities, changed by a few commands and read again. The last member is
    in no chair; with its votes the total is a multiple of 20, so that some coalitions just meet a quota."""
    many = chance.choice([chance.randint(0, MOST_CHAIRS), chance.randint(0, MOST_CHAIRS), chance.randint(11, 32)])
    chairs, codes, scale = chance.sample(range(1, 33), many), some_codes(chance, many + 2), chance.randint(0, 3)
    some = ["0", "1", "2"] if many > MOST_CHAIRS else ["0", "1", "50", *(some_votes(chance, scale) for _ in codes)]
    votes = [chance.choice(some) for _ in codes[1:]]
    votes.append(str(-sum(map(int, votes)) % 20))
    seats = [it for code, chair in zip(codes, map(str, chairs)) for it in (["open", chair], ["move", code, chair])]
    read = [["publish"], *(["read", "1", word] for word in CLAUSES)]
    changed = [some_command(chance, codes, chairs or [1], 0) for _ in range(3)]
    members = [list(it) for it in zip(codes, votes)]
    return Input(styled(chance, [["member", "votes"], *members, ["script"], *seats, *read, *changed, *read[:2]]))


# The kinds of inputs, and how many of each the gate draws.
KINDS: dict[str, tuple[Callable[[Random], Input], int]] = {
    "boards": (boards, 24),
    "scripts": (scripts, 24),
    "hostile": (hostile, 16),
    "members": (many_members, 2),
}


def of_kind(kind: str, program: Path) -> list[Compared]:
    """Inputs of a kind from the seed, and what the program prints."""
    make, many = KINDS[kind]
    calls = []
    for place in range(drawn(many, 10 * many)):
        made = make(Random(f"second/{kind}/{seed()}/{place}"))
        assert made.given is not None
        calls.append(Call(f"{kind} {place}", made.given, *limits_of(made.words)))
    ran = all_by_program(program, calls)
    return [Compared(call, run.text) for call, run in zip(calls, ran, strict=True)]


def of_file(name: str) -> list[Compared]:
    """The worked cases of `replay` in a file of tests/cases, and the text of each."""
    pairs = zip(replays(), of_cases(), strict=True)
    return [Compared(call, case.printed) for case, call in pairs if case.name.startswith(f"{name}/")]


FILES = sorted({it.name.split("/")[0] for it in replays()})
