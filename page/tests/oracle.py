"""The answers of the program and of the package for Python, with which the page is compared."""
from __future__ import annotations

import subprocess
from collections.abc import Callable
from pathlib import Path
from typing import Any

from member_tables import MemberTable, input_lines, read_table
from replay_output import Output, read_output
from tests.independent.counts import CLAUSES
from voting_board.scenarios import Scenario
from voting_board.studies import Study, study
from voting_board.study_files import study_table

TOP = Path(__file__).resolve().parents[2]
EXAMPLE = TOP / "examples" / "members.csv"
MAJORITIES = list(CLAUSES)
# Those that the page doesn't show at first.
UNSHOWN = [it for it in MAJORITIES if it not in ("half", "85")]


def text_of(records: list[str]) -> str:
    return "".join(f"{it}\n" for it in records)


class Oracle:
    """The built program, and the table of members that the page begins with."""

    def __init__(self, program: Path):
        self.program = program
        self.table = read_table(EXAMPLE.read_bytes())

    def lines(self, script: bytes) -> bytes:
        """The output of `board replay` for a script, even if it ends in a fault."""
        return subprocess.run([self.program, "replay"], input=script, stdout=subprocess.PIPE).stdout

    def script(self, commands: list[str], majorities: list[str]) -> str:
        """The script of a study as the page writes it: the base, its readings, the commands, and readings again."""
        reads = ["publish", *(f"read,1,{it}" for it in majorities)]
        return text_of([*input_lines(self.table), *reads, *commands, *reads])

    def output(self, commands: list[str], majorities: list[str]) -> Output:
        """The readings after commands on the table's register."""
        records = [*input_lines(self.table), *commands, "publish", *(f"read,1,{it}" for it in majorities)]
        return read_output(self.lines(text_of(records).encode()))

    def answers(self, commands: list[str]) -> list[str]:
        """The line that answers each command on the table's register."""
        lines = self.lines(text_of([*input_lines(self.table), *commands]).encode()).decode().splitlines()
        return lines[len(lines) - len(commands) :]

    def study(self, scenarios: dict[str, list[str]], majorities: list[str], *sweeps: str) -> str:
        """The rows of a study, as board-study writes them: commands by their label, and sweeps."""
        return study_table(self.studied(scenarios, majorities, *sweeps), [])

    def studied(self, scenarios: dict[str, list[str]], majorities: list[str], *sweeps: str) -> Study:
        """A study by the package, whose answers board-study prints."""
        labelled = [Scenario(label, tuple(commands)) for label, commands in scenarios.items()]
        at: Any = majorities
        return study(self.table.rows(), at=at, scenarios=labelled, sweeps=sweeps)


def least(holds: Callable[[int], bool], low: int, high: int) -> int:
    """The least number from `low` to `high` for which `holds` is true, by bisection: it must be true from there on."""
    while low < high:
        middle = (low + high) // 2
        low, high = (low, middle) if holds(middle) else (middle + 1, high)
    return low
