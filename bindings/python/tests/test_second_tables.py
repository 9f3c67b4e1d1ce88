"""A second table as a scenario: the changes that the page makes of it, in the study file that the page saves."""
from __future__ import annotations

import json
import random
from dataclasses import replace
from pathlib import Path
from typing import Any

import pytest

from voting_board import Register
from voting_board.saved_studies import read_saved
from voting_board.second_tables import second_table
from voting_board.strict import StrictMember, StrictTable
from voting_board.studies import Base, Moved, base_of, study
from voting_board.study_files import page_data


def tables() -> list[dict[str, Any]]:
    """The cases that the page's units read, too."""
    path = Path(__file__).resolve().parents[3] / "tests" / "packages" / "second_tables.json"
    return list(json.loads(path.read_text())) if path.exists() else []


def table_of(rows: list[Any], names: dict[str, str]) -> StrictTable:
    members = (StrictMember(at, *[*row, False][:5]) for at, row in enumerate(rows, 2))
    return StrictTable(tuple(members), {int(it): name for it, name in names.items()}, (), (), "")


def first_of(table: StrictTable, empty: list[int]) -> Base:
    """The base of a table, with further open chairs."""
    base = base_of(table)
    for chair in empty:
        base.register.open(chair)
    return base


def contents(register: Register) -> tuple[Any, Any]:
    """The members' votes and suspensions, and who sits together, whatever the chairs' numbers are."""
    own = {code: (it.votes, it.suspended) for code, it in register.members.items()}
    return own, sorted(sorted(it) for it in register.chairs.values())


@pytest.mark.parametrize("case", tables(), ids=lambda it: str(it["title"]))
def test_the_changes_of_the_page(case: dict[str, Any]) -> None:
    # Catches: other changes, names or sentences than the page's for the same tables; a name that a saved study loses.
    base = first_of(table_of(case["first"], case.get("firstNames", {})), case.get("open", []))
    found = second_table(base, table_of(case["second"], case.get("secondNames", {})), "Later")
    assert list(found.said) == case["said"]
    again = study(base, at="half", scenarios=[found.scenario])
    text = page_data(again, "It", [])
    [scenario] = json.loads(text)["study"]["scenarios"]
    assert scenario["name"] == "Later" and all(it.pop("on") for it in scenario["changes"])
    assert [it.pop("id") for it in scenario["changes"]] == list(range(1, len(case["changes"]) + 1))
    assert scenario["changes"] == case["changes"]
    saved = read_saved(text.encode())
    assert list(saved.scenarios) == ([found.scenario] if case["changes"] else [])
    opened = {it["what"]["chair"]: it["chairName"] for it in case["changes"] if "chairName" in it}
    assert opened.items() <= again.results["Later"].names.items()


def test_names_of_new_members() -> None:
    # Catches: a chair that is named after the member that had the new one's code.
    base = first_of(table_of([["XAA", "Old", 5, 1], ["BBB", "Belland", 4, 2]], {}), [])
    later = second_table(base, table_of([["XAA", "New", 6, 1], ["BBB", "Belland", 4, 2]], {}), "Later").scenario
    result = study(base, at="half", scenarios=[later, replace(later, label="Unnamed", names=())]).results
    assert [result[it].names[1] for it in ("base", "Later", "Unnamed")] == ["Old", "New", "Old"]


@pytest.mark.parametrize("seed", range(60))
def test_any_second_table(seed: int) -> None:
    # Catches: a move to a chair that isn't open yet, a suspended member that is moved, a chair that is closed with
    # members in it, and the 33rd chair.
    lot = random.Random(seed)
    chairs = lot.randint(1, 32)

    def drawn() -> StrictTable:
        codes = [f"{one}A{two}" for one in "AB" for two in "ABCDEFGHIJKLMNOPQRSTUVWXYZ" if lot.random() < 0.7]
        seats = [lot.randint(1, chairs) if lot.random() < 0.9 else None for _ in codes]
        rows = [[code, "", lot.randrange(1000), seat, lot.random() < 0.1] for code, seat in zip(codes, seats)]
        return table_of(rows, {})

    one, two = drawn(), drawn()
    used = {it.chair for it in one.members}
    base = first_of(one, [it for it in range(1, 33) if it not in used])
    scenario = second_table(base, two, "Later").scenario
    moved = Moved(base.register).after(scenario.commands, scenario.names)
    assert contents(moved.register) == contents(base_of(two).register)
