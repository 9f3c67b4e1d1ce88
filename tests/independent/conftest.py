"""The options of the comparison."""
from __future__ import annotations

from pathlib import Path

import pytest

from tests.independent.inputs import KINDS
from tests.shared.sizes import drawn, seed


def pytest_addoption(parser: pytest.Parser) -> None:
    group = parser.getgroup("tests/independent")
    group.addoption("--inputs", type=int, default=drawn(1_000, 5_000), help="how many inputs there are")
    group.addoption("--seed", type=int, default=seed(), help="what they are made from (default: the commit)")
    group.addoption("--keep", type=Path, help="the folder for inputs that program and reader disagree about")
    group.addoption("--c", action="store_true", help="the program is that of board.c, which has no serve")


def pytest_generate_tests(metafunc: pytest.Metafunc) -> None:
    if "kind" in metafunc.fixturenames:
        kinds = KINDS.keys() - ({"threads"} if metafunc.config.getoption("--c") else set())
        metafunc.parametrize("kind", sorted(kinds))
