"""The options of the rounds."""
from __future__ import annotations

import pytest

from tests.shared.sizes import drawn, seed


def pytest_addoption(parser: pytest.Parser) -> None:
    group = parser.getgroup("tests/stress")
    group.addoption("--seconds", type=int, default=drawn(10, 600), help="how long rounds are run")
    group.addoption("--seed", type=int, default=seed(), help="the first round's (default: by the commit)")
