"""Fixtures of the tests: the program, the answers of it and of the libraries, and what a compiler makes of board.c."""
from __future__ import annotations

from collections.abc import Iterator
from pathlib import Path

import pytest

from tests.portable.answers import Answers
from tests.portable.compilers import Built
from tests.shared.kept import Kept


@pytest.fixture(scope="session")
def answers(program: Path, kept: Kept) -> Answers:
    return Answers(program, kept)


@pytest.fixture(scope="session")
def built(request: pytest.FixtureRequest, tmp_path_factory: pytest.TempPathFactory) -> Iterator[Built]:
    """What a compiler makes: a test names its compilers by `on`."""
    made = Built(request.param, tmp_path_factory.mktemp(request.param.name))
    yield made
    made.close()
