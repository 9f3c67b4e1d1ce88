"""What the tests of all folders share."""
from __future__ import annotations

import os
from pathlib import Path

import pytest

from tests.shared.kept import Kept


@pytest.fixture(scope="session")
def program() -> Path:
    """The built program, which BOARD names."""
    found = Path(os.environ["BOARD"]).resolve()
    assert found.is_file(), f"{found} isn't here: make builds it"
    return found


@pytest.fixture(scope="session")
def kept(tmp_path_factory: pytest.TempPathFactory) -> Kept:
    """Results that are made once. They are kept next to the workers' folders, so that all of them share it."""
    return Kept(tmp_path_factory.getbasetemp().parent / "kept")
