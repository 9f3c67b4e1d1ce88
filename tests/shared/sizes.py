"""How much is tested, and what random inputs are made from. It is a plugin of pytest, too.

Before a change is merged, less is tested than before a release, for which `make deep` sets DEEP. `drawn` says how many
inputs a test takes in each case. A test with the marker `deep` runs only before a release; the marker's argument says
why it may. Random inputs are made from the commit, so that each commit tries others. SEED=N tries those of N again."""
from __future__ import annotations

import os
import subprocess
from functools import cache
from pathlib import Path
from typing import TYPE_CHECKING

# What makes the packages' answers needs no pytest.
if TYPE_CHECKING:
    import pytest

TOP = Path(__file__).resolve().parents[2]
IS_DEEP = bool(os.environ.get("DEEP"))


def drawn(merge: int, deep: int) -> int:
    """How many inputs a test takes."""
    return deep if IS_DEEP else merge


@cache
def seed() -> int:
    """What random inputs are made from: SEED, or a number of the last commit; 0 outside a clone."""
    if "SEED" in os.environ:
        return int(os.environ["SEED"])
    words = ["git", "-C", str(TOP), "rev-parse", "--short=7", "HEAD"]
    commit = subprocess.run(words, capture_output=True, text=True).stdout.strip()
    return int(commit[:7] or "0", 16)


def pytest_configure(config: pytest.Config) -> None:
    config.addinivalue_line("markers", "deep(why): runs only before a release, for this reason")


def pytest_report_header() -> str:
    return f"tests before a {'release' if IS_DEEP else 'merge'}, SEED={seed()}"


def pytest_collection_modifyitems(config: pytest.Config, items: list[pytest.Item]) -> None:
    if not IS_DEEP:
        left_out = [it for it in items if it.get_closest_marker("deep")]
        config.hook.pytest_deselected(items=left_out)
        items[:] = [it for it in items if it not in left_out]
