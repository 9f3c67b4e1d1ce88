"""What all tests share: the folder of the program's answers, and what hypothesis draws, the same in each run."""
from __future__ import annotations

import os
import signal
import tempfile
from pathlib import Path

import pytest
from hypothesis import configuration, settings

settings.register_profile("fixed", derandomize=True, database=None, deadline=None, max_examples=100)
settings.load_profile("fixed")
# The tests write nothing next to themselves.
configuration.set_hypothesis_home_dir(tempfile.mkdtemp())
# A shell has the commands that it runs in the background ignore interrupts, which the tests send.
signal.signal(signal.SIGINT, signal.default_int_handler)


@pytest.fixture(scope="session")
def answers() -> Path:
    """The folder that BOARD_ANSWERS names, which tests/packages/answers.py writes."""
    assert "BOARD_ANSWERS" in os.environ, "BOARD_ANSWERS doesn't name the folder of the program's answers"
    return Path(os.environ["BOARD_ANSWERS"])
