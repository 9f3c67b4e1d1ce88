"""Commands in the unpacked release, as somebody without the toolchain runs them."""
from __future__ import annotations

import os
import subprocess
from pathlib import Path

from tests.shared.commands import Words, user_environment

SECONDS = 600


def path_without(tool: str) -> str:
    """The PATH without the folders that have a tool."""
    return os.pathsep.join(it for it in os.environ["PATH"].split(os.pathsep) if not (Path(it) / tool).exists())


def ran(words: Words, where: Path, **more: str) -> str:
    """The output of a command, on standard output and standard error; it fails if the command does."""
    environment = user_environment() | {"PATH": path_without("rt"), "LC_ALL": "C.UTF-8"} | more
    done = subprocess.run(
        words,
        cwd=where,
        env=environment,
        stdin=subprocess.DEVNULL,
        stdout=subprocess.PIPE,
        stderr=subprocess.STDOUT,
        text=True,
        timeout=SECONDS,
    )
    assert done.returncode == 0, f"status {done.returncode}:\n{done.stdout}"
    return done.stdout
