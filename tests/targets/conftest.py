"""What the tests of the library and of the module share: programs over the library."""
from __future__ import annotations

from collections.abc import Callable

import pytest

from tests.shared.commands import TOP, Words, printed
from tests.shared.kept import Kept
from tests.shared.libraries import native, over

STATIC = ["-static", "-O2"]


@pytest.fixture(scope="session")
def built(kept: Kept) -> Callable[[str], Words]:
    """Compiles a program in C of the tests, and returns its command."""

    def command(name: str) -> Words:
        made = kept.folder / name.replace("/", "-")
        return [kept(made.name, lambda: over(native(), TOP / "tests" / f"{name}.c", made, *STATIC))]

    return command


@pytest.fixture(scope="session", autouse=True)
def package(kept: Kept) -> None:
    """Builds the package for JavaScript, which calls the module."""
    kept("package", lambda: printed([str(TOP / "bindings" / "javascript" / "build")]))
