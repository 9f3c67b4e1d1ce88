"""The examples of the README and of the docstrings."""
from __future__ import annotations

import doctest
import importlib
import re
import subprocess
import sys
from pathlib import Path
from types import FunctionType

import pytest

import voting_board

README = Path(__file__).resolve().parents[1] / "README.md"
MODULES = sorted(f"voting_board.{it.stem}" for it in Path(voting_board.__file__).parent.glob("*.py"))


@pytest.mark.parametrize("name", MODULES)
def test_docstrings(name: str) -> None:
    found = doctest.testmod(importlib.import_module(name))
    assert found.failed == 0


def test_readme(monkeypatch: pytest.MonkeyPatch) -> None:
    pytest.importorskip("matplotlib").use("Agg")
    monkeypatch.chdir(README.parents[2])
    # Catches: an example that passes here alone, by options that `python -m doctest` doesn't set.
    found = doctest.testfile(str(README), module_relative=False)
    assert found.attempted > 10 and found.failed == 0


def test_many_boards_on_a_cluster(tmp_path: Path) -> None:
    # Catches: counts that a worker of Dask can't make or send, or that differ from those of one call.
    pytest.importorskip("distributed")
    [code] = re.findall(r"^```python\n(.*?)^```$", README.read_text(), re.MULTILINE | re.DOTALL)
    (tmp_path / "sample.py").write_text(code)
    subprocess.run([sys.executable, str(tmp_path / "sample.py")], cwd=tmp_path, check=True, timeout=300)


@pytest.mark.parametrize("name", voting_board.__all__)
def test_help(name: str) -> None:
    # Catches: a public call, class or method without help of its own: the README lists none of them.
    public = getattr(voting_board, name)
    if not isinstance(public, (type, FunctionType)):
        return
    methods = {f"{name}.{it}": part for it, part in vars(public).items() if isinstance(part, FunctionType)}
    shown = {it: part for it, part in methods.items() if not it.split(".")[1].startswith("_")}
    assert not [it for it, part in {name: public, **shown}.items() if not (part.__doc__ or "").strip()]
