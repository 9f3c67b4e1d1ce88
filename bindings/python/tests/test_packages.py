"""The source package and the wheels that bindings/python/check has built."""
from __future__ import annotations

import os
import platform
import re
import shutil
import subprocess
import sys
import tarfile
from collections.abc import Iterator
from pathlib import Path
from zipfile import ZipFile

import pytest

import voting_board
from voting_board import __version__ as version

HERE = Path(__file__).resolve().parent
TOP = HERE.parents[2]
PORTABLE = TOP / "portable"
WHEEL = f"voting_board-{version}-py3-none-"
# The platforms of the wheels, of which the first is this system's.
OWN = f"manylinux_2_17_{platform.machine()}"
OTHERS = pytest.mark.deep("the gate makes no wheel of another system")
LINUX = [OWN, pytest.param("manylinux_2_17_aarch64", marks=OTHERS)]
INFO = f"voting_board-{version}.dist-info"
DONE = f"{version} 3: 3 1 1\n"


def ran(*words: object, **more: str) -> str:
    """The output of a command, with more in its environment."""
    done = subprocess.run(list(map(str, words)), env=os.environ | more, capture_output=True, text=True, timeout=600)
    assert done.returncode == 0, f"{words}\n{done.stdout}\n{done.stderr}"
    return done.stdout


@pytest.fixture(scope="module")
def packages() -> Path:
    """The folder of the packages."""
    assert "BOARD_PACKAGES" in os.environ, "BOARD_PACKAGES doesn't name the folder of the packages: run check"
    return Path(os.environ["BOARD_PACKAGES"])


@pytest.fixture()
def source(packages: Path, tmp_path: Path) -> Path:
    """The source package, unpacked."""
    with tarfile.open(packages / f"voting-board-{version}.tar.gz") as packed:
        packed.extractall(tmp_path)
    return tmp_path / f"voting-board-{version}"


def built(source: Path, *options: str, **more: str) -> Path:
    """A wheel of a source package."""
    words = [sys.executable, "-m", "build", "--no-isolation", "--wheel", *options, source]
    ran("bash", "-c", 'umask 077; exec "$@"', "bash", *words, TZ="Asia/Tokyo", **more)
    (wheel,) = (source / "dist").glob("*.whl")
    return wheel


def test_the_installed_package_is_tested() -> None:
    assert Path(voting_board.__file__).is_relative_to(sys.prefix)


def test_commands() -> None:
    for command in ("study", "figures", "recount"):
        assert ran(Path(sys.prefix, "bin", f"board-{command}"), "--version") == f"board-{command} {version}\n"


def test_source_package(source: Path) -> None:
    for name in ("board.c", "board.h"):
        assert (source / name).read_bytes() == (PORTABLE / name).read_bytes()
    assert (source / "board.html").read_bytes() == (TOP / "board.html").read_bytes()
    assert (source / "src/voting_board/py.typed").exists() and (source / "setup.py").exists()


@pytest.mark.parametrize("system", [*LINUX, pytest.param("win_amd64", marks=OTHERS)])
def test_wheels(packages: Path, system: str) -> None:
    library = "board.dll" if system == "win_amd64" else "libboard.so"
    with ZipFile(packages / f"{WHEEL}{system}.whl") as wheel:
        names = {it for it in wheel.namelist() if it.startswith("voting_board/")}
        about, tags = (wheel.read(f"{INFO}/{name}").decode() for name in ("METADATA", "WHEEL"))
        infos = [it for it in wheel.infolist() if not it.filename.endswith("RECORD")]
    modules = {f"voting_board/{it.name}" for it in (HERE.parent / "src/voting_board").glob("*.py")}
    assert names == modules | {f"voting_board/{it}" for it in ("py.typed", "board.html", library)}
    assert f"Tag: py3-none-{system}\n" in tags and "Root-Is-Purelib: false\n" in tags
    assert {it.external_attr >> 16 & 0o777 for it in infos} == {0o644} and len({it.date_time for it in infos}) == 1
    for line in (f"Version: {version}", "Requires-Python: >=3.9", "Provides-Extra: plot", "Name: voting-board"):
        assert f"\n{line}\n" in about
    assert about.endswith((HERE.parent / "README.md").read_text().rstrip("\n") + "\n") and "License" not in about


@pytest.mark.deep("it compiles board.c again: the gate doesn't see what shows of a wheel's making")
def test_the_same_bytes(packages: Path, source: Path) -> None:
    # Catches: a wheel in which the folder, the mask, the zone or the time of its making shows.
    wheel = built(source, f"-C--build-option=--plat-name={OWN}")
    assert wheel.read_bytes() == (packages / wheel.name).read_bytes()


@pytest.mark.parametrize("system", LINUX)
def test_glibc(packages: Path, tmp_path: Path, system: str) -> None:
    # Catches: a symbol that manylinux_2_17 doesn't have.
    library = unpacked(packages / f"{WHEEL}{system}.whl", tmp_path)
    needed = re.findall(r"Name: GLIBC_([\d.]+)", ran("readelf", "--version-info", "--wide", library))
    assert needed and max(tuple(map(int, it.split("."))) for it in needed) <= (2, 17)


@pytest.mark.parametrize("system", LINUX)
def test_hardened(packages: Path, tmp_path: Path, system: str) -> None:
    # Catches: a library in which what the loader has bound can be overwritten.
    library = unpacked(packages / f"{WHEEL}{system}.whl", tmp_path)
    said = ran("readelf", "--program-headers", "--dynamic", "--wide", library)
    assert "GNU_RELRO" in said and "BIND_NOW" in said


def unpacked(wheel: Path, folder: Path) -> Path:
    """The library of a wheel, unpacked into a folder."""
    with ZipFile(wheel) as archive:
        archive.extractall(folder)
    return next(it for it in (folder / "voting_board").iterdir() if it.name in ("libboard.so", "board.dll"))


def loading(compiler: str, program: Path, *words: str) -> Path:
    """The program in C that loads a library."""
    ran(compiler, "-O2", f"-I{PORTABLE}", HERE / "loads.c", "-o", program, *words)
    return program


def test_this_system(packages: Path, tmp_path: Path) -> None:
    library = unpacked(packages / f"{WHEEL}{OWN}.whl", tmp_path)
    assert ran(loading("cc", tmp_path / "loads", "-ldl"), library) == DONE


@OTHERS
def test_aarch64(packages: Path, tmp_path: Path) -> None:
    library = unpacked(packages / f"{WHEEL}manylinux_2_17_aarch64.whl", tmp_path)
    program = loading("aarch64-linux-gnu-gcc", tmp_path / "loads", "-ldl")
    assert ran("qemu-aarch64", "-L", "/usr/aarch64-linux-gnu", program, library) == DONE


@pytest.fixture()
def wine(tmp_path: Path) -> Iterator[list[str]]:
    """The command that runs a program for Windows, in a folder of its own."""
    named = {"WINEPREFIX": str(tmp_path / "wine"), "WINEDEBUG": "-all", "WINEDLLOVERRIDES": "mscoree,mshtml="}
    (tmp_path / "wine").mkdir()
    environment = ["env", *(f"{name}={value}" for name, value in named.items())]
    words = [*environment, "/usr/lib/wine/wine64"]
    none = subprocess.DEVNULL
    subprocess.run([*words, "wineboot", "--init"], stdin=none, stdout=none, stderr=none, check=True, timeout=600)
    yield words
    subprocess.run([*environment, "/usr/lib/wine/wineserver64", "--kill"], timeout=60)


@OTHERS
def test_windows(packages: Path, tmp_path: Path, wine: list[str]) -> None:
    library = unpacked(packages / f"{WHEEL}win_amd64.whl", tmp_path)
    program = loading("x86_64-w64-mingw32-gcc", tmp_path / "loads.exe", "-static")
    shutil.copy(library, tmp_path / "board.dll")
    assert ran(*wine, program, f"Z:{tmp_path}/board.dll") == DONE


def test_a_native_library(source: Path, tmp_path: Path) -> None:
    # A library that is compiled already is taken as it is, with the mark that says which processor it needs.
    folder = tmp_path / "native"
    folder.mkdir()
    shutil.copy(next(Path(voting_board.__file__).parent.glob("libboard.*")), folder / "libboard.so")
    wheel = built(source, BOARD_LIBRARY_DIR=str(folder))
    library = unpacked(wheel, tmp_path / "there")
    assert library.read_bytes() == (folder / "libboard.so").read_bytes()
    assert (library.parent / "x86-64-v2").exists()
    code = "from voting_board import indices; print(indices([50, 49, 1], 'half').swings)"
    assert ran(sys.executable, "-c", code, PYTHONPATH=str(tmp_path / "there")) == "(3, 1, 1)\n"


@pytest.mark.deep("it compiles board.c again: the gate installs the wheel alone")
def test_pip_in_a_clone(tmp_path: Path) -> None:
    # Catches: an installation from a clone that misses the C file.
    clone = tmp_path / "clone"
    leave = shutil.ignore_patterns("libboard.*", "board.dll", "build", "*.egg-info", "__pycache__")
    shutil.copytree(HERE.parent, clone / "bindings/python", ignore=leave)
    shutil.copytree(PORTABLE, clone / "portable", ignore=shutil.ignore_patterns("out"))
    shutil.copy(TOP / "board.html", clone)
    words = [sys.executable, "-m", "pip", "install", "--quiet", "--no-index", "--no-deps", "--no-build-isolation"]
    ran(*words, "--disable-pip-version-check", "--target", there := tmp_path / "there", clone / "bindings/python")
    code = "import voting_board; print(voting_board.__file__, voting_board.__version__)"
    assert ran(sys.executable, "-c", code, PYTHONPATH=str(there)) == f"{there}/voting_board/__init__.py {version}\n"
    ran(there / "bin/board-study", TOP / "examples/members.csv", tmp_path / "study", PYTHONPATH=str(there))
    assert '"format": "board study 2"' in (tmp_path / "study.html").read_text()
