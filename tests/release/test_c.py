"""The library for C, and the C file in its place: their calls, the two kinds of library, how others find them, the
version, and the names of refusals."""
from __future__ import annotations

import os
import re
import shutil
from pathlib import Path

import pytest

from tests.release.outside import ran

pytestmark = pytest.mark.xdist_group("c")

STRICT = ["-std=c11", "-Wall", "-Wextra", "-Wconversion", "-pedantic", "-Werror", "-pthread", "-Iinclude"]
SOURCES = Path(__file__).parent
LIBRARY = "lib/libboard.a"
# Where the library is: in the unpacked release, and in an installation.
PLACES = ["room", "installed"]
# What the proved object asks of the C library, and of the kit's calls of malloc and free.
CALLED = {"memcpy", "memmove", "memset", "rattle_alloc", "rattle_dealloc", "rattle_realloc"}
# What the program answers, which make writes.
ANSWERS = Path(os.environ["BOARD_ANSWERS"])


@pytest.fixture(scope="session")
def c_file(room: Path) -> str:
    """The object of the C file, which is compiled with its own header."""
    ran(["cc", "-O2", "-c", "portable/board.c", "-o", "board_file.o"], room)
    return "board_file.o"


@pytest.fixture(params=["library", "C file"])
def library(request: pytest.FixtureRequest) -> str:
    found: str = LIBRARY if request.param == "library" else request.getfixturevalue("c_file")
    return found


def test_program_of_the_c_file(room: Path) -> None:
    # Catches: a C file that doesn't make the program alone, or that makes one that replays in another way.
    ran(["cc", "-O2", "-DBOARD_MAIN", "portable/board.c", "-o", "it"], room)
    got, wanted = (ran(["sh", "-c", f"{it} replay < examples/three-chairs.csv"], room) for it in ("./it", "./board"))
    assert got == wanted


def test_calls(room: Path, library: str) -> None:
    # Catches: a count that isn't the one over all coalitions, input that must be refused and isn't.
    ran(["cc", *STRICT, str(SOURCES / "calls.c"), library, "-o", "calls"], room)
    ran(["./calls"], room)


@pytest.mark.parametrize("what", ["boards", "scripts"])
def test_answers(room: Path, library: str, what: str) -> None:
    # Catches: an answer that isn't the program's.
    ran(["cc", "-O2", *STRICT, str(SOURCES / "answers.c"), library, "-o", "answers_c"], room)
    wanted = (ANSWERS / f"{what}.txt").read_text()
    assert wanted and ran(["sh", "-c", f"./answers_c {what} < {ANSWERS}/{what}.txt"], room) == wanted


def test_needs(room: Path) -> None:
    # Catches: a proved object that asks the C library for more than to copy and to fill memory, and for memory.
    part = ran(["nm", "-u", LIBRARY], room).partition("board_c.o:")[2].strip().partition("\n\n")[0]
    needs = {line.split()[-1] for line in part.splitlines()}
    assert needs == CALLED, f"it asks for {needs}"


def version_of(room: Path) -> str:
    return (room / "VERSION").read_text().split()[1]


def test_names(room: Path) -> None:
    # Catches: a version that isn't VERSION's, and a number whose name, in either library or in the header, isn't
    # that of docs/FORMATS.md. Two results have no name: 0, and 255 of the C file alone.
    rows = re.findall(r"^\| (\d+) \| (\w+) \| .* \|$", (room / "docs/FORMATS.md").read_text(), re.MULTILINE)
    wanted = "".join(f"{number} {name}\n" for number, name in rows)
    for library in [[LIBRARY], ["-Llib", "-lboard", f"-Wl,-rpath,{room}/lib"]]:
        ran(["cc", *STRICT, str(SOURCES / "names.c"), *library, "-o", "names"], room)
        got = ran(["./names"], room)
        assert got == f"{version_of(room)}\n{wanted}", f"{library}: {got}"
    results = (room / "include/board.h").read_text().partition("/* Results")[2].partition("};")[0]
    pairs = re.findall(r"\bBOARD_(\w+) = (\d+)", results)
    declared = {number: name for name, number in pairs if number not in ("0", "255")}
    assert len(declared) > 20, declared
    named = {number: re.sub(r"\B([A-Z])", r"_\1", name).upper() for number, name in rows}
    assert declared.items() <= named.items(), f"the header names {declared.items() - named.items()}"


def test_shared(room: Path) -> None:
    # Catches: a shared library whose name has another number than the one that changes where a call does, or that
    # exports more than the calls of board.h.
    name = f"libboard.so.{version_of(room).split('.')[0]}"
    link = room / "lib" / "libboard.so"
    assert link.is_symlink() and str(link.readlink()) == name, "libboard.so is no link to the shared library"
    output = ran(["readelf", "--dynamic", "--wide", f"lib/{name}"], room)
    assert f"soname: [{name}]" in output, output
    assert re.findall(r"Shared library: \[(.*)\]", output) == ["libc.so.6"], output
    symbols = ran(["nm", "--dynamic", f"lib/{name}"], room)
    declared = set(re.findall(r"\b(board_\w+)\(", (room / "include/board.h").read_text()))
    assert set(re.findall(r" T (\w+)", symbols)) == declared, symbols


@pytest.mark.parametrize("file, words", [("board", "program also"), ("lib/libboard.so", "library")])
def test_glibc(file: str, words: str, room: Path) -> None:
    # Catches: a program or a library that needs a later glibc than README.md says.
    [said] = re.findall(rf"{words}\s+glibc\s+([\d.]+)", (room / "README.md").read_text())
    needed = re.findall(r"@GLIBC_([\d.]+)", ran(["nm", "--dynamic", file], room))
    numbers = [tuple(map(int, it.split("."))) for it in [said, *needed]]
    assert needed and max(numbers) == numbers[0], f"it needs glibc {needed}"


@pytest.mark.parametrize("file", ["board", "lib/libboard.so"])
@pytest.mark.parametrize("place", PLACES, indirect=True)
def test_hardened(place: Path, file: str) -> None:
    # Catches: a program or a shared library that can't be loaded anywhere, in which what the loader has bound, or code,
    # can be written, or whose stack can be executed.
    output = ran(["readelf", "--file-header", "--program-headers", "--dynamic", "--wide", file], place)
    segments = re.findall(r"^  ([A-Z_]+) +(?:0x\w+ +){5}(.{3}) ", output, re.MULTILINE)
    assert "DYN (" in output and "BIND_NOW" in output and "GNU_RELRO" in dict(segments), output
    assert dict(segments)["GNU_STACK"] == "RW " and not any("W" in it and "E" in it for _, it in segments), output


@pytest.mark.parametrize("place", PLACES, indirect=True)
def test_package_config(place: Path) -> None:
    # Catches: a file for pkg-config by which no program is compiled, in some folder of the release.
    elsewhere = place.parent / "else where"
    elsewhere.mkdir()
    config = {"PKG_CONFIG_PATH": str(place / "lib" / "pkgconfig")}
    assert ran(["pkg-config", "--modversion", "board"], elsewhere, **config).strip() == version_of(place)
    flags = ran(["pkg-config", "--cflags", "--libs", "board"], elsewhere, **config).split()
    ran(["cc", f"{place}/examples/embed/three_chairs.c", *flags, f"-Wl,-rpath,{place}/lib", "-o", "three"], elsewhere)
    assert ran(["./three"], elsewhere).startswith("51 votes win, 3 of 8 coalitions\n")


def cmake_begins(work: Path, room: Path, version: str, components: str) -> bool:
    """Whether CMake finds the library, by the address of a release, in this version and with these components."""
    shutil.rmtree(work, ignore_errors=True)
    given = {"PREFIX_PATH": room, "EXAMPLE": room / "examples/embed/three_chairs.c", "STRUCTS": SOURCES / "structs.c"}
    words = [f"-D{name}={value}" for name, value in [*given.items(), ("VERSION", version), ("COMPONENTS", components)]]
    try:
        ran(["cmake", "-S", str(SOURCES / "cmake"), "-B", str(work), *words], room)
    except AssertionError as why:
        assert "Could not find a configuration file" in str(why) or "no library" in str(why), why
        return False
    return True


@pytest.mark.parametrize(
    "place, name", [("room", "shared"), ("room", "static"), ("installed", "shared")], indirect=["place"]
)
def test_cmake(place: Path, name: str) -> None:
    # Catches: a library that CMake doesn't find in some folder, and one of another version or form that it finds.
    link, work = place.parent / f"for {name}", place.parent / f"made for {name}"
    link.symlink_to(place)
    components = "" if name == "shared" else name
    minor = version_of(place).rpartition(".")[0]
    major, _, second = minor.partition(".")
    for other in (f"{major}.{int(second) + 1}", f"{int(major) + 1}", f"{minor}.999"):
        assert not cmake_begins(work, link, other, components), f"version {other} is found"
    assert not cmake_begins(work, link, minor, "other"), "a library of another form is found"
    assert cmake_begins(work, link, minor, components), f"version {minor} isn't found"
    ran(["cmake", "--build", str(work)], place)
    assert ran([f"{work}/three"], place).startswith("51 votes win, 3 of 8 coalitions\n")
    assert ran([f"{work}/structs"], place) == "3 swings\n"
    needs_shared = "libboard.so" in ran(["readelf", "--dynamic", f"{work}/three"], place)
    assert needs_shared == (name == "shared"), "it is linked with the other library"


def test_structs(room: Path) -> None:
    # Catches: a struct whose size isn't the one that the header gives, or that needs `struct` in C++.
    languages = [("cc", ["-std=c11"])] + [("g++", ["-x", "c++", f"-std={it}"]) for it in ("c++11", "c++20")]
    for compiler, flags in languages:
        warnings = ["-Wall", "-Wextra", "-pedantic", "-Werror", "-Iinclude"]
        source = [*flags, str(SOURCES / "structs.c"), "-x", "none", LIBRARY]
        ran([compiler, *warnings, *source, "-o", "structs"], room)
        assert ran(["./structs"], room) == "3 swings\n", compiler


def test_other_languages(room: Path) -> None:
    # Catches: a header that doesn't compile in some C or C++.
    (room / "header.c").write_text('#include "board.h"\nint main(void) { return 0; }\n')
    warnings = ["-Wall", "-Wextra", "-pedantic", "-Werror", "-fsyntax-only", "-Iinclude"]
    standards = [("c", it) for it in ("c99", "c11")] + [("c++", it) for it in ("c++11", "c++20")]
    for language, standard in standards:
        ran(["cc", "-x", language, f"-std={standard}", *warnings, "header.c"], room)
