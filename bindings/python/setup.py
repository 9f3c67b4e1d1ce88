"""Compiles board.c, or takes a library that is compiled already, into the package, which loads it by ctypes.

In the environment, BOARD_LIBRARY_DIR names a folder whose libboard.so is taken in place of a compilation; it needs a
processor with x86-64-v2. CC and --plat-name together make a wheel for another system.
"""
from __future__ import annotations

import os
import re
import shutil
from pathlib import Path
from typing import Any

from setuptools import Extension, setup
from setuptools.command.build_ext import build_ext
from setuptools.command.build_py import build_py
from setuptools.command.sdist import sdist

try:
    from setuptools.command.bdist_wheel import bdist_wheel
except ImportError:  # setuptools before 70
    from wheel.bdist_wheel import bdist_wheel

HERE = Path(__file__).resolve().parent
# A source package has the C file and the page next to this one, and a clone has them once.
IS_SOURCE = (HERE / "board.c").exists()
PORTABLE = HERE if IS_SOURCE else HERE.parent.parent / "portable"
#: The page into which studies are put.
PAGE = (HERE if IS_SOURCE else HERE.parent.parent) / "board.html"
LIBRARY = "voting_board.libboard"
NAMES = {"win": "board.dll", "macosx": "libboard.dylib"}
#: A file of the package that says which processor its library needs.
MARK = "x86-64-v2"


class BuildLibrary(build_ext):
    """Makes the shared library in place of an extension module."""

    def system(self) -> str:
        """The system of the wheel, such as linux, win or macosx."""
        wheel: Any = self.distribution.get_command_obj("bdist_wheel", create=False)
        name = wheel.plat_name if wheel and wheel.plat_name else self.plat_name
        return re.split(r"[-_\d]", name)[0]

    def get_ext_filename(self, fullname: str) -> str:
        return str(Path(*fullname.split(".")[:-1], NAMES.get(self.system(), "libboard.so")))

    def get_source_files(self) -> list[str]:
        return []  # the source package copies them

    def get_outputs(self) -> list[str]:
        made = Path(self.build_lib, self.get_ext_filename(LIBRARY))
        return [str(made), *([str(made.with_name(MARK))] if "BOARD_LIBRARY_DIR" in os.environ else [])]

    def build_extension(self, ext: Any) -> None:
        made = Path(self.get_ext_fullpath(ext.name))
        made.parent.mkdir(parents=True, exist_ok=True)
        made.with_name(MARK).unlink(missing_ok=True)
        if "BOARD_LIBRARY_DIR" in os.environ:
            shutil.copyfile(Path(os.environ["BOARD_LIBRARY_DIR"], "libboard.so"), made)
            made.with_name(MARK).touch()
        else:
            self.compile(made)

    def compile(self, made: Path) -> None:
        """Compiles the library by the platform's compiler, or by that of CC for another system."""
        wheel: Any = self.distribution.get_command_obj("bdist_wheel", create=False)
        compiler: Any = self.compiler
        if compiler.compiler_type == "unix" and os.environ.get("CC") and wheel and wheel.plat_name_supplied:
            words = os.environ["CC"].split()
            shared = [*words, "-shared", *(["-Wl,--no-insert-timestamp"] if self.system() == "win" else [])]
            compiler.set_executables(compiler_so=words, linker_so=shared)
        compiled, linked = self.flags()
        objects = compiler.compile(
            [str(PORTABLE / "board.c")],
            output_dir=self.build_temp,
            include_dirs=[str(PORTABLE)],
            extra_postargs=compiled,
        )
        compiler.link_shared_object(
            objects,
            str(made),
            export_symbols=sorted(set(re.findall(r"\b(board_\w+)\(", (PORTABLE / "board.h").read_text()))),
            extra_postargs=linked,
        )

    def flags(self) -> tuple[list[str], list[str]]:
        """The words for the compiler and for the linker. Debugging information would name the folder of the build."""
        compiler: Any = self.compiler
        if compiler.compiler_type == "msvc":
            return ["/O2"], []
        if self.system() == "win":
            return ["-O2", "-g0"], ["-s"]
        if self.system() == "macosx":
            return ["-O2", "-g0", "-fPIC"], []
        return ["-O2", "-g0", "-fPIC", "-fstack-protector-strong"], ["-s", "-Wl,-z,relro", "-Wl,-z,now"]


class BuildModules(build_py):
    """Copies the page next to the modules."""

    def run(self) -> None:
        super().run()
        if not getattr(self, "editable_mode", False):
            shutil.copyfile(PAGE, Path(self.build_lib, "voting_board", PAGE.name))

    def get_outputs(self, include_bytecode: bool = True) -> list[str]:
        return [*super().get_outputs(include_bytecode), str(Path(self.build_lib, "voting_board", PAGE.name))]


class SourcePackage(sdist):
    """Copies the C file, its header and the page into the source package."""

    def make_release_tree(self, base_dir: str, files: Any) -> None:
        super().make_release_tree(base_dir, files)
        for path in (PORTABLE / "board.c", PORTABLE / "board.h", PAGE):
            shutil.copyfile(path, Path(base_dir, path.name))


class Wheel(bdist_wheel):
    """A wheel for each Python 3 of a platform, with the same bytes wherever it is made."""

    def get_tag(self) -> tuple[str, str, str]:
        return "py3", "none", super().get_tag()[2]

    def write_wheelfile(self, *args: Any, **named: Any) -> None:
        super().write_wheelfile(*args, **named)
        for path in Path(self.bdist_dir).rglob("*"):
            path.chmod(0o755 if path.is_dir() else 0o644)


setup(
    ext_modules=[Extension(LIBRARY, [])],
    cmdclass={"build_ext": BuildLibrary, "build_py": BuildModules, "sdist": SourcePackage, "bdist_wheel": Wheel},
)
