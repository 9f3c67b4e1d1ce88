"""What the commands have in common: messages, the end of a run, and the command line as it is published."""
from __future__ import annotations

import argparse
import io
import os
import re
import shlex
import sys
from collections.abc import Callable, Iterable, Sequence
from contextlib import redirect_stdout, suppress
from pathlib import Path

from .amounts import BadStudy
from .files import HalfWritten, resolved
from .names import MAJORITIES

#: What the commands write into a table, the page, and a figure.
TABLE, SVG, PDF = "# counted by board ", r"<\?xml.*voting-board board-", "%PDF-.*voting-board board-"
PAGE = r'<!DOCTYPE html>.*id="study-data">\{"format": "board study [0-9]+", "provenance": \["counted by board '
#: The most bytes of a file that is read.
MOST_BYTES = 32 * 1024 * 1024


def printable(text: str) -> str:
    """A text for a terminal. Control characters of names and labels, which a terminal obeys, are written as escapes."""
    return re.sub(r"[\x00-\x08\x0b-\x1f\x7f-\x9f]", lambda found: f"\\x{ord(found[0]):02x}", text)


def say(command: str, lines: Iterable[str]) -> None:
    """Writes lines to standard error, each with the command's name."""
    for line in lines:
        print(printable(f"{command}: {line}"), file=sys.stderr)


def show(text: str, end: str = "\n") -> None:
    """Prints a text at once. If it can't be printed, that is a BadStudy."""
    try:
        print(text, end=end, flush=True)
    except OSError as why:
        # Python tries to print what is left when it ends.
        os.dup2(os.open(os.devnull, os.O_WRONLY), 1)
        raise BadStudy(f"standard output: {why.strerror}") from None


def arguments(parser: argparse.ArgumentParser) -> argparse.Namespace:
    """The arguments of a command. Help and the version end it with 0, even where they can't be printed."""
    try:
        with redirect_stdout(io.StringIO()) as said:
            return parser.parse_args()
    except SystemExit:
        with suppress(BadStudy):
            show(said.getvalue(), end="")
        raise


def ended(parser: argparse.ArgumentParser, make: Callable[[argparse.Namespace], None]) -> int:
    """Runs a command, and returns its status: 1 if something is wrong, with a message that says which files stand."""
    given, command = arguments(parser), parser.prog
    try:
        if not isinstance(sys.stdout, io.TextIOBase):
            raise BadStudy("standard output is closed")
        if isinstance(sys.stdout, io.TextIOWrapper):
            sys.stdout.reconfigure(errors="backslashreplace")
        make(given)
    except HalfWritten as why:
        say(command, [str(why)])
        return 1
    except ImportError as why:
        needed = "pip install numpy pandas matplotlib installs what this needs"
        say(command, [f"{why.name or why} isn't here: {needed}", "nothing was written"])
        return 1
    except (ValueError, OSError) as why:
        said = f"{why.filename}: {why.strerror}" if isinstance(why, OSError) and why.filename else str(why)
        say(command, [*said.splitlines(), "nothing was written"])
        return 1
    except KeyboardInterrupt:
        say(command, ["interrupted"])
        return 130
    return 0


def out_name(text: str) -> str:
    """The name of files without their endings."""
    if not Path(text).name or text.endswith(("/", os.sep)):
        raise argparse.ArgumentTypeError(f"{text!r} is the name of no file")
    if Path(text).is_dir():
        raise argparse.ArgumentTypeError(f"{text!r} is a folder: give a name for the files")
    return text


def read_bytes(name: str) -> bytes:
    """The bytes of a file, or of standard input for -. A pipe or a device is a BadStudy, and so is a large file."""
    if name != "-" and Path(name).exists() and not Path(name).is_file():
        raise BadStudy(f"{name} is no file; - is standard input")
    if name == "-" and not isinstance(sys.stdin, io.TextIOBase):
        raise BadStudy("standard input is closed")
    with sys.stdin.buffer if name == "-" else open(name, "rb") as file:
        data = file.read(MOST_BYTES + 1)
    if len(data) > MOST_BYTES:
        raise BadStudy(f"{name} has more than {MOST_BYTES:,} bytes")
    return data


def command_words(command: str, words: Sequence[str], paths: Iterable[object]) -> str:
    """The command line, with names in place of paths: where a file was is nobody's business."""
    known = {Path(str(it)) for it in paths if it is not None}

    def named(word: str) -> str:
        return Path(word).name or word if Path(word) in known else word

    def published(word: str) -> str:
        option, mark, value = word.partition("=")
        return f"{option}={named(value)}" if mark and option.startswith("--") else named(word)

    return f"command: {shlex.join([command, *map(published, words)])}"


def add_figure_words(parser: argparse.ArgumentParser) -> None:
    """Adds the arguments for figures."""
    figures = "write each figure as SVG and PDF into this folder, which must be there; needs pandas and matplotlib"
    parser.add_argument("--figures", metavar="FOLDER", type=Path, help=figures)
    titles = "whether their titles are in them, or in their metadata alone (default: %(default)s)"
    parser.add_argument("--figure-titles", choices=["in", "out"], default="in", help=titles)


def majorities(text: str) -> list[str]:
    """The majorities that an argument lists, each once."""
    found = text.split(",")
    if not set(found) <= set(MAJORITIES) or len(set(found)) != len(found):
        raise argparse.ArgumentTypeError(f"{text!r}: majorities are any of {', '.join(MAJORITIES)}, each once")
    return found


def check_names(paths: Iterable[Path]) -> None:
    """Checks that no two files have one place."""
    places = list(map(resolved, paths))
    for at, it in enumerate(places):
        if it in places[:at]:
            raise BadStudy(f"two files would have the place of {it.name}")
