"""Worked examples of the program, from the files *.txt next to this module.

A case begins with '== NAME'. '$ board WORDS' is the command, '<' marks each line of its input, '>' each line of its
output, '!' each line of standard error, and 'status N' gives the exit status if that isn't 0.
'! ...' is any text. Other lines are comments. In an input '\\xHH' and '\\r' are bytes, and '\\' at the end of a line
removes the line's end."""
from __future__ import annotations

import re
from dataclasses import dataclass
from pathlib import Path

HERE = Path(__file__).resolve().parent
ANY_TEXT = b"...\n"


@dataclass
class Case:
    """A case: its name, the words after `board`, its input, and what it prints, complains and ends with."""

    name: str
    words: list[str]
    given: bytes = b""
    printed: bytes = b""
    complained: bytes = b""
    status: int = 0

    def fault(self, status: int, printed: bytes, complained: bytes) -> str:
        """What is wrong with a run of the case, or nothing if all is right."""
        is_text = bool(complained) if self.complained == ANY_TEXT else complained == self.complained
        faults = [
            f"status {status}, not {self.status}" if status != self.status else "",
            "" if printed == self.printed else f"standard output is {printed.decode(errors='replace')[:2000]}",
            "" if is_text else f"standard error is {complained.decode(errors='replace')[:2000]}",
        ]
        return "; ".join(filter(None, faults))


def bytes_of(line: str) -> bytes:
    """The bytes of a line of an input."""
    text = line[:-1] if line.endswith("\\") else line + "\n"
    unescaped = re.sub(r"\\x([0-9a-f]{2})", lambda found: chr(int(found[1], 16)), text.replace("\\r", "\r"))
    return unescaped.encode("latin-1")


def add_line(case: Case, mark: str, line: str) -> None:
    """Adds a line of a case, the text after its mark."""
    if mark == "$":
        case.words = line.removeprefix("board").split()
    elif mark == "<":
        case.given += bytes_of(line)
    elif mark == ">":
        case.printed += f"{line}\n".encode()
    elif mark == "!":
        case.complained += f"{line}\n".encode()


def cases_of(file: Path) -> list[Case]:
    """The cases of a file; the name of each begins with the file's."""
    found: list[Case] = []
    for line in file.read_text(encoding="latin-1").splitlines():
        mark, _, rest = line.partition(" ")
        if mark == "==":
            found.append(Case(f"{file.stem}/{rest}", []))
        elif mark == "status":
            found[-1].status = int(rest)
        elif found:
            add_line(found[-1], mark, rest)
    return found


def readme_cases(top: Path) -> list[Case]:
    """The example of README.md: its records and the file that it names, and the lines on its right. The README.md of a
    release has none."""
    text = (top / "README.md").read_text()
    block = re.search(r"^    member,votes .*\n(?:    .*\n)+", text, re.MULTILINE)
    if not block:
        return []
    lines = block[0].splitlines()
    records = "".join(f"{line.split()[0]}\n" for line in lines if line[4] != " ")
    answers = [line.partition("-> ")[2] if line[4] != " " else line for line in lines]
    printed = "".join(f"{answer.split()[0]}\n" for answer in answers if answer)
    example = (top / "examples" / "three-chairs.csv").read_bytes()
    given = {"README/records": records.encode(), "README/examples-three-chairs": example}
    return [Case(name, ["replay"], data, printed.encode()) for name, data in given.items()]


def all_cases() -> list[Case]:
    """The cases of all files."""
    return [case for file in sorted(HERE.glob("*.txt")) for case in cases_of(file)]


def cases_of_c() -> list[Case]:
    """The cases that the program of portable/board.c has, too: it has no serve, and its help is in other words."""
    return [it for it in all_cases() if it.words[:1] in (["replay"], ["trace"]) and "--help" not in it.words]


def case_named(name: str) -> Case:
    """The case of a name such as boards/three-chairs-half."""
    return next(case for case in all_cases() if case.name == name)
