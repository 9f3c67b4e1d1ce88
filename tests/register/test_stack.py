"""The stack of the native library, by its machine code: the frames of its functions along the deepest chain of calls
from each call of board.h."""
from __future__ import annotations

import re
from dataclasses import dataclass, field
from functools import cache
from pathlib import Path

from tests.shared.commands import Say, printed
from tests.shared.libraries import native

KILOBYTE = 1_024
# What board.h asks of a thread's stack, and what of it is left to the functions of the C library.
PLAIN, WHOLE, OUTSIDE = 96 * KILOBYTE, 256 * KILOBYTE, 8 * KILOBYTE
OF_WHOLE = {"board_script", "board_replay", "board_replay_length", "board_trace", "board_trace_length"}
# A function's first line, an instruction, and the symbol that the linker puts into the instruction before.
START = re.compile(r"^[0-9a-f]+ <(?P<name>.+)>:$")
INSTRUCTION = re.compile(r"^ +[0-9a-f]+:\t(?P<word>\S+) *(?P<rest>.*?) *$")
LINKED = re.compile(r"^\t+[0-9a-f]+: R_X86_64_(?:PLT32|PC32)\t(?P<name>\S+?)(?:[-+]0x[0-9a-f]+)?$")
TARGET = re.compile(r"^[0-9a-f]+ <(?P<name>.+?)(?:\+0x[0-9a-f]+)?>$")
FRAME = re.compile(r"^\$0x(?P<bytes>[0-9a-f]+),%rsp$")
WORD = 8


@dataclass
class Function:
    """A function: the bytes that it takes of the stack, with its return address, and whom it calls or jumps to."""

    name: str
    frame: int = WORD
    callees: set[str] = field(default_factory=set)

    def read(self, word: str, rest: str) -> None:
        """Takes in an instruction."""
        if word.startswith("push"):
            self.frame += WORD
        elif word.startswith("sub") and rest.endswith(",%rsp"):
            size = FRAME.match(rest)
            assert size, f"{self.name} takes a part of the stack that depends on a number"
            self.frame += int(size["bytes"], 16)
        elif word.startswith(("call", "j")):
            # A jump through a pointer stays in its function: its targets are a match's arms.
            assert word.startswith("j") or not rest.startswith("*"), f"{self.name} calls through a pointer"
            if (target := TARGET.match(rest)) and target["name"] != self.name:
                self.callees.add(target["name"])


def functions(archive: Path) -> dict[str, Function]:
    """The functions of a library by name."""
    found: dict[str, Function] = {}
    at = Function("")
    jumps = False
    for line in (
        printed(["objdump", "--disassemble", "--reloc", "--no-show-raw-insn", str(archive)]).decode().split("\n")
    ):
        if start := START.match(line):
            at = found.setdefault(start["name"], Function(start["name"]))
        elif (linked := LINKED.match(line)) and jumps:
            at.callees.add(linked["name"])
        elif instruction := INSTRUCTION.match(line):
            jumps = instruction["word"].startswith(("call", "j"))
            at.read(instruction["word"], instruction["rest"])
    return found


def test_stack(record_property: Say) -> None:
    # Catches: a chain of calls that takes more of a thread's stack than board.h says, or that has no end.
    found = functions(Path(native()[0]))

    @cache
    def depth(name: str) -> int:
        if name not in found:
            return OUTSIDE
        return found[name].frame + max(map(depth, found[name].callees), default=0)

    exports = {name: depth(name) for name in found if name.startswith("board_")}
    assert OF_WHOLE <= exports.keys()
    record_property("deepest", f"{max(exports[it] for it in OF_WHOLE)} bytes of a whole input")
    record_property("others", f"{max(exports[it] for it in exports.keys() - OF_WHOLE)} bytes")
    assert {it for it in exports if exports[it] > (WHOLE if it in OF_WHOLE else PLAIN)} == set()
