"""The texts of WebAssembly modules, as wasm2wat writes them, compared and measured."""
from __future__ import annotations

import re
from functools import cache

FUNCTION = re.compile(r"^  \(func \(;(\d+);\).*?(?=^  \()", re.MULTILINE | re.DOTALL)
FRAME = re.compile(r"global\.get 0\s+(?:local\.tee \d+\s+|local\.set \d+\s+)?i64\.const (\d+)\s+i64\.sub")


def types_in(kind: str, function: str) -> list[str]:
    """The types of a function's parameters or locals."""
    found = re.search(rf"\({kind} ([^)]*)\)", function)
    return found[1].split() if found else []


def with_locals_by_type(function: str) -> str:
    """A function with its locals in the order of binaryen: those of a type together, the types as they first come."""
    types, params = types_in("local", function), len(types_in("param", function))
    order = sorted(range(len(types)), key=lambda at: types.index(types[at]))
    number = {str(params + old): str(params + new) for new, old in enumerate(order)}
    renamed = re.sub(r"\b(local\.\w+) (\d+)", lambda it: f"{it[1]} {number.get(it[2], it[2])}", function)
    return renamed.replace(f"(local {' '.join(types)})", f"(local {' '.join(types[at] for at in order)})")


def lines_of(text: str) -> list[str]:
    """The lines of a text without the parts that lowering writes differently: the order of types, which each function
    gives itself too, the order of locals, and whether memory and its data are placed by 64 bits or by 32."""
    text = FUNCTION.sub(lambda it: with_locals_by_type(it[0]), text)
    text = re.sub(r"(\(func \(;\d+;\)) \(type \d+\)", r"\1", text)
    text = re.sub(r"^  \(type .*\n", "", text, flags=re.MULTILINE)
    text = text.replace("(memory (;0;) i64 ", "(memory (;0;) ")
    text = text.replace("(data (;0;) (i64.const ", "(data (;0;) (i32.const ")
    return [line.strip() for line in text.splitlines()]


def is_never_reached(before: list[str]) -> bool:
    """Whether code after some lines is never reached: they end with a loop whose last line is a jump."""
    if len(before) < 2 or before[-1] != "end" or not before[-2].startswith("br "):
        return False
    depth = 0
    for line in reversed(before):
        depth += (line == "end") - bool(re.match(r"(block|loop|if)\b", line))
        if depth == 0:
            return line.startswith("loop")
    return False


def is_of_lowering(line: str, before: list[str]) -> bool:
    """Whether lowering may add a line after others. It may make a number one of 32 bits, which in a valid module can
    only be an address or a length; make the size of memory one of 64 bits again; and add what is never reached."""
    if line == "i64.extend_i32_u":
        return before[-1] in ("memory.size", "memory.grow")
    return line == "i32.wrap_i64" or (line == "unreachable" and is_never_reached(before))


def beyond_lowering(wide: str, lowered: str) -> str:
    """The first difference, beyond lowering, of a lowered module's text from that of the module with a 64-bit memory;
    empty if there is none."""
    left, seen = iter(lines_of(wide)), list[str]()
    wanted = next(left, None)
    for line in lines_of(lowered):
        if line == wanted:
            wanted = next(left, None)
        elif not is_of_lowering(line, seen):
            return f"line {len(seen) + 1} is {line}, and {wanted} must stand there"
        seen.append(line)
    return f"{wanted} is missing" if wanted else ""


def deepest_stack(text: str) -> int:
    """The bytes of the stack that the deepest chain of calls takes, by the frames that the functions reserve. A module
    in which a function calls itself, through others or not, ends in an error of recursion; one that calls functions in
    a table, or that reserves a frame in another way, is refused."""
    functions = {int(found[1]): found[0] for found in FUNCTION.finditer(text)}
    frames = {number: FRAME.findall(code) for number, code in functions.items()}
    moved = [number for number, code in functions.items() if frames[number] or "global.set 0" in code]
    assert "call_indirect" not in text, "a call of a function in a table"
    assert all(len(frames[number]) == 1 for number in moved), "a frame of another form"

    @cache
    def depth(number: int) -> int:
        below = map(int, re.findall(r"\bcall (\d+)", functions[number]))
        return sum(map(int, frames[number])) + max(map(depth, below), default=0)

    return max(map(depth, functions))
