#!/usr/bin/env python3
"""Compares what was printed with what is promised, byte for byte: COMMAND | tests/promises/compare.py FILE

It prints the first line that differs, and ends in 1 if there is one."""
from __future__ import annotations

import sys
from itertools import zip_longest
from pathlib import Path


def shown(line: bytes | None) -> str:
    return "no line" if line is None else repr(line.decode(errors="backslashreplace"))


def difference(promised: bytes, found: bytes) -> str:
    """The first line that differs, or nothing if the texts are the same."""
    pairs = zip_longest(promised.splitlines(keepends=True), found.splitlines(keepends=True))
    for number, (wanted, line) in enumerate(pairs, 1):
        if wanted != line:
            return f"line {number} is promised as {shown(wanted)}, and is {shown(line)}"
    return ""


def main() -> int:
    said = difference(Path(sys.argv[1]).read_bytes(), sys.stdin.buffer.read())
    if said:
        print(f"{sys.argv[1]}: {said}. tests/promises/README.md says what a change of it asks for")
    return 1 if said else 0


if __name__ == "__main__":
    sys.exit(main())
