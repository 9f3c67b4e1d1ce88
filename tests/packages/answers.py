"""Writes the program's answers to random boards, scripts and commands, which the tests of each package compare with
the package's.

    python3 -m tests.packages.answers PROGRAM FOLDER

FOLDER/boards.txt has, for each board, `board,TOTAL,WEIGHT..`, then for each majority
`MAJORITY,CHAIRS,QUOTA,CAST,TOTAL,WINNING,COALITIONS` and the lines `chair,..` of the reading. FOLDER/scripts.txt has,
for each script, `READERS,JOURNAL,STATUS,INPUT,TEXT`: the limits, the status of the program, and the bytes of the input
and of the output, each byte as two hexadecimal digits. FOLDER/register.csv is a script of random commands, with
readings after each few of them, and FOLDER/register.txt has its lines: one for each record of the script, and below a
reading those of its chairs. FOLDER/chair_names.txt is a copy of the table here."""
from __future__ import annotations

import random
import shutil
import subprocess
import sys
from collections.abc import Iterator
from concurrent.futures import ThreadPoolExecutor
from itertools import islice
from pathlib import Path

from tests.independent.counts import CLAUSES
from tests.shared.boards import weights_of
from tests.shared.inputs import Call, mutated, of_cases
from tests.shared.sizes import drawn, seed

# What a package may get wrong is the passing of values, and the gate's numbers show that; the deep gate has the rare
# boards, too. Each commit has others.
BOARDS = drawn(200, 2_000)
SCRIPTS = drawn(100, 500)
# Cases with more bytes are left out.
MOST = 20_000
WORKERS = 2
CHAIRS = 32
LARGEST_VOTES = 2**40
# The commands of the register, after how many of them it is read, and its members and chairs.
COMMANDS = drawn(1_500, 9_000)
EVERY = 30
MEMBERS, CODES, SEATS = 60, 80, 16
MAJORITIES = list(CLAUSES)
SECONDS = 600


def ran(program: Path, call: Call) -> tuple[int, bytes]:
    """The status of a replay by the program, and its output."""
    words = [str(program), "replay", "--readers", str(call.readers), "--journal", str(call.journal)]
    done = subprocess.run(words, input=call.text, stdout=subprocess.PIPE, stderr=subprocess.DEVNULL, timeout=SECONDS)
    return done.returncode, done.stdout


def codes() -> Iterator[str]:
    """The codes of members: AAA, AAB and so on."""
    letters = [chr(it) for it in range(ord("A"), ord("Z") + 1)]
    return (one + two + three for one in letters for two in letters for three in letters)


def boards(some: random.Random, many: int) -> list[tuple[int, list[int]]]:
    """Boards that are counted, each a total and the weights of its chairs. The total is above their sum on some."""
    found = []
    for _ in range(many):
        weights = [min(it, LARGEST_VOTES) for it in weights_of(some, some.randint(0, CHAIRS))]
        found.append((sum(weights) + some.choice([0, 0, some.randint(1, 1000), LARGEST_VOTES]), weights))
    return found


def script_of(total: int, weights: list[int]) -> bytes:
    """A script that reads a board at each majority. A member in no chair has the votes that no chair casts."""
    named = list(zip(codes(), [*weights, total - sum(weights)]))
    lines = ["member,votes", *(f"{code},{votes}" for code, votes in named), "script"]
    for chair, (code, _) in enumerate(named[:-1], start=1):
        lines += [f"open,{chair}", f"move,{code},{chair}"]
    return "\n".join([*lines, "publish", *(f"read,1,{it}" for it in MAJORITIES), ""]).encode()


def board_lines(program: Path, board: tuple[int, list[int]]) -> str:
    """A board and the program's readings of it."""
    total, weights = board
    status, text = ran(program, Call("a board", script_of(total, weights)))
    assert status == 0, text
    lines = [it for it in text.decode().splitlines() if it.startswith(("reading,", "chair,"))]
    read = [line.split(",", 3)[3] if line.startswith("reading,") else line for line in lines]
    return "\n".join([",".join(["board", *map(str, [total, *weights])]), *read, ""])


def script_line(program: Path, call: Call) -> str:
    """A script and the program's output for it."""
    status, text = ran(program, call)
    return f"{call.readers},{call.journal},{status},{call.text.hex()},{text.hex()}\n"


def record(some: random.Random, names: list[str]) -> str:
    """A random command, which may be refused."""
    code, chair, votes = some.choice(names), some.randint(1, SEATS), some.randint(0, some.choice([9, 400_000, 2**40]))
    kinds = [f"open,{chair}", f"close,{chair}", f"votes,{code},{votes}", f"suspend,{code}", f"restore,{code}"]
    kinds += [f"admit,{code},{votes}", f"withdraw,{code}", f"move,{code},none"]
    return some.choices([*kinds, f"move,{code},{chair}"], [3, 1, 6, 1, 2, 1, 1, 1, 8])[0]


def commands(some: random.Random) -> str:
    """A script of random commands with readings."""
    names = list(islice(codes(), CODES))
    lines = ["member,votes", *(f"{it},{some.randint(0, 400_000)}" for it in names[:MEMBERS]), "script"]
    for at in range(COMMANDS):
        lines.append(record(some, names))
        if at % EVERY == EVERY - 1:
            lines += ["publish", *(f"read,1,{it}" for it in MAJORITIES)]
    return "\n".join([*lines, ""])


def write(program: Path, folder: Path) -> None:
    """Writes the files."""
    print(f"answers to {BOARDS} boards, {SCRIPTS} scripts, {COMMANDS} commands, SEED={seed()}")
    shutil.copy(Path(__file__).with_name("chair_names.txt"), folder)
    register = commands(random.Random(seed()))
    (folder / "register.csv").write_text(register)
    status, text = ran(program, Call("a register", register.encode()))
    assert status == 0, text
    (folder / "register.txt").write_bytes(text)
    scripts = [*(it for it in of_cases() if len(it.text) <= MOST), *mutated(seed(), SCRIPTS)]
    with ThreadPoolExecutor(WORKERS) as pool:
        counted = pool.map(lambda it: board_lines(program, it), boards(random.Random(seed()), BOARDS))
        (folder / "boards.txt").write_text("".join(counted))
        (folder / "scripts.txt").write_text("".join(pool.map(lambda it: script_line(program, it), scripts)))


if __name__ == "__main__":
    write(Path(sys.argv[1]).resolve(), Path(sys.argv[2]))
