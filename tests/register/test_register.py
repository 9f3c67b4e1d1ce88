"""The calls on a register, and the reading of scripts as data, by programs in C over the built libraries: as they are,
under AddressSanitizer and UBSan, and under valgrind and its helgrind.

replay.c replays inputs as data, and prints what the program prints; commands.c carries out random commands beside a
model, and compares counts with the program's; text.c writes registers as scripts and reads them; memory.c refuses each
allocation in turn; handles.c calls on handles without a register; threads.c uses threads."""
from __future__ import annotations

import subprocess
from collections.abc import Callable, Iterator, Sequence
from concurrent.futures import ThreadPoolExecutor
from contextlib import suppress
from dataclasses import dataclass, field
from functools import partial
from pathlib import Path
from random import Random

import pytest

from tests.cases.case_files import readme_cases
from tests.independent.inputs import KINDS
from tests.shared.commands import TOP, Say, Words, ended, printed
from tests.shared.inputs import Call, at_limits, mutated, replays
from tests.shared.kept import Kept
from tests.shared.libraries import REFUSING, over_libraries
from tests.shared.runs import by_c, by_program, check_same
from tests.shared.sizes import drawn, seed

EXAMPLE = (TOP / "examples" / "twenty-four-chairs.csv").read_bytes()
STRICTER = ["-Wconversion"]
# A sanitizer takes more of a stack.
SANITIZED = ["-O1", "-g", "-fsanitize=address,undefined", "-fno-sanitize-recover=all", "-DSTACK_TIMES=16"]
VALGRIND = ["valgrind", "-q", "--error-exitcode=9"]
LEAKS = ["--leak-check=full", "--errors-for-leak-kinds=definite,possible"]

OTHERS = drawn(400, 2_000)
# Each of the four kinds of registers and limits that draws.h makes of a seed.
SEEDS = [4 * seed() + it for it in range(4)]
AT_ONCE = 2
SECONDS = 1_800


@dataclass(frozen=True)
class Way:
    """How programs are compiled and run, and how many inputs and commands they are given there."""

    name: str
    inputs: int
    commands: int
    flags: Words = field(default_factory=list)
    before: Words = field(default_factory=list)


PLAIN = Way("plain", drawn(1_000, 5_000), drawn(20_000, 100_000))
SANITIZERS = Way("sanitizers", 400, 4_000, SANITIZED)
UNDER_VALGRIND = Way("valgrind", 40, 400, before=[*VALGRIND, *LEAKS])
HELGRIND = Way("helgrind", 0, 400, before=[*VALGRIND, "--tool=helgrind"])
LEFT_OUT = pytest.mark.deep("the gate has the sanitizers, and memory.c, which counts what is kept: races are left out")
WATCHED = [SANITIZERS, pytest.param(UNDER_VALGRIND, marks=LEFT_OUT)]
WAYS = [PLAIN, *WATCHED]

Run = Callable[..., str]


def name_of(way: Way) -> str:
    return way.name


@pytest.fixture
def replay(kept: Kept) -> Callable[[Way], Words]:
    return lambda way: built(kept, "replay", way)


@pytest.fixture
def run(kept: Kept, record_property: Say) -> Run:
    """Runs a program in a way. It must end well and without a word on standard error; what it prints is reported."""

    def run(way: Way, name: str, *words: object, given: bytes = b"") -> str:
        done = ended([*built(kept, name, way), *map(str, words)], given, SECONDS)
        said = (done.output + done.complaint).decode(errors="replace")
        assert done.status == 0 and not done.complaint, f"status {done.status}: {said[-2000:]}"
        record_property("output", said.strip())
        return said

    return run


def built(kept: Kept, name: str, way: Way) -> Words:
    """The command of a program in C."""
    compiled = "sanitized" if way.flags else "plain"
    made = kept.folder / f"{name}-{compiled}"
    flags = [*STRICTER, *way.flags, *(REFUSING if name == "memory" else [])]
    source = Path(__file__).parent / f"{name}.c"
    return [*way.before, kept(made.name, lambda: over_libraries(source, made, *flags))]


def limits_of(words: Sequence[str]) -> tuple[int, int]:
    """The readers and the limit of the journal in the words of a replay, which the program must accept."""
    named = dict(zip(words[1::2], words[2::2], strict=True))
    readers, journal = int(named.pop("--readers", 1)), int(named.pop("--journal", 1_000_000))
    if words[0] != "replay" or named or not 1 <= readers <= 4 or not 1 <= journal <= 1_000_000:
        raise ValueError(f"the words are {words}")
    return readers, journal


def others(many: int) -> Iterator[Call]:
    """Inputs of tests/independent, whose words the program accepts."""
    places = [kind for kind, (_, share) in KINDS.items() for _ in range(share)]
    for place in range(many):
        kind = places[place * 37 % len(places)]
        made = KINDS[kind][0](Random(f"register/{seed()}/{place}"))
        if made.given is None or made.output != "taken" or not made.words:
            continue
        with suppress(ValueError):
            yield Call(f"{kind} {place}", made.given, *limits_of(made.words))


def check_replays(words: Words, calls: list[Call], program: Path, say: Say) -> None:
    """Text and fault of replays as data are those of the program."""
    say("inputs", len(calls))
    with ThreadPoolExecutor(AT_ONCE) as pool:
        wanted = list(pool.map(partial(by_program, program), calls))
    check_same(calls, by_c(words, calls, wanted), wanted)


def test_examples(replay: Callable[[Way], Words], record_property: Say) -> None:
    # Catches: a text, a word on standard error or a status of a replay as data that isn't a worked example's.
    examples = [*replays(), *readme_cases(TOP)]
    record_property("examples", len(examples))
    faults = []
    for example in examples:
        words = [*replay(PLAIN), *map(str, limits_of(example.words))]
        ran = subprocess.run(words, input=example.given, capture_output=True, timeout=SECONDS)
        fault = example.fault(ran.returncode, ran.stdout, ran.stderr)
        faults += [f"{example.name}: {fault}"] * bool(fault)
    assert not faults


def test_limits(replay: Callable[[Way], Words], program: Path, record_property: Say) -> None:
    # Catches: an input as long as may be, or a byte longer, that isn't replayed as the program replays it.
    check_replays(replay(PLAIN), at_limits(), program, record_property)


def test_independent(replay: Callable[[Way], Words], program: Path, record_property: Say) -> None:
    # Catches: an input that is read as data in another way than the program reads it.
    check_replays(replay(PLAIN), [*others(OTHERS)], program, record_property)


@pytest.mark.parametrize("way", WAYS, ids=name_of)
def test_changed(replay: Callable[[Way], Words], program: Path, way: Way, record_property: Say) -> None:
    # Catches: the same of changed inputs, and memory that is read or written where it mustn't be.
    check_replays(replay(way), mutated(seed() + (way is not PLAIN), way.inputs), program, record_property)


@pytest.mark.parametrize("seed", SEEDS)
@pytest.mark.parametrize("way", WAYS, ids=name_of)
def test_commands(run: Run, program: Path, way: Way, seed: int) -> None:
    # Catches: an answer, a member, a sheet or a copy that isn't the model's, and a count that isn't the program's.
    run(way, "commands", "test", program, seed, way.commands)


def test_answers(run: Run, kept: Kept, program: Path) -> None:
    # Catches: commands that other tests take from a file, and that aren't those that are tested here.
    words = built(kept, "commands", PLAIN)
    made = printed([*words, "made", str(SEEDS[0]), str(SANITIZERS.commands)])
    accepted = int.from_bytes(printed([*words, "answers"], made)[-8:], "little")
    assert run(PLAIN, "commands", "test", program, SEEDS[0], SANITIZERS.commands).startswith(f"{accepted} accepted, ")


@pytest.mark.parametrize("seed", SEEDS)
@pytest.mark.parametrize("way", [PLAIN, SANITIZERS], ids=name_of)
def test_text(run: Run, way: Way, seed: int) -> None:
    # Catches: a register or a command that is written as another script or record, or past its room.
    run(way, "text", seed, way.commands)


@pytest.mark.parametrize("seed", SEEDS)
def test_memory(run: Run, seed: int) -> None:
    # Catches: a call that changes a register though memory is refused, and memory that is kept.
    run(PLAIN, "memory", seed, SANITIZERS.commands, given=EXAMPLE)


@pytest.mark.parametrize("way", WATCHED, ids=name_of)
def test_watched_memory(run: Run, way: Way) -> None:
    # Catches: the same, and memory that is read or written where it mustn't be.
    run(way, "memory", 1, way.commands, given=EXAMPLE)


@pytest.mark.parametrize("way", WAYS, ids=name_of)
def test_handles(run: Run, way: Way) -> None:
    # Catches: a call that does something to a handle without a register.
    run(way, "handles")


@pytest.mark.parametrize("way", [*WAYS, pytest.param(HELGRIND, marks=LEFT_OUT)], ids=name_of)
def test_threads(run: Run, way: Way) -> None:
    # Catches: a state that calls share, and more stack than board.h asks for.
    run(way, "threads", 1, way.commands, given=EXAMPLE)
