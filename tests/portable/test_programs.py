"""The program that board.c is with BOARD_MAIN, and a program over its register, against the proved program."""
from __future__ import annotations

import random
from pathlib import Path

import pytest
from tests.cases.case_files import cases_of_c
from tests.portable.compilers import GCC, SANITIZERS, SYSTEMS, Built, on
from tests.shared.commands import TOP, Ended, Words, ended
from tests.shared.inputs import Call, at_limits, cut_out, end_by_cr, mutated, of_cases, put_byte
from tests.shared.sizes import drawn, seed

REFUSED = 2
COMMANDS = ["replay", "trace"]
EXAMPLE = (TOP / "examples" / "three-chairs.csv").read_bytes()
WORDS = [
    # Accepted.
    "replay --readers=2", "replay --readers 2", "replay --readers 02", "replay --readers +2", "replay --",
    "replay --journal 3 --readers 4", "replay --journal=1000000", "trace --readers=4",
    # Refused.
    "", "no", "no --readers 2", "no --help", "replay no", "replay replay", "replay -", "--readers 2 replay", "Replay",
    "replay --readers", "replay --readers=", "replay --readers=0", "replay --readers 5", "replay --readers -1",
    "replay --readers 2x", "replay --readers 99999999999999999999", "replay --readers=2 --readers 2",
    "replay --journal 0", "replay --journal 1000001", "replay --journal --readers", "replay --reader 2",
    "replay --readers2", "replay --readers 2 no", "trace --readers=2 --readers=2", "replay --version",
]  # fmt: skip
# Words that a terminal would obey: an escape, a delete, the end of a line, a control character of Latin-1.
OBEYED = ["\x1b[31m", "a\x7f", "a\nb", "\x9b31m"]
HELP = ["--help", "-h", "help", "replay --help", "--version", "-V"]
# What the shell does with the standard streams of a command.
STREAMS = ["</", "<&-", ">/dev/full", ">&-", "| head -c 1"]
# A replay reads its input in pieces. In pieces this short each place is the end of one.
SHORT_PIECES = ["-DBOARD_MAIN", "-DPIECE_BYTES=40", "-DPIECE_ITEMS=3"]
READINGS = 20_000


def differs(found: Ended, wanted: Ended) -> bool:
    """Whether two runs differ. The reason for words that are refused may be any text."""
    if found.status == wanted.status == REFUSED:
        return found.output != wanted.output or not found.complaint
    return found != wanted


def at_limit(name: str) -> bytes:
    """An input at a limit."""
    return next(it.text for it in at_limits() if it.name == name)


def long_scripts() -> list[Call]:
    """Scripts of many pieces: the records of a long text and of the cases, with damage at random places."""
    some, found = random.Random(seed()), list[Call]()
    begun, records = at_limit("a long text").split(b"script\n")
    records += b"".join(it.text.partition(b"script\n")[2] for it in of_cases() if it.name.startswith("commands"))
    lines = records.splitlines(keepends=True)
    for number in range(drawn(6, 40)):
        script = b"".join(some.choices(lines, k=20_000))
        for change in some.choices([put_byte, end_by_cr, cut_out], k=number % 3):
            script = change(some, script)
        text = begun + b"script\n" + script
        found.append(Call(f"long script {number}", text, some.randint(1, 4), some.choice([900, 1_000_000])))
    return found


def redirected(words: Words, command: str, stream: str, name: str) -> Ended:
    """A run on an input at a limit. Its status is that of the command, not of `head`."""
    shell = f'"$@" {stream}; exit "${{PIPESTATUS[0]}}"'
    return ended(["bash", "-c", shell, "bash", *words, command], at_limit(name))


@on([GCC])
@pytest.mark.parametrize("stream", [">/dev/full", ">&-"])
def test_help_unwritten(built: Built, stream: str) -> None:
    # Catches: another end than docs/FORMATS.md says for help or a version that can't be written.
    for words in HELP:
        shell = ["bash", "-c", f'"$@" {stream}', "bash", *built.program(), *words.split()]
        assert ended(shell) == Ended(0, b"", b""), words


@on(SYSTEMS)
def test_examples(built: Built, program: Path) -> None:
    # Catches: a line, a complaint or a status that isn't that of a worked example, and of the program.
    faults = []
    for case in cases_of_c():
        found, wanted = (ended([*it, *case.words], case.given) for it in (built.program(), [str(program)]))
        fault = case.fault(found.status, found.output, found.complaint)
        faults += [f"{case.name}: {fault or found}"] * (bool(fault) or differs(found, wanted))
    assert not faults


@on([*SYSTEMS, *SANITIZERS])
def test_replays_as_data(built: Built, program: Path) -> None:
    # Catches: a script as data, or what a register does or counts, by which a replay isn't the program's.
    for call in built.some(of_cases("replay")):
        readers, journal = str(call.readers), str(call.journal)
        found = ended([*built.calling("register/replay.c"), readers, journal], call.text)
        wanted = ended([str(program), "replay", "--readers", readers, "--journal", journal], call.text)
        assert found == wanted, call.name


@on(SYSTEMS)
def test_words(built: Built, program: Path) -> None:
    # Catches: words that are accepted here and refused by the program, or the other way round, and a wrong limit.
    differ = []
    for words in WORDS:
        found, wanted = (ended([*it, *words.split()], EXAMPLE) for it in (built.program(), [str(program)]))
        differ += [f"{words}: {found}"] * differs(found, wanted)
    assert not differ


@on([GCC])
@pytest.mark.parametrize("word", OBEYED, ids=ascii)
def test_refused_words(built: Built, word: str) -> None:
    # Catches: a refused word that is written so that a terminal obeys it.
    for words in [word], ["replay", word], ["replay", "--readers", word], ["replay", f"--readers={word}"]:
        found = ended([*built.program(), *words], b"")
        assert found.status == REFUSED and b"error: " in found.complaint, words
        assert word.encode() not in found.complaint, found.complaint


@on(SYSTEMS)
@pytest.mark.parametrize("command", COMMANDS)
def test_long_inputs(built: Built, program: Path, command: str) -> None:
    # Catches: an input or a text that is cut, and an input that is too long and accepted.
    for call in at_limits():
        found, wanted = (ended([*it, command], call.text) for it in (built.program(), [str(program)]))
        assert found == wanted, call.name


@on([GCC])
def test_little_memory(built: Built, program: Path) -> None:
    # Catches: a run that ends since there is no room for a longer text than its own.
    longest = at_limit("the longest input")
    little = ["bash", "-c", 'ulimit -v 100000; exec "$@"', "bash"]
    found, wanted = (ended([*little, *it, "replay"], longest) for it in (built.program(), [str(program)]))
    assert found == wanted


@on([GCC])
def test_readings_in_little_memory(built: Built, program: Path) -> None:
    # Catches: memory that grows with the text, which has more than 16 MB here.
    readings = at_limit("a long text") + b"read,1,70\n" * READINGS
    wanted = ended([str(program), "replay"], readings)
    assert len(wanted.output) > 16_000_000 and wanted.status == 0
    assert ended(["bash", "-c", 'ulimit -v 16000; exec "$@"', "bash", *built.program(), "replay"], readings) == wanted


def check_replay(words: Words, program: Path, call: Call) -> None:
    """A replay is the program's."""
    limits = ["--readers", str(call.readers), "--journal", str(call.journal)]
    found, wanted = (ended([*it, "replay", *limits], call.text) for it in (words, [str(program)]))
    assert found == wanted, call.name


@on([GCC, SANITIZERS[1]])
def test_short_pieces(built: Built, program: Path) -> None:
    # Catches: a record that is cut, left out, taken twice or misnumbered where a piece of the input ends.
    words = built.linked([built.object(*SHORT_PIECES)])
    for call in built.some([*of_cases(), *mutated(seed(), drawn(200, 2_000))]):
        check_replay(words, program, call)


@on([GCC])
def test_pieces(built: Built, program: Path) -> None:
    # Catches: the same in pieces of the length that the program reads.
    for call in long_scripts():
        check_replay(built.program(), program, call)


@on(SYSTEMS)
@pytest.mark.parametrize("stream", STREAMS)
@pytest.mark.parametrize("command", COMMANDS)
def test_streams(built: Built, program: Path, command: str, stream: str) -> None:
    # Catches: a fault of a device that isn't reported, and a program that a closed pipe kills.
    # Also of a fault alone, which a reader that has gone may miss.
    for name in ["a long text", *["no bytes"] * ("|" not in stream)]:
        found, wanted = (redirected(it, command, stream, name) for it in (built.program(), [str(program)]))
        assert found == wanted, name
