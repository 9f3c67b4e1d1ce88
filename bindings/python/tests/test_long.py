"""Long inputs: a million commands, texts above the library's limit, and pieces that are cut anywhere."""
from __future__ import annotations

import pickle
import subprocess
import sys
import textwrap
from unittest.mock import patch

import pytest
from hypothesis import given
from hypothesis import strategies as st

from voting_board import Command, Refused, Register, registers, replay, replay_text, scripts
from voting_board.names import INPUT_BYTES

HEAD = "member,votes\nAAA,1\nscript\n"
PAIR = "open,1\nclose,1\n"
MILLION = 1_000_000


@pytest.fixture(scope="module")
def full() -> Register:
    """A register whose journal is full."""
    register = Register({"AAA": 1})
    assert register.submit(PAIR * (MILLION // 2)) == MILLION
    return register


def test_a_million_commands(full: Register) -> None:
    with pytest.raises(Refused) as caught:
        full.open(1)
    assert caught.value.name == "JournalFull" and full.accepted == MILLION
    other = full.copy()
    assert other.undo() == MILLION - 1 and other.submit("publish\nclose,1") == MILLION
    other.publish()


@pytest.mark.deep("the gate fills the journal by a text alone")
def test_a_list_of_a_million(full: Register) -> None:
    journal = full.journal
    assert len(journal) == MILLION and journal[-1] == Command("close", chair=1)
    other = Register({"AAA": 1})
    with pytest.raises(Refused) as caught:
        other.submit([*journal, "open,1"])
    assert (caught.value.record, caught.value.name, other.accepted) == (MILLION + 1, "JournalFull", 0)
    assert other.submit(journal) == MILLION


@pytest.mark.deep("the gate cuts shorter texts into pieces, and empty lines and long records at the real limit")
def test_a_script_of_a_million(full: Register) -> None:
    text = full.script()
    assert len(text) > INPUT_BYTES
    again = Register.from_script(text)
    assert again.accepted == MILLION and again.script() == text
    assert pickle.loads(pickle.dumps(again)).accepted == MILLION
    with pytest.raises(Refused) as caught:
        Register.from_script(text + "read,1,half\n\n\nopne,1")
    assert (caught.value.record, caught.value.command) == (MILLION + 5, "opne,1")


@pytest.mark.parametrize("size", range(24, 60))
def test_cuts(size: int, monkeypatch: pytest.MonkeyPatch) -> None:
    # Catches: a piece whose cut changes a record other than its last, or a number.
    monkeypatch.setattr(scripts, "INPUT_BYTES", size + len(scripts.PREFIX))
    records = ["open,1", "open,12", '"open",2', "move,AAA,12", "\r\n", "publish", 'move,"AAA",none', "\n\n\n"]
    text = "\n".join([*records, "close,12"])
    register = Register({"AAA": 1})
    assert register.submit(text) == 6 and register.published == 4
    for end in ("opne", "read,1,half", "open,1"):
        with pytest.raises(Refused) as caught:
            Register({"AAA": 1}).submit(f"{text}\r{end}\nopen,9")
        assert (caught.value.record, caught.value.command) == (8, end)
    for count in range(40):
        assert Register({}).submit("\n" * count + "open,1\n") == 1


RECORDS = [
    "open,1",
    '"open",2',
    "open,12",
    "move,AAA,12",
    'mo""ve,AAA,1',
    "close,12",
    "publish",
    '"pub"lish',
    "votes,AAA,12",
    'votes,"AA"A,"0"001',
    "suspend,AAA",
    "restore,AAA",
    'open,"3',
    '"open',
    '""',
    "read,1,half",
    "opne",
    '"op\nen",1',
]
LINES = st.tuples(st.sampled_from(RECORDS), st.sampled_from(["\n", "\r\n", "\r", "\n\n", "\n\r\n\n"]))


def outcome(text: str) -> tuple[object, ...]:
    """What a text does to a register: the answer, or the refusal, and the register after it."""
    register = Register({"AAA": 1})
    try:
        answer: object = register.submit(text)
    except Refused as why:
        answer = why.number, why.record, why.command, str(why)
    return answer, register.journal, register.published


@given(st.lists(LINES, max_size=20), st.integers(60, 140))
def test_any_cuts(lines: list[tuple[str, str]], size: int) -> None:
    text = "".join(map("".join, lines))
    whole = outcome(text)
    with patch.object(scripts, "INPUT_BYTES", size + len(scripts.PREFIX)):
        assert outcome(text) == whole


def test_cuts_of_whole_scripts(monkeypatch: pytest.MonkeyPatch) -> None:
    text = HEAD + "open,1\nopen,12\nmove,AAA,12\npublish\nread,1,half\nvotes,AAA,7\n"
    wanted = Register.from_script(text)
    for size in range(len(HEAD) + 14, len(text) + 2):
        for module in (scripts, registers):
            monkeypatch.setattr(module, "INPUT_BYTES", size)
        found = Register.from_script(text.replace("\n", "\r\n\r\n", 3))
        assert (found.journal, found.published) == (wanted.journal, wanted.published)


@pytest.mark.parametrize("blank", ["\n", "\r\n", "\r"])
def test_many_empty_lines(blank: str) -> None:
    # Catches: a text that a cut after millions of empty lines turns into another one.
    lines = blank * ((INPUT_BYTES - 5) // len(blank))
    register = Register({"AAA": 1})
    assert register.submit(f"{lines}open,1{lines}close,1{blank}") == 2
    assert Register.from_script(f"{HEAD}{lines}open,1{lines}publish{blank}").published == 1
    assert Register.from_script(f"{lines}{HEAD}open,1\n").accepted == 1


def test_long_records() -> None:
    zeros = "open," + "0" * (INPUT_BYTES + 9) + "1"
    for text in (zeros, "x" * (2 * INPUT_BYTES), '"' + "\n" * INPUT_BYTES, "\0" * 10**7):
        with pytest.raises(Refused) as caught:
            Register({"AAA": 1}).submit(text)
        assert (caught.value.name, caught.value.record) == ("BadRecord", 1)


def test_longest_inputs() -> None:
    text = HEAD + "\n" * (INPUT_BYTES - len(HEAD))
    assert replay(text).fault is None and list(replay(text)) == []
    fault = replay(text + "\n").fault
    assert fault is not None and fault.name == "TooLong" and list(replay(text + "\n")) == []
    assert replay_text(text + "\n") == ("fault,0,TooLong\n", fault)


LIMITED = """
    import resource, sys
    from voting_board import replay
    script = sys.stdin.read()
    size = int(open("/proc/self/statm").read().split()[0]) * resource.getpagesize()
    resource.setrlimit(resource.RLIMIT_AS, (size + 200_000_000,) * 2)
    run = replay(script)
    print(sum(1 for _ in run), sum(1 for _ in run))
"""


def test_readings_in_little_memory() -> None:
    # Catches: a replay that keeps its readings: they took 5.7 GB.
    many = (INPUT_BYTES - 1000) // 10
    text = "".join([HEAD, *(f"open,{chair}\n" for chair in range(1, 33)), "publish\n", "read,1,70\n" * many])
    words = [sys.executable, "-c", textwrap.dedent(LIMITED)]
    done = subprocess.run(words, input=text, capture_output=True, text=True)
    assert (done.stdout, done.stderr) == (f"{many + 33} {many + 33}\n", "")
