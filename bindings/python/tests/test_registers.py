"""Registers: commands, lists of them, questions, copies, undo, and scripts."""
from __future__ import annotations

import copy
import pickle
from collections.abc import Callable
from concurrent.futures import ProcessPoolExecutor
from pathlib import Path
from typing import Any

import pytest
from hypothesis import given
from hypothesis import strategies as st

from voting_board import Command, Member, Refused, Register, indices, replay

SCRIPT = "member,votes\nAAA,50\nBBB,49\nCCC,1\nscript\nopen,1\nmove,AAA,1\npublish\nopen,2\n"


def opened() -> Register:
    """A register of three members, each in a chair."""
    return Register({"code": ["AAA", "BBB", "CCC"], "votes": [50, 49, 1], "chair": [1, 2, 3]})


def state(register: Register) -> tuple[object, ...]:
    """All that can be seen of a register."""
    seen = register.members, register.chairs, register.journal, register.published, register.opening
    return (*seen, register.chair_names, register.indices_of_all(), register.read("85"), repr(register))


def test_answers() -> None:
    register = opened()
    journal = ["open,1", "open,2", "open,3", "move,AAA,1", "move,BBB,2", "move,CCC,3"]
    assert [str(it) for it in register.journal] == journal
    assert register.indices("half") == indices([50, 49, 1], "half")
    assert (register.suspend("AAA"), register.indices("half").swings) == (7, (0, 4, 0))
    assert (register.set_votes("AAA", 51), register.admit("DDD", 3), register.move("CCC", None)) == (8, 9, 10)
    assert (register.close(3), register.withdraw("CCC")) == (11, 12)
    assert register.members == {"AAA": Member(51, 1, True), "BBB": Member(49, 2), "DDD": Member(3)}
    assert register.chairs == {1: ("AAA",), 2: ("BBB",)}
    assert (register.restore("AAA"), register.members["AAA"], register.accepted) == (13, Member(51, 1), 13)
    assert register.opening == {"AAA": 50, "BBB": 49, "CCC": 1}
    assert repr(register) == "Register(members=3, chairs=2, accepted=13, published=0)"


def test_publications() -> None:
    register = opened()
    assert (register.read("half").chairs, register.published) == ((), 0)
    assert (register.publish(), register.read("half")) == (6, register.indices("half"))
    register.suspend("AAA")
    assert register.read("half") != register.indices("half") and register.published == 6
    assert register.submit("restore,AAA\npublish\nopen,9") == 9 and register.published == 8


@pytest.mark.parametrize(
    "command, number, name",
    [
        ("open,1", 1, "ChairOpen"),
        ("close,4", 2, "ChairNotOpen"),
        ("close,1", 3, "ChairHasMembers"),
        ("suspend,ZZZ", 4, "UnknownMember"),
        ("move,AAA,1", 6, "AlreadyThere"),
        ("move,AAA,9", 2, "ChairNotOpen"),
        ("restore,AAA", 8, "NotSuspended"),
        ("admit,AAA,1", 25, "MemberExists"),
        ("withdraw,AAA", 26, "MemberSeated"),
    ],
)
def test_refused(command: str, number: int, name: str) -> None:
    # Catches: a refused command that changes something, and one that is refused without its record.
    register = opened()
    before = state(register)
    kind, *parts = command.split(",")
    given: Any = {"chair": int(parts[-1])} if parts[-1].isdigit() and kind != "admit" else {}
    given |= {"votes": 1} if kind == "admit" else {}
    value = Command(kind, parts[0] if parts[0].isalpha() else None, **given)  # type: ignore[arg-type]
    assert str(value) == command
    for call in (register.submit, register.check, register.attempt):
        for how in (command, value, [command], [value]):
            why = refusal(call, how)
            assert (why.number, why.name, why.command, why.record) == (number, name, command, None)
            assert str(why) == f"refused {command!r}: {name} ({number}), {str(why).partition('), ')[2]}"
    assert state(register) == before


def refusal(call: Callable[[Any], object], given: Any) -> Refused:
    """The refusal that a call raises or returns."""
    try:
        found = call(given)
    except Refused as why:
        return why
    assert isinstance(found, Refused)
    return found


def test_commands_with_no_fault() -> None:
    register = opened()
    assert register.check("suspend,AAA") is None and register.accepted == 6
    assert register.check(["suspend,AAA", "restore,AAA"]) is None and register.accepted == 6
    assert register.check("publish") is None and register.published == 0
    assert register.attempt("suspend,AAA") is None and register.accepted == 7
    assert register.submit([]) == register.submit("") == register.submit("\n\n\r\n") == 7
    assert register.submit(["restore,AAA\nopen,4\n", Command("close", chair=4), "\r\nopen,5"]) == 11
    assert register.submit('"move","AAA",5\r"mo"ve,BBB,none') == 13


# What is wrong with a field of a record, in the words of the call of its kind.
FIELDS = {
    "open,33": "the chair is 33: a chair is a whole number from 1 to 32",
    "move,AAA,x": "the chair is 'x' (str): a chair is a whole number from 1 to 32, or None for no chair",
    "suspend,aaa": "the code is 'aaa': a code is three ASCII capitals",
    "votes,AAA,1.0": "the votes of AAA are '1.0' (str): votes are whole numbers from 0 to 1099511627776",
}


@pytest.mark.parametrize(
    "records, record, command, byte",
    [
        ("opne,9", 1, "opne,9", 0),
        ("open,9\n\nclose,9\n open,1\n", 3, " open,1", 16),
        ("open,9,", 1, "open,9,", 0),
        ("read,1,half", 1, "read,1,half", 0),
        ("open,9\nread,3,85\nx", 2, "read,3,85", 7),
        ("open,33", 1, "open,33", 0),
        ("read,5,half", 1, "read,5,half", 0),
        ("suspend,aaa", 1, "suspend,aaa", 0),
        ("move,AAA,x", 1, "move,AAA,x", 0),
        ("script", 1, "script", 0),
        ('open,9\r\n"open,1', 2, '"open,1', 8),
        ("\ufeffopen,9", 1, "\ufeffopen,9", 0),
        ("votes,AAA,1.0", 1, "votes,AAA,1.0", 0),
        ("member,votes", 1, "member,votes", 0),
        ("open,9;open,10", 1, "open,9;open,10", 0),
        ("\0", 1, "\0", 0),
    ],
)
def test_bad_records(records: str, record: int, command: str, byte: int) -> None:
    # Catches: a bad record that is passed over, one with a wrong number, and half of a list that is carried out.
    register = opened()
    before = state(register)
    for call in (register.submit, register.check, register.attempt):
        why = refusal(call, records)
        assert (why.number, why.record, why.command) == (17, record, command)
        where = f"refused record {record} at byte {byte}, {command!r}: "
        field = f": {FIELDS[command]}" if command in FIELDS else ""
        assert str(why) == f"{where}BadRecord (17), a record is not well formed{field}"
    assert state(register) == before


def test_all_or_nothing() -> None:
    register = opened()
    before = state(register)
    why = refusal(register.submit, ["open,7", "publish", "move,AAA,7", "open,8", "open,7", "opne"])
    assert (why.record, why.command, why.number) == (5, "open,7", 1)
    assert str(why) == "refused record 5, 'open,7': ChairOpen (1), the chair is open already"
    assert state(register) == before


def test_wrong_commands() -> None:
    register = opened()
    for value in (5, None, [5], [None], ["open,9", 5], {"open": 9}, [["open,9"]], [("open", None, 9, None)]):
        with pytest.raises(TypeError, match="a command is a Command, or a record such as 'open,1'"):
            register.submit(value)  # type: ignore[arg-type]
    assert register.accepted == 6


@pytest.mark.parametrize(
    "parts, kind, message",
    [
        (
            {"kind": "opne", "chair": 1},
            Refused,
            "no command 'opne': open, close, move, votes, suspend, restore, admit, ",
        ),
        ({"kind": "open"}, TypeError, r"the chair is None \(NoneType\): a chair is"),
        ({"kind": "open", "chair": "9"}, TypeError, r"the chair is '9' \(str\)"),
        ({"kind": "open", "chair": 33}, Refused, "the chair is 33: a chair is a whole number from 1 to 32$"),
        ({"kind": "move", "code": "AAA", "chair": 0}, Refused, "the chair is 0: a chair is .*, or None for no chair$"),
        ({"kind": "move", "chair": 1}, TypeError, r"the code is None \(NoneType\)"),
        (
            {"kind": "open", "chair": 1, "code": "AAA"},
            TypeError,
            "the command 'open' has no code: its parts are chair$",
        ),
        ({"kind": "votes", "code": "aaa", "votes": 1}, Refused, "the code is 'aaa'"),
        ({"kind": "admit", "code": "AAA", "votes": -1}, Refused, "the votes of AAA are -1"),
        (
            {"kind": "votes", "code": "AAA", "votes": 1, "chair": 1},
            TypeError,
            "'votes' has no chair: its parts are code, ",
        ),
    ],
)
def test_commands_are_checked_when_made(parts: dict[str, Any], kind: type[Exception], message: str) -> None:
    # Catches: a command that can be printed, and fails only when it is submitted.
    with pytest.raises(kind, match=message):
        Command(**parts)
    for made in (Command("open", chair=1), Command("votes", "BBB", votes=2)):
        with pytest.raises((TypeError, Refused)):
            made._replace(**{"code": None, "chair": None, "votes": None, **parts})


def test_commands() -> None:
    found = Command("votes", "AAA", votes=5.0)
    assert found == ("votes", "AAA", None, 5) and type(found.votes) is int and str(found) == "votes,AAA,5"
    for made in (found, *opened().journal, Command("move", "AAA")):
        for other in (pickle.loads(pickle.dumps(made)), copy.copy(made), made._replace(), Command(*made)):
            assert (type(other), other, repr(other)) == (Command, made, repr(made))


def test_journal_limit() -> None:
    register = Register({"AAA": 1}, journal=2)
    assert register.submit("open,1\nopen,2") == 2
    for other in (register, register.copy(), pickle.loads(pickle.dumps(register))):
        assert refusal(lambda _: other.open(3), None).name == "JournalFull"
    assert register.undo() == 1 and register.open(3) == 2
    table = {"code": ["AAA"], "votes": [1], "chair": [1], "suspended": [True]}
    why = refusal(lambda it: Register(it, journal=2), table)
    assert (why.name, why.command) == ("JournalFull", "suspend,AAA")


def test_table() -> None:
    register = Register(
        {
            "code": ["BBB", "AAA", "CCC"],
            "votes": [1, 2, 3],
            "chair": [9, 2, None],
            "suspended": [True, False, True],
            "chair_name": ["Hills", None, None],
        }
    )
    wanted = ["open,2", "open,9", "move,BBB,9", "move,AAA,2", "suspend,BBB", "suspend,CCC"]
    assert [str(it) for it in register.journal] == wanted
    assert register.indices("half").names == (None, "Hills")
    assert Register({}).indices("half").coalitions == 1


def test_copies() -> None:
    register = opened()
    register.publish()
    before = state(register)
    for other in (register.copy(), copy.copy(register), copy.deepcopy(register)):
        assert state(other) == before
        other.move("AAA", None)
    assert register.copy().admit("EEE", 7) == 7
    assert state(register) == before


def test_pickle() -> None:
    register = Register({"code": ["AAA"], "votes": [5], "chair": [3], "chair_name": ["Hills"]})
    register.publish()
    register.suspend("AAA")
    assert state(pickle.loads(pickle.dumps(register))) == state(register)
    with ProcessPoolExecutor(1) as pool:
        assert state(pool.submit(copy.copy, register).result()) == state(register)


def test_undo() -> None:
    register = opened()
    register.publish()
    assert (register.undo(), register.published, register.members["CCC"].chair) == (5, 5, None)
    assert register.undo(2) == 2
    # Catches: readers that see commands that were taken back, or none of those that stay.
    assert register.published == 2 and register.read("half") == register.indices("half")
    assert (register.undo(0), register.chairs, register.journal) == (0, {}, ())
    for to in (1, -1, None):
        with pytest.raises(Refused, match="a whole number from 0 to the number of accepted commands") as caught:
            register.undo(to)
        assert caught.value.name == "BadIndex"


def test_scripts() -> None:
    register = opened()
    assert Register.from_script(register.script()).journal == register.journal
    assert "publish" not in register.script()
    register.submit("publish\nsuspend,AAA")
    text = register.script()
    assert text == (
        "member,votes\nAAA,50\nBBB,49\nCCC,1\nscript\nopen,1\nopen,2\nopen,3\n"
        "move,AAA,1\nmove,BBB,2\nmove,CCC,3\npublish\nsuspend,AAA\n"
    )
    assert state(Register.from_script(text)) == state(register)
    assert replay(text).fault is None and not replay(text).refused


def test_from_script(tmp_path: Path) -> None:
    register = Register.from_script(SCRIPT + "read,1,half\nread,4,quorum\n")
    assert (register.accepted, register.published) == (3, 2)
    file = tmp_path / "script.csv"
    file.write_text(SCRIPT)
    for it in (SCRIPT.encode(), bytearray(SCRIPT.encode()), file, "\ufeff" + SCRIPT.replace("\n", "\r\n\r\n")):
        assert state(Register.from_script(it)) == state(register)  # type: ignore[arg-type]
    with pytest.raises(ValueError, match=r"a single line: a file is given as pathlib.Path\('script.csv'\)"):
        Register.from_script("script.csv")
    with pytest.raises(FileNotFoundError):
        Register.from_script(tmp_path / "none.csv")
    with pytest.raises(TypeError, match=r"^the script is 5 \(int\): text or bytes"):
        Register.from_script(5)  # type: ignore[arg-type]


@pytest.mark.parametrize(
    "script, number, record, message",
    [
        ("", 21, None, "BadHeader (21), the first record is not 'member,votes'"),
        (SCRIPT + "open,1\n", 1, 10, "refused record 10, 'open,1': ChairOpen (1), the chair is open already"),
        (
            SCRIPT + "\n\nopen,33\nopen,5",
            17,
            10,
            f"refused record 10, 'open,33': BadRecord (17), a record is not well formed: {FIELDS['open,33']}",
        ),
        (
            SCRIPT + "read,5,half",
            22,
            10,
            "refused record 10, 'read,5,half': BadReader (22), there is no reader of this number",
        ),
        ("member,votes\nAAA,x\n", 17, 2, "refused record 2: BadRecord (17), a record is not well formed"),
        ("member,votes\nAAA,1\n", 28, None, "NoScript (28), the input ends before the record 'script'"),
        (
            "member,votes\nAAA,1\nAAA,2\nscript\n",
            11,
            None,
            "DuplicateMember (11), two members have the same code: 'AAA'",
        ),
    ],
)
def test_scripts_with_faults(script: str, number: int, record: int | None, message: str) -> None:
    with pytest.raises(Refused) as caught:
        Register.from_script(script)
    assert (caught.value.number, caught.value.record, str(caught.value)) == (number, record, message)


CODES = st.sampled_from(["AAA", "BBB", "CCC", "DDD"])
CHAIRS, VOTES = st.integers(1, 3), st.integers(0, 9)
NONE = st.none()
COMMANDS = st.one_of(
    st.tuples(st.sampled_from(["open", "close"]), NONE, CHAIRS),
    st.tuples(st.just("move"), CODES, st.one_of(NONE, CHAIRS)),
    st.tuples(st.sampled_from(["votes", "admit"]), CODES, NONE, VOTES),
    st.tuples(st.sampled_from(["suspend", "restore", "withdraw"]), CODES),
).map(Command._make)


@given(st.lists(COMMANDS, max_size=40), st.integers(0, 40))
def test_any_commands(commands: list[Command], cut: int) -> None:
    # A register by its commands, by a replay of their text, by the journal, and after undo is the same.
    register = Register({"AAA": 5, "BBB": 4})
    lengths, states = [], [state(register)]
    for command in commands:
        if register.attempt(command) is None:
            lengths.append(register.accepted)
            states.append(state(register))
    assert lengths == list(range(1, len(lengths) + 1))
    text = "member,votes\nAAA,5\nBBB,4\nscript\n" + "".join(f"{it}\n" for it in commands)
    assert state(replay(text).register()) == states[-1]
    other = Register({"AAA": 5, "BBB": 4})
    other.submit(list(register.journal))
    assert state(other) == states[-1]
    to = min(cut, len(lengths))
    assert register.undo(to) == to and state(register) == states[to]
