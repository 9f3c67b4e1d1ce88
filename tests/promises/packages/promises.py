"""What the package for Python promises: it prints printed.txt, as the programs of the other packages do."""
from __future__ import annotations

from pathlib import Path

from voting_board import (
    MAJORITIES, Indices, Refused, Register, indices, indices_of_all, indices_of_many, indices_of_members, replay,
    replay_text,
)  # fmt: skip

WEIGHTS = {"North": 50, "South": 49, "East": 1}
MEMBERS = {
    "code": ["AAA", "BBB", "CCC", "DDD"],
    "votes": [50, 40, 9, 7],
    "chair": [1, 2, 2, None],
    "chair_name": ["North", "South", "South", None],
    "suspended": [False, False, True, False],
}


def show(board: Indices) -> None:
    """A board by a majority."""
    print(f"{board.majority}: {board.quota} and {board.least_size} of {board.total}, {board.cast} cast")
    print(f"  {board.omega} of {board.coalitions} win")
    for it in board.chairs:
        print(f"  {it.chair} {it.name or '-'} {it.weight} {it.swings}", end=" ")
        print(*("-" if index is None else index for index in (it.banzhaf, it.share, it.prevent, it.initiate)))


def counts() -> None:
    for board in indices_of_all(WEIGHTS).values():
        show(board)
    show(indices(WEIGHTS, "85", total=1000))
    show(indices_of_members(MEMBERS, "half"))
    many = indices_of_many([[50, 49, 1], [1, 1, 1]], ["half"])
    print("many:", *(it.swings for board in many for it in board["half"].chairs))


def register() -> None:
    board = Register(MEMBERS)
    print(f"start: {board.accepted} accepted, {board.published} published")
    print("open:", board.open(3, "East"))
    print("submit:", board.submit("move,DDD,3\nvotes,AAA,60\nadmit,EEE,1\n"))
    print("publish:", board.publish())
    print("withdraw:", board.withdraw("EEE"))
    for command in ("open,1", "close,2", "move,CCC,1", "admit,DDD,1"):
        refused = board.check(command)
        assert refused
        print(f"check {command}: {refused.number} {refused.name}")
    try:
        board.submit("suspend,AAA\nsuspend,AAA")
    except Refused as why:
        print(f"submit: {why.number} {why.name}, and {board.accepted} accepted")
    other = board.copy()
    print("what if:", other.move("DDD", 1))
    show(other.indices("half"))
    print("undo:", board.undo())
    board.rename(2, "West")
    print("names:", *(f"{chair} {name}" for chair, name in board.chair_names.items()))
    show(board.read("half"))
    print(board.script(), end="")


def replays(script: Path) -> None:
    text, fault = replay_text(script)
    print(text, end="")
    assert fault
    print(f"fault: record {fault.record}, {fault.number} {fault.name}")
    run = replay(script)
    for it in run.readings:
        print(f"reading: record {it.record}, {it.majority}", *(chair.swings for chair in it.chairs))
    for why in run.refused:
        print(f"refused: record {why.record}, {why.number} {why.name}: {why.command}")


assert MAJORITIES == ("half", "70", "85", "quorum")
counts()
register()
replays(Path(__file__).with_name("replayed.csv"))
