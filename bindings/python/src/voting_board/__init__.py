"""The exact voting power of a board, and the register of its members, votes and chairs.

    >>> from voting_board import Register, indices
    >>> for chair in indices([50, 49, 1], "half").chairs:
    ...     print(chair.chair, chair.swings, chair.share)
    1 3 3/5
    2 1 1/5
    3 1 1/5

The counts, the register and the reading of scripts are calls of a library that is proved, or of the same compiled from
board.c, which is made from it in steps that are tested. The package's own work, such as tables, fractions and messages,
is tested.
"""
from .boards import indices, indices_of_all, indices_of_members
from .many import ManyIndices, indices_of_many
from .names import MAJORITIES, MEANINGS, Kind, Majority
from .names import VERSION as __version__
from .refusals import Refused
from .registers import Register
from .replays import Replay, replay, replay_text
from .results import Accepted, Chair, Command, Fault, Indices, Member, Outcome, Published, Reading, Refusal

__all__ = [
    "MAJORITIES",
    "MEANINGS",
    "Accepted",
    "Chair",
    "Command",
    "Fault",
    "Indices",
    "Kind",
    "Majority",
    "ManyIndices",
    "Member",
    "Outcome",
    "Published",
    "Reading",
    "Refusal",
    "Refused",
    "Register",
    "Replay",
    "__version__",
    "indices",
    "indices_of_all",
    "indices_of_many",
    "indices_of_members",
    "replay",
    "replay_text",
]
