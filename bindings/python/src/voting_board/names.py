"""The names, limits and sentences of the library. Made by tools/made from the sources: do not edit."""

from typing import Literal

VERSION = "1.0.0"
CHAIRS = 32
MEMBERS = 256
COMMANDS = 1_000_000
READERS = 4
INPUT_BYTES = 4_194_304
MEMBER_VOTES = 1_099_511_627_776
TOTAL_VOTES = 281_474_976_710_656

Majority = Literal["half", "70", "85", "quorum"]

#: The majorities in the order of the library's numbers, from 0.
MAJORITIES: tuple[Majority, ...] = ("half", "70", "85", "quorum")

#: What wins by each majority.
MEANINGS: dict[Majority, str] = {
    "half": "more than half of the votes cast, if all open chairs vote",
    "70": "at least one vote, and at least 70 per cent of the total",
    "85": "at least one vote, and at least 85 per cent of the total",
    "quorum": "more than half of the open chairs, with at least half of the total",
}

#: How a sentence on each majority begins.
BEGINNINGS: dict[Majority, str] = {
    "half": "At a simple majority",
    "70": "At 70 per cent",
    "85": "At 85 per cent",
    "quorum": "For the quorum",
}

Kind = Literal[
    "open",
    "close",
    "move",
    "votes",
    "suspend",
    "restore",
    "admit",
    "withdraw",
]

#: The parts of each kind of command, in the order of the library's numbers, from 0.
KINDS: dict[Kind, tuple[str, ...]] = {
    "open": ("chair",),
    "close": ("chair",),
    "move": ("code", "chair"),
    "votes": ("code", "votes"),
    "suspend": ("code",),
    "restore": ("code",),
    "admit": ("code", "votes"),
    "withdraw": ("code",),
}
PUBLISH = 8
READ = 9

#: The name and the reason of each refusal and each fault by its number.
REFUSALS: dict[int, tuple[str, str]] = {
    1: ("ChairOpen", "the chair is open already"),
    2: ("ChairNotOpen", "the chair is not open"),
    3: ("ChairHasMembers", "the chair has members, suspended ones counted"),
    4: ("UnknownMember", "no member has this code"),
    5: ("MemberSuspended", "the member's voting rights are suspended"),
    6: ("AlreadyThere", "the member is there already"),
    7: ("AlreadySuspended", "the member is suspended already"),
    8: ("NotSuspended", "the member is not suspended"),
    9: ("JournalFull", "as many commands as the journal limit were accepted"),
    10: ("OutOfMemory", "out of memory"),
    11: ("DuplicateMember", "two members have the same code"),
    12: ("TooManyMembers", "there are more than 256 members"),
    13: ("BadLimit", "a limit is out of its range"),
    14: ("BadChair", "a chair's number is not from 1 to 32"),
    15: ("BadMember", "a member's code is not three ASCII capitals"),
    16: ("VotesTooLarge", "a member has more than 2^40 votes"),
    17: ("BadRecord", "a record is not well formed"),
    18: ("NoEntry", "no place or no entry for a reader"),
    19: ("ReadFault", "the input could not be read"),
    20: ("WriteFault", "the output could not be written"),
    21: ("BadHeader", "the first record is not 'member,votes'"),
    22: ("BadReader", "there is no reader of this number"),
    23: ("Busy", "a reader is blocking the publication"),
    24: ("Mismatch", "a reading is not the sheet of a publication, or is older than the one before"),
    25: ("MemberExists", "a member has this code already"),
    26: ("MemberSeated", "the member sits in a chair"),
    27: ("GateClosed", "a gate was closed"),
    28: ("NoScript", "the input ends before the record 'script'"),
    29: ("TooLong", "the input has more than 4,194,304 bytes"),
    30: ("BadJournal", "a command of the journal is refused"),
    31: ("BadCuts", "the cuts are not in order, or one is past the journal's end"),
    32: ("BadSheet", "the words are not a sheet's"),
    33: ("TooManyChairs", "more chairs are open than are counted"),
    34: ("NoRegister", "the handle has no register"),
    35: ("BadIndex", "there is no item at this index"),
}
CHAIR_OPEN = 1
CHAIR_NOT_OPEN = 2
CHAIR_HAS_MEMBERS = 3
UNKNOWN_MEMBER = 4
MEMBER_SUSPENDED = 5
ALREADY_THERE = 6
ALREADY_SUSPENDED = 7
NOT_SUSPENDED = 8
JOURNAL_FULL = 9
OUT_OF_MEMORY = 10
DUPLICATE_MEMBER = 11
TOO_MANY_MEMBERS = 12
BAD_LIMIT = 13
BAD_CHAIR = 14
BAD_MEMBER = 15
VOTES_TOO_LARGE = 16
BAD_RECORD = 17
NO_ENTRY = 18
READ_FAULT = 19
WRITE_FAULT = 20
BAD_HEADER = 21
BAD_READER = 22
BUSY = 23
MISMATCH = 24
MEMBER_EXISTS = 25
MEMBER_SEATED = 26
GATE_CLOSED = 27
NO_SCRIPT = 28
TOO_LONG = 29
BAD_JOURNAL = 30
BAD_CUTS = 31
BAD_SHEET = 32
TOO_MANY_CHAIRS = 33
NO_REGISTER = 34
BAD_INDEX = 35
TRAPPED = 255
IMPOSSIBLE = "the library came to a point that its proof rules out: the compiler or the machine is at fault"

#: The columns of a table of members.
COLUMNS = ("code", "name", "votes", "chair", "chair_name", "suspended")

#: What is allowed for a value.
ALLOWED: dict[str, str] = {
    "weight": "votes are whole numbers from 0",
    "weights": "a board has at most 32 chairs",
    "total": "votes are whole numbers from 0",
    "total_most": "at most 281474976710656",
    "total_least": "at least the sum of the weights",
    "votes": "votes are whole numbers from 0 to 1099511627776",
    "chair": "a chair is a whole number from 1 to 32",
    "seat": "a chair is a whole number from 1 to 32, or None for no chair",
    "code": "a code is three ASCII capitals",
    "name": "a name is text",
    "suspended": "True or False",
    "majority": "half, 70, 85 or quorum",
    "readers": "a whole number from 1 to 4",
    "journal": "a whole number from 1 to 1000000",
    "length": "a whole number from 0 to the number of accepted commands",
    "columns": "the columns are code, name, votes, chair, chair_name and suspended",
}

#: How the measures are named in a sentence.
MEASURES: dict[str, str] = {
    "share": "share of power",
    "banzhaf": "Banzhaf measure",
    "prevent": "power to prevent action",
    "initiate": "power to initiate action",
    "swings": "number of swings",
    "ratio": "ratio of power to votes",
}

#: The sentences on who has most and who gains most.
FINDINGS: dict[str, str] = {
    "none_wins": "{at} no coalition wins: the open chairs cast {cast} of {total} votes.",
    "none_before": "{at} no coalition wins in the base, so nothing can be compared.",
    "no_veto": "{at}, no chair has a veto: at least {carry} chairs are needed to carry, and {block} to block.",
    "no_veto_quorum": "{at}, no chair has a veto: at least {carry} chairs are needed to meet it, {block} to stop it.",
    "vetoes": "{at}, {vetoes}.",
    "alone_one": "chair {chairs} decides alone: everything passes with it, and nothing without it",
    "has_one": "chair {chairs} has a veto{margin}: {nothing} without it",
    "has_several": "chairs {chairs} have a veto: {nothing} without each of them",
    "gets_one": "chair {chairs} gains a veto{margin}: {nothing} without it",
    "gets_several": "chairs {chairs} gain a veto: {nothing} without each of them",
    "drops_one": "chair {chairs} loses its veto{margin}",
    "drops_several": "chairs {chairs} lose their vetoes",
    "keeps_one": "chair {chairs} keeps its veto{margin}",
    "keeps_several": "chairs {chairs} keep their vetoes",
    "passes": "nothing passes",
    "meets": "there is no quorum",
    "more": ", with {votes} more than it needs",
    "fewer": ", with {votes} fewer than it needs",
    "just": ", with just the votes that it needs",
    "spare": "{chair} ({votes} to spare)",
    "powerless_one": " Chair {chairs} has no power: no outcome depends on it.",
    "powerless_several": " Chairs {chairs} have no power: no outcome depends on them.",
    "equal": " Chair {more} with {votes} votes has no more power than chair {less} with {fewer}.",
    "gains": "{at}, in {measure}: {gain}; {loss}.{opened}",
    "gains_then": " In {measure}: {gain}; {loss}.{opened}",
    "gain_one": "chair {chairs} gains most, {change}",
    "gain_several": "chairs {chairs} gain most, {change} each",
    "gain_none": "no chair gains",
    "loss_one": "chair {chairs} loses most, {change}",
    "loss_several": "chairs {chairs} lose most, {change} each",
    "loss_none": "no chair loses",
    "new": " Chair {chair} is new: {value}.",
    "closed": " Chair {chair} is closed; in the base it had {value}.",
    "tiny": "less than {change}",
    "points": "{change} percentage points",
}

#: The operations of scenarios: what each field is, in the order of the text.
OPERATIONS: dict[str, dict[str, str]] = {
    "merge": {"chair": "chair", "to": "chair"},
    "dissolve": {"chair": "chair", "to": "seat"},
    "split": {"codes": "codes", "to": "opened"},
    "scale": {"of": "whose", "percent": "change"},
    "share": {"codes": "codes", "percent": "share", "others": "others"},
    "move": {"codes": "codes", "to": "seat"},
}
NO_PROPORTIONS = "these members have no votes, so no proportions to keep"
