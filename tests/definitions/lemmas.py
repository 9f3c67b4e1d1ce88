"""Lemmas that a prover checks by computing: a definition that contracts cite at a drawn input, and what
tests/independent, written from docs/FORMATS.md and docs/DEFINITIONS.md alone, gives for it."""
from __future__ import annotations

import re
from collections.abc import Callable, Iterable
from dataclasses import dataclass
from random import Random

from tests.independent.inputs import (
    Input, Records, hostile, limited, schedules, scripts, some_codes, some_command, threads,
)  # fmt: skip
from tests.independent.register import (
    MOST_VOTES, Fault, Malformed, Member, Register, Refused, Sheet, command_of, opening_of, records_of,
)  # fmt: skip
from tests.independent.runs import Read, answer, limits_of, request_of

# The prover runs over all coalitions of a reading, and unfolds each byte of an input and each step of a schedule.
MOST_CHAIRS, MOST_BYTES, MOST_STEPS = 5, 500, 200
PLAIN = re.compile(rb"[ -~\n]+")
KINDS = ["open", "close", "move", "votes", "suspend", "restore", "admit", "withdraw"]
PUBLISH, READ = 8, 9
CONSTRUCTORS = ["Open", "Close", "Move", "SetVotes", "Suspend", "Restore", "Admit", "Withdraw"]
MAJORITIES = ["half", "70", "85", "quorum"]


@dataclass(frozen=True)
class Lemma:
    """What a definition is asked, and the value that it must have."""

    asked: str
    wanted: str

    def text(self, name: str, unfolded: str) -> str:
        return f"\n{name} : {self.asked} ≡ {self.wanted}\n{unfolded}{name} = refl\n"


def listed(items: Iterable[object]) -> str:
    """A list of numbers or of terms."""
    return " ∷ ".join([*map(str, items), "[]"])


def bytes_listed(text: bytes) -> str:
    """A list of bytes: as text where that can be, and else by number."""
    parts, at = [], 0
    while at < len(text):
        if plain := PLAIN.match(text, at):
            said = plain[0].decode().replace("\\", "\\\\").replace('"', '\\"').replace("\n", "\\n")
            parts.append(f'codes "{said}"')
            at = plain.end()
        else:
            parts.append(f"({text[at]} ∷ [])")
            at += 1
    return " ++ ".join(parts) or "[]"


def is_small(made: Input, text: bytes) -> bool:
    """Whether the prover computes this input soon."""
    chairs = map(int, re.findall(rb"^reading,\d+,\d+,\w+,(\d+),", text, re.M))
    steps = map(int, re.findall(rb"\b(?:writer|reader,\d+),(\d{1,9})\b", made.given or b""))
    small = max(chairs, default=0) <= MOST_CHAIRS and sum(steps) <= MOST_STEPS
    return made.given is not None and len(made.given) <= MOST_BYTES and small


def drawn_run(chance: Random, word: str, kinds: list[Callable[[Random], Input]]) -> tuple[str, bytes] | None:
    """The limits and the bytes of an input as the prover takes them, and its text; None if the input doesn't serve."""
    made = chance.choice(kinds)(chance)
    try:
        readers, journal = limits_of(made.words)
    except Malformed:
        return None
    text = answer(made.words, made.given, True).printed
    if made.words[0] != word or made.given is None or not is_small(made, text):
        return None
    limits = str(journal) if word == "serve" else f"(run_limits {readers} {journal})"
    return f"{limits} ({bytes_listed(made.given)})", text


def replayed(chance: Random) -> Lemma | None:
    """The text of a replay."""
    run = drawn_run(chance, "replay", [scripts, scripts, hostile, limited])
    return run and Lemma(f"output (run_of {run[0]})", bytes_listed(run[1]))


def traced(chance: Random) -> Lemma | None:
    """The text of a schedule."""
    run = drawn_run(chance, "trace", [schedules, schedules, schedules, limited])
    return run and Lemma(f"output (trace_of {run[0]})", bytes_listed(run[1]))


def served(chance: Random) -> Lemma | None:
    """The text of a run on threads in which no device fails."""
    run = drawn_run(chance, "serve", [threads, threads, threads, limited])
    return run and Lemma(f"serve_text (plan_of {run[0]})", bytes_listed(run[1]))


def code(letters: str) -> str:
    """A member's code."""
    return f"({listed(letters.encode())})"


def seat(chair: int | None) -> str:
    """A chair or none."""
    return "None" if chair is None else f"(Some {chair})"


def command_term(fields: list[str]) -> str:
    """The command of a record, which is well formed."""
    name = CONSTRUCTORS[KINDS.index(fields[0])]
    match fields:
        case [_, word] if word.isdecimal():
            return f"{name} {int(word)}"
        case ["move", word, chair]:
            return f"{name} {code(word)} {seat(None if chair == 'none' else int(chair))}"
        case [_, word, votes]:
            return f"{name} {code(word)} {int(votes)}"
    return f"{name} {code(fields[1])}"


def struct(kind: int, letters: bytes = b"\0\0\0\0", chair: int = 0, votes: int = 0) -> str:
    """A command as the struct of C."""
    return f"(fields_with {kind} ({listed(letters)}) {chair} {votes})"


def struct_of(fields: list[str]) -> str:
    """The struct of a record's command: its parts, and 0 for all others."""
    kind = KINDS.index(fields[0])
    match fields:
        case [_, word] if word.isdecimal():
            return struct(kind, chair=int(word))
        case ["move", word, chair]:
            return struct(kind, word.encode() + b"\0", 0 if chair == "none" else int(chair))
        case [_, word, votes]:
            return struct(kind, word.encode() + b"\0", votes=int(votes))
    return struct(kind, fields[1].encode() + b"\0")


def given(chance: Random) -> Lemma:
    """The command of a struct, or why it has none."""
    kind, chair = chance.choice([*range(8), *range(10)]), chance.choice([0, 1, 32, 33, chance.randint(2, 31)])
    sound = chance.choice([b"AAZ\0", b"QRS\0"])
    letters = chance.choice([sound, sound, chance.choice([b"QRST", b"QR\0\0", b"aAA\0", b"A1A\0"])])
    votes = chance.choice([0, 7, MOST_VOTES, MOST_VOTES + 1])
    return Lemma(f"given_command {struct(kind, letters, chair, votes)}", given_result(kind, letters, chair, votes))


def given_result(kind: int, letters: bytes, chair: int, votes: int) -> str:
    """What board.h says of a struct: its kind is looked at first, then its code, then its chair or its votes."""
    if kind >= len(KINDS):
        return "Err BadRecord"
    word, none = KINDS[kind], kind == KINDS.index("move") and chair == 0
    if word not in ("open", "close") and not re.fullmatch(rb"[A-Z]{3}\0", letters):
        return "Err BadMember"
    if word in ("open", "close", "move") and not none and not 1 <= chair <= 32:
        return "Err BadChair"
    if word in ("votes", "admit") and votes > MOST_VOTES:
        return "Err VotesTooLarge"
    name = letters[:3].decode()
    parts: dict[str, list[object]] = {"open": [chair], "close": [chair], "move": [name, "none" if none else chair]}
    fields = [word, *parts.get(word, [name, votes] if word in ("votes", "admit") else [name])]
    return f"Ok ({command_term([str(it) for it in fields])})"


def written(chance: Random) -> Lemma:
    """A command as the library writes it for a caller in C."""
    fields = some_command(chance, some_codes(chance, 3), chance.sample(range(1, 33), 3), 3)
    return Lemma(f"command_as ({command_term(fields)})", struct_of(fields))


def item(record: int, fields: list[str], readers: int) -> str:
    """The item of a record of a script."""
    match request_of(record, fields, readers):
        case None:
            return f"item_with {record} {struct(PUBLISH)} 0 0"
        case Read() as read:
            return f"item_with {record} {struct(READ)} {read.reader} {MAJORITIES.index(read.majority)}"
        case _:
            plain = [str(int(it)) if it.isdecimal() else it for it in fields]
            return f"item_with {record} {struct_of(plain)} 0 0"


def items(made: Input, readers: int) -> list[str]:
    """The items of a script, up to its first fault."""
    found: list[str] = []
    try:
        records = records_of(made.given)
        opening_of(records)
        for record, fields in records:
            found.append(item(record, fields, readers))
    except Fault:
        pass
    return found


def itemised(chance: Random) -> Lemma | None:
    """The records of a script as structs."""
    made = chance.choice([scripts, scripts, hostile])(chance)
    readers, journal = limits_of(made.words)
    if made.given is None or len(made.given) > MOST_BYTES:
        return None
    return Lemma(
        f"items_of (run_limits {readers} {journal}) ({bytes_listed(made.given)})", listed(items(made, readers))
    )


def sheet_words(sheet: Sheet) -> list[int]:
    """The 34 numbers of a sheet."""
    weights = (sheet.weights[chair] + 1 if chair in sheet.weights else 0 for chair in range(1, 33))
    return [*weights, sheet.total, sheet.front]


def played(members: list[tuple[str, int]], journal: Records) -> tuple[list[Sheet], int | None]:
    """The sheets after none of the commands, after the first and so on, and the place of the first that is refused."""
    register = Register({name: Member(votes) for name, votes in members}, 1_000_000)
    sheets = [register.sheet()]
    for place, fields in enumerate(journal, 1):
        try:
            command_of(fields)(register)
        except Refused:
            return sheets, place
        sheets.append(register.sheet())
    return sheets, None


def finding(members: list[tuple[str, int]], journal: Records, cuts: list[int], readings: list[list[list[int]]]) -> str:
    """The first fault of what an audit is given."""
    if len(dict(members)) < len(members):
        return "Err (Start DuplicateMember)"
    sheets, refused = played(members, journal)
    if refused:
        return f"Err (BadJournal {refused})"
    for place, (low, cut) in enumerate(zip([0, *cuts], cuts), 1):
        if not low <= cut <= len(journal):
            return f"Err (BadCuts {place})"
    shown = {front: sheet_words(sheets[front]) for front in [0, *cuts]}
    for reader, words in enumerate(readings, 1):
        for place, (low, sheet) in enumerate(zip([0, *(it[-1] for it in words)], words), 1):
            if sheet[-1] < low or shown.get(sheet[-1]) != sheet:
                return f"Err (Mismatch {reader} {place})"
    return "Ok tt"


def audited(chance: Random) -> Lemma:
    """The finding of an audit of a journal, of cuts and of readings, often with one number changed."""
    codes, chairs = some_codes(chance, chance.randint(1, 3)), chance.sample(range(1, 33), 2)
    members = [(name, chance.randint(0, 9)) for name in codes] + ([(codes[0], 1)] if chance.random() < 0.1 else [])
    journal: Records = []
    for _ in range(chance.randint(0, 6)):
        fields = some_command(chance, codes, chairs, 0)
        if played(members, [*journal, fields])[1] is None or chance.random() < 0.05:
            journal.append(fields)
    sheets, _ = played(members, journal)
    cuts = sorted(chance.choices(range(len(journal) + 1), k=chance.randint(0, 3)))
    seen = [sorted(chance.choices([0, *cuts], k=chance.randint(0, 2))) for _ in range(chance.randint(0, 3))]
    readings = [[sheet_words(sheets[min(front, len(sheets) - 1)]) for front in fronts] for fronts in seen]
    changed = [sheet for sheets_of_one in readings for sheet in sheets_of_one]
    if changed and chance.random() < 0.4:
        sheet = chance.choice(changed)
        sheet[chance.choice([32, 33, chairs[0] - 1])] += chance.choice([1, 1, 2])
    if cuts and chance.random() < 0.2:
        cuts[chance.randrange(len(cuts))] = chance.randint(0, len(journal) + 1)
    asked = [
        listed(f"({code(name)}, {votes})" for name, votes in members),
        listed(command_term(fields) for fields in journal),
        listed(cuts),
        listed(f"({listed(f'({listed(words)})' for words in one)})" for one in readings),
    ]
    return Lemma("audit_of " + " ".join(f"({it})" for it in asked), finding(members, journal, cuts, readings))
