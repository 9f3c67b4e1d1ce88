"""Inputs of `board`, made from a seed: each kind is a function from a source of chance to an input."""
from __future__ import annotations

import re
from collections.abc import Callable
from dataclasses import dataclass
from pathlib import Path
from random import Random
from string import ascii_uppercase

from tests.independent.counts import CLAUSES

EXAMPLES = Path(__file__).resolve().parents[2] / "examples"
MAJORITIES = list(CLAUSES)
MOST_BYTES = 4_194_304
Records = list[list[str]]
# Bytes that no sound input has, or has only in some places.
TOKENS = [
    b'"', b'"', b'""', b'"""', b'"\n"', b'",', b',"', b",", b",,", b"\r", b"\n", b"\r\n", b"\r\r\n", b"\0", b" ", b"\t",
    b";", b"+", b"-", b"0", b"\xef\xbb\xbf", b"\xff\xfe", b"\xc2\xa0", b"\x85", b"\xe2\x80\xa8", b"\x0b", b"\x1a", b"#",
]  # fmt: skip
NUMBERS = 3 * ["0", "33", "0" * 20 + "7", str(2**40 + 1), str(2**64)] + [
    "00", "01", "2", "32", "0032", "1 ", " 1", "+1", "-1", "1.0", "1e3", "0x1", "1_0", "٣", "²", "１",
    "1" * 20, "1" * 21, "0" * 19 + "7", "0" * 20, str(2**40), str(2**64 - 1),
]  # fmt: skip
FIELDS = NUMBERS + [
    "", " ", "aaa", "AA", "AAA", "AAAA", "AÄA", "A A", "None", "NONE", "none", "half", "Half", "070", "70%", "script",
    "publish", "open", "read", "member", "votes", "X" * 9000, 'a"b', "a,b", "a\nb", "a\rb", "fault",
]  # fmt: skip


@dataclass(frozen=True)
class Input:
    """An input: its bytes (None: a folder is opened instead), the words after `board`, and where the output goes: to a
    pipe that is read, to a device that is full, or to a program that has ended."""

    given: bytes | None
    words: tuple[str, ...] = ("replay",)
    output: str = "taken"


def some_votes(chance: Random, scale: int) -> str:
    """Votes of a scale from 0 to 3; small ones and round ones often just meet a quota."""
    huge = chance.choice([2**40, 2**40 - 1, chance.randint(0, 2**40), chance.randint(0, 64) << 34])
    return str([chance.randint(0, 5), chance.randint(0, 20), 10 * chance.randint(0, 100), huge][scale])


def some_codes(chance: Random, many: int) -> list[str]:
    """Codes of members, no two alike."""
    places = chance.sample(range(26**3), many)
    return ["".join(ascii_uppercase[place // 26**i % 26] for i in (2, 1, 0)) for place in places]


def some_read(chance: Random, readers: int = 1) -> list[str]:
    """A reading by one of the readers."""
    return ["read", str(chance.randint(1, readers)), chance.choice(MAJORITIES)]


def some_command(chance: Random, codes: list[str], chairs: list[int], scale: int) -> list[str]:
    """A command on these members and chairs, which may be refused."""
    name = chance.choice("open close move move move votes suspend restore admit withdraw".split())
    code, chair = chance.choice(codes), str(chance.choice(chairs))
    if name in ("open", "close"):
        return [name, chair]
    if name == "move":
        return [name, code, chance.choice([chair, chair, "none"])]
    return [name, code, some_votes(chance, scale)] if name in ("votes", "admit") else [name, code]


def seated(chance: Random, codes: list[str], chairs: list[int]) -> Records:
    """Commands that open the chairs and move most of the members into them, one into each and then the others."""
    places = chairs + chance.choices(chairs, k=max(0, len(codes) - len(chairs)))
    moves = [["move", code, str(place)] for code, place in zip(codes, places) if chance.random() < 0.9]
    return [["open", str(chair)] for chair in chairs] + moves


def with_members(chance: Random, codes: list[str], scale: int, script: Records) -> Records:
    """All records: header, members, mark and script."""
    members = [[code, some_votes(chance, scale)] for code in codes]
    return [["member", "votes"], *members, ["script"], *script]


def some_script(chance: Random, readers: int = 1) -> Records:
    """All records of an input whose commands are legal and illegal."""
    codes = some_codes(chance, chance.randint(1, 9))
    chairs = chance.sample(range(1, 33), chance.randint(1, 8))
    scale, held = chance.randint(0, 3), codes[: chance.randint(0, len(codes))]
    script = seated(chance, held, chairs) if chance.random() < 0.7 else []
    for _ in range(chance.randint(0, 60)):
        kind = chance.random()
        record = ["publish"] if kind < 0.15 else some_read(chance, readers) if kind < 0.3 else None
        script.append(record or some_command(chance, codes, chairs, scale))
    return with_members(chance, held, scale, script)


def styled_field(chance: Random, word: str) -> str:
    """A field, in quotes where it needs them or by chance; a number with zeros before it by chance."""
    if word.isdecimal() and word not in MAJORITIES and chance.random() < 0.1:
        word = word.zfill(chance.randint(1, 20))
    quoted = chance.random() < 0.1 or re.search('[",\r\n]', word)
    return '"' + word.replace('"', '""') + '"' if quoted else word


def styled(chance: Random, records: Records) -> bytes:
    """The records as FORMATS allows them to be written: quotes, line ends, empty lines, zeros, a byte order mark."""
    ends = chance.choice([["\n"], ["\r\n"], ["\r"], ["\n", "\n\n", "\r\n", "\r", "\r\r\n"]])
    lines = [",".join(styled_field(chance, word) for word in fields) + chance.choice(ends) for fields in records]
    text = chance.choice(["", "", "\ufeff", "\ufeff\n", "\n"]) + "".join(lines)
    return (text.rstrip("\r\n") if chance.random() < 0.2 else text).encode()


def oddly_quoted(chance: Random, word: bytes) -> bytes:
    """A word with quotes at places where no program writes them; some of these fields are the word, others aren't."""
    at = chance.randint(0, len(word))
    a, b = word[:at], word[at:]
    odd = [b'"%s"%s' % (a, b), b'""%s%s' % (a, b), b'%s"%s"' % (a, b), b'"%s""%s"' % (a, b), b'"%s%s' % (a, b)]
    return chance.choice([*odd, odd[0], b'"%s"%s"' % (a, b), b'%s%s"' % (a, b), b'"%s%s"""' % (a, b)])


def dirtied(chance: Random, text: bytes, many: int) -> bytes:
    """The text with some bytes put in, taken out or cut off, often where a field begins or ends."""
    for _ in range(many):
        edges = [found.start() for found in re.finditer(rb'[,"\r\n]|\b|$', text)]
        at = chance.choice([chance.choice(edges), chance.choice(edges), chance.randint(0, len(text))])
        kind, rest = chance.randint(0, 9), text[at:]
        if kind < 4:
            rest = chance.choice(TOKENS) + rest
        elif kind < 7:
            rest = re.sub(rb"\w+", lambda word: oddly_quoted(chance, word[0]), rest, count=1)
        elif kind < 9:
            rest = (b"" if kind == 7 else bytes([chance.randrange(256)])) + rest[1:]
        text = text[:at] + (rest if kind < 9 else b"")
    return text


def spoiled(chance: Random, records: Records) -> Records:
    """The records with one of them changed, often one above the script: a field,
    a field more or less, twice, another, or the end."""
    at = chance.randrange(chance.choice([len(records), len(records), records.index(["script"]) + 1]))
    kind, number = chance.randint(0, 9), chance.choice(NUMBERS)
    fields = list(records[at])
    place = chance.randrange(len(fields))
    if kind < 4:
        fields[place : place + (kind > 0)] = [number if fields[place].isdecimal() else chance.choice(FIELDS)]
    elif kind == 4:
        fields = fields[:-1] or [number]
    elif kind == 5:
        return records[:at] + chance.choice([[], records[1:2]])
    read = ["read", number, chance.choice([*MAJORITIES, "50"])]
    others: list[Records] = [[fields, fields], [["script"]], [read], [read], [["open", number]], []]
    return records[:at] + (chance.choice(others) if kind > 5 else [fields]) + records[at + 1 :]


def scripts(chance: Random) -> Input:
    """Sound records, written in any way that is allowed, for one reader or more; the journal of some becomes full."""
    readers, journal = chance.randint(1, 4), chance.choice([1_000_000, chance.randint(1, 40)])
    words = ("replay", "--readers", str(readers), "--journal", str(journal))
    return Input(styled(chance, some_script(chance, readers)), words)


def hostile(chance: Random) -> Input:
    """An input with a changed record, with bytes that no table has, or with both."""
    records, kind = some_script(chance), chance.randint(0, 4)
    text = styled(chance, spoiled(chance, records) if kind < 3 else records)
    text = chance.choice([b""] * 11 + [b"\xef\xbb\xbf"]) + text
    text = dirtied(chance, text, chance.randint(1, 2)) if kind > 1 else text
    return Input(re.sub(rb'(\w+)"?[\r\n]*$', rb'"\1', text) if chance.random() < 0.1 else text)


def some_event(chance: Random, codes: list[str], chairs: list[int], readers: int) -> list[str]:
    """A record of a schedule: often as many steps as a reading or a publication has, or one more or less."""
    steps = str(chance.choice([1, 2, 33, 34, 35, 36, 37, 38, chance.randint(1, 40), chance.randint(0, 1001)]))
    kind = chance.random()
    if kind < 0.25:
        return ["submit", *some_command(chance, codes, chairs, 1)]
    if kind < 0.5:
        return ["publish"]
    return ["writer", steps] if kind < 0.75 else ["reader", str(chance.randint(1, readers)), steps]


def schedules(chance: Random) -> Input:
    """A schedule of the two-copy machine, some with a record that isn't one."""
    codes, chairs = some_codes(chance, chance.randint(1, 4)), chance.sample(range(1, 33), chance.randint(1, 3))
    readers, journal = chance.randint(1, 4), chance.choice([1_000_000, chance.randint(1, 9)])
    events = [some_event(chance, codes, chairs, readers) for _ in range(chance.randint(0, 30))]
    records = with_members(chance, codes, 1, events)
    words = ("trace", "--readers", str(readers), "--journal", str(journal))
    return Input(styled(chance, spoiled(chance, records) if chance.random() < 0.3 else records), words)


def threads(chance: Random) -> Input:
    """An input for the writer's thread and those of two readers, some with a record that isn't one."""
    records = some_script(chance, 2)
    words = ("serve", "--journal", str(chance.choice([1_000_000, chance.randint(1, 40)])))
    return Input(styled(chance, spoiled(chance, records) if chance.random() < 0.3 else records), words)


def boards(chance: Random) -> Input:
    """A board of up to 32 chairs, read at all majorities, changed and read again."""
    many = chance.choice([chance.randint(1, 14), chance.randint(8, 14), chance.randint(15, 32), 32])
    scale = chance.choice([0, 0, 0, 1] if many > 14 else [0, 1, 2, 3])
    chairs, codes = chance.sample(range(1, 33), many), some_codes(chance, many + chance.randint(0, 6))
    script = seated(chance, codes, chairs) + [["publish"]] + [["read", "1", word] for word in MAJORITIES]
    script += [some_command(chance, codes, chairs, scale) for _ in range(5)] + [["publish"], some_read(chance)]
    return Input(styled(chance, with_members(chance, codes, scale, script)))


def many_members(chance: Random) -> Input:
    """About as many members as there may be, some with a code twice, and members that come and go."""
    codes = some_codes(chance, chance.randint(254, 258))
    script = [some_command(chance, codes, [1, 2], 1) for _ in range(30)]
    script += [["admit", code, "7"] for code in some_codes(chance, 4)] + [["publish"], some_read(chance)]
    records = with_members(chance, codes, 1, script)
    if chance.random() < 0.3:
        records[chance.choice([257, chance.randint(1, 256)])] = chance.choice([["script"], records[1], ["AAA", "x"]])
    return Input(styled(chance, records), ("replay", "--journal", chance.choice(["5", "1000000"])))


def limited(chance: Random) -> Input:
    """A journal that may become full, readers that there may not be, limits out of their range, and wrong words."""
    options = [
        ("--readers", str(chance.choice([0, 1, 2, 3, 4, 4, 5, "x", "+2", "03", "++1"]))),
        ("--journal", str(chance.choice([0, *range(1, 30), 999_999, 1_000_000, 1_000_001, "+7", "007"]))),
    ]
    command = chance.choice(["replay", "replay", "trace", "serve"])
    words = [command, *(word for option in chance.sample(options, chance.choice([0, 1, 2, 2])) for word in option)]
    if chance.random() < 0.1:
        twice = [*words, "--journal", "5", "--journal", "5"]
        joined = [command, *("=".join(option) for option in options)]
        words = chance.choice([[], ["play"], [*words, "--reader", "1"], [*words, "--readers"], twice, joined])
    return Input(styled(chance, some_script(chance, chance.randint(1, 5))), tuple(words))


def long(chance: Random) -> Input:
    """An input of about as many bytes as there may be, most of them line ends or one field."""
    text, size = styled(chance, some_script(chance)), MOST_BYTES + chance.choice([-1, 0, 0, 1, 1])
    if chance.random() < 0.3:
        return Input(b"\n" * (size - len(text)) + text)
    return Input((text + b'"' + b"\r\n," * (size // 3))[:size])


def unread(chance: Random) -> Input:
    """An input that can't be read, or an output that can't be written."""
    given = chance.choice([b"", b"member,votes\nscript\n", styled(chance, some_script(chance)), None])
    return Input(given, output=chance.choice(["full", "ended"] + ["taken", "taken"] * (given is None)))


def changed_examples(chance: Random) -> Input:
    """An example of the repository with bytes or lines changed; of 24 chairs, the last digits of the votes stay."""
    text = chance.choice(sorted(EXAMPLES.glob("t*.csv")) * 2 + sorted(EXAMPLES.glob("*.csv"))).read_bytes()
    lines = re.sub(rb"(?m)^(X\w\w),\d+(\d)$", rb"\1,\2", text).splitlines(keepends=True)
    for _ in range(chance.randint(0, 3)):
        lines.insert(chance.randrange(4, len(lines)), lines.pop(chance.randrange(4, len(lines))))
    text = b"".join(lines) + chance.choice([b"", b"publish\nread,1,85\n", *lines])
    readers = str(chance.randint(1, 2))
    return Input(dirtied(chance, text, chance.choice([0, 0, 1, 2])), ("replay", "--readers", readers))


# The kinds, and how many of 100 inputs are of each.
KINDS: dict[str, tuple[Callable[[Random], Input], int]] = {
    "scripts": (scripts, 26),
    "hostile": (hostile, 31),
    "schedules": (schedules, 6),
    "threads": (threads, 4),
    "boards": (boards, 6),
    "members": (many_members, 6),
    "limits": (limited, 7),
    "long": (long, 1),
    "unread": (unread, 2),
    "examples": (changed_examples, 11),
}
