"""The files of the packages and the page that say in their languages what the sources say."""
from __future__ import annotations

import json
import re
from collections.abc import Iterable, Mapping
from string import Template

from facts import COLUMNS, FINDINGS, MEASURES, NO_PROPORTIONS, OPERATIONS, TRAPPED, Facts, Majority, Refusal

MADE = "Made by tools/made from the sources: do not edit."
TRAPPED_NUMBER = 255
quoted = json.dumps


def filled(template: str, it: Facts, **parts: str | Iterable[str]) -> str:
    """A template with its parts: a text, or lines."""
    known: dict[str, str | Iterable[str]] = {
        "made": MADE,
        "version": quoted(it.version),
        "words": listed(one.word for one in it.majorities),
        "columns": listed(COLUMNS),
        "trapped": quoted(TRAPPED),
        "trapped_number": str(TRAPPED_NUMBER),
    }
    texts = {key: part if isinstance(part, str) else "\n".join(part) for key, part in {**known, **parts}.items()}
    return Template(template).substitute(texts)


def listed(words: Iterable[str], between: str = ", ") -> str:
    """Words in quotes, in a line."""
    return between.join(map(quoted, words))


def rows(pattern: str, found: Mapping[str, str]) -> list[str]:
    """A line for each key with its text."""
    return [pattern.format(key=key, text=quoted(text)) for key, text in found.items()]


def commands(it: Facts) -> dict[str, list[str]]:
    """The parts of each kind of command."""
    return {kind.word: kind.parts for kind in it.kinds if kind.parts is not None}


def others(it: Facts) -> dict[str, int]:
    """The numbers of the kinds of records that are no commands."""
    return {kind.word.upper(): number for number, kind in enumerate(it.kinds) if kind.parts is None}


def constant(name: str) -> str:
    """The name of a constant: BAD_CHAIR for BadChair."""
    return re.sub(r"(?<=[a-z])(?=[A-Z])", "_", name).upper()


def numbers(it: Facts) -> dict[str, int]:
    """The number of each refusal, by its constant."""
    return {constant(why.name): why.number for why in it.refusals}


PYTHON = '''"""The names, limits and sentences of the library. $made"""

from typing import Literal

VERSION = $version
$limits

Majority = Literal[$words]

#: The majorities in the order of the library's numbers, from 0.
MAJORITIES: tuple[Majority, ...] = ($words)

#: What wins by each majority.
MEANINGS: dict[Majority, str] = {
$meanings
}

#: How a sentence on each majority begins.
BEGINNINGS: dict[Majority, str] = {
$beginnings
}

Kind = Literal[
$kinds
]

#: The parts of each kind of command, in the order of the library's numbers, from 0.
KINDS: dict[Kind, tuple[str, ...]] = {
$parts
}
$others

#: The name and the reason of each refusal and each fault by its number.
REFUSALS: dict[int, tuple[str, str]] = {
$refusals
}
$numbers
TRAPPED = $trapped_number
IMPOSSIBLE = $trapped

#: The columns of a table of members.
COLUMNS = ($columns)

#: What is allowed for a value.
ALLOWED: dict[str, str] = {
$allowed
}

#: How the measures are named in a sentence.
MEASURES: dict[str, str] = {
$measures
}

#: The sentences on who has most and who gains most.
FINDINGS: dict[str, str] = {
$findings
}

#: The operations of scenarios: what each field is, in the order of the text.
OPERATIONS: dict[str, dict[str, str]] = {
$operations
}
NO_PROPORTIONS = $no_proportions
'''


def python(it: Facts) -> str:
    """The module of the package for Python."""
    kinds = commands(it)
    return filled(
        PYTHON,
        it,
        limits=(f"{name.upper()} = {value:_}" for name, value in it.limits.items()),
        meanings=rows('    "{key}": {text},', {one.word: one.meaning for one in it.majorities}),
        beginnings=rows('    "{key}": {text},', {one.word: one.begins for one in it.majorities}),
        kinds=(f"    {quoted(word)}," for word in kinds),
        parts=(f"    {quoted(word)}: ({listed(parts)}{',' * (len(parts) == 1)})," for word, parts in kinds.items()),
        others=(f"{name} = {number}" for name, number in others(it).items()),
        refusals=(f"    {why.number}: ({quoted(why.name)}, {quoted(why.reason)})," for why in it.refusals),
        numbers=(f"{name} = {number}" for name, number in numbers(it).items()),
        allowed=rows('    "{key}": {text},', it.said("None", "True", "False")),
        measures=rows('    "{key}": {text},', MEASURES),
        findings=rows('    "{key}": {text},', FINDINGS),
        operations=(f"    {quoted(kind)}: {json.dumps(fields)}," for kind, fields in OPERATIONS.items()),
        no_proportions=quoted(NO_PROPORTIONS),
    )


JAVASCRIPT = """/** The names, limits and sentences of the library. $made */

/** The version of the package and of its module. */
export const VERSION = $version;
$limits

/** Which coalitions win. */
export type Majority = $majority;

/** The majorities in the order of the library's numbers, from 0. */
export const MAJORITIES: readonly Majority[] = Object.freeze([$words] as const);

/** What wins by each majority. */
export const MEANINGS: Readonly<Record<Majority, string>> = Object.freeze({
$meanings
});

/** What a command does. */
export type Kind = $kinds;
/** A part of a command. */
export type Part = "chair" | "code" | "votes";

/** The parts of each kind of command, in the order of the library's numbers, from 0. */
export const KINDS: Readonly<Record<Kind, readonly Part[]>> = Object.freeze({
$parts
});
$others

/** The name and the reason of each refusal and each fault by its number. Number 0 has none. */
export const REFUSALS: readonly (readonly [name: string, reason: string])[] = Object.freeze([
  ["", ""],
$refusals
] as const);
$numbers

/** The columns of a table of members. */
export const COLUMNS: readonly string[] = [$columns];

/** What is allowed for a value. */
export const ALLOWED = Object.freeze({
$allowed
});
"""


def javascript(it: Facts) -> str:
    """The module of the package for JavaScript."""
    return filled(
        JAVASCRIPT,
        it,
        limits=(f"export const {name.upper()} = {value:_};" for name, value in it.limits.items()),
        majority=listed((one.word for one in it.majorities), " | "),
        meanings=rows("  {key}: {text},", {key_of(one): one.meaning for one in it.majorities}),
        kinds=listed(commands(it), " | "),
        parts=(f"  {word}: [{listed(parts)}]," for word, parts in commands(it).items()),
        others=(f"export const {name} = {number};" for name, number in others(it).items()),
        refusals=(f"  [{quoted(why.name)}, {quoted(why.reason)}]," for why in it.refusals),
        numbers=(f"export const {name} = {number};" for name, number in numbers(it).items()),
        allowed=rows("  {key}: {text},", it.said("null", "true", "false")),
    )


def key_of(majority: Majority) -> str:
    """A majority's word as the key of an object."""
    return majority.word if majority.word.isalpha() else quoted(majority.word)


PAGE = """/** The words and Articles of the majorities, and the sources, of docs/DEFINITIONS.md. $made */
import type { Majority } from "../../bindings/javascript/src/names";

interface MajorityWords {
  /** How a sentence begins. */
  readonly at: string;
  readonly label: string;
  readonly rule: string;
  readonly article: string;
  readonly about: string;
}

export const MAJORITY: Readonly<Record<Majority, MajorityWords>> = {
$majorities
};

export const SOURCES: readonly string[] = [
$sources
];

/** How the measures are named in a sentence. */
export const MEASURE_NAMES = {
$measures
} as const;

/** The sentences on who has most and who gains most; what they speak of stands in braces. */
export const FINDINGS = {
$findings
} as const;

/** The operations of scenarios: what each field is, in the order of board-study's text. */
export const OPERATIONS = {
$operations
} as const;
export const NO_PROPORTIONS = $no_proportions;
"""


def page(it: Facts) -> str:
    """The module of the page."""
    return filled(
        PAGE,
        it,
        majorities=map(page_majority, it.majorities),
        sources=(f"  {json.dumps(source, ensure_ascii=False)}," for source in it.bibliography),
        measures=rows("  {key}: {text},", MEASURES),
        findings=rows("  {key}: {text},", FINDINGS),
        operations=(f"  {kind}: {bare(fields)}," for kind, fields in OPERATIONS.items()),
        no_proportions=quoted(NO_PROPORTIONS),
    )


def bare(fields: dict[str, str]) -> str:
    """An object of JavaScript, with names that need no quotes."""
    return f"{{ {', '.join(f'{key}: {quoted(it)}' for key, it in fields.items())} }}"


def page_majority(one: Majority) -> str:
    """The words of a majority."""
    words = {"at": one.begins, "label": one.name, "rule": one.meaning, "article": one.article, "about": one.about}
    return "\n".join([f"  {key_of(one)}: {{", *rows("    {key}: {text},", words), "  },"])


R = """# The names, limits and sentences of the library. $made

VERSION <- $version
$limits

# What wins by each majority, in the order of the library's numbers, from 0.
MAJORITIES <- c(
$majorities
)

# The parts of each kind of command, in the order of the library's numbers, from 0.
KINDS <- list(
$kinds
)

# The columns of a table of members.
COLUMNS <- c($columns)

# The reason of each refusal and each fault, by its name; their numbers count from 1.
REFUSALS <- c(
$refusals
)
TRAPPED <- ${trapped_number}L
IMPOSSIBLE <- $trapped

# What is allowed for a value.
ALLOWED <- c(
$allowed
)
"""


def r(it: Facts) -> str:
    """The file of the package for R."""
    return filled(
        R,
        it,
        limits=(f"{name.upper()} <- {value}" for name, value in it.limits.items()),
        majorities=",\n".join(rows("  `{key}` = {text}", {one.word: one.meaning for one in it.majorities})),
        kinds=",\n".join(f"  {word} = c({listed(parts)})" for word, parts in commands(it).items()),
        refusals=",\n".join(rows("  {key} = {text}", {why.name: why.reason for why in it.refusals})),
        allowed=",\n".join(rows("  {key} = {text}", it.said("NA", "TRUE", "FALSE"))),
    )


RUST_LIMITS = {
    "chairs": ("usize", "The most chairs of a board."),
    "members": ("usize", "The most members of a register at any moment."),
    "commands": ("u32", "The most commands of a journal."),
    "readers": ("u32", "The most readers of a replay."),
    "input_bytes": ("usize", "The most bytes of an input."),
    "member_votes": ("u64", "The most votes of a member."),
    "total_votes": ("u64", "The most votes of a board together."),
}
RUST = """//! The names, limits and sentences of the library. $made

/// The version of the library.
pub const VERSION: &str = $version;
$limits

/// The word of each majority and what wins, in the order of the library's numbers, from 0.
pub(crate) const MAJORITIES: [(&str, &str); $count_majorities] = [
$majorities
];

/// The word of each kind of command, in the order of the library's numbers, from 0.
pub(crate) const KINDS: [&str; $count_kinds] = [$kinds];

/// What refuses a value, a command or an input: the numbers, names and reasons of docs/FORMATS.md.
#[derive(Clone, Copy, Debug, PartialEq, Eq, PartialOrd, Ord, Hash)]
#[cfg_attr(feature = "serde", derive(serde::Serialize, serde::Deserialize))]
#[non_exhaustive]
#[repr(u8)]
pub enum Refusal {
$variants
}

/// Each refusal with its name and its reason, by number.
pub(crate) const REFUSALS: [(Refusal, &str, &str); $count_refusals] = [
$refusals
];

/// What is allowed for a value.
#[allow(dead_code)]
pub(crate) mod allowed {
$allowed
}
"""


def rust(it: Facts) -> str:
    """The module of the crate for Rust."""
    refusals = [*it.refusals, Refusal(TRAPPED_NUMBER, "Trapped", TRAPPED, False)]
    limits = [(name.upper(), value, *RUST_LIMITS[name]) for name, value in it.limits.items()]
    said = {key.upper(): text for key, text in it.said("None", "true", "false").items()}
    variant = "    /// {}{}.\n    {} = {},"
    return filled(
        RUST,
        it,
        limits=(f"/// {about}\npub const {name}: {kind} = {value:_};" for name, value, kind, about in limits),
        count_majorities=str(len(it.majorities)),
        majorities=(f"    ({quoted(one.word)}, {quoted(one.meaning)})," for one in it.majorities),
        count_kinds=str(len(commands(it))),
        kinds=listed(commands(it)),
        variants=(variant.format(why.reason[0].upper(), why.reason[1:], why.name, why.number) for why in refusals),
        count_refusals=str(len(refusals)),
        refusals=(rust_row(f"Refusal::{why.name}", quoted(why.name), quoted(why.reason)) for why in refusals),
        allowed=rows("    pub(crate) const {key}: &str = {text};", said),
    )


def rust_row(*parts: str) -> str:
    """A row of an array, as rustfmt breaks it."""
    row = f"    ({', '.join(parts)}),"
    return row if len(row) <= 120 else "\n".join(["    (", *(f"        {part}," for part in parts), "    ),"])


def rust_constants(it: Facts) -> str:
    """The constants of board.h for Rust."""
    lines = [f"//! The constants of board.h. {MADE}", ""]
    for block in re.findall(r"enum \{(.*?)\};", it.header, re.DOTALL):
        kind = "u8" if "BOARD_DONE" in block else "u32" if re.search("BOARD_(HALF|OPEN) ", block) else "usize"
        for name, value, about in re.findall(r"(BOARD_\w+) = (\d+),?(?: +/\* (.*?) \*/)?", block):
            own = "u32" if name in ("BOARD_COMMANDS", "BOARD_READERS") else kind
            about = about or f"`{name}` of board.h"
            lines += [f"/// {about[0].upper()}{about[1:]}.", f"pub const {name}: {own} = {int(value):_};"]
    return "\n".join([*lines, ""])
