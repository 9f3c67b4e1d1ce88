"""The public surface of the library for C and of each package: the names that their sources declare, and a table with a
row for each thing and every name of each language: python3 tools/surface.py prints it."""
from __future__ import annotations

import ast
import re
from collections.abc import Callable, Iterator
from dataclasses import dataclass, field

from sources import TOP

BINDINGS = TOP / "bindings"
# The classes whose methods have rows. Others are values, whose fields the README of a package names.
OWNERS = ("Register", "Replay")
#: Types of a language itself that the table names.
STANDARD = {"ValueError", "Error", "TypeError"}


@dataclass(frozen=True)
class Names:
    """The names of a language: those that a row must have, and types, which it may have."""

    calls: set[str]
    types: set[str] = field(default_factory=set)


def matches(pattern: str, text: str) -> set[str]:
    return set(re.findall(pattern, text, re.MULTILINE))


def python() -> Names:
    """What `__all__` has, and the methods of the owners."""
    package = BINDINGS / "python/src/voting_board"
    listed = matches(r'^    "(\w+)",$', (package / "__init__.py").read_text())
    calls = {it for it in listed if not it[0].isupper() or it.isupper() or it in OWNERS}
    for path in package.glob("*.py"):
        for it in ast.parse(path.read_text()).body:
            if isinstance(it, ast.ClassDef) and it.name in OWNERS:
                calls |= {name for part in it.body for name in declared(part) if not name.startswith("_")}
    return Names(calls, listed - calls)


def declared(part: ast.stmt) -> list[str]:
    """The names of a method, or of a second name for one."""
    if isinstance(part, ast.FunctionDef):
        return [part.name]
    return [it.id for it in part.targets if isinstance(it, ast.Name)] if isinstance(part, ast.Assign) else []


def javascript() -> Names:
    """What the index exports, and the methods of the owners."""
    source = BINDINGS / "javascript/src"
    exported = " ".join(re.findall(r"^export (?:type )?\{[^}]*\}", (source / "index.ts").read_text(), re.MULTILINE))
    types = matches(r"\btype (\w+)", exported) | matches(r"\b([A-Z]\w*[a-z]\w*)\b", exported)
    calls = matches(r"\b(?!export\b|type\b)(\w+)", exported) - types | set(OWNERS)
    for path in source.glob("*.ts"):
        for body in re.findall(
            rf"^export class (?:{'|'.join(OWNERS)})\b.*?\{{\n(.*?)^}}", path.read_text(), re.M | re.S
        ):
            calls |= matches(r"^  (?:static |async |get )*(?!constructor)([a-z]\w+)(?:<[^>]*>)?\(", body) - {"toString"}
    return Names(calls, types)


def rust() -> Names:
    """What the crate's module exports, and the public methods of the owners."""
    source = BINDINGS / "rust/voting-board/src"
    exported = matches(r"\w+", " ".join(re.findall(r"^pub use [^;]*;", (source / "lib.rs").read_text(), re.M)))
    calls = {it for path in source.glob("*.rs") for it in matches(r"^pub fn (\w+)", path.read_text())} | {"VERSION"}
    for path in source.glob("*.rs"):
        for body in re.findall(rf"^impl (?:{'|'.join(OWNERS)}) \{{\n(.*?)^}}", path.read_text(), re.M | re.S):
            calls |= matches(r"^    pub fn (\w+)", body) - {"new"}
    return Names(calls | set(OWNERS), {it for it in exported if it[0].isupper()} - {"VERSION"})


def r() -> Names:
    exported = re.findall(r"^export\(([^)]*)\)", (BINDINGS / "r/NAMESPACE").read_text(), re.MULTILINE)
    return Names(matches(r"\w+", " ".join(exported)), {"board_refused", "board_type_error"})


def c() -> Names:
    header = (TOP / "crates/board_c/board.h").read_text()
    return Names(matches(r"\b(board_\w+)\(", header), matches(r"^struct (board_\w+)", header))


LANGUAGES: dict[str, Callable[[], Names]] = {"Python": python, "JavaScript": javascript, "Rust": rust, "R": r, "C": c}
# How a name of all packages is spelled in each.
SPELLED: dict[str, Callable[[str], str]] = {
    "Python": lambda name: name,
    "JavaScript": lambda name: re.sub(r"_(\w)", lambda it: it[1].upper(), name),
    "Rust": lambda name: name,
    "R": lambda name: f"board_{name.lower()}",
}


@dataclass(frozen=True)
class Row:
    """A thing, its names in all packages, and what stands in place of them in some languages."""

    thing: str
    names: str
    c: str
    others: dict[str, str] = field(default_factory=dict)

    def cell(self, language: str) -> str:
        if language == "C":
            return self.c
        spelled = ", ".join(f"`{SPELLED[language](name)}`" for name in self.names.split())
        return self.others.get(language, spelled)


ROWS = [
    Row("one board, one majority", "indices", "`board_counts_of_weights`"),
    Row("one board, all majorities", "indices_of_all", "`board_all_counts_of_sheet`"),
    Row("many boards", "indices_of_many", "a loop", {"JavaScript": "`indicesOfMany`, `indicesOfManyInWorkers`"}),
    Row(
        "a board by its members",
        "indices_of_members",
        "`board_counts_of_members`",
        {"R": "`board_indices` of a data frame"},
    ),
    Row(
        "the majorities",
        "MAJORITIES MEANINGS",
        "`board_majority_name`, `board_majority_number`",
        {"Rust": "`Majority`", "R": ""},
    ),
    Row("the refusals", "", "`board_refusal_name`", {"JavaScript": "`REFUSALS`", "Rust": "`Refusal`"}),
    Row(
        "a register", "Register", "`board_register_start`, `board_register_free`", {"JavaScript": "`Register`, `free`"}
    ),
    Row(
        "its journal's limit",
        "",
        "a parameter",
        {"Python": "`journal=`", "JavaScript": "`{ journal }`", "Rust": "`with_limits`", "R": "`journal =`"},
    ),
    Row("a chair, with a name or none", "open", "`board_register_apply`", {"Rust": "`open`, `open_named`"}),
    Row("another name of a chair", "rename", ""),
    Row("another chair for a member", "move", "`board_register_apply`", {"Rust": "`move_to`"}),
    Row("other commands", "close set_votes suspend restore admit withdraw", "`board_register_apply`"),
    Row("commands as text or data", "submit", "`board_register_apply`", {"Rust": "`submit`, `apply`, `apply_all`"}),
    Row("what would refuse a command", "check", "`board_register_check`"),
    Row("a refusal as a value", "attempt", "each call's result", {"Rust": "each call's result"}),
    Row("publish, and what readers see", "publish read", "`board_register_publish`, `board_register_read`"),
    Row(
        "the counts of now",
        "indices indices_of_all",
        "`board_register_counts`, `board_register_all_counts`, `board_register_sheet`, `board_counts_of_sheet`",
    ),
    Row("how many commands", "accepted published", "`board_register_accepted`, `board_register_published`"),
    Row(
        "members, and those at first",
        "members opening",
        "`board_register_members`, `board_register_member_at`, `board_register_entries`, `board_register_entry_at`",
        {"Rust": "`members`, `member`, `opening`"},
    ),
    Row("chairs with their members", "chairs", ""),
    Row("names of chairs", "chair_names", "", {"Rust": "`chair_names`, `chair_name`"}),
    Row("accepted commands", "journal", "`board_register_command_at`, `board_command_text`"),
    Row("a copy", "copy", "`board_register_copy`", {"JavaScript": "`copy`, `whatIf`", "Rust": "`try_clone`"}),
    Row("back to a number of commands", "undo", "`board_register_undo`", {"Rust": "`undo`, `undo_to`"}),
    Row(
        "a script saved, and read",
        "script from_script",
        "`board_register_text`, `board_script`",
        {"Rust": "`script`, `from_script`, `from_script_with_limits`, `with_names`"},
    ),
    Row(
        "a replay as data",
        "replay",
        "`board_script`, a loop",
        {
            "Python": "`replay`, `Replay`",
            "JavaScript": "`replay`, `replayFile`, `Replay`",
            "Rust": "`replay`, `replay_file`, `Replay`",
        },
    ),
    Row(
        "its parts",
        "readings refused register",
        "",
        {"Rust": "`readings`, `refused`, `register`, `fault`", "R": "`board_reading`, and `$refused`, `$register`"},
    ),
    Row(
        "the text of a replay",
        "replay_text",
        "`board_replay`, `board_replay_length`",
        {"JavaScript": "`replayText`, `replayBytes`"},
    ),
    Row("the text of a trace", "", "`board_trace`, `board_trace_length`"),
    Row(
        "a call that is refused",
        "Refused",
        "a number",
        {
            "Python": "`Refused`, a `ValueError`: `number`, `name`",
            "JavaScript": "`Refused`, an `Error`: `number`, `code`",
            "Rust": "`Refused`, an `Error`: `number`, `name`",
            "R": "a condition `board_refused`: `number`, `name`",
        },
    ),
    Row(
        "a value of another type",
        "",
        "",
        {
            "Python": "`TypeError`",
            "JavaScript": "`TypeError`",
            "Rust": "doesn't compile",
            "R": "a condition `board_type_error`",
        },
    ),
    Row(
        "the version",
        "version",
        "`board_version`",
        {"Python": "`__version__`", "JavaScript": "`VERSION`", "Rust": "`VERSION`"},
    ),
    Row("a command as data", "Command", "`struct board_command`", {"R": "text"}),
    Row("what a count returns", "Indices", "`struct board_counts`", {"R": "an object `board_indices`"}),
    Row(
        "one of its chairs",
        "Chair",
        "`struct board_chair`",
        {"R": "a row of `$chairs`"},
    ),
    Row(
        "what a replay yields",
        "Accepted Published Refusal Reading",
        "`struct board_item`, and the calls' results",
        {"Rust": "`Outcome`, `Reading`", "R": "`$outcomes`, `$readings`"},
    ),
    Row("the module, loaded", "", "", {"JavaScript": "`load`, `loadSync`"}),
]
# Fields of a refusal, and parameters, which the table names.
FIELDS = {"number", "name", "code"}


def table() -> str:
    """The table, in which every language has a column."""
    rows = [f"| {row.thing} | {' | '.join(row.cell(it) or '-' for it in LANGUAGES)} |" for row in ROWS]
    head = [f"| | {' | '.join(LANGUAGES)} |", f"|{'---|' * (1 + len(LANGUAGES))}"]
    return "".join(f"{line}\n" for line in [*head, *rows])


def faults() -> Iterator[str]:
    """The names in the table that a language doesn't have, and the calls that the table hasn't."""
    for language, names in LANGUAGES.items():
        public = names()
        shown = {name for row in ROWS for name in re.findall(r"`(\w+)`", row.cell(language))}
        for name in sorted(shown - public.calls - public.types - STANDARD - FIELDS):
            yield f"the library for {language} has no `{name}`"
        for name in sorted(public.calls - shown):
            yield f"the table has no `{name}` of the library for {language}"


if __name__ == "__main__":
    print(table(), end="")
