"""What the tools take from the sources: the crates, and their functions with their contracts."""
from __future__ import annotations

import re
from dataclasses import dataclass
from pathlib import Path

TOP = Path(__file__).resolve().parent.parent

HEADER = re.compile(r"^( *)(pub )?(?:pub\(\w+\) )?(?:extern \"C\" )?fn (\w+)", re.MULTILINE)
OWNER = re.compile(r"^impl(?:<[^{]*?>)? (?:(\w+)(?:<.*>)? for )?(\w+)[^{]*\{$|^pub trait (\w+)[^{]*\{$", re.MULTILINE)
CLAUSE = re.compile(r"\b(requires|ensures)(\*?)(?: (\w+))? \{")


@dataclass
class Clause:
    """A clause of a contract: `requires` or `ensures`, its name if it has one, and its text."""

    kind: str
    name: str
    text: str

    def __str__(self) -> str:
        return f"{self.kind} {self.name}: {self.text}" if self.name else f"{self.kind}: {self.text}"


@dataclass
class Function:
    """A function of a crate: the file and the type that have it, its name, its signature and its contract."""

    crate: str
    path: Path
    owner: str
    trait: str
    name: str
    is_public: bool
    signature: str
    clauses: list[Clause]

    @property
    def title(self) -> str:
        return f"{self.owner}::{self.name}" if self.owner else self.name


def crates() -> list[str]:
    """The crates, in the order of crates.txt."""
    lines = (TOP / "crates.txt").read_text().splitlines()
    return [re.split(r"[ :]", line)[0] for line in lines if line and not line.startswith("#")]


def files(crate: str, pattern: str) -> list[Path]:
    """A crate's files of a pattern, without those that are built."""
    folder = TOP / "crates" / crate
    return [path for path in sorted(folder.glob(pattern)) if path.relative_to(folder).parts[0] != "out"]


def closing(text: str, start: int) -> int:
    """Where the brace closes that opens just before `start`."""
    depth = 1
    for at in range(start, len(text)):
        depth += {"{": 1, "}": -1}.get(text[at], 0)
        if depth == 0:
            return at
    raise ValueError(f"a brace that never closes: {text[start:start + 80]}")


def on_one_line(text: str) -> str:
    """A text without its comments, on one line."""
    words = re.sub(r"//.*", "", text).split()
    return re.sub(r"([(\[]) | ([)\]])|,( [)>])", lambda it: it[1] or it[2] or it[3].strip(), " ".join(words))


def contract_of(text: str, start: int) -> tuple[str, list[Clause]]:
    """The signature and the clauses of the function that begins at `start`."""
    clauses, at = [], start
    body = re.compile(r"\{\}?$|;$", re.MULTILINE)
    opened = CLAUSE.search(text, start)
    end = body.search(text, start)
    signature_end = min(it.start() for it in (opened, end) if it)
    while opened and end and opened.start() < end.start() + 1:
        at = closing(text, opened.end())
        clauses.append(Clause(opened[1] + opened[2], opened[3] or "", on_one_line(text[opened.end() : at])))
        opened, end = CLAUSE.search(text, at), body.search(text, at + 1)
    return on_one_line(text[start:signature_end]), clauses


def functions_of(crate: str, path: Path) -> list[Function]:
    """The functions of a file, with the type or the trait whose block they are in."""
    text, found = path.read_text(), []
    owners = [(it.start(), it[1] or "", it[2] or it[3]) for it in OWNER.finditer(text)]
    for header in HEADER.finditer(text):
        trait, owner = "", ""
        if header[1]:
            before = [it for it in owners if it[0] < header.start()]
            if not before:
                continue
            _, trait, owner = before[-1]
        start = text.index("fn ", header.start())
        signature, clauses = contract_of(text, start)
        found.append(Function(crate, path, owner, trait, header[3], bool(header[2]), signature, clauses))
    return found


def functions(crate: str) -> list[Function]:
    """All functions of a crate."""
    return [it for path in files(crate, "src/**/*.rt") for it in functions_of(crate, path)]


def exported(crate: str) -> set[str]:
    """The names that a crate's root exports of its own modules, and those that it declares itself."""
    root = TOP / "crates" / crate / "src" / "lib.rt"
    if not root.exists():
        return set()
    text = root.read_text()
    own = set(re.findall(r"^mod (\w+);", text, re.MULTILINE))
    names = set(re.findall(r"^pub (?:extern \"C\" )?(?:fn|struct|enum|const) (\w+)", text, re.MULTILINE))
    for module, many, one in re.findall(r"^pub use (\w+)::(?:\{([^}]*)\}|(\w+));", text, re.MULTILINE):
        if module in own:
            names |= set(re.findall(r"\w+", many or one))
    return names


def public_functions(crate: str) -> list[Function]:
    """The functions that a caller of the crate can name and that have a contract, those of a type together."""
    names = exported(crate)
    public = [
        it
        for it in functions(crate)
        if it.clauses and (it.owner or it.name) in names and (it.is_public or it.trait not in ("", "Model"))
    ]
    return sorted(public, key=lambda it: it.owner)
