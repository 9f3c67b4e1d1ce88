"""The files of a study: its table, the page board.html with the study in it, and where the numbers come from."""
from __future__ import annotations

import json
import pkgutil
import re
from collections.abc import Iterable, Iterator, Mapping, Sequence
from hashlib import sha256
from math import gcd
from pathlib import Path
from typing import Optional

from .amounts import percent_of
from .answers import decimal
from .files import csv_text
from .library import path_of
from .names import KINDS, VERSION, Majority
from .results import INDEX_NAMES, Command, IndexName, Indices
from .scenarios import BASE, Sweep, plain
from .studies import Base, Result, Study

PLACES = 10
FRACTIONS = ("vote_share", "banzhaf", "power_share", "prevent", "initiate")
BOARD = ("open_chairs", "quota", "cast", "total", "winning", "coalitions")
COLUMNS = ("scenario", "sweep", "sweep_percent", "majority", *BOARD, "chair", "name", "votes", "swings")
#: The columns of OUT.csv. board.html exports the same ones.
ENDS = ("_numerator", "_denominator", "", "_difference")
STUDY_COLUMNS = (*COLUMNS, *(f"{it}{end}" for it in FRACTIONS for end in ENDS))
FORMAT, START = "board study 2", '<script type="application/json" id="study-data">'
TO_CHECK = "to check: board replay < SCRIPT.csv | sha256sum prints the hash of the lines"


def one_line(text: str) -> str:
    """A text on one line."""
    return re.sub(r"\s+", " ", text).strip()


def file_line(what: str, name: str, data: bytes) -> str:
    """A file that was read, by its name and its hash."""
    return f"{what} {'standard input' if name == '-' else Path(name).name} sha256 {sha256(data).hexdigest()}"


def provenance(study: Study, files: Iterable[str], more: Iterable[str]) -> list[str]:
    """Where the numbers of a study come from: the library, the files, the script and its lines, and more."""
    library = Path(path_of())
    counted = [f"counted by board {VERSION}", file_line("library", library.name, library.read_bytes())]
    hashes = [f"{what} sha256 {found}" for what, found in study.hashes().items()]
    return [*map(one_line, [*counted, *files, *hashes, TO_CHECK, *more])]


#: A fraction as two whole numbers, not in lowest terms; None where its denominator would be 0.
Pair = Optional[tuple[int, int]]


def pairs_of(found: Indices) -> dict[int, list[Pair]]:
    """The fractions of each chair, by number."""
    under = [found.divisor(it) for it in INDEX_NAMES]
    rows = zip(found.numbers, found.weights, found.swings)
    return {
        chair: [(weight, found.cast) if found.cast else None, *((swings, it) if it else None for it in under)]
        for chair, weight, swings in rows
    }


def cells_of(now: Pair, before: Pair) -> tuple[str, str, str, str]:
    """The cells of a fraction: numerator and denominator in lowest terms, decimal, and difference from the base."""
    if now is None:
        return "", "", "", ""
    over, under = now
    common = gcd(over, under)
    added = decimal(over * before[1] - before[0] * under, under * before[1], PLACES) if before else ""
    return str(over // common), str(under // common), decimal(over, under, PLACES), added


def rows_of(result: Result, bases: Mapping[Majority, dict[int, list[Pair]]]) -> Iterator[list[str]]:
    """The rows of a result. `bases` has the fractions of the base by majority."""
    nothing: list[Pair] = [None] * len(FRACTIONS)
    shares: dict[int, tuple[str, str, str, str]] = {}
    for majority, found in result.indices.items():
        board = (len(found.numbers), found.quota, found.cast, found.total, found.omega, found.coalitions)
        head = [result.label, result.sweep, result.percent, majority, *map(str, board)]
        for (chair, (share, *pairs)), weight, swings in zip(pairs_of(found).items(), found.weights, found.swings):
            old = nothing if chair in result.opened else bases[majority].get(chair, nothing)
            if chair not in shares:
                # The share of the votes is the same at each majority.
                shares[chair] = cells_of(share, old[0])
            cells = [cell for pair in map(cells_of, pairs, old[1:]) for cell in pair]
            yield [*head, str(chair), result.names[chair], str(weight), str(swings), *shares[chair], *cells]


def study_table(study: Study, lines: Sequence[str]) -> str:
    """The table of a study as CSV, behind lines of provenance."""
    bases = {majority: pairs_of(found) for majority, found in study.results[BASE].indices.items()}
    return csv_text(lines, STUDY_COLUMNS, (row for it in study.results.values() for row in rows_of(it, bases)))


def command_data(done: Command) -> dict[str, object]:
    """A command of the register in the page's format."""
    return {"kind": done.kind, **{part: getattr(done, part) for part in KINDS[done.kind]}}


def changes_of(result: Result, first: int) -> list[dict[str, object]]:
    """The changes of a scenario in the page's format: per cent stay per cent, and operations are operations."""
    found = list[dict[str, object]]()
    for taken in result.taken:
        kind, who, amount = [*taken.command.split(","), "", ""][:3]
        percent = percent_of(amount) if kind == "votes" else None
        named = {"chairName" if kind in ("open", "split") else "name": taken.name} if taken.name else {}
        if taken.operation:
            found.append({"what": taken.operation, **named})
        elif percent:
            of = "own" if percent.sign else "total"
            found.append({"what": {"kind": "percent", "of": of, "code": who, "percent": str(percent)}})
        else:
            found += ({"what": command_data(it), **named} for it in taken.done)
    return [{"id": first + at, "on": True, **change} for at, change in enumerate(found)]


def sweep_in_page(study: Study) -> Optional[Sweep]:
    """The sweep that the page holds: the first one of a member or a chair on the base."""
    sweeps = (it.sweep for it in study.sweeps)
    return next((it for it in sweeps if it.start == BASE and "+" not in it.who), None)


def sweep_data(sweep: Optional[Sweep]) -> Optional[dict[str, object]]:
    """A sweep in the page's format."""
    if sweep is None:
        return None
    chair = sweep.who.removeprefix("chair ")
    who: dict[str, object] = {"kind": "member", "code": chair}
    if chair != sweep.who:
        who = {"kind": "chair", "chair": int(chair)}
    numbers = {"from": plain(sweep.first), "to": plain(sweep.last), "by": plain(sweep.step)}
    return {"who": who, "on": "base", "unit": "percent", **numbers}


def base_data(base: Base) -> dict[str, object]:
    """The base in the page's format."""
    given = {str(chair): name for chair, name in base.register.chair_names.items()}
    columns = {it: it for it in base.columns}
    return {
        "script": base.register.script(),
        "names": base.members,
        "chairNames": given,
        "rows": base.rows,
        "choices": list(base.notices),
        "hash": base.hash,
        "columns": columns,
    }


def page_data(
    study: Study, name: str, lines: Sequence[str], index: IndexName = "share", published: Optional[int] = None
) -> str:
    """The study as board.html keeps it, as JSON that is safe in a page."""
    scenarios, first = list[dict[str, object]](), 1
    for it in study.scenarios:
        changes = changes_of(study.results[it.label], first)
        scenarios.append({"name": it.label, "changes": changes})
        first += len(changes)
    kept: dict[str, object] = {"name": name, "base": base_data(study.base), "changes": [], "scenarios": scenarios}
    kept.update({"published": published, "sweep": sweep_data(sweep_in_page(study))})
    order_at = "85" if "85" in study.majorities else study.majorities[0]
    tab, columns = ("change", "scenarios") if scenarios else ("power", "changed")
    view = {
        "majorities": study.majorities,
        "measure": index,
        "order": "number",
        "orderAt": order_at,
        "digits": 3,
        "fractions": False,
        "tab": tab,
        "columns": columns,
        "against": "base",
        "curveChair": None,
        "curveVotes": False,
    }
    data = {"format": FORMAT, "provenance": lines, "study": kept, "view": view}
    return json.dumps(data, ensure_ascii=False).replace("<", "\\u003c")


def empty_page() -> str:
    """board.html: the one of the package, or in a clone the one at its top."""
    try:
        found = pkgutil.get_data(__package__, "board.html")
    except FileNotFoundError:
        found = (Path(__file__).resolve().parents[4] / "board.html").read_bytes()
    assert found
    return found.decode()


def page_with(data: str, page: Optional[str] = None) -> str:
    """The page with data in it."""
    text = empty_page() if page is None else page
    start = text.index(START) + len(START)
    return text[:start] + data + text[text.index("</script>", start) :]
