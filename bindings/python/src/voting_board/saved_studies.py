"""Studies that board.html saved, alone or in a page: their base, scenarios and sweep, as board-study takes them."""
from __future__ import annotations

import json
from collections.abc import Iterable, Mapping
from dataclasses import dataclass, replace
from pathlib import Path
from typing import Any, Optional, Union

from .amounts import BadStudy
from .names import KINDS, OPERATIONS
from .operations import Operation
from .registers import Register
from .results import Command
from .scenarios import Scenario, Sweep, scenario, sweep_of
from .strict import total_words
from .studies import Base
from .study_files import FORMAT, START

#: The scenario of the page's list of changes.
CHANGED = "changed"
KIND = {str(it): it for it in KINDS}


@dataclass(frozen=True)
class Saved:
    """A saved study. `published` is the published total that it names, or None."""

    name: str
    base: Base
    scenarios: tuple[Scenario, ...]
    sweeps: tuple[Sweep, ...]
    published: Optional[int]


def is_saved(data: bytes) -> bool:
    """Whether a file is meant as a saved study."""
    return data.removeprefix(b"\xef\xbb\xbf").lstrip()[:1] == b"{" or START.encode() in data


def field_in(value: Any) -> Any:
    """A field of an operation: members are codes joined by +, or a chair."""
    return "+".join(value) if isinstance(value, list) else value


def command_of(what: Mapping[str, Any]) -> str:
    """The text of a change."""
    kind = str(what["kind"])
    if kind == "percent":
        return f"votes,{what['code']},{what['percent']}%" + " of total" * bool(what["of"] == "total")
    if kind in OPERATIONS and (kind != "move" or "codes" in what):
        fields = {name: field_in(what[name]) for name in OPERATIONS[kind]}
        if isinstance(fields.get("of"), int):
            fields["of"] = f"chair {fields['of']}"
        return str(Operation(kind, fields))
    command = Command(KIND[kind], **{part: what[part] for part in KINDS[KIND[kind]]})
    return str(command)


def changes_in(changes: Iterable[Mapping[str, Any]]) -> list[tuple[str, str]]:
    """The text of each change that is switched on, and the name that it gives a member or a chair."""
    named = ((command_of(it["what"]), it.get("name") or it.get("chairName") or "") for it in changes if it["on"])
    return [(command, str(name)) for command, name in named]


def scenarios_of_page(study: Mapping[str, Any]) -> list[Scenario]:
    """The scenarios, and the list of changes where it is none of them, without changes that are switched off."""
    lists = {it["name"]: changes_in(it["changes"]) for it in study["scenarios"]}
    changed = changes_in(study["changes"])
    if changed not in lists.values():
        lists[CHANGED] = changed
    found = ((label, [*zip(*changes)]) for label, changes in lists.items() if changes)
    return [replace(scenario(label, commands), names=names) for label, (commands, names) in found]


def sweeps_of_page(asked: Optional[Mapping[str, Any]], labels: list[str]) -> list[Sweep]:
    """The sweep, if it is in per cent of the total."""
    if asked is None or asked["unit"] != "percent":
        return []
    who = asked["who"]
    text = who["code"] if who["kind"] == "member" else f"chair {who['chair']}"
    start = f"from {CHANGED}: " * (asked["on"] == "changed" and CHANGED in labels)
    return [sweep_of(f"{start}{text} {asked['from']}..{asked['to']} by {asked['by']} %")]


def base_of_page(base: Mapping[str, Any]) -> Base:
    """The register and the names of a base."""
    names = {int(chair): name for chair, name in base["chairNames"].items()}
    register = Register.from_script(base["script"])
    for chair in names.keys() & register.chairs.keys():
        register.rename(chair, names[chair])
    notices = tuple(base["choices"])
    return Base(register, base["names"], base["rows"], tuple(base["columns"]), base["hash"], notices)


def check_total(base: Base, total: Optional[int]) -> None:
    """Stops where the votes don't add up to a published total."""
    votes = sum(it.votes for it in base.register.members.values())
    if total is not None and total != votes:
        raise BadStudy(total_words(votes, total))


def read_saved(given: Union[bytes, str, Path], *, total: Optional[int] = None) -> Saved:
    """The study in a file, by its bytes or its path. BadStudy where it has none, or where its votes have another total
    than a published one."""
    data = given if isinstance(given, bytes) else Path(given).read_bytes()
    text = data.decode("utf-8-sig")
    if START in text:
        text = text.partition(START)[2].partition("</script>")[0]
    try:
        found = json.loads(text)
        if found["format"] != FORMAT:
            raise BadStudy(f"the format of the study is {found['format']!r}: open it in board.html and save it again")
        study = found["study"]
        scenarios = scenarios_of_page(study)
        sweeps = sweeps_of_page(study["sweep"], [it.label for it in scenarios])
        base = base_of_page(study["base"])
        check_total(base, total)
        return Saved(study["name"], base, tuple(scenarios), tuple(sweeps), study["published"])
    except (KeyError, TypeError, AttributeError, RecursionError) as why:
        raise BadStudy(f"this is no study as board.html saves it ({type(why).__name__}: {why})") from None
