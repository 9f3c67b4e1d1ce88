"""The command board-study: a study of a table of members, as a table and as a page."""
from __future__ import annotations

import argparse
import sys
from dataclasses import replace
from itertools import chain, count
from pathlib import Path
from typing import Optional

from . import studies
from .answers import NAMES, counted
from .command_line import PAGE, TABLE, add_figure_words, check_names, command_words, ended
from .command_line import majorities, out_name, printable, read_bytes, say, show
from .files import check_same, place_of, write_files
from .names import MAJORITIES, VERSION
from .saved_studies import CHANGED, Saved, is_saved, read_saved
from .scenarios import BASE, each, one_line, scenario_of, scenarios_in, sweep_of
from .second_tables import second_table
from .strict import ENCODINGS, StrictTable, read_table
from .study_files import file_line, page_data, page_with, provenance, study_table, sweep_in_page

SCRIPT = "member,votes\n"
MOST_NAMED = 12
EPILOG = """For example:

  board-study members.csv --at 70,85 --scenario "China +30%: votes,CHN,+30%" \\
    --scenario "Mexico to chair 23: move,MEX,23" --sweep "USA 10..20 by 0.5 %" out/study

TABLE is a strict table: CSV with the columns code (or name), votes, chair, and if there chair_name and suspended, in
whole numbers. board.html cleans any other one and saves it as such a table.

TABLE may also be a study that board.html saved (.study.json, or a page), with its changes and scenarios.

--compare takes a second strict table, of another year, as a scenario that has its file's name: members are the same by
name or code, chairs where they share the most votes of members. It says what no change says, such as another name.

A scenario is a label, a colon, and commands separated by semicolons (open, close, move, votes, suspend, restore, admit,
withdraw, as docs/FORMATS.md has them), carried out on the register of the table. --scenarios takes a file of them: CSV
with the columns label and commands, or TOML, where the name ends in .toml, with a table [[scenario]] for each.

Votes are a number, or per cent: votes,CHN,+30% changes the member's own votes, and votes,USA,15% of total gives 15 per
cent of the total voting power. Several codes joined by +, or a chair such as 'chair 17', may take a code's place.

The operations of board.html are commands, too, each of them as a whole:
  merge,17,18  dissolve,17,18  dissolve,17      all members of a chair move to another or to none, and it is closed
  split,CHN+IND  split,CHN+IND,25               members move to a chair that is opened for them
  move,CHN+IND,17  move,CHN+IND                 members move to a chair, or to none
  scale,CHN+IND,+10%  scale,chair 17,+10%       the votes of each member, rounded to whole votes, half to even
  share,CHN+IND,20%,pay                         they get a share of the total; the others pay in proportion, or with
  share,CHN+IND,+6 points,keep                  keep keep their votes

A sweep gives such votes one share of the total after the other: 'USA 10..20 by 0.5 %', 'chair 17 1..30 by 1 %'. It
starts from the table's register; 'from LABEL: USA 10..20 by 1 %' from that of a scenario.

OUT.csv has a row for each scenario, majority and chair. OUT.html is board.html with the study in it. The answers in
sentences go to standard output.

Status: 0 where all files were written; 1 where something is wrong, which is named, and then nothing was written; 2
where the command line is wrong."""


def words() -> argparse.ArgumentParser:
    """The arguments of the command."""
    parser = argparse.ArgumentParser(
        prog="board-study",
        description="Compares scenarios of a table of members at several majorities: OUT.csv and OUT.html.",
        epilog=EPILOG,
        formatter_class=argparse.RawDescriptionHelpFormatter,
    )
    add = parser.add_argument
    add("--version", action="version", version=f"board-study {VERSION}")
    add("table", metavar="TABLE", help="the table of members; - is standard input")
    add("out", metavar="OUT", type=out_name, help="the name of the two files, without .csv and .html")
    add("--at", metavar="MAJORITIES", type=majorities, default=MAJORITIES, help=f"(default: {','.join(MAJORITIES)})")
    add("--scenario", metavar="TEXT", action="append", default=[], help="'LABEL: command; command'")
    add("--scenarios", metavar="FILE", action="append", default=[], help="scenarios, in CSV or TOML")
    add("--compare", metavar="TABLE", action="append", default=[], help="a second table of members, as a scenario")
    add("--sweep", metavar="TEXT", action="append", default=[], help="'WHO FROM..TO by STEP %%', of the total")
    add("--measure", choices=NAMES, default="share", help="what sentences, page and figures compare (default: share)")
    add("--replay", metavar="FILE", type=Path, help="write the input of `board replay` that gives these readings")
    add("--force", action="store_true", help="let --replay replace another script")
    add("--title", help="the study's name in the page (default: the table's name)")
    add_figure_words(parser)
    add("--encoding", choices=ENCODINGS, default="utf-8", help="of the tables (default: utf-8)")
    add("--header-row", metavar="N", type=int, default=1, help="the row of the tables' header (default: 1)")
    add("--total", metavar="N", type=int, help="stop unless the votes add up to this published total")
    return parser


def said_of(base: studies.Base) -> list[str]:
    """Sentences on what was read: members, votes and chairs, then each notice."""
    members = base.register.members
    named = {code: f"{code} {name}" if (name := base.members.get(code)) else code for code in members}
    none = [f"{named[code]} ({counted(it.votes, 'vote')})" for code, it in members.items() if it.chair is None]
    more = f" and {len(none) - MOST_NAMED} more" if none[MOST_NAMED:] else ""
    seats = f"{counted(len(none), 'member')} in no chair: {', '.join(none[:MOST_NAMED])}{more}"
    many = f"{counted(len(members), 'member')}, {counted(sum(it.votes for it in members.values()), 'vote')}"
    chairs = counted(len({it.chair for it in members.values() if it.chair}), "chair")
    return [f"{many}; {chairs}; {seats if none else 'every member is in a chair'}", *base.notices]


def name_of(path: str) -> str:
    """A table's name: its file's."""
    return "Table" if path == "-" else one_line(Path(path).stem)


def table_of(given: argparse.Namespace, path: str, data: bytes, total: Optional[int] = None) -> StrictTable:
    """The strict table in a file."""
    try:
        return read_table(data, encoding=given.encoding, header_row=given.header_row, total=total)
    except ValueError as why:
        raise ValueError("\n".join(f"{path}: {it}" for it in str(why).splitlines())) from None


def begun(given: argparse.Namespace, data: bytes) -> Saved:
    """The study with which this one begins: a table of members without scenarios, or a study that board.html saved."""
    if not is_saved(data):
        table = table_of(given, given.table, data, given.total)
        return Saved(name_of(given.table), studies.base_of(table), (), (), given.total)
    try:
        return read_saved(data, total=given.total)
    except ValueError as why:
        raise ValueError(f"{given.table}: {why}") from None


def compared(start: Saved, name: str, table: StrictTable) -> Saved:
    """The study with a second table as a scenario, and with the sentences on it, as the page has them."""
    taken = {BASE, CHANGED, *(it.label for it in start.scenarios)}
    label = next(it for it in chain([name], (f"{name} {at}" for at in count(2))) if it not in taken)
    found = second_table(start.base, table, label)
    head = f"The scenario {label} is another table as changes (SHA-256 {table.hash})."
    said = [" ".join([head, *found.said]), *(f"{label}: {it}" for it in table.notices)]
    base = replace(start.base, notices=(*start.base.notices, *said))
    return replace(start, base=base, scenarios=(*start.scenarios, found.scenario))


def sentences(study: studies.Study, given: argparse.Namespace) -> list[str]:
    """The answers, below the label of what they are about; those on the base if nothing else was asked for."""
    found, labels = [], [it.label for it in study.scenarios]
    for label in labels if labels or study.sweeps else [BASE]:
        result = study.results[label]
        both = [result.answers(it) for it in dict.fromkeys(["share", given.measure])]
        found += [f"{label}:", *dict.fromkeys(line for pair in zip(*both) for line in pair)]
    for swept in study.sweeps:
        found += [f"{swept.sweep.text}:", *swept.answers()]
    return found


def places_of(given: argparse.Namespace, figures: dict[Path, bytes]) -> list[Path]:
    """The places of all files, which are checked: the table, the page, the script if wanted, and the figures."""
    paths = [Path(f"{given.out}.csv"), Path(f"{given.out}.html"), *([given.replay] if given.replay else [])]
    read = [it for it in (given.table, *given.compare, *given.scenarios) if it != "-"]
    check_names([*paths, *figures, *map(Path, read)])
    return [place_of(path, kind) for path, kind in zip(paths, [TABLE, PAGE, SCRIPT])]


def make(given: argparse.Namespace) -> None:
    """Runs the study, writes its files, and says the answers."""
    places_of(given, {})
    data, files = read_bytes(given.table), [(it, read_bytes(it)) for it in given.scenarios]
    tables = [(it, read_bytes(it)) for it in given.compare]
    start = begun(given, data)
    for path, text in tables:
        start = compared(start, name_of(path), table_of(given, path, text))
    said = said_of(start.base)
    say("board-study", said)
    asked = [*start.scenarios]
    asked += [it for many in each(lambda it: scenarios_in(*it), files) for it in many]
    asked += each(scenario_of, given.scenario)
    sweeps = [*start.sweeps, *each(sweep_of, given.sweep)]
    study = studies.study(start.base, at=given.at, scenarios=asked, sweeps=sweeps)
    read = [file_line("table", given.table, data), *(file_line("second table", *it) for it in tables)]
    read += [file_line("scenarios", *it) for it in files]
    paths = [given.table, given.out, given.replay, given.figures, *given.compare, *given.scenarios]
    more = [command_words("board-study", sys.argv[1:], paths), *(f"read: {it}" for it in said)]
    lines = provenance(study, read, more)
    figures: dict[Path, bytes] = {}
    if given.figures:
        from .figures import figure_files, study_figures

        place = given.figures / Path(given.out).name
        figures = figure_files(study_figures(study, given.measure), place, given.figure_titles == "in", lines)
    page = page_with(page_data(study, given.title or start.name, lines, given.measure, start.published))
    texts = [study_table(study, lines), page, *([study.script()] if given.replay else [])]
    answers = "\n".join(sentences(study, given))
    if given.replay and not given.force:
        check_same(given.replay, texts[-1].encode())
    places = places_of(given, figures)
    show(printable(answers))
    write_files({**dict(zip(places, (it.encode() for it in texts))), **figures})
    others = [it.sweep for it in study.sweeps if it.sweep != sweep_in_page(study)]
    alone = "is in OUT.csv alone: the page holds one sweep, of a member or a chair"
    say("board-study", [f"{it.text!r} {alone}" for it in others])


def main() -> int:
    """Runs the command."""
    return ended(words(), make)


if __name__ == "__main__":
    sys.exit(main())
