"""Figures for papers, by matplotlib, from the data frames of studies and readings."""
from __future__ import annotations

import io
import textwrap
import warnings
from collections.abc import Iterable, Sequence
from contextlib import contextmanager
from dataclasses import dataclass
from pathlib import Path
from typing import TYPE_CHECKING, Any, Iterator, Optional

from .amounts import BadStudy
from .answers import NAMES, WORDS, counted, decimal
from .command_line import PDF, SVG, check_names, say
from .files import place_of
from .names import Majority
from .results import IndexName, Reading
from .scenarios import BASE
from .studies import Study, Swept, fractions_of

if TYPE_CHECKING:
    from matplotlib.axes import Axes  # type: ignore[import]
    from matplotlib.figure import Figure  # type: ignore[import]
    from pandas import DataFrame  # type: ignore[import]

#: Colours that colour-blind readers can tell apart, each with its own shape and dashes, and stripes for print in grey.
LOOKS: dict[str, tuple[str, str, str, str]] = {
    "votes": ("#b4b4b4", "|", "--", ""),
    "half": ("#0072b2", "o", "-", ""),
    "70": ("#d55e00", "s", "--", "////"),
    "85": ("#009e73", "^", "-.", ".."),
    "quorum": ("#aa3377", "D", ":", "xx"),
}
OTHERS = [*list(LOOKS.values())[1:], ("#6a6a00", "v", "-", ""), ("#56b4e9", "P", "--", "")]
FONTS = ("DejaVu Sans", "Noto Sans", "Noto Sans CJK SC", "Noto Sans CJK JP", "WenQuanYi Zen Hei", "Arial Unicode MS")
#: Inches: the width, and the heights of a row of names and of a panel.
WIDTH, ROW, PANEL = 6.5, 0.24, 2.6
SETTINGS: dict[str, Any] = {
    "svg.hashsalt": "board",
    "svg.fonttype": "none",
    "pdf.fonttype": 42,
    "font.size": 9,
    "text.parse_math": False,
    "axes.spines.top": False,
    "axes.spines.right": False,
    "axes.grid": True,
    "grid.color": "#d8d8d8",
    "axes.axisbelow": True,
    "axes.formatter.useoffset": False,
    "hatch.linewidth": 0.6,
}


@dataclass(frozen=True)
class Picture:
    """A figure with the name of its file, its title and its caption."""

    name: str
    title: str
    caption: str
    figure: Figure


@contextmanager
def settings() -> Iterator[None]:
    """The settings of all figures, with those fonts that are installed."""
    import matplotlib  # type: ignore[import]
    from matplotlib.font_manager import fontManager  # type: ignore[import]

    installed = {font.name for font in fontManager.ttflist}
    with matplotlib.rc_context({**SETTINGS, "font.family": [it for it in FONTS if it in installed]}):
        yield


def scale(index: IndexName) -> int:
    """What values are multiplied by: shares are in per cent."""
    return 100 if index == "share" else 1


def unit_of(index: IndexName, is_gain: bool = False) -> str:
    """A measure with its unit, for an axis."""
    unit = ", percentage points" if is_gain else ", per cent"
    return NAMES[index] + (unit if index == "share" else "")


def empty(panels: int, height: float) -> tuple[Figure, Sequence[Axes]]:
    """A figure with panels below one another."""
    from matplotlib.figure import Figure

    figure = Figure(figsize=(WIDTH, 0.9 + panels * height), layout="constrained")
    axes = figure.subplots(panels, 1, squeeze=False)
    return figure, axes[:, 0]


def name_rows(axes: Axes, frame: DataFrame) -> None:
    """Puts numbers and names of chairs on the upright axis, the first on top."""
    names = ["\n".join(textwrap.wrap(f"{chair} {name}", 28)) for chair, name in zip(frame["chair"], frame["name"])]
    axes.set_yticks(range(len(frame)), names)
    axes.invert_yaxis()
    axes.grid(False, axis="y")


def dot_plot(frame: DataFrame, index: IndexName) -> Figure:
    """A measure at each majority next to the share of the votes, the chair with the most votes on top."""
    groups = {
        majority: own.sort_values(["weight", "chair"], ascending=[False, True])
        for majority, own in frame.groupby("majority", sort=False)
    }
    first = next(iter(groups.values()))
    figure, [axes] = empty(1, ROW * len(first))
    if index == "share":
        colour, marker, _, _ = LOOKS["votes"]
        shares = 100 * first["vote_share"]
        axes.plot(shares, range(len(first)), marker, color=colour, markersize=10, label="share of votes")
    for majority, own in groups.items():
        colour, marker, _, _ = LOOKS[majority]
        axes.plot(scale(index) * own[index], range(len(own)), marker, color=colour, markersize=5, label=majority)
    name_rows(axes, first)
    axes.set_xlabel(unit_of(index))
    axes.legend(loc="lower left", bbox_to_anchor=(0, 1), ncols=5, frameon=False)
    return figure


def bar_plot(frame: DataFrame, index: IndexName) -> Figure:
    """The gains over the base at each majority, the chair with the most votes on top."""
    groups = [
        (majority, own.sort_values(["weight", "chair"], ascending=[False, True]))
        for majority, own in frame.groupby("majority", sort=False)
    ]
    thick = 0.8 / len(groups)
    figure, [axes] = empty(1, ROW * len(groups[0][1]) * max(1, len(groups) / 2))
    for at, (majority, own) in enumerate(groups):
        colour, _, _, stripes = LOOKS[majority]
        places = [row + (at - (len(groups) - 1) / 2) * thick for row in range(len(own))]
        values = scale(index) * own[f"{index}_difference"]
        axes.barh(places, values, thick, color=colour, hatch=stripes, edgecolor="white", linewidth=0, label=majority)
    name_rows(axes, groups[0][1])
    axes.axvline(0, color="#222222", linewidth=0.6)
    axes.set_xlabel(f"added to the {unit_of(index, is_gain=True)}")
    axes.legend(loc="lower left", bbox_to_anchor=(0, 1), ncols=4, frameon=False)
    return figure


def line_plot(panels: Sequence[tuple[str, DataFrame, Sequence[float]]], index: IndexName, who: str) -> Figure:
    """A measure of chairs as a share of the votes grows: panels with a heading, and thin lines at thresholds."""
    figure, all_of = empty(len(panels), PANEL)
    for axes, (heading, frame, marks) in zip(all_of, panels):
        lines = list(frame.groupby("chair", sort=False))
        for (chair, own), (colour, marker, dashes, _) in zip(lines, OTHERS):
            name, steps = f"{chair} {own['name'].iloc[0]}", own["percent"].astype(float)
            axes.plot(steps, scale(index) * own[index], dashes, marker=marker, markersize=3, color=colour, label=name)
        for place in marks:
            axes.axvline(place, color="#222222", linewidth=0.6)
        axes.set_title(heading, loc="left", fontsize=9)
        axes.set_ylabel(unit_of(index))
        axes.legend(fontsize=8, framealpha=0.8, edgecolor="none")
    all_of[-1].set_xlabel(f"votes of {who}, per cent of the total voting power")
    return figure


def threshold_words(swept: Swept, majorities: Sequence[Majority]) -> str:
    """A caption's sentence on the thin lines; empty if there are none."""
    said = [
        f"at {it.majority}, from {counted(it.votes, 'vote')} "
        f"({decimal(100 * it.share.numerator, it.share.denominator, 3)} per cent), "
        f"chair {it.chair} {WORDS[it.kind, it.begins]}"
        for it in swept.thresholds
        if it.majority in majorities
    ]
    return f" The thin lines: {'; '.join(said)}." if said else ""


def sweep_pictures(study: Study, swept: Swept, number: int, frame: DataFrame, index: IndexName) -> Iterator[Picture]:
    """A sweep: its own chairs at each majority, and the other chairs with the most votes at each."""
    text, who, seats = swept.sweep.text, swept.sweep.who, list(swept.seats)
    own, others = frame[frame["chair"].isin(seats)], frame[~frame["chair"].isin(seats)]
    marks = {it: [float(100 * one.share) for one in swept.thresholds if one.majority == it] for it in study.majorities}
    panels = [(f"at {it}", own[own["majority"] == it], marks[it]) for it in study.majorities]
    caption = f"{text}: {NAMES[index]} of its chair.{threshold_words(swept, study.majorities)}"
    yield Picture(f"sweep-{number}", text, caption, line_plot(panels, index, who))
    most = others.sort_values("weight", ascending=False)["chair"].drop_duplicates().head(len(OTHERS))
    for it in study.majorities if len(most) else []:
        shown = others[(others["majority"] == it) & others["chair"].isin(most)]
        title = f"{text}: other chairs at {it}"
        caption = f"{title}, those with the most votes.{threshold_words(swept, [it])}"
        figure = line_plot([(f"at {it}", shown, marks[it])], index, who)
        yield Picture(f"sweep-{number}-others-{it}", title, caption, figure)


def study_figures(study: Study, index: IndexName = "share") -> list[Picture]:
    """All figures of a study: the base, the gains by each scenario, and the sweeps."""
    frame, found = study.to_dataframe(floats=True), list[Picture]()
    at = ", ".join(study.majorities)
    with settings():
        base = frame[frame["scenario"] == BASE]
        if len(base):
            title = f"Base: {NAMES[index]} at {at}"
            caption = f"{title}, next to the share of the votes cast."
            found.append(Picture("base", title, caption, dot_plot(base, index)))
        for number, it in enumerate(study.scenarios, 1):
            own = frame[frame["scenario"] == it.label]
            new = own[own[f"{index}_difference"].isna()]["chair"].unique()
            kept = own[~own["chair"].isin(new)]
            title = f"{it.label}: what is added to the base at {at}"
            without = f" Without chairs that the base lacks: {', '.join(map(str, new))}." if len(new) else ""
            if len(kept):
                found.append(Picture(f"scenario-{number}", title, f"{title}.{without}", bar_plot(kept, index)))
        for number, swept in enumerate(study.sweeps, 1):
            own = frame[frame["sweep"] == swept.sweep.text]
            found += sweep_pictures(study, swept, number, own, index)
    return found


def reading_figures(readings: Sequence[Reading]) -> list[Picture]:
    """A figure for each reading that has chairs."""
    found = []
    with settings():
        for number, it in enumerate(readings, 1):
            if it.numbers:
                frame = it.to_dataframe(floats=True).assign(majority=it.majority)
                frame["vote_share"] = [float(fractions_of(it, chair)[0] or 0) for chair in it.chairs]
                frame["name"] = frame["name"] if "name" in frame else ""
                title = f"Reading {number}: {NAMES['share']} at {it.majority}"
                caption = f"{title}, next to the share of the votes cast."
                found.append(Picture(f"reading-{number}", title, caption, dot_plot(frame, "share")))
    return found


def saved(picture: Picture, is_titled: bool, source: str) -> Iterator[tuple[str, bytes]]:
    """A figure as SVG and as PDF, whose metadata have title, caption and source; each with its ending."""
    about = {"Title": picture.title, "Creator": "voting-board board-figures"}
    svg = {**about, "Date": None, "Description": picture.caption, "Source": source}
    pdf = {**about, "CreationDate": None, "Subject": picture.caption, "Keywords": source}
    if is_titled:
        picture.figure.suptitle("\n".join(textwrap.wrap(picture.title, 70)), x=0.01, ha="left", fontsize=10)
    for ending, metadata in (("svg", svg), ("pdf", pdf)):
        file = io.BytesIO()
        picture.figure.savefig(file, format=ending, metadata=metadata)
        yield ending, file.getvalue()


def missing_letters(caught: Iterable[warnings.WarningMessage]) -> Optional[str]:
    """A sentence on letters that no font has, from matplotlib's warnings."""
    said = sorted({str(it.message).split(" missing")[0] for it in caught if "missing from" in str(it.message)})
    return f"warning: the fonts lack letters, so that a PDF has boxes: {', '.join(said[:9])}" if said else None


def figure_files(pictures: Sequence[Picture], start: Path, is_titled: bool, lines: Sequence[str]) -> dict[Path, bytes]:
    """The files of figures, by their places, whose names have one beginning."""
    if not start.parent.is_dir():
        raise BadStudy(f"--figures: there is no folder {start.parent}")
    found: dict[Path, bytes] = {}
    with settings(), warnings.catch_warnings(record=True) as caught:
        warnings.simplefilter("always")
        for it in pictures:
            for ending, data in saved(it, is_titled, "; ".join(lines)):
                path = start.with_name(f"{start.name}-{it.name}.{ending}")
                found[place_of(path, SVG if ending == "svg" else PDF)] = data
    if said := missing_letters(caught):
        say("board-figures", [said])
    check_names(found)
    return found
