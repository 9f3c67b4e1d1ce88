"""Tables of Markdown, as the programs of this folder print them, and the names of what several of them time."""
from __future__ import annotations

# The boards that bench/calls.c counts.
BOARDS = {
    "equal32": "32 chairs of one vote",
    "random32": "32 chairs of up to 2^40 votes",
    "votes24": "chairs 1 to 24, 5 million votes",
    "votes25": "chairs 1 to 25, 5 million votes",
    "votes3": "3 chairs",
}


def row(*cells: str) -> None:
    print("|", " | ".join(cells), "|")


def head(*cells: str) -> None:
    row(*cells)
    print("|---|" + "---:|" * (len(cells) - 1))


def micros(nanos: float) -> str:
    return f"{nanos / 1000:,.1f}" if nanos < 10_000 else f"{nanos / 1000:,.0f}"


def aim(most: float | None, *ratios: float) -> str:
    """The greatest ratio that is aimed at, if there is an aim, and whether a ratio misses it."""
    is_missed = most is not None and any(round(it, 2) > most for it in ratios)
    return "" if most is None else f"{most:.2f}{', missed' * is_missed}"
