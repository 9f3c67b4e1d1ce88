"""The answers of a study in sentences: who gains and loses most, and where a chair's power changes in kind."""
from __future__ import annotations

from collections.abc import Mapping, Sequence
from fractions import Fraction
from itertools import accumulate, groupby
from typing import TYPE_CHECKING, Optional

from .names import BEGINNINGS, FINDINGS, MEASURES, Majority
from .results import Chair, IndexName, Indices

if TYPE_CHECKING:
    from .studies import Result, Swept, Threshold

#: The measures that a study compares, as they are named in a sentence.
NAMES = {name: words for name, words in MEASURES.items() if name not in ("swings", "ratio")}
PLACES, PERCENT_PLACES = 6, 3
#: The chairs that a sentence names at most; the others are counted.
MOST_NAMED = 3
UNITS = [10**places for places in range(11)]
#: The per cent of the votes that a majority asks for, and the kinds of power with which nothing passes without a chair.
PARTS: dict[Majority, int] = {"half": 50, "70": 70, "85": 85, "quorum": 50}
VETOES = ("alone", "veto")
#: What begins to hold at a threshold, and what ends.
WORDS = {
    ("prevents", True): "has a veto",
    ("prevents", False): "no longer has a veto",
    ("powerless", True): "has no power",
    ("powerless", False): "has power",
}


def decimal(numerator: int, denominator: int, places: int) -> str:
    """A fraction as a decimal, rounded once, half to even."""
    units, rest = divmod(numerator * UNITS[places], denominator)
    rest += rest
    if rest >= denominator and (rest > denominator or units % 2):
        units += 1
    digits = str(abs(units)).zfill(places + 1)
    decimal = digits[:-places] + "." + digits[-places:]
    return "-" + decimal if units < 0 else decimal


def value_words(value: Fraction, index: IndexName) -> str:
    """A value in a sentence: shares in per cent."""
    if index == "share":
        return f"{decimal(100 * value.numerator, value.denominator, PERCENT_PLACES)} %"
    return decimal(value.numerator, value.denominator, PLACES)


def gain_words(gain: Fraction, index: IndexName) -> str:
    """A gain in a sentence; one that rounds to 0 is given as less than the last place."""
    by, places = (100, PERCENT_PLACES) if index == "share" else (1, PLACES)
    change = decimal(by * gain.numerator, gain.denominator, places)
    is_tiny = bool(gain) and not change.strip("-0.")
    change = decimal(1, 10**places, places) if is_tiny else f"{'+' if gain > 0 else ''}{change}"
    words = FINDINGS["points"].format(change=change) if index == "share" else change
    return FINDINGS["tiny"].format(change=words) if is_tiny else words


def counted(count: int, noun: str) -> str:
    """A number of things in words."""
    return f"{count:,} {noun}" + "s" * (count != 1)


def listed(names: Sequence[str], most: int = MOST_NAMED) -> str:
    """Names in a sentence: those after the first few are only counted."""
    first, others = [*names[:most]], len(names) - most
    last = f"{others:,} more" if others > 0 else first.pop() if len(first) > 1 else ""
    return ", ".join(first) + (f" and {last}" if last else "")


def finding(name: str, result: Result, chairs: Sequence[int], **words: str) -> str:
    """A finding on a chair or on several, by number and name."""
    which = f"{name}_{'one' if len(chairs) == 1 else 'several'}"
    return FINDINGS[which].format(chairs=listed([result.named(it) for it in chairs]), **words)


def most_words(result: Result, index: IndexName, over: Mapping[int, int], under: int, name: str) -> str:
    """The chair or chairs that gain most, or lose most, by the numerators of the gains and their denominator."""
    most = max(over.values(), default=0) if name == "gain" else min(over.values(), default=0)
    if most == 0 or (most < 0) == (name == "gain"):
        return FINDINGS[f"{name}_none"]
    chairs = [chair for chair, gain in over.items() if gain == most]
    return finding(name, result, chairs, change=gain_words(Fraction(most, under), index))


def opened_words(result: Result, base: Result, majority: Majority, index: IndexName) -> str:
    """The chairs that are new, and those that are closed, with their values."""
    now, then = result.chairs[majority], base.chairs[majority]
    kept = {it for it in now if result.before(majority, it)}
    new = [(result, it, "new") for number, it in now.items() if number not in kept]
    closed = [(base, it, "closed") for number, it in then.items() if number not in kept]
    said = ""
    for owner, chair, name in [*new, *closed]:
        value = getattr(chair, index)
        shown = "no value" if value is None else value_words(value, index)
        said += FINDINGS[name].format(chair=owner.named(chair.chair), value=shown)
    return said


def fewest(weights: Sequence[int], votes: int, least: int) -> int:
    """How many of the greatest weights have some votes, and are at least some number; 0 if all have fewer."""
    sums = accumulate(sorted(weights, reverse=True))
    return next((many for many, it in enumerate(sums, 1) if it >= votes and many >= least), 0)


def no_veto_sentence(found: Indices) -> str:
    """The fewest chairs that carry together, and that block, where no chair has a veto."""
    weights = [it.weight for it in found.chairs]
    ways = [fewest(weights, found.cast - found.quota + 1, 0)]
    if found.least_size:
        ways.append(len(weights) - found.least_size + 1)
    words = {"carry": fewest(weights, found.quota, found.least_size), "block": min(it for it in ways if it)}
    return FINDINGS["no_veto_quorum" if found.majority == "quorum" else "no_veto"].format(
        at=BEGINNINGS[found.majority], **words
    )


def kind_of(found: Indices, swings: int) -> str:
    """What a chair's power is in kind: "alone", "veto", "powerless", or none of them."""
    if found.omega and not swings:
        return "powerless"
    if not found.omega or swings != found.omega:
        return ""
    return "alone" if swings == found.coalitions - found.omega else "veto"


def veto_margin(found: Indices, weight: int) -> Optional[int]:
    """How many votes a chair could lose and still have its veto, while all others keep theirs; below 0, how many it
    lacks. None if it has a veto by the number of chairs, whatever its votes are."""
    if len(found.numbers) - 1 < found.least_size:
        return None
    part, others, is_half = PARTS[found.majority], found.cast - weight, found.majority == "half"
    # A simple majority is more than half of the votes cast; the others are a part of the total.
    rest = others if is_half else found.total - weight
    to_stop = 100 * others // part - rest + (not is_half)
    to_pass = -((100 * others - part * rest) // (100 - part))
    return weight - max(to_stop, to_pass, int(others == 0), 0)


def veto_turns(result: Result, majority: Majority) -> dict[str, list[Chair]]:
    """The chairs that decide alone, and those that gain, lose, have or keep a veto."""
    found, base = result.indices[majority], result.base
    turns: dict[str, list[Chair]] = {it: [] for it in ("alone", "gets", "drops", "has", "keeps")}
    for chair in found.chairs:
        earlier = result.before(majority, chair.chair) if base else None
        now = kind_of(found, chair.swings)
        then = kind_of(base.indices[majority], earlier.swings) if base and earlier else ""
        has, had = now in VETOES, then in VETOES
        if now == "alone" and then != "alone":
            turns["alone"].append(chair)
        elif has:
            turns["has" if base is None else "keeps" if had else "gets"].append(chair)
        elif had:
            turns["drops"].append(chair)
    return turns


def turn_words(result: Result, majority: Majority, turn: str, chairs: Sequence[Chair]) -> str:
    """What a sentence says of chairs whose vetoes became the same."""
    nothing = FINDINGS["meets" if majority == "quorum" else "passes"]
    margins = [veto_margin(result.indices[majority], it.weight) for it in chairs]
    names = [result.named(it.chair) for it in chairs]
    if len(chairs) == 1:
        many = margins[0] or 0
        which = "just" if not many else "more" if many > 0 else "fewer"
        end = "" if margins[0] is None else FINDINGS[which].format(votes=counted(abs(many), "vote"))
        return FINDINGS[f"{turn}_one"].format(chairs=names[0], margin=end, nothing=nothing)
    spare = [
        name if many is None or many < 0 else FINDINGS["spare"].format(chair=name, votes=counted(many, "vote"))
        for name, many in zip(names, margins)
    ]
    several = f"{'has' if turn == 'alone' else turn}_several"
    return FINDINGS[several].format(chairs=listed(spare), nothing=nothing)


def veto_words(result: Result, majority: Majority) -> str:
    """The beginning of a sentence: who has a veto, or gains, keeps or loses it; empty if nobody does."""
    turns = veto_turns(result, majority).items()
    said = "; ".join(turn_words(result, majority, turn, chairs) for turn, chairs in turns if chairs)
    return said and FINDINGS["vetoes"].format(at=BEGINNINGS[majority], vetoes=said)


def rest_words(result: Result, majority: Majority) -> str:
    """The end of a sentence on a base: who has no power, and whose votes give no more power than far fewer do."""
    found = result.indices[majority]
    none = [it.chair for it in found.chairs if kind_of(found, it.swings) == "powerless"]
    powerless = finding("powerless", result, none) if none else ""
    pairs = [
        (one, other)
        for one in found.chairs
        for other in found.chairs
        if one.swings == other.swings > 0 and 10 * other.weight <= 9 * one.weight
    ]
    if not pairs:
        return powerless
    more, less = max(pairs, key=lambda it: it[0].weight - it[1].weight)
    words = {"more": result.named(more.chair), "less": result.named(less.chair)}
    return powerless + FINDINGS["equal"].format(votes=f"{more.weight:,}", fewer=f"{less.weight:,}", **words)


def gain_sentence(result: Result, majority: Majority, index: IndexName) -> str:
    """Vetoes, and the greatest gain and loss at a majority; of a base without vetoes how few chairs carry and block."""
    at, found = BEGINNINGS[majority], result.indices[majority]
    if not found.omega:
        return FINDINGS["none_wins"].format(at=at, cast=f"{found.cast:,}", total=f"{found.total:,}")
    lead = veto_words(result, majority)
    if result.base is None:
        return (lead or no_veto_sentence(found)) + rest_words(result, majority)
    if not result.base.indices[majority].omega:
        return FINDINGS["none_before"].format(at=at)
    over, under = result.gains_over(index, majority)
    gain, loss = (most_words(result, index, over, under, name) for name in ("gain", "loss"))
    opened = opened_words(result, result.base, majority, index)
    pattern = FINDINGS["gains_then" if lead else "gains"]
    return lead + pattern.format(at=at, measure=NAMES[index], gain=gain, loss=loss, opened=opened)


def kind_words(result: Result, chairs: Sequence[int], words: str) -> str:
    """A statement about chairs."""
    named = listed([result.named(it) for it in chairs], len(chairs))
    return f"chair {named} {words}" if len(chairs) == 1 else f"chairs {named} {words.replace('has ', 'have ')}"


def threshold_sentence(swept: Swept, found: Sequence[Threshold]) -> str:
    """The kinds of power that begin or end at a number of votes."""
    first, kinds = found[0], dict[str, list[int]]()
    for it in found:
        kinds.setdefault(WORDS[it.kind, it.begins], []).append(it.chair)
    said = "; ".join(kind_words(swept.steps[0], chairs, words) for words, chairs in kinds.items())
    share = decimal(100 * first.share.numerator, first.share.denominator, PERCENT_PLACES)
    return (
        f"{BEGINNINGS[first.majority]}, from {counted(first.votes, 'vote')} of {swept.sweep.who} on, {share} per cent "
        f"of the total voting power: {said}. With {counted(first.votes - 1, 'vote')} it is not so."
    )


def steady_sentence(swept: Swept, majority: Majority) -> str:
    """What holds at all steps of a sweep, or at none; empty if there is nothing."""
    from .studies import kinds_of

    found, first = [it.indices[majority] for it in swept.steps], swept.steps[0]
    if not any(it.omega for it in found):
        return f"{BEGINNINGS[majority]} no coalition wins at any step."
    kinds = [kinds_of(it, swept.seats) for it in found]
    always = [key for key in kinds[0] if all(it[key] for it in kinds)]
    never = [key for key in kinds[0] if not any(it[key] for it in kinds)]
    statements = [
        ([it for it in swept.seats if (it, "prevents") in always], "has a veto at each step"),
        ([it for it in swept.seats if (it, "prevents") in never], "has no veto at any step"),
        ([it for it, kind in always if kind == "powerless"], "has no power at any step"),
    ]
    said = [kind_words(first, chairs, words) for chairs, words in statements if chairs]
    return f"{BEGINNINGS[majority]}: {'; '.join(said)}." if said else ""


def sweep_sentences(swept: Swept) -> list[str]:
    """The thresholds of a sweep, and what holds at all of its steps or at none, by majority."""
    said = []
    for majority in swept.steps[0].indices:
        own = [it for it in swept.thresholds if it.majority == majority]
        said += [threshold_sentence(swept, [*found]) for _, found in groupby(own, key=lambda it: it.votes)]
        said.append(steady_sentence(swept, majority))
    return [it for it in said if it]
