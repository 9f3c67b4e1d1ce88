"""What the sources say once and others repeat: the version, the limits, the kinds of commands, the majorities with
their Articles, the refusals with their reasons, the bibliography, and the sentences on what a call takes.

Version, limits and refusals are in the crates, the kinds of commands in board.h, the words and Articles of the
majorities and the bibliography in docs/DEFINITIONS.md, and the sentences here."""
from __future__ import annotations

import re
from dataclasses import dataclass
from functools import cached_property
from pathlib import Path

TOP = Path(__file__).resolve().parent.parent
COLUMNS = ("code", "name", "votes", "chair", "chair_name", "suspended")
TRAPPED = "the library came to a point that its proof rules out: the compiler or the machine is at fault"
LARGE = {2**40: "2^40", 2**48: "2^48"}

# How the measures are named in a sentence.
MEASURES = {
    "share": "share of power",
    "banzhaf": "Banzhaf measure",
    "prevent": "power to prevent action",
    "initiate": "power to initiate action",
    "swings": "number of swings",
    "ratio": "ratio of power to votes",
}
# The operations of scenarios, in board-study and in the page: changes of several members or of a whole chair, each
# carried out as several commands. What each field is, in the order of the text.
OPERATIONS = {
    "merge": {"chair": "chair", "to": "chair"},
    "dissolve": {"chair": "chair", "to": "seat"},
    "split": {"codes": "codes", "to": "opened"},
    "scale": {"of": "whose", "percent": "change"},
    "share": {"codes": "codes", "percent": "share", "others": "others"},
    "move": {"codes": "codes", "to": "seat"},
}
# Why a group gets no votes: several members without any have no proportions. One member alone needs none.
NO_PROPORTIONS = "these members have no votes, so no proportions to keep"
# The sentences on vetoes and on who gains most, by their names; what they speak of stands in {braces}.
FINDINGS = {
    "none_wins": "{at} no coalition wins: the open chairs cast {cast} of {total} votes.",
    "none_before": "{at} no coalition wins in the base, so nothing can be compared.",
    "no_veto": "{at}, no chair has a veto: at least {carry} chairs are needed to carry, and {block} to block.",
    "no_veto_quorum": "{at}, no chair has a veto: at least {carry} chairs are needed to meet it, {block} to stop it.",
    "vetoes": "{at}, {vetoes}.",
    "alone_one": "chair {chairs} decides alone: everything passes with it, and nothing without it",
    "has_one": "chair {chairs} has a veto{margin}: {nothing} without it",
    "has_several": "chairs {chairs} have a veto: {nothing} without each of them",
    "gets_one": "chair {chairs} gains a veto{margin}: {nothing} without it",
    "gets_several": "chairs {chairs} gain a veto: {nothing} without each of them",
    "drops_one": "chair {chairs} loses its veto{margin}",
    "drops_several": "chairs {chairs} lose their vetoes",
    "keeps_one": "chair {chairs} keeps its veto{margin}",
    "keeps_several": "chairs {chairs} keep their vetoes",
    "passes": "nothing passes",
    "meets": "there is no quorum",
    "more": ", with {votes} more than it needs",
    "fewer": ", with {votes} fewer than it needs",
    "just": ", with just the votes that it needs",
    "spare": "{chair} ({votes} to spare)",
    "powerless_one": " Chair {chairs} has no power: no outcome depends on it.",
    "powerless_several": " Chairs {chairs} have no power: no outcome depends on them.",
    "equal": " Chair {more} with {votes} votes has no more power than chair {less} with {fewer}.",
    "gains": "{at}, in {measure}: {gain}; {loss}.{opened}",
    "gains_then": " In {measure}: {gain}; {loss}.{opened}",
    "gain_one": "chair {chairs} gains most, {change}",
    "gain_several": "chairs {chairs} gain most, {change} each",
    "gain_none": "no chair gains",
    "loss_one": "chair {chairs} loses most, {change}",
    "loss_several": "chairs {chairs} lose most, {change} each",
    "loss_none": "no chair loses",
    "new": " Chair {chair} is new: {value}.",
    "closed": " Chair {chair} is closed; in the base it had {value}.",
    "tiny": "less than {change}",
    "points": "{change} percentage points",
}


@dataclass(frozen=True)
class Majority:
    """A row of the table of majorities: the word, the name, how a sentence on it begins, what wins, and why; and the
    name in the code."""

    word: str
    name: str
    begins: str
    meaning: str
    condition: str
    article: str
    about: str
    variant: str


@dataclass(frozen=True)
class Refusal:
    """A refusal or a fault; a reserved one never occurs."""

    number: int
    name: str
    reason: str
    is_reserved: bool


@dataclass(frozen=True)
class Kind:
    """A kind of record, and the parts of its commands; none of `publish` and `read`."""

    word: str
    parts: list[str] | None


def text_of(path: str) -> str:
    return (TOP / path).read_text()


def shown(number: int) -> str:
    """A number in a sentence."""
    return LARGE.get(number, f"{number:,}")


def section(heading: str) -> str:
    """A section of docs/DEFINITIONS.md."""
    [found] = re.findall(rf"^## {heading}\n(.*?)(?=^## |\Z)", text_of("docs/DEFINITIONS.md"), re.MULTILINE | re.DOTALL)
    return str(found)


class Facts:
    """What the sources say."""

    @cached_property
    def header(self) -> str:
        return text_of("crates/board_c/board.h")

    @cached_property
    def version(self) -> str:
        [found] = re.findall(
            r'^const VERSION: &str = "([0-9.]+) ', text_of("crates/board_report/src/commands.rt"), re.M
        )
        return str(found)

    @cached_property
    def limits(self) -> dict[str, int]:
        """Each limit by its name."""
        names = ("CHAIRS", "MEMBERS", "COMMANDS", "READERS", "INPUT_BYTES")
        found = {it.lower(): int(re.findall(rf"BOARD_{it} = (\d+)", self.header)[0]) for it in names}
        limits = text_of("crates/council_core/src/limits.rt")
        for name, constant in {"member_votes": "MAX_VOTES", "total_votes": "MAX_TOTAL"}.items():
            found[name] = 2 ** int(re.findall(rf"pub const {constant}: u64 = 1 << (\d+);", limits)[0])
        return found

    @cached_property
    def kinds(self) -> list[Kind]:
        """The kinds of records by number. The parts of a command are after the colon of its comment."""
        block = re.findall(r"enum \{\n( +BOARD_OPEN = .*?)\};", self.header, re.DOTALL)[0]
        return [
            Kind(name.lower(), None if name in ("PUBLISH", "READ") else about.rpartition(": ")[2].split(", "))
            for name, about in re.findall(r"BOARD_(\w+) = \d+,? */\* (.*?) \*/", block)
        ]

    @cached_property
    def majorities(self) -> list[Majority]:
        """The majorities by number, as docs/DEFINITIONS.md has them."""
        rows = re.findall(r"^\| `\w+` \|.*\|$", section("Majorities"), re.MULTILINE)
        cells = [[cell.strip(" `") for cell in row.strip("|").split("|")] for row in rows]
        coded = re.findall(r'Majority::(\w+) => "(\w+)"', text_of("crates/majority_rule/src/majorities.rt"))
        words = [word for _, word in coded]
        assert words == [row[0] for row in cells], f"docs/DEFINITIONS.md has other majorities than the code: {words}"
        return [Majority(*[*row, variant]) for row, (variant, _) in zip(cells, coded)]

    @cached_property
    def refusals(self) -> list[Refusal]:
        """The refusals by number, from 1."""
        text = text_of("crates/council_core/src/refusals.rt")
        table = text.partition("macro_rules! refusals")[2].partition("// An array")[0]
        reserved = re.findall(r"[Nn]o call fails with it\.\n    (\w+) = \d+,", text)
        return [
            Refusal(number, name, reason, name in reserved)
            for number, (name, reason) in enumerate(re.findall(r'^ +(\w+): "(.*)",$', table, re.M), 1)
        ]

    @cached_property
    def bibliography(self) -> list[str]:
        """The sources by author, as plain text."""
        entries = re.findall(r"^- (.*?)(?=^- |\Z)", section("Sources"), re.MULTILINE | re.DOTALL)
        return [" ".join(it.replace("*", "").split()) for it in entries]

    @cached_property
    def allowed(self) -> dict[str, str]:
        """What is allowed for a value, by its name; @none@, @true@ and @false@ stand for a language's own words."""
        votes = "votes are whole numbers from 0"
        chair = f"a chair is a whole number from 1 to {self.limits['chairs']}"
        words = [it.word for it in self.majorities]
        return {
            "weight": votes,
            "weights": f"a board has at most {self.limits['chairs']} chairs",
            "total": votes,
            "total_most": f"at most {self.limits['total_votes']}",
            "total_least": "at least the sum of the weights",
            "votes": f"{votes} to {self.limits['member_votes']}",
            "chair": chair,
            "seat": f"{chair}, or @none@ for no chair",
            "code": "a code is three ASCII capitals",
            "name": "a name is text",
            "suspended": "@true@ or @false@",
            "majority": f"{', '.join(words[:-1])} or {words[-1]}",
            "readers": f"a whole number from 1 to {self.limits['readers']}",
            "journal": f"a whole number from 1 to {self.limits['commands']}",
            "length": "a whole number from 0 to the number of accepted commands",
            "columns": f"the columns are {', '.join(COLUMNS[:-1])} and {COLUMNS[-1]}",
        }

    def said(self, none: str, yes: str, no: str) -> dict[str, str]:
        """The sentences on what is allowed, with a language's own words for no value, yes and no."""
        texts = self.allowed.items()
        return {key: it.replace("@none@", none).replace("@true@", yes).replace("@false@", no) for key, it in texts}
