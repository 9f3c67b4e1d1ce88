"""A small reader of tables in LaTeX. It refuses what LaTeX would refuse, or would read as something else."""
from __future__ import annotations

import re
from dataclasses import dataclass

WORDS = {
    "textbackslash": "\\",
    "textasciitilde": "~",
    "textasciicircum": "^",
    "textless": "<",
    "textgreater": ">",
    "textbar": "|",
    "textasciigrave": "`",
}
# What stands for one character, for a sign, or for itself; a bare special character is none of these.
TOKEN = re.compile(
    r"\\symbol\{34\}|\\(?P<word>text[a-z]+)\{\}|\\(?P<mark>[&%$#_{}])|\$(?P<sign>[+-])\$|"
    r"(?P<plain>[^\\&%$#_{}~^<>|`\"])",
    re.DOTALL,
)
RULES = re.compile(r"\\(?:toprule|midrule|bottomrule)\n|(?:\\cmidrule\(lr\)\{\d+-\d+\})+\n")


@dataclass
class Table:
    """The comments, the letters of the columns, and the rows of a tabular, each a list of texts; the last has sums."""

    comments: list[str]
    columns: str
    rules: list[str]
    heads: list[list[str]]
    rows: list[list[str]]
    sums: list[str]


def text_of(cell: str) -> str:
    """The text that a cell prints."""
    cell = " ".join(cell.split())
    turned = re.fullmatch(r"\\righttoleft\{(.*)\}((?: \((?:new|closed)\))?)", cell)
    if turned:
        return text_of(turned[1]) + turned[2]
    found, at = "", 0
    while at < len(cell):
        token = TOKEN.match(cell, at)
        assert token, f"a bare special character: {cell[at:at + 20]!r} in {cell!r}"
        at = token.end()
        word, mark, sign, plain = token.group("word", "mark", "sign", "plain")
        found += WORDS[word] if word else mark or sign or plain or '"'
    return found


def cells_of(row: str) -> list[str]:
    return [text_of(it) for it in re.split(r"(?<!\\)&", row)]


def head_of(row: str) -> list[str]:
    """The cells of a row of the heading: each as often as it spans columns."""
    cells: list[str] = []
    for cell in re.split(r"(?<!\\)&", row):
        group = re.fullmatch(r" *\\multicolumn\{(\d+)\}\{c\}\{(.*)\} *", cell)
        cells += [text_of(group[2])] * int(group[1]) if group else [text_of(cell)]
    return cells


def rows_in(text: str) -> list[str]:
    return [it for it in RULES.sub("", text).split(" \\\\\n") if it]


def stacked(part: str) -> list[str]:
    """The heads whose lines stand above one another in some rows."""
    return [" ".join(filter(None, lines)) for lines in zip(*map(head_of, rows_in(part)), strict=True)]


def check_braces(text: str) -> None:
    """Braces that aren't characters are balanced."""
    depth = 0
    for brace in re.findall(r"(?<!\\)[{}]", text):
        depth += 1 if brace == "{" else -1
        assert depth >= 0, "a brace that closes nothing"
    assert depth == 0, "a brace that isn't closed"


def read(text: str) -> Table:
    """The table of a file."""
    assert re.search(r"\\end\{tabular\}\n(\}\n)?$", text) and "\r" not in text
    lines = text.splitlines(keepends=True)
    comments = [it[2:].rstrip("\n") for it in lines if it.startswith("% ")]
    body = "".join(lines[len(comments) :])
    assert not re.search(r"(?<!\\)%", body), "a comment inside of the table"
    check_braces(body)
    body = body.removeprefix("\\providecommand{\\righttoleft}[1]{#1}\n")
    sized = re.fullmatch(r"\{\\[a-z]+\\setlength\{\\tabcolsep\}\{[0-9]pt\}\\relax\n(.*)\}\n", body, re.DOTALL)
    body = sized[1] if sized else body
    begun = re.match(r"\\begin\{tabular\}\{rl\*\{(\d+)\}\{r\}\}\n", body)
    assert begun, body[:80]
    columns = "rl" + "r" * int(begun[1])
    body = body[begun.end() :].removesuffix("\\end{tabular}\n")
    rules = RULES.findall(body)
    heading, body = body.split("\\midrule\n", 1)
    heads = [stacked(part) for part in re.split(r"(?:\\cmidrule\(lr\)\{\d+-\d+\})+\n", heading)]
    *rows, sums = rows_in(body)
    table = Table(comments, columns, rules, heads, [cells_of(it) for it in rows], cells_of(sums))
    assert {len(it) for it in [*table.heads, *table.rows, table.sums]} == {len(columns)}, "rows of other lengths"
    return table
