#!/usr/bin/env python3
"""The links of an unpacked release that lead nowhere: tests/release/links.py FOLDER

Goes through all .md and .html files: each link, picture and anchor that isn't elsewhere in the network leads to a file
of the release, and to a heading or an element of it. Ends with 1 if one doesn't."""
from __future__ import annotations

import re
import sys
from collections.abc import Iterator
from functools import lru_cache
from html.parser import HTMLParser
from pathlib import Path
from urllib.parse import unquote

ELSEWHERE = re.compile(r"[a-z][a-z0-9+.-]*:|//")
CODE = re.compile(r"^```.*?^```$|`[^`\n]*`", re.MULTILINE | re.DOTALL)
INLINE = re.compile(r"\]\(\s*<?([^)>\s]+)>?[^)]*\)")
DEFINED = re.compile(r"^\[([^\]]+)\]:\s*<?([^>\s]+)", re.MULTILINE)
NAMED = re.compile(r"\]\[([^\]]+)\]")
HEADING = re.compile(r"^#+ +(.+?) *#*$", re.MULTILINE)


class Page(HTMLParser):
    """The links of a page of HTML, and its anchors."""

    def __init__(self, text: str):
        super().__init__()
        self.links: list[str] = []
        self.anchors: set[str] = set()
        self.feed(text)

    def handle_starttag(self, tag: str, attrs: list[tuple[str, str | None]]) -> None:
        for name, value in attrs:
            if name in ("href", "src", "srcset", "action", "poster", "data"):
                self.links.append(value or "")
            if name in ("id", "name"):
                self.anchors.add(value or "")


def links_of(path: Path) -> list[str]:
    """The addresses to which a file links; a name of a link that nothing defines counts as an address."""
    text = path.read_text()
    if path.suffix == ".html":
        return Page(text).links
    prose = CODE.sub("", text)
    defined = {name.lower(): address for name, address in DEFINED.findall(prose)}
    names = [name.lower() for name in NAMED.findall(prose)]
    return [*INLINE.findall(prose), *defined.values(), *(f"[{name}]" for name in names if name not in defined)]


@lru_cache(maxsize=None)
def anchors_of(path: Path) -> set[str]:
    """The anchors of a file: ids, and in Markdown those that are made of headings."""
    text = path.read_text()
    if path.suffix == ".html":
        return Page(text).anchors
    heads = HEADING.findall(re.sub(r"^```.*?^```$", "", text, flags=re.MULTILINE | re.DOTALL))
    return {re.sub(r"[^\w\- ]", "", head.lower()).replace(" ", "-") for head in heads}


def leads_nowhere(path: Path, link: str, top: Path) -> str:
    """What is wrong with a link, or nothing if it leads somewhere."""
    file, _, anchor = unquote(link).partition("#")
    to = (path.parent / file).resolve() if file else path.resolve()
    if not to.is_relative_to(top.resolve()) or not to.exists():
        return "no such file"
    if anchor and (to.suffix not in (".md", ".html") or anchor not in anchors_of(to)):
        return "no such heading"
    return ""


def dead_links(top: Path) -> Iterator[str]:
    """The links below a folder that lead nowhere, each with its file."""
    for path in sorted([*top.rglob("*.md"), *top.rglob("*.html")]):
        for link in links_of(path):
            if not ELSEWHERE.match(link) and (why := leads_nowhere(path, link, top)):
                yield f"{path.relative_to(top)}: {link}: {why}"


def main() -> int:
    dead = list(dead_links(Path(sys.argv[1])))
    print("".join(f"{line}\n" for line in dead) + f"{len(dead)} links lead nowhere")
    return 1 if dead else 0


if __name__ == "__main__":
    sys.exit(main())
