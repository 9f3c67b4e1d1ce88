"""Reads an LLVM module that the prover passes to clang: its functions, whom they call, their atomic instructions.

No pass of LLVM has run over such a module. So each function of the sources is a function of the module, under its path,
and each instance of a generic one is a function of its own, whose name ends in a hash of the types."""
from __future__ import annotations

import re
import subprocess
import tempfile
from collections.abc import Iterable, Mapping
from dataclasses import dataclass
from functools import cached_property
from pathlib import Path

TARGET = ["--target=x86_64-unknown-linux-gnu", "-S", "-emit-llvm", "-x", "ir"]
# Inlines whatever can be inlined, and unrolls each loop whose rounds can be counted.
WHOLE = ["-O3", "-mllvm", "-inline-threshold=1000000", "-mllvm", "-unroll-threshold=1000000"]

NAME = r'@("[^"]*"|[-\w.$]+)'
REFERENCE = re.compile(NAME)
DEFINED = re.compile(rf"^define [^\n]*?{NAME}\(", re.MULTILINE)
LABEL = re.compile(r'^("[^"]*"|[-\w.$]+):')
GOES_TO = re.compile(r'\blabel %("[^"]*"|[-\w.$]+)')
RESULT = re.compile(r"^%[-\w.$]+ = ")
CALL = re.compile(r"(?:tail |musttail |notail )?(?:call|invoke|callbr)\b")
CALLEE = re.compile(rf"(?:{NAME}|%[-\w.$]+)\(")
ATOMIC = re.compile(r"(?:(load|store) atomic|(cmpxchg|fence)|atomicrmw (?:volatile )?(\w+))\b")
ORDER = re.compile(r"\b(?:unordered|monotonic|acquire|release|acq_rel|seq_cst)\b")
# Two forms without effect: a barrier for the compiler alone, and the load of a static byte that keeps an endless loop.
BARRIER = 'asm sideeffect "", "~{memory}"()'
MARKER = re.compile(r"load volatile i8, ptr @static\.\d+, align 1$")


def text_by(clang: Path, words: list[str]) -> str:
    """The text of a module that clang makes."""
    done = subprocess.run([str(clang), *TARGET, *words, "-o", "-"], capture_output=True, text=True)
    if done.returncode:
        raise ValueError(f"clang can't read a module: {done.stderr}")
    return done.stdout


def bare(name: str) -> str:
    """A name without its quotes."""
    return name.strip('"')


def references(text: str) -> set[str]:
    """The functions and the static values that a text names."""
    return {bare(it) for it in REFERENCE.findall(text)}


def reached(edges: Mapping[str, Iterable[str]], starts: Iterable[str]) -> set[str]:
    """What is reached over edges, with the starts."""
    seen = set(starts)
    todo = list(seen)
    while todo:
        for it in edges.get(todo.pop(), ()):
            if it not in seen:
                seen.add(it)
                todo.append(it)
    return seen


@dataclass(frozen=True)
class Act:
    """What an instruction of a block does: kind `call`, and whom it calls, or another kind, and the instruction."""

    block: str
    kind: str
    name: str


def acts_of(block: str, line: str) -> list[Act]:
    """What a line of a block does, if it is a call, assembly, or an atomic or volatile instruction."""
    if CALL.match(line):
        if " asm " in line:
            return [] if BARRIER in line else [Act(block, "assembly", line)]
        callee = CALLEE.search(line)
        if not callee or not callee[1]:
            return [Act(block, "pointer", "a call through a pointer")]
        name = bare(callee[1])
        return [Act(block, "atomic" if re.match(r"llvm\..*\batomic\b", name) else "call", name)]
    unnamed = re.sub(r'"[^"]*"', '""', line)
    if found := ATOMIC.match(unnamed.replace(" volatile ", " ", 1)):
        what = found[1] or found[2] or f"atomicrmw {found[3]}"
        return [Act(block, "atomic", " ".join([what, *ORDER.findall(unnamed)]))]
    return [Act(block, "volatile", unnamed)] if " volatile " in unnamed and not MARKER.match(line) else []


class Function:
    """A function: its blocks by their labels, with the instructions of each, and the blocks that follow each."""

    def __init__(self, name: str, text: str) -> None:
        self.name, self.text = name, text
        self.blocks: dict[str, list[str]] = {}
        lines = self.blocks.setdefault("", [])
        for line in text.split("\n")[1:]:
            if label := LABEL.match(line):
                lines = self.blocks.setdefault(bare(label[1]), [])
            elif line.strip() not in ("", "}"):
                lines.append(RESULT.sub("", line.strip()))
        self.blocks = {block: lines for block, lines in self.blocks.items() if lines}
        self.acts = [act for block, lines in self.blocks.items() for line in lines for act in acts_of(block, line)]

    @cached_property
    def next(self) -> dict[str, set[str]]:
        targets = {block: GOES_TO.findall("\n".join(lines)) for block, lines in self.blocks.items()}
        return {block: {bare(it) for it in found} for block, found in targets.items()}

    def loop(self, block: str) -> frozenset[str]:
        """The blocks that a block reaches and that reach it: none if it isn't in a loop."""
        return self._loops[block]

    @cached_property
    def _loops(self) -> dict[str, frozenset[str]]:
        after = {block: reached(self.next, self.next[block]) for block in self.blocks}
        return {block: frozenset(it for it in after[block] if block in after[it]) for block in self.blocks}


class Module:
    """A module: its functions, and what it declares only."""

    def __init__(self, text: str) -> None:
        self.text = text
        starts = [(it.start(), bare(it[1])) for it in DEFINED.finditer(text)]
        self.functions = {name: Function(name, text[at : text.index("\n}\n", at) + 3]) for at, name in starts}
        if len(self.functions) != len(re.findall(r"^define\b", text, re.MULTILINE)):
            raise ValueError("a function of a module wasn't read")
        declared = re.findall(rf"^declare [^\n]*?{NAME}\(", text, re.MULTILINE)
        self.foreign = {bare(it) for it in declared if not it.startswith("llvm.")}

    @classmethod
    def of_file(cls, path: Path, clang: Path) -> Module:
        """The module of a file, LLVM's code (.bc) or its text (.ll)."""
        if path.suffix == ".ll":
            return cls(path.read_text())
        return cls(text_by(clang, [str(path), "-Xclang", "-disable-llvm-passes"]))

    @cached_property
    def calls(self) -> dict[str, set[str]]:
        """Whom each function calls. A call through a pointer may reach each function whose address is used."""
        found = {it.name: {act.name for act in it.acts if act.kind == "call"} for it in self.functions.values()}
        for it in self.functions.values():
            if any(act.kind == "pointer" for act in it.acts):
                found[it.name] |= self.pointed
        return found

    @cached_property
    def pointed(self) -> set[str]:
        """The functions whose address is used."""
        values = [line.partition("=")[2] for line in self.text.split("\n") if line.startswith("@")]
        lines = [line for it in self.functions.values() for some in it.blocks.values() for line in some]
        uses = [line[found.end() :] if CALL.match(line) and (found := CALLEE.search(line)) else line for line in lines]
        return references("\n".join([*values, *uses])) & (set(self.functions) | self.foreign)

    @cached_property
    def callers(self) -> dict[str, set[str]]:
        above: dict[str, set[str]] = {}
        for name, callees in self.calls.items():
            for it in callees:
                above.setdefault(it, set()).add(name)
        return above

    def reaching(self, names: Iterable[str]) -> set[str]:
        """These functions, and those from which a call leads to one of them."""
        return reached(self.callers, names)

    def part(self, *names: str) -> str:
        """The text of a module of these functions, which it exports, and of those that they name."""
        texts = {it: self.functions[it].text for it in reached(self._names, names) if it in self.functions}
        texts |= {it: texts[it].replace("define internal", "define", 1) for it in names}
        used = references("\n".join(texts.values()))
        rest = [line for name, line in self._outside if not name or name in used]
        return "\n".join([*rest, *texts.values(), ""])

    def whole(self, name: str, clang: Path) -> tuple[Module, Function]:
        """A function after clang has inlined what it calls and unrolled its loops, in the module of what is left."""
        with tempfile.NamedTemporaryFile("w", suffix=".ll") as file:
            file.write(self.part(name))
            file.flush()
            made = Module(text_by(clang, [file.name, *WHOLE]))
        return made, made.functions[name]

    def alone(self, name: str, clang: Path) -> list[str]:
        """The instructions of a function, with its values in registers, and nothing of what it calls."""
        own = self.functions[name].text
        used = references(own) - {name}
        called = [self.functions[it].text.partition("\n")[0] for it in used & set(self.functions)]
        heads = [re.sub(r"^define (?:internal )?", "declare ", it.removesuffix(" {")) for it in called]
        rest = [line for it, line in self._outside if not it or it in used]
        with tempfile.NamedTemporaryFile("w", suffix=".ll") as file:
            file.write("\n".join([*rest, *heads, own.replace("define internal", "define", 1), ""]))
            file.flush()
            made = Module(text_by(clang, [file.name, "-O1"]))
        return [line.strip() for line in made.functions[name].text.split("\n")[1:] if line.startswith("  ")]

    @cached_property
    def _outside(self) -> list[tuple[str, str]]:
        """The lines outside of functions, each with what it declares, if anything."""
        lines = re.findall(r"^(?:attributes|target|[!%@]|declare ).*", self.text, re.MULTILINE)
        declared = [REFERENCE.search(line) if line.startswith(("@", "declare ")) else None for line in lines]
        return [(bare(found[1]) if found else "", line) for found, line in zip(declared, lines)]

    @cached_property
    def _names(self) -> dict[str, set[str]]:
        return {it.name: references(it.text) for it in self.functions.values()}


# More ways through a function than this are not told apart.
MOST_WAYS = 64


def ways(module: Module, function: Function) -> list[str]:
    """The atomic instructions along each way through a function, in order; those of a loop once, as loop[..]."""
    other = {it.name for it in module.functions.values() if any(act.kind != "call" for act in it.acts)}
    steps = module.reaching(other)
    done: dict[str, list[str]] = {block: [] for block in function.blocks}
    for act in function.acts:
        if act.kind != "call":
            done[act.block].append(act.name.split()[0] if act.kind == "atomic" else act.kind)
        elif act.name in steps:
            done[act.block].append(f"call {act.name}")
    known: dict[frozenset[str], set[tuple[str, ...]]] = {}

    def ways_from(block: str) -> set[tuple[str, ...]]:
        loop = function.loop(block)
        part = loop or frozenset([block])
        if part not in known:
            here = [step for it in function.blocks if it in part for step in done[it]]
            first = (f"loop[{' '.join(here)}]",) if loop and here else tuple(here)
            ends = any(line.startswith("ret ") for it in part for line in function.blocks[it])
            rest: set[tuple[str, ...]] = {()} if ends else set()
            for it in sorted({after for one in part for after in function.next[one]} - part):
                rest |= ways_from(it)
            if len(rest) > MOST_WAYS:
                rest = {(f"more than {MOST_WAYS} ways",)}
            known[part] = {(*first, *some) for some in rest}
        return known[part]

    return sorted(in_short(it) or "none" for it in ways_from(next(iter(function.blocks))))


def in_short(steps: tuple[str, ...]) -> str:
    """Steps as words, with the number of equal ones in a row."""
    words: list[tuple[str, int]] = []
    for step in steps:
        if words and words[-1][0] == step:
            words[-1] = (step, words[-1][1] + 1)
        else:
            words.append((step, 1))
    return " ".join(f"{step} x{number}" if number > 1 else step for step, number in words)
