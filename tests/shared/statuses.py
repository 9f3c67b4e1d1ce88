"""How a command ends where it can't print, or has nothing to read: one table for the commands of all languages.

    python3 -m tests.shared.statuses [--node] FILE WORD..

The command WORD.. prints something for the bytes of FILE on standard input, its help for --help, and a version. Prints
a line for each row, and last 'N passed, M failed'. Node opens /dev/null in place of a closed stream, which no program
of Node can see: with --node these rows are left out."""
from __future__ import annotations

import os
import subprocess
import sys
import tempfile
from pathlib import Path

from tests.shared.commands import SECONDS, Ended, Words

# What the shell does with standard output, of which nothing can be printed, and with standard input.
OUTPUTS = {"closed": ">&-", "full": ">/dev/full", "read-only": "1</dev/null", "without a reader": ""}
INPUTS = {"closed": "<&-", "empty": "</dev/null", "a folder": "</"}


def directed(words: Words, given: bytes = b"", redirection: str = "") -> Ended:
    """How a command ends with its streams redirected by the shell, or, without a word for it, printing to a pipe whose
    reader has gone."""
    reader, output = os.pipe()
    os.close(reader)
    with tempfile.TemporaryFile() as file, tempfile.TemporaryDirectory() as folder:
        file.write(given)
        file.seek(0)
        run = ["bash", "-c", f'exec "$@" {redirection}', "bash", *words]
        done = subprocess.run(run, stdin=file, stdout=output, stderr=subprocess.PIPE, cwd=folder, timeout=SECONDS)
        left = [it.name for it in Path(folder).iterdir()]
    os.close(output)
    return Ended(done.returncode, " ".join(left).encode(), done.stderr)


def faults(words: Words, given: bytes, is_node: bool = False) -> dict[str, str]:
    """What is wrong in each row: it must end with 1 and a reason, leave no file, and print its help with status 0."""
    rows = {f"standard output {name}": (words, given, it, 1) for name, it in OUTPUTS.items()}
    rows["as usual"] = (words, given, "2>/dev/null >/dev/null", 0)
    rows |= {f"standard input {name}": (words, b"", it + " >/dev/null", 1) for name, it in INPUTS.items()}
    if "-" in words:
        named = {"a missing file": "absent.csv", "a named folder": "/"}
        rows |= {name: ([file if it == "-" else it for it in words], b"", "", 1) for name, file in named.items()}
    for word in ("--help", "--version"):
        command = [it for it in words if it not in ("replay", "-", "out")]
        rows |= {f"{word}, {name}": ([*command, word], b"", it, 0) for name, it in OUTPUTS.items()}
    found = {}
    for name, (command, data, redirection, status) in rows.items():
        if is_node and "closed" in name and status:
            continue
        done = directed(command, data, redirection)
        is_well = done.status == status and bool(done.complaint) >= bool(status) and (not status or not done.output)
        why = done.complaint.decode(errors="replace").strip().splitlines()[-1:]
        said = f"status {done.status}, {done.output!r}, {why}"
        found[name] = "" if is_well and b"Traceback" not in done.complaint else said
    return found


def main() -> int:
    is_node = sys.argv[1] == "--node"
    file, *words = sys.argv[1 + is_node :]
    found = faults(words, Path(file).read_bytes(), is_node)
    for name, fault in found.items():
        print(f"{name}: {fault or 'passed'}")
    failed = sum(map(bool, found.values()))
    print(f"{len(found) - failed} passed, {failed} failed")
    return failed > 0


if __name__ == "__main__":
    sys.exit(main())
