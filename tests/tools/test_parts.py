"""tools/part, which judges the parts of the gate, and tools/install, with stub programs in a folder that comes first on
the PATH."""
from __future__ import annotations

import re
import subprocess
from pathlib import Path

import pytest

from tests.shared.commands import TOP

ROWS = [it.split(":") for it in (TOP / "tools" / "packages.txt").read_text().splitlines() if not it.startswith("#")]
LANDING = [words.split() for parts, words in ROWS if not parts.startswith("deep ")]
PACKAGES = sorted({word.rpartition("=")[2] for words in LANDING for word in words})
# The system's programs that the scripts call. A stub may stand for one.
SYSTEM = "awk bash cat cp dirname grep head mkdir sort tail tee tr".split()


class Stubbed:
    """A copy of the tools, with the programs that they call."""

    def __init__(self, folder: Path) -> None:
        self.programs, self.top = folder / "bin", folder / "top"
        self.programs.mkdir()
        for name in SYSTEM:
            (self.programs / name).symlink_to(Path("/usr/bin", name))
        (self.top / "tools").mkdir(parents=True)
        for name in ("install", "packages.txt", "part"):
            (self.top / "tools" / name).symlink_to(TOP / "tools" / name)
        self.stub(dpkg_query=f"cat {self.top}/installed")
        self.hide()

    def stub(self, **programs: str) -> None:
        """Puts programs on the PATH, each a line of shell."""
        for name, line in programs.items():
            file = self.programs / name.replace("_", "-")
            file.write_text(f"#!/bin/bash\n{line}\n")
            file.chmod(0o755)

    def hide(self, *packages: str) -> None:
        """Has dpkg-query say that all packages are installed but these."""
        lines = [f"{it} install ok installed\n" for it in PACKAGES if it not in packages]
        (self.top / "installed").write_text("".join(lines))

    def ran(self, name: str, *words: str, **more: str) -> tuple[int, str]:
        """The status and the output of a tool."""
        environment = {"PATH": str(self.programs), **more}
        done = subprocess.run([self.top / "tools" / name, *words], env=environment, capture_output=True, text=True)
        assert not done.stderr
        return done.returncode, done.stdout

    def judged(self, *lines: str, status: int = 0, **more: str) -> tuple[int, str]:
        """What tools/part says of a part that prints lines and ends in a status."""
        printed = "\n".join(lines)
        self.stub(tests=f"cat <<'END'\n{printed}\nEND\nexit {status}")
        return self.ran("part", "compilers", "tests", **more)


@pytest.fixture
def stubbed(tmp_path: Path) -> Stubbed:
    return Stubbed(tmp_path)


def test_a_part_passes_by_its_last_line(stubbed: Stubbed) -> None:
    # Catches: a part that fails though it passed, and output that isn't kept.
    assert stubbed.judged("one: passed", "1 passed, 0 failed") == (0, "one: passed\n1 passed, 0 failed\n")
    assert (stubbed.top / "out" / "results" / "compilers").read_text() == "one: passed\n1 passed, 0 failed\n"


@pytest.mark.parametrize("printed", ["0 passed, 0 failed", "", "one: passed", "1 passed, 0 failed\nand more"])
def test_a_part_that_ran_no_test_fails(stubbed: Stubbed, printed: str) -> None:
    # Catches: a part that is green since all of it was left out, or since it ended before its tests.
    status, said = stubbed.judged(printed)
    assert (status, said.splitlines()[-1]) == (1, "0 passed, 1 failed")


def test_a_part_fails_by_its_status_or_its_last_line(stubbed: Stubbed) -> None:
    # Catches: a part that is green though a test of it failed, or its command did.
    assert stubbed.judged("2 passed, 1 failed") == (1, "2 passed, 1 failed\n")
    assert stubbed.judged("2 passed, 1 failed", status=1)[0] == 1
    assert stubbed.judged("2 passed, 0 failed", status=3) == (1, "2 passed, 0 failed\n2 passed, 1 failed\n")


def test_a_part_of_node_is_counted(stubbed: Stubbed) -> None:
    # Catches: tests of Node's runner that failed or were left out, and count as passed.
    said = [f"# {it}" for it in ("pass 5", "fail 0", "cancelled 0", "skipped 0", "todo 0")]
    assert stubbed.judged(*said) == (0, "\n".join([*said, "5 passed, 0 failed\n"]))
    for at in range(1, 5):
        wrong = [*said[:at], said[at].replace("0", "2"), *said[at + 1 :]]
        assert stubbed.judged(*wrong) == (1, "\n".join([*wrong, "5 passed, 2 failed\n"]))


def test_a_part_without_its_packages_fails(stubbed: Stubbed) -> None:
    # Catches: a part that leaves out what it has no tool for, and is green, or that says so a thousand times.
    stubbed.hide("wine64", "g++")
    needs = "tools/install: missing packages of Debian: g++ wine64 (tools/install compilers installs them)\n"
    assert stubbed.judged("5 passed, 0 failed") == (1, needs + "0 passed, 1 failed\n")


def test_the_deep_gate_asks_for_more(stubbed: Stubbed) -> None:
    # Catches: a part of the deep gate that leaves out what only it needs, and a gate that asks for it.
    stubbed.hide("wine64")
    stubbed.stub(tests="echo 1 passed, 0 failed")
    assert stubbed.ran("part", "python", "tests")[0] == 0
    assert stubbed.ran("part", "python", "tests", DEEP="1")[0] == 1


def test_each_part_has_its_packages_listed() -> None:
    # Catches: a part of which nobody says what it needs, so that nothing fails where that is missing.
    text = (TOP / "Makefile").read_text()
    groups = dict(re.findall(r"^(FIRST|UNPROVED|PROVED|DEEPER|CHECKS) +:= (.*)$", text, re.MULTILINE))
    parts = [it for name in ("FIRST", "UNPROVED", "PROVED", "DEEPER") for it in groups[name].split()]
    listed = {part for parts_of_row, _ in ROWS for part in parts_of_row.split()}
    assert len(parts) == len({*parts}) > 20
    assert {*parts} - listed == {"prove"}
    assert {*groups["CHECKS"].split()} <= {*parts}


def test_parts_are_added_up(stubbed: Stubbed) -> None:
    # Catches: a gate that is green though a part ran no test, didn't run, or failed.
    stubbed.stub(good="echo 3 passed, 0 failed", bad="echo FAILED one; echo 2 passed, 1 failed", empty="true")
    for name in ("good", "bad", "empty"):
        stubbed.ran("part", name, name)
    for parts, status, line in [
        ("good", 0, "3 passed, 0 failed"),
        ("good empty absent", 1, "3 passed, 2 failed"),
        ("bad good", 1, "5 passed, 1 failed"),
        ("absent", 1, "0 passed, 1 failed"),
    ]:
        found, said = stubbed.ran("part", "--sum", *parts.split(), NOTE="and more")
        assert (found, said.splitlines()[-2:]) == (status, ["and more", line])
        # What failed is said again at the end, where a long output may be cut.
        assert said.count("FAILED one") == parts.count("bad")


@pytest.mark.parametrize("words", ["", "--check", "--check compilers"])
def test_it_says_nothing_where_all_is_there(stubbed: Stubbed, words: str) -> None:
    # Catches: a package that is installed and counts as missing.
    assert stubbed.ran("install", *words.split()) == (0, "")


def test_each_missing_package_is_named(stubbed: Stubbed) -> None:
    # Catches: a missing package of which nobody hears.
    stubbed.hide(*PACKAGES)
    status, said = stubbed.ran("install", "--check")
    assert said == f"tools/install: missing packages of Debian: {' '.join(PACKAGES)} (tools/install installs them)\n"
    assert status == 1


def test_a_package_is_missed_by_the_parts_that_need_it(stubbed: Stubbed) -> None:
    # Catches: a part that needs a package, and passes without it, and one that fails for a package of another.
    stubbed.hide("valgrind")
    assert stubbed.ran("install", "--check", "compilers", "regis") == (0, "")
    assert stubbed.ran("install", "--check", "compilers", "register")[0] == 1


@pytest.mark.parametrize("part, missing", [("deep", r".*\bcoq .*\binkscape .*"), ("second", "coq ")])
def test_the_deep_gate_alone_misses_coq(stubbed: Stubbed, part: str, missing: str) -> None:
    # Catches: a gate that installs, or fails without, a large package that only the deep gate needs.
    assert stubbed.ran("install", "--check") == (0, "")
    status, said = stubbed.ran("install", "--check", part)
    why = rf"tools/install: missing packages of Debian: {missing}\(tools/install {part} installs them\)\n"
    assert status == 1 and re.fullmatch(why, said)


def test_a_command_stands_for_its_package(stubbed: Stubbed) -> None:
    # Catches: a program that is there, but not from Debian, and counts as missing.
    stubbed.hide("nodejs")
    assert stubbed.ran("install", "--check", "targets")[0] == 1
    stubbed.stub(node="true")
    assert stubbed.ran("install", "--check", "targets") == (0, "")


def test_it_says_what_it_installs_or_why_not(stubbed: Stubbed) -> None:
    # Catches: an installation that nobody was asked for, or that fails and ends as if it hadn't.
    (stubbed.top / "installed").rename(stubbed.top / "all")
    stubbed.hide("chromium")
    why = "tools/install: chromium can't be installed: "
    assert stubbed.ran("install") == (1, f"{why}there is no apt-get here\n")
    stubbed.stub(timeout='shift; exec "$@"', id="echo 1000", apt_get="false")
    assert stubbed.ran("install") == (1, f"{why}it needs root: apt-get install --no-install-recommends chromium\n")
    stubbed.stub(id="echo 0")
    plan = "tools/install: installs chromium, and what they need\n"
    for line, planned, said in [
        ("false", "", "apt-get update didn't end well; is there a network?"),
        ('[[ "$*" != *install* ]]', plan, "apt-get install didn't end well; is there a network?"),
        ("exit 0", plan, "apt-get install left them out"),
    ]:
        stubbed.stub(apt_get=line)
        assert stubbed.ran("install") == (1, f"{planned}{why}{said}\n")
    size = "After this operation, 9 MB of additional disk space will be used."
    stubbed.stub(apt_get=f'[[ "$*" == *--assume-no* ]] && echo "{size}" && exit 1; cp {stubbed.top}/{{all,installed}}')
    assert stubbed.ran("install") == (0, f"{plan}{size}\n")
    assert stubbed.ran("install") == (0, "")
