"""The commands board-study, board-figures and board-recount: their files, and what they refuse."""
from __future__ import annotations

import csv
import json
import os
import re
import subprocess
import sys
from dataclasses import replace
from hashlib import sha256
from pathlib import Path

import pytest

from tests.shared.statuses import directed, faults
from voting_board import MAJORITIES, indices, replay_text
from voting_board.amounts import BadStudy
from voting_board.files import HalfWritten, csv_text, place_of, plain_cell, write_files
from voting_board.study_files import START, empty_page

EXAMPLES = Path(__file__).resolve().parents[3] / "examples"
ROWS = ["AAA,</script>,40,1,=cmd|' /C calc'!A0", "BBB,B #2,25,2,", "CCC,C,16,2,", "DDD,D,9,,"]
TABLE = "\n".join(["code,name,votes,chair,chair_name", *ROWS, ""])
SCENARIOS = ["More: votes,AAA,+12.5%; move,DDD,2", "Both: votes,BBB+CCC,30% of total; open,3; move,AAA,3; suspend,AAA"]
SWEEPS = ["from More: AAA 10..20 by 10 %", "chair 2 10..20 by 2.5 %"]


def ran(command: str, *words: object, given: bytes = b"") -> subprocess.CompletedProcess[bytes]:
    code = [sys.executable, "-m", f"voting_board.{command}_command", *map(str, words)]
    return subprocess.run(code, input=given, capture_output=True, timeout=600)


def good(command: str, *words: object, given: bytes = b"") -> list[str]:
    done = ran(command, *words, given=given)
    assert done.returncode == 0, done.stderr.decode()
    return done.stdout.decode().splitlines()


@pytest.fixture()
def table(tmp_path: Path) -> Path:
    path = tmp_path / "members.csv"
    path.write_text(TABLE)
    return path


def arguments() -> list[str]:
    return [f"--scenario={it}" for it in SCENARIOS] + [f"--sweep={it}" for it in SWEEPS]


@pytest.mark.parametrize("word", ["--help", "--version"])
@pytest.mark.parametrize("command", ["study", "figures", "recount"])
def test_help(command: str, word: str) -> None:
    # Catches: a status that isn't 0, where help or the version is written and where it can't be.
    assert good(command, word)[0]
    with open("/dev/full", "wb") as full:
        code = [sys.executable, "-m", f"voting_board.{command}_command", word]
        done = subprocess.run(code, stdout=full, stderr=subprocess.PIPE)
    assert (done.returncode, done.stderr) == (0, b"")


@pytest.mark.parametrize(
    "command, given, words",
    [("study", "members.csv", ["out"]), ("recount", "three-chairs.csv", []), ("figures", "three-chairs.csv", ["out"])],
)
def test_statuses(command: str, given: str, words: list[str]) -> None:
    # Catches: status 0 where nothing was read or printed, a message that isn't true, and a traceback.
    code = [sys.executable, "-m", f"voting_board.{command}_command", "-", *words]
    found = faults(code, (EXAMPLES / given).read_bytes())
    # board-figures prints nothing.
    outputs = "standard output" if command == "figures" else "-"
    wrong = {name: it for name, it in found.items() if it and not name.startswith(outputs)}
    assert not wrong


@pytest.mark.parametrize("command", ["study", "figures", "recount"])
def test_wrong_command_line(command: str) -> None:
    # Catches: a command line that is rejected with status 0 where standard output can't be written.
    code = [sys.executable, "-m", f"voting_board.{command}_command", "--nonsense"]
    assert directed(code, redirection=">/dev/full").status == 2


def test_no_terminal_sequence(tmp_path: Path) -> None:
    # Catches: a name or a label by which a terminal is cleared, or shows another text than was printed.
    table = tmp_path / "members.csv"
    table.write_text("code,name,votes,chair,chair_name\nAAA,A,45,1,North\nBBB,B,30,2,South\x1b[2J\nCCC,C,20,3,East\n")
    said = "\n".join(good("study", table, "--scenario=a\x1b]0;b\x07: votes,BBB,99", tmp_path / "out"))
    assert "\x1b" not in said and "\x07" not in said
    assert "South\\x1b[2J" in said and "a\\x1b]0;b\\x07:" in said
    done = ran("study", table, "--scenario=a\x1b[2J: move,ZZZ,2", tmp_path / "other")
    assert done.returncode == 1 and b"a\\x1b[2J" in done.stderr and b"\x1b" not in done.stderr


def test_files_of_a_study(table: Path, tmp_path: Path) -> None:
    # Catches: provenance of another file, a path that tells where a file was, and a formula in a cell.
    before = {it: it.read_bytes() for it in tmp_path.iterdir()}
    said = good("study", table, *arguments(), f"--replay={tmp_path / 'it.csv'}", tmp_path / "out")
    assert [it for it in said if it.endswith(":")] == ["More:", "Both:", *(f"{it}:" for it in SWEEPS)]
    text, page, script = ((tmp_path / it).read_text() for it in ("out.csv", "out.html", "it.csv"))
    assert {it.name for it in tmp_path.iterdir()} == {"members.csv", "out.csv", "out.html", "it.csv"}
    assert table.read_bytes() == before[table]
    for wanted in (
        f"# table members.csv sha256 {sha256(TABLE.encode()).hexdigest()}",
        f"# script sha256 {sha256(script.encode()).hexdigest()}",
        f"# lines sha256 {sha256(replay_text(script)[0].encode()).hexdigest()}",
    ):
        assert wanted in text.splitlines()
    assert str(tmp_path) not in text + page + script and "--replay=it.csv" in text
    lines = [it for it in text.splitlines(keepends=True) if not it.startswith("# ")]
    names = {row["name"] for row in csv.DictReader(lines)}
    assert "'=cmd|' /C calc'!A0" in names and "B #2 and 1 more" in names and '"B #2 and 1 more"' in text


def test_page_of_a_study(table: Path, tmp_path: Path) -> None:
    # Catches: a page with another study, or one that a name breaks.
    good("study", table, *arguments(), "--at", "85,half", "--measure", "prevent", "--total", 90, tmp_path / "out")
    page, empty = (tmp_path / "out.html").read_text(), empty_page()
    start = empty.index(START) + len(START)
    assert page[:start] == empty[:start] and page.endswith(empty[start + len("null") :])
    text = page[start : len(page) - len(empty) + start + len("null")]
    assert "<" not in text
    data = json.loads(text)
    found = data["study"]
    assert (data["format"], found["name"], found["published"]) == ("board study 2", "members", 90)
    assert data["view"]["majorities"] == ["85", "half"] and data["view"]["measure"] == "prevent"
    assert found["base"]["names"]["AAA"] == "</script>" and found["base"]["hash"] == sha256(TABLE.encode()).hexdigest()
    assert found["base"]["script"].splitlines()[-1] == "move,CCC,2" and found["base"]["script"].endswith("\n")
    assert found["sweep"] == {
        "who": {"kind": "chair", "chair": 2},
        "on": "base",
        "unit": "percent",
        "from": "10",
        "to": "20",
        "by": "2.5",
    }
    assert [it["what"] for it in found["scenarios"][0]["changes"]] == [
        {"kind": "percent", "of": "own", "code": "AAA", "percent": "+12.5"},
        {"kind": "move", "code": "DDD", "chair": 2},
    ]
    assert [it["what"] for it in found["scenarios"][1]["changes"]] == [
        {"kind": "share", "codes": ["BBB", "CCC"], "percent": "30", "others": "keep"},
        {"kind": "open", "chair": 3},
        {"kind": "move", "code": "AAA", "chair": 3},
        {"kind": "suspend", "code": "AAA"},
    ]
    ids = [it["id"] for one in found["scenarios"] for it in one["changes"]]
    assert ids == list(range(1, 7))


def test_saved_study(table: Path, tmp_path: Path) -> None:
    # Catches: a study that opens with other scenarios, names or numbers than it was written with; a page, a file beside
    # it and a table that give three answers; a total that isn't looked at.
    group = "Group: share,BBB+CCC,+6 points,pay; merge,2,1; split,CCC+DDD,"
    words = [*(f"--scenario={it}" for it in [*SCENARIOS, group]), f"--sweep={SWEEPS[1]}"]
    good("study", table, *words, "--title", "Once", tmp_path / "out")
    page = (tmp_path / "out.html").read_text()
    saved = tmp_path / "it.study.json"
    saved.write_text(page.partition(START)[2].partition("</script>")[0])
    rows = [it for it in (tmp_path / "out.csv").read_text().splitlines() if not it.startswith("# ")]
    for name in (tmp_path / "out.html", saved):
        good("study", name, "--total", 90, tmp_path / "again")
        again = (tmp_path / "again.csv").read_text().splitlines()
        assert [it for it in again if not it.startswith("# ")] == rows
        data = (tmp_path / "again.html").read_text().partition('"study": ')[2].partition(', "view"')[0]
        assert data == page.partition('"study": ')[2].partition(', "view"')[0]
    done = ran("study", saved, "--total", 91, tmp_path / "none")
    assert done.returncode == 1 and b"the votes below add up to 90, and the published total is 91" in done.stderr


def test_second_table(table: Path, tmp_path: Path) -> None:
    # Catches: two tables with one name that are one scenario, a sentence that isn't said, and a study whose second
    # table is no longer there when it is read again.
    years = [tmp_path / "2030.csv", tmp_path / "other" / "2030.csv"]
    years[1].parent.mkdir()
    years[0].write_text(TABLE.replace("AAA,</script>,40", "AAA,</script>,45").replace("B #2", "Second"))
    years[1].write_text(TABLE.replace("DDD,D,9,,", "EEE,E,7,3,East"))
    good("study", table, "--at=85", *(f"--compare={it}" for it in years), tmp_path / "out")
    lines = (tmp_path / "out.csv").read_text().splitlines()
    for path in years:
        assert f"# second table 2030.csv sha256 {sha256(path.read_bytes()).hexdigest()}" in lines
    assert any("2030 2 is another table as changes" in it and "new: EEE E; gone: DDD D" in it for it in lines)
    assert any("No change says another name of a member" in it and "B #2 is Second" in it for it in lines)
    data = (tmp_path / "out.html").read_text().partition(START)[2].partition("</script>")[0]
    first, second = json.loads(data)["study"]["scenarios"]
    assert first["name"] == "2030" and [it["what"]["kind"] for it in first["changes"]] == ["votes"]
    assert [(it["what"]["kind"], it.get("name"), it.get("chairName")) for it in second["changes"]] == [
        ("withdraw", None, None),
        ("open", None, "East"),
        ("admit", "E", None),
        ("move", "E", None),
    ]
    good("study", tmp_path / "out.html", "--at=85", tmp_path / "again")
    assert [it for it in (tmp_path / "again.csv").read_text().splitlines() if it[:2] != "# "] == [
        it for it in lines if it[:2] != "# "
    ]
    years[0].write_text("code,votes\n")
    done = ran("study", table, f"--compare={years[0]}", tmp_path / "out")
    assert done.returncode == 1 and b"2030.csv: row 1: no column 'chair'" in done.stderr


@pytest.mark.parametrize(
    "words, said",
    [
        (["--scenario", "A: close,1"], "scenario 'A': refused 'close,1': ChairHasMembers (3)"),
        (["--total", "91"], "members.csv: row 1: the votes below add up to 90, and the published total is 91"),
        (["--scenarios", "lost.toml"], "lost.toml: No such file or directory"),
        (["--replay", "members.csv"], "two files would have the place of members.csv"),
        (["--replay", "lost/it.csv"], "lost/it.csv: there is no folder lost"),
        (["--replay", "folder"], "folder is there already and is no file"),
        (["--replay", "pipe"], "pipe is there already and is no file"),
        (["--replay", "notes.txt"], "notes.txt is there already and isn't such a file: choose another name"),
        (["--figures", "lost"], "--figures: there is no folder lost"),
    ],
)
def test_refused(table: Path, tmp_path: Path, words: list[str], said: str, monkeypatch: pytest.MonkeyPatch) -> None:
    # Catches: a traceback, a wait for a pipe, a foreign file that is replaced, and files of a study that is wrong.
    if "--figures" in words:
        pytest.importorskip("matplotlib")
    monkeypatch.chdir(tmp_path)
    (tmp_path / "folder").mkdir()
    os.mkfifo("pipe")
    Path("notes.txt").write_text("mine")
    before = sorted(tmp_path.iterdir())
    done = ran("study", "members.csv", *words, "out")
    lines = done.stderr.decode().splitlines()
    assert done.returncode == 1 and not done.stdout and lines[-1] == "board-study: nothing was written"
    assert any(it.startswith(f"board-study: {said}") for it in lines) and "Traceback" not in done.stderr.decode()
    assert sorted(tmp_path.iterdir()) == before and Path("notes.txt").read_text() == "mine"


@pytest.mark.parametrize("out", ["folder", "folder/", "", "."])
def test_no_name(table: Path, tmp_path: Path, out: str, monkeypatch: pytest.MonkeyPatch) -> None:
    monkeypatch.chdir(tmp_path)
    (tmp_path / "folder").mkdir()
    assert ran("study", "members.csv", out).returncode == 2 and not list((tmp_path / "folder").iterdir())


def test_table_that_is_not_clean(tmp_path: Path) -> None:
    # Catches: merged cells or a total that give another study, with status 0.
    for rows in ("AAA,4,1\nBBB,5,2\nCCC,7,\nDDD,8,3\n", "AAA,4,1\nBBB,5,2\nTOT,9,\n", 'AAA,"4,000",1\n'):
        done = ran("study", "-", tmp_path / "out", given=f"code,votes,chair\n{rows}".encode())
        assert done.returncode == 1 and re.search(rb"^board-study: -: row [2-4]: ", done.stderr, re.MULTILINE)
        assert not list(tmp_path.iterdir())


def test_files_take_their_places_together(tmp_path: Path, monkeypatch: pytest.MonkeyPatch) -> None:
    # Catches: half a file in a place, and a file of another program that is removed.
    one, other = tmp_path / "one", tmp_path / "other"
    one.write_text("before")
    foreign = tmp_path / f".{'00' * 8}.part"
    foreign.write_text("foreign")
    with monkeypatch.context() as patch, pytest.raises(FileExistsError):
        patch.setattr("os.urandom", bytes)
        write_files({one: b"after", other: b"after"})
    with pytest.raises(TypeError):
        write_files({one: b"after", other: "text"})  # type: ignore[dict-item]
    assert {it.name: it.read_text() for it in tmp_path.iterdir()} == {"one": "before", foreign.name: "foreign"}
    (tmp_path / "folder").mkdir()
    with pytest.raises(HalfWritten, match="folder: Is a directory; only these were written: other"):
        write_files({other: b"first", tmp_path / "folder": b"second"})
    assert other.read_text() == "first" and len([*tmp_path.glob(".*.part")]) == 1
    (tmp_path / "link").symlink_to(one)
    write_files({place_of(tmp_path / "link", "before"): b"after"})
    assert (tmp_path / "link").is_symlink() and one.read_text() == "after"
    with pytest.raises(BadStudy, match="isn't such a file"):
        place_of(one, "before")


def test_files_of_others(table: Path, tmp_path: Path, monkeypatch: pytest.MonkeyPatch) -> None:
    # Catches: a script or a table of the user's that is replaced, a changed mode, a wait for a pipe, and a traceback.
    monkeypatch.chdir(tmp_path)
    Path("mine.csv").write_text("member,votes\nAAA,1\nscript\n")
    Path("out.csv").write_text("scenario,mine\n")
    os.mkfifo("pipe")
    Path("circle.csv").symlink_to("circle.csv")
    for words, said in [
        (["members.csv", "--replay", "mine.csv", "new"], "mine.csv is there already with another script"),
        (["members.csv", "out"], "out.csv is there already and isn't such a file"),
        (["pipe", "new"], "pipe is no file; - is standard input"),
        (["/dev/zero", "new"], "/dev/zero is no file; - is standard input"),
        (["members.csv", "circle"], "circle.csv: its links lead in a circle"),
    ]:
        done = ran("study", *words)
        error = done.stderr.decode()
        assert done.returncode == 1 and said in error and "Traceback" not in error, error
    assert Path("mine.csv").read_text() == "member,votes\nAAA,1\nscript\n"
    Path("mine.csv").chmod(0o600)
    again = ["study", "members.csv", "--replay", "mine.csv", "--scenario", "a\x1b[2J: votes,AAA,41", "new"]
    assert ran(*again, "--force").returncode == 0
    done = ran(*again)
    assert done.returncode == 0 and b"\x1b" not in done.stdout + done.stderr and b"\\x1b" in done.stdout
    assert Path("mine.csv").stat().st_mode & 0o777 == 0o600


@pytest.mark.parametrize("text", ["A,=1,B", "A; =1", "A\t@x", 'A,"B', "A;＝1", "A,+1+2"])
def test_formulas_inside(text: str) -> None:
    # Catches: a formula behind a semicolon, a tab or a comma, in a cell or in a line of comments; a changed number.
    written = csv_text([text], ["name"], [[text]])
    assert not re.search("[,;\t] *[=@＝]", written) and "+1+" not in written.replace("'+1+", "")
    assert csv_text(["votes,AAA,+30%; votes,BBB,-5"], [], []) == "# votes,AAA,+30%; votes,BBB,-5\n\n"


@pytest.mark.parametrize("cell", ["=1", "+a", "-a", "@a", "\ta", "-1=2"])
def test_formulas(cell: str) -> None:
    assert plain_cell(cell) == f"'{cell}" and plain_cell(f"a{cell}") == f"a{cell}"
    assert plain_cell("-1.5") == "-1.5" and csv_text([], ["a"], [[cell]]).splitlines()[1].strip('"') == f"'{cell}"


def test_figures(table: Path, tmp_path: Path) -> None:
    # Catches: a figure without its title and source, or with another's name.
    pytest.importorskip("matplotlib")
    (tmp_path / "figures").mkdir()
    words = [*arguments(), "--at", "half", f"--figures={tmp_path}//figures/", tmp_path / "out"]
    good("study", table, *words)
    names = ["base", "scenario-1", "scenario-2", "sweep-1", "sweep-1-others-half", "sweep-2", "sweep-2-others-half"]
    found = sorted(it.name for it in (tmp_path / "figures").iterdir())
    assert found == sorted(f"out-{name}.{ending}" for name in names for ending in ("svg", "pdf"))
    text = (tmp_path / "figures/out-scenario-1.svg").read_text()
    assert "<dc:title>More: what is added to the base at half</dc:title>" in text and "lines sha256 " in text
    assert str(tmp_path) not in text
    good("study", table, *words)
    assert (tmp_path / "figures/out-scenario-1.svg").read_text() == text


def test_readings(tmp_path: Path) -> None:
    # Catches: a stale reading that isn't marked, and numbers of another reading.
    good("figures", EXAMPLES / "twenty-four-chairs.csv", tmp_path / "power")
    lines = [it for it in (tmp_path / "power.csv").read_text().splitlines() if not it.startswith("# ")]
    rows = list(csv.DictReader(lines))
    assert len(rows) == 72 and rows[0]["power_share_numerator"] == "319961" and rows[0]["quota"] == "656625"
    stale = b"member,votes\nAAA,5\nscript\nopen,1\nmove,AAA,1\npublish\nvotes,AAA,6\nread,1,half\n"
    good("figures", "-", tmp_path / "stale", given=stale)
    assert (tmp_path / "stale.csv").read_text().splitlines()[-1].startswith("1,1,2,1,half,1,3,5,5,1,2,1,,5,1,")
    done = ran("figures", "--strict", "-", tmp_path / "none", given=stale + b"open,1\n")
    assert done.returncode == 1 and not (tmp_path / "none.csv").exists()
    said = done.stderr.decode()
    assert "record 8: a stale reading" in said and "record 9: 'open,1' was refused: ChairOpen (1)" in said
    done = ran("figures", "-", tmp_path / "none", given=b"member,votes\nAAA\n")
    assert done.stderr.startswith(b"board-figures: record 2: BadRecord (17), a record is not well formed\n")


def test_recount() -> None:
    # Catches: a recount that agrees with anything.
    pytest.importorskip("numpy")
    from voting_board.recounts import differences_of

    script = "\n".join(good("recount", "--draw", 1, "--chairs", 18)).encode()
    said = good("recount", given=script + b"\n")
    assert len(said) == len(MAJORITIES) and all("quota, winning coalitions and all swings agree" in it for it in said)
    for majority in MAJORITIES:
        board = indices([9, 8, 7, 3, 2, 2], majority)
        assert differences_of(board) == []
        wrong = replace(board, swings=(*board.swings[:-1], board.swings[-1] + 1))
        assert len(differences_of(wrong)) == 1 and len(differences_of(replace(board, omega=board.omega + 1))) == 1
