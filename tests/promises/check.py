#!/usr/bin/env python3
"""Compares the promised lines with those of a program, and with those that the independent reader computes from
docs/FORMATS.md and docs/DEFINITIONS.md alone: tests/promises/check.py PROGRAM

It needs nothing but Python 3.10, so it runs in a release, too. It prints a line for each difference, and last
'N passed, M failed', and ends in that status."""
from __future__ import annotations

import subprocess
import sys
from collections.abc import Callable
from pathlib import Path

sys.path.insert(0, str(Path(__file__).resolve().parents[2]))
from tests.cases.case_files import ANY_TEXT, Case  # noqa: E402
from tests.independent.runs import Answer, answer  # noqa: E402
from tests.promises.compare import difference  # noqa: E402
from tests.promises.promised import own_cases  # noqa: E402

SECONDS = 600


def wrong_in(case: Case, got: Answer) -> str:
    """How an answer differs from a case, if it does. The reader gives no words of a reason that FORMATS has none of."""
    said = difference(case.printed, got.printed)
    if not said and case.complained != ANY_TEXT and got.reason is not None:
        said = difference(case.complained, got.reason)
    if not said and case.complained == ANY_TEXT and got.reason == b"":
        said = "there is no reason on standard error"
    return said or ("" if got.status == case.status else f"status {case.status} is promised, and it is {got.status}")


def of_program(case: Case, program: Path) -> Answer:
    ran = subprocess.run([str(program), *case.words], input=case.given, capture_output=True, timeout=SECONDS)
    return Answer(ran.stdout, ran.stderr, ran.returncode)


def of_reader(case: Case) -> Answer:
    return answer(tuple(case.words), case.given, True)


def main() -> int:
    program = Path(sys.argv[1]).resolve()
    answers: dict[str, Callable[[Case], Answer]] = {str(program): lambda it: of_program(it, program)}
    answers["the independent reader"] = of_reader
    passed = failed = 0
    for case in own_cases():
        for who, found in answers.items():
            wrong = wrong_in(case, found(case))
            passed, failed = passed + (not wrong), failed + bool(wrong)
            if wrong:
                print(f"{case.name}, {who}: {wrong}")
    print(f"{passed} passed, {failed} failed")
    return 1 if failed or not passed else 0


if __name__ == "__main__":
    sys.exit(main())
