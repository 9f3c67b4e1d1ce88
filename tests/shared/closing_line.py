"""A plugin of pytest: at the end of a report what tests said of their inputs, and last the line that the gate adds up.

A test says something by pytest's `record_property`. A test that is skipped or expected to fail has failed, and so has a
run without tests."""
from __future__ import annotations

import pytest
from _pytest.terminal import TerminalReporter

FAILED = ["failed", "error", "skipped", "xfailed", "xpassed"]


def reporter_of(config: pytest.Config) -> TerminalReporter | None:
    """The reporter, which the workers of a run in several processes don't have."""
    reporter = config.pluginmanager.get_plugin("terminalreporter")
    return reporter if isinstance(reporter, TerminalReporter) else None


def counts(reporter: TerminalReporter, is_well: bool) -> tuple[int, int]:
    """How many tests passed and failed."""
    passed, failed = len(reporter.stats.get("passed", [])), sum(len(reporter.stats.get(it, [])) for it in FAILED)
    return passed, failed or int(not is_well or not passed)


def pytest_sessionfinish(session: pytest.Session) -> None:
    reporter = reporter_of(session.config)
    if reporter and counts(reporter, session.exitstatus == pytest.ExitCode.OK)[1]:
        session.exitstatus = session.exitstatus or pytest.ExitCode.TESTS_FAILED


def pytest_terminal_summary(terminalreporter: TerminalReporter) -> None:
    for report in terminalreporter.stats.get("passed", []) + terminalreporter.stats.get("failed", []):
        for name, value in report.user_properties:
            terminalreporter.write_line(f"{report.nodeid}: {name}: {value}")


def pytest_unconfigure(config: pytest.Config) -> None:
    reporter = reporter_of(config)
    if reporter and (session := reporter._session):
        passed, failed = counts(reporter, session.exitstatus == pytest.ExitCode.OK)
        reporter.write_line(f"{passed} passed, {failed} failed")
    elif reporter:
        reporter.write_line("0 passed, 1 failed")
