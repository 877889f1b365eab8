"""The plugin for pytest: the fixture `dap_session` and the option `--dapnorm-update`."""
from __future__ import annotations

import os
from types import TracebackType
from typing import Any, Iterator, List, Optional, Type, Union

import pytest

from .channel import Command
from .client import Adapter
from .errors import GoldenFailed, SessionError
from .golden import Comparison, DapSession, GoldenSession
from .report import user_frames

# The results of all sessions of this run, for the summary at its end.
RESULTS: List[str] = []
# The tests that failed, with the first line of the cause.
CAUSES: List[str] = []


def pytest_addoption(parser: pytest.Parser) -> None:
    group = parser.getgroup("dapnorm", "golden tests of debug adapters")
    group.addoption("--dapnorm-update", action="store_true", help="write the golden files of the sessions that run (as UPDATE_GOLDEN=1 does)")


def pytest_configure(config: pytest.Config) -> None:
    if config.getoption("--dapnorm-update"):
        os.environ["UPDATE_GOLDEN"] = "1"


def pytest_runtest_makereport(item: pytest.Item, call: "pytest.CallInfo[None]") -> Optional[pytest.TestReport]:
    """Shows the message of an error of this package alone, so that its cause is in the first line."""
    if call.excinfo is None or not isinstance(call.excinfo.value, (SessionError, GoldenFailed)):
        return None
    error = call.excinfo.value
    if isinstance(error, SessionError) and not error.report:
        error.report = "\n".join(user_frames(call.excinfo.tb))
    report = pytest.TestReport.from_item_and_call(item, call)
    if report.failed:
        report.longrepr = call.excinfo.getrepr(style="value", chain=False)
        CAUSES.append(f"{item.nodeid}: {str(error).splitlines()[0]}")
    return report


class PytestSession(GoldenSession):
    """A session in a test of pytest."""

    node: pytest.Item

    def __exit__(self, kind: Optional[Type[BaseException]], error: Optional[BaseException], where: Optional[TracebackType]) -> None:
        try:
            super().__exit__(kind, error, where)
        finally:
            RESULTS.append(self.result or "failed")
        if isinstance(error, Exception) and not isinstance(error, SessionError):
            self.node.add_report_section("call", "dapnorm", self.report(error, None))


class PytestSessions(DapSession):
    """The fixture in a test of pytest."""

    def __init__(self, node: pytest.Item) -> None:
        super().__init__(os.path.dirname(str(node.path)))
        self._node = node

    def session(
        self, adapter: Union[Adapter, Command], comparison: Comparison, update: Optional[bool], timeout: Optional[float],
    ) -> GoldenSession:
        session = PytestSession(adapter, comparison, update, timeout)
        session.node = self._node
        return session


@pytest.fixture
def dap_session(request: pytest.FixtureRequest) -> Iterator[DapSession]:
    """A function that starts an adapter for a session with a golden file: `with dap_session(command, golden=..) as adapter:`."""
    sessions = PytestSessions(request.node)
    yield sessions
    sessions.finish()


def pytest_terminal_summary(terminalreporter: Any) -> None:
    if RESULTS:
        same, failed = RESULTS.count("same"), RESULTS.count("failed")
        count = "1 session" if len(RESULTS) == 1 else f"{len(RESULTS)} sessions"
        terminalreporter.write_line(f"dapnorm: {count}: {same} same, {failed} failed, {len(RESULTS) - same - failed} updated")
    for line in [*(it for it in RESULTS if it.startswith("wrote ")), *CAUSES]:
        terminalreporter.write_line(f"dapnorm: {line}")
