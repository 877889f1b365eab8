"""What can go wrong in a session with a debug adapter, and after it."""
from __future__ import annotations

import signal
from typing import Any, Dict


class SessionError(Exception):
    """Something went wrong in a session. `trace` is the path of its trace, and `report` has further lines."""

    trace: str = ""
    report: str = ""

    @property
    def cause(self) -> str:
        """What went wrong, in a line."""
        return super().__str__()

    def __str__(self) -> str:
        return f"{self.cause}\n{self.report}" if self.report else self.cause


class NotStarted(SessionError):
    """The adapter does not start, or does not listen in time."""


class TimedOut(SessionError):
    """A response or an event did not arrive in time, or the adapter did not end in time."""


class AdapterEnded(SessionError):
    """The adapter ended before the response or the event that the session waits for."""


class AdapterFailed(SessionError):
    """The adapter ended after the session with a status that is not expected, or by a signal."""

    def __init__(self, text: str, status: int) -> None:
        super().__init__(text)
        self.status = status


class BadMessage(SessionError):
    """The adapter sent bytes that are not a message."""


class RequestFailed(SessionError):
    """The response to a request has no success. `message` is the adapter's message, and `response` the whole response."""

    def __init__(self, text: str, response: Dict[str, Any]) -> None:
        super().__init__(text)
        self.response = response
        self.command = str(response.get("command"))
        self.message = str(response.get("message") or "")


class GoldenFailed(AssertionError):
    """The session differs from its golden file, or `dapnorm` rejects it. `status` is that of `dapnorm golden`."""

    def __init__(self, text: str, status: int) -> None:
        super().__init__(text)
        self.status = status


class ProgramMissing(GoldenFailed):
    """The program `dapnorm` is not found, so nothing was compared."""


def described(status: int) -> str:
    """The end of a process in words. A shell gives 128 and the number of the signal that killed its program."""
    number = -status if status < 0 else status - 128
    name = signal.strsignal(number) if 0 < number < signal.NSIG else None
    if name is None:
        return f"ended with status {status}"
    return f"ended with status {status} ({name})"
