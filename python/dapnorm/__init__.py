"""Golden tests of debug adapters.

    def test_a_breakpoint(dap_session):                      # a fixture of the plugin for pytest
        with dap_session("my-adapter", golden="a.golden.yaml", rules="my.rules") as adapter:
            adapter.request("initialize", adapterID="mine")
            ..
            adapter.request("disconnect")

Without pytest `golden_session` does the same. `python3 -m dapnorm FILE` runs such tests without pytest.
"""
from .client import Adapter, Body, Handler, free_port
from .errors import (
    AdapterEnded, AdapterFailed, BadMessage, GoldenFailed, NotStarted, ProgramMissing, RequestFailed, SessionError, TimedOut,
)
from .frames import Message
from .golden import DapSession, golden, golden_session
from .runner import main

__version__ = "0.1.0"
__all__ = [
    "Adapter", "AdapterEnded", "AdapterFailed", "BadMessage", "Body", "DapSession", "GoldenFailed", "Handler", "Message", "NotStarted",
    "ProgramMissing", "RequestFailed", "SessionError", "TimedOut", "free_port", "golden", "golden_session", "main",
]
