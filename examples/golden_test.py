"""A golden test with debugpy: `pytest golden_test.py`, or without pytest `python3 golden_test.py`. Copy it, and write your session."""
import os
import sys

import dapnorm

HERE = os.path.dirname(os.path.abspath(__file__))
PROGRAM, ADAPTER = os.path.join(HERE, "program.py"), os.environ.get("ADAPTER", "python3 -m debugpy.adapter")


def test_a_breakpoint(dap_session):
    with dap_session(ADAPTER, golden="session.golden.yaml", rules="session.rules") as adapter:
        adapter.request("initialize", adapterID="debugpy")
        launch = adapter.send("launch", program=PROGRAM)
        adapter.wait_for("initialized")
        adapter.request("setBreakpoints", source={"path": PROGRAM}, breakpoints=[{"line": 8}])
        adapter.request("configurationDone")
        adapter.response(launch)
        thread = adapter.wait_for("stopped", reason="breakpoint")["threadId"]
        frame = adapter.request("stackTrace", threadId=thread)["stackFrames"][0]
        for scope in adapter.request("scopes", frameId=frame["id"])["scopes"]:
            adapter.request("variables", variablesReference=scope["variablesReference"])
        adapter.request("continue", threadId=thread)
        adapter.wait_for("terminated")
        adapter.request("disconnect")


if __name__ == "__main__":
    sys.exit(dapnorm.main([__file__]))
