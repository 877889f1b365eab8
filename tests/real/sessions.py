"""Sessions with real adapters, each a list of requests that waits for all that it causes, so that each run has one order."""
import os
import shutil
import subprocess
import sys
import tempfile

REAL = os.path.dirname(os.path.abspath(__file__))
TOP = os.path.dirname(os.path.dirname(REAL))
PROGRAMS = os.path.join(REAL, "programs")
sys.path.insert(0, os.path.join(TOP, "python"))
import dapnorm

# Seconds for each response and event of a debugger, on a busy machine too.
PATIENCE = 5
HOST = "127.0.0.1"


def program(name):
    return os.path.join(PROGRAMS, name)


def line_of(name, text):
    """The number of the line of a program that has this text."""
    with open(program(name), encoding="utf-8") as file:
        return next(number for number, line in enumerate(file, 1) if text in line)


def looked_at(adapter, thread, levels=1):
    """Requests the stack, the scopes of its frames and their variables, one level deep. Returns the innermost frame."""
    frames = adapter.request("stackTrace", threadId=thread, startFrame=0, levels=levels)["stackFrames"]
    for frame in frames:
        for scope in adapter.request("scopes", frameId=frame["id"])["scopes"]:
            if "lobal" in scope["name"] or "Registers" in scope["name"]:
                continue
            for variable in adapter.request("variables", variablesReference=scope["variablesReference"])["variables"]:
                if variable["variablesReference"]:
                    adapter.request("variables", variablesReference=variable["variablesReference"])
    return frames[0]


def configured(adapter, name, text):
    """Sets a breakpoint at the line with this text, and lets the program run to it."""
    adapter.request("setBreakpoints", source={"path": program(name)}, breakpoints=[{"line": line_of(name, text)}])
    adapter.request("configurationDone")


def python_steps(adapter, **more):
    """debugpy: a breakpoint, a look at the objects, a step, an expression, and the end."""
    adapter.request("initialize", adapterID="debugpy", linesStartAt1=True, columnsStartAt1=True, supportsRunInTerminalRequest=True)
    launch = adapter.send("launch", program=program("prices.py"), cwd=PROGRAMS, **more)
    adapter.wait_for("initialized")
    configured(adapter, "prices.py", "result += price")
    adapter.response(launch)
    thread = adapter.wait_for("stopped", reason="breakpoint")["threadId"]
    adapter.request("threads")
    frame = looked_at(adapter, thread, 2)
    adapter.request("evaluate", expression="basket.prices['milk'] * 2", frameId=frame["id"], context="watch")
    adapter.request("setVariable", variablesReference=adapter.request("scopes", frameId=frame["id"])["scopes"][0]["variablesReference"], name="result", value="10")
    adapter.request("next", threadId=thread)
    adapter.wait_for("stopped", reason="step")
    looked_at(adapter, thread)
    adapter.request("setBreakpoints", source={"path": program("prices.py")}, breakpoints=[])
    adapter.request("continue", threadId=thread)
    adapter.wait_for("terminated")
    adapter.request("disconnect")


def debugpy():
    adapter = dapnorm.Adapter.start([python_with_debugpy(), "-m", "debugpy.adapter"], timeout=PATIENCE)
    return adapter, lambda: python_steps(adapter, console="internalConsole")


def debugpy_terminal():
    """The same, with a program that the client starts for debugpy, by `runInTerminal`."""
    adapter = dapnorm.Adapter.start([python_with_debugpy(), "-m", "debugpy.adapter"], timeout=PATIENCE)
    adapter.handlers["runInTerminal"] = adapter.run_in_terminal
    return adapter, lambda: python_steps(adapter, console="integratedTerminal")


def native_steps(adapter, path):
    """lldb: a breakpoint, a look at the structures, two steps, an expression, and the end.

    It disconnects while the program is stopped. If the program has ended before, lldb-vscode 14 aborts at `disconnect` in one run of twelve.
    """
    adapter.request("initialize", adapterID="lldb", linesStartAt1=True, columnsStartAt1=True, pathFormat="path")
    adapter.request("launch", program=path, cwd=PROGRAMS)
    adapter.wait_for("initialized")
    configured(adapter, "prices.c", "result += items[i].price")
    thread = adapter.wait_for("stopped", reason="breakpoint")["threadId"]
    adapter.request("threads")
    frame = looked_at(adapter, thread, 2)
    adapter.request("evaluate", expression="items[1].price", frameId=frame["id"], context="watch")
    adapter.request("next", threadId=thread)
    adapter.wait_for("stopped", reason="step")
    adapter.request("setBreakpoints", source={"path": program("prices.c")}, breakpoints=[])
    adapter.request("stepOut", threadId=thread)
    adapter.wait_for("stopped", reason="step")
    looked_at(adapter, thread)
    adapter.request("disconnect", terminateDebuggee=True)


def lldb():
    adapter = dapnorm.Adapter.start([lldb_command()], timeout=PATIENCE)
    return adapter, lambda: native_steps(adapter, os.path.join(built(), "prices-c"))


def go_steps(adapter, path):
    """delve: a breakpoint, a look at the structures, a step, an expression, and the end."""
    adapter.request("initialize", adapterID="go", linesStartAt1=True, columnsStartAt1=True, pathFormat="path")
    adapter.request("launch", mode="exec", program=path, cwd=PROGRAMS)
    adapter.wait_for("initialized")
    configured(adapter, "prices.go", "result += it.price")
    thread = adapter.wait_for("stopped", reason="breakpoint")["threadId"]
    frame = looked_at(adapter, thread, 2)
    adapter.request("evaluate", expression="items[1].price", frameId=frame["id"], context="watch")
    adapter.request("next", threadId=thread)
    adapter.wait_for("stopped", reason="step")
    looked_at(adapter, thread)
    adapter.request("setBreakpoints", source={"path": program("prices.go")}, breakpoints=[])
    adapter.request("continue", threadId=thread)
    adapter.wait_for("terminated")
    adapter.request("disconnect", terminateDebuggee=True)


def delve():
    adapter = dapnorm.Adapter.connect(HOST, 0, ["dlv", "dap", "--listen", HOST + ":{port}"], timeout=PATIENCE)
    return adapter, lambda: go_steps(adapter, os.path.join(built(), "prices-go"))


def ruby_steps(adapter, go):
    """rdbg: a breakpoint, a look at the structures, a step, an expression, and the end.

    After `disconnect` the program continues, and rdbg ends with it. The program waits for the response, which could be lost otherwise.
    """
    adapter.request("initialize", adapterID="rdbg", linesStartAt1=True, columnsStartAt1=True, pathFormat="path")
    adapter.wait_for("initialized")
    adapter.request("launch")
    configured(adapter, "prices.rb", "result += item.price")
    thread = adapter.wait_for("stopped", reason="breakpoint")["threadId"]
    adapter.request("threads")
    frame = looked_at(adapter, thread, 2)
    adapter.request("evaluate", expression="item.price * 2", frameId=frame["id"], context="watch")
    adapter.request("next", threadId=thread)
    adapter.wait_for("stopped", reason="step")
    adapter.request("continue", threadId=thread)
    adapter.wait_for("stopped", reason="breakpoint")
    adapter.request("disconnect", terminateDebuggee=False)
    with open(go, "wb"):
        pass


def rdbg():
    """rdbg listens before it is ready for a client: one that connects too early ends it. It prints that it waits as soon as it is ready."""
    go = os.path.join(tempfile.mkdtemp(dir=built()), "go")
    command = [rdbg_command(), "--open", "--host", HOST, "--port", "{port}", "--", program("prices.rb")]
    adapter = dapnorm.Adapter.connect(
        HOST, 0, command, ready="wait for debugger connection", timeout=PATIENCE, env={**os.environ, "GO": go},
    )
    return adapter, lambda: ruby_steps(adapter, go)


def first_of(*names):
    return next(filter(None, map(shutil.which, names)), None)


def python_with_debugpy():
    for python in filter(os.path.exists, filter(None, (sys.executable, shutil.which("python3"), "/usr/bin/python3"))):
        if subprocess.run([python, "-c", "import debugpy.adapter"], capture_output=True).returncode == 0:
            return python
    return None


def lldb_command():
    return first_of("lldb-dap", "lldb-vscode", *(f"lldb-dap-{it}" for it in range(25, 17, -1)), *(f"lldb-vscode-{it}" for it in range(19, 12, -1)))


def rdbg_command():
    return first_of("rdbg", *(f"rdbg3.{it}" for it in range(9, 0, -1)))


def built():
    """The folder of the programs that are compiled."""
    return os.environ["REAL_BUILT"]
