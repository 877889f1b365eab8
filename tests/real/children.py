"""A session with debugpy and two child processes, recorded by the proxy, and copies of its recordings in which an event names a wrong process.

The program waits until a child has ended before it starts the other one, so each run has one order. There are three connections, each with
its trace: that of the parent, and one for each child.
"""
import json
import os
import sys
import tempfile

import sessions
from sessions import HOST, PROGRAMS, TOP, configured, dapnorm, looked_at, program
from dapnorm.frames import frame
from dapnorm.program import run

sys.path.append(os.path.join(TOP, "scripts"))
from one_direction import SIDES, records

PROXY = os.path.join(TOP, "examples", "trace_proxy.py")
CHILDREN = ("child-1", "child-2")
PARENT = "parent"
# Seconds for each response and event. The parent waits for a child while Python and the debugger start in it.
PATIENCE = 60
# debugpy's own limits, in seconds. By default it kills a program that has not ended 5 seconds after its debugger disconnected, as on a busy
# machine. The exit code is then 247.
LIMITS = {"DEBUGPY_PROCESS_SPAWN_TIMEOUT": str(PATIENCE), "DEBUGPY_PROCESS_EXIT_TIMEOUT": str(PATIENCE)}
# The environment of the program and of its children. Without it, Debian's debugpy prints a long warning about its own modules in each child.
QUIET = {"PYTHONWARNINGS": "ignore"}


def child_steps(child, arguments):
    """Attaches to a child process by the arguments of the parent's event, stops at a breakpoint, and lets it end."""
    child.request("initialize", adapterID="debugpy", linesStartAt1=True, columnsStartAt1=True)
    attach = child.send("attach", **arguments)
    child.wait_for("initialized")
    configured(child, "child.py", "return result")
    child.response(attach)
    thread = child.wait_for("stopped", reason="breakpoint")["threadId"]
    looked_at(child, thread)
    child.request("continue", threadId=thread)
    child.wait_for("terminated")
    child.request("disconnect")


def parent_steps(parent, port):
    """Starts the program, and attaches to each of its children over a connection of its own."""
    parent.request("initialize", adapterID="debugpy", linesStartAt1=True, columnsStartAt1=True)
    launch = parent.send("launch", program=program("parent.py"), cwd=PROGRAMS, console="internalConsole", subProcess=True, env=QUIET)
    parent.wait_for("initialized")
    parent.request("configurationDone")
    parent.response(launch)
    for _ in CHILDREN:
        arguments = parent.wait_for("debugpyAttach")
        with dapnorm.Adapter.connect(HOST, port, timeout=PATIENCE) as child:
            child_steps(child, arguments)
    parent.wait_for("terminated")
    parent.request("disconnect")


def debugpy_children():
    """A run. Returns the path of the trace of each connection by its part."""
    folder = tempfile.mkdtemp(prefix="children-", dir=os.environ["DAPNORM_TRACES"])
    port, own = dapnorm.free_port(), dapnorm.free_port()
    adapter = [sessions.python_with_debugpy(), "-m", "debugpy.adapter", "--host", HOST, "--port", str(own)]
    command = [sys.executable, PROXY, os.path.join(folder, "session.trace"), str(port), str(own), *adapter]
    with dapnorm.Adapter.connect(HOST, port, command, timeout=PATIENCE, env={**os.environ, **LIMITS}) as parent:
        parent_steps(parent, port)
    return by_part([os.path.join(folder, it) for it in os.listdir(folder)])


def recorded(trace):
    """The recording of a trace."""
    with open(trace, "rb") as file:
        ran = run("record", given=file.read())
    if ran.status != 0:
        raise dapnorm.GoldenFailed(f"dapnorm record ends with status {ran.status}, the trace is {trace}\n{ran.errors}", ran.status)
    return ran.output


def messages(recording):
    """The side and the content of each message."""
    return [(side, json.loads(content)) for side, _, content in records(recording)]


def found(recording, kind, name):
    """The arguments of the requests of this name, or the bodies of the events."""
    member = {"request": "arguments", "event": "body"}[kind]
    return [it[member] for _, it in messages(recording) if it["type"] == kind and name in (it.get("command"), it.get("event"))]


def by_part(traces):
    """The traces by their parts. A child's attach request has the process id that the parent's event names."""
    recordings = {trace: recorded(trace) for trace in traces}
    [parent] = [trace for trace, it in recordings.items() if found(it, "request", "launch")]
    attached = {arguments["subProcessId"]: trace for trace, it in recordings.items() for arguments in found(it, "request", "attach")}
    return {PARENT: parent, **{part: attached[number] for part, number in zip(CHILDREN, process_ids(recordings[parent]))}}


def process_ids(parent):
    """The process ids of the children, in the order in which they were started."""
    return [it["subProcessId"] for it in found(parent, "event", "debugpyAttach")]


def with_process(recording, event, member, number):
    """A copy of a recording in which the last event of a name has another process id."""
    copy = messages(recording)
    changed = [it for _, it in copy if it.get("event") == event][-1]
    changed["body"][member] = number
    markers = {side: marker for marker, side in SIDES.items()}
    return b"".join(markers[side] + frame(it) + b"\n" for side, it in copy)


def confused(traces):
    """For each part a recording in which an event names the process of the other child."""
    recordings = {part: recorded(trace) for part, trace in traces.items()}
    first, second = process_ids(recordings[PARENT])
    return {
        PARENT: with_process(recordings[PARENT], "debugpyAttach", "subProcessId", first),
        CHILDREN[0]: with_process(recordings[CHILDREN[0]], "process", "systemProcessId", second),
        CHILDREN[1]: with_process(recordings[CHILDREN[1]], "process", "systemProcessId", first),
    }
