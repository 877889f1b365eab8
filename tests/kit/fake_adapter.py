"""A small debug adapter for Python programs, over its standard streams or TCP. FIRST is the number of its first frame.

    python3 fake_adapter.py FIRST [FAULT..]

A launched program runs at once, up to its end. The adapter notes the stack at each breakpoint and shows these stops afterwards, one by one.
If the client's `adapterID` is debugpy, `initialized` comes after `launch`, as from debugpy, and not after `initialize`.
Each FAULT is something that a real adapter may do wrong, or do otherwise:

    says_its_number     an output that no other run has
    fails=COMMAND       the response to this request is a failure
    hangs=COMMAND       the request is never answered
    ends=COMMAND        the adapter ends when the request comes
    dies=COMMAND        a signal kills the adapter when the request comes
    breaks=COMMAND      the adapter ends within the response to this request
    stalls=COMMAND      it sends a part of the response to this request, and then nothing more
    pours=COMMAND       from this request on it sends outputs without end
    orphans=COMMAND     it ends when the request comes, and a process that it started holds its output open
    moves               the lines of stack frames are one more
    changes             the values of variables have one more character
    complains           it writes to standard error
    skips=EVENT         the event is not sent
    sends=COMMAND       `launch` sends this request to the client, and fails if the client does
    cuts                frames come in pieces of a few bytes
    prints=TEXT         a text that is no frame comes before the response to `launch`
    floods=BYTES        an output of that many bytes comes before each response
    crashes             after `disconnect` the adapter is killed by a signal
    status=N            after `disconnect` it ends with status N
    stays               after `disconnect` it does not end
    lingers             after `disconnect` it ends when the client ends
    listens=PORT        it speaks TCP, for one session
"""
import contextlib
import io
import json
import os
import signal
import socket
import sys
import time
import traceback


def receive(source):
    length = None
    while (line := source.readline().strip()):
        name, value = line.split(b":", 1)
        if name.lower() == b"content-length":
            length = int(value)
    return None if length is None else json.loads(source.read(length))


def send(target, message, cut=None):
    content = json.dumps(message).encode()
    # Header and content are written apart, as some adapters do.
    pieces = [b"Content-Length: %d\r\n\r\n" % len(content), content]
    if cut:
        frame = b"".join(pieces)
        pieces = [frame[at:at + cut] for at in range(0, len(frame), cut)]
    for piece in pieces:
        target.write(piece)
        target.flush()


def run_program(path, breakpoints):
    """Runs a program. Returns the stack at each breakpoint that it meets, the innermost frame first, and its output and its exit code."""
    stops, output, code = [], io.StringIO(), 0

    def trace(frame, event, _):
        if frame.f_code.co_filename != path:
            return None
        if event == "line" and frame.f_lineno in breakpoints:
            stack, it = [], frame
            while it is not None and it.f_code.co_filename == path:
                values = {name: repr(value) for name, value in it.f_locals.items() if not name.startswith("__") and not callable(value)}
                stack.append((it.f_code.co_name, it.f_lineno, values))
                it = it.f_back
            stops.append(stack)
        return trace

    try:
        with open(path, encoding="utf-8") as file, contextlib.redirect_stdout(output):
            program = compile(file.read(), path, "exec")
            sys.settrace(trace)
            exec(program, {"__name__": "__main__"})
    except Exception:
        output.write(traceback.format_exc())
        code = 1
    finally:
        sys.settrace(None)
    return stops, output.getvalue(), code


class FakeAdapter:
    """One session."""

    def __init__(self, source, target, first, faults=()):
        self.source, self.target, self.first, self.seq = source, target, first, 0
        self.faults = dict(fault.partition("=")[::2] for fault in faults)
        self.launch, self.breakpoints, self.stops, self.output, self.code = None, set(), [], "", 0
        self.frames, self.is_debugpy = [("main", 3, {})], False

    def send(self, **message):
        self.seq += 1
        message = {"seq": self.seq, **message}
        if message["type"] == "response" and message["command"] in (self.faults.get("breaks"), self.faults.get("stalls")):
            frame = io.BytesIO()
            send(frame, message)
            self.target.write(frame.getvalue()[:-10])
            self.target.flush()
            if "breaks" in self.faults:
                sys.exit(0)
        else:
            send(self.target, message, 5 if "cuts" in self.faults else None)

    def event(self, event, /, **body):
        if self.faults.get("skips") != event:
            self.send(type="event", event=event, **({"body": body} if body else {}))

    def respond(self, request, **body):
        if "floods" in self.faults:
            self.event("output", output="x" * int(self.faults["floods"]))
        members = {"request_seq": request["seq"], "command": request["command"]}
        if self.faults.get("fails") == request["command"]:
            self.send(type="response", success=False, message=f"{request['command']} does not work today", **members)
        else:
            self.send(type="response", success=True, **members, **({"body": body} if body else {}))

    def on_initialize(self, request):
        self.is_debugpy = request.get("arguments", {}).get("adapterID") == "debugpy"
        self.respond(request)
        if not self.is_debugpy:
            self.event("initialized")

    def on_launch(self, request):
        if "sends" in self.faults:
            self.send(type="request", command=self.faults["sends"], arguments={"args": ["python3", "program.py"], "cwd": "/"})
            while (message := receive(self.source))["type"] == "request":
                getattr(self, f"on_{message['command']}", self.respond)(message)
            if not message["success"]:
                self.faults["fails"] = "launch"
                return self.respond(request)
        self.launch = request
        if self.is_debugpy:
            self.event("initialized")

    def on_setBreakpoints(self, request):
        self.breakpoints = {it["line"] for it in request["arguments"]["breakpoints"]}
        lines = enumerate(sorted(self.breakpoints), self.first if isinstance(self.first, int) else 1)
        self.respond(request, breakpoints=[{"id": at, "verified": True, "line": line} for at, line in lines])

    def on_configurationDone(self, request):
        self.respond(request)
        if self.launch:
            if "prints" in self.faults:
                self.target.write(self.faults["prints"].encode() + b"\n")
            self.respond(self.launch)
            path = self.launch["arguments"]["program"]
            self.event("process", name=path, systemProcessId=os.getpid())
            self.stops, self.output, self.code = run_program(path, self.breakpoints)
            self.go_on()

    def on_continue(self, request):
        self.respond(request)
        self.go_on()

    def go_on(self):
        """Shows the next stop, or the end of the program."""
        if self.stops:
            self.frames = self.stops.pop(0)
            self.event("stopped", reason="breakpoint", threadId=1, allThreadsStopped=True)
        else:
            if self.output:
                self.event("output", category="stdout", output=self.output)
            self.event("exited", exitCode=self.code)
            self.event("terminated")

    def on_threads(self, request):
        self.respond(request, threads=[{"id": 1, "name": "MainThread"}])

    def on_stackTrace(self, request):
        moved = "moves" in self.faults
        frames = [{"id": self.first + at, "name": name, "line": line + moved, "column": 1} for at, (name, line, _) in enumerate(self.frames)]
        self.respond(request, stackFrames=frames)

    def on_scopes(self, request):
        scope = {"name": "Locals", "variablesReference": request["arguments"]["frameId"] + 100, "expensive": False}
        self.respond(request, scopes=[scope])

    def on_variables(self, request):
        values = self.frames[int(request["arguments"]["variablesReference"] - self.first - 100)][2]
        more = "!" if "changes" in self.faults else ""
        self.respond(request, variables=[{"name": name, "value": value + more, "variablesReference": 0} for name, value in sorted(values.items())])

    def serve(self):
        """Answers requests up to the end of the input or to `disconnect`."""
        if "says_its_number" in self.faults:
            self.event("output", output=f"process {os.getpid()}")
        if "complains" in self.faults:
            print("the fake adapter complains", file=sys.stderr, flush=True)
        while (request := receive(self.source)) is not None:
            command = request["command"]
            if self.faults.get("ends") == command:
                return
            if self.faults.get("dies") == command:
                os.kill(os.getpid(), signal.SIGSEGV)
            while self.faults.get("pours") == command:
                self.event("output", output="x")
                time.sleep(0.001)
            if self.faults.get("orphans") == command:
                if os.fork() == 0:
                    time.sleep(20)
                os._exit(3)
            if self.faults.get("hangs") != command:
                getattr(self, f"on_{command}", self.respond)(request)
            if command == "disconnect":
                self.end()
                return

    def end(self):
        if "crashes" in self.faults:
            os.kill(os.getpid(), signal.SIGSEGV)
        if "lingers" in self.faults:
            self.source.read()
        if "stays" in self.faults:
            time.sleep(600)
        if "status" in self.faults:
            sys.exit(int(self.faults["status"]))


def serve(source, target, first, faults=()):
    FakeAdapter(source, target, first, faults).serve()


def serve_connection(server, first, faults=()):
    """Serves the first client that connects."""
    connection, _ = server.accept()
    with connection, connection.makefile("rb") as source, connection.makefile("wb") as target:
        serve(source, target, first, faults)


def main():
    first, faults = json.loads(sys.argv[1]), sys.argv[2:]
    port = next((int(fault[8:]) for fault in faults if fault.startswith("listens=")), None)
    if port is None:
        serve(sys.stdin.buffer, sys.stdout.buffer, first, faults)
    else:
        with socket.create_server(("127.0.0.1", port)) as server:
            serve_connection(server, first, faults)


if __name__ == "__main__":
    main()
