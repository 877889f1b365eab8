"""A client of a debug adapter, which writes a trace of its session."""
from __future__ import annotations

import atexit
import contextlib
import os
import signal
import socket
import subprocess
import tempfile
import time
from collections import deque
from types import TracebackType
from typing import Any, Callable, Collection, Deque, Dict, List, Mapping, Optional, Sequence, Tuple, Type, Union

from .channel import Channel, Command, Process, words_of
from .errors import AdapterEnded, AdapterFailed, NotStarted, RequestFailed, SessionError, TimedOut, described
from .frames import Frames, Message, as_line, frame
from .report import quoted, user_frames
from .trace import ADAPTER, CLIENT, Trace

Body = Dict[str, Any]
Handler = Callable[[Body], Optional[Body]]
Statuses = Union[int, Collection[int]]
# Seconds for each wait. `Adapter` describes what replaces it.
TIMEOUT = 4.0
# Traces to remove, and adapters to kill, when Python ends.
UNWANTED: Dict[str, None] = {}
RUNNING: Dict[int, "Adapter"] = {}


@atexit.register
def _clean_up() -> None:
    for adapter in list(RUNNING.values()):
        adapter.kill()
    for path in UNWANTED:
        with contextlib.suppress(OSError):
            os.unlink(path)


def free_port(host: str = "127.0.0.1") -> int:
    """A port that is free now."""
    with socket.create_server((host, 0), family=socket.AF_INET6 if ":" in host else socket.AF_INET) as server:
        port: int = server.getsockname()[1]
        return port


def default_timeout(timeout: Optional[float]) -> float:
    """A timeout, or if it is None, that of the environment or of this package."""
    return float(os.environ.get("ADAPTER_TIMEOUT", TIMEOUT)) if timeout is None else timeout


def matches(value: Any, that: Any) -> bool:
    """Whether a value is that one. An object may have further members."""
    if isinstance(that, Mapping):
        return isinstance(value, Mapping) and all(name in value and matches(value[name], it) for name, it in that.items())
    return bool(value == that) and isinstance(value, bool) == isinstance(that, bool)


def failure_of(response: Message) -> str:
    """Why a request failed, in the adapter's words."""
    body = response.get("body")
    error = body.get("error") if isinstance(body, dict) else None
    text, message = "", str(response.get("message") or "")
    if isinstance(error, dict):
        text = str(error.get("format") or "")
        for name, value in (error.get("variables") or {}).items():
            text = text.replace("{%s}" % name, str(value))
    return ": ".join(dict.fromkeys(it for it in (message, text) if it)) or "the adapter sent no reason"


class Adapter:
    """A session with a debug adapter. `trace` is the path of its trace.

    `handlers` has a function for each request that the adapter may send: it takes the arguments and returns the body of the response.
    A request without a function gets a response without success.

    `timeout` is the number of seconds for each wait: for the adapter to start and listen, to read a request, to send a response or an
    event, and to end. `timeout=` of a call is for the waits of that call; `timeout=` of `start`, of `connect` and of a session is for all
    others. Without it, the variable ADAPTER_TIMEOUT in the environment has the number, or it is 4. `send` passes an argument `timeout` on.

    `status` is the exit status that the adapter has after the session, or several that it may have: -15 if SIGTERM ends it.
    """

    def __init__(
        self, channel: Channel, *, timeout: Optional[float] = None, trace: Optional[str] = None, server: bool = False, status: Statuses = 0,
    ) -> None:
        self.timeout = default_timeout(timeout)
        self._statuses = {status} if isinstance(status, int) else set(status)
        self.handlers: Dict[str, Handler] = {}
        self.process = channel.process
        self.lines: List[str] = []
        self._channel, self._server, self._closed = channel, server, False
        self._frames, self._seq = Frames(), 0
        self._arrived: Deque[Message] = deque()
        self._pending: List[Message] = []
        self._children: List["subprocess.Popen[bytes]"] = []
        self._end: Optional[str] = None  # how the adapter ended
        self._errors = ""
        self._unhandled: List[str] = []
        self.is_named = trace is not None
        try:
            self.trace = self._new_trace() if trace is None else os.path.abspath(trace)
            self._file = open(self.trace, "wb", buffering=0)
        except OSError:
            channel.close()
            raise
        self._trace = Trace(self._file)
        RUNNING[id(self)] = self

    @staticmethod
    def _new_trace() -> str:
        """A new file in the folder of the traces. It is removed when Python ends, unless it is kept."""
        folder = os.environ.get("DAPNORM_TRACES")
        if folder:
            os.makedirs(folder, exist_ok=True)
        number, path = tempfile.mkstemp(prefix="session-", suffix=".trace", dir=os.path.abspath(folder) if folder else None)
        os.close(number)
        UNWANTED[path] = None
        return path

    @classmethod
    def start(
        cls, command: Command, *, timeout: Optional[float] = None, trace: Optional[str] = None,
        cwd: Optional[str] = None, env: Optional[Mapping[str, str]] = None, status: Statuses = 0,
    ) -> Adapter:
        """Starts an adapter that speaks over its standard streams. The command is a list of words, or a text as for a shell."""
        return cls(Channel.start(command, cwd, env), timeout=timeout, trace=trace, status=status)

    @classmethod
    def connect(
        cls, host: str, port: int, command: Optional[Command] = None, *, ready: Optional[str] = None, server: bool = False,
        timeout: Optional[float] = None, trace: Optional[str] = None, cwd: Optional[str] = None, env: Optional[Mapping[str, str]] = None,
        status: Statuses = 0,
    ) -> Adapter:
        """Connects to an adapter that speaks TCP, as soon as it listens.

        If a command is given, it is started first. With port 0 a free port is taken, and `{port}` in the command is that port. An adapter
        that may listen before it can serve a client, such as rdbg, gets none until its standard output or standard error has the text
        `ready`. After the session the command has to end with its status; with `server=True` it may run on, and is ended by SIGTERM.
        """
        if ready is not None and command is None:
            raise ValueError("ready= is a text of the command's output, and no command is given")
        if port == 0:
            port = free_port(host)
        process = None
        if command is not None:
            process = Process([it.replace("{port}", str(port)) for it in words_of(command)], cwd, env)
        try:
            channel = Channel.connect(host, port, process, default_timeout(timeout), ready)
        except NotStarted as error:
            if process is not None:
                error.report = quoted("what it printed", process.errors())
                process.close()
            raise
        return cls(channel, timeout=timeout, trace=trace, server=server, status=status)

    def request(self, command: str, /, timeout: Optional[float] = None, **arguments: Any) -> Body:
        """Sends a request and returns the body of its response. Raises `RequestFailed` if the response has no success."""
        return self.response(self._send(timeout, type="request", command=command, arguments=arguments), timeout)

    def send(self, command: str, /, **arguments: Any) -> Message:
        """Sends a request without waiting for its response, and returns the request."""
        return self._send(None, type="request", command=command, arguments=arguments)

    def response(self, request: Message, timeout: Optional[float] = None) -> Body:
        """Waits for the response to a request that was sent, and returns its body. Raises `RequestFailed` if it has no success."""
        command, seq = request["command"], request["seq"]

        def is_it(message: Message) -> bool:
            return bool(message["type"] == "response" and message.get("request_seq") == seq)

        response = self._wait(is_it, f'response to "{command}"', timeout)
        if not response.get("success"):
            raise self._failed(RequestFailed(f'request "{command}" failed: {failure_of(response)}{self._refused()}', response))
        return response.get("body") or {}

    def wait_for(self, event: str, /, timeout: Optional[float] = None, **that: Any) -> Body:
        """Waits for an event, unless it came before, and returns its body. `that` are members that the body has to have.

        An event is returned once. The wait fails at once if a request failed, or if the session is over.
        """
        def is_it(message: Message) -> bool:
            return message.get("event") == event and matches(message.get("body") or {}, that)

        details = " and ".join(f"{name} {value!r}" for name, value in that.items())
        wanted = f'event "{event}"' + (f" with {details}" if that else "")
        return self._wait(is_it, wanted, timeout, (event,)).get("body") or {}

    def wait_for_any(self, *events: str, timeout: Optional[float] = None) -> Tuple[str, Body]:
        """Waits for one of these events, unless one came before, and returns its name and its body. If several came, it is the first."""
        wanted = "event " + " or ".join(f'"{it}"' for it in events)
        message = self._wait(lambda it: it.get("event") in events, wanted, timeout, events)
        return message["event"], message.get("body") or {}

    def run_in_terminal(self, arguments: Body) -> Body:
        """A handler for `runInTerminal`: starts the process, without a terminal. It is killed after the session."""
        env = {**os.environ, **{name: value for name, value in (arguments.get("env") or {}).items() if value is not None}}
        quiet = subprocess.DEVNULL
        child = subprocess.Popen(
            arguments["args"], cwd=arguments.get("cwd") or None, env=env, stdin=quiet, stdout=quiet, stderr=quiet, start_new_session=True
        )
        self._children.append(child)
        return {"processId": child.pid}

    def close(self, timeout: Optional[float] = None) -> None:
        """Ends the session, and reads what still arrives. Raises `AdapterFailed` unless the adapter then ends with its status."""
        if self._closed:
            return
        patience = self.timeout if timeout is None else timeout
        end = time.monotonic() + patience
        try:
            self._channel.end()
            while (left := end - time.monotonic()) > 0 and self._take(left):
                self._dispatch()
            if self.process is not None:
                self._check_end(self.process, end, patience)
            elif self._end is None:
                raise self._failed(TimedOut(f"the adapter does not end the session within {patience:g} seconds"))
        finally:
            self.kill()

    def _check_end(self, process: Process, end: float, patience: float) -> None:
        """Waits for the end of the process, and checks its status."""
        if self._server:
            process.interrupt(signal.SIGTERM)
        status = process.status(max(1.0 if self._server else 0.05, end - time.monotonic()))
        if status is None:
            raise self._failed(TimedOut(f"no end of the adapter within {patience:g} seconds after the session"))
        if status not in self._statuses and not (self._server and status in (-signal.SIGTERM, 128 + signal.SIGTERM)):
            raise self._failed(AdapterFailed(f"after the session the adapter {described(status)}", status))
        if self._frames.unread:
            raise self._failed(AdapterEnded(f"the adapter ended within a message: {bytes(self._frames.unread[:100])!r}"))

    def kill(self) -> None:
        """Ends the session at once, and kills the adapter and all that it started."""
        if not self._closed:
            self._errors, self._closed = self.errors(), True
            del RUNNING[id(self)]
            self._channel.close()
            self._file.close()
            for child in self._children:
                with contextlib.suppress(OSError):
                    os.killpg(child.pid, signal.SIGKILL)
                child.wait()

    def keep(self) -> str:
        """Keeps the trace after the end of the program, and returns its path."""
        UNWANTED.pop(self.trace, None)
        return self.trace

    def __enter__(self) -> Adapter:
        return self

    def __exit__(self, kind: Optional[Type[BaseException]], error: Optional[BaseException], where: Optional[TracebackType]) -> None:
        try:
            if kind is None:
                self.close()
        except SessionError as failure:
            failure.report = failure.report or self.story(None)
            raise
        finally:
            if kind is not None:
                self.keep()
            self.kill()
        if isinstance(error, SessionError):
            error.report = error.report or self.story(where)

    def story(self, where: Optional[TracebackType]) -> str:
        """Further lines on a failure: the line of the test, the end of standard error, the last messages, and the path of the trace."""
        errors = quoted("standard error of the adapter ends with", self.errors(), 5)
        last = quoted("the last messages", "\n".join(self.lines), 8)
        return "\n".join(filter(None, [*user_frames(where), errors, last, f"the trace is kept: {self.keep()}"]))

    def errors(self) -> str:
        """The end of what the adapter wrote to standard error. Over TCP also of what it wrote to standard output."""
        return self._errors if self._closed or self.process is None else self.process.errors()

    def _wait(self, is_it: Callable[[Message], bool], wanted: str, timeout: Optional[float], events: Sequence[str] = ()) -> Message:
        patience = self.timeout if timeout is None else timeout
        end, is_late = time.monotonic() + patience, False
        while True:
            self._dispatch()
            for at, message in enumerate(self._pending):
                if is_it(message):
                    return self._pending.pop(at)
                if events and message.get("success") is False:
                    text = f'no {wanted}: request "{message.get("command")}" failed: {failure_of(message)}{self._refused()}'
                    raise self._failed(RequestFailed(text, message))
                if set(events) == {"stopped"} and message.get("event") == "terminated":
                    raise self._failed(AdapterEnded(f'no {wanted}: the adapter sent {as_line("<", message)}'))
            if self._end is not None:
                raise self._failed(AdapterEnded(f"no {wanted}: the adapter {self._end}"))
            has_more = not is_late and (self._take(end - time.monotonic()) or self._end is not None)
            if not has_more:
                raise self._failed(TimedOut(f"no {wanted} within {patience:g} seconds{self._instead(events)}"))
            is_late = time.monotonic() >= end

    def _instead(self, events: Sequence[str]) -> str:
        """What arrived in place of an event: the same event with another body, a part of a message, or a request without a handler."""
        came = [as_line("<", it) for it in self._pending if it.get("event") in events]
        unread = bytes(self._frames.unread[:80])
        notes = [f"; instead there came {', '.join(came[-3:])}"] if came else []
        return "".join([*notes, f"; the adapter sent a part of a message: {unread!r}" if unread else ""]) + self._refused()

    def _refused(self) -> str:
        """A note on the requests of the adapter for which the test has no handler."""
        names = ", ".join(f'"{it}"' for it in dict.fromkeys(self._unhandled))
        return f"; the test has no handler for the adapter's request {names}" if names else ""

    def _failed(self, error: SessionError) -> SessionError:
        error.trace = self.keep()
        return error

    def _send(self, timeout: Optional[float], /, **message: Any) -> Message:
        if self._closed:
            raise SessionError("the session is closed")
        patience = self.timeout if timeout is None else timeout
        end = time.monotonic() + patience
        while self._take(0) and time.monotonic() < end:
            pass  # what has arrived is noted before what is sent
        self._seq += 1
        message = {"seq": self._seq, **message}
        piece = frame(message)
        self._trace.note(CLIENT, piece)
        self.lines.append(as_line(">", message))
        if not self._channel.send(piece, patience, self._came):
            name = message["command"]
            raise self._failed(TimedOut(f'{message["type"]} "{name}" is not read by the adapter within {patience:g} seconds'))
        return message

    def _take(self, timeout: float) -> bool:
        """Waits for a piece, notes it, and returns whether one arrived. After the last piece `_end` describes how the adapter ended."""
        if self._closed or self._end is not None:
            return False
        piece = self._channel.receive(max(0, timeout))
        if piece is None:
            return False
        self._came(piece)
        return bool(piece)

    def _came(self, piece: bytes) -> None:
        if not piece:
            self._end = self._how_it_ended()
            return
        self._trace.note(ADAPTER, piece)
        try:
            for message in self._frames.feed(piece):
                self.lines.append(as_line("<", message))
                self._arrived.append(message)
        except SessionError as error:
            raise self._failed(error)

    def _how_it_ended(self) -> str:
        status = self.process.status(1) if self.process else None
        if status is not None:
            how = described(status)
        else:
            how = "closed the connection" if self.process is None else "closed its stream, and runs on"
        unread = bytes(self._frames.unread[:80])
        return how + (f", within a message: {unread!r}" if unread else "")

    def _dispatch(self) -> None:
        """Answers the requests that arrived, and stores the other messages. A handler may send requests itself."""
        while self._arrived:
            message = self._arrived.popleft()
            if message["type"] == "request":
                self._answer(message)
            else:
                self._pending.append(message)

    def _answer(self, request: Message) -> None:
        command = str(request.get("command"))
        response: Message = {"type": "response", "request_seq": request.get("seq"), "command": command}
        handler = self.handlers.get(command)
        if handler is None:
            self._unhandled.append(command)
            self._send(None, **response, success=False, message=f'the test has no handler for "{command}"')
            return
        try:
            body = handler(request.get("arguments") or {})
        except Exception as error:
            self._send(None, **response, success=False, message=str(error) or type(error).__name__)
            raise
        self._send(None, **response, success=True, body=body or {})
