"""Passes on what a client and a debug adapter send to each other over TCP, and writes a trace of it.

    python3 -m dapnorm.proxy session.trace LISTEN CONNECT [ADAPTER [ARGUMENT..]]

LISTEN and CONNECT are HOST:PORT, or only PORT, a port of 127.0.0.1. So another machine can connect only if LISTEN allows it, such as
0.0.0.0:4711. An IPv6 address is in brackets: [::1]:4711. With port 0 the system picks the port to listen on; standard error says
which.

Each client that connects to LISTEN gets its own connection to the adapter on CONNECT, and its own trace. The first session has
session.trace, and further ones have session.1.trace, session.2.trace and so on. A further client may be one for a child session, such
as that of a subprocess. Each piece of a trace is what one read returned: `>` (of the client) or `<` (of the adapter), its length, LF,
and its bytes. A piece is written before it is passed on, so no response precedes its request.

Without a command the proxy ends when the first session has ended and no other session runs. ADAPTER is a command that starts the
adapter. Its streams are those of this program, and signals go to it. Clients may then connect until the adapter ends. If it runs on for
5 seconds after the last session, it gets SIGTERM. The status is that of the adapter; if a signal killed it, 128 and the number of the
signal. If the adapter ends before a client connects, the proxy ends too. SIGTERM and SIGINT end the proxy and its adapter at once; an
adapter that runs on after them for 5 seconds is killed.

An earlier trace is replaced when its session starts. A trace that cannot be written is an error before the adapter is started.
"""
from __future__ import annotations

import contextlib
import os
import re
import signal
import socket
import subprocess
import sys
import threading
import time
from types import FrameType
from typing import BinaryIO, List, Optional, Sequence, Tuple

from . import channel
from .errors import described
from .tee import PASSED_ON, SIZE, asks_for_help, own_name, pass_signals_on, signals_wait, status_of
from .trace import ADAPTER, CLIENT, Trace

# Seconds until the adapter listens, and until it ends after the last session or after a signal.
PATIENCE, GRACE = 10, 5
# How often the proxy looks whether the adapter or a session has ended, or a signal has arrived.
LOOK = 0.1
# The signals that end the proxy. Others are passed on to the adapter.
ENDING = (signal.SIGTERM, signal.SIGINT)
ADDRESS = re.compile(r"(?:(?P<host>\[[^\[\]]+\]|[^:\[\]]*):)?(?P<port>\d{1,5})")
Process = Optional["subprocess.Popen[bytes]"]
Address = Tuple[str, int]


def address(text: str) -> Address:
    """The host and the port of HOST:PORT, :PORT or PORT."""
    found = ADDRESS.fullmatch(text)
    if found is None or int(found["port"]) > 65535:
        sys.exit(f"{text}: neither a port nor HOST:PORT; an IPv6 address is in brackets: [::1]:4711")
    return (found["host"] or "127.0.0.1").strip("[]"), int(found["port"])


def report(text: str) -> None:
    print(f"{own_name('proxy')}: {text}", file=sys.stderr, flush=True)


def connected(target: Address, adapter: Process = None) -> socket.socket:
    """A connection to the adapter, which may need some seconds before it listens."""
    end = time.monotonic() + PATIENCE
    while True:
        try:
            return channel.connected(*target)
        except ConnectionRefusedError:
            if time.monotonic() > end or (adapter is not None and adapter.poll() is not None):
                raise
            time.sleep(0.1)


def pass_on(marker: bytes, source: socket.socket, target: socket.socket, trace: Trace) -> None:
    """Passes on pieces up to the end of the source. The target may still respond after it. A side that breaks off ends the session.

    `ValueError` is raised if the session is over, and its trace closed.
    """
    try:
        while piece := source.recv(SIZE):
            trace.note(marker, piece)
            target.sendall(piece)
        target.shutdown(socket.SHUT_WR)
    except (OSError, ValueError):
        for end in (source, target):
            end.close()


def session(client: socket.socket, adapter: socket.socket, trace: Trace) -> None:
    """Passes on both directions, up to the end of what the adapter sends."""
    to_adapter = threading.Thread(target=pass_on, args=(CLIENT, client, adapter, trace), daemon=True)
    to_adapter.start()
    pass_on(ADAPTER, adapter, client, trace)
    with contextlib.suppress(OSError):
        client.shutdown(socket.SHUT_RD)
    to_adapter.join(LOOK)


class Traces:
    """The files of the traces. The first one is opened at once, and has its earlier content until its session starts."""

    def __init__(self, path: str) -> None:
        self.path = path
        self._is_new = not os.path.exists(path)
        self._first = open(path, "ab")

    def name(self, number: int) -> str:
        root, suffix = os.path.splitext(self.path)
        return f"{root}.{number}{suffix}" if number else self.path

    def file(self, number: int) -> BinaryIO:
        """An empty file for the session of this number, counted from 0."""
        if number:
            return open(self.name(number), "wb")
        self._is_new = False
        if os.path.isfile(self.path):
            self._first.truncate(0)
        return self._first

    def close(self) -> None:
        """Closes the first file, and removes it if it is new and no session has started."""
        self._first.close()
        if self._is_new:
            os.unlink(self.path)


class Proxy:
    """The adapter, if it is started here, and the sessions of the clients, each in a thread."""

    def __init__(self, traces: Traces, connect: Address) -> None:
        self._traces, self._connect = traces, connect
        self._adapter: Process = None
        self._threads: List[threading.Thread] = []
        self._error: Optional[OSError] = None  # why the first session has not started
        self._stop: Optional[int] = None  # the signal that ends all
        self._last = 0.0  # when a session was last seen running
        for number in ENDING:
            signal.signal(number, self._stopped)

    def _stopped(self, number: int, _frame: Optional[FrameType]) -> None:
        self._stop = number

    def start(self, command: List[str]) -> None:
        with signals_wait() as let_in:
            self._adapter = subprocess.Popen(command, stdin=subprocess.DEVNULL, preexec_fn=let_in)
            pass_signals_on(self._adapter, set(PASSED_ON) - set(ENDING))

    def kill(self) -> None:
        if self._adapter is not None:
            self._adapter.kill()

    def take(self, client: socket.socket) -> None:
        """Starts the session of a client."""
        self._threads.append(threading.Thread(target=self._pass, args=(client, len(self._threads)), daemon=True))
        self._threads[-1].start()

    def _pass(self, client: socket.socket, number: int) -> None:
        """Passes on the session of this number, up to its end."""
        with client:
            try:
                adapter = connected(self._connect, self._adapter)
                file = self._traces.file(number)
            except OSError as error:
                if number:
                    report(f"client {number + 1} is not connected with the adapter: {error}")
                else:
                    self._error = error
                return
            if number:
                report(f"client {number + 1} has the trace {file.name}")
            with adapter, file:
                session(client, adapter, Trace(file))

    def _is_ended(self) -> bool:
        """Whether the adapter that was started here has ended."""
        return self._adapter is not None and self._adapter.poll() is not None

    def is_over(self) -> bool:
        """Whether all sessions have ended, and no further client is waited for."""
        if self._stop is not None or self._error is not None:
            return True
        if any(it.is_alive() for it in self._threads):
            self._last = time.monotonic()
            return False
        if not self._threads or self._is_ended():
            return self._is_ended()
        return self._adapter is None or time.monotonic() > self._last + GRACE

    def status(self) -> int:
        """Ends the adapter, and returns the status of the proxy. Raises the error of the first session if the adapter is not its cause."""
        adapter = self._adapter
        if self._error is not None and not self._is_ended():
            raise self._error
        if adapter is None:
            return 128 + self._stop if self._stop is not None else 0
        if self._is_ended() and self._stop is None and (not self._threads or self._error is not None):
            report(f"the adapter {described(adapter.returncode)} before a client was connected with it")
        if not self._is_ended():
            if self._stop is None:
                report("the adapter runs on after the session, and gets SIGTERM")
            adapter.send_signal(self._stop or signal.SIGTERM)
            with contextlib.suppress(subprocess.TimeoutExpired):
                adapter.wait(GRACE)
            adapter.kill()
        for it in self._threads:
            it.join(LOOK)
        return status_of(adapter)


def serve(traces: Traces, listen: Address, connect: Address, command: List[str]) -> int:
    """Starts the adapter, if there is a command, takes clients, and returns the status."""
    is_ipv6 = ":" in listen[0]
    proxy = Proxy(traces, connect)
    try:
        with socket.create_server(listen, family=socket.AF_INET6 if is_ipv6 else socket.AF_INET) as server:
            if command:
                proxy.start(command)
            host, port = server.getsockname()[:2]
            print(f"listening on {f'[{host}]' if is_ipv6 else host}:{port}", file=sys.stderr, flush=True)
            server.settimeout(LOOK)
            while not proxy.is_over():
                with contextlib.suppress(socket.timeout):
                    proxy.take(server.accept()[0])
        return proxy.status()
    except BaseException:
        proxy.kill()
        raise


def main(words: Optional[Sequence[str]] = None) -> int:
    arguments: List[str] = list(sys.argv[1:] if words is None else words)
    if asks_for_help(arguments, __doc__):
        return 0
    if len(arguments) < 3:
        sys.exit(__doc__)
    path, *addresses = arguments[:3]
    listen, connect = map(address, addresses)
    try:
        with contextlib.closing(Traces(path)) as traces:
            return serve(traces, listen, connect, arguments[3:])
    except OSError as error:
        sys.exit(f"{own_name('proxy')} {' '.join(arguments)}: {error}")


if __name__ == "__main__":
    sys.exit(main())
