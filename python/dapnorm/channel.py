"""The streams between a test and an adapter, and the adapter's process."""
from __future__ import annotations

import contextlib
import os
import select
import shlex
import shutil
import signal
import socket
import subprocess
import tempfile
import time
from typing import Callable, List, Mapping, Optional, Sequence, Union

from .errors import NotStarted

Command = Union[str, Sequence[str]]
# How often a wait looks whether the process has ended, although its streams are open.
LOOK = 0.1
SIZE = 65536


def words_of(command: Command) -> List[str]:
    """The words of a command, which is a list, or a text as for a shell."""
    words = shlex.split(command) if isinstance(command, str) else [os.fspath(it) for it in command]
    if not words:
        raise NotStarted("the command of the adapter is empty")
    return words


def connected(host: str, port: int, timeout: Optional[float] = None) -> socket.socket:
    """A connection to a port. If nothing listens there, the system may connect a socket with itself: that is refused too."""
    connection = socket.create_connection((host, port), timeout)
    if connection.getsockname() == connection.getpeername():
        connection.close()
        raise ConnectionRefusedError("the port is not listened on")
    return connection


class Process:
    """A process in a group of its own. What it writes to standard error is kept in a file."""

    def __init__(
        self, command: Command, cwd: Optional[str], env: Optional[Mapping[str, str]], stdin: int = subprocess.DEVNULL, stdout: Optional[int] = None,
    ) -> None:
        self.words = words_of(command)
        path = (os.environ if env is None else env).get("PATH")
        if "/" not in self.words[0] and shutil.which(self.words[0], path=path) is None:
            raise NotStarted(f"{self.words[0]} is not on PATH")
        self._errors = tempfile.TemporaryFile(prefix="dapnorm-")
        output = self._errors.fileno() if stdout is None else stdout
        try:
            self._process: "subprocess.Popen[bytes]" = subprocess.Popen(
                self.words, cwd=cwd, env=env, stdin=stdin, stdout=output, stderr=self._errors, start_new_session=True
            )
        except OSError as error:
            self._errors.close()
            raise NotStarted(f"the adapter does not start: {error}") from None
        self.pid = self._process.pid

    def status(self, timeout: float = 0) -> Optional[int]:
        """The status of the process, or None if it still runs after the timeout."""
        try:
            return self._process.wait(max(0, timeout)) if timeout > 0 else self._process.poll()
        except subprocess.TimeoutExpired:
            return None

    def interrupt(self, number: signal.Signals) -> None:
        with contextlib.suppress(OSError):
            self._process.send_signal(number)

    def kill(self) -> None:
        """Kills the process and all that it started in its group."""
        with contextlib.suppress(OSError):
            os.killpg(self.pid, signal.SIGKILL)
        self._process.wait()

    def wait_for_output(self, text: str, timeout: float) -> None:
        """Waits until the process has written this text. Raises `NotStarted` if it ends with an error, or does not write it in time."""
        end, wanted = time.monotonic() + timeout, text.encode()
        while True:
            status, is_late = self.status(), time.monotonic() > end
            if wanted in os.pread(self._errors.fileno(), os.fstat(self._errors.fileno()).st_size, 0):
                return
            if status:
                raise NotStarted(f'the adapter ended with status {status}, and its output does not have "{text}"')
            if is_late:
                raise NotStarted(f'the output of the adapter does not have "{text}" within {timeout:g} seconds')
            time.sleep(0.02)

    def errors(self) -> str:
        """The end of what the process wrote to standard error."""
        if self._errors.closed:
            return ""
        size = os.fstat(self._errors.fileno()).st_size
        content = os.pread(self._errors.fileno(), 4096, max(0, size - 4096))
        return content.decode(errors="replace")

    def close(self) -> None:
        self.kill()
        self._errors.close()


class Channel:
    """A stream from an adapter and one to it: two pipes, or one socket. Neither blocks."""

    def __init__(self, source: int, target: int, connection: Optional[socket.socket], process: Optional[Process]) -> None:
        self._source, self._target = source, target
        self._connection, self.process = connection, process
        self._ended = False
        for descriptor in (source, target):
            os.set_blocking(descriptor, False)

    @classmethod
    def start(cls, command: Command, cwd: Optional[str], env: Optional[Mapping[str, str]]) -> Channel:
        """Starts an adapter that speaks over its standard streams."""
        its_input, target = os.pipe()
        source, its_output = os.pipe()
        try:
            process = Process(command, cwd, env, stdin=its_input, stdout=its_output)
        except NotStarted:
            os.close(source)
            os.close(target)
            raise
        finally:
            os.close(its_input)
            os.close(its_output)
        return cls(source, target, None, process)

    @classmethod
    def connect(cls, host: str, port: int, process: Optional[Process], timeout: float, ready: Optional[str] = None) -> Channel:
        """Connects to an adapter as soon as it listens, and not before its output has the text `ready`."""
        end = time.monotonic() + timeout
        if process is not None and ready is not None:
            process.wait_for_output(ready, timeout)
        while True:
            try:
                connection = connected(host, port, max(0.1, end - time.monotonic()))
                break
            except OSError as error:
                why = f"no adapter listens on {host}:{port}"
                status = process.status() if process else None
                if status:
                    raise NotStarted(f"{why}: it ended with status {status}") from None
                if time.monotonic() > end:
                    raise NotStarted(f"{why} within {timeout:g} seconds ({error})") from None
            time.sleep(0.02)
        connection.setsockopt(socket.IPPROTO_TCP, socket.TCP_NODELAY, 1)
        return cls(connection.fileno(), connection.fileno(), connection, process)

    def _is_over(self) -> bool:
        """Whether the process has ended, so nothing more can arrive. A child of it may still have the stream open."""
        status = self.process.status() if self.process else None
        return status is not None and (self._connection is None or status != 0)

    def receive(self, timeout: float) -> Optional[bytes]:
        """Returns the next piece, b"" at the end, or None after a timeout."""
        end = time.monotonic() + timeout
        poll = select.poll()
        poll.register(self._source, select.POLLIN)
        while True:
            over = self._is_over()
            wait = max(0.0, min(LOOK, end - time.monotonic()))
            if self._ended or poll.poll(0 if over else wait * 1000):
                return self._read()
            if over:
                return b""
            if time.monotonic() >= end:
                return None

    def _read(self) -> bytes:
        if self._ended:
            return b""
        try:
            piece = os.read(self._source, SIZE)
        except OSError:
            piece = b""
        self._ended = not piece
        return piece

    def send(self, piece: bytes, timeout: float, came: Callable[[bytes], None]) -> bool:
        """Sends bytes, and calls `came` with each piece that arrives meanwhile. Returns False if the adapter does not read them in time."""
        if self._target < 0:
            return True
        end, rest = time.monotonic() + timeout, memoryview(piece)
        poll = select.poll()
        poll.register(self._target, select.POLLOUT)
        if self._source != self._target:
            poll.register(self._source, select.POLLIN)
        else:
            poll.modify(self._target, select.POLLOUT | select.POLLIN)
        while rest:
            found = dict(poll.poll(LOOK * 1000))
            if found.get(self._source, 0) & ~select.POLLOUT and not self._ended:
                came(self._read())
            if found.get(self._target, 0) & ~select.POLLIN:
                try:
                    rest = rest[os.write(self._target, rest[:SIZE]):]
                except BlockingIOError:
                    pass
                except OSError:
                    return True
            if self._ended or self._is_over():
                return True
            if time.monotonic() > end:
                return False
        return True

    def end(self) -> None:
        """Closes the stream to the adapter: nothing more is sent."""
        with contextlib.suppress(OSError):
            if self._connection is not None:
                self._connection.shutdown(socket.SHUT_WR)
            elif self._target >= 0:
                os.close(self._target)
                self._target = -1

    def close(self) -> None:
        """Closes the streams and kills the process, if it still runs."""
        self.end()
        if self._connection is not None:
            self._connection.close()
        elif self._source >= 0:
            os.close(self._source)
        self._source = self._target = -1
        self._ended = True
        if self.process is not None:
            self.process.close()
