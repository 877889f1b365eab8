"""Passes on what a client and a debug adapter send to each other over standard streams, and writes a trace of it.

    python3 -m dapnorm.tee session.trace ADAPTER [ARGUMENT..]

A client starts this in the place of the adapter, and notices no difference: standard error is the adapter's, and signals go to the
adapter. It ends with the adapter, and has its status; if a signal killed the adapter, 128 and the number of the signal. Each piece is
what one read returned: `>` (of the client) or `<` (of the adapter), its length, LF, and its bytes. A piece is written before it is
passed on, so no response precedes its request.
"""
from __future__ import annotations

import contextlib
import os
import select
import signal
import subprocess
import sys
import threading
from types import FrameType
from typing import Callable, Iterable, Iterator, List, Optional, Sequence

from .trace import ADAPTER, CLIENT, Trace

SIZE = 65536
# What a client or a terminal may send to end or to stop an adapter.
PASSED_ON = (signal.SIGTERM, signal.SIGINT, signal.SIGHUP, signal.SIGQUIT, signal.SIGUSR1, signal.SIGUSR2)


def own_name(module: str) -> str:
    """The name for messages: that of the script that runs, or of the module."""
    name = os.path.basename(sys.argv[0])
    return f"dapnorm.{module}" if name == f"{module}.py" else name


def asks_for_help(arguments: List[str], text: str) -> bool:
    """Prints the help if the first argument asks for it, and returns whether it does."""
    is_asked = arguments[:1] in (["-h"], ["--help"])
    if is_asked:
        print(text.rstrip())
    return is_asked


def write_all(target: int, piece: bytes) -> None:
    """Writes a piece to a descriptor, which may be one that does not block."""
    rest = memoryview(piece)
    while rest:
        try:
            rest = rest[os.write(target, rest):]
        except BlockingIOError:
            select.select([], [target], [], 1)


@contextlib.contextmanager
def signals_wait(numbers: Iterable[signal.Signals] = PASSED_ON) -> Iterator[Callable[[], None]]:
    """Signals of these numbers wait until the end of the block. Yields the call with which a child gets them at once.

    So a signal that arrives while the adapter starts is passed on, and does not end this process without the adapter.
    """
    before = signal.pthread_sigmask(signal.SIG_BLOCK, numbers)

    def let_in() -> None:
        signal.pthread_sigmask(signal.SIG_SETMASK, before)

    try:
        yield let_in
    finally:
        let_in()


def pass_signals_on(process: "subprocess.Popen[bytes]", numbers: Iterable[signal.Signals] = PASSED_ON) -> None:
    """From now on the process gets the signals of these numbers that this one gets."""
    def pass_on(number: int, _frame: Optional[FrameType]) -> None:
        with contextlib.suppress(OSError):
            process.send_signal(number)

    for number in numbers:
        signal.signal(number, pass_on)


def status_of(process: "subprocess.Popen[bytes]") -> int:
    """The status of a process that ends, as a shell gives it."""
    status = process.wait()
    return status if status >= 0 else 128 - status


def pieces(process: "subprocess.Popen[bytes]", source: int) -> Iterator[bytes]:
    """What a process writes, to its end: a child of it may hold its stream open."""
    poll = select.poll()
    poll.register(source, select.POLLIN)
    while True:
        is_over = process.poll() is not None
        if poll.poll(0 if is_over else 100):
            piece = os.read(source, SIZE)
            if not piece:
                return
            yield piece
        elif is_over:
            return


def from_client(adapter: "subprocess.Popen[bytes]", trace: Trace) -> None:
    assert adapter.stdin is not None
    with contextlib.suppress(BrokenPipeError):  # the adapter has ended
        while piece := os.read(sys.stdin.fileno(), SIZE):
            trace.note(CLIENT, piece)
            write_all(adapter.stdin.fileno(), piece)
        adapter.stdin.close()


def to_client(adapter: "subprocess.Popen[bytes]", trace: Trace) -> None:
    assert adapter.stdout is not None
    is_there = True
    for piece in pieces(adapter, adapter.stdout.fileno()):
        trace.note(ADAPTER, piece)
        try:
            if is_there:
                write_all(sys.stdout.fileno(), piece)
        except BrokenPipeError:
            is_there = False  # the client has ended; the adapter must not wait for it


def main(words: Optional[Sequence[str]] = None) -> int:
    arguments: List[str] = list(sys.argv[1:] if words is None else words)
    if asks_for_help(arguments, __doc__):
        return 0
    if len(arguments) < 2:
        sys.exit(__doc__)
    try:
        with signals_wait() as let_in:
            adapter = subprocess.Popen(arguments[1:], stdin=subprocess.PIPE, stdout=subprocess.PIPE, bufsize=0, preexec_fn=let_in)
            pass_signals_on(adapter)
    except OSError as error:
        sys.exit(f"{own_name('tee')}: the adapter does not start: {error}")
    try:
        with open(arguments[0], "wb") as file:
            trace = Trace(file)
            threading.Thread(target=from_client, args=(adapter, trace), daemon=True).start()
            to_client(adapter, trace)
            return status_of(adapter)
    except OSError as error:
        adapter.kill()
        sys.exit(f"{own_name('tee')}: the trace cannot be written: {error}")


if __name__ == "__main__":
    sys.exit(main())
