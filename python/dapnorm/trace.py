"""Traces: the raw bytes of both sides of a session, in the order in which they arrived. docs/FORMATS.md has the format."""
from __future__ import annotations

import threading
from typing import BinaryIO

CLIENT, ADAPTER = b">", b"<"


class Trace:
    """Writes a trace. A piece is written before it is passed on, so no response precedes its request."""

    def __init__(self, file: BinaryIO) -> None:
        self._file, self._lock = file, threading.Lock()

    def note(self, marker: bytes, piece: bytes) -> None:
        with self._lock:
            self._file.write(b"%s%d\n%s" % (marker, len(piece), piece))
            self._file.flush()
