"""Messages and their frames: a header part with the length, and JSON."""
from __future__ import annotations

import json
import re
from typing import Any, Dict, Iterator

from .errors import BadMessage

Message = Dict[str, Any]
END = b"\r\n\r\n"
LONGEST_HEADER = 4096
# A byte that is in no header part: neither printable nor a tab, and not a whole end of a line.
STRAY = re.compile(rb"[^\t\r\n -~]|\r(?=[^\n])|(?<!\r)\n")
FIELD = re.compile(rb"[!-9;-~]+:[\t -~]*")
LENGTH = re.compile(rb"(?:^|\r\n)content-length:[\t ]*(\d{1,10})[\t ]*(?:\r\n|$)", re.IGNORECASE)


def frame(message: Message) -> bytes:
    content = json.dumps(message).encode()
    return b"Content-Length: %d\r\n\r\n%s" % (len(content), content)


class Frames:
    """Reads messages from bytes that arrive in pieces. `unread` has the bytes after the last whole message."""

    def __init__(self) -> None:
        self.unread = bytearray()

    def feed(self, piece: bytes) -> Iterator[Message]:
        """Yields the messages that this piece ends. Raises `BadMessage` as soon as the bytes cannot be a message any more."""
        self.unread += piece
        while (at := self._end_of_header()) >= 0:
            found = LENGTH.search(bytes(self.unread[:at]))
            if found is None:
                raise self._bad("its header part has no Content-Length")
            end = at + len(END) + int(found[1])
            if len(self.unread) < end:
                break
            message = self._read(bytes(self.unread[at + len(END):end]))
            del self.unread[:end]
            yield message

    def _end_of_header(self) -> int:
        at = self.unread.find(END, 0, LONGEST_HEADER)
        header = bytes(self.unread[:at if at >= 0 else LONGEST_HEADER])
        lines = header.split(b"\r\n")
        if STRAY.search(header) or not all(map(FIELD.fullmatch, lines if at >= 0 else lines[:-1])):
            raise self._bad("they are not a header part")
        if at < 0 and len(self.unread) >= LONGEST_HEADER:
            raise self._bad("no header part is so long")
        return at

    def _read(self, content: bytes) -> Message:
        try:
            message = json.loads(content)
        except ValueError as error:
            raise self._bad(f"the content is not JSON: {error}") from None
        if not isinstance(message, dict) or message.get("type") not in ("request", "response", "event"):
            raise self._bad("the content is not a request, a response or an event")
        return message

    def _bad(self, why: str) -> BadMessage:
        return BadMessage(f"the adapter sent bytes that are not a message ({why}): {bytes(self.unread[:100])!r}")


def as_line(marker: str, message: Message) -> str:
    """The side, kind and name of a message, and why a response failed, or the output or the reason of an event."""
    body = message.get("body")
    inner = body if isinstance(body, dict) else {}
    name = message.get("event") or message.get("command")
    details = [name, "failed" if message.get("success") is False else None, message.get("message")]
    details += [inner.get(it) for it in ("error", "category", "output", "reason")]
    return " ".join([marker, str(message["type"]), *(json.dumps(it)[-200:] for it in details if it)])
