"""Makes a trace of the log that debugpy's adapter writes by itself.

    python3 -m debugpy.adapter --log-dir logs           # or the variable DEBUGPY_LOG_DIR
    python3 from_debugpy_log.py logs/debugpy.adapter-1234.log session.trace

Where more than one client has spoken, as for subprocesses, a third word says which: 2 is Client[2].
Each message between client and adapter becomes a piece: its content stands there as the log has it,
laid out over lines, and gets a header part. What the adapter says to the debugged program is left
out. The adapter notes a message when it has read or written it, so two that pass each other may
stand in another order than on the wire. The trace is written whole or not at all.
"""
import json
import os
import re
import sys

# An entry is a level, a time, perhaps lines that say what is being done, and a text, whose further
# lines are set in. An empty line ends it.
ENTRY = re.compile(r"[DIWE]\+\d+\.\d+: (?:/handling .*/\n +)*")
MESSAGE = re.compile(r"Client\[(\d+)\] (-->|<--) ")
MARKERS = {"-->": b">", "<--": b"<"}


class NoLog(Exception):
    """The text is no log of this form."""

    def __init__(self, text, at, why):
        super().__init__(f"line {text.count(chr(10), 0, at) + 1}: {why}")


def content_at(text, begin, end):
    """The content that is the rest of an entry."""
    content = text[begin:end]
    try:
        json.loads(content)
    except json.JSONDecodeError as error:
        why = f"the message is no JSON: {error.msg}"
        raise NoLog(text, begin + error.pos, why) from None
    return content


def messages(text):
    """The client, the marker and the content of each message."""
    at = 0
    while at < len(text):
        end = text.find("\n\n", at)
        entry = ENTRY.match(text, at)
        if end < 0 or not entry:
            raise NoLog(text, at, "no whole entry of debugpy's log")
        found = MESSAGE.match(text, entry.end())
        if found and text[at] == "D":
            content = content_at(text, found.end(), end)
            yield found[1], MARKERS[found[2]], content.encode()
        at = end + 2


def traced(log, client=None):
    """The trace of one client of a log."""
    try:
        text = log.decode()
    except UnicodeDecodeError as error:
        raise NoLog(log.decode("latin-1"), error.start, "the log is not UTF-8") from None
    pieces = {}
    for of_client, marker, content in messages(text):
        frame = b"Content-Length: %d\r\n\r\n%s" % (len(content), content)
        pieces.setdefault(of_client, []).append(b"%s%d\n%s" % (marker, len(frame), frame))
    if client is None and len(pieces) > 1:
        raise NoLog(text, len(text), f"the log has the clients {', '.join(pieces)}: say which")
    chosen = client or next(iter(pieces), "1")
    if chosen not in pieces:
        raise NoLog(text, len(text), f"the log has no message of Client[{chosen}]")
    return b"".join(pieces[chosen])


def main():
    if len(sys.argv) not in (3, 4):
        sys.exit(__doc__)
    log, trace, *client = sys.argv[1:]
    try:
        with open(log, "rb") as file:
            made = traced(file.read(), *client)
        with open(trace + ".new", "wb") as file:
            file.write(made)
        os.replace(trace + ".new", trace)
    except (OSError, NoLog) as error:
        sys.exit(f"{log}: {error}")


if __name__ == "__main__":
    main()
