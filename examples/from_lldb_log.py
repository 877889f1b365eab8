"""Makes a trace of the log that lldb-vscode, or lldb-dap as it is called now, writes by itself.

    LLDBVSCODE_LOG=session.log lldb-vscode              # before LLVM 18
    LLDBDAP_LOG=session.log lldb-dap                    # since then
    python3 from_lldb_log.py session.log session.trace

Each message of the log becomes a piece: its content stands there as the log has it, and gets a
header part. The adapter notes a message when it has read or written it, so two that pass each other
may stand in another order than on the wire. The trace is written whole or not at all.
"""
import json
import os
import re
import sys

# A message is `--> ` (of the client) or `<-- ` (of the adapter), perhaps after a time and the name
# of the client, then perhaps the header part on lines of its own, and the content. A note of
# something else has a time too.
TIME = r"(?:\d+\.\d+|\[[\d:.]+\]) "
SIDE = r"(?:\((.*?)\) )?(-->|<--) "
MESSAGE = re.compile(rf"(?:{TIME})?{SIDE}(?:\nContent-Length: \d+\r\n\r\n)?")
NOTE = re.compile(rf"{TIME}(?!{SIDE}).*\n")
MARKERS = {"-->": b">", "<--": b"<"}


class NoLog(Exception):
    """The text is no log of this form."""

    def __init__(self, text, at, why):
        super().__init__(f"line {text.count(chr(10), 0, at) + 1}: {why}")


def content_at(text, begin):
    """The content that begins here, and where its line has ended."""
    try:
        _, end = json.JSONDecoder().raw_decode(text, begin)
    except json.JSONDecodeError as error:
        raise NoLog(text, error.pos, f"the message is no JSON: {error.msg}") from None
    if text[end:end + 1] != "\n":
        raise NoLog(text, end, "something stands behind the message")
    return text[begin:end], end + 1


def messages(text):
    """The marker and the content of each message."""
    at, clients = 0, set()
    while at < len(text):
        if found := MESSAGE.match(text, at):
            clients.add(found[1])
            if len(clients) > 1:
                raise NoLog(text, at, "a second client: the log has more than one session")
            content, at = content_at(text, found.end())
            yield MARKERS[found[2]], content.encode()
        elif found := NOTE.match(text, at):
            at = found.end()
        else:
            raise NoLog(text, at, "neither a message nor a note of the adapter")


def traced(log):
    """The trace of a log."""
    try:
        text = log.decode()
    except UnicodeDecodeError as error:
        raise NoLog(log.decode("latin-1"), error.start, "the log is not UTF-8") from None
    pieces = []
    for marker, content in messages(text):
        frame = b"Content-Length: %d\r\n\r\n%s" % (len(content), content)
        pieces.append(b"%s%d\n%s" % (marker, len(frame), frame))
    if not pieces:
        raise NoLog(text, 0, "the log has no message")
    return b"".join(pieces)


def main():
    if len(sys.argv) != 3:
        sys.exit(__doc__)
    log, trace = sys.argv[1:]
    try:
        with open(log, "rb") as file:
            made = traced(file.read())
        with open(trace + ".new", "wb") as file:
            file.write(made)
        os.replace(trace + ".new", trace)
    except (OSError, NoLog) as error:
        sys.exit(f"{log}: {error}")


if __name__ == "__main__":
    main()
