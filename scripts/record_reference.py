"""Does the work of `dapnorm record` as a short Python script would, without validation.

`make bench` compares the two, and the tests use it as a second opinion."""
import re
import sys

LENGTH = re.compile(rb"^content-length:[ \t]*(\d+)[ \t]*\r$", re.IGNORECASE | re.MULTILINE)


def pieces(trace):
    """The marker and the bytes of each piece of a trace."""
    at = 0
    while at < len(trace):
        line = trace.index(b"\n", at)
        end = line + 1 + int(trace[at + 1:line])
        yield trace[at:at + 1], trace[line + 1:end]
        at = end


def recorded(trace):
    """The records of the frames in a trace, in the order in which they end."""
    out, open_frames = [], {b">": bytearray(), b"<": bytearray()}
    for marker, piece in pieces(trace):
        held = open_frames[marker]
        held += piece
        while (header := held.find(b"\r\n\r\n") + 4) > 3:
            length = int(LENGTH.search(held, 0, header)[1])
            if len(held) < header + length:
                break
            out.append(b"%sContent-Length: %d\r\n\r\n%s\n" % (marker, length, held[header:header + length]))
            del held[:header + length]
    return b"".join(out)


if __name__ == "__main__":
    sys.stdout.buffer.write(recorded(sys.stdin.buffer.read()))
