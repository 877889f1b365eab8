"""Prints the frames of one side of a recording, `client` or `adapter`: python3 scripts/one_direction.py adapter < session.rec"""
import re
import sys

SIDES = {b">": "client", b"<": "adapter"}
LENGTH = re.compile(rb"^content-length:[ \t]*(\d+)[ \t]*\r$", re.IGNORECASE | re.MULTILINE)


def records(recording):
    """The side, the frame and the content of each record, read without the program."""
    at = 0
    while at < len(recording):
        side, begin = SIDES[recording[at:at + 1]], at + 1
        content = recording.index(b"\r\n\r\n", begin) + 4
        end = content + int(LENGTH.search(recording[begin:content])[1])
        yield side, recording[begin:end], recording[content:end]
        at = end + 1


def one_direction(recording, side):
    """The frames of a side, and their contents."""
    of_side = [(frame, content) for sender, frame, content in records(recording) if sender == side]
    return [frame for frame, _ in of_side], [content for _, content in of_side]


def main():
    if len(sys.argv) != 2 or sys.argv[1] not in SIDES.values():
        sys.exit(__doc__)
    frames, _ = one_direction(sys.stdin.buffer.read(), sys.argv[1])
    sys.stdout.buffer.write(b"".join(frames))


if __name__ == "__main__":
    main()
