"""Checks the faults of frames, records and traces, and records that come in small parts."""
import sys
import tempfile

from tests.program.asked import asks, asks_of_files, judged, refuses
from tests.program.faulty import Faulty
from tests.program.worked_runs import INITIALIZE, RECORDED, TRACE, Run, frame, record

# Frames of one direction, and the first fault.
FRAMES = {
    "header faults": [
        (b"Content-Length 5\r\n\r\n", "HeaderLine"),
        (b"\r\n\r\n", "HeaderLine"),
        (b"X: 1\r\n\r\n", "NoLength"),
        (b"Content-Length: 2\r\nContent-Length: 2\r\n\r\n", "TwoLengths"),
        (b"Content-Length: +5\r\n\r\n", "BadLength"),
        (b"Content-Length: 12345678901\r\n\r\n", "BadLength"),
        (b"Content-Length: 00000000002\r\n\r\n{}", "BadLength"),
        (b"Content-Length: \r\n\r\n", "BadLength"),
        (b"Content-Length: 2\r\r\n\r\n{}", "HeaderLine"),
        (b"Content-Length: 2\r\n\r", "Cut"),
    ],
    "the first fault of the whole header part": [
        (b"Content-Length: +5\r\nContent-Length 5\r\n\r\n", "HeaderLine"),
        (b"Content-Length: 16777217\r\nContent-Length: 2\r\n\r\n", "TwoLengths"),
    ],
    # The fault is reported without any content, and not before the end of the header part.
    "a content that is too long": [
        (b"Content-Length: 16777217\r\n\r", "Cut"),
        (b"Content-Length: 16777217\r\n\r\n", "ContentTooLong"),
        (b"Content-Length: 16777216\r\n\r\n", "Cut"),
    ],
    "a header part that is too long": [(b"a" * 4096, "HeaderTooLong"), (b"a" * 4095, "Cut")],
}

# Header parts of a content of two bytes: the usual one, and others that state the same length.
HEADERS = [
    b"Content-Length: 2\r\n\r\n",
    b"Content-Length: 000000002\r\n\r\n",
    b"Content-Length: 0000000002\r\n\r\n",
    b"Content-Length: 2 \r\n\r\n",
    b"Content-Length:2\r\n\r\n",
    b"content-length: 2\r\n\r\n",
    b"Content-Length: 2\r\nX: 1\r\n\r\n",
    b"X: 1\r\nContent-Length: 2\r\n\r\n",
]

# A recording of at most one record, and its fault.
RECORDS = [
    (b"!", "BadMarker"),
    (b">Content-Length: 2\r\n\r\n{}x", "NoLineEnd"),
    (b">Content-Length: 82\r\n\r\n" + INITIALIZE[1:-1].encode(), "Cut"),
    (b">Content-Length: 2\r\n\r\n{}", "Cut"),
    (b">", "Cut"),
    (b">Content-Length: 16777217\r\n\r\n", "ContentTooLong"),
]

# Traces, and the piece and the fault that each is refused for.
TRACES = [
    (b">01\n", "piece 1: BadCount"),
    (b">\n", "piece 1: BadCount"),
    (b">1x", "piece 1: BadCount"),
    (b">99999999990", "piece 1: BadCount"),
    (b">9999999999", "piece 1: Cut"),
    (b"x", "piece 1: BadMarker"),
    (b">10\nCont", "piece 1: Cut"),
    (b"<0\n>2\n{}!", "piece 3: BadMarker"),
    # The pieces are whole, and the frame of the client is not.
    (b"<0\n>2\n{}", "piece 2: client Cut"),
    (b">20\nContent-Length 5\r\n\r\n", "piece 1: client HeaderLine"),
    (b"<10\nContent-Le", "piece 1: adapter Cut"),
]

# The pieces of a trace, in which each side's frame ends in another piece than it begins.
PIECES = [(b">", b"Content-Le"), (b"<", frame("null")), (b">", b"ngth: 2\r\n\r\n{"), (b">", b"}")]

TWO_RECORDS = b">Content-Length: 2\r\n\r\n{}\n<Content-Length: 4\r\n\r\nnull\n"


def faults_of_frames(report):
    for name, rows in FRAMES.items():
        for number, (given, fault) in enumerate(rows, 1):
            refuses(report, f"{name}, row {number}", ["compact"], given, f"record 1: {fault}")


def header_parts(report):
    """Checks that header parts that state the same length are read alike, one after another."""
    for number, header in enumerate(HEADERS, 1):
        asks(report, f"header part {number}", ["compact"], 2 * (header + b"{}"), (0, 2 * frame("{}"), b""))
    given = b"".join(b">" + header + b"{}\n" for header in HEADERS)
    asks_of_files(report, "header parts", ["mask", "rules"], {"rules": b""}, given, (0, len(HEADERS) * record(">{}"), b""))


def faults_of_records(report):
    report.check("the cut content lacks a byte", record(INITIALIZE).startswith(b">Content-Length: 82\r\n\r\n"))
    for number, (given, fault) in enumerate(RECORDS, 1):
        refuses(report, f"record faults, row {number}", ["check"], given, f"record 1: {fault}")
    asks(report, "no record", ["check"], b"", (0, b"accepted records=0 open=0,0\n", b""))


def faults_of_traces(report):
    for number, (given, fault) in enumerate(TRACES, 1):
        refuses(report, f"trace faults, row {number}", ["record"], given, fault)
    asks(report, "no piece", ["record"], b"", (0, b"", b""))
    asks(report, "whole pieces", ["record"], b"<0\n>23\n" + frame("{}"), (0, record(">{}"), b""))


def trace_of(size):
    """Returns the trace of the pieces, each cut into pieces of at most this many bytes."""
    parts = [(side, text[at:at + size]) for side, text in PIECES for at in range(0, len(text), size)]
    return b"".join(b"%s%d\n%s" % (side, len(part), part) for side, part in parts)


def order_of_last_bytes(report):
    """Checks that records stand in the order of their last bytes, however each side's bytes are cut."""
    report.check("the whole pieces are the trace", trace_of(63) == TRACE)
    for size in range(1, 64):
        asks(report, f"pieces of at most {size} bytes", ["record"], trace_of(size), (0, RECORDED, b""))


def records_written_again(report):
    """Checks that records are written as they came, also if they come a byte at a time."""
    answer = (0, TWO_RECORDS, b"")
    asks_of_files(report, "two records", ["mask", "rules"], {"rules": b""}, TWO_RECORDS, answer)
    with tempfile.TemporaryDirectory() as folder:
        found = Faulty(folder).run(Run("", ["mask", "rules"], TWO_RECORDS, {"rules": b""}, None), read=1)
    report.check("two records, a byte at a time", found == answer, repr(found))


if __name__ == "__main__":
    sys.exit(judged(faults_of_frames, header_parts, faults_of_records, faults_of_traces, order_of_last_bytes, records_written_again))
