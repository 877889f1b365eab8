"""The limits of the program: how long a content and an input may be. Inputs of 4 GiB come through pipes, and take seconds."""
import fcntl
import subprocess
import sys
from threading import Timer

from tests.program.asked import judged, refuses
from tests.program.faulty import side_by_side
from tests.report import PROGRAM, run
from tests.program.worked_runs import frame, refusal

CONTENT, INPUT = 16_777_216, 4_294_967_296
# How many bytes a pipe holds, and after how many seconds a run is ended.
PIPE, SECONDS = 1 << 20, 100
ZEROS = bytes(PIPE)
# The number of the call that sets how many bytes a pipe holds; Python names it from 3.10 on.
SET_PIPE_SIZE = 1031


def lengths_of_contents(report):
    """A content may be as long as the limit, so that an input which ends in it is cut. A longer one is refused at its header part."""
    for words, marker in ((["compact"], b""), (["check"], b">"), (["normalise"], b">"), (["show"], b"<"), (["show", "--record", "1"], b"<")):
        for length, why in ((CONTENT, "Cut"), (CONTENT + 1, "ContentTooLong")):
            given = marker + b"Content-Length: %d\r\n\r\n" % length
            refuses(report, f"{words} of {length} bytes", words, given, f"record 1: {why}")
            refuses(report, f"{words} of {length} bytes, some of them there", words, given + b"{}" * (why == "Cut"), f"record 1: {why}")
    for length, why in ((CONTENT, "Cut"), (CONTENT + 1, "ContentTooLong")):
        header = b"Content-Length: %d\r\n\r\n" % length
        refuses(report, f"record of {length} bytes", ["record"], b"<%d\n%s" % (len(header), header), f"piece 1: adapter {why}")


def a_content_at_the_limit(report):
    text = frame('"' + "a" * (CONTENT - 2) + '"')
    status, output, errors = run(["compact"], text)
    report.check("compact of a content at the limit", (status, output == text, errors) == (0, True, b""), repr((status, len(output), errors)))


# A record of 16 MiB, whose content is looked at by nobody who seeks a later record. The limit of an input is 256 of them.
HEADER = b"<Content-Length: %d\r\n\r\n" % (CONTENT - 30)
RECORD = HEADER + bytes(CONTENT - 30) + b"\n"
FITTING = INPUT // CONTENT


def fed(words, texts):
    """The answer to texts that come through a pipe, and how many bytes went into the pipe until they ended or nobody read it."""
    with subprocess.Popen([PROGRAM, *words], stdin=subprocess.PIPE, stdout=subprocess.PIPE, stderr=subprocess.PIPE, bufsize=0) as process:
        fcntl.fcntl(process.stdin, SET_PIPE_SIZE, PIPE)
        timer = Timer(SECONDS, process.kill)
        timer.start()
        count = 0
        try:
            for text in texts:
                at = 0
                while at < len(text):
                    wrote = process.stdin.write(memoryview(text)[at:at + PIPE])
                    at, count = at + wrote, count + wrote
        except BrokenPipeError:
            pass
        process.stdin.close()
        output, errors = process.stdout.read(), process.stderr.read()
        process.wait()
        timer.cancel()
        return (process.returncode, output, errors), count


def records(more):
    for _ in range(FITTING):
        yield RECORD
    yield more


def without_end():
    yield b"X\r\n\r\n"
    while True:
        yield ZEROS


def lengths_of_inputs(report):
    """An input may be as long as the limit, and a byte past it is refused. An input without an end is read up to that byte, also after a
    refusal."""
    report.check("the records are as long as the limit", len(RECORD) == CONTENT and FITTING * len(RECORD) == INPUT)
    sought = ["show", "--record", str(FITTING + 1)]
    cases = [(sought, records(b"")), (sought, records(b"<")), (["compact"], without_end())]
    at_limit, past_limit, endless = side_by_side(lambda case: fed(*case), cases)
    wanted = (2, b"", f"dapnorm: no record {FITTING + 1}: the recording has {FITTING}\n".encode())
    report.check("an input at the limit", at_limit == (wanted, INPUT), repr(at_limit))
    wanted = (2, b"", refusal(f"record {FITTING + 1}: InputTooLong"))
    report.check("an input of one byte more", past_limit == (wanted, INPUT + 1), repr(past_limit))
    answer, count = endless
    held = answer == (2, b"", refusal("record 1: HeaderLine")) and INPUT < count <= INPUT + 1 + PIPE
    report.check("an input without an end", held, repr(endless))


if __name__ == "__main__":
    sys.exit(judged(lengths_of_contents, a_content_at_the_limit, lengths_of_inputs))
