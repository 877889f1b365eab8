"""What `record` writes of a trace and what it refuses, with limits that the program does not have and devices that fail."""
import sys

from tests.engines.driver import Asked, Call, Input, Limits, Output, run_tests
from tests.program.worked_runs import FIRST_RECORD, OF_ADAPTER, RECORDED, TRACE


def record(text, limits=Limits(), output=Output(), **how):
    return Call("record", Input(text, **how), limits=limits, output=output)


def recorded(place):
    """What is recorded of so many bytes of the trace."""
    return b"" if place < 43 else FIRST_RECORD if place < 63 else RECORDED


def frames_stand_in_the_order_of_their_last_bytes(report):
    asked = Asked(report, "the order of frames")
    for piece in (1, 7, 65_536):
        asked.ask(record(TRACE, output=Output(piece=piece), piece=piece), "Ok(())", RECORDED, flushes=1)
    asked.close()


# A trace, the answer, and what is written of it.
TRACES = [
    (b"", "Ok(())", b""),
    (b">01\n", "Err(Trace(1, BadCount))", b""),
    (b"x", "Err(Trace(1, BadMarker))", b""),
    (b">10\nCont", "Err(Trace(1, Cut))", b""),
    # What was recorded before a refusal is written.
    (OF_ADAPTER + b">10\nContent-Le", "Err(Recorder(2, Frame(Client, Cut)))", FIRST_RECORD),
    (OF_ADAPTER + b">0\n!", "Err(Trace(3, BadMarker))", FIRST_RECORD),
    # The cut of a piece is reported before that of a frame, and the client's before the adapter's.
    (b">1\nC<1\nC>1", "Err(Trace(3, Cut))", b""),
    (b"<1\nC>1\nC", "Err(Recorder(2, Frame(Client, Cut)))", b""),
    (b"<1\nC>0\n", "Err(Recorder(2, Frame(Adapter, Cut)))", b""),
    # The first fault in the order of the trace is reported.
    (b">8\nX: 1\r\n\r\n!", "Err(Recorder(1, Frame(Client, NoLength)))", b""),
    (b"<3\nX: !", "Err(Trace(2, BadMarker))", b""),
]


def traces_and_their_recordings(report):
    asked = Asked(report, "traces")
    for text, result, written in TRACES:
        asked.ask(record(text), result, written)
        asked.ask(record(text, output=Output(piece=1), piece=1), result, written)
    asked.close()


# A trace, how many bytes of it are taken, why it is refused, and what is written of it. It is reported before a fault that the byte past
# the limit shows, and after one that an earlier byte shows.
LIMITED = [
    (TRACE, 43, "TraceTooLong(3)", FIRST_RECORD), (TRACE, 42, "TraceTooLong(2)", b""), (TRACE, 0, "TraceTooLong(1)", b""),
    (b">x!", 1, "TraceTooLong(1)", b""), (b">x!", 2, "Trace(1, BadCount)", b""),
]


def a_byte_past_the_limit(report):
    asked = Asked(report, "a byte past the limit")
    for text, most, refused, written in LIMITED:
        asked.ask(record(text, Limits(input=most)), f"Err({refused})", written)
    asked.close()


def a_trace_without_end(report):
    asked = Asked(report, "a trace without end")
    asked.ask(record(b"", Limits(input=1000), then=b">0\n"), "Err(TraceTooLong(334))", b"")
    asked.close()


# After how many bytes pieces of the trace end, and the number of each; a frame of the client is open there.
CLIENT_CUT = {14: 1, 43: 2, 59: 3}


def cut_at(place):
    """What is answered of so many bytes of the trace."""
    if place in (0, 63):
        return "Ok(())"
    if place in CLIENT_CUT:
        return f"Err(Recorder({CLIENT_CUT[place]}, Frame(Client, Cut)))"
    return f"Err(Trace({1 + sum(end < place for end in CLIENT_CUT)}, Cut))"


def a_cut_at_each_place(report):
    asked = Asked(report, "a cut at each place")
    report.check("the trace has 63 bytes", len(TRACE) == 63)
    for place in range(64):
        asked.ask(record(TRACE[:place]), cut_at(place), recorded(place))
    asked.close()


def a_reader_that_fails(report):
    asked = Asked(report, "a reader that fails")
    for place in range(64):
        asked.ask(record(TRACE, output=Output(piece=5), piece=5, fails_at=place), "Err(ReadFault)", recorded(place))
    asked.ask(record(b"x", fails_at=1), "Err(Trace(1, BadMarker))", b"")
    asked.close()


# A prefix of the trace, and what is written of it.
WRITTEN = [(63, RECORDED), (50, FIRST_RECORD)]


def a_writer_that_fails(report):
    asked = Asked(report, "a writer that fails")
    for length, written in WRITTEN:
        for place in range(len(written)):
            for takes_nothing in (False, True):
                output = Output(piece=3, fails_at=place, takes_nothing=takes_nothing)
                asked.ask(record(TRACE[:length], output=output), "Err(WriteFault)", written[:place])
    asked.close()


def a_flush_that_fails(report):
    asked = Asked(report, "a flush that fails")
    for length, written in WRITTEN:
        asked.ask(record(TRACE[:length], output=Output(fails_to_flush=True)), "Err(WriteFault)", written)
    asked.close()


TESTS = [
    frames_stand_in_the_order_of_their_last_bytes, traces_and_their_recordings, a_byte_past_the_limit, a_trace_without_end,
    a_cut_at_each_place, a_reader_that_fails, a_writer_that_fails, a_flush_that_fails,
]

if __name__ == "__main__":
    sys.exit(run_tests(TESTS))
