"""Rows of `compact`, `show`, `check`, `record` and `normalise_bytes` with limits that the program does not have, with devices that fail,
and with counted flushes."""
import sys

from tests.engines.driver import Asked, Call, Input, Limits, Output, run_tests
from tests.program.worked_runs import (
    CANONICAL, COMPACTED, CONFIGURED, FIRST_RECORD, LOOSE, OUTPUT, SESSIONS, SHOWN, TRACE, frame, recording, refusal,
)

# Without the space after the colon the header has a byte less than the one that is written.
SHORT = b"Content-Length:2\r\n\r\n{}"

# A character of one byte that might be an escape.
DELETE = b'Content-Length: 3\r\n\r\n"\x7f"'

# How many bytes a content and an input may have, and what is written of an input or why it is refused.
LIMITED = [
    (frame(LOOSE), 16_777_216, 37, frame(CANONICAL)),
    (frame(LOOSE), 16_777_216, 36, "InputTooLong(1)"),
    (frame(LOOSE), 14, 37, "Record(1, Frame(ContentTooLong))"),
    (SHORT, 16_777_216, 22, "Grew(1)"),
    (SHORT, 16_777_216, 23, frame("{}")),
    # An escape in six bytes of input becomes a character of one byte, and a character of one byte stays as it is.
    (DELETE, 3, 37, DELETE),
    (b"", 0, 0, b""),
    (b"C", 0, 0, "InputTooLong(1)"),
]


def inputs_and_texts_past_a_limit(report):
    asked = Asked(report, "compact with limits")
    for text, content, most, wanted in LIMITED:
        result, written = ("Ok(())", wanted) if isinstance(wanted, bytes) else (f"Err({wanted})", b"")
        asked.ask(Call("compact", Input(text), limits=Limits(content=content, ids=0, input=most)), result, written)
    asked.close()


def an_endless_input_ends_at_the_limit(report):
    """One frame of 37 bytes and 27 of 35 arrive. The byte past the limit is in the next frame."""
    asked = Asked(report, "endless frames")
    endless = Input(frame(LOOSE), then=frame(CANONICAL), piece=64)
    asked.ask(Call("compact", endless, limits=Limits(input=1000)), "Err(InputTooLong(29))", b"")
    asked.close()


def a_text_is_flushed_once(report):
    """The output is flushed once, whatever the pieces are."""
    asked = Asked(report, "flushes")
    given, written = COMPACTED["fields and case"]
    for piece in (1, 7, 65_536):
        asked.ask(Call("compact", Input(given, piece=piece), output=Output(piece=piece)), "Ok(())", written, flushes=1)
    asked.ask(checked(Output(piece=1)), "0", ACCEPTED, errors=b"", flushes=1)
    asked.close()


def neither_ids_nor_growth_are_limited(report):
    """`show` obeys the limits of contents and of the input alone."""
    asked = Asked(report, "show with limits")
    given = recording(SESSIONS["frames"][0])
    for most, result, shown in ((len(given), "Ok(())", SHOWN["frames"].encode()), (len(given) - 1, "Err(InputTooLong(4))", b"")):
        asked.ask(Call("show", Input(given), limits=Limits(content=200, ids=0, input=most)), result, shown)
    asked.close()


ACCEPTED = b"accepted records=5 open=0,0\n"


def checked(output):
    return Call("run-check", Input(recording(CONFIGURED)), complete=True, output=output)


def a_line_that_cannot_be_written_is_a_write_fault(report):
    """After the last byte of the line it is the flush that fails."""
    asked = Asked(report, "the line of check")
    report.check("the line has 28 bytes", len(ACCEPTED) == 28)
    for place in range(29):
        for takes_nothing in (False, True):
            output = Output(piece=3, fails_at=place, takes_nothing=takes_nothing, fails_to_flush=place == 28)
            asked.ask(checked(output), "4", ACCEPTED[:place], errors=refusal("write fault"))
    asked.close()


def lines_of_refusals(report):
    """The lines of refusals that only lower limits show. Two records of output have 176 bytes, and two pieces of the trace have 43."""
    asked = Asked(report, "lines of refusals")
    for name, given, most, written, line in (
        ("run-check", recording([OUTPUT] * 3), 176, b"", "record 3: InputTooLong"),
        ("run-check", recording(CONFIGURED), 473, b"", "record 2: Grew"),
        ("run-record", TRACE, 43, FIRST_RECORD, "piece 3: TraceTooLong"),
    ):
        asked.ask(Call(name, Input(given), limits=Limits(input=most)), "2", written, errors=refusal(line))
    asked.close()


def old_golden_files_are_normalised_anew(report):
    asked = Asked(report, "normalise_bytes")
    for name in ("an old golden file with threads", "an old golden file with breakpoints"):
        lines, normal, _ = SESSIONS[name]
        asked.ask(Call("normalise-bytes", Input(recording(lines))), "Ok(Whole)", recording(normal))
    asked.close()


def main():
    return run_tests([
        inputs_and_texts_past_a_limit, an_endless_input_ends_at_the_limit, a_text_is_flushed_once, neither_ids_nor_growth_are_limited,
        a_line_that_cannot_be_written_is_a_write_fault, lines_of_refusals, old_golden_files_are_normalised_anew,
    ])


if __name__ == "__main__":
    sys.exit(main())
