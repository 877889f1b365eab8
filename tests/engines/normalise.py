"""What `normalise` writes and what it refuses, with limits that the program does not have and devices that fail."""
import sys

from tests.engines.driver import Asked, Call, Input, Limits, Output, run_tests
from tests.engines.inputs import NO_LINE_END, NORMAL, NORMAL_FORMS, REFUSED_CONTENTS, SESSION, THREE_FRAMES, TOO_LONG, TWICE, last_end, nested
from tests.program.worked_runs import BEGUN, DONE, INITIALIZE, INITIALIZED, NORMAL_BEGUN, STACK, recording, refusal


def normalise(text, limits=Limits(), output=Output(), **how):
    return Call("normalise", Input(text, **how), limits=limits, output=output)


def whole(text, limits=Limits()):
    """The text at once from `normalise_bytes`."""
    return Call("normalise-bytes", Input(text), limits=limits)


def normal_forms(report):
    """Each normal form, which is its own."""
    asked = Asked(report, "normal forms")
    for each, normal_lines in NORMAL_FORMS:
        wanted = recording(normal_lines)
        asked.ask(normalise(recording(each)), "Ok(())", wanted)
        asked.ask(whole(recording(each)), "Ok(Whole)", wanted)
        asked.ask(normalise(wanted), "Ok(())", wanted)
    asked.close()


def refuses(asked, text, written, refused, limits=Limits()):
    """Asks that `normalise_bytes`, `check` and `normalise` answer this refusal, with the records of these lines written and flushed,
    whether the input comes at once or a byte at a time."""
    asked.ask(whole(text, limits), f"Err({refused})")
    for piece in (1, 65_536):
        call = normalise(text, limits, Output(piece=piece), piece=piece)
        asked.ask(call, f"Err({refused})", recording(written), flushes=1)
        asked.ask(call._replace(name="check"), f"Err({refused})")


def refused_contents(report):
    asked = Asked(report, "refused contents")
    for each, written, refused in REFUSED_CONTENTS:
        refuses(asked, recording(each), written, refused)
    asked.close()


def refused_records(report):
    asked = Asked(report, "refused records")
    for text, cause in ((b"!", "BadMarker"), (NO_LINE_END, "NoLineEnd"), (TOO_LONG, "Frame(ContentTooLong)")):
        refuses(asked, text, [], f"Record(1, {cause})")
    refuses(asked, recording([INITIALIZE])[:105], [], "Record(1, Cut)")
    asked.close()


# How many bytes of the configured session are taken, the lines that are written, and the refusal.
LIMITED = [
    (10, [], "InputTooLong(1)"), (106, [INITIALIZE], "InputTooLong(2)"), (473, [INITIALIZE], "Grew(2)"),
    (1708, [*NORMAL_BEGUN, INITIALIZED, DONE], "Grew(5)"),
]


def the_input_limit_is_that_of_the_normal_text_too(report):
    asked = Asked(report, "the input limit")
    for most, written, refused in LIMITED:
        refuses(asked, SESSION, written, refused, Limits(input=most))
    report.check("the normal text has 1,709 bytes", len(NORMAL) == 1709)
    asked.ask(normalise(SESSION, Limits(input=1709)), "Ok(())", NORMAL)
    asked.close()


def contents_nest_127_deep(report):
    asked = Asked(report, "contents that nest")
    asked.ask(normalise(nested(125)), "Ok(())", nested(125, NORMAL_BEGUN))
    refuses(asked, nested(126), NORMAL_BEGUN, "Json(3)")
    asked.close()


def a_filled_content_may_pass_its_limit(report):
    asked = Asked(report, "a filled content")
    refuses(asked, recording(BEGUN), [INITIALIZE], "Grew(2)", Limits(content=200))
    asked.close()


def too_many_ids(report):
    asked = Asked(report, "too many ids")
    refuses(asked, recording(THREE_FRAMES), [*NORMAL_BEGUN, STACK], "TooManyIds(4)", Limits(ids=2))
    refuses(asked, recording([INITIALIZE]), [], "TooManyIds(1)", Limits(ids=0))
    asked.close()


def the_program_writes_the_normal_text_and_one_line_of_a_refusal(report):
    asked = Asked(report, "the program")
    call = Call("run-normalise", Input(SESSION))
    asked.ask(call, "0", NORMAL, errors=b"")
    asked.ask(call._replace(limits=Limits(ids=1)), "2", recording(NORMAL_BEGUN), errors=refusal("record 3: TooManyIds"))
    asked.close()


def normal_so_far(place):
    """The normal text of the records that end within so many bytes of the configured session."""
    return NORMAL[:last_end(place)[1][2]]


def a_reader_of_a_recording_that_fails(report):
    asked = Asked(report, "a reader that fails")
    for place in range(474):
        for piece in (5, 65_536):
            call = normalise(SESSION, output=Output(piece=piece), piece=piece, fails_at=place)
            asked.ask(call, "Err(ReadFault)", normal_so_far(place), flushes=1)
    asked.close()


def a_broken_rule_comes_before_a_reader_that_fails(report):
    asked = Asked(report, "a broken rule before a reader that fails")
    asked.ask(normalise(TWICE, fails_at=len(TWICE)), "Err(Rule(3, AnsweredTwice))", recording(NORMAL_BEGUN), flushes=1)
    asked.close()


def fails_to_write(report, takes_nothing):
    """A write fault and a prefix of the normal text, at each place of the text."""
    asked = Asked(report, "a writer that takes nothing" if takes_nothing else "a writer that fails")
    for place in range(1709):
        output = Output(piece=1, fails_at=place, takes_nothing=takes_nothing)
        asked.ask(normalise(SESSION, output=output), "Err(WriteFault)", NORMAL[:place], flushes=0)
    asked.close()


def a_writer_of_a_normal_text_that_fails(report):
    fails_to_write(report, False)


def a_writer_of_a_normal_text_that_takes_nothing(report):
    fails_to_write(report, True)


def a_normal_text_may_go_out_byte_by_byte(report):
    asked = Asked(report, "a normal text byte by byte")
    asked.ask(normalise(SESSION, output=Output(piece=1)), "Ok(())", NORMAL, flushes=1)
    asked.close()


# An input, after how many bytes its reader fails, and how many bytes of the normal text are written.
UNFLUSHED = [(SESSION, None, 1709), (SESSION[:300], None, 1517), (b"!", None, 0), (b"", None, 0), (SESSION, 400, 1597), (TWICE, None, 1447)]


def a_flush_that_fails_comes_before_any_other_answer(report):
    asked = Asked(report, "a flush that fails")
    for text, fails_at, written in UNFLUSHED:
        how = {} if fails_at is None else {"fails_at": fails_at}
        asked.ask(normalise(text, output=Output(fails_to_flush=True), **how), "Err(WriteFault)", NORMAL[:written])
    asked.close()


def a_flush_that_fails_is_told_in_the_place_of_a_refusal(report):
    asked = Asked(report, "a flush that fails, reported")
    call = Call("run-normalise", Input(TWICE))
    begun = recording(NORMAL_BEGUN)
    asked.ask(call._replace(output=Output(fails_to_flush=True)), "4", begun, errors=refusal("write fault"))
    asked.ask(call, "2", begun, errors=refusal("record 3: AnsweredTwice"))
    asked.close()


def a_failed_read_is_told_after_what_was_written(report):
    asked = Asked(report, "a failed read, reported")
    asked.ask(Call("run-normalise", Input(SESSION, fails_at=211)), "4", recording(NORMAL_BEGUN), errors=refusal("read fault"))
    asked.close()


TESTS = [
    normal_forms, refused_contents, refused_records, the_input_limit_is_that_of_the_normal_text_too, contents_nest_127_deep,
    a_filled_content_may_pass_its_limit, too_many_ids, the_program_writes_the_normal_text_and_one_line_of_a_refusal,
    a_reader_of_a_recording_that_fails, a_broken_rule_comes_before_a_reader_that_fails, a_writer_of_a_normal_text_that_fails,
    a_writer_of_a_normal_text_that_takes_nothing, a_normal_text_may_go_out_byte_by_byte, a_flush_that_fails_comes_before_any_other_answer,
    a_flush_that_fails_is_told_in_the_place_of_a_refusal, a_failed_read_is_told_after_what_was_written,
]

if __name__ == "__main__":
    sys.exit(run_tests(TESTS))
