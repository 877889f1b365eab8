"""What `check` accepts and what it refuses, with limits that the program does not have and readers that fail."""
import sys

from tests.engines.driver import Asked, Call, Input, Limits, run_tests
from tests.engines.inputs import (
    FAILED_LINES, LEAST, OPEN, OPEN_ON_BOTH_SIDES, REFUSED_ENVELOPES, REFUSED_LINES, REFUSED_RECORDS, SESSION, SEVERAL_FAULTS, TWICE,
    accepted, last_end, nested,
)
from tests.program.worked_runs import BEGUN, CONFIGURED, OUTPUT, STOPPED, THREADS, recording, refusal


def check(text, complete=False, limits=Limits(), **how):
    return Call("check", Input(text, **how), complete=complete, limits=limits)


def lines(asked, each, result, complete=False):
    asked.ask(check(recording(each), complete), result)


def the_empty_recording_is_complete(report):
    asked = Asked(report, "the empty recording")
    lines(asked, [], accepted(0), complete=True)
    asked.close()


def open_requests_are_counted(report):
    asked = Asked(report, "open requests")
    lines(asked, OPEN, accepted(3, 1, 0))
    lines(asked, OPEN_ON_BOTH_SIDES, accepted(4, 1, 1))
    asked.close()


def a_complete_recording_has_no_open_requests(report):
    asked = Asked(report, "a complete recording")
    lines(asked, OPEN, "Err(Incomplete(1, 0))", complete=True)
    lines(asked, OPEN_ON_BOTH_SIDES, "Err(Incomplete(1, 1))", complete=True)
    lines(asked, CONFIGURED, accepted(5), complete=True)
    asked.close()


def accepted_lines(report):
    """A failed response needs no body and keeps what no row names; output may come before all else; the least number is a number."""
    asked = Asked(report, "accepted lines")
    lines(asked, FAILED_LINES, accepted(4))
    lines(asked, [OUTPUT], accepted(1))
    lines(asked, [STOPPED], "Err(Rule(1, NotInitialized))")
    lines(asked, LEAST, accepted(1, 1, 0))
    asked.close()


def refused_records(report):
    asked = Asked(report, "refused records")
    for text, cause in REFUSED_RECORDS:
        asked.ask(check(text), f"Err(Record(1, {cause}))")
    asked.close()


def refused_contents(report):
    asked = Asked(report, "refused contents")
    for line, refused in REFUSED_LINES:
        lines(asked, [*BEGUN, line], f"Err({refused})")
    for line, fault in REFUSED_ENVELOPES:
        lines(asked, [line], f"Err(Message(1, {fault}))")
    asked.close()


def the_first_record_that_is_refused_is_told(report):
    asked = Asked(report, "the first record that is refused")
    asked.ask(check(SEVERAL_FAULTS), "Err(Message(2, NotObject))")
    # A content that is no message is reported before the rule that its record would break.
    lines(asked, ['<{"type":"event"}'], "Err(Message(1, Missing(1)))")
    asked.close()


# How many bytes of the configured session are taken, and the answer. The byte past 106 is the marker of the next record; the normal text
# of two records is longer than 473 bytes.
LIMITED = [
    (0, "Err(InputTooLong(1))"), (10, "Err(InputTooLong(1))"), (106, "Err(InputTooLong(2))"), (473, "Err(Grew(2))"), (1708, "Err(Grew(5))"),
    (1709, accepted(5)),
]


def inputs_past_the_limit(report):
    asked = Asked(report, "inputs past the limit")
    report.check("the session has 473 bytes", len(SESSION) == 473)
    for most, wanted in LIMITED:
        for piece in (1, 65_536):
            asked.ask(check(SESSION, limits=Limits(input=most), piece=piece), wanted)
    # A fault of an earlier byte comes before the limit.
    asked.ask(check(b"!!", limits=Limits(input=1)), "Err(Record(1, BadMarker))")
    asked.close()


# How long a content may be, and the answer on two records. The content of the second is filled in.
LIMITED_CONTENTS = [
    (81, "Err(Record(1, Frame(ContentTooLong)))"), (82, "Err(Grew(2))"), (1314, "Err(Grew(2))"), (1315, accepted(2)),
]


def contents_past_their_limit(report):
    asked = Asked(report, "contents past their limit")
    for most, wanted in LIMITED_CONTENTS:
        asked.ask(check(recording(BEGUN), limits=Limits(content=most)), wanted)
    asked.close()


def contents_nest_127_deep(report):
    """Two objects are around the lists."""
    asked = Asked(report, "contents that nest")
    asked.ask(check(nested(125)), accepted(3, 1, 0))
    asked.ask(check(nested(126)), "Err(Json(3))")
    asked.close()


def an_endless_recording_ends_at_the_limit(report):
    """Eleven records have 968 bytes; the byte past the limit is in the twelfth."""
    asked = Asked(report, "an endless recording")
    output = recording([OUTPUT])
    report.check("a record of output has 88 bytes", len(output) == 88)
    asked.ask(check(b"", limits=Limits(input=1000), then=output, piece=64), "Err(InputTooLong(12))", given=(1001, 0))
    asked.close()


def cut_at(place, complete):
    """What is answered of so many bytes of the configured session. Open requests are not reported of a recording that is cut."""
    number, (at, client_open, _) = last_end(place)
    if at != place:
        return f"Err(Record({number + 1}, Cut))"
    return f"Err(Incomplete({client_open}, 0))" if complete and client_open else accepted(number, client_open)


def a_recording_cut_at_each_place(report):
    asked = Asked(report, "a recording cut at each place")
    for place in range(474):
        for complete in (False, True):
            asked.ask(check(SESSION[:place], complete), cut_at(place, complete))
    asked.close()


def a_reader_of_a_recording_that_fails(report):
    asked = Asked(report, "a reader that fails")
    for place in range(474):
        asked.ask(check(SESSION, fails_at=place), "Err(ReadFault)")
    asked.close()


def what_comes_before_a_reader_that_fails(report):
    """Open requests are not reported after a failed read; a broken rule is."""
    asked = Asked(report, "before a reader that fails")
    opened = recording([*BEGUN, THREADS])
    asked.ask(check(opened, complete=True, fails_at=len(opened)), "Err(ReadFault)")
    asked.ask(check(TWICE, fails_at=len(TWICE)), "Err(Rule(3, AnsweredTwice))")
    asked.close()


def a_failed_read_is_told(report):
    asked = Asked(report, "a failed read")
    call = Call("run-check", Input(SESSION, fails_at=10))
    asked.ask(call, "4", b"", errors=refusal("read fault"))
    asked.close()


TESTS = [
    the_empty_recording_is_complete, open_requests_are_counted, a_complete_recording_has_no_open_requests, accepted_lines, refused_records,
    refused_contents, the_first_record_that_is_refused_is_told, inputs_past_the_limit, contents_past_their_limit, contents_nest_127_deep,
    an_endless_recording_ends_at_the_limit, a_recording_cut_at_each_place, a_reader_of_a_recording_that_fails,
    what_comes_before_a_reader_that_fails, a_failed_read_is_told,
]

if __name__ == "__main__":
    sys.exit(run_tests(TESTS))
