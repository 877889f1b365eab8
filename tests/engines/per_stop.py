"""Names that begin again at each stop: after a `stopped` event frame ids and variables references count from 1 again, and all other ids
go on."""
import sys

from tests.engines.driver import Asked, Call, Input, Limits, Output, run_tests
from tests.engines.inputs import NORMAL_FORMS, NORMAL_PER_STOP, NORMAL_WHOLE, REFUSED_CONTENTS, STALE_FRAME, accepted
from tests.program.worked_runs import (
    BEGUN, EVALUATE, NEW_FRAME, NORMAL_BEGUN, RESULT, SECOND_STOP, STACK, STOP_PAIRS, STOPPED, recording, refusal, renumbered,
)


def call_of(name, lines, mode, other=(), **more):
    return Call(name, Input(recording(lines)), Input(recording(other)), mode=mode, **more)


# The pairs of two stops whose second frames have other ids, with the recordings exchanged.
PAIRS_BACK = STOP_PAIRS.replace(b"frame@2 1000 1002", b"frame@2 1002 1000")


def frames_of_two_stops_are_compared_stop_by_stop(report):
    asked = Asked(report, "two stops compared")
    for a, b, mode, status, printed in (
        (STALE_FRAME, NEW_FRAME, "per-stop", "0", STOP_PAIRS), (NEW_FRAME, STALE_FRAME, "per-stop", "0", PAIRS_BACK),
        (STALE_FRAME, NEW_FRAME, "whole", "1", b"differ 8\n"),
    ):
        asked.ask(call_of("run-compare", a, mode, b), status, printed, errors=b"")
        asked.ask(call_of("carries", a, mode, b), "Ok(Some(true))" if status == "0" else "Ok(None)")
    asked.close()


def normal_texts_of_one_mode_tell_whether_recordings_are_the_same(report):
    asked = Asked(report, "normal texts compared")
    for mode, wanted in (("per-stop", "true"), ("whole", "false")):
        asked.ask(call_of("same", STALE_FRAME, mode, NEW_FRAME), f"Ok({wanted})")
    asked.close()


def normalises(asked, lines, mode, normal_lines):
    """Asks that lines are normalised to others, whether they come at once or a byte at a time."""
    wanted = recording(normal_lines)
    asked.ask(call_of("normalise-bytes", lines, mode), "Ok(PerStop)" if mode == "per-stop" else "Ok(Whole)", wanted)
    for piece in (1, 65_536):
        call = Call("normalise", Input(recording(lines), piece=piece), mode=mode, output=Output(piece=piece))
        asked.ask(call, "Ok(())", wanted, flushes=1)


def has_normal_forms(asked, lines, whole, per_stop):
    """Asks for both normal forms of lines. That of the whole, and that by stops, are normalised by stops to the one by stops."""
    normalises(asked, lines, "whole", whole)
    for each in (lines, whole, per_stop):
        normalises(asked, each, "per-stop", per_stop)


def a_normal_text_of_the_whole_is_normalised_stop_by_stop(report):
    asked = Asked(report, "normal texts of the whole")
    has_normal_forms(asked, NEW_FRAME, NORMAL_WHOLE, NORMAL_PER_STOP)
    has_normal_forms(asked, STALE_FRAME, NORMAL_PER_STOP, NORMAL_PER_STOP)
    asked.close()


def recordings_without_ids_after_a_stop_have_one_normal_form(report):
    """None of these has a frame or a reference after a stop."""
    asked = Asked(report, "recordings without ids after a stop")
    for lines, normal_lines in NORMAL_FORMS:
        has_normal_forms(asked, lines, normal_lines, normal_lines)
    asked.close()


def contents_are_refused_alike_in_both_modes(report):
    asked = Asked(report, "contents refused alike")
    for lines, written, refused in REFUSED_CONTENTS:
        for mode in ("whole", "per-stop"):
            for name in ("check", "normalise-bytes"):
                asked.ask(call_of(name, lines, mode), f"Err({refused})")
            asked.ask(call_of("normalise", lines, mode), f"Err({refused})", recording(written))
    asked.close()


def evaluation(number, frame, reference):
    """A request with a frame id, and its response with a reference."""
    asks = renumbered(EVALUATE % frame, seq=(2, number))
    return asks, (RESULT % reference).replace('"request_seq":2', f'"request_seq":{number}')


def stop(number, thread):
    return '<{"body":{"reason":"step","threadId":%d},"event":"stopped","seq":%d,"type":"event"}' % (thread, number)


def references(first, second, third, last, threads):
    """A frame and a reference before each of two stops and after them, a thread that goes on, and a frame that is asked for again. The
    last response answers what was asked before the second stop, and its reference is of this stop."""
    asked, first_result = evaluation(2, *first)
    again, second_result = evaluation(3, *second)
    once_more, late_result = evaluation(4, third, last)
    return [
        asked, first_result, stop(3, threads[0]), again, renumbered(second_result, seq=(2, 4)), once_more, stop(5, threads[1]),
        renumbered(late_result, seq=(2, 6)),
    ]


REFERENCES = [*BEGUN, *references((5, 6), (7, 8), 5, 6, (9, 4))]
# Its normal form of the whole: 5, 7 and 6, 8 are 1, 2, the threads 9, 4 too.
REFERENCES_WHOLE = [*NORMAL_BEGUN, *references((1, 1), (2, 2), 1, 1, (1, 2))]
# Its normal form by stops: after the first stop 7 is the first frame and 5 the second.
REFERENCES_PER_STOP = [*NORMAL_BEGUN, *references((1, 1), (1, 1), 2, 1, (1, 2))]
# The pairs of a class are in the order of their names, and the classes in that of their stops.
REFERENCE_PAIRS = (
    b"same\nclient-seq 1 1\nclient-seq 2 2\nclient-seq 3 3\nclient-seq 4 4\nadapter-seq 1 1\nadapter-seq 2 2\nadapter-seq 3 3\n"
    b"adapter-seq 4 4\nadapter-seq 5 5\nadapter-seq 6 6\nframe@0 5 1\nframe@1 7 2\nframe@1 5 1\nreference@0 6 1\nreference@1 8 2\n"
    b"reference@2 6 1\nthread 9 1\nthread 4 2\n"
)


def references_begin_again_with_the_frames(report):
    asked = Asked(report, "references")
    has_normal_forms(asked, REFERENCES, REFERENCES_WHOLE, REFERENCES_PER_STOP)
    asked.ask(call_of("run-compare", REFERENCES, "per-stop", REFERENCES_WHOLE), "0", REFERENCE_PAIRS, errors=b"")
    asked.close()


SCOPES = '>{"arguments":{"frameId":%d},"command":"scopes","seq":%d,"type":"request"}'
# What is between a request for frame 5 and one for frame 6, and the second by stops: 6 is the first frame after a `stopped` event, and
# the second one after what is none.
BETWEEN = [
    (STOPPED, SCOPES % (1, 3)),
    ('<{"body":{"threadId":1},"event":"continued","seq":2,"type":"event"}', SCOPES % (2, 3)),
    ('<{"command":"stopped","seq":2,"type":"request"}', SCOPES % (2, 3)),
    ('>{"command":"stopped","seq":3,"type":"request"}', SCOPES % (2, 4)),
]


def only_a_stopped_event_is_a_stop(report):
    asked = Asked(report, "only a stopped event")
    for between, second in BETWEEN:
        lines = [*BEGUN, SCOPES % (5, 2), between, SCOPES % (6, 4)]
        normalises(asked, lines, "per-stop", [*NORMAL_BEGUN, SCOPES % (1, 2), between, second])
    asked.close()


def six_frames(first, request, number):
    """A response with the frames a to f, whose ids count from this one on."""
    frames = ",".join('{"column":1,"id":%d,"line":1,"name":"%s"}' % (first + place, name) for place, name in enumerate("abcdef"))
    return '<{"body":{"stackFrames":[%s]},"command":"stackTrace","request_seq":%d,"seq":%d,"success":true,"type":"response"}' % (
        frames, request, number)


TWELVE_FRAMES = [*BEGUN, STOPPED, STACK, six_frames(11, 2, 3), *SECOND_STOP, six_frames(21, 3, 5)]
# A mode, how many ids of a class are taken, and what is answered: of the whole there are twelve frames, and six at each stop. No other
# sort has more than five ids.
COUNTED = [
    ("whole", 12, accepted(8)), ("whole", 11, "Err(TooManyIds(8))"), ("whole", 8, "Err(TooManyIds(8))"), ("whole", 5, "Err(TooManyIds(5))"),
    ("per-stop", 8, accepted(8)), ("per-stop", 6, accepted(8)), ("per-stop", 5, "Err(TooManyIds(5))"),
]


def ids_are_counted_stop_by_stop(report):
    """`normalise_bytes` refuses what `check` refuses, and nothing else."""
    asked = Asked(report, "counted ids")
    for mode, ids, wanted in COUNTED:
        limits = Limits(ids=ids)
        asked.ask(call_of("check", TWELVE_FRAMES, mode, limits=limits), wanted)
        text = "Ok(PerStop)" if mode == "per-stop" else "Ok(Whole)"
        asked.ask(call_of("normalise-bytes", TWELVE_FRAMES, mode, limits=limits), text if wanted.startswith("Ok") else wanted)
    asked.close()


def compared_ids_are_counted_stop_by_stop(report):
    """By stops there are three requests, five numbers of the adapter, twelve frames and a thread."""
    asked = Asked(report, "compared ids")
    for mode, wanted in (("per-stop", "Ok(Same(21))"), ("whole", "Err(Input(A, TooManyIds(8)))")):
        asked.ask(call_of("compare", TWELVE_FRAMES, mode, TWELVE_FRAMES, limits=Limits(ids=8)), wanted)
    asked.close()


def the_program_checks_stop_by_stop(report):
    asked = Asked(report, "run-check by stops")
    eight = {"complete": True, "limits": Limits(ids=8)}
    asked.ask(call_of("run-check", TWELVE_FRAMES, "per-stop", **eight), "0", b"accepted records=8 open=0,0\n", errors=b"")
    asked.ask(call_of("run-check", TWELVE_FRAMES, "whole", **eight), "2", b"", errors=refusal("record 8: TooManyIds"))
    asked.close()


def the_program_normalises_stop_by_stop(report):
    asked = Asked(report, "run-normalise by stops")
    for mode, normal in (("whole", NORMAL_WHOLE), ("per-stop", NORMAL_PER_STOP)):
        asked.ask(call_of("run-normalise", NEW_FRAME, mode), "0", recording(normal), errors=b"")
    asked.close()


TESTS = [
    frames_of_two_stops_are_compared_stop_by_stop, normal_texts_of_one_mode_tell_whether_recordings_are_the_same,
    a_normal_text_of_the_whole_is_normalised_stop_by_stop, recordings_without_ids_after_a_stop_have_one_normal_form,
    contents_are_refused_alike_in_both_modes, references_begin_again_with_the_frames, only_a_stopped_event_is_a_stop,
    ids_are_counted_stop_by_stop, compared_ids_are_counted_stop_by_stop, the_program_checks_stop_by_stop,
    the_program_normalises_stop_by_stop,
]

if __name__ == "__main__":
    sys.exit(run_tests(TESTS))
