"""The engines that hold one record at a time: how the bytes of a recording come does not matter, and little is read after what is
answered."""
import sys

from tests.engines.driver import Asked, Call, Input, Limits, Output, many_answers, run_tests
from tests.engines.inputs import NORMAL, SESSION, TWICE, TWICE_LINES, last_end, worked
from tests.program.worked_runs import BEGUN, NORMAL_BEGUN, OUTPUT, recording


def normalise(given, limits=Limits(), output=Output()):
    return Call("normalise", given, limits=limits, output=output)


def outcome(given):
    """The calls on one recording: `normalise`, and `check` with and without open requests."""
    return [normalise(given), Call("check", given), Call("check", given, complete=True)]


def recordings_that_come_a_byte_at_a_time(report):
    texts = worked()
    at_once = many_answers(call for text in texts for call in outcome(Input(text)))
    by_bytes = many_answers(call for text in texts for call in outcome(Input(text, piece=1)))
    for number, (one, other) in enumerate(zip(at_once, by_bytes)):
        report.check(f"call {number}", (one.result, one.output) == (other.result, other.output), repr((one, other)))
    report.check("some are accepted and some refused", {each.result[:2] for each in at_once} == {"Ok", "Er"})


def nothing_is_read_after_what_is_answered(report):
    """The third record answers the first again; the input goes on with three more."""
    asked = Asked(report, "nothing is read after what is answered")
    given = Input(recording(TWICE_LINES * 2), piece=1)
    asked.ask(normalise(given), "Err(Rule(3, AnsweredTwice))", recording(NORMAL_BEGUN), given=(len(TWICE), 0))
    asked.ask(Call("check", given), "Err(Rule(3, AnsweredTwice))", given=(len(TWICE), 0))
    asked.close()


# Two records of 211 bytes, a byte that is no marker, and others.
FAULTY = (recording(BEGUN) + b"!").ljust(100_000, b"a")
# How many bytes a read gives at most, and how many are read at most.
READ = [(1, 212), (211, 422), (65_536, 65_748)]


def at_most(most, which=0):
    return lambda given: given[which] <= most


def a_fault_of_an_endless_input(report):
    asked = Asked(report, "a fault of an endless input")
    for piece, most in READ:
        given = Input(FAULTY, then=FAULTY, piece=piece)
        asked.ask(normalise(given), "Err(Record(3, BadMarker))", recording(NORMAL_BEGUN), given=at_most(most))
        asked.ask(Call("check", given), "Err(Record(3, BadMarker))", given=at_most(most))
    asked.close()


# A thousand records of output, of 88 bytes each: more than is read at once.
OUTPUTS = recording([OUTPUT]) * 1000
READ_OF_OUTPUT = [(1, 88), (64, 128), (65_536, 65_624)]


def a_writer_that_fails_ends_an_endless_recording(report):
    asked = Asked(report, "a writer that fails")
    for piece, most in READ_OF_OUTPUT:
        asked.ask(normalise(Input(then=OUTPUTS, piece=piece), output=Output(fails_at=0)), "Err(WriteFault)", b"", given=at_most(most))
    asked.close()


def an_endless_recording_differs_from_an_empty_one(report):
    asked = Asked(report, "an endless recording and an empty one")
    for piece, most in READ_OF_OUTPUT:
        endless = Input(then=OUTPUTS, piece=piece)
        asked.ask(Call("compare", endless, Input()), "Ok(Differ(1))", given=at_most(most))
        asked.ask(Call("compare", Input(), endless), "Ok(Differ(1))", given=at_most(most, 1))
    asked.close()


# How many bytes are taken, the record that is past them, and how many bytes are written.
TAKEN = [(1000, 12, 968), (8_800_000, 100_001, 8_800_000)]
LARGE = Output(8_800_000, 8_800_000, 8_800_000)


def an_endless_recording_is_normalised_up_to_the_limit(report):
    asked = Asked(report, "an endless recording up to the limit")
    for most, number, written in TAKEN:
        call = normalise(Input(then=OUTPUTS), Limits(input=most), LARGE)
        asked.ask(call, f"Err(InputTooLong({number}))", (OUTPUTS * 100)[:written], given=at_most(most + 1))
    asked.close()


def whole_records_are_normalised_of_a_recording_cut_at_each_place(report):
    asked = Asked(report, "a recording cut at each place")
    for place in range(474):
        number, (at, _, normal) = last_end(place)
        result = "Ok(())" if at == place else f"Err(Record({number + 1}, Cut))"
        for piece in (1, 65_536):
            asked.ask(normalise(Input(SESSION[:place], piece=piece)), result, NORMAL[:normal])
    asked.close()


TESTS = [
    recordings_that_come_a_byte_at_a_time, nothing_is_read_after_what_is_answered, a_fault_of_an_endless_input,
    a_writer_that_fails_ends_an_endless_recording, an_endless_recording_differs_from_an_empty_one,
    an_endless_recording_is_normalised_up_to_the_limit, whole_records_are_normalised_of_a_recording_cut_at_each_place,
]

if __name__ == "__main__":
    sys.exit(run_tests(TESTS))
