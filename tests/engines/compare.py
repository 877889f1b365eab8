"""What `compare` answers, and what the program prints of it; how it reads, and what it answers if its readers fail."""
import sys

from tests.engines.driver import Asked, Call, Input, answer, many_answers, run_tests
from tests.engines.inputs import FAULTY_AFTER_A_DIFFERENCE, SESSION, TWICE, worked
from tests.program.worked_runs import (
    CONFIGURED, EXCHANGED_LINES, FRAME_PAIRS, FRAMES_LINES, NEW_FRAME, TWO_STOPS, UNNUMBERED, recording, refusal,
)


def compare(a, b, name="compare", **more):
    return Call(name, *(each if isinstance(each, Input) else Input(each) for each in (a, b)), **more)


def pairs_of(text):
    """The pairs that the driver writes, as the program prints those of a whole recording."""
    lines = []
    for line in text.decode().splitlines():
        words = line.replace(",", "").split()
        assert words[:2] == ["Pair", "{"] and words[2] == "sort:" and words[4:6] == ["stop:", "0"]
        sort = {"ClientSeq": "client-seq", "AdapterSeq": "adapter-seq"}.get(words[3], words[3].lower())
        lines.append(f"{sort} {words[7]} {words[9]}\n")
    return "".join(lines).encode()


# Two recordings, what the program prints of them, and its status.
PRINTED = [
    (FRAMES_LINES, EXCHANGED_LINES, "0", FRAME_PAIRS), ([], [], "0", b"same\n"), (CONFIGURED, UNNUMBERED, "1", b"differ 3\n"),
    (TWO_STOPS, NEW_FRAME, "1", b"differ 8\n"), (CONFIGURED, CONFIGURED[:4], "1", b"differ 5\n"),
    (CONFIGURED[:4], CONFIGURED, "1", b"differ 5\n"),
]


def what_the_program_prints(report):
    asked = Asked(report, "what the program prints")
    for a, b, status, printed in PRINTED:
        asked.ask(compare(recording(a), recording(b), "run-compare"), status, printed, errors=b"")
    # Nothing is judged after a difference.
    asked.ask(compare(SESSION, FAULTY_AFTER_A_DIFFERENCE, "run-compare"), "1", b"differ 3\n", errors=b"")
    asked.close()


def the_renaming_has_the_pairs_that_are_printed(report):
    for a, b, status, printed in PRINTED:
        found = answer(compare(recording(a), recording(b)))
        carried = answer(compare(recording(a), recording(b), "carries"))
        report.check("what the renaming maps", carried.result == ("Ok(Some(true))" if status == "0" else "Ok(None)"), carried.result)
        if status == "0":
            report.check("the pairs of a renaming", b"same\n" + pairs_of(found.output) == printed, repr(found))
            report.check("their number", found.result == f"Ok(Same({printed.count(10) - 1}))", found.result)
        else:
            number = printed.split()[1].decode()
            report.check("a difference", (found.result, found.output) == (f"Ok(Differ({number}))", b""), repr(found))


def a_refusal_is_told_with_its_input(report):
    asked = Asked(report, "a refusal of an input")
    for a, b, which in ((TWICE, SESSION, "A"), (SESSION, TWICE, "B")):
        asked.ask(compare(a, b), f"Err(Input({which}, Rule(3, AnsweredTwice)))")
        asked.ask(compare(a, b, "run-compare"), "2", b"", errors=refusal(f"{which}: record 3: AnsweredTwice"))
    asked.close()


def normal_texts_tell_whether_recordings_are_the_same(report):
    asked = Asked(report, "normal texts compared")
    frames = recording(FRAMES_LINES)
    asked.ask(compare(frames, recording(EXCHANGED_LINES), "same"), "Ok(true)")
    asked.ask(compare(frames, SESSION, "same"), "Ok(false)")
    asked.close()


def two_recordings_that_come_a_byte_at_a_time(report):
    """Each is compared with itself, with the one before it, and with the configured session, both ways."""
    pairs, before = [], b""
    for text in worked():
        pairs += [(text, text), (before, text), (SESSION, text), (text, SESSION)]
        before = text
    at_once = many_answers(compare(a, b) for a, b in pairs)
    by_bytes = many_answers(compare(Input(a, piece=1), Input(b, piece=1)) for a, b in pairs)
    for number, (one, other) in enumerate(zip(at_once, by_bytes)):
        report.check(f"pair {number}", (one.result, one.output) == (other.result, other.output), repr((one, other)))
    report.check("there are pairs of each sort", {each.result[:5] for each in at_once} == {"Ok(Sa", "Ok(Di", "Err(I"}, "")


def compare_reads_a_record_of_each_in_turn(report):
    asked = Asked(report, "a record of each in turn")
    session, twice, other = (Input(text, piece=1) for text in (SESSION, TWICE, recording(UNNUMBERED)))
    # The third records differ: the first three have 281 bytes on either side.
    asked.ask(compare(session, other), "Ok(Differ(3))", given=(281, 281))
    # The third record of the first is refused: the second gives two.
    asked.ask(compare(twice, session), "Err(Input(A, Rule(3, AnsweredTwice)))", given=(316, 211))
    asked.ask(compare(session, twice), "Err(Input(B, Rule(3, AnsweredTwice)))", given=(281, 316))
    asked.close()


def a_reader_that_fails_beside_another(report):
    asked = Asked(report, "a reader that fails beside another")
    for place in (0, 105, 106, 107, 361, 473):
        failing = Input(SESSION, fails_at=place)
        asked.ask(compare(failing, SESSION), "Err(Input(A, ReadFault))")
        asked.ask(compare(SESSION, failing), "Err(Input(B, ReadFault))")
    asked.close()


def a_difference_of_what_came_before_a_reader_fails_is_told(report):
    asked = Asked(report, "a difference before a failed read")
    asked.ask(compare(SESSION, Input(recording(UNNUMBERED), fails_at=281)), "Ok(Differ(3))")
    asked.close()


TESTS = [
    what_the_program_prints, the_renaming_has_the_pairs_that_are_printed, a_refusal_is_told_with_its_input,
    normal_texts_tell_whether_recordings_are_the_same, two_recordings_that_come_a_byte_at_a_time, compare_reads_a_record_of_each_in_turn,
    a_reader_that_fails_beside_another, a_difference_of_what_came_before_a_reader_fails_is_told,
]

if __name__ == "__main__":
    sys.exit(run_tests(TESTS))
