"""Each growth of memory of an engine refused in turn, over the shim tests/program/fault_injection.c: the answer is that of ample memory, or says
that an allocation failed, and never another. The same call made next, with memory, returns what it returns with ample memory."""
import sys
import tempfile

from tests.engines.driver import Call, Input, Limits, run_tests, turns
from tests.engines.inputs import CANONICAL, LOOSE, NORMAL_PER_STOP, OPEN, SESSION, STALE_FRAME, THREE_FRAMES, TWICE_LINES, accepted
from tests.program.faulty import build_shim
from tests.program.worked_runs import (
    BEGUN, BREAKPOINTS, CONFIGURED, EXCHANGED_LINES, FIRST_RECORD, FRAMES, FRAMES_LINES, FRAME_PAIRS, INITIALIZE, LISTED, NEW_FRAME,
    NORMAL_BEGUN, NORMAL_CONFIGURED, OF_ADAPTER, OUTPUT, RECORDED, STACK, STOPPED, STOP_PAIRS, TRACE, frame, recording, refusal,
)

OUT_OF_MEMORY = refusal("out of memory")
HANDED = ("plain", "indexed")


def leading(lines):
    """The records of some leading lines, for each number of them."""
    return [recording(lines[:count]) for count in range(len(lines) + 1)]


def wrong_turns(found, wanted, texts):
    """The turns whose answer is neither the expected one nor, if an allocation failed, `Memory` with one of these texts written and not
    flushed; and those after which the same call with memory does not give the wanted answer."""
    wrong = []
    for turn, (each, again) in enumerate(found, 1):
        if each.result in ("Err(Memory)", "5"):
            line = OUT_OF_MEMORY if each.result == "5" else b""
            holds = each.refused and each.output in texts and each.errors == line and each.flushes == 0
        else:
            holds = gives(each, wanted)
        if not holds:
            wrong.append(f"growth {turn}: {each!r}")
        if again.refused or not gives(again, wanted):
            wrong.append(f"after growth {turn}: {again!r}")
    return wrong


def gives(each, wanted):
    """Whether the answer has this result, this output and these errors."""
    return (each.result, each.output, each.errors) == wanted


def each_turn(report, shim, name, call, result, written=b"", texts=(b"",), least=1):
    """Asks for this result and text with each growth refused in turn, of which at least so many are met."""
    found = turns(call, shim)
    wrong = wrong_turns(found, (result, written, b""), texts)
    report.check(f"{name} with each growth refused in turn", not wrong, "; ".join(wrong[:2])[:500])
    report.check(f"{name} meets growths", len(found) > least, str(len(found)))


def compact_is_refused_in_turn(report, shim):
    for text, result, written, least in (
        (LOOSE, "Ok(())", CANONICAL, 1), (b"", "Ok(())", b"", 0), (frame("1.5"), "Err(Fraction(1))", b"", 1),
        (frame('{"a":[1.5'), "Err(Json(1))", b"", 1),
    ):
        each_turn(report, shim, f"compact of {text[21:]!r}", Call("compact", Input(text)), result, written, least=least)


def record_is_refused_in_turn(report, shim):
    cut = b">10\nContent-Le" + OF_ADAPTER
    for text, result, written, least in (
        (b"", "Ok(())", b"", 0), (TRACE, "Ok(())", RECORDED, 1), (cut, "Err(Recorder(2, Frame(Client, Cut)))", FIRST_RECORD, 1),
    ):
        each_turn(report, shim, f"record of {len(text)} bytes", Call("record", Input(text)), result, written, least=least)


SCOPES = (
    '<{"body":{"scopes":[{"name":"a \\"b\\"\\n","variablesReference":-7},{"name":"\u00e9","variablesReference":0}]},"command":"scopes",'
    '"request_seq":-2,"seq":0,"success":true,"type":"response"}'
)
SHOWN = (
    '1 < event "output" seq=1\n2 < response "stackTrace" seq=2 request_seq=2 ok\n  frame 1000 3:1 "f"\n  frame 1001 9:1 "g"\n'
    '3 < response "scopes" seq=0 request_seq=-2 ok\n  scope -7 "a \\"b\\"\\n"\n  scope 0 "\u00e9"\n'
    '4 < response "variables" seq=2 request_seq=2 ok\n  variable 0 "a" "1"\n  variable 5 "b" "1"\n  variable 0 "c" "1"\n'
    '  variable 5 "d" "1"\n  variable 3 "e" "1"\n'
)


def show_is_refused_in_turn(report, shim):
    lines = [OUTPUT, FRAMES % (1000, 1001), SCOPES, LISTED % (5, 5, 3)]
    each_turn(report, shim, "show", Call("show", Input(recording(lines))), "Ok(())", SHOWN.encode())


def want_of_memory_is_told_without_memory(report, shim):
    each_turn(report, shim, "run_stream of compact", Call("run-compact", Input(LOOSE)), "0", CANONICAL)


def named(more):
    """What is particular to a call, after its name."""
    return "".join(f", {name} {value}" for name, value in more.items())


def normalises(report, shim, lines, result, written, least=1, **more):
    call = Call("normalise", Input(recording(lines)), **more)
    each_turn(report, shim, f"normalise of {len(lines)} lines{named(more)}", call, result, recording(written), leading(written), least)


def normalise_is_refused_in_turn(report, shim):
    """Some leading records are written, and not flushed."""
    normalises(report, shim, [], "Ok(())", [], 0)
    normalises(report, shim, CONFIGURED, "Ok(())", NORMAL_CONFIGURED)
    normalises(report, shim, TWICE_LINES, "Err(Rule(3, AnsweredTwice))", NORMAL_BEGUN)


def normalise_per_stop_is_refused_in_turn(report, shim):
    normalises(report, shim, NEW_FRAME, "Ok(())", NORMAL_PER_STOP, mode="per-stop")


def normalise_past_a_limit_is_refused_in_turn(report, shim):
    normalises(report, shim, BEGUN, "Err(Grew(2))", [INITIALIZE], limits=Limits(content=200))
    normalises(report, shim, THREE_FRAMES, "Err(TooManyIds(4))", [*NORMAL_BEGUN, STACK], limits=Limits(ids=2))


def normalise_bytes_is_refused_in_turn(report, shim):
    call = Call("normalise-bytes", Input(SESSION))
    each_turn(report, shim, "normalise_bytes", call, "Ok(Whole)", recording(NORMAL_CONFIGURED))
    call = Call("normalise-bytes", Input(recording(NEW_FRAME)), mode="per-stop")
    each_turn(report, shim, "normalise_bytes by stops", call, "Ok(PerStop)", recording(NORMAL_PER_STOP))


def check_is_refused_in_turn(report, shim):
    for lines, result, least in (
        ([], accepted(0), 0), (CONFIGURED, accepted(5), 1), (OPEN, "Err(Incomplete(1, 0))", 1),
        (TWICE_LINES, "Err(Rule(3, AnsweredTwice))", 1),
        ([*BEGUN, BREAKPOINTS % "3"], "Err(Message(3, Missing(13)))", 1),
    ):
        call = Call("check", Input(recording(lines)), complete=True)
        each_turn(report, shim, f"check answered with {result}", call, result, least=least)


def check_prints_its_line_or_wants_memory(report, shim):
    call = Call("run-check", Input(SESSION), complete=True)
    each_turn(report, shim, "run_stream of check", call, "0", b"accepted records=5 open=0,0\n")


def compares(report, shim, a, b, result, least=1, **more):
    """The pairs that a renaming has are those with ample memory."""
    call = Call("compare", Input(recording(a)), Input(recording(b)), **more)
    found = turns(call, shim)
    last, _ = found[-1]
    wrong = wrong_turns(found, (result, last.output, b""), (b"",))
    name = f"compare answered with {result}{named(more)}"
    report.check(f"{name} with each growth refused in turn", last.result == result and not wrong, "; ".join(wrong[:2])[:500])
    report.check(f"{name} meets growths", len(found) > least, str(len(found)))


def compare_is_refused_in_turn(report, shim):
    compares(report, shim, [], [], "Ok(Same(0))", 0)
    compares(report, shim, FRAMES_LINES, EXCHANGED_LINES, "Ok(Same(7))")
    compares(report, shim, FRAMES_LINES, [], "Ok(Differ(1))")
    compares(report, shim, FRAMES_LINES, TWICE_LINES, "Err(Input(B, Rule(3, AnsweredTwice)))")


def compare_per_stop_is_refused_in_turn(report, shim):
    """Two stops have eight sequence numbers, a frame for each stop, and a thread."""
    compares(report, shim, STALE_FRAME, NEW_FRAME, "Ok(Same(11))", mode="per-stop")
    compares(report, shim, STALE_FRAME, FRAMES_LINES, "Ok(Differ(3))", mode="per-stop")


# Two recordings that are the same in a mode of names, and the pairs that are printed.
ALIKE = [(FRAMES_LINES, EXCHANGED_LINES, "whole", FRAME_PAIRS), (STALE_FRAME, NEW_FRAME, "per-stop", STOP_PAIRS)]


def run_compare_is_refused_in_turn(report, shim):
    for a, b, mode, printed in ALIKE:
        call = Call("run-compare", Input(recording(a)), Input(recording(b)), mode=mode)
        each_turn(report, shim, f"run_compare, {mode}", call, "0", printed)


STEP = [*BEGUN, STOPPED]
# What differs from a session with a stop: another stop, and a session that has ended.
DIFFERENCES = [
    ([*BEGUN, STOPPED.replace("step", "breakpoint")], b'differ 3\n< event "stopped"\nA body.reason "step"\nB body.reason "breakpoint"\n'),
    ([], b'differ 1\nA > request "initialize"\nB ends\n'),
]


# The status and the output of all differences of two recordings in a mode of names.
STEPPED = '3/3 < event "stopped"\nA body.reason "step"\nB body.reason "breakpoint"\n'
ALL_DIFFERENCES = [
    (STEP, DIFFERENCES[0][0], "whole", "1", f"differ: 1 paired, 0 only in A, 0 only in B\n{STEPPED}".encode()),
    (
        STEP, [], "whole", "1",
        b'differ: 0 paired, 3 only in A, 0 only in B\n1/- > request "initialize"\n2/- < response "initialize"\n3/- < event "stopped"\n',
    ),
    (FRAMES_LINES, EXCHANGED_LINES, "whole", "0", b"same\n"), (STALE_FRAME, NEW_FRAME, "per-stop", "0", b"same\n"),
]


def run_diff_is_refused_in_turn(report, shim):
    for lines, printed in DIFFERENCES:
        call = Call("run-diff", Input(recording(STEP)), Input(recording(lines)))
        each_turn(report, shim, f"diff with {len(lines)} lines", call, "1", printed)


def run_diff_all_is_refused_in_turn(report, shim):
    """`diff_all_with`, whose answer is printed, with both kinds of tables."""
    for tables in ("own", *HANDED):
        for a, b, mode, status, printed in ALL_DIFFERENCES:
            call = Call("run-diff-all", Input(recording(a)), Input(recording(b)), mode=mode, tables=tables)
            each_turn(report, shim, f"diff --all of {len(a)} and {len(b)} lines, {mode}, tables {tables}", call, status, printed)


def normalise_with_tables_is_refused_in_turn(report, shim):
    """`normalise_with`, with both kinds of tables: a recording without records, accepted ones in both modes, one that breaks a rule, and
    one past the limit of ids."""
    for tables in HANDED:
        normalises(report, shim, [], "Ok(())", [], 0, tables=tables)
        normalises(report, shim, CONFIGURED, "Ok(())", NORMAL_CONFIGURED, tables=tables)
        normalises(report, shim, NEW_FRAME, "Ok(())", NORMAL_PER_STOP, mode="per-stop", tables=tables)
        normalises(report, shim, TWICE_LINES, "Err(Rule(3, AnsweredTwice))", NORMAL_BEGUN, tables=tables)
        few = {"limits": Limits(ids=2), "tables": tables}
        normalises(report, shim, THREE_FRAMES, "Err(TooManyIds(4))", [*NORMAL_BEGUN, STACK], **few)


def check_with_tables_is_refused_in_turn(report, shim):
    """`check_with`, with both kinds of tables and in both modes."""
    for tables in HANDED:
        for lines, mode, result in (
            (CONFIGURED, "whole", accepted(5)), (NEW_FRAME, "per-stop", accepted(len(NEW_FRAME))),
            (TWICE_LINES, "whole", "Err(Rule(3, AnsweredTwice))"),
        ):
            call = Call("check", Input(recording(lines)), mode=mode, complete=True, tables=tables)
            each_turn(report, shim, f"check answered with {result}, {mode}, tables {tables}", call, result)


def compare_with_tables_is_refused_in_turn(report, shim):
    """`compare_with`, with both kinds of tables and in both modes."""
    for tables in HANDED:
        compares(report, shim, FRAMES_LINES, EXCHANGED_LINES, "Ok(Same(7))", tables=tables)
        compares(report, shim, FRAMES_LINES, [], "Ok(Differ(1))", tables=tables)
        compares(report, shim, FRAMES_LINES, TWICE_LINES, "Err(Input(B, Rule(3, AnsweredTwice)))", tables=tables)
        compares(report, shim, STALE_FRAME, NEW_FRAME, "Ok(Same(11))", mode="per-stop", tables=tables)


def run_stream_with_tables_is_refused_in_turn(report, shim):
    """`run_stream_with`, with both kinds of tables: the jobs that name ids."""
    for tables in HANDED:
        call = Call("run-normalise", Input(SESSION), tables=tables)
        texts = leading(NORMAL_CONFIGURED)
        each_turn(report, shim, f"run_stream of normalise, tables {tables}", call, "0", recording(NORMAL_CONFIGURED), texts)
        call = Call("run-normalise", Input(recording(NEW_FRAME)), mode="per-stop", tables=tables)
        texts = leading(NORMAL_PER_STOP)
        each_turn(report, shim, f"run_stream of normalise by stops, tables {tables}", call, "0", recording(NORMAL_PER_STOP), texts)
        call = Call("run-check", Input(SESSION), complete=True, tables=tables)
        each_turn(report, shim, f"run_stream of check, tables {tables}", call, "0", b"accepted records=5 open=0,0\n")


def run_compare_and_run_diff_with_tables_are_refused_in_turn(report, shim):
    """`compare_with` and `diff_with`, whose answers are printed, with both kinds of tables."""
    for tables in HANDED:
        for a, b, mode, printed in ALIKE:
            call = Call("run-compare", Input(recording(a)), Input(recording(b)), mode=mode, tables=tables)
            each_turn(report, shim, f"run_compare, {mode}, tables {tables}", call, "0", printed)
        for lines, printed in DIFFERENCES:
            call = Call("run-diff", Input(recording(STEP)), Input(recording(lines)), tables=tables)
            each_turn(report, shim, f"diff with {len(lines)} lines, tables {tables}", call, "1", printed)


TESTS = [
    compact_is_refused_in_turn, record_is_refused_in_turn, show_is_refused_in_turn, want_of_memory_is_told_without_memory,
    normalise_is_refused_in_turn, normalise_per_stop_is_refused_in_turn, normalise_past_a_limit_is_refused_in_turn,
    normalise_bytes_is_refused_in_turn, check_is_refused_in_turn, check_prints_its_line_or_wants_memory, compare_is_refused_in_turn,
    compare_per_stop_is_refused_in_turn, run_compare_is_refused_in_turn, run_diff_is_refused_in_turn, run_diff_all_is_refused_in_turn,
    normalise_with_tables_is_refused_in_turn, check_with_tables_is_refused_in_turn, compare_with_tables_is_refused_in_turn,
    run_stream_with_tables_is_refused_in_turn, run_compare_and_run_diff_with_tables_are_refused_in_turn,
]


def main():
    with tempfile.TemporaryDirectory() as folder:
        return run_tests(TESTS, build_shim(folder))


if __name__ == "__main__":
    sys.exit(main())
