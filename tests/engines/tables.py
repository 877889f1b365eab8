"""The engines with tables of names that they are handed: any table gives the answers that the engine's own gives."""
import sys

from tests.engines.driver import Call, Input, Limits, many_answers, run_tests
from tests.engines.inputs import LOOSE, SESSION, STALE_FRAME, worked
from tests.program.worked_runs import FRAMES_LINES, NEW_FRAME, TRACE, frame, recording

# Limits that many recordings pass: of their contents, their ids, and their bytes; and those of the program.
LIMITS = [
    Limits(), Limits(content=200), Limits(ids=0), Limits(ids=1), Limits(ids=2), Limits(input=10), Limits(input=106), Limits(input=473),
]
STREAMS = ["run-compact", "run-record", "run-normalise", "run-show", "run-check"]
# Frames of one direction, and traces.
OTHERS = [LOOSE, frame("-0"), TRACE, b">01\n", b">10\nCont"]


def agree(report, name, calls):
    """Asks that each call answers with tables that are handed in what it answers with its own. Gives the answers with its own."""
    asked = list(calls)
    own = many_answers(asked)
    for tables in ("plain", "indexed"):
        handed = many_answers(call._replace(tables=tables) for call in asked)
        wrong = [f"{call.name} {call.limits} {one!r} {other!r}" for call, one, other in zip(asked, own, handed) if one != other]
        report.check(f"{name} with tables that are {tables}, {len(asked)} calls", asked and not wrong, "; ".join(wrong[:2])[:500])
    return own


def recordings_with_handed_tables(report):
    own = agree(report, "recordings", (
        Call(name, Input(text), limits=limits, complete=complete)
        for text in worked() for limits in LIMITS for name, complete in (("normalise", False), ("check", False), ("check", True))
    ))
    results = [each.result for each in own]
    for word in ("Ok(", "Grew", "TooManyIds", "InputTooLong"):
        report.check(f"some recordings are answered with {word}", any(word in result for result in results))


def recordings_per_stop_with_handed_tables(report):
    """In the mode in which names begin again at each stop, also past a limit of ids."""
    texts = [*worked(), recording(NEW_FRAME), recording(STALE_FRAME)]
    own = agree(report, "recordings by stops", (
        Call(name, Input(text), mode="per-stop", limits=limits, complete=True)
        for text in texts for limits in (Limits(), Limits(ids=1), Limits(ids=2)) for name in ("normalise", "check")
    ))
    results = [each.result for each in own]
    for word in ("Ok(", "TooManyIds"):
        report.check(f"some recordings by stops are answered with {word}", any(word in result for result in results))


def two_recordings_per_stop_with_handed_tables(report):
    """The first two are the same by stops alone."""
    texts = [recording(lines) for lines in (STALE_FRAME, NEW_FRAME, FRAMES_LINES, [])]
    pairs = [(a, b) for a in texts for b in texts]
    names = ("compare", "run-compare", "run-diff", "run-diff-all")
    own = agree(report, "two recordings by stops", (Call(name, Input(a), Input(b), mode="per-stop") for name in names for a, b in pairs))
    report.check("two stops are the same by stops", own[1].result == "Ok(Same(11))", repr(own[1]))


def two_recordings_with_handed_tables(report):
    """Each is compared with the one before it, and with the configured session."""
    pairs, before = [], b""
    for text in worked():
        pairs += [(before, text), (SESSION, text), (text, SESSION)]
        before = text
    names = ("compare", "run-compare", "run-diff", "run-diff-all")
    own = agree(report, "two recordings", (Call(name, Input(a), Input(b)) for a, b in pairs for name in names))
    report.check("some pairs are the same", sum(each.result.startswith("Ok(Same") for each in own) > 3)


def jobs_of(text, names, mode, kinds):
    """The calls of jobs; that of `check` with each of these kinds of it, which say whether requests need responses."""
    return [
        Call(name, Input(text), mode=mode, complete=complete) for name in names for complete in (kinds if name == "run-check" else [False])
    ]


def jobs_per_stop_with_handed_tables(report):
    own = agree(report, "jobs by stops", jobs_of(recording(NEW_FRAME), ["run-normalise", "run-check"], "per-stop", [True]))
    report.check("the jobs by stops are done", [each.result for each in own] == ["0", "0"])


def jobs_with_handed_tables(report):
    texts = [*worked(), *OTHERS]
    own = agree(report, "jobs", (call for text in texts for call in jobs_of(text, STREAMS, "whole", [False, True])))
    report.check("each job has a status", {each.result for each in own} == {"0", "2"}, repr({each.result for each in own}))


TESTS = [
    recordings_with_handed_tables, recordings_per_stop_with_handed_tables, two_recordings_with_handed_tables,
    two_recordings_per_stop_with_handed_tables, jobs_per_stop_with_handed_tables, jobs_with_handed_tables,
]

if __name__ == "__main__":
    sys.exit(run_tests(TESTS))
