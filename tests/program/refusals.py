"""The line that the program prints for each reason to refuse an input, at other records than the worked runs have, and its status."""
import os
import subprocess
import sys

from tests.report import PROGRAM, Report, run
from tests.program.worked_runs import (
    BEGUN, BREAKPOINTS, CONFIGURED, DONE, ENDED, FIRST_RECORD, INITIALIZE, INITIALIZED, OF_ADAPTER, OUTPUT, RESPONSE, STOPPED, TERMINAL,
    THREADS, frame, record, recording, refusal, renumbered,
)

LONG_HEADER = b"X:" + b"a" * 4094
NO_BOOLEAN = (
    '<{"body":{"supportsWriteMemoryRequest":1},"command":"initialize","request_seq":1,"seq":1,"success":true,"type":"response"}'
)
TERMINALS = [TERMINAL % seq for seq in range(2, 14)]

# Words, an input, what is written of it, and the line of its refusal.
LINES = [
    (["check"], b"!", b"", "record 1: BadMarker"),
    (["check"], record(INITIALIZE) + b"<" + LONG_HEADER, b"", "record 2: HeaderTooLong"),
    (["check"], record(INITIALIZE) + b"<" + frame("{}") + b"x", b"", "record 2: NoLineEnd"),
    (["check"], record(OUTPUT) * 6 + record(OUTPUT)[:-1], b"", "record 7: Cut"),
    (["check"], record(">{"), b"", "record 1: Json"),
    (["check"], recording([OUTPUT, OUTPUT, "<[]"]), b"", "record 3: NotObject"),
    (["check"], recording([OUTPUT, OUTPUT, "<{}"]), b"", "record 3: UnknownType"),
    (["check"], recording([*BEGUN, BREAKPOINTS % "3"]), b"", "record 3: Missing row 13"),
    (["check"], recording([OUTPUT, INITIALIZE, NO_BOOLEAN]), b"", "record 3: WrongType row 139"),
    (["check", "--complete"], recording([*BEGUN, THREADS, *TERMINALS]), b"", "incomplete: 1 client, 12 adapter"),
    (["record"], b"x", b"", "piece 1: BadMarker"),
    (["record"], b">01\n", b"", "piece 1: BadCount"),
    (["record"], OF_ADAPTER + b">10\nCont", FIRST_RECORD, "piece 2: Cut"),
    (["record"], OF_ADAPTER + b">10\nContent-Le", FIRST_RECORD, "piece 2: client Cut"),
    (["record"], OF_ADAPTER * 3 + b"<4096\n" + LONG_HEADER, FIRST_RECORD * 3, "piece 4: adapter HeaderTooLong"),
]

# Lines of a session, a line after them, and the rule that it violates.
VIOLATIONS = [
    (BEGUN, ">" + INITIALIZED[1:], "EventFromClient"),
    ([], STOPPED, "NotInitialized"),
    ([INITIALIZE], THREADS, "StillInitializing"),
    (BEGUN, renumbered(INITIALIZE, seq=(1, 3)), "InitializeTwice"),
    (ENDED, renumbered(THREADS, seq=(2, 3)), "AfterDisconnect"),
    (BEGUN, renumbered(THREADS, seq=(2, 1)), "SeqUsed"),
    (BEGUN, DONE, "ConfiguredEarly"),
    (CONFIGURED, renumbered(DONE, seq=(2, 3)), "ConfiguredTwice"),
    (BEGUN, RESPONSE.replace('"request_seq":1', '"request_seq":9'), "NoRequest"),
    (BEGUN, RESPONSE, "AnsweredTwice"),
    ([*BEGUN, THREADS], RESPONSE.replace('"request_seq":1', '"request_seq":2'), "OtherCommand"),
]


def lines(report):
    for words, given, written, line in LINES:
        answer = run(words, given)
        report.check(f"{words}: {line}", answer == (2, written, refusal(line)), repr(answer))


def rules(report):
    """Each rule at record 57: output of the adapter comes first, which violates no rule."""
    for before, line, rule in VIOLATIONS:
        front = [OUTPUT] * (56 - len(before)) + before
        answer = run(["check"], recording(front))
        report.check(f"nothing is refused before {rule}", answer[0] == 0 and answer[1].startswith(b"accepted records=56 "), repr(answer))
        answer = run(["check"], recording([*front, line]))
        report.check(f"record 57: {rule}", answer == (2, b"", refusal(f"record 57: {rule}")), repr(answer))


def unprinted(report):
    """A line that cannot be written changes no status."""
    for errors in ("2>&-", "2>/dev/full"):
        for words, given in ((["compact"], b"C"), (["check"], b"!")):
            ran = subprocess.run(["sh", "-c", f'exec "$0" "$@" {errors}', PROGRAM, *words], input=given, capture_output=True, timeout=120)
            answer = (ran.returncode, ran.stdout, ran.stderr)
            report.check(f"{words} of {given} with {errors}", answer == (2, b"", b""), repr(answer))


def main():
    report = Report()
    if not report.check("the gate has built the program", os.access(PROGRAM, os.X_OK)):
        return report.close()
    lines(report)
    rules(report)
    unprinted(report)
    return report.close()


if __name__ == "__main__":
    sys.exit(main())
