"""Types each message of the recordings of real adapters by itself: `show` reads a recording of this one record. It checks the message,
and no rule of a session."""
import collections
import json
import os
import sys

from tests.program.faulty import side_by_side
from tests.report import PROGRAM, TOP, Report, run
from tests.program.worked_runs import recording, refusal

sys.path.insert(0, os.path.join(TOP, "scripts"))
from one_direction import records

CAPTURES = os.path.join(TOP, "examples", "captures")
MARKERS = {"client": b">", "adapter": b"<"}

# The recordings with messages that are refused, and how many for each reason.
REFUSED = {
    "lldb16-a-basic.1.rec": {"Fraction": 1},
    "perl-a-basic.1.rec": {"Missing row 1": 15},
}

# A request, a response with another type at a row, an event without a number, and a number with a fraction; and why each is refused.
WORKED = {
    '>{"command":"threads","seq":2,"type":"request"}': None,
    '<{"body":{"threads":7},"command":"threads","request_seq":2,"seq":3,"success":true,"type":"response"}': "WrongType row 56",
    '<{"event":"initialized","type":"event"}': "Missing row 1",
    "<0.5": "Fraction",
}


class NotWhole(Exception):
    """A number with a fraction or an exponent."""


def not_whole(_):
    raise NotWhole


def refusal_of(content):
    """Why a content is not a message, of the two reasons that occur in these recordings."""
    try:
        message = json.loads(content, parse_float=not_whole)
    except NotWhole:
        return "Fraction"
    return None if "seq" in message else "Missing row 1"


def is_wanted(case):
    """Whether the record is shown if it has no reason to be refused, and is refused for its reason otherwise."""
    record, reason = case
    status, shown, errors = run(["show"], record)
    if reason is None:
        return status == 0 and shown.startswith(b"1 ") and errors == b""
    return (status, shown, errors) == (2, b"", refusal(f"record 1: {reason}"))


def worked(report):
    for line, reason in WORKED.items():
        report.check(f"{line}: {reason}", is_wanted((recording([line]), reason)))


def capture(report, name):
    with open(os.path.join(CAPTURES, name), "rb") as file:
        cases = [(MARKERS[side] + frame + b"\n", refusal_of(content)) for side, frame, content in records(file.read())]
    counts = collections.Counter(reason for _, reason in cases if reason)
    report.check(f"{name}: so many are refused", counts == REFUSED.get(name, {}), str(counts))
    wrong = [number for number, held in enumerate(side_by_side(is_wanted, cases), 1) if not held]
    report.check(f"{name}: these are refused, and all other messages are typed", cases and not wrong, f"not records {wrong[:5]}")


def main():
    report = Report()
    if not report.check("the gate has built the program", os.access(PROGRAM, os.X_OK)):
        return report.close()
    names = sorted(name for name in os.listdir(CAPTURES) if name.endswith(".rec"))
    report.check("each recording is there", len(names) == 15, str(len(names)))
    worked(report)
    for name in names:
        capture(report, name)
    return report.close()


if __name__ == "__main__":
    sys.exit(main())
