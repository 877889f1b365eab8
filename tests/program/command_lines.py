"""Runs the program on command lines: words that name a job, words that name none, and words that request help."""
import os
import sys
import tempfile

from tests.program.faulty import Faulty
from tests.report import PROGRAM, Report
from tests.program.worked_runs import (
    BEGUN, CANONICAL, COMPARED, CONFIGURED, DIFFERENCES, FRAME, INITIALIZED, LOOSE, NAMES, NEW_FRAME, NORMAL_PER_STOP, NORMAL_STOPS, RECORDED,
    RULES, STOP_PAIRS, THREADS, TRACE, WITH_IDS, WITH_NAMES, Run, frame, masked, recording,
)

OPEN = recording([*BEGUN, THREADS])
FILES = {
    "a.rec": COMPARED["a stale frame"][0], "b.rec": COMPARED["a stale frame"][1], "lldb.rules": RULES, "open.rec": OPEN, "loose": frame(LOOSE),
    "session.trace": TRACE, "configured.rec": recording(CONFIGURED), "normal": recording([*NORMAL_STOPS, FRAME % (2, 3, 5)]),
    "names.rules": NAMES, "ids.rec": recording([*BEGUN, *WITH_IDS]),
}
ACCEPTED, INCOMPLETE = (0, b"accepted records=3 open=1,0\n", b""), (2, b"", b"dapnorm: incomplete: 1 client, 0 adapter\n")
FULL = b'1 < event "initialized" seq=2\n  event "initialized"\n  seq 2\n  type "event"\n'
ALL = b"differ: 1 paired, 0 only in A, 0 only in B\n8/8 < response \"stackTrace\"\nA body.stackFrames[0].id 1\nB body.stackFrames[0].id 2\n"
REFUSED = b"dapnorm: record 1: NotInitialized\n"
ROW = b"62 response stackTrace body.stackFrames[].id needed frame\n"

# Words, an input, and the status, the output and the errors of the job that the words name. No other job has this answer to the input.
# Only past the limits of the program do `check` and `check --per-stop` differ.
JOBS = [
    (["compact"], frame(LOOSE), (0, frame(CANONICAL), b"")),
    (["record"], TRACE, (0, RECORDED, b"")),
    (["normalise"], recording(NEW_FRAME), (0, recording([*NORMAL_STOPS, FRAME % (2, 3, 5)]), b"")),
    (["normalise", "--per-stop"], recording(NEW_FRAME), (0, recording(NORMAL_PER_STOP), b"")),
    (["show"], recording([INITIALIZED]), (0, b'1 < event "initialized" seq=2\n', b"")),
    (["mask", "lldb.rules"], recording(CONFIGURED), (0, recording(masked(CONFIGURED)), b"")),
    (["name", "lldb.rules"], recording(CONFIGURED), (0, recording(CONFIGURED), b"")),
    (["name", "names.rules", "ids.rec"], b"", (0, recording([*BEGUN, *WITH_NAMES]), b"")),
    (["name", "names.rules", "-", "-o", "-"], recording([*BEGUN, *WITH_IDS]), (0, recording([*BEGUN, *WITH_NAMES]), b"")),
    (["mask", "--word", "x=<w>", "lldb.rules", "--word=y=<v>"], recording(CONFIGURED), (0, recording(masked(CONFIGURED)), b"")),
    (["rows", "62"], b"", (0, ROW, b"")),
    (["check"], OPEN, ACCEPTED),
    (["check", "--complete"], OPEN, INCOMPLETE),
    (["check", "--per-stop"], OPEN, ACCEPTED),
    (["check", "--per-stop", "--complete"], OPEN, INCOMPLETE),
    (["check", "--rules", "lldb.rules"], OPEN, ACCEPTED),
    (["check", "--complete", "--rules=lldb.rules", "open.rec"], b"", (2, b"", b"dapnorm: after the rules: incomplete: 1 client, 0 adapter\n")),
    (["check", "--word", "x=<w>", "--rules", "lldb.rules", "--word=y=<v>", "-"], OPEN, ACCEPTED),
    (["compare", "a.rec", "b.rec"], b"", (1, b"differ 8\n", b"")),
    (["compare", "a.rec", "b.rec", "--per-stop"], b"", (0, STOP_PAIRS, b"")),
    (["diff", "a.rec", "b.rec"], b"", (1, DIFFERENCES["a stale frame"], b"")),
    (["diff", "--per-stop", "a.rec", "b.rec"], b"", (0, b"same\n", b"")),
    (["diff", "--all", "a.rec", "b.rec"], b"", (1, ALL, b"")),
    (["diff", "a.rec", "b.rec", "--all", "--per-stop"], b"", (0, b"same\n", b"")),
    (["suggest", "a.rec", "b.rec"], b"", (0, b"# without this line the ids differ\nper-stop\n\n# with these rules and per-stop: same\n", b"")),
    (["suggest", "a.rec", "-", "--rules", "lldb.rules"], COMPARED["a stale frame"][0], (0, b"# with these rules: same\n", b"")),
    (["check", "-"], OPEN, ACCEPTED),
    (["check", "open.rec"], b"", ACCEPTED),
    (["check", "open.rec", "--complete"], b"", INCOMPLETE),
    (["compact", "loose"], b"", (0, frame(CANONICAL), b"")),
    (["record", "session.trace"], b"", (0, RECORDED, b"")),
    (["normalise", "--per-stop", "b.rec"], b"", (0, recording(NORMAL_PER_STOP), b"")),
    (["show", "-", "-o", "-"], recording([INITIALIZED]), (0, b'1 < event "initialized" seq=2\n', b"")),
    (["mask", "lldb.rules", "configured.rec"], b"", (0, recording(masked(CONFIGURED)), b"")),
    (["compare", "-", "b.rec"], COMPARED["a stale frame"][0], (1, b"differ 8\n", b"")),
    (["diff", "a.rec", "-"], COMPARED["a stale frame"][1], (1, DIFFERENCES["a stale frame"], b"")),
    (["golden", "normal", "b.rec"], b"", (0, b"same\n", b"")),
    (["golden", "--word", "x=<w>", "normal", "b.rec"], b"", (0, b"same\n", b"")),
    (["show", "--record", "1"], recording([INITIALIZED]), (0, b'{\n  "event": "initialized",\n  "seq": 2,\n  "type": "event"\n}\n', b"")),
    (["show", "--full", "-"], recording([INITIALIZED]), (0, FULL, b"")),
    (["show", "--faulty"], recording([INITIALIZED]), (2, b'1 < event "initialized" seq=2\n  fault: NotInitialized\n', REFUSED)),
    (["show", "--faulty", "--full"], recording([INITIALIZED]), (2, FULL.replace(b"  event", b"  fault: NotInitialized\n  event"), REFUSED)),
    (["show", "--explain", "--record=2"], recording([INITIALIZED]), (2, b"", b"dapnorm: no record 2: the recording has 1\n")),
]

# No subcommand, wrong ones, and words that a subcommand does not take.
NO_JOBS = [
    [], ["compacted"], ["compact", "a", "b"], ["check", "--complete", "--complete"], ["compact", "--complete"], ["check", "a", "b"],
    ["compare", "a.rec"], ["mask"], ["--per-stop"], ["show", "--per-stop"], ["normalise", "--per-stop", "--per-stop"], ["check", "-o", "a"],
    ["golden"], ["golden", "a", "b", "c"], ["golden", "a", "-o", "b"], ["golden", "--rules"], ["normalise", "-o"], ["rows", "-o", "a"],
    ["mask", "--rules", "lldb.rules"], ["compare", "--word", "a.rec", "b.rec"], ["diff", "a.rec", "b.rec", "--word"],
    ["order", "--word", "x=<w>", "lldb.rules"], ["name"], ["name", "--word", "x=<w>", "lldb.rules"], ["name", "--rules", "lldb.rules"], ["name", "--per-stop", "lldb.rules"],
    ["show", "--word", "x=<w>"], ["check", "--word", "x"], ["check", "--rules"], ["check", "--rules", "lldb.rules", "a", "b"], ["golden", "--word", "x", "normal", "b.rec"],
    ["compare", "-", "-"], ["show", "--record"], ["show", "--record", "0"], ["show", "--record", "x"],
    ["show", "--record", "1", "--full"], ["show", "--faulty", "--record", "1"], ["show", "--full", "--full"], ["golden", "--explain", "a"],
    ["suggest", "a.rec"], ["suggest", "-", "-"], ["suggest", "--per-stop", "a.rec", "b.rec"], ["suggest", "a.rec", "b.rec", "-o", "a"],
    ["rows", "--explain"], ["compare", "--all", "a.rec", "b.rec"], ["diff", "--all", "a.rec"], ["diff", "--all", "-", "-"], ["normalise", "--full"], ["check", "--record", "1"],
]

# Each subcommand without some of its required values, and the values that are missing.
MISSING = [
    (["golden"], ["GOLDEN"]), (["golden", "--rules", "lldb.rules", "--word", "x=<w>", "--update"], ["GOLDEN"]),
    (["compare"], ["A", "B"]), (["compare", "a.rec"], ["B"]), (["compare", "--rules", "lldb.rules", "a.rec", "--per-stop"], ["B"]),
    (["diff"], ["A", "B"]), (["diff", "a.rec"], ["B"]), (["diff", "--all", "--word", "x=<w>", "a.rec"], ["B"]),
    (["suggest"], ["A", "B"]), (["suggest", "a.rec"], ["B"]), (["suggest", "--rules", "lldb.rules"], ["A", "B"]),
    (["mask"], ["RULES"]), (["mask", "--word", "x=<w>", "-o", "masked"], ["RULES"]), (["order"], ["RULES"]), (["order", "-o", "ordered"], ["RULES"]),
    (["name"], ["RULES"]), (["name", "--explain", "-o", "named"], ["RULES"]),
]

# Words that request help or the version, and a part of the text that is printed.
HELP = [
    (["--help"], b"Usage: dapnorm"), (["--version"], b"dapnorm 0.1.0 "), (["compact", "--help"], b"Usage: dapnorm"),
    (["check", "--help"], b"Usage: dapnorm check [OPTIONS]"), (["check", "--help"], b"--complete"), (["diff", "--help"], b"--per-stop"),
    (["help"], b"Usage: dapnorm"), (["help", "check"], b"Usage: dapnorm check"), (["-V"], b"dapnorm 0.1.0 "), (["mask", "-h"], b"RULES"), (["name", "-h"], b"RULES"),
]

# Words that request help or the version, and a mistake after them: the request comes first.
HELP_FIRST = [
    (["--help", "--all"], b"Usage: dapnorm"), (["--version", "none"], b"dapnorm 0.1.0 "), (["check", "--help", "--all"], b"Usage: dapnorm check"),
    (["check", "-h", "a", "b"], b"Usage: dapnorm check"), (["compare", "--help"], b"Usage: dapnorm compare"),
    (["compare", "a.rec", "--help"], b"Usage: dapnorm compare"), (["check", "-ha"], b"Usage: dapnorm check"),
]

# The same with the mistake first, which alone is reported.
MISTAKE_FIRST = [
    ["--all", "--help"], ["none", "--version"], ["check", "--all", "--help"], ["check", "a", "b", "--help"], ["check", "-ah"],
    ["normalise", "-o", "--help"], ["check", "--complete", "--complete", "--help"], ["help", "none"], ["check", "--version", "--help"],
]


def run_of(words, given=b""):
    return Run(str(words), words, given, FILES, None)


def jobs(report, faulty):
    for words, given, wanted in JOBS:
        answer = faulty.run(run_of(words, given))
        report.check(f"{words} is a job", answer == wanted, repr(answer))
    status, output, errors = faulty.run(run_of(["rows"]))
    held = (status, errors) == (0, b"") and ROW in output and output.count(b"\n") > 1
    report.check("['rows'] is a job", held, repr((status, errors)))


def no_jobs(report, faulty):
    for words in NO_JOBS + MISTAKE_FIRST:
        status, output, errors = faulty.run(run_of(words))
        held = (status, output) == (3, b"") and errors.startswith(b"error: ") and errors.endswith(b"\n")
        report.check(f"{words} is no job", held, repr((status, output, errors)))


def missing_values(report, faulty):
    for words, missing in MISSING:
        status, output, errors = faulty.run(run_of(words))
        names = "".join(f"  <{name}>\n" for name in missing)
        told = f"error: the following required arguments were not provided:\n{names}\nUsage: dapnorm {words[0]} ".encode()
        report.check(f"{words} lacks {missing}", (status, output) == (3, b"") and errors.startswith(told), repr((status, output, errors)))


def help_texts(report, faulty):
    """The text is printed if it can be written, and the status reports a write that fails after 10 bytes."""
    for words, part in HELP + HELP_FIRST:
        status, output, errors = faulty.run(run_of(words))
        report.check(f"{words} prints {part}", status == 0 and part in output and errors == b"", repr((status, output, errors)))
        answer = faulty.run(run_of(words), write_fails=10)
        report.check(f"{words} with writes that fail", answer == (4, output[:10], b""), repr(answer))


def no_memory(report, faulty):
    """Each command line, with its first allocations refused: memory that is refused while the words are read is reported."""
    wanted = (5, b"", b"dapnorm: out of memory\n")
    for words in ([], ["--help"], ["compact"], ["check", "--all"]):
        found = [faulty.run_refused(run_of(words), turn) for turn in range(1, 4)]
        report.check(f"{words} without memory", (wanted, True) in found, repr(found))


def main():
    report = Report()
    if not report.check("the gate has built the program", os.access(PROGRAM, os.X_OK)):
        return report.close()
    with tempfile.TemporaryDirectory() as folder:
        faulty = Faulty(folder)
        jobs(report, faulty)
        no_jobs(report, faulty)
        missing_values(report, faulty)
        help_texts(report, faulty)
        no_memory(report, faulty)
    return report.close()


if __name__ == "__main__":
    sys.exit(main())
