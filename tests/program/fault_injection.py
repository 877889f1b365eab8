"""Runs the built tests and the program under the shim that refuses growths of memory, each in turn."""
import os
import re
import subprocess
import sys
import tempfile

from tests.program.faulty import Faulty, side_by_side
from tests.report import PROGRAM, TOP, Report
from tests.program.worked_runs import Run, all_runs

# Runs that are counted from the start of the program on: one of each command, and command lines that name no job.
FROM_THE_START = {
    "compact of a loose frame", "record of two sides", "check of a configuration", "normalise of a configuration", "show of frames",
    "mask rules of a configuration", "compare a b of frames exchanged", "diff a b of a stale frame",
    "check --complete of a configuration", "normalise --per-stop of a new frame", "compare --per-stop a b of a stale frame",
    "name rules of names", "mask --word mock=<m> rules of a word", "compare --word x=<w> --word mock=mo a a of a wrong word",
    "compare --rules rules a b of stops", "golden g of a configuration", "golden --rules rules g of a stop",
}
WORDS = [[], ["--help"], ["--version"], ["check", "--all"], ["rows"], ["rows", "62"], ["rows", "0"]]
WRITE_RECORDS = ("normalise", "mask", "name")
MEMORY, GOLDEN_MEMORY = b"dapnorm: out of memory\n", b"dapnorm: golden: out of memory\n"


def run_tests(report, shim):
    """Each test that asks for refusals, by itself."""
    found = 0
    for crate, part in (("layer_tests", "allocating_"), ("conformance", "masks")):
        tests = os.path.join(TOP, "crates", crate, "out", f"{crate}_tests")
        if not report.check(f"the gate has built the tests of {crate}", os.access(tests, os.X_OK)):
            continue
        listed = subprocess.run([tests, "--list"], capture_output=True, text=True, check=True).stdout
        for line in listed.splitlines():
            name = line.removesuffix(": test")
            if name == line or part not in name:
                continue
            found += 1
            ran = subprocess.run([tests, name], env={**os.environ, "LD_PRELOAD": shim}, capture_output=True, text=True, timeout=120)
            report.check(f"{os.path.basename(tests)} {name} under refused growths", ran.returncode == 0, ran.stdout + ran.stderr)
    report.check("some tests ask for refused growths", found > 0)


def fronts(run):
    """What may have been written if an allocation fails: some leading records of what is written, or nothing."""
    text = run.answer[1] if run.arguments[:1] and run.arguments[0] in WRITE_RECORDS else b""
    ends = [0]
    while ends[-1] < len(text):
        header = re.compile(rb"[<>]Content-Length: (\d+)\r\n\r\n").match(text, ends[-1])
        ends.append(header.end() + int(header[1]) + 1)
    return [text[:end] for end in ends]


def memory_lines(run):
    """The lines that may report a failed allocation. `golden` has one of its own, from when its input is read."""
    return [MEMORY, GOLDEN_MEMORY] if run.arguments[:1] == ["golden"] else [MEMORY]


def each_turn(faulty, run, **asked):
    """A run with its first growth refused, then its second, and so on until it meets none: how many were, and what was answered wrongly."""
    wanted, wrong = [(5, front, line) for front in fronts(run) for line in memory_lines(run)], []
    for turn in range(1, 10_000):
        answer, is_refused = faulty.run_refused(run, turn, **asked)
        if answer != run.answer and not (is_refused and answer in wanted):
            wrong.append(f"growth {turn}: {answer!r}")
        if not is_refused:
            return turn - 1, wrong
    return turn, [*wrong, "it meets no growth after the last"]


def turned_runs(faulty):
    """Each worked run whose growths are not those of another, and the command lines that name no job."""
    runs = [
        run for run in all_runs()
        if run.name in FROM_THE_START or ("--complete" not in run.arguments and not run.name.endswith(", normal"))
    ]
    for words in WORDS:
        run = Run(f"the words {words}", words, b"", {}, None)
        runs.append(run._replace(answer=faulty.run(run)))
    return runs


def worked(report, faulty):
    """Each of these runs; those of most come a byte at a time, and their growths are counted from the first read on."""
    runs = turned_runs(faulty)
    report.check("the runs that are counted from the start are there", FROM_THE_START <= {run.name for run in runs})
    whole = [run.name in FROM_THE_START or run.arguments in WORDS for run in runs]
    found = side_by_side(lambda case: each_turn(faulty, case[0], **({} if case[1] else {"from_read": 1, "read": 1})), list(zip(runs, whole)))
    for run, is_whole, (count, wrong) in zip(runs, whole, found):
        report.check(f"{run.name} with each growth refused in turn", not wrong, "; ".join(wrong[:3]))
        if is_whole:
            report.check(f"some growths of {run.name} were refused", count > 10, str(count))
    total = sum(count for count, _ in found)
    report.check("growths were refused behind the start too", total > 5_000, str(total))
    print(f"{total} growths refused in {len(runs)} runs", flush=True)


def main():
    report = Report()
    if not report.check("the gate has built the program", os.access(PROGRAM, os.X_OK)):
        return report.close()
    with tempfile.TemporaryDirectory() as folder:
        faulty = Faulty(folder)
        run_tests(report, faulty.shim)
        worked(report, faulty)
    return report.close()


if __name__ == "__main__":
    sys.exit(main())
