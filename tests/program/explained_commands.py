"""Runs each command on inputs that it rejects, with `--explain` and with `DAPNORM_EXPLAIN`: the first line is the same as without, and lines
for people follow it."""
import os
import subprocess
import sys

from tests.program.golden import Folder
from tests.report import PROGRAM, Report
from tests.program.worked_runs import BEGUN, CONFIGURED, LAUNCH, OUTPUT, REFUSED_LINES, RESPONSE, RULES, THREADS, frame, recording

FRACTION = recording([*BEGUN, LAUNCH % "0.5"])
ANSWERED = recording([*BEGUN, RESPONSE])
OPEN = recording([*BEGUN, THREADS])
PLACE = "arguments.x is 0.5"

# The words of a command with the files that it reads, and parts of what follows its line.
EXPLAINED = [
    (["check", "fraction"], ['record 3 is > request "launch"', PLACE]),
    (["check", "answered"], ['< response "initialize", to request 1']),
    (["check", "--complete", "open"], ['"threads"']),
    (["check", "--per-stop", "answered"], ["record 2"]),
    (["check", "--rules", "events", "fraction"], [PLACE]),
    (["check", "--rules", "early", "good"], ['> request "configurationDone"', "initialized event"]),
    (["check", "--rules", "swaps", "answered"], ["record 2"]),
    (["check", "--complete", "--rules", "swaps", "open"], ['"threads"']),
    (["check", "--rules", "bad", "good"], ['"hide"']),
    (["check", "--rules", "none", "good"], ["none: No such file or directory"]),
    (["check", "--rules", "swaps", "none"], ["none: No such file or directory"]),
    (["normalise", "fraction"], [PLACE, "blank request launch arguments.x"]),
    (["normalise", "--per-stop", "answered"], ["record 2"]),
    (["show", "fraction"], [PLACE]),
    (["compact", "frames"], ["0.5"]),
    (["mask", "events", "fraction"], [PLACE]),
    (["mask", "bad", "fraction"], ['"hide"']),
    (["name", "events", "fraction"], [PLACE]),
    (["name", "bad", "good"], ['"hide"']),
    (["name", "none", "good"], ["none: No such file or directory"]),
    (["name", "events", "trace"], ["this looks like a trace"]),
    (["record", "trace"], ["6"]),
    (["compare", "good", "fraction"], [PLACE]),
    (["compare", "fraction", "good"], [PLACE]),
    (["diff", "good", "answered"], ["record 2"]),
    (["diff", "--per-stop", "answered", "good"], ["record 2"]),
    (["compare", "--rules", "events", "fraction", "good"], [PLACE]),
    (["compare", "--rules", "early", "good", "good"], ['> request "configurationDone"', "initialized event"]),
    (["diff", "--rules", "swaps", "good", "answered"], ["record 2"]),
    (["diff", "--all", "--rules", "swaps", "answered", "good"], ["record 2"]),
    (["compare", "--rules", "bad", "good", "good"], ['"hide"']),
    (["compare", "--rules", "none", "good", "good"], ["none: No such file or directory"]),
    (["compare", "--rules", "swaps", "none", "good"], ["none: No such file or directory"]),
    # The record that is reported, though B is rejected earlier, or the recordings differ before.
    (["suggest", "late", "other"], ['record 4 is < response "initialize"']),
    (["suggest", "late", "apart"], ['record 4 is < response "initialize"']),
    (["diff", "--all", "late", "other"], ['record 4 is < response "initialize"']),
    (["diff", "--all", "late", "apart"], ['record 4 is < response "initialize"']),
    (["diff", "--all", "apart", "late"], ['record 4 is < response "initialize"']),
    (["diff", "--all", "fraction", "good"], [PLACE]),
    (["compare", "other", "late"], ['record 2 is < response "other"']),
    (["suggest", "--rules", "swaps", "late", "good"], ['record 4 is < response "initialize"']),
    (["suggest", "--rules", "bad", "good", "good"], ['"hide"']),
    (["check", "folder"], ["folder: Is a directory"]),
    (["check", "none"], ["none: No such file or directory"]),
    (["mask", "none", "good"], ["none: No such file or directory"]),
    (["mask", "-", "good"], ["  -: No such file or directory"]),
    (["compare", "--rules", "-", "good", "good"], ["  -: No such file or directory"]),
    (["mask", "/dev/zero", "good"], ["a file of rules has at most 65536 bytes"]),
    (["compare", "none", "good"], ["none: No such file or directory"]),
    (["diff", "good", "folder"], ["folder: Is a directory"]),
]
# `order` explains without the option.
EXPLAINS = [
    (["order", "swaps", "answered"], ["record 2"]),
    (["order", "swaps", "fraction"], [PLACE]),
    (["order", "swaps", "trace"], ["this looks like a trace"]),
    (["order", "bad", "good"], ['"hide"']),
    (["order", "none", "good"], ["none: No such file or directory"]),
    (["order", "swaps", "none"], ["none: No such file or directory"]),
]
FILES = {
    "fraction": FRACTION, "answered": ANSWERED, "open": OPEN, "frames": frame('{"x":0.5}'), "rules": RULES, "bad": b"hide event output\n", "events": b"drop event *\n",
    "early": b"drop event initialized\n", "swaps": b"swap response * request *\n",
    "trace": b">10\nCont", "good": recording(CONFIGURED), "late": recording([*BEGUN, OUTPUT, RESPONSE]),
    "other": recording([BEGUN[0], BEGUN[1].replace("initialize", "other")]), "apart": recording([BEGUN[0].replace("mock", "mick"), BEGUN[1]]),
}


def ran(folder, words, given=b"", **environment):
    done = subprocess.run([PROGRAM, *words], input=given, capture_output=True, cwd=folder.path, timeout=60, env=environment)
    first, _, others = done.stderr.decode().partition("\n")
    return done.returncode, done.stdout, first, others


def explanations(report, folder):
    for words, parts in EXPLAINED:
        plain = ran(folder, words)
        explained = ran(folder, [*words, "--explain"])
        report.check(f"{words}: the same line and status", explained[:3] == plain[:3] and plain[0] != 0, repr((plain, explained)))
        report.check(f"{words}: lines that begin with two spaces", all(it.startswith("  ") for it in explained[3].splitlines()), explained[3])
        for part in parts:
            report.check(f"{words}: {part}", part in explained[3], explained[3])
        for value, wanted in (("1", explained), ("0", plain), ("", plain)):
            found = ran(folder, words, DAPNORM_EXPLAIN=value)
            report.check(f"{words}: DAPNORM_EXPLAIN={value}", found == wanted, repr(found))


def ordering(report, folder):
    for words, parts in EXPLAINS:
        explained = ran(folder, words)
        report.check(f"{words}: a line and a status", explained[0] in (2, 4) and explained[2].startswith("dapnorm: "), repr(explained))
        report.check(f"{words}: lines that begin with two spaces", all(it.startswith("  ") for it in explained[3].splitlines()), explained[3])
        for part in parts:
            report.check(f"{words}: {part}", part in explained[3], explained[3])


def refusals(report, folder):
    """Each refusal of a line keeps its line, and has an explanation."""
    for name, (lines, line, told) in REFUSED_LINES.items():
        given = recording([*lines, line])
        plain = ran(folder, ["check"], given)
        explained = ran(folder, ["check", "--explain"], given)
        report.check(f"{name}: {told}", explained[:3] == plain[:3] == (2, b"", f"dapnorm: {told}") and explained[3], repr(explained))


def successes(report, folder):
    """A command that succeeds prints nothing more."""
    for words in (["check", "good"], ["check", "--rules", "swaps", "good"], ["normalise", "good"], ["show", "good"], ["mask", "rules", "good"], ["name", "rules", "good"], ["compare", "good", "good"], ["diff", "good", "good"]):
        report.check(f"{words}: nothing to explain", ran(folder, [*words, "--explain"]) == ran(folder, words))
    report.check("an output file is not written", ran(folder, ["normalise", "--explain", "fraction", "-o", "out"])[0] == 2 and folder.read("out") is None)
    report.check("standard input is named", "  standard input: " in closed(folder), closed(folder))


def pipes(report, folder):
    """A golden file that is a pipe is not read again to explain why it is rejected."""
    words = ["bash", "-c", '"$0" golden <(printf x) good', PROGRAM]
    done = subprocess.run(words, capture_output=True, cwd=folder.path, timeout=60)
    lines = done.stderr.decode().splitlines()
    report.check("a pipe as golden file", done.returncode == 2 and len(lines) == 1 and lines[0].endswith("record 1: BadMarker"), repr(lines))


def closed(folder):
    """What is printed if standard input is a folder, which cannot be read."""
    done = subprocess.run([PROGRAM, "check", "--explain"], stdin=os.open(folder.path, os.O_RDONLY), capture_output=True, cwd=folder.path, timeout=60)
    return done.stderr.decode()


def main():
    report = Report()
    if not report.check("the gate has built the program", os.access(PROGRAM, os.X_OK)):
        return report.close()
    with Folder(**FILES) as folder:
        os.mkdir(folder.at("folder"))
        for test in (explanations, ordering, refusals, successes, pipes):
            test(report, folder)
    return report.close()


if __name__ == "__main__":
    sys.exit(main())
