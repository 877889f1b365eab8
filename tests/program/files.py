"""Runs the commands on files that they are given: inputs that do not open, and outputs that are written only if the command succeeds."""
import os
import subprocess
import sys
import tempfile

from tests.program.faulty import build_shim, side_by_side
from tests.program.golden import Folder
from tests.report import PROGRAM, Report
from tests.program.worked_runs import (
    BEGUN, CANONICAL, CONFIGURED, LAUNCH, LOOSE, NORMAL_CONFIGURED, RECORDED, REFUSED_BYTES, REFUSED_LINES, RULES, SHOWN, SESSIONS, TRACE, frame,
    masked, recording, refusal,
)

NORMAL = recording(NORMAL_CONFIGURED)

# Words with an input file, its content and what is written to the output file.
WRITTEN = [
    (["normalise"], recording(CONFIGURED), NORMAL),
    (["record"], TRACE, RECORDED),
    (["show"], recording(SESSIONS["frames"][0]), SHOWN["frames"].encode()),
    (["mask", "rules"], recording(CONFIGURED), recording(masked(CONFIGURED))),
    (["name", "rules"], recording(CONFIGURED), recording(CONFIGURED)),
    (["compact"], frame(LOOSE), frame(CANONICAL)),
]


def outputs(report):
    for words, given, written in WRITTEN:
        for output in (["-o", "out"], ["--output", "out"], ["--output=out"]):
            for old in (None, b"old"):
                with Folder(given=given, rules=RULES, **({} if old is None else {"out": old})) as folder:
                    answer = folder.run(*words, "given", *output)
                    report.check(f"{words} {output} over {old}", answer == (0, b"", b"") and folder.read("out") == written, repr(answer))
                    report.check(f"{words} {output} leaves no other file", folder.names() == ["given", "out", "rules"], repr(folder.names()))
        with Folder(given=given, rules=RULES) as folder:
            report.check(f"{words} from standard input", folder.run(*words, "-o", "out", given=given) == (0, b"", b"") and folder.read("out") == written)
            report.check(f"{words} to standard output", folder.run(*words, "given", "-o", "-") == (0, written, b""))
            report.check(f"{words} to a device", folder.run(*words, "given", "-o", "/dev/stdout") == (0, written, b""))
            report.check(f"{words} to /dev/null", folder.run(*words, "given", "-o", "/dev/null") == (0, b"", b"") and not os.path.isfile("/dev/null"))
            report.check(f"{words} over its input", folder.run(*words, "given", "-o", "given") == (0, b"", b"") and folder.read("given") == written)


def refusals(report):
    """A command that fails writes no output, and the old file stays."""
    cases = [("normalise", recording([*lines, line]), told) for lines, line, told in REFUSED_LINES.values()]
    cases += [(command, recording(lines) + rest, told) for command in ("normalise", "show") for lines, rest, told in REFUSED_BYTES.values()]
    cases += [("record", b">10\nCont", "piece 1: Cut"), ("compact", frame("-0"), "record 1: Fraction")]
    for command, given, told in cases:
        for old in (None, b"old"):
            with Folder(given=given, **({} if old is None else {"out": old})) as folder:
                answer = folder.run(command, "given", "-o", "out")
                report.check(f"{command} of {told} over {old}", answer == (2, b"", refusal(told)) and folder.read("out") == old, repr(answer))
    with Folder(given=recording([*BEGUN, LAUNCH % "0.5"]), rules=RULES, bad=b"blank\n", out=b"old") as folder:
        for words, told in ((["mask", "bad", "given"], "rules: line 1: BadRule"), (["normalise", "given"], "record 3: Fraction")):
            answer = folder.run(*words, "-o", "out")
            report.check(f"{words} -o out", answer == (2, b"", refusal(told)) and folder.read("out") == b"old", repr(answer))


def bad_files(report):
    with Folder(given=recording(CONFIGURED), rules=RULES) as folder:
        os.mkdir(folder.at("folder"))
        cases = [
            (["check", "none"], 4, "read fault"), (["check", "folder"], 4, "read fault"), (["normalise", "none", "-o", "out"], 4, "read fault"),
            (["mask", "none", "given", "-o", "out"], 4, "rules: read fault"), (["mask", "rules", "none"], 4, "read fault"),
            (["compare", "none", "given"], 4, "A: read fault"), (["diff", "given", "none"], 4, "B: read fault"),
            (["normalise", "given", "-o", "folder"], 4, "folder: write fault"), (["show", "given", "-o", "none/out"], 4, "none/out: write fault"),
        ]
        for words, status, told in cases:
            answer = folder.run(*words)
            report.check(f"{words}", answer == (status, b"", refusal(told)), repr(answer))
        ran = subprocess.run([PROGRAM, "check", "none"], cwd=folder.path, capture_output=True)
        report.check("the reason is reported", b"  none: No such file or directory" in ran.stderr, repr(ran.stderr))
        report.check("no file is made", folder.names() == ["folder", "given", "rules"] and os.listdir(folder.at("folder")) == [])


def killed(report):
    """An output is the old one or the new one, whole, if the process is killed at each of its calls on files, or one of them fails; also if what
    is not synced is lost."""
    with tempfile.TemporaryDirectory() as place:
        shim = build_shim(place)

        def ended(case):
            how, loses, number = case
            with Folder(given=recording(CONFIGURED), out=b"old") as folder:
                environment = {"LD_PRELOAD": shim, f"FAULT_INJECTION_{how}": str(number), "FAULT_INJECTION_LOSES": str(loses)}
                ran = subprocess.run(["dapnorm", "normalise", "given", "-o", "out"], executable=PROGRAM, capture_output=True, cwd=folder.path, env=environment)
                return ran.returncode, folder.read("out"), [name for name in folder.names() if name not in ("given", "out")], ran.stderr

        for how, loses in (("KILLED_AT", 0), ("FAILS_AT", 0), ("KILLED_AT", 1), ("FAILS_AT", 1)):
            cases = [(how, loses, number) for number in range(1, 50)]
            told = f"{how}, loses {loses}"
            found = side_by_side(ended, cases)
            report.check(f"{told}: some calls end the run", len([it for it in found if it[0] != 0]) > 6)
            report.check(f"{told}: a last run meets no such call", found[-1] == (0, NORMAL, [], b""), repr(found[-1]))
            for (_, _, number), (status, content, left, errors) in zip(cases, found):
                report.check(f"{told} {number}: the output is the old or the new one", content in (b"old", NORMAL), repr(content))
                report.check(f"{told} {number}: a run that ends well has written it", status != 0 or content == NORMAL, repr((status, errors)))
                is_told = how == "KILLED_AT" or left == [] or b"temporary" in errors
                report.check(f"{told} {number}: no temporary file is left", is_told or loses == 1, repr((left, errors)))


def main():
    report = Report()
    if not report.check("the gate has built the program", os.access(PROGRAM, os.X_OK)):
        return report.close()
    for test in (outputs, refusals, bad_files, killed):
        test(report)
    return report.close()


if __name__ == "__main__":
    sys.exit(main())
