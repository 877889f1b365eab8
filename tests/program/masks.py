"""Masks pairs of fresh runs of real adapters and gives names to their ids, and compares what is left of them."""
import os
import sys
import tempfile

from tests.report import PROGRAM, TOP, Report, run

EXAMPLES = os.path.join(TOP, "examples")

# The rules, two runs of one session, and what `compare` says of them as they came, and masked and named. Two values of debugpy's
# g-cancel and addresses in the texts of delve's a-basic, which are decimal there, really differ.
PAIRS = [
    ("debugpy", "pairs/debugpy-e-errors.1", "pairs/debugpy-e-errors.2", "differ", "same"),
    ("debugpy", "pairs/debugpy-l-stopentry.3", "pairs/debugpy-l-stopentry.4", "differ", "same"),
    ("debugpy", "pairs/debugpy-g-cancel.3", "pairs/debugpy-g-cancel.4", "differ", "differ"),
    ("delve", "captures/dlv-a-basic.1", "pairs/dlv-a-basic.2", "differ", "differ"),
    ("delve", "pairs/dlv-f-edit.1", "pairs/dlv-f-edit.2", "differ", "same"),
    ("lldb", "pairs/lldb14-e-errors.1", "pairs/lldb14-e-errors.2", "differ", "same"),
    ("lldb", "captures/lldb14-b-loop.1", "pairs/lldb14-b-loop.2", "differ", "same"),
    ("lldb", "pairs/lldb16-l-stopentry.1", "pairs/lldb16-l-stopentry.2", "differ", "same"),
    ("lldb", "pairs/lldb16-i-terminal.1", "pairs/lldb16-i-terminal.2", "differ", "same"),
    ("lldb", "pairs/lldb19-e-errors.1", "pairs/lldb19-e-errors.2", "differ", "same"),
    ("rdbg", "pairs/rdbg-g-cancel.1", "pairs/rdbg-g-cancel.2", "differ", "same"),
    # Two sessions that really differ stay different.
    ("debugpy", "pairs/debugpy-e-errors.1", "pairs/debugpy-l-stopentry.3", "differ", "differ"),
]

# Files of rules that are refused, and what is told.
REFUSED = [
    (b"blank event stopped", b"dapnorm: rules: line 1: BadRule\n"),
    (b"# ids stay\nblank response stackTrace body.stackFrames[].id\n", b"dapnorm: rules: line 2: BadPlace\n"),
    (b"\n\nblank request * seq\n", b"dapnorm: rules: line 3: BadPlace\n"),
    (b"blank event process body.name\nblank event process body.name\n", b"dapnorm: rules: line 2: Repeated\n"),
    (b"uuid response evaluate body.result\ndigits response evaluate body.result\n", b"dapnorm: rules: line 2: Clash\n"),
    (b"drop event \xff\n", b"dapnorm: rules: line 1: NotUtf8\n"),
    (b"# \n" * 21_846, b"dapnorm: rules: line 21846: TooLong\n"),
    (b"".join(b"drop event e%d\n" % number for number in range(1001)), b"dapnorm: rules: line 1001: TooMany\n"),
]


def read(name):
    with open(os.path.join(EXAMPLES, *name.split("/")), "rb") as file:
        return file.read()


def masked_and_named(rules, recording):
    """A recording after `mask` and `name` by these rules."""
    return run(["name", rules], run(["mask", rules], recording)[1])[1]


def compared(folder, first, second):
    """The first word of what `compare` says, or its refusal."""
    paths = []
    for which, recording in (("a", first), ("b", second)):
        paths.append(os.path.join(folder, which))
        with open(paths[-1], "wb") as file:
            file.write(recording)
    status, output, errors = run(["compare", *paths])
    return output.split()[0].decode() if status < 2 else errors.decode().strip()


def pairs(report, folder):
    for mask, first, second, raw, left in PAIRS:
        rules = os.path.join(EXAMPLES, "rules", f"{mask}.rules")
        runs = [read(f"{name}.rec") for name in (first, second)]
        answer = compared(folder, *runs)
        report.check(f"{first} and {second}, as they came", answer == raw, repr(answer))
        masked = []
        for name, recording in zip((first, second), runs):
            status, output, errors = run(["mask", rules], recording)
            report.check(f"{name}: mask", (status, errors) == (0, b""), repr(errors))
            again = run(["mask", rules], output)
            report.check(f"{name}: masked again it is what it was", again == (0, output, b""), repr(again[2]))
            answer = run(["name", rules], output)
            report.check(f"{name}: name", (answer[0], answer[2]) == (0, b""), repr(answer[2]))
            for command in ("mask", "name"):
                again = run([command, rules], answer[1])
                report.check(f"{name}: {command} of the names leaves them", again == answer, repr(again[2]))
            masked.append(answer[1])
        answer = compared(folder, *masked)
        report.check(f"{first} and {second}, masked and named", answer == left, repr(answer))


def session_of_lldb_16(report):
    """A session with fractions: refused as it came, and a golden file once it is masked."""
    rules = os.path.join(EXAMPLES, "rules", "lldb.rules")
    status, recording, errors = run(["record"], read("captures/lldb16-a-basic.1.trace"))
    report.check("lldb 16: record", status == 0, repr(errors))
    report.check("lldb 16: check refuses it", run(["check"], recording)[2] == b"dapnorm: record 364: Fraction\n")
    status, masked, errors = run(["mask", rules], recording)
    report.check("lldb 16: mask", (status, errors) == (0, b""), repr(errors))
    status, output, errors = run(["check", "--complete"], masked)
    report.check("lldb 16: check accepts it masked", status == 0, repr(errors))
    status, golden, errors = run(["normalise"], masked)
    report.check("lldb 16: normalise", status == 0 and golden, repr(errors))


def refused_rules(report, folder):
    path = os.path.join(folder, "rules")
    for rules, line in REFUSED:
        with open(path, "wb") as file:
            file.write(rules)
        answer = run(["mask", path], b"nothing is read of this")
        report.check(f"refused: {line.decode().strip()}", answer == (2, b"", line), repr(answer))
    answer = run(["mask", os.path.join(folder, "none")])
    report.check("rules that do not open", answer == (4, b"", b"dapnorm: rules: read fault\n"), repr(answer))
    with open(path, "wb") as file:
        file.write(b"# nothing\n")
    answer = run(["mask", path], b"x")
    report.check("a recording that is refused", answer == (2, b"", b"dapnorm: record 1: BadMarker\n"), repr(answer))
    recording = read("captures/rdbg-e-errors.3.rec")
    status, output, errors = run(["mask", path], recording)
    report.check("no rule takes nothing away", (status, errors) == (0, b"") and run(["mask", path], output)[1] == output)
    report.check("a mask without rules is a usage fault", run(["mask"])[0] == 3)


def main():
    report = Report()
    if not report.check("the gate has built the program", os.access(PROGRAM, os.X_OK)):
        return report.close()
    with tempfile.TemporaryDirectory() as folder:
        pairs(report, folder)
        refused_rules(report, folder)
    session_of_lldb_16(report)
    return report.close()


if __name__ == "__main__":
    sys.exit(main())
