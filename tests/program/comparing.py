"""Takes recordings through `compare`, by pairs: those of real adapters, and files that are not there."""
import json
import os
import subprocess
import sys
import tempfile

from tests.program.captures import REFUSED_RECORDINGS
from tests.report import PROGRAM, TOP, Report, run

sys.path.insert(0, os.path.join(TOP, "scripts"))
from compare_reference import compared
from normalise_reference import BREAKPOINT, MARKERS, THREAD, normalised, places, rename
from one_direction import records

CAPTURES = os.path.join(TOP, "examples", "captures")

# Two runs of one session each, and how many of their pairs of numbers differ.
SAME = {
    ("dlv-l-stopentry.3.rec", "dlv-l-stopentry.5.rec"): 13,
    ("lldb14-k-badlaunch.1.rec", "lldb14-k-badlaunch.5.rec"): 3,
    ("rdbg-e-errors.3.rec", "rdbg-e-errors.5.rec"): 26,
}

# Two sessions of one adapter each, and the first record at which they differ.
DIFFERENT = {
    ("dlv-a-basic.1.rec", "dlv-l-stopentry.3.rec"): 3,
    ("lldb14-b-loop.1.rec", "lldb14-k-badlaunch.1.rec"): 3,
    ("debugpy-a-basic.1.rec", "debugpy-l-stopentry.1.rec"): 5,
}


def path(name):
    return os.path.join(CAPTURES, name)


def read(name):
    with open(path(name), "rb") as file:
        return file.read()


def compare(one, other):
    return run(["compare", one, other])


def same_sessions(report):
    for (one, other), differing in SAME.items():
        status, lines, errors = compare(path(one), path(other))
        told = [line.split() for line in lines.decode().splitlines()]
        report.check(f"{one} and {other} are the same", (status, errors, told[:1]) == (0, b"", [["same"]]), repr((status, errors, lines)))
        number = sum(before != after for _, before, after in told[1:])
        report.check(f"{one} and {other}: {differing} pairs of numbers differ", number == differing, str(number))
        back = compare(path(other), path(one))[1].decode().splitlines()
        report.check(f"{other} and {one}: the pairs go the other way", [line.split() for line in back[1:]] == [[word, y, x] for word, x, y in told[1:]])


class AThousandMore(dict):
    """Gives each number a name that is a thousand more."""

    def setdefault(self, number, _):
        return number + 1000


def with_other_threads(recording):
    """The recording with other numbers of threads and of breakpoints, as another run has them."""
    written = b""
    for side, _, content in records(recording):
        message = json.loads(content)
        sorts = {place: sort for place, sort in places(message, first_rows=False) if sort in (THREAD, BREAKPOINT)}
        message = rename({THREAD: AThousandMore(), BREAKPOINT: AThousandMore()}, sorts, side, "", message)
        content = json.dumps(message, separators=(",", ":"), ensure_ascii=False).encode()
        written += b"%sContent-Length: %d\r\n\r\n%s\n" % (MARKERS[side], len(content), content)
    return written


def other_threads(report):
    """Sessions that differ in the numbers of threads and of breakpoints alone are the same."""
    with tempfile.TemporaryDirectory() as folder:
        other = os.path.join(folder, "other")
        for name in ("debugpy-a-basic.1.rec", "dlv-a-basic.1.rec", "lldb14-b-loop.1.rec"):
            with open(other, "wb") as file:
                file.write(with_other_threads(read(name)))
            status, lines, errors = compare(path(name), other)
            told = [line.split() for line in lines.decode().splitlines()]
            report.check(f"{name} is the same with other threads", (status, errors, told[:1]) == (0, b"", [["same"]]), repr((status, errors, lines)))
            moved = {word for word, x, y in told[1:] if int(y) == int(x) + 1000}
            report.check(f"{name}: its threads and breakpoints are paired", moved == {"thread", "breakpoint"}, repr(moved))
            report.check(f"{name}: all else has its own number", all(x == y for word, x, y in told[1:] if word not in moved))


def different_sessions(report):
    for (one, other), number in DIFFERENT.items():
        answer = compare(path(one), path(other))
        report.check(f"{one} and {other} differ at record {number}", answer == (1, b"differ %d\n" % number, b""), repr(answer))


def every_pair(report, names):
    """Each accepted recording with each, and with its normal form: what the script tells."""
    texts = {name: read(name) for name in names if name not in REFUSED_RECORDINGS}
    for one in texts:
        for other in texts:
            lines = compared(texts[one], texts[other])
            answer = compare(path(one), path(other))
            wanted = (0 if lines.startswith("same") else 1, lines.encode(), b"")
            report.check(f"{one} and {other}: the script tells the same", answer == wanted, repr(answer))
    with tempfile.TemporaryDirectory() as folder:
        for one, text in texts.items():
            normal = os.path.join(folder, "normal")
            with open(normal, "wb") as file:
                file.write(normalised(text))
            status, lines, errors = compare(path(one), normal)
            report.check(f"{one} is the same as its normal form", (status, lines[:5], errors) == (0, b"same\n", b""), repr((status, errors)))


def refused_sessions(report):
    """An error is reported if the records before it are the same, and not after a difference."""
    for name, reason in REFUSED_RECORDINGS.items():
        answer = compare(path(name), path(name))
        report.check(f"{name} is refused beside itself", answer == (2, b"", f"dapnorm: A: {reason}\n".encode()), repr(answer))
        answer = compare(path(name), os.devnull)
        report.check(f"{name} differs from an empty recording", answer == (1, b"differ 1\n", b""), repr(answer))


def beside_a_cut(report):
    """One input is cut in its last record, and the records before are the same."""
    text = read("dlv-l-stopentry.3.rec")
    last = sum(1 for _ in records(text))
    whole = path("dlv-l-stopentry.5.rec")
    with tempfile.TemporaryDirectory() as folder:
        cut = os.path.join(folder, "cut")
        with open(cut, "wb") as file:
            file.write(text[:-1])
        for one, other, which in ((cut, whole, "A"), (whole, cut, "B"), (cut, cut, "A")):
            answer = compare(one, other)
            wanted = (2, b"", f"dapnorm: {which}: record {last}: Cut\n".encode())
            report.check(f"a cut of {which} is told", answer == wanted, repr(answer))


def files(report):
    """What is wrong with a file is told in one line, with status 4; A is opened first."""
    good, missing = path("dlv-l-stopentry.3.rec"), path("no-such.rec")
    for one, other, which, title in (
        (missing, good, "A", "a missing file"),
        (good, missing, "B", "a missing file"),
        (missing, missing, "A", "two missing files"),
        (CAPTURES, good, "A", "a folder"),
        (os.devnull, CAPTURES, "B", "a folder"),
    ):
        answer = compare(one, other)
        report.check(f"{title} as {which}", answer == (4, b"", f"dapnorm: {which}: read fault\n".encode()), repr(answer))
    with open("/dev/full", "wb") as full:
        ran = subprocess.run([PROGRAM, "compare", good, good], stdout=full, stderr=subprocess.PIPE)
    report.check("a full device is a write fault of compare", (ran.returncode, ran.stderr) == (4, b"dapnorm: write fault\n"), repr(ran))
    report.check("two empty files are the same", compare(os.devnull, os.devnull) == (0, b"same\n", b""))
    for arguments in (["compare"], ["compare", good], ["compare", good, good, good]):
        status, output, errors = run(arguments)
        report.check(f"compare of {len(arguments) - 1} files is a usage fault", status == 3 and output == b"" and errors.startswith(b"error: "))


def main():
    report = Report()
    if not report.check("the gate has built the program", os.access(PROGRAM, os.X_OK)):
        return report.close()
    names = sorted(name for name in os.listdir(CAPTURES) if name.endswith(".rec"))
    report.check("each recording is there", len(names) == 15, str(len(names)))
    same_sessions(report)
    other_threads(report)
    different_sessions(report)
    every_pair(report, names)
    refused_sessions(report)
    beside_a_cut(report)
    files(report)
    return report.close()


if __name__ == "__main__":
    sys.exit(main())
