"""Hostile runs of the program that the gate built: the worked runs a byte at a time and interrupted, inputs that are cut, very long, or grow while
they are read, and devices that fail at each place."""
import os
import re
import subprocess
import sys
import tempfile

from tests.program.faulty import Faulty, side_by_side
from tests.report import PROGRAM, Report, first_line
from tests.program.worked_runs import (
    BEGUN, CONFIGURED, NORMAL_BEGUN, NORMAL_CONFIGURED, OUTPUT, RECORDED, RULES, SESSIONS, THREADS, TRACE, Run, all_runs, masked, record,
    recording, refusal,
)

READ_FAULT, WRITE_FAULT = refusal("read fault"), refusal("write fault")
SESSION, NORMAL = recording(CONFIGURED), recording(NORMAL_CONFIGURED)
MASKED = recording(masked(CONFIGURED))
PIECE = 65_536

# How reads and writes are made: as the system has them; a byte at a time; each interrupted once; both, in other pieces.
WAYS = [{}, {"read": 1, "write": 1}, {"interrupted": 1}, {"read": 7, "write": 3, "interrupted": 1}]


def worked(report, faulty):
    """Each worked run, whatever the reads and writes are."""
    cases = [(run, way) for way in WAYS for run in all_runs()]
    for (run, way), answer in zip(cases, side_by_side(lambda case: faulty.run(case[0], **case[1]), cases)):
        report.check(f"{run.name} with {way}", answer == run.answer, repr(answer))


def named(name):
    return next(run for run in all_runs() if run.name == name)


# A run of each command that ends well, and how many files it opens before it reads.
COMMANDS = [
    "compact of a loose frame", "record of two sides", "normalise of a configuration", "check of a configuration", "show of frames",
    "mask rules of a configuration", "name rules of ids", "compare a b of frames exchanged", "diff a b of a stale frame",
]

# Runs whose writes fail too, and how many bytes a write takes at most.
OTHER_WRITES = [("check of a configuration", 3), ("show of an event", PIECE), ("diff a b of another reason", PIECE)]


def asks_each(report, title, faulty, run, cases):
    """Runs under each thing that is asked of the shim, and the answers that are wanted; one line for all."""
    found = side_by_side(lambda case: faulty.run(run, **case[0]), cases)
    wrong = [f"{asked}: {answer!r}" for (asked, wanted), answer in zip(cases, found) if answer != wanted]
    report.check(f"{title}, {len(cases)} runs", cases and not wrong, "; ".join(wrong[:3]))


def ends(lines):
    """After how many bytes each of the lines' records ends."""
    found = [0]
    for line in lines:
        found.append(found[-1] + len(record(line)))
    return found


def so_far(place, texts):
    """The texts of the records of the configured session that end within so many bytes."""
    return b"".join(text for end, text in zip(ends(CONFIGURED)[1:], texts) if end <= place)


MASKED_TEXTS = [recording(masked([line])) for line in CONFIGURED]
NORMAL_TEXTS = [record(line) for line in NORMAL_CONFIGURED]
CONFIGURED_TEXTS = [record(line) for line in CONFIGURED]
MASKING, NORMALISING, NAMING = "mask rules of a configuration", "normalise of a configuration", "name rules of a configuration"


def failing_readers(report, faulty):
    """A reader that fails after each number of bytes: what the records before it are made into has been written."""
    for name, texts in ((MASKING, MASKED_TEXTS), (NORMALISING, NORMAL_TEXTS), (NAMING, CONFIGURED_TEXTS)):
        for read in (5, PIECE):
            cases = [({"read_fails": place, "read": read}, (4, so_far(place, texts), READ_FAULT)) for place in range(len(SESSION) + 1)]
            asks_each(report, f"{name} with reads of {read} that fail", faulty, named(name), cases)
    rules = [({"read_fails": place, "read_of": 3}, (4, b"", refusal("rules: read fault"))) for place in range(len(RULES) + 1)]
    asks_each(report, "rules that cannot be read", faulty, named(MASKING), rules)
    for name, read in (("compact of a loose frame", 5), ("check of a configuration", 5), ("show of frames", 5), ("show of an event", 7)):
        run = named(name)
        cases = [({"read_fails": place, "read": read}, (4, b"", READ_FAULT)) for place in range(len(run.given) + 1)]
        asks_each(report, f"{name} with reads that fail", faulty, run, cases)
    both = named("compare a b of frames exchanged")
    for which, file in (("A", 3), ("B", 4)):
        fault = (4, b"", refusal(f"{which}: read fault"))
        cases = [({"read_fails": place, "read_of": file}, fault) for place in range(len(both.files["a"]) + 1)]
        asks_each(report, f"compare where {which} cannot be read", faulty, both, cases)


def failing_writers(report, faulty):
    """A writer that fails, or takes nothing, after each number of bytes: exactly these have been written."""
    for name, write in [*((name, 7) for name in COMMANDS), *OTHER_WRITES]:
        run = named(name)
        text = run.answer[1]
        for failing in ({}, {"takes_nothing": 1}):
            cases = [({"write_fails": place, "write": write, **failing}, (4, text[:place], WRITE_FAULT)) for place in range(len(text))]
            asks_each(report, f"{name} with writes of {write} that fail {failing or ''}".rstrip(), faulty, run, cases)
    for words in (["rows", "62"], ["--version"], ["--help"]):
        run = Run(str(words), words, b"", {}, None)
        text = faulty.run(run)[1]
        cases = [({"write_fails": place, "write": 1}, (4, text[:place], b"")) for place in range(0, len(text), 7)]
        if words[0] == "rows":
            cases = [(asked, (status, out, WRITE_FAULT)) for asked, (status, out, _) in cases]
        asks_each(report, f"{' '.join(words)} with writes that fail", faulty, run, cases)


def cuts(report, faulty):
    """Each front of the configured session: a cut record is refused, and those before it are masked; nothing is shown."""
    whole = ends(CONFIGURED)

    def cut_at(place):
        number = sum(end <= place for end in whole)
        return (0, b"") if place in whole else (2, refusal(f"record {number}: Cut"))

    def asked(place):
        mask = Run("", ["mask", "rules"], SESSION[:place], {"rules": RULES}, None)
        show = Run("", ["show"], SESSION[:place], {}, None)
        return faulty.run(mask), faulty.run(show)

    wrong = []
    for place, (of_mask, of_show) in enumerate(side_by_side(asked, range(len(SESSION) + 1))):
        status, told = cut_at(place)
        shown = of_show[1].count(b"\n") == whole.index(place) if place in whole else of_show[1] == b""
        if of_mask != (status, so_far(place, MASKED_TEXTS), told) or of_show[::2] != (status, told) or not shown:
            wrong.append(f"{place}: {of_mask!r} {of_show!r}")
    report.check("the session cut at each place", len(MASKED) == 403 and not wrong, "; ".join(wrong[:3]))


def system_run(run, folder, **streams):
    """A run over the system's own streams."""
    ran = subprocess.run([PROGRAM, *run.arguments], cwd=folder, timeout=120, **streams)
    return ran.returncode, ran.stdout, first_line(ran.stderr)


def system_devices(report, faulty):
    """A full disk, a pipe that nobody reads, a folder as input, and standard streams that are closed."""
    piped = {"stdout": subprocess.PIPE, "stderr": subprocess.PIPE}
    for name in COMMANDS:
        run = named(name)
        folder = faulty.place(run.files)
        with open("/dev/full", "wb") as full:
            answer = system_run(run, folder, input=run.given, stdout=full, stderr=subprocess.PIPE)
        report.check(f"{name} onto a full disk", answer == (4, None, WRITE_FAULT), repr(answer))
        unread, written = os.pipe()
        os.close(unread)
        answer = system_run(run, folder, input=run.given, stdout=written, stderr=subprocess.PIPE)
        os.close(written)
        report.check(f"{name} into a pipe that nobody reads", answer == (4, None, WRITE_FAULT), repr(answer))
        for closed, wanted in ((">&-", (4, b"", WRITE_FAULT)), ("2>&-", (run.answer[0], run.answer[1], b""))):
            shell = ["sh", "-c", f'exec "$0" "$@" {closed}', PROGRAM, *run.arguments]
            ran = subprocess.run(shell, input=run.given, cwd=folder, **piped)
            answer = (ran.returncode, ran.stdout, ran.stderr)
            report.check(f"{name} with {closed}", answer == wanted, repr(answer))
        if run.arguments[0] in ("compare", "diff"):
            continue
        source = os.open(faulty.folder, os.O_RDONLY)
        answer = system_run(run, folder, stdin=source, **piped)
        os.close(source)
        report.check(f"{name} of a folder", answer == (4, b"", READ_FAULT), repr(answer))
        ran = subprocess.run(["sh", "-c", 'exec "$0" "$@" <&-', PROGRAM, *run.arguments], cwd=folder, **piped)
        answer = (ran.returncode, ran.stdout, first_line(ran.stderr))
        report.check(f"{name} with <&-", answer == (4, b"", READ_FAULT), repr(answer))


def no_random_words(report, faulty):
    for name in COMMANDS:
        answer = faulty.run(named(name), no_words=1)
        report.check(f"{name} without random words", answer == (4, b"", READ_FAULT), repr(answer))


def growing_file(report, faulty):
    """Records that are appended while the program waits for its reader are read too."""
    path = os.path.join(faulty.folder, "growing")
    half = recording([OUTPUT] * 3000)
    with open(path, "wb") as file:
        file.write(half)
    for command, wanted in ((["normalise"], half), (["mask", "rules"], half), (["name", "rules"], half)):
        os.truncate(path, len(half))
        folder = faulty.place({"rules": RULES})
        with open(path, "rb") as source:
            process = subprocess.Popen(
                [PROGRAM, *command], stdin=source, stdout=subprocess.PIPE, stderr=subprocess.PIPE, cwd=folder, bufsize=0,
            )
        front = process.stdout.read(1)
        with open(path, "ab") as file:
            file.write(record(OUTPUT) + record(OUTPUT)[:-1])
        rest, errors = process.communicate(timeout=120)
        answer = (process.returncode, front + rest, errors)
        report.check(
            f"{command[0]} of a file that grows", answer == (2, wanted + record(OUTPUT), refusal("record 3002: Cut")), repr((answer[0], errors)),
        )


def read_of(path, run, folder, out):
    """The status and the errors of a run on a file, and how many bytes of the file were taken."""
    with open(path, "rb") as source:
        ran = subprocess.run([PROGRAM, *run.arguments], stdin=source, stdout=out, stderr=subprocess.PIPE, cwd=folder, timeout=120)
        return ran.returncode, ran.stderr, os.lseek(source.fileno(), 0, os.SEEK_CUR)


def bounded_reading(report, faulty):
    """At most a chunk is read after the record at which a run ends."""
    path = os.path.join(faulty.folder, "long")
    runs = [named(name) for name in (NORMALISING, "check of a configuration", MASKING, NAMING)]
    with open(path, "wb") as file:
        file.write(recording(BEGUN) + b"!" + b"a" * 1_000_000)
    for run in runs:
        status, errors, taken = read_of(path, run, faulty.place(run.files), subprocess.DEVNULL)
        report.check(f"{run.arguments[0]} reads no more than a piece behind a fault", (status, errors) == (2, refusal("record 3: BadMarker")), repr(errors))
        report.check(f"{run.arguments[0]} has read little", taken <= 212 + PIECE, str(taken))
    with open(path, "wb") as file:
        file.write(record(OUTPUT) * 10_000)
    for run in (runs[0], *runs[2:]):
        with open("/dev/full", "wb") as full:
            status, errors, taken = read_of(path, run, faulty.place(run.files), full)
        report.check(f"{run.arguments[0]} reads no more than a chunk after a failed write", (status, errors) == (4, WRITE_FAULT), repr(errors))
        report.check(f"{run.arguments[0]} has read little after it", taken <= 88 + PIECE, str(taken))


def long_inputs(report, faulty):
    """A hundred thousand records, and an error after them."""
    long = record(OUTPUT) * 100_000
    same = b"same\nadapter-seq 1 1\n"
    for rest, told in ((b"", b""), (b"!", refusal("record 100001: BadMarker"))):
        status = 2 if rest else 0
        for arguments in (["normalise"], ["mask", "rules"], ["name", "rules"]):
            run = Run("", arguments, long + rest, {"rules": RULES}, None)
            answer = faulty.run(run)
            report.check(f"{arguments[0]} of 8.8 MB{' and a fault' if rest else ''}", answer == (status, long, told), repr((answer[0], answer[2])))
        answer = faulty.run(Run("", ["check"], long + rest, {}, None))
        counted = b"" if rest else b"accepted records=100000 open=0,0\n"
        report.check("check of it", answer == (status, counted, told), repr(answer))
        answer = faulty.run(Run("", ["compare", "a", "a"], b"", {"a": long + rest}, None))
        told = told.replace(b"dapnorm: ", b"dapnorm: A: ")
        report.check("compare of it with itself", answer == (status, b"" if rest else same, told), repr(answer))


def main():
    report = Report()
    if not report.check("the gate has built the program", os.access(PROGRAM, os.X_OK)):
        return report.close()
    report.check("the sessions have the bytes that were counted by hand", (len(SESSION), len(NORMAL), len(TRACE)) == (473, 1709, 63))
    with tempfile.TemporaryDirectory() as folder:
        faulty = Faulty(folder)
        worked(report, faulty)
        cuts(report, faulty)
        failing_readers(report, faulty)
        failing_writers(report, faulty)
        system_devices(report, faulty)
        no_random_words(report, faulty)
        growing_file(report, faulty)
        bounded_reading(report, faulty)
        long_inputs(report, faulty)
    return report.close()


if __name__ == "__main__":
    sys.exit(main())
