"""Takes the raw traces of real adapters through `record`."""
import os
import subprocess
import sys
from itertools import islice

from tests.report import PROGRAM, TOP, Report, run

sys.path.insert(0, os.path.join(TOP, "scripts"))
from record_reference import pieces, recorded

CAPTURES = os.path.join(TOP, "examples", "captures")

# The traces that are refused. The records of the frames that ended before are written.
REFUSED = {
    "debugpy-g-cut.1.trace": "piece 22: client Cut",
    "rdbg-x-notdap.1.trace": "piece 3: adapter HeaderLine",
}


def read(name):
    with open(os.path.join(CAPTURES, name), "rb") as file:
        return file.read()


def record_captures(report):
    names = sorted(name for name in os.listdir(CAPTURES) if name.endswith(".trace"))
    report.check("each trace is there", len(names) == 16, str(len(names)))
    for name in names:
        trace = read(name)
        status, recording, errors = run(["record"], trace)
        if name in REFUSED:
            wanted = (2, f"dapnorm: {REFUSED[name]}\n".encode())
            report.check(f"{name} is refused", (status, errors) == wanted, repr((status, errors)))
        else:
            report.check(f"{name} is recorded", (status, errors) == (0, b""), repr((status, errors)))
            report.check(f"{name}: the script records the same", recording == recorded(trace))
        stored = name.removesuffix(".trace") + ".rec"
        if os.path.exists(os.path.join(CAPTURES, stored)):
            report.check(f"{name}: its recording is the stored one", recording == read(stored), str(len(recording)))
        else:
            # The third piece is no protocol: what the client sent in the first two stays.
            before = b"".join(b"%s%d\n%s" % (marker, len(piece), piece) for marker, piece in islice(pieces(trace), 2))
            report.check(f"{name}: the records before the fault are written", recording == recorded(before) != b"", str(len(recording)))


def streams(report):
    trace = read("dlv-l-stopentry.3.trace")
    wanted = read("dlv-l-stopentry.3.rec")
    with subprocess.Popen([PROGRAM, "record"], stdin=subprocess.PIPE, stdout=subprocess.PIPE, stderr=subprocess.PIPE) as process:
        for at in range(0, len(trace), 97):
            process.stdin.write(trace[at:at + 97])
            process.stdin.flush()
        output, errors = process.communicate()
        report.check("record takes a trace in pieces", (process.returncode, output, errors) == (0, wanted, b""), repr((process.returncode, errors)))
    report.check("an empty trace is an empty recording", run(["record"]) == (0, b"", b""))
    report.check("no trace is told", run(["record"], wanted) == (2, b"", b"dapnorm: piece 1: BadCount\n"))
    with open("/dev/full", "wb") as full:
        ran = subprocess.run([PROGRAM, "record"], input=trace, stdout=full, stderr=subprocess.PIPE)
    report.check("a full device is a write fault of record", (ran.returncode, ran.stderr) == (4, b"dapnorm: write fault\n"), repr(ran))


def main():
    report = Report()
    if not report.check("the gate has built the program", os.access(PROGRAM, os.X_OK)):
        return report.close()
    record_captures(report)
    streams(report)
    return report.close()


if __name__ == "__main__":
    sys.exit(main())
