"""Makes traces of a fake adapter through examples/trace_tee.py, and takes them through `record`, `check`, `normalise` and `compare`, as an author would keep a golden file."""
import os
import subprocess
import sys
import tempfile

from tests.kit.fake_adapter import receive, send
from tests.report import PROGRAM, TOP, Report, run

REQUESTS = [
    {"command": "initialize", "arguments": {"adapterID": "fake"}},
    {"command": "configurationDone"},
    {"command": "stackTrace", "arguments": {"threadId": 1}},
    {"command": "disconnect"},
]


def trace_session(path, first_seq, first_frame):
    """One session with the fake adapter after the tee: the client's numbers begin with the one, the frames' with the other."""
    tee = [sys.executable, os.path.join(TOP, "examples", "trace_tee.py"), path]
    adapter = [sys.executable, os.path.join(TOP, "tests", "kit", "fake_adapter.py"), str(first_frame)]
    with subprocess.Popen([*tee, *adapter], stdin=subprocess.PIPE, stdout=subprocess.PIPE) as process:
        for seq, request in enumerate(REQUESTS, first_seq):
            send(process.stdin, {"seq": seq, "type": "request", **request})
            while receive(process.stdout).get("request_seq") != seq:
                pass
            if request["command"] == "initialize":
                receive(process.stdout)
        process.stdin.close()
        return process.wait(timeout=60)


def recorded(report, path):
    with open(path, "rb") as file:
        trace = file.read()
    status, recording, errors = run(["record"], trace)
    report.check("a trace of the tee is recorded", (status, errors) == (0, b""), repr((status, errors)))
    return recording


def main():
    report = Report()
    if not report.check("the gate has built the program", os.access(PROGRAM, os.X_OK)):
        return report.close()
    with tempfile.TemporaryDirectory() as folder:
        recordings = []
        for name, first_seq, first_frame in (("one", 1, 1000), ("other", 501, 7)):
            path = os.path.join(folder, name)
            report.check("a session behind the tee ends well", trace_session(path, first_seq, first_frame) == 0)
            recordings.append(recorded(report, path))
            with open(path, "wb") as file:
                file.write(recordings[-1])
        for recording in recordings:
            answer = run(["check", "--complete"], recording)
            report.check("its recording is accepted", answer == (0, b"accepted records=9 open=0,0\n", b""), repr(answer))
        golden = run(["normalise"], recordings[0])
        report.check("the golden file is the normal form of both", golden[0] == 0 and golden == run(["normalise"], recordings[1]), repr(golden))
        status, lines, errors = run(["compare", os.path.join(folder, "one"), os.path.join(folder, "other")])
        told = lines.decode().splitlines()
        report.check("the two are the same", (status, told[:1], errors) == (0, ["same"], b""), repr((status, lines, errors)))
        report.check("their frames and their threads are paired", told[-2:] == ["frame 1000 7", "thread 1 1"], repr(told))
        report.check("their requests are paired", told[1:5] == [f"client-seq {n} {500 + n}" for n in range(1, 5)], repr(told))
    return report.close()


if __name__ == "__main__":
    sys.exit(main())
