"""Tests of the package python/dapnorm, without the program: messages in pieces, the calls of the client, its traces, the words, the recorders
`dapnorm.tee` and `dapnorm.proxy`, the runner, and the types. tests/kit/golden_sessions.py has the tests with golden files."""
import ast
import json
import os
import re
import shutil
import signal
import subprocess
import sys
import tempfile
import time

from tests.kit import fake_adapter
from tests.kit import recorders
from tests.kit.golden_sessions import python_with
from tests.kit.recorders import ADAPTER, PACKAGE, PROGRAM, SLACK, TIMEOUT, dapnorm, framed, launched, read
from tests.report import TOP, Report
from dapnorm.frames import Frames
from dapnorm.words import Words

MESSAGES = [
    {"seq": 1, "type": "event", "event": "output", "body": {"output": "é\r\n\r\nContent-Length: 3\r\n\r\n"}},
    {"seq": 2, "type": "response", "request_seq": 1, "success": True, "command": "x"},
    {"seq": 3, "type": "request", "command": "runInTerminal", "arguments": {"args": []}},
]
# Bytes that are not a message, and words of the error.
BAD = (
    (b"hello\n", "not a header part"), (b"hello\r\nmore", "not a header part"), (b"Content-Length: 2\n\n{}", "not a header part"),
    (b"\x00", "not a header part"), (b": 3\r\n", "not a header part"), (b"Content-Type: x\r\n\r\n", "no Content-Length"),
    (b"Content-Length: x\r\n\r\n", "no Content-Length"), (b"Content-Length: 2\r\n\r\n{]", "not JSON"), (b"Content-Length: 2\r\n\r\n[]", "not a request"),
    (b"Content-Length: 2\r\n\r\n{}", "not a request"), (b"Content-Length: 1\r\n\r\n\xff", "not JSON"), (b"x" * 4096, "no header part is so long"),
)
# Bytes after which a message may still come.
UNFINISHED = (b"", b"C", b"Content-Length: 20\r", b"Content-Length: 20\r\n", b"Content-Length: 20\r\n\r", b"content-length:20\r\nOther: \t\r\n\r\n{")


def frames(report, _folder):
    """Messages are read from pieces of any size, and bytes that are not a message are reported as soon as they are known."""
    given = framed(MESSAGES)
    for size in (*range(1, 40), len(given)):
        reader, read = Frames(), []
        for at in range(0, len(given), size):
            read += reader.feed(given[at:at + size])
        report.check(f"messages are read in pieces of {size} bytes", read == MESSAGES and not reader.unread, repr(read))
    other = b"X-Name: 1\r\ncontent-LENGTH:  0099\t\r\n\r\n"
    content = json.dumps(MESSAGES[1]).encode().ljust(99)
    report.check("other fields and spaces are read over", list(Frames().feed(other + content)) == [MESSAGES[1]])
    for bad, words in BAD:
        reader, read = Frames(), []
        try:
            for message in reader.feed(given + bad):
                read.append(message)
            told = "no error"
        except dapnorm.BadMessage as error:
            told = str(error)
        report.check(f"{bad[:30]!r} is not a message", words in told and read == MESSAGES, told)
    for rest in UNFINISHED:
        reader = Frames()
        report.check(f"a message may come after {rest!r}", list(reader.feed(rest)) == [] and bytes(reader.unread) == rest)


def caught(call):
    """The error that a call raises, and how long it took."""
    begun = time.monotonic()
    try:
        call()
    except dapnorm.SessionError as error:
        return error, time.monotonic() - begun
    return None, time.monotonic() - begun


def started(*faults, **options):
    return dapnorm.Adapter.start([*ADAPTER, "7", *faults], timeout=TIMEOUT + SLACK, **options)


def calls(report, _folder):
    """Requests, responses that come later, and events, which are returned once and are not lost."""
    with started() as adapter:
        launch = launched(adapter)
        threads = adapter.request("threads")
        report.check("a request returns the body of its response", threads == {"threads": [{"id": 1, "name": "MainThread"}]}, repr(threads))
        report.check("a response that came earlier is not lost", adapter.response(launch) == {})
        stopped = adapter.wait_for("stopped", reason="breakpoint")
        report.check("an event that came earlier is not lost", stopped == {"reason": "breakpoint", "threadId": 1, "allThreadsStopped": True})
        report.check("members of the body are compared", adapter.wait_for("process", name=PROGRAM)["systemProcessId"] > 0)
        error, seconds = caught(lambda: adapter.wait_for("stopped", timeout=0.2))
        good = isinstance(error, dapnorm.TimedOut) and str(error) == 'no event "stopped" within 0.2 seconds' and seconds < 0.2 + SLACK
        report.check("an event is returned once", good, repr(error))
        adapter.request("continue", threadId=1)
        adapter.request("threads")
        error, _ = caught(lambda: adapter.wait_for("output", category="stderr", timeout=0.2))
        good = str(error).startswith('no event "output" with category \'stderr\' within 0.2 seconds; instead there came < event "output" "stdout"')
        report.check("a timeout names the events that came in its place", good, repr(error))
        report.check("and they are not lost", adapter.wait_for("output")["output"] == "total 12\n")
        adapter.request("disconnect")
    error, _ = caught(lambda: adapter.request("threads"))
    report.check("a closed session is reported", str(error) == "the session is closed", repr(error))
    path = adapter.trace
    report.check("it has written a trace", os.path.getsize(path) > 1000)


def failures(report, _folder):
    """Errors have their type, the adapter's message, and the trace, which is kept."""
    cases = (
        (("fails=threads",), dapnorm.RequestFailed, 'request "threads" failed: threads does not work today'),
        (("hangs=threads",), dapnorm.TimedOut, 'no response to "threads" within 2 seconds'),
        (("ends=threads",), dapnorm.AdapterEnded, 'no response to "threads": the adapter ended with status 0'),
        (("dies=threads",), dapnorm.AdapterEnded, 'no response to "threads": the adapter ended with status -11 (Segmentation fault)'),
        (("orphans=threads",), dapnorm.AdapterEnded, 'no response to "threads": the adapter ended with status 3'),
        (("prints=hello",), dapnorm.BadMessage, "the adapter sent bytes that are not a message (they are not a header part): b'hello"),
        (("status=139",), dapnorm.AdapterFailed, "after the session the adapter ended with status 139 (Segmentation fault)"),
        (("crashes",), dapnorm.AdapterFailed, "after the session the adapter ended with status -11 (Segmentation fault)"),
        (("stays",), dapnorm.TimedOut, "no end of the adapter within 2 seconds after the session"),
    )

    def session(faults, keep):
        with started("complains", *faults) as adapter:
            keep.append(adapter)
            launched(adapter)
            adapter.timeout = TIMEOUT if {"hangs=threads", "stays"} & set(faults) else TIMEOUT + SLACK
            adapter.request("threads")
            adapter.request("disconnect")

    for faults, kind, text in cases:
        adapters = []
        error, seconds = caught(lambda: session(faults, adapters))
        good = isinstance(error, kind) and error.cause.startswith(text) and seconds < TIMEOUT + 1 + SLACK
        report.check(f"{faults[0]} raises {kind.__name__}", good, repr(error))
        report.check(f"{faults[0]}: the trace is kept", error is not None and os.path.getsize(error.trace) > 100)
        told = "standard error of the adapter ends with:\n  the fake adapter complains\nthe last messages:\n" in str(error) and error.trace in str(error)
        report.check(f"{faults[0]}: the error says more", told, str(error))
        report.check(f"{faults[0]}: what the adapter wrote to standard error is kept", adapters[0].errors() == "the fake adapter complains\n")
        if isinstance(error, dapnorm.RequestFailed):
            members = (error.command, error.message, error.response["success"])
            report.check("the error of a request has the response", members == ("threads", "threads does not work today", False), repr(members))
        if isinstance(error, dapnorm.AdapterFailed):
            report.check(f"{faults[0]}: the error has the status", error.status == (139 if "status=139" in faults else -11))
    error, _ = caught(lambda: dapnorm.Adapter.start("no_such_adapter"))
    report.check("a program that is not there is reported", str(error) == "no_such_adapter is not on PATH" and isinstance(error, dapnorm.NotStarted), repr(error))
    error, _ = caught(lambda: dapnorm.Adapter.start([PROGRAM]))
    report.check("a program that does not start is reported", str(error).startswith("the adapter does not start: "), repr(error))


# An adapter whose responses fail in each of the ways of the protocol, and the words of the error.
FAILING = """
import sys
sys.path.insert(0, {tests!r})
from fake_adapter import receive, send
message = receive(sys.stdin.buffer)
send(sys.stdout.buffer, dict(seq=1, type="response", request_seq=1, command="x", success=False, **{more!r}))
receive(sys.stdin.buffer)
"""
WORDED = (
    ({}, 'request "x" failed: the adapter sent no reason'),
    ({"message": "cancelled"}, 'request "x" failed: cancelled'),
    ({"message": "m", "body": {"error": {"id": 1, "format": "no {what} in {where}", "variables": {"what": "file", "where": "/a"}}}}, 'request "x" failed: m: no file in /a'),
    ({"message": "same", "body": {"error": {"id": 1, "format": "same"}}}, 'request "x" failed: same'),
    ({"body": None}, 'request "x" failed: the adapter sent no reason'),
)


def messages_of_failures(report, _folder):
    for more, text in WORDED:
        code = FAILING.format(tests=os.path.join(TOP, "tests", "kit"), more=more)
        with dapnorm.Adapter.start([sys.executable, "-c", code], timeout=TIMEOUT + SLACK) as adapter:
            error, _ = caught(lambda: adapter.request("x"))
            report.check(f"a failure with {more} is reported", str(error) == text, repr(error))


def handlers(report, _folder):
    """The adapter's own requests are answered, also while a handler sends requests itself."""
    seen = []

    def handler(arguments):
        seen.append((arguments["cwd"], adapter.request("threads")["threads"][0]["id"]))
        return {"processId": 5}

    with started("sends=runInTerminal") as adapter:
        adapter.handlers["runInTerminal"] = handler
        adapter.request("initialize", adapterID="debugpy")
        adapter.send("launch", program=PROGRAM)
        adapter.wait_for("initialized")
        adapter.request("disconnect")
    report.check("a handler may send requests", seen == [("/", 1)], repr(seen))

    code = (
        f"import sys; sys.path.insert(0, {os.path.join(TOP, 'tests', 'kit')!r}); from fake_adapter import receive, send\n"
        "request = receive(sys.stdin.buffer)\n"
        "for seq in range(1, 3001): send(sys.stdout.buffer, dict(seq=seq, type='request', command='other', arguments={}))\n"
        "while (message := receive(sys.stdin.buffer))['request_seq'] < 3000: assert not message['success']\n"
        "send(sys.stdout.buffer, dict(seq=3001, type='response', request_seq=1, command='x', success=True))\n"
        "receive(sys.stdin.buffer)\n"
    )
    with dapnorm.Adapter.start([sys.executable, "-c", code], timeout=TIMEOUT + SLACK) as adapter:
        report.check("many requests of the adapter are answered", adapter.request("x") == {} and len(adapter.lines) == 6002, repr(len(adapter.lines)))

    def wrong(_arguments):
        raise ValueError("the handler fails")

    told = None
    try:
        with started("sends=startDebugging") as adapter:
            adapter.handlers["startDebugging"] = wrong
            adapter.request("initialize", adapterID="debugpy")
            adapter.request("launch", program=PROGRAM)
    except ValueError as error:
        told = str(error)
    report.check("an error of a handler is the test's", told == "the handler fails", repr(told))
    report.check("and the adapter has got a response", '> response "startDebugging" "failed" "the handler fails"' in adapter.lines, repr(adapter.lines))
    with started() as adapter:
        body = adapter.run_in_terminal({"args": ["sh", "-c", "echo $WORD > out; sleep 60"], "cwd": tempfile.gettempdir(), "env": {"WORD": "there", "NONE": None}})
        path = os.path.join(tempfile.gettempdir(), "out")
        end = time.monotonic() + SLACK
        while not (os.path.exists(path) and os.path.getsize(path)) and time.monotonic() < end:
            time.sleep(0.05)
        with open(path, encoding="utf-8") as file:
            report.check("run_in_terminal starts the process", file.read() == "there\n" and os.path.exists(f"/proc/{body['processId']}"))
        os.remove(path)
        adapter.request("disconnect")
    report.check("which is killed after the session", not os.path.exists(f"/proc/{body['processId']}"))


def tcp(report, folder):
    """Adapters over TCP: one that is started, one that runs already, one that is a server, and none."""
    command = " ".join([*ADAPTER, "7", "cuts", "listens={port}"])
    with dapnorm.Adapter.connect("127.0.0.1", 0, command, timeout=TIMEOUT + SLACK) as adapter:
        launched(adapter)
        adapter.request("disconnect")
    report.check("a session over TCP on a free port ends well", adapter.lines[-1] == '< response "disconnect"', repr(adapter.lines))
    for fault, text in (("hangs=threads", "within 2 seconds"), ("ends=threads", "the adapter ended with status 0"), ("dies=threads", "status -11")):
        adapter = dapnorm.Adapter.connect("127.0.0.1", 0, f"{command} {fault}", timeout=TIMEOUT + SLACK)
        adapter.timeout = TIMEOUT
        with adapter:
            launched(adapter)
            error, seconds = caught(lambda: adapter.request("threads"))
            report.check(f"a session over TCP is red if the adapter {fault}", text in str(error) and seconds < TIMEOUT + SLACK, repr(error))
            adapter.kill()
    code = "import socket, sys, time; s = socket.create_server(('127.0.0.1', int(sys.argv[1]))); c = s.accept()[0]; c.close(); time.sleep(60)"
    begun = time.monotonic()
    with dapnorm.Adapter.connect("127.0.0.1", 0, [sys.executable, "-c", code, "{port}"], server=True, timeout=TIMEOUT + SLACK) as adapter:
        error, _ = caught(lambda: adapter.request("initialize"))
        report.check("a connection that ends is reported", "the adapter closed its stream, and runs on" in str(error), repr(error))
    report.check("a server is ended after the session", adapter.process.status() == -signal.SIGTERM and time.monotonic() - begun < SLACK + 2)
    error, seconds = caught(lambda: dapnorm.Adapter.connect("127.0.0.1", dapnorm.free_port(), timeout=0.5))
    good = str(error).startswith("no adapter listens on 127.0.0.1:") and "within 0.5 seconds" in str(error) and seconds < 0.5 + SLACK
    report.check("an adapter that is not there is reported", good, repr(error))
    text = "import sys; sys.exit('no such file')"
    error, seconds = caught(lambda: dapnorm.Adapter.connect("127.0.0.1", 0, [sys.executable, "-c", text], timeout=30))
    good = "it ended with status 1" in str(error) and "no such file" in str(error) and seconds < SLACK
    report.check("an adapter that ends before it listens is reported at once", good, repr(error))
    with open(os.path.join(folder, "named.trace"), "wb"):
        pass
    with started(trace=os.path.join(folder, "named.trace")) as adapter:
        adapter.request("initialize")
        adapter.request("disconnect")
    try:
        dapnorm.Adapter.start([sys.executable, "-c", f"import os, time; open({os.path.join(folder, 'pid')!r}, 'w').write(str(os.getpid())); time.sleep(60)"], trace="/no/such/folder/trace")
        good = False
    except FileNotFoundError:
        time.sleep(0.2)
        good = not os.path.exists(os.path.join(folder, "pid")) or not is_running(os.path.join(folder, "pid"))
    report.check("a trace that cannot be written leaves no adapter", good)
    report.check("a trace may have a name", os.path.getsize(os.path.join(folder, "named.trace")) > 100)


# An adapter that listens before it is ready, and that a client who connects before that ends. It prints to the stream of this name.
EARLY = f"""
import socket, sys
sys.path.insert(0, {os.path.join(TOP, "tests", "kit")!r})
from fake_adapter import serve_connection
with socket.create_server(("127.0.0.1", int(sys.argv[1]))) as server:
    server.settimeout(0.5)
    try:
        server.accept()
        sys.exit("a client connected too early")
    except socket.timeout:
        server.settimeout(None)
    print("wait for the debugger", file=getattr(sys, sys.argv[2]), flush=True)
    serve_connection(server, 7)
"""


def readiness(report, _folder):
    """`ready=` waits for a text of the adapter's output before it connects."""
    def tried(ready, stream="stderr", command=(sys.executable, "-c", EARLY, "{port}"), timeout=SLACK):
        with dapnorm.Adapter.connect("127.0.0.1", 0, [*command, stream], ready=ready, timeout=timeout) as adapter:
            adapter.request("initialize", adapterID="x")
            adapter.request("disconnect")

    for stream in ("stdout", "stderr"):
        error, _ = caught(lambda: tried("wait for the debugger", stream))
        report.check(f"an adapter that listens too early is connected after its text on {stream}", error is None, repr(error))
    error, _ = caught(lambda: tried(None))
    report.check("without ready= such an adapter is red", "a client connected too early" in str(error), repr(error))
    error, seconds = caught(lambda: tried("another text", command=("sh", "-c", "echo some text; exec sleep 60"), timeout=0.5))
    good = isinstance(error, dapnorm.NotStarted) and str(error).startswith('the output of the adapter does not have "another text" within 0.5 seconds\n')
    report.check("a text that does not come is red in time", good and "  some text" in str(error) and seconds < SLACK, repr(error))
    error, seconds = caught(lambda: tried("another text", command=("sh", "-c", "echo some text; exit 4"), timeout=30))
    good = 'the adapter ended with status 4, and its output does not have "another text"' in str(error) and seconds < SLACK
    report.check("an adapter that ends before its text is red at once", good, repr(error))
    try:
        dapnorm.Adapter.connect("127.0.0.1", dapnorm.free_port(), ready="x")
        told = "no error"
    except ValueError as error:
        told = str(error)
    report.check("ready= needs a command", "no command is given" in told, told)


def statuses(report, _folder):
    """`status=` names the status that the adapter is to have, or several."""
    rows = (
        (3, "status=3", None), ((0, 3), "status=3", None), ((0, 3), "complains", None), (-signal.SIGSEGV, "crashes", None),
        (3, "complains", "ended with status 0"), ((0, 3), "status=4", "ended with status 4"), (0, "status=3", "ended with status 3"),
    )

    def session(start, status, fault):
        with start(status, fault) as adapter:
            adapter.request("initialize", adapterID="x")
            adapter.request("disconnect")

    def over_tcp(status, fault):
        return dapnorm.Adapter.connect("127.0.0.1", 0, [*ADAPTER, "7", fault, "listens={port}"], status=status, timeout=SLACK)

    for name, start in (("start", lambda status, fault: started(fault, status=status)), ("connect", over_tcp)):
        for status, fault, words in rows:
            error, _ = caught(lambda: session(start, status, fault))
            good = error is None if words is None else isinstance(error, dapnorm.AdapterFailed) and words in str(error)
            report.check(f"{name} with status={status} and an adapter that has {fault}", good, repr(error))


def any_event(report, _folder):
    """`wait_for_any` returns the first of several events, and the others are not lost."""
    with started() as adapter:
        launched(adapter)
        event, body = adapter.wait_for_any("terminated", "stopped")
        report.check("one of several events is returned", (event, body.get("reason")) == ("stopped", "breakpoint"), repr((event, body)))
        adapter.request("continue", threadId=1)
        found = [adapter.wait_for_any("terminated", "exited")[0] for _ in range(2)]
        report.check("the first of them comes first", found == ["exited", "terminated"], repr(found))
        error, seconds = caught(lambda: adapter.wait_for_any("stopped", "exited", timeout=0.2))
        good = isinstance(error, dapnorm.TimedOut) and str(error) == 'no event "stopped" or "exited" within 0.2 seconds' and seconds < SLACK
        report.check("a timeout names all of them", good, repr(error))
        adapter.request("disconnect")


def timeouts(report, folder):
    """`timeout=` of a call is for all waits of the call, and that of a session is for all others."""
    with dapnorm.Adapter.start([sys.executable, "-c", "import time; time.sleep(60)"], timeout=60) as adapter:
        error, seconds = caught(lambda: adapter.request("evaluate", expression="x" * 1_000_000, timeout=0.3))
        good = 'request "evaluate" is not read by the adapter within 0.3 seconds' in str(error) and seconds < SLACK
        report.check("a request that is not read has the timeout of the call", good, repr(error))
        error, seconds = caught(lambda: adapter.close(timeout=0.3))
        good = str(error).startswith("no end of the adapter within 0.3 seconds after the session") and seconds < SLACK
        report.check("the end has the timeout of the call", good, repr(error))
    os.environ["DAPNORM"] = sys.executable
    with started() as adapter:
        dapnorm.DapSession(folder)(adapter, "a.golden", timeout=7.5)
        report.check("a session sets the timeout of an adapter that is started", adapter.timeout == 7.5, repr(adapter.timeout))
        adapter.request("disconnect")
    del os.environ["DAPNORM"]


def is_running(path):
    with open(path, encoding="utf-8") as file:
        return os.path.exists(f"/proc/{file.read()}")


def deaf(report, _folder):
    """An adapter that reads nothing: a request that does not fit into the pipe is red in time."""
    with dapnorm.Adapter.start([sys.executable, "-c", "import time; time.sleep(60)"], timeout=TIMEOUT) as adapter:
        error, seconds = caught(lambda: adapter.request("evaluate", expression="x" * 1_000_000))
        good = isinstance(error, dapnorm.TimedOut) and 'request "evaluate" is not read by the adapter' in str(error) and seconds < TIMEOUT + SLACK
        report.check("an adapter that reads nothing is red", good, repr(error))
        adapter.kill()


def traces(report, folder):
    """DAPNORM_TRACES names the folder of the traces; a trace that is not kept is removed when Python ends."""
    code = (
        f"import sys; sys.path.insert(0, {PACKAGE!r}); import dapnorm\n"
        f"import os\nwith dapnorm.Adapter.start({[*ADAPTER, '7']!r}) as adapter:\n"
        "    os.chdir('/'); adapter.request('initialize'); adapter.request(sys.argv[1])\n"
    )
    for name in ("kept/traces", os.path.join(folder, "other", "traces")):
        for command, count in (("disconnect", 0), ("fail", 1)):
            words = [sys.executable, "-c", code.replace("'7'", "'7', 'fails=fail'"), command]
            ran = subprocess.run(words, env={**os.environ, "DAPNORM_TRACES": name}, cwd=folder, capture_output=True, text=True, timeout=60)
            found = os.listdir(os.path.join(folder, name))
            report.check(f"{count} traces are kept in {name} after {command}", len(found) == count and ran.returncode == count, repr((found, ran.stderr)))


# A content, the words, and the content with them.
WORDS = (
    ('{"type":"event","body":{"path":"/home/me/x/a.py"}}', {"/home/me": "HOME", "/home/me/x": "X"}, '{"type":"event","body":{"path":"X/a.py"}}'),
    ('{ "a" : [ "b" , 1.50, -0, "\\u0062" ] }', {"b": "c"}, '{ "a" : [ "c" , 1.50, -0, "c" ] }'),
    ('{"b":"bb","type":"b","command":"b","event":"b","body":{"type":"b"}}', {"b": "c"}, '{"b":"cc","type":"b","command":"b","event":"b","body":{"type":"c"}}'),
    ('{"a":"ab"}', {"a": "b", "b": "a"}, '{"a":"ba"}'),
    ('{"a":"\\"/x\\""}', {'"/x"': "é"}, '{"a":"\\u00e9"}'),
    ('{"a":1e400,"b":[],"c":null}', {"1": "2"}, '{"a":1e400,"b":[],"c":null}'),
)


def words(report, _folder):
    for content, given, wanted in WORDS:
        found = Words(given).in_content(content)
        report.check(f"the words {given} in {content}", found == wanted, found)
    record = b"".join(b"%sContent-Length: %d\r\n\r\n%s\n" % (b"<", len(it), it) for it in (b'{"a":"/x/y"}', b'{"a":1}'))
    wanted = b"".join(b"%sContent-Length: %d\r\n\r\n%s\n" % (b"<", len(it), it) for it in (b'{"a":"W/y"}', b'{"a":1}'))
    for rest in (b"", b"<", b"<Content-Length: 9\r\n\r\n{", b"no record", b"<Content-Length: 2\r\n\r\n{}x"):
        report.check(f"the words in a recording, and then {rest!r}", Words({"/x": "W"}).in_recording(record + rest) == wanted + rest)
    report.check("without words a recording is unchanged", Words({}).in_recording(b"\xff") == b"\xff")


RUNNER = """
def test_one(dap_session):
    assert callable(dap_session)

def test_two():
    assert 1 == 2, "two differs"

def test_three(tmp_path):
    pass

def test_four(dap_session):
    import dapnorm
    dapnorm.Adapter.start("no_such_adapter")
"""


CLASSES = """
import unittest

class TestPlain:
    def test_one(self, dap_session):
        assert callable(dap_session)
    def test_two(self, tmp_path):
        pass
    class TestInner:
        def test_inner(self):
            pass

class TestSetUp:
    def setup_method(self):
        self.value = 1
    def test_value(self):
        assert self.value == 1

class Sessions(unittest.TestCase):
    @classmethod
    def setUpClass(cls):
        cls.first = 1
    def setUp(self):
        self.second = 2
    def test_sum(self):
        self.assertEqual(self.first + self.second, 3)
    def test_difference(self):
        self.assertEqual(self.first - self.second, 3)

async def test_async():
    pass
"""
CLASSES_SAY = """\
TestPlain::test_two: the fixtures tmp_path need pytest
TestPlain::TestInner: a class in a class, TestPlain.TestInner, needs pytest, so it was not run
TestSetUp::test_value: TestSetUp.setup_method needs pytest, so it was not run
Sessions::test_difference: AssertionError: -1 != 3
  some_test.py:28: self.assertEqual(self.first - self.second, 3)
test_async: an async test needs pytest, so it was not run
"""


def runner(report, folder):
    """`python3 -m dapnorm` runs the tests of files without pytest."""
    path = os.path.join(folder, "some_test.py")
    environment = {**os.environ, "PYTHONPATH": PACKAGE, "PYTHONDONTWRITEBYTECODE": "1"}

    def tried(text, *more):
        with open(path, "w", encoding="utf-8") as file:
            file.write(text)
        ran = subprocess.run([sys.executable, "-m", "dapnorm", *more, path], capture_output=True, text=True, env=environment, cwd=folder, timeout=60)
        return ran.returncode, ran.stdout, ran.stderr

    status, output, errors = tried(RUNNER)
    good = status == 1 and output == "some_test.py::test_one: passed\n1 passed, 3 failed\n"
    report.check("the runner runs each test", good, output + errors)
    told = "some_test.py::test_two: AssertionError: two differs\n  some_test.py:6: assert 1 == 2, \"two differs\"\n" in errors
    report.check("and says what fails", told and "some_test.py::test_three: the fixtures tmp_path need pytest" in errors, errors)
    told = 'some_test.py::test_four: no_such_adapter is not on PATH\n  some_test.py:13: dapnorm.Adapter.start("no_such_adapter")\n'
    report.check("and the line of the test", told in errors, errors)
    status, output, errors = tried(CLASSES)
    good = status == 1 and output == "some_test.py::TestPlain::test_one: passed\nsome_test.py::Sessions::test_sum: passed\n2 passed, 5 failed\n"
    report.check("the runner runs the tests of classes", good, output + errors)
    told = "".join(it if it.startswith(" ") else f"some_test.py::{it}" for it in CLASSES_SAY.splitlines(True))
    report.check("and names each that it cannot run", errors == told, errors)
    for option in ("-h", "--help"):
        status, output, errors = tried("", option)
        report.check(f"{option} prints the help", (status, errors) == (0, "") and "python3 -m dapnorm [--update] FILE.." in output, output + errors)
    status, output, errors = tried("")
    report.check("a file without a test is red", status == 1 and "so nothing was compared" in errors, errors)
    status, output, errors = tried("import nothing_of_this_name\n")
    report.check("a file that cannot be read is red", status == 1 and "cannot be read as a test" in errors and "nothing_of_this_name" in errors, errors)
    status, output, errors = tried("", "--updat")
    report.check("a wrong option is rejected", status == 2 and "python3 -m dapnorm" in errors, errors)


def real_sessions(report, folder):
    """`make real` runs tests/real/run.py, which names what is not installed as skipped, and fails if it compared nothing."""
    said = subprocess.run(["make", "-n", "-C", TOP, "real", f"PROGRAM={sys.executable}"], capture_output=True, text=True, timeout=60).stdout
    report.check("make real runs the sessions", f'python3 tests/real/run.py --install "{sys.executable}"' in said, said)
    copy = os.path.join(folder, "copy")
    for name in ("tests", "python", "examples", "scripts"):
        shutil.copytree(os.path.join(TOP, name), os.path.join(copy, name), ignore=shutil.ignore_patterns("__pycache__"))
    words = [sys.executable, os.path.join(copy, "tests", "real", "run.py"), "/bin/true"]
    ran = subprocess.run([*words, "lldb", "delve", "rdbg"], env={**os.environ, "PATH": folder}, capture_output=True, text=True, timeout=60)
    skipped = re.findall(r"^(\w+): skipped: .* not installed$", ran.stdout, re.MULTILINE)
    good = ran.returncode == 1 and skipped == ["lldb", "delve", "rdbg"] and ran.stdout.endswith("FAILED some session was compared\n0 passed, 1 failed\n")
    report.check("it names what is not installed, and is red if it compared nothing", good, ran.stdout + ran.stderr)
    installs(report, folder, words)
    ran = subprocess.run([*words, "other"], capture_output=True, text=True, timeout=60)
    report.check("it rejects an unknown session", ran.returncode == 1 and "no session is named other" in ran.stderr, ran.stderr)


def installs(report, folder, words):
    """`--install`, with a fake apt-get: what is there is not installed, and nothing is removed."""
    tools, calls = os.path.join(folder, "tools"), os.path.join(folder, "calls")
    os.makedirs(tools)
    # This apt-get cannot install lldb, and its ruby has rdbg.
    lines = f'#!/bin/sh\nfor it; do :; done\necho "$*" >> {calls}\n[ "$it" != lldb ] || {{ echo "E: it is held" >&2; exit 100; }}\n'
    lines += f'[ "$it" != ruby ] || {{ printf "#!/bin/sh\\nexit 1\\n" > {tools}/rdbg; /bin/chmod +x {tools}/rdbg; }}\n'
    for name, text in (("apt-get", lines), ("sudo", '#!/bin/sh\nexec "$@"\n'), *((it, "#!/bin/sh\nexit 1\n") for it in ("dlv", "emacs"))):
        with open(os.path.join(tools, name), "w", encoding="utf-8") as file:
            file.write(text)
        os.chmod(file.name, 0o755)
    ran = subprocess.run([*words[:2], "--install", *words[2:], "lldb"], env={**os.environ, "PATH": tools}, capture_output=True, text=True, timeout=60)
    made = [it.split() for it in read(calls).splitlines()] if os.path.exists(calls) else []
    there = [it[-1] for it in made if it[0] == "install"]
    report.check("make real removes no package", there and all("--no-remove" in it for it in made if it[0] == "install"), repr(made))
    wanted = ["lldb", "golang-go", "gcc", "libc6-dev", "ruby", "elpa-dap-mode"]
    report.check("it installs what is missing only", [it for it in there if it != "python3-debugpy"] == wanted, repr(there))
    named = re.findall(r"^installs (\S+) \(\d+ of \d+\)$", ran.stdout, re.MULTILINE)
    report.check("it names each package before it installs it", named == there, ran.stdout + ran.stderr)
    report.check("it names a package that cannot be installed", "lldb is not installed: E: it is held\n" in ran.stdout, ran.stdout)


def types(report, _folder):
    """`mypy --strict`, if some Python here has mypy and pytest."""
    python = python_with("mypy")
    if python is None or subprocess.run([python, "-c", "import pytest"], capture_output=True).returncode != 0:
        print("mypy with pytest is not installed: the types of python/dapnorm are not checked", flush=True)
        return
    with tempfile.TemporaryDirectory() as cache:
        words = [python, "-m", "mypy", "--strict", "--cache-dir", cache, "dapnorm"]
        ran = subprocess.run(words, cwd=PACKAGE, capture_output=True, text=True, timeout=300)
    report.check("mypy --strict finds nothing wrong", ran.returncode == 0, ran.stdout + ran.stderr)


def is_python(text, version):
    try:
        return ast.parse(text, feature_version=version) is not None
    except SyntaxError:
        return False


def metadata(report, _folder):
    """The version and the entry point are the same in each place that has them."""
    version = re.search(r"^## (\S+),", read("CHANGELOG.md"), re.MULTILINE)[1]
    report.check("the package has the version of the program", dapnorm.__version__ == version, dapnorm.__version__)
    told = re.search(r"^Version: (.*)$", read("python", "dapnorm.dist-info", "METADATA"), re.MULTILINE)[1]
    report.check("its metadata too", told == version, told)
    points, project = read("python", "dapnorm.dist-info", "entry_points.txt"), read("python", "pyproject.toml")
    report.check("the plugin has an entry point", points == "[pytest11]\ndapnorm = dapnorm.pytest_plugin\n", points)
    report.check("also in pyproject.toml", '[project.entry-points.pytest11]\ndapnorm = "dapnorm.pytest_plugin"\n' in project)
    imported = set()
    for name in sorted(os.listdir(os.path.join(PACKAGE, "dapnorm"))):
        if name.endswith(".py"):
            text = read("python", "dapnorm", name)
            imported |= set(re.findall(r"^(?:from|import) (\w+)", text, re.MULTILINE))
            report.check(f"{name} has fewer than 400 lines", text.count("\n") < 400)
            report.check(f"{name} is Python 3.9", is_python(text, (3, 9)))
    foreign = imported - set(sys.stdlib_module_names) - {"pytest"} if hasattr(sys, "stdlib_module_names") else set()
    report.check("it needs the standard library alone", not foreign, repr(foreign))


def not_synced(report, folder):
    """The report of a golden file that was replaced, and could not be synced, does not say that the file is unchanged."""
    program, session = os.path.join(folder, "program"), os.path.join(folder, "session.rec")
    with open(session, "wb") as file:
        file.write(b"<Content-Length: 2\r\n\r\n{}\n")
    for line, state in (("g: replaced, but not synced", "has the new text"), ("g: write fault", "is unchanged")):
        with open(program, "w", encoding="utf-8") as file:
            file.write(f'#!/bin/sh\necho "dapnorm: golden: {line}" >&2\nexit 4\n')
        os.chmod(program, 0o755)
        os.environ["DAPNORM"] = program
        try:
            dapnorm.golden(session, os.path.join(folder, "g"), update=True)
            told = ""
        except dapnorm.GoldenFailed as error:
            told = str(error)
        finally:
            del os.environ["DAPNORM"]
        report.check(f"{line}: the golden file {state}", f"(g {state})" in told and line in told, told)


PARTS = (
    frames, calls, failures, messages_of_failures, handlers, tcp, readiness, statuses, any_event, timeouts, deaf, traces, words, not_synced,
    recorders.tee_signals, recorders.proxy_starts, recorders.proxy_alone, recorders.proxy_sessions, recorders.shims, runner, real_sessions, types, metadata,
)


def main():
    report = Report()
    for name in ("ADAPTER_TIMEOUT", "DAPNORM_TRACES", "UPDATE_GOLDEN"):
        os.environ.pop(name, None)
    with tempfile.TemporaryDirectory() as top:
        tempfile.tempdir = top
        for part in PARTS:
            folder = os.path.join(top, part.__name__)
            os.makedirs(folder)
            part(report, folder)
    return report.close()


if __name__ == "__main__":
    sys.exit(main())
