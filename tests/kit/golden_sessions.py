"""Runs examples/golden_test.py, as an author copies it, against the adapter of tests/kit/fake_adapter.py: sessions that are the same, each
regression, over standard streams and TCP, and the tutorial. Each runs without pytest, and under pytest if some Python here has it.
`tests/kit/examples.py` calls these tests."""
import concurrent.futures
import os
import re
import shutil
import socket
import subprocess
import sys
import time

from tests.report import PROGRAM, TOP, run

EXAMPLES = os.path.join(TOP, "examples")
FAKE = f"{sys.executable} {os.path.join(TOP, 'tests', 'kit', 'fake_adapter.py')}"
TIMEOUT = 2
# Seconds within which a test has to be red, from its cause: the last piece of the trace, which is what came before the adapter failed.
RED = 5
# What starting and ending the processes of a test may take beside its timeout, on a busy machine.
SLACK = 10
FILES = ("golden_test.py", "program.py", "session.rules")
# Each fault of the fake adapter that makes a test fail, and words in the first ten lines of the output.
REGRESSIONS = (
    ("crashes", "after the session the adapter ended with status -11 (Segmentation fault)"),
    ("status=139", "after the session the adapter ended with status 139 (Segmentation fault)"),
    ("status=3", "after the session the adapter ended with status 3"),
    ("stays", "no end of the adapter within 2 seconds after the session"),
    ("hangs=initialize", 'no response to "initialize" within 2 seconds'),
    ("hangs=stackTrace", 'no response to "stackTrace" within 2 seconds'),
    ("ends=initialize", 'no response to "initialize": the adapter ended with status 0'),
    ("ends=variables", 'no response to "variables": the adapter ended with status 0'),
    ("dies=initialize", 'no response to "initialize": the adapter ended with status -11 (Segmentation fault)'),
    ("dies=disconnect", 'no response to "disconnect": the adapter ended with status -11 (Segmentation fault)'),
    ("orphans=scopes", 'no response to "scopes": the adapter ended with status 3'),
    ("breaks=scopes", 'no response to "scopes": the adapter ended with status 0, within a message: b\'Content-Length: '),
    ("stalls=scopes", 'no response to "scopes" within 2 seconds; the adapter sent a part of a message: b\'Content-Length: '),
    ("complains dies=scopes", "the fake adapter complains"),
    ("pours=scopes", 'no response to "scopes" within 2 seconds'),
    ("skips=initialized", 'no event "initialized" within 2 seconds'),
    ("skips=stopped", 'no event "stopped" with reason \'breakpoint\' within 2 seconds'),
    ("skips=exited", '20/- < event "exited"'),
    ("skips=process", '10/- < event "process"'),
    ("skips=terminated", 'no event "terminated" within 2 seconds'),
    ("moves", "B body.stackFrames[0].line 9"),
    ("changes", 'B body.variables[0].value "5!"'),
    ("fails=launch", 'request "launch" failed: launch does not work today'),
    ("fails=scopes", 'request "scopes" failed: scopes does not work today'),
    ("sends=runInTerminal", 'the test has no handler for the adapter\'s request "runInTerminal"'),
    ("sends=startDebugging", 'the test has no handler for the adapter\'s request "startDebugging"'),
    ("prints=hello", r"the adapter sent bytes that are not a message (they are not a header part): b'hello\n"),
)
# Faults of which the cause is in the golden file's own lines, and not in the first line.
DIFFERENCES = ("skips=exited", "skips=process", "moves", "changes")
# Each change of the program that is debugged, and words in the first ten lines.
CHANGES = (
    ("3, 4, 5", "3, 4, 6", 'B body.variables[0].value "6"'),
    ("    result = 0\n", "    # one more line\n    result = 0\n", 'B body.stackFrames[1].line 12'),
    ("result += price", "result += price / 0", "ZeroDivisionError: division by zero"),
    ("total([3, 4, 5])", "[3, 4, 5]", 'no event "stopped" with reason \'breakpoint\': the adapter sent < event "terminated"'),
    ("def total(prices):", "def sum_of(prices):", "NameError: name 'total' is not defined"),
)


def read(path):
    with open(path, "rb") as file:
        return file.read()


def write(path, text):
    with open(path, "w", encoding="utf-8") as file:
        file.write(text)


def edit(path, *changes):
    """Makes changes to a text as an author would; each place to change is there once."""
    with open(path, encoding="utf-8") as file:
        text = file.read()
    for old, new in changes:
        if text.count(old) != 1:
            raise ValueError(f"{path} does not have {old!r} once")
        text = text.replace(old, new)
    write(path, text)


def python_with(module):
    """A Python that has this module, if there is one."""
    for python in dict.fromkeys(filter(None, (sys.executable, shutil.which("python3"), "/usr/bin/python3"))):
        if os.path.exists(python) and subprocess.run([python, "-c", f"import {module}"], capture_output=True).returncode == 0:
            return python
    return None


PYTEST = python_with("pytest")
# How a test runs: without pytest, and with it.
WAYS = (False, True) if PYTEST else (False,)


class Author:
    """A folder with the golden test as an author keeps it, and a folder for its traces."""

    def __init__(self, folder, environment):
        self.folder, self.traces = folder, os.path.join(folder, "traces")
        os.makedirs(self.traces)
        for name in FILES:
            shutil.copy(os.path.join(EXAMPLES, name), folder)
        self.golden, self.script = os.path.join(folder, "session.golden.yaml"), os.path.join(folder, "golden_test.py")
        self.environment = {**environment, "TMPDIR": self.traces, "ADAPTER_TIMEOUT": str(TIMEOUT + SLACK)}

    def test(self, adapter, by_pytest=False, **more):
        """Runs the test. Returns its status and its output."""
        command = [*([PYTEST, "-m", "pytest", "-q", "-p", "no:cacheprovider"] if by_pytest else [sys.executable]), self.script]
        environment = {**self.environment, "ADAPTER": adapter, **more}
        ran = subprocess.run(command, cwd=self.folder, env=environment, capture_output=True, text=True, timeout=120)
        return ran.returncode, ran.stdout + ran.stderr

    def update(self, adapter, **more):
        return self.test(adapter, UPDATE_GOLDEN="1", **more)

    def another(self, name):
        """A copy of the folder, with the golden file."""
        other = Author(os.path.join(self.folder, name), self.environment)
        shutil.copy(self.golden, other.folder)
        return other


def golden(report, folder, environment):
    """Golden files are made, renewed and compared, and stay unchanged after a failure."""
    if PYTEST is None:
        print("pytest is not installed: golden_test.py runs without it only, and the plugin is not tried", flush=True)
    author = Author(folder, environment)
    for by_pytest in WAYS:
        status, output = author.test(f"{FAKE} 1000", by_pytest)
        good = status == 1 and "UPDATE_GOLDEN=1" in output and author.golden in output
        report.check("without a golden file the test fails and says what to do", good, output)
    report.check("it keeps the traces, and their recordings", len(os.listdir(author.traces)) == 2 * len(WAYS), repr(os.listdir(author.traces)))
    status, output = author.update(f"{FAKE} 1000")
    report.check("UPDATE_GOLDEN makes the golden file", status == 0 and output == f"wrote {author.golden} (24 records)\n", output)
    first = read(author.golden)
    normal = run(["normalise", author.golden])
    report.check("the golden file is the transcript of a normal form", run(["show", "--yaml"], normal[1]) == (0, first, b""), repr(normal))
    for by_pytest in WAYS:
        status, output = author.test(f"{FAKE} 7", by_pytest)
        good = status == 0 and ("1 passed" if by_pytest else "same\n") in output
        report.check("a session with other numbers is the same", good, output)
    status, output = author.update(f"{FAKE} 7")
    good = (status, output, read(author.golden)) == (0, "unchanged\n", first)
    report.check("UPDATE_GOLDEN leaves a golden file that is the same", good, output)
    status, output = author.another("elsewhere").test(f"{FAKE} 1000")
    report.check("the golden file holds in another folder", status == 0, output)
    report.check("a test that passes leaves no trace", len(os.listdir(author.traces)) == 2 * len(WAYS), repr(os.listdir(author.traces)))
    status, output = author.update(f"{FAKE} 0.5")
    is_early = "Fraction" in "\n".join(output.splitlines()[:10])
    report.check("a session that is refused fails with the reason", status == 1 and is_early, output)
    status, output = author.update(f"{FAKE} 7 ends=variables")
    report.check("a session that fails makes no golden file", status == 1 and read(author.golden) == first, output)
    status, output = author.update(f"{FAKE} 7 skips=exited crashes")
    report.check("nor does one after which the adapter fails", status == 1 and read(author.golden) == first, output)
    for by_pytest in WAYS:
        status, output = author.test(f"{FAKE} 7", by_pytest, UPDATE_GOLDEN="1", PATH=author.traces)
        good = status == 1 and "dapnorm is not on PATH, so nothing was compared" in first_lines(output) and "skipped" not in output
        report.check("without dapnorm the test fails and says so", good, output)
        status, output = author.test("no_such_adapter 7", by_pytest, UPDATE_GOLDEN="1")
        report.check("without the adapter the test fails and says so", status == 1 and "no_such_adapter is not on PATH" in first_lines(output), output)
    os.rename(os.path.join(folder, "session.rules"), os.path.join(folder, "other.rules"))
    status, output = author.test(f"{FAKE} 7")
    report.check("without its rules the test fails and says so", status == 1 and output.startswith("the rules file does not exist"), output)
    os.rename(os.path.join(folder, "other.rules"), os.path.join(folder, "session.rules"))
    report.check("no failure changes the golden file", read(author.golden) == first)
    beside = set(os.listdir(folder)) - {"__pycache__"}
    report.check("and leaves nothing beside it", beside == {*FILES, "session.golden.yaml", "traces", "elsewhere"}, repr(beside))


def first_lines(output):
    """The first ten lines that are shown: under pytest, those after the name of the test."""
    lines = output.splitlines()
    title = [at for at, line in enumerate(lines) if re.fullmatch(r"_{3,} test_\w+ _{3,}", line)]
    return "\n".join(lines[title[0] + 1 if title else 0:][:10])


def is_red(author, adapter, cause, by_pytest=False):
    """Whether the test fails in time, with its cause in the first ten lines, and keeps the trace that it names; and what it printed."""
    for slack in (0, SLACK, SLACK):  # a machine may be busy
        status, output = author.test(adapter, by_pytest, ADAPTER_TIMEOUT=str(TIMEOUT))
        ended = time.time()
        kept = re.search(r"^the trace is kept: (.*)$", output, re.MULTILINE)
        is_kept = kept is not None and os.path.getsize(kept[1]) > 0
        seconds = ended - os.path.getmtime(kept[1]) if kept else 0
        good = status == 1 and cause in first_lines(output) and is_kept and seconds < RED + slack
        if good:
            break
    return good, f"{seconds:.1f} seconds\n{output}"


def forms(report, folder, environment):
    """Golden files of frames work as well. A file in the other form is rewritten, and a transcript that a person edited is compared."""
    author = Author(folder, environment)
    frames = os.path.join(folder, "session.golden")
    author.update(f"{FAKE} 1000")
    transcript = read(author.golden)
    edit(author.script, ('"session.golden.yaml"', '"session.golden"'))
    author.update(f"{FAKE} 1000")
    text = read(frames)
    report.check("a golden file of frames is its own normal form", run(["normalise"], text) == (0, text, b""), repr(text[:300]))
    report.check("a session is compared with frames", author.test(f"{FAKE} 7") == (0, "same\n"))
    status, output = author.test(f"{FAKE} 7 changes")
    good = status == 1 and re.match(r"the session differs from session\.golden at record \d+ \(A: ", output) is not None
    report.check("frames have no line for a record", good, output)
    for path, other, wanted in ((frames, transcript, text), (author.golden, text, transcript)):
        name = os.path.basename(path)
        write(author.script, re.sub(r'golden="[^"]*"', f'golden="{name}"', read(author.script).decode()))
        with open(path, "wb") as file:
            file.write(other)
        status, output = author.test(f"{FAKE} 7")
        report.check(f"{name} in the other form is not in normal form", status == 1 and "not in normal form: --update rewrites it" in output, output)
        status, output = author.update(f"{FAKE} 7")
        good = (status, output, read(path)) == (0, f"wrote {path} (24 records)\n", wanted)
        report.check(f"and UPDATE_GOLDEN rewrites {name}", good, output)
    edited = transcript.replace(b'reason: "breakpoint"\n', b'reason: "step"\n')
    write(author.golden, edited.decode())
    line = edited[:edited.index(b"- adapter: event stopped\n")].count(b"\n") + 1
    status, output = author.test(f"{FAKE} 7")
    good = status == 1 and f", line {line} (A: " in first_lines(output) and 'A body.reason "step"' in first_lines(output)
    report.check("a value that a person edited differs, and its record is named", good, output)
    conflict = transcript.replace(b"- adapter: event stopped\n", b"<<<<<<< ours\n- adapter: event stopped\n")
    for broken, cause in ((conflict, f"line {line}: BadLine"), (transcript + b"\n", f"line {transcript.count(10) + 1}: "), (transcript.replace(b"\n", b"\r\n"), "line 1: ")):
        write(author.golden, "")
        with open(author.golden, "wb") as file:
            file.write(broken)
        status, output = author.test(f"{FAKE} 7")
        good = status == 1 and f"dapnorm: golden: {author.golden}: {cause}" in first_lines(output) and "to accept it" in output and "--faulty" not in output
        report.check("a transcript that is damaged is named, with the line", good, output)
        report.check("and is not changed", read(author.golden) == broken)
    status, output = author.update(f"{FAKE} 7")
    report.check("UPDATE_GOLDEN makes it again", status == 0 and read(author.golden) == transcript, output)


def regressions(report, folder, environment):
    """Each regression is red within the timeout, with its cause in the first ten lines."""
    author = Author(folder, environment)
    author.update(f"{FAKE} 1000")
    with concurrent.futures.ThreadPoolExecutor(4) as pool:
        tried = [(fault, pool.submit(is_red, author, f"{FAKE} 7 {fault}", cause)) for fault, cause in REGRESSIONS]
        for fault, outcome in tried:
            good, output = outcome.result()
            report.check(f"the test is red if the adapter {fault}", good, output)
            compared = re.search(r"^compared with session.golden.yaml, as far as it came|^the session differs from session.golden.yaml", output, re.MULTILINE)
            report.check(f"and what had come is compared: {fault}", compared is not None, output)
            is_first = re.match(r"[\d.]+ seconds\n(.*)", output)[1].startswith("the session differs") == (fault in DIFFERENCES)
            report.check(f"the first line says what kind of failure it is: {fault}", is_first, output)
        if PYTEST:
            tried = [(fault, pool.submit(is_red, author, f"{FAKE} 7 {fault}", cause, True)) for fault, cause in REGRESSIONS]
            for fault, outcome in tried:
                report.check(f"under pytest too: {fault}", *outcome.result())
    for old, new, cause in CHANGES:
        edit(os.path.join(folder, "program.py"), (old, new))
        report.check(f"the test is red if the program has {new!r}", *is_red(author, f"{FAKE} 7", cause))
        shutil.copy(os.path.join(EXAMPLES, "program.py"), folder)
    write(os.path.join(folder, "session.rules"), read(os.path.join(EXAMPLES, "session.rules")).decode() + "\n# What the adapter floods.\ndrop event output category=console\n")
    for harmless in ("cuts", "floods=300000", "cuts floods=1000", "lingers"):
        status, output = author.test(f"{FAKE} 7 {harmless}")
        report.check(f"the test is green if the adapter {harmless}", status == 0, output)


def suggested(report, folder, environment):
    """The report of a session that differs has the complete command that prints rules for it; with them the session is the same."""
    author = Author(folder, environment)
    author.update(f"{FAKE} 1000")
    for has_rules in (True, False):
        if not has_rules:
            edit(author.script, (', rules="session.rules"', ""))
        status, output = author.test(f"{FAKE} 7 changes")
        found = re.search(r"^to allow it in each run: .*\n  (dapnorm suggest (--rules session\.rules )?session\.golden\.yaml \S+\.rec)$", output, re.MULTILINE)
        good = status == 1 and found is not None and (found[2] is not None) == has_rules
        if report.check(f"a difference names the command that suggests rules, rules: {has_rules}", good, output) and has_rules:
            ran = subprocess.run(["sh", "-c", found[1]], cwd=folder, env=author.environment, capture_output=True, text=True, timeout=60)
            report.check("the command prints rules", ran.returncode == 0 and ran.stdout.count("\nblank  response variables") == 3, ran.stdout + ran.stderr)
            with open(os.path.join(folder, "session.rules"), "a", encoding="utf-8") as file:
                file.write(ran.stdout)
            author.update(f"{FAKE} 7")
            report.check("with them and a new golden file both sessions are the same", author.test(f"{FAKE} 7 changes")[1] == "same\n")
            shutil.copy(os.path.join(EXAMPLES, "session.rules"), folder)
            author.update(f"{FAKE} 1000")


def no_process_is_left(report, folder, environment):
    """After a failure the adapter, and what it has started, are killed."""
    author = Author(folder, environment)
    write(os.path.join(folder, "adapter.sh"), 'sleep 300 < /dev/null > /dev/null 2>&1 &\necho $$ $! > pids\nexec "$@"\n')
    status, output = author.update(f"sh adapter.sh {FAKE} 7 hangs=scopes", ADAPTER_TIMEOUT=str(TIMEOUT))
    report.check("a test of an adapter that hangs fails", status == 1, output)
    for pid in map(int, read(os.path.join(folder, "pids")).split()):
        end = time.monotonic() + SLACK
        while os.path.exists(f"/proc/{pid}") and b"\nState:\tZ" not in read(f"/proc/{pid}/status") and time.monotonic() < end:
            time.sleep(0.1)
        report.check("none of its processes is left", time.monotonic() < end)


def handlers(report, folder, environment):
    """The session answers requests of the adapter, and may expect that a request fails."""
    author = Author(folder, environment)
    line = '        adapter.request("initialize", '
    handler = '        adapter.handlers["runInTerminal"] = lambda arguments: {"processId": len(arguments["args"])}\n'
    edit(author.script, (line, handler + line))
    status, output = author.update(f"{FAKE} 7 sends=runInTerminal")
    report.check("a session with a handler passes", status == 0, output)
    lines = run(["show", author.golden])[1].decode()
    report.check("its response is in the golden file", '> response "runInTerminal" seq=3 request_seq=2 ok' in lines, lines)
    line = '        adapter.request("continue", threadId=thread)\n'
    expected = "        try:\n            adapter.request('evaluate', expression='x')\n            assert False, 'it worked'\n"
    edit(author.script, (line, expected + "        except dapnorm.RequestFailed as error:\n            assert 'not work' in error.message\n" + line))
    status, output = author.update(f"{FAKE} 7 sends=runInTerminal fails=evaluate")
    report.check("a session may expect that a request fails", status == 0, output)
    status, output = author.test(f"{FAKE} 7 sends=runInTerminal")
    report.check("and fails if the request does not fail", status == 1 and output.startswith("AssertionError: it worked\n"), output)
    if PYTEST:
        status, output = author.test(f"{FAKE} 7 sends=runInTerminal", True)
        good = status == 1 and "AssertionError: it worked" in output and "compared with session.golden.yaml, as far as it came" in output
        report.check("and pytest shows its own lines and those of the kit", good, output)


def waits(report, folder, environment):
    """A wait has its own timeout, and what has come before a request is noted before it."""
    author = Author(folder, environment)
    edit(author.script, ('        adapter.request("configurationDone")\n', '        adapter.request("configurationDone", timeout=0.5)\n'))
    good, output = is_red(author, f"{FAKE} 7 hangs=configurationDone", 'no response to "configurationDone" within 0.5 seconds')
    report.check("a request has its own timeout", good, output)
    line = '        adapter.request("initialize", '
    edit(author.script, (line, f"        __import__('time').sleep(1)\n{line}"))
    for name in os.listdir(author.traces):
        os.remove(os.path.join(author.traces, name))
    status, output = author.test(f"{FAKE} 7 says_its_number ends=initialize")
    [name] = [it for it in os.listdir(author.traces) if it.endswith(".trace")]
    trace = read(os.path.join(author.traces, name))
    good = status == 1 and trace.startswith(b"<") and b"\"initialize\"" in trace
    report.check("an event that came before a request is noted before it", good, output)


def free_port():
    """A port that is free now, and that the system does not give to connections."""
    for port in range(21000 + os.getpid() % 9000, 32000):
        try:
            with socket.create_server(("127.0.0.1", port)):
                return port
        except OSError:
            continue
    raise OSError("no port is free")


def over_tcp(report, folder, environment):
    """The same over TCP, with an adapter that the test starts and with one that runs already."""
    author = Author(folder, environment)
    port = free_port()
    starts = f'dapnorm.Adapter.connect("127.0.0.1", {port}, ADAPTER + " listens={port}")'
    edit(author.script, ("dap_session(ADAPTER,", f"dap_session({starts},"))
    status, output = author.update(f"{FAKE} 1000")
    report.check("the golden file is made over TCP", status == 0 and output.startswith("wrote "), output)
    status, output = author.test(f"{FAKE} 7 cuts lingers")
    report.check("a session over TCP is the same", (status, output) == (0, "same\n"), output)
    for fault in ("crashes", "hangs=stackTrace", "ends=variables", "skips=stopped", "fails=scopes", "prints=hello"):
        good, output = is_red(author, f"{FAKE} 7 {fault}", dict(REGRESSIONS)[fault])
        report.check(f"a test over TCP is red if the adapter {fault}", good, output)
    begun = time.monotonic()
    write(os.path.join(folder, "silent.py"), "import time\ntime.sleep(300)\n")
    status, output = author.test(f"{sys.executable} silent.py", ADAPTER_TIMEOUT=str(TIMEOUT))
    good = status == 1 and output.startswith(f"no adapter listens on 127.0.0.1:{port} within 2 seconds")
    report.check("an adapter that does not listen is red", good and time.monotonic() - begun < TIMEOUT + SLACK, output)
    write(os.path.join(folder, "failing.py"), "raise SystemExit('there is no such port')\n")
    status, output = author.test(f"{sys.executable} failing.py")
    good = status == 1 and "it ended with status 1" in first_lines(output) and "there is no such port" in first_lines(output)
    report.check("an adapter that ends before it listens is red, with what it printed", good, output)
    edit(author.script, (f', ADAPTER + " listens={port}")', ")"))
    with subprocess.Popen([*FAKE.split(), "7", f"listens={port}"]) as adapter:
        status, output = author.test("")
        report.check("a session with an adapter that runs already is the same", (status, output) == (0, "same\n"), output)
        report.check("which then ends", adapter.wait(timeout=60) == 0)


def fake_debugpy(folder):
    """A package debugpy whose adapter is the fake one, for a Python without debugpy. Its numbers differ from run to run."""
    package = os.path.join(folder, "debugpy", "adapter")
    os.makedirs(package)
    write(os.path.join(folder, "debugpy", "__init__.py"), "")
    write(os.path.join(package, "__init__.py"), "")
    fake = os.path.join(TOP, "tests", "kit", "fake_adapter.py")
    lines = f"import os, runpy, sys\nsys.argv[1:] = [str(os.getpid())]\nrunpy.run_path({fake!r}, run_name='__main__')\n"
    write(os.path.join(package, "__main__.py"), lines)
    return folder


# A session with words, by each call of the package. It prints what each returns or raises.
LIBRARY = """
import os, sys
import dapnorm
folder, adapter = os.getcwd(), sys.argv[1:]
words = {folder: "HERE"}

def session(adapter):
    adapter.request("initialize", adapterID="debugpy")
    launch = adapter.send("launch", program=os.path.join(folder, "program.py"))
    adapter.wait_for("initialized")
    adapter.request("configurationDone")
    adapter.response(launch)
    adapter.wait_for("terminated")
    adapter.request("disconnect")

def tried(call):
    try:
        print(call())
    except (dapnorm.GoldenFailed, dapnorm.SessionError) as error:
        print(type(error).__name__, getattr(error, "status", None), str(error).splitlines()[0])

def by_context(**more):
    with dapnorm.golden_session(adapter, "new/a.golden.yaml", rules="session.rules", words=words, **more) as started:
        session(started)
    return "done"

def by_adapter(**more):
    with dapnorm.Adapter.start(adapter, trace="own.trace") as started:
        session(started)
    return dapnorm.golden(started, "new/a.golden.yaml", rules="session.rules", words=words, **more)

tried(by_context)
tried(lambda: by_context(update=True))
tried(by_context)
tried(by_adapter)
tried(lambda: dapnorm.golden("own.trace", "new/a.golden.yaml", rules="session.rules", words=words))
tried(lambda: dapnorm.golden("own.trace", "new/b.golden.yaml", words={folder: "HERE", str(os.getpid()): "0"}, per_stop=True, update=True))
tried(lambda: dapnorm.golden("own.trace", "new/a.golden.yaml", rules="session.rules"))
tried(lambda: dapnorm.golden("new/a.golden.yaml", "new/a.golden.yaml"))
tried(lambda: dapnorm.golden("new/a.golden.yaml", "new/e.golden.yaml", words={"HERE": "THERE"}, update=True))
print(open("new/e.golden.yaml").read() == open("new/a.golden.yaml").read().replace("HERE/", "THERE/"))
with open("open.trace", "wb") as file:
    for message in (dapnorm.frames.frame(dict(seq=1, type="request", command="initialize", arguments=dict(adapterID="x"))),):
        file.write(b">%d\\n%s" % (len(message), message))
tried(lambda: dapnorm.golden("open.trace", "new/c.golden.yaml", update=True))
tried(lambda: dapnorm.golden("open.trace", "new/c.golden.yaml", update=True, open=True))
tried(lambda: dapnorm.golden("session.rules", "new/d.golden.yaml", update=True))
os.environ["DAPNORM"] = "/nothing"
tried(lambda: dapnorm.golden("own.trace", "new/a.golden.yaml"))
tried(by_context)
"""
LIBRARY_SAYS = """\
GoldenFailed 4 a.golden.yaml does not exist yet, so nothing was compared: --dapnorm-update, or UPDATE_GOLDEN=1, makes it
done
done
same
same
wrote new/b.golden.yaml (13 records)
GoldenFailed 1 the session differs from a.golden.yaml at record 3, line 41 (A: a.golden.yaml, B: this run)
same
wrote new/e.golden.yaml (13 records)
True
GoldenFailed 2 dapnorm golden ends with status 2 (c.golden.yaml is unchanged)
wrote new/c.golden.yaml (1 record)
GoldenFailed 2 dapnorm golden ends with status 2 (d.golden.yaml is unchanged)
ProgramMissing 127 DAPNORM=/nothing is not a program, so nothing was compared
ProgramMissing 127 DAPNORM=/nothing is not a program, so nothing was compared
"""


def library(report, folder, environment):
    """`golden` and `golden_session` of the package, with words, by which the golden file is the same in another folder."""
    golden = None
    for name, first in (("one", "7"), ("another folder", "1000")):
        place = os.path.join(folder, name)
        os.makedirs(os.path.join(place, "traces"))
        for it in ("program.py", "session.rules"):
            shutil.copy(os.path.join(EXAMPLES, it), place)
        edit(os.path.join(place, "session.rules"), ("blank   request   launch          arguments.program\n", ""))
        write(os.path.join(place, "own.rec"), "a recording of the author")
        words = [sys.executable, "-c", LIBRARY, *FAKE.split(), first]
        around = {**environment, "TMPDIR": os.path.join(place, "traces"), "ADAPTER_TIMEOUT": str(TIMEOUT + SLACK)}
        ran = subprocess.run(words, cwd=place, env=around, capture_output=True, text=True, timeout=120)
        report.check(f"the calls of the package in {name}", ran.stdout == LIBRARY_SAYS, ran.stdout + ran.stderr)
        made = read(os.path.join(place, "new", "a.golden.yaml")) if os.path.exists(os.path.join(place, "new", "a.golden.yaml")) else b""
        report.check("the golden file has the word", b'    program: "HERE/program.py"\n' in made and place.encode() not in made, repr(made[:300]))
        golden = golden or made
        report.check("and is the same in each folder", golden == made)
        report.check("a named trace is not removed", os.path.exists(os.path.join(place, "own.trace")))
        report.check("a recording that was there is not replaced", read(os.path.join(place, "own.rec")) == b"a recording of the author")


# Tests for pytest. Each but the first two fails; the line after the title of each failure, and another line of it.
PLUGIN = """
import os
import dapnorm
ADAPTER = os.environ["ADAPTER"]

def session(adapter):
    adapter.request("initialize", adapterID="x")
    adapter.wait_for("initialized")
    adapter.request("disconnect")

def test_tcp(dap_session):
    with dap_session(dapnorm.Adapter.connect("127.0.0.1", 0, ADAPTER + " listens={port}"), golden="tcp.golden.yaml", timeout=10) as adapter:
        session(adapter)

def test_forgotten():
    dapnorm.Adapter.start(ADAPTER).request("initialize", adapterID="x")

def test_direct():
    with dapnorm.Adapter.start(ADAPTER + " fails=disconnect complains") as adapter:
        session(adapter)

def test_golden():
    with dapnorm.Adapter.start(ADAPTER) as adapter:
        session(adapter)
    dapnorm.golden(adapter, "tcp.golden.yaml", rules="none.rules")

def test_context():
    with dapnorm.golden_session(ADAPTER + " status=3", "tcp.golden.yaml") as adapter:
        session(adapter)

def test_end(dap_session):
    with dap_session(ADAPTER + " crashes", "tcp.golden.yaml") as adapter:
        session(adapter)

def test_unused(dap_session):
    dap_session(ADAPTER, "tcp.golden.yaml")

def test_own(dap_session):
    with dap_session(ADAPTER, "tcp.golden.yaml") as adapter:
        assert adapter.request("initialize", adapterID="x") == {"a": 1}
"""
PLUGIN_SAYS = {
    "test_direct": ('request "disconnect" failed: disconnect does not work today', '  plugin_test.py:9: adapter.request("disconnect")', "  the fake adapter complains"),
    "test_golden": ("dapnorm golden ends with status 4 (tcp.golden.yaml is unchanged)", "dapnorm: rules: read fault", "to look further:"),
    "test_context": ("after the session the adapter ended with status 3", "compared with tcp.golden.yaml, as far as it came (A: tcp.golden.yaml, B: this run):", "  same"),
    "test_end": ("after the session the adapter ended with status -11 (Segmentation fault)", "compared with tcp.golden.yaml, as far as it came (A: tcp.golden.yaml, B: this run):", "  same"),
    "test_unused": ("a session was started, and not compared with tcp.golden.yaml: write `with dap_session(..) as adapter:`",),
    "test_own": ("", ">           assert adapter.request(\"initialize\", adapterID=\"x\") == {\"a\": 1}", '  4/- > request "disconnect"'),
}


def plugin(report, folder, environment):
    """The plugin for pytest, with each way to use the package in a test. `--dapnorm-update` is for all of them."""
    if PYTEST is None:
        return
    write(os.path.join(folder, "plugin_test.py"), PLUGIN)
    around = {**environment, "ADAPTER": f"{FAKE} 4711", "ADAPTER_TIMEOUT": str(TIMEOUT + SLACK), "TMPDIR": folder}

    def tried(*words):
        command = [PYTEST, "-m", "pytest", "-q", "-p", "no:cacheprovider", "plugin_test.py", *words]
        ran = subprocess.run(command, cwd=folder, env=around, capture_output=True, text=True, timeout=120)
        return ran.returncode, ran.stdout + ran.stderr

    status, output = tried("-k", "tcp", "--dapnorm-update")
    good = status == 0 and f"dapnorm: wrote {folder}/tcp.golden.yaml (5 records)\n" in output and "dapnorm: 1 session: 0 same, 0 failed, 1 updated\n" in output
    report.check("--dapnorm-update makes a golden file", good, output)
    status, output = tried()
    failures = dict(re.findall(r"^_{3,} (?:ERROR at teardown of )?(test_\w+) _{3,}\n(.*?)(?=^_{3,} (?:ERROR|test)|^={3,} FAILURES|^dapnorm: \d)", output, re.MULTILINE | re.DOTALL))
    report.check("each test fails that has to", status == 1 and sorted(failures) == sorted(PLUGIN_SAYS), output)
    for name, (first, *lines) in PLUGIN_SAYS.items():
        shown = failures.get(name, "").splitlines()
        good = shown and (shown[0] == first) and all(it in shown for it in lines)
        report.check(f"{name} shows its cause first, and more", good, failures.get(name, ""))
        report.check(f"{name} is in the summary", not first or f"dapnorm: plugin_test.py::{name}: {first}" in output, output)
    report.check("the summary counts the sessions", "dapnorm: 3 sessions: 1 same, 2 failed, 0 updated\n" in output, output)
    status, output = tried("-k", "golden", "--dapnorm-update")
    report.check("--dapnorm-update does not hide what is wrong", status == 1 and "rules: read fault" in output, output)
    write(os.path.join(folder, "plugin_test.py"), PLUGIN.replace(', rules="none.rules"', "").replace("tcp.golden.yaml", "new.golden.yaml"))
    status, output = tried("-k", "golden", "--dapnorm-update")
    report.check("--dapnorm-update is also for golden()", status == 0 and os.path.exists(os.path.join(folder, "new.golden.yaml")), output)
    left = subprocess.run(["pgrep", "-f", f"{FAKE} 4711"], capture_output=True, text=True).stdout if shutil.which("pgrep") else ""
    report.check("no adapter is left, not even a forgotten one", left == "", left)


def tutorial_blocks():
    with open(os.path.join(TOP, "docs", "TUTORIAL.md"), encoding="utf-8") as file:
        blocks = re.findall(r"(?:^ {4}.*\n)+", file.read(), re.MULTILINE)
    return [re.sub(r"^ {4}", "", block, flags=re.MULTILINE) for block in blocks]


def clone_of_examples(folder, environment):
    """A repository with the examples, the package and the built program, as after `git clone` and `make`."""
    os.makedirs(os.path.join(folder, "examples"))
    for name in FILES:
        shutil.copy(os.path.join(EXAMPLES, name), os.path.join(folder, "examples"))
    shutil.copytree(os.path.join(TOP, "python"), os.path.join(folder, "python"), ignore=shutil.ignore_patterns("__pycache__"))
    identity = ["-c", "user.name=somebody", "-c", "user.email=somebody@example.org"]
    for words in (["init", "-q"], ["add", "examples", "python"], [*identity, "commit", "-qm", "examples"]):
        subprocess.run(["git", *words], cwd=folder, env=environment, check=True, capture_output=True, timeout=60)
    os.makedirs(os.path.join(folder, "bin"))
    shutil.copy(PROGRAM, os.path.join(folder, "bin", "dapnorm"))


def followed(report, folder, environment, name):
    """Each command of docs/TUTORIAL.md, as it is written, with the debugpy of this environment."""
    before, make, compare, change, shown, hang, hanging, undo = tutorial_blocks()
    install, path = before.splitlines()
    report.check("it installs debugpy first", install.startswith("sudo apt-get install -y python3-debugpy"), install)
    clone_of_examples(folder, environment)

    def run_there(command, **more):
        around = {**environment, **more}
        ran = subprocess.run(["sh", "-c", f"{path}\n{command}"], cwd=folder, env=around, capture_output=True, text=True, timeout=120)
        return ran.returncode, ran.stdout + ran.stderr

    status, output = run_there(make)
    report.check(f"its first command makes the golden file, with {name}", status == 0 and output.startswith("wrote "), output)
    status, output = run_there(compare)
    report.check(f"its second command is green, with {name}", (status, output) == (0, "same\n"), output)
    status, output = run_there(change)
    values = [line for line in shown.splitlines() if re.match(r"[AB] body", line)]
    good = status == 1 and len(values) > 2 and set(values) <= set(output.splitlines()) and output.startswith("the session differs from session.golden.yaml")
    report.check(f"its third command is red, with {name}", good, output)
    status, output = run_there(hang, ADAPTER_TIMEOUT="4")
    report.check(f"its fourth command is red, with {name}", status == 1 and output.startswith(hanging), output)
    status, output = run_there(undo)
    words = ["git", "status", "--short", "examples"]
    left = subprocess.run(words, cwd=folder, env=environment, capture_output=True, text=True, timeout=60)
    report.check(f"and all is undone, with {name}", (status, left.stdout) == (0, ""), output + left.stdout)
    return output


def tutorial(report, folder, environment):
    """The tutorial with a package debugpy whose adapter is the fake one, and with debugpy, if some Python here has it."""
    blocks = tutorial_blocks()
    report.check("the tutorial has six blocks of commands and two of output", len(blocks) == 8, repr(blocks))
    if len(blocks) != 8:
        return
    python = os.path.dirname(sys.executable)
    plain = {**environment, "PATH": os.pathsep.join([python, *environment["PATH"].split(os.pathsep)[1:]]), "TMPDIR": folder, "ADAPTER_TIMEOUT": str(TIMEOUT + SLACK)}
    packages = fake_debugpy(os.path.join(folder, "packages"))
    followed(report, os.path.join(folder, "fake"), {**plain, "PYTHONPATH": packages}, "the fake adapter")
    real = python_with("debugpy.adapter")
    if real is None:
        print("debugpy is not installed: the tutorial is tried with the fake adapter only", flush=True)
        return
    plain.pop("PYTHONPATH", None)
    followed(report, os.path.join(folder, "real"), {**plain, "ADAPTER": f"{real} -m debugpy.adapter"}, "debugpy")


def rules(report, _folder):
    """The rules of the session have all those for debugpy."""
    kept, mask = (read(os.path.join(EXAMPLES, *path)).decode().splitlines() for path in (("session.rules",), ("rules", "debugpy.rules")))
    lacking = {line for line in mask if not line.startswith("#")} - set(kept)
    report.check("session.rules has the rules of rules/debugpy.rules", not lacking, repr(lacking))
    with open(os.path.join(TOP, "README.md"), encoding="utf-8") as file:
        shown = [re.sub(r"^ {4}", "", it) for it in file.read().splitlines()]
    with open(os.path.join(EXAMPLES, "golden_test.py"), encoding="utf-8") as file:
        test = re.search(r"^def test_a_breakpoint.*?(?=\n\n)", file.read(), re.MULTILINE | re.DOTALL)[0].splitlines()
    at = shown.index(test[0]) if test[0] in shown else 0
    report.check("the README shows the test of golden_test.py", shown[at:at + len(test)] == test)
    report.check("it has fifteen lines", len(test) == 15, repr(test))
    for name, limit in (("golden_test.py", 35), ("golden.sh", 10)):
        lines = read(os.path.join(EXAMPLES, name)).count(b"\n")
        report.check(f"{name} has at most {limit} lines", lines <= limit, str(lines))


PARTS = (golden, forms, regressions, suggested, no_process_is_left, handlers, waits, over_tcp, library, plugin, tutorial)
