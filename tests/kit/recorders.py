"""Tests of the recorders `dapnorm.tee` and `dapnorm.proxy`, and what the tests of the package python/dapnorm share. `tests/kit/adapter_kit.py` calls
them."""
import contextlib
import io
import os
import shutil
import signal
import subprocess
import sys
import threading
import time

from tests.kit import fake_adapter
from tests.kit.golden_sessions import FAKE
from tests.report import TOP

PACKAGE = os.path.join(TOP, "python")
sys.path.insert(0, PACKAGE)
sys.dont_write_bytecode = True
import dapnorm
from dapnorm import proxy

PROGRAM = os.path.join(TOP, "examples", "program.py")
ADAPTER = FAKE.split()
TIMEOUT = 2
# What a busy machine may take longer.
SLACK = 10


def framed(messages):
    given = io.BytesIO()
    for message in messages:
        fake_adapter.send(given, message)
    return given.getvalue()


def launched(adapter):
    """A session up to its first stop."""
    adapter.request("initialize", adapterID="debugpy")
    launch = adapter.send("launch", program=PROGRAM)
    adapter.wait_for("initialized")
    adapter.request("setBreakpoints", source={"path": PROGRAM}, breakpoints=[{"line": 8}])
    adapter.request("configurationDone")
    return launch


def read(*path):
    with open(os.path.join(TOP, *path), encoding="utf-8") as file:
        return file.read()


# A program in the place of an adapter: it prints each signal, and SIGTERM ends it.
STAND_IN = """import os, signal, sys, time
def told(number, _):
    print(f"signal {number}", file=sys.stderr, flush=True)
    if number == signal.SIGTERM:
        sys.exit(9)
for number in (signal.SIGTERM, signal.SIGINT, signal.SIGHUP):
    signal.signal(number, told)
print("ready", file=sys.stderr, flush=True)
while True:
    time.sleep(0.05)
"""


# The tee, on a machine that is busy after the adapter has started.
LATE_TEE = """import subprocess, sys, time
from dapnorm import tee
class Late(subprocess.Popen):
    def __init__(self, *words, **how):
        super().__init__(*words, **how)
        time.sleep(1)
subprocess.Popen = Late
sys.exit(tee.main(sys.argv[1:]))
"""


@contextlib.contextmanager
def limited(words, environment, **streams):
    """A process whose standard error a test reads. After a minute it is killed, with all that it started, so that no test waits forever."""
    with subprocess.Popen(words, stderr=subprocess.PIPE, text=True, env=environment, start_new_session=True, **streams) as process:
        timer = threading.Timer(60, os.killpg, (process.pid, signal.SIGKILL))
        timer.start()
        try:
            yield process
        finally:
            timer.cancel()


def tee_signals(report, folder):
    """Signals reach the adapter; its standard error and its status are those of the tee. An orphan does not keep the tee."""
    words = [sys.executable, "-m", "dapnorm.tee", os.path.join(folder, "trace")]
    environment = {**os.environ, "PYTHONPATH": PACKAGE}
    for name, tee in (("the tee", words), ("a tee that starts slowly", [sys.executable, "-c", LATE_TEE, words[3]])):
        with limited([*tee, sys.executable, "-c", STAND_IN], environment, stdin=subprocess.PIPE, stdout=subprocess.PIPE) as process:
            lines = [process.stderr.readline()]
            for number in (signal.SIGHUP, signal.SIGINT, signal.SIGTERM):
                process.send_signal(number)
                lines.append(process.stderr.readline())
            status = process.wait(timeout=60)
        report.check(f"signals reach the adapter of {name}", lines == ["ready\n", "signal 1\n", "signal 2\n", "signal 15\n"], repr(lines))
        report.check(f"and {name} has the adapter's status", status == 9, repr(status))
    given = framed([{"seq": 1, "type": "request", "command": "initialize"}, {"seq": 2, "type": "request", "command": "threads"}])
    begun = time.monotonic()
    with open(os.path.join(folder, "errors"), "w+b") as errors:
        command = [*words, *ADAPTER, "7", "complains", "orphans=threads"]
        ran = subprocess.run(command, input=given, stdout=subprocess.DEVNULL, stderr=errors, env=environment, timeout=50)
        errors.seek(0)
        good = (ran.returncode, errors.read()) == (3, b"the fake adapter complains\n") and time.monotonic() - begun < SLACK
    report.check("a process that the adapter left does not keep the tee", good, repr((ran.returncode, time.monotonic() - begun)))
    ran = subprocess.run([*words[:3], os.path.join(folder, "no", "trace"), *ADAPTER, "7"], input=b"", capture_output=True, env=environment, timeout=60)
    good = ran.returncode == 1 and b"dapnorm.tee: the trace cannot be written: " in ran.stderr and ran.stderr.count(b"\n") == 1
    report.check("a trace that cannot be written is reported", good, repr(ran.stderr))
    ran = subprocess.run(words, capture_output=True, env=environment, timeout=60)
    report.check("without an adapter the tee prints how to call it", ran.returncode == 1 and b"python3 -m dapnorm.tee" in ran.stderr, repr(ran.stderr))


def proxy_starts(report, folder):
    """The proxy may start the adapter: its status, its standard error and signals are kept."""
    port = dapnorm.free_port()
    environment = {**os.environ, "PYTHONPATH": PACKAGE}
    for fault, wanted in (("complains", 0), ("status=3", 3), ("crashes", 128 + 11)):
        trace = os.path.join(folder, fault)
        words = [sys.executable, "-m", "dapnorm.proxy", trace, "0", str(port), *ADAPTER, "7", "complains", fault, f"listens={port}"]
        with limited(words, environment) as process:
            listening = process.stderr.readline()
            with dapnorm.Adapter.connect("127.0.0.1", int(listening.rsplit(":", 1)[1]), timeout=SLACK) as adapter:
                launched(adapter)
                adapter.request("disconnect")
            errors, status = process.stderr.read(), process.wait(timeout=60)
        report.check(f"the proxy has the status {wanted} of its adapter", status == wanted and listening.startswith("listening on 127.0.0.1:"), repr((status, errors)))
        report.check("and its standard error", errors == "the fake adapter complains\n", repr(errors))
        with open(trace, "rb") as file, open(adapter.trace, "rb") as own:
            report.check("and its trace has the messages of the client", len(file.read()) > 0.9 * len(own.read()))
    words = [sys.executable, "-m", "dapnorm.proxy", os.path.join(folder, "trace"), "0", str(port), sys.executable, "-c", STAND_IN]
    with limited(words, environment) as process:
        lines = sorted(process.stderr.readline().split(" on ")[0].strip() for _ in range(2))
        proxy_port = dapnorm.free_port()
        process.send_signal(signal.SIGTERM)
        line = process.stderr.readline()
        process.kill()
    report.check("signals reach the adapter of the proxy", (lines, line) == (["listening", "ready"], "signal 15\n") and proxy_port, repr((lines, line)))
    report.check("the proxy listens on 127.0.0.1 unless told otherwise", proxy.address("4711") == ("127.0.0.1", 4711))


class Proxied:
    """A proxy that runs, without a client yet. Its standard error is read up to the line that has its port."""

    def __init__(self, *words):
        command = [sys.executable, "-m", "dapnorm.proxy", words[0], "0", *words[1:]]
        self.process = subprocess.Popen(command, stderr=subprocess.PIPE, text=True, env={**os.environ, "PYTHONPATH": PACKAGE})
        self.port = int(self.process.stderr.readline().rsplit(":", 1)[1])

    def client(self):
        return dapnorm.Adapter.connect("127.0.0.1", self.port, timeout=SLACK)

    def ended(self):
        """The status of the proxy and the rest of its standard error. A proxy that does not end is killed."""
        try:
            errors = self.process.communicate(timeout=SLACK)[1]
        except subprocess.TimeoutExpired:
            self.process.kill()
            errors = self.process.communicate()[1]
        return self.process.returncode, errors


def proxy_alone(report, folder):
    """Before a client connects, the proxy ends with its adapter and by a signal. A trace that cannot be written starts nothing."""
    trace, port, marker = os.path.join(folder, "trace"), str(dapnorm.free_port()), os.path.join(folder, "started")
    status, errors = Proxied(trace, port, "sh", "-c", "sleep 0.2; exit 3").ended()
    good = status == 3 and errors == "dapnorm.proxy: the adapter ended with status 3 before a client was connected with it\n"
    report.check("the proxy ends with an adapter that ends before a client connects", good, repr((status, errors)))
    report.check("and leaves no trace", not os.path.exists(trace))
    with open(trace, "wb") as file:
        file.write(b"as it was")
    for number in (signal.SIGTERM, signal.SIGINT):
        for command in ([], ["sh", "-c", "exec sleep 60"]):
            started = Proxied(trace, port, *command)
            started.process.send_signal(number)
            begun, (status, errors) = time.monotonic(), started.ended()
            good = (status, errors) == (128 + number, "") and time.monotonic() - begun < SLACK
            report.check(f"{number.name} ends the proxy with {command or 'no command'}", good, repr((status, errors)))
    with open(trace, "rb") as file:
        report.check("and an earlier trace is unchanged", file.read() == b"as it was")
    for path in (os.path.join(folder, "no", "trace"), folder):
        words = [sys.executable, "-m", "dapnorm.proxy", path, "0", port, "touch", marker]
        try:
            ran = subprocess.run(words, capture_output=True, text=True, timeout=SLACK, env={**os.environ, "PYTHONPATH": PACKAGE})
            good = ran.returncode == 1 and path in ran.stderr and "listening" not in ran.stderr and not os.path.exists(marker)
        except subprocess.TimeoutExpired:
            good = False
        report.check("without a trace no adapter is started", good)


# A server for this number of sessions, which may run side by side.
SERVER = f"""
import socket, sys, threading
sys.path.insert(0, {os.path.join(TOP, "tests", "kit")!r})
from fake_adapter import serve
def session(connection, first):
    with connection, connection.makefile("rb") as source, connection.makefile("wb") as target:
        serve(source, target, first)
with socket.create_server(("127.0.0.1", int(sys.argv[1]))) as server:
    threads = []
    for number in range(int(sys.argv[2])):
        threads.append(threading.Thread(target=session, args=(server.accept()[0], 100 * number)))
        threads[-1].start()
for it in threads:
    it.join()
"""


def proxy_sessions(report, folder):
    """Each client has its own trace, while another session runs and after it."""
    port = str(dapnorm.free_port())
    server = [sys.executable, "-c", SERVER, port]

    def session(adapter, name):
        adapter.request("initialize", adapterID=name)
        adapter.request("disconnect")
        adapter.close()

    for name, command in (("own", [*server, "3"]), ("other", [])):
        started = None if command else subprocess.Popen([*server, "3"])
        proxy = Proxied(os.path.join(folder, f"{name}.trace"), port, *command)
        with proxy.client() as first:
            first.request("threads")
            with proxy.client() as second:
                session(second, "second")
            session(first, "first")
        if command:
            with proxy.client() as third:
                session(third, "third")
        status, errors = proxy.ended()
        told = "".join(f"dapnorm.proxy: client {it + 1} has the trace {folder}/{name}.{it}.trace\n" for it in range(1, 3 if command else 2))
        report.check(f"further clients are passed on, with the adapter's {name} start", (status, errors) == (0, told), repr((status, errors)))
        for path, client in ((f"{name}.trace", b"first"), (f"{name}.1.trace", b"second"), (f"{name}.2.trace", b"third")):
            place = os.path.join(folder, path)
            if command or client != b"third":
                trace = read(place) if os.path.exists(place) else ""
                report.check(f"{path} has the session of the {client.decode()} client", trace.count("adapterID") == 1 and client.decode() in trace, trace)
        if started:
            started.kill()
            started.wait()


SHIMS = ("trace_tee.py", "trace_proxy.py")


def shims(report, folder):
    """The scripts of examples/ run the modules: from a checkout, and from where `make install` puts them."""
    placed = os.path.join(folder, "share", "dapnorm", "examples")
    os.makedirs(placed)
    shutil.copytree(os.path.join(PACKAGE, "dapnorm"), os.path.join(folder, "lib", "python3", "dist-packages", "dapnorm"))
    environment = {name: value for name, value in os.environ.items() if name != "PYTHONPATH"}
    for name in SHIMS:
        with open(os.path.join(TOP, "examples", name), encoding="utf-8") as file:
            report.check(f"{name} has one line", file.read().count("\n") == 1)
        shutil.copy(os.path.join(TOP, "examples", name), placed)
        for at in (os.path.join(TOP, "examples"), placed):
            ran = subprocess.run([sys.executable, os.path.join(at, name)], capture_output=True, text=True, env=environment, cwd="/", timeout=60)
            module = name.replace("trace_", "dapnorm.").replace(".py", "")
            report.check(f"{name} runs {module}", ran.returncode == 1 and f"python3 -m {module} session.trace" in ran.stderr, ran.stderr)
            for option in ("-h", "--help"):
                ran = subprocess.run([sys.executable, os.path.join(at, name), option], capture_output=True, text=True, env=environment, cwd="/", timeout=60)
                good = (ran.returncode, ran.stderr) == (0, "") and f"python3 -m {module} session.trace" in ran.stdout
                report.check(f"{name} {option} prints the help", good, ran.stdout + ran.stderr)
