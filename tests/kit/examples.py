"""Runs the scripts of examples/ against a fake adapter and the program that the gate built, and compares the picture of the README with
what the program prints. golden_sessions.py has the tests of golden_test.py, and recipes.py those of the shell scripts."""
import io
import os
import re
import shutil
import socket
import subprocess
import sys
import tempfile
import threading

from tests.kit import fake_adapter
from tests.kit import golden_sessions
from tests.kit import recipes
from tests.report import PROGRAM, TOP, Report, run
from tests.program.tracing import REQUESTS

sys.path.insert(0, os.path.join(TOP, "python"))
from dapnorm import proxy as proxy_module

EXAMPLES = os.path.join(TOP, "examples")
LOGS = os.path.join(EXAMPLES, "logs")
# The logs of real adapters: the script that reads them, the answer of `check`, and whether the log
# has the contents byte by byte.
LOG_ANSWERS = {
    "debugpy-1.6.3": ("from_debugpy_log.py", b"accepted records=28 open=0,0\n", False),
    "lldb-vscode-14": ("from_lldb_log.py", b"accepted records=24 open=0,0\n", True),
    "lldb-dap-19": ("from_lldb_log.py", b"accepted records=10 open=0,0\n", False),
    "lldb-dap-22": ("from_lldb_log.py", b"accepted records=12 open=1,0\n", True),
}
BROKEN = ("lldb-vscode-14", "lldb-dap-22", "debugpy-1.6.3")
# The variables that would change the examples.
OURS = ("UPDATE_GOLDEN", "ADAPTER", "ADAPTER_TIMEOUT", "DAPNORM", "DAPNORM_TRACES")


def read(path):
    with open(path, "rb") as file:
        return file.read()


def write(path, text):
    with open(path, "wb") as file:
        file.write(text)


def with_program(folder):
    """An environment in which the program is found as dapnorm, without what would change the examples."""
    os.makedirs(os.path.join(folder, "bin"))
    os.symlink(PROGRAM, os.path.join(folder, "bin", "dapnorm"))
    kept = {name: value for name, value in os.environ.items() if name not in OURS and not name.startswith("GIT_")}
    path = os.path.join(folder, "bin") + os.pathsep + os.environ["PATH"]
    return {**kept, "PATH": path, "HOME": folder, "PYTHONDONTWRITEBYTECODE": "1", "PYTHONPATH": os.path.join(TOP, "python")}


def picture(report):
    with open(os.path.join(TOP, "README.md"), encoding="utf-8") as file:
        text = file.read()
    before, after = (re.search(rf"<!-- {word} -->\n((?: {{4}}.*\n)+)", text)[1] for word in ("before", "after"))
    recording = read(os.path.join(EXAMPLES, "captures", "rdbg-e-errors.5.rec"))
    status, normal, errors = run(["normalise"], recording)
    report.check("the recording of the README is normalised", (status, errors) == (0, b""), repr(errors))
    for name, shown, given in (("before", before, recording), ("after", after, normal)):
        lines = run(["show"], given)[1].decode()
        report.check(f"the README shows what is printed {name}", re.sub("^ {4}", "", shown, flags=re.MULTILINE) in lines)
    other = read(os.path.join(EXAMPLES, "captures", "rdbg-e-errors.3.rec"))
    report.check("the other run gives the same bytes", run(["normalise"], other)[1] == normal)
    transcript = read(os.path.join(EXAMPLES, "dlv-stopentry.golden.yaml"))
    answer = run(["show", "--yaml", os.path.join(EXAMPLES, "dlv-stopentry.golden")])
    report.check("the transcript of the examples is that of the golden file", answer == (0, transcript, b""), repr(answer))
    shown = re.search(r"<!-- transcript -->\n((?: {4}.*\n)+)", text)[1]
    normal = run(["normalise"], read(os.path.join(EXAMPLES, "captures", "debugpy-a-basic.1.rec")))[1]
    transcript = run(["show", "--yaml"], normal)[1].decode()
    report.check("the README shows a part of a transcript", re.sub("^ {4}", "", shown, flags=re.MULTILINE) in transcript)


def transcripts(report, folder):
    """Each transcript that docs/FORMATS.md shows is spelled as the program spells it: it is read."""
    with open(os.path.join(TOP, "docs", "FORMATS.md"), encoding="utf-8") as file:
        blocks = [re.sub(r"^ {4}", "", it, flags=re.MULTILINE) for it in re.findall(r"(?:^ {4}.*\n)+", file.read(), re.MULTILINE)]
    shown = [it for it in blocks if it.startswith("- ")]
    report.check("FORMATS.md shows transcripts", len(shown) == 2, repr(shown))
    for number, it in enumerate(shown):
        path = os.path.join(folder, f"{number}.yaml")
        write(path, it.encode())
        status, lines, errors = run(["show", path])
        report.check("a transcript of FORMATS.md is read", (status, errors) == (0, b"") and lines.count(b"request_seq") == it.count("response"), repr(errors))


def first_look(report, folder):
    """`make try` with the program that the gate built, and with one that changes nothing."""
    copier = os.path.join(folder, "copier")
    write(copier, b"#!/bin/sh\nexec cat\n")
    os.chmod(copier, 0o755)
    for program, status, line in ((PROGRAM, 0, "outputs are equal: "), (copier, 1, " differ.")):
        words = [sys.executable, os.path.join(TOP, "scripts", "first_look.py"), program]
        ran = subprocess.run(words, capture_output=True, text=True, timeout=60)
        good = ran.returncode == status and line in (ran.stdout + ran.stderr).splitlines()[-1]
        report.check(f"the first look says {line!r}", good, ran.stdout + ran.stderr)


def ask(address, first_seq):
    """A client's session over TCP. Returns the messages that came."""
    came, connection = [], socket.create_connection(address, timeout=60)
    with connection, connection.makefile("rb") as source, connection.makefile("wb") as target:
        for seq, request in enumerate(REQUESTS, first_seq):
            fake_adapter.send(target, {"seq": seq, "type": "request", **request})
            while not came or came[-1].get("request_seq") != seq:
                came.append(fake_adapter.receive(source))
            if request["command"] == "initialize":
                came.append(fake_adapter.receive(source))
        connection.shutdown(socket.SHUT_WR)
        while (message := fake_adapter.receive(source)) is not None:
            came.append(message)
    return came


def proxied(report, path, first_seq, first_frame, host="127.0.0.1"):
    """A session through the proxy, which listens on a port of this host. LISTEN is only the port if the host is 127.0.0.1."""
    family, name = (socket.AF_INET6, f"[{host}]") if ":" in host else (socket.AF_INET, host)
    with socket.create_server((host, 0), family=family) as server:
        adapter = threading.Thread(target=fake_adapter.serve_connection, args=(server, first_frame), daemon=True)
        adapter.start()
        connect = "{}:{}".format(name, server.getsockname()[1])
        words = [sys.executable, os.path.join(EXAMPLES, "trace_proxy.py"), path, "0" if host == "127.0.0.1" else f"{name}:0", connect]
        with subprocess.Popen(words, stderr=subprocess.PIPE, text=True) as process:
            listening = process.stderr.readline()
            report.check("the proxy says where it listens", listening.startswith(f"listening on {name}:"), listening)
            came = ask((host, int(listening.rsplit(":", 1)[1])), first_seq)
            errors = process.stderr.read()
            status = process.wait(timeout=60)
        adapter.join(60)
    report.check("the proxy ends with the session", (status, errors) == (0, ""), repr((status, errors)))
    report.check("the client of the proxy has all responses", len(came) == 5, repr(came))


def has_ipv6():
    try:
        socket.create_server(("::1", 0), family=socket.AF_INET6).close()
    except OSError:
        return False
    return True


def proxy(report, folder):
    normal = []
    for name, first_seq, first_frame, host in (("one", 1, 1000, "127.0.0.1"), ("other", 501, 7, "::1" if has_ipv6() else "127.0.0.1")):
        path = os.path.join(folder, name)
        proxied(report, path, first_seq, first_frame, host)
        status, recording, errors = run(["record"], read(path))
        report.check("a trace of the proxy is recorded", (status, errors) == (0, b""), repr(errors))
        answer = run(["check", "--complete"], recording)
        report.check("its recording is accepted", answer == (0, b"accepted records=9 open=0,0\n", b""), repr(answer))
        normal.append(run(["normalise"], recording)[1])
    report.check("two sessions through the proxy have one normal form", normal[0] == normal[1] != b"")


# LISTEN or CONNECT, and the address that it means, or None if it is refused.
ADDRESSES = (
    ("4711", ("127.0.0.1", 4711)), (":4711", ("127.0.0.1", 4711)), ("0.0.0.0:4711", ("0.0.0.0", 4711)), ("localhost:1", ("localhost", 1)),
    ("[::1]:4711", ("::1", 4711)), ("[::]:0", ("::", 0)),
    ("::1:4711", None), ("127.0.0.1", None), ("4711x", None), ("65536", None), ("", None),
)


def addresses(report, _folder):
    for text, wanted in ADDRESSES:
        try:
            found = proxy_module.address(text)
        except SystemExit as refused:
            found = None if str(refused).startswith(f"{text}: ") else refused
        report.check(f"the proxy reads the address {text!r}", found == wanted, repr(found))


def proxy_alone(report, folder):
    """No adapter listens: the proxy says so, leaves no process, and leaves an earlier trace unchanged."""
    with socket.create_server(("127.0.0.1", 0)) as unused:
        port = unused.getsockname()[1]
    trace = os.path.join(folder, "trace")
    write(trace, b"as it was")
    code = "\n".join((
        "import sys",
        f"sys.argv = ['trace_proxy.py', {trace!r}, '0', '{port}']",
        f"sys.path.insert(0, {os.path.join(TOP, 'python')!r})",
        "from dapnorm import proxy",
        "proxy.PATIENCE = 0",
        "proxy.main()",
    ))
    with subprocess.Popen([sys.executable, "-c", code], stderr=subprocess.PIPE, text=True) as process:
        listening = int(process.stderr.readline().rsplit(":", 1)[1])
        socket.create_connection(("127.0.0.1", listening), timeout=60).close()
        errors = process.stderr.read()
        status = process.wait(timeout=60)
    good = status == 1 and errors.startswith("trace_proxy.py ") and "Connection refused" in errors and errors.count("\n") == 1
    report.check("a proxy without an adapter fails and says why", good, repr((status, errors)))
    report.check("and leaves the trace unchanged", read(trace) == b"as it was")


def tee(report, folder):
    """The tee ends with the status of the adapter."""
    trace, fake = os.path.join(folder, "trace"), [sys.executable, os.path.join(TOP, "tests", "kit", "fake_adapter.py"), "1"]
    requests = io.BytesIO()
    for seq, command in ((1, "initialize"), (2, "disconnect")):
        fake_adapter.send(requests, {"seq": seq, "type": "request", "command": command})
    for adapter, wanted in ((fake, 0), ([*fake, "status=3"], 3), ([*fake, "crashes"], 128 + 11), ([*fake, "ends=initialize"], 0)):
        words = [sys.executable, os.path.join(EXAMPLES, "trace_tee.py"), trace, *adapter]
        ran = subprocess.run(words, input=requests.getvalue(), capture_output=True, timeout=60)
        report.check(f"the tee has the status {wanted}", (ran.returncode, ran.stderr) == (wanted, b""), repr((ran.returncode, ran.stderr)))
        report.check("and has noted what the client sent", read(trace).startswith(b">"))
    write(trace, b"as it was")
    words = [sys.executable, os.path.join(EXAMPLES, "trace_tee.py"), trace, "no_such_adapter"]
    ran = subprocess.run(words, capture_output=True, timeout=60)
    good = ran.returncode == 1 and b"the adapter does not start" in ran.stderr and read(trace) == b"as it was"
    report.check("a tee without an adapter fails and leaves the trace unchanged", good, repr(ran.stderr))


def from_log(script, log, trace, *more):
    words = [sys.executable, os.path.join(EXAMPLES, script), log, trace, *more]
    ran = subprocess.run(words, capture_output=True, text=True, timeout=60)
    return ran.returncode, ran.stdout + ran.stderr


def logs(report, folder):
    """The logs of real adapters give the sessions that the tee has seen beside them."""
    names = {name.rpartition(".")[0] for name in os.listdir(LOGS)} - {"README"}
    report.check("each log is tried", names == set(LOG_ANSWERS), repr(names))
    for name, (script, wanted, exact) in LOG_ANSWERS.items():
        path = os.path.join(folder, name)
        answer = from_log(script, os.path.join(LOGS, name + ".log"), path)
        report.check(f"a trace is made of the log {name}", answer == (0, ""), repr(answer))
        seen = run(["record"], read(os.path.join(LOGS, name + ".trace")))
        status, recording, errors = run(["record"], read(path))
        report.check(f"the trace of {name} is recorded", (status, errors) == (0, b""), repr(errors))
        answer = run(["check"], recording)
        report.check(f"check answers on {name}", answer == (0, wanted, b""), repr(answer))
        normal = run(["normalise"], recording)
        report.check(f"{name} is what the tee saw", normal == run(["normalise"], seen[1]))
        same = (recording == seen[1]) == exact
        report.check(f"{name}: the bytes are those sent, where the log has them", same)


def broken_texts(lldb, dap, debugpy):
    """Texts that are no such log, each with the script that says so and its words."""
    after = {text: text.count(b"\n") + 1 for text in (lldb, debugpy)}
    return (
        ("from_lldb_log.py", b"", "line 1: the log has no message"),
        ("from_lldb_log.py", b"no log\n" + lldb, "line 1: neither a message nor a note"),
        ("from_lldb_log.py", lldb + b"no log\n", f"line {after[lldb]}: neither a message"),
        ("from_lldb_log.py", lldb[:-9], f"line {after[lldb] - 1}: the message is no JSON"),
        ("from_lldb_log.py", lldb[:-1] + b"}\n", f"line {after[lldb] - 1}: something stands"),
        ("from_lldb_log.py", lldb + b"\xff\n", f"line {after[lldb]}: the log is not UTF-8"),
        ("from_lldb_log.py", dap + dap.replace(b"(stdio)", b"(client)"), "a second client"),
        ("from_debugpy_log.py", b"", "line 1: the log has no message of Client[1]"),
        ("from_debugpy_log.py", lldb, "line 1: no whole entry"),
        ("from_debugpy_log.py", debugpy + b"I+0", f"line {after[debugpy]}: no whole entry"),
        ("from_debugpy_log.py", debugpy.replace(b'"seq": 2,', b'"seq" 2,', 1), "is no JSON"),
        ("from_debugpy_log.py", debugpy + b"\xff", f"line {after[debugpy]}: the log is not UTF-8"),
    )


def broken_logs(report, folder):
    """Of a text that is no such log the line is named, and no trace is written or changed."""
    texts = [read(os.path.join(LOGS, name + ".log")) for name in BROKEN]
    log, trace = os.path.join(folder, "a log"), os.path.join(folder, "trace")
    for before in (None, b"as it was"):
        if before is not None:
            write(trace, before)
        for script, text, why in broken_texts(*texts):
            write(log, text)
            status, told = from_log(script, log, trace)
            good = (status, told.startswith(log + ": line "), why in told) == (1, True, True)
            report.check(f"{script} says {why!r}", good, told)
            left = read(trace) if os.path.exists(trace) else None
            report.check(f"{script} leaves the trace at {why!r}", left == before, repr(left))
    report.check("and nothing beside it", sorted(os.listdir(folder)) == ["a log", "trace"])


def clients(report, folder):
    """Of a debugpy log with two clients each can be had."""
    debugpy = read(os.path.join(LOGS, "debugpy-1.6.3.log"))
    log, trace = os.path.join(folder, "log"), os.path.join(folder, "trace")
    other = debugpy.replace(b"Client[1] ", b"Client[2] ").replace(b'"debugpy"', b'"another"')
    write(log, debugpy + other)
    answer = from_log("from_debugpy_log.py", log, trace)
    said = answer[0] == 1 and "the clients 1, 2: say which" in answer[1]
    report.check("of two clients one has to be chosen", said, answer[1])
    made = []
    for client in ("1", "2"):
        answer = from_log("from_debugpy_log.py", log, trace, client)
        report.check(f"a trace is made of client {client}", answer == (0, ""), repr(answer))
        made.append(read(trace))
    write(log, debugpy)
    from_log("from_debugpy_log.py", log, trace)
    report.check("the first client is the log's own", made[0] == read(trace) != made[1])
    answer = from_log("from_debugpy_log.py", log, trace, "3")
    said = answer[0] == 1 and "no message of Client[3]" in answer[1]
    report.check("a client that is not there is told", said, answer[1])


def main():
    report = Report()
    if not report.check("the gate has built the program", os.access(PROGRAM, os.X_OK)):
        return report.close()
    picture(report)
    with tempfile.TemporaryDirectory() as top:
        environment = with_program(top)
        alone = (transcripts, first_look, proxy, addresses, proxy_alone, tee, logs, broken_logs, clients, golden_sessions.rules)
        with_tools = (*golden_sessions.PARTS, recipes.golden_script, recipes.git_recipe, recipes.ci, recipes.ci_with_pytest)
        parts = [(it, ()) for it in alone] + [(it, (environment,)) for it in with_tools]
        for part, arguments in parts:
            folder = os.path.join(top, part.__name__)
            os.makedirs(folder)
            part(report, folder, *arguments)
    return report.close()


if __name__ == "__main__":
    sys.exit(main())
