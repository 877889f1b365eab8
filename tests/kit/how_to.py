"""Runs the commands, tests and rules that docs/HOWTO.md shows, each as it is written."""
import os
import re
import shutil
import subprocess
import sys
import tempfile

from tests.kit.examples import EXAMPLES, with_program
from tests.kit.golden_sessions import FAKE, TIMEOUT, SLACK, edit, python_with, write
from tests.report import PROGRAM, TOP, Report

import dapnorm

CAPTURES = os.path.join(EXAMPLES, "captures")
# Two runs of one session with delve.
RUNS = [os.path.join(CAPTURES, f"dlv-l-stopentry.{it}.trace") for it in (3, 5)]
CHILD = 'print(sum([3, 4, 5]))\n'
PARENT = 'import subprocess\nimport sys\nsubprocess.run([sys.executable, "child.py"])\n'
# A client that runs the session of a parent and two children over one port.
CLIENT = """\
import os
import sys

import dapnorm
from children_test import HERE, child_session

PORT = int(sys.argv[1])
with dapnorm.Adapter.connect("127.0.0.1", PORT) as parent:
    parent.request("initialize", adapterID="debugpy")
    launch = parent.send("launch", program=os.path.join(HERE, "parent.py"), cwd=HERE, subProcess=True)
    parent.wait_for("initialized")
    parent.request("configurationDone")
    parent.response(launch)
    for _ in range(2):
        arguments = parent.wait_for("debugpyAttach")
        with dapnorm.Adapter.connect("127.0.0.1", PORT) as child:
            child_session(child, arguments)
    parent.wait_for("terminated")
    parent.request("disconnect")
"""


def blocks(title):
    """The indented blocks of a section."""
    with open(os.path.join(TOP, "docs", "HOWTO.md"), encoding="utf-8") as file:
        section = re.search(rf"^## {title}\n(.*?)(?=^## |\Z)", file.read(), re.MULTILINE | re.DOTALL)[1]
    found = re.findall(r"(?:^ {4}.*\n(?:\n(?= {4}))*)+", section, re.MULTILINE)
    return [re.sub(r"^ {4}", "", it, flags=re.MULTILINE) for it in found]


class Place:
    """A folder in which commands run."""

    def __init__(self, folder, environment):
        self.folder, self.environment = folder, {**environment, "TMPDIR": folder, "ADAPTER_TIMEOUT": str(TIMEOUT + SLACK)}

    def path(self, name):
        return os.path.join(self.folder, name)

    def run(self, command, **more):
        environment = {**self.environment, **more}
        ran = subprocess.run(["sh", "-c", command], cwd=self.folder, env=environment, capture_output=True, text=True, timeout=60)
        return ran.returncode, ran.stdout + ran.stderr

    def repository(self):
        """A repository with the golden file of the first run, as an author has committed it."""
        shutil.copy(RUNS[0], self.path("session.trace"))
        shutil.copy(os.path.join(EXAMPLES, "rules", "delve.rules"), self.folder)
        shutil.copy(self.path("delve.rules"), self.path("my.rules"))
        self.run("dapnorm golden --rules my.rules --update session.golden.yaml session.trace; git init -q . && git add session.golden.yaml")
        self.run("git -c user.name=somebody -c user.email=somebody@example.org commit -qm golden")
        self.run(f"sh {os.path.join(EXAMPLES, 'git_setup.sh')}")


def changed(path):
    """Writes a trace of the second run in which one request has another command."""
    with open(RUNS[1], "rb") as file, open(path, "wb") as other:
        other.write(file.read().replace(b'"stepIn"', b'"stepUp"'))


def part(report, place):
    start, rules, _value = blocks("Compare a part of a session")
    write(place.path("own.rules"), rules)
    write(place.path("some_test.py"), f"ADAPTER = {FAKE + ' 7'!r}\nPROGRAM = {os.path.join(EXAMPLES, 'program.py')!r}\n{start}")
    shutil.copy(os.path.join(EXAMPLES, "session.rules"), place.folder)
    answers = [place.run(f"{sys.executable} -m dapnorm {option} some_test.py") for option in ("--update", "")]
    report.check("the start of a session is compared", answers[0][1].startswith("wrote ") and answers[1] == (0, "same\n"), repr(answers))
    commands = f"dapnorm golden --rules own.rules --update part.golden.yaml {RUNS[0]} && dapnorm golden --rules own.rules part.golden.yaml {RUNS[1]}"
    answer = place.run(commands)
    report.check("a session without some content is compared", answer[1].endswith("\nsame\n"), repr(answer))


def children(report, place):
    """The child session with debugpy, and the handler for `startDebugging` with the fake adapter."""
    test, script = blocks("Record child sessions")
    handler = (
        "import dapnorm\ndef test_handler():\n    started = []\n"
        f"    with dapnorm.Adapter.start({FAKE + ' 7 sends=startDebugging'!r}) as parent:\n"
        '        parent.handlers["startDebugging"] = started.append\n        parent.request("initialize", adapterID="debugpy")\n'
        '        parent.send("launch")\n        parent.wait_for("initialized")\n        parent.request("disconnect")\n    assert len(started) == 1\n'
    )
    write(place.path("handler_test.py"), handler)
    answer = place.run(f"{sys.executable} -m dapnorm handler_test.py")
    report.check("a handler notes startDebugging", answer == (0, "passed\n"), repr(answer))
    python = python_with("debugpy.adapter")
    if python is None:
        print("debugpy is not installed: child sessions are not tried", flush=True)
        return
    shutil.copy(os.path.join(EXAMPLES, "rules", "debugpy.rules"), place.folder)
    for name, text in (("children_test.py", test), ("parent.py", PARENT), ("child.py", CHILD)):
        write(place.path(name), text)
    for option, wanted in (("--update", "wrote "), ("", "same\n"), ("", "same\n")):
        status, output = place.run(f"{sys.executable} -m dapnorm {option} children_test.py", ADAPTER=f"{python} -m debugpy.adapter")
        report.check(f"child sessions are compared {option}", status == 0 and output.startswith(wanted), output)
    made = {it for it in os.listdir(place.folder) if ".golden" in it}
    report.check("each session has its golden file", made == {"parent.golden.yaml", "child.golden.yaml"}, repr(made))
    recorded_children(report, place, python, script)


def recorded_children(report, place, python, script):
    """The script that records two children by the proxy, in the folder of their test, with ports that are free."""
    write(place.path("parent.py"), PARENT + PARENT.splitlines()[-1] + "\n")
    write(place.path("client.py"), CLIENT)
    client = os.path.join(place.environment["PATH"].split(os.pathsep)[0], "my-client")
    write(client, f'#!/bin/sh\nexec {sys.executable} client.py "$1"\n')
    os.chmod(client, 0o755)
    for text, here in (("4711", str(dapnorm.free_port())), ("4712", str(dapnorm.free_port())), ("python3 -m debugpy", f"{python} -m debugpy")):
        script = script.replace(text, here)
    write(place.path("compare.sh"), script)
    place.run("rm *.golden.yaml; git init -q .")
    status, output = place.run("sh compare.sh")
    report.check("three sessions are recorded", (status, output.count("wrote ")) == (0, 3), output)
    place.run("git add *.golden.yaml && git -c user.name=somebody -c user.email=somebody@example.org commit -qm golden")
    status, output = place.run("sh compare.sh")
    report.check("a further run is the same", (status, output.count("unchanged\n")) == (0, 3), output)
    edit(place.path("child.py"), ("5]", "6]"))
    status, output = place.run("sh compare.sh")
    report.check("a changed child is a difference", status == 1 and "+" in output, output)


def review(report, place):
    """The difference of two golden files, one of a session with a request more: with the fake adapter, and with debugpy, if some Python has it."""
    [shown] = blocks("Review a change of a session")
    record, (head, *lines) = " @@ adapter: event stopped", shown.splitlines()
    before = '        frame = adapter.request("stackTrace"'
    python = python_with("debugpy.adapter")
    adapters = [("fake", FAKE + " 7"), *([("debugpy", f"{python} -m debugpy.adapter")] if python else [])]
    for name, adapter in adapters:
        os.makedirs(place.path(name))
        for it in ("golden_test.py", "program.py", "session.rules"):
            shutil.copy(os.path.join(EXAMPLES, it), place.path(name))
        there = Place(place.path(name), {**place.environment, "ADAPTER": adapter})
        make = f"{sys.executable} -m dapnorm --update golden_test.py"
        status, output = there.run(f"git init -q . && sh {os.path.join(EXAMPLES, 'git_setup.sh')} && {make} && git add .")
        report.check(f"a golden file is made, with {name}", status == 0, output)
        edit(there.path("golden_test.py"), (before, f'        adapter.request("threads")\n{before}'))
        status, output = there.run(f"{make} && git diff session.golden.yaml")
        hunks = re.findall(r"^@@ .*\n(?:[-+ ].*\n)+", output, re.MULTILINE)
        if not report.check(f"a request more is one hunk, with {name}", status == 0 and len(hunks) == 1, output):
            continue
        first, *changes = hunks[0].splitlines()
        report.check(f"the hunk names the record before it, with {name}", first.endswith(record) and head.endswith(record), output)
        # The lines before the change are those of debugpy.
        start = 0 if name == "debugpy" else 3
        report.check(f"it has the lines that are shown, with {name}", changes[start:] == lines[start:], output)


def upgrade(report, place):
    look, accept = blocks("Review a golden file after an upgrade of the adapter")
    place.repository()
    changed(place.path("later.trace"))
    status, output = place.run(look)
    report.check("all differences are shown", status == 1 and '-/30 > request "stepUp"\n' in output, output)
    status, output = place.run(accept)
    report.check("the new session is accepted", status == 0 and "wrote session.golden.yaml" in output and "\n+- client: request stepUp\n" in output, output)
    shutil.copy(place.path("later.rec"), place.path("again.rec"))
    answer = place.run("dapnorm suggest --rules delve.rules later.rec again.rec")
    report.check("suggest compares two records of one scenario", answer == (0, "# with these rules: same\n"), repr(answer))


def without_python(report, place):
    script, own = blocks("Work without Python")
    place.repository()
    write(place.path("compare.sh"), script)
    client = os.path.join(place.environment["PATH"].split(os.pathsep)[0], "my-client")
    write(client, '#!/bin/sh\ncp "$RUN" "$1"\n')
    os.chmod(client, 0o755)
    answer = place.run("sh compare.sh", RUN=RUNS[1])
    report.check("the script accepts a run with other ids", answer == (0, "unchanged\n"), repr(answer))
    changed(place.path("changed.trace"))
    status, output = place.run("sh compare.sh", RUN="changed.trace")
    report.check("and shows a difference", status == 1 and "\n+- client: request stepUp\n" in output, output)
    place.run("git checkout -q session.golden.yaml")
    status, output = place.run("sh compare.sh; status=$?; git diff --quiet && exit $status", RUN=os.path.join(EXAMPLES, "program.py"))
    report.check("a step that fails leaves the golden file unchanged", status == 2, output)
    status, output = place.run("rm session.trace session.golden.yaml\n" + own)
    report.check("a trace that the client writes is read", (status, output) == (0, "wrote session.golden.yaml (1 record)\n"), output)


def violations(report, place):
    [look] = blocks("Test an adapter that violates the specification")
    messages = [(">", '{"seq":1,"type":"request","command":"initialize","arguments":{"adapterID":"x"}}')]
    messages += [("<", '{"seq":1,"type":"response","request_seq":1,"command":"initialize","success":true}'), ("<", '{"seq":2,"type":"event","event":"stopped","body":{}}')]
    frames = [(marker, f"Content-Length: {len(it)}\r\n\r\n{it}".encode()) for marker, it in messages]
    with open(place.path("session.trace"), "wb") as file:
        file.write(b"".join(b"%s%d\n%s" % (marker.encode(), len(it), it) for marker, it in frames))
    output = place.run(look)[1]
    told = ("body.reason is missing; the profile requires a string there", "89 event stopped body.reason needed string\n", "3 < fault: Missing row 89\n")
    report.check("the error, its row and all others are shown", all(it in output for it in told), output)
    write(place.path("drop.rules"), "drop event stopped\n")
    answer = place.run("dapnorm golden --rules drop.rules --update session.golden.yaml session.trace")
    report.check("a rule removes the event", answer == (0, "wrote session.golden.yaml (2 records)\n"), repr(answer))


def installed(report, _place):
    """The script that a CI job runs is one that `make install` puts there."""
    [job] = blocks("Install the packages in a CI job")
    said = subprocess.run(["make", "-C", TOP, "-n", "install", f"PROGRAM={PROGRAM}", "PREFIX=/usr"], capture_output=True, text=True, timeout=60).stdout
    [script] = re.findall(r"/usr/(share/dapnorm/\S+\.sh)", job)
    report.check("the CI job runs an installed script", script.removeprefix("share/dapnorm/") in said and "share/dapnorm" in said, script)


PARTS = (part, children, review, upgrade, without_python, violations, installed)


def main():
    report = Report()
    if not report.check("the gate has built the program", os.access(PROGRAM, os.X_OK)):
        return report.close()
    with tempfile.TemporaryDirectory() as top:
        environment = with_program(top)
        for it in PARTS:
            folder = os.path.join(top, it.__name__)
            os.makedirs(folder)
            it(report, Place(folder, environment))
    return report.close()


if __name__ == "__main__":
    sys.exit(main())
