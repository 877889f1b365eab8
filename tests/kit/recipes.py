"""Runs the shell scripts of examples/: golden.sh, git_setup.sh in a scratch repository, and ci.sh. `tests/kit/examples.py` calls it."""
import os
import re
import shutil
import subprocess
import sys

from tests.kit.golden_sessions import EXAMPLES, FAKE, PYTEST, Author, read
from tests.report import PROGRAM, run

LOGS = os.path.join(EXAMPLES, "logs")
FRACTION = b'{"seq":1,"type":"event","event":"output","body":{"share":0.5}}'


def write(path, text):
    with open(path, "wb") as file:
        file.write(text)


def of_recording(recording):
    """A trace with the records of a recording, a piece for each."""
    pieces, at = [], 0
    while at < len(recording):
        begin = recording.index(b"\r\n\r\n", at) + 4
        end = begin + int(re.search(rb"\d+", recording[at:begin])[0])
        pieces.append(b"%s%d\n%s" % (recording[at:at + 1], end - at - 1, recording[at + 1:end]))
        at = end + 1
    return b"".join(pieces)


def golden_script(report, folder, environment):
    """examples/golden.sh with a golden file of each form."""
    for form in (".golden.yaml", ".golden"):
        place = os.path.join(folder, form[1:])
        os.makedirs(place)
        golden_script_of(form, report, place, environment)


def golden_script_of(form, report, folder, environment):
    """examples/golden.sh: whatever fails, no wrong golden file is written, and one that is there stays unchanged."""
    good = of_recording(read(os.path.join(EXAMPLES, "captures", "dlv-l-stopentry.5.rec")))
    other = of_recording(read(os.path.join(EXAMPLES, "captures", "dlv-l-stopentry.3.rec")))
    text = read(os.path.join(EXAMPLES, f"dlv-stopentry{form}"))
    refused = good + b"<%d\nContent-Length: %d\r\n\r\n%s" % (len(FRACTION) + 22, len(FRACTION), FRACTION)
    open_requests = read(os.path.join(LOGS, "lldb-dap-22.trace"))
    write(os.path.join(folder, "bad.rules"), b"blank everything\n")
    path, trace = os.path.join(folder, f"session{form}"), os.path.join(folder, "session.trace")

    def tried(content, *options, update=True):
        if content is None:
            if os.path.exists(trace):
                os.remove(trace)
        else:
            write(trace, content)
        words = ["sh", os.path.join(EXAMPLES, "golden.sh"), trace, path, *options]
        more = {"UPDATE_GOLDEN": "1"} if update else {}
        ran = subprocess.run(words, cwd=folder, env={**environment, **more}, capture_output=True, text=True, timeout=60)
        return ran.returncode, ran.stdout + ran.stderr

    failures = (
        ("refused", refused, 2, ()), ("cut", good[:-1], 2, ()), ("empty", b"", 2, ()), ("missing", None, 4, ()),
        ("without a response", open_requests, 2, ()),
        ("to be masked without rules", good, 4, ("--rules", "no.rules")), ("to be masked by bad rules", good, 2, ("--rules", "bad.rules")),
    )
    for before in (None, text):
        for name, content, wanted, options in failures:
            status, output = tried(content, *options)
            good_line = status == wanted and output.startswith("dapnorm: ")
            report.check(f"golden.sh fails with status {wanted} if the trace is {name}", good_line, output)
            there = read(path) if os.path.exists(path) else None
            report.check("and leaves " + ("no golden file" if before is None else "the golden file unchanged"), there == before)
        status, output = tried(good, update=False)
        if before is None:
            report.check("golden.sh fails without a golden file", status == 4 and path in output and not os.path.exists(path), output)
            status, output = tried(good)
            report.check("golden.sh writes the golden file", status == 0 and output.startswith("wrote ") and read(path) == text, output)
        else:
            report.check("golden.sh says that a session is the same", (status, output) == (0, "same\n"), output)
            report.check("also of a run with other numbers", tried(other, update=False) == (0, "same\n"))
    status, output = tried(good.replace(b'"command":"stepIn"', b'"command":"stepUp"'), update=False)
    report.check("golden.sh shows a difference", status == 1 and output.startswith("differ 30\n"), output)
    left = sorted(os.listdir(folder))
    report.check("and nothing else is left", left == ["bad.rules", f"session{form}", "session.trace"], repr(left))
    words = [shutil.which("sh"), os.path.join(EXAMPLES, "golden.sh"), trace, path]
    ran = subprocess.run(words, env={**environment, "PATH": folder}, capture_output=True, text=True, timeout=60)
    report.check("golden.sh says that dapnorm is missing", ran.returncode == 127 and "dapnorm is not on PATH" in ran.stderr, ran.stderr)


def git(folder, environment, *words):
    identity = ["-c", "user.name=somebody", "-c", "user.email=somebody@example.org", "-c", "init.defaultBranch=main"]
    return subprocess.run(["git", *identity, *words], cwd=folder, env=environment, capture_output=True, text=True, timeout=60)


def full_show(folder, environment):
    """An environment in which `dapnorm show --full` prints each member on a line of its own."""
    script = os.path.join(folder, "dapnorm")
    write(script, f"""#!/bin/sh
if [ "$1 $2" = "show --full" ]; then {PROGRAM} show < "$3" && sed 's/,"/\\n,"/g' "$3"; else exec {PROGRAM} "$@"; fi
""".encode())
    os.chmod(script, 0o755)
    return {**environment, "PATH": folder + os.pathsep + environment["PATH"]}


def git_recipe(report, folder, environment):
    """In a scratch repository that would change line ends, golden files stay as they are and their differences read well."""
    repository, full = os.path.join(folder, "repository"), os.path.join(folder, "full")
    os.makedirs(repository)
    os.makedirs(full)
    git(repository, environment, "init", "-q")
    git(repository, environment, "config", "core.autocrlf", "input")
    for turn in (1, 2):
        words = ["sh", os.path.join(EXAMPLES, "git_setup.sh")]
        ran = subprocess.run(words, cwd=repository, env=environment, capture_output=True, text=True, timeout=60)
        report.check(f"the git recipe runs, turn {turn}", ran.returncode == 0, ran.stderr)
    attributes = read(os.path.join(repository, ".gitattributes"))
    wanted = b"*.golden.yaml text eol=lf diff=dapnorm-yaml\n*.golden -text diff=dapnorm\n"
    report.check("it writes two lines of attributes", attributes == wanted, repr(attributes))
    path = os.path.join(repository, "a session.golden")
    text = read(os.path.join(EXAMPLES, "dlv-stopentry.golden"))
    write(path, text)
    git(repository, environment, "add", "-A")
    ran = git(repository, environment, "commit", "-qm", "golden")
    report.check("a golden file is committed", ran.returncode == 0, ran.stderr)
    os.remove(path)
    git(repository, environment, "checkout", "--", "a session.golden")
    report.check("git keeps its bytes", read(path) == text)
    write(path, text.replace(b'"command":"stepIn"', b'"command":"stepUp"'))
    for name, around in (("the program", environment), ("a program with show --full", full_show(full, environment))):
        lines = git(repository, around, "diff").stdout.splitlines()
        good = '-30 > request "stepIn" seq=12' in lines and '+30 > request "stepUp" seq=12' in lines
        report.check(f"the difference is in lines of show, with {name}", good, repr(lines))
    hidden = text.replace(b'"reason":"entry"', b'"reason":"pause"', 1)
    write(path, hidden)
    changed = [line for line in git(repository, environment, "diff").stdout.splitlines()[4:] if line[:1] in "+-"]
    report.check("a member that show leaves out is a difference too", hidden != text and len(changed) >= 2, repr(changed))
    lines = git(repository, full_show(full, environment), "diff").stdout.splitlines()
    report.check("and --full shows it", any(line.startswith("+") and '"reason":"pause"' in line for line in lines), repr(lines))
    write(path, b"no recording\n")
    ran = git(repository, environment, "diff")
    report.check("a file that is refused is shown as it is", ran.returncode == 0 and "+no recording" in ran.stdout.splitlines(), ran.stderr)
    git_of_transcripts(report, repository, environment)


def git_of_transcripts(report, repository, environment):
    """In the same repository, transcripts keep their line ends, and each difference names its record."""
    path = os.path.join(repository, "a session.golden.yaml")
    text = read(os.path.join(EXAMPLES, "dlv-stopentry.golden.yaml"))
    write(path, text)
    git(repository, environment, "add", "-A")
    git(repository, environment, "commit", "-qm", "transcript")
    git(repository, environment, "config", "core.autocrlf", "true")
    os.remove(path)
    git(repository, environment, "checkout", "--", "a session.golden.yaml")
    report.check("git keeps the line ends of a transcript", read(path) == text)
    write(path, text.replace(b'reason: "entry"', b'reason: "pause"'))
    hunks = re.findall(r"^@@ .* @@ (.*)$", git(repository, environment, "diff", "-U0").stdout, re.MULTILINE)
    report.check("a difference of transcripts names its record", hunks == ["adapter: event stopped"], repr(hunks))
    attributes = os.path.join(repository, ".gitattributes")
    write(attributes, b"*.png binary")
    subprocess.run(["sh", os.path.join(EXAMPLES, "git_setup.sh")], cwd=repository, env=environment, check=True, timeout=60)
    lines = read(attributes).splitlines()
    report.check("a last line of attributes without LF is kept", len(lines) == 3 and lines[0] == b"*.png binary", repr(lines))


# A pytest for machines without one. It runs each file by itself; a file with SKIP in it is skipped.
FAKE_PYTEST = b"""import subprocess, sys
paths = [it for it in sys.argv[1:] if not it.startswith("-")]
counts = {"passed": 0, "failed": 0, "skipped": 0}
for path in paths:
    with open(path) as file:
        skipped = "SKIP" in file.read()
    counts["skipped" if skipped else "failed" if subprocess.run([sys.executable, path]).returncode else "passed"] += 1
print(", ".join(f"{count} {name}" for name, count in counts.items() if count) + " in 0.01s")
sys.exit(1 if counts["failed"] else 0)
"""


def with_python(folder, environment, pytest):
    """An environment in which python3 is this one, with a fake pytest or without any."""
    for name in ("bin", "pytest"):
        os.makedirs(os.path.join(folder, name))
    write(os.path.join(folder, "bin", "python3"), f'#!/bin/sh\nexec "{sys.executable}" "$@"\n'.encode())
    os.chmod(os.path.join(folder, "bin", "python3"), 0o755)
    write(os.path.join(folder, "pytest", "__init__.py"), b"" if pytest else b"raise ImportError('there is no pytest')\n")
    write(os.path.join(folder, "pytest", "__main__.py"), FAKE_PYTEST)
    places = os.pathsep.join([folder, environment["PYTHONPATH"]])
    return {**environment, "PATH": os.path.join(folder, "bin") + os.pathsep + environment["PATH"], "PYTHONPATH": places}


def ci(report, folder, environment):
    """examples/ci.sh passes only if it has compared something, and says what."""
    good, without = (with_python(os.path.join(folder, name), environment, name == "good") for name in ("good", "without"))
    tests = os.path.join(folder, "the tests")
    os.makedirs(tests)
    fake = f"{FAKE} 7"

    def tried(wanted, word, around=good, options=(), **more):
        words = [shutil.which("sh"), os.path.join(EXAMPLES, "ci.sh"), tests, *options]
        ran = subprocess.run(words, cwd=folder, env={"ADAPTER": fake, **around, **more}, capture_output=True, text=True, timeout=120)
        output = ran.stdout + ran.stderr
        report.check(f"the CI recipe says {word!r}", ran.returncode == wanted and word in output, repr((ran.returncode, output)))
        return output

    tried(1, f"no golden file below {tests}: it looks for files *.golden.yaml and *.golden\n")
    author = Author(tests, good)
    author.update(fake)
    script = read(author.script)
    os.remove(author.script)
    tried(1, "the 1 golden files:\n  it looks for golden_test.py, *_golden_test.py and test_*golden*.py\n")
    write(author.script, script)
    tried(1, "python3 has no pytest", without)
    tried(1, "dapnorm is not on PATH", PATH=tests)
    tried(0, "1 golden files are in order\nsame\n1 passed in 0.01s\n1 files of golden tests pass\n")
    report.check("the CI recipe leaves no trace of tests that pass", not os.path.exists(os.path.join(folder, "dapnorm-traces")))
    text = read(author.golden)
    output = tried(1, "a golden test fails", ADAPTER=f"{FAKE} 7 skips=exited", UPDATE_GOLDEN="1")
    kept = os.listdir(os.path.join(folder, "dapnorm-traces"))
    good = sorted(it.rpartition(".")[2] for it in kept) == ["rec", "trace"] and f"the traces are kept in {folder}/dapnorm-traces\n" in output
    report.check("the CI recipe keeps the trace of a test that fails", good, repr((kept, output)))
    tried(1, "the traces are kept in ", ADAPTER=f"{FAKE} 7 dies=scopes", DAPNORM_TRACES=os.path.join(folder, "my traces"))
    report.check("in the folder that DAPNORM_TRACES names", len(os.listdir(os.path.join(folder, "my traces"))) == 2)
    report.check("the CI recipe changes no golden file", read(author.golden) == text)
    write(author.script, b"# SKIP\n")
    tried(1, "no golden test passed")
    write(author.script, script)
    other = os.path.join(tests, "other_golden_test.py")
    write(other, b"# SKIP\n")
    write(os.path.join(tests, "another.golden.yaml"), text)
    tried(0, "2 files of golden tests pass\n1 golden tests were skipped\n")
    output = tried(0, "another.golden.yaml: compared by no test\n")
    report.check("it names golden files that no test compares, and no others", output.count("compared by no test") == 1, output)
    os.remove(other)
    os.remove(os.path.join(tests, "another.golden.yaml"))
    extra = os.path.join(tests, "a session.golden")
    raw = read(os.path.join(EXAMPLES, "captures", "dlv-l-stopentry.5.rec"))
    stops = run(["normalise", "--per-stop"], read(os.path.join(EXAMPLES, "captures", "debugpy-l-stopentry.1.rec")))[1]
    opened = run(["normalise"], run(["record"], read(os.path.join(LOGS, "lldb-dap-22.trace")))[1])[1]
    rows = (
        (read(os.path.join(EXAMPLES, "dlv-stopentry.golden")), 0, "2 golden files are in order"), (stops, 0, "2 golden files are in order"),
        (raw, 1, "not in normal form"), (stops[:-1], 1, "refused"), (b"<", 1, "refused"), (b"", 1, "refused"), (opened, 1, "refused"),
    )
    for given, status, word in rows:
        write(extra, given)
        tried(status, word)
    write(extra, opened)
    tried(0, "2 golden files are in order", options=["--open"])
    os.remove(extra)
    extra += ".yaml"
    frames, transcript = (read(os.path.join(EXAMPLES, f"dlv-stopentry{it}")) for it in (".golden", ".golden.yaml"))
    rows = (
        (transcript, 0, "2 golden files are in order"), (frames, 1, "not in normal form"), (b"", 1, "refused"),
        (transcript + b"<<<<<<< ours\n", 1, f"line {transcript.count(10) + 1}: BadLine"), (transcript[:-1], 1, "refused"),
    )
    for given, status, word in rows:
        write(extra, given)
        tried(status, word)


def ci_with_pytest(report, folder, environment):
    """examples/ci.sh with pytest itself, if some Python here has it: a skipped test is named with its reason, and a failure keeps its trace."""
    if PYTEST is None:
        print("pytest is not installed: ci.sh is tried with a stand-in for it only", flush=True)
        return
    os.makedirs(os.path.join(folder, "bin"))
    os.symlink(PYTEST, os.path.join(folder, "bin", "python3"))
    around = {**environment, "PATH": os.path.join(folder, "bin") + os.pathsep + environment["PATH"]}
    author = Author(os.path.join(folder, "tests"), around)
    author.update(f"{FAKE} 7")
    write(os.path.join(author.folder, "other_golden_test.py"), b"import pytest\ndef test_other():\n    pytest.skip('no such adapter')\n")
    for faults, wanted, words in (("", 0, ("SKIPPED [1]", "no such adapter", "1 golden tests were skipped")), (" moves", 1, ("a golden test fails", "the traces are kept in"))):
        command = [shutil.which("sh"), os.path.join(EXAMPLES, "ci.sh"), author.folder]
        ran = subprocess.run(command, cwd=folder, env={**around, "ADAPTER": f"{FAKE} 7{faults}"}, capture_output=True, text=True, timeout=120)
        output = ran.stdout + ran.stderr
        report.check(f"the CI recipe says {words} with pytest", ran.returncode == wanted and all(it in output for it in words), output)
