"""Runs sessions with real adapters ten times each, and compares each run with the session's golden file under the shipped rules.

    python3 tests/real/run.py [--install] [--update] [--times N] PROGRAM [NAME..]

PROGRAM is dapnorm, and NAME a session: debugpy, debugpy-terminal, debugpy-children, lldb, delve, rdbg, emacs. `--install` installs what they need by apt-get.
It installs a package only if what it has is missing, and removes none. `--update` makes the golden files by the first run. What is not installed is named as skipped. The golden files have the version of the
adapter in their names: another version needs its own. `make real` calls this. The traces of runs that are not the same are kept in
bin/real. The last line is 'N passed, M failed': a session passes if each of its runs is the same. The session debugpy-children has three
connections, each with its trace and its golden file. In copies of its recordings an event names a wrong process: each has to differ from
the golden file, and only by the labels of the rules.
"""
import os
import re
import shutil
import subprocess
import sys
import tempfile
import time

import children
import sessions
from sessions import PROGRAMS, REAL, TOP, dapnorm

sys.path.append(os.path.join(TOP, "tests"))
from report import Report

RULES = os.path.join(TOP, "examples", "rules")
GOLDEN = os.path.join(REAL, "golden")
# The programs that are compiled, the files of Emacs, and the traces that are kept.
BUILT = os.path.join(TOP, "bin", "real")


class Session:
    """A session: the files of its rules, what it lacks here, its version, and one run of it, which returns the path of each trace by its part.

    A session of one connection has one part, without a name. `wrong` makes recordings with an error from the traces.
    """

    def __init__(self, name, rules, missing, version, run, wrong=None):
        self.name, self.rules, self.missing, self.version, self.run, self.wrong = name, rules, missing, version, run, wrong

    def golden(self, part):
        return os.path.join(GOLDEN, "-".join(filter(None, (self.name, self.version(), part))) + ".golden")

    def rules_file(self):
        """The rules in one file: those that are shipped, and for Emacs further ones."""
        if len(self.rules) == 1:
            return self.rules[0]
        path = os.path.join(BUILT, f"{self.name}.rules")
        with open(path, "wb") as joined:
            for it in self.rules:
                with open(it, "rb") as file:
                    joined.write(file.read() + b"\n")
        return path


def output_of(*words):
    ran = subprocess.run(words, stdout=subprocess.PIPE, stderr=subprocess.STDOUT, text=True, timeout=60)
    return ran.stdout


def version_in(text):
    """The first two numbers of a version."""
    found = re.search(r"(\d+\.\d+)", text)
    return found[1] if found else "unknown"


def lldb_version():
    """Such as vscode-14.0 or dap-19.1, with the version of the command lldb that belongs to the adapter."""
    name = os.path.basename(sessions.lldb_command())
    lldb = shutil.which(re.sub("-(vscode|dap)", "", name)) or shutil.which("lldb")
    return f"{re.search('vscode|dap', name)[0]}-{version_in(output_of(lldb, '--version')) if lldb else 'unknown'}"


def without(*programs):
    """What is missing of some programs, in words, or nothing."""
    lacking = [name for name, found in programs if not found]
    return f"{', '.join(lacking)} not installed" if lacking else ""


def in_kit(start):
    """A run by the client of the package."""
    def run():
        adapter, steps = start()
        with adapter:
            steps()
        return {"": adapter.trace}
    return run


def emacs_run():
    """Emacs drives debugpy through the tee."""
    number, trace = tempfile.mkstemp(prefix="emacs-", suffix=".trace", dir=os.environ["DAPNORM_TRACES"])
    os.close(number)
    more = {"REAL_PROGRAM": sessions.program("prices.py"), "REAL_TRACE": trace, "REAL_PYTHON": sessions.python_with_debugpy()}
    environment = {**os.environ, **more, "PYTHONPATH": os.path.join(TOP, "python"), "HOME": BUILT}
    words = ["emacs", "--batch", "-l", os.path.join(REAL, "emacs_session.el")]
    ran = subprocess.run(words, env=environment, stdout=subprocess.PIPE, stderr=subprocess.STDOUT, text=True, timeout=120)
    if ran.returncode != 0:
        raise dapnorm.SessionError(f"emacs ends with status {ran.returncode}, the trace is {trace}\n{ran.stdout[-2000:]}")
    return {"": trace}


def has_dap_mode():
    return shutil.which("emacs") and subprocess.run(["emacs", "--batch", "--eval", "(require 'dap-mode)"], capture_output=True).returncode == 0


def lacks_debugpy():
    return without(("debugpy", sessions.python_with_debugpy()))


def debugpy_version():
    return version_in(output_of(sessions.python_with_debugpy(), "-c", "import debugpy; print(debugpy.__version__)"))


def shipped(name):
    return os.path.join(RULES, f"{name}.rules")


SESSIONS = [
    Session("debugpy", [shipped("debugpy")], lacks_debugpy, debugpy_version, in_kit(sessions.debugpy)),
    Session("debugpy-terminal", [shipped("debugpy")], lacks_debugpy, debugpy_version, in_kit(sessions.debugpy_terminal)),
    Session("debugpy-children", [shipped("debugpy")], lacks_debugpy, debugpy_version, children.debugpy_children, children.confused),
    Session(
        "lldb", [shipped("lldb")], lambda: without(("lldb-vscode or lldb-dap", sessions.lldb_command()), ("cc", shutil.which("cc"))),
        lldb_version, in_kit(sessions.lldb),
    ),
    Session(
        "delve", [shipped("delve")], lambda: without(("dlv", shutil.which("dlv")), ("go", shutil.which("go"))),
        lambda: version_in(output_of("dlv", "version")), in_kit(sessions.delve),
    ),
    Session(
        "rdbg", [shipped("rdbg")], lambda: without(("rdbg", sessions.rdbg_command())),
        lambda: version_in(output_of(sessions.rdbg_command(), "--version")), in_kit(sessions.rdbg),
    ),
    Session(
        "emacs", [shipped("debugpy"), os.path.join(REAL, "emacs.rules")],
        lambda: without(("debugpy", sessions.python_with_debugpy()), ("emacs with dap-mode", has_dap_mode())),
        lambda: version_in(output_of("emacs", "--version")), emacs_run,
    ),
]


def has_headers():
    """Whether the C compiler finds the headers of the C library."""
    words = ["cc", "-E", "-x", "c", "-include", "stdio.h", os.devnull]
    return shutil.which("cc") and subprocess.run(words, capture_output=True).returncode == 0


# The packages, in the order in which they are installed, and what finds here what each of them has.
PACKAGES = (
    ("python3-debugpy", sessions.python_with_debugpy), ("lldb", sessions.lldb_command), ("delve", lambda: shutil.which("dlv")),
    ("golang-go", lambda: shutil.which("go")), ("gcc", lambda: shutil.which("cc")), ("libc6-dev", has_headers),
    ("ruby", lambda: shutil.which("ruby")), ("ruby-debug", sessions.rdbg_command),
    ("emacs-nox", lambda: shutil.which("emacs")), ("elpa-dap-mode", has_dap_mode),
)


def install():
    """Installs the packages that this system has and that are missing. A package that could only replace another one is not installed."""
    missing = [package for package, found in PACKAGES if not found()]
    prefix = [] if os.geteuid() == 0 else ["sudo"]
    lacking = [it for it in (*prefix, "apt-get") if shutil.which(it) is None]
    if lacking or not missing:
        print("all that the sessions need is here" if not missing else f"{lacking[0]} is not found: nothing is installed", flush=True)
        return
    print(f"reads the lists of packages, since {', '.join(missing)} may be missing", flush=True)
    subprocess.run([*prefix, "apt-get", "update", "-q"], stdout=subprocess.DEVNULL)
    found_by = dict(PACKAGES)
    for number, package in enumerate(missing, 1):
        if found_by[package]():
            continue  # another package has brought it
        print(f"installs {package} ({number} of {len(missing)})", flush=True)
        words = [*prefix, "apt-get", "install", "-q", "-y", "--no-remove", "--no-install-recommends", package]
        ran = subprocess.run(words, env={**os.environ, "DEBIAN_FRONTEND": "noninteractive"}, capture_output=True, text=True)
        if ran.returncode != 0:
            print(f"{package} is not installed: {(ran.stderr.strip().splitlines() or ['no reason'])[-1]}", flush=True)


def build():
    """Compiles the programs for which there is a compiler."""
    for tool, words in (
        ("cc", ["cc", "-g", "-O0", "-o", os.path.join(BUILT, "prices-c"), "prices.c"]),
        ("go", ["go", "build", "-gcflags", "all=-N -l", "-o", os.path.join(BUILT, "prices-go"), "prices.go"]),
    ):
        if shutil.which(tool):
            environment = {"HOME": BUILT, **os.environ, "GOFLAGS": "-mod=mod", "GOTOOLCHAIN": "local"}
            subprocess.run(words, cwd=PROGRAMS, env=environment, check=True)


def differs(recording, golden, rules, words):
    """Whether a recording differs from a golden file."""
    try:
        dapnorm.golden(recording, golden, rules=rules, words=words)
    except dapnorm.GoldenFailed as error:
        if error.status != 1:
            raise
        return True
    return False


def without_labels(rules, folder):
    """A copy of the rules that hides each id, and whether two ids are the same."""
    path = os.path.join(folder, "without-labels.rules")
    with open(rules, encoding="utf-8") as file, open(path, "w", encoding="utf-8") as copy:
        copy.write(re.sub(r" +as [a-z]+$", "", file.read(), flags=re.MULTILINE))
    return path


def told_of_errors(session, traces, rules, words):
    """What is wrong with the comparisons of copies with an error: one that is not seen, or that is seen without the labels too."""
    told = []
    with tempfile.TemporaryDirectory(dir=BUILT) as folder:
        blind = without_labels(rules, folder)
        for part, recording in session.wrong(traces).items():
            path = os.path.join(folder, f"{part}.rec")
            with open(path, "wb") as file:
                file.write(recording)
            if not differs(path, session.golden(part), rules, words):
                told.append(f"{part}: the error is not seen")
            own = os.path.join(folder, f"{part}.golden")
            dapnorm.golden(traces[part], own, rules=blind, words=words, update=True)
            if differs(path, own, blind, words):
                told.append(f"{part}: the error is seen by rules without labels too")
    return told


def compared(session, rules, words, update):
    """Runs a session once, and compares it with its golden files. Returns whether it is the same, and what is wrong with the copies."""
    traces = session.run()
    lines = [dapnorm.golden(trace, session.golden(part), rules=rules, words=words, update=update) for part, trace in traces.items()]
    told = told_of_errors(session, traces, rules, words) if session.wrong else []
    for trace in traces.values():
        os.remove(trace)
    return update or all(line == "same" for line in lines), told


def tried(report, session, times, update):
    """Runs a session and compares each run with its golden files."""
    missing = session.missing()
    if missing:
        print(f"{session.name}: skipped: {missing}", flush=True)
        return
    words = {REAL: "REAL", BUILT: "BUILT", sessions.python_with_debugpy() or "python3": "PYTHON"}
    name, rules, same, begun, told, unseen = f"{session.name}-{session.version()}", session.rules_file(), 0, time.monotonic(), [], []
    print(f"{session.name}: runs {times} times, each compared with {name}", flush=True)
    for number in range(times):
        try:
            is_same, errors = compared(session, rules, words, update and number == 0)
            same += is_same
            unseen += [f"run {number + 1}: {it}" for it in errors]
        except (dapnorm.SessionError, dapnorm.GoldenFailed) as error:
            told.append(f"run {number + 1}: {error}")
    seconds = (time.monotonic() - begun) / times
    print(f"{name}: {same} of {times} the same, {seconds:.1f} seconds each", flush=True)
    report.check(f"each run of {session.name} is the same", same == times, "\n" + "\n".join(told[:3]))
    if session.wrong:
        report.check(f"each error in a copy of {session.name} is seen by the labels", same and not unseen, "\n" + "\n".join(unseen[:3]))


def main():
    arguments = sys.argv[1:]
    times = int(arguments.pop(arguments.index("--times") + 1)) if "--times" in arguments else 10
    names = [it for it in arguments if not it.startswith("--")]
    if not names or set(arguments) - set(names) - {"--install", "--update", "--times"}:
        sys.exit(__doc__)
    os.environ["DAPNORM"] = os.path.abspath(names.pop(0))
    if "--install" in arguments:
        install()
    unknown = set(names) - {it.name for it in SESSIONS}
    if unknown:
        sys.exit(f"no session is named {', '.join(sorted(unknown))}")
    report = Report()
    shutil.rmtree(BUILT, ignore_errors=True)
    os.makedirs(os.path.join(BUILT, "traces"))
    os.environ["DAPNORM_TRACES"], os.environ["REAL_BUILT"] = os.path.join(BUILT, "traces"), BUILT
    build()
    for session in SESSIONS:
        if not names or session.name in names:
            tried(report, session, times, "--update" in arguments)
    report.check("some session was compared", report.passed + report.failed > 0)
    return report.close()


if __name__ == "__main__":
    sys.exit(main())
