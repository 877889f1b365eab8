"""Runs `dapnorm golden` on the worked sessions and on files that it cannot read or write, and ends it at each of its system calls."""
import os
import re
import stat
import subprocess
import sys
import tempfile

from tests.program.faulty import build_shim, side_by_side
from tests.report import PROGRAM, Report, first_line
from tests.program.worked_runs import (
    BEGUN, COMPARED, CONFIGURED, DIFFERENCES, FILLED, FRAME, INITIALIZE, LAUNCH, NEW_FRAME, NORMAL_CONFIGURED, NORMAL_STOPS, OUTPUT, PER_STOP,
    REFUSED_BYTES, REFUSED_LINES, REFUSED_RULES, SESSIONS, STOPPED, TRACES, frame, recording, refusal,
)

SAME, UNCHANGED = (0, b"same\n"), (0, b"unchanged\n")
NOT_NORMAL = b"the session is the same, but the golden file is not in normal form: --update rewrites it\n"
CONFIGURATION = recording(CONFIGURED)
NORMAL = recording(NORMAL_CONFIGURED)
# An old golden file: another recording.
OLD = recording(BEGUN)


class Folder:
    """A folder with files, in which the program runs."""

    def __init__(self, **files):
        self.kept = tempfile.TemporaryDirectory()
        self.path = self.kept.name
        for name, content in files.items():
            self.write(name, content)

    def __enter__(self):
        return self

    def __exit__(self, *_):
        self.kept.cleanup()

    def at(self, name):
        return os.path.join(self.path, name)

    def write(self, name, content):
        with open(self.at(name), "wb") as file:
            file.write(content)

    def read(self, name):
        try:
            with open(self.at(name), "rb") as file:
                return file.read()
        except FileNotFoundError:
            return None

    def names(self):
        return sorted(os.listdir(self.path))

    def run(self, *words, given=b"", **environment):
        """The status, the output and the first line of the errors. Each later line has to begin with two spaces."""
        ran = subprocess.run(["dapnorm", *words], executable=PROGRAM, input=given, capture_output=True, cwd=self.path, timeout=120, env=environment)
        return ran.returncode, ran.stdout, first_line(ran.stderr)


def golden_refusal(text):
    return refusal(f"golden: {text}")


def wrote(lines, name="g"):
    return 0, f"wrote {name} ({len(lines)} record{'s' if len(lines) != 1 else ''})\n".encode(), b""


def trace_of(lines, size):
    """A trace in which each side's bytes come in pieces of at most this size."""
    pieces = []
    for line in lines:
        content = frame(line[1:])
        pieces += [(line[:1], content[at : at + size]) for at in range(0, len(content), size)]
    return b"".join(b"%s%d\n%s" % (side.encode(), len(piece), piece) for side, piece in pieces)


def sessions(report):
    for name, (lines, normal, is_open) in SESSIONS.items():
        if not lines:
            continue
        given, text = recording(lines), recording(normal)
        inputs = {"recording": given, "trace in frames": trace_of(lines, 1 << 20), "trace in pieces": trace_of(lines, 7)}
        words = ["--open"] if any(is_open) else []
        for form, content in inputs.items():
            with Folder(session=content) as folder:
                report.check(f"a golden file of {name}, {form}", folder.run("golden", *words, "--update", "g", "session") == wrote(lines))
                report.check(f"it is the normal form of {name}, {form}", folder.read("g") == text)
                report.check(f"{name}, {form}, is held to it", folder.run("golden", *words, "g", "session") == (*SAME, b""))
                report.check(f"{name}, {form}, from standard input", folder.run("golden", *words, "g", given=content) == (*SAME, b""))
                before = os.stat(folder.at("g"))
                report.check(f"{name}, {form}, changes nothing", folder.run("golden", *words, "--update", "g", "-", given=content) == (*UNCHANGED, b""))
                after = os.stat(folder.at("g"))
                kept = (after.st_ino, after.st_mtime_ns) == (before.st_ino, before.st_mtime_ns)
                report.check(f"{name}, {form}, does not write its golden file again", kept)
                report.check(f"no other file is left by {name}, {form}", folder.names() == ["g", "session"])
        if any(is_open):
            with Folder(session=given, g=OLD) as folder:
                answer = (2, b"", golden_refusal("incomplete: {} client, {} adapter".format(*is_open)))
                report.check(f"{name} has open requests", folder.run("golden", "--update", "g", "session") == answer)
                report.check(f"{name} with open requests writes nothing", folder.read("g") == OLD)


def per_stop(report):
    for name, normal in PER_STOP.items():
        with Folder(session=recording(SESSIONS[name][0])) as folder:
            folder.run("golden", "--per-stop", "--update", "g", "session")
            report.check(f"a golden file of {name} with --per-stop", folder.read("g") == recording(normal))
            report.check(f"{name} is held to it with --per-stop", folder.run("golden", "--per-stop", "g", "session") == (*SAME, b""))
    with Folder(session=recording(NEW_FRAME), g=recording([*NORMAL_STOPS, FRAME % (2, 3, 5)])) as folder:
        lines = b'differ 8\n< response "stackTrace"\nA body.stackFrames[0].id 2\nB body.stackFrames[0].id 1\n'
        status, output, _ = folder.run("golden", "--per-stop", "g", "session")
        report.check("a golden file without --per-stop has another form", status == 1 and output in (lines, NOT_NORMAL), repr(output))


def refusals(report):
    """A session that is refused leaves the golden file as it was, and makes none."""
    cases = {name: (recording([*lines, line]), told) for name, (lines, line, told) in REFUSED_LINES.items()}
    cases.update({name: (recording(lines) + rest, told) for name, (lines, rest, told) in REFUSED_BYTES.items()})
    cases.update({f"the trace {name}": (given, told) for name, (given, _, told) in TRACES.items() if told and given[1:2].isdigit()})
    cases.update({"an empty input": (b"", "no records"), "a trace without frames": (b">0\n", "no records"), "text": (b"hello\n", "record 1: BadMarker")})
    for name, (given, told) in cases.items():
        for words in ([], ["--update"]):
            for old in (None, OLD):
                with Folder(session=given, **({} if old is None else {"g": old})) as folder:
                    answer = folder.run("golden", *words, "g", "session")
                    report.check(f"golden {words} of {name} is refused", answer == (2, b"", golden_refusal(told)), repr(answer))
                    report.check(f"golden {words} of {name} leaves the golden file", folder.read("g") == old and len(folder.names()) == 1 + (old is not None))


def differences(report):
    for name, (a, b, (status, _, _)) in COMPARED.items():
        if not a or not b or status == 2:
            continue
        with Folder(a=a, b=b) as folder:
            made = folder.run("golden", "--open", "--update", "g", "a")
            wanted = (*SAME, b"") if status == 0 else (1, DIFFERENCES[name], b"")
            if name == "a fault behind a difference":
                wanted = (2, b"", golden_refusal("record 5: BadMarker"))
            answer = folder.run("golden", "--open", "g", "b")
            report.check(f"golden of {name}", made[0] == 0 and answer == wanted, repr((made, answer)))
            report.check(f"golden of {name} writes nothing without --update", folder.read("g") == subprocess.run(
                [PROGRAM, "normalise"], input=a, capture_output=True, check=True).stdout)
    with Folder(session=CONFIGURATION, g=CONFIGURATION) as folder:
        answer = folder.run("golden", "g", "session")
        report.check("a golden file that is not in normal form", answer == (1, NOT_NORMAL, b""), repr(answer))
        report.check("--update brings it to that form", folder.run("golden", "--update", "g", "session") == wrote(CONFIGURED) and folder.read("g") == NORMAL)
    for name, (lines, rest, told) in REFUSED_BYTES.items():
        with Folder(session=CONFIGURATION, g=recording(lines) + rest) as folder:
            status, output, errors = folder.run("golden", "g", "session")
            is_told = (status, errors) == (2, golden_refusal(f"g: {told}")) or (status == 1 and output.startswith(b"differ "))
            report.check(f"a golden file with {name}", is_told, repr((status, output, errors)))
            is_golden = re.match(b"[<>]content-", folder.read("g"), re.IGNORECASE) is not None
            refused = (2, b"", golden_refusal("g: not replaced, since it is not a golden file: remove it first"))
            answer = folder.run("golden", "--update", "g", "session")
            report.check(f"--update replaces a golden file with {name} if it is a recording", answer == (wrote(CONFIGURED) if is_golden else refused), repr(answer))


def rules(report):
    blank = b"blank event stopped body.reason\nblank request launch arguments.x\n"
    session = [*BEGUN, LAUNCH % "0.5", STOPPED]
    normal = recording([INITIALIZE, FILLED, LAUNCH % "0", STOPPED.replace("step", "")])
    with Folder(session=recording(session), rules=blank, bad=b"blank event stopped\n", drop=b"drop event *\n") as folder:
        made = folder.run("golden", "--open", "--rules", "rules", "--update", "g", "session")
        report.check("a golden file by rules", made == wrote(session) and folder.read("g") == normal, repr(made))
        report.check("the session is held to it by rules", folder.run("golden", "--open", "--rules", "rules", "g", "session") == (*SAME, b""))
        answer = folder.run("golden", "--open", "g", "session")
        report.check("without the rules it is refused", answer == (2, b"", golden_refusal("record 3: Fraction")), repr(answer))
        answer = folder.run("golden", "--rules", "rules", "g", "session")
        report.check("an open request after the rules", answer == (2, b"", golden_refusal("after the rules: incomplete: 1 client, 0 adapter")), repr(answer))
        refused = [("bad", "rules: line 1: BadRule"), ("none", "rules: read fault")]
        for words, told in [(["--rules", name], told) for name, told in refused]:
            status, output, errors = folder.run("golden", "--open", *words, "--update", "g", "session")
            wanted = (4 if "fault" in told else 2, b"", refusal(told))
            report.check(f"golden {words}", (status, output, errors) == wanted and folder.read("g") == normal, repr((status, output, errors)))
    with Folder(session=recording([OUTPUT] * 2), drop=b"drop event *\n") as folder:
        answer = folder.run("golden", "--rules", "drop", "--update", "g", "session")
        report.check("rules that leave nothing", answer == (2, b"", golden_refusal("no records")) and folder.read("g") is None, repr(answer))
    for name, (text, told) in REFUSED_RULES.items():
        with Folder(session=CONFIGURATION, rules=text) as folder:
            answer = folder.run("golden", "--rules", "rules", "--update", "g", "session")
            report.check(f"rules with {name}", answer == (2, b"", refusal(f"rules: {told}")) and folder.read("g") is None, repr(answer))


def links_and_modes(report):
    with Folder(session=CONFIGURATION) as folder:
        os.mkdir(folder.at("away"))
        os.symlink("away/target", folder.at("g"))
        report.check("a link to a file that does not exist", folder.run("golden", "--update", "g", "session") == wrote(CONFIGURED))
        report.check("the link stays, and its target is made", os.path.islink(folder.at("g")) and folder.read("away/target") == NORMAL)
        folder.write("away/target", OLD)
        os.chmod(folder.at("away/target"), 0o640)
        report.check("a link to a file", folder.run("golden", "--update", "g", "session") == wrote(CONFIGURED))
        mode = stat.S_IMODE(os.stat(folder.at("away/target")).st_mode)
        report.check("its target is replaced, with its mode", folder.read("g") == NORMAL and os.path.islink(folder.at("g")) and mode == 0o640, oct(mode))
        report.check("no temporary file is left", sorted(os.listdir(folder.at("away"))) == ["target"])
        os.unlink(folder.at("away/target"))
        ran = subprocess.run(["sh", "-c", 'umask 027; exec "$0" golden --update g session', PROGRAM], cwd=folder.path, capture_output=True)
        mode = stat.S_IMODE(os.stat(folder.at("away/target")).st_mode)
        report.check("a new golden file has the mode of a new file", ran.returncode == 0 and mode == 0o640, oct(mode))


def bad_files(report):
    """Files that cannot be read or written: a line that says so, the status of the table, and nothing lost."""
    with Folder(session=CONFIGURATION, other=OLD) as folder:
        os.mkdir(folder.at("folder"))
        os.symlink("loop", folder.at("loop"))
        cases = [
            (["g", "session"], 4, "golden: g does not exist: --update makes it"),
            (["g", "none"], 4, "golden: read fault"),
            (["g", "folder"], 4, "golden: read fault"),
            (["folder", "session"], 4, "golden: folder: read fault"),
            (["--update", "folder", "session"], 4, "golden: folder: write fault"),
            (["--update", "none/g", "session"], 4, "golden: none/g: write fault"),
            (["--update", "/dev/null", "session"], 4, "golden: /dev/null: write fault"),
            (["--update", "loop", "session"], 4, "golden: loop: write fault"),
            (["--update", "session", "session"], 3, "golden: the golden file and the input are the same file: session"),
        ]
        for words, status, told in cases:
            answer = folder.run("golden", *words)
            report.check(f"golden {words}", answer == (status, b"", refusal(told)), repr(answer))
        report.check("nothing is lost", folder.names() == ["folder", "loop", "other", "session"] and folder.read("session") == CONFIGURATION)
        report.check("nothing is in the folder", os.listdir(folder.at("folder")) == [])
    full_disk(report)


def full_disk(report):
    """On a small file system that is full: the old golden file stays, and no temporary file."""
    with Folder(session=CONFIGURATION) as folder:
        os.mkdir(folder.at("disk"))
        mounted = subprocess.run(["mount", "-t", "tmpfs", "-o", "size=8k", "tmpfs", folder.at("disk")], capture_output=True)
        if mounted.returncode != 0:
            print("a full disk is not tried: no file system can be mounted here", flush=True)
            return
        try:
            folder.write("disk/g", OLD)
            with open(folder.at("disk/filler"), "wb") as file:
                file.write(b"x" * 4096)
            answer = folder.run("golden", "--update", "disk/g", "session")
            report.check("golden on a full disk", answer == (4, b"", refusal("golden: disk/g: write fault")), repr(answer))
            report.check("the golden file on the full disk is the old one", folder.read("disk/g") == OLD)
            report.check("no temporary file is on the full disk", sorted(os.listdir(folder.at("disk"))) == ["filler", "g"])
        finally:
            subprocess.run(["umount", folder.at("disk")], check=True)


def at_once(report):
    """Many updates at once: the file is that of one of them, whole."""
    others = [recording([*BEGUN, *[OUTPUT] * count]) for count in range(1, 9)]
    with Folder() as folder:
        texts = []
        for number, given in enumerate(others):
            folder.write(f"session{number}", given)
            folder.run("golden", "--update", f"g{number}", f"session{number}")
            texts.append(folder.read(f"g{number}"))
        report.check("the sessions differ", len(set(texts)) == len(texts) and None not in texts)
        running = [subprocess.Popen([PROGRAM, "golden", "--update", "g", f"session{number % 8}"], cwd=folder.path, stdout=subprocess.DEVNULL) for number in range(64)]
        whole = True
        while any(process.poll() is None for process in running):
            whole = whole and folder.read("g") in (None, *texts)
        report.check("updates at once end well", all(process.returncode == 0 for process in running))
        report.check("the golden file is whole at each moment", whole and folder.read("g") in texts)
        report.check("no temporary file is left by them", [name for name in folder.names() if name.startswith(".")] == [])


def ended_at(shim, number, how, **asked):
    """One update of an old golden file, ended at a system call, or with that call refused: what it left."""
    with Folder(session=CONFIGURATION, g=OLD) as place:
        words = ["dapnorm", "golden", "--update", "g", "session"]
        environment = {f"FAULT_INJECTION_{name.upper()}": str(value) for name, value in {how: number, **asked}.items()}
        ran = subprocess.run(words, executable=PROGRAM, capture_output=True, cwd=place.path, timeout=120, env={"LD_PRELOAD": shim, **environment})
        left = [name for name in place.names() if name not in ("g", "session")]
        return ran.returncode, ran.stdout, ran.stderr, place.read("g"), left


def killed(report):
    """The process is killed at each of its system calls, and each of its system calls fails; also if what is not synced is lost."""
    with tempfile.TemporaryDirectory() as folder:
        shim = build_shim(folder)
        for how, loses in (("KILLED_AT", 0), ("FAILS_AT", 0), ("KILLED_AT", 1), ("FAILS_AT", 1)):
            runs = side_by_side(lambda number, how=how, loses=loses: ended_at(shim, number, how, loses=loses), range(1, 60))
            told = f"{how}, loses {loses}"
            ended = [run for run in runs if run[0] != 0]
            report.check(f"{told}: some calls end the run", len(ended) > 8, repr(len(ended)))
            last = (0, b"wrote g (5 records)\n", b"", NORMAL, [])
            report.check(f"{told}: a last run meets no such call", runs[-1] == last, repr(runs[-1]))
            for number, (status, output, errors, content, left) in enumerate(runs, 1):
                report.check(f"{told} {number}: the golden file is the old or the new one", content in (OLD, NORMAL), repr(content))
                if how == "FAILS_AT":
                    is_told = left == [] or b"temporary" in errors
                    report.check(f"{told} {number}: no temporary file is left", is_told or loses == 1, repr((left, errors)))
                    is_new = content == NORMAL and output != b""
                    report.check(f"{told} {number}: the status says so", (status == 0) == is_new or status == 4, repr((status, errors)))
                if status == 0 and output:
                    report.check(f"{told} {number}: a run that ends well has written", content == NORMAL, repr(content))


def main():
    report = Report()
    if not report.check("the gate has built the program", os.access(PROGRAM, os.X_OK)):
        return report.close()
    for test in (sessions, per_stop, refusals, differences, rules, links_and_modes, bad_files, at_once, killed):
        test(report)
    return report.close()


if __name__ == "__main__":
    sys.exit(main())
