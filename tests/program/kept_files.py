"""Ways of calling the program that could lose a file or answer for another input: outputs that are inputs or open streams, standard streams that
are closed, files that are not golden files, folders that cannot be synced. Also what is reported of files, and in how many writes."""
import os
import shutil
import socket
import stat
import subprocess
import sys

from tests.program.asked import judged
from tests.program.golden import NORMAL, NOT_NORMAL, Folder, golden_refusal, trace_of
from tests.report import PROGRAM
from tests.program.worked_runs import BEGUN, CONFIGURED, LAUNCH, OUTPUT, recording, refusal

SESSION = recording(CONFIGURED)
RULES = b"blank event stopped body.reason\n"
TRACE = trace_of(CONFIGURED, 1 << 20)
READS_TERMINAL = b"dapnorm: reading the terminal: end the input with Ctrl-D, or name a file\n"
NO_FILE, BAD_DESCRIPTOR = "No such file or directory (os error 2)", "Bad file descriptor (os error 9)"


def shell(folder, command):
    """The status, the output and the errors of a command of the shell bash, in which `dapnorm` is the program."""
    text = f'dapnorm() {{ "{PROGRAM}" "$@"; }}; {command}'
    ran = subprocess.run(["bash", "-c", text], cwd=folder.path, capture_output=True, timeout=120, stdin=subprocess.DEVNULL)
    return ran.returncode, ran.stdout, ran.stderr


def told(line, *reasons):
    """The errors of a run: the line of the fault, and lines about it."""
    return refusal(line) + b"".join(f"  {it}\n".encode() for it in reasons)


def open_streams(report):
    """`-o` with the name of an open stream appends to the file to which the stream is redirected."""
    for name, redirected in (("/dev/stdout", ">>log"), ("/dev/stderr", "2>>log"), ("/dev/fd/1", ">>log"), ("/proc/self/fd/2", "2>>log"), ("link", ">>log")):
        with Folder(session=SESSION, log=b"kept\n") as folder:
            os.symlink("/dev/stdout", folder.at("link"))
            answer = shell(folder, f"dapnorm normalise session -o {name} {redirected}")
            report.check(f"-o {name} {redirected} keeps the file", answer == (0, b"", b"") and folder.read("log") == b"kept\n" + NORMAL, repr((answer, folder.read("log"))))
    with Folder(session=SESSION, log=b"kept\n") as folder:
        answer = shell(folder, "dapnorm normalise session -o /dev/fd/3 3>>log")
        reason = "/dev/fd/3: is an open file: redirect standard output to it, such as >&3"
        report.check("-o /dev/fd/3 of a file is refused", answer == (4, b"", told("/dev/fd/3: write fault", reason)), repr(answer))
        report.check("its file is kept", folder.read("log") == b"kept\n", repr(folder.read("log")))
        answer = shell(folder, "{ dapnorm normalise session -o /dev/fd/3 3>&1 | cat; }")
        report.check("-o /dev/fd/3 of a pipe", answer == (0, NORMAL, b""), repr(answer))
        answer = shell(folder, "dapnorm golden --update /dev/stdout session >>log")
        report.check("a golden file that is an open stream is refused", answer[0] == 4 and folder.read("log") == b"kept\n", repr(answer))


def other_files(report):
    """`golden --update` replaces no file that is neither empty nor a recording."""
    others = {
        "a trace": TRACE, "rules": RULES, "a program": b"#!/usr/bin/env python3\nprint('>')\n", "a document": b"<html>Content-Length: 3</html>\n",
        "a marker alone": b">", "half a name": b"<Content",
    }
    line = golden_refusal("g: not replaced, since it is not a golden file: remove it first")
    for name, content in others.items():
        with Folder(session=SESSION, g=content) as folder:
            answer = folder.run("golden", "--update", "g", "session")
            report.check(f"golden --update of {name}", answer == (2, b"", line) and folder.read("g") == content, repr(answer))
            report.check(f"no other file is left beside {name}", folder.names() == ["g", "session"], repr(folder.names()))
    for name, content in (("no bytes", b""), ("another recording", recording(BEGUN)), ("a damaged recording", b"<content-length: 7\r\n\r\n?\n"), ("a conflict", NORMAL[:200] + b"<<<<<<< HEAD\n")):
        with Folder(session=SESSION, g=content) as folder:
            answer = folder.run("golden", "--update", "g", "session")
            report.check(f"golden --update replaces {name}", answer == (0, b"wrote g (5 records)\n", b"") and folder.read("g") == NORMAL, repr(answer))
    with Folder(session=TRACE, g=NORMAL) as folder:
        answer = folder.run("golden", "--update", "session", "g")
        report.check("arguments in the other order lose no trace", answer[0] == 2 and folder.read("session") == TRACE, repr(answer))


def outputs_that_are_inputs(report):
    same = "the golden file and the {} are the same file: {}"
    with Folder(g=SESSION, rules=RULES) as folder:
        os.symlink("g", folder.at("link"))
        os.link(folder.at("g"), folder.at("hard"))
        cases = [
            ("dapnorm golden --update g <g", f"golden: {same.format('input', 'g')}"), ("dapnorm golden --update g - <g", f"golden: {same.format('input', 'g')}"),
            ("dapnorm golden --update link <g", f"golden: {same.format('input', 'link')}"), ("dapnorm golden --update hard g", f"golden: {same.format('input', 'hard')}"),
            ("dapnorm golden --rules rules --update rules g", f"golden: {same.format('rules file', 'rules')}"),
            ("dapnorm golden --rules rules --update ./rules <g", f"golden: {same.format('rules file', './rules')}"),
            ("dapnorm mask rules g -o rules", "the output and the rules file are the same file: rules"),
            ("dapnorm order rules g -o ./rules", "the output and the rules file are the same file: rules"),
            ("dapnorm mask --word a=b rules g -o rules", "the output and the rules file are the same file: rules"),
            ("dapnorm name rules g -o rules", "the output and the rules file are the same file: rules"),
        ]
        for command, line in cases:
            answer = shell(folder, command)
            report.check(f"{command} is refused", answer == (3, b"", refusal(line)), repr(answer))
            report.check(f"{command} loses nothing", (folder.read("g"), folder.read("rules")) == (SESSION, RULES))


def closed_streams(report):
    """A file never gets the number of a standard stream that is closed, so no command reads it in place of standard input."""
    with Folder(empty=b"", session=SESSION, rules=RULES, g=NORMAL) as folder:
        reason = f"standard input: {BAD_DESCRIPTOR}"
        for command, line in [
            ("compare empty -", "B: read fault"), ("compare - empty", "A: read fault"), ("diff empty -", "B: read fault"), ("diff --all empty -", "B: read fault"),
            ("suggest empty -", "B: read fault"), ("compare --rules rules session -", "B: read fault"), ("golden g -", "golden: read fault"),
            ("golden --rules rules g", "golden: read fault"), ("golden --update g", "golden: read fault"), ("mask rules", "read fault"), ("name rules", "read fault"), ("check", "read fault"),
        ]:
            answer = shell(folder, f"dapnorm {command} <&-")
            report.check(f"{command} <&-", answer == (4, b"", told(line, reason)), repr(answer))
        for closed in (">&-", "<&- >&-", ">&- 2>&-", "<&- >&- 2>&-", "2>&-", "<&- 2>&-"):
            status, output, _ = shell(folder, f"dapnorm normalise session {closed}")
            wanted = (0, NORMAL) if ">&-" not in closed.replace("2>&-", "") else (4, b"")
            report.check(f"normalise {closed}", (status, output) == wanted, repr((status, output)))
            report.check(f"normalise {closed} changes no file", (folder.read("session"), folder.names()) == (SESSION, ["empty", "g", "rules", "session"]))
            status, _, _ = shell(folder, f"dapnorm normalise session -o out {closed}")
            report.check(f"normalise -o out {closed}", status == 0 and folder.read("out") == NORMAL, repr(status))
            os.unlink(folder.at("out"))


def golden_files_that_are_read(report):
    """A golden file that is only compared may be a pipe."""
    with Folder(session=SESSION, g=NORMAL, loose=SESSION) as folder:
        report.check("golden of a pipe", shell(folder, "dapnorm golden <(cat g) session") == (0, b"same\n", b""))
        report.check("golden of two pipes", shell(folder, "dapnorm golden <(cat g) <(cat session)") == (0, b"same\n", b""))
        report.check("golden of standard input", shell(folder, "cat g | dapnorm golden /dev/stdin session") == (0, b"same\n", b""))
        report.check("golden of another pipe", shell(folder, "dapnorm golden <(cat loose) session") == (1, NOT_NORMAL, b""))


def reasons(report):
    """Each command names a file that it cannot read with the reason, and a trace that it cannot use."""
    with Folder(session=SESSION, rules=RULES, bad=b"blank event\n", trace=TRACE, g=NORMAL) as folder:
        os.mkdir(folder.at("folder"))
        none, is_folder = f"none: {NO_FILE}", "folder: Is a directory (os error 21)"
        for command, status, line, *words in [
            ("compare none session", 4, "A: read fault", none), ("compare session none", 4, "B: read fault", none), ("diff none session", 4, "A: read fault", none),
            ("diff --all session folder", 4, "B: read fault", is_folder), ("suggest session none", 4, "B: read fault", none), ("check folder", 4, "read fault", is_folder),
            ("mask none session", 4, "rules: read fault", none), ("mask rules none", 4, "read fault", none), ("mask folder session", 4, "rules: read fault", "folder: is a directory"),
            ("compare --rules none session session", 4, "rules: read fault", none), ("suggest --rules none session session", 4, "rules: read fault", none),
            ("compare --rules rules session none", 4, "B: read fault", none), ("compare --word a=b --rules none session session", 4, "rules: read fault", none),
            ("golden --rules none g session", 4, "rules: read fault", none), ("golden g none", 4, "golden: read fault", none), ("order none session", 4, "rules: read fault", none),
            ("name none session", 4, "rules: read fault", none), ("name rules none", 4, "read fault", none),
            ("mask bad session", 2, "rules: line 1: BadRule", "line 1 is: blank event", "after the kind comes a command or an event, or * for any"),
            ("compare --rules bad session session", 2, "rules: line 1: BadRule", "line 1 is: blank event", "after the kind comes a command or an event, or * for any"),
            ("suggest --rules bad session session", 2, "rules: line 1: BadRule", "line 1 is: blank event", "after the kind comes a command or an event, or * for any"),
        ]:
            answer = shell(folder, f"dapnorm {command}")
            report.check(f"{command}: the reason", answer == (status, b"", told(line, *words)), repr(answer))
        for command, line, named in [
            ("check trace", "record 1: HeaderLine", "trace"), ("check <trace", "record 1: HeaderLine", "standard input"), ("show trace", "record 1: HeaderLine", "trace"),
            ("normalise trace -o out", "record 1: HeaderLine", "trace"), ("mask rules trace", "record 1: HeaderLine", "trace"), ("name rules trace", "record 1: HeaderLine", "trace"), ("compare session trace", "B: record 1: HeaderLine", "trace"),
            ("diff trace session", "A: record 1: HeaderLine", "trace"), ("diff --all trace session", "A: record 1: HeaderLine", "trace"),
            ("suggest session trace", "B: record 1: HeaderLine", "trace"), ("compare --rules rules trace session", "A: record 1: HeaderLine", "trace"),
        ]:
            answer = shell(folder, f"dapnorm {command}")
            words = f"{named}: this looks like a trace: dapnorm record makes a recording of it"
            report.check(f"{command}: a trace is named", answer == (2, b"", told(line, words)), repr(answer))
            status, _, errors = shell(folder, f"DAPNORM_EXPLAIN=1 dapnorm {command}")
            report.check(f"{command}: once, if explanations are requested", status == 2 and errors.count(b"looks like a trace: ") == 1, repr(errors))


def written_at_once(report):
    """Each line on standard error is one write, and the lines of a comparison are written together."""
    def writes(words, stream, folder):
        reads, end = socket.socketpair(socket.AF_UNIX, socket.SOCK_SEQPACKET)
        reads.settimeout(60)
        others = {name: subprocess.DEVNULL for name in ("stdin", "stdout", "stderr") if name != stream}
        with end:
            process = subprocess.Popen([PROGRAM, *words], cwd=folder.path, **{stream: end}, **others)
        with reads, process:
            return list(iter(lambda: reads.recv(1 << 20), b""))

    many = recording([*BEGUN, *[OUTPUT.replace('"seq":1', f'"seq":{number}') for number in range(10, 2010)]])
    with Folder(session=SESSION, many=many, trace=TRACE, bad=b"blank event\n") as folder:
        for words in (["check", "none"], ["compare", "session", "none"], ["golden", "g", "session"], ["golden", "g", "none"], ["normalise", "session", "-o", "none/x"], ["mask", "bad", "session"], ["check", "trace"]):
            found = writes(words, "stderr", folder)
            report.check(f"{' '.join(words)}: each line is one write", found != [] and all(it.endswith(b"\n") for it in found), repr(found))
        found = writes(["compare", "many", "many"], "stdout", folder)
        report.check("compare writes its pairs together", len(b"".join(found).splitlines()) > 1990 and len(found) < 20, repr(len(found)))


def shown_names(report):
    """No control character of a file name reaches a terminal, and long names are written."""
    name, shown = "a\x1b[31mb\u009bc", rb"a\u001b[31mb\u009bc"
    with Folder(session=SESSION, **{name: SESSION}) as folder:
        answer = folder.run("golden", "--update", f"g{name}", "session")
        report.check("a golden file whose name has control characters", answer == (0, b"wrote g%s (5 records)\n" % shown, b"") and folder.read(f"g{name}") == NORMAL, repr(answer))
        for words in (["check", f"none{name}"], ["golden", f"none{name}", name], ["normalise", name, "-o", f"none/{name}"], ["golden", "--update", name, name]):
            ran = subprocess.run([PROGRAM, *words], cwd=folder.path, capture_output=True)
            held = b"\x1b" not in ran.stdout + ran.stderr and "\u009b".encode() not in ran.stdout + ran.stderr and shown in ran.stderr
            report.check(f"{words[0]} shows them as escapes", ran.returncode != 0 and held, repr(ran.stderr))
        for length in (229, 230, 255):
            long = "n" * length
            report.check(f"a name of {length} bytes", folder.run("normalise", "session", "-o", long) == (0, b"", b"") and folder.read(long) == NORMAL)
        report.check("no temporary file is left", not [it for it in folder.names() if it.startswith(".")])


def owners(report):
    """A file keeps its owner and its group. If the process may not set the group, nobody gets permissions by the new one."""
    if os.geteuid() != 0:
        print("owners are not tried: this is not the user root", flush=True)
        return
    with Folder(session=SESSION, g=recording(BEGUN)) as folder:
        os.chown(folder.at("g"), 1234, 2345)
        os.chmod(folder.at("g"), 0o664)
        answer = folder.run("golden", "--update", "g", "session")
        found = os.stat(folder.at("g"))
        kept = (found.st_uid, found.st_gid, stat.S_IMODE(found.st_mode)) == (1234, 2345, 0o664)
        report.check("root keeps the owner and the group of a file", answer[0] == 0 and kept and folder.read("g") == NORMAL, repr((answer, found)))
    with Folder(session=SESSION, g=recording(BEGUN)) as folder:
        os.chmod(folder.path, 0o777)
        os.chmod(folder.at("session"), 0o644)
        for gid, groups, wanted in ((2345, [], 0o604), (2345, [2345], 0o664)):
            folder.write("g", recording(BEGUN))
            os.chown(folder.at("g"), 1234, gid)
            os.chmod(folder.at("g"), 0o664)
            program = shutil.copy(PROGRAM, folder.at("program"))
            ran = subprocess.run([program, "golden", "--update", "g", "session"], cwd=folder.path, capture_output=True, user=1235, group=1235, extra_groups=groups)
            found = os.stat(folder.at("g"))
            mode = stat.S_IMODE(found.st_mode)
            report.check(f"another user, in the groups {groups}", ran.returncode == 0 and mode == wanted and found.st_uid == 1235, repr((ran.stderr, oct(mode), found)))
            report.check(f"the group, in the groups {groups}", found.st_gid == (gid if groups else 1235), repr(found.st_gid))


def folders_that_cannot_be_synced(report):
    """A folder that may be written and not read cannot be synced: the file has the new text, and a line says so."""
    if os.geteuid() != 0:
        print("folders that cannot be synced are not tried: this is not the user root", flush=True)
        return
    for words, line in ((["golden", "--update", "closed/g", "session"], "golden: closed/g: replaced, but not synced"), (["normalise", "session", "-o", "closed/g"], "closed/g: replaced, but not synced")):
        with Folder(session=SESSION) as folder:
            os.mkdir(folder.at("closed"))
            folder.write("closed/g", recording(BEGUN))
            os.chmod(folder.at("closed/g"), 0o666)
            os.chmod(folder.at("closed"), 0o333)
            os.chmod(folder.path, 0o755)
            program = shutil.copy(PROGRAM, folder.at("program"))
            ran = subprocess.run([program, *words], cwd=folder.path, capture_output=True, user=1235, group=1235, extra_groups=[])
            answer = (ran.returncode, ran.stdout, ran.stderr)
            reason = "closed/g: Permission denied (os error 13)"
            report.check(f"{words}: a folder that cannot be synced", answer == (4, b"", told(line, reason)), repr(answer))
            report.check(f"{words}: the file has the new text", folder.read("closed/g") == NORMAL)


def names(report):
    """What a name leads to: an empty one to no file, and that of a pipe to the pipe. A long golden file is read to its end."""
    with Folder(session=SESSION) as folder:
        for command, line in (("check ''", "read fault"), ("compare '' session", "A: read fault"), ("mask '' session", "rules: read fault"), ("golden '' session", "golden:  does not exist: --update makes it")):
            status, output, errors = shell(folder, f"dapnorm {command} <session")
            report.check(f"{command}: an empty name", (status, output) == (4, b"") and errors.startswith(refusal(line)), repr(errors))
        os.mkfifo(folder.at("pipe"))
        answer = shell(folder, "cat pipe & dapnorm normalise session -o pipe; wait")
        report.check("-o writes to a pipe with a name", answer == (0, NORMAL, b"") and stat.S_ISFIFO(os.stat(folder.at("pipe")).st_mode), repr(answer))
        long = [OUTPUT.replace("hi", "hi" * 10_000)] * 60
        folder.write("long", recording([*BEGUN, *long]))
        folder.write("changed", recording([*BEGUN, *long[1:], OUTPUT]))
        report.check("a golden file of megabytes is made", folder.run("golden", "--update", "g", "long")[0] == 0 and os.stat(folder.at("g")).st_size > 1 << 20)
        report.check("it is compared to its end", folder.run("golden", "g", "long") == (0, b"same\n", b""))
        status, output, errors = folder.run("golden", "g", "changed")
        report.check("also in its last record", (status, errors) == (1, b"") and output.startswith(b"differ 62\n"), repr((status, output[:80], errors)))


def words_and_explanations(report):
    """`--word` counts for an output that is saved, and only some values of DAPNORM_EXPLAIN ask for explanations."""
    path = LAUNCH % '"/home/me/project"'
    with Folder(session=recording([*BEGUN, path]), rules=b"# none\n", bad=recording([*BEGUN, LAUNCH % "0.5"])) as folder:
        answer = folder.run("mask", "--word", "/home/me=<home>", "rules", "session", "-o", "out")
        report.check("mask --word with -o", answer == (0, b"", b"") and folder.read("out") == recording([*BEGUN, LAUNCH % '"<home>/project"']), repr((answer, folder.read("out"))))
        report.check("mask --word keeps the rules file", folder.run("mask", "--word", "/home/me=<home>", "none", "session", "-o", "out")[0] == 4)
        for value, lines in (("", 1), ("0", 1), ("1", 3), ("no", 3)):
            ran = subprocess.run([PROGRAM, "check", "bad"], cwd=folder.path, capture_output=True, env={"DAPNORM_EXPLAIN": value})
            report.check(f"DAPNORM_EXPLAIN={value}", ran.returncode == 2 and (ran.stderr.count(b"\n") > 1) == (lines > 1), repr(ran.stderr))


def a_terminal(report):
    """A command that reads a terminal says so, unless the input is named."""
    for words, is_told in ((["check"], True), (["golden", "g"], True), (["check", "-"], False), (["rows", "1"], False), (["check", "/dev/null"], False)):
        master, terminal = os.openpty()
        with Folder() as folder, subprocess.Popen([PROGRAM, *words], cwd=folder.path, stdin=terminal, stdout=subprocess.PIPE, stderr=subprocess.PIPE) as process:
            os.close(terminal)
            os.write(master, b"\x04")
            _, errors = process.communicate(timeout=60)
            os.close(master)
        report.check(f"{' '.join(words)} of a terminal", errors.startswith(READS_TERMINAL) == is_told, repr(errors))


if __name__ == "__main__":
    sys.exit(judged(
        open_streams, other_files, outputs_that_are_inputs, closed_streams, golden_files_that_are_read, reasons, written_at_once, shown_names, owners,
        folders_that_cannot_be_synced, names, words_and_explanations, a_terminal,
    ))
